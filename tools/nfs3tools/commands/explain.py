"""Shows what is at a position of a capture or of a recording.

    tools/explain FILE 'connection 1 server record 1 byte 24'
    tools/explain FILE 'frame 12'
    nfs3canon check FILE 2>&1 | tools/explain FILE

The manual page, tools/man/explain.1, has the rest.

The status is 0, 1 if there is no such position or the frame carries no record, 2 if POSITION or
FILE is refused, 3 if a file or memory failed.
"""
from __future__ import annotations


from ..captures.explained import reason_in_words, tell_record
from ..captures.located import Within, located
from ..recordings.carried import places_at
from ..recordings.taken import NotTaken
from ..reporting.frames import place_lines
from ..reporting.messages import (
    ABSENT, add_options, command_of, ended, options_of, parser_of, position_text)
from ..shared.names import as_called
from ..shared.places import FilePlace, FramePlace, NoPlace, Place, parse_fault, parse_place
from ..shared.printed import escaped

AID = 'A reader\'s aid, and no part of what is proved.'


def explain_record(within: Within, place: Place, reason: str | None) -> None:
    found = within.record(place)
    if within.taken and found.frames:
        print('\n'.join(place_lines(within.taken, place, found.frames)))
    tell_record(found, place, reason, print)


def of_container(place: FilePlace, reason: str | None) -> str:
    meant = f'{reason_in_words(reason)}; ' if reason else ''
    advice = as_called('`tools/from_pcap` makes one of a recording, and ')
    return (f'{place} is no byte of a record: {meant}{advice if reason == "BadMagic" else ""}'
            'docs/FORMATS.md has the layout of captures')


def main(command_line: list[str]) -> int:
    parser = parser_of(__doc__, 'explain')
    parser.add_argument('file', metavar='FILE')
    parser.add_argument('place', metavar='POSITION', nargs='?')
    add_options(parser)
    words = parser.parse_args(command_line)
    text = position_text(words.place, words.file, 'FILE')
    place, fault = parse_place(text), parse_fault(text)
    reason = fault.reason if fault else None
    if isinstance(place, FilePlace):
        raise NotTaken(of_container(place, reason))
    try:
        with located(words.file, options_of(words)) as within:
            if isinstance(place, FramePlace) and within.taken is None:
                raise NotTaken(f'{escaped(words.file)} is a capture, which has no frames')
            for one in places_at(within.taken, place) if within.taken else (place,):
                if isinstance(one, Place):
                    explain_record(within, one, reason)
    except NoPlace as absent:
        return ended('explain', str(absent), ABSENT)
    print(AID)
    return 0


command = command_of(__name__, 'explain', main)
