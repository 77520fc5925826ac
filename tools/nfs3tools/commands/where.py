"""Prints which frames of a recording carry a position of its capture.

    tools/where RECORDING 'connection 1 server record 7 byte 24'
    tools/where RECORDING 'frame 12'
    nfs3canon check CAPTURE 2>&1 | tools/where RECORDING

The manual page, tools/man/where.1, has the rest.

The status is 0, 1 if the capture has no such position or the frame carries no record, 2 if
POSITION or RECORDING is refused, 3 if a file or memory failed.
"""
from __future__ import annotations


from ..recordings.carried import places_at
from ..recordings.taken import NotTaken, take
from ..reporting.frames import place_lines
from ..reporting.messages import (
    ABSENT, add_options, command_of, ended, options_of, parser_of, position_text)
from ..shared.places import NoPlace, parse_place
from ..shared.printed import escaped


def main(words: list[str]) -> int:
    parser = parser_of(__doc__, 'where')
    parser.add_argument('recording', metavar='RECORDING')
    parser.add_argument('place', metavar='POSITION', nargs='?')
    add_options(parser)
    chosen = parser.parse_args(words)
    place = parse_place(position_text(chosen.place, chosen.recording, 'the recording'))
    with take(chosen.recording, options_of(chosen)) as taken:
        if not taken.is_recording:
            raise NotTaken(f'{escaped(chosen.recording)} is a capture, which has no frames')
        try:
            found = [(one, taken.frames(one)) for one in places_at(taken, place)]
        except NoPlace as absent:
            return ended('where', str(absent), ABSENT)
        for one, frames in found:
            print('\n'.join(place_lines(taken, one, frames)))
    return 0


command = command_of(__name__, 'where', main)
