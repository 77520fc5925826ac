"""Cuts an exchange out of a recording or a capture, for a bug report or a test.

    tools/cut [--origins] RECORDING|CAPTURE 'connection 1 server record 7 byte 24' OUT
    tools/cut [--origins] RECORDING 'frame 12' OUT.pcap

The manual page, tools/man/cut.1, has the rest.

The status is 0 if OUT was written, 1 if there is no such position, or if a record cannot be read in
OUT.pcap or a frame not be trimmed, 2 if POSITION, RECORDING or OUT is refused or a program is
missing, 3 if a file, a program or memory failed.
"""
from __future__ import annotations

import argparse
import os
import tempfile
from collections import defaultdict
from collections.abc import Iterable, Iterator, Mapping
from typing import NamedTuple

from ..comparison.exchanges.outlines import Outlines
from ..comparison.verdict.trial import when_of
from ..judgement.verdict import Verdict, sums_of
from ..recordings.carried import places_at
from ..recordings.container import capture_of
from ..recordings.extract import pcap_of
from ..recordings.parts import files_of
from ..recordings.reading import Frame
from ..recordings.records import Extent, Window, body_of, xids
from ..recordings.selection import Options, plural
from ..recordings.trimmed import trimmed
from ..recordings.taken import NotTaken, Taken, TakenConnection, TakenStream, take
from ..reporting.messages import (
    ABSENT, add_options, add_program, command_of, ended, options_of, parser_of)
from ..shared.outputs import CAPTURE, Refused, held, printed_beside, try_outputs, write_file
from ..shared.places import SIDES, FilePlace, FramePlace, NoPlace, Place, Side, parse_place
from ..shared.printed import escaped, printable
from ..shared.programs import CHECKED, lines_of_program, program_path, run_program
from .verdicts import Judge

PCAP_ENDING, PCAPNG_ENDING = '.pcap', '.pcapng'
HEAD_TO_MTYPE = 8  # bytes: the xid and mtype, without which a record has no xid


class WantedRecords(NamedTuple):
    """What is wanted of a connection: records with some xids, and records of a side without one."""
    xids: set[int]
    without: set[tuple[Side, int]]


class Cut(NamedTuple):
    """What is cut out of a connection: the records of both sides by their numbers there."""
    connection: TakenConnection
    records: dict[Side, dict[int, Extent]]

    def streams(self) -> tuple[TakenStream, TakenStream]:
        client, server = (self.connection.stream(side).part(
            extent[:2] for extent in self.records[side].values()) for side in SIDES)
        return client, server


def wanted_at(taken: Taken, places: Iterable[Place]) -> dict[int, WantedRecords]:
    """Returns what is wanted for the records at some places, by connections. Raises `NoPlace`."""
    wanted = defaultdict[int, WantedRecords](lambda: WantedRecords(set(), set()))
    for place in places:
        stream, extent = taken.record_at(place)
        head = body_of(Window(stream), extent, HEAD_TO_MTYPE)
        if len(head) < HEAD_TO_MTYPE:
            wanted[place.connection].without.add((place.side, place.record))
        else:
            wanted[place.connection].xids.add(int.from_bytes(head[:4], 'big'))
    return wanted


def cut_of(connection: TakenConnection, wanted: WantedRecords) -> Cut:
    return Cut(connection, {side: {
        number: extent for stream in [connection.stream(side)]
        for number, (extent, xid, _) in enumerate(xids(Window(stream), 0, stream.size), 1)
        if xid in wanted.xids or (side, number) in wanted.without} for side in SIDES})


def origins_of(program: str, taken: Taken, places: Iterable[Place], name: str) -> list[Place]:
    """Returns the calls that gave the handles at some places. Raises `NotTaken` if refused."""
    with held():
        folder = tempfile.TemporaryDirectory(prefix='nfs3canon')
    with folder:
        capture, form = (os.path.join(folder.name, file) for file in ('capture', 'form'))
        taken.write_capture(capture)
        answer = run_program(program, ['canon', capture, form], CHECKED)
        if answer.status:
            raise NotTaken(f'{escaped(name)} is refused, so the origins of its handles are not '
                           f'known: {answer.error.strip()}')
        outlines = Outlines(lines_of_program(program, ['show', form]), {}, when_of(taken))
    turns = [outlines.exchange_of(place.connection, place.side == 'client', place.record)
             for place in places]
    records = map(outlines.record_of, outlines.with_origins(turns))
    return [Place(connection, 'client', record) for connection, record in records]


def cuts_at(program: str, taken: Taken, place: Place | FramePlace, has_origins: bool,
            name: str) -> list[Cut]:
    """Returns what is cut out for a place. Raises `NoPlace`, and what `origins_of` does."""
    places = [one for one in places_at(taken, place) if isinstance(one, Place)]
    wanted = wanted_at(taken, places)
    if has_origins:
        wanted = wanted_at(taken, [*places, *origins_of(program, taken, places, name)])
    return [cut_of(taken.connections[number - 1], wanted[number]) for number in sorted(wanted)]


def command_line_of_cut(words: list[str]) -> argparse.Namespace:
    parser = parser_of(__doc__, 'cut')
    parser.add_argument('recording', metavar='RECORDING|CAPTURE')
    parser.add_argument('place', metavar='POSITION')
    parser.add_argument('out', metavar='OUT')
    parser.add_argument('--origins', action='store_true',
                        help='takes the exchanges too that gave the file handles')
    add_program(parser)
    add_options(parser)
    return parser.parse_args(words)


def main(words: list[str]) -> int:
    chosen = command_line_of_cut(words)
    place, inputs = parse_place(chosen.place), files_of(chosen.recording)
    is_pcap = chosen.out.endswith(PCAP_ENDING)
    if isinstance(place, FilePlace):
        raise NoPlace(f'no record: {place}')
    if chosen.out.endswith(PCAPNG_ENDING):
        raise Refused(f'{escaped(chosen.out)}: OUT may be a {PCAP_ENDING}, and no {PCAPNG_ENDING}')
    try_outputs([chosen.out], inputs, () if is_pcap else (CAPTURE,))
    program = program_path(chosen.program)
    with take(chosen.recording, options_of(chosen)) as taken:
        if not taken.is_recording and (is_pcap or isinstance(place, FramePlace)):
            raise NotTaken(f'{escaped(chosen.recording)} is a capture, which has no frames')
        try:
            cuts = cuts_at(program, taken, place, chosen.origins, chosen.recording)
        except NoPlace as absent:
            return ended('cut', str(absent), ABSENT)
        write = write_recording if is_pcap else write_cuts
        lines, status = write(program, taken, cuts, chosen.out, inputs)
    with printed_beside([chosen.out]):
        print('\n'.join(lines))
    return status


def write_cuts(program: str, taken: Taken, cuts: list[Cut], out: str,
               inputs: list[str]) -> tuple[list[str], int]:
    """Writes OUT as a capture, and returns what is printed of it, and the status."""
    pairs = [cut.streams() for cut in cuts]
    answer = run_program(program, ['check', '/dev/stdin'], CHECKED, capture_of(pairs))
    write_file(out, capture_of(pairs), inputs, (CAPTURE,))
    places = ((Place(number, side, record), Place(cut.connection.number, side, old))
              for number, cut in enumerate(cuts, 1)
              for side in SIDES for record, old in enumerate(cut.records[side], 1))
    return [*(record_line(taken, *both) for both in places),
            (answer.out or answer.error).strip()], 0


class Extract(NamedTuple):
    """A recording of some frames, and where it has the records of a cut: those there with their
    places here, if they can be read. Frames that are not trimmed have their numbers here."""
    content: bytes
    verdicts: list[Verdict]
    found: list[tuple[Place | None, Place]]
    untrimmed: list[int]


def write_recording(program: str, taken: Taken, cuts: list[Cut], out: str,
                    inputs: list[str]) -> tuple[list[str], int]:
    """Writes OUT as a recording, and returns what is printed of it, and the status."""
    records = [Place(cut.connection.number, side, record) for cut in cuts for side in SIDES
               for record in cut.records[side]]
    frames = {frame.number for place in records for frame in taken.frames(place)}
    opening = {number for cut in cuts for number in cut.connection.opened_by}
    some = trimmed(frames_of(taken, frames | opening), bytes_by_frame(taken, records))
    extract = extract_of(program, *some, cuts, out)
    write_file(out, [extract.content], inputs)
    lines = [record_line(taken, there, here) for there, here in extract.found]
    lines += [f'connection {verdict.connection}: {verdict.message}'
              for verdict in extract.verdicts if verdict.connection is not None]
    lines += [f'frame {number} cannot be trimmed to these records, and a dissector may not find '
              'them' for number in extract.untrimmed]
    lacks = any(there is None for there, _ in extract.found)
    status = ABSENT if extract.untrimmed or lacks else 0
    return [*map(printable, lines), sums_of(extract.verdicts)], status


def frames_of(taken: Taken, numbers: Iterable[int]) -> list[Frame]:
    """Returns frames of a recording by their numbers."""
    return [taken.read.frame(number) for number in sorted(numbers)] if taken.read else []


def bytes_by_frame(taken: Taken, records: Iterable[Place]) -> Mapping[int, list[tuple[int, int]]]:
    """Returns what is wanted of the payload of each frame: bytes by their sequence numbers."""
    wanted = defaultdict[int, list[tuple[int, int]]](list)
    for place in records:
        stream, extent = taken.record_at(place)
        pieces = list(stream.sequences(extent.begin, extent.end))
        for frame in taken.frames(place):
            wanted[frame.number] += pieces
    return wanted


def extract_of(program: str, frames: list[Frame], untrimmed: list[int], cuts: list[Cut],
               name: str) -> Extract:
    """Makes a recording of some frames, and reads it again."""
    content = b''.join(pcap_of(frames))
    with tempfile.NamedTemporaryFile(prefix='nfs3canon') as copy:
        copy.write(content)
        copy.flush()
        with take(copy.name, shows_progress=False) as there:
            verdicts = Judge(program, Options(), 1, False).of_taken(name, there)
            found = [pair for cut in cuts for pair in places_in(there, cut)]
    return Extract(content, verdicts, found, untrimmed)


def places_in(extract: Taken, cut: Cut) -> Iterator[tuple[Place | None, Place]]:
    """Iterates over the records of a cut, each with its place in an extract, if it is there."""
    ends = cut.connection.client_end, cut.connection.server_end
    same = [one for one in extract.connections if (one.client_end, one.server_end) == ends]
    for side in SIDES:
        bodies = [(Place(one.number, side, record.number), record.body) for one in same
                  for record in one.stream(side).records()]
        stream = cut.connection.stream(side)
        for record, extent in cut.records[side].items():
            body = body_of(Window(stream), extent)
            at = next((at for at, (_, other) in enumerate(bodies) if other == body), None)
            there = None if at is None else bodies.pop(at)[0]
            yield there, Place(cut.connection.number, side, record)


def record_line(taken: Taken, place: Place | None, old: Place) -> str:
    """The line of a record, which says where it was."""
    frames = [str(frame.number) for frame in taken.frames(old)]
    told = f' ({plural(len(frames), "frame", "frames")} {", ".join(frames)})' if frames else ''
    return f'{place.brief if place else "it cannot be read there,"} was {old.brief}{told}'


command = command_of(__name__, 'cut', main)
