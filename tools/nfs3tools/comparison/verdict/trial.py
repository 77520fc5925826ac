"""Both runs as captures in a folder, and what the programs say of them."""
from __future__ import annotations

import os
import tempfile
from collections.abc import Callable, Iterable, Mapping, Sequence
from functools import partial
from itertools import chain
from pathlib import Path
from typing import Optional

from ...recordings.taken import Taken
from ...shared.outputs import write_temporary
from ...shared.places import AnyPlace, Place, parse_place
from ...shared.programs import (
    CHECKED, COMPARED, MASKED, lines_of_program, program_beside, run_program, run_side_by_side)
from ...shared.progress import Progress
from ..exchanges.outlines import Outlines, When
from ..exchanges.pairing import InOrder, Listing, Pairing, paired, repeats_of
from ..exchanges.reordered import write_in_order
from ..values.classes import CLASSES_BY_NAME, Mask, mask_text

SMALL = 1 << 18  # bytes of a capture whose lines are kept
RUN_LETTERS = 'ab'  # begin the names of captures


def when_of(taken: Taken) -> When | None:
    """Returns what gives the first frame of a call, if frames are noted."""
    def when(connection: int, record: int) -> int:
        return min((frame.number for frame in taken.frames(Place(connection, 'client', record))),
                   default=0)
    return when if taken.is_recording else None


class Trial:
    """Two runs, written as captures. What is made of them is written beside them, once."""

    def __init__(self, program: str, folder: Path, runs: Sequence[Taken],
                 progress: Progress = Progress(False)) -> None:
        self.program, self.folder, self.runs, self.number = program, folder, runs, 0
        self.progress = progress
        self.made = dict[tuple[str, ...], list[str]]()  # by how it was made, and of which captures
        self.said = dict[tuple[str, str], Optional[AnyPlace]]()  # where two differ
        self.few = dict[str, list[str]]()  # the lines of small captures, which are listed once
        self.captures = self.named()
        for taken, capture in zip(runs, self.captures):
            write_temporary(capture, taken.capture())

    def with_second(self, second: Taken) -> 'Trial':
        folder = Path(tempfile.mkdtemp(dir=self.folder))
        return Trial(self.program, folder, [self.runs[0], second], self.progress)

    def named(self) -> list[str]:
        self.number += 1
        return [str(self.folder / f'{letter}{self.number}') for letter in RUN_LETTERS]

    def made_of(self, captures: Sequence[str], how: str, what: str,
                command: Callable[[str, str], list[str]],
                statuses: Mapping[int, str]) -> list[str]:
        """Returns the names of what a program makes of two captures in one way."""
        key = how, *captures
        if key not in self.made:
            self.progress.begin(what)
            self.made[key] = self.named()
            run_side_by_side([command(*one) for one in zip(captures, self.made[key])], statuses)
        return self.made[key]

    def masked(self, captures: Sequence[str], mask: Mask) -> list[str]:
        """Returns the names of well-formed captures with masked values."""
        program = program_beside(self.program, 'nfs3mask')
        words = [f'{one}={mask[one].value if one in mask else "keep"}' for one in CLASSES_BY_NAME]
        return self.made_of(captures, mask_text(mask), 'masking values',
                            lambda capture, name: [program, capture, name, *words], MASKED)

    def difference(self, captures: Sequence[str], mask: Mask) -> AnyPlace | None:
        """Returns where the program says that captures differ, if they do."""
        masked = self.masked(captures, mask)
        key = masked[0], masked[1]
        if key not in self.said:
            self.progress.begin('comparing both runs')
            answer = run_program(self.program, ['same', *masked], COMPARED)
            self.said[key] = parse_place(answer.out) if answer.status else None
        return self.said[key]

    def listing(self, run: int, capture: str) -> Listing:
        """Returns the lines of a capture of a run, 0 or 1, whose connections have its numbers."""
        return partial(self.lines, capture, self.runs[run])

    def lines(self, capture: str, taken: Taken) -> Iterable[str]:
        lines: Iterable[str] = self.few.get(capture, ())
        if not lines:
            lines = lines_of_program(self.program, ['show', capture])
            if os.path.getsize(capture) <= SMALL:
                lines = self.few[capture] = list(lines)
            else:
                lines = self.progress.lines('reading the calls', lines, taken.count_records)
        numbers = [connection.number for connection in taken.connections]
        if numbers == list(range(1, len(numbers) + 1)):
            return lines
        parts = (line.partition(' ') for line in lines)
        return (f'{numbers[int(number) - 1]} {rest}' for number, _, rest in parts)

    def placed(self, place: AnyPlace | None) -> str:
        """Returns where both captures differ, if they do, with the number that the connection has
        in the first run, or else in the second."""
        if not isinstance(place, Place):
            return str(place or '')
        numbers = [taken.connections[place.connection - 1].number for taken in self.runs
                   if place.connection <= len(taken.connections)]
        return str(place._replace(connection=numbers[0]) if numbers else place)

    def canonical(self, captures: Sequence[str],
                  mask: Mask | None = None) -> tuple[Listing, Listing]:
        """Returns the listings of two captures in canonical form, under a mask if there is one."""
        masked = captures if mask is None else self.masked(captures, mask)
        first, second = self.made_of(masked, 'canon', 'making the canonical form', lambda *names: [
            self.program, 'canon', *names], CHECKED)
        return self.listing(0, first), self.listing(1, second)

    def paired(self, masks: Sequence[Mask], lonely: frozenset[str]) -> Pairing:
        """Brings the exchanges of both runs together under the first mask, or else the second."""
        mask, *more = masks
        listings = self.canonical(self.captures, mask)
        here, there = (Outlines(listing(), mask, when_of(taken))
                       for listing, taken in zip(listings, self.runs))
        relaxed = (lambda: (more[0], self.canonical(self.captures, more[0]))) if more else None
        self.progress.begin(f'bringing {len(here) + len(there):,} calls together')
        return paired(here, there, listings, lonely, relaxed)

    def in_one_order(self, pairing: Pairing) -> list[str]:
        """Writes both runs in the order of the first one, without the exchanges that have no
        partner, each call once. Returns the captures' names."""
        self.progress.begin('writing both runs in one order')
        names = self.named()
        for run, (taken, name) in enumerate(zip(self.runs, names)):
            outlines = pairing.runs[run]
            left_out = chain(InOrder(outlines, pairing.alone(run)), repeats_of(outlines))
            write_in_order(taken, InOrder(outlines, pairing.matched(run)), left_out, name)
        return names
