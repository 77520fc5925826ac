"""How much of two runs is compared: the verdicts on the connections of each. One that is refused is
not compared, and the others are. They keep their numbers."""
from __future__ import annotations

import copy
from collections import Counter
from collections.abc import Iterator, Sequence
from dataclasses import dataclass
from itertools import compress
from typing import NamedTuple

from ...judgement.verdict import (
    State, Verdict, counted_words, error_verdict, judged_alone, of_covered)
from ...recordings.coverage import Allowed, Counts
from ...recordings.selection import count
from ...recordings.taken import Taken
from ...shared.programs import Answer, Died, checked_counts
from ..exchanges.explained import RUNS


class Size(NamedTuple):
    """How much a run has."""
    calls: int
    connections: int

    def __str__(self) -> str:
        return f'{count(self.calls, "call")} in {count(self.connections, "connection")}'


@dataclass(frozen=True)
class Cover:
    """How much of a run of this name is compared: what is not refused of it, and what is said of
    its connections and of what it shows besides."""
    name: str
    taken: Taken
    size: Size
    verdicts: Sequence[Verdict]

    @property
    def missing(self) -> int:
        return sum(one.covered.missing for one in self.verdicts)

    def is_good(self, allowed: Allowed) -> bool:
        return all(one.is_good(allowed) for one in self.verdicts)

    def counts(self) -> Counts:
        return counted_words(self.verdicts)

    def of_states(self, *states: State) -> list[Verdict]:
        return [one for one in self.verdicts if one.state in states]

    def rows(self) -> list[Verdict]:
        """What is not judged whole, or is refused."""
        return [one for one in self.verdicts if one.state != 'ok']

    @property
    def has_raw(self) -> bool:
        """Whether it has calls whose bodies are kept as they are."""
        return any(one.raw or one.covered.called.unchecked for one in self.verdicts)

    def faults(self) -> list[str]:
        """What of it is not valid, or cannot be read."""
        return [*map(cause_of, self.of_states('refused', 'error'))]

    def notes(self) -> Iterator[str]:
        """What `Taken` does not note: connections that are refused or not checked, and why."""
        yield from map(cause_of, self.of_states('refused'))
        for one in self.of_states('not checked', 'in part'):
            if one.connection is not None:
                yield f'connection {one.connection} {one.state}: {cause_of(one)}'

    def lacking(self, run: str) -> Iterator[str]:
        """What of the run is not compared, in words."""
        if self.missing:
            yield f'{count(self.missing, "byte")} missing from the {run} run'
        # (missing bytes are counted for all)
        number = Counter(one.state for one in self.verdicts if is_of_connection(one)
                         and one.covered.shows_calls
                         and not (one.covered.word == 'in part' and one.covered.missing))
        if number['left out']:
            yield f'{count(number["left out"], "connection")} left out of the {run} run'
        words: tuple[State, ...] = 'in part', 'not checked', 'refused'
        yield from (f'{count(number[word], "connection")} of the {run} run {word}'
                    for word in words if number[word])
        yield from (f'{cause_of(one)} ({run} run)' for one in self.verdicts
                    if not is_of_connection(one))


def is_of_connection(verdict: Verdict) -> bool:
    """Whether it is that on a connection, taken or left out."""
    return verdict.connection is not None or bool(verdict.covered.ends)


def cause_of(verdict: Verdict) -> str:
    """Why something is not judged whole: of a fault also its place, with its first frame."""
    if verdict.fault:
        return f'{verdict.fault}' + ''.join(f' (frame {one.number})' for one in verdict.frames[:1])
    return verdict.said or verdict.covered.reason


def cover_of(program: str, taken: Taken, name: str, answer: Answer) -> Cover:
    """Returns how much of a run is compared, by what `check` says of the whole."""
    counts, kept = checked_counts(answer), copy.copy(taken)
    others = [of_covered(name, one) for one in taken.not_taken()]
    others += [error_verdict(name, taken.damage)] if taken.damage else []
    if counts:
        verdicts = [of_covered(name, taken.covered_connection(one)) for one in taken.connections]
        return Cover(name, taken, Size(counts[1], counts[0]), [*verdicts, *others])
    verdicts = [judged_alone(program, name, taken, one) for one in taken.connections]
    for one in verdicts:
        if one.state == 'error':
            raise Died(f'nfs3canon check prints {one.said!r}')
    valid = [verdict.state != 'refused' for verdict in verdicts]
    kept.connections = [*compress(taken.connections, valid)]
    calls = sum(one.calls or 0 for one in compress(verdicts, valid))
    return Cover(name, kept, Size(calls, len(kept.connections)), [*verdicts, *others])


def lines_of_counts(covers: Sequence[Cover]) -> list[str]:
    """The four counts of both runs, in one line if they are equal."""
    sums = [cover.counts().words() for cover in covers]
    if sums[0] == sums[1]:
        return [f'both runs: {sums[0]}']
    return [f'{run} run: {words}' for run, words in zip(RUNS, sums)]
