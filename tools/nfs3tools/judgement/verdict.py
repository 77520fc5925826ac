"""Verdicts on connections: what the program's answer says of one, the exchanges of those that were
judged, and the row that is printed of one."""
from __future__ import annotations

import sys
import time
import typing
from collections import Counter
from collections.abc import Iterable, Mapping, Sequence

from ..exchanges.kept import Kept, host_of
from ..recordings.coverage import Allowed, Counts, Covered, counts_of
from ..recordings.selection import BEGUN_BEFORE, count
from ..recordings.taken import FrameRef, Taken, TakenConnection
from ..shared.places import Fault, FilePlace, Place, parse_fault
from ..shared.printed import escaped, printable
from ..shared.programs import CHECKED, Answer, checked_counts, run_program
from ..shared.screens import Colour, Screen

NOT_ALL_OK = 1
VERDICTS_VERSION = 2  # of the forms of JSON with verdicts; the first was a list of them
VERDICT_HEADS = ('recording', 'connection', 'client', 'server', 'calls', 'replies', 'verdict')
COVERED = ('in part', 'left out', 'not checked')  # states of what is not judged whole
State = typing.Literal['ok', 'refused', 'in part', 'left out', 'not checked', 'error', 'note']


class Verdict(typing.NamedTuple):
    """What is said of a connection, or of a recording or capture as a whole. A note is no verdict.

    state: the program's word, or how much was judged if that is not all
    covered: the number of a connection, its ends, how much of it was judged, and why not all
    calls, replies: those of a connection that is taken
    fault, frames: where and why the program refuses it, and the frames of that place
    said: what could not be read, or the note
    unanswered: its calls without a reply, if it is not refused
    is_known: whether it is known by a file, and does not count for the status; `None` without one
    """
    recording: str
    state: State = 'ok'
    covered: Covered = Covered('judged')
    tcp_stream: int | None = None
    client: str = ''
    server: str = ''
    calls: int | None = None
    replies: int | None = None
    fault: Fault | None = None
    frames: Sequence[FrameRef] = ()
    said: str = ''
    unanswered: int = 0
    notes: Sequence[str] = ()
    seconds: float = 0.0
    is_known: bool | None = None

    @property
    def connection(self) -> int | None:
        return self.covered.number

    @property
    def raw(self) -> Mapping[str, int]:
        """The calls of other programs, by name."""
        return self.covered.called.raw

    @property
    def position(self) -> str | None:
        """That of its fault, without the number of a connection that is taken."""
        place = self.fault.place if self.fault else None
        if isinstance(place, Place) and self.calls is not None:
            return place.in_connection
        return None if place is None else str(place)

    @property
    def told(self) -> str:
        """All of it in words. What is judged in part is not called ok."""
        if self.fault:
            return f'{self.position}: {self.fault.reason}' + ''.join(
                f', frame {frame.number}' for frame in self.frames)
        if self.state not in COVERED:
            return 'ok' if self.state == 'ok' else self.said
        about = f'{self.covered.ends}: ' if self.covered.ends and self.calls is None else ''
        if self.is_ok_in_part:
            about = f'{count(self.calls or 0, "call")}, '
        return f'{self.state}: {about}{self.covered.reason}'

    @property
    def is_ok_in_part(self) -> bool:
        return self.state == 'in part' and self.calls is not None

    @property
    def message(self) -> str:
        return 'ok ' * self.is_ok_in_part + self.told + ', known' * bool(self.is_known)

    @property
    def line(self) -> str:
        """The same for a file of known findings: without frames, and the ports of clients."""
        told = f'{self.position}: {self.fault.reason}' if self.fault else self.told
        ends = f'{host_of(self.client)} to {self.server}: ' if self.client else ''
        return printable(ends + told)

    def is_good(self, allowed: Allowed) -> bool:
        """Whether the status may be 0 beside it."""
        return self.is_known or (self.covered.is_good(allowed) if self.state in COVERED
                                 else self.state in ('ok', 'note'))


def judged_together(recording: str, taken: Taken) -> list[Verdict]:
    """What the program says of all connections, by one run on the capture of all of them, if it
    finds no fault; else nothing. How many calls and replies each has is counted here, and together
    they are as many as the program counts. Raises `Died`."""
    if not taken.is_packed or not taken.read or not taken.read.checking:
        return []
    begin = time.monotonic()
    numbers = [(one.client.count_records(), one.server.count_records())
               for one in taken.connections]
    answer = taken.read.checking.answer()
    counts = checked_counts(answer) if answer else ()
    if not counts or tuple(map(sum, zip(*numbers))) != counts[1:]:
        return []
    seconds = (time.monotonic() - begin) / max(1, len(numbers))
    return [of_valid(recording, taken, connection, seconds)._replace(
        calls=calls, replies=replies)
        for connection, (calls, replies) in zip(taken.connections, numbers)]


def of_valid(recording: str, taken: Taken, connection: TakenConnection,
             seconds: float) -> Verdict:
    """What is said of a connection if the program finds no fault in it, but for its counts."""
    return of_covered(recording, taken.covered_connection(connection))._replace(
        tcp_stream=connection.stream_number, client=connection.client_end,
        server=connection.server_end, notes=connection.notes, seconds=seconds)


def judged_alone(program: str, recording: str, taken: Taken,
                 connection: TakenConnection) -> Verdict:
    """What the program says of a connection's capture. Raises `Died`."""
    begin = time.monotonic()
    answer = run_program(program, ['check', '/dev/stdin'], CHECKED, connection.capture())
    verdict = of_valid(recording, taken, connection, time.monotonic() - begin)
    counts, fault = checked_counts(answer), parse_fault(answer.error)
    if answer.status == 0 and counts:
        return verdict._replace(calls=counts[1], replies=counts[2])
    verdict = verdict._replace(calls=connection.client.count_records(),
                               replies=connection.server.count_records())
    if answer.status != 2 or fault is None or isinstance(fault.place, FilePlace):
        return verdict._replace(state='error', said=said_last(answer))
    place = fault.place._replace(connection=connection.number)
    return verdict._replace(state='refused', fault=fault._replace(place=place),
                            frames=taken.frames(place))


def of_covered(recording: str, covered: Covered) -> Verdict:
    """What is said of a connection if the program finds no fault in it, or of what is of none."""
    return Verdict(recording, 'ok' if covered.word == 'judged' else covered.word, covered)


def error_verdict(recording: str, message: str) -> Verdict:
    return Verdict(recording, 'error', said=message)


def said_last(answer: Answer) -> str:
    return (answer.error or answer.out).strip() or f'the program ended with status {answer.status}'


def status_of(verdicts: Iterable[Verdict], allowed: Allowed) -> int:
    return 0 if all(verdict.is_good(allowed) for verdict in verdicts) else NOT_ALL_OK


def counts_after(verdicts: Iterable[Verdict]) -> Counts:
    """How many of the verdicts are under each word."""
    several = list(verdicts)
    known = [one.is_known for one in several if one.is_known is not None]
    return counted_words(several)._replace(unanswered=sum(one.unanswered for one in several),
                                           known=sum(known) if known else None)


def counted_words(verdicts: Iterable[Verdict]) -> Counts:
    """The same if nobody looks for calls without a reply."""
    return counts_of((one.state, one.covered.shows_calls, one.raw) for one in verdicts)


def verdict_object(verdict: Verdict) -> dict[str, object]:
    covered, fault = verdict.covered, verdict.fault
    return {'recording': escaped(verdict.recording), 'connection': verdict.connection,
            'tcp_stream': verdict.tcp_stream, 'client': verdict.client, 'server': verdict.server,
            'calls': verdict.calls, 'replies': verdict.replies, 'state': verdict.state,
            'message': verdict.message, 'position': verdict.position,
            'reason': fault and fault.reason, 'missing': covered.missing,
            'lacks': [] if verdict.state == 'left out' else covered.lacks,
            'raw': dict(verdict.raw), 'unanswered': verdict.unanswered,
            'shows_calls': covered.shows_calls,
            'frames': [frame._asdict() for frame in verdict.frames], 'notes': verdict.notes,
            'seconds': round(verdict.seconds, 3)}


def verdict_members(verdicts: Sequence[Verdict]) -> dict[str, object]:
    """What all forms of JSON have of verdicts: the counts, and an object for each."""
    return {'counts': counts_after(verdicts).members(),
            'verdicts': [*map(verdict_object, verdicts)]}


def kept_in(program: str, taken: Taken, verdicts: list[Verdict], has_values: bool = False,
            has_texts: bool = True) -> Kept:
    """Returns the exchanges of the connections that were judged, and gives the verdicts the numbers
    of their calls without a reply. Raises `Died` and `OSError`."""
    kept = Kept(has_values, has_texts)
    states = {verdict.connection: verdict.state for verdict in verdicts}
    for connection in taken.connections:
        state = states.get(connection.number, 'error')
        if state != 'error':
            kept.take(program, connection, state == 'refused')
    kept.begun, kept.ended = taken.begun, taken.ended
    kept.link()
    unanswered = Counter(kept.parts[kept.part_of[at]].number for at, first in enumerate(kept.firsts)
                         if not first and kept.is_unanswered(at))
    verdicts[:] = [verdict._replace(unanswered=unanswered[verdict.connection or 0])
                   for verdict in verdicts]
    return kept


def not_ok(verdicts: Iterable[Verdict]) -> list[str]:
    """A line for each row that is not ok."""
    return [printable(f'{subject_of(verdict)}: {verdict.message}') for verdict in verdicts
            if is_row(verdict, is_quiet=True)]


def tell_notes(verdicts: Sequence[Verdict]) -> None:
    """Prints on standard error what is missing from recordings, which connections are left out that
    show no call, and whether recordings look like parts of one."""
    for verdict in verdicts:
        for line in verdict_notes(verdict):
            print(line, file=sys.stderr)
    parts = continued_recordings(verdicts)
    if parts:
        print(printable(f'{" and ".join(map(escaped, parts))}: these look like parts of one '
                        'recording; put the pattern in quotes'), file=sys.stderr)


def verdict_notes(verdict: Verdict) -> list[str]:
    """Returns what is said of a verdict that has no row, and beside one."""
    lines = [*verdict.notes, *([] if is_row(verdict) else [verdict.message])]
    return [printable(f'{subject_of(verdict)}: {line}') for line in lines]


def continued_recordings(verdicts: Iterable[Verdict]) -> list[str]:
    """Returns two recordings of which one goes on with a connection of the other, if any."""
    having, begun_before = dict[str, str](), list[tuple[str, str]]()
    for verdict in verdicts:
        client, server, covered = verdict.client, verdict.server, verdict.covered
        # (the ends of a connection that is left out are in the order in which they sent)
        both = [f'{client} and {server}', f'{server} and {client}'] if client else []
        if verdict.state == 'left out' and covered.shows_calls or BEGUN_BEFORE in covered.lacks:
            begun_before.append((covered.ends, verdict.recording))
        else:
            having.update((ends, verdict.recording) for ends in both if ends not in having)
    return next(([having[ends], name] for ends, name in begun_before
                 if having.get(ends, name) != name), [])


def subject_of(verdict: Verdict) -> str:
    name = escaped(verdict.recording)
    return name if verdict.connection is None else f'{name}: connection {verdict.connection}'


def is_row(verdict: Verdict, is_quiet: bool = False) -> bool:
    """Whether a verdict has a row: notes have none, nor have connections that show no call. If it
    is to be quiet, what is ok has none either."""
    is_printed = verdict.state != 'ok' or not is_quiet
    return verdict.state != 'note' and verdict.covered.shows_calls and is_printed


def sums_of(verdicts: Iterable[Verdict]) -> str:
    return counts_after(verdicts).words()


def colour_of(verdict: Verdict) -> Colour:
    """The colour of a verdict: green for what was judged, and is valid."""
    if verdict.state == 'ok':
        return Colour.GREEN
    is_wrong = verdict.state in ('refused', 'error') and not verdict.is_known
    return Colour.RED if is_wrong else Colour.YELLOW


def verdict_row(verdict: Verdict, message: str, screen: Screen = Screen()) -> tuple[str, ...]:
    numbers = (verdict.connection, verdict.calls, verdict.replies)
    connection, calls, replies = ('-' if number is None else screen.number(number)
                                  for number in numbers)
    return (escaped(verdict.recording), connection, verdict.client or '-', verdict.server or '-',
            calls, replies, printable(message))
