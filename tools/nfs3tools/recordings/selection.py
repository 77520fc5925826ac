"""Which bytes of a connection are kept: what to do without its beginning, and about bytes that are
missing."""
from __future__ import annotations

import dataclasses
import typing

from ..shared.places import SIDES, Side
from .connections import Connection
from .records import Search, Window, end_of_whole, xids
from .streams import Gap, Stream

SERVER_PORTS = {'2049', '20048', '111'}  # NFS, MOUNT as Linux has it, and the port mapper
MTYPE_OF_REPLY = 1  # mtype
BEGUN_BEFORE = 'its beginning is not in the recording'
ENDS_INSIDE_RECORD = 'the recording ends inside a record'
RESET_INSIDE = 'the other end reset it inside a record'


class Options(typing.NamedTuple):
    """Which connections of a recording are taken. Of a capture all are.

    ports: of which each connection has one; any connection if there are none
    is_growing: whether it is no loss that the recording ends inside a frame or a record
    checked_by: the program that checks whole connections meanwhile, if one does
    """
    ports: frozenset[int] = frozenset()
    is_growing: bool = False
    checked_by: str = ''


@dataclasses.dataclass
class KeptRanges:
    """The ranges of a stream's stored bytes that are kept, whether any of its bytes are not, how
    many the recording lacks, what is said of it, and why it is in part, other than for bytes that
    the recording lacks."""
    ranges: list[tuple[int, int]] = dataclasses.field(default_factory=list)
    lacks: bool = False
    missing: int = 0
    notes: list[str] = dataclasses.field(default_factory=list)
    reasons: list[str] = dataclasses.field(default_factory=list)

    @property
    def size(self) -> int:
        return sum(end - begin for begin, end in self.ranges)


class Selected(typing.NamedTuple):
    """What is kept of a connection: which end is the client, why, and what of both streams."""
    client: int
    why: str
    kept: tuple[KeptRanges, KeptRanges]

    @property
    def missing(self) -> int:
        """The bytes of both streams that the recording lacks."""
        return sum(kept.missing for kept in self.kept)

    @property
    def lacks(self) -> tuple[str, ...]:
        """Why it is in part, other than for these bytes, each once."""
        return tuple(dict.fromkeys(reason for kept in self.kept for reason in kept.reasons))

    @property
    def notes(self) -> list[str]:
        return [note for kept in self.kept for note in kept.notes]


class UnbrokenPart(typing.NamedTuple):
    """Bytes of a stream without a gap, and the gap after them."""
    begin: int
    end: int
    gap_after: Gap | None


def parts_of(stream: Stream) -> list[UnbrokenPart]:
    stretches = stream.stretches
    gaps = [stretch.gap for stretch in stretches[1:]] + [stream.gap_at_end()]
    return [UnbrokenPart(stretch.begin, stretch.end, gap) for stretch, gap in zip(stretches, gaps)]


def gaps_of(stream: Stream) -> list[Gap]:
    gaps = [*(stretch.gap for stretch in stream.stretches), stream.gap_at_end()]
    return [gap for gap in gaps if gap]


def missing_of(stream: Stream) -> int:
    """The bytes of a stream that were sent and are not in the recording, as far as it shows."""
    return sum(gap.size for gap in gaps_of(stream))


def select(connection: Connection, is_growing: bool = False) -> Selected:
    """Chooses what is kept. If the recording is growing, the end of a record may come yet."""
    client, why = client_of(connection)
    ends = client, 1 - client
    streams = connection.streams[client], connection.streams[1 - client]
    calls, replies = (keep_records(connection.streams[end], side, cut_by(connection, end))
                      for end, side in zip(ends, SIDES))
    if calls.lacks and replies.ranges:
        leave_out_replies(streams, calls, replies)
    for stream, kept, side in zip(streams, (calls, replies), SIDES):
        add_uncertain(stream, kept, side)
        if is_growing:
            kept.reasons = [reason for reason in kept.reasons if reason != ENDS_INSIDE_RECORD]
    return Selected(client, why, (calls, replies))


def add_uncertain(stream: Stream, kept: KeptRanges, side: Side) -> None:
    """Adds what is said of bytes that are not taken, and of others that may be missing."""
    changed, first = stream.changed()
    if changed:
        kept.notes.append(
            f'{count(changed, "frame")} {plural(changed, "repeats", "repeat")} bytes with other '
            f'content, first frame {first}; the bytes that came first are taken')
        kept.reasons.append(f'{count(changed, "frame")} with other content')
    left_out = stream.left_out
    if left_out:
        kept.notes.append(
            f'{side}: {count(left_out.size, "byte")} {plural(left_out.size, "fits", "fit")} '
            f'nowhere in the stream, and {plural(left_out.size, "is", "are")} left out, '
            f'first frame {left_out.frame}')
        kept.reasons.append(f'{count(left_out.size, "byte")} left out')
    if stream.strays:
        kept.notes.append(
            f'{side}: {count(stream.strays, "frame")} {plural(stream.strays, "has", "have")} a '
            f'sequence number far from all others, first frame {stream.stray}')
        kept.reasons.append('bytes far beyond the last may be missing')


def cut_by(connection: Connection, end: int) -> str:
    """Why an end is not at fault if its stream ends inside a record; '' if it is."""
    if connection.streams[end].end is not None or connection.is_reset_by(end):
        return ''
    return RESET_INSIDE if connection.is_reset_by(1 - end) else ENDS_INSIDE_RECORD


def client_of(connection: Connection) -> tuple[int, str]:
    """Which end is the client, and why: by the SYN, else its calls, the ports, or who began."""
    if connection.client is not None:
        return connection.client, 'by the SYN'
    served = [end.rpartition(':')[2] in SERVER_PORTS for end in connection.ends]
    guess = served.index(False) if served[0] != served[1] else None
    likely = guess or 0
    for side in (likely, 1 - likely):
        if has_calls(connection.streams[side]):
            return side, 'by its calls'
    return ((guess, 'by the ports') if guess is not None
            else (connection.first_payload, 'by the first payload'))


def is_of_rpc(connection: Connection, ports: frozenset[int]) -> bool:
    """Whether a connection has a port of NFS, or bytes that may be the head of a message of RPC."""
    served = SERVER_PORTS | {str(port) for port in ports}
    return any(end.rpartition(':')[2] in served for end in connection.ends) or any(
        next(Search(stream, side, part.begin, part.end).places(), None) is not None
        for stream in connection.streams for part in stream.stretches for side in SIDES)


def has_calls(stream: Stream) -> bool:
    """Whether calls follow one another in a run of the stream."""
    return any(Search(stream, 'client', part.begin, part.end).first() is not None
               for part in parts_of(stream))


def keep_records(stream: Stream, side: Side, cut: str) -> KeptRanges:
    """Keeps of each run of a stream what follows from the first record on. `cut` is why a record at
    its end that is cut is none of its sender's fault."""
    kept, gaps, parts = KeptRanges(missing=missing_of(stream)), gaps_of(stream), parts_of(stream)
    kept.lacks = not stream.is_begin or bool(gaps or stream.left_out or stream.strays)
    left_out = 0
    if stream.size and not stream.is_begin:
        kept.reasons.append(BEGUN_BEFORE)
    for part in parts:
        is_first = part is parts[0] and not part.begin
        begin = (part.begin if is_first and stream.is_begin
                 else Search(stream, side, part.begin, part.end).first())
        if is_first and begin != part.begin:
            skipped = part.end if begin is None else begin
            kept.notes.append(f'{side}: the first {count(skipped, "byte")} '
                              f'{plural(skipped, "is", "are")} left out, since no record of a '
                              'whole run begins there')
        elif begin is None:
            left_out += part.end - part.begin
        else:
            left_out += begin - part.begin
        if begin is not None:
            dropped = keep_up_to_whole(stream, part._replace(begin=begin), side, kept,
                                       cut if part is parts[-1] else '')
            left_out += dropped if part.gap_after else 0
    if gaps:
        kept.notes.append(f'{side}: {told_of_all(gaps)}; {count(left_out, "byte")} of torn records '
                          f'{plural(left_out, "is", "are")} left out')
    return kept


def keep_up_to_whole(stream: Stream, part: UnbrokenPart, side: Side, kept: KeptRanges,
                     cut: str) -> int:
    """Keeps a run, up to the end of its last whole record if bytes are missing after it, or if
    `cut` says why it is cut. Returns how many bytes that leaves out."""
    is_whole = part.gap_after or cut
    end = end_of_whole(Window(stream), part.begin, part.end) if is_whole else part.end
    dropped = part.end - end
    if end > part.begin:
        kept.ranges.append((part.begin, end))
    if dropped:
        kept.lacks = True
        if not part.gap_after:
            kept.reasons.append(cut)
            kept.notes.append(
                f'{side}: the last {dropped:,} bytes are no whole record, and are dropped')
    return dropped


def leave_out_replies(streams: tuple[Stream, Stream], calls: KeptRanges,
                      replies: KeptRanges) -> None:
    """Leaves out the replies whose calls are not kept."""
    window = Window(streams[0])
    known = {xid for begin, end in calls.ranges for _, xid, _ in xids(window, begin, end)}
    window, ranges, left_out = Window(streams[1]), list[tuple[int, int]](), 0
    for begin, end in replies.ranges:
        kept, count_of_range = with_calls(window, begin, end, known)
        ranges += kept
        left_out += count_of_range
    replies.ranges = ranges
    if left_out:
        replies.notes.append(f'server: {left_out:,} ' + plural(
            left_out, 'reply to a call that is not in the recording is left out',
            'replies to calls that are not in the recording are left out'))


def with_calls(window: Window, begin: int, end: int,
               known: set[int]) -> tuple[list[tuple[int, int]], int]:
    """The ranges of a run without replies to calls that are not known, and how many these are."""
    ranges, left_out = list[tuple[int, int]](), 0
    for extent, xid, mtype in xids(window, begin, end):
        if mtype == MTYPE_OF_REPLY and xid not in known and not extent.is_too_long:
            left_out += 1
        elif ranges and ranges[-1][1] == extent.begin:
            ranges[-1] = ranges[-1][0], extent.end
        else:
            ranges.append((extent.begin, extent.end))
    return ranges, left_out


def plural(number: int, one: str, several: str) -> str:
    return one if number == 1 else several


def count(number: int, one: str) -> str:
    return f'{number:,} {plural(number, one, one + "s")}'


def gap_text(gap: Gap) -> str:
    return (f'{count(gap.size, "byte")} {plural(gap.size, "is", "are")} missing from the '
            f'recording after the first {gap.position:,}, before frame {gap.frame}')


def told_of_all(gaps: list[Gap]) -> str:
    if len(gaps) == 1:
        return gap_text(gaps[0])
    return (f'{gap_text(gaps[0])}, and {sum(gap.size for gap in gaps[1:]):,} more '
            f'in {count(len(gaps) - 1, "place")}')
