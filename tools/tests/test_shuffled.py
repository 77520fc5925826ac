"""Random recordings, also with one frame changed, against the model of nfs3streams; and that no
recorded byte is dropped without being counted.

If the model says that all connections are whole, their streams are judged; else the status is 1.
"""
import dataclasses
import itertools
import random
import struct
import typing

from examples.messages import NFS, call, fragment, success
from examples.packets import (
    ACK, CLIENT, FIN, RST, SERVER, SYN, Talk, datagram, ethernet, pcap, segment)
from tests.shared import recorded

from ..nfs3tools.judgement.verdict import is_row, status_of
from ..nfs3tools.recordings.coverage import Allowed
from .cases import try_seeds
from .scripts import CALL, CALLS, REPLIES, REPLY, Tools, stream, taken_of, timed, verdicts_on

FAR = (1 << 30) + 5_000  # beyond the last byte, also if some come late


# --- What is sent ---

@dataclasses.dataclass
class Sent:
    """A segment, as it was sent: `extra` belongs to nothing, `lacks` bytes are not recorded."""
    side: int
    flags: int
    begin: int
    content: bytes
    acknowledged: int
    extra: bool = False
    lacks: int = 0

    @property
    def end(self) -> int:
        return self.begin + len(self.content)


@dataclasses.dataclass
class Connection:
    """A connection with both of its streams, and its segments as they were sent."""
    port: int
    first: tuple[int, int]
    streams: tuple[bytes, bytes]
    segments: list[Sent] = dataclasses.field(default_factory=list)

    def datagram(self, sent: Sent) -> bytes:
        """A datagram of a segment. The position -1 of a stream is that of SYN."""
        ports = (self.port, 2049) if sent.side == 0 else (2049, self.port)
        own, other = self.first[sent.side] + 1, self.first[1 - sent.side] + 1
        content = segment(ports, own + sent.begin, other + sent.acknowledged if sent.flags & ACK
                          else 0, sent.flags, sent.content)
        return datagram(*((CLIENT, SERVER) if sent.side == 0 else (SERVER, CLIENT)), content)


def sent_by(chance: random.Random, made: Connection) -> None:
    """The segments of a connection, from its SYN to its end."""
    sent, add = [0, 0], made.segments.append
    add(Sent(0, SYN, -1, b'', 0))
    add(Sent(1, SYN | ACK, -1, b'', 0))
    add(Sent(0, ACK, 0, b'', 0))
    ends = [len(content) for content in made.streams]
    while sent != ends:
        answered = sent[0] // CALL * REPLY  # the replies of all calls that were sent
        side = chance.randrange(2) if sent[1] < answered and sent[0] < ends[0] else int(
            sent[1] < answered)
        size = chance.choice((1, 7, 28, 44, 60, 200))
        content = made.streams[side][sent[side]:min(sent[side] + size, (ends[0], answered)[side])]
        add(Sent(side, ACK, sent[side], content, sent[1 - side]))
        sent[side] += len(content)
        if chance.random() < 0.2:
            add(Sent(1 - side, ACK, sent[1 - side], b'', sent[side]))
        if chance.random() < 0.1:
            add(sent_again(chance, made, side, sent))
    add_end(chance, made, sent)


def sent_again(chance: random.Random, made: Connection, side: int, sent: list[int]) -> Sent:
    """Bytes that were sent before, with other boundaries."""
    begin = chance.randrange(max(0, sent[side] - 300), sent[side])
    return Sent(side, ACK, begin,
                made.streams[side][begin:min(sent[side], begin + chance.randrange(1, 300))],
                sent[1 - side])


def add_end(chance: random.Random, made: Connection, sent: list[int]) -> None:
    """FIN of both ends, RST of one, FIN of one, or nothing."""
    how, add = chance.choice(('fin', 'fin', 'fin', 'rst', 'half', 'open')), made.segments.append
    first = chance.randrange(2)
    if how in ('fin', 'half'):
        add(Sent(first, FIN | ACK, sent[first], b'', sent[1 - first]))
        add(Sent(1 - first, ACK, sent[1 - first], b'', sent[first] + 1))
    if how == 'fin':
        add(Sent(1 - first, FIN | ACK, sent[1 - first], b'', sent[first] + 1))
        add(Sent(first, ACK, sent[first] + 1, b'', sent[1 - first] + 1))
    if how == 'rst':
        add(Sent(first, RST | ACK, sent[first], chance.choice((b'', b'a reason in words')),
                 sent[1 - first]))


class Recorded(typing.NamedTuple):
    """A frame: its bytes, how many are kept, and its segment."""
    frame: bytes
    kept: int
    connection: Connection
    sent: Sent


class Make:
    """Makes a recording by chance."""

    def __init__(self, seed: int) -> None:
        self.chance = random.Random(seed)
        chance = self.chance
        self.lost, self.late, self.twice, self.cut, self.odd = (
            chance.choice(rates) for rates in ((0, 0, 0, 0.01, 0.05), (0, 0, 0.02, 0.2),
                                               (0, 0, 0.1), (0, 0, 0, 0.01), (0, 0, 0.005, 0.02)))
        self.connections: list[Connection] = []

    def streams(self, first_xid: int) -> tuple[bytes, bytes]:
        """The streams of some calls and their replies."""
        xids = range(first_xid, first_xid + self.chance.choice((1, 2, 5, 20)))
        return stream(call(xid, NFS, 3, 0) for xid in xids), stream(success(xid) for xid in xids)

    def connection(self, port: int) -> Connection:
        """A connection with what belongs to nothing among its segments."""
        chance = self.chance
        first = self.numbers()
        while any(abs(first[0] - other.first[0]) < FAR // 2 for other in self.connections
                  if other.port == port):
            first = self.numbers()
        made = Connection(port, first, self.streams(1_000 * len(self.connections) + 1))
        self.connections.append(made)
        sent_by(chance, made)
        for at in range(len(made.segments) - 1, 3, -1):
            if chance.random() < self.odd:
                made.segments.insert(at, self.odd_one(made, made.segments[at - 1]))
        return made

    def numbers(self) -> tuple[int, int]:
        near_the_end = (1 << 32) - self.chance.randrange(400)
        return self.chance.choice((self.chance.randrange(1 << 32),
                                   near_the_end)), self.chance.randrange(1 << 32)

    def odd_one(self, made: Connection, last: Sent) -> Sent:
        """A segment that belongs to nothing, after another."""
        chance, side = self.chance, self.chance.randrange(2)
        end, other = (max((one.end for one in made.segments[:made.segments.index(last)]
                           if one.side == at and one.content and not one.extra),
                          default=0) for at in (side, 1 - side))
        match chance.choice(('syn', 'syn-ack', 'rst', 'fin', 'ack', 'far', 'other', 'before')):
            case 'syn':
                return Sent(side, SYN, end + chance.choice((FAR, -FAR, 50_000)), b'', 0, True)
            case 'syn-ack':
                return Sent(side, SYN | ACK, end + chance.choice((FAR, -FAR, 50_000)), b'', other,
                            True)
            case 'rst':
                return Sent(side, RST, end + chance.choice((FAR, -FAR)), b'', 0, True)
            case 'fin':
                return Sent(side, FIN | ACK, max(0, end - chance.choice((0, 0, 30))), b'', other,
                            True)
            case 'ack':
                return Sent(side, ACK, end, b'', other + FAR, True)
            case 'far':
                return Sent(side, ACK, end + chance.randrange(1 << 32), b'belongs to nothing',
                            other, True)
            case 'other':
                begin = max(0, end - 20)  # one byte alone may be that of a keep-alive
                return Sent(side, ACK, begin,
                            bytes(255 - byte
                                  for byte in made.streams[side][begin:max(end, begin + 2)]), other,
                            True)
            case _:
                return Sent(side, ACK, -30, b'before the first', other, True)

    def recorded(self) -> list[Recorded]:
        """The frames of all connections, as they are recorded."""
        chance, turns = self.chance, list[list[Recorded]]()
        for number in range(chance.choice((1, 1, 2, 3))):
            made = self.connection(700 + number)
            turns.append(self.frames_of(made))
            if chance.random() < 0.2 and made.segments[-1].flags & (FIN | RST):
                turns[-1] += self.frames_of(self.connection(700 + number))
        frames = list[Recorded]()
        while turns := [turn for turn in turns if turn]:
            turn, size = chance.choice(turns), chance.choice((1, 3, 10))
            frames += turn[:size]
            del turn[:size]
        frames = self.disturbed(frames)
        if chance.random() < 0.1:
            return frames[chance.randrange(len(frames)):]
        return frames[:chance.randrange(1, len(frames) + 1)] if chance.random() < 0.1 else frames

    def frames_of(self, made: Connection) -> list[Recorded]:
        """The frames of a connection, some not kept whole."""
        frames = list[Recorded]()
        for sent in made.segments:
            frame, is_cut = ethernet(made.datagram(sent)), self.chance.random() < self.cut and len(
                sent.content) > 4
            sent.lacks = 4 if is_cut else 0
            frames.append(Recorded(frame, len(frame) - 4 * is_cut, made, sent))
        return frames

    def disturbed(self, frames: list[Recorded]) -> list[Recorded]:
        """Loses frames, and has some come later or twice."""
        chance, left = self.chance, list[tuple[float, Recorded]]()
        for number, frame in enumerate(frames):
            if chance.random() >= self.lost:
                left.append((number + (chance.choice((1.5, 2.5, 5.5, 30.5)) if chance.random()
                                       < self.late else 0), frame))
                left += [(number + chance.choice((0.5, 1.5, 5.5)),
                          frame)] if chance.random() < self.twice else []
        return [frame for _, frame in sorted(left, key=lambda one: one[0])]


def pcap_of(frames: list[Recorded]) -> bytes:
    header = struct.pack('<IHHiIII', 0xa1b2c3d4, 2, 4, 0, 0, 65_535, 1)
    return header + b''.join(struct.pack('<4I', 1, number, one.kept, len(one.frame))
                             + one.frame[:one.kept]
                             for number, one in enumerate(frames))


# --- What the tools say ---

class Modelled(typing.NamedTuple):
    """A recording by the model of nfs3streams: the streams of whole connections, and whether all
    connections with bytes are whole, to the ends of their records.

    has_others: whether there are other frames, bytes before the beginning, or an end that sent
        nothing and whose SYN is not there
    """
    streams: list[tuple[bytes, bytes]]
    is_whole: bool
    has_others: bool


def modelled(recording: bytes) -> Modelled:
    frames, _, _ = recorded.read_frames(recording)
    connections, lacking = recorded.connections_of(frames)
    for one in connections:
        for sent in filter(None, one.streams):
            sent.order()
    said = [recorded.decide(recording, one, ()) for one in connections]
    whole = [one for one, decision in zip(connections, said) if decision == 'Whole']
    found, has_others = list[tuple[bytes, bytes]](), bool(lacking) or 'NotChosen' in said
    for one in whole:
        calls, replies = one.streams[::1 if one.client == 0 else -1]
        assert calls and calls.begin and replies and replies.begin
        first, second = calls.begin.position, replies.begin.position
        found.append((recorded.bytes_between(recording, calls, first, 1 << 40),
                      recorded.bytes_between(recording, replies, second, 1 << 40)))
        has_others |= any(run.position < first for run in calls.runs)
        has_others |= any(run.position < second for run in replies.runs)
    has_others |= any(isinstance(decision, recorded.Flaw) and decision.kind == 'NoSyn'
                      and not all(sent and sent.runs for sent in one.streams)
                      for one, decision in zip(connections, said))
    is_whole = all(decision in ('Whole', 'Empty', 'NotChosen') for decision in said) and not any(
        len(calls) % CALL or len(replies) % REPLY for calls, replies in found)
    return Modelled([pair for pair in found if any(pair)], is_whole, has_others)


def wrong_of(program: str, made: Make, recording: bytes) -> str:
    """What is wrong with the verdicts on a recording: the status is 0 only if all connections are
    whole, and just their streams are judged. It is 0 if the streams are also those that were
    sent."""
    model, verdicts = modelled(recording), verdicts_on(program, recording)
    with taken_of(recording) as taken:
        judged = [(one.client.read(0, 1 << 20), one.server.read(0, 1 << 20))
                  for one in taken.connections]
    is_good, sent = status_of(verdicts, Allowed()) == 0, [one.streams for one in made.connections]
    is_sound = model.is_whole and not model.has_others and model.streams != [] and all(
        any(one.startswith(calls) and two.startswith(replies)
            and len(replies) // REPLY <= len(calls) // CALL for one, two in sent)
        for calls, replies in model.streams)
    if not is_sound and (not is_good or model.has_others) or (
            is_good and model.is_whole and judged == model.streams):
        return ''
    return f'{model.is_whole} and {is_sound}, but {[one.message for one in verdicts]}'


def wrong_of_seed(program: str, seed: int) -> list[str]:
    made = Make(seed)
    wrong = wrong_of(program, made, pcap_of(made.recorded()))
    return [f'seed {seed}: {wrong}'] * bool(wrong)


# --- One frame that is changed ---

class Undisturbed(Make):
    """Makes a recording that lacks nothing."""

    def __init__(self, seed: int) -> None:
        super().__init__(seed)
        self.lost = self.late = self.twice = self.cut = self.odd = 0.0

    def recorded(self) -> list[Recorded]:
        return [frame for number in range(self.chance.choice((1, 1, 2)))
                for frame in self.frames_of(self.connection(700 + number))]


HEADERS = range(12, 54)  # of Ethernet from the kind on, of IP, and of TCP


def changed(chance: random.Random, one: Recorded) -> list[Recorded]:
    """A frame that is removed, shortened, or has another byte in its headers."""
    frame, way = one.frame, chance.choice(('removed', 'cut', 'shortened', 'header', 'header',
                                           'header'))
    if way == 'removed':
        return []
    if way == 'cut':
        return [one._replace(kept=chance.randrange(len(frame)))]
    if way == 'shortened':
        frame = frame[:chance.randrange(len(frame))]
        return [one._replace(frame=frame, kept=len(frame))]
    at = chance.choice(HEADERS)
    other = (frame[at] + chance.choice((1, 2, 4, 8, 16, 32, 64, 128,
                                        chance.randrange(1, 256)))) % 256
    return [one._replace(frame=frame[:at] + bytes([other]) + frame[at + 1:])]


def wrong_of_change(program: str, seed: int) -> list[str]:
    made = Undisturbed(seed)
    frames = made.recorded()
    at = made.chance.randrange(len(frames))
    frames[at:at + 1] = changed(made.chance, frames[at])
    wrong = wrong_of(program, made, pcap_of(frames))
    return [f'seed {seed}: frame {at + 1}, {wrong}'] * bool(wrong)


def seeds(tools: Tools) -> None:
    """The verdicts are what the model says."""
    try_seeds(tools, 1_500, wrong_of_seed)


def changed_frames(tools: Tools) -> None:
    """Nothing is called valid but what is whole."""
    try_seeds(tools, 1_000, wrong_of_change)


# --- No byte is dropped without being counted ---

BAD = 77  # an accept_stat that is not defined
RECORD_16 = 'server record 16 byte 20: BadEnum, frame %d'


def reply(number: int, is_bad: bool) -> bytes:
    """The reply with an index."""
    return fragment(REPLIES[number][:20] + struct.pack('>I', BAD) if is_bad else REPLIES[number])


def exchanged(talk: Talk, numbers: typing.Iterable[int], bad: int | None = None) -> list[bytes]:
    """Calls with their replies, one after the other."""
    frames = []
    for number in numbers:
        frames += [talk.sent(0, fragment(CALLS[number])),
                   talk.sent(1, reply(number, number == bad))]
    return frames


def with_frames(make: typing.Callable[[Talk], list[bytes]], bad: int | None = None,
                at: int = 10) -> bytes:
    """A recording of a connection, with more frames after some of 20 exchanges."""
    talk = Talk()
    return pcap([*talk.opened(), *exchanged(talk, range(at)), *make(talk),
                 *exchanged(talk, range(at, 20), bad), *talk.closed()])


def moved(talk: Talk, *sizes: int) -> list[bytes]:
    """So many bytes of each side are not recorded."""
    talk.next = [at + size for at, size in zip(talk.next, sizes)]
    return []


def with_times(frames: list[bytes], seconds: dict[int, int]) -> bytes:
    """A recording, with so many seconds before some frames, by their index."""
    pauses = itertools.accumulate(seconds.get(number, 0) for number in range(len(frames)))
    return timed(((pause + number / 1e6, frame)
                  for number, (pause, frame) in enumerate(zip(pauses, frames))), 1)


def judged(tools: Tools, recording: bytes) -> tuple[int, list[str], str]:
    """The status, the verdicts of all rows, and what else is reported."""
    verdicts = verdicts_on(tools.program, recording)
    notes = [note for verdict in verdicts
             for note in [*verdict.notes, *([] if is_row(verdict) else [verdict.message])]]
    rows = sorted(verdict.message for verdict in verdicts if is_row(verdict))
    return status_of(verdicts, Allowed()), rows, '\n'.join(notes)


def told(tools: Tools, what: str, recording: bytes, status: int, rows: list[str],
         note: str = '') -> None:
    """The verdicts have this status and these rows, and tell this."""
    found = judged(tools, recording)
    tools.want(what, (found[0], found[1], note in found[2] or found[2]),
               (status, sorted(rows), True))


# --- Far numbers ---

BEYOND = 'bytes far beyond the last may be missing'
TOLD_OF_STRAYS = 'client: %s a sequence number far from all others, first frame %d'


def much_is_missing_in_the_middle(tools: Tools) -> None:
    """What comes after up to 1 GiB is judged; more is counted, and in part."""
    for lost in (1_000, 70_000_000, 1_000_000_000):
        for bad, row in ((None, f'ok in part: 20 calls, {2 * lost:,} bytes missing'),
                         (15, RECORD_16 % (3 + 2 * 16))):
            told(tools, f'{lost} bytes, {bad}',
                 with_frames(lambda talk: moved(talk, lost, lost), bad), 1, [row])
    # (4,200,000,000 bytes are the same as 94,967,296 bytes backwards)
    for lost, row, note in ((2_200_000_000, BEYOND, TOLD_OF_STRAYS % ('22 frames have', 24)),
                            (3_000_000_000, BEYOND, ''),
                            (4_200_000_000, f'{10 * CALL} bytes left out, {BEYOND}', '')):
        told(tools, f'{lost} bytes', with_frames(lambda talk: moved(talk, lost, 0)), 1,
             [f'ok in part: 10 calls, {row}'], note)


def much_is_missing_at_the_end(tools: Tools) -> None:
    """Up to 1 GiB, it is known how much it is."""
    for lost in (60_000_000, 70_000_000, 200_000_000, 1_000_000_000, 2_000_000_000):
        for is_acknowledged in (True, False):
            talk = Talk()
            frames = [*talk.opened(), *exchanged(talk, range(10)), *moved(talk, lost, lost)]
            frames += [talk.frame(side, ACK) for side in (0, 1) if is_acknowledged]
            row = BEYOND if lost > FAR else f'{2 * lost:,} bytes missing'
            told(tools, f'{lost} bytes, {is_acknowledged}', pcap(
                [*frames, talk.frame(0, FIN | ACK), talk.frame(1, FIN | ACK, ahead=0)]), 1,
                 [f'ok in part: 10 calls, {row}'])


def one_frame_that_is_far(tools: Tools) -> None:
    """An acknowledgement more than 1 GiB beyond the last byte is counted."""
    for far in (FAR, 3_000_000_000):
        told(tools, f'{far}', with_frames(lambda talk: [
            *moved(talk, far, 0), talk.frame(1, ACK), *moved(talk, -far, 0)]), 1,
             [f'ok in part: 20 calls, {BEYOND}'], TOLD_OF_STRAYS % ('1 frame has', 24))


# --- Stray flags ---

def stray_resets(tools: Tools) -> None:
    """A RST that its receiver does not expect ends nothing."""
    for ahead in (0x30000000, -250):
        def reset(talk: Talk) -> list[bytes]:
            return [talk.frame(1, RST, ahead=ahead)]
        told(tools, f'{ahead}', with_frames(reset, 15), 1, [RECORD_16 % 36])
        told(tools, f'{ahead}, before any payload', with_frames(reset, at=0), 0, ['ok'])


def stray_ends(tools: Tools) -> None:
    """Bytes after a FIN are none of the stream, and are counted: then nobody is blamed."""
    for side, size in ((0, 10 * CALL), (1, 10 * REPLY)):
        for bad in (None, 15):
            told(tools, f'{side} {bad}', with_frames(lambda talk: [talk.frame(side, FIN | ACK)],
                                                     bad), 1,
                 [f'ok in part: {10 if side == 0 else 20} calls, {size} bytes left out'])
    talk = Talk()
    frames = [*talk.opened(), *exchanged(talk, range(10)), talk.frame(1, FIN | ACK),
              talk.frame(1, ACK, reply(9, False)), talk.frame(0, FIN | ACK)]
    told(tools, 'left out', pcap(frames), 1, [f'ok in part: 10 calls, {REPLY} bytes left out'],
         f'server: {REPLY} bytes fit nowhere in the stream, and are left out, first frame 25')


def stray_beginnings(tools: Tools) -> None:
    """A SYN with another number begins a connection; what goes on with the old one is of it."""
    for (flags, side), ahead in itertools.product(
            ((SYN, 0), (SYN | ACK, 1), (SYN | ACK, 0), (SYN, 1)), (0x30000000, 5_000, -300)):
        for bad, row in ((None, 'ok'), (15, RECORD_16 % 36)):
            told(tools, f'{flags} {side} {ahead} {bad}', with_frames(
                lambda talk: [talk.frame(side, flags, ahead=ahead)], bad), bad is not None, [row],
                 'no payload')


def ports_that_are_used_again(tools: Tools) -> None:
    """Connections of one port are distinguished, also by late segments."""
    first, second = Talk(), Talk(first=(900_000, 800_000))
    older = [*first.opened(), *exchanged(first, range(10)), *first.closed()]
    newer = [*second.opened(), *exchanged(second, range(10)), *second.closed()]
    mixed = [*older[:-5], *newer[:5], *older[-5:], *newer[5:]]
    told(tools, 'late segments', pcap(mixed), 0, ['ok', 'ok'])
    first, again = Talk(), Talk()
    refused = [*first.opened(), *exchanged(first, range(10), 5), *first.closed()]
    newer = [*again.opened(), *exchanged(again, range(10)), *again.closed()]
    told(tools, 'the same numbers are of the same connection', pcap(refused + newer), 1,
         ['server record 6 byte 20: BadEnum, frame 15'], '1 frame repeats bytes with other content')


def other_content(tools: Tools) -> None:
    """Bytes with other content make a connection in part, but not a keep-alive or RST."""
    for what, more, row, note in (
            ('other content', lambda talk: [talk.frame(0, ACK, b'x' * CALL, ahead=-3 * CALL)],
             '1 frame with other content',
             '1 frame repeats bytes with other content, first frame 24'),
            ('before the first', lambda talk: [talk.frame(0, ACK, b'x' * 9,
                                                          ahead=-10 * CALL - 9)],
             '9 bytes left out', 'client: 9 bytes fit nowhere in the stream, and are left out, '
             'first frame 24'),
            ('a keep-alive', lambda talk: [talk.frame(0, ACK, b'x', ahead=-1)], '', '')):
        told(tools, what, with_frames(more), int(row != ''),
             [f'ok in part: 20 calls, {row}' if row else 'ok'], note)
    talk = Talk()
    frames = [*talk.opened(), *exchanged(talk, range(10)), talk.frame(0, RST, b'a reason')]
    told(tools, 'a reset with a reason', pcap(frames), 0, ['ok'])


def other_content_beyond_an_end(tools: Tools) -> None:
    """Bytes beyond a FIN count if they come again with other content."""
    for again, more in ((reply(10, False), ''), (b'x' * REPLY, '1 frame with other content, ')):
        talk = Talk()
        frames = [*talk.opened(), *exchanged(talk, range(10)), talk.frame(1, FIN | ACK),
                  *exchanged(talk, [10]), talk.frame(1, ACK, again, ahead=-REPLY),
                  *exchanged(talk, range(11, 20)), *talk.closed()]
        told(tools, f'again {more}', pcap(frames), 1,
             [f'ok in part: 20 calls, {more}{10 * REPLY} bytes left out'])
