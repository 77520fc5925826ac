"""What is in a record, or at one of its bytes, line by line: its message, the item with its value
and what may be there, and the bytes. Each line is passed to `tell` as soon as it is made, since a
record may have very many of them.
"""
from __future__ import annotations

import contextlib
from collections.abc import Callable, Container, Iterable, Iterator, Sequence

from ..shared.layouts import Body, BodyReader, PlacedItem, Procedure, procedure_of
from ..shared.places import Place
from .located import UP_TO_PROCEDURE, Call, FoundRecord, call_with_xid, numbers_in

LINES_AROUND = 8  # of 16 bytes, before and after the byte of a long record
ITEM_BYTES_AT_MOST = 100  # bytes of an item
NANOSECOND_ITEMS = frozenset(('atime_nsec', 'mtime_nsec', 'ctime_nsec', 'delta_nsec'))
Tell = Callable[[str], object]
NO_REASON = 'no reason of nfs3canon', 'not known'

# What reasons of the program mean, and their likely causes, as docs/FORMATS.md has them.
REASONS = {
    'BadMagic': (
        'a capture begins with NFS3CAP1 or NFS3CAP2',
        'no capture: a recording of packets goes through tools/from_pcap first'),
    'CaptureCut': (
        'the file ends before it is complete',
        'a copy that was broken off, or a full disk'),
    'BadMark': (
        'a connection word is 0 or 1, and of version 2 a side word 0, 1 or 2, and a length word '
        'at least 1',
        "a program that writes captures counts a chunk's bytes wrongly"),
    'AfterEnd': ('nothing follows the last word 0', 'two captures one after the other'),
    'TooManyConnections': ('there are at most 65,535', 'a recording of days'),
    'TooManyBytes': (
        'all streams together have at most 1,073,741,824 bytes',
        'much data: take single connections'),
    'RecordCut': ('the stream ends in this record', 'missing bytes, or the end of the recording'),
    'RecordTooLong': (
        'the body of a record has at most 16,777,216 bytes',
        'bytes before are missing; or it is no RPC'),
    'Short': ('the body ends before this item is whole', 'a message that its sender built wrongly'),
    'Trailing': (
        'the message ends before this byte, and the body does not',
        'a sender that adds to a message, or fills it up'),
    'BadBool': (
        'a bool is 0 or 1',
        'a sender that takes any number for true; an older draft of a layout'),
    'BadEnum': (
        'this value is not listed',
        "a number of the sender's own, as a status of its system"),
    'TooLong': (
        'the length or count is over its maximum',
        'a sender with larger handles, names or credentials'),
    'RpcVersion': ('the RPC version is 2', 'another protocol'),
    'Flavor': (
        'other flavors are not taken, as that of RPCSEC_GSS, which is 6',
        'RPCSEC_GSS (6: Kerberos), AUTH_SHORT (2), AUTH_TLS (7)'),
    'AuthLength': (
        'the length is not that of the parameters',
        'a client that builds its credential wrongly'),
    'WrongSide': (
        "calls are the client's, and replies the server's",
        "the streams changed places; callbacks of NFS version 4.1 on the client's connection"),
    'NoCall': (
        'no call of the connection has this xid, perhaps since its call was not recorded',
        'the recording began after the call, or lacks it'),
    'XidConflict': (
        'an earlier call of the connection has this xid and another procedure',
        'a client that begins its xids anew, as after a restart, or counts them in few bits')}


def tell_record(found: FoundRecord, place: Place, reason: str | None, tell: Tell) -> None:
    """The item at a byte, with why it is refused, or all items."""
    head, is_call = found.body[:UP_TO_PROCEDURE], place.side == 'client'
    call = None if is_call else call_with_xid(found.calls, head[:4])
    procedure = tell_heading(place, found.body, call, tell)
    if place.byte is None:
        tell_items(found.body, is_call, procedure, tell)
        return
    begin, end = tell_item(found.body, is_call, procedure, place.byte, tell)
    earlier = (call_with_xid(found.calls, head[:4], place.record)
               if reason == 'XidConflict' else None)
    if earlier:
        name = procedure_of(*earlier.numbers).name
        tell('earlier: client record %d, %s' % (earlier.record, name))
    if reason:
        tell(reason_in_words(reason))
    tell_bytes(found.body, begin, end, place.byte, tell)


def item_of(items: Sequence[PlacedItem], names: Container[str],
            others: Iterable[PlacedItem] = ()) -> PlacedItem | None:
    """Returns the first item with one of some names that is odd, or that another message does not
    have, or else the first of all, if there is one."""
    known = {(one.name, one.value) for one in others}
    some = [one for one in items if one.name in names]
    odd = [one for one in some if remark_on_item(one)] or [
        one for one in some if known and (one.name, one.value) not in known] or some
    return odd[0] if odd else None


def items_in(found: FoundRecord, place: Place) -> list[PlacedItem]:
    is_call = place.side == 'client'
    call = None if is_call else call_with_xid(found.calls, found.body[:4])
    message = BodyReader(found.body, None, ITEM_BYTES_AT_MOST)
    message.read(is_call, tell_heading(place, found.body, call, lambda _: None))
    return message.items


def tell_heading(place: Place, body: Body, call: Call | None, tell: Tell) -> Procedure | None:
    """What the message is. Returns its procedure if that is known."""
    head, is_call = body[:UP_TO_PROCEDURE], place.side == 'client'
    numbers = call.numbers if call else numbers_in(head)
    procedure = procedure_of(*numbers) if call or is_call and len(head) == UP_TO_PROCEDURE else None
    named = ('%s of program %d, version %d, procedure %d' % (procedure.name, *numbers) if procedure
             else 'of a procedure that is not known')
    tell('%s: %s %s' % (place._replace(byte=None), 'call' if is_call else 'reply', named))
    xid = 'xid %d' % int.from_bytes(head[:4], 'big') if len(head) >= 4 else 'no xid'
    answered = ', to call record %d' % call.record if call else ''
    tell('%s, a body of %d bytes%s' % (xid, len(body), answered))
    return procedure


class OwnedReader(BodyReader):
    """A reader of items that knows whose each is, as `dir after`."""

    def __init__(self, body: Body, tell: Callable[[PlacedItem], object]) -> None:
        super().__init__(body, tell, ITEM_BYTES_AT_MOST)
        self.owners: list[str] = []

    @contextlib.contextmanager
    def whose(self, name: str, number: int = 0) -> Iterator[None]:
        self.owners.append(f'{name} {number}' if number else name)
        yield
        self.owners.pop()

    def label(self, item: PlacedItem) -> str:
        """The name of the item that was just read, with whose it is."""
        return f'{" ".join(self.owners)}.{item.name}' if self.owners else item.name


def tell_items(body: Body, is_call: bool, procedure: Procedure | None, tell: Tell) -> None:
    """All items that have bytes, up to the end or to the first that is at fault."""
    last = list[PlacedItem]()

    def look(item: PlacedItem) -> None:
        last[:] = [item]
        if item.begin < item.end or not item.is_whole:
            tell(item_line(item, message.label(item), item.begin))

    message = OwnedReader(body, look)
    if not message.read(is_call, procedure):
        tell('allowed: %s' % last[0].allowed)
    if message.at < len(body):
        more = len(body) - message.at
        tell('byte %d: %d bytes more, which are not taken apart' % (message.at, more))


def tell_item(body: Body, is_call: bool, procedure: Procedure | None, byte: int,
              tell: Tell) -> tuple[int, int]:
    """The item at a byte. Returns where it begins and ends."""
    found = list[tuple[PlacedItem, str]]()

    def look(item: PlacedItem) -> None:
        is_there = item.begin <= byte < item.end or item.begin == byte and not item.is_whole
        if not found and is_there:
            found.append((item, message.label(item)))

    message = OwnedReader(body, look)
    message.read(is_call, procedure)
    for item, label in found:
        tell(item_line(item, label, byte))
        tell('allowed: %s' % item.allowed)
        return item.begin, item.end
    is_within = byte < len(body)
    where = 'after the last item of the message' if is_within else 'the end of the body'
    tell('byte %d: %s' % (byte, where))
    return byte, len(body)


def item_line(item: PlacedItem, label: str, byte: int) -> str:
    value = item.value + '..' if item.end - item.begin > ITEM_BYTES_AT_MOST else item.value
    remarks = ': '.join(filter(None, (item.meaning, remark_on_item(item))))
    return 'byte %d: %s = %s%s' % (byte, label,
                                   value or 'nothing, since the body ends here',
                                   ' (%s)' % remarks if remarks else '')


def remark_on_item(item: PlacedItem) -> str:
    """What is valid in an item and still not as RFC 1813 means it: bits of a mode beyond its twelve
    (mode3), and a second in nanoseconds (nfstime3)."""
    if item.is_whole and item.name == 'mode' and int(item.value) & ~0o7777:
        return 'has bits of the type'
    if item.is_whole and item.name in NANOSECOND_ITEMS and int(item.value) >= 10**9:
        return 'a second or more'
    return ''


def tell_bytes(data: Body, begin: int, end: int, byte: int, tell: Tell) -> None:
    """Lines of 16 bytes, of a long run those around a byte, with some bytes in brackets."""
    low, high = 0, len(data)
    if high > 32 * LINES_AROUND:
        low = max(0, byte // 16 - LINES_AROUND) * 16
        high = min(high, (min(end, byte + 64) // 16 + LINES_AROUND) * 16)
    for at in range(low - low % 16, high, 16):
        piece = data[at:at + 16]
        cells = ('%s%02x%s' % ('[' if place == begin else ' ', value,
                               ']' if place == end - 1 else ' ')
                 for place, value in enumerate(piece, at))
        text = ''.join(chr(byte) if 32 <= byte < 127 else '.' for byte in piece)
        tell('%8d %-64s %s' % (at, ''.join(cells), text))


def reason_in_words(reason: str) -> str:
    return f'{reason}: {REASONS.get(reason, NO_REASON)[0]}'
