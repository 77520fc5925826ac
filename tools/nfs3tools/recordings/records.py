"""Records of a stream (RFC 5531, section 11): their marks, the heads of their messages, and where a
run of them begins."""
from __future__ import annotations

import array
import collections
import re
import struct
import typing

from ..shared.places import Side

LONGEST_BODY = 1 << 24
FETCHED_AT_FIRST, FETCHED_AT_ONCE = 1 << 9, 1 << 16
LAST_FRAGMENT = 1 << 31  # RFC 5531, section 11
SEARCHED_AT_ONCE = 1 << 20
MARKS_AT_MOST = 1_000_000  # that are read in search of the first record of a run
REMEMBERED_AT_MOST = 300_000  # places from which records do not reach the end
ENOUGH_RECORDS = 3  # that a place needs if the records from it do not reach the end of the run

# AUTH_NONE, AUTH_SYS, AUTH_SHORT, AUTH_DH, RPCSEC_GSS, AUTH_TLS
FLAVOR_NUMBERS = {0, 1, 2, 3, 6, 7}
LONGEST_AUTH = 400
HEAD_OF_CALL, HEAD_OF_REPLY = 40, 20  # bytes of the shortest call and reply
LONGEST_HEAD = 28 + LONGEST_AUTH  # bytes up to the accept_stat of a reply, with the mark

# What follows the xid: mtype and rpcvers, any program, a small version and procedure, a flavor and
# the length of its body; and mtype and reply_stat, then the flavor of a verifier and its length, or
# the reason of a denial.
FLAVOR = rb'\0\0\0[\0-\x03\x06\x07]\0\0[\0\x01].'
CALL = re.compile(rb'\0\0\0\0\0\0\0\x02....\0\0\0.\0\0..' + FLAVOR, re.DOTALL)
REPLY = re.compile(rb'\0\0\0\x01\0\0\0(?:\0' + FLAVOR + rb'|\x01\0\0\0[\0\x01])', re.DOTALL)
OF_CALL = bytes(7) + b'\2'  # mtype and rpcvers
HEAD_AT, HEAD_END = 12, 24  # of the body: program, version and procedure
HEAD = struct.Struct('>II8s12s')  # a mark and what is before `HEAD_END`
NO_HEAD = 0, 0, b'', b''
BEFORE_PATTERN = 8  # bytes: the mark and the xid
RECORD_MARK = struct.Struct('>I')


class ReadableBytes(typing.Protocol):
    def read(self, begin: int, size: int) -> bytes:
        """Returns the bytes from `begin` on: `size` of them, or fewer at the end."""


PieceAt = typing.Callable[[int, int], bytes]  # reads as `ReadableBytes`


class Window:
    """Reads small pieces of bytes, which are fetched in larger ones if one is near the other."""

    def __init__(self, stored: ReadableBytes) -> None:
        self.stored, self.block, self.begin, self.fetched = stored, b'', 0, FETCHED_AT_FIRST

    def read(self, at: int, size: int) -> bytes:
        """Returns the bytes from `at` on: `size` of them, or fewer at the end."""
        offset = at - self.begin
        if offset < 0 or offset + size > len(self.block):
            is_near = 0 <= offset <= len(self.block)
            self.fetched = min(4 * self.fetched, FETCHED_AT_ONCE) if is_near else FETCHED_AT_FIRST
            self.block, self.begin, offset = self.stored.read(at, max(self.fetched, size)), at, 0
        return self.block[offset:offset + size]

    def word(self, at: int) -> int:
        return int.from_bytes(self.read(at, 4), 'big')


class Extent(typing.NamedTuple):
    """A record: where it begins with its first mark, where it ends, whether it is whole, and
    whether a mark claims more than a body may have (then nothing says where it ends)."""
    begin: int
    end: int
    is_whole: bool
    is_too_long: bool
    marks: int


def extent_of(window: Window, begin: int, end: int) -> Extent:
    """Reads the marks of the record that begins there, in bytes up to `end`."""
    at, size, marks = begin, 0, 0
    while at + 4 <= end:
        mark, marks = window.word(at), marks + 1
        size += mark & 0x7fffffff
        if size > LONGEST_BODY:
            return Extent(begin, end, False, True, marks)
        at += 4 + (mark & 0x7fffffff)
        if mark >> 31 and at <= end:
            return Extent(begin, at, True, False, marks)
        if mark >> 31:
            break
    return Extent(begin, end, False, False, marks)


def extents(window: Window, begin: int, end: int) -> typing.Iterator[Extent]:
    """Iterates over the records of a run of bytes. The last may be cut, or too long."""
    while begin < end:
        extent = extent_of(window, begin, end)
        yield extent
        for extent in plain_extents(window, extent.end, end):
            yield extent
        begin = extent.end


def plain_extents(window: Window, begin: int, end: int) -> typing.Iterator[Extent]:
    """The same of records that are whole and of one fragment, as most are, and whose marks are in
    the block that was fetched last. This is where the time goes."""
    block, unpack, make = window.block, RECORD_MARK.unpack_from, Extent._make
    shift, last = window.begin, window.begin + len(block) - 4
    while shift <= begin <= last:
        size = unpack(block, begin - shift)[0] - 0x80000000
        after = begin + 4 + size
        if not 0 <= size <= LONGEST_BODY or after > end:
            break
        yield make((begin, after, True, False, 1))
        begin = after


def fragments(window: Window, extent: Extent) -> typing.Iterator[tuple[int, int]]:
    """Iterates over where the fragments of a record begin, after their marks, and end."""
    at = extent.begin
    while at + 4 <= extent.end:
        begin = at + 4
        at = min(begin + (window.word(at) & 0x7fffffff), extent.end)
        yield begin, at


def has_head(head: bytes, side: Side) -> bool:
    """Whether the bytes of a record, its mark first, begin as a call or as a reply does."""
    if len(head) < 8 + 20:
        return False
    if side == 'client':
        mtype, rpcvers, _, version, procedure, flavor, size = struct.unpack_from(
            '>7I', head.ljust(36, b'\xff'), 8)
        return ((mtype, rpcvers) == (0, 2) and version < 256 and procedure < 65_536
                and flavor in FLAVOR_NUMBERS and size <= LONGEST_AUTH)
    mtype, status, flavor, size = struct.unpack_from('>4I', head, 8)
    if (mtype, status) == (1, 1):
        return bool(flavor <= 1)
    at = 24 + size + -size % 4
    return ((mtype, status) == (1, 0) and flavor in FLAVOR_NUMBERS and size <= LONGEST_AUTH
            and int.from_bytes(head[at:at + 4], 'big') <= 5)


class RecordChain(typing.NamedTuple):
    """The records that follow one another from a place: how many are whole, whether they reach the
    end of the run, and whether the first has one fragment."""
    begin: int
    records: int
    reaches_end: bool
    is_single: bool

    @property
    def rank(self) -> tuple[bool, bool, int]:
        """What makes it more convincing than another."""
        return (self.reaches_end, self.reaches_end and self.is_single,
                0 if self.reaches_end else self.records)


class Search:
    """The search for the first record of a run, whose beginning is missing.

    A place counts if from it record follows record up to the end of the run; the last record may be
    cut. A record of one fragment whose head is none may stand between two that have one: it is for
    the program to judge.
    """

    def __init__(self, stored: ReadableBytes, side: Side, begin: int, end: int) -> None:
        self.window, self.side, self.begin, self.end = Window(stored), side, begin, end
        self.marks = 0
        self.failed: set[int] = set()  # places from which records do not reach the end

    def first(self) -> int | None:
        """Where the first record begins: at the first place that counts, if there is one at which a
        record of one fragment begins; any bytes look like a record of many.

        If there is no place that counts, it is that with the most records, of three or more: then
        the run has a fault.
        """
        best = RecordChain(self.end, 0, False, False)
        for begin in self.places():
            best = max(best, self.walk(begin), key=lambda walk: walk.rank)
            if best.reaches_end and best.is_single or self.marks > MARKS_AT_MOST:
                break
        return best.begin if best.reaches_end or best.records >= ENOUGH_RECORDS else None

    def places(self) -> typing.Iterator[int]:
        """Iterates over the places at which a record with a head may begin."""
        pattern, at = CALL if self.side == 'client' else REPLY, self.begin
        stored, shared = self.window.stored, 64
        while at < self.end:
            block = stored.read(at, min(SEARCHED_AT_ONCE + shared, self.end - at))
            found = pattern.search(block, BEFORE_PATTERN)
            while found and found.start() - BEFORE_PATTERN < SEARCHED_AT_ONCE:
                yield at + found.start() - BEFORE_PATTERN
                found = pattern.search(block, found.start() + 1)
            at += SEARCHED_AT_ONCE

    def walk(self, begin: int) -> RecordChain:
        """Follows the records from a place on."""
        at, records, is_doubted, is_single, passed = begin, 0, False, False, array.array('Q')
        shortest = HEAD_OF_CALL if self.side == 'client' else HEAD_OF_REPLY
        while at < self.end and at not in self.failed and not self.is_hopeless(at):
            extent = extent_of(self.window, at, self.end)
            self.marks += extent.marks
            is_good = self.is_good(extent, shortest)
            if extent.is_too_long or not is_good and (is_doubted or not extent.is_whole
                                                      or at == begin or extent.marks > 1):
                break
            passed.append(at)
            is_single |= at == begin and extent.marks == 1
            is_doubted, at, records = not is_good, extent.end, records + extent.is_whole
        reaches_end = at >= self.end and records > 0
        if not reaches_end and len(self.failed) < REMEMBERED_AT_MOST:
            self.failed.update(passed[:REMEMBERED_AT_MOST])
        return RecordChain(begin, records, reaches_end, is_single)

    def is_hopeless(self, at: int) -> bool:
        """Whether a record of several fragments, which has no head, begins there."""
        self.marks += 1
        head = self.window.read(at, min(self.end - at, LONGEST_HEAD))
        return len(head) == LONGEST_HEAD and not head[0] >> 7 and not has_head(head, self.side)

    def is_good(self, extent: Extent, shortest: int) -> bool:
        """Whether a record has a head, of which a record that is cut may have less."""
        head = self.window.read(extent.begin, min(extent.end - extent.begin, LONGEST_HEAD))
        if not extent.is_whole and len(head) < 4 + shortest:
            return len(head) < 12 or int.from_bytes(head[8:12], 'big') == (self.side == 'server')
        length = int.from_bytes(head[:4], 'big') & 0x7fffffff
        return length >= shortest and has_head(head, self.side)


def end_of_whole(window: Window, begin: int, end: int) -> int:
    """Where the last whole record of a run ends; the end of the run if a mark says nothing."""
    for extent in extents(window, begin, end):
        if not extent.is_whole:
            return end if extent.is_too_long else extent.begin
    return end


def xids(window: Window, begin: int, end: int) -> typing.Iterator[tuple[Extent, int, int]]:
    """Iterates over the records of a run with their xids and mtypes, -1 for what they lack."""
    for extent in extents(window, begin, end):
        first = next(fragments(window, extent), (extent.end, extent.end))
        head = window.read(first[0], min(8, first[1] - first[0]))
        if len(head) < 8:
            head = body_of(window, extent, 8)
        whole = len(head) >= 8
        yield (extent, int.from_bytes(head[:4], 'big') if whole else -1,
               int.from_bytes(head[4:8], 'big') if whole else -1)


class Heads(typing.NamedTuple):
    """What the records of a stream begin with: where each is, the xids of those that have one, and
    how many calls of version 2 have each program, version and procedure."""
    begins: array.array[int]
    xids: array.array[int]
    calls: collections.Counter[bytes]


def heads_of(window: Window, size: int, piece_at: PieceAt | None = None) -> Heads:
    """Reads the heads of all records of a stream. This is where the time goes: most records have
    one fragment, and are read here, by `piece_at` if it is given; `add_head` reads the others."""
    heads = Heads(array.array('Q'), array.array('I'), collections.Counter())
    begins, xids_of_all, calls = heads
    at, unpack, shortest, read = 0, HEAD.unpack, HEAD_END | LAST_FRAGMENT, piece_at or window.read
    while at < size:
        begins.append(at)
        piece = read(at, HEAD.size)
        mark, xid, kind, call = unpack(piece) if len(piece) == HEAD.size else NO_HEAD
        end = at + 4 + mark - LAST_FRAGMENT
        if not shortest <= mark <= LONGEST_BODY | LAST_FRAGMENT or end > size:
            at = add_head(heads, window, at, size)
            continue
        xids_of_all.append(xid)
        if kind == OF_CALL:
            calls[call] += 1
        at = end
    return heads


def add_head(heads: Heads, window: Window, begin: int, size: int) -> int:
    """Adds the head of any record, and returns where it ends."""
    extent = extent_of(window, begin, size)
    head = body_of(window, extent, HEAD_END)
    if len(head) >= 8:
        heads.xids.append(int.from_bytes(head[:4], 'big'))
    if head[4:HEAD_AT] == OF_CALL and len(head) == HEAD_END:
        heads.calls[head[HEAD_AT:]] += 1
    return extent.end


def body_of(window: Window, extent: Extent, most: int = LONGEST_BODY) -> bytes:
    """The first bytes of a record's body, `most` of them."""
    body = bytearray()
    for begin, end in fragments(window, extent):
        body += window.stored.read(begin, min(end - begin, most - len(body)))
        if len(body) >= most:
            break
    return bytes(body)
