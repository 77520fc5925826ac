"""A run written anew: the same exchanges in another order.

`same in another order` is the word of `nfs3canon same` on two captures that are written here. So
beside the programs only this module has to be believed: what it writes of a run are its calls, each
with its replies, in one connection and in any order. The xid of a call and of its replies is the
call's turn. An exchange is written or named as left out, and each once. Nothing else is changed.
"""
from __future__ import annotations

from array import array
from collections.abc import Iterable, Iterator, Sequence
from typing import NamedTuple

from ...recordings.container import CHUNK, capture_of
from ...recordings.records import (
    FETCHED_AT_ONCE, LAST_FRAGMENT, Window, body_of, extent_of, extents)
from ...recordings.taken import Taken, TakenStream
from ...shared.outputs import write_temporary
from ...shared.places import SIDES, Side
from ...shared.programs import Died

class WrongOrder(Died):
    """An exchange is in an order twice or not at all, or its messages have several xids."""


class Numbered(NamedTuple):
    """Calls and their replies: the connection's number, and those of the records, from 1."""
    connection: int
    calls: Sequence[int]
    replies: Sequence[int]


class Records:
    """The records of a stream, each of which is used once."""

    def __init__(self, stream: TakenStream) -> None:
        self.stream = stream
        self.begins = array('Q',
                            (extent.begin for extent in extents(Window(stream), 0, stream.size)))
        self.is_used = bytearray(len(self.begins))
        self.begins.append(stream.size)
        self.block, self.block_begin = b'', 0  # bytes that were read ahead

    def use(self, number: int) -> bytes:
        """Returns the body of a record. Raises `WrongOrder` if it is not there, or was used."""
        if not 0 < number <= len(self.is_used) or self.is_used[number - 1]:
            raise WrongOrder(
                f'record {number} of a stream is not there, or comes twice in an order')
        self.is_used[number - 1] = 1
        begin, end = self.begins[number - 1], self.begins[number]
        piece = self.read(begin, end)
        if int.from_bytes(piece[:4], 'big') == LAST_FRAGMENT | len(piece) - 4:
            return piece[4:]
        return body_of(Window(self.stream), extent_of(Window(self.stream), begin, end))

    def read(self, begin: int, end: int) -> bytes:
        """Returns some bytes. More are read ahead if they follow those that were read last."""
        at = begin - self.block_begin
        if at < 0 or end > self.block_begin + len(self.block):
            is_next = at == len(self.block) or 0 < at < len(self.block)
            self.block, self.block_begin, at = self.stream.read(
                begin, max(end - begin, FETCHED_AT_ONCE * is_next)), begin, 0
        return self.block[at:at + end - begin]


class Rewriting:
    """A run that is written in an order, which is iterated over for calls, and for replies."""

    def __init__(self, taken: Taken, exchanges: Iterable[Numbered]) -> None:
        self.exchanges = exchanges
        self.records = {(connection.number, side): Records(connection.stream(side))
                        for connection in taken.connections for side in SIDES}
        self.xids = array('I')  # of the calls that were written

    def use(self, exchange: Numbered, side: Side) -> Iterator[bytes]:
        """Returns the bodies of the call, or of the replies."""
        records = self.records[exchange.connection, side]
        return map(records.use, exchange.calls if side == 'client' else exchange.replies)

    def messages(self, side: Side) -> Iterator[bytes]:
        """Returns one side's messages in the order, with new xids, as records of one fragment."""
        for turn, exchange in enumerate(self.exchanges, 1):
            for body in self.use(exchange, side):
                xid = int.from_bytes(body[:4], 'big')
                if side == 'client':
                    self.xids.append(xid)
                elif xid != self.xids[turn - 1]:
                    raise WrongOrder(f'a reply to record {exchange.calls[0]} of connection '
                                     f'{exchange.connection} has another xid')
                yield ((LAST_FRAGMENT | len(body)).to_bytes(4, 'big') + turn.to_bytes(4, 'big')
                       + body[4:])

    def leave_out(self, exchanges: Iterable[Numbered]) -> None:
        for exchange in exchanges:
            for side in SIDES:
                for _ in self.use(exchange, side):
                    pass

    def is_whole(self) -> bool:
        """Returns whether each message of the run was written or left out."""
        return all(all(records.is_used) for records in self.records.values())


class WrittenStream:
    """One side of the connection that is written."""

    def __init__(self, rewriting: Rewriting, side: Side) -> None:
        self.rewriting, self.side = rewriting, side
        self.size = 0  # bytes so far

    def blocks(self) -> Iterator[bytes]:
        """Iterates over all bytes in order, in blocks of 65,536 bytes or more and a last one."""
        block = bytearray()
        for message in self.rewriting.messages(self.side):
            block += message
            if len(block) >= CHUNK:
                self.size += len(block)
                yield bytes(block)
                block.clear()
        if block:
            self.size += len(block)
            yield bytes(block)


def write_in_order(taken: Taken, exchanges: Iterable[Numbered], left_out: Iterable[Numbered],
                   path: str, writer: type[Rewriting] = Rewriting) -> None:
    """Writes the exchanges of a run, which are iterated over twice, as a temporary capture. With
    those that are left out they are all of it: raises `WrongOrder` if not, and `OSError`."""
    rewriting = writer(taken, exchanges)
    rewriting.leave_out(left_out)
    write_temporary(path, capture_of([(WrittenStream(rewriting, 'client'),
                                       WrittenStream(rewriting, 'server'))]))
    if not rewriting.is_whole():
        raise WrongOrder('a message of a run is neither in an order nor left out')
