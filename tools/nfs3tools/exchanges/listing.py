"""The listing of a capture, as `nfs3canon show` prints it: lines and messages."""
from __future__ import annotations

import re
import tempfile
from collections.abc import Callable, Iterator, Sequence
from dataclasses import dataclass, field
from functools import cached_property
from typing import NamedTuple

from ..recordings.coverage import call_named
from ..recordings.taken import Completion, TakenConnection
from ..shared.layouts import RAW
from ..shared.places import Place
from ..shared.programs import lines_of_program
from .stored import LongValues
from .whose import Item, items_of

ITEM = re.compile(r' ([^=]+)=("[^"]*"|[^ ]*)')
CALLED_NUMBERS = re.compile(r' ?mtype=0 rpcvers=2 prog=(\d+) vers=(\d+) proc=(\d+) ')
STATUS_AFTER_FAULT = 2  # the status of `show` after a fault
Items = tuple[Item, ...]
Framing = Callable[[Place], Sequence[int]]
LinePlace = tuple[int, bool, int]  # a connection, whether it is a call, and its record


class Line(NamedTuple):
    """A line of a listing, of which the items are not read: ` mtype=0 ..`, up to its end."""
    connection: int
    is_call: bool
    record: int
    xid: int
    procedure: str
    text: str

    def message(self, values: LongValues | None = None) -> Message:
        """Returns its message. A long value is put among `values`, if there are some."""
        message = Message(*self[:5], values.cut(self.text) if values else self.text)
        message.values = values
        return message


def line_of(line: str) -> Line:
    # (the items are copied once, since they may be long)
    end = line.index(' ', line.index(' xid=') + 1)
    items = line.index(' ', end + 1)
    connection, side, record, xid = line[:end].split(' ')
    return Line(int(connection), side == 'client', int(record), int(xid[4:]), line[end + 1:items],
                line[items:len(line) - line.endswith('\n')])


def place_of(line: str) -> LinePlace:
    connection, side, record = line[:line.index(' xid=')].split(' ')
    return int(connection), side == 'client', int(record)


class Message(Line):
    """A call or a reply, where it is in its capture, and what it says, perhaps with marks.
    `framing` finds its frames, if they are known."""
    values: LongValues | None = None
    framing: Framing | None = None

    @cached_property
    def frames(self) -> Sequence[int]:
        """The numbers of the frames that carry it."""
        return self.framing(self.place) if self.framing else []

    @property
    def place(self) -> Place:
        return Place(self.connection, 'client' if self.is_call else 'server', self.record)

    @cached_property
    def items(self) -> tuple[Item, ...]:
        """Its items after the xid, read once they are asked for."""
        some = ITEM.findall(self.text)
        long = self.values
        return tuple(items_of(self.procedure, self.is_call, [
            (name, long.value(word) if long else word) for name, word in some]))

    def value_of(self, name: str) -> str | None:
        return value_in(self.items, name)

    def after(self, name: str) -> Items:
        """Returns the items after the first of a name, or all if there is none."""
        return self.items[next((at for at, item in enumerate(self.items, 1)
                                if item.name == name), 0):]

    def parts(self) -> tuple[Items, list[Items], Items]:
        """Returns the items before the entries of a folder, those of each, and those after them."""
        begins = [at for at, item in enumerate(self.items) if item.name == 'entry']
        first, last = (begins[0], begins[-1]) if begins else (len(self.items), len(self.items))
        return (self.items[:first], [self.items[at:end] for at, end in zip(begins, begins[1:])],
                self.items[last:])


def value_in(items: Items, name: str) -> str | None:
    return next((str(item.value) for item in items if item.name == name), None)


@dataclass
class Exchange:
    call: Message
    replies: list[Message] = field(default_factory=list)


def name_of_call(name: str, said: str) -> str:
    if name != RAW.name:
        return name
    read = CALLED_NUMBERS.match(said)
    assert read, said[:200]
    program, version, procedure = map(int, read.groups())
    return call_named(program, version, procedure)


def is_call(line: str) -> bool:
    """Whether a line of a listing of one connection is that of a call, as `1 client 1 ..` is."""
    return line[2] == 'c'


def listed_of(program: str, connection: TakenConnection,
              is_refused: bool) -> Iterator[tuple[str, Completion]]:
    """Iterates over the lines of a connection's listing, as that of connection 1, first its calls
    and then its replies, up to its fault if the program refuses it, each with what completed its
    record. Raises `Died` if the program ends otherwise, and `OSError`."""
    calls, replies = connection.client.completions(), connection.server.completions()
    with tempfile.TemporaryFile(prefix='nfs3canon') as capture:
        try:
            capture.writelines(connection.capture())
            capture.seek(0)
        except OSError as failed:
            raise OSError(failed.errno, failed.strerror or str(failed),
                          'a temporary file') from failed
        for line in lines_of_program(program, ['show', '/dev/stdin'],
                                     STATUS_AFTER_FAULT if is_refused else 0, capture):
            yield line, next(calls if is_call(line) else replies)
