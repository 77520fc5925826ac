"""The items of a call or of a reply as values, by one pattern for each layout.

    read_call('NFSPROC3_READ', said)           # {'fh': '01ab', 'offset': 0, 'count': 4096}
    read_reply('NFSPROC3_READ', said, values)  # (0, {'obj.size': 5, .., 'data': b'alpha'})

`said` is what the listing has after the name of the procedure. An item has the name of its layout,
after the name of its owner if it has one. What is absent has no name. Numbers are integers, times
pairs of seconds and nanoseconds, handles and verifiers digits, names as the listing spells them,
and data bytes, which are read only if `values` is given, which keeps long ones.
"""
from __future__ import annotations

import functools
import re
from collections.abc import Callable, Iterable, Mapping
from operator import itemgetter
from typing import Any, NamedTuple, Optional, Union

from ..shared.layouts import BY_NAME, PARTS, RAW, LayoutItem, cases_of, layout_items
from .answering import REPLY_STATUS
from .stored import Long, LongValues

Values = dict[str, Any]
Data = Union[bytes, Long]  # of a READ or a WRITE
Time = tuple[int, int]  # seconds and nanoseconds
(DATA_ITEM,) = layout_items('o:data')
CALL_HEAD = re.compile(r' mtype=0 rpcvers=2 prog=\d+ vers=\d+ proc=\d+ cred_flavor=\d+ '
                       r'(?:cred_body=\w*|cred_length=\d+ stamp=\d+ machinename="[^"]*" uid=(\d+) '
                       r'gid=\d+ gids=\d+(?: group=\d+)*) verf_flavor=0 verf_body=\w*')
TIMES_KEPT_AT_MOST = 1_024  # times that are made once


@functools.lru_cache(TIMES_KEPT_AT_MOST)
def time_in(text: str) -> Time:
    """Returns a time of the listing, as `5 mtime_nsec=0` after `mtime_sec=`."""
    first, _, rest = text.partition(' ')
    return int(first), int(rest.partition('=')[2])


# Of each kind of item the pattern behind its name, and what makes a value of it.
NUMBER = r'=(\d+)', int
ITEM_KINDS: Mapping[str, tuple[str, Callable[[str], object]]] = {
    't': (r'="([^"]*)"', str), **dict.fromkeys(('o', 'x'), (r'=(\w*)', str)),
    **dict.fromkeys(('atime', 'mtime', 'ctime'), (r'_sec=(\d+ \w+=\d+)', time_in))}


class OwnedItem(NamedTuple):
    """An item with its owners, as `dir` and `after`."""
    owners: tuple[str, ...]
    name: str


OWNED_ITEMS = dict[str, OwnedItem]()  # by their names among values, as `dir.after.size`


def owned(label: str) -> OwnedItem:
    return OWNED_ITEMS.get(label) or OwnedItem((), label)


class Layout:
    """How the items of a layout are read: a pattern, the names of its groups, and what makes values
    of them. Data of a file may follow, or entries of a directory, in a layout of their own."""

    def __init__(self, text: str) -> None:
        self.names, self.makers = list[str](), list[Callable[[str], object]]()
        items = layout_items(PARTS.get(text, text))
        lists = [at for at, item in enumerate(items) if item.kind == 'list']
        self.entry = layout_of(items[lists[0]].inner) if lists else None
        self.has_data = items[-1:] == (DATA_ITEM,)
        self.pattern = re.compile(self.of_items(
            items[:lists[0] if lists else len(items) - self.has_data]))

    def of_items(self, items: Iterable[LayoutItem], owners: tuple[str, ...] = ()) -> str:
        """Returns the pattern of some items, and adds the names of its groups."""
        return ''.join(self.of_item(item, (*owners, item.owner) if item.owner else owners)
                       for item in items)

    def of_part(self, part: str, owners: tuple[str, ...]) -> str:
        return self.of_items(layout_items(PARTS.get(part, part)), owners)

    def of_item(self, item: LayoutItem, owners: tuple[str, ...]) -> str:
        kind, name, inner = item.kind, item.name, item.inner
        if not kind and name not in ITEM_KINDS:
            return self.of_part(name, owners)
        if kind == 'opt':
            return f' {name}=(?:0|1{self.of_part(inner, owners)})'
        pattern, maker = ITEM_KINDS.get(kind or name, NUMBER)
        self.names.append('.'.join((*owners, name)))
        OWNED_ITEMS[self.names[-1]] = OwnedItem(owners, name)
        self.makers.append(maker)
        parts = dict.fromkeys(cases_of(inner).values()) if kind == 'case' else ()
        cases = '|'.join(self.of_part(part, owners) for part in parts)
        return f' {name}{pattern}' + (f'(?:{cases}|)' if cases else '')

    def read(self, said: str, at: int, long_values: LongValues | None) -> Values:
        out, end = self.items(said, at)
        if self.has_data and long_values:
            data = long_values.value(said[end + len(' data='):])
            out['data'] = data if isinstance(data, Long) else bytes.fromhex(data)
        if self.entry is not None:
            entries = out['entries'] = list[Values]()
            while said.startswith(' entry=1', end):
                entry, end = self.entry.items(said, end + len(' entry=1'))
                entries.append(entry)
            out['eof'] = int(said[end:].rpartition('eof=')[2])
        return out

    def items(self, said: str, at: int) -> tuple[Values, int]:
        """Reads the items that the pattern has, and returns where they end as well."""
        found = self.pattern.match(said, at)
        assert found, said[at:at + 200]
        values = zip(self.names, self.makers, found.groups())
        return {name: make(value) for name, make, value in values if value is not None}, found.end()


layout_of = functools.cache(Layout)


# The last head of each procedure, and its user: most calls have that of the one before.
LAST_HEADS = dict[str, tuple[str, Optional[int]]]()


def head_of(procedure: str, said: str) -> tuple[str, int | None]:
    """Returns what a call says before its arguments, and the user in that."""
    last = LAST_HEADS.get(procedure)
    # (the head ends before a space; with the same text before it, it is the same head)
    if last and said.startswith(last[0]) and said[len(last[0]):len(last[0]) + 1] in ' ':
        return last
    head = CALL_HEAD.match(said)
    assert head, said[:200]
    found = LAST_HEADS[procedure] = head[0], int(head[1]) if head[1] else None
    return found


def read_call(procedure: str, said: str, long_values: LongValues | None = None) -> Values:
    if procedure == RAW.name:
        return {}
    head, _ = head_of(procedure, said)
    return layout_of(BY_NAME[procedure].arguments).read(said, len(head), long_values)


def read_reply(procedure: str, said: str,
               long_values: LongValues | None = None) -> tuple[int | None, Values]:
    """Returns the status and the results of a reply: no status if the call was not accepted."""
    found = REPLY_STATUS.match(said)
    assert found, said[:200]
    if found[1] != '0' or procedure == RAW.name:
        return None, {}
    status, layouts = int(found[2] or 0), BY_NAME[procedure]
    layout = layout_of(layouts.failed if status else layouts.done)
    return status, layout.read(said, found.end(), long_values)


def handle_found(procedure: str, said: str) -> str:
    """Returns the handle with which the results of a success begin, or nothing."""
    found, layout = REPLY_STATUS.match(said), BY_NAME[procedure].done
    if found is None or found[2] != '0':
        return ''
    first, *_ = layout_items(PARTS.get(layout, layout))
    return str(layout_of(first.name).items(said, found.end())[0].get('fh', ''))


class Attributes(NamedTuple):
    """What a reply says of an object: its attributes (fattr3, RFC 1813), or of what it was before
    an operation the first three (wcc_attr)."""
    size: int
    mtime: Time
    ctime: Time
    type: int = 0
    mode: int = 0
    uid: int = 0
    gid: int = 0
    fsid: int = 0
    fileid: int = 0
    nlink: int = 0
    atime: Time = (0, 0)


@functools.cache
def getter(owner: str, number: int) -> Callable[[Values], tuple[Any, ...]]:
    return itemgetter(*(owner + name for name in Attributes._fields[:number]))


def attributes(values: Values, owner: str = '') -> Attributes | None:
    """Returns what some values say of an owner's object, as `obj.after.`, if they do."""
    if owner + 'size' not in values:
        return None
    number = len(Attributes._fields) if owner + 'type' in values else 3
    return Attributes(*getter(owner, number)(values))


def seconds(time: Time) -> str:
    return f'{time[0]}.{time[1]:09}'


def size_of_entry(entry: Values) -> int:
    """Returns how many bytes of XDR an entry of a directory has, with the word before it."""
    # (the listing spells a byte that is no letter with four)
    sizes: list[int] = [len(entry['name']) - 3 * entry['name'].count('\\x')]
    sizes += [len(entry['fh']) // 2] if 'fh' in entry else []
    of_plus = 8 + 84 * ('type' in entry) if 'listed.fileid' in entry else 0
    return 4 + 8 + 8 + of_plus + sum(4 + (size + 3) // 4 * 4 for size in sizes)
