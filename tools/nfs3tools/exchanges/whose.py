"""Whose the items of a message are: of the object or the folder, before or after a change, of which
entry, or of the credential.

A message may have several items of one name, as `size` is one of the attributes of a folder before
and after. So an item has a label: whose it is by the layouts, a dot, and its name in the listing,
as in `dir after.size` or `entry "a".size`. Its field is the label without the names and numbers of
entries: `entry.size`. Both are the name alone for items of which the layouts say nothing more.
"""
from __future__ import annotations

import contextlib
from collections.abc import Iterator, Mapping, Sequence
from typing import NamedTuple, Optional

from ..shared.layouts import BY_NAME, Walk, meaning_of
from .stored import Value

DIRECTORY_TYPE = '2'  # NF3DIR
SHAPES_AT_MOST = 1 << 10  # that are kept
ANY = '*'
ItemNames = Sequence[tuple[str, Value]]  # the items of a message by name


class Item(NamedTuple):
    """An item of a listed message.

    values: the values that it may have by their names
    may_change: whether it is an attribute of wcc_data, before or after, or of a directory
    """
    name: str
    value: Value
    label: str
    field: str
    values: Optional[Mapping[int, str]]
    may_change: bool

    @property
    def meaning(self) -> str:
        return meaning_of(self.name, str(self.value), self.values)


Slot = tuple[Item, Optional[int], Optional[int]]


def labelled(words: Sequence[str], name: str) -> str:
    return f'{" ".join(words)}.{name}' if words else name


class Slots(Walk):
    """A walk through the items of a listed message.

    slots: what the layouts say of each item: an `Item` without value, and the index of the item
        whose value is in its label, in the place of `%s`; `may_change` is that of wcc_data, and the
        last index is that of the type of file, if it is one of the attributes of a file
    """

    def __init__(self, procedure: str, is_call: bool, items: ItemNames) -> None:
        super().__init__(BY_NAME.get(procedure))
        self.items, self.slots = items, list[Slot]()
        # The parts that an item is in, without and with their numbers
        self.owners, self.told = list[str](), list[str]()
        self.named_at: int | None = None
        self.type_at: int | None = None
        self.message(is_call)

    def met(self, name: str, values: Mapping[int, str] | None = None) -> str:
        """Takes an item of any kind, and returns its value."""
        at = len(self.slots)
        assert self.items[at][0] == name, self.items
        if name == 'type':
            self.type_at = at
        item = Item(name, '', labelled(self.told, name), labelled(self.owners, name), values,
                    self.owners[-1:] in (['before'], ['after']))
        self.slots.append((item, self.named_at, self.type_at))
        return str(self.items[at][1])

    def word(self, name: str, values: Mapping[int, str] | None = None,
             most: int = 0xffffffff) -> int:
        return int(self.met(name, values))

    def fixed(self, name: str, *_: object) -> None:
        self.met(name)

    def variable(self, name: str, *_: object) -> None:
        self.met(name)

    def remaining(self, name: str) -> None:
        self.met(name)

    @contextlib.contextmanager
    def whose(self, name: str, number: int = 0) -> Iterator[None]:
        """The name of a directory's entry comes after its file id."""
        at, before = len(self.slots), (self.type_at, self.named_at)
        is_named = number and [item for item, _ in self.items[at:at + 2]] == ['fileid', 'name']
        self.type_at, self.named_at = None, at + 1 if is_named else self.named_at
        self.owners.append(name)
        self.told.append(f'{name} {"%s" if is_named else number}' if number else name)
        yield
        self.owners.pop()
        self.told.pop()
        self.type_at, self.named_at = before


# The names of the items say where each of them is, so messages that have the same names share their
# slots.
SHAPES: dict[tuple[str, bool, tuple[str, ...]], list[Slot]] = {}


def items_of(procedure: str, is_call: bool, items: ItemNames) -> Iterator[Item]:
    """Iterates over the items of a listed message with all that is known of them."""
    shape = procedure, is_call, tuple(name for name, _ in items)
    if shape not in SHAPES:
        if len(SHAPES) == SHAPES_AT_MOST:
            SHAPES.clear()
        SHAPES[shape] = Slots(procedure, is_call, items).slots
    for (name, value), ((_, _, label, field, values, is_of_change), named_at, type_at) in zip(
            items, SHAPES[shape]):
        yield Item(name, value, label if named_at is None else label % items[named_at][1], field,
                   values, is_of_change or (
                       type_at is not None and items[type_at][1] == DIRECTORY_TYPE))
