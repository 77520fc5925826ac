"""How two matched messages differ, item by item, and what a call of one run alone asks for. Values
that each run has its own of are bound one to one as they are met."""
from __future__ import annotations

from collections import Counter
from collections.abc import Iterable, Iterator
from dataclasses import dataclass, field

from ...exchanges.listing import Items, Message, value_in
from ...exchanges.procedures import LISTINGS, READ, WRITE
from ...exchanges.stored import Value, spelled
from ...exchanges.whose import Item
from ..values.classes import CLASSES, HANDLES, RENAMED, Mask, ValueClass, Way
from ..values.long_values import Parting, content_of, is_long, parting_between

# After one of these the rest of a reply has another layout.
DECIDING = ('reply_stat', 'reject_stat', 'accept_stat', 'status')
LAST_OF_HEAD = 'verf_body'  # RFC 5531, section 9
# Words of replies that say whether a part follows, and of calls whether a value does.
MARKS_OF_PARTS = frozenset(('attr', 'before', 'after', 'handle', 'entry'))
CHOICES = frozenset(('set_mode', 'set_uid', 'set_gid', 'set_size', 'check'))
# set_atime and set_mtime: only the server's time has no value.
TIMES, SERVER_TIME = frozenset(('set_atime', 'set_mtime')), '1'
# What a call is about: its path names it.
ABOUT = ('fh', 'name')


@dataclass(frozen=True)
class Difference:
    """One item that differs: its name, its values in both runs (None if it is in one run alone),
    and a remark.

    label, field: its name with whose it is (`whose`)
    meanings: the names of the values, of numbers that have some
    apart: where two long values part
    alike: what differences of renamed values have in common, of which each has values of its own
    objects: the paths of two file handles, if both are known
    """
    name: str
    first: Value | None
    second: Value | None
    remark: str = ''
    label: str = ''
    field: str = ''
    meanings: tuple[str, str] = ('', '')
    apart: Parting | None = None
    alike: str = ''
    objects: tuple[str, str] | None = None

    @property
    def is_equal(self) -> bool:
        """Whether both runs have one value here, which the remark says is another elsewhere."""
        return self.first == self.second and self.apart is None


def offset_of(message: Message, call: Message | None) -> int | None:
    """Returns where in the file the data of a message is, if its call or itself says it."""
    asking = message if message.is_call else call
    if asking is None or asking.procedure != (WRITE if message.is_call else READ):
        return None
    offset = asking.value_of('offset')
    return None if offset is None else int(offset)


@dataclass
class Bindings:
    """By classes of renamed values, which of the second run belongs to which of the first."""
    forth: dict[tuple[str, str], str] = field(default_factory=dict)
    back: dict[tuple[str, str], str] = field(default_factory=dict)

    def bind(self, name: str, first: str, second: str) -> str | None:
        """Binds two values of a class. Returns None if they are bound, or why they cannot be."""
        bound, owner = self.forth.get((name, first)), self.back.get((name, second))
        if bound is None and owner is None:
            self.forth[name, first], self.back[name, second] = second, first
            return None
        if bound == second:
            return None
        if bound is None:
            return f'elsewhere {second} of the second run is {owner} of the first'
        return f'elsewhere {first} of the first run is {bound} of the second'

    def renamed(self, rest: str) -> str:
        """Returns raw bytes, in hexadecimal, with each bound handle that is in them in place of the
        first run's. A handle is spelled as its length, a word, its bytes, and padding (nfs_fh3,
        RFC 1813)."""
        out, at = [], 0
        while at < len(rest):
            word = rest[at:at + 8]
            size = int(word, 16) if len(word) == 8 else 0
            handle = rest[at + 8:at + 8 + 2 * size] if 0 < size <= 64 else ''
            bound = self.forth.get((HANDLES, handle)) if handle else None
            if bound is None:
                out.append(word)
                at += 8
            else:
                out.append(f'{len(bound) // 2:08x}{bound}{"0" * (-len(bound) % 8)}')
                at += 8 + 2 * size + -2 * size % 8
        return ''.join(out)


class Comparison:
    """Compares messages under a mask. What is bound by one pair of messages holds for all that are
    compared after it.

    is_call, offset: of the messages that are compared, whether they are calls, and where in the
        file their data is, if that is the same
    """
    is_call: bool
    offset: int | None

    def __init__(self, mask: Mask) -> None:
        self.mask, self.bindings = mask, Bindings()
        self.owners: dict[tuple[str, bool], ValueClass | None] = {}

    def class_of(self, *items: Item) -> ValueClass | None:
        """Returns the masked class to which all these items of one name belong. The parts that they
        are in may decide, or their values."""
        key = name, is_call = items[0].name, self.is_call
        if key not in self.owners:
            self.owners[key] = next((one for one in CLASSES if one.name in self.mask
                                     and one.has(name, is_call)), None)
        owner = self.owners[key]
        return owner if owner and all(
            item.may_change if owner.is_of_changes else owner.has_value(str(item.value))
            for item in items) else None

    def of_values(self, one: Item, other: Item) -> Difference | None:
        """Returns how two items of one name differ, and binds renamed values."""
        name, owner = one.name, self.class_of(one, other)
        if one.value == other.value == '':
            return None
        if owner is not None and self.mask[owner.name] is Way.ZERO:
            # (raw bytes that are masked differ only in their number)
            if not owner.is_raw or len(content_of(one.value)) == len(content_of(other.value)):
                return None
            return self.difference(one, other, 'only the lengths count')
        renaming = owner.name if owner is not None else RENAMED.get(name)
        if renaming is not None:
            return self.of_renamed(renaming, owner, one, other)
        if name == 'rest':
            return self.of_raw(one, other)
        # (a machine's name has a length, which is left out with it)
        is_masked = name == 'cred_length' and 'machines' in self.mask
        return None if is_masked or one.value == other.value else self.difference(one, other)

    def of_raw(self, one: Item, other: Item) -> Difference | None:
        """Handles in raw bytes are those of the other run where they are known."""
        first, second = spelled(one.value), spelled(other.value)
        renamed = self.bindings.renamed(first)
        if renamed == second:
            return None
        remark = ('' if renamed == first
                  else 'the file handles of the first are written as those of the second')
        return self.difference(one, other, remark, first=renamed)

    def of_renamed(self, name: str, owner: ValueClass | None, one: Item,
                   other: Item) -> Difference | None:
        first, second = str(one.value), str(other.value)
        zeros = [not value.strip('0') for value in (first, second)]
        if any(zeros) and (owner is not None and owner.keeps_zero or '' in (first, second)):
            # A zero cookie, a verifier of zeros and the empty handle mean themselves alone.
            return None if first == second else self.difference(one, other, is_renamed=True)
        is_first = (name, first) in self.bindings.forth
        why = self.bindings.bind(name, first, second)
        return self.difference(one, other, why, alike=f'{name}, {is_first}',
                             is_renamed=True) if why else None

    def of_items(self, ours: Items, theirs: Items) -> list[Difference]:
        """Returns how two runs of items differ. An optional part that one of them alone has is one
        difference: the item before it, which says whether it follows."""
        found: list[Difference] = []
        for one, other in in_both(ours, theirs):
            difference = self.of_values(one, other)
            if difference:
                found.append(difference)
                if difference.name in DECIDING:
                    return found
        return found

    def of_messages(self, first: Message, second: Message, call: Message | None = None,
                    other: Message | None = None) -> list[Difference]:
        """Returns how two messages differ. The calls of two replies say where in a file their data
        is. Entries of a directory are brought together by their names, and those of one name by
        turn."""
        self.is_call, own = first.is_call, offset_of(first, call)
        self.offset = own if own == offset_of(second, other) else None
        if first.is_call or first.procedure not in LISTINGS:
            return self.of_items(first.items, second.items)
        (head, entries, tail), (other_head, other_entries, other_tail) = (
            first.parts(), second.parts())
        found = self.of_items(head, other_head)
        if any(difference.name in DECIDING for difference in found):
            return found
        return [*found, *self.of_entries(entries, other_entries), *self.of_items(tail, other_tail)]

    def of_entries(self, first: list[Items], second: list[Items]) -> Iterator[Difference]:
        """Yields how the entries of two directories differ, also in their order."""
        ours, theirs = (by_name((self.key_of_entry(entry), entry) for entry in some)
                        for some in (first, second))
        yield from (of_entry(entry_name(entry), None) for key, entry in ours.items()
                    if key not in theirs)
        yield from (of_entry(None, entry_name(entry)) for key, entry in theirs.items()
                    if key not in ours)
        for key, entry in ours.items():
            if key in theirs:
                yield from self.of_items(entry, theirs[key])
        common = [key for key in ours if key in theirs]
        others = [key for key in theirs if key in ours]
        turns = next(((ours[key], theirs[other]) for key, other in zip(common, others)
                      if key[0] != other[0]), None)
        if turns:
            yield of_entry(entry_name(turns[0]), entry_name(turns[1]),
                           'the entries come in another order')

    def key_of_entry(self, entry: Items) -> str:
        """Returns the name of an entry, in quotes, or the class of its name if that is masked."""
        item = next((one for one in entry if one.name == 'name'), None)
        owner = item and self.class_of(item)
        return owner.name if owner else entry_name(entry)

    def difference(self, one: Item, other: Item, remark: str = '', *, first: str | None = None,
                   alike: str = '', is_renamed: bool = False) -> Difference:
        """Two items that differ. `first` is what is compared with the second, if it is another."""
        parting = None
        if not is_renamed and (is_long(one.value) or is_long(other.value)
                               or first not in (None, one.value)):
            parting = parting_between(one.value if first is None else first, other.value,
                                      self.offset if one.name == 'data' else None)
        return Difference(one.name, one.value, other.value, remark, one.label, one.field,
                          (one.meaning, other.meaning), parting, alike)


def in_both(ours: Items, theirs: Items) -> Iterator[tuple[Item, Item]]:
    """Iterates over the items that are at the same place of the layouts in both messages."""
    at = to = 0
    while at < len(ours) and to < len(theirs):
        if ours[at].field == theirs[to].field:
            yield ours[at], theirs[to]
            at, to = at + 1, to + 1
        elif any(item.field == ours[at].field for item in theirs[to:]):
            to += 1
        else:
            at += 1


def by_name(entries: Iterable[tuple[str, Items]]) -> dict[tuple[str, int], Items]:
    """Returns entries by their keys, and by how many of a key are before: names may repeat."""
    counts, out = Counter[str](), dict[tuple[str, int], Items]()
    for key, entry in entries:
        out[key, counts[key]] = entry
        counts[key] += 1
    return out


def entry_name(entry: Items) -> str:
    return value_in(entry, 'name') or ''


def of_entry(first: str | None, second: str | None, remark: str = '') -> Difference:
    """Entries of a directory that come in another order, or one that is in one run alone."""
    name = 'entry' if remark else 'name'
    field = 'entry' if remark else 'entry.name'
    return Difference(name, first, second, remark, field, field)


def arguments_of(call: Message, mask: Mask) -> tuple[Item, ...]:
    """Returns the arguments of a call but for masked ones, and words that say what follows."""
    return tuple(item for item in call.after(LAST_OF_HEAD) if item.name not in CHOICES
                 and (item.name not in TIMES or item.value == SERVER_TIME)
                 and not is_zero(item, mask))


def results_of(reply: Message, mask: Mask) -> Iterator[Item]:
    """Returns what a reply says after its head, as the arguments of a call."""
    return (item for item in reply.after('status')
            if item.name not in MARKS_OF_PARTS and not is_zero(item, mask, False))


def is_zero(item: Item, mask: Mask, is_call: bool = True) -> bool:
    return any(mask.get(one.name) is Way.ZERO and not one.has_names and not one.is_of_changes
               and one.has(item.name, is_call) and one.has_value(str(item.value))
               for one in CLASSES)
