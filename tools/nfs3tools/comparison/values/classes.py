"""Classes of values that two ordinary runs never share, and how each is masked."""
from __future__ import annotations

import argparse
import enum
import re
from dataclasses import dataclass

from ...shared.printed import near

class Way(enum.Enum):
    """How values of a class are masked: as zero, or as their numbers by first appearance."""
    ZERO = 'zero'
    NUMBER = 'number'


@dataclass(frozen=True)
class ValueClass:
    """A class of values: the names of its items, how it is masked, and whether by default."""
    name: str
    items: frozenset[str]
    way: Way
    is_default: bool
    meaning: str
    # Whether a zero has a meaning of its own (RFC 1813, section 3.3.16), and so stays zero.
    keeps_zero: bool = False
    # Whether its items count in calls only: a name may mean something else in a reply.
    only_in_calls: frozenset[str] = frozenset()
    # Whether its items count only in replies, in the attributes of wcc_data and in those of
    # directories.
    is_of_changes: bool = False
    # The form of its values, if not all values of its items are of the class.
    form: re.Pattern[str] | None = None
    # Whether its values are names, which have no numbers: they become empty, or have 0 for each
    # digit.
    has_names: bool = False
    # Whether its values are bytes of any number, which stays: each becomes 0, and none has a
    # number.
    is_raw: bool = False

    def has(self, name: str, is_call: bool) -> bool:
        """Returns whether an item of this name, in a call or a reply, may be of the class."""
        return (name in self.items and (is_call or name not in self.only_in_calls)
                and not (is_call and self.is_of_changes))

    def has_value(self, value: str) -> bool:
        """Returns whether a value, as the listing spells it, may be one of the class."""
        return self.form is None or self.form.fullmatch(value) is not None


CLASSES = (
    ValueClass('times', frozenset(f'{time}_{part}' for time in ('atime', 'mtime', 'ctime')
                                  for part in ('sec', 'nsec')), Way.ZERO, True,
               'times of files, in attributes, guards and settings'),
    ValueClass('stamps', frozenset(('stamp',)), Way.ZERO, True, 'stamps of AUTH_SYS credentials'),
    ValueClass('machines', frozenset(('machinename', 'hostname')), Way.ZERO, True,
               'names of machines in AUTH_SYS credentials, and of hosts in replies to DUMP',
               has_names=True),
    ValueClass('space', frozenset(('tbytes', 'fbytes', 'abytes', 'tfiles', 'ffiles', 'afiles',
                                   'invarsec', 'used')), Way.ZERO, True,
               'counts of free space, and the space that a file uses'),
    ValueClass('ids', frozenset(('fileid',)), Way.NUMBER, True, 'file ids'),
    ValueClass('fsids', frozenset(('fsid',)), Way.NUMBER, True, 'file system ids'),
    ValueClass('cookies', frozenset(('cookie',)), Way.NUMBER, True, 'cookies of directories',
               keeps_zero=True),
    ValueClass('cookieverfs', frozenset(('cookieverf',)), Way.NUMBER, True, 'cookie verifiers',
               keeps_zero=True),
    ValueClass('createverfs', frozenset(('createverf',)), Way.NUMBER, True,
               'verifiers of exclusive creates'),
    ValueClass('owners', frozenset(('uid', 'gid', 'group')), Way.NUMBER, False,
               'users and groups, in credentials and attributes',
               only_in_calls=frozenset(('group',))),
    ValueClass('wcc', frozenset(('size', 'nlink')), Way.ZERO, False,
               'sizes and counts of links, in replies, that others may change meanwhile',
               is_of_changes=True),
    ValueClass('sillynames', frozenset(('name',)), Way.ZERO, True,
               'names that Linux clients give to removed files that are open: .nfs and 24 digits',
               form=re.compile(r'"\.nfs[0-9a-f]{24}"'), has_names=True),
    ValueClass('raw', frozenset(('rest',)), Way.ZERO, False,
               'bodies of messages of other programs and versions, whose lengths stay',
               is_raw=True))
HANDLES, VERIFIERS = 'handles', 'write verifiers'
RENAMED = {'fh': HANDLES, 'verf': VERIFIERS}  # by the names of items
CLASSES_BY_NAME = {one.name: one for one in CLASSES}

Mask = dict[str, Way]
# A word of `--mask`: its sign, its name, and its way, or nothing in their places.
MASK_WORD = re.compile(r'(?=[^,])([+-]?)[+-]*([^,=]*)=?([^,]*)')


def default_mask() -> Mask:
    return {one.name: one.way for one in CLASSES if one.is_default}


def changed_mask(mask: Mask, sign: str, name: str, way: str) -> Mask:
    """Returns a mask with a class added (`+NAME`), removed (`-NAME`) or masked so (`NAME=zero`)."""
    if name not in CLASSES_BY_NAME:
        meant = near(name, CLASSES_BY_NAME) or f' (there are {", ".join(CLASSES_BY_NAME)})'
        raise argparse.ArgumentTypeError(f'no class of values: {name}{meant}')
    if way and way not in ('zero', 'number'):
        raise argparse.ArgumentTypeError(f'{name} is masked as zero or number, not as {way}')
    if sign == '-':
        return {kept: how for kept, how in mask.items() if kept != name}
    one = CLASSES_BY_NAME[name]
    if way == 'number' and one.is_raw:
        raise argparse.ArgumentTypeError(f'{name} is masked as zero, not as number')
    return {**mask, name: Way(way) if way and not one.has_names else one.way}


def mask_of(text: str) -> Mask:
    """Reads the word of `--mask`. Words with `+` or `-` change the default mask."""
    words = [word for word in MASK_WORD.findall(text) if word != ('', 'none', '')]
    mask = default_mask() if words and all(sign for sign, *_ in words) else {}
    for word in words:
        mask = changed_mask(mask, *word)
    return mask


def mask_word(text: str) -> str:
    mask_of(text)
    return text


# Classes that are zero while exchanges are brought together in any order. What is compared has them
# as `--mask` has it.
RELAXED = ('ids', 'createverfs', 'cookies', 'wcc', 'raw')
# Classes whose values follow their objects in any order: ids their files, cookies their entries,
# and verifiers the files that are created.
FOLLOWING_CLASSES = frozenset(('ids', 'fsids', 'cookies', 'createverfs'))


def in_any_order(text: str | None, has_raw: bool = False) -> list[Mask]:
    """Returns the mask of `--mask`, and that under which exchanges are brought together in another
    order, with relaxed classes as zero. A class that `--mask` names stays as it is, and so does a
    mask that is given as a whole. Raw bodies are masked only if there are some."""
    mask, named = default_mask() if text is None else mask_of(text), named_in(text)
    relaxed = {name: Way.ZERO for name in (RELAXED if has_raw else RELAXED[:-1])
               if named is not None and name not in named}
    return [mask, {**mask, **relaxed}] if relaxed else [mask]


def named_in(text: str | None) -> frozenset[str] | None:
    """Returns the classes that `--mask` changes, or None if it is the whole mask."""
    words = MASK_WORD.findall(text or '')
    return frozenset(name for _, name, _ in words) if all(sign for sign, *_ in words) else None


def following(text: str | None) -> frozenset[str]:
    """Returns the classes that `--mask` does not name, whose values may follow their objects."""
    named = named_in(text)
    return frozenset() if named is None else FOLLOWING_CLASSES - named


def mask_text(mask: Mask, comma: str = ',') -> str:
    """Returns the mask as `--mask` takes it."""
    return comma.join(f'{name}={way.value}' for name, way in mask.items()) or 'none'
