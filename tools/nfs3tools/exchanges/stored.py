"""Texts and long values of a listing in temporary files.

    values = LongValues()
    text = values.cut(' count=4096 data=6162..')    # ' count=4096 data=#0+4096:9f86..'
    values.value('#0+4096:9f86..').read(0, 10)      # the first ten bytes
"""
from __future__ import annotations

import hashlib
from array import array
from dataclasses import dataclass, field
from typing import Union

from ..recordings.records import FETCHED_AT_ONCE
from ..recordings.spool import Spool, Stored

DIGITS_IN_TEXT = 1_024  # digits of a value that is part of its text
LONG_MARK = '#'  # with which no value of a listing begins


@dataclass(frozen=True)
class Long:
    """The bytes of a long value, in a temporary file, their SHA-256, and how many there are."""
    digest: str
    size: int
    begin: int = field(compare=False)
    spool: Spool = field(compare=False, repr=False)

    def __str__(self) -> str:
        return f'SHA-256 {self.digest}, {self.size} bytes'

    def __len__(self) -> int:
        return self.size

    def __getitem__(self, part: slice) -> bytes:
        """Returns a slice as that of bytes."""
        return self.read(*part.indices(self.size)[:2])

    def read(self, begin: int, end: int) -> bytes:
        """Returns the bytes from one place up to another, or up to the end."""
        return self.spool.read(self.begin + begin, max(0, min(end, self.size) - begin))

    def shown(self, number: int) -> str:
        """Returns the given number of its first digits."""
        return self.read(0, (number + 1) // 2).hex()[:number]


# A value as the listing spells it, or the bytes of a long one. `str` of both is a short text.
Value = Union[str, Long]


def spelled(value: Value) -> str:
    return value[:].hex() if isinstance(value, Long) else value


class LongValues:
    """Long values of a listing in a temporary file, but for strings in quotes."""

    def __init__(self, spool: Spool | None = None) -> None:
        self.spool = spool or Spool()

    def cut(self, text: str) -> str:
        """Keeps a long value, and returns items with a mark in its place: where it is, and what."""
        begin = begin_of_long(text)
        if begin is None:
            return text
        content = bytes.fromhex(text[begin:])
        at, digest = self.spool.append(content), hashlib.sha256(content).hexdigest()
        return f'{text[:begin]}{LONG_MARK}{at}+{len(content)}:{digest}'

    def value(self, word: str) -> Value:
        """Returns the value that a word of a text is, or marks."""
        if not word.startswith(LONG_MARK):
            return word
        place, _, digest = word[1:].partition(':')
        begin, size = map(int, place.split('+'))
        return Long(digest, size, begin, self.spool)


def begin_of_long(text: str) -> int | None:
    """Returns where a long value begins, which is the last item of a message, if there is one."""
    if len(text) <= DIGITS_IN_TEXT:
        return None
    begin = text.rfind('=') + 1
    return begin if len(text) - begin > DIGITS_IN_TEXT and text[-1] != '"' else None


def without_long(text: str) -> str:
    """Returns items without the digits of a long value, of which nobody asks."""
    return text[:begin_of_long(text)]


class Texts:
    """Texts in a temporary file, numbered from 0. Those near one another are read at once."""

    def __init__(self, spool: Spool) -> None:
        self.stored, self.begins, self.size = Stored(spool), array('Q', [0]), 0
        self.waiting = list[str]()  # are not stored yet
        # Bytes that were read, where they begin, and where the last text ended.
        self.block, self.at, self.end = b'', 0, 0

    def append(self, text: str) -> None:
        self.waiting.append(text)
        self.size += len(text)
        self.begins.append(self.size)
        if self.size - self.stored.size > FETCHED_AT_ONCE:
            self.store()

    def store(self) -> None:
        self.stored.append(''.join(self.waiting).encode('latin-1'))
        self.waiting = []

    def __getitem__(self, number: int) -> str:
        begin, end = self.begins[number], self.begins[number + 1]
        if begin < self.at or end - self.at > len(self.block):
            self.store()
            is_near = 0 <= begin - self.end < FETCHED_AT_ONCE
            size = max(end - begin, FETCHED_AT_ONCE if is_near else 0)
            self.block, self.at = self.stored.read(begin, size), begin
        self.end = end
        return self.block[begin - self.at:end - self.at].decode('latin-1')
