"""Where two long values part: data, names and other runs of bytes, of which nobody reads the
whole."""
from __future__ import annotations

import re
from typing import NamedTuple

from ...exchanges.stored import Long, Value

LONG_TEXT = 60  # characters of a value, as the listing spells it
ELLIPSIS = '..'  # means more bytes
SHOWN = 16  # bytes of each value, round the first that differs
COMPARED_AT_ONCE = 1 << 16  # bytes that are compared
ESCAPED = re.compile(r'\\x([0-9a-f]{2})')


class SomeBytes(NamedTuple):
    """Bytes of a value: of a name, which is printed as it is listed, or of another one, which is
    digits, perhaps in two parts; and whether the value goes on before them, and after them."""
    content: bytes
    is_text: bool
    part: int = 0
    is_cut_before: bool = False
    is_cut_after: bool = False

    def __str__(self) -> str:
        content, part = self.content, self.part
        gap = ' ' if 0 < part < len(content) else ''
        told = (f'"{spelled_bytes(content)}"' if self.is_text
                else f'{content[:part].hex()}{gap}{content[part:].hex()}')
        return f'{ELLIPSIS * self.is_cut_before}{told}{ELLIPSIS * self.is_cut_after}'


class Parting(NamedTuple):
    """Two values that differ, with some bytes round the first that does.

    at: this byte from 0, or the size of a value with which the other begins
    offset: its place in the file, of data of a file
    differing: how many bytes differ, of those that both values have
    sizes: how many bytes each of them has
    """
    at: int
    offset: int | None
    differing: int
    sizes: tuple[int, int]
    shown: tuple[SomeBytes, SomeBytes]


def is_quoted(value: str) -> bool:
    """Whether a value of a listing is a string, and no digits."""
    return value.startswith('"')


def is_long(value: Value) -> bool:
    return isinstance(value, Long) or len(value) > LONG_TEXT


def bytes_of(value: str) -> bytes:
    """Returns the bytes of a value that is not stored."""
    if is_quoted(value):
        return ESCAPED.sub(lambda found: chr(int(found[1], 16)), value[1:-1]).encode('latin-1')
    return bytes.fromhex(value)


def content_of(value: Value) -> bytes | Long:
    """Returns the bytes of a value of a listing: a string in quotes, or hexadecimal digits."""
    return value if isinstance(value, Long) else bytes_of(value)


def parting_between(first: Value, second: Value, offset: int | None = None) -> Parting:
    """Returns where two values part. The offset is that of the first byte in its file."""
    one, other = content_of(first), content_of(second)
    size = min(len(one), len(other))
    at, differing = size, 0
    for begin in range(0, size, COMPARED_AT_ONCE):
        piece = slice(begin, min(size, begin + COMPARED_AT_ONCE))
        first_of_piece, number = parting(one[piece], other[piece])
        at = min(at, begin + first_of_piece) if number else at
        differing += number
    is_text = is_quoted(str(first))
    return Parting(at, None if offset is None else offset + at, differing, (len(one), len(other)),
                   (bytes_around(one, at, is_text), bytes_around(other, at, is_text)))


def parting(one: bytes, other: bytes) -> tuple[int, int]:
    """Returns the first byte in which two pieces of one size differ, and how many bytes do."""
    if one == other:
        return len(one), 0
    bits = (int.from_bytes(one, 'big') ^ int.from_bytes(other, 'big')).to_bytes(len(one), 'big')
    return len(one) - len(bits.lstrip(b'\0')), len(one) - bits.count(0)


def bytes_around(content: bytes | Long, at: int, is_text: bool) -> SomeBytes:
    """Returns the bytes round a place."""
    begin = max(0, at - SHOWN // 2)
    return SomeBytes(content[begin:begin + SHOWN], is_text, at - begin, begin > 0,
                     begin + SHOWN < len(content))


def spelled_bytes(content: bytes) -> str:
    """Returns bytes as a string of the listing has them."""
    return ''.join(chr(byte) if 0x20 <= byte < 0x7f and byte not in b'"\\' else f'\\x{byte:02x}'
                   for byte in content)


def parting_in_words(parting: Parting) -> str:
    """Returns where two values part and how much differs, in words."""
    same, (first, second) = min(parting.sizes), parting.sizes
    where = (f'byte {parting.at}' if parting.offset is None
             else f'offset {parting.offset} of the file (byte {parting.at} of the data)')
    lengths = '' if first == second else f'their lengths are {first:,} and {second:,}'
    if not same:
        return lengths
    of_which = f'the first {same:,} bytes' if lengths else f'{same:,} bytes'
    if not parting.differing:
        said = f'one is the beginning of the other, up to {where}'
    elif parting.differing == 1:
        said = f'1 of {of_which} differs, at {where}'
    else:
        said = f'{parting.differing:,} of {of_which} differ, the first at {where}'
    return '; '.join(filter(None, [said, lengths]))
