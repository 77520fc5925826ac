"""The fields of messages of both runs as HTML: those that differ come first, with the bytes marked
in which they do, and those of the head of RPC are folded. Beside hexadecimal digits of a text
stands the text."""
from __future__ import annotations

from collections.abc import Callable, Iterator, Sequence
from html import escape
from itertools import chain, groupby, zip_longest

from ..comparison.values import long_values
from ..comparison.values.long_values import (
    ELLIPSIS, SomeBytes, bytes_of, is_long, is_quoted, spelled_bytes)
from ..comparison.verdict.differences import LAST_OF_HEAD, Difference
from ..comparison.verdict.findings import Finding
from ..exchanges.listing import Message
from ..exchanges.stored import Value
from ..reporting import telling
from . import markup

DIFFERENCES_AT_MOST = 200  # of a message
FIELD_CHARACTERS_AT_MOST = 6_000  # characters of a message's fields
GLUE = '\u00a0'  # a space after a sign at which no line ends
SIGNS, SIGN_CLASSES = ('-', '+'), ('minus', 'plus')
OPAQUE = ('data', 'rest')  # items whose values are hexadecimal also if they are short
READABLE = 0.75  # of the bytes of a text, at least
NO_LETTER = '\u00b7'  # stands for a byte that is none
LAST_OF_REPLY = 'accept_stat'  # RFC 5531, section 9


def changed_values(finding: Finding) -> Iterator[str]:
    """The values of both runs, each with its sign, or the arguments of a call of one run alone."""
    arguments, more = telling.of_arguments(finding), len(finding.differences) - DIFFERENCES_AT_MOST
    if finding.kind == 'only' and not arguments:
        yield '<p class=quiet>It has no arguments but its path.</p>'
        return
    yield '<div class=change>'
    yield from chain.from_iterable(map(marked_difference,
                                       finding.differences[:DIFFERENCES_AT_MOST]))
    yield from (signed_line(line.sign, escape(line.words)) for line in arguments)
    if more > 0:
        yield f'<div>.. and {more:,} more fields</div>'
    yield '</div>'


def marked_difference(difference: Difference) -> Iterator[str]:
    """The lines of a difference, with the bytes marked that differ."""
    rows, values = telling.signed_rows(difference), marked_values(difference)
    if len(rows) != len(values):
        return (signed_line(row.sign, escape(row.words)) for row in rows)
    return (signed_line(row.sign, f'{escape(difference.label)}={value}' + (
        f' <span class=quiet># {escape(row.remark)}</span>' if row.remark else ''))
            for row, value in zip(rows, values))


def signed_line(sign: str, words: str) -> str:
    """A line of HTML after its sign."""
    look = markup.class_of(SIGN_CLASSES[SIGNS.index(sign)] if sign in SIGNS else '')
    return f'<div{look}>{sign}{GLUE}{words}</div>'


def marked_values(difference: Difference) -> list[str]:
    """Returns both values as HTML, as they are printed, or nothing if they are numbers."""
    if difference.is_equal or not has_bytes(difference):
        return []
    both = difference.apart.shown if difference.apart else tuple(
        SomeBytes(bytes_of(str(value)), is_quoted(str(value)))
        for value in (difference.first, difference.second))
    is_text, pieces = both[0].is_text, [one.content for one in both]
    has_text = not is_text and all(map(is_readable, pieces))
    return [ELLIPSIS * one.is_cut_before
            + (f'"{marked(own, other, spelled_bytes)}"' if is_text
               else marked(own, other, bytes.hex))
            + ELLIPSIS * one.is_cut_after
            + (f' <span class=text>{marked(own, other, letters)}</span>' if has_text else '')
            for one, own, other in zip(both, pieces, reversed(pieces))]


def has_bytes(difference: Difference) -> bool:
    """Whether both values are bytes: of short ones only names say so, and quotes."""
    both = difference.first, difference.second
    if difference.apart or not all(both):
        return difference.apart is not None
    return difference.name in OPAQUE or all(
        value is not None and is_quoted(str(value)) and not is_long(value) for value in both)


def is_readable(content: bytes) -> bool:
    """Whether most bytes are those of a text."""
    readable = sum(0x20 <= byte < 0x7f or byte in b'\t\n\r' for byte in content)
    return bool(content) and readable >= READABLE * len(content)


def marked(own: bytes, other: bytes, spell: Callable[[bytes], str]) -> str:
    """Returns bytes as they are spelled, with those marked that the other value has not there."""
    pairs = groupby(zip_longest(own, other[:len(own)]), lambda pair: pair[0] != pair[1])
    pieces = ((differs, escape(spell(bytes(byte for byte, _ in some)))) for differs, some in pairs)
    return ''.join(f'<mark>{piece}</mark>' if differs else piece for differs, piece in pieces)


def letters(content: bytes) -> str:
    return ''.join(chr(byte) if 0x20 <= byte < 0x7f else NO_LETTER for byte in content)


def of_messages(first: Message | None, second: Message | None,
                finding: Finding | None) -> Iterator[str]:
    """All fields of a message of both runs, with what differs first."""
    told = set[str]()
    if finding:
        told.update(one.label for one in finding.differences)
        told.update(one.label for one in finding.arguments)
        yield from changed_values(finding)
    own, head = list[str](), list[str]()
    for is_of_head, differs, label, line in field_lines(first, second):
        if not (differs and label in told):
            (head if is_of_head else own).append(line)
    yield markup.block('div', first_lines(own), 'fields')
    if head:
        yield from markup.folded('head', 'head of RPC', [markup.block('div', head, 'fields')])


def field_lines(first: Message | None,
                second: Message | None) -> Iterator[tuple[bool, bool, str, str]]:
    """Iterates over the fields of a message of both runs: whether one is of the head of RPC,
    whether it is not the same in both runs, its label, and its line. If they have not the same
    fields, those of the second come after those of the first."""
    names = [[item.name for item in message.items] for message in (first, second) if message]
    if first and second and names[0] == names[1]:
        both = zip(labelled_values(first), labelled_values(second), first.items, second.items)
        for (is_head, label, one), (_, _, other), here, there in both:
            differs = here.value != there.value
            value = (parting_of(here.value, there.value) or f'{one} | {other}') if differs else one
            yield is_head, differs, label, f'{label}={value}'
        return
    for sign, message in zip(SIGNS, (first, second)):
        if message:
            yield from ((is_head, True, label, f'{sign}{GLUE}{label}={value}')
                        for is_head, label, value in labelled_values(message))


def labelled_values(message: Message) -> Iterator[tuple[bool, str, str]]:
    """Returns of a message's items whether they are of the head of RPC, their labels, and their
    values as they are printed, with their names if they have some."""
    own = len(message.after(LAST_OF_HEAD if message.is_call else LAST_OF_REPLY))
    for at, item in enumerate(message.items, own - len(message.items)):
        yield at < 0, item.label, telling.value_with_meaning(item.name, item.value, item.meaning)


def parting_of(first: Value, second: Value) -> str:
    """Returns how two values differ that are not printed whole, or nothing."""
    if telling.shortened(first) == first and telling.shortened(second) == second:
        return ''
    parting = long_values.parting_between(first, second)
    return f'{parting.shown[0]} | {parting.shown[1]} ({long_values.parting_in_words(parting)})'


def first_lines(lines: Sequence[str]) -> Iterator[str]:
    """Returns lines up to some characters, and then how many are left."""
    size = 0
    for number, line in enumerate(lines):
        size += len(line)
        if size > FIELD_CHARACTERS_AT_MOST:
            yield f'.. and {len(lines) - number:,} more'
            return
        yield line
