"""Known findings, by the lines of a file: a finding that fits a line is counted apart, and what is
left decides.

A line is a finding as it is printed, without what is another in the next run: positions, frames and
ids. A star fits anything in it, and a star after a backslash is that character. It fits one
finding, or as many as `×N` at its end says, or with `×*` any number. A line that begins with `#` is
none.
"""
from __future__ import annotations

import argparse
import re
from collections import Counter, defaultdict
from collections.abc import Callable, Iterable, Sequence
from functools import partial
from typing import NamedTuple

from ..shared.printed import escaped, printable

HOW_OFTEN = re.compile(r'(.*?)(?: ×(\d{1,9}|\*))?')
WILD_PART = re.compile(r'\\\*|\*')
ANY_OFTEN = 1 << 30


class KnownLine(NamedTuple):
    """A line, how many findings it fits, and its pattern if it fits more than its own text."""
    text: str
    often: int = 1
    pattern: re.Pattern[str] | None = None


class Known:
    """The lines of a file, and how often each is used."""

    def __init__(self, path: str = '', lines: Sequence[KnownLine] = ()) -> None:
        self.path, self.lines, self.uses = path, lines, Counter[int]()
        # So that many lines without `*` cost no more than a few
        self.by_text = defaultdict[str, list[int]](list)
        for number, line in enumerate(lines):
            if line.pattern is None:
                self.by_text[line.text].append(number)
        self.wild = [number for number, line in enumerate(lines) if line.pattern]

    def take(self, *texts: str) -> bool:
        """Uses the first line that fits a finding, by one of its texts, and returns whether there
        is one."""
        numbers = [number for text in texts for number in self.by_text.get(text, ())]
        patterns = ((number, self.lines[number].pattern) for number in self.wild)
        numbers += [number for number, pattern in patterns
                    if pattern and any(map(pattern.fullmatch, texts))]
        found = next((number for number in sorted(numbers)
                      if self.uses[number] < self.lines[number].often), None)
        self.uses.update([] if found is None else [found])
        return found is not None

    def no_longer_found(self) -> list[str]:
        return [line.text for number, line in enumerate(self.lines) if not self.uses[number]]


def known_line(text: str) -> KnownLine:
    found = HOW_OFTEN.fullmatch(text)
    assert found
    often = {None: 1, '*': ANY_OFTEN}.get(found[2]) or int(found[2])
    parts = [*WILD_PART.split(found[1])]
    wild = WILD_PART.findall(found[1])
    if '*' not in wild:
        return KnownLine(found[1].replace('\\*', '*'), often)
    pieces = (re.escape(part) + ('.*' if between == '*' else re.escape(between[1:]))
              for part, between in zip(parts, [*wild, '\\']))
    return KnownLine(text, often, re.compile(''.join(pieces)))


Older = Callable[[bytes], Sequence[KnownLine]]  # reads a file of an older form


def none_is_older(_: bytes) -> Sequence[KnownLine]:
    raise ValueError


def known_in(path: str, older: Older = none_is_older) -> Known:
    """Reads a file of known findings. Raises `ArgumentTypeError` if it is none."""
    with open(path, 'rb') as file:
        content = file.read()
    try:
        if content[:1] in (b'{', b'['):
            return Known(path, older(content))
        lines = [*map(str.strip, content.decode().split('\n'))]
        assert all(map(str.isprintable, lines))
        return Known(path, [known_line(line) for line in lines if line and line[0] != '#'])
    except (ValueError, KeyError, TypeError, AttributeError, AssertionError, RecursionError):
        raise argparse.ArgumentTypeError(printable(
            f'no known findings in {escaped(path)}: it needs a line for each, as --known-new '
            'writes them')) from None


def file_of_known(texts: Iterable[str]) -> Iterable[bytes]:
    """Iterates over the lines of a file. Equal findings are one, which says how often."""
    for text, often in Counter(texts).items():
        times = f' ×{often}' if often > 1 else ''
        yield text.replace('*', '\\*').encode(errors='backslashreplace') + f'{times}\n'.encode()


def add_known(parser: argparse.ArgumentParser, older: Older = none_is_older) -> None:
    parser.add_argument('--known', metavar='FILE', type=partial(known_in, older=older),
                        default=Known(), help='takes the known findings of a file, which do not '
                        'count')
    parser.add_argument('--known-new', metavar='FILE',
                        help='writes a file in which all findings are known')
