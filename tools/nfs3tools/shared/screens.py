"""What is printed for people: in colours, and tables of numbers no wider than the terminal.
Elsewhere neither is done, so that programs read one form.

Names are escaped before they come here, so the only control characters are those that are put here.
"""
from __future__ import annotations

import argparse
import enum
import os
import shutil
import sys
from collections.abc import Container, Iterator, Sequence
from typing import NamedTuple



class Colour(enum.Enum):
    RED = '31'
    GREEN = '32'
    YELLOW = '33'


class Screen(NamedTuple):
    """Where something is printed: the columns of a terminal, None if it is none, and colours."""
    width: int | None = None
    is_coloured: bool = False

    def painted(self, text: str, colour: Colour | None) -> str:
        if colour is None or not self.is_coloured or not text:
            return text
        return f'\x1b[{colour.value}m{text}\x1b[m'

    def number(self, number: int) -> str:
        """Returns a number as people read it on a terminal, and as programs do elsewhere."""
        return str(number) if self.width is None else f'{number:,}'


def add_colour(parser: argparse.ArgumentParser) -> None:
    """The option that says when there are colours."""
    parser.add_argument('--color', choices=('auto', 'always', 'never'), default='auto',
                        help='whether there are colours; by default on a terminal, '
                             'if NO_COLOR is not set')


def add_width(parser: argparse.ArgumentParser) -> None:
    """The option that says how wide lines may be."""
    parser.add_argument('--width', metavar='N', type=natural,
                        help='cuts the lines of tables at N columns, 0 for none; by default at '
                             'those of a terminal')


def natural(word: str) -> int:
    if int(word) < 0:
        raise ValueError
    return int(word)


def positive(word: str) -> int:
    if int(word) < 1:
        raise ValueError
    return int(word)


def screen_of(when: str, width: int | None = None) -> Screen:
    """Returns what standard output is now. `width` is what a user wants, 0 for none."""
    is_terminal = sys.stdout.isatty()
    is_wanted = is_terminal and not os.environ.get('NO_COLOR') and os.environ.get('TERM') != 'dumb'
    own = shutil.get_terminal_size().columns if is_terminal else None
    return Screen(own if width is None else width or None,
                  when == 'always' or when == 'auto' and is_wanted)


class Styled(NamedTuple):
    """The cells of a row, and the colour of the last one."""
    cells: Sequence[str]
    colour: Colour | None = None


def table_lines(rows: Sequence[Styled], screen: Screen, right: Container[int] = (),
                is_cut: bool = False) -> Iterator[str]:
    """Returns the lines of a table, whose first row has the heads. The columns of these numbers are
    set to the right, the last one is left as it is. On a terminal lines may be cut at its width."""
    widths = [max(map(len, column)) for column in zip(*(row.cells for row in rows))][:-1]
    width = screen.width if is_cut else None
    for row in rows:
        cells = (cell.rjust(wide) if number in right else cell.ljust(wide)
                 for number, (cell, wide) in enumerate(zip(row.cells, widths)))
        head = '  '.join([*cells, ''])
        yield head[:width] + screen.painted(row.cells[-1][:width and max(0, width - len(head))],
                                            row.colour)
