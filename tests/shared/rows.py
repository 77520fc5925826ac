"""The rows of tests/program/captures.rows and pairs.rows; tests/program/captures.py has their
form."""
import pathlib
from collections.abc import Callable

from tests.shared.texts import bytes_of, capture_of, mixed_of

FOLDER = pathlib.Path(__file__).resolve().parents[1] / 'program'
# Longer captures are not cut into single bytes, nor cut short.
SMALL = 2_000
# The lines of a row by their first word.
Row = dict[str, str]


def rows_of(name: str) -> list[tuple[str, Row]]:
    """Returns the rows of a file, each a comment and the lines up to `line`."""
    rows, row, comment = list[tuple[str, Row]](), Row(), ''
    for text in (FOLDER / name).read_text().splitlines():
        if text.startswith('#'):
            comment = text.strip('# -')
        elif text:
            key, _, value = text.partition(' ')
            row[key] = value
            if key == 'line':
                rows.append((comment, row))
                row = Row()
    return rows


def capture_in(row: Row) -> bytes:
    """Returns the capture of a row, however it is written there."""
    makes: dict[str, Callable[[str], bytes]] = {'capture': capture_of, 'mixed': mixed_of,
                                                'file': bytes_of}
    return next(make(row[key]) for key, make in makes.items() if key in row)
