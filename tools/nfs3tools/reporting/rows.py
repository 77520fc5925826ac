"""Rows for programs, which are written one by one: as JSON, or as comma-separated values."""
from __future__ import annotations

import argparse
import csv
import json
import sys
from collections.abc import Iterable, Mapping, Sequence

Rows = Iterable[Sequence[object]]


def json_members(members: Mapping[str, object]) -> str:
    """The members of an object, one below the other, as JSON has them within its braces."""
    return ',\n'.join(f' {json.dumps(name)}: ' + json.dumps(value, indent=1).replace('\n', '\n ')
                      for name, value in members.items())


class JsonRows:
    """An object with the version of its form, a list of a line for each row, and members."""

    def __init__(self, version: int, name: str, columns: Sequence[str]) -> None:
        self.columns, self.before = columns, ''
        sys.stdout.write(f'{{"version": {version}, "{name}": [')

    def add(self, rows: Rows) -> None:
        for row in rows:
            sys.stdout.write(f'{self.before}\n{json.dumps(dict(zip(self.columns, row)))}')
            self.before = ','

    def end(self, members: Mapping[str, object]) -> None:
        sys.stdout.write(f'\n],\n{json_members(members)}\n}}\n')


class CsvRows:
    def __init__(self, columns: Sequence[str]) -> None:
        self.writer = csv.writer(sys.stdout, lineterminator='\n')
        self.writer.writerow(columns)

    def add(self, rows: Rows) -> None:
        self.writer.writerows(rows)

    def end(self, members: Mapping[str, object]) -> None:
        """The members have no row."""


def add_forms(parser: argparse.ArgumentParser) -> None:
    """The options that ask for rows."""
    form = parser.add_mutually_exclusive_group()
    form.add_argument('--json', action='store_true', help='prints JSON')
    form.add_argument('--csv', action='store_true', help='prints comma-separated values')


def form_of(chosen: argparse.Namespace, version: int, name: str,
            columns: Sequence[str]) -> JsonRows | CsvRows | None:
    """Begins the rows that these options ask for, if one is given."""
    if chosen.json:
        return JsonRows(version, name, columns)
    return CsvRows(columns) if chosen.csv else None
