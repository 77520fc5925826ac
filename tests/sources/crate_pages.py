"""What the pages of the crates name: the code that they quote, the files, and the clauses; what
dev/api prints."""
import collections
import functools
import pathlib
import re
import runpy
import subprocess
import sys
from typing import Any

TOP = pathlib.Path(__file__).resolve().parents[2]
CRATES = TOP / 'crates'
QUOTED = re.compile(r'^```rust\n(.*?)^```$', re.M | re.S)
ROW = re.compile(r'^\|(.*)\|(.*)\|(.*)\|$', re.M)
NAME = re.compile(r'`([\w/.]+)`')
# A promise that is proved: its words, and the clauses or laws that say it.
PROMISE = re.compile(r'^\| (.*) \| (.*) \| P \|$', re.M)
OWNER = re.compile(r'pub trait (\w+)|impl\b(?:<[^{]*?>)? ?(?:.* for )?(\w+)[^{]*\{$')
FUNCTION = re.compile(r' *(?:pub(?:\(crate\))? )?fn (\w+)')
LAW = re.compile(r'^pub fn (\w+)', re.M)
DEFINED = re.compile(r'^ *(?:(?:abbrev|unfoldable) )?(?:pub )?(?:record |data )?([A-Z]\w*)'
                     r'(?= [:({])', re.M)
RECORD_FIELD = re.compile(r'^ +pub (\w+) :', re.M)
FIRST_NAME = re.compile(r'`(\w+(?:::\w+)?)[^`]*`')
# Whose the clauses are: `FUNCTION`: `CLAUSE`, or `CLAUSE` of `FUNCTION`. The fields of a clause are
# named likewise, as `CLAUSE`: `FIELD`.
WHOSE = re.compile(r'`([\w:]+)`(?=:)|(?<=of )`([\w:]+)`')


def libraries() -> list[str]:
    lines = (TOP / 'crates.txt').read_text().splitlines()
    names = [line.partition(':')[0] for line in lines if line and not line.startswith('#')]
    return [name for name in names if not name.endswith('tests')
            and (CRATES / name / 'src/lib.rt').exists()]


def page(crate: str) -> str:
    file = CRATES / crate / 'README.md'
    return file.read_text() if file.exists() else ''


def not_quoted() -> list[str]:
    """Returns the pieces of code on the pages that are not in the proved callers as they stand."""
    callers = '\n'.join(path.read_text() for path in sorted((CRATES / 'uses/src').glob('*.rt')))
    return ['%s: %s' % (crate, code.splitlines()[0]) for crate in libraries()
            for code in QUOTED.findall(page(crate)) if code not in callers]


def is_there(crate: str, name: str, room: str) -> bool:
    """Returns whether a name of a table is that of a file or a folder; in one cell the first name
    says where the others are."""
    path = CRATES / crate / (name if '/' in name else room + name)
    return path.exists() or path.with_suffix('.antt').exists()


def files_not_there() -> list[str]:
    """Returns the files that the tables "Where to look" name and that do not exist."""
    wrong: list[str] = []
    for crate in libraries():
        _, _, table = page(crate).partition('## Where to look')
        for cells in ROW.findall(table):
            for cell in cells[1:]:
                names = NAME.findall(cell)
                room = names[0].rpartition('/')[0] + '/' if names else ''
                wrong += ['%s: %s' % (crate, name) for name in names
                          if not is_there(crate, name, room)]
    return wrong


def without_a_page() -> list[str]:
    return [crate for crate in libraries() if not page(crate).startswith('# %s\n' % crate)]


def rows_of_exports() -> dict[str, int]:
    """Returns how many items dev/api prints of each crate."""
    made = subprocess.run([sys.executable, str(TOP / 'dev/api')], capture_output=True, text=True,
                          check=True)
    sections = re.split(r'^## ', made.stdout, flags=re.M)[1:]
    return {section.split()[0]: len(re.findall(r'^\| `', section, re.M)) for section in sections}


@functools.cache
def api() -> dict[str, Any]:
    return runpy.run_path(str(TOP / 'dev/api'))


def clauses_in(path: pathlib.Path) -> dict[str, set[str]]:
    """Returns by its name the clauses of each function of a file, as dev/api has them, and by the
    name of each type and trait those of its functions. `ensures` is one without a name."""
    found = collections.defaultdict[str, set[str]](set)
    lines, owner = path.read_text().splitlines(), ''
    for at, line in enumerate(lines):
        if line == '}':
            owner = ''
        elif match := OWNER.match(line):
            owner = match[1] or match[2]
        elif match := FUNCTION.match(line):
            for name in {match[1], owner or match[1], f'{owner}::{match[1]}'}:
                found[name] |= {*api()['function']('', lines, at).clauses}
    return found


@functools.cache
def clauses_by_name(crate: str) -> dict[str, set[str]]:
    """Returns the same of all files of a crate."""
    found = collections.defaultdict[str, set[str]](set)
    for path in (CRATES / crate / 'src').rglob('*.rt'):
        for name, clauses in clauses_in(path).items():
            found[name] |= clauses
    return dict(found)


@functools.cache
def laws() -> set[str]:
    return {law for path in CRATES.glob('*/src/laws.rt') for law in LAW.findall(path.read_text())}


@functools.cache
def defined(crate: str, what: re.Pattern[str]) -> set[str]:
    """Returns the names of a crate's relations, or of the fields of its records."""
    return {name for path in (CRATES / crate / 'specs').rglob('*.antt')
            for name in what.findall(path.read_text())}


@functools.cache
def items() -> set[str]:
    """Returns the names of all crates, and of their types, traits and functions."""
    crates = {path.name for path in CRATES.iterdir()}
    return crates.union(*map(clauses_by_name, crates))


def functions_of(crate: str, promise: str, part: str) -> list[str]:
    """Returns the functions and types of which a part of a row names clauses: those in the part, or
    those of the promise; none if the part names fields of a clause."""
    named = [name for names in WHOSE.findall(part) for name in names if name]
    return [name for name in named or FIRST_NAME.findall(promise)
            if clauses_by_name(crate).get(name) and name not in laws()]


def known_to(crate: str, promise: str, part: str) -> set[str]:
    """Returns the clauses that a part of a row may name: those of its functions, or with none those
    of the crate. If the part says whose they are, they may be fields of a clause."""
    clauses, functions = clauses_by_name(crate), functions_of(crate, promise, part)
    known = {'ensures', *functions}.union(*map(clauses.__getitem__, functions or clauses))
    return known if functions and not WHOSE.search(part) else known | defined(crate, RECORD_FIELD)


def is_no_clause(crate: str, name: str) -> bool:
    """Returns whether a name is that of a law, a relation, a file or an item, and of no clause."""
    if name in laws() | defined(crate, DEFINED) or is_there(crate, name, '') or (
        TOP / name).exists():
        return True
    clauses = defined(crate, RECORD_FIELD).union(*clauses_by_name(crate).values())
    return name not in clauses and name.partition('::')[0] in items()


def not_of_the_row(crate: str, promise: str, cell: str) -> list[str]:
    """Returns the names in the last cell of a promise that are those of nothing."""
    return [name for part in cell.split(';') for name in re.findall(r'`([^` ]+)[^`]*`', part)
            if name not in known_to(crate, promise, part) and not is_no_clause(crate, name)]


def clauses_not_there() -> list[str]:
    """Returns the names in the rows of what is proved that no clause, law, definition, item or file
    has, or that a clause of another function has."""
    return ['%s: %s' % (path.parent.name, name) for path in sorted(CRATES.glob('*/README.md'))
            for promise, cell in PROMISE.findall(path.read_text())
            for name in not_of_the_row(path.parent.name, promise, cell)]
