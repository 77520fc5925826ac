"""The rooms of tools/nfs3tools in their order: a module imports from its own room and from those
below it, modules do not import each other in a circle, and tools/DESIGN.md has each in the table of
its room. A name has one meaning in all rooms: one module defines it. And the lines of the tools, of
all tests, of `dev` and `examples`: none is longer than tools/pyproject.toml has it, and docstrings
but those of `dev` avoid some words."""
import ast
import collections
import pathlib
import re
from collections.abc import Iterator, Mapping, Set

from . import pages

TOP = pathlib.Path(__file__).resolve().parents[2]
PACKAGE = TOP / 'tools/nfs3tools'
HEADING = re.compile(r'^### `([\w.]+)`$(.*?)(?=^#)', re.M | re.S)  # of a room
ROW = re.compile(r'^\| `(\w+)` \|', re.M)
COLUMNS = re.compile(r'^line-length = (\d+)$', re.M)
# From the lowest to the highest.
ROOMS = ('shared', 'recordings', 'captures', 'exchanges', 'judgement', 'comparison.values',
         'comparison.exchanges', 'comparison.verdict', 'reporting', 'pages', 'meaning', 'commands')
# Each module of `commands` defines these: they are how it is run.
ENTRY_POINTS = frozenset(('main', 'command'))


def modules(package: pathlib.Path) -> dict[str, pathlib.Path]:
    """Returns the modules of a package with their files, each by its name below the package, as
    `shared.places`."""
    paths = sorted(path for path in package.rglob('*.py') if path.name != '__init__.py')
    return {'.'.join(path.relative_to(package).with_suffix('').parts): path for path in paths}


def imported(module: str, text: str, known: Set[str]) -> Iterator[str]:
    """Yields the modules of the package that a module imports."""
    for node in ast.walk(ast.parse(text)):
        if isinstance(node, ast.ImportFrom) and node.level:
            target = [*module.split('.')[:-node.level], *(node.module or '').split('.')]
            name = '.'.join(filter(None, target))
            yield from [name] if name in known else (f'{name}.{alias.name}' for alias in node.names)


def imports_of(texts: Mapping[str, str]) -> dict[str, list[str]]:
    """Returns for each module what it imports of the others."""
    return {module: sorted(set(imported(module, text, texts.keys())))
            for module, text in texts.items()}


def room_of(module: str) -> int | None:
    """Returns the number of a module's room, or None if it is in none."""
    return next((at for at, room in enumerate(ROOMS) if module.startswith(f'{room}.')), None)


def is_against_the_order(module: str, other: str) -> bool:
    """Returns whether a module may not import another one."""
    own, others = room_of(module), room_of(other)
    return own is None or others is None or others > own


def in_a_circle(imports: Mapping[str, list[str]]) -> list[str]:
    """Returns the modules that import each other in a circle, and those that import them."""
    left = dict(imports)
    while done := [module for module, others in left.items()
                   if not any(other in left for other in others)]:
        left = {module: others for module, others in left.items() if module not in done}
    return sorted(left)


def wrong_imports(texts: Mapping[str, str]) -> list[str]:
    """Returns what is against the order of the rooms, in words."""
    imports = imports_of(texts)
    found = [f'{module} imports {other}' for module, others in imports.items() for other in others
             if is_against_the_order(module, other)]
    return found + [f'{module} is imported in a circle' for module in in_a_circle(imports)]


def against_the_order() -> list[str]:
    """Returns what of the tools is against the order of their rooms."""
    return wrong_imports({module: path.read_text() for module, path in modules(PACKAGE).items()})


def not_in_the_design() -> list[str]:
    """Returns the modules that have no row in the table of their room in tools/DESIGN.md, the rows
    of no module, and rooms out of order."""
    rooms = HEADING.findall((TOP / 'tools/DESIGN.md').read_text())
    rows = {f'{room}.{module}' for room, table in rooms for module in ROW.findall(table)}
    out_of_order = [] if [room for room, _ in rooms] == [*ROOMS] else [
        'the rooms of tools/DESIGN.md are in another order']
    return sorted(rows ^ modules(PACKAGE).keys()) + out_of_order


def defined(text: str) -> Iterator[str]:
    """Yields the names that a module defines at its top: of functions and classes, and those to
    which something is assigned."""
    for node in ast.parse(text).body:
        if isinstance(node, (ast.FunctionDef, ast.AsyncFunctionDef, ast.ClassDef)):
            yield node.name
        elif isinstance(node, (ast.Assign, ast.AnnAssign)):
            targets = node.targets if isinstance(node, ast.Assign) else [node.target]
            yield from (one.id for target in targets for one in ast.walk(target)
                        if isinstance(one, ast.Name) and isinstance(one.ctx, ast.Store))


def is_entry_point(name: str, module: str) -> bool:
    return name in ENTRY_POINTS and module.startswith('commands.')


def of_several_modules(texts: Mapping[str, str]) -> list[str]:
    """Returns the names that several modules define, with these modules. Entry points are none of
    them."""
    places = collections.defaultdict[str, list[str]](list)
    for module, text in texts.items():
        for name in dict.fromkeys(defined(text)):
            places[name].append(module)
    return ['%s: %s' % (name, ', '.join(some)) for name, some in sorted(places.items())
            if len(some) > 1 and not all(is_entry_point(name, module) for module in some)]


def of_several_meanings() -> list[str]:
    """Returns the names of the tools that stand for several definitions, with their modules."""
    return of_several_modules({module: path.read_text()
                               for module, path in modules(PACKAGE).items()})


def columns() -> int:
    """Returns how many columns a line of the tools has at most, as tools/pyproject.toml says, or 0
    if it does not."""
    found = COLUMNS.search((TOP / 'tools/pyproject.toml').read_text())
    return int(found[1]) if found else 0


def longer_lines(name: str, text: str, most: int) -> list[str]:
    """Returns the lines of a file that are longer, after its name and their numbers."""
    return [f'{name}:{number}: {line}' for number, line in enumerate(text.splitlines(), 1)
            if len(line) > most]


def is_python(path: pathlib.Path) -> bool:
    """Whether a file is in Python, by its name or its first line."""
    if path.suffix or not path.is_file():
        return path.suffix == '.py'
    with path.open('rb') as file:
        return file.readline() == b'#!/usr/bin/env python3\n'


def avoided_words(name: str, text: str) -> list[str]:
    """Returns the docstrings of a file that have words to avoid, after its name and the words."""
    docstrings = (ast.get_docstring(node) or '' for node in ast.walk(ast.parse(text))
                  if isinstance(node, (ast.Module, ast.ClassDef, ast.FunctionDef)))
    return [f'{name}: {found}: {docstring}' for docstring in docstrings
            if (found := pages.avoided(docstring, pages.AVOIDED_IN_DOCSTRINGS))]


def files_in_python() -> dict[str, str]:
    """Returns the tools, all tests, `dev` and `examples`: each file's text by its path."""
    paths = [path for folder in ('tools', 'tests', 'dev', 'examples')
             for path in sorted((TOP / folder).rglob('*')) if is_python(path)]
    return {str(path.relative_to(TOP)): path.read_text() for path in paths}


def long_lines() -> list[str]:
    """Returns the lines of these files that are too long."""
    return [line for name, text in files_in_python().items()
            for line in longer_lines(name, text, columns())]


def words_to_avoid() -> list[str]:
    """Returns the docstrings of these files, but for `dev`, that have words to avoid."""
    return [docstring for name, text in files_in_python().items() if not name.startswith('dev/')
            for docstring in avoided_words(name, text)]
