"""Rules for the sources of the crates. Each function without parameters returns what is against one
of them, in words:

- definitions that no public call believes are in a folder named machinery of crates/*/specs, and no
  others are;
- a name has one definition;
- no clause of a public call names a private field;
- no clause, no definition and no proof has a line over 100 columns;
- no folder of crates/*/proofs has too many files;
- no file of machinery has the name of another file of specs;
- each file of src/scans has a file of src/values;
- a type's name has one type, or its scan and its value in one crate.
"""
import collections
import importlib.machinery
import pathlib
import re
import sys
from collections.abc import Iterator
from types import ModuleType
from typing import Any, NamedTuple

TOP = pathlib.Path(__file__).resolve().parents[2]
ROOM = 'machinery'
# What believed definitions and public clauses name of machinery, and why nobody has to believe what
# it is made of.
BY_NAME = {
    'StandsFor': 'a history of a reader of entries: `through` gives one, each call takes one on, '
    'and what is concluded names none',
    'entries_left': 'a number that falls with each entry, by which a loop over them ends',
    'the_row': 'the statement of the prover on the layout of a type, for a clause on what a loan '
    'leaves',
}
ITEM = re.compile(r'pub fn (\w+)|pub trait (\w+)|impl\b(?:<[^{]*?>)? ?(?:.* for )?(\w+)[^{]*\{$')
METHOD = re.compile(r' {4}pub fn \w+')
STRUCT = re.compile(r'^pub struct (\w+)[^{;]*\{(.*?)^\}', re.M | re.S)
PRIVATE = re.compile(r'^    (?:pub\(crate\) )?(\w+):', re.M)
NAMED_FIELD = re.compile(r'\b(?:self\.(?:now|old|new)|result)\.(\w+)')
GHOST = re.compile(r'^ *ghost (?!use\b)(?:[^{;]*|[^{;]*\{.*?\});$', re.M | re.S)


class Exported(NamedTuple):
    """The names that a library exports, or None for all that is public, as of a program; and the
    files of the modules that it exports."""
    names: set[str] | None
    modules: set[str]


class Source(NamedTuple):
    """A part of a file."""
    path: pathlib.Path
    text: str


def tool() -> ModuleType:
    """Returns dev/believed as a module, whose name has no ending."""
    sys.dont_write_bytecode = True
    loader = importlib.machinery.SourceFileLoader('believed', str(TOP / 'dev/believed'))
    module = ModuleType('believed')
    module.__file__ = loader.path
    loader.exec_module(module)
    return module


def libraries() -> list[str]:
    """Returns the crates without `tests` and `memory_tests`, which have no public call."""
    lines = (TOP / 'crates.txt').read_text().splitlines()
    names = [line.partition(':')[0] for line in lines if line and not line.startswith('#')]
    return [name for name in names if not name.endswith('tests')]


def exported_by(crate: str) -> Exported:
    """Returns what a crate exports, by its root file."""
    lib = TOP / 'crates' / crate / 'src/lib.rt'
    if not lib.exists():
        return Exported(None, set())
    text = lib.read_text()
    names = {name for names in re.findall(r'^pub use ([^;]*);', text, re.M)
             for name in re.findall(r'\w+', names)}
    paths = [name.replace('::', '/') for name in re.findall(r'^pub (?:mod|use) ([\w:]+);', text,
                                                            re.M)]
    return Exported(names, {pathlib.PurePath(path).name for path in paths
                            if (lib.parent / path).with_suffix('.rt').exists()})


def is_public(name: str, source: Source, exported: Exported) -> bool:
    """Returns whether an item of a file can be named by other crates."""
    if exported.names is not None and source.path.stem not in exported.modules:
        return name in exported.names
    return re.search(r'^pub (?:struct|enum|trait|fn) %s\b' % name, source.text, re.M) is not None


def body_at(lines: list[str], at: int, space: str) -> list[str]:
    """Returns the lines from one on to the brace that ends it, or its head."""
    end = next(n for n in range(at + 1, len(lines))
               if lines[n].startswith((space + '}', space + '{')))
    return lines[at:end + 1]


def public_texts(crate: str) -> Iterator[Source]:
    """Yields each public function, trait, method and impl of a trait."""
    exported = exported_by(crate)
    for path in sorted((TOP / 'crates' / crate / 'src').rglob('*.rt')):
        source = Source(path, path.read_text())
        lines = source.text.splitlines()
        for at, match in enumerate(map(ITEM.match, lines)):
            if match and is_public(match[1] or match[2] or match[3], source, exported):
                is_own = bool(match[3]) and ' for ' not in lines[at]
                for part in parts_of(body_at(lines, at, ''), is_own):
                    yield Source(path, '\n'.join(part))


def parts_of(body: list[str], is_own: bool) -> list[list[str]]:
    """Returns the public methods of a type's own impl, and any other item as it is."""
    return [body_at(body, at, '    ') for at, line in enumerate(body)
            if METHOD.match(line)] if is_own else [body]


# dev/believed is a script, so a checker of types does not know what it returns.
def reached(believed: ModuleType) -> Any:
    """Returns what is believed of all public calls, as dev/believed has it."""
    found = believed.Believed()
    for crate in libraries():
        for source in public_texts(crate):
            clauses = [*believed.clauses_in(source.text),
                       *(match[0] for match in GHOST.finditer(source.text))]
            believed.reach_clauses(found, source.path, clauses)
    return found


def files(believed: ModuleType) -> Iterator[Any]:
    """Yields all files of definitions, as dev/believed has them."""
    for crate in libraries():
        root = TOP / 'crates' / crate / 'specs'
        for path in sorted(root.rglob('*.antt')):
            yield believed.file_of(crate, '.'.join(path.relative_to(root).with_suffix('').parts))


def in_the_wrong_room() -> list[str]:
    """Returns the definitions that are in the wrong folder, and what is imported from machinery."""
    believed = tool()
    found, wrong = reached(believed), list[str]()
    for name in sorted(found.by_name ^ set(BY_NAME)):
        wrong.append('%s is machinery, and a public call believes it; or it is an exception, and '
                     'none does' % name)
    for file in files(believed):
        if not file.module.startswith(ROOM):
            wrong += ['%s: no public call believes %s' % (file.path, one.name)
                      for one in file.definitions if one not in found.seen]
            places = [*file.imports.names.values(),
                      *((*place, 'all of it') for place in file.imports.aliases.values())]
            wrong += ['%s imports of %s: %s' % (file.path, module, name)
                      for _, module, name in places
                      if module.startswith(ROOM + '.') and name not in BY_NAME]
    return wrong


# The files of definitions that are state machines, but for those in machinery.
MACHINE = re.compile(r'\w*Machine|BodyProgram|Joining')


def resting_on_machines(crate: str, names: list[str]) -> set[str]:
    """Returns which public calls of a crate rest on a state machine: of methods the type."""
    believed = tool()
    found = {name: believed.gather(crate, name.removeprefix('laws::')).believed for name in names}
    return {re.split('(?<!laws)::', name)[0] for name, reached in found.items()
            if any(MACHINE.fullmatch(one.file.module) for one in reached.seen)}


def private_fields(text: str) -> set[str]:
    """Returns the private fields of a file's public structs, except those whose clauses speak of
    the value of a Model."""
    return {field for name, body in STRUCT.findall(text) for field in PRIVATE.findall(body)
            if not re.search(r'\bModel for %s\b' % name, text)}


def of_private_fields() -> list[str]:
    """Returns the private fields that clauses of public calls name, with their files."""
    believed, found = tool(), set[str]()
    for crate in libraries():
        for path, text in public_texts(crate):
            private = private_fields(path.read_text())
            named = {name for clause in believed.clauses_in(text)
                     for name in NAMED_FIELD.findall(clause)}
            found |= {'%s: %s' % (path.relative_to(TOP), name) for name in named & private}
    return sorted(found)


def long_lines() -> list[str]:
    """Returns the lines over 100 columns of clauses, definitions and proofs, with their files.
    Imports do not count, nor what was built."""
    clauses_in = tool().clauses_in
    sources = ((path, path.read_text()) for path in sorted(TOP.glob('crates/*/src/**/*.rt')))
    texts = [(path, clause) for path, text in sources for clause in clauses_in(text)]
    texts += [(path, path.read_text()) for room in ('specs', 'proofs')
              for path in sorted(TOP.glob(f'crates/*/{room}/**/*.antt'))]
    return ['%s: %s' % (path.relative_to(TOP), line) for path, text in texts
            for line in text.splitlines()
            if len(line) > 100 and not re.match('(unfoldable )?(pub )?use ', line)]


def of_several_meanings() -> list[str]:
    """Returns the names that stand for several definitions, with their modules."""
    places = collections.defaultdict[str, list[str]](list)
    for file in files(tool()):
        for one in file.definitions:
            places[one.name].append('%s.%s' % (file.crate, file.module))
    return ['%s: %s' % (name, ', '.join(some)) for name, some in sorted(places.items())
            if len(some) > 1]


MOST_FILES = 12


def crowded_folders() -> list[str]:
    """Returns the folders of proofs with too many files. Folders in them do not count."""
    roots = sorted(TOP.glob('crates/*/proofs'))
    folders = [folder for root in roots
               for folder in [root, *sorted(path for path in root.rglob('*') if path.is_dir())]]
    sizes = {folder: len(list(folder.glob('*.antt'))) for folder in folders}
    return ['%s: %d files' % (folder.relative_to(TOP), size) for folder, size in sizes.items()
            if size > MOST_FILES]


def of_two_files() -> list[str]:
    """Returns the files of machinery that have the name of a file of specs outside it, in the same
    crate."""
    rooms = sorted(TOP.glob('crates/*/specs/' + ROOM))
    return [str(path.relative_to(TOP)) for room in rooms for path in sorted(room.rglob('*.antt'))
            if any(ROOM not in other.relative_to(room.parent).parts
                   for other in room.parent.rglob(path.name))]


# Scans of what has no value of its own: the parts of structs in procs3, and its table.
ONLY_SCANS = {'crates/procs3/src/scans/both.rt', 'crates/procs3/src/scans/items.rt',
              'crates/procs3/src/scans/table.rt'}


def scans_without_values() -> list[str]:
    """Returns the files of scans, in crates with values, that have no file of values of the same
    name."""
    found = [str(path.relative_to(TOP)) for path in sorted(TOP.glob('crates/*/src/scans/*.rt'))
             if (values := path.parent.parent / 'values').is_dir()
             and not (values / path.name).exists()]
    return sorted(set(found) ^ ONLY_SCANS)


TYPE = re.compile(r'^(?:pub(?:\(crate\))? )?(?:struct|enum|trait|type) (\w+)', re.M)
# An entry of a directory (RFC 1813, sections 3.3.16 and 3.3.17), and an entry of a capture.
OF_TWO_CRATES = {'Entry'}


def types_of_two_crates() -> list[str]:
    """Returns the names of types that two crates define, with these crates."""
    owners = collections.defaultdict[str, set[str]](set)
    for crate in libraries():
        for path in (TOP / 'crates' / crate / 'src').rglob('*.rt'):
            for name in TYPE.findall(path.read_text()):
                owners[name].add(crate)
    twice = {name for name, crates in owners.items() if len(crates) > 1}
    return ['%s: %s' % (name, ', '.join(sorted(owners[name])))
            for name in sorted(twice ^ OF_TWO_CRATES)]
