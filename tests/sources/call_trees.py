"""The call trees of docs/ARCHITECTURE.md: whether each function is in the file that is named, and
calls those below it."""
import pathlib
import re
from collections.abc import Iterator
from typing import NamedTuple

TOP = pathlib.Path(__file__).resolve().parents[2]
FUNCTION = re.compile(r'^( *)(?:pub(?:\([^)]*\))?\s+)?fn (\w+)', re.M)
OWNER = re.compile(r'^(?:pub(?:\([^)]*\))?\s+)?(?:impl|trait)\b(.*)$', re.M)
# Functions, each of which calls the next, and their file, if it is not that of their caller; or a
# remark in brackets.
LINE = re.compile(r'    ( *)([\w:]+(?: > [\w:]+)*)(?:  +(?:(\w+/src/[\w/]+\.rt)|\(.*\)))?')


class Calls(NamedTuple):
    """A line of a tree: how far it is indented, its functions, and their file."""
    indent: int
    names: list[str]
    file: str


def trees(text: str) -> Iterator[list[Calls]]:
    """Returns the trees of a page: the blocks of code that begin with `main`."""
    for block in re.findall(r'^    main\b.*\n(?:    .*\n)+', text, re.M):
        tree = list[Calls]()
        for line in block.splitlines():
            read = LINE.fullmatch(line)
            if read is None:
                raise ValueError('no line of a tree: ' + line)
            above = caller(tree, len(read[1]))
            tree.append(Calls(len(read[1]), read[2].split(' > '),
                              read[3] or (above.file if above else '')))
        yield tree


def caller(tree: list[Calls], indent: int) -> Calls | None:
    return next((line for line in reversed(tree) if line.indent < indent), None)


def edges(tree: list[Calls]) -> Iterator[tuple[str, str, str, str]]:
    """Returns each call of a tree: who calls, in which file, and who is called, in which file."""
    for number, line in enumerate(tree):
        above = caller(tree[:number], line.indent)
        if above:
            yield above.names[-1], above.file, line.names[0], line.file
        for name, called in zip(line.names, line.names[1:]):
            yield name, line.file, called, line.file


def bodies(file: str, name: str) -> list[str]:
    """Returns the functions of a file that have a name, which may begin with their type's."""
    path = TOP / 'crates' / file
    text = path.read_text() if path.exists() else ''
    *owner, own = name.split('::')
    heads, owners = list(FUNCTION.finditer(text)), list(OWNER.finditer(text))
    found: list[str] = []
    for head, end in zip(heads, [*(head.start() for head in heads[1:]), len(text)]):
        line = [found for found in owners if found.start() < head.start()][-1:] if head[1] else []
        if head[2] == own and bool(line) == bool(owner) and all(
            re.search(r'\b%s\b' % owner[0], one[1]) for one in line):
            found.append(text[head.start():end])
    return found


def calls_not_there(text: str) -> list[str]:
    """Returns the calls in the trees of a page that the code does not have."""
    wrong = list[str]()
    for tree in trees(text):
        for name, file, called, its_file in edges(tree):
            call = re.compile(r'\b%s(?:::<[^()]*>)?\(' % called.rpartition('::')[2])
            if not bodies(its_file, called):
                wrong.append(f'{called} is not in {its_file}')
            if not any(call.search(body[body.find('('):]) for body in bodies(file, name)):
                wrong.append(f'{name} does not call {called}')
    return wrong
