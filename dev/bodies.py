"""Which function a place in a file of Rattle is in, and what a check calls that function.

Files are as `rt fmt` lays them out.
"""
import re
from typing import NamedTuple

FUNCTION = re.compile(r'( *)(?:pub(?:\([^)]*\))?\s+)?(?:const\s+|unsafe\s+)*fn (\w+)')
OWNER = re.compile(r'(?:pub(?:\([^)]*\))?\s+)?(?:impl|trait)\b(.*)')
CLAUSE = re.compile(r' *(requires|ensures|ghost|invariant)\b')


class Head(NamedTuple):
    """The line at which a function begins, how far it is indented, and its name."""
    line: int
    indent: str
    name: str


def function_at(path: str, text: str, at: int) -> str | None:
    """Returns the path, below the crate, of the function in whose body a position of a file is.
    None stands for a position in no body, as in a contract, a type or a constant."""
    lines = text.split('\n')
    line = text.count('\n', 0, at)
    head = head_above(lines, line)
    # (right behind the brace that opens it is in the body)
    if head is None or line - (text[at:at + 1] != '\n') < last_line_of_head(lines, head):
        return None
    return path_of(path, lines, head)


def function_of_line(path: str, text: str, number: int) -> str | None:
    """Returns the path, below the crate, of the function that a line of a file is in. Its head and
    its attributes are part of it. Lines count from 1.
"""
    lines = text.split('\n')
    first = next((line for line in range(number - 1, len(lines))
                  if not lines[line].lstrip().startswith('#')), number - 1)
    head = head_above(lines, first)
    return path_of(path, lines, head) if head else None


def path_of(path: str, lines: list[str], head: Head) -> str:
    """Returns the path of a function, as a check prints it below the crate."""
    if not head.indent:
        return '::'.join(filter(None, (module_of(path), head.name)))
    return f'{owner_above(lines, head.line)}::{head.name}'


def head_above(lines: list[str], line: int) -> Head | None:
    """Returns the head of the function that has a line, if the line is in one."""
    ends = set()
    for number in range(line, -1, -1):
        found = FUNCTION.match(lines[number])
        if found:
            return None if found[1] + '}' in ends else Head(number, found[1], found[2])
        if number < line:
            ends.add(lines[number])
    return None


def last_line_of_head(lines: list[str], head: Head) -> int:
    """Returns the line that opens the body of a function. A function with clauses has it on a line
    of its own."""
    has_clauses = False
    for number in range(head.line, len(lines)):
        has_clauses = has_clauses or bool(CLAUSE.match(lines[number]))
        if lines[number] == head.indent + '{' or lines[number].endswith('{') and not has_clauses:
            return number if not lines[number].endswith('{}') else number - 1
    return len(lines)


def owner_above(lines: list[str], line: int) -> str:
    """Returns what stands before a method's name: its type, or its type and its trait in one
    word."""
    while not OWNER.match(lines[line]):
        line -= 1
    found = OWNER.match(lines[line])
    assert found
    trait, is_for, owner = without_parameters(found[1]).partition(' for ')
    return bare(owner) + bare(trait) + parameters(trait) if is_for else bare(trait)


def without_parameters(words: str) -> str:
    """Returns what follows the type parameters with which an `impl` begins, if it does."""
    words, depth = words.strip(), 0
    for at, letter in enumerate(words if words.startswith('<') else ''):
        depth += (letter == '<') - (letter == '>' and words[at - 1] != '-')
        if not depth:
            return words[at + 1:]
    return words


def bare(words: str) -> str:
    """Returns the name of a type or a trait, without its parameters and its path."""
    return re.split(r'[<\s{(:]', words.strip().lstrip('&').split('<')[0].split('::')[-1])[0]


def parameters(trait: str) -> str:
    """Returns the types between the brackets of a trait as a check writes them: those of
    `From<io::Error>` are `IoError`."""
    words = re.findall(r"(?<!')\b\w+", trait.partition('<')[2])
    return ''.join(word[:1].upper() + word[1:] for word in words)


def module_of(path: str) -> str:
    """Returns the module of a file: that of src/a/b.rt is `a::b`."""
    return re.sub(r'(^|/)(lib|main|mod)$', '',
                  path.removeprefix('src/').removesuffix('.rt')).replace('/', '::')
