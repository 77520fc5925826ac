"""How many arguments the relations of clauses take.

A reader counts arguments that have no names, so a relation of a public function takes at most five,
and any other at most seven. What goes together is a record of named fields, or a pair.
"""
import itertools
import re
from collections.abc import Iterable, Iterator
from typing import NamedTuple

from tests.sources.rooms import TOP, libraries, public_texts, tool

MOST_PUBLIC, MOST = 5, 7
TOKEN = re.compile(r'[(){}\[\]]|[^\s(){}\[\],;]+|[,;]')
OPEN, CLOSE = '({[', ')}]'
# What stands between two facts or two values, and so ends a relation's arguments; and the name of a
# function's argument.
BETWEEN = re.compile(r'[→↔×⊎≡≢≤<>=+*/%^&|∷,;λ-]+$|(?:if|then|else)$|.*\.$')

Word = str | list['Word']


class Relation(NamedTuple):
    """A relation with its arguments: its name, and how many there are."""
    name: str
    arguments: int


def nested(text: str) -> list[Word]:
    """Returns the words of a clause, those in brackets as a list."""
    open_lists = list[list[Word]]([[]])
    for token in TOKEN.findall(text):
        if token in OPEN:
            open_lists.append([])
        elif token in CLOSE:
            inner = open_lists.pop()
            open_lists[-1].append(inner)
        else:
            open_lists[-1].append(token)
    return open_lists[0]


def relations(words: list[Word]) -> Iterator[Relation]:
    """Yields each name that is applied to arguments, also within brackets."""
    runs = itertools.groupby(words, lambda word: isinstance(word, str)
                             and bool(BETWEEN.match(word)))
    for first, *others in (list(run) for ends, run in runs if not ends):
        if isinstance(first, str):
            yield Relation(first, len(others))
    for word in words:
        if isinstance(word, list):
            yield from relations(word)


def over(limit: int, clauses: Iterable[str]) -> set[str]:
    """Returns the relations of clauses that take more arguments than this."""
    found = {relation for clause in clauses for relation in relations(nested(clause))}
    return {'%s takes %d arguments' % one for one in found if one.arguments > limit}


def with_many_arguments() -> list[str]:
    """Returns the relations that take too many arguments, with their files."""
    found, clauses_in = set[str](), tool().clauses_in
    for crate in libraries():
        sources = [(MOST_PUBLIC, *source) for source in public_texts(crate)]
        sources += [(MOST, path, path.read_text())
                    for path in sorted((TOP / 'crates' / crate / 'src').rglob('*.rt'))]
        for limit, path, text in sources:
            clauses = [clause.partition('{')[2].removesuffix('}') for clause in clauses_in(text)]
            found |= {'%s: %s' % (path.relative_to(TOP), wrong) for wrong in over(limit, clauses)}
    return sorted(found)
