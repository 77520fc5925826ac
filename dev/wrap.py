#!/usr/bin/env python3
"""Breaks the lines of specs and proofs that are longer than 100 columns; `rt fmt` keeps the breaks.

    dev/wrap.py [FILE ..]     all .antt files below crates/ if none is named

A line is broken at its spaces alone, so the file keeps its words.  What binds loosest is parted
first: a part that is still too long is broken in turn, four columns further in.  Imports stay on
one line each: `rt fmt` would put each name on a line of its own.
"""
import re
import sys
from pathlib import Path
from typing import NamedTuple

TOP = Path(__file__).resolve().parent.parent
WIDTH = 100
IMPORT = r"(unfoldable )?(pub )?use "
QUOTED = r'"(?:[^"\\]|\\.)*"'
# how loose a break is: after a comma and the like, before an operator, between arguments
LIST, LAMBDA, ARGUMENT = 1, 2, 9
OPERATORS = {"→": 3, "↔": 4, "×": 4, "⊎": 4, "∙": 5, "&&": 5, "||": 5, "then": 5, "else": 5,
             "≡": 6, "≢": 6, "≤": 6, "<": 6, "==": 6, "++": 7, "∷": 7, "+": 8, "-": 8, "*": 8,
             "/": 8, "%": 8, "^": 8, "|": LIST}
# words that belong to the one before, and words that the next one belongs to
GLUED = {"=", ":", "as", "where"}
HEADS = {"pub", "abbrev", "unfoldable", "record", "data", "module", "let", "rw", "grind", "λ", "_"}


class Word(NamedTuple):
    """A word of a line, with the number of brackets that are open after it."""
    text: str
    open: int


def words_of(line: str) -> list[Word]:
    """The words of a line; a quoted text is part of one word."""
    words, depth = [], 0
    for text in re.findall(rf"(?:{QUOTED}|\S)+", line):
        bare = re.sub(QUOTED, "", text)
        depth += sum(bare.count(opened) - bare.count(closed)
                     for opened, closed in ("()", "[]", "{}"))
        words.append(Word(text, depth))
    return words


def in_binders(words: list[Word]) -> set[int]:
    """The words of the binders of each λ, but for the last: no line ends there."""
    inside, found = False, set()
    for at, word in enumerate(words):
        inside = inside or word.text.lstrip("([{") == "λ"
        inside = inside and not word.text.endswith(".")
        if inside:
            found.add(at)
    return found


def looseness(last: Word, word: Word) -> int | None:
    """How loose a break between two words is, from 0; None if there is to be none."""
    if last.text in OPERATORS or last.text.lstrip("([{") in HEADS or word.text in GLUED:
        return None
    if last.text in ("=", "in") and not last.open:
        return 0
    if last.text.endswith((",", ";")):
        return LIST
    if last.text.endswith(".") or last.text in ("=", "in"):
        return LAMBDA
    return OPERATORS.get(word.text, ARGUMENT)


def breaks_of(words: list[Word]) -> list[int]:
    """The places of the loosest breaks: the words that begin a part, without the first."""
    held = in_binders(words)
    ranks = {}
    for at, (last, word) in enumerate(zip(words, words[1:]), 1):
        loose = looseness(last, word)
        if loose is not None and at - 1 not in held:
            ranks[at] = (last.open, loose)
    if words[0].text == "let" and any(words[at - 1].text == "in" for at in ranks):
        ranks = {at: rank for at, rank in ranks.items() if words[at - 1].text != "="}
    loosest = min(ranks.values(), default=None)
    places = [at for at, rank in ranks.items() if rank == loosest]
    return places[:1] if loosest is not None and loosest[1] == 0 else places


def text_of(words: list[Word]) -> str:
    """The words as one line."""
    return " ".join(word.text for word in words)


def broken(words: list[Word], indent: int, further: int) -> list[str]:
    """The words in lines: the first at one column, the parts after the first at another."""
    text = " " * indent + text_of(words)
    places = breaks_of(words) if len(text) > WIDTH else []
    if not places:
        return [text]
    if words[0].text in OPERATORS and words[places[0]].text == words[0].text:
        further = indent
    lines: list[str] = []
    for start, end in zip([0, *places], [*places, len(words)]):
        add_part(lines, words[start:end], further if start else indent, further, end == len(words))
    return lines


def add_part(lines: list[str], part: list[Word], column: int, further: int, last: bool) -> None:
    """Adds a part to the last line, if it fits, or on lines of its own.

    The last argument, if it is in brackets and too long for a line, begins on the last line.
    """
    text = text_of(part)
    room = WIDTH - len(lines[-1]) - 1 if lines and not lines[-1].endswith(" in") else 0
    if len(text) <= room:
        lines[-1] += " " + text
    elif last and room > 20 and text[0] in "([" and column + len(text) > WIDTH:
        begun = broken(part, len(lines[-1]) + 1, column + 4)
        lines[-1] += " " + begun[0].lstrip(" ")
        lines += begun[1:]
    else:
        lines += broken(part, column, further + 4)


def broken_comment(line: str) -> list[str]:
    """A comment in lines of at most 100 columns."""
    head, rest = re.match(r"(\s*-- )?(.*)", line).groups("")     # type: ignore[union-attr]
    lines = [head + rest.split(" ")[0]]
    for word in rest.split(" ")[1:]:
        if len(lines[-1]) + 1 + len(word) > WIDTH:
            lines.append(head + word)
        else:
            lines[-1] += " " + word
    return lines


def lines_for(line: str) -> list[str]:
    """The lines in place of one."""
    if len(line) <= WIDTH:
        return [line]
    if line.lstrip().startswith("--"):
        return broken_comment(line)
    if re.match(IMPORT, line):
        return [line]
    words = words_of(line)
    indent = len(line) - len(line.lstrip(" "))
    return broken(words, indent, indent if words[0].text == "let" else indent + 4)


def main(names: list[str]) -> None:
    """Breaks the long lines of these files."""
    for file in [Path(name) for name in names] or sorted((TOP / "crates").rglob("*.antt")):
        text = file.read_text()
        new = "\n".join(new for line in text.split("\n") for new in lines_for(line))
        if new != text:
            file.write_text(new)


if __name__ == "__main__":
    main(sys.argv[1:])
