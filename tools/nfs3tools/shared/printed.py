"""How names and foreign texts are printed: without what a terminal or a page would take for its
own."""
from __future__ import annotations

import difflib
from collections.abc import Iterable

LIKENESS = 0.4  # how much of a word is that of one near it


def escaped(name: str) -> str:
    """Returns the name of a file as nfs3canon prints it: a control character, a backslash, and a
    byte that is no text, is `\\x` and two digits."""
    return ''.join(letter if letter != '\\' and letter.isprintable() else hexadecimal(letter)
                   for letter in name)


def printable(text: str) -> str:
    """Returns a text whose names are escaped already, without other control characters."""
    return ''.join(letter if letter.isprintable() else hexadecimal(letter) for letter in text)


def near(word: str, names: Iterable[str]) -> str:
    """Returns what is said after a word that is no name: the names that are like it, if any."""
    found = like(word, names)
    return f'; near it: {", ".join(found)}' if found else ''


def like(word: str, names: Iterable[str]) -> list[str]:
    return difflib.get_close_matches(word, [*names], cutoff=LIKENESS)


def hexadecimal(letter: str) -> str:
    return ''.join(f'\\x{byte:02x}' for byte in letter.encode(errors='surrogateescape'))
