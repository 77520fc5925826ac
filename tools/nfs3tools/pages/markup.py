"""The parts of which all pages are made: their beginning and end, tables, filters, and what is
folded. How a page looks is in page.css, and what its keys and buttons do in page.js. Without the
script it can be read all the same.
"""
from __future__ import annotations

import shlex
from collections.abc import Iterable, Iterator, Sequence
from html import escape
from itertools import chain
from pathlib import Path

from ..recordings.parts import Part
from ..reporting.frames import filters_of
from ..shared.names import as_called
from ..shared.printed import printable


def asset(name: str) -> str:
    """Returns a file that is part of each page."""
    return '\n' + Path(__file__).with_name(name).read_text(encoding='utf-8')


def class_of(look: str) -> str:
    return f' class={look}' if look else ''


def code(text: str) -> str:
    return f'<code>{escape(text)}</code>'


def whole_page(title: str, look: str, heading: str, pieces: Iterable[str]) -> Iterator[bytes]:
    """The bytes of a page: its title, how its heading looks and what it says, and all below it."""
    head = ('<!DOCTYPE html><html lang=en><meta charset=utf-8>'
            '<meta name=viewport content="width=device-width, initial-scale=1">'
            '<meta name=color-scheme content="light dark">'
            f'<title>{escape(title)}</title><style>{asset("page.css")}</style>'
            f'<h1{class_of(look)}>{escape(heading)}</h1>')
    return (piece.encode(errors='backslashreplace')
            for piece in chain([head], pieces, [f'<script>{asset("page.js")}</script></html>\n']))


def bar(found: str, rows: str) -> str:
    """What searches, and goes from one to the next, if scripts run: the words for what it goes
    through, and for the rows that it searches besides."""
    return (f'<div class=bar data-found="{found}" data-rows="{rows}">'
            '<input id=find type=search aria-label="search" '
            'placeholder="a path, a value, a frame ..">'
            '<button type=button id=previous>previous (p)</button>'
            '<button type=button id=next>next (n)</button>'
            '<span id=found class=quiet aria-live=polite></span></div>')


def folded(name: str, summary: str, pieces: Iterable[str], attributes: str = '') -> Iterator[str]:
    yield f'<details class={name}{attributes}><summary>{escape(summary)}</summary>'
    yield from pieces
    yield '</details>'


def section(title: str, pieces: Iterable[str], attributes: str = '') -> Iterator[str]:
    """A part of a page below its title, which is HTML."""
    yield f'<section{attributes}><h2>{title}</h2>'
    yield from pieces
    yield '</section>'


def paragraphs(lines: Iterable[str], look: str = '') -> Iterator[str]:
    """Lines that are not HTML."""
    return (f'<p{class_of(look)}>{escape(line)}</p>' for line in lines)


def block(tag: str, lines: Iterable[str], look: str = '') -> str:
    """Lines that are not HTML, in one element, or nothing if there are none."""
    text = '\n'.join(lines)
    return f'<{tag}{class_of(look)}>{escape(text)}</{tag}>' if text else ''


def table(names: Sequence[str], rows: Iterable[str], look: str = '') -> Iterator[str]:
    heads = ''.join(f'<th>{escape(name)}</th>' for name in names)
    yield f'<table{class_of(look)}><thead><tr>{heads}</tr></thead>'
    yield from rows
    yield '</table>'


def next_commands(recording: str, position: str, has_frames: bool = True) -> list[str]:
    """Returns what shows a position, and what cuts its exchange out."""
    name, place = shlex.quote(recording), shlex.quote(position)
    out = 'bug.pcap' if has_frames else 'bug.nfs3cap'
    return [printable(as_called(line)) for line in (
        f'tools/explain {name} {place}', f'tools/cut {name} {place} {out}')]


def commands(several: Iterable[str]) -> str:
    """Command lines, each with a button that copies it."""
    return ''.join(f'<p><code class=command>{escape(line)}</code> <button type=button class=copy '
                   'aria-label="copy the command"></button></p>' for line in several)


def filters(parts: Sequence[Part], numbers: Sequence[int]) -> str:
    """Display filters of Wireshark for frames. Scripts put each behind a button that copies it."""
    several = filters_of(parts, numbers) if numbers else ()
    return ''.join(f' <span>{escape(name)}{": " if name else ""}<code class=filter>{text}</code>'
                   '<button type=button class=copy aria-label="copy the filter"></button></span>'
                   for name, text in several)
