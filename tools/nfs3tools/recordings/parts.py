"""The files that an argument names: one, or by a pattern, which in quotes the shell leaves to the
tool, the parts of one recording, as `tcpdump -C`, `-G` and `-W` write them.
"""
from __future__ import annotations

import errno
import glob
import os
import re
import shlex
import typing
from collections.abc import Iterable

from ..shared.printed import escaped
from .sources import NoRecording, Source, check_recording, opened
from .unpacking import Damaged


class NotThere(Exception):
    """An argument is the name of no file, and no pattern that fits one; its text is the message."""


class Part(typing.NamedTuple):
    """A part of a recording: its file, and how many frames the parts before it have."""
    path: str
    before: int


def files_of(path: str) -> list[str]:
    """Returns the files that an argument names, sorted. Those that a pattern fits and that are no
    recordings are skipped unless all are. Raises `NotThere` if there is none."""
    if path == '-' or os.path.exists(path):
        return [path]
    found = sorted(glob.glob(path))
    if not found:
        raise NotThere(f'{escaped(path)}: {os.strerror(errno.ENOENT)}')
    return list(filter(may_be_recording, found)) or found


def files_in(paths: Iterable[str]) -> list[str]:
    """Returns the files that several arguments name."""
    return [file for path in paths for file in files_of(path)]


def skipped_of(path: str) -> list[str]:
    """Returns the files that a pattern fits and that are skipped, sorted by their names."""
    return sorted({*glob.glob(path)} - {*files_of(path)}) if not os.path.exists(path) else []


def may_be_recording(path: str) -> bool:
    """Whether a file is a recording, also one that cannot be read."""
    if not os.path.isfile(path):
        return True
    try:
        with opened(path) as file:
            check_recording(Source(file))
    except NoRecording as refused:
        return refused.packed_by is not None
    except (Damaged, OSError):
        pass
    return True


def pattern_beside(path: str) -> str | None:
    """Returns a pattern in quotes for a file and others beside it with another last number."""
    if path == '-':
        return None
    base = re.sub(r'\d+$', '', path)
    numbered = re.compile(re.escape(base) + r'\d*')
    others = [file for file in glob.glob(glob.escape(base) + '*') if numbered.fullmatch(file)
              and file != path]
    return shlex.quote(glob.escape(base) + '*') if others and os.path.basename(base) else None
