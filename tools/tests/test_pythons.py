"""Tests that the tools run under each Python from 3.9 on, and tell older ones so; and of types."""
import re
import shutil
import unittest
from pathlib import Path

from tests.shared.running import ended

from .scripts import FIRST, SECOND, TOP, Tools

OLDEST = (3, 9)
COMMANDS = ('calls', 'compare', 'cut', 'explain', 'from_pcap', 'meaning', 'procedures',
            'verdicts', 'where')
# Imports each module. Prints what went wrong.
EACH = """import importlib, pathlib, sys
sys.path.insert(0, sys.argv[1])
for path in sorted(pathlib.Path(sys.argv[1], 'nfs3tools').rglob('*.py')):
    importlib.import_module('.'.join(path.relative_to(sys.argv[1]).with_suffix('').parts))
"""


def pythons() -> dict[tuple[int, int], str]:
    names = [f'python3.{minor}' for minor in range(4, 20)] + ['python2.7']
    found = [path for name in names for path in (shutil.which(name),
                                                 *Path.home().glob(f'.pyenv/versions/*/bin/{name}'))
             if path]
    return {version: str(path) for path in found if (version := version_of(str(path)))}


def version_of(python: str) -> tuple[int, int] | None:
    status, out, _ = ended([python, '-c',
                            'import sys; print("%d.%d" % tuple(sys.version_info[:2]))'], TOP).text()
    read = re.fullmatch(r'(\d+)\.(\d+)\n', out)
    return (int(read[1]), int(read[2])) if read and status == 0 else None


def each_python(tools: Tools) -> None:
    """Each imports all modules and compares examples, or has a line that refuses it."""
    for version, python in pythons().items():
        if version < OLDEST:
            _, full, _ = ended([python, '-c', 'import sys; print("%d.%d.%d" % '
                                'tuple(sys.version_info[:3]))'], TOP).text()
            for name in COMMANDS:
                tools.want(f'{name} by {python}',
                           ended([python, '-B', str(TOP / 'tools' / name), '--help'],
                                 tools.folder).text(),
                           (3, '', f'{name}: needs Python 3.9 or later; this is {full}'))
            continue
        tools.want(f'modules by {python}', ended([python, '-B', '-c', EACH, str(TOP / 'tools')],
                                                 tools.folder), (0, b'', b''))
        status, out, error = ended([python, '-B', str(TOP / 'tools/compare'), '--program',
                                    tools.program, FIRST, SECOND], tools.folder).text()
        tools.want(f'compare by {python}', (status, out.splitlines()[1], error),
                   (0, 'same: 103 calls in 3 connections', ''))


@unittest.skipUnless(shutil.which('mypy'), 'mypy is not there')
def types_are_right(tools: Tools) -> None:
    """mypy --strict finds nothing in nfs3tools."""
    status, out, error = ended(['mypy', '--cache-dir', tools.path('cache')], TOP / 'tools',
                               limit=None).text()
    tools.want('mypy', (status, out if status else '', error), (0, '', ''))
