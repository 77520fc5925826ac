#!/usr/bin/env python3
"""Runs all tests of the programs and of the tools that need no toolchain, on what dist/ ships.

    python3 -m tests.everything

runs at the top of the repository, as `./test --shipped` does. It proves nothing: the programs are
those of dist/, which must be made of these sources. What a machine has not got, such as tshark or
the rights of root, leaves tests out, each with a line. The last line is 'N passed, M failed, K
skipped', and the status is 1 if any failed, and 2 if dist/ is of other sources.
"""
import os
import re
import subprocess
import sys
import threading
import time
from collections.abc import Iterator
from concurrent.futures import ThreadPoolExecutor
from contextlib import contextmanager
from pathlib import Path

TOP = Path(__file__).resolve().parent.parent
# The scripts in the order in which they begin: those that run the programs, whoever built them,
ON_PROGRAMS = ('program/run', 'program/streams', 'program/captures', 'program/fuzz',
               'program/large', 'program/instructions', 'faults/failures', 'faults/hostile',
               'faults/recordings', 'sources/agreement')
# those that look at dist/, or run other things that `rt` built, and those that run `rt`.
ON_DIST, ON_BUILT, WITH_RT = 'program/shipped', 'faults/memory', 'sources/must_fail'
OF_THE_TOOLS = ('-m', 'tools.tests')
COUNTS = re.compile(r'^(?:rt: )?(\d+) passed, (\d+) failed')
LEFT_OUT = re.compile(r'^left out\b')


class Count:
    """How much passed, failed and was left out so far. It is added to from several threads."""

    def __init__(self) -> None:
        self.passed = self.failed = self.skipped = 0
        self.lock = threading.Lock()

    def add(self, passed: int, failed: int, skipped: int = 0) -> None:
        with self.lock:
            self.passed, self.failed = self.passed + passed, self.failed + failed
            self.skipped += skipped

    def told(self) -> str:
        """Returns the last line."""
        left_out = f', {self.skipped} skipped' if self.skipped else ''
        return f'{self.passed} passed, {self.failed} failed{left_out}'

    @property
    def status(self) -> int:
        return int(self.failed > 0 or not self.passed)


def say(text: str) -> None:
    print(f'{time.strftime("%H:%M:%S")} {text}', flush=True)


@contextmanager
def timed(name: str) -> Iterator[None]:
    """Says how long a part took."""
    start = time.monotonic()
    yield
    say(f'{name} took {(time.monotonic() - start) / 60:.1f} minutes')


def lines_of(words: list[str], folder: Path) -> Iterator[str]:
    """Runs a command, and yields the lines of both its outputs."""
    with subprocess.Popen(words, cwd=folder, stdin=subprocess.DEVNULL, stdout=subprocess.PIPE,
                          stderr=subprocess.STDOUT, text=True, errors='replace') as process:
        assert process.stdout
        yield from process.stdout


def tests_of(words: tuple[str, ...], count: Count) -> None:
    """Runs tests, and prints what they print once they have ended."""
    said = list(lines_of([sys.executable, *words], TOP))
    told = next(filter(None, map(COUNTS.match, reversed(said))), None)
    passed, failed = (int(told[1]), int(told[2])) if told else (0, 1)
    print(f'{" ".join(words)}:', ''.join(said), sep='\n', end='', flush=True)
    count.add(passed, failed, len(list(filter(LEFT_OUT.match, said))))


def try_scripts(count: Count, *scripts: str) -> None:
    """Runs the tests of some scripts side by side."""
    with ThreadPoolExecutor(len(os.sched_getaffinity(0))) as pool:
        list(pool.map(lambda name: tests_of((f'tests/{name}.py',), count), scripts))


def try_programs_and_tools(count: Count, *scripts: str) -> None:
    """Runs the tests of the programs side by side, and then those of the tools, which do so
    themselves."""
    with timed('the tests of the programs'):
        try_scripts(count, *scripts)
    with timed('the tests of the tools'):
        tests_of(OF_THE_TOOLS, count)


def why_not_shipped() -> str:
    """Gives the tree the programs of dist/ where none is built. Returns why not, if they are made
    of other sources or damaged."""
    return subprocess.run([TOP / 'dev/dist', '--take'], text=True, check=False,
                          capture_output=True).stderr


def main() -> int:
    why = why_not_shipped()
    if why:
        print(why, end='', file=sys.stderr)
        return 2
    count, start = Count(), time.monotonic()
    try_programs_and_tools(count, ON_DIST, *ON_PROGRAMS)
    say(f'the tests took {(time.monotonic() - start) / 60:.0f} minutes')
    print('Nothing was proved: the programs are those of dist/. ./test proves and builds them, and '
          'tests the libraries, with rt, the Rattle toolchain (CONTRIBUTING.md).')
    print(count.told())
    return count.status


if __name__ == '__main__':
    sys.exit(main())
