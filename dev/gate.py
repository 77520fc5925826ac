#!/usr/bin/env python3
"""The gate: proves all crates, tries all must-fail edits, and runs all tests.

    python3 dev/gate.py [--anew] [--alone]

Four things go on side by side:

- `rt ci` over a copy of the crates that has no edits and not the crate of tests;
- the tests of that crate by `rt try --test`, which builds it with checks and proves nothing;
- the edits of each crate (dev/edits.py), once the libraries below it are proved;
- the tests of the programs and of the tools, on the programs of dist/ if these sources are theirs,
  with a higher priority than all else. So a test that fails is seen in minutes.

In the end the programs that were proved and built are compared with those of dist/. If dist/ is of
other sources, the tests run then.

--anew takes nothing from earlier runs. --alone has `rt ci` try the tree as it is: it proves the
crate of tests as well, and tries each edit in a check of its own. That takes about twice as long.
The last line is 'N passed, M failed', and ', K skipped' may follow.
"""
import argparse
import os
import re
import shutil
import sys
import tempfile
import threading
import time
from collections import Counter
from collections.abc import Callable
from concurrent.futures import Future, ThreadPoolExecutor
from pathlib import Path

import edits
import kit

sys.path.insert(0, str(Path(__file__).resolve().parent.parent))
from tests import everything  # noqa: E402
from tests.everything import COUNTS, lines_of, say, timed  # noqa: E402

TOP = Path(__file__).resolve().parent.parent
# The crate of tests, whose proofs say only that a test is safe and ends. memory_tests is proved,
# since tests/faults/memory.py runs what is built of it.
TRIED = 'tests'
# What the tests of tests/ run, by crates.
BUILT = {'nfs3canon': 'nfs3canon', 'nfs3mask': 'nfs3mask', 'nfs3streams': 'nfs3streams',
         'memory_tests': 'memory_tests_tests'}
PROVED = re.compile(r'^rt: (\w+) (?:proved$|is kept: )')
TRIED_COUNTS = re.compile(r'^test result: .*?(\d+) passed; (\d+) failed', re.MULTILINE)
SECONDS = 1.0  # how often a task that waits for memory looks again


class Count(everything.Count):
    """How much passed and failed so far, and which kinds of goals refused the edits."""

    def __init__(self) -> None:
        super().__init__()
        self.kinds = Counter[str]()

    def add_edits(self, kinds: Counter[str]) -> None:
        """Adds edits by the kinds of goals that refused them. Those that were not refused, or by no
        goal, failed."""
        failed = edits.failures(kinds)
        self.add(kinds.total() - failed, failed)
        with self.lock:
            self.kinds.update(kinds)


class Board:
    """Which crates are proved so far. Who waits for some learns also that no more will be."""

    def __init__(self) -> None:
        self.proved: set[str] = set()
        self.is_over = False
        self.changed = threading.Condition()

    def note(self, name: str) -> None:
        with self.changed:
            self.proved.add(name)
            self.changed.notify_all()

    def end(self) -> None:
        with self.changed:
            self.is_over = True
            self.changed.notify_all()

    def has(self, names: set[str]) -> bool:
        """Waits for crates. Returns whether they are proved."""
        with self.changed:
            self.changed.wait_for(lambda: self.is_over or names <= self.proved)
            return names <= self.proved


class Memory:
    """The memory that tasks beside the proofs may take: one begins only if there is enough for
    it."""

    def __init__(self) -> None:
        self.lock = threading.Lock()
        self.begun: list[float] = []

    def wait(self) -> None:
        """Waits until there is memory for one check more. One that just began does not have yet
        what it will take."""
        while True:
            with self.lock:
                now = time.monotonic()
                self.begun = [at for at in self.begun if now - at < 20]
                if kit.free_memory() > kit.BYTES_OF_A_CHECK * (1 + len(self.begun)):
                    self.begun.append(now)
                    return
            time.sleep(SECONDS)


def not_copied(folder: str, names: list[str]) -> set[str]:
    """Returns which names of a folder are not copied. A folder below a crate may have the name of
    the crate of tests."""
    return {'must-fail', 'out', *([TRIED] if Path(folder) == TOP / 'crates' else [])} & set(names)


def copied(room: Path) -> Path:
    """Copies the crates that are proved, without edits. `rt ci` wants the top of a repository."""
    top = room / 'repository'
    (top / '.git').mkdir(parents=True)
    shutil.copy(TOP / 'HANDLES', top)
    lines = (TOP / 'crates.txt').read_text().splitlines(keepends=True)
    (top / 'crates.txt').write_text(''.join(line for line in lines
                                            if line.split(':')[0].split(' ')[0] != TRIED))
    shutil.copytree(TOP / 'crates', top / 'crates', ignore=not_copied)
    return top


def counted(words: list[str], folder: Path, count: Count,
            look: Callable[[str], None] = lambda line: None) -> bool:
    """Runs a command whose last line counts, prints its lines, and adds the count. Returns whether
    all passed."""
    told = None
    for line in lines_of(words, folder):
        print(line, end='', flush=True)
        look(line)
        told = COUNTS.match(line)
    passed, failed = (int(told[1]), int(told[2])) if told else (0, 1)
    count.add(passed, failed)
    return failed == 0


def tries_of_tests(count: Count, memory: Memory) -> None:
    """Runs the tests of the crate of tests, with checks and no proof."""
    memory.wait()
    said = ''.join(lines_of(['rt', 'try', TRIED, '--test'], TOP / 'crates' / TRIED))
    found = TRIED_COUNTS.search(said)
    passed, failed = (int(found[1]), int(found[2])) if found else (0, 1)
    if failed or not passed:
        print(said, flush=True)
    say(f'{TRIED}: {passed} passed, {failed} failed, by rt try')
    count.add(passed, failed or int(not passed))


def tries_of_edits(tries: edits.Tries, board: Board, count: Count, memory: Memory) -> None:
    """Tries the edits of a crate, once the libraries below are proved."""
    crate = tries.crate
    if not board.has({below.name for below in crate.below()}):
        print(f'{crate.name}: its edits are not tried, since a library below it is not proved',
              flush=True)
        count.add(0, 1)
        return
    for outcomes in tries.outcomes(memory.wait):
        count.add_edits(edits.told(crate, outcomes))


def tries_by_crates(top: Path, is_anew: bool, count: Count) -> list[edits.Tries]:
    """Returns the tries of each crate's edits over the libraries of a copy, lowest crates first."""
    copies = {crate.name: crate for crate in kit.crates(top)}
    found = []
    for crate in kit.crates(TOP):
        own, others = kit.edits(crate)
        count.add(0, edits.told_of_others(crate, others))
        if own:
            found.append(edits.Tries(copies[crate.name], own, is_anew))
    return found


def proved(top: Path, is_anew: bool, board: Board, count: Count) -> bool:
    """Has `rt ci` prove the copy, and notes each crate that is proved. Returns whether all
    passed."""
    def look(line: str) -> None:
        found = PROVED.match(line)
        if found:
            board.note(found[1])
            say(f'{found[1]} is proved')
    try:
        return counted(['nice', '-n', '5', *kit.ci(is_anew)], top, count, look)
    finally:
        board.end()


def taken_back(top: Path) -> None:
    """Gives the tree the programs that were built in the copy."""
    for crate, name in BUILT.items():
        out = TOP / 'crates' / crate / 'out'
        out.mkdir(exist_ok=True)
        beside = out / f'{name}.{os.getpid()}'
        shutil.copy2(top / 'crates' / crate / 'out' / name, beside)
        os.utime(beside)
        beside.replace(out / name)


def together(is_anew: bool, count: Count) -> None:
    """Proves, and beside it tries the edits and the crate of tests, and tests the programs."""
    board, memory, why_not = Board(), Memory(), everything.why_not_shipped()
    print(why_not, end='', flush=True)
    with tempfile.TemporaryDirectory(prefix='nfs3canon-gate') as room, \
            ThreadPoolExecutor(1) as beside, \
            ThreadPoolExecutor(kit.processors(), initializer=os.nice, initargs=(10,)) as pool:
        top = copied(Path(room))
        tested = None if why_not else beside.submit(test_programs, count)
        tasks: list[Future[None]] = [pool.submit(tries_of_tests, count, memory)]
        tasks += [pool.submit(tries_of_edits, tries, board, count, memory)
                  for tries in tries_by_crates(top, is_anew, count)]
        with timed('the proofs'):
            is_well = proved(top, is_anew, board, count)
        with timed('the edits and tests that were left then'):
            for task in [*tasks, *filter(None, [tested])]:
                task.result()
        say(edits.told_of_kinds(count.kinds))
        if is_well:
            taken_back(top)
            if not tested:
                test_programs(count)
            everything.try_scripts(count, everything.ON_DIST, everything.ON_BUILT)


def test_programs(count: Count) -> None:
    """Runs the tests of the programs and of the tools, and those of this folder."""
    everything.try_programs_and_tools(count, *everything.ON_PROGRAMS, everything.WITH_RT)


def alone(is_anew: bool, count: Count) -> None:
    """Has `rt ci` try the tree as it is, and tests the programs."""
    os.environ.setdefault('RT_JOBS', str(kit.processors()))
    if counted(kit.ci(is_anew), TOP, count):
        test_programs(count)
        everything.try_scripts(count, everything.ON_DIST, everything.ON_BUILT)


def main() -> int:
    parser = argparse.ArgumentParser(description=__doc__,
                                     formatter_class=argparse.RawDescriptionHelpFormatter)
    parser.add_argument('--anew', action='store_true', help='take nothing from earlier runs')
    parser.add_argument('--alone', action='store_true',
                        help='try each edit in a check of its own, as before a release')
    asked = parser.parse_args()
    count, start = Count(), time.monotonic()
    (alone if asked.alone else together)(asked.anew, count)
    say(f'the gate took {(time.monotonic() - start) / 60:.0f} minutes, and '
        f'{sum(os.times()[:4]) / 60:.0f} of processor time')
    print(count.told())
    return count.status


if __name__ == '__main__':
    sys.exit(main())
