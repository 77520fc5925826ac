#!/usr/bin/env python3
"""Runs the tests of crates/memory_tests, which the gate has built, with each growth of memory
refused in turn.

    python3 tests/faults/memory.py [TESTS] [--only TEXT] [-v]

TESTS is crates/memory_tests/out/memory_tests_tests if none is named. Each test holds whichever
growth is refused: it is run with its first refused, then its second and so on, up to a run that
meets none. That takes Linux on x86-64 (tracing.py), and elsewhere all is skipped, with a word. The
last line is 'N passed, M failed', and the status is 1 if any failed.
"""
import concurrent.futures
import os
import pathlib
import sys

sys.path.insert(0, str(pathlib.Path(__file__).resolve().parents[2]))
from tests.shared import tracing
from tests.shared.running import Try, ended, try_all, words_of
from tests.shared.tracing import Fault

TESTS = pathlib.Path(__file__).resolve().parents[
    2] / 'crates' / 'memory_tests' / 'out' / 'memory_tests_tests'


def without_each_growth(program: str, test: str) -> list[str]:
    """What is wrong with the test's runs."""
    wrong: list[str] = []
    last = tracing.run(program, [test], '.', Fault('growth', 0)).counts['growth']
    for number in range(last + 1):
        answer = tracing.run(program, [test], '.', Fault('growth', number))
        if answer.status != 0:
            wrong.append('without its growth %d: status %d, %s'
                         % (number, answer.status, (answer.out + answer.error)[-300:]))
    return wrong


def names_of(program: str) -> list[str]:
    """The names of the tests."""
    listed = ended([program, '--list'], '.')
    if listed.status != 0:
        raise SystemExit('%s --list ended with status %d' % (program, listed.status))
    return [line.split(': ')[0] for line in listed.out.decode().splitlines()
            if line.endswith(': test')]


def main() -> None:
    words, why = words_of(__doc__, TESTS), tracing.why_not()
    if why:
        print('left out, since ' + why)
        print('0 passed, 0 failed')
        return
    tries: list[Try] = [(name, without_each_growth, name) for name in names_of(words.program)]
    try_all(words, tries, os.cpu_count(), concurrent.futures.ProcessPoolExecutor)


if __name__ == '__main__':
    main()
