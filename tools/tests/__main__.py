"""Runs the tests of the tools side by side, each in a process that runs one at a time.

    python3 -m tools.tests [-j N] [--only TEXT] [-v] [NAME ..]

NAME is a module, `cut` for test_cut.py; all are run if none is named. --only keeps the tests whose
names have the text, -v names those that passed. The last line is 'N passed, M failed', and the
status is 1 if any failed or none ran.
"""
import argparse
import concurrent.futures
import os
import pathlib

from tests.shared.running import Words, try_all

from .cases import PROGRAM, tests_of, wrong_in

HERE = pathlib.Path(__file__).resolve().parent


def main() -> None:
    parser = argparse.ArgumentParser(description=__doc__,
                                     formatter_class=argparse.RawDescriptionHelpFormatter)
    parser.add_argument('-j', metavar='N', type=int, default=os.cpu_count(), help='runs N at once')
    parser.add_argument('--only', metavar='TEXT', default='',
                        help='runs the tests whose names have the text')
    parser.add_argument('-v', action='store_true', help='names the tests that passed')
    parser.add_argument('names', metavar='NAME', nargs='*')
    words = parser.parse_args(namespace=Words(program=PROGRAM))
    modules = words.names or sorted(path.stem.removeprefix('test_')
                                    for path in HERE.glob('test_*.py'))
    try_all(words, [(f'{module}.{name}', wrong_in, module, name)
                    for module in modules for name in tests_of(module)],
            words.j, concurrent.futures.ProcessPoolExecutor)


if __name__ == '__main__':
    main()
