#!/usr/bin/env python3
"""Runs `PROGRAM check FILE` on each file some times, and prints a table with a row for each file.

    run.py PROGRAM FILE..

The seconds are those of the fastest run, from its start to its end; the memory is the most that was
resident in any run, as GNU time reports it.
"""
import argparse
import pathlib
import subprocess
import sys
import tempfile
import time
from typing import NamedTuple

sys.path.insert(0, str(pathlib.Path(__file__).resolve().parents[2]))
from tests.shared.running import ended

MEGA = 1_000_000
GNU_TIME = '/usr/bin/time'


class Measured(NamedTuple):
    """A run: its seconds, the bytes of memory, what it printed, and its status."""
    seconds: float
    memory: int
    line: str
    status: int


def run(program: str, file: str) -> Measured:
    """Runs `check` under GNU time, which reports the memory."""
    with tempfile.NamedTemporaryFile('r') as kilobytes:
        timed = [GNU_TIME, '--quiet', '--format=%M', '--output', kilobytes.name]
        begin = time.perf_counter()
        done = ended([program, 'check', file], '.', before=timed, stderr=subprocess.STDOUT,
                     limit=None)
        seconds = time.perf_counter() - begin
        return Measured(seconds, int(kilobytes.read()) * 1_024, done.out.decode().strip(),
                        done.status)


def measure(program: str, file: str, runs: int) -> None:
    """Prints a row of the table. All runs must answer the same."""
    results = [run(program, file) for _ in range(runs)]
    answers = {(result.line, result.status) for result in results}
    if len(answers) > 1:
        sys.exit(f'{file}: the runs differ: {sorted(answers)}')
    line, status = answers.pop()
    size = pathlib.Path(file).stat().st_size
    seconds = min(result.seconds for result in results)
    memory = max(result.memory for result in results)
    numbers = f'{size:,} | {seconds:.3f} | {size / MEGA / seconds:,.0f} | {memory / MEGA:,.1f}'
    print(f'| `{pathlib.Path(file).name}` | {numbers} | `{line}` | {status} |', flush=True)


def main() -> None:
    parser = argparse.ArgumentParser(description=__doc__,
                                     formatter_class=argparse.RawDescriptionHelpFormatter)
    parser.add_argument('program')
    parser.add_argument('files', nargs='+', metavar='file')
    parser.add_argument('--runs', type=int, default=3)
    chosen = parser.parse_args()
    if not pathlib.Path(GNU_TIME).exists():
        sys.exit(f'GNU time is needed, as {GNU_TIME}')
    print('| File | Bytes | Best seconds | MB/s | Memory, MB | Answer | Status '
          '|\n|---|--:|--:|--:|--:|---|--:|')
    for file in chosen.files:
        measure(chosen.program, file, chosen.runs)


if __name__ == '__main__':
    main()
