#!/usr/bin/env python3
"""Counts the instructions of the built program, by valgrind's callgrind, and compares them with
limits.

    python3 tests/program/instructions.py [PROGRAM] [--only TEXT] [-v]

PROGRAM is crates/nfs3canon/out/nfs3canon if none is named. Each command runs on a made capture of
one megabyte; a count does not move with what else the machine does, as a time would. A limit is 5 %
above what was counted if it was set last, so who makes a command slower sees it here. If a command
has become faster, its limit is lowered. The counts are of the program alone on x86-64. If valgrind
is not installed, all is left out, with a word. The last line is 'N passed, M failed', and the
status is 1 if any failed.
"""
import os
import pathlib
import re
import shutil
import sys
import tempfile

sys.path.insert(0, str(pathlib.Path(__file__).resolve().parents[2]))
from dev.measure import make
from tests.shared.running import command_of, ended, try_all, words_of

# The most instructions, in millions.
LIMITS = {
    'check small': 4.6,
    'canon small': 7.03,
    'show small': 13.37,
    'same small': 12.05,
    'check mixed': 4.02,
    'canon mixed': 11.28,
    'show mixed': 15.18,
    'same mixed': 9.88,
    'pack small': 0.39,
    'nfs3mask small': 10.5,
    'nfs3mask mixed': 13.7,
    'check recorded': 1.83,
    'canon recorded': 4.87,
    'show recorded': 11.13,
    'same recorded': 5.1,
    'nfs3mask recorded': 6.3,
    'check plain': 2.04,
    'canon plain': 3.36,
    'show plain': 7.3,
    'same plain': 5.41,
    'nfs3mask plain': 5.82,
}
MEGABYTES = {'small': 1, 'mixed': 4, 'recorded': 2, 'plain': 1}


def make_inputs(folder: pathlib.Path) -> None:
    """Writes each capture, and the streams of the first connection of `small`."""
    for name, megabytes in MEGABYTES.items():
        write, mix = make.SIZED[name]
        with open(folder / name, 'wb') as out:
            write(out, mix, megabytes)
    calls, replies = next(iter(make.conversations(make.SMALL, 1)))
    for name, chunks in (('client', calls), ('server', replies)):
        (folder / name).write_bytes(b''.join(chunk[4:] for chunk in chunks))


def words_for(command: str, name: str) -> list[str]:
    """The command line for a command on a capture."""
    match command:
        case 'canon':
            return ['canon', name, 'canon-' + name]
        case 'nfs3mask':
            return ['nfs3mask', name, 'masked-' + name]
        case 'same':
            return ['same', name, name]
        case 'pack':
            return ['pack', 'packed', 'client', 'server']
        case _:
            return [command, name]


def millions(program: str, folder: pathlib.Path, command: str, name: str) -> float:
    """How many million instructions the run takes; it has to end with status 0."""
    path, words = command_of(program, words_for(command, name))
    run = ended([path, *words], folder, before=['valgrind', '--tool=callgrind',
                                                '--callgrind-out-file=/dev/null'], limit=None)
    counted = re.search(rb'Collected : (\d+)', run.error)
    if run.status != 0 or not counted:
        raise ValueError('callgrind ended with status %d, and tells no count: %r'
                         % (run.status, run.error[-300:]))
    return int(counted[1]) / 1e6


def is_within(program: str, folder: pathlib.Path, label: str) -> list[str]:
    """What is wrong with the count of this command on this capture."""
    command, name = label.split()
    counted, limit = millions(program, folder, command, name), LIMITS[label]
    if counted <= limit:
        return []
    return ['%.2f million instructions, and the limit is %.2f' % (counted, limit)]


def main() -> None:
    words = words_of(__doc__)
    if not shutil.which('valgrind'):
        print('left out, since valgrind is not installed')
        print('0 passed, 0 failed')
        return
    with tempfile.TemporaryDirectory() as name:
        folder = pathlib.Path(name)
        make_inputs(folder)
        try_all(words, [(label, is_within, folder, label) for label in LIMITS], os.cpu_count())


if __name__ == '__main__':
    main()
