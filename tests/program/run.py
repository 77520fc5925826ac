#!/usr/bin/env python3
"""Runs the built program on the cases of the *.cases files in this folder.

    python3 tests/program/run.py [PROGRAM] [--only TEXT] [-v]

PROGRAM is crates/nfs3canon/out/nfs3canon if none is named. Each case runs in a folder of its own,
and many run at once. The last line is 'N passed, M failed', and the status is 1 if any failed.

commands.cases has each command and its endings, masks.cases all of nfs3mask, lines.cases command
lines that are refused, and files.cases the files that are left. A case begins with `case NAME`. Its
other lines:

    file NAME: HEX                       a file with these bytes is there before the program runs
    capture NAME: > HEX < HEX | ..       a capture: `>` begins the body of a call and `<` that of a
    reply, each one chunk and one
                                         fragment; `|` begins the next connection
    mixed NAME: > HEX < HEX | ..         the same in version 2, the chunks in the order of the text
    folder NAME, fifo NAME, symlink NAME -> TARGET, hardlink NAME -> TARGET, mode NAME OCTAL
                                         is there before, too
    run WORD ..                          the command line without the program's name; `\\xHH` is a
    byte
    mask WORD .., streams WORD ..        the same of nfs3mask, or nfs3streams
    stdin NAME                           where standard input comes from
    stdout NAME, stdout >> NAME, stdout closed-pipe
                                         where standard output goes
    status N, out LINE, err LINE         the status (0 without this line), and the lines of both
    outputs (none)
    err-begins TEXT                      standard error begins so and ends with exactly one newline
    holds NAME: HEX, holds-capture NAME: ..
                                         the file is there afterwards with these bytes
    holds-mode NAME OCTAL                it has this mode
    reads NAME: HEX                      comes out of the fifo
    gone NAME                            the file is there no more

All that was there before must be there afterwards as it was, and nothing else, but for `holds` and
`gone`. HEX is as in `texts.bytes_of`, and `#` begins a comment.
"""
import contextlib
import os
import pathlib
import re
import stat
import subprocess
import sys
import tempfile
import threading
from collections.abc import Callable

sys.path.insert(0, str(pathlib.Path(__file__).resolve().parents[2]))
from tests.shared.running import (
    Ended, RunOptions, ended, pipe_without_reader, program_named, try_all, words_of)
from tests.shared.texts import bytes_of, capture_of, mixed_of

HERE = pathlib.Path(__file__).resolve().parent
# the keys of lines that run another program than nfs3canon
OTHERS = {'mask': 'nfs3mask', 'streams': 'nfs3streams'}
TIMEOUT = 20
Found = dict[str, tuple[str, bytes | str | int]]


def text_of(text: str) -> bytes:
    r"""Bytes of a text with `\xHH` for any byte and `\n` for a newline."""
    out = re.sub(rb'\\x([0-9a-f]{2})', lambda m: bytes([int(m[1], 16)]), text.encode())
    return out.replace(b'\\n', b'\n')


MAKES: dict[str, Callable[[str], bytes]] = {'file': bytes_of, 'capture': capture_of,
                                            'mixed': mixed_of}
HOLDS: dict[str, Callable[[str], bytes]] = {'holds': bytes_of, 'holds-capture': capture_of,
                                            'holds-text': text_of}


class Case:
    """A case as its lines say it: what is there before the run, the command line, and what is
    wanted."""

    def __init__(self, name: str, place: str) -> None:
        self.name, self.place = name, place
        # kind, name and target, or the digits of a mode
        self.making: list[tuple[str, str, str]] = []
        self.content: dict[str, bytes] = {}
        self.name_of_program = ''  # that of nfs3canon if it is empty
        self.args: list[bytes] = []
        self.stdin = self.stdout = ''
        self.status, self.out, self.err, self.err_begins = 0, b'', b'', False
        self.wanted: dict[str, bytes] = {}
        self.through: dict[str, bytes] = {}
        self.modes: dict[str, int] = {}
        self.gone: set[str] = set()

    def add(self, key: str, value: str) -> None:
        """A line of the case."""
        if not (self.add_before(key, value) or self.add_run(key, value)
                or self.add_wanted(key, value)):
            raise SystemExit('%s: no such line: %s' % (self.place, key))

    def add_before(self, key: str, value: str) -> bool:
        """A line that says what is there before the run; else false."""
        name, _, rest = value.partition(':')
        if key in MAKES:
            self.content[name.strip()] = MAKES[key](rest.strip())
            self.making.append(('file', name.strip(), ''))
        elif key in ('symlink', 'hardlink'):
            link, _, target = value.partition('->')
            self.making.append((key, link.strip(), target.strip()))
        elif key in ('folder', 'fifo'):
            self.making.append((key, value, ''))
        elif key == 'mode':
            path, digits = value.split()
            self.making.append((key, path, digits))
        else:
            return False
        return True

    def add_run(self, key: str, value: str) -> bool:
        """A line that says what is run, and where its input and output are; else false."""
        if key in ('run', *OTHERS):
            self.name_of_program = OTHERS.get(key, '')
            self.args = [text_of(word) for word in value.split()]
        elif key == 'stdin':
            self.stdin = value
        elif key == 'stdout':
            self.stdout = value
        else:
            return False
        return True

    def add_wanted(self, key: str, value: str) -> bool:
        """A line that says what is wanted; else false."""
        name, _, rest = value.partition(':')
        if key == 'status':
            self.status = int(value)
        elif key == 'out':
            self.out += text_of(value) + b'\n'
        elif key == 'err':
            self.err += text_of(value) + b'\n'
        elif key == 'err-begins':
            self.err, self.err_begins = text_of(value), True
        elif key in HOLDS:
            self.wanted[name.strip()] = HOLDS[key](rest.strip())
        elif key == 'reads':
            self.through[name.strip()] = bytes_of(rest)
        elif key == 'holds-mode':
            path, digits = value.split()
            self.modes[path] = int(digits, 8)
        elif key == 'gone':
            self.gone.add(value)
        else:
            return False
        return True


def cases_of(path: pathlib.Path) -> list[Case]:
    """The cases of a file."""
    cases: list[Case] = []
    for number, line in enumerate(path.read_text().splitlines(), 1):
        line = re.sub(r'(^|\s)#.*', '', line).rstrip()
        if not line:
            continue
        key, _, value = line.strip().partition(' ')
        if key == 'case':
            cases.append(Case(value.strip(), '%s:%d' % (path.name, number)))
        else:
            cases[-1].add(key, value.strip())
    return cases


def make(case: Case, folder: str) -> None:
    """Makes what is there before the run."""
    for kind, name, other in case.making:
        path = os.path.join(folder, name)
        if kind == 'file':
            with open(path, 'wb') as file:
                file.write(case.content[name])
        elif kind == 'symlink':
            os.symlink(other, path)
        elif kind == 'hardlink':
            os.link(os.path.join(folder, other), path)
        elif kind == 'folder':
            os.mkdir(path)
        elif kind == 'fifo':
            os.mkfifo(path)
        elif kind == 'mode':
            os.chmod(path, int(other, 8))


def read_fifo(path: str, got: dict[str, bytes], name: str) -> None:
    with open(path, 'rb') as file:
        got[name] = file.read()


def what_is_there(folder: str) -> Found:
    """What each name of the folder has."""
    found: Found = {}
    for name in sorted(os.listdir(folder)):
        path = os.path.join(folder, name)
        mode = os.lstat(path).st_mode
        if stat.S_ISLNK(mode):
            found[name] = ('symlink', os.readlink(path))
        elif stat.S_ISREG(mode):
            with open(path, 'rb') as file:
                found[name] = ('file', file.read())
        else:
            found[name] = ('other', stat.S_IFMT(mode))
    return found


def differing(case: Case, before: Found, after: Found) -> list[str]:
    """What the folder holds that it should not, or does not hold that it should."""
    wanted = {name: kept for name, kept in before.items() if name not in case.gone}
    for name, content in case.wanted.items():
        wanted[name] = ('file', content)
    return ['%s: %.300r, wanted %.300r' % (name, after.get(name), wanted.get(name))
            for name in sorted(wanted.keys() | after.keys()) if wanted.get(name) != after.get(name)]


def judge(case: Case, done: Ended, folder: str, before: Found, got: dict[str, bytes]) -> list[str]:
    """What is wrong with the run of a case, and with what it left."""
    wrong = []
    if done.status != case.status:
        wrong.append('status %d, wanted %d' % (done.status, case.status))
    if not case.stdout and done.out != case.out:
        wrong.append('standard output %r, wanted %r' % (done.out[:300], case.out[:300]))
    if case.err_begins:
        if not done.error.startswith(case.err) or done.error[-1:] != b'\n' or done.error[
            -2:] == b'\n\n':
            wrong.append('standard error %r, wanted %r first and one newline last'
                         % (done.error[:300], case.err))
    elif done.error != case.err:
        wrong.append('standard error %r, wanted %r' % (done.error[:300], case.err[:300]))
    wrong += differing(case, before, what_is_there(folder))
    for name, mode in case.modes.items():
        found = stat.S_IMODE(os.stat(os.path.join(folder, name)).st_mode)
        if found != mode:
            wrong.append('%s has the mode %o, wanted %o' % (name, found, mode))
    for name, content in case.through.items():
        if got.get(name) != content:
            wrong.append('%s gave %r, wanted %r' % (name, got.get(name), content))
    return wrong


def run_in(case: Case, program: str, folder: str) -> Ended:
    """What the program ended with, whose standard files are those of the case."""
    path = program_named(case.name_of_program, program) if case.name_of_program else program
    with contextlib.ExitStack() as opened:
        options: RunOptions = {'limit': TIMEOUT}
        if case.stdin:
            options['stdin'] = opened.enter_context(open(os.path.join(folder, case.stdin), 'rb'))
        if case.stdout == 'closed-pipe':
            options['stdout'] = opened.enter_context(open(pipe_without_reader(), 'wb'))
        elif case.stdout:
            mode = 'ab' if case.stdout.startswith('>>') else 'wb'
            options['stdout'] = opened.enter_context(
                open(os.path.join(folder, case.stdout.lstrip('> ')), mode))
        return ended([path, *case.args], folder, **options)


def run(program: str, case: Case) -> list[str]:
    """What is wrong with a case."""
    with tempfile.TemporaryDirectory(prefix='nfs3canon', ignore_cleanup_errors=True) as folder:
        make(case, folder)
        before = what_is_there(folder)
        got: dict[str, bytes] = {}
        readers: list[threading.Thread] = []
        for name in case.through:
            reader = threading.Thread(target=read_fifo,
                                      args=(os.path.join(folder, name), got, name), daemon=True)
            reader.start()
            readers.append(reader)
        try:
            done = run_in(case, program, folder)
        except subprocess.TimeoutExpired:
            return ['it did not end in %d seconds' % TIMEOUT]
        for reader in readers:
            reader.join(TIMEOUT)
        return judge(case, done, folder, before, got)


def main() -> None:
    cases = [case for path in sorted(HERE.glob('*.cases')) for case in cases_of(path)]
    try_all(words_of(__doc__), [('%s (%s)' % (case.name, case.place), run, case) for case in cases],
            2 * (os.cpu_count() or 2))


if __name__ == '__main__':
    main()
