"""Running the built programs, and tshark. Each is asked how it ended."""
from __future__ import annotations

import contextlib
import functools
import io
import pathlib
import re
import shutil
import signal
import subprocess
import tempfile
import typing

from .outputs import write_whole
from .printed import escaped, printable
from .version import TOP

# How the programs answer: by which status, and how standard output begins then.
CHECKED, COMPARED, MASKED = {0: 'ok ', 2: ''}, {0: 'same\n', 1: 'differ at '}, {0: 'ok '}
COMMANDS = ('check', 'same', 'show')
CHECKED_COUNTS = re.compile(r'ok connections=(\d+) calls=(\d+) replies=(\d+) handles=\d+\n')
PIPE_SIZE = 1 << 16  # of Linux
NOT_FOUND = ('%s is missing: it is neither beside the tools nor on the PATH; '
             '`make install` in a clone of nfs3canon installs it')
Redirection = typing.Union[typing.IO[bytes], int]


class Missing(Exception):
    """A program is not there; its text is the message for the user."""


class Died(Exception):
    """A program did not end as one that has done its work; the text is the message for the user."""


class Answer(typing.NamedTuple):
    """What a run ended with: its status, and what it printed."""
    status: int
    out: str
    error: str


def checked_counts(answer: Answer) -> tuple[int, ...]:
    """Returns how many connections, calls and replies `check` counts, or nothing after a fault."""
    found = CHECKED_COUNTS.fullmatch(answer.out)
    return tuple(map(int, found.groups())) if found else ()


def program_path(named: str | None = None) -> str:
    """The program: the one that is named, else the one built here, else the launcher that builds
    it, else that beside which the tools are installed, or on the PATH. Raises `Missing`."""
    here = [TOP / 'crates/nfs3canon/out/nfs3canon', TOP / 'nfs3canon',
            TOP.parent.parent / 'libexec/nfs3canon/nfs3canon']
    for name in [named] if named else [*map(str, here), 'nfs3canon']:
        found = shutil.which(name)
        if found:
            return found
    raise Missing(f'{escaped(named)} is missing' if named else NOT_FOUND % 'nfs3canon')


@functools.cache
def program_beside(program: str, name: str) -> str:
    """Another program: what is beside the given one, or in its own crate's folder or under its own
    launcher, else on the PATH. Raises `Missing`."""
    for place in (str(path_beside(pathlib.Path(program), name)), str(TOP / name), name):
        found = shutil.which(place)
        if found:
            return found
    raise Missing(NOT_FOUND % name)


def path_beside(program: pathlib.Path, name: str) -> pathlib.Path:
    """Where another program is that was built with one: beside it, or in its crate's folder."""
    path = program.resolve()
    return (path.parents[2] / name / 'out' / name if path.parent.name == 'out'
            else path.parent / name)


def run_program(program: str, words: list[str], expected: typing.Mapping[int, str],
                content: typing.Iterable[bytes] = ()) -> Answer:
    """Runs the program with the content as its standard input, which it may leave unread.
    `expected` has each status that is an answer, and how its standard output begins then. Raises
    `Died` if it ends in another way."""
    with tempfile.TemporaryFile() as out, tempfile.TemporaryFile() as error:
        with begun([program, *words], stdin=subprocess.PIPE, stdout=out, stderr=error) as process:
            assert process.stdin is not None
            with contextlib.suppress(BrokenPipeError):
                for block in content:
                    write_whole(process.stdin.fileno(), block)
        answer = Answer(process.returncode, *map(text_of, (out, error)))
    return expected_of([program, *words], answer, expected)


def expected_of(command: list[str], answer: Answer, expected: typing.Mapping[int, str]) -> Answer:
    """Returns an answer. Raises `Died` if it is none that is expected."""
    if answer.status not in expected or not answer.out.startswith(expected[answer.status]):
        raise died(command, answer.status, answer.error)
    return answer


def run_side_by_side(commands: typing.Sequence[list[str]], expected: typing.Mapping[int, str],
                     stdin: Redirection = subprocess.DEVNULL) -> list[Answer]:
    """Runs commands at once, and returns their answers. Raises what `run_program` does."""
    with contextlib.ExitStack() as stack:
        running = [stack.enter_context(Running(command, stdin)) for command in commands]
        answers = [one.answer(expected) for one in running]
    return answers


class Running:
    """A command that runs meanwhile. As a context manager it is ended if it runs yet."""

    def __init__(self, command: list[str], stdin: Redirection = subprocess.DEVNULL) -> None:
        self.command = command
        self.out, self.error = tempfile.TemporaryFile(), tempfile.TemporaryFile()
        self.process = begun(command, stdin=stdin, stdout=self.out, stderr=self.error)

    def answer(self, expected: typing.Mapping[int, str]) -> Answer:
        """Waits for its answer. Raises what `run_program` does."""
        answer = Answer(self.process.wait(), text_of(self.out), text_of(self.error))
        return expected_of(self.command, answer, expected)

    def stop(self) -> None:
        """Ends it if it runs yet."""
        self.process.kill()
        self.process.wait()
        self.out.close()
        self.error.close()

    def __enter__(self) -> 'Running':
        return self

    def __exit__(self, *_: object) -> None:
        self.stop()


def lines_of_program(program: str, words: list[str], expected: int = 0,
                     stdin: Redirection = subprocess.DEVNULL) -> typing.Iterator[str]:
    """Iterates over the lines that a program prints. Raises `Died` after the last of them unless
    its status is the one that is expected."""
    with tempfile.TemporaryFile() as error:
        with begun([program, *words], stdin=stdin, stdout=subprocess.PIPE, stderr=error) as process:
            assert process.stdout is not None
            with io.TextIOWrapper(process.stdout, encoding='latin-1', newline='\n') as lines:
                while some := lines.readlines(PIPE_SIZE):
                    if some[-1][-1] != '\n':
                        some.pop()
                    yield from some
        if process.returncode != expected:
            raise died([program, *words], process.returncode, text_of(error))


def begun(command: list[str], stdin: Redirection, stdout: Redirection,
          stderr: Redirection) -> 'subprocess.Popen[bytes]':
    """Raises `Died` if the program cannot be started, as when memory is short."""
    try:
        return subprocess.Popen(command, bufsize=PIPE_SIZE, stdin=stdin, stdout=stdout,
                                stderr=stderr)
    except OSError as failed:
        raise Died(
            f'{escaped(command[0])} cannot be started: {failed.strerror or failed}') from failed


def text_of(file: typing.IO[bytes]) -> str:
    file.seek(0)
    return file.read().decode(errors='replace')


def died(command: list[str], status: int, error: str) -> Died:
    """Says which program ended how, and what it said last."""
    name = ' '.join([pathlib.Path(command[0]).name,
                     *(word for word in command[1:2] if word in COMMANDS)])
    how = (f'was killed by signal {-status} ({signal.strsignal(-status)})' if status < 0
           else f'ended with status {status}')
    return Died(f'{escaped(name)} {how}'
                + ''.join(f': {printable(line)}' for line in error.splitlines()[-1:]))
