"""What the scripts of this folder share: how they run programs, their words, and their count.

Each program is started by `begin`, and `ended` is a run to its end. `Runs` has the built program
and a folder for it.
"""
import argparse
import concurrent.futures
import functools
import os
import pathlib
import select
import subprocess
import sys
import tempfile
import unittest
from collections.abc import Callable, Iterable, Mapping, Sequence
from typing import IO, NamedTuple, NoReturn, TypeVar, TypedDict, Unpack

TOP = pathlib.Path(__file__).resolve().parents[2]
BUILT = TOP / 'crates/nfs3canon/out/nfs3canon'
# The programs beside it, whose names begin a line that is of one of them.
OTHERS = ('nfs3mask', 'nfs3streams')
LIMIT = 60  # the seconds that a run may take if nothing else is said

Answer = tuple[int, str, str]  # the status and both outputs of a run
# a name, what to call, and what to call it with after the program
Try = tuple[str, Callable[..., list[str]], *tuple[object, ...]]


class Ended(NamedTuple):
    """What a run ended with. An output that went elsewhere is empty."""
    status: int
    out: bytes
    error: bytes

    def text(self, errors: str = 'strict') -> Answer:
        """The same with both outputs as text; `errors` says what becomes of bytes of standard
        output that are no text."""
        return self.status, self.out.decode(errors=errors), self.error.decode()


class RunOptions(TypedDict, total=False):
    """How a run differs from one that reads nothing and whose outputs are gathered."""
    before: Sequence[str]  # words before the program, of a command that runs it
    stdin: bytes | int | IO[bytes] | None  # what it reads, or where from; None for nothing
    stdout: int | IO[bytes]  # where its outputs go
    stderr: int | IO[bytes]
    env: Mapping[str, str]  # instead of the variables of the tests
    # whose rights it has, and those of the group with the same number; root alone may say so
    user: int
    prepare: Callable[[], object]  # is called in the new process before the program begins
    limit: float | None  # the seconds that it may take; None for as many as it likes


def begin(words: Sequence[str | bytes], folder: str | pathlib.Path,
          **options: Unpack[RunOptions]) -> subprocess.Popen[bytes]:
    """Begins a run in a folder. Bytes for its standard input are not written here, but go into a
    pipe."""
    stdin, user = options.get('stdin'), options.get('user')
    source: int | IO[
        bytes] = subprocess.DEVNULL if stdin is None else subprocess.PIPE if isinstance(
            stdin, bytes) else stdin
    return subprocess.Popen(
        [*options.get('before', ()), *words], cwd=folder, stdin=source,
        stdout=options.get('stdout', subprocess.PIPE),
        stderr=options.get('stderr', subprocess.PIPE), env=options.get('env'),
        user=user, group=user, extra_groups=None if user is None else [],
        preexec_fn=options.get('prepare'))


def pipe_of(pipe: IO[bytes] | None) -> IO[bytes]:
    """A pipe with which a run was begun."""
    assert pipe is not None
    return pipe


def pipe_without_reader() -> int:
    """Where to write to a pipe that nobody reads. A child that another thread begins has its other
    end too, until it execs."""
    reader, writer = os.pipe()
    os.close(reader)
    waiting = select.poll()
    waiting.register(writer, 0)  # that nobody reads is an error, which is told in any case
    if not waiting.poll(1000 * LIMIT):
        raise TimeoutError('somebody reads the pipe')
    return writer


def ended(words: Sequence[str | bytes], folder: str | pathlib.Path,
          **options: Unpack[RunOptions]) -> Ended:
    """Returns what a run in a folder ended with.

    Raises `subprocess.TimeoutExpired` if it takes too long.
    """
    stdin = options.get('stdin')
    with begin(words, folder, **options) as process:
        try:
            out, error = process.communicate(stdin if isinstance(stdin, bytes) else None,
                                             options.get('limit', LIMIT))
        except BaseException:
            process.kill()
            raise
    return Ended(process.returncode, out or b'', error or b'')


class Runs:
    """Runs of the program in a folder of their own, and what is wrong with them."""

    def __init__(self, program: str, folder: str) -> None:
        self.program, self.folder = program, folder
        self.wrong: list[str] = []

    def path(self, name: str) -> str:
        """The path of a name in the folder."""
        return os.path.join(self.folder, name)

    def names(self) -> list[str]:
        """The names in the folder, sorted."""
        return sorted(os.listdir(self.folder))

    def write(self, name: str, content: bytes) -> None:
        with open(self.path(name), 'wb') as file:
            file.write(content)

    def read(self, name: str) -> bytes | None:
        """The bytes of a file, or None if it is not there."""
        if not os.path.exists(self.path(name)):
            return None
        with open(self.path(name), 'rb') as file:
            return file.read()

    def words(self, *words: str) -> list[str]:
        """The command line of the program, or of another one if the words begin with its name."""
        program, rest = command_of(self.program, words)
        return [program, *rest]

    def begin(self, *words: str, **options: Unpack[RunOptions]) -> subprocess.Popen[bytes]:
        """Begins a run of the program."""
        return begin(self.words(*words), self.folder, **options)

    def ended(self, *words: str, **options: Unpack[RunOptions]) -> Ended:
        """What a run of the program ended with."""
        return ended(self.words(*words), self.folder, **options)

    def run(self, *words: str, **options: Unpack[RunOptions]) -> Answer:
        """The same as text."""
        return self.ended(*words, **options).text()

    def want(self, what: str, got: object, wanted: object) -> None:
        """Notes what is wrong, if these are not equal: of lists and texts of many lines what is
        missing, and what is there in its place."""
        if got != wanted:
            self.wrong.append('%s: %s' % (what, unlike(got, wanted)))

    def same_answer(self, name: str, line: str) -> bytes | None:
        """`check` and `canon` print the line. Returns what canon wrote."""
        accepted = line.startswith('ok ')
        wanted = (0, line + '\n', '') if accepted else (2, '', line + '\n')
        self.want('check ' + name, self.run('check', name), wanted)
        self.want('canon ' + name, self.run('canon', name, name + '.out'), wanted)
        form = self.read(name + '.out')
        self.want('what canon made of ' + name, form is not None, accepted)
        self.want('what canon left beside it',
                  [other for other in self.names() if other.startswith('.')], [])
        return form


def unlike(got: object, wanted: object) -> str:
    """Returns how two values differ, in words."""
    if isinstance(got, tuple) and isinstance(wanted, tuple) and len(got) == len(wanted):
        several = [unlike(*both) for both in zip(got, wanted) if both[0] != both[1]]
        return '; '.join(several)
    found, others = items_of(got), items_of(wanted)
    if found is None or others is None or type(got) is not type(wanted):
        return '%.300r, wanted %.300r' % (got, wanted)
    more, less = ([one for one in some if one not in other]
                  for some, other in ((found, others), (others, found)))
    if not more and not less:
        return 'in another order or number: %.300r, wanted %.300r' % (got, wanted)
    return 'too much %.300r, missing %.300r, of %d' % (more, less, len(others))


def items_of(value: object) -> list[object] | None:
    """Returns the lines of a text or the items of a list or set, if these are several."""
    several = value.splitlines() if isinstance(value, str) else value
    return [*several] if isinstance(several, (list, set, frozenset)) and len(several) > 1 else None


# --- Words ---

class Words(argparse.Namespace):
    """The words of a script."""
    program: str
    only: str
    v: bool


def built() -> pathlib.Path:
    """The program that was built here, or else that of dist/, which is put there if it is made of
    these sources."""
    if not BUILT.exists():
        subprocess.run([TOP / 'dev/dist', '--take'], capture_output=True, check=False)
    return BUILT


def program_named(name: str, program: str | pathlib.Path = BUILT) -> str:
    """The path of a program of this repository, if `program` is that of nfs3canon: what is built
    for its own crate, or beside it."""
    path = pathlib.Path(program)
    return str(path.parents[2] / name / 'out' / name if path.parent.name == 'out' else path.parent
               / name)


def command_of(program: str, words: Sequence[str]) -> tuple[str, Sequence[str]]:
    """The path and the words of a command line that begins with the name of a program, or has the
    words of nfs3canon."""
    is_other = bool(words) and words[0] in OTHERS
    return (program_named(words[0], program), words[1:]) if is_other else (program, words)


def words_of(text: str | None, program: str | pathlib.Path | None = None) -> Words:
    """PROGRAM, as a path, or the one built, `--only` and `-v`; the text is the help."""
    parser = argparse.ArgumentParser(description=text,
                                     formatter_class=argparse.RawDescriptionHelpFormatter)
    parser.add_argument('program', nargs='?', default=str(program or built()))
    parser.add_argument('--only', default='')
    parser.add_argument('-v', action='store_true')
    words = parser.parse_args(namespace=Words())
    words.program = os.path.abspath(words.program)
    return words


# --- Tries ---

R = TypeVar('R', bound=Runs)
MakePool = Callable[[int | None], concurrent.futures.Executor]


def tried(program: str, make: Callable[[str, str], R], test: Callable[[R], object]) -> list[str]:
    """What is wrong in a test, which has a folder of its own. So is a failed call of the system,
    and a run that takes too long."""
    with tempfile.TemporaryDirectory(prefix='nfs3canon') as folder:
        place = make(program, folder)
        try:
            test(place)
        except (OSError, subprocess.TimeoutExpired) as error:
            place.wrong.append(str(error))
        return place.wrong


def try_tests(doc: str | None, make: Callable[[str, str], R],
              tests: Iterable[Callable[[R], object]],
              make_pool: MakePool = concurrent.futures.ThreadPoolExecutor) -> NoReturn:
    """Tries tests, each with runs in a folder of its own, as many at once as there are
    processors."""
    try_all(words_of(doc), [(test.__name__, tried, make, test) for test in tests], os.cpu_count(),
            make_pool)


def one(program: str, it: Try) -> list[str] | None:
    """What is wrong with one try, or None if it is left out, which is said."""
    try:
        return it[1](program, *it[2:])
    except unittest.SkipTest as why:
        print(f'left out: {it[0]}: {why}', flush=True)
        return None


def try_all(words: Words, tries: Iterable[Try], count: int | None,
            make_pool: MakePool = concurrent.futures.ThreadPoolExecutor) -> NoReturn:
    """Tries those whose name has the text of `--only`, `count` of them at once, and ends the
    script. What a try calls returns the list of what is wrong."""
    chosen, passed, failed = [it for it in tries if words.only in it[0]], 0, 0
    with make_pool(count) as pool:
        for (name, *_), wrong in zip(chosen,
                                     pool.map(functools.partial(one, words.program), chosen)):
            failed, passed = failed + bool(wrong), passed + (wrong == [])
            if wrong:
                print('FAILED %s: %s' % (name, '; '.join(wrong[:9])), flush=True)
            elif words.v and wrong is not None:
                print('ok %s' % name, flush=True)
    print('%d passed, %d failed' % (passed, failed))
    sys.exit(1 if failed or not passed else 0)
