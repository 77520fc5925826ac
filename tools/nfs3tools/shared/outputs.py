"""Files that the tools write. `write_file` is the only way.

A regular file is written beside its name, and gets the name once it is whole and safe on the disk.
A device, a pipe and the tool's own standard output, which is also called `-`, are written as they
are. Inputs, recordings and captures are never replaced.
"""
from __future__ import annotations

import contextlib
import errno
import os
import secrets
import signal
import stat
import sys
from collections.abc import Callable, Iterable, Iterator, Sequence

from .kinds import MAGICS, PACKED_BY, PCAP, SECTION
from .printed import escaped

STANDARD_OUTPUT = '-'
UNFINISHED = '.nfs3canon-'  # begins the name of a file that is being written
BYTES_AT_ONCE = 1 << 16  # bytes that are written
ACCESS_LIST = 'system.posix_acl_access'  # an extended attribute
OWNER_ALONE, EVERYBODY, PERMISSIONS, WRITERS = 0o600, 0o666, 0o777, 0o222
OF_OWNER = 0o700  # the bits of the owner
ENDING = {signal.SIGHUP, signal.SIGINT, signal.SIGTERM}
# What a file may be that is not to be lost by a slip of the hand.
RECORDING, CAPTURE, COMPRESSED = (
    'a recording', 'a capture', 'a compressed file, which may be a recording')


class Refused(Exception):
    """A file is not to be written; its text is the message for the user."""


def write_file(path: str, blocks: Iterable[bytes], inputs: Iterable[str] = (),
               replaces: tuple[str, ...] = ()) -> None:
    """Writes a file. `replaces` has what it may replace although it would be refused: of RECORDING,
    CAPTURE and COMPRESSED. A file that is replaced keeps its permissions, and a new one has those
    of its folder and the umask. Raises `Refused`, and `OSError`; then nothing has changed."""
    with failures_named(path):
        found = check_output(path, inputs, replaces)
        if is_replaced(found):
            write_beside(os.path.realpath(path), blocks, found)
        else:
            sys.stdout.flush()
            write_into(path, found, blocks)


def is_replaced(found: os.stat_result | None) -> bool:
    """Whether an output is written beside its name: if new, or regular and not standard output."""
    return found is None or stat.S_ISREG(found.st_mode) and not is_standard_output(found)


def write_into(path: str, found: os.stat_result | None, blocks: Iterable[bytes]) -> None:
    """Writes to a device, a pipe or standard output. Nothing is made or emptied."""
    is_own = found is not None and is_standard_output(found)
    number = os.dup(1) if is_own else os.open(path, os.O_WRONLY | os.O_APPEND | os.O_NOCTTY)
    try:
        write_all(number, blocks)
    finally:
        os.close(number)


def write_temporary(path: str, blocks: Iterable[bytes]) -> None:
    """Writes a file in a temporary folder, with which it is gone. Raises `OSError`."""
    number = os.open(path, os.O_WRONLY | os.O_CREAT | os.O_TRUNC, OWNER_ALONE)
    try:
        with failures_named(path):
            write_all(number, blocks)
    finally:
        os.close(number)


@contextlib.contextmanager
def failures_named(path: str) -> Iterator[None]:
    """A failure has the name of the output, and not that of a part of it."""
    try:
        yield
    except BrokenPipeError:
        raise
    except OSError as failed:
        is_own = (failed.filename in (None, os.path.realpath(path))
                  or UNFINISHED in str(failed.filename))
        own = 'standard output' if path == STANDARD_OUTPUT else path
        raise OSError(failed.errno, failed.strerror or str(failed),
                      own if is_own else failed.filename) from failed


def check_output(path: str, inputs: Iterable[str] = (),
                 replaces: tuple[str, ...] = ()) -> os.stat_result | None:
    """Returns what has the name of an output, or `None` for a new name. Raises `Refused` if it is
    an input, or begins as what is not to be replaced, and `OSError`, also for a folder, a link that
    leads to nothing, and a file that nobody may write."""
    try:
        found = os.fstat(1) if path == STANDARD_OUTPUT else os.stat(path)
    except FileNotFoundError:
        if os.path.lexists(path):
            raise
        return None
    if stat.S_ISDIR(found.st_mode):
        raise failure(errno.EISDIR, path)
    if stat.S_ISREG(found.st_mode):
        if any(is_read_from(one, found) for one in inputs):
            raise Refused(f'{escaped(path)} is an input, and is not replaced')
        kind = None if path == STANDARD_OUTPUT else kind_of_file(path)
        if kind and kind not in replaces:
            raise Refused(f'{escaped(path)} is {kind}, and is not replaced')
        if not found.st_mode & WRITERS:
            raise failure(errno.EACCES, path)
    return found


def failure(code: int, path: str) -> OSError:
    return OSError(code, os.strerror(code), path)


def try_outputs(paths: Iterable[str | None], inputs: Iterable[str] = (),
                replaces: tuple[str, ...] = ()) -> None:
    """Tries before the work whether outputs can be written, as far as that can be known: each is
    checked, a new file is made in its folder and removed again, and no two outputs are one file.
    None means an output that is not wanted. Raises what `write_file` does."""
    outputs, inputs, known = list(filter(None, paths)), list(inputs), dict[object, int]()
    for number, path in enumerate(outputs):
        found = check_output(path, inputs, replaces)
        first = known.setdefault(identity_of(path, found), number)
        if first != number:
            raise Refused(f'{escaped(outputs[first])} and {escaped(path)} are one file, '
                          'and each output needs its own')
        if is_replaced(found):
            with failures_named(path), part_beside(os.path.realpath(path), OWNER_ALONE):
                pass


def identity_of(path: str, found: os.stat_result | None) -> object:
    """Returns what is equal for two outputs that are one file. Devices swallow any number."""
    if found is None:
        return os.path.realpath(path)
    if path != STANDARD_OUTPUT and stat.S_ISCHR(found.st_mode):
        return object()
    return found.st_dev, found.st_ino


@contextlib.contextmanager
def printed_beside(outputs: Iterable[str | None]) -> Iterator[None]:
    """What is printed goes to standard error if an output is standard output."""
    with (contextlib.redirect_stdout(sys.stderr) if STANDARD_OUTPUT in outputs
          else contextlib.nullcontext()):
        yield


@contextlib.contextmanager
def writing(inputs: Sequence[str],
            *files: tuple[str | None, Callable[[], Iterable[bytes]]]) -> Iterator[None]:
    """Tries outputs, goes on with what is printed beside them, and writes those wanted."""
    outputs = [path for path, _ in files]
    try_outputs(outputs, inputs)
    with printed_beside(outputs):
        yield
    for path, blocks in files:
        if path:
            write_file(path, blocks(), inputs)


def is_read_from(given: str, found: os.stat_result) -> bool:
    """Whether an input, `-` for standard input, is this file, as far as can be known."""
    try:
        return os.path.samestat(os.fstat(0) if given == '-' else os.stat(given), found)
    except (OSError, ValueError):
        return False


def is_standard_output(found: os.stat_result) -> bool:
    """Whether a tool prints to this file, which is known by its number: its name may lie."""
    try:
        return os.path.samestat(os.fstat(1), found)
    except OSError:
        return False


def kind_of_file(path: str) -> str | None:
    """Returns what a regular file begins as, if that is not to be replaced."""
    with open(path, 'rb') as file:
        begin = file.read(8)
    if begin[:4] in PCAP or begin[:4] == SECTION:
        return RECORDING
    if begin in MAGICS:
        return CAPTURE
    return COMPRESSED if begin.startswith(tuple(PACKED_BY)) else None


def write_all(number: int, blocks: Iterable[bytes]) -> None:
    """Writes many small blocks at once. After a failure nothing waits to be written."""
    gathered = bytearray()
    for block in blocks:
        gathered += block
        if len(gathered) >= BYTES_AT_ONCE:
            write_whole(number, gathered)
            gathered = bytearray()
    write_whole(number, gathered)


def write_whole(number: int, block: bytes | bytearray) -> None:
    left = memoryview(block)
    while left:
        left = left[os.write(number, left):]


@contextlib.contextmanager
def held() -> Iterator[None]:
    """The signals that end a tool wait until this is over."""
    before = signal.pthread_sigmask(signal.SIG_BLOCK, ())
    try:
        signal.pthread_sigmask(signal.SIG_BLOCK, ENDING)
        yield
    finally:
        signal.pthread_sigmask(signal.SIG_SETMASK, before)


@contextlib.contextmanager
def part_beside(target: str, mode: int) -> Iterator[tuple[str, int]]:
    """A new file in the folder of a path: its path, and the number under which it is open. In the
    end nothing has its name, whatever fails and whichever signals come."""
    part, number = os.path.join(os.path.dirname(target), UNFINISHED + secrets.token_hex(8)), -1
    try:
        number = os.open(part, os.O_WRONLY | os.O_CREAT | os.O_EXCL, mode)
        yield part, number
    finally:
        with held(), contextlib.suppress(OSError):
            os.close(number)
        with held(), contextlib.suppress(OSError):
            os.unlink(part)


def write_beside(target: str, blocks: Iterable[bytes], found: os.stat_result | None) -> None:
    """Writes a file beside its name, which it gets once it is whole and safe on the disk."""
    mode = None if found is None else mode_of_replaced(target, found)
    with part_beside(target, EVERYBODY if mode is None else OWNER_ALONE) as (part, number):
        write_all(number, blocks)
        if mode is not None:
            os.fchmod(number, mode)
        os.fsync(number)
        os.replace(part, target)


def mode_of_replaced(target: str, found: os.stat_result) -> int:
    """Returns the permissions of the file that replaces one. If that has an access control list,
    its owner alone keeps them, since the list is not kept."""
    try:
        has_list = ACCESS_LIST in os.listxattr(target)
    except OSError:
        has_list = False
    return found.st_mode & (OF_OWNER if has_list else PERMISSIONS)
