"""Has nfs3streams read a recording, and maps what it wrote."""
from __future__ import annotations

import contextlib
import errno
import fcntl
import mmap
import os
import subprocess
import tempfile
import typing
from collections.abc import Iterator, Sequence

from ..shared.outputs import held
from ..shared.printed import printable
from ..shared.programs import (
    CHECKED, Answer, Running, begun, program_beside, program_path, run_side_by_side)
from ..shared.progress import Progress
from .index import (
    AT_ITS_END, CUT_SHORT, ENDINGS, HAS_SEGMENT, HEADER_IS_CUT, BadIndex, Index)
from .sources import NoRecording, Source
from .unpacking import CutShort, Damaged

READER, INDEX_FILE = 'nfs3streams', 'index'
# Of Linux, which Python before 3.10 has no name for; 65,536 bytes make both programs wait often.
SET_PIPE_SIZE, SIZE_OF_PIPE = 1031, 1 << 20
STATUSES_OF_READER = {0: '', 2: ''}
ENDS_INSIDE_FRAME = 'the recording ends inside a frame'


class Frame(typing.NamedTuple):
    """A frame: its number, from 1; nanoseconds since 1970, 0 if it has no time; its link type; the
    bytes that were recorded; and how many it had on the wire, which may be more."""
    number: int
    time: int
    link: int
    data: bytes
    length: int


FileRange = tuple[int, int]  # where bytes are in a file, and how many


class RecordingFile:
    """The file of a recording, which is read by places. It stays open if its name goes."""

    def __init__(self, path: str) -> None:
        self.file = open(path, 'rb', buffering=0)

    def close(self) -> None:
        self.file.close()

    def read(self, at: int, size: int) -> bytes:
        piece = os.pread(self.file.fileno(), size, at)
        if len(piece) < size:
            raise OSError(errno.EIO, 'the recording is shorter than it was', self.file.name)
        return piece

    def joined(self, places: Sequence[FileRange]) -> bytes:
        """Returns the bytes of some places, one after another. Places that follow one another, but
        for headers of frames, are read at once."""
        if len(places) == 1:
            return self.read(*places[0])
        begin, end = places[0][0], sum(places[-1])
        if not 0 < end - begin < 2 * sum(size for _, size in places) or any(
                at < begin or end < at + size for at, size in places):
            return b''.join(self.read(*place) for place in places)
        block = self.read(begin, end - begin)
        return b''.join(block[at - begin:at - begin + size] for at, size in places)


class WholeCheck:
    """The check of a capture of the connections that nfs3streams finds whole, which it writes into
    a pipe. It goes on meanwhile, until `stop`."""

    def __init__(self, program: str, reader: str, file: typing.IO[bytes]) -> None:
        with contextlib.ExitStack() as stack:
            error = stack.enter_context(tempfile.TemporaryFile())
            self.packing = begun([reader, '/dev/stdin', '/dev/stdout'], stdin=file,
                                 stdout=subprocess.PIPE, stderr=error)
            stack.callback(self.packing.kill)
            assert self.packing.stdout is not None
            with self.packing.stdout as capture, contextlib.suppress(OSError):
                fcntl.fcntl(capture, SET_PIPE_SIZE, SIZE_OF_PIPE)
                self.checking = Running([program, 'check', '/dev/stdin'], capture)
            self.ends = stack.pop_all()

    def answer(self) -> Answer | None:
        """Returns what `check` says, or nothing if the connections do not fit a capture. Raises
        `Died`."""
        answer = self.checking.answer(CHECKED)
        return answer if self.packing.wait() in STATUSES_OF_READER else None

    def stop(self) -> None:
        self.checking.stop()
        self.ends.close()
        self.packing.wait()


class ReadRecording:
    """A recording, and its index, which is mapped, in a folder that `close` removes.

    checking: the check of its whole connections, if that was asked for
    cut, damage: why not all of it could be read: it ends inside a frame, or cannot go on
    """

    def __init__(self, file: RecordingFile, folder: 'tempfile.TemporaryDirectory[str]',
                 damage: Damaged | None, checking: WholeCheck | None) -> None:
        self.folder, self.file, self.checking = folder, file, checking
        self.index = index = Index(mapped(os.path.join(folder.name, INDEX_FILE)))
        number = index.frames
        self.cut = self.damage = None
        if isinstance(damage, CutShort) or index.ended == CUT_SHORT:
            self.cut = f'{ENDS_INSIDE_FRAME} (frame {number + 1})' + (
                f': {damage}' if isinstance(damage, CutShort) else '')
        elif damage or index.ended != AT_ITS_END:
            why = str(damage or ENDINGS[index.ended])
            self.damage = f'the recording is damaged after frame {number}: {why}'

    def close(self) -> None:
        with held():
            if self.checking:
                self.checking.stop()
            self.file.close()
            self.folder.cleanup()

    @property
    def times(self) -> memoryview:
        return self.index.times

    @property
    def begun(self) -> int:
        """The time of the first frame that has one, in nanoseconds since 1970."""
        return next(filter(None, self.times), 0)

    def frames(self) -> Iterator[Frame]:
        return map(self.frame, range(1, self.index.frames + 1))

    def frame(self, number: int) -> Frame:
        """Returns a frame by its number, from 1."""
        row = self.index.frame(number)
        return Frame(number, row.time, row.link, self.file.read(row.at, row.size), row.wire)

    def count_cut_frames(self) -> int:
        """Returns how many frames lack payload or headers, since fewer bytes were recorded than
        sent."""
        index = self.index
        if index.sizes == index.wires:
            return 0
        return sum(size < wire and outcome in (HAS_SEGMENT, HEADER_IS_CUT)
                   for outcome, size, wire in zip(index.outcomes, index.sizes, index.wires))

    def frames_without_segment(self) -> Iterator[Frame]:
        """Iterates over the frames that have no segment of TCP which could be read."""
        outcomes = self.index.outcomes
        if outcomes.tobytes().strip(b'\0'):  # most recordings have none
            yield from (self.frame(number) for number, outcome in enumerate(outcomes, 1) if outcome)


@contextlib.contextmanager
def plain_file(source: Source, path: str,
               progress: Progress) -> Iterator[tuple[str, Damaged | None]]:
    """The name of a file with a recording as it is, and why it has not all of what is compressed:
    the file itself, or a copy."""
    if not source.is_unpacked and os.path.isfile(path):
        yield path, None
        return
    with tempfile.NamedTemporaryFile(prefix='nfs3canon') as copy:
        size = 0
        for block in source.blocks():
            write(copy, block)
            size += len(block)
            progress.step(f'{size:,} bytes unpacked')
        copy.flush()
        yield copy.name, source.damage


def write(file: typing.IO[bytes], block: bytes) -> None:
    try:
        file.write(block)
    except OSError as failed:
        raise OSError(failed.errno, failed.strerror or str(failed), 'a temporary file') from failed


def read_recording(path: str, damage: Damaged | None = None,
                   checked_by: str = '') -> ReadRecording:
    """Reads a recording that is a file as it is. If a program is named, it checks whole connections
    meanwhile. Raises `NoRecording` if nfs3streams refuses it, and what `run_side_by_side` does."""
    program = program_beside(program_path(), READER)
    with contextlib.ExitStack() as stack:
        file = RecordingFile(path)
        stack.callback(file.close)
        with held():
            folder = tempfile.TemporaryDirectory(prefix='nfs3canon')
        stack.callback(folder.cleanup)
        # (as standard input, since the program takes no names that are no text)
        index = os.path.join(folder.name, INDEX_FILE)
        checking = WholeCheck(checked_by, program, file.file) if checked_by else None
        if checking:
            stack.callback(checking.stop)
        answer, = run_side_by_side([[program, '--index', '/dev/stdin', index]], STATUSES_OF_READER,
                                   file.file)
        if not os.path.exists(index):
            raise NoRecording(printable((answer.error or answer.out).strip()))
        try:
            read = ReadRecording(file, folder, damage, checking)
        except BadIndex:
            raise NoRecording('what nfs3streams wrote of it is no index') from None
        stack.pop_all()
    return read


def mapped(path: str) -> memoryview:
    """The bytes of a file, which is not empty."""
    with open(path, 'rb') as file:
        return memoryview(mmap.mmap(file.fileno(), 0, access=mmap.ACCESS_READ))
