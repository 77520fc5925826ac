"""What is in compressed files: gzip, xz and bzip2 by the standard library, zstd by its program.
What stands before damage is read."""
from __future__ import annotations

import bz2
import contextlib
import lzma
import shutil
import subprocess
import tempfile
import typing
import zlib

from ..shared.kinds import BZIP2, GZIP, XZ, ZSTD
from ..shared.printed import printable
from ..shared.programs import begun, died, text_of

READ_AT_ONCE = 1 << 20
FIRST_STEP = 1 << 9  # compressed bytes of a member of gzip that are decompressed at first
USUAL_STEP = 1 << 12  # the same of any others: what they decompress to is lost if they are damaged
PREMATURE = 'premature'  # is said by zstd of a file that ends too early
MOST_MEMORY = 128 << 20  # of the decompressor of xz; that of `xz -9` takes 65 MiB


class Damaged(Exception):
    """The recording cannot be read any further."""


class CutShort(Damaged):
    """The same, because the compressed file ends too early."""


class Readable(typing.Protocol):
    def read(self, size: int, /) -> bytes:
        """Returns `size` bytes, or fewer; none at the end."""


class Packed:
    """A compressed file. `packed` was read of it, of which the bytes up to `at` are done with."""

    def __init__(self, file: Readable, begun: bytes) -> None:
        self.file, self.packed, self.at = file, begun, 0
        self.damage: Damaged | None = None

    def peek(self, size: int) -> bytes:
        """The next compressed bytes: `size` of them, or fewer at the end."""
        while len(self.packed) < self.at + size and (more := self.file.read(READ_AT_ONCE)):
            self.packed, self.at = self.packed[self.at:] + more, 0
        return self.packed[self.at:self.at + size]

    def end(self) -> bytes:
        """No bytes. Raises `Damaged` if they end because of that."""
        if self.damage:
            raise self.damage
        return b''

    def is_followed_by(self, magic: bytes) -> bool:
        """Whether another stream follows, perhaps after zeros. Anything else is damage."""
        while self.peek(1) == b'\0':
            rest = self.peek(USUAL_STEP)
            self.at += len(rest) - len(rest.lstrip(b'\0'))
        found = self.peek(len(magic))
        if found and found != magic:
            self.damage = Damaged('the compressed file is damaged: what follows its end is not '
                                  'compressed in this way')
        return found == magic


class Inflated(Packed):
    """The bytes of a gzipped file, block by block. What stands before damage is read."""

    def __init__(self, file: Readable, begun: bytes) -> None:
        super().__init__(file, begun)
        self.begin_member()

    def begin_member(self) -> None:
        """A member gets few bytes at first: what comes after its end is copied for nothing."""
        self.inflate, self.step = zlib.decompressobj(31), FIRST_STEP

    def read(self, size: int, /) -> bytes:
        while self.damage is None:
            if self.inflate.eof:
                if not self.is_followed_by(GZIP):
                    break
                self.begin_member()
            piece = self.peek(1) and self.packed[self.at:self.at + self.step]
            if not piece:
                self.damage = CutShort('the compressed file is cut short')
            elif content := self.inflated(piece, size):
                return content
        return self.end()

    def inflated(self, piece: bytes, size: int) -> bytes:
        """The next bytes, of which there may be none yet; of damaged ones those before it."""
        before = self.inflate.copy()
        try:
            content = self.inflate.decompress(piece, size)
        except zlib.error as error:
            self.damage = Damaged(f'the compressed file is damaged: {error}')
            return byte_by_byte(before, piece)
        self.at += len(piece) - len(self.inflate.unused_data or self.inflate.unconsumed_tail)
        self.step = min(2 * self.step, READ_AT_ONCE)
        return content


def byte_by_byte(inflate: 'zlib._Decompress', packed: bytes) -> bytes:
    """What can be decompressed before the damage."""
    content = bytearray()
    with contextlib.suppress(zlib.error):
        for at in range(len(packed)):
            content += inflate.decompress(packed[at:at + 1])
    return bytes(content)


class Unpacked(Packed):
    """The bytes of a file of xz or bzip2, of one or several streams, up to damage."""

    def __init__(self, file: Readable, begun: bytes, magic: bytes) -> None:
        super().__init__(file, begun)
        self.magic, self.decompressor = magic, decompressor_of(magic)

    def read(self, size: int, /) -> bytes:
        while self.damage is None:
            if self.decompressor.eof:
                if not self.is_followed_by(self.magic):
                    break
                self.decompressor = decompressor_of(self.magic)
            if content := self.content(size):
                return content
        return self.end()

    def content(self, size: int) -> bytes:
        """The next bytes, of which there may be none yet."""
        piece = b''
        if self.decompressor.needs_input:
            piece = self.peek(1) and self.packed[self.at:self.at + USUAL_STEP]
            self.at += len(piece)
            if not piece:
                self.damage = CutShort('the compressed file is cut short')
                return b''
        try:
            content = self.decompressor.decompress(piece, size)
        except (lzma.LZMAError, OSError) as error:
            self.damage = Damaged(f'the compressed file is damaged: {error}')
            return b''
        self.at -= len(self.decompressor.unused_data)
        return content


def decompressor_of(magic: bytes) -> lzma.LZMADecompressor | bz2.BZ2Decompressor:
    if magic == XZ:
        return lzma.LZMADecompressor(lzma.FORMAT_XZ, MOST_MEMORY)
    return bz2.BZ2Decompressor()


class Piped:
    """The bytes of a file that a program decompresses. It reads a temporary copy."""

    def __init__(self, file: Readable, begun_with: bytes, command: list[str]) -> None:
        self.command, self.damage = command, None
        self.copy, self.error = (tempfile.TemporaryFile(prefix='nfs3canon'),
                                 tempfile.TemporaryFile(prefix='nfs3canon'))
        try:
            self.copy.write(begun_with)
            while block := file.read(READ_AT_ONCE):
                self.copy.write(block)
            self.copy.seek(0)
        except OSError as failed:
            raise OSError(failed.errno, failed.strerror or str(failed),
                          'a temporary file') from failed
        self.process = begun(command, stdin=self.copy, stdout=subprocess.PIPE, stderr=self.error)

    def read(self, size: int, /) -> bytes:
        """Raises `Damaged` if the program says so in the end, and `Died` if it was killed."""
        assert self.process.stdout
        content = self.process.stdout.read(size)
        if content:
            return content
        status = self.process.wait()
        if status < 0:
            raise died(self.command[:1], status, '')
        if status:
            said = text_of(self.error).strip().rpartition('\n')[2]
            raise (CutShort if PREMATURE in said
                   else Damaged)(f'the compressed file is damaged or cut short: {printable(said)}')
        return b''

    def __del__(self) -> None:
        """A program whose output is not wanted any more ends."""
        with contextlib.suppress(AttributeError):
            assert self.process.stdout
            self.process.stdout.close()
            self.process.kill()
            self.process.wait()


def unpacked(file: Readable, magic: bytes, begun_with: bytes) -> Readable | None:
    """Returns what is in a compressed file, which begins with `magic` and of which `begun_with` was
    read. Returns `None` if it is none that can be read."""
    if magic.startswith(GZIP):
        return Inflated(file, begun_with)
    if magic.startswith(XZ) or magic.startswith(BZIP2):
        return Unpacked(file, begun_with, XZ if magic.startswith(XZ) else BZIP2)
    if magic.startswith(ZSTD) and shutil.which('zstd'):
        return Piped(file, begun_with, ['zstd', '-dcq'])
    return None
