"""Runs of a program in which one growth of memory is refused, or one call of the system fails, or
moves less than was asked for, or comes after something else was done.

The program runs traced, as under a debugger (ptrace(2)), by Python's standard library alone; on
Linux and x86-64 only. What is counted begins when the loader has ended. Growths are the program's
own calls of malloc and realloc: their slots in its table of imported functions get addresses at
which nothing is, so each call stops there.
"""
import ctypes
import errno
import os
import signal
import struct
import subprocess
import sys
import tempfile
from collections.abc import Callable, Iterator, Mapping, Sequence
from dataclasses import dataclass
from typing import IO, NamedTuple

from tests.shared.running import begin

LIBC = ctypes.CDLL(None, use_errno=True)
LIBC.ptrace.argtypes = [ctypes.c_long, ctypes.c_long, ctypes.c_void_p, ctypes.c_void_p]
LIBC.ptrace.restype = ctypes.c_long
TRACE_ME, RESUME, GET_REGISTERS, SET_REGISTERS, RESUME_TO_CALL, SET_OPTIONS = (
    0, 7, 12, 13, 24, 0x4200)
MARK_CALLS, KILL_WITH_TRACER = 0x1, 0x100000
REGISTERS = ('r15 r14 r13 r12 rbp rbx r11 r10 r9 r8 rax rcx rdx rsi rdi orig_rax rip cs eflags rsp '
             'ss fs_base gs_base ds es fs '
             'gs').split()
ENTRY_OF_PROGRAM = 9  # the kind of the word in /proc/PID/auxv
BREAKPOINT = b'\xcc'
GROWING = ('malloc', 'realloc', 'calloc', 'aligned_alloc', 'posix_memalign')
NOWHERE = 16  # Addresses below the least that may be mapped, so many bytes apart.
# Calls of the system by their numbers: what they do with a file that is open, and then with names.
MOVING = {0: 'read', 1: 'write', 17: 'read'}
KINDS = {**MOVING, 74: 'sync', 75: 'sync', 4: 'stat', 5: 'stat', 6: 'stat', 262: 'stat',
         332: 'stat', 2: 'open', 257: 'open',
         82: 'rename', 264: 'rename', 316: 'rename', 87: 'unlink', 263: 'unlink', 89: 'readlink',
         267: 'readlink', 90: 'mode', 91: 'mode', 268: 'mode', 318: 'random'}
# Calls whose first argument is a folder, and whose second is a name.
WITH_FOLDERS = range(257, 333)
NO_WAIT = 1  # A flag of getrandom: the C library asks so for itself, and does without.
STANDARD_ERROR = 2
MOST_OF_A_NAME = 32  # bytes, of those that are compared
NO_CALL = (1 << 64) - 1


class Registers(ctypes.Structure):
    """The registers of a program that is stopped, of which these are used here."""
    rip: int  # where it goes on
    rsp: int
    rax: int  # what a function or a call of the system answered
    rdi: int  # the first three arguments of a call of the system
    rsi: int
    rdx: int
    orig_rax: int  # its number
    _fields_ = [(name, ctypes.c_ulonglong) for name in REGISTERS]


@dataclass(frozen=True)
class Fault:
    """What happens at the growth or call of a kind (`growth`, or one of KINDS) that has this
    number, from 1: it fails with an error, or takes so many bytes, or something is done before it,
    and then it is made. If it has a name, calls with this name alone are counted."""
    kind: str
    number: int
    error: int = errno.EIO
    takes: int | None = None
    before: Callable[[], object] | None = None
    name: str | None = None


class Answer(NamedTuple):
    """The status, both outputs, how many of each kind there were, and the open file of the call at
    which the fault was."""
    status: int
    out: str
    error: str
    counts: dict[str, int]
    file: int | None


class Pending(NamedTuple):
    """A call of the system that has begun: what it answers instead of the system's answer, and how
    many bytes it asked for."""
    answer: int | None
    asked: int | None


def ptrace(request: int, pid: int, data: int | None = None) -> None:
    if LIBC.ptrace(request, pid, None, data) < 0:
        raise OSError(ctypes.get_errno(), 'ptrace')


def trace_me() -> None:
    ptrace(TRACE_ME, 0)


def why_not() -> str | None:
    """Why no program can be traced here, or None."""
    if sys.platform != 'linux' or os.uname().machine != 'x86_64':
        return 'growths and devices are made to fail on Linux and x86-64 only'
    try:
        process = begin(['true'], '.', stdout=subprocess.DEVNULL, stderr=subprocess.DEVNULL,
                        prepare=trace_me)
        os.waitpid(process.pid, 0)
        process.kill()
        process.returncode = os.waitstatus_to_exitcode(os.waitpid(process.pid, 0)[1])
    except (OSError, subprocess.SubprocessError) as error:
        return 'tracing is not allowed here: %s' % error
    return None


class Elf:
    """Of a program's file: where it is entered, and where its slots for imported functions are."""

    def __init__(self, path: str) -> None:
        with open(path, 'rb') as file:
            self.bytes = file.read()
        self.entry, headers = struct.unpack_from('<QQ', self.bytes, 24)
        size, count = struct.unpack_from('<HH', self.bytes, 54)
        self.segments: list[tuple[int, ...]] = [
            struct.unpack_from('<IIQQQQ', self.bytes, headers + number * size)
            for number in range(count)]
        self.slots = dict(self.imports())

    def at(self, address: int) -> int:
        """The place in the file of what is mapped there."""
        return next(offset + address - first for kind, _, offset, first, _, size in self.segments
                    if kind == 1 and first <= address < first + size)

    def imports(self) -> Iterator[tuple[str, int]]:
        """Each imported function's name and slot."""
        offset, size = next((offset, size) for kind, _, offset, _, _, size in self.segments
                            if kind == 2)
        tags: dict[int, int] = dict(struct.iter_unpack('<QQ', self.bytes[offset:offset + size]))
        for table, length in ((23, 2), (7, 8)):
            if table not in tags:
                continue
            first = self.at(tags[table])
            for at in range(first, first + tags[length], 24):
                slot, about, _ = struct.unpack_from('<QQq', self.bytes, at)
                if about & 0xffffffff in (6, 7):
                    yield self.name(tags, about >> 32), slot

    def name(self, tags: Mapping[int, int], number: int) -> str:
        """The name of a symbol."""
        (offset,) = struct.unpack_from('<I', self.bytes, self.at(tags[6]) + 24 * number)
        start = self.at(tags[5]) + int(offset)
        return self.bytes[start:self.bytes.index(b'\0', start)].decode()


class Traced:
    """A run of a program that stops at all that is counted."""

    def __init__(self, elf: Elf, process: subprocess.Popen[bytes], fault: Fault | None,
                 pieces: Mapping[str, int]) -> None:
        self.elf, self.process, self.fault, self.pieces = elf, process, fault, pieces
        self.counts = dict.fromkeys(['growth', *KINDS.values()], 0)
        self.left = fault.number if fault else 0  # until the fault
        self.registers, self.memory = Registers(), -1
        # where each function that takes memory is, by the address in its slot
        self.real: dict[int, int] = {}
        self.pending: Pending | None = None
        self.file: int | None = None
        self.resume = RESUME if fault and fault.kind == 'growth' else RESUME_TO_CALL

    def run(self) -> None:
        """Goes on with the program until it has ended."""
        os.waitpid(self.process.pid, 0)
        ptrace(SET_OPTIONS, self.process.pid, MARK_CALLS | KILL_WITH_TRACER)
        self.memory = os.open('/proc/%d/mem' % self.process.pid, os.O_RDWR)
        try:
            self.go_to_the_entry()
            status = self.go_on(0)
            while os.WIFSTOPPED(status):
                status = self.go_on(self.stopped(os.WSTOPSIG(status)))
        finally:
            os.close(self.memory)
        self.process.returncode = os.waitstatus_to_exitcode(status)

    def go_on(self, number: int) -> int:
        """Goes on with a signal, or with none if it is 0, and returns the status with which the
        program stops or ends."""
        ptrace(self.resume, self.process.pid, number)
        return os.waitpid(self.process.pid, 0)[1]

    def go_to_the_entry(self) -> None:
        """Past the loader; then each slot of a function that takes memory is put in the place of
        nothing."""
        with open('/proc/%d/auxv' % self.process.pid, 'rb') as file:
            entry = dict(struct.iter_unpack('<QQ', file.read()))[ENTRY_OF_PROGRAM]
        first = os.pread(self.memory, 1, entry)
        os.pwrite(self.memory, BREAKPOINT, entry)
        ptrace(RESUME, self.process.pid)
        os.waitpid(self.process.pid, 0)
        os.pwrite(self.memory, first, entry)
        self.load()
        self.registers.rip = entry
        self.store()
        for number, name in enumerate(GROWING, 1):
            if self.resume == RESUME and name in self.elf.slots:
                slot = self.elf.slots[name] + entry - self.elf.entry
                self.real[number * NOWHERE] = struct.unpack('<Q', os.pread(self.memory, 8, slot))[0]
                os.pwrite(self.memory, struct.pack('<Q', number * NOWHERE), slot)

    def load(self) -> None:
        ptrace(GET_REGISTERS, self.process.pid, ctypes.addressof(self.registers))

    def store(self) -> None:
        ptrace(SET_REGISTERS, self.process.pid, ctypes.addressof(self.registers))

    def stopped(self, number: int) -> int:
        """The signal with which the program goes on."""
        if number == signal.SIGTRAP | 0x80:
            self.call()
        elif number == signal.SIGSEGV and self.is_growth():
            self.growth()
        else:
            return number
        return 0

    def is_growth(self) -> bool:
        """Whether the program stopped at the address in the slot of a function that takes
        memory."""
        self.load()
        return self.registers.rip in self.real

    def counted(self, kind: str) -> bool:
        """Counts one of a kind, and returns whether the fault is here."""
        self.counts[kind] += 1
        if (self.fault is None or self.fault.kind != kind
                or self.fault.name is not None and self.fault.name != self.name()):
            return False
        self.left -= 1
        return self.left == 0

    def name(self) -> str:
        """The name with which a call of the system is made."""
        at = self.registers.rsi if self.registers.orig_rax in WITH_FOLDERS else self.registers.rdi
        return os.pread(self.memory, MOST_OF_A_NAME, at).partition(b'\0')[0].decode()

    def growth(self) -> None:
        """Answers null to the caller, or goes on in the function."""
        if self.counted('growth'):
            self.registers.rip = struct.unpack('<Q', os.pread(self.memory, 8, self.registers.rsp))[
                0]
            self.registers.rsp += 8
            self.registers.rax = 0
        else:
            self.registers.rip = self.real[self.registers.rip]
        self.store()

    def call(self) -> None:
        """A call of the system begins or ends."""
        self.load()
        if self.pending is None:
            self.pending = self.begun()
            self.store()
            return
        (answer, asked), self.pending = self.pending, None
        if answer is not None:
            self.registers.rax = answer & NO_CALL
        if asked is not None:
            self.registers.rdx = asked
        if answer is not None or asked is not None:
            self.store()

    def begun(self) -> Pending:
        """A call of the system begins, with fewer bytes if only so many are moved at once, and not
        at all if it fails."""
        kind = self.kind()
        if kind is None:
            return Pending(None, None)
        fault = self.fault if self.counted(kind) else None
        if fault and fault.before:
            fault.before()
            fault = None
        self.file = self.registers.rdi if fault else self.file
        asked = self.registers.rdx if self.registers.orig_rax in MOVING else None
        most = fault.takes if fault else self.pieces.get(kind)
        if fault and not most:
            self.registers.orig_rax = NO_CALL
            return Pending(0 if most == 0 else -fault.error, asked)
        if most is not None and asked is not None:
            self.registers.rdx = min(asked, most)
        return Pending(None, asked)

    def kind(self) -> str | None:
        """The kind of a call that is counted. What goes to standard error is not, nor
        what is read from /proc."""
        kind, file = KINDS.get(self.registers.orig_rax), self.registers.rdi
        if (kind == 'write' and file == STANDARD_ERROR
                or kind == 'random' and self.registers.rdx & NO_WAIT):
            return None
        if kind == 'read' and self.is_told_by_the_system(file):
            return None
        return kind

    def is_told_by_the_system(self, file: int) -> bool:
        """Whether an open file is one of /proc."""
        try:
            return os.readlink('/proc/%d/fd/%d' % (self.process.pid, file)).startswith('/proc/')
        except OSError:
            return False


def run(program: str, words: Sequence[str], folder: str, fault: Fault | None = None,
        pieces: Mapping[str, int] | None = None,
        stdout: int | IO[bytes] | None = None, closed: Sequence[int] = ()) -> Answer:
    """A run of the program there, with this fault, whose reads and writes move at most so many
    bytes at once as `pieces` says by kind. Growths are counted if the fault is one, and else the
    calls of the system. Its standard output is a file of its own if none is given, and is then
    answered; the outputs are Latin-1. The standard files with the numbers `closed` are closed."""
    def begun() -> None:
        for number in closed:
            os.close(number)
        trace_me()
    with tempfile.TemporaryFile() as out, tempfile.TemporaryFile() as error:
        process = begin([program, *words], folder, stdout=stdout or out, stderr=error,
                        env={**os.environ, 'LD_BIND_NOW': '1'}, prepare=begun)
        traced = Traced(Elf(program), process, fault, pieces or {})
        traced.run()
        out.seek(0)
        error.seek(0)
        return Answer(process.returncode, out.read().decode('latin-1'),
                      error.read().decode('latin-1'), traced.counts, traced.file)
