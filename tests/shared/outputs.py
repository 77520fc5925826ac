"""What the name of an output may lead to, and what is left of it after a run."""
import os
import re
import stat
from dataclasses import dataclass
from typing import Optional

from examples.messages import chunk, version_1
from tests.shared import tracing
from tests.shared.running import command_of
from tests.shared.tracing import Answer, Fault

AS_IT_WAS = b'as it was'
# What a file is called that is written beside the name of the output.
PART = re.compile(r'\.nfs3canon-[0-9a-f]{16}')
STREAMS = {'c': b'\x01', 's': b'\x02'}
PACKED = b''.join(version_1([([chunk(STREAMS['c'])], [chunk(STREAMS['s'])])]))
NULL_DEVICE = os.makedev(1, 3)
Found = dict[str, tuple[str, object]]


@dataclass(frozen=True)
class Setting:
    """A command line, and what its output is: links, devices and fifos that are made beside the
    files `a`, `out`, `c` and `s`, and where standard output goes: to the file `stdout`, which is
    appended to, into a pipe, or to a file of the test."""
    line: str
    written: str  # the file that has the output afterwards; standard output if it is empty
    made: tuple[tuple[str, str, str], ...] = ()
    stdout: str = ''
    closed: tuple[int, ...] = ()
    status: int = 0


SETTINGS = {
    'a file': Setting('canon a out', 'out'),
    'a new name': Setting('canon a new', 'new'),
    'a link': Setting('canon a link', 'out', (('symlink', 'link', 'out'),)),
    'a link to a link': Setting('canon a far', 'out',
                                (('symlink', 'link', './out'), ('symlink', 'far', 'link'))),
    'a link to nothing': Setting('canon a link', '', (('symlink', 'link', 'absent'),), status=3),
    'a device': Setting('canon a node', 'node', (('device', 'node', ''),)),
    'a fifo': Setting('canon a fifo', 'fifo', (('fifo', 'fifo', ''),)),
    'standard output, a file': Setting('canon a /dev/stdout', 'out', stdout='out'),
    'the file that standard output is': Setting('canon a out', 'out', stdout='out'),
    'standard output, a pipe': Setting('canon a /dev/stdout', '', stdout='pipe'),
    'standard output by its number, a pipe': Setting('canon a /proc/self/fd/1', '', stdout='pipe'),
    'standard output by its number, a file': Setting('canon a /proc/self/fd/1', 'out',
                                                     stdout='out'),
    'standard output that is closed': Setting('canon a /dev/stdout', '', closed=(1,), status=4),
    'the input': Setting('canon a ./a', 'a', status=4),
    'a link to the input': Setting('canon a link', '', (('symlink', 'link', 'a'),), status=4),
    'the input, as standard output': Setting('canon a /dev/stdout', '', stdout='a', status=4),
    'a masked file': Setting('nfs3mask a out', 'out'),
    'a new name of a masked file': Setting('nfs3mask a new', 'new'),
    'standard output of a masked file': Setting('nfs3mask a /dev/stdout', 'out', stdout='out'),
    'the input, masked': Setting('nfs3mask a ./a', 'a', status=4),
    'a file of streams': Setting('pack out c s', 'out'),
    'a new name of streams': Setting('pack new c s', 'new'),
    'standard output of streams': Setting('pack /dev/stdout c s', 'out', stdout='out'),
    'a stream': Setting('pack ./s c s', '', status=4),
    'the fourth stream': Setting('pack ./s c c c s', '', status=4),
    'a hard link to the fourth stream': Setting('pack link c c c s', '',
                                                (('hardlink', 'link', 's'),), status=4),
    'a link to the fourth stream': Setting('pack link c c c s', '', (('symlink', 'link', 's'),),
                                           status=4),
    'a stream by standard input, which is closed': Setting('pack new c /dev/stdin', '', closed=(0,),
                                                           status=4),
    'a file, and standard input is closed': Setting('pack out c /dev/stdin', '', closed=(0,),
                                                    status=4),
}


def make(folder: str, setting: Setting, capture: bytes) -> None:
    """A folder with the files of a setting alone."""
    for name in os.listdir(folder):
        os.remove(os.path.join(folder, name))
    for name, content in {'a': capture, 'out': AS_IT_WAS, **STREAMS}.items():
        with open(os.path.join(folder, name), 'wb') as file:
            file.write(content)
    for kind, name, other in setting.made:
        path = os.path.join(folder, name)
        if kind == 'symlink':
            os.symlink(other, path)
        elif kind == 'hardlink':
            os.link(os.path.join(folder, other), path)
        elif kind == 'fifo':
            os.mkfifo(path)
        elif kind == 'device':
            os.mknod(path, 0o600 | stat.S_IFCHR, NULL_DEVICE)


def found_in(folder: str) -> Found:
    """What each name of a folder has."""
    found: Found = {}
    for name in sorted(os.listdir(folder)):
        path = os.path.join(folder, name)
        state = os.lstat(path)
        if stat.S_ISLNK(state.st_mode):
            found[name] = ('symlink', os.readlink(path))
        elif stat.S_ISREG(state.st_mode):
            with open(path, 'rb') as file:
                found[name] = ('file', file.read())
        else:
            found[name] = ('other', (stat.S_IFMT(state.st_mode), state.st_rdev))
    return found


def is_possible(setting: Setting) -> bool:
    """Whether a test may make it: devices are root's to make."""
    return os.geteuid() == 0 or all(kind != 'device' for kind, _, _ in setting.made)


def run(program: str, folder: str, setting: Setting,
        fault: Optional[Fault] = None) -> tuple[Answer, bytes]:
    """A traced run, and what came through the pipe or the fifo."""
    through, out = None, None
    if setting.stdout == 'pipe':
        through, out = os.pipe()
    elif setting.stdout:
        out = os.open(os.path.join(folder, setting.stdout), os.O_WRONLY | os.O_APPEND)
    elif ('fifo', 'fifo', '') in setting.made:
        through = os.open(os.path.join(folder, 'fifo'), os.O_RDWR)
    try:
        answer = tracing.run(*command_of(program, setting.line.split()), folder, fault, stdout=out,
                             closed=setting.closed)
        return answer, drained(through)
    finally:
        for file in (through, out):
            if file is not None:
                os.close(file)


def drained(pipe: Optional[int]) -> bytes:
    """What is in a pipe, which holds all that a small capture has."""
    if pipe is None:
        return b''
    os.set_blocking(pipe, False)
    try:
        return os.read(pipe, 1 << 16)
    except BlockingIOError:
        return b''


def without_parts(found: Found) -> Found:
    return {name: state for name, state in found.items() if not PART.fullmatch(name)}
