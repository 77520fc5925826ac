"""Runs of the scripts in tools/, and what their tests make recordings of."""
import json
import os
import pathlib
import struct
import sys
import tempfile
import threading
import typing
import xml.etree.ElementTree
from collections.abc import Sequence

from examples.messages import NFS, call, fragment, success, version_1
from examples.packets import Talk, pcap
from tests.shared.containers import in_one
from tests.shared.running import Answer, RunOptions, Runs, ended

from ..nfs3tools.commands.verdicts import Judge
from ..nfs3tools.judgement.verdict import Verdict
from ..nfs3tools.recordings.container import capture_of
from ..nfs3tools.recordings.selection import Options
from ..nfs3tools.recordings.taken import NotTaken, Taken, take
from ..nfs3tools.reporting.messages import add_options, options_of, parser_of, recording_lines
from .forks import ended_in_fork

TOP = pathlib.Path(__file__).resolve().parents[2]
EXAMPLES = TOP / 'examples'
FIRST, SECOND, CHANGED = (str(EXAMPLES / f'ganesha_{name}.pcap') for name in ('a', 'b', 'changed'))
# The faults of examples: where and why each is refused, and the frame that brought it.
FAULTS = {'bad_client_record': ('connection 1 client record 1 byte 4: BadEnum', 4),
          'bad_server_record': ('connection 2 server record 2 byte 0: NoCall', 13),
          'bad_status': ('connection 1 server record 1 byte 24: BadEnum', 5),
          'bad_bool': ('connection 1 server record 1 byte 28: BadBool', 5),
          'bad_length': ('connection 1 client record 1 byte 40: TooLong', 4)}
WITHOUT_PROGRAM = ('explain', 'from_pcap', 'where')

# For a process that imports the tools itself.
WITH_TOOLS = {**os.environ, 'PYTHONPATH': str(TOP / 'tools')}
# Runs a tool, and then prints the seconds of processor time and the bytes of memory that it took
# itself, without the programs that it ran. (ru_maxrss has the memory of the tests, too, which were
# this process before.)
MEASURED = """import resource, runpy, sys
sys.argv = sys.argv[1:]
try:
    runpy.run_path(sys.argv[0], run_name='__main__')
finally:
    taken = resource.getrusage(resource.RUSAGE_SELF)
    most = next(line.split()[1] for line in open('/proc/self/status') if line.startswith('VmHWM'))
    print(taken.ru_utime + taken.ru_stime, int(most) * 1024, file=sys.stderr)
"""

CALLS = [call(number, NFS, 3, 0) for number in range(1, 40)]
REPLIES = [success(number) for number in range(1, 40)]
Streams = tuple[bytes, bytes]


def stream(bodies: typing.Iterable[bytes]) -> bytes:
    """A stream with these bodies, a record each."""
    return b''.join(map(fragment, bodies))


def in_fragments(body: bytes, size: int) -> bytes:
    """A record of fragments of so many bytes, and a last one."""
    whole = range(0, len(body) - size, size)
    return b''.join(fragment(body[at:at + size], is_last=False)
                    for at in whole) + fragment(body[len(whole) * size:])


ALL = (stream(CALLS), stream(REPLIES))
CALL, REPLY = len(stream(CALLS[:1])), len(stream(REPLIES[:1]))
FIFTH, FIFTH_OF_REPLIES = -(-len(ALL[0]) // 5), -(-len(ALL[1]) // 5)  # as in `whole`
VERDICTS = str(TOP / 'tools/verdicts')


def packed(*connections: Streams) -> bytes:
    """What `pack` writes of connections with short streams."""
    return b''.join(version_1((in_one(client), in_one(server)) for client, server in connections))


def exchange(talk: Talk, pieces: int = 1, calls: list[bytes] = CALLS,
             replies: list[bytes] = REPLIES) -> list[bytes]:
    """The segments of some calls and their replies, each side's stream in pieces."""
    frames = []
    for side, bodies in enumerate((calls, replies)):
        content = stream(bodies)
        size = max(1, -(-len(content) // pieces))
        frames += [talk.sent(side, content[at:at + size]) for at in range(0, len(content), size)]
    return frames


def connection_of(calls: list[bytes], replies: list[bytes], pieces: int = 1,
                  **options: typing.Any) -> list[bytes]:
    """The frames of a connection from its SYN to its FIN, each side's stream in pieces."""
    talk = Talk(**options)
    return [*talk.opened(), *exchange(talk, pieces, calls, replies), *talk.closed()]


def whole(**options: typing.Any) -> list[bytes]:
    """The frames of a connection: three, five of the calls, five of the replies, two."""
    return connection_of(CALLS, REPLIES, 5, **options)


def taken_of(recording: bytes, **options: typing.Any) -> Taken:
    """What is taken of a recording, as `tools/from_pcap` does it."""
    with tempfile.NamedTemporaryFile(prefix='nfs3canon') as file:
        file.write(recording)
        file.flush()
        return take(file.name, Options(**options), False)


def in_turn(talks: Sequence[Talk],
            messages: typing.Iterable[tuple[int, int, bytes]]) -> list[bytes]:
    """The frames of connections at once, a frame for each message: which, its side and its body."""
    frames = [frame for talk in talks for frame in talk.opened()]
    frames += [talks[number].sent(side, fragment(body)) for number, side, body in messages]
    return [*frames, *(frame for talk in talks for frame in talk.closed())]


def timed(frames: typing.Iterable[tuple[float, bytes]], begun: int = 0) -> bytes:
    """A recording of frames, each so many seconds after its beginning."""
    return pcap([]) + b''.join(struct.pack('<4I', begun + int(at), round(at % 1 * 1_000_000),
                                           len(frame), len(frame)) + frame for at, frame in frames)


def sums(ok: int = 0, in_part: int = 0, refused: int = 0, errors: int = 0, left_out: int = 0,
         not_checked: int = 0, bare: int = 0, raw: str = '', silent: int = 0) -> str:
    """The line of sums of `tools/verdicts`; `bare` is how many of those that are left out show no
    call, and `silent` how many calls got no reply."""
    open_calls = f'; {silent} call{"s" * (silent != 1)} without a reply' if silent else ''
    without = f' ({bare} without a call)' if bare else ''
    return (f'{ok + refused} judged ({ok} ok, {refused} refused), {in_part} in part, {left_out} '
            f'left out{without}, {not_checked} not checked, {errors} errors{open_calls}'
            + (f'; {raw} raw' if raw else ''))


# With segments in their order, and calls to ports that TLS might have.
TSHARK = ('tshark',
          '-n', '-o', 'tcp.reassemble_out_of_order:TRUE', '--disable-protocol', 'tls', '-r')


class Measured(typing.NamedTuple):
    """What a tool ended with, its lines, and the processor time and memory that it took itself."""
    status: int
    lines: list[str]
    seconds: float
    memory: int


def measured(runs: Runs, tool: str, *words: str) -> Measured:
    command = [sys.executable, '-c', MEASURED, str(TOP / 'tools' / tool), *words]
    status, out, error = ended(command, runs.folder, limit=None, env=WITH_TOOLS).text()
    seconds, memory = error.split()[-2:]
    return Measured(status, out.splitlines(), float(seconds), int(memory))


class Tools(Runs):
    """A folder, and runs of the scripts there."""

    def tool(self, name: str, *words: str, **options: typing.Unpack[RunOptions]) -> Answer:
        """What a tool ended with, on the program of the tests if it runs one: in a fork if no
        option asks for a process, and no other thread runs. Its output may be no text."""
        script, stdin = str(TOP / 'tools' / name), options.get('stdin')
        if name not in WITHOUT_PROGRAM and '--program' not in words:
            words = '--program', self.program, *words
        is_plain = options.keys() <= {'stdin'} and (stdin is None or isinstance(stdin, bytes))
        if is_plain and threading.active_count() == 1:
            return ended_in_fork(script, words, self.folder, stdin).text('replace')
        return ended([script, *words], self.folder, **options).text('replace')

    def json(self, name: str) -> typing.Any:
        return json.loads(self.read(name) or b'')

    def xml(self, name: str) -> xml.etree.ElementTree.Element:
        return xml.etree.ElementTree.fromstring((self.read(name) or b'').decode())

    def taken(self, what: str, recording: bytes, wanted: list[Streams],
              **options: typing.Any) -> list[str]:
        """The recording gives just these connections. Returns what is reported of it."""
        try:
            taken = taken_of(recording, **options)
        except NotTaken as refused:
            self.want(what, str(refused), wanted)
            return []
        self.want(what, b''.join(capture_of(taken.pairs())), packed(*wanted))
        return recording_lines(taken)

    def told(self, what: str, recording: bytes, wanted: list[Streams], lines: list[str],
             **options: typing.Any) -> None:
        """The recording gives just these connections; this is reported, with a line for each."""
        told = self.taken(what, recording, wanted, **options)
        self.want('told: ' + what, [line for line in told if ': client ' not in line], lines)

    def refused(self, what: str, recording: bytes, message: str) -> None:
        try:
            taken_of(recording)
        except NotTaken as refused:
            self.want(what, message in str(refused) or str(refused), True)
        else:
            self.want(what, 'taken', message)

    def exists(self, name: str) -> bool:
        return os.path.exists(self.path(name))


def verdicts_on(program: str, recording: bytes, words: Sequence[str] = ()) -> list[Verdict]:
    parser = parser_of('', 'verdicts')
    add_options(parser)
    options = options_of(parser.parse_args(words))
    with tempfile.NamedTemporaryFile(prefix='nfs3canon') as file:
        file.write(recording)
        file.flush()
        return Judge(program, options, 1, False).verdicts(file.name)


def of_tshark(tools: Tools, recording: str, choice: str, *fields: str) -> list[list[str]]:
    """The values of some fields in each frame that a filter chooses."""
    done = ended([*TSHARK, recording, '-Y', choice, '-T', 'fields',
                  *(word for field in fields for word in ('-e', field))], tools.folder)
    return [line.split('\t') for line in done.out.decode().splitlines()]


def write_faulty(tools: Tools) -> list[str]:
    """Writes recordings and a capture that are not whole and valid, and returns their names."""
    contents = {
        'lost.pcap': pcap(whole()[:4] + whole()[5:]),
        'cut.pcap': pcap(whole())[:-3],
        'damaged.pcap': pcap(whole()) + b'\xff' * 16,
        'none.pcap': pcap([]),
        'text': b'no recording',
        'bad.pcap': (TOP / 'examples/bad_server_record.pcap').read_bytes(),
        'worse.pcap': (TOP / 'examples/bad_client_record.pcap').read_bytes(),
        'cut.nfs3cap': (TOP / 'examples/two_connections.nfs3cap').read_bytes()[:-1],
    }
    for name, content in contents.items():
        tools.write(name, content)
    return [*contents]
