"""Tests of what the tools print on pseudo-terminals of a known width."""
import contextlib
import fcntl
import io
import os
import pty
import re
import struct
import subprocess
import termios
import typing
from collections.abc import Sequence

from examples.messages import NFS, call, dirop, failed, fattr, fh, ok, post_op_attr, success
from examples.packets import pcap

from ..nfs3tools.shared.progress import Progress
from ..nfs3tools.shared.screens import Colour, Screen, Styled, table_lines
from .comparisons import Comparisons
from .scripts import TOP, Tools, connection_of, sums, whole
from .test_compare import run

RED, GREEN, YELLOW, END = '\x1b[31m', '\x1b[32m', '\x1b[33m', '\x1b[m'
PLAIN = {name: value for name, value in os.environ.items()
         if name not in ('NO_COLOR', 'COLUMNS', 'LINES')} | {'TERM': 'xterm'}


def on_terminal(tools: Tools, width: int, *words: str, **variables: str) -> tuple[int, list[str]]:
    """The status of a tool whose standard output is a terminal, and the lines there."""
    status, text = written_to(tools, width, 'stdout', *words, **variables)
    return status, text.replace('\r\n', '\n').splitlines()


def written_to(tools: Tools, width: int, stream: str, *words: str,
               given: typing.IO[bytes] | None = None,
               **variables: str) -> tuple[int, str]:
    """The status of a tool one stream of which is a terminal, and what is there."""
    master, slave = pty.openpty()
    fcntl.ioctl(slave, termios.TIOCSWINSZ, struct.pack('4H', 24, width, 0, 0))
    command = [str(TOP / 'tools' / words[0]), '--program', tools.program, *words[1:]]
    streams = {'stdin': given or subprocess.DEVNULL, 'stdout': subprocess.DEVNULL,
               'stderr': subprocess.DEVNULL, stream: slave}
    with subprocess.Popen(command, cwd=tools.folder, env={**PLAIN, **variables},
                          **typing.cast(dict[str, typing.Any], streams)) as process:
        os.close(slave)
        content = b''.join(iter(lambda: piece_of(master), b''))
    os.close(master)
    return process.returncode, content.decode()


def piece_of(master: int) -> bytes:
    """What comes next from a terminal; nothing once nobody has it open."""
    try:
        return os.read(master, 1 << 16)
    except OSError:
        return b''


def bare(lines: Sequence[str]) -> list[str]:
    return [re.sub('\x1b\\[[0-9]*m', '', line) for line in lines]


def recording(status: int = 0) -> bytes:
    """LOOKUP of two files in one folder, the second of which is not there, on a connection."""
    calls = [call(1, NFS, 3, 3, dirop(b'top', b'x')), call(2, NFS, 3, 3, dirop(b'top', b'y' * 60))]
    replies = [success(1, ok(fh(b'x'), post_op_attr(fattr(1, 1)), post_op_attr())),
               success(2, failed(2, post_op_attr()))]
    return pcap(connection_of(calls, replies))


def tables(tools: Tools) -> None:
    """Columns are aligned, the last cell has the colour, and a table may be cut."""
    rows = [Styled(['name', 'n', 'what']), Styled(['abc', '12', 'one two']),
            Styled(['abcdefgh', '3', 'three'], Colour.RED)]
    whole_lines = ['name      n   what', 'abc       12  one two', 'abcdefgh  3   three']
    for width in (None, 10):
        tools.want(f'{width} columns', list(table_lines(rows, Screen(width))), whole_lines)
    tools.want('colour', list(table_lines(rows, Screen(None, True)))[2],
               f'abcdefgh  3   {RED}three{END}')
    tools.want('to the right', list(table_lines(rows, Screen(), [1]))[2], 'abcdefgh   3  three')
    for width in (3, 12, 16, 40):
        tools.want(f'cut at {width}', list(table_lines(rows, Screen(width), is_cut=True)),
                   [line[:width] for line in whole_lines])
    tools.want('cut, in colour', list(table_lines(rows, Screen(16, True), is_cut=True))[2],
               f'abcdefgh  3   {RED}th{END}')


def verdicts_have_colours(tools: Tools) -> None:
    """`ok` alone is green, what is refused or cannot be read is red, and all between is yellow."""
    tools.write('a.pcap', pcap(whole()))
    tools.write('lost.pcap', pcap(whole()[:4] + whole()[5:]))
    bad = str(TOP / 'examples/bad_status.pcap')
    tools.write('text', b'text')
    status, lines = on_terminal(tools, 200, 'verdicts', 'a.pcap', 'lost.pcap', bad, 'text')
    words = [re.findall('\x1b\\[(\\d+)m(\\w+ ?\\w*)', line) for line in lines]
    tools.want('words', [found[0] for found in words if found],
               [('32', 'ok'), ('33', 'ok in'), ('31', 'server record'), ('31', 'it is')])
    tools.want('heads and sums', (words[0], words[-1], status), ([], [], 1))


def no_colours_elsewhere(tools: Tools) -> None:
    """No escape without a terminal or if it is not wanted; always if it is."""
    tools.write('a.pcap', recording())
    for tool in ('verdicts', 'calls', 'procedures'):
        plain = tools.tool(tool, 'a.pcap')[1].splitlines()
        coloured = on_terminal(tools, 300, tool, 'a.pcap')[1]
        always = tools.tool(tool, '--color', 'always', 'a.pcap')[1].splitlines()
        tools.want(f'{tool} always', bare(always), plain)
        for what, lines, is_wanted in (
                ('in a pipe', plain, False), ('on a terminal', coloured, True),
                ('with an empty NO_COLOR',
                 on_terminal(tools, 300, tool, 'a.pcap', NO_COLOR='')[1], True),
                ('always', always, True)):
            tools.want(f'{tool} {what}', '\x1b' in ''.join(lines), is_wanted)
        for words, variables in (([], {'NO_COLOR': '1'}), ([], {'TERM': 'dumb'}),
                                 (['--color', 'never'], {})):
            tools.want(f'{tool} {words} {variables}',
                       on_terminal(tools, 300, tool, *words, 'a.pcap', **variables)[1],
                       bare(coloured))
    out = tools.tool('verdicts', '--json', '-', 'a.pcap')[1]
    tools.want('JSON', '\x1b' in out, False)


def comparisons_have_colours_as_diff(tools: Tools) -> None:
    """Lines have the colour of their run, verdicts of the status."""
    place = Comparisons(tools.program, tools.folder)
    place.put_both(run(1, 1, 1), run(1, 2, 1))
    lines = on_terminal(tools, 300, 'compare', 'a', 'b')[1]
    tools.want('values', [line for line in lines if 'nlink=' in line],
               [f'{RED}  - obj.nlink=1{END}', f'{GREEN}  + obj.nlink=2{END}'])
    for names, words, begin in (((), [], f'{GREEN}same'), ((2, 1, 0), [], f'{YELLOW}same'),
                                ((2, 1, 0), ['--order', 'any'], f'{GREEN}same')):
        place.put('b', run(1, 1, 1, names=names))
        line = on_terminal(tools, 300, 'compare', *words, 'a', 'b')[1][1]
        tools.want(f'{names} {words}', (line[:len(begin)], line[-len(END):]), (begin, END))
    tools.want('differ', (lines[1].startswith(RED + 'differ'), lines[1].endswith(END)),
               (True, True))


def rows_are_as_in_a_pipe(tools: Tools) -> None:
    """Lines that end with a text are left to the terminal; numbers are cut at its width."""
    tools.write('a.pcap', recording())
    for tool in ('verdicts', 'calls'):
        tools.want(tool, bare(on_terminal(tools, 60, tool, 'a.pcap')[1]),
                   tools.tool(tool, 'a.pcap')[1].splitlines())
    for words in (['--total', 'a.pcap'], ['--beside', 'a.pcap', 'a.pcap']):
        plain, narrow = (tools.tool('procedures', *width, *words)[1].splitlines()
                         for width in ([], ['--width', '80']))
        cut = [line if 'judged' in line else line[:80] for line in plain]
        shown, wide = (bare(on_terminal(tools, 80, 'procedures', *width, *words)[1])
                       for width in ([], ['--width', '0']))
        tools.want(f'{words}', (shown, narrow, wide), (cut, cut, plain))


def help_fits(tools: Tools) -> None:
    """No help is wider than 80 columns, and a value like an option is refused."""
    for tool in ('from_pcap', 'where', 'verdicts', 'calls', 'procedures', 'compare', 'explain',
                 'cut'):
        status, out, _ = tools.tool(tool, '--help')
        tools.want(tool, (status, [line for line in out.splitlines()
                                   if len(line) > 80 and str(TOP) not in line]), (0, []))
    tools.want('--mask', tools.tool('compare', '--mask', '-times', 'a', 'b'), (
        2, '', 'compare: error: argument --mask: expected one argument, and -times is none, since '
        'it begins with `-`\n'))


def numbers_have_separators_on_a_terminal_alone(tools: Tools) -> None:
    """1,200 calls are `1,200` on a terminal, and `1200` in a pipe."""
    tools.write('a.pcap', pcap(connection_of([call(xid, NFS, 3, 0) for xid in range(1_200)],
                                             [success(xid) for xid in range(1_200)], 90)))
    row = ['192.0.2.7:700', '192.0.2.1:2049', '%s', '%s', 'ok']
    for lines, number in ((bare(on_terminal(tools, 100, 'verdicts', 'a.pcap')[1]), '1,200'),
                          (tools.tool('verdicts', 'a.pcap')[1].splitlines(), '1200')):
        tools.want(number, (re.split('  +', lines[1])[2:], lines[-1]),
                   ([one.replace('%s', number) for one in row], sums(1)))


class Terminal(io.StringIO):
    """A stream that says that it is a terminal."""

    def isatty(self) -> bool:
        return True


def progress_is_said_at_times(tools: Tools) -> None:
    """At most five times a second, never over 100 %, and gone in the end."""
    with contextlib.redirect_stderr(Terminal()) as stream:
        progress = Progress()
        progress.begin('one')
        progress.step('two', lambda: 0.5)
        progress.told -= 1
        progress.step('three', lambda: 0.416)
        progress.told -= 1
        progress.step('four', lambda: 1.5)
        lines = list(progress.lines('five', ['a', 'b'], lambda: 2))
        progress.end()
    tools.want('lines', lines, ['a', 'b'])
    tools.want('said', stream.getvalue().split('\r\x1b[K'),
               ['', 'one', 'three, 41 %', 'four, 100 %', 'five', ''])
    with contextlib.redirect_stderr(io.StringIO()) as other:
        progress = Progress()
        progress.begin('one')
        progress.told -= 1
        progress.step('two', lambda: 1 / 0)
        progress.end()
    tools.want('elsewhere', other.getvalue(), '')


def comparisons_say_how_far_they_are(tools: Tools) -> None:
    """Each step is said on a terminal, and nothing in a pipe."""
    place = Comparisons(tools.program, tools.folder)
    for first, second, words, steps in (
            (run(1, 1, 1), run(1, 1, 2, names=(2, 1, 0)), ['--order', 'any'], {
                'checking both runs', 'masking values', 'comparing both runs',
                'bringing 12 calls together', 'writing both runs in one order', ''}),
            (run(*[1] * 3_000), run(*[1] * 2_999, 2), [], {'reading the calls', ''}),
            (run(1), ([], []), ['--order', 'any'],
             {'compare: nothing to compare: no call of b is taken\r\n'})):
        place.put_both(first, second)
        said = written_to(tools, 80, 'stderr', 'compare', *words, 'a', 'b')[1].split('\r\x1b[K')
        tools.want(f'{steps}', (steps - {*said}, said[-1] in steps), (set(), True))
        if len(steps) > 2:
            tools.want('a pipe', place.compare(*words, 'a', 'b')[2], '')
