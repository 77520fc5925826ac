"""How the tools speak and end: messages on standard error, a status, and never a traceback."""
from __future__ import annotations

import argparse
import functools
import os
import re
import shlex
import shutil
import signal
import sys
import textwrap
import typing
from pathlib import Path

from ..recordings.coverage import Allowed
from ..recordings.parts import NotThere
from ..recordings.selection import Options
from ..recordings.taken import NotTaken, Taken
from ..shared.names import as_called, called, is_installed
from ..shared.outputs import ENDING, Refused
from ..shared.places import NoPlace
from ..shared.printed import escaped, printable
from ..shared.programs import Died, Missing
from ..shared.screens import add_colour
from ..shared.version import TOP, VERSION

ABSENT, REFUSED, FAILED, INTERRUPTED = 1, 2, 3, 130  # ABSENT: no such position
# How a tool reads a recording from standard input.
READING = {'from_pcap': '- OUT', 'where': '- POSITION', 'explain': '- POSITION',
           'verdicts': '-', 'procedures': '-', 'calls': '-', 'meaning': '-',
           'report': '-', 'cut': '- POSITION OUT'}
OPTION = re.compile(r' \[-[^]]*\]')  # in a usage
STATUS_TEXT = 'The status is 0'  # begins what is said of it
WITHOUT_VALUE = re.compile(r'argument (\S+): expected one argument')
PAGES = Path(__file__).resolve().parents[2] / 'man'


def command_of(module: str, name: str,
               main: typing.Callable[[list[str]], int]) -> typing.Callable[[], int]:
    """Returns what runs a tool, or runs it at once if Python was asked to run its module."""
    command = functools.partial(run, name, main)
    if module == '__main__':
        sys.exit(command())
    return command


def run(name: str, main: typing.Callable[[list[str]], int]) -> int:
    """Runs a tool with the words of its command line, and returns its status: 2 if an input or an
    output is refused, 3 if a file, a device, a program or memory fails, also one of the standard
    streams."""
    try:
        end_by_signals()
        status = status_of_tool(name, main)
        ignore_signals()
    except KeyboardInterrupt:
        status = INTERRUPTED
    drop_unwritten()
    return status


def status_of_tool(name: str, main: typing.Callable[[list[str]], int]) -> int:
    closed = [named for named, stream in (('standard output', sys.stdout),
                                          ('standard error', sys.stderr)) if stream is None]
    occupy_closed_streams()
    if closed:
        return ended(name, f'{closed[0]} is closed', FAILED)
    try:
        status = exit_status(main)
        flush_all()
        return status
    except (NotThere, NotTaken, NoPlace, Missing, Refused) as refused:
        return ended(name, failure_text(refused, name), REFUSED)
    except BrokenPipeError:
        return FAILED
    except (OSError, Died, MemoryError) as failed:
        return ended(name, failure_text(failed, name), FAILED)


def exit_status(main: typing.Callable[[list[str]], int]) -> int:
    """The status of a tool, which may end while its command line is read."""
    try:
        return main(sys.argv[1:])
    except SystemExit as end:
        return end.code if isinstance(end.code, int) else 0


def occupy_closed_streams() -> None:
    """Makes sure that no other file gets the number of a standard stream that is closed."""
    while (number := os.open(os.devnull, os.O_WRONLY)) <= 2:
        pass
    os.close(number)
    for stream, number in (('stdin', 0), ('stdout', 1), ('stderr', 2)):
        if getattr(sys, stream) is None:
            setattr(sys, stream, open(number, 'w' if number else 'r', closefd=False))


def flush_all() -> None:
    """Raises `OSError`, with the name of the stream, if what was printed cannot be written."""
    for stream, named in ((sys.stdout, 'standard output'), (sys.stderr, 'standard error')):
        try:
            stream.flush()
        except BrokenPipeError:
            raise
        except OSError as failed:
            raise OSError(failed.errno, failed.strerror, named) from failed


def drop_unwritten() -> None:
    """Leaves nothing that Python would try to write at its end, and then report in its own way."""
    for stream in (sys.stdout, sys.stderr):
        try:
            stream.flush()
        except OSError:
            os.dup2(os.open(os.devnull, os.O_WRONLY), stream.fileno())


def end_by_signals() -> None:
    """These signals end the tool as a failure does, unless whoever started it ignores them."""
    for number in ENDING:
        if signal.getsignal(number) is not signal.SIG_IGN:
            signal.signal(number, interrupted)


def advice_on(refused: NotTaken, name: str) -> str:
    """Why a file is not taken, and what to type if it is compressed, by the tool's own name."""
    if not refused.packed_by:
        return str(refused)
    tool, unpack = as_called(f'tools/{name}'), f'{refused.packed_by} -dc'
    line = (f'{unpack} FILE | {tool} {READING[name]}' if name in READING
            else f'{tool} <({unpack} A) <({unpack} B)')
    return f'{refused}: decompress it first, as in `{line}`'


def interrupted(*_: object) -> None:
    ignore_signals()
    raise KeyboardInterrupt


def ignore_signals() -> None:
    """Those that come while the tool ends change nothing."""
    for number in ENDING:
        signal.signal(number, signal.SIG_IGN)


def failure_text(failed: Exception, name: str) -> str:
    """Returns what is said of a failure by a tool of this name."""
    if isinstance(failed, NotTaken):
        return advice_on(failed, name)
    if isinstance(failed, OSError):
        return error_text(failed)
    return 'out of memory' if isinstance(failed, MemoryError) else str(failed)


def error_text(failed: OSError) -> str:
    """What failed, with the name of the file if there is one."""
    words = failed.strerror or str(failed)
    return (f'{escaped(os.fsdecode(failed.filename))}: {words}'
            if isinstance(failed.filename, (str, bytes)) and failed.filename else words)


def ended(name: str, message: str, status: int) -> int:
    """Prints how a tool ends, and returns its status, or FAILED if that cannot be printed."""
    try:
        print(f'{called(name)}: {printable(message)}', file=sys.stderr, flush=True)
    except OSError:
        return FAILED
    return status


class Parser(argparse.ArgumentParser):
    """A parser of command lines that repeats no control characters, and fails if it cannot."""

    def error(self, message: str) -> typing.NoReturn:
        """Prints the usage as one line, which leaves the options to the help, and what is wrong. Of
        a word that is taken for an option, since it begins with a hyphen, that is all."""
        needed = WITHOUT_VALUE.fullmatch(message)
        option = needed[1].split('/')[-1] if needed else ''
        word = next((after for one, after in zip(sys.argv, sys.argv[1:]) if one == option), '')
        if word.startswith('-'):
            told = f'{message}, and {word} is none, since it begins with `-`'
            self.exit(REFUSED, f'{self.prog}: error: {printable(told)}\n')
        operands = OPTION.sub('', ' '.join(self.format_usage().split()))
        usage = operands.replace(self.prog, f'{self.prog} [OPTION ..]', 1)
        self.exit(REFUSED, f'{usage}\n{self.prog}: error: {printable(message)}\n')

    def format_help(self) -> str:
        """Returns the help, of which no line is wider than the terminal."""
        return '\n'.join(map(hanging, super().format_help().split('\n')))

    def _print_message(self, message: str, file: typing.IO[str] | None = None) -> None:
        (file or sys.stderr).write(message)


def hanging(line: str) -> str:
    """Returns a line, or if it is too wide several, each below the last column of the first."""
    width = shutil.get_terminal_size().columns - 2
    columns = [gap.end() for gap in re.finditer(' {2,}', line) if gap.end() < width // 2]
    return line if len(line) <= width + 1 else textwrap.fill(
        line, width, subsequent_indent=' ' * max(columns, default=0), break_long_words=False,
        break_on_hyphens=False)


def parser_of(text: str | None, name: str) -> argparse.ArgumentParser:
    """A parser of command lines, whose help is the beginning of the text of a module."""
    parser = Parser(prog=called(name), description=text and as_called(help_of(text, name)),
                    formatter_class=argparse.RawDescriptionHelpFormatter)
    parser.add_argument('--version', action='version', version=f'{called(name)} {VERSION}')
    return parser


def help_of(text: str, name: str) -> str:
    """Returns what a tool does, its lines, its status, and where its manual page is."""
    if STATUS_TEXT not in text:
        return text
    what, lines, *_ = text.strip('\n').split('\n\n')
    status = STATUS_TEXT + text.partition(STATUS_TEXT)[2].partition('\n\n')[0]
    usages = '\n'.join(map(fitted, re.sub(r'\n {5,}', ' ', lines).split('\n')))
    more = fitted(f'The manual page has more: {manual_of(name)}')
    return '\n\n'.join([fitted(what), usages, fitted(status), more])


def fitted(text: str) -> str:
    """Returns a text in lines that fit the terminal, as argparse has its own."""
    indent = '    ' if text.startswith('    ') else ''
    width = shutil.get_terminal_size().columns - 2
    return textwrap.fill(' '.join(text.split()), width, initial_indent=indent,
                         subsequent_indent=indent * 2, break_on_hyphens=False,
                         break_long_words=False)


def manual_of(name: str) -> str:
    """Returns where the manual page of a tool is. A Python package has none."""
    if not is_installed():
        return f'man -l {shlex.quote(str(PAGES / name))}.1'
    pages = Path(TOP.parent, 'man/man1').glob(f'{called(name)}.1*')
    return (f'man {called(name)}' if any(pages)
            else f'man/{name}.1 of the tools in a clone of nfs3canon')


def add_options(parser: argparse.ArgumentParser) -> None:
    parser.add_argument('--port', metavar='PORT,..', type=port_numbers, default=frozenset(),
                        help='takes the connections that have one of these ports')


def port_numbers(word: str) -> frozenset[int]:
    """The ports that a word names, as `2049,20048`."""
    ports = frozenset(int(port) for port in word.split(',') if port.isascii() and port.isdigit())
    if len(word.split(',')) != len(ports) or not all(0 < port < 1 << 16 for port in ports):
        raise argparse.ArgumentTypeError(f'no ports: {word} (as in 2049,20048)')
    return ports


def add_program(parser: argparse.ArgumentParser) -> None:
    parser.add_argument('--program', metavar='PROGRAM',
                        help='the nfs3canon to run, if it is not the one of this folder')


def add_judging(parser: argparse.ArgumentParser) -> None:
    """The options of a tool that judges: the program, how to take, and what counts as good."""
    add_program(parser)
    add_options(parser)
    parser.add_argument('--allow-losses', action='store_true',
                        help='takes `in part` and `left out` as the status 0')
    parser.add_argument('--allow-not-checked', action='store_true',
                        help='takes `not checked` as the status 0')


def add_recordings(parser: argparse.ArgumentParser, number: str = '+') -> None:
    """The operands of a tool that judges recordings one by one, and the options of all of these."""
    parser.add_argument('recordings', metavar='RECORDING|CAPTURE', nargs=number)
    add_colour(parser)
    add_judging(parser)


def allowed_of(chosen: argparse.Namespace) -> Allowed:
    return Allowed(chosen.allow_losses, chosen.allow_not_checked)


def position_text(word: str | None, file: str, what: str) -> str:
    """A position: an argument, or standard input. Raises `NoPlace` if that is the file as well."""
    if word is None and file == '-':
        raise NoPlace(f'POSITION has to be an argument if {what} is standard input')
    return word if word is not None else sys.stdin.buffer.read().decode(errors='replace')


def options_of(chosen: argparse.Namespace) -> Options:
    return Options(chosen.port)


def recording_lines(taken: Taken, has_taken: bool = True) -> list[str]:
    """What is said of a recording: of connections, taken or left out, and what is missing."""
    lines = [*taken.notes]
    for connection in taken.connections:
        sizes = f'{connection.client.size} and {connection.server.size} bytes'
        lines += [f'connection {connection.number}: {connection.ends}: '
                  f'client {connection.client_end} {connection.why}, {sizes}'] if has_taken else []
        lines += [f'connection {connection.number} {note}' for note in connection.notes]
    return (lines + [f'left out: {one.ends}: {one.reason}' for one in taken.left_out]
            + [f'{remark.word}: {remark.reason}' for remark in taken.remarks])
