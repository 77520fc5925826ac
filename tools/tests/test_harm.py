"""Tests of what tools/ could harm: files of others, outputs, answers of dead programs."""
import errno
import gzip
import itertools
import json
import lzma
import os
import re
import signal
import stat
import struct
import sys
import unittest

from examples.messages import NFS, call, capture, fattr, fh, ok, success
from examples.packets import Talk, pcap
from tests.shared.outputs import AS_IT_WAS, NULL_DEVICE
from tests.shared.running import Answer, ended, program_named

from .scripts import (
    ALL, CHANGED, EXAMPLES, FIRST, TOP, WITHOUT_PROGRAM, WITH_TOOLS, Tools, packed, whole)

RECORDING, CAPTURE = pcap(whole()), packed(ALL)
NULL = str(EXAMPLES / 'null.nfs3cap')
IS_ROOT, NOBODY = os.geteuid() == 0, 65534
# Runs a tool in this process, in which a call of the system is not what it was.
PATCHED = '''
import os, signal, sys
from nfs3tools.commands import compare, from_pcap, verdicts
from nfs3tools.reporting import messages
%s
tools = {'compare': compare, 'from_pcap': from_pcap, 'verdicts': verdicts}
sys.exit(messages.run(sys.argv[1], tools[sys.argv.pop(1)].main))
'''


def patched(tools: Tools, patch: str, *words: str, umask: int = 0o022) -> Answer:
    command = [sys.executable, '-c', PATCHED % patch, *words]
    return ended(command, tools.folder, prepare=lambda: os.umask(umask),
                 env=WITH_TOOLS).text('replace')


def through_bash(tools: Tools, before: str, *command: str) -> Answer:
    """What a command ends with that bash begins, which says `"$@"`."""
    return ended(['bash', '-c', before, 'bash', *command], tools.folder).text('replace')


def tool(name: str) -> str:
    return str(TOP / 'tools' / name)


def parts(tools: Tools) -> list[str]:
    """What is left of files that were not whole."""
    return [name for name in tools.names() if name.startswith('.nfs3canon')]


def one_line(tools: Tools, what: str, answer: Answer, status: int, *texts: str) -> None:
    """It ends with the status and one line on standard error, which has the texts."""
    lines = answer[2].splitlines()
    tools.want(what, (answer[0], len(lines), [text for text in texts if text not in answer[2]]),
               (status, 1, []))


def writers(tools: Tools, file: str, *inputs: str) -> list[list[str]]:
    """The command lines that write a file, of tools with these inputs."""
    compared = [*inputs, *inputs][:2]
    forms = [('verdicts', inputs, ('--junit', '--json', '--html')),
             ('compare', compared, ('--html', '--json', '--junit')),
             ('procedures', inputs, ('--json', '--csv', '--html'))]
    return [*([name, '--program', tools.program, form, file, *some]
              for name, some, own in forms for form in own), ['from_pcap', inputs[-1], file]]


def outputs_that_are_inputs(tools: Tools) -> None:
    """Under any name, be it the first input or the last, and whatever is in it."""
    for content, name in ((RECORDING, 'a.pcap'), (b'no recording', 'b.pcap')):
        tools.write(name, content)
        os.symlink(name, tools.path(f'link of {name}'))
        os.link(tools.path(name), tools.path(f'hard {name}'))
        several = [writers(tools, name, FIRST, name), *(writers(tools, file, name) for file in (
            name, f'./{name}', f'link of {name}', f'hard {name}', f'/proc/self/cwd/{name}'))]
        for words in itertools.chain.from_iterable(several):
            one_line(tools, ' '.join(words[-3:]), tools.tool(*words), 2, 'is an input')
            tools.want('what it has', tools.read(name), content)
        with open(tools.path(name), 'rb') as source:
            one_line(tools, 'standard input', tools.tool(
                'verdicts', '--json', f'hard {name}', '-', stdin=source), 2, 'is an input')


def outputs_that_are_recordings(tools: Tools) -> None:
    """A recording or a capture is not replaced, but captures by from_pcap."""
    big = pcap(whole())[:4][::-1] + RECORDING[4:]
    zstd = b'\x28\xb5\x2f\xfd' + RECORDING
    files = {'pcap': RECORDING, 'big': big, 'nano': b'\x4d\x3c\xb2\xa1' + RECORDING[4:],
             'pcapng': b'\x0a\x0d\x0d\x0a' + bytes(24),
             'gzip': gzip.compress(RECORDING), 'xz': lzma.compress(RECORDING), 'zstd': zstd,
             'capture': CAPTURE, 'mixed': b'NFS3CAP2' + bytes(4)}
    for name, content in files.items():
        tools.write(name, content)
        for words in writers(tools, name, FIRST):
            if words[0] != 'from_pcap' or content[:4] != b'NFS3':
                one_line(tools, f'{words[0]} to {name}', tools.tool(*words), 2,
                         f'{words[0]}: {name} is a')
                tools.want('what it has', tools.read(name) == content, True)
    tools.want('an older capture', tools.tool('from_pcap', FIRST, 'mixed')[0], 0)
    for content in (b'', b'<?xml', b'\xd4\xc3'):
        for words in writers(tools, 'page', FIRST):
            tools.write('page', content)
            tools.want(f'{words[0]} to another file',
                       (tools.tool(*words)[0], tools.read('page') != content), (0, True))


def full_disks(tools: Tools) -> None:
    """What does not fit on the disk leaves the old file, and a full device is reported."""
    for name, mode in (('a', 0), ('b', 1)):
        asked = [call(xid, NFS, 3, 1, fh(b'f')) for xid in range(60)]
        tools.write(name,
                    capture((asked, [success(xid, ok(fattr(1, 1, size=60 * mode + xid)))
                                     for xid in range(60)])))
    tools.write('a.pcap', RECORDING)
    several, wide = writers(tools, 'page', *['a.pcap'] * 40), writers(tools, 'page', 'a', 'b')
    # (an index takes less than 4 KB, and 40 verdicts more; 60 replies 8 KB, and 60 findings more)
    for kilobytes, words in ((4, several[0]), (4, several[1]), (12, wide[2]), (12, wide[3])):
        tools.write('page', AS_IT_WAS)
        answer = through_bash(tools, f'ulimit -f {kilobytes}; exec "$@"', tool(words[0]),
                              *words[1:])
        one_line(tools, ' '.join(words[:4]), answer, 3, 'page: File too large')
        tools.want('the old one', (tools.read('page'), parts(tools)), (AS_IT_WAS, []))
    for words in writers(tools, '/dev/full', FIRST):
        status, _, error = tools.tool(*words)
        tools.want('a full device', (status, error.splitlines()[-1]),
                   (3, f'{words[0]}: /dev/full: No space left on device'))


# The look number N of those at a name fails.
LOOK = '''
left = [%d]
def failing(real):
    def look(path, *rest, **named):
        if str(path).endswith(%r):
            left[0] -= 1
            if not left[0]:
                raise OSError(%d, 'it fails', path)
        return real(path, *rest, **named)
    return look
os.stat, os.lstat = failing(os.stat), failing(os.lstat)
'''


def looks_that_fail(tools: Tools) -> None:
    """Whichever look at an output fails, a file is whole or as it was."""
    tools.write('a.pcap', RECORDING)
    if IS_ROOT:
        os.mknod(tools.path('node'), 0o600 | stat.S_IFCHR, NULL_DEVICE)
    else:
        os.symlink('/dev/null', tools.path('node'))
    for code in (errno.ENOENT, errno.EIO):
        for number in range(1, 7):
            what = f'look {number} fails with {errno.errorcode[code]}'
            answer = patched(tools, LOOK % (number, 'node', code), 'from_pcap', 'a.pcap', 'node')
            tools.want(what, (answer[0] in (0, 3), 'Traceback' in answer[2]), (True, False))
            tools.want(what + ': the device', stat.S_ISCHR(os.stat(tools.path('node')).st_mode),
                       True)
            tools.write('out', AS_IT_WAS)
            answer = patched(tools, LOOK % (number, 'out', code), 'from_pcap', 'a.pcap', 'out')
            tools.want(what + ': the file', (answer[0], tools.read('out')),
                       (0, CAPTURE) if answer[0] == 0 else (3, AS_IT_WAS))
    tools.want('what is left', parts(tools), [])


def links_to_nothing(tools: Tools) -> None:
    """A link to nothing is left alone."""
    os.symlink('absent', tools.path('link'))
    for words in writers(tools, 'link', FIRST):
        tools.want('a link to nothing', (tools.tool(*words)[0], tools.exists('absent')), (3, False))
    tools.want('what is there', tools.names(), ['link'])


def permissions(tools: Tools) -> None:
    """A file keeps its permissions, a new one has those of the umask."""
    tools.write('a.pcap', RECORDING)
    for umask, mode in ((0o022, 0o644), (0o027, 0o640), (0o077, 0o600)):
        answer = patched(tools, '', 'from_pcap', 'a.pcap', 'new', umask=umask)
        tools.want('a new file', (answer[0], os.stat(tools.path('new')).st_mode & 0o777), (0, mode))
        os.remove(tools.path('new'))
    for mode, status, content in ((0o600, 0, CAPTURE), (0o664, 0, CAPTURE), (0o646, 0, CAPTURE),
                                  (0o444, 3, AS_IT_WAS)):
        tools.write('out', AS_IT_WAS)
        os.chmod(tools.path('out'), mode)
        answer = patched(tools, '', 'from_pcap', 'a.pcap', 'out')
        tools.want(f'{mode:o}', (answer[0], f'{os.stat(tools.path("out")).st_mode & 0o7777:o}',
                                 tools.read('out')), (status, f'{mode:o}', content))
        os.remove(tools.path('out'))
    tools.want('what is left', parts(tools), [])


# An access control list as Linux keeps it (linux/posix_acl_xattr.h): tags, permissions and numbers.
OWN, USER, GROUP, MASK, OTHER, NO_NUMBER = 0x01, 0x02, 0x04, 0x10, 0x20, 0xffffffff
LIST = struct.pack('<I', 2) + b''.join(struct.pack('<HHI', *row) for row in (
    (OWN, 6, NO_NUMBER), (USER, 6, NOBODY), (GROUP, 4, NO_NUMBER), (MASK, 6, NO_NUMBER),
    (OTHER, 4, NO_NUMBER)))


def access_control_lists(tools: Tools) -> None:
    """A file in place of one with a list has none, and its owner alone has rights to it."""
    tools.write('a.pcap', RECORDING)
    tools.write('out', AS_IT_WAS)
    try:
        os.setxattr(tools.path('out'), 'system.posix_acl_access', LIST)
    except OSError:
        raise unittest.SkipTest('the file system has no access control lists') from None
    status, _, _ = tools.tool('from_pcap', 'a.pcap', 'out')
    tools.want('the new file', (status, os.listxattr(tools.path('out')),
                                os.stat(tools.path('out')).st_mode & 0o7777), (0, [], 0o600))


# A signal comes after a call of the system, which are counted.
SIGNAL = '''
left = [%d]
def signalling(real):
    def call(*words, **named):
        result = real(*words, **named)
        left[0] -= 1
        if not left[0]:
            os.kill(os.getpid(), %d)
        return result
    return call
for name in ('open', 'fsync', 'fchmod', 'replace', 'unlink', 'fstat', 'mkdir'):
    setattr(os, name, signalling(getattr(os, name)))
'''


def signals(tools: Tools) -> None:
    """Whenever a signal comes, nothing is left beside the output or among temporary files."""
    tools.write('a.pcap', RECORDING)
    os.mkdir(tools.path('tmp'))
    calm = ('signal.signal(signal.SIGINT, signal.default_int_handler); os.environ["TMPDIR"] = '
            '"tmp"\n')
    for number, step in ((signal.SIGTERM, 1), (signal.SIGINT, 2), (signal.SIGHUP, 2)):
        for at in range(1, 18, step):
            words = ['compare', '--program', tools.program, '--html', 'out', 'a.pcap',
                     NULL] if at % 3 == 0 else ['from_pcap', 'a.pcap', 'out']
            tools.write('out', AS_IT_WAS)
            status, _, error = patched(tools, calm + SIGNAL % (at, number), *words)
            what, out = f'{number.name} after call {at} of {words[0]}', tools.read('out') or b''
            tools.want(what, (status in (0, 1, 130), 'Traceback' in error), (True, False))
            tools.want(what + ': what is left', (parts(tools), os.listdir(tools.path('tmp'))),
                       ([], []))
            tools.want(what + ': OUT', out in (AS_IT_WAS, CAPTURE) or out.endswith(b'</html>\n'),
                       True)


DYING = '''#!/bin/sh
[ "%s" != "${0##*/}" ] && [ "%s" != "$1" ] && exec %s "$@"
%s
'''
KILLED, ABSENT, FAILED = 'kill -9 $$', 'exit 127', 'echo "out of memory" >&2; exit 3'


def dying(tools: Tools, command: str, how: str) -> str:
    """Makes programs one of whose commands ends so. Returns the first."""
    for name in ('nfs3canon', 'nfs3mask'):
        tools.write(name,
                    (DYING % (command, command, program_named(name, tools.program), how)).encode())
        os.chmod(tools.path(name), 0o755)
    return tools.path('nfs3canon')


def programs_that_die(tools: Tools) -> None:
    """A program that ends otherwise than it says has given no answer."""
    ways = ((KILLED, 'was killed by signal 9'), (ABSENT, 'ended with status 127'),
            (FAILED, 'ended with status 3: out of memory'), ('exit 4', 'ended with status 4'))
    some = f'{tools.program} show "$2" | head -n 30; '
    rows = [(command, *way) for command in ('check', 'same', 'show', 'nfs3mask') for way in ways]
    rows += [(command, f'exit {status}', f'ended with status {status}') for command, status in (
        ('same', 1), ('same', 0), ('check', 1), ('check', 0), ('show', 1), ('nfs3mask', 2))]
    rows += [('show', some + KILLED, 'was killed by signal 9'),
             ('show', some + 'printf "2 client 9 xi"; ' + FAILED, 'ended with status 3'),
             ('same', 'echo differ at connection 1; ' + KILLED, 'was killed by signal 9')]
    for command, how, told in rows:
        program = dying(tools, command, how)
        name = command if command == 'nfs3mask' else 'nfs3canon ' + command
        of_one = [('procedures', FIRST), ('calls', FIRST)] * (command in ('check', 'show'))
        of_verdicts = [('verdicts', FIRST), ('verdicts', FIRST, CHANGED)] * (command == 'check')
        for tool_name, *inputs in (('compare', FIRST, CHANGED), *of_verdicts, *of_one):
            begin = '' if tool_name == 'verdicts' else f'{tool_name}: '
            begin += '' if tool_name == 'compare' else f'{FIRST}: '
            one_line(tools, f'{tool_name}, {command}: {how}',
                     tools.tool(tool_name, '--program', program, *inputs), 3,
                     f'{begin}{name} {told}')
    program = dying(tools, 'show', KILLED)
    tools.want('one that is not asked', tools.tool('compare', '--program', program, FIRST,
                                                   FIRST)[0], 0)
    tools.write('page', AS_IT_WAS)
    tools.want('the page', (tools.tool('compare', '--program', program, '--html', 'page', FIRST,
                                       CHANGED)[0], tools.read('page')), (3, AS_IT_WAS))
    tools.write('nfs3canon', b'\0no program')
    for name in ('compare', 'verdicts'):
        one_line(tools, 'no program', tools.tool(name, '--program', program, FIRST, CHANGED), 3,
                 'cannot be started')


# --- Standard streams, and names ---

# Command lines, and whether something goes to standard output, and to standard error.
PLACE = 'connection 1 client record 1 byte 0'
SAYING: list[tuple[list[str], bool, bool]] = [
    (['compare', FIRST, CHANGED], True, False),
    (['compare', str(EXAMPLES / 'bad_bool.pcap'), FIRST], False, True),
    (['verdicts', 'bare.pcap'], True, True), (['procedures', 'bare.pcap'], True, True),
    (['calls', 'bare.pcap'], True, True), (['calls', '--json', FIRST], True, False),
    (['procedures', '--beside', FIRST, CHANGED], True, False),
    (['cut', FIRST, PLACE, 'out'], True, False), (['where', FIRST, PLACE], True, False),
    (['where', FIRST, 'nothing'], False, True), (['from_pcap', FIRST, 'out'], False, True),
    (['explain', NULL, PLACE], True, False), (['compare', '--help'], True, False)]


def closed_outputs(tools: Tools) -> None:
    """A standard stream that is closed or full is a failure of one line at most."""
    bare = Talk(701)
    tools.write('bare.pcap', pcap([*whole(), *bare.opened(), *bare.closed()]))
    for (name, *words), prints, tells in SAYING:
        own = ['--program', tools.program] * (name not in WITHOUT_PROGRAM and words[0][:2] != '--')
        for streams in ('>&-', '2>&-', *['>/dev/full'] * prints, *['2>/dev/full'] * tells):
            status, _, error = through_bash(tools, f'exec "$@" {streams}', tool(name), *own, *words)
            lines = error.splitlines()
            tools.want(f'{name} {words} {streams}', (
                status, [line for line in lines[-1:] if not line.startswith(f'{name}: ')]), (3, []))
            # (of a connection without calls a line is told besides)
            most = 1 + (words == ['bare.pcap'] and streams == '>/dev/full')
            tools.want('lines', len(lines) <= most, True)
    answer = through_bash(tools, 'exec "$@" <&-', tool('from_pcap'), '-', 'out')
    one_line(tools, 'standard input that is closed', answer, 3, 'from_pcap: ')


def outputs_before_the_work(tools: Tools) -> None:
    """Outputs are tried first, none is taken twice, and `-` has it alone."""
    tools.write('text', b'text')
    tools.write('none', b'no recording')
    os.symlink('text', tools.path('link'))
    os.mkdir(tools.path('folder'))
    for name, one, other in (('verdicts', '--json', '--junit'), ('procedures', '--json', '--csv'),
                             ('compare', '--json', '--html'), ('compare', '--junit', '--json'),
                             ('compare', '--html', '--junit')):
        inputs = ['none'] * (2 if name == 'compare' else 1)
        for words, status, told in (
                ([one, 'absent/x'], 3, 'absent/x: '), ([one, 'folder'], 3, 'folder: '),
                ([one, 'text/x'], 3, 'text/x: '), ([one, 'x', other, './x'], 2, 'are one file'),
                ([one, 'text', other, 'link'], 2, 'are one file'),
                ([one, '-', other, '-'], 2, 'are one file'),
                ([one, '-', other, '/dev/stdout'], 2, 'are one file')):
            answer = tools.tool(name, *words, *inputs)
            tools.want(f'{name} {words}', (answer[0], answer[1], told in answer[2],
                                           'neither' in answer[2]), (status, '', True, False))
        runs = [FIRST, CHANGED] if name == 'compare' else [FIRST]
        status, out, error = tools.tool(name, one, '-', *runs)
        tools.want(f'{name} {one} -', (out[:1] in '{<', 'judged' in error), (True, True))
        tools.want('devices',
                   tools.tool(name, one, '/dev/null', other, '/dev/null', *runs)[0], status)
    done = ended([tool('from_pcap'), FIRST, '-'], tools.folder)
    tools.want('a capture on standard output', (done.status, done.out[:8]), (0, b'NFS3CAP1'))
    answer = tools.tool('from_pcap', 'none', 'absent/x')
    tools.want('from_pcap', (answer[0], 'absent/x: ' in answer[2]), (3, True))
    os.chmod(tools.path('text'), 0o444)
    tools.want('not to be written', tools.tool('compare', '--json', 'text', FIRST, FIRST)[0], 3)
    tools.want('what is there',
               (tools.names(), tools.read('text')), (['folder', 'link', 'none', 'text'], b'text'))


HOSTILE = 'a\x1b[31m\n\\ä\udcff'
SHOWN = 'a\\x1b[31m\\x0a\\x5cä\\xff'


def names(tools: Tools) -> None:
    """Names of files are printed as the programs print them, wherever that is."""
    recording, capture, program = HOSTILE + '.pcap', HOSTILE + '.nfs3cap', [
        '--program', tools.program]
    for name, content in ((recording, pcap([*whole(), Talk(701).sent(0, bytes(8))])),
                          (capture, CAPTURE), (HOSTILE + '.text', b'no recording')):
        with open(os.fsencode(tools.path(name)), 'wb') as file:
            file.write(content)

    def printed(name: str, *words: str) -> str:
        done = ended([os.fsencode(word) for word in (tool(name), *words)], tools.folder)
        return (done.out + done.error).decode(errors='replace')
    for words in (['from_pcap', capture, 'out'], ['from_pcap', HOSTILE, 'out'],
                  ['from_pcap', recording, HOSTILE + '/out'], ['from_pcap', recording, recording],
                  ['where', capture, 'file 8'], ['where', HOSTILE, 'file 8'],
                  ['where', recording, HOSTILE], ['where', recording, 'file 8', HOSTILE],
                  ['compare', *program, recording, capture],
                  ['compare', *program, HOSTILE, capture],
                  ['compare', *program, '--html', recording, capture, capture],
                  ['compare', '--program', HOSTILE, capture, capture],
                  ['verdicts', *program, recording, HOSTILE],
                  ['verdicts', *program, '--junit', recording, capture],
                  ['explain', HOSTILE, 'connection 1 client record 1']):
        text = printed(*words)
        tools.want(f'{words[0]} {words[-1]!r}', (
            re.findall(r'[\x00-\x09\x0b-\x1f]|Traceback', text),
            SHOWN in text or SHOWN.replace('\\x5c', '\\') in text), ([], True))
    printed('compare', *program, '--html', 'page', '--json', 'json', recording, capture)
    page, content = ((tools.read(name) or b'').decode() for name in ('page', 'json'))
    tools.want('the page', (page.count(SHOWN), '\x1b' in page), (4, False))
    tools.want('JSON', (re.findall(r'\\ud[89a-f]', content),
                        [run['name'] for run in json.loads(content)['runs']]),
               ([], [SHOWN + '.pcap', SHOWN + '.nfs3cap']))


MANY = 'RECORDING|CAPTURE [RECORDING|CAPTURE ...]'
OPERANDS = {'calls': MANY, 'compare': 'A B', 'cut': 'RECORDING|CAPTURE POSITION OUT',
            'explain': 'FILE [POSITION]', 'from_pcap': 'RECORDING OUT',
            'procedures': MANY, 'verdicts': MANY, 'where': 'RECORDING [POSITION]'}


def refused_lines(tools: Tools) -> None:
    """A refused command line gets two lines: how the tool is used, and what is wrong."""
    for name, operands in OPERANDS.items():
        status, out, error = tools.tool(name, '--no-such-option')
        usage, *told = error.splitlines()
        tools.want(name, (status, out, usage), (2, '', f'usage: {name} [OPTION ..] {operands}'))
        tools.want(f'{name} says what is wrong',
                   [line.startswith(f'{name}: error: ') for line in told], [True])
