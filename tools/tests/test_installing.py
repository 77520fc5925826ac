"""Tests of the Makefile: what is installed is run elsewhere."""
import contextlib
import os
import pathlib
import re
import shutil
import signal
import sys
import tarfile
import time
import tomllib
import unittest
from collections.abc import Callable

from examples.messages import NFS, call
from tests.shared.running import Answer, Runs, begin, ended, pipe_of, program_named
from ..nfs3tools.comparison.values.classes import CLASSES_BY_NAME
from .scripts import FIRST, SECOND, TOP, packed, stream, sums

PROGRAMS = ('nfs3canon', 'nfs3mask', 'nfs3streams')
TOOLS = ('from-pcap', 'where', 'verdicts', 'calls', 'procedures', 'meaning', 'compare', 'explain',
         'cut', 'report')
NULL, OK = str(TOP / 'examples/null.nfs3cap'), 'ok connections=1 calls=1 replies=1 handles=0'
VERSION = re.findall(r'^## (\S+)', (TOP / 'CHANGELOG.md').read_text(), re.MULTILINE)[0]


class Place(Runs):
    """A folder, and runs of commands there."""

    def command(self, *words: str) -> Answer:
        return ended(words, self.folder, limit=None).text()

    def make(self, target: str, *words: str, umask: str = '022') -> None:
        """Runs `make`, which leaves the clone as it is."""
        found = self.command('bash', '-c', f'umask {umask}; exec "$@"', 'bash', 'make', '-sC',
                             str(TOP), f'BUILD={self.path("build")}', target, *words)
        self.want(target, found[::2], (0, ''))

    def made_alike(self, target: str, name: str) -> pathlib.Path:
        """Makes an archive under two masks of permissions, which is the same, and returns it."""
        for umask in ('000', '077'):
            os.mkdir(self.path(umask))
            self.make(target, f'OUT={self.path(umask)}', umask=umask)
        one, other = (self.read(f'{umask}/{name}') for umask in ('000', '077'))
        self.want('made again', (one is None, one == other), (False, True))
        return pathlib.Path(self.path(f'000/{name}'))

    def installed(self) -> pathlib.Path:
        """Installs under a prefix in the folder, and returns it."""
        self.make('install', f'PREFIX={self.path("prefix")}')
        return pathlib.Path(self.path('prefix'))

    def answers(self, prefix: pathlib.Path, text: str, *words: str) -> None:
        """A command under a prefix succeeds, and its last lines are these."""
        status, out, _ = self.command(str(prefix / 'bin' / words[0]), *words[1:])
        self.want(' '.join(words), (status, out[-len(text) - 1:]), (0, text + '\n'))


def works(place: Place, prefix: pathlib.Path) -> None:
    """What is under a prefix is all that is needed to compare the examples."""
    place.answers(prefix, OK, 'nfs3canon', 'check', NULL)
    place.answers(prefix, '', 'nfs3mask', NULL, place.path('masked'))
    place.answers(prefix, f'same: 103 calls in 3 connections\nboth runs: {sums(3)}',
                  'nfs3-compare', '--html', place.path('page.html'), FIRST, SECOND)
    place.answers(prefix, sums(3), 'nfs3-verdicts', FIRST)
    files = ['nfs3canon/LICENSE-MIT', 'nfs3canon/LICENSE-APACHE',
             'nfs3canon/docs/schemas/compare.json']
    for name in PROGRAMS:
        text = place.command(program_named(name, place.program), '--help')[2]
        place.want('help of ' + name, place.command(str(prefix / 'bin' / name), '--help'),
                   (0, text, ''))
        files += ['bash-completion/completions/' + name, 'zsh/site-functions/_' + name,
                  f'fish/vendor_completions.d/{name}.fish']
    for name in (*PROGRAMS, *('nfs3-' + tool for tool in TOOLS)):
        place.answers(prefix, f'{name} {VERSION}', name, '--version')
        files.append(f'man/man1/{name}.1')
    place.want('what is missing',
               [path for path in files if not (prefix / 'share' / path).is_file()], [])


def signals_leave_nothing(place: Place) -> None:
    """A signal leaves no file of this run. An IN that is named like one stays."""
    half = (TOP / 'examples/two_connections.nfs3cap').read_bytes()[:-4]
    name, bin = '.nfs3canon-0123456789abcdef', place.installed() / 'bin'
    os.mkdir(place.path('out'))
    os.mkfifo(place.path(f'out/{name}'))
    fifo = os.open(place.path(f'out/{name}'), os.O_RDWR | os.O_NONBLOCK)
    commands = [[str(launcher / name), *words] for launcher in (TOP, bin)
                for name, *words in (['nfs3canon', 'canon'], ['nfs3mask'])]
    for command in commands:
        for number, how in ((signal.SIGINT, os.killpg), (signal.SIGHUP, os.killpg),
                            (signal.SIGTERM, os.kill), (signal.SIGINT, os.kill)):
            process = begin((*command, f'out/{name}', 'out/x'), place.folder, prepare=own_group)
            os.write(fifo, half)
            begun = waited(lambda: len(os.listdir(place.path('out'))) == 2)
            how(process.pid, number)
            status = process.wait(20)
            gone = waited(lambda: not ended(['pgrep', '-g', str(process.pid)], place.folder).out)
            place.want(f'{command[0]} {number.name}',
                       (begun, status, gone, os.listdir(place.path('out'))),
                       (True, -number, True, [name]))
            for pipe in (process.stdout, process.stderr):
                pipe_of(pipe).close()
            # (what the killed program had not read yet)
            with contextlib.suppress(BlockingIOError):
                while os.read(fifo, 1 << 16):
                    pass
    os.close(fifo)


def own_group() -> None:
    """A session as a terminal has it, with the signals that it has."""
    os.setsid()
    for number in (signal.SIGINT, signal.SIGHUP, signal.SIGTERM):
        signal.signal(number, signal.SIG_DFL)


def waited(holds: Callable[[], bool], seconds: float = 60) -> bool:
    """Waits until something holds. Returns whether it does in time."""
    end = time.monotonic() + seconds
    while not holds() and time.monotonic() < end:
        time.sleep(0.02)
    return holds()


def a_limit_on_the_size_of_files(place: Place) -> None:
    """If OUT is longer than files may be, it is not written, and nothing else is left."""
    prefix = place.installed()
    place.write('in', packed((stream(call(xid, NFS, 3, 0) for xid in range(900)), b'')))
    for launcher in (TOP, prefix / 'bin'):
        for name, *words in (('nfs3canon', 'canon', 'in', 'out'), ('nfs3mask', 'in', 'out')):
            found = place.command('bash', '-c', 'ulimit -f 1; exec "$@"', 'bash',
                                  str(launcher / name), *words)
            place.want(f'{launcher} {name}', (found[0], place.names()),
                       (3, ['build', 'in', 'prefix']))


PIP = '--no-build-isolation --no-index --no-warn-script-location --root-user-action=ignore'.split()
BUILDS = 'import setuptools, wheel, pip; assert int(setuptools.__version__.split(".")[0]) >= 61'


def by_pip(place: Place) -> None:
    """`pip install` works from the folder tools alone, and says what is missing."""
    pythons = [python for python in (sys.executable, '/usr/bin/python3')
               if place.command(python, '-W', 'ignore', '-c', BUILDS)[0] == 0]
    if not pythons:
        raise unittest.SkipTest('no Python that can build packages is there')
    copy = shutil.copytree(TOP / 'tools', place.path('tools'), ignore=shutil.ignore_patterns(
        '__pycache__', 'build', '*.egg-info', 'tests'))
    before = {*os.listdir(copy)}
    place.want('pip', place.command(pythons[0], '-m', 'pip', 'install', '-q', *PIP, '--target',
                                    place.path('made'), copy)[0], 0)
    left = [f'tools/{name}/' for name in {*os.listdir(copy)} - before]
    place.want('what is left',
               place.command('git', '-C', str(TOP), 'check-ignore', *left)[1].split(), left)
    made = ('env', f'PYTHONPATH={place.path("made")}', 'PATH=/nonexistent', pythons[0],
            place.path('made/bin/nfs3-verdicts'))
    place.want('version', place.command(*made, '--version'), (0, f'nfs3-verdicts {VERSION}\n', ''))
    place.want('look and keys of pages', [
        os.path.isfile(place.path(f'made/nfs3tools/pages/page.{name}')) for name in ('css', 'js')],
               [True] * 2)
    place.want('without programs', place.command(*made, FIRST)[::2], (
        2, 'nfs3-verdicts: nfs3canon is missing: it is neither beside the tools nor on the PATH; '
        '`make install` in a clone of nfs3canon installs it\n'))
    os.mkdir(place.path('alone'))
    shutil.copy(place.program, place.path('alone/nfs3canon'))
    alone = [word.replace('/nonexistent', place.path('alone')) for word in made[:-1]]
    place.want('without nfs3streams', place.command(
        *alone, place.path('made/bin/nfs3-where'), FIRST, 'frame 1')[::2], (
        2, 'nfs3-where: nfs3streams is missing: it is neither beside the tools nor on the PATH; '
        '`make install` in a clone of nfs3canon installs it\n'))
    place.want('help',
               'man/verdicts.1 of the tools in a clone' in place.command(*made, '--help')[1], True)


OTHER_NAMES = (r'tools/|(?<!nfs3-)\b(?:from_pcap|where|verdicts|calls|procedures|meaning|compare|'
               r'explain|cut|report)(?: - |\(1\))|\bfrom_pcap\b')


def named_as_installed(place: Place) -> None:
    """Help and manual pages have the installed names, and pyproject.toml has each."""
    prefix, modules = place.installed(), {'nfs3-' + tool: tool.replace('-', '_') for tool in TOOLS}
    scripts = tomllib.loads((TOP / 'tools/pyproject.toml').read_text())['project']['scripts']
    place.want('entry points', scripts,
               {name: f'nfs3tools.commands.{module}:command' for name, module in modules.items()})
    for name, module in modules.items():
        path, in_clone = str(prefix / 'bin' / name), str(TOP / 'tools' / module)
        page = (prefix / f'share/man/man1/{name}.1').read_text().replace('\\-', '-')
        (status, out, _), (_, plain, _) = (place.command(one, '--help') for one in (path, in_clone))
        # (a page with a table begins with a line for its preprocessor)
        place.want(name, (status, out.split()[:2], plain.split()[1],
                          place.command(path, '--none')[2].splitlines()[-1].split(':')[0],
                          re.findall(r'^\.SH NAME\n(\S+) - |^\.TH (\S+)', page, re.M)),
                   (0, ['usage:', name], module, name, [('', name.upper()), (name, '')]))
        own = re.sub(r'^\.\w+ |\.(?:EX|EE)$', '', page, flags=re.M).replace(' (1)', '(1)')
        place.want(f'{name}: other names', re.findall(
            OTHER_NAMES, out + own.replace('tools/' + module, '', 1)), [])
        said = [f'.BR tools/{module} ;' in page, f'.BR {name} .' in page,
                f'man {name}' in ' '.join(out.split()),
                f'man -l {TOP}/tools/man/{module}.1' in ' '.join(plain.split()),
                plain.partition('\noptions:\n')[0].count('\n') <= 30, *(
                    name in example for example in re.findall(r'^\.EX\n(.*?)^\.EE', page,
                                                              re.M | re.S))]
        place.want(f'{name}: said', said, [True] * len(said))
        place.want(f'version of {module}', place.command(
            'env', f'PYTHONPATH={TOP / "tools"}', sys.executable, '-m',
            f'nfs3tools.commands.{module}', '--version'), (0, f'{module} {VERSION}\n', ''))
    page = (prefix / 'share/man/man1/nfs3canon.1').read_text()
    place.want('nfs3canon.1', ('tools/' in page, 'nfs3\\-from\\-pcap before.pcap' in page),
               (False, True))


# What is offered after these words: an option among others, or just these words. Shells offer files
# where this is nothing.
OFFERED: dict[str, str | list[str]] = {
    'nfs3canon --': '--version', 'nfs3mask --': '--version', 'nfs3-from-pcap --': '--port',
    'nfs3-where --': '--port', 'nfs3-verdicts --': '--junit', 'nfs3-calls --': '--slow',
    'nfs3-procedures --': '--beside', 'nfs3-compare --': '--brief', 'nfs3-explain --': '--port',
    'nfs3-cut --': '--origins', 'nfs3-compare --mask ti': ['times'],
    'nfs3-compare --mask times,cookie': ['times,cookies', 'times,cookieverfs'],
    'nfs3-compare --mask ': ['none', *CLASSES_BY_NAME], 'nfs3-compare --order ': ['any', 'strict'],
    'nfs3-calls --sort ': ['latency', 'time'], 'nfs3-calls --sl': ['--slow'], 'nfs3-compare ': [],
    'nfs3-where ': []}
# Of each shell the file of a program's completions, and a command that prints what is offered. Its
# words are that file, its folder, and the words of the line.
SHELLS = {
    'bash': ('bash-completion/completions/%s', ['--norc', '-c', r'''
. "$1"; [[ $(complete -p "$3") =~ ' -F '([^ ]+) ]]
COMP_WORDS=("${@:3}"); COMP_CWORD=$(($# - 3)); compopt() { :; }
"${BASH_REMATCH[1]}" "$3" "${COMP_WORDS[COMP_CWORD]}" "${COMP_WORDS[COMP_CWORD - 1]}"
printf '%s\n' "${COMPREPLY[@]}"''', 'bash']),
    'zsh': ('zsh/site-functions/_%s', ['-f', '-c', '''
fpath=("$2" $fpath); autoload -Uz compinit; compinit -u -D
service=$3; words=("$3" --); CURRENT=2
_arguments() { print -l -- $@ }; _describe() { print -l -- ${(P)2} }
autoload -Uz $_comps[$3]; $_comps[$3]''', 'zsh']),
    'fish': ('fish/vendor_completions.d/%s.fish', ['-c', 'complete -C "$argv[3..-1]"'])}


def completions_load(place: Place) -> None:
    """Each shell that is there finds each completion, and offers what it has."""
    share = place.installed() / 'share'
    own = ('env', f'PATH={share.parent / "bin"}:{os.environ["PATH"]}', f'XDG_DATA_DIRS={share}',
           f'HOME={place.folder}')
    for shell, (file, command) in SHELLS.items():
        for line, offer in OFFERED.items() if shutil.which(shell) else ():
            path = share / (file % line.split()[0])
            status, out, _ = place.command(*own, shell, *command, str(path), str(path.parent),
                                           *line.split(' '))
            rows = [row.split('\t')[0] for row in out.splitlines() if row]
            options = re.findall(r'(?<![\w-])--[a-z][a-z-]*', out)
            if isinstance(offer, str):
                place.want(f'{shell}: {line}', (status, offer in options or out), (0, True))
            elif shell == 'bash' or shell == 'fish' and offer:
                place.want(f'{shell}: {line}', (status, sorted(rows)), (0, sorted(offer)))
        for name in PROGRAMS if shutil.which(shell) else ():
            place.want(f'syntax: {shell}', place.command(
                *own, shell, '-n', str(share / (file % name))), (0, '', ''))


def under_a_prefix(place: Place) -> None:
    """Twice, since an older version is replaced. The launchers of a clone have the version, too,
    and installed ones say which tool reads a recording. What is removed leaves nothing."""
    place.installed()
    prefix = place.installed()
    works(place, prefix)
    place.write('a b.pcap', b'\x0a\x0d\x0d\x0a' + bytes(20))
    for name, words, advice in (
            ('nfs3canon', ['check', 'a b.pcap'], "`nfs3-verdicts 'a b.pcap'` reads it"),
            ('nfs3mask', ['a b.pcap', 'out'],
             "`nfs3-from-pcap 'a b.pcap' CAPTURE` makes a capture of it")):
        place.want(f'advice of {name}', place.command(str(prefix / 'bin' / name), *words), (
            2, '', f"file 0: BadMagic\n{name}: 'a b.pcap' is a recording: {advice}\n"))
        place.want('version', place.command(str(TOP / name), '--version'),
                   (0, f'{name} {VERSION}\n', ''))
    place.make('uninstall', f'PREFIX={prefix}')
    place.want('what is left', os.listdir(prefix), [])


def as_a_release(place: Place) -> None:
    """The tar file has the layout of a prefix, a right checksum, and the same bytes each time."""
    name = f'nfs3canon-{VERSION}-linux-x86_64'
    archive = place.made_alike('dist', f'{name}.tar.xz')
    place.want('checksum', place.command('env', '-C', str(archive.parent), 'sha256sum', '-c',
                                         f'{archive.name}.sha256')[0], 0)
    with tarfile.open(archive) as tar:
        members = tar.getmembers()
        tar.extractall(place.folder)
    place.want('owners', {(one.uid, one.gid, one.mtime) for one in members}, {(0, 0, 0)})
    place.want('permissions', {(one.isdir(), one.mode) for one in members if not one.issym()},
               {(True, 0o755), (False, 0o755), (False, 0o644)})
    works(place, pathlib.Path(place.folder, name))


@unittest.skipUnless(all(map(shutil.which, ('dpkg', 'dpkg-deb', 'ldconfig'))),  # (dpkg wants that)
                     'dpkg or ldconfig is not there')
def as_a_package(place: Place) -> None:
    """The package for Debian is made again alike, and its tools run below a root of its own."""
    package = str(place.made_alike('deb', f'nfs3canon_{VERSION}_amd64.deb'))
    fields = dict(line.split(': ', 1) for line in place.command('dpkg-deb', '-f', package)[
        1].splitlines() if line[0] != ' ')
    wanted = {'Package': 'nfs3canon', 'Version': VERSION, 'Architecture': 'amd64',
              'Depends': 'python3 (>= 3.9), libc6'}
    place.want('control', {key: fields[key] for key in wanted}, wanted)
    listed = [line.split()[:2] for line in place.command('dpkg-deb', '-c', package)[1].splitlines()]
    place.want('owners', {owner for _, owner in listed}, {'root/root'})
    place.want('permissions', {mode for mode, _ in listed},
               {'drwxr-xr-x', '-rwxr-xr-x', '-rw-r--r--', 'lrwxrwxrwx'})
    root = pathlib.Path(place.folder, 'root')
    for folder in ('info', 'updates'):
        (root / 'var/lib/dpkg' / folder).mkdir(parents=True)
    (root / 'var/lib/dpkg/status').touch()
    # (the root has no Python of its own)
    place.want('dpkg', place.command('dpkg', f'--root={root}', '--force-not-root',
                                     '--force-depends', f'--log={root}/log', '-i', package)[0], 0)
    place.want('what is missing', [path for path in (
        'man/man1/nfs3-compare.1.gz', 'man/man1/nfs3canon.1.gz',
        'zsh/vendor-completions/_nfs3canon', 'bash-completion/completions/nfs3-verdicts',
        'doc/nfs3canon/copyright') if not (root / 'usr/share' / path).is_file()], [])
    place.answers(root / 'usr', sums(3), 'nfs3-verdicts', FIRST)
    place.answers(root / 'usr', OK, 'nfs3canon', 'check', NULL)
