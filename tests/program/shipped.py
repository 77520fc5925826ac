#!/usr/bin/env python3
"""Tests of the launchers and of dist/, the programs that come with the repository.

    python3 tests/program/shipped.py [PROGRAM] [--only TEXT] [-v]

PROGRAM plays no part. Each test has a copy of the repository as a clone has it, with nothing built,
and no `rt` on the PATH. The last line is 'N passed, M failed', and the status is 1 if any failed.
"""
import hashlib
import os
import pathlib
import re
import shutil
import sys
import tarfile
import tempfile
import time
import unittest
from collections.abc import Callable

sys.path.insert(0, str(pathlib.Path(__file__).resolve().parents[2]))
from tests.shared.running import Answer, Runs, ended, try_all, words_of

TOP = pathlib.Path(__file__).resolve().parents[2]
# what the examples' page says of this capture
NULL = 'ok connections=1 calls=1 replies=1 handles=0\n'
PROGRAMS = ('nfs3canon', 'nfs3mask', 'nfs3streams')


class Clone(Runs):
    """A copy of the repository in which nothing is built, and runs there."""

    def command(self, *words: str) -> Answer:
        """Returns what a command ended with. Commands of the toolchain are not found."""
        places = [place for place in os.environ['PATH'].split(':')
                  if not pathlib.Path(place, 'rt').exists()]
        return ended(words, self.folder,
                     env={**os.environ, 'PATH': ':'.join([*places, self.path('.commands')])}).text(
                         'replace')

    def change(self, name: str) -> None:
        """Changes a file a little."""
        self.write(name, (self.read(name) or b'') + b'\n')


def checksums() -> dict[str, str]:
    """Returns what dist/ says of itself."""
    return dict(line.split(' ', 1) for line in (TOP / 'dist/MADE-OF').read_text().splitlines())


def the_first_answer(clone: Clone) -> None:
    """It comes at once, and the program that gives it is the one whose checksum is there."""
    begun = time.monotonic()
    clone.want('check', clone.command('./nfs3canon', 'check', 'examples/null.nfs3cap'),
               (0, NULL, ''))
    clone.want('seconds', time.monotonic() - begun < 2, True)
    clone.want('mask', clone.command('./nfs3mask', 'examples/null.nfs3cap', 'masked')[0], 0)
    clone.want('streams', clone.command('./nfs3streams', 'examples/bad_bool.pcap', 'streams')[0], 0)
    for name in PROGRAMS:
        found = clone.read(f'crates/{name}/out/{name}') or b''
        clone.want(name, hashlib.sha256(found).hexdigest(), checksums()[name])


def tools_at_once(clone: Clone) -> None:
    """The tools ask the program that comes with the repository."""
    status, out, _ = clone.command('tools/verdicts', 'examples/bad_bool.pcap')
    clone.want('verdicts', (status, 'server record 1 byte 28: BadBool, frame 5' in out), (1, True))


def help_through_the_launchers(clone: Clone) -> None:
    """Help is the program's own text, on standard output with the status 0; a wrong line keeps its
    status and standard error. After `--` a word is the name of a file."""
    for words in (['nfs3canon', '--help'], ['nfs3canon', '-h'], ['nfs3canon', 'help'],
                  ['nfs3canon', 'check', '--help'], ['nfs3canon', 'help', 'pack'],
                  ['nfs3mask', '--help'], ['nfs3mask', 'in', '-h']):
        own = clone.run(*(words if words[0] == 'nfs3mask' else words[1:]))
        found = clone.command('./' + words[0], *words[1:])
        clone.want(' '.join(words), (own[0], found), (4, (0, own[2], '')))
    for words in (['help', 'no'], ['--no', '--help'], ['check'], [], ['check', '--', '--help']):
        own = clone.run(*words)
        clone.want(' '.join(words), clone.command('./nfs3canon', *words), own)
        clone.want('status of ' + ' '.join(words), own[0] in (3, 4), True)
    shutil.copy(TOP / 'examples/null.nfs3cap', clone.path('help'))
    clone.want('a file named help', clone.command('./nfs3mask', 'help', 'masked')[0], 0)
    full = clone.command('sh', '-c', './nfs3canon --help >/dev/full')
    clone.want('a full device', full, (3, '', 'nfs3canon: standard output is closed or full\n'))


def recordings_through_the_launchers(clone: Clone) -> None:
    """After the line of a program that got a recording, the launcher says which tool reads it. The
    status is the program's."""
    begins = {'little': b'\xd4\xc3\xb2\xa1', 'big': b'\xa1\xb2\xc3\xd4',
              'nano': b'\x4d\x3c\xb2\xa1',
              'big nano': b'\xa1\xb2\x3c\x4d', 'pcapng': b'\x0a\x0d\x0d\x0a'}
    for name, begin in begins.items():
        clone.write(name, begin + bytes(20))
        told = f"'{name}'" if ' ' in name else name
        advice = f'nfs3canon: {told} is a recording: `tools/verdicts {told}` reads it'
        clone.want(name, clone.command('./nfs3canon', 'check', name),
                   (2, '', f'file 0: BadMagic\n{advice}\n'))
    null, both = 'examples/null.nfs3cap', '`tools/compare A B` reads recordings'
    mask = '`tools/from_pcap little CAPTURE` makes a capture of it'
    for words, own, advice in (
            (['nfs3canon', 'show', 'little'], 'file 0', '`tools/calls little` reads it'),
            (['nfs3canon', 'canon', '--', 'little', 'out'], 'file 0', mask),
            (['nfs3canon', 'same', null, 'little'], 'second: file 0', both),
            (['nfs3canon', 'same', 'little', null], 'first: file 0', both),
            (['nfs3mask', 'little', 'out'], 'file 0', mask)):
        clone.want(' '.join(words), clone.command('./' + words[0], *words[1:]), (
            2, '', f'{own}: BadMagic\n{words[0]}: little is a recording: {advice}\n'))
    clone.write('a\x1b\n', begins['little'])
    hostile = clone.command('./nfs3canon', 'check', 'a\x1b\n')
    clone.want('a hostile name', hostile[2].count('\x1b'), 0)
    for content in (b'', b'NFS', b'NFS3CAP3', b'\0\0\0\0', b'\xd4\xc3\xb2'):
        clone.write('other', content)
        found = clone.command('./nfs3canon', 'check', 'other')
        clone.want(repr(content), found, clone.run('check', 'other'))
    for words in (['check', 'little', 'big'], ['pack', 'out', 'little', 'big'], ['check', 'absent'],
                  ['check', 'examples']):
        found = clone.command('./nfs3canon', *words)
        clone.want(' '.join(words), found[2].count('is a recording'), 0)


def tests_without_the_toolchain(clone: Clone) -> None:
    """./test names the tests that need no toolchain. They run on the programs of dist/, unless
    these are made of other sources."""
    clone.want('./test', clone.command('./test'), (
        2, '', 'test: rt, the Rattle toolchain, is not on the PATH: ./test --shipped runs the '
        'tests that need none\n'))
    status, out, _ = clone.command('python3', 'tests/program/run.py', '--only', 'show: a NULL')
    clone.want('a test', (status, out), (0, '1 passed, 0 failed\n'))
    clone.change('crates/xdr3/src/lib.rt')
    clone.want('other sources', clone.command('./test', '--shipped'), (
        2, '', 'dev/dist: dist/ is not made of these sources: run dev/dist\n'))


def a_changed_source(clone: Clone) -> None:
    """The program that comes with the repository does not stand for other sources: it is proved and
    built, which takes `rt`. Without that one line says so, and the status is none that an answer
    has."""
    for name in ('crates/xdr3/src/lib.rt', 'crates/canon3/specs/Renaming.antt',
                 'crates/line3/proofs/Lib.antt', 'crates.txt'):
        was = clone.read(name)
        clone.change(name)
        status, out, error = clone.command('./nfs3canon', 'check', 'examples/null.nfs3cap')
        clone.want(name, (status, out, error), (
            3, '', 'nfs3canon: a source was changed (git status shows which), and rt, which proves '
            'and builds the program, is not there\n'))
        clone.write(name, was or b'')
    clone.want('changed back', clone.command('./nfs3canon', 'check', 'examples/null.nfs3cap'),
               (0, NULL, ''))


def a_source_that_plays_no_part(clone: Clone) -> None:
    """Test crates and pages are not what the programs are made of."""
    clone.change('crates/tests/src/lib.rt')
    clone.change('README.md')
    clone.want('check', clone.command('./nfs3canon', 'check', 'examples/null.nfs3cap'),
               (0, NULL, ''))


def asked_to_prove(clone: Clone) -> None:
    """`--prove` does not take what comes with the repository."""
    status, out, error = clone.command('./nfs3canon', '--prove', 'check', 'examples/null.nfs3cap')
    clone.want('prove', (status, out, error),
               (3, '', 'nfs3canon: rt, which proves and builds the program, is not there\n'))


def a_damaged_program(clone: Clone) -> None:
    """A file that is not the one whose checksum is there is not run."""
    other = clone.read('dist/nfs3mask.xz')
    for content in (b'', b'no program', other or b''):
        clone.write('dist/nfs3canon.xz', content)
        status, out, error = clone.command('./nfs3canon', 'check', 'examples/null.nfs3cap')
        clone.want('damaged', (status, out, 'cannot be unpacked' in error, error.count('\n')),
                   (3, '', True, 1))
        clone.want('what is left', os.listdir(clone.path('crates/nfs3canon/out')), [])


NOBODY = 65_534
AS_NOBODY = ['setpriv', f'--reuid={NOBODY}', f'--regid={NOBODY}', '--clear-groups', 'env', '-i']


def a_clone_that_cannot_be_written(clone: Clone) -> None:
    """The program is kept in the cache of the user, or in a temporary folder while it runs; without
    either one line says so. Each answer has the status that the program has."""
    if os.getuid() or not shutil.which('setpriv'):
        print('left out: a clone that cannot be written, since only root may try that')
        return
    for place in pathlib.Path(clone.folder).parents[:2]:
        os.chmod(place, 0o755)
    home = pathlib.Path(clone.folder).parent / 'home'
    for place in (home / 'tmp', home / 'no'):
        place.mkdir(parents=True)
        os.chown(place, NOBODY, NOBODY)
    os.chmod(home / 'no', 0o500)
    kept = home / 'tmp/cache/nfs3canon/programs' / checksums()['nfs3canon'] / 'nfs3canon'
    path = f'PATH={os.environ["PATH"]}'
    cache, no_cache, temporary, no_temporary = (f'XDG_CACHE_HOME={home}/tmp/cache',
                                                f'XDG_CACHE_HOME={home}/no/cache',
                                                f'TMPDIR={home}/tmp', f'TMPDIR={home}/no')
    for variables in ([cache, no_temporary], [cache, no_temporary], [no_cache, temporary]):
        run = [*AS_NOBODY, path, *variables]
        clone.want(f'check {variables}', clone.command(*run, './nfs3canon', 'check',
                                                       'examples/null.nfs3cap'), (0, NULL, ''))
        same = clone.command(*run, './nfs3canon', 'same', 'examples/null.nfs3cap',
                             'examples/getattr.nfs3cap')
        clone.want(f'same {variables}', (same[0], same[1].startswith('differ at '), same[2]),
                   (1, True, ''))
        clone.want(f'verdicts {variables}',
                   clone.command(*run, 'tools/verdicts', 'examples/null.nfs3cap')[0], 0)
    clone.want('kept', hashlib.sha256(kept.read_bytes()).hexdigest(), checksums()['nfs3canon'])
    clone.want('what is left', [sorted(os.listdir(home / name)) for name in ('tmp', 'no')],
               [['cache'], []])
    kept.write_bytes(b'another')
    clone.want('a damaged one', clone.command(*AS_NOBODY, path, cache, './nfs3canon', 'check',
                                              'examples/null.nfs3cap'), (0, NULL, ''))
    status, out, error = clone.command(*AS_NOBODY, path, no_cache, no_temporary, './nfs3canon',
                                       'check', 'examples/null.nfs3cap')
    clone.want('nowhere', (status, out, error.startswith('nfs3canon: '), error.count('\n')),
               (3, '', True, 1))


def want_rt() -> None:
    """Leaves a test out without the toolchain."""
    if not shutil.which('rt'):
        raise unittest.SkipTest('rt is not there')


def checked(clone: Clone) -> Answer:
    """Returns what `dev/dist --check` says in the clone."""
    return ended(['dev/dist', '--check'], clone.folder).text()


def a_stale_folder(clone: Clone) -> None:
    """dev/dist --check refuses a folder that was made of other sources, a damaged one, and none. It
    is made anew, since programs that another kit made are not compared."""
    want_rt()
    for name in PROGRAMS:
        os.makedirs(clone.path(f'crates/{name}/out'))
        shutil.copy2(TOP / f'crates/{name}/out/{name}', clone.path(f'crates/{name}/out/{name}'))
    clone.want('made', ended(['dev/dist'], clone.folder, limit=None).text(), (0, '', ''))
    clone.want('as it is', checked(clone)[::2], (0, ''))
    clone.write('crates/nfs3mask/out/nfs3mask', b'another')
    clone.want('another program', checked(clone),
               (1, '', 'dev/dist: dist/nfs3mask.xz is not the program that was built here\n'))
    clone.change('crates/xdr3/src/lib.rt')
    clone.want('stale', checked(clone),
               (1, '', 'dev/dist: dist/ is not made of these sources: run dev/dist\n'))
    shutil.rmtree(clone.path('dist'))
    clone.want('none', checked(clone), (1, '', 'dev/dist: dist/ is not made: run dev/dist\n'))


def another_kit(clone: Clone) -> None:
    """Programs that another kit made may differ in their bytes, so they are not compared, and that
    is said."""
    want_rt()
    made = (clone.read('dist/MADE-OF') or b'').decode()
    clone.write('dist/MADE-OF', re.sub('^kit .*', 'kit another', made, flags=re.M).encode())
    status, out, error = checked(clone)
    clone.want('check', (status, out.count('could not be compared'), error),
               (0, len(PROGRAMS), ''))


def what_was_built_here(clone: Clone) -> None:
    """dist/ of this repository is made of its sources, and has the programs that were built
    here."""
    want_rt()
    clone.want('dist', ended(['dev/dist', '--check'], TOP, limit=None).text()[::2], (0, ''))


def a_release(clone: Clone) -> None:
    """A release has the bytes of dist/, also from a clone in which nothing is built."""
    os.mkdir(clone.path('release'))
    clone.want('release', clone.command('make', 'dist', 'OUT=release'), (0, '', ''))
    for archive in pathlib.Path(clone.path('release')).glob('*.tar.xz'):
        with tarfile.open(archive) as tar:
            for name in PROGRAMS:
                file = tar.extractfile(
                    f'{archive.name.removesuffix(".tar.xz")}/libexec/nfs3canon/{name}')
                clone.want(name, file and hashlib.sha256(file.read()).hexdigest(),
                           checksums()[name])


TESTS: tuple[Callable[[Clone], None], ...] = (
    the_first_answer, tools_at_once, help_through_the_launchers, recordings_through_the_launchers,
    tests_without_the_toolchain,
    a_changed_source, a_source_that_plays_no_part, asked_to_prove, a_damaged_program,
    a_clone_that_cannot_be_written, a_stale_folder, another_kit, what_was_built_here, a_release)


def tried(program: str, test: Callable[[Clone], None]) -> list[str]:
    """What is wrong in a test, which has a clone of its own."""
    with tempfile.TemporaryDirectory(prefix='nfs3canon') as folder:
        top = pathlib.Path(folder, 'clone')
        shutil.copytree(TOP, top, symlinks=True,
                        ignore=shutil.ignore_patterns('out', '.git', '__pycache__'))
        clone = Clone(program, str(top))
        test(clone)
        return clone.wrong


if __name__ == '__main__':
    try_all(words_of(__doc__), [(test.__name__, tried, test) for test in TESTS], 4)
