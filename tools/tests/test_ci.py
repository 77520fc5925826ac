"""Tests of docs/CI.md and Containerfile, with scripts in place of tcpdump, curl and sudo."""
import fnmatch
import os
import re
import shutil
from collections.abc import Sequence

from examples.messages import dirop, fattr, fh, ok, post_op_attr
from examples.packets import pcap
from tests.shared.running import ended

from .comparisons import conversation_of
from .scripts import CHANGED, EXAMPLES, FIRST, SECOND, TOP, Tools, connection_of, whole

PAGE = (TOP / 'docs/CI.md').read_text()
CONTAINERFILE = (TOP / 'Containerfile').read_text()
SCRIPTS = {
    'sudo': 'exec "$@"', 'apt-get': ':', 'curl': 'cat "$RELEASE"',
    'sleep': 'exec "$REAL_SLEEP" 0.2',
    'tcpdump': 'while [ "$1" != -w ]; do shift; done; cp "$TRAFFIC" "$2"; exec "$REAL_SLEEP" 60'}


def blocks_of(page: str, language: str) -> list[str]:
    return re.findall(rf'^```{language}\n(.*?)^```$', page, re.M | re.S)


def of_github(text: str) -> list[str]:
    steps = re.findall(r'^ +(?:- )?run: (?:\|\n((?: {10}.*\n)+)|(.+)\n)', text, re.M)
    return [re.sub(r'^ {10}', '', several, flags=re.M) + one for several, one in steps]


def write_scripts(tools: Tools, scripts: dict[str, str]) -> None:
    """Writes what replaces programs that are not run here, and the user's tests."""
    os.mkdir(tools.path('bin'))
    for name, script in {**{f'bin/{name}': script for name, script in scripts.items()},
                         'run-nfs-tests.sh': '[ -s run.pcap ]'}.items():
        tools.write(name, f'#!/bin/sh\n{script}\n'.encode())
        os.chmod(tools.path(name), 0o755)


def released(tools: Tools, folder: str = '.') -> str:
    """Makes a release. Returns the name of its tar file."""
    done = ended(['make', '-C', str(TOP), 'dist', f'BUILD={tools.path("build")}',
                  f'OUT={tools.path(folder)}'], tools.folder, limit=None)
    tools.want('release', (done.status, done.error), (0, b''))
    return next(name for name in os.listdir(tools.path(folder)) if name.endswith('.tar.xz'))


def made_ready(tools: Tools, traffic: str) -> dict[str, str]:
    """Makes a folder as a runner has it. Returns the variables."""
    write_scripts(tools, SCRIPTS)
    release = released(tools)
    os.mkdir(tools.path('usr'))
    path = f'{tools.path("bin")}:{tools.path("usr/bin")}:{os.environ["PATH"]}'
    return {**os.environ, 'PATH': path, 'RELEASE': tools.path(release), 'TRAFFIC': traffic,
            'NFS3CANON': 'https://example.org/x', 'REAL_SLEEP': shutil.which('sleep') or ''}


def run(tools: Tools, script: str, variables: dict[str, str]) -> int:
    """The status of commands, which install below the folder."""
    words = ['bash', '-e', '-o', 'pipefail', '-c', script.replace('/usr/local', tools.path('usr'))]
    return ended(words, tools.folder, env=variables, limit=None).status


def cases(tools: Tools, name: str) -> list[tuple[str | None, list[str]]]:
    """The names of the cases of a file, and the tags in them."""
    root = tools.xml(name)
    return [(case.get('name'), [item.tag for item in case if item.tag != 'system-out'])
            for case in root.iter('testcase')]


def made_by(tools: Tools, found: Sequence[int], wanted: Sequence[int], differences: int) -> None:
    """The statuses of the last two steps, and what they made."""
    tools.want('statuses', list(found), list(wanted))
    tools.want('verdicts.xml', [tags for _, tags in cases(tools, 'verdicts.xml')], [[]] * 3)
    tools.want('compare.xml', [tags for _, tags in cases(tools, 'compare.xml')],
               [['failure']] * (differences + 1) if differences else [[]])
    for name in ('verdicts.html', 'compare.html'):
        tools.want(name, b'<html' in (tools.read(name) or b''), True)


def the_page(tools: Tools, traffic: str, differences: int) -> None:
    """The reference, and then both pipelines, on a run."""
    variables = made_ready(tools, traffic)
    reference, accept, _ = blocks_of(PAGE, 'sh')
    github, gitlab = blocks_of(PAGE, 'yaml')
    install, *steps = of_github(github)
    tools.want('steps', len(steps), 3)
    tools.want('install', run(tools, install, variables), 0)
    shutil.copy(SECOND, tools.path('run.pcap'))
    tools.want('the reference', (run(tools, reference, variables),
                                 tools.exists('reference.nfs3cap.xz')), (0, True))
    os.remove(tools.path('run.pcap'))
    status = 1 if differences else 0
    made_by(tools, [run(tools, step, variables) for step in steps], [0, 0, status], differences)
    for name in ('run.pcap', 'verdicts.xml', 'verdicts.html', 'compare.xml', 'compare.html'):
        os.remove(tools.path(name))
    together = '\n'.join(re.findall(r'^    - (.+)$', gitlab, re.M))
    made_by(tools, [run(tools, together, variables)], [status], differences)
    for text in (github.partition('path: |')[2], gitlab.partition('paths: ')[2]):
        kept = set(re.findall(r'[\w.]+\.(?:pcap|xml|html)', text))
        tools.want('what is kept', kept, {'compare.html', 'compare.xml', 'run.pcap',
                                          'verdicts.html', 'verdicts.xml'})
    again = 'nfs3-compare --order any --known known.txt reference.nfs3cap.xz run.pcap'
    tools.want('accepted', [run(tools, script, variables) for script in (accept, again)],
               [status, 0])


def a_run_that_is_the_same(tools: Tools) -> None:
    the_page(tools, FIRST, 0)


def a_run_that_differs(tools: Tools) -> None:
    the_page(tools, CHANGED, 1)


def instructions_of_image() -> list[tuple[str, str]]:
    lines = re.sub(r'^#.*\n', '', CONTAINERFILE, flags=re.M).replace('\\\n', ' ').splitlines()
    return [(word, rest) for word, _, rest in (line.partition(' ') for line in lines)]


def what_the_image_gets(tools: Tools) -> None:
    """The release has the name that is copied, and is unpacked below /usr/local."""
    release = released(tools)
    copied = [rest.split() for word, rest in instructions_of_image() if word == 'COPY']
    tools.want('what is copied', [(fnmatch.fnmatch(release, pattern), place)
                                  for pattern, place in copied], [(True, '/tmp/')])
    os.mkdir(tools.path('usr'))
    unpacking, = (rest for word, rest in instructions_of_image() if word == 'RUN'
                  and 'apt-get' not in rest)
    status = run(tools, unpacking.replace('/tmp/', f'{tools.folder}/'), dict(os.environ))
    tools.want('unpacked', (status, tools.exists(release), sorted(os.listdir(tools.path('usr')))),
               (0, False, ['bin', 'libexec', 'share']))
    programs = os.listdir(tools.path('usr/bin'))
    for name in {'nfs3canon', *re.findall(r'nfs3-[a-z-]+', PAGE)} - {'nfs3-'}:
        tools.want(name, name in programs, True)
    installed = next(rest for word, rest in instructions_of_image() if 'apt-get install' in rest)
    tools.want('packages', {'python3', 'tcpdump', 'xz-utils'} <= set(installed.split()), True)


def compare(tools: Tools, *words: str) -> tuple[int, list[str], str]:
    status, out, error = tools.tool('compare', '--junit', 'x.xml', *words)
    return status, out.splitlines(), error


def cases_of_runs(tools: Tools) -> None:
    """One case that passed if the status is 0, else failures, or an error."""
    tools.write('a.pcap', pcap(whole()))
    tools.write('part.pcap', pcap(whole()[:4] + whole()[5:]))
    tools.write('text', b'text')
    concurrent = [str(EXAMPLES / f'concurrent_{name}.pcap') for name in 'ab']
    bad, missing = str(EXAMPLES / 'bad_bool.pcap'), '344 bytes missing from the %s run'
    for words, status, tags, *first in (
            (['a.pcap', 'a.pcap'], 0, [[]]),
            ([FIRST, CHANGED], 1, [['failure']] * 2, 'differ',
             'differ at connection 2 server record 2'),
            (concurrent, 1, [['failure']], 'same in another order',
             'same in another order: 100 calls; 3 connections reordered'),
            (['--order', 'any', *concurrent], 0, [[]]),
            (['part.pcap', 'part.pcap'], 1, [['failure']], 'same in part',
             f'same in part: 30 calls in 1 connection, {missing % "first"}, {missing % "second"}'),
            (['--allow-losses', 'part.pcap', 'part.pcap'], 0, [[]]),
            ([FIRST, bad], 2, [['error']], None,
             f'{bad}: connection 1 server record 1 byte 28: BadBool (frame 5)'),
            (['a.pcap', 'text'], 2, [['error']], None, 'text: it is neither pcap nor pcapng')):
        found, _, error = compare(tools, *words)
        suite = tools.xml('x.xml')[0]
        items = [item for case in suite.iter('testcase') for item in case
                 if item.tag != 'system-out']
        numbers = [str(sum(tag in some for some in tags))
                   for tag in ('failure', 'error', 'skipped')]
        tools.want(' '.join(words), (
            found, [some for _, some in cases(tools, 'x.xml')], 'Traceback' in error,
            [items[0].get('type'), items[0].get('message')] if items else [],
            [suite.get(key) for key in ('tests', 'failures', 'errors', 'skipped')]),
            (status, tags, False, first, [str(len(tags)), *numbers]))
        os.remove(tools.path('x.xml'))
    refused = (2, '', 'compare: a.pcap is an input, and is not replaced\n')
    tools.want('an input', tools.tool('compare', '--junit', 'a.pcap', 'a.pcap', 'a.pcap'), refused)


def run_from(port: int, more: int, *modes: int) -> bytes:
    """A recording of NULLs, LOOKUP of a file and a GETATTR for each mode, from a port."""
    attributes = [ok(fattr(1, 5, mode=mode)) for mode in modes]
    asked = [*[(0, b'', b'')] * more,
             (3, dirop(b'top', b'x'), ok(fh(b'x'), post_op_attr(), post_op_attr())),
             *((1, fh(b'x'), said) for said in attributes)]
    return pcap(connection_of(*conversation_of(asked), len(asked), port=port))


def names_that_last(tools: Tools) -> None:
    """Cases have the same names in another run, from another port, at other places."""
    found = []
    for port, more in ((700, 0), (944, 3)):
        tools.write('a.pcap', run_from(port, more, 0o644, 0o644))
        tools.write('b.pcap', run_from(port + 1, more, 0o600, 0o640, 0o640))
        compare(tools, 'a.pcap', 'b.pcap', '--order', 'strict')
        found.append([name for name, _ in cases(tools, 'x.xml')])
    tools.want('names', found, [['the runs are the same', 'GETATTR reply ?/x obj.mode',
                                 'GETATTR reply ?/x obj.mode (2)',
                                 'only in the second run: GETATTR ?/x']] * 2)
    root = tools.xml('x.xml')
    texts = [item.text or '' for item in root.iter('failure')][1:]
    tools.want('positions', ['connection 1' in text for text in texts], [True] * 3)
