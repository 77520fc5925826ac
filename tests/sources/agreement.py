#!/usr/bin/env python3
"""Tests that the pages, the examples and the sources agree: commands and their answers, counts,
names, links, rooms of definitions.

    python3 tests/sources/agreement.py [PROGRAM] [--only TEXT] [-v]

PROGRAM is crates/nfs3canon/out/nfs3canon if none is named. The last line is 'N passed, M failed',
and the status is 1 if any failed.
"""
import os
import pathlib
import re
import runpy
import shutil
import subprocess
import sys
from typing import NamedTuple

sys.path.insert(0, str(pathlib.Path(__file__).resolve().parents[2]))
from examples import messages
from examples.messages import NFS, call, success
from tests.shared import classes
from tests.shared.rows import rows_of
from tests.shared.running import Answer, ended, program_named, tried, try_all, words_of
from tests.sources import call_trees, command_lines, crate_pages, pages, tool_rooms
from tests.sources.relations import nested, relations, with_many_arguments
from tests.sources.rooms import (
    crowded_folders, in_the_wrong_room, long_lines, of_private_fields, of_several_meanings,
    of_two_files, resting_on_machines, scans_without_values, types_of_two_crates)
from tools.nfs3tools.comparison.values import classes as values
from tools.tests.scripts import TOP, Tools, sums

TEXTS = {str(path.relative_to(TOP)): path.read_text() for path in pages.all_pages()}
README, EXAMPLES = TEXTS['README.md'], TEXTS['examples/README.md']


class Command(NamedTuple):
    """A command line of a page, and the lines that it prints."""
    line: str
    printed: list[str]


def console_of(text: str) -> list[Command]:
    """The commands in the console blocks of a page."""
    found = list[Command]()
    for block in re.findall(r'^```console\n(.*?)^```$', text, re.M | re.S):
        for line in block.splitlines():
            if line.startswith('$ '):
                found.append(Command(line[2:], []))
            else:
                found[-1].printed.append(line)
    return found


def is_printed(wanted: list[str], printed: list[str]) -> bool:
    """Whether these lines are printed. A line `..` means any lines, and `..` at the end of a
    line any rest of it."""
    if not wanted:
        return not printed
    if wanted[0] == '..':
        return any(is_printed(wanted[1:], printed[at:]) for at in range(len(printed) + 1))
    if not printed:
        return False
    is_line = printed[0].startswith(wanted[0][:-2]) if wanted[0].endswith('..') else printed[
        0] == wanted[0]
    return is_line and is_printed(wanted[1:], printed[1:])


def here(line: str, tools: Tools) -> str:
    """A command line of a page with the programs and the folder of this test."""
    for word, local in {'/tmp/': tools.folder + '/',
                        'crates/nfs3canon/out/nfs3canon': tools.program,
                        './nfs3canon': tools.program,
                        './nfs3mask': program_named('nfs3mask', tools.program),
                        './nfs3streams': program_named('nfs3streams', tools.program)}.items():
        line = line.replace(word, local)
    return re.sub(r'^tools/(verdicts|compare|calls|procedures) ',
                  r'tools/\1 --program %s ' % tools.program, line)


def commands_of_the_pages(tools: Tools) -> None:
    """Each command of a console block is run, in order, and prints the lines below it. The status
    follows from what is printed. Each line is written at once, as on a terminal."""
    commands = {page: console_of(text) for page, text in TEXTS.items() if '```console' in text}
    tools.want('pages', sorted(commands), ['README.md', 'examples/README.md', 'tools/README.md'])
    for command, wanted in [command for found in commands.values() for command in found]:
        _, out, _ = ended(['sh', '-c', here(command, tools)], TOP, stderr=subprocess.STDOUT,
                          env={**os.environ, 'PYTHONUNBUFFERED': '1'}, limit=None).text()
        printed = out.splitlines()
        tools.want(command, 'as written' if is_printed(wanted, printed) else printed, 'as written')


def command_lines_of_the_pages(tools: Tools) -> None:
    """Each other command line of a page is run and succeeds, or has a reason in command_lines.py
    why it is not run."""
    page = ('```sh\n./a b\n\ntcpdump -i any\n```\n\n    dev/x   in words\n    no '
            'command\n\n```console\n    ./c\n```\n')
    tools.want('lines', command_lines.lines_of(page), ['./a b', 'tcpdump -i any', 'dev/x'])
    lines = [(page, line) for page, text in TEXTS.items() for line in command_lines.lines_of(text)]
    tools.want('reasons that nothing needs', command_lines.useless(lines), [])
    to_run = [(page, line) for page, line in lines if not command_lines.reason(page, line)]
    tools.want('lines that are run', len(to_run) > 5, True)
    for page, line in to_run:
        if 'recordings.py' in line and not shutil.which('tshark'):
            continue
        status, out, error = ended(['bash', '-c', here(command_lines.smaller(line), tools)], TOP,
                                   limit=None).text()
        tools.want('%s: %s' % (page, line), (status, error, bool(out) or 'make.py' in line),
                   (0, '', True))


def clause_on_the_page(tools: Tools) -> None:
    """The clause and the definition that docs/PROOFS.md quotes are in the files that it names, and
    the table below has their words."""
    page = TEXTS['docs/PROOFS.md']
    quoted = re.search(r'^```text\n( *ensures .*?)\n\n(.*?)^```$', page, re.M | re.S)
    files = re.findall(r'\(`(crates/[^`]*\.(?:rt|antt))`\)', page)
    tools.want('a clause and a definition', (quoted is not None, len(files)), (True, 2))
    for file, piece in zip(files, quoted.groups() if quoted else ()):
        tools.want(file, piece in (TOP / file).read_text(), True)
    explained = ' '.join(re.findall(r'^\| (.*?) \|',
                                    page.partition('| Symbol |')[2].partition('\n\n')[0], re.M))
    words = set(re.findall(r'[A-Za-z_]+|[→×⊥]', quoted[0] if quoted else ''))
    known = set(re.findall(r'[A-Za-z_]+|[→×⊥]', explained)) | {'text', 'ensures', 'whole', 'List',
                                                               'DecidesSame', 'of_bytes'}
    tools.want('words without a line', sorted(words - known), [])


def lines_for_many_captures(tools: Tools) -> None:
    """`tools/verdicts` with several jobs, and the line of the manual for GNU parallel, which is run
    if it is there, check the examples."""
    parallel = re.findall(r'^parallel .*$',
                          (TOP / 'tools/man/verdicts.1').read_text().replace('\\-', '-'), re.M)
    lines = ['tools/verdicts -j 4 examples/*.nfs3cap', *parallel]
    tools.want('lines', [line.split()[0] for line in lines], ['tools/verdicts', 'parallel'])
    version = ['sh', '-c', 'parallel --version 2>&1 </dev/null']
    local_words = {'tools/verdicts': 'tools/verdicts --program ' + tools.program,
                   'host1,host2': ':', '/opt/nfs3canon': str(TOP),
                   'runs/': 'examples/'}
    last = {'tools/verdicts': [sums(13, refused=7, raw='2 NFSACL GETACL')],
            'parallel': sorted(sums(ok, refused=refused) for ok, refused in [(0, 1)] * 4 + [(1, 1)]
                               + [(12, 0)] * 3 + [(3, 0)] * 3)}
    for line in lines:
        if line.startswith('parallel') and b'GNU' not in ended(version, TOP).out:
            continue
        for word, local in local_words.items():
            line = line.replace(word, local)
        status, out, _ = ended(['sh', '-c', line], TOP, stderr=subprocess.DEVNULL,
                               limit=None).text()
        found = sorted(told for told in out.splitlines() if ' judged (' in told)
        tools.want(line, (found, status), (last[line.split()[0]], 5 if line.startswith('parallel')
                                           else 1))


def rows_of_the_examples() -> list[tuple[str, str, str]]:
    """Of each capture and wrong recording of examples/README.md its name, what is printed of it,
    and the status."""
    return re.findall(r'^\| `(\w+\.\w+)` \| .* \| `([^`]*)` \| (\d) \|$',
                      (TOP / 'examples/README.md').read_text(), re.M)


def examples_are_used(tools: Tools) -> None:
    """Each file of examples/ is checked by its row there, is run or imported by
    examples_are_made_alike, or is in a command line of a page that is run."""
    used = {name for name, _, _ in rows_of_the_examples()} | {'README.md', '__init__.py', 'make.py',
                                                              'messages.py', 'packets.py'}
    used |= {name for command, _ in console_of(README + EXAMPLES)
             for name in re.findall(r'examples/(\w+\.\w+)', command)}
    there = {path.name for path in (TOP / 'examples').iterdir()} - {'__pycache__'}
    tools.want('files', sorted(there), sorted(used))


def answers_of_the_examples(tools: Tools) -> None:
    """Each capture of examples/ is in its README with what `check` prints, each wrong recording
    with the verdict on its last connection, and no other file does."""
    rows, there = rows_of_the_examples(), [*(TOP / 'examples').glob('*.nfs3cap'),
                                           *(TOP / 'examples').glob('bad_*.pcap')]
    tools.want('files', sorted(name for name, _, _ in rows), sorted(path.name for path in there))
    for name, line, status in rows:
        path = str(TOP / 'examples' / name)
        if name.endswith('.pcap'):
            found, out, error = tools.tool('verdicts', '--program', tools.program, path)
            tools.want(name, (out.splitlines()[-2].endswith(line) and error, found),
                       ('', int(status)))
        else:
            found, out, error = tools.run('check', path)
            tools.want(name, (out + error, found), (line + '\n', int(status)))


def examples_are_made_alike(tools: Tools) -> None:
    """examples/make.py writes the captures and the wrong recordings that are there."""
    for name in ('make.py', 'messages.py', 'packets.py'):
        shutil.copy(TOP / 'examples' / name, tools.folder)
    tools.want('make.py', ended([sys.executable, 'make.py'], tools.folder, limit=None),
               (0, b'', b''))
    for path in [*(TOP / 'examples').glob('*.nfs3cap'), *(TOP / 'examples').glob('bad_*.pcap')]:
        tools.want(path.name, tools.read(path.name), path.read_bytes())


def pages_agree(tools: Tools) -> None:
    """The reasons have the same names in docs/FORMATS.md, the man page and tools/explain, each has
    a row in captures.rows and is in the file that returns it, and the dumps are the bytes of a NULL
    call and its reply in both versions."""
    formats = (TOP / 'docs/FORMATS.md').read_text()
    reasons = re.findall(r'^\| `(\w+)` \|', formats.partition('| Reason |')[2].partition('\n\n')[0],
                         re.M)
    tools.want('reasons', len(reasons), 19)
    tools.want('returned by', [
        reason for reason, file in re.findall(r'^\| `(\w+)` \|.* `([\w/]+\.rt)` \|$', formats, re.M)
        if f'Reason::{reason}' in (TOP / 'crates' / file).read_text()], reasons)
    tools.want('man page', re.findall(r'^(\w+)\|', (TOP / 'man/nfs3canon.1').read_text(), re.M),
               reasons)
    tools.want('explain', re.findall(r"'([A-Z]\w+)': ",
                                     (TOP / 'tools/nfs3tools/captures/explained.py').read_text()),
               reasons)
    told = {row['line'].rpartition(' ')[2] for _, row in rows_of('captures.rows')
            if not row['line'].startswith('ok ')}
    tools.want('rows', sorted(told), sorted(reasons))
    rows = re.findall(r'^\| (\d+) \| ((?:[0-9a-f]{8} ?)+) \|', formats, re.M)
    second = next(number for number, (at, _) in enumerate(rows) if number and at == '0')
    null = [call(0xdeadbeef, NFS, 3, 0)], [success(0xdeadbeef)]
    for dump, capture in ((rows[:second], messages.capture(null)),
                          (rows[second:], messages.interleaved(messages.in_turn(*null)[::-1]))):
        tools.want('dump', bytes.fromhex(''.join(words for _, words in dump)), capture)
        sizes = [len(bytes.fromhex(words)) for _, words in dump]
        tools.want('places of the dump', [int(at) for at, _ in dump],
                   [sum(sizes[:at]) for at in range(len(sizes))])
    if shutil.which('man'):
        for page in [*(TOP / 'man').iterdir(), *(TOP / 'tools/man').iterdir()]:
            tools.want('warnings of ' + page.name,
                       ended(['man', '--warnings', '-l', str(page)], TOP).error, b'')


def pages_of_the_tools(tools: Tools) -> None:
    """Each tool for recordings has a page of the manual with all its options, and prints its
    help."""
    for name in ('from_pcap', 'where', 'verdicts', 'calls', 'procedures', 'meaning', 'compare',
                 'explain', 'cut', 'report'):
        page = (TOP / 'tools/man' / (name + '.1')).read_text().replace('\\-', '-')
        status, out, error = tools.tool(name, '--help')
        tools.want('help of ' + name, (status, error, 'The status is 0' in out), (0, '', True))
        options = set(re.findall(r'(?<![\w-])--?[a-z][a-z-]*', out.partition('options:')[2])) - {
            '-h', '--help', '--version', '-w', '-dc'}
        tools.want('options of ' + name, sorted(option for option in options if option not in page),
                   [])


def believed(tools: Tools, *words: str) -> Answer:
    return ended([str(TOP / 'dev/believed'), *words], tools.folder).text()


def what_is_believed(tools: Tools) -> None:
    """docs/PROOFS.md has the counts of dev/believed, which prints each definition once."""
    rows = re.findall(r'^\| `(\w+::\w+)` \| \d+ \| [\d,]+ \| \d+ \|$',
                      (TOP / 'docs/PROOFS.md').read_text(), re.M)
    tools.want('calls', rows, ['nfs3canon::answer_line', 'canon3::check', 'canon3::canon',
                               'canon3::same', 'listing3::show', 'masking3::mask',
                               'packing3::Packing', 'nfs3mask::answer_line',
                               'nfs3streams::answer_line'])
    counted = believed(tools, '--count', *rows)
    tools.want('counts', (counted[0], counted[1] in (TOP / 'docs/PROOFS.md').read_text(),
                          counted[2]), (0, True, ''))
    for name, row in zip(rows, counted[1].splitlines()):
        status, out, error = believed(tools, name)
        heads = re.findall(r'^(?:  )?(?:abbrev pub|unfoldable pub|pub record|pub data) ', out, re.M)
        tools.want(name, (status, error, len(heads)), (0, '', int(row.split()[3])))
        tools.want('the count of ' + name, out.splitlines()[-1].split()[0], row.split()[3])
    told = believed(tools, 'canon3::check')[1]
    for name in ('Typed', 'FirstFault', 'IsSummary', 'status_words', 'Shape', 'in_window',
                 'handles', 'CountsReading'):
        tools.want(name, len(re.findall(r'^ *(?:abbrev|unfoldable|pub) .*\b%s\b.* :' % name, told,
                                        re.M)) > 0, True)
    for name in ('StandsFor', 'HoldsLast', 'Tallies'):
        tools.want(name + ', which proofs use', name in told, False)
    for call, line in (('xdr3::Xdr::get', '        ensures memory { IsFalse owns_memory'),
                       ('canon3::laws::canonical_again', '    ensures again { (entries'),
                       ('capture3::FromRead', '    ghost observed = { λ s. record {')):
        tools.want(call, line in believed(tools, call)[1], True)
    tools.want('a call that is not there', believed(tools, 'canon3::absent')[0], 1)


def what_rests_on_machines(tools: Tools) -> None:
    """docs/PROOFS.md names the calls and laws that rest on a state machine."""
    rows = runpy.run_path(str(TOP / 'dev/api'))['rows']
    found = {(crate, name.removeprefix('laws::')) for crate in crate_pages.libraries()
             for name in resting_on_machines(crate, [item.name for item in rows(crate)])}
    told = re.split(r'rest on no state machine\.|No other call or law rests on one\.',
                    TEXTS['docs/PROOFS.md'])[1]
    tools.want('calls and laws', len(found), 7)
    tools.want('names', {name for pair in found for name in pair},
               set(re.findall(r'`(\w+)`', told)))


def rooms_stand_apart(tools: Tools) -> None:
    """What public calls believe, and machinery; each definition and each file of a crate has a name
    of its own; no folder of proofs is crowded; and clauses are short and name no private field."""
    tools.want('rooms', in_the_wrong_room(), [])
    tools.want('names', of_several_meanings(), [])
    tools.want('private fields in clauses', of_private_fields(), [])
    tools.want('long lines of clauses', long_lines(), [])
    tools.want('folders with too many files', crowded_folders(), [])
    tools.want('files of machinery with the name of another', of_two_files(), [])
    tools.want('scans without values', scans_without_values(), [])
    tools.want('types of two crates', types_of_two_crates(), [])
    tools.want('relations of a clause',
               sorted(relations(nested('IfOk r (λ n. A n (B n, c) ≡ if p n then d else e f)'))),
               [('A', 2), ('B', 1), ('IfOk', 2), ('c', 0), ('d', 0), ('e', 1), ('p', 1)])
    tools.want('relations with many arguments', with_many_arguments(), [])


def rooms_of_the_tools(tools: Tools) -> None:
    """A module of the tools imports from its own room and from those below it, none imports itself
    through others, and each has its row in tools/DESIGN.md."""
    good = {'shared.a': 'import re', 'recordings.b': 'from ..shared.a import x',
            'recordings.c': 'from . import b'}
    tools.want('no import is wrong', tool_rooms.wrong_imports(good), [])
    planted = (({'shared.a': 'from ..recordings.c import x'}, 'shared.a imports recordings.c'),
               ({'shared.a': 'def f():\n    from ..recordings import c'},
                'shared.a imports recordings.c'),
               ({'attic.d': 'from ..shared import a'}, 'attic.d imports shared.a'),
               ({'recordings.b': 'from .c import x'}, 'recordings.b is imported in a circle'))
    for changed, wrong in planted:
        tools.want(wrong, wrong in tool_rooms.wrong_imports(good | changed), True)
    tools.want('the tools', tool_rooms.against_the_order(), [])
    tools.want('tools/DESIGN.md', tool_rooms.not_in_the_design(), [])


def names_of_the_tools(tools: Tools) -> None:
    """A name at the top of a module of the tools is defined in one module, but for the entry points
    of `commands`."""
    good = {'shared.a': 'x = 1\ndef f():\n    y = 1', 'recordings.b': 'from ..shared.a import f, x',
            'recordings.c': 'y, z = 1, 2\nf.x = z\nclass C:\n    x: int = 1',
            'commands.d': 'def main(): f()', 'commands.e': 'def main(): f()'}
    tools.want('each has one meaning', tool_rooms.of_several_modules(good), [])
    planted = (('recordings.b', 'x = 2', 'x: shared.a, recordings.b'),
               ('recordings.b', 'class f: pass', 'f: shared.a, recordings.b'),
               ('recordings.b', 'async def z(): pass', 'z: recordings.b, recordings.c'),
               ('recordings.b', 'a, (b, *C) = 1, (2, 3)', 'C: recordings.b, recordings.c'),
               ('recordings.b', 'z: int = 2', 'z: recordings.b, recordings.c'),
               ('shared.a', 'def main(): f()', 'main: shared.a, commands.d, commands.e'))
    for module, text, wrong in planted:
        tools.want(wrong, tool_rooms.of_several_modules(good | {module: text})[-1:], [wrong])
    tools.want('the tools', tool_rooms.of_several_meanings(), [])


def lines_of_the_tools(tools: Tools) -> None:
    """No line of the tools, of a test, of `dev` or `examples` has more columns than
    tools/pyproject.toml says, which are 100. No docstring has a word to avoid,
    but in `dev`."""
    tools.want('columns', tool_rooms.columns(), 100)
    for size, wrong in ((100, []), (101, ['a.py:2: ' + 'x' * 101])):
        tools.want(f'a line of {size}',
                   tool_rooms.longer_lines('a.py', '\n%s\n' % ('x' * size), 100), wrong)
    for path, wanted in (('tools/where', True), ('dev/api', True), ('dev/kit.py', True),
                         ('dev/dist', False), ('tools', False), ('tools/README.md', False)):
        tools.want(path, tool_rooms.is_python(TOP / path), wanted)
    tools.want('the tools', tool_rooms.long_lines(), [])
    for docstring, wrong in (('It is told so.', 1), ('Retold.', 0), ('`told`: by it', 0),
                             ('What stands for x.', 1)):
        text = f'def f():\n    """{docstring}"""\n'
        tools.want(docstring, len(tool_rooms.avoided_words('a.py', text)), wrong)
    tools.want('words to avoid', tool_rooms.words_to_avoid(), [])


def pages_are_plain(tools: Tools) -> None:
    """No sentence, bullet, section or page is too long, and none has a word to avoid."""
    tools.want('pages', pages.long_ones(), [])
    for text, wrong in (('One fact stands in it.', 1), ('`stands in`, "told"', 0),
                        ('```\ntold\n```\n    told\n| told |', 1), ('retold', 0)):
        tools.want(text, len(pages.avoided(text)), wrong)
    tools.want('words to avoid', pages.words_to_avoid(), [])


def tables_are_whole(tools: Tools) -> None:
    """No row of a table stands outside it, and each row has the cells of its head."""
    table = '| a | b |\n|---|--:|\n| 1 | 2 |\n'
    for text, wrong in ((table, 0), (table + '| 3 | 4 \\| 5 |\n', 0),
                        (table + '\n| 3 | 4 |\n| 5 | 6 |\n', 2), ('| 3 | 4 |\n\n' + table, 1),
                        (table + '| 3 |\n', 1), (table + '| 3 | 4 | 5 |\n', 1),
                        ('```\n| 3 | 4 |\n```\n', 0), (table + 'text\n| 3 | 4 |\n', 1)):
        tools.want(text, len(pages.rows_outside_tables(text)), wrong)
    tools.want('tables', pages.broken_tables(), [])


def names_lead_somewhere(tools: Tools) -> None:
    """Links and paths on the pages lead to files and headings."""
    text = '# A head, `so`\n'
    for more, wrong in (('[a](README.md)', 0), ('[a](#a-head-so)', 0), ('`crates/NAME/src`', 0),
                        ('`crates/xdr3/specs/Shape`', 0), ('[a](NO.md)', 1),
                        ('[a](#another)', 1), ('[a](README.md#another)', 1),
                        ('`tests/absent.py`', 1)):
        tools.want(more, len(pages.not_there(text + more, TOP)), wrong)
    tools.want('names', pages.dead_names(), [])


def trees_are_of_the_code(tools: Tools) -> None:
    """Each function in a call tree of docs/ARCHITECTURE.md is in its file, and calls those below
    it."""
    page = (TOP / 'docs/ARCHITECTURE.md').read_text()
    tools.want('trees', len(list(call_trees.trees(page))), 2)
    tools.want('calls', call_trees.calls_not_there(page), [])
    planted = (('Entries::finish', 'Entries::entry', ['Entries::step does not call Entries::entry',
                                                      'Entries::entry does not call Pairing::end']),
               ('Counts::take_word                      capture3/src/container/position/counts.rt',
                'Counts::take_word',
                ['Counts::take_word is not in capture3/src/container.rt']))
    for old, new, wrong in planted:
        tools.want(f'{new} for {old}', call_trees.calls_not_there(page.replace(old, new, 1)), wrong)


# of the page of a crate
PROMISES = re.compile(r'^## What is proved\n(.*?)(?=^## |\Z)', re.M | re.S)


def promises() -> dict[str, str]:
    """Returns what is promised on the pages of the crates."""
    texts = {path.parent.name: path.read_text()
             for path in sorted((TOP / 'crates').glob('*/README.md'))}
    return {crate: found[1] for crate, text in texts.items() if (found := PROMISES.search(text))}


def what_is_not_proved(tools: Tools) -> None:
    """Each promise that is marked N on the page of its crate is in the list of docs/PROOFS.md of
    what is not proved."""
    rows = re.findall(r'^\| ([^|:.;]*)[^|]*\|[^|]*\| N \|$', '\n'.join(promises().values()), re.M)
    told = (TOP / 'docs/PROOFS.md').read_text().partition('## Not proved and not tested')[
        2].partition('\n## ')[0]
    tools.want('rows', len(rows), 8)
    for row in rows:
        tools.want(row, row[0].lower() + row[1:].strip() in told, True)


CLAIM = re.compile(r'`(\w+)` \(`([\w/]+\.rt)`\): ((?:`\w+`(?:, )?)+)')


def clauses_of_the_claims(tools: Tools) -> None:
    """The table of docs/PROOFS.md from claim to clause names clauses of functions, laws and
    definitions that are there, and nothing else."""
    page = TEXTS['docs/PROOFS.md'].partition('## From claim to clause')[2].partition('\n## ')[0]
    table = '\n'.join(re.findall(r'^\|.*\| (.*) \|$', page, re.M))
    claims, others = CLAIM.findall(table), re.findall(r'`([^`]*)`', CLAIM.sub('', table))
    tools.want('claims', len(claims) > 35, True)
    for name, path, named in claims:
        clauses = crate_pages.clauses_in(TOP / 'crates' / path).get(name, set())
        tools.want(f'{name} of {path}', {*re.findall(r'\w+', named)} - clauses, set())
    tools.want('laws and definitions', [
        name for name in others if name not in crate_pages.laws()
        and not (TOP / 'crates' / name).with_suffix('.antt').exists()], [])


def clauses_are_whole(tools: Tools) -> None:
    """dev/believed prints each clause up to the brace that closes it."""
    clauses_in = runpy.run_path(str(TOP / 'dev/believed'))['clauses_in']
    text = '    ensures one { f (record { a = 1 }\n        ) c }\n    ensures { d };\n'
    tools.want('clauses', clauses_in(text), [
        '    ensures one { f (record { a = 1 }\n        ) c }', '    ensures { d }'])


def clauses_of_each_function(tools: Tools) -> None:
    """dev/api gives a function its own clauses: those before its body, or before the semicolon that
    no bracket encloses."""
    members = runpy.run_path(str(TOP / 'dev/api'))['members']
    lines = ['pub trait T {', '    fn first(&self, place: &u8) -> bool;', '',
             '    fn second(&self) -> u8', '        ensures one { x }',
             '        ensures two { record { a = 1; b = 2;', '          c = 3 } };',
             '    fn third(&self) {', '    }', '    fn fourth(',
             '        &self,', '    ) -> u8', '        ensures { x };', '}']
    found = [(item.name, item.clauses) for item in members('T', lines, 0, True)]
    tools.want('clauses', found, [('T::first', []), ('T::second', ['one', 'two']), ('T::third', []),
                                  ('T::fourth', ['ensures'])])


def pages_of_the_crates(tools: Tools) -> None:
    """Each library has a page, which quotes proved code; the pages name files and clauses that
    exist; and dev/api prints what a library exports."""
    tools.want('crates without a page', crate_pages.without_a_page(), [])
    tools.want('code that no proved caller has', crate_pages.not_quoted(), [])
    tools.want('files that are not there', crate_pages.files_not_there(), [])
    tools.want('clauses that are not there', crate_pages.clauses_not_there(), [])
    for cell, wrong in (('`concludes`, `whole`', []), ('`ok`', ['ok']), ('`decides`', ['decides']),
                        ('`gave`; `whole`', ['gave']), ('`gave` of `same`; `one_verdict`', [])):
        tools.want(cell, crate_pages.not_of_the_row('canon3', '`check` returns', cell), wrong)
    exports = crate_pages.rows_of_exports()
    tools.want('what dev/api prints', (sorted(exports), min(exports.values()) > 0),
               (sorted(crate_pages.libraries()), True))


def completions_of_the_tools(tools: Tools) -> None:
    """The completions are what dev/completions makes of the parsers of the tools."""
    made = subprocess.run([sys.executable, str(TOP / 'dev/completions'), '--check'],
                          capture_output=True, text=True, check=False)
    tools.want('completions', (made.returncode, made.stdout, made.stderr), (0, '', ''))


def classes_of_the_mask(tools: Tools) -> None:
    """The help of nfs3mask, its manual page, its completions and the classes of the tools have the
    rows of the table of classes, in order."""
    ways = classes.usual_ways()
    tools.want('classes', len(ways), 13)
    tools.want('classes of the tools', list(values.CLASSES_BY_NAME), list(ways))
    for path, names in classes.listed().items():
        tools.want(path, names, list(ways))
    for path, told in classes.with_ways().items():
        tools.want(path, list(told.items()), list(ways.items()))


TESTS = [commands_of_the_pages, command_lines_of_the_pages, clause_on_the_page,
         lines_for_many_captures, examples_are_used, answers_of_the_examples,
         examples_are_made_alike, pages_agree, pages_of_the_tools, what_is_believed,
         what_rests_on_machines, rooms_stand_apart, rooms_of_the_tools, names_of_the_tools,
         lines_of_the_tools, pages_are_plain, tables_are_whole, names_lead_somewhere,
         trees_are_of_the_code, what_is_not_proved, clauses_of_each_function,
         clauses_of_the_claims, clauses_are_whole, pages_of_the_crates, completions_of_the_tools,
         classes_of_the_mask]


def main() -> None:
    try_all(words_of(__doc__), [(test.__name__, tried, Tools, test) for test in TESTS],
            os.cpu_count() or 2)


if __name__ == '__main__':
    main()
