#!/usr/bin/env python3
"""Refuses each growth of memory of the built program in turn, makes each call of the system fail,
and counts the reads and writes.

    python3 tests/faults/failures.py [PROGRAM] [--only TEXT] [-v]

PROGRAM is crates/nfs3canon/out/nfs3canon if none is named. Each try has a folder of its own, in
which the program runs traced (tracing.py); that takes Linux on x86-64, and elsewhere all is
skipped, with a word. The last line is 'N passed, M failed', and the status is 1 if any failed.
"""
import concurrent.futures
import errno
import itertools
import os
import pathlib
import random
import sys
import tempfile
from collections.abc import Callable, Iterator, Mapping
from typing import NamedTuple

sys.path.insert(0, str(pathlib.Path(__file__).resolve().parents[2]))
from examples import messages
from examples.messages import NFS, NFSACL, call, fragment, success
from tests.program.streams import random_recording
from tests.shared import outputs, tracing
from tests.shared.outputs import AS_IT_WAS, PACKED, SETTINGS, Found, Setting
from tests.shared.running import Runs, Try, command_of, try_all, words_of
from tests.shared.texts import mixed
from tests.shared.tracing import Answer, Fault
from tests.shared.traffic import Names, Traffic, in_version_2, streams_of

EXAMPLES = pathlib.Path(__file__).resolve().parents[2] / 'examples'
OUT_OF_MEMORY, READ_FAILED, WRITE_FAILED = 'out of memory\n', 'read failed\n', 'write failed\n'
BLOCK = 65_536
# The last growths of a run are those of its line, which is not printed if one of them is refused.
GROWTHS_OF_THE_LINE = 6
# The first calls for random bytes of a run: three hashers for each of two captures.
OF_HASHERS = 6
COMMANDS = ['check a', 'show a', 'canon a out', 'canon a /dev/stdout', 'same a a', 'pack out a a',
            'pack /dev/stdout a a', 'nfs3mask a out', 'nfs3mask a /dev/stdout owners=number']
OTHER_LINES = ['check absent', 'same a absent', 'canon a ./a', 'canon a new', 'pack new a a',
               'pack out a', 'check', 'shou a', '--help', 'nfs3mask a new', 'nfs3mask a ./a',
               'nfs3mask a out times', 'nfs3mask a']
# The commands that read a recording, which is then `a`.
OF_RECORDINGS = ['nfs3streams a out', 'nfs3streams --index a out']
# The commands that read one capture and write another.
REWRITING = ('canon', 'nfs3mask')
# Examples, and how many bytes of each the system gives at once if reads are to fail.
GIVEN_AT_ONCE = {'getattr': 3, 'two_connections': 7, 'bad_bool': 1, 'bad_server_record': 5,
                 'bad_file_length': 9,
                 'every_procedure': 997, 'interleaved': 101}
WRITTEN_AT_ONCE = 499
# What `same` says of a file, by the number under which it is open.
OF_FILE: dict[int | None, str] = {3: 'first: ', 4: 'second: '}
# The calls of the system that each fail once for each kind of output, and how.
LOOKING = (errno.ENOMEM, errno.EIO, errno.EACCES)
FAILING = {'stat': (*LOOKING, errno.ENOENT), 'open': LOOKING, 'readlink': LOOKING,
           'rename': (errno.EIO,), 'unlink': (errno.EIO,), 'mode': (errno.EPERM,),
           'sync': (errno.EIO,), 'random': (errno.EAGAIN,)}
MIXED = messages.interleaved(messages.in_turn([call(1, NFS, 3, 0)], [success(1)]))


class Place(Runs):
    """A folder with a capture `a`, and traced runs of the program there. `out` is there before
    each, as it was."""
    capture = b''

    def put(self, capture: bytes) -> None:
        self.capture = capture
        self.write('a', capture)

    def fail(self, line: str, fault: Fault | None = None,
             pieces: Mapping[str, int] | None = None) -> Answer:
        """What a traced run ended with, in which the fault happens."""
        self.write('out', AS_IT_WAS)
        if os.path.exists(self.path('new')):
            os.remove(self.path('new'))
        return tracing.run(*command_of(self.program, line.split()), self.folder, fault, pieces)

    def files(self) -> dict[str, bytes | None]:
        """What each name in the folder has."""
        return {name: self.read(name) for name in self.names()}

    def as_before(self) -> dict[str, bytes]:
        """The files if a command wrote none."""
        return {'a': self.capture, 'out': AS_IT_WAS}

    def want_end(self, what: str, answer: Answer, status: int, out: str, error: str) -> None:
        self.want(what, printed(answer), (status, out, error))


def printed(answer: Answer) -> tuple[int, str, str]:
    """The status and both outputs of a traced run."""
    return answer.status, answer.out, answer.error


def example(name: str) -> bytes:
    """A capture of the examples."""
    return (EXAMPLES / (name + '.nfs3cap')).read_bytes()


def drawn(seed: int) -> bytes:
    """A random capture."""
    traffic = Traffic(seed, Names.drawn(random.Random(seed)))
    return messages.capture(*traffic.connections)


def drawn_mixed(seed: int) -> bytes:
    """A random capture of version 2."""
    chance = random.Random(seed)
    return in_version_2(chance, streams_of(chance, Traffic(seed, Names.drawn(chance)).connections))


def of_long_lines() -> bytes:
    """A capture whose lines have more than a megabyte of text, or data and a string of many
    bytes."""
    entries = messages.entries(None, bytes(8), (messages.entry(number, b'name', number)
                                                for number in range(26_000)), True)
    calls = [call(1, NFS, 3, 16, messages.fh(b'd') + bytes(20)),
             call(2, NFS, 3, 3, messages.dirop(b'd', b'"' * 20_000)),
             call(3, NFSACL, 3, 1, bytes(20_000))]
    return messages.capture((calls, [success(1, messages.ok(entries))]))


# --- Memory ---

def growths(line: str, capture: bytes, place: Place) -> None:
    """If one growth is refused the program ends as if there were memory, since it can do without
    it, or memory ran out."""
    place.put(capture)
    plain = place.fail(line, Fault('growth', 0))
    written, last = place.files(), plain.counts['growth']
    harmless, told = 0, set[str]()
    place.want('growths of ' + line, last > 20, True)
    for number in range(1, last + 1):
        answer = place.fail(line, Fault('growth', number))
        told.add(answer.error)
        what = '%s without its growth %d of %d' % (line, number, last)
        if printed(answer) == printed(plain):
            place.want(what + ': files', place.files() == written, True)
            harmless += 1
        else:
            ran_out(place, what, answer, plain, last - number < GROWTHS_OF_THE_LINE, written)
    place.want('growths without which %s ends alike' % line, harmless <= 1 or line not in COMMANDS,
               True)
    if line == 'same a a':
        place.want('captures for which memory ran out',
                   {'first: ' + OUT_OF_MEMORY, 'second: ' + OUT_OF_MEMORY} <= told, True)


def ran_out(place: Place, what: str, answer: Answer, plain: Answer, is_of_the_line: bool,
            written: dict[str, bytes | None]) -> None:
    """Memory ran out, what was listed or written before is a front, and no file is left half
    written."""
    place.want(what, answer.status, 3)
    prefixes = ('first: ', 'second: ') if what.startswith('same') else ()
    lines = [prefix + OUT_OF_MEMORY for prefix in ('', *prefixes)] + [''] * is_of_the_line
    place.want(what, answer.error if answer.error not in lines else lines[0], lines[0])
    place.want(what + ': a front', answer.out, plain.out[:len(answer.out)] if is_streamed(what)
               else '')
    place.want(what + ': files', place.files() == (place.as_before() if answer.error else written),
               True)


def is_streamed(line: str) -> bool:
    """What is on standard output was written as the capture was read."""
    return line.startswith('show') or '/dev/stdout' in line


# --- Devices ---

def reads(line: str, capture: bytes, piece: int, place: Place) -> None:
    """What a run does if one read fails, and if one takes a byte."""
    place.put(capture)
    pieces = {'read': piece}
    plain = place.fail(line, pieces=pieces)
    written = place.files()
    for number in range(1, plain.counts['read'] + 1):
        answer = place.fail(line, Fault('read', number), pieces)
        what = '%s with read %d failed' % (line, number)
        place.want(what + ': files', place.files(), place.as_before())
        place.want(what + ': no read after it', answer.counts['read'], number)
        prefix = OF_FILE[answer.file] if line.startswith('same') else ''
        out = before_the_read(place, line, (number - 1) * piece, plain, answer)
        place.want_end(what, answer, 3, out, prefix + READ_FAILED)
    answer = place.fail(line, Fault('read', 1, takes=1), pieces)
    place.want_end(line + ' with a read of a byte', answer, *printed(plain))
    place.want('files', place.files() == written, True)


def interrupted(line: str, capture: bytes, piece: int, place: Place) -> None:
    """A read that a signal interrupts is tried again."""
    place.put(capture)
    pieces = {'read': piece}
    plain = place.fail(line, pieces=pieces)
    written, last = place.files(), plain.counts['read']
    for number in (1, 2, last // 2, last):
        answer = place.fail(line, Fault('read', number, errno.EINTR), pieces)
        what = '%s with read %d interrupted' % (line, number)
        place.want_end(what, answer, *printed(plain))
        place.want(what + ': reads', answer.counts['read'], last + 1)
        place.want(what + ': files', place.files() == written, True)


def before_the_read(place: Place, line: str, count: int, plain: Answer, answer: Answer) -> str:
    """What is on standard output: what is there of a capture that ends with the bytes read."""
    if line.startswith('pack'):
        return plain.out[:len(answer.out)]
    if not is_streamed(line):
        return ''
    if count >= len(place.capture):
        # That nothing comes after the last word 0 is not known yet, so its like is not written.
        return plain.out[:-4] if line.startswith(REWRITING) and plain.status == 0 else plain.out
    place.write('a', place.capture[:count])
    out = place.fail(line).out
    place.write('a', place.capture)
    return out


def writes(line: str, capture: bytes, place: Place) -> None:
    """What a run does if one write fails, takes nothing, or takes a byte."""
    place.put(capture)
    pieces = {'write': WRITTEN_AT_ONCE}
    plain = place.fail(line, pieces=pieces)
    written = place.files()
    for number in range(1, plain.counts['write'] + 1):
        what = '%s with write %d ' % (line, number)
        for way, fault in (('failed', Fault('write', number)),
                           ('on a full disk', Fault('write', number, errno.ENOSPC)),
                           ('of nothing', Fault('write', number, takes=0))):
            answer = place.fail(line, fault, pieces)
            place.want_end(what + way, answer, 3, plain.out[:len(answer.out)], WRITE_FAILED)
            place.want(what + way + ': no write after it', answer.counts['write'], number)
            is_of_the_line = answer.file == 1 and not is_streamed(line)
            place.want(what + way + ': files',
                       place.files() == (written if is_of_the_line else place.as_before()), True)
        answer = place.fail(line, Fault('write', number, takes=1), pieces)
        place.want_end(what + 'of a byte', answer, *printed(plain))
        place.want(what + 'of a byte: files', place.files() == written, True)


def syncs(line: str, place: Place) -> None:
    """What cannot be made safe on the disk does not get the name."""
    place.put(example('getattr'))
    answer = place.fail(line, Fault('sync', 1))
    place.want_end(line, answer, 3, '', WRITE_FAILED)
    place.want('calls', answer.counts['sync'], 1)
    place.want('files', place.files(), place.as_before())


def randoms(line: str, place: Place) -> None:
    """If the system gives no random bytes, nothing is read, listed or written. `pack` has no
    tables, and needs none for hashers."""
    place.put(example('getattr'))
    plain = place.fail(line)
    written, last, prefix = place.files(), plain.counts['random'], 'first: ' if line.startswith(
        'same') else ''
    place.want('calls of ' + line, last > 0, True)
    for number in range(1, last + 1):
        answer = place.fail(line, Fault('random', number))
        what = '%s without random bytes %d of %d' % (line, number, last)
        if line.startswith('pack') and number <= OF_HASHERS:
            place.want_end(what, answer, *printed(plain))
            place.want(what + ': files', place.files() == written, True)
            continue
        place.want(what, (answer.status, answer.out, answer.counts['read']), (3, '', 0))
        place.want(what, answer.error in (prefix + READ_FAILED, 'open failed: out\n'), True)
        place.want(what + ': files', place.files(), place.as_before())


def unopened_names(line: str, told: str, place: Place) -> None:
    """The report names that of two captures for whose name memory ran out."""
    place.put(example('getattr'))
    last = place.fail(line, Fault('growth', 0)).counts['growth']
    errors = [place.fail(line, Fault('growth', number)).error for number in range(1, last + 1)]
    place.want('growths of %s of which the file is told' % line, errors.count(told + OUT_OF_MEMORY),
               1)


# --- Outputs ---

class Seen(NamedTuple):
    """A run, what the folder has after it, and what came through a pipe, a fifo or standard
    output."""
    answer: Answer
    found: Found
    through: bytes


def calls(setting: Setting, place: Place) -> None:
    """If one call of the system fails, the inputs are as they were, and what has the name of the
    output is old or whole."""
    if not outputs.is_possible(setting):
        print('left out, since root alone makes devices: ' + setting.line)
        return
    capture = example('getattr')
    outputs.make(place.folder, setting, capture)
    before = outputs.found_in(place.folder)
    plain = seen(place, setting)
    is_told = plain.answer.error.startswith('ok ') or plain.answer.out.startswith('ok ')
    place.want(setting.line, (plain.answer.status, is_told),
               (setting.status, setting.status == 0 and setting.line.startswith(REWRITING)))
    whole = PACKED if setting.line.startswith('pack') else form_of(place, setting, capture)
    place.want('what was written', written(setting, plain), expected(setting, whole))
    for kind, errors in FAILING.items():
        last = plain.answer.counts[kind]
        for number, error in itertools.product(range(1, last + 1), errors):
            # Standard output, at which the first look is, is closed if it is not there. A link to
            # nothing that comes after the last look is replaced.
            if error == errno.ENOENT and (number == 1 or setting.status == 3):
                continue
            outputs.make(place.folder, setting, capture)
            what = '%s with %s %d of %d failed by %s' % (setting.line, kind, number, last,
                                                         errno.errorcode[error])
            old_or_whole(place, what, setting, seen(place, setting, Fault(kind, number, error)),
                         plain, before)


def seen(place: Place, setting: Setting, fault: Fault | None = None) -> Seen:
    """A run in a setting, in which the fault happens."""
    answer, through = outputs.run(place.program, place.folder, setting, fault)
    return Seen(answer, outputs.found_in(place.folder), through)


def form_of(place: Place, setting: Setting, capture: bytes) -> bytes | None:
    """What the command of a setting writes of a capture."""
    place.write('a', capture)
    place.fail(setting.line.split()[0] + ' a new')
    return place.read('new')


def written(setting: Setting, plain: Seen) -> bytes:
    """What was written to the output, of which standard output may have had bytes before."""
    if setting.status != 0 or not setting.written or setting.written in ('fifo', 'node'):
        return plain.through
    return content_of(plain.found, setting.written)


def content_of(found: Found, name: str) -> bytes:
    """The bytes of a file."""
    content = found[name][1]
    assert isinstance(content, bytes)
    return content


def expected(setting: Setting, whole: bytes | None) -> bytes | None:
    """What is to be written to the output."""
    if setting.status != 0 or setting.written == 'node':
        return b''
    return AS_IT_WAS + (whole or b'') if setting.stdout == 'out' else whole


def old_or_whole(place: Place, what: str, setting: Setting, run: Seen, plain: Seen,
                 before: Found) -> None:
    """A run ended as without a fault, or reported that a file could not be opened, read or
    written, and nothing is changed."""
    answer, found = run.answer, outputs.without_parts(run.found)
    if printed(answer) == printed(plain.answer):
        place.want(what + ': files', found, plain.found)
        place.want(what + ': through', run.through, plain.through)
    else:
        names = {'open failed: %s\n' % word for word in setting.line.split()[1:]}
        place.want(what, (answer.status, answer.out), (3, ''))
        place.want(what + ': ' + answer.error.strip(),
                   answer.error in {READ_FAILED, WRITE_FAILED, *names}, True)
        place.want(what + ': files', without_front(found, setting, before, plain.found), before)
        place.want(what + ': a front', plain.through.startswith(run.through), True)
    if ' unlink ' not in what:
        place.want(what + ': parts', found, run.found)


def without_front(found: Found, setting: Setting, before: Found, after: Found) -> Found:
    """The files as before, if standard output has no more than a front of what is written to it."""
    name = setting.stdout
    if name in before and content_of(after, name).startswith(content_of(found, name)):
        return {**found, name: before[name]}
    return found


def pipes_that_become_files(line: str, place: Place) -> None:
    """A file that has got the name of a pipe when it is opened is not written."""
    place.put(example('getattr'))
    os.mkfifo(place.path('pipe'))
    answer = place.fail(line, Fault('open', 1, name='pipe', before=lambda: os.replace(
        place.path('out'), place.path('pipe'))))
    place.want_end(line, answer, 3, '', 'open failed: pipe\n')
    place.want('files', place.files(), {'a': place.capture, 'pipe': AS_IT_WAS})


# --- How often is read ---

def of_version_1(rest: bytes) -> bytes:
    """A capture of one call, which is carried raw and ends with these bytes."""
    return messages.capture(([call(1, NFSACL, 3, 1, rest)], []))


def of_version_2(rest: bytes) -> bytes:
    """The same in version 2."""
    return mixed([[('>', fragment(call(1, NFSACL, 3, 1, rest)))]])


def number_of_reads(make: Callable[[bytes], bytes], place: Place) -> None:
    """One for each 65,536 bytes, and one that finds the end; none after the first fault."""
    def of_size(size: int) -> bytes:
        return make(bytes(size - len(make(b''))))
    for size in (100, BLOCK - 1, BLOCK, BLOCK + 1, 5 * BLOCK, 1_000_000):
        most = -(-size // BLOCK) + 1
        place.put(of_size(size))
        for line, files in (('check a', 1), ('show a', 1), ('canon a new', 1),
                            ('nfs3mask a new', 1), ('same a a', 2), ('pack new a a', 2)):
            answer = place.fail(line)
            place.want('%s of %d bytes' % (line, size), (answer.status, answer.counts['read']),
                       (0, files * most))
        place.put(of_size(size) + bytes(3 * BLOCK))
        for line in ('check a', 'show a', 'canon a out', 'nfs3mask a out'):
            answer = place.fail(line)
            place.want_end(line, answer, 2, answer.out if line == 'show a' else '',
                           'file %d: AfterEnd\n' % size)
            place.want('%s, refused at %d' % (line, size), answer.counts['read'], size // BLOCK + 1)
    for line in ('check /dev/zero', 'show /dev/zero', 'canon /dev/zero out',
                 'nfs3mask /dev/zero out'):
        answer = place.fail(line)
        place.want_end(line, answer, 2, '', 'file 0: BadMagic\n')
        place.want(line, answer.counts['read'], 1)


def number_of_writes(place: Place) -> None:
    """What is written is gathered in 65,536 bytes, of which at most one message's are left free;
    `pack` writes each chunk and each word at once."""
    capture = messages.capture(([call(number, NFSACL, 3, 1, bytes(4_000))
                                 for number in range(1, 501)], []))
    place.put(capture)
    listing = place.run('show', 'a')[1]
    longest = max(map(len, listing.splitlines())) + 1
    chunks = -(-len(capture) // BLOCK)
    rewritten = -(-len(capture) // (BLOCK - 4_100)) + 1
    for line, most in (('canon a out', rewritten), ('nfs3mask a out', rewritten),
                       ('show a', -(-len(listing) // (BLOCK - longest)))):
        answer = place.fail(line)
        place.want(line, (answer.status, answer.counts['write'] <= most), (0, True))
    answer = place.fail('pack out a a')
    words = ('magic', 'connection', 'client', 'server', 'end')
    place.want('pack', (answer.status, answer.counts['write']), (0, 2 * 2 * chunks + len(words)))


def tries() -> Iterator[tuple[str, Callable[..., None], *tuple[object, ...]]]:
    """Each a name, what to call, and what to call it with before its place."""
    examples = {name: example(name) for name in GIVEN_AT_ONCE}
    captures = {name: examples[name] for name in ('getattr', 'bad_server_record',
                                                  'every_procedure')}
    # The second has more than a block.
    captures.update({'drawn%d' % seed: drawn(seed) for seed in (1, 169)})
    captures.update({'interleaved': examples['interleaved'], 'drawn_mixed169': drawn_mixed(169)})
    for name, capture in captures.items():
        for line in COMMANDS:
            yield 'growths: %s of %s' % (line, name), growths, line, capture
    yield 'growths: show a of long lines', growths, 'show a', of_long_lines()
    for line in OTHER_LINES:
        yield 'growths: ' + line, growths, line, captures['getattr']
    for name, piece in GIVEN_AT_ONCE.items():
        for line in COMMANDS:
            yield 'reads: %s of %s' % (line, name), reads, line, examples[name], piece
            yield 'writes: %s of %s' % (line, name), writes, line, examples[name]
    for line in COMMANDS:
        yield 'reads: %s of version 2 byte by byte' % line, reads, line, MIXED, 1
    for seed, line in itertools.product((12, 27, 41), OF_RECORDINGS):
        for test in (growths, writes):
            yield f'{test.__name__}: {line} of recording {seed}', test, line, random_recording(seed)
        yield f'reads: {line} of recording {seed}', reads, line, random_recording(seed), 211
    for line in COMMANDS:
        yield ('interrupted reads: ' + line, interrupted, line, examples['two_connections'],
               GIVEN_AT_ONCE['two_connections'])
    for line in OF_RECORDINGS:
        yield 'interrupted reads: ' + line, interrupted, line, random_recording(12), 211
    for line in ('canon a out', 'canon a new', 'nfs3mask a out', 'nfs3mask a new', 'pack out a a',
                 'pack new a a'):
        yield 'syncs: ' + line, syncs, line
    for line in ('check a', 'show a', 'canon a out', 'nfs3mask a out', 'same a a', 'pack out a a'):
        yield 'random bytes: ' + line, randoms, line
    for line, told in (('same absent a', 'first: '), ('same a absent', 'second: ')):
        yield 'unopened names: ' + line, unopened_names, line, told
    for name, setting in SETTINGS.items():
        yield 'outputs: ' + name, calls, setting
    for line in ('canon a pipe', 'nfs3mask a pipe', 'pack pipe a a'):
        yield 'pipes that become files: ' + line, pipes_that_become_files, line
    for make in (of_version_1, of_version_2):
        yield 'number of reads: ' + make.__name__, number_of_reads, make
    yield 'number of writes', number_of_writes


def tried(program: str, test: Callable[..., None], *given: object) -> list[str]:
    """What is wrong in a test, which has a folder of its own."""
    with tempfile.TemporaryDirectory(prefix='nfs3canon') as folder:
        place = Place(program, folder)
        test(*given, place)
        return place.wrong


def main() -> None:
    words, why = words_of(__doc__), tracing.why_not()
    if why:
        print('left out, since ' + why)
        print('0 passed, 0 failed')
        return
    chosen: list[Try] = [(name, tried, *rest) for name, *rest in tries()]
    try_all(words, chosen, os.cpu_count(), concurrent.futures.ProcessPoolExecutor)


if __name__ == '__main__':
    main()
