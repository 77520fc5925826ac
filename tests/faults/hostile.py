#!/usr/bin/env python3
"""Runs the built program with memory, disks, pipes and inputs that are as bad as a recording tool
meets them.

    python3 tests/faults/hostile.py [PROGRAM] [--only TEXT] [-v]

PROGRAM is crates/nfs3canon/out/nfs3canon if none is named. Each test below is a function with a
folder of its own. The last line is 'N passed, M failed', and the status is 1 if any failed. It
takes less than a minute on four cores.
"""
import fcntl
import functools
import math
import os
import pathlib
import shutil
import signal
import struct
import subprocess
import sys
import termios
import threading
import time
from collections.abc import Callable, Iterable, Iterator, Sequence
from typing import IO

sys.path.insert(0, str(pathlib.Path(__file__).resolve().parents[2]))
from examples import messages
from examples.messages import (
    CLIENT, MAGIC_2, MOUNT, NFS, NFSACL, call, dirop, fh, fragment, hyper, in_turn, interleaved,
    success, word)
from tests.shared.outputs import PART
from tests.shared.running import (
    LIMIT, Answer, RunOptions, Runs, ended, pipe_of, pipe_without_reader, try_tests)
from tests.shared.texts import mixed

Streams = tuple[bytes, bytes]  # the chunks of both sides, the client's first
NOBODY = 65_534
# of the time that twice as much takes; it is 4 if time grows by the square
MOST_RATIO, ROUNDS = 2.6, 8
MOST_IN_ANOTHER_ORDER = 3  # of the time that the same connections take if the large one is the last
MOST_CONNECTIONS = 65_535
LONGEST = 1 << 24  # the bytes that a record's body may have
KNOWN_WORD = 0x9e3779b97f4a7c15  # of the kit's `FoldHasher`
NULL = ([call(1, NFS, 3, 0)], [success(1)])
GOOD = messages.capture(NULL)  # its own canonical form
GOOD_2 = interleaved(in_turn(*NULL))
GOOD_LINE = 'ok connections=1 calls=1 replies=1 handles=0\n'
# So is this one; its listing is longer.
LARGE = messages.capture(([call(number, NFSACL, 3, 1, bytes(4_000)) for number in range(1, 1_001)],
                          []))
LARGE_LINE = 'ok connections=1 calls=1000 replies=0 handles=0\n'
REFUSED_LARGE = 'file 3000000: CaptureCut\n'


class Place(Runs):
    """A folder, and runs of the program there."""

    def limited(self, limit: str, *words: str) -> Answer:
        """A run under `ulimit`."""
        return self.run(*words, before=under(limit))

    def fed(self, words: list[str], pieces: Iterable[bytes], before: Sequence[str] = ()) -> Answer:
        """A run with these pieces on its standard input, as many of them as it takes."""
        process = self.begin(*words, before=before, stdin=subprocess.PIPE)
        feeder = threading.Thread(target=feed, args=(process.stdin, pieces), daemon=True)
        feeder.start()
        out, error = pipe_of(process.stdout).read(), pipe_of(process.stderr).read()
        feeder.join(LIMIT)
        return process.wait(LIMIT), out.decode(), error.decode()

    def least_memory(self) -> int:
        """The least address space, in KiB, with which the program checks a small capture."""
        self.write('small', GOOD)
        low, high = 0, 65_536
        while high - low > 16:
            middle = (low + high) // 2
            if self.limited('-v %d' % middle, 'check', 'small')[0] == 0:
                high = middle
            else:
                low = middle
        return high


Test = Callable[[Place], None]


def under(limit: str) -> list[str]:
    """The words that run a program under `ulimit` in the shell's words. A file that gets too long
    is an error, and does not end it."""
    return by_shell('trap "" XFSZ; ulimit %s; exec "$@"' % limit)


def by_shell(script: str) -> list[str]:
    """The words that run a program by a script of the shell, which has the program's command line
    as `"$@"`."""
    return ['sh', '-c', script, 'sh']


def feed(pipe: IO[bytes], pieces: Iterable[bytes]) -> None:
    """Writes the pieces, as many of them as are read, and closes the pipe."""
    try:
        for piece in pieces:
            pipe.write(piece)
        pipe.close()
    except BrokenPipeError:
        pass


def feed_fifo(path: str, pieces: Iterable[bytes]) -> None:
    with open(path, 'wb', buffering=0) as pipe:
        feed(pipe, pieces)


def endless(first: bytes, piece: bytes) -> Iterator[bytes]:
    """The first piece, and then the other again and again."""
    yield first
    while True:
        yield piece


def wait_for(condition: Callable[[], object]) -> None:
    end = time.monotonic() + LIMIT
    while not condition() and time.monotonic() < end:
        time.sleep(0.01)


# --- Memory ---

def many(count: int) -> bytes:
    """NULL calls and their replies with different xids, and GETATTR calls on different handles."""
    calls = [call(number, NFS, 3, 1, fh(hyper(number) * 3)) for number in range(count)]
    return messages.capture((calls, []), NULL, ([call(9, NFSACL, 3, 1, bytes(50 * count))], []))


def many_in_version_2(count: int) -> bytes:
    """The same."""
    calls = [call(number, NFS, 3, 1, fh(hyper(number) * 3)) for number in range(count)]
    return interleaved([(CLIENT, body) for body in calls], in_turn(*NULL),
                       [(CLIENT, call(9, NFSACL, 3, 1, bytes(50 * count)))])


def memory_that_is_refused(place: Place) -> None:
    """Under each limit the answer is the one of plenty of memory, or memory ran out, and OUT is
    whole or as it was."""
    refuse_memory(place, many(20_000))


def memory_that_is_refused_to_version_2(place: Place) -> None:
    refuse_memory(place, many_in_version_2(20_000))


def refuse_memory(place: Place, capture: bytes) -> None:
    place.write('a', capture)
    commands = {'check': ['a'], 'show': ['a'], 'same': ['a', 'a'], 'canon': ['a', 'out'],
                'nfs3mask': ['a', 'out', 'ids=keep']}
    plenty: dict[str, Answer] = {}
    forms: dict[str, bytes | None] = {}
    refused: set[str] = set()
    for command, names in commands.items():
        plenty[command] = place.run(command, *names)
        forms[command] = place.read('out') if 'out' in names else b'as it was'
    for limit in range(place.least_memory(), 32_768, 384):
        for command, names in commands.items():
            place.write('out', b'as it was')
            answer = place.limited('-v %d' % limit, command, *names)
            is_refused = ran_out(answer, plenty[command])
            if is_refused:
                refused.add(command)
            else:
                place.want('%s with %d KiB' % (command, limit), answer, plenty[command])
            wanted = b'as it was' if is_refused else forms[command]
            place.want('out is right after %s with %d KiB' % (command, limit),
                       place.read('out') == wanted, True)
    place.want('commands that were refused memory', sorted(refused), sorted(commands))
    place.want('files', place.names(), ['a', 'out', 'small'])


def ran_out(answer: Answer, plenty: Answer) -> bool:
    """The answer says so, or says nothing if there was no memory for that either. Lines that are
    listed were right."""
    status, out, error = answer
    front = plenty[1] if plenty[1].count('\n') > 1 else ''
    prefixes = ('first: ', 'second: ', '')
    return status == 3 and front.startswith(out) and error in [
        '', *(prefix + 'out of memory\n' for prefix in prefixes)]


def lengths_with_nothing_after_them(place: Place) -> None:
    """A length takes no memory."""
    head = 'connection 1 client record 1 byte '
    body = call(1, NFS, 3, 3, dirop(b'a' * 8, b''))[:-4] + word(40_000_000)
    begin = MAGIC_2 + word(1) + word(1)
    cases = [
        (begin + word(40_000_000), 'file 20: CaptureCut\n'),
        (begin + word(4) + word(0x81000000) + word(0), head + '0: RecordCut\n'),
        (begin + word(4) + word(0x81000001) + word(0), head + '0: RecordTooLong\n'),
        (messages.MAGIC + word(1) + word(40_000_000), 'file 16: CaptureCut\n'),
        (messages.MAGIC + word(1) + word(4) + word(0x81000000), 'file 20: CaptureCut\n'),
        (messages.MAGIC + word(1) + word(4) + word(0x81000000) + word(0) * 3,
         head + '0: RecordCut\n'),
        (messages.MAGIC + word(1) + word(4) + word(0x81000001) + word(0) * 3,
         head + '0: RecordTooLong\n'),
        (messages.capture(([body], [])), head + '56: Short\n'),
        (messages.capture(([call(1, NFS, 3, 7, fh(b'') + bytes(16) + word(40_000_000))], [])),
         head + '64: Short\n')]
    limit = place.least_memory() + 2_048
    for number, (capture, line) in enumerate(cases):
        name = 'length%d' % number
        place.write(name, capture)
        for command in ('check', 'show'):
            place.want('%s %s' % (command, name), place.limited('-v %d' % limit, command, name),
                       (2, '', line))


def conversation(count: int, size: int) -> list[tuple[str, bytes]]:
    """The chunks of calls and their replies in turn, each with so many bytes, of a raw
    procedure."""
    return [chunk for xid in range(count)
            for chunk in (('>', fragment(call(xid, NFSACL, 3, 1, bytes(size)))),
                          ('<', fragment(success(xid, bytes(size)))))]


def memory_of_one_connection(place: Place) -> None:
    """Of version 2 the streams of one connection are kept, at most thrice while they grow, and
    those of the next in their place: 1 MB of streams, once and thirty times, and the same in chunks
    of a byte, takes 3 MB at most beside what the smallest capture takes."""
    once = conversation(50, 10_000)
    place.write('once', mixed([once]))
    place.write('often', mixed([once] * 30))
    place.write('bytes',
                mixed([[(side, bytes([byte])) for side, content in once for byte in content]]))
    limit = place.least_memory() + 3_000
    for name, times in (('once', 1), ('often', 30), ('bytes', 1)):
        line = 'ok connections=%d calls=%d replies=%d handles=0\n' % (times, 50 * times, 50 * times)
        for words in (['check', name], ['canon', name, '/dev/null']):
            place.want(' '.join(words), place.limited('-v %d' % limit, *words), (0, line, ''))


def memory_of_a_long_line(place: Place) -> None:
    """The text of a line is given back when its stream ends: one of 4 MB, and then 120,000 calls of
    another connection, take 9.5 MB at most beside what the smallest capture takes. Both at once
    would take 11."""
    long = [call(1, NFS, 3, 3, dirop(b'', bytes(1_000_000)))]
    others = [call(number * 0x9e3779b1 % 2 ** 32, NFS, 3, 0) for number in range(120_000)]
    place.write('a', messages.capture((long, []), (others, [])))
    answer = place.limited('-v %d' % (place.least_memory() + 9_500), 'show', 'a')
    place.want('show', answer == place.run('show', 'a'), True)
    place.want('lines', (answer[0], answer[1].count('\n')), (0, 120_001))


# Runs a command, whose output is thrown away, and prints its status and the most memory that it
# had, in KiB.
PEAK = """import resource, subprocess, sys
status = subprocess.run(sys.argv[1:], stdout=subprocess.DEVNULL).returncode
print(status, resource.getrusage(resource.RUSAGE_CHILDREN).ru_maxrss)"""


def memory_of_the_longest_line(place: Place) -> None:
    """A line is held until its record is judged. One of 16 MiB of words with the most digits each
    takes less than six times its record."""
    head = success(1, word(0) + fh(b'root'))
    count = (LONGEST - len(head) - 4) // 4
    replies = [head + word(count) + b'\xff' * (4 * count)]
    place.write('a', messages.capture(([call(1, MOUNT, 3, 1, fh(b'/d'))], replies)))
    status, out, error = place.run('show', 'a', before=[sys.executable, '-c', PEAK])
    done, peak = map(int, out.split())
    place.want('statuses', (status, done, error), (0, 0, ''))
    place.want('memory', LONGEST < peak * 1024 < 6 * LONGEST, True)


def streams_without_an_end(place: Place) -> None:
    """A connection of version 2 whose side word 0 does not come takes what memory there is, and no
    more."""
    place.write('good', GOOD)
    limit = under('-v %d' % (place.least_memory() + 8_192))
    chunk = MAGIC_2 + word(1) + word(2) + word(1 << 30)
    for words, prefix in ((['check', '/dev/stdin'], ''), (['show', '/dev/stdin'], ''),
                          (['same', '/dev/stdin', 'good'], 'first: ')):
        answer = place.fed(words, endless(chunk, bytes(65_536)), limit)
        place.want(' '.join(words), answer, (3, '', prefix + 'out of memory\n'))


# --- Disks, pipes and signals ---

def disks_that_are_full_in_the_middle(place: Place) -> None:
    """A regular file that may not get longer is taken for a full disk, which a test cannot make."""
    place.write('a', LARGE)
    place.write('out', b'as it was')
    for name in ('out', 'new'):
        for blocks in (0, 1, 200, 7_000):
            for words in (['canon', 'a', name], ['pack', name, 'a', 'a']):
                place.want(' '.join(words), place.limited('-f %d' % blocks, *words),
                           (3, '', 'write failed\n'))
    place.want('out', place.read('out'), b'as it was')
    place.want('files', place.names(), ['a', 'out'])
    for words in (['canon', 'a', '/dev/full'], ['pack', '/dev/full', 'a', 'a']):
        place.want(' '.join(words), place.run(*words), (3, '', 'write failed\n'))


def readers_that_go_away(place: Place) -> None:
    place.write('a', LARGE)
    for words in (['show', 'a'], ['canon', 'a', '/dev/stdout'], ['pack', '/dev/stdout', 'a', 'a']):
        process = place.begin(*words)
        listing = pipe_of(process.stdout)
        listing.read(1)
        listing.close()
        place.want(words[0], (process.wait(LIMIT), pipe_of(process.stderr).read()),
                   (3, b'write failed\n'))


def pipes_that_do_not_wait(place: Place) -> None:
    """A full pipe that does not wait is a failed write."""
    place.write('a', LARGE)
    reader, writer = os.pipe()
    os.set_blocking(writer, False)
    place.want('show', place.run('show', 'a', stdout=writer), (3, '', 'write failed\n'))
    os.close(reader)
    os.close(writer)


def standard_error_that_nobody_reads(place: Place) -> None:
    """The status still shows it."""
    place.write('a', messages.MAGIC)
    writer = pipe_without_reader()
    place.want('check', place.run('check', 'a', stderr=writer), (2, '', ''))
    os.close(writer)


def standard_files_that_are_closed(place: Place) -> None:
    """No line gets into a file that took the place of standard output."""
    place.write('a', GOOD)
    for closed in ('>&-', '<&- >&-', '<&- >&- 2>&-'):
        error = '' if closed.endswith('2>&-') else 'write failed\n'
        for words, wanted in ((['check', 'a'], 3), (['show', 'a'], 3), (['canon', 'a', 'out'], 3),
                              (['pack', 'out', 'a', 'a'], 0)):
            answer = place.run(*words, before=by_shell('exec "$@" ' + closed))
            place.want(' '.join(words), answer, (wanted, '', error if wanted else ''))
            place.want('what canon wrote', place.read('out') if words[0] == 'canon' else GOOD, GOOD)
    place.want('check of what was packed', place.run('check', 'out')[0], 2)


def part_in(place: Place) -> str:
    """The file that is written beside its name, once it has some bytes."""
    def parts() -> list[str]:
        return [name for name in place.names() if PART.fullmatch(name) and place.read(name)]
    wait_for(parts)
    if not parts():
        raise TimeoutError('nothing is written beside the output')
    return parts()[0]


def signals_in_the_middle(place: Place) -> None:
    """What has the name of the output stays. What was written beside it stays too, is for its owner
    alone, and is in nobody's way."""
    place.write('a', LARGE)
    for words in (['canon', '/dev/stdin', 'out'], ['pack', 'out', '/dev/stdin', 'a'],
                  ['canon', '/dev/stdin', 'new']):
        for number in (signal.SIGTERM, signal.SIGINT, signal.SIGKILL):
            place.write('out', b'as it was')
            process = place.begin(*words, stdin=subprocess.PIPE)
            given = pipe_of(process.stdin)
            given.write(LARGE[:2_000_000])
            given.flush()
            part = part_in(place)
            place.want('mode of the part', os.stat(place.path(part)).st_mode & 0o7777, 0o600)
            process.send_signal(number)
            place.want('%s %s' % (words[0], number), process.wait(LIMIT), -number)
            given.close()
            place.want('files', place.names(), sorted([part, 'a', 'out']))
            place.want('out', place.read('out'), b'as it was')
            place.want('canon after it', place.run('canon', 'a', 'out'), (0, LARGE_LINE, ''))
            os.remove(place.path(part))


def names_that_are_taken_in_the_middle(place: Place) -> None:
    """If the whole output cannot get its name, what was written beside it is removed, and what has
    got the name stays."""
    place.write('out', b'as it was')
    for name in ('out', 'new'):
        process = place.begin('canon', '/dev/stdin', name, stdin=subprocess.PIPE)
        given = pipe_of(process.stdin)
        given.write(LARGE[:2_000_000])
        part_in(place)
        if name == 'out':
            os.remove(place.path(name))
        os.mkdir(place.path(name))
        feed(given, [LARGE[2_000_000:]])
        place.want('canon', (process.wait(LIMIT), pipe_of(process.stderr).read()),
                   (3, b'write failed\n'))
        place.want('files', (place.names(), os.listdir(place.path(name))), ([name], []))
        os.rmdir(place.path(name))


def runs_at_once(place: Place) -> None:
    """All of them succeed, whichever is the last."""
    sides = [[call(number, NFSACL, 3, 1, bytes(4_000))] * 100 for number in range(1, 13)]
    captures, streams = [messages.capture((side, []))
                         for side in sides], [b''.join(map(fragment, side)) for side in sides]
    place.write('no', b'')
    for words, others in ((['canon', '/dev/stdin', 'out'], captures),
                          (['nfs3mask', '/dev/stdin', 'out'], captures),
                          (['pack', 'out', '/dev/stdin', 'no'], streams)):
        for before in (b'as it was', None):
            if before is None:
                os.remove(place.path('out'))
            else:
                place.write('out', before)
            runs = [place.begin(*words, stdin=subprocess.PIPE) for _ in others]
            for process, content in zip(runs, others):
                given = pipe_of(process.stdin)
                given.write(content[:300_000])
                given.flush()
            wait_for(lambda: len([name for name in place.names() if PART.fullmatch(name)
                                  and place.read(name)]) == len(runs))
            for process, content in zip(runs, others):
                feed(pipe_of(process.stdin), [content[300_000:]])
            ends = [(process.wait(LIMIT), pipe_of(process.stderr).read()) for process in runs]
            for process in runs:
                pipe_of(process.stdout).close()
                pipe_of(process.stderr).close()
            place.want('%s, before: %r' % (words[0], before), ends, [(0, b'')] * len(runs))
            place.want('check of the output', place.run('check', 'out'),
                       (0, 'ok connections=1 calls=100 replies=0 handles=0\n', ''))
            place.want('files', place.names(), ['no', 'out'])


def many_streams_and_few_open_files(place: Place) -> None:
    place.write('call', fragment(NULL[0][0]))
    place.write('reply', fragment(NULL[1][0]))
    place.want('pack', place.limited('-n 16', 'pack', 'out', *['call', 'reply'] * 3_000),
               (0, '', ''))
    place.want('what was packed', place.read('out') == messages.capture(*[NULL] * 3_000), True)


# --- Names, folders and rights ---

def names_of_the_most_bytes(place: Place) -> None:
    """A name of an output may have 255 bytes, as many as a file system takes."""
    place.write('a', GOOD)
    for size in (250, 251, 255):
        for _ in range(2):
            place.want('canon', place.run('canon', 'a', 'n' * size), (0, GOOD_LINE, ''))
            place.want('pack', place.run('pack', 'p' * size, 'a', 'a'), (0, '', ''))
    place.want('a name of 256', place.run('canon', 'a', 'n' * 256),
               (3, '', 'open failed: %s\n' % ('n' * 256)))
    place.want('files', place.names(),
               sorted(['a', *(kind * size for kind in 'np' for size in (250, 251, 255))]))


def folders_that_no_path_names(place: Place) -> None:
    """An output that is no link is written again as the first time if the name of its folder is no
    text, or the path is longer than the system takes."""
    for names in ([b'\xff'], [b'd' * 200] * 30):
        folder = os.open(place.folder, os.O_RDONLY)
        for part in names:
            os.mkdir(part, dir_fd=folder)
            folder = os.open(part, os.O_RDONLY, dir_fd=folder)
        with open(os.open('a', os.O_WRONLY | os.O_CREAT, dir_fd=folder), 'wb') as file:
            file.write(GOOD)
        for _ in range(2):
            answer = place.run('canon', 'a', 'out', prepare=functools.partial(os.fchdir, folder))
            place.want('canon a out', answer, (0, GOOD_LINE, ''))
        place.want('files', sorted(os.listdir(folder)), ['a', 'out'])


def as_nobody(place: Place) -> Callable[..., Answer] | None:
    """How somebody whom modes bind runs a copy of the program; nothing if the tests do not run as
    root."""
    if os.geteuid() != 0:
        return None
    os.chmod(place.folder, 0o777)
    # since the repository may be in a folder into which others may not look
    program = shutil.copy(place.program, place.folder)
    return lambda *words: ended([program, *words], place.folder, user=NOBODY).text()


def outputs_that_are_refused_before_the_work(place: Place) -> None:
    """The input is refused, but the report is that nothing can be written to the output."""
    place.write('a', messages.MAGIC)
    run = as_nobody(place)
    if run is None:
        print('left out, since the tests do not run as root: outputs that are refused before the '
              'work')
        return
    place.write('of_root', b'as it was')
    os.mkdir(place.path('closed'), 0o755)
    os.chmod(place.path('closed'), 0o755)
    place.write('closed/open', b'as it was')
    os.chmod(place.path('closed/open'), 0o666)
    for name in ('of_root', 'closed/new', 'closed/open'):
        place.want(name, run('canon', 'a', name), (3, '', 'open failed: %s\n' % name))
    place.write('log', b'as it was')
    log = place.path('log')
    if ended(['chattr', '+a', log], place.folder).status != 0:
        print('left out, since no file can be made append-only here: an append-only file')
    else:
        place.want('an append-only file', place.run('canon', 'a', 'log'),
                   (3, '', 'open failed: log\n'))
        ended(['chattr', '-a', log], place.folder)
    for name in ('of_root', 'closed/open', 'log'):
        place.want(name, place.read(name), b'as it was')
    place.want('files', place.names(), ['a', 'closed', 'log', os.path.basename(place.program),
                                        'of_root'])
    place.want('files', sorted(os.listdir(place.path('closed'))), ['open'])


def rights_on_an_output(place: Place) -> None:
    """The owner of an output has the rights that the one before had. The group and the others have
    those of all before, and nobody those of the bits that lend its owner's rights."""
    place.write('a', GOOD)
    path = place.path('out')
    kept = {0o644: 0o644, 0o600: 0o600, 0o6755: 0o755, 0o1606: 0o600, 0o640: 0o600, 0o664: 0o644,
            0o770: 0o700, 0o266: 0o222, 0o666: 0o666}
    for owner in (os.geteuid(), NOBODY) if os.geteuid() == 0 else (os.geteuid(),):
        for mode, wanted in kept.items():
            place.write('out', b'as it was')
            os.chown(path, owner, -1)
            os.chmod(path, mode)
            place.want('canon', place.run('canon', 'a', 'out'), (0, GOOD_LINE, ''))
            place.want('rights of %o, of %d' % (mode, owner), os.stat(path).st_mode & 0o7777,
                       wanted)
    for mask in (0o022, 0o027, 0o077):
        os.remove(path)
        answer = place.run('canon', 'a', 'out', before=by_shell('umask %o; exec "$@"' % mask))
        place.want('canon to a new file', (answer, os.stat(path).st_mode & 0o7777),
                   ((0, GOOD_LINE, ''), 0o666 & ~mask))


def access_list(*entries: tuple[int, int, int]) -> bytes:
    """An access control list as Linux keeps it in an extended attribute: for each entry its tag,
    its rights and a user or group."""
    return struct.pack('<I', 2) + b''.join(struct.pack('<HHI', *entry) for entry in entries)


def access_control_lists(place: Place) -> None:
    """Neither the list of a file that is replaced, nor the default list of its folder, gives
    anybody a right that he had not."""
    owner, user, group, mask, others, nobody = 0x01, 0x02, 0x04, 0x10, 0x20, 0xffffffff
    path = place.path('out')

    def mode_after(mode: int, listed: bytes | None) -> int:
        """The mode of an output that had this one, or this list, before the run."""
        place.write('out', b'as it was')
        os.chmod(path, mode)
        if listed is not None:
            os.setxattr(path, 'system.posix_acl_access', listed)
        place.want('mode before', os.stat(path).st_mode & 0o777, mode)
        place.want('canon', place.run('canon', 'a', 'out'), (0, GOOD_LINE, ''))
        return os.stat(path).st_mode & 0o777
    place.write('a', GOOD)
    by_mask = {rights: access_list((owner, 6, nobody), (user, 6, NOBODY), (group, 0, nobody),
                                   (mask, rights, nobody), (others, 0, nobody))
               for rights in (6, 4)}
    try:
        place.want('a mask of rw-', mode_after(0o660, by_mask[6]), 0o600)
    except OSError as error:
        print('left out, since the file system has no access control lists (%s): access control '
              'lists' % error.strerror)
        return
    place.want('a mask of r--', mode_after(0o640, by_mask[4]), 0o600)
    os.remove(path)
    place.write('out', b'as it was')
    default = access_list((owner, 7, nobody), (user, 6, NOBODY), (group, 5, nobody),
                          (mask, 7, nobody), (others, 5, nobody))
    os.setxattr(place.folder, 'system.posix_acl_default', default)
    place.want('a default list of the folder', mode_after(0o640, None), 0o600)
    place.want('a default list, and rights of all others', mode_after(0o644, None), 0o644)


def mounted(place: Place, script: str, *words: str) -> Answer | None:
    """A run after a script that mounts something for it alone, or nothing if that may not be."""
    flags = '-m' if os.geteuid() == 0 else '-rm'
    try:
        answer = place.run(*words,
                           before=['unshare', flags,
                                   *by_shell('(%s) >/dev/null 2>&1 || exit 77; exec "$@"'
                                             % script)])
    except FileNotFoundError:
        return None
    return None if answer[0] == 77 or answer[2].startswith('unshare: ') else answer


def files_of_two_devices_with_one_number(place: Place) -> None:
    """They are two files."""
    place.write('a', GOOD)
    for name in ('one', 'two'):
        os.mkdir(place.path(name))
    script = ('mount -t tmpfs none one && mount -t tmpfs none two && cp a one/a && cp a two/out && '
              '[ "$(stat -c %i one/a)" = "$(stat -c %i two/out)" ]')
    for words, out in ((['canon', 'one/a', 'two/out'], GOOD_LINE),
                       (['pack', 'two/out', 'a', 'a', 'one/a', 'one/a'], '')):
        answer = mounted(place, script, *words)
        if answer is None:
            print('left out, since nothing can be mounted here: files of two devices with one '
                  'number')
            return
        place.want(' '.join(words), answer, (0, out, ''))


def removed_files_by_their_numbers(place: Place) -> None:
    """The link in /proc to a removed file leads to that file, and not to the one that
    has the name which it gives."""
    place.write('a', GOOD)
    for words in (['canon', 'a', '/proc/self/fd/7'], ['pack', '/proc/self/fd/7', 'a', 'a'],
                  ['nfs3mask', 'a', '/proc/self/fd/7']):
        for other in (b'of somebody else', GOOD, None):
            if other is not None:
                place.write('del (deleted)', other)
            answer = place.run(*words,
                               before=by_shell('echo as it was > del; exec 7<> del; rm del; exec '
                                               '"$@"'))
            place.want(words[0], answer, (3, '', 'open failed: /proc/self/fd/7\n'))
            place.want('the other file', place.read('del (deleted)'), other)
            if other is not None:
                os.remove(place.path('del (deleted)'))
    place.want('files', place.names(), ['a'])
    answer = place.run('canon', 'a', '/proc/self/fd/7',
                       before=by_shell('echo as it was > out; exec 7<> out; exec "$@"'))
    place.want('a file that has its name', (answer, place.read('out')), ((0, GOOD_LINE, ''), GOOD))


# --- Inputs ---

def inputs_that_never_end(place: Place) -> None:
    place.write('good', GOOD)
    first = messages.MAGIC + word(1) + word(0x40000000)
    stdin = ['check', '/dev/stdin']
    zeros = word(1 << 20) + bytes(1 << 20)
    cases = [
        (endless(b'', b'y\n' * 32_768), stdin, 'file 0: BadMagic\n'),
        (endless(messages.MAGIC, b'y\n' * 32_768), stdin, 'file 8: BadMark\n'),
        (endless(GOOD, b'y\n' * 32_768), stdin, 'file 104: AfterEnd\n'),
        (endless(GOOD_2, b'y\n' * 32_768), stdin, 'file 108: AfterEnd\n'),
        (endless(MAGIC_2 + word(1), b'y\n' * 32_768), stdin, 'file 12: BadMark\n'),
        (endless(MAGIC_2, word(1) + word(0)), stdin, 'file 524288: TooManyConnections\n'),
        (endless(first, zeros), stdin,
         'connection 1 client record 1 byte 16777216: RecordTooLong\n'),
        (endless(b'', GOOD), ['same', 'good', '/dev/stdin'], 'second: file 104: AfterEnd\n'),
        (endless(b'', GOOD), ['canon', '/dev/stdin', 'out'], 'file 104: AfterEnd\n')]
    for pieces, words, line in cases:
        place.want(' '.join(words), place.fed(words, pieces), (2, '', line))
    place.want('check /dev/zero', place.run('check', '/dev/zero'), (2, '', 'file 0: BadMagic\n'))
    # After 16,384 chunks of 65,536 bytes.
    place.want('pack /dev/zero', place.run('pack', '/dev/null', '/dev/zero', 'good'),
               (2, '', 'file 1073807372: TooManyBytes\n'))
    place.want('files', place.names(), ['good'])


def fifos(place: Place) -> None:
    """As shells make them for `<(..)`: the program reads what comes, also byte by byte."""
    os.mkfifo(place.path('fifo'))
    cases: list[tuple[list[bytes], int, str]] = [
        ([GOOD], 0, GOOD_LINE), ([bytes([byte]) for byte in GOOD], 0, GOOD_LINE),
        ([GOOD[:50]], 2, 'file 50: CaptureCut\n'),
        ([], 2, 'file 0: CaptureCut\n'), ([bytes([byte]) for byte in GOOD_2], 0, GOOD_LINE),
        ([GOOD_2[:103]], 2, 'file 103: CaptureCut\n')]
    for pieces, status, line in cases:
        writer = threading.Thread(target=feed_fifo, args=(place.path('fifo'), pieces), daemon=True)
        writer.start()
        found, out, error = place.run('check', 'fifo')
        writer.join(LIMIT)
        place.want('check of %d pieces' % len(pieces), (found, out + error), (status, line))


def in_two_reads(path: str, content: bytes, cut: int) -> None:
    """Writes both pieces to a fifo, the second once the first was read."""
    with open(path, 'wb', buffering=0) as pipe:
        pipe.write(content[:cut])
        wait_for(lambda: struct.unpack('i', fcntl.ioctl(pipe, termios.FIONREAD, bytes(4)))[0] == 0)
        pipe.write(content[cut:])


def reads_cut_at_each_length(place: Place) -> None:
    """Known bytes through each command, of which the first read gives a part: whatever the part,
    the answer is that of all bytes."""
    client, server = (b''.join(map(fragment, side)) for side in NULL)
    listing = ('1 client 1 xid=1 NFSPROC3_NULL mtype=0 rpcvers=2 prog=100003 vers=3 proc=0 '
               'cred_flavor=0 cred_body= verf_flavor=0 '
               'verf_body=\n1 server 1 xid=1 NFSPROC3_NULL mtype=1 reply_stat=0 verf_flavor=0 '
               'verf_body= accept_stat=0\n')
    same = 'same\n'
    fifo = place.path('fifo')
    os.mkfifo(fifo)
    place.write('good', GOOD)
    place.write('server', server)
    cases: list[tuple[str, bytes, str, bytes | None]] = [
        ('check fifo', GOOD, GOOD_LINE, None), ('show fifo', GOOD, listing, None),
        ('canon fifo out', GOOD, GOOD_LINE, GOOD),
        ('same fifo good', GOOD, same, None), ('same good fifo', GOOD_2, same, None),
        ('pack out fifo server', client, '', GOOD)]
    for line, content, wanted, written in cases:
        for cut in range(1, len(content)):
            writer = threading.Thread(target=in_two_reads, args=(fifo, content, cut), daemon=True)
            writer.start()
            found, out, error = place.run(*line.split())
            writer.join(LIMIT)
            place.want('%s, cut at %d' % (line, cut), (found, error, out, place.read('out')),
                       (0, '', wanted, written))
            if written is not None:
                os.remove(place.path('out'))


def files_that_may_not_be_read(place: Place) -> None:
    """As somebody whom modes bind, if the tests run as root."""
    place.write('good', GOOD)
    place.write('secret', GOOD)
    os.chmod(place.path('secret'), 0)
    os.chmod(place.folder, 0o755)
    reader: RunOptions = {'user': NOBODY} if os.geteuid() == 0 else {}
    # since the repository may be in a folder into which others may not look
    program = shutil.copy(place.program, place.folder)
    for words in (['check', 'secret'], ['show', 'secret'], ['same', 'good', 'secret'],
                  ['canon', 'secret', 'out']):
        answer = ended([program, *words], place.folder, **reader).text()
        place.want(' '.join(words), answer, (3, '', 'open failed: secret\n'))
    if reader:
        answer = ended([program, 'canon', 'good', 'out'], place.folder, **reader).text()
        place.want('canon into a folder that may not be written', answer,
                   (3, '', 'open failed: out\n'))
    os.remove(program)
    place.want('files', place.names(), ['good', 'secret'])


def files_that_change_while_they_are_read(place: Place) -> None:
    """The program waits for its reader, near the beginning of the file, when the file gets shorter
    or longer."""
    for size, status, line in ((3_000_000, 2, REFUSED_LARGE),
                               (len(LARGE) + 1, 2, 'file %d: AfterEnd\n' % len(LARGE))):
        place.write('a', LARGE)
        process = place.begin('canon', 'a', '/dev/stdout')
        written = pipe_of(process.stdout)
        front = written.read(1)
        os.truncate(place.path('a'), size)
        form = front + written.read()
        place.want('a front of the form', LARGE.startswith(form), True)
        place.want('canon', (process.wait(LIMIT), pipe_of(process.stderr).read().decode()),
                   (status, line))


# --- Time ---

def xids(count: int) -> Streams:
    """NULL calls with different xids, and their replies, the last one first."""
    calls, reply = call(0, NFS, 3, 0)[4:], success(0)[4:]
    client = b''.join(b'\0\0\0\x2c\x80\0\0\x28%b%b' % (word(number), calls)
                      for number in range(count))
    server = b''.join(b'\0\0\0\x1c\x80\0\0\x18%b%b' % (word(number), reply)
                      for number in reversed(range(count)))
    return client, server


def handles(count: int) -> Streams:
    """GETATTR calls of one xid."""
    head = call(7, NFS, 3, 1, word(8))
    return b''.join(b'\0\0\0\x38\x80\0\0\x34%b%b'
                    % (head, hyper(number * 0x9e3779b97f4a7c15 % (1 << 64)))
                    for number in range(count)), b''


def handles_before(end: bytes) -> Callable[[int], Streams]:
    """GETATTR calls of one xid, on handles of eight bytes that differ and these eight."""
    def make(count: int) -> Streams:
        head = call(7, NFS, 3, 1, word(16))
        return b''.join(b'\0\0\0\x40\x80\0\0\x3c%b%b%b' % (head, hyper(number), end)
                        for number in range(count)), b''
    return make


def handles_chosen_against_known_words(place: Place) -> None:
    """Under a word that is known, all of these handles have one hash: the second factor of the
    product is 0. That is so of the word of the hasher that an `IndexMap` has if none is named, and
    of 0, which a system that gives no random bytes would leave. The program's words are random, so
    these handles cost what others do."""
    place.write('half', version_1(handles_before(hyper(0x0123456789abcdef))(1_000_000)))
    for word_of_hasher in (KNOWN_WORD, 0):
        place.write('whole',
                    version_1(handles_before(word_of_hasher.to_bytes(8, 'little'))(1_000_000)))
        for command, *more in (('check',), ('canon', '/dev/null'), ('show',)):
            found = ratio(place, command, *more)
            if found > MOST_RATIO:
                place.wrong.append(f'{command} takes {found:.1f} times as long for handles chosen '
                                   f'against {word_of_hasher:x}')


def empty_fragments(count: int) -> Streams:
    """Before the last fragment of a call."""
    stream = word(0) * count + fragment(NULL[0][0])
    return word(len(stream)) + stream, b''


def single_bytes(count: int) -> Streams:
    """One raw call in chunks of a byte."""
    stream = fragment(call(1, NFSACL, 3, 1, bytes(count)))
    return b''.join(b'\0\0\0\x01%c' % byte for byte in stream), b''


def in_turns(count: int) -> bytes:
    """NULL calls with different xids, each with its reply right after it."""
    calls, reply = call(0, NFS, 3, 0)[4:], success(0)[4:]
    return b''.join(b'\0\0\0\x01\0\0\0\x2c\x80\0\0\x28%b%b\0\0\0\x02\0\0\0\x1c\x80\0\0\x18%b%b'
                    % (xid, calls, xid, reply)
                    for xid in map(word, range(count)))


def bytes_in_turns(count: int) -> bytes:
    """A raw call and its reply in chunks of a byte, of both sides in turn."""
    client, server = (fragment(body) for body in (call(1, NFSACL, 3, 1, bytes(count // 2)),
                                                  success(1, bytes(count // 2 + 16))))
    return b''.join(b'\0\0\0\x01\0\0\0\x01%c\0\0\0\x02\0\0\0\x01%c' % pair
                    for pair in zip(client, server))


def version_2(chunks: bytes) -> bytes:
    """A capture of one connection with these chunks."""
    return b''.join(messages.version_2([[chunks]]))


def version_1(streams: Streams) -> bytes:
    """A capture of one connection with these streams."""
    client, server = streams
    return b''.join(messages.version_1([([client], [server])]))


def seconds(place: Place, command: str, *names: str) -> float:
    """Processor time of a run."""
    done, used = seconds_at_most(place, LIMIT, command, *names)
    place.want(command, done, True)
    return used


def seconds_at_most(place: Place, limit: int, command: str, *names: str) -> tuple[bool, float]:
    """Whether a run ends well in so many seconds of processor time, and how many it took."""
    with open(os.devnull, 'wb') as nothing:
        process = place.begin(command, *names, before=under('-t %d' % limit), stdout=nothing,
                              stderr=nothing)
        _, status, used = os.wait4(process.pid, 0)
        process.returncode = os.waitstatus_to_exitcode(status)
    return process.returncode == 0, used.ru_utime + used.ru_stime


def ratio(place: Place, command: str, *more: str) -> float:
    """How much longer `whole` takes than `half`: the least of some rounds, since other programs run
    beside them."""
    least = float('inf')
    for _ in range(ROUNDS):
        half, whole = (seconds(place, command, name, *more) for name in ('half', 'whole'))
        least = min(least, whole / max(half, 0.001))
        if least <= MOST_RATIO:
            break
    return least


def is_linear(name: str, make: Callable[[int], bytes], count: int) -> Test:
    """A test that twice as much does not take much more than twice as long."""
    def test(place: Place) -> None:
        for file, number in (('half', count // 2), ('whole', count)):
            place.write(file, make(number))
        for command, *more in (('check',), ('canon', '/dev/null'), ('show',)):
            found = ratio(place, command, *more)
            if found > MOST_RATIO:
                place.wrong.append('%s takes %.1f times as long for twice as much'
                                   % (command, found))
    test.__name__ = 'time_of_' + name
    return test


def linear(make: Callable[[int], Streams], count: int) -> Test:
    """The test for captures of version 1 with these streams."""
    return is_linear(make.__name__, lambda number: version_1(make(number)), count)


def linear_in_version_2(make: Callable[[int], bytes], count: int) -> Test:
    """The test for captures of version 2 with these chunks."""
    return is_linear(make.__name__, lambda number: version_2(make(number)), count)


def records_of(count: int, before: bytes = b'', step: int = 1) -> bytes:
    """NULL calls with different xids, which are so far apart, each after these bytes."""
    calls = call(0, NFS, 3, 0)[4:]
    return b''.join(b'%b\x80\0\0\x28%b%b' % (before, word(number * step % (1 << 32)), calls)
                    for number in range(count))


def connection(count: int) -> bytes:
    """A connection of NULL calls, in version 1."""
    return word(1) + records_of(count, word(44)) + word(0) + word(0)


def connection_in_no_order(count: int) -> bytes:
    """The same with xids in no order, which are hashed."""
    return word(1) + records_of(count, word(44), 0x9e3779b1) + word(0) + word(0)


def connection_2(count: int) -> bytes:
    """A connection of NULL calls, in version 2."""
    return word(1) + (word(1) + word(44 * count) + records_of(count) if count else b'') + word(0)


def orders_differ(place: Place, command: str) -> bool:
    """Whether a large connection and then small ones take much longer than the small ones first, by
    the least of some rounds. A run that takes far too long is ended."""
    names = {order: (order, order) if command == 'same' else (order, '/dev/null')
             if command == 'canon' else (order,)
             for order in ('first', 'last')}
    for _ in range(ROUNDS):
        most = MOST_IN_ANOTHER_ORDER * max(seconds(place, command, *names['last']), 0.01)
        done, used = seconds_at_most(place, 2 * math.ceil(most), command, *names['first'])
        if not done or used <= most:
            return not done
    return True


def after_a_large_connection(count: int, small: int, make: Callable[[int], bytes] = connection,
                             magic: bytes = messages.MAGIC,
                             commands: Sequence[str] = ('check', 'canon', 'show', 'same')) -> Test:
    """A test that a connection costs what it has, and not what the largest one before it had."""
    def test(place: Place) -> None:
        large, others = make(count), make(small) * (MOST_CONNECTIONS - 1)
        place.write('first', magic + large + others + word(0))
        place.write('last', magic + others + large + word(0))
        for command in commands:
            if orders_differ(place, command):
                place.wrong.append('%s takes more than %d times as long after the large connection'
                                   % (command, MOST_IN_ANOTHER_ORDER))
    test.__name__ = 'time_of_%d_calls_each_after_%d_%s' % (small, count, make.__name__)
    return test


TESTS: list[Test] = [
    after_a_large_connection(1_000_000, 0), after_a_large_connection(1_000_000, 1),
    after_a_large_connection(1_000_000, 1, connection_2, MAGIC_2),
    after_a_large_connection(2_000_000, 0, commands=('canon',)),
    after_a_large_connection(1_000_000, 5, connection_in_no_order),
    handles_chosen_against_known_words,
    linear(xids, 1_000_000), linear(handles, 1_000_000), linear(empty_fragments, 2_000_000),
    linear(single_bytes, 2_000_000),
    linear_in_version_2(in_turns, 500_000), linear_in_version_2(bytes_in_turns, 2_000_000),
    memory_that_is_refused, memory_that_is_refused_to_version_2, memory_of_one_connection,
    memory_of_a_long_line, memory_of_the_longest_line,
    streams_without_an_end, lengths_with_nothing_after_them, disks_that_are_full_in_the_middle,
    readers_that_go_away,
    standard_error_that_nobody_reads, standard_files_that_are_closed, signals_in_the_middle,
    names_that_are_taken_in_the_middle, runs_at_once,
    pipes_that_do_not_wait, names_of_the_most_bytes, folders_that_no_path_names,
    outputs_that_are_refused_before_the_work, rights_on_an_output,
    access_control_lists, removed_files_by_their_numbers,
    files_of_two_devices_with_one_number,
    many_streams_and_few_open_files, inputs_that_never_end,
    fifos, reads_cut_at_each_length,
    files_that_may_not_be_read, files_that_change_while_they_are_read]


def main() -> None:
    # A job in the background of a shell has it ignored, and so would what is begun here.
    signal.signal(signal.SIGINT, signal.default_int_handler)
    try_tests(__doc__, Place, TESTS)


if __name__ == '__main__':
    main()
