#!/usr/bin/env python3
"""Runs every command of the built program on the captures of captures.rows and the pairs of
pairs.rows.

    python3 tests/program/captures.py [PROGRAM] [--only TEXT] [-v]

PROGRAM is crates/nfs3canon/out/nfs3canon if none is named. The last line is 'N passed, M failed',
and the status is 1 if any failed.

A row of captures.rows has a comment, a capture, and `line`, which `check` prints of it. The capture
is one of

- `capture`: the bodies of its records, `>` from the client and `<` from the server, `|` before the
  next connection;
- `mixed`: the same in version 2, a chunk for each record, in the order of the text;
- `file`: all its bytes.

On each row these are tried:

- `check` and `canon` give that line, on the right output and with the right status, also by
  standard input. A refused `canon`
  leaves nothing.
- If it is accepted, `canon` of the canonical form writes the same bytes again, `same` of both is
  `same`, and `show` prints as
  many lines as there are calls and replies.
- If it is refused, `show` ends with that line, and `same` with it after `first: ` and `second: `.
  The listing of `show`, and the
  output of `canon` on a device, are those of a capture of the messages before the fault.
- Each record in three fragments, one of them empty, and each byte a chunk: the same answer, and the
  same canonical bytes.
- The same records in the other version, the server's stream first, and byte by byte with both sides
  in turn: the same answer,
  listing and canonical bytes.
- Prefixes of the capture (all of them if the row has `fronts all`) are cut at their length, or have
  the fault of the whole. Of
  version 2 the answer is that of a model (containers.py): the container's fault, or the answer of
  version 1 for the connections
  whose side word 0 is there.

pairs.rows has two captures a row and the answer of `same` for them, tried in both orders and in
both versions. Their canonical forms have equal bytes exactly if the answer is `same`.
"""
import itertools
import os
import pathlib
import re
import sys
import tempfile
from collections.abc import Callable, Iterable, Sequence

sys.path.insert(0, str(pathlib.Path(__file__).resolve().parents[2]))
from examples import messages
from examples.messages import chunk, fragment
from tests.shared.containers import Container, bodies_of
from tests.shared.rows import SMALL, Row, capture_in, rows_of
from tests.shared.running import Answer, Runs, try_all, words_of
from tests.shared.texts import Chunk, Record, bytes_of, capture_of, mixed, records_of, sent

COUNTS = re.compile(r'ok connections=\d+ calls=(\d+) replies=(\d+) handles=\d+')
PLACE = re.compile(r'connection (\d+) (client|server) record (\d+)')
# Makes the chunks of a connection of version 2.
Order = Callable[[Sequence[Record]], list[Chunk]]


def in_pieces(body: bytes) -> bytes:
    """Returns the chunks of a record in three fragments, each byte a chunk."""
    return b''.join(chunk(bytes([byte])) for byte in in_fragments(body))


def in_fragments(body: bytes) -> bytes:
    """Returns a record in three fragments, one of them empty."""
    return fragment(body[:5], is_last=False) + fragment(b'', is_last=False) + fragment(body[5:])


def server_first(records: Sequence[Record]) -> list[Chunk]:
    """Returns the chunks of a connection of version 2: the server's stream whole, and then the
    client's."""
    streams = [(side, b''.join(map(fragment, sent(records, side)))) for side in '<>']
    return [(side, stream) for side, stream in streams if stream]


def byte_by_byte(records: Sequence[Record]) -> list[Chunk]:
    """Returns the chunks of a connection of version 2, each a byte: one of the server, one of the
    client, and so on."""
    streams = [[(side, bytes([byte])) for body in sent(records, side)
                for byte in in_fragments(body)] for side in '<>']
    return [piece for pair in itertools.zip_longest(*streams) for piece in pair if piece]


def accepted(runs: Runs, line: str, form: bytes) -> None:
    runs.want('canon of canon', runs.same_answer('a.out', line), form)
    for pair in (('a', 'a.out'), ('a.out', 'a'), ('a', 'a')):
        runs.want('same %s %s' % pair, runs.run('same', *pair), (0, 'same\n', ''))
    status, listing, error = runs.run('show', 'a')
    runs.want('show', (status, error), (0, ''))
    counts = COUNTS.fullmatch(line)
    runs.want('lines', listing.count('\n'), sum(map(int, counts.groups())) if counts else line)


def front_of(capture: bytes, line: str) -> tuple[bytes, int]:
    """Returns what comes before the fault of the line, as a capture of its own, and how many of its
    last bytes are not reached. The fault is in a record, or is the first of the container."""
    place = PLACE.match(line)
    fault = (int(place[1]), place[2], int(place[3])) if place else (0, '', 0)
    connections = list[tuple[list[bytes], list[bytes]]]()
    for number, connection in enumerate(Container(capture).connections, 1):
        connections.append(([], []))
        for side, stream, bodies in zip(('client', 'server'), connection.streams, connections[-1]):
            is_at_fault = fault[:2] == (number, side)
            bodies += bodies_of(stream)[:fault[2] - 1] if is_at_fault else bodies_of(stream)
            if is_at_fault or connection.whole <= (side == 'server'):
                return messages.capture(*connections), 12 if side == 'client' else 8
    # The last word 0 is reached if nothing follows it, and the magic with the first connection.
    return messages.capture(*connections), 4 if connections else 12


def refused(runs: Runs, capture: bytes, line: str) -> None:
    """Tries a capture `a` that is refused. What comes before the fault is listed and written, and
    nothing else."""
    if line.startswith('file '):
        runs.want('the model', Container(capture).line, line + '\n')
    front, missing = front_of(capture, line)
    runs.write('front', front)
    status, listing, error = runs.run('show', 'front')
    runs.want('show front', (status, error), (0, ''))
    runs.want('show', runs.run('show', 'a'), (2, listing, line + '\n'))
    runs.want('canon front', runs.run('canon', 'front', 'front.out')[0], 0)
    form = runs.read('front.out') or b''
    with open(runs.path('device'), 'wb') as out:
        answer = runs.run('canon', 'a', '/dev/stdout', stdout=out)
    runs.want('canon to a device', answer, (2, '', line + '\n'))
    runs.want('what canon wrote to it', runs.read('device'), form[:len(form) - missing])
    runs.write('good', bytes_of('MAGIC 00000000'))
    runs.want('same a good', runs.run('same', 'a', 'good'), (2, '', 'first: ' + line + '\n'))
    runs.want('same good a', runs.run('same', 'good', 'a'), (2, '', 'second: ' + line + '\n'))


def cut_short(runs: Runs, capture: bytes, line: str, every: bool) -> None:
    """Tries prefixes of a capture. Each is cut at its length, or has the fault of the whole."""
    if line.endswith('AfterEnd'):
        return
    known = dict[bytes, list[Answer]]()
    fifths = {len(capture) * k // 5 for k in range(5)} | {max(len(capture) - 1, 0)}
    for n in range(len(capture)) if every else sorted(fifths):
        runs.write('front', capture[:n])
        status, out, error = runs.run('check', 'front')
        cut = 'file %d: CaptureCut\n' % n
        if n < len(capture) and (status, out) != (2, '') or error not in (cut, line + '\n'):
            runs.wrong.append('the first %d bytes: %r' % (n, (status, out, error)))
        if capture[:8] == bytes_of('MAGIC2'):
            as_the_model(runs, Container(capture[:n]), known)


def as_the_model(runs: Runs, container: Container, known: dict[bytes, list[Answer]]) -> None:
    """Tries `check` and `show` on the prefix `front`, which print what the model says. `known` has
    what they print of the older files so far."""
    older = container.older()
    if older not in known:
        runs.write('older', older)
        known[older] = [runs.run(command, 'older') for command in ('check', 'show')]
    for command, answer in zip(('check', 'show'), known[older]):
        runs.want('%s of the first %d bytes' % (command, len(container.capture)),
                  runs.run(command, 'front'), container.answer(command, answer))


def in_version_2(runs: Runs, text: str, line: str, form: bytes | None,
                 orders: Iterable[Order]) -> None:
    """Tries the same records in version 2, whose answers are the same for any order of the
    chunks."""
    listed = runs.run('show', 'a')
    for order in orders:
        name = order.__name__
        runs.write(name, mixed(map(order, records_of(text))))
        runs.want('the form of version 2, ' + name, runs.same_answer(name, line), form)
        runs.want('show version 2, ' + name, runs.run('show', name), listed)


def try_capture(program: str, row: Row) -> list[str]:
    """Returns what is wrong with the answers for a row of captures.rows."""
    with tempfile.TemporaryDirectory(prefix='nfs3canon') as folder:
        runs, line = Runs(program, folder), row['line']
        capture = capture_in(row)
        runs.write('a', capture)
        form, is_accepted = runs.same_answer('a', line), line.startswith('ok ')
        if not is_accepted:
            refused(runs, capture, line)
        elif form is not None:
            accepted(runs, line, form)
        if len(capture) <= SMALL:
            wanted = (0, line + '\n', '') if is_accepted else (2, '', line + '\n')
            runs.want('check by standard input', runs.run('check', '/dev/stdin', stdin=capture),
                      wanted)
            cut_short(runs, capture, line, 'fronts' in row)
            if 'mixed' in row:
                runs.write('older', capture_of(row['mixed']))
                runs.want('the form of version 1', runs.same_answer('older', line), form)
            if 'capture' in row:
                runs.write('pieces', capture_of(row['capture'], in_pieces))
                runs.want('the form of the pieces', runs.same_answer('pieces', line), form)
        if 'capture' in row:
            orders = (server_first, byte_by_byte) if len(capture) <= SMALL else (server_first,)
            in_version_2(runs, row['capture'], line, form, orders)
        return runs.wrong


def try_pair(program: str, row: Row) -> list[str]:
    """Returns what is wrong with the answers for a row of pairs.rows."""
    with tempfile.TemporaryDirectory(prefix='nfs3canon') as folder:
        runs, line = Runs(program, folder), row['line']
        runs.write('a', capture_of(row['first']))
        runs.write('b', capture_of(row['second']))
        wanted = (0, line + '\n', '') if line == 'same' else (
            1, line + '\n', '') if line.startswith('differ') else (2, '', line + '\n')
        for name, key in (('a2', 'first'), ('b2', 'second')):
            runs.write(name, mixed(map(server_first, records_of(row[key]))))
        for pair in (('a', 'b'), ('a2', 'b'), ('a', 'b2'), ('a2', 'b2')):
            runs.want('same %s %s' % pair, runs.run('same', *pair), wanted)
        if wanted[0] < 2:
            runs.want('same b a', runs.run('same', 'b', 'a'), wanted)
            for name in 'ab':
                runs.run('canon', name, name + '.out')
            runs.want('equal forms', runs.read('a.out') == runs.read('b.out'), line == 'same')
        return runs.wrong


def main() -> None:
    tries = [('%s: %s' % (comment, row['line']), trial, row)
             for trial, file in ((try_capture, 'captures.rows'), (try_pair, 'pairs.rows'))
             for comment, row in rows_of(file)]
    try_all(words_of(__doc__), tries, 2 * (os.cpu_count() or 2))


if __name__ == '__main__':
    main()
