#!/usr/bin/env python3
"""Tries laws of the built program on random captures.

    python3 tests/program/fuzz.py [PROGRAM] [--seed N] [--count N]

PROGRAM is crates/nfs3canon/out/nfs3canon if none is named. The captures are those of the seeds N, N
+ 1, .., and on each two of the laws below are tried, the same at each run. If one fails, its name,
the capture's seed and the folder with the files are printed. The last line is 'N passed, M failed',
and the status is 1 if any failed.
"""
import argparse
import concurrent.futures
import functools
import os
import pathlib
import random
import re
import shutil
import subprocess
import sys
import tempfile
from collections.abc import Callable

sys.path.insert(0, str(pathlib.Path(__file__).resolve().parents[2]))
from examples import messages
from examples.messages import chunk, fragment, version_1, word
from tests.program.masking import Masker, Renamer, masked_bodies
from tests.shared.classes import usual_ways
from tests.shared.containers import Container
from tests.shared.running import Runs, built
from tests.shared.traffic import Names, Traffic, in_pieces, in_version_2, streams_of
from tools.nfs3tools.comparison.values.classes import Mask, Way

LAWS_OF_A_CAPTURE, FLIPS, CAPTURES_AT_ONCE = 2, 5, 25
Answer = tuple[int, bytes, str]  # the status and both outputs of a run


class Broken(Exception):
    """A law that does not hold."""


class Trial(Runs):
    """A random capture, the file `a` in a folder, and runs of the program there."""

    def __init__(self, program: str, folder: str, seed: int) -> None:
        super().__init__(program, folder)
        self.seed = seed
        self.chance = random.Random(~seed)
        self.names = Names.drawn(self.chance)
        self.traffic, self.capture = Traffic(seed, self.names), self.named(self.names)
        self.write('a', self.capture)

    def named(self, names: Names) -> bytes:
        """The capture of the same traffic with other names."""
        return messages.capture(*Traffic(self.seed, names).connections)

    def answer(self, *words: str) -> Answer:
        """The status and both outputs of a run, of which the standard output is bytes."""
        status, out, error = self.ended(*words)
        return status, out, error.decode()

    def form(self, name: str) -> bytes:
        """The canonical form of a file that is well formed."""
        status, form, error = self.answer('canon', name, '/dev/stdout')
        self.want('canon ' + name, (status, error), (0, self.counts()))
        return form

    def counts(self) -> str:
        """What `check` prints."""
        sides = [[len(side) for side in connection] for connection in self.traffic.connections]
        calls, replies = (sum(side) for side in zip((0, 0), *sides))
        handles = {number for _, values in self.traffic.seen for kind, number in values
                   if kind == 'handles' and number}
        return 'ok connections=%d calls=%d replies=%d handles=%d\n' % (len(sides), calls, replies,
                                                                       len(handles))

    def want(self, what: str, got: object, wanted: object) -> None:
        if got != wanted:
            raise Broken('%s: %.300r, wanted %.300r' % (what, got, wanted))


def numbers_are_those_of_the_traffic(trial: Trial) -> None:
    trial.want('check', trial.answer('check', 'a'), (0, trial.counts().encode(), ''))


def canonical_again_is_the_same(trial: Trial) -> None:
    form = trial.form('a')
    trial.write('form', form)
    trial.want('canon of canon', trial.form('form'), form)
    pair = trial.chance.choice((('a', 'form'), ('form', 'a')))
    trial.want('same of both', trial.answer('same', *pair), (0, b'same\n', ''))


def renaming_one_to_one_keeps_the_form(trial: Trial) -> None:
    """With other residual bytes, too."""
    trial.write('renamed', trial.named(Names.drawn(trial.chance).padded()))
    trial.want('same', trial.answer('same', 'a', 'renamed'), (0, b'same\n', ''))
    trial.want('canon of the renamed', trial.form('renamed'), trial.form('a'))


def merging_two_values_parts_at_the_second(trial: Trial) -> None:
    """Two file handles, or two write verifiers, that become one."""
    first: dict[tuple[str, int], str] = {}
    for place, values in trial.traffic.seen:
        for value in values:
            first.setdefault(value, place)
    kinds = [[value for value in first if value[0] == kind and value != ('handles', 0)]
             for kind in ('handles', 'verifiers')]
    known = trial.chance.choice([values for values in kinds if len(values) > 1] or [[]])
    if known:
        kept, lost = sorted(trial.chance.sample(known, 2), key=known.index)
        trial.write('merged', trial.named(trial.names.merged(*kept, lost[1])))
        pair = trial.chance.choice((('a', 'merged'), ('merged', 'a')))
        trial.want('same', trial.answer('same', *pair),
                   (1, b'differ at %s\n' % first[lost].encode(), ''))


def a_line_is_shown_for_each_message(trial: Trial) -> None:
    status, listing, error = trial.answer('show', 'a')
    trial.want('show', (status, error), (0, ''))
    trial.want('lines', [b' '.join(line.split()[:3]) for line in listing.splitlines()],
               [place.replace('connection ', '').replace('record ', '').encode()
                for place, _ in trial.traffic.seen])


def packing_the_streams_gives_the_capture(trial: Trial) -> None:
    """Each stream in chunks of 65,536 bytes and one of what is left."""
    streams = {'%s%d' % (side, number): b''.join(map(fragment, bodies))
               for number, connection in enumerate(trial.traffic.connections)
               for side, bodies in zip(('client', 'server'), connection)}
    for name, stream in streams.items():
        trial.write(name, stream)
    if streams:
        sides = [[chunk(stream[at:at + 65_536]) for at in range(0, len(stream), 65_536)]
                 for stream in streams.values()]
        status, packed, error = trial.answer('pack', '/dev/stdout', *streams)
        trial.want('pack', (status, packed, error),
                   (0, b''.join(version_1(zip(sides[::2], sides[1::2]))), ''))
        trial.write('packed', packed)
        trial.want('canon of what was packed', trial.form('packed'), trial.form('a'))


def a_flipped_bit_shows(trial: Trial) -> None:
    """It changes the canonical bytes or is refused if it is in no renamed value, and changes
    nothing in a residual byte."""
    padded, turned = trial.named(trial.names.padded()), trial.named(trial.names.turned())
    own = trial.form('a')
    for at in trial.chance.sample(range(len(trial.capture)), FLIPS):
        is_residual = padded[at] != trial.capture[at]
        if is_residual or turned[at] == trial.capture[at]:
            status, form, _ = flipped(trial, at)
            trial.want('byte %d keeps the form' % at, (status, form) == (0, own), is_residual)


def flipped(trial: Trial, at: int) -> Answer:
    """What `canon` says of the capture with one bit of a byte flipped."""
    capture = bytearray(trial.capture)
    capture[at] ^= 1 << trial.chance.randrange(8)
    trial.write('flipped', bytes(capture))
    return trial.answer('canon', 'flipped', '/dev/stdout')


def pieces_do_not_count(trial: Trial) -> None:
    trial.write('pieces', in_pieces(trial.chance, trial.traffic.connections))
    trial.want('canon of the pieces', trial.form('pieces'), trial.form('a'))


def a_front_is_cut_or_has_the_fault(trial: Trial) -> None:
    """Of a capture, and of one with a flipped bit."""
    at, end = trial.chance.randrange(len(trial.capture)), trial.chance.randrange(len(trial.capture))
    status, _, fault = flipped(trial, at)
    name = 'flipped' if status == 2 and not fault.endswith(
        'AfterEnd\n') and trial.chance.random() < 0.7 else 'a'
    trial.write('front', pathlib.Path(trial.folder, name).read_bytes()[:end])
    status, out, line = trial.answer('check', 'front')
    answers = {'file %d: CaptureCut\n' % end} | ({fault} if name == 'flipped' else set())
    trial.want('a front of ' + name, (status, out, line in answers), (2, b'', True))


def version_2_changes_nothing(trial: Trial) -> None:
    """The streams of both sides in one list of chunks, cut anywhere, in any order."""
    trial.write('mixed',
                in_version_2(trial.chance, streams_of(trial.chance, trial.traffic.connections)))
    trial.want('canon of version 2', trial.form('mixed'), trial.form('a'))
    trial.want('show of version 2', trial.answer('show', 'mixed'), trial.answer('show', 'a'))
    pair = trial.chance.choice((('a', 'mixed'), ('mixed', 'a'), ('mixed', 'mixed')))
    trial.want('same', trial.answer('same', *pair), (0, b'same\n', ''))


def version_2_has_its_first_fault(trial: Trial) -> None:
    """Of streams and of a container that may be damaged: what the container shows, or what version
    1 shows of the connections whose side word 0 is there."""
    streams = [[spoilt(trial.chance, stream) for stream in pair]
               for pair in streams_of(trial.chance, trial.traffic.connections)]
    capture = damaged(trial.chance, in_version_2(trial.chance, streams))
    container = Container(capture)
    trial.write('mixed', capture)
    trial.write('older', container.older())
    for command, *more in (('check',), ('show',), ('canon', '/dev/stdout')):
        wanted = container.answer(command, trial.answer(command, 'older', *more))
        found = trial.answer(command, 'mixed', *more)
        trial.want(command, found, wanted)
        if command == 'check' and found[0] == 2:
            trial.want('same', trial.answer('same', 'mixed', 'a'), (2, b'', 'first: ' + found[2]))
            trial.want('same', trial.answer('same', 'a', 'mixed'), (2, b'', 'second: ' + found[2]))


def spoilt(chance: random.Random, stream: bytes) -> bytes:
    """A stream that may have a flipped bit, end early, or end with the header of a record that is
    too long."""
    kind, at = chance.randrange(9), chance.randrange(len(stream) or 1)
    if kind == 0 and stream:
        return stream[:at] + bytes([stream[at] ^ 1 << chance.randrange(8)]) + stream[at + 1:]
    return stream[:at] if kind == 1 else stream + word(0x81000001) if kind == 2 else stream


def damaged(chance: random.Random, capture: bytes) -> bytes:
    """A capture that may have a flipped bit, another word in the place of a small one, end early,
    or go on after its end."""
    kind, at = chance.randrange(8), chance.randrange(len(capture))
    if kind == 0:
        return capture[:at] + bytes([capture[at] ^ 1 << chance.randrange(8)]) + capture[at + 1:]
    if kind < 3:
        at = chance.choice([found.start() for found in re.finditer(rb'\0\0\0[\0-\2]', capture)])
        return capture[:at] + word(chance.randrange(4)) + capture[at + 4:]
    return capture[:at] if kind == 3 else capture + word(0)[
        chance.randrange(4):] if kind == 4 else capture


# The words of nfs3mask without a way, and what each class is in the order of its lines.
MASKED_CLASSES = usual_ways()


def drawn_mask(chance: random.Random) -> tuple[dict[str, str], list[str]]:
    """A way for each class, or the usual ways, and the words that ask for it."""
    if chance.random() < 0.3:
        return dict(MASKED_CLASSES), []
    ways = {name: chance.choice(('keep', 'zero', 'number')) for name in MASKED_CLASSES}
    words = ['%s=%s' % pair for pair in ways.items()]
    chance.shuffle(words)
    return ways, words


def model_of(ways: dict[str, str]) -> Mask:
    """The mask of the model for these ways."""
    return {name: Way(way) for name, way in ways.items() if way != 'keep'}


def masked_form(trial: Trial, name: str, ways: dict[str, str], words: list[str]) -> bytes:
    """What nfs3mask writes of a file that is well formed."""
    status, form, error = trial.answer('nfs3mask', name, '/dev/stdout', *words)
    told = 'masked %s\n' % ' '.join('%s=%s' % pair for pair in ways.items())
    trial.want('nfs3mask ' + name, (status, error), (0, trial.counts() + told))
    return form


def masked_values_are_those_of_a_model(trial: Trial) -> None:
    """Byte for byte those of a masker that goes by other layouts; the counts stay, and masking
    again changes nothing."""
    ways, words = drawn_mask(trial.chance)
    form = masked_form(trial, 'a', ways, words)
    trial.want('the model', form,
               messages.capture(*masked_bodies(trial.traffic.connections, Masker(model_of(ways)))))
    trial.write('masked', form)
    trial.want('check of the masked', trial.answer('check', 'masked'),
               (0, trial.counts().encode(), ''))
    trial.want('masked again', masked_form(trial, 'masked', ways, words), form)


def masked_values_do_not_count(trial: Trial) -> None:
    """Two captures that differ in them, and in names, are the same once they are masked; also of
    version 2."""
    ways, words = drawn_mask(trial.chance)
    other = list(masked_bodies(Traffic(trial.seed, Names.drawn(trial.chance)).connections,
                               Renamer(model_of(ways), trial.chance)))
    trial.write('other', in_version_2(trial.chance, streams_of(trial.chance, other)))
    for name in ('a', 'other'):
        trial.write('masked_' + name, masked_form(trial, name, ways, words))
    trial.want('same', trial.answer('same', 'masked_a', 'masked_other'), (0, b'same\n', ''))


def masking_and_canon_go_in_either_order(trial: Trial) -> None:
    """The canonical form of a masked capture is the masked canonical form."""
    ways, words = drawn_mask(trial.chance)
    trial.write('masked', masked_form(trial, 'a', ways, words))
    trial.write('form', trial.form('a'))
    trial.want('both ways', trial.form('masked'), masked_form(trial, 'form', ways, words))


LAWS: list[Callable[[Trial], None]] = [
    numbers_are_those_of_the_traffic, canonical_again_is_the_same,
    renaming_one_to_one_keeps_the_form,
    merging_two_values_parts_at_the_second, a_line_is_shown_for_each_message,
    packing_the_streams_gives_the_capture,
    a_flipped_bit_shows, pieces_do_not_count, a_front_is_cut_or_has_the_fault,
    version_2_changes_nothing,
    version_2_has_its_first_fault, masked_values_are_those_of_a_model, masked_values_do_not_count,
    masking_and_canon_go_in_either_order]


def broken_by(program: str, seed: int) -> str | None:
    """What is printed of a capture on which a law does not hold, else None."""
    with tempfile.TemporaryDirectory(prefix='nfs3canon') as folder:
        trial = Trial(program, folder, seed)
        for law in trial.chance.sample(LAWS, LAWS_OF_A_CAPTURE):
            try:
                law(trial)
            except (Broken, subprocess.TimeoutExpired) as error:
                kept = tempfile.mkdtemp(prefix='nfs3canon-fuzz-')
                shutil.copytree(folder, kept, dirs_exist_ok=True)
                return 'FAILED %s: %s; seed %d, files in %s' % (law.__name__, error, seed, kept)
    return None


def main() -> None:
    parser = argparse.ArgumentParser(description=__doc__,
                                     formatter_class=argparse.RawDescriptionHelpFormatter)
    parser.add_argument('program', nargs='?', default=str(built()))
    parser.add_argument('--seed', type=int, default=1813)
    parser.add_argument('--count', type=int, default=4_000)
    chosen = parser.parse_args()
    try_one = functools.partial(broken_by, os.path.abspath(chosen.program))
    failed = 0
    with concurrent.futures.ProcessPoolExecutor(os.cpu_count()) as pool:
        for told in pool.map(try_one, range(chosen.seed, chosen.seed + chosen.count),
                             chunksize=CAPTURES_AT_ONCE):
            if told:
                failed += 1
                print(told, flush=True)
    print('%d passed, %d failed' % (chosen.count - failed, failed))
    sys.exit(1 if failed or not chosen.count else 0)


if __name__ == '__main__':
    main()
