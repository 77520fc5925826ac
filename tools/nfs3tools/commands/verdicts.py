"""Judges each connection of recordings and captures by itself.

    tools/verdicts [-q] [--color WHEN] [--junit FILE] [--json FILE] [--html FILE] [-j N]
                   [--known FILE] [--known-new FILE] RECORDING|CAPTURE ..

The manual page, tools/man/verdicts.1, has the rest.

The status is 0 only if every call of NFS and MOUNT version 3 that is recorded was judged, and is
valid. --allow-losses also allows what is in part and what is left out, --allow-not-checked what is
not checked. A connection that shows no call changes no status.
"""
from __future__ import annotations

import argparse
import concurrent.futures
import contextlib
import json
import os
import signal
import sys
import typing
from functools import partial
from xml.etree.ElementTree import SubElement

from ..exchanges.kept import host_of
from ..judgement.known import Known, add_known, file_of_known
from ..judgement.unanswered import Unanswered
from ..judgement.verdict import (
    COVERED, VERDICTS_VERSION, VERDICT_HEADS, Verdict, colour_of, counts_after, error_verdict,
    is_row, judged_alone, judged_together, kept_in, of_covered, said_last, status_of, sums_of,
    tell_notes, verdict_object, verdict_row)
from ..pages.judged import Seen, judged_page, seen_in, table_of, verdicts_in
from ..recordings.coverage import Allowed, Covered, named_calls
from ..recordings.parts import files_in, files_of
from ..recordings.selection import Options, count
from ..recordings.taken import NotTaken, Taken, take
from ..reporting.junit import Suite
from ..reporting.messages import (
    add_recordings, allowed_of, command_of, failure_text, options_of, parser_of)
from ..shared.outputs import writing
from ..shared.places import Place, parse_fault
from ..shared.printed import escaped, printable
from ..shared.programs import CHECKED, Died, Missing, program_path, run_program
from ..shared.screens import Screen, Styled, positive, screen_of, table_lines

CONNECTIONS_AT_ONCE = 32  # of a recording
Look = typing.Callable[[Taken, list[Verdict]], object]


class Judge(typing.NamedTuple):
    """How recordings are judged: by which program, taken how, how many connections at once, and
    whether calls without a reply are counted, or by another module."""
    program: str
    options: Options
    at_once: int
    shows_progress: bool
    counts_unanswered: bool = True

    def verdicts(self, recording: str, look: Look | None = None) -> list[Verdict]:
        """The verdicts on a recording or capture. What cannot be read is an error among them.
        `look` is called with them and with what is taken."""
        try:
            options = self.options._replace(checked_by=self.program)
            with take(recording, options, shows_progress=self.shows_progress) as taken:
                verdicts = self.of_taken(recording, taken)
                if look:
                    look(taken, verdicts)
                return verdicts
        except OSError as failed:
            # (a failure of something else, as of a temporary file, is none of the recording)
            if failed.filename not in files_of(recording):
                raise
            return [error_verdict(recording, failure_text(failed, 'verdicts'))]
        except (NotTaken, Missing, MemoryError) as failed:
            return [error_verdict(recording, failure_text(failed, 'verdicts'))]
        except Died as died:
            raise Died(f'{escaped(recording)}: {died}') from died

    def seen(self, is_shown: bool, recording: str) -> Seen:
        """The verdicts on a recording or capture, with what a page shows besides if it is."""
        found = list[Seen]()

        def look(taken: Taken, verdicts: list[Verdict]) -> None:
            with contextlib.closing(kept_in(self.program, taken, verdicts)) as kept:
                found.append(seen_in(kept, taken, recording, verdicts))
        verdicts = self.verdicts(recording, look if is_shown else None)
        # (an error may come after the look, and then counts alone)
        return found[0] if found and found[0].verdicts is verdicts else Seen(recording, verdicts)

    def of_taken(self, recording: str, taken: Taken) -> list[Verdict]:
        verdicts = judged_together(recording, taken)
        if not verdicts:
            with concurrent.futures.ThreadPoolExecutor(self.at_once) as threads:
                verdicts = list(threads.map(partial(judged_alone, self.program, recording, taken),
                                            taken.connections))
        if self.counts_unanswered:
            verdicts = with_unanswered(verdicts, taken)
        verdicts += [of_covered(recording, covered) for covered in taken.not_taken()]
        if taken.damage and not taken.is_recording:
            verdicts += self.of_container(recording, verdicts)
        elif taken.damage:
            verdicts.append(error_verdict(recording, taken.damage))
        elif not taken.connections and taken.is_recording:
            verdicts.append(error_verdict(recording, self.nothing_in(recording, taken)))
        return [Verdict(recording, 'note', said=note) for note in taken.notes] + verdicts

    def nothing_in(self, recording: str, taken: Taken) -> str:
        """Returns why there is no connection: if ports were chosen, which ones there are."""
        if not self.options.ports or not all(map(os.path.isfile, files_of(recording))):
            return taken.nothing
        with take(recording, self.options._replace(ports=frozenset())) as whole:
            ends = [one.ends for one in whole.covered() if one.ends]
            ports = sorted({one.server_port or 0 for one in whole.connections})
        none, known = ', '.join(map(str, sorted(self.options.ports))), ', '.join(map(str, ports))
        there = f'; servers have {known}' if ports else ''
        return f'none of {count(len(ends), "connection")} has port {none}{there}'

    def of_container(self, recording: str, others: list[Verdict]) -> list[Verdict]:
        """The verdict on a capture that is not whole, unless one of its connections has it."""
        answer = run_program(self.program, ['check', *files_of(recording)], CHECKED)
        fault = parse_fault(answer.error)
        if fault is None:
            return [error_verdict(recording, said_last(answer))]
        at = fault.place.connection if isinstance(fault.place, Place) else None
        if at is not None and any(other.connection == at for other in others):
            return []
        return [Verdict(recording, 'refused', Covered('judged', number=at), fault=fault)]


def judge_of(chosen: argparse.Namespace) -> Judge:
    """The judge of a tool that judges one recording after the other, and counts by itself."""
    return Judge(program_path(chosen.program), options_of(chosen), CONNECTIONS_AT_ONCE, True,
                 counts_unanswered=False)


def with_unanswered(verdicts: list[Verdict], taken: Taken) -> list[Verdict]:
    """Returns the verdicts on connections with the numbers of their calls without a reply."""
    unanswered = Unanswered()
    return [verdict if verdict.state in ('refused', 'error')
            else verdict._replace(unanswered=unanswered.number(connection))
            for verdict, connection in zip(verdicts, taken.connections)]


def main(words: list[str]) -> int:
    parser = parser_of(__doc__, 'verdicts')
    parser.add_argument('-q', '--quiet', action='store_true',
                        help='prints no row of what is ok, and no heads')
    parser.add_argument('--junit', metavar='FILE', help='writes the verdicts as JUnit XML')
    parser.add_argument('--json', metavar='FILE', help='writes the verdicts as JSON')
    parser.add_argument('--html', metavar='FILE',
                        help='writes a page for a browser, with faults and latencies')
    parser.add_argument('-j', metavar='N', type=positive, help='judges N recordings at once')
    parser.add_argument('--growing', action='store_true',
                        help='takes a recording that ends inside a frame or a record as one that '
                             'is still made')
    add_known(parser)
    add_recordings(parser)
    return judged_all(parser.parse_args(words))


def judged_all(chosen: argparse.Namespace) -> int:
    """Judges all recordings, and prints and writes what was found."""
    recordings_at_once = chosen.j or os.cpu_count() or 1
    at_once = max(1, min(CONNECTIONS_AT_ONCE, recordings_at_once // len(chosen.recordings)))
    allowed, inputs = allowed_of(chosen), files_in(chosen.recordings)
    inputs += [*filter(None, [chosen.known.path])]
    with writing(inputs, (chosen.known_new, lambda: file_of_known(lines)),
                 (chosen.junit, lambda: [junit_of_verdicts(verdicts, allowed)]),
                 (chosen.json, lambda: [json_of_verdicts(verdicts)]),
                 (chosen.html, lambda: judged_page(seen, allowed, [table_of(seen)]))):
        options = options_of(chosen)._replace(is_growing=chosen.growing)
        judge = Judge(program_path(chosen.program), options, at_once, len(chosen.recordings) == 1)
        try:
            seen = list(judged_recordings(partial(judge.seen, bool(chosen.html)),
                                          chosen.recordings, recordings_at_once))
        except concurrent.futures.BrokenExecutor as broken:
            raise OSError('a process that judged a recording was killed, as when memory runs '
                          'out') from broken
        lines = [verdict.line for verdict in verdicts_in(seen) if is_row(verdict, is_quiet=True)]
        seen = [with_known(one, chosen.known) for one in seen] if chosen.known.path else seen
        verdicts = verdicts_in(seen)
        print_verdicts(verdicts, chosen.quiet, screen_of(chosen.color),
                       chosen.known.no_longer_found())
    return status_of(verdicts, allowed)


def judged_recordings(judge: typing.Callable[[str], Seen], recordings: list[str],
                      at_once: int) -> typing.Iterator[Seen]:
    """Iterates over what is said of recordings, in order. Several are judged by processes."""
    processes, is_shown = min(at_once, len(recordings)), sys.stderr.isatty()
    with contextlib.ExitStack() as pools:
        map_all: typing.Callable[..., typing.Iterator[Seen]] = map
        if processes > 1 and '-' not in recordings:
            pool = concurrent.futures.ProcessPoolExecutor(processes, initializer=leave_interrupts)
            pools.callback(pool.shutdown, cancel_futures=True)
            map_all = pool.map
        for number, seen in enumerate(map_all(judge, recordings), 1):
            if is_shown and len(recordings) > 1:
                print(f'\r{number} of {len(recordings)} recordings',
                      end='' if number < len(recordings) else '\r\x1b[K',
                      file=sys.stderr, flush=True)
            yield seen


def leave_interrupts() -> None:
    """An interrupt from the keyboard is for the process that waits for this one."""
    signal.signal(signal.SIGINT, signal.SIG_IGN)
    signal.signal(signal.SIGHUP, signal.SIG_IGN)
    signal.signal(signal.SIGTERM, signal.SIG_DFL)


def with_known(seen: Seen, known: Known) -> Seen:
    """Returns a recording whose verdicts are known, or not, by a file."""
    return seen._replace(verdicts=[
        verdict._replace(is_known=is_row(verdict, is_quiet=True) and known.take(verdict.line))
        for verdict in seen.verdicts])


def print_verdicts(verdicts: list[Verdict], is_quiet: bool, screen: Screen,
                   no_longer_found: typing.Sequence[str]) -> None:
    """Prints a row for each verdict; notes, and connections that show no call, go elsewhere. Then
    what is no longer found of what is known."""
    tell_notes(verdicts)
    rows = [Styled(verdict_row(verdict, verdict.message, screen), colour_of(verdict))
            for verdict in verdicts if is_row(verdict, is_quiet)]
    for line in table_lines([*([] if is_quiet else [Styled(VERDICT_HEADS)]), *rows], screen):
        print(line)
    for line in no_longer_found:
        print(printable(f'no longer found: {line}'))
    print(sums_of(verdicts))


def junit_of_verdicts(verdicts: list[Verdict], allowed: Allowed) -> bytes:
    """The verdicts as JUnit XML: a suite with a test case for each, the counts as its properties,
    and the notes on whole recordings as its output."""
    counts = counts_after(verdicts)
    suite = Suite('nfs3canon', [*counts.numbers().items(), ('raw', named_calls(counts.raw))])
    for verdict in (verdict for verdict in verdicts if verdict.state != 'note'):
        is_word, tag = verdict.state in COVERED, 'skipped'
        if verdict.covered.shows_calls:
            tag = ('' if verdict.is_good(allowed)
                   else 'error' if verdict.state == 'error' else 'failure')
        case = suite.add(escaped(verdict.recording), name_of_case(verdict), tag,
                         printable(verdict.message),
                         attributes={'type': verdict.state} if is_word and tag == 'failure' else {},
                         time=f'{verdict.seconds:.3f}')
        told = [*[verdict.message] * is_word, *verdict.notes]
        if told and tag != 'skipped':
            SubElement(case, 'system-out').text = '\n'.join(map(printable, told))
    notes = [printable(f'{escaped(verdict.recording)}: {verdict.message}') for verdict in verdicts
             if verdict.state == 'note']
    if notes:
        SubElement(suite.suite, 'system-out').text = '\n'.join(notes)
    return suite.written(time=f'{sum(verdict.seconds for verdict in verdicts):.3f}')


def name_of_case(verdict: Verdict) -> str:
    if verdict.connection is None:
        return (printable(verdict.message) if verdict.state in ('left out', 'in part')
                else 'as a whole')
    # (a client has another port in each run)
    ends = f' {host_of(verdict.client)} to {verdict.server}' if verdict.client else ''
    return f'connection {verdict.connection}{ends}'


def json_of_verdicts(verdicts: list[Verdict]) -> bytes:
    whole = {'version': VERDICTS_VERSION, 'counts': counts_after(verdicts).members(),
             'rows': [*map(verdict_object, verdicts)]}
    return json.dumps(whole, indent=1).encode() + b'\n'


command = command_of(__name__, 'verdicts', main)
