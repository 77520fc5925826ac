"""Compares two ordinary runs: are they the same but for what two runs never share, and if not, what
differs.

    tools/compare [--mask CLASS,..] [--order strict|any] [--known FILE]
                  [--known FILE] [--known-new FILE] [--all] [--brief] [--html FILE]
                  [--json FILE] [--junit FILE] A B

The manual page, tools/man/compare.1, has the rest.

The status is 0 if the runs are the same under the mask, 1 if they differ, are the same in another
order, or in part (which the options --allow-losses and --allow-not-checked change), 2 if a
recording, a connection, a capture, FILE or the command line is refused, or if there is nothing to
compare, 3 if a file, a program or memory failed.
"""
from __future__ import annotations

import argparse
import sys
import tempfile
from collections.abc import Sequence
from contextlib import ExitStack
from dataclasses import replace
from functools import partial
from pathlib import Path

from ..comparison.exchanges.pairing import ASKING
from ..comparison.values.classes import CLASSES, following, in_any_order, mask_text, mask_word
from ..comparison.verdict.accepted import (
    older_entries, texts_of)
from ..comparison.verdict.cover import Cover, cover_of, lines_of_counts
from ..comparison.verdict.decision import (
    Choices, NothingToCompare, Report, compared_in_words, judged_runs)
from ..comparison.verdict.findings import Compared
from ..comparison.verdict.trial import Trial
from ..judgement.known import add_known, file_of_known
from ..pages import compared as pages
from ..pages.compared import ComparedContent
from ..recordings.parts import files_in
from ..recordings.selection import Options
from ..recordings.taken import NotTaken, Taken, take
from ..reporting import telling
from ..reporting.messages import (
    REFUSED, add_judging, advice_on, allowed_of, command_of, ended, options_of, parser_of,
    recording_lines)
from ..shared.outputs import check_output, held, printed_beside, try_outputs, write_file
from ..shared.printed import escaped
from ..shared.programs import CHECKED, program_path, run_side_by_side
from ..shared.progress import Progress
from ..shared.screens import Colour, add_colour, screen_of

SAME, DIFFERENT = range(2)
FINDINGS_AT_MOST, SILENT_AT_MOST = 20, 12
SIGN_COLOURS = {'-': Colour.RED, '+': Colour.GREEN}  # of values


def command_line_of_compare(words: list[str]) -> argparse.Namespace:
    parser = parser_of(__doc__, 'compare')
    # (those masked by default have a star)
    parser.epilog = '\n'.join(['classes of values:', *(
        f'  {one.name + "*" * one.is_default:<13} {one.way.value:<7} {one.meaning}'
        for one in CLASSES)])
    parser.add_argument('--mask', type=mask_word, metavar='CLASS,..',
                        help='the classes of values to mask')
    parser.add_argument('--order', choices=('strict', 'any'),
                        help='whether the order of calls counts; by default any is tried second')
    parser.add_argument('--extra', choices=('asking', 'none'), default='asking',
                        help='what is left out in any order if one run alone has it: '
                             'calls that ask and change nothing, or none')
    add_known(parser, older_entries)
    parser.add_argument('--all', action='store_true', help='prints each finding by itself; by '
                        f'default, equal ones are one, and {FINDINGS_AT_MOST} are printed')
    parser.add_argument('--brief', action='store_true', help='prints a line for each finding')
    parser.add_argument('--html', metavar='FILE', help='writes a page for a browser with what '
                        'differs and the calls around it')
    parser.add_argument('--json', metavar='FILE',
                        help='writes the verdict and all findings as JSON')
    parser.add_argument('--junit', metavar='FILE',
                        help='writes the verdict and the findings as JUnit XML')
    add_colour(parser)
    add_judging(parser)
    parser.add_argument('first', metavar='A')
    parser.add_argument('second', metavar='B')
    return parser.parse_args(words)


def outputs_of(words: argparse.Namespace) -> list[str | None]:
    return [words.html, words.json, words.junit, words.known_new]


def try_all(words: argparse.Namespace, recordings: Sequence[str]) -> None:
    """Tries all outputs. The file of known findings may be replaced by another of them alone."""
    try_outputs(outputs_of(words), recordings)
    for path in filter(None, outputs_of(words)[:-1]):
        check_output(path, [*filter(None, [words.known.path])])


def taken_of(name: str, options: Options) -> Taken:
    """Takes a run. Raises `NotTaken` with its name."""
    try:
        return take(name, options)
    except NotTaken as refused:
        raise NotTaken(f'{escaped(name)}: {refused}', refused.packed_by) from refused


def compared_runs(words: argparse.Namespace, stack: ExitStack) -> int:
    program = program_path(words.program)
    names = [words.first, words.second]
    inputs = files_in(names)
    try_all(words, inputs)
    with held():
        folder = Path(stack.enter_context(tempfile.TemporaryDirectory(prefix='nfs3canon')))
    runs = [stack.enter_context(taken_of(name, options_of(words))) for name in names]
    for name, line in ((name, line) for name, taken in zip(names, runs)
                       for line in recording_lines(taken, has_taken=False)):
        print(f'{escaped(name)}: {line}', file=sys.stderr)
    covers, trial = checked_runs(program, folder, names, runs)
    masks = in_any_order(words.mask, any(cover.has_raw for cover in covers))
    print(f'masked: {mask_text(masks[0])}', flush=True)
    choices = Choices(words.order, masks, following(words.mask),
                      frozenset() if words.extra == 'none' else ASKING,
                      bool(words.html), words.known if words.known.path else None)
    with trial.progress.line():
        report = judged_runs(trial, choices, covers)
    is_same = told_of(words, [*inputs, *filter(None, [words.known.path])], report)
    if any(cover.faults() for cover in covers):
        return REFUSED
    return SAME if is_same else DIFFERENT


def checked_runs(program: str, folder: Path, names: list[str],
                 runs: Sequence[Taken]) -> tuple[list[Cover], Trial]:
    """Checks both runs, and prints what is refused. Raises `NothingToCompare`."""
    progress = Progress()
    progress.begin('checking both runs')
    trial = Trial(program, folder, runs, progress)
    checks = [[program, 'check', capture] for capture in trial.captures]
    covers = list(map(partial(cover_of, program), runs, names, run_side_by_side(checks, CHECKED)))
    progress.end()
    for cover in covers:
        if not cover.size.calls:
            name = escaped(cover.name)
            faults = '; '.join(f'{name}: {fault}' for fault in cover.faults())
            raise NothingToCompare(faults or f'nothing to compare: no call of {name} is taken')
    for cover in covers:
        for line in cover.notes():
            print(f'{escaped(cover.name)}: {line}', file=sys.stderr)
    if any(cover.of_states('refused') for cover in covers):
        trial = Trial(program, folder, [cover.taken for cover in covers], progress)
    return covers, trial


def told_of(words: argparse.Namespace, inputs: Sequence[str], report: Report) -> bool:
    """Prints and writes what is said of both runs. Returns whether they are the same."""
    is_good = report.is_same and all(cover.is_good(allowed_of(words)) for cover in report.covers)
    colour = Colour.GREEN if is_good else Colour.RED if report.is_different else Colour.YELLOW
    print(screen_of(words.color).painted('\n'.join(report.lines()), colour),
          *lines_of_counts(report.covers), sep='\n', flush=True)
    if words.known_new:
        compared = report.found.whole or Compared()
        recordings = files_in([words.first, words.second])
        texts = texts_of(compared.findings, compared.mask)
        write_file(words.known_new, file_of_known(texts), recordings)
    explain(words, inputs, report, is_good)
    return is_good


def explain(words: argparse.Namespace, inputs: Sequence[str], report: Report,
            is_good: bool) -> None:
    """Writes and prints what differs between two runs."""
    compared = report.found.compared
    if words.junit:
        told = compared if is_told(words, report) else replace(compared, findings=[])
        write_file(words.junit, [telling.junit_of_comparison(report, told, is_good)], inputs)
    if words.html:
        content = ComparedContent(report, compared)
        write_file(words.html, pages.compared_page(content), inputs)
    if words.json:
        write_file(words.json, telling.json_of_comparison(report, compared), inputs)
    print_comparison(words, report, compared)
    accepted = report.found.accepted
    for text in (*telling.each_accepted(accepted if words.all else None),
                 *telling.of_accepted(accepted)):
        print(text)


def is_told(words: argparse.Namespace, report: Report) -> bool:
    """Whether findings are printed. Those that do not count in another order are with --all."""
    return report.found.same_under is None or bool(words.all)


def print_comparison(words: argparse.Namespace, report: Report, compared: Compared) -> None:
    if not report.place:
        return
    screen = screen_of(words.color)
    if is_told(words, report):
        for line in telling.of_compared(compared, None if words.all else FINDINGS_AT_MOST,
                                        words.brief):
            colour = None if isinstance(line, str) else SIGN_COLOURS.get(line.sign)
            print(screen.painted(str(line), colour))
    most = None if words.all else SILENT_AT_MOST
    for text in (*telling.of_silent(compared, most), *telling.of_notes(compared, most)):
        print(text)
    print(compared_in_words(compared))


def write_error(words: argparse.Namespace, message: str) -> None:
    """Writes for those who read JUnit XML that the runs could not be compared."""
    if words.junit:
        names = [words.first, words.second]
        write_file(words.junit, [telling.junit_of_error(names, message)], files_in(names))


def main(words: list[str]) -> int:
    chosen, stack = command_line_of_compare(words), ExitStack()
    try:
        stack.enter_context(printed_beside(outputs_of(chosen)))
        return compared_runs(chosen, stack)
    except NothingToCompare as nothing:
        write_error(chosen, str(nothing))
        return ended('compare', str(nothing), REFUSED)
    except NotTaken as refused:
        write_error(chosen, advice_on(refused, 'compare'))
        raise
    finally:
        stack.close()


command = command_of(__name__, 'compare', main)
