#!/usr/bin/env python3
"""Tests of dev/edits.py, which tries many must-fail edits in one check.

    python3 tests/sources/must_fail.py [PROGRAM] [--only TEXT] [-v]

PROGRAM plays no part. A crate of two functions, the second of which calls the first, is made in a
folder, and `rt` checks it. The last line is 'N passed, M failed', and the status is 1 if any
failed.
"""
import os
import pathlib
import re
import sys
import tempfile

sys.path.insert(0, str(pathlib.Path(__file__).resolve().parents[2]))
from dev.bodies import function_at
from tests.shared.running import Runs, ended, try_all, words_of

TOP = pathlib.Path(__file__).resolve().parents[2]

SOURCE = '''//! Two sums.

#![tactic(auto)]

ghost use Rattle.std.specs.Prelude.{◌≡◌, ◌≤◌, ◌+◌};

/// Returns the next number.
pub fn one_more(n: u32) -> u32
    requires { n ≤ 1000 }
    ensures { result ≡ n + 1 }
{
    n + 1
}

/// Returns the number after the next.
pub fn two_more(n: u32) -> u32
    requires { n ≤ 999 }
    ensures { result ≡ n + 2 }
{
    one_more(n) + 1
}
'''
# An edit is a name, the old and the new text, and what is said of it.
FIRST, SECOND, CONTRACT = '    n + 1', '    one_more(n) + 1', '    ensures { result ≡ n + 1 }'
TOGETHER = r'refused in \w+: returns'
ALONE = 'refused, as it must be.*'
EDITS = {
    'adds_two': (FIRST, '    n + 2', TOGETHER),
    'adds_nothing': (FIRST, '    n', TOGETHER),
    # its caller is refused beside it, but for that alone
    'means_the_same': (SECOND, '    1 + one_more(n)', 'NOT REFUSED: .*'),
    # kits before rattle-kit-13f say that it is proved
    'changes_nothing': (SECOND, SECOND, '(BAD EDIT: it changes nothing|NOT REFUSED:) .*'),
    'asks_for_more': (CONTRACT, '    ensures { result ≡ n + 3 }', ALONE),
}
SPOILT = {
    'adds_two': (FIRST, '    n + 2', TOGETHER),
    'is_no_code': (SECOND, '    one_more(n) +', 'BAD EDIT: it did not reach the prover.*'),
}
# A proof of the second function, and edits that take away what it names.
ANSWERS = '''use Rattle.std.proofs.Common.{◌≡◌, ◌+◌, arith}
use Rattle.sums.proofs.two_more.Goals as goal

pub returns : goal.returns
returns c = omega (arith, c.one_more.ensures)
'''
OF_NAMES = {
    'adds_two_more': (SECOND, '    one_more(n) + 2', 'refused in two_more: returns'),
    'adds_three': (SECOND, '    n + 3', 'NOT BY A GOAL: refused in two_more'),
}
# Places in a file, and the function whose body each is in.
PLACES = {
    'n: u32) -> u32\n    requires { n ≤ 1000': None, 'n ≤ 1000': None, '    n + 1': 'one_more',
    'Returns the number': None,
    'ghost use': None, 'one_more(n) + 1': 'two_more',
}
METHODS = '''impl<'a, T: Ord> From<io::Error> for Fault<T> {
    fn from(error: io::Error) -> Self {
        if true {
            Fault::new(error)
        }
    }
}

const SIZE: usize = 4;

impl Fault {
    /// Makes one.
    pub(crate) const fn new() -> Self {
        Fault
    }
}

fn last() {
    SIZE;
}
'''
PLACES_OF_METHODS = {
    'Fault::new(': 'FaultFromIoError::from', 'const SIZE': None, 'Makes one': None,
    '        Fault\n': 'Fault::new', 'SIZE;': 'a::b::last',
}


def repository(runs: Runs, edits: dict[str, tuple[str, str, str]]) -> None:
    """Writes a repository of one crate with these edits."""
    crate = pathlib.Path(runs.folder, 'crates/sums')
    for folder in ('src', 'must-fail'):
        (crate / folder).mkdir(parents=True)
    os.mkdir(runs.path('.git'))
    runs.write('crates.txt', b'sums:\n')
    runs.write('HANDLES', b'Handles allowed: none.\n')
    (crate / 'src/lib.rt').write_text(SOURCE)
    for name, (old, new, _) in edits.items():
        (crate / f'must-fail/{name}.edit').write_text(f'file: src/lib.rt\nold: {old}\nnew: {new}\n')


def are_told(runs: Runs, edits: dict[str, tuple[str, str, str]], answers: str = '') -> None:
    """What is said of each edit has the words of its row, and the last line counts those that are
    refused."""
    repository(runs, edits)
    if answers:
        proofs = pathlib.Path(runs.folder, 'crates/sums/proofs/two_more')
        proofs.mkdir(parents=True)
        (proofs / 'Answers.antt').write_text(answers)
    status, out, _ = ended([sys.executable, str(TOP / 'dev/edits.py')], runs.folder,
                           limit=None).text()
    for name, (_, _, wanted) in edits.items():
        told = re.findall(rf'sums/{name}\.edit: (.*)', out)
        runs.want(name, [bool(re.fullmatch(wanted, line)) for line in told] == [True] or told, True)
    refused = sum(wanted.startswith('refused') for _, _, wanted in edits.values())
    runs.want('count', (out.splitlines()[-1], status),
              (f'{refused} passed, {len(edits) - refused} failed', int(refused < len(edits))))


def edits_of_each_kind(runs: Runs) -> None:
    """Two of one function, one that means the same, one that changes nothing, and one of a
    contract."""
    are_told(runs, EDITS)


def names_in_a_proof(runs: Runs) -> None:
    """An edit fails if all that is wrong is a name in a proof file that was written."""
    are_told(runs, OF_NAMES, ANSWERS)


def an_edit_that_is_no_code(runs: Runs) -> None:
    """It spoils the check that it shares, so the others are tried in halves without it."""
    are_told(runs, SPOILT)


def places_of_functions(runs: Runs) -> None:
    """A place in a body has the name that a check prints; one in a contract, a comment or between
    functions has none."""
    for path, text, places in (('src/lib.rt', SOURCE, PLACES),
                               ('src/a/b.rt', METHODS, PLACES_OF_METHODS)):
        for place, wanted in places.items():
            runs.want(place, function_at(path, text, text.index(place)), wanted)


def tried(program: str, name: str) -> list[str]:
    """What is wrong in a test, which has a folder of its own."""
    with tempfile.TemporaryDirectory(prefix='nfs3canon') as folder:
        runs = Runs(program, folder)
        globals()[name](runs)
        return runs.wrong


if __name__ == '__main__':
    try_all(words_of(__doc__),
            [(name, tried, name) for name in ('edits_of_each_kind', 'names_in_a_proof',
                                              'an_edit_that_is_no_code', 'places_of_functions')], 2)
