#!/usr/bin/env python3
"""Tries the must-fail edits of crates, many in one check.

    python3 dev/edits.py [CRATE ..]

runs at the top of the repository, once the libraries below the crates are built (`rt lib`). It
begins with what `rt check` of a crate kept, if that was run.

An edit is one bug, in one function. A check goes on after a function that it refuses, and says of
each function why it is not proved. Proofs read the contracts of the functions that they call, and
not their bodies, so a bug in a body changes the verdict on its own function alone. Edits of
different functions are therefore tried in one check, a round. All others are tried alone, as by `rt
must-fail`: an edit that changes nothing or does not compile, one of a contract, a type, a
definition or a proof, and one whose function no round refuses.

What refuses an edit is a goal that is left open: a clause, what a callee requires, an invariant or
a measure, a check of the code, or a law over definitions. A proof file that names what the edit
took away, or a proof that is not made, says nothing of a contract; such an edit fails. Change a
value then, and keep the names. The line before the last says how many edits each kind of goal
refused. The last line is 'N passed, M failed'.
"""
import hashlib
import json
import os
import re
import sys
from collections import Counter
from collections.abc import Callable, Iterator
from pathlib import Path
from typing import NamedTuple

sys.path.insert(0, str(Path(__file__).resolve().parent))
from bodies import function_at, function_of_line  # noqa: E402
import kit  # noqa: E402

PAIR = re.compile(r'^(file|old|new): ?(.*)$', re.MULTILINE)
LINE = re.compile(r'^fn (\S+): (.*)$', re.MULTILINE)
OF_CALLEES = re.compile(r'it (calls|passes the block) .*?, which (is|are) not proved')
# The goals of a function that are left open, in its line; one by its place in the code that some
# values are known to break; and any by its place.
SEARCHED = re.compile(r'`search` did not prove `(\S+?)`')
FALSE = re.compile(r'^note: (?:\./)?(src/\S+?):(\d+):\d+: it is not proved that .*\(`(\S+?)`\); '
                   r'the facts known there allow values', re.MULTILINE)
OPEN = re.compile(r'(?:note: )?(?:\./)?src/\S+?:\d+:\d+: it is not proved that ([^;\n]*)')
# An error in a proof file, but for names that are gone: in the answers of a function with the name
# of its goal, or in a proof of a law.
NOT_OF_NAMES = r': error: (?!.*(?:has no field|is not in scope|has no `|was not admitted))'
ANSWER = re.compile(r'(?:\./)?proofs/(\S+)/Answers\.antt:\d+:\d+' + NOT_OF_NAMES + r'`(\S+?)`: ')
LAW = re.compile(r'(?:note: )?(?:\./)?proofs/\S+:\d+:\d+' + NOT_OF_NAMES)
# The kinds of goals, by words in what a check says of them or in their names.
KINDS = {'what a callee requires': (' requires ', '-requires'),
         'a clause': (' ensures ', 'returns'),
         'an invariant or a measure': ('loop', 'invariant', 'preserved', 'decreases')}
OF_CODE, OF_A_LAW, BY_NO_GOAL = 'a check of the code', 'a law', 'no goal'


class Round(NamedTuple):
    """Edits of one crate that are tried in one check, each with the functions that it changes."""
    texts: dict[str, str]  # the files that are changed, with all edits of the round
    functions: dict[Path, set[str]]


class Outcome(NamedTuple):
    """What became of an edit: what is said of it, and which kind of goal refused it. The kind is
    empty for one that was accepted or not tried."""
    said: str
    kind: str = ''

    @property
    def is_tried(self) -> bool:
        return bool(self.kind)


def changes(edit: Path) -> Iterator[tuple[str, str, str]]:
    """Yields the file, the old text and the new text of each change of an edit."""
    path = old = ''
    for key, words in PAIR.findall(edit.read_text()):
        if key == 'file':
            path = words.strip()
        elif key == 'old':
            old = words
        else:
            yield path, old, words


def functions_of(edit: Path, crate: kit.Crate) -> set[str]:
    """Returns the functions in whose bodies an edit is. None at all stands for an edit that is
    tried alone."""
    found: set[str] = set()
    texts: dict[str, str] = {}
    for path, old, new in changes(edit):
        text = texts.get(path) or (Path(crate.folder) / path).read_text()
        first = text.index(old) + len(os.path.commonprefix((old, new)))
        name = function_at(path, text, first) if path.startswith('src/') else None
        if name is None:
            return set()
        found.add(name)
        texts[path] = text.replace(old, new)
    return found


def with_edit(texts: dict[str, str], edit: Path, crate: kit.Crate) -> dict[str, str] | None:
    """Returns texts with an edit besides, or None if another edit has changed a line that it
    names."""
    made = dict(texts)
    for path, old, new in changes(edit):
        text = made.get(path) or (Path(crate.folder) / path).read_text()
        if text.count(old) != 1:
            return None
        made[path] = text.replace(old, new)
    return made


def rounds_of(crate: kit.Crate, edits: list[Path]) -> tuple[list[Round], list[Path]]:
    """Returns rounds in which no two edits change one function, and the edits that are tried
    alone."""
    rounds: list[Round] = []
    alone: list[Path] = []
    for edit in edits:
        names = functions_of(edit, crate) if kit.texts_with(edit, crate)[0] else set()
        if not names:
            alone.append(edit)
            continue
        for number, (texts, functions) in enumerate(rounds):
            made = with_edit(texts, edit, crate)
            if made and not names & set().union(*functions.values()):
                rounds[number] = Round(made, {**functions, edit: names})
                break
        else:
            rounds.append(Round(with_edit({}, edit, crate) or {}, {edit: names}))
    return rounds, alone


def goals_in(said: str, text_of: Callable[[str], str]) -> list[tuple[str, str]]:
    """Returns the goals that a check leaves open: the path of each one's function, and the name of
    the goal."""
    found = [(name, goal) for name, why in LINE.findall(said) for goal in SEARCHED.findall(why)]
    found += [(path.replace('/', '::'), goal) for path, goal in ANSWER.findall(said)]
    return found + [(function_of_line(path, text_of(path), int(line)) or '', goal)
                    for path, line, goal in FALSE.findall(said)]


def has_own_reason(functions: set[str], said: str) -> bool:
    """Whether a check refuses one of some functions, and not only for functions that it calls."""
    for name, why in LINE.findall(said):
        own = OF_CALLEES.sub('', why).removeprefix('no proof:').strip(' ;,')
        if own and not why.startswith(('proved', 'could not tell', 'assumed')) \
                and any(('::' + name).endswith('::' + function) for function in functions):
            return True
    return False


def goal_of(functions: set[str], goals: list[tuple[str, str]]) -> str | None:
    """Returns the first goal of some functions, if there is one. Paths of methods have their types,
    not their modules."""
    return next((goal for path, goal in goals
                 if any(('::' + path).endswith('::' + name) for name in functions)), None)


def kind_of(goal: str) -> str:
    """Returns which kind of goal one is."""
    return next((kind for kind, several in KINDS.items()
                 if any(words in goal for words in several)), OF_CODE)


def tried(crate: kit.Crate, one: Round, kept: str) -> dict[Path, Outcome]:
    """Tries a round, and alone what it does not refuse. If one edit is no code, the check says
    nothing of any function."""
    said = kit.check(crate, one.texts, sorted(set().union(*one.functions.values())), kept)
    if len(one.functions) > 1 and not LINE.search(said):
        return tried_by_halves(crate, list(one.functions), kept)
    goals, found = goals_in(said, lambda path: one.texts.get(path)
                            or (Path(crate.folder) / path).read_text()), {}
    for edit, names in one.functions.items():
        goal, label = goal_of(names, goals), f'refused in {", ".join(sorted(names))}'
        if goal is not None:
            found[edit] = Outcome(f'{label}: {goal[:160]}', kind_of(goal))
        elif has_own_reason(names, said):
            found[edit] = Outcome(f'NOT BY A GOAL: {label}', BY_NO_GOAL)
        else:
            found[edit] = tried_alone(crate, edit)
    return found


def tried_by_halves(crate: kit.Crate, edits: list[Path], kept: str) -> dict[Path, Outcome]:
    """Tries the two halves of a round, so that an edit that is no code is soon alone. A try alone
    takes minutes in some crates."""
    found = {}
    for half in (edits[:len(edits) // 2], edits[len(edits) // 2:]):
        for one in rounds_of(crate, half)[0]:
            found.update(tried(crate, one, kept))
    return found


def tried_alone(crate: kit.Crate, edit: Path) -> Outcome:
    """Tries an edit as `rt must-fail` does, and looks at the reason."""
    is_refused, said = kit.refused_alone(crate, edit)
    goal = OPEN.search(said) or ANSWER.search(said)
    if not is_refused:
        return Outcome(said)
    if goal:
        return Outcome(said, kind_of(goal[goal.re.groups]))
    return Outcome(said, OF_A_LAW) if LAW.search(said) else Outcome(f'NOT BY A GOAL: {said}',
                                                                    BY_NO_GOAL)


class Tries:
    """The tries of a crate's edits. What was refused is kept by a checksum of all that it rests
    on."""

    def __init__(self, crate: kit.Crate, edits: list[Path], is_anew: bool) -> None:
        self.crate, self.is_anew = crate, is_anew
        self.rounds, self.alone = rounds_of(crate, edits)

    def __len__(self) -> int:
        """Returns how many checks there are."""
        return len(self.rounds) + len(self.alone)

    def outcomes(self, begin: Callable[[], None]) -> Iterator[dict[Path, Outcome]]:
        """Yields what became of the edits of each check, and calls `begin` before it. A check goes
        on with what `rt check` and those before it proved."""
        with kit.kept_of(self.crate) as kept:
            for number in range(len(self)):
                begin()
                yield self.outcomes_of(number, kept)

    def outcomes_of(self, number: int, kept: str) -> dict[Path, Outcome]:
        """Returns what became of the edits of one check, from an earlier run if it is known."""
        edits = list(self.rounds[number].functions) if number < len(self.rounds) else [
            self.alone[number - len(self.rounds)]]
        place = self.place(edits)
        if place.exists() and not self.is_anew:
            known = json.loads(place.read_text())
            return {edit: Outcome(*known[edit.name]) for edit in edits}
        found = tried(self.crate, self.rounds[number], kept) if number < len(self.rounds) else {
            edit: tried_alone(self.crate, edit) for edit in edits}
        if all(outcome.is_tried for outcome in found.values()):
            keep(place, {edit.name: outcome for edit, outcome in found.items()})
        return found

    def place(self, edits: list[Path]) -> Path:
        """Returns where a refusal of these edits is kept."""
        own = Path(__file__).resolve().parent
        read = [own / name for name in ('edits.py', 'bodies.py', 'kit.py')] + edits
        made_of = [kit.sum_of(self.crate), *[edit.name for edit in edits],
                   *[file.read_bytes().hex() for file in read]]
        return kept_at() / hashlib.sha256('\n'.join(made_of).encode()).hexdigest()


def kept_at() -> Path:
    """Returns the folder of what is kept."""
    return Path(os.environ.get('XDG_CACHE_HOME') or Path.home() / '.cache') / 'nfs3canon/refused'


def keep(place: Path, outcomes: dict[str, Outcome]) -> None:
    """Writes what became of edits, beside and then under its name."""
    place.parent.mkdir(parents=True, exist_ok=True)
    beside = place.with_suffix(f'.{os.getpid()}')
    beside.write_text(json.dumps(outcomes))
    beside.replace(place)


def told(crate: kit.Crate, outcomes: dict[Path, Outcome]) -> Counter[str]:
    """Prints what became of edits. Returns how many each kind of goal refused."""
    for edit, outcome in outcomes.items():
        label = '' if outcome.said.startswith('must-fail') else f'{crate.name}/{edit.name}: '
        print(f'{label}{outcome.said}'.splitlines()[0], flush=True)
    return Counter(outcome.kind for outcome in outcomes.values())


def told_of_kinds(kinds: Counter[str]) -> str:
    """Returns what to say of the edits of all crates."""
    refused = ', '.join(f'{number} by {kind}' for kind, number in kinds.most_common() if kind)
    return f'{kinds.total()} edits: {refused or "none refused"}; {kinds[""]} not refused'


def failures(kinds: Counter[str]) -> int:
    """Returns how many edits were not refused, or by no goal."""
    return kinds[''] + kinds[BY_NO_GOAL]


def told_of_others(crate: kit.Crate, others: list[Path]) -> int:
    """Prints the files of must-fail/ that are no edits. Returns how many there are."""
    for other in others:
        print(f'{crate.name}/{other.name}: no edit. An edit stands right in must-fail/, and its '
              'name ends in .edit')
    return len(others)


def main(names: list[str]) -> int:
    crates = [crate for crate in kit.crates(Path.cwd()) if not names or crate.name in names]
    kinds, bad = Counter[str](), 0
    for crate in crates:
        found, others = kit.edits(crate)
        bad += told_of_others(crate, others)
        for outcomes in Tries(crate, found, is_anew=True).outcomes(lambda: None):
            kinds += told(crate, outcomes)
    print(told_of_kinds(kinds))
    failed = failures(kinds)
    print(f'{kinds.total() - failed} passed, {bad + failed} failed')
    return int(bad + failed > 0)


if __name__ == '__main__':
    sys.exit(main(sys.argv[1:]))
