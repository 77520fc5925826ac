"""The table of classes of masked values: their names and their usual ways, in order, and the texts
that list them."""
import pathlib
import re

TOP = pathlib.Path(__file__).resolve().parents[2]
TABLE = TOP / 'crates/masking3/specs/Classes.antt'

# What lists the names, with a pattern for the list or for each name of it.
LISTS = {
    'crates/nfs3mask/src/line/command.rt': r'classes: ([a-z, \n]*)\n  ways:',
    'completions/nfs3mask.bash': r"local classes='([a-z ]*)'",
    'completions/nfs3mask.fish': r'for class in ([a-z ]*)\n',
    'completions/_nfs3mask': r'classes=\(([a-z ]*)\)',
}
# What lists the names with their ways.
TABLES = {
    'crates/nfs3mask/src/line/grammar.rt': r'^  (\w+)=(\w+) ',
    'man/nfs3mask.1': r'^(\w+)\|(\w+)\|',
}


def usual_ways() -> dict[str, str]:
    """The usual way of each class, by its name."""
    rows = re.findall(
        r'^row \w+ = record \{ place = (\d+); name = codes "(\w+)"; usual = (\w+) \}$',
        TABLE.read_text(), re.M)
    assert [int(place) for place, _, _ in rows] == list(range(len(rows)))
    return {name: way.lower() for _, name, way in rows}


def listed() -> dict[str, list[str]]:
    """The names in each text that lists them."""
    return {path: re.findall(r'[a-z]+', ''.join(re.findall(form, (TOP / path).read_text())))
            for path, form in LISTS.items()}


def with_ways() -> dict[str, dict[str, str]]:
    """The usual ways in each text that has them."""
    return {path: dict(re.findall(form, (TOP / path).read_text(), re.M))
            for path, form in TABLES.items()}
