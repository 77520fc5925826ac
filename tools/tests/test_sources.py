"""Tests that the tools read no text that they made themselves: a sentence is made last."""
import ast
from collections.abc import Iterator

from .scripts import TOP, Tools

PACKAGE = TOP / 'tools/nfs3tools'
# What takes a text apart, or looks at how it begins or ends.
METHODS = frozenset(('partition', 'rpartition', 'split', 'rsplit', 'splitlines', 'removeprefix',
                     'removesuffix', 'startswith', 'endswith'))
# The only places that do so, by what they read: functions and classes of modules. Patterns are
# those that stand at the top of a module.
READERS = {
    'what users type, and argparse says of it': {
        'commands.calls': 'duration procedure_names wanted_by', 'commands.cut': 'main',
        'commands.meaning': 'rule_names', 'comparison.values.classes': 'patterns',
        'judgement.window': 'nanoseconds patterns', 'shared.names': 'is_installed as_called',
        'reporting.messages': 'Parser fitted hanging help_of port_numbers patterns'},
    'what the programs print, and names and values in it': {
        'comparison.exchanges.outlines': 'renamed_values', 'comparison.values.classes': 'patterns',
        'comparison.values.long_values': 'is_quoted patterns', 'comparison.verdict.trial': 'Trial',
        'exchanges.answering': 'error_in patterns', 'exchanges.in_words': 'patterns',
        'exchanges.listing': 'line_of place_of patterns', 'meaning.objects': 'Object',
        'exchanges.values': 'Layout head_of time_in patterns',
        'shared.places': 'parse_place parse_fault patterns',
        'shared.programs': 'expected_of died patterns'},
    'files, also temporary ones': {
        'exchanges.stored': 'LongValues', 'shared.outputs': 'kind_of_file',
        'judgement.known': 'known_in known_line patterns',
        'comparison.verdict.accepted': 'line_of_entry'},
    'tables of layouts': {'shared.layouts': 'cases_of patterns'},
    # (which `recordings` gives as texts, and which have no names with a slash)
    'ends of connections, and paths': {'exchanges.kept': 'host_of', 'exchanges.objects': 'below'}}


def reading_in(tree: ast.Module) -> Iterator[str]:
    """Yields the places of a module that take texts apart, by these methods or by patterns."""
    for part in tree.body:
        name = part.name if isinstance(part, (ast.FunctionDef, ast.ClassDef)) else 'patterns'
        called = (node for node in ast.walk(part) if isinstance(node, ast.Attribute))
        if any(one.attr in METHODS or isinstance(one.value, ast.Name) and one.value.id == 're'
               and one.attr not in ('Match', 'Pattern') for one in called):
            yield name


def only_inputs_are_read(tools: Tools) -> None:
    """Each place that takes a text apart is one of those above, but for `recordings`."""
    known: dict[str, set[str]] = {}
    for modules in READERS.values():
        for module, names in modules.items():
            known.setdefault(module, set()).update(names.split())
    for path in sorted(PACKAGE.rglob('*.py')):
        module = '.'.join(path.relative_to(PACKAGE).with_suffix('').parts)
        if not module.startswith('recordings.'):
            tools.want(module, {*reading_in(ast.parse(path.read_text()))}, known.pop(module, set()))
    tools.want('modules that are not there', known, {})
