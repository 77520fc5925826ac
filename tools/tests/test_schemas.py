"""Tests of docs/schemas against what the tools write, and of the validator."""
import json
import pathlib
from collections.abc import Callable, Iterator
from typing import Any

from examples.packets import pcap

from .comparisons import Comparisons
from .scripts import EXAMPLES, FIRST, SECOND, TOP, Tools, whole, write_faulty
from .test_compare import NLINK, accepts, run

RUNS = [FIRST, SECOND]
def validator_knows_its_keywords(tools: Tools) -> None:
    """What fits has no fault, and has one with another value, or a member too few or too many."""
    schema = {
        '$ref': '#/$defs/whole', '$defs': {'name': {'$ref': 'other.json#/$defs/a'}, 'whole': {
            'type': 'object', 'required': ['one', 'many'], 'additionalProperties': False,
            'properties': {
                'one': {'const': 1}, 'few': {'enum': ['a', None]}, 'many': {
                    'type': 'array', 'items': {'anyOf': [{'type': 'null'}, {'type': 'integer'}]}},
                'open': {'additionalProperties': {'$ref': '#/$defs/name'}},
                'number': {'type': 'number'}, 'is': {'type': ['boolean', 'null']}}}}}
    good = {'one': 1, 'few': None, 'many': [None, -3], 'open': {'x': 'y'}, 'number': 1.5,
            'is': False}
    tools.write('s.json', json.dumps(schema).encode())
    tools.write('other.json', json.dumps({'$defs': {'a': {'type': 'string'}}}).encode())
    others = [{**good, name: value} for name, some in {
        'one': (True, 1.0, 2), 'few': ('b', 0), 'many': ({}, [True], ['x'], [1.5]), 'more': (1,),
        'open': ({'x': 1},), 'number': (False, '1'), 'is': (0, {})}.items() for value in some]
    found = [not Schema('s.json', pathlib.Path(tools.folder)).faults(value)
             for value in (good, {'one': 1, 'many': []}, {'one': 1}, [], *others)]
    tools.want('fits', found, [True, True] + [False] * (2 + len(others)))


def schemas_use_what_is_known(tools: Tools) -> None:
    """Each is named on its page, with its draft and known keywords."""
    page = (FOLDER / 'README.md').read_text()
    for path in sorted(FOLDER.glob('*.json')):
        schema = json.loads(path.read_text())
        tools.want(path.name, (f'[{path.name}]({path.name})' in page, schema['$id'],
                               schema['$schema']),
                   (True, path.name, 'https://json-schema.org/draft/2020-12/schema'))
        parts, more = [schema], list[Any]()
        while parts:
            parts, more = [part for one in parts for part in parts_of(one)], more + parts
        tools.want('keywords of ' + path.name,
                   {word for one in more for word in one} - KEYWORDS.keys() - NOTES, set())


def parts_of(schema: Any) -> list[Any]:
    some = [*schema.get('properties', {}).values(), *schema.get('$defs', {}).values(),
            *schema.get('anyOf', ()), schema.get('items'), schema.get('additionalProperties')]
    return [part for part in some if isinstance(part, dict)]


def fits(tools: Tools, name: str, text: str) -> Any:
    """Wants JSON to fit a schema. Returns it."""
    value = json.loads(text)
    tools.want(name, Schema(name).faults(value)[:3], [])
    return value


def written(tools: Tools, tool: str, *words: str) -> str:
    """What a tool writes as JSON to standard output."""
    return tools.tool(tool,
                      *(['--json'] if tool in ('calls', 'meaning') else ['--json', '-']), *words)[1]


def verdicts_fit(tools: Tools) -> None:
    """What verdicts, procedures, calls and meaning write fits, in version 2."""
    faulty = write_faulty(tools)
    names = [*faulty, *RUNS, str(EXAMPLES / 'two_connections.nfs3cap')]
    for tool in ('verdicts', 'procedures', 'calls'):
        value = fits(tools, f'{tool}.json', written(tools, tool, *names))
        tools.want('version of ' + tool, value['version'], 2)
        states = {row['state'] for row in value.get('rows') or value['verdicts']}
        tools.want('states', states >= {'ok', 'refused', 'in part', 'error'}, True)
    value = fits(tools, 'meaning.json', written(tools, 'meaning', *names))
    tools.want('findings', len(value['findings']) > 0, True)


def comparisons_fit(tools: Tools) -> None:
    """What compare writes fits, of runs of all kinds."""
    place = Comparisons(tools.program, tools.folder)
    accepts(place, NLINK)
    place.put('a', run(1, 1, 1))
    for nlinks, names, words in (((1, 1, 1), (), ()), ((1, 2, 3), (), ('--known', 'known')),
                                 ((1, 2, 1), (), ('--known', 'known')), ((1, 1, 1), (2, 1, 0), ()),
                                 ((1, 2, 1), (2, 1, 0), ('--order', 'strict'))):
        place.put('b', run(*nlinks, names=names, more=nlinks[1] - 1))
        value = fits(tools, 'compare.json', written(tools, 'compare', *words, 'a', 'b'))
        tools.want('version', value['version'], 2)
    tools.write('lost.pcap', pcap(whole()[:4] + whole()[5:]))
    fits(tools, 'compare.json', written(tools, 'compare', *RUNS))
    fits(tools, 'compare.json', written(tools, 'compare', 'lost.pcap', 'lost.pcap'))


FOLDER = TOP / 'docs/schemas'
TYPES: dict[str, Callable[[Any], bool]] = {
    'object': lambda value: isinstance(value, dict), 'array': lambda value: isinstance(value, list),
    'string': lambda value: isinstance(value, str),
    'boolean': lambda value: isinstance(value, bool),
    'integer': lambda value: isinstance(value, int) and not isinstance(value, bool),
    'number': lambda value: isinstance(value, (int, float)) and not isinstance(value, bool),
    'null': lambda value: value is None}
NOTES = {'$schema', '$id', '$defs', 'title', 'description'}  # keywords that refuse nothing


class Schema:
    """A schema of a folder, with those to which it refers."""

    def __init__(self, name: str, folder: pathlib.Path = FOLDER) -> None:
        self.name, self.folder = name, folder
        self.whole: Any = json.loads((folder / name).read_text())

    def faults(self, value: Any) -> list[str]:
        return list(self.of(self.whole, value, '$'))

    def of(self, schema: Any, value: Any, at: str) -> Iterator[str]:
        for keyword, wanted in schema.items():
            if keyword not in NOTES:
                yield from KEYWORDS[keyword](self, wanted, value, at, schema)

    def referred(self, reference: str, value: Any, at: str) -> Iterator[str]:
        """Yields what is wrong by a definition, as `FILE#/$defs/NAME`."""
        file, _, pointer = reference.partition('#/')
        there = Schema(file, self.folder) if file else self
        part = there.whole
        for word in pointer.split('/'):
            part = part[word]
        yield from there.of(part, value, at)


def of_type(schema: Schema, wanted: Any, value: Any, at: str, _: Any) -> Iterator[str]:
    names = [wanted] if isinstance(wanted, str) else wanted
    if not any(TYPES[name](value) for name in names):
        yield f'{at}: {value!r} is no {" or ".join(names)}'


def of_properties(schema: Schema, wanted: Any, value: Any, at: str, _: Any) -> Iterator[str]:
    for name, part in wanted.items():
        if isinstance(value, dict) and name in value:
            yield from schema.of(part, value[name], f'{at}.{name}')


def of_required(schema: Schema, wanted: Any, value: Any, at: str, _: Any) -> Iterator[str]:
    if isinstance(value, dict):
        yield from (f'{at}: no member {name}' for name in wanted if name not in value)


def of_others(schema: Schema, wanted: Any, value: Any, at: str, whole: Any) -> Iterator[str]:
    for name in value.keys() - whole.get('properties',
                                         {}).keys() if isinstance(value, dict) else ():
        if wanted is False:
            yield f'{at}: a member {name} more'
        else:
            yield from schema.of(wanted, value[name], f'{at}.{name}')


def of_items(schema: Schema, wanted: Any, value: Any, at: str, _: Any) -> Iterator[str]:
    for number, item in enumerate(value if isinstance(value, list) else ()):
        yield from schema.of(wanted, item, f'{at}[{number}]')


def of_enum(schema: Schema, wanted: Any, value: Any, at: str, _: Any) -> Iterator[str]:
    if not any(type(value) is type(one) and value == one for one in wanted):
        yield f'{at}: {value!r} is none of {wanted}'


def of_any(schema: Schema, wanted: Any, value: Any, at: str, _: Any) -> Iterator[str]:
    faults = [list(schema.of(part, value, at)) for part in wanted]
    if all(faults):
        yield f'{at}: fits none: ' + ' | '.join(some[0] for some in faults)


KEYWORDS: dict[str, Callable[[Schema, Any, Any, str, Any], Iterator[str]]] = {
    'type': of_type, 'properties': of_properties, 'required': of_required,
    'additionalProperties': of_others, 'items': of_items,
    'enum': of_enum, 'anyOf': of_any,
    'const': lambda schema, wanted, value, at, whole: of_enum(schema, [wanted], value, at, whole),
    '$ref': lambda schema, wanted, value, at, _: schema.referred(wanted, value, at)}
