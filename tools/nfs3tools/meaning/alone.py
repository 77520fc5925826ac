"""The rules about one exchange: a reply against its call. Each function yields whether a rule is
broken, its name, and how."""
from __future__ import annotations

from collections.abc import Callable, Iterable, Iterator
from itertools import chain

from ..exchanges.in_words import number_named, short
from ..exchanges.procedures import (
    ACCESS, CREATE, DIRECTORY, FSINFO, LISTINGS, LOOKUP, MAKING, MKDIR, OF_NAMES, READ, REGULAR,
    SETATTR, SYMBOLIC_LINK, SYMLINK, WRITE)
from ..exchanges.values import Attributes, Time, Values, attributes, seconds, size_of_entry
from ..shared.layouts import ERRORS, VALUES
from .recorded import EVERYWHERE, EXCLUSIVE, UNCHECKED, RecordedExchange
from .rules import CLIENT

RuleChecks = Iterator[tuple[object, str, str]]
TYPES = {CREATE: REGULAR, MKDIR: DIRECTORY, SYMLINK: SYMBOLIC_LINK}
NOT_SYNC = 10002
TIME_NAMES = 'atime', 'mtime', 'ctime'
SECOND = 10**9  # nanoseconds
STABLE, FILE_TYPES = VALUES['stable'], VALUES['type']
SERVER_TIME_STEP = 2  # seconds of a server's times
PERMISSION_BITS, BITS_OF_OTHERS = 0o777, 0o077  # a server may leave out the other bits of a mode
NOT_SET = 0xffffffff  # a uid or gid that stays as it is
# Rules that a change breaks which comes between the data of a READ and its attributes.
BESIDE = ('read-eof', 'read-past-end')


def broken_by(one: RecordedExchange) -> Iterator[tuple[str, str]]:
    """Iterates over the rules that an exchange breaks, each with how."""
    of_reply = CHECKS.get(one.procedure, ()) if one.is_ok else ()
    checks = (of_attributes, *OF_ANY_STATUS.get(one.procedure, ()), *of_reply)
    return broken(chain.from_iterable(check(one) for check in checks))


def broken(asked: RuleChecks) -> Iterator[tuple[str, str]]:
    return ((rule, text) for is_broken, rule, text in asked if is_broken)


def of_byte_counts(one: RecordedExchange) -> RuleChecks:
    """Asks how much a WRITE has, or the reply to a READ, and how much was done."""
    name = short(one.procedure).lower()
    values = one.call if one.procedure == WRITE else one.reply
    count, size, most = values['count'], len(values['data']), one.call['count']
    yield count != size, f'{name}-count-data', f'count is {count:,}, with {size:,} bytes of data'
    if one.is_ok:
        done = one.reply['count']
        yield done > most, f'{name}-count-asked', f'{done:,} bytes, asked for {most:,}'


def of_read(one: RecordedExchange) -> RuleChecks:
    size, eof, end = one.reply.get('obj.size'), one.reply['eof'], one.first + one.reply['count']
    if size is not None and one.is_quiet():
        yield (one.call['count'] and (end >= size) != bool(eof), 'read-eof',
               f'eof is {eof} after byte {end:,}, and the size is {size:,}')
        yield (one.first < end > size, 'read-past-end',
               f'bytes up to {end:,}, and the size is {size:,}')


def of_write(one: RecordedExchange) -> RuleChecks:
    size, end = one.reply.get('obj.after.size'), one.first + one.reply['count']
    committed, stable = one.reply['committed'], one.call['stable']
    yield (one.first < end and committed < stable, 'write-committed',
           f'committed is {STABLE[committed]}, asked for {STABLE[stable]}')
    asked = one.call['count']
    yield one.first == end != one.last, 'write-nothing', f'0 bytes of {asked:,} are written'
    if size is not None and one.first < end > size and one.recorded.has_frames:
        yield (all(change.written != EVERYWHERE for change in one.beside()), 'write-size',
               f'size is {size:,}, after bytes up to {end:,} were written')


def of_attributes(one: RecordedExchange) -> RuleChecks:
    """Asks what holds for all attributes. A time that a call has set is not the server's fault."""
    for told in one.told:
        for part in told[1:]:
            if part and max(part.atime[1], part.mtime[1], part.ctime[1]) >= SECOND:
                text = odd_times(one, 'server', part.atime, part.mtime, part.ctime)
                yield text and one.call.get('how') != EXCLUSIVE, 'nsec', text
        if told.now and told.now.mode & ~0o7777:
            yield True, 'mode-bits', f'mode is 0{told.now.mode:o}'


def of_sent_times(one: RecordedExchange) -> RuleChecks:
    """Asks the times that a call sets. A server may keep the verifier of an EXCLUSIVE CREATE in any
    times (section 3.3.8), with its words and their bytes in any order."""
    verifier = bytes.fromhex(one.call.get('createverf', ''))
    for word in (way[at:at + 4] for way in (verifier, verifier[::-1]) for at in (0, 4)):
        for mask in (0xffffffff, 0x7fffffff):
            one.sender(int.from_bytes(word, 'big') & mask, CLIENT)
    times = [one.call.get(f'set.{name}', (0, 0)) for name in TIME_NAMES]
    text = odd_times(one, CLIENT, *times)
    yield text and one.is_ok, 'nsec', f'sets {text}'


def odd_times(one: RecordedExchange, by: str, *times: Time) -> str:
    """Returns the times in words that have no number of nanoseconds, and are by this sender."""
    return ', '.join(f'{name} {time[0]:,} s and {time[1]:,} ns'
                     for name, time in zip(TIME_NAMES, times)
                     if time[1] >= SECOND and one.sender(time[1], by) == by)


def of_access(one: RecordedExchange) -> RuleChecks:
    granted, asked = one.reply['access'], one.call['access']
    now, wanted = (number_named('access', bits) for bits in (granted, asked))
    yield granted & ~asked, 'access-asked', f'{now}, asked for {wanted}'


def of_directory(one: RecordedExchange) -> RuleChecks:
    for name in ('dir.type', 'dir.after.type'):
        kind = one.reply.get(name, DIRECTORY)
        yield kind != DIRECTORY, 'dir-type', f'type is {FILE_TYPES[kind]}'


def of_made(one: RecordedExchange, is_new: bool = False) -> RuleChecks:
    """Asks whether all is as it was asked for. An UNCHECKED CREATE may have found a file. An ACL of
    the folder may take permissions from groups and others, and the server chooses the owner."""
    made, asked = attributes(one.reply, 'obj.'), one.call
    if made is None or asked.get('how') == UNCHECKED and not is_new:
        return
    kind = TYPES[one.procedure] if one.procedure in TYPES else asked['type']
    yield (made.type != kind, 'made-type',
           f'type is {FILE_TYPES[made.type]}, asked for {FILE_TYPES[kind]}')
    mode = asked.get('set.mode', made.mode) & (made.mode | ~BITS_OF_OTHERS)
    if kind != SYMBOLIC_LINK:
        yield from unlike('made-attributes', asked, made, mode, ('size',))


def of_setting(one: RecordedExchange) -> RuleChecks:
    """Asks what is set. A symbolic link has no mode."""
    after, asked = one.told[0].now, one.call
    if after and one.is_quiet():
        mode = after.mode if after.type == SYMBOLIC_LINK else asked.get('set.mode', after.mode)
        yield from unlike('set-attributes', asked, after, mode, ('uid', 'gid', 'size'))


def unlike(rule: str, asked: Values, found: Attributes, mode: int,
           names: tuple[str, ...]) -> RuleChecks:
    """Asks whether attributes are those of a call. A READ moves atime."""
    yield ((mode ^ found.mode) & PERMISSION_BITS, rule,
           f'mode is 0{found.mode:o}, asked for 0{asked.get("set.mode", 0):o}')
    for name in names:
        value, wanted = getattr(found, name), asked.get(f'set.{name}', NOT_SET)
        yield wanted not in (value, NOT_SET), rule, f'{name} is {value}, asked for {wanted}'
    time = asked.get('set.mtime', found.mtime)
    yield (abs(found.mtime[0] - time[0]) > SERVER_TIME_STEP, rule,
           f'mtime is {seconds(found.mtime)}, asked for {seconds(time)}')


def of_guard(one: RecordedExchange) -> RuleChecks:
    was, guard = one.told[0].before, one.call.get('guard.ctime')
    if guard and was and one.is_quiet():
        is_same = was.ctime == guard
        status = one.status and ERRORS.get(one.status, one.status) or 'OK'
        yield (one.status == NOT_SYNC if is_same else one.is_ok, 'guard', f'status is {status}, '
               f'and the ctime before is {"" if is_same else "not "}that of the guard')


def of_entry_names(one: RecordedExchange) -> RuleChecks:
    """Asks the names of entries. One that moves meanwhile may be there twice."""
    names = [entry['name'] for entry in one.reply['entries']]
    again = {*repeated(names)} if one.is_alone() else ()
    for at, name in enumerate(names):
        is_none = not name or '/' in name or '\\x00' in name
        yield is_none, 'entry-names', f'"{name}" is no name'
        yield not is_none and at in again, 'entry-names', f'"{name}" is listed twice'


def of_entries(one: RecordedExchange) -> RuleChecks:
    entries, most = one.reply['entries'], one.call.get('maxcount', one.call.get('count'))
    cookies = [entry['cookie'] for entry in entries]
    for at in repeated((0, one.call['cookie'] or None, *cookies)):
        yield True, 'entry-cookies', f'"{entries[at - 2]["name"]}" has cookie ' \
            f'{cookies[at - 2]}, which is another one'
    yield not entries and not one.reply['eof'], 'entries-none', 'no entry, and eof is 0'
    size = 4 + 84 * ('dir.type' in one.reply) + 8 + sum(map(size_of_entry, entries)) + 4 + 4
    yield size > most, 'entries-size', f'{size:,} bytes, asked for at most {most:,}'


def repeated(values: Iterable[object]) -> Iterator[int]:
    """Iterates over the numbers of values that are there before, from 0 on."""
    seen = set[object]()
    for at, value in enumerate(values):
        if value in seen:
            yield at
        seen.add(value)


def of_file_ids(one: RecordedExchange) -> RuleChecks:
    """Asks the ids of entries. What is mounted on a directory has another one."""
    for entry in one.reply['entries']:
        if entry.get('type', DIRECTORY) != DIRECTORY and entry['fsid'] == one.reply.get('dir.fsid'):
            own, shown = entry['listed.fileid'], entry['fileid']
            yield (own != shown, 'entry-fileid',
                   f'"{entry["name"]}" has fileid {own}, and {shown} in its attributes')


def of_limits(one: RecordedExchange) -> RuleChecks:
    """Asks the sizes of READ and WRITE. A server that takes no WRITE may have none."""
    for way in ('rt', 'wt'):
        most, best, unit = (one.reply[way + name] for name in ('max', 'pref', 'mult'))
        yield (best > most or most and not unit, 'fsinfo',
               f'{way}max is {most:,}, {way}pref {best:,}, {way}mult {unit:,}')


Checks = dict[str, tuple[Callable[[RecordedExchange], RuleChecks], ...]]
OF_ANY_STATUS: Checks = {WRITE: (of_byte_counts,), SETATTR: (of_guard,)}
CHECKS: Checks = {
    **dict.fromkeys((LOOKUP, *OF_NAMES), (of_directory,)),
    **dict.fromkeys(MAKING, (of_directory, of_made)),
    **dict.fromkeys(LISTINGS, (of_directory, of_entry_names, of_entries, of_file_ids)),
    READ: (of_byte_counts, of_read), WRITE: (of_write,),
    SETATTR: (of_setting,), ACCESS: (of_access,), FSINFO: (of_limits,)}
