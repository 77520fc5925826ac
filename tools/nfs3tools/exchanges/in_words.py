"""What a call asks and what a reply says, in a few words, by their values.

    asked_in('NFSPROC3_WRITE', said).words        # '0+4096 UNSTABLE'
    answer_in('NFSPROC3_WRITE', reply_said)       # 'OK 4096 UNSTABLE'

`said` is what the listing has after the name of the procedure, from the space on.
"""
from __future__ import annotations

import functools
import re
from collections.abc import Callable, Mapping
from typing import NamedTuple

from ..shared.layouts import BY_NAME, TYPES_OF_FILES, RAW, VALUES, meaning_of
from .answering import error_in
from .procedures import (
    ACCESS, COMMIT, CREATE, GETATTR, LISTINGS, MKDIR, MKNOD, READ, READDIR, READDIRPLUS,
    READLINK, SETATTR, SYMLINK, WRITE, handle_items)
from .values import Values, head_of, read_call, read_reply, seconds

LONGEST_TEXT = 1_000  # characters of a name or a text
TEXTS_KEPT_AT_MOST = 1_024  # texts that are made once
ASKED_AT_MOST = 128  # the same of calls and replies: a client asks the same again soon
SPLIT = re.compile(r'\\(?:x[0-9a-f]?)?$')  # the beginning of a byte that is spelled by its digits
NOT_READ = 'accepted'  # what is said of results that are not read


class Asked(NamedTuple):
    """What a call of a user of AUTH_SYS asks.

    handle, entry: the object, or the folder and the name in it, or the path of MNT and UMNT
    other, other_entry: the same of a second one, of RENAME and LINK
    words: the other arguments
    """
    user: int | None = None
    handle: str | None = None
    entry: str | None = None
    other: str | None = None
    other_entry: str | None = None
    words: str = ''


@functools.lru_cache(ASKED_AT_MOST)
def asked_in(procedure: str, said: str) -> Asked:
    """Returns what a call asks. Of a raw call that is nothing but its user."""
    call, items = read_call(procedure, said), handle_items(procedure)
    words = ARGUMENTS[procedure](call).strip() if procedure in ARGUMENTS else ''
    return Asked(head_of(procedure, said)[1], *object_in(call, items[0]),
                 *(object_in(call, items[1]) if items[1:] else (None, None)), words)


def object_in(call: Values, item: str) -> tuple[str | None, str | None]:
    """Returns a handle of a call, and the name that follows it, or a whole path."""
    entry = call.get(f'{item[:-2]}name', call.get('dirpath'))
    return call.get(item), None if entry is None else beginning_of(entry)


@functools.lru_cache(TEXTS_KEPT_AT_MOST)
def number_named(name: str, value: int) -> str:
    return meaning_of(name, str(value), VALUES.get(name))


def beginning_of(text: str) -> str:
    return text if len(text) <= LONGEST_TEXT else SPLIT.sub('', text[:LONGEST_TEXT]) + '..'


def settings(call: Values) -> str:
    """Returns the device and the attributes that a call sets, in words."""
    words = [' {spec1}:{spec2}'.format_map(call)] if 'spec1' in call else []
    words += [f' {number_named("mode", call["set.mode"])}'] if 'set.mode' in call else []
    words += [f' {name} {call[f"set.{name}"]}' for name in ('uid', 'gid', 'size')
              if f'set.{name}' in call]
    words += [f' {name} {seconds(call[key]) if key in call else "of the server"}'
              for name, key in (('atime', 'set.atime'), ('mtime', 'set.mtime'))
              if call.get(f'set_{name}')]
    return ''.join(words)


def entries_in_words(reply: Values) -> str:
    number = len(reply['entries'])
    return f'{number:,} {"entry" if number == 1 else "entries"}{" eof" * reply["eof"]}'


Wording = Mapping[str, Callable[[Values], str]]
# The arguments besides handles and names, and what a success says, by procedures
ARGUMENTS: Wording = {
    SETATTR: lambda call: settings(call) + ' guarded' * ('guard.ctime' in call),
    ACCESS: lambda call: number_named('access', call['access']),
    **dict.fromkeys((READ, COMMIT), '{offset}+{count}'.format_map),
    WRITE: lambda call: ('{offset}+{count} '.format_map(call)
                         + number_named('stable', call['stable'])),
    CREATE: lambda call: number_named('how', call['how']) + settings(call), MKDIR: settings,
    SYMLINK: lambda call: f'-> {beginning_of(call["path"])}{settings(call)}',
    MKNOD: lambda call: TYPES_OF_FILES[call['type']] + settings(call),
    READDIR: 'cookie {cookie} count {count}'.format_map,
    READDIRPLUS: 'cookie {cookie} count {dircount}/{maxcount}'.format_map}
RESULTS: Wording = {
    GETATTR: lambda reply: (f'{TYPES_OF_FILES[reply["obj.type"]]} '
                            f'{number_named("mode", reply["obj.mode"])} size {reply["obj.size"]}'),
    ACCESS: lambda reply: number_named('access', reply['access']),
    READLINK: lambda reply: beginning_of(reply['path']),
    READ: lambda reply: f'{reply["count"]}{" eof" * reply["eof"]}',
    WRITE: lambda reply: f'{reply["count"]} {number_named("committed", reply["committed"])}',
    **dict.fromkeys(LISTINGS, entries_in_words)}


@functools.lru_cache(ASKED_AT_MOST)
def answer_in(procedure: str, said: str) -> str:
    """Returns what a reply says: the name of its error, or what a success says."""
    error = error_in(procedure, said)
    if error:
        return error
    if procedure == RAW.name:
        return NOT_READ
    words = RESULTS.get(procedure)
    return f'OK {words(read_reply(procedure, said)[1])}' if words else 'OK'


def short(procedure: str) -> str:
    """The name of a procedure without that of its version: `WRITE` of NFS, `MOUNT MNT` of MOUNT."""
    return BY_NAME[procedure].short if procedure in BY_NAME else procedure
