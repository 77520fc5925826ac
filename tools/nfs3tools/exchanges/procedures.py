"""Which procedures of NFS version 3 change, make, remove and list, whose attributes a reply has,
and which names a call: by tables."""
from __future__ import annotations

import functools
from collections.abc import Iterator
from typing import NamedTuple

from ..shared.layouts import BY_NUMBER, NFS
from .values import Values

(NULL, GETATTR, SETATTR, LOOKUP, ACCESS, READLINK, READ, WRITE, CREATE, MKDIR, SYMLINK, MKNOD,
 REMOVE, RMDIR, RENAME, LINK, READDIR, READDIRPLUS, FSSTAT, FSINFO, PATHCONF, COMMIT) = OF_FILES = [
     one.name for (program, _), one in BY_NUMBER.items() if program == NFS]
MAKING, REMOVING = frozenset((CREATE, MKDIR, SYMLINK, MKNOD)), frozenset((REMOVE, RMDIR))
LISTINGS = frozenset((READDIR, READDIRPLUS))
# Calls that change names, and all that change what others are answered.
OF_NAMES = MAKING | REMOVING | {RENAME, LINK}
CHANGING = OF_NAMES | {SETATTR, WRITE}
# Questions that are told the same each time, but for free space.
STEADY = frozenset((READLINK, FSSTAT, FSINFO, PATHCONF))
FREE_ITEMS = frozenset(('fbytes', 'abytes', 'ffiles', 'afiles', 'invarsec'))
DONE, NO_ENTRY = 0, 2  # statuses
REGULAR, DIRECTORY, SYMBOLIC_LINK = 1, 2, 5  # types of files
# The objects of which replies have attributes, in their order: the item of the call that is the
# handle (that of the reply if there is none), and the owner of the attributes.
OWNERS_OF_REPLIES: dict[str, tuple[tuple[str, str], ...]] = {
    **dict.fromkeys((LOOKUP, *MAKING), (('', 'obj'), ('fh', 'dir'))),
    **dict.fromkeys((*REMOVING, *LISTINGS), (('fh', 'dir'),)),
    RENAME: (('from.fh', 'from-dir'), ('to.fh', 'to-dir')),
    LINK: (('file.fh', 'file'), ('link.fh', 'dir'))}
OWNER_OF_REPLIES = (('fh', 'obj'),)  # of all others
# The items of a call that are a folder and a name in it.
NAMES_OF_CALLS = {RENAME: (('from.fh', 'from.name'), ('to.fh', 'to.name')),
                  LINK: (('link.fh', 'link.name'),)}
NAME_OF_CALLS = (('fh', 'name'),)
BEFORE, OF_ENTRY = 'before', 'listed.'  # what was before a change; an entry's own file id


def is_of_files(procedure: str) -> bool:
    """Whether it is one of NFS, not of MOUNT or of another program."""
    return procedure in OF_FILES


class Statement(NamedTuple):
    """What a reply says of an object, which is known by its handle, or, if the reply has none, as a
    name in the folder of this handle. The names of its items begin with the owner. Whether it says
    what was before a change."""
    handle: str
    name: str
    owner: str
    items: Values
    is_before: bool = False

    def value(self, item: str) -> int:
        return int(self.items[self.owner + item])

    def has(self, item: str) -> bool:
        return self.owner + item in self.items


@functools.cache
def handle_items(procedure: str) -> list[str]:
    owners = OWNERS_OF_REPLIES.get(procedure, OWNER_OF_REPLIES)
    return [item for item, _ in owners if item]


def owners_in(procedure: str, call: Values, reply: Values) -> Iterator[tuple[str, str]]:
    """Iterates over the owners of a reply's attributes, each with its handle."""
    for item, owner in OWNERS_OF_REPLIES.get(procedure, OWNER_OF_REPLIES):
        yield owner, (call if item else reply).get(item or 'fh', '')


def statements_in(procedure: str, call: Values, reply: Values) -> Iterator[Statement]:
    """Iterates over what a reply says of objects, in the order of its items."""
    for owner, handle in owners_in(procedure, call, reply):
        for part in (BEFORE, 'after', ''):
            its = f'{owner}.{part}.' if part else f'{owner}.'
            if its + 'size' in reply:
                yield Statement(handle, '', its, reply, part == BEFORE)
    for entry in reply.get('entries', ()):
        yield from statements_of_entry(procedure, call, entry)


def statements_of_entry(procedure: str, call: Values, entry: Values) -> Iterator[Statement]:
    """Iterates over what an entry says of its object: its file id, and perhaps attributes."""
    handle, name = entry.get('fh', ''), entry['name']
    own = Statement(handle or call['fh'], '' if handle or name == '.' else name,
                    OF_ENTRY if procedure == READDIRPLUS else '', entry)
    yield own
    if 'type' in entry:
        yield own._replace(owner='')


def names_in_call(procedure: str, call: Values) -> list[tuple[str, str]]:
    """Returns the names that a call has, each after the handle of its folder."""
    return [(call[folder], call[name])
            for folder, name in NAMES_OF_CALLS.get(procedure, NAME_OF_CALLS) if name in call]
