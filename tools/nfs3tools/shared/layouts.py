"""The layouts of NFS version 3 and MOUNT version 3 messages, as docs/FORMATS.md has them, with the
names of the listing."""
from __future__ import annotations

import contextlib
import functools
import re
from collections.abc import Callable, Iterable, Iterator, Mapping
from typing import NamedTuple, Protocol

NFS, MOUNT = 100003, 100005

# The names of numbers (RFC 1813: nfsstat3, mountstat3, ftype3, stable_how, createmode3, time_how;
# RFC 5531, sections 8 to 10).
ERRORS = {1: 'PERM', 2: 'NOENT', 5: 'IO', 6: 'NXIO', 13: 'ACCES', 17: 'EXIST', 18: 'XDEV',
          19: 'NODEV', 20: 'NOTDIR',
          21: 'ISDIR', 22: 'INVAL', 27: 'FBIG', 28: 'NOSPC', 30: 'ROFS', 31: 'MLINK',
          63: 'NAMETOOLONG', 66: 'NOTEMPTY',
          69: 'DQUOT', 70: 'STALE', 71: 'REMOTE', 10001: 'BADHANDLE', 10002: 'NOT_SYNC',
          10003: 'BAD_COOKIE', 10004: 'NOTSUPP',
          10005: 'TOOSMALL', 10006: 'SERVERFAULT', 10007: 'BADTYPE', 10008: 'JUKEBOX'}
ERRORS_OF_MOUNT = (1, 2, 5, 13, 20, 22, 63, 10004, 10006)
NFSSTAT = {0: 'NFS3_OK'} | {number: f'NFS3ERR_{name}' for number, name in ERRORS.items()}
MOUNTSTAT = {0: 'MNT3_OK'} | {number: f'MNT3ERR_{ERRORS[number]}' for number in ERRORS_OF_MOUNT}
BOOL = {0: 'FALSE', 1: 'TRUE'}
TYPES_OF_FILES = dict(enumerate(('REG', 'DIR', 'BLK', 'CHR', 'LNK', 'SOCK', 'FIFO'), 1))

# The values that a word may have, by the name of the item.
VALUES = {
    'mtype': {0: 'CALL', 1: 'REPLY'}, 'rpcvers': {2: 'RPC version 2'},
    'cred_flavor': {0: 'AUTH_NONE', 1: 'AUTH_SYS'}, 'verf_flavor': {0: 'AUTH_NONE'},
    'reply_stat': {0: 'MSG_ACCEPTED', 1: 'MSG_DENIED'},
    'reject_stat': {0: 'RPC_MISMATCH', 1: 'AUTH_ERROR'},
    'accept_stat': dict(enumerate(('SUCCESS', 'PROG_UNAVAIL', 'PROG_MISMATCH', 'PROC_UNAVAIL',
                                   'GARBAGE_ARGS', 'SYSTEM_ERR'))),
    'auth_stat': dict(enumerate((
        'AUTH_OK', 'AUTH_BADCRED', 'AUTH_REJECTEDCRED', 'AUTH_BADVERF', 'AUTH_REJECTEDVERF',
        'AUTH_TOOWEAK', 'AUTH_INVALIDRESP',
        'AUTH_FAILED', 'AUTH_KERB_GENERIC', 'AUTH_TIMEEXPIRE', 'AUTH_TKT_FILE', 'AUTH_DECODE',
        'AUTH_NET_ADDR',
        'RPCSEC_GSS_CREDPROBLEM', 'RPCSEC_GSS_CTXPROBLEM'))),
    'type': {number: f'NF3{name}' for number, name in TYPES_OF_FILES.items()},
    'stable': {0: 'UNSTABLE', 1: 'DATA_SYNC', 2: 'FILE_SYNC'},
    'how': {0: 'UNCHECKED', 1: 'GUARDED', 2: 'EXCLUSIVE'},
    'set_atime': {0: 'DONT_CHANGE', 1: 'SET_TO_SERVER_TIME', 2: 'SET_TO_CLIENT_TIME'},
}
VALUES['committed'], VALUES['set_mtime'] = VALUES['stable'], VALUES['set_atime']

# Names of words that may have any value: of flavors, and of bits (ACCESS3_READ .. and FSF3_LINK ..,
# RFC 1813, sections 3.3.4 and 3.3.19).
FLAVORS = {0: 'AUTH_NONE', 1: 'AUTH_SYS', 2: 'AUTH_SHORT', 3: 'AUTH_DH', 6: 'RPCSEC_GSS'}
BITS = {
    'access': {1: 'READ', 2: 'LOOKUP', 4: 'MODIFY', 8: 'EXTEND', 16: 'DELETE', 32: 'EXECUTE'},
    'properties': {1: 'LINK', 2: 'SYMLINK', 8: 'HOMOGENEOUS', 16: 'CANSETTIME'},
}

# A part is a list of items: `w` a word, `e` one of the words above, `b` a bool, `h` a number of
# eight bytes, `x` eight bytes, `o` opaque data, `t` a string (both with their maximum), `opt` a
# bool and a part, `list` parts each after the word 1, `count` a number of parts,
# `case` a word and the part that goes with it, `sized` a number of bytes and a part that takes as
# many; any other word is a part. `NAME@` before an item says whose it is, or which of several, for
# those who name items so.
ITEM_OF_LAYOUT = re.compile(r'(?:([\w-]+)@)?(?:([a-z]+)(\d*):)?(\w*)(?:=(\S+))?(?: |$)')
PARTS = {
    'atime': 'w:atime_sec w:atime_nsec', 'mtime': 'w:mtime_sec w:mtime_nsec',
    'ctime': 'w:ctime_sec w:ctime_nsec',
    'fattr3': 'e:type w:mode w:nlink w:uid w:gid h:size h:used w:rdev1 w:rdev2 h:fsid h:fileid '
              'atime mtime ctime',
    'fh': 'o64:fh', 'poa': 'opt:attr=fattr3', 'wcc_attr': 'h:size mtime ctime',
    'wcc': 'opt:before=before@wcc_attr after@poa', 'pofh': 'opt:handle=fh',
    'sattr3': 'opt:set_mode=set@w:mode opt:set_uid=set@w:uid opt:set_gid=set@w:gid '
              'opt:set_size=set@h:size case:set_atime=2:set@atime case:set_mtime=2:set@mtime',
    'guard': 'opt:check=guard@ctime', 'dirop': 'fh t:name', 'made': 'pofh obj@poa dir@wcc',
    'createhow': 'case:how=0:sattr3,1:sattr3,2:create', 'create': 'x:createverf',
    'node': 'case:type=3:device,4:device,6:sattr3,7:sattr3', 'device': 'sattr3 w:spec1 w:spec2',
    # (an entry has a file id of its own beside that of its attributes)
    'entry3': 'h:fileid t:name h:cookie', 'entryplus3': 'listed@h:fileid t:name h:cookie poa pofh',
    'mount': 't255:hostname t1024:directory', 'export': 't1024:directory list:group=group',
    'group': 't255:name',
    # RFC 5531, sections 8 and 9, and appendix A
    'call': 'e:rpcvers w:prog w:vers w:proc credential verifier arguments',
    'credential': 'case:cred_flavor=0:auth_none,1:auth_sys', 'auth_none': 'o400:cred_body',
    'auth_sys': 'sized400:cred_length=cred@sysparms',
    'sysparms': 'w:stamp t255:machinename w:uid w:gid count16:gids=w:group',
    'verifier': 'e:verf_flavor o400:verf_body',
    'reply': 'case:reply_stat=0:accepted,1:denied',
    'accepted': 'verifier case:accept_stat=0:results,2:versions',
    'denied': 'case:reject_stat=0:versions,1:unauthorized', 'versions': 'w:low w:high',
    'unauthorized': 'e:auth_stat',
}

# The name, the arguments, and the results after the status 0 and after any other, of NFS version 3.
NFS_PROCEDURES = [
    ('NULL', '', '', ''), ('GETATTR', 'fh', 'obj@fattr3', ''),
    ('SETATTR', 'fh sattr3 guard', 'obj@wcc', 'obj@wcc'),
    ('LOOKUP', 'dirop', 'fh obj@poa dir@poa', 'dir@poa'),
    ('ACCESS', 'fh w:access', 'obj@poa w:access', 'obj@poa'),
    ('READLINK', 'fh', 'obj@poa t:path', 'obj@poa'),
    ('READ', 'fh h:offset w:count', 'obj@poa w:count b:eof o:data', 'obj@poa'),
    ('WRITE', 'fh h:offset w:count e:stable o:data', 'obj@wcc w:count e:committed x:verf',
     'obj@wcc'),
    ('CREATE', 'dirop createhow', 'made', 'dir@wcc'), ('MKDIR', 'dirop sattr3', 'made', 'dir@wcc'),
    ('SYMLINK', 'dirop sattr3 t:path', 'made', 'dir@wcc'),
    ('MKNOD', 'dirop node', 'made', 'dir@wcc'),
    ('REMOVE', 'dirop', 'dir@wcc', 'dir@wcc'), ('RMDIR', 'dirop', 'dir@wcc', 'dir@wcc'),
    ('RENAME', 'from@dirop to@dirop', 'from-dir@wcc to-dir@wcc', 'from-dir@wcc to-dir@wcc'),
    ('LINK', 'file@fh link@dirop', 'file@poa dir@wcc', 'file@poa dir@wcc'),
    ('READDIR', 'fh h:cookie x:cookieverf w:count', 'dir@poa x:cookieverf list:entry=entry3 b:eof',
     'dir@poa'),
    ('READDIRPLUS', 'fh h:cookie x:cookieverf w:dircount w:maxcount',
     'dir@poa x:cookieverf list:entry=entryplus3 b:eof', 'dir@poa'),
    ('FSSTAT', 'fh', 'obj@poa h:tbytes h:fbytes h:abytes h:tfiles h:ffiles h:afiles w:invarsec',
     'obj@poa'),
    ('FSINFO', 'fh',
     'obj@poa w:rtmax w:rtpref w:rtmult w:wtmax w:wtpref w:wtmult w:dtpref h:maxfilesize '
     'w:delta_sec w:delta_nsec w:properties', 'obj@poa'),
    ('PATHCONF', 'fh',
     'obj@poa w:linkmax w:name_max b:no_trunc b:chown_restricted b:case_insensitive '
     'b:case_preserving', 'obj@poa'),
    ('COMMIT', 'fh h:offset w:count', 'obj@wcc x:verf', 'obj@wcc')]
# The name, the arguments and the results, of MOUNT version 3.
MOUNT_PROCEDURES = [
    ('NULL', '', ''), ('MNT', 't1024:dirpath', 'fh count:flavors=w:flavor'),
    ('DUMP', '', 'list:entry=mount'),
    ('UMNT', 't1024:dirpath', ''), ('UMNTALL', '', ''), ('EXPORT', '', 'list:entry=export')]


class Procedure(NamedTuple):
    """The layouts of one procedure. Results are `done`, or a status and `done` or `failed`. It is
    known by its last name to those who type it, as `WRITE`, and by its short one to others."""
    name: str
    short: str
    last: str
    arguments: str
    done: str
    failed: str = ''
    statuses: dict[int, str] | None = None


def procedures() -> Iterator[tuple[tuple[int, int], Procedure]]:
    """Yields those that have a type, with program and number. The version of both is 3."""
    for number, (name, arguments, done, failed) in enumerate(NFS_PROCEDURES):
        yield (NFS, number), Procedure('NFSPROC3_' + name, name, name, arguments, done, failed,
                                       NFSSTAT if number else None)
    for number, (name, arguments, done) in enumerate(MOUNT_PROCEDURES):
        yield (MOUNT, number), Procedure('MOUNTPROC3_' + name, 'MOUNT ' + name, name, arguments,
                                         done, '', MOUNTSTAT if name == 'MNT' else None)


RAW = Procedure('RAW', 'RAW', 'RAW', 'rest', 'rest')
BY_NUMBER = dict(procedures())
BY_NAME = {procedure.name: procedure for procedure in [*BY_NUMBER.values(), RAW]}


def procedure_of(program: int, version: int, number: int) -> Procedure:
    """Any other than the 28 that have a type is carried raw."""
    return BY_NUMBER.get((program, number), RAW) if version == 3 else RAW


def meaning_of(name: str, value: str, values: Mapping[int, str] | None = None) -> str:
    """Returns the name of an item's number, with those of its kind if it has any: one of a list, of
    bits, or a mode as it is written in octal digits. Returns nothing for any other item."""
    named = FLAVORS if name == 'flavor' else values
    if name in BITS:
        return '|'.join(bits_of(int(value), BITS[name])) or 'none'
    if name == 'mode':
        return f'{int(value):04o}'
    return named.get(int(value), '') if named else ''


def bits_of(word: int, names: Mapping[int, str]) -> list[str]:
    """Returns the names of the bits of a word. Those without one are a number in hexadecimal."""
    rest = word & ~sum(names)
    return [name for bit, name in names.items() if word & bit] + [f'0x{rest:x}'] * bool(rest)


class LayoutItem(NamedTuple):
    """An item of a layout: whose it is or '', its kind, '' of a part, its maximum, its name, and
    what is in it."""
    owner: str
    kind: str
    most: int
    name: str
    inner: str


@functools.cache
def layout_items(layout: str) -> tuple[LayoutItem, ...]:
    """Reads a list of items, as PARTS has them."""
    return tuple(LayoutItem(owner, kind, int(most or 0xffffffff), name, inner)
                 for owner, kind, most, name, inner in ITEM_OF_LAYOUT.findall(layout) if name)


NO_OWNER = contextlib.nullcontext()
# Writes the bytes of an item as a text.
Spell = Callable[[bytes], str]


class Stop(Exception):
    """The message cannot be read any further."""


class Walk:
    """Goes through the items of a message in their order. What it meets them in says what an item
    is worth: it has `word`, `fixed`, `variable` and `remaining`, and may have its own way with the
    other methods."""

    def __init__(self, procedure: Procedure | None) -> None:
        self.procedure = procedure

    def word(self, name: str, values: Mapping[int, str] | None = None,
             most: int = 0xffffffff) -> int:
        """A word, which is among the values if there are some, and at most `most`."""
        raise NotImplementedError

    def fixed(self, name: str, allowed: str, spell: Spell) -> None:
        """Eight bytes."""
        raise NotImplementedError

    def variable(self, name: str, most: int, spell: Spell) -> None:
        """At most so many bytes after their length, with padding."""
        raise NotImplementedError

    def remaining(self, name: str) -> None:
        """All bytes that are left."""
        raise NotImplementedError

    def whose(self, name: str, number: int = 0) -> contextlib.AbstractContextManager[None]:
        """Says whose the items inside are: a name, or of a list, with a number from 1 on."""
        return NO_OWNER

    def message(self, is_call: bool) -> None:
        """The items after the xid, of a reply only if its procedure is known."""
        self.word('mtype', VALUES['mtype'])
        if is_call or self.procedure:
            self.part('call' if is_call else 'reply')

    def part(self, layout: str) -> None:
        for item in layout_items(PARTS.get(layout, layout)):
            with self.whose(item.owner) if item.owner else NO_OWNER:
                if item.kind:
                    self.of_kind(item.kind, item.name, item.most, item.inner)
                else:
                    self.other(item.name)

    def of_kind(self, kind: str, name: str, most: int, inner: str) -> None:
        if kind in ('w', 'e', 'b'):
            self.word(name, VALUES[name] if kind == 'e' else BOOL if kind == 'b' else None)
        elif kind in ('h', 'x'):
            self.fixed(name, *EIGHT_BYTES[kind])
        elif kind in ('t', 'o'):
            self.variable(name, most, SPELLED[kind])
        else:
            self.branch(kind, name, most, inner)

    def branch(self, kind: str, name: str, most: int, inner: str) -> None:
        """Parts whose number, kind or size a word has."""
        if kind == 'opt' and self.word(name, BOOL):
            self.part(inner)
        elif kind == 'list':
            self.numbered(name, iter(lambda: self.word(name, BOOL), 0), inner)
        elif kind == 'count':
            self.numbered('', range(self.word(name, most=most)), inner)
        elif kind == 'case':
            self.part(cases_of(inner).get(self.word(name, VALUES[name]), ''))
        elif kind == 'sized':
            self.sized(self.word(name, most=most), inner)

    def numbered(self, name: str, turns: Iterable[object], inner: str) -> None:
        for number, _ in enumerate(turns, 1):
            with self.whose(name, number) if name else NO_OWNER:
                self.part(inner)

    def sized(self, size: int, inner: str) -> None:
        self.part(inner)

    def other(self, item: str) -> None:
        if item == 'rest':
            self.remaining('rest')
        elif item == 'arguments':
            self.part(self.procedure.arguments if self.procedure else '')
        elif item == 'results':
            self.results()
        else:
            self.part(PARTS[item])

    def results(self) -> None:
        """The results of a call that was accepted."""
        assert self.procedure
        is_failed = (self.procedure.statuses is not None
                     and self.word('status', self.procedure.statuses))
        self.part(self.procedure.failed if is_failed else self.procedure.done)


def cases_of(inner: str) -> dict[int, str]:
    return {int(number): part for number, part in (case.split(':') for case in inner.split(','))}


# --- Bytes ---

class PlacedItem(NamedTuple):
    """An item of a message: its bytes, its name, its value as a text (of a long one the beginning),
    what may stand there, whether it has all its bytes, and the name of its number, if that has
    one."""
    begin: int
    end: int
    name: str
    value: str
    allowed: str
    is_whole: bool
    meaning: str


class Body(Protocol):
    """The bytes of a message."""

    def __len__(self) -> int: ...

    def __getitem__(self, part: slice, /) -> bytes: ...


class BodyReader(Walk):
    """Reads the items of a body up to its end, or to the first that is at fault. They are passed to
    `tell`, or kept in `items`. The value of an item is that of its first bytes, `most` at most."""

    def __init__(self, body: Body, tell: Callable[[PlacedItem], object] | None = None,
                 most: int = 1 << 32) -> None:
        super().__init__(None)
        self.body, self.at, self.end, self.most = body, 0, len(body), most
        self.items: list[PlacedItem] = []
        self.tell = tell or self.items.append

    def taken(self, size: int, name: str, allowed: str, spell: Spell,
              meaning: Callable[[str], str] | None = None) -> bytes:
        """Reads an item, and returns its first bytes. Raises `Stop` if fewer are left."""
        begin, self.at = self.at, min(self.at + size, self.end)
        piece = self.body[begin:min(self.at, begin + self.most)]
        value, is_whole = spell(piece), self.at - begin == size
        self.tell(PlacedItem(begin, self.at, name, value, allowed, is_whole,
                             meaning(value) if meaning and is_whole else ''))
        if not is_whole:
            raise Stop
        return piece

    def word(self, name: str, values: Mapping[int, str] | None = None,
             most: int = 0xffffffff) -> int:
        allowed = ('any word' if values is None
                   else ', '.join('%d %s' % value for value in values.items()))
        allowed = allowed if most == 0xffffffff else 'at most %d' % most
        value = int.from_bytes(self.taken(4, name, allowed, number,
                                          lambda text: meaning_of(name, text, values)), 'big')
        if value > most or values is not None and value not in values:
            raise Stop
        return value

    def fixed(self, name: str, allowed: str, spell: Spell) -> None:
        self.taken(8, name, allowed, spell)

    def variable(self, name: str, most: int, spell: Spell) -> None:
        size = self.word(name + ' (its length)', most=most)
        self.taken(size, name, 'any bytes', spell)
        self.taken(-size % 4, name + ' (residual bytes)', 'any bytes', bytes.hex)

    def remaining(self, name: str) -> None:
        self.taken(self.end - self.at, name, 'any bytes', bytes.hex)

    def sized(self, size: int, inner: str) -> None:
        """The only part that is one is the body of a credential."""
        whole = self.end
        if self.at + size > whole:
            self.taken(size, 'cred_body', 'as many bytes as the length says', bytes.hex)
        self.end = self.at + size
        self.part(inner)
        if self.at < self.end:
            raise Stop
        self.end = whole

    def read(self, is_call: bool, procedure: Procedure | None) -> bool:
        """Reads all items up to the end or a fault, and returns whether there was none. A call, and
        a reply if that is known, is read as one of the procedure."""
        self.procedure = procedure
        try:
            self.word('xid')
            self.message(is_call)
        except Stop:
            return False
        return True


def number(piece: bytes) -> str:
    return str(int.from_bytes(piece, 'big')) if piece else ''


# What may be in eight bytes, by the kind of an item, and how they are spelled.
EIGHT_BYTES: Mapping[str, tuple[str, Spell]] = {
    'h': ('any number of eight bytes', number), 'x': ('any eight bytes', bytes.hex)}
SPELLED: Mapping[str, Spell] = {'t': repr, 'o': bytes.hex}
