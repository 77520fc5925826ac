"""Parts of recorded NFS version 3 and MOUNT version 3 traffic, each as its bytes, and the captures
that contain them.

Each function is named after the part of RFC 4506, RFC 5531, RFC 1813 or docs/FORMATS.md that it
returns, and names the section.
"""
import struct
from collections.abc import Iterable, Iterator, Sequence

NFS, MOUNT, NFSACL = 100003, 100005, 100227

# The procedures by number (RFC 1813, sections 3.3 and 5.2).
NFS_PROCEDURES = (
    'NULL', 'GETATTR', 'SETATTR', 'LOOKUP', 'ACCESS', 'READLINK', 'READ', 'WRITE', 'CREATE',
    'MKDIR', 'SYMLINK', 'MKNOD', 'REMOVE', 'RMDIR', 'RENAME', 'LINK', 'READDIR', 'READDIRPLUS',
    'FSSTAT', 'FSINFO', 'PATHCONF', 'COMMIT')
MOUNT_PROCEDURES = ('NULL', 'MNT', 'DUMP', 'UMNT', 'UMNTALL', 'EXPORT')

# nfsstat3 (RFC 1813) and mountstat3 (section 5.1.5), the numbers that messages here
# use.
NOENT, IO, ACCES, EXIST, XDEV, INVAL, NOSPC = 2, 5, 13, 17, 18, 22, 28
ROFS, MLINK, NOTEMPTY, DQUOT, STALE = 30, 31, 66, 69, 70
BADHANDLE, NOT_SYNC, BAD_COOKIE = 10001, 10002, 10003
TOOSMALL, BADTYPE, JUKEBOX = 10005, 10007, 10008

# ftype3 (RFC 1813), stable_how (section 3.3.7) and createmode3 (section 3.3.8)
REG, DIR, BLK, CHR, LNK, SOCK, FIFO = range(1, 8)
UNSTABLE, DATA_SYNC, FILE_SYNC = range(3)
UNCHECKED, GUARDED, EXCLUSIVE = range(3)


# --- XDR (RFC 4506) ---

def word(n: int) -> bytes:
    """An unsigned integer (section 4.2), an enumeration (4.3) or a boolean (4.4)."""
    return n.to_bytes(4, 'big')


def hyper(n: int) -> bytes:
    """An unsigned hyper integer (section 4.5)."""
    return n.to_bytes(8, 'big')


# What stands in residual bytes. RFC 4506 asks for zeros; tests put others there.
RESIDUAL = b'\0'


def opaque(data: bytes) -> bytes:
    """Variable-length opaque data (section 4.10), or a string (4.11)."""
    return word(len(data)) + data + RESIDUAL * (-len(data) % 4)


def array(items: Sequence[bytes]) -> bytes:
    """A variable-length array (section 4.13)."""
    return word(len(items)) + b''.join(items)


def optional(part: bytes | None) -> bytes:
    """Optional data (section 4.19): nothing for None."""
    return word(0) if part is None else word(1) + part


def linked(items: Iterable[bytes]) -> bytes:
    """A list by optional data (section 4.19)."""
    return b''.join(map(optional, items)) + word(0)


# --- ONC RPC (RFC 5531) ---

AUTH_NONE = word(0) + opaque(b'')


def auth_sys(stamp: int, machine: bytes, uid: int, gid: int, groups: Iterable[int]) -> bytes:
    """A credential of flavor AUTH_SYS (appendix A)."""
    parameters = word(stamp) + opaque(machine) + word(uid) + word(gid) + array([*map(word, groups)])
    return word(1) + opaque(parameters)


def call(xid: int, program: int, version: int, procedure: int, arguments: bytes = b'',
         mtype: int = 0, credential: bytes = AUTH_NONE) -> bytes:
    """A call (section 9), whose verifier is AUTH_NONE."""
    head = struct.pack('>6I', xid, mtype, 2, program, version, procedure)
    return head + credential + AUTH_NONE + arguments


def success(xid: int, results: bytes = b'') -> bytes:
    """An accepted reply (section 9) whose status is SUCCESS."""
    return struct.pack('>6I', xid, 1, 0, 0, 0, 0) + results


# --- NFS version 3: basic data types (RFC 1813) ---

def fh(handle: bytes) -> bytes:
    """nfs_fh3."""
    return opaque(handle)


def nfstime(seconds: int, nanoseconds: int = 0) -> bytes:
    """nfstime3."""
    return word(seconds) + word(nanoseconds)


NOW = nfstime(0x68000000, 250_000_000)


def fattr(kind: int, fileid: int, size: int = 0, mode: int = 0o644, nlink: int = 1, uid: int = 1000,
          gid: int = 1000, device: tuple[int, int] = (0, 0), fsid: int = 0x42) -> bytes:
    """fattr3."""
    head = struct.pack('>5I', kind, mode, nlink, uid, gid)
    numbers = struct.pack('>2Q2I2Q', size, -(-size // 4096) * 4096, *device, fsid, fileid)
    return head + numbers + NOW + NOW + NOW


def post_op_attr(attributes: bytes | None = None) -> bytes:
    """post_op_attr."""
    return optional(attributes)


def wcc(before: int | None = None, after: bytes | None = None) -> bytes:
    """wcc_data; `before` is a size, whose file was last changed at the time NOW."""
    return optional(None if before is None else hyper(before) + NOW + NOW) + post_op_attr(after)


def post_op_fh(handle: bytes | None = None) -> bytes:
    """post_op_fh3."""
    return optional(None if handle is None else fh(handle))


DONT_CHANGE, SET_TO_SERVER_TIME = word(0), word(1)


def set_to_client_time(time: bytes) -> bytes:
    """set_atime or set_mtime with a time of the client's."""
    return word(2) + time


def sattr(mode: int | None = None, uid: int | None = None, gid: int | None = None,
          size: int | None = None, atime: bytes = DONT_CHANGE,
          mtime: bytes = DONT_CHANGE) -> bytes:
    """sattr3."""
    words = (optional(None if value is None else word(value)) for value in (mode, uid, gid))
    return b''.join(words) + optional(None if size is None else hyper(size)) + atime + mtime


def dirop(directory: bytes, name: bytes) -> bytes:
    """diropargs3."""
    return fh(directory) + opaque(name)


# --- NFS version 3: arguments and results of procedures (RFC 1813, section 3.3) ---

def ok(*parts: bytes) -> bytes:
    """The status NFS3_OK or MNT3_OK and what stands after it."""
    return word(0) + b''.join(parts)


def failed(status: int, *parts: bytes) -> bytes:
    """Another status and what stands after it."""
    return word(status) + b''.join(parts)


def guard(ctime: bytes | None = None) -> bytes:
    """sattrguard3 (section 3.3.2)."""
    return optional(ctime)


def how(mode: int, attributes_or_verifier: bytes) -> bytes:
    """createhow3 (section 3.3.8)."""
    return word(mode) + attributes_or_verifier


def made(handle: bytes | None, attributes: bytes | None, directory: bytes) -> bytes:
    """What CREATE, MKDIR, SYMLINK and MKNOD answer (sections 3.3.8 to 3.3.11)."""
    return post_op_fh(handle) + post_op_attr(attributes) + directory


def entry(fileid: int, name: bytes, cookie: int) -> bytes:
    """entry3 without its next entry (section 3.3.16)."""
    return hyper(fileid) + opaque(name) + hyper(cookie)


def entryplus(fileid: int, name: bytes, cookie: int, attributes: bytes | None = None,
              handle: bytes | None = None) -> bytes:
    """entryplus3 without its next entry (section 3.3.17)."""
    return entry(fileid, name, cookie) + post_op_attr(attributes) + post_op_fh(handle)


def entries(directory: bytes | None, verifier: bytes, items: Iterable[bytes],
            is_end: bool) -> bytes:
    """What READDIR and READDIRPLUS answer (sections 3.3.16 and 3.3.17)."""
    return post_op_attr(directory) + verifier + linked(items) + word(is_end)


# --- MOUNT version 3 (RFC 1813, section 5.2) ---

def mountlist(mounts: Iterable[tuple[bytes, bytes]]) -> bytes:
    """The results of DUMP (section 5.2.2): pairs of a host's name and a directory."""
    return linked([opaque(host) + opaque(directory) for host, directory in mounts])


def exports(directories: Iterable[tuple[bytes, Iterable[bytes]]]) -> bytes:
    """The results of EXPORT (section 5.2.5): pairs of a directory and the names of its groups."""
    return linked([opaque(directory) + linked(list(map(opaque, groups)))
                   for directory, groups in directories])


# --- Records (RFC 5531, section 11) and captures (docs/FORMATS.md) ---

MAGIC, MAGIC_2 = b'NFS3CAP1', b'NFS3CAP2'
# The side words of version 2.
CLIENT, SERVER = word(1), word(2)
# A connection: the bodies of its calls and of its replies.
Bodies = tuple[Sequence[bytes], Sequence[bytes]]
# The chunks of a connection of version 1: those of the client, and those of the server.
Sides = tuple[Iterable[bytes], Iterable[bytes]]


def fragment(body: bytes, is_last: bool = True) -> bytes:
    """A fragment, which is the last of its record or is not. A record can be one fragment."""
    return word(is_last << 31 | len(body)) + body


def chunk(content: bytes) -> bytes:
    """A chunk of version 1, and what follows the side word in version 2. The content is not
    empty."""
    return word(len(content)) + content


def record(body: bytes) -> bytes:
    """A chunk of one record, which is one fragment."""
    return chunk(fragment(body))


def version_1(connections: Iterable[Sides]) -> Iterator[bytes]:
    """Yields the parts of a capture of version 1, so that it need not fit in memory."""
    yield MAGIC
    for sides in connections:
        yield word(1)
        for chunks in sides:
            yield from chunks
            yield word(0)
    yield word(0)


def version_2(connections: Iterable[Iterable[bytes]]) -> Iterator[bytes]:
    """Yields the parts of a capture of version 2 in the same way. A connection is its chunks in
    order, each with its side word."""
    yield MAGIC_2
    for chunks in connections:
        yield word(1)
        yield from chunks
        yield word(0)
    yield word(0)


def capture(*connections: Bodies) -> bytes:
    """A capture of version 1 in which each record is a chunk."""
    return b''.join(version_1((map(record, calls), map(record, replies))
                              for calls, replies in connections))


def interleaved(*connections: Iterable[tuple[bytes, bytes]]) -> bytes:
    """A capture of version 2 in which each record is a chunk. A connection is a list of side words
    and bodies, in the order in which they were sent."""
    return b''.join(version_2((side + record(body) for side, body in messages)
                              for messages in connections))


def in_turn(calls: Iterable[bytes], replies: Iterable[bytes]) -> list[tuple[bytes, bytes]]:
    """Each call, and then its reply."""
    return [message for pair in zip(calls, replies) for message in zip((CLIENT, SERVER), pair)]
