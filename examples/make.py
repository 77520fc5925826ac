#!/usr/bin/env python3
"""Writes the example captures beside this script, and recordings of those with a fault.

Each is put together from its messages, part by part, so that its bytes can be read off below and in
messages.py; what is around them in a recording, in packets.py.
"""
import pathlib
from collections.abc import Sequence

from messages import (
    ACCES, AUTH_NONE, BADHANDLE, BADTYPE, BAD_COOKIE, CHR, DATA_SYNC, DIR, DQUOT, EXCLUSIVE, EXIST,
    FIFO, FILE_SYNC, GUARDED, INVAL, IO, JUKEBOX, LNK, MAGIC, MLINK, MOUNT, MOUNT_PROCEDURES, NFS,
    NFSACL, NFS_PROCEDURES, NOENT, NOSPC, NOTEMPTY, NOT_SYNC, NOW, REG, ROFS, SET_TO_SERVER_TIME,
    SOCK, STALE, TOOSMALL, UNCHECKED, UNSTABLE, XDEV, Bodies, array, auth_sys, call, capture, dirop,
    entries, entry, entryplus, exports, failed, fattr, fh, fragment, guard, how, hyper, in_turn,
    interleaved, made, mountlist, nfstime, ok, opaque, post_op_attr, sattr, set_to_client_time,
    success, wcc, word)
from packets import recording

HERE = pathlib.Path(__file__).parent
# The name of a procedure, its arguments and its results.
Exchange = tuple[str, bytes, bytes]


# --- Small captures ---

NULL: Bodies = ([call(0xdeadbeef, NFS, 3, 0)], [success(0xdeadbeef)])
HANDLE = bytes.fromhex('000000056162636465000000')
ATTRIBUTES = bytes.fromhex(
    '00000002 000001ed 00000002 00000000 00000000 0000000000001000 0000000000001000'
    '00000000 00000000 0000000000000001 0000000000000002'
    '00000001 00000000 00000001 00000000 00000001 00000000')
GETATTR: Bodies = ([call(7, NFS, 3, 1, HANDLE)], [success(7, word(0) + ATTRIBUTES)])
LOOKUP = call(9, NFS, 3, 3, dirop(b'abcde', b'a'))


# --- Every procedure ---

def handle(fileid: int) -> bytes:
    """A handle of 20 bytes as a server makes it: a file system's number and a file's."""
    return bytes.fromhex('0100060142a1b2c300000000') + hyper(fileid)


ROOT, FILE, LINK, FOLDER, NEW, DEVICE, PIPE, SOCKET = map(handle, range(2, 10))
PUBLIC = b''

ROOT_ATTRIBUTES = fattr(DIR, 2, size=4096, mode=0o755, nlink=3)
FILE_ATTRIBUTES = fattr(REG, 3, size=11)
LINK_ATTRIBUTES = fattr(LNK, 4, size=9, mode=0o777)
FOLDER_ATTRIBUTES = fattr(DIR, 5, size=4096, mode=0o755, nlink=2)
NEW_ATTRIBUTES = fattr(REG, 6)
DEVICE_ATTRIBUTES = fattr(CHR, 7, mode=0o600, device=(1, 3))
PIPE_ATTRIBUTES = fattr(FIFO, 8)
SOCKET_ATTRIBUTES = fattr(SOCK, 9)

ROOT_CHANGED = wcc(4096, ROOT_ATTRIBUTES)
FILE_CHANGED = wcc(11, FILE_ATTRIBUTES)
FOLDER_CHANGED = wcc(4096, FOLDER_ATTRIBUTES)

WRITE_VERIFIER = bytes.fromhex('6553f100000a1b2c')
COOKIE_VERIFIER = bytes.fromhex('00000000000000c7')
CREATE_VERIFIER = bytes.fromhex('5dee1f005dee1f01')
START = bytes(8)  # the cookie verifier with which a listing begins

# Arguments and results, in the order of the procedures' numbers (RFC 1813, section 3.3).
NFS_EXCHANGES: list[Exchange] = [
    ('NULL', b'', b''),

    ('GETATTR', fh(ROOT), ok(ROOT_ATTRIBUTES)),
    ('GETATTR', fh(PUBLIC), failed(BADHANDLE)),

    ('SETATTR', fh(FILE) + sattr(mode=0o600, uid=1000, gid=100, size=11) + guard(),
     ok(FILE_CHANGED)),
    ('SETATTR', fh(FILE) + sattr(atime=SET_TO_SERVER_TIME, mtime=SET_TO_SERVER_TIME) + guard(),
     ok(FILE_CHANGED)),
    ('SETATTR', fh(FILE) + sattr(atime=set_to_client_time(nfstime(1, 500)),
                                 mtime=set_to_client_time(NOW)) + guard(NOW),
     ok(FILE_CHANGED)),
    ('SETATTR', fh(FILE) + sattr(mtime=SET_TO_SERVER_TIME) + guard(nfstime(1)),
     failed(NOT_SYNC, wcc(after=FILE_ATTRIBUTES))),

    ('LOOKUP', dirop(ROOT, b'notes.txt'),
     ok(fh(FILE), post_op_attr(FILE_ATTRIBUTES), post_op_attr(ROOT_ATTRIBUTES))),
    ('LOOKUP', dirop(ROOT, b'absent'), failed(NOENT, post_op_attr(ROOT_ATTRIBUTES))),

    ('ACCESS', fh(FILE) + word(0x3f), ok(post_op_attr(FILE_ATTRIBUTES), word(0x0d))),
    ('ACCESS', fh(FILE) + word(0x01), failed(STALE, post_op_attr())),

    ('READLINK', fh(LINK), ok(post_op_attr(LINK_ATTRIBUTES), opaque(b'notes.txt'))),
    ('READLINK', fh(FILE), failed(INVAL, post_op_attr(FILE_ATTRIBUTES))),

    ('READ', fh(FILE) + hyper(0) + word(4096),
     ok(post_op_attr(FILE_ATTRIBUTES), word(11), word(1), opaque(b'hello nfs3\n'))),
    ('READ', fh(FILE) + hyper(0) + word(4096), failed(ACCES, post_op_attr(FILE_ATTRIBUTES))),

    ('WRITE', fh(FILE) + hyper(0) + word(5) + word(UNSTABLE) + opaque(b'howdy'),
     ok(FILE_CHANGED, word(5), word(UNSTABLE), WRITE_VERIFIER)),
    ('WRITE', fh(FILE) + hyper(6) + word(4) + word(DATA_SYNC) + opaque(b'NFS3'),
     ok(FILE_CHANGED, word(4), word(FILE_SYNC), WRITE_VERIFIER)),
    ('WRITE', fh(FILE) + hyper(1 << 40) + word(1) + word(FILE_SYNC) + opaque(b'x'),
     failed(NOSPC, FILE_CHANGED)),

    ('CREATE', dirop(ROOT, b'new') + how(UNCHECKED, sattr(mode=0o644, size=0)),
     ok(made(NEW, NEW_ATTRIBUTES, ROOT_CHANGED))),
    ('CREATE', dirop(ROOT, b'newer') + how(GUARDED, sattr(mode=0o644)),
     ok(made(None, None, ROOT_CHANGED))),
    ('CREATE', dirop(ROOT, b'newest') + how(EXCLUSIVE, CREATE_VERIFIER),
     ok(made(handle(10), fattr(REG, 10), ROOT_CHANGED))),
    ('CREATE', dirop(ROOT, b'notes.txt') + how(GUARDED, sattr(mode=0o644)),
     failed(EXIST, ROOT_CHANGED)),

    ('MKDIR', dirop(ROOT, b'folder') + sattr(mode=0o755),
     ok(made(FOLDER, FOLDER_ATTRIBUTES, ROOT_CHANGED))),
    ('MKDIR', dirop(ROOT, b'another') + sattr(mode=0o755), failed(DQUOT, ROOT_CHANGED)),

    ('SYMLINK', dirop(ROOT, b'link') + sattr(mode=0o777) + opaque(b'notes.txt'),
     ok(made(LINK, LINK_ATTRIBUTES, ROOT_CHANGED))),
    ('SYMLINK', dirop(ROOT, b'link2') + sattr() + opaque(b'absent'), failed(ROFS, wcc())),

    ('MKNOD', dirop(FOLDER, b'null') + word(CHR) + sattr(mode=0o600) + word(1) + word(3),
     ok(made(DEVICE, DEVICE_ATTRIBUTES, FOLDER_CHANGED))),
    ('MKNOD', dirop(FOLDER, b'pipe') + word(FIFO) + sattr(mode=0o644),
     ok(made(PIPE, PIPE_ATTRIBUTES, FOLDER_CHANGED))),
    ('MKNOD', dirop(FOLDER, b'socket') + word(SOCK) + sattr(mode=0o644),
     ok(made(SOCKET, SOCKET_ATTRIBUTES, FOLDER_CHANGED))),
    ('MKNOD', dirop(FOLDER, b'plain') + word(REG), failed(BADTYPE, FOLDER_CHANGED)),

    ('REMOVE', dirop(ROOT, b'new'), ok(ROOT_CHANGED)),
    ('REMOVE', dirop(ROOT, b'absent'), failed(NOENT, ROOT_CHANGED)),

    ('RMDIR', dirop(ROOT, b'empty'), ok(ROOT_CHANGED)),
    ('RMDIR', dirop(ROOT, b'folder'), failed(NOTEMPTY, ROOT_CHANGED)),

    ('RENAME', dirop(ROOT, b'newer') + dirop(FOLDER, b'moved'), ok(ROOT_CHANGED, FOLDER_CHANGED)),
    ('RENAME', dirop(ROOT, b'newest') + dirop(handle(77), b'moved'),
     failed(XDEV, ROOT_CHANGED, wcc())),

    ('LINK', fh(FILE) + dirop(FOLDER, b'second'),
     ok(post_op_attr(fattr(REG, 3, size=11, nlink=2)), FOLDER_CHANGED)),
    ('LINK', fh(FILE) + dirop(FOLDER, b'third'),
     failed(MLINK, post_op_attr(FILE_ATTRIBUTES), FOLDER_CHANGED)),

    ('READDIR', fh(ROOT) + hyper(0) + START + word(4096),
     ok(entries(ROOT_ATTRIBUTES, COOKIE_VERIFIER,
                [entry(2, b'.', 1), entry(1, b'..', 2), entry(3, b'notes.txt', 3)], True))),
    ('READDIR', fh(ROOT) + hyper(99) + START + word(4096),
     failed(BAD_COOKIE, post_op_attr(ROOT_ATTRIBUTES))),

    ('READDIRPLUS', fh(ROOT) + hyper(0) + START + word(512) + word(4096),
     ok(entries(ROOT_ATTRIBUTES, COOKIE_VERIFIER,
                [entryplus(2, b'.', 1, ROOT_ATTRIBUTES, ROOT), entryplus(1, b'..', 2),
                 entryplus(3, b'notes.txt', 3, FILE_ATTRIBUTES, FILE),
                 entryplus(4, b'link', 4, LINK_ATTRIBUTES),
                 entryplus(11, b'unseen', 5, handle=handle(11))], False))),
    ('READDIRPLUS', fh(ROOT) + hyper(5) + COOKIE_VERIFIER + word(8) + word(8),
     failed(TOOSMALL, post_op_attr())),

    ('FSSTAT', fh(ROOT), ok(post_op_attr(ROOT_ATTRIBUTES),
                            *map(hyper, (1 << 40, 1 << 39, 1 << 38, 65536, 60000, 60000)),
                            word(0))),
    ('FSSTAT', fh(ROOT), failed(IO, post_op_attr())),

    ('FSINFO', fh(ROOT), ok(post_op_attr(ROOT_ATTRIBUTES),
                            *map(word, (1 << 20, 1 << 20, 4096, 1 << 20, 1 << 20, 4096, 1 << 20)),
                            hyper((1 << 63) - 1), nfstime(0, 1), word(0x1b))),
    ('FSINFO', fh(handle(77)), failed(STALE, post_op_attr())),

    ('PATHCONF', fh(ROOT), ok(post_op_attr(ROOT_ATTRIBUTES), *map(word, (32000, 255, 0, 1, 0, 1)))),
    ('PATHCONF', fh(ROOT), failed(JUKEBOX, post_op_attr())),

    ('COMMIT', fh(FILE) + hyper(0) + word(0), ok(FILE_CHANGED, WRITE_VERIFIER)),
    ('COMMIT', fh(FILE) + hyper(0) + word(5), failed(IO, wcc())),
]

HOME = opaque(b'/export/home')

# Arguments and results, in the order of the procedures' numbers (RFC 1813, section 5.2); 1 and 0
# are flavors.
MOUNT_EXCHANGES: list[Exchange] = [
    ('NULL', b'', b''),
    ('MNT', HOME, ok(fh(ROOT), array([word(1), word(0)]))),
    ('MNT', opaque(b'/export/secret'), failed(ACCES)),
    ('DUMP', b'', mountlist([(b'client.example', b'/export/home'),
                             (b'other.example', b'/export/scratch')])),
    ('UMNT', HOME, b''),
    ('UMNTALL', b'', b''),
    ('EXPORT', b'', exports([(b'/export/home', [b'client.example', b'192.0.2.0/24']),
                             (b'/export/scratch', [])])),
]

# GETACL of the NFSACL protocol, which is carried raw.
GET_ACL = (fh(ROOT) + word(1),
           ok(post_op_attr(ROOT_ATTRIBUTES), word(1), word(0), word(0), word(0), word(0)))


def conversation(program: int, procedures: Sequence[str], exchanges: Sequence[Exchange],
                 first_xid: int, credential: bytes) -> tuple[list[bytes], list[bytes]]:
    """The calls and replies of a connection. A NULL call has no credential, as clients send it."""
    calls, replies = [], []
    for xid, (name, arguments, results) in enumerate(exchanges, first_xid):
        auth = AUTH_NONE if name == 'NULL' else credential
        calls.append(call(xid, program, 3, procedures.index(name), arguments, credential=auth))
        replies.append(success(xid, results))
    return calls, replies


def every_procedure() -> tuple[Bodies, Bodies, Bodies]:
    """A client asks the mount server; then the file server; then, in a new connection, for its
    COMMIT once more."""
    credential = auth_sys(0x1d2c, b'client.example', 1000, 1000, [4, 24, 1000])
    mount = conversation(MOUNT, MOUNT_PROCEDURES, MOUNT_EXCHANGES, 0x7a000001, credential)
    calls, replies = conversation(NFS, NFS_PROCEDURES, NFS_EXCHANGES, 0x1f3a0001, credential)
    arguments, results = GET_ACL
    calls.append(call(0x1f3affff, NFSACL, 3, 1, arguments, credential=credential))
    replies.append(success(0x1f3affff, results))
    again = conversation(NFS, NFS_PROCEDURES, [NFS_EXCHANGES[0], NFS_EXCHANGES[-2]], 0x1f3a0001,
                         credential)
    return mount, (calls, replies), again


# Connections with one fault each.
FAULTS: dict[str, list[Bodies]] = {
    'bad_client_record': [([call(7, NFS, 3, 1, HANDLE, mtype=2)], [])],
    'bad_server_record': [NULL, ([call(1, NFS, 3, 0)], [success(1), success(2)])],
    'bad_status': [(GETATTR[0], [success(7, word(3))])],
    'bad_bool': [([LOOKUP], [success(9, failed(NOENT, word(2)))])],
    'bad_length': [([call(7, NFS, 3, 1, fh(bytes(65)))], [])],
}


def recorded(connections: Sequence[Bodies]) -> bytes:
    """A recording of connections, in which each record is a packet."""
    return recording(*([[fragment(body) for body in bodies] for bodies in connection]
                       for connection in connections))


FILES = {
    'null.nfs3cap': capture(NULL),
    'getattr.nfs3cap': capture(GETATTR),
    'two_connections.nfs3cap': capture(NULL, GETATTR),
    'auth_sys.nfs3cap': capture(([call(1, NFS, 3, 0, credential=auth_sys(1, b'client', 0, 0, []))],
                                 [success(1)])),
    'every_procedure.nfs3cap': capture(*every_procedure()),
    'interleaved.nfs3cap': interleaved(*(in_turn(*connection) for connection in every_procedure())),
    'bad_file_byte.nfs3cap': MAGIC + word(2),
    'bad_file_length.nfs3cap': capture(NULL)[:100],
}
FILES.update({f'{name}.nfs3cap': capture(*connections) for name, connections in FAULTS.items()})
FILES.update({f'{name}.pcap': recorded(connections) for name, connections in FAULTS.items()})

for name, content in FILES.items():
    (HERE / name).write_bytes(content)
