"""Captures from texts."""
import re
from collections.abc import Callable, Iterable

from examples.messages import CLIENT, SERVER, chunk, fragment, record, version_1, version_2

# A record: its side, `>` for the client and `<` for the server, and its body.
Record = tuple[str, bytes]
# A chunk of version 2: its side in the same way, and its content.
Chunk = tuple[str, bytes]
SIDE_WORDS = {'>': CLIENT, '<': SERVER}

# Words that stand for bytes in hexadecimal.
WORDS = {
    'MAGIC': '4e46533343415031',
    # of version 2
    'MAGIC2': '4e46533343415032',
    # mtype 0 and rpcvers 2 of a call (RFC 5531, section 9)
    'CALL': '0000000000000002',
    # program and version
    'NFS': '000186a300000003',
    'MOUNT': '000186a500000003',
    # AUTH_NONE without a body
    'NONE': '0000000000000000',
    # mtype 1, MSG_ACCEPTED, AUTH_NONE without a body, SUCCESS
    'SUCCESS': '0000000100000000000000000000000000000000',
    # fattr3 (RFC 1813): a folder, mode 755, two links, 4,096 bytes, file system 1,
    # file 2
    'ATTRIBUTES': '00000002000001ed000000020000000000000000' '00000000000010000000000000001000'
    '0000000000000000'
                  '00000000000000010000000000000002'
    '000000010000000000000001000000000000000100000000',
}


def bytes_of(text: str) -> bytes:
    """Returns bytes from hexadecimal words; `61*1024` is 1,024 times the byte 61."""
    out = b''
    for word in text.split():
        digits, *counts = word.split('*')
        piece = bytes.fromhex(WORDS.get(digits, digits))
        for count in counts:
            piece *= int(count)
        out += piece
    return out


def records_of(text: str) -> list[list[Record]]:
    """Returns the records of each connection in the order of the text. `>` begins a call's body,
    `<` a reply's, `|` the next connection."""
    return [[(side, bytes_of(body)) for side, body in re.findall(r'([<>])([^<>]*)', connection)]
            for connection in text.split('|')]


def sent(records: Iterable[Record], mine: str) -> list[bytes]:
    """Returns the bodies of the records of one side."""
    return [body for side, body in records if side == mine]


def capture_of(text: str, chunks: Callable[[bytes], bytes] = record) -> bytes:
    """Returns a capture of version 1 of these records; `chunks` makes the chunks of a record from
    its body."""
    return b''.join(version_1((map(chunks, sent(records, '>')), map(chunks, sent(records, '<')))
                              for records in records_of(text)))


def mixed_of(text: str) -> bytes:
    """Returns a capture of version 2 of these records, each a chunk and a fragment; the chunks are
    in the order of the text."""
    return mixed([(side, fragment(body)) for side, body in records] for records in records_of(text))


def mixed(connections: Iterable[Iterable[Chunk]]) -> bytes:
    """Returns a capture of version 2 of connections, each a list of its chunks."""
    return b''.join(version_2((SIDE_WORDS[side] + chunk(content) for side, content in chunks)
                              for chunks in connections))
