"""How files begin: recordings, captures, and what is compressed."""

from __future__ import annotations

PCAP = {b'\xd4\xc3\xb2\xa1': ('<', 1_000), b'\xa1\xb2\xc3\xd4': ('>', 1_000),
        # With the byte order, and the nanoseconds of a unit of time
        b'\x4d\x3c\xb2\xa1': ('<', 1), b'\xa1\xb2\x3c\x4d': ('>', 1)}
SECTION = b'\x0a\x0d\x0d\x0a'  # of pcapng
MAGICS = (b'NFS3CAP1', b'NFS3CAP2')
GZIP, XZ, ZSTD, BZIP2, LZ4 = (
    b'\x1f\x8b', b'\xfd7zXZ\0', b'\x28\xb5\x2f\xfd', b'BZh', b'\x04\x22\x4d\x18')
PACKED_BY = {GZIP: 'gzip', XZ: 'xz', ZSTD: 'zstd', BZIP2: 'bzip2', LZ4: 'lz4'}
LONGEST_MAGIC = 6  # bytes, of compressed files
