"""How much of a recording was judged: each of its connections under one word, and what it shows
besides connections that are taken.

    judged       all its NFSv3 and MOUNTv3 calls can be judged
    in part      bytes of it are missing, or were left out
    left out     nothing of it is judged
    not checked  it has calls of another version of NFS or MOUNT, or is a connection to a port of
                 NFS without one call of version 3
"""
from __future__ import annotations

import collections
import struct
import typing
from collections.abc import Iterable, Mapping

from ..shared.layouts import MOUNT, NFS, RAW, procedure_of
from .records import Heads

Word = typing.Literal['judged', 'in part', 'left out', 'not checked']
NFS_PORTS = frozenset({2049, 20048})  # NFS, and MOUNT as Linux has it
PORT_MAPPER = 111
HEAD_WORDS = struct.Struct('>3I')  # program, version, procedure

# The procedures of other programs by their numbers, for what is printed.
PORTMAP, NLM, NFSACL = 100000, 100021, 100227
RPC_PROGRAMS = {NFS: 'NFS', MOUNT: 'MOUNT', PORTMAP: 'PORTMAP', NLM: 'NLM', NFSACL: 'NFSACL',
                100011: 'RQUOTA', 100024: 'NSM'}
RPCBIND = ('NULL', 'SET', 'UNSET', 'GETADDR', 'DUMP', 'BCAST', 'GETTIME', 'UADDR2TADDR',
           'TADDR2UADDR', 'GETVERSADDR', 'INDIRECT',
           'GETADDRLIST', 'GETSTAT')
PROCEDURES: Mapping[tuple[int, int], tuple[str, ...]] = {
    (PORTMAP, 2): ('NULL', 'SET', 'UNSET', 'GETPORT', 'DUMP', 'CALLIT'), (PORTMAP, 3): RPCBIND,
    (PORTMAP, 4): RPCBIND,
    (NFSACL, 2): ('NULL', 'GETACL', 'SETACL', 'GETATTR', 'ACCESS'),
    (NFSACL, 3): ('NULL', 'GETACL', 'SETACL'),
    **{(NLM, version): ('NULL', 'TEST', 'LOCK', 'CANCEL', 'UNLOCK', 'GRANTED', 'TEST_MSG',
                        'LOCK_MSG', 'CANCEL_MSG', 'UNLOCK_MSG',
                        'GRANTED_MSG', 'TEST_RES', 'LOCK_RES', 'CANCEL_RES', 'UNLOCK_RES',
                        'GRANTED_RES') for version in (1, 3, 4)}}


class Allowed(typing.NamedTuple):
    """What does not make the status 1: losses, and calls that are not checked."""
    losses: bool = False
    not_checked: bool = False


class Called(typing.NamedTuple):
    """The calls of a connection by the heads of their records: how many there are, how many of them
    have a type, and the others by name: those of NFS and MOUNT, and those of other programs."""
    calls: int = 0
    typed: int = 0
    unchecked: Mapping[str, int] = {}
    raw: Mapping[str, int] = {}


class Covered(typing.NamedTuple):
    """A connection, or something else that a recording shows, which has no number.

    word, reason: how much of it was judged, and why not all of it; the reason is '' if it is judged
    missing, lacks: its bytes that the recording lacks, and why it is in part other than for these
    called: the calls of a connection that is taken
    shows_calls: whether calls may be in it; a connection that is left out and shows none changes no
        status
    """
    word: Word
    reason: str = ''
    number: int | None = None
    ends: str = ''
    missing: int = 0
    lacks: tuple[str, ...] = ()
    called: Called = Called()
    shows_calls: bool = True

    @property
    def is_whole(self) -> bool:
        """Whether nothing of it is missing or left out."""
        return not (self.missing or self.lacks)

    def is_good(self, allowed: Allowed) -> bool:
        """Whether the status may be 0 beside it."""
        lost = (self.shows_calls if self.word == 'left out'
                else self.word == 'in part' or not self.is_whole)
        return (allowed.losses or not lost) and (allowed.not_checked or self.word != 'not checked')


class Counts(typing.NamedTuple):
    """How many there are under each word: those that are judged by the program's verdict, and those
    that could not be read at all.

    without_calls: how many of those that are left out show no call
    unanswered: how many calls got no reply, `None` if that was not looked for
    known: how many of these are known by a file, `None` if there is none
    raw: the calls of other programs in connections that are taken, by name
    """
    ok: int = 0
    refused: int = 0
    in_part: int = 0
    left_out: int = 0
    not_checked: int = 0
    errors: int = 0
    without_calls: int = 0
    raw: Mapping[str, int] = {}
    unanswered: int | None = None
    known: int | None = None

    @property
    def judged(self) -> int:
        return self.ok + self.refused

    def words(self) -> str:
        """The sum as all tools print it."""
        bare = f' ({self.without_calls} without a call)' if self.without_calls else ''
        raw = f'; {named_calls(self.raw)} raw' if self.raw else ''
        calls = 'call' if self.unanswered == 1 else 'calls'
        silent = f'; {self.unanswered:,} {calls} without a reply' if self.unanswered else ''
        return (f'{self.judged} judged ({self.ok} ok, {self.refused} refused), '
                f'{self.in_part} in part, {self.left_out} left out{bare}, '
                f'{self.not_checked} not checked, {self.errors} errors{silent}{raw}'
                + ('' if self.known is None else f'; {self.known:,} known'))

    def numbers(self) -> dict[str, int]:
        """How many there are under each word, for files that others read."""
        return {'judged': self.judged, 'ok': self.ok, 'refused': self.refused,
                'in part': self.in_part, 'left out': self.left_out,
                'without calls': self.without_calls, 'not checked': self.not_checked,
                'errors': self.errors,
                **({} if self.unanswered is None else {'without reply': self.unanswered}),
                **({} if self.known is None else {'known': self.known})}

    def members(self) -> dict[str, object]:
        """The same for JSON, with the calls of other programs."""
        return {**self.numbers(), 'raw': dict(self.raw)}


CountedWord = typing.Union[Word, typing.Literal['ok', 'refused', 'error', 'note']]


def counts_of(several: Iterable[tuple[CountedWord, bool, Mapping[str, int]]]) -> Counts:
    """Returns the sum of several, each its word (`ok` or `refused` in place of `judged`), whether
    calls may be in it, and the calls of other programs."""
    words, bare, raw = collections.Counter[CountedWord](), 0, collections.Counter[str]()
    for word, shows_calls, calls in several:
        words[word] += 1
        bare += not shows_calls
        raw.update(calls)
    return Counts(words['ok'] + words['judged'], words['refused'], words['in part'],
                  words['left out'], words['not checked'],
                  words['error'], bare, raw)


def named_calls(calls: Mapping[str, int]) -> str:
    """Calls by name, the most frequent first."""
    return ', '.join(f'{number:,} {name}'
                     for name, number in sorted(calls.items(), key=lambda one: (-one[1], one[0])))


def called_in(heads: Heads) -> Called:
    """Counts the calls of a stream by the heads of their messages."""
    calls = {HEAD_WORDS.unpack(head): number for head, number in heads.calls.items()}
    typed, unchecked, raw = 0, collections.Counter[str](), collections.Counter[str]()
    for (program, version, procedure), number in calls.items():
        if procedure_of(program, version, procedure) is not RAW:
            typed += number
        elif program in (NFS, MOUNT):
            name = f'{RPC_PROGRAMS[program]} version {version}'
            unchecked[name + f' procedure {procedure}' * (version == 3)] += number
        else:
            raw[call_named(program, version, procedure)] += number
    return Called(sum(calls.values()), typed, unchecked, raw)


def call_named(program: int, version: int, procedure: int) -> str:
    """The name of a call of another program, as `NFSACL GETACL`."""
    procedures = PROCEDURES.get((program, version), ())
    there = (procedures[procedure] if procedure < len(procedures)
             else f'version {version} procedure {procedure}')
    return f'{RPC_PROGRAMS.get(program, f"program {program}")} {there}'


def of_connection(called: Called, server_port: int | None, ports: frozenset[int], missing: int,
                  lacks: tuple[str, ...]) -> Covered:
    """Returns the word of a connection that is taken. The port is `None` if it is not known."""
    reason = not_checked(called, server_port in ports)
    if reason:
        return Covered('not checked', reason, missing=missing, lacks=lacks, called=called)
    is_whole = not (missing or lacks)
    return Covered('judged' if is_whole else 'in part', in_part(missing, lacks), missing=missing,
                   lacks=lacks, called=called)


def not_checked(called: Called, is_of_nfs: bool) -> str:
    """Why a connection is not checked; '' if it is."""
    if called.unchecked:
        what = (named_calls(called.unchecked) if len(called.unchecked) > 1
                else next(iter(called.unchecked)))
        return f'{sum(called.unchecked.values()):,} of {called.calls:,} calls ({what})'
    if is_of_nfs and not called.typed:
        return 'no call of NFS or MOUNT version 3' + (f' ({named_calls(called.raw)})' if called.raw
                                                      else '')
    return ''


def in_part(missing: int, lacks: Iterable[str]) -> str:
    """Why a connection is in part; '' if it is not."""
    return ', '.join([*([f'{missing:,} {"byte" if missing == 1 else "bytes"} missing'] if missing
                        else []), *lacks])
