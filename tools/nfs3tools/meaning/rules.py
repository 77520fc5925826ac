"""The rules of `meaning`, with their sections of RFC 1813, what is found by them, and how much was
looked at. No rule is about the bytes of a message, of which `check` says whether they are valid."""
from __future__ import annotations

from collections.abc import Hashable, Iterator
from dataclasses import dataclass, field
from typing import NamedTuple

from ..recordings.selection import count
from ..shared.layouts import NFS_PROCEDURES

NOTE, CLIENT = 'note', 'client'  # who breaks a rule: a note is permitted, and worth knowing
SECTIONS = {row[0]: f'3.3.{number}' for number, row in enumerate(NFS_PROCEDURES)}


class Rule(NamedTuple):
    """A rule: its name, the procedure, the group of procedures or the type of RFC 1813 that it is
    about, what it says, what may be the cause, and by whom it is broken: `server`, `client`, or
    nobody (`note`)."""
    name: str
    about: str
    sentence: str
    cause: str
    by: str = 'server'

    @property
    def sections(self) -> str:
        """Its sections, or the name of its type."""
        return ', '.join(SECTIONS.get(word, word) for word in self.subjects)

    @property
    def subjects(self) -> tuple[str, ...]:
        return GROUPS_OF_PROCEDURES.get(self.about, (self.about,))

    def section(self, procedure: str) -> str:
        word = procedure if procedure in self.subjects else self.subjects[0]
        return SECTIONS.get(word, word)


LISTERS, MAKERS = ('READDIR', 'READDIRPLUS'), ('CREATE', 'MKDIR', 'SYMLINK', 'MKNOD')
OF_READING, OF_MAKING, IN_FOLDERS = 'listings', 'making', 'in folders'
GROUPS_OF_PROCEDURES: dict[str, tuple[str, ...]] = {
    OF_READING: LISTERS, OF_MAKING: MAKERS,
    IN_FOLDERS: ('LOOKUP', *MAKERS, 'REMOVE', 'RMDIR', 'RENAME', 'LINK', *LISTERS)}
CACHE = 'A cache of the server is older than the change, or a change came by another way than NFS.'
OTHER_COUNTS = 'One of the two counts is that of another message, or was not made anew.'
OLD = 'The reply has attributes of another time or of another object.'
ASKED = 'The server ignores or changes what was asked for, and answers OK.'
UNCOUNTED_XDR = 'The server does not count all of the XDR of its reply.'
RULES = {row[0]: Rule(*row) for row in (
    ('read-data', 'READ',
     'READ returns what was written or read there before, if nothing came between', CACHE),
    ('read-eof', 'READ', 'eof of READ is whether offset and count reach the size', OLD),
    ('read-past-end', 'READ', 'READ returns no byte beyond the size', OLD),
    ('read-count-data', 'READ', 'the count of READ is the number of its bytes', OTHER_COUNTS),
    ('read-count-asked', 'READ', 'READ returns no more bytes than were asked for', OTHER_COUNTS),
    ('write-size', 'WRITE', 'after WRITE the file reaches to its last byte', OLD),
    ('write-committed', 'WRITE', 'WRITE is committed at least as stably as was asked for', ASKED),
    ('write-count-asked', 'WRITE', 'WRITE writes no more bytes than it was given', OTHER_COUNTS),
    ('write-count-data', 'WRITE', 'the count of WRITE is the number of its bytes',
     OTHER_COUNTS, CLIENT),
    ('write-nothing', 'WRITE', 'WRITE that writes no byte of some is no success',
     'The file system is full, and the server answers OK.'),
    ('verifier', 'WRITE', 'the write verifier stays as long as the server runs',
     'The server was started anew.', NOTE),
    ('verifier-back', 'WRITE', 'a write verifier does not come back after another one',
     'One reply has the verifier of another server, or of none.'),
    ('not-committed', 'COMMIT',
     'UNSTABLE data are committed, and written again if the verifier has changed',
     'The client trusts data that a crash of the server loses.', CLIENT),
    ('listing', OF_READING, 'a whole listing has each name once, and the names there are', CACHE),
    ('name-gone', 'REMOVE', 'a name is not there after it was removed', CACHE),
    ('name-there', 'LOOKUP', 'a name is there after it was made, until it is removed', CACHE),
    ('name-object', 'LOOKUP', 'a name leads to the object that was found under it', CACHE),
    ('readlink-text', 'READLINK', 'READLINK returns the text that the link was made with', CACHE),
    ('link-nlink', 'LINK', 'after LINK the object has one link more, and two at least', OLD),
    ('handle-object', 'nfs_fh3', 'a handle is of one object: type, fsid and fileid stay',
     'A handle is used again for another object.'),
    ('same-ctime', 'fattr3', 'attributes do not change without the ctime', OLD),
    ('returns', 'fattr3', 'attributes that have changed do not come back with the old ctime', OLD),
    ('wcc-before', 'wcc_data', 'attributes before a change are those that the last reply had', OLD),
    ('set-attributes', 'SETATTR', 'after SETATTR the attributes are those that were set', ASKED),
    ('made-attributes', OF_MAKING, 'what was made has the attributes that were asked for', ASKED),
    ('made-type', OF_MAKING, 'what was made has the type that was asked for', ASKED),
    ('guard', 'SETATTR', 'SETATTR with a guard is done if ctime is the same, and else is NOT_SYNC',
     'The server does not compare the guard, or with a ctime of another time.'),
    ('entries-size', OF_READING, 'READDIR and READDIRPLUS return no more bytes than were asked for',
     UNCOUNTED_XDR),
    ('entries-none', OF_READING, 'READDIR and READDIRPLUS return an entry, or eof',
     'The server answers OK if no entry fits, where TOOSMALL is meant.'),
    ('entry-cookies', OF_READING, 'each entry has a cookie of its own, which is not 0',
     'Two entries have one position in the file system of the server.'),
    ('entry-names', OF_READING, 'a directory has each name once, and none is empty or has a slash',
     'The server takes any bytes for a name, or lists an entry again that has moved.'),
    ('entry-fileid', 'READDIRPLUS', 'the file id of an entry is that of its attributes',
     'The attributes are those of another object, as of what is mounted there.'),
    ('mode-bits', 'fattr3', 'a mode has twelve bits, and not the type of the file',
     'The server sends st_mode as its system has it.'),
    ('nsec', 'nfstime3', 'a time has fewer than 10^9 nanoseconds, which its first sender breaks',
     'The sender has a constant of its system there, as UTIME_NOW.'),
    ('write-ctime', 'fattr3', 'WRITE that moves mtime moves ctime as well',
     'The server keeps both times itself, and forgets one.'),
    ('dir-type', IN_FOLDERS, 'what names are looked up, made, removed or listed in is a directory',
     OLD),
    ('access-asked', 'ACCESS', 'ACCESS grants only what was asked for',
     'The server answers with all rights that the user has.'),
    ('fsinfo', 'FSINFO', 'preferred sizes are no more than the largest, and multiples are not 0',
     'The sizes are set by hand, or are those of another file system.'))}


# The items that show it, by rules: names of items of a message.
COUNT, TIME_ITEMS = ('count',), ('mtime_sec', 'mtime_nsec', 'ctime_sec', 'ctime_nsec')
ATTRIBUTE_ITEMS = ('size', *TIME_ITEMS, 'mode', 'uid', 'gid', 'nlink')
ITEMS: dict[str, tuple[str, ...]] = {
    'read-data': ('data',), 'read-eof': ('eof',), 'write-size': ('size',), 'guard': ('status',),
    **dict.fromkeys(('read-past-end', 'read-count-data', 'read-count-asked', 'write-count-asked',
                     'write-count-data', 'write-nothing'), COUNT),
    'write-committed': ('committed',), 'not-committed': ('stable',), 'access-asked': ('access',),
    'verifier': ('verf',), 'verifier-back': ('verf',), 'link-nlink': ('nlink',),
    **dict.fromkeys(('listing', 'entry-names'), ('name',)), 'readlink-text': ('path',),
    **dict.fromkeys(('name-gone', 'name-there'), ('status',)), 'name-object': ('fileid',),
    'handle-object': ('type', 'fsid', 'fileid'), 'entry-fileid': ('fileid',),
    **dict.fromkeys(('same-ctime', 'returns', 'wcc-before', 'set-attributes', 'made-attributes'),
                    ATTRIBUTE_ITEMS),
    **dict.fromkeys(('made-type', 'dir-type'), ('type',)), 'mode-bits': ('mode',),
    'nsec': ('atime_nsec', 'mtime_nsec', 'ctime_nsec'), 'write-ctime': TIME_ITEMS[3:],
    'entries-size': ('eof',), 'entries-none': ('eof',), 'entry-cookies': ('cookie',),
    'fsinfo': ('rtpref', 'rtmult', 'wtpref', 'wtmult')}


class Evidence(NamedTuple):
    """An exchange that shows something: its number, between which frames it was, the frame that
    shows it, the time of its call, and its procedure."""
    number: int
    begin: int
    end: int
    frame: int
    begun: int
    procedure: str

    @property
    def words(self) -> str:
        return f'frame {self.frame}, {self.procedure}'

    def __str__(self) -> str:
        return f'in frame {self.frame} ({self.procedure})'


class RuleFinding(NamedTuple):
    """An exchange that breaks a rule, in which words, and the other one that shows it. It does not
    count if one of `unless` is denied. `by` is who breaks it, if not as the rule says."""
    rule: str
    number: int
    text: str
    source: Evidence | None = None
    unless: tuple[Hashable, ...] = ()
    by: str = ''


ACROSS = ('data', 'attributes', 'names', 'commits')  # groups of rules about several exchanges


@dataclass
class Looked:
    """How much the rules were put to, and why some were not asked."""
    exchanges: int = 0  # calls with a reply, each by itself
    reads: int = 0  # READs whose data were compared
    bytes: int = 0  # of these
    beside: int = 0  # READs that were not compared, since a change was beside them
    attributes: int = 0  # replies that show an object again, without a change since
    names: int = 0  # that something was known of
    listings: int = 0  # that are whole
    writes: int = 0  # UNSTABLE ones that have to be committed
    not_asked: dict[str, list[str]] = field(default_factory=dict)  # reasons, by groups of rules

    def leave(self, group: str, reason: str) -> None:
        """Notes why a group of rules was not asked, or not of all."""
        known = self.not_asked.setdefault(group, [])
        known += [reason] * (reason not in known)

    def groups(self) -> dict[str, str]:
        """Returns how much each group of rules was put to, and what was not asked, in words."""
        known = f'{count(self.reads, "READ")} ({self.bytes:,} bytes)'
        beside = f', and {self.beside:,} beside a change are left out' if self.beside else ''
        words = {
            'calls': (self.exchanges, f'{count(self.exchanges, "call")} with a reply',
                      'no call of NFS has a reply'),
            'data': (self.reads, known + beside, 'no bytes are read that were known'),
            'attributes': (self.attributes, count(self.attributes, 'comparison'),
                           'no object is shown again before it changes'),
            'names': (self.names + self.listings, f'{count(self.names, "name")}, '
                      f'{count(self.listings, "whole listing")}',
                      'no name is asked for again in a folder that is shown'),
            'commits': (self.writes, count(self.writes, 'UNSTABLE WRITE'),
                        'no WRITE is UNSTABLE')}
        out = dict[str, str]()
        for group, (number, text, none) in words.items():
            reasons = self.not_asked.get(group) or [none] * (not number)
            why = [f'not asked, since {", and ".join(reasons)}'] if reasons else []
            out[group] = '; '.join([*[text] * (number > 0), *why])
        return out

    def members(self) -> dict[str, object]:
        numbers = {name: value for name, value in vars(self).items() if isinstance(value, int)}
        return {**numbers, 'groups': self.groups()}

    def lines(self) -> Iterator[str]:
        return (f'{group}: {words}' for group, words in self.groups().items())
