"""What file handles mean, as far as a recording says: the path by which each was made, or
else first reached.

A handle has another value in each run, and its path the same. So exchanges of two runs are brought
together by paths.
"""
from __future__ import annotations

from bisect import bisect_right
from collections import defaultdict
from collections.abc import Callable, Iterator
from functools import cached_property, partial
from typing import NamedTuple

from .procedures import LOOKUP, MAKING, READDIRPLUS, RENAME
from .values import handle_found, read_call, read_reply

MOUNTING = 'MOUNTPROC3_MNT'
GIVING_HANDLES = {LOOKUP, *MAKING}  # calls of a name whose replies have its handle
NAMING = {*GIVING_HANDLES, MOUNTING}  # the same, also of a whole path
# Calls whose replies say of handles what they are
TEACHING = {*NAMING, READDIRPLUS, RENAME}
DOTS = ('.', '..')  # the folder itself, and the one above it
UNKNOWN = '?'  # a folder whose path is not known
# Paths are cut in their middle, so that many deep ones take no more memory than their names do.
LONGEST_PATH, HEAD_OF_PATH, GAP_IN_PATH = 1_024, 256, '/ .. /'


def below(folder: str, name: str) -> str:
    """Returns the path of a name in a folder. If it is long, names are left out of its middle."""
    path = f'{folder.rstrip("/")}/{name}'
    if len(path) <= LONGEST_PATH:
        return path
    head, gap, tail = path.partition(GAP_IN_PATH)
    if not gap:
        head = path[:HEAD_OF_PATH].rpartition('/')[0]
        tail = path[len(head) + 1:]
    while len(head) + len(GAP_IN_PATH) + len(tail) > LONGEST_PATH and '/' in tail:
        tail = tail.partition('/')[2]
    return head + GAP_IN_PATH + tail


def handles_given(procedure: str, said: str) -> Iterator[tuple[str | None, str]]:
    """Iterates over the handles that a reply gives, but for empty ones: that of the name that was
    asked for, or those of a listing, each with the name of its entry."""
    if procedure in NAMING:
        handle = handle_found(procedure, said)
        if handle:
            yield None, handle
    elif procedure == READDIRPLUS:
        for entry in read_reply(procedure, said)[1].get('entries', ()):
            if entry.get('fh'):
                yield entry['name'], entry['fh']


class Origin(NamedTuple):
    """An object's folder, None if its name is a whole path, its name, and if it was made there."""
    folder: str | None
    name: str
    is_made: bool


class PlacedObject(NamedTuple):
    """A name in a folder, and the frame of the reply that gave its handle. If there is no handle it
    is the reply to a RENAME of what was under another name before."""
    frame: int
    folder: str
    name: str
    handle: str = ''
    before: tuple[str, str] = ('', '')


def path_by(origin_of: Callable[[str], Origin | None], handle: str,
            known: dict[str, str]) -> str | None:
    """Returns the path of a handle by where objects are, and keeps those of folders above it."""
    # (by steps, since a folder may be thousands of folders below the first; in a circle, as no
    # file system has it, nothing is first)
    way, at = dict[str, Origin](), handle
    while at not in known and at not in way and (origin := origin_of(at)) is not None:
        if origin.folder is None:
            known[at] = origin.name.rstrip('/') or '/'
        else:
            way[at], at = origin, origin.folder
    if not way:
        return known.get(handle)
    path = known.get(at, UNKNOWN)
    for one, origin in reversed(way.items()):
        path = known[one] = below(path, origin.name)
    return path


class Paths:
    """The paths of the handles of one run. If frames are known, those that objects had when, after
    some of them were renamed.

    known: the paths between two moves, most often those that are asked for next
    placed, found: the handle that was last found under a name of a folder, and all that were
    """

    def __init__(self) -> None:
        self.origins, self.moves = dict[str, Origin](), list[PlacedObject]()
        self.known, self.turn = dict[str, str](), 0
        self.placed, self.found = dict[tuple[str, str], str](), list[PlacedObject]()

    @cached_property
    def turns(self) -> list[int]:
        return sorted(one.frame for one in self.moves)

    @cached_property
    def history(self) -> dict[str, list[tuple[int, Origin]]]:
        """The origins of handles that were moved, each with the frame from which on it holds."""
        out = defaultdict[str, list[tuple[int, Origin]]](list)
        there = dict[tuple[str, str], str]()
        events = sorted([*self.found, *self.moves], key=lambda one: one.frame)
        for frame, folder, name, found, before in events:
            handle = found or there.pop(before, '')
            if handle:
                there[folder, name] = handle
            if handle and not found:
                out[handle].append((frame, Origin(folder, name, True)))
        return out

    def at(self, handle: str, frame: int = 0) -> str | None:
        """Returns the path of a handle at the time of a frame, if one is known; `?` is not."""
        turn = bisect_right(self.turns, frame) if self.moves else 0
        if turn != self.turn:
            self.turn, self.known = turn, {}
        return path_by(partial(self.origin, frame=frame), handle, self.known)

    def origin(self, handle: str, frame: int) -> Origin | None:
        """Returns where an object is at the time of a frame."""
        later = self.history.get(handle, ()) if self.moves else ()
        moved = next((origin for since, origin in reversed(later) if since <= frame), None)
        return moved or self.origins.get(handle)

    def all_of(self, handle: str) -> list[str]:
        """Returns all paths that an object had, in their order."""
        frames, waiting, seen = {1}, [handle], set[str]()
        while waiting:
            at = waiting.pop()
            seen.add(at)
            origins = [self.origins.get(at), *(one for _, one in self.history.get(at, ()))]
            frames.update(since for since, _ in self.history.get(at, ()))
            waiting += [one.folder for one in origins
                        if one and one.folder is not None and one.folder not in seen]
        paths = dict.fromkeys(self.at(handle, frame) for frame in sorted(frames))
        return [path for path in paths if path is not None]

    def learn(self, handle: str, origin: Origin, frame: int) -> None:
        known = self.origins.get(handle)
        if frame and handle and origin.folder is not None:
            place = origin.folder, origin.name
            if self.placed.get(place) != handle:
                self.placed[place] = handle
                self.found.append(PlacedObject(frame, *place, handle))
        if handle and origin.name not in DOTS and (
                known is None or origin.is_made and not known.is_made):
            self.origins[handle] = origin
            self.known.clear()

    def take(self, procedure: str, asked: str, said: str, frame: int = 0) -> None:
        """Learns from what a call and a reply to it say of handles. If the reply's frame is known,
        names may be asked for by the time."""
        call = read_call(procedure, asked)
        if procedure == RENAME and frame:
            self.moves.append(PlacedObject(frame, call['to.fh'], call['to.name'],
                                           before=(call['from.fh'], call['from.name'])))
        folder, is_made = (None if procedure == MOUNTING else call.get('fh')), procedure != LOOKUP
        name = call.get('name', call.get('dirpath'))
        for entry, handle in handles_given(procedure, said):
            self.learn(handle, Origin(folder, name, is_made) if entry is None
                       else Origin(folder, entry, False), frame)
