"""Which call a reply answers, which calls were sent again, and which error a reply has.

`Answering` is the one rule of all tools. Replies are matched by their xids. If calls with one xid
are no retransmissions, its replies belong to them in their order, and what is left to the last.
"""
from __future__ import annotations

import functools
import re
from array import array
from collections import defaultdict, deque
from collections.abc import Hashable

from ..shared.layouts import BY_NAME, VALUES

REPLY_STATUS = re.compile(r' mtype=1 reply_stat=(?:'
                          r'0 verf_flavor=\d+ verf_body=\w* accept_stat=(\d+)(?: status=(\d+))?'
                          r'|1 reject_stat=(\d+)(?: auth_stat=(\d+))?)')
# As most replies begin.
SUCCESS = ' mtype=1 reply_stat=0 verf_flavor=0 verf_body= accept_stat=0 status=0 '


class Answering:
    """The exchanges of a connection, numbered from a first one: its calls, then replies by xids."""

    def __init__(self, first: int = 0) -> None:
        self.said = array('q')  # a hash of what each call says
        self.owners, self.number = array('I'), first  # the exchange of each call, and the next one
        # Most clients count up: xids of the first calls, and how many there are. Of other xids, the
        # first call with each.
        self.begin, self.counted = 0, 0
        self.firsts = dict[int, int]()
        # The calls with an xid that are no retransmissions, if several have it: those that wait for
        # a reply, and all of them by what they say.
        self.several: dict[int, deque[int]] = {}
        self.different = defaultdict[int, dict[int, int]](dict)

    def call(self, xid: int, said: Hashable) -> tuple[int, bool]:
        """Takes a call. Returns its exchange, and whether it is the first call of it."""
        self.said.append(hash(said))
        earlier = self.earlier(xid)
        self.owners.append(self.number if earlier is None else self.owners[earlier])
        self.number += earlier is None
        return self.owners[-1], earlier is None

    def earlier(self, xid: int) -> int | None:
        """Returns the call that was sent first if the last one is a retransmission."""
        at = len(self.said) - 1
        if at == self.counted and (not at or xid == self.begin + at):
            self.begin, self.counted = xid - at, at + 1
            return None
        first = self.first(xid)
        if first is None:
            self.firsts[xid] = at
            return None
        different = self.different[xid]
        different.setdefault(self.said[first], first)
        earlier = different.setdefault(self.said[at], at)
        if earlier != at:
            return earlier
        self.several.setdefault(xid, deque([first])).append(at)
        return None

    def first(self, xid: int) -> int | None:
        at = xid - self.begin
        return at if 0 <= at < self.counted else self.firsts.get(xid)

    def reply(self, xid: int) -> int:
        waiting = self.several.get(xid)
        if waiting is not None:
            return self.owners[waiting.popleft() if len(waiting) > 1 else waiting[0]]
        first = self.first(xid)
        assert first is not None, xid
        return self.owners[first]


def error_in(procedure: str, said: str) -> str:
    """Returns the name of the error in the items of a reply, or nothing for success."""
    if said.startswith(SUCCESS):
        return ''
    read = REPLY_STATUS.match(said)
    assert read, said[:200]
    return error_name(procedure, *read.groups())


@functools.cache
def error_name(procedure: str, accepted: str | None, status: str | None,
               rejected: str | None, unauthorized: str | None) -> str:
    """Returns the name of the error that a reply has, nothing for success: the status of NFS or
    MOUNT, or else why the call was not accepted."""
    if unauthorized is not None:
        return VALUES['auth_stat'][int(unauthorized)]
    if rejected is not None:
        return VALUES['reject_stat'][int(rejected)]
    if status is not None:
        return (BY_NAME[procedure].statuses or {})[int(status)] if int(status) else ''
    return VALUES['accept_stat'][int(accepted or 0)] if accepted != '0' else ''
