"""How many calls of a recording got no reply."""
from __future__ import annotations

from array import array
from bisect import bisect_left
from collections import defaultdict
from collections.abc import Iterator

from ..exchanges.answering import Answering
from ..exchanges.kept import host_of
from ..recordings.records import Window, body_of, xids
from ..recordings.taken import TakenConnection, TakenStream

UNANSWERED_AT_MOST = 1 << 16  # calls without a reply; then those so far are forgotten
CallDigest = tuple[int, int]  # the xid of a call, and a hash of what it says


class Unanswered:
    """Counts calls without a reply, connection by connection. One that was sent again on another
    connection of the same client and server, and got no reply there either, is counted once."""

    def __init__(self) -> None:
        self.known = defaultdict[tuple[str, str], set[CallDigest]](set)  # by both ends

    def number(self, connection: TakenConnection) -> int:
        """Returns how many calls of a connection without a reply are new. A capture has no ends."""
        found = open_calls(connection.client, connection.server)
        if not connection.client_end or not found:
            return len(found)
        if sum(map(len, self.known.values())) > UNANSWERED_AT_MOST:
            self.known.clear()
        known = self.known[host_of(connection.client_end), connection.server_end]
        new = len(found - known)
        known |= found
        return new


def open_calls(client: TakenStream, server: TakenStream) -> set[CallDigest]:
    """Returns the calls of a client without a reply. Of few it is read what they say: of those with
    an xid that no reply has, or several calls."""
    calls, rule, first = sorted_xids(client), Answering(), list[CallDigest]()
    wanted = {*missing_from(sorted_xids(server), calls),
              *(one for one, other in zip(calls, calls[1:]) if one == other)}
    for extent, xid, _ in xids(Window(client), 0, client.size) if wanted else ():
        if xid in wanted:
            said = hash(body_of(Window(client), extent)[4:])
            first += [(xid, said)] * rule.call(xid, said)[1]
    answered = {rule.reply(xid) for _, xid, _ in xids(Window(server), 0, server.size)
                if xid in wanted} if wanted else set()
    return {call for at, call in enumerate(first) if at not in answered}


def sorted_xids(stream: TakenStream) -> array[int]:
    """Returns the xids of all records of a stream. An array takes little memory."""
    return array('I', sorted(stream.heads.xids))


def missing_from(several: array[int], wanted: array[int]) -> Iterator[int]:
    """Iterates over the numbers that are not among others, both sorted."""
    at = 0
    for number in wanted:
        at = bisect_left(several, number, at)
        if at == len(several) or several[at] != number:
            yield number
