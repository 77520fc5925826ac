"""Runs of tools/compare, and made runs of one connection."""
import re
from collections.abc import Iterable

from examples import messages
from examples.messages import NFS, call, success

from .scripts import Tools

COUNTS = re.compile(r'(both runs|first run|second run): [\d,]+ judged')
Conversation = tuple[list[bytes], list[bytes]]
Exchange = tuple[int, bytes, bytes]  # a procedure of NFS, its arguments and its results


def conversation_of(steps: Iterable[Exchange], xid: int = 1) -> Conversation:
    numbered = [*enumerate(steps, xid)]
    return ([call(at, NFS, 3, procedure, asked) for at, (procedure, asked, _) in numbered],
            [success(at, results) for at, (_, _, results) in numbered])


class Comparisons(Tools):
    """A folder, and runs of tools/compare there."""

    def compare(self, *words: str) -> tuple[int, list[str], str]:
        """The status, the lines without those that count connections, and standard error."""
        status, out, error = self.tool('compare', *words)
        return status, [line for line in out.splitlines() if not COUNTS.match(line)], error

    def put(self, name: str, *connections: Conversation) -> None:
        self.write(name, messages.capture(*connections))

    def put_both(self, first: Conversation, second: Conversation) -> None:
        """Writes two runs of one connection each, `a` and `b`."""
        self.put('a', first)
        self.put('b', second)

    def says(self, what: str, status: int, begin: str, *words: str) -> list[str]:
        """`a` and `b` are compared with this status and a verdict that begins so. Returns all."""
        found, out, error = self.compare(*words, 'a', 'b')
        self.want(what, (found, out[1][:len(begin)], error), (status, begin, ''))
        return out

    def wants(self, what: str, status: int, lines: list[str], *words: str) -> None:
        """`a` and `b` are compared with this status, and these lines come after the first two."""
        found, out, error = self.compare(*words, 'a', 'b')
        self.want(what, (found, out[2:], error), (status, lines, ''))
