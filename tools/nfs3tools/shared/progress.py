"""How far a tool is, on standard error if that is a terminal: one line, which is written anew and
is gone in the end."""
from __future__ import annotations

import contextlib
import sys
import time
from collections.abc import Callable, Iterable, Iterator

BETWEEN = 0.2  # seconds between two lines of one step
LINES_A_LOOK = 1_024
Share = Callable[[], float]  # how much of the whole is done


class Progress:
    """A line on a terminal. Elsewhere nothing is written, and no share is asked for."""

    def __init__(self, is_shown: bool = True) -> None:
        self.told, self.is_shown = time.monotonic(), is_shown and sys.stderr.isatty()

    def begin(self, what: str) -> None:
        """Says what is done now."""
        if self.is_shown:
            self.write(what)

    def step(self, what: str, share: Share | None = None) -> None:
        """Says how much is done, if it was not said just now."""
        if self.is_shown and time.monotonic() > self.told + BETWEEN:
            # (a file may have grown)
            self.write(what if share is None
                       else f'{what}, {min(100, max(0, int(100 * share())))} %')

    def write(self, what: str) -> None:
        self.told = time.monotonic()
        print(f'\r\x1b[K{what}', end='', file=sys.stderr, flush=True)

    def lines(self, what: str, lines: Iterable[str], number: Callable[[], int]) -> Iterable[str]:
        """Returns lines, and says how many of that number were read as they are."""
        return self.counted(what, lines, number()) if self.is_shown else lines

    def counted(self, what: str, lines: Iterable[str], number: int) -> Iterator[str]:
        self.begin(what)
        for at, line in enumerate(lines):
            if not at % LINES_A_LOOK:
                self.step(what, lambda: at / max(1, number))
            yield line

    @contextlib.contextmanager
    def line(self) -> Iterator[None]:
        """The line is gone after this, whatever fails."""
        try:
            yield
        finally:
            self.end()

    def end(self) -> None:
        if self.is_shown:
            print('\r\x1b[K', end='', file=sys.stderr, flush=True)
