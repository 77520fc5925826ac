"""Runs of the tools in forks of this process, which has imported them: they begin at once.

A fork shows neither the scripts themselves nor streams that are closed, signals and limits. Runs
with such options are those of the scripts.
"""
import concurrent.futures
import gc
import importlib
import os
import signal
import sys
import traceback
from collections.abc import Callable, Sequence
from pathlib import Path
from typing import NoReturn

from tests.shared.running import LIMIT, Ended


def ended_in_fork(tool: str, words: Sequence[str], folder: str, stdin: bytes | None) -> Ended:
    module = importlib.import_module(f'tools.nfs3tools.commands.{Path(tool).name}')
    given, feeding = os.pipe() if stdin is not None else (os.open(os.devnull, os.O_RDONLY), None)
    (out, its_out), (error, its_error) = os.pipe(), os.pipe()
    child = os.fork()
    if child == 0:
        become(module.command, [tool, *words], folder, (given, its_out, its_error))
    for file in (given, its_out, its_error):
        os.close(file)
    with concurrent.futures.ThreadPoolExecutor(3) as pool:
        outputs = [pool.submit(content_of, file) for file in (out, error)]
        if feeding is not None:
            pool.submit(feed, feeding, stdin or b'')
    _, status = os.waitpid(child, 0)
    return Ended(os.waitstatus_to_exitcode(status), *(output.result() for output in outputs))


def content_of(file: int) -> bytes:
    """All that comes out of a pipe."""
    with open(file, 'rb') as pipe:
        return pipe.read()


def feed(file: int, content: bytes) -> None:
    """Writes into a pipe, as long as somebody reads it."""
    try:
        with open(file, 'wb') as pipe:
            pipe.write(content)
    except BrokenPipeError:
        pass


def become(command: Callable[[], int], words: list[str], folder: str,
           streams: Sequence[int]) -> NoReturn:
    """Runs a command line in place of this process, which is a fork, as a script does."""
    status = 1
    gc.freeze()  # (what the tests have left is not this run's to clear away)
    try:
        os.chdir(folder)
        for number, file in enumerate(streams):
            os.dup2(file, number)
        os.closerange(3, 256)
        sys.argv = words
        sys.stdin, sys.stdout, sys.stderr = (
            open(number, 'w' if number else 'r', errors=stream.errors if stream else None)
            for number, stream in enumerate((sys.__stdin__, sys.__stdout__, sys.__stderr__)))
        signal.alarm(LIMIT)
        status = command()
    except BaseException:
        traceback.print_exc()
        sys.stderr.flush()
    finally:
        os._exit(status)
