"""Tests that are functions. Each is called with the runs of a new folder, and notes there what is
wrong. The program is the one built, else that of dist/, or the one that the variable NFS3CANON
names.
"""
import concurrent.futures
import functools
import importlib
import inspect
import itertools
import os
import traceback
import unittest
from collections.abc import Callable
from typing import Any

from tests.shared.running import Runs, built, tried

PROGRAM = os.environ.get('NFS3CANON') or str(built())
Test = Callable[[Any], None]  # of runs, of its own class


def tests_of(name: str) -> dict[str, Test]:
    """The tests of a module by names: functions of runs alone, and those in its list TESTS."""
    module = importlib.import_module(f'tools.tests.test_{name}')
    own = [one for one in vars(module).values()
           if inspect.isfunction(one) and one.__module__ == module.__name__ and is_test(one)]
    return {test.__name__: test for test in [*own, *getattr(module, 'TESTS', [])]}


def is_test(function: Callable[..., object]) -> bool:
    signature = inspect.signature(function)
    kinds = [parameter.annotation for parameter in signature.parameters.values()]
    return signature.return_annotation is None and len(kinds) == 1 and issubclass(kinds[0], Runs)


def wrong_in(program: str, module: str, name: str) -> list[str]:
    """What is wrong in a test. One that is left out raises `unittest.SkipTest`."""
    test = tests_of(module)[name]
    (runs,) = inspect.signature(test).parameters.values()
    try:
        return tried(program, runs.annotation, test)
    except unittest.SkipTest:
        raise
    except Exception:
        return [traceback.format_exc()]


# What is wrong with a seed, of the program and the seed.
WrongOf = Callable[[str, int], list[str]]


def try_seeds(runs: Runs, count: int, wrong_of: WrongOf) -> None:
    """Nothing is wrong with any seed from 0 on, or those that the variables SEED and COUNT say.
    Processes side by side each have some of them."""
    first, size = int(os.environ.get('SEED', 0)), 50
    chosen = range(first, first + int(os.environ.get('COUNT', count)))
    steps = [chosen[at:at + size] for at in range(0, len(chosen), size)]
    of_some = functools.partial(of_step, wrong_of, runs.program)
    with concurrent.futures.ProcessPoolExecutor() as pool:
        runs.wrong += itertools.chain.from_iterable(pool.map(of_some, steps))


def of_step(wrong_of: WrongOf, program: str, step: range) -> list[str]:
    return [wrong for seed in step for wrong in wrong_of(program, seed)]
