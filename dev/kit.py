"""The kit's command `rt` as a module: it knows how a crate is checked. This is the only file that
names its parts."""
import importlib.machinery
import importlib.util
import os
import shutil
import signal
import subprocess
import sys
import tempfile
from collections.abc import Mapping, Sequence
from pathlib import Path
from typing import Any, Protocol

BYTES_OF_A_CHECK = 3_500_000_000  # the memory that a check of some functions takes at most
KEPT = 'out/incremental'  # what a check of a crate keeps


class Crate(Protocol):
    """A crate, as the kit has it."""
    name: str
    folder: str

    def below(self) -> list['Crate']:
        """Returns all libraries that the crate stands on."""


def loaded() -> Any:
    """Returns the module. Its own library sets a handler of signals, which only the main thread
    may."""
    path = shutil.which('rt')
    if path is None:
        sys.exit('rt, the Rattle toolchain, is not on the PATH')
    loader = importlib.machinery.SourceFileLoader('rt', os.path.realpath(path))
    spec = importlib.util.spec_from_loader('rt', loader)
    assert spec
    module = importlib.util.module_from_spec(spec)
    loader.exec_module(module)
    module.rtlib.guarded()
    return module


rt = loaded()


def identity() -> str:
    """Returns the kit's line, as `rattle-kit-13f logic dac8208d650f15bf`."""
    return subprocess.run(['rt', 'version'], stdout=subprocess.PIPE, text=True,
                          check=True).stdout.strip()


def ci(is_anew: bool) -> list[str]:
    """Returns the command that proves a repository. Kits before rattle-kit-13f take nothing from
    earlier runs in any case, and no word."""
    return ['rt', 'ci', *(['--anew'] if is_anew and hasattr(rt, 'stamp_of') else [])]


def crates(top: Path) -> list[Crate]:
    """Returns the crates below a folder, each after those that it uses."""
    found: list[Crate] = sorted(rt.rtlib.crates_below(str(top)),
                                key=lambda crate: len(crate.below()))
    return found


def edits(crate: Crate) -> tuple[list[Path], list[Path]]:
    """Returns the edits of a crate, and the files beside them that are none."""
    good, bad = rt.edits_of(crate)
    return [Path(edit) for edit in good], [Path(other) for other in bad]


def texts_with(edit: Path, crate: Crate) -> tuple[dict[str, str], str]:
    """Returns the files that an edit changes, with their new texts, or why it cannot be applied."""
    texts, why = rt.read_edit(str(edit), crate.folder)
    return texts or {}, why or ''


def kept_of(crate: Crate) -> tempfile.TemporaryDirectory[str]:
    """Returns a folder with what `rt check` of the crate kept, if it did, for checks of copies of
    the crate. They put files in the place of others, and write into none."""
    kept = Path(crate.folder) / KEPT
    room = tempfile.TemporaryDirectory(dir=kept.parent if kept.is_dir() else None)
    if kept.is_dir():
        shutil.copytree(kept, room.name, copy_function=os.link, dirs_exist_ok=True)
    return room


def check(crate: Crate, texts: Mapping[str, str], functions: Sequence[str], kept: str) -> str:
    """Checks some functions of a copy of a crate that has these texts, over what a folder keeps and
    keeping there what is proved. Returns what the check printed."""
    flags = ['--jobs', '1', *[word for name in functions for word in ('--only', name)]]
    ran = rt.checked(crate, texts, flags, kept)
    if ran.returncode == -signal.SIGKILL:  # most likely memory was short
        ran = rt.checked(crate, texts, flags, kept)
    said: str = ran.stdout
    return said


def refused_alone(crate: Crate, edit: Path) -> tuple[bool, str]:
    """Tries an edit by itself, as `rt must-fail` does. Returns whether the prover refuses it, and
    what to say."""
    verdict, said = rt.must_fail(crate, str(edit), ['--jobs', '1'])
    if isinstance(verdict, bool):  # as kits before rattle-kit-13f have it
        return verdict, said
    return verdict in (rt.REFUSED, rt.AT_LIMIT), said


def sum_of(crate: Crate) -> str:
    """Returns a checksum of all that a verdict on a crate rests on: the kit, its files, and those
    of the libraries below."""
    # kits before rattle-kit-13f have it as a method of the crate
    found: str = rt.stamp_of(crate, {}) if hasattr(rt, 'stamp_of') else getattr(crate, 'stamp')()
    return found


def free_memory() -> int:
    """Returns how many bytes of memory are free."""
    found: int = rt.free()
    return found


def processors() -> int:
    """Returns how many processors this process may use."""
    found: int = rt.processors()
    return found
