"""The names of the tools: `tools/compare` in a clone, `nfs3-compare` if it is installed."""
from __future__ import annotations

import os
import re
import sys

INSTALLED = 'nfs3-'  # begins the names under which the tools are installed


def is_installed() -> bool:
    """Returns whether the tool that runs was called by a name under which tools are installed."""
    return os.path.basename(sys.argv[0]).startswith(INSTALLED)


def called(tool: str) -> str:
    """Returns the name by which a tool was called, which its help and its messages have."""
    return os.path.basename(sys.argv[0]) if is_installed() else tool


def as_called(text: str) -> str:
    """Returns a text with the names under which tools are installed, if this one was called so."""
    return re.sub(r'\btools/(\w+)', lambda found: installed_name(found[1]),
                  text) if is_installed() else text


def installed_name(tool: str) -> str:
    """Returns the name under which a tool is installed: plain names are others' as well."""
    return INSTALLED + tool.replace('_', '-')
