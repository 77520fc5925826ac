"""The version of the tools, which is that of the newest section of CHANGELOG.md."""
from __future__ import annotations

from pathlib import Path

TOP = Path(__file__).resolve().parents[3]
VERSION = '0.2.0'
