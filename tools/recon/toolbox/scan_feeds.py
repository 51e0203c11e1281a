"""The options of a program that reads scans of every kind that recon-scan reads.

Names: KEYS · reading_of (the options that say how a scan is read).
"""
from __future__ import annotations

from typing import Any

from recon.toolbox.sources import READING
from recon.toolbox.tool import Options, field

KEYS = READING + ('origin', 'from', 'to', 'outside')


def reading_of(options: Any) -> Options:
    """The options that say how a scan is read, without those that a program has for something else."""
    chosen = Options(KEYS)
    for key in KEYS:
        setattr(chosen, field(key), getattr(options, field(key), None))
    return chosen
