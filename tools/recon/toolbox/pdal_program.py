"""LAZ files unpacked by the program `pdal`, where the Python package laspy is not installed.

Names: pdal_path · opened_by_pdal.
"""
from __future__ import annotations

import os
import shutil
import subprocess
import tempfile
from typing import BinaryIO

from recon.toolbox.ply_text import Refusal


def pdal_path() -> str | None:
    """Returns the path of the program; None where it is not installed."""
    return shutil.which('pdal')


def opened_by_pdal(path: str) -> BinaryIO:
    """Returns the LAS that a LAZ becomes, open, in a file that goes when it is closed. Raises `Refusal` with what the program says."""
    folder = tempfile.mkdtemp(prefix='recon-')
    try:
        out = os.path.join(folder, 'points.las')
        done = subprocess.run([pdal_path() or 'pdal', 'translate', '-r', 'readers.las', '-w', 'writers.las', '--writers.las.forward=all', path, out],
                              stdin=subprocess.DEVNULL, stdout=subprocess.DEVNULL, stderr=subprocess.PIPE, text=True, errors='replace')
        if done.returncode or not os.path.exists(out):
            raise Refusal(f'pdal cannot unpack the LAZ: {" ".join(done.stderr.split())[:200]}')
        return open(out, 'rb')
    finally:
        shutil.rmtree(folder, True)
