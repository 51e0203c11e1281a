#!/usr/bin/env python3
"""Checks the types and the style of the Python programs by mypy and ruff, as configured in tools/pyproject.toml, if they are installed
(Debian: mypy). If one is not, prints that it was left out.
"""
from __future__ import annotations

import os
import shutil
import subprocess
import sys

from report import begun

ROOT = os.path.dirname(os.path.dirname(os.path.abspath(__file__)))
CHECKS = {'mypy': ['mypy', '--config-file', 'pyproject.toml', 'recon'], 'ruff': ['ruff', 'check', '--config', 'pyproject.toml', 'recon', '../dev']}


def main() -> int:
    failed = 0
    for name, words in CHECKS.items():
        if shutil.which(name) is None:
            print(f'lint: {name} is not installed, so it was left out')
        else:
            failed += subprocess.run(words, cwd=os.path.join(ROOT, 'tools')).returncode != 0
    return 1 if failed else 0


if __name__ == '__main__':
    begun(__doc__)
    sys.exit(main())
