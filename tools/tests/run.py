#!/usr/bin/env python3
"""Runs the tests of the programs in tools/ and dev/ and of the built `recon` (two minutes). The last line counts them; the status is
1 where one failed.

  python3 tools/tests/run.py [PART OF A NAME]

Where `recon` is built (the path in RECON, ./recon, or what is left in crates/recon_main/out), it has to read what the programs
wrote, and is run on files that are cut, spoiled and that lie. `python3 -m unittest discover tools/tests` runs the same tests.
"""
from __future__ import annotations

import importlib.util
import os
import subprocess
import sys
import unittest
from typing import cast

if not (importlib.util.find_spec('numpy') and importlib.util.find_spec('scipy')):
    # another interpreter has them, or it is said how to get them
    finder = os.path.join(os.path.dirname(os.path.abspath(__file__)), '..', '..', 'dev', 'python')
    found = subprocess.run(['sh', finder], stdout=subprocess.PIPE, text=True).stdout.strip()
    sys.exit(1) if not found else os.execv(found, [found, *sys.argv])

from helpers import HERE, RECON  # noqa: E402


class Counted(unittest.TextTestResult):
    """What passed, counted."""
    passed = 0

    def addSuccess(self, test: unittest.TestCase) -> None:
        super().addSuccess(test)
        self.passed += 1


def main() -> None:
    loader = unittest.TestLoader()
    loader.testNamePatterns = [f'*{sys.argv[1]}*'] if len(sys.argv) > 1 else None
    runner = unittest.TextTestRunner(sys.stdout, resultclass=Counted)
    result = cast(Counted, runner.run(loader.discover(HERE)))
    failed = len(result.failures) + len(result.errors)
    for reason in sorted({reason for _, reason in result.skipped}):
        print(f'skipped: {reason}')
    if not RECON:
        print('recon is not built here: what the programs wrote was not read by it, and it was not run itself')
    print(f'tools: {result.passed} passed, {failed} failed')
    sys.exit(failed > 0 or result.passed == 0)


if __name__ == '__main__':
    main()
