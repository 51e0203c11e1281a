"""How programs of this folder begin and end."""
from __future__ import annotations

import importlib.util
import os
import sys


def reported(name: str, faults: list[str], summary: str) -> int:
    """Prints each fault and then the summary, after the name of the test. Returns the exit status: 1 if there is a fault."""
    for line in faults + [summary]:
        print(f'{name}: {line}')
    return 1 if faults else 0


def begun(doc: str | None, *modules: str) -> None:
    """Prints the head of a program and ends, where its first word is --help. Ends with a line where a module that it needs is missing."""
    if sys.argv[1:2] in (['--help'], ['-h']):
        try:
            print((doc or '').strip(), flush=True)
        except BrokenPipeError:
            os.dup2(os.open(os.devnull, os.O_WRONLY), sys.stdout.fileno())
        sys.exit(0)
    for name in modules:
        if importlib.util.find_spec(name) is None:
            sys.exit(f'{os.path.basename(sys.argv[0])}: needs {name} (Debian: python3-{name})')
