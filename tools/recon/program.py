"""The program `recon`: where it is, how it is run, and its errors as exceptions.

Names: program_path · found_program · run (runs a command, and returns the numbers of its line) · Refused (the program's error) · Invalid (an error
found before the program runs).
"""
from __future__ import annotations

import os
import re
import shutil
import subprocess
from typing import Callable, Sequence

from recon.toolbox.stopping import run_child, run_watched

HERE = os.path.dirname(os.path.abspath(__file__))
MEANINGS = {1: 'the check failed', 2: 'invalid arguments', 3: 'invalid file', 4: 'a file could not be read or written',
            5: 'out of memory'}
NUMBER = re.compile(r'([a-z_]+) (-?[0-9]+)')


class Invalid(ValueError):
    """Invalid arrays: `row` is the first invalid row, from 0, or None; `hint` is the fix."""

    def __init__(self, why: str, row: int | None = None, hint: str = '') -> None:
        super().__init__(why + (f': {hint}' if hint else ''))
        self.row, self.hint = row, hint


class Refused(RuntimeError):
    """An error of the program, or a check that failed. `status` is the exit status (1 check failed, 2 invalid arguments, 3 invalid
    file, 4 input or output, 5 out of memory, negative for a signal), `line` what it printed on standard output, and `hint` the fix that it
    printed on standard error."""

    def __init__(self, status: int, line: str, hint: str) -> None:
        self.status, self.line, self.hint = status, line, hint
        meaning = MEANINGS.get(status, f'terminated by signal {-status}' if status < 0 else f'status {status}')
        super().__init__(f'{meaning}: {line or "(no output)"}' + (f' ({hint})' if hint else ''))


def program_path(path: str | None = None) -> str:
    """Returns the path of the program: `path`, else the value of the variable RECON, else the one that was built or installed beside
    this package, else `recon` on the PATH. Raises FileNotFoundError if there is none."""
    found = path or os.environ.get('RECON') or found_program('recon', 'recon_main')
    if found is None:
        raise FileNotFoundError('the program `recon` was not found: add it to the PATH, or set the environment variable RECON to its path')
    return found


def found_program(name: str, crate: str) -> str | None:
    """Returns the path of a program of this repository that was built or installed beside this package, or is on the PATH."""
    for place in (f'programs/{name}', f'../../{name}', f'../../crates/{crate}/out/{crate}', f'../../../bin/{name}'):
        beside = os.path.normpath(os.path.join(HERE, place))
        if os.path.isfile(beside) and os.access(beside, os.X_OK):
            return beside
    return shutil.which(name)


def run(words: Sequence[object], program: str | None = None, is_shown: bool = False, watch: Callable[[str], None] | None = None,
        folder: str | None = None) -> dict[str, int]:
    """Runs the program with these arguments, and returns the numbers of the line that it prints, by their keys: `points 4 faces 4`
    is {'points': 4, 'faces': 4}. Raises `Refused` if it ends with another status than 0. With `is_shown` its progress goes to
    standard error; with `watch` that gets the text of its progress. It runs in the given folder, or where this process does."""
    command = [program_path(program), *map(str, words)]
    done = (run_watched(command, watch) if watch else
            run_child(command, stdout=subprocess.PIPE, stderr=None if is_shown else subprocess.PIPE, cwd=folder))
    if done.returncode:
        said = [line[7:] if line.startswith('recon: ') else line for line in (done.stderr or '').splitlines()]
        raise Refused(done.returncode, done.stdout.strip(), '; '.join(said))
    return {key: int(number) for key, number in NUMBER.findall(done.stdout)}
