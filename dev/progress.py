#!/usr/bin/env python3
"""Runs `rt` and prints its progress in few lines; its whole output goes to a file.

usage: dev/progress.py LOG COMMAND ..         as dev/progress.py test.log bash .ci/run, at the top or in the folder of a crate

The first line states how long a run from nothing takes here, by the table of dev/minutes.md. Then follows a line for each crate when it
is proved, with its number among all and the minutes so far (`proved votes, 22 of 37, 9 min`), one when its tests are proved and one before its
mutants are tried; from the second minute on each also says about how many minutes are left. A crate that fails is reported with the line of LOG where its text begins. After the gate's last line, and after the line with
which `rt run` starts the program, everything is printed unchanged. The status is the command's.
"""
from __future__ import annotations

import os
import pathlib
import re
import signal
import subprocess
import sys
import time
from typing import Any

from docs.sources import uses_of
from report import begun

TOP = pathlib.Path(__file__).resolve().parent.parent
# The lines of `rt ci` that are printed as they stand: what was not refused, what failed, what it waits for, and its last word.
TOLD = re.compile(r'rt: (FAILED|ok;|waiting |note: bad |warning: )|must-fail .*: (NOT REFUSED|NOT TRIED|BAD EDIT)|.*\.edit: BAD EDIT')
LAST_OF_THE_GATE = re.compile(r'\d+ passed, \d+ failed')
# The page with the processor minutes of each crate, and its rows: proofs, tests, edits and their sum.
PAGE = TOP / 'dev/minutes.md'
ROW_OF_PROOFS = re.compile(r'(?m)^\| `(\w+)` \| ([\d.]+) \| [\d.]+ \| [\d.]+ \| [\d.]+ \|')
ROW_OF_ALL = re.compile(r'(?m)^\| `(\w+)` \| [\d.]+ \| [\d.]+ \| [\d.]+ \| ([\d.]+) \|')
# `rt run` proves one crate after another, and keeps about this number of processors busy; the gate keeps all busy.
BUSY_IN_TURN = 2
# How many lines of the file are printed where the command fails and said no last word.
TAIL = 20


def proved_in_turn(name: str, uses: dict[str, list[str]]) -> list[str]:
    """Returns the crates below one in the order in which `rt run` proves them, and itself."""
    found = []
    for crate in uses[name]:
        found += [it for it in proved_in_turn(crate, uses) if it not in found]
    return [*found, name]


class Progress:
    """What was seen of a run, and what is to be said of its next line."""

    def __init__(self, crates: list[str], in_turn: bool, log: pathlib.Path | str) -> None:
        self.crates, self.in_turn, self.log = crates, in_turn, log
        self.lines, self.heading, self.is_open = 0, 0, False
        self.done: set[str] = set()
        self.crate: str | None = None
        # whether no mutants are tried, and the processor minutes that each crate took in the table of the page
        self.has_proofs_alone = in_turn
        self.cost: dict[str, float] = {}

    def of_all(self, crate: str) -> str:
        """Returns how many crates are done with this one."""
        self.done.add(crate)
        number = self.crates.index(crate) + 1 if self.in_turn and crate in self.crates else len(self.done)
        return f'{number} of {len(self.crates)}'

    def left(self, minutes: int) -> str:
        """Returns what is said of the minutes that are left, if as much is done for each minute as before; nothing before anything is known."""
        usual = sum(self.cost.values()) / len(self.cost) if self.cost else 0.0
        done, total = (sum(self.cost.get(it, usual) for it in crates) for crates in (self.done, self.crates))
        return f', about {minutes * (total - done) / done:.0f} left' if minutes > 1 and done > 0 else ''

    def said(self, line: str, minutes: int) -> str | None:
        """Returns what is to be printed for a line, or None."""
        self.lines += 1
        if self.is_open:
            return line
        if LAST_OF_THE_GATE.match(line) or line.startswith('rt: running '):
            self.is_open = True
            return line
        if line.startswith('== '):
            self.heading = self.lines
        elif TOLD.match(line):
            return line
        return self.of_a_crate(line, minutes) if not self.in_turn else self.of_a_library(line, minutes)

    def of_a_crate(self, line: str, minutes: int) -> str | None:
        """Returns what is to be said of a line of the gate."""
        found = re.match(r'rt: (\w+)(: its tests are)? (proved|NOT PROVED|is kept|: trying)', line) or re.match(r'rt: (\w+)()(: trying) its must-fail edits \((\d+)\)', line)
        if not found:
            return None
        crate, tests, what = found[1], bool(found[2]), found[3]
        if what == ': trying':
            return f'trying {found[4]} wrong bodies of {crate}, {minutes} min'
        if what == 'NOT PROVED':
            return f"NOT PROVED {'the tests of ' if tests else ''}{crate}, {minutes} min: {self.log} from line {self.heading or self.lines} on"
        if tests:
            return f'proved the tests of {crate}, {minutes} min'
        kept = 'proved here before' if what == 'is kept' else 'proved'
        return f'{kept} {crate}, {self.of_all(crate)}, {minutes} min{self.left(minutes)}'

    def of_a_library(self, line: str, minutes: int) -> str | None:
        """Returns what is to be said of a line of `rt run`, which proves one crate after another."""
        found = re.match(r'crate (\w+): modules ', line)
        if found:
            self.crate = found[1]
        if line.startswith('logic=proved') and self.crate:
            return f'proved {self.crate}, {self.of_all(self.crate)}, {minutes} min{self.left(minutes)}'
        if line.startswith('logic=not-proved'):
            return f"NOT PROVED {self.crate or 'a crate'}, {minutes} min: {self.log}"
        return None


def minutes_in(page: str, seen: Progress) -> dict[str, float]:
    """Returns the processor minutes of the crates of a run by the table of a page, where it has them."""
    rows = (ROW_OF_PROOFS if seen.has_proofs_alone else ROW_OF_ALL).findall(page)
    return {name: float(last) for name, last in rows if name in seen.crates}


def expected(page: str, seen: Progress, processors: int) -> str:
    """Returns what is said of the minutes that a run from nothing takes, by the table of a page; nothing where it has none
    of the crates."""
    known = list(minutes_in(page, seen).values())
    if not known:
        return ''
    about = sum(known) / (min(processors, BUSY_IN_TURN) if seen.in_turn else processors)
    return f': from nothing about {about:.0f} min on {processors} processors, less where crates were proved here before'


def tail_of(path: pathlib.Path) -> str:
    return ''.join(path.read_text(errors='replace').splitlines(keepends=True)[-TAIL:])


def progress_of(log: pathlib.Path, place: pathlib.Path, command: list[str]) -> Progress:
    """Returns what follows a run that begins in a folder: of the crates below its crate, below those that the command names, or of all that
    the folder has."""
    listed = place / 'crates.txt' if (place / 'crates.txt').is_file() else TOP / 'crates.txt'
    uses = uses_of(listed.read_text())
    in_turn = place.parent == TOP / 'crates' and place.name in uses
    tops = [place.name] if in_turn else [word for word in command if word in uses] or [*uses]
    seen = Progress([*dict.fromkeys(it for top in tops for it in proved_in_turn(top, uses))], in_turn, log)
    seen.has_proofs_alone = in_turn or not any(place.glob('crates/*/must-fail'))
    return seen


def main() -> int:
    if len(sys.argv) < 3:
        print(__doc__.strip(), file=sys.stderr)
        return 2
    log, began = pathlib.Path(sys.argv[1]).resolve(), time.monotonic()
    seen = progress_of(log, pathlib.Path.cwd(), sys.argv[2:])
    seen.cost = minutes_in(PAGE.read_text(), seen)
    print(f'{len(seen.crates)} crates{expected(PAGE.read_text(), seen, len(os.sched_getaffinity(0)))}', flush=True)
    # (the command is stopped by the terminal, and what it says then is still to be read)
    signal.signal(signal.SIGINT, signal.SIG_IGN)
    how: dict[str, Any] = {'stdin': subprocess.DEVNULL, 'stdout': subprocess.PIPE, 'stderr': subprocess.STDOUT, 'text': True, 'errors': 'replace'}
    how['preexec_fn'] = lambda: signal.signal(signal.SIGINT, signal.SIG_DFL)
    how['env'] = {**os.environ, 'PYTHONUNBUFFERED': '1'}
    with open(log, 'w', encoding='utf-8', buffering=1) as kept, subprocess.Popen(sys.argv[2:], **how) as command:
        for line in command.stdout or ():
            kept.write(line)
            said = seen.said(line.rstrip('\n'), int((time.monotonic() - began) / 60))
            if said is not None:
                print(said, flush=True)
    status = command.returncode if command.returncode >= 0 else 128 - command.returncode
    if status and not seen.is_open:
        print(tail_of(log), end='')
    if status:
        print(f'failed with status {status}: the full text is in {log}', flush=True)
    return status


if __name__ == '__main__':
    begun(__doc__)
    sys.exit(main())
