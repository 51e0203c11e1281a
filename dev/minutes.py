#!/usr/bin/env python3
"""Runs a command, such as the gate, and writes a table of the processor minutes of each crate, separately for proofs, tests and edits.

usage: dev/minutes.py TABLE COMMAND ..        as dev/minutes.py minutes.md rt ci --anew

`rt` prints no times, so the processes that the command starts are sampled twice a second: the time of each, user and system, with its children,
counts for the crate that it checks, by the command line of `rattle`. Proofs are checks of a crate without changes, tests those with its tests
and their runs, edits those of a copy of the crate for a mutant. The output and the status are those of the command. The table is rewritten
every ten seconds, so an interrupted run leaves one. Its last rows are the difference between the sum of the crates and the total, as the system
counts it: the work of `rt` itself, the programs of tools/, and the work of a process after its last sample.
"""
from __future__ import annotations

import collections
import ctypes
import os
import re
import resource
import subprocess
import sys
import time
from typing import Any

from report import begun

PAUSE = 0.5
WRITTEN_EVERY = 10
TICKS = os.sysconf('SC_CLK_TCK')
KINDS = ('proofs', 'tests', 'edits')
# The call of the system by which a process becomes the parent of those of its children's children that lose theirs.
SET_CHILD_SUBREAPER = 36


class Process:
    """What /proc says of a process: its parent, its seconds with those of the children that ended, and its work, a crate and a kind."""

    def __init__(self, number: int) -> None:
        with open(f'/proc/{number}/stat', encoding='utf-8', errors='replace') as it:
            fields = it.read().rpartition(')')[2].split()
        self.number, self.parent = number, int(fields[1])
        self.seconds = sum(map(int, fields[11:15])) / TICKS
        # (a number is given again, but not to one that began at the same time)
        self.key = number, fields[19]

    def work(self) -> tuple[str, str] | None:
        """Returns the crate and the kind of work, or None where it is no work of a crate."""
        try:
            with open(f'/proc/{self.number}/cmdline', 'rb') as it:
                words = it.read().decode(errors='replace').split('\0')
            place = os.readlink(f'/proc/{self.number}/cwd')
        except OSError:
            return None
        return work_of(words, place)


def work_of(words: list[str], place: str) -> tuple[str, str] | None:
    """Returns the crate and the kind of what a command line does in a folder, or None."""
    if any(re.search(r'(^|/)rattle$', word) for word in words[:1]) and '--crate-name' in words:
        name = words[words.index('--crate-name') + 1]
        if os.path.basename(place).startswith('rt-edit'):
            return name, 'edits'
        return name, 'tests' if '--test' in words else 'proofs'
    for word in words:
        found = re.search(r'/rt-run-[^/]*/bin/(\w+?)(_tests)?$', word)
        if found:
            return found[1], 'tests'
    return None


def processes() -> dict[int, Process]:
    """Returns the processes of the system by number."""
    found = {}
    for name in os.listdir('/proc'):
        if name.isdigit():
            try:
                found[int(name)] = Process(int(name))
            except (OSError, IndexError, ValueError):
                pass
    return found


class Meter:
    """What was seen so far: for each process at the top of a crate's work the most seconds that it and what it started had."""

    def __init__(self) -> None:
        self.seconds, self.works = {}, {}

    def look(self, top: int) -> None:
        """Takes the seconds of all below a process."""
        found = processes()
        below = collections.defaultdict(list)
        for it in found.values():
            below[it.parent].append(it)
        left: list[tuple[Process, tuple[int, str] | None]] = [(it, None) for it in below[top]]
        sums: dict[tuple[int, str], float] = collections.defaultdict(float)
        while left:
            it, head = left.pop()
            if head is None and it.key not in self.works:
                work = it.work()
                if work:
                    self.works[it.key] = work
            head = head or (it.key if it.key in self.works else None)
            if head:
                sums[head] += it.seconds
            left += [(child, head) for child in below[it.number]]
        for head, seconds in sums.items():
            self.seconds[head] = max(seconds, self.seconds.get(head, 0))

    def by_crate(self) -> dict[tuple[str, str], float]:
        """Returns the seconds of each crate and kind."""
        total: dict[tuple[str, str], float] = collections.defaultdict(float)
        for head, seconds in self.seconds.items():
            total[self.works[head]] += seconds
        return total


def row(name: str, numbers: list[float]) -> str:
    return f'| {name} | ' + ' | '.join(f'{number / 60:.1f}' for number in numbers) + ' |'


def table(by_crate: dict[tuple[str, str], float], whole: float | None, began: float) -> str:
    """Returns the table, crates that took most first."""
    crates = {name for name, _ in by_crate}
    sums = {name: [by_crate[name, kind] for kind in KINDS] for name in crates}
    lines = ['| Crate | Proofs | Tests | Mutants | All |', '|---|---|---|---|---|']
    for name in sorted(crates, key=lambda it: (-sum(sums[it]), it)):
        lines.append(row(f'`{name}`', [*sums[name], sum(sums[name])]))
    each = [sum(by_crate[name, kind] for name in crates) for kind in KINDS]
    lines.append(row('All crates', [*each, sum(each)]))
    if whole is not None:
        lines.append(f'| The rest | | | | {(whole - sum(each)) / 60:.1f} |')
        lines.append(f'| The whole run | | | | {whole / 60:.1f} |')
    lines.append('')
    lines.append(f'Processor minutes, user and system; {(time.monotonic() - began) / 60:.0f} minutes by the clock, {len(os.sched_getaffinity(0))} processors'
                 + ('.' if whole is not None else ', not at its end.'))
    return '\n'.join(lines) + '\n'


def write(path: str, text: str) -> None:
    with open(f'{path}.part', 'w', encoding='utf-8') as it:
        it.write(text)
    os.replace(f'{path}.part', path)


def main() -> int:
    if len(sys.argv) < 3:
        print(__doc__.strip(), file=sys.stderr)
        return 2
    path, began, meter = sys.argv[1], time.monotonic(), Meter()
    ctypes.CDLL(None).prctl(SET_CHILD_SUBREAPER, 1, 0, 0, 0)
    command = subprocess.Popen(sys.argv[2:])
    written = began
    while command.poll() is None:
        meter.look(os.getpid())
        if time.monotonic() - written > WRITTEN_EVERY:
            written = time.monotonic()
            write(path, table(meter.by_crate(), None, began))
        time.sleep(PAUSE)
    used = resource.getrusage(resource.RUSAGE_CHILDREN)
    write(path, table(meter.by_crate(), used.ru_utime + used.ru_stime, began))
    return command.returncode if command.returncode >= 0 else 128 - command.returncode


if __name__ == '__main__':
    begun(__doc__)
    sys.exit(main())
