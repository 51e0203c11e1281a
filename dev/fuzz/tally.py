"""Counts of a part, and the smallest case of each kind of failure."""
from __future__ import annotations

import hashlib
import os
import random
import shlex
import shutil
import time
from typing import Iterable, NamedTuple, Sequence, TypeVar

from .runs import Files

Item = TypeVar('Item')
LARGEST_KEPT = 4 << 20


class Case(NamedTuple):
    """A failing run: its command, the files before it, and what is wrong."""
    command: Sequence[str]
    files: Files
    wrong: str

    def size(self) -> int:
        return sum(map(len, self.files.values())) + sum(map(len, self.command))


class Tally:
    """Runs and failures of a part. A failure's kind is a few words: of each kind the smallest case is kept."""

    def __init__(self, part: str) -> None:
        self.part, self.runs, self.failures = part, 0, 0
        self.cases: dict[str, Case] = {}
        self.notes: list[str] = []

    def fail(self, kind: str, command: Sequence[str | bytes], files: Files, wrong: str) -> None:
        self.failures += 1
        case = Case([os.fsdecode(word) for word in command], {n: d for n, d in files.items() if len(d) < LARGEST_KEPT}, wrong)
        if kind not in self.cases or case.size() < self.cases[kind].size():
            self.cases[kind] = case

    def note(self, text: str) -> None:
        if text not in self.notes:
            self.notes.append(text)

    def merge(self, other: Tally) -> None:
        self.runs += other.runs
        self.failures += other.failures
        for kind, case in other.cases.items():
            if kind not in self.cases or case.size() < self.cases[kind].size():
                self.cases[kind] = case
        for text in other.notes:
            self.note(text)

    def line(self, seconds: float) -> str:
        notes = f" ({'; '.join(self.notes)})" if self.notes else ''
        return f'{self.part:<13}{self.runs:>9,} runs {self.failures:>5} failures {seconds:>6.0f} s{notes}'

    def kept(self, folder: str) -> list[str]:
        """Keeps the smallest case of each kind in a folder of its own; returns what is printed: the smallest of all with its command."""
        said = []
        for kind, case in sorted(self.cases.items(), key=lambda item: item[1].size()):
            place = os.path.join(folder, f'{self.part}-{hashlib.sha256(kind.encode()).hexdigest()[:8]}')
            shutil.rmtree(place, ignore_errors=True)
            for name, data in {**case.files, 'what_is_wrong': case.wrong.encode('utf-8', 'backslashreplace')}.items():
                path = os.path.join(place, name)
                os.makedirs(os.path.dirname(path), exist_ok=True)
                with open(path, 'wb') as file:
                    file.write(data)
            command = ' '.join(shlex.quote(word) for word in case.command)
            with open(os.path.join(place, 'command'), 'wb') as file:
                file.write(os.fsencode(command) + b'\n')
            said.append(f'  {kind}: {case.wrong[:500]}\n  cd {shlex.quote(place)} && {command}'.encode('utf-8', 'backslashreplace').decode())
        others = [f'  {len(said) - 1} more kinds of failures: {folder}/{self.part}-*/command'] if len(said) > 1 else []
        return said[:1] + others


class Context:
    """What a part works with: the programs, draws that the seed decides, and when to end."""

    def __init__(self, recon: str, reference: str, seed: str, part: str, seconds: float, worker: int, workers: int) -> None:
        self.recon, self.reference = recon, reference
        self.seed, self.part, self.seconds, self.worker, self.workers = seed, part, seconds, worker, workers
        self.deadline = time.monotonic() + seconds
        self.draw = random.Random(f'{seed}/{part}/{worker}')

    def is_over(self) -> bool:
        return time.monotonic() > self.deadline

    def share(self, items: Iterable[Item]) -> list[Item]:
        """Returns the items of this worker, in an order that the seed decides."""
        every = list(items)
        random.Random(f'{self.seed}/{self.part}').shuffle(every)
        return every[self.worker::self.workers]

    def until(self, share: float) -> float:
        """Returns the time at which this share of the time that is left has passed."""
        return time.monotonic() + share * max(0.0, self.deadline - time.monotonic())
