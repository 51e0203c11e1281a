"""Signs of life: a line on standard error that says what a run does, how much of it is done, and how long it still takes.

On a terminal the line is written again each second, after two seconds. Into a file, where a program wants it, lines follow after 5 seconds, then 10, 20
and so on. How much of a file has been read is asked of the system, so the code that reads needs to know nothing of it.

Names: signs_of_life (a run that gives them) · step (a part of the run) · cleared (before something else is printed) · read_part (which part of files has
been read) · build_part (how far `recon build` is, by what it prints).
"""
from __future__ import annotations

import contextlib
import os
import re
import sys
import threading
import time
from typing import Callable, Iterator, List, Optional, Sequence

Part = Callable[[], Optional[float]]
FIRST, EACH, FIRST_LINE = 2.0, 1.0, 5.0
LEAST_PART = 0.01
# the part of the time spent that a step which takes longer than expected is said to take still; of one that takes this many times as long nothing is said
LATE, TOO_LATE = 0.15, 2.0
LINE = 100
COUNTS = re.compile(r'(cells|sights) ([0-9,]+) of ([0-9,]+)')
# where the phases of a build begin and end, as parts of its time
PHASES = {'cells': (0.05, 0.5), 'sights': (0.5, 0.75)}
FLOW = 0.85


class Step:
    """A part of a run: what is done, how much of it (from 0 to 1, where that is known), and how many seconds it was expected to take."""

    def __init__(self, what: str, part: Optional[Part], seconds: Optional[float]) -> None:
        self.what, self.part, self.seconds, self.begun = what, part, seconds, time.monotonic()

    def text(self, pace: float) -> str:
        """The line. `pace` is how many times as long as expected steps have taken."""
        spent = time.monotonic() - self.begun
        done = self.part() if self.part is not None else None
        if done is None and self.seconds and spent < TOO_LATE * self.seconds * pace:
            done = spent / (spent + max(self.seconds * pace - spent, LATE * spent, 1e-3))
        if done is None or done < LEAST_PART or done >= 1:
            return f'{self.what}: {lasting(spent)} so far'
        return f'{self.what}: {done:.0%}, about {lasting(spent * (1 - done) / done)} left'


def lasting(seconds: float) -> str:
    """A time in words."""
    return f'{seconds:.0f} s' if seconds < 100 else f'{seconds / 60:.0f} min' if seconds < 6000 else f'{seconds / 3600:.1f} h'


class Signs:
    """What a run shows of itself: on a terminal a line that changes, else lines if `say` is there to print them."""

    def __init__(self, name: str, say: Optional[Callable[[str], None]], is_quiet: bool) -> None:
        self.name, self.say, self.is_on = name, say, not is_quiet and (sys.stderr.isatty() or say is not None)
        self.steps: List[Step] = []
        self.pace, self.shown, self.next_line = 1.0, False, FIRST_LINE
        self.lock, self.ended = threading.RLock(), threading.Event()

    def run(self) -> None:
        """Shows the line until the run ends."""
        while not self.ended.wait(EACH):
            # a step may end while it is looked at
            with contextlib.suppress(Exception):
                self.show()

    def show(self) -> None:
        with self.lock:
            if not self.steps or self.ended.is_set():
                return
            step = self.steps[-1]
            spent = time.monotonic() - step.begun
            if sys.stderr.isatty():
                if spent >= FIRST:
                    print(f'\r\x1b[K{f"{self.name}: {step.text(self.pace)}"[:LINE]}', end='', file=sys.stderr, flush=True)
                    self.shown = True
            elif self.say is not None and spent >= self.next_line:
                self.next_line *= 2
                self.say(step.text(self.pace))

    def clear(self) -> None:
        """Takes the line away."""
        if self.shown:
            print('\r\x1b[K', end='', file=sys.stderr, flush=True)
            self.shown = False

    def end_step(self, step: Step) -> None:
        """Ends a step, and learns from the time that it took."""
        spent = time.monotonic() - step.begun
        with self.lock:
            self.steps.remove(step)
            self.clear()
            self.next_line = FIRST_LINE
            if step.seconds and spent > 1:
                self.pace = min(max(spent / step.seconds, 0.2), 50.0)


CURRENT: List[Signs] = []


@contextlib.contextmanager
def signs_of_life(name: str, say: Optional[Callable[[str], None]] = None, is_quiet: bool = False) -> Iterator[None]:
    """Lets the block under `with` give signs of life. `say` prints lines where standard error is no terminal."""
    signs = Signs(name, say, is_quiet)
    if not signs.is_on:
        yield
        return
    CURRENT.append(signs)
    thread = threading.Thread(target=signs.run, daemon=True)
    thread.start()
    try:
        yield
    finally:
        signs.ended.set()
        CURRENT.remove(signs)
        with signs.lock:
            signs.clear()


@contextlib.contextmanager
def step(what: str, part: Optional[Part] = None, seconds: Optional[float] = None) -> Iterator[None]:
    """Names what the block under `with` does, `part` returns how much of it is done, and `seconds` is how long it usually takes."""
    if not CURRENT:
        yield
        return
    signs, mine = CURRENT[-1], Step(what, part, seconds)
    signs.steps.append(mine)
    try:
        yield
    finally:
        signs.end_step(mine)


def cleared() -> None:
    """Takes the line away, before something else is printed."""
    for signs in CURRENT:
        with signs.lock:
            signs.clear()


def offsets(wanted: Sequence[str]) -> List[Optional[int]]:
    """Returns how far into each of these files, by their real paths, this process has read; None for one that is not open."""
    found: List[Optional[int]] = [None] * len(wanted)
    for name in os.listdir('/proc/self/fd'):
        with contextlib.suppress(OSError, ValueError):
            path = os.readlink(f'/proc/self/fd/{name}')
            if path in wanted:
                with open(f'/proc/self/fdinfo/{name}', encoding='ascii') as file:
                    found[wanted.index(path)] = int(file.readline().split()[1])
    return found


def read_part(paths: Sequence[str]) -> Part:
    """Returns a function that says which part of these files has been read, one after another. It says None on a system that does not know it."""
    names = [os.path.realpath(path) for path in paths if os.path.isfile(path)]
    sizes = [os.path.getsize(name) for name in names]

    def part() -> Optional[float]:
        if not sum(sizes) or not os.path.isdir('/proc/self/fdinfo'):
            return None
        at = offsets(names)
        last = max((k for k, offset in enumerate(at) if offset is not None), default=None)
        return None if last is None else min((sum(sizes[:last]) + (at[last] or 0)) / sum(sizes), 0.999)

    return part


def build_part() -> 'tuple[Callable[[str], None], Part]':
    """Returns what takes the text that `recon build` prints on a terminal, and how far it is by this."""
    done = [0.0]

    def take(text: str) -> None:
        counts = COUNTS.findall(text)
        if counts:
            what, count, whole = counts[-1]
            low, high = PHASES[what]
            done[0] = low + (high - low) * int(count.replace(',', '')) / max(int(whole.replace(',', '')), 1)
        elif 'flow' in text:
            done[0] = max(done[0], FLOW)

    return take, lambda: done[0] or None
