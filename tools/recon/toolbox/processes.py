"""Other processes that do parts of the work of this one. They are copies of it, so that they need nothing to be sent but what is asked.

Names: Helpers.
"""
from __future__ import annotations

import contextlib
import os
import pickle
import signal
import struct
import sys
import warnings
from typing import Any, BinaryIO, Callable, List

from recon.start import SIGNALS

MOST = 8
PAIR, SIZE = struct.Struct('<2q'), struct.Struct('<q')
Answer = Callable[[int, int], Any]


def processors() -> int:
    """Returns how many helpers are of use here: none on one processor, or where processes cannot be copied."""
    count = len(os.sched_getaffinity(0)) if sys.platform == 'linux' else 1
    return min(count, MOST) if count > 1 else 0


def serve(tasks: int, results: int, answer: Answer) -> None:
    """Answers what is asked, until this ends."""
    for number in SIGNALS:
        # the process that asks ends this one
        signal.signal(number, signal.SIG_DFL if number == signal.SIGTERM else signal.SIG_IGN)
    with open(tasks, 'rb') as asked, open(results, 'wb') as out:
        while True:
            pair = asked.read(PAIR.size)
            if len(pair) < PAIR.size:
                return
            data = pickle.dumps(answer(*PAIR.unpack(pair)), 4)
            out.write(SIZE.pack(len(data)) + data)
            out.flush()


class Helpers:
    """Processes that call `answer` with pairs of whole numbers, in turn, and whose answers come back in the order of the questions."""

    def __init__(self, count: int, answer: Answer) -> None:
        self.tasks: List[int] = []
        self.results: List[BinaryIO] = []
        self.pids: List[int] = []
        self.asked = self.answered = 0
        with contextlib.suppress(OSError):
            # fewer where the system has no more
            for _ in range(count):
                self.start(answer)

    def start(self, answer: Answer) -> None:
        """Starts a helper."""
        task_in, task_out = os.pipe()
        result_in, result_out = os.pipe()
        with warnings.catch_warnings():
            # a helper uses no lock that another thread may hold
            warnings.simplefilter('ignore', DeprecationWarning)
            pid = os.fork()
        if not pid:
            try:
                # with all other ends closed the helper ends when this process does
                for end in [task_out, result_in, *self.tasks, *(file.fileno() for file in self.results)]:
                    os.close(end)
                serve(task_in, result_out, answer)
            finally:
                os._exit(0)
        os.close(task_in)
        os.close(result_out)
        self.pids.append(pid)
        self.tasks.append(task_out)
        self.results.append(open(result_in, 'rb'))

    def ask(self, first: int, second: int) -> None:
        """Asks for an answer."""
        with contextlib.suppress(OSError):
            os.write(self.tasks[self.asked % len(self.tasks)], PAIR.pack(first, second))
        self.asked += 1

    def next_answer(self) -> Any:
        """Returns the next answer; None of a helper that has ended."""
        file = self.results[self.answered % len(self.results)]
        self.answered += 1
        head = file.read(SIZE.size)
        if len(head) < SIZE.size:
            return None
        size, = SIZE.unpack(head)
        data = file.read(size)
        return pickle.loads(data) if len(data) == size else None

    def close(self) -> None:
        """Ends all helpers."""
        for end in self.tasks:
            os.close(end)
        for file in self.results:
            file.close()
        for pid in self.pids:
            with contextlib.suppress(OSError):
                os.kill(pid, signal.SIGKILL)
                os.waitpid(pid, 0)
        self.tasks, self.results, self.pids = [], [], []
