"""Runs of programs in a folder of their own, with limits, and what they left."""
from __future__ import annotations

import os
import resource
import shutil
import signal
import tempfile
from typing import Any, Callable, NamedTuple, Optional, Sequence

FAST = '/dev/shm' if os.access('/dev/shm', os.W_OK) else None
ENVIRONMENT = {'PATH': '/usr/bin:/bin', 'TERM': 'dumb', 'LC_ALL': 'C'}
Files = dict[str, bytes]


class OutOfTime(Exception):
    """A run takes longer than its limit."""


def _alarm(_signal: int, _frame: Any) -> None:
    raise OutOfTime


class Done(NamedTuple):
    """How a run ended: the status (below 0: ended by that signal; None: over the limit of time), both outputs, processor seconds and the
    largest resident memory in MB."""
    status: Optional[int]
    out: bytes
    err: bytes
    seconds: float = 0.0
    megabytes: float = 0.0

    def __str__(self) -> str:
        return f'status {self.status}, printed {self.out[:300]!r}, standard error {self.err[:300]!r}'


def drained(descriptor: int) -> bytes:
    """Returns all that a pipe or a file holds; closes it."""
    with os.fdopen(descriptor, 'rb') as file:
        return file.read()


class Folder:
    """A folder with files, which is the working folder of this process until it is closed."""

    def __init__(self) -> None:
        self.path = tempfile.mkdtemp(prefix='recon_fuzz_', dir=FAST)
        os.chdir(self.path)
        self.held: Files = {}
        signal.signal(signal.SIGALRM, _alarm)

    def close(self) -> None:
        os.chdir('/')
        shutil.rmtree(self.path, ignore_errors=True)

    def put(self, files: Files) -> None:
        """Leaves exactly these files in the folder."""
        for name in [name for name in self.held if name not in files]:
            os.unlink(name)
            del self.held[name]
        for name, data in files.items():
            if self.held.get(name) != data:
                os.makedirs(os.path.dirname(name) or '.', exist_ok=True)
                with open(name, 'wb') as file:
                    file.write(data)
                self.held[name] = data

    def look(self) -> Files:
        """Returns what the folder holds now."""
        self.held = {}
        for folder, _, names in os.walk('.'):
            for name in names:
                path = os.path.join(folder, name)[2:]
                with open(path, 'rb') as file:
                    self.held[path] = file.read()
        return dict(self.held)

    def clear(self) -> None:
        """Removes all files and folders."""
        for name in os.listdir('.'):
            if os.path.isdir(name) and not os.path.islink(name):
                shutil.rmtree(name)
            else:
                os.unlink(name)
        self.held = {}

    def run(self, argv: Sequence[str | bytes], limit: float = 120, path: Optional[str] = None) -> Done:
        """Runs a program in the folder. `path` is the program where its first argument is another name."""
        out_read, out_write = os.pipe()
        err_read, err_write = os.pipe()
        nothing = os.open(os.devnull, os.O_RDONLY)
        actions = [(os.POSIX_SPAWN_DUP2, nothing, 0), (os.POSIX_SPAWN_DUP2, out_write, 1), (os.POSIX_SPAWN_DUP2, err_write, 2)]
        pid = os.posix_spawn(path or argv[0], list(argv), ENVIRONMENT, file_actions=actions,
                             setsigdef=[signal.SIGPIPE, signal.SIGXFSZ, signal.SIGALRM])
        for descriptor in (nothing, out_write, err_write):
            os.close(descriptor)
        return self.waited(pid, out_read, err_read, limit)

    def forked(self, work: Callable[[], int], limit: float = 120) -> Done:
        """Runs a call in a fork of this process, whose status it returns."""
        out_read, out_write = os.pipe()
        err_read, err_write = os.pipe()
        pid = os.fork()
        if pid == 0:
            status = 126
            try:
                signal.setitimer(signal.ITIMER_REAL, 0)
                os.dup2(os.open(os.devnull, os.O_RDONLY), 0)
                os.dup2(out_write, 1)
                os.dup2(err_write, 2)
                os.closerange(3, 64)
                for number in (signal.SIGPIPE, signal.SIGXFSZ, signal.SIGALRM, signal.SIGINT):
                    signal.signal(number, signal.SIG_DFL)
                status = work()
            finally:
                os._exit(status)
        os.close(out_write)
        os.close(err_write)
        return self.waited(pid, out_read, err_read, limit)

    def limited(self, argv: Sequence[str], setup: Callable[[], Any], limit: float = 120) -> Done:
        """Runs a program after a call that sets limits or descriptors."""
        def work() -> int:
            setup()
            os.execve(argv[0], list(argv), ENVIRONMENT)

        return self.forked(work, limit)

    def waited(self, pid: int, out_read: int, err_read: int, limit: float) -> Done:
        """Waits for a run whose outputs fit into pipes."""
        status = None
        signal.setitimer(signal.ITIMER_REAL, limit)
        try:
            _, code, usage = os.wait4(pid, 0)
            status = os.waitstatus_to_exitcode(code)
        except OutOfTime:
            os.kill(pid, signal.SIGKILL)
            _, _, usage = os.wait4(pid, 0)
        finally:
            signal.setitimer(signal.ITIMER_REAL, 0)
        return Done(status, drained(out_read), drained(err_read), usage.ru_utime + usage.ru_stime, usage.ru_maxrss / 1024)


def no_core_files() -> None:
    resource.setrlimit(resource.RLIMIT_CORE, (0, 0))
