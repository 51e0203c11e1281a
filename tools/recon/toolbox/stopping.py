"""Runs that are stopped: by Ctrl-C, by SIGTERM, or because the terminal was closed. The programs that a run has started end with it, and files that
are not whole are removed.

Names: Stopped · stoppable (a run that leaves nothing when it is stopped) · run_child (runs a program that ends with this one) · run_watched (and its progress) · stop_children.
"""
from __future__ import annotations

import contextlib
import errno
import functools
import os
import shutil
import signal
import subprocess
import threading
from types import FrameType
from typing import Any, Callable, Iterator, List, Optional, Sequence, Set

from recon.start import SIGNALS, ignore_all, meaning
from recon.toolbox.output_files import remove_left

CHILDREN: Set['subprocess.Popen[Any]'] = set()
# the signal that stops the run, after which no program is started
STOPPED_BY: List[int] = []


class Stopped(KeyboardInterrupt):
    """A signal has stopped the run."""

    def __init__(self, number: int) -> None:
        super().__init__()
        self.number = number

    @property
    def status(self) -> int:
        """The exit status of the run, as a shell has it."""
        return 128 + self.number

    def __str__(self) -> str:
        return meaning(self.number)


def stop_children() -> None:
    """Ends all programs that run."""
    for child in list(CHILDREN):
        with contextlib.suppress(OSError):
            child.kill()


def stop(number: int, frame: Optional[FrameType]) -> None:
    """Stops the run: further signals are ignored while it cleans up."""
    ignore_all()
    STOPPED_BY.append(number)
    stop_children()
    raise Stopped(number)


@contextlib.contextmanager
def stoppable() -> Iterator[None]:
    """Lets the block under `with` be stopped by a signal, which raises `Stopped` after all that the block left has been removed. Signals that were
    ignored before are ignored still, as those of a run under `nohup`."""
    if threading.current_thread() is not threading.main_thread():
        # signals are the main thread's
        yield
        return
    before = {number: signal.getsignal(number) for number in SIGNALS}
    for number, handler in before.items():
        if handler is not signal.SIG_IGN:
            signal.signal(number, stop)
    try:
        yield
    finally:
        ignore_all()
        stop_children()
        remove_left()
        STOPPED_BY.clear()
        for number, handler in before.items():
            signal.signal(number, handler)


@functools.lru_cache(None)
def parent_words() -> List[str]:
    """Returns the arguments before a command that make Linux end it when this process ends in any way; none where there is no `setpriv` that can."""
    found = shutil.which('setpriv')
    words = [found, '--pdeathsig', 'KILL', '--'] if found else []
    try:
        can = bool(found) and subprocess.run([*words, 'true'], stdout=subprocess.DEVNULL, stderr=subprocess.DEVNULL).returncode == 0
    except OSError:
        can = False
    return words if can else []


def refuse_program(path: str) -> None:
    """Raises the error of starting a program that cannot be started."""
    if shutil.which(path) is None:
        number = errno.EACCES if os.path.exists(path) else errno.ENOENT
        raise OSError(number, os.strerror(number), path)


def run_watched(words: Sequence[str], watch: Callable[[str], None]) -> 'subprocess.CompletedProcess[str]':
    """Runs a program whose standard error is a terminal, so that it prints its progress, which `watch` gets. What it prints besides is returned."""
    try:
        ours, its = os.openpty()
    except OSError:
        # a system without /dev/pts
        return run_child(words, stdout=subprocess.PIPE, stderr=subprocess.PIPE)
    texts: List[str] = []

    def listen() -> None:
        with open(ours, 'rb', buffering=0) as file, contextlib.suppress(OSError):
            for block in iter(lambda: file.read(1 << 12), b''):
                texts.append(block.decode('utf-8', 'replace'))
                watch(texts[-1])

    listener = threading.Thread(target=listen, daemon=True)
    listener.start()
    try:
        done = run_child(words, stdout=subprocess.PIPE, stderr=its)
    finally:
        # the last one that has the terminal open ends it
        os.close(its)
        listener.join()
    lines = [line.rpartition('\r\x1b[K')[2].strip() for line in ''.join(texts).split('\n')]
    done.stderr = '\n'.join(line for line in lines if line)
    return done


def run_child(words: Sequence[str], **how: Any) -> 'subprocess.CompletedProcess[str]':
    """Runs a program as `subprocess.run` does, with text. It ends with this process, and when the run is stopped."""
    refuse_program(words[0])
    if STOPPED_BY:
        raise Stopped(STOPPED_BY[0])
    child = subprocess.Popen([*parent_words(), *words], text=True, errors='replace', **how)
    CHILDREN.add(child)
    try:
        said, errors = child.communicate()
    except BaseException:
        child.kill()
        child.wait()
        raise
    finally:
        CHILDREN.discard(child)
    if STOPPED_BY:
        raise Stopped(STOPPED_BY[0])
    return subprocess.CompletedProcess(words, child.returncode, said, errors)
