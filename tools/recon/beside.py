"""What `recon-surface` does while the mesh is finished: `recon check`, and the SHA-256 of scan, mesh and certificate.

Names: Beside.
"""
from __future__ import annotations

import hashlib
import time
from concurrent.futures import Future, ThreadPoolExecutor
from pathlib import Path
from types import TracebackType
from typing import Any, Callable, Optional, Type

from recon.library import Surface
from recon.toolbox.stopping import stop_children


def digest(path: Path) -> str:
    """The SHA-256 of a file."""
    total = hashlib.sha256()
    with open(path, 'rb') as file:
        for block in iter(lambda: file.read(1 << 20), b''):
            total.update(block)
    return total.hexdigest()


class Beside:
    """A check and checksums that run beside what the block under `with` does, which does not end before they have. If the block fails, they are stopped."""

    def __init__(self, surface: Surface, is_checked: bool) -> None:
        self.pool = ThreadPoolExecutor(3)
        self.check: Optional[Future[float]] = self.pool.submit(self.timed_check, surface) if is_checked else None
        self.sums = self.pool.submit(lambda: {name: digest(surface.folder / name) for name in surface.files()})

    def start(self, work: Callable[..., None], *names: str, **given: Any) -> Future[None]:
        """Starts something else beside what follows; its `result` waits for it, and raises what it raised."""
        return self.pool.submit(work, *names, **given)

    @staticmethod
    def timed_check(surface: Surface) -> float:
        """Verifies the surface, and returns the seconds that it took."""
        begun = time.monotonic()
        surface.check()
        return time.monotonic() - begun

    def digests(self) -> dict[str, str]:
        """The SHA-256 of scan, mesh and certificate, by their names."""
        return self.sums.result()

    def checked(self) -> float | None:
        """Waits for the check, and returns the seconds that it took; None where none was asked for. Raises `Refused` if it failed."""
        return None if self.check is None else self.check.result()

    def __enter__(self) -> Beside:
        return self

    def __exit__(self, kind: Optional[Type[BaseException]], error: Optional[BaseException], trace: Optional[TracebackType]) -> None:
        if kind is not None:
            stop_children()
        self.pool.shutdown()
