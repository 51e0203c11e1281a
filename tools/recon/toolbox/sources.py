"""Points on their way out of files, whatever these are: what all sources of points have in common.

A source passes rows of tokens to a receiver (sieve.Passage), one a point. Names: Source · scan_columns (those of points that have a
place and a scanner alone) · READING (the options that say how files are read) · refuse_others.
"""
from __future__ import annotations

from typing import TYPE_CHECKING, Any, Iterator, Sequence

import numpy as np

from recon.toolbox.ply_text import Property, Refusal
from recon.toolbox.text_columns import NotPlain
from recon.toolbox.tool import number_of

if TYPE_CHECKING:
    from recon.toolbox.blocks import Block
    from recon.toolbox.sieve import Mover, Passage

READING = ('scanner', 'table', 'index', 'positions', 'position', 'images', 'normals', 'far', 'above', 'flight', 'open_end')


def scan_columns() -> list[Property]:
    """Returns the columns of points that have a place and a scanner alone."""
    return [Property(axis, 'double') for axis in 'xyz'] + [Property('scanner', 'int')]


class Source:
    """Points of files. `columns` are those of its rows, `point` the places of x, y and z among them, `scanner` that of the
    number of the scanner, or None, and `weight` that of the weight, or None. When all points have gone, `positions` are the
    places of the scanners, `count` is how many points the files have, and `counts` is what was left out."""
    has_scanners = True
    has_lists = False

    def __init__(self, columns: list[Property], what: str) -> None:
        self.columns, self.what = columns, what
        self.point: Sequence[int] = (0, 1, 2)
        self.scanner: int | None = 3
        self.weight: int | None = None
        self.positions: list[Sequence[str]] = []
        self.count = 0
        self.counts: dict[str, int] = {'not finite': 0}

    def run(self, receiver: Passage) -> None:
        """Passes on all rows."""
        raise NotImplementedError

    def blocks(self) -> Iterator[Block]:
        """Yields all rows in blocks, which is faster than `run`. Raises `NotPlain`, also after some blocks, where only that reads them; errors without
        their place are of this kind too."""
        raise NotPlain

    def kept_blocks(self, mover: Mover) -> Iterator[tuple[Block, np.ndarray]]:
        """Yields the same, each with the numbers of the rows that are kept."""
        for block in self.blocks():
            yield block, mover.kept(self, block)

    def close(self) -> None:
        """Closes the files of a source that is not read to its end."""

    def read(self) -> str:
        """Returns what was read, in words."""
        return f'read {number_of(self.count, "point")} of {self.what}'

    def remark(self) -> str:
        """Returns what else is to be said at the end."""
        return ''


def refuse_others(options: Any, mine: Sequence[str], what: str) -> None:
    """Refuses options that say how other files are read."""
    for key in READING:
        if key not in mine and getattr(options, key) is not None:
            raise Refusal(f'{key}= cannot be used with {what}')
