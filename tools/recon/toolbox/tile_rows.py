"""Rows of points in scaled units, on their way from files of any kind into files of their own, so that a scan of any size is cut in bounded memory.

Names: Rows (points in memory) · Spool (points in files) · ReadScan · spooled (reads a scan into a spool).
"""
from __future__ import annotations

import os
from dataclasses import dataclass
from decimal import Decimal
from typing import Any, Callable, Dict, Iterator, List, NamedTuple, Sequence

import numpy as np

from recon.library import Sights
from recon.tables import Gathering, silent
from recon.toolbox.blocks import Block, Column
from recon.toolbox.exact import differences
from recon.toolbox.ply_text import Refusal
from recon.toolbox.scan_feeds import reading_of
from recon.toolbox.scan_rows import scaled
from recon.toolbox.sieve import Mover
from recon.toolbox.text_columns import NotPlain
from recon.toolbox.tool import three

CHUNK = 1 << 19
SCALED_LIMIT, MOST_SIGHTS, MOST_WEIGHT = 2097151, 65535, 255
# how many times 2^-53 the product of a difference may err, and the size of what is safe to convert
ERROR, FARTHEST = 2.0 ** -50, 2.0 ** 60
ROW = np.dtype([('place', '<i4', 3), ('count', '<u2'), ('weight', 'u1')])
Told = Callable[[int], None]


class Rows(NamedTuple):
    """Points: a record of `ROW` each, and the numbers of the scanners that saw them, those of a point one after another."""
    table: np.ndarray
    scanners: np.ndarray

    def take(self, rows: np.ndarray) -> Rows:
        """Returns the points of these rows, in their order."""
        return Rows(self.table[rows], self.sights().take(rows).scanners)

    def sights(self) -> Sights:
        return Sights(self.table['count'].astype(np.int64), self.scanners)


def together(parts: Sequence[Rows]) -> Rows:
    """Returns the points of all parts."""
    return Rows(np.concatenate([part.table for part in parts]), np.concatenate([part.scanners for part in parts]))


class Spool:
    """Points in two files that rows are added to: the records, and the numbers of scanners."""

    def __init__(self, path: str) -> None:
        self.path, self.count = path, 0
        self.names = (path + '.rows', path + '.sights')
        self.clear()

    def clear(self) -> None:
        self.count = 0
        for name in self.names:
            with open(name, 'wb'):
                pass

    def add(self, rows: Rows) -> None:
        for name, values in zip(self.names, (rows.table, rows.scanners.astype('<i4'))):
            with open(name, 'ab') as file:
                values.tofile(file)
        self.count += len(rows.table)

    def parts(self) -> Iterator[Rows]:
        """Yields all points, some at a time."""
        with open(self.names[0], 'rb') as file, open(self.names[1], 'rb') as scanners:
            for start in range(0, self.count, CHUNK):
                table = np.fromfile(file, ROW, min(CHUNK, self.count - start))
                yield Rows(table, np.fromfile(scanners, '<i4', int(table['count'].sum(dtype=np.int64))))

    def sample(self, size: int, draw: np.random.Generator) -> Rows:
        """Returns some points, each as likely to be among them as any other, in an order of their own."""
        chosen = np.sort(draw.choice(self.count, min(size, self.count), replace=False))
        found, start = [], 0
        for part in self.parts():
            low, high = np.searchsorted(chosen, (start, start + len(part.table)))
            found.append(part.take(chosen[low:high] - start))
            start += len(part.table)
        rows = together(found)
        return rows.take(draw.permutation(len(rows.table)))

    def whole(self) -> Rows:
        return together([*self.parts(), Rows(np.zeros(0, ROW), np.zeros(0, '<i4'))])

    def remove(self) -> None:
        for name in self.names:
            os.unlink(name)


def scaled_words(words: List[str], start: Decimal, unit: int) -> np.ndarray:
    """Returns decimals minus the origin's, times the scale, rounded, halves away from zero; at most `FARTHEST`."""
    moved = words if not start else [difference for word in words for difference in differences([word], [start])]
    return np.array([max(-int(FARTHEST), min(int(FARTHEST), scaled(word, unit))) for word in moved], np.int64)


def scaled_column(column: Column, start: Decimal, unit: int, rows: np.ndarray) -> np.ndarray:
    """Returns the same of these rows of a column. A row whose product may be near a half is read as its decimal."""
    values = column.floats()[rows]
    size = np.abs(values - float(start)) * unit + 0.5
    most = (np.abs(values) + abs(float(start))) * unit + 1
    unsure = np.flatnonzero((np.abs(size - np.rint(size)) <= ERROR * most) | (most > FARTHEST))
    whole = np.floor(np.minimum(size, FARTHEST)).astype(np.int64)
    found = np.where(values < float(start), -whole, whole)
    if len(unsure):
        found[unsure] = scaled_words(column.words(rows[unsure]), start, unit)
    return found


@dataclass
class ReadScan:
    """What was read of a scan, in words, what was left out, and the positions of its scanners in scaled units (k, 3)."""
    read: str
    left_out: Dict[str, int]
    positions: np.ndarray
    has_weights: bool


class Spooling(Gathering):
    """The points of a source on their way into a spool."""

    def __init__(self, names: Sequence[str], options: Any, unit: int, spool: Spool, told: Told) -> None:
        super().__init__(names, without_origin(options), told)
        self.spool, self.unit = spool, unit
        self.start = [Decimal(word) for word in three(options.origin, 'origin')] if options.origin else [Decimal(0)] * 3
        self.mover = Mover(options.origin, None, str(unit))
        if not self.source.has_scanners:
            raise Refusal('no scanner positions in the file: pass positions=')

    def add(self, block: Block, rows: np.ndarray) -> None:
        table = np.zeros(len(rows), ROW)
        for axis, k in enumerate(self.source.point):
            table['place'][:, axis] = self.checked(scaled_column(block.columns[k], self.start[axis], self.unit, rows))
        weight, scanner = self.source.weight, self.source.scanner
        table['weight'] = 1 if weight is None else checked_weights(block.columns[weight].floats()[rows])
        assert scanner is not None
        self.add_sights(block.columns[scanner], rows)
        scanners = self.numbers.pop()
        counts = self.counts.pop() if self.source.has_lists else np.ones(len(rows), np.int64)
        if counts.max(initial=0) > MOST_SIGHTS:
            raise Refusal(f'a point has more than {MOST_SIGHTS:,} scanners')
        table['count'] = counts
        self.spool.add(Rows(table, scanners))
        self.count += len(rows)

    def checked(self, whole: np.ndarray) -> np.ndarray:
        """Returns scaled coordinates. Raises `Refusal` for one that `recon` would refuse as out of range."""
        far = whole[np.abs(whole) > SCALED_LIMIT]
        if len(far):
            raise Refusal(f'{far[0] / self.unit:g} times unit={self.unit} is out of range (over {SCALED_LIMIT}): use a smaller unit=, or an origin= '
                          'near the scan')
        return whole

    def told_of(self) -> ReadScan:
        """What was read."""
        positions = np.array([list(map(int, self.mover.moved(position))) for position in self.source.positions], object).reshape(-1, 3)
        counts = {**self.source.counts, **self.sieve.counts}
        return ReadScan(self.source.read(), counts, self.checked(positions).astype(np.int64), self.source.weight is not None)


def without_origin(options: Any) -> Any:
    """The options that say how a scan is read, without the origin, which is taken off later."""
    chosen = reading_of(options)
    setattr(chosen, 'origin', None)
    return chosen


def checked_weights(weights: np.ndarray) -> np.ndarray:
    wrong = weights[~((weights >= 1) & (weights <= MOST_WEIGHT))]
    if len(wrong):
        raise Refusal(f'the weight {wrong[0]:g} is out of range: 1 to {MOST_WEIGHT}')
    return weights.astype(np.uint8)


def spooled(names: Sequence[str], options: Any, unit: int, spool: Spool, told: Told = silent) -> ReadScan:
    """Reads a scan into a spool, by the names and options of `recon-scan`. `told` gets the number of points from time to time."""
    spooling = Spooling(names, options, unit, spool, told)
    try:
        spooling.run_blocks()
    except (NotPlain, Refusal):
        # row by row, which finds the places of errors
        spool.clear()
        spooling = Spooling(names, options, unit, spool, told)
        spooling.run()
    return spooling.told_of()

