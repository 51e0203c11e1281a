"""Points of a text in blocks, brought to where they are by a matrix of decimals: exactly, as `exact.Pose` does it row by row.

Sums are taken with 64 bits, and rounded to 53. Where the bits that are left out are so near the middle between two numbers that the error of the sum
decides, the row is computed exactly. Names: PosedRows · point_columns.
"""
from __future__ import annotations

from decimal import Decimal
from typing import Any, Sequence

import numpy as np

from recon.toolbox.blocks import Column, TextColumn
from recon.toolbox.exact import OVER_30_DIGITS, WIDE, Pose, shifted
from recon.toolbox.text_columns import IS_LONG, FieldRows, NotPlain, TextRows

# of a sum of three products and a number, each of numbers rounded once, in parts of the sum of their sizes, which is itself a little wrong
ERROR = 6.001 * 2.0 ** -64
MANTISSA = (1 << 52) - 1


class PosedRows(TextRows):
    """Rows of a text with their coordinates moved, each computed when it is asked for: `posed` asks for a coordinate, and `zeros` for which points are
    0 0 0 before that."""

    def __init__(self, part: bytes, width: int, pose: Pose) -> None:
        if not IS_LONG:
            raise NotPlain
        super().__init__(part, width, is_ragged=True)
        self.pose = pose
        self.before: list[np.ndarray] | None = None
        self.whole: list[np.ndarray] | None = None
        self.places = [0, 0, 0]
        self.known: tuple[np.ndarray | None, list[list[str]]] | None = None

    def find(self, what: str, column: int) -> Any:
        if what == 'posed':
            return self.posed(column)
        return at_zero(self.as_they_stand()) if what == 'zeros' else super().find(what, column)

    def as_they_stand(self) -> list[np.ndarray]:
        """Returns the coordinates as they stand in the text, with 64 bits: whole numbers over powers of ten, where they are such, and else rounded."""
        if self.before is None:
            try:
                found = [self.find_decimals(column) for column in range(3)]
                self.whole, self.places = [whole for whole, _ in found], [places for _, places in found]
                self.before = [whole.astype(np.longdouble) for whole in self.whole]
            except NotPlain:
                self.before = [self.find_longs(column) for column in range(3)]
        return self.before

    def posed(self, axis: int) -> np.ndarray:
        """Returns a coordinate of all points."""
        columns = self.as_they_stand()
        factors = [long_of(WIDE.scaleb(row[axis], -places)) for row, places in zip(self.pose.matrix, [*self.places, 0])]
        total = columns[0] * factors[0]
        total += columns[1] * factors[1]
        total += columns[2] * factors[2]
        total += factors[3]
        values = total.astype(float)
        total -= values
        left, size = np.abs(total.astype(float)), np.full(len(values), abs(float(factors[3])))
        for column, factor in zip(columns, factors):
            size += np.abs(column.astype(float)) * abs(float(factor))
        half = np.spacing(np.abs(values)) / 2
        is_power = values.view(np.int64) & MANTISSA == 0
        near = np.flatnonzero((np.abs(left - half) <= ERROR * size) | is_power)
        if len(near):
            values[near] = self.exact(axis, near)
        return values

    def exact(self, axis: int, rows: np.ndarray) -> list[float]:
        """Returns a coordinate of some points, of sums of whole numbers where these are known."""
        totals = self.totals(axis, rows)
        if not totals:
            return [float(words[axis]) for words in self.moved(rows)]
        over = 10 ** (max(self.places) + self.pose.places)
        return [total / over for total in totals]

    def totals(self, axis: int, rows: np.ndarray | None) -> list[int]:
        """Returns a coordinate of these rows as whole numbers over a power of ten; none where one has over 30 digits, or the text has none."""
        self.as_they_stand()
        if self.whole is None:
            return []
        most = max(self.places)
        a, b, c, d = (row[axis] * 10 ** (most - places) for row, places in zip(self.pose.whole, [*self.places, 0]))
        columns = ((column if rows is None else column[rows]).tolist() for column in self.whole)
        totals = [x * a + y * b + z * c + d for x, y, z in zip(*columns)]
        return totals if all(-OVER_30_DIGITS < total < OVER_30_DIGITS for total in totals) else []

    def moved(self, rows: np.ndarray) -> list[list[str]]:
        """The coordinates of some points as words, exactly."""
        return list(map(self.pose.transform, zip(*(self.words_of(column, rows) for column in range(3)))))

    def posed_words(self, axis: int, rows: np.ndarray | None) -> list[str]:
        """The fields of a coordinate of these rows, or of all."""
        totals = self.totals(axis, rows)
        if totals:
            places = max(self.places) + self.pose.places
            return [shifted(total, places) or '' for total in totals]
        if self.known is None or self.known[0] is not rows:
            wanted = np.arange(self.count) if rows is None else rows
            self.known = rows, [list(column) for column in zip(*self.moved(wanted))] or [[], [], []]
        return self.known[1][axis]


class PosedColumn(Column):
    """A coordinate of points that were moved."""

    def __init__(self, rows: FieldRows, axis: int) -> None:
        self.rows, self.axis = rows, axis

    def floats(self) -> np.ndarray:
        return np.asarray(self.rows.ask('posed', self.axis))

    def words(self, rows: np.ndarray | None = None) -> list[str]:
        return list(self.rows.to_words(rows).posed_words(self.axis, rows))


def long_of(value: Decimal) -> np.longdouble:
    """Returns the number of 64 bits that is nearest to a decimal."""
    return np.longdouble(str(value))


def point_columns(rows: FieldRows, is_posed: bool) -> tuple[Sequence[Column], np.ndarray]:
    """Returns the coordinates of a block, and which points are 0 0 0 before they are moved."""
    if is_posed:
        return [PosedColumn(rows, axis) for axis in range(3)], np.asarray(rows.ask('zeros', 0))
    columns = [TextColumn(rows, column) for column in range(3)]
    return columns, at_zero([column.floats() for column in columns])


def at_zero(columns: Sequence[np.ndarray]) -> np.ndarray:
    """Which rows of columns are 0."""
    return np.asarray((columns[0] == 0) & (columns[1] == 0) & (columns[2] == 0))
