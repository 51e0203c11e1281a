"""Points in blocks: some thousand rows at a time, as columns of numbers. All fast readers pass these on, to `recon-scan` and to `recon-surface`.

A column has its values twice, each when it is asked for: as numbers, and as words, which keep the digits of a text. Names: Column · Numbers (an array) ·
TextColumn (words of a text), Wholes (digits alone) · Bytes, Finite (colors, other values) · Scaled (whole numbers over a power of ten) · Lists (of scanners) · Block.
"""
from __future__ import annotations

from math import isfinite, nan
from typing import Sequence

import numpy as np

from recon.toolbox.exact import shifted
from recon.toolbox.ply_text import IS_NOT_FINITE, IS_NUMBER
from recon.toolbox.text_columns import EXACT, FieldRows, NotPlain

ROWS = 1 << 15
EXACT_POWER = 22


class Column:
    """A column of a block."""

    def floats(self) -> np.ndarray:
        """Returns the values (n,) as numbers; nan where one is not finite."""
        raise NotImplementedError

    def words(self, rows: np.ndarray | None = None) -> list[str]:
        """Returns the values as words, of all rows or of these."""
        raise NotImplementedError

    def decimals(self) -> tuple[np.ndarray, int]:
        """Returns the values as whole numbers over a power of ten, exactly. Raises `NotPlain` where they are none, or too long."""
        raise NotPlain


class Numbers(Column):
    """Values of an array. As words, those of floating point are the shortest ones that read back as the same number."""

    def __init__(self, values: np.ndarray) -> None:
        self.values = values

    def floats(self) -> np.ndarray:
        with np.errstate(invalid='ignore'):
            return self.values.astype(float)

    def words(self, rows: np.ndarray | None = None) -> list[str]:
        values = self.values if rows is None else self.values[rows]
        with np.errstate(invalid='ignore'):
            return list(map(repr, (values.astype(float) if values.dtype.kind == 'f' else values).tolist()))


class TextColumn(Column):
    """Words of a text, which stay as they are."""

    def __init__(self, text: FieldRows, column: int) -> None:
        self.text, self.column = text, column

    def floats(self) -> np.ndarray:
        return self.text.floats(self.column)

    def words(self, rows: np.ndarray | None = None) -> list[str]:
        return self.text.words(self.column, rows)

    def decimals(self) -> tuple[np.ndarray, int]:
        return self.text.decimals(self.column)


class Wholes(TextColumn):
    """Whole numbers of a text, of digits alone."""

    def floats(self) -> np.ndarray:
        return self.text.wholes(self.column)


class Bytes(Column):
    """Values that are rounded to whole numbers from 0 to 255, `most` of them to 255; 0 where one is no finite number."""

    def __init__(self, column: Column, most: float = 255.0) -> None:
        self.column, self.most = column, most

    def floats(self) -> np.ndarray:
        values = finite_floats(self.column) if self.most != 255 else plain_bytes(self.column)
        return values if values.dtype == np.uint8 else np.rint(np.clip(values / self.most * 255, 0, 255)).astype(np.uint8)

    def words(self, rows: np.ndarray | None = None) -> list[str]:
        return list(map(str, (self.floats() if rows is None else self.floats()[rows]).tolist()))


class Finite(Column):
    """Values as they stand, and 0 where one is no finite number."""

    def __init__(self, column: Column) -> None:
        self.column = column

    def floats(self) -> np.ndarray:
        return finite_floats(self.column)

    def words(self, rows: np.ndarray | None = None) -> list[str]:
        return list(map(finite_word, self.column.words(rows)))


def plain_bytes(column: Column) -> np.ndarray:
    """The values of a column as bytes, where all are whole numbers from 0 to 255; else as numbers, 0 where one is not finite."""
    try:
        values = column.floats()
        with np.errstate(invalid='ignore'):
            found = values.astype(np.uint8)
        if (found == values).all():
            return found
    except NotPlain:
        pass
    return finite_floats(column)


def finite_floats(column: Column) -> np.ndarray:
    """The values of a column, 0 where one is no finite number."""
    try:
        values = column.floats()
    except NotPlain:
        values = np.array(list(map(float, map(finite_word, column.words()))))
    return np.where(np.isfinite(values), values, 0)


def finite_word(word: str) -> str:
    """Returns a value as it stands, and 0 for one that is no finite number."""
    return word if IS_NUMBER(word) and isfinite(float(word)) else '0'


def number_of_word(word: str) -> float | None:
    """Returns the number that a word is, finite or not; None for another word."""
    return float(word) if IS_NUMBER(word) else nan if IS_NOT_FINITE(word) else None


def byte_word(word: str, most: float = 255.0) -> str:
    """Returns a part of a color as a whole number from 0 to 255; `most` becomes 255."""
    return str(round(min(max(float(finite_word(word)) / most * 255, 0), 255)))


class Scaled(Column):
    """Whole numbers, each over the same power of ten."""

    def __init__(self, whole: np.ndarray, places: int) -> None:
        self.whole, self.places = whole, places

    def floats(self) -> np.ndarray:
        if self.places > EXACT_POWER or len(self.whole) and int(np.abs(self.whole).max()) > EXACT:
            raise NotPlain
        return np.asarray(self.whole / 10.0 ** self.places)

    def words(self, rows: np.ndarray | None = None) -> list[str]:
        found = [shifted(value, self.places) for value in (self.whole if rows is None else self.whole[rows]).tolist()]
        return [word or '' for word in found]

    def decimals(self) -> tuple[np.ndarray, int]:
        return self.whole, self.places


class Lists(Column):
    """A list of scanners for each row: how many they are, and the numbers of all lists, one after another. As a number, the last one of the list."""

    def __init__(self, counts: np.ndarray, numbers: np.ndarray) -> None:
        self.counts, self.numbers, self.ends = counts, numbers, np.cumsum(counts)

    def floats(self) -> np.ndarray:
        return np.where(self.counts > 0, np.append(self.numbers, 0)[self.ends - 1], 0).astype(float)

    def words(self, rows: np.ndarray | None = None) -> list[str]:
        lists, words = self if rows is None else self.taken(rows), []
        numbers, start = list(map(str, lists.numbers.tolist())), 0
        for count, end in zip(lists.counts.tolist(), lists.ends.tolist()):
            words.append(' '.join([str(count), *numbers[start:end]]))
            start = end
        return words

    def taken(self, rows: np.ndarray) -> Lists:
        """Returns the lists of these rows."""
        counts = self.counts[rows]
        ends = np.cumsum(counts)
        return Lists(counts, self.numbers[np.repeat(self.ends[rows] - ends, counts) + np.arange(int(counts.sum()))])


class Block:
    """Rows of points: their columns, in the order of the file or of the source that passes them on, and which rows are left out, of those whose places
    are finite; the source has counted these."""

    def __init__(self, columns: Sequence[Column], count: int, left_out: np.ndarray | None = None) -> None:
        self.columns, self.count, self.left_out = list(columns), count, left_out

    def taken(self, order: Sequence[int]) -> Block:
        """Returns the same rows with these columns."""
        return Block([self.columns[k] for k in order], self.count)


def constant(value: int, count: int) -> Column:
    """Returns a column of equal whole numbers."""
    return Numbers(np.full(count, value, np.int64))


def finite_points(block: Block, point: Sequence[int] = (0, 1, 2)) -> np.ndarray:
    """Returns the places (k, 3) of a block that are finite."""
    places = np.stack([block.columns[k].floats() for k in point], axis=1)
    return places[np.isfinite(places).all(axis=1)]
