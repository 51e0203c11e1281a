"""What happens to points between a source and the file that is written: some are left out, and an origin is taken off the others.

Names: Mover (takes an origin off) · Sieve (that, and leaves out what lies outside a box or in a cube that has a point) ·
Passage (rows on their way) · Cubes (a set of numbers) · Box (the least box around points).
"""
from __future__ import annotations

from array import array
from decimal import Decimal
from math import floor, isfinite
from typing import Any, Callable, Sequence, Union

import numpy as np

from recon.toolbox.blocks import Block, Column
from recon.toolbox.exact import WIDE, differences, shifted, text
from recon.toolbox.ply_text import IS_NUMBER, Refusal
from recon.toolbox.scan_rows import scaled
from recon.toolbox.sources import Source
from recon.toolbox.text_columns import MOST_WHOLE, NotPlain
from recon.toolbox.tool import three, whole, yes

HALF, FARTHEST = 1 << 20, 2.0 ** 62
MOST_PLACES, MOST_INTEGER = 18, (1 << 63) - 1
POWERS = [str(10 ** k) for k in range(10)]
SPREAD = 0x9E3779B97F4A7C15
MASK = (1 << 64) - 1
SIEVING = ('from', 'to', 'outside', 'side', 'surround')


class Cubes:
    """A set of numbers from 1 to 2^63, eight bytes a place, a third of the places free."""

    def __init__(self) -> None:
        self.bits, self.count = 16, 0
        self.places = array('Q', bytes(8 << self.bits))

    def place_of(self, number: int) -> int:
        """Returns where the number stands, or the free place where it belongs."""
        places, last = self.places, (1 << self.bits) - 1
        place = (number * SPREAD & MASK) >> (64 - self.bits)
        while places[place] and places[place] != number:
            place = (place + 1) & last
        return place

    def add(self, number: int) -> bool:
        """Takes in the number; False where it was there."""
        place = self.place_of(number)
        if self.places[place]:
            return False
        self.places[place] = number
        self.count += 1
        if self.count * 3 > 2 << self.bits:
            self.grow()
        return True

    def add_all(self, numbers: np.ndarray) -> np.ndarray:
        """Takes in numbers (n,), and returns which were not there, of equal ones the first."""
        different, first = np.unique(numbers.astype(np.uint64), return_index=True)
        while (self.count + len(different)) * 3 > 2 << self.bits:
            self.grow()
        is_new = np.zeros(len(numbers), bool)
        is_new[first] = self.put_all(different)
        self.count += int(np.count_nonzero(is_new))
        return is_new

    def put_all(self, numbers: np.ndarray) -> np.ndarray:
        """Puts different numbers into their places, and returns which were not there."""
        table, last = np.frombuffer(self.places, np.uint64), np.uint64((1 << self.bits) - 1)
        places = (numbers * np.uint64(SPREAD)) >> np.uint64(64 - self.bits)
        is_new, left = np.zeros(len(numbers), bool), np.arange(len(numbers))
        while len(left):
            at, wanted = places[left].astype(np.int64), numbers[left]
            is_free = table[at] == 0
            table[at[is_free]] = wanted[is_free]
            is_there = table[at] == wanted
            is_new[left[is_free & is_there]] = True
            left = left[~is_there]
            places[left] = (places[left] + np.uint64(1)) & last
        return is_new

    def grow(self) -> None:
        before = np.frombuffer(self.places, np.uint64)
        self.bits += 1
        self.places = array('Q', bytes(8 << self.bits))
        self.put_all(before[before > 0])


class Box:
    """The least box around the points that were shown to it."""

    def __init__(self) -> None:
        self.low, self.high, self.count = [float('inf')] * 3, [float('-inf')] * 3, 0

    def show(self, x: float, y: float, z: float) -> bool:
        self.low = [min(end, word) for end, word in zip(self.low, (x, y, z))]
        self.high = [max(end, word) for end, word in zip(self.high, (x, y, z))]
        self.count += 1
        return True

    def show_all(self, points: np.ndarray) -> None:
        """Shows points (n, 3) to it."""
        if len(points):
            self.low = [min(end, float(points[:, k].min())) for k, end in enumerate(self.low)]
            self.high = [max(end, float(points[:, k].max())) for k, end in enumerate(self.high)]
            self.count += len(points)

    def spacing(self) -> float:
        """About how far points are apart, if they lie on the sides of the box."""
        a, b, c = (high - low for low, high in zip(self.low, self.high))
        return (2 * (a * b + b * c + c * a) / max(self.count, 1)) ** 0.5

    def corner(self, number: int, off: float) -> list[str]:
        """Returns a corner of the box that stands so far off."""
        return [repr(self.high[k] + off if number >> k & 1 else self.low[k] - off) for k in range(3)]


def length_of(word: str, key: str, what: str) -> float:
    """Returns the value of an option that is a length."""
    if not IS_NUMBER(word) or not 0 < float(word) or not isfinite(float(word)):
        raise Refusal(f'{key}= ({what}) must be a number greater than 0')
    return float(word)


class OneACube:
    """Chooses the first point in each cube of this side."""

    def __init__(self, side: float) -> None:
        self.side, self.cubes = side, Cubes()
        self.first: list[int] = []

    def __call__(self, x: float, y: float, z: float) -> bool:
        i, j, k = floor(x / self.side), floor(y / self.side), floor(z / self.side)
        if not self.first:
            self.first.extend((i - HALF, j - HALF, k - HALF))
        i, j, k = i - self.first[0], j - self.first[1], k - self.first[2]
        if i >> 21 or j >> 21 or k >> 21:
            raise Refusal('more than 1,048,576 cubes between two points: use a larger side')
        return self.cubes.add((i << 42 | j << 21 | k) + 1)

    def of_all(self, points: np.ndarray) -> np.ndarray:
        """Returns the same of points (n, 3). Raises `NotPlain` where it raises an error."""
        cubes = np.floor(points / self.side)
        if not len(points):
            return np.zeros(0, bool)
        if not np.abs(cubes).max() < FARTHEST:
            raise NotPlain
        numbers = cubes.astype(np.int64)
        if not self.first:
            self.first.extend((numbers[0] - HALF).tolist())
        numbers -= np.array(self.first)
        if int(numbers.min()) < 0 or int(numbers.max()) >> 21:
            raise NotPlain
        return self.cubes.add_all((numbers[:, 0] << 42 | numbers[:, 1] << 21 | numbers[:, 2]) + 1)


class InBox:
    """Chooses the points that lie in a box, or outside of it."""

    def __init__(self, start: str | None, end: str | None, outside: bool) -> None:
        if start is None or end is None:
            raise Refusal('from= and to= are required together: they are two corners of a box')
        self.low, self.high = [[float(word) for word in three(text, key)] for text, key in ((start, 'from'), (end, 'to'))]
        self.outside = outside
        if any(low > high for low, high in zip(self.low, self.high)):
            raise Refusal('each coordinate of from= must be at most that of to=')

    def __call__(self, x: float, y: float, z: float) -> bool:
        (low_x, low_y, low_z), (high_x, high_y, high_z) = self.low, self.high
        return (low_x <= x <= high_x and low_y <= y <= high_y and low_z <= z <= high_z) != self.outside

    def of_all(self, points: np.ndarray) -> np.ndarray:
        """Returns the same of points (n, 3)."""
        inside = [(self.low[k] <= points[:, k]) & (points[:, k] <= self.high[k]) for k in range(3)]
        return np.asarray((inside[0] & inside[1] & inside[2]) != self.outside)


class Shown:
    """Shows points to a box, and chooses all."""

    def __init__(self, box: Box) -> None:
        self.box = box

    def __call__(self, x: float, y: float, z: float) -> bool:
        return self.box.show(x, y, z)

    def of_all(self, points: np.ndarray) -> np.ndarray:
        """Shows points (n, 3)."""
        self.box.show_all(points)
        return np.ones(len(points), bool)


Test = Union[InBox, OneACube, Shown]


def places_of(divide: str | None) -> int:
    """By how many decimal places the option shifts coordinates."""
    if divide is None:
        return 0
    if divide not in POWERS:
        raise Refusal('divide= must be a power of ten, from 10 to 1000000000')
    return POWERS.index(divide)


class Mover:
    """Takes an origin off places, where there is one, and then divides them by a power of ten."""

    def __init__(self, origin: str | None, divide: str | None = None, unit: str | None = None) -> None:
        self.origin = [Decimal(word) for word in three(origin, 'origin')] if origin else None
        self.places = places_of(divide)
        self.unit = whole(unit, 'unit', 1, 1_000_000) if unit else 0
        self.moves = self.origin is not None or self.places > 0 or self.unit > 0
        self.tests: list[tuple[Test, str]] = []
        self.counts: dict[str, int] = {}

    def moved(self, words: Sequence[str]) -> list[str]:
        moved = list(words) if self.origin is None else differences(words, self.origin)
        moved = [text(WIDE.scaleb(Decimal(word), -self.places)) for word in moved] if self.places else moved
        return [str(scaled(word, self.unit)) for word in moved] if self.unit else moved

    def takes(self, x: float, y: float, z: float) -> bool:
        """Returns whether a point is kept. What is left out is counted."""
        for test, why in self.tests:
            if not test(x, y, z):
                self.counts[why] += 1
                return False
        return True

    def kept(self, source: Source, block: Block) -> np.ndarray:
        """Returns the rows of a block that are kept. What is left out is counted, points that are not finite by their source."""
        point = [block.columns[k].floats() for k in source.point]
        are_finite = np.isfinite(point[0]) & np.isfinite(point[1]) & np.isfinite(point[2])
        source.counts['not finite'] += block.count - int(np.count_nonzero(are_finite))
        rows = np.flatnonzero(are_finite if block.left_out is None else are_finite & ~block.left_out)
        for test, why in self.tests:
            chosen = test.of_all(np.stack([column[rows] for column in point], axis=1))
            self.counts[why] += len(rows) - int(np.count_nonzero(chosen))
            rows = rows[chosen]
        return rows

    def moved_words(self, columns: Sequence[Column], rows: np.ndarray | None) -> list[list[str]]:
        """Returns the coordinates of these rows, moved, as words: x, y and z."""
        if not self.moves:
            return [column.words(rows) for column in columns]
        try:
            return [self.moved_decimals(column, axis, rows) for axis, column in enumerate(columns)]
        except NotPlain:
            words = zip(*(column.words(rows) for column in columns))
            return [list(column) for column in zip(*map(self.moved, words))] or [[], [], []]

    def moved_decimals(self, column: Column, axis: int, rows: np.ndarray | None) -> list[str]:
        """The same of a coordinate by whole numbers. Raises `NotPlain` where these are too large."""
        values, places = column.decimals()
        values = values if rows is None else values[rows]
        start = self.origin[axis] if self.origin is not None else Decimal(0)
        most = max(places, -int(start.as_tuple().exponent))
        off = int(WIDE.scaleb(start, most))
        if max(abs(off), int(np.abs(values).max(initial=0)) * 10 ** (most - places)) > MOST_WHOLE:
            raise NotPlain
        moved = values * 10 ** (most - places) - off
        return [shifted(value, most + self.places) or '' for value in moved.tolist()] if not self.unit else self.rounded(moved, most + self.places)

    def rounded(self, values: np.ndarray, places: int) -> list[str]:
        """Whole numbers over a power of ten times the scale, rounded, halves away from zero."""
        one = 10 ** min(places, MOST_PLACES)
        if places > MOST_PLACES or 2 * int(np.abs(values).max(initial=0)) * self.unit + one > MOST_INTEGER:
            raise NotPlain
        units = (2 * np.abs(values) * self.unit + one) // (2 * one)
        return list(map(str, np.where(values < 0, -units, units).tolist()))


def given(options: Any, key: str) -> str | None:
    """The value of an option that a program may not have."""
    value: str | None = getattr(options, key, None)
    return value


class Sieve(Mover):
    """The options that leave points out, and the box around those that are left, where one is asked for."""

    def __init__(self, options: Any) -> None:
        super().__init__(options.origin, given(options, 'divide'), given(options, 'unit'))
        if given(options, 'from_') or given(options, 'to') or given(options, 'outside'):
            outside = yes(given(options, 'outside'), 'outside')
            self.test(InBox(options.from_, options.to, outside), 'inside the box' if outside else 'outside the box')
        if given(options, 'side'):
            self.test(OneACube(length_of(options.side, 'side', 'the side of a cube')), 'in a cube that already has a point')
        self.box, self.off = Box(), 0.0
        if given(options, 'surround'):
            self.off = length_of(options.surround, 'surround', 'the distance of the eight points')
            self.test(Shown(self.box), 'outside the box')

    def test(self, test: Test, why: str) -> None:
        self.tests.append((test, why))
        self.counts[why] = 0


class Passage:
    """Rows on their way from a source to whatever writes them: `row` takes a row if it is one to be kept, and `put` takes one that
    `takes` has said yes to."""

    def __init__(self, source: Source, mover: Mover, write: Callable[[list[str]], None]) -> None:
        self.point, self.mover, self.write = source.point, mover, write
        self.put: Callable[[list[str]], None] = self.put_moved if mover.moves else write
        self.row: Callable[[list[str]], None] = self.sift if mover.tests else self.put

    def takes(self, words: Sequence[str]) -> bool:
        x, y, z = self.point
        return self.mover.takes(float(words[x]), float(words[y]), float(words[z]))

    def put_moved(self, words: list[str]) -> None:
        x, y, z = self.point
        words[x], words[y], words[z] = self.mover.moved((words[x], words[y], words[z]))
        self.write(words)

    def sift(self, words: list[str]) -> None:
        if self.takes(words):
            self.put(words)
