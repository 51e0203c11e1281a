"""Positions of airborne scans, since LAS and lists of points have none: along a flight with known times and positions,
or made up, far above the points.

Names: Flight (a table of times and positions) · Above (the made-up position).
"""
from __future__ import annotations

from bisect import bisect_right
from math import isfinite

import numpy as np

from recon.toolbox.ply_text import IS_NUMBER, SCANNER_LIMIT, Refusal
from recon.toolbox.sieve import Box

TIMES = ('gpstime', 'gps_time', 'scalar_gpstime', 'scalar_gps_time', 'time')
FINEST = 64
FARTHEST = 1e300
WIDTHS = 3


class Flight:
    """A text of lines `TIME X Y Z`, times ascending, that says where the scanner was. Between two lines it flew straight; of a
    table that is longer than a scan has positions, every second, third or further line is taken."""

    def __init__(self, path: str) -> None:
        self.times: list[float] = []
        self.places: list[list[float]] = []
        self.read(path)
        step = -(-len(self.times) // SCANNER_LIMIT)
        if len(self.times) < 2:
            raise Refusal(f'{path} has fewer than two lines TIME X Y Z')
        self.times, self.places = self.times[::step], self.places[::step]
        self.parts = min(FINEST, max(1, SCANNER_LIMIT // len(self.times)))
        self.numbers: dict[int, str] = {}
        self.table = np.full(len(self.times) * self.parts + 1, -1)
        self.positions: list[list[str]] = []

    def read(self, path: str) -> None:
        with open(path, encoding='latin-1') as file:
            for number, line in enumerate(file, 1):
                words = line.replace(',', ' ').split()
                if not words or words[0].startswith('#'):
                    continue
                values = list(map(float, words[:4])) if all(map(IS_NUMBER, words[:4])) else []
                if len(values) < 4 or not all(abs(value) < FARTHEST for value in values):
                    raise Refusal(f'line {number} of {path} is not TIME X Y Z')
                if self.times and values[0] <= self.times[-1]:
                    raise Refusal(f'line {number} of {path}: the time is not later than that of the line before')
                self.times.append(values[0])
                self.places.append(values[1:])

    def number(self, word: str) -> str | None:
        """Returns the number of the position at a time, or None where the flight was not on then."""
        time = float(word) if IS_NUMBER(word) else float('nan')
        if not self.times[0] <= time <= self.times[-1]:
            return None
        row = min(bisect_right(self.times, time) - 1, len(self.times) - 2)
        return self.number_on(row, round((time - self.times[row]) / (self.times[row + 1] - self.times[row]) * self.parts))

    def all_numbers(self, times: np.ndarray) -> np.ndarray:
        """Returns the same for times (n,): -1 where the flight was not on."""
        known = np.flatnonzero((times >= self.times[0]) & (times <= self.times[-1]))
        numbers, lines = np.full(len(times), -1), np.array(self.times)
        rows = np.minimum(np.searchsorted(lines, times[known], 'right') - 1, len(lines) - 2)
        parts = np.rint((times[known] - lines[rows]) / (lines[rows + 1] - lines[rows]) * self.parts).astype(np.int64)
        keys = rows * self.parts + parts
        new = np.flatnonzero(self.table[keys] < 0)
        for k in new[np.sort(np.unique(keys[new], return_index=True)[1])].tolist():
            self.table[keys[k]] = int(self.number_on(int(rows[k]), int(parts[k])))
        numbers[known] = self.table[keys]
        return numbers

    def number_on(self, row: int, part: int) -> str:
        """Returns the number of the position after `part` parts of the way from a line to the next."""
        key = row * self.parts + part
        if key not in self.numbers:
            self.numbers[key] = str(len(self.positions))
            share = part / self.parts
            ends = zip(self.places[row], self.places[row + 1])
            self.positions.append([repr(round(start + share * (end - start), 6)) for start, end in ends])
        return self.numbers[key]


class Above:
    """A position three widths above the middle of all points."""

    def __init__(self) -> None:
        self.box = Box()

    def position(self) -> list[str]:
        """Returns the position, once all points were shown to the box."""
        low, high = self.box.low, self.box.high
        wide = max(high[0] - low[0], high[1] - low[1])
        place = [(low[0] + high[0]) / 2, (low[1] + high[1]) / 2, high[2] + WIDTHS * wide] if self.box.count else [0.0] * 3
        if not all(map(isfinite, place)):
            raise Refusal('a coordinate is out of range')
        return [format(x, '.12g') for x in place]

    def remark(self) -> str:
        return '; synthesised scanner position: 3 widths above the middle of the points'
