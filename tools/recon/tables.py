"""Scans as arrays: all that `recon-scan` reads, read once, in blocks, without a file in between.

Names: Table (points, who saw them, colors, normals, weights) · read_table.
"""
from __future__ import annotations

from typing import Any, Callable, Dict, List, NamedTuple, Sequence

import numpy as np

from recon.library import Sights
from recon.toolbox.blocks import Block, Column, Lists, number_of_word
from recon.toolbox.ply_text import Refusal
from recon.toolbox.scan_source import source_of
from recon.toolbox.sieve import Passage, Sieve
from recon.toolbox.sources import READING, Source
from recon.toolbox.text_columns import NotPlain
from recon.toolbox.text_layout import COLORS, INTENSITY
from recon.toolbox.tool import Options, field, left_out

KEYS = READING + ('origin', 'divide', 'unit', 'from', 'to', 'outside', 'side', 'surround')
NORMALS = [[start + axis for axis in 'xyz'] for start in ('n', 'normal_')]
WANTED = {*COLORS, INTENSITY, 'weight', *NORMALS[0], *NORMALS[1]}
BATCH = 1 << 14
# the shares of intensities that become black and white
DARK, BRIGHT = 1, 99
SAMPLE = 100_000
Told = Callable[[int], None]


class Table(NamedTuple):
    """A scan: columns by name in lower case, (n,) each, lists of scanners, and the scanners' positions (k, 3)."""
    columns: Dict[str, np.ndarray]
    sights: Sights | None
    scanners: np.ndarray | None

    def points(self) -> np.ndarray:
        return np.stack([self.columns[axis] for axis in 'xyz'], axis=1)

    def normals(self) -> np.ndarray | None:
        """The columns nx, ny, nz or normal_x, .., if they are there."""
        for names in NORMALS:
            if all(name in self.columns for name in names):
                return np.stack([self.columns[name] for name in names], axis=1)
        return None

    def colors(self) -> np.ndarray | None:
        """Red, green and blue as bytes; of 16 bits the upper eight, of parts of 1 their 255-fold. Where there are none, or all are black, intensity as
        gray if there is one."""
        gray = gray_of(self.columns[INTENSITY]) if INTENSITY in self.columns and not have_light(self.columns) else None
        if gray is not None or not all(name in self.columns for name in COLORS):
            return gray
        columns = [self.columns[name] for name in COLORS]
        if all(column.dtype == np.uint8 for column in columns):
            return np.stack(columns, axis=1)
        values = np.nan_to_num(np.stack(columns, axis=1).astype(float))
        most = float(values.max(initial=0))
        factor = 1 / 257 if most > 255 else 255.0 if 0 < most <= 1 and bool((values % 1 != 0).any()) else 1.0
        return np.clip(np.floor(values * factor + 1e-9), 0, 255).astype(np.uint8)


def have_light(columns: Dict[str, np.ndarray]) -> bool:
    """Returns whether columns have colors that are not all black. If all are, a program may have written a format with colors of points without any, and
    intensity says more."""
    return all(name in columns for name in COLORS) and any(bool(columns[name].any()) for name in COLORS)


def gray_of(intensity: np.ndarray) -> np.ndarray | None:
    """Intensities as colors (n, 3): from black to white between those that one in a hundred is below and above. None where all are equal."""
    values = np.nan_to_num(intensity.astype(float))
    if not len(values):
        return None
    some = values[::max(1, len(values) // SAMPLE)]
    dark, bright = np.percentile(some, DARK), np.percentile(some, BRIGHT)
    if dark == bright:
        dark, bright = values.min(), values.max()
    if not bright > dark:
        return None
    gray = np.rint(np.clip((values - dark) / (bright - dark), 0, 1) * 255).astype(np.uint8)
    return np.repeat(gray[:, None], 3, axis=1)


class WordColumn(Column):
    """Words of rows that were read one by one; `first` is the number of the first row."""

    def __init__(self, words: Sequence[str], name: str, first: int) -> None:
        self.text, self.name, self.first = words, name, first

    def floats(self) -> np.ndarray:
        values = list(map(number_of_word, self.text))
        wrong = next((row for row, value in enumerate(values) if value is None), None)
        if wrong is not None:
            raise Refusal(f'{self.name} of point {self.first + wrong} is not a number')
        return np.array(values, float)

    def words(self, rows: np.ndarray | None = None) -> list[str]:
        return list(self.text) if rows is None else [self.text[row] for row in rows.tolist()]


class Gathering:
    """The points of a source on their way into arrays."""

    def __init__(self, names: Sequence[str], options: Any, told: Told) -> None:
        self.sieve, self.source, self.told = Sieve(options), source_of(names, options), told
        self.places = self.wanted_of(self.source)
        self.parts: Dict[str, List[np.ndarray]] = {name: [] for name in (*'xyz', *self.places)}
        self.numbers: List[np.ndarray] = []
        self.counts: List[np.ndarray] = []
        self.rows: List[List[str]] = []
        self.count = 0

    @staticmethod
    def wanted_of(source: Source) -> Dict[str, int]:
        """The places of the columns that are kept, other than those of points and scanners."""
        names = [p.name.lower() for p in source.columns]
        return {name: names.index(name) for name in WANTED if name in names and source.columns[names.index(name)].count_kind is None}

    def run_blocks(self) -> None:
        """Takes the points in blocks. Raises `NotPlain`, also after some, where only row by row is read."""
        try:
            for block, rows in self.source.kept_blocks(self.sieve):
                self.add(block, rows)
                self.told(self.count)
        finally:
            self.source.close()

    def add(self, block: Block, rows: np.ndarray) -> None:
        """Takes these rows of a block."""
        some: Any = slice(None) if len(rows) == block.count else rows
        for axis, k in zip('xyz', self.source.point):
            self.parts[axis].append(block.columns[k].floats()[some])
        for name, k in self.places.items():
            self.parts[name].append(narrow(block.columns[k].floats()[some], name))
        if self.source.scanner is not None:
            self.add_sights(block.columns[self.source.scanner], some)
        self.count += len(rows)

    def add_sights(self, column: Column, some: Any) -> None:
        """Takes the scanners of these rows."""
        if isinstance(column, Lists):
            lists = column if isinstance(some, slice) else column.taken(some)
            self.counts.append(lists.counts)
            self.numbers.append(lists.numbers.astype(np.int32, copy=False))
        else:
            self.numbers.append(column.floats()[some].astype(np.int32))

    def run(self) -> None:
        """Takes the points row by row."""
        self.source.run(Passage(self.source, self.sieve, self.row))
        self.flush()

    def row(self, words: List[str]) -> None:
        self.rows.append(words)
        if len(self.rows) == BATCH:
            self.flush()
            self.told(self.count)

    def flush(self) -> None:
        """Takes the rows that were gathered."""
        source, names = self.source, {k: name for name, k in self.places.items()}
        if not self.rows:
            return
        words = list(zip(*self.rows))
        columns: List[Column] = [WordColumn(column, names.get(k, 'a value'), self.count) for k, column in enumerate(words)]
        if source.has_lists and source.scanner is not None:
            lists = [word.split()[1:] for word in words[source.scanner]]
            columns[source.scanner] = Lists(np.array(list(map(len, lists)), np.int64), np.array([int(word) for numbers in lists for word in numbers], np.int32))
        self.add(Block(columns, len(self.rows)), np.arange(len(self.rows)))
        self.rows = []

    def table(self) -> Table:
        """The whole scan, without intensity if it has colors."""
        columns = {name: np.concatenate(parts) if parts else np.zeros(0) for name, parts in self.parts.items()}
        if have_light(columns):
            columns.pop(INTENSITY, None)
        source = self.source
        scanners = np.array([list(map(float, position)) for position in source.positions], float).reshape(-1, 3) if source.has_scanners else None
        numbers = np.concatenate([*self.numbers, np.zeros(0, np.int32)]).astype(np.int64)
        counts = np.concatenate([*self.counts, np.zeros(0, np.int64)]) if source.has_lists else np.ones(len(columns['x']), np.int64)
        return Table(columns, None if source.scanner is None else Sights(counts, numbers), scanners)

    def said(self) -> str:
        """What was read, and what was left out."""
        counts = {**self.source.counts, **self.sieve.counts}
        lost = f'; left out {left_out(counts)}' if any(counts.values()) else ''
        return f'{self.source.read()}{lost}{self.source.remark()}'


def narrow(values: np.ndarray, name: str) -> np.ndarray:
    """Colors that are bytes as such, other values as they are; intensities in 32 bits."""
    if name == INTENSITY:
        return values.astype(np.float32)
    if name not in COLORS or values.dtype == np.uint8:
        return values
    with np.errstate(invalid='ignore'):
        found = values.astype(np.uint8)
    return found if (found == values).all() else values


def silent(count: int) -> None:
    """Says nothing of how many points were read."""


def read_table(names: Sequence[str], told: Told = silent, **given: str) -> tuple[Table, str]:
    """Reads a scan by the names and options of `recon-scan`, and returns it with what was read, in words. `told` gets the number of points from time to
    time. Raises `Refusal` with the place of an error."""
    options = Options(KEYS)
    for key, value in given.items():
        setattr(options, field(key), value)
    gathering = Gathering(names, options, told)
    try:
        gathering.run_blocks()
    except (NotPlain, Refusal):
        # row by row, which finds the places of errors
        gathering = Gathering(names, options, told)
        gathering.run()
    return gathering.table(), gathering.said()
