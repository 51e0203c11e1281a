"""Points with normals, without known scanners: each is seen by a scanner of its own that stands a little
way off along its normal.

The normals are believed: a wrong one is a wrong sight. A scanner that stands too far off is behind another part of the object,
and a wrong sight too: one spacing is right. A scan has at most 65,536 scanners. Where there are more points, those whose scanners
would stand in one cube and whose normals point the same way share one (recon.sights).
"""
from __future__ import annotations

from array import array
from math import isfinite, sqrt
from typing import Any, Iterator, Sequence

import numpy as np

from recon.toolbox.blocks import Block, Numbers
from recon.toolbox.ply_text import IS_NOT_FINITE, IS_NUMBER, Property, Refusal
from recon.toolbox.point_files import has_rows, open_points
from recon.toolbox.read_ahead import all_rows
from recon.toolbox.row_columns import columns_of, text_block
from recon.toolbox.sieve import Mover, Passage, length_of
from recon.toolbox.sources import Source, refuse_others
from recon.toolbox.text_columns import LineParts, TextRows
from recon.toolbox.text_lines import Lines
from recon.toolbox.tool import number_of, yes

RANGE = 2000000


class NumberList:
    """A text of lines X Y Z NX NY NZ, as an element of six columns or more."""

    def __init__(self, path: str, open_end: bool) -> None:
        self.path, self.open_end = path, open_end
        lines = Lines(path, open_end)
        try:
            self.width = len(lines.next_words() or ())
        finally:
            lines.close()
        if self.width < 6:
            raise Refusal('the first line has fewer than six values: expected X Y Z NX NY NZ')
        names = ['x', 'y', 'z', 'nx', 'ny', 'nz'] + [f'value_{k}' for k in range(7, self.width + 1)]
        self.properties = [Property(name, 'double') for name in names]
        self.columns = list(range(6))

    def rows(self) -> Iterator[list[str]]:
        lines = Lines(self.path, self.open_end)
        try:
            words = lines.next_words()
            while words is not None:
                if len(words) != self.width:
                    raise Refusal(f'line {lines.number} has {number_of(len(words), "value")}, the first line has {self.width}')
                yield words
                words = lines.next_words()
        finally:
            lines.close()


    def blocks(self) -> Iterator[Block]:
        """Yields the rows in blocks."""
        with open(self.path, 'rb') as file:
            yield from map(text_block, all_rows(LineParts(file, self.open_end), lambda part: TextRows(part, self.width)))


class Points:
    """A file of rows, as PLY or PCD, whose points have normals."""

    def __init__(self, path: str, open_end: bool) -> None:
        self.path, self.open_end = path, open_end
        reader = open_points(path, open_end)
        reader.close()
        vertex = reader.element('vertex')
        if vertex is None or vertex.has_lists():
            raise Refusal('no element vertex' if vertex is None else 'a property of vertex is a list')
        normal = next(([vertex.column(start + axis) for axis in 'xyz'] for start in ('n', 'normal_')
                       if vertex.column(start + 'x') is not None), [None])
        self.columns = vertex.point_columns() + normal
        if None in self.columns:
            raise Refusal('the points have no normals: vertex has no properties nx, ny and nz')
        self.properties = [Property('scanner_before' if p.name == 'scanner' else p.name, p.kind) for p in vertex.properties]
        for place, name in zip(self.columns, 'xyz'):
            self.properties[place].name = name

    def rows(self) -> Iterator[list[str]]:
        reader = open_points(self.path, self.open_end)
        try:
            for element in reader.elements:
                for words in reader.rows(element):
                    if element.name == 'vertex':
                        yield words
            reader.finish()
        finally:
            reader.close()


    def blocks(self) -> Iterator[Block]:
        """Yields the rows in blocks."""
        reader = open_points(self.path, self.open_end)
        try:
            for element in reader.elements:
                if element.name == 'vertex':
                    yield from columns_of(reader, element)
                else:
                    for _ in reader.rows(element):
                        pass
            reader.finish()
        finally:
            reader.close()


def numbers_of(row: int, words: Sequence[str]) -> list[float] | None:
    """Returns the six numbers of a row, or None where one is not finite."""
    for word in words:
        if not IS_NUMBER(word):
            if IS_NOT_FINITE(word):
                return None
            raise Refusal(f'point {row}: {word[:40]} is not a number')
    values = list(map(float, words))
    return values if all(map(isfinite, values)) else None


def direction_of(x: float, y: float, z: float) -> list[float] | None:
    """Returns a normal at length 1. Returns None for 0 0 0, and for a length that leaves the range of floating point."""
    most = max(abs(x), abs(y), abs(z))
    if not most:
        return None
    a, b, c = x / most, y / most, z / most
    long = sqrt(a * a + b * b + c * c)
    return [a / long, b / long, c / long] if isfinite(most * long) else None


def directions(normals: np.ndarray) -> tuple[np.ndarray, np.ndarray]:
    """Returns the same of normals (n, 3), and which have one."""
    most = np.abs(normals).max(axis=1, initial=0)
    with np.errstate(all='ignore'):
        a, b, c = (normals / most[:, None]).T
        long = np.sqrt(a * a + b * b + c * c)
        is_one = (most > 0) & np.isfinite(most * long)
        return np.stack([a / long, b / long, c / long], axis=1), is_one


class Cloud:
    """The points that have a normal: their places, and their directions at length 1."""

    def __init__(self) -> None:
        self.places, self.directions = [array('d') for _ in range(3)], [array('d') for _ in range(3)]
        self.is_kept, self.counts = bytearray(), {'not finite': 0, 'without a normal': 0}

    def add(self, values: list[float] | None, mover: Mover) -> None:
        """Takes the place and the normal of a point; nothing for one that has numbers that are not finite."""
        way = None if values is None else direction_of(*values[3:])
        if values is None or way is None:
            self.counts['not finite' if values is None else 'without a normal'] += 1
            self.is_kept.append(0)
            return
        self.is_kept.append(mover.takes(*values[:3]))
        if self.is_kept[-1]:
            for column, value in zip([*self.places, *self.directions], [*values[:3], *way]):
                column.append(value)

    def add_rows(self, values: np.ndarray) -> None:
        """Takes places and normals (n, 6) of points that are kept."""
        ways, _ = directions(values[:, 3:])
        for column, part in zip([*self.places, *self.directions], [*values[:, :3].T, *ways.T]):
            column.frombytes(np.ascontiguousarray(part).tobytes())

    def scanners(self, word: str | None) -> tuple[float, np.ndarray, np.ndarray]:
        """Returns how far off scanners stand, where, and the number of the scanner of each point."""
        # scipy takes a while to load, and is not needed otherwise
        from recon.clouds import spacing
        from recon.sights import along_normals
        points, ways = (np.stack([np.frombuffer(column) for column in columns], axis=1) for columns in (self.places, self.directions))
        far = (length_of(word, 'far', 'the distance of a scanner from its point') if word else
               spacing(points).distance or spacing(np.unique(points, axis=0)).distance)
        if not far:
            raise Refusal('too few points to estimate their spacing: pass far=')
        return (far, *along_normals(points, ways, far))


class Normals(Source):
    """A PLY, a PCD or a text of lines X Y Z NX NY NZ. All properties are kept."""

    def __init__(self, path: str, options: Any) -> None:
        refuse_others(options, ('normals', 'far', 'open_end'), 'normals')
        open_end = yes(options.open_end, 'open_end')
        self.file: NumberList | Points = Points(path, open_end) if has_rows(path) else NumberList(path, open_end)
        super().__init__(self.file.properties + [Property('scanner', 'int')], path)
        self.point, self.scanner, self.word = self.file.columns[:3], len(self.file.properties), options.far
        self.far, self.unit = 0.0, 1

    def run(self, receiver: Passage) -> None:
        cloud = Cloud()
        for row, words in enumerate(self.file.rows()):
            cloud.add(numbers_of(row, [words[k] for k in self.file.columns]), receiver.mover)
        self.count, self.counts = len(cloud.is_kept), cloud.counts
        indices = iter(self.placed(cloud, receiver.mover).tolist())
        for words, kept in zip(self.file.rows(), cloud.is_kept):
            if kept:
                receiver.put(words + [str(next(indices))])

    def kept_blocks(self, mover: Mover) -> Iterator[tuple[Block, np.ndarray]]:
        cloud, kept = Cloud(), []
        self.counts = cloud.counts
        for block in self.file.blocks():
            self.count += block.count
            values = np.stack([block.columns[k].floats() for k in self.file.columns], axis=1)
            kept.append(self.with_normals(block, values, mover))
            cloud.add_rows(values[kept[-1]])
        numbers = self.placed(cloud, mover)
        for block, rows in zip(self.file.blocks(), kept):
            scanners = np.zeros(block.count, np.int64)
            scanners[rows], numbers = numbers[:len(rows)], numbers[len(rows):]
            block.columns.append(Numbers(scanners))
            yield block, rows

    def with_normals(self, block: Block, values: np.ndarray, mover: Mover) -> np.ndarray:
        """Returns the rows of a block that are kept, all with a normal. `values` are their places and normals."""
        are_places, are_normals = (np.isfinite(part).all(axis=1) for part in (values[:, :3], values[:, 3:]))
        has_normal = are_normals & directions(values[:, 3:])[1]
        block.left_out = ~has_normal
        self.counts['not finite'] += int(np.count_nonzero(are_places & ~are_normals))
        self.counts['without a normal'] += int(np.count_nonzero(are_places & are_normals & ~has_normal))
        return mover.kept(self, block)

    def placed(self, cloud: Cloud, mover: Mover) -> np.ndarray:
        """Chooses where the scanners stand, and returns the number of that of each point that is kept."""
        if not cloud.places[0]:
            raise Refusal('no point has a finite normal other than 0 0 0')
        self.far, scanners, numbers = cloud.scanners(self.word)
        self.positions = [list(map(repr, scanner)) for scanner in scanners.tolist()]
        self.unit = self.unit_for(np.concatenate([np.stack(list(map(np.frombuffer, cloud.places)), axis=1), scanners]), mover)
        return numbers

    def unit_for(self, places: np.ndarray, mover: Mover) -> int:
        """Returns the power of ten with 100 to 1000 units to the way of a scanner, less where all would be out of range."""
        origin = np.array([float(word) for word in mover.origin or (0, 0, 0)])
        most, unit = float(np.abs(places - origin).max()), 1000000
        while unit > 1 and (most * unit > RANGE or self.far * unit > 1000):
            unit //= 10
        return unit

    def remark(self) -> str:
        return (f'; scanners at distance {self.far:.4g}; normals are not checked, the cost shows wrong ones (--help); '
                f'use unit={self.unit}, and smooth=1 since lines of sight are short')
