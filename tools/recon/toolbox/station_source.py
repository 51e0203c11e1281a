"""Points of files that are one a station, each with its scanner's position. Taken are coordinates, digits as they stand, and colors, intensity and normals
where all files have them.

A file is a PLY of any kind, a PCD, a LAS or an E57; a PTS (the number of its rows, and then the rows); or a list of numbers with
X, Y and Z first in each line, parted by spaces, tabs, commas or semicolons, perhaps with one heading, and with lines of remarks
that begin with `#` or `//`.
"""
from __future__ import annotations

import os
from typing import Any, Callable, Iterator, List, Optional, Sequence, Tuple

import numpy as np

from recon.toolbox.blocks import Block, Numbers, TextColumn, constant, finite_points
from recon.toolbox.extras import FileExtras, common_extras, extra_words, extras_of, lost_extras
from recon.toolbox.flight import Above
from recon.toolbox.ply_text import ARE_THREE, IS_NOT_FINITE, IS_NUMBER, SCANNER_LIMIT, Refusal, decimals, read_positions
from recon.toolbox.point_files import PcdReader, has_rows, open_points
from recon.toolbox.row_columns import columns_of
from recon.toolbox.sieve import Passage
from recon.toolbox.sources import Source, refuse_others, scan_columns
from recon.toolbox.text_columns import NotPlain
from recon.toolbox.text_lines import DECIMAL_COMMAS, Lines
from recon.toolbox.text_points import extra_columns, list_rows, pts_rows
from recon.toolbox.tool import number_of, three, yes

Point = Tuple[List[str], Tuple[str, int]]
Station = Tuple[str, Optional[Sequence[str]]]


def row_points(path: str, open_end: bool, more: Sequence[int] = ()) -> Iterator[Point]:
    """Yields the points of a file of rows, with the fields of more columns, each with a field for its place."""
    reader = open_points(path, open_end)
    try:
        vertex = reader.element('vertex')
        if vertex is None:
            raise Refusal('no element vertex')
        if vertex.has_lists():
            raise Refusal('a property of vertex is a list')
        x, y, z = vertex.point_columns()
        for element in reader.elements:
            for row, words in enumerate(reader.rows(element)):
                if element is vertex:
                    yield [words[x], words[y], words[z], *(words[k] for k in more)], ('vertex row', row)
        reader.finish()
    finally:
        reader.close()


def is_count(words: Sequence[str]) -> bool:
    return len(words) == 1 and words[0].isdecimal()


def row_blocks(path: str, open_end: bool, more: Sequence[int]) -> Iterator[Block]:
    """Yields the same in blocks."""
    reader = open_points(path, open_end)
    try:
        vertex = reader.element('vertex')
        if vertex is None or vertex.has_lists():
            raise NotPlain
        order = [*vertex.point_columns(), *more]
        for element in reader.elements:
            if element is vertex:
                for block in columns_of(reader, element):
                    yield block.taken(order)
            else:
                for _ in reader.rows(element):
                    pass
        reader.finish()
    finally:
        reader.close()


def pts_points(lines: Lines) -> Iterator[Point]:
    """Yields the points of a PTS file: blocks of a count and as many rows."""
    words = lines.next_words()
    while words is not None:
        if not is_count(words):
            raise Refusal(f'line {lines.number} is not the number of the rows that follow')
        count = int(words[0])
        for row in range(count):
            words = lines.next_words()
            if words is None:
                raise Refusal(f'truncated: the file ends in row {row} of {count}')
            if row == 0 and is_count(words):
                raise Refusal('a PTX has its own scanner positions: pass it as the only file, without =X,Y,Z')
            if len(words) < 3:
                raise Refusal(f'line {lines.number} is not a row X Y Z ...')
            yield words, ('line', lines.number)
        words = lines.next_words()


def is_value(word: str) -> bool:
    return bool(IS_NUMBER(word) or IS_NOT_FINITE(word))


def list_points(lines: Lines, counts: dict[str, int]) -> Iterator[Point]:
    """Yields the points of a list of numbers. The first row decides what parts the numbers and how many there are."""
    sign, width, first = None, None, 0
    line = lines.next_line()
    while line is not None:
        text = line.strip()
        if text and not text.startswith(('#', '//')):
            if DECIMAL_COMMAS(text):
                raise Refusal(f'line {lines.number} has decimal commas: {text[:40]}; use decimal points')
            if sign is None:
                sign = ';' if ';' in text else ',' if ',' in text else ''
            words = [word.strip() for word in text.split(sign)] if sign else text.split()
            if width is None and first == 0 and not is_value(words[0]):
                first, sign = lines.number, None
                counts['heading'] = counts.get('heading', 0) + 1
            else:
                width = width or len(words)
                if len(words) != width or width < 3:
                    raise Refusal(f'line {lines.number} has {number_of(len(words), "value")}'
                                  + (f', the first row has {width}' if width >= 3 else ', a point has three'))
                yield words, ('line', lines.number)
        line = lines.next_line()


def points_of(path: str, open_end: bool, counts: dict[str, int], extras: FileExtras = FileExtras({}), names: Sequence[str] = ()) -> Iterator[Point]:
    """Yields the points of a file of any of the three kinds, each with its further values of these names."""
    with open(path, 'rb') as file:
        start = file.readline(100)
    if not start:
        raise Refusal('the file is empty')
    if has_rows(path):
        yield from row_points(path, open_end, [extras.columns[name][0] for name in names])
        return
    lines = Lines(path, open_end)
    try:
        for words, at in pts_points(lines) if start.strip().isdigit() else list_points(lines, counts):
            yield [*words[:3], *extra_words(words, extras, names)], at
    finally:
        lines.close()


def blocks_of(path: str, open_end: bool, counts: dict[str, int], extras: FileExtras, names: Sequence[str]) -> Iterator[Block]:
    """Yields the same points in blocks."""
    if has_rows(path):
        yield from row_blocks(path, open_end, [extras.columns[name][0] for name in names])
        return
    layout = extras.layout
    if layout is None:
        raise NotPlain
    if extras.start is None:
        rows_of = pts_rows(path, open_end, 3 + len(layout.places))
    else:
        if extras.start.headings:
            counts['heading'] = counts.get('heading', 0) + extras.start.headings
        rows_of = list_rows(path, open_end, extras.start)
    for rows in rows_of:
        yield Block([*(TextColumn(rows, k) for k in range(3)), *extra_columns(rows, layout, names)], rows.count)


def station_of(name: str) -> Station:
    """Returns a file and its position: that of the arguments, or of the file itself; None if each point has its own."""
    path, equals, position = name.rpartition('=')
    if equals and path and not os.path.exists(name):
        if ',' not in position and not os.path.exists(path):
            raise Refusal(f'{name} is neither an option nor a file with its scanner position, FILE=X,Y,Z')
        return path, three(position, f'the position of {path}')
    if not has_rows(name):
        raise Refusal(f'{name} has no scanner position: pass {name}=X,Y,Z')
    reader = open_points(name)
    try:
        if isinstance(reader, PcdReader) and reader.view:
            return name, None
        scanner = reader.element('scanner')
        if scanner is None or scanner.count != 1 or not hasattr(reader, 'position'):
            raise Refusal(f'{name} has no scanner position: pass {name}=X,Y,Z')
        position = reader.position()
        if not ARE_THREE(' '.join(position)):
            raise Refusal(f'{name} has the invalid scanner position {" ".join(position)[:80]}: pass {name}=X,Y,Z')
        return name, position
    finally:
        reader.close()


def refuse_unknown(found: Sequence[Station], names: Sequence[str]) -> None:
    """Refuses several files that all say themselves that they were seen from 0 0 0."""
    own = [position for (path, position), name in zip(found, names) if path == name and position is not None]
    if len(own) > 1 and not any(float(word) for position in own for word in position if IS_NUMBER(word)):
        raise Refusal(f'the scanner position is 0 0 0 in all {len(own)} files, which PCL writes as VIEWPOINT if it is unknown: pass the '
                      f'positions, for example {names[0]}=X,Y,Z')


def stations(names: Sequence[str], table: str | None) -> list[Station]:
    """Returns the files and their positions."""
    found: list[Station]
    if table is not None:
        if names:
            raise Refusal('pass the stations either as table= or as arguments')
        folder = os.path.dirname(table)
        rows = read_positions(table)
        if any(name is None for _, name in rows):
            raise Refusal(f'a line of {table} has no file name')
        found = [(os.path.join(folder, name or ''), position) for position, name in rows]
    else:
        found = [station_of(name) for name in names]
        refuse_unknown(found, names)
    if not found or len(found) > SCANNER_LIMIT:
        raise Refusal('no stations' if not found else f'more than {SCANNER_LIMIT} stations')
    return found


def files_of_table(table: str) -> list[str]:
    """Returns the paths of a table of stations and of the files that it names."""
    return [table] + [os.path.join(os.path.dirname(table), name) for _, name in read_positions(table) if name is not None]


class Stations(Source):
    """Files of stations."""

    def __init__(self, names: Sequence[str], options: Any) -> None:
        refuse_others(options, ('table', 'open_end'), 'FILE=X,Y,Z or table=')
        self.files, self.open_end = stations(names, options.table), yes(options.open_end, 'open_end')
        self.find_extras()
        super().__init__(scan_columns() + self.more, self.files[0][0] if len(self.files) == 1 else number_of(len(self.files), 'file'))
        self.numbers: dict[tuple[str, ...], str] = {}

    def find_extras(self) -> None:
        """Finds what the files have beyond coordinates, and what all of them have."""
        have_positions = all(position is not None for _, position in self.files)
        self.extras = [extras_of(path, self.open_end) if have_positions else FileExtras({}) for path, _ in self.files]
        self.more = common_extras(self.extras)
        self.more_names = [p.name for p in self.more]

    def run(self, receiver: Passage) -> None:
        for (path, position), extras in zip(self.files, self.extras):
            try:
                if position is None:
                    self.pass_viewed(path, receiver)
                else:
                    self.positions.append(position)
                    self.pass_file(path, extras, str(len(self.positions) - 1), receiver.row)
            except Refusal as refusal:
                raise Refusal(f'{path}: {refusal}') from None

    def blocks(self) -> Iterator[Block]:
        for (path, position), extras in zip(self.files, self.extras):
            if position is None:
                yield from self.viewed_blocks(path)
            else:
                self.positions.append(position)
                yield from self.file_blocks(path, extras, len(self.positions) - 1)

    def file_blocks(self, path: str, extras: FileExtras, index: int) -> Iterator[Block]:
        """Yields the points of a file in blocks, with this number of a scanner."""
        for block in blocks_of(path, self.open_end, self.counts, extras, self.more_names):
            self.count += block.count
            block.columns.insert(3, constant(index, block.count))
            yield block

    def viewed_blocks(self, path: str) -> Iterator[Block]:
        """Yields the points of a PCD in which each point has the position from which it was seen. Positions are numbered in the order of their points."""
        reader = PcdReader(path, self.open_end)
        try:
            order = reader.elements[0].point_columns()
            for block in columns_of(reader, reader.elements[0]):
                self.count += block.count
                place, seen_from = [block.columns[k] for k in order], block.columns[-1].floats()
                is_seen = np.logical_and.reduce([np.isfinite(column.floats()) for column in place])
                without = is_seen & np.isnan(seen_from)
                is_seen &= ~without
                self.counts['without scanner'] = self.counts.get('without scanner', 0) + int(np.count_nonzero(without))
                known, first = np.unique(seen_from[is_seen].astype(np.int64), return_index=True)
                numbers = np.zeros(len(reader.places), np.int64)
                for local in known[np.argsort(first)].tolist():
                    numbers[local] = int(self.number_of_view(reader.places[local]))
                yield Block([*place, Numbers(numbers[np.where(is_seen, seen_from, 0).astype(np.int64)])], block.count, without)
        finally:
            reader.close()

    def remark(self) -> str:
        return lost_extras(self.extras, [path for path, _ in self.files])

    def number_of_view(self, place: Sequence[str]) -> str:
        """Returns the number of a place that points of any file were seen from."""
        number = self.numbers.setdefault(tuple(place), str(len(self.positions)))
        if int(number) == len(self.positions):
            self.positions.append(place)
        if len(self.positions) > SCANNER_LIMIT:
            raise Refusal(f'more than {SCANNER_LIMIT} scanner positions')
        return number

    def pass_viewed(self, path: str, receiver: Passage) -> None:
        """Passes on the points of a PCD in which each point has the position from which it was seen."""
        reader = PcdReader(path, self.open_end)
        try:
            vertex, row = reader.elements[0], 0
            x, y, z = vertex.point_columns()
            for row, words in enumerate(reader.rows(vertex)):
                self.count += 1
                if not decimals(words[x], words[y], words[z], lambda: f'vertex row {row}'):
                    self.counts['not finite'] += 1
                elif words[-1] == 'nan':
                    self.counts['without scanner'] = self.counts.get('without scanner', 0) + 1
                else:
                    place = reader.places[int(words[-1])]
                    receiver.row([words[x], words[y], words[z], self.number_of_view(place)])
        finally:
            reader.close()

    def pass_file(self, path: str, extras: FileExtras, index: str, row: Callable[[list[str]], None]) -> None:
        at = ('', 0)

        def place() -> str:
            return f'{at[0]} {at[1]}'

        for point, at in points_of(path, self.open_end, self.counts, extras, self.more_names):
            self.count += 1
            if decimals(point[0], point[1], point[2], place):
                point.insert(3, index)
                row(point)
            else:
                self.counts['not finite'] += 1


class Overhead(Stations):
    """Files of points that were all seen from far above, from one position that is made up."""

    def __init__(self, names: Sequence[str], options: Any) -> None:
        refuse_others(options, ('above', 'open_end'), 'above=')
        self.files, self.open_end = [(name, ('0', '0', '0')) for name in names], yes(options.open_end, 'open_end')
        self.find_extras()
        Source.__init__(self, scan_columns() + self.more, names[0] if len(names) == 1 else number_of(len(names), 'file'))
        self.above = Above()

    def run(self, receiver: Passage) -> None:
        def row(words: list[str]) -> None:
            self.above.box.show(float(words[0]), float(words[1]), float(words[2]))
            receiver.row(words)

        for (path, _), extras in zip(self.files, self.extras):
            try:
                self.pass_file(path, extras, '0', row)
            except Refusal as refusal:
                raise Refusal(f'{path}: {refusal}') from None
        self.positions = [self.above.position()]

    def blocks(self) -> Iterator[Block]:
        for (path, _), extras in zip(self.files, self.extras):
            for block in self.file_blocks(path, extras, 0):
                self.above.box.show_all(finite_points(block))
                yield block
        self.positions = [self.above.position()]

    def remark(self) -> str:
        return self.above.remark() + super().remark()
