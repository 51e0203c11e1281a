"""Points of Leica's PTX: each station's points, brought to where they are by its matrix, with the number of the station, intensity and colors; and each
station's position. Returns that are empty (0 0 0) are left out.

Coordinates are exact: digits as they stand where a matrix changes nothing, and else the whole sum of products, rounded only
where it has over 30 digits, the most that `recon` reads.
"""
from __future__ import annotations

from decimal import Decimal
from typing import Any, Iterator, Sequence

import numpy as np

from recon.toolbox.blocks import Block, constant
from recon.toolbox.exact import Pose
from recon.toolbox.extras import common_extras, extra_words, text_extras
from recon.toolbox.ply_text import IS_NUMBER, SCANNER_LIMIT, Refusal, decimals
from recon.toolbox.posed import point_columns
from recon.toolbox.sieve import Passage
from recon.toolbox.sources import Source, refuse_others, scan_columns
from recon.toolbox.text_columns import LineParts, NotPlain
from recon.toolbox.text_lines import Lines
from recon.toolbox.text_points import HeadLines, counted_rows, extra_columns, scanner_layout
from recon.toolbox.tool import number_of, yes

HEADER = 10
UNCHANGED = [[Decimal(int(row == column)) for column in range(3)] for row in range(4)]


class Station:
    """A station's header: how many rows it has, its position in the header, and its matrix."""

    def __init__(self, count: int, place: Sequence[str], matrix: list[list[str]]) -> None:
        self.count, self.place, self.matrix = count, place, [list(map(Decimal, row)) for row in matrix]
        self.origin = matrix[3]

    def position(self, number: int, choice: str | None) -> Sequence[Any]:
        """Returns where it stood, as words."""
        if choice == 'header':
            return self.place
        place, origin = list(map(float, self.place)), list(map(float, self.origin))
        if choice == 'matrix' or not any(place) or max(abs(a - b) for a, b in zip(place, origin)) <= 0.001:
            return self.origin
        if not any(origin):
            return self.place
        raise Refusal(f'station {number} has the position {" ".join(self.place)} in its header and {" ".join(self.origin)} in '
                      'its matrix: choose one with position=header or position=matrix')


def read_count(lines: Lines | HeadLines, words: Sequence[str] | None) -> int:
    if words is None:
        raise Refusal(f'truncated: the file ends within the header of a station, after line {lines.number}')
    if len(words) != 1 or not words[0].isdecimal():
        raise Refusal(f'line {lines.number} is not the number of columns or rows of a station')
    return int(words[0])


def read_numbers(lines: Lines | HeadLines, width: int) -> list[str]:
    words = lines.next_words()
    if words is None:
        raise Refusal(f'truncated: the file ends within the header of a station, after line {lines.number}')
    if len(words) != width or not all(map(IS_NUMBER, words)):
        raise Refusal(f'line {lines.number} is not {width} numbers')
    return words


def read_station(lines: Lines | HeadLines) -> Station | None:
    """Returns the next station's header, or None at the end of the file."""
    words = lines.next_words()
    if words is None:
        return None
    columns = read_count(lines, words)
    rows = read_count(lines, lines.next_words())
    place = read_numbers(lines, 3)
    for _ in range(3):
        read_numbers(lines, 3)
    matrix = [read_numbers(lines, 4) for _ in range(4)]
    if [float(row[3]) for row in matrix] != [0, 0, 0, 1]:
        raise Refusal(f'the last column of the matrix that ends in line {lines.number} is not 0 0 0 1')
    return Station(columns * rows, place, [row[:3] for row in matrix])


class Ptx(Source):
    """A PTX file."""

    def __init__(self, path: str, options: Any) -> None:
        refuse_others(options, ('position', 'open_end'), 'a PTX')
        self.layout = scanner_layout(path, HEADER)
        self.extras = text_extras(self.layout, None)
        self.more = common_extras([self.extras])
        self.more_names = [p.name for p in self.more]
        super().__init__(scan_columns() + self.more, path)
        self.path, self.open_end = path, yes(options.open_end, 'open_end')
        self.choice, self.lines = options.position, Lines(path, self.open_end)
        self.counts = {'empty': 0, 'not finite': 0}
        if self.choice not in (None, 'header', 'matrix'):
            raise Refusal('position= must be header or matrix')

    def read(self) -> str:
        return f'read {number_of(len(self.positions), "station")} with {number_of(self.count, "row")} of {self.what}'

    def pass_points(self, station: Station, index: str, receiver: Passage) -> None:
        lines, pose = self.lines, Pose(station.matrix) if station.matrix != UNCHANGED else None

        def place() -> str:
            return f'line {lines.number}'

        for row in range(station.count):
            words = lines.next_words()
            if words is None:
                raise Refusal(f'truncated: the file ends in row {row} of station {index}, {station.count} rows expected')
            if len(words) < 3:
                raise Refusal(f'line {lines.number} is not a row X Y Z ...')
            point = words[:3]
            if not decimals(point[0], point[1], point[2], place):
                self.counts['not finite'] += 1
            elif float(point[0]) == 0 and float(point[1]) == 0 and float(point[2]) == 0:
                self.counts['empty'] += 1
            else:
                receiver.row([*(pose.transform(point) if pose else point), index, *extra_words(words, self.extras, self.more_names)])
        self.count += station.count

    def close(self) -> None:
        self.lines.close()

    def blocks(self) -> Iterator[Block]:
        self.lines.close()
        try:
            with open(self.path, 'rb') as file:
                yield from self.station_blocks(LineParts(file, self.open_end))
        except ArithmeticError:
            raise NotPlain from None

    def station_blocks(self, lines: LineParts) -> Iterator[Block]:
        """Yields the points of all stations in blocks."""
        head, width = HeadLines(lines), 3 + len(self.layout.places)
        station = read_station(head)
        while station is not None:
            number, pose = len(self.positions), Pose(station.matrix) if station.matrix != UNCHANGED else None
            self.positions.append(list(map(str, station.position(number, self.choice))))
            if number == SCANNER_LIMIT:
                raise NotPlain
            for rows in counted_rows(lines, station.count, width, pose):
                point, is_empty = point_columns(rows, pose is not None)
                self.counts['empty'] += int(np.count_nonzero(is_empty))
                self.count += rows.count
                columns = [*point, constant(number, rows.count), *extra_columns(rows, self.layout, self.more_names)]
                yield Block(columns, rows.count, is_empty)
            station = read_station(head)

    def run(self, receiver: Passage) -> None:
        try:
            station = read_station(self.lines)
            while station is not None:
                if len(self.positions) == SCANNER_LIMIT:
                    raise Refusal(f'more than {SCANNER_LIMIT} stations')
                position = station.position(len(self.positions), self.choice)
                self.positions.append(list(map(str, position)))
                self.pass_points(station, str(len(self.positions) - 1), receiver)
                station = read_station(self.lines)
        finally:
            self.lines.close()
