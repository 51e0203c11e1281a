"""Rows of a PLY, PCD, LAS or E57 in blocks, by the readers that also read them row by row.

`NotPlain` is raised where only row by row is read, or where that finds an error, with its place. Names: columns_of · listed_parts (binary records with lists).
"""
from __future__ import annotations

import os
import struct
from typing import Any, BinaryIO, Iterator

import numpy as np
from numpy.lib.stride_tricks import sliding_window_view

from recon.toolbox.blocks import ROWS, Block, Column, Lists, Numbers, Scaled, TextColumn, constant
from recon.toolbox.ply_text import FORMATS, BinaryBody, Element, Reader, TextBody
from recon.toolbox.point_files import LAZ_ROWS, LZF_GROWTH, LasReader, PcdReader, unpacked
from recon.toolbox.read_ahead import all_rows
from recon.toolbox.text_columns import FieldRows, LineParts, NotPlain, TextRows

PACKED = ('rgb', 'rgba')
LONGEST = 1 << 62
# bytes of records with lists that are read at a time, and the most items of a list
LISTED, MOST_ITEMS = 1 << 20, 1 << 20


def columns_of(reader: Any, element: Element) -> Iterator[Block]:
    """Yields the rows of the next element of a reader, or of all its points where it is no PLY. Columns are in the order of the properties."""
    if element.has_lists():
        return listed(reader, element)
    if isinstance(reader, Reader):
        body = reader.body
        return text_body(body, element) if isinstance(body, TextBody) else binary_body(body, element)
    if isinstance(reader, PcdReader):
        return pcd(reader, element)
    if isinstance(reader, LasReader):
        return las(reader, element)
    found: Iterator[Block] = reader.columns(element)
    return found


def text_lines(lines: LineParts, width: int, count: int) -> Iterator[FieldRows]:
    """Yields the given number of rows, a line each, of the given number of fields."""
    return all_rows(lines, lambda part: TextRows(part, width), count, 2 * width)


def text_block(rows: FieldRows) -> Block:
    return Block([TextColumn(rows, k) for k in range(rows.width)], rows.count)


def text_body(body: TextBody, element: Element) -> Iterator[Block]:
    """The rows of a text PLY."""
    if body.at < len(body.words) or not element.properties:
        raise NotPlain
    lines = LineParts(body.file, body.open_end, body.tail)
    for rows in text_lines(lines, len(element.properties), element.count):
        yield text_block(rows)
    body.tail = lines.tail


def listed(reader: Reader, element: Element) -> Iterator[Block]:
    """The rows of a PLY that end with a list of whole numbers each."""
    *fields, last = element.properties
    if last.count_kind is None or any(p.count_kind is not None for p in fields) or FORMATS[last.kind] in 'fd':
        raise NotPlain
    return listed_text(reader.body, element) if isinstance(reader.body, TextBody) else listed_binary(reader.body, element)


def listed_text(body: TextBody, element: Element) -> Iterator[Block]:
    """The same of a text."""
    width = len(element.properties) - 1
    if body.at < len(body.words) or width < 3:
        raise NotPlain
    lines = LineParts(body.file, body.open_end, body.tail)
    for rows in all_rows(lines, lambda part: TextRows(part, width + 2, is_ragged=True, longest=LONGEST), element.count, 2 * width + 2):
        counts, numbers = rows.lists(width)
        starts = np.cumsum(counts) - counts
        if len(counts) and (int(counts.min()) < 1 or (numbers[starts] != counts - 1).any()):
            raise NotPlain
        yield Block([*(TextColumn(rows, k) for k in range(width)), Lists(counts - 1, np.delete(numbers, starts))], rows.count)
    body.tail = lines.tail


def listed_binary(body: BinaryBody, element: Element) -> Iterator[Block]:
    """The same of a binary PLY."""
    *fields, last = element.properties
    count_code, code = FORMATS[last.count_kind or ''], FORMATS[last.kind]
    kind = record(body.order, [*(FORMATS[p.kind] for p in fields), count_code])
    for rows, counts, numbers in listed_parts(body.file, element.count, kind, struct.Struct(body.order + count_code), np.dtype(body.order + code)):
        yield Block([*(Numbers(rows[name]) for name in (kind.names or ())[:-1]), Lists(counts, numbers.astype(np.int64))], len(rows))


def listed_parts(file: BinaryIO, count: int, kind: np.dtype[Any], length: struct.Struct, item: np.dtype[Any],
                 most: int = MOST_ITEMS) -> Iterator[tuple[np.ndarray, np.ndarray, np.ndarray]]:
    """Yields packed records, whose last field is the length of the list after each, in blocks: records, lengths, and the items of all lists."""
    tail = b''
    while count:
        more = file.read(LISTED)
        data = tail + more
        starts, end = list_starts(data, count, kind.itemsize, length, item.itemsize, most)
        if not starts and not more:
            raise NotPlain
        first = np.array(starts, np.int64)
        records = sliding_window_view(np.frombuffer(data, np.uint8, end), kind.itemsize)[first].view(kind).ravel() if starts else np.zeros(0, kind)
        sizes = records[(kind.names or ('',))[-1]].astype(np.int64)
        offsets = np.repeat(first + kind.itemsize - item.itemsize * (np.cumsum(sizes) - sizes), sizes) + item.itemsize * np.arange(int(sizes.sum()))
        items: np.ndarray = np.ndarray(max(end - item.itemsize + 1, 0), item, data, 0, (1,))
        yield records, sizes, items[offsets]
        tail, count = data[end:], count - len(starts)
    file.seek(-len(tail), os.SEEK_CUR)


def list_starts(data: bytes, count: int, head: int, length: struct.Struct, item: int, most: int) -> tuple[list[int], int]:
    """Returns where the first whole records with lists begin, at most `count`, and where the last one ends."""
    starts: list[int] = []
    end, at, size_at, before = len(data), 0, length.unpack_from, head - length.size
    for _ in range(min(count, end // head)):
        if at + head > end:
            break
        size, = size_at(data, at + before)
        after = at + head + item * size
        if not 0 <= size <= most:
            raise NotPlain
        if after > end:
            break
        starts.append(at)
        at = after
    return starts, at


def arrays(file: Any, kind: np.dtype[Any], count: int) -> Iterator[np.ndarray]:
    """Yields the given number of records of a binary file, some thousand at a time."""
    for start in range(0, count if kind.itemsize else 0, ROWS):
        size = min(ROWS, count - start) * kind.itemsize
        data = file.read(size)
        if len(data) < size:
            raise NotPlain
        yield np.frombuffer(data, kind)


def record(order: str, codes: list[str]) -> np.dtype[Any]:
    return np.dtype([(str(k), order + code) for k, code in enumerate(codes)])


def binary_body(body: BinaryBody, element: Element) -> Iterator[Block]:
    """The rows of a binary PLY."""
    kind = record(body.order, [FORMATS[p.kind] for p in element.properties])
    for rows in arrays(body.file, kind, element.count):
        yield Block([Numbers(rows[name]) for name in kind.names or ()], len(rows))


class ViewNumbers(Column):
    """Numbers of the places that points were seen from; nan where one is none."""

    def __init__(self, numbers: np.ndarray) -> None:
        self.numbers = numbers

    def floats(self) -> np.ndarray:
        return self.numbers

    def words(self, rows: np.ndarray | None = None) -> list[str]:
        return ['nan' if number != number else str(int(number)) for number in (self.numbers if rows is None else self.numbers[rows]).tolist()]


def view_numbers(reader: PcdReader, columns: list[Column]) -> Column:
    """Returns the numbers of the places that the points of a block were seen from, by their words; those of equal rows one after another are looked up once."""
    is_new = np.ones(len(columns[0].floats()), bool)
    if all(isinstance(column, Numbers) for column in columns):
        bits = [column.floats().view(np.int64) for column in columns]
        is_new[1:] = np.logical_or.reduce([part[1:] != part[:-1] for part in bits])
    rows = np.flatnonzero(is_new)
    found = [float(reader.number_of_view(list(place))) for place in zip(*(column.words(rows) for column in columns))]
    return ViewNumbers(np.array(found, float)[np.cumsum(is_new) - 1])


def pcd(reader: PcdReader, element: Element) -> Iterator[Block]:
    """The points of a PCD, each with the number of the place that it was seen from."""
    for block in {'ascii': pcd_text, 'binary': pcd_binary, 'binary_compressed': pcd_packed}[reader.head['DATA'][0]](reader, element.count):
        columns: list[Column] = []
        for k, ((name, kind), column) in enumerate(zip(reader.kinds, block.columns)):
            columns += [] if k in reader.view else colors_in(column, kind) if name in PACKED else [column]
        seen_from = view_numbers(reader, [block.columns[k] for k in reader.view]) if reader.view else constant(0, block.count)
        yield Block([*columns, seen_from], block.count)


def pcd_text(reader: PcdReader, count: int) -> Iterator[Block]:
    lines = LineParts(reader.file, reader.open_end)
    for rows in text_lines(lines, len(reader.kinds), count):
        yield text_block(rows)
    if (lines.tail + reader.file.read(1)).strip():
        raise NotPlain


def pcd_binary(reader: PcdReader, count: int) -> Iterator[Block]:
    kind = record('<', [FORMATS[kind] for _, kind in reader.kinds])
    if reader.left() < count * kind.itemsize:
        raise NotPlain
    for rows in arrays(reader.file, kind, count):
        yield Block([Numbers(rows[name]) for name in kind.names or ()], len(rows))


def pcd_packed(reader: PcdReader, count: int) -> Iterator[Block]:
    codes = [FORMATS[kind] for _, kind in reader.kinds]
    head = reader.file.read(8)
    packed, size = struct.unpack('<II', head) if len(head) == 8 else (0, -1)
    if size != count * struct.calcsize('<' + ''.join(codes)) or packed > reader.left() or size > LZF_GROWTH * packed:
        raise NotPlain
    data, columns, at = unpacked(reader.file.read(packed), size), [], 0
    for code in codes:
        columns.append(np.frombuffer(data, '<' + code, count, at))
        at += columns[-1].nbytes
    for start in range(0, count, ROWS):
        parts = [column[start:start + ROWS] for column in columns]
        yield Block([Numbers(part) for part in parts], len(parts[0]))


def colors_in(column: Column, kind: str) -> list[Column]:
    """The three parts of a packed color, whose bits may stand as those of a number with a point."""
    if isinstance(column, Numbers) and column.values.dtype.kind == 'f' and column.values.itemsize == 4:
        bits = np.ascontiguousarray(column.values).view('<u4').astype(np.int64)
    else:
        values = column.floats()
        if kind == 'float':
            with np.errstate(over='ignore'):
                bits = values.astype('<f4').view('<u4').astype(np.int64)
            is_wrong = np.isinf(values.astype('<f4')) & np.isfinite(values)
        else:
            is_wrong = ~(np.abs(values) < LONGEST) | (values % 1 != 0)
            bits = np.where(is_wrong, 0, values).astype(np.int64)
        if is_wrong.any():
            raise NotPlain
    return [Numbers(bits >> shift & 255) for shift in (16, 8, 0)]


def las(reader: LasReader, element: Element) -> Iterator[Block]:
    """The points of a LAS, or of a LAZ that laspy unpacks. Coordinates are whole numbers over powers of ten."""
    offsets = np.cumsum([0] + [struct.calcsize('<' + code) for code, _ in reader.fields])
    kept = [(str(k), '<' + code, offset) for k, ((code, name), offset) in enumerate(zip(reader.fields, offsets.tolist())) if name]
    names, formats, starts = zip(*kept)
    kind = np.dtype({'names': names, 'formats': formats, 'offsets': starts, 'itemsize': reader.row.size})
    sums = []
    for (scale, places), (start, start_places) in zip(reader.scales, reader.starts):
        most = max(places, start_places)
        factor, first = scale * 10 ** (most - places), start * 10 ** (most - start_places)
        if abs(factor) * (1 << 31) + abs(first) > LONGEST:
            raise NotPlain
        sums.append((factor, first, most))
    if not reader.is_packed and reader.left() < element.count * kind.itemsize:
        raise NotPlain
    for rows in unpacked_points(reader, kind, element.count) if reader.is_packed else arrays(reader.file, kind, element.count):
        point: list[Column] = [Scaled(rows[name].astype(np.int64) * factor + first, places) for name, (factor, first, places) in zip(names, sums)]
        yield Block([*point, *(Numbers(rows[name]) for name in names[3:])], len(rows))


def unpacked_points(reader: LasReader, kind: np.dtype[Any], count: int) -> Iterator[np.ndarray]:
    """The points of a LAZ as those of a LAS."""
    import laspy
    try:
        with laspy.open(reader.path) as file:
            for points in file.chunk_iterator(LAZ_ROWS):
                rows = np.frombuffer(points.array.tobytes(), kind)
                count -= len(rows)
                yield rows
    except Exception as error:
        raise NotPlain from error
    if count:
        raise NotPlain
