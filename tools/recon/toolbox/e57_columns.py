"""Points of an E57 in blocks: columns whose values are packed by bits, unpacked by numpy.

Names: station_blocks.
"""
from __future__ import annotations

from typing import Iterator, List, Sequence
from xml.etree import ElementTree

import numpy as np

from recon.toolbox.text_columns import NotPlain

ROWS = 1 << 15
MOST_BITS = 57
WINDOW = 8


class BitColumn:
    """The values of one column, as far as their bytes are there."""

    def __init__(self, node: ElementTree.Element) -> None:
        self.parts: List[bytes] = []
        self.size, self.bit, self.code = 0, 0, ''
        if node.get('type') == 'Float':
            self.code = '<f4' if node.get('precision') == 'single' else '<f8'
            self.bits = 32 if node.get('precision') == 'single' else 64
        else:
            self.least = int(node.get('minimum', -2 ** 63))
            self.bits = (int(node.get('maximum', 2 ** 63 - 1)) - self.least).bit_length()
            self.scale, self.start = float(node.get('scale', 1)), float(node.get('offset', 0))
            self.is_scaled = node.get('type') == 'ScaledInteger'
            if self.bits > MOST_BITS or abs(self.least) > 1 << 61:
                raise NotPlain

    def add(self, part: bytes) -> None:
        self.parts.append(part)
        self.size += len(part)

    def count(self, limit: int) -> int:
        """How many values are there, or the limit where a value takes no bits."""
        return (8 * self.size - self.bit) // self.bits if self.bits else limit

    def take(self, count: int) -> np.ndarray:
        """Returns the next values: floating point or scaled ones as floats, others as whole numbers."""
        data = b''.join(self.parts)
        if self.code:
            used = count * self.bits // 8
            with np.errstate(invalid='ignore'):
                values: np.ndarray = np.frombuffer(data, self.code, count).astype(float)
        else:
            whole = self.whole(data, count)
            values = whole * self.scale + self.start if self.is_scaled else whole
            used, self.bit = divmod(self.bit + count * self.bits, 8)
        self.parts = [data[used:]]
        self.size = len(data) - used
        return values

    def whole(self, data: bytes, count: int) -> np.ndarray:
        """The whole numbers, of as many bits each."""
        if not self.bits:
            return np.full(count, self.least, np.int64)
        if self.bits in (8, 16, 32) and not self.bit:
            return np.frombuffer(data, f'<u{self.bits // 8}', count).astype(np.int64) + self.least
        padded = data + bytes(WINDOW)
        windows: np.ndarray = np.ndarray(len(padded) - WINDOW + 1, '<u8', padded, 0, (1,))
        bits = np.arange(self.bit, self.bit + count * self.bits, self.bits)
        packed = windows[bits >> 3]
        packed >>= (bits & 7).view(np.uint64)
        packed &= np.uint64((1 << self.bits) - 1)
        values = packed.view(np.int64)
        values += self.least
        return values


def station_blocks(nodes: Sequence[ElementTree.Element], packets: Iterator[list[bytes]], count: int) -> Iterator[list[np.ndarray]]:
    """Yields all columns of the points of a station in blocks. Raises `NotPlain` where packets have fewer points than the station."""
    columns, left = [BitColumn(node) for node in nodes], count
    for parts in packets:
        for column, part in zip(columns, parts):
            column.add(part)
        ready = min(left, *(column.count(count) for column in columns))
        if ready >= min(ROWS, left) and ready:
            yield from taken(columns, ready)
            left -= ready
    ready = min(left, *(column.count(count) for column in columns)) if left else 0
    if ready < left:
        raise NotPlain
    if ready:
        yield from taken(columns, ready)


def taken(columns: list[BitColumn], count: int) -> Iterator[list[np.ndarray]]:
    """The next values of all columns, some thousand at a time."""
    for start in range(0, count, 2 * ROWS):
        yield [column.take(min(2 * ROWS, count - start)) for column in columns]


def framed(data: bytes, page: int) -> bytes:
    """Returns bytes without the checksums at the ends of pages."""
    whole = len(data) // page * page
    plain = np.frombuffer(data, np.uint8, whole).reshape(-1, page)[:, :page - 4].tobytes()
    return plain + data[whole:][:page - 4]


