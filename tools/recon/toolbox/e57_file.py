"""E57 files: their stations with poses, and the points of each, brought to where they are by its pose.

Read are cartesian coordinates, intensity and colors, as floating point, whole numbers or scaled ones, packed by bits as the
standard has it when it names no other codec. Not read are spherical coordinates, images, other codecs, and checksums.
"""
from __future__ import annotations

import struct
from xml.etree import ElementTree
from typing import Any, Iterator, Sequence

import numpy as np

from recon.toolbox.blocks import Block, Numbers, constant
from recon.toolbox.e57_columns import framed, station_blocks
from recon.toolbox.ply_text import ROW_LIMIT, SCANNER_LIMIT, Element, Property, Refusal
from recon.toolbox.point_files import FileReader
from recon.toolbox.vectors import turn_of

PLACE = ('cartesianX', 'cartesianY', 'cartesianZ')
MORE = {'intensity': ('intensity', 'double'), 'colorRed': ('red', 'int'), 'colorGreen': ('green', 'int'),
        'colorBlue': ('blue', 'int')}
INVALID = 'cartesianInvalidState'
XML_LIMIT = 1 << 26
MOST_BITS = 64
ROWS_AT_ONCE = 4096
LEAST_PACKET = 4
SPAN = 1 << 20


class NotRead(Refusal):
    """An E57 that is right, and of a kind that is not read here."""


class Column:
    """The values of one column, as far as their bytes are there."""

    def __init__(self, node: ElementTree.Element) -> None:
        self.bytes, self.bit = bytearray(), 0
        self.code: str | None = None
        kind = node.get('type')
        if kind == 'Float':
            self.code = 'f' if node.get('precision') == 'single' else 'd'
            self.bits = 8 * struct.calcsize(self.code)
        elif kind in ('Integer', 'ScaledInteger'):
            self.least = int(node.get('minimum', -2 ** 63))
            self.bits = (int(node.get('maximum', 2 ** 63 - 1)) - self.least).bit_length()
            self.scale, self.start = float(node.get('scale', 1)), float(node.get('offset', 0))
            self.is_scaled = kind == 'ScaledInteger'
        else:
            raise NotRead(f'unsupported type of a column of the E57: {kind}')
        if self.bits > MOST_BITS:
            raise Refusal(f'a column of the E57 has values of more than {MOST_BITS} bits')

    def count(self, limit: int) -> int:
        """Returns how many values are there, or the limit where a value takes no bits."""
        return (8 * len(self.bytes) - self.bit) // self.bits if self.bits else limit

    def take(self, count: int) -> Sequence[float]:
        """Returns the next values."""
        if self.code:
            size = count * self.bits // 8
            floats = struct.unpack(f'<{count}{self.code}', self.bytes[:size])
            del self.bytes[:size]
            return floats
        values = [self.value(self.bit + k * self.bits) for k in range(count)]
        self.bit += count * self.bits
        del self.bytes[:self.bit >> 3]
        self.bit &= 7
        return values

    def value(self, bit: int) -> float:
        packed = int.from_bytes(self.bytes[bit >> 3:(bit + self.bits + 7) >> 3], 'little') >> (bit & 7)
        whole = (packed & (1 << self.bits) - 1) + self.least
        return whole * self.scale + self.start if self.is_scaled else whole


class PlainTree(ElementTree.TreeBuilder):
    """Builds the tree of a description, in which nothing is defined that could make it grow."""

    def doctype(self, *_: str | None) -> None:
        raise Refusal('the XML section of the E57 has a DOCTYPE, which is not supported')


class Station:
    """A station of the file: its pose, and where its points stand."""

    def __init__(self, node: ElementTree.Element) -> None:
        points: Any = node.find('points')
        self.offset, self.count = int(points.get('fileOffset')), int(points.get('recordCount'))
        self.names = [child.tag for child in points.find('prototype')]
        self.nodes = list(points.find('prototype'))
        if not 0 <= self.count <= ROW_LIMIT:
            raise Refusal(f'invalid number of points of a station of the E57: {str(self.count)[:20]}')
        if self.count > 1 and not any(column.bits for column in self.columns()):
            raise Refusal(f'a station of the E57 states {self.count} points whose values take no bytes')
        if any(name not in self.names for name in PLACE):
            raise NotRead('a station of the E57 has no cartesian coordinates, and spherical ones are not supported')
        if any(list(codec) for codec in points.findall('codecs')):
            raise NotRead('a station of the E57 is compressed by a codec, which is not supported')
        turn = turn_of(*(self.part(node, 'rotation', axis, axis == 'w') for axis in 'wxyz'))
        if turn is None:
            raise Refusal('the rotation of a station of the E57 is 0 0 0 0')
        self.turn = turn
        self.place = tuple(self.part(node, 'translation', axis, 0) for axis in 'xyz')

    def columns(self) -> list[Column]:
        """Returns the columns of its points, before their first bytes."""
        return [Column(node) for node in self.nodes]

    @staticmethod
    def part(node: ElementTree.Element, what: str, axis: str, otherwise: int) -> float:
        """Returns a number of the pose: 0 where its element is empty, and another where there is none."""
        found = node.find(f'pose/{what}/{axis}')
        return float(otherwise) if found is None else float((found.text or '').strip() or 0)

    def moved_all(self, p: Sequence[np.ndarray]) -> list[np.ndarray]:
        """The same of columns of coordinates, to the last bit."""
        with np.errstate(all='ignore'):
            return [row[0] * p[0] + row[1] * p[1] + row[2] * p[2] + start for row, start in zip(self.turn, self.place)]

    def moved(self, p: list[float]) -> list[float]:
        return [row[0] * p[0] + row[1] * p[1] + row[2] * p[2] + start for row, start in zip(self.turn, self.place)]


class E57Reader(FileReader):
    """An E57 file."""

    # what was read last, from this place on, without the checksums
    held_from, held = 0, b''

    def begin(self) -> None:
        head = self.file.read(48)
        if len(head) < 48:
            raise Refusal('truncated: the file ends in the header of an E57')
        length, offset, xml_length, self.page = struct.unpack_from('<4Q', head, 16)
        if not 64 <= self.page <= 1 << 20 or xml_length > XML_LIMIT:
            raise Refusal('the header of the E57 is invalid')
        if self.file.seek(0, 2) < max(length, xml_length):
            raise Refusal(f'truncated: the file has fewer than the {max(length, xml_length)} bytes that the header of the E57 states')
        try:
            self.stations = self.stations_of(self.read(self.logical(offset), xml_length))
        except (ElementTree.ParseError, AttributeError, TypeError, ValueError) as error:
            raise Refusal(f'the XML section of the E57 is invalid: {error}') from None
        if len(self.stations) > SCANNER_LIMIT:
            raise Refusal(f'more than {SCANNER_LIMIT} stations')
        self.refuse_shared()
        more = [name for name in MORE if self.stations and all(name in station.names for station in self.stations)]
        properties = [Property(axis, 'double') for axis in 'xyz'] + [Property(*MORE[name]) for name in more]
        self.more, count = more, sum(station.count for station in self.stations)
        self.elements = [Element('vertex', count, properties + [Property('scanner', 'int')]),
                         Element('scanner', len(self.stations), [Property(axis, 'double') for axis in 'xyz'])]

    @staticmethod
    def stations_of(text: bytes) -> list[Station]:
        root = ElementTree.fromstring(text, ElementTree.XMLParser(target=PlainTree()))
        for node in root.iter():
            node.tag = node.tag.rpartition('}')[2]
        return [Station(node) for node in root.findall('data3D/vectorChild')]

    def refuse_shared(self) -> None:
        """Refuses stations whose points are the same bytes, which would let a small file have any number of points."""
        spans = sorted(self.span(station) for station in self.stations if station.count)
        if any(start < end for (_, end), (start, _) in zip(spans, spans[1:])):
            raise Refusal('two stations of the E57 name the same bytes')

    def span(self, station: Station) -> tuple[int, int]:
        """Returns where the packets of a station begin and end, without the checksums of pages."""
        at = self.logical(station.offset)
        kind, length, data = struct.unpack('<B7xQQ', self.read(at, 24))
        if kind != 1:
            raise Refusal('the header of the points of a station of the E57 is invalid')
        return self.logical(data), at + length

    def position(self) -> list[str]:
        """Returns where the first station stood."""
        return list(map(repr, self.stations[0].place))

    def logical(self, physical: int) -> int:
        """Returns where a byte stands without the checksums at the ends of pages."""
        return physical // self.page * (self.page - 4) + physical % self.page

    def read(self, start: int, count: int) -> bytes:
        """Bytes from a place on, without the checksums."""
        at = start - self.held_from
        if at < 0 or at + count > len(self.held):
            whole = self.page - 4
            first, wanted = start // whole, max(count, SPAN)
            self.file.seek(first * self.page)
            data = self.file.read((start + wanted + whole - 1) // whole * self.page - first * self.page)
            self.held_from, self.held, at = first * whole, framed(data, self.page), start - first * whole
        plain = self.held[at:at + count]
        if len(plain) < count:
            raise Refusal('truncated: the file ends within the data of an E57')
        return plain

    def rows(self, element: Element) -> Iterator[list[str]]:
        if element.name == 'scanner':
            yield from (list(map(repr, station.place)) for station in self.stations)
            return
        for number, station in enumerate(self.stations):
            yield from self.station_rows(station, str(number))

    def station_rows(self, station: Station, number: str) -> Iterator[list[str]]:
        """Yields the rows of a station, packet by packet."""
        columns, done = station.columns(), 0
        place = [station.names.index(name) for name in PLACE]
        more = [station.names.index(name) for name in self.more]
        invalid = station.names.index(INVALID) if INVALID in station.names else None
        for parts in self.packets(station):
            for column, part in zip(columns, parts):
                column.bytes += part
            ready = min(min(column.count(station.count) for column in columns), station.count - done)
            for start in range(0, ready, ROWS_AT_ONCE):
                values = [column.take(min(ROWS_AT_ONCE, ready - start)) for column in columns]
                for row in zip(*values):
                    is_valid = invalid is None or not row[invalid]
                    point = map(repr, station.moved([row[k] for k in place])) if is_valid else ['nan'] * 3
                    yield [*point, *(repr(row[k]) for k in more), number]
            done += ready
        if done < station.count:
            raise Refusal(f'truncated: station {number} has {done} points of {station.count}')

    def columns(self, element: Element) -> Iterator[Block]:
        """Yields the points in blocks, as `rows` yields them. Raises `NotPlain` where only that reads them."""
        for number, station in enumerate(self.stations):
            place = [station.names.index(name) for name in PLACE]
            more = [station.names.index(name) for name in self.more]
            invalid = station.names.index(INVALID) if INVALID in station.names else None
            for values in station_blocks(station.nodes, self.packets(station), station.count):
                point = station.moved_all([values[k] for k in place])
                if invalid is not None:
                    for column in point:
                        column[values[invalid] != 0] = np.nan
                count = len(point[0])
                yield Block([*map(Numbers, point), *(Numbers(values[k]) for k in more), constant(number, count)], count)

    def packets(self, station: Station) -> Iterator[list[bytes]]:
        """Yields the bytes of each column in each packet of a station."""
        at, end = self.span(station)
        while at + 6 <= end:
            kind, size, count = struct.unpack('<BxHH', self.read(at, 6))
            if size < LEAST_PACKET - 1:
                raise Refusal('a packet of the E57 is shorter than its header')
            if kind == 1:
                if count != len(station.nodes):
                    raise Refusal(f'a packet of the E57 has {count} columns, its station {len(station.nodes)}')
                if size + 1 < 6 + 2 * count:
                    raise Refusal('a packet of the E57 is shorter than its header')
                packet = self.read(at, size + 1)
                sizes = struct.unpack_from(f'<{count}H', packet, 6)
                starts = [6 + 2 * count + sum(sizes[:k]) for k in range(count)]
                yield [packet[start:start + part] for start, part in zip(starts, sizes)]
            at += size + 1
