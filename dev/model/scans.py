"""Scans: read from PLY files, printed in their one spelling, and the generated scan of `demo`.

For a file that is not a scan the first error is reported, in the order of docs/reference/formats.md.
"""
from __future__ import annotations

import re
from typing import Iterator, NamedTuple, Optional, Sequence

from .errors import Refused
from .numbers import LONG_NUMBER, NOT_A_NUMBER, OUT_OF_RANGE, BadNumber, scaled, whole
from .points import LIMIT, Point
from .votes import Sight

MOST_POINTS, MOST_SCANNERS, MOST_SIGHTS = 1048576, 65536, 8388608
U32 = 2 ** 32 - 1
ASCII, LITTLE = b'ascii', b'binary_little_endian'
KINDS = (ASCII, LITTLE, b'binary_big_endian')
TOKEN = re.compile(rb'[^ \t\r\n]+')


class Type(NamedTuple):
    """The size of a value in bytes; whether it has a sign, None for floating point."""
    size: int
    signed: Optional[bool]


TYPES = {name: kind for names, kind in (
    (b'char int8', Type(1, True)), (b'uchar uint8', Type(1, False)), (b'short int16', Type(2, True)), (b'ushort uint16', Type(2, False)),
    (b'int int32', Type(4, True)), (b'uint uint32', Type(4, False)), (b'float float32', Type(4, None)), (b'double float64', Type(8, None)))
    for name in names.split()}


class Property(NamedTuple):
    """`length` is the type of a list's count, None for a single value."""
    name: bytes
    item: Type
    length: Optional[Type]


class Element(NamedTuple):
    name: bytes
    rows: int
    properties: list[Property]

    def place(self, name: str) -> Optional[int]:
        return next((k for k, p in enumerate(self.properties) if p.name == name.encode()), None)


class Row(NamedTuple):
    """A row of `vertex`: its point in units, the weight of its sights, and the scanners that saw it."""
    point: Point
    weight: int
    seen_by: Sequence[int]


class Scan(NamedTuple):
    rows: Sequence[Row]
    scanners: Sequence[Point]

    def points(self) -> list[Point]:
        """Returns the distinct points in the order of their first rows."""
        return list(dict.fromkeys(row.point for row in self.rows))

    def sights(self) -> list[Sight]:
        number = {p: 8 + i for i, p in enumerate(self.points())}
        return [Sight(number[row.point], scanner, row.weight) for row in self.rows for scanner in row.seen_by]


# The header.

def is_name(word: bytes) -> bool:
    return all(0x21 <= byte <= 0x7E for byte in word)


def property_of(words: list[bytes]) -> Optional[Property]:
    """Returns the property of a header line, None if the line is not of the form."""
    if len(words) == 3:
        item, length, name = TYPES.get(words[1]), None, words[2]
    elif len(words) == 5 and words[1] == b'list':
        item, length, name = TYPES.get(words[3]), TYPES.get(words[2]), words[4]
        if length is None or length.signed is None:
            return None
    else:
        return None
    return Property(name, item, length) if item is not None and is_name(name) else None


class Header:
    """What the lines of a header have said so far."""

    def __init__(self) -> None:
        self.kind: Optional[bytes] = None
        self.elements: list[Element] = []

    def place(self, name: str) -> Optional[int]:
        return next((k for k, e in enumerate(self.elements) if e.name == name.encode()), None)

    def line(self, words: list[bytes]) -> str:
        """Takes the tokens of a line; returns 'good', 'end', 'bad_line' or 'twice'."""
        if not words or words[0] in (b'comment', b'obj_info'):
            return 'good'
        if self.kind is None:
            if len(words) != 3 or words[0] != b'format' or words[1] not in KINDS or words[2] != b'1.0':
                return 'bad_line'
            self.kind = words[1]
            return 'good'
        if words == [b'end_header']:
            return 'end'
        if words[0] == b'element' and len(words) == 3:
            return self.element(words[1], words[2])
        new = property_of(words) if words[0] == b'property' and self.elements else None
        if new is None:
            return 'bad_line'
        if any(p.name == new.name for p in self.elements[-1].properties):
            return 'twice'
        self.elements[-1].properties.append(new)
        return 'good'

    def element(self, name: bytes, count: bytes) -> str:
        if not is_name(name) or re.fullmatch(rb'[0-9]{1,10}', count) is None or int(count) > U32:
            return 'bad_line'
        if any(e.name == name for e in self.elements):
            return 'twice'
        self.elements.append(Element(name, int(count), []))
        return 'good'


def read_header(data: bytes) -> tuple[Header, int]:
    """Returns the header, and the offset of the body."""
    if not data.startswith((b'ply\n', b'ply\r\n')):
        raise Refused('1 not_ply')
    header, at = Header(), data.index(b'\n') + 1
    for number in range(2, 1001):
        end = data.find(b'\n', at, at + 1002)
        if end < 0:
            raise Refused('6 head_cut' if len(data) - at < 1002 else f'3 long_line line {number}')
        line = data[at:end].removesuffix(b'\r')
        if len(line) > 1000:
            raise Refused(f'3 long_line line {number}')
        at = end + 1
        said = header.line([word for word in re.split(rb'[ \t]+', line) if word])
        if said == 'end':
            return header, at
        if said != 'good':
            raise Refused(f'{2 if said == "bad_line" else 5} {said} line {number}')
    raise Refused('4 long_header')


# The body.

class Value(NamedTuple):
    """A property of a row: the number of its items, and the items, as the tokens of a text or as the bytes of all of them."""
    length: int
    tokens: Sequence[bytes]
    raw: bytes


class Body:
    """The rows of a file from an offset on."""

    def __init__(self, kind: bytes, data: bytes, at: int) -> None:
        self.is_text, self.order = kind == ASCII, 'little' if kind == LITTLE else 'big'
        self.data, self.at = data, at

    def token(self, place: str) -> bytes:
        found = TOKEN.search(self.data, self.at)
        if found is None:
            raise Refused('17 cut ' + place)
        self.at = found.end()
        return found[0]

    def taken(self, size: int, place: str) -> bytes:
        if len(self.data) - self.at < size:
            raise Refused('17 cut ' + place)
        self.at += size
        return self.data[self.at - size:self.at]

    def number(self, raw: bytes, kind: Type) -> int:
        return int.from_bytes(raw, 'little' if self.order == 'little' else 'big', signed=bool(kind.signed))

    def list_count(self, kind: Type, place: str) -> int:
        try:
            count = whole(self.token(place)) if self.is_text else self.number(self.taken(kind.size, place), kind)
        except BadNumber:
            count = -1
        if not 0 <= count <= U32:
            raise Refused('16 bad_count ' + place)
        return count

    def value(self, prop: Property, place: str) -> Value:
        length = 1 if prop.length is None else self.list_count(prop.length, place)
        if not self.is_text:
            return Value(length, [], self.taken(length * prop.item.size, place))
        tokens = []
        for _ in range(length):
            tokens.append(self.token(place))
        return Value(length, tokens, b'')

    def wholes(self, prop: Property, value: Value, place: str) -> Iterator[int]:
        """Yields the whole numbers of a value."""
        for k in range(value.length):
            if not self.is_text:
                size = prop.item.size
                yield self.number(value.raw[k * size:(k + 1) * size], prop.item)
                continue
            try:
                yield whole(value.tokens[k])
            except BadNumber as bad:
                raise Refused(f'{12 if bad.kind == NOT_A_NUMBER else 13} {bad.kind} {place}') from None

    def coordinate(self, prop: Property, value: Value, place: str, unit: int) -> int:
        if self.is_text:
            try:
                return scaled(value.tokens[0], unit)
            except BadNumber as bad:
                code = {NOT_A_NUMBER: 12, LONG_NUMBER: 13, OUT_OF_RANGE: 14}[bad.kind]
                raise Refused(f'{code} {bad.kind} {place}') from None
        found = self.number(value.raw, prop.item) * unit
        if abs(found) > LIMIT:
            raise Refused('14 out_of_range ' + place)
        return found

    def end(self) -> None:
        """Refuses what follows the last row."""
        found = TOKEN.search(self.data, self.at) if self.is_text else None
        if found is not None or not self.is_text and self.at < len(self.data):
            raise Refused(f'18 trailing at {found.start() if found else self.at}')


# A scan.

class Needs:
    """Which elements and properties of a header a scan is read from."""

    def __init__(self, header: Header, fixed: Optional[Point]) -> None:
        self.is_text = header.kind == ASCII
        self.vertex = self.element(header, 'vertex', MOST_POINTS)
        vertex = header.elements[self.vertex]
        self.xyz = [self.property(vertex, axis) for axis in 'xyz']
        self.seen_by, self.scanner, self.scanner_xyz, self.scanners = None, None, [], 1
        if fixed is None:
            self.seen_by = self.property(vertex, 'scanner', True)
            self.scanner = self.element(header, 'scanner', MOST_SCANNERS)
            scanner = header.elements[self.scanner]
            self.scanner_xyz, self.scanners = [self.property(scanner, axis) for axis in 'xyz'], scanner.rows
        elif header.place('scanner') is not None:
            raise Refused('11 two_scanners')
        weight = vertex.place('weight')
        is_read = weight is not None and vertex.properties[weight].length is None and vertex.properties[weight].item.signed is not None
        self.weight = weight if is_read else None

    def element(self, header: Header, name: str, most: int) -> int:
        place = header.place(name)
        if place is None:
            raise Refused('7 missing ' + name)
        if header.elements[place].rows > most:
            raise Refused(f'10 too_many {name} count {header.elements[place].rows}')
        return place

    def property(self, element: Element, name: str, may_be_list: bool = False) -> int:
        called, place = f'{element.name.decode()}_{name}', element.place(name)
        if place is None:
            raise Refused('7 missing ' + called)
        if element.properties[place].length is not None and not may_be_list:
            raise Refused('8 list_property ' + called)
        if not self.is_text and element.properties[place].item.signed is None:
            raise Refused('9 binary_float ' + called)
        return place


class RowReader:
    """The values of a row of an element."""

    def __init__(self, body: Body, element: Element, number: int, row: int) -> None:
        self.body, self.properties, self.row = body, element.properties, row
        self.places = [f'element {number} row {row} property {p}' for p in range(len(element.properties))]
        self.values = [body.value(prop, place) for prop, place in zip(self.properties, self.places)]

    def point(self, xyz: Sequence[int], unit: int) -> Point:
        x, y, z = (self.body.coordinate(self.properties[p], self.values[p], self.places[p], unit) for p in xyz)
        return x, y, z

    def wholes(self, p: int) -> Iterator[int]:
        return self.body.wholes(self.properties[p], self.values[p], self.places[p])


def vertex_row(reader: RowReader, needs: Needs, unit: int, before: int) -> Row:
    """Returns a row of `vertex`; `before` is the number of sights of the rows before it."""
    point, weight = reader.point(needs.xyz, unit), 1
    if needs.weight is not None:
        weight = next(reader.wholes(needs.weight))
        if not 1 <= weight <= 255:
            raise Refused(f'21 bad_weight row {reader.row} weight {weight}')
    if before + (1 if needs.seen_by is None else reader.values[needs.seen_by].length) > MOST_SIGHTS:
        raise Refused(f'22 too_many_sights row {reader.row}')
    if needs.seen_by is None:
        return Row(point, weight, (0,))
    seen_by = []
    for scanner in reader.wholes(needs.seen_by):
        if not 0 <= scanner < needs.scanners:
            raise Refused(f'15 no_such_scanner row {reader.row} index {scanner}')
        seen_by.append(scanner)
    return Row(point, weight, tuple(seen_by))


def read_scan(data: bytes, unit: int = 1, fixed: Optional[Point] = None) -> Scan:
    """Returns the scan of a PLY file; `fixed` is the one scanner of `scanner=`."""
    header, at = read_header(data)
    needs, body = Needs(header, fixed), Body(header.kind or ASCII, data, at)
    rows: list[Row] = []
    scanners: list[Point] = [] if fixed is None else [fixed]
    sights = 0
    for number, element in enumerate(header.elements):
        for row in range(element.rows if element.properties else 0):
            reader = RowReader(body, element, number, row)
            if number == needs.vertex:
                rows.append(vertex_row(reader, needs, unit, sights))
                sights += len(rows[-1].seen_by)
            elif number == needs.scanner:
                scanners.append(reader.point(needs.scanner_xyz, unit))
    body.end()
    return Scan(rows, scanners)


def push_scan(scan: Scan) -> bytes:
    """Returns the one spelling of a scan: the plain form, or the wide form if a row has weights or not exactly one sight."""
    wide = any(len(row.seen_by) != 1 or row.weight != 1 for row in scan.rows)
    xyz = ['property int x', 'property int y', 'property int z']
    seen = ['property uchar weight', 'property list uint int scanner'] if wide else ['property int scanner']
    lines = ['ply', 'format ascii 1.0', f'element vertex {len(scan.rows)}', *xyz, *seen, f'element scanner {len(scan.scanners)}', *xyz,
             'end_header']
    for row in scan.rows:
        more = [row.weight if row.seen_by else 1, len(row.seen_by)] if wide else []
        lines.append(' '.join(map(str, [*row.point, *more, *row.seen_by])))
    lines += [' '.join(map(str, place)) for place in scan.scanners]
    return ('\n'.join(lines) + '\n').encode()


# The generated scan.

class Pcg32:
    """Yields the numbers of O'Neill's PCG generator (2014) with 64 bits of state."""

    def __init__(self, seed: int, stream: int) -> None:
        self.increment = (2 * stream + 1) % 2 ** 64
        self.state = self.after(seed + self.increment)

    def after(self, state: int) -> int:
        return (state * 6364136223846793005 + self.increment) % 2 ** 64

    def word(self) -> int:
        low, turn = ((self.state >> 18) ^ self.state) >> 27 & U32, self.state >> 59
        self.state = self.after(self.state)
        return (low >> turn | low << (32 - turn)) & U32


def on_axis(axis: int, value: int, others: tuple[int, int] = (0, 0)) -> Point:
    """Returns the point with this value on an axis, and the others on the other two."""
    low, high = others
    return [(value, low, high), (low, value, high), (low, high, value)][axis]


def generated(rows: int, seed: int) -> Scan:
    """Returns the scan of `demo`: points on the faces of a cube, seen by six scanners."""
    words, found = Pcg32(seed, 1), []
    for i in range(rows):
        others = (words.word() % 2001 - 1000, words.word() % 2001 - 1000)
        found.append(Row(on_axis(i % 6 // 2, -1000 if i % 2 else 1000, others), 1, (i % 6,)))
    return Scan(found, [on_axis(f // 2, -5000 if f % 2 else 5000) for f in range(6)])
