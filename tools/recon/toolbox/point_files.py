"""Files of points of other programs, read as if they were PLY: PCD, LAS and E57, recognised by their first bytes.

Each reader has `elements`, whose first is `vertex`, and then perhaps `scanner`, as ply_text.Reader has them, and their rows
as lists of tokens. Names: open_points · FileReader (what readers share) · PcdReader, LasReader.
"""
from __future__ import annotations

import os
import struct
from decimal import Decimal
from importlib.util import find_spec
from math import isfinite
from typing import Any, BinaryIO, Iterator

import numpy as np

from recon.toolbox.exact import shifted
from recon.toolbox.pdal_program import opened_by_pdal, pdal_path
from recon.toolbox.ply_text import (ARE_THREE, CHUNK, FORMATS, LINE_LIMIT, ROW_LIMIT, SCANNER_LIMIT, Element, Property, Reader, Refusal,
                                    count_in)
from recon.toolbox.text_lines import Lines

def open_points(path: str, open_end: bool = False) -> Any:
    """Returns a reader of the points of a file of any of these kinds; one that is none of them is read as PLY."""
    start = start_of(path)
    if start.startswith(b'LASF'):
        return LasReader(path)
    if start.startswith(b'ASTM-E57'):
        from recon.toolbox.e57_library import open_e57
        return open_e57(path)
    if is_pcd(start):
        return PcdReader(path, open_end)
    if not start.startswith(b'ply'):
        Lines(path).close()
    return Reader(path, open_end)


def start_of(path: str) -> bytes:
    with open(path, 'rb') as file:
        return file.read(4096)


def is_pcd(start: bytes) -> bool:
    """Returns whether a file begins as PCD does: remarks, and then its version or its fields."""
    for line in start.split(b'\n'):
        if line.strip() and not line.startswith(b'#'):
            return line.split()[0] in (b'VERSION', b'FIELDS')
    return False


def has_rows(path: str) -> bool:
    """Returns whether the file is of a kind that open_points reads row by row."""
    start = start_of(path)
    return start.startswith((b'LASF', b'ASTM-E57')) or is_pcd(start) or start.split(b'\n')[0].rstrip() == b'ply'


class FileReader:
    """What readers share: the file, and elements by name."""

    def __init__(self, path: str) -> None:
        self.path = path
        self.file: BinaryIO = open(path, 'rb')
        self.elements: list[Element] = []
        try:
            self.begin()
        except BaseException:
            self.file.close()
            raise

    def begin(self) -> None:
        """Reads the header, and tells the elements."""
        raise NotImplementedError

    def element(self, name: str) -> Element | None:
        return next((element for element in self.elements if element.name == name), None)

    def finish(self) -> None:
        pass

    def close(self) -> None:
        self.file.close()

    def left(self) -> int:
        """Returns how many bytes of the file are still to be read."""
        return os.fstat(self.file.fileno()).st_size - self.file.tell()

    def structs(self, row: struct.Struct, count: int) -> Iterator[tuple[float, ...]]:
        """Yields the rows of a binary body."""
        left, done = self.left(), 0
        if left < row.size * count:
            raise Refusal(f'truncated: the file ends in point {left // row.size} of {count}')
        while done < count:
            taken = min(max(1, CHUNK // row.size), count - done)
            yield from row.iter_unpack(self.file.read(taken * row.size))
            done += taken


PCD_LINE = 1 << 16
PCD_COLUMNS = 4096
LZF_GROWTH = 90
VIEW = ('vp_x', 'vp_y', 'vp_z')
PACKED_ROWS = 4096
PCD_TYPES = {('F', '4'): 'float', ('F', '8'): 'double', ('U', '1'): 'uchar', ('U', '2'): 'ushort', ('U', '4'): 'uint',
             ('I', '1'): 'char', ('I', '2'): 'short', ('I', '4'): 'int'}


class PcdReader(FileReader):
    """A PCD file, ascii, binary or compressed. The fields vp_x, vp_y and vp_z say where each point was seen from; without them the
    VIEWPOINT is the one scanner of all points. A packed color becomes three columns."""

    def __init__(self, path: str, open_end: bool) -> None:
        self.open_end = open_end
        super().__init__(path)

    def begin(self) -> None:
        self.head = self.read_head()
        for key in ('FIELDS', 'SIZE', 'TYPE', 'POINTS'):
            if key not in self.head:
                raise Refusal(f'the header of the PCD has no line {key}')
        kind = self.head['DATA'][0] if self.head['DATA'] else ''
        rows = {'ascii': self.text_rows, 'binary': self.binary_rows, 'binary_compressed': self.packed_rows}
        if kind not in rows:
            raise Refusal(f'unsupported DATA of the PCD: {kind}')
        self.rows_of_kind = rows[kind]
        count = self.number('POINTS')
        self.kinds, properties = self.columns()
        view = self.head.get('VIEWPOINT', ['0'] * 3)[:3]
        place = view if len(view) == 3 else ['0'] * 3
        fields = [name for name, _ in self.kinds]
        self.view = [fields.index(name) for name in VIEW] if all(fields.count(name) == 1 for name in VIEW) else []
        self.views: dict[tuple[str, ...], int] = {}
        self.places = [] if self.view else [place]
        properties = [p for p in properties if not self.view or p.name not in VIEW]
        self.elements = [Element('vertex', count, properties + [Property('scanner', 'int')]),
                         Element('scanner', SCANNER_LIMIT if self.view else 1, [Property(axis, 'double') for axis in 'xyz'])]

    def read_head(self) -> dict[str, list[str]]:
        head, self.head_lines = {}, 0
        while 'DATA' not in head:
            line = self.file.readline(PCD_LINE)
            self.head_lines += 1
            if self.head_lines > LINE_LIMIT or len(line) == PCD_LINE:
                raise Refusal('the header of the PCD is too long')
            if not line.endswith(b'\n'):
                raise Refusal('truncated: the file ends in the header of a PCD')
            words = line.decode('latin-1').split()
            if words and not words[0].startswith('#'):
                head[words[0]] = words[1:]
        return head

    def number(self, key: str) -> int:
        words = self.head[key]
        count = count_in(words[0], ROW_LIMIT) if len(words) == 1 else None
        if count is None:
            raise Refusal(f'the line {key} of the PCD is not a count')
        return count

    def columns(self) -> tuple[list[tuple[str, str]], list[Property]]:
        """Returns the types of the values of a row, and the properties that they become."""
        names, sizes, types = (self.head[key] for key in ('FIELDS', 'SIZE', 'TYPE'))
        counts = self.head.get('COUNT', ['1'] * len(names))
        if not len(names) == len(sizes) == len(types) == len(counts):
            raise Refusal('FIELDS, SIZE, TYPE and COUNT of the PCD have different numbers of values')
        kinds: list[tuple[str, str]] = []
        properties: list[Property] = []
        for name, size, kind, count in zip(names, sizes, types, counts):
            many = count_in(count, PCD_COLUMNS)
            if (kind, size) not in PCD_TYPES or many is None:
                raise Refusal(f'unsupported type of the field {name[:40]} of the PCD: {kind[:9]} {size[:9]} {count[:20]}')
            if len(kinds) + many > PCD_COLUMNS:
                raise Refusal(f'a point of the PCD has more than {PCD_COLUMNS} values')
            for number in range(many):
                kinds.append((name, PCD_TYPES[kind, size]))
                own = name if count == '1' else f'{name}_{number}'
                properties += ([Property(color, 'uchar') for color in ('red', 'green', 'blue')] if name in ('rgb', 'rgba')
                               else [Property(own, PCD_TYPES[kind, size])])
        return kinds, properties

    def rows(self, element: Element) -> Iterator[list[str]]:
        if element.name == 'scanner':
            yield from self.places
            return
        packed = [k for k, (name, _) in enumerate(self.kinds) if name in ('rgb', 'rgba')]
        for words in self.rows_of_kind(element.count):
            number = self.number_of_view([words[k] for k in self.view]) if self.view else '0'
            for k in sorted(packed + self.view, reverse=True):
                words[k:k + 1] = [] if k in self.view else self.colors(words[k], self.kinds[k][1])
            words.append(number)
            yield words

    def number_of_view(self, place: list[str]) -> str:
        """Returns the number of a place that a point was seen from, or `nan` where it is none."""
        if not ARE_THREE(' '.join(place)):
            return 'nan'
        number = self.views.setdefault(tuple(place), len(self.places))
        if number == len(self.places):
            self.places.append(place)
        if number >= SCANNER_LIMIT:
            raise Refusal(f'more than {SCANNER_LIMIT} scanner positions')
        return str(number)

    def position(self) -> list[str]:
        """Returns where the scanner stood, where it is one."""
        return self.places[0]

    @staticmethod
    def colors(word: str, kind: str) -> list[str]:
        """Returns the three parts of a packed color, whose bits may stand as those of a number with a point."""
        try:
            bits = struct.unpack('<I', struct.pack('<f', float(word)))[0] if kind == 'float' else int(word) & 0xFFFFFFFF
        except (ValueError, OverflowError):
            raise Refusal(f'{word[:40]} is not a color of a PCD') from None
        return [str(bits >> shift & 255) for shift in (16, 8, 0)]

    def binary_rows(self, count: int) -> Iterator[list[str]]:
        row = struct.Struct('<' + ''.join(FORMATS[kind] for _, kind in self.kinds))
        for values in self.structs(row, count):
            yield list(map(repr, values))

    def packed_rows(self, count: int) -> Iterator[list[str]]:
        """Yields the rows of a compressed body, which has all values of a field side by side."""
        head = self.file.read(8)
        packed, size = struct.unpack('<II', head) if len(head) == 8 else (0, 0)
        codes = [FORMATS[kind] for _, kind in self.kinds]
        if size != count * struct.calcsize('<' + ''.join(codes)):
            raise Refusal(f'the compressed body of the PCD has the wrong length for {count} points')
        if packed > self.left() or size > LZF_GROWTH * packed:
            raise Refusal('truncated: the file ends in the compressed body of a PCD')
        data, columns, at = unpacked(self.file.read(packed), size), [], 0
        for code in codes:
            columns.append(np.frombuffer(data, '<' + code, count, at))
            at += count * struct.calcsize('<' + code)
        for start in range(0, count, PACKED_ROWS):
            parts = [column[start:start + PACKED_ROWS] for column in columns]
            with np.errstate(invalid='ignore'):
                doubles = [part.astype('f8') if part.dtype.kind == 'f' else part for part in parts]
            for values in zip(*(part.tolist() for part in doubles)):
                yield list(map(repr, values))

    def text_rows(self, count: int) -> Iterator[list[str]]:
        lines = Lines(self.path, self.open_end, self.file.tell())
        lines.number = self.head_lines
        try:
            for row in range(count):
                words = lines.next_words()
                if words is None:
                    raise Refusal(f'truncated: the file ends in point {row} of {count}')
                if not all(map(str.isascii, words)):
                    raise Refusal(f'point {row} has bytes that are not text')
                if len(words) != len(self.kinds):
                    raise Refusal(f'point {row} has {len(words)} values, the header states {len(self.kinds)}')
                yield words
            if lines.next_words() is not None:
                raise Refusal('unexpected data after the last point')
        finally:
            lines.close()


def unpacked(data: bytes, size: int) -> bytearray:
    """Bytes that were packed by LZF: runs as they stand, and copies of what came before."""
    out, at = bytearray(), 0
    try:
        while at < len(data) and len(out) <= size:
            head = data[at]
            if head < 32:
                out += data[at + 1:at + head + 2]
                at += head + 2
                continue
            length, at = head >> 5, at + 1
            if length == 7:
                length, at = length + data[at], at + 1
            back = ((head & 31) << 8 | data[at]) + 1
            start = out[len(out) - back:len(out) - back + length + 2] if back <= len(out) else b''
            out += (start * ((length + 2) // len(start) + 1))[:length + 2]
            at += 1
    except (IndexError, ZeroDivisionError):
        raise Refusal('the compressed body of the PCD is invalid') from None
    if len(out) != size:
        raise Refusal('the unpacked body of the PCD has a different length than stated')
    return out


LAZ_ROWS = 100000
LAS_START = [('i', 'x'), ('i', 'y'), ('i', 'z'), ('H', 'intensity')]
LAS_OLD = [*LAS_START, ('B', None), ('B', 'classification'), ('b', None), ('B', None), ('H', 'pointsourceid')]
LAS_NEW = [*LAS_START, ('H', None), ('B', 'classification'), ('B', None), ('h', None), ('H', 'pointsourceid')]
LAS_TIME, LAS_COLOR = [('d', 'gpstime')], [('H', 'red'), ('H', 'green'), ('H', 'blue')]
LAS_ROWS = [LAS_OLD, LAS_OLD + LAS_TIME, LAS_OLD + LAS_COLOR, LAS_OLD + LAS_TIME + LAS_COLOR, LAS_OLD + LAS_TIME,
            LAS_OLD + LAS_TIME + LAS_COLOR, LAS_NEW + LAS_TIME, LAS_NEW + LAS_TIME + LAS_COLOR, LAS_NEW + LAS_TIME + LAS_COLOR,
            LAS_NEW + LAS_TIME, LAS_NEW + LAS_TIME + LAS_COLOR]
LAS_TYPES = {'H': 'ushort', 'B': 'uchar', 'd': 'double', 'i': 'double'}


def whole_and_places(number: float) -> tuple[int, int]:
    """Returns a number as a whole one over a power of ten, by its shortest decimal."""
    if not isfinite(number):
        raise Refusal('a scale or an offset of the LAS is not finite')
    sign, digits, exponent = Decimal(repr(number)).as_tuple()
    whole = int(''.join(map(str, digits))) * (-1 if sign else 1)
    return (whole * 10 ** int(exponent), 0) if int(exponent) > 0 else (whole, -int(exponent))


class LasReader(FileReader):
    """A LAS file of version 1.0 to 1.4, or a LAZ where `laspy` is installed with `lazrs` or `laszip`. Coordinates keep their digits;
    `pointsourceid` numbers the station of a point. LAS has no positions of stations."""

    def begin(self) -> None:
        head = self.file.read(375)
        if len(head) < 227:
            raise Refusal('truncated: the file ends in the header of a LAS')
        if head[104] > 127 and find_spec('laspy') is None and pdal_path() is not None:
            self.file.close()
            self.file = opened_by_pdal(self.path)
            head = self.file.read(375)
            if len(head) < 227:
                raise Refusal('pdal wrote no LAS')
        offset, = struct.unpack_from('<I', head, 96)
        kind, size, count = struct.unpack_from('<BHI', head, 104)
        if head[25] >= 4 and len(head) >= 255:
            count = struct.unpack_from('<Q', head, 247)[0] or count
        self.is_packed, kind = kind > 127, kind & 127
        if self.is_packed and find_spec('laspy') is None:
            raise Refusal('this is LAZ, compressed LAS: install laspy and lazrs, or PDAL, or uncompress it by LAStools')
        if kind >= len(LAS_ROWS):
            raise Refusal(f'unsupported point format of the LAS: {kind}')
        if count > ROW_LIMIT:
            raise Refusal(f'more than {ROW_LIMIT} points')
        self.fields = LAS_ROWS[kind]
        known = struct.calcsize('<' + ''.join(code for code, _ in self.fields))
        if size < known:
            raise Refusal(f'a point of the LAS has {size} bytes, its point format needs {known}')
        self.row = struct.Struct('<' + ''.join(code for code, _ in self.fields) + f'{size - known}x')
        self.scales = list(map(whole_and_places, struct.unpack_from('<3d', head, 131)))
        self.starts = list(map(whole_and_places, struct.unpack_from('<3d', head, 155)))
        self.file.seek(offset)
        properties = [Property(name, LAS_TYPES[code]) for code, name in self.fields if name]
        self.elements = [Element('vertex', count, properties)]

    def rows(self, element: Element) -> Iterator[list[str]]:
        kept = [k for k, (_, name) in enumerate(self.fields) if name][3:]
        sums = []
        for (scale, places), (start, start_places) in zip(self.scales, self.starts):
            most = max(places, start_places)
            sums.append((scale * 10 ** (most - places), start * 10 ** (most - start_places), most))
        (a, p, i), (b, q, j), (c, r, k) = sums
        for values in (self.unpacked_rows if self.is_packed else self.structs)(self.row, element.count):
            x, y, z = shifted(values[0] * a + p, i), shifted(values[1] * b + q, j), shifted(values[2] * c + r, k)
            if x is None or y is None or z is None:
                raise Refusal('a coordinate has more than 30 digits')
            yield [x, y, z, *(repr(values[at]) for at in kept)]

    def unpacked_rows(self, row: struct.Struct, count: int) -> Iterator[tuple[float, ...]]:
        """Yields the rows of a LAZ, which laspy unpacks to those of a LAS."""
        import laspy
        done = 0
        try:
            with laspy.open(self.path) as file:
                for points in file.chunk_iterator(LAZ_ROWS):
                    yield from row.iter_unpack(points.array.tobytes())
                    done += len(points.array)
        except Exception as error:
            raise Refusal(f'laspy cannot unpack the LAZ: {" ".join(str(error).split())[:200]}') from None
        if done < count:
            raise Refusal(f'truncated: the LAZ ends in point {done} of {count}')
