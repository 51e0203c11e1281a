"""PLY files read and written row by row, for the programs of tools/.

Rows are lists of tokens: a text body's own, digit by digit, and the numbers of a binary body by repr, which reads back as
the same number. Nothing is held but a part of the file, and each output stands only when it is whole.

Names: `Refusal` (why a file is rejected) · Property, Element (what a header says) · Reader (a file's header and its rows,
text or binary) · plain_names (columns under names that every reader takes) · Writer (a text PLY whose count is known at the
end) · decimals (whether three words are a point) · index_text (the number of a scanner, written as a whole number) ·
read_positions (a table of scanner positions).
"""
from __future__ import annotations

import os
import re
import struct
from typing import BinaryIO, Callable, Iterator, Sequence, TextIO

CHUNK = 1 << 20
ROW_LIMIT = 4294967295
SCANNER_LIMIT = 65536
LINE_LIMIT = 1000
# a name, with a number after it and what is before it, makes a line of a header
NAME_LIMIT = 900
FORMATS = {'char': 'b', 'int8': 'b', 'uchar': 'B', 'uint8': 'B', 'short': 'h', 'int16': 'h', 'ushort': 'H', 'uint16': 'H',
           'int': 'i', 'int32': 'i', 'uint': 'I', 'uint32': 'I', 'float': 'f', 'float32': 'f', 'double': 'd', 'float64': 'd'}
ORDERS = {'ascii': '', 'binary_little_endian': '<', 'binary_big_endian': '>'}
NUMBER = r'[+-]?(?:[0-9]+\.?[0-9]*|\.[0-9]+)(?:[eE][+-]?[0-9]+)?'
IS_NUMBER = re.compile(NUMBER).fullmatch
IS_WHOLE = re.compile('[+-]?[0-9]+').fullmatch
IS_COUNT = re.compile('0*([0-9]{1,20})').fullmatch
ARE_THREE = re.compile(f'{NUMBER} {NUMBER} {NUMBER}').fullmatch
IS_NOT_FINITE = re.compile(r'[+-]?(?:nan(?:\(.*\))?|inf|infinity|1\.#(?:q?nan|snan|ind|inf)[0-9]*)', re.I).fullmatch


class Refusal(Exception):
    """A file that is not taken, in one line."""


def count_in(word: str, most: int) -> int | None:
    """Returns the whole number that a word is, from 0 to the most; else None. Of any length, without work for digits that are too many."""
    found = IS_COUNT(word)
    value = int(found[1]) if found else most + 1
    return value if value <= most else None


class Property:
    """A column: its name, its type and, for a list, the type of its count."""

    def __init__(self, name: str, kind: str, count_kind: str | None = None) -> None:
        self.name, self.kind, self.count_kind = name, kind, count_kind

    def line(self) -> str:
        types = self.kind if self.count_kind is None else f'list {self.count_kind} {self.kind}'
        return f'property {types} {self.name}'


class Element:
    """A table: its name, how many rows it has, and its columns."""

    def __init__(self, name: str, count: int, properties: list[Property]) -> None:
        self.name, self.count, self.properties = name, count, properties

    def has_lists(self) -> bool:
        return any(p.count_kind is not None for p in self.properties)

    def row_format(self) -> str:
        return ''.join(FORMATS[p.kind] for p in self.properties)

    def column(self, name: str) -> int | None:
        """Returns the place of the column of this name, in any case where no other is so spelled; None where there is none."""
        names = [p.name for p in self.properties]
        if name in names:
            return names.index(name)
        folded = [n.lower() for n in names]
        return folded.index(name.lower()) if folded.count(name.lower()) == 1 else None

    def values(self, words: Sequence[str]) -> list[Sequence[str]]:
        """Returns the values of each property in the tokens of a row; for a list without their count."""
        at, found = 0, []
        for p in self.properties:
            count = 1
            if p.count_kind is not None:
                count, at = int(words[at]), at + 1
            found.append(words[at:at + count])
            at += count
        return found

    def scalars(self, rows: Iterator[list[str]]) -> Iterator[list[str]]:
        """Yields the rows with one word for each property, which of a list is the first, or none."""
        if not self.has_lists():
            return rows
        return ([''.join(value[:1]) for value in self.values(words)] for words in rows)

    def point_columns(self) -> list[int]:
        """Returns the places of x, y and z."""
        places = []
        for axis in 'xyz':
            place = self.column(axis)
            if place is None or self.properties[place].count_kind is not None:
                raise Refusal(f'the element {self.name} has no property {axis}')
            places.append(place)
        return places


def head_lines(file: BinaryIO) -> Iterator[tuple[int, list[str]]]:
    """Yields the header's lines as words, with their numbers, each ended by LF or CR LF, up to `end_header`."""
    for number in range(1, LINE_LIMIT + 1):
        line = file.readline(LINE_LIMIT + 2)
        if not line.endswith(b'\n'):
            if len(line) == LINE_LIMIT + 2:
                raise Refusal(f'line {number} of the header is too long' if number > 1 else 'not a PLY file')
            raise Refusal('not a PLY file' if number == 1 else f'truncated: the file ends in line {number} of the header')
        try:
            words = line.decode('utf-8').split()
        except UnicodeDecodeError:
            words = line.decode('latin-1').split()
        if words == ['end_header']:
            return
        yield number, words
    raise Refusal(f'the header has more than {LINE_LIMIT} lines')


def read_head(file: BinaryIO) -> tuple[str, list[Element]]:
    """Returns the kind of the body and the elements, in their order."""
    kind = None
    elements: list[Element] = []
    for number, words in head_lines(file):
        bad = Refusal(f'line {number} of the header is invalid: {" ".join(words)[:80]}')
        if number == 1:
            if words != ['ply']:
                raise Refusal('not a PLY file')
        elif not words or words[0] in ('comment', 'obj_info'):
            continue
        elif kind is None:
            if len(words) != 3 or words[0] != 'format' or words[1] not in ORDERS or words[2] != '1.0':
                raise bad
            kind = words[1]
        elif words[0] == 'element' and len(words) == 3 and words[2].isdecimal() and int(words[2]) <= ROW_LIMIT:
            elements.append(Element(words[1], int(words[2]), []))
        elif words[0] == 'property' and elements:
            elements[-1].properties.append(read_property(words, bad))
        else:
            raise bad
    if kind is None:
        raise Refusal('the header has no line `format`')
    return kind, elements


def read_property(words: list[str], bad: Refusal) -> Property:
    if len(words) == 3 and words[1] in FORMATS:
        return Property(words[2], words[1])
    if len(words) == 5 and words[1] == 'list' and FORMATS.get(words[2], 'f') not in 'fd' and words[3] in FORMATS:
        return Property(words[4], words[3], words[2])
    raise bad


class TextBody:
    """Yields the tokens of a text body, some at a time. Line ends have no meaning, but the last line has to have one."""

    def __init__(self, file: BinaryIO, open_end: bool) -> None:
        self.file, self.open_end = file, open_end
        self.words: list[str] = []
        self.at, self.tail = 0, b''

    def fill(self) -> bool:
        """Reads more words behind those that are not used yet; False at the end of the file."""
        chunk = self.file.read(CHUNK)
        if not chunk and not self.tail:
            return False
        data = self.tail + chunk
        cut = max(data.rfind(b'\n'), data.rfind(b' ')) + 1 if chunk else len(data)
        if not chunk and not self.open_end and not data.endswith(b'\n'):
            raise Refusal('truncated: the last line has no newline (open_end=yes accepts it)')
        self.tail = data[cut:]
        if len(self.tail) > CHUNK:
            raise Refusal('the body is not text')
        try:
            self.words = self.words[self.at:] + data[:cut].decode('ascii').split()
        except UnicodeDecodeError:
            raise Refusal('the body has bytes that are not text') from None
        self.at = 0
        return True

    def need(self, count: int, element: Element, row: int) -> None:
        """Sees to it that this many words are there."""
        while len(self.words) - self.at < count:
            if not self.fill():
                raise Refusal(f'truncated: the file ends in row {row} of {element.name}, {element.count} rows expected')

    def rows(self, element: Element) -> Iterator[list[str]]:
        if element.has_lists():
            yield from self.list_rows(element)
            return
        width, row = len(element.properties), 0
        while width and row < element.count:
            self.need(width, element, row)
            words, first = self.words, self.at
            taken = min((len(words) - first) // width, element.count - row)
            self.at = first + taken * width
            for k in range(first, self.at, width):
                yield words[k:k + width]
            row += taken

    def list_rows(self, element: Element) -> Iterator[list[str]]:
        for row in range(element.count):
            values = []
            for p in element.properties:
                self.need(1, element, row)
                count = 1
                if p.count_kind is not None:
                    count = list_count(self.words[self.at], element, row) + 1
                    self.need(count, element, row)
                values += self.words[self.at:self.at + count]
                self.at += count
            yield values

    def finish(self) -> None:
        while self.at < len(self.words) or self.fill():
            if self.at < len(self.words):
                raise Refusal('unexpected data after the last row')


def list_count(word: str, element: Element, row: int) -> int:
    if not word.isdecimal() or len(word) > 20 or int(word) > ROW_LIMIT:
        raise Refusal(f'row {row} of {element.name}: invalid list count {word[:40]}')
    return int(word)


class BinaryBody:
    """The rows of a binary body in either byte order, each number by repr."""

    def __init__(self, file: BinaryIO, order: str) -> None:
        self.file, self.order = file, order
        self.length = os.fstat(file.fileno()).st_size

    def rows(self, element: Element) -> Iterator[list[str]]:
        if element.has_lists():
            yield from self.list_rows(element)
            return
        row_struct = struct.Struct(self.order + element.row_format())
        row = 0
        while row_struct.size and row < element.count:
            taken = min(max(1, CHUNK // row_struct.size), element.count - row)
            data = self.file.read(taken * row_struct.size)
            if len(data) < taken * row_struct.size:
                row += len(data) // row_struct.size
                raise Refusal(f'truncated: the file ends in row {row} of {element.name}, {element.count} rows expected')
            for values in row_struct.iter_unpack(data):
                yield list(map(repr, values))
            row += taken

    def list_rows(self, element: Element) -> Iterator[list[str]]:
        for row in range(element.count):
            values = []
            for p in element.properties:
                count = 1
                if p.count_kind is not None:
                    values += self.values(p.count_kind, 1, element, row)
                    count = list_count(values[-1], element, row)
                values += self.values(p.kind, count, element, row)
            yield values

    def values(self, kind: str, count: int, element: Element, row: int) -> list[str]:
        size = count * struct.calcsize(self.order + FORMATS[kind])
        data = self.file.read(size) if size <= self.length else b''
        if len(data) < size:
            raise Refusal(f'truncated: the file ends in row {row} of {element.name}, {element.count} rows expected')
        return list(map(repr, struct.unpack(f'{self.order}{count}{FORMATS[kind]}', data)))

    def finish(self) -> None:
        if self.file.read(1):
            raise Refusal('unexpected data after the last row')


class Reader:
    """A PLY file: `elements` as the header has them, and the rows of each, asked for in that order.

    A binary file whose rows have one size is refused before any row is read where its length is not theirs."""

    def __init__(self, path: str, open_end: bool = False) -> None:
        self.file = open(path, 'rb')
        try:
            kind, self.elements = read_head(self.file)
            if kind == 'ascii':
                self.body: TextBody | BinaryBody = TextBody(self.file, open_end)
            else:
                self.body = BinaryBody(self.file, ORDERS[kind])
                self.check_length(ORDERS[kind])
        except BaseException:
            self.file.close()
            raise

    def check_length(self, order: str) -> None:
        left = os.fstat(self.file.fileno()).st_size - self.file.tell()
        for element in self.elements:
            if element.has_lists():
                return
            size = struct.calcsize(order + element.row_format())
            if size * element.count > left:
                raise Refusal(f'truncated: the file ends in row {left // size} of {element.name}, {element.count} rows expected')
            left -= size * element.count
        if left:
            raise Refusal('unexpected data after the last row')

    def element(self, name: str) -> Element | None:
        """Returns the element of this name, or None."""
        found = [e for e in self.elements if e.name == name]
        if len(found) > 1:
            raise Refusal(f'two elements have the name {name}')
        return found[0] if found else None

    def rows(self, element: Element) -> Iterator[list[str]]:
        """Yields the rows of the next element, each a list of tokens."""
        return self.body.rows(element)

    def finish(self) -> None:
        """Sees to it that nothing follows the last row."""
        self.body.finish()

    def close(self) -> None:
        self.file.close()


def plain_names(properties: list[Property]) -> list[Property]:
    """Returns the same columns under names that every reader takes: printable ASCII, on a short line, no two the same."""
    taken, plain = set(), []
    for p in properties:
        name = base = re.sub(r'[^!-~]', '_', p.name)[:NAME_LIMIT]
        number = 2
        while name in taken:
            name, number = f'{base}_{number}', number + 1
        taken.add(name)
        plain.append(Property(name, p.kind, p.count_kind))
    return plain


class Writer:
    """A text PLY of an element `vertex`, whose count is known at the end, and perhaps an element `scanner`, into a file of
    `whole_file`. A comment of the right length keeps room for the counts."""

    def __init__(self, file: TextIO, properties: list[Property], made_by: str) -> None:
        self.file, self.properties, self.made_by = file, plain_names(properties), made_by
        self.count, self.head_length = 0, 0
        self.scanners: int | None = None

    def head(self, scanner_count: int) -> str:
        lines = ['ply', 'format ascii 1.0', f'element vertex {self.count}'] + [p.line() for p in self.properties]
        if self.scanners is not None:
            lines += [f'element scanner {scanner_count}'] + [f'property double {axis}' for axis in 'xyz']
        room = 21 - len(str(self.count)) - len(str(scanner_count))
        lines.insert(2, f'comment made by {self.made_by} ' + '.' * room)
        return '\n'.join(lines + ['end_header', ''])

    def begin(self, has_scanners: bool) -> None:
        """Writes the header with provisional counts."""
        self.scanners = 0 if has_scanners else None
        text = self.head(0)
        self.head_length = len(text)
        self.file.write(text)

    def row(self, words: Sequence[str]) -> None:
        self.file.write(' '.join(words) + '\n')
        self.count += 1

    def rows(self, columns: Sequence[Sequence[str]]) -> None:
        """Writes rows whose words are given by column."""
        lines = list(map(' '.join, zip(*columns)))
        self.file.write('\n'.join([*lines, '']))
        self.count += len(lines)

    def finish(self, positions: Sequence[Sequence[str]]) -> None:
        """Writes the scanners' rows and corrects the counts."""
        for position in positions:
            self.file.write(' '.join(position) + '\n')
        text = self.head(len(positions))
        assert len(text) == self.head_length
        self.file.seek(0)
        self.file.write(text)


def decimals(x: str, y: str, z: str, place: Callable[[], str]) -> bool:
    """True where the three words are a point, False where one of them is not a finite number; refused where it is not a number."""
    if ARE_THREE(f'{x} {y} {z}'):
        return True
    for word in (x, y, z):
        if not IS_NUMBER(word) and not IS_NOT_FINITE(word):
            raise Refusal(f'{place()}: {word[:40]} is not a number')
    return False


def index_text(word: str, place: Callable[[], str]) -> str | None:
    """Returns the number of a scanner as a whole number, also where it was written `3.000000`; None where it is not finite."""
    if word.isdecimal() and len(word) <= 18:
        return word
    if IS_NOT_FINITE(word):
        return None
    if not IS_NUMBER(word) or abs(float(word)) > ROW_LIMIT or float(word) != int(float(word)):
        raise Refusal(f'{place()}: {word[:40]} is not a scanner index')
    return str(int(float(word)))


def read_positions(path: str) -> list[tuple[list[str], str | None]]:
    """Returns a table of scanner positions: a line `X Y Z` each, perhaps with a file's name behind; `#` begins a comment."""
    rows: list[tuple[list[str], str | None]] = []
    with open(path, encoding='utf-8', errors='surrogateescape') as file:
        for number, line in enumerate(file, 1):
            words = line.split(None, 3)
            if not words or words[0].startswith('#'):
                continue
            if len(words) < 3 or not all(map(IS_NUMBER, words[:3])):
                raise Refusal(f'line {number} of {path} is not X Y Z')
            if '\0' in line:
                raise Refusal(f'line {number} of {path} contains a NUL byte')
            rows.append((words[:3], words[3].strip() if len(words) > 3 else None))
            if len(rows) > SCANNER_LIMIT:
                raise Refusal(f'{path} has more than {SCANNER_LIMIT} positions')
    return rows
