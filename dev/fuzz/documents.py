"""Scans as PLY files of all forms (text and binary, types, lists, other elements, spellings), and files with one thing wrong."""
from __future__ import annotations

from typing import NamedTuple, Optional, Sequence

from model.points import Point
from model.scans import Scan

from .shapes import Draw, clipped, drawn_scan

WHOLE = {'char': ('int8', 1, True), 'uchar': ('uint8', 1, False), 'short': ('int16', 2, True), 'ushort': ('uint16', 2, False),
         'int': ('int32', 4, True), 'uint': ('uint32', 4, False)}
SIZES = {**{name: size for name, (_, size, _) in WHOLE.items()}, 'float': 4, 'double': 8}
OTHER_NAMES = {**{name: other for name, (other, _, _) in WHOLE.items()}, 'float': 'float32', 'double': 'float64'}


def fits(kind: str, number: int) -> bool:
    _, size, signed = WHOLE[kind]
    return -2 ** (8 * size - 1) <= number < 2 ** (8 * size - 1) if signed else 0 <= number < 2 ** (8 * size)


def decimal(draw: Draw, value: int, unit: int) -> str:
    """Returns a spelling of about value / unit."""
    sign, n = '-' if value < 0 else draw.choice(['', '', '', '+']), abs(value)
    if unit == 1:
        spellings = [str(n)] * 6 + [f'{n}.0', f'{n}.', f'{n}.4999', f'0{n}', f'{n}e0', f'{n}0e-1', f'{n}00E-02']
        return sign + draw.choice(spellings + ([f'{n - 1}.5', f'{n - 1}.{"9" * 20}'] if n else []))
    whole, rest = divmod(n * 10 ** 9 // unit + draw.choice([0, 0, 0, 1]), 10 ** 9)
    text = f'{whole}.{rest:09}'
    return sign + draw.choice([text, text, text.rstrip('0'), text.lstrip('0'), f'{whole}{rest:09}e-9'])


class Column(NamedTuple):
    """A property: its type, the type of its count if it is a list, and the pieces of its rows."""
    name: str
    kind: str
    length: Optional[str]
    pieces: list[bytes]


class Document:
    """A PLY file in parts: the lines of the header without their ends, and for each row the bytes of each property."""

    def __init__(self, draw: Draw, form: str) -> None:
        self.draw, self.form = draw, form
        self.order = 'big' if form == 'binary_big_endian' else 'little'
        self.lines = [b'ply', f'format {form} 1.0'.encode()]
        self.rows: list[list[bytes]] = []
        self.end, self.is_loose = draw.choice([b'\n', b'\n', b'\r\n']), draw.random() < 0.2

    def data(self) -> bytes:
        head = b''.join(line + self.end for line in self.lines)
        if self.form != 'ascii':
            return head + b''.join(b''.join(row) for row in self.rows)
        if not self.is_loose:
            return head + b''.join(b' '.join(piece for piece in row if piece) + b'\n' for row in self.rows)
        spaces = [b' ', b' ', b'\n', b'\r\n', b'\t', b'  \n ']
        body = b''.join(token + self.draw.choice(spaces) for row in self.rows for token in b' '.join(row).split())
        return head + (body.rstrip() if self.draw.random() < 0.5 else body)

    def packed(self, kind: str, number: int) -> bytes:
        return number.to_bytes(WHOLE[kind][1], 'big' if self.order == 'big' else 'little', signed=WHOLE[kind][2])

    def numbers(self, name: str, values: Sequence[int], unit: int = 0) -> Column:
        """Returns a column of whole numbers, or of decimals if there is a unit."""
        if self.form == 'ascii':
            spelled = [decimal(self.draw, v, unit) if unit else self.draw.choice(['%d', '%d', '%d', '+%d', '0%d']) % v if v >= 0 else str(v)
                       for v in values]
            return Column(name, self.draw.choice(['int', 'float', 'double', 'short'] if unit else ['int', 'uchar']), None,
                          [text.encode() for text in spelled])
        kind = self.draw.choice([kind for kind in WHOLE if all(fits(kind, v) for v in values)])
        return Column(name, kind, None, [self.packed(kind, v) for v in values])

    def lists(self, name: str, values: Sequence[Sequence[int]]) -> Column:
        kind = self.draw.choice([kind for kind in WHOLE if all(fits(kind, n) for row in values for n in row)])
        length = self.draw.choice([kind for kind in WHOLE if all(fits(kind, len(row)) for row in values)])
        if self.form == 'ascii':
            return Column(name, kind, length, [' '.join(map(str, [len(row), *row])).encode() for row in values])
        return Column(name, kind, length, [self.packed(length, len(row)) + b''.join(self.packed(kind, n) for n in row) for row in values])

    def other(self, name: str, rows: int) -> Column:
        """Returns a column that a scan does not need."""
        draw, kind = self.draw, self.draw.choice(list(SIZES))
        length = draw.choice(list(WHOLE)) if draw.random() < 0.3 else None
        counts = [1 if length is None else draw.choice([0, 0, 1, 2, 3]) for _ in range(rows)]
        if self.form == 'ascii':
            tokens = ['0', '1', '-7', 'nan', 'inf', 'x', '1e999999', '0.5', '\xff', '3']
            return Column(name, kind, length, [' '.join(([] if length is None else [str(n)]) + [draw.choice(tokens) for _ in range(n)])
                                               .encode('latin-1') for n in counts])
        return Column(name, kind, length, [(b'' if length is None else self.packed(length, n)) + draw.randbytes(n * SIZES[kind]) for n in counts])

    def element(self, name: str, rows: int, columns: list[Column]) -> None:
        def spelled(kind: str) -> str:
            return self.draw.choice([kind, kind, OTHER_NAMES[kind]])

        self.lines.append(f'element {name} {rows}'.encode())
        for c in columns:
            kinds = spelled(c.kind) if c.length is None else f'list {spelled(c.length)} {spelled(c.kind)}'
            self.lines.append(f'property {kinds} {c.name}'.encode())
        self.rows += [[c.pieces[k] for c in columns] for k in range(rows)] if columns else []

    def decorated(self) -> None:
        """Ends the header, with comments, empty lines and other spaces."""
        draw = self.draw
        self.lines.append(b'end_header')
        for _ in range(draw.choice([0, 0, 1, 3])):
            line = draw.choice([b'comment hello', b'obj_info \xff\x00 x', b'', b' \t ', b'comment', b'\tcomment element vertex 3'])
            self.lines.insert(draw.randint(1, len(self.lines) - 1), line)
        if draw.random() < 0.2:
            self.lines[1:] = [draw.choice([b'', b' ', b'\t']) + line.replace(b' ', b' \t') + draw.choice([b'', b'  ']) for line in self.lines[1:]]


def document_of(draw: Draw, scan: Scan, unit: int, is_fixed: bool) -> Document:
    """Returns a scan as a document of some form. In a binary one the numbers are unscaled, to be multiplied by the scale."""
    form = draw.choice(['ascii', 'ascii', 'binary_little_endian', 'binary_big_endian'])
    if form != 'ascii' and unit > 1:
        def shrunk(p: Point) -> Point:
            return clipped([int(w / unit) for w in p])

        scan = Scan([row._replace(point=shrunk(row.point)) for row in scan.rows], [shrunk(s) for s in scan.scanners])
    doc = Document(draw, form)
    vertex = [doc.numbers(axis, [row.point[k] for row in scan.rows], unit) for k, axis in enumerate('xyz')]
    if not is_fixed:
        single = all(len(row.seen_by) == 1 for row in scan.rows) and draw.random() < 0.8
        vertex.append(doc.numbers('scanner', [row.seen_by[0] for row in scan.rows]) if single
                      else doc.lists('scanner', [row.seen_by for row in scan.rows]))
    elif draw.random() < 0.3:
        vertex.append(doc.other('scanner', len(scan.rows)))
    if any(row.weight != 1 for row in scan.rows):
        vertex.append(doc.numbers('weight', [row.weight for row in scan.rows]))
    parts = [('vertex', len(scan.rows), vertex)]
    if not is_fixed:
        parts.append(('scanner', len(scan.scanners), [doc.numbers(axis, [s[k] for s in scan.scanners], unit) for k, axis in enumerate('xyz')]))
    for name, count, columns in parts:
        columns += [doc.other(f'extra{k}', count) for k in range(draw.choice([0, 0, 0, 1, 2]))]
    for k in range(draw.choice([0, 0, 0, 1, 2])):
        count = draw.randrange(4)
        parts.append((f'junk{k}', count, [doc.other(f'j{i}', count) for i in range(draw.randrange(3))]))
    if draw.random() < 0.3:
        draw.shuffle(parts)
    for name, count, columns in parts:
        if draw.random() < 0.3:
            draw.shuffle(columns)
        doc.element(name, count, columns)
    doc.decorated()
    return doc


def drawn_document(draw: Draw) -> tuple[Document, list[str]]:
    """Returns a document of a small scan, and the options `unit` and `scanner` that belong to it."""
    scan = drawn_scan(draw, draw.choice([1, 2, 3, 4, 4, 5, 6, 8, 8, 10])).scan
    scan = Scan(scan.rows[:16], scan.scanners)
    unit = draw.choice([1, 1, 1, 10, 1000, 3, 1000000])
    words = [f'unit={unit}'] if unit > 1 else []
    fixed = draw.choice(scan.scanners) if draw.random() < 0.2 else None
    if fixed is not None:
        words.append('scanner=' + ','.join(decimal(draw, w, unit) for w in fixed))
        scan = Scan([row._replace(seen_by=(0,)) for row in scan.rows], scan.scanners)
    return document_of(draw, scan, unit, fixed is not None), words


BAD_LINES = [b'format ascii 1.0', b'format ascii 1.1', b'format text 1.0', b'element x', b'element', b'element x 5000000000',
             b'element x 12345678901', b'element x -1', b'element x 1 2', b'element x 4294967296', b'element \xc3\xa9 3', b'property int',
             b'property foo x', b'property list float int q', b'property list int foo q', b'property list int int', b'property int q r',
             b'end_header x', b'Comment hi', b'\r', b'comments', b'elements v 3', b'property int \x7f', b'property', b'element \x01 1',
             b'property double int q', b'ply', b'element q +3', b'property Int q', b'\x0bcomment', b'element x 0x1', b'end_header\r']
GOOD_LINES = [b'property list int8 float64 q', b'element q 0', b'element q 0000000000', b'property uint32 q', b'obj_info', b'comment \r\r',
              b'element q 4294967295', b'property char list', b'element property 0', b'element list 0', b'property int int']
TOKENS = [b'.', b'nan', b'1e9', b'2097151', b'2097152', b'-2097151', b'-2097152', b'2097151.4999', b'2097151.5', b'1' + b'0' * 30,
          b'0' * 40 + b'1', b'1e10000', b'0e99999', b'0e9999', b'1e-9999', b'1e00000000000001', b'+', b'-', b'e5', b'1e', b'1e+', b'--1', b'+-1',
          b'1.2.3', b'0x10', b'1_0', b'12345678901234567890', b'9' * 30, b'9' * 31, b'0.' + b'0' * 40 + b'1', b'\xb2', b'1,5', b'.5', b'5.',
          b'-.5', b'-0', b'+0', b'-0.4', b'0.5', b'-1', b'256', b'0', b'255', b'1e2', b'1E2', b'1' * 18, b'1' * 19, b'-' + b'1' * 18,
          b'4294967296', b'4294967295', b'3.0']
NAMES = [b'x', b'y', b'z', b'scanner', b'weight', b'X', b'w']
KINDS = [[b'float'], [b'double'], [b'float32'], [b'int'], [b'char'], [b'list', b'uchar', b'int'], [b'list', b'char', b'float'],
         [b'list', b'int', b'double'], [b'uint16']]
COUNTS = [b'vertex', b'scanner', b'1048577', b'65537', b'0', b'1', b'2', b'4', b'1048576', b'65536', b'4294967295', b'10']


def break_header(draw: Draw, doc: Document) -> None:
    """Changes one thing of the header."""
    lines = doc.lines
    inner = range(1, len(lines))
    at, other = draw.choice(inner), draw.choice(inner)
    how = draw.randrange(9)
    if how == 0:
        lines[0] = draw.choice([b'PLY', b' ply', b'ply ', b'', b'plyx', b'p', b'\xef\xbb\xbfply'])
    elif how == 1:
        lines.insert(at, draw.choice(BAD_LINES + GOOD_LINES))
    elif how == 2:
        lines.insert(at, lines[other])
    elif how == 3:
        del lines[at]
    elif how == 4:
        lines[at], lines[other] = lines[other], lines[at]
    elif how == 5:
        lines.insert(at, b'comment '.ljust(draw.choice([999, 1000, 1001, 1002, 1003]), b'c'))
    elif how == 6:
        lines[at:at] = [draw.choice([b'comment', b''])] * (draw.choice([998, 999, 1000, 1001]) - len(lines))
    else:
        break_words(draw, lines)


def break_words(draw: Draw, lines: list[bytes]) -> None:
    """Gives an element another name or count, or a property another type or name."""
    k = draw.choice([k for k in range(1, len(lines)) if lines[k].split()[:1] in ([b'element'], [b'property'])] or [1])
    words = lines[k].split()
    if words[:1] == [b'element']:
        words[min(draw.choice([1, 2]), len(words) - 1)] = draw.choice(COUNTS)
    elif draw.random() < 0.4:
        words[-1:] = [draw.choice(NAMES)]
    else:
        words[1:-1] = draw.choice(KINDS)
    lines[k] = b' '.join(words)


def break_rows(draw: Draw, doc: Document) -> None:
    """Changes one thing of the body."""
    how, row = draw.randrange(6), draw.choice(doc.rows)
    k = draw.randrange(len(row))
    if how <= 2 and doc.form == 'ascii':
        tokens = row[k].split() or [b'']
        tokens[draw.randrange(len(tokens))] = draw.choice(TOKENS)
        row[k] = b' '.join(tokens)
    elif how <= 2:
        row[k] = bytes(draw.choice([0, 0, 1, 127, 128, 255]) for _ in row[k])
    elif how == 3:
        doc.rows[k:k + draw.randrange(2)] = [list(row)] * draw.randrange(2)
    elif how == 4:
        row[k:k + 1] = [row[k]] * draw.choice([0, 2])
    else:
        doc.rows.append([draw.choice([b'7', b' ', b'\n', b'\x00', b'x'])])


def break_bytes(draw: Draw, data: bytes) -> bytes:
    at = draw.randrange(len(data) + 1)
    return draw.choice([data[:at], data[:at] + bytes([draw.randrange(256)]) + data[at + 1:],
                        data[:at] + draw.choice([b' ', b'\n', b'\r', b'0', b'-', b'x', b'\x00']) + data[at:]])


def broken(draw: Draw, doc: Document) -> bytes:
    """Returns the document with one or two things changed; it may stay a good one."""
    for _ in range(draw.choice([1, 1, 1, 2])):
        how = draw.random()
        if how < 0.5 or not doc.rows:
            break_header(draw, doc)
        elif how < 0.9:
            break_rows(draw, doc)
        else:
            return break_bytes(draw, doc.data())
    return doc.data()

