"""The texts that `recon` reads and writes beside scans: cells, meshes, certificates, points and their labels, slices, OFF and OBJ."""
from __future__ import annotations

import re
from typing import Callable, NamedTuple, Optional, Sequence

from .errors import Refused, Rejected
from .numbers import LONG_NUMBER, NOT_A_NUMBER, OUT_OF_RANGE, BadNumber, scaled
from .points import BOX, LIMIT, Cell, Facet, Point
from .scans import TOKEN, U32

U64 = 2 ** 64 - 1
MOST_TOKENS = 3 * 1048576


def text(lines: Sequence[str]) -> bytes:
    return ''.join(line + '\n' for line in lines).encode()


def row(numbers: Sequence[int]) -> str:
    return ' '.join(map(str, numbers))


class Mesh(NamedTuple):
    points: Sequence[Point]
    faces: Sequence[Facet]


def mesh_head(points: int, faces: int) -> list[str]:
    return ['ply', 'format ascii 1.0', f'element vertex {points}', 'property int x', 'property int y', 'property int z',
            f'element face {faces}', 'property list uchar int vertex_indices', 'end_header']


def push_mesh(mesh: Mesh) -> bytes:
    return text(mesh_head(len(mesh.points), len(mesh.faces)) + [row(p) for p in mesh.points] + ['3 ' + row(f) for f in mesh.faces])


def push_off(mesh: Mesh) -> bytes:
    return text(['OFF', f'{len(mesh.points)} {len(mesh.faces)} 0'] + [row(p) for p in mesh.points] + ['3 ' + row(f) for f in mesh.faces])


def push_obj(mesh: Mesh) -> bytes:
    return text(['v ' + row(p) for p in mesh.points] + [f'f {a + 1} {b + 1} {c + 1}' for a, b, c in mesh.faces])


def push_cells(rows: Sequence[Cell]) -> bytes:
    return text([f'cells {len(rows)}'] + [row(cell) for cell in rows])


class Lines:
    """Reads a text with one spelling line by line; `cut` and `bad` make the errors."""

    def __init__(self, data: bytes, cut: Exception, bad: Callable[[int], Exception]) -> None:
        self.data, self.at, self.line, self.cut, self.bad = data, 0, 0, cut, bad

    def next(self) -> bytes:
        end = self.data.find(b'\n', self.at)
        if end < 0:
            raise self.cut
        line = self.data[self.at:end]
        self.at, self.line = end + 1, self.line + 1
        return line

    def exactly(self, line: str) -> None:
        if self.next() != line.encode():
            raise self.bad(self.line)

    def number(self, word: bytes, low: int, high: int) -> int:
        """Returns a number without leading zeros, plus sign or sign before zero."""
        if re.fullmatch(rb'0|-?[1-9][0-9]*', word) is None or len(word) > 30 or not low <= int(word) <= high:
            raise self.bad(self.line)
        return int(word)

    def named(self, name: str, low: int, high: int) -> int:
        """Returns a line of a name and a number."""
        line = self.next()
        if not line.startswith(name.encode() + b' '):
            raise self.bad(self.line)
        return self.number(line[len(name) + 1:], low, high)

    def words(self, count: int) -> list[bytes]:
        words = self.next().split(b' ')
        if len(words) != count:
            raise self.bad(self.line)
        return words

    def ended(self) -> None:
        if self.at < len(self.data):
            raise self.bad(self.line + 1)


def is_facet(f: Sequence[int]) -> bool:
    return f[0] < f[1] and f[0] < f[2] and f[1] != f[2]


def read_mesh(data: bytes) -> Mesh:
    lines = Lines(data, Refused('30 mesh_cut'), lambda n: Refused(f'29 mesh_line line {min(n, U32)}'))
    counts = []
    for line in mesh_head(0, 0):
        if line.startswith('element '):
            counts.append(lines.named(line[:-2], 0, U32))
        else:
            lines.exactly(line)
    points: list[Point] = []
    for _ in range(counts[0]):
        x, y, z = (lines.number(word, -BOX, BOX) for word in lines.words(3))
        points.append((x, y, z))
    faces: list[Facet] = []
    for _ in range(counts[1]):
        three, *words = lines.words(4)
        a, b, c = (lines.number(word, 0, counts[0] - 1) if three == b'3' else 0 for word in words)
        if not is_facet((a, b, c)):
            raise lines.bad(lines.line)
        faces.append((a, b, c))
    lines.ended()
    return Mesh(points, faces)


# Certificates.

class Stamp(NamedTuple):
    """Which scan a certificate belongs to: the SHA-256 of its file, the scale, and the fixed scanner in scaled units."""
    digest: str
    unit: int
    fixed: Optional[Point]


COUNTS = ('points', 'scanners', 'sights', 'vote', 'smooth')


class Certificate(NamedTuple):
    stamp: Optional[Stamp]
    counts: Sequence[int]
    cost: int
    inside: Sequence[Cell]
    flow: Sequence[tuple[Facet, int]]
    sink: Sequence[tuple[Cell, int]]


def certificate_head(cert: Certificate) -> list[str]:
    """Returns the lines before `flow F`, which are the same for all solutions."""
    lines = ['recon certificate 1']
    if cert.stamp is not None:
        fixed = 'none' if cert.stamp.fixed is None else row(cert.stamp.fixed)
        lines = ['recon certificate 2', 'scan ' + cert.stamp.digest, f'unit {cert.stamp.unit}', 'scanner ' + fixed]
    lines += [f'{name} {count}' for name, count in zip(COUNTS, cert.counts)]
    return lines + [f'cost {cert.cost}', f'inside {len(cert.inside)}'] + [row(cell) for cell in cert.inside]


def push_certificate(cert: Certificate) -> bytes:
    lines = certificate_head(cert) + [f'flow {len(cert.flow)}'] + [row((*facet, amount)) for facet, amount in cert.flow]
    return text(lines + [f'sink {len(cert.sink)}'] + [row((*cell, amount)) for cell, amount in cert.sink] + ['end'])


def read_stamp(lines: Lines) -> Stamp:
    line = lines.next()
    if re.fullmatch(rb'scan [0-9a-f]{64}', line) is None:
        raise lines.bad(lines.line)
    unit = lines.named('unit', 1, 1000000)
    name, *words = lines.next().split(b' ')
    if name != b'scanner' or words != [b'none'] and len(words) != 3:
        raise lines.bad(lines.line)
    if len(words) == 1:
        return Stamp(line[5:].decode(), unit, None)
    x, y, z = (lines.number(word, -LIMIT, LIMIT) for word in words)
    return Stamp(line[5:].decode(), unit, (x, y, z))


def read_rows(lines: Lines, name: str, width: int, has_amount: bool) -> list[tuple[tuple[int, ...], int]]:
    """Returns the rows of one of the three lists: a cell or a facet, and an amount."""
    found: list[tuple[tuple[int, ...], int]] = []
    for _ in range(lines.named(name, 0, U64)):
        words = lines.words(width + has_amount)
        key = tuple(lines.number(word, 0, U32) for word in words[:width])
        if not (is_facet(key) if width == 3 else key[0] < key[1] < key[2] < key[3]):
            raise lines.bad(lines.line)
        amount = lines.number(words[width], 1, U64) if has_amount else 1
        if found and key <= found[-1][0]:
            raise Rejected(f'2 cert_order line {min(lines.line, U64)}')
        found.append((key, amount))
    return found


def read_certificate(data: bytes) -> Certificate:
    lines = Lines(data, Rejected('3 cert_cut'), lambda n: Rejected(f'1 cert_line line {min(n, U64)}'))
    first = lines.next()
    if first not in (b'recon certificate 1', b'recon certificate 2'):
        raise lines.bad(lines.line)
    stamp = read_stamp(lines) if first.endswith(b'2') else None
    counts = [lines.named(name, 0, U32) for name in COUNTS]
    cost = lines.named('cost', 0, U64)
    inside = [cell for cell, _ in read_rows(lines, 'inside', 4, False)]
    flow, sink = read_rows(lines, 'flow', 3, True), read_rows(lines, 'sink', 4, True)
    lines.exactly('end')
    lines.ended()
    return Certificate(stamp, counts, cost, inside, flow, sink)  # type: ignore[arg-type]


# Points to ask for, labels, slices.

def read_points(data: bytes, unit: int) -> list[Point]:
    tokens = TOKEN.findall(data)
    if len(tokens) > MOST_TOKENS:
        raise Refused(f'27 too_many_queries tokens {len(tokens)}')
    if len(tokens) % 3:
        raise Refused(f'26 query_cut tokens {len(tokens)}')
    values = []
    for k, token in enumerate(tokens):
        try:
            values.append(scaled(token, unit))
        except BadNumber as bad:
            error = {NOT_A_NUMBER: '23 bad_query', LONG_NUMBER: '24 long_query', OUT_OF_RANGE: '25 query_range'}[bad.kind]
            raise Refused(f'{error} token {k}') from None
    return [(values[k], values[k + 1], values[k + 2]) for k in range(0, len(values), 3)]


def push_labels(labels: Sequence[bool]) -> bytes:
    return text([f'answers {len(labels)}'] + ['inside' if label else 'outside' for label in labels])


class Step(NamedTuple):
    """A cut face of a slice, and its point at x / denominator and y / denominator."""
    face: int
    x: int
    y: int
    denominator: int


def push_slice(loops: Sequence[Sequence[Step]]) -> bytes:
    lines = [f'loops {len(loops)}']
    for loop in loops:
        lines += [f'loop {len(loop)}'] + [row(step) for step in loop]
    return text(lines)
