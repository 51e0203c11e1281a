"""What `recon check` prints for a printed scan: the certificate's grammar and the reasons of docs/reference/formats.md."""
from __future__ import annotations

import hashlib
import re
from typing import Callable, Dict, Iterator, List, NamedTuple, Optional, Tuple

from .points import DATA_LIMIT, Cell
from .scene import Solved
from .texts import Scan

U32, U64 = 2 ** 32 - 1, 2 ** 64 - 1
NATURAL, INTEGER = '(0|[1-9][0-9]*)', '(0|-?[1-9][0-9]*)'
COUNTS = ('points', 'scanners', 'sights', 'vote', 'smooth')
Row = Tuple[Tuple[int, ...], int]
Amounts = Dict[Tuple[int, ...], int]


class No(Exception):
    """The first reason for a no."""


class Cert(NamedTuple):
    stamp: Optional[Tuple[str, int, str]]
    counts: Dict[str, int]
    cost: int
    inside: List[Row]
    flow: List[Row]
    sink: List[Row]


class Lines:
    """The lines of a certificate, read one by one."""

    def __init__(self, data: bytes) -> None:
        self.rest, self.number = data.decode('latin1'), 0

    def bad(self) -> No:
        return No(f'no 1 cert_line line {self.number}')

    def line(self) -> str:
        text, found, rest = self.rest.partition('\n')
        if not found:
            raise No('no 3 cert_cut')
        self.number, self.rest = self.number + 1, rest
        return text

    def match(self, pattern: str) -> Tuple[str, ...]:
        found = re.fullmatch(pattern, self.line())
        if not found:
            raise self.bad()
        return found.groups()

    def count(self, word: str, most: int, least: int = 0) -> int:
        value = int(self.match(f'{word} {NATURAL}')[0])
        if not least <= value <= most:
            raise self.bad()
        return value


def is_cell(key: Tuple[int, ...]) -> bool:
    return all(a < b for a, b in zip(key, key[1:]))


def is_facet(key: Tuple[int, ...]) -> bool:
    return key[0] < min(key[1:]) and key[1] != key[2]


def rows(lines: Lines, word: str, width: int, has_amount: bool, is_key: Callable[[Tuple[int, ...]], bool]) -> List[Row]:
    """Returns a list of rows, ascending by their keys."""
    found: List[Row] = []
    for _ in range(lines.count(word, U64)):
        numbers = tuple(map(int, lines.match(' '.join([NATURAL] * (width + has_amount)))))
        key, amount = numbers[:width], numbers[width] if has_amount else 1
        if max(key) > U32 or not 1 <= amount <= U64 or not is_key(key):
            raise lines.bad()
        if found and not found[-1][0] < key:
            raise No(f'no 2 cert_order line {lines.number}')
        found.append((key, amount))
    return found


def stamp_of(lines: Lines) -> Tuple[str, int, str]:
    """Returns the fingerprint of the input: digest, scale, fixed scanner."""
    digest, unit, fixed = lines.match('scan ([0-9a-f]{64})')[0], lines.count('unit', 1_000_000, 1), lines.match('scanner (.*)')[0]
    if fixed != 'none':
        numbers = re.fullmatch(f'{INTEGER} {INTEGER} {INTEGER}', fixed)
        if not numbers or any(abs(int(word)) > DATA_LIMIT for word in numbers.groups()):
            raise lines.bad()
    return digest, unit, fixed


def parsed(data: bytes) -> Cert:
    lines = Lines(data)
    stamp = stamp_of(lines) if lines.match('recon certificate ([12])')[0] == '2' else None
    counts = {name: lines.count(name, U32) for name in COUNTS}
    cert = Cert(stamp, counts, lines.count('cost', U64), rows(lines, 'inside', 4, False, is_cell), rows(lines, 'flow', 3, True, is_facet),
                rows(lines, 'sink', 4, True, is_cell))
    lines.match('end')
    if lines.rest:
        lines.number += 1
        raise lines.bad()
    return cert


def words(*numbers: object) -> str:
    return ' '.join(map(str, numbers))


def input_reasons(scan_bytes: bytes, cert: Cert, here: Dict[str, int]) -> Iterator[str]:
    """The fingerprint and the counts."""
    if cert.stamp:
        digest, unit, fixed = cert.stamp
        real = hashlib.sha256(scan_bytes).hexdigest()
        if digest != real:
            yield f'16 other_scan stated {digest} here {real}'
        if unit != 1:
            yield f'17 other_unit stated {unit} here 1'
        if fixed != 'none':
            yield f'18 other_fixed stated {fixed} here none'
    for name in COUNTS:
        if cert.counts[name] != here[name]:
            yield f'4 other_counts {name} stated {cert.counts[name]} here {here[name]}'


def row_reasons(cert: Cert, best: Solved) -> Iterator[str]:
    """Rows that name no cell or facet, and amounts over limits."""
    caps: Amounts = dict(zip(best.facets, best.caps))
    sinks: Amounts = dict(zip(best.cells, best.sinks))
    for reason, listed, names in (('5 no_such_cell', cert.inside, sinks), ('6 no_such_facet', cert.flow, caps), ('7 no_such_sink', cert.sink, sinks)):
        for at, (key, _) in enumerate(listed):
            if key not in names:
                yield f'{reason} row {at}'
    inside = {key for key, _ in cert.inside}
    fixed: Dict[Tuple[int, ...], bool] = dict(best.fixed.items())
    for cell in best.cells:
        if cell in inside and best.fixed[cell]:
            yield f'8 fixed_inside {words(*cell)}'
    for facet, amount in cert.flow:
        if amount > caps[facet]:
            yield f'9 over_capacity {words(*facet)} flow {amount} cap {caps[facet]}'
    for row, amount in cert.sink:
        most = 0 if fixed[row] else sinks[row]
        if amount > most:
            yield f'10 over_sink {words(*row)} flow {amount} cap {most}'


def balance_reasons(cert: Cert, best: Solved) -> Iterator[str]:
    """Cells that the flow does not balance."""
    entering: Amounts = {cell: 0 for cell in best.cells}
    leaving: Amounts = dict(entering)
    arcs: Dict[Tuple[int, ...], Tuple[Cell, Cell]] = dict(zip(best.facets, best.arcs))
    for facet, amount in cert.flow:
        u, v = arcs[facet]
        leaving[u] += amount
        entering[v] += amount
    for row, amount in cert.sink:
        leaving[row] += amount
    for cell in best.cells:
        if not best.fixed[cell] and entering[cell] != leaving[cell]:
            yield f'11 unbalanced {words(*cell)} in {entering[cell]} out {leaving[cell]}'


def answer_reasons(mesh: bytes, cert: Cert, best: Solved) -> Iterator[str]:
    """Value, cost, labels and mesh. The value of a flow has the whole sinks of cells fixed outside, which no certificate lists."""
    stated = {key for key, _ in cert.inside}
    inside = {cell for cell in best.cells if cell in stated}
    value = sum(amount for _, amount in cert.sink) + sum(sink for sink, cell in zip(best.sinks, best.cells) if best.fixed[cell])
    cost = best.cost_of(inside)
    if value != cost:
        yield f'12 not_equal value {value} cost {cost}'
    for cell in best.cells:
        if cell in inside and cell not in best.inside:
            yield f'13 not_least {words(*cell)}'
    if cert.cost != cost:
        yield f'14 wrong_cost stated {cert.cost} cost {cost}'
    wanted = best.mesh()
    if wanted != mesh:
        at = next((k for k, (a, b) in enumerate(zip(wanted, mesh)) if a != b), min(len(wanted), len(mesh)))
        yield f'15 mesh_differs at {at}'


def line_of(scan_bytes: bytes, scan: Scan, mesh: bytes, cert_bytes: bytes, best: Solved, weights: Tuple[int, int]) -> Tuple[str, int]:
    """Returns the line that `recon check` has to print, and its status."""
    here = dict(zip(COUNTS, (len(best.vertices) - 8, len(scan.scanners), len(scan.seen), *weights)))
    try:
        cert = parsed(cert_bytes)
        for reasons in (input_reasons(scan_bytes, cert, here), row_reasons(cert, best), balance_reasons(cert, best), answer_reasons(mesh, cert, best)):
            for reason in reasons:
                raise No(f'no {reason}')
    except No as no:
        return str(no), 1
    return f'yes inside {len(best.inside)} faces {len(best.cut())} cost {best.cost}', 0
