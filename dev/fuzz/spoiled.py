"""Meshes and certificates of a solution with something changed."""
from __future__ import annotations

import itertools
from typing import Any, Callable, NamedTuple, Optional, Sequence

from model.points import LIMIT, Facet, opposite, rotated
from model.scans import U32
from model.solution import mesh_of
from model.texts import COUNTS, U64, Certificate, push_certificate, push_mesh
from model.votes import Network

from .documents import break_bytes
from .judge import Solved
from .quick import by_levels
from .shapes import Draw

Row = list[Any]


class Sheet:
    """A certificate as lists of rows in which anything may stand."""

    def __init__(self, cert: Certificate) -> None:
        stamp = cert.stamp
        fixed = None if stamp is None else stamp.fixed
        self.stamp = None if stamp is None else [stamp.digest, str(stamp.unit), 'none' if fixed is None else '%d %d %d' % fixed]
        self.counts: list[Any] = list(cert.counts)
        self.cost = cert.cost
        self.lists: dict[str, list[Row]] = {'inside': [list(cell) for cell in cert.inside], 'flow': [[*f, a] for f, a in cert.flow],
                                            'sink': [[*cell, a] for cell, a in cert.sink]}
        self.stated: dict[str, int] = {}

    def copy(self) -> Sheet:
        other = Sheet.__new__(Sheet)
        other.stamp, other.counts, other.cost, other.stated = self.stamp and list(self.stamp), list(self.counts), self.cost, dict(self.stated)
        other.lists = {name: [list(row) for row in rows] for name, rows in self.lists.items()}
        return other

    def text(self) -> bytes:
        lines = [f'recon certificate {2 if self.stamp else 1}']
        if self.stamp:
            lines += ['scan ' + self.stamp[0], 'unit ' + self.stamp[1], 'scanner ' + self.stamp[2]]
        lines += [f'{name} {count}' for name, count in zip(COUNTS, self.counts)] + [f'cost {self.cost}']
        for name, rows in self.lists.items():
            lines += [f'{name} {self.stated.get(name, len(rows))}'] + [' '.join(map(str, row)) for row in rows]
        return ('\n'.join(lines) + '\nend\n').encode()

    def amount(self, name: str, key: Sequence[int]) -> int:
        return next((row[-1] for row in self.lists[name] if row[:-1] == list(key)), 0)

    def put(self, name: str, key: Sequence[int], amount: int) -> None:
        """Gives a row an amount in its place in the order; 0 takes it out."""
        rows = [row for row in self.lists[name] if row[:-1] != list(key)]
        self.lists[name] = sorted(rows + ([[*key, amount]] if amount > 0 else []), key=lambda row: row[:-1])

    def add_one(self, name: str, key: Sequence[int]) -> None:
        self.put(name, key, self.amount(name, key) + 1)

    def repeat(self, name: str, k: int, count: int) -> None:
        """Repeats a row."""
        self.lists[name][k:k + 1] = [list(row) for row in self.lists[name][k:k + 1] * count]

    def exchange(self, name: str, k: int) -> None:
        self.lists[name][k:k + 2] = self.lists[name][k:k + 2][::-1]

    def turn(self, name: str, k: int) -> None:
        self.lists[name][k:k + 1] = [[row[0], row[2], row[1], *row[3:]] for row in self.lists[name][k:k + 1]]

    def sort_as_text(self, name: str) -> None:
        self.lists[name].sort(key=lambda row: ' '.join(map(str, row)))

    def reverse(self, name: str) -> None:
        self.lists[name].reverse()

    def state(self, name: str, count: int) -> None:
        self.stated[name] = count

    def set_cost(self, cost: int) -> None:
        self.cost = cost

    def set_count(self, k: int, count: Any) -> None:
        self.counts[k] = count

    def set_stamp(self, k: int, word: str) -> None:
        if self.stamp is not None:
            self.stamp[k] = word

    def drop_stamp(self) -> None:
        self.stamp = None

    def insert(self, name: str, row: Row) -> None:
        """Puts a row in its place in the order, as far as there is one."""
        rows = [*self.lists[name], list(row)]
        is_odd = any(isinstance(word, str) for each in rows for word in each)
        self.lists[name] = sorted(rows, key=lambda each: [str(word) if is_odd else word for word in each])


class Change(NamedTuple):
    name: str
    apply: Callable[[Sheet], None]


def largest_inside(network: Network) -> frozenset[int]:
    """Returns the largest set of inside cells of least cost: all that the cells fixed outside do not reach over a maximum flow."""
    flow = by_levels(network)
    out: list[list[int]] = [[] for _ in network.sink]
    for arc, amount in zip(network.arcs, flow.on_arc):
        if amount < arc.capacity:
            out[arc.own].append(arc.across)
        if amount > 0:
            out[arc.across].append(arc.own)
    queue = [k for k, fixed in enumerate(network.fixed) if fixed]
    found = set(queue)
    for k in queue:
        new = [v for v in dict.fromkeys(out[k]) if v not in found]
        found.update(new)
        queue += new
    return frozenset(range(len(network.sink))) - found


def circles(network: Network) -> list[list[Facet]]:
    """Ways round: pairs of opposite facets, and facets round an edge through cells that are all free."""
    ends = {arc.facet: (arc.own, arc.across) for arc in network.arcs}
    ways = [[f, opposite(f)] for f in ends if opposite(f) in ends and f < opposite(f)]
    around: dict[tuple[int, int], list[Facet]] = {}
    for f in ends:
        for a, b in ((f[0], f[1]), (f[1], f[2]), (f[2], f[0])):
            if a < b:
                around.setdefault((a, b), []).append(f)
    for facets in around.values():
        turn = {ends[f][0]: f for f in facets}
        way: list[Facet] = []
        k = first = next(iter(turn))
        while k in turn and len(way) <= len(turn):
            way.append(turn[k])
            k = ends[turn[k]][1]
            if k == first:
                ways.append(way)
                break
    return ways


class Changes:
    """Everything that may be changed of a certificate, one by one."""

    def __init__(self, draw: Draw, network: Network, base: Sheet) -> None:
        self.draw, self.network, self.base = draw, network, base
        self.rows = network.cells.rows
        self.found: list[Change] = []
        for part in (self.amounts, self.orders, self.flows, self.labels, self.heads, self.rows_of_nothing, self.words):
            part()

    def add(self, name: str, apply: Callable[..., None], *words: Any) -> None:
        """A change that calls `apply` with the certificate and these arguments."""
        self.found.append(Change(name, lambda sheet: apply(sheet, *words)))

    def amounts(self) -> None:
        """Another amount in a row of flow or sink."""
        for name in ('flow', 'sink'):
            for row in self.base.lists[name]:
                for new in (row[-1] + 1, row[-1] - 1, 1, 1 << 63, U64):
                    self.add(f'amount of {name}', Sheet.put, name, row[:-1], new)

    def orders(self) -> None:
        """Rows left out, twice, exchanged, turned round."""
        for name, rows in self.base.lists.items():
            for k in range(len(rows)):
                for count in (0, 2):
                    self.add(f'{name} row {count} times', Sheet.repeat, name, k, count)
                self.add(f'{name} rows exchanged', Sheet.exchange, name, k)
                self.add(f'{name} row turned', Sheet.turn, name, k)
            self.add('in another order', Sheet.sort_as_text, name)
            self.add('in another order', Sheet.reverse, name)
            for count in (len(rows) + 1, max(0, len(rows) - 1), 10 ** 6, 2 ** 64 - 1, 2 ** 64):
                self.add('count of rows', Sheet.state, name, count)

    def flows(self) -> None:
        """At and over capacities, to another sink, over other facets, and round in a circle."""
        capacity = {arc.facet: arc.capacity for arc in self.network.arcs}
        for arc in self.network.arcs:
            for amount in (arc.capacity, arc.capacity + 1, self.base.amount('flow', arc.facet) + 1):
                self.add('flow over a facet', Sheet.put, 'flow', arc.facet, amount)
            own, across = self.rows[arc.own], self.rows[arc.across]
            if self.network.sink[arc.across]:
                def moved(s: Sheet, f: Facet = arc.facet, own: Any = own, across: Any = across) -> None:
                    s.put('flow', f, s.amount('flow', f) + 1)
                    s.put('sink', own, s.amount('sink', own) - 1)
                    s.put('sink', across, s.amount('sink', across) + 1)

                self.add('a unit to another sink', moved)
        for f in self.network.cells.owner:
            self.add('flow over any facet', Sheet.add_one, 'flow', f)
        for way in circles(self.network):
            room = min(capacity[f] - self.base.amount('flow', f) for f in way)
            for amount in {1, room, room + 1}:
                def round_it(s: Sheet, way: list[Facet] = way, amount: int = amount) -> None:
                    for f in way:
                        s.put('flow', f, s.amount('flow', f) + amount)

                self.add('flow in a circle', round_it)

    def labels(self) -> None:
        """Other labels, with the stated cost or their own."""
        def put(s: Sheet, inside: frozenset[int], own_cost: bool) -> None:
            s.lists['inside'] = [list(self.rows[k]) for k in sorted(inside)]
            s.cost = self.network.cost(inside) if own_cost else s.cost

        number = self.network.cells.number
        inside = frozenset(number[row[0], row[1], row[2], row[3]] for row in self.base.lists['inside'])
        most, free = largest_inside(self.network), frozenset(k for k, fixed in enumerate(self.network.fixed) if not fixed)
        others = [most, frozenset[int](), free] + [inside | {k} for k in most - inside] + [inside ^ {k} for k in range(len(self.rows))]
        others += [(inside - {self.draw.choice(sorted(inside))}) | {k} for k in range(0, len(self.rows), 3) if inside]
        for labels, own_cost in itertools.product(others, (False, True)):
            self.add('labels', put, labels, own_cost)
        for row in self.rows:
            self.add('sink of any cell', Sheet.add_one, 'sink', row)

    def heads(self) -> None:
        """Counts, cost and fingerprint."""
        for cost in (0, self.base.cost + 1, max(0, self.base.cost - 1), self.base.cost + 1000, U64):
            self.add('cost', Sheet.set_cost, cost)
        for k in range(5):
            for count in (0, 1, self.base.counts[k] + 1, U32, U32 + 1, '01', '-1', ''):
                self.add('counts', Sheet.set_count, k, count)
        if self.base.stamp is None:
            return
        digest = self.base.stamp[0]
        digests = [digest.upper(), digest[:-1], digest + '0', '0' * 64, digest[::-1], digest[:-1] + ('1' if digest[-1] == '0' else '0')]
        places = ['none', '0 0 0', '1 2 3', f'{LIMIT} -{LIMIT} 0', f'{LIMIT + 1} 0 0', '-0 0 0', '1 2', '1 2 3 4', 'None', '+1 2 3']
        for k, values in enumerate((digests, ['0', '1', '2', '1000000', '1000001', '01', 'x'], places)):
            for new in values:
                self.add('stamp', Sheet.set_stamp, k, new)
        self.add('stamp', Sheet.drop_stamp)

    def rows_of_nothing(self) -> None:
        """A row of what is no cell or no facet."""
        draw, n = self.draw, len(self.network.cells.vertices)
        odd = [0, 7, 8, n - 1, n, n + 1, 255, 256, 65536, 2 ** 31, 2 ** 32 - 1, 2 ** 32]
        for name, _ in itertools.product(self.base.lists, range(12)):
            width = 3 if name == 'flow' else 4
            numbers = draw.sample(range(n), width) if draw.random() < 0.7 else [draw.choice(odd) for _ in range(width)]
            key = sorted(numbers) if width == 4 or draw.random() < 0.5 else list(rotated(*numbers))
            row = key if name == 'inside' else [*key, draw.choice([1, 1, 2, U64])]
            self.add('a row of nothing', Sheet.insert, name, row)

    def words(self) -> None:
        """A word of a row that is spelled otherwise or is not a number."""
        for name, word in itertools.product(self.base.lists, ('x', '', '-1', '01', '+1', '1e1', str(2 ** 64), '0')):
            def put(s: Sheet, name: str = name, word: str = word) -> None:
                if s.lists[name]:
                    row = self.draw.choice(s.lists[name])
                    row[self.draw.randrange(len(row))] = word

            self.add('a word of a row', put)


def changed_text(draw: Draw, base: Sheet, changes: Sequence[Change], most: int = 3) -> Optional[tuple[str, bytes]]:
    """Returns the text after one change, or two or three at once; None if the first leaves nothing for the others."""
    sheet, some = base.copy(), draw.sample(list(changes), draw.choice([1] * 5 + list(range(2, most + 1))))
    try:
        for change in some:
            change.apply(sheet)
        return some[0].name if len(some) == 1 else 'several changes', sheet.text()
    except (TypeError, ValueError, KeyError):
        return None


def broken_mesh(draw: Draw, mesh: bytes) -> bytes:
    """Returns a mesh text with one thing changed."""
    lines = mesh.split(b'\n')[:-1]
    k, how = draw.randrange(len(lines)), draw.randrange(5)
    if how == 0:
        words = lines[k].split(b' ')
        words[draw.randrange(len(words))] = draw.choice([b'0', b'1', b'2', b'3', b'-0', b'+1', b'01', b'8388608', b'8388609', b'-8388609', b'',
                                                        b'x', b'9' * 40, b'4294967295', b'4294967296'])
        lines[k] = b' '.join(words)
    elif how == 1:
        lines[k:k + 1] = [lines[k]] * draw.choice([0, 2])
    elif how == 2:
        lines[k] = draw.choice([lines[k] + b'\r', lines[k] + b' ', b'', lines[k] + b'1', b'comment'])
    elif how == 3:
        return break_bytes(draw, mesh)
    elif lines[k].startswith(b'3 '):
        _, a, b, c, *_ = [*lines[k].split(b' '), b'', b'']
        lines[k] = b' '.join(draw.choice([[b'3', a, c, b], [b'3', b, c, a], [b'3', a, b, b]]))
    return b'\n'.join(lines) + b'\n'


def spoiled_answer(draw: Draw, solved: Solved) -> tuple[bytes, bytes]:
    """Returns the mesh and a certificate of a solution, mostly with something wrong."""
    network, cert = solved.solution.network, solved.certificate
    base = Sheet(cert if draw.random() < 0.5 else cert._replace(stamp=None))
    changes = Changes(draw, network, base).found
    found = changed_text(draw, base, changes) if draw.random() < 0.85 else None
    text = base.text() if found is None else found[1]
    if draw.random() < 0.1:
        text = break_bytes(draw, push_certificate(cert))
    inside = largest_inside(network) if draw.random() < 0.1 else solved.solution.inside
    mesh = push_mesh(mesh_of(network, inside))
    return broken_mesh(draw, mesh) if draw.random() < 0.1 else mesh, text
