"""What the commands answer: the best surface of a scan, whether files are it, labels of points, and slices of a mesh."""
from __future__ import annotations

from collections import Counter
from typing import AbstractSet, NamedTuple, Optional, Sequence, Tuple

from .cells import Cells
from .errors import Refused, Rejected
from .flow import Flow, least_inside, maximum, value
from .points import Point, rotated
from .scans import Scan, read_scan
from .texts import COUNTS, Certificate, Mesh, Stamp, Step, push_mesh, read_certificate, row
from .votes import Network


class Solution(NamedTuple):
    """The minimum cut of a scan with the smallest inside, its mesh, and a maximum flow."""
    network: Network
    inside: AbstractSet[int]
    cost: int
    mesh: Mesh
    flow: Flow


class Model:
    """The steps of the commands. Who asks for many answers about one scan can keep them in a class of its own."""

    def read_scan(self, data: bytes, unit: int, fixed: Optional[Point]) -> Scan:
        return read_scan(data, unit, fixed)

    def cells(self, points: Sequence[Point]) -> Cells:
        return Cells(points)

    def network(self, scan: Scan, vote: int, smooth: int) -> Network:
        return Network(self.cells(scan.points()), scan.sights(), scan.scanners, vote, smooth)

    def solve(self, scan: Scan, vote: int, smooth: int) -> Solution:
        network = self.network(scan, vote, smooth)
        flow = maximum(network)
        inside = least_inside(network, flow)
        assert network.cost(inside) == value(network, flow)
        return Solution(network, inside, network.cost(inside), mesh_of(network, inside), flow)


def mesh_of(network: Network, inside: AbstractSet[int]) -> Mesh:
    """Returns the facets of outside cells whose adjacent cell is inside, with new vertex numbers."""
    cells = network.cells
    faces = [f for f, own in cells.owner.items() if own not in inside and cells.across(f) in inside]
    used = sorted({v for f in faces for v in f})
    number = {v: k for k, v in enumerate(used)}
    return Mesh([cells.vertices[v] for v in used], sorted(rotated(number[a], number[b], number[c]) for a, b, c in faces))


def counts_of(scan: Scan, vote: int, smooth: int) -> list[int]:
    return [len(scan.points()), len(scan.scanners), len(scan.sights()), vote, smooth]


def certificate_of(scan: Scan, vote: int, smooth: int, solution: Solution, stamp: Optional[Stamp]) -> Certificate:
    network, rows = solution.network, solution.network.cells.rows
    return Certificate(stamp, counts_of(scan, vote, smooth), solution.cost, [rows[k] for k in sorted(solution.inside)],
                       [(arc.facet, amount) for arc, amount in zip(network.arcs, solution.flow.on_arc) if amount],
                       [(rows[k], amount) for k, amount in enumerate(solution.flow.on_sink) if amount])


# Whether a mesh and a certificate are those of a scan: the first reason why not is raised, in the order of docs/reference/formats.md.

def check_stamp(stated: Stamp, here: Stamp) -> None:
    if stated.digest != here.digest:
        raise Rejected(f'16 other_scan stated {stated.digest} here {here.digest}')
    if stated.unit != here.unit:
        raise Rejected(f'17 other_unit stated {stated.unit} here {here.unit}')
    if stated.fixed != here.fixed:
        names = ['none' if place is None else row(place) for place in (stated.fixed, here.fixed)]
        raise Rejected(f'18 other_fixed stated {names[0]} here {names[1]}')


def stated_in(cert: Certificate, network: Network) -> tuple[set[int], Flow]:
    """Returns the labels and the flow of a certificate by the numbers of cells and arcs."""
    cells = network.cells
    arcs = {arc.facet: j for j, arc in enumerate(network.arcs)}
    for i, cell in enumerate(cert.inside):
        if cell not in cells.number:
            raise Rejected(f'5 no_such_cell row {i}')
    for i, (facet, _) in enumerate(cert.flow):
        if facet not in arcs:
            raise Rejected(f'6 no_such_facet row {i}')
    for i, (cell, _) in enumerate(cert.sink):
        if cell not in cells.number:
            raise Rejected(f'7 no_such_sink row {i}')
    amounts, leaving = {arcs[facet]: amount for facet, amount in cert.flow}, {cells.number[cell]: amount for cell, amount in cert.sink}
    flow = Flow([amounts.get(j, 0) for j in range(len(network.arcs))], [leaving.get(k, 0) for k in range(len(cells.rows))])
    return {cells.number[cell] for cell in cert.inside}, flow


def check_amounts(network: Network, flow: Flow) -> None:
    """Whether a flow is valid: within capacities, and balanced at each free cell."""
    rows = network.cells.rows
    for arc, amount in zip(network.arcs, flow.on_arc):
        if amount > arc.capacity:
            raise Rejected(f'9 over_capacity {row(arc.facet)} flow {amount} cap {arc.capacity}')
    for k, amount in enumerate(flow.on_sink):
        capacity = 0 if network.fixed[k] else network.sink[k]
        if amount > capacity:
            raise Rejected(f'10 over_sink {row(rows[k])} flow {amount} cap {capacity}')
    comes, goes = [0] * len(rows), list(flow.on_sink)
    for arc, amount in zip(network.arcs, flow.on_arc):
        goes[arc.own] += amount
        comes[arc.across] += amount
    for k, cell in enumerate(rows):
        if not network.fixed[k] and comes[k] != goes[k]:
            raise Rejected(f'11 unbalanced {row(cell)} in {comes[k]} out {goes[k]}')


def check_solution(network: Network, inside: AbstractSet[int], flow: Flow) -> int:
    """Returns the cost of labels and a flow that are a solution."""
    rows = network.cells.rows
    for k in sorted(inside):
        if network.fixed[k]:
            raise Rejected(f'8 fixed_inside {row(rows[k])}')
    check_amounts(network, flow)
    cost = network.cost(inside)
    if value(network, flow) != cost:
        raise Rejected(f'12 not_equal value {value(network, flow)} cost {cost}')
    for k in sorted(inside - least_inside(network, flow)):
        raise Rejected(f'13 not_least {row(rows[k])}')
    return cost


class Accepted(NamedTuple):
    """A certificate that belongs to its scan and its mesh, and the figures of the printed line."""
    certificate: Certificate
    inside: int
    faces: int
    cost: int


def check(model: Model, scan: Scan, vote: int, smooth: int, stamp: Stamp, mesh: bytes, certificate: bytes) -> Accepted:
    """Raises Rejected with the first reason why the two files are not a solution of the scan."""
    cert = read_certificate(certificate)
    if cert.stamp is not None:
        check_stamp(cert.stamp, stamp)
    for name, stated, here in zip(COUNTS, cert.counts, counts_of(scan, vote, smooth)):
        if stated != here:
            raise Rejected(f'4 other_counts {name} stated {stated} here {here}')
    network = model.network(scan, vote, smooth)
    inside, flow = stated_in(cert, network)
    cost = check_solution(network, inside, flow)
    if cert.cost != cost:
        raise Rejected(f'14 wrong_cost stated {cert.cost} cost {cost}')
    surface = mesh_of(network, inside)
    wanted = push_mesh(surface)
    if wanted != mesh:
        both = min(len(wanted), len(mesh))
        raise Rejected(f'15 mesh_differs at {next((k for k in range(both) if wanted[k] != mesh[k]), both)}')
    return Accepted(cert._replace(stamp=stamp), len(inside), len(surface.faces), cost)


# Slices.

Edge = Tuple[int, int]


def check_closed(mesh: Mesh) -> None:
    """Refuses a mesh in which some directed edge does not stand as often as its reverse."""
    count = Counter(edge for a, b, c in mesh.faces for edge in ((a, b), (b, c), (c, a)))
    for a, b in sorted({(min(edge), max(edge)) for edge in count}):
        if count[a, b] != count[b, a]:
            raise Refused(f'28 unbalanced from {a} to {b} there {count[a, b]} back {count[b, a]}')


class Plane:
    """The plane half a unit above a height, and the edges of the faces of a closed mesh that go through it."""

    def __init__(self, mesh: Mesh, height: int) -> None:
        self.mesh, self.twice = mesh, 2 * height + 1
        self.up: dict[int, Edge] = {}
        self.down: dict[int, Edge] = {}
        for k, (a, b, c) in enumerate(mesh.faces):
            for u, v in ((a, b), (b, c), (c, a)):
                if self.is_above(u) != self.is_above(v):
                    (self.up if self.is_above(v) else self.down)[k] = (u, v)

    def is_above(self, v: int) -> bool:
        return 2 * self.mesh.points[v][2] > self.twice

    def step(self, face: int) -> Step:
        """Returns the point where the up edge of a face meets the plane."""
        u, v = (self.mesh.points[i] for i in self.up[face])
        d, t = 2 * (v[2] - u[2]), self.twice - 2 * u[2]
        return Step(face, u[0] * d + (v[0] - u[0]) * t, u[1] * d + (v[1] - u[1]) * t, d)

    def following(self) -> dict[int, int]:
        """Returns the face after each cut face: the k-th face with a down edge is followed by the k-th with the same edge up."""
        with_up: dict[Edge, list[int]] = {}
        for k, edge in self.up.items():
            with_up.setdefault(edge, []).append(k)
        used: Counter[Edge] = Counter()
        found = {}
        for k, (u, v) in self.down.items():
            found[k] = with_up[v, u][used[u, v]]
            used[u, v] += 1
        return found


def slice_of(mesh: Mesh, height: int) -> list[list[Step]]:
    """Returns the loops in which the plane at `height` + 1/2 cuts a mesh, in ascending order of their smallest faces."""
    check_closed(mesh)
    plane = Plane(mesh, height)
    following = plane.following()
    loops, seen = [], set()
    for first in sorted(following):
        loop, k = [], first
        while k not in seen:
            seen.add(k)
            loop.append(plane.step(k))
            k = following[k]
        if loop:
            loops.append(loop)
    return loops
