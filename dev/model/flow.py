"""A maximum flow of a network by shortest augmenting paths (Edmonds and Karp 1972), and the minimum cut with the smallest inside.

Flow comes from the cells that are fixed outside, goes over facets from the cell of a directed facet to its adjacent cell, and
leaves at the sinks. What cells that are fixed cost at their own sinks is paid by all labels, and counts as flow.
"""
from __future__ import annotations

from typing import NamedTuple, Sequence

from .votes import Network

FROM, TO = -1, -2          # where all flow comes from and goes to


class Flow(NamedTuple):
    """The amount on each arc, and what leaves at the sink of each cell."""
    on_arc: Sequence[int]
    on_sink: Sequence[int]


class Residual:
    """What may still be sent over each edge: edge 2 * i in its direction, edge 2 * i + 1 back."""

    def __init__(self) -> None:
        self.ends: list[int] = []
        self.room: list[int] = []
        self.leaving: dict[int, list[int]] = {FROM: [], TO: []}

    def add(self, u: int, v: int, capacity: int) -> int:
        """Adds an edge and returns its number."""
        for a, b, room in ((u, v, capacity), (v, u, 0)):
            self.leaving.setdefault(a, []).append(len(self.ends))
            self.ends.append(b)
            self.room.append(room)
        return len(self.ends) - 2

    def path(self) -> list[int] | None:
        """Returns the edges of a shortest way with residual capacity, if there is one."""
        came: dict[int, int] = {FROM: -1}
        queue = [FROM]
        for u in queue:
            for e in self.leaving[u]:
                if self.room[e] and self.ends[e] not in came:
                    came[self.ends[e]] = e
                    queue.append(self.ends[e])
            if TO in came:
                break
        if TO not in came:
            return None
        way, u = [], TO
        while u != FROM:
            way.append(came[u])
            u = self.ends[came[u] ^ 1]
        return way

    def send(self, way: list[int]) -> None:
        """Sends as much along a way as it takes."""
        amount = min(self.room[e] for e in way)
        for e in way:
            self.room[e] -= amount
            self.room[e ^ 1] += amount


def maximum(network: Network) -> Flow:
    """Returns a flow of the largest value."""
    left = Residual()
    arcs = [left.add(FROM if network.fixed[arc.own] else arc.own, arc.across, arc.capacity) for arc in network.arcs]
    sinks = [None if network.fixed[k] else left.add(k, TO, sink) for k, sink in enumerate(network.sink)]
    way = left.path()
    while way is not None:
        left.send(way)
        way = left.path()
    return Flow([left.room[e ^ 1] for e in arcs], [0 if e is None else left.room[e ^ 1] for e in sinks])


def value(network: Network, flow: Flow) -> int:
    return sum(sink if network.fixed[k] else flow.on_sink[k] for k, sink in enumerate(network.sink))


def least_inside(network: Network, flow: Flow) -> frozenset[int]:
    """Returns the smallest set of inside cells of least cost: those from which, over a maximum flow, a sink with residual capacity can be reached."""
    into: list[list[int]] = [[] for _ in network.sink]
    for arc, amount in zip(network.arcs, flow.on_arc):
        if amount < arc.capacity:
            into[arc.across].append(arc.own)
        if amount > 0:
            into[arc.own].append(arc.across)
    queue = [k for k, sink in enumerate(network.sink) if not network.fixed[k] and flow.on_sink[k] < sink]
    found = set(queue)
    for k in queue:
        new = [u for u in dict.fromkeys(into[k]) if u not in found]
        found.update(new)
        queue += new
    return frozenset(found)
