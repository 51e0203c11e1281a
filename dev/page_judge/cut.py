"""The minimum cut with the smallest inside, by augmenting paths."""
from __future__ import annotations

from collections import deque
from typing import Deque, Dict, List, Sequence, Set, Tuple

from .points import Cell


class Residual:
    """The residual network. Nodes are numbers; the last two are the source and the sink."""

    def __init__(self, count: int) -> None:
        self.source, self.sink = count, count + 1
        self.edges: List[List[int]] = [[] for _ in range(count + 2)]
        self.ends: List[int] = []
        self.rooms: List[int] = []

    def add(self, u: int, v: int, room: int) -> None:
        for start, end, amount in ((u, v, room), (v, u, 0)):
            self.edges[start].append(len(self.ends))
            self.ends.append(end)
            self.rooms.append(amount)

    def path(self) -> List[int]:
        """Returns the edges of a shortest augmenting path from the source to the sink, from its end on."""
        came: Dict[int, int] = {self.source: -1}
        waiting: Deque[int] = deque([self.source])
        while waiting and self.sink not in came:
            u = waiting.popleft()
            for edge in self.edges[u]:
                if self.rooms[edge] and self.ends[edge] not in came:
                    came[self.ends[edge]] = edge
                    waiting.append(self.ends[edge])
        path, at = [], self.sink
        while came.get(at, -1) >= 0:
            path.append(came[at])
            at = self.ends[came[at] ^ 1]
        return path

    def fill(self) -> int:
        """Sends as much as can flow, and returns its value."""
        value, path = 0, self.path()
        while path:
            amount = min(self.rooms[edge] for edge in path)
            for edge in path:
                self.rooms[edge] -= amount
                self.rooms[edge ^ 1] += amount
            value, path = value + amount, self.path()
        return value

    def reaching(self) -> Set[int]:
        """Returns the nodes from which the sink can be reached."""
        found, waiting = {self.sink}, deque([self.sink])
        while waiting:
            v = waiting.popleft()
            for edge in self.edges[v]:
                if self.rooms[edge ^ 1] and self.ends[edge] not in found:
                    found.add(self.ends[edge])
                    waiting.append(self.ends[edge])
        return found


def smallest_inside(cells: Sequence[Cell], fixed: Dict[Cell, bool], arcs: Sequence[Tuple[Cell, Cell]], caps: Sequence[int],
                    sinks: Sequence[int]) -> Tuple[Set[Cell], int]:
    """Returns the inside cells of the minimum cut with the smallest inside, and its cost. Outside is the source's side."""
    number = {cell: k for k, cell in enumerate(cells)}
    net, most = Residual(len(cells)), sum(caps) + sum(sinks) + 1
    for cell, sink in zip(cells, sinks):
        if fixed[cell]:
            net.add(net.source, number[cell], most)
        net.add(number[cell], net.sink, sink)
    for (u, v), cap in zip(arcs, caps):
        net.add(number[u], number[v], cap)
    cost = net.fill()
    reaching = net.reaching()
    return {cell for cell in cells if number[cell] in reaching}, cost
