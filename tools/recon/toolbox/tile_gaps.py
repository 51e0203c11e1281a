"""The gaps of a joined surface, and triangles that fill them.

Where a directed edge is not met by its reverse as often, the reverse is missing. A surface of closed surfaces' faces has as many
missing edges into each vertex as out of it, so they make up closed ways; a fan of triangles over each has exactly its edges, and
every other edge there and back.

Names: Gaps (missing edges, and the triangles that fill them).
"""
from __future__ import annotations

from typing import Any, Iterator

from recon.toolbox.ply_text import Refusal


class Gaps:
    """The directed edges that are missing, by the vertex that they leave, and where the vertices are."""

    def __init__(self) -> None:
        self.ends: dict[Any, Any] = {}
        self.places: dict[Any, Any] = {}
        self.longest = 0

    def add(self, start: int, end: int, places: tuple[tuple[int, int, int], tuple[int, int, int]], count: int) -> None:
        """Adds an edge between two vertices that is missing the given number of times."""
        self.ends.setdefault(start, []).extend([end] * count)
        self.places[start], self.places[end] = places

    def way_from(self, path: list[int]) -> list[int]:
        """Goes on from the last vertex of a path to one that it has met before; answers the way round, and leaves the path up to
        there."""
        met = {vertex: k for k, vertex in enumerate(path)}
        while True:
            ends = self.ends.get(path[-1])
            if not ends:
                raise Refusal('the mesh of a tile is not closed: recon did not write it')
            vertex = ends.pop()
            if vertex in met:
                way = path[met[vertex]:]
                del path[met[vertex] + 1:]
                return way
            met[vertex] = len(path)
            path.append(vertex)

    def ways(self) -> Iterator[list[int]]:
        """Yields the missing edges as closed ways that meet no vertex twice."""
        for start in sorted(self.ends):
            path = [start]
            while len(path) > 1 or self.ends[start]:
                yield self.way_from(path)

    def fan(self, way: list[int]) -> list[tuple[int, int, int]]:
        """Triangles over a closed way, from the vertex that is nearest to its middle."""
        places = [self.places[vertex] for vertex in way]
        middle = [sum(values) / len(way) for values in zip(*places)]
        first = min(range(len(way)), key=lambda k: sum((a - b) ** 2 for a, b in zip(places[k], middle)))
        way = way[first:] + way[:first]
        return [(way[0], one, other) for one, other in zip(way[1:], way[2:])]

    def faces(self) -> Iterator[tuple[int, int, int]]:
        """Yields the triangles that fill all gaps."""
        for way in self.ways():
            self.longest = max(self.longest, len(way))
            yield from self.fan(way)
