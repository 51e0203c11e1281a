"""Which tile an edge takes its faces from, so that tiles which differ join closed.

Each edge has an owner: the tile in whose core its middle lies, but for *moved* edges. A face is in the joined mesh if the owners of its three edges have
it. Where some have it and some do not (a disagreement), one of these tiles is made the owner of all edges of the face, and of more edges as long as
that makes new disagreements; of the tiles the one that needs the fewest edges. Then each edge has exactly the faces that its owner's mesh has at it,
and that mesh is closed.

Names: Owners (the owners of edges, and the search for those that are moved).
"""
from __future__ import annotations

from collections import deque
from typing import Dict, Iterable, List, Sequence, Set, Tuple

import numpy as np
from scipy.sparse import coo_matrix
from scipy.sparse.csgraph import connected_components

from recon.toolbox.tile_boxes import Division, core_number
from recon.toolbox.tile_meshes import Edge, EdgeFaces, Face, TileMesh, edges_of

FIRST_LIMIT, GROWTH, MOST_EDGES = 60, 8, 5000
KNOWN = 200000


class Owners:
    """The owners of edges. `moved` has those that are not at home."""

    def __init__(self, division: Division, meshes: Sequence[TileMesh]) -> None:
        self.division, self.meshes = division, meshes
        self.moved: Dict[Edge, int] = {}
        self.homes: Dict[Edge, int] = {}
        self.indexed: Dict[int, EdgeFaces] = {}

    def home(self, edge: Edge) -> int:
        """Returns the tile in whose core the middle of an edge lies."""
        found = self.homes.get(edge)
        if found is None:
            (a, b, c), (d, e, f) = edge
            found = self.homes[edge] = core_number(self.division, (a + d, b + e, c + f), 2)
        return found

    def owner(self, edge: Edge) -> int:
        found = self.moved.get(edge)
        return self.home(edge) if found is None else found

    def faces(self, number: int) -> EdgeFaces:
        """Returns the faces of a tile by their edges."""
        if number not in self.indexed:
            self.indexed[number] = EdgeFaces(self.meshes[number])
        return self.indexed[number]

    def disagree(self, face: Face, tile: int = -1, over: Iterable[Edge] = ()) -> bool:
        """Returns whether only some owners of a face's edges have it, where a tile owns the edges `over`."""
        asked = {tile if edge in over else self.owner(edge) for edge in edges_of(face)}
        return len(asked) > 1 and len({self.faces(number).has(face) for number in asked}) > 1

    def votes(self, face: Face) -> int:
        """Returns how many of the face's edges have an owner that has it."""
        return sum(self.faces(self.owner(edge)).has(face) for edge in edges_of(face))

    def spread(self, edges: Sequence[Edge], tile: int, limit: int) -> Set[Edge] | None:
        """Returns the edges that a tile has to own so that no owners disagree with it, if it owns these; None where they are more than a limit."""
        over, queue = set(edges), deque(edges)
        while queue:
            edge = queue.popleft()
            faces = {*self.faces(tile).at(edge), *self.faces(self.owner(edge)).at(edge)}
            for face in sorted(faces):
                if self.disagree(face, tile, over):
                    over.update(edges_of(face))
                    # an edge that was done before sees other edges of this face change
                    queue.extend(edges_of(face))
            if len(over) > limit:
                return None
        return over

    def best(self, edges: Sequence[Edge], tiles: Sequence[int]) -> Tuple[int, Set[Edge]] | None:
        """Returns the tile that has to own the fewest edges, and these."""
        limit = len(edges) + FIRST_LIMIT
        while True:
            found = [(len(over), tile, over) for tile in tiles for over in [self.spread(edges, tile, limit)] if over is not None]
            if found:
                return min(found, key=lambda each: each[:2])[1:]
            if limit >= MOST_EDGES:
                return None
            limit = min(limit * GROWTH, MOST_EDGES)

    def settle(self, faces: Sequence[Face]) -> bool:
        """Gives the edges of faces that cannot stay as they are to one tile. Returns False where no tile can have them."""
        edges = sorted({edge for face in faces for edge in edges_of(face)})
        tiles = sorted({self.owner(edge) for edge in edges})
        best = self.best(edges, tiles) if len(tiles) > 1 else None
        if best is None:
            return False
        tile, over = best
        for edge in over:
            if self.home(edge) == tile:
                self.moved.pop(edge, None)
            else:
                self.moved[edge] = tile
        return True

    def settle_groups(self, faces: Sequence[Face]) -> List[Face]:
        """Gives the edges of faces whose owners disagree to other tiles. Returns the faces that stay stuck."""
        stuck: List[Face] = []
        for group in groups_of(faces):
            left = [face for face in group if self.disagree(face)]
            if left and not self.settle(left):
                stuck += left
            for indexed in self.indexed.values():
                if len(indexed.known) > KNOWN:
                    indexed.known.clear()
        return stuck


def groups_of(faces: Sequence[Face]) -> List[List[Face]]:
    """Returns faces in groups that share edges, those at one place one after another."""
    numbers: Dict[Edge, int] = {}
    pairs = [(row, numbers.setdefault(edge, len(numbers))) for row, face in enumerate(faces) for edge in edges_of(face)]
    if not pairs:
        return []
    rows, edges = np.array(pairs).T
    size = len(faces) + len(numbers)
    _, parts = connected_components(coo_matrix((np.ones(len(rows)), (rows, edges + len(faces))), (size, size)), directed=False)
    groups: Dict[int, List[Face]] = {}
    for row, part in enumerate(parts[:len(faces)].tolist()):
        groups.setdefault(part, []).append(faces[row])
    return [*groups.values()]

