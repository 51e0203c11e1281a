"""Meshes as arrays: vertices (n, 3) and faces (m, 3), rows of vertices, counterclockwise seen from outside.

Names: Mesh · unseen_faces (faces that span space that no scanner saw) · areas · mean_angle · pieces (which faces hang together).
"""
from __future__ import annotations

from dataclasses import dataclass
from typing import TYPE_CHECKING, Any, Iterator, NamedTuple

import numpy as np
from scipy.spatial import cKDTree

from recon.clouds import tree_of
from recon.toolbox.orders import ascending
from recon.toolbox.vectors import Vector, angle, axes, normal

if TYPE_CHECKING:
    from recon.toolbox.seen import Views

NEAR = 6
FACTOR = 8.0
LEAST_PIECE = 20
SAMPLE = 4_000
CHUNK = 1 << 14
SLOTS = 8
MIXING, MASK = 0x9E3779B97F4A7, (1 << 40) - 1


class Sides(NamedTuple):
    """Of some rows of faces: the squares of the first and of the last side, and their product, as vectors from the first corner."""
    rows: slice
    one: np.ndarray
    two: np.ndarray
    both: np.ndarray


@dataclass(repr=False)
class Mesh:
    """Vertices (n, 3) in the scan's numbers, and faces (m, 3) as rows of vertices. `source` (n,) is the row of the scan that each
    vertex is, where the vertices are points of a scan; `views` are from where they were seen, where that is known."""
    vertices: np.ndarray
    faces: np.ndarray
    source: np.ndarray | None = None
    views: Views | None = None

    def __repr__(self) -> str:
        return f'<Mesh: {len(self.vertices):,} vertices, {len(self.faces):,} faces>'

    def unseen(self) -> np.ndarray:
        """Returns which faces (m,) span space that no scanner saw: by the lines of sight to their corners, or, where these are not known, by the
        lengths of edges (`unseen_faces`)."""
        if self.views is None:
            return unseen_faces(self.vertices, self.faces)
        from recon.toolbox.seen import unseen_by_sights
        return unseen_by_sights(self.vertices, self.faces, self.views)

    def is_seen(self, unseen: np.ndarray | None = None, fill: float = 0.0) -> np.ndarray:
        """Returns which faces (m,) `seen` has."""
        from recon.toolbox.seen import filled
        is_left = ~filled(self.vertices, self.faces, self.unseen() if unseen is None else unseen, fill)
        part = pieces(self.faces[is_left], len(self.vertices))
        is_left[is_left] = np.bincount(part)[part] >= LEAST_PIECE if len(part) else False
        return np.asarray(is_left)

    def seen(self, unseen: np.ndarray | None = None, fill: float = 0.0) -> Mesh:
        """Returns the open mesh without the faces that span unseen space, and without pieces under 20 faces that are left of it. All
        vertices stay. Holes up to `fill` wide keep their faces. `unseen` is what `unseen` returned, if it is known."""
        return Mesh(self.vertices, self.faces[self.is_seen(unseen, fill)], self.source, self.views)

    def to_open3d(self) -> Any:
        """Returns an `open3d.geometry.TriangleMesh`."""
        import open3d
        return open3d.geometry.TriangleMesh(open3d.utility.Vector3dVector(self.vertices), open3d.utility.Vector3iVector(self.faces))

    def to_trimesh(self) -> Any:
        """Returns a `trimesh.Trimesh` with the same vertices and faces."""
        import trimesh
        return trimesh.Trimesh(self.vertices, self.faces, process=False)

    def to_meshio(self) -> Any:
        """Returns a `meshio.Mesh`, with `source` as a column of its points."""
        import meshio
        data = {} if self.source is None else {'source': self.source}
        return meshio.Mesh(self.vertices, [('triangle', self.faces)], point_data=data)


def sides(vertices: np.ndarray, faces: np.ndarray) -> Iterator[Sides]:
    """Yields the sides of faces, some thousands at a time, so that all that is computed of them stays in the cache."""
    columns = [np.ascontiguousarray(vertices[:, k]) for k in range(3)]
    for start in range(0, len(faces), CHUNK):
        rows = slice(start, start + CHUNK)
        first, second, third = (faces[rows, k] for k in range(3))
        one = two = both = np.zeros(len(first))
        for column in columns:
            from_here = column[first]
            there, back = column[second] - from_here, column[third] - from_here
            one, two, both = one + there * there, two + back * back, both + there * back
        yield Sides(rows, one, two, both)


def longest_edges(vertices: np.ndarray, faces: np.ndarray) -> np.ndarray:
    """The length of the longest edge of each face."""
    longest = np.empty(len(faces))
    for part in sides(vertices, faces):
        across = part.one + part.two - 2 * part.both
        longest[part.rows] = np.maximum(np.maximum(part.one, part.two), across)
    return np.asarray(np.sqrt(np.maximum(longest, 0)))


def unseen_faces(vertices: np.ndarray, faces: np.ndarray, factor: float = FACTOR) -> np.ndarray:
    """Returns which faces have an edge over `factor` times the spacing around their corners: the mean distance of a vertex to its six
    nearest, at least half the median (of a sample of 4,000), of the corner where that is neither least nor greatest. Points are nowhere so far
    apart where a scanner saw a surface, so such faces close the surface over what no scanner saw. A corner alone makes no long edge usual."""
    if not len(faces):
        return np.zeros(0, bool)
    is_used = np.zeros(len(vertices), bool)
    is_used[faces.ravel()] = True
    used = vertices if is_used.all() else vertices[is_used]
    tree = tree_of(used)
    some = used if len(used) <= SAMPLE else used[np.sort(np.random.default_rng(1).permutation(len(used))[:SAMPLE])]
    least = float(np.median(near_distances(tree, some))) / 2
    longest = longest_edges(vertices, faces)
    long = np.flatnonzero(longest > factor * least)
    corners, at = np.unique(faces[long], return_inverse=True)
    near = np.maximum(near_distances(tree, vertices[corners]), least)
    unseen = np.zeros(len(faces), bool)
    unseen[long] = longest[long] > factor * np.median(near[at.reshape(-1, 3)], axis=1)
    return unseen


def near_distances(tree: cKDTree, places: np.ndarray) -> np.ndarray:
    """The mean distance of each place, a point of the tree, to the six nearest others."""
    if tree.n < 2 or not len(places):
        return np.zeros(len(places))
    return np.asarray(tree.query(places, min(NEAR + 1, tree.n), workers=-1)[0][:, 1:].mean(axis=1))


def areas(vertices: np.ndarray, faces: np.ndarray) -> np.ndarray:
    """Returns the area of each face."""
    area = np.empty(len(faces))
    for part in sides(vertices, faces):
        area[part.rows] = part.one * part.two - part.both * part.both
    return np.asarray(np.sqrt(np.maximum(area, 0)) / 2)


def neighboring(faces: np.ndarray, count: int) -> tuple[np.ndarray, np.ndarray]:
    """Returns pairs of faces with an edge in common, of `count` vertices, as two columns, so that the pairs link all faces of an edge. Sides are put
    into a table, in one of eight slots of their lower vertex; those that one of another edge covers are sorted."""
    keys, slots = side_keys(faces, count)
    table = np.zeros(SLOTS * count, np.int32)
    pairs: list[tuple[np.ndarray, np.ndarray]] = []
    left: list[np.ndarray] = []
    for rows in chunks(len(keys)):
        table[slots[rows]] = np.arange(rows.start, rows.stop, dtype=np.int32)
    for rows in chunks(len(keys)):
        last = table[slots[rows]]
        is_same = keys[last] == keys[rows]
        other = np.flatnonzero(is_same & (last != np.arange(rows.start, rows.stop)))
        pairs.append((last[other] // 3, ((other + rows.start) // 3).astype(np.int32)))
        left.append(np.flatnonzero(~is_same) + rows.start)
    covered = np.concatenate(left)
    order, sorted_keys = ascending(keys[covered], count * count)
    same = np.flatnonzero(sorted_keys[1:] == sorted_keys[:-1])
    owner = (covered[order] // 3).astype(np.int32)
    pairs.append((owner[same], owner[same + 1]))
    return np.concatenate([one for one, _ in pairs]), np.concatenate([other for _, other in pairs])


def side_keys(faces: np.ndarray, count: int) -> tuple[np.ndarray, np.ndarray]:
    """Returns the number of the edge of each side, face after face, and the slot in which it is looked for."""
    keys, slots = np.empty((len(faces), 3), np.int64), np.empty((len(faces), 3), np.int32)
    for rows in chunks(len(faces)):
        corners = [np.ascontiguousarray(faces[rows, k], np.int64) for k in range(3)]
        for k, one in enumerate(corners):
            other = corners[(k + 1) % 3]
            low, high = np.minimum(one, other), np.maximum(one, other)
            keys[rows, k] = low * count + high
            slots[rows, k] = low * SLOTS + high % SLOTS
    return keys.ravel(), slots.ravel()


def chunks(count: int) -> Iterator[slice]:
    """Yields slices that cover this number of rows, some thousands each, so that what is computed of them stays in the cache."""
    for start in range(0, count, CHUNK):
        yield slice(start, min(start + CHUNK, count))


def linked(one: np.ndarray, other: np.ndarray, count: int) -> np.ndarray:
    """Returns for each of `count` things the number of its part, where pairs of things are linked. Each thing is joined to one before it, and the parts
    that this makes are joined in the same way (Boruvka's method)."""
    before = np.arange(count, dtype=np.int32)
    before[np.maximum(one, other)] = np.minimum(one, other)
    while True:
        further = before[before]
        if np.array_equal(further, before):
            break
        before = further
    is_first = before == np.arange(count, dtype=np.int32)
    part = (np.cumsum(is_first, dtype=np.int32) - 1)[before]
    one, other = part[one], part[other]
    is_left = np.flatnonzero(one != other)
    return part if not len(is_left) else linked(one[is_left], other[is_left], int(is_first.sum()))[part]


def pieces(faces: np.ndarray, count: int) -> np.ndarray:
    """Returns the number of its piece for each face. Faces with an edge in common, of `count` vertices, are of one piece; the mesh may be
    open."""
    return linked(*neighboring(faces, count), len(faces)) if len(faces) else np.zeros(0, np.int32)


def mean_angle(places: np.ndarray, faces: np.ndarray) -> float:
    """Returns the mean angle between neighboring faces, in degrees, of the edges that two faces have; of a mesh of over 40,000 faces that of the edges
    of some of its vertices, about a hundred thousand sides."""
    share, count = faces.size >> 17, len(places)
    is_chosen = (np.arange(count) * MIXING >> 20 & MASK) % (share + 1) == 0
    found = []
    for one, other in ((faces[:, k], faces[:, (k + 1) % 3]) for k in range(3)):
        low = np.minimum(one, other)
        rows = np.flatnonzero(is_chosen[low])
        found.append((rows, low[rows] * count + np.maximum(one[rows], other[rows])))
    owner = np.concatenate([rows for rows, _ in found])
    order, keys = ascending(np.concatenate([keys for _, keys in found]), count * count)
    is_same = np.r_[False, keys[1:] == keys[:-1], False]
    first = np.flatnonzero(is_same[1:] & ~is_same[:-1] & ~np.r_[is_same[2:], False])
    spots = places.astype(float)

    def normals(rows: np.ndarray) -> Vector:
        return normal(*(axes(spots, faces[rows, k]) for k in range(3)))

    both = angle(normals(owner[order[first]]), normals(owner[order[first + 1]]))
    return float(np.degrees(both.mean())) if len(first) else 0.0
