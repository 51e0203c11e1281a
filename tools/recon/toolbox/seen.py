"""Which faces of a mesh scanners saw, by the lines of sight to their corners.

A face counts as seen if at least two of its corners were seen from its front side, and either of these holds:

- two corners see it squarely, its width across their lines of sight is at most 3 times the usual width there, and its normal is within 45 degrees of
  theirs; or the width is at most 8 times, and the normal is within 14 degrees;
- it lies in a gap that continues a flat surface on all sides, such as the ground under a scanner: the normals at all three corners are within 11
  degrees, and so for nearly all of the gap.

A curved triangle with the normals at the corners of a face shows how far off it the surface is. Of a face over 3 usual widths, at one corner over 6, it may
be 0.3 usual widths.

At the silhouette of an object faces are seen edge-on. One that is up to 7 degrees past it counts as seen if it continues the surface: two normals at
its corners are within 14 degrees, and the surface is off it by at most 0.06 usual widths.

The usual width at a vertex is the geometric mean of the lengths of its edges across its line of sight, but at most 4 times what is usual for its
scanner. The normal at a vertex is the mean of those of the faces around it, each the more the more squarely it is seen. So a face along the lines of
sight, from the edge of one object to another one behind it, is left out, and ground that is seen at the same small angle stays.

Gaps of up to 4 edges of usual length count as seen, and where positions are synthesised along normals all faces up to 2 usual widths wide.

Names: Views (from where points were seen) · views_of · unseen_by_sights · filled (unseen faces without those of small holes).
"""
from __future__ import annotations

from typing import Iterator, NamedTuple

import numpy as np

from recon.meshes import areas, pieces

# how many usual widths a face may be wide for two corners that see it squarely, for two that continue it, and for the third one; and how many
# times the usual width of its scanner that of a vertex may be
SQUARE_WIDTHS, SMOOTH_WIDTHS, MOST_WIDTHS, USUAL = 3.0, 8.0, 12.0, 4.0
# faces up to this width make the normals at vertices
NORMAL_WIDTHS = 6.0
# the widths up to which faces count as seen where positions are synthesised along normals
MADE_UP_WIDTHS = 2.0
# the least cosines between the normal of a face and its lines of sight: of one that is seen from the front, and of one that is seen squarely
FRONT, SQUARE = 0.03, 0.2
# the same of one at a silhouette, between that and FRONT; the least cosine to the normals at its corners, and how far off it the surface is at most
EDGE_ON, BENT, OFF = -0.12, 0.97, 0.06
# how far off a face over SQUARE_WIDTHS, and NORMAL_WIDTHS at one corner, the surface is at most
WIDE_OFF = 0.3
# the least cosines between the normal of a face and those at its corners: where it is seen squarely, where it continues them, and in a flat gap
ALIKE, SMOOTH, FLAT = 0.7, 0.97, 0.98
# the part of a gap's area that has to be flat
WHOLE = 0.95
# how many edges of usual length a gap is wide that counts as seen
SMALL = 4.0
CHUNK = 1 << 14
FEW = 100
SAMPLE = 20_000


class Views(NamedTuple):
    """From where the vertices of a mesh were seen: places (n, 3), the number of the scanner of each vertex (n,), which vertices (n,) were
    added around a scan, so that no scanner saw what they are corners of, and whether the places are synthesised along normals."""
    places: np.ndarray
    scanner: np.ndarray
    added: np.ndarray
    is_made_up: bool = False

    def take(self, rows: np.ndarray) -> Views:
        """The views of these rows."""
        return Views(self.places[rows], self.scanner[rows], self.added[rows], self.is_made_up)


class Corners(NamedTuple):
    """Of some faces: the rows, the normals (3, m), and for each corner the cosine of its line of sight, and the width of the face in usual
    widths."""
    rows: slice
    normal: np.ndarray
    cosine: np.ndarray
    width: np.ndarray


def views_of(points: np.ndarray, scanners: np.ndarray, counts: np.ndarray, seen_by: np.ndarray, added: int = 0, is_made_up: bool = False) -> Views:
    """Returns from where points were seen, the last `added` of them being no points of a scan: each from the nearest of its scanners. Points
    without one are seen from where they are. `counts` and `seen_by` are the columns of Sights."""
    count = len(points)
    scanner = np.full(count, -1)
    if (counts == 1).all():
        scanner = seen_by
    elif len(seen_by):
        owner = np.repeat(np.arange(count), counts)
        far = ((points[owner] - scanners[seen_by]) ** 2).sum(axis=1)
        order = np.lexsort((-far, owner))
        # the last of a row that is assigned is the nearest
        scanner[owner[order]] = seen_by[order]
    places = np.where(scanner[:, None] >= 0, scanners[scanner], points) if len(scanners) else points
    return Views(places, scanner, np.arange(count) >= count - added, is_made_up)


def chunks(count: int) -> Iterator[slice]:
    for start in range(0, count, CHUNK):
        yield slice(start, min(start + CHUNK, count))


class Faces:
    """The faces of a mesh, and the directions from their corners to the scanners. All is in columns, and is computed for some thousands of faces
    at a time, so that it stays in the cache."""

    def __init__(self, vertices: np.ndarray, faces: np.ndarray, views: Views) -> None:
        self.count, self.faces = len(vertices), faces
        self.places = [np.ascontiguousarray(vertices[:, k], float) for k in range(3)]
        ways = [views.places[:, k] - place for k, place in enumerate(self.places)]
        self.far = np.sqrt(sum(way * way for way in ways))
        self.ways = [way / np.maximum(self.far, 1e-300) for way in ways]

    def sides(self, rows: slice) -> list[list[np.ndarray]]:
        """The three sides of some faces, from each corner to the next one, as columns."""
        corners = [[place[self.faces[rows, k]] for place in self.places] for k in range(3)]
        return [[after - before for before, after in zip(corners[k], corners[(k + 1) % 3])] for k in range(3)]

    def widths(self) -> np.ndarray:
        """The geometric mean of the lengths of a vertex's sides across its line of sight."""
        total, number = np.zeros(self.count), np.bincount(self.faces.ravel(), minlength=self.count)
        for rows in chunks(len(self.faces)):
            sides = self.sides(rows)
            low = int(self.faces[rows].min())
            span = int(self.faces[rows].max()) + 1 - low
            for k in range(3):
                corner = self.faces[rows, k]
                long = across(sides[k], [way[corner] for way in self.ways])
                part = np.bincount(corner - low, np.log(np.maximum(long, 1e-300)), span)
                total[low:low + span] += part
        return np.exp(total / np.maximum(number, 1))

    def corners(self, usual: np.ndarray) -> Iterator[Corners]:
        """Yields normals, cosines and widths."""
        for rows in chunks(len(self.faces)):
            sides = self.sides(rows)
            first, last = sides[0], sides[2]
            normal = [last[(k + 1) % 3] * first[(k + 2) % 3] - last[(k + 2) % 3] * first[(k + 1) % 3] for k in range(3)]
            size = np.sqrt(sum(part * part for part in normal))
            normal = [part / np.maximum(size, 1e-300) for part in normal]
            cosine, width = np.empty((3, len(size))), np.empty((3, len(size)))
            for k in range(3):
                corner = self.faces[rows, k]
                way = [column[corner] for column in self.ways]
                cosine[k] = sum(part * toward for part, toward in zip(normal, way))
                width[k] = np.maximum(across(sides[k], way), across(sides[k - 1], way)) / usual[corner]
            yield Corners(rows, np.stack(normal), cosine, width)


def across(side: list[np.ndarray], way: list[np.ndarray]) -> np.ndarray:
    """The lengths of sides across directions of length 1."""
    along = sum(part * toward for part, toward in zip(side, way))
    return np.asarray(np.sqrt(np.maximum(sum(part * part for part in side) - along * along, 0)))


def capped(widths: np.ndarray, far: np.ndarray, scanner: np.ndarray, used: np.ndarray) -> np.ndarray:
    """The widths, at most some times as wide as is usual for the scanner at that distance, or for all vertices. So a vertex alone, whose edges
    are all long, does not make long ones usual."""
    angle = widths / np.maximum(far, 1e-300)
    rows = np.flatnonzero(used)
    if not len(rows):
        return widths
    order = rows[np.argsort(scanner[rows], kind='stable')]
    starts = np.flatnonzero(np.diff(scanner[order], prepend=-2))
    usual = np.full(len(widths), np.median(angle[rows]))
    for start, end in zip(starts, np.r_[starts[1:], len(order)]):
        if end - start >= FEW:
            usual[order[start:end]] = np.median(angle[order[start:end]])
    return np.minimum(widths, USUAL * np.maximum(usual * far, np.median(widths[rows])))


def normals_at(faces: np.ndarray, count: int, weights: np.ndarray, normals: np.ndarray) -> np.ndarray:
    """The normals at vertices (3, n), by weights (3, m) of the corners of faces with normals (3, m)."""
    sums = np.zeros((3, count))
    for k in range(3):
        for axis in range(3):
            sums[axis] += np.bincount(faces[:, k], weights[k] * normals[axis], count)
    return np.asarray(sums / np.maximum(np.sqrt((sums * sums).sum(axis=0)), 1e-300))


def unseen_by_sights(vertices: np.ndarray, faces: np.ndarray, views: Views) -> np.ndarray:
    """Returns which faces (m,) no scanner saw, by the lines of sight to their corners. `views` are those of the vertices."""
    if not len(faces):
        return np.zeros(0, bool)
    mesh, used = Faces(vertices, faces, views), np.zeros(len(vertices), bool)
    used[faces.ravel()] = True
    usual = np.maximum(capped(mesh.widths(), mesh.far, views.scanner, used & ~views.added), 1e-300)
    normal, cosine, width = (np.empty((3, len(faces))) for _ in range(3))
    for part in mesh.corners(usual):
        normal[:, part.rows], cosine[:, part.rows], width[:, part.rows] = part.normal, part.cosine, part.width
    is_front = cosine > FRONT
    at = normals_at(faces, len(vertices), np.where(is_front & (width <= NORMAL_WIDTHS), cosine, 0), normal)
    agree = np.stack([sum(normal[axis] * at[axis][faces[:, k]] for axis in range(3)) for k in range(3)])
    is_square = two_of((cosine >= SQUARE) & (width <= SQUARE_WIDTHS) & (agree >= ALIKE))
    is_seen = (is_square | two_of((width <= SMOOTH_WIDTHS) & (agree >= SMOOTH))) & (width <= MOST_WIDTHS).all(axis=0)
    is_added = views.added[faces].any(axis=1)
    is_possible = two_of(is_front) & ~is_added
    unseen = ~(is_possible & is_seen)
    if views.is_made_up:
        # normals that are estimated or noisy say nothing of small faces
        unseen &= is_added | ~two_of(width <= MADE_UP_WIDTHS)
    wide = np.flatnonzero(~unseen & two_of(width > SQUARE_WIDTHS) & (width > NORMAL_WIDTHS).any(axis=0))
    unseen[wide] = off(mesh, at, usual, wide) > WIDE_OFF
    edge_on = np.flatnonzero(unseen & ~is_added & ~two_of(is_front) & two_of(cosine > EDGE_ON))
    unseen[edge_on[silhouettes(mesh, at, usual, edge_on, normal[:, edge_on])]] = False
    unseen &= ~flat_gaps(vertices, faces, unseen, is_possible & (agree >= FLAT).all(axis=0))
    return filled(vertices, faces, unseen, SMALL * usual_side(vertices, faces)) | is_added


def silhouettes(mesh: Faces, at: np.ndarray, usual: np.ndarray, rows: np.ndarray, normal: np.ndarray) -> np.ndarray:
    """Which of the faces `rows`, which are seen edge-on, continue the surface: by the normals at their corners, and then by those of the first ones at corners
    that have none."""
    corners, kept = mesh.faces[rows], np.zeros(len(rows), bool)
    for _ in range(2):
        agree = np.einsum('ai,aik->ki', normal, at[:, corners])
        kept |= two_of(agree > BENT) & (off(mesh, at, usual, rows) <= OFF)
        found = normals_at(corners, mesh.count, np.broadcast_to(kept, (3, len(rows))), normal)
        at = np.where((at == 0).all(axis=0), found, at)
    return kept


def off(mesh: Faces, normals: np.ndarray, usual: np.ndarray, rows: np.ndarray) -> np.ndarray:
    """How far the middle of some faces is from that of the curved triangle with these normals (3, n) at its corners (the PN triangle of Vlachos et al.), in
    usual widths."""
    corners = mesh.faces[rows]
    places = np.stack([place[corners] for place in mesh.places])
    at = normals[:, corners]
    deep = ((places.mean(axis=2, keepdims=True) - places) * at).sum(axis=0)
    return np.asarray(np.linalg.norm((deep * at).sum(axis=2), axis=0) / 6 / np.median(usual[corners], axis=1))


def two_of(corners: np.ndarray) -> np.ndarray:
    """Which faces have two corners at which something holds, of columns for the corners (3, m)."""
    return (corners[0] & corners[1]) | (corners[1] & corners[2]) | (corners[2] & corners[0])


def flat_gaps(vertices: np.ndarray, faces: np.ndarray, unseen: np.ndarray, is_flat: np.ndarray) -> np.ndarray:
    """Which unseen faces go on as flat, in gaps that do so on nearly all their area."""
    rows = np.flatnonzero(unseen)
    flat = np.zeros(len(faces), bool)
    if len(rows) and is_flat[rows].any():
        gap, size = pieces(faces[rows], len(vertices)), areas(vertices, faces[rows])
        part = np.bincount(gap, size * is_flat[rows]) >= WHOLE * np.bincount(gap, size)
        flat[rows] = is_flat[rows] & part[gap]
    return flat


def usual_side(vertices: np.ndarray, faces: np.ndarray) -> float:
    """The median length of a side, of a sample of the faces."""
    some = faces[::max(1, len(faces) // SAMPLE)]
    return float(np.median(np.linalg.norm(vertices[some[:, 0]] - vertices[some[:, 1]], axis=1)))


def filled(vertices: np.ndarray, faces: np.ndarray, unseen: np.ndarray, length: float) -> np.ndarray:
    """Returns the unseen faces (m,) without those in gaps whose box has a diagonal of at most `length`. A gap is unseen faces that are connected by
    edges."""
    rows = np.flatnonzero(unseen)
    if not len(rows) or not length:
        return unseen
    gap = pieces(faces[rows], len(vertices))
    order = np.argsort(gap, kind='stable')
    starts = np.flatnonzero(np.diff(gap[order], prepend=-1))
    square = np.zeros(len(starts))
    for axis in range(3):
        corners = vertices[faces[rows[order]], axis]
        square += (np.maximum.reduceat(corners.max(axis=1), starts) - np.minimum.reduceat(corners.min(axis=1), starts)) ** 2
    is_left = unseen.copy()
    is_left[rows] = (square > length * length)[gap]
    return is_left


__all__ = ['Views', 'filled', 'unseen_by_sights', 'views_of']
