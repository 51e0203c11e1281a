"""Scans of known sites, as a laser scanner makes them: a grid of directions, noise along the line of sight, mixed points at edges.

Names: SITES (sites by name) · SHAPES (of recon-make-scan) · Site (solid parts and stations) · Scan (points, who saw them, and what they are scans of) ·
scan_of · shape_scan · cast (the first triangle on each line of sight).

A *part* is a pair of vertices (n, 3) and faces (m, 3). Lengths are in meters.
"""
from __future__ import annotations

import itertools
import random
import tarfile
from dataclasses import dataclass
from typing import Callable, Dict, List, Sequence, Tuple

import numpy as np
from scipy.spatial import cKDTree

from recon import make_scan

Part = Tuple[np.ndarray, np.ndarray]
CHUNK = 500_000
SHAPES = ('room', 'statue')
WIDE = 0.6
# the beam's width in radians, and the least sine of the angle at which it comes back
BEAM, GRAZING = 0.0003, 0.06
# of Debian's package libcgal-demo
ARCHIVE, BUNNY = '/usr/share/doc/libcgal-dev/data.tar.gz', 'data/meshes/bunny00.off'
PALETTE = np.array([[125, 140, 90], [200, 170, 140], [190, 140, 110], [80, 115, 60], [205, 205, 210], [120, 95, 85], [70, 90, 130], [230, 220, 200], [165, 165, 155],
                    [150, 110, 80]])


@dataclass
class Site:
    """Parts that stay, stations, parts that only the first two stations see (people who walk by), the step between directions at scale 1 in
    degrees, the standard deviation of a distance at 0 m, that of a station's position, and the farthest distance."""
    parts: List[Part]
    stations: np.ndarray
    passing: List[List[Part]]
    step: float
    noise: float
    misplaced: float
    farthest: float
    lowest: float = -60.0


@dataclass
class Scan:
    """Points (n, 3), the station of each (n,), the stations (k, 3) as they are stated, the site's parts joined, the standard deviation of the
    points from the site, of those that are neither mixed nor of what passed by, and colors (n, 3) as bytes, one for each part."""
    points: np.ndarray
    station: np.ndarray
    stations: np.ndarray
    site: Part
    deviation: float
    colors: np.ndarray


def box(low: Sequence[float], high: Sequence[float]) -> Part:
    """A box by two corners."""
    ends = np.array([low, high], float)
    corners = np.array([[ends[k & 1, 0], ends[k >> 1 & 1, 1], ends[k >> 2, 2]] for k in range(8)])
    squares = ((0, 2, 3, 1), (4, 5, 7, 6), (0, 1, 5, 4), (2, 6, 7, 3), (0, 4, 6, 2), (1, 3, 7, 5))
    return corners, np.array([three for a, b, c, d in squares for three in ((a, b, c), (a, c, d))])


def column(x: float, y: float, low: float, radius: float, height: float, count: int = 24) -> Part:
    """An upright cylinder with a lid."""
    turn = np.arange(count) * 2 * np.pi / count
    ring = np.stack([x + radius * np.cos(turn), y + radius * np.sin(turn)], axis=1)
    vertices = np.concatenate([np.c_[ring, np.full(count, low)], np.c_[ring, np.full(count, low + height)], [[x, y, low + height]]])
    k, after = np.arange(count), (np.arange(count) + 1) % count
    sides = [np.stack(three, axis=1) for three in ((k, after, after + count), (k, after + count, k + count))]
    return vertices, np.concatenate([*sides, np.stack([k + count, after + count, np.full(count, 2 * count)], axis=1)])


def joined(parts: Sequence[Part]) -> Part:
    """Parts as one."""
    starts = np.cumsum([0] + [len(vertices) for vertices, _ in parts])
    return np.concatenate([vertices for vertices, _ in parts]), np.concatenate([faces + start for (_, faces), start in zip(parts, starts)])


def moved(part: Part, way: Sequence[float]) -> Part:
    return part[0] + np.array(way), part[1]


def sheet(low: float, high: float, count: int, height: Callable[[np.ndarray, np.ndarray], np.ndarray]) -> Part:
    """Ground over a square, of `count` * `count` vertices."""
    x, y = np.meshgrid(np.linspace(low, high, count), np.linspace(low, high, count))
    row = np.arange(count * count).reshape(count, count)
    squares = [row[:-1, :-1], row[:-1, 1:], row[1:, :-1], row[1:, 1:]]
    a, b, c, d = (part.ravel() for part in squares)
    return np.stack([x.ravel(), y.ravel(), height(x, y).ravel()], axis=1), np.concatenate([np.stack([a, b, c], 1), np.stack([b, d, c], 1)])


def uneven() -> Part:
    """Ground that nowhere goes on as flat for long."""
    return sheet(-40, 40, 161, lambda x, y: 0.15 * np.sin(x / 1.7 + 1) * np.cos(y / 2.1) + 0.15 * np.sin(y / 4.3))


def tree(draw: np.random.Generator, x: float, y: float, leaves: int, radius: float, low: float, high: float) -> Part:
    """A trunk, and a crown of triangles with two sides."""
    way = draw.normal(size=(leaves, 3))
    way *= radius * draw.random((leaves, 1)) ** (1 / 3) / np.linalg.norm(way, axis=1)[:, None]
    middles = way * [1, 1, (high - low) / 2 / radius] + [x, y, (low + high) / 2]
    corners = (middles[:, None] + draw.normal(size=(leaves, 3, 3)) * 0.06).reshape(-1, 3)
    faces = np.arange(3 * leaves).reshape(-1, 3)
    return joined([(corners, np.concatenate([faces, faces[:, ::-1]])), column(x, y, 0, 0.15, low + 0.5)])


def ball(count: int, bumps: float) -> Part:
    """A ball of radius 1 with bumps, as a grid of longitudes and latitudes."""
    turn, height = np.meshgrid(np.arange(2 * count) * np.pi / count, (np.arange(count) + 0.5) * np.pi / count)
    out = np.stack([np.sin(height) * np.cos(turn), np.sin(height) * np.sin(turn), np.cos(height)], axis=-1).reshape(-1, 3)
    far = 1 + bumps * np.sin(5 * out[:, :1] + 1) * np.sin(4 * out[:, 1:2]) + bumps * np.cos(6 * out[:, 2:] + 2 * out[:, :1])
    row = np.arange(2 * count * count).reshape(count, 2 * count)
    after = np.roll(row, -1, axis=1)
    a, b, c, d = row[:-1].ravel(), after[:-1].ravel(), row[1:].ravel(), after[1:].ravel()
    caps = [np.stack([np.full(2 * count - 2, ring[0]), *order], axis=1) for ring, order in
            ((row[0], (row[0][1:-1], row[0][2:])), (row[-1], (row[-1][2:], row[-1][1:-1])))]
    return out * far, np.concatenate([np.stack([a, c, b], 1), np.stack([b, c, d], 1), *caps])


def pieces_of_wall(length: float, height: float, holes: Sequence[Tuple[float, float, float, float]]) -> List[Tuple[float, float, float, float, bool]]:
    """Cuts a wall along the edges of its holes (from, to, bottom, top), and says of each piece whether it is a hole."""
    along = sorted({0.0, length, *(end for hole in holes for end in hole[:2])})
    up = sorted({0.0, height, *(end for hole in holes for end in hole[2:])})
    return [(a, b, low, high, any(x <= a and b <= y and z <= low and high <= t for x, y, z, t in holes))
            for a, b in zip(along, along[1:]) for low, high in zip(up, up[1:])]


def house(x0: float, y0: float, x1: float, y1: float, height: float, roof: float, base: float) -> Part:
    """Walls with panes set back by 22 cm, and a gable roof."""
    parts = []
    for along_x, at, start, end, inward in ((True, y0, x0, x1, 1), (True, y1, x0, x1, -1), (False, x0, y0, y1, 1), (False, x1, y0, y1, -1)):
        count = int((end - start - 1.5) // 3)
        windows = [(1.5 + 3 * k, 2.7 + 3 * k, low, low + 1.4) for k in range(count) for low in (0.9, 3.9)]
        for a, b, low, high, is_pane in pieces_of_wall(end - start, height, windows):
            depth = sorted((at + inward * 0.22, at + inward * 0.24) if is_pane else (at, at + inward * 0.4))
            flat = [[start + a, start + b], depth] if along_x else [depth, [start + a, start + b]]
            parts.append(box([flat[0][0], flat[1][0], low], [flat[0][1], flat[1][1], high]))
    middle = (y0 + y1) / 2
    corners = np.array([[x0 - .5, y0 - .5, height], [x1 + .5, y0 - .5, height], [x1 + .5, middle, height + roof], [x0 - .5, middle, height + roof],
                        [x0 - .5, y1 + .5, height], [x1 + .5, y1 + .5, height]])
    faces = np.array([[0, 1, 2], [0, 2, 3], [4, 3, 2], [4, 2, 5], [0, 3, 4], [1, 5, 2], [0, 4, 1], [1, 4, 5]])
    return moved(joined([*parts, (corners, faces)]), [0, 0, base])


def thin_wall(x0: float, y0: float, x1: float, y1: float, holes: Sequence[Tuple[float, float, float, float]] = (), thick: float = 0.12,
              height: float = 2.6) -> Part:
    """A wall along an axis, with holes (from, to, bottom, top)."""
    length = float(np.hypot(x1 - x0, y1 - y0))
    way = np.array([x1 - x0, y1 - y0]) / length
    side = np.array([-way[1], way[0]]) * thick / 2
    parts = []
    for a, b, low, high, is_hole in pieces_of_wall(length, height, holes):
        if not is_hole:
            ends = np.array([np.array([x0, y0]) + way * t + sign * side for t in (a, b) for sign in (-1, 1)])
            parts.append(box([*ends.min(0), low], [*ends.max(0), high]))
    return joined(parts)


def window(start: float) -> Tuple[float, float, float, float]:
    return start, start + 1.4, 0.9, 2.2


def table(x: float, y: float, wide: float, deep: float) -> List[Part]:
    legs = [box([x + a, y + b, 0], [x + a + .05, y + b + .05, 0.72]) for a in (0, wide - .05) for b in (0, deep - .05)]
    return [box([x, y, 0.72], [x + wide, y + deep, 0.75]), *legs]


def person(x: float, y: float) -> List[Part]:
    return [column(x, y, -0.2, 0.25, 1.75)]


def court(draw: np.random.Generator) -> Site:
    """A yard with two houses, a tree, a statue on a block, posts, a car and a wall, from five stations; people walk by."""
    ground = sheet(-45, 45, 91, lambda x, y: 0.1 * np.sin(x / 15) * np.cos(y / 17))
    statue = ball(40, 0.12)
    parts = [ground, house(-12, 6, 12, 16, 6.2, 4.0, -0.4), house(14, -10, 24, 2, 6.2, 3.0, -0.4), tree(draw, -8, -6, 6000, 2.2, 1.8, 6),
             (statue[0] * [0.35, 0.3, 0.8] + [3, -1, 1.8], statue[1]), box([2.3, -1.7, -0.5], [3.7, -0.3, 1.0]),
             *(column(x, 3, -0.3, 0.06, 4.5) for x in (0, 7, -7)), box([8, -4, 0.15], [12.2, -2.3, 0.9]), box([8.9, -3.95, 0.9], [11.2, -2.35, 1.5]),
             box([-20, -14, -.5], [20, -13.7, 1.4])]
    stations = np.array([[-4., -3, 1.7], [6, -7, 1.6], [12, 4, 1.75], [-15, 10, 1.8], [5, 20, 1.7]])
    return Site(parts, stations, [person(-1.5, -1.5), person(8.5, -5.5)], 0.9, 0.002, 0.003, 80)


def flat(draw: np.random.Generator) -> Site:
    """Three rooms and a corridor with windows and furniture, from five stations inside."""
    door = (2.0, 2.9, 0.0, 2.05)
    parts = [thin_wall(0, 0, 9, 0, [window(1.2), window(6)]), thin_wall(9, 0, 9, 7, [window(2)]), thin_wall(9, 7, 0, 7, [window(1), window(5.5)]),
             thin_wall(0, 7, 0, 0, [(3.0, 3.9, 0, 2.05)]), thin_wall(4.5, 0, 4.5, 3, [(1.2, 2.1, 0, 2.05)]), thin_wall(0, 3, 9, 3, [door, (6.2, 7.1, 0, 2.05)]),
             thin_wall(0, 4.3, 9, 4.3, [(2.2, 3.1, 0, 2.05), (6.4, 7.3, 0, 2.05)]), thin_wall(5, 4.3, 5, 7), box([-.2, -.2, -.3], [9.2, 7.2, 0]),
             box([-.2, -.2, 2.6], [9.2, 7.2, 2.8]), box([-12, -9, -1], [22, -8.7, 6]), moved(uneven(), [4, 3, -.7]),
             *table(1.2, 1.0, 1.6, 0.8), *table(6, 5.2, 1.4, 0.8), box([0.1, 2.2, 0], [1.9, 2.9, 2.0]), box([5.2, 0.3, 0], [7.2, 1.3, 0.45]),
             box([8.2, 0.4, 0], [8.9, 2.4, 2.1]), column(4.0, 6.4, 0, 0.02, 1.6), column(4, 6.4, 1.6, 0.2, 0.3),
             *(box([0.7 + k * 0.7, 0.35, 0], [1.1 + k * 0.7, 0.75, 0.45]) for k in range(4))]
    stations = np.array([[2.2, 2.1, 1.5], [6.6, 1.9, 1.5], [3.6, 3.65, 1.55], [2.6, 5.2, 1.5], [7.6, 4.9, 1.5]])
    return Site(parts, stations, [], 1.0, 0.0015, 0.002, 60)


def room_with_windows(ground: Part) -> Site:
    """One room with two windows over open ground, from two stations inside."""
    parts = [thin_wall(0, 0, 6, 0, [window(0.8), window(3.6)]), thin_wall(6, 0, 6, 5), thin_wall(6, 5, 0, 5), thin_wall(0, 5, 0, 0, [(2, 2.9, 0, 2.05)]),
             box([-.2, -.2, -.3], [6.2, 5.2, 0]), box([-.2, -.2, 2.6], [6.2, 5.2, 2.8]), ground, *table(2, 2, 1.6, 0.8),
             box([0.3, 4.2, 0], [1.9, 4.8, 2.0])]
    return Site(parts, np.array([[1.5, 1.6, 1.5], [4.5, 3.4, 1.5]]), [], 0.7, 0.0015, 0.002, 60)


def one_tree(draw: np.random.Generator) -> Site:
    """A tree on a meadow, from three stations."""
    parts = [sheet(-20, 20, 81, lambda x, y: 0.1 * np.sin(x / 12) * np.cos(y / 13)), tree(draw, 0, 0, 6000, 2.2, 1.8, 6)]
    return Site(parts, np.array([[6., 1, 1.7], [-4, 6, 1.6], [-3, -6, 1.7]]), [], 0.6, 0.002, 0.003, 40)


def bumpy(stations: Sequence[Sequence[float]]) -> Callable[[np.random.Generator], Site]:
    """A ball with bumps, 2 m wide, from these stations."""
    return lambda draw: Site([ball(150, 0.08)], np.array(stations, float), [], 0.25, 0.002, 0.0, 20, lowest=-90.0)


def bunny(stations: Sequence[Sequence[float]]) -> Callable[[np.random.Generator], Site]:
    """A bunny, 2 m high, from these stations."""
    def site(draw: np.random.Generator) -> Site:
        with tarfile.open(ARCHIVE) as packed:
            words = packed.extractfile(BUNNY).read().split()  # type: ignore[union-attr]
        count, faces = int(words[1]), int(words[2])
        places = np.array(words[4:4 + 3 * count], float).reshape(-1, 3)[:, [0, 2, 1]] * [1, -1, 1]
        places = (places - (places.min(axis=0) + places.max(axis=0)) / 2) * 2 / np.ptp(places[:, 2])
        rows = np.array(words[4 + 3 * count:4 + 3 * count + 4 * faces], int).reshape(-1, 4)
        return Site([(places, rows[:, 1:])], np.array(stations, float), [], 0.25, 0.002, 0.0, 20, lowest=-90.0)
    return site


def wall_alone(draw: np.random.Generator) -> Site:
    """A large wall and the ground before it, from one station: few points far along the wall."""
    parts = [box([-40, 10, 0], [40, 10.4, 8]), sheet(-40, 40, 41, lambda x, y: 0 * x)]
    return Site(parts, np.array([[-25., 2, 1.7]]), [], 0.6, 0.002, 0.0, 80)


AROUND = [[4 * np.cos(t), 4 * np.sin(t), z] for t, z in zip(np.arange(6) * np.pi / 3, (1.5, -1, 0.5, 2, -2, 0))]
SITES: Dict[str, Callable[[np.random.Generator], Site]] = {
    'court': court, 'flat': flat, 'windows': lambda draw: room_with_windows(box([-40, -40, -3.1], [40, 40, -3])),
    'windows uneven': lambda draw: room_with_windows(moved(uneven(), [3, 2, -3])), 'tree': one_tree, 'bumpy 6': bumpy(AROUND), 'bumpy 1': bumpy(AROUND[:1]),
    'bumpy 2': bumpy(AROUND[:2]), 'bunny': bunny(AROUND), 'wall': wall_alone}


def cast(origin: np.ndarray, rays: np.ndarray, part: Part) -> Tuple[np.ndarray, np.ndarray]:
    """Returns how far each ray of length 1 goes from the origin to its first face, and that face; inf and -1 without one. Candidates are the
    rays in the cone around each face."""
    corners = part[0][part[1]] - origin
    long = np.linalg.norm(corners, axis=2)
    ways = corners / np.maximum(long, 1e-9)[..., None]
    middle = ways.sum(axis=1)
    middle /= np.maximum(np.linalg.norm(middle, axis=1), 1e-9)[:, None]
    wide = np.arccos(np.clip(np.einsum('nij,nj->ni', ways, middle).min(axis=1), -1, 1))
    far, hit = np.full(len(rays), np.inf), np.full(len(rays), -1)
    rays_of = cKDTree(rays)
    small = np.flatnonzero(wide < WIDE)
    for faces in np.array_split(small, len(small) // 20_000 + 1):
        lists = rays_of.query_ball_point(middle[faces], 2 * np.sin(wide[faces] / 2) + 1e-6)
        face = np.repeat(faces, [len(rows) for rows in lists])
        meet(np.concatenate([np.asarray(rows, int) for rows in lists] or [np.zeros(0, int)]), face, rays, corners, far, hit)
    for one in np.flatnonzero(wide >= WIDE):
        meet(np.arange(len(rays)), np.full(len(rays), one), rays, corners, far, hit)
    return far, hit


def meet(ray: np.ndarray, face: np.ndarray, rays: np.ndarray, corners: np.ndarray, far: np.ndarray, hit: np.ndarray) -> None:
    """Updates how far rays go by pairs of rays and faces (Moeller and Trumbore's test)."""
    for start in range(0, len(ray), CHUNK):
        one, other = ray[start:start + CHUNK], face[start:start + CHUNK]
        way, (a, b, c) = rays[one], (corners[other, k] for k in range(3))
        side, edge = b - a, c - a
        across = np.cross(way, edge)
        share = (side * across).sum(axis=1)
        share[share == 0] = np.inf
        u = -(a * across).sum(axis=1) / share
        turned = np.cross(-a, side)
        v = (way * turned).sum(axis=1) / share
        t = (edge * turned).sum(axis=1) / share
        is_met = np.flatnonzero((u >= 0) & (v >= 0) & (u + v <= 1) & (t > 1e-6))
        order = is_met[np.lexsort((t[is_met], one[is_met]))]
        first = order[np.unique(one[order], return_index=True)[1]]
        first = first[t[first] < far[one[first]]]
        far[one[first]], hit[one[first]] = t[first], other[first]


def directions(step: float, lowest: float) -> np.ndarray:
    """A grid of directions, as a scanner turns."""
    turn, height = np.meshgrid(np.radians(np.arange(0, 360, step)), np.radians(np.arange(lowest + step / 2, 90, step)), indexing='ij')
    return np.stack([np.cos(height) * np.cos(turn), np.cos(height) * np.sin(turn), np.sin(height)], axis=-1).reshape(-1, 3)


def scan_of(name: str, scale: float = 1.0, seed: int = 5) -> Scan:
    """Scans a site; the step between directions is divided by `scale`."""
    draw = np.random.default_rng(seed)
    site = SITES[name](draw)
    rays, whole = directions(site.step / scale, site.lowest), joined(site.parts)
    points, station, colors, square, count = [], [], [], 0.0, 0
    for k, place in enumerate(site.stations):
        passing = site.passing[k] if k < len(site.passing) else []
        parts = [*site.parts, *passing]
        here, hit, is_plain, off = one_station(draw, site, place, rays, joined(parts), len(whole[1]))
        # each station is placed by itself, with an error
        way, turn = draw.normal(size=3) * site.misplaced, np.radians(draw.normal() * 0.01) * (site.misplaced > 0)
        turned = here + np.stack([-here[:, 1], here[:, 0], 0 * here[:, 0]], axis=1) * turn
        points.append(turned + place + way)
        station.append(np.full(len(here), k))
        colors.append(colors_of(here + place, np.searchsorted(np.cumsum([len(faces) for _, faces in parts]), hit, 'right')))
        square, count = square + float((off[is_plain] ** 2).sum()), count + int(is_plain.sum())
    deviation = float(np.hypot((square / max(count, 1)) ** 0.5, site.misplaced))
    return Scan(np.concatenate(points), np.concatenate(station), site.stations, whole, deviation, np.concatenate(colors))


def colors_of(points: np.ndarray, part: np.ndarray) -> np.ndarray:
    """Colors of points by the part that they are of, darker in every other cube of half a meter."""
    is_dark = np.floor(2 * points).astype(int).sum(axis=1) % 2 == 1
    return np.asarray(PALETTE[part % len(PALETTE)] * np.where(is_dark, 0.85, 1.0)[:, None], np.uint8)


def one_station(draw: np.random.Generator, site: Site, place: np.ndarray, rays: np.ndarray, parts: Part,
                staying: int) -> Tuple[np.ndarray, np.ndarray, np.ndarray, np.ndarray]:
    """Returns the points of a station relative to it, their faces, which of them are of one part of the site, and how far they are off its faces."""
    far, hit = cast(place, rays, parts)
    corners = parts[0][parts[1]]
    normals = np.cross(corners[:, 1] - corners[:, 0], corners[:, 2] - corners[:, 0])
    normals /= np.maximum(np.linalg.norm(normals, axis=1), 1e-12)[:, None]
    beside = rays + draw.normal(size=rays.shape) * BEAM
    beside /= np.linalg.norm(beside, axis=1)[:, None]
    other, _ = cast(place, beside, parts)
    slope = np.abs((normals[hit] * rays).sum(axis=1))
    far, other, part = np.minimum(far, 1e9), np.minimum(other, 1e9), draw.random(len(rays))
    # two spots on one plane are no edge
    step = np.abs((normals[hit] * (rays * far[:, None] - beside * other[:, None])).sum(axis=1))
    is_mixed = (np.abs(far - other) > 0.03) & (np.abs(far - other) < 1) & (step > 0.01)
    shown = np.where(is_mixed, part * far + (1 - part) * other, far)
    is_back = np.flatnonzero((hit >= 0) & (shown > 0.5) & (shown < site.farthest) & (slope > GRAZING) & (draw.random(len(rays)) > 0.01))
    error = draw.normal(size=len(is_back)) * site.noise * (1 + shown[is_back] / 40) / np.sqrt(np.maximum(slope[is_back], 0.15))
    points = rays[is_back] * (shown[is_back] + error)[:, None]
    return points, hit[is_back], ~is_mixed[is_back] & (hit[is_back] < staying), error * slope[is_back]


def ball_around(place: Sequence[float], radius: float, others: Sequence[Tuple[Sequence[float], float]]) -> Part:
    """A ball without the faces that are inside of others."""
    vertices, faces = moved((ball(60, 0.0)[0] * radius, ball(60, 0.0)[1]), place)
    middles = vertices[faces].mean(axis=1)
    is_inside = np.any([np.linalg.norm(middles - np.array(other), axis=1) < 0.999 * size for other, size in others], axis=0)
    return vertices, faces[~is_inside]


def shape_scan(name: str, count: int = 60_000, noise: float = 0.0015, seed: int = 5) -> Scan:
    """A scan as recon-make-scan makes it, with 2 % of outliers."""
    shape = make_scan.shape_of(name)
    rows = list(itertools.islice(make_scan.rows_of(random.Random(seed), shape, noise, 0.02), count))
    if name == 'statue':
        parts = [ball_around(place, radius, [it for it in make_scan.FIGURE if it != (place, radius)]) for place, radius in make_scan.FIGURE]
    else:
        walls, faces = box(*make_scan.ROOM)
        parts = [(walls, faces[:, ::-1]), *(box(low, high) for low, high in make_scan.FURNITURE)]
    points = np.array([point for point, _ in rows])
    return Scan(points, np.array([station for _, station in rows]), np.array(shape.scanners, float), joined(parts), noise,
                colors_of(points, np.zeros(len(points), int)))
