"""Makes scans of a known object, and measures how far surfaces are from that object. Needs numpy and scipy.

usage: dev/bench surfaces scan OBJECT OUT .. [points=N] [noise=F,..] [stray=F] [seed=WORD]
       dev/bench surfaces compare OBJECT MESH .. [samples=N] [own=yes] [crossing=no] [vertices=yes]
       dev/bench surfaces room OUT

  OBJECT             a triangle mesh, OFF or PLY; it is scaled so that its box has the diagonal 1000, but not with own=yes
  OUT                a scan of it from 12 positions around it, for `recon build` with unit=1000
  MESH               surfaces to be compared, in the scan's units, as recon-finish and recon-mesh-to-floats write them
  points=N           the number of points of the scan (default: 42000)
  noise=F,..         the standard deviation of a point's error along its sight, in diagonals, of each OUT (default: 0.0005)
  stray=F            the part of the points that are outliers, half of them too short on their sight, half anywhere (default: 0)
  seed=WORD          the seed of the generator (default: 1)
  samples=N          the number of points that are drawn for distances, each way (default: 50000)
  crossing=no        do not count pairs of faces that cross
  vertices=yes       also print the greatest distance of a vertex of OBJECT to the surface

A point is drawn evenly on the object together with a scanner, and kept if that scanner sees it, not at a grazing angle. `room` writes the
room of recon-make-scan as an object, OFF in thousandths of its length 1. `compare` prints a line for each surface: distances from it to
the object and from the object to it (mean, 95th percentile, greatest), to exact triangles; the number of open edges, and of edges with more than
two faces (non-manifold); the number of components by edges; the mean angle between adjacent faces; that between the normals of the surface and the
nearest ones of the object; and the number of pairs of faces that cross.
"""
from __future__ import annotations

import zlib
from typing import Any, Sequence

import numpy as np
from scipy.sparse import coo_matrix
from scipy.sparse.csgraph import connected_components

from bench import triangles
from bench.objects import Camera, Surface, draw_places, joined, read_object, vectors_across
from recon.make_scan import shape_of
from recon.toolbox.output_files import whole_file
from recon.toolbox.ply_text import IS_NUMBER, Property, Refusal, Writer
from recon.toolbox.tool import yes

NAMES, OPTIONS = None, ('points', 'noise', 'stray', 'seed', 'samples', 'own', 'crossing', 'vertices')

DIAGONAL = 1000.0
GRAZING = 0.08


def number(text: str | None, key: str, otherwise: str, most: int) -> float:
    text = text or otherwise
    if not IS_NUMBER(text) or not 0 <= float(text) <= most:
        raise Refusal(f'{key}= is a number from 0 to {most}')
    return float(text)


def placed(path: str) -> tuple[np.ndarray, np.ndarray]:
    """Returns the object about the origin, with the diagonal 1000."""
    places, faces = joined(*read_object(path))
    low, high = places.min(axis=0), places.max(axis=0)
    return (places - (low + high) / 2) * (DIAGONAL / np.linalg.norm(high - low)), faces


def scanners_around() -> np.ndarray:
    """Twelve places, the corners of an icosahedron."""
    far, golden = 1.2 * DIAGONAL, (1 + 5 ** 0.5) / 2
    corners = [(0, one, two) for one in (-1, 1) for two in (-golden, golden)]
    corners = np.array([corner[k:] + corner[:k] for corner in corners for k in range(3)], float)
    return corners * (far / np.linalg.norm(corners[0]))


def seen_points(draw: np.random.Generator, places: np.ndarray, faces: np.ndarray,
                count: int) -> tuple[np.ndarray, np.ndarray, np.ndarray]:
    """Places on the object that one of the scanners sees, and that scanner's number."""
    scanners = scanners_around()
    cameras = [Camera(scanner, places, faces) for scanner in scanners]
    normals = vectors_across(places, faces)
    normals /= np.maximum(np.linalg.norm(normals, axis=1), 1e-300)[:, None]
    points, indices = np.zeros((0, 3)), np.zeros(0, int)
    while len(points) < count:
        drawn, face = draw_places(draw, places, faces, 4 * count)
        index = draw.integers(0, len(scanners), len(drawn))
        sight = scanners[index] - drawn
        seen = (sight * normals[face]).sum(axis=1) > GRAZING * np.linalg.norm(sight, axis=1)
        for k, camera in enumerate(cameras):
            own = index == k
            seen[own] &= camera.are_seen(drawn[own], DIAGONAL / 500)
        points, indices = np.concatenate([points, drawn[seen]]), np.r_[indices, index[seen]]
    return points[:count], indices[:count], scanners


def make_scan(names: Sequence[str], options: Any) -> str:
    noises = [number(word, 'noise', '', 1) for word in (options.noise or '0.0005').split(',')]
    if len(names) != 1 + len(noises):
        raise Refusal('scan takes an object and the files to be written, as many as noises')
    count, stray = int(number(options.points, 'points', '42000', 10 ** 7)), number(options.stray, 'stray', '0', 1)
    draw = np.random.default_rng(zlib.crc32((options.seed or '1').encode()))
    seen, state = seen_points(draw, *placed(names[0]), count), draw.bit_generator.state
    for name, noise in zip(names[1:], noises):
        draw.bit_generator.state = state
        write_scan(name, draw, *seen, noise, stray)
    return f'wrote {count} points and {len(seen[2])} scanners to {", ".join(names[1:])}'


def write_scan(name: str, draw: np.random.Generator, points: np.ndarray, indices: np.ndarray, scanners: np.ndarray, noise: float, stray: float) -> None:
    """Writes points that one of the scanners saw, with noise and outliers."""
    count = len(points)
    sight = scanners[indices] - points
    long = np.linalg.norm(sight, axis=1)[:, None]
    seen = points + sight / long * draw.normal(0, noise * DIAGONAL, (count, 1))
    kind = draw.random(count)
    short = points + sight * draw.random((count, 1)) * 0.5
    anywhere = draw.uniform(-0.6 * DIAGONAL, 0.6 * DIAGONAL, (count, 3))
    seen[kind < stray] = short[kind < stray]
    seen[kind < stray / 2] = anywhere[kind < stray / 2]
    with whole_file(name) as file:
        writer = Writer(file, [Property(axis, 'double') for axis in 'xyz'] + [Property('scanner', 'int')], 'bench')
        writer.begin(True)
        for point, index in zip(seen.tolist(), indices.tolist()):
            writer.row([f'{word:.6f}' for word in point] + [str(index)])
        writer.finish([[f'{word:.6f}' for word in place] for place in scanners.tolist()])


def told(values: np.ndarray) -> str:
    return f'{values.mean():.3f} / {np.percentile(values, 95):.2f} / {values.max():.1f}'


def edges_of(faces: np.ndarray) -> tuple[int, int, np.ndarray, np.ndarray]:
    """Returns how many edges are open, how many have more than two faces, and pairs of faces with a common edge of two."""
    corners = faces.ravel()
    ends = np.roll(faces, -1, axis=1).ravel()
    keys = np.minimum(corners, ends) * (corners.max() + 1) + np.maximum(corners, ends)
    order = np.argsort(keys, kind='stable')
    starts = np.flatnonzero(np.r_[True, np.diff(keys[order]) != 0])
    counts = np.diff(np.r_[starts, len(keys)])
    two = starts[counts == 2]
    return int((counts == 1).sum()), int((counts > 2).sum()), order[two] // 3, order[two + 1] // 3


def piece_count(faces: np.ndarray, one: np.ndarray, other: np.ndarray) -> int:
    """Returns how many pieces hang together by edges of two faces."""
    return int(connected_components(coo_matrix((np.ones(len(one)), (one, other)), (len(faces),) * 2), directed=False)[0])


def crossing_pairs(places: np.ndarray, faces: np.ndarray) -> int:
    """Returns how many pairs of faces cross, of places rounded to a 2^36th of the box: coarser ones make neighbors cross."""
    scale = (1 << 36) / max(np.ptp(places, axis=0).max(), 1e-300)
    whole = np.round((places - places.min(axis=0)) * scale).astype(np.int64)
    low, high = triangles.boxes_of(whole, faces)
    one, other = triangles.Grid(low, high, np.arange(len(faces))).meet(low, high)
    keep = one < other
    one, other = one[keep], other[keep]
    return int(triangles.crossing(whole, faces[one], faces[other]).sum())


def mean_angle(places: np.ndarray, faces: np.ndarray, one: np.ndarray, other: np.ndarray) -> float:
    normals = vectors_across(places, faces)
    normals /= np.maximum(np.linalg.norm(normals, axis=1), 1e-300)[:, None]
    return np.degrees(np.arccos(np.clip((normals[one] * normals[other]).sum(axis=1), -1, 1))).mean()


def mean_turn(normals: np.ndarray, others: np.ndarray) -> float:
    """Returns the mean angle between lines along normals, in degrees: the sides of a room are not oriented."""
    lengths = np.linalg.norm(normals, axis=1) * np.linalg.norm(others, axis=1)
    cosines = (normals * others).sum(axis=1) / np.maximum(lengths, 1e-300)
    return float(np.degrees(np.arccos(np.minimum(np.abs(cosines), 1))).mean())


def compare(names: Sequence[str], options: Any) -> str:
    if len(names) < 2:
        raise Refusal('compare takes an object and a surface or more')
    count = int(number(options.samples, 'samples', '50000', 10 ** 7))
    places, faces = joined(*read_object(names[0])) if yes(options.own, 'own') else placed(names[0])
    surface_of_object = Surface(places, faces)
    print('surface | to object mean / 95 % / max | object to it | open | touching | pieces | angle | normals | crossing pairs | faces')
    for name in names[1:]:
        own, own_faces = joined(*read_object(name))
        draw = np.random.default_rng(1)
        drawn, owner = draw_places(draw, own, own_faces, count)
        there, nearest = surface_of_object.distances(drawn)
        turn = mean_turn(vectors_across(own, own_faces[owner]), vectors_across(places, faces[nearest]))
        surface = Surface(own, own_faces)
        back = surface.distances(draw_places(draw, places, faces, count)[0])[0]
        far = f' | {surface.distances(places)[0].max():.3f}' if yes(options.vertices, 'vertices') else ''
        open_edges, many, one, other = edges_of(own_faces)
        crossing = crossing_pairs(own, own_faces) if options.crossing is None or yes(options.crossing, 'crossing') else ''
        print(f'{name} | {told(there)} | {told(back)} | {open_edges} | {many} | {piece_count(own_faces, one, other)} | '
              f'{mean_angle(own, own_faces, one, other):.1f} | {turn:.1f} | {crossing} | {len(own_faces)}{far}', flush=True)
    return f'compared {len(names) - 1} with {names[0]}'


def make_room(names: Sequence[str], options: Any) -> str:
    """Returns the sides of the room and of what stands in it, each of two triangles, seen from where its scanners are."""
    if len(names) != 1:
        raise Refusal('room takes the file to be written')
    places, faces = [], []
    for low, high, axis, end, sign in shape_of('room').faces:
        one, other = (axis + 1) % 3, (axis + 2) % 3
        for u, v in ((0, 0), (1, 0), (1, 1), (0, 1)):
            place = [0.0] * 3
            place[axis], place[one], place[other] = (low, high)[end][axis], (low, high)[u][one], (low, high)[v][other]
            places.append(' '.join(f'{1000 * x:g}' for x in place))
        corners = [len(places) - 4 + k for k in ((0, 1, 2, 3) if (sign > 0) == bool(end) else (3, 2, 1, 0))]
        faces += [corners[:3], [corners[0], corners[2], corners[3]]]
    rows = [' '.join(map(str, [3] + face)) for face in faces]
    with whole_file(names[0]) as file:
        file.write('\n'.join(['OFF', f'{len(places)} {len(faces)} 0'] + places + rows) + '\n')
    return f'wrote {len(faces)} triangles to {names[0]}'


def work(names: Sequence[str], options: Any) -> str:
    commands = {'scan': make_scan, 'compare': compare, 'room': make_room}
    if not names or names[0] not in commands:
        raise Refusal('the first word is scan, compare or room')
    return commands[names[0]](names[1:], options)
