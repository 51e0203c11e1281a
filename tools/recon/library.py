"""Surfaces from arrays, by the program `recon`.

Names: build · Surface · sights_of (who saw which point, as two columns) · write_scan (a scan in binary whole numbers) · check.
"""
from __future__ import annotations

import os
import shutil
import tempfile
import warnings
import weakref
from dataclasses import dataclass, field
from pathlib import Path
from typing import Any, Callable, NamedTuple, Sequence, Union

import numpy as np

from recon.clouds import LIMIT, box_of, frame, origin_for, spacing
from recon.meshes import Mesh
from recon.program import Invalid, run
from recon.sights import SCANNER_LIMIT, along_normals
from recon.toolbox.mesh_files import read_mesh
from recon.toolbox.orders import first_equal
from recon.toolbox.output_files import whole_bytes
from recon.toolbox.ply_text import Refusal
from recon.toolbox.seen import views_of
from recon.toolbox.slice_text import read_loops

POINT_LIMIT = 1_048_576
SeenBy = Union[int, np.ndarray, Sequence[Any]]


class Sights(NamedTuple):
    """Who saw which point: how many scanners saw each point (n,), and the rows of these scanners, point after point."""
    counts: np.ndarray
    scanners: np.ndarray

    def are_single(self) -> bool:
        """Whether one scanner saw each point."""
        return bool((self.counts == 1).all())

    def take(self, rows: np.ndarray) -> Sights:
        """The sights of these points, in their order."""
        counts = self.counts[rows]
        if self.are_single():
            return Sights(counts, self.scanners[rows])
        starts = (np.cumsum(self.counts) - self.counts)[rows]
        return Sights(counts, self.scanners[np.repeat(starts - (np.cumsum(counts) - counts), counts) + np.arange(counts.sum())])


def points_of(values: Any, what: str) -> np.ndarray:
    """Returns rows of three finite numbers. Raises `Invalid` with the first row at fault."""
    rows = np.ascontiguousarray(values, float)
    rows = rows.reshape(1, 3) if rows.shape == (3,) else rows
    if rows.ndim != 2 or rows.shape[1] != 3:
        raise Invalid(f'{what} must have the shape (n, 3), not {rows.shape}')
    if not np.isfinite(rows).all():
        row = int(np.flatnonzero(~np.isfinite(rows).all(axis=1))[0])
        raise Invalid(f'row {row} of {what} is not finite', row, 'remove it')
    return rows


def sights_of(seen_by: SeenBy | None, count: int, scanner_count: int) -> Sights:
    """Returns the sights of `count` points: one scanner for all, one a point, or a list of scanners a point. Raises `Invalid` for a
    scanner that is not there."""
    if seen_by is None and scanner_count != 1:
        raise Invalid(f'seen_by= is required for {scanner_count} scanners', hint='pass the index of the scanner of each point')
    values = np.asarray(0 if seen_by is None else seen_by, dtype=None if not is_ragged(seen_by) else object)
    if values.ndim == 0:
        values = np.full(count, values)
    if len(values) != count:
        raise Invalid(f'seen_by has {len(values)} rows for {count} points')
    if values.dtype == object or values.ndim == 2:
        rows = [np.atleast_1d(np.asarray(row, np.int64)) for row in values]
        sights = Sights(np.array([len(row) for row in rows], np.int64), np.concatenate([*rows, np.zeros(0, np.int64)]))
    else:
        if values.dtype.kind not in 'iu':
            raise Invalid('seen_by must contain integers: the indices of scanners, from 0')
        sights = Sights(np.ones(count, np.int64), values.astype(np.int64))
    wrong = np.flatnonzero((sights.scanners < 0) | (sights.scanners >= scanner_count))
    if len(wrong):
        row = int(np.searchsorted(np.cumsum(sights.counts), wrong[0], 'right'))
        raise Invalid(f'point {row}: scanner index {sights.scanners[wrong[0]]} is out of range (number of scanners: {scanner_count})', row)
    return sights


def is_ragged(seen_by: Any) -> bool:
    """Whether points name lists of scanners."""
    return not isinstance(seen_by, np.ndarray) and isinstance(seen_by, Sequence) and any(np.ndim(row) for row in seen_by)


def whole_rows(rows: np.ndarray, origin: np.ndarray, unit: int, what: str) -> np.ndarray:
    """Returns rows in whole units. Raises `Invalid` for one that is out of range."""
    whole = np.rint((rows - origin) * unit)
    far = np.flatnonzero(np.logical_or.reduce([np.abs(whole[:, k]) > LIMIT for k in range(3)]))
    if len(far):
        raise Invalid(f'row {far[0]} of {what} is more than {LIMIT:,} units from the origin', int(far[0]),
                      'use a smaller unit, or an origin near the object')
    return whole.astype(np.int64)


def write_scan(path: str | Path, points: np.ndarray, sights: Sights, scanners: np.ndarray, weights: np.ndarray | None) -> None:
    """Writes a scan of whole numbers as binary PLY, which `recon` reads at unit=1."""
    is_single = sights.are_single()
    fields: list[tuple[str, str, np.ndarray]] = [(axis, 'int', points[:, k]) for k, axis in enumerate('xyz')]
    if weights is not None:
        fields.append(('weight', 'uchar', weights))
    fields.append(('scanner', 'ushort', sights.scanners) if is_single else ('', 'ushort', sights.counts))
    types = {'int': '<i4', 'uchar': 'u1', 'ushort': '<u2'}
    rows = np.zeros(len(points), [(name or 'count', types[kind]) for name, kind, _ in fields])
    for name, _, values in fields:
        rows[name or 'count'] = values
    lines = ['ply', 'format binary_little_endian 1.0', f'element vertex {len(points)}']
    lines += [f'property {kind} {name}' if name else 'property list ushort ushort scanner' for name, kind, _ in fields]
    lines += [f'element scanner {len(scanners)}', 'property int x', 'property int y', 'property int z', 'end_header', '']
    with whole_bytes(os.fspath(path)) as file:
        file.write('\n'.join(lines).encode('ascii'))
        file.write(rows.tobytes() if is_single else with_lists(rows, sights))
        file.write(scanners.astype('<i4').tobytes())


def with_lists(rows: np.ndarray, sights: Sights) -> bytes:
    """Rows with their lists of scanners behind them, as bytes."""
    size = rows.dtype.itemsize
    ends = np.cumsum(size + 2 * sights.counts)
    starts = ends - size - 2 * sights.counts
    data = np.zeros(int(ends[-1]) if len(ends) else 0, np.uint8)
    data[starts[:, None] + np.arange(size)] = rows.view(np.uint8).reshape(len(rows), size)
    owner = np.repeat(np.arange(len(rows)), sights.counts)
    at = starts[owner] + size + 2 * (np.arange(len(owner)) - np.repeat(np.cumsum(sights.counts) - sights.counts, sights.counts))
    data[at[:, None] + np.arange(2)] = sights.scanners.astype('<u2').view(np.uint8).reshape(-1, 2)
    return data.tobytes()


def rows_at(whole: np.ndarray, places: np.ndarray) -> np.ndarray:
    """The first row of `whole`, whole coordinates (n, 3), that each of `places` is."""
    if not len(places):
        return np.zeros(0, np.int64)
    low, high = box_of(whole)
    x, y, z = (int(size) + 1 for size in high - low)
    if x * y * z < 1 << 63:
        return first_equal(*((rows[:, 0] - low[0]) * (y * z) + (rows[:, 1] - low[1]) * z + (rows[:, 2] - low[2]) for rows in (whole, places)))
    numbers = np.unique(np.concatenate([whole, places]), axis=0, return_inverse=True)[1].ravel()
    return first_equal(numbers[:len(whole)], numbers[len(whole):])


@dataclass(repr=False)
class Surface(Mesh):
    """The best surface of a scan, as `build` returns it.

    `vertices` (n, 3) and `faces` (m, 3) are in the scan's numbers; `source` (n,) is the row of `points` that each vertex is, so that
    `colors[surface.source]` are the colors of the vertices. The whole numbers of the program are (x - origin) * unit. `scan`, `mesh` and
    `certificate` are the files that `recon check` takes, in `folder`; a folder that `build` made goes with the surface.
    """
    source: np.ndarray = field(default_factory=lambda: np.zeros(0, np.int64))
    unit: int = 1
    origin: np.ndarray = field(default_factory=lambda: np.zeros(3))
    smooth: int = 3
    vote: int = 8
    counts: dict[str, int] = field(default_factory=dict)
    folder: Path = Path('.')
    program: str | None = None
    rows: np.ndarray | None = None
    spots: np.ndarray = field(default_factory=lambda: np.zeros((0, 3), np.int64))

    def __repr__(self) -> str:
        return (f'<Surface: {len(self.vertices):,} vertices, {len(self.faces):,} faces, unit={self.unit}, smooth={self.smooth}, vote={self.vote}, '
                f'cost={self.counts.get("cost", 0):,}>')

    def load(self) -> None:
        """Reads the mesh, where the program has built it and `rows` are the points of the scan in whole units."""
        if self.rows is not None:
            self.spots, corners = read_mesh(os.fspath(self.mesh))
            self.vertices, self.faces = self.spots / self.unit + self.origin, corners.reshape(-1, 3)
            self.source, self.rows = rows_at(self.rows, self.spots), None
            self.views = None if self.views is None else self.views.take(self.source)

    @property
    def scan(self) -> Path:
        return self.folder / 'scan.ply'

    @property
    def mesh(self) -> Path:
        return self.folder / 'mesh.ply'

    @property
    def certificate(self) -> Path:
        return self.folder / 'scan.cert'

    @property
    def cost(self) -> int:
        """The energy of the surface, which is the minimum."""
        return self.counts['cost']

    @property
    def votes_against_per_sight(self) -> float:
        """The visibility weight against the surface for each line of sight: 0.003 to 0.1 if the scanner positions are right, 0.25 and more if
        positions or normals are wrong."""
        against = (self.cost - self.smooth * self.counts['faces']) / self.vote
        return against / max(self.counts['sights'], 1)

    def files(self) -> list[str]:
        """The names of the files in `folder` that verify the surface."""
        return ['scan.ply', 'mesh.ply', 'scan.cert']

    def tiles(self) -> list[str]:
        """The names of the tiles that the surface was joined of, without endings; none where it was built whole."""
        return []

    def options(self) -> list[str]:
        return [f'smooth={self.smooth}', f'vote={self.vote}']

    def check(self) -> bool:
        """Verifies mesh and certificate against the scan by `recon check`. Returns True, or raises `Refused` with the first reason."""
        return check(self.scan, self.mesh, self.certificate, smooth=self.smooth, vote=self.vote, program=self.program)

    def contains(self, points: Any) -> np.ndarray:
        """Returns which points (k, 3) are inside, each rounded to a whole unit. Runs `recon ask`, which solves the scan again."""
        places = points_of(points, 'points')
        whole = np.rint((places - self.origin) * self.unit)
        is_near = (np.abs(whole) <= LIMIT).all(axis=1)
        inside = np.zeros(len(places), bool)
        if is_near.any():
            asked, answers = self.folder / 'asked.txt', self.folder / 'answers.txt'
            np.savetxt(asked, whole[is_near], '%d')
            run(['ask', self.scan, asked, answers, *self.options()], self.program)
            inside[is_near] = [line == 'inside' for line in answers.read_text().splitlines()[1:]]
        return inside

    def sweep(self, first: int = 0, step: int = 1, count: int = 5) -> list[Mesh]:
        """Returns the best surfaces at the area weights first, first + step, .., `count` of them, at the same visibility weight."""
        names = [self.folder / f'sweep_{k}.ply' for k in range(count)]
        run(['sweep', self.scan, first, step, count, *names, f'vote={self.vote}'], self.program)
        return [self.read(name) for name in names]

    def read(self, path: Path) -> Mesh:
        """Returns a mesh of the same scan, in the scan's numbers."""
        places, corners = read_mesh(os.fspath(path))
        return Mesh(places / self.unit + self.origin, corners.reshape(-1, 3))

    def slice(self, height: float) -> list[np.ndarray]:
        """Returns the loops (k, 2) in which the horizontal plane at `height` cuts the surface, x and y in the scan's coordinates. The plane is
        at half a unit above the height rounded down to units."""
        loops = self.folder / 'slice.txt'
        level = int(np.floor((height - self.origin[2]) * self.unit))
        run(['slice', self.mesh, level, loops], self.program)
        found = [np.array([(int(x) / int(under), int(y) / int(under)) for _, x, y, under in loop]) for loop in read_loops(os.fspath(loops))]
        return [loop / self.unit + self.origin[:2] for loop in found]

    def whole(self) -> tuple[np.ndarray, np.ndarray]:
        """The mesh as the program wrote it: places (n, 3) in whole units, and the corners of all faces one after another."""
        is_known = len(self.spots) == len(self.vertices)
        return self.spots if is_known else np.rint((self.vertices - self.origin) * self.unit).astype(np.int64), self.faces.ravel()

    def finish(self, pieces: int | None = None, flips: bool = True, steps: int = 0, within: float | None = None,
               manifold: bool = False) -> Mesh:
        """Returns a less rough mesh, as `recon-finish` writes it: keeps the largest pieces, flips edges, and smooths in a number of `steps` that move
        no vertex farther than `within`. The result is no longer the surface that `check` verifies."""
        if (within is None) != (steps == 0):
            raise Invalid('steps= and within= are required together: the number of steps, and the most that a vertex may move')
        from recon.finish import Request, finished
        request = Request(unit=self.unit, origin=self.origin.tolist(), pieces=pieces, flips=flips, steps=steps, within=within or 0.0,
                        manifold=manifold)
        done, _ = finished(str(self.mesh), request, mesh=self.whole())
        return Mesh(done.places, done.faces, self.source[done.vertex_of], None if self.views is None else self.views.take(done.vertex_of))


def check(scan: str | Path, mesh: str | Path, certificate: str | Path, *, smooth: int, vote: int = 8, unit: int = 1,
          program: str | None = None) -> bool:
    """Verifies by `recon check` that a mesh is the surface of minimum cost of a scan, all given as files. Trusts neither mesh nor
    certificate. Returns True, or raises `Refused`: status 1 with the first reason if it is not."""
    run(['check', scan, mesh, certificate, f'unit={unit}', f'smooth={smooth}', f'vote={vote}'], program)
    return True


def build(points: Any, scanners: Any = None, seen_by: SeenBy | None = None, *, normals: Any = None, weights: Any = None, smooth: int = 3,
          vote: int = 8, unit: int | None = None, origin: Any = None, far: float | None = None, folder: str | Path | None = None,
          program: str | None = None, is_shown: bool = False) -> Surface:
    """Reconstructs the surface of minimum cost from a scan.

    points (n, 3): the scanned points, at most 1,048,576, in any unit of length.
    scanners (k, 3): scanner positions, at most 65,536. Without them, `normals` (n, 3) that point out of the solid are required: each point gets a
        scanner along its normal, at the distance `far` (default: one spacing).
    seen_by: the index of the scanner of each point (n,), one index for all points, or a list of indices for each point.
    weights (n,): the weights of the points' lines of sight, integers from 1 to 255 (default: 1).
    `smooth`, `vote`: the area weight of a face and the visibility weight of a line of sight.
    unit, origin: coordinates are rounded to the integers nearest to (x - origin) * unit (default: 100 to 1000 units between points, see
        `frame`). The surface is exact for these integers; points with equal coordinates become one vertex.
    folder: for scan, mesh and certificate (default: a temporary folder that is removed with the surface).

    Raises `Invalid` for invalid arrays, `Refused` with the program's error, and FileNotFoundError if the program is not found.
    """
    surface = build_files(points, scanners, seen_by, normals=normals, weights=weights, smooth=smooth, vote=vote, unit=unit, origin=origin, far=far,
                          folder=folder, program=program, is_shown=is_shown)
    surface.load()
    if not len(surface.faces):
        warnings.warn('the surface is empty: the points lie in a plane, positions are on the wrong side, or smooth= is too large', stacklevel=2)
    return surface


def build_files(points: Any, scanners: Any = None, seen_by: SeenBy | None = None, *, normals: Any = None, weights: Any = None, smooth: int = 3,
                vote: int = 8, unit: int | None = None, origin: Any = None, far: float | None = None, folder: str | Path | None = None,
                program: str | None = None, is_shown: bool = False, watch: Callable[[str], None] | None = None) -> Surface:
    """Does what `build` does, but leaves the mesh to `Surface.load`, so that something else can be done with the files first. `watch` gets the text of
    the program's progress."""
    places = points_of(points, 'points')
    if not len(places):
        raise Invalid('points is empty: it has the shape (0, 3)')
    if len(places) > POINT_LIMIT:
        raise Invalid(f'{len(places):,} points: a scan has 1 to {POINT_LIMIT:,}', hint='thin them (recon.thinned), or split them into tiles (recon-tiles)')
    stations, sights = stations_of(places, scanners, seen_by, normals, far)
    kept = Path(tempfile.mkdtemp(prefix='recon-') if folder is None else folder)
    scan = written_scan(places, stations, sights, weights, unit, origin, kept)
    counts = run(['build', kept / 'scan.ply', kept / 'mesh.ply', kept / 'scan.cert', f'smooth={smooth}', f'vote={vote}'], program, is_shown,
                 watch)
    none = np.zeros((0, 3))
    views = views_of(places, stations, sights.counts, sights.scanners)
    surface = Surface(none, none.astype(np.int64), np.zeros(0, np.int64), views, scan.unit, scan.origin, smooth, vote, counts, kept, program, scan.points)
    if folder is None:
        weakref.finalize(surface, shutil.rmtree, kept, True)
    return surface


class Written(NamedTuple):
    """A scan that was written: its points (n, 3) in whole units, and the scale and origin of these."""
    points: np.ndarray
    unit: int
    origin: np.ndarray


def written_scan(points: np.ndarray, scanners: np.ndarray, sights: Sights, weights: Any, unit: int | None, origin: Any, folder: Path) -> Written:
    """Writes a scan as `scan.ply` into a folder, in whole units. Raises `Invalid` for arrays that make no scan."""
    frame_origin, frame_unit = chosen_frame(points, scanners, unit, origin)
    whole = whole_rows(points, frame_origin, frame_unit, 'points')
    whole_scanners = whole_rows(scanners, frame_origin, frame_unit, 'scanners')
    folder.mkdir(parents=True, exist_ok=True)
    write_scan(folder / 'scan.ply', whole, sights, whole_scanners, checked_weights(weights, len(points)))
    return Written(whole, frame_unit, frame_origin)


def stations_of(points: np.ndarray, scanners: Any, seen_by: SeenBy | None, normals: Any, far: float | None) -> tuple[np.ndarray, Sights]:
    """The scanners and the sights, from what `build` was given."""
    if scanners is None:
        if normals is None:
            raise Invalid('no scanner positions', hint='pass scanners= and seen_by=, or normals=')
        directions = points_of(normals, 'normals')
        if len(directions) != len(points):
            raise Invalid(f'{len(directions)} normals for {len(points)} points')
        stations, numbers = along_normals(points, directions, far or spacing(points).distance or 1.0)
        return stations, sights_of(numbers, len(points), len(stations))
    stations = points_of(scanners, 'scanners')
    if len(stations) > SCANNER_LIMIT:
        raise Invalid(f'{len(stations):,} scanners: the limit is {SCANNER_LIMIT:,}')
    return stations, sights_of(seen_by, len(points), len(stations))


def chosen_frame(points: np.ndarray, scanners: np.ndarray, unit: int | None, origin: Any) -> tuple[np.ndarray, int]:
    """Returns the origin and the scale, as given or else computed to fit."""
    if unit is not None and not 1 <= unit <= 1_000_000:
        raise Invalid(f'unit={unit} is out of range: 1 to 1,000,000')
    start = None if origin is None else points_of(origin, 'origin')[0]
    if unit is None:
        fitting = frame(points, scanners) if start is None else frame(points - start, scanners - start)
        return (fitting.origin if start is None else start), fitting.unit
    if start is not None:
        return start, unit
    both = np.concatenate([points, scanners])
    fits = bool(np.abs(both).max() * unit <= LIMIT)
    return (np.zeros(3) if fits else origin_for(both.min(axis=0), both.max(axis=0), unit)), unit


def checked_weights(weights: Any, count: int) -> np.ndarray | None:
    """The weights, whole numbers from 1 to 255."""
    if weights is None:
        return None
    values = np.asarray(weights)
    if values.shape != (count,) or values.dtype.kind not in 'iu':
        raise Invalid(f'weights must be {count} integers, one for each point')
    wrong = np.flatnonzero((values < 1) | (values > 255))
    if len(wrong):
        raise Invalid(f'the weight of point {wrong[0]} is {values[wrong[0]]}: out of range 1 to 255', int(wrong[0]))
    return values


__all__ = ['Invalid', 'Mesh', 'Refusal', 'Sights', 'Surface', 'build', 'check', 'sights_of', 'write_scan', 'written_scan']
