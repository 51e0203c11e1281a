"""Measures what cutting a scan into tiles costs its surface, and prints a table for docs/explain/tiles.md.

usage: dev/bench seams RECON FOLDER [shapes=NAME,..] [count=N] [points=N] [spacings=K,..] [through=N] [whole=no]
           [jobs=N]

  RECON              the built program
  FOLDER             where scans are kept and tiles and meshes are written; what is there is not made again
  shapes=NAME,..     torus, room, statue, or walls (a room with the eight points of surround=); without it all four
  count=N            points of a scan; without it 100000
  points=N           the most points of a tile; without it 45000
  spacings=K,..      overlaps in mean spacings; without it 5,10,20,50
  through=N          points from outside that are passed to a tile; without it as many as recon-tiles takes
  whole=no           the scan is too large for one run, so there is no mesh of the whole to compare with
  jobs=N             runs side by side; without it 1

A face is near a seam where its middle is within 20 mean spacings of the core of another tile. A face differs where its three
points, in their order, are no face of the other mesh. Distances are of the middles of faces from the object, in mean spacings;
a face is off where that is over five times the scanner's error. Needs numpy.
"""
from __future__ import annotations

import json
import os
from typing import Any, Sequence

import numpy

from bench import runs
from bench.runs import measured, printed_row, tool
from recon.make_scan import FIGURE, FURNITURE, ROOM
from recon.toolbox.mesh_files import read_mesh
from recon.toolbox.tile_boxes import FAR, Core, cores_of, read_list

NAMES, OPTIONS = 2, ('shapes', 'count', 'points', 'spacings', 'through', 'whole', 'jobs')
SCALE, NOISE, NEAR = 500000, 0.0015, 20


def lengths(rows: numpy.ndarray) -> numpy.ndarray:
    return numpy.sqrt((rows * rows).sum(axis=1))


def to_torus(places: numpy.ndarray) -> numpy.ndarray:
    return numpy.abs(numpy.hypot(numpy.hypot(places[:, 0], places[:, 1]) - 0.7, places[:, 2]) - 0.28)


def to_balls(places: numpy.ndarray) -> numpy.ndarray:
    return numpy.abs(numpy.min([lengths(places - centre) - radius for centre, radius in FIGURE], axis=0))


def to_box(low: tuple[float, float, float], high: tuple[float, float, float], places: numpy.ndarray) -> numpy.ndarray:
    """The distance from the surface of a box."""
    beyond = numpy.maximum(numpy.array(low) - places, places - numpy.array(high))
    outside = lengths(numpy.maximum(beyond, 0))
    return numpy.where(outside > 0, outside, -beyond.max(axis=1))


def to_room(places: numpy.ndarray) -> numpy.ndarray:
    return numpy.min([to_box(*box, places) for box in [ROOM] + FURNITURE], axis=0)


DISTANCES = {'torus': to_torus, 'statue': to_balls, 'room': to_room, 'walls': to_room}


class Faces:
    """The faces of a mesh: a key of its three places each, and three times its middle."""

    def __init__(self, path: str) -> None:
        places, faces = read_mesh(path)
        corners = faces.reshape(-1, 3)
        keys = (((places[:, 0] * 4194301 + places[:, 1]) * 4194301) + places[:, 2])[corners]
        first = keys.argmin(axis=1)
        turned = numpy.take_along_axis(keys, (first[:, None] + numpy.arange(3)) % 3, axis=1).astype(numpy.uint64)
        mixed = turned * numpy.array([0x9E3779B97F4A7C15, 0xC2B2AE3D27D4EB4F, 0x165667B19E3779F9], dtype=numpy.uint64)
        self.keys = (mixed ^ (mixed >> numpy.uint64(29))).sum(axis=1, dtype=numpy.uint64)
        self.middles = places[corners].sum(axis=1)


def near_seams(cores: list[Core], faces: Faces, far: float) -> numpy.ndarray:
    """Returns which faces have their middle within a number of thirds of a core that it is not in."""
    found = numpy.zeros(len(faces.middles), dtype=numpy.int64)
    for core in cores:
        low, high = (numpy.array([3 * end if abs(end) < FAR else 9 * end for end in ends]) for ends in (core.low, core.high))
        beyond = numpy.maximum(numpy.maximum(low - faces.middles, faces.middles - high), 0).astype(float)
        found += lengths(beyond) <= far
    return found > 1


def summary(shape: str, faces: Faces, others: Faces | None, near: numpy.ndarray, spacing: float) -> list[str]:
    """Of the faces near seams and elsewhere: how many, how many differ, their mean distance, and how many are off."""
    far, parts = DISTANCES[shape](faces.middles / (3 * SCALE)), []
    differ = ~numpy.isin(faces.keys, others.keys) if others else numpy.zeros(len(far), dtype=bool)
    for part in (near, ~near):
        differing, mean = differ[part].sum() if others else '-', far[part].mean() * SCALE / spacing
        parts.append(f'{part.sum()} / {differing} / {mean:.3f} / {(far[part] > 5 * NOISE).sum()}')
    return parts


def scan_of(folder: str, shape: str, count: str) -> str:
    """Returns the path of a scan, which is made if it is missing."""
    scan = os.path.join(folder, f'{shape}.{count}.ply')
    if shape != 'walls':
        return runs.scan_of(folder, shape, int(count))
    if not os.path.exists(scan):
        tool('scan', scan_of(folder, 'room', count), scan, f'surround={SCALE // 5}')
    return scan


def tiled(recon: str, folder: str, scan: str, spacings: str, options: Any) -> tuple[str, list[str]]:
    """Returns the folder of the tiles of a scan, whose surfaces are built and joined, and what the join said."""
    tiles = f'{scan[:-4]}.{spacings}.{options.through}'
    if not os.path.exists(tiles):
        more = ['through=' + options.through] if options.through else []
        tool('tiles', 'split', scan, tiles, 'points=' + (options.points or '45000'), 'spacings=' + spacings, *more)
    measured('make', '-s', '-C', tiles, 'RECON=' + recon, '-j' + (options.jobs or '1'))
    return tiles, tool('tiles', 'join', tiles, tiles + '.ply').splitlines()


def row(shape: str, whole: Faces | None, spacings: str, tiles: str, said: list[str]) -> list[str]:
    """Returns a row of the table."""
    with open(os.path.join(tiles, 'tiles.json'), encoding='ascii') as file:
        about = json.load(file)
    cores = cores_of(read_list(os.path.join(tiles, 'tiles.txt')))
    joined, far = Faces(tiles + '.ply'), 3 * NEAR * about['spacing']
    cells = [shape, spacings, str(len(cores)), f'{sum(t["own"] for t in about["tiles"]) / about["points"]:.2f}',
             f'{sum(t["points"] for t in about["tiles"]) / about["points"]:.2f}', '; '.join(said[0].split('; ')[-2:])]
    cells += summary(shape, joined, whole, near_seams(cores, joined, far), about['spacing'])
    if whole:
        cells += summary(shape, whole, joined, near_seams(cores, whole, far), about['spacing'])
    return cells


def print_rows(recon: str, folder: str, shape: str, options: Any) -> None:
    """Prints the rows of a shape, one for each overlap."""
    scan = scan_of(folder, shape, options.count or '100000')
    mesh = scan[:-4] + '.mesh.ply'
    if options.whole != 'no' and not os.path.exists(mesh):
        measured(recon, 'build', scan, mesh, mesh + '.cert')
    whole = Faces(mesh) if options.whole != 'no' else None
    for spacings in (options.spacings or '5,10,20,50').split(','):
        printed_row(*row(shape, whole, spacings, *tiled(recon, folder, scan, spacings, options)))


def work(names: Sequence[str], options: Any) -> str:
    recon, folder = os.path.abspath(names[0]), names[1]
    shapes = (options.shapes or 'torus,room,walls,statue').split(',')
    for shape in shapes:
        print_rows(recon, folder, shape, options)
    return f'{len(shapes)} shapes'
