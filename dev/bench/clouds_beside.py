"""Beside the meshes that `dev/bench clouds` left: screened Poisson and ball pivoting of Open3D on the same clouds, as a table.

usage: dev/bench clouds_beside FOLDER [only=PART]

  FOLDER         where `dev/bench clouds` wrote its meshes
  only=PART      clouds with this in their name alone

Poisson is of depth 9, with its 5 % of least density cut off; ball pivoting takes radii of 1, 2 and 4 spacings. Normals are those of the
file, or else of 16 neighbors, turned to the scanner that recon-surface took. Each cell has the faces, the edges of one face alone (open),
and the part of 4,000 points that lie over two spacings from the surface (lost); of recon-surface it is the mesh without the faces that span
space that no scanner saw. Seconds are of the processor, one thread. Needs Open3D (Debian: python3-open3d), numpy and scipy.
"""
from __future__ import annotations

import json
import os
import subprocess
import tempfile
from pathlib import Path
from typing import Any, NamedTuple, Optional, Sequence

import numpy as np
from scipy.spatial import cKDTree

from bench.clouds import clouds
from bench.objects import Surface, read_object
from bench.runs import OPEN3D, left_out, printed_head, printed_row, python_with, tried

from recon.choices import Choices
from recon.inputs import Inputs, read_cloud, with_normals
from recon.surface import parser

NAMES, OPTIONS = 1, ('only',)

SAMPLE, PLACES = 4000, 16


class Oriented(NamedTuple):
    """Points (n, 3) with unit normals (n, 3)."""
    points: np.ndarray
    normals: np.ndarray


def oriented(path: Path, sights: str, folder: Path) -> Oriented:
    """Returns the points of a cloud with the normals of the file, or else of 16 neighbors, turned to the scanner that was taken."""
    inputs = Inputs(parser().parse_args([os.fspath(path), '-o', 'mesh.ply', '-q']), folder, Choices(True))
    if sights == 'along normals':
        table = with_normals(inputs)
        points, normals = table.points(), table.normals()
        assert normals is not None
    else:
        cloud = read_cloud(inputs)
        points, toward = cloud.points, cloud.scanners[cloud.first_scanners()] - cloud.points
        near = points[cKDTree(points).query(points, min(PLACES + 1, len(points)))[1]]
        normals = np.linalg.svd(near - near.mean(axis=1, keepdims=True), full_matrices=False)[2][:, 2]
        normals *= np.where(np.einsum('nk,nk->n', normals, toward) < 0, -1.0, 1.0)[:, None]
    long = np.linalg.norm(normals, axis=1)
    rows = np.flatnonzero(np.isfinite(points).all(axis=1) & np.isfinite(long) & (long > 0))
    return Oriented(points[rows], normals[rows] / long[rows, None])


def open_edges(faces: np.ndarray) -> int:
    """Returns how many edges have one face alone."""
    edges = np.sort(np.concatenate([faces[:, [0, 1]], faces[:, [1, 2]], faces[:, [2, 0]]]), axis=1)
    counts = np.unique(edges[:, 0] * (edges.max(initial=0) + 1) + edges[:, 1], return_counts=True)[1]
    return int((counts == 1).sum())


def lost_part(vertices: np.ndarray, faces: np.ndarray, points: np.ndarray, far: float) -> float:
    """Returns the part of the points that are farther than `far` from a surface."""
    return float((Surface(vertices, faces).distances(points)[0] > far).mean())


def cell(vertices: np.ndarray, faces: np.ndarray, points: np.ndarray, apart: float) -> str:
    """Returns faces, open edges and what is lost of some points."""
    if not len(faces):
        return 'no face'
    some = points[np.sort(np.random.default_rng(1).permutation(len(points))[:SAMPLE])]
    return f'{len(faces):,}, {open_edges(faces):,}, {lost_part(vertices, faces, some, 2 * apart):.3f}'


def beside(kind: str, cloud: Oriented, apart: float, folder: Path) -> str:
    """Returns the cell of a mesh of Open3D."""
    rows, out = folder / 'rows.npy', folder / 'mesh.ply'
    np.save(rows, np.c_[cloud.points, cloud.normals])
    made = tried(python_with('open3d'), '-c', OPEN3D, kind, os.fspath(rows), '-', os.fspath(out), repr(apart), '1,2,4', '0.05')
    return f'{cell(*read_object(os.fspath(out)), cloud.points, apart)}; {made.seconds:.1f}' if made else 'failed'


def row_of(path: Path, folder: Path) -> Optional[list[str]]:
    """Returns the row of a cloud, if recon-surface made a surface of it."""
    report_path = folder / (path.name + '.recon') / 'report.json'
    if not report_path.exists():
        return None
    report = json.loads(report_path.read_text())
    apart = float(report['figures']['spacing'])
    with tempfile.TemporaryDirectory() as place:
        cloud = oriented(path, report['choices']['sights']['value'], Path(place))
        ours = folder / (path.name + '-seen.ply')
        cells = [cell(*read_object(os.fspath(ours)), cloud.points, apart) if ours.exists() else 'nearly nothing']
        cells += [beside(kind, cloud, apart, Path(place)) for kind in ('poisson', 'pivoting')]
    return [path.name, *cells]


def work(names: Sequence[str], options: Any) -> str:
    if not python_with('open3d'):
        left_out('Open3D', 'no Python here has it (Debian: python3-open3d)')
        return 'no clouds'
    version = subprocess.run([python_with('open3d'), '-c', 'import open3d; print(open3d.__version__)'], capture_output=True, text=True)
    print(f'Open3D {version.stdout.strip()}\n')
    printed_head('Cloud', 'recon-surface, what was seen: faces, open, lost', 'Poisson: faces, open, lost; s', 'Ball pivoting: faces, open, lost; s')
    rows = [row_of(path, Path(names[0])) for path in clouds(Path(names[0])) if options.only is None or options.only in path.name]
    for row in filter(None, rows):
        printed_row(*row)
    return f'{len(list(filter(None, rows)))} clouds'
