"""Measures rules for faces that no scanner saw, on simulated scans of known sites, and prints a table for docs/explain/accuracy.md.

usage: dev/bench unseen RECON [only=SITE,SITE] [finer=F]

  RECON            the built program; RECON_MESH, or one found beside it, finishes the meshes
  only=SITE,..     these sites of dev/bench/sites.py alone (default: all; bunny if Debian's libcgal-demo is installed)
  finer=F          divide the steps between directions by F (default: 1)

Each scan is built and finished by recon-surface. A face is *real* if a triangle of the site that faces the same side is within three standard
deviations of the noise of the face's middle. All others are made up.
"""
from __future__ import annotations

import os
import tempfile
from dataclasses import dataclass
from pathlib import Path
from typing import Any, Sequence

import numpy as np
from scipy.spatial import cKDTree

from bench import objects, sites
from bench.runs import printed_head, printed_row
from recon import surface
from recon.choices import Choices
from recon.clouds import tree_of
from recon.finish import finished
from recon.inputs import Inputs
from recon.meshes import areas, longest_edges, near_distances, unseen_faces
from recon.toolbox.mesh_files import Finished
from recon.toolbox.ply_text import Refusal
from recon.toolbox.seen import Views, unseen_by_sights, views_of

NAMES, OPTIONS = 1, ('only', 'finer')
# the step between directions is divided by this
SCALES = {'court': 1.3, 'windows': 0.9, 'windows uneven': 0.9, 'tree': 0.9, 'bumpy 2': 1.4, 'bumpy 1': 2.0}
SAMPLES, PART, PAIRS = 1_500_000, 5000, 1_000_000


@dataclass
class Trial:
    """A finished mesh of a site, from where its vertices were seen, and which faces are made up."""
    scan: sites.Scan
    mesh: Finished
    views: Views
    is_made_up: np.ndarray


def written(path: str, scan: sites.Scan) -> str:
    """Writes a scan as recon-surface reads it, and returns its path."""
    lines = ['ply', 'format binary_little_endian 1.0', f'element vertex {len(scan.points)}', *(f'property double {axis}' for axis in 'xyz'),
             *(f'property uchar {hue}' for hue in ('red', 'green', 'blue')), 'property ushort scanner', f'element scanner {len(scan.stations)}', *(f'property double {axis}' for axis in 'xyz'), 'end_header', '']
    rows = np.zeros(len(scan.points), [('place', '<f8', 3), ('color', 'u1', 3), ('scanner', '<u2')])
    rows['place'], rows['color'], rows['scanner'] = scan.points, scan.colors, scan.station
    with open(path, 'wb') as file:
        file.write('\n'.join(lines).encode('ascii') + rows.tobytes() + scan.stations.astype('<f8').tobytes())
    return path


def tried(name: str, finer: float = 1.0) -> Trial:
    """Scans a site, and reconstructs it."""
    scan = sites.shape_scan(name) if name in sites.SHAPES else sites.scan_of(name, SCALES.get(name, 1.0) * finer)
    with tempfile.TemporaryDirectory() as folder:
        path = written(os.path.join(folder, 'scan.ply'), scan)
        args = surface.parser().parse_args([path, '-o', os.path.join(folder, 'out.ply'), '--patience', '900', '-q'])
        choices = Choices(True)
        ready = surface.prepared(Inputs(args, Path(folder), choices))
        built = surface.built(ready, args, Path(folder), choices)
        built.load()
        mesh, _ = finished(os.fspath(built.mesh), surface.request_for(built, ready, args, choices), mesh=built.whole())
    cloud, rows = ready.cloud, built.source[mesh.vertex_of]
    views = views_of(cloud.points, cloud.scanners, cloud.sights.counts, cloud.sights.scanners, 8 if ready.surround else 0)
    return Trial(scan, mesh, views.take(rows), are_made_up(mesh, scan.site, 3 * scan.deviation))


def are_made_up(mesh: Finished, site: sites.Part, limit: float) -> np.ndarray:
    """Which faces have no triangle of the site that faces the same side within `limit` of their middle."""
    corners, (vertices, triangles) = mesh.places[mesh.faces], objects.joined(*site)
    middles, normals = corners.mean(axis=1), np.cross(corners[:, 1] - corners[:, 0], corners[:, 2] - corners[:, 0])
    across = objects.vectors_across(vertices, triangles)
    # most made-up faces are far from all samples of the site
    samples, _ = objects.draw_places(np.random.default_rng(1), vertices, triangles, SAMPLES)
    gap = float(np.sqrt(np.linalg.norm(across, axis=1).sum() / 2 / SAMPLES))
    rows = np.flatnonzero(cKDTree(samples, balanced_tree=False, compact_nodes=False).query(middles, workers=-1)[0] < limit + 6 * gap)
    tree, is_near = cKDTree(middles[rows]), np.zeros(len(rows), bool)
    own = vertices[triangles]
    centers = own.mean(axis=1)
    reach = np.linalg.norm(own - centers[:, None], axis=2).max(axis=1) + limit
    for part in np.array_split(np.argsort(reach), len(reach) // PART + 1):
        lists = tree.query_ball_point(centers[part], reach[part])
        triangle = np.repeat(part, [len(it) for it in lists])
        row = np.concatenate([np.asarray(it, int) for it in lists])
        for start in range(0, len(row), PAIRS):
            one, other = row[start:start + PAIRS], triangle[start:start + PAIRS]
            is_alike = (normals[rows[one]] * across[other]).sum(axis=1) > 0
            one, other = one[is_alike], other[is_alike]
            far = objects.to_triangles(middles[rows[one]], *(own[other, k] for k in range(3)))
            is_near[one[far <= limit]] = True
    made_up = np.ones(len(mesh.faces), bool)
    made_up[rows[is_near]] = False
    return made_up


def by_mean_spacing(mesh: Finished) -> np.ndarray:
    """Which faces have an edge over 8 times the mean of the spacings at their corners: the first rule that was used."""
    corners, at = np.unique(mesh.faces, return_inverse=True)
    near = near_distances(tree_of(mesh.places[corners]), mesh.places[corners])
    mean = np.maximum(near, np.median(near) / 2)[at.reshape(-1, 3)].mean(axis=1)
    return np.asarray(longest_edges(mesh.places, mesh.faces) > 8 * mean)


def parts_of(trial: Trial, unseen: np.ndarray) -> str:
    """Which part of the seen mesh is real, and which part of what is real is in it, by area."""
    area, real = areas(trial.mesh.places, trial.mesh.faces), ~trial.is_made_up
    both = float(area[real & ~unseen].sum())
    return f'{both / max(float(area[~unseen].sum()), 1e-300):.3f} / {both / float(area[real].sum()):.3f}'


def cells_of(name: str, finer: float) -> list[str]:
    """The row of the table of a site."""
    trial = tried(name, finer)
    mesh, area = trial.mesh, areas(trial.mesh.places, trial.mesh.faces)
    by_sights = unseen_by_sights(mesh.places, mesh.faces, trial.views)
    rules = (by_mean_spacing(mesh), unseen_faces(mesh.places, mesh.faces), by_sights)
    return [f'{len(trial.scan.points):,}', str(len(trial.scan.stations)), f'{len(mesh.faces):,}', f'{area[trial.is_made_up].sum() / area.sum():.0%}',
            *(parts_of(trial, unseen) for unseen in rules)]


def work(names: Sequence[str], options: Any) -> str:
    os.environ['RECON'] = os.path.abspath(names[0])
    known = [*sites.SITES, *sites.SHAPES]
    wanted = options.only.split(',') if options.only else [name for name in known if name != 'bunny' or os.path.exists(sites.ARCHIVE)]
    wrong = [name for name in wanted if name not in known]
    if wrong:
        raise Refusal(f'unknown site {wrong[0]}: use {", ".join(known)}')
    printed_head('Site', 'points', 'positions', 'faces', 'made up', 'mean spacing', 'middle spacing', 'lines of sight')
    for name in wanted:
        printed_row(name, *cells_of(name, float(options.finer or 1)))
    return f'{len(wanted)} sites'
