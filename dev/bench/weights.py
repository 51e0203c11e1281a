"""Measures how far meshes of `recon build` are from the object at several area weights, and prints a table for docs/howto/weights.md.

usage: dev/bench weights RECON FOLDER [objects=PATH,..] [points=N] [noise=F,F,..] [samples=N] [jobs=N]

Arguments are those of `dev/bench others`, which makes the same scans; noise is 0,0.0005 by default. Of the mesh at each area weight, with vote=8,
the largest component is finished by flips alone. Mean distances to the object and from it are in thousandths of the object's diagonal. A mesh has
none if it has fewer faces than half of the scan's points: it has vanished.
"""
from __future__ import annotations

import os
from concurrent.futures import ThreadPoolExecutor
from typing import Any, Dict, List, Sequence

from bench.others import PYTHON, Kept, Row, Scan, all_objects, marked, programs_digest, scans_of
from bench.runs import printed_head, printed_row, tried
from recon.toolbox.ply_text import Refusal
from tools_path import PACKAGE

NAMES, OPTIONS = 2, ('objects', 'points', 'noise', 'samples', 'jobs')
WEIGHTS = range(9)


def of_sweep(recon: str, scan: Scan) -> List[Row]:
    """Builds the meshes of a scan at all weights, and finishes those that are there."""
    paths = [f'{scan.base}.smooth{weight}' for weight in WEIGHTS]
    if tried(recon, 'sweep', scan.scan, '0', '1', str(len(paths)), *paths, 'unit=1000') is None:
        raise Refusal(f'{recon} builds no meshes')
    rows = []
    for weight, path in zip(WEIGHTS, paths):
        with open(path, encoding='ascii') as file:
            faces = next(int(line.split()[2]) for line in file if line.startswith('element face '))
        if 2 * faces < scan.count:
            continue
        program, whole, floats = os.path.join(os.path.dirname(recon), 'recon-mesh'), path + '.whole', path + '.ply'
        if tried(program, 'finish', path, whole, 'pieces=1', 'comments=no') is None or tried(PYTHON, PACKAGE, 'mesh-to-floats', whole, floats, 'unit=1000') is None:
            raise Refusal(f'{path} is not finished')
        rows.append(Row(str(weight), None, floats))
    return rows


def work(names: Sequence[str], options: Any) -> str:
    recon, folder = os.path.abspath(names[0]), names[1]
    os.makedirs(folder, exist_ok=True)
    kept, state = Kept(folder, options.samples or '20000'), programs_digest(recon)
    objects = options.objects.split(',') if options.objects else all_objects(folder)

    def rows_of(scan: Scan) -> Dict[str, Any]:
        return {name: it['mean'] for name, it in kept.measure(scan, 'weights', state, lambda scan: of_sweep(recon, scan)).items()}

    noises = (options.noise or '0,0.0005').split(',')
    with ThreadPoolExecutor(int(options.jobs or 1)) as pool:
        made = list(pool.map(lambda path: scans_of(folder, path, options.points or '42000', noises), objects))
        scans = [it for same in zip(*made) for it in same]
        rows = {scan.name: row for scan, row in zip(scans, pool.map(rows_of, scans))}
    found = sorted({name for row in rows.values() for name in row}, key=int)
    printed_head('Scan, noise', *(f'smooth={name}' for name in found))
    for name, row in rows.items():
        printed_row(name, *marked(row, found))
    return f'{len(rows)} scans'
