"""Measures simplified meshes: of `recon-mesh simplify`, of Open3D and of CGAL, each with a tenth of the faces.

usage: dev/bench simplified RECON FOLDER [objects=PATH,..] [points=N] [samples=N] [options=WORD,..]

  RECON        the built program; recon-mesh is beside it
  FOLDER       that of `dev/bench others`, which makes the scans; measurements are kept there as well
  objects      as there (default: bunny, armadillo, a statue and the room)
  samples      how many points are drawn for distances, each way (default: 20000)
  options      options of a second run of `recon-mesh simplify`

Each scan has a noise of 0.5 (thousandths of the object's diagonal, as all lengths). Its mesh is that of `recon build smooth=1`.
`recon-mesh finish` keeps its largest component and smooths it in 3 steps. `recon-mesh simplify` has within= 3 thousandths; Open3D decimates by quadrics;
CGAL collapses edges by Lindstrom and Turk's costs and places, after it has split what is not manifold. Distances between a simplified mesh and the mesh
before are means; the next column is the greatest distance of a vertex before. Crossing pairs are those of `dev/bench surfaces compare`.
"""
from __future__ import annotations

import os
import subprocess
from typing import Any, Dict, List, Sequence, Tuple

from bench.others import MEASURE, PYTHON, Kept, Row, Scan, all_objects, cgal_program, programs_digest, scans_of
from bench.runs import left_out, printed_head, printed_row, python_with, tried
from recon.toolbox.ply_text import Refusal
from tools_path import PACKAGE

NAMES, OPTIONS = 2, ('objects', 'points', 'samples', 'options')
WITHIN, PARTS = 3, 10
OBJECTS = ('bunny00.off', 'armadillo.off', 'statue.off', 'room.off')
DECIMATE = '''
import sys
import open3d as o3d
mesh = o3d.io.read_triangle_mesh(sys.argv[1])
o3d.io.write_triangle_mesh(sys.argv[3], mesh.simplify_quadric_decimation(int(sys.argv[2])), write_ascii=True)
'''


def finished(recon: str, scan: Scan) -> Tuple[str, int, int]:
    """Returns the path of the finished mesh of a scan, its number of faces, and how many of its units a unit of the scan has."""
    mesh, whole = scan.base + '.recon', scan.base + '.finished'
    program = os.path.join(os.path.dirname(recon), 'recon-mesh')
    cost = tried(recon, 'build', scan.scan, mesh, scan.base + '.cert', 'unit=1000', 'smooth=1')
    done = None if cost is None else tried(program, 'finish', mesh, whole, 'pieces=1', 'smooth=3', 'within=1500', 'comments=no')
    if done is None:
        raise Refusal(f'{recon} makes no mesh of {scan.scan}')
    words = done.line.split()
    return whole, int(words[words.index('faces') + 1]), 1000 * int(words[words.index('fine') + 1])


def floats_of(whole: str, unit: int) -> str:
    """Writes a mesh of whole numbers in units of the scan, and returns the path."""
    path = whole + '.ply'
    if tried(PYTHON, PACKAGE, 'mesh-to-floats', whole, path, f'unit={unit}') is None:
        raise Refusal(f'{whole} is not converted')
    return path


def simplified_rows(recon: str, folder: str, scan: Scan, options: Sequence[str]) -> List[Row]:
    """Simplifies the finished mesh of a scan by each program, to a tenth of its faces."""
    whole, faces, unit = finished(recon, scan)
    floats, count, rows = floats_of(whole, unit), str(faces // PARTS), []
    program = os.path.join(os.path.dirname(recon), 'recon-mesh')
    for name, more in (('recon-mesh simplify', []), *([('recon-mesh simplify ' + ' '.join(options), options)] if options else [])):
        out = f'{whole}.{len(rows)}'
        cost = tried(program, 'simplify', whole, out, f'within={WITHIN * unit}', f'faces={count}', 'comments=no', *more)
        rows += [] if cost is None else [Row(name, cost, floats_of(out, unit))]
    open3d, cgal = python_with('open3d'), cgal_program(folder)
    if not open3d:
        left_out('Open3D', 'no Python here has it (Debian: python3-open3d)')
    for name, out, words in (('Open3D, quadrics', whole + '.open3d.ply', [open3d, '-c', DECIMATE, floats, count]),
                             ('CGAL, Lindstrom-Turk', whole + '.turk.off', [cgal, 'simplify', floats, count])):
        cost = tried(*words, out) if words[0] else None
        rows += [] if cost is None else [Row(name, cost, out)]
    return rows


def measured_of(scan: Scan, row: Row, samples: str) -> Dict[str, Any]:
    """Compares a simplified mesh with the one before."""
    words = [*MEASURE, 'compare', scan.base + '.finished.ply', row.mesh, 'own=yes', 'vertices=yes', f'samples={samples}']
    said = subprocess.run(words, capture_output=True, text=True)
    line = next((line for line in said.stdout.splitlines() if line.startswith(row.mesh)), '')
    if said.returncode != 0 or not line or row.cost is None:
        raise Refusal(said.stderr.strip())
    there, back, is_open, edges, _, angle, _, crossing, faces, far = line.split(' | ')[1:]
    return {'cells': [f'{int(faces):,}', there.split(' / ')[0], back.split(' / ')[0], far, crossing, edges, angle, f'{row.cost.seconds:.1f}',
                      str(row.cost.megabytes)]}


def work(names: Sequence[str], options: Any) -> str:
    recon, folder = os.path.abspath(names[0]), names[1]
    os.makedirs(folder, exist_ok=True)
    all_objects(folder)
    objects = options.objects.split(',') if options.objects else [os.path.join(folder, name) for name in OBJECTS]
    kept, state = Kept(folder, options.samples or '20000', measured_of), programs_digest(recon)
    more = options.options.split(',') if options.options else []

    def simplify(scan: Scan) -> List[Row]:
        return simplified_rows(recon, folder, scan, more)

    printed_head('Mesh', 'Program', 'Faces', 'To the mesh before', 'From it', 'Farthest vertex', 'Crossing pairs', 'Non-manifold', 'Angle', 's', 'MB')
    for path in objects:
        scan, = scans_of(folder, path, options.points or '42000', ['0.0005'])
        for name, found in kept.measure(scan, 'simplified', state + ' '.join(more), simplify).items():
            printed_row(scan.name.split(',')[0], name, *found['cells'])
    return f'{len(objects)} meshes'
