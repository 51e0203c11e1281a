"""Programs run and measured, scans made, and rows of tables."""
from __future__ import annotations

import os
import subprocess
import sys
import tempfile
from dataclasses import dataclass

from tools_path import PACKAGE
from recon.toolbox.ply_text import Refusal

SEED = '7'
# Shapes whose lines of sight cross as many cells as possible, each with a number of rows that takes about as long as the others.
WORST = (('tube', 20000), ('crowd', 1000000), ('paraboloid', 30000))
# The worst, and the others as large as possible.
SHORT = WORST + (('cube', 1000000), ('room', 1000000), ('torus', 1000000), ('statue', 1000000))
# Makes a mesh by Open3D. Arguments: kind, points, `-` or the positions that saw them, output, spacing (0: computed), radii in spacings, the part
# of low density to cut. With `-` the points are a NumPy file that has normals too, else a text whose normals are computed.
OPEN3D = '''
import sys
import numpy as np
import open3d as o3d
kind, path, seen, out, spacing, radii, cut = sys.argv[1:]
rows = np.load(path) if seen == '-' else np.loadtxt(path)
cloud = o3d.geometry.PointCloud(o3d.utility.Vector3dVector(rows[:, :3]))
if seen != '-':
    cloud.estimate_normals(o3d.geometry.KDTreeSearchParamKNN(17))
    normals = np.asarray(cloud.normals)
    normals[np.einsum('ij,ij->i', normals, np.loadtxt(seen) - rows) < 0] *= -1
cloud.normals = o3d.utility.Vector3dVector(rows[:, 3:] if seen == '-' else normals)
if kind == 'poisson':
    mesh, density = o3d.geometry.TriangleMesh.create_from_point_cloud_poisson(cloud, depth=9, n_threads=1)
    mesh.remove_vertices_by_mask(np.asarray(density) < np.quantile(density, float(cut)))
else:
    apart = float(spacing) or float(np.mean(cloud.compute_nearest_neighbor_distance()))
    radii = [float(k) * apart for k in radii.split(',')]
    mesh = o3d.geometry.TriangleMesh.create_from_point_cloud_ball_pivoting(cloud, o3d.utility.DoubleVector(radii))
o3d.io.write_triangle_mesh(out, mesh, write_ascii=True)
print(o3d.__version__)
'''


@dataclass
class Run:
    """A run: processor seconds, the peak of memory in MB, and what it printed."""
    seconds: float
    megabytes: int
    line: str

    def plus(self, more: Run) -> Run:
        """Returns both runs as one, which printed what the second did."""
        return Run(self.seconds + more.seconds, max(self.megabytes, more.megabytes), more.line)


def measured(*words: str) -> Run:
    """Runs a program on one thread. Raises `Refusal` if it fails."""
    with tempfile.TemporaryFile() as out, tempfile.TemporaryFile() as err:
        child = subprocess.Popen(words, stdout=out, stderr=err, env={**os.environ, 'OMP_NUM_THREADS': '1'})
        _, status, usage = os.wait4(child.pid, 0)
        child.returncode = os.waitstatus_to_exitcode(status)
        out.seek(0)
        err.seek(0)
        printed = out.read().decode('utf-8', 'replace').strip()
        if child.returncode != 0:
            tail = (err.read().decode('utf-8', 'replace').strip() or printed).split('\n')[-1]
            raise Refusal(f'{os.path.basename(words[0])} ended with {child.returncode}: {tail[:200]}')
    return Run(usage.ru_utime + usage.ru_stime, usage.ru_maxrss // 1024, printed)


def tried(*words: str) -> Run | None:
    """Runs a program; None if it fails, which is reported on standard error."""
    try:
        return measured(*words)
    except Refusal as error:
        print(f'bench: {error}', file=sys.stderr)
        return None


def left_out(what: str, why: str) -> None:
    """Reports what is left out, and why."""
    print(f'bench: {what} is left out: {why}', file=sys.stderr)


def python_with(module: str) -> str:
    """Returns a Python interpreter that has a module, or nothing."""
    every = [python for python in (sys.executable, '/usr/bin/python3') if os.path.exists(python)]
    return next((it for it in every if subprocess.run([it, '-c', f'import {module}'], capture_output=True).returncode == 0), '')


def tool(*words: str) -> str:
    """Runs a program of tools/ and returns what it printed."""
    return subprocess.run([sys.executable, PACKAGE, *words], stdout=subprocess.PIPE, text=True, check=True).stdout


def named(word: str) -> list[tuple[str, int]]:
    """Returns the scans of the option `scans`."""
    if word == 'short':
        return list(SHORT)
    pairs = [scan.split('.') for scan in word.split(',')]
    if not all(len(pair) == 2 and pair[1].isdigit() for pair in pairs):
        raise Refusal(f'scans={word}: write SHAPE.SIZE, with commas between, or short')
    return [(shape, int(size)) for shape, size in pairs]


def scan_of(folder: str, shape: str, size: int) -> str:
    """Returns the path of a scan, which is made if it is missing."""
    path = os.path.join(folder, f'{shape}.{size}.ply')
    if not os.path.exists(path):
        os.makedirs(folder, exist_ok=True)
        tool('make-scan', shape, str(size), SEED, path)
    return path


def printed_head(*cells: str) -> None:
    """Prints the first two lines of a table."""
    print('| ' + ' | '.join(cells) + ' |\n|' + '---|' * len(cells), flush=True)


def printed_row(*cells: str) -> None:
    """Prints a row of a table."""
    print('| ' + ' | '.join(cells) + ' |', flush=True)
