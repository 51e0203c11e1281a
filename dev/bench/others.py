"""Measures how far the surfaces of `recon-surface` and of other programs are from scanned objects, and what they cost.

usage: dev/bench others RECON FOLDER [objects=PATH,..] [points=N] [noise=F,F,..] [samples=N] [jobs=N]

  RECON        the built program; recon-mesh is beside it
  FOLDER       where scans, meshes and measurements are kept; what is there is not made again, so a run goes on where it stopped. Measurements
               of `recon` are made again if its programs or tools changed
  objects      triangle meshes, OFF or PLY (default: six of CGAL's package, if it is installed, and the furnished room of
               recon-make-scan)
  points       how many points a scan has (default: 42000)
  noise        standard deviations of the error along the lines of sight, in diagonals of the object (default: 0,0.00025,0.0005,0.001,0.002)
  samples      how many points are drawn for distances, each way (default: 20000)
  jobs         how many scans are measured at the same time (default: 1; seconds are right with 1 alone)

An object is scanned from 12 positions around it, the room from 4 positions in it, without outliers; coordinates are in thousandths of the
object's diagonal.

- recon-surface: the closed mesh, with all that it chooses; the same with `--steps 0`, which only flips edges; and the mesh without unseen faces.
- CGAL: the advancing front, with its default parameters.
- COLMAP: delaunay_mesher with visibility_sigma 0.3 and no thinning (max_proj_dist 0), since each point is seen from one position;
  distance_sigma_factor 0.3 and quality_regularization 0.3. Debian's COLMAP lacks it. A build of its source has it, if libcgal-dev is
  installed: `apt-get build-dep colmap`, `apt-get install libcgal-dev libunwind-dev`, `apt-get source colmap`, then cmake with -DGUI_ENABLED=OFF
  -DCUDA_ENABLED=OFF, and make colmap_exe. The folder of this colmap has to be the first in PATH.
- Open3D: normals of 16 neighbors that are turned to the true scanner; screened Poisson at depth 9, without the hundredth with the least density;
  ball pivoting with radii of 2, 4 and 8 spacings.

What is not installed is named and left out (Debian: libcgal-dev and g++, libcgal-demo for the objects, colmap, python3-open3d). Each table has a column
for each program: mean distances, 95th percentiles, and the mean angle to the object's normals, that between faces and the number of open edges, as
`dev/bench surfaces compare` computes them. The last table has a row for each program, from the least to the most of all scans: seconds of the
processor, the largest resident memory, non-manifold edges and pairs of faces that cross, for `recon` as `recon-mesh inspect` counts them. Needs numpy
and scipy.
"""
from __future__ import annotations

import hashlib
import json
import os
import shutil
import struct
import subprocess
import sys
import tarfile
import tempfile
from concurrent.futures import ThreadPoolExecutor
from itertools import dropwhile, islice
from pathlib import Path
from typing import Any, Callable, Dict, Iterator, List, NamedTuple, Sequence, Tuple

from bench.runs import OPEN3D, Run, left_out, printed_head, printed_row, python_with, tried
from recon.toolbox.ply_text import Refusal
from tools_path import PACKAGE

NAMES, OPTIONS = 2, ('objects', 'points', 'noise', 'samples', 'jobs')
NOISE = '0,0.00025,0.0005,0.001,0.002'
HERE = os.path.dirname(os.path.abspath(__file__))
ARCHIVE, MESHES = '/usr/share/doc/libcgal-dev/data.tar.gz', ('bunny00', 'armadillo', 'refined_elephant', 'fandisk', 'anchor_dense', 'turbine')
# the diagonals of shapes of recon-make-scan
DIAGONALS = {'room.off': (2 ** 2 + 1.6 ** 2 + 1) ** 0.5, 'statue.off': (1.31 ** 2 + 0.68 ** 2 + 2.22 ** 2) ** 0.5}
# the tools that choose and propose
TOOLS = ('clouds.py', 'finish.py', 'surface.py', 'targets.py')
# How COLMAP's mesher is run. By default it is made for points that many pictures show.
COLMAP = {'visibility_sigma': '0.3', 'max_proj_dist': '0', 'num_threads': '1', 'distance_sigma_factor': '0.3', 'quality_regularization': '0.3'}
PYTHON = python_with('scipy')
MEASURE = [PYTHON, HERE, 'surfaces']


class Row(NamedTuple):
    """A mesh that a program made of a scan, and what it cost, if it is not the second mesh of a run."""
    program: str
    cost: Run | None
    mesh: str


def scans_of(folder: str, path: str, points: str, noises: Sequence[str]) -> List[Scan]:
    """Returns the scans of an object with several noises. Those that are not there are made."""
    scans = [Scan(folder, path, points, noise) for noise in noises]
    lacking = [(scan, noise) for scan, noise in zip(scans, noises) if not os.path.exists(scan.scan)]
    if os.path.basename(path) in DIAGONALS:
        for scan, noise in lacking:
            scan_shape(os.path.basename(path), points, noise, scan.scan)
    elif lacking:
        words = [scan.scan for scan, _ in lacking]
        subprocess.run([*MEASURE, 'scan', path, *words, f'points={points}', 'noise=' + ','.join(noise for _, noise in lacking)], check=True,
                       stdout=subprocess.DEVNULL)
    for scan in scans:
        scan.prepare()
    return scans


def scan_shape(name: str, points: str, noise: str, out: str) -> None:
    """Scans a shape of recon-make-scan into a file, in thousandths of its diagonal."""
    diagonal = DIAGONALS[name]
    subprocess.run([PYTHON, PACKAGE, 'make-scan', name[:-4], points, '1', out + '.whole', f'scale={1e6 / diagonal}', 'stray=0',
                    f'noise={float(noise) * diagonal}'], check=True, stdout=subprocess.DEVNULL)
    with open(out + '.whole', encoding='ascii') as file:
        head, body = file.read().split('end_header\n')
    rows = (line.split() for line in body.splitlines())
    with open(out, 'w', encoding='ascii') as file:
        file.write(head.replace(' int x', ' double x').replace(' int y', ' double y').replace(' int z', ' double z') + 'end_header\n')
        file.writelines(' '.join([f'{int(word) / 1000:.3f}' for word in row[:3]] + row[3:]) + '\n' for row in rows)


class Scan:
    """A scan of an object, and its points and scanners in files of their own."""

    def __init__(self, folder: str, path: str, points: str, noise: str) -> None:
        self.object, self.noise = path, float(noise)
        name = os.path.splitext(os.path.basename(path))[0]
        self.name = f'{name}, {1000 * self.noise:g}'
        self.base = os.path.join(folder, f'{name}.{points}.{noise}')
        self.scan, self.points, self.seen = self.base + '.ply', self.base + '.points', self.base + '.seen'
        self.count = 0

    def prepare(self) -> None:
        """Writes the points and the scanners of the scan, which is there."""
        with open(self.scan, encoding='ascii') as file:
            self.count = int(next(line for line in file if line.startswith('element vertex ')).split()[2])
        scanners = self.scanners()
        with open(self.points, 'w', encoding='ascii') as points, open(self.seen, 'w', encoding='ascii') as seen:
            for row in islice(self.rows(), self.count):
                points.write(' '.join(row[:3]) + '\n')
                seen.write(' '.join(scanners[int(row[3])]) + '\n')

    def rows(self) -> Iterator[List[str]]:
        """Yields the rows of the file after its header. They are not kept: a program that is started would count their memory as its own."""
        with open(self.scan, encoding='ascii') as file:
            yield from (line.split() for line in dropwhile(lambda line: line != 'end_header\n', file) if line != 'end_header\n')

    def scanners(self) -> List[List[str]]:
        """Returns the positions of the scanners."""
        return [row[:3] for row in islice(self.rows(), self.count, None)]


def programs_digest(recon: str) -> str:
    """Returns a digest of the programs and of the tools that make the meshes of `recon`."""
    paths = [recon, os.path.join(os.path.dirname(recon), 'recon-mesh'), *(os.path.join(PACKAGE, name) for name in TOOLS)]
    whole = hashlib.sha256()
    for path in paths:
        if os.path.exists(path):
            whole.update(Path(path).read_bytes())
    return whole.hexdigest()[:16]


def of_recon(recon: str, scan: Scan) -> List[Row]:
    """Runs recon-surface, without and with smoothing."""
    if not os.path.exists(recon):
        left_out('recon', f'{recon} is not there')
        return []
    rows = []
    for name, options in (('recon, flips', ['--steps', '0']), ('recon', [])):
        mesh = f'{scan.base}.{"flips" if options else "surface"}.ply'
        words = ['--program', recon, '-o', mesh, '--closed', '-q', '--force', *options]
        cost = tried('env', f'RECON_MESH={os.path.join(os.path.dirname(recon), "recon-mesh")}', PYTHON, PACKAGE, 'surface', scan.scan, *words)
        rows += [] if cost is None else [Row(name, cost, mesh)]
    seen = f'{scan.base}.surface-seen.ply'
    return rows + ([Row('recon, seen', None, seen)] if os.path.exists(seen) else [])


def cgal_program(folder: str) -> str:
    """Returns the path of the program of `cgal.cpp`, which is built if it is not there; nothing where it cannot be built."""
    program = os.path.join(folder, 'cgal')
    if not os.path.exists(program):
        compiler = shutil.which('c++') or shutil.which('g++')
        if compiler is None or tried(compiler, '-O2', os.path.join(HERE, 'cgal.cpp'), '-o', program, '-lmpfr', '-lgmp') is None:
            left_out('CGAL', 'no C++ compiler or no CGAL is here (Debian: g++ libcgal-dev)')
            return ''
    return program


def of_cgal(folder: str, scan: Scan) -> List[Row]:
    program = cgal_program(folder)
    if not program:
        return []
    mesh = scan.base + '.front.off'
    front = tried(program, 'front', scan.points, mesh)
    return [] if front is None else [Row('advancing front', front, mesh)]


def of_colmap(scan: Scan) -> List[Row]:
    """Runs COLMAP's mesher."""
    if shutil.which('colmap') is None:
        left_out('COLMAP', 'it is not here (Debian: colmap)')
        return []
    mesh = f'{scan.base}.colmap.ply'
    with tempfile.TemporaryDirectory() as place:
        write_workspace(scan, place)
        options = [word for key, value in COLMAP.items() for word in (f'--DelaunayMeshing.{key}', value)]
        cost = tried('colmap', 'delaunay_mesher', '--input_path', place, '--input_type', 'dense', '--output_path', mesh, *options)
    if cost is None or not os.path.exists(mesh):
        left_out('COLMAP', 'this one is built without CGAL, or failed')
        return []
    return [Row('COLMAP', cost, mesh)]


def write_workspace(scan: Scan, place: str) -> None:
    """Writes a workspace as COLMAP's dense reconstruction leaves it, with a picture for each scanner."""
    sparse = os.path.join(place, 'sparse')
    os.mkdir(sparse)
    pictures = [f'{k + 1} 1 0 0 0 {-float(x)!r} {-float(y)!r} {-float(z)!r} 1 {k}.png\n\n' for k, (x, y, z) in enumerate(scan.scanners())]
    for name, text in (('cameras.txt', '1 PINHOLE 1000 1000 500 500 500 500\n'), ('images.txt', ''.join(pictures)), ('points3D.txt', '')):
        with open(os.path.join(sparse, name), 'w', encoding='ascii') as file:
            file.write(text)
    types = ['float x', 'float y', 'float z', 'float nx', 'float ny', 'float nz', 'uchar red', 'uchar green', 'uchar blue']
    head = ['ply', 'format binary_little_endian 1.0', f'element vertex {scan.count}', *('property ' + t for t in types), 'end_header', '']
    with open(os.path.join(place, 'fused.ply'), 'wb') as file:
        file.write('\n'.join(head).encode())
        file.writelines(struct.pack('<6f3B', *map(float, row[:3]), 0, 0, 1, 0, 0, 0) for row in islice(scan.rows(), scan.count))
    with open(os.path.join(place, 'fused.ply.vis'), 'wb') as file:
        file.write(struct.pack('<Q', scan.count))
        file.writelines(struct.pack('<II', 1, int(row[3])) for row in islice(scan.rows(), scan.count))


def of_open3d(scan: Scan) -> List[Row]:
    python = python_with('open3d')
    if not python:
        left_out('Open3D', 'no Python here has it (Debian: python3-open3d)')
        return []
    found = []
    for kind, name in (('pivoting', 'ball pivoting'), ('poisson', 'Poisson')):
        mesh = f'{scan.base}.{kind}.ply'
        cost = tried(python, '-c', OPEN3D, kind, scan.points, scan.seen, mesh, '0', '2,4,8', '0.01')
        found += [] if cost is None else [Row(name, cost, mesh)]
    return found


def measured_of(scan: Scan, row: Row, samples: str) -> Dict[str, Any]:
    """Returns what is measured of a mesh, which is compared with the object here: texts of the tables, and the cost."""
    said = subprocess.run([*MEASURE, 'compare', scan.object, row.mesh, f'samples={samples}', 'crossing=no'], capture_output=True, text=True)
    line = next((line for line in said.stdout.splitlines() if line.startswith(row.mesh)), '')
    if said.returncode != 0 or not line:
        raise Refusal(said.stderr.strip())
    there, back, is_open, edges, _, angle, turn, *_ = line.split(' | ')[1:]
    pairs = list(zip(there.split(' / '), back.split(' / ')))
    cost = {} if row.cost is None else {'seconds': row.cost.seconds, 'megabytes': row.cost.megabytes}
    return {'mean': pairs[0], 'most': pairs[1], 'rough': [turn, angle, is_open], 'edges': int(edges), **cost}


class Kept:
    """Measurements in files of a folder, one for each scan and kind of programs, so that several runs can add to them."""

    def __init__(self, folder: str, samples: str, compare: Callable[[Scan, Row, str], Dict[str, Any]] = measured_of) -> None:
        self.folder, self.samples, self.compare = Path(folder, 'measured'), samples, compare
        self.folder.mkdir(parents=True, exist_ok=True)

    def measure(self, scan: Scan, kind: str, state: str, run: Callable[[Scan], List[Row]]) -> Dict[str, Any]:
        """Returns measurements by program. The programs are run if there are none for this state of them."""
        path = self.folder / f'{os.path.basename(scan.base)}.{kind}'
        wanted = f'{state} {self.samples}'
        kept = json.loads(path.read_text()) if path.exists() else {}
        if kept.get('state') != wanted:
            found = {row.program: self.compare(scan, row, self.samples) for row in run(scan)}
            kept = {'state': wanted, 'found': found}
            if found:
                path.write_text(json.dumps(kept, indent=1))
        return dict(kept['found'])


def marked(pairs: Dict[str, Sequence[str]], programs: Sequence[str]) -> List[str]:
    """Returns the cells of a row of pairs of lengths, the least of each kind bold."""
    least = [min((float(pair[k]) for pair in pairs.values()), default=0.0) for k in (0, 1)]
    bold = {name: [f'**{word}**' if float(word) <= best else word for word, best in zip(pair, least)] for name, pair in pairs.items()}
    return ['/'.join(bold[name]) if name in bold else '' for name in programs]


def print_tables(rows: Dict[str, Dict[str, Any]]) -> None:
    """Prints a table of mean distances, one of 95th percentiles, one of angles and open edges, and one of costs."""
    programs = list(dict.fromkeys(name for row in rows.values() for name in row))
    for title, key in (('Mean distance to/from the object', 'mean'), ('95th percentile to/from', 'most'), ('Normals/angle/open edges', 'rough')):
        printed_head(title, *programs)
        for name, row in rows.items():
            cells = {program: row[program][key] for program in programs if program in row}
            printed_row(name, *(marked(cells, programs) if key != 'rough' else ['/'.join(cells.get(program, [])) for program in programs]))
        print()
    printed_head('Program', 's', 'MB', 'Non-manifold edges')
    for program in programs:
        found = [row[program] for row in rows.values() if program in row]
        printed_row(program, *(ranged([it[key] for it in found if key in it], digits) for key, digits in (('seconds', 1), ('megabytes', 0), ('edges', 0))))


def ranged(values: List[float], digits: int) -> str:
    """Returns the least and the greatest of some numbers."""
    return f'{min(values):,.{digits}f} to {max(values):,.{digits}f}' if values else ''


def all_objects(folder: str) -> List[str]:
    """Returns the objects that are measured by default, unpacked or made in the folder."""
    found = []
    if os.path.exists(ARCHIVE):
        with tarfile.open(ARCHIVE) as packed:
            for name in MESHES:
                data = packed.extractfile(f'data/meshes/{name}.off')
                assert data is not None
                found.append(os.path.join(folder, name + '.off'))
                with open(found[-1], 'wb') as file:
                    file.write(data.read())
    else:
        left_out(', '.join(MESHES), 'CGAL\'s meshes are not here (Debian: libcgal-demo)')
    room = os.path.join(folder, 'room.off')
    subprocess.run([*MEASURE, 'room', room], check=True, stdout=subprocess.DEVNULL)
    return [*found, room]


def work(names: Sequence[str], options: Any) -> str:
    if not PYTHON:
        raise Refusal('no Python with scipy is here (Debian: python3-scipy)')
    recon, folder, samples = os.path.abspath(names[0]), names[1], options.samples or '20000'
    os.makedirs(folder, exist_ok=True)
    objects = options.objects.split(',') if options.objects else all_objects(folder)
    kept, state = Kept(folder, samples), programs_digest(recon)
    # built before runs side by side need it
    cgal_program(folder)
    kinds: Dict[str, Tuple[str, Callable[[Scan], List[Row]]]] = {
        'recon': (state, lambda scan: of_recon(recon, scan)), 'colmap': ('', of_colmap), 'cgal': ('', lambda scan: of_cgal(folder, scan)),
        'open3d': ('', of_open3d)}

    def rows_of(scan: Scan) -> Dict[str, Any]:
        return {name: it for kind, (at, run) in kinds.items() for name, it in kept.measure(scan, kind, at, run).items()}

    noises = (options.noise or NOISE).split(',')
    with ThreadPoolExecutor(int(options.jobs or 1)) as pool:
        made = list(pool.map(lambda path: scans_of(folder, path, options.points or '42000', noises), objects))
        scans = [it for same in zip(*made) for it in same]
        rows = {scan.name: row for scan, row in zip(scans, pool.map(rows_of, scans))}
    print_tables(rows)
    return f'{len(rows)} scans'
