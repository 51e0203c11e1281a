"""Surfaces of scans of more points than `recon` takes: cut into tiles, each built and checked, and joined.

Each tile's surface is the best one of the tile's scan. The joined mesh is closed; it is not the best one of the whole scan. The tiles are kept until the
run has ended well, so that a run that was interrupted continues where it was.

Names: Tiled (a surface that was joined) · Tiling (how it is made) · build_tiles.
"""
from __future__ import annotations

import json
import os
import shutil
import subprocess
from concurrent.futures import ThreadPoolExecutor
from dataclasses import dataclass, field
from pathlib import Path
from typing import Any, Callable, List, Optional

import numpy as np

from recon.beside import digest
from recon.library import Sights, Surface, rows_at, written_scan
from recon.program import NUMBER, Refused, program_path
from recon.toolbox.mesh_files import read_mesh
from recon.toolbox.ply_text import Refusal
from recon.toolbox.progress import step
from recon.toolbox.scan_feeds import KEYS
from recon.toolbox.stopping import run_child, stop_children
from recon.toolbox.tile_jobs import cksum, is_done
from recon.toolbox.tile_join import JoinReport, join
from recon.toolbox.tile_split import Wanted, split
from recon.toolbox.tool import Options

SPACINGS = 20.0
# memory of a job for each point of a tile
BYTES = 3200
SUMMED = ('points', 'scanners', 'sights', 'inside', 'faces', 'cost')


@dataclass(repr=False)
class Tiled(Surface):
    """A surface that was joined of tiles. `counts` are sums over the tiles, of points and faces that several have too; `joined` says how many edges
    were moved and triangles filled. In `folder` are scan.ply, mesh.ply and the folder tiles, with scan, mesh and certificate of each."""
    names: List[str] = field(default_factory=list)
    joined: Optional[JoinReport] = None

    def files(self) -> list[str]:
        return ['scan.ply', 'mesh.ply', *(f'tiles/{name}.{ending}' for name in self.names for ending in ('ply', 'mesh.ply', 'cert'))]

    def tiles(self) -> list[str]:
        return self.names

    def check(self) -> bool:
        """True: each tile was checked when it was built, and the join has compared its files."""
        return True


@dataclass
class Tiling:
    """How a surface is made of tiles: the most points of one, how many are built at once (None: as many as there are processors, and memory for), the
    folder that is kept until the run has ended well, and what gets lines on what is done."""
    most: int
    jobs: Optional[int]
    kept: Path
    tell: Callable[[str], None]

    def jobs_at_a_time(self) -> int:
        free = os.sysconf('SC_AVPHYS_PAGES') * os.sysconf('SC_PAGE_SIZE')
        return self.jobs or max(1, min(len(os.sched_getaffinity(0)), free // (BYTES * self.most)))

    def prepared(self, scan: Path, options: List[str]) -> Path:
        """Returns the folder of the tiles, which are those of an interrupted run if scan and options are the same."""
        key, tiles = f'{digest(scan)} {self.most} {" ".join(options)}\n', self.kept / 'tiles'
        known = self.kept / 'key'
        if os.path.lexists(self.kept) and not known.is_file():
            raise Refusal(f'{self.kept} exists, and is not from an interrupted run: move it away')
        if known.is_file() and known.read_text() == key and tiles.is_dir():
            self.tell(f'continuing with the tiles in {self.kept}')
            return tiles
        self.kept.mkdir(parents=True, exist_ok=True)
        known.write_text(key)
        shutil.rmtree(tiles, ignore_errors=True)
        wanted = Wanted(self.most, self.most // 10, None, SPACINGS, 1, Options(KEYS))
        self.tell(str(split([os.fspath(scan)], os.fspath(tiles), wanted, options)))
        return tiles

    def run_jobs(self, folder: Path, names: List[str], options: List[str], program: str) -> None:
        """Builds and checks all tiles of a folder that are not done. Raises `Refused` with the first that failed."""
        left = [name for name in names if not ((folder / f'{name}.done').exists() and is_done(os.fspath(folder), name))]
        with ThreadPoolExecutor(self.jobs_at_a_time()) as pool:
            results = [pool.submit(run_job, folder, name, options, program) for name in left]
            try:
                with step(f'building {len(left)} tiles', lambda: sum(result.done() for result in results) / len(results)):
                    for number, result in enumerate(results, len(names) - len(left) + 1):
                        result.result()
                        self.tell(f'tile {number} of {len(names)} is built and checked')
            except BaseException:
                for result in results:
                    result.cancel()
                stop_children()
                raise


def run_job(folder: Path, name: str, options: List[str], program: str) -> None:
    """Builds and checks a tile, as a line of `jobs.txt` does."""
    scan, mesh, certificate = (os.fspath(folder / f'{name}.{ending}') for ending in ('ply', 'mesh.ply', 'cert'))
    said = ''
    for command in ('build', 'check'):
        done = run_child([program, command, scan, mesh, certificate, *options], stdin=subprocess.DEVNULL, stdout=subprocess.PIPE,
                         stderr=subprocess.STDOUT)
        if done.returncode:
            raise Refused(done.returncode, f'tile {name}: {done.stdout.strip()}', '')
        said += done.stdout
    part = folder / f'{name}.log'
    part.write_text(said + f'{cksum(scan)}\n{cksum(mesh)}\n')
    part.replace(folder / f'{name}.done')


def counts_of(folder: Path, names: list[str]) -> dict[str, int]:
    """The sums of what `recon build` said of the tiles."""
    sums = dict.fromkeys(SUMMED, 0)
    for name in names:
        for key, number in NUMBER.findall((folder / f'{name}.done').read_text().splitlines()[0]):
            sums[key] += int(number)
    return sums


def build_tiles(points: np.ndarray, scanners: np.ndarray, sights: Sights, tiling: Tiling, *, weights: Any, smooth: int, vote: int, unit: int,
                origin: np.ndarray, folder: Path, program: str | None) -> Tiled:
    """Returns the surface of a scan of any size, joined of tiles: the arguments are those of `build`. Raises `Refusal` if no boxes part the points, and
    `Refused` if a tile cannot be built."""
    scan = written_scan(points, scanners, sights, weights, unit, origin, folder)
    options = [f'smooth={smooth}', f'vote={vote}']
    tiles = tiling.prepared(folder / 'scan.ply', options)
    names = [tile['name'] for tile in json.loads((tiles / 'tiles.json').read_text())['tiles']]
    tiling.run_jobs(tiles, names, options, program_path(program))
    mesh = folder / 'mesh.ply'
    joined = join(os.fspath(tiles), os.fspath(mesh), tiling.jobs_at_a_time())
    spots, corners = read_mesh(os.fspath(mesh))
    if not (folder / 'tiles').is_symlink():
        (folder / 'tiles').symlink_to(tiles.resolve())
    return Tiled(spots / scan.unit + scan.origin, corners.reshape(-1, 3), rows_at(scan.points, spots), None, scan.unit, scan.origin, smooth, vote,
                 counts_of(tiles, names), folder, program, names=names, joined=joined)


__all__ = ['Tiled', 'Tiling', 'build_tiles']
