"""Times each command of recon and recon-mesh on a scan, and prints a table for docs/explain/performance.md.

usage: dev/bench commands RECON FOLDER [scan=NAME.N] [runs=N]

  RECON          the built program; recon-mesh is beside it
  FOLDER         where the scan is kept and all outputs are written; a scan that is there is not made again
  scan=NAME.N    a shape of recon-make-scan and its size (default: torus.1000000)
  runs=N         runs of each command, the least seconds and the greatest peak of memory count (default: 1)
"""
from __future__ import annotations

import os
import random
from typing import Any, Sequence

from bench.runs import measured, named, printed_head, printed_row, scan_of

NAMES, OPTIONS = 2, ('scan', 'runs')
ASKED = 100_000


def write_points(path: str, scan: str) -> None:
    """Writes points to ask for: places drawn evenly in a cube around the middle."""
    draw = random.Random(scan)
    with open(path, 'w', encoding='ascii') as file:
        file.writelines('%d %d %d\n' % tuple(draw.randrange(-500_000, 500_000) for _ in range(3)) for _ in range(ASKED))


def commands(recon: str, folder: str, scan: str) -> dict[str, list[str]]:
    """Returns what is run, in order, by what the table calls it."""
    mesh_program = os.path.join(os.path.dirname(recon), 'recon-mesh')
    mesh, cert, points, out, *meshes = (os.path.join(folder, f'commands.{name}') for name in
                                        ('mesh.ply', 'scan.cert', 'points.txt', 'out', *(f'{k}.ply' for k in range(8))))
    write_points(points, scan)
    sweep = {f'`sweep`, {len(weights)} at `smooth={"` to `".join([str(weights[0])] + [str(w) for w in weights[-1:] if len(weights) > 1])}`':
             [recon, 'sweep', scan, str(weights[0]), '1', str(len(weights)), *meshes[:len(weights)]] for weights in ([3], [2, 3], list(range(8)))}
    return {
        '`cells`': [recon, 'cells', scan, out],
        '`build smooth=3`': [recon, 'build', scan, mesh, cert, 'smooth=3'],
        '`check`': [recon, 'check', scan, mesh, cert, 'smooth=3'],
        f'`ask` for {ASKED:,} points': [recon, 'ask', scan, points, out, 'smooth=3'],
        **sweep,
        '`slice` at height 0': [recon, 'slice', mesh, '0', out],
        '`export` to PLY, OFF and OBJ': [recon, 'export', mesh, *meshes[:3]],
        '`recon-mesh finish pieces=1`': [mesh_program, 'finish', mesh, meshes[0], 'pieces=1'],
        '`recon-mesh finish pieces=1 smooth=3`': [mesh_program, 'finish', mesh, meshes[1], 'pieces=1', 'smooth=3', 'within=1500'],
        '`recon-mesh check` of the first': [mesh_program, 'check', mesh, meshes[0]],
        '`recon-mesh inspect`': [mesh_program, 'inspect', mesh],
    }


def work(names: Sequence[str], options: Any) -> str:
    recon, folder = os.path.abspath(names[0]), names[1]
    (shape, size), = named(options.scan or 'torus.1000000')
    every = commands(recon, folder, scan_of(folder, shape, size))
    printed_head('Command', 's', 'peak MB')
    for name, words in every.items():
        runs = [measured(*words) for _ in range(int(options.runs or 1))]
        printed_row(name, f'{min(it.seconds for it in runs):.1f}', f'{max(it.megabytes for it in runs):,}')
    return f'{len(every)} commands'
