"""Times `recon build` and `recon check` on scans of growing size, and prints a table for docs/explain/performance.md.

usage: dev/bench build RECON FOLDER [beside=PROGRAM] [sizes=N,N,..] [shapes=NAME,NAME,..] [scans=NAME.N,NAME.N,..] [check=no] [runs=N]

  RECON              the built program
  FOLDER             where scans are kept and meshes and certificates are written; a scan that is there is not made again
  beside=PROGRAM     another program that takes the same arguments, timed run by run beside RECON, as the unverified reference program of
                     dev/reference; its lines and its meshes have to be the same, byte for byte
  sizes=N,N,..       without it 10000,100000,1000000
  shapes=NAME,..     shapes of recon-make-scan; without it cube,torus,room,statue. Where neither sizes nor shapes are given, the
                     worst shapes follow, each at a size of its own
  scans=NAME.N,..    these scans, each a shape with its own size, in the place of sizes and shapes; scans=short stands for the worst
                     shapes, and a cube, a room, a torus and a statue of 1000000
  check=no           times `build` alone
  runs=N             runs of each, run by run with the unverified reference (default: 3)

Seconds are the least and the greatest of the runs, and ratios (`to build`: of check to build) are those of the least ones. They rise where other
work shares memory and caches, so compare programs of one row alone.
"""
from __future__ import annotations

import filecmp
import os
import resource
from typing import Any, Sequence

from bench.runs import WORST, Run, measured, named, printed_head, printed_row, scan_of
from recon.toolbox.ply_text import Refusal

NAMES, OPTIONS = 2, ('beside', 'sizes', 'shapes', 'scans', 'check', 'runs')
# What tables call some shapes.
TITLES = {'tube': 'thin tube', 'crowd': 'random rays'}


def cells_of(runs: list[Run]) -> list[str]:
    """Returns the seconds of some runs, from the least to the greatest, and the largest peak."""
    seconds = sorted((f'{run.seconds:.1f}' if run.seconds >= 1 else f'{run.seconds:.2f}' for run in runs), key=float)
    return [seconds[0] if seconds[0] == seconds[-1] else f'{seconds[0]} to {seconds[-1]}', f'{max(run.megabytes for run in runs):,}']


def least(runs: list[Run]) -> float:
    """Returns the least seconds of some runs."""
    return min(run.seconds for run in runs)


def texts(program: str, folder: str, name: str) -> list[str]:
    """Returns where a program writes its mesh and its certificate."""
    return [os.path.join(folder, f'{name}.{os.path.basename(program)}.{kind}') for kind in ('ply', 'cert')]


def compared(lines: list[str], meshes: list[str]) -> None:
    """Rejects a line or a mesh that differs from that of the other program."""
    if len(set(lines)) != 1:
        raise Refusal('the lines differ: ' + ' / '.join(lines))
    if not filecmp.cmp(*meshes, shallow=False):
        raise Refusal(f'the meshes differ: {meshes[0]} {meshes[1]}')


def row_of(programs: list[str], folder: str, shape: str, size: int, count: int, check: bool) -> list[str]:
    """Returns a row of the table: each program's build, and with `check` the first one's check of its own files."""
    scan, name = scan_of(folder, shape, size), f'{shape}.{size}'
    built: dict[str, list[Run]] = {program: [] for program in programs}
    for _ in range(count):
        for program in programs:
            built[program].append(measured(program, 'build', scan, *texts(program, folder, name)))
    cells = [f'{TITLES.get(shape, shape)}, {size:,}', *(cell for program in programs for cell in cells_of(built[program]))]
    if len(programs) == 2:
        compared([built[program][0].line for program in programs], [texts(program, folder, name)[0] for program in programs])
        cells.append(f'{least(built[programs[0]]) / least(built[programs[1]]):.2f}')
    if check:
        checked = [measured(programs[0], 'check', scan, *texts(programs[0], folder, name)) for _ in range(count)]
        cells += [*cells_of(checked), f'{least(checked) / least(built[programs[0]]):.2f}']
    return cells


def work(names: Sequence[str], options: Any) -> str:
    recon, folder = names
    sizes = [int(size) for size in (options.sizes or '10000,100000,1000000').split(',')]
    shapes = (options.shapes or 'cube,torus,room,statue').split(',')
    programs = [os.path.abspath(program) for program in (recon, options.beside) if program]
    resource.setrlimit(resource.RLIMIT_CORE, (0, 0))
    check = options.check != 'no'
    beside, checks = ['reference s', 'peak MB', 'ratio'], ['check s', 'peak MB', 'to build']
    printed_head('scan', 'build s', 'peak MB', *(beside if len(programs) == 2 else []), *(checks if check else []))
    scans = named(options.scans) if options.scans else [(shape, size) for size in sizes for shape in shapes]
    scans += WORST if not options.scans and not options.sizes and not options.shapes else ()
    for shape, size in scans:
        printed_row(*row_of(programs, folder, shape, size, int(options.runs or 3), check))
    return f'{len(scans)} scans'
