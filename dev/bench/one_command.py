"""Times recon-surface and the programs that it runs, and prints a table for docs/explain/performance.md.

usage: dev/bench one_command RECON RECON_MESH SCAN .. [runs=N] [steps=N]

  RECON RECON_MESH   the built programs
  SCAN ..            scans, as of recon-make-scan
  runs=N             runs of each, the least seconds of each part count (default: 3)
  steps=N            steps of smoothing (default: as recon-surface chooses)

Seconds are those of `recon build`, of `recon check`, of `recon-mesh finish`, and of Python, which is all that
recon-surface does itself. The ratio is that of recon-mesh and Python together to `build`.
"""
from __future__ import annotations

import os
import sys
import tempfile
from typing import Any, Sequence

from bench.runs import measured, printed_head, printed_row
from tools_path import PACKAGE
from recon.toolbox.ply_text import Refusal

NAMES, OPTIONS = None, ('runs', 'steps')
WRAPPER = '#!/bin/bash\nTIMEFORMAT="$1 %U %S"\n{{ time {program} "$@" 2>/dev/null; }} 2>> {log}\n'


def wrapped(folder: str, name: str, program: str, log: str) -> str:
    """Returns a script that runs a program and appends its command and its seconds to a file."""
    path = os.path.join(folder, name)
    with open(path, 'w', encoding='utf-8') as file:
        file.write(WRAPPER.format(program=os.path.abspath(program), log=log))
    os.chmod(path, 0o755)
    return path


def seconds_of(scan: str, recon: str, mesh: str, more: Sequence[str]) -> dict[str, float]:
    """Returns the seconds of a run by part."""
    with tempfile.TemporaryDirectory() as folder:
        log = os.path.join(folder, 'log')
        programs = wrapped(folder, 'recon', recon, log), wrapped(folder, 'recon-mesh', mesh, log)
        settings = [f'RECON_MESH={programs[1]}', 'OPENBLAS_NUM_THREADS=1']
        whole = measured('env', *settings, sys.executable, PACKAGE, 'surface', scan, '-o', os.path.join(folder, 'mesh.glb'), '-q', '--force', '--program',
                         programs[0], *more)
        with open(log, encoding='utf-8') as file:
            rows = [line.split() for line in file]
    found = {'build': 0.0, 'check': 0.0, 'finish': 0.0}
    for command, *seconds in rows:
        found[command] += sum(map(float, seconds))
    return {**found, 'python': whole.seconds - sum(found.values())}


def work(names: Sequence[str], options: Any) -> str:
    if len(names) < 3:
        raise Refusal('name the two programs and a scan')
    printed_head('Scan', '`recon build`', '`recon check`', '`recon-mesh finish`', 'Python', '(finish + Python) / build')
    more = ['--steps', options.steps] if options.steps else []
    for scan in names[2:]:
        runs = [seconds_of(scan, names[0], names[1], more) for _ in range(int(options.runs or 3))]
        least = {part: min(run[part] for run in runs) for part in runs[0]}
        cells = [f'{least[part]:.1f}' for part in ('build', 'check', 'finish', 'python')]
        printed_row(os.path.splitext(os.path.basename(scan))[0], *cells, f'{(least["finish"] + least["python"]) / least["build"]:.2f}')
    return f'{len(names) - 2} scans'
