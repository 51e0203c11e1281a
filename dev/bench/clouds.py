"""Runs recon-surface without an option on clouds that Debian packs (libcgal-demo, opencv-doc), and prints what it chose as a table.

usage: dev/bench clouds RECON FOLDER [only=PART] [seconds=N]

  RECON          the built program
  FOLDER         where the clouds are unpacked, and the meshes are written
  only=PART      clouds with this in their name alone
  seconds=N      how long smoothing one of them may take (--patience; default: 120)

Each row: points, how lines of sight are known, the spacing, the noise in spacings, unit, area weight, lone points, pieces that were kept,
visibility weight against a sight, and the part of the area that no scanner saw. A cloud without a surface has its error on standard error. The last
line counts the clouds that came out.
"""
from __future__ import annotations

import json
import subprocess
import sys
import tarfile
from pathlib import Path
from typing import Any, Iterator, Sequence

from bench.runs import printed_head
from tools_path import PACKAGE

NAMES, OPTIONS = 2, ('only', 'seconds')

ARCHIVES = ('data', 'demo', 'examples')
CGAL, OPENCV = Path('/usr/share/doc/libcgal-dev'), Path('/usr/share/doc/opencv-doc/examples')
ENDINGS = ('.xyz', '.pwn', '.ply', '.las')


def is_cloud(name: str) -> bool:
    """Returns whether a member of an archive is a cloud, by its place and its ending."""
    return name.endswith(ENDINGS) and 'points_3' in name or name.endswith('.las')


def clouds(folder: Path) -> Iterator[Path]:
    """Yields the clouds of both packages, each name once; what is packed is unpacked first."""
    kept, seen = folder / 'clouds', set()
    kept.mkdir(parents=True, exist_ok=True)
    for archive in (CGAL / f'{name}.tar.gz' for name in ARCHIVES):
        if archive.exists():
            with tarfile.open(archive) as packed:
                for member in packed:
                    if member.isfile() and member.size > 2000 and is_cloud(member.name):
                        data = packed.extractfile(member)
                        assert data is not None
                        (kept / Path(member.name).name).write_bytes(data.read())
    for path in [*sorted(kept.iterdir()), *sorted(OPENCV.glob('surface_matching/data/*.ply'))]:
        if path.name not in seen:
            seen.add(path.name)
            yield path


def row_of(path: Path, recon: str, folder: Path, seconds: str) -> tuple[str, bool]:
    """Returns the row of a cloud, and whether a surface came out."""
    out = folder / (path.name + '.ply')
    words = [sys.executable, PACKAGE, 'surface', str(path), '-o', str(out), '-q', '--program', recon, '--patience', seconds]
    done = subprocess.run(words, capture_output=True, text=True)
    if done.returncode not in (0, 4):
        return f'| {path.name} | {(done.stderr.strip().splitlines() or ["ended by a signal"])[-1]} |', False
    report = json.loads((out.with_suffix('.recon') / 'report.json').read_text())
    chosen = {name: it['value'] for name, it in report['choices'].items()}
    figures, against = report['figures'], report['votes_against_per_sight']
    apart, noise = float(figures['spacing']), float(figures['noise'])
    cells = [path.name, figures['points read'], chosen['sights'].replace('along ', ''), f'{apart:.3g}', f'{noise / apart:.2f}', chosen['unit'], chosen['smooth'],
             chosen.get('lone points', ''), f'{chosen["pieces"]} {report["choices"]["pieces"]["why"].split(",")[0]}',
             f'**{against:.3f}**' if against > 0.1 else f'{against:.3f}', f'{report["unseen_area"]:.0%}']
    return '| ' + ' | '.join(cells) + ' |', True


def work(names: Sequence[str], options: Any) -> str:
    recon, folder = names[0], Path(names[1])
    printed_head('Cloud', 'Points', 'Lines of sight', 'Spacing', 'Noise', '`unit`', '`smooth`', 'Lone', 'Components', 'Contradicted', 'Unseen')
    made = total = 0
    for path in clouds(folder):
        if options.only is None or options.only in path.name:
            row, is_made = row_of(path, recon, folder, options.seconds or '120')
            print(row, flush=True, file=sys.stdout if is_made else sys.stderr)
            made, total = made + is_made, total + 1
    return f'{made} of {total} clouds came out'
