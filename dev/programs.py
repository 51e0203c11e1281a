#!/usr/bin/env python3
"""Proves and builds the programs, side by side as far as crates do not depend on each other, and leaves them at the top of the repository.

usage: dev/programs.py [recon] [recon-mesh]       (default: both)

Copies the crates below the programs, without mutants, to a temporary folder and runs `rt ci` there, which proves as many crates at a time as there
are processors and memory, the longest chain first. What it proves is kept for the gate, and what the gate has proved is not proved again. All that
`rt` prints goes to run.log. If neither program nor sources have changed since, nothing is done.
"""
from __future__ import annotations

import hashlib
import pathlib
import shutil
import subprocess
import sys
import tempfile

from docs.sources import uses_of
from progress import proved_in_turn
from report import begun

TOP = pathlib.Path(__file__).resolve().parent.parent
LOG, KEPT = TOP / 'run.log', TOP / 'run.sum'
# Each program with its crate.
PROGRAMS = {'recon': 'recon_main', 'recon-mesh': 'mesh_main'}
LEFT_OUT = ('out', 'must-fail')


def crates_below(names: list[str]) -> list[str]:
    """Returns the crates of these programs and all below them, lowest first."""
    uses = uses_of((TOP / 'crates.txt').read_text())
    return [*dict.fromkeys(crate for name in names for crate in proved_in_turn(PROGRAMS[name], uses))]


def copied(crates: list[str], to: pathlib.Path) -> None:
    """Copies these crates, their lines of crates.txt and HANDLES."""
    lines = [line for line in (TOP / 'crates.txt').read_text().splitlines() if line.split(':')[0].split()[0:1] and line.split(':')[0].split()[0] in crates]
    (to / 'crates').mkdir(parents=True)
    (to / 'crates.txt').write_text('\n'.join(lines) + '\n')
    shutil.copy(TOP / 'HANDLES', to)
    for crate in crates:
        shutil.copytree(TOP / 'crates' / crate, to / 'crates' / crate, ignore=shutil.ignore_patterns(*LEFT_OUT))


def sum_of(folder: pathlib.Path) -> str:
    """Returns a checksum of the names and contents of all files of a folder."""
    found = hashlib.sha256()
    for path in sorted(it for it in folder.rglob('*') if it.is_file()):
        found.update(f'{path.relative_to(folder)}\0{hashlib.sha256(path.read_bytes()).hexdigest()}\n'.encode())
    return found.hexdigest()


def built(names: list[str], room: pathlib.Path) -> int:
    """Proves and builds in the copy, puts the programs at the top, and returns the status."""
    print(f"proving and building {' and '.join(names)}, a line for each crate; all that rt prints goes to {LOG.name}", flush=True)
    words = [sys.executable, str(TOP / 'dev/progress.py'), str(LOG), 'rt', 'ci']
    status = subprocess.run(words, cwd=room, stdin=subprocess.DEVNULL).returncode
    for name in names if status == 0 else []:
        crate = PROGRAMS[name]
        (TOP / name).unlink(missing_ok=True)
        shutil.copy2(room / 'crates' / crate / 'out' / crate, TOP / name)
    return status


def main() -> int:
    names = sys.argv[1:] or [*PROGRAMS]
    if any(name not in PROGRAMS for name in names):
        print(f"programs: the programs are {' and '.join(PROGRAMS)}", file=sys.stderr)
        return 2
    with tempfile.TemporaryDirectory(prefix='programs-') as place:
        room = pathlib.Path(place) / 'copy'
        copied(crates_below(names), room)
        mine = f"{' '.join(names)} {sum_of(room)}\n"
        done = KEPT.read_text().splitlines(keepends=True) if KEPT.is_file() else []
        if mine in done and all((TOP / name).is_file() for name in names):
            return 0
        status = built(names, room)
    if status == 0:
        KEPT.write_text(''.join([mine, *(line for line in done if not line.startswith(' '.join(names) + ' '))]))
    return status


if __name__ == '__main__':
    begun(__doc__)
    sys.exit(main())
