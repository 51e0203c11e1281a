"""Counts the instructions and cache misses of `recon build` by phase, and prints a table for docs/explain/performance.md.

usage: dev/bench phases RECON FOLDER [scan=NAME.N] [beside=PROGRAM]

  RECON            the built program
  FOLDER           where the scan is kept and all outputs are written; a scan that is there is not made again
  scan=NAME.N      a shape of recon-make-scan and its size (default: torus.100000)
  beside=PROGRAM   the unverified reference program of dev/reference, whose numbers follow in parentheses

`cachegrind` of valgrind runs the program on a simulated processor (first-level data cache 32 KiB, last-level cache 32 MiB, lines of 64 bytes), so
the numbers do not depend on the machine or on other programs. A function counts for the phase that PHASES names for it. Instructions are in
billions, misses in millions. It takes some five minutes; where valgrind is missing, that is said and nothing is done (Debian: valgrind).
"""
from __future__ import annotations

import collections
import os
import re
import shutil
from typing import Any, Dict, List, Sequence

from bench.runs import measured, named, printed_head, printed_row, scan_of

NAMES, OPTIONS = 2, ('scan', 'beside')

CACHES = ('--I1=32768,8,64', '--D1=32768,8,64', '--LL=33554432,16,64')
# Each phase with the functions that count for it; the first phase that fits counts.
PHASES = (
    ('sorting, in all phases', r'slice::sort'),
    ('reading the scan, SHA-256', r'sha2|sha256|\bscan::|ply_head|ply_rows|num_text::decimal|numbers::|header|merge'),
    ('cells', r'delaunay|cavity|curve|geo_tie|tetra_store|tetra_walk|cells::delaunay|points::'),
    ('walks along lines of sight', r'sight|beam|tally|scanner|votes::|network_of'),
    ('flow and labels', r'flow|forest|cell_net|cutting|labels'),
    ('mesh and certificate, as text', r'text|itoa|num_text::print|surface|certificate|mesh_ply|recon_build|reference::built|reference::mesh'),
)
REST = 'system and the rest'
EVENTS = ('Ir', 'D1', 'LL')


def phase_of(function: str) -> str:
    """Returns the phase of a function."""
    return next((name for name, pattern in PHASES if re.search(pattern, function)), REST)


def counts_of(path: str) -> Dict[str, List[int]]:
    """Returns instructions, first-level and last-level misses of data by function, as cachegrind wrote them."""
    counts: Dict[str, List[int]] = collections.defaultdict(lambda: [0, 0, 0])
    function = ''
    with open(path, encoding='utf-8', errors='replace') as file:
        for line in file:
            if line.startswith('fn='):
                function = line[3:].strip()
            elif line[0].isdigit():
                # line, Ir I1mr ILmr Dr D1mr DLmr Dw D1mw DLmw
                numbers = [int(word) for word in line.split()[1:]]
                for k, more in enumerate((numbers[0], numbers[4] + numbers[7], numbers[5] + numbers[8])):
                    counts[function][k] += more
    return counts


def phases_of(program: str, folder: str, scan: str) -> Dict[str, List[int]]:
    """Runs `build` under cachegrind, and returns the counts by phase."""
    out = os.path.join(folder, 'phases')
    measured('valgrind', '--tool=cachegrind', '--cache-sim=yes', *CACHES, f'--cachegrind-out-file={out}', program, 'build', scan, out + '.ply', out + '.cert')
    phases = {name: [0, 0, 0] for name in [*(name for name, _ in PHASES), REST]}
    for function, numbers in counts_of(out).items():
        of_phase = phases[phase_of(function)]
        for k, number in enumerate(numbers):
            of_phase[k] += number
    return {**phases, 'all': [sum(it[k] for it in phases.values()) for k in range(len(EVENTS))]}


def work(names: Sequence[str], options: Any) -> str:
    if shutil.which('valgrind') is None:
        return 'left out: valgrind is not here (Debian: valgrind)'
    folder = names[1]
    (shape, size), = named(options.scan or 'torus.100000')
    scan = scan_of(folder, shape, size)
    programs = [os.path.abspath(path) for path in (names[0], options.beside) if path]
    found = [phases_of(program, folder, scan) for program in programs]
    printed_head('Phase', 'instructions, 10⁹', 'first-level misses, 10⁶', 'last-level misses, 10⁶')
    for phase in found[0]:
        cells = []
        for k, unit in enumerate((1e9, 1e6, 1e6)):
            one, *other = (f'{phases[phase][k] / unit:.{2 if k == 0 else 1}f}' for phases in found)
            cells.append(one + ''.join(f' ({it})' for it in other))
        printed_row(phase, *cells)
    return f'{shape}, {size:,} points'
