"""What the tests of tools/ share: programs called, files written and compared."""
from __future__ import annotations

import os
import re
import struct
import subprocess
import sys
import tempfile
import unittest
from typing import Any, Sequence

HERE = os.path.dirname(os.path.abspath(__file__))
TOOLS = os.path.dirname(HERE)
PACKAGE = os.path.join(TOOLS, 'recon')
ROOT = os.path.dirname(TOOLS)
DEV = os.path.join(ROOT, 'dev')
PLACES = [os.environ.get('RECON', ''), os.path.join(ROOT, 'recon'),
          os.path.join(ROOT, 'crates', 'recon_main', 'out', 'recon_main')]
RECON = next(filter(os.path.exists, PLACES), '')
MESH_PLACES = [os.environ.get('RECON_MESH', ''), os.path.join(ROOT, 'recon-mesh'),
               os.path.join(ROOT, 'crates', 'mesh_main', 'out', 'mesh_main')]
RECON_MESH = next(filter(os.path.exists, MESH_PLACES), '')
sys.path[:0] = [TOOLS, DEV]


class InFolder(unittest.TestCase):
    """Tests that begin in an empty folder each."""

    def setUp(self) -> None:
        folder = tempfile.TemporaryDirectory()
        self.addCleanup(folder.cleanup)
        self.addCleanup(os.chdir, ROOT)
        os.chdir(folder.name)


def write(name: str, data: bytes | str) -> None:
    with open(name, 'wb') as file:
        file.write(data.encode('ascii') if isinstance(data, str) else data)


def read(name: str) -> str:
    with open(name, 'rb') as file:
        return file.read().decode('ascii')


def call(program: str, *words: str) -> Any:
    """Status, standard output and standard error of a program of tools/ or dev/."""
    done = subprocess.run([*command(program), *words], capture_output=True, text=True)
    return done.returncode, done.stdout, done.stderr


def command(program: str) -> list[str]:
    """Returns the arguments that run a program of tools/ or dev/, from any folder."""
    if program in ('docs', 'bench'):
        return [sys.executable, os.path.join(DEV, program)]
    return [sys.executable, PACKAGE, program] if is_packed(program) else [sys.executable, os.path.join(DEV, program + '.py')]


def is_packed(program: str) -> bool:
    """Returns whether a program is one of the package, and not one of dev/."""
    return not os.path.exists(os.path.join(DEV, program + '.py'))


def spoken(program: str) -> str:
    """Returns the name under which a program speaks."""
    return 'recon-' + program.replace('_', '-') if is_packed(program) else program + '.py'


def equal(got: Any, wanted: Any) -> None:
    if got != wanted:
        raise AssertionError(f'\n  got    {got!r}\n  wanted {wanted!r}')


def says(program: str, line: str, *words: str) -> None:
    """The program ends well with this line."""
    equal(call(program, *words), (0, f'{spoken(program)}: {line}\n', ''))


def refuses(program: str, part: str, *words: str, out: str = 'out.ply') -> None:
    """The program refuses with a line that has this part, and leaves what was there."""
    write(out, 'before')
    status, said, error = call(program, *words)
    if status != 1 or said or part not in error or not error.startswith(f'{spoken(program)}: error: ') or error.count('\n') != 1:
        raise AssertionError(f'\n  got    {(status, said, error)!r}\n  wanted a refusal with {part!r}')
    equal((read(out), os.path.exists(out + '.part')), ('before', False))


def holds(name: str, wanted: str) -> None:
    """The file is this text but for its comment, and `recon` reads it, where `recon` is built."""
    text = read(name)
    equal(re.sub('comment made by .*\n', '', text), wanted)
    if RECON and 'element vertex 0' not in wanted:
        one = [] if 'element scanner' in wanted else ['scanner=9,9,9']
        done = subprocess.run([RECON, 'cells', name, 'cells', *one], capture_output=True, text=True)
        equal((done.returncode, done.stdout[:7]), (0, 'points '))


def head(count: int, columns: str, scanners: int | None = None) -> str:
    """Returns the header of what the programs write."""
    lines = ['ply', 'format ascii 1.0', f'element vertex {count}'] + ['property ' + column for column in columns.split(', ')]
    if scanners is not None:
        lines += [f'element scanner {scanners}'] + ['property double ' + axis for axis in 'xyz']
    return '\n'.join(lines + ['end_header', ''])


# A mesh of four points, each face outward.
MESH = """ply
format ascii 1.0
element vertex 4
property int x
property int y
property int z
element face 4
property list uchar int vertex_indices
end_header
100 100 100
100 -100 -100
-100 100 -100
-100 -100 100
3 0 1 2
3 0 2 3
3 0 3 1
3 1 3 2
"""
SCAN = 'double x, double y, double z, int scanner'


def binary(order: str, end: str, rows: Sequence[Any], columns: str = 'fffB', names: str = 'x y z red',
           extra: bytes = b'', more: str = '') -> bytes:
    """Returns a binary PLY as other programs write it."""
    types = {'f': 'float', 'd': 'double', 'B': 'uchar', 'h': 'short', 'i': 'int', 'q': 'list uchar int'}
    kind = {'<': 'little', '>': 'big'}[order]
    lines = ['ply', f'format binary_{kind}_endian 1.0', 'comment by another program', f'element vertex {len(rows)}']
    lines += [f'property {types[c]} {n}' for c, n in zip(columns, names.split())]
    text = end.join(lines + ([more.replace('\n', end)] if more else []) + ['end_header', ''])
    return text.encode('ascii') + b''.join(struct.pack(order + columns, *row) for row in rows) + extra


POINTS = [(0.1, -2.5, 1e-7, 255), (float('nan'), 0, 0, 1), (3, float('inf'), 0, 2), (100000, 16777216, -0.75, 0)]


class Given:
    """These options and no others."""

    def __init__(self, **values) -> None:
        vars(self).update(values)

    def __getattr__(self, key: str) -> None:
        return None
