#!/usr/bin/env python3
"""Measures programs and meshes, and prints the tables of docs/explain/.

usage: dev/bench TABLE ARGUMENTS      (dev/bench TABLE --help lists the arguments)

  build           build and check, on scans of growing size
  commands        each command of recon and recon-mesh
  one_command     recon-surface and the programs that it runs
  phases          instructions and cache misses of build by phase
  others          other programs on the same scans, and distances to the object
  weights         distances to the object at several area weights
  simplified      simplified meshes, beside Open3D and CGAL
  clouds          what recon-surface chooses for the clouds that Debian packs
  clouds_beside   Open3D on these clouds
  seams           what tiles change in a mesh
  unseen          which faces no scanner saw, on simulated scans of known sites
  reading         how fast files of each kind are read
  surfaces        makes scans of an object, and measures how far meshes are from it

Seconds are of the processor (user and system), the peak is the largest resident memory, in units of 2^20 bytes.
"""
from __future__ import annotations

import ast
import importlib
import pathlib
import sys

HERE = pathlib.Path(__file__).resolve().parent
if not __package__:
    sys.path.insert(0, str(HERE.parent))

from report import begun  # noqa: E402

TABLES = ('build', 'commands', 'one_command', 'phases', 'others', 'weights', 'simplified', 'clouds', 'clouds_beside', 'seams', 'surfaces', 'unseen', 'reading')


def main() -> None:
    name = sys.argv.pop(1) if sys.argv[1:2] and sys.argv[1] in TABLES else ''
    if not name:
        sys.exit(f'bench: name a table, one of {", ".join(TABLES)}')
    begun(ast.get_docstring(ast.parse((HERE / f'{name}.py').read_text())))
    import tools_path  # noqa: F401
    from recon.toolbox.tool import run
    table = importlib.import_module(f'bench.{name}')
    run(table.work, table.__doc__ or '', table.NAMES, table.OPTIONS)


if __name__ == '__main__':
    begun(__doc__)
    main()
