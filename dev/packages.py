#!/usr/bin/env python3
"""Packs the built programs and the tools as a Debian package and as a wheel of Python, which has the programs inside.

  dev/packages.py FOLDER [RECON RECON_MESH]

  FOLDER             where the packages are written
  RECON RECON_MESH   the built programs (default: ./recon and ./recon-mesh)

The Debian package is made if there is dpkg-deb, the wheel if the Python that runs this has setuptools and wheel. A package that cannot be made is named.
Its version is that of tools/pyproject.toml, and the oldest system that it runs on is the one whose C library the programs need.
"""
from __future__ import annotations

import importlib.util
import os
import pathlib
import platform
import re
import shutil
import subprocess
import sys
import tempfile
from collections.abc import Callable
from dataclasses import dataclass

TOP = pathlib.Path(__file__).resolve().parent.parent
NAMES = 'recon', 'recon-mesh'
TEXTS = 'README.md', 'docs', 'examples'
CONTROL = """Package: recon
Version: {version}
Architecture: {architecture}
Maintainer: the authors of recon <recon@localhost>
Depends: libc6 (>= 2.{glibc}), python3 (>= 3.8), python3-numpy, python3-scipy
Suggests: python3-laspy
Section: science
Priority: optional
Description: closed triangle meshes from laser scans
 Reconstructs a closed triangle mesh from a laser scan, the exact minimum of a
 visibility energy, with a certificate that recon check verifies.
"""
# Python writes these beside modules when they are run by root
REMOVED = '#!/bin/sh\nfind /usr/share/recon -name __pycache__ -type d -prune -exec rm -rf {} +\n'
SCRIPTS = 'recon = "recon.start:recon"\nrecon-mesh = "recon.start:recon_mesh"\n'


@dataclass
class Parts:
    """What is packed: the programs by name, the version, and the least minor version of the C library 2.x that the programs need."""
    programs: dict[str, pathlib.Path]
    version: str
    glibc: int

    @classmethod
    def of(cls, paths: list[pathlib.Path]) -> Parts:
        """Reads what the programs need."""
        version = re.search(r'^version = "(.*)"', (TOP / 'tools/pyproject.toml').read_text(), re.MULTILINE)
        needed = [int(found) for path in paths for found in re.findall(rb'GLIBC_2\.([0-9]+)', path.read_bytes())]
        assert version is not None
        return cls(dict(zip(NAMES, paths)), version[1], max(needed, default=17))


def install(parts: Parts, folder: pathlib.Path) -> None:
    """Installs programs, manual pages and tools under a folder, as `make install` does."""
    for name, path in parts.programs.items():
        (folder / 'bin').mkdir(parents=True, exist_ok=True)
        shutil.copy(path, folder / 'bin' / name)
    subprocess.run(['make', '-s', 'install-texts', f'PREFIX={folder}'], cwd=TOP, check=True)


def deb(parts: Parts, out: pathlib.Path, work: pathlib.Path) -> str:
    """Makes the Debian package."""
    tree, machine = work / 'deb', subprocess.run(['dpkg', '--print-architecture'], stdout=subprocess.PIPE, text=True, check=True).stdout.strip()
    install(parts, tree / 'usr')
    share = tree / 'usr/share/doc/recon'
    share.mkdir(parents=True)
    for name in TEXTS:
        (shutil.copytree if (TOP / name).is_dir() else shutil.copy)(TOP / name, share / name)
    (tree / 'DEBIAN').mkdir()
    (tree / 'DEBIAN/control').write_text(CONTROL.format(version=parts.version, architecture=machine, glibc=parts.glibc))
    (tree / 'DEBIAN/prerm').write_text(REMOVED)
    (tree / 'DEBIAN/prerm').chmod(0o755)
    path = out / f'recon_{parts.version}_{machine}.deb'
    subprocess.run(['dpkg-deb', '--root-owner-group', '--build', str(tree), str(path)], check=True, stdout=subprocess.DEVNULL)
    return path.name


def wheel(parts: Parts, out: pathlib.Path, work: pathlib.Path) -> str:
    """Makes the wheel, for any Python 3 on systems with the C library."""
    tree = work / 'wheel'
    shutil.copytree(TOP / 'tools/recon', tree / 'recon', ignore=shutil.ignore_patterns('__pycache__'))
    (tree / 'recon/programs').mkdir()
    for name, path in parts.programs.items():
        shutil.copy(path, tree / 'recon/programs' / name)
        (tree / 'recon/programs' / name).chmod(0o755)
    text = (TOP / 'tools/pyproject.toml').read_text()
    text = text.replace('[project.scripts]\n', '[project.scripts]\n' + SCRIPTS).replace('["viewer/*"]', '["viewer/*", "programs/*"]')
    (tree / 'pyproject.toml').write_text(text)
    (tree / 'setup.cfg').write_text(f'[bdist_wheel]\npython_tag = py3\nplat_name = manylinux_2_{parts.glibc}_{platform.machine()}\n')
    subprocess.run([sys.executable, '-m', 'pip', 'wheel', '-q', '--no-deps', '--no-build-isolation', '-w', str(work / 'wheels'), str(tree)], check=True)
    made = next((work / 'wheels').glob('*.whl'))
    shutil.move(str(made), str(out / made.name))
    return made.name


def main(words: list[str]) -> int:
    if len(words) not in (1, 3) or words[0].startswith('-'):
        print((__doc__ or '').strip())
        return 0 if words in (['-h'], ['--help']) else 2
    out, paths = pathlib.Path(words[0]), [pathlib.Path(word) for word in words[1:]] or [TOP / name for name in NAMES]
    missing = [str(path) for path in paths if not os.access(path, os.X_OK)]
    if missing:
        print(f'packages.py: error: not built: {", ".join(missing)}', file=sys.stderr)
        return 1
    parts = Parts.of(paths)
    kinds: list[tuple[str, bool, Callable[[Parts, pathlib.Path, pathlib.Path], str]]] = [
        ('no Debian package: dpkg-deb is not installed', shutil.which('dpkg-deb') is not None, deb),
        (f'no wheel: {sys.executable} has no setuptools, wheel or pip', all(map(importlib.util.find_spec, ('setuptools', 'wheel', 'pip'))), wheel)]
    for what, can, made in kinds:
        if not can:
            print(what)
            continue
        with tempfile.TemporaryDirectory() as work:
            print(made(parts, out, pathlib.Path(work)))
    return 0


if __name__ == '__main__':
    sys.exit(main(sys.argv[1:]))
