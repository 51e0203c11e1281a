"""The package as it is installed and packed, and the interpreter that runs it."""
from __future__ import annotations

import os
import re
import subprocess
import sys
import unittest
import zipfile

from helpers import DEV, PACKAGE, ROOT, TOOLS, InFolder, equal, write


def programs() -> list[str]:
    """Returns the programs that the package installs."""
    with open(os.path.join(TOOLS, 'pyproject.toml'), encoding='utf-8') as file:
        return re.findall(r'^recon-([a-z-]+) = "recon\.start:([a-z_]+)"', file.read(), re.MULTILINE)


def said(words: list[str], **more: str) -> tuple[int, str, str]:
    done = subprocess.run(words, capture_output=True, text=True, env={**os.environ, **more})
    return done.returncode, done.stdout, done.stderr


class Package(InFolder):
    def test_each_program_is_installed_and_runs_in_place(self) -> None:
        equal([name.replace('-', '_') for name, _ in programs()], [module for _, module in programs()])
        status, _, error = said([sys.executable, PACKAGE])
        equal((status, error), (2, f'usage: recon PROGRAM ARGUMENTS .., where PROGRAM is one of {", ".join(name for name, _ in programs())}\n'))
        for _, module in programs():
            equal(os.path.exists(os.path.join(PACKAGE, module + '.py')), True)

    def test_an_installed_copy_runs_from_anywhere(self) -> None:
        equal(said(['sh', os.path.join(DEV, 'install_package'), 'prefix']), (0, '', ''))
        finder = os.path.join('prefix', 'share', 'recon', 'python')
        with open(os.path.join(DEV, 'python'), encoding='utf-8') as file:
            write(finder, file.read())
        equal(sorted(os.listdir('prefix/bin')), sorted('recon-' + name for name, _ in programs()))
        equal(sorted(os.listdir('prefix/share/recon/recon/viewer')), sorted(os.listdir(os.path.join(PACKAGE, 'viewer'))))
        # modules of the folder that it is called in are not taken for its own
        write('random.py', 'raise SystemExit("wrong module")\n')
        os.symlink('prefix/bin/recon-make-scan', 'linked')
        got = said(['./linked', 'sphere', '20', '1', 'out.ply'])
        equal(got, (0, 'recon-make-scan: wrote 20 points and 8 scanners of a sphere to out.ply\n', ''))

    def test_packages_have_the_programs_inside(self) -> None:
        for name in ('recon', 'recon-mesh'):
            write(name, f'#!/bin/sh\necho this is {name} $1\n# GLIBC_2.31\n')
            os.chmod(name, 0o755)
        os.mkdir('out')
        status, made, error = said([sys.executable, os.path.join(DEV, 'packages.py'), 'out', 'recon', 'recon-mesh'])
        equal((status, error, len(made.splitlines())), (0, '', 2))
        for line in made.splitlines():
            path = os.path.join('out', line)
            if line.endswith('.deb'):
                equal(said(['dpkg-deb', '-x', path, 'deb'])[0], 0)
                equal(said(['deb/usr/bin/recon', 'x']), (0, 'this is recon x\n', ''))
                equal([os.path.exists('deb/usr/' + name) for name in ('bin/recon-surface', 'share/man/man1/recon.1', 'share/recon/recon/viewer')], [True] * 3)
                equal('libc6 (>= 2.31)' in said(['dpkg-deb', '-f', path, 'Depends'])[1], True)
            elif line.endswith('.whl'):
                equal('-py3-none-manylinux_2_31_' in line, True)
                with zipfile.ZipFile(path) as packed:
                    packed.extractall('wheel')
                    modes = [packed.getinfo(f'recon/programs/{name}').external_attr >> 16 & 0o111 for name in ('recon', 'recon-mesh')]
                equal(modes, [0o111] * 2)
                os.chmod('wheel/recon/programs/recon', 0o755)
                got = said([sys.executable, '-c', 'import recon.start; recon.start.recon()', 'x'], PYTHONPATH='wheel')
                equal(got, (0, 'this is recon x\n', ''))
            else:
                equal(line[:3], 'no ')

    def test_modules_run_by_name(self) -> None:
        got = said([sys.executable, '-m', 'recon.make_scan', 'cube', '9', '1', 'out.ply'], PYTHONPATH=TOOLS)
        equal(got, (0, 'recon-make-scan: wrote 9 points and 8 scanners of a cube to out.ply\n', ''))

    def test_an_interpreter_with_numpy_and_scipy_is_found(self) -> None:
        finder = os.path.join(DEV, 'python')
        status, found, error = said(['sh', finder])
        equal((status, error, said([found.strip(), '-c', 'import numpy, scipy'])[0]), (0, '', 0))
        # one that has none of them is passed over
        os.mkdir('bin')
        write('bin/python3', '#!/bin/sh\nexit 1\n')
        os.chmod('bin/python3', 0o755)
        status, found, _ = said(['sh', finder], PATH=os.path.abspath('bin') + ':/bin:/usr/bin')
        equal(status == 1 or found == '/usr/bin/python3\n', True)

    def test_the_gate_and_make_look_for_it(self) -> None:
        for path, line in (('.ci/run', 'dev/python install'), ('Makefile', 'run: python programs'), ('Makefile', 'test: python\n')):
            with open(os.path.join(ROOT, path), encoding='utf-8') as file:
                equal((path, line in file.read()), (path, True))


if __name__ == '__main__':
    unittest.main()
