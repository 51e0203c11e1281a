#!/usr/bin/env python3
"""Installs the packages that `make dist` made in a system that has nothing else, and runs their programs there.

  dev/test_packages.py FOLDER [ROOT]

  FOLDER   the folder with the Debian package and the wheel
  ROOT     an empty or missing folder for the system, which is kept, and used again by the next run (default: a temporary one)

Needs root, debootstrap and a mirror of Debian. In the system are the base of Debian, and what apt installs because the package depends on it; the wheel is
installed in an environment of Python that takes numpy and scipy from Debian. The last line counts the commands that ran.
"""
from __future__ import annotations

import os
import pathlib
import shutil
import subprocess
import sys
import tempfile

TOP = pathlib.Path(__file__).resolve().parent.parent
SUITE, MIRROR = 'bookworm', 'http://deb.debian.org/debian'
# Each is run in a folder with examples/; its output has to have the second text.
RUNS = (('recon build examples/tetrahedron.ply mesh.ply scan.cert', 'points 4 '),
        ('recon check examples/tetrahedron.ply mesh.ply scan.cert', 'yes '),
        ('recon-mesh finish mesh.ply finished.ply', 'finished points 4 '),
        ('recon-surface examples/figurine.ply -o cat.glb', 'check: yes'),
        ('sh cat.recon/again.sh', 'scan.cert: OK'),
        ('recon-scan examples/figurine.ply=0,0,9 out.ply', 'wrote 8000 points'),
        ('recon-make-scan torus 500 1 torus.ply', 'wrote 500 points'),
        ('recon-finish mesh.ply view.stl', 'wrote 4 vertices'),
        ('test ! -e /usr/bin/cargo && test ! -e /usr/bin/rt && echo no toolchain', 'no toolchain'))
OF_PACKAGE = (('ls /usr/share/man/man1/recon.1* /usr/share/doc/recon/README.md', 'README.md'), ('apt-get remove -y recon', 'Removing recon'),
              ('test ! -e /usr/share/recon && ! command -v recon && echo gone', 'gone'))
OF_WHEEL = (('python -c "import recon; print(recon.program_path())"', 'recon/programs/recon'),)


def ran(root: pathlib.Path, command: str, part: str = '', path: str = '') -> bool:
    """Runs a command of the shell in the system, in its folder /work, and returns whether it ended with 0 and printed a text."""
    env = {'PATH': f'{path}/usr/sbin:/usr/bin:/sbin:/bin', 'LC_ALL': 'C.UTF-8', 'HOME': '/root', 'DEBIAN_FRONTEND': 'noninteractive'}
    done = subprocess.run(['chroot', str(root), 'sh', '-c', f'cd /work && {command}'], env=env, stdin=subprocess.DEVNULL, stdout=subprocess.PIPE,
                          stderr=subprocess.STDOUT, text=True)
    is_right = done.returncode == 0 and part in done.stdout
    if not is_right:
        print(f'failed: {command}\n{done.stdout[-2000:]}', file=sys.stderr)
    return is_right


def filled(root: pathlib.Path) -> None:
    """Makes the system, where it is not there."""
    if not (root / 'usr/bin/dpkg').exists():
        subprocess.run(['debootstrap', '--variant=minbase', SUITE, str(root), MIRROR], check=True, stdout=subprocess.DEVNULL)
    shutil.rmtree(root / 'work', ignore_errors=True)
    shutil.copytree(TOP / 'examples', root / 'work/examples')
    shutil.copy('/etc/resolv.conf', root / 'etc/resolv.conf')


def tested(root: pathlib.Path, packages: list[pathlib.Path]) -> list[bool]:
    """Installs the packages one after another, runs the programs of each, and returns which commands were right."""
    deb, wheel = packages
    for package in packages:
        shutil.copy(package, root / 'work')
    results = [ran(root, f'apt-get update -q && apt-get install -y -q --no-install-recommends ./{deb.name}', 'Setting up recon')]
    results += [ran(root, *run) for run in (*RUNS, *OF_PACKAGE)]
    shutil.rmtree(root / 'work')
    filled(root)
    shutil.copy(wheel, root / 'work')
    results.append(ran(root, 'apt-get install -y -q --no-install-recommends python3-venv python3-numpy python3-scipy && python3 -m venv '
                             f'--system-site-packages env && env/bin/pip install -q --no-index ./{wheel.name}'))
    return results + [ran(root, *run, path='/work/env/bin:') for run in (*RUNS, *OF_WHEEL)]


def main(words: list[str]) -> int:
    if len(words) not in (1, 2) or words[0].startswith('-'):
        print((__doc__ or '').strip())
        return 2
    packages = [next(iter(sorted(pathlib.Path(words[0]).glob(pattern))), None) for pattern in ('recon_*.deb', 'recon-*.whl')]
    found = [package for package in packages if package is not None]
    if len(found) < 2 or os.getuid() or not shutil.which('debootstrap'):
        print('test_packages.py: error: needs a Debian package and a wheel (make dist), root, and debootstrap', file=sys.stderr)
        return 1
    with tempfile.TemporaryDirectory() as kept:
        root = pathlib.Path(words[1] if len(words) == 2 else os.path.join(kept, 'root'))
        filled(root)
        results = tested(root, found)
    print(f'test_packages: {sum(results)} of {len(results)} commands ended as they should')
    return 0 if all(results) else 1


if __name__ == '__main__':
    sys.exit(main(sys.argv[1:]))
