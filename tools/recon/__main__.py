"""Runs a program of the package where it stands: `python3 tools/recon scan ..` is `recon-scan ..`, from any folder."""
from __future__ import annotations

import os
import signal
import sys

# a moment later the programs say how they ended; until then Ctrl-C prints no traceback
if signal.getsignal(signal.SIGINT) is signal.default_int_handler:
    signal.signal(signal.SIGINT, signal.SIG_DFL)
HERE = os.path.dirname(os.path.abspath(__file__))


def use_fitting_python() -> None:
    """Goes on in an interpreter that has numpy and scipy, where this one does not."""
    import importlib.util
    import subprocess
    if importlib.util.find_spec('numpy') and importlib.util.find_spec('scipy'):
        return
    finder = next(filter(os.path.exists, (os.path.join(HERE, place) for place in ('../../dev/python', '../python'))), None)
    if finder is None:
        sys.exit('recon: error: numpy or scipy is not installed (Debian: python3-numpy, python3-scipy)')
    found = subprocess.run(['sh', finder], stdout=subprocess.PIPE, text=True).stdout.strip()
    if not found:
        sys.exit(1)
    os.execv(found, [found, HERE, *sys.argv[1:]])


def main() -> None:
    if not __package__:
        sys.path[0] = os.path.dirname(HERE)
    from recon.start import PROGRAMS, ends_at_once, started
    name = sys.argv[1].replace('_', '-') if len(sys.argv) > 1 else ''
    ends_at_once('recon-' + name)
    if name == '--version':
        from recon import __version__
        print('recon', __version__)
        return
    if name not in PROGRAMS:
        print(f'usage: recon PROGRAM ARGUMENTS .., where PROGRAM is one of {", ".join(PROGRAMS)}', file=sys.stderr)
        sys.exit(2)
    use_fitting_python()
    sys.argv[:2] = ['recon-' + name]
    started(name)


if __name__ == '__main__':
    main()
