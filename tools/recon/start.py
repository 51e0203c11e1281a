"""Starts the programs of the package. A signal ends a program that still loads its modules with a line, and no traceback: nothing has been written.

Names: PROGRAMS · started (runs a program) · SIGNALS · ends_at_once · ignore_all · meaning (a signal in a word) · one function for each program, which
pip's launchers call.
"""
from __future__ import annotations

import importlib
import os
import signal
import sys

PROGRAMS = ('contours', 'finish', 'grid', 'make-scan', 'mesh-to-floats', 'scan', 'surface', 'tiles')
SIGNALS = (signal.SIGINT, signal.SIGTERM, signal.SIGHUP)


def meaning(number: int) -> str:
    """Says in a word what a signal did."""
    return 'interrupted' if number == signal.SIGINT else 'terminated'


def ends_at_once(name: str) -> None:
    """Makes signals end the process with a line. Those that are ignored, as by `nohup`, are ignored still."""
    def leave(number: int, frame: object) -> None:
        os.write(2, f'{name}: {meaning(number)}\n'.encode('ascii'))
        os._exit(128 + number)

    for number in SIGNALS:
        if signal.getsignal(number) is not signal.SIG_IGN:
            signal.signal(number, leave)


def ignore_all() -> None:
    """Ignores signals from now on: what is left to do takes a moment."""
    for number in SIGNALS:
        signal.signal(number, signal.SIG_IGN)


def started(name: str) -> None:
    """Loads a program, and runs it with the arguments of the process."""
    ends_at_once('recon-' + name)
    try:
        importlib.import_module('recon.' + name.replace('-', '_')).main()
    finally:
        ignore_all()


def native(name: str) -> None:
    """Becomes a program that is packed in the package, as in a wheel."""
    path = os.path.join(os.path.dirname(os.path.abspath(__file__)), 'programs', name)
    os.execv(path, [name, *sys.argv[1:]])


def recon() -> None:
    native('recon')


def recon_mesh() -> None:
    native('recon-mesh')


def contours() -> None:
    started('contours')


def finish() -> None:
    started('finish')


def grid() -> None:
    started('grid')


def make_scan() -> None:
    started('make-scan')


def mesh_to_floats() -> None:
    started('mesh-to-floats')


def scan() -> None:
    started('scan')


def surface() -> None:
    started('surface')


def tiles() -> None:
    started('tiles')
