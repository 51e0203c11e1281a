"""Runs that are stopped: by Ctrl-C, SIGTERM or a closed terminal, in every phase, with or without the programs that they have started. They end with
one line, leave all files as they were, and leave nothing that runs on."""
from __future__ import annotations

import os
import signal
import subprocess
import sys
import time
import unittest
from pathlib import Path
from typing import Any

from helpers import RECON, RECON_MESH, InFolder, call, command, equal, write

STATUS = {signal.SIGINT: (130, 'interrupted'), signal.SIGTERM: (143, 'terminated'), signal.SIGHUP: (129, 'terminated')}
STARTED = ('Traceback', 'KeyboardInterrupt', 'Exception ignored')


def working_here() -> list[int]:
    """The processes whose folder is this one, but this process."""
    found = []
    for name in filter(str.isdecimal, os.listdir('/proc')):
        try:
            if os.readlink(f'/proc/{name}/cwd') == os.getcwd() and int(name) != os.getpid():
                found.append(int(name))
        except OSError:
            pass
    return found


def ended(seconds: float = 3.0) -> list[int]:
    """The processes of this folder that have not ended after some seconds."""
    until = time.monotonic() + seconds
    while working_here() and time.monotonic() < until:
        time.sleep(0.02)
    return working_here()


def started(*words: str, **how: Any) -> subprocess.Popen[str]:
    return subprocess.Popen(words, stdout=subprocess.PIPE, stderr=subprocess.PIPE, text=True, start_new_session=True, **how)


def sent(run: subprocess.Popen[str], number: int, is_alone: bool) -> None:
    """Sends a signal to a run, alone or with all that it has started."""
    run.send_signal(number) if is_alone else os.killpg(run.pid, number)


class Stopping(InFolder):
    def stays(self, run: subprocess.Popen[str], name: str, number: int, before: list[str], case: Any) -> None:
        """The run has ended by the signal with one line, and left nothing."""
        said, errors = run.communicate(timeout=60)
        status, meaning = STATUS[signal.Signals(number)]
        lines = errors.splitlines()
        equal((case, run.returncode, said, lines[-1:], [word for word in STARTED if word in errors]), (case, status, '', [f'{name}: {meaning}'], []))
        equal((case, sorted(os.listdir()), ended()), (case, before, []))


class Stopped(Stopping):
    def test_while_modules_are_loaded(self) -> None:
        write('a.xyz', '0 0 0\n1 0 0\n0 1 0\n0 0 1\n')
        for number in (signal.SIGINT, signal.SIGTERM, signal.SIGHUP):
            for name in ('surface', 'scan'):
                # a module that takes a while, in the place of one that the program loads
                Path('slow').mkdir(exist_ok=True)
                write('slow/numpy.py', 'import sys, time\nprint("loading", file=sys.stderr, flush=True)\ntime.sleep(30)\n')
                write('slow/scipy.py', '')
                run = started(*command(name), 'a.xyz=1,1,1', '-o', 'out.ply', env={**os.environ, 'PYTHONPATH': os.path.abspath('slow')})
                assert run.stderr is not None
                equal(run.stderr.readline(), 'loading\n')
                sent(run, number, True)
                self.stays(run, 'recon-' + name, number, ['a.xyz', 'slow'], (number, name))

    def test_a_program_that_reads_or_writes(self) -> None:
        write('out.ply', 'before')
        os.mkfifo('pipe')
        for number in (signal.SIGINT, signal.SIGTERM):
            run = started(*command('scan'), 'pipe=1,1,1', 'out.ply')
            with open('pipe', 'w', encoding='ascii') as pipe:
                pipe.write('0 0 0\n' * 10)
                pipe.flush()
                time.sleep(0.3)
                sent(run, number, True)
                self.stays(run, 'recon-scan', number, ['out.ply', 'pipe'], number)
            equal(Path('out.ply').read_text(), 'before')

    def test_signals_that_are_ignored_are_ignored_still(self) -> None:
        write('a.xyz', '0 0 0\n1 0 0\n0 1 0\n0 0 1\n')
        run = started('sh', '-c', 'trap "" HUP INT; exec "$@"', 'sh', *command('scan'), 'a.xyz=1,1,1', 'out.ply')
        for _ in range(50):
            time.sleep(0.01)
            if run.poll() is None:
                run.send_signal(signal.SIGHUP)
                run.send_signal(signal.SIGINT)
        said, errors = run.communicate(timeout=60)
        equal((run.returncode, errors, os.path.exists('out.ply')), (0, '', True))


@unittest.skipUnless(RECON and RECON_MESH, 'recon or recon-mesh is not built here')
class StoppedSurfaces(Stopping):
    def run_until(self, phase: str) -> subprocess.Popen[str]:
        """A run of recon-surface that has just reported this phase."""
        run = started(*command('surface'), 't.ply', '-o', 'm.ply', '--steps', '20', env={**os.environ, 'RECON': RECON, 'RECON_MESH': RECON_MESH})
        assert run.stderr is not None
        for line in run.stderr:
            if phase in line:
                return run
        raise AssertionError(f'no line with {phase}')

    def test_each_phase(self) -> None:
        call('make_scan', 'torus', '20000', '1', 't.ply')
        write('m.ply', 'before')
        os.mkdir('m.recon')
        write('m.recon/scan.ply', 'before')
        phases = (('s  read', 0.0), ('building', 0.2), ('finishing', 0.2))
        for case in ((number, phase, number == signal.SIGTERM or phase[0] == 'building') for number in (signal.SIGINT, signal.SIGTERM) for phase in phases):
            number, (phase, wait), is_alone = case
            run = self.run_until(phase)
            time.sleep(wait)
            sent(run, number, is_alone)
            self.stays(run, 'recon-surface', number, ['m.ply', 'm.recon', 't.ply'], case)
        equal((Path('m.ply').read_text(), Path('m.recon/scan.ply').read_text(), os.listdir('m.recon')), ('before', 'before', ['scan.ply']))

    @unittest.skipUnless(sys.platform == 'linux' and os.path.exists('/usr/bin/setpriv'), 'setpriv is not installed')
    def test_programs_end_with_their_parent(self) -> None:
        call('make_scan', 'torus', '20000', '1', 't.ply')
        run = self.run_until('building')
        time.sleep(0.2)
        equal(len(working_here()) > 1, True)
        run.kill()
        run.communicate(timeout=60)
        equal(ended(), [])


if __name__ == '__main__':
    unittest.main()
