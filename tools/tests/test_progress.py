"""Signs of life: what is said of a run on a terminal and into a file, and how far reading and building are."""
from __future__ import annotations

import io
import os
import pty
import subprocess
import sys
import time
import unittest
from typing import Any
from unittest import mock

from helpers import RECON, InFolder, call, command, equal, write
from recon.toolbox import progress
from recon.toolbox.progress import Step, build_part, lasting, read_part, signs_of_life, step
from recon.toolbox.stopping import run_watched


class Terminal(io.StringIO):
    def __init__(self, is_one: bool) -> None:
        super().__init__()
        self.is_one = is_one

    def isatty(self) -> bool:
        return self.is_one


def shown(is_terminal: bool, *steps: Any, **how: Any) -> str:
    """What is printed of steps that take half a second each, if lines come after a moment."""
    with mock.patch.multiple(progress, FIRST=0.1, EACH=0.1, FIRST_LINE=0.2), mock.patch.object(sys, 'stderr', Terminal(is_terminal)) as out:
        with signs_of_life('recon-x', **how):
            for what, part, seconds in steps:
                with step(what, part, seconds):
                    time.sleep(0.5)
    return out.getvalue()


class Lines(unittest.TestCase):
    def test_what_a_line_says(self) -> None:
        for part, seconds, spent, pace, said in ((None, None, 7.2, 1, 'x: 7 s so far'), (lambda: 0.25, None, 30, 1, 'x: 25%, about 90 s left'),
                (None, 40.0, 10, 1, 'x: 25%, about 30 s left'), (None, 40.0, 10, 3, 'x: 8%, about 2 min left'), (None, 10.0, 19, 1, 'x: 87%, about 3 s left'),
                (None, 10.0, 30, 1, 'x: 30 s so far'), (lambda: None, 40.0, 10, 1, 'x: 25%, about 30 s left'), (lambda: 0.0, 9.0, 20, 1, 'x: 20 s so far'), (lambda: 1.0, None, 20, 1, 'x: 20 s so far')):
            mine = Step('x', part, seconds)
            mine.begun -= spent
            equal(mine.text(pace), said)
        equal([lasting(99.4), lasting(600), lasting(36000)], ['99 s', '10 min', '10.0 h'])

    def test_a_terminal_has_one_line_that_is_taken_away(self) -> None:
        text = shown(True, ('reading', lambda: 0.5, None), ('building', None, 60.0))
        equal(('\r\x1b[Krecon-x: reading: 50%, about 0 s left' in text, 'recon-x: building: ' in text), (True, True))
        equal((text.endswith('\r\x1b[K'), '\n' in text), (True, False))

    def test_a_file_has_lines_where_they_are_wanted(self) -> None:
        lines: list[str] = []
        equal(shown(False, ('reading', None, 10.0), say=lines.append), '')
        equal((0 < len(lines) < 4, lines[0].startswith('reading: ')), (True, True))
        for is_terminal, how in ((False, {}), (True, {'is_quiet': True}), (False, {'is_quiet': True, 'say': lines.append})):
            equal((shown(is_terminal, ('reading', None, 10.0), **how), len(lines) < 4), ('', True))

    def test_short_runs_print_nothing(self) -> None:
        with mock.patch.object(sys, 'stderr', Terminal(True)) as out, signs_of_life('recon-x'), step('reading'):
            time.sleep(0.3)
        equal(out.getvalue(), '')


class Parts(InFolder):
    def test_how_much_has_been_read(self) -> None:
        write('a', b'x' * 1000)
        write('b', b'x' * 3000)
        os.symlink('b', 'c')
        part = read_part(['a', 'c', 'missing'])
        equal(part(), None)
        with open('a', 'rb', buffering=0) as file:
            file.read(500)
            equal(part(), 500 / 4000)
        with open('c', 'rb', buffering=0) as file:
            file.read(1000)
            equal(part(), 2000 / 4000)
            file.read()
            equal(part(), 0.999)

    def test_how_far_a_build_is(self) -> None:
        take, part = build_part()
        equal(part(), None)
        for text, done in (('cells 0 of 8,000 · 0 s', 0.05), ('\r\x1b[Kcells 4,000 of 8,000 · 1 s', 0.275), ('sights 4,000 of 8,000', 0.625), ('flow 57,344', 0.85)):
            take(text)
            equal(round(part() or 0, 3), done)

    @unittest.skipUnless(RECON, 'recon is not built here')
    def test_a_build_that_is_watched(self) -> None:
        call('make_scan', 'torus', '3000', '1', 't.ply')
        texts: list[str] = []
        done = run_watched([RECON, 'build', 't.ply', 'm.ply', 'c.cert'], texts.append)
        equal((done.returncode, done.stdout[:12], 'cells' in ''.join(texts)), (0, 'points 3000 ', True))
        done = run_watched([RECON, 'build', 'missing.ply', 'm.ply', 'c.cert'], texts.append)
        equal((done.returncode, done.stderr.startswith('recon: ')), (4, True))

    @unittest.skipUnless(RECON, 'recon is not built here')
    def test_a_system_without_terminals(self) -> None:
        call('make_scan', 'torus', '3000', '1', 't.ply')
        with mock.patch.object(os, 'openpty', side_effect=OSError(19, 'No such device')):
            equal(run_watched([RECON, 'build', 't.ply', 'm.ply', 'c.cert'], print).returncode, 0)
            equal(run_watched([RECON, 'build', 'missing.ply', 'm.ply', 'c.cert'], print).stderr[:7], 'recon: ')

    def test_a_program_on_a_terminal(self) -> None:
        write('a.xyz', '0 0 0\n1 0 0\n0 1 0\n0 0 1\n')
        ours, its = pty.openpty()
        done = subprocess.run([*command('scan'), 'a.xyz=1,1,1', 'out.ply'], stdout=subprocess.PIPE, stderr=its)
        os.close(its)
        os.close(ours)
        equal((done.returncode, b'wrote 4 points' in done.stdout), (0, True))


if __name__ == '__main__':
    unittest.main()
