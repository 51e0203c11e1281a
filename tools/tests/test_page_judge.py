"""`recon` beside dev/page_judge, a checker that was written from the documents alone; and scans in the printed form, for which its page speaks."""
from __future__ import annotations

import os
import random
import subprocess
import unittest

from helpers import RECON, ROOT, InFolder, call, equal, refuses, says, write
from page_judge.cases import CHANGES, scan_of, weights_of
from page_judge.certificates import line_of
from page_judge.scene import solved
from page_judge.texts import Scan, Seen, parsed, scan_text

CASES, CHANGED = 200, 5
FIGURINE, WEIGHED = (os.path.join(ROOT, 'examples', name) for name in ('figurine.ply', 'weighed.ply'))


def recon(*words: str) -> tuple[str, int]:
    """Returns the line of a run, and its status."""
    done = subprocess.run([RECON, *words], capture_output=True, text=True)
    return done.stdout.rstrip('\n'), done.returncode


def content(name: str) -> bytes:
    with open(name, 'rb') as file:
        return file.read()


class PrintedForm(InFolder):
    def test_a_scan_is_printed_in_the_plain_form(self) -> None:
        says('scan', f'read 8000 points of {FIGURINE}; left out nothing; wrote 8000 points and 8 scanners to out.ply',
             FIGURINE, 'out.ply', 'printed=10000')
        text = content('out.ply')
        equal((len(parsed(text).points), b'property int scanner\n' in text), (8000, True))

    def test_a_scan_with_weights_is_printed_in_the_wide_form(self) -> None:
        says('scan', f'read 5 points of {WEIGHED}; left out nothing; wrote 5 points and 4 scanners to out.ply', WEIGHED, 'out.ply', 'printed=1')
        equal(parsed(content('out.ply')).seen, [(0, 0, 2), (1, 1, 1), (1, 1, 1), (2, 2, 1), (3, 3, 1)])

    def test_coordinates_out_of_range_are_refused(self) -> None:
        write('far.ply', scan_text(Scan([(2098, 0, 0)], [(0, 0, 0)], [Seen(0, 0, 1)])))
        refuses('scan', 'a coordinate is over 2,097,151 in absolute value', 'far.ply', 'out.ply', 'printed=1000')
        equal(call('scan', FIGURINE, 'out.ply', 'printed=1000', 'unit=1000')[0], 2)


@unittest.skipUnless(RECON, 'recon is not built')
class PageJudge(InFolder):
    def test_the_quick_start_is_checked_in_the_printed_form(self) -> None:
        says('scan', f'read 8000 points of {FIGURINE}; left out nothing; wrote 8000 points and 8 scanners to out.ply',
             FIGURINE, 'out.ply', 'printed=10000')
        recon('build', FIGURINE, 'mesh.ply', 'cert', 'unit=10000', 'smooth=3')
        line, _ = recon('check', FIGURINE, 'mesh.ply', 'cert', 'unit=10000', 'smooth=3')
        cert = content('cert').split(b'\n')
        write('cert', b'\n'.join([b'recon certificate 1', *cert[4:]]))
        equal(recon('check', 'out.ply', 'mesh.ply', 'cert', 'smooth=3'), (line, 0))
        equal(line.startswith('yes inside '), True)

    def test_small_scans_are_judged_alike(self) -> None:
        for case in range(CASES):
            self.judge(random.Random(case))

    def judge(self, draw: random.Random) -> None:
        """Builds and checks a scan, then checks changed meshes and certificates."""
        scan, (vote, smooth) = scan_of(draw), weights_of(draw)
        text, words = scan_text(scan), [f'vote={vote}', f'smooth={smooth}']
        best = solved(scan, vote, smooth)
        write('scan.ply', text)
        recon('build', 'scan.ply', 'mesh.ply', 'cert', *words)
        mesh, cert = content('mesh.ply'), content('cert')
        equal((scan, mesh), (scan, best.mesh()))
        for number in range(CHANGED + 1):
            new_mesh, new_cert = mesh, cert
            if number > 1:
                new_cert = draw.choice(CHANGES)(draw, cert)
            elif number == 1:
                new_mesh = draw.choice(CHANGES)(draw, mesh)
            write('mesh.ply', new_mesh)
            write('cert', new_cert)
            wanted = line_of(text, scan, new_mesh, new_cert, best, (vote, smooth))
            got = recon('check', 'scan.ply', 'mesh.ply', 'cert', *words)
            equal((scan, words, new_mesh, new_cert, got), (scan, words, new_mesh, new_cert, wanted))
