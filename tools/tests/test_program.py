"""The built program as the system runs it: statuses, lines and files, and memory by what is there. Files that are cut or spoiled are tried by
dev/fuzz. They run where `recon` is built (see run.py)."""
from __future__ import annotations

import hashlib
import os
import pty
import re
import resource
import shutil
import signal
import struct
import subprocess
import time
import unittest
from typing import Any

from helpers import RECON, ROOT, InFolder, equal, head, says, write
from test_library import SCANNERS, nearest, sphere

EXAMPLES = os.path.join(ROOT, 'examples')
LIMIT = 64 * 2 ** 20
STEP = 64 * 2 ** 10


def scan_of_ball(points: Any, seen_by: Any) -> Any:
    """A scan of points that six scanners around them see."""
    rows = [f'{x:.6f} {y:.6f} {z:.6f} {k}\n' for (x, y, z), k in zip(points.tolist(), seen_by.tolist())]
    return head(len(rows), 'float x, float y, float z, int scanner', len(SCANNERS)) + ''.join(rows) + ''.join(
        ' '.join(map(str, place)) + '\n' for place in (SCANNERS * 1000).astype(int).tolist())


def example(name: Any) -> Any:
    with open(os.path.join(EXAMPLES, name), 'rb') as file:
        return file.read()


def data(name: Any) -> Any:
    with open(name, 'rb') as file:
        return file.read()


def recon(*words: Any, limit: Any = None) -> Any:
    """Status and line of a run, which ends by itself, with a limit on its memory in bytes."""
    def limited() -> None:
        resource.setrlimit(resource.RLIMIT_DATA, (limit, limit))
    done = subprocess.run([RECON, *words], capture_output=True, timeout=10, preexec_fn=limited if limit else None)
    return done.returncode, done.stdout.decode('ascii')


def least_memory(*words: Any) -> Any:
    """Returns the least memory, in steps of 64 KiB, with which a run ends as it does with all of it."""
    wanted, low, high = recon(*words), 0, LIMIT // STEP
    equal(recon(*words, limit=LIMIT), wanted)
    while high - low > 1:
        middle = (low + high) // 2
        if recon(*words, limit=middle * STEP) == wanted:
            high = middle
        else:
            low = middle
    return high


def ends(words: Any, status: Any, line: Any, kept: Any = ()) -> None:
    """The program ends so, and these files are as they were."""
    before = [data(name) for name in kept]
    equal(recon(*words), (status, line))
    equal([data(name) for name in kept], before)


def told(*words: Any, **more: Any) -> Any:
    """Returns the status, the line and the hint."""
    done = subprocess.run([RECON, *words], capture_output=True, timeout=10, **more)
    return done.returncode, done.stdout.decode('ascii'), done.stderr.decode('utf-8')


def at_terminal(*words: Any, term: str = 'xterm', **more: Any) -> Any:
    """Status, standard output, and what a terminal gets as standard error."""
    ours, theirs = pty.openpty()
    done = subprocess.Popen([RECON, *words], stdout=subprocess.PIPE, stderr=theirs, env={**os.environ, 'TERM': term}, **more)
    os.close(theirs)
    parts = []
    while True:
        try:
            part = os.read(ours, 65536)
        except OSError:  # the program has ended
            break
        if not part:
            break
        parts.append(part)
    os.close(ours)
    said = done.communicate(timeout=10)[0]
    return done.returncode, said.decode('ascii'), b''.join(parts).decode('utf-8')


CLEAR = '\r\x1b[K'

USES = """usage: recon build IN MESH CERT [unit=U] [vote=V] [smooth=L] [scanner=X,Y,Z]
usage: recon check IN MESH CERT [unit=U] [vote=V] [smooth=L] [scanner=X,Y,Z]
usage: recon upgrade IN MESH CERT OUT [unit=U] [vote=V] [smooth=L] [scanner=X,Y,Z]
usage: recon ask IN POINTS OUT [unit=U] [vote=V] [smooth=L] [scanner=X,Y,Z]
usage: recon sweep IN FROM STEP N OUT1 .. OUTN [unit=U] [vote=V] [scanner=X,Y,Z]
usage: recon slice MESH H OUT
usage: recon export MESH PLY OFF OBJ
usage: recon cells IN OUT [unit=U] [scanner=X,Y,Z]
usage: recon demo N SEED
"""


POINTS = b'0 0 0\n100 100 100\t-3.4e1 -33 -33.4\r\n1000 0 +0.'


def header(kind: Any, elements: Any) -> Any:
    """Returns a header of a format with elements and their properties."""
    lines = ['ply', f'format {kind} 1.0']
    for name, count, properties in elements:
        lines += [f'element {name} {count}'] + ['property ' + each for each in properties]
    return ('\n'.join(lines + ['end_header', ''])).encode('ascii')


POINT = ['int x', 'int y', 'int z']
WITH_LIST = [('vertex', 2, ['list uchar short colours'] + POINT + ['uchar scanner']), ('scanner', 1, POINT)]


COORDINATES = [(-100, 5, 7), (100, 5, 7), (-3, 100, -128), (0, -90, 127), (11, 12, 13)]
WHOLE = {'char': 'b', 'uchar': 'B', 'short': 'h', 'ushort': 'H', 'int': 'i', 'uint': 'I'}


def scan_of_type(order: Any, kind: Any, scanners: Any) -> Any:
    """Returns a binary scan of five points and many scanners, with six properties a row and two elements more, all coordinates of one
    type; negative ones become positive where the type has none."""
    sign = abs if kind.startswith('u') else int
    axes = [f'{kind} {axis}' for axis in 'xyz']
    elements = [('camera', 1, ['double view']), ('vertex', 5, ['float red', 'uchar blue'] + axes + ['ushort scanner']),
                ('face', 0, ['list uchar int vertex_indices']), ('scanner', scanners, axes + ['float heat'])]
    number = order + 3 * WHOLE[kind]
    rows = b''.join(struct.pack(order + 'fB', 0.5, 9) + struct.pack(number, *map(sign, point)) + struct.pack(order + 'H', k * 2 % scanners)
                    for k, point in enumerate(COORDINATES))
    places = b''.join(struct.pack(number, 90, 3 * k, 120) + struct.pack(order + 'f', 1) for k in range(scanners))
    name = {'<': 'binary_little_endian', '>': 'binary_big_endian'}[order]
    return header(name, elements) + struct.pack(order + 'd', 1) + rows + places


def text_of_type(kind: Any, scanners: Any, unit: Any) -> Any:
    """Returns the same scan as text, in scaled units."""
    sign = abs if kind.startswith('u') else int
    rows = ''.join('%d %d %d %d\n' % (*(unit * sign(c) for c in point), k * 2 % scanners) for k, point in enumerate(COORDINATES))
    places = ''.join('%d %d %d\n' % (unit * 90, unit * 3 * k, unit * 120) for k in range(scanners))
    return header('ascii', [('vertex', 5, POINT + ['int scanner']), ('scanner', scanners, POINT)]) + (rows + places).encode('ascii')


# Points with their weights and the scanners that saw them, and the places of these, as in examples/weighed.ply.
WEIGHED = [((100, 100, 100), 2, [0]), ((100, -100, -100), 1, [1, 1]), ((-100, 100, -100), 1, [2]), ((-100, -100, 100), 1, [3]), ((0, 0, 0), 1, [])]
AROUND = [(1000, 1000, 1000), (1000, -1000, -1000), (-1000, 1000, -1000), (-1000, -1000, 1000)]


def weighed(order: Any) -> Any:
    """That scan in a binary file, the scanners first and the lists before the points."""
    kind = 'binary_little_endian' if order == '<' else 'binary_big_endian'
    head = header(kind, [('scanner', 4, POINT), ('vertex', 5, ['list ushort uchar scanner', 'short weight'] + POINT)])
    places = b''.join(struct.pack(order + '3i', *place) for place in AROUND)
    rows = (struct.pack(f'{order}H{len(by)}Bh3i', len(by), *by, weight, *point) for point, weight, by in WEIGHED)
    return head + places + b''.join(rows)


def stated(file: Any, small: Any, large: Any, words: Any, line: Any) -> None:
    """A file that states more than it has is refused by this line, with no more memory than where it states a little more."""
    least = []
    for count in (small, large):
        write('stated', file(count))
        least.append(least_memory(*words))
    equal(recon(*words)[1], line)
    if least[1] > least[0] + 1:
        raise AssertionError(f'{words} took {least} steps where the file states {small} and {large}')


def scan_of_counts(others: Any = 0, points: Any = 1, scanners: Any = 1) -> Any:
    """Returns the head of a scan that states these counts, and its first row."""
    return header('ascii', [('other', others, ['int a']), ('vertex', points, POINT + ['int scanner']), ('scanner', scanners, POINT)]) + b'1 2 3 0\n'


def with_items(elements: Any, count: Any) -> Any:
    """Returns the head of a binary scan of these elements, and a number of items that are not there."""
    return header('binary_little_endian', elements) + struct.pack('<I', count)


@unittest.skipUnless(RECON, 'recon is not built here')
class Program(InFolder):
    def test_each_status(self) -> None:
        write('scan.ply', example('tetrahedron.ply'))
        ends(['build', 'scan.ply', 'mesh.ply', 'cert', 'vote=8'], 0, 'points 4 scanners 4 sights 4 inside 1 faces 4 cost 4\n')
        ends(['check', 'scan.ply', 'mesh.ply', 'cert'], 0, 'yes inside 1 faces 4 cost 4\n', ['mesh.ply', 'cert'])
        kept = ['scan.ply', 'mesh.ply', 'cert']
        write('spoiled', data('cert').replace(b'cost 4', b'cost 5'))
        ends(['check', 'scan.ply', 'mesh.ply', 'spoiled'], 1, 'no 14 wrong_cost stated 5 cost 4\n', kept + ['spoiled'])
        for words in ([], ['build'], ['build', 'scan.ply', 'mesh.ply'], ['make', 'scan.ply'], ['build', 'vote=8', 'scan.ply', 'mesh.ply', 'cert'],
                      ['build', 'scan.ply', 'scan.ply', 'cert'], ['demo', '0', '1'], ['build', 'scan.ply', 'mesh.ply', 'cert', 'vote=8', 'vote=8']):
            ends(words, 2, 'refused words\n', kept)
        ends(['build', 'cert', 'mesh.ply', 'other'], 3, 'refused 1 not_ply\n', kept)
        equal(os.path.exists('other'), False)
        ends(['build', 'none.ply', 'mesh.ply', 'cert'], 4, '', kept)
        ends(['build', 'scan.ply', 'no_folder/mesh.ply', 'cert'], 4, '', kept)

    def test_stamps(self) -> None:
        scan = example('tetrahedron.ply')
        write('scan', scan)
        recon('build', 'scan', 'mesh', 'cert')
        cert = data('cert')
        digest = hashlib.sha256(scan).hexdigest()
        front = f'recon certificate 2\nscan {digest}\nunit 1\nscanner none\n'.encode()
        equal(cert[:len(front)], front)
        write('old', b'recon certificate 1\n' + cert[len(front):])
        ends(['check', 'scan', 'mesh', 'old'], 0, 'yes inside 1 faces 4 cost 4\n')
        ends(['upgrade', 'scan', 'mesh', 'old', 'new'], 0, 'upgraded cost 4\n', ['scan', 'mesh', 'old'])
        equal(data('new'), cert)
        ends(['upgrade', 'scan', 'mesh', 'new', 'again'], 0, 'upgraded cost 4\n', ['new'])
        equal(data('again'), cert)
        ends(['check', 'scan', 'mesh', 'new', 'unit=2'], 1, 'no 17 other_unit stated 1 here 2\n')
        write('longer', scan + b' ')
        here = hashlib.sha256(scan + b' ').hexdigest()
        ends(['check', 'longer', 'mesh', 'new'], 1, f'no 16 other_scan stated {digest} here {here}\n')
        ends(['upgrade', 'longer', 'mesh', 'new', 'other'], 1, f'no 16 other_scan stated {digest} here {here}\n')
        write('spoiled', cert.replace(digest.encode(), digest.upper().encode()))
        ends(['check', 'scan', 'mesh', 'spoiled'], 1, 'no 1 cert_line line 2\n')
        ends(['upgrade', 'scan', 'mesh', 'spoiled', 'other'], 1, 'no 1 cert_line line 2\n')
        ends(['upgrade', 'scan', 'mesh', 'new'], 2, 'refused words\n')
        equal(os.path.exists('other'), False)
        ends(['upgrade', 'scan', 'mesh', 'new', 'no_folder/other'], 4, '')

    def test_the_certificate_of_a_scan_with_a_scanner_more(self) -> None:
        scan = example('tetrahedron.ply')
        write('scan', scan)
        write('more', scan.replace(b'scanner 4', b'scanner 5') + b'0 0 0\n')
        recon('build', 'more', 'mesh', 'cert')
        stated, here = (hashlib.sha256(data(name)).hexdigest() for name in ('more', 'scan'))
        ends(['check', 'scan', 'mesh', 'cert'], 1, f'no 16 other_scan stated {stated} here {here}\n')
        stamp = b'\n'.join(data('cert').split(b'\n', 4)[:4]) + b'\n'
        write('old', data('cert').replace(stamp, b'recon certificate 1\n'))
        ends(['check', 'scan', 'mesh', 'old'], 1, 'no 4 other_counts scanners stated 5 here 4\n')

    def test_points_that_are_asked_for(self) -> None:
        write('scan.ply', example('tetrahedron.ply'))
        write('points', b'0 0 0 100 100 100\t-34 -33 -33\r\n1000 0 0')
        ends(['ask', 'scan.ply', 'points', 'answers'], 0, 'points 4 asked 4 inside 2\n', ['scan.ply', 'points'])
        equal(data('answers'), b'answers 4\ninside\noutside\ninside\noutside\n')
        write('none', b'')
        ends(['ask', 'scan.ply', 'none', 'answers'], 0, 'points 4 asked 0 inside 0\n', ['none'])
        equal(data('answers'), b'answers 0\n')
        for text, said in ((b'1 2', '26 query_cut tokens 2'), (b'1 2 nan', '23 bad_query token 2'), (b'0 -2097152 0', '25 query_range token 1'),
                           (b'1' * 31 + b' 0 0', '24 long_query token 0'), (b'0 ' * 3145731, '27 too_many_queries tokens 3145731')):
            write('points', text)
            ends(['ask', 'scan.ply', 'points', 'other'], 3, f'refused {said}\n', ['scan.ply'])
        equal(os.path.exists('other'), False)
        ends(['ask', 'points', 'scan.ply', 'other'], 3, 'refused 1 not_ply\n')
        ends(['ask', 'scan.ply', 'missing', 'other'], 4, '')
        ends(['ask', 'scan.ply', 'answers'], 2, 'refused words\n')

    def test_as_many_points_as_may_be_asked_for(self) -> None:
        write('scan.ply', example('tetrahedron.ply'))
        write('points', b'0\n' * 3145728)
        ends(['ask', 'scan.ply', 'points', 'answers'], 0, 'points 4 asked 1048576 inside 1048576\n', ['points'])
        equal(data('answers'), b'answers 1048576\n' + b'inside\n' * 1048576)
        write('points', b'0\n' * 3145729)
        ends(['ask', 'scan.ply', 'points', 'answers'], 3, 'refused 27 too_many_queries tokens 3145729\n')
        write('points', b'\r' * 20000000 + b'x' * 20000000)
        ends(['ask', 'scan.ply', 'points', 'answers'], 3, 'refused 26 query_cut tokens 1\n')

    def test_the_volume_of_a_grid(self) -> None:
        write('scan.ply', example('tetrahedron.ply'))
        says('grid', 'wrote 8000 points to grid, 20 by 20 by 20', 'points', 'grid', 'from=-100,-100,-100', 'to=100,100,100', 'side=10')
        ends(['ask', 'scan.ply', 'grid', 'answers'], 0, 'points 4 asked 8000 inside 2680\n', ['grid'])
        says('grid', 'read 8000 answers of answers; inside 2680, volume 2680000', 'volume', 'answers', 'side=10')

    def test_surfaces_at_rising_weights(self) -> None:
        write('scan.ply', example('tetrahedron.ply'))
        ends(['sweep', 'scan.ply', '0', '1', '2', 'a', 'b', 'vote=1'], 0, 'sweep 2 first_cost 0 last_cost 4\n', ['scan.ply'])
        for name, weight in (('a', 0), ('b', 1)):
            recon('build', 'scan.ply', 'mesh', 'cert', 'vote=1', f'smooth={weight}')
            equal(data(name), data('mesh'))
        count = 64
        names = [f's{k}' for k in range(count)]
        ends(['sweep', 'scan.ply', '0', '1', str(count), *names], 0, 'sweep 64 first_cost 0 last_cost 32\n')
        equal(data('s1'), data('a'))
        ends(['sweep', 'scan.ply', '0', '1', '65', *names, 'more'], 2, 'refused words\n')
        ends(['sweep', 'scan.ply', '65535', '1', '2', 'c', 'd'], 2, 'refused words\n')
        ends(['sweep', 'scan.ply', '0', '1', '3', 'c', 'd'], 2, 'refused words\n')
        ends(['sweep', 'scan.ply', '0', '1', '2', 'c', 'd', 'smooth=1'], 2, 'refused words\n')
        ends(['sweep', 'a', '0', '1', '2', 'c', 'd'], 3, 'refused 7 missing vertex_scanner\n')
        equal(os.path.exists('c'), False)
        ends(['sweep', 'scan.ply', '0', '1', '2', 'c', 'no_folder/d'], 4, '')
        equal(data('c'), data('s0'))

    def test_slices_and_forms(self) -> None:
        write('scan.ply', example('tetrahedron.ply'))
        recon('build', 'scan.ply', 'mesh', 'cert')
        mesh = data('mesh')
        ends(['slice', 'mesh', '0', 'loops'], 0, 'loops 1 steps 4\n', ['mesh'])
        equal(data('loops'), b'loops 1\nloop 4\n0 200 40000 400\n2 40000 200 400\n3 -200 -40000 400\n1 -40000 -200 400\n')
        ends(['slice', 'mesh', '100', 'loops'], 0, 'loops 0 steps 0\n')
        ends(['slice', 'mesh', '8388609', 'other'], 2, 'refused words\n')
        write('open', mesh[:-8].replace(b'face 4', b'face 3'))
        ends(['slice', 'open', '0', 'other'], 3, 'refused 28 unbalanced from 1 to 2 there 1 back 0\n')
        write('spoiled', mesh.replace(b'ascii', b'ASCII'))
        ends(['slice', 'spoiled', '0', 'other'], 3, 'refused 29 mesh_line line 2\n')
        ends(['export', 'mesh', 'a', 'b', 'c'], 0, 'exported 3 points 4 faces 4\n', ['mesh'])
        points = mesh.split(b'end_header\n')[1].split(b'\n')[:4]
        equal(data('a'), mesh)
        equal(data('b'), b'OFF\n4 4 0\n' + mesh.split(b'end_header\n')[1])
        equal(data('c'), b''.join(b'v ' + point + b'\n' for point in points) + b'f 1 2 3\nf 1 3 4\nf 1 4 2\nf 2 4 3\n')
        ends(['export', 'mesh', 'a', 'b'], 2, 'refused words\n', ['a', 'b', 'c'])
        write('cut', mesh[:-1])
        ends(['export', 'cut', 'a', 'b', 'c'], 3, 'refused 30 mesh_cut\n', ['a', 'b', 'c'])
        ends(['export', 'mesh', 'other', 'no_folder/b', 'c'], 4, '', ['c'])
        equal(data('other'), mesh)

    def test_words_that_are_no_text(self) -> None:
        done = subprocess.run([RECON.encode('ascii'), b'demo', b'\xff', b'1'], capture_output=True)
        equal((done.returncode, done.stdout), (2, b'refused words\n'))

    def test_outputs_that_held_more(self) -> None:
        write('scan.ply', example('tetrahedron.ply'))
        recon('build', 'scan.ply', 'mesh.ply', 'cert')
        wanted = data('mesh.ply'), data('cert')
        for name in ('mesh.ply', 'cert'):
            write(name, b'x' * 100000)
        recon('build', 'scan.ply', 'mesh.ply', 'cert')
        equal((data('mesh.ply'), data('cert')), wanted)

    def test_line_that_cannot_be_said(self) -> None:
        with open('/dev/full', 'wb') as full:
            equal(subprocess.run([RECON, 'demo', '1', '7'], stdout=full, stderr=subprocess.DEVNULL).returncode, 4)

    def test_a_person_is_told_which_file_failed(self) -> None:
        write('scan', example('tetrahedron.ply'))
        absent = 'No such file or directory (os error 2)'
        for words, name, reason in ((('build', 'none', 'mesh', 'cert'), 'none', absent),
                                    (('build', 'scan', 'no/mesh', 'cert'), 'no/mesh', absent),
                                    (('check', 'scan', 'scän', 'cert'), 'scän', absent),
                                    (('cells', '.', 'out'), '.', 'Is a directory (os error 21)'),
                                    (('build', 'scan', 'mesh', '/dev/full'), '/dev/full', 'No space left on device (os error 28)')):
            equal(told(*words), (4, '', f'recon: {name}: {reason}\n'))
        with open('/dev/full', 'wb') as full:
            done = subprocess.run([RECON, 'demo', '1', '7'], stdout=full, stderr=subprocess.PIPE)
        equal((done.returncode, done.stderr), (4, b'recon: standard output: No space left on device (os error 28)\n'))

    def test_a_person_is_told_how_a_command_is_used(self) -> None:
        equal(told(), (2, 'refused words\n', USES))
        equal(told('buildings', 'scan'), (2, 'refused words\n', USES))
        for use in USES.splitlines(keepends=True):
            equal(told(use.split()[2]), (2, 'refused words\n', use))

    def test_a_scanner_out_of_range_is_told_as_such(self) -> None:
        for options in (['scanner=2097152,0,0'], ['scanner=300,0,0', 'unit=10000'], ['scanner=1,2']):
            status, said, hint = told('build', 'scan', 'mesh', 'cert', *options)
            equal((status, said, hint.splitlines(keepends=True)[0]), (2, 'refused words\n', USES.splitlines(keepends=True)[0]))
            equal(hint.splitlines()[1][:70], 'recon: scanner=X,Y,Z takes three numbers, and each times unit= is at m')

    def test_a_person_is_told_how_to_mend_a_refusal(self) -> None:
        write('scan', example('tetrahedron.ply'))
        write('other', 'other')
        write('far', example('tetrahedron.ply').replace(b'1000 1000 1000', b'3000000 0 0'))
        write('unseen', example('tetrahedron.ply').replace(b'int scanner', b'int seen_by'))
        for words, line, part in ((('cells', 'other', 'out'), '1 not_ply', 'another format: '),
                                  (('cells', 'far', 'out'), '14 out_of_range element 1 row 0 property 0', 'beyond 2,097,151: use a smaller '),
                                  (('cells', 'unseen', 'out'), '7 missing vertex_scanner', 'name the scanner of each point '),
                                  (('ask', 'scan', 'other', 'out'), '26 query_cut tokens 1', 'there are n values, and a point has three')):
            status, said, told_beside = told(*words)
            equal((status, said), (3, f'refused {line}\n'))
            equal((told_beside[:len(part) + 7], told_beside.count('\n')), ('recon: ' + part, 1))
        equal(told('build', 'scan', 'mesh', 'cert', 'vote=1')[2][:16], 'recon: no face: ')
        equal(told('build', 'scan', 'mesh', 'cert')[2], '')
        equal(told('demo', '1', '7')[2], '')

    def test_what_a_person_is_told_changes_nothing(self) -> None:
        write('scan', example('tetrahedron.ply'))
        recon('build', 'scan', 'mesh', 'cert')
        whole = data('mesh')

        def limited() -> None:
            """A file may have 200 bytes, so that the write of the mesh fails behind its front, and standard error is closed."""
            signal.signal(signal.SIGXFSZ, signal.SIG_IGN)
            resource.setrlimit(resource.RLIMIT_FSIZE, (200, 200))
            os.close(2)

        equal(told('build', 'scan', 'mesh', 'cert', preexec_fn=limited), (4, '', ''))
        equal(data('mesh'), whole[:200])
        with open('/dev/full', 'wb') as full:
            for words, status, line in ((['build'], 2, b'refused words\n'), (['cells', 'cert', 'out'], 3, b'refused 1 not_ply\n'),
                                        (['cells', 'none', 'out'], 4, b'')):
                done = subprocess.run([RECON, *words], stdout=subprocess.PIPE, stderr=full)
                equal((done.returncode, done.stdout), (status, line))
        equal(os.path.exists('out'), False)

    def test_a_person_at_a_terminal_sees_how_far_it_is(self) -> None:
        write('scan', example('tetrahedron.ply'))
        status, said, shown = at_terminal('build', 'scan', 'mesh', 'cert')
        whole, files = recon('build', 'scan', 'mesh2', 'cert2'), [data('mesh'), data('cert')]
        equal((status, said), whole)
        equal(files, [data('mesh2'), data('cert2')])
        # (the hint of so small a flow is not shown to be a largest one, so rounds follow it)
        flow = ['flow 0 · 0 s', 'flow rounds 0 · 0 s']
        votes = 'recon: 0.000 contradictions for each line of sight\r\n'
        equal(shown.split(CLEAR), ['', 'cells 0 of 4 · 0 s', 'sights 0 of 4 · 0 s', *flow, votes])
        equal(at_terminal('cells', 'scan', 'out')[2].split(CLEAR), ['', 'cells 0 of 4 · 0 s', ''])
        for words in (('check', 'scan', 'mesh', 'cert'), ('upgrade', 'scan', 'mesh', 'cert', 'new')):
            equal(at_terminal(*words)[2].split(CLEAR), ['', 'cells 0 of 4 · 0 s', 'sights 0 of 4 · 0 s', ''])
        equal(at_terminal('cells', 'none', 'out')[2][:13], 'recon: none: ')
        shown = at_terminal('sweep', 'scan', '1', '2', '2', 'one', 'other')[2].split(CLEAR)
        equal(shown[-2:], ['surfaces 0 of 2 · 0 s', ''])
        write('points', POINTS)
        status, said, shown = at_terminal('ask', 'scan', 'points', 'labels')
        whole, labels = recon('ask', 'scan', 'points', 'labels2'), data('labels')
        equal((status, said, labels), (*whole, data('labels2')))
        equal(shown.split(CLEAR)[1:], ['cells 0 of 4 · 0 s', 'sights 0 of 4 · 0 s', *flow, 'answers 0 of 4 · 0 s', ''])
        # The line is cleared before anything else is printed, and a run without a valid scan shows none.
        equal(at_terminal('build', 'scan', 'mesh', 'cert', 'vote=1')[2].split(CLEAR)[-1][:16], 'recon: no face: ')
        equal(at_terminal('build', 'cert', 'mesh', 'out')[2][:7], 'recon: ')
        equal(at_terminal('build', 'scan', 'mesh', 'cert', term='dumb')[2], '')
        equal(told('build', 'scan', 'mesh', 'cert')[2], '')

    def test_a_person_at_a_terminal_sees_how_well_the_surface_fits(self) -> None:
        def hints(*words: Any) -> list[str]:
            """What a terminal gets beside the progress of a build."""
            return [line for line in at_terminal('build', 'scan', 'mesh', 'cert', *words)[2].split(CLEAR)[-1].split('\r\n') if line]

        write('scan', example('tetrahedron.ply'))
        # The surface contradicts no line of sight, and each face costs the area weight.
        for words in ((), ('smooth=0',), ('vote=16', 'smooth=2'), ('smooth=1', 'unit=1', 'vote=8')):
            equal(hints(*words), ['recon: 0.000 contradictions for each line of sight'])
        # A ball with each fifth point seen from behind: a surface is there, and lines of sight contradict it.
        points = sphere(300)
        seen_by, behind = nearest(points), nearest(-points)
        seen_by[::5] = behind[::5]
        write('scan', scan_of_ball(points * 1000, seen_by))
        status, said, _ = at_terminal('build', 'scan', 'mesh', 'cert')
        numbers = {name: int(number) for name, number in re.findall('([a-z]+) ([0-9]+)', said)}
        against = (numbers['cost'] - numbers['faces']) * 1000 // 8 // numbers['sights']
        look = ': over 0.1, so look at the positions of the scanners, or at the normals'
        equal((status, numbers['faces'] > 100, against > 100, hints()), (0, True, True, [f'recon: {against // 1000}.{against % 1000:03} contradictions for each line '
                                                           f'of sight{look}']))
        # Of points that become one at a unit it is said, too.
        write('scan', scan_of_ball(points * 3, nearest(points)))
        status, said, _ = at_terminal('build', 'scan', 'mesh', 'cert')
        numbers = {name: int(number) for name, number in re.findall('([a-z]+) ([0-9]+)', said)}
        equal((status, 2 * numbers['points'] < numbers['sights'], numbers['sights']), (0, True, 300))
        equal(hints()[-1], f'recon: {numbers["points"]} points have 300 lines of sight: if each point was seen once, many have become one by '
              'rounding (unit=1000 makes millimeters of meters)')
        equal(told('build', 'scan', 'mesh', 'cert')[2], '')

    def test_counts_at_a_terminal(self) -> None:
        began = time.monotonic()
        status, said, shown = at_terminal('demo', '60000', '7')
        took = time.monotonic() - began
        equal((status, said), recon('demo', '60000', '7'))
        lines = shown.split(CLEAR)
        equal((lines[0], lines[-1], lines[1][:11]), ('', '', 'cells 0 of '))
        # Beside the first line of each of three stages, none within a quarter second of another.
        equal(len(lines) - 2 <= 3 + 4 * took, True)
        for line in lines[1:-1]:
            found = re.fullmatch(r'(?:cells|sights) ([0-9,]+) of ([0-9,]+) · [0-9]+ s|flow ([0-9,]+) · [0-9]+ s', line)
            equal(found is not None, True)
            if found:
                count, of, moved = (int((number or '0').replace(',', '')) for number in found.groups())
                equal((count % 4096, count <= of, moved % 4096), (0, True, 0))

    def test_outputs_that_keep_no_bytes(self) -> None:
        write('scan', example('tetrahedron.ply'))
        equal(told('build', 'scan', '/dev/null', '/dev/null/../null'), (4, '', 'recon: /dev/null/../null: Not a directory (os error 20)\n'))
        done = subprocess.run([RECON, 'cells', 'scan', '/dev/stdout'], capture_output=True)
        recon('cells', 'scan', 'cells')
        equal((done.returncode, done.stdout), (0, data('cells') + recon('cells', 'scan', 'cells')[1].encode('ascii')))

    def test_a_program_whose_name_is_no_text(self) -> None:
        os.mkdir(b'd\xff')
        shutil.copy(RECON, b'd\xff/recon')
        done = subprocess.run([b'd\xff/recon', b'demo', b'12', b'5'], capture_output=True)
        equal((done.returncode, done.stdout.decode('ascii')), recon('demo', '12', '5'))

    def test_binary_scans_of_each_type(self) -> None:
        for kind in WHOLE:
            for order in '<>':
                for unit, scanners in ((1, 3), (1, 12), (250, 12)):
                    write('binary', scan_of_type(order, kind, scanners))
                    write('text', text_of_type(kind, scanners, unit))
                    for words in (['cells', 'IN', 'out'], ['build', 'IN', 'out', 'cert', 'vote=9', 'smooth=2']):
                        both = []
                        for name, more in (('binary', [f'unit={unit}']), ('text', [])):
                            answer = recon(*[name if word == 'IN' else word for word in words], *more)
                            both.append((answer, data('out')))
                        equal(both[0], both[1])
                        equal(both[0][0][0], 0)
                    # The certificate is that of the text, the last that was built.
                    equal(recon('check', 'text', 'out', 'cert', 'vote=9', 'smooth=2')[0], 0)
                    equal(recon('check', 'binary', 'out', 'cert', 'vote=9', 'smooth=2', f'unit={unit}')[1][:17], 'no 16 other_scan ')
                    recon('build', 'binary', 'out', 'cert', 'vote=9', 'smooth=2', f'unit={unit}')
                    equal(recon('check', 'binary', 'out', 'cert', 'vote=9', 'smooth=2', f'unit={unit}')[0], 0)

    def test_weights_and_several_scanners(self) -> None:
        line = 'points 5 scanners 4 sights 5 inside 4 faces 4 cost 4\n'
        write('scan', example('weighed.ply'))
        equal(recon('build', 'scan', 'mesh', 'cert', 'vote=1'), (0, line))
        equal(recon('check', 'scan', 'mesh', 'cert', 'vote=1'), (0, 'yes inside 4 faces 4 cost 4\n'))
        mesh = data('mesh')
        for order in '<>':
            write('binary', weighed(order))
            equal(recon('build', 'binary', 'mesh', 'cert', 'vote=1'), (0, line))
            equal(data('mesh'), mesh)
            equal(recon('check', 'binary', 'mesh', 'cert', 'vote=1')[0], 0)
        write('light', example('weighed.ply').replace(b' 2 1 0\n', b' 0 1 0\n'))
        equal(recon('build', 'light', 'mesh', 'cert'), (3, 'refused 21 bad_weight row 0 weight 0\n'))

    def test_options_of_cells_and_check(self) -> None:
        write('scan', example('metres.ply'))
        options = ['unit=1000', 'scanner=1,1,1']
        equal(recon('build', 'scan', 'mesh', 'cert', *options), (0, 'points 4 scanners 1 sights 4 inside 1 faces 4 cost 28\n'))
        equal(recon('check', 'scan', 'mesh', 'cert', *reversed(options)), (0, 'yes inside 1 faces 4 cost 28\n'))
        equal(recon('check', 'scan', 'mesh', 'cert', options[0], 'scanner=2,2,2')[1], 'no 18 other_fixed stated 1000 1000 1000 here 2000 2000 2000\n')
        equal(recon('cells', 'scan', 'out', *options)[0], 0)
        cells = data('out')
        equal(recon('cells', 'scan', 'out', 'unit=1', 'scanner=1,1,1'), (0, 'points 1 cells 12\n'))
        equal(cells != data('out'), True)

    def test_demonstrations_of_few_rows(self) -> None:
        for rows in range(1, 60):
            status, line = recon('demo', str(rows), '11')
            equal((status, line.split()[:3], line.split()[7:9]), (0, ['demo', str(rows), '11'], ['sights', str(rows)]))

    def test_cost_over_32_bits(self) -> None:
        rows = 70000
        write('scan', header('ascii', [('vertex', rows, POINT), ]) + b'1 2 3\n' * rows)
        options = ['scanner=5,6,7', 'vote=65535']
        line = f'inside 0 faces 0 cost {rows * 65535}\n'
        equal(recon('build', 'scan', 'mesh', 'cert', *options), (0, f'points 1 scanners 1 sights {rows} {line}'))
        equal(recon('check', 'scan', 'mesh', 'cert', *options), (0, f'yes {line}'))

    def test_memory_follows_the_bytes(self) -> None:
        cells = ['cells', 'stated', 'out']
        stated(lambda n: scan_of_counts(others=n), 5, 2 ** 32 - 1, cells, 'refused 17 cut element 0 row 4 property 0\n')
        stated(lambda n: scan_of_counts(points=n), 2, 2 ** 20, cells, 'refused 17 cut element 1 row 1 property 0\n')
        stated(lambda n: scan_of_counts(points=n), 2 ** 20 + 1, 2 ** 32 - 1, cells, 'refused 10 too_many vertex count 4294967295\n')
        stated(lambda n: scan_of_counts(scanners=n), 1, 2 ** 16, cells, 'refused 17 cut element 2 row 0 property 0\n')
        other = [('other', 1, ['list uint double a'])] + WITH_LIST
        stated(lambda n: with_items(other, n), 1, 2 ** 31, cells, 'refused 17 cut element 0 row 0 property 0\n')
        seen = [('vertex', 1, ['list uint uchar scanner'] + POINT), ('scanner', 1, POINT)]
        stated(lambda n: with_items(seen, n), 1, 2 ** 31, cells, 'refused 17 cut element 0 row 0 property 0\n')
        write('scan', example('tetrahedron.ply'))
        recon('build', 'scan', 'mesh', 'cert')
        mesh, cert = data('mesh'), data('cert')
        check, slice_ = ['check', 'scan', 'mesh', 'stated'], ['slice', 'stated', '0', 'out']
        for name, line in ((b'inside 1', 'no 1 cert_line line 13\n'), (b'flow 4', 'no 1 cert_line line 18\n'), (b'sink 1', 'no 1 cert_line line 20\n')):
            word = name.split()[0]
            for count in (10 ** 6, 10 ** 8, 2 ** 64 - 1):
                stated(lambda n: cert.replace(name + b'\n', b'%s %d\n' % (word, n)), 5, count, check, line)
        for count in (10 ** 6, 2 ** 32 - 1):
            stated(lambda n: mesh.replace(b'vertex 4', b'vertex %d' % n), 5, count, slice_, 'refused 29 mesh_line line 14\n')
            stated(lambda n: mesh.replace(b'face 4', b'face %d' % n), 5, count, slice_, 'refused 30 mesh_cut\n')

    def test_long_headers(self) -> None:
        lines = b'ply\nformat ascii 1.0\n' + b'element ' + b'n' * 900 + b' 0\n'
        many = b''.join(b'element e%d 4294967295\n' % k for k in range(990))
        tail = header('ascii', [('vertex', 1, POINT + ['int scanner']), ('scanner', 1, POINT)]).split(b'1.0\n', 1)[1]
        write('named', lines + tail + b'1 2 3 0\n0 0 9\n')
        equal(recon('cells', 'named', 'out')[0], 0)
        write('long', lines.replace(b' 0\n', b' ' * 200 + b'0\n') + tail)
        equal(recon('cells', 'long', 'out'), (3, 'refused 3 long_line line 3\n'))
        write('many', b'ply\nformat ascii 1.0\n' + many + tail)
        equal(recon('cells', 'many', 'out'), (3, 'refused 4 long_header\n'))
