"""What holds for all programs; meshes and scans that are made."""
from __future__ import annotations

import importlib
import os
import random
import re
import struct
import subprocess
import sys

from helpers import (MESH, PACKAGE, POINTS, SCAN, Given, InFolder, binary, call, command, equal, head, holds, read, refuses,
                     says, spoken, write)
from recon.toolbox.ply_text import Refusal
from test_stations import FIRST_STATION, PTX

SLICE = 'loops 1\nloop 4\n0 200 40000 400\n2 40000 200 400\n3 -200 -40000 400\n1 -40000 -200 400\n'


def changed(draw: random.Random, data: bytes) -> bytes:
    """Returns the file with a byte or two put in, taken out or made another."""
    data = bytearray(data)
    for _ in range(draw.choice((1, 1, 2, 3))):
        k = draw.randrange(len(data))
        data[k:k + draw.randrange(3)] = bytes(draw.choice(b'0123456789 \n.-eE+,;#nai\xe9') for _ in range(draw.randrange(3)))
    return bytes(data)


PROGRAMS = ('scan', 'mesh_to_floats', 'contours', 'make_scan', 'finish', 'grid', 'tiles')


class All(InFolder):
    def test_meshes_in_the_numbers_of_the_scan(self) -> None:
        write('in.ply', MESH)
        line = 'wrote 4 vertices and 4 faces of in.ply to out.ply'
        faces = '3 0 1 2\n3 0 2 3\n3 0 3 1\n3 1 3 2\n'
        start = head(4, 'double x, double y, double z')[:-11] + 'element face 4\nproperty list uchar int vertex_indices\nend_header\n'
        says('mesh_to_floats', line, 'in.ply', 'out.ply', 'unit=1000')
        equal(read('out.ply').replace('comment made by mesh_to_floats\n', ''),
              start + '0.1 0.1 0.1\n0.1 -0.1 -0.1\n-0.1 0.1 -0.1\n-0.1 -0.1 0.1\n' + faces)
        says('mesh_to_floats', line, 'in.ply', 'out.ply', 'unit=3', 'origin=500000,0.5,-1')
        equal(read('out.ply').split('end_header\n')[1].splitlines()[1],
              '500033.333333333333333333333333 -32.8333333333333333333333333333 -34.3333333333333333333333333333')
        refuses('mesh_to_floats', 'unit= must be an integer', 'in.ply', 'out.ply', 'unit=0')
        write('in.ply', MESH[:-4])
        refuses('mesh_to_floats', 'truncated: the file ends in row 3 of face, 4 rows expected', 'in.ply', 'out.ply')
        write('in.ply', head(1, SCAN, 1) + '0 0 0 0\n0 0 9\n')
        refuses('mesh_to_floats', 'not a mesh', 'in.ply', 'out.ply')
        write('in.ply', MESH.replace('property int', 'property double'))
        refuses('mesh_to_floats', 'floating-point numbers', 'in.ply', 'out.ply', 'unit=1000')
        write('in.ply', MESH)
        says('mesh_to_floats', line + ', at unit=1 (the default)', 'in.ply', 'out.ply')

    def test_slices_in_the_numbers_of_the_scan(self) -> None:
        line = 'wrote 1 loop of 4 points of in.txt to out.csv'
        write('in.txt', SLICE)
        says('contours', line, 'in.txt', 'out.csv')
        equal(read('out.csv'), 'loop,face,x,y\n0,0,0.5,100\n0,2,100,0.5\n0,3,-0.5,-100\n0,1,-100,-0.5\n')
        says('contours', line, 'in.txt', 'out.csv', 'unit=3', 'origin=500000,-1,0')
        equal(read('out.csv').splitlines()[1], '0,0,500000.166666666666666666666667,32.3333333333333333333333333333')
        says('contours', line.replace('csv', 'svg'), 'in.txt', 'out.svg', 'unit=10')
        equal(read('out.svg').splitlines()[1:], ['<path fill="#f2cfa2" fill-rule="evenodd" stroke="#333333" stroke-width="0.1" '
                                                 'd="M0.05 -10 L10 -0.05 L-0.05 10 L-10 0.05 Z"/>', '</svg>'])
        equal('viewBox="-11 -11 22 22"' in read('out.svg'), True)
        write('in.txt', 'loops 0\n')
        says('contours', 'wrote 0 loops of 0 points of in.txt to out.csv', 'in.txt', 'out.csv')
        refuses('contours', 'nothing to draw', 'in.txt', 'out.svg', out='out.svg')
        spoiled = ((SLICE[:-18], 'truncated: `A X Y D` is missing after line 5'), (SLICE[:-1], 'truncated: line 6'), (MESH, 'line 1 is not'),
                   (SLICE + '\n', 'line 7: unexpected'), (SLICE.replace(' 400\n2', ' 0\n2'), 'line 3 is not'),
                   ('loops 1\n', 'truncated: `loop N` is missing'))
        for text, why in spoiled:
            write('in.txt', text)
            refuses('contours', why, 'in.txt', 'out.csv', out='out.csv')
            refuses('contours', why, 'in.txt', 'out.svg', out='out.svg')

    def test_grids_and_volumes(self) -> None:
        box = ('from=0,-1,0.25', 'to=0.3,0,0.35', 'side=0.1')
        says('grid', 'wrote 30 points to out.txt, 3 by 10 by 1', 'points', 'out.txt', *box)
        lines = read('out.txt').splitlines()
        equal(lines[:4], ['0.05 -0.95 0.3', '0.15 -0.95 0.3', '0.25 -0.95 0.3', '0.05 -0.85 0.3'])
        equal((len(lines), lines[-1]), (30, '0.25 -0.05 0.3'))
        says('grid', 'wrote 8 points to out.txt, 2 by 2 by 2', 'points', 'out.txt', 'from=0,0,0', 'to=1.01,2,1.5', 'side=1')
        for why, words in (('side= (the side of a cube)', ('from=0,0,0', 'to=1,1,1')), ('side= (the side of a cube)', ('from=0,0,0', 'to=1,1,1', 'side=-1')),
                           ('from= and to=', ('to=1,1,1', 'side=1')), ('from is not X,Y,Z', ('from=0,0', 'to=1,1,1', 'side=1')),
                           ('must be less', ('from=0,1,0', 'to=1,1,1', 'side=1')), ('cubes', ('from=0,0,0', 'to=1,1,1', 'side=0.0098')),
                           ('cubes', ('from=0,0,0', 'to=1,1,1', 'side=1e-300'))):
            refuses('grid', why, 'points', 'out.txt', *words, out='out.txt')
        says('grid', 'wrote 1048576 points to out.txt, 1024 by 1024 by 1', 'points', 'out.txt', 'from=0,0,0', 'to=1024,1024,1', 'side=1')
        write('in.txt', 'answers 3\ninside\noutside\ninside\n')
        equal(call('grid', 'volume', 'in.txt', 'side=0.1'), (0, 'recon-grid: read 3 answers of in.txt; inside 2, volume 0.002\n', ''))
        write('in.txt', 'answers 0\n')
        says('grid', 'read 0 answers of in.txt; inside 0, volume 0', 'volume', 'in.txt', 'side=2')
        spoiled = (('', 'line 1'), ('answers\n', 'line 1'), ('answers 1\n', 'missing after line 1'), ('answers 1\ninside', 'truncated: line 2'),
                   ('answers 1\nInside\n', 'line 2 is not'), ('answers 1\ninside\noutside\n', 'line 3: unexpected'), (MESH, 'line 1'))
        for text, why in spoiled:
            write('in.txt', text)
            refuses('grid', why, 'volume', 'in.txt', 'side=1')
        refuses('grid', 'side= (the side of a cube)', 'volume', 'in.txt')

    def test_files_that_are_cut_anywhere_are_refused(self) -> None:
        faces = 'element face 1\nproperty list uchar int vertex_indices'
        text = head(2, 'float x, float y, float z')[:-11] + faces + '\nend_header\n1 2 3\n4.25 5 67\n3 0 1 12\n'
        files = (('scan', ('cut', 'out.ply'), text.encode('ascii')),
                 ('scan', ('cut', 'out.ply'), binary('<', '\r\n', POINTS[:1], extra=b'\1\0\0\0\0', more=faces)),
                 ('scan', ('cut', 'out.ply'), binary('>', '\n', POINTS[:1] * 3)),
                 ('scan', ('cut', 'out.ply'), PTX.encode('ascii')),
                 ('scan', ('cut=1,2,3', 'out.ply'), b'2\n1 2 3 4\n5 6 7 8\n'))
        for program, words, data in files:
            module = importlib.import_module('recon.' + program)
            for length in range(len(data)):
                if data[:length] == FIRST_STATION.encode('ascii'):
                    continue
                write('cut', data[:length])
                write('out.ply', 'before')
                try:
                    module.work(words, Given())
                except Refusal:
                    equal((read('out.ply'), os.path.exists('out.ply.part')), ('before', False))
                else:
                    raise AssertionError(f'{program}: cut at {length}, and taken')
            write('cut', data)
            module.work(words, Given())

    def test_changed_files_are_taken_or_refused(self) -> None:
        draw = random.Random(1)
        text = head(2, 'float x, float y, float z, float scalar_scanner', 1) + '1 2 3 0.000\n4.5 nan -7e2 0\n0 0 9\n'
        files = (('scan', ('in', 'out'), text.encode('ascii')),
                 ('scan', ('in', 'out'), binary('>', '\n', POINTS)),
                 ('scan', ('in', 'out'), PTX.encode('ascii')), ('mesh_to_floats', ('in', 'out'), MESH.encode('ascii')),
                 ('scan', ('in=1,2,3', 'out'), b'X;Y;Z;I\n1;2;3;4\n# a\n4;5;nan;7\n'))
        taken = 0
        for _ in range(1000):
            program, words, data = draw.choice(files)
            write('in', changed(draw, data))
            try:
                importlib.import_module('recon.' + program).work(words, Given())
                taken += 1
            except (Refusal, ArithmeticError):
                equal(os.path.exists('out.part'), False)
        equal(50 < taken < 950, True)

    def test_a_last_line_without_end(self) -> None:
        write('in.ply', head(1, 'float x, float y, float z') + '1 2 3')
        refuses('scan', 'open_end=yes', 'in.ply', 'out.ply')
        equal(call('scan', 'in.ply', 'out.ply', 'open_end=yes')[0], 0)
        holds('out.ply', head(1, 'float x, float y, float z') + '1 2 3\n')
        write('a.xyz', '1 2 3\n4 5 6')
        refuses('scan', 'open_end=yes', 'a.xyz=0,0,0', 'out.ply')
        equal(call('scan', 'a.xyz=0,0,0', 'out.ply', 'open_end=yes')[0], 0)

    def test_help_and_words(self) -> None:
        for program in PROGRAMS:
            status, said, error = call(program, '--help')
            equal((status, error, spoken(program) in said), (0, '', True))
            equal(call(program, 'a', 'b', 'c', 'd=e', 'f=g')[0] in (1, 2), True)
        equal(call('scan', 'a', 'b', 'side=1', 'side=2')[0], 2)
        refuses('scan', 'No such file or directory: none', 'none', 'out.ply', 'side=1')
        write('in.ply', head(0, 'float x, float y, float z'))
        equal((call('scan')[0], call('grid', 'area', 'out.txt', 'side=1')[0]), (2, 2))
        refuses('contours', 'unknown file name extension: use .svg, .csv', 'in.ply', 'out.ply')
        refuses('scan', 'yes or no', 'in.ply', 'out.ply', 'side=1', 'open_end=1')

    def test_runs_that_leave_no_point_have_a_status(self) -> None:
        write('in.ply', head(1, SCAN, 1) + '1 2 3 0\n0 0 9\n')
        write('a.xyz', 'X Y Z\n')
        for words in (('in.ply', 'out.ply', 'from=4,4,4', 'to=5,5,5'), ('a.xyz=0,0,0', 'out.ply')):
            status, said, error = call('scan', *words)
            equal((status, error, said.endswith('to out.ply: no point is left\n')), (3, '', True))

    def test_the_first_line_of_the_help_alone(self) -> None:
        for program in PROGRAMS:
            line = ' '.join([*command(program), '--help | head -c 1'])
            done = subprocess.run(line, shell=True, capture_output=True, text=True)
            equal((len(done.stdout), done.stderr), (1, ''))

    def test_large_files_take_little_memory(self) -> None:
        rows = 200000
        block = b''.join(struct.pack('<fff', k, k % 777, 0.25) for k in range(rows))
        write('in.ply', binary('<', '\n', [], 'fff', 'x y z').replace(b'vertex 0', b'vertex %d' % rows) + block)
        measure = ('import resource, subprocess, sys;'
                   'subprocess.run([sys.executable] + sys.argv[1:], check=True, stdout=subprocess.DEVNULL);'
                   'print(resource.getrusage(resource.RUSAGE_CHILDREN).ru_maxrss)')
        for words in ([], ['side=0.5']):
            done = subprocess.run([sys.executable, '-c', measure, PACKAGE, 'scan', 'in.ply', 'out.ply'] + words,
                                  capture_output=True, text=True)
            # numpy and scipy take some 50 MB of these
            equal((words, done.returncode, int(done.stdout) < 75000), (words, 0, True))
            equal(read('out.ply')[:400].count('element vertex 200000\n'), 1)

    def test_scans_that_are_made(self) -> None:
        for shape, scanners in (('torus', 8), ('room', 4), ('statue', 8), ('cube', 8), ('sphere', 8), ('tube', 2), ('crowd', 65536),
                                ('paraboloid', 4)):
            says('make_scan', f'wrote 50 points and {scanners} scanners of a {shape} to out.ply', shape, '50', '7', 'out.ply')
            first = read('out.ply')
            holds('out.ply', re.sub('comment made by .*\n', '', first))
            lines = first.split('end_header\n')[1].splitlines()
            are_plain = all(re.fullmatch('(-?[1-9][0-9]*|0)( (-?[1-9][0-9]*|0))+', line) for line in lines)
            equal((len(lines), are_plain), (50 + scanners, True))
            equal((call('make_scan', shape, '50', '7', 'out.ply')[0], read('out.ply') == first), (0, True))
            equal((call('make_scan', shape, '50', '8', 'out.ply')[0], read('out.ply') == first), (0, False))
        says('make_scan', 'wrote 500 points and 8 scanners of a sphere to out.ply', 'sphere', '500', '1', 'out.ply', 'noise=0',
             'stray=0', 'scale=1000000')
        for line in read('out.ply').split('end_header\n')[1].splitlines()[:500]:
            x, y, z, _ = map(int, line.split())
            equal(abs((x * x + y * y + z * z) ** 0.5 - 700000) < 2, True)
        refuses('make_scan', 'shape', 'cone', '5', '1', 'out.ply')
