"""What the built program and its model (dev/model) print and write, without regard to contracts: arguments, errors, verdicts and files of small
scans, in tables of known answers. The program is tested where it is built (see run.py); how the system serves it is in test_program."""
from __future__ import annotations

import hashlib
import os
import random
import struct
import unittest
from typing import Any, Callable, Sequence

from helpers import MESH, RECON, InFolder, equal, read, write
from model.commands import Folder, run
from model.solution import Model
from test_program import data, example, recon as by_program

FOUR = example('tetrahedron.ply').decode('ascii')
FOUR_BUILT = 'points 4 scanners 4 sights 4 inside 1 faces 4 cost 4\n'
FOUR_CHECKED = 'yes inside 1 faces 4 cost 4\n'
NO_MESH = MESH.replace('vertex 4', 'vertex 0').replace('face 4', 'face 0').split('end_header')[0] + 'end_header\n'
# The flow is the only valid one of value 4.
FLOW = 'flow 4\n8 9 10 1\n8 10 11 1\n8 11 9 1\n9 11 10 1\nsink 1\n8 9 10 11 4\n'
CERT = 'recon certificate 1\npoints 4\nscanners 4\nsights 4\nvote 8\nsmooth 1\ncost 4\ninside 1\n8 9 10 11\n' + FLOW + 'end\n'
OFF = 'OFF\n4 4 0\n' + MESH.split('end_header\n')[1]
OBJ = 'v 100 100 100\nv 100 -100 -100\nv -100 100 -100\nv -100 -100 100\nf 1 2 3\nf 1 3 4\nf 1 4 2\nf 2 4 3\n'
CUT = 'loops 1\nloop 4\n0 200 40000 400\n2 40000 200 400\n3 -200 -40000 400\n1 -40000 -200 400\n'
# As a scan tool writes the four points, without scanners.
OF_A_TOOL = ('ply\r\nformat ascii 1.0\r\ncomment made by a scan tool\r\nobj_info num_cols 2\r\nelement vertex 4\r\nproperty float x\r\n'
             'property float y\r\nproperty float z\r\nproperty float confidence\r\nelement face 1\r\n'
             'property list uchar int vertex_indices\r\nend_header\r\n'
             '0.1 0.1 0.1 0.5\n0.1 -0.1 -0.1 0.5\n-0.1 0.1 -0.1 1\n-1e-1 -0.1 0.1 1\n3 0 1 2\n')
XYZ = 'property int x\nproperty int y\nproperty int z\n'
ROWS = ['100 100 100', '100 -100 -100', '-100 100 -100', '-100 -100 100']
PLACES = ['1000 1000 1000', '1000 -1000 -1000', '-1000 1000 -1000', '-1000 -1000 1000']
FIRST_ROW, LAST_ROW = '100 100 100 0\n', '-1000 -1000 1000\n'
BUILD, CHECK, LIGHT = ['build', 'in', 'mesh', 'cert'], ['check', 'in', 'mesh', 'cert'], ['vote=1', 'smooth=1']
ONE, WEIGHED = 'property int scanner\n', 'property int scanner\nproperty uchar weight\n'
WEIGHT, LIST = 'property uchar weight\nproperty int scanner\n', 'property list uchar int scanner\n'
WIDE = 'property uchar weight\nproperty list uint int scanner\n'


class Here(Folder):
    """The current folder, and what is printed."""
    said = b''

    def say(self, line: bytes) -> None:
        self.said += line


def by_model(*words: str) -> Any:
    """Status and line of a run of the model."""
    host = Here()
    return run(words, host, Model()), host.said.decode()


recon: Callable[..., Any] = by_program


class Commands(InFolder):
    """Tests of the program, or in a subclass of its model."""
    runs: Callable[..., Any] = staticmethod(by_program)

    def setUp(self) -> None:
        if self.runs is by_program and not RECON:
            self.skipTest('recon is not built here')
        super().setUp()
        global recon
        recon = self.runs


def large(test: Callable[[Commands], None]) -> Callable[[Commands], None]:
    """Leaves a test of scans out that are too large for the model."""
    def only_of_the_program(self: Commands) -> None:
        if self.runs is by_program:
            test(self)

    return only_of_the_program


def scan(rows: Sequence[str], places: Sequence[str], properties: str = ONE) -> str:
    """Returns a scan with these rows of points and of scanners."""
    head = f'ply\nformat ascii 1.0\nelement vertex {len(rows)}\n{XYZ}{properties}element scanner {len(places)}\n{XYZ}end_header\n'
    return head + ''.join(row + '\n' for row in [*rows, *places])


def seen(properties: str, values: Sequence[str]) -> str:
    """Returns the four points and their scanners, with these values after the coordinates."""
    return scan([f'{row} {value}' for row, value in zip(ROWS, values)], PLACES, properties)


def changed(text: str, old: str, new: str) -> str:
    """Returns the text with another part in the place of the first one like this."""
    front, found, behind = text.partition(old)
    equal(found, old)
    return front + new + behind


def files(**texts: str | bytes) -> None:
    """The folder has these files and no others; `in_` stands for `in`."""
    for name in os.listdir('.'):
        os.remove(name)
    for name, text in texts.items():
        write(name.rstrip('_'), text)


def here() -> dict[str, bytes]:
    return {name: data(name) for name in os.listdir('.')}


def says(words: Sequence[str], status: int, line: str) -> None:
    """The program ends so; what is not done writes nothing."""
    before = here()
    equal((words, *recon(*words)), (words, status, line))
    if status:
        equal(here(), before)


def refuses_scan(text: str | bytes, line: str, *more: str) -> None:
    """No scan: `build` says why."""
    files(in_=text)
    says([*BUILD, *more], 3, f'refused {line}\n')


class Words(Commands):
    def test_words_that_are_no_command(self) -> None:
        build = [['build', 'a', 'b', 'c', *more.split('|')] for more in (
            'unit=0', 'unit=1000001', 'unit=', 'unit', 'unit=+1', 'unit=1 ', 'unit=00000000001', 'Unit=1', 'vote=0', 'vote=65536',
            'vote=8|vote=8', 'scanner=1,1,1|unit=1|scanner=1,1,1', 'smooth=65536', 'smooth=-0', 'scanner=1,2', 'scanner=1,2,3,4',
            'scanner=1,2,x', 'scanner=1, 2,3', 'scanner=2097152,0,0', 'scanner=0,0,2098|unit=1000')]
        slices = [['slice', 'mesh', height, 'out'] for height in ('', '-', '+1', '--1', '1.5', '00000001', '8388609', '-8388609')]
        for words in [
            *build, *slices,
            [], ['check', 'a', 'b'], ['cells', 'in'], ['cells', 'in', 'in'], ['cells', '', 'out'], ['cells', 'in', 'out', 'more'],
            ['cells', 'in', 'out', 'vote=8'], ['cells', 'in', 'out', 'smooth=1'], ['cells', 'in', 'out', ''], ['build', 'in', 'out'],
            ['build', 'a', 'a', 'c'], ['build', 'in', 'out', 'in'], ['build', 'in', 'out', 'out'], ['build', 'in', 'out', ''],
            ['check', 'in', 'mesh', 'in'], ['check', 'in', 'mesh', 'cert', 'vote=8', 'vote=8'], ['check', 'in', 'mesh', 'cert', 'out'],
            ['demo', '1'], ['demo', '0', '7'], ['demo', '1048577', '1'], ['demo', '00000000001', '7'],
            ['demo', '1', '18446744073709551616'], ['demo', '1', '000000000000000000007'], ['demo', '1', '+7'], ['demo', '1', ''],
            ['demo', '1', '7', 'vote=8'], ['slice', 'mesh', '0'], ['slice', 'mesh', '0', 'mesh'], ['slice', 'mesh', '0', ''],
            ['slice', 'mesh', '0', 'out', 'unit=1'], ['upgrade', 'in', 'mesh', 'cert', 'cert'], ['upgrade', 'in', 'mesh', 'cert'],
            ['export', 'mesh', 'out'], ['export', 'mesh', 'out', 'cert'], ['export', 'mesh', 'out', 'cert', 'in', 'four'],
        ]:
            files(in_=FOUR, mesh=MESH, cert=CERT)
            says(words, 2, 'refused words\n')

    def test_names_may_look_like_options_and_options_come_in_any_order(self) -> None:
        for words, line in (
            (BUILD, FOUR_BUILT), (['build', 'in', 'unit=3', 'cert'], FOUR_BUILT),
            (['build', 'in', 'unit=3', 'cert', 'unit=0000000001'], FOUR_BUILT), ([*BUILD, 'smooth=1', 'unit=1', 'vote=8'], FOUR_BUILT),
            ([*BUILD, 'vote=65535', 'smooth=0'], 'points 4 scanners 4 sights 4 inside 1 faces 4 cost 0\n'),
            ([*BUILD, 'unit=2097'], FOUR_BUILT),
        ):
            files(in_=FOUR)
            says(words, 0, line)
            equal(sorted(here()), sorted(words[1:4]))

    def test_words_are_a_sweep_or_none(self) -> None:
        for words, status in (
            ('0 1 2 out mesh', 0), ('0 1 1 out', 0), ('0 1 0 out', 2), ('0 1 65 out', 2), ('0 1 +1 out', 2), ('0 1 0000000001 out', 0),
            ('0 1 00000000001 out', 2), ('65534 1 2 out mesh', 0), ('65535 1 2 out mesh', 2), ('65535 65535 1 out', 0), ('65536 1 1 out', 2),
            ('1 65534 2 out mesh', 0), ('2 65534 2 out mesh', 2), ('0 0 1 out', 2), ('0 65536 1 out', 2), ('0 1 2 out', 2),
            ('0 1 1 out mesh', 2), ('0 1 2 out out', 2), ('0 1 2 out in', 2), ('0 1 2 out ', 2), ('0 1 1 unit=3', 0),
            ('0 1 1 out unit=1 vote=2', 0), ('0 1 1 out smooth=2', 2), ('0 1', 2),
        ):
            files(in_=FOUR)
            status_here, line = recon('sweep', 'in', *words.split(' '))
            equal((words, status_here, line[:5]), (words, status, 'refus' if status else 'sweep'))
            equal(len(here()) > 1, status == 0)

    def test_numbers_as_decimals_are_rounded(self) -> None:
        """The scanner of the arguments, in thousandths, is in the certificate."""
        files(in_=scan([], [], '').replace(f'element scanner 0\n{XYZ}', ''))
        for word, number in (
            ('1.0005', 1001), ('-1.0005', -1001), ('2.5e-4', 0), ('5e-4', 1), ('-5e-4', -1), ('-0', 0), ('+.5', 500), ('7.', 7000),
            ('1E+3', 1000000), ('2097.151', 2097151), ('1e00001', 10000), ('2097.1515', None), ('1e9', None), ('.', None), ('nan', None),
            ('1000000000000000000000000000000', None),
        ):
            status, _ = recon(*BUILD, 'unit=1000', f'scanner={word},0,0')
            equal((word, status), (word, 2 if number is None else 0))
            if number is not None:
                equal((word, read('cert').split('\n')[3]), (word, f'scanner {number} 0 0'))


class Scans(Commands):
    def test_each_refusal_says_its_line(self) -> None:
        for old, new, line in (
            (FOUR, '', '1 not_ply'), (FOUR, 'plyx\n', '1 not_ply'), ('property int x', 'property half x', '2 bad_line line 4'),
            ('property int y', 'property int x', '5 twice line 5'), (ONE, '', '7 missing vertex_scanner'),
            ('property int x', 'property list uchar int x', '8 list_property vertex_x'),
            ('property int z', 'property list uchar int z', '8 list_property vertex_z'),
            ('element vertex 4', 'element vertex 1048577', '10 too_many vertex count 1048577'),
            ('element scanner 4', 'element scanner 65537', '10 too_many scanner count 65537'),
            (FIRST_ROW, '100 nan 100 0\n', '12 bad_token element 0 row 0 property 1'),
            (FIRST_ROW, '100 100 100 0.0\n', '12 bad_token element 0 row 0 property 3'),
            (FIRST_ROW, '100 100 100 1234567890123456789\n', '13 long_number element 0 row 0 property 3'),
            (LAST_ROW, '-1000 -1000 1000000000000000000000000000000\n', '13 long_number element 1 row 3 property 2'),
            (FIRST_ROW, '2097152 x 100 9\n', '14 out_of_range element 0 row 0 property 0'),
            (FIRST_ROW, '100 100 -2097152 0\n', '14 out_of_range element 0 row 0 property 2'),
            (FIRST_ROW, '100 100 100 4\n', '15 no_such_scanner row 0 index 4'),
            (FIRST_ROW, '100 100 100 -1\n', '15 no_such_scanner row 0 index -1'),
            (LAST_ROW, '-1000 -1000\n', '17 cut element 1 row 3 property 2'), (LAST_ROW, '', '17 cut element 1 row 3 property 0'),
            (LAST_ROW, '-1000 -1000 1000\n7\n', '18 trailing at 306'),
        ):
            refuses_scan(changed(FOUR, old, new), line)

    def test_headers_and_lists_are_refused_by_their_line_or_place(self) -> None:
        ply = 'ply\nformat ascii 1.0\n'
        for text, line in (
            ('ply\n', '6 head_cut'), (ply + 'element vertex 4\nproperty int x\nend_header', '6 head_cut'),
            (ply + 'element vertex 4\nprop', '6 head_cut'),
            (ply + 'element a 4\nelement b 4\nelement a 4\n', '5 twice line 5'), ('ply\nelement vertex 4\n', '2 bad_line line 2'),
            ('ply\ncomment\nformat ascii 1.0\nformat ascii 1.0\n', '2 bad_line line 4'), (ply + 'property int x\n', '2 bad_line line 3'),
            (ply + 'element vertex 4294967296\n', '2 bad_line line 3'), (ply + 'element face 1\nproperty list float int v\n', '2 bad_line line 4'),
            (ply + f'comment {"x" * 1000}\n', '3 long_line line 3'), (ply + 'comment \n' * 1000, '4 long_header'),
            (scan(['-1 0 0 0 0'], ['0 0 0']).replace('element vertex 1\n', 'element vertex 1\nproperty list uchar int neighbours\n'),
             '16 bad_count element 0 row 0 property 0'),
        ):
            refuses_scan(text, line)
        refuses_scan(FOUR, '11 two_scanners', 'scanner=1,2,3')

    def test_what_a_binary_header_lacks(self) -> None:
        vertex = 'element vertex 1\n'
        for elements, line in (
            (vertex + vertex, '5 twice line 4'), ('element scanner 1\n', '7 missing vertex'),
            ('element vertex 1048577\n', '10 too_many vertex count 1048577'),
            (f'element vertex 1048576\n{XYZ}{ONE}element scanner 65536\n{XYZ}', '17 cut element 0 row 0 property 0'),
            (vertex + 'property int y\n', '7 missing vertex_x'),
            (vertex + 'property int x\nproperty list char int y\n', '8 list_property vertex_y'),
            (vertex + 'property float x\n', '9 binary_float vertex_x'), (vertex + XYZ, '7 missing vertex_scanner'),
            (vertex + XYZ + 'property double scanner\n', '9 binary_float vertex_scanner'),
            (vertex + XYZ + 'property list uchar float scanner\n', '9 binary_float vertex_scanner'), (vertex + XYZ + ONE, '7 missing scanner'),
            (vertex + XYZ + 'property float weight\nproperty list uchar int scanner\n', '7 missing scanner'),
            (f'element scanner 65537\n{vertex}{XYZ}{ONE}', '10 too_many scanner count 65537'),
            (f'{vertex}{XYZ}{ONE}element scanner 1\nproperty int x\nproperty int z\n', '7 missing scanner_y'),
        ):
            refuses_scan(f'ply\nformat binary_little_endian 1.0\n{elements}end_header\n', line)

    def test_limits_that_are_met_exactly(self) -> None:
        """The four points have fifteen lines of header, and the first of these lines takes 8 of 1,000 bytes."""
        line = changed(FOUR, 'format ascii 1.0\n', 'comment \r\nformat ascii 1.0\n')
        for text, before, copies, refusal in (
            (line, '\r\n', 'c' * 992, ''), (line, '\r\n', 'c' * 993, '3 long_line line 2'), ('ply\nc', 'c', 'c' * 1000, '6 head_cut'),
            ('ply\nc', 'c', 'c' * 1001, '3 long_line line 2'), (FOUR, 'element vertex', 'comment\n' * 988, ''),
            (FOUR, 'element vertex', 'comment\n' * 989, '4 long_header'), (FOUR, 'end_header', 'element junk 4294967295\n', ''),
            (FOUR, 'end_header', 'element junk 4294967295\nproperty char a\n', '17 cut element 2 row 0 property 0'),
        ):
            long = changed(text, before, copies + before)
            if refusal:
                refuses_scan(long, refusal)
            else:
                files(in_=long)
                says(BUILD, 0, FOUR_BUILT)
                equal(read('mesh'), MESH)
        refuses_scan(changed(FOUR, 'scanner 4', 'scanner 65536'), '17 cut element 1 row 4 property 0')
        refuses_scan(changed(FOUR, 'vertex 4', 'vertex 1048576'), '15 no_such_scanner row 4 index 1000')
        files(in_=changed(FOUR, FIRST_ROW, '2097151 -2097151 0 3\n'))
        equal(recon(*BUILD)[0], 0)

    def test_spellings_of_one_scan_have_one_surface(self) -> None:
        other = changed(changed(FOUR, FIRST_ROW, ' +1e2\t100.0 0100\r\n0 '), LAST_ROW, '-1e3 -1000 1000')
        head = ('ply\nformat binary_big_endian 1.0\nelement vertex 4\nproperty {} x\nproperty int y\nproperty int z\nproperty double quality\n'
                'property uchar scanner\nelement scanner 4\n' + XYZ + 'end_header\n')
        body = b''.join(struct.pack('>3idB', *map(int, row.split()), 0, k) for k, row in enumerate(ROWS))
        body += b''.join(struct.pack('>3i', *map(int, row.split())) for row in PLACES)
        for text in (FOUR, other, head.format('int').encode() + body):
            files(in_=text)
            says(BUILD, 0, FOUR_BUILT)
            equal(read('mesh'), MESH)
            equal(read('cert').split('\n', 4)[4], CERT.split('\n', 1)[1])
        refuses_scan(head.format('float').encode() + body, '9 binary_float vertex_x')
        refuses_scan(head.format('int').encode() + body[:-1], '17 cut element 1 row 3 property 2')
        refuses_scan(head.format('int').encode() + body + b'x', '18 trailing at 348')

    def test_a_weight_counts_as_so_many_sights(self) -> None:
        outside = 'points 4 scanners 4 sights 4 inside 0 faces 0 cost 4\n'
        several = 'points 4 scanners 4 sights {} inside {} faces {} cost {}\n'.format
        for properties, values, line in (
            (ONE, ['0', '1', '2', '3'], outside), (WEIGHED, ['0 2', '1 1', '2 1', '3 1'], FOUR_BUILT),
            (WEIGHED, ['0 1', '1 1', '2 1', '3 1'], outside), (WEIGHED, ['0 255', '1 255', '2 255', '3 255'], FOUR_BUILT),
            ('property short weight\nproperty char scanner\n', ['2 0', '1 1', '1 2', '1 3'], FOUR_BUILT),
            # A weight that is not a whole number, or several, is skipped.
            (ONE + 'property float weight\n', ['0 2.5', '1 0', '2 x', '3 1'], outside),
            (ONE + 'property list uchar int weight\n', ['0 1 2', '1 0', '2 2 0 x', '3 0'], outside),
            # A point is seen by each scanner of its list.
            (LIST, ['2 0 0', '1 1', '1 2', '1 3'], several(5, 1, 4, 4)), (LIST, ['0', '1 1', '1 2', '1 3'], several(3, 0, 0, 3)),
            (LIST, ['1 0', '1 1', '1 2', '1 3'], several(4, 0, 0, 4)), (LIST, ['0', '0', '0', '0'], several(0, 0, 0, 0)),
            # Two of three sights go through the cell.
            ('property list uchar float scanner\nproperty int weight\n', ['3 3 0 1 7', '1 1 1', '1 2 1', '1 3 1'], several(6, 1, 4, 18)),
            ('property uchar weight\nproperty list uint uchar scanner\n', ['7 0', '2 2 1 1', '1 1 2', '1 1 3'], FOUR_BUILT),
        ):
            files(in_=seen(properties, values))
            says([*BUILD, *LIGHT], 0, line)
            equal(recon(*CHECK, *LIGHT), (0, 'yes ' + line[line.index('inside'):]))

    def test_a_weight_or_a_scanner_that_is_none_is_refused(self) -> None:
        for properties, first, line in (
            (WEIGHT, '0 0', '21 bad_weight row 0 weight 0'), (WEIGHT, '256 9', '21 bad_weight row 0 weight 256'),
            (WEIGHT, '-1 x', '21 bad_weight row 0 weight -1'), (WEIGHT, '1.0 0', '12 bad_token element 0 row 0 property 3'),
            (WEIGHT, '1 4', '15 no_such_scanner row 0 index 4'), (WEIGHED, '9 0', '21 bad_weight row 0 weight 0'),
            (LIST, '2 0 4', '15 no_such_scanner row 0 index 4'), (LIST, '3 -1 x 0', '15 no_such_scanner row 0 index -1'),
            (LIST, '2 0 x', '12 bad_token element 0 row 0 property 3'),
            (LIST, '1 1234567890123456789', '13 long_number element 0 row 0 property 3'), (LIST, '-1', '16 bad_count element 0 row 0 property 3'),
            (WIDE, '0 1 9', '21 bad_weight row 0 weight 0'), (WIDE, '1 1 x', '12 bad_token element 0 row 0 property 4'),
        ):
            refuses_scan(seen(properties, [first, '1 1', '1 1', '1 1']), line)

    def test_a_fixed_scanner_leaves_the_weights(self) -> None:
        files(in_=f'ply\nformat ascii 1.0\nelement vertex 1\n{XYZ}{LIST}property uchar weight\nend_header\n0 0 0 3 7 8 9 5\n')
        says([*BUILD, 'vote=1', 'scanner=100,0,0'], 0, 'points 1 scanners 1 sights 1 inside 0 faces 0 cost 5\n')
        files(in_=f'ply\nformat ascii 1.0\nelement vertex 2\n{LIST}property int weight\n{XYZ}end_header\n2 9 9 3 1 2 3\n0 1 4 5 6\n')
        says([*BUILD, 'vote=1', 'scanner=0,0,0'], 0, 'points 2 scanners 1 sights 2 inside 0 faces 0 cost 4\n')

    @large
    def test_sights_are_read_up_to_their_limit(self) -> None:
        head = (f'ply\nformat binary_little_endian 1.0\nelement vertex 1\n{XYZ}property list uint uchar scanner\n'
                f'element scanner 1\n{XYZ}end_header\n').encode()
        most = 2 ** 23
        files(in_=head + bytes(12) + struct.pack('<I', most) + bytes(most + 12))
        says(['cells', 'in', 'out'], 0, 'points 1 cells 12\n')
        refuses_scan(head + bytes(12) + struct.pack('<I', most + 1) + bytes(most + 13), '22 too_many_sights row 0')


class Surfaces(Commands):
    def test_small_scans_say_their_counts_and_their_cost(self) -> None:
        owns = [f'{row} {k}' for k, row in enumerate(ROWS)]
        for more, rows, places, line in (
            ([], ['0 0 0 0'], ['100 0 0'], 'points 1 scanners 1 sights 1 inside 0 faces 0 cost 8\n'),
            (['smooth=2', 'vote=5'], ['0 0 0 0'], ['100 0 0'], 'points 1 scanners 1 sights 1 inside 0 faces 0 cost 5\n'),
            ([], ['2097151 0 0 0'], ['100 0 0'], 'points 1 scanners 1 sights 1 inside 0 faces 0 cost 8\n'),
            # Points of a plane, and points seen from their middle.
            ([], ['0 0 0 0', '100 0 0 0', '0 100 0 0', '100 100 0 0'], ['0 0 1000'], 'points 4 scanners 1 sights 4 inside 0 faces 0 cost 32\n'),
            ([], [row + ' 0' for row in ROWS], ['0 0 0'], 'points 4 scanners 1 sights 4 inside 0 faces 0 cost 32\n'),
            # A scanner among the points that sees none; a point in two rows; and one seen through the surface.
            ([], owns, [*PLACES, '0 0 0'], 'points 4 scanners 5 sights 4 inside 0 faces 0 cost 32\n'),
            (LIGHT, [*owns, '100 100 100 0'], PLACES, 'points 4 scanners 4 sights 5 inside 1 faces 4 cost 4\n'),
            ([], [*owns, '100 100 100 4'], [*PLACES, '-1000 -1000 -1000'], 'points 4 scanners 5 sights 5 inside 1 faces 4 cost 20\n'),
        ):
            files(in_=scan(rows, places))
            says([*BUILD, *more], 0, line)

    def test_a_surface_is_written_with_its_certificate(self) -> None:
        empty = scan([], ['0 0 0'])
        no_cert = 'recon certificate 1\npoints 0\nscanners 1\nsights 0\nvote 8\nsmooth 1\ncost 0\ninside 0\nflow 0\nsink 0\nend\n'
        # Of labels of one cost the inside is the smallest; the same flow has the value of the empty one.
        light = CERT.replace('vote 8', 'vote 1').replace('inside 1\n8 9 10 11\n', 'inside 0\n')
        for more, text, line, mesh, cert in (
            ([], empty, 'points 0 scanners 1 sights 0 inside 0 faces 0 cost 0\n', NO_MESH, no_cert), ([], FOUR, FOUR_BUILT, MESH, CERT),
            (LIGHT, FOUR, 'points 4 scanners 4 sights 4 inside 0 faces 0 cost 4\n', NO_MESH, light),
            (['scanner=1,1,1', 'unit=1000'], OF_A_TOOL, 'points 4 scanners 1 sights 4 inside 1 faces 4 cost 28\n', MESH, None),
        ):
            files(in_=text)
            says([*BUILD, *more], 0, line)
            equal(read('mesh'), mesh)
            if cert:
                digest = hashlib.sha256(text.encode()).hexdigest()
                equal(read('cert'), f'recon certificate 2\nscan {digest}\nunit 1\nscanner none\n' + cert.split('\n', 1)[1])

    def test_the_cells_of_a_cube_are_those_of_the_tie_rule(self) -> None:
        """All eight points are on one sphere, so ties alone decide between the inner cells."""
        signs = [(x, y, z) for z in (-1, 1) for y in (-1, 1) for x in (-1, 1)]
        rows = [f'{100 * x} {100 * y} {100 * z} {k}' for k, (x, y, z) in enumerate(signs)]
        files(in_=scan(rows, [f'{1000 * x} {1000 * y} {1000 * z}' for x, y, z in signs]))
        says(BUILD, 0, 'points 8 scanners 8 sights 8 inside 6 faces 12 cost 12\n')
        faces = ['0 1 4', '0 2 1', '0 4 2', '1 2 3', '1 3 5', '1 5 4', '2 4 6', '2 6 3', '3 6 7', '3 7 5', '4 5 6', '5 7 6']
        equal(read('mesh').split('\n')[-13:-1], ['3 ' + face for face in faces])
        equal(read('cert').split('\n')[10:17], ['inside 6', '8 9 10 12', '9 10 11 12', '9 11 12 13', '10 11 12 14', '11 12 13 14', '11 13 14 15'])

    @large
    def test_the_surface_of_a_cube_is_one_closed_piece(self) -> None:
        """Nothing is behind the points of the cube's edges, so these are cut off. That leaves nine points of each side, and as many faces as
        Euler's formula has for one piece without holes."""
        steps, rows, places = (-20, -10, 0, 10, 20), [], []
        for face in range(6):
            along = 20 if face % 2 == 0 else -20
            for u in steps:
                for v in steps:
                    rows.append('%d %d %d %d' % (*((along, u, v), (u, along, v), (u, v, along))[face // 2], face))
            places.append('%d %d %d' % tuple(10 * along if axis == face // 2 else 0 for axis in range(3)))
        files(in_=scan(rows, places))
        status, line = recon(*BUILD, 'vote=32')
        equal((status, line.split()[:8]), (0, 'points 98 scanners 6 sights 150 inside'.split() + line.split()[7:8]))
        mesh = read('mesh').split('\n')
        faces = [tuple(map(int, row.split()[1:])) for row in mesh[9 + 54:-1]]
        equal((mesh[2], mesh[6], len(faces)), ('element vertex 54', 'element face 104', 104))
        edges = [edge for a, b, c in faces for edge in ((a, b), (b, c), (c, a))]
        equal(sorted(edges), sorted((b, a) for a, b in edges))
        points = [tuple(map(int, row.split())) for row in mesh[9:9 + 54]]
        corners = [[points[k] for k in face] for face in faces]
        six = [a[0] * (b[1] * c[2] - b[2] * c[1]) - a[1] * (b[0] * c[2] - b[2] * c[0]) + a[2] * (b[0] * c[1] - b[1] * c[0]) for a, b, c in corners]
        equal(sum(six) > 0, True)

    def test_small_scans_have_their_cells(self) -> None:
        one = '0 1 2 8|0 1 4 8|0 2 4 8|1 2 3 8|1 3 5 8|1 4 5 8|2 3 6 8|2 4 6 8|3 5 7 8|3 6 7 8|4 5 6 8|5 6 7 8'.split('|')
        none = '0 1 2 4|1 2 3 4|1 3 4 5|2 3 4 6|3 4 5 6|3 5 6 7'.split('|')
        twice = 'ply\nformat ascii 1.0\nelement vertex 2\nproperty double z\nproperty float y\nproperty int x\nend_header\n.2 -0.3 0\n0 0 0\n'
        for text, more, points, cells in ((scan([], ['0 0 0']), [], 0, none), (scan(['0 0 0 0'], ['100 0 0']), [], 1, one),
                                          (twice, ['scanner=0,0,0.7', 'unit=1'], 1, one)):
            files(in_=text)
            says(['cells', 'in', 'out', *more], 0, f'points {points} cells {len(cells)}\n')
            equal(read('out').split('\n'), [f'cells {len(cells)}', *cells, ''])

    @large
    def test_points_without_ties_have_one_list_of_cells(self) -> None:
        """In whatever order their rows stand."""
        draw = random.Random(5)
        points = [tuple(draw.randrange(-1000, 1001) for _ in 'xyz') for _ in range(40)]
        lists = []
        for _ in range(3):
            order = draw.sample(range(40), 40)
            files(in_=scan(['%d %d %d 0' % points[k] for k in order], ['9999 0 0']))
            equal(recon('cells', 'in', 'out')[0], 0)
            names = [*range(8), *(8 + k for k in order)]
            lists.append(sorted(sorted(names[int(v)] for v in row.split()) for row in read('out').split('\n')[1:-1]))
        equal(lists[1:], [lists[0], lists[0]])

    @large
    def test_generated_scans(self) -> None:
        for words, line in (
            ('1 7', '1 7 points 1 scanners 6 sights 1 inside 0 faces 0 cost 8'),
            ('0000000001 00000000000000000007', '1 7 points 1 scanners 6 sights 1 inside 0 faces 0 cost 8'),
            ('1 18446744073709551615', '1 18446744073709551615 points 1 scanners 6 sights 1 inside 0 faces 0 cost 8'),
            ('56 7', '56 7 points 56 scanners 6 sights 56 inside 61 faces 92 cost 196'),
            ('57 7', '57 7 points 57 scanners 6 sights 57 inside 63 faces 98 cost 194'),
            ('1000 7', '1000 7 points 1000 scanners 6 sights 1000 inside 2906 faces 1990 cost 2118'),
            ('10000 7', '10000 7 points 9995 scanners 6 sights 10000 inside 32170 faces 19982 cost 20254'),
        ):
            says(['demo', *words.split()], 0, f'demo {line}\n')
            equal(here(), {})

    @large
    def test_surfaces_of_a_sweep_are_those_of_builds(self) -> None:
        draw = random.Random(2)
        rows = ['%d %d %d %d' % (*(draw.randrange(-1000, 1001) for _ in 'xyz'), draw.randrange(4)) for _ in range(60)]
        files(in_=scan(rows, ['5000 0 0', '-5000 0 0', '0 5000 0', '0 0 5000']))
        names = [f's{k}' for k in range(5)]
        status, line = recon('sweep', 'in', '0', '3', '5', *names)
        costs = []
        for k, name in enumerate(names):
            _, built = recon(*BUILD, f'smooth={3 * k}')
            costs.append(built.split()[-1])
            equal(read('mesh'), read(name))
        equal((status, line), (0, f'sweep 5 first_cost {costs[0]} last_cost {costs[-1]}\n'))


class Verdicts(Commands):
    def test_a_certificate_is_right_or_has_a_first_fault(self) -> None:
        for more, old, new, line in (
            ([], 'cost', 'cost', FOUR_CHECKED), ([], '8 9 10 1\n', '8 9 10 01\n', '1 cert_line line 11'),
            ([], '8 9 10 1\n', '8 9 10 0\n', '1 cert_line line 11'),
            ([], '8 9 10 11\nflow', '9 8 10 11\nflow', '1 cert_line line 9'), ([], 'flow 4', 'flow +4', '1 cert_line line 10'),
            ([], 'flow 4', 'flow 18446744073709551616', '1 cert_line line 10'), ([], 'flow 4', 'flow 18446744073709551615', '1 cert_line line 15'),
            ([], 'inside 1', 'inside 18446744073709551615', '1 cert_line line 10'), ([], 'inside 1\n', 'inside 400000000\n', '1 cert_line line 10'),
            ([], 'vote 8', 'vote 4294967296', '1 cert_line line 5'), ([], 'certificate 1', 'certificate 3', '1 cert_line line 1'),
            ([], 'end\n', 'end\nx', '1 cert_line line 18'), ([], 'end\n', 'end\n\n', '1 cert_line line 18'),
            ([], '8 9 10 1\n8 10 11 1\n', '8 10 11 1\n8 9 10 1\n', '2 cert_order line 12'),
            ([], '8 9 10 1\n8 10 11 1\n', '8 9 10 1\n8 9 10 1\n', '2 cert_order line 12'), ([], 'end\n', '', '3 cert_cut'),
            ([], 'end\n', 'end', '3 cert_cut'),
            ([], 'points 4', 'points 3', '4 other_counts points stated 3 here 4'),
            ([], 'scanners 4\nsights 4', 'scanners 5\nsights 5', '4 other_counts scanners stated 5 here 4'),
            ([], 'sights 4', 'sights 5', '4 other_counts sights stated 5 here 4'), (LIGHT, 'cost', 'cost', '4 other_counts vote stated 8 here 1'),
            (['smooth=2'], 'cost', 'cost', '4 other_counts smooth stated 1 here 2'), ([], '8 9 10 11\n', '0 1 2 3\n', '5 no_such_cell row 0'),
            ([], '8 9 10 11\nflow', '8 9 10 12\nflow', '5 no_such_cell row 0'), ([], '8 9 10 1\n', '0 1 2 1\n', '6 no_such_facet row 0'),
            ([], '8 9 10 1\n', '8 10 9 1\n', '6 no_such_facet row 0'), ([], '8 9 10 1\n', '8 9 11 1\n', '6 no_such_facet row 0'),
            ([], '8 9 10 11 4', '0 1 2 3 4', '7 no_such_sink row 0'), ([], '8 9 10 11 4', '8 9 10 12 4', '7 no_such_sink row 0'),
            ([], '8 9 10 1\n', '8 9 10 2\n', '9 over_capacity 8 9 10 flow 2 cap 1'),
            ([], '8 9 10 11 4', '8 9 10 11 33', '10 over_sink 8 9 10 11 flow 33 cap 32'),
            ([], '8 9 10 11 4', '8 9 10 11 18446744073709551615', '10 over_sink 8 9 10 11 flow 18446744073709551615 cap 32'),
            ([], '8 9 10 11 4', '8 9 10 11 3', '11 unbalanced 8 9 10 11 in 4 out 3'),
            ([], '8 9 10 11 4', '8 9 10 11 32', '11 unbalanced 8 9 10 11 in 4 out 32'),
            ([], FLOW, 'flow 0\nsink 0\n', '12 not_equal value 0 cost 4'),
            ([], 'inside 1\n8 9 10 11\n', 'inside 0\n', '12 not_equal value 4 cost 32'),
            (LIGHT, 'vote 8', 'vote 1', '13 not_least 8 9 10 11'), ([], 'cost 4', 'cost 5', '14 wrong_cost stated 5 cost 4'),
        ):
            files(in_=FOUR, mesh=MESH, cert=changed(CERT, old, new))
            says([*CHECK, *more], *((0, line) if line == FOUR_CHECKED else (1, f'no {line}\n')))

    def test_other_files_give_a_reason_or_are_not_there(self) -> None:
        one = 'recon certificate 1\npoints 1\nscanners 1\nsights 1\nvote 8\nsmooth 1\ncost 8\ninside 1\n0 1 2 8\nflow 0\nsink 0\nend\n'
        for texts, status, line in (
            ({'in_': FOUR, 'mesh': MESH[:-1], 'cert': CERT}, 1, 'no 15 mesh_differs at 233\n'),
            ({'in_': scan(['0 0 0 0'], ['100 0 0']), 'mesh': MESH, 'cert': one}, 1, 'no 8 fixed_inside 0 1 2 8\n'),
            ({'in_': ''}, 3, 'refused 1 not_ply\n'), ({'in_': FOUR, 'cert': CERT}, 4, ''), ({'in_': FOUR, 'mesh': MESH}, 4, ''),
        ):
            files(**texts)
            says(CHECK, status, line)

    def test_stamps_have_one_spelling(self) -> None:
        digest = hashlib.sha256(FOUR.encode()).hexdigest()
        own, no_stamp = f'scan {digest}\n', 'scanner none\n'
        other = f'scan {"0" * 63}1\n'
        for first, unit, scanner, line in (
            (own.upper().replace('SCAN', 'scan'), 'unit 1\n', no_stamp, '1 cert_line line 2'),
            (own[:-3] + '\n', 'unit 1\n', no_stamp, '1 cert_line line 2'),
            ('', 'unit 1\n', no_stamp, '1 cert_line line 2'), (own, 'unit 0\n', no_stamp, '1 cert_line line 3'),
            (own, 'unit 1000001\n', no_stamp, '1 cert_line line 3'), (own, 'unit 01\n', no_stamp, '1 cert_line line 3'),
            (own, 'unit 1\n', 'scanner -0 0 0\n', '1 cert_line line 4'), (own, 'unit 1\n', 'scanner +1 0 0\n', '1 cert_line line 4'),
            (own, 'unit 1\n', 'scanner 0 -01 0\n', '1 cert_line line 4'), (own, 'unit 1\n', 'scanner 0 0 2097152\n', '1 cert_line line 4'),
            (own, 'unit 1\n', 'scanner 0 0\n', '1 cert_line line 4'), (own, 'unit 1\n', 'scanner none \n', '1 cert_line line 4'),
            (own, 'unit 1\n', '', '1 cert_line line 4'),
            # The fingerprint is compared before the counts: the scan, the scale, the scanner.
            (other, 'unit 2\n', 'scanner 0 -1 17\n', f'16 other_scan stated {other[5:-1]} here {digest}'),
            (own, 'unit 2\n', 'scanner 0 -1 17\n', '17 other_unit stated 2 here 1'),
            (own, 'unit 1\n', 'scanner 0 -1 17\n', '18 other_fixed stated 0 -1 17 here none'),
            (own, 'unit 1\n', 'scanner -2097151 2097151 0\n', '18 other_fixed stated -2097151 2097151 0 here none'),
            (own, 'unit 1\n', no_stamp, '4 other_counts points stated 5 here 4'),
        ):
            stamped = f'recon certificate 2\n{first}{unit}{scanner}' + CERT.split('\n', 1)[1]
            files(in_=FOUR, mesh=MESH, cert=stamped.replace('points 4', 'points 5'))
            says(CHECK, 1, f'no {line}\n')
        stamped = f'recon certificate 2\n{own}unit 1\n{no_stamp}' + CERT.split('\n', 1)[1]
        for text, line in ((stamped[:-4], '3 cert_cut'), (stamped + 'x', '1 cert_line line 21')):
            files(in_=FOUR, mesh=MESH, cert=text)
            says(CHECK, 1, f'no {line}\n')

    def test_a_certificate_gets_the_stamp_of_the_run(self) -> None:
        digest = hashlib.sha256(FOUR.encode()).hexdigest()
        wanted = f'recon certificate 2\nscan {digest}\nunit 1\nscanner none\n' + CERT.split('\n', 1)[1]
        upgrade = ['upgrade', 'in', 'mesh', 'cert', 'out']
        for cert in (CERT, wanted):
            files(in_=FOUR, mesh=MESH, cert=cert)
            says(upgrade, 0, 'upgraded cost 4\n')
            equal((read('out'), read('cert')), (wanted, cert))
        files(in_=FOUR, mesh=MESH, cert=CERT)
        says([*upgrade, 'vote=1'], 1, 'no 4 other_counts vote stated 8 here 1\n')
        fixed = hashlib.sha256(OF_A_TOOL.encode()).hexdigest()
        files(in_=OF_A_TOOL, mesh=MESH, cert=f'recon certificate 2\nscan {fixed}\nunit 1000\nscanner 1 1 1\n' + CERT.split('\n', 1)[1])
        says([*CHECK, 'scanner=1,1,1', 'unit=1000'], 1, 'no 18 other_fixed stated 1 1 1 here 1000 1000 1000\n')


class Meshes(Commands):
    def test_a_plane_cuts_a_mesh_in_loops(self) -> None:
        opened = MESH.replace('face 4', 'face 3').replace('3 1 3 2\n', '')
        unbalanced = 'refused 28 unbalanced from 1 to 2 there 1 back 0\n'
        # Each face twice: faces of one edge are followed in face order, which makes two loops.
        double = MESH.replace('face 4', 'face 8') + MESH[-32:]
        second = 'loop 4\n4 200 40000 400\n6 40000 200 400\n7 -200 -40000 400\n5 -40000 -200 400\n'
        for mesh, height, status, line, out in (
            (MESH, '0', 0, 'loops 1 steps 4\n', CUT), (MESH, '-0000000', 0, 'loops 1 steps 4\n', CUT),
            (double, '0', 0, 'loops 2 steps 8\n', CUT.replace('loops 1', 'loops 2') + second),
            (MESH, '100', 0, 'loops 0 steps 0\n', 'loops 0\n'), (MESH, '-8388608', 0, 'loops 0 steps 0\n', 'loops 0\n'),
            (opened, '0', 3, unbalanced, None), (opened, '8388608', 3, unbalanced, None),
        ):
            files(mesh=mesh)
            says(['slice', 'mesh', height, 'out'], status, line)
            equal(read('out') if out else os.path.exists('out'), out or False)

    def test_what_is_no_mesh_is_refused_at_its_line(self) -> None:
        for old, new, line in (
            (MESH, 'plain\n', '29 mesh_line line 1'),
            # Faces: not turned to the smallest, no such place, a place twice, four places.
            ('3 0 1 2', '3 1 2 0', '29 mesh_line line 14'), ('3 0 1 2', '3 0 1 4', '29 mesh_line line 14'),
            ('3 0 1 2', '3 0 1 1', '29 mesh_line line 14'), ('3 0 1 2', '4 0 1 2 3', '29 mesh_line line 14'),
            ('3 0 1 2', '3 0 1 02', '29 mesh_line line 14'),
            # Points: outside the box, signs and zeros, spaces.
            ('100 100 100', '100 100 8388609', '29 mesh_line line 10'), ('100 100 100', '-8388609 100 100', '29 mesh_line line 10'),
            ('100 100 100', '100 100 -0', '29 mesh_line line 10'), ('100 100 100', '+100 100 100', '29 mesh_line line 10'),
            ('100 100 100', '100 -01 100', '29 mesh_line line 10'), ('100 100 100', '100  100 100', '29 mesh_line line 10'),
            ('100 100 100', '100 100 100 ', '29 mesh_line line 10'), ('100 100 100', '100 100', '29 mesh_line line 10'),
            ('100 100 100', '100 100 -', '29 mesh_line line 10'),
            # The end: text behind it, a row too few.
            ('3 1 3 2\n', '3 1 3 2\nx', '29 mesh_line line 18'), ('3 1 3 2\n', '3 1 3 2\n\n', '29 mesh_line line 18'),
            ('-100 -100 100\n', '', '29 mesh_line line 13'),
            # Counts that are not those of the rows.
            ('vertex 4', 'vertex 3', '29 mesh_line line 13'), ('vertex 4', 'vertex 4294967295', '29 mesh_line line 14'),
            ('face 4', 'face 3', '29 mesh_line line 17'), ('face 4', 'face 4294967295', '30 mesh_cut'),
            ('face 4', 'face 4294967296', '29 mesh_line line 7'), ('face 4', 'face 04', '29 mesh_line line 7'),
            ('vertex 4', 'vertex +4', '29 mesh_line line 3'),
            # Lines of the header.
            ('ply\n', 'ply\r\n', '29 mesh_line line 1'), ('ascii 1.0', 'ascii 1.1', '29 mesh_line line 2'),
            ('int x', 'float x', '29 mesh_line line 4'),
            ('int z\n', 'int z\ncomment\n', '29 mesh_line line 7'), ('end_header', 'end_head', '29 mesh_line line 9'),
        ):
            files(mesh=changed(MESH, old, new))
            says(['slice', 'mesh', '0', 'out'], 3, f'refused {line}\n')
        for end in range(len(MESH)):
            files(mesh=MESH[:end])
            says(['slice', 'mesh', '0', 'out'], 3, 'refused 30 mesh_cut\n')

    def test_a_mesh_is_written_in_three_forms(self) -> None:
        for far in ('100 100 100', '100 100 8388608', '-8388608 0 100'):
            mesh, off, obj = (changed(text, '100 100 100', far) for text in (MESH, OFF, OBJ))
            files(mesh=mesh)
            says(['export', 'mesh', 'a', 'b', 'c'], 0, 'exported 3 points 4 faces 4\n')
            equal((read('a'), read('b'), read('c')), (mesh, off, obj))


class Queries(Commands):
    def test_places_where_cells_meet_are_displaced(self) -> None:
        """Each is displaced towards positive x, so that it is inside where the cell of the four lies that way."""
        middles = ['100 0 0', '0 100 0', '0 0 100', '0 0 -100', '0 -100 0', '-100 0 0']
        of_facets = ['-34 -33 -33', '-34 33 33', '34 -33 33', '34 33 -33']
        corners = ['100 100 -100', '100 -100 100', '-100 100 100', '-100 -100 -100']
        far = ['-2097151 -2097151 -2097151', '2097151 2097151 2097151']
        places = [*ROWS, *middles, *of_facets, PLACES[0], PLACES[3], *corners, *far]
        files(in_=FOUR, points='\n'.join(places))
        says(['ask', 'in', 'points', 'out'], 0, 'points 4 asked 22 inside 3\n')
        inside = ['-100 0 0', '-34 -33 -33', '-34 33 33']
        equal(read('out').split('\n'), ['answers 22', *('inside' if place in inside else 'outside' for place in places), ''])

    def test_a_text_is_points_or_refused(self) -> None:
        for text, unit, line in (
            ('1 2', '1', '26 query_cut tokens 2'), ('1 2 x', '1', '23 bad_query token 2'), ('7', '1', '26 query_cut tokens 1'),
            ('1 2 nan 4', '1', '26 query_cut tokens 4'), ('1\t2\r\n\n3 4 2097152 nan', '1', '25 query_range token 4'),
            # A form feed, a vertical tab and a no-break space are no white space.
            ('1 2\f3 4', '1', '23 bad_query token 1'), ('1 2 3\v', '1', '23 bad_query token 2'), (b'1 2 3\xc2\xa0', '1', '23 bad_query token 2'),
            ('2.0975 0 0', '1000000', '25 query_range token 0'), ('0 1000000000000000000000000000000 0', '1', '24 long_query token 1'),
        ):
            files(in_=OF_A_TOOL, points=text)
            says(['ask', 'in', 'points', 'out', f'unit={unit}', 'scanner=0,0,0'], 3, f'refused {line}\n')
        for text, count in (('', 0), (' ', 0), ('\r\n', 0), (' \t\r\n', 0), ('\n\t1.5 -2\r\n\r3e1\n\n0 0\t\t0\r\n', 2)):
            files(in_=FOUR, points=text)
            says(['ask', 'in', 'points', 'out'], 0, f'points 4 asked {count} inside {count}\n')


def of_model(case: type) -> type:
    """Returns the same tests of the model."""
    return type(case.__name__ + 'OfTheModel', (case,), {'runs': staticmethod(by_model), '__module__': __name__})


WordsOfTheModel, ScansOfTheModel, SurfacesOfTheModel, VerdictsOfTheModel, MeshesOfTheModel, QueriesOfTheModel = map(
    of_model, (Words, Scans, Surfaces, Verdicts, Meshes, Queries))


if __name__ == '__main__':
    unittest.main()
