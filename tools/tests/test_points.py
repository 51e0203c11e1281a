"""Points passed on from one PLY to another: all of a file, a box of it, one point in each cube, and eight points around."""
from __future__ import annotations

import re
import struct

from helpers import POINTS, SCAN, InFolder, binary, call, equal, head, holds, read, refuses, says, write
from recon.toolbox.sieve import Cubes

PRINTED = '0.10000000149011612 -2.5 1.0000000116860974e-07 255\n100000.0 16777216.0 -0.75 0\n'


SCALARS = [(1, 2, 3, 1.0), (4, 5, 6, 0.0), (7, 8, 9, float('nan'))]


class Points(InFolder):
    def test_binary_files_of_both_orders_and_line_ends_keep_every_digit(self) -> None:
        for order in '<>':
            for end in ('\n', '\r\n'):
                write('in.ply', binary(order, end, POINTS))
                says('scan', 'read 4 points of in.ply; left out 2 not finite; wrote 2 points to out.ply', 'in.ply',
                     'out.ply')
                text = read('out.ply')
                equal(re.sub('comment made by .*\n', '', text), head(2, 'float x, float y, float z, uchar red') + PRINTED)

    def test_each_binary_number_reads_back_as_the_same(self) -> None:
        words = [(k * 2654435761) % 2 ** 32 for k in range(3000)]
        values = [v for v in struct.unpack('<3000f', struct.pack('<3000I', *words)) if abs(v) < 1e30]
        rows = [(v, v, v, 7) for v in values]
        write('in.ply', binary('<', '\n', rows))
        equal(call('scan', 'in.ply', 'out.ply')[0], 0)
        lines = read('out.ply').split('end_header\n')[1].splitlines()
        equal([struct.pack('<f', float(line.split()[0])) for line in lines], [struct.pack('<f', v) for v in values])
        rows = [(v / 3, v / 7, v, 7) for v in values]
        write('in.ply', binary('>', '\n', rows, 'dddB'))
        equal(call('scan', 'in.ply', 'out.ply')[0], 0)
        lines = read('out.ply').split('end_header\n')[1].splitlines()
        equal([tuple(map(float, line.split())) for line in lines], rows)

    def test_words_of_text_files_stand_as_they_are(self) -> None:
        body = '0.10 +1e-1 -.5 a\n1.000000000000000000001 002 3. b\nnan 1 2 c\n1 2 -1.#IND d\n1 -inf 2 e\n'
        text = 'ply\nformat ascii 1.0\nobj_info x\n' + head(5, 'float X, float Y, float Z, int note')[21:] + body
        write('in.ply', text.replace('\n', '\r\n'))
        says('scan', 'read 5 points of in.ply; left out 3 not finite; wrote 2 points to out.ply', 'in.ply', 'out.ply')
        holds('out.ply', head(2, 'float x, float y, float z, int note') + '0.10 +1e-1 -.5 a\n1.000000000000000000001 002 3. b\n')

    def test_rows_of_text_may_be_broken_anywhere(self) -> None:
        write('in.ply', head(3, 'float x, float y, float z') + '1 2\n3 4 5 6\t7\n\n8\n9\n')
        says('scan', 'read 3 points of in.ply; left out nothing; wrote 3 points to out.ply', 'in.ply', 'out.ply')
        holds('out.ply', head(3, 'float x, float y, float z') + '1 2 3\n4 5 6\n7 8 9\n')

    def test_other_elements_are_read_through_and_left_out(self) -> None:
        faces = 'element face 2\nproperty list uchar int vertex_indices\nproperty uchar flag'
        rows = b'\x03' + struct.pack('<3iB', 0, 1, 2, 9) + b'\x04' + struct.pack('<4iB', 0, 1, 2, 0, 9)
        write('in.ply', binary('<', '\n', [(1, 2, 3, 4)], 'fffB', 'x y z red', rows, faces))
        says('scan', 'read 1 point of in.ply; left out 2 rows of face; wrote 1 point to out.ply', 'in.ply', 'out.ply')
        holds('out.ply', head(1, 'float x, float y, float z, uchar red') + '1.0 2.0 3.0 4\n')
        text = head(1, 'float x, float y, float z')[:-11] + faces + '\nend_header\n1 2 3\n3 0 1 2 9 4 0 1\n2 0 9\n'
        write('in.ply', text)
        says('scan', 'read 1 point of in.ply; left out 2 rows of face; wrote 1 point to out.ply', 'in.ply', 'out.ply')

    def test_fields_that_number_the_scanner(self) -> None:
        write('table', '# where they stood\n0 0 5 first.ply\n\n-1.50 2 5\n')
        table = '1.0 2.0 3.0 1\n4.0 5.0 6.0 0\n0 0 5\n-1.50 2 5\n'
        line = 'read 3 points of in.ply; left out 1 without scanner; wrote 2 points and 2 scanners to out.ply'
        field = 'scalar_Original_cloud_index'
        for name, words in (('scanner', ()), ('scalar_scanner', ()), (field, ('index=' + field,)),
                            ('PointSourceId', ('index=pointsourceid',))):
            write('in.ply', binary('<', '\n', SCALARS, 'ffff', 'x y z ' + name))
            says('scan', line, 'in.ply', 'out.ply', 'positions=table', *words)
            holds('out.ply', head(2, 'float x, float y, float z, int scanner', 2) + table)
        write('one', '0 0 5\n')
        refuses('scan', 'scanner index 1 is out of range (number of scanners: 1)', 'in.ply', 'out.ply', 'positions=one', 'index=pointsourceid')
        refuses('scan', 'vertex has no property station; it has x, y, z, PointSourceId', 'in.ply', 'out.ply',
                'index=station')
        refuses('scan', 'pass the name of the property with the scanner index as index=', 'in.ply', 'out.ply', 'positions=table')
        write('table', '1 2\n')
        refuses('scan', 'line 1 of table is not X Y Z', 'in.ply', 'out.ply', 'positions=table')

    def test_numbers_of_scanners_written_with_decimals(self) -> None:
        text = head(1, 'float x, float y, float z, float scalar_scanner')
        for word, number in (('2.000000', '2'), ('2', '2'), ('2.', '2'), ('2e0', '2'), ('0.00', '0'), ('-0', '0'), ('20e-1', '2')):
            write('in.ply', f'{text}1 2 3 {word}\n')
            equal(call('scan', 'in.ply', 'out.ply')[0], 0)
            equal(read('out.ply').split()[-1], number)
        for word in ('2.5', '-1', '1e300', 'two', '1e400', '0x2'):
            write('in.ply', f'{text}1 2 3 {word}\n')
            refuses('scan', 'vertex row 0', 'in.ply', 'out.ply')

    def test_the_scanners_of_a_file_are_kept_and_moved(self) -> None:
        write('in.ply', 'ply\nformat ascii 1.0\nelement scanner 2\nproperty float x\nproperty float y\nproperty float z\n'
              + head(1, 'float x, float y, float z, int scanner')[21:]
              + '500000.25 4000000 1\n500000.5 4000001 -1\n500001.125 4000002 2 1\n')
        says('scan', 'read 1 point of in.ply; left out nothing; wrote 1 point and 2 scanners to out.ply', 'in.ply',
             'out.ply', 'origin=500000,4000000.10,0')
        holds('out.ply', head(1, 'float x, float y, float z, int scanner', 2) + '1.125 1.9 2 1\n0.25 -0.1 1\n0.5 0.9 -1\n')
        write('table', '0 0 0\n')
        refuses('scan', 'positions= cannot be used with a file that has an element scanner', 'in.ply', 'out.ply', 'positions=table')
        write('in.ply', read('in.ply').replace('500000.5 ', 'nan '))
        refuses('scan', 'scanner row 1: nan 4000001 -1 is not a position', 'in.ply', 'out.ply')

    def test_names_that_no_reader_takes_are_made_plain(self) -> None:
        names = ('x', 'y', 'z', 'H\u00f6he', 'twice', 'twice', 'scanner', 'scalar_s')
        write('in.ply', (head(1, ', '.join(f'float {name}' for name in names)) + '1 2 3 4 5 6 7 1\n').encode('utf-8'))
        says('scan', 'read 1 point of in.ply; left out nothing; wrote 1 point to out.ply', 'in.ply', 'out.ply',
             'index=scalar_s')
        others = 'float H_he, float twice, float twice_2, float scanner_before, int scanner'
        holds('out.ply', head(1, 'float x, float y, float z, ' + others) + '1 2 3 4 5 6 7 1\n')

    def test_headers_that_are_refused(self) -> None:
        whole = head(1, 'float x, float y, float z') + '1 2 3\n'
        for old, new, part in (('ply\n', 'plt\n', 'is not a PLY'), ('format ascii 1.0', 'format ascii 2.0', 'line 2'),
                               ('format ascii 1.0\n', '', 'line 2'), ('float y', 'half y', 'line 5'),
                               ('vertex 1', 'vertex one', 'line 3'),
                               ('element vertex 1', 'element vertex 4294967296', 'line 3'), ('float y', 'list float int y', 'line 5'),
                               ('float y', 'list uchar float y', 'list'), ('element vertex', 'element point', 'no element vertex'),
                               ('property float z\n', '', 'no property z'), ('end_header', 'comment ' + 'c' * 1100, 'too long'),
                               ('end_header', 'comment\n' * 1000 + 'end_header', 'more than 1000 lines')):
            write('in.ply', whole.replace(old, new, 1))
            refuses('scan', part, 'in.ply', 'out.ply')
        for old, new, part in (('1 2 3', '1 two 3', 'vertex row 0: two is not a number'), ('3\n', '3\n4\n', 'after the last row'),
                               ('1 2 3', '1 \xe9 3', 'not text')):
            write('in.ply', whole.replace(old, new, 1).encode('latin-1'))
            refuses('scan', part, 'in.ply', 'out.ply')

    def test_numbers_far_out_of_range(self) -> None:
        write('in.ply', head(1, 'float x, float y, float z') + '1e400 0 0\n')
        refuses('scan', 'out of range', 'in.ply', 'out.ply', 'side=1')
        write('table', '0 0 0\n')
        refuses('scan', 'out of range', 'in.ply', 'out.ply', 'surround=1', 'positions=table')
        write('in.ply', head(1, 'float x, float y, float z') + '1e9999999 0 0\n')
        refuses('scan', 'out of range', 'in.ply', 'out.ply', 'origin=1,0,0')
        write('in.ply', head(1, 'float x, float y, float z')[:-11] + 'element face 1\nproperty list int int a\nend_header\n1 2 3\n'
              + '9' * 9000 + ' 1\n')
        refuses('scan', 'row 0 of face: invalid list count 9999', 'in.ply', 'out.ply')
        write('in.ply', head(1, SCAN, 1) + '1 2 3 ' + '9' * 9000 + '\n0 0 9\n')
        refuses('scan', 'not a scanner index', 'in.ply', 'out.ply')

    def test_what_follows_the_last_row_is_refused(self) -> None:
        write('in.ply', binary('<', '\n', POINTS[:1], extra=b'x'))
        refuses('scan', 'after the last row', 'in.ply', 'out.ply')
        write('in.ply', head(1, 'float x, float y, float z') + '1 2 3\n \n\t\r\n')
        equal(call('scan', 'in.ply', 'out.ply')[0], 0)

    def test_clip_keeps_a_box_with_its_faces(self) -> None:
        write('in.ply', head(5, SCAN, 1) + '0 0 0 0\n1 1 1 0\n1.0000001 1 1 0\n0.5 -0 2 0\n-1 nan 0 0\n0 0 9\n')
        says('scan', 'read 5 points of in.ply; left out 1 not finite, 2 outside the box; wrote 2 points and 1 scanner to out.ply',
             'in.ply', 'out.ply', 'from=0,0,0', 'to=1,1,1')
        holds('out.ply', head(2, SCAN, 1) + '0 0 0 0\n1 1 1 0\n0 0 9\n')
        says('scan', 'read 5 points of in.ply; left out 1 not finite, 2 inside the box; wrote 2 points and 1 scanner to out.ply',
             'in.ply', 'out.ply', 'from=0,0,0', 'to=1,1,1', 'outside=yes', 'origin=0,0,2')
        holds('out.ply', head(2, SCAN, 1) + '1.0000001 1 -1 0\n0.5 0 0 0\n0 0 7\n')
        refuses('scan', 'at most', 'in.ply', 'out.ply', 'from=0,0,1', 'to=1,1,0')
        refuses('scan', 'two corners', 'in.ply', 'out.ply', 'from=0,0,1')
        refuses('scan', 'from is not X,Y,Z', 'in.ply', 'out.ply', 'from=0,0', 'to=1,1,0')

    def test_thin_keeps_the_first_point_of_a_cube(self) -> None:
        write('in.ply', head(7, SCAN, 1) + '0.9 0 0 0\n0 0.5 0 0\n-0.1 0 0 0\n1 0 0 0\n-0.9 0.9 0.9 0\n1 0 1.5 0\ninf 0 0 0\n0 0 9\n')
        says('scan', 'read 7 points of in.ply; left out 1 not finite, 2 in a cube that already has a point; wrote 4 points and 1 scanner to '
             'out.ply', 'in.ply', 'out.ply', 'side=1')
        holds('out.ply', head(4, SCAN, 1) + '0.9 0 0 0\n-0.1 0 0 0\n1 0 0 0\n1 0 1.5 0\n0 0 9\n')
        for side in ('0', '-1', 'x', '1e999'):
            refuses('scan', 'side=', 'in.ply', 'out.ply', 'side=' + side)
        refuses('scan', 'use a larger side', 'in.ply', 'out.ply', 'side=0.0000001')

    def test_cubes_are_a_set(self) -> None:
        cubes = Cubes()
        known, number = set(), 1
        for _ in range(200000):
            number = (number * 6364136223846793005 + 1442695040888963407) % 2 ** 64
            value = (number >> 43) % 150000 * 3000000019 + 1
            equal(cubes.add(value), value not in known)
            known.add(value)
        equal(cubes.count, len(known))

    def test_surround_adds_eight_points_and_their_scanners(self) -> None:
        write('in.ply', head(3, 'float x, float y, float z, uchar red') + '0.5 0 0 9\n1 2 -3 8\nnan 9 9 7\n')
        write('table', '0.1 0.2 0.30\n')
        says('scan', 'read 3 points of in.ply; left out 1 not finite; wrote 10 points and 9 scanners to out.ply',
             'in.ply', 'out.ply', 'surround=0.5', 'positions=table')
        corners = ['0.0 -0.5 -3.5', '1.5 -0.5 -3.5', '0.0 2.5 -3.5', '1.5 2.5 -3.5',
                   '0.0 -0.5 0.5', '1.5 -0.5 0.5', '0.0 2.5 0.5', '1.5 2.5 0.5']
        places = ['-0.5 -1.0 -4.0', '2.0 -1.0 -4.0', '-0.5 3.0 -4.0', '2.0 3.0 -4.0',
                  '-0.5 -1.0 1.0', '2.0 -1.0 1.0', '-0.5 3.0 1.0', '2.0 3.0 1.0']
        holds('out.ply', head(10, 'float x, float y, float z, uchar red, int scanner', 9) + '0.5 0 0 9 0\n1 2 -3 8 0\n'
              + ''.join(f'{corner} 0 {k + 1}\n' for k, corner in enumerate(corners)) + '0.1 0.2 0.30\n'
              + ''.join(place + '\n' for place in places))
        refuses('scan', 'no scanner positions in the file', 'in.ply', 'out.ply', 'surround=1')
        refuses('scan', 'surround= (the distance', 'in.ply', 'out.ply', 'surround=0', 'positions=table')
        write('in.ply', head(0, 'float x, float y, float z'))
        refuses('scan', 'no points', 'in.ply', 'out.ply', 'surround=1', 'positions=table')

    def test_options_go_together_with_every_kind_of_file(self) -> None:
        given = ('from=0,0,0', 'to=9,9,9', 'side=1', 'origin=1,0,0', 'surround=1')
        write('a.xyz', '3 2 0\n3.5 2.5 0.5\n6 3 3\n10 0 0\n')
        write('a.ptx', '4\n1\n0 0 5\n1 0 0\n0 1 0\n0 0 1\n1 0 0 0\n0 1 0 0\n0 0 1 0\n0 0 5 1\n3 2 -5\n3.5 2.5 -4.5\n6 3 -2\n10 0 -5\n')
        write('in.ply', head(4, 'double x, double y, double z, list uchar int scanner', 1)
              + '3 2 0 1 0\n3.5 2.5 0.5 2 0 0\n6 3 3 0\n10 0 0 1 0\n0 0 5\n')
        for name, one, other in (('a.xyz=0,0,5', '0', '0'), ('a.ptx', '0', '0'), ('in.ply', '1 0', '0')):
            status, said, error = call('scan', name, 'out.ply', *given)
            equal((status, error, 'left out 1 outside the box, 1 in a cube that already has a point; wrote 10 points and 9 scanners' in said), (0, '', True))
            rows = read('out.ply').split('end_header\n')[1].splitlines()
            equal((rows[:2], rows[10]), ([f'2 2 0 {one}', f'5 3 3 {other}'], '-1 0 5'))
            corner = '1 1' if name == 'in.ply' else '1'
            equal((rows[2].split(None, 3), rows[11]), (['1', '1', '-1', corner], '0 0 -2'))

    def test_a_file_may_be_written_over_itself(self) -> None:
        write('in.ply', head(2, 'float x, float y, float z') + '1 2 3\n1 2 3\n')
        says('scan', 'read 2 points of in.ply; left out 1 in a cube that already has a point; wrote 1 point to in.ply', 'in.ply', 'in.ply',
             'side=1')
        holds('in.ply', head(1, 'float x, float y, float z') + '1 2 3\n')

    def test_surround_says_where_the_walls_become_thin(self) -> None:
        write('in.ply', head(27, SCAN, 1) + ''.join(f'{x} {y} {z} 0\n' for x in (0, 3, 6) for y in (0, 3, 6) for z in (0, 3, 6)) + '0 0 9\n')
        for by, part in (('1', '; surround=1 is less than the spacing of the points, about 2.83: walls become only that thick'), ('3', '')):
            said = call('scan', 'in.ply', 'out.ply', f'surround={by}')[1]
            equal(said.split('to out.ply')[1], part + '\n')
