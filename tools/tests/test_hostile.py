"""Damaged and hostile files: each is an error in one line, and costs little time and memory beside the bytes that are there."""
from __future__ import annotations

import os
import resource
import struct
import subprocess
from typing import Any

from helpers import MESH, InFolder, call, command, equal, head, holds, read, spoken, write
from test_other_files import COLUMNS, PCD, POSE, e57
import samples
from samples import E57_END, E57_ROOT, las, packet, physical, station_xml

MEMORY = 1 << 30
SECONDS = 20
XML = E57_ROOT + '{}' + E57_END


def limit() -> None:
    """What a run may use at most."""
    resource.setrlimit(resource.RLIMIT_AS, (MEMORY, MEMORY))
    resource.setrlimit(resource.RLIMIT_CPU, (SECONDS, SECONDS))


def error_of(program: str, *words: str) -> str:
    """Returns the line that a program ends with; nothing else is said, and no file is written."""
    before = {name: os.stat(name).st_mtime_ns for name in os.listdir()}
    environment = {**os.environ, 'OPENBLAS_NUM_THREADS': '1'}
    done = subprocess.run([*command(program), *words], capture_output=True, text=True, preexec_fn=limit, env=environment)
    start = f'{spoken(program)}: error: '
    if done.returncode != 1 or done.stdout or done.stderr.count('\n') != 1 or not done.stderr.startswith(start):
        raise AssertionError(f'{program} {words}: {done.returncode} {done.stdout!r} {done.stderr[-600:]!r}')
    equal({name: os.stat(name).st_mtime_ns for name in os.listdir()}, before)
    return done.stderr[len(start):]


def is_error(part: str, program: str, *words: str) -> None:
    error = error_of(program, *words)
    equal((part in error, error), (True, error))


def e57_of(columns: str, parts: list[bytes], stated: int, xml: str = XML) -> bytes:
    """Returns an E57 of one station of these columns."""
    text = xml.format(station_xml(physical(48), stated, POSE, columns))
    return samples.e57(samples.section(packet(parts)), text)


def e57_shared(stations: int, stated: int) -> bytes:
    """Returns an E57 whose stations all name the same bytes."""
    whole = station_xml(physical(48), stated, POSE, flat(1))
    return e57_of(flat(1), [bytes((stated + 7) // 8)] * 3, stated, XML.replace('{}', whole * (stations - 1) + '{}'))


def flat(bits: int) -> str:
    """Returns three columns whose values have this number of bits."""
    return ''.join(f'<cartesian{axis} type="Integer" minimum="0" maximum="{2 ** bits - 1}"/>' for axis in 'XYZ')


class Hostile(InFolder):
    def test_a_pcd_of_many_columns(self) -> None:
        small = 'VERSION 0.7\nFIELDS x\nSIZE 4\nTYPE F\nCOUNT {}\nPOINTS 1\nDATA ascii\n'
        for count in ('1000000000', '20000000', '4097', '9' * 5000):
            write('in.pcd', small.format(count))
            is_error('of the PCD', 'scan', 'in.pcd', 'out.ply')
        write('in.pcd', PCD.replace('POINTS 3', 'POINTS ' + '9' * 5000))
        is_error('the line POINTS of the PCD is not a count', 'scan', 'in.pcd', 'out.ply')
        write('in.pcd', PCD.replace('rgb normal', 'rgb ' + 'n' * 70000))
        is_error('the header of the PCD is too long', 'scan', 'in.pcd', 'out.ply')
        write('in.pcd', PCD.replace('HEIGHT', '# a remark\n' * 2000 + 'HEIGHT'))
        is_error('the header of the PCD is too long', 'scan', 'in.pcd', 'out.ply')

    def test_a_compressed_pcd_that_states_more_than_it_has(self) -> None:
        head = 'VERSION 0.7\nFIELDS x y z\nSIZE 4 4 4\nTYPE F F F\nCOUNT 1 1 1\nPOINTS {}\nDATA binary_compressed\n'
        many = (1 << 32) // 12 - 1
        for count, packed, body in ((many, 100, b'\0' * 100), (10, 0xFFFFFFFF, b''), (many, 0xFFFFFFFF, b'\0' * 100)):
            write('in.pcd', head.format(count).encode('ascii') + struct.pack('<II', packed, 12 * count) + body)
            is_error('compressed body of a PCD', 'scan', 'in.pcd', 'out.ply')
        write('in.pcd', head.format(1).encode('ascii') + struct.pack('<II', 3000, 12) + b'\xe0\xff\0' * 1000)
        is_error('compressed body of the PCD', 'scan', 'in.pcd', 'out.ply')

    def test_an_e57_whose_columns_take_no_bytes(self) -> None:
        for stated in (2, 10 ** 6, 10 ** 9):
            write('in.e57', e57_of(flat(0), [b''] * 3, stated))
            is_error(f'states {stated} points whose values take no bytes', 'scan', 'in.e57', 'out.ply')
        for stated in (10 ** 18, -1):
            write('in.e57', e57_of(flat(0), [b''] * 3, stated))
            is_error(f'invalid number of points of a station of the E57: {stated}', 'scan', 'in.e57', 'out.ply')
        write('in.e57', e57_of(flat(1), [b'\1'] * 3, 10 ** 9))
        is_error('truncated', 'scan', 'in.e57', 'out.ply')
        write('in.e57', e57_of(flat(0), [b''] * 3, 1))
        equal(call('scan', 'in.e57', 'one.ply')[0], 0)

    def test_a_description_of_an_e57_that_grows(self) -> None:
        laughs = '<!DOCTYPE a [<!ENTITY a "ha">' + ''.join(f'<!ENTITY {b} "{f"&{a};" * 10}">' for a, b in zip('abcdefg', 'bcdefgh')) + ']>'
        write('in.e57', e57_of(COLUMNS, [b''] * 5, 1, laughs + XML.replace('{}', '&h;{}')))
        is_error('DOCTYPE', 'scan', 'in.e57', 'out.ply')
        write('in.e57', e57_of(flat(65), [b'\0' * 9] * 3, 1))
        is_error('more than 64 bits', 'scan', 'in.e57', 'out.ply')
        write('in.e57', e57(6, lambda text: text.replace('maximum="1000"', f'maximum="{"9" * 5000}"')))
        is_error('the XML section of the E57 is invalid', 'scan', 'in.e57', 'out.ply')

    def test_stations_of_an_e57_that_name_the_same_bytes(self) -> None:
        for stations in (2, 1000):
            write('in.e57', e57_shared(stations, 20000))
            is_error('two stations of the E57 name the same bytes', 'scan', 'in.e57', 'out.ply')
        # those without points may
        write('in.e57', e57_of(flat(8), [b'\1\2'] * 3, 2, XML.replace('{}', station_xml(physical(48), 0, POSE, flat(8)) * 5 + '{}')))
        equal(call('scan', 'in.e57', 'good.ply')[0], 0)

    def test_names_of_a_pcd_over_the_limit_of_a_line(self) -> None:
        text = 'VERSION .7\nFIELDS x y z {0} {0}\nSIZE 4 4 4 4 4\nTYPE F F F F F\nCOUNT 1 1 1 1 1\nPOINTS 2\nDATA ascii\n1 2 3 4 5\n5 6 7 8 9\n'
        write('in.pcd', text.format('n' * 5000))
        equal(call('scan', 'in.pcd', 'long.ply')[0], 0)
        equal(max(map(len, read('long.ply').splitlines())) <= 1000, True)
        holds('long.ply', head(2, f'float x, float y, float z, float {"n" * 900}, float {"n" * 900}_2, int scanner', 1) + '1 2 3 4 5 0\n5 6 7 8 9 0\n0 0 0\n')

    def test_packets_of_an_e57_that_are_too_short(self) -> None:
        good = e57_of(flat(8), [b'\1\2'] * 3, 2)
        write('in.e57', good)
        equal(call('scan', 'in.e57', 'good.ply')[0], 0)
        for size in (0, 1, 2, 4, 10):
            write('in.e57', good[:80 + 2] + struct.pack('<H', size) + good[80 + 4:])
            is_error('a packet of the E57 is shorter than its header', 'scan', 'in.e57', 'out.ply')

    def test_an_origin_that_is_far_out(self) -> None:
        write('slice', 'loops 1\nloop 3\n0 1 2 3\n1 4 5 6\n2 7 8 9\n')
        write('mesh.ply', MESH)
        for far in ('1e9999999', '1e99999', '-1e301', '1e-9999999', '1e' + '9' * 50):
            is_error('out of range', 'contours', 'slice', 'out.csv', f'origin={far},0,0')
            is_error('out of range', 'finish', 'mesh.ply', 'out.ply', f'origin=0,{far},0')
            is_error('out of range', 'mesh_to_floats', 'mesh.ply', 'out.ply', f'origin=0,0,{far}')

    def test_positions_that_are_not_finite(self) -> None:
        write('fused.ply', 'ply\nformat ascii 1.0\nelement vertex 1\nproperty float x\nproperty float y\nproperty float z\nend_header\n1 2 3\n')
        write('fused.ply.vis', struct.pack('<QII', 1, 1, 0))
        for place in ('0 0 -1e999', '1.7e308 1.7e308 0', '1e999 0 0'):
            write('images.txt', f'4 1 0 0 0.4142 {place} 1 b.jpg\n\n')
            is_error('is not finite', 'scan', 'fused.ply', 'out.ply', 'images=images.txt')
        plain = 'VERSION 0.7\nFIELDS x y z\nSIZE 4 4 4\nTYPE F F F\nCOUNT 1 1 1\nVIEWPOINT {} 1 0 0 0\nPOINTS 1\nDATA ascii\n1 2 3\n'
        for place in ('nan 0 0', '0 inf 0', '1 2 x'):
            write('a.pcd', plain.format(place))
            is_error('is not a position', 'scan', 'a.pcd', 'out.ply')
            is_error('has the invalid scanner position', 'scan', 'a.pcd', 'a.pcd', 'out.ply')
        pose = struct.pack('<I7dI', 4, 1, 0, 0, 0, 0, float('nan'), 0, 1)
        write('images.bin', struct.pack('<Q', 1) + pose + b'a\0' + struct.pack('<Q', 0))
        is_error('is not finite', 'scan', 'fused.ply', 'out.ply', 'images=images.bin')

    def test_points_that_are_far_out_within_eight_others(self) -> None:
        write('in.xyz', '0 0 0\n1e200 1 2\n-1e308 1 1e308\n')
        for place in ('1,2,3', '1e300,-1e300,0'):
            status, said, error = call('scan', f'in.xyz={place}', 'out.ply', 'surround=5')
            equal((status, 'wrote 11 points and 9 scanners' in said, error), (0, True, ''))

    def test_a_las_whose_scale_is_not_finite(self) -> None:
        good = las(2, 0, [struct.pack('<iiiHBBbBH', 1, 2, 3, 4, 5, 6, 7, 8, 9)])
        for at in (131, 155, 171):
            for value in ('nan', 'inf', '-inf'):
                write('in.las', good[:at] + struct.pack('<d', float(value)) + good[at + 8:])
                is_error('of the LAS is not finite', 'scan', 'in.las=1,1,1', 'out.ply')

    def test_values_that_do_not_fit_their_type(self) -> None:
        head = 'ply\nformat ascii 1.0\nelement vertex 4\nproperty double x\nproperty double y\nproperty double z\nproperty {} value\nend_header\n'
        rows = ['100 100 100', '100 -100 -100', '-100 100 -100', '-100 -100 100']
        write('mesh.ply', MESH)
        for kind, value in (('uchar', '300'), ('uchar', '-1'), ('uchar', 'x'), ('int', '1e99'), ('short', 'nan'), ('ushort', 'inf'),
                            ('float', '1e300'), ('double', '1' * 5000 + 'x')):
            write('scan.ply', head.format(kind) + ''.join(f'{row} {value}\n' for row in rows))
            for out in ('out.ply', 'out.glb', 'out.stl'):
                is_error(f'in a row of the scan: not a {kind}', 'finish', 'mesh.ply', out, 'scan=scan.ply')
        for word in ('1' * 5000, '1e900000', '0.' + '1' * 5000):
            write('scan.ply', head.format('uchar') + ''.join(f'{row} 7\n' for row in [f'{word} 0 0', *rows[1:]]))
            is_error('are not points of scan.ply', 'finish', 'mesh.ply', 'out.ply', 'scan=scan.ply')
        write('scan.ply', head.format('uchar') + ''.join(f'{row} 7\n' for row in rows))
        equal(call('finish', 'mesh.ply', 'mesh.glb', 'scan=scan.ply')[0], 0)

    def test_a_slice_without_points(self) -> None:
        write('slice', 'loops 1\nloop 0\n')
        is_error('has no points', 'contours', 'slice', 'out.svg')
        write('slice', 'loops 0\n')
        is_error('has no loops', 'contours', 'slice', 'out.svg')
        write('slice', 'loops 2\nloop 0\nloop 3\n0 1 2 3\n1 4 5 6\n2 7 8 9\n')
        equal(call('contours', 'slice', 'some.svg')[0], 0)

    def test_a_byte_0_in_a_table(self) -> None:
        write('table', '1 2 3 a\0b\n')
        is_error('line 1 of table contains a NUL byte', 'scan', 'out.ply', 'table=table')

    def test_words_of_many_digits(self) -> None:
        write('mesh.ply', MESH)
        write('slice', 'loops 0\n')
        long = '9' * 5000
        runs: list[tuple[Any, ...]] = [('unit', 'finish', 'mesh.ply', 'out.ply'), ('pieces', 'finish', 'mesh.ply', 'out.ply'),
                                       ('smooth', 'finish', 'mesh.ply', 'out.ply'), ('unit', 'contours', 'slice', 'out.csv'),
                                       ('unit', 'mesh_to_floats', 'mesh.ply', 'out.ply'), ('through', 'tiles', 'split', 'mesh.ply', 'tiles'),
                                       ('points', 'tiles', 'split', 'mesh.ply', 'tiles'), ('vote', 'tiles', 'split', 'mesh.ply', 'tiles')]
        for key, *words in runs:
            is_error(f'{key}= must be an integer', *words, f'{key}={long}')
        equal(read('mesh.ply'), MESH)

    def test_a_point_too_far_out_for_a_distance(self) -> None:
        rows = [f'{x} {y} 0 0 0 1' for x in range(4) for y in range(4)]
        write('in', '\n'.join(['ply', 'format ascii 1.0', 'element vertex 16', *(f'property float {name}' for name in ('x', 'y', 'z', 'nx', 'ny', 'nz')),
                               'end_header', '1e308 0 0 0 0 1', *rows[1:], '']))
        status, said, error = call('scan', 'in', 'out.ply', 'normals=yes')
        equal((status, 'wrote 16 points' in said, error), (0, True, ''))

    def test_a_weight_that_is_no_number(self) -> None:
        for columns, row in (('int x, int y, int z, uchar weight, list uchar int scanner', '1 2 3 - 1 0'),
                             ('int x, int y, int z, uchar weight, int scanner', '1 2 3 - 0')):
            write('in', head(1, columns, 1) + f'{row}\n0 0 9\n')
            equal(call('scan', 'in', 'out.ply'), (1, '', 'recon-scan: error: vertex row 0: the weight - is not a number\n'))
            for weight in ('1e999999', '1.5', '1e2', '2.'):
                write('in', head(1, columns, 1) + f'{row}\n0 0 9\n'.replace('-', weight))
                equal(call('scan', 'in', 'out.ply'), (1, '', f'recon-scan: error: vertex row 0: the weight {weight} is not an integer\n'))

    def test_names_of_columns_beyond_ascii(self) -> None:
        write('mesh', MESH)
        rows = [line + ' 7' for line in MESH.split('end_header\n')[1].splitlines()[:4]]
        write('scan', (head(4, 'int x, int y, int z, uchar caf\xe9') + '\n'.join(rows) + '\n').encode('latin-1'))
        status, said, error = call('finish', 'mesh', 'out.ply', 'scan=scan', 'flips=no')
        equal((status, 'copied caf_ from the scan' in said, error), (0, True, ''))

    def test_normals_of_any_length(self) -> None:
        rows = [f'{x} {y} 0 0 0 1' for x in range(4) for y in range(4)]
        for words, kept in (('0 0 1e308', 16), ('1.7e308 1.7e308 1.7e308', 15), ('0 0 1e-320', 16), ('0 0 0', 15)):
            write('in', '\n'.join([f'0 0 0 {words}', *rows[1:], '']))
            status, said, error = call('scan', 'in', 'out.ply', 'normals=yes', 'far=0.5')
            equal((words, status, f'wrote {kept} points' in said, error), (words, 0, True, ''))
