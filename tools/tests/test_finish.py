"""Meshes that are finished: pieces, splits, flips, smoothing, colors and forms, on small meshes; and which triangles cross."""
from __future__ import annotations

import gzip
import itertools
import json
import os
import random
import struct
import subprocess
import sys
import unittest
from fractions import Fraction
from typing import Any, Sequence

import numpy as np

from helpers import PACKAGE, RECON, RECON_MESH, InFolder, call, equal, head, refuses, write
from bench.crossing import cross, orient
from recon.toolbox.vectors import axes, normal
from bench.triangles import crossing
from samples import ball, mesh_text

TETRAHEDRON = [(0, 2, 1), (0, 1, 3), (0, 3, 2), (1, 2, 3)]


def flat(faces: Sequence[Any]) -> list[int]:
    return [corner for face in faces for corner in face]


def crossing_pairs(places: Sequence[Any], corners: list[int]) -> set[Any]:
    faces = [tuple(corners[at:at + 3]) for at in range(0, len(corners), 3)]
    return {pair for pair in itertools.combinations(range(len(faces)), 2) if cross(places, faces[pair[0]], faces[pair[1]])}


def common_places(one: Sequence[Any], other: Sequence[Any]) -> bool:
    """Returns whether two triangles have a place in common, by cutting one's corners off at the planes of the other, in fractions."""
    a, b, c = other
    away = tuple(normal_of(a, b, c))
    if all(not orient(a, b, c, p) for p in one):
        walls = [(p, tuple(cross_product(away, less(q, p)))) for p, q in ((a, b), (b, c), (c, a))]
        return bool(clipped([tuple(map(Fraction, p)) for p in one], walls))
    walls = [(p, tuple(cross_product(away, less(q, p)))) for p, q in ((a, b), (b, c), (c, a))]
    walls += [(a, away), (a, tuple(-x for x in away))]
    return bool(clipped([tuple(map(Fraction, p)) for p in one], walls))


def less(a: Sequence[Any], b: Sequence[Any]) -> list[int]:
    return [x - y for x, y in zip(a, b)]


def cross_product(a: list[int], b: list[int]) -> Any:
    return a[1] * b[2] - a[2] * b[1], a[2] * b[0] - a[0] * b[2], a[0] * b[1] - a[1] * b[0]


def normal_of(a: Sequence[Any], b: Sequence[Any], c: Sequence[Any]) -> Any:
    return cross_product(less(b, a), less(c, a))


def clipped(polygon: Sequence[Any], walls: Sequence[Any]) -> list[Any]:
    """Returns what is left of a polygon on the inner sides of some planes, borders too."""
    for start, inward in walls:
        sides = [sum(x * y for x, y in zip(less(p, start), inward)) for p in polygon]
        left = []
        for k, (p, side) in enumerate(zip(polygon, sides)):
            q, next_side = polygon[(k + 1) % len(polygon)], sides[(k + 1) % len(polygon)]
            if side >= 0:
                left.append(p)
            if side * next_side < 0:
                part = side / (side - next_side)
                left.append(tuple(x + (y - x) * part for x, y in zip(p, q)))
        polygon = left
        if not polygon:
            break
    return polygon


def total_angle(places: Sequence[Any], corners: np.ndarray) -> float:
    """Returns the sum of angle times length over the edges of a mesh in which each has two faces."""
    from math import acos, dist
    faces, spots = np.asarray(corners).reshape(-1, 3), np.array(places, float)
    normals = np.stack(normal(*(axes(spots, faces[:, k]) for k in range(3))), axis=1)
    face_of = {(int(a), int(b)): k for k, (a, b, c) in enumerate(faces) for a, b in ((a, b), (b, c), (c, a))}
    return sum(acos(max(-1, min(1, float(normals[k] @ normals[face_of[b, a]])))) * dist(places[a], places[b])
               for (a, b), k in face_of.items() if a < b)


SCAN_ROWS = [(100, 100, 100), (100, -100, -100), (-100, 100, -100), (-100, -100, 100)]


def check_glb(name: str) -> None:
    with open(name, 'rb') as file:
        data = file.read()
    magic, version, length, size, kind = struct.unpack_from('<4sIII4s', data)
    equal((magic, version, length, kind, size % 4), (b'glTF', 2, len(data), b'JSON', 0))
    scene = json.loads(data[20:20 + size])
    binary = data[20 + size:]
    equal(struct.unpack_from('<I4s', binary), (len(binary) - 8, b'BIN\0'))
    view = scene['bufferViews'][scene['accessors'][scene['meshes'][0]['primitives'][0]['attributes']['COLOR_0']]['bufferView']]
    equal(struct.unpack_from('<8H', binary, 8 + view['byteOffset']), (20, 40, 60, 65535, 80, 99, 119, 65535))
    normal = struct.unpack_from('<3f', binary, 8 + scene['bufferViews'][2]['byteOffset'])
    equal([round(x, 4) for x in normal], [0.5774] * 3)
    first, = struct.unpack_from('<f', binary, 8 + scene['bufferViews'][1]['byteOffset'])
    equal(round(first, 7), 0.1)


def two_balls() -> Any:
    places, faces = ball(3, 1000)
    far = [(x // 4 + 5000, y // 4, z // 4) for x, y, z in places]
    return places + far, faces + [tuple(k + len(places) for k in face) for face in faces]


class Finish(InFolder):
    def test_triangles_cross_exactly_where_they_have_a_place_in_common(self) -> None:
        draw, met = random.Random(2), 0
        while met < 300:
            size = draw.choice((2, 3, 6, 1000000))
            places = [tuple(draw.randrange(size + 1) for _ in range(3)) for _ in range(6)]
            one, other = places[:3], places[3:]
            if not any(normal_of(*one)) or not any(normal_of(*other)) or len(set(places)) < 6:
                continue
            expected = common_places(one, other)
            equal(cross(places, (0, 1, 2), (3, 4, 5)), expected)
            equal(cross(places, (4, 5, 3), (2, 1, 0)), expected)
            met += expected

    def test_neighbors_cross_where_one_lies_on_the_other(self) -> None:
        places = [(0, 0, 0), (4, 0, 0), (0, 4, 0), (4, 4, 0), (1, 1, 0), (1, 1, 5), (-4, -4, 0), (3, 1, 0)]
        cases = [((0, 1, 2), (1, 0, 3), True), ((0, 1, 2), (1, 0, 5), False), ((1, 2, 0), (2, 1, 3), False),
                 ((0, 1, 2), (0, 4, 7), True), ((0, 1, 2), (0, 4, 5), True), ((0, 1, 2), (0, 6, 5), False),
                 ((0, 1, 2), (2, 1, 0), True), ((0, 1, 2), (0, 3, 5), True), ((0, 1, 2), (4, 5, 6), True)]
        for one, other, expected in cases:
            equal((one, other, cross(places, one, other)), (one, other, expected))
            equal(cross(places, other, one), expected)

    @unittest.skipUnless(RECON_MESH, 'recon-mesh is not built here')
    def test_what_is_written(self) -> None:
        write('in.ply', mesh_text(SCAN_ROWS, [(0, 1, 2), (0, 2, 3), (0, 3, 1), (1, 3, 2)]))
        columns = 'float x, float y, float z, uchar red, uchar green, uchar blue, float intensity'
        rows = [(0.1, 0.1, 0.1, 1, 2, 3, 0.5), (0.1, 0.1, 0.1, 9, 9, 9, 9), (0.1, -0.1, -0.1, 4, 5, 6, 0.25),
                (-0.1, 0.1, -0.1, 7, 8, 9, 1), (-0.0996, -0.1, 0.1004, 10, 11, 12, 2)]
        write('scan.ply', head(5, columns) + ''.join(' '.join(map(str, row)) + '\n' for row in rows))
        status, said, error = call('finish', 'in.ply', 'out.ply', 'unit=1000', 'scan=scan.ply', 'origin=5,0,0')
        equal((status, error, 'copied red, green, blue, intensity from the scan' in said), (0, '', True))
        with open('out.ply', 'rb') as file:
            text, body = file.read().split(b'end_header\n')
        equal(struct.unpack_from('<dddBBBf', body, 43), (5.1, -0.1, -0.1, 4, 5, 6, 0.25))
        equal(struct.unpack_from('<dddBBBf', body, 129)[3:], (10, 11, 12, 2.0))
        equal(struct.unpack_from('<B3i', body, 4 * 43)[0], 3)
        equal(call('finish', 'in.ply', 'out.stl')[0], 0)
        with open('out.stl', 'rb') as file:
            data = file.read()
        equal((len(data), struct.unpack_from('<I', data, 80)[0]), (84 + 4 * 50, 4))
        corners = {struct.unpack_from('<3f', data, 84 + 50 * face + 12 * (k + 1)) for face in range(4) for k in range(3)}
        equal((len(corners), (100, 100, 100) in corners), (4, True))
        equal(call('finish', 'in.ply', 'out.glb', 'unit=1000', 'scan=scan.ply')[0], 0)
        check_glb('out.glb')
        write('scan.ply', head(4, columns.replace('uchar', 'ushort')) + ''.join(
            ' '.join(map(str, place)) + f' {256 * k + 3} {512 + k} {768} 0.5\n' for k, place in zip((1, 4, 7, 10), SCAN_ROWS)))
        equal(call('finish', 'in.ply', 'out.glb', 'scan=scan.ply')[0], 0)
        with open('out.glb', 'rb') as file:
            equal(struct.pack('<12H', 20, 40, 60, 65535, 80, 40, 60, 65535, 139, 40, 60, 65535) in file.read(), True)

    @unittest.skipUnless(RECON_MESH, 'recon-mesh is not built here')
    def test_coordinates_far_from_0(self) -> None:
        write('in.ply', mesh_text(SCAN_ROWS, [(0, 1, 2), (0, 2, 3), (0, 3, 1), (1, 3, 2)]))
        far = ('unit=1000', 'origin=600000.125,5000000,0')
        status, said, error = call('finish', 'in.ply', 'out.glb', *far)
        equal((status, error, 'STL' in said), (0, '', False))
        with open('out.glb', 'rb') as file:
            data = file.read()
        size, = struct.unpack_from('<I', data, 12)
        scene = json.loads(data[20:20 + size])
        middle = scene['nodes'][0]['translation']
        places = np.frombuffer(data, '<f4', 12, 28 + size + scene['bufferViews'][1]['byteOffset']).reshape(4, 3) + np.array(middle)
        equal(middle, [600000, 5000000, 0])
        equal(np.abs(places - np.array(SCAN_ROWS) / 1000 - [600000.125, 5000000, 0]).max() < 1e-7, True)
        status, said, error = call('finish', 'in.ply', 'out.stl', *far)
        equal((status, error, 'which moved vertices by up to 0.1: write PLY, GLB or OBJ' in said), (0, '', True))

    def test_what_nobody_saw_is_a_mesh_of_its_own(self) -> None:
        places, faces = ball(10, 1000)
        write('in.ply', mesh_text(places, faces))
        status, said, error = call('finish', 'in.ply', 'out.ply', '--seen', '--no-flips')
        equal((status, error, '0 faces unseen by all scanners' in said, os.path.exists('out-seen.ply')), (0, '', True, True))
        # a square of small faces, closed below by a fan of triangles that are long
        side = 24
        places = [(100 * i, 100 * j, (i * j) % 7) for i in range(side) for j in range(side)]
        sheet = [face for i in range(side - 1) for j in range(side - 1) for k in [side * i + j]
                 for face in ((k, k + side, k + 1), (k + 1, k + side, k + side + 1))]
        ring = [side * i for i in range(side)] + [side * (side - 1) + j for j in range(1, side)]
        ring += [side * i + side - 1 for i in range(side - 2, -1, -1)] + list(range(side - 2, 0, -1))
        lid = [(ring[0], two, one) for one, two in zip(ring[1:], ring[2:])]
        write('in.ply', mesh_text(places, sheet + lid))
        status, said, error = call('finish', 'in.ply', 'out.ply', '--seen', '--no-flips', '--unit', '10')
        equal((status, error), (0, ''))
        with open('out.ply', 'rb') as file:
            top_of, body = file.read().split(b'end_header\n')
        marks = [body[36 * len(places) + 14 * k + 13] for k in range(len(sheet + lid))]
        equal((b'property uchar unseen' in top_of, sum(marks[:len(sheet)]), sum(marks[len(sheet):]) > 60), (True, 0, True))
        equal(f'; {sum(marks)} faces unseen by all scanners; ' in said, True)
        with open('out-seen.ply', 'rb') as file:
            equal(b'element face %d\n' % (len(marks) - sum(marks)) in file.read(), True)

    @unittest.skipUnless(RECON_MESH, 'recon-mesh is not built here')
    def test_the_unit_of_the_certificate(self) -> None:
        write('in.ply', mesh_text(SCAN_ROWS, [(0, 1, 2), (0, 2, 3), (0, 3, 1), (1, 3, 2)]))
        stamp = f'recon certificate 2\nscan {"0" * 64}\nunit 250\nscanner none\npoints 4\n'
        write('scan.cert', stamp)
        for words in ((), ('cert=packed.gz',), ('cert=scan.cert',)):
            with gzip.open('packed.gz', 'wb') as file:
                file.write(stamp.encode('ascii'))
            said = call('finish', 'in.ply', 'out.obj', *words)[1]
            equal(f'unit=250 from {words[0][5:] if words else "scan.cert"}; ' in said, True)
            with open('out.obj', encoding='ascii') as lines:
                equal([line for line in lines if line[0] == 'v'][0], 'v 0.4 0.4 0.4\n')
        equal('unit=' in call('finish', 'in.ply', 'out.obj', 'unit=1')[1], False)
        write('other.cert', stamp)
        equal('unit=' in call('finish', 'in.ply', 'out.obj')[1], False)
        write('in.txt', 'recon certificate 1\n')
        refuses('finish', 'not a certificate with a unit', 'in.ply', 'out.ply', 'cert=in.txt')

    @unittest.skipUnless(RECON_MESH, 'recon-mesh is not built here')
    def test_colors_of_points_with_lists_and_as_obj(self) -> None:
        write('in.ply', mesh_text(SCAN_ROWS, [(0, 1, 2), (0, 2, 3), (0, 3, 1), (1, 3, 2)]))
        columns = 'float x, float y, float z, uchar red, list uchar int scanner, uchar green, uchar blue'
        write('scan.ply', head(4, columns) + ''.join(
            ' '.join(map(str, place)) + f' {k} 2 0 1 51 255\n' for k, place in enumerate(SCAN_ROWS)))
        status, said, error = call('finish', 'in.ply', 'out.obj', 'scan=scan.ply')
        equal((status, error, 'copied red, green, blue from the scan' in said), (0, '', True))
        with open('out.obj', encoding='ascii') as lines:
            rows = [line.split() for line in lines]
        equal((rows[2], rows[-1][0], len(rows)), (['v', '100', '-100', '-100', '0.003922', '0.2', '1'], 'f', 13))

    def test_meshes_with_comments(self) -> None:
        plain = mesh_text([(0, 0, 0), (9, 0, 0), (0, 9, 0), (0, 0, 9)], TETRAHEDRON)
        comments = 'comment recon-mesh finish pieces=1\ncomment scale 1024\ncomment\n'
        write('in.ply', plain)
        equal(call('finish', 'in.ply', 'plain.ply', 'flips=no')[0], 0)
        write('in.ply', plain.replace('element vertex', comments + 'element vertex'))
        equal(call('finish', 'in.ply', 'out.ply', 'flips=no')[0], 0)
        equal(call('mesh_to_floats', 'in.ply', 'floats.ply')[0], 0)
        with open('plain.ply', 'rb') as one, open('out.ply', 'rb') as other:
            equal(one.read() == other.read(), True)
        for wrong in ('comments 1\n', 'obj_info 1\n', 'comment\x0b\n', 'comment ' + 'c' * 999 + '\n', 'comment\n' * 101):
            write('in.ply', plain.replace('element vertex', wrong + 'element vertex'))
            refuses('finish', 'the header differs', 'in.ply', 'out.ply', 'flips=no')

    def test_the_program_is_asked_for_no_comments(self) -> None:
        write('in.ply', mesh_text([(0, 0, 0), (9, 0, 0), (0, 9, 0), (0, 0, 9)], TETRAHEDRON))
        write('program', '#!/bin/sh\nfor word; do [ "$word" = comments=no ] && no=1; done\n[ $no ] && cp "$2" "$3" && echo finished points 4 faces 4\n')
        os.chmod('program', 0o755)
        done = subprocess.run([sys.executable, PACKAGE, 'finish', 'in.ply', 'out.ply'], capture_output=True, text=True,
                              env={**os.environ, 'RECON_MESH': './program'})
        equal((done.returncode, done.stderr, 'wrote 4 vertices and 4 faces' in done.stdout), (0, '', True))

    @unittest.skipUnless(RECON_MESH, 'recon-mesh is not built here')
    def test_pieces_and_smoothing(self) -> None:
        places, faces = two_balls()
        write('in.ply', mesh_text(places, faces))
        said = call('finish', 'in.ply', 'out.ply', 'pieces=1', 'flips=no')[1]
        equal('kept the 1 largest piece and left out 108 faces; ' in said, True)
        equal(said.endswith('wrote 56 vertices and 108 faces to out.ply\n'), True)
        places, faces = ball(6, 100000, 0.05)
        write('in.ply', mesh_text(places, faces))
        said = call('finish', 'in.ply', 'out.ply', 'smooth=3', 'within=2000')[1]
        with open('out.ply', 'rb') as file:
            body = file.read().split(b'end_header\n')[1]
        moved = [struct.unpack_from('<ddd', body, 36 * k) for k in range(len(places))]
        far = max(sum((x - y) ** 2 for x, y in zip(*pair)) ** 0.5 for pair in zip(moved, places))
        equal((1500 < far <= 2000, '3 steps' in said), (True, True))
        parts = said.split('adjacent faces changed from ')[1].split()
        equal(float(parts[2]) * 2 < float(parts[0]), True)

    @unittest.skipUnless(RECON_MESH, 'recon-mesh is not built here')
    def test_vertices_that_are_smoothed_keep_their_columns(self) -> None:
        places, faces = two_balls()
        write('in.ply', mesh_text(places, faces))
        write('scan.ply', head(len(places), 'double x, double y, double z, int row') + ''.join(
            f'{x / 10} {y / 10} {z / 10} {k}\n' for k, (x, y, z) in list(enumerate(places))[::-1]))
        for words in (('pieces=1',), ('manifold=yes',), ()):
            status, said, error = call('finish', 'in.ply', 'out.ply', 'unit=10', 'smooth=2', 'within=30', 'scan=scan.ply', 'origin=0,0,1000', *words)
            equal((status, error, 'copied row from the scan' in said), (0, '', True))
            with open('out.ply', 'rb') as file:
                top, body = file.read().split(b'end_header\n')
            count = int(top.split(b'element vertex ')[1].split()[0])
            rows = np.frombuffer(body, [('place', '<f8', 3), ('row', '<i4'), ('normal', '<f4', 3)], count)
            far = np.linalg.norm(rows['place'] - [0, 0, 1000] - np.array(places)[rows['row']] / 10, axis=1)
            equal((count, 0 < far.max() <= 30, far.max() > 1), (len(set(rows['row'].tolist())), True, True))

    def test_crossings_of_far_places(self) -> None:
        draw = random.Random(4)
        for size in (4, 1000, 4000000):
            places = [tuple(draw.randrange(size) for _ in range(3)) for _ in range(60)]
            pairs = [draw.sample(range(60), 6) for _ in range(1000)]
            pairs += [row[:3] + row[:k] + row[3:6 - k] for row in pairs[:300] for k in (1, 2)]
            pairs = [row for row in pairs
                     if all(any(normal_of(*(places[k] for k in half))) for half in (row[:3], row[3:]))]
            rows = np.array(pairs)
            got = crossing(np.array(places), rows[:, :3], rows[:, 3:])
            equal(got.tolist(), [cross(places, row[:3], row[3:]) for row in pairs])

    @unittest.skipUnless(RECON and RECON_MESH, 'recon and recon-mesh are not built here')
    def test_what_recon_builds_is_finished(self) -> None:
        equal(call('make_scan', 'statue', '600', '1', 'scan.ply')[0], 0)
        subprocess.run([RECON, 'build', 'scan.ply', 'mesh.ply', 'cert'], check=True, capture_output=True)
        status, said, error = call('finish', 'mesh.ply', 'out.ply', 'pieces=1', 'scan=scan.ply', 'manifold=yes')
        equal((status, error, 'copied scanner from the scan' in said), (0, '', True))
        status, said, error = call('finish', 'mesh.ply', 'out.ply', 'pieces=1', 'scan=scan.ply', 'manifold=yes', 'smooth=1', 'within=9')
        equal((status, error, 'split off ' in said), (0, '', True))

    @unittest.skipUnless(RECON_MESH, 'recon-mesh is not built here')
    def test_meshes_that_are_not_finished(self) -> None:
        tetrahedron = mesh_text(SCAN_ROWS, [(0, 1, 2), (0, 2, 3), (0, 3, 1), (1, 3, 2)])
        write('in.ply', tetrahedron)
        write('scan.ply', head(1, 'float x, float y, float z') + '100 100 100\n')
        for words, part in ((('smooth=3',), 'required together'), (('within=1',), 'required together'),
                            (('smooth=1', 'within=0'), 'within='), (('smooth=101', 'within=1'), 'smooth='),
                            (('smooth=1', 'within=0.01', 'unit=99'), 'within=0.01 is less than one unit of the mesh'), (('pieces=0',), 'pieces='),
                            (('unit=0',), 'unit='), (('scan=scan.ply',), '3 of 4 vertices are not points of scan.ply at unit=1')):
            refuses('finish', part, 'in.ply', 'out.ply', *words)
        refuses('finish', 'unknown file name extension: use .ply, .stl, .glb, .obj', 'in.ply', 'out.off', out='out.off')
        spoiled = ((tetrahedron.replace('int x', 'double x'), 'floating-point numbers'), (tetrahedron[:-1], 'it is truncated'),
                   (tetrahedron[:-8], 'it has 24 numbers, its header states 28'),
                   (tetrahedron.replace('3 0 1 2', '3 0 1 4'), 'a face is not a triangle'),
                   (tetrahedron.replace('3 0 1 2', '3 0 1 3'), 'not closed'), (tetrahedron.replace('3 1 3 2\n', ''), 'its header states'),
                   (mesh_text([], []), 'no faces'))
        for text, part in spoiled:
            write('in.ply', text)
            refuses('finish', part, 'in.ply', 'out.ply')
