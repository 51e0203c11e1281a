"""The built `recon-mesh`: arguments, statuses, lines and files, and what no clause says: that flips and smoothing lower the angles
between faces.
They run where it is built (the path in RECON_MESH, ./recon-mesh, or what is left in crates/mesh_main/out)."""
from __future__ import annotations

import hashlib
import os
import random
import subprocess
import unittest
from collections import Counter
from itertools import combinations, permutations
from typing import Any, Sequence

import numpy as np

from helpers import RECON_MESH, InFolder, equal, read, write
from samples import ball, edges_of, mesh_of, mesh_text
from test_finish import crossing_pairs, flat, total_angle

Place = tuple[int, int, int]
Solid = tuple[list[Place], list[tuple[int, ...]]]

POINTS = [(100, 100, 100), (100, -100, -100), (-100, 100, -100), (-100, -100, 100)]
FACES = [(0, 1, 2), (0, 2, 3), (0, 3, 1), (1, 3, 2)]
CUBE = [(x, y, z) for x in (0, 1) for y in (0, 1) for z in (0, 1)]
SIDES = [(0, 1, 3, 2), (4, 6, 7, 5), (0, 4, 5, 1), (2, 3, 7, 6), (0, 2, 6, 4), (1, 5, 7, 3)]
CUBE_FACES = [face for a, b, c, d in SIDES for face in ((a, b, c), (a, c, d))]

# options that are invalid: one of the two numbers alone, a number out of range, an option twice
NO_SMOOTHING = [('smooth=1',), ('within=1',), ('smooth=0', 'within=1'), ('smooth=101', 'within=1'), ('smooth=1', 'within=0'),
                ('smooth=1', 'within=8388609'), ('smooth=', 'within=1'), ('smooth=1', 'within=-1'), ('smooth=1', 'within=1.5'),
                ('smooth=1', 'smooth=1', 'within=1'), ('smooth=1', 'within=1', 'within=2'), ('smooth', 'within=1'), ('smooth=1', 'flips=no'),
                ('comments=yes',), ('comments=no', 'comments=no'), ('comments',)]

# options, how the header states them, and the scale
STATED = [((), '', 1), (('flips=no',), ' flips=no', 1), (('manifold=yes', 'pieces=007'), ' pieces=7 manifold=yes', 1),
          (('within=20', 'smooth=3'), ' smooth=3 within=20', 1024),
          (('within=2', 'smooth=1', 'flips=no', 'manifold=yes', 'pieces=1'), ' pieces=1 manifold=yes flips=no smooth=1 within=2', 1024)]

# options of `move` that leave the faces
MOVING = ('smooth=1', 'within=2', 'flips=no')

# the line of an error in a header, and what is changed there
INVALID_HEADERS = [
    (3, 'comment recon-mesh finish', 'comment by recon-mesh'), (3, 'pieces=4294967295 ', 'pieces=4294967296 '), (3, 'pieces=4294967295 ', 'pieces=0 '),
    (3, 'pieces=4294967295 ', 'pieces=01 '), (3, 'pieces=4294967295 ', 'pieces=1  '), (3, ' manifold=yes flips=no', ' flips=no manifold=yes'),
    (3, 'manifold=yes', 'manifold=no'), (3, 'smooth=100 ', 'smooth=101 '), (3, 'smooth=100 ', 'smooth=0 '), (3, ' within=8388608', ''),
    (3, 'within=8388608', 'within=8388609'), (3, 'within=8388608', 'within=8388608 '), (4, 'scale 4294967295', 'scale 4294967296'),
    (4, 'scale 4294967295', 'scale 0'), (4, 'comment scale', 'comment  scale'), (5, 'sha256 ', 'sha256  '), (5, 'comment sha256', 'comment sha512'),
    (6, 'element vertex 4', 'element vertex 04'), (13, '100 100 100', '100 100 +100'), (17, '3 0 1 2', '3 0 1 4'), (21, '3 1 3 2', '3 1 3 2\n')]


def moved(points: Sequence[Any], by: Sequence[int]) -> list[tuple[int, ...]]:
    """Returns the points, moved by a vector."""
    return [tuple(x + y for x, y in zip(point, by)) for point in points]


def two_cubes(by: Sequence[int]) -> tuple[list[tuple[int, ...]], list[tuple[int, ...]]]:
    """Two unit cubes as one mesh, the second moved by a vector; points at one place are one vertex."""
    points = list(dict.fromkeys(CUBE + moved(CUBE, by)))
    number = [points.index(point) for point in moved(CUBE, by)]
    return points, CUBE_FACES + [(number[a], number[b], number[c]) for a, b, c in CUBE_FACES]


NO_PAIR = 'crossing_pairs 0 undecided_pairs 0'
TWO = (POINTS + moved(POINTS, (10, 20, 30)), FACES + [(a + 4, b + 4, c + 4) for a, b, c in FACES])
SMOOTHED = [tuple(1024 * x for x in place) for place in POINTS]

# points, faces, whether closed, non-manifold edges and vertices, pieces, faces without area, pairs that cross, and six times the volume;
# faces without area are undecided
INSPECTED: list[tuple[Any, Any, str, int, int, int, int, str, int]] = [
    ([], [], 'yes', 0, 0, 0, 0, NO_PAIR, 0),
    (POINTS, [], 'yes', 0, 0, 0, 0, NO_PAIR, 0),
    (POINTS, FACES, 'yes', 0, 0, 1, 0, NO_PAIR, 16000000),
    (POINTS, [(a, c, b) for a, b, c in FACES], 'yes', 0, 0, 1, 0, NO_PAIR, -16000000),
    (moved(POINTS, (8000000, -8000000, 7)), FACES, 'yes', 0, 0, 1, 0, NO_PAIR, 16000000),
    (POINTS, FACES[1:], 'no edge 0 1 there 0 back 1', 3, 3, 1, 0, NO_PAIR, 12000000),
    (POINTS, FACES[:3] + [(1, 2, 3)], 'no edge 1 2 there 2 back 0', 0, 0, 1, 0, NO_PAIR, 8000000),
    (POINTS, FACES + FACES[3:], 'no edge 1 2 there 1 back 2', 3, 3, 1, 0, NO_PAIR, 20000000),
    (CUBE, CUBE_FACES, 'yes', 0, 0, 1, 0, NO_PAIR, 6),
    (*two_cubes((1, 1, 1)), 'yes', 0, 1, 2, 0, NO_PAIR, 12),
    (*two_cubes((1, 1, 0)), 'yes', 1, 2, 1, 0, NO_PAIR, 12),
    ([(0, 0, 0), (1, 1, 1), (3, 3, 3), (0, 0, 0)], [(0, 1, 2), (0, 2, 1), (0, 3, 1), (0, 1, 3)], 'yes', 1, 2, 1, 4,
     'crossing_pairs 0 undecided_pairs 4', 0),
    (*TWO, 'yes', 0, 0, 2, 0, 'crossing_pairs 6 undecided_pairs 0 first_pair 0 4', 32000000),
    (POINTS + POINTS[2:3], [(0, 1, 2), (0, 4, 1)], 'no edge 0 2 there 0 back 1', 4, 4, 1, 0, 'crossing_pairs 1 undecided_pairs 0 first_pair 0 1', 0),
]


# points and faces of a mesh; those of a finished one; what its header states; and the line of `check`
CHECKED: list[tuple[Any, Any, Any, Any, str, int, str]] = [
    (POINTS, FACES, POINTS, FACES, '', 1, f'yes points 4 faces 4 {NO_PAIR}'),
    (POINTS, FACES, POINTS, FACES, ' pieces=7 manifold=yes flips=no', 1, f'yes points 4 faces 4 {NO_PAIR}'),
    (POINTS, FACES, [], [], ' manifold=yes', 1, f'yes points 0 faces 0 {NO_PAIR}'),
    ([], [], [], [], '', 1, f'yes points 0 faces 0 {NO_PAIR}'),
    (POINTS, FACES, POINTS[::-1], FACES, '', 1, f'yes points 4 faces 4 {NO_PAIR}'),
    (*two_cubes((1, 1, 0)), *two_cubes((1, 1, 0)), '', 1, f'yes points 14 faces 24 {NO_PAIR}'),
    (*TWO, *TWO, '', 1, 'yes points 8 faces 8 crossing_pairs 6 undecided_pairs 0 first_pair 0 4'),
    (POINTS, FACES, POINTS, FACES[1:], ' manifold=yes', 1, 'no 3 unbalanced from 0 to 1 there 0 back 1'),
    (POINTS, FACES, moved(POINTS, (0, 0, 1)), FACES + FACES[3:], ' manifold=yes', 1, 'no 3 unbalanced from 1 to 2 there 1 back 2'),
    (*two_cubes((1, 1, 0)), *two_cubes((1, 1, 0)), ' manifold=yes', 1, 'no 4 nonmanifold_edges 1 nonmanifold_vertices 2'),
    (*two_cubes((1, 1, 1)), *two_cubes((1, 1, 1)), ' manifold=yes', 1, 'no 4 nonmanifold_edges 0 nonmanifold_vertices 1'),
    (POINTS, FACES, *two_cubes((1, 1, 1)), ' manifold=yes', 1, 'no 4 nonmanifold_edges 0 nonmanifold_vertices 1'),
    (POINTS, FACES, POINTS[:3] + [(-100, -100, 101)], FACES, '', 1, 'no 5 far_vertex 3'),
    (POINTS, FACES, CUBE, CUBE_FACES, ' manifold=yes', 1, 'no 5 far_vertex 0'),
    ([], [], POINTS, [], '', 1, 'no 5 far_vertex 0'),
    (POINTS, FACES, SMOOTHED, FACES, ' smooth=1 within=2', 1024, f'yes points 4 faces 4 {NO_PAIR}'),
    (POINTS, FACES, moved(SMOOTHED, (0, -2048, 0)), FACES, ' smooth=1 within=2', 1024, f'yes points 4 faces 4 {NO_PAIR}'),
    (POINTS, FACES, SMOOTHED[:2] + moved(SMOOTHED[2:], (2048, 1, 0)), FACES, ' smooth=1 within=2', 1024, 'no 5 far_vertex 2'),
    (POINTS, FACES, SMOOTHED, FACES, ' smooth=1 within=2', 1000, 'no 5 far_vertex 0'),
    (POINTS, FACES, SMOOTHED, FACES, '', 1023, 'no 5 far_vertex 0'),
    (POINTS, FACES, SMOOTHED, FACES, '', 1024, f'yes points 4 faces 4 {NO_PAIR}'),
    (POINTS, FACES, moved(SMOOTHED, (1, 0, 0)), FACES, '', 1024, 'no 5 far_vertex 0')]


def with_provenance(text: str, options: str, scale: int, source: str) -> str:
    """The text of a mesh, with comments on what was done to which mesh."""
    comments = f'comment recon-mesh finish{options}\ncomment scale {scale}\ncomment sha256 {hashlib.sha256(source.encode()).hexdigest()}\n'
    head, rest = text.split('element vertex', 1)
    return f'{head}{comments}element vertex{rest}'


def mesh_program(*words: str) -> Any:
    """Status, standard output and standard error of a run."""
    done = subprocess.run([RECON_MESH, *words], capture_output=True, text=True, timeout=60)
    return done.returncode, done.stdout, done.stderr


TILES = ('tiles 2\ncut x 4000\ntile a.ply -2097152 -2097152 -2097152 4000 2097152 2097152\n'
         'tile b.ply 4000 -2097152 -2097152 2097152 2097152 2097152\n')
USAGE = ''.join(f'usage: recon-mesh {words}\n' for words in (
    'finish MESH OUT [pieces=N] [manifold=yes] [flips=no] [smooth=N within=D] [comments=no]',
    'move MESH TARGETS OUT smooth=N within=D [pieces=N] [manifold=yes] [flips=no] [comments=no]',
    'simplify MESH OUT within=D [faces=N] [surface=yes] [move=yes] [comments=no]', 'join TILES OUT', 'inspect MESH', 'check MESH OUT'))


@unittest.skipUnless(RECON_MESH, 'recon-mesh is not built here')
class MeshProgram(InFolder):
    def setUp(self) -> None:
        super().setUp()
        write('mesh.ply', mesh_text(POINTS, FACES))

    def test_invalid_arguments(self) -> None:
        for words in ((), ('--help',), ('finish',), ('finish', 'mesh.ply'), ('finish', 'mesh.ply', 'mesh.ply'), ('finish', '', 'out.ply'),
                      ('finish', 'mesh.ply', ''), ('finish', 'mesh.ply', 'out.ply', 'flips=yes'), ('finish', 'mesh.ply', 'out.ply', ''),
                      ('finish', 'mesh.ply', 'out.ply', 'flips=no', 'flips=no'), ('finish', 'mesh.ply', 'out.ply', 'pieces='),
                      ('finish', 'mesh.ply', 'out.ply', 'pieces=0'), ('finish', 'mesh.ply', 'out.ply', 'pieces=-1'),
                      ('finish', 'mesh.ply', 'out.ply', 'pieces=4294967296'), ('finish', 'mesh.ply', 'out.ply', 'pieces=1', 'pieces=1'),
                      ('finish', 'mesh.ply', 'out.ply', 'manifold=no'), ('finish', 'mesh.ply', 'out.ply', 'manifold=yes', 'manifold=yes'),
                      *(('finish', 'mesh.ply', 'out.ply', *words) for words in NO_SMOOTHING),
                      ('move', 'mesh.ply', 'out.ply', 'smooth=1', 'within=1'), ('move', 'mesh.ply', 'to.ply', 'out.ply'),
                      ('move', 'mesh.ply', 'mesh.ply', 'out.ply', *MOVING), ('move', 'mesh.ply', 'to.ply', 'to.ply', *MOVING),
                      ('move', 'mesh.ply', 'to.ply', 'out.ply', 'smooth=1'), ('move', 'mesh.ply', '', 'out.ply', *MOVING),
                      ('Finish', 'mesh.ply', 'out.ply'), ('inspect',), ('inspect', ''), ('inspect', 'mesh.ply', 'out.ply'),
                      ('join',), ('join', 'mesh.ply'), ('join', 'mesh.ply', 'mesh.ply'), ('join', 'mesh.ply', 'out.ply', 'comments=no'),
                      ('check',), ('check', 'mesh.ply'), ('check', 'mesh.ply', 'mesh.ply'), ('check', '', 'out.ply'), ('check', 'mesh.ply', ''),
                      ('check', 'mesh.ply', 'out.ply', 'flips=no'), ('check', 'mesh.ply', 'out.ply', 'other.ply')):
            status, line, error = mesh_program(*words)
            equal((status, line), (2, 'refused words\n'))
            equal(USAGE in error, True)
        equal(os.listdir('.'), ['mesh.ply'])

    def test_invalid_meshes(self) -> None:
        text = mesh_text(POINTS, FACES)
        for bytes_, line in ((text[:-1], 'refused 30 mesh_cut\n'), ('', 'refused 30 mesh_cut\n'), (text + '\n', 'refused 29 mesh_line line 18\n'),
                             (text.replace('int x', 'float x'), 'refused 29 mesh_line line 4\n'),
                             (text.replace('\n', '\r\n'), 'refused 29 mesh_line line 1\n'),
                             (text.replace('3 0 1 2', '3 0 1 4'), 'refused 29 mesh_line line 14\n')):
            write('mesh.ply', bytes_)
            write('out.ply', 'as it was')
            for words in (('finish', 'mesh.ply', 'out.ply'), ('inspect', 'mesh.ply'), ('check', 'mesh.ply', 'out.ply'), ('check', 'mesh.ply', 'none.ply')):
                status, said, error = mesh_program(*words)
                equal((status, said, error.startswith('recon-mesh: ')), (3, line, True))
            equal(read('out.ply'), 'as it was')
            write('mesh.ply', text)
            write('out.ply', bytes_)
            status, said, error = mesh_program('check', 'mesh.ply', 'out.ply')
            out = line.replace('29 mesh_line', '32 out_line').replace('30 mesh_cut', '33 out_cut')
            equal((status, said, error.startswith('recon-mesh: ')), (3, out, True))
            status, said, error = mesh_program('move', 'mesh.ply', 'out.ply', 'new.ply', *MOVING)
            line = line.replace('29 mesh_line', '34 targets_line').replace('30 mesh_cut', '35 targets_cut')
            equal((status, said, error.startswith('recon-mesh: ')), (3, line, True))
        equal(os.path.exists('new.ply'), False)

    def test_failed_calls(self) -> None:
        for words in (('finish', 'none.ply', 'out.ply'), ('finish', 'mesh.ply', 'none/out.ply'), ('finish', '.', 'out.ply'), ('inspect', 'none.ply'), ('inspect', '.'),
                      ('move', 'mesh.ply', 'none.ply', 'out.ply', *MOVING), ('move', 'none.ply', 'mesh.ply', 'out.ply', *MOVING),
                      ('check', 'none.ply', 'mesh.ply'), ('check', 'mesh.ply', 'none.ply'), ('check', 'mesh.ply', '.')):
            status, said, error = mesh_program(*words)
            equal((status, said, error.startswith('recon-mesh: ')), (4, '', True))
        equal(os.listdir('.'), ['mesh.ply'])

    def test_a_mesh_without_flips_is_the_same_file(self) -> None:
        places, faces = ball(6, 3000, 0.1)
        for text in (mesh_text(POINTS, FACES), mesh_text(places, [turned(face) for face in faces]), mesh_text([], [])):
            write('mesh.ply', text)
            for words in (('flips=no', 'comments=no'), ('comments=no', 'flips=no')):
                status, said, _ = mesh_program('finish', 'mesh.ply', 'out.ply', *words)
                equal((status, said.startswith('finished points '), read('out.ply')), (0, True, text))

    def test_the_header_states_where_a_mesh_comes_from(self) -> None:
        text = mesh_text(POINTS, FACES)
        write('mesh.ply', text)
        for words, stated, scale in STATED:
            equal(mesh_program('finish', 'mesh.ply', 'out.ply', *words)[0], 0)
            equal(mesh_program('finish', 'mesh.ply', 'plain.ply', *words, 'comments=no')[0], 0)
            equal(read('out.ply'), with_provenance(read('plain.ply'), stated, scale, text))
        write('mesh.ply', read('out.ply'))
        equal(mesh_program('inspect', 'mesh.ply'), mesh_program('inspect', 'plain.ply'))
        equal(mesh_program('finish', 'mesh.ply', 'again.ply', 'flips=no')[0], 0)
        equal(read('again.ply'), with_provenance(read('plain.ply'), ' flips=no', 1, read('mesh.ply')))

    def test_move_takes_targets(self) -> None:
        text = mesh_text(POINTS, FACES)
        near, far = moved(SMOOTHED, (300, -200, 5)), [*SMOOTHED[:3], (-102400, -102400, 204800)]
        for targets, reached in ((near, near), (SMOOTHED, SMOOTHED), (far, [*SMOOTHED[:3], (-102400, -102400, 102400 + 2048)])):
            write('to.ply', mesh_text(targets, []))
            equal(mesh_program('move', 'mesh.ply', 'to.ply', 'out.ply', *MOVING)[:2], (0, 'finished points 4 faces 4 fine 1024\n'))
            equal(read('out.ply'), with_provenance(mesh_text(reached, FACES), ' flips=no smooth=1 within=2', 1024, text))
            equal(mesh_program('check', 'mesh.ply', 'out.ply')[:2], (0, f'yes points 4 faces 4 {NO_PAIR}\n'))

    def test_move_needs_a_target_for_each_point(self) -> None:
        write('mesh.ply', mesh_text(*TWO))
        for count, words in ((8, ()), (4, ('pieces=1',))):
            for targets in (POINTS[:3], POINTS + POINTS + POINTS[:1], []):
                write('to.ply', mesh_text(targets, []))
                status, said, error = mesh_program('move', 'mesh.ply', 'to.ply', 'out.ply', *MOVING, *words)
                equal((status, said), (3, f'refused 36 targets_count targets {len(targets)} points {count}\n'))
                equal(error.startswith('recon-mesh: '), True)
        equal(os.path.exists('out.ply'), False)

    def test_invalid_headers(self) -> None:
        text = mesh_text(POINTS, FACES)
        good = with_provenance(text, ' pieces=4294967295 manifold=yes flips=no smooth=100 within=8388608', 4294967295, text)
        write('mesh.ply', good)
        equal(mesh_program('inspect', 'mesh.ply')[0], 0)
        for line, old, new in INVALID_HEADERS:
            equal(good.count(old), 1)
            write('mesh.ply', good.replace(old, new))
            equal(mesh_program('inspect', 'mesh.ply')[:2], (3, f'refused 29 mesh_line line {line}\n'))
        for size in (10, 30, 70, 150, 200, 250, len(good) - 1):
            write('mesh.ply', good[:size])
            equal(mesh_program('inspect', 'mesh.ply')[:2], (3, 'refused 30 mesh_cut\n'))

    def test_inspections(self) -> None:
        for points, faces, closed, edges, vertices, pieces, flat, pairs, volume in INSPECTED:
            write('mesh.ply', mesh_text(points, [turned(face) for face in faces]))
            topology = f'nonmanifold_edges {edges} nonmanifold_vertices {vertices} pieces {pieces}'
            line = f'inspected points {len(points)} faces {len(faces)} closed {closed} {topology} flat_faces {flat} {pairs} volume {volume}/6\n'
            equal(mesh_program('inspect', 'mesh.ply'), (0, line, ''))
        equal(os.listdir('.'), ['mesh.ply'])

    def test_checks(self) -> None:
        for points, faces, new_points, new_faces, options, scale, line in CHECKED:
            text = mesh_text(points, [turned(face) for face in faces])
            plain = mesh_text(new_points, [turned(face) for face in new_faces])
            finished = with_provenance(plain, options, scale, text)
            digit = finished.split('sha256 ')[1][63]
            other = finished.replace(f'{digit}\nelement vertex', f'{"0" if digit != "0" else "1"}\nelement vertex')
            write('mesh.ply', text)
            for out, wanted in ((finished, line), (other, 'no 2 other_mesh'), (plain, 'no 1 not_stated')):
                write('out.ply', out)
                status, said, error = mesh_program('check', 'mesh.ply', 'out.ply')
                equal((status, said, error.startswith('recon-mesh: ')), (int(wanted[:2] == 'no'), f'{wanted}\n', wanted[:2] == 'no'))
        equal(sorted(os.listdir('.')), ['mesh.ply', 'out.ply'])

    def test_finished_meshes_are_confirmed(self) -> None:
        places, faces = ball(6, 3000, 0.1)
        for points, corners in ((POINTS, FACES), two_cubes((1, 1, 0)), two_cubes((1, 1, 1)), (places, faces)):
            write('mesh.ply', mesh_text(points, [turned(face) for face in corners]))
            for words, _, _ in STATED + [(('smooth=3', 'within=300'), '', 1024)]:
                line = mesh_program('finish', 'mesh.ply', 'out.ply', *words)[1]
                status, said, error = mesh_program('check', 'mesh.ply', 'out.ply')
                equal((status, said.startswith(f'yes {" ".join(line.split()[1:5])} crossing_pairs '), error), (0, True, ''))
                equal(mesh_program('check', 'out.ply', 'out.ply'), mesh_program())
                equal(mesh_program('check', 'out.ply', './out.ply')[:2], (1, 'no 2 other_mesh\n'))

    def test_inspections_beside_whole_numbers(self) -> None:
        for seed in range(40):
            chance = random.Random(seed)
            size = chance.choice((1, 3, 8388608))
            points = [tuple(chance.randint(-size, size) for _ in range(3)) for _ in range(chance.randint(3, 6))]
            faces = [turned(chance.sample(range(len(points)), 3)) for _ in range(chance.randint(0, 12))]
            write('mesh.ply', mesh_text(points, faces))
            status, line, error = mesh_program('inspect', 'mesh.ply')
            undecided = line.split(' undecided_pairs ')[1].split()[0]
            equal((status, line, error), (0, inspected(points, faces, undecided), ''))

    def test_flips_lower_the_angles(self) -> None:
        for size, roughness in ((3000, 0.1), (1900000, 0.1), (300, 0.3)):
            places, faces = ball(6, size, roughness)
            faces = [turned(face) for face in faces]
            write('mesh.ply', mesh_text(places, faces))
            equal(mesh_program('finish', 'mesh.ply', 'out.ply'), (0, f'finished points {len(places)} faces {len(faces)}\n', ''))
            points, finished = mesh_of(read('out.ply'))
            equal(points, [tuple(place) for place in places])
            equal(edges_of(finished), Counter((b, a) for a, b in edges_of(finished).elements()))
            equal(set(edges_of(finished).values()), {1})
            before, after = np.array(flat(faces)), np.array(flat(finished))
            equal(len(crossing_pairs(places, after)) <= len(crossing_pairs(places, before)), True)
            equal(total_angle(places, after) < 0.9 * total_angle(places, before), True)

    def test_dents_in_the_edges_of_a_box_with_flat_sides(self) -> None:
        points, faces = dented_box(4)
        kept, new = self.finish(points, faces)
        equal((kept, six_volume(points, faces) < 6 * 64, six_volume(kept, new)), (points, True, 6 * 64))

    def test_smoothing_lowers_the_angles(self) -> None:
        for size, roughness, within, fine in ((3000, 0.1, 300, 1024), (1000000, 0.1, 100000, 2), (4000000, 0.1, 400000, 1), (300, 0.3, 30, 1024)):
            places, faces = ball(6, size, roughness)
            faces = [turned(face) for face in faces]
            write('mesh.ply', mesh_text(places, faces))
            equal(mesh_program('finish', 'mesh.ply', 'flat.ply')[0], 0)
            for options in (('smooth=3', f'within={within}'), (f'within={within}', 'flips=no', 'smooth=1')):
                line = f'finished points {len(places)} faces {len(faces)} fine {fine}\n'
                equal(mesh_program('finish', 'mesh.ply', 'out.ply', *options), (0, line, ''))
                points, finished = mesh_of(read('out.ply'))
                home = [tuple(fine * x for x in place) for place in places]
                equal(max(sum(x * x for x in difference(p, q)) for p, q in zip(home, points)) <= (fine * within) ** 2, True)
                equal(edges_of(finished), Counter((b, a) for a, b in edges_of(finished).elements()))
                equal(set(edges_of(finished).values()), {1})
                start = faces if 'flips=no' in options else mesh_of(read('flat.ply'))[1]
                equal(finished == faces, 'flips=no' in options)
                before, after = np.array(flat(start)), np.array(flat(finished))
                equal(len(crossing_pairs(points, after)) <= len(crossing_pairs(home, before)), True)
                equal(total_angle(points, after) < 0.9 * total_angle(home, before), True)

    def test_smoothing_at_its_limits(self) -> None:
        far = 8388608
        for points, faces, within, fine in (([], [], 1, 1024), (CUBE, CUBE_FACES, 1, 1024), (CUBE, CUBE_FACES, far, 1024),
                                            ([tuple(far * (2 * x - 1) for x in p) for p in CUBE], CUBE_FACES, far, 1)):
            write('mesh.ply', mesh_text(points, faces))
            line = f'finished points {len(points)} faces {len(faces)} fine {fine}\n'
            equal(mesh_program('finish', 'mesh.ply', 'out.ply', f'within={within}', 'manifold=yes', 'smooth=100'), (0, line, ''))
            moves = [difference([fine * x for x in p], q) for p, q in zip(points, mesh_of(read('out.ply'))[0])]
            equal(all(sum(x * x for x in move) <= (fine * within) ** 2 for move in moves), True)

    def test_tiles_are_joined(self) -> None:
        for name, (points, faces) in (('a.ply', (POINTS, FACES)), ('b.ply', (moved(POINTS, (9000, 0, 0)), FACES))):
            write(name, mesh_text(points, faces))
        write('list', TILES)
        equal(mesh_program('join', 'list', 'out.ply'), (0, 'joined tiles 2 points 8 faces 8 moved 0 filled 0\n', ''))
        equal(mesh_program('inspect', 'out.ply')[1], f'inspected points 8 faces 8 closed yes nonmanifold_edges 0 nonmanifold_vertices 0 pieces 2 flat_faces 0 '
              f'{NO_PAIR} volume 32000000/6\n')
        # a mesh that both tiles have is there once
        write('b.ply', read('a.ply'))
        equal(mesh_program('join', 'list', 'same.ply')[:2], (0, 'joined tiles 2 points 4 faces 4 moved 0 filled 0\n'))
        equal(mesh_program('inspect', 'same.ply')[1].endswith('volume 16000000/6\n'), True)

    def test_tiles_that_are_not_joined(self) -> None:
        good = mesh_text(POINTS, FACES)
        write('a.ply', good)
        write('out.ply', 'as it was')
        lines = TILES.splitlines(keepends=True)
        for text, line in ((TILES[:-1], 'refused 38 tiles_cut'), ('', 'refused 38 tiles_cut'), (TILES + '\n', 'refused 37 tiles_line line 5'),
                           (TILES.replace('cut x', 'cut w'), 'refused 37 tiles_line line 2'), (TILES.replace('s 2', 's 0'), 'refused 37 tiles_line line 1'),
                           (TILES.replace('b.ply', '../b.ply'), 'refused 37 tiles_line line 4'), (''.join(lines[:3]), 'refused 38 tiles_cut')):
            write('list', text)
            status, said, error = mesh_program('join', 'list', 'out.ply')
            equal((status, said, error.startswith('recon-mesh: ')), (3, line + '\n', True))
        write('list', TILES)
        flat = mesh_text([(0, 0, 0), (0, 0, 0), (1, 0, 0), (0, 1, 0)], [(0, 1, 2)])
        for text, line in ((good[:-1], 'refused 40 tile_cut tile 1'), (good + '\n', 'refused 39 tile_line tile 1 line 18'),
                           (good.replace('3 0 1 2', '3 0 1 4'), 'refused 39 tile_line tile 1 line 14'), (flat, 'refused 41 flat_tile tile 1')):
            write('b.ply', text)
            status, said, error = mesh_program('join', 'list', 'out.ply')
            equal((status, said, error.startswith('recon-mesh: ')), (3, line + '\n', True))
        os.remove('b.ply')
        equal(mesh_program('join', 'list', 'out.ply')[:2], (4, ''))
        equal(mesh_program('join', 'none', 'out.ply')[:2], (4, ''))
        equal(read('out.ply'), 'as it was')

    def test_a_mesh_that_is_not_closed(self) -> None:
        write('mesh.ply', mesh_text(POINTS, FACES[1:]))
        write('out.ply', 'as it was')
        for options in ((), ('flips=no',), ('pieces=1',), ('manifold=yes', 'pieces=2'), ('smooth=1', 'within=1')):
            status, said, _ = mesh_program('finish', 'mesh.ply', 'out.ply', *options)
            equal((status, said, read('out.ply')), (3, 'refused 28 unbalanced from 0 to 1 there 0 back 1\n', 'as it was'))

    def test_pieces_by_size(self) -> None:
        corners: Solid = ([(x, y, z) for x, y, z in POINTS], FACES)
        points, faces = joined(cube(0, 0, 0), shifted(corners, 1000), cube(200, 0, 0), shifted(rough_ball(), 2000))
        for count, sizes in ((1, [48]), (2, [48, 12]), (3, [48, 12, 12]), (4, [48, 12, 12, 4]), (5, [48, 12, 12, 4])):
            kept, new = self.finish(points, faces, f'pieces={count}', 'flips=no')
            equal((len(new), len(kept)), (sum(sizes), sum({48: 26, 12: 8, 4: 4}[size] for size in sizes)))
            equal([[kept[v] for v in face] for face in new],
                  [[points[v] for v in face] for face in faces if any(points[face[0]] == place for place in kept)])
            equal([place for place in points if place in kept], kept)

    def test_cubes_that_touch(self) -> None:
        for name, points, faces in (('edge', *joined(cube(0, 0, 0), cube(100, 100, 0))), ('vertex', *joined(cube(0, 0, 0), cube(100, 100, 100)))):
            twice = [edge for edge, count in edges_of(faces).items() if count > 1]
            equal((len(points), len(twice)), (14, 2) if name == 'edge' else (15, 0))
            kept, one = self.finish(points, faces, 'pieces=1')
            equal((len(kept), len(one)), (8, 12))
            split, new = self.finish(points, faces, 'manifold=yes', 'flips=no')
            equal((len(split), sorted(set(split)), split), (16, sorted(points), sorted(split, key=points.index)))
            equal([[split[v] for v in face] for face in new], [[points[v] for v in face] for face in faces])
            for options in (('manifold=yes',), ('manifold=yes', 'flips=no'), ('pieces=2', 'manifold=yes')):
                split, new = self.finish(points, faces, *options)
                equal((len(split), set(edges_of(new).values())), (16, {1}))
                equal(edges_of(new), Counter((b, a) for a, b in edges_of(new).elements()))
                equal(topology(new), 'nonmanifold_edges 0 nonmanifold_vertices 0 pieces 2')

    def test_a_cavity_that_touches_the_outside_in_an_edge(self) -> None:
        hollow = [(1, 1, 1), (2, 2, 1)]
        cells = [(x, y, z) for x in range(3) for y in range(3) for z in range(3) if (x, y, z) not in hollow]
        points, faces = joined(*(cube(100 * x, 100 * y, 100 * z) for x, y, z in cells))
        faces = [face for face in faces if turned(face[::-1]) not in faces]
        equal((len(points), [count for count in edges_of(faces).values() if count > 1]), (64, [2, 2]))
        for options, count, pieces in ((('manifold=yes',), 66, 2), (('manifold=yes', 'flips=no'), 66, 2), (('pieces=1', 'manifold=yes'), 58, 1)):
            split, new = self.finish(points, faces, *options)
            equal((len(split), set(edges_of(new).values())), (count, {1}))
            equal(topology(new), f'nonmanifold_edges 0 nonmanifold_vertices 0 pieces {pieces}')

    def test_an_edge_of_a_part_that_is_inside_out(self) -> None:
        for order in permutations([(100, 0, 0), (0, 100, 0), (70, 70, 0), (-70, 70, 0)]):
            points = [*order, (0, 0, -50), (0, 0, 50)]
            a, b, c, d = map(points.index, [(100, 0, 0), (0, 100, 0), (70, 70, 0), (-70, 70, 0)])
            faces = [(4, a, 5), (4, 5, b), (4, b, a), (5, a, b), (4, 5, c), (4, d, 5), (4, c, d), (5, d, c)]
            split, new = self.finish(points, faces, 'manifold=yes', 'flips=no')
            equal((len(split), topology(new)), (8, 'nonmanifold_edges 0 nonmanifold_vertices 0 pieces 2'))

    def finish(self, points: list[Place], faces: Sequence[Any], *options: str) -> Solid:
        """The points and faces that `finish` writes of this mesh."""
        write('mesh.ply', mesh_text(points, [turned(face) for face in faces]))
        status, _, error = mesh_program('finish', 'mesh.ply', 'out.ply', *options)
        equal((status, error), (0, ''))
        kept, new = mesh_of(read('out.ply'))
        return [(x, y, z) for x, y, z in kept], new


def cube(x: int, y: int, z: int) -> Solid:
    """A cube of side 100 with this corner, faces from outside counterclockwise."""
    places = [(x + 100 * (k & 1), y + 100 * (k >> 1 & 1), z + 100 * (k >> 2)) for k in range(8)]
    quads = ((0, 2, 3, 1), (4, 5, 7, 6), (0, 1, 5, 4), (2, 6, 7, 3), (0, 4, 6, 2), (1, 3, 7, 5))
    return places, [face for a, b, c, d in quads for face in ((a, b, c), (a, c, d))]


def dented_box(size: int) -> Solid:
    """A cube of this side, its sides cut into unit squares. One step of each edge is flipped, from corner to corner of the two sides."""
    points: list[Place] = []
    faces: list[tuple[int, ...]] = []
    grid = [(i, j) for i in range(size) for j in range(size)]
    for axis in range(3):
        for top in (0, size):
            for i, j in grid:
                square = [(i, j, top), (i + 1, j, top), (i + 1, j + 1, top), (i, j + 1, top)]
                corners = [(p[-axis % 3], p[(1 - axis) % 3], p[(2 - axis) % 3]) for p in (square if top else square[::-1])]
                points += [place for place in corners if place not in points]
                a, b, c, d = map(points.index, corners)
                faces += [(a, b, c), (a, c, d)]
    for axis in range(3):
        for k in range(4):
            ends = [[size * (k & 1), size * (k >> 1)] for _ in range(2)]
            for step, end in enumerate(ends):
                end.insert(axis, 1 + step)
            a, b = [points.index((x, y, z)) for x, y, z in ends]
            (one, c), (other, d) = [(i, w) for i, face in enumerate(faces) for u, v, w in turns(face) if {u, v} == {a, b}]
            a, b = [(u, v) for u, v, w in turns(faces[one]) if w == c][0]
            faces[one], faces[other] = (a, d, c), (d, b, c)
    return points, faces


def turns(face: Sequence[int]) -> list[tuple[int, ...]]:
    """The face, written from each of its corners on."""
    return [(*face[k:], *face[:k]) for k in range(3)]


def rough_ball() -> Solid:
    """A ball of 48 faces and 26 points."""
    places, faces = ball(2, 300)
    return [(int(x), int(y), int(z)) for x, y, z in places], [tuple(map(int, face)) for face in faces]


def shifted(solid: Solid, by: int) -> Solid:
    """A solid that is moved along the first axis."""
    places, faces = solid
    return [(x + by, y, z) for x, y, z in places], faces


def joined(*solids: Solid) -> Solid:
    """One mesh of these, in which equal places are one point."""
    points: list[Place] = []
    faces: list[tuple[int, ...]] = []
    for places, more in solids:
        points += [place for place in places if place not in points]
        faces += [turned([points.index(places[v]) for v in face]) for face in more]
    return points, faces


def inspected(points: Sequence[Any], faces: Sequence[Any], undecided: str) -> str:
    """The line of `inspect`, by the definitions of its numbers other than that of undecided pairs."""
    count = edges_of(faces)
    odd = sorted((min(edge), max(edge)) for edge in count if count[edge] != count[edge[::-1]])
    closed = 'closed yes'
    if odd:
        a, b = odd[0]
        closed = f'closed no edge {a} {b} there {count[a, b]} back {count[b, a]}'
    corners = [[points[v] for v in face] for face in faces]
    flat_faces = sum(not any(product(difference(a, b), difference(a, c))) for a, b, c in corners)
    measures = f'{topology(faces)} flat_faces {flat_faces} {crossings(points, faces, undecided)} volume {six_volume(points, faces)}/6'
    return f'inspected points {len(points)} faces {len(faces)} {closed} {measures}\n'


def six_volume(points: Sequence[Any], faces: Sequence[Any]) -> int:
    """Six times the signed volume."""
    return sum(x * y for a, b, c in faces for x, y in zip(points[a], product(points[b], points[c])))


def topology(faces: Sequence[Any]) -> str:
    """The numbers of non-manifold edges and vertices and of pieces, by their definitions."""
    sides = [{frozenset((a, b)), frozenset((b, c)), frozenset((c, a))} for a, b, c in faces]
    odd = {edge for edge, count in Counter(edge for face in sides for edge in face).items() if count != 2}
    vertices = 0
    for v in {v for face in faces for v in face}:
        around = [{edge for edge in face if v in edge} for face in sides if any(v in edge for edge in face)]
        vertices += any(v in edge for edge in odd) or pieces_of(around) > 1
    return f'nonmanifold_edges {len(odd)} nonmanifold_vertices {vertices} pieces {pieces_of(sides)}'


def crossings(points: Sequence[Any], faces: Sequence[Any], undecided: str) -> str:
    """The numbers of pairs of faces that cross, and the first, by the definition."""
    pairs = [pair for pair in combinations(range(len(faces)), 2) if share_more(points, faces[pair[0]], faces[pair[1]])]
    first = f' first_pair {pairs[0][0]} {pairs[0][1]}' if pairs else ''
    return f'crossing_pairs {len(pairs)} undecided_pairs {undecided}{first}'


def share_more(points: Sequence[Any], one: Sequence[int], other: Sequence[int]) -> bool:
    """Whether a point of both triangles has weights of both in which a corner counts that the other one has not. All pairs of weights
    that give one point are sums of those in which the fewest corners count."""
    columns = [(*points[v], 1) for v in one] + [(*(-x for x in points[v]), -1) for v in other]
    alone = [v not in other for v in one] + [v not in one for v in other]
    counts = {k for size in range(2, 6) for chosen in combinations(range(6), size) if chosen[0] < 3 <= chosen[-1]
              for k in chosen if alone[k] and fits([columns[k] for k in chosen])}
    return min(counts, default=3) < 3 <= max(counts, default=0)


def fits(columns: Sequence[tuple[int, ...]]) -> bool:
    """Whether positive multiples of these vectors, and no multiples of fewer, have the sum zero."""
    rows = [[column[k] for column in columns] for k in range(4)]
    for k in range(len(columns) - 1):
        pivot = next((i for i in range(k, 4) if rows[i][k]), None)
        if pivot is None:
            return False
        rows[k], rows[pivot] = rows[pivot], rows[k]
        rows = [row if i == k else [x * rows[k][k] - y * row[k] for x, y in zip(row, rows[k])] for i, row in enumerate(rows)]
    count = len(columns) - 1
    return all(rows[k][k] * rows[k][-1] < 0 for k in range(count)) and not any(row[-1] for row in rows[count:])


def pieces_of(sets: Sequence[set[Any]]) -> int:
    """The number of pieces that the sets are, where those with a common element are of one."""
    pieces: list[set[Any]] = []
    for one in sets:
        touched = [piece for piece in pieces if piece & one]
        pieces = [piece for piece in pieces if not piece & one] + [one.union(*touched)]
    return len(pieces)


def difference(a: Sequence[int], b: Sequence[int]) -> tuple[int, ...]:
    """The vector from a to b."""
    return tuple(y - x for x, y in zip(a, b))


def product(a: Sequence[int], b: Sequence[int]) -> tuple[int, int, int]:
    """The vector product."""
    return a[1] * b[2] - a[2] * b[1], a[2] * b[0] - a[0] * b[2], a[0] * b[1] - a[1] * b[0]


def turned(face: Sequence[int]) -> tuple[int, ...]:
    """Returns the face with its smallest number first."""
    k = min(range(3), key=lambda k: face[k])
    return tuple(face[k:]) + tuple(face[:k])


if __name__ == '__main__':
    unittest.main()
