"""`recon-mesh simplify`: arguments, lines, headers and errors, `check` and `inspect` of what it writes, and what no clause says: that it leaves
few faces. What it writes is judged by fractions (dev/fuzz/simplified.py)."""
from __future__ import annotations

import hashlib
import os
import unittest
from itertools import product

import numpy as np

from helpers import RECON_MESH, InFolder, equal, read, write
from fuzz.simplified import far_faults, faults, square_to_triangle
from recon.light import light_mesh, open_light
from recon.toolbox.mesh_files import Finished
from recon.toolbox.ply_text import Refusal
from samples import ball, mesh_of, mesh_text
from test_mesh_program import FACES, POINTS, mesh_program, moved, turned, two_cubes

INVALID = [(), ('within=0',), ('within=8388609',), ('within=1.5',), ('within=',), ('within=1', 'within=1'), ('within=1', 'faces=0'),
           ('within=1', 'faces=4294967296'), ('within=1', 'faces=1', 'faces=1'), ('faces=4',), ('comments=no',), ('within=1', 'smooth=1'),
           ('within=1', 'comments=no', 'comments=no'), ('within=1', 'comments=yes'), ('within=1', 'flips=no'), ('within=1', 'surface=no'),
           ('within=1', 'surface=yes', 'surface=yes'), ('surface=yes',), ('within=1', 'move=no'), ('within=1', 'move=yes', 'move=yes')]

# the line of an error in a header, and what is changed there
INVALID_HEADERS = [(3, ' within=8 ', ' within=0 '), (3, ' within=8 ', ' within=8388609 '), (3, ' within=8 ', ' within=08 '), (3, ' within=8 ', ' '),
                   (3, ' faces=9', ''), (3, ' faces=9', ' faces=4294967296'), (3, ' faces=9', ' faces=9 '), (3, ' faces=9', ' surface=no faces=9'),
                   (3, ' faces=9', ' faces=9 surface=yes'), (3, ' faces=9', ' faces=9 move=yes'), (3, ' faces=9', ' move=no faces=9'),
                   (3, ' faces=9', ' move=yes surface=yes faces=9'), (3, 'mesh simplify', 'mesh simplifies'),
                   (4, 'scale 1', 'scale 0'), (5, 'sha256 ', 'sha256  ')]


def stated(text: str, within: int, faces: int, source: str, scale: int = 1, surface: bool = False, moves: bool = False) -> str:
    """Returns a mesh with the comments of a simplified one."""
    digest = hashlib.sha256(source.encode()).hexdigest()
    head, rest = text.split('element vertex', 1)
    options = f'within={within} {"surface=yes " if surface else ""}{"move=yes " if moves else ""}faces={faces}'
    return f'{head}comment recon-mesh simplify {options}\ncomment scale {scale}\ncomment sha256 {digest}\nelement vertex{rest}'


@unittest.skipUnless(RECON_MESH, 'recon-mesh is not built here')
class Simplify(InFolder):
    def test_invalid_arguments(self) -> None:
        write('mesh.ply', mesh_text(POINTS, FACES))
        for words in [*INVALID, ('mesh.ply', 'within=1')]:
            status, said, error = mesh_program('simplify', 'mesh.ply', 'out.ply', *words)
            equal((status, said), (2, 'refused words\n'))
            assert 'simplify MESH OUT within=D' in error
        equal(mesh_program('simplify', 'mesh.ply', 'mesh.ply', 'within=1')[:2], (2, 'refused words\n'))
        equal(os.listdir('.'), ['mesh.ply'])

    def test_a_ball_has_fewer_faces_and_no_corner_is_far(self) -> None:
        places, faces = ball(8, 3000, 0.02)
        old = places, [turned(face) for face in faces]
        write('mesh.ply', mesh_text(*old))
        for within, least, most in ((60, 0, 330), (300, 100, 101), (300, 0, 100), (8388608, 0, 60)):
            words = [f'within={within}', *([f'faces={least}'] if least else [])]
            status, line, error = mesh_program('simplify', 'mesh.ply', 'out.ply', *words)
            new = mesh_of(read('out.ply'))
            equal((status, line, error), (0, f'simplified points {len(new[0])} faces {len(new[1])}\n', ''))
            equal(faults(old, new, within), [])
            assert least <= len(new[1]) <= most, len(new[1])
            equal(read('out.ply'), stated(mesh_text(*new), within, least, read('mesh.ply')))
            equal(mesh_program('check', 'mesh.ply', 'out.ply'),
                  (0, f'yes points {len(new[0])} faces {len(new[1])} crossing_pairs 0 undecided_pairs 0\n', ''))
            assert ' closed yes nonmanifold_edges 0 ' in mesh_program('inspect', 'out.ply')[1]
            equal(mesh_program('simplify', 'mesh.ply', 'plain.ply', *words, 'comments=no')[:2], (0, line))
            equal(read('plain.ply'), mesh_text(*new))

    def test_each_point_of_either_mesh_is_near_the_other(self) -> None:
        places, faces = ball(5, 3000, 0.02)
        old = places, [turned(face) for face in faces]
        write('mesh.ply', mesh_text(*old))
        for within, least in ((200, 0), (300, 100), (3000, 0)):
            words = [f'within={within}', 'surface=yes', *([f'faces={least}'] if least else [])]
            equal(mesh_program('simplify', 'mesh.ply', 'out.ply', *words)[0], 0)
            new = mesh_of(read('out.ply'))
            equal(faults(old, new, within, True), [])
            assert least <= len(new[1]) < 200, len(new[1])
            equal(read('out.ply'), stated(mesh_text(*new), within, least, read('mesh.ply'), 1, True))
            equal(mesh_program('check', 'mesh.ply', 'out.ply')[0], 0)

    def test_moved_vertices_are_nearer(self) -> None:
        places, faces = ball(8, 3000, 0.02)
        old = places, [turned(face) for face in faces]
        write('mesh.ply', mesh_text(*old))
        for within, least, more in ((300, 100, []), (300, 0, []), (300, 150, ['surface=yes'])):
            words, far = [f'within={within}', *([f'faces={least}'] if least else []), *more], []
            for moves in (True, False):
                equal(mesh_program('simplify', 'mesh.ply', 'out.ply', *words, *(['move=yes'] if moves else []))[0], 0)
                new = mesh_of(read('out.ply'))
                equal(faults(old, new, within, bool(more), moves), [])
                assert least <= len(new[1]) < 400, len(new[1])
                equal(read('out.ply'), stated(mesh_text(*new), within, least, read('mesh.ply'), 1, bool(more), moves))
                equal(mesh_program('check', 'mesh.ply', 'out.ply')[0], 0)
                triangles = [tuple(new[0][v] for v in face) for face in new[1]]
                far.append(sum(min(float(square_to_triangle(p, *t)) for t in triangles) for p in places))
            assert not least or far[0] < 0.8 * far[1], far

    def test_checks_of_all_points(self) -> None:
        # a long edge of a thin box is cut in two, and the new vertex pulled out: all old corners stay
        base, top = [(0, 0, 0), (4000, 0, 0), (4000, 40, 0), (0, 40, 0)], [(0, 0, 40), (4000, 0, 40), (4000, 40, 40), (0, 40, 40)]
        sides = [(0, 2, 1), (0, 3, 2), (4, 5, 6), (4, 6, 7), (1, 2, 6), (1, 6, 5), (2, 3, 7), (2, 7, 6), (0, 7, 3), (0, 4, 7)]
        flat = [*base, *top], [turned(face) for face in [*sides, (0, 1, 5), (0, 5, 4)]]
        bent = [*base, *top, (2000, -500, 20)], [turned(face) for face in [*sides, (0, 1, 8), (1, 5, 8), (5, 4, 8), (4, 0, 8)]]
        for (old, new), surface, within, scale, line in (
                ((flat, bent), False, 10, 1, 'yes'), ((flat, bent), True, 10, 1, 'no 7 uncovered_original 10 far '), ((flat, bent), True, 500, 1, 'yes'),
                ((flat, bent), True, 499, 1, 'no 8 uncovered_face 10 far '), ((flat, flat), True, 1, 1, 'yes'),
                ((flat, flat), True, 8388608, 2, 'no 7 uncovered_original 0')):
            write('mesh.ply', mesh_text(*old))
            write('out.ply', stated(mesh_text(*new), within, 0, read('mesh.ply'), scale, surface))
            status, said, _ = mesh_program('check', 'mesh.ply', 'out.ply')
            equal((status, said.startswith(line)), (int(line[:2] == 'no'), True))
            equal(far_faults(said, old, new, within), [])

    def test_flat_sides_keep_their_corners(self) -> None:
        places, faces = ball(8, 1000)
        cube = [tuple(250 * x for x in key) for key in cube_keys(8)]
        equal(len(cube), len(places))
        write('mesh.ply', mesh_text(cube, [turned(face) for face in faces]))
        equal(mesh_program('simplify', 'mesh.ply', 'out.ply', 'within=1')[:2], (0, 'simplified points 8 faces 12\n'))

    def test_a_dip_under_a_piece_stays_open(self) -> None:
        places, faces = ball(8, 3000, 0.02)
        a, b, c = faces.pop()
        low, high = (tuple(round(part * sum(places[v][axis] for v in (a, b, c)) / 3) for axis in range(3)) for part in (0.98, 1.2))
        u, t = len(places), len(places) + 1
        new_faces = [(a, b, u), (b, c, u), (c, a, u), (a, c, b), (a, b, t), (b, c, t), (c, a, t)]
        old = [*places, low, high], [turned(face) for face in [*faces, *new_faces]]
        write('mesh.ply', mesh_text(*old))
        equal(mesh_program('simplify', 'mesh.ply', 'out.ply', 'within=300', 'faces=110')[0], 0)
        new = mesh_of(read('out.ply'))
        equal(faults(old, new, 300), [])
        assert len(new[1]) <= 120, len(new[1])

    def test_meshes_that_stay_as_they_are(self) -> None:
        for points, faces in ((POINTS, FACES), ([], []), (POINTS, []), two_cubes((1, 1, 1)), two_cubes((1, 1, 0))):
            text = mesh_text(points, [turned(face) for face in faces])
            write('mesh.ply', text)
            status, line, error = mesh_program('simplify', 'mesh.ply', 'out.ply', 'within=1', 'faces=4294967295')
            equal((status, error), (0, ''))
            equal(faults((points, faces), mesh_of(read('out.ply')), 1), [])
            equal(mesh_program('check', 'mesh.ply', 'out.ply')[0], 0)

    def test_open_and_invalid_meshes(self) -> None:
        write('mesh.ply', mesh_text(POINTS, FACES[1:]))
        equal(mesh_program('simplify', 'mesh.ply', 'out.ply', 'within=1')[:2], (3, 'refused 28 unbalanced from 0 to 1 there 0 back 1\n'))
        write('mesh.ply', mesh_text(POINTS, FACES)[:-1])
        equal(mesh_program('simplify', 'mesh.ply', 'out.ply', 'within=1')[:2], (3, 'refused 30 mesh_cut\n'))
        equal(mesh_program('simplify', 'no.ply', 'out.ply', 'within=1')[:2], (4, ''))
        equal(os.listdir('.'), ['mesh.ply'])

    def test_invalid_headers(self) -> None:
        plain = mesh_text(POINTS, FACES)
        text = stated(plain, 8, 9, plain)
        write('mesh.ply', text)
        equal(mesh_program('inspect', 'mesh.ply')[0], 0)
        for line, old, new in INVALID_HEADERS:
            assert text.count(old) == 1, old
            write('mesh.ply', text.replace(old, new))
            equal(mesh_program('inspect', 'mesh.ply')[:2], (3, f'refused 29 mesh_line line {line}\n'))

    def test_checks(self) -> None:
        plain, other = mesh_text(POINTS, FACES), mesh_text(moved(POINTS, (10, 0, 0)), FACES)
        far = moved(POINTS, (10, 0, 0))
        within = next(n for n in range(1, 20) if all(min(square_to_triangle(p, *(far[v] for v in f)) for f in FACES) <= n * n for p in POINTS))
        for text, source, reach, scale, line in (
                (plain, plain, 1, 1, 'yes points 4 faces 4 crossing_pairs 0 undecided_pairs 0'), (plain, other, 1, 1, 'no 2 other_mesh'),
                (mesh_text(POINTS, FACES[1:]), plain, 1, 1, 'no 3 unbalanced from 0 to 1 there 0 back 1'),
                (other, plain, within, 1, 'yes points 4 faces 4 crossing_pairs 0 undecided_pairs 0'),
                (other, plain, within - 1, 1, 'no 6 unreached_vertex'), (plain, plain, 1, 2, 'no 6 unreached_vertex 0\n'),
                (other, plain, 1, 1, 'no 6 unreached_vertex 0 far\n'),
                (mesh_text([tuple(2 * x for x in p) for p in POINTS], FACES), plain, 1, 2, 'yes points 4 faces 4 crossing_pairs 0 undecided_pairs 0'),
                (mesh_text([], []), plain, 8388608, 1, 'no 6 unreached_vertex 0 far\n')):
            write('mesh.ply', plain)
            write('out.ply', stated(text, reach, 0, source, scale))
            status, said, _ = mesh_program('check', 'mesh.ply', 'out.ply')
            equal((status, said.startswith(line)), (int(line[:2] == 'no'), True))

    def test_the_light_mesh_has_colors_and_unseen_faces(self) -> None:
        places, faces = ball(6, 3000, 0.01)
        spots = np.array(places) / 1000 + (5, 6, 7)
        cut = np.array([face for face in map(turned, faces)])
        red = np.arange(len(spots)) % 256
        mesh = Finished(spots, cut, [('red', 'uchar', red)], [], np.arange(len(spots)))
        fine = 1024
        whole = (np.array(places) * fine).tolist(), cut.tolist()

        def judged(light: Finished, surface: bool) -> list[str]:
            new = np.rint((light.places - (5, 6, 7)) * 1000 * fine).astype(int).tolist(), light.faces.tolist()
            return faults(whole, new, 300 * fine, surface, True)

        light = light_mesh(mesh, 1000, (5, 6, 7), 0.3, 100)
        assert 100 <= len(light.faces) <= 101
        rows = [int(((spots - place) ** 2).sum(axis=1).argmin()) for place in light.places]
        equal((light.columns[0][2].tolist(), light.vertex_of.tolist()), ([row % 256 for row in rows], rows))
        equal((light.face_columns[0][2].any(), judged(light, False)), (False, []))
        both = light_mesh(mesh, 1000, (5, 6, 7), 0.3, 200, surface=True)
        equal((len(both.faces) < len(cut), judged(both, True)), (True, []))
        self.assertRaisesRegex(Refusal, 'less than one unit', light_mesh, mesh, 1000, (5, 6, 7), 0.0000001, 100)

    def test_the_light_mesh_lacks_what_the_open_mesh_lacks(self) -> None:
        places, faces = ball(6, 3000, 0.01)
        spots, corners, rows = np.array(places) / 1000, np.array([turned(face) for face in faces]), np.arange(len(places))
        # no scanner saw the lower half, or anything
        for unseen in (spots[corners].mean(axis=1)[:, 2] < 0, np.ones(len(corners), bool)):
            light = light_mesh(Finished(spots, corners, [], [('unseen', 'uchar', unseen)], rows), 1000, (0, 0, 0), 0.3, 300)
            is_gone, height = np.asarray(light.face_columns[0][2]), light.places[light.faces].mean(axis=1)[:, 2]
            equal((is_gone[height < -1].all(), is_gone[height > 1].all(), is_gone[height > 1].any()), (True, unseen.all(), unseen.all()))
            left = open_light(light)
            equal((len(left.faces), len(np.unique(left.faces))), (int((~is_gone).sum()), len(left.places)))

    def test_simplified_meshes_are_finished_and_finished_ones_simplified(self) -> None:
        places, faces = ball(6, 3000, 0.1)
        write('mesh.ply', mesh_text(places, [turned(face) for face in faces]))
        equal(mesh_program('finish', 'mesh.ply', 'one.ply', 'smooth=2', 'within=50')[0], 0)
        equal(mesh_program('simplify', 'one.ply', 'two.ply', 'within=90000', 'faces=100')[0], 0)
        equal(mesh_program('finish', 'two.ply', 'three.ply', 'manifold=yes')[0], 0)
        for old, new in (('mesh', 'one'), ('one', 'two'), ('two', 'three')):
            equal(mesh_program('check', f'{old}.ply', f'{new}.ply')[0], 0)


def cube_keys(count: int) -> list[tuple[int, ...]]:
    """Returns the lattice points of a cube's surface in the order of the vertices of `ball`."""
    keys: dict[tuple[int, ...], int] = {}
    for axis, end, i, j in product(range(3), (0, count), range(count), range(count)):
        for u, v in ((0, 0), (1, 0), (1, 1), (0, 1)):
            place = [0, 0, 0]
            place[axis], place[(axis + 1) % 3], place[(axis + 2) % 3] = end, i + u, j + v
            keys.setdefault(tuple(place), len(keys))
    return list(keys)


if __name__ == '__main__':
    unittest.main()
