"""Which faces scanners saw: by lines of sight and by lengths, which mesh gets the output's name, and how holes are filled."""
from __future__ import annotations

import os
import pathlib
import unittest
from typing import Any

import numpy as np

from helpers import RECON, RECON_MESH, InFolder, call, equal, write
from recon.meshes import Mesh, unseen_faces
from recon.toolbox.seen import Faces, Views, filled, off, unseen_by_sights, views_of
from test_library import SCANNERS, nearest, sphere
from test_surface import chosen, made, refused, scan_text

SIDE = 31


def sheet(is_cell: Any = None) -> tuple[np.ndarray, np.ndarray]:
    """A flat square of 30 * 30 cells, each of two faces that face up; only the cells that are wanted."""
    i, j = (part.ravel() for part in np.mgrid[:SIDE - 1, :SIDE - 1])
    kept = np.ones(len(i), bool) if is_cell is None else is_cell(i, j)
    k = (SIDE * i + j)[kept]
    x, y = (part.ravel().astype(float) for part in np.mgrid[:SIDE, :SIDE])
    return np.stack([x, y, 0 * x], axis=1), np.concatenate([np.stack([k, k + SIDE, k + 1], 1), np.stack([k + 1, k + SIDE, k + SIDE + 1], 1)])


def views(vertices: np.ndarray, *places: Any, numbers: Any = None) -> Views:
    """Views from one place, or from numbered ones."""
    number = np.zeros(len(vertices), int) if numbers is None else np.asarray(numbers)
    return Views(np.array(places, float)[number], number, np.zeros(len(vertices), bool))


def unseen_rows(vertices: np.ndarray, faces: np.ndarray, seen: Views) -> list[int]:
    return [int(row) for row in np.flatnonzero(unseen_by_sights(vertices, faces, seen))]


class Sights(unittest.TestCase):
    def test_the_side_that_is_seen(self) -> None:
        vertices, faces = sheet()
        for place, count in (((15, 15, 10), 0), ((15, 15, -10), len(faces)), ((-5, 15, 3), 0)):
            equal(len(unseen_rows(vertices, faces, views(vertices, place))), count)
        equal(unseen_rows(vertices, faces[:0], views(vertices, (15, 15, 10))), [])
        equal(unseen_rows(vertices[:0], faces[:0], views(vertices[:0], (1, 1, 1))), [])

    def test_a_vertex_alone(self) -> None:
        vertices, faces = sheet()
        vertices = np.r_[vertices, [[0, 0, 1000]]]
        lids = [[0, 30, 961], [930, 0, 961]]
        equal(np.flatnonzero(unseen_faces(vertices, np.r_[faces, lids])).tolist(), [1800, 1801])
        equal(unseen_rows(vertices, np.r_[faces, lids], views(vertices, (15, 15, 10))), [1800, 1801])

    def test_ground_at_a_small_angle_stays_and_a_face_to_the_background_goes(self) -> None:
        vertices, faces = sheet(lambda i, j: i != 15)
        k = 15 * SIDE + np.arange(30)
        step = np.r_[np.stack([k, k + SIDE, k + 1], 1), np.stack([k + 1, k + SIDE, k + SIDE + 1], 1)]
        # a table, and behind its edge the ground from where it is seen
        is_behind = (np.arange(961) >= 16 * SIDE)[:, None]
        table = vertices - [0, 15, 0] + np.where(is_behind, [22, 0, 0], [0, 0, 10])
        equal(unseen_rows(table, np.r_[faces, step], views(table, (-25, 0, 30))), list(range(len(faces), len(faces) + len(step))))
        # ground whose edges are 16 times as long along the lines of sight as across
        ground = vertices * [16, 1, 1] - [0, 15, 0]
        equal(unseen_rows(ground, np.r_[faces, step], views(ground, (-200, 0, 40))), [])

    def test_small_faces_stay_where_positions_are_synthesised(self) -> None:
        vertices, faces = sheet()
        draw = np.random.default_rng(1)
        rough, own = vertices + draw.normal(size=vertices.shape) * 0.4, np.arange(len(vertices))
        places = rough + draw.normal(size=rough.shape) * [0.5, 0.5, 0.1] + [0, 0, 1]
        gone = [unseen_by_sights(rough, np.r_[faces, [[0, 30, 930]]], Views(places, own, own < 0, is_made_up)) for is_made_up in (True, False)]
        equal(([bool(rows[-1]) for rows in gone], 3 * gone[0].sum() < gone[1].sum()), ([True, True], True))

    def test_faces_at_added_vertices(self) -> None:
        vertices, faces = sheet()
        seen = views(vertices, (15, 15, 10))
        seen.added[480] = True
        equal(unseen_rows(vertices, faces, seen), np.flatnonzero((faces == 480).any(axis=1)).tolist())

    def test_a_flat_gap_under_a_scanner(self) -> None:
        # four faces around the middle close a hole of 12 by 12 cells
        vertices, faces = sheet(lambda i, j: (abs(i - 14.5) > 6) | (abs(j - 14.5) > 6))
        rim = np.array([9 * SIDE + j for j in range(9, 21)] + [i * SIDE + 21 for i in range(9, 21)] + [21 * SIDE + j for j in range(21, 9, -1)]
                       + [i * SIDE + 9 for i in range(21, 9, -1)])
        middle = 15 * SIDE + 15
        cap = np.stack([np.full(48, middle), np.roll(rim, -1), rim], axis=1)
        normals = np.cross(vertices[cap[:, 1]] - vertices[cap[:, 0]], vertices[cap[:, 2]] - vertices[cap[:, 0]])
        equal((normals[:, 2] > 0).all(), True)
        seen = views(vertices, (15, 15, 4))
        equal(unseen_rows(vertices, np.r_[faces, cap], seen), [])
        raised = vertices + np.where(np.arange(961)[:, None] == middle, [0, 0, 3.0], 0)
        equal(unseen_rows(raised, np.r_[faces, cap], seen)[0] >= len(faces), True)

    def test_the_silhouette_of_a_round_object(self) -> None:
        # a cylinder 60 steps around, that is seen from far along x: its upper side up to one step past the silhouette, or farther
        def faces_of(steps: int) -> np.ndarray:
            return np.array([face for k in range(steps) for j in range(20) for face in
                             ((30 * j + k, 30 * j + k + 31, 30 * j + k + 1), (30 * j + k, 30 * j + k + 30, 30 * j + k + 31))])
        turn, along = np.meshgrid(np.arange(30) * 2 * np.pi / 60, np.arange(21) * 0.1)
        vertices = np.stack([np.cos(turn), along, np.sin(turn)], axis=2).reshape(-1, 3)
        seen = views(vertices, (1000, 1, 0))
        equal(unseen_rows(vertices, faces_of(16), seen), [])
        equal(len(unseen_rows(vertices, faces_of(20), seen)), 160)
        # the flat base that closes it there is no part of it
        lid = np.array([[30 * j + 16, 30 * j, 30 * j + 46] for j in range(20)])
        equal(unseen_rows(vertices, np.r_[faces_of(16), lid], seen), list(range(640, 660)))

    def test_how_far_a_surface_is_off_a_face(self) -> None:
        # on a ball of radius 1 with its normals, flat, and a face that leaves flat ground at two corners
        ball = np.array([[1, 0.1, 0], [1, 0, 0.2], [1, -0.1, -0.1]])
        ball /= np.linalg.norm(ball, axis=1)[:, None]
        up = np.array([[0.0, 0, 1]] * 3)
        for corners, normals, wanted in ((ball, ball, 1 - np.linalg.norm(ball.mean(axis=0))), (np.eye(3), up * 0 + 3 ** -0.5, 0.0),
                                         (np.array([[0, 0, 0], [9, 0, 0], [0, 9, 3.0]]), up * [[1], [1], [0]], 2 / 6)):
            mesh = Faces(corners, np.array([[0, 1, 2]]), views(corners, (9, 9, 9)))
            got = off(mesh, normals.T, np.full(3, 0.5), np.array([0]))
            equal(abs(float(got[0]) - 2 * wanted) < 0.05 * wanted + 1e-12, True)

    def test_the_nearest_scanner_of_a_point(self) -> None:
        points, places = np.zeros((3, 3)), np.array([[5.0, 0, 0], [1, 0, 0], [9, 0, 0]])
        many = views_of(points, places, np.array([2, 0, 1]), np.array([0, 1, 2]), 1)
        equal((many.scanner.tolist(), many.places[:, 0].tolist(), many.added.tolist()), ([1, -1, 2], [1, 0, 9], [False, False, True]))
        one = views_of(points, places, np.ones(3, int), np.array([2, 1, 0]))
        equal((one.scanner.tolist(), one.added.any()), ([2, 1, 0], False))

    def test_small_holes_are_filled(self) -> None:
        vertices, faces = sheet()
        unseen = np.zeros(len(faces), bool)
        unseen[[0, 900]] = True
        for row in range(310, 314):
            unseen[[row, row + 900]] = True
        equal([int(filled(vertices, faces, unseen, length).sum()) for length in (0, 1, 1.5, 4, 5)], [10, 10, 8, 8, 0])
        mesh = Mesh(vertices, faces)
        equal([len(mesh.seen(unseen, fill).faces) for fill in (0.0, 1.5, 5.0)], [1790, 1792, 1800])


@unittest.skipUnless(RECON and RECON_MESH, 'recon or recon-mesh is not built here')
class Outputs(InFolder):
    def cap(self) -> None:
        """Writes a scan of a sphere from one position. The closed mesh has a large base."""
        points = sphere(1200)
        points = points[points @ SCANNERS[4] > 1.3]
        write('in.ply', scan_text(points, SCANNERS[4:5], np.zeros(len(points), int)))

    def edges_that_are_open(self, path: str) -> int:
        """How many edges of a mesh have a face on one side only."""
        top, body = pathlib.Path(path).read_bytes().split(b'end_header\n')
        counts = {line.split()[1]: int(line.split()[2]) for line in top.decode('ascii').splitlines() if line.startswith('element')}
        wide = 14 if b'unseen' in top else 13
        size = len(body) - wide * counts['face']
        rows = np.frombuffer(body, np.uint8, offset=size).reshape(counts['face'], wide)[:, 1:13]
        faces = np.ascontiguousarray(rows).view('<i4')
        edges = np.sort(np.r_[faces[:, :2], faces[:, 1:], faces[:, [2, 0]]], axis=1)
        return int((np.unique(edges, axis=0, return_counts=True)[1] == 1).sum())

    def test_the_mesh_that_gets_the_name(self) -> None:
        self.cap()
        for words, value, other, others in ((['--seen'], 'seen', 'mesh-closed.ply', 'mesh-seen.ply'),
                                            (['--closed'], 'closed', 'mesh-seen.ply', 'mesh-closed.ply')):
            report = made('in.ply', *words)
            equal((chosen(report, 'mesh'), os.path.exists(other), os.path.exists(others)), ([value], True, False))
            is_open = [self.edges_that_are_open(name) > 0 for name in ('mesh.ply', other)]
            equal(is_open, [value == 'seen', value == 'closed'])
        equal(b'--closed' in pathlib.Path('mesh.recon/again.sh').read_bytes(), True)
        # the base is over a third of the area
        equal(chosen(made('in.ply'), 'mesh'), ['seen'])
        equal(b'"showsUnseen":false' in pathlib.Path('mesh.html').read_bytes(), True)
        got, said, error = call('surface', 'in.ply', '-o', 'mesh.ply', '--program', RECON)
        equal((got, said, ' mesh: seen (' in error, '; mesh-closed.ply is the closed mesh)' in error), (0, '', True, True))
        equal(', mesh-closed.ply, mesh.html and mesh.recon/' in error.splitlines()[-1], True)
        points = sphere(300)
        write('in.ply', scan_text(points, SCANNERS, nearest(points)))
        equal((chosen(made('in.ply'), 'mesh'), os.path.exists('mesh-closed.ply')), (['closed'], False))
        refused('not allowed with argument', 'in.ply', '-o', 'mesh.ply', '--seen', '--closed', status=2)

    def test_the_light_mesh_lacks_what_the_open_mesh_lacks(self) -> None:
        self.cap()
        for words, is_open in (([], True), (['--closed'], False), (['--fill', '100'], False)):
            made('in.ply', '--faces', '200', *words)
            equal((words, self.edges_that_are_open('mesh-light.ply') > 0, self.edges_that_are_open('mesh.ply') > 0), (words, is_open, is_open))

    def test_the_light_mesh_within_both_ways(self) -> None:
        points = sphere(300)
        write('in.ply', scan_text(points, SCANNERS, nearest(points)))
        report = made('in.ply', '--faces', '300', '--faces-within', '0.2', '--faces-surface')
        equal((chosen(report, 'faces-surface'), os.path.exists('mesh-light.ply')), (['yes'], True))
        equal(b'--faces-surface' in pathlib.Path('mesh.recon/again.sh').read_bytes(), True)
        refused('--faces-surface requires --faces', 'in.ply', '-o', 'mesh.ply', '--faces-surface')

    def test_holes_of_a_length(self) -> None:
        self.cap()
        made('in.ply')
        equal(self.edges_that_are_open('mesh.ply') > 0, True)
        made('in.ply', '--fill', '100')
        equal(self.edges_that_are_open('mesh.ply'), 0)
        equal(b'--fill=100' in pathlib.Path('mesh.recon/again.sh').read_bytes(), True)

    def test_finish_takes_the_scan(self) -> None:
        self.cap()
        made('in.ply')
        for words, wanted in (([], True), (['scan=in.ply'], True), (['scan=in.ply', 'fill=100'], False)):
            equal(call('finish', 'mesh.recon/mesh.ply', 'out.ply', 'unit=1000', 'seen=yes', 'flips=no', *words)[::2], (0, ''))
            equal(self.edges_that_are_open('out-seen.ply') > 0, wanted)
        for words, error in ((['fill=1'], 'fill= requires seen=yes'), (['seen=yes', 'fill=x'], 'fill= must be a length')):
            status, said, told = call('finish', 'mesh.recon/mesh.ply', 'out.ply', *words)
            equal((status, said, error in told), (1, '', True))


if __name__ == '__main__':
    unittest.main()
