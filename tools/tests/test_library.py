"""Surfaces from arrays (`import recon`), and what is chosen from points alone."""
from __future__ import annotations

import doctest
import os
import pathlib
import re
import unittest

import numpy as np

from helpers import RECON, ROOT, InFolder, equal
import recon
from recon.clouds import cubes_of, surrounding, thinning_side
from recon.library import rows_at, sights_of
from recon.sights import SCANNER_LIMIT, above, lies_flat

SCANNERS = np.array([[3, 0, 0], [-3, 0, 0], [0, 3, 0], [0, -3, 0], [0, 0, 3], [0, 0, -3]], float)


def sphere(count: int, seed: int = 1) -> np.ndarray:
    """Points on a ball of radius 1."""
    points = np.random.default_rng(seed).normal(size=(count, 3))
    return points / np.linalg.norm(points, axis=1)[:, None]


def nearest(points: np.ndarray) -> np.ndarray:
    """Returns the scanner that is nearest to each point."""
    return (points @ SCANNERS.T).argmax(axis=1)


def invalid(part: str, row: int | None, *words: object, **options: object) -> None:
    """`build` raises `Invalid` with this text and this row."""
    try:
        recon.build(*words, **options)  # type: ignore[arg-type]
    except recon.Invalid as error:
        equal((part in str(error), error.row), (True, row))
    else:
        raise AssertionError('taken')


class Arrays(InFolder):
    @unittest.skipUnless(RECON, 'recon is not built here')
    def test_a_surface_is_built_and_checked(self) -> None:
        points = sphere(400)
        surface = recon.build(points, SCANNERS, nearest(points))
        equal((surface.vertices.shape, surface.faces.shape, surface.unit), ((400, 3), (796, 3), 1000))
        equal(bool(np.abs(points[surface.source] - surface.vertices).max() <= 0.5 / surface.unit), True)
        equal((surface.cost, surface.votes_against_per_sight, surface.check()), (3 * 796, 0.0, True))
        equal((surface.unseen().sum(), len(surface.seen().faces)), (0, 796))
        # the certificate of one surface is none of another
        data = surface.mesh.read_text().replace('\n3 ', '\n3  ', 1)
        surface.mesh.write_text(data)
        with self.assertRaises(recon.Refused) as caught:
            surface.check()
        equal((caught.exception.status, caught.exception.line.startswith('no '), 'check failed' in str(caught.exception)), (1, True, True))

    @unittest.skipUnless(RECON, 'recon is not built here')
    def test_national_coordinates_keep_their_digits(self) -> None:
        points, off = sphere(300), np.array([500000.25, 4000000.5, 101])
        near, far = (recon.build(points + shift, SCANNERS + shift, nearest(points), folder=name)
                     for shift, name in ((np.zeros(3), 'near'), (off, 'far')))
        equal((far.unit, bool(np.abs(far.origin - off).max() <= 1.0), len(far.faces)), (1000, True, len(near.faces)))
        equal(bool(np.abs((points + off)[far.source] - far.vertices).max() < 1e-3), True)
        equal(sorted(os.listdir('far')), ['mesh.ply', 'scan.cert', 'scan.ply'])

    @unittest.skipUnless(RECON, 'recon is not built here')
    def test_normals_make_scanners(self) -> None:
        surface = recon.build(sphere(300), normals=2 * sphere(300), smooth=1)
        equal((surface.counts['scanners'], len(surface.faces)), (300, 596))

    @unittest.skipUnless(RECON, 'recon is not built here')
    def test_the_program_answers_more(self) -> None:
        points = sphere(400)
        surface = recon.build(points, SCANNERS, [[k, k][:1 + k % 2] for k in nearest(points)], weights=np.full(400, 2))
        equal(surface.counts['sights'], int((1 + nearest(points) % 2).sum()))
        equal(surface.contains([[0, 0, 0], [2, 0, 0], [0, 1e9, 0], [0.5, 0, 0]]).tolist(), [True, False, False, True])
        equal([len(mesh.faces) for mesh in surface.sweep(3, 1, 2)], [796, 796])
        loop, = surface.slice(0.1)
        equal(bool(np.abs(np.linalg.norm(loop, axis=1) - 0.99).max() < 0.1), True)
        mesh = surface.finish(pieces=1, steps=1, within=0.01)
        equal((mesh.faces.shape, bool(np.abs(np.linalg.norm(mesh.vertices, axis=1) - 1).max() < 0.02)), ((796, 3), True))

    def test_arrays_that_make_no_scan(self) -> None:
        points = sphere(10)
        invalid('seen_by= is required for 6 scanners', None, points, SCANNERS)
        invalid('no scanner positions', None, points)
        invalid('point 3: scanner index 6 is out of range (number of scanners: 6)', 3, points, SCANNERS, [0, 0, 0, 6, 0, 0, 0, 0, 0, 0])
        invalid('point 2: scanner index -1 is out of range', 2, points, SCANNERS, [[0], [1, 2], [3, -1]] + [[0]] * 7)
        invalid('seen_by has 2 rows', None, points, SCANNERS, [0, 1])
        invalid('seen_by must contain integers', None, points, SCANNERS, np.zeros(10))
        invalid('row 10 of points is not finite', 10, np.r_[points, [[np.nan, 0, 0]]], SCANNERS[0])
        invalid('must have the shape (n, 3)', None, points[:, :2], SCANNERS[0])
        invalid('points is empty: it has the shape (0, 3)', None, points[:0], SCANNERS[0])
        invalid('the weight of point 1 is 256', 1, points, SCANNERS[0], weights=np.array([1, 256] + [1] * 8))
        invalid('row 0 of scanners is more than 2,097,151 units', 0, points, [9, 0, 0], unit=1000000, origin=[0, 0, 0])
        invalid('is out of range: 1 to 1,000,000', None, points, SCANNERS[0], unit=0)
        invalid('the normal of point 4 is 0 0 0', 4, points, normals=np.r_[points[:4], [[0, 0, 0]], points[5:]])
        invalid('the scan is 9e+06 units across at unit=1', None, np.r_[points, [[9e6, 0, 0]]], SCANNERS[0])

    def test_errors_of_the_program(self) -> None:
        pathlib.Path('fails').write_text('#!/bin/sh\necho "refused 14 out_of_range element 0 row 0 property 0"\necho "recon: a smaller unit" >&2\nexit 3\n')
        os.chmod('fails', 0o755)
        with self.assertRaises(recon.Refused) as caught:
            recon.build(sphere(5), SCANNERS[0], program='./fails')
        equal((caught.exception.status, caught.exception.line, caught.exception.hint),
              (3, 'refused 14 out_of_range element 0 row 0 property 0', 'a smaller unit'))
        with self.assertRaises(FileNotFoundError):
            recon.build(sphere(5), SCANNERS[0], program='./none')

    def test_rows_of_vertices(self) -> None:
        whole = np.random.default_rng(2).integers(-2097151, 2097152, (500, 3))
        whole = np.r_[whole, whole[:100]]
        equal(rows_at(whole, whole).tolist(), list(range(500)) + list(range(100)))
        # places whose differences are powers of two, in a box with and without as many places as a number of 64 bits has
        far = np.array([[x, y, z] for x in (-2097151, -1048575, 0, 1, 1048576) for y in (0, 1048576) for z in (5, 1048581)])
        for box in (far, np.r_[far, [[2097151, -2097151, -2097151], [0, 2097151, 2097151]]]):
            equal(rows_at(box, box[::-1]).tolist(), list(range(len(box)))[::-1])

    def test_who_saw_what(self) -> None:
        equal([part.tolist() for part in sights_of([[0, 1], [], [1]], 3, 2)], [[2, 0, 1], [0, 1, 1]])
        equal([part.tolist() for part in sights_of(1, 2, 2)], [[1, 1], [1, 1]])


@unittest.skipUnless(RECON, 'recon is not built here')
class OneCall(InFolder):
    def test_all_that_the_program_does(self) -> None:
        points = sphere(400)
        colors = np.clip(128 + 127 * points, 0, 255).astype(np.uint8)
        found = recon.surface(points, SCANNERS, nearest(points), colors=colors)
        assert found.source is not None and found.colors is not None and found.surface is not None and found.choices is not None
        equal((found.faces.shape, (found.colors == colors[found.source]).all(), found.choices['unit']), ((796, 3), True, '1000'))
        equal((np.abs(points[found.source] - found.vertices).max() < 0.001, found.surface.check(), os.listdir()), (True, True, []))
        equal((str(found.unseen().sum()), np.einsum('ij,ij->i', found.normals(), points[found.source]).min() > 0.9), ('0', True))
        equal((repr(found), repr(found.surface)[:32]), ('<Reconstruction: 400 vertices with colors, 796 faces, 0 warnings>', '<Surface: 400 vertices, 796 faces'[:32]))
        for name in ('m.ply', 'm.glb', 'm.obj', 'm.stl'):
            found.write(name)
            found.write('seen-' + name, seen=True)
        equal(len(os.listdir()), 8)
        found = recon.surface(points, normals=points, intensity=points[:, 2], out='out.obj', flips=False, steps=0, from_=(-2, -2, -0.5), to=(2, 2, 2))
        equal((sorted(os.listdir('out.recon')), os.path.exists('out.html'), found.colors is None), (['mesh.ply', 'report.json', 'scan.cert', 'scan.ply'], True, False))
        again = recon.surface(os.path.join('out.recon', 'scan.ply'), smooth=2, check=False)
        equal((again.source, again.choices['smooth'] if again.choices else ''), (None, '2'))

    def test_errors_in_the_words_of_python(self) -> None:
        points = sphere(50)
        given = {'scanners': SCANNERS, 'seen_by': nearest(points)}
        for part, options in (('points is empty', {'points': points[:0]}), ('colors have the shape (5, 3): expected (50, 3)', {'colors': points[:5]}),
                              ('smooth= -1 is not an integer', {'smooth': -1}), ('index 9 is out of range', {'seen_by': 9}),
                              ('unknown file name extension', {'out': 'a.off'}), ('lie in a plane', {'points': points * [1, 1, 0]})):
            with self.assertRaises(recon.Invalid) as caught:
                recon.surface(**{'points': points, **given, **options})
            equal((part in str(caught.exception), '--' in str(caught.exception)), (True, False))
        with self.assertRaises(TypeError):
            recon.surface(points, **given, no_such=1)
        with self.assertRaises(recon.Invalid):
            recon.build(points[:0], SCANNERS)
        equal(os.listdir(), [])


class Choosing(unittest.TestCase):
    def test_spacing_and_noise(self) -> None:
        u, v = np.meshgrid(np.arange(80) * 0.5, np.arange(80) * 0.5)
        flat = np.stack([u.ravel(), v.ravel(), (u.ravel() - 20) ** 2 / 100], axis=1)
        found = recon.spacing(flat)
        equal((0.5 < found.distance < 0.65, found.noise < 0.005), (True, True))
        noisy = flat + np.random.default_rng(1).normal(size=flat.shape) * [0, 0, 0.1]
        equal(0.07 < recon.spacing(noisy).noise < 0.13, True)
        equal(recon.spacing(flat[:1]), (0.0, 0.0))

    def test_frames(self) -> None:
        points = sphere(1000)
        equal((recon.frame(points, SCANNERS).unit, recon.frame(points, SCANNERS).origin.tolist()), (1000, [0, 0, 0]))
        equal(recon.frame(points * 1000, SCANNERS).unit, 1)
        moved = recon.frame(points + [600123, 5000456, 78], SCANNERS + [600123, 5000456, 78])
        equal((moved.unit, moved.origin.tolist()), (1000, [600123.0, 5000456.0, 78.0]))

    def test_lone_points_and_thinning(self) -> None:
        points = np.r_[sphere(1000), [[0, 0, 2.0]]]
        equal(np.flatnonzero(recon.lone_points(points)).tolist(), [1000])
        side = thinning_side(points, 200, recon.spacing(points).distance)
        rows = recon.thinned(points, side)
        equal((150 < len(rows) <= 200, len(np.unique(cubes_of(points, side)[rows])) == len(rows)), (True, True))

    def test_rooms_and_ground(self) -> None:
        equal((surrounding(sphere(5000), np.zeros(3)) > 0.99, surrounding(sphere(5000), np.array([5.0, 0, 0])) < 0.1), (True, True))
        ground = np.random.default_rng(1).uniform(size=(5000, 3)) * [100, 100, 1]
        equal((lies_flat(ground, 1.0) > 0.9, lies_flat(sphere(5000), 0.03) < 0.5), (True, True))
        equal(above(ground)[2] > 290, True)

    def test_normals_that_are_estimated(self) -> None:
        points = sphere(3000)
        agree = np.einsum('ij,ij->i', recon.estimated_normals(points), points)
        equal(bool((agree > 0.9).all()), True)

    def test_positions_are_shared_within_the_limit(self) -> None:
        points = sphere(100000)
        apart = recon.spacing(points).distance
        scanners, numbers = recon.along_normals(points, points, apart)
        equal((len(scanners) <= SCANNER_LIMIT, len(numbers), numbers.max() + 1 == len(scanners)), (True, 100000, True))
        away = np.linalg.norm(scanners[numbers] - points * (1 + apart), axis=1)
        equal(bool(away.max() < 4 * apart and away.mean() < 0.5 * apart), True)

    def test_faces_that_nobody_saw(self) -> None:
        u, v = np.meshgrid(np.arange(21.0), np.arange(21.0))
        vertices = np.stack([u.ravel(), v.ravel(), 0 * u.ravel()], axis=1)
        cells = (np.arange(20)[:, None] * 21 + np.arange(20)).ravel()
        faces = np.r_[np.stack([cells, cells + 1, cells + 21], 1), np.stack([cells + 1, cells + 22, cells + 21], 1)]
        lid = np.array([[0, 420, 20], [20, 420, 440]])
        mesh = recon.Mesh(vertices, np.r_[faces, lid])
        equal(np.flatnonzero(mesh.unseen()).tolist(), [800, 801])
        equal((len(mesh.seen().faces), recon.pieces(faces, 441).max()), (800, 0))


class Page(InFolder):
    @unittest.skipUnless(RECON, 'recon is not built here')
    def test_the_example_page_runs(self) -> None:
        with open(os.path.join(ROOT, 'docs', 'reference', 'python.md'), encoding='utf-8') as file:
            text = file.read()
        blocks = re.findall('```python\n(.*?)```', text, re.DOTALL)
        equal(len(blocks) > 3, True)
        test = doctest.DocTestParser().get_doctest('\n'.join(blocks), {}, 'python.md', 'python.md', 0)
        os.environ.setdefault('RECON', RECON)
        said: list[str] = []
        runner = doctest.DocTestRunner(optionflags=doctest.ELLIPSIS)
        runner.run(test, out=said.append)
        equal((runner.failures, ''.join(said)), (0, ''))
