"""What recon-surface says of wrong positions, normals and points: the most likely mistake, and nothing where they are right."""
from __future__ import annotations

import unittest

import numpy as np

from helpers import RECON, InFolder, call, equal
from recon.advice import because
from recon.clouds import spacing
from recon.inputs import Cloud
from recon.library import Sights
from recon.positions import LOOK_BLOCKED, blocked_part, blocked_scanners, far_positions, shape_of, verdict_of
from test_surface import listed

PLACE = np.array([0.0, -3.0, 1.0])


def half(count: int = 900, seed: int = 1, place: np.ndarray = PLACE) -> tuple[np.ndarray, np.ndarray]:
    """The part of an ellipsoid that is seen from one place, and its normals."""
    ways = np.random.default_rng(seed).normal(size=(4 * count, 3))
    points = ways / np.linalg.norm(ways, axis=1)[:, None] * [1, 0.6, 0.4]
    normals = points / np.array([1, 0.6, 0.4]) ** 2
    normals /= np.linalg.norm(normals, axis=1)[:, None]
    is_seen = np.einsum('ij,ij->i', place - points, normals) > 0.15 * np.linalg.norm(place - points, axis=1)
    return points[is_seen][:count], normals[is_seen][:count]


def ring(count: int = 6000, noise: float = 0.0) -> tuple[np.ndarray, np.ndarray, np.ndarray]:
    """A torus, eight places around it, and from which of them each point is seen."""
    draw = np.random.default_rng(2)
    turn, tilt = draw.uniform(0, 2 * np.pi, (2, count))
    out = np.stack([np.cos(turn), np.sin(turn), 0 * turn], axis=1)
    normals = out * np.cos(tilt)[:, None] + np.array([0, 0, 1]) * np.sin(tilt)[:, None]
    points, steps = out + 0.35 * normals, np.arange(8) * np.pi / 4 + 0.3
    scanners = np.stack([2.5 * np.cos(steps), 2.5 * np.sin(steps), np.tile([0.8, -0.8], 4)], axis=1)
    ways = scanners[None] - points[:, None]
    seen_by = np.einsum('nkj,nj->nk', ways / np.linalg.norm(ways, axis=2)[:, :, None], normals).argmax(axis=1)
    ways = points - scanners[seen_by]
    return points + ways / np.linalg.norm(ways, axis=1)[:, None] * draw.normal(size=(count, 1)) * noise, scanners, seen_by


class Positions(unittest.TestCase):
    def test_lines_of_sight_through_the_surface(self) -> None:
        for noise in (0.0, 0.01):
            points, scanners, seen_by = ring(noise=noise)
            texture = spacing(points)
            for places, is_right in ((scanners, True), (scanners * [1, -1, 1], False), (scanners * 0, False), (np.roll(scanners, 1, axis=0), False),
                                     (scanners[[1, 1, 2, 3, 4, 5, 6, 7]], False), (scanners[:, [0, 2, 1]], False)):
                part = blocked_part(points, places, seen_by, texture)
                equal((noise, part > LOOK_BLOCKED), (noise, not is_right))

    def test_the_scanners_with_blocked_lines(self) -> None:
        points, scanners, seen_by = ring()
        texture, wrong = spacing(points), scanners.copy()
        equal(blocked_scanners(points, scanners, seen_by, texture).any(), False)
        wrong[[3, 6]] *= [1, 1, -1]
        equal(np.flatnonzero(blocked_scanners(points, wrong, seen_by, texture)).tolist(), [3, 6])
        # nothing is known of those with few lines, and of very many
        few = np.flatnonzero((seen_by != 3) | (np.cumsum(seen_by == 3) < 20))
        equal(np.flatnonzero(blocked_scanners(points[few], wrong, seen_by[few], texture)).tolist(), [6])
        equal(blocked_scanners(points, wrong.repeat(13, axis=0), 13 * seen_by, texture).any(), False)
        equal(blocked_scanners(points, wrong, np.full(len(points), -1), texture).tolist(), [0.0] * 8)

    def test_verdicts(self) -> None:
        # contradictions, blocked lines, whether one position has many of them and a mistake explains them: right positions with noise, outliers, stereo
        # and exact planes, then wrong ones
        for against, blocked, has_named, is_explained, is_suspect, is_wrong in ((0.343, 0.005, False, False, False, False), (0.203, 0.018, False, False, False, False),
                (0.1, 0.0, False, False, False, False), (0.086, 0.039, False, False, False, False), (0.087, 0.139, True, False, True, False),
                (0.1, 0.02, True, False, True, False), (0.19, 0.594, True, False, True, True), (0.3, 0.127, True, False, True, True),
                (0.264, 0.011, False, True, True, True), (0.997, 0.0, False, False, True, True)):
            equal((against, verdict_of(against, blocked, has_named, is_explained)), (against, (blocked, is_suspect, is_wrong)))

    def test_few_points_and_none_seen(self) -> None:
        points = half(50)[0]
        for rows, seen in ((points, np.full(50, -1)), (points[:5], np.zeros(5, int)), (points[:1].repeat(30, axis=0), np.zeros(30, int))):
            equal(blocked_part(rows, PLACE[None], seen, spacing(rows)), 0.0)

    def test_a_right_position_may_be_0_0_0(self) -> None:
        points, places = half(50)[0], np.array([[0.0, 0.0, 0.0], [0.2, 0.0, 8.0]])
        cloud = Cloud(points, places, Sights(np.ones(50, int), np.arange(50) % 2), None)
        for parts, is_told in (([0, 0.1], False), ([0.1, 0], True), ([0.1, 0.1], True), ([0, 0], True)):
            equal((parts, '0,0,0' in because(None, cloud, np.array(parts)), because('x', cloud, np.array(parts))), (parts, is_told, ': x'))

    def test_other_frames_and_units(self) -> None:
        points = half()[0]
        there = np.array([432100.0, 5412000.0, 300.0])
        cases = ((points, PLACE, None), (points + there, PLACE + there, None), (points * 1000, PLACE * 1000, None),
                 (points + there, PLACE, 'as in national coordinates'), (points, PLACE * 1000, 'is in millimeters'), (points, PLACE + there, 'times as far'))
        for rows, place, part in cases:
            said = far_positions(rows, place[None])
            equal(said if part is None or said is None else part in said, None if part is None else True)

    def test_points_of_less_than_three_dimensions(self) -> None:
        steps = np.linspace(-1, 1, 50)[:, None]
        flat = np.random.default_rng(1).uniform(size=(50, 2)) @ np.array([[1.0, 2, 3], [5, 3, 1]]) + 1000
        for rows, said in ((np.ones((5, 3)), 'all points are at one place'), (steps * [1, 2, 3] + 500, 'the points lie in a line'),
                           (flat, 'the points lie in a plane'), (half()[0], '')):
            equal(shape_of(rows), said)


@unittest.skipUnless(RECON, 'recon is not built here')
class Messages(InFolder):
    def says(self, status: int, part: str, points: np.ndarray, *words: str) -> None:
        """The run ends with this status, and a line of what it prints has this part; without one there is no warning of positions."""
        listed('in.xyz', points)
        got, _, error = call('surface', 'in.xyz', *words, '-o', 'out.ply', '--no-check', '--program', RECON)
        lines = [line for line in error.splitlines() if part in line] if part else [line for line in error.splitlines() if 'check the' in line]
        equal((words, got, len(lines), '.recon-' in error, 'plane' in error and 'plane' not in part), (words, status, bool(part), False, False))

    def test_the_mistake_is_named(self) -> None:
        points, normals = half()
        place = ('--scanner', '0,-3,1')
        self.says(0, '', points, *place)
        self.says(4, 'fit if y has the wrong sign', points, '--scanner', '0,3,1')
        self.says(4, 'fit if they are in meters and the points in millimeters', points * 1000, *place)
        self.says(4, 'fit if their axes are in another order: their x, z, y are x, y, z', points[:, [0, 2, 1]], *place)
        self.says(4, 'one is 0,0,0, which programs write if it is unknown', points, '--scanner', '0,0,0')
        self.says(1, 'as in national coordinates, and the scanner position 0,-3,1 is not', points + [432100, 5412000, 300], *place)
        self.says(4, 'fit if the normals point the other way', np.c_[points, -normals])
        self.says(0, '', np.c_[points, normals])

    def test_the_position_with_blocked_lines_is_named(self) -> None:
        points, scanners, seen_by = ring(noise=0.005)
        words = []
        for number, place in enumerate(scanners.tolist()):
            listed(f'{number}.xyz', points[seen_by == number])
            words.append(f'{number}.xyz={place[0]:.3f},{place[1]:.3f},{-0.8 if number in (1, 2) else place[2]:.1f}')
        # of eight positions the third one is on the wrong side
        got, _, error = call('surface', *words, '-o', 'out.ply', '--no-check', '--program', RECON)
        said = next(line for line in error.splitlines() if 'check the' in line)
        equal((got, ': check the scanner position -0.739,2.388,-0.8 (' in said, '(for example -0.739,2.388,0.8 instead of -0.739,2.388,-0.8)' in said),
              (4, True, True))

    def test_one_of_two_positions_on_the_wrong_side(self) -> None:
        # each sees half of an ellipsoid, so neither has many blocked lines
        listed('left.xyz', half()[0])
        listed('right.xyz', half(seed=3, place=np.array([1.5, -2.5, 1.0]))[0])
        for left, status, part in (('0,-3,1', 0, ''), ('0,3,1', 4, 'the lines of sight fit if y of one has the wrong sign, so it is on the wrong side (for example 0,-3,1')):
            got, _, error = call('surface', f'left.xyz={left}', 'right.xyz=1.5,-2.5,1', '-o', 'out.ply', '--no-check', '--program', RECON)
            equal((left, got, 'check the' in error, part in error), (left, status, bool(part), True))

    def test_points_that_make_no_surface(self) -> None:
        points = half()[0]
        steps = np.arange(50)[:, None]
        for rows, part in ((points[:2], ' 2 different points: a surface has at least four'), (points[:1].repeat(30, axis=0), ' 1 different point: '),
                           (steps * [[1, 2, 3]], 'the points lie in a line, so there is no surface'),
                           (np.c_[points[:, :2], 0 * points[:, 2]], 'the points lie in a plane, so there is no surface')):
            listed('in.xyz', rows)
            status, _, error = call('surface', 'in.xyz', '--scanner', '0,-3,1', '-o', 'out.ply', '--program', RECON)
            equal((status, part in error.splitlines()[-1], 'smooth' in error), (3, True, False))

    def test_repeated_points_are_merged(self) -> None:
        points = half(300)[0]
        self.says(0, 'repeated points: 5700 ', points.repeat(20, axis=0), '--scanner', '0,-3,1')


if __name__ == '__main__':
    unittest.main()
