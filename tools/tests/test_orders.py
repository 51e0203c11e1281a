"""Orders of rows, parts that are linked, and what is measured of faces, beside slow definitions of the same."""
from __future__ import annotations

import unittest
from typing import Any

import numpy as np

from helpers import equal
from recon import lone_points
from recon.clouds import curve_of
from recon.meshes import areas, longest_edges, mean_angle, pieces
from recon.toolbox.orders import ascending, curve_order, first_equal, turned


def parts_of(faces: Any, is_joined: Any) -> list[int]:
    """The first face of the part of each face, where two are of one part if they are joined."""
    part = list(range(len(faces)))
    for k, face in enumerate(faces):
        for j in range(k):
            if is_joined(set(face), set(faces[j])) and part[j] != part[k]:
                low, high = sorted((part[j], part[k]))
                part = [low if p == high else p for p in part]
    return part


def same_parts(got: Any, wanted: list[int]) -> None:
    first: dict[int, int] = {}
    equal([first.setdefault(number, k) for k, number in enumerate(got.tolist())], wanted)


class Orders(unittest.TestCase):
    def test_ascending_keys(self) -> None:
        draw = np.random.default_rng(1)
        for count, bound in ((0, 5), (1, 1), (1000, 3), (1000, 1 << 30), (1000, 1 << 62)):
            keys = draw.integers(0, bound, count)
            order, found = ascending(keys, bound)
            equal((order.tolist(), found.tolist()), (np.argsort(keys, kind='stable').tolist(), np.sort(keys).tolist()))

    def test_first_rows(self) -> None:
        draw = np.random.default_rng(2)
        for count, most in ((1, 1), (2, 1), (50, 20), (5000, 1 << 60)):
            keys = np.r_[draw.integers(0, most, count), draw.integers(0, most, count)]
            wanted = draw.permutation(keys)[:count]
            first = {key: row for row, key in reversed(list(enumerate(keys.tolist())))}
            equal(first_equal(keys, wanted).tolist(), [first[key] for key in wanted.tolist()])

    def test_cells_along_a_curve(self) -> None:
        cells = np.stack(np.meshgrid(*[np.arange(8)] * 3), axis=-1).reshape(-1, 3)
        along = cells[curve_order(cells, 3)]
        # each eighth of the curve is a cube, and so is each eighth of that
        for size in (64, 8):
            equal({tuple(np.ptp(block, axis=0)) for block in np.split(along, 512 // size)}, {(round(size ** (1 / 3)) - 1,) * 3})
        points = np.random.default_rng(3).normal(size=(500, 3)) * [1, 1e-9, 0] + [1e9, 0, 0]
        equal(sorted(curve_of(points).tolist()), list(range(500)))

    def test_lone_points_are_those_of_the_definition(self) -> None:
        draw = np.random.default_rng(4)
        points = np.r_[draw.uniform(size=(4000, 3)) * [1, 1, 0.01], draw.uniform(size=(60, 3))]
        apart = np.linalg.norm(points[:, None] - points[None], axis=2)
        near = np.argsort(apart, axis=1)[:, 1:13]
        wide = np.take_along_axis(apart, near[:, :6], axis=1).mean(axis=1)
        lone = wide > 4 * np.maximum(np.median(wide[near], axis=1), wide[near[:, :6]].min(axis=1))
        got = lone_points(points)
        equal((lone.sum() > 5, np.flatnonzero(got != lone).tolist()), (True, []))

    def test_parts_of_faces(self) -> None:
        draw = np.random.default_rng(5)
        for size in (6, 20, 60):
            faces = np.array([draw.permutation(size)[:3] for _ in range(40)])
            same_parts(pieces(faces, size), parts_of(faces.tolist(), lambda one, other: len(one & other) > 1))
        equal(len(pieces(faces[:0], 9)), 0)

    def test_faces_are_turned(self) -> None:
        faces = np.random.default_rng(6).permuted(np.tile(np.arange(3), (50, 1)), axis=1)
        equal(np.stack(turned(faces), axis=1).tolist(), [[*face[face.index(0):], *face[:face.index(0)]] for face in faces.tolist()])

    def test_what_is_measured_of_a_cube(self) -> None:
        corners = np.array([[k & 1, k >> 1 & 1, k >> 2] for k in range(8)], float)
        squares = ((0, 2, 3, 1), (4, 5, 7, 6), (0, 1, 5, 4), (2, 6, 7, 3), (0, 4, 6, 2), (1, 3, 7, 5))
        faces = np.array([face for a, b, c, d in squares for face in ((a, b, c), (a, c, d))])
        equal((set(areas(corners, faces).round(12)), set(longest_edges(corners, faces).round(12))), ({0.5}, {round(2 ** 0.5, 12)}))
        equal(round(mean_angle(corners, faces), 4), 60.0)
        # many cubes, so that some of the edges are looked at
        many = 9000
        far = np.concatenate([corners + 2 * k for k in range(many)])
        equal(abs(mean_angle(far, np.concatenate([faces + 8 * k for k in range(many)])) - 60) < 0.5, True)


if __name__ == '__main__':
    unittest.main()
