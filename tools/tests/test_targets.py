"""Places to which the vertices of a smoothed mesh move (`recon.targets`), and `detail=` of recon-finish."""
from __future__ import annotations

import unittest

import numpy as np

from helpers import RECON_MESH, InFolder, call, equal, refuses, write
from recon.targets import GivenBack, Patch, averaged, noise_of, squared_cosines, target_places
from samples import ball, mesh_text

SIZE, NOISE = 1000.0, 8.0


def scanned(noise: float) -> tuple[np.ndarray, np.ndarray, np.ndarray, np.ndarray]:
    """Returns scanned points of a ball with bumps, where each would be without noise, its scanner, and the faces."""
    places, corners = ball(40, int(SIZE))
    exact, faces = np.array(places, float), np.array(corners)
    exact *= 1 + 0.03 * np.sin(exact[:, :1] / 60)
    stations = 3000 * np.array([(x, y, z) for x in (-1, 1) for y in (-1, 1) for z in (-1, 1)])
    draw = np.random.default_rng(1)
    sights = stations[draw.integers(0, 8, len(exact))]
    out = exact / SIZE
    sights = np.where((sights * out).sum(axis=1, keepdims=True) < 0, -sights, sights)
    ways = sights - exact
    ways /= np.linalg.norm(ways, axis=1)[:, None]
    return exact + ways * draw.normal(0, noise, len(exact))[:, None], exact, sights, faces


def blurred(points: np.ndarray, faces: np.ndarray, rounds: int) -> np.ndarray:
    """Returns points averaged with their neighbors."""
    near = Patch.of(points, faces).near
    return np.stack([averaged(points[:, k], near, rounds) for k in range(3)], axis=1)


class Targets(unittest.TestCase):
    def off(self, places: np.ndarray, exact: np.ndarray, faces: np.ndarray) -> float:
        """Returns the mean distance of places from the surface."""
        return float(np.abs(((places - exact) * Patch.of(exact, faces).normals).sum(axis=1)).mean())

    def test_they_are_nearer_than_points_and_smoothed_ones(self) -> None:
        points, exact, sights, faces = scanned(NOISE)
        smoothed = blurred(points, faces, 3)
        found = {given: self.off(target_places(points, smoothed, faces, sights, given), exact, faces) for given in (GivenBack.MEANS, GivenBack.MEANS_AND_DETAIL)}
        blind = self.off(target_places(points, smoothed, faces, None, GivenBack.MEANS_AND_DETAIL), exact, faces)
        before = min(self.off(points, exact, faces), self.off(smoothed, exact, faces))
        equal(max(found.values()) < blind < before, True)

    def test_points_without_noise_stay(self) -> None:
        points, _, sights, faces = scanned(0.0)
        smoothed = blurred(points, faces, 1)
        equal(np.array_equal(target_places(points, smoothed, faces, sights, GivenBack.MEANS_AND_DETAIL), points), True)

    def test_the_noise_is_found(self) -> None:
        points, exact, sights, faces = scanned(NOISE)
        patch = Patch.of(exact, faces)
        square = ((points - exact) * patch.normals).sum(axis=1) ** 2
        # of residuals that are noise alone a fifth too much is found
        equal(0.9 * 1.2 < noise_of(square, squared_cosines(exact, patch.normals, sights)) / NOISE ** 2 < 1.1 * 1.2, True)


@unittest.skipUnless(RECON_MESH, 'recon-mesh is not built here')
class Finishing(InFolder):
    def test_detail_needs_smoothing(self) -> None:
        write('mesh.ply', mesh_text(*ball(6, 3000, 0.1)))
        for words, why in ((('detail=yes',), 'requires smooth='), (('smooth=1', 'within=9', 'detail=all'), 'yes, means or no')):
            refuses('finish', why, 'mesh.ply', 'out.ply', *words)
        for word in ('yes', 'means', 'no'):
            status, said, error = call('finish', 'mesh.ply', 'out.ply', 'smooth=2', 'within=90', f'detail={word}')
            equal((status, error, 'gave detail back' in said), (0, '', word != 'no'))
