"""What smoothing took away comes back, and noise does not."""
from __future__ import annotations

import unittest

import numpy as np

from recon.toolbox.given_back import wanted_places

SIDE = 40


def grid() -> tuple[np.ndarray, np.ndarray]:
    """Returns a flat grid of points with a wide bump, and its faces."""
    x, y = np.meshgrid(np.arange(SIDE), np.arange(SIDE), indexing='ij')
    height = 3 * np.exp(-((x - SIDE / 2) ** 2 + (y - SIDE / 2) ** 2) / 60)
    first = (np.arange(SIDE - 1)[:, None] * SIDE + np.arange(SIDE - 1)).ravel()
    faces = np.concatenate([np.stack([first, first + SIDE, first + 1], axis=1), np.stack([first + SIDE, first + SIDE + 1, first + 1], axis=1)])
    return np.stack([x.ravel(), y.ravel(), height.ravel()], axis=1).astype(float), faces


class GivenBack(unittest.TestCase):
    def test_a_bump_that_was_lowered_comes_back_without_the_noise(self) -> None:
        true, faces = grid()
        draw = np.random.default_rng(3)
        noise = np.zeros_like(true)
        noise[:, 2] = draw.normal(0, 0.3, len(true))
        lowered = true * [1, 1, 0.8]
        sights = np.tile([0.0, 0.0, 100.0], (len(true), 1))
        for is_fine in (False, True):
            new = wanted_places(lowered, faces, true + noise, sights, is_fine)
            inner = true[:, 2] > 0.5
            before = np.abs(lowered - true)[inner, 2].mean()
            after = np.abs(new - true)[inner, 2].mean()
            scanned = np.abs(noise)[inner, 2].mean()
            self.assertLess(after, before)
            self.assertLess(after, scanned)

    def test_places_without_lines_of_sight_and_without_residuals_stay(self) -> None:
        true, faces = grid()
        self.assertTrue(np.allclose(wanted_places(true, faces, true, None, True), true))
