"""The exact signs: worked values, symbolic perturbation compared with real heights, and identities and bounds on random numbers."""
from __future__ import annotations

import random
import unittest

import common
from model.points import BOX, CORNERS, Point, conflict, dot, minus, normal, orientation, plain_power, positive, replaced, side

BASE = 2 ** 80


def by_heights(vertices: list[Point], cell: tuple[int, ...], new: int, exponent: int) -> bool:
    """`conflict` with every vertex i lifted to |v|^2 * BASE^exponent + BASE^i."""
    def height(i: int) -> int:
        return dot(vertices[i], vertices[i]) * BASE ** exponent + BASE ** i

    four = [vertices[i] for i in cell]
    power = orientation(*four) * height(new) - sum(height(i) * o for i, o in zip(cell, replaced(four, vertices[new])))
    assert power != 0
    return power < 0


def sign(number: int) -> int:
    return (number > 0) - (number < 0)


class Signs(unittest.TestCase):
    def test_worked_values(self) -> None:
        self.assertEqual(orientation(*(CORNERS[k] for k in (0, 1, 2, 4))), 4722366482869645213696)
        four = [common.FOUR[k] for k in (0, 2, 1, 3)]
        self.assertGreater(orientation(*four), 0)
        for p, wanted in (((0, 0, 0), -1), ((100, 100, -100), 0), ((101, 100, 100), 1)):
            self.assertEqual(sign(plain_power(four, p)), wanted)
        self.assertEqual(sign(side((0, 0, 0), (100, 0, 0), (0, 100, 0), (7, 9, 0))), 1)
        self.assertEqual(sign(side((0, 0, 0), (0, 100, 0), (100, 0, 0), (7, 9, 0))), -1)
        self.assertEqual(side((0, 0, 0), (1, 0, 0), (2, 0, 0), (7, 9, 5)), 0)

    def test_ties_of_the_box(self) -> None:
        for cell, new, wanted in (((0, 1, 3, 4), 2, True), ((0, 1, 2, 4), 3, False), ((0, 1, 2, 4), 5, False)):
            self.assertEqual(positive(CORNERS, cell), cell)
            self.assertEqual((conflict(CORNERS, cell, new), by_heights(CORNERS, cell, new, 9)), (wanted, wanted))

    def test_ties_are_those_of_heights(self) -> None:
        draw, tried = random.Random(1), 0
        for _ in range(1500):
            vertices = CORNERS + [(draw.randint(0, 2), draw.randint(0, 2), draw.randint(0, 2)) for _ in range(9)]
            five = draw.sample(range(len(vertices)), 5)
            cell = positive(vertices, (five[0], five[1], five[2], five[3]))
            if cell is not None and len({vertices[i] for i in five}) == 5:
                tried += 1
                answers = {conflict(vertices, cell, five[4]), *(by_heights(vertices, cell, five[4], n) for n in (17, 30))}
                self.assertEqual(len(answers), 1, (vertices, five))
        self.assertGreater(tried, 500)

    def test_identities(self) -> None:
        draw = random.Random(2)

        def point(size: int = 9) -> Point:
            return (draw.randint(-size, size), draw.randint(-size, size), draw.randint(-size, size))

        for _ in range(400):
            a, b, c, d, p = (point() for _ in range(5))
            four = [a, b, c, d]
            self.assertEqual(orientation(*four), sum(replaced(four, p)))
            moved = [sum(o * v[axis] for o, v in zip(replaced(four, p), four)) for axis in range(3)]
            self.assertEqual(moved, [orientation(*four) * w for w in p])
            distances = [dot(minus(v, p), minus(v, p)) for v in four]
            self.assertEqual(plain_power(four, p), -sum(q * o for q, o in zip(distances, replaced(four, p))))
            first = next((t for t in (orientation(a, b, c, d), *normal(a, b, c)) if t), 0)
            self.assertEqual(sign(side(a, b, c, d)), sign(first))

    def test_bounds(self) -> None:
        draw = random.Random(3)
        for _ in range(400):
            far = [(draw.choice([-BOX, BOX]), draw.choice([-BOX, BOX]), draw.choice([-BOX, BOX])) for _ in range(5)]
            self.assertLess(abs(orientation(*far[:4])), 2 ** 75)
            self.assertLess(max(abs(w) for w in normal(*far[:3])), 2 ** 50)
            self.assertLessEqual(abs(plain_power(far[:4], far[4])), 72 * 2 ** 120)


if __name__ == '__main__':
    unittest.main()
