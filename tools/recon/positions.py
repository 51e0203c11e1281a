"""What tells wrong scanner positions from right ones, and which mistake explains them.

With right positions nearly no line of sight crosses the surface on which the points lie, well before its own point. Noise, outliers and stereo raise the
contradictions of a mesh, and leave this number small; a wrong position raises both.

Names: blocked_part (which part of the lines of sight cross the points' surface) · blocked_scanners (the same for each scanner) · Verdict, verdict_of
(whether positions are wrong) · far_positions (other units or another coordinate frame) · likeliest (the mistake that explains the rest best) · shape_of (points
at one place, in a line or in a plane).
"""
from __future__ import annotations

import itertools
from typing import Callable, Iterator, List, NamedTuple, Optional, Tuple

import numpy as np
from scipy.spatial import cKDTree

from recon.clouds import Spacing, box_of, spacing, tree_of

# contradictions for each line of sight, and parts of them that are blocked
LOOK, WRONG, LOOK_BLOCKED, WRONG_BLOCKED = 0.1, 0.25, 0.025, 0.2
SIGHTS, STEPS, NEAR = 800, 300, 12
# the part of the lines of one scanner from which on it is named; how many are followed of all scanners, of one at first and of one again, and the fewest
# that say something; and how many scanners are looked at one by one
NAMED, OF_ALL, OF_ONE, AGAIN, FEWEST, ONE_BY_ONE = 0.05, 1600, 40, 1000, 20, 100
# a line of sight that meets the surface at a smaller angle may only graze it; the cosine is that to the normal
GRAZING = 0.35
FAR, MUCH = 200.0, 100.0
FEW, TRIED = 2500, 6
# of up to this many positions, also a wrong sign of one alone is looked for
ALONE = 8
AXES = 'xyz'


class Tube(NamedTuple):
    """Lines of sight as they are followed: where they start, their directions, and how far to go on each."""
    starts: np.ndarray
    ways: np.ndarray
    ends: np.ndarray


def lines_of_sight(points: np.ndarray, scanners: np.ndarray, first: np.ndarray, margin: float, rows: np.ndarray) -> Tuple[Tube, np.ndarray]:
    """Returns the lines of sight to these points, which end `margin` before them, and how far along each the box of the points begins."""
    starts = scanners[first[rows]]
    ways = points[rows] - starts
    long = np.linalg.norm(ways, axis=1)
    ways = ways / np.maximum(long, 1e-300)[:, None]
    low, high = box_of(points)
    with np.errstate(all='ignore'):
        sides = np.minimum((low - margin - starts) / ways, (high + margin - starts) / ways)
    begun = np.maximum(np.nanmax(np.where(np.isfinite(sides), sides, 0.0), axis=1, initial=0.0), 0.0)
    return Tube(starts, ways, long - margin), begun


def crosses(tree: cKDTree, tube: Tube, at: np.ndarray, near: np.ndarray, rows: np.ndarray, apart: float) -> np.ndarray:
    """Returns which lines of sight `rows`, which are `at` a distance near the points `near`, cross the plane through the points around these there, with
    points on it, and not at a grazing angle."""
    points = np.asarray(tree.data)
    around = points[tree.query(points[near], min(NEAR, len(points)), workers=-1)[1]]
    around = around - around.mean(axis=1, keepdims=True)
    normals = np.linalg.eigh(np.einsum('nki,nkj->nij', around, around))[1][:, :, 0]
    steep = np.einsum('ij,ij->i', tube.ways[rows], normals)
    with np.errstate(all='ignore'):
        met = np.einsum('ij,ij->i', points[near] - tube.starts[rows], normals) / steep
    is_met = (np.abs(steep) > GRAZING) & (met > 0) & (met < tube.ends[rows]) & (np.abs(met - at) < 2 * apart)
    spots = tube.starts[rows] + tube.ways[rows] * np.where(is_met, met, 0.0)[:, None]
    # a lone point is no surface
    return is_met & (tree.query(spots, min(3, len(points)), workers=-1)[0][:, -1] < 1.5 * apart)


def are_blocked(points: np.ndarray, scanners: np.ndarray, first: np.ndarray, texture: Spacing, tree: Optional[cKDTree], rows: np.ndarray) -> np.ndarray:
    """Returns which of the lines of sight to these points cross the surface of all points, six spacings and six times the noise before their own points.
    `first` is the first scanner of each point."""
    apart = texture.distance
    if not apart or len(points) < NEAR or not len(rows):
        return np.zeros(len(rows), bool)
    tree = tree_of(points) if tree is None else tree
    tube, at = lines_of_sight(points, scanners, first, 6 * max(apart, texture.noise), rows)
    is_blocked, live = np.zeros(len(at), bool), np.flatnonzero(at < tube.ends)
    for _ in range(STEPS):
        if not len(live):
            break
        far, near = tree.query(tube.starts[live] + tube.ways[live] * at[live, None], workers=-1)
        close = np.flatnonzero(far < apart)
        if len(close):
            is_blocked[live[close]] = crosses(tree, tube, at[live[close]], near[close], live[close], apart)
        # no point is nearer than `far`
        at[live] += np.maximum(0.9 * far, apart / 2)
        live = live[(at[live] < tube.ends[live]) & ~is_blocked[live]]
    return is_blocked


def blocked_part(points: np.ndarray, scanners: np.ndarray, first: np.ndarray, texture: Spacing, tree: Optional[cKDTree] = None, count: int = SIGHTS) -> float:
    """Returns which part of some lines of sight are blocked: 0.02 at most with right positions."""
    rows = np.sort(np.random.default_rng(1).permutation(np.flatnonzero(first >= 0))[:count])
    return float(are_blocked(points, scanners, first, texture, tree, rows).mean()) if len(rows) else 0.0


def part_of_each(points: np.ndarray, scanners: np.ndarray, first: np.ndarray, texture: Spacing, tree: cKDTree, most: int, seed: int) -> np.ndarray:
    """Returns which part of at most some lines of each scanner (k,) are blocked; 0 of one with under 20 lines."""
    part, rows = np.zeros(len(scanners)), np.random.default_rng(seed).permutation(np.flatnonzero(first >= 0))
    rows = rows[np.argsort(first[rows], kind='stable')]
    rows = rows[np.arange(len(rows)) - np.searchsorted(first[rows], first[rows]) < most]
    count = np.bincount(first[rows], minlength=len(scanners))
    is_known = count >= FEWEST
    rows = rows[is_known[first[rows]]]
    found = np.bincount(first[rows], are_blocked(points, scanners, first, texture, tree, rows), len(scanners))
    part[is_known] = found[is_known] / count[is_known]
    return part


def blocked_scanners(points: np.ndarray, scanners: np.ndarray, first: np.ndarray, texture: Spacing, tree: Optional[cKDTree] = None) -> np.ndarray:
    """Returns which part of the lines of each scanner (k,) are blocked, of those with 5 % or more, also of other lines than those that were followed first; 0 of
    the others, and if there are over 100 scanners."""
    if len(scanners) > ONE_BY_ONE or len(points) < NEAR or not texture.distance:
        return np.zeros(len(scanners))
    tree = tree_of(points) if tree is None else tree
    part = part_of_each(points, scanners, first, texture, tree, max(OF_ONE, OF_ALL // max(len(scanners), 1)), 4)
    named = np.where((first >= 0) & (part[first] >= NAMED), first, -1)
    part = part_of_each(points, scanners, named, texture, tree, AGAIN, 5)
    return np.where(part >= NAMED, part, 0.0)


class Verdict(NamedTuple):
    """What is known of positions, or of normals in their place: the part of the lines of sight that are blocked, and whether they should be checked and are
    wrong."""
    blocked: float = 0.0
    is_suspect: bool = False
    is_wrong: bool = False


def verdict_of(against: float, blocked: float, has_named: bool, is_explained: bool) -> Verdict:
    """Judges positions by the contradictions for each line of sight, the part of the lines that are blocked, whether many of those of one position are,
    and whether a mistake explains them. Noise, outliers and walls that are exact planes raise contradictions alone."""
    is_wrong = is_explained or against > 2 * WRONG or blocked > (LOOK_BLOCKED if against > WRONG else WRONG_BLOCKED)
    return Verdict(blocked, is_wrong or has_named, is_wrong)


def words_of(place: np.ndarray) -> str:
    """A place as the command line takes it."""
    return ','.join(f'{value:.10g}' for value in place.tolist())


def far_positions(points: np.ndarray, scanners: np.ndarray) -> Optional[str]:
    """Says why positions are very far from the points: another coordinate frame, or other units. None if they are not."""
    low, high = box_of(points)
    middle, size = (low + high) / 2, max(float((high - low).max()), 1e-300)
    place = np.median(scanners, axis=0)
    if float(np.abs(place - middle).max()) < FAR * size:
        return None
    if float(np.abs(middle).max()) > MUCH * size and float(np.abs(place).max()) < float(np.abs(middle).max()) / 10:
        return (f'the points are near {words_of(np.round(middle))}, as in national coordinates, and the scanner position {words_of(place)} is not: pass '
                'positions in the coordinates of the points')
    for factor, what in ((1000.0, 'millimeters instead of meters'), (1 / 0.3048, 'feet instead of meters'), (100.0, 'centimeters instead of meters')):
        if float(np.abs(place / factor - middle).max()) < 10 * size:
            return f'the scanner position {words_of(place)} is in {what}, if the points are in meters: pass it in their units'
    return (f'the scanner position {words_of(place)} is {float(np.abs(place - middle).max()) / size:,.0f} times as far from the points as these are wide: '
            'pass positions in the coordinates and units of the points')


class Change(NamedTuple):
    """A mistake, in words, and positions without it."""
    what: str
    mended: Callable[[np.ndarray], np.ndarray]


def scaled(factor: float) -> Callable[[np.ndarray], np.ndarray]:
    return lambda scanners: scanners * factor


def turned(order: Tuple[int, ...], signs: Tuple[int, ...]) -> Callable[[np.ndarray], np.ndarray]:
    return lambda scanners: scanners[:, list(order)] * np.array(signs)


ALL_SIGNS = sorted(itertools.product((1, -1), repeat=3), key=lambda signs: signs.count(-1))


def changes_of_signs(of: str = '', are: str = 'they are') -> Iterator[Change]:
    """Yields wrong signs, the fewest first; `of` and `are` are what the text calls the positions that have them."""
    for signs in ALL_SIGNS[1:]:
        wrong = [axis for axis, sign in zip(AXES, signs) if sign < 0]
        yield Change(f'{" and ".join(wrong)}{of} {"has" if len(wrong) == 1 else "have"} the wrong sign, so {are} on the wrong side', turned((0, 1, 2), signs))


def changes() -> Iterator[Change]:
    """Yields the mistakes that are looked for, the simplest first."""
    for factor, what in ((1 / 0.3048, 'they are in meters and the points in feet'), (0.3048, 'they are in feet and the points in meters'),
                         (1000.0, 'they are in meters and the points in millimeters'), (0.001, 'they are in millimeters and the points in meters')):
        yield Change(what, scaled(factor))
    yield from changes_of_signs()
    for signs in ALL_SIGNS:
        for order in itertools.permutations(range(3)):
            if order != (0, 1, 2):
                with_signs = ', '.join(('-' if sign < 0 else '') + AXES[k] for k, sign in zip(order, signs))
                yield Change(f'their axes are in another order: their {with_signs} are x, y, z of the points', turned(order, signs))


class Trial(NamedTuple):
    """A mistake of some positions."""
    change: Change
    is_wrong: np.ndarray


def trials_of(is_wrong: np.ndarray) -> Iterator[List[Trial]]:
    """Yields lists of mistakes to try: those of all these positions; then, if they are all there are, and few, a wrong sign of one alone."""
    yield [Trial(change, is_wrong) for change in changes()]
    if is_wrong.all() and 1 < len(is_wrong) <= ALONE:
        yield [Trial(change, one) for change in changes_of_signs(' of one', 'it is') for one in np.eye(len(is_wrong), dtype=bool)]


def likeliest(points: np.ndarray, scanners: np.ndarray, first: np.ndarray, is_wrong: np.ndarray,
              quality: Callable[[np.ndarray, np.ndarray, np.ndarray], float]) -> Optional[str]:
    """Says which mistake explains the positions `is_wrong` (k,): the simplest with which the lines of sight of a sample fit. If all of a few positions may be
    wrong, one alone may be too. `quality` returns the contradictions for each line of sight of a mesh of some points, scanners and first scanners, or 1 if
    there is none. None if nothing fits."""
    rows = np.sort(np.random.default_rng(2).permutation(np.flatnonzero(first >= 0))[:FEW])
    if len(rows) < NEAR:
        return None
    some, seen = points[rows], first[rows]
    texture, tree = spacing(some), tree_of(some)
    now = quality(some, scanners, seen)
    for trials in trials_of(is_wrong):
        open_ones: List[Tuple[float, int, Trial]] = []
        for number, trial in enumerate(trials):
            blocked = blocked_part(some, without(trial.change, scanners, trial.is_wrong), seen, texture, tree, SIGHTS // 8)
            if blocked <= LOOK_BLOCKED:
                open_ones.append((round(blocked, 2), number, trial))
        for _, _, trial in sorted(open_ones, key=lambda it: it[:2])[:TRIED]:
            right = without(trial.change, scanners, trial.is_wrong)
            against = quality(some, right, seen)
            if against < LOOK and against < now / 3:
                row = int(np.argmax(trial.is_wrong))
                return f'the lines of sight fit if {trial.change.what} (for example {words_of(right[row])} instead of {words_of(scanners[row])})'
    return None


def without(change: Change, scanners: np.ndarray, is_wrong: np.ndarray) -> np.ndarray:
    """The positions without a mistake of these."""
    return np.where(is_wrong[:, None], change.mended(scanners), scanners)


def shape_of(points: np.ndarray) -> str:
    """Says whether the points are at one place, or in a line or a plane; else an empty text."""
    some = points - points.mean(axis=0)
    reach = float(np.abs(some).max(initial=0.0))
    if not reach:
        return 'all points are at one place'
    widths = np.sqrt(np.maximum(np.linalg.eigvalsh((some / reach).T @ (some / reach)), 0) / len(some))
    return 'the points lie in a line' if widths[1] < 1e-7 else 'the points lie in a plane' if widths[0] < 1e-7 else ''


def different(points: np.ndarray) -> np.ndarray:
    """Returns the first row of each different place, ascending."""
    return np.asarray(np.sort(np.unique(points, axis=0, return_index=True)[1]))


__all__ = ['NAMED', 'ONE_BY_ONE', 'Verdict', 'blocked_part', 'blocked_scanners', 'different', 'far_positions', 'likeliest', 'shape_of', 'verdict_of', 'words_of']
