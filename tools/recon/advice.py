"""What `recon-surface` says if no right mesh can be made of a scan: the most likely mistake first, by the names that the user gave.

Names: without_repeats (points that occur several times, once) · too_few (why points make no surface) · looked_at (how far lines of sight fit) ·
why_empty (why there is no surface).
"""
from __future__ import annotations

from pathlib import Path
from typing import Any, Callable, Optional

import numpy as np

from recon.choices import Choices
from recon.clouds import SAMPLE, Spacing, spacing, tree_of
from recon.inputs import Cloud
from recon.library import Surface, build_files
from recon.positions import (LOOK, NAMED, ONE_BY_ONE, WRONG, Verdict, blocked_part, blocked_scanners, different, likeliest, shape_of, verdict_of,
                             words_of)
from recon.program import Invalid, Refused
from recon.toolbox.ply_text import Refusal
from recon.toolbox.progress import step
from recon.toolbox.tool import number_of

MOST, FEW_NAMES = 300_000, 3


def without_repeats(cloud: Cloud, choices: Choices) -> Cloud:
    """The cloud with each point once, where a part of them occur again with the same scanner."""
    if not cloud.sights.are_single() or len(cloud.points) < 2:
        return cloud
    some = cloud.points[:: max(1, len(cloud.points) // SAMPLE)]
    if len(different(some)) > 0.95 * len(some) and len(cloud.points) > SAMPLE:
        return cloud
    rows = different(np.c_[cloud.points, cloud.sights.scanners])
    repeats = len(cloud.points) - len(rows)
    if repeats < 0.05 * len(cloud.points):
        return cloud
    choices.choose('repeated points', repeats, 'the same coordinates and scanner as another point: merged')
    return cloud.take(rows)


def too_few(points: np.ndarray) -> str:
    """Says why there are too few points for a surface; else an empty text."""
    count = len(different(points)) if len(points) < 100 else len(points)
    if count < 4:
        return f'{number_of(count, "different point")}: a surface has at least four'
    shape = shape_of(points)
    return f'{shape}, so there is no surface' if shape else ''


def quality_by(program: Optional[str], folder: Path) -> Callable[[np.ndarray, np.ndarray, np.ndarray], float]:
    """Returns what measures positions by a small mesh."""
    def quality(points: np.ndarray, scanners: np.ndarray, first: np.ndarray) -> float:
        try:
            made = build_files(points, scanners, first, smooth=1, folder=folder / 'trial', program=program)
        except (Invalid, Refused, Refusal):
            return 1.0
        return made.votes_against_per_sight if 2 * made.counts['faces'] >= made.counts['points'] else 1.0

    return quality


def blocked_of(cloud: Cloud, texture: Spacing) -> tuple[float, np.ndarray]:
    """Which part of the lines of sight cross the surface of the points, and which of those of each scanner, if 5 % or more do; 0 where positions are
    synthesised."""
    if cloud.is_made_up:
        return 0.0, np.zeros(len(cloud.scanners))
    points, first = cloud.points, cloud.first_scanners()
    if len(points) > MOST:
        rows = np.sort(np.random.default_rng(3).permutation(len(points))[:MOST])
        points, first, texture = points[rows], first[rows], Spacing(spacing(points[rows]).distance, texture.noise)
    tree = tree_of(points)
    return (blocked_part(points, cloud.scanners, first, texture, tree), blocked_scanners(points, cloud.scanners, first, texture, tree))


def named(parts: np.ndarray, scanners: np.ndarray) -> str:
    """Names the positions with blocked lines, those with most of them first, unless there is one alone or all have some; else an empty text."""
    rows = np.flatnonzero(parts)[np.argsort(-parts[parts > 0], kind='stable')]
    if not 0 < len(rows) < len(scanners):
        return ''
    said = [f'{words_of(scanners[row])} ({parts[row]:.0%} of its lines)' for row in rows[:FEW_NAMES].tolist()]
    return ', '.join(said) + (f' and {len(rows) - FEW_NAMES} more' if len(rows) > FEW_NAMES else '')


def mistake(cloud: Cloud, parts: np.ndarray, args: Any, folder: Path) -> Optional[str]:
    """Says which mistake explains positions or normals that do not fit; None if none does. `parts` are those of the lines of each scanner that are
    blocked; the positions of scanners without any are taken for right, if there are others."""
    quality, first = quality_by(args.program, folder), cloud.first_scanners()
    if not cloud.is_made_up:
        with step('looking for the mistake of the positions', seconds=10):
            return likeliest(cloud.points, cloud.scanners, first, parts > 0 if parts.any() else np.ones(len(parts), bool), quality)
    rows = np.flatnonzero(first >= 0)[:: max(1, len(first) // SAMPLE)]
    points, own = cloud.points[rows], np.arange(len(rows))
    now, other = (quality(points, places, own) for places in (cloud.scanners[first[rows]], 2 * points - cloud.scanners[first[rows]]))
    return 'the lines of sight fit if the normals point the other way, out of the object' if other < 0.1 and other < now / 3 else None


def because(why: Optional[str], cloud: Cloud, parts: np.ndarray) -> str:
    """The mistake at the end of a message, if one is known: 0,0,0 is often stated where a position is unknown, but the first of several scans may stand
    there. `parts` are those of the lines of each scanner that are blocked."""
    wrong = cloud.scanners[parts > 0] if parts.any() else cloud.scanners
    if why is None and not cloud.is_made_up and not wrong.any(axis=1).all():
        why = 'one is 0,0,0, which programs write if it is unknown'
    return '' if why is None else ': ' + why


def looked_at(surface: Surface, cloud: Cloud, texture: Spacing, args: Any, folder: Path, choices: Choices) -> Verdict:
    """Says how far lines of sight fit the surface, and which positions or which mistake explain it if they do not."""
    against, (blocked, parts) = surface.votes_against_per_sight, blocked_of(cloud, texture)
    choices.tell(f'{against:.3f} contradictions for each line of sight' + ('' if cloud.is_made_up else
                 f', {blocked:.1%} of the lines are blocked'))
    if cloud.is_made_up:
        if against > LOOK:
            choices.warn(f'{against:.2f} contradictions for each line of sight, more than {LOOK}: check the normals'
                         + because(mistake(cloud, parts, args, folder), cloud, parts))
        return Verdict(0.0, against > LOOK, against > WRONG)
    has_named = bool(parts.any()) or blocked > NAMED and len(parts) > ONE_BY_ONE
    if not (has_named or against > WRONG):
        return verdict_of(against, blocked, False, False)
    why = mistake(cloud, parts, args, folder)
    verdict = verdict_of(against, blocked, has_named, why is not None)
    found = [f'{blocked:.0%} of the lines of sight cross the surface well before their points'] if has_named else []
    found += [f'there are {against:.2f} contradictions for each line of sight'] if against > LOOK else []
    choices.warn(' and '.join(found) + (f': {to_check(parts, cloud)}{because(why, cloud, parts)}' if verdict.is_suspect else
                 '; no mistake of the positions was found that explains them, so noise or outliers may'))
    return verdict


def to_check(parts: np.ndarray, cloud: Cloud) -> str:
    """Says which positions to check."""
    ones = named(parts, cloud.scanners)
    return f'check the scanner position{"s" if ", " in ones or not ones else ""}' + (f' {ones}' if ones else '')


def why_empty(cloud: Cloud, texture: Spacing, args: Any, folder: Path) -> str:
    """Says why there is no surface."""
    shape = shape_of(cloud.points)
    if shape:
        return f'{shape}, so there is no surface'
    _, parts = blocked_of(cloud, texture)
    why = because(mistake(cloud, parts, args, folder), cloud, parts)
    if why:
        return f'there is no surface: {"check the normals" if cloud.is_made_up else to_check(parts, cloud)}{why}'
    if args.smooth is not None and args.smooth > 3:
        return f'there is no surface at --smooth {args.smooth}: pass a smaller one'
    if cloud.is_made_up:
        return 'there is no surface: check that the normals point out of the object, and that --far is less than its thickness'
    return 'there is no surface: no point has space behind it that no scanner saw. Check the scanner positions: their side, units and order of axes'
