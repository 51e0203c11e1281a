"""Reconstructs a closed mesh from a scan, verifies it, and writes a page that shows it.

Chooses the source of the lines of sight, origin, unit, thinning, smoothing and finishing from the data; each choice has an option that
overrides it. Runs `recon build` and `recon check`, and writes next to the mesh MESH.ply:

  MESH-light.ply   with --faces: MESH.ply with fewer faces, so that no vertex of it is farther than a distance from the light mesh
  MESH-seen.ply    the mesh without the faces that span space that no scanner saw; it is open. If these faces are over a third of the
                   area, MESH.ply is this mesh, and MESH-closed.ply is the closed one (--closed and --seen choose)
  MESH.html        a page that shows both meshes in a browser, without a network
  MESH.recon/      scan.ply, mesh.ply and scan.cert, the files that `recon check` reads; report.json with choices, reasons and figures;
                   again.sh, which repeats the run from the original files

A scan of more than 1,048,576 points is built in tiles, which are kept in MESH.tiles/ until the run has ended well: the same command continues a run that
was interrupted.

Options may also be written as those of `recon` and of the other tools: scanner=X,Y,Z, unit=1000, normals=yes, flips=no.

Exit status: 0 success, 1 error, 2 invalid arguments, 3 empty surface, 4 success, but positions or normals look wrong (0 with
--force).
"""
from __future__ import annotations

import argparse
import os
import shutil
import sys
import types
import warnings
from dataclasses import dataclass, replace
from pathlib import Path
from typing import Any, Sequence

import numpy as np
from scipy.spatial import cKDTree

from recon.advice import looked_at, too_few, why_empty, without_repeats
from recon.beside import Beside
from recon.choices import Choices
from recon.clouds import SAMPLE, Spacing, box_of, curve_of, frame, lone_points, spacing, surrounding, thinned, thinning_side, tree_of
from recon.finish import MOST_STEPS, Request, finished
from recon.inputs import Cloud, Inputs, read_cloud
from recon.library import POINT_LIMIT, Surface, build_files
from recon.light import light_mesh
from recon.mesh_program import has_command, mesh_program_path
from recon.meshes import pieces
from recon.outputs import Made, inputs_of, refuse_places, write_outputs
from recon.positions import far_positions
from recon.program import Invalid, Refused, program_path
from recon.targets import GivenBack
from recon.toolbox.mesh_files import Column, Finished, form_of
from recon.toolbox.one_form import dashed, version_line
from recon.toolbox.output_files import passing_folder, user_names
from recon.toolbox.ply_text import IS_NUMBER, Refusal
from recon.toolbox.progress import build_part, read_part, signs_of_life, step
from recon.toolbox.stopping import Stopped, stoppable
from recon.toolbox.tool import number_of

MOST, MOST_OF_A_TILE, CORNERS = 1_000_000, 500_000, 8
# seconds a point that looking at the points and building usually take
LOOKED_AT, BUILT = 8e-6, 4e-5
# faces that recon-mesh smooths in a second, for one step
SMOOTHED_A_SECOND = 150_000
# the part of the directions around a scanner that has points in a room, and up to how many scanners are looked at
ROOM, MOST_STATIONS = 0.8, 500
# the noise, in spacings, over which detail and noise cannot be separated
LARGE_NOISE = 0.22


class NoSurface(Exception):
    """There is no surface of the scan, or no point."""


@dataclass
class Scan:
    """A cloud ready for `build`: with its spacing and noise, origin and unit."""
    cloud: Cloud
    texture: Spacing
    origin: np.ndarray
    unit: int
    read: int
    surround: float


def divided(cloud: Cloud, args: Any, choices: Choices) -> Cloud:
    """The cloud with its coordinates divided, where that is asked for."""
    if args.divide:
        cloud.points, cloud.scanners = cloud.points / args.divide, cloud.scanners / args.divide
        choices.choose('divide', f'{args.divide:g}', 'given')
    return cloud


def cleaned(cloud: Cloud, tree: cKDTree, args: Any, choices: Choices) -> Cloud:
    """The cloud without lone points. `tree` is that of its points, which stand along a curve."""
    points = cloud.points
    middle = np.median(points[::max(1, len(points) // SAMPLE)], axis=0)
    away = np.abs(points[:, 0] - middle[0])
    for k in (1, 2):
        np.maximum(away, np.abs(points[:, k] - middle[k]), out=away)
    far = int((away > 50 * max(float(np.percentile(away, 99)), 1e-300)).sum())
    if far:
        choices.warn(f'{far} points are more than 50 times as far from the middle as 99 % of all points: remove them by recon-scan with from= and to=')
    if not is_cleaned(cloud, args):
        return cloud
    lone = lone_points(points, tree=tree, order=np.arange(len(points)))
    if not lone.any():
        return cloud
    choices.choose('lone points', int(lone.sum()), f'{lone.mean():.2%} are outliers, over four times as far from their neighbors as usual there: removed, '
                   '--no-clean keeps them')
    return cloud.take(np.flatnonzero(~lone))


def thin(cloud: Cloud, texture: Spacing, args: Any, choices: Choices) -> Cloud:
    """The cloud with one point a cube, where there are too many points or they err more than they are apart."""
    side, apart = args.side, texture.distance
    most = args.max_points or (MOST if args.sweep else None)
    if args.tiles or side is None and most is None and len(cloud.points) > POINT_LIMIT - CORNERS:
        choices.choose('tiles', 'yes', 'given' if args.tiles else f'{len(cloud.points):,} points; --max-points N thins them')
    elif side is None and most is not None and len(cloud.points) > most:
        side = thinning_side(cloud.points, most, apart)
        choices.choose('side', f'{side:g}', f'{len(cloud.points):,} points exceed {most:,}; --tiles keeps all')
    elif side is None and texture.noise > 0.8 * apart and not cloud.is_made_up:
        side = float(f'{1.5 * texture.noise:.3g}')
        choices.choose('side', f'{side:g}', f'the noise {texture.noise:.2g} is more than 0.8 of the spacing {apart:.2g}')
    elif side:
        choices.choose('side', f'{side:g}', 'given')
    if not side:
        return cloud
    cloud = cloud.take(thinned(cloud.points, side))
    choices.tell(f'{len(cloud.points):,} points are left, one in each cube of side {side:g}')
    return cloud


def seen_around(cloud: Cloud) -> float | None:
    """In which part of the directions around the scanner with the most points there are points; None where no scanner tells that."""
    first = cloud.first_scanners()
    seen = first[first >= 0]
    if not len(seen) or len(cloud.scanners) > MOST_STATIONS or cloud.is_made_up:
        return None
    busiest = np.bincount(seen).argmax()
    return surrounding(cloud.points[first == busiest], cloud.scanners[busiest])


def closed_around(cloud: Cloud, texture: Spacing, args: Any, choices: Choices) -> tuple[Cloud, float]:
    """The cloud with eight points around it, where it was scanned from inside."""
    part, off = seen_around(cloud), args.surround
    is_inside = part is not None and part > ROOM
    is_many = len(cloud.scanners) > MOST_STATIONS and not cloud.is_made_up
    found = (f'points in {part:.0%} of the directions around a scanner' if part is not None else
             f'over {MOST_STATIONS} scanner positions' if is_many else 'no scanner positions are known')
    if off is None:
        low, high = box_of(cloud.points)
        size = float((high - low).max())
        off = float(f'{max(10 * texture.distance, 0.02 * size):.3g}') if is_inside else 0.0
        where = '' if part is None else 'scanned from inside: ' if is_inside else 'not scanned from inside: '
        choices.choose('surround', f'{off:g}', where + found)
    else:
        choices.choose('surround', f'{off:g}', 'given')
        if off and not is_inside:
            choices.warn(f'--surround is for scans from inside ({found}): the mesh may have fins toward the eight added points')
    return (cloud.with_corners(off) if off else cloud), off


def prepared(inputs: Inputs) -> Scan:
    """Reads the files, and chooses all that makes the scan."""
    args, choices = inputs.args, inputs.choices
    with step('reading', read_part(inputs_of(args))):
        cloud = divided(read_cloud(inputs), args, choices)
    choices.timed('read')
    if not len(cloud.points):
        raise NoSurface('no point is left')
    with step('looking at the points', seconds=LOOKED_AT * len(cloud.points)):
        scan = fitted(cloud, args, choices)
    choices.timed('choose')
    return scan


def fitted(cloud: Cloud, args: Any, choices: Choices) -> Scan:
    """Cleans and thins the cloud, and chooses how it becomes a scan."""
    read = len(cloud.points)
    cloud = without_repeats(cloud, choices)
    if too_few(cloud.points):
        raise NoSurface(too_few(cloud.points))
    # in this order all that looks at points, vertices and faces finds near ones near each other in memory
    cloud = cloud.take(curve_of(cloud.points))
    tree = tree_of(cloud.points)
    texture = spacing(cloud.points, tree)
    if not texture.distance:
        raise NoSurface('most points have the same coordinates')
    low, high = box_of(cloud.points)
    choices.tell(f'{read:,} points, {number_of(len(cloud.scanners), "scanner position")}; spacing {texture.distance:.4g}, '
                 f'noise about {texture.noise:.2g}, extent {(high - low).max():.4g}')
    cloud = thin(cleaned(cloud, tree, args, choices), texture, args, choices)
    cloud, off = closed_around(cloud, texture, args, choices)
    origin, unit = framed(cloud, texture, args, choices)
    return Scan(cloud, texture, origin, unit, read, off)


def framed(cloud: Cloud, texture: Spacing, args: Any, choices: Choices) -> tuple[np.ndarray, int]:
    """The origin and the scale."""
    given = None if args.origin is None else np.array([float(word) for word in args.origin.split(',')])
    far = None if cloud.is_made_up else far_positions(cloud.points, cloud.scanners)
    try:
        fitting = frame(*((cloud.points, cloud.scanners) if given is None else (cloud.points - given, cloud.scanners - given)), texture.distance)
    except Invalid as error:
        raise Refusal(far or str(error)) from None
    if far:
        choices.warn(far)
    origin, unit = fitting.origin if given is None else given, args.unit or fitting.unit
    why = 'given' if given is not None else 'coordinates are far from 0' if origin.any() else 'coordinates are in range'
    choices.choose('origin', ','.join(map(plain, origin)), why)
    gap = texture.distance * unit
    choices.choose('unit', unit, 'given' if args.unit else f'the spacing is {gap:.0f} units')
    if gap < 20:
        choices.warn(f'the spacing is only {gap:.1f} units, so rounding is visible: ' + ('use a larger --unit' if unit < fitting.unit else
                     'build parts of the scan, each with its own origin (recon-scan with from=, to= and origin=)'))
    return origin, unit


def plain(value: float) -> str:
    """A number without an exponent."""
    text = f'{value:.12f}'.rstrip('0').rstrip('.')
    return '0' if text in ('', '-0') else text


def usual_smooth(cloud: Cloud, args: Any, choices: Choices) -> tuple[int, str]:
    """The area weight, and why: outliers want a larger one, and without them the mesh is nearest to the object at 2."""
    if cloud.is_made_up:
        return 1, 'lines of sight along normals are short'
    is_clean = is_cleaned(cloud, args) and 'lone points' not in choices.chosen
    return (2, 'scanner positions are known, and there are no lone points') if is_clean else (3, 'scanner positions are known')


def is_cleaned(cloud: Cloud, args: Any) -> bool:
    """Whether lone points are removed."""
    return not (args.no_clean or cloud.is_made_up or len(cloud.points) <= 100)


def built(scan: Scan, args: Any, folder: Path, choices: Choices) -> Surface:
    """Builds the surface, with a smaller area weight where it vanishes."""
    cloud = scan.cloud
    usual, reason = usual_smooth(cloud, args, choices)
    tried = [args.smooth] if args.smooth is not None else list(dict.fromkeys([usual, 1]))
    for smooth in tried:
        choices.tell(f'building at smooth={smooth}')
        surface = built_at(smooth, scan, args, folder, choices)
        if 2 * surface.counts['faces'] >= surface.counts['points']:
            break
        if surface.counts['faces']:
            choices.warn(f'smooth={smooth} gives only {surface.counts["faces"]:,} faces for {surface.counts["points"]:,} points')
    why = 'given' if args.smooth is not None else f'the surface vanishes at {usual}' if surface.smooth != usual else reason
    choices.choose('smooth', surface.smooth, why)
    choices.timed('build')
    if not surface.counts['faces']:
        why = why_empty(cloud, scan.texture, args, folder)
        if 'tiles' in choices.chosen:
            # there is nothing to go on with
            shutil.rmtree(tiles_folder(args), ignore_errors=True)
        raise NoSurface(why)
    choices.verdict = looked_at(surface, cloud, scan.texture, args, folder, choices)
    return surface


def built_at(smooth: int, scan: Scan, args: Any, folder: Path, choices: Choices) -> Surface:
    """The surface at an area weight, whose mesh is still to be read; of tiles where there are too many points."""
    cloud, given = scan.cloud, {'smooth': smooth, 'vote': args.vote, 'unit': scan.unit, 'origin': scan.origin, 'weights': scan.cloud.weights,
                                'folder': folder, 'program': args.program}
    if 'tiles' not in choices.chosen:
        watch, part = build_part()
        with step('building', part, BUILT * len(cloud.points)):
            return build_files(cloud.points, cloud.scanners, lists_of(cloud), watch=None if args.quiet else watch, **given)
    from recon.tiled import Tiling, build_tiles
    tiling = Tiling(min(args.max_points or MOST_OF_A_TILE, MOST_OF_A_TILE), args.jobs, tiles_folder(args), choices.tell)
    surface = build_tiles(cloud.points, cloud.scanners, cloud.sights, tiling, **given)
    assert surface.joined is not None
    choices.tell(str(surface.joined))
    choices.choose('tiles', len(surface.names), f'{choices.chosen["tiles"].why}; each tile is checked; the joined mesh is closed, with '
                   f'{surface.joined.moved} edges from the tile next to theirs and {surface.joined.filled} triangles of no tile')
    return surface


def tiles_folder(args: Any) -> Path:
    """The folder of the tiles of a run that has not ended well."""
    return Path(args.output).with_suffix('.tiles')


def lists_of(cloud: Cloud) -> Any:
    """Who saw each point, as `build` takes it."""
    if cloud.sights.are_single():
        return cloud.sights.scanners
    rows = np.empty(len(cloud.points), object)
    rows[:] = np.split(cloud.sights.scanners, np.cumsum(cloud.sights.counts)[:-1])
    return rows


def request_for(surface: Surface, scan: Scan, args: Any, choices: Choices) -> Request:
    """How the mesh is finished: pieces, flips and steps of smoothing."""
    part = pieces(surface.faces, len(surface.vertices))
    sizes = np.sort(np.bincount(part))[::-1]
    least = max(50.0, 0.01 * sizes[0], 100.0 if scan.surround else 0.0)
    kept = args.pieces or max(1, int((sizes >= least).sum()))
    choices.choose('pieces', kept, 'given' if args.pieces else f'of {len(sizes)}, those with at least {least:.0f} faces')
    apart, noise = scan.texture
    # steps that are asked for move vertices of a scan without noise too
    least_move = 0.1 * apart if args.steps else 0.0
    move = max(float(f'{3 * noise:.2g}'), float(f'{least_move:.2g}'), 1 / scan.unit) if noise > 0.05 * apart or args.steps else 0.0
    within = args.within if args.within is not None else move
    steps = args.steps if args.steps is not None else 6 if noise > LARGE_NOISE * apart else 3
    steps, flips = steps if within else 0, not args.no_flips
    given_back = given_back_for(scan, args) if steps else GivenBack.NOTHING
    request = Request(flips=flips, steps=steps, within=within, given_back=given_back, is_made_up=scan.cloud.is_made_up)
    smoothing = len(surface.faces) * request.passes() / SMOOTHED_A_SECOND if steps else 0.0
    if args.steps is None and smoothing > args.patience:
        choices.warn(f'not smoothed: it would take about {smoothing / 60:.0f} minutes (--patience SECONDS allows it)')
        steps = 0
    if mesh_program_path() is None:
        choices.warn('the program recon-mesh was not found (make run builds it): the mesh is not finished')
        steps, flips, kept = 0, False, 0
    choices.choose('flips', 'yes' if flips else 'no', 'given' if args.no_flips else 'reduces the angles between faces' if flips else 'recon-mesh was not found')
    if steps:
        choices.choose('steps', steps, 'given' if args.steps is not None else f'noise {noise:.2g} at spacing {apart:.2g}')
        choices.choose('detail', given_back.value, 'given' if args.no_detail else 'recon-mesh cannot do it' if not has_command('move') else 'no lines of sight are known' if scan.cloud.is_made_up else
                       f'noise {noise:.2g} at spacing {apart:.2g}')
        choices.choose('within', f'{within:g}', 'given' if args.within is not None else 'three times the noise' if 3 * noise >= least_move
                       else f'a tenth of the spacing {apart:.2g}')
    else:
        choices.choose('steps', 0, 'given' if args.steps == 0 else 'recon-mesh was not found' if not kept else 'it would exceed --patience' if within else
                       f'the noise {noise:.2g} is small compared to the spacing {apart:.2g}')
    return replace(request, pieces=kept or None, flips=flips, steps=steps, within=within if steps else 0.0, unit=scan.unit, origin=scan.origin.tolist(),
                   seen=True, given_back=given_back if steps else GivenBack.NOTHING)


def given_back_for(scan: Scan, args: Any) -> GivenBack:
    """What of the residuals of smoothing is given back: detail and noise cannot be separated where noise is large, or where lines of sight are made up."""
    if args.no_detail or not has_command('move'):
        return GivenBack.NOTHING
    is_unclear = scan.cloud.is_made_up or scan.texture.noise > LARGE_NOISE * scan.texture.distance
    return GivenBack.MEANS if is_unclear else GivenBack.MEANS_AND_DETAIL


def colored(mesh: Finished, surface: Surface, cloud: Cloud) -> np.ndarray | None:
    """Colors of the vertices, by the points that they are; they go into the columns of the mesh."""
    if cloud.colors is None:
        return None
    colors = cloud.colors[surface.source[mesh.vertex_of]]
    columns: list[Column] = [(name, 'uchar', colors[:, k]) for k, name in enumerate(('red', 'green', 'blue'))]
    mesh.columns.extend(columns)
    return np.asarray(colors)


def lightened(mesh: Finished, scan: Scan, args: Any, choices: Choices) -> Finished | None:
    """The mesh with fewer faces, where it is asked for."""
    if not args.faces:
        return None
    apart, noise = scan.texture
    usual = max(float(f'{(noise if noise > 0.05 * apart else apart / 2):.2g}'), 1 / scan.unit)
    reach = args.faces_within or usual
    choices.choose('faces', args.faces, 'given')
    choices.choose('faces-within', f'{reach:g}', 'given' if args.faces_within else 'the noise' if noise > 0.05 * apart else 'half of the spacing')
    if args.faces_surface:
        choices.choose('faces-surface', 'yes', 'given')
    light = light_mesh(mesh, scan.unit, scan.origin.tolist(), reach, args.faces, args.fill, args.faces_surface)
    if len(light.faces) > args.faces + 1:
        choices.warn(f'the light mesh has {len(light.faces):,} faces: with fewer a {"point" if args.faces_surface else "vertex"} would be farther than {reach:g} from it, or faces would intersect')
    choices.timed('simplify')
    return light


def made(args: Any, choices: Choices, folder: Path) -> Made:
    """The whole run. Scan, mesh and certificate are made in a folder, and while they are checked there the mesh is finished."""
    args.program = program_path(args.program)
    scan = prepared(Inputs(args, folder, choices))
    surface = built(scan, args, folder, choices)
    with Beside(surface, is_checked=not args.no_check) as beside:
        surface.load()
        choices.timed('read mesh')
        request = request_for(surface, scan, args, choices)
        choices.tell(f'finishing {len(surface.faces):,} faces')
        surface.views = scan.cloud.views().take(surface.source)
        with step('finishing', seconds=len(surface.faces) * request.passes() / SMOOTHED_A_SECOND):
            mesh, report = finished(os.fspath(surface.mesh), request, mesh=surface.whole(), views=surface.views)
        colors = colored(mesh, surface, scan.cloud)
        choices.timed('finish')
        with step('simplifying', seconds=len(surface.faces) / SMOOTHED_A_SECOND):
            light = lightened(mesh, scan, args, choices)
        with step('building the meshes of the slider', seconds=BUILT * len(scan.cloud.points) * (1 + (args.sweep or 0) / 3)):
            sweep = surface.sweep(0, 1, args.sweep) if args.sweep else []
        choices.timed('sweep')
        done = Made(args, Path(args.output), folder, scan.cloud, scan.read, scan.texture, surface, mesh, colors, report, sweep, choices, light)
        with step('writing, and waiting for the check', seconds=len(mesh.faces) / SMOOTHED_A_SECOND):
            write_outputs(done, beside)
    if surface.tiles():
        shutil.rmtree(tiles_folder(args), ignore_errors=True)
    return done


def parser() -> argparse.ArgumentParser:
    shape = argparse.RawDescriptionHelpFormatter
    top = argparse.ArgumentParser(prog='recon-surface', description=__doc__, formatter_class=shape)
    top.add_argument('input', nargs='+', help='a scan, FILE=X,Y,Z for each station, or a workspace folder of COLMAP')
    top.add_argument('-o', '--output', required=True, metavar='MESH', help='write the mesh to MESH: .ply, .stl, .glb or .obj')
    group = top.add_argument_group('scanner positions')
    group.add_argument('--scanner', type=triple, metavar='X,Y,Z', help='one scanner position that saw all points')
    group.add_argument('--normals', action='store_true', help='synthesise a scanner along the normal of each point')
    group.add_argument('--above', action='store_true', help='synthesise one position far above, for airborne scans')
    group.add_argument('--estimate-normals', action='store_true', help='estimate normals, and synthesise scanners along them')
    group.add_argument('--far', type=length, metavar='D', help='distance of a synthesised scanner from its point (default: one spacing)')
    for name, what in (('positions', 'a table of scanner positions'), ('index', 'the property with the scanner index of each point'),
                       ('table', 'a table of stations and their files'), ('images', "COLMAP's images.bin or .txt"),
                       ('position', 'header or matrix: which scanner position of a PTX is used'),
                       ('flight', 'a table of times and positions of an airborne scan')):
        group.add_argument('--' + name, help=what + ' (see recon-scan --help)')
    group = top.add_argument_group('processing (default: chosen from the data)')
    group.add_argument('--from', dest='from_', type=triple, metavar='X,Y,Z', help='with --to: keep only points in this box, its boundary included')
    group.add_argument('--to', type=triple, metavar='X,Y,Z', help='the other corner of the box')
    group.add_argument('--outside', action='store_true', help='keep only points outside of the box')
    group.add_argument('--divide', type=length, metavar='N', help='divide all coordinates by N first (1000 for micrometers)')
    group.add_argument('--origin', type=triple, metavar='X,Y,Z', help='subtract this origin from all coordinates')
    group.add_argument('--unit', type=within(1, 1_000_000), metavar='U', help='round coordinates to 1/U')
    group.add_argument('--side', type=length, metavar='S', help='keep one point in each cube of this side')
    group.add_argument('--max-points', type=within(4, 1_048_576), metavar='N', help='thin above N points; with --tiles the most points of a tile')
    group.add_argument('--tiles', action='store_true', help='split the scan into tiles, build and check each tile, join the meshes (default: above '
                       '1,048,576 points)')
    group.add_argument('--no-clean', action='store_true', help='keep outliers (default: remove points that are far from all others)')
    group.add_argument('--surround', type=lambda word: 0.0 if word == '0' else length(word), metavar='D',
                       help='add eight points at distance D around a scan from inside, so that walls become solid (0: none)')
    group.add_argument('--smooth', type=within(0, 65535), metavar='L', help='area weight of a face')
    group.add_argument('--vote', type=within(1, 65535), default=8, metavar='V', help='visibility weight of a line of sight (default: %(default)s)')
    group.add_argument('--pieces', type=within(1, 10 ** 9), metavar='N', help='keep the N largest connected components')
    group.add_argument('--no-flips', action='store_true', help='do not flip edges')
    group.add_argument('--steps', type=within(0, MOST_STEPS), metavar='N', help='number of smoothing steps')
    group.add_argument('--within', type=length, metavar='D', help='the most that smoothing may move a vertex')
    group.add_argument('--no-detail', action='store_true', help='give nothing back of what smoothing takes away')
    group.add_argument('--patience', type=length, default=120.0, metavar='SECONDS', help='skip smoothing that would take longer (default: %(default)g)')
    group.add_argument('--faces', type=within(4, 10 ** 9), metavar='N', help='also write MESH-light, a mesh of N faces from vertices of MESH, and show it first')
    group.add_argument('--faces-within', type=length, metavar='D', help='the most that a vertex of MESH may be from MESH-light, which has more than N faces '
                       'where it has to (default: the noise, or half of the spacing)')
    group.add_argument('--faces-surface', action='store_true', help='keep each point of MESH and MESH-light, not only vertices of MESH, within this distance of the '
                       'other')
    either = group.add_mutually_exclusive_group()
    either.add_argument('--closed', action='store_true', help='write the closed mesh to MESH, whatever part of it no scanner saw')
    either.add_argument('--seen', action='store_true', help='write the mesh without faces that no scanner saw to MESH')
    group.add_argument('--fill', type=length, default=0.0, metavar='LENGTH', help='keep the faces of holes of the seen mesh up to this wide')
    # a scan in arrays, in place of files
    top.set_defaults(arrays=None)
    group = top.add_argument_group('run')
    group.add_argument('--version', action='version', version=version_line('recon-surface'), help='print the version')
    group.add_argument('--sweep', type=within(2, 64), metavar='N', help='add a slider over smooth=0 to N-1 to the page')
    group.add_argument('--jobs', type=within(1, 1024), metavar='N', help='build N tiles at the same time (default: one for each processor that has memory)')
    group.add_argument('--no-check', action='store_true', help='do not run recon check')
    group.add_argument('--force', action='store_true', help='exit with status 0 even if positions or normals look wrong')
    group.add_argument('--keep', metavar='FOLDER', help='folder for scan, mesh and certificate (default: MESH.recon)')
    group.add_argument('--program', metavar='PATH', help='path of the program recon')
    group.add_argument('-q', '--quiet', action='store_true', help='print no progress')
    return top


def triple(word: str) -> str:
    if len(word.split(',')) != 3 or not all(map(IS_NUMBER, word.split(','))):
        raise argparse.ArgumentTypeError(f'{word} is not X,Y,Z')
    return word


def length(word: str) -> float:
    if not IS_NUMBER(word) or not 0 < float(word) < 1e30:
        raise argparse.ArgumentTypeError(f'{word} is not a number greater than 0')
    return float(word)


def within(least: int, most: int) -> Any:
    """The type of a whole number in a range."""
    def whole(word: str) -> int:
        if not word.isdecimal() or not least <= int(word) <= most:
            raise argparse.ArgumentTypeError(f'{word} is not an integer from {least} to {most:,}')
        return int(word)
    return whole


def arguments(words: Sequence[str]) -> list[str]:
    """The arguments, with a value that begins with a minus joined to its option, as in --scanner -1,2,3."""
    joined: list[str] = []
    for word in words:
        if joined and joined[-1].startswith('--') and '=' not in joined[-1] and word[:1] == '-' and word[1:2].isdigit():
            joined[-1] += '=' + word
        else:
            joined.append(word)
    return joined


def failed(status: int, text: object) -> int:
    print(f'recon-surface: {user_names(str(text))}', file=sys.stderr)
    return status


def run(words: Sequence[str]) -> int:
    """Runs the program, and returns its status."""
    args = parser().parse_args(arguments(dashed(words, parser())))
    choices = Choices(args.quiet)
    try:
        form_of(args.output)
        if args.tiles and (args.sweep or args.side):
            raise Refusal('--tiles cannot be combined with --sweep or --side')
        if (args.faces_within or args.faces_surface) and not args.faces:
            raise Refusal(f'--faces-{"within" if args.faces_within else "surface"} requires --faces')
        refuse_places(args)
        # what is not finite is looked for where it matters
        warnings.simplefilter('ignore', RuntimeWarning)
        with stoppable(), signs_of_life('recon-surface', choices.tell, args.quiet), passing_folder(os.fspath(args.output)) as folder, \
                np.errstate(all='ignore'):
            result = made(args, choices, Path(folder))
    except MemoryError:
        return failed(1, 'error: out of memory')
    except Stopped as error:
        return failed(error.status, error)
    except NoSurface as error:
        return failed(3, error)
    except (Refusal, Invalid, Refused) as error:
        return failed(1, f'error: {error}'.replace('divide its coordinates', 'divide its coordinates (--divide)'))
    except ArithmeticError:
        return failed(1, 'error: a number is out of range')
    except OSError as error:
        return failed(1, f'error: {error.strerror}: {error.filename or "writing"}' if error.strerror else f'error: {error}')
    against = result.surface.votes_against_per_sight
    if choices.verdict.is_wrong and not args.force:
        return failed(4, f'{against:.2f} contradictions for each line of sight: {"normals" if result.cloud.is_made_up else "positions"} look wrong '
                         '(status 0 with --force)')
    return 0


def main() -> None:
    sys.exit(run(sys.argv[1:]))


class Called(types.ModuleType):
    """This module as a function: `recon.surface(points, scanners)` does all of this from Python (`recon.one_call`)."""

    def __call__(self, *arguments: Any, **options: Any) -> Any:
        from recon import one_call
        return one_call.surface(*arguments, **options)


sys.modules[__name__].__class__ = Called


if __name__ == '__main__':
    main()
