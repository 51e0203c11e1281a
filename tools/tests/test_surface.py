"""recon-surface: what it chooses of scans of all kinds, what it writes, and how it ends."""
from __future__ import annotations

import json
import os
import pathlib
import re
import subprocess
import unittest
from typing import Any
from unittest import mock

import numpy as np

from helpers import RECON, InFolder, binary, call, equal, head, says, write
from recon.tables import read_table
from recon.toolbox.one_form import dashed, version_line
from recon.surface import arguments, parser, plain
from test_library import SCANNERS, nearest, sphere
from test_readers import images_bin, points_bin


def listed(name: str, rows: np.ndarray) -> None:
    """A list of numbers."""
    write(name, ''.join(' '.join(map(plain, row)) + '\n' for row in rows.tolist()))


def scan_text(points: np.ndarray, scanners: np.ndarray, seen_by: np.ndarray) -> str:
    """Returns a scan with colors, as `recon-scan` writes it."""
    text = head(len(points), 'double x, double y, double z, uchar red, uchar green, uchar blue, int scanner', len(scanners))
    rows = [' '.join(map(plain, point)) + f' {k % 256} 7 9 {seen}\n' for k, (point, seen) in enumerate(zip(points.tolist(), seen_by))]
    return text + ''.join(rows) + ''.join(' '.join(map(plain, place)) + '\n' for place in scanners.tolist())


def made(*words: str, status: int = 0, out: str = 'mesh.ply') -> Any:
    """Returns the report of a run that ends with this status."""
    got, said, error = call('surface', *words, '-o', out, '--program', RECON)
    equal((got, said, 'Traceback' in error), (status, '', False))
    return json.loads(pathlib.Path(os.path.splitext(out)[0] + '.recon', 'report.json').read_text())


def long_scan() -> np.ndarray:
    """Writes `in.ply`, a cylinder that is long enough for some tiles, and returns its points."""
    turn, along = np.meshgrid(np.arange(12) * np.pi / 6, np.arange(240.0))
    points = np.stack([along.ravel(), 2 * np.cos(turn.ravel()), 2 * np.sin(turn.ravel())], axis=1)
    points += np.random.default_rng(3).normal(0, 0.01, points.shape)
    scanners = np.array([(x, y, z) for x in (60.0, 180.0) for y, z in ((30, 0), (-30, 0), (0, 30), (0, -30))])
    away = np.linalg.norm(points[:, None] * [1, 20, 20] - scanners[None] * [1, 1, 1], axis=2)
    write('in.ply', scan_text(points, scanners, away.argmin(axis=1)))
    return points


def chosen(report: Any, *names: str) -> list[str]:
    return [report['choices'][name]['value'] for name in names]


def refused(part: str, *words: str, status: int = 1) -> None:
    got, said, error = call('surface', *words, '-q', '--program', RECON or 'recon')
    equal((got, said, part in error.splitlines()[-1], error.splitlines()[-1][:14]), (status, '', True, 'recon-surface:'))


@unittest.skipUnless(RECON, 'recon is not built here')
class Surfaces(InFolder):
    def test_a_scan_with_positions_and_colors(self) -> None:
        points = sphere(300)
        write('in.ply', scan_text(points, SCANNERS, nearest(points)))
        report = made('in.ply')
        equal(chosen(report, 'sights', 'origin', 'unit', 'smooth', 'pieces', 'surround'), ['as the file states', '0,0,0', '1000', '2', '1', '0'])
        equal((report['votes_against_per_sight'], report['figures']['checked'], report['unseen_area']), (0.0, 'yes', 0.0))
        equal(sorted(os.listdir()), ['in.ply', 'mesh-seen.ply', 'mesh.html', 'mesh.ply', 'mesh.recon'])
        equal(sorted(os.listdir('mesh.recon')), ['again.sh', 'mesh.ply', 'report.json', 'scan.cert', 'scan.ply'])
        top, body = pathlib.Path('mesh.ply').read_bytes().split(b'end_header\n')
        equal((b'property uchar red' in top, b'property uchar unseen' in top, len(body)), (True, True, 300 * 39 + 596 * 14))
        first = np.frombuffer(body, [('place', '<f8', 3), ('color', 'u1', 3), ('normal', '<f4', 3)], 300)
        row = int(np.linalg.norm(points - first['place'][5], axis=1).argmin())
        equal((first['color'][5].tolist(), os.path.getsize('mesh.html') > 10000), ([row % 256, 7, 9], True))
        command = report['commands'][0].split()
        equal(subprocess.run([RECON, *command[1:]], capture_output=True, text=True).stdout[:4], 'yes ')

    def test_the_run_is_repeated_from_the_files(self) -> None:
        points = sphere(600) * 0.5 + [600000, 5000000, 0]
        points = points[points[:, 0] > 600000]
        listed('my points.xyz', points)
        report = made('my points.xyz=600003,5000000,1', '--force', out='out.glb')
        equal(chosen(report, 'origin', 'sights'), ['600002,5000000,0', 'as given'])
        os.mkdir('elsewhere')
        done = subprocess.run(['sh', '../out.recon/again.sh', 'again'], cwd='elsewhere', capture_output=True, text=True,
                              env={**os.environ, 'RECON': RECON, 'PATH': '/usr/bin:/bin'})
        equal((done.returncode, done.stdout), (0, 'scan.ply: OK\nmesh.ply: OK\nscan.cert: OK\n'))
        same = [pathlib.Path(name).read_bytes() for name in ('out.glb', 'elsewhere/again/mesh.glb')]
        equal(same[0] == same[1], True)

    def test_how_lines_of_sight_are_known(self) -> None:
        points = sphere(200)
        listed('list.xyz', points)
        listed('normals.xyz', np.c_[points, points])
        write('bare.ply', binary('<', '\n', points.tolist(), 'fff', 'x y z'))
        write('normals.ply', binary('<', '\n', np.c_[points, points].tolist(), 'ffffff', 'x y z nx ny nz'))
        cases = (('list.xyz --scanner -3,0,0', 'one position', '1'), ('bare.ply --scanner 3,0,0', 'one position', '1'),
                 ('list.xyz', 'along estimated normals', '1'), ('bare.ply', 'along estimated normals', '1'),
                 ('normals.xyz', 'along normals', '1'), ('normals.ply', 'along normals', '1'), ('normals.ply --above', 'from above', '1'),
                 ('normals.xyz --estimate-normals', 'along estimated normals', '1'))
        for words, sights, smooth in cases:
            report = made(*words.split(), '--force', '--no-check')
            equal((words, *chosen(report, 'sights', 'smooth')), (words, sights, smooth))
        equal(any('normals are estimated' in text for text in made('list.xyz')['warnings']), True)

    def test_airborne_scans_are_seen_from_above(self) -> None:
        ground = np.random.default_rng(1).uniform(size=(600, 3)) * [100, 100, 0.5] + [548900, 4177000, 30]
        write('air.ply', binary('<', '\n', ground.tolist(), 'ddd', 'x y z'))
        report = made('air.ply', '--no-check')
        equal(chosen(report, 'sights', 'smooth'), ['from above', '2'])
        equal(report['origin'][:2] != [0, 0], True)

    def test_a_workspace_of_colmap(self) -> None:
        os.makedirs('ws/sparse/0')
        points = sphere(150)
        rows = [(tuple(point), (k, 7, 9), [9, 4] if point[2] > 0.3 else [4]) for k, point in enumerate(points.tolist())]
        write('ws/sparse/0/points3D.bin', points_bin(rows))
        write('ws/sparse/0/images.bin', images_bin())
        for number, name in enumerate(('ws', 'ws/sparse/0', 'ws/sparse/0/points3D.bin')):
            report = made(name, '--force', '--no-check', '--smooth', '0', '--no-clean', out=f'{number}.ply')
            equal(chosen(report, 'sights'), ['images'])
            equal((report['counts']['scanners'], report['counts']['sights']), (2, 150 + int((points[:, 2] > 0.3).sum())))
            equal(b'property uchar red' in pathlib.Path(f'{number}.ply').read_bytes()[:400], True)

    def test_rooms_are_closed_from_outside(self) -> None:
        draw = np.random.default_rng(3)
        walls = draw.uniform(-1, 1, (800, 3)) * [2, 3, 1.2]
        axis = draw.integers(0, 3, 800)
        walls[np.arange(800), axis] = np.sign(walls[np.arange(800), axis]) * np.array([2, 3, 1.2])[axis]
        listed('room.xyz', walls)
        report = made('room.xyz=0,0,0', '--no-check')
        equal((float(chosen(report, 'surround')[0]) > 0, report['counts']['scanners'], report['counts']['points']), (True, 9, 808))
        # where no position is known, nothing is said of directions
        report = made('room.xyz', '--no-check', '--force')
        equal((chosen(report, 'surround'), report['choices']['surround']['why']), (['0'], 'no scanner positions are known'))
        equal('normals)' in report['figures']['contradictions a line of sight'], True)
        report = made('room.xyz', '--no-check', '--force', '--surround', '0.5')
        equal([text for text in report['warnings'] if 'surround' in text],
              ['--surround is for scans from inside (no scanner positions are known): the mesh may have fins toward the eight added points'])

    def test_points_that_are_too_far_out_to_compute_with(self) -> None:
        points = np.r_[sphere(300), [[0, 0, 1e308], [-1e200, 0, 0]]]
        for name, rows in (('list.xyz', points), ('normals.xyz', np.c_[points, np.r_[sphere(300), [[1, 0, 0], [0, 0, 1]]]])):
            write(name, ''.join(' '.join(map(repr, row)) + '\n' for row in rows.tolist()))
            for words in ([name], [f'{name}=0,0,9']):
                got, said, error = call('surface', *words, '-o', 'mesh.ply', '-q', '--no-check', '--force', '--program', RECON)
                equal((words, got, said, error), (words, 0, '', ''))
                report = json.loads(pathlib.Path('mesh.recon', 'report.json').read_text())
                equal(report['counts']['points'], 300)

    def test_many_points_at_one_place_and_others_far_out(self) -> None:
        points = np.r_[sphere(300), np.repeat(sphere(5) + 0.01, 8, axis=0), sphere(20) * 1e38]
        write('list.xyz', ''.join(' '.join(map(repr, row)) + '\n' for row in points.tolist()))
        for words in (['list.xyz=0,0,9'], ['list.xyz']):
            got, said, error = call('surface', *words, '-o', 'mesh.ply', '-q', '--no-check', '--program', RECON)
            equal((words, got in (1, 3), said, error.count('\n')), (words, True, '', 1))

    def test_points_are_left_out(self) -> None:
        points = np.r_[sphere(400), [[0, 0, 2.5]]]
        write('in.ply', scan_text(points, SCANNERS, nearest(points)))
        equal(chosen(made('in.ply', '--no-check'), 'lone points'), ['1'])
        report = made('in.ply', '--no-check', '--max-points', '150', '--no-clean')
        equal((100 < report['counts']['points'] <= 150, 'lone points' in report['choices']), (True, False))
        report = made('in.ply', '--no-check', '--divide', '1000', '--smooth', '1', '--no-flips', '--steps', '0')
        equal(chosen(report, 'divide', 'unit', 'smooth', 'flips', 'steps'), ['1000', '1000000', '1', 'no', '0'])

    def test_tiles_keep_all_points(self) -> None:
        points = long_scan()
        report = made('in.ply', '--tiles', '--max-points', '1500', '--no-clean', '--jobs', '2')
        count = int(report['choices']['tiles']['value'])
        equal((count > 1, len(report['commands']), report['figures']['tiles']), (True, count, str(count)))
        equal('the joined mesh is closed, with ' in report['choices']['tiles']['why'], True)
        equal(sorted(os.listdir()), ['in.ply', 'mesh-seen.ply', 'mesh.html', 'mesh.ply', 'mesh.recon'])
        equal(sorted(os.listdir('mesh.recon')), ['again.sh', 'mesh.ply', 'report.json', 'scan.ply', 'tiles'])
        names = [f'{number:03}.{ending}' for number in range(count) for ending in ('cert', 'mesh.ply', 'ply')]
        equal(sorted(os.listdir('mesh.recon/tiles')), names)
        top = pathlib.Path('mesh.recon/mesh.ply').read_bytes().split(b'element vertex ')[1].split(b'\n')[0]
        equal((int(top) > 0.95 * len(points), '--tiles --' in pathlib.Path('mesh.recon/again.sh').read_text()), (True, True))
        refused('--tiles cannot be combined with', 'in.ply', '--tiles', '--sweep', '3', '-o', 'mesh.glb')

    def test_a_run_with_tiles_that_was_interrupted_continues(self) -> None:
        long_scan()
        write('program', f'#!/bin/sh\n[ "$1" = build ] && echo "$2" >>{os.getcwd()}/calls && [ $(wc -l <{os.getcwd()}/calls) -gt $MOST ] && exit 5\n'
              f'exec {os.path.abspath(RECON)} "$@"\n')
        os.chmod('program', 0o755)
        words = ['surface', 'in.ply', '--tiles', '--max-points', '1500', '--no-clean', '--jobs', '1', '-o', 'mesh.ply', '--program', './program']
        with mock.patch.dict(os.environ, MOST='2'):
            status, _, error = call(*words)
        equal((status, 'out of memory: tile 002' in error, sorted(name for name in os.listdir() if 'mesh' in name)), (1, True, ['mesh.tiles']))
        with mock.patch.dict(os.environ, MOST='99'):
            status, _, error = call(*words)
        calls = pathlib.Path('calls').read_text().splitlines()
        count = len([name for name in os.listdir('mesh.recon/tiles') if name.endswith('.cert')])
        equal((status, 'continuing with the tiles in mesh.tiles' in error, len(calls) <= count + 2, len(set(calls))), (0, True, True, count))
        equal(os.path.exists('mesh.tiles'), False)
        os.mkdir('mesh.tiles')
        refused('mesh.tiles exists, and is not from an interrupted run', 'in.ply', '--tiles', '-o', 'mesh.ply')

    def test_names_of_files_are_any_bytes(self) -> None:
        points = sphere(200)
        name = os.fsdecode(b'caf\xe9.ply')
        write(name, scan_text(points, SCANNERS, nearest(points)))
        made(name, '--no-check')
        equal(b'caf\xe9.ply' in pathlib.Path('mesh.recon', 'again.sh').read_bytes(), True)

    def test_nothing_is_left_if_a_folder_cannot_be_made(self) -> None:
        points = sphere(200)
        write('in.ply', scan_text(points, SCANNERS, nearest(points)))
        refused('File name too long', 'in.ply', '-o', 'mesh.ply', '--no-check', '--keep', '9' * 400)
        equal(os.listdir(), ['in.ply'])

    def test_nothing_is_left_if_the_check_fails(self) -> None:
        points = sphere(300)
        write('in.ply', scan_text(points, SCANNERS, nearest(points)))
        write('wrong', f'#!/bin/sh\n[ "$1" = check ] && {{ echo no 5; exit 1; }}\nexec {os.path.abspath(RECON)} "$@"\n')
        os.chmod('wrong', 0o755)
        got, said, error = call('surface', 'in.ply', '-o', 'mesh.ply', '--program', './wrong')
        equal((got, said, 'the check failed: no 5' in error, sorted(os.listdir())), (1, '', True, ['in.ply', 'wrong']))

    def test_wrong_positions_have_a_status(self) -> None:
        points = sphere(400)
        write('in.ply', scan_text(points, SCANNERS, 5 - nearest(points)))
        report = made('in.ply', status=4)
        equal((report['votes_against_per_sight'] > 0.25, any('check the scanner positions' in text for text in report['warnings'])), (True, True))
        made('in.ply', '--force')

    def test_errors(self) -> None:
        write('in.ply', scan_text(sphere(50), SCANNERS[:1], np.zeros(50, int)))
        refused('is an input, and would be overwritten', 'in.ply', '-o', 'in.ply')
        refused('unknown file name extension', 'in.ply', '-o', 'mesh.off')
        refused('No such file or directory: none.ply', 'none.ply', '-o', 'mesh.ply')
        listed('flat.xyz', np.random.default_rng(1).uniform(size=(200, 3)) * [1, 1, 0])
        refused('the points lie in a plane, so there is no surface', 'flat.xyz=0.5,0.5,0', '-o', 'mesh.ply', status=3)
        write('empty.xyz', 'X Y Z\n')
        refused('error:', 'empty.xyz', '-o', 'mesh.ply')
        refused('--scanner requires a single FILE', 'in.ply', 'flat.xyz', '--scanner', '1,2,3', '-o', 'mesh.ply')
        refused('is not X,Y,Z', 'in.ply', '-o', 'mesh.ply', '--scanner', '1,2', status=2)
        refused('an integer from 1', 'in.ply', '-o', 'mesh.ply', '--unit', '0', status=2)
        equal([name for name in os.listdir() if name.startswith(('mesh', '.recon'))], [])
        text = scan_text(sphere(50), SCANNERS[:1], np.zeros(50, int))
        write('word.ply', text.replace(' 3 7 9 ', ' 3 - 9 '))
        refused('error: green of point 3 is not a number', 'word.ply', '-o', 'mesh.ply')
        write('lists.ply', text.replace('int scanner', 'list uchar int scanner').replace(' 7 9 0\n', ' 7 9 1 0\n').replace(' 3 7 9 ', ' 3 - 9 '))
        refused('error: green of point 3 is not a number', 'lists.ply', '-o', 'mesh.ply')
        write('fails', '#!/bin/sh\necho refused 5 twice line 3\necho "recon: rename one" >&2\nexit 3\n')
        os.chmod('fails', 0o755)
        got, _, error = call('surface', 'in.ply', '-o', 'mesh.ply', '-q', '--program', './fails')
        equal((got, error), (1, 'recon-surface: error: invalid file: refused 5 twice line 3 (rename one)\n'))


class Words(InFolder):
    def test_words(self) -> None:
        equal(arguments(['a', '--scanner', '-1,2,3', '-o', 'x', '-q']), ['a', '--scanner=-1,2,3', '-o', 'x', '-q'])
        status, said, error = call('surface', '--help')
        equal((status, error, all(word in said for word in ('--scanner', '--force', 'Exit status:'))), (0, '', True))
        options = {word for action in parser()._actions for word in action.option_strings if word.startswith('--')}
        with open(os.path.join(os.path.dirname(os.path.abspath(__file__)), '..', '..', 'docs', 'reference', 'tools.md'), encoding='utf-8') as file:
            section = file.read().split('## `recon-surface`')[1]
        stated = set(re.findall('`(--[a-z-]+)', section))
        equal((sorted(stated - options), sorted(options - stated)),
              ([], ['--help', '--keep', '--no-check', '--output', '--program', '--quiet', '--version']))

    def test_one_form_of_options(self) -> None:
        given = ['a.xyz', 'scanner=1,2,3', 'unit=100', 'normals=yes', 'flips=no', 'clean=yes', 'no_such=1', '-o', 'm.ply', 'from=0,0,0', 'max-points=9']
        equal(dashed(given, parser()), ['a.xyz', '--scanner=1,2,3', '--unit=100', '--normals', '--no-flips', 'no_such=1', '-o', 'm.ply', '--from=0,0,0',
                                        '--max-points=9'])
        write('unit=7', '0 0 0\n')
        equal(dashed(['unit=7'], parser()), ['unit=7'])
        for program in ('scan', 'surface', 'finish', 'tiles', 'contours', 'grid', 'make-scan', 'mesh-to-floats'):
            equal(call(program, '--version'), (0, version_line('recon-' + program) + '\n', ''))

    def test_a_box_of_the_points(self) -> None:
        points = sphere(2000)
        listed('in.xyz', points)
        report = made('in.xyz', 'scanner=0,0,5', 'from=-2,-2,0.5', 'to=2,2,2', '--force', '-q')
        equal(report['counts']['points'] <= int((points[:, 2] >= 0.5).sum()), True)
        equal('--from=-2,-2,0.5 --to=2,2,2' in pathlib.Path('mesh.recon/again.sh').read_text(), True)
        says('scan', 'read 2000 points of in.xyz; left out nothing; wrote 2000 points and 1 scanner to out.ply', 'in.xyz', 'out.ply', 'scanner=0,0,5', 'unit=10')
        first = (pathlib.Path('out.ply').read_text().split('end_header\n')[1].splitlines())[0].split()
        equal([abs(int(word) - 10 * x) <= 0.5 for word, x in zip(first, points[0])], [True] * 3)

    def test_colors_of_every_format(self) -> None:
        points, colors = sphere(400), np.random.default_rng(2).integers(0, 256, (400, 3))
        rows = [f'{x:.6f} {y:.6f} {z:.6f}' for x, y, z in points]
        words = [f'{r} {g} {b}' for r, g, b in colors]
        intensity = [f'0.{r:03d}' for r in colors[:, 0]]
        write('a.xyz', ''.join(f'{row} {word}\n' for row, word in zip(rows, words)))
        write('b.csv', 'X,Y,Z,i,R,G,B\n' + ''.join(f'{row} {i} {word}\n'.replace(' ', ',') for row, i, word in zip(rows, intensity, words)))
        write('c.pts', '400\n' + ''.join(f'{row} {i} {word}\n' for row, i, word in zip(rows, intensity, words)))
        write('d.ptx', '400\n1\n9 9 9\n1 0 0\n0 1 0\n0 0 1\n1 0 0 0\n0 1 0 0\n0 0 1 0\n0 0 0 1\n'
              + ''.join(f'{row} {i} {word}\n' for row, i, word in zip(rows, intensity, words)))
        write('e.ply', head(400, 'double x, double y, double z, ushort red, ushort green, ushort blue')
              + ''.join(f'{row} {257 * r} {257 * g} {257 * b}\n' for row, (r, g, b) in zip(rows, colors)))
        for name in ('a.xyz=0,0,5', 'b.csv=0,0,5', 'c.pts=0,0,5', 'd.ptx', 'e.ply=0,0,5'):
            table = read_table([name] if 'ptx' not in name else [name], position='header' if 'ptx' in name else None)[0]  # type: ignore[arg-type]
            found = table.colors()
            assert found is not None
            equal((name, (found == colors).all(), np.abs(table.points() - points).max() < 1e-6), (name, True, True))
        write('f.pts', '400\n' + ''.join(f'{row} {i}\n' for row, i in zip(rows, intensity)))
        gray = read_table(['f.pts=0,0,5'])[0].colors()
        assert gray is not None
        order = np.argsort(colors[:, 0], kind='stable')
        equal(((np.diff(gray[order, 0].astype(int)) >= 0).all(), gray.min(), gray.max(), (gray[:, 0] == gray[:, 2]).all()), (True, 0, 255, True))

    def test_points_that_are_all_black(self) -> None:
        write('a.pts', '3\n1 2 3 0.5 0 0 0\n4 5 6 0.25 0 0 0\n7 8 9 1 0 0 0\n')
        colors = read_table(['a.pts=0,0,5'])[0].colors()
        assert colors is not None
        equal(colors[:, 1].argsort().tolist(), [1, 0, 2])
        write('b.xyz', '1 2 3 0 0 0\n4 5 6 0 0 0\n')
        write('c.pts', '2\n1 2 3 7 0 0 0\n4 5 6 7 0 0 0\n')
        write('d.ply', head(2, 'double x, double y, double z, uchar red, uchar green, uchar blue') + '1 2 3 0 0 0\n4 5 6 0 0 0\n')
        for name in ('b.xyz', 'c.pts', 'd.ply'):
            colors = read_table([f'{name}=0,0,5'])[0].colors()
            assert colors is not None
            equal((name, colors.tolist()), (name, [[0, 0, 0]] * 2))

    def test_colors_of_a_list_that_begins_with_black(self) -> None:
        points, colors = sphere(400), np.random.default_rng(2).integers(0, 256, (400, 3))
        colors[:250] = 0
        rows = [[f'{x:.6f} {y:.6f} {z:.6f}', f'{r} {g} {b}'] for (x, y, z), (r, g, b) in zip(points, colors)]
        write('a.xyz', ''.join(f'{row} {word}\n' for row, word in rows))
        write('b.xyz', ''.join(f'{row} 0.{k:03d} {word}\n' for k, (row, word) in enumerate(rows)))
        write('c.xyz', ''.join(f'{row} {1 + k % 200} {word}\n' for k, (row, word) in enumerate(rows)))
        write('d.txt', 'X Y Z R G B\n' + ''.join(f'{row} {r / 255:.5f} {g / 255:.5f} {b / 255:.5f}\n' for (row, _), (r, g, b) in zip(rows, colors)))
        for name in ('a.xyz', 'b.xyz', 'c.xyz', 'd.txt'):
            found = read_table([f'{name}=0,0,5'])[0].colors()
            assert found is not None
            equal((name, (found == colors).all()), (name, True))
        # normals that are missing in the first rows are no colors
        write('e.xyz', ''.join(f'{row} 0 0 0\n' for row, _ in rows[:250]) + ''.join(f'{row} 0.6 0 -0.8\n' for row, _ in rows[250:]))
        equal(read_table(['e.xyz=0,0,5'])[0].colors(), None)

    def test_scans_are_loaded_as_they_were_written(self) -> None:
        write('a.ply', head(2, 'double x, double y, double z, ushort red, ushort green, ushort blue, int scanner', 1)
              + '1 2 3 0 257 65535 0\n4 5 -6e1 0 0 0 0\n7 8 9\n')
        table = read_table(['a.ply'])[0]
        colors = table.colors()
        assert table.sights is not None and table.scanners is not None and colors is not None
        equal((table.points().tolist(), table.scanners.tolist(), colors.tolist()), ([[1, 2, 3], [4, 5, -60]], [[7, 8, 9]], [[0, 1, 255], [0, 0, 0]]))
        write('b.ply', head(2, 'double x, double y, double z, list uchar int scanner, uchar weight', 2) + '1 2 3 2 0 1 9\n4 5 6 0 1\n0 0 0\n1 1 1\n')
        table = read_table(['b.ply'])[0]
        assert table.sights is not None
        equal(([part.tolist() for part in table.sights], table.columns['weight'].tolist()), ([[2, 0], [0, 1]], [9, 1]))
