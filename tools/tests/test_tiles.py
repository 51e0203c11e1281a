"""Scans cut into tiles, their jobs, and meshes put together: tiles."""
from __future__ import annotations

import json
import os
import pathlib
import random
import stat
import subprocess
import unittest
from typing import Any, Sequence
from unittest import mock

import numpy as np

from helpers import RECON, SCAN, InFolder, call, equal, head, read, refuses, says, write
from recon.library import Sights
from recon.tables import read_table
from recon.toolbox.tile_jobs import cksum
from recon.toolbox import tile_boxes, tile_halo, tile_join, tile_moves, tile_rows, tile_split
from recon.toolbox.ply_text import Refusal
from recon.toolbox.scan_feeds import KEYS
from recon.toolbox.scan_rows import scaled
from recon.toolbox.tile_gaps import Gaps
from recon.toolbox.tile_meshes import Places
from recon.toolbox.tool import Options
from test_stations import PTX

PLACES = [(0, 0, 900), (900, 0, 0), (0, 900, 5), (5, 5, 5)]


def scan_of(rows: Sequence[Any], columns: str = SCAN) -> str:
    return (head(len(rows), columns, len(PLACES)) + ''.join(' '.join(map(str, row)) + '\n' for row in rows)
            + ''.join('%d %d %d\n' % place for place in PLACES))


def drawn(count: int) -> list[Any]:
    """Rows of points in a flat box, some of them written with decimals, each with a scanner."""
    draw = random.Random(4)
    return [(draw.randrange(-500, 500), f'{draw.uniform(-300, 300):.2f}', draw.randrange(40), draw.randrange(3))
            for _ in range(count)]


def tiles_of(folder: str) -> Any:
    about = json.loads(read(os.path.join(folder, 'tiles.json')))
    return about, about['tiles']


def body(folder: str, tile: dict[Any, Any]) -> list[Any]:
    """Returns the rows of a tile: the point, and the position of its scanner instead of the number, or the positions, and its weight."""
    table, _ = read_table([os.path.join(folder, tile['name'] + '.ply')])
    ends = np.cumsum(table.sights.counts)
    places = [tuple(place) for place in table.scanners.astype(int).tolist()]
    equal((len(places), set(table.sights.scanners.tolist())), (tile['scanners'], set(range(tile['scanners']))))
    weights = table.columns['weight'].astype(int).tolist() if 'weight' in table.columns else [1] * len(ends)
    seen = [tuple(places[k] for k in part.tolist()) for part in np.split(table.sights.scanners, ends[:-1])]
    return list(zip(map(tuple, table.points().astype(int).tolist()), seen, weights))


def placed(rows: Sequence[Any], unit: int = 1) -> list[Any]:
    """Returns rows as `body` does, in scaled units."""
    return [(tuple(scaled(str(word), unit) for word in row[:3]), (tuple(unit * x for x in PLACES[row[3]]),), *(row[4:] or (1,))) for row in rows]


def is_within(tile: dict[Any, Any], point: Sequence[Any], overlap: float) -> bool:
    return all((a is None or a - overlap <= v) and (b is None or v <= b + overlap) for a, v, b in zip(tile['low'], point, tile['high']))


def is_held(tile: dict[Any, Any], point: Sequence[Any]) -> bool:
    return all((a is None or a <= v) and (b is None or v < b) for a, v, b in zip(tile['low'], point, tile['high']))


def are_tiles(folder: str, rows: Sequence[Any], limit: int) -> list[Any]:
    """Returns the tiles. Each has exactly the rows in its box and some from outside, no more than the limit, and ends with the eight outermost, in one
    order; each place is of one core, and the list of tiles says the same."""
    about, tiles = tiles_of(folder)
    division = tile_boxes.read_list(os.path.join(folder, 'tiles.txt'))
    equal([core.name for core in tile_boxes.cores_of(division)], [tile['name'] for tile in tiles])
    points = np.array([row[0] for row in rows])
    numbers, last = tile_boxes.core_numbers(division, points, 1).tolist(), []
    for number, tile in enumerate(tiles):
        got = body(folder, tile)
        own = [row for row in rows if is_within(tile, row[0], about['overlap'])]
        equal((tile['own'], sorted(own)), (len(own), sorted(row for row in got if is_within(tile, row[0], about['overlap']))))
        equal((tile['points'] <= limit, tile['in_core']), (True, sum(is_held(tile, row[0]) for row in rows)))
        equal([row for row in got if row not in rows], [])
        equal([number == other for other in numbers], [is_held(tile, row[0]) for row in rows])
        ends = [max(rows, key=lambda row: sum(x * y for x, y in zip(row[0], way)))[0] for way in tile_split.DIRECTIONS.tolist()]
        ends = [*dict.fromkeys(ends)]
        inner = [row for row in own if row[0] not in ends]
        equal(([row for row in got[:len(inner)]], [*dict.fromkeys(row[0] for row in got[-len(ends):])]), (inner, ends))
        last.append(got)
    equal(sum(tile['in_core'] for tile in tiles), len(rows))
    return tiles


def refuses_split(part: str, *words: str) -> None:
    """The split is refused with a line that has this part, and no folder is left."""
    status, said, error = call('tiles', 'split', *words)
    equal((status, said, part in error or error, error.startswith('recon-tiles: error: ')), (1, '', True, True))
    equal((os.path.exists('none'), os.path.exists('none.part')), (False, False))


SIDE = 12


def lattice() -> list[Any]:
    """Returns the closed surface of a cube, of squares with side 1 that are cut into two triangles each: its faces as points."""
    faces = []
    for axis in range(3):
        for end in (0, SIDE):
            for i in range(SIDE):
                for j in range(SIDE):
                    corners = []
                    for u, v in ((i, j), (i + 1, j), (i + 1, j + 1), (i, j + 1)):
                        place = [0, 0, 0]
                        place[axis], place[(axis + 1) % 3], place[(axis + 2) % 3] = end, u, v
                        corners.append(tuple(place))
                    corners = corners if end else corners[::-1]
                    faces += [(corners[0], corners[1], corners[2]), (corners[0], corners[2], corners[3])]
    return faces


# A stand-in for recon: its mesh of each tile is the same known one, with less and more faces.
STAND_IN = """#!/usr/bin/env python3
import json, os, sys
command, scan, mesh, cert = sys.argv[1:5]
name = os.path.basename(scan)[:-4]
known = json.load(open(os.environ['KNOWN']))
with open('calls', 'a') as file:
    file.write(command + ' ' + name + '\\n')
if name in known['fail']:
    print('refused 7 missing vertex')
    sys.exit(3)
if command == 'check':
    print('yes')
    sys.exit(0)
less = known['less'].get(name, [])
faces = [face for face in known['faces'] + known['more'].get(name, []) if face not in less]
faces = [[tuple(p) for p in face] for face in faces]
numbers = {}
for face in faces:
    for p in face:
        numbers.setdefault(p, len(numbers))
with open(mesh, 'w') as file:
    file.write('ply\\nformat ascii 1.0\\nelement vertex %d\\n' % len(numbers))
    file.writelines('property int %s\\n' % axis for axis in 'xyz')
    file.write('element face %d\\nproperty list uchar int vertex_indices\\nend_header\\n' % len(faces))
    file.writelines('%d %d %d\\n' % p for p in numbers)
    file.writelines('3 %d %d %d\\n' % tuple(numbers[p] for p in face) for face in faces)
open(cert, 'w').close()
print('points')
"""


def known(**more) -> None:
    write('known.json', json.dumps({'faces': lattice(), 'more': {}, 'less': {}, 'fail': [], **more}))


def prepared() -> None:
    """A folder of tiles of the lattice's points, and the stand-in."""
    rows = [(*place, k % 3) for k, place in enumerate(sorted({p for face in lattice() for p in face}))]
    write('in.ply', scan_of(rows))
    write('stand_in', STAND_IN)
    os.chmod('stand_in', os.stat('stand_in').st_mode | stat.S_IXUSR)
    equal(call('tiles', 'split', 'in.ply', 'tiles', 'points=400', 'overlap=2', 'through=20')[0], 0)
    known()


def shell(line: str, **more) -> Any:
    """Status and standard error of a line run in the folder of tiles."""
    environment = {**os.environ, 'RECON': os.path.abspath('stand_in'), 'KNOWN': os.path.abspath('known.json'), **more}
    done = subprocess.run(['sh', '-c', line], cwd='tiles', env=environment, capture_output=True, text=True)
    return done.returncode, done.stderr


def sign(name: str) -> None:
    """Makes a tile's `done` file that of the scan and the surface that are there."""
    write(f'tiles/{name}.done', 'points\nyes\n' + ''.join(cksum(f'tiles/{name}{end}') + '\n' for end in ('.ply', '.mesh.ply')))


def names() -> list[str]:
    return [tile['name'] for tile in tiles_of('tiles')[1]]


def calls() -> list[str]:
    """Returns what the stand-in was asked for since the last time, sorted."""
    found = sorted(read('tiles/calls').splitlines()) if os.path.exists('tiles/calls') else []
    write('tiles/calls', '')
    return found


def faces_of(name: str) -> list[Any]:
    """Returns the faces of a mesh as places."""
    text = read(name).split('end_header\n')
    rows = [tuple(map(int, line.split())) for line in text[1].splitlines()]
    count = int(text[0].split('element vertex ')[1].split()[0])
    equal((len(set(rows[:count])), {row[0] for row in rows[count:]}), (count, {3}))
    equal({k for row in rows[count:] for k in row[1:]}, set(range(count)))
    return [tuple(rows[k] for k in row[1:]) for row in rows[count:]]


def turned(faces: Sequence[Any]) -> list[Any]:
    """Faces that begin with their smallest place, in order."""
    return sorted(face[face.index(min(face)):] + face[:face.index(min(face))] for face in map(tuple, faces))


def edges_of(faces: Sequence[Any]) -> dict[Any, Any]:
    """Returns how often each edge is there one way and the other."""
    counts = {}
    for face in faces:
        for start, end in zip(face, face[1:] + face[:1]):
            entry = counts.setdefault((min(start, end), max(start, end)), [0, 0])
            entry[start > end] += 1
    return counts


def is_closed(faces: Sequence[Any]) -> bool:
    return all(there == back for there, back in edges_of(faces).values())


def built(**more: Any) -> list[Any]:
    """Builds the tiles of the lattice anew, and returns the faces that they have."""
    known(**more)
    equal(shell('rm -f *.done; make -s')[0], 0)
    return sorted({face for name in names() for face in turned(faces_of(f'tiles/{name}.mesh.ply'))})


def joined(*words: str) -> tuple[list[Any], int, int]:
    """Joins the tiles, and returns the faces, the number of moved edges, and that of triangles that fill."""
    status, said, error = call('tiles', 'join', 'tiles', 'out.ply', *words)
    equal((status, error), (0, ''))
    faces = faces_of('out.ply')
    lines = [[*map(int, line.split()[1:])] for line in read('out.ply').splitlines()[-len(faces):]]
    equal([line for line in lines if line[0] != min(line)], [])
    words = said.split()
    equal(f'and {len(faces)} faces to out.ply; closed; moved ' in said, True)
    equal((is_closed(faces), len(set(turned(faces)))), (True, len(faces)))
    return faces, int(words[words.index('moved') + 1]), int(words[words.index('filled') + 2])


def squares() -> list[tuple[Any, Any]]:
    """Returns the two triangles of each square of the lattice, and those of its other diagonal."""
    faces = lattice()
    return [((one, other), ((one[0], one[1], other[2]), (one[1], one[2], other[2]))) for one, other in zip(faces[::2], faces[1::2])]


def pyramid(square: Any) -> list[Any]:
    """Returns four faces from the corners of a square to a place over its first corner, outside of the cube."""
    (one, two, three), (_, _, four) = square
    axis = next(k for k in range(3) if one[k] == two[k] == three[k] == four[k])
    top = tuple(x + (3 if x else -3) * (k == axis) for k, x in enumerate(one))
    return [(a, b, top) for a, b in ((one, two), (two, three), (three, four), (four, one))]


class Tiles(InFolder):
    def setUp(self) -> None:
        super().setUp()
        # joined by the tools, not by recon-mesh
        patch = mock.patch.dict(os.environ, RECON_MESH='/bin/false')
        patch.start()
        self.addCleanup(patch.stop)

    def test_tiles_have_the_points_in_their_boxes(self) -> None:
        rows = drawn(1000)
        write('in.ply', scan_of(rows))
        status, said, error = call('tiles', 'split', 'in.ply', 'out', 'points=400', 'overlap=20', 'unit=2', 'vote=9')
        equal((status, error, said[:68]), (0, '', 'recon-tiles: read 1000 points of in.ply; left out nothing; wrote 4 t'))
        tiles = are_tiles('out', placed(rows, 2), 400)
        wanted = ['000.ply', '001.ply', '002.ply', '003.ply', 'Makefile', 'jobs.txt', 'tiles.json', 'tiles.txt']
        equal((len(tiles), sorted(os.listdir('out'))), (4, wanted))
        equal((read('out/jobs.txt').count(' vote=9 >'), read('out/Makefile').count(' vote=9 >'), 'unit' in read('out/jobs.txt')), (8, 2, False))
        equal((tiles_of('out')[0]['overlap'], any(tile['points'] > tile['own'] + 8 for tile in tiles)), (40, True))
        spacing = f'{tiles_of("out")[0]["spacing"] / 2:.4g}'
        says('tiles', 'read 1000 points of in.ply; left out nothing; wrote 1 tile of at most 1000 points, 1000 in all, to one; '
             f'overlap 0, mean spacing {spacing}', 'split', 'in.ply', 'one', 'overlap=0', 'unit=2')
        are_tiles('one', placed(rows, 2), 1000)
        equal(read('one/tiles.txt'), 'tiles 1\ntile 000.mesh.ply -2097152 -2097152 -2097152 2097152 2097152 2097152\n')

    def test_nothing_is_handed_in_but_the_ends_where_none_is_wanted(self) -> None:
        rows = drawn(500)
        write('in.ply', scan_of(rows))
        equal(call('tiles', 'split', 'in.ply', 'out', 'points=300', 'spacings=1', 'through=0')[0], 0)
        for tile in are_tiles('out', placed(rows), 300):
            equal(tile['points'] - tile['own'] <= 8, True)

    def test_a_tile_with_more_points_than_the_sample_showed_is_cut_again(self) -> None:
        rows = [row if k % 3 else (7, '8.00', k % 50, 1) for k, row in enumerate(drawn(1500))]
        write('in.ply', scan_of(rows))
        whole, blind = tile_rows.Spool.sample, [True]

        def sample(spool: Any, size: int, draw: Any) -> Any:
            """The first sample, without a dense place."""
            found = whole(spool, size, draw)
            return found.take(np.flatnonzero(found.table['place'][:, 0] != 7)) if blind and blind.pop() else found

        with mock.patch.object(tile_rows.Spool, 'sample', sample), mock.patch.object(tile_split, 'SAMPLE_SIZE', 1000):
            tile_split.split(['in.ply'], 'out', tile_split.Wanted(300, 10, 3.0, 20, 1, Options(KEYS)), [])
        equal((blind, len(are_tiles('out', placed(rows), 300)) > 6), ([], True))

    def test_samples_are_even_and_the_same_again(self) -> None:
        table = np.zeros(5000, tile_rows.ROW)
        table['place'][:, 0], table['count'] = np.arange(5000), np.arange(5000) % 3
        numbers = np.repeat(np.arange(5000), table['count'])
        seen = np.zeros(10, int)
        with mock.patch.object(tile_rows, 'CHUNK', 700):
            spool = tile_rows.Spool('rows')
            spool.add(tile_rows.Rows(table[:10], numbers[:table['count'][:10].sum()]))
            spool.add(tile_rows.Rows(table[10:], numbers[table['count'][:10].sum():]))
            for size in (1, 7, 100):
                one, other = (spool.sample(size, np.random.default_rng(3)) for _ in range(2))
                x = one.table['place'][:, 0]
                equal((x.tolist(), len(set(x.tolist()))), (other.table['place'][:, 0].tolist(), size))
                equal(one.scanners.tolist(), np.repeat(x, one.table['count']).tolist())
            seen += np.bincount(x // 500, minlength=10)
            equal((spool.whole().table == table).all() and (spool.whole().scanners == numbers).all(), True)
        equal((seen.min() >= 3, seen.max() <= 20), (True, True))

    def test_coordinates_are_rounded_as_recon_does(self) -> None:
        words = ['0.5', '-0.5', '1.0005', '-1.0005', '0.00049999999999999999', '2.5e-3', '123.4565', '0.1', '-7', '1.4999999999999999999']
        write('in.ply', scan_of([(word, '0', str(k), 0) for k, word in enumerate(words)]))
        for unit in (1, 2, 1000):
            equal(call('tiles', 'split', 'in.ply', f'out{unit}', f'unit={unit}', 'origin=0.5,0,0')[0], 0)
            got = [row[0][0] for row in sorted(body(f'out{unit}', tiles_of(f'out{unit}')[1][0]), key=lambda row: row[0][2])]
            equal(got, [scaled(word, unit) for word in tile_rows.differences(words, [tile_rows.Decimal('0.5')] * len(words))])

    def test_lines_of_sight_that_cross_a_box_are_found(self) -> None:
        draw = np.random.default_rng(5)
        start, ends = draw.integers(-9, 9, (2, 3000, 3)).astype(float)
        low, high = np.array([-2.0, -3, -1]), np.array([3.0, 1, 4])
        steps = start[:, None] + (ends - start)[:, None] * np.linspace(0, 1, 400)[None, :, None]
        near = ((steps >= low) & (steps <= high)).all(axis=2).any(axis=1)
        wide = ((steps >= low - 0.05) & (steps <= high + 0.05)).all(axis=2).any(axis=1)
        enters, leaves = tile_halo.spans(low, high, start, ends)
        found = enters <= leaves
        equal(((found >= near).all(), (found <= wide).all(), found.any()), (True, True, True))

    def test_halo_points_are_spread(self) -> None:
        draw = np.random.default_rng(6)
        # a hundred directions in one cell, and one in each of some other cells
        ways = np.r_[draw.uniform(0, 0.3, (100, 3)), [[x, y, 0.1] for x in (0.4, 0.7, 1.0) for y in (0.2, 0.6)]]
        order = tile_halo.spread(ways, np.zeros(len(ways), int), 9)
        equal((sorted(order.tolist()), set(order[:7].tolist())), ([*range(106)], {0, *range(100, 106)}))
        scanners = np.arange(106) % 2
        equal(set(tile_halo.spread(ways, scanners, 18)[:8].tolist()), {0, 1, *range(100, 106)})
        equal(tile_halo.spread(ways[:0], scanners[:0], 9).tolist(), [])

    def test_scans_of_each_kind_become_tiles(self) -> None:
        write('a.ptx', PTX)
        write('a.xyz', ''.join(f'{k % 7} {k % 11} {k % 3}\n' for k in range(99)))
        write('table', '9 9 9 a.xyz\n-5 -5 -5 a.xyz\n')
        equal(call('tiles', 'split', 'a.ptx', 'ptx', 'points=50')[0], 0)
        equal(call('tiles', 'split', 'a.xyz=9,9,9', 'one', 'points=50', 'origin=1,2,0.5', 'overlap=0.5', 'unit=2')[0], 0)
        equal(call('tiles', 'split', 'two', 'table=table', 'points=80', 'overlap=0')[0], 0)
        equal(call('tiles', 'split', 'a.xyz=9,9,9', 'a.xyz=-5,-5,-5', 'again', 'points=80', 'overlap=0')[0], 0)
        equal(*({name: pathlib.Path(folder, name).read_bytes() for name in os.listdir(folder) if name != 'tiles.json'} for folder in ('again', 'two')))
        for folder, count, first in (('one', 99, ((-2, -4, -1), ((16, 14, 17),), 1)), ('two', 198, ((0, 0, 0), ((9, 9, 9),), 1))):
            about, tiles = tiles_of(folder)
            equal((about['points'], sum(tile['in_core'] for tile in tiles), len(tiles) > 2), (count, count, True))
            equal(any(first in body(folder, tile) for tile in tiles), True)
        rows = [row + (k % 9 + 1,) for k, row in enumerate(drawn(300))]
        write('in.ply', scan_of(rows, 'double x, double y, double z, int scanner, uchar weight'))
        equal(call('tiles', 'split', 'in.ply', 'weighed', 'points=200', 'overlap=20')[0], 0)
        are_tiles('weighed', placed(rows), 200)

    def test_lists_of_scanners_are_kept(self) -> None:
        rows = drawn(300)
        seen = [[k % 3] * (k % 2) + [row[3]] * (k % 5) for k, row in enumerate(rows)]
        text = head(len(rows), 'double x, double y, double z, list uchar int scanner, uchar weight', len(PLACES))
        lines = [' '.join(map(str, [*row[:3], len(each), *each, 7])) for row, each in zip(rows, seen)]
        write('in.ply', text + '\n'.join(lines) + ''.join('\n%d %d %d' % place for place in PLACES) + '\n')
        equal(call('tiles', 'split', 'in.ply', 'out', 'points=200', 'overlap=20', 'through=10', 'origin=1,0,0')[0], 0)
        about, tiles = tiles_of('out')
        wanted = sorted(((scaled(str(row[0] - 1), 1), *(scaled(str(word), 1) for word in row[1:3])),
                         tuple((x - 1, y, z) for x, y, z in (PLACES[k] for k in each)), 7) for row, each in zip(rows, seen))
        equal((len(tiles) > 1, sorted({row for tile in tiles for row in body('out', tile)})), (True, sorted(set(wanted))))
        if RECON:
            done = subprocess.run([RECON, 'cells', 'out/000.ply', 'cells'], capture_output=True, text=True)
            equal((done.returncode, done.stdout[:7]), (0, 'points '))
        write('two.ply', head(1, 'double x, double y, double z, list uchar int ring', 1) + '1 2 3 0\n0 0 9\n')
        refuses_split('other than the scanners is a list', 'two.ply', 'none')

    def test_splits_that_are_refused(self) -> None:
        write('in.ply', scan_of(drawn(100)))
        os.mkdir('there')
        refuses_split('there exists already', 'in.ply', 'there')
        refuses_split('points= must be an integer', 'in.ply', 'none', 'points=2000000')
        refuses_split('overlap= must be a number', 'in.ply', 'none', 'overlap=-1')
        refuses_split('are alternatives', 'in.ply', 'none', 'overlap=1', 'spacings=1')
        refuses_split('jobs= is not an option of split', 'in.ply', 'none', 'jobs=2')
        refuses_split('over 2097151', 'in.ply', 'none', 'unit=10000')
        refuses_split('too near each other to be split', 'in.ply', 'none', 'points=40', 'overlap=900')
        refuses_split('No such file', 'missing.ply', 'none')
        write('cut.ply', read('in.ply')[:-9])
        refuses_split('truncated', 'cut.ply', 'none')
        write('bare.ply', head(1, 'double x, double y, double z') + '1 2 3\n')
        refuses_split('no scanner positions in the file', 'bare.ply', 'none')
        write('in.txt', '1 2 3\n')
        refuses_split('pass the scanner position: in.txt=X,Y,Z', 'in.txt', 'none')
        write('empty.ply', scan_of([]))
        refuses_split('no point', 'empty.ply', 'none')
        equal(call('tiles', 'glue', 'a', 'b')[0], 2)

    def test_jobs_are_done_once_and_say_why_not(self) -> None:
        prepared()
        known(fail=['001'])
        everything = sorted({f'{command} {name}' for name in names() for command in ('build', 'check')} - {'check 001'})
        said = '001: status 3: refused 7 missing vertex\n'
        equal(shell("xargs -d '\\n' -P 2 -n 1 sh -c < jobs.txt"), (123, said))
        equal(calls(), everything)
        equal(shell("xargs -d '\\n' -P 2 -n 1 sh -c < jobs.txt"), (123, said))
        equal(calls(), ['build 001'])
        status, error = shell('make -s -j2')
        equal((status, error.startswith(said)), (2, True))
        equal(calls(), ['build 001'])
        refuses('tiles', f'1 tile of {len(names())} not done yet: 001', 'join', 'tiles', 'out.ply')
        known()
        equal((shell('make -s -j2'), calls()), ((0, ''), ['build 001', 'check 001']))
        equal((shell('make -s -j2'), shell('sh jobs.txt'), calls()), ((0, ''), (0, ''), []))
        equal(read('tiles/001.done')[:11], 'points\nyes\n')
        equal([line.split()[2] for line in read('tiles/001.done').splitlines()[2:]], ['001.ply', '001.mesh.ply'])

    def test_tiles_that_agree_are_joined_to_the_whole(self) -> None:
        prepared()
        equal(shell('make -s')[0], 0)
        for words in ((), ('jobs=3',)):
            faces, moved, filled = joined(*words)
            equal((turned(faces), moved, filled), (turned(lattice()), 0, 0))
        equal(sorted(name for name in os.listdir('.') if name.startswith('.recon')), [])

    def test_tiles_that_differ_are_joined_closed(self) -> None:
        prepared()
        draw, moves = random.Random(2), 0
        for part in (0.05, 0.3, 0.7):
            less, more = {}, {}
            for name in names():
                changed = [square for square in squares() if draw.random() < part]
                less[name], more[name] = ([face for square in changed for face in square[k]] for k in range(2))
            held = built(less=less, more=more)
            faces, moved, filled = joined()
            moves += moved
            equal((len(faces), filled, [face for face in turned(faces) if face not in held]), (len(lattice()), 0, []))
        equal(moves > 0, True)

    def test_what_only_some_tiles_have_is_all_there_or_not(self) -> None:
        prepared()
        draw, seen = random.Random(3), 0
        for _ in range(3):
            less, more = {}, {}
            for name in names():
                bumps = draw.sample([square[0] for square in squares()], 40)
                less[name] = [face for square in bumps for face in square]
                more[name] = [face for square in bumps for face in pyramid(square)]
            held = built(less=less, more=more)
            faces, moved, filled = joined()
            seen += moved
            equal((filled, [face for face in turned(faces) if face not in held]), (0, []))
        equal(seen > 0, True)

    def test_what_no_tile_closes_is_filled(self) -> None:
        prepared()
        changed = {name: random.Random(name).sample([square[0] for square in squares()], 150) for name in names()}
        held = built(less={name: [face for square in each for face in square] for name, each in changed.items()},
                     more={name: [face for square in each for face in pyramid(square)] for name, each in changed.items()})
        with mock.patch.object(tile_moves, 'MOST_EDGES', -99999), mock.patch.object(tile_moves, 'FIRST_LIMIT', -9999):
            report = tile_join.join('tiles', 'out.ply')
        faces = faces_of('out.ply')
        equal((report.moved, report.filled > 0, is_closed(faces)), (0, True, True))
        equal(sum(face not in held for face in turned(faces)) <= report.filled, True)

    def test_recon_mesh_joins_where_it_can(self) -> None:
        prepared()
        equal(shell('make -s')[0], 0)
        write('mesh', '#!/bin/sh\nif [ $1 = help ]; then echo "usage: recon-mesh join TILES OUT"; exit; fi\ncp $2 $3\n'
              'echo joined tiles 4 points 5 faces 6 moved 7 filled 0 crossing 0\n')
        os.chmod('mesh', 0o755)
        with mock.patch.dict(os.environ, RECON_MESH=os.path.abspath('mesh')):
            says('tiles', 'joined 4 tiles of tiles; wrote 5 points and 6 faces to out.ply; closed; moved 7 edges; filled by 0 faces', 'join', 'tiles',
                 'out.ply')
            equal(read('out.ply'), read('tiles/tiles.txt'))
            write('mesh', '#!/bin/sh\necho usage: recon-mesh join TILES OUT; [ $1 = help ] || exit 3\n')
            refuses('tiles', 'recon-mesh: invalid file', 'join', 'tiles', 'out.ply')

    def test_places_are_found(self) -> None:
        draw = np.random.default_rng(4)
        rows = np.r_[draw.integers(-3, 3, (200, 3)), [[-(1 << 21), 0, 0], [(1 << 20) - (1 << 21), 0, 0]]]
        places = Places(rows)
        equal((places.places[places.numbers] == rows).all() and len(places.places) == len({tuple(row) for row in rows.tolist()}), True)
        asked = draw.integers(-4, 4, (300, 3))
        found = places.find(asked)
        there = {tuple(row) for row in rows.tolist()}
        equal([k >= 0 for k in found], [tuple(row) in there for row in asked.tolist()])
        equal((places.places[found[found >= 0]] == asked[found >= 0]).all(), True)
        equal(Places(rows[:0]).find(asked).max(), -1)

    def test_gaps_are_filled_by_triangles(self) -> None:
        draw = random.Random(5)
        for _ in range(200):
            faces = [tuple(draw.sample(range(9), 3)) for _ in range(draw.randrange(1, 9))]
            gaps, missing = Gaps(), {}
            for (start, end), (there, back) in edges_of(faces).items():
                if there != back:
                    one, other = (start, end) if there < back else (end, start)
                    gaps.add(one, other, ((one, one * one, 0), (other, other * other, 0)), abs(there - back))
                    missing[one, other] = abs(there - back)
            made = list(gaps.faces())
            closed = all(there == back for there, back in edges_of(faces + made).values())
            equal((closed, all(len(set(face)) == 3 for face in made)), (True, True))
            equal(len(made) <= max(0, sum(missing.values()) - 2), True)
        gaps = Gaps()
        gaps.add(0, 1, ((0, 0, 0), (1, 0, 0)), 1)
        try:
            equal(list(gaps.faces()), None)
        except Refusal as refusal:
            equal('not closed' in str(refusal), True)

    def test_joins_that_are_refused(self) -> None:
        prepared()
        write('out.ply', 'before')
        refuses('tiles', 'not done yet: 000', 'join', 'tiles', 'out.ply')
        equal(shell('make -s')[0], 0)
        refuses('tiles', 'unit= is not an option of join', 'join', 'tiles', 'out.ply', 'unit=1')
        refuses('tiles', 'No such file', 'join', 'none', 'out.ply')
        mesh = read('tiles/001.mesh.ply')
        double = mesh.replace('element face ', 'element face 1') + mesh.splitlines(True)[-1]
        for spoiled in (mesh[:-1], mesh[:-8], mesh + '3 0 1 2\n', '\n4'.join(mesh.rsplit('\n3', 1)), mesh + 'x', mesh[:-6] + '99999\n', 'ply\n',
                        double, mesh.rsplit('\n', 2)[0] + '\n3 1 1 2\n'):
            write('tiles/001.mesh.ply', spoiled)
            sign('001')
            status, said, error = call('tiles', 'join', 'tiles', 'out.ply')
            equal((status, said, read('out.ply') == 'before'), (1, '', True))
        write('tiles/001.mesh.ply', mesh)
        sign('001')
        equal(call('tiles', 'join', 'tiles', 'out.ply')[0], 0)
        text = read('tiles/tiles.txt')
        lines = text.splitlines(True)
        for spoiled in ('', text[:-1], text + '\n', text + lines[-1], ''.join(lines[:-1]), text.replace('cut', 'cut ', 1), text.replace('000', '../000'),
                        text.replace('001', '000'), text.replace('tiles ', 'tiles 1'), text.replace('2097152', '2097151', 1), lines[0] + lines[1] * 9000):
            write('tiles/tiles.txt', spoiled)
            refuses('tiles', 'not a list of recon-tiles split', 'join', 'tiles', 'out.ply')

    def test_tiles_that_changed_since_they_were_done_are_refused(self) -> None:
        prepared()
        equal(shell('make -s')[0], 0)
        for name in ('000.ply', '002.mesh.ply', '001.done'):
            with open('tiles/' + name, 'rb') as file:
                text = file.read()
            for spoiled in (text[:-9], b'', text.replace(b'1', b'2', 1)):
                write('tiles/' + name, spoiled)
                refuses('tiles', f'run the jobs again: {name[:3]}', 'join', 'tiles', 'out.ply')
            write('tiles/' + name, text)
        equal(call('tiles', 'join', 'tiles', 'out.ply')[0], 0)

    @unittest.skipUnless(RECON, 'recon is not built here')
    def test_a_small_scan_through_split_jobs_and_join(self) -> None:
        equal(call('make_scan', 'torus', '3000', '7', 'in.ply')[0], 0)
        equal(call('tiles', 'split', 'in.ply', 'tiles', 'points=2000', 'spacings=1', 'through=0')[0], 0)
        equal(shell('make -s -j2', RECON=os.path.abspath(RECON)), (0, ''))
        held = {face for name in names() for face in turned(faces_of(f'tiles/{name}.mesh.ply'))}
        faces, moved, filled = joined()
        equal((len(faces) > 3000 or len(faces), moved > 0, sum(face not in held for face in turned(faces)) <= filled), (True, True, True))
        done = subprocess.run([RECON, 'build', 'in.ply', 'whole.ply', 'cert'], capture_output=True)
        equal(done.returncode, 0)
        shared = set(turned(faces)) & set(turned(faces_of('whole.ply')))
        equal(len(shared) > 0.9 * len(faces), True)
        for words in (['slice', 'out.ply', '0', 'loops'], ['export', 'out.ply', 'copy.ply', 'copy.off', 'copy.obj']):
            equal(subprocess.run([RECON, *words], capture_output=True).returncode, 0)

    def test_help_and_words(self) -> None:
        status, said, error = call('tiles', '--help')
        equal((status, error, 'recon-tiles split FILE .. FOLDER' in said), (0, '', True))
        for words in ((), ('split',), ('split', 'a'), ('split', 'a', 'b', 'points=1', 'points=2'), ('join', 'a', 'b', 'c')):
            equal(call('tiles', *words)[0], 2)
