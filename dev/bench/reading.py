"""Measures how fast scans are read from files of each kind, and prints a table for docs/explain/performance.md.

usage: dev/bench reading FOLDER [rows=N] [runs=N] [only=PART]

  FOLDER       where the files are made; one that is there is not made again
  rows=N       the rows of each file (default: 2000000)
  runs=N       runs of each; the fastest counts (default: 3)
  only=PART    only the kinds with PART in their name
  helpers=yes  print the table of large texts: read by one process, and with helpers
  one=WHAT     reads or converts the file FOLDER once (read, alone, convert), and prints seconds, those of helpers, and MB, as the tables need them
  option=WORD  an option of recon-scan for that

Each file has the same points, with colors and intensity where the format has them. *Read* is `recon.tables.read_table`, by which recon-surface reads:
positions, colors and scanners as arrays. *Converted* is recon-scan, which writes a text of decimals. Speeds are rows in a second of processor time.
"""
from __future__ import annotations

import os
import resource
import subprocess
import sys
import time
from pathlib import Path
from typing import Any, Callable, Dict, Iterator, List, Sequence

import numpy as np

from bench.runs import printed_head, printed_row
from samples import E57_END, E57_ROOT, e57, las_head, packet, physical, section, station_xml
from recon import scan
from recon.tables import read_table
from recon.toolbox import read_ahead
from recon.toolbox.tool import Options

NAMES, OPTIONS = 1, ('rows', 'runs', 'only', 'helpers', 'one', 'option')
CHUNK = 100_000
IDENTITY = ('1 0 0 0', '0 1 0 0', '0 0 1 0', '0 0 0 1')
TURNED = ('0.6 0.8 0 0', '-0.8 0.6 0 0', '0 0 1 0', '448262.512345 5411932.75 118.25 1')
STATION, IMAGES = '1,2,3', 9


def parts(rows: int) -> Iterator[tuple[np.ndarray, np.ndarray, np.ndarray]]:
    """Yields points (n, 3), intensities and colors, some at a time: points as a scanner sees a room, in tenths of a millimeter."""
    draw = np.random.default_rng(1)
    for start in range(0, rows, CHUNK):
        count = min(CHUNK, rows - start)
        yield np.round(draw.normal(size=(count, 3)) * (12, 9, 2), 4), np.round(draw.random(count), 6), draw.integers(0, 256, (count, 3))


def text_file(path: Path, rows: int, form: str, pick: Callable[..., np.ndarray], begin: str = '') -> None:
    with open(path, 'w', encoding='ascii') as file:
        file.write(begin)
        for points, intensities, colors in parts(rows):
            values = pick(points, intensities, colors)
            file.write(form * len(values) % tuple(values.ravel().tolist()))


def xyz(points: np.ndarray, _: np.ndarray, __: np.ndarray) -> np.ndarray:
    return points


def xyz_color(points: np.ndarray, _: np.ndarray, colors: np.ndarray) -> np.ndarray:
    return np.c_[points, colors]


def xyz_all(points: np.ndarray, intensities: np.ndarray, colors: np.ndarray) -> np.ndarray:
    return np.c_[points, intensities, colors]


def ptx_head(rows: int, matrix: Sequence[str]) -> str:
    return '\n'.join([str(rows), '1', ' '.join(matrix[3].split()[:3]), '1 0 0', '0 1 0', '0 0 1', *matrix, ''])


def ply_head(kind: str, rows: int) -> str:
    columns = [f'property double {axis}' for axis in 'xyz'] + [f'property uchar {name}' for name in ('red', 'green', 'blue')]
    return '\n'.join(['ply', f'format {kind} 1.0', f'element vertex {rows}', *columns, 'end_header', ''])


def binary_file(path: Path, rows: int, begin: bytes, kind: Any, scale: float = 1.0) -> None:
    """Writes records of points and colors, in fields `p` and `c`."""
    with open(path, 'wb') as file:
        file.write(begin)
        for points, _, colors in parts(rows):
            records = np.zeros(len(points), kind)
            records['p'] = np.rint(points * scale) if scale != 1 else points
            records['c'] = colors
            file.write(records.tobytes())


def packed_bits(values: np.ndarray, bits: int) -> bytes:
    """Whole numbers packed by bits, as E57 has them."""
    return np.packbits((values[:, None].astype(np.uint64) >> np.arange(bits, dtype=np.uint64) & np.uint64(1)).astype(np.uint8).ravel(), bitorder='little').tobytes()


def e57_file(path: Path, rows: int) -> None:
    """Writes one station of scaled whole numbers, as scanners' programs do: 20 bits a coordinate, a state, 12 bits of intensity, and colors."""
    half, columns = 1 << 19, [20, 20, 20, 2, 12, 8, 8, 8]
    packets: List[bytes] = []
    for points, intensities, colors in parts(rows):
        for start in range(0, len(points), 4000):
            cut = slice(start, start + 4000)
            whole = np.clip(np.rint(points[cut] * 10_000 / 2), -half, half - 1).astype(np.int64) + half
            values = [*whole.T, np.zeros(len(whole), np.int64), np.rint(intensities[cut] * 4095), *colors[cut].T]
            packets.append(packet([packed_bits(value, bits) for value, bits in zip(values, columns)]))
    fields = [f'<cartesian{axis} type="ScaledInteger" minimum="{-half}" maximum="{half - 1}" scale="0.0002"/>' for axis in 'XYZ']
    fields += ['<cartesianInvalidState type="Integer" minimum="0" maximum="2"/>', '<intensity type="ScaledInteger" minimum="0" maximum="4095" scale="0.0002"/>']
    fields += [f'<color{name} type="Integer" minimum="0" maximum="255"/>' for name in ('Red', 'Green', 'Blue')]
    path.write_bytes(e57(section(b''.join(packets)), E57_ROOT + station_xml(physical(48), rows, '', ''.join(fields)) + E57_END))


def normals_of(points: np.ndarray) -> np.ndarray:
    """Returns directions from the middle, with three digits."""
    return np.round(points / np.maximum(np.linalg.norm(points, axis=1, keepdims=True), 1e-9), 3)


def images_file(path: Path) -> None:
    """Writes nine pictures for COLMAP's points."""
    path.write_bytes(np.uint64(IMAGES).tobytes() + b''.join(
        np.uint32(k + 1).tobytes() + np.array([1, 0, 0, 0, k, 0, 0], '<f8').tobytes() + np.uint32(1).tobytes() + b'a\0' + bytes(8) for k in range(IMAGES)))


def dense_file(path: Path, rows: int) -> None:
    """Writes fused.ply and the five pictures of each of its points."""
    columns = ''.join(f'property float {name}\n' for name in ('nx', 'ny', 'nz'))
    begin = ply_head('binary_little_endian', rows).replace('double', 'float').replace('property uchar red', columns + 'property uchar red')
    with open(path, 'wb') as file, open(f'{path}.vis', 'wb') as lists:
        file.write(begin.encode('ascii'))
        lists.write(np.uint64(rows).tobytes())
        for points, _, colors in parts(rows):
            records = np.zeros(len(points), [('p', '<f4', 3), ('n', '<f4', 3), ('c', 'u1', 3)])
            records['p'], records['n'], records['c'] = points, normals_of(points), colors
            file.write(records.tobytes())
            lists.write(np.c_[np.full(len(points), 5), colors.sum(axis=1)[:, None] % 5 + np.arange(5)].astype('<u4').tobytes())
    images_file(path.with_name('images.bin'))


def sparse_file(path: Path, rows: int) -> None:
    """Writes points3D.bin, each point with a track of five pictures."""
    kind = [('id', '<u8'), ('p', '<f8', 3), ('c', 'u1', 3), ('error', '<f8'), ('count', '<u8'), ('track', '<u4', (5, 2))]
    with open(path, 'wb') as file:
        file.write(np.uint64(rows).tobytes())
        for points, _, colors in parts(rows):
            records = np.zeros(len(points), kind)
            records['p'], records['c'], records['count'] = points, colors, 5
            records['track'][:, :, 0] = colors.sum(axis=1)[:, None] % 5 + np.arange(1, 6)
            file.write(records.tobytes())
    images_file(path.with_name('images.bin'))


def sparse_text(path: Path, rows: int) -> None:
    """Writes points3D.txt, each point with a track of five pictures."""
    text_file(path, rows, '%d %.4f %.4f %.4f %d %d %d %.2f' + ' %d %d' * 5 + '\n', lambda points, intensities, colors: np.c_[
        np.arange(len(points)), points, colors, intensities, np.repeat(colors.sum(axis=1)[:, None] % 5 + np.arange(1, 6), 2, axis=1)], '# 3D points\n')
    images_file(path.with_name('images.bin'))


def list_head(kind: str, rows: int) -> str:
    columns = [f'property double {axis}' for axis in 'xyz']
    return '\n'.join(['ply', f'format {kind} 1.0', f'element vertex {rows}', *columns, 'property list uchar int scanner', f'element scanner {IMAGES}', *columns, 'end_header', ''])


def list_text(path: Path, rows: int) -> None:
    """Writes a PLY of points, each with a list of three scanners."""
    text_file(path, rows, '%.4f %.4f %.4f 3 %d %d %d\n', lambda points, _, colors: np.c_[points, colors % IMAGES], list_head('ascii', rows))
    with open(path, 'a', encoding='ascii') as file:
        file.write('1 2 3\n' * IMAGES)


def list_binary(path: Path, rows: int) -> None:
    """Writes the same in binary."""
    with open(path, 'wb') as file:
        file.write(list_head('binary_little_endian', rows).encode('ascii'))
        for points, _, colors in parts(rows):
            records = np.zeros(len(points), [('p', '<f8', 3), ('n', 'u1'), ('s', '<i4', 3)])
            records['p'], records['n'], records['s'] = points, 3, colors % IMAGES
            file.write(records.tobytes())
        file.write(np.ones((IMAGES, 3), '<f8').tobytes())


def view_file(path: Path, rows: int) -> None:
    """Writes a binary PCD of points that say from where they were seen, a thousand from each place."""
    fields = 'VERSION 0.7\nFIELDS x y z vp_x vp_y vp_z\nSIZE 4 4 4 4 4 4\nTYPE F F F F F F\nCOUNT 1 1 1 1 1 1\n'
    with open(path, 'wb') as file:
        file.write(f'{fields}WIDTH {rows}\nHEIGHT 1\nVIEWPOINT 0 0 0 1 0 0 0\nPOINTS {rows}\nDATA binary\n'.encode('ascii'))
        for points, _, __ in parts(rows):
            file.write(np.c_[points, np.repeat(points[::1000], 1000, axis=0)[:len(points)]].astype('<f4').tobytes())


def flight_file(path: Path, rows: int) -> None:
    """Writes a LAS with times, and the table of its flight."""
    with open(path, 'wb') as file:
        file.write(las_head(2, 1, 28, rows, (1e-4,) * 3, (0, 0, 0)))
        for points, intensities, _ in parts(rows):
            records = np.zeros(len(points), [('p', '<i4', 3), ('more', 'V8'), ('t', '<f8')])
            records['p'], records['t'] = np.rint(points * 10_000), np.sort(intensities) * 1000
            file.write(records.tobytes())
    path.with_name('flight.txt').write_text(''.join(f'{second} {second} 0 500\n' for second in range(1001)), encoding='ascii')


# each kind: its file, how it is made, and how it is given
KINDS: Dict[str, tuple[Any, ...]] = {
    'text, `X Y Z`': ('xyz.txt', lambda path, rows: text_file(path, rows, '%.4f %.4f %.4f\n', xyz), '=' + STATION),
    'text, `X Y Z R G B`': ('color.txt', lambda path, rows: text_file(path, rows, '%.4f %.4f %.4f %d %d %d\n', xyz_color), '=' + STATION),
    'CSV with a heading': ('color.csv', lambda path, rows: text_file(path, rows, '%.4f,%.4f,%.4f,%d,%d,%d\n', xyz_color, 'x,y,z,r,g,b\n'), '=' + STATION),
    'text, 17 digits': ('long.txt', lambda path, rows: text_file(path, rows, '%.15f %.15f %.15f\n', lambda p, *_: p * np.pi), '=' + STATION),
    'PTS': ('all.pts', lambda path, rows: text_file(path, rows, '%.4f %.4f %.4f %.6f %d %d %d\n', xyz_all, f'{rows}\n'), '=' + STATION),
    'PTX': ('plain.ptx', lambda path, rows: text_file(path, rows, '%.4f %.4f %.4f %.6f %d %d %d\n', xyz_all, ptx_head(rows, IDENTITY)), ''),
    'PTX with a matrix': ('turned.ptx', lambda path, rows: text_file(path, rows, '%.4f %.4f %.4f %.6f %d %d %d\n', xyz_all, ptx_head(rows, TURNED)), ''),
    'PLY, text': ('text.ply', lambda path, rows: text_file(path, rows, '%.4f %.4f %.4f %d %d %d\n', xyz_color, ply_head('ascii', rows)), '=' + STATION),
    'PLY, binary': ('binary.ply', lambda path, rows: binary_file(path, rows, ply_head('binary_little_endian', rows).encode('ascii'),
                                                                 [('p', '<f8', 3), ('c', 'u1', 3)]), '=' + STATION),
    'LAS': ('points.las', lambda path, rows: binary_file(path, rows, las_head(2, 2, 26, rows, (1e-4,) * 3, (0, 0, 0)), [('p', '<i4', 3), ('more', 'V8'), ('c', '<u2', 3)], 10_000), '=' + STATION),
    'E57': ('points.e57', e57_file, ''),
    'text with normals': ('normals.txt', lambda path, rows: text_file(path, rows, '%.4f %.4f %.4f %.3f %.3f %.3f\n', lambda p, *_: np.c_[p, normals_of(p)]), '=' + STATION),
    'LAS and its flight': ('flight.las', flight_file, '', 'flight=flight.txt'),
    'COLMAP, `fused.ply`': ('fused.ply', dense_file, '', 'images=images.bin'),
    'COLMAP, `points3D.bin`': ('points3D.bin', sparse_file, '', 'images=images.bin'),
    'COLMAP, `points3D.txt`': ('points3D.txt', sparse_text, '', 'images=images.bin'), 'PLY with lists, text': ('lists.ply', list_text, ''),
    'PLY with lists, binary': ('lists_binary.ply', list_binary, ''), 'PCD with viewpoints': ('views.pcd', view_file, '')}


# those of them that helpers read, where they are large
TEXTS = ('text, `X Y Z`', 'text, `X Y Z R G B`', 'CSV with a heading', 'text, 17 digits', 'PTS', 'PTX', 'PTX with a matrix', 'PLY, text')


def measured(words: Sequence[str]) -> tuple[float, float, int]:
    """Runs this program with other arguments, and returns the seconds, those of helpers, and the peak of memory in MB that it prints."""
    done = subprocess.run([sys.executable, os.path.dirname(os.path.abspath(__file__)), 'reading', *words], stdout=subprocess.PIPE, text=True, check=True)
    seconds, of_helpers, peak = done.stdout.split()[-3:]
    return float(seconds), float(of_helpers), int(peak)


def one(what: str, name: str, given: str) -> str:
    """Reads or converts a file, and prints seconds, those of helpers, and MB."""
    folder = os.path.dirname(name)
    key, _, value = given.partition('=')
    more = {key: value if value == 'yes' else os.path.join(folder, value)} if key else {}
    if what == 'alone':
        read_ahead.processors = lambda: 0
    start = time.process_time()
    if what in ('read', 'alone'):
        table, _ = read_table([name], **more)
        table.colors()
    elif what == 'convert':
        options: Any = Options(scan.KEYS)
        vars(options).update(more)
        scan.work([name, os.path.join(folder, 'converted.ply')], options)
    helpers = resource.getrusage(resource.RUSAGE_CHILDREN)
    return f'{time.process_time() - start} {helpers.ru_utime + helpers.ru_stime} {resource.getrusage(resource.RUSAGE_SELF).ru_maxrss // 1024}'


def speed(rows: int, seconds: float) -> str:
    return f'{rows / seconds / 1e6:.2f}'


def with_helpers(folder: Path, rows: int, runs: int, only: str) -> str:
    """Prints the table of large texts."""
    printed_head(f'{rows:,} rows of', 'MB', 'one process, million rows/s', 'with helpers, million rows/s', 'helpers together, million rows/s')
    for kind in (kind for kind in TEXTS if only in kind):
        file, make, given = KINDS[kind][:3]
        path = folder / f'{rows}_{file}'
        if not path.exists():
            make(path, rows)
        (alone, _, _), (seconds, of_helpers, _) = (min(measured([f'{path}{given}', f'one={what}']) for _ in range(runs)) for what in ('alone', 'read'))
        printed_row(kind, f'{path.stat().st_size / 1e6:,.0f}', speed(rows, alone), speed(rows, seconds), speed(rows, max(of_helpers, 1e-9)))
    return f'{len(TEXTS)} texts'


def work(names: Sequence[str], options: Any) -> str:
    """Measures all kinds, and prints the table."""
    if options.one:
        return one(options.one, names[0], options.option or '')
    if options.helpers:
        return with_helpers(Path(names[0]), int(options.rows or 2_000_000), int(options.runs or 3), options.only or '')
    folder, rows, runs = Path(names[0]), int(options.rows or 2_000_000), int(options.runs or 3)
    folder.mkdir(parents=True, exist_ok=True)
    printed_head(f'{rows:,} rows of', 'MB', 'read, million rows/s', 'peak MB', 'converted, million rows/s', 'peak MB')
    count = 0
    for kind, (file, make, given, *more) in KINDS.items():
        if options.only and options.only not in kind:
            continue
        path = folder / f'{rows}_{file}'
        if not path.exists():
            make(path, rows)
        found = [min(measured([f'{path}{given}', f'one={what}', *(f'option={word}' for word in more)]) for _ in range(runs)) for what in ('read', 'convert')]
        cells = [cell for seconds, of_helpers, peak in found for cell in (speed(rows, seconds + of_helpers), f'{peak:,}')]
        printed_row(kind, f'{path.stat().st_size / 1e6:,.0f}', *cells)
        count += 1
    return f'{count} kinds'
