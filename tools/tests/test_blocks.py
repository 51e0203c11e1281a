"""Points read in blocks: the same fields, numbers and counts as row by row, from every kind of file, whole and spoiled."""
from __future__ import annotations

import io
import random
import struct
import unittest
from decimal import Decimal
from typing import Any, Optional

import numpy as np

from helpers import InFolder, POINTS, binary, equal, head, write
from recon import scan, tables
from recon.toolbox import text_columns
from recon.toolbox.ply_text import Refusal
from recon.toolbox.sieve import Cubes
from recon.toolbox.text_columns import NotPlain, TextRows
from recon.toolbox.text_layout import layout_of
from recon.toolbox.tool import Options, field
from test_other_files import COMPRESSED, PACKED, PCD, PDAL_E57, PDAL_LAS, e57
from test_stations import PTX

PLY = (head(4, 'double x, double y, double z, uchar red, uchar green, uchar blue, int scanner, uchar weight', 2)
       + '1.5 2 -3 255 0 7 0 1\n4 5e-1 6 1 2 3 1 2\nnan 5 6 1 2 3 1 2\n1.25 .5 12345678901234567890 1 2 3 0 255\n0 0 9\n1e1 0 5\n')
COLORS = '1 2 3.25 255 0 7\n4.5 -5 6 1 2 3\n-0.125 7 8 9 8 300\n'
FILES = {
    'text.ply': PLY, 'list.xyz': COLORS, 'heading.csv': '"x", "y", "z", "R", "G", "B"\n' + COLORS.replace(' ', ','),
    'title.txt': '//X Y Z Intensity Nx Ny Nz\n' + ''.join(f'{k}.5 {k} 7 0.{k} 0 0.6 0.8\n' for k in range(5)),
    'parts.txt': 'x;y;z;red;green;blue\n1;2;3;0.5;0;1\n4;5;6;0.25;1;nan\n', 'plain.xyz': '1 2 3\n4\t5  6 \r\n7 8 9\n',
    'some.pts': '2\n1 2 3 -5 255 0 7\n4 5 6 9 1 2 3\n1\n7 8 9 0 1 1 1\n', 'in.ptx': PTX, 'short.ptx': PTX.replace('0 0 0 0.5 0 0 0', '0 0 0 0.5'),
    'in.pcd': PCD, 'packed.pcd': COMPRESSED + PACKED, 'floats.ply': binary('<', '\n', POINTS), 'big.ply': binary('>', '\n', POINTS),
    'in.las': PDAL_LAS, 'in.e57': PDAL_E57, 'other.e57': e57(300)}
WITH_POSITIONS = ('text.ply', 'in.ptx', 'short.ptx', 'in.pcd', 'in.e57', 'other.e57', 'packed.pcd')
OPTIONS: tuple[dict[str, str], ...] = ({}, {'origin': '0.5,-2,1e1'}, {'divide': '1000', 'origin': '1,1,1'}, {'from': '0,0,0', 'to': '5,5,5'}, {'side': '3'},
                                       {'outside': 'yes', 'from': '0,0,0', 'to': '5,5,5'}, {'surround': '2'})
Outcome = Optional[tuple[str, str]]


def options_of(given: dict[str, str]) -> Any:
    options = Options(scan.KEYS)
    for key, value in given.items():
        setattr(options, field(key), value)
    return options


def converted(names: list[str], given: dict[str, str], in_blocks: bool) -> Outcome:
    """What `recon-scan` writes, and counts; None where it is an error, or where blocks are not read."""
    file = io.StringIO()
    try:
        conversion = scan.Conversion(names, options_of(given), file)
        conversion.run_blocks() if in_blocks else conversion.run()
        conversion.finish()
    except (NotPlain, Refusal, ArithmeticError):
        return None
    finally:
        if 'conversion' in locals():
            conversion.source.close()
    return file.getvalue(), f'{conversion.source.read()} {conversion.source.counts} {conversion.sieve.counts} {conversion.part}'


def gathered(names: list[str], in_blocks: bool) -> Any:
    """The same without options."""
    return gathered_with(names, {}, in_blocks)


def gathered_with(names: list[str], given: dict[str, str], in_blocks: bool) -> Any:
    """The table of a scan as lists; None where it is an error."""
    try:
        gathering = tables.Gathering(names, options_of(given), tables.silent)
        gathering.run_blocks() if in_blocks else gathering.run()
    except (NotPlain, Refusal, ArithmeticError):
        return None
    table = gathering.table()
    colors = table.colors()
    return ({name: column.tolist() for name, column in sorted(table.columns.items())}, None if table.sights is None else [column.tolist() for column in table.sights],
            None if table.scanners is None else table.scanners.tolist(), None if colors is None else colors.tolist(), gathering.said())


def names_of(name: str) -> list[list[str]]:
    """The ways in which a file is given."""
    alone = [[name]] if name in WITH_POSITIONS else []
    return alone if name.endswith('.ptx') else [*alone, [f'{name}=1,2,3'], [f'{name}=1,2,3', f'{name}=4,5,6']]


class Blocks(InFolder):
    def setUp(self) -> None:
        super().setUp()
        for name, data in FILES.items():
            write(name, data)

    def test_blocks_are_the_rows(self) -> None:
        for name in FILES:
            for names in names_of(name):
                for given in OPTIONS:
                    blocks, rows = converted(names, given, True), converted(names, given, False)
                    equal((names, given, blocks), (names, given, rows))
                equal((names, str(gathered(names, True))), (names, str(gathered(names, False))))

    def test_most_files_are_read_in_blocks(self) -> None:
        equal([name for name in FILES for names in names_of(name) if gathered(names, True) is None], [])

    def test_spoiled_files(self) -> None:
        draw, met = random.Random(4), 0
        for _ in range(300):
            name = draw.choice(list(FILES))
            data = FILES[name]
            text = bytearray(data.encode('ascii') if isinstance(data, str) else data)
            for _ in range(draw.choice((1, 1, 2))):
                at = draw.randrange(len(text))
                text[at:at + draw.choice((1, 1, 0, 3))] = draw.choice((b'', b' ', b'\n', b'.', b'-', b'e', b'7', b',', b'nan', b'\xff', b'\0', b'\t', b'#', b'\r'))
            write(name, bytes(text))
            names = draw.choice(names_of(name))
            blocks = gathered(names, True)
            if blocks is not None:
                met += 1
                equal((name, bytes(text), str(blocks)), (name, bytes(text), str(gathered(names, False))))
            written = converted(names, draw.choice(OPTIONS[:2]), True) if blocks is not None and draw.random() < 0.2 else None
            equal(written is not None and converted(names, {}, False) is None, False)
            write(name, data)
        equal(met > 50, True)

    def test_products_are_those_of_decimals(self) -> None:
        draw = random.Random(7)
        rows = ''.join(f'{draw.uniform(-50, 50):.{draw.randrange(1, 9)}f} {draw.uniform(-50, 50):.4f} {draw.randrange(-9, 9)} 0.5\n' for _ in range(4000))
        turn = '0.6 0.8 0 0\n-0.8 0.6 0 0\n0 0 1 0\n448262.512345678 5411932.75 118.25 1\n'
        write('in.ptx', '40\n100\n0 0 0\n1 0 0\n0 1 0\n0 0 1\n' + turn + rows)
        equal(str(gathered(['in.ptx'], True)), str(gathered(['in.ptx'], False)))
        equal(converted(['in.ptx'], {'origin': '448000,5411000,0'}, True), converted(['in.ptx'], {'origin': '448000,5411000,0'}, False))

    def test_packed_points_of_any_number(self) -> None:
        for count in (1, 2, 17, 1000, 4000):
            write('other.e57', e57(count))
            equal((count, str(gathered(['other.e57'], True))), (count, str(gathered(['other.e57'], False))))


def word(draw: random.Random) -> str:
    """A number in one of many forms."""
    value = draw.gauss(0, 10 ** draw.randrange(9))
    digits = ''.join(draw.choice('0123456789') for _ in range(draw.randrange(1, 20)))
    between = (Decimal(value) + Decimal(float(np.nextafter(value, 2)))) / 2
    return draw.choice((repr(value), f'{value:.4f}', f'{value:.{draw.randrange(28)}f}', f'{value:e}', digits, f'{digits}.', f'-.{digits}', f'+0.{digits}',
                        f'00{digits}.{digits}', str(between)[:draw.randrange(17, 22)].rstrip('E+-'), '-0.0', 'nan', str(draw.randrange(256))))


class Words(unittest.TestCase):
    def test_numbers_are_those_of_float(self) -> None:
        draw = random.Random(5)
        for _ in range(60):
            width, sign = draw.randrange(1, 6), draw.choice((' ', '  ', '\t'))
            rows = [[word(draw) for _ in range(width)] for _ in range(300)]
            text = TextRows(''.join(sign.join(row) + draw.choice(('\n', ' \n', '\r\n', '\n')) for row in rows).encode('ascii'), width)
            equal(text.count, len(rows))
            for column in range(width):
                words = [row[column] for row in rows]
                equal(text.words(column), words)
                equal([struct.pack('<d', x) for x in text.floats(column)], [struct.pack('<d', float(x)) for x in words])

    def test_numbers_without_more_bits(self) -> None:
        is_long, draw = text_columns.IS_LONG, random.Random(6)
        text_columns.IS_LONG = False
        try:
            words = [repr(draw.gauss(0, 1)) for _ in range(500)]
            equal(TextRows('\n'.join([*words, '']).encode('ascii'), 1).floats(0).tolist(), list(map(float, words)))
        finally:
            text_columns.IS_LONG = is_long

    def test_texts_that_are_not_plain(self) -> None:
        for text in (b'1 2\n3\n', b'1 x\n', b'1 2\n3 4 5\n', b'1 2\x003\n', b'1 2\xff\n', b'1 1e999\n', b'1 --2\n', b'1 2.3.4\n', b'1 .\n', b'1 -\n', b'1,2 3\n'):
            with self.assertRaises(NotPlain):
                rows = TextRows(text, 2)
                [rows.floats(column) for column in range(2)]

    def test_sets_of_cubes(self) -> None:
        draw, one, other = random.Random(8), Cubes(), Cubes()
        for _ in range(40):
            numbers = [draw.choice((draw.randrange(1, 1 << 63), draw.randrange(1, 50_000))) for _ in range(4000)]
            equal([one.add(number) for number in numbers], other.add_all(np.array(numbers, np.uint64)).tolist())
        equal(one.count, other.count)

    def test_what_columns_mean(self) -> None:
        cases = ((['1 2 3 255 0 0'], None, {'red': 3, 'green': 4, 'blue': 5}), (['1 2 3 0 0 0'], None, {'red': 3, 'green': 4, 'blue': 5}),
                 (['1 2 3 0.5 1 2 3'], None, {'red': 4, 'green': 5, 'blue': 6, 'intensity': 3}), (['1 2 3 4.5'], None, {'intensity': 3}),
                 (['1 2 3 9 8 7 0 0 1'], None, {'red': 3, 'green': 4, 'blue': 5, 'nx': 6, 'ny': 7, 'nz': 8}),
                 (['1 2 3 0 0 1 9 8 7'], None, {'red': 6, 'green': 7, 'blue': 8, 'nx': 3, 'ny': 4, 'nz': 5}),
                 (['1 2 3 9 8 7 0.5'], None, {'red': 3, 'green': 4, 'blue': 5, 'intensity': 6}), (['1 2 3 4 5'], None, {}),
                 (['1 2 3 4 5 6 7'], 'X Y Z class R G B', {'red': 4, 'green': 5, 'blue': 6}), (['1 2 3 4 5 6'], 'a b c d e f', {'red': 3, 'green': 4, 'blue': 5}),
                 (['1 2 3 256 5 6'], None, {}), (['1 2 3 1.5 5 6'], None, {}), (['1 2 3 0.0 0.0 0.0'], None, {}),
                 (['1 2 3 0.5 0 0 0'], None, {'red': 4, 'green': 5, 'blue': 6, 'intensity': 3}),
                 (['1 2 3 0 0 0 0 0.6 0.8'], None, {'red': 3, 'green': 4, 'blue': 5, 'nx': 6, 'ny': 7, 'nz': 8}),
                 (['1 2 3 9 0 0 0', '1 2 3 9 7 8 6'], None, {'red': 4, 'green': 5, 'blue': 6, 'intensity': 3}),
                 (['1 2 3 0 0 0 9', '1 2 3 7 8 6 9'], None, {'red': 3, 'green': 4, 'blue': 5, 'intensity': 6}))
        for rows, title, wanted in cases:
            equal((rows, layout_of([row.split() for row in rows], title.split() if title else None).places), (rows, wanted))
