"""Parts of the model by known answers: numbers, printed scans, the generator, flows. What its commands print and write is tested as that of the
program, in tools/tests/test_commands.py."""
from __future__ import annotations

import unittest

from common import CUBE, FIVE_SIGHTS, TETRAHEDRON, XYZ, outward, plain, ran, rows_of, text
from model.numbers import LONG_NUMBER, NOT_A_NUMBER, OUT_OF_RANGE, BadNumber, scaled, whole
from model.scans import Pcg32, Scan, generated, push_scan, read_scan

BUILD, CHECK = 'build in mesh cert', 'check in mesh cert'


def with_rows(tails: list[str], line: str) -> bytes:
    """Returns the tetrahedron with other ends of its rows, and another line for its property `scanner`."""
    lines = TETRAHEDRON.decode().split('\n')
    lines[12:16] = [row.rsplit(' ', 1)[0] + ' ' + tail for row, tail in zip(lines[12:16], tails)]
    lines[6] = line
    return '\n'.join(lines).encode()


class Answers(unittest.TestCase):
    def test_many_sights(self) -> None:
        head = text('ply', 'format binary_little_endian 1.0', 'element vertex 1', *XYZ, 'property list uint uchar scanner', 'element scanner 1',
                    *XYZ, 'end_header')
        data = head + bytes(12) + (8388609).to_bytes(4, 'little') + bytes(8388609 + 12)
        self.assertEqual(ran('cells in out', scan=data)[:2], (3, 'refused 22 too_many_sights row 0'))

    def test_files_that_cannot_be_written(self) -> None:
        scan = plain([(0, 0, 0, 0)], [(100, 0, 0)])
        self.assertEqual(ran('cells in no/out', scan=scan), (4, '', {'in': scan}))
        self.assertEqual(ran('build a b \udcff', scan=scan), (2, 'refused words', {'in': scan}))

    def test_a_flow_of_least_amounts(self) -> None:
        cert = ran(BUILD, scan=FIVE_SIGHTS)[2]['cert']
        self.assertEqual((rows_of(cert, 'flow'), rows_of(cert, 'sink')), (['8 9 10 1', '8 10 11 1', '8 11 9 1', '9 11 10 9'], ['8 9 10 11 12']))

    def test_demo(self) -> None:
        words = Pcg32(42, 54)
        self.assertEqual([words.word() for _ in range(6)], [0xa15c02b7, 0x7b47f409, 0xba1d3330, 0x83d2f293, 0xbfa4784b, 0xcbed606e])
        self.assertEqual(ran('demo 1 7'), (0, 'demo 1 7 points 1 scanners 6 sights 1 inside 0 faces 0 cost 8', {}))
        scan = push_scan(generated(12, 7))
        _, line, files = ran(BUILD, scan=scan)
        self.assertEqual(ran('demo 12 7')[1], 'demo 12 7 ' + line)
        self.assertEqual(ran(CHECK, **files)[0], 0)

    def test_sweep(self) -> None:
        built = [ran(f'{BUILD} vote=1 smooth={weight}', scan=TETRAHEDRON)[2]['mesh'] for weight in (0, 1)]
        status, line, files = ran('sweep in 0 1 2 a b vote=1', scan=TETRAHEDRON)
        self.assertEqual((status, line, [files['a'], files['b']]), (0, 'sweep 2 first_cost 0 last_cost 4', built))


class Texts(unittest.TestCase):
    def test_numbers(self) -> None:
        def read(call: object, *words: object) -> object:
            try:
                return call(*words)  # type: ignore[operator]
            except BadNumber as bad:
                return bad.kind

        for token, wanted in (('1.0005', 1001), ('-1.0005', -1001), ('2.5e-4', 0), ('5e-4', 1), ('-0', 0), ('1e9', OUT_OF_RANGE),
                              ('.', NOT_A_NUMBER), ('nan', NOT_A_NUMBER), ('1' + '0' * 30, LONG_NUMBER)):
            self.assertEqual(read(scaled, token.encode(), 1000), wanted)
        for token, wanted in (('007', 7), ('-4', -4), ('1.0', NOT_A_NUMBER), ('9' * 19, LONG_NUMBER)):
            self.assertEqual(read(whole, token.encode()), wanted)

    def test_printed_scans_are_read(self) -> None:
        for data in (TETRAHEDRON, outward(CUBE), plain([], [(0, 0, 0)])):
            self.assertEqual(push_scan(read_scan(data)), data)
        for tails, line in ((['0 2', '1 1', '2 1', '3 1'], 'property int scanner\nproperty uchar weight'),
                            (['2 0 0', '1 1', '0', '1 3'], 'property list uchar int scanner')):
            scan = read_scan(with_rows(tails, line))
            self.assertEqual(read_scan(push_scan(scan)), Scan(list(scan.rows), list(scan.scanners)))


if __name__ == '__main__':
    unittest.main()
