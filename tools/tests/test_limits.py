"""The largest scans that `recon` takes: as many points, and as many lines of sight, as its limits allow."""
from __future__ import annotations

import itertools
import struct
import subprocess
import unittest
from typing import Iterator

from helpers import RECON, InFolder, equal

POINTS = 1_048_576
SIGHTS = 8_388_608
NEEDED = 4_000_000_000  # bytes


def free_memory() -> int:
    """Returns how many bytes of memory the system has to spare, or enough for these tests where it does not say."""
    try:
        with open('/proc/meminfo', encoding='ascii') as file:
            lines = dict(line.split(':', 1) for line in file)
        return 1024 * int(lines['MemAvailable'].split()[0])
    except (OSError, KeyError):
        return NEEDED


def pcg32(seed: int) -> Iterator[int]:
    """Yields the words of the generator PCG-XSH-RR 64/32 (O'Neill 2014) for this seed and stream 1."""
    state = seed + 3
    while True:
        state = state * 6364136223846793005 + 3 & 2 ** 64 - 1
        word, turn = (state >> 18 ^ state) >> 27 & 2 ** 32 - 1, state >> 59
        yield (word >> turn | word << 32 - turn) & 2 ** 32 - 1


def cube_rows(count: int, seed: int) -> Iterator[str]:
    """Yields the vertex rows of the scan that `recon demo` makes: points on the faces of a cube, each seen by the scanner before its face."""
    words = pcg32(seed)
    for face in itertools.islice(itertools.cycle(range(6)), count):
        place = [str(next(words) % 2001 - 1000), str(next(words) % 2001 - 1000)]
        place.insert(face // 2, '-1000' if face % 2 else '1000')
        yield f'{place[0]} {place[1]} {place[2]} {face}\n'


def write_cube(name: str, count: int, seed: int) -> None:
    """Writes the scan that `recon demo` makes of these two numbers."""
    axes = 'property int x\nproperty int y\nproperty int z\n'
    with open(name, 'w', encoding='ascii') as file:
        file.write(f'ply\nformat ascii 1.0\nelement vertex {count}\n{axes}property int scanner\nelement scanner 6\n{axes}end_header\n')
        file.writelines(cube_rows(count, seed))
        for face in range(6):
            file.write(' '.join(str((axis == face // 2) * (-5000 if face % 2 else 5000)) for axis in range(3)) + '\n')


def write_tetrahedron(name: str, sights: list[int]) -> None:
    """Writes the tetrahedron of examples/, with each point seen as often as stated, always from ten times its own position."""
    corners = [(100, 100, 100), (100, -100, -100), (-100, 100, -100), (-100, -100, 100)]
    head = ('ply\nformat binary_little_endian 1.0\nelement vertex 4\nproperty int x\nproperty int y\nproperty int z\n'
            'property list uint uchar scanner\nelement scanner 4\nproperty int x\nproperty int y\nproperty int z\nend_header\n')
    with open(name, 'wb') as file:
        file.write(head.encode('ascii'))
        for at, (corner, count) in enumerate(zip(corners, sights)):
            file.write(struct.pack('<3iI', *corner, count) + bytes([at]) * count)
        for corner in corners:
            file.write(struct.pack('<3i', *(10 * it for it in corner)))


def recon(*words: str) -> tuple[int, str]:
    """Returns the status and the line of a run."""
    done = subprocess.run([RECON, *words], capture_output=True)
    return done.returncode, done.stdout.decode('ascii')


@unittest.skipUnless(RECON, 'recon is not built here')
class Limits(InFolder):
    def setUp(self) -> None:
        if free_memory() < NEEDED:
            self.skipTest(f'the largest scans take up to {NEEDED // 10 ** 9} GB of memory, and {free_memory() // 10 ** 6} MB are free')
        super().setUp()

    def test_the_most_points(self) -> None:
        # The numbers are those of the reference implementation.
        write_cube('scan.ply', POINTS, 1)
        equal(recon('build', 'scan.ply', 'mesh.ply', 'cert'),
              (0, 'points 1026101 scanners 6 sights 1048576 inside 3334022 faces 2049588 cost 2066412\n'))
        equal(recon('check', 'scan.ply', 'mesh.ply', 'cert'), (0, 'yes inside 3334022 faces 2049588 cost 2066412\n'))
        write_cube('more.ply', POINTS + 1, 1)
        equal(recon('build', 'more.ply', 'mesh.ply', 'cert'), (3, f'refused 10 too_many vertex count {POINTS + 1}\n'))

    def test_the_most_lines_of_sight(self) -> None:
        # Each of the four facets costs 1; all cells outside would cost 8 for each line of sight.
        write_tetrahedron('scan.ply', [SIGHTS // 4] * 4)
        equal(recon('build', 'scan.ply', 'mesh.ply', 'cert'), (0, f'points 4 scanners 4 sights {SIGHTS} inside 1 faces 4 cost 4\n'))
        equal(recon('check', 'scan.ply', 'mesh.ply', 'cert'), (0, 'yes inside 1 faces 4 cost 4\n'))
        write_tetrahedron('more.ply', [SIGHTS // 4] * 3 + [SIGHTS // 4 + 1])
        equal(recon('build', 'more.ply', 'mesh.ply', 'cert'), (3, 'refused 22 too_many_sights row 3\n'))
