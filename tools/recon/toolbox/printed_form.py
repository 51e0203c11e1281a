"""The printed form of a scan: the one text that the library call `push_scan` prints, which the auditors' page defines.

Names: PrintedWriter (writes it in place of `Writer`).
"""
from __future__ import annotations

import tempfile
from typing import Any, Sequence

from recon.toolbox.ply_text import Property, Refusal, Writer

FARTHEST, HEAVIEST = 2_097_151, 255
WHOLE_PLACE = ['property int x', 'property int y', 'property int z']
ONE_SIGHT = ['property int scanner']
ANY_SIGHTS = ['property uchar weight', 'property list uint int scanner']


def place_text(words: Sequence[str]) -> str:
    """Returns whole coordinates as the printed form spells them."""
    numbers = list(map(int, words))
    if any(abs(number) > FARTHEST for number in numbers):
        raise Refusal(f'a coordinate is over {FARTHEST:,} in absolute value: use a smaller printed=')
    return ' '.join(map(str, numbers))


def weight_of(word: str) -> int:
    """Returns the weight of a row."""
    weight = float(word)
    if not (1 <= weight <= HEAVIEST and weight == int(weight)):
        raise Refusal(f'weight {word[:40]} is not a whole number from 1 to {HEAVIEST}')
    return int(weight)


def plain_line(line: str) -> str:
    """Returns a row of the wide form with one sight as a row of the plain form."""
    x, y, z, _, _, scanner = line.split()
    return f'{x} {y} {z} {scanner}\n'


class PrintedWriter(Writer):
    """A scan in the printed form, of rows with whole coordinates, into a file of `whole_file`. The header depends on all rows, so these wait in a
    temporary file until the end."""

    def __init__(self, file: Any, properties: list[Property], point: Sequence[int], scanner: int, has_lists: bool) -> None:
        super().__init__(file, properties, '')
        self.point, self.scanner, self.has_lists = point, scanner, has_lists
        names = [p.name for p in self.properties]
        self.weight = names.index('weight') if 'weight' in names else None
        self.waiting = tempfile.TemporaryFile('w+', encoding='ascii')
        self.is_plain, self.last_scanner = True, -1

    def begin(self, has_scanners: bool) -> None:
        """Writes nothing yet."""

    def row(self, words: Sequence[str]) -> None:
        indices = list(map(int, words[self.scanner].split()))
        indices = indices[1:] if self.has_lists else indices
        weight = weight_of(words[self.weight]) if self.weight is not None and indices else 1
        self.is_plain = self.is_plain and weight == 1 and len(indices) == 1
        self.last_scanner = max([self.last_scanner, *indices])
        place = place_text([words[k] for k in self.point])
        self.waiting.write(' '.join(map(str, [place, weight, len(indices), *indices])) + '\n')
        self.count += 1

    def rows(self, columns: Sequence[Sequence[str]]) -> None:
        """Writes rows whose words are given by column."""
        for words in zip(*columns):
            self.row(words)

    def head(self, scanner_count: int) -> str:
        lines = ['ply', 'format ascii 1.0', f'element vertex {self.count}', *WHOLE_PLACE, *(ONE_SIGHT if self.is_plain else ANY_SIGHTS),
                 f'element scanner {scanner_count}', *WHOLE_PLACE, 'end_header', '']
        return '\n'.join(lines)

    def finish(self, positions: Sequence[Sequence[str]]) -> None:
        """Writes the header, the rows and the scanners' rows."""
        if self.last_scanner >= len(positions):
            raise Refusal(f'scanner {self.last_scanner} has no position')
        self.file.write(self.head(len(positions)))
        self.waiting.seek(0)
        for line in self.waiting:
            self.file.write(plain_line(line) if self.is_plain else line)
        self.waiting.close()
        for position in positions:
            self.file.write(place_text(position) + '\n')
