"""E57 files that e57_file.py does not read, by the library pye57 where it is installed: spherical coordinates, and codecs.

Names: open_e57 · LibraryReader.
"""
from __future__ import annotations

from importlib.util import find_spec
from typing import Any, Iterator

import numpy as np

from recon.toolbox.blocks import Block, Numbers, constant
from recon.toolbox.e57_file import MORE, E57Reader, NotRead
from recon.toolbox.ply_text import SCANNER_LIMIT, Element, Property, Refusal
from recon.toolbox.point_files import FileReader
from recon.toolbox.text_columns import NotPlain

AXES = ('cartesianX', 'cartesianY', 'cartesianZ')
ROWS_AT_ONCE = 4096


def open_e57(path: str) -> FileReader:
    """Returns a reader of an E57: ours, or where that does not read it the library's."""
    try:
        return E57Reader(path)
    except NotRead as refusal:
        if find_spec('pye57') is None:
            raise Refusal(f'{refusal}: install pye57 to read it') from None
        return LibraryReader(path)


def refusal_of(error: Exception) -> Refusal:
    """Returns the line of what the library says."""
    return Refusal(f'pye57 cannot read the E57: {" ".join(str(error).split())[:200]}')


class LibraryReader(FileReader):
    """An E57 as pye57 reads it. Points that it leaves out as invalid are rows of `nan`."""

    def begin(self) -> None:
        import pye57
        try:
            self.library = pye57.E57(self.path)
            headers = [self.library.get_header(number) for number in range(self.library.scan_count)]
            self.counts = [int(header.point_count) for header in headers]
            self.more = [name for name in MORE if headers and all(name in header.point_fields for header in headers)]
            self.places = [[repr(float(x)) for x in header.translation] if header.has_pose() else ['0.0'] * 3 for header in headers]
        except Exception as error:
            raise refusal_of(error) from None
        if len(headers) > SCANNER_LIMIT:
            raise Refusal(f'more than {SCANNER_LIMIT} stations')
        properties = [Property(axis, 'double') for axis in 'xyz'] + [Property(*MORE[name]) for name in self.more]
        self.elements = [Element('vertex', sum(self.counts), properties + [Property('scanner', 'int')]),
                         Element('scanner', len(headers), [Property(axis, 'double') for axis in 'xyz'])]

    def position(self) -> list[str]:
        """Returns where the first station stood."""
        return self.places[0]

    def rows(self, element: Element) -> Iterator[list[str]]:
        if element.name == 'scanner':
            yield from self.places
            return
        for number, count in enumerate(self.counts):
            columns = self.station_columns(number)
            size = len(columns[0])
            for start in range(0, size, ROWS_AT_ONCE):
                for values in zip(*(column[start:start + ROWS_AT_ONCE].tolist() for column in columns)):
                    yield [*map(repr, values), str(number)]
            yield from (['nan'] * 3 + ['0'] * len(self.more) + [str(number)] for _ in range(size, count))

    def columns(self, element: Element) -> Iterator[Block]:
        """Yields the points in blocks, a station at a time."""
        for number, count in enumerate(self.counts):
            columns = self.station_columns(number)
            if len(columns[0]) > count:
                raise NotPlain
            lost = count - len(columns[0])
            yield Block([*map(Numbers, columns), constant(number, len(columns[0]))], len(columns[0]))
            if lost:
                none = [Numbers(np.full(lost, np.nan)) for _ in range(3)]
                yield Block([*none, *(constant(0, lost) for _ in self.more), constant(number, lost)], lost)

    def station_columns(self, number: int) -> list[np.ndarray[Any, Any]]:
        """Returns the columns of a station, its coordinates where they are by its pose."""
        try:
            data = self.library.read_scan(number, intensity='intensity' in self.more, ignore_missing_fields=True,
                                          colors=any(name.startswith('color') for name in self.more))
            columns = [np.asarray(data[name], float) for name in AXES]
            columns += [np.asarray(data[name], float if MORE[name][1] == 'double' else np.int64) for name in self.more]
        except Exception as error:
            raise refusal_of(error) from None
        if len({len(column) for column in columns}) != 1:
            raise Refusal(f'pye57 read columns of different lengths for station {number}')
        return columns
