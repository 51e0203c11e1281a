"""Converts point clouds to the scan format of `recon`: a text PLY with points and scanner positions.

  recon-scan FILE OUT [index=NAME] [positions=TABLE]        PLY, PCD, LAS or E57
  recon-scan FILE OUT [position=header|matrix]              Leica's PTX
  recon-scan FILE=X,Y,Z [FILE=X,Y,Z ..] OUT                 one file for each station, with its scanner position
  recon-scan FILE OUT scanner=X,Y,Z                         one file of any kind that was seen from one position
  recon-scan OUT table=TABLE                                the same, by a text file with lines `X Y Z FILE`
  recon-scan FILE OUT normals=yes [far=D]                   points with normals, without scanners
  recon-scan FUSED OUT images=IMAGES                        COLMAP's fused.ply with fused.ply.vis next to it, and images.bin or .txt
  recon-scan MODEL OUT [images=IMAGES]                      COLMAP's sparse points: points3D.bin or .txt, or the folder that has it
  recon-scan FILE OUT flight=TABLE                          airborne LAS, with a table of lines TIME X Y Z
  recon-scan FILE .. OUT above=yes                          airborne scans without positions

The first bytes of a file decide its format. A FILE with a position may also be PTS or a list of numbers, X, Y and Z first in each line.
Options with all formats:

  from=X,Y,Z to=X,Y,Z   keep only points in this box, its boundary included; with outside=yes only points outside
  side=S                keep the first point in each cube of this side. On each axis points are at most 1,048,575 sides from the
                        first point
  origin=X,Y,Z          subtract this offset from all points and scanners. Other options are in the original coordinates
  divide=N              divide all coordinates by N, a power of ten (1000 for micrometers), after subtracting the origin
  unit=U                multiply all coordinates by U after that, and round them to integers, as `recon` does with unit=U
  printed=U             the same in the printed form, which docs/verification/audit.md defines: integers alone, no other
                        properties and no comments
  surround=D            add eight points around a scan made from inside, such as a room, so that its walls become solid: the
                        corners of a box at distance D from the points, each seen by a scanner at distance D from the box
  open_end=yes          accept a missing final newline of a text file (default: treated as truncated)

Options for a PLY, PCD, LAS or E57 without a position; all its properties are kept:

  index=NAME            the property with the scanner index of each point, from 0. It is written as `scanner`, and 3.000000 as 3;
                        another property `scanner` is kept as `scanner_before` (default: `scanner`, else `scalar_scanner`)
  positions=TABLE       a text file of lines X Y Z, one for each scanner in the order of its index, for a file without an element
                        `scanner`. With one line and no index property, that scanner saw all points

If points of a PLY have lists of scanners, all properties except other lists are kept. Of stations with positions, coordinates are kept, and
colors, intensity and normals if all files have them. In a text a heading names them (r, g, b, red, .., intensity, nx, ny, nz); without one, three
integers up to 255 are a color, and three numbers with length 1 a normal. PTS and PTX have intensity in column 4, and then colors. A PCD states its scanner by VIEWPOINT, or by vp_x, vp_y and vp_z of each point, and an E57 of one station by its pose: then FILE is enough.
FILE in a table is relative to the table's folder, and `#` starts a comment. The position in a station's header of a PTX and the last row
of its matrix have to agree within 0.001, or one of them has to be 0 0 0; otherwise pass position=.

  normals=yes           nx, ny and nz (in a PCD normal_x and so on), or the fourth to sixth number of a list, point outward: each
                        point gets its own scanner at a distance along its normal
  far=D                 that distance (default: the spacing, which is the median distance of a point to its six nearest). Over
                        65,536 points share positions, if they are near each other and have similar normals

  flight=TABLE          scanner positions by time, in the time scale of the points' gpstime, ascending. Positions between
                        two lines are interpolated. Points before and after the flight are left out
  above=yes             one synthesised position for all points: three widths above their middle. Roofs and ground are
                        correct, walls that no pulse met are synthesised

LAZ is read if the Python packages laspy and lazrs, or the program pdal, are installed, and E57 with spherical coordinates if pye57 is.

Normals are not checked. The cost of the mesh shows the fraction of wrong ones: `(cost - smooth * faces) / vote / sights`. If it is 0.1 or
more, check the normals.

Left out: points with a coordinate or a scanner that is nan or infinite, empty returns of a PTX, points without a normal, and all
elements of a PLY except `vertex` and `scanner`. Property names that are not printable ASCII, occur twice or have over 900 letters
are changed.
"""
from __future__ import annotations

from dataclasses import dataclass
from math import isfinite
from typing import Any, Callable, Dict, Optional, Sequence, TextIO

import numpy as np

from recon.toolbox.blocks import Block
from recon.toolbox.output_files import whole_file
from recon.toolbox.ply_text import SCANNER_LIMIT, Refusal, Writer
from recon.toolbox.printed_form import PrintedWriter
from recon.toolbox.scan_source import source_of
from recon.toolbox.sieve import SIEVING, Passage, Sieve
from recon.toolbox.sources import READING, Source
from recon.toolbox.text_columns import NotPlain
from recon.toolbox.tool import NotUnderstood, Report, left_out, number_of, run

KEYS = READING + SIEVING + ('origin', 'divide', 'unit', 'printed')
FEW, MANY = 20, 1000
ROOM = 0.8


def add_corners(source: Source, sieve: Sieve, writer: Writer, positions: list[Sequence[str]]) -> None:
    """Writes the eight points, and appends their scanners."""
    if not source.has_scanners or source.scanner is None:
        raise Refusal('no scanner positions in the file: pass positions=')
    if writer.count and not all(map(isfinite, sieve.box.low + sieve.box.high)):
        raise Refusal('a coordinate is out of range')
    if writer.count == 0 or len(positions) + 8 > SCANNER_LIMIT:
        raise Refusal('no points' if writer.count == 0 else f'more than {SCANNER_LIMIT - 8} scanners')
    for number in range(8):
        words = ['0'] * len(writer.properties)
        for column, word in zip(source.point, sieve.moved(sieve.box.corner(number, sieve.off))):
            words[column] = word
        words[source.scanner] = f'1 {len(positions)}' if source.has_lists else str(len(positions))
        writer.row(words)
        positions.append(sieve.moved(sieve.box.corner(number, 2 * sieve.off)))


class Sample:
    """Some of the points that were written, evenly spread: every `step`-th one, at most 2 * `MOST`. Each is x, y, z and the number of its scanner, that of a
    list the last one."""
    MOST = 20000

    def __init__(self, source: Source, write: Callable[[list[str]], None]) -> None:
        self.source, self.write, self.step, self.count = source, write, 1, 0
        self.rows = np.zeros((0, 4))

    def row(self, words: list[str]) -> None:
        if self.count % self.step == 0 and self.source.scanner is not None:
            point = [float(words[k]) for k in self.source.point]
            self.add(np.array([[*point, float(words[self.source.scanner].split()[-1])]]))
        self.count += 1
        self.write(words)

    def add(self, rows: np.ndarray) -> None:
        """Adds rows of the sample."""
        self.rows = np.r_[self.rows, rows]
        while len(self.rows) >= 2 * self.MOST:
            self.rows, self.step = self.rows[::2], 2 * self.step

    def block(self, block: Block, rows: np.ndarray) -> None:
        """Takes these rows of a block."""
        at = rows[-self.count % self.step::self.step]
        self.count += len(rows)
        if self.source.scanner is not None:
            self.add(np.stack([block.columns[k].floats()[at] for k in (*self.source.point, self.source.scanner)], axis=1))

    def surrounded(self, positions: Sequence[Sequence[str]]) -> float:
        """In which part of the directions around the scanner with the most points there are points."""
        # scipy takes a while to load, and is not needed otherwise
        from recon.clouds import surrounding
        seen_by = self.rows[:, 3].astype(np.int64)
        if not len(seen_by):
            return 0.0
        busiest = int(np.bincount(seen_by).argmax()) if int(seen_by.max()) < SCANNER_LIMIT else int(seen_by[0])
        if busiest >= len(positions):
            return 0.0
        return surrounding(self.rows[seen_by == busiest, :3], np.array(list(map(float, positions[busiest]))))


def remark_of(sieve: Sieve, part: float) -> str:
    """What is to be said of walls that become thin, and of scans that were not made from inside."""
    said = ''
    if sieve.off and sieve.box.count >= FEW and sieve.off < sieve.box.spacing():
        said += (f'; surround={sieve.off:.4g} is less than the spacing of the points, about {sieve.box.spacing():.3g}: walls become only '
                 'that thick')
    if sieve.off and sieve.box.count >= MANY and part <= ROOM:
        said += (f'; surround= is for scans from inside, and only {part:.0%} of the directions around a scanner have points: the mesh may '
                 'have fins toward the eight added points')
    return said


@dataclass
class ScanReport(Report):
    """A scan that was written: how many points and scanners it has (None where the files name none), what was left out and how often,
    what was read, in words, and remarks."""
    out: str
    read: str
    points: int
    scanners: Optional[int]
    left_out: Dict[str, int]
    remarks: str

    @property
    def is_empty(self) -> bool:
        return not self.points

    def __str__(self) -> str:
        wrote = number_of(self.points, 'point') + ('' if self.scanners is None else f' and {number_of(self.scanners, "scanner")}')
        line = f'{self.read}; left out {left_out(self.left_out)}; wrote {wrote} to {self.out}{self.remarks}'
        return line + ': no point is left' if self.is_empty else line


def writer_of(source: Source, options: Any, file: TextIO) -> Writer:
    """Returns what writes the points of a source in the form that the options ask for."""
    if not options.printed:
        return Writer(file, source.columns, 'scan')
    if not source.has_scanners or source.scanner is None:
        raise Refusal('no scanner positions in the file: pass positions=')
    return PrintedWriter(file, source.columns, source.point, source.scanner, source.has_lists)


class Conversion:
    """A scan on its way from files into a text PLY."""

    def __init__(self, names: Sequence[str], options: Any, file: TextIO) -> None:
        self.sieve, self.source = Sieve(options), source_of(names, options)
        self.writer, self.part = writer_of(self.source, options, file), 0.0
        self.writer.begin(self.source.has_scanners)
        self.sample = Sample(self.source, self.writer.row)

    def run(self) -> None:
        """Passes on the points row by row."""
        self.source.run(Passage(self.source, self.sieve, self.sample.row if self.sieve.off else self.writer.row))

    def run_blocks(self) -> None:
        """Passes on the points in blocks. Raises `NotPlain`, also after some, where only row by row is read."""
        try:
            for block, rows in self.source.kept_blocks(self.sieve):
                self.write(block, rows)
        finally:
            self.source.close()

    def write(self, block: Block, rows: np.ndarray) -> None:
        """Writes these rows of a block."""
        if self.sieve.off:
            self.sample.block(block, rows)
        if not len(rows):
            return
        source, some = self.source, None if len(rows) == block.count else rows
        point = self.sieve.moved_words([block.columns[k] for k in source.point], some)
        words = [[] if k in source.point else column.words(some) for k, column in enumerate(block.columns)]
        for k, column in zip(source.point, point):
            words[k] = column
        self.writer.rows(words)

    def finish(self) -> list[Sequence[str]]:
        """Writes the scanners and the eight points around, and returns where the scanners stood."""
        positions: list[Sequence[str]] = [self.sieve.moved(position) for position in self.source.positions]
        if self.sieve.off:
            self.part = self.sample.surrounded(positions)
            add_corners(self.source, self.sieve, self.writer, positions)
        self.writer.finish(positions)
        return positions


def work(names: Sequence[str], options: Any) -> ScanReport:
    """Writes the scan of some files, the last name being its own."""
    if not names or options.printed and options.unit:
        raise NotUnderstood
    options.unit = options.printed or options.unit
    with whole_file(names[-1]) as file:
        conversion = Conversion(names[:-1], options, file)
        try:
            conversion.run_blocks()
        except (NotPlain, Refusal):
            # row by row, which finds the places of errors
            file.seek(0)
            file.truncate()
            conversion = Conversion(names[:-1], options, file)
            conversion.run()
        positions = conversion.finish()
    source, sieve, writer = conversion.source, conversion.sieve, conversion.writer
    return ScanReport(names[-1], source.read(), writer.count, len(positions) if source.has_scanners else None,
                      {**source.counts, **sieve.counts}, source.remark() + remark_of(sieve, conversion.part))


def main() -> None:
    run(work, __doc__, None, KEYS)


if __name__ == '__main__':
    main()
