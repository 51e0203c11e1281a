"""Points of COLMAP's models, dense and sparse: each with the positions of all pictures that it was found in.

The order of the pictures in images.bin or images.txt numbers them in fused.ply.vis; where both stand there COLMAP reads
images.bin, and their orders may differ. The points of points3D.bin and points3D.txt name pictures by their own numbers.

Names: read_pictures (numbers and positions) · Colmap (fused.ply) · Sparse (points3D) · sparse_model (whether a name is one).
"""
from __future__ import annotations

import os
import struct
from itertools import islice
from math import isfinite
from typing import Any, BinaryIO, Callable, Iterator, List, Sequence, Tuple

import numpy as np

from recon.toolbox.blocks import Block, Column, Lists, Numbers, TextColumn, Wholes
from recon.toolbox.ply_text import IS_NUMBER, ROW_LIMIT, SCANNER_LIMIT, Property, Reader, Refusal, count_in, decimals
from recon.toolbox.read_ahead import all_rows
from recon.toolbox.row_columns import columns_of, listed_parts
from recon.toolbox.sieve import Mover, Passage
from recon.toolbox.sources import Source, refuse_others
from recon.toolbox.text_columns import FieldRows, LineParts, NotPlain, TextRows
from recon.toolbox.text_lines import LONGEST
from recon.toolbox.tool import number_of, yes
from recon.toolbox.vectors import turn_of


Picture = Tuple[int, List[float]]
# numbers of fused.ply.vis that are read at a time; a list of pictures has no more
LISTS = 1 << 17


def place_of(turn: Sequence[float], shift: Sequence[float]) -> list[float]:
    """Returns where a camera stands, of its turn (a quaternion, w first) and its shift, which bring the world into its frame."""
    if not all(map(isfinite, (*turn, *shift))):
        raise Refusal('the pose of an image is not finite')
    rows = turn_of(*turn)
    if rows is None:
        raise Refusal('the rotation of an image is 0 0 0 0')
    place = [-sum(rows[k][axis] * shift[k] for k in range(3)) for axis in range(3)]
    if not all(map(isfinite, place)):
        raise Refusal('the position of an image is not finite')
    return place


def text_pictures(file: BinaryIO) -> Iterator[Picture]:
    """Yields the pictures of a text: two lines each; the second, its points, may be empty."""
    is_picture = True
    for number, line in enumerate(file, 1):
        if line.startswith(b'#'):
            continue
        if is_picture:
            words = line.decode('latin-1').split(None, 9)
            if not words:
                continue
            identity = count_in(words[0], ROW_LIMIT)
            if len(words) < 10 or identity is None or not all(map(IS_NUMBER, words[1:8])):
                raise Refusal(f'line {number} of the images is not ID QW QX QY QZ TX TY TZ CAMERA NAME')
            values = list(map(float, words[1:8]))
            yield identity, place_of(values[:4], values[4:])
        is_picture = not is_picture


def binary_pictures(file: BinaryIO) -> Iterator[Picture]:
    """Yields the pictures of a binary file."""
    row, length = 0, os.fstat(file.fileno()).st_size
    try:
        for row in range(struct.unpack('<Q', file.read(8))[0]):
            identity, *values, _ = struct.unpack('<I7dI', file.read(64))
            yield identity, place_of(values[:4], values[4:])
            name = b''
            while not name.endswith(b'\0'):
                byte = file.read(1)
                if not byte or len(name) > LONGEST:
                    raise Refusal(f'truncated: the file of images ends in the name of image {row}')
                name += byte
            count, = struct.unpack('<Q', file.read(8))
            if file.tell() + 24 * count > length:
                raise Refusal(f'truncated: the file of images ends in the points of image {row}')
            file.seek(24 * count, os.SEEK_CUR)
    except struct.error:
        raise Refusal(f'truncated: the file of images ends in image {row}') from None


def read_pictures(path: str) -> list[Picture]:
    """Returns the pictures of a file, in its order."""
    with open(path, 'rb') as file:
        found = list(islice(binary_pictures(file) if path.endswith('.bin') else text_pictures(file), SCANNER_LIMIT + 1))
    if not found or len(found) > SCANNER_LIMIT:
        raise Refusal(f'{path} has no images' if not found else f'{path} has more than {SCANNER_LIMIT} images')
    return found


def seen_by(file: BinaryIO, count: int, limit: int) -> Iterator[tuple[int, ...]]:
    """For each point the numbers of its pictures."""
    head = file.read(8)
    if len(head) < 8 or struct.unpack('<Q', head)[0] != count:
        raise Refusal(f'fused.ply.vis does not belong to the {count} points of fused.ply')
    for row in range(count):
        head = file.read(4)
        size = struct.unpack('<I', head)[0] if len(head) == 4 else 0
        data = file.read(4 * size) if size <= SCANNER_LIMIT else b''
        if len(head) < 4 or len(data) < 4 * size:
            raise Refusal(f'truncated: fused.ply.vis ends in point {row} of {count}')
        numbers = struct.unpack(f'<{size}I', data)
        if any(number >= limit for number in numbers):
            raise Refusal(f'point {row}: image index {max(numbers)} is out of range: images= has {limit} images')
        yield numbers


class ListReader:
    """The lists of fused.ply.vis after its count, some thousand at a time."""

    def __init__(self, file: BinaryIO, count: int, limit: int) -> None:
        head = file.read(8)
        if len(head) < 8 or struct.unpack('<Q', head)[0] != count:
            raise NotPlain
        self.file, self.limit, self.tail = file, limit, np.zeros(0, np.uint32)

    def next_lists(self, count: int) -> Lists:
        """Returns the next lists, as many as are given."""
        sizes, numbers = [np.zeros(0, np.int64)], [np.zeros(0, np.int32)]
        while count:
            data = b'' if len(self.tail) > LISTS else self.file.read(4 * LISTS)
            words = np.concatenate([self.tail, np.frombuffer(data, '<u4', len(data) // 4)]).astype(np.uint32, copy=False)
            starts, end = list_starts(words, count)
            if not starts:
                raise NotPlain
            is_number = np.ones(end, bool)
            is_number[starts] = False
            sizes.append(words[starts].astype(np.int64))
            found = words[:end][is_number]
            if int(found.max(initial=0)) >= self.limit:
                raise NotPlain
            numbers.append(found.view(np.int32))
            self.tail, count = words[end:], count - len(starts)
        return Lists(np.concatenate(sizes), np.concatenate(numbers))


def list_starts(words: np.ndarray, most: int) -> tuple[list[int], int]:
    """Returns where the first whole lists begin, at most `most`, and where the last one ends. Each is its length, and then its numbers."""
    starts: list[int] = []
    at, end, sizes = 0, len(words), words.data
    for _ in range(min(most, end)):
        after = at + 1 + sizes[at] if at < end else end + 1
        if after > end:
            break
        starts.append(at)
        at = after
    return starts, at


class Colmap(Source):
    """fused.ply of `colmap stereo_fusion`, with fused.ply.vis beside it. All properties are kept."""
    has_lists = True

    def __init__(self, path: str, options: Any) -> None:
        refuse_others(options, ('images', 'open_end'), "COLMAP's points")
        self.places, self.sights = [place for _, place in read_pictures(options.images)], 0
        self.reader, self.path = Reader(path, yes(options.open_end, 'open_end')), path
        vertex = self.reader.element('vertex')
        if vertex is None or self.reader.elements != [vertex] or vertex.has_lists():
            raise Refusal(f'{path} is not a fused.ply')
        self.vertex = vertex
        super().__init__(self.vertex.properties + [Property('scanner', 'ushort', 'ushort')], path)
        self.point, self.scanner, self.count = self.vertex.point_columns(), len(self.vertex.properties), self.vertex.count
        self.positions = [list(map(repr, place)) for place in self.places]

    def read(self) -> str:
        return f'{super().read()} and {number_of(len(self.places), "image")}'

    def remark(self) -> str:
        return f'; {number_of(self.sights, "sight")}'

    def blocks(self) -> Iterator[Block]:
        try:
            with open(self.path + '.vis', 'rb') as vis:
                lists = ListReader(vis, self.count, len(self.places))
                for block in columns_of(self.reader, self.vertex):
                    block.columns.append(lists.next_lists(block.count))
                    yield block
            self.reader.finish()
        finally:
            self.reader.close()

    def kept_blocks(self, mover: Mover) -> Iterator[tuple[Block, np.ndarray]]:
        for block, rows in super().kept_blocks(mover):
            self.sights += sights_of(block, rows)
            yield block, rows

    def close(self) -> None:
        self.reader.close()

    def run(self, receiver: Passage) -> None:
        x, y, z = self.point
        row = 0

        def place() -> str:
            return f'point {row}'

        try:
            with open(self.path + '.vis', 'rb') as vis:
                seen = seen_by(vis, self.count, len(self.places))
                for row, (words, numbers) in enumerate(zip(self.reader.rows(self.vertex), seen)):
                    if not decimals(words[x], words[y], words[z], place):
                        self.counts['not finite'] += 1
                    elif receiver.takes(words):
                        receiver.put(words + [' '.join(map(str, [len(numbers), *numbers]))])
                        self.sights += len(numbers)
            self.reader.finish()
        finally:
            self.reader.close()


def sights_of(block: Block, rows: np.ndarray) -> int:
    """Returns how many lines of sight these rows of a block have, whose last column are lists."""
    lists = block.columns[-1]
    return int(lists.counts[rows].sum()) if isinstance(lists, Lists) else 0


MODEL = ('points3D.bin', 'points3D.txt')
TRACK_LIMIT = 1 << 20
# a point of points3D.bin before its track, packed
TRACK = np.dtype([('picture', '<u4'), ('point', '<u4')])
POINT = np.dtype([('id', '<u8'), ('place', '<f8', 3), ('color', 'u1', 3), ('error', '<f8'), ('count', '<u8')])
Track = Tuple[List[str], List[int]]


def sparse_model(name: str) -> str | None:
    """Returns the points of a sparse model that a name is, or that stand in the folder that it is; else None."""
    if os.path.isdir(name):
        return next((path for path in (os.path.join(name, model) for model in MODEL) if os.path.exists(path)), None)
    return name if os.path.basename(name).endswith(MODEL) else None


def binary_tracks(file: BinaryIO) -> Iterator[Track]:
    """Yields the points of points3D.bin: x, y, z, red, green and blue as words, and the numbers of their pictures."""
    row, length = 0, os.fstat(file.fileno()).st_size
    try:
        for row in range(struct.unpack('<Q', file.read(8))[0]):
            _, x, y, z, red, green, blue, _, count = struct.unpack('<Q3d3BdQ', file.read(51))
            if count > TRACK_LIMIT or file.tell() + 8 * count > length:
                raise Refusal(f'truncated: the file of points ends in the track of point {row}')
            yield list(map(repr, (x, y, z, red, green, blue))), list(struct.unpack(f'<{2 * count}I', file.read(8 * count))[::2])
    except struct.error:
        raise Refusal(f'truncated: the file of points ends in point {row}') from None
    if file.read(1):
        raise Refusal('unexpected data after the last point')


def track_parts(file: BinaryIO) -> Iterator[tuple[np.ndarray, np.ndarray]]:
    """Yields the points of points3D.bin in blocks (n,), and the numbers of the pictures of all their tracks."""
    head = file.read(8)
    count = struct.unpack('<Q', head)[0] if len(head) == 8 else 1
    for points, _, track in listed_parts(file, count, POINT, struct.Struct('<Q'), TRACK, TRACK_LIMIT):
        yield points, track['picture']
    if file.read(1):
        raise NotPlain


def track_rows(part: bytes) -> TextRows:
    """The rows of some lines of points3D.txt: eight fields and two for each picture of the track."""
    if b'#' in part:
        raise NotPlain
    rows = TextRows(part, 8 + 2 * 3, is_ragged=True, longest=len(part))
    sizes = rows.line_sizes()
    if len(sizes) and (int(sizes.min()) < 8 or (sizes % 2).any()):
        raise NotPlain
    return rows


def rows_of_tracks(file: BinaryIO) -> Iterator[FieldRows]:
    """Yields the lines of points3D.txt after its remarks."""
    offset, line = 0, file.readline()
    while line.startswith(b'#') or line.isspace():
        offset, line = file.tell(), file.readline()
    file.seek(offset)
    return all_rows(LineParts(file, True), track_rows)


def text_tracks(file: BinaryIO) -> Iterator[Track]:
    """Yields the points of points3D.txt: ID X Y Z R G B ERROR, and a picture and the number of its point for each of the track."""
    for number, line in enumerate(file, 1):
        words = line.decode('latin-1').split()
        if not words or words[0].startswith('#'):
            continue
        pictures = [count_in(word, ROW_LIMIT) for word in words[8::2]]
        colors = [count_in(word, 255) for word in words[4:7]]
        track = [picture for picture in pictures if picture is not None]
        if len(words) < 8 or len(words) % 2 or None in colors or len(track) < len(pictures):
            raise Refusal(f'line {number} of the points is not ID X Y Z R G B ERROR and its track')
        yield words[1:7], track


class Sparse(Source):
    """Points of a sparse model of COLMAP, with their colors: each was seen by all pictures of its track."""
    has_lists = True

    def __init__(self, path: str, options: Any) -> None:
        refuse_others(options, ('images',), "COLMAP's sparse points")
        images = options.images or os.path.join(os.path.dirname(path), 'images' + path[-4:])
        pictures = read_pictures(images)
        self.path, self.sights, self.images = path, 0, images
        self.number = {identity: row for row, (identity, _) in enumerate(pictures)}
        columns = [Property(axis, 'double') for axis in 'xyz'] + [Property(color, 'uchar') for color in ('red', 'green', 'blue')]
        super().__init__(columns + [Property('scanner', 'int', 'uint')], path)
        self.scanner, self.counts['seen by no image'] = 6, 0
        self.positions = [list(map(repr, place)) for _, place in pictures]

    def read(self) -> str:
        return f'{super().read()} and {number_of(len(self.positions), "image")}'

    def remark(self) -> str:
        return f'; {number_of(self.sights, "sight")}'

    def seen_by(self, track: list[int]) -> list[int]:
        """Returns the rows of the pictures of a track, each once."""
        try:
            return sorted({self.number[identity] for identity in track})
        except KeyError as missing:
            raise Refusal(f'point {self.count - 1} is seen by image {missing}, which is not in {self.images}') from None

    def blocks(self) -> Iterator[Block]:
        with open(self.path, 'rb') as file:
            for columns, lists in self.parts_of(file):
                is_finite = np.logical_and.reduce([np.isfinite(column.floats()) for column in columns[:3]])
                self.count += len(lists.counts)
                self.counts['seen by no image'] += int(np.count_nonzero((lists.counts == 0) & is_finite))
                yield Block([*columns, lists], len(lists.counts), lists.counts == 0)

    def parts_of(self, file: BinaryIO) -> Iterator[tuple[list[Column], Lists]]:
        """Yields coordinates and colors of points in blocks, and who saw them."""
        if self.path.endswith('.bin'):
            for points, pictures in track_parts(file):
                yield [*map(Numbers, points['place'].T), *map(Numbers, points['color'].T)], self.lists_of(points['count'].astype(np.int64), pictures)
            return
        for rows in rows_of_tracks(file):
            counts, track = rows.lists(8)
            colors = [Wholes(rows, k) for k in (4, 5, 6)]
            if any(int(color.floats().max(initial=0)) > 255 for color in colors):
                raise NotPlain
            yield [*(TextColumn(rows, k) for k in (1, 2, 3)), *colors], self.lists_of(counts // 2, track[::2])

    def kept_blocks(self, mover: Mover) -> Iterator[tuple[Block, np.ndarray]]:
        for block, rows in super().kept_blocks(mover):
            self.sights += sights_of(block, rows)
            yield block, rows

    def lists_of(self, counts: np.ndarray, pictures: np.ndarray) -> Lists:
        """Returns the rows of the pictures of tracks, each once."""
        known = np.array(sorted(self.number), np.int64)
        rows = np.array([self.number[identity] for identity in known.tolist()], np.int64)
        at = np.minimum(np.searchsorted(known, pictures), len(known) - 1)
        if (known[at] != pictures).any():
            raise NotPlain
        pairs = np.repeat(np.arange(len(counts)), counts) * SCANNER_LIMIT + rows[at]
        if not (pairs[1:] > pairs[:-1]).all():
            pairs = np.unique(pairs)
        return Lists(np.bincount(pairs // SCANNER_LIMIT, minlength=len(counts)), pairs % SCANNER_LIMIT)

    def run(self, receiver: Passage) -> None:
        def place() -> str:
            return f'point {self.count - 1}'

        with open(self.path, 'rb') as file:
            tracks: Callable[[BinaryIO], Iterator[Track]] = binary_tracks if self.path.endswith('.bin') else text_tracks
            for words, track in tracks(file):
                self.count += 1
                seen = self.seen_by(track)
                if not decimals(words[0], words[1], words[2], place):
                    self.counts['not finite'] += 1
                elif not seen:
                    self.counts['seen by no image'] += 1
                elif receiver.takes(words):
                    receiver.put(words + [' '.join(map(str, [len(seen), *seen]))])
                    self.sights += len(seen)
