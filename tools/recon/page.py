"""A page to look at surfaces: one HTML file with the meshes in it, which a browser shows without a network.

The page draws by WebGL 2 (`viewer/`), and unpacks the meshes by `DecompressionStream`: Chrome 80, Firefox 113, Safari 16.4 or
later. A mesh takes some 4.4 bytes a face, and with colors 5.3: its vertices are rounded to 65,536 steps along the longest side of
all meshes and sorted along a curve through cubes, its faces are fans around their least vertices, colors have 64 steps a channel;
all are written as differences, deflated, in base64. A mesh of over 500,000 faces comes with a preview, which is shown first.

Names: PageMesh · write_page · page_text (the page as text) · preview (a light mesh in place of a large one).
"""
from __future__ import annotations

import base64
import hashlib
import html
import json
import os
import re
import zlib
from dataclasses import dataclass
from string import Template
from typing import Any, Sequence

import numpy as np

from recon.toolbox.orders import ascending, curve_order, turned
from recon.toolbox.output_files import whole_bytes

VIEWER = os.path.join(os.path.dirname(os.path.abspath(__file__)), 'viewer')
SCRIPTS = ('decode.js', 'camera.js', 'scene.js', 'measure.js', 'controls.js')
STEPS = 65535
CURVE_BITS = 10
FAN = 64
COLOR_SHIFT = 2
SPOTS = 500
# a mesh of more faces has a preview, of at most that many faces
MANY, LIGHT = 500_000, 200_000
SIGHTS = 2000


@dataclass
class PageMesh:
    """A mesh of the page: its name beside the slider, vertices (n, 3), faces (m, 3) as rows of vertices, and, if known, colors
    (n, 3) as uint8 and whether each face spans space that no scanner saw (m,)."""
    name: str
    vertices: np.ndarray
    faces: np.ndarray
    colors: np.ndarray | None = None
    unseen: np.ndarray | None = None

    def __post_init__(self) -> None:
        self.vertices = rows_of(self.vertices, (3,), float, f'vertices of {self.name}')
        self.faces = rows_of(self.faces, (3,), np.int64, f'faces of {self.name}')
        if self.faces.size and not 0 <= self.faces.min() <= self.faces.max() < len(self.vertices):
            raise ValueError(f'a face of {self.name} has a vertex index that is out of range')
        if self.colors is not None:
            self.colors = rows_of(self.colors, (3,), np.uint8, f'colors of {self.name}', len(self.vertices))
        if self.unseen is not None:
            self.unseen = rows_of(self.unseen, (), bool, f'unseen faces of {self.name}', len(self.faces))


def rows_of(values: Any, shape: tuple[int, ...], kind: Any, what: str, count: int | None = None) -> np.ndarray:
    """Returns the values as an array of rows of this shape. Raises ValueError if they are none, or not finite."""
    rows = np.asarray(values)
    if rows.size == 0 and count in (None, 0):
        rows = rows.reshape((0, *shape))
    if rows.shape[1:] != shape or rows.ndim != len(shape) + 1 or count is not None and len(rows) != count:
        wanted = ('n' if count is None else count, *shape)
        raise ValueError(f'{what} have the shape {rows.shape}, not ({", ".join(map(str, wanted))})')
    if rows.dtype.kind == 'f' and not np.isfinite(rows).all():
        raise ValueError(f'{what} are not finite')
    return rows.astype(kind)


@dataclass
class Frame:
    """The box of all meshes: its least corner, its size along each axis, and its longest side, which the page takes as 1."""
    low: np.ndarray
    box: np.ndarray
    side: float

    @classmethod
    def of(cls, meshes: Sequence[PageMesh]) -> Frame:
        filled = [mesh.vertices for mesh in meshes if len(mesh.vertices)] or [np.zeros((1, 3))]
        low = np.min([rows.min(0) for rows in filled], axis=0)
        with np.errstate(over='ignore'):
            box = np.max([rows.max(0) for rows in filled], axis=0) - low
        if not np.isfinite(box).all():
            raise ValueError('coordinates of the meshes are out of range')
        return cls(low, box, float(box.max()) or 1.0)

    def near(self, places: np.ndarray) -> list[float]:
        """Returns coordinates in the page's numbers, one after another."""
        return [float(x) for x in np.round((places - self.low) / self.side, 6).ravel()]


def planes(differences: np.ndarray) -> bytes:
    """Returns whole numbers of 31 bits, their sign in the lowest bit, as four planes of bytes: like bytes side by side pack well."""
    numbers = differences.astype(np.int32).ravel()
    folded = ((numbers << 1) ^ (numbers >> 31)).astype('<i4')
    return np.ascontiguousarray(folded.view(np.uint8).reshape(-1, 4).T).tobytes()


def sorted_faces(faces: np.ndarray, unseen: np.ndarray) -> tuple[np.ndarray, np.ndarray]:
    """Returns the faces, each turned so that its least vertex is the first, in ascending order, those that were seen first; and
    a number for each that is that of another one where both have that vertex, and were seen or not alike."""
    first, second, third = turned(faces)
    size = int(faces.max(initial=0)) + 1
    group = np.where(unseen, first + size, first)
    order, keys = ascending(group.astype(np.int64) * size + second, 2 * size * size)
    return np.stack([first[order], keys % size, third[order]], axis=1), keys // size


def followed(faces: np.ndarray, first: np.ndarray) -> np.ndarray:
    """Returns the face that goes before each sorted one in its fan of triangles, where the second vertex of a face is the third one of the face
    before it; -1 of the first faces. A fan of triangles that goes around is cut."""
    count, size = len(faces), int(faces.max(initial=0)) + 1
    before = np.full(count, -1, np.int32)
    if not count:
        return before
    order, wanted = ascending(first.astype(np.int64) * size + faces[:, 2], 2 * size * size)
    key = first.astype(np.int64) * size + faces[:, 1]
    after = np.minimum(np.searchsorted(key, wanted), count - 1)
    is_there = key[after] == wanted
    before[after[is_there]] = order[is_there]
    starts = np.flatnonzero(np.diff(first, prepend=-1))
    before[starts[np.maximum.reduceat(before < 0, starts) == 0]] = -1
    return before


def fans_of(faces: np.ndarray, first: np.ndarray) -> tuple[np.ndarray, np.ndarray]:
    """Returns sorted faces in the order of triangle fans around their first vertices, and which of them begin one. A face that is over `FAN`
    steps from the first begins one of its own."""
    count, before = len(faces), followed(faces, first)
    own = np.arange(count, dtype=np.int32)
    head, rank = np.where(before < 0, own, before), (before >= 0).astype(np.int32)
    for _ in range(FAN.bit_length() - 1):
        further = head[head]
        if np.array_equal(further, head):
            break
        rank, head = rank + rank[head], further
    is_long = before[head] >= 0
    head, rank = np.where(is_long, own, head), np.where(is_long, 0, rank)
    order, _ = ascending(head.astype(np.int64) * (2 * FAN) + rank, 2 * FAN * (count + 1))
    return faces[order], rank[order] == 0


def deflated(data: bytes) -> bytes:
    """Returns bytes deflated. Runs and single bytes alone are looked for, which packs planes better than a search for copies, in a quarter of the
    time."""
    packer = zlib.compressobj(6, strategy=zlib.Z_RLE)
    return packer.compress(data) + packer.flush()


def packed(mesh: PageMesh, frame: Frame) -> tuple[dict[str, Any], str]:
    """Returns what the page has to know of a mesh, and its text, as viewer/decode.js reads it."""
    grid = np.rint((mesh.vertices - frame.low) / frame.side * STEPS).astype(np.int32)
    order = curve_order(grid >> (STEPS.bit_length() - CURVE_BITS), CURVE_BITS)
    place = np.empty(len(order), np.int32)
    place[order] = np.arange(len(order), dtype=np.int32)
    unseen = np.zeros(len(mesh.faces), bool) if mesh.unseen is None else mesh.unseen
    faces, begins = fans_of(*sorted_faces(place[mesh.faces], unseen))
    data = planes(np.diff(grid[order].T, axis=1, prepend=0)) + planes(np.diff(faces[begins, 0], prepend=0))
    data += planes(faces[begins, 1] - faces[begins, 0]) + planes(faces[:, 2] - faces[:, 0]) + np.packbits(begins).tobytes()
    if mesh.colors is not None:
        red, green, blue = mesh.colors[order].T >> COLOR_SHIFT
        data += np.diff([green, red - green, blue - green], axis=1, prepend=np.uint8(0)).tobytes()
    head = {'name': mesh.name, 'vertices': len(grid), 'faces': len(faces), 'fans': int(begins.sum()),
            'seen': len(faces) - int(unseen.sum()), 'colored': mesh.colors is not None}
    return head, base64.b64encode(deflated(data)).decode('ascii')


def preview(mesh: PageMesh, frame: Frame, most: int = LIGHT) -> PageMesh:
    """Returns a mesh of at most some `most` faces that looks like a large one: vertices in one cube become their mean, and faces that are left
    with two corners in one cube go (clustering of vertices). It is for display alone: sheets may touch, and small parts go."""
    used = np.unique(mesh.faces)
    places = (mesh.vertices[used] - frame.low) / frame.side
    count = STEPS + 1
    while True:
        cells = np.minimum((places * count).astype(np.int64), count - 1)
        keys, cell = np.unique((cells[:, 0] * count + cells[:, 1]) * count + cells[:, 2], return_inverse=True)
        if 2 * len(keys) <= most or count < 4:
            break
        # a surface has as many cubes as the square of what divides its sides
        count = min(int(count * 0.95), max(int(count * (most / (2 * len(keys))) ** 0.5), count // 8))
    sizes = np.bincount(cell)
    means = [np.bincount(cell, column) / sizes for column in mesh.vertices[used].T]
    of_vertex = np.zeros(len(mesh.vertices), np.int64)
    of_vertex[used] = cell
    corners = of_vertex[mesh.faces]
    rows = np.flatnonzero((corners[:, 0] != corners[:, 1]) & (corners[:, 1] != corners[:, 2]) & (corners[:, 2] != corners[:, 0]))
    a, b, c = (column.astype(np.int64) for column in turned(corners[rows]))
    rows = rows[np.sort(np.unique((a * len(keys) + b) * len(keys) + c, return_index=True)[1])]
    colors = None if mesh.colors is None else np.stack([np.bincount(cell, mesh.colors[used, k]) / sizes for k in range(3)], axis=1)
    return PageMesh(mesh.name, np.stack(means, axis=1), corners[rows], None if colors is None else colors.astype(np.uint8),
                    None if mesh.unseen is None else mesh.unseen[rows])


def sampled(rows: np.ndarray, most: int) -> np.ndarray:
    """Returns the rows, or the given number of them, evenly spread."""
    return rows if len(rows) <= most else rows[np.linspace(0, len(rows) - 1, most).astype(int)]


def escaped(text: object) -> str:
    """Returns text for HTML. Characters that HTML does not have become U+FFFD."""
    return html.escape(re.sub('[\x00-\x08\x0b\x0c\x0e-\x1f\x7f-\x9f\ud800-\udfff]', '\ufffd', str(text)))


def script_json(tree: Any) -> str:
    """Returns JSON that no browser takes for the end of a script: of ASCII, without <, > and &. Raises ValueError for nan."""
    text = json.dumps(tree, allow_nan=False, separators=(',', ':'))
    return re.sub('[<>&]', lambda found: f'\\u{ord(found[0]):04x}', text)


def table(rows: Sequence[Sequence[object]]) -> str:
    """Returns rows as a table whose first column is a heading."""
    lines = (f'<tr><th>{escaped(first)}' + ''.join(f'<td>{escaped(cell)}' for cell in rest) for first, *rest in rows)
    return '<table>\n' + '\n'.join(lines) + '\n</table>\n'


def verification_of(digests: dict[str, str], commands: Sequence[str]) -> str:
    """Returns the SHA-256 of the files, and the commands that verify them again."""
    parts = []
    if digests:
        lines = (f'<tr><th>{escaped(name)}<td><code>{escaped(digest)}</code>' for name, digest in digests.items())
        parts.append('<h2>SHA-256</h2>\n<table>\n' + '\n'.join(lines) + '\n</table>\n')
    if commands:
        parts.append('<h2>Verify again</h2>\n<pre>' + escaped('\n'.join(commands)) + '</pre>\n')
    return ''.join(parts)


def viewer_file(name: str) -> str:
    with open(os.path.join(VIEWER, name), encoding='utf-8', newline='\n') as file:
        return file.read()


def source_of(text: str) -> str:
    """Returns how a policy of contents names a text of the page: by its SHA-256."""
    return "'sha256-" + base64.b64encode(hashlib.sha256(text.encode('utf-8')).digest()).decode('ascii') + "'"


def page_text(meshes: Sequence[PageMesh], scanners: np.ndarray, sights: np.ndarray, figures: Sequence[tuple[str, str]],
              choices: Sequence[tuple[str, str, str]], digests: dict[str, str], commands: Sequence[str], title: str,
              shows_unseen: bool = True) -> str:
    """Returns the page that write_page writes."""
    if not meshes:
        raise ValueError('a page needs a mesh')
    frame = Frame.of(meshes)
    heads, texts = [], {}
    for number, mesh in enumerate(meshes):
        head, texts[f'mesh-{number}'] = packed(mesh, frame)
        if len(mesh.faces) > MANY:
            head['preview'], texts[f'preview-{number}'] = packed(preview(mesh, frame), frame)
        heads.append(head)
    spots = sampled(rows_of(scanners, (3,), float, 'scanners'), SPOTS)
    segments = sampled(rows_of(sights, (2, 3), float, 'lines of sight'), SIGHTS)
    scene = {'meshes': heads, 'box': [float(x) for x in frame.box / frame.side], 'low': [float(x) for x in frame.low], 'side': frame.side,
             'scanners': frame.near(spots), 'sights': frame.near(segments), 'showsUnseen': shows_unseen}
    style, script = viewer_file('viewer.css'), "'use strict';\n" + ''.join(map(viewer_file, SCRIPTS))
    policy = f"default-src 'none'; script-src {source_of(script)}; style-src {source_of(style)}; base-uri 'none'; form-action 'none'"
    return Template(viewer_file('viewer.html')).substitute(
        policy=policy, title=escaped(title), style=style, script=script, scene=script_json(scene),
        figures='<h2>Run</h2>\n' + table(figures) if figures else '',
        choices='<h2>Choices</h2>\n' + table(choices) if choices else '',
        verification=verification_of(digests, commands),
        meshes=''.join(f'<script type="text/plain" id="{name}">{text}</script>\n' for name, text in texts.items()))


def write_page(path: str, *, meshes: list[PageMesh], scanners: np.ndarray, sights: np.ndarray, figures: list[tuple[str, str]],
               choices: list[tuple[str, str, str]], digests: dict[str, str], commands: list[str], title: str, shows_unseen: bool = True) -> None:
    """Writes a page that shows the meshes: the first at once and the others by a slider.

    `scanners` (n, 3) and `sights` (m, 2, 3), a sample of lines of sight from scanner to point, are in the coordinates of the
    vertices; at most 500 and 2,000 of them, evenly spread, go into the page. `figures` are names and values of the run,
    `choices` names, values and reasons, `digests` the SHA-256 of files by name, `commands` the lines that verify them again. Unseen faces are
    shown at first if `shows_unseen`.
    All texts are escaped. What stood at the path is replaced when the page is whole. Raises ValueError if an array has a wrong
    shape or numbers that are not finite, or a face names a vertex that is not there, and OSError if the file cannot be written.
    """
    data = page_text(meshes, scanners, sights, figures, choices, digests, commands, title, shows_unseen).encode('utf-8')
    with whole_bytes(path) as file:
        file.write(data)
