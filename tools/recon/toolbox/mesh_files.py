"""Meshes read as `recon build` and `recon-mesh finish` wrote them, and written as PLY, STL, GLB or OBJ.

Names: read_mesh · Finished (a mesh to be written: coordinates, corners, and columns of values of vertices and faces) ·
write_mesh (by the ending of the name).
"""
from __future__ import annotations

import json
import os
import re
import struct
import warnings
from dataclasses import dataclass, field
from typing import Any, Callable, Iterator, List, NoReturn, Tuple

import numpy as np

from recon.toolbox.output_files import whole_bytes
from recon.toolbox.ply_text import FORMATS, Refusal
from recon.toolbox.vectors import axes, normal
from recon.toolbox.vertex_values import linear_colors, vertex_normals
from recon.toolbox.whole_text import whole_numbers

HEAD = re.compile(rb'ply\nformat ascii 1\.0\n(?:comment(?: [^\n]{0,998})?\n){0,100}'
                  rb'element vertex ([0-9]{1,10})\nproperty int x\nproperty int y\nproperty int z\n'
                  rb'element face ([0-9]{1,10})\nproperty list uchar int vertex_indices\nend_header\n')
WHOLE = ('char', 'uchar', 'short', 'ushort', 'int', 'uint', 'int8', 'uint8', 'int16', 'uint16', 'int32', 'uint32')
NOT_OURS = 'not a mesh of `recon build`: '
LIMIT = 2097151
COLORS = ('red', 'green', 'blue')
NORMALS = ('nx', 'ny', 'nz')
LINES = 10_000
Column = Tuple[str, str, np.ndarray]


def read_mesh(path: str, most: int = LIMIT) -> tuple[np.ndarray, np.ndarray]:
    """Returns the places of the vertices, (n, 3) whole numbers of at most `most`, and the corners of all faces one after another."""
    with open(path, 'rb') as file:
        data = file.read()
    head = HEAD.match(data)
    if not head:
        floats = re.search(rb'property (float|double)', data[:2000]) or not data.startswith(b'ply\nformat ascii')
        raise Refusal(NOT_OURS + ('coordinates are floating-point numbers, or it is no text PLY' if floats
                                  else 'the header differs'))
    count, faces = int(head[1]), int(head[2])
    values = numbers_of(data, head.end(), 3 * count + 4 * faces)
    places, rows = values[:3 * count].reshape(-1, 3), values[3 * count:].reshape(-1, 4)
    corners = rows[:, 1:].ravel()
    if (rows[:, 0] != 3).any() or corners.min(initial=0) < 0 or corners.max(initial=-1) >= count:
        refuse('a face is not a triangle, or a vertex index is out of range')
    if places.min(initial=0) < -most or places.max(initial=0) > most:
        refuse(f'a coordinate is out of range: over {most:,}')
    return places, corners


def refuse(why: str) -> NoReturn:
    raise Refusal(NOT_OURS + why)


def numbers_of(data: bytes, begin: int, count: int) -> np.ndarray:
    """Returns the whole numbers of a text from `begin` on."""
    values = whole_numbers(data, begin)
    if values is None:
        values = other_numbers(data[begin:])
    if len(values) != count:
        refuse(f'it has {len(values)} numbers, its header states {count}')
    return values


def other_numbers(data: bytes) -> np.ndarray:
    """The same of a text whose words are long, or no whole numbers."""
    if data.translate(None, b'-0123456789 \n') or data and not data.endswith(b'\n'):
        refuse('it is truncated, or has values that are not integers')
    # a sign at the start is after the last letter, which is an end of a line
    letters = np.frombuffer(data, np.uint8)
    signs = np.flatnonzero(letters == ord('-'))
    if (letters[signs - 1] > ord(' ')).any() or (letters[signs + 1] < ord('0')).any():
        refuse('a value is not an integer')
    with warnings.catch_warnings():
        warnings.simplefilter('ignore')
        return np.zeros(0, np.int64) if not data or data.isspace() else np.fromstring(data, np.int64, sep=' ')


@dataclass
class Finished:
    """A mesh to be written: (n, 3) coordinates, (m, 3) corners, and columns of the vertices and of the faces: a name, a type of
    PLY and the values, one each. `vertex_of` (n,) is the vertex of the mesh that was read that each vertex is."""
    places: np.ndarray
    faces: np.ndarray
    columns: List[Column]
    face_columns: List[Column] = field(default_factory=list)
    vertex_of: np.ndarray = field(default_factory=lambda: np.zeros(0, np.int64))

    def normals(self) -> np.ndarray:
        """Returns the normals of the vertices, of length 1, (n, 3) as float32."""
        return vertex_normals(self.places, self.faces)

    def with_normals(self) -> List[Column]:
        """The columns of the vertices, and after them their normals, unless columns of these names are there."""
        names = {name for name, _, _ in self.columns}
        normals = [] if names & set(NORMALS) else [(name, 'float', values) for name, values in zip(NORMALS, self.normals().T)]
        return [*self.columns, *normals]

    def colors(self) -> np.ndarray | None:
        """Red, green and blue of each vertex as bytes, where it has them as whole numbers. Of 16 bits the upper eight are taken."""
        named = {name: (kind, values) for name, kind, values in self.columns}
        if not all(name in named and named[name][0] in WHOLE for name in COLORS):
            return None
        values = np.stack([named[name][1] for name in COLORS], axis=1).astype(np.int64)
        shift = 8 if values.max(initial=0) > 255 else 0
        return np.clip(values >> shift, 0, 255).astype(np.uint8)


def table_of(parts: list[tuple[str, str, Any]]) -> np.ndarray:
    """Rows of fields side by side, of columns with their names and types of numpy."""
    rows = np.zeros(len(parts[0][2]), [(name, kind) + value.shape[1:] for name, kind, value in parts])
    for name, _, value in parts:
        rows[name] = value
    return rows


def column_parts(columns: list[Column]) -> list[tuple[str, str, np.ndarray]]:
    return [(f'column {k}', '<' + FORMATS[kind], values) for k, (_, kind, values) in enumerate(columns)]


def ply_parts(mesh: Finished) -> Iterator[bytes]:
    """Yields a binary PLY, in pieces."""
    columns = mesh.with_normals()
    lines = ['ply', 'format binary_little_endian 1.0', 'comment made by finish', f'element vertex {len(mesh.places)}']
    lines += [f'property double {axis}' for axis in 'xyz'] + [f'property {kind} {name}' for name, kind, _ in columns]
    lines += [f'element face {len(mesh.faces)}', 'property list uchar int vertex_indices']
    lines += [f'property {kind} {name}' for name, kind, _ in mesh.face_columns] + ['end_header', '']
    yield '\n'.join(lines).encode('ascii')
    yield table_of([('place', '<f8', mesh.places), *column_parts(columns)]).tobytes()
    threes = np.full(len(mesh.faces), 3, np.uint8)
    yield table_of([('count', 'u1', threes), ('corners', '<i4', mesh.faces), *column_parts(mesh.face_columns)]).tobytes()


def far_middle(places: np.ndarray) -> np.ndarray:
    """The middle of coordinates that lie farther from 0 than 16 times their extent, in whole numbers; else 0."""
    low, high = places.min(axis=0), places.max(axis=0)
    is_far = max(np.abs(low).max(), np.abs(high).max()) > 16 * (high - low).max()
    return np.round((low + high) / 2) if is_far else np.zeros(3)


def rounding_of(path: str, mesh: Finished) -> float:
    """How far a format that stores 24 bits of a coordinate moves a vertex at most, where that is over 1/100,000 of the mesh's extent; else 0.
    Only STL does: a GLB adds the middle of far coordinates by its node."""
    if os.path.splitext(path)[1].lower() != '.stl' or not len(mesh.places):
        return 0.0
    away = float(np.abs(mesh.places - mesh.places.astype('<f4')).max())
    return away if away > 1e-5 * float(np.ptp(mesh.places, axis=0).max()) else 0.0


def stl_parts(mesh: Finished) -> Iterator[bytes]:
    """Yields a binary STL, in pieces."""
    yield b'made by finish'.ljust(80) + struct.pack('<I', len(mesh.faces))
    away = np.stack(normal(*(axes(mesh.places, mesh.faces[:, k]) for k in range(3))), axis=1)
    corners = mesh.places[mesh.faces].reshape(-1, 9)
    yield table_of([('normal', '<f4', away), ('corners', '<f4', corners), ('zero', '<u2', np.zeros(len(away)))]).tobytes()


def glb_parts(mesh: Finished) -> Iterator[bytes]:
    """Yields a binary glTF, in pieces: the mesh with normals at its vertices, and with its colors, if it has any, as linear values. The node adds the
    middle of coordinates that are far from 0, which would lose digits in 24 bits."""
    middle = far_middle(mesh.places)
    places, colors = (mesh.places - middle).astype('<f4'), mesh.colors()
    node: dict[str, Any] = {'mesh': 0, 'translation': middle.tolist()} if middle.any() else {'mesh': 0}
    data = [mesh.faces.astype('<u4').tobytes(), places.tobytes(), mesh.normals().astype('<f4').tobytes()]
    accessors: list[dict[str, Any]] = [
        {'bufferView': 0, 'componentType': 5125, 'count': 3 * len(mesh.faces), 'type': 'SCALAR'},
        {'bufferView': 1, 'componentType': 5126, 'count': len(places), 'type': 'VEC3',
         'min': places.min(axis=0).astype(float).tolist(), 'max': places.max(axis=0).astype(float).tolist()},
        {'bufferView': 2, 'componentType': 5126, 'count': len(places), 'type': 'VEC3'}]
    attributes = {'POSITION': 1, 'NORMAL': 2}
    if colors is not None:
        data.append(linear_colors(colors).astype('<u2').tobytes())
        accessors.append({'bufferView': 3, 'componentType': 5123, 'normalized': True, 'count': len(places), 'type': 'VEC4'})
        attributes['COLOR_0'] = 3
    views, at = [], 0
    for number, part in enumerate(data):
        views.append({'buffer': 0, 'byteOffset': at, 'byteLength': len(part), 'target': 34962 if number else 34963})
        at += len(part)
    scene = {'asset': {'version': '2.0', 'generator': 'recon-finish'}, 'scene': 0, 'scenes': [{'nodes': [0]}],
             'nodes': [node], 'meshes': [{'primitives': [{'attributes': attributes, 'indices': 0}]}],
             'buffers': [{'byteLength': at}], 'bufferViews': views, 'accessors': accessors}
    text = json.dumps(scene).encode('ascii')
    text += b' ' * (-len(text) % 4)
    yield b'glTF' + struct.pack('<II', 2, 28 + len(text) + at) + struct.pack('<I4s', len(text), b'JSON') + text
    yield struct.pack('<I4s', at, b'BIN\0')
    yield from data


def obj_parts(mesh: Finished) -> Iterator[bytes]:
    """Yields a Wavefront OBJ, in pieces, each coordinate by the fewest digits that tell it from all other numbers of its kind. Colors follow the
    coordinates, from 0 to 1, as MeshLab, Blender and CloudCompare read them; each corner of a face has the normal of its vertex."""
    yield b'# made by finish\n'
    colors = mesh.colors()
    rows = mesh.places if colors is None else np.c_[mesh.places, colors / 255]
    for part in lines('v %r %r %r' + ('' if colors is None else ' %.4g %.4g %.4g') + '\n', rows):
        yield part.replace(b'.0 ', b' ').replace(b'.0\n', b'\n')
    yield from lines('vn %.4g %.4g %.4g\n', mesh.normals())
    yield from lines('f %d//%d %d//%d %d//%d\n', np.repeat(mesh.faces + 1, 2, axis=1))


def lines(form: str, rows: np.ndarray) -> Iterator[bytes]:
    """Yields a line of text for each row, in pieces."""
    for start in range(0, len(rows), LINES):
        part = rows[start:start + LINES]
        yield (form * len(part) % tuple(part.ravel().tolist())).encode('ascii')


FORMS = {'.ply': ply_parts, '.stl': stl_parts, '.glb': glb_parts, '.obj': obj_parts}


def form_of(path: str) -> Callable[[Finished], Iterator[bytes]]:
    """Returns the form that the name's ending says."""
    ending = os.path.splitext(path)[1].lower()
    if ending not in FORMS:
        raise Refusal(f'{path}: unknown file name extension: use {", ".join(FORMS)}')
    return FORMS[ending]


def write_mesh(path: str, mesh: Finished) -> None:
    parts = form_of(path)(mesh)
    with whole_bytes(path) as file:
        for part in parts:
            file.write(part)
