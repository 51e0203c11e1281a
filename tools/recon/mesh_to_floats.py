"""Converts a mesh of `recon` to coordinates of the scan, for programs that read no PLY with integer coordinates, such as MeshLab.

  recon-mesh-to-floats IN OUT [unit=U] [origin=X,Y,Z]

  unit=U             divide coordinates by U (default: 1)
  origin=X,Y,Z       add the origin that was subtracted from the scan (default: 0,0,0)

Coordinates are exact decimals, rounded only beyond 30 digits. Faces are unchanged.
"""
from __future__ import annotations

from dataclasses import dataclass
from decimal import Decimal
from typing import Any, Sequence, TextIO

from recon.toolbox.exact import quotients
from recon.toolbox.output_files import whole_file
from recon.toolbox.ply_text import ARE_THREE, Element, Property, Reader, Refusal, plain_names
from recon.toolbox.tool import Report, number_of, run, three, whole


def head(vertex: Element, face: Element) -> str:
    columns = [Property(axis, 'double').line() for axis in 'xyz']
    return '\n'.join(['ply', 'format ascii 1.0', 'comment made by mesh_to_floats', f'element vertex {vertex.count}', *columns,
                      f'element face {face.count}', plain_names(face.properties)[0].line(), 'end_header', ''])


def pass_mesh(reader: Reader, file: TextIO, unit: Decimal, origin: list[Decimal]) -> tuple[Element, Element]:
    """Writes the mesh, and answers its two elements."""
    vertex, face = reader.element('vertex'), reader.element('face')
    if (vertex is None or face is None or reader.elements != [vertex, face] or vertex.has_lists() or len(face.properties) != 1
            or not face.has_lists()):
        raise Refusal('not a mesh of recon: expected vertices, then faces with one list each')
    x, y, z = vertex.point_columns()
    if any(vertex.properties[k].kind.startswith(('float', 'double')) for k in (x, y, z)):
        raise Refusal('not a mesh of recon: coordinates are floating-point numbers already')
    file.write(head(vertex, face))
    for row, words in enumerate(reader.rows(vertex)):
        point = [words[x], words[y], words[z]]
        if not ARE_THREE(' '.join(point)):
            raise Refusal(f'vertex row {row}: {" ".join(point)[:80]} is not a position')
        file.write(' '.join(quotients(point, unit, origin)) + '\n')
    for words in reader.rows(face):
        file.write(' '.join(words) + '\n')
    reader.finish()
    return vertex, face


@dataclass
class Converted(Report):
    """A mesh that was written in the numbers of the scan; `is_plain` where no unit was named."""
    name: str
    out: str
    vertices: int
    faces: int
    is_plain: bool

    def __str__(self) -> str:
        counts = f'{self.vertices} vertices and {number_of(self.faces, "face")}'
        line = f'wrote {counts} of {self.name} to {self.out}'
        return line + ', at unit=1 (the default)' if self.is_plain else line


def work(names: Sequence[str], options: Any) -> Converted:
    """Writes a mesh in the numbers of the scan."""
    unit = Decimal(whole(options.unit or '1', 'unit', 1, 1000000))
    origin = [Decimal(word) for word in three(options.origin or '0,0,0', 'origin')]
    reader = Reader(names[0])
    try:
        with whole_file(names[1]) as file:
            vertex, face = pass_mesh(reader, file, unit, origin)
    finally:
        reader.close()
    return Converted(names[0], names[1], vertex.count, face.count, not options.unit)


def main() -> None:
    run(work, __doc__, 2, ('unit', 'origin'))


if __name__ == '__main__':
    main()
