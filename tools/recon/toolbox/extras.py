"""What files of stations have beyond coordinates that is passed on: colors, intensity and normals, where all files have them.

Names: FileExtras, extras_of (what a file has) · common_extras (the columns that all have) · lost_extras (what some have alone, in words) · extra_words
(those of a row of a text).
"""
from __future__ import annotations

import os
from typing import Dict, List, NamedTuple, Optional, Sequence, Tuple

from recon.toolbox.blocks import byte_word, finite_word
from recon.toolbox.ply_text import Element, Property, Refusal
from recon.toolbox.point_files import has_rows, open_points
from recon.toolbox.text_layout import COLORS, INTENSITY, NORMALS, Layout
from recon.toolbox.text_points import ListStart, scanner_layout, start_of_list

GROUPS = (COLORS, (INTENSITY,), NORMALS)
# names in files of rows, in any case
OTHERS = {'red': ('red', 'diffuse_red', 'r'), 'green': ('green', 'diffuse_green', 'g'), 'blue': ('blue', 'diffuse_blue', 'b'),
          INTENSITY: (INTENSITY, 'scalar_intensity', 'reflectance', 'scalar_reflectance'),
          'nx': ('nx', 'normal_x'), 'ny': ('ny', 'normal_y'), 'nz': ('nz', 'normal_z')}


class FileExtras(NamedTuple):
    """The places of a file's columns by name, with their types in a PLY. Of a text: its layout, and how a list of numbers begins."""
    columns: Dict[str, Tuple[int, str]]
    layout: Optional[Layout] = None
    start: Optional[ListStart] = None


def row_extras(vertex: Element) -> FileExtras:
    """The columns of an element."""
    columns = {}
    for name, others in OTHERS.items():
        place = next((place for place in map(vertex.column, others) if place is not None), None)
        if place is not None and vertex.properties[place].count_kind is None:
            columns[name] = place, vertex.properties[place].kind
    return FileExtras(columns)


def text_extras(layout: Layout, start: ListStart | None) -> FileExtras:
    kinds = {name: 'uchar' if name in COLORS else 'double' for name in layout.places}
    return FileExtras({name: (place, kinds[name]) for name, place in layout.places.items()}, layout, start)


def extras_of(path: str, open_end: bool) -> FileExtras:
    """Returns what a file has; nothing of one that has an error, which is found when it is read."""
    try:
        if has_rows(path):
            reader = open_points(path, open_end)
            reader.close()
            vertex = reader.element('vertex')
            return FileExtras({}) if vertex is None else row_extras(vertex)
        with open(path, 'rb') as file:
            is_counted = file.readline(100).strip().isdigit()
        if is_counted:
            return text_extras(scanner_layout(path, 1), None)
        start = start_of_list(path, open_end)
        return FileExtras({}) if start is None else text_extras(start.layout, start)
    except (Refusal, ArithmeticError, OSError):
        return FileExtras({})


def common_extras(files: Sequence[FileExtras]) -> List[Property]:
    """Returns the columns that all files have, in groups: all three colors, intensity, a whole normal."""
    found = []
    for group in GROUPS:
        if files and all(name in file.columns for file in files for name in group):
            for name in group:
                kinds = {file.columns[name][1] for file in files}
                found.append(Property(name, kinds.pop() if len(kinds) == 1 else 'int' if name in COLORS else 'double'))
    return found


def lost_extras(files: Sequence[FileExtras], paths: Sequence[str]) -> str:
    """Says that colors or intensities are not passed on because a file has none; else an empty text."""
    said = ''
    for group, what in ((COLORS, 'colors'), ((INTENSITY,), 'intensity')):
        without = [path for file, path in zip(files, paths) if not all(name in file.columns for name in group)]
        if 0 < len(without) < len(paths):
            said += f'; {what} left out, since {os.path.basename(without[0])} has none'
    return said


def extra_words(words: Sequence[str], extras: FileExtras, names: Sequence[str]) -> list[str]:
    """The further values of a row of a text; 0 where it has none."""
    found = []
    for name in names:
        place = extras.columns[name][0]
        word = words[place] if place < len(words) else '0'
        found.append(byte_word(word, 1.0 if extras.layout and extras.layout.are_parts else 255.0) if name in COLORS else finite_word(word))
    return found
