"""What the columns of a text of numbers mean beyond X, Y and Z: colors, intensity and normals, by its heading or by its first rows.

Names: Layout · layout_of · is_zero (whether words of a row are 0).
"""
from __future__ import annotations

import re
from typing import Dict, NamedTuple, Optional, Sequence

COLORS, NORMALS, INTENSITY = ('red', 'green', 'blue'), ('nx', 'ny', 'nz'), 'intensity'
# by their names in headings: letters alone, in lower case
NAMES = {'r': 'red', 'red': 'red', 'g': 'green', 'green': 'green', 'b': 'blue', 'blue': 'blue', 'i': INTENSITY, 'intensity': INTENSITY,
         'scalarintensity': INTENSITY, 'reflectance': INTENSITY, 'nx': 'nx', 'ny': 'ny', 'nz': 'nz', 'normalx': 'nx', 'normaly': 'ny', 'normalz': 'nz'}
# what rows of PTS and PTX have, by how many values there are
OF_SCANNERS = {4: (INTENSITY,), 6: COLORS, 7: (INTENSITY, *COLORS)}
IS_BYTE = re.compile('0*[0-9]{1,3}').fullmatch
IS_ZERO = re.compile(r'[+-]?(0+\.?0*|\.0+)([eE][+-]?[0-9]+)?').fullmatch
LEAST, NEAR, MOST_WRONG = 1, 0.02, 0.1


class Layout(NamedTuple):
    """The places of columns by name, and whether colors are parts of 1 in place of whole numbers up to 255."""
    places: Dict[str, int]
    are_parts: bool = False

    def has(self, names: Sequence[str]) -> bool:
        return all(name in self.places for name in names)


def named(words: Sequence[str]) -> Layout | None:
    """The columns that a heading names after x, y and z; None if it names no x, y and z."""
    plain = [re.sub('[^a-z]', '', word.lower()) for word in words]
    if plain[:3] != ['x', 'y', 'z']:
        return None
    places: Dict[str, int] = {}
    for place, word in enumerate(plain[3:], 3):
        if word in NAMES:
            places.setdefault(NAMES[word], place)
    return Layout(places)


def numbers(rows: Sequence[Sequence[str]], place: int) -> list[list[float]] | None:
    """Three columns of rows as numbers, or None if a word is none."""
    try:
        return [list(map(float, row[place:place + 3])) for row in rows]
    except ValueError:
        return None


def are_bytes(rows: Sequence[Sequence[str]], place: int) -> bool:
    """Whether three columns are whole numbers up to 255."""
    return all(IS_BYTE(word) and int(word) <= 255 for row in rows for word in row[place:place + 3])


def is_zero(row: Sequence[str], place: int, count: int = 3) -> bool:
    """Whether some words of a row, as many as there are, are numbers equal to 0."""
    return all(IS_ZERO(word) for word in row[place:place + count])


def is_intensity_first(rows: Sequence[Sequence[str]]) -> bool:
    """Whether the first of four columns of whole numbers is an intensity, and not the last one: black, which has an intensity, is after it more often than
    before the last one."""
    return (sum(is_zero(row, 4) and not is_zero(row, 3, 1) for row in rows)
            > sum(is_zero(row, 3) and not is_zero(row, 6, 1) for row in rows))


def are_parts(rows: Sequence[Sequence[str]], place: int) -> bool:
    """Whether three columns are parts of 1."""
    values = numbers(rows, place)
    return values is not None and all(0 <= x <= 1 for row in values for x in row) and any(x % 1 for row in values for x in row)


def are_directions(rows: Sequence[Sequence[str]], place: int) -> bool:
    """Whether three columns are directions of length 1, in nearly all rows."""
    values = numbers(rows, place)
    if values is None:
        return False
    wrong = sum(abs((x * x + y * y + z * z) ** 0.5 - 1) >= NEAR for x, y, z in values)
    return wrong <= MOST_WRONG * len(values)


def guessed(rows: Sequence[Sequence[str]], width: int) -> Layout:
    """The columns of rows without a heading. Three columns of 0 are black if no others are colors."""
    found = guessed_from(rows, width, False)
    return found if found.has(COLORS) else guessed_from(rows, width, True)


def guessed_from(rows: Sequence[Sequence[str]], width: int, may_be_black: bool) -> Layout:
    """The same; `may_be_black` tells whether columns that are all 0 count as colors."""
    places: Dict[str, int] = {}
    at = 4 if width == 7 and is_intensity_first(rows) else 3
    if width == 4:
        return Layout({INTENSITY: 3})
    while at + 3 <= width:
        is_color = 'red' not in places and are_bytes(rows, at) and (may_be_black or not all(is_zero(row, at) for row in rows))
        kind = NORMALS if are_directions(rows, at) and 'nx' not in places else COLORS if is_color else None
        if kind is None:
            if at == 3:
                at += 1
                continue
            break
        places.update(zip(kind, range(at, at + 3)))
        at += 3
    if 'red' in places:
        if places['red'] in (4, 7) and 3 not in places.values():
            places[INTENSITY] = 3
        elif at + 1 == width:
            places[INTENSITY] = at
    return Layout(places)


def layout_of(rows: Sequence[Sequence[str]], heading: Optional[Sequence[str]] = None, is_of_scanner: bool = False) -> Layout:
    """Returns what the columns of these first rows mean. `is_of_scanner` tells rows of a PTS or PTX."""
    width = min(map(len, rows), default=0)
    if is_of_scanner:
        width = max(map(len, rows), default=0)
        return Layout({name: place for place, name in enumerate(OF_SCANNERS.get(width, ()), 3)})
    layout = None if heading is None else named(heading)
    if layout is None:
        return guessed(rows, width)
    places = {name: place for name, place in layout.places.items() if place < width}
    layout = Layout(places)
    if not layout.has(COLORS):
        return layout
    first = places['red']
    in_order = places['green'] == first + 1 and places['blue'] == first + 2
    return Layout(places, in_order and are_parts(rows, first))
