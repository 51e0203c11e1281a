"""What the rows of a scan say beside their coordinates, by the places that `recon` makes of them."""
from __future__ import annotations

import re
import struct
from decimal import ROUND_HALF_UP, Decimal
from typing import Any, Iterator

import numpy as np

from recon.toolbox.mesh_files import WHOLE, Column
from recon.toolbox.ply_text import FORMATS, IS_NUMBER, Reader, Refusal, plain_names

LONG = 60
OUTSIDE = 1 << 62
PLAIN = re.compile(r'([+-]?)([0-9]+)(?:\.([0-9]*))?').fullmatch


def scaled(word: str, unit: int) -> int:
    """Returns the number times the scale, rounded to the nearest whole number, halves away from zero; OUTSIDE where that has over 60 digits."""
    plain = PLAIN(word)
    if plain is None or len(word) > LONG:
        if not IS_NUMBER(word):
            raise Refusal(f'{word[:40]} is not a number')
        product = Decimal(word) * unit
        return OUTSIDE if product.adjusted() > LONG else int(product.to_integral_value(ROUND_HALF_UP))
    sign, before, behind = plain.groups()
    one = 10 ** len(behind or '')
    value = (int(before + (behind or '')) * unit * 2 + one) // (2 * one)
    return -value if sign == '-' else value


def value_of(word: str, name: str, kind: str) -> float:
    """Returns a word as a number of the type of its column."""
    try:
        value = int(float(word)) if kind in WHOLE else float(word)
        struct.pack('<' + FORMATS[kind], value)
        return value
    except (ValueError, OverflowError, struct.error):
        raise Refusal(f'{name[:40]} is {word[:40]} in a row of the scan: not a {kind}') from None


def columns_of(path: str, unit: int, array: np.ndarray) -> list[Column]:
    """Returns the columns of a scan beside x, y and z that are not lists, each as a name, a type and the values at these places: those of
    the first row at each. Refused where a place is that of no row."""
    places: list[tuple[int, int, int]] = [(x, y, z) for x, y, z in array.tolist()]
    reader = Reader(path, True)
    try:
        vertex = reader.element('vertex')
        if vertex is None or reader.elements[0] is not vertex:
            raise Refusal(f'the first element of {path} is not vertex')
        point = vertex.point_columns()
        kept = [k for k, p in enumerate(vertex.properties) if k not in point and p.count_kind is None]
        rows = rows_at(vertex.scalars(reader.rows(vertex)), point, kept, unit, {place: None for place in places})
    finally:
        reader.close()
    missing = sum(rows[place] is None for place in places)
    if missing:
        raise Refusal(f'{missing} of {len(places)} vertices are not points of {path} at unit={unit}: is it the scan of this '
                      'mesh?')
    columns = [(p.name, p.kind) for p in plain_names([vertex.properties[k] for k in kept])]
    return [(name, kind, np.array([value_of(rows[place][at], name, kind) for place in places], float if kind not in WHOLE else np.int64))
            for at, (name, kind) in enumerate(columns)]


def rows_at(rows: Iterator[Any], point: list[int], kept: list[int], unit: int,
            found: dict[tuple[int, int, int], Any]) -> dict[tuple[int, int, int], Any]:
    """Returns the kept words of the first row at each of these places."""
    x, y, z = point
    for words in rows:
        place = scaled(words[x], unit), scaled(words[y], unit), scaled(words[z], unit)
        if found.get(place, ()) is None:
            found[place] = [words[k] for k in kept]
    return found
