"""Rows of whole numbers in ascending order, and rows of equal numbers, by fewer passes over memory than numpy's argsort needs.

Names: ascending · curve_order (near places near each other) · turned (faces with their least vertex first) · first_equal (the first row that is
equal to each of others).
"""
from __future__ import annotations

import numpy as np

BITS = 63
SPREADING = ((32, 0x1F00000000FFFF), (16, 0x1F0000FF0000FF), (8, 0x100F00F00F00F00F), (4, 0x10C30C30C30C30C3), (2, 0x1249249249249249))
FACTORS = 0x9E3779B97F4A7C15, 0xC2B2AE3D27D4EB4F, 0x165667B19E3779F9, 0xD6E8FEB86659FD93


def ascending(keys: np.ndarray, bound: int) -> tuple[np.ndarray, np.ndarray]:
    """Returns the rows of keys from 0 to bound - 1 in ascending order, equal ones by row, and the keys in this order. Each key is sorted with its
    row in its last bits, where both fit, which takes two thirds of the time of argsort and no gather after it."""
    bits = max(len(keys) - 1, 1).bit_length()
    if bound.bit_length() + bits > BITS:
        order = np.argsort(keys, kind='stable')
        return order, keys[order]
    both = keys.astype(np.int64) << bits
    both |= np.arange(len(keys))
    both.sort()
    return both & ((1 << bits) - 1), both >> bits


def spread(numbers: np.ndarray) -> np.ndarray:
    """Returns whole numbers of at most 21 bits with two zeros before each bit."""
    for shift, mask in SPREADING:
        numbers = (numbers | numbers << shift) & mask
    return numbers


def curve_order(cells: np.ndarray, bits: int) -> np.ndarray:
    """Returns the order of cells (n, 3), whole numbers of `bits` bits, along Morton's curve."""
    x, y, z = (spread(column.astype(np.int64)) for column in cells.T)
    return ascending(x | y << 1 | z << 2, 1 << (3 * bits))[0]


def first_equal(keys: np.ndarray, wanted: np.ndarray) -> np.ndarray:
    """Returns the first row of keys that is equal to each wanted one; all are there. Keys are put into a table at their hashes, the first rows last,
    and what another key covers is left for the next of four tables, and then for a search."""
    found, rows, left = np.empty(len(wanted), np.int64), np.arange(len(keys), dtype=np.int32), np.arange(len(wanted))
    for factor in FACTORS:
        shift = np.uint64(63 - max(len(rows), 2).bit_length())
        slots, asked = ((part.astype(np.uint64) * np.uint64(factor) >> shift).view(np.int64) for part in (keys[rows], wanted[left]))
        table = np.zeros(1 << (64 - int(shift)), np.int32)
        table[slots[::-1]] = rows[::-1]
        at = table[asked]
        is_equal = keys[at] == wanted[left]
        found[left[is_equal]] = at[is_equal]
        left = left[~is_equal]
        if not len(left):
            return found
        rows = rows[table[slots] != rows]
    order = np.argsort(keys, kind='stable')
    found[left] = order[np.searchsorted(keys, wanted[left], sorter=order)]
    return found


def turned(faces: np.ndarray) -> tuple[np.ndarray, np.ndarray, np.ndarray]:
    """Returns the corners of faces (m, 3) as three columns, each face turned so that its least vertex is the first."""
    a, b, c = (np.ascontiguousarray(faces[:, k]) for k in range(3))
    is_second, is_third = (b < a) & (b < c), (c < a) & (c < b)
    first = np.where(is_second, b, np.where(is_third, c, a))
    second = np.where(is_second, c, np.where(is_third, a, b))
    third = np.where(is_second, a, np.where(is_third, b, c))
    return first, second, third
