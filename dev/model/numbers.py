"""Numbers in texts: decimals that are scaled to whole units, and whole numbers.

Each call raises a BadNumber, whose kind says how the line of an error names it.
"""
from __future__ import annotations

import re

from .points import LIMIT

NOT_A_NUMBER, LONG_NUMBER, OUT_OF_RANGE = 'bad_token', 'long_number', 'out_of_range'
DECIMAL = re.compile(rb'([+-]?)([0-9]+\.?[0-9]*|\.[0-9]+)(?:[eE]([+-]?)([0-9]+))?')
WHOLE = re.compile(rb'([+-]?)([0-9]+)')


class BadNumber(Exception):
    """A text that is not a number, or one that has too many digits or is out of range."""

    def __init__(self, kind: str) -> None:
        super().__init__(kind)
        self.kind = kind


def scaled(token: bytes, unit: int) -> int:
    """Returns a decimal times the scale, rounded to the nearest whole number, halves away from zero."""
    found = DECIMAL.fullmatch(token)
    if found is None:
        raise BadNumber(NOT_A_NUMBER)
    sign, digits, exponent_sign, exponent = found.groups()
    before, _, after = digits.partition(b'.')
    mantissa, exponent = (before + after).lstrip(b'0'), (exponent or b'').lstrip(b'0')
    if len(mantissa) > 30 or len(exponent) > 4:
        raise BadNumber(LONG_NUMBER)
    power = int(exponent or b'0') * (-1 if exponent_sign == b'-' else 1) - len(after)
    numerator, denominator = int(mantissa or b'0') * 10 ** max(power, 0), 10 ** max(-power, 0)
    value = (2 * numerator * unit + denominator) // (2 * denominator)
    if value > LIMIT:
        raise BadNumber(OUT_OF_RANGE)
    return -value if sign == b'-' else value


def whole(token: bytes) -> int:
    """Returns a whole number of at most 18 digits after leading zeros."""
    found = WHOLE.fullmatch(token)
    if found is None:
        raise BadNumber(NOT_A_NUMBER)
    sign, digits = found[1], found[2].lstrip(b'0')
    if len(digits) > 18:
        raise BadNumber(LONG_NUMBER)
    return int(digits or b'0') * (-1 if sign == b'-' else 1)
