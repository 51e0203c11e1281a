"""Sums, products and quotients of decimals, exact up to the 30 digits that `recon` reads, and rounded there."""
from __future__ import annotations

from decimal import Context, Decimal, ROUND_HALF_EVEN
from typing import Sequence

WIDE = Context(prec=400, Emin=-99999, Emax=99999)
READ = Context(prec=30, rounding=ROUND_HALF_EVEN, Emin=-99999, Emax=99999)
OVER_30_DIGITS = 10 ** 30


def text(value: Decimal) -> str:
    """Returns a decimal without an exponent and without zeros that say nothing."""
    plain = format(READ.plus(value), 'f')
    if '.' in plain:
        plain = plain.rstrip('0').rstrip('.')
    return '0' if plain in ('', '-0') else plain


def differences(words: Sequence[str], origin: Sequence[Decimal]) -> list[str]:
    """Returns the numbers minus the origin's, one by one."""
    return [text(WIDE.subtract(Decimal(word), place)) for word, place in zip(words, origin)]


class Pose:
    """A matrix of four rows of three decimals: `(x, y, z, 1)` times it is where a point is."""

    def __init__(self, matrix: list[list[Decimal]]) -> None:
        self.matrix = matrix
        self.places = max(0, max(-int(entry.as_tuple().exponent) for row in matrix for entry in row))
        self.whole = [[int(WIDE.scaleb(entry, self.places)) for entry in row] for row in matrix]

    def transform(self, point: Sequence[str]) -> list[str]:
        """Returns the point's coordinates as words. The sums are taken whole and rounded once, where they have over 30 digits."""
        parts = [word.partition('.') for word in point]
        places = max(len(behind) for _, _, behind in parts)
        try:
            x, y, z = (int(before + behind) * 10 ** (places - len(behind)) for before, _, behind in parts)
        except ValueError:
            return self.transform_any(point)
        one = 10 ** places
        words: list[str] = []
        for a, b, c, d in zip(*self.whole):
            word = shifted(x * a + y * b + z * c + one * d, places + self.places)
            if word is None:
                return self.transform_any(point)
            words.append(word)
        return words

    def transform_any(self, point: Sequence[str]) -> list[str]:
        """Returns the same for decimals with exponents and for long sums."""
        x, y, z = map(Decimal, point)
        multiply, add = WIDE.multiply, WIDE.add
        return [text(add(add(multiply(x, a), multiply(y, b)), add(multiply(z, c), d))) for a, b, c, d in zip(*self.matrix)]


def shifted(value: int, places: int) -> str | None:
    """Returns a whole number over a power of ten, as a word; None where it has over 30 digits."""
    if abs(value) >= OVER_30_DIGITS:
        return None
    digits = str(abs(value))
    if places:
        digits = digits.zfill(places + 1)
        digits = f'{digits[:-places]}.{digits[-places:]}'.rstrip('0').rstrip('.')
    return '-' + digits if value < 0 else digits


def quotients(words: list[str], unit: Decimal, origin: list[Decimal]) -> list[str]:
    """Returns the numbers divided by the scale, plus the origin's, one by one."""
    return [text(WIDE.add(WIDE.divide(Decimal(word), unit), place)) for word, place in zip(words, origin)]
