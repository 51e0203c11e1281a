"""The loops of a slice of `recon`, read from its text: `loops L`, and for each loop `loop N` and N lines `A X Y D`, a face
and the point (X/D, Y/D)."""
from __future__ import annotations

import re
from decimal import Decimal
from fractions import Fraction
from typing import Any, Iterator

from recon.toolbox.exact import READ, text
from recon.toolbox.ply_text import Refusal
from recon.toolbox.text_lines import Lines
from recon.toolbox.tool import three, whole

ARE_FOUR = re.compile(r'([0-9]{1,10}) (-?[0-9]{1,19}) (-?[0-9]{1,19}) ([1-9][0-9]{0,18})').fullmatch


def wanted(lines: Lines, form: Any, what: str) -> re.Match:
    """Returns the parts of the next line, which is of this form."""
    line = lines.next_line()
    if line is None:
        raise Refusal(f'truncated: {what} is missing after line {lines.number}')
    found = form(line)
    if not found:
        raise Refusal(f'line {lines.number} is not {what}')
    return found


def count_of(lines: Lines, word: str) -> int:
    return int(wanted(lines, re.compile(word + r' ([0-9]{1,10})').fullmatch, f'`{word} N`').group(1))


def read_loops(path: str) -> Iterator[list[tuple[str, ...]]]:
    """Yields each loop: a list of its faces with their points, as words `A X Y D`."""
    lines = Lines(path)
    try:
        for _ in range(count_of(lines, 'loops')):
            steps = range(count_of(lines, 'loop'))
            yield [wanted(lines, ARE_FOUR, '`A X Y D`').groups() for _ in steps]
        if lines.next_line() is not None:
            raise Refusal(f'line {lines.number}: unexpected data after the last loop')
    finally:
        lines.close()


class Frame:
    """The scale and the origin of the scan. `word` is a coordinate in the scan's own numbers, exact but for a last digit."""

    def __init__(self, options: Any) -> None:
        self.unit = whole(options.unit or '1', 'unit', 1, 1000000)
        self.origin = [Fraction(Decimal(part)) for part in three(options.origin or '0,0,0', 'origin')]

    def word(self, axis: int, over: str, under: str) -> str:
        value = Fraction(int(over), int(under) * self.unit) + self.origin[axis]
        return text(READ.divide(Decimal(value.numerator), Decimal(value.denominator)))
