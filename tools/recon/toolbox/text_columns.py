"""Columns of numbers of a text, read by numpy some thousand rows at a time: each number by its digits before and after the point, eight of them in a
few products (`whole_text`). A number is the one that `float` reads, to the last bit.

What is not plain raises `NotPlain`, and the reader that goes word by word finds the place of an error. Names: NotPlain · LineParts (a file's
lines, some at a time) · TextRows.
"""
from __future__ import annotations

from math import isfinite
from typing import Any, Dict, NamedTuple, Tuple

import numpy as np

from recon.toolbox.ply_text import IS_NOT_FINITE, IS_NUMBER
from recon.toolbox.whole_text import BYTE, HIGHEST, MINUS, OVER, SPACE, WIDTH, ZEROS, of_digits

PAD, CHUNK = 32, 1 << 19
DOT, PLUS, NEWLINE, TAB = ord('.'), ord('+'), ord('\n'), ord('\t')
MOST_DIGITS, MOST_PLACES, LONGEST_LINE = 19, 24, 4095
EXACT, MOST_WHOLE = 1 << 53, 10 ** 18
SMALL, ZERO, TEN, HUNDRED = 3, np.uint8(ord('0')), np.uint8(10), np.uint16(100)
# for fewer rows than one in this number, words are cut out one by one
FEW = 8
WHOLE_POWERS = np.array([10 ** k for k in range(MOST_DIGITS + 1)], np.uint64)
POWERS = np.array([10.0 ** k for k in range(MOST_PLACES + 1)])
LONG_POWERS = np.array([np.longdouble(10) ** k for k in range(MOST_PLACES + 1)], np.longdouble)
# of these numbers with 64 bits the powers above are exact
IS_LONG = np.finfo(np.longdouble).nmant >= 63


class NotPlain(Exception):
    """A file that is to be read row by row."""


class LineParts:
    """Whole lines of a text file from where it stands, some at a time; `tail` was read before."""

    def __init__(self, file: Any, open_end: bool, tail: bytes = b'') -> None:
        self.file, self.open_end, self.tail = file, open_end, tail

    def part(self, most: int | None = None, least_size: int = 0) -> bytes:
        """Returns some of the next lines, at most `most`, each of `least_size` bytes or more; none at the end of the file."""
        data = self.tail if len(self.tail) >= CHUNK else self.tail + self.file.read(CHUNK)
        if most == 1:
            cut = data.find(b'\n') + 1
        else:
            cut = data.rfind(b'\n') + 1
        if cut == 0 and data:
            if not self.open_end or len(data) > CHUNK or self.file.read(1):
                raise NotPlain
            data, cut = data + b'\n', len(data) + 1
        if most is not None and most > 1 and least_size * most < cut:
            ends = np.flatnonzero(np.frombuffer(data, np.uint8, cut) == NEWLINE)
            cut = int(ends[min(most, len(ends)) - 1]) + 1
        self.tail = data[cut:]
        return data[:cut]

    def offset(self) -> int:
        """Returns where the next lines begin."""
        return int(self.file.tell()) - len(self.tail)

    def go_to(self, offset: int) -> None:
        """Makes the lines from an offset the next ones."""
        self.file.seek(offset)
        self.tail = b''


class FieldRows:
    """Rows of fields. What was asked of columns is kept, by the question and the column."""

    def __init__(self) -> None:
        self.width, self.count, self.has_words = 0, 0, False
        self.asked: Dict[Tuple[str, int], Any] = {}

    def find(self, what: str, column: int) -> Any:
        """Answers a question. Raises `NotPlain` where the fields are other than these."""
        raise NotImplementedError

    def ask(self, what: str, column: int) -> Any:
        if (what, column) not in self.asked:
            self.asked[what, column] = self.find(what, column)
        return self.asked[what, column]

    def floats(self, column: int) -> np.ndarray:
        """Returns the numbers of a column; nan for one that is not finite, and 0 where a line has no such field. Raises `NotPlain` for a word that is no
        number."""
        return np.asarray(self.ask('floats', column))

    def longs(self, column: int) -> np.ndarray:
        """Returns the numbers of a column with 64 bits, each the one nearest to its decimal; nan for one that is not finite. Raises `NotPlain` for a word
        that is no number."""
        return np.asarray(self.ask('longs', column))

    def decimals(self, column: int) -> tuple[np.ndarray, int]:
        """Returns the numbers of a column as whole ones over a power of ten, exactly. Raises `NotPlain` where one has more than eighteen digits."""
        values, places = self.ask('decimals', column)
        return values, places

    def wholes(self, column: int) -> np.ndarray:
        """Returns the whole numbers of a column. Raises `NotPlain` for a word that is not one to eight digits."""
        return np.asarray(self.ask('wholes', column))

    def lists(self, column: int) -> tuple[np.ndarray, np.ndarray]:
        """Returns the whole numbers of all fields from a column on: how many each line has, and all. Raises `NotPlain` as `wholes`."""
        counts, values = self.ask('lists', column)
        return counts, values

    def words(self, column: int, rows: np.ndarray | None = None) -> list[str]:
        """Returns the fields of a column, of all rows or of these."""
        return list(self.to_words(rows).words_of(column, rows))

    def to_words(self, rows: np.ndarray | None) -> Any:
        """Returns the rows of a text, for words of all or of these."""
        self.has_words |= not self.are_few(rows)
        return self.read_here()

    def read_here(self) -> Any:
        """Returns the rows of a text, which this process has read."""
        return self

    def are_few(self, rows: np.ndarray | None) -> bool:
        return rows is not None and len(rows) * FEW < self.count


class Parts(NamedTuple):
    """Where words stand: their first digits, their points (their ends where they have none), their ends, which have a minus, and which have two points."""
    starts: np.ndarray
    dots: np.ndarray
    ends: np.ndarray
    is_minus: np.ndarray
    odd: np.ndarray | None = None


class TextRows(FieldRows):
    """The fields of a part of a text, which ends with a blank, as rows of `width` fields: of each line, or where lines say nothing of all fields one after
    another. With `is_ragged` a line has as many words as it has, three or more.

    `marks` are the offsets of all blanks and points. Where all rows have their points in the same columns, `step` of these belong to a row."""

    def __init__(self, part: bytes, width: int, by_lines: bool = True, is_ragged: bool = False, longest: int = LONGEST_LINE) -> None:
        super().__init__()
        if width < 1:
            raise NotPlain
        if b'\r' in part:
            part = part.replace(b'\r\n', b'\n')
        self.data = b' ' * PAD + part
        self.letters = np.frombuffer(self.data, np.uint8)
        self.windows: np.ndarray = np.ndarray(len(self.data) - WIDTH + 1, '<u8', self.data, 0, (1,))
        self.longest, self.width, self.step, self.at = longest, width, 0, np.zeros(0, np.int64)
        self.first: np.ndarray | None = None
        self.split: list[str] | None = None
        self.find_marks()
        if not self.are_alike():
            self.find_words()
            if not by_lines and len(self.at) % width:
                raise NotPlain
            self.count = len(self.at) // width
            if by_lines:
                self.find_rows(is_ragged)

    def find_marks(self) -> None:
        """Finds the blanks and points. The first two are before the first word."""
        letters = self.letters[PAD - 2:]
        is_mark = letters <= SPACE
        is_mark |= letters == DOT
        self.marks = np.flatnonzero(is_mark)
        self.marks += PAD - 2
        self.kinds = self.letters.take(self.marks, mode='clip')
        self.is_dot, self.is_new = self.kinds == DOT, self.kinds == NEWLINE
        self.lines, dots = int(np.count_nonzero(self.is_new)), int(np.count_nonzero(self.is_dot))
        others = np.count_nonzero(self.kinds == SPACE) + np.count_nonzero(self.kinds == TAB)
        if dots + self.lines + others != len(self.kinds) or int(self.letters.max()) > 126:
            raise NotPlain
        # blanks one after another, or a point at the end of a word
        self.is_spread = not (self.marks[2:] - self.marks[1:-1] == 1).any()

    def are_alike(self) -> bool:
        """Whether all lines have `width` words, and points in the same ones; finds their number and that of their marks."""
        count = len(self.marks) - 2
        step = int(self.is_new[2:].argmax()) + 1 if count else 0
        if not self.is_spread or not self.lines or count != self.lines * step:
            return False
        is_dot, pattern = self.is_dot[2:].reshape(-1, step), self.is_dot[2:2 + step]
        if not self.is_new[1 + step::step].all() or not (is_dot == pattern).all() or step - int(pattern.sum()) != self.width:
            return False
        self.step, self.count, self.pattern = step, self.lines, [*np.flatnonzero(~pattern).tolist()]
        return True

    def find_words(self) -> None:
        """Finds which blanks end a word."""
        at = np.flatnonzero(~self.is_dot)[2:]
        if not self.is_spread:
            at = at[(self.marks[at] - self.marks[at - 1] > 1) | self.is_dot[at - 1]]
        self.at = at

    def find_rows(self, is_ragged: bool) -> None:
        """Finds the fields of each line."""
        is_last = self.is_new.take(self.at)
        if len(self.at) == self.lines * self.width and int(np.count_nonzero(is_last)) == self.lines and is_last[self.width - 1::self.width].all():
            return
        new = self.marks[self.is_new]
        if len(new) and int(np.diff(new, prepend=PAD).max()) > self.longest:
            raise NotPlain
        sizes = np.diff(np.searchsorted(self.marks[self.at], new, 'right'), prepend=0)
        sizes = sizes[sizes > 0]
        if (sizes != self.width).any():
            if not is_ragged or sizes.min() < 3:
                raise NotPlain
            self.first, self.sizes, self.count = np.cumsum(sizes) - sizes, sizes, len(sizes)

    def parts(self, column: int) -> Parts:
        """Where the fields of a column and their points stand."""
        if self.step:
            marks, at, step = self.marks, self.pattern[column], self.step
            has_dot = at > 0 and at - 1 not in self.pattern
            if has_dot and at > 1 and at - 2 not in self.pattern:
                raise NotPlain
            ends = np.ascontiguousarray(marks[2 + at::step])
            before = marks[1 + at:len(marks) - 1:step]
            return self.signed(marks[at:len(marks) - 2:step] + 1 if has_dot else before + 1, before if has_dot else ends, ends)
        words = self.ends_of(column)
        ends, before, is_dotted = self.marks.take(words), self.marks.take(words - 1), self.is_dot.take(words - 1)
        if not is_dotted.any():
            return self.signed(before + 1, ends, ends)
        starts = np.where(is_dotted, self.marks.take(words - 2), before) + 1
        return self.signed(starts, np.where(is_dotted, before, ends), ends, is_dotted & self.is_dot.take(words - 2))

    def ends_of(self, column: int) -> np.ndarray:
        """The marks at the ends of the fields of a column, of the lines that have it."""
        if self.first is None:
            return self.at[column::self.width]
        return self.at[(self.first if column < 3 else self.first[self.sizes > column]) + column]

    def signed(self, starts: np.ndarray, dots: np.ndarray, ends: np.ndarray, odd: np.ndarray | None = None) -> Parts:
        """The parts of fields that begin with a sign or with a digit at these offsets."""
        signs = self.letters.take(starts, mode='clip')
        is_minus = signs == MINUS
        starts += is_minus
        if (signs == PLUS).any():
            starts += signs == PLUS
        return Parts(starts, dots, ends, is_minus, odd)

    def digits(self, ends: np.ndarray, sizes: np.ndarray, odd: np.ndarray) -> np.ndarray:
        """The numbers of at most eight digits that end at these offsets. Those that are none are marked in `odd`."""
        digits = self.windows[ends - WIDTH]
        digits ^= ZEROS
        unused = ((WIDTH - sizes) << 3).view(np.uint64)
        digits >>= unused
        digits <<= unused
        return self.checked(digits, odd)

    def small(self, ends: np.ndarray, sizes: np.ndarray, odd: np.ndarray) -> np.ndarray:
        """The same of numbers of at most three digits, as colors are, letter by letter."""
        ones, tens, hundreds = (self.letters.take(ends - k) - ZERO for k in (1, 2, 3))
        tens *= sizes > 1
        hundreds *= sizes > 2
        if max(int(ones.max()), int(tens.max()), int(hundreds.max())) > 9:
            odd |= (ones > 9) | (tens > 9) | (hundreds > 9)
        ones += tens * TEN
        return ones + hundreds.astype(np.uint16) * HUNDRED

    @staticmethod
    def checked(digits: np.ndarray, odd: np.ndarray) -> np.ndarray:
        """The numbers of eight digits each. Those that have other letters are marked in `odd`."""
        wrong = digits + OVER
        wrong |= digits
        if int(np.bitwise_or.reduce(wrong, initial=0)) & HIGHEST:
            odd |= (wrong & np.uint64(HIGHEST)) != 0
        return of_digits(digits)

    def find(self, what: str, column: int) -> Any:
        questions = {'floats': self.find_floats, 'longs': self.find_longs, 'decimals': self.find_decimals, 'wholes': self.find_wholes,
                     'lists': self.find_lists}
        return questions[what](column)

    def line_sizes(self) -> np.ndarray:
        """Returns how many fields each line has."""
        return np.full(self.count, self.width) if self.first is None else self.sizes

    def find_wholes(self, column: int) -> np.ndarray:
        return self.wholes_before(2 + self.pattern[column] + np.arange(self.count) * self.step if self.step else self.ends_of(column))

    def find_lists(self, column: int) -> tuple[np.ndarray, np.ndarray]:
        sizes = self.line_sizes()
        counts, at = np.maximum(sizes - column, 0), np.flatnonzero(~self.is_dot)[2:] if self.step else self.at
        # from the number of a field among all of lists to its number among all fields
        ahead = np.cumsum(sizes) - np.cumsum(counts) - sizes + column + counts
        return counts, self.wholes_before(at[np.repeat(ahead, counts) + np.arange(int(counts.sum()))])

    def wholes_before(self, at: np.ndarray) -> np.ndarray:
        """The whole numbers that end at these marks."""
        ends, odd = self.marks[at], self.is_dot[at - 1]
        sizes = ends - self.marks[at - 1] - 1
        if odd.any() or len(sizes) and (int(sizes.min()) < 1 or int(sizes.max()) > WIDTH):
            raise NotPlain
        values = self.digits(ends, sizes, odd)
        if odd.any():
            raise NotPlain
        return values.view(np.int64)

    def find_floats(self, column: int) -> np.ndarray:
        if self.first is None or column < 3 or not (self.sizes <= column).any():
            return self.numbers(column) if self.count else np.zeros(0)
        values = np.zeros(self.count)
        values[self.sizes > column] = self.numbers(column) if (self.sizes > column).any() else 0
        return values

    def numbers(self, column: int) -> np.ndarray:
        """The same of the lines that have the column."""
        parts = self.parts(column)
        whole, odd = parts.dots - parts.starts, np.zeros(len(parts.ends), bool) if parts.odd is None else parts.odd
        places = None if parts.dots is parts.ends else parts.ends - parts.dots
        longest = int(whole.max())
        if longest > WIDTH or int(whole.min()) < 1:
            odd |= (whole > WIDTH) | (whole < (1 if places is None else 0))
            whole = np.clip(whole, 0, WIDTH)
        if places is None:
            values = (self.digits if longest > SMALL else self.small)(parts.ends, whole, odd).astype(float)
        else:
            values = self.pointed(parts, whole, places - 1, odd)
        if parts.is_minus.any():
            np.negative(values, out=values, where=parts.is_minus)
        if odd.any():
            self.read_odd(values, column, np.flatnonzero(odd))
        return values

    def pointed(self, parts: Parts, whole: np.ndarray, places: np.ndarray, odd: np.ndarray) -> np.ndarray:
        """The numbers without their sign; some have a point. Up to 2^53 a quotient by a power of ten is rounded once."""
        least, most = int(places.min()), int(places.max())
        if least < 1 or most > MOST_PLACES:
            odd |= (places > MOST_PLACES) | ((whole < 1) & (places < 1))
            places = np.clip(places, 0, MOST_PLACES)
        if most > WIDTH:
            return self.long_floats(self.digits(parts.dots, whole, odd), parts.ends, places, odd)
        if 0 < least == most and int(whole.max()) + most <= WIDTH:
            return self.joined(parts.ends, whole, most, odd) / POWERS[most]
        digits = self.digits(parts.dots, whole, odd)
        digits *= WHOLE_POWERS[most] if least == most else WHOLE_POWERS[places]
        digits += self.digits(parts.ends, places, odd)
        values = digits.astype(float)
        values /= POWERS[most] if least == most else POWERS[places]
        return values

    def joined(self, ends: np.ndarray, whole: np.ndarray, places: int, odd: np.ndarray) -> np.ndarray:
        """The digits before and after the point as one number of at most eight, where all have as many after it."""
        after = np.uint64((1 << 64) - (1 << 8 * (WIDTH - places)))
        digits = self.windows[ends - WIDTH]
        # with its point a number of seven digits is in these eight letters
        before = digits << BYTE if int(whole.max()) + places < WIDTH else self.windows[ends - WIDTH - 1]
        before &= ~after
        digits &= after
        digits |= before
        digits ^= ZEROS
        unused = ((WIDTH - places - whole) << 3).view(np.uint64)
        digits >>= unused
        digits <<= unused
        return self.checked(digits, odd)

    def long_floats(self, digits: np.ndarray, ends: np.ndarray, places: np.ndarray, odd: np.ndarray) -> np.ndarray:
        """The numbers with more than eight digits after the point. Over 2^53 a quotient is rounded to 64 bits first, and one that is in the middle
        between two numbers then is read by `float`."""
        after = self.digits(ends, np.minimum(places, WIDTH), odd)
        for step in (1, 2):
            sizes = np.clip(places - step * WIDTH, 0, WIDTH)
            if sizes.any():
                upper = self.digits(ends - step * WIDTH, sizes, odd)
                odd |= upper >= WHOLE_POWERS[MOST_DIGITS - 1 - step * WIDTH]
                after = after + upper * WHOLE_POWERS[step * WIDTH]
        shift = WHOLE_POWERS[np.minimum(places, MOST_DIGITS)]
        odd |= (digits != 0) & ((places > MOST_DIGITS) | (digits.astype(float) * shift.astype(float) > 1e19))
        total = digits * shift + after
        values = total.astype(float) / POWERS[places]
        # a power over 10^22 is not exact
        rows = np.flatnonzero((total > EXACT) | (places > 22))
        if len(rows) and IS_LONG:
            exact = total[rows].astype(np.longdouble) / LONG_POWERS[places[rows]]
            values[rows] = near = exact.astype(float)
            odd[rows] |= np.abs(exact - near) == np.spacing(near).astype(np.longdouble) / 2
        else:
            odd[rows] = True
        return values

    def read_odd(self, values: np.ndarray, column: int, rows: np.ndarray) -> None:
        """Reads the fields of these rows by `float`."""
        for row, word in zip(rows.tolist(), self.some_words(column, rows)):
            if IS_NUMBER(word) and isfinite(float(word)):
                values[row] = float(word)
            elif IS_NOT_FINITE(word):
                values[row] = np.nan
            else:
                raise NotPlain

    def some_words(self, column: int, rows: np.ndarray) -> list[str]:
        """The fields of a column in these rows."""
        at = 2 + self.pattern[column] + rows * self.step if self.step else self.ends_of(column)[rows]
        ends, before = self.marks[at], at - 1
        while True:
            is_inside = self.is_dot[before]
            if not is_inside.any():
                break
            before = before - is_inside
        return [self.data[start:end].decode('ascii') for start, end in zip((self.marks[before] + 1).tolist(), ends.tolist())]

    def words_of(self, column: int, rows: np.ndarray | None) -> list[str]:
        if self.first is not None:
            return self.ragged_words(column, np.arange(self.count) if rows is None else rows)
        if rows is not None and self.are_few(rows) and self.split is None:
            return self.some_words(column, rows)
        if self.split is None:
            self.split = self.data.decode('ascii').split()
        words = self.split[column::self.width]
        return words if rows is None else [words[row] for row in rows.tolist()]

    def find_longs(self, column: int) -> np.ndarray:
        parts = self.parts(column)
        whole, places = parts.dots - parts.starts, np.maximum(parts.ends - parts.dots - 1, 0)
        odd = np.zeros(self.count, bool) if parts.odd is None else parts.odd
        most = int(places.max())
        odd |= (whole > WIDTH) | (whole + places < 1) | (places > MOST_DIGITS - WIDTH)
        places = np.minimum(places, MOST_DIGITS - WIDTH)
        total = self.digits(parts.dots, np.clip(whole, 0, WIDTH), odd) * WHOLE_POWERS[places] + self.digits(parts.ends, np.minimum(places, WIDTH), odd)
        if most > WIDTH:
            total += self.digits(parts.ends - WIDTH, np.clip(places - WIDTH, 0, WIDTH), odd) * WHOLE_POWERS[WIDTH]
        values = total.astype(np.longdouble)
        values /= LONG_POWERS[places] if int(places.min()) < most else LONG_POWERS[min(most, MOST_DIGITS - WIDTH)]
        values = np.where(parts.is_minus, -values, values)
        if odd.any():
            rows = np.flatnonzero(odd)
            words = self.some_words(column, rows)
            if not all(IS_NUMBER(word) and isfinite(float(word)) or IS_NOT_FINITE(word) for word in words):
                raise NotPlain
            values[rows] = [np.longdouble(word if IS_NUMBER(word) else 'nan') for word in words]
        return values

    def ragged_words(self, column: int, rows: np.ndarray) -> list[str]:
        """The same where lines have different numbers of fields."""
        if column < 3 or not (self.sizes <= column).any():
            return self.some_words(column, rows)
        has_word = self.sizes > column
        number = np.cumsum(has_word) - 1
        found = iter(self.some_words(column, number[rows[has_word[rows]]]))
        return [next(found) if is_there else '0' for is_there in has_word[rows].tolist()]

    def find_decimals(self, column: int) -> tuple[np.ndarray, int]:
        if self.first is not None:
            raise NotPlain
        parts = self.parts(column)
        whole, places = parts.dots - parts.starts, np.maximum(parts.ends - parts.dots - 1, 0)
        odd = np.zeros(self.count, bool) if parts.odd is None else parts.odd
        most = int(places.max(initial=0))
        if odd.any() or len(whole) and (int(whole.max()) > WIDTH or int((whole + places).min()) < 1) or most > 2 * WIDTH:
            raise NotPlain
        if most and int(places.min()) == most and int(whole.max()) + most <= WIDTH:
            total = self.joined(parts.ends, whole, most, odd).view(np.int64)
        else:
            total = self.long_whole(parts, whole, places, odd)
        if odd.any():
            raise NotPlain
        np.negative(total, out=total, where=parts.is_minus)
        return total, most

    def long_whole(self, parts: Parts, whole: np.ndarray, places: np.ndarray, odd: np.ndarray) -> np.ndarray:
        """The numbers without their sign, as whole ones over the highest power of ten of all."""
        digits, after, most = self.digits(parts.dots, whole, odd), self.digits(parts.ends, np.minimum(places, WIDTH), odd), int(places.max(initial=0))
        if most > WIDTH:
            after += self.digits(parts.ends - WIDTH, np.clip(places - WIDTH, 0, WIDTH), odd) * WHOLE_POWERS[WIDTH]
        if int(digits.max(initial=0)) * 10 ** most > MOST_WHOLE:
            raise NotPlain
        return ((digits * WHOLE_POWERS[places] + after) * WHOLE_POWERS[most - places]).view(np.int64)
