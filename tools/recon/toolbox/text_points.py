"""Points of text files in blocks: lists of numbers, PTS and PTX, with what their further columns mean.

Names: ListStart, start_of_list (where the rows of a list begin, and of what they are) · list_rows, pts_rows (rows in blocks) · scanner_layout (that of
a PTS or PTX) · HeadLines (lines one by one, between blocks) · extra_columns (colors and other values of rows).
"""
from __future__ import annotations

import re
from typing import Iterator, List, NamedTuple, Sequence

from recon.toolbox.blocks import Bytes, Column, Finite, TextColumn
from recon.toolbox.exact import Pose
from recon.toolbox.ply_text import IS_NOT_FINITE, IS_NUMBER, Refusal
from recon.toolbox.posed import PosedRows
from recon.toolbox.read_ahead import all_rows
from recon.toolbox.text_columns import LONGEST_LINE, FieldRows, LineParts, NotPlain, TextRows
from recon.toolbox.text_layout import COLORS, Layout, is_zero, layout_of, named
from recon.toolbox.text_lines import DECIMAL_COMMAS, Lines

SAMPLE, SCANNER_SAMPLE, BLACK_SAMPLE = 200, 1 << 17, 100_000
REMARKS = ('#', '//')


class ListStart(NamedTuple):
    """Where the first row of a list of numbers begins, what parts its fields (nothing for blanks), how many it has, what they mean, and how many headings
    are before it."""
    offset: int
    sign: str
    width: int
    layout: Layout
    headings: int


def parted(text: str, sign: str) -> list[str]:
    return [word.strip() for word in text.split(sign)] if sign else text.split()


def sign_of(text: str) -> str:
    return ';' if ';' in text else ',' if ',' in text else ''


def start_of_list(path: str, open_end: bool) -> ListStart | None:
    """Returns how a list of numbers begins; None if its first rows have an error."""
    try:
        lines = Lines(path, open_end)
    except Refusal:
        return None
    try:
        return list_start(lines)
    except Refusal:
        return None
    finally:
        lines.close()


def list_start(lines: Lines) -> ListStart | None:
    """The same of the lines of a file."""
    heading: List[str] | None = None
    headings, offset, line = 0, 0, lines.next_line()
    while line is not None:
        text = line.strip()
        words = parted(text, sign_of(text))
        if text.startswith(REMARKS):
            bare = text.lstrip('#/ \t')
            titles = parted(bare, sign_of(bare))
            heading = titles if named(titles) else heading
        elif text and headings == 0 and not (IS_NUMBER(words[0]) or IS_NOT_FINITE(words[0])):
            heading, headings = words, 1
        elif text:
            break
        offset, line = lines.file.tell(), lines.next_line()
    if line is None or DECIMAL_COMMAS(line.strip()):
        return None
    sign = sign_of(line)
    rows = [parted(line.strip(), sign)]
    while len(rows) < SAMPLE:
        line = lines.next_line()
        if line is None:
            break
        if line.strip() and not line.strip().startswith(REMARKS):
            rows.append(parted(line.strip(), sign))
    return ListStart(offset, sign, len(rows[0]), settled_layout(lines, rows, sign, heading), headings)


def settled_layout(lines: Lines, rows: Sequence[Sequence[str]], sign: str, heading: Sequence[str] | None) -> Layout:
    """What the columns of a list mean, by its first rows. If these are all black, also by the first one after them that is not: it tells whether these
    columns are colors, and whether they are parts of 1."""
    layout = layout_of(rows, heading)
    at = [layout.places[name] for name in COLORS if layout.has(COLORS)]

    def is_black(row: Sequence[str]) -> bool:
        return len(row) <= max(at) or all(is_zero(row, place, 1) for place in at)

    if not at or not all(map(is_black, rows)):
        return layout
    for _ in range(BLACK_SAMPLE):
        line = lines.next_line()
        if line is None:
            break
        row = parted(line.strip(), sign)
        if not line.strip().startswith(REMARKS) and not is_black(row):
            return layout_of([*rows, row], heading)
    return layout


def list_rows(path: str, open_end: bool, start: ListStart) -> Iterator[FieldRows]:
    """Yields the rows of a list of numbers."""
    with open(path, 'rb') as file:
        file.seek(start.offset)
        yield from all_rows(LineParts(file, open_end), lambda part: text_rows(part, start))


def text_rows(part: bytes, start: ListStart) -> TextRows:
    """The rows of some lines of a list."""
    if start.width < 3:
        raise NotPlain
    if not start.sign:
        return TextRows(part, start.width)
    sign = start.sign.encode('ascii')
    part = part.replace(sign + b' ', sign)
    if b' ' in part or b'\t' in part:
        raise NotPlain
    rows = TextRows(part.translate(bytes.maketrans(sign, b' ')), start.width)
    if not rows.is_spread:
        raise NotPlain
    return rows


class HeadLines:
    """Lines one by one, for what stands between blocks."""

    def __init__(self, lines: LineParts) -> None:
        self.lines, self.number = lines, 0

    def next_words(self) -> list[str] | None:
        """Returns the fields of the next line that has any, or None at the end of the file."""
        part = self.lines.part(1)
        while part and not part.split():
            part = self.lines.part(1)
        if len(part) > LONGEST_LINE:
            raise NotPlain
        return part.decode('latin-1').split() if part else None


def scanner_layout(path: str, skipped: int) -> Layout:
    """What the columns of a PTS or PTX mean, whose first row follows on the lines of the head, by its first rows."""
    with open(path, 'rb') as file:
        lines = file.readlines(SCANNER_SAMPLE)
    rows = [line.decode('latin-1').split() for line in lines[skipped:-1] or lines[skipped:]]
    return layout_of([row for row in rows if len(row) >= 3], is_of_scanner=True)


def counted_rows(lines: LineParts, count: int, width: int, pose: Pose | None = None) -> Iterator[FieldRows]:
    """Yields the given number of rows, whose lines have three words or more, moved by a matrix if there is one."""
    return all_rows(lines, lambda part: TextRows(part, width, is_ragged=True) if pose is None else PosedRows(part, width, pose), count, 6)


def pts_rows(path: str, open_end: bool, width: int) -> Iterator[FieldRows]:
    """Yields the rows of a PTS, whose lines have `width` words or others."""
    with open(path, 'rb') as file:
        lines = LineParts(file, open_end)
        head = HeadLines(lines)
        words = head.next_words()
        while words is not None:
            if len(words) != 1 or not words[0].isdecimal():
                raise NotPlain
            if re.match(rb'\s*[0-9]+\s*\n', lines.tail[:100]):
                # a PTX
                raise NotPlain
            yield from counted_rows(lines, int(words[0]), width)
            words = head.next_words()


def extra_columns(rows: FieldRows, layout: Layout, names: Sequence[str]) -> list[Column]:
    """Returns the columns of these names. Colors are whole numbers from 0 to 255."""
    most = 1.0 if layout.are_parts else 255.0
    return [Bytes(TextColumn(rows, layout.places[name]), most) if name in COLORS else Finite(TextColumn(rows, layout.places[name]))
            for name in names]

