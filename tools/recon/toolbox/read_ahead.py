"""Rows of a text, those of a large file read ahead by other processes: lines are cut here, a helper parses each part and sends the numbers that were asked
of the first one.

What a helper does not understand is read here again, which finds the same error, or the same numbers. Names: all_rows.
"""
from __future__ import annotations

import os
import stat
from collections import deque
from functools import partial
from typing import Any, Callable, Deque, Dict, Iterator, List, NamedTuple, Tuple

from recon.toolbox.processes import Helpers, processors
from recon.toolbox.text_columns import FieldRows, LineParts, NotPlain, TextRows

# the bytes of a file that are left for which helpers are started, and how many parts each of them has before it
LARGE, AHEAD = 1 << 24, 2
Make = Callable[[bytes], TextRows]
Asked = List[Tuple[str, int]]


class Part(NamedTuple):
    """A part of a file: where it begins, how many bytes it has, and how many lines."""
    start: int
    size: int
    lines: int


class SentRows(FieldRows):
    """Rows of a part that a helper has read."""

    def __init__(self, width: int, count: int, found: Dict[Tuple[str, int], Any], here: Callable[[], TextRows]) -> None:
        super().__init__()
        self.width, self.count, self.asked, self.here = width, count, found, here
        self.rows: TextRows | None = None

    def find(self, what: str, column: int) -> Any:
        return self.read_here().ask(what, column)

    def read_here(self) -> TextRows:
        if self.rows is None:
            self.rows = self.here()
        return self.rows


def bytes_at(file: int, start: int, size: int) -> bytes:
    """Returns lines of a file, the last one with its end."""
    data = os.pread(file, size, start)
    return data if data.endswith(b'\n') else data + b'\n'


def is_large(lines: LineParts) -> bool:
    """Whether much of a file is left, and of one that can be read anywhere."""
    try:
        state = os.fstat(lines.file.fileno())
        return stat.S_ISREG(state.st_mode) and state.st_size - lines.offset() >= LARGE
    except (OSError, AttributeError):
        return False


def all_rows(lines: LineParts, make: Make, count: int | None = None, least: int = 0) -> Iterator[FieldRows]:
    """Yields the rows of the next lines, all or `count` of them, by what makes rows of lines of `least` bytes or more."""
    helps = processors() > 0
    while count is None or count > 0:
        part = lines.part(count, least)
        if not part:
            if count is not None:
                raise NotPlain
            return
        rows = make(part)
        if count is not None:
            count -= rows.count
        yield rows
        if helps and rows.asked and not rows.has_words and is_large(lines):
            helps, count = False, (yield from rows_ahead(lines, make, count, least, list(rows.asked)))


def rows_ahead(lines: LineParts, make: Make, count: int | None, least: int, asked: Asked) -> Any:
    """Yields the rows of parts that helpers read. Returns how many rows are left for another reader: of what follows lines without a row each."""
    file = lines.file.fileno()

    def read(start: int, size: int) -> TextRows:
        return make(bytes_at(file, start, size))

    def answer(start: int, size: int) -> Any:
        try:
            rows = read(start, size)
            return rows.width, rows.count, dict(found_of(rows, asked))
        except (NotPlain, ArithmeticError, ValueError, MemoryError):
            return None

    helpers = Helpers(processors(), answer)
    try:
        waiting: Deque[Part] = deque()
        left = count
        while helpers.pids:
            while len(waiting) < AHEAD * len(helpers.pids) and (left is None or left > 0):
                part = next_part(lines, left, least)
                if part is None:
                    break
                left = None if left is None else left - part.lines
                waiting.append(part)
                helpers.ask(part.start, part.size)
            if not waiting:
                break
            part = waiting.popleft()
            rows = sent_rows(helpers.next_answer(), partial(read, part.start, part.size))
            count = None if count is None else count - rows.count
            yield rows
            if count is not None and rows.count != part.lines:
                lines.go_to(part.start + part.size)
                break
        return count
    finally:
        helpers.close()


def next_part(lines: LineParts, most: int | None, least: int) -> Part | None:
    """The next lines as a part; None at the end of the file, or where there is something else than lines, which is left to be read."""
    start = lines.offset()
    try:
        data = lines.part(most, least)
    except NotPlain:
        lines.go_to(start)
        return None
    return Part(start, len(data), data.count(b'\n')) if data else None


def found_of(rows: TextRows, asked: Asked) -> Iterator[tuple[tuple[str, int], Any]]:
    """What is asked of rows, as far as it is found."""
    for what, column in asked:
        try:
            yield (what, column), rows.ask(what, column)
        except NotPlain:
            continue


def sent_rows(answer: Any, here: Callable[[], TextRows]) -> FieldRows:
    """The rows of an answer; those that are read here where there is none."""
    if answer is None:
        return here()
    width, count, found = answer
    return SentRows(width, count, found, here)
