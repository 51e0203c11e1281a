"""Lines of a text file, one after another, with their numbers."""
from __future__ import annotations

import re

from recon.toolbox.ply_text import Refusal

LONGEST = 4096
OTHER_KINDS = {b'LASF': 'LAS', b'ASTM-E57': 'E57', b'# .PCD': 'PCD', b'VERSION': 'PCD', b'PK\3\4': 'a zip archive, unpack it first',
               b'\x1f\x8b': 'a gzip file, unpack it first', b'\x89HDF': 'HDF5, which is not supported'}
DECIMAL_COMMAS = re.compile(r'[+-]?[0-9]+,[0-9]+([ \t;]+[+-]?[0-9]+,[0-9]+)+[ \t;]*').fullmatch


class Lines:
    """The lines of a text file as words. `number` is that of the last one, from 1."""

    def __init__(self, path: str, open_end: bool = False, at: int = 0) -> None:
        self.file, self.open_end, self.number = open(path, 'rb'), open_end, 0
        start = b'' if at else self.file.read(16)
        self.file.seek(at)
        for magic, kind in OTHER_KINDS.items():
            if start.startswith(magic):
                self.file.close()
                raise Refusal(f'not a text file of numbers: {kind}')

    def next_line(self) -> str | None:
        """Returns the next line without its end, or None at the end of the file."""
        line = self.file.readline(LONGEST)
        if not line:
            return None
        self.number += 1
        if not line.endswith(b'\n'):
            if len(line) == LONGEST:
                raise Refusal(f'line {self.number} is too long for a list of numbers')
            if not self.open_end:
                raise Refusal(f'truncated: line {self.number}, the last one, has no newline (open_end=yes accepts it)')
        if self.number == 1:
            line = line[3:] if line.startswith(b'\xef\xbb\xbf') else line
        return line.decode('latin-1').rstrip('\r\n')

    def next_words(self) -> list[str] | None:
        """Returns the tokens of the next line that has any, or None at the end of the file."""
        line = self.next_line()
        while line is not None and not line.split():
            line = self.next_line()
        return None if line is None else line.split()

    def close(self) -> None:
        self.file.close()
