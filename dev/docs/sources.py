"""What the parts of this package read of the repository, and how they report."""
from __future__ import annotations

import pathlib
import re
from typing import NamedTuple

TOP = pathlib.Path(__file__).resolve().parents[2]
NOT_COMMITTED = ('verification/definitions.md', 'verification/libraries.md', 'reference/signatures.md')


class Report(NamedTuple):
    """What a part found: its faults, a line that sums up, the texts that committed pages should have, and the texts of pages that are not
    committed."""
    faults: list[str]
    summary: str
    pages: dict[pathlib.Path, str] = {}
    printed: dict[pathlib.Path, str] = {}


def uses_of(text: str) -> dict[str, list[str]]:
    """Returns the crates of crates.txt, each with those of them that it uses."""
    lines = [line.split('#')[0] for line in text.splitlines()]
    pairs = [line.split(':', 1) for line in lines if ':' in line]
    names = [head.split()[0] for head, _ in pairs]
    return {name: [it for it in tail.split() if it in names] for name, (_, tail) in zip(names, pairs)}


def head_of(crate: pathlib.Path) -> list[str]:
    """Returns the lines of the comment at the head of a crate's root file, without their marks."""
    roots = [path for path in (crate / 'src/lib.rt', crate / 'src/main.rt') if path.is_file()]
    return [line[3:].removeprefix(' ') for path in roots for line in path.read_text().splitlines() if line.startswith('//!')]


def code_of(crate: pathlib.Path) -> list[pathlib.Path]:
    """Returns the source files of a crate, without those of its tests."""
    return [path for path in sorted((crate / 'src').rglob('*.rt')) if 'tests' not in path.stem]


def between(page: str, begin: str, end: str, inner: str) -> str:
    """Returns a page with other text between two lines of it. Raises ValueError if it has not both."""
    before, found, rest = page.partition(begin + '\n')
    _, ended, after = rest.partition(end)
    if not found or not ended:
        raise ValueError(f'no lines {begin} and {end}')
    return f'{before}{begin}\n{inner}\n{end}{after}'


def table(head: list[str], rows: list[list[str]]) -> str:
    """Returns a table of a page."""
    lines = [head, *rows]
    cells = ['| ' + ' | '.join(cell.replace('|', '\\|') for cell in line) + ' |' for line in lines]
    return '\n'.join([cells[0], '|' + '---|' * len(head), *cells[1:]])


def committed(folder: pathlib.Path) -> list[pathlib.Path]:
    """Returns the pages of docs/ without those that are printed and not committed."""
    return [path for path in sorted(folder.rglob('*.md')) if path.relative_to(folder).as_posix() not in NOT_COMMITTED]


def named(path: pathlib.Path) -> str:
    """Returns the name of a file in the repository."""
    return path.relative_to(TOP).as_posix() if path.is_relative_to(TOP) else path.as_posix()


def section(text: str, pattern: str) -> str:
    """Returns the first group of a pattern in a text, or nothing."""
    found = re.search(pattern, text)
    return found[1] if found else ''
