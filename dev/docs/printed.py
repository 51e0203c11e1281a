"""Puts what a script printed into a page, in the place of what it printed before.

usage: COMMAND | python3 dev/docs printed PAGE NAME

  PAGE     a page with a line `<!-- printed: NAME -->` and, somewhere after it, `<!-- end -->`; what stands between them is replaced
  NAME     how the page names the block, as "make bench-short"

Of the input the lines of tables alone are taken, those that begin with `|`, and empty lines between tables.
"""
from __future__ import annotations

import sys
from pathlib import Path

from docs.sources import between


def replaced(page: str, name: str, table: str) -> str:
    """Returns the page with the block of this name replaced. Raises ValueError if it has none."""
    return between(page, f'<!-- printed: {name} -->', '<!-- end -->', f'\n{table}')


def main(words: list[str]) -> int:
    if len(words) != 2:
        print((__doc__ or '').strip(), file=sys.stderr)
        return 2
    path, table = Path(words[0]), ''.join(line for line in sys.stdin if line.startswith('|') or line == '\n').strip('\n') + '\n'
    try:
        path.write_text(replaced(path.read_text(encoding='utf-8'), words[1], table), encoding='utf-8')
    except ValueError as error:
        print(f'printed: {path}: {error}', file=sys.stderr)
        return 1
    print(f'printed: {table.count(chr(10))} lines into {path}')
    return 0
