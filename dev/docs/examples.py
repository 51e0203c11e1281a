"""The examples of crates: it is a fault if the example of a crate's page (under `# Example` in the `//!` of its root file) is not, line by line, the body of the crate's
test `example`, if only one of the two exists, or if a library crate has none. The test may be in a crate of tests, as `example_of_CRATE`.
"""
from __future__ import annotations

import itertools
import pathlib
import re

from docs.sources import TOP, Report, head_of


LIBRARIES = ('geo_sign', 'ply_rows', 'max_flow', 'delaunay')
BLOCK = re.compile(r'(?ms)^# Example\n(?:(?!#|```)[^\n]*\n)*```\w*\n(.*?)^```$')
TEST = r'(?ms)^( *)#\[test\]\n(?:\1#[^\n]*\n)*\1fn %s\(.*?\{\n(.*?)^\1\}$'


def block_of(crate: pathlib.Path) -> list[str] | None:
    """Returns the lines of the example on a crate's page, or None."""
    found = BLOCK.search('\n'.join(head_of(crate)))
    return found[1].splitlines() if found else None


def body_of(crate: pathlib.Path) -> list[str] | None:
    """Returns the lines of the body of a crate's test `example`, without its indentation, or None."""
    places = [('example', path) for path in crate.glob('src/**/*.rt')]
    places += [(f'example_of_{crate.name}', path) for path in TOP.glob('crates/*_tests/src/tests/*.rt')]
    for name, path in sorted(places):
        if found := re.search(TEST % name, path.read_text()):
            return [line.removeprefix(found[1] + '    ') for line in found[2].splitlines()]
    return None


def faults_of(crate: pathlib.Path) -> list[str]:
    """Returns what is wrong with the example of the crate in a folder."""
    block, body = block_of(crate), body_of(crate)
    if block is None and body is None:
        return [f'{crate.name} has none'] if crate.name in LIBRARIES else []
    if block is None:
        return [f'{crate.name} has a test `example`, and none on its page']
    if body is None:
        return [f'{crate.name} has one on its page, and no test `example`']
    pairs = enumerate(itertools.zip_longest(block, body, fillvalue='no line'), 1)
    differing = [(at, shown, tested) for at, (shown, tested) in pairs if shown != tested]
    return [f'{crate.name}: line {at} is `{shown}` on the page, `{tested}` in the test' for at, shown, tested in differing[:1]]


def checked() -> Report:
    """Finds examples that are not their tests."""
    crates = sorted(TOP.glob('crates/*'))
    return Report([fault for crate in crates for fault in faults_of(crate)], f'{sum(block_of(crate) is not None for crate in crates)} in {len(crates)} crates')
