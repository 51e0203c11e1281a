"""The tables of crates in README.md and docs/dev/architecture.md.

The head of a crate's root file begins with a sentence that says what the crate is. A line `Verified: ..` of it says what is verified, by
which functions, types and theorems. README.md has these lines, docs/dev/architecture.md the sentences with levels and dependencies. The line
`Proved with:` of README.md has to name the logic that `rt version` prints, if `rt` is installed.
"""
from __future__ import annotations

import pathlib
import re
import shutil
import subprocess

from docs.levels import areas_of, cells_of, crossing, levels_of
from docs.sources import TOP, Report, between, code_of, head_of, named, table, uses_of

BEGIN, END = '<!-- Printed by dev/docs from the heads of crates. -->', '<!-- End of what is printed. -->'
MOST_COLUMNS, MOST_LINES = 140, 130
# Names in backticks that are values, programs or commands, and so may stand nowhere in the crate itself.
OTHERS = {'true', 'false', 'recon', 'recon-mesh', 'make bench'}


def sentence_of(head: list[str]) -> str:
    """Returns the first sentence of a crate's head, up to a colon."""
    first = ' '.join(' '.join(head).split())
    return re.split(r'(?<=:) |(?<=[.]) (?=[A-Z`])', re.split(r' Verified: ', first)[0])[0].rstrip('.:')


def verified_of(head: list[str]) -> str:
    """Returns the line of a crate's head that says what is verified, or nothing."""
    return next((line.removeprefix('Verified: ').rstrip('.') for line in head if line.startswith('Verified: ')), '')


def words_of(crate: pathlib.Path) -> set[str]:
    """Returns the identifiers in the sources and specifications of a crate."""
    paths = [*code_of(crate), *crate.glob('specs/**/*.antt')]
    texts = (re.sub(r'(?m)^//!.*', '', path.read_text()) for path in paths)
    return {word for text in texts for word in re.findall(r'\w+', text)}


def faults_of(crate: pathlib.Path) -> list[str]:
    """Returns what is wrong with the head of a crate."""
    said, there = verified_of(head_of(crate)), words_of(crate)
    faults = [] if said else [f'{crate.name} has no line `//! Verified: ..` at its head']
    row = len(f'| `{crate.name}` | {said} |')
    faults += [f'the row of {crate.name} has {row} characters, above {MOST_COLUMNS}'] if row > MOST_COLUMNS else []
    return faults + [f'{crate.name} has no {word}' for word in re.findall('`([^`]+)`', said) if word not in there | OTHERS]


def kit_faults(page: str) -> list[str]:
    """Returns a fault if the page names another logic than the installed toolchain has."""
    if not shutil.which('rt'):
        return []
    said = subprocess.run(['rt', 'version'], capture_output=True, text=True).stdout.split()
    line = next((line for line in page.splitlines() if line.startswith('Proved with:')), '')
    return [] if not said or said[-1] in line else [f'README.md says `{line}`, and `rt version` {" ".join(said)}']


def overview(page: str, heads: dict[str, list[str]]) -> str:
    """Returns README.md with its table: a row for each crate, or for those with the same text."""
    rows: dict[str, list[str]] = {}
    for name, head in heads.items():
        rows.setdefault(verified_of(head), []).append(f'`{name}`')
    return between(page, BEGIN, END, table(['Crate', 'Verified'], [[', '.join(names), said] for said, names in rows.items()]))


def by_level(page: str, heads: dict[str, list[str]], uses: dict[str, list[str]], crates: pathlib.Path) -> str:
    """Returns docs/dev/architecture.md with its table."""
    levels, cells = levels_of(uses), cells_of(uses, crates)
    rows = [[f'`{name}`', cells[name], sentence_of(heads[name])] for name in sorted(heads, key=lambda name: (levels[name], name))]
    return between(page, BEGIN, END, table(['Crate', 'Level: depends on', 'What it is'], rows))


def checked() -> Report:
    """Prints both tables, and checks the heads of crates, the levels and the length of README.md."""
    uses = uses_of((TOP / 'crates.txt').read_text())
    heads = {name: head_of(TOP / 'crates' / name) for name in uses}
    front, architecture = TOP / 'README.md', TOP / 'docs/dev/architecture.md'
    pages = {front: overview(front.read_text(), heads), architecture: by_level(architecture.read_text(), heads, uses, TOP / 'crates')}
    levels, most = levels_of(uses), int(re.findall(r'at most (\d+) levels', pages[architecture])[0])
    faults = [fault for name in uses for fault in faults_of(TOP / 'crates' / name)] + kit_faults(pages[front])
    faults += [f'{name} is at level {at}, above {most}' for name, at in levels.items() if at > most]
    faults += crossing(uses, areas_of(pages[architecture]))
    above = pages[architecture].split(BEGIN)[0]
    faults += [f'{named(architecture)} does not say where {name} belongs' for name in uses if f'`{name}`' not in above]
    lines = len(pages[front].splitlines())
    faults += [f'README.md has {lines} lines, above {MOST_LINES}'] if lines > MOST_LINES else []
    return Report(faults, f'{len(uses)} crates, {max(levels.values())} levels, at most {most}', pages)
