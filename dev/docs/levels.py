"""The level of each crate and what it depends on.

The level of a crate is that of crates.txt. It depends on those crates that its files name outside of comments and tests; of these the ones
are shown on which no other of them depends. A crate that has only tests depends on all that it uses.

The page's table of areas states which crate is in which. No crate of geometry, cells, flow, labels, data or meshes may depend, directly or
through others, on a crate of texts or of the environment: a change there would verify it again for nothing.
"""
from __future__ import annotations

import pathlib
import re

# Areas of the page whose crates compute, and those whose crates read and write.
COMPUTING = ('data', 'geometry', 'cells', 'flow', 'labels', 'meshes')
OUTSIDE = ('texts', 'environment')


def levels_of(uses: dict[str, list[str]]) -> dict[str, int]:
    """Returns each crate's level: 1 where it uses none, else one more than the highest that it uses."""
    levels = {}

    def level(name: str) -> int:
        if name not in levels:
            levels[name] = 1 + max((level(it) for it in uses[name]), default=0)
        return levels[name]

    for name in uses:
        level(name)
    return levels


def named_in(folder: pathlib.Path) -> set[str]:
    """Returns the names of crates, and some others, that the files of a crate name outside of comments and tests."""
    paths = [path for part in ('src', 'specs', 'proofs') for path in (folder / part).rglob('*.*')]
    texts = [path.read_text() for path in paths if path.name != 'tests.rt' and 'tests' not in path.relative_to(folder).parts]
    return {name for text in texts for names in re.findall(r'\bRattle\.(\w+)\.|\b(\w+)::', re.sub(r'(?m)(//|-- ).*', '', text)) for name in names}


def below_each(uses: dict[str, list[str]]) -> dict[str, list[str]]:
    """Returns for each crate those that it uses and on which no other crate that it uses depends, directly or through others."""
    below: dict[str, set[str]] = {}

    def all_below(name: str) -> set[str]:
        if name not in below:
            below[name] = set(uses[name]).union(*map(all_below, uses[name]))
        return below[name]

    return {name: [it for it in used if not any(it in all_below(other) for other in used)] for name, used in uses.items()}


def areas_of(page: str) -> dict[str, list[str]]:
    """Returns the crates of each area in the page's table of areas."""
    table = page.split('| Area | Crates |')[1].split('\n\n')[0]
    return {area: re.findall(r'`(\w+)`', names) for area, names in re.findall(r'(?m)^\| ([^|`]+?) \| (`[^|]*) \|$', table)}


def crossing(uses: dict[str, list[str]], areas: dict[str, list[str]]) -> list[str]:
    """Returns what is wrong with the areas: a missing one, or a crate that computes and depends on one that reads or writes."""
    faults = [f'docs/dev/architecture.md has no area {area}' for area in (*COMPUTING, *OUTSIDE) if area not in areas]
    outside = {name for area in OUTSIDE for name in areas.get(area, [])}
    return faults + [f'{name} is of {area}, but depends on {used}, which is of texts or the environment'
                     for area in COMPUTING for name in areas.get(area, []) for used in uses.get(name, []) if used in outside]


def cells_of(uses: dict[str, list[str]], crates: pathlib.Path) -> dict[str, str]:
    """Returns the level of each crate and what it depends on, as in the page's table."""
    named = {name: [it for it in used if it in names] or used for name, used in uses.items() for names in [named_in(crates / name)]}
    below = below_each(named)
    return {name: ': '.join(filter(None, [str(level), ', '.join(f'`{it}`' for it in below[name])])) for name, level in levels_of(uses).items()}
