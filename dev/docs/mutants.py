"""The mutants that docs/verification/mutants.md names, and whether each edit can be applied to the current sources.

The edits are those that the gate tries, crates/NAME/must-fail/, and those that only `make attack` tries, attack/NAME/. A mutant that the page
names with its crate, as `solution/equal_sights_counted_once`, has to be one that the gate tries. Each text that an edit removes has to occur in its
file exactly once, after the pairs before it have been applied, and no name may occur twice in a crate.

usage: dev/docs mutants list      (prints the mutants of each crate)
"""
from __future__ import annotations

import collections
import pathlib
import re

from docs.sources import TOP, Report

NAME = re.compile(r'([a-z0-9_]+/)?[a-z0-9]+(_[a-z0-9]+)+')


def tried_by_the_gate() -> list[pathlib.Path]:
    """Returns the paths of the edits that the gate tries."""
    return sorted(TOP.glob('crates/*/must-fail/*.edit'))


def tried_by_attack() -> list[pathlib.Path]:
    """Returns the paths of the edits that only `make attack` tries."""
    return sorted(TOP.glob('attack/*/*.edit'))


def crate_of(path: pathlib.Path) -> pathlib.Path:
    """Returns the folder of the crate whose code an edit changes."""
    return path.parent.parent if path.parent.name == 'must-fail' else TOP / 'crates' / path.parent.name


def named(lines: list[str]) -> list[tuple[int, str]]:
    """Returns the names in the last column of the tables of these lines, each with its line."""
    cells = [(at, line.rstrip(' |').split('|')[-1]) for at, line in enumerate(lines, 1) if line.startswith('|')]
    words = [(at, word.strip(' .…`')) for at, cell in cells for word in cell.split(',')]
    return [(at, word) for at, word in words if NAME.fullmatch(word)]


def faults_of(path: pathlib.Path) -> list[str]:
    """Returns what keeps an edit from being applied."""
    name, file, old, texts, pairs = path.relative_to(TOP), None, None, {}, 0
    for line in path.read_text().splitlines():
        word, _, text = line.partition(':')
        text = text.removeprefix(' ')
        if word == 'file' and old is None:
            file = crate_of(path) / text
            if not file.is_file():
                return [f'{name} names {text}, which its crate has not']
            texts.setdefault(file, file.read_text())
        elif word == 'old' and file and old is None:
            old = text
            if texts[file].count(old) != 1:
                return [f'{name} takes away what stands {texts[file].count(old)} times: {old}']
        elif word == 'new' and old is not None:
            texts[file], old, pairs = texts[file].replace(old, text), None, pairs + 1
        else:
            return [f'{name} has a line that is out of place: {line}']
    return [] if pairs and old is None else [f'{name} ends without a pair of lines old: and new:']


def checked() -> Report:
    """Finds edits that cannot be applied, and mutants that the page names and no edit has."""
    gate, attack = tried_by_the_gate(), tried_by_attack()
    paths = gate + attack
    known = {path.stem for path in paths} | {f'{crate_of(path).name}/{path.stem}' for path in gate}
    words = named((TOP / 'docs/verification/mutants.md').read_text().splitlines())
    faults = [f'docs/verification/mutants.md line {at} names {word}' for at, word in words if word not in known]
    faults += [fault for path in paths for fault in faults_of(path)]
    places = collections.Counter((crate_of(path).name, path.stem) for path in paths)
    faults += [f'{crate} has {name} twice' for (crate, name), count in places.items() if count > 1]
    summary = (f'{len(gate)} tried by the gate, {len(attack)} more by make attack, in {len({crate_of(path) for path in paths})} crates, '
               f"{len({word.split('/')[-1] for _, word in words if word in known})} named in docs/verification/mutants.md")
    return Report(faults, summary)


def main(words: list[str]) -> int:
    paths = tried_by_the_gate() + tried_by_attack()
    for crate in sorted({crate_of(path).name for path in paths}):
        print(f'{crate}: ' + ', '.join(path.stem for path in paths if crate_of(path).name == crate))
    return 0
