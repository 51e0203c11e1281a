"""What the libraries guarantee, docs/verification/libraries.md, from the heads of crates and the comments over their public functions.

The page is not committed. For each crate it has the paragraph `Verified: ..` of the crate's head, its theorems (public functions with an empty
body, whose contract is the statement), and its other public functions.
"""
from __future__ import annotations

import pathlib
import re
from collections.abc import Iterator
from typing import NamedTuple

from docs.crates import sentence_of
from docs.sources import TOP, Report, code_of, head_of, uses_of

OWNER = re.compile(r'(?:pub )?(?:impl(?:<[^{]*?>)? (?:[^{]*? for )?|trait )(\w+)')
CALL = re.compile(r'( *)(pub )?fn (\w+)')
HEAD = """<!-- Printed by dev/docs from the heads of crates and the comments over their functions. -->
# What the libraries guarantee

For each crate: what it is, what is verified, its theorems and its other public functions. A theorem is a function with an empty body, whose
contract is the statement. The contracts are in the sources (`crates/NAME/src`). [Guarantees](guarantees.md) has those of the programs.
"""


class Call(NamedTuple):
    """A public function: its name after its type, the comment over it, and whether it has an empty body at the left margin."""
    name: str
    said: str
    is_theorem: bool


def verified_in(head: list[str]) -> str:
    """Returns the paragraph of a crate's head that says what is verified, or nothing."""
    found = re.search(r'(?m)^Verified: ((?:.+\n?)+)', '\n'.join(head))
    return ' '.join(found[1].split()) if found else ''


def calls_in(text: str) -> Iterator[Call]:
    """Yields the public functions of a source, and those of its traits, which have a comment."""
    owner, is_trait, said = '', False, list[str]()
    lines = text.splitlines()
    for at, line in enumerate(lines):
        if line.startswith('}'):
            owner, is_trait = '', False
        elif found := OWNER.match(line):
            owner, is_trait = found[1], 'trait ' in line.split('{')[0]
        if line.strip().startswith('///'):
            said.append(line.strip()[3:].strip())
        elif (found := CALL.match(line)) and said and (found[2] or is_trait):
            end = next((it for it in lines[at:] if it in ('{}', '{', '}') or it.endswith(' {')), '')
            yield Call(f'{owner}::{found[3]}' if owner and found[1] else found[3], ' '.join(said), end == '{}' and not found[1])
        if not line.strip().startswith(('///', '#[')):
            said = []


def calls_of(crate: pathlib.Path) -> list[Call]:
    """Returns the public functions of a crate, without those of its tests."""
    return [it for path in code_of(crate) for it in calls_in(path.read_text())]


def section(crate: pathlib.Path) -> str:
    """Returns what the page says of a crate."""
    head, calls = head_of(crate), calls_of(crate)
    said = verified_in(head)
    lines = [f'## `{crate.name}`', '', f'{sentence_of(head)}.', '', f'{said[:1].upper()}{said[1:]}', '']
    for title, is_theorem in (('Theorems:', True), ('Functions:', False)):
        rows = [f'- `{it.name}`: {it.said}' for it in calls if it.is_theorem == is_theorem]
        lines += [title, '', *rows, ''] if rows else []
    return '\n'.join(lines)


def checked() -> Report:
    """Prints the page."""
    crates = [TOP / 'crates' / name for name in uses_of((TOP / 'crates.txt').read_text())]
    calls = [it for crate in crates for it in calls_of(crate)]
    theorems = sum(it.is_theorem for it in calls)
    page = HEAD + '\n' + '\n'.join(section(crate) for crate in crates)
    return Report([] if theorems else ['no theorem was found'], f'{theorems} theorems and {len(calls) - theorems} other functions of {len(crates)} crates',
                  printed={TOP / 'docs/verification/libraries.md': page})
