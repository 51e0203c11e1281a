"""The page of all definitions, docs/verification/definitions.md, from its headings and the comments in specs/. It is not committed.

docs/verification/definitions.in.md has the headings in order. After the colon of a heading are crates, or single files as `geo_sign/Sights`; a
crate stands for those of its files of specs/ that no heading names alone. Crates that no heading names follow at the end. Under a heading each
file has the prose of its head and a table: the rows of the head, and then the other names with the comment over each definition. A file comes
after those of the heading that it uses. Each definition needs a description in a head or over it, and no two crates may define a name that is
not in SHARED.
"""
from __future__ import annotations

import dataclasses
import pathlib
import re

from docs.sources import TOP, Report, table, uses_of

DEFINED = re.compile(r'(?:(?:abbrev|unfoldable|pub|record|data) )+(?!mod |use )([^\s:(]+)')
USED = re.compile(r'\bRattle\.(\w+)\.specs\.(\w+)')
ROW = re.compile(r' *(\S.*?)(?:  +(\S.*))?')
MARKED = re.compile(r'`([^`]+)`')
HEAD = """<!-- Printed by dev/docs from definitions.in.md and the comments in specs/. -->
# Definitions

All definitions that contracts cite, in plain English. Nothing else decides what the contracts mean. If a row has several names, their meanings
are in the same order, separated by semicolons; if it has one meaning only, this describes all the names together.

Terms in many rows:

- *Point*: a point with integer coordinates, in scaled units. *Place*: a point with rational coordinates.
- *Cell*: a tetrahedron of the Delaunay tetrahedralization. Its *side* k (0 to 3) is the facet opposite to its vertex k. A *live* cell has a number in the store.
- *In*: inserted (of a vertex). *Free*: not fixed outside (of a cell).
- *Sight*: a line of sight, from a scanner to its point. *Count*: an accumulated visibility weight.
- *Labels*: inside or outside for each cell. *Complex*: the list of all cells and the list of all facets that have a capacity.
- *Mesh writer*: a value that receives points and faces and makes a text of them.

Names that several crates define have the same meaning in each, applied to different things:

{shared}
"""
# The names that more than one crate may define: of networks, of faults in a flow, of readers with their errors, of the two programs' commands
# and ends, of the mesh that a program holds, and of texts. No other name may be defined twice.
SHARED = set("""
cost value IsValidFlow IsAdmissible IsLeastCost IsLeastInside
IsFixedInside IsOverCapacity sink_limit IsOverSink total_out IsUnbalanced IsInsideAlone IsNotLeast AreWithinArcs AreWithinLimits
Gives Fails
Asked command_of asked task_of AnswerOf most_reads StatusFits Outcome RunsOn DoesNothing EndsOn EndsAfterARun
surface_of
IsTextOf
""".split())


@dataclasses.dataclass
class Row:
    """Names with their arguments, and what is said of them together."""
    words: list[str]
    said: str

    def names(self) -> list[str]:
        return [word.split()[0] for word in self.words]


@dataclasses.dataclass
class File:
    """A file of specs/: its crate and name, the prose of its head, its rows, the names that it defines, and the files that it uses."""
    crate: str
    name: str
    prose: str
    rows: list[Row]
    names: set[str]
    uses: set[tuple[str, str]]


def over_definitions(lines: list[str]) -> dict[str, str]:
    """Returns each name that these lines define, with the comment over its definition."""
    over: dict[str, str] = {}
    comment: list[str] = []
    for line in lines:
        if line.startswith(('infix', '-- ----')):
            continue
        if line.startswith('-- '):
            comment.append(line[3:].strip())
            continue
        if found := DEFINED.match(line):
            over.setdefault(found[1].strip('◌'), ' '.join(comment))
        comment = []
    return over


def head_rows(head: list[str], defined: dict[str, str]) -> tuple[str, list[Row]]:
    """Returns the prose of a file's head, and its rows."""
    prose: list[str] = []
    rows: list[Row] = []
    for line in head:
        found = ROW.fullmatch(line[2:])
        row = Row(found[1].split(', '), found[2] or '') if found else None
        if row and all(name in defined for name in row.names()):
            rows.append(row)
        elif rows and line.startswith('--      '):
            rows[-1].said = f'{rows[-1].said} {line[2:].strip()}'.strip()
        else:
            prose.append(line[2:].strip())
    return ' '.join(' '.join(prose).split()), rows


def file_of(crate: str, name: str, text: str) -> File:
    """Returns what a file of specs/ defines and says."""
    lines = text.splitlines()
    size = next((at for at, line in enumerate(lines) if not line.startswith('--')), len(lines))
    over = over_definitions(lines[size:])
    prose, rows = head_rows(lines[:size], over)
    told = {name for row in rows if row.said for name in row.names()}
    rows = [row for row in rows if row.said] + [Row([name], said) for name, said in over.items() if name not in told]
    return File(crate, name, prose, rows, set(over), set(USED.findall(text)))


def in_order(files: list[File]) -> list[File]:
    """Returns files in such an order that each comes after those of them that it uses."""
    left = {(file.crate, file.name): file for file in files}
    ordered: list[File] = []

    def take(file: File) -> None:
        if left.pop((file.crate, file.name), None):
            for used in sorted(file.uses & set(left)):
                take(left.get(used, file))
            ordered.append(file)

    for file in files:
        take(file)
    return ordered


class Words:
    """All files of specs/, in the order of crates.txt."""

    def __init__(self, top: pathlib.Path) -> None:
        self.crates = list(uses_of((top / 'crates.txt').read_text()))
        paths = [path for crate in self.crates for path in sorted((top / 'crates' / crate / 'specs').glob('*.antt'))]
        self.files = [file_of(path.parts[-3], path.stem, path.read_text()) for path in paths]

    def shared(self) -> dict[str, list[str]]:
        """Returns the names that more than one crate defines, each with its crates."""
        by_name: dict[str, dict[str, None]] = {}
        for file in self.files:
            for name in file.names:
                by_name.setdefault(name, {})[file.crate] = None
        return {name: list(crates) for name, crates in sorted(by_name.items()) if len(crates) > 1}

    def bare(self) -> list[str]:
        """Returns the names that neither a head nor a line over them describes, each after its crate and its file."""
        return [f'{file.crate} {file.name} {name}' for file in self.files for row in file.rows if not row.said for name in row.names()]


class Page:
    """The page as it is printed from its headings, and what is wrong with these and with the names."""

    def __init__(self, words: Words, source: str) -> None:
        self.words = words
        shared = words.shared()
        self.faults = [f'{name} is defined in {" and ".join(crates)}' for name, crates in shared.items() if name not in SHARED]
        headings = [(line[3:].split(':')[0], MARKED.findall(line.split(':')[-1])) for line in source.splitlines() if line.startswith('## ')]
        named = [name for _, names in headings for name in names]
        self.faults += [f'{name} has {named.count(name)} headings' for name in sorted(set(named)) if named.count(name) > 1]
        known = {*words.crates, *(f'{file.crate}/{file.name}' for file in words.files)}
        self.faults += [f'there is no {name}, which a heading names' for name in named if name not in known]
        headings.append(('Others', [crate for crate in words.crates if crate not in named]))
        by_crates: dict[str, list[str]] = {}
        for name, crates in shared.items():
            by_crates.setdefault(', '.join(f'`{it}`' for it in crates), []).append(f'`{name}`')
        self.lines = [HEAD.replace('{shared}', '\n'.join(f'- {crates}: {", ".join(names)}' for crates, names in by_crates.items()))]
        for title, names in headings:
            files = [file for name in names for file in words.files if file.rows
                     and (name == f'{file.crate}/{file.name}' or name == file.crate and f'{file.crate}/{file.name}' not in named)]
            self.lines += [f'## {title}', '', *(part for file in in_order(files) for part in self.section(file))] if files else []

    def section(self, file: File) -> list[str]:
        """Returns the lines of the page about a file."""
        rows = [[', '.join(f'`{word}`' for word in row.words), row.said] for row in file.rows]
        return [f'### `{file.crate}/{file.name}`', '', file.prose, '', table(['Name', 'In plain words'], rows), '']

    def text(self) -> str:
        """Returns the page."""
        return '\n'.join(self.lines).rstrip('\n') + '\n'


def checked() -> Report:
    """Prints the page, and finds headings that name nothing, names defined twice, and definitions without a comment."""
    known = Words(TOP)
    page = Page(known, (TOP / 'docs/verification/definitions.in.md').read_text())
    count = sum(len(file.names) for file in known.files)
    return Report(page.faults + [f'nothing is said of {word}' for word in known.bare()],
                  f'{count} in {len(known.files)} files, {len(known.shared())} names in more than one crate',
                  printed={TOP / 'docs/verification/definitions.md': page.text()})
