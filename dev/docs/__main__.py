#!/usr/bin/env python3
"""Checks the documents and prints those parts of them that are printed from sources.

usage: dev/docs [PART..]              checks (default: all parts, as the gate does)
       dev/docs write [PART..]        first prints the committed pages, and the parts of pages, that come from sources
       dev/docs print [PART..]        prints the pages that are not committed (`make docs` does)
       dev/docs PROGRAM ARGUMENTS     runs a program of the package with arguments; with --help it says which

Parts:
  crates        README.md and docs/dev/architecture.md have the tables of crates that the heads of crates come to; levels are few
  definitions   docs/verification/definitions.md (not committed) can be printed; each definition has a comment
  believed      docs/verification/audit.md and the counts in guarantees.md
  libraries     docs/verification/libraries.md (not committed) can be printed; what the libraries guarantee
  mutants       each mutant can be applied, and the page names those that exist
  examples      the examples on the pages of crates are the bodies of tests
  interface     the items of docs/reference/api.md and sums over their signatures; docs/reference/signatures.md (not committed)
  errors        the table of errors in docs/reference/errors.md
  manual        the manual pages can be printed
  links         links lead somewhere
  words         the documents are not too long
  facts         no sentence about a crate is on two pages, and no command on many
  phrases       no phrase of a list is used
Programs: believed, interface, manual, mutants, pages, phrases, printed.
"""
from __future__ import annotations

import difflib
import importlib
import pathlib
import sys
from typing import Any

DEV = pathlib.Path(__file__).resolve().parent.parent
if not __package__:
    sys.path.insert(0, str(DEV))

from docs.sources import Report, named  # noqa: E402
from report import begun, reported  # noqa: E402

PARTS = ('crates', 'definitions', 'believed', 'libraries', 'mutants', 'examples', 'interface', 'errors', 'manual', 'links', 'words', 'facts', 'phrases')
PROGRAMS = ('believed', 'interface', 'manual', 'mutants', 'pages', 'phrases', 'printed')


def module(name: str) -> Any:
    """Returns a module of the package."""
    return importlib.import_module(f'docs.{name}')


def report_of(name: str) -> Report:
    """Returns what a part finds."""
    found: Report = module(name).checked()
    return found


def differences(path: pathlib.Path, wanted: str) -> list[str]:
    """Returns the lines in which a page differs from what is printed."""
    there = path.read_text() if path.is_file() else ''
    lines = difflib.unified_diff(there.splitlines(), wanted.splitlines(), named(path), f'what `dev/docs write` prints into {named(path)}', lineterm='', n=0)
    return [line for line in lines if not line.startswith('@@')]


def main(words: list[str]) -> int:
    if words and words[0] in PROGRAMS and (words[1] not in PARTS if len(words) > 1 else words[0] not in PARTS):
        program: Any = module(words[0])
        del sys.argv[1]
        begun(program.__doc__)
        return int(program.main(words[1:]))
    verb = words[0] if words and words[0] in ('write', 'print') else ''
    names = words[bool(verb):] or list(PARTS)
    if unknown := [name for name in names if name not in PARTS]:
        print(f'docs: there is no part {unknown[0]}; see dev/docs --help', file=sys.stderr)
        return 2
    status = 0
    for name in names:
        report = report_of(name)
        for path, text in (report.pages if verb == 'write' else report.printed if verb == 'print' else {}).items():
            path.write_text(text)
        differing = [line for path, text in report.pages.items() for line in differences(path, text)]
        status |= reported(name, report.faults + differing, report.summary)
    return status


if __name__ == '__main__':
    begun(__doc__)
    sys.exit(main(sys.argv[1:]))
