"""The table of errors in docs/reference/errors.md.

Each row is an error of a file with its numbers, as docs/reference/formats.md has it, and how to fix it, as `recon` prints it on standard
error (crates/recon_main/src/advice.rt).
"""
from __future__ import annotations

import re

from docs.sources import TOP, Report, between, table


PAGE, FORMATS, ADVICE = (TOP / name for name in ('docs/reference/errors.md', 'docs/reference/formats.md', 'crates/recon_main/src/advice.rt'))
BEGIN, END = '<!-- Printed by dev/docs from advice.rt and formats.md. -->', '<!-- End of what is printed. -->'
ENTRY = re.compile(r'\(\s*&\[([^]]*)\],\s*"([^"]*)",?\s*\)')
# What stands in backticks on the page: programs, options, elements.
CODE = re.compile(r'\b(recon-[a-z-]+|[a-z]+=\w*|element scanner|int64|nan|inf)(?![\w=])')


def fixes(source: str) -> list[tuple[list[str], str]]:
    """Returns the errors that `recon` knows a fix for, without `refused` and their numbers, and the fix."""
    table = source.split('const CURES')[1].split('\n];')[0]
    return [(re.findall('"([^"]*)"', names), fix) for names, fix in ENTRY.findall(table)]


def arguments(formats: str) -> dict[str, str]:
    """Returns what follows the name of each error, by its number and name."""
    return {found[1]: found[2] for found in re.finditer(r'(?m)^\| `refused (\d+ [a-z_]+) ?([^`]*)`', formats)}


def label(name: str, more: dict[str, str]) -> str:
    """Returns an error with its numbers; one that names an element has those after the element."""
    number, word, *element = name.split()
    rest = more[f'{number} {word}'].split()[len(element):]
    return f"`{' '.join([name, *rest])}`"


def printed(source: str, formats: str) -> str:
    """Returns the table of the page."""
    more = arguments(formats)
    cells = [(', '.join(label(name, more) for name in names), CODE.sub(r'`\1`', fix)) for names, fix in fixes(source)]
    return table(['Error', 'How to fix it'], [list(row) for row in cells])


def checked() -> Report:
    """Prints the table of the page, and finds errors without a fix."""
    source, formats = ADVICE.read_text(), FORMATS.read_text()
    faults = [f'{name} has no fix' for name in arguments(formats) if not any(it.startswith(name) for names, _ in fixes(source) for it in names)]
    return Report(faults, f'{len(fixes(source))} rows of errors and fixes', {PAGE: between(PAGE.read_text(), BEGIN, END, printed(source, formats))})
