"""The manual pages of the programs, from docs/reference/cli.md and errors.md.

usage: dev/docs manual FOLDER      (prints them into a folder, as `make install` does)

The sections of cli.md on a program become its commands, those of errors.md follow; rows of tables and items of lists become entries, links
become their text. The first paragraph and the table of contents are left out.
"""
from __future__ import annotations

import pathlib
import re
from collections.abc import Iterator

from docs.sources import TOP, Report

NAMES = {'recon': ('reconstruct a closed triangle mesh from a laser scan, with a certificate', 'recon-mesh'),
         'recon-mesh': ('finish a triangle mesh for viewing and printing', 'recon')}
HEAD = r'''.\" Printed by dev/docs from cli.md and errors.md.
.TH %s 1 "" "%s" "User commands"
.SH NAME
%s \- %s
'''
TAIL = r'''.SH SEE ALSO
.BR %s (1);
docs/ of the repository: tutorial.md, howto/, reference/formats.md, verification/guarantees.md.
'''


def roff(text: str) -> str:
    """Returns a text of a page as a line of a manual page: code in bold, links as their text."""
    text = re.sub(r'\[((?:[^][]|\[[^]]*\])*)\]\([^)]*\)', r'\1', text).replace('\\', r'\e')
    text = re.sub(r'\*\*?([^*]+)\*\*?', r'\\fI\1\\fP', text)
    text = re.sub(r'`([^`]+)`', r'\\fB\1\\fP', text).replace('-', r'\-')
    return r'\&' + text if text.startswith(('.', "'")) else text


def cells(row: str) -> list[str]:
    """Returns the cells of a table row."""
    return [cell.strip() for cell in row.strip('|').split(' | ')]


def entry(row: str) -> str:
    """Returns a table row as an entry: the first cell, and the others after it."""
    first, *others = cells(row)
    return f".TP\n{roff(first)}\n{roff('. '.join(re.sub(r'[.]$', '', cell) for cell in others if cell))}"


def body(text: str) -> Iterator[str]:
    """Yields the lines of the manual page for the blocks of a section."""
    for block in re.split(r'\n{2,}', text.strip('\n')):
        lines = block.split('\n')
        if block.startswith('```') or block.startswith('    '):
            yield '.PP\n.nf\n' + '\n'.join(roff(line.strip()) for line in lines if not line.startswith('```')) + '\n.fi'
        elif block.startswith(('|', '<!--')):
            rows = [line for line in lines if line.startswith('|')]
            count = len(cells(rows[0])) - (cells(rows[0])[-1] == 'See') if rows else 0
            yield from (entry(' | '.join(cells(row)[:count])) for row in rows[2:])
        elif block.startswith('- '):
            yield from (r'.IP \(bu 2' + '\n' + roff(line[2:]) for line in lines)
        elif block:
            yield '.PP\n' + roff(' '.join(lines))


def sections(page: str) -> Iterator[tuple[str, str]]:
    """Yields the headings of a page and what follows them; the first is empty."""
    first, *rest = re.split(r'(?m)^## ', page)
    yield '', '\n\n'.join(part for part in first.split('\n\n')[2:] if not part.startswith('- ['))
    yield from ((part.partition('\n')[0], part.partition('\n')[2]) for part in rest)


def printed(program: str, cli: str, errors: str) -> str:
    """Returns the manual page of a program."""
    what, other = NAMES[program]
    (_, about), *parts = sections(cli)
    mine = [(head, text) for head, text in parts if head.startswith(f'`{program} ')]
    general = [] if program == 'recon-mesh' else [(head, text) for head, text in parts if not head.startswith('`')]
    uses = [line.strip() for _, text in mine for line in text.splitlines() if line.startswith(f'    {program} ')]
    out = [HEAD % (program.upper(), program, program, what) + '.SH SYNOPSIS\n.nf\n' + '\n'.join(map(roff, dict.fromkeys(uses))) + '\n.fi']
    out += ['.SH DESCRIPTION', *body(about)]
    for head, text in general:
        out += [f'.SH {roff(head).upper()}', *body(text)]
    out.append('.SH COMMANDS')
    for head, text in mine:
        out += [f'.SS {roff(head)}', *body(text)]
    for head, text in list(sections(errors))[1:]:
        out += ['.SH ' + re.sub(r'\\F([BP])', r'\\f\1', roff(head).upper()), *body(text)]
    return '\n'.join(out) + '\n' + TAIL % other


def pages() -> dict[str, str]:
    """Returns the manual pages, each by the name of its file."""
    cli, errors = ((TOP / 'docs/reference' / name).read_text() for name in ('cli.md', 'errors.md'))
    return {f'{program}.1': printed(program, cli, errors) for program in NAMES}


def checked() -> Report:
    """Prints the manual pages, and finds a command that has no section."""
    made = pages()
    faults = [f'{name} has no commands' for name, page in made.items() if page.count('.SS') < 3]
    return Report(faults, ', '.join(f'{len(page.splitlines())} lines of {name}' for name, page in made.items()))


def main(words: list[str]) -> int:
    for name, page in pages().items():
        path = pathlib.Path(words[0], name)
        path.parent.mkdir(parents=True, exist_ok=True)
        path.write_text(page)
    return 0
