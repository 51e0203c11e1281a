"""Each fact in one text: no sentence about a crate is on two pages, and no command on more than MOST pages.

Sentences are those of the comment at the head of a crate's root file, its line `Verified: ..` included, of SHORT words or more; parts after a
colon or a semicolon count alone. Marks between words do not matter.

A page names a command if it has `PROGRAM COMMAND`, as `recon-mesh finish`, outside of blocks of code: a test runs those, and so finds
the ones to change. Records of decisions do not count, since nobody changes them when a command changes. A page that only uses a command links
the page that describes it. The commands are those of the headings of docs/reference/cli.md, so a new one counts at once.
"""
from __future__ import annotations

import re

from docs.sources import TOP, Report, committed, head_of, uses_of

MOST, SHORT = 7, 5
BLOCK = re.compile(r'(?ms)^ *```.*?^ *```')
COMMAND = re.compile(r'(?m)^## `(recon(?:-mesh)? \w+)`$')


def words_of(text: str) -> str:
    """Returns a text as words, without links' targets, marks and line ends."""
    return ' '.join(re.findall(r'[\w-]+', re.sub(r'\]\([^)]*\)', ' ', text.lower())))


def sentences_of(head: list[str]) -> list[str]:
    """Returns the sentences of a crate's head, each as words."""
    text = BLOCK.sub('', '\n'.join(head)).replace('Verified: ', '')
    parts = (part for paragraph in text.split('\n\n') for part in re.split(r'[.:;]\s', ' '.join(paragraph.split()) + ' '))
    return [words for words in map(words_of, parts) if words.count(' ') + 1 >= SHORT]


def repeated(heads: dict[str, list[str]], pages: dict[str, str]) -> list[str]:
    """Returns a fault for each sentence of a head that two pages or more have."""
    texts = {name: f' {words_of(text)} ' for name, text in pages.items()}
    found = {(crate, words): [name for name, text in texts.items() if f' {words} ' in text] for crate, head in heads.items() for words in sentences_of(head)}
    return [f'{" and ".join(names)} have a sentence of the head of {crate}: {words}' for (crate, words), names in found.items() if len(names) > 1]


def commands_of(cli: str) -> list[str]:
    """Returns the commands that the page of the command line describes."""
    return COMMAND.findall(cli)


def naming(command: str, pages: dict[str, str]) -> list[str]:
    """Returns the pages that name a command."""
    pattern = re.compile(rf'(?<![-\w/]){command}\b')
    return [name for name, text in pages.items() if not name.startswith('docs/decisions/') and pattern.search(BLOCK.sub('', text))]


def checked() -> Report:
    """Checks all committed pages."""
    pages = {path.relative_to(TOP).as_posix(): path.read_text() for path in [TOP / 'README.md', *committed(TOP / 'docs')]}
    heads = {name: head_of(TOP / 'crates' / name) for name in uses_of((TOP / 'crates.txt').read_text())}
    on = {command: naming(command, pages) for command in commands_of(pages['docs/reference/cli.md'])}
    faults = [f'{command} is on {len(names)} pages, above {MOST}: {", ".join(names)}' for command, names in on.items() if len(names) > MOST]
    return Report(repeated(heads, pages) + faults + ([] if on else ['no command was found']),
                  f'no sentence of {len(heads)} crates on two pages, {len(on)} commands on at most {max(map(len, on.values()), default=0)} pages each')
