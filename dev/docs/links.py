"""The links of pages: a fault is one that leads nowhere, a long page without a table of contents, a page or a picture that no page links.

Pages are README.md, those of docs/, and the README.md of folders in dev/. A link to a file has to be one of the repository; `#heading` has to
be a heading of that page, spelled as GitHub and mkdocs do. A page of over 200 lines has to link three of its own headings in its first 60
lines. Links to the network are not looked at.
"""
from __future__ import annotations

import functools
import os
import pathlib
import re

from docs import sources
from docs.sources import Report


LINK = re.compile(r'\]\(([^)\s]+)\)')
LONG, HEAD, ENOUGH = 200, 60, 3
# Linked by nobody: sources of pages that a program prints.
SOURCES = re.compile(r'\.in\.md$')


def pages() -> list[pathlib.Path]:
    """Returns all pages."""
    return [sources.TOP / 'README.md', *sources.committed(sources.TOP / 'docs'), *sorted((sources.TOP / 'dev').glob('*/README.md'))]


@functools.lru_cache(None)
def prose(page: pathlib.Path) -> str:
    """Returns a page without its blocks of code, whose lines stay empty."""
    return re.sub(r'(?ms)^```.*?^```$', lambda found: '\n' * found[0].count('\n'), page.read_text())


@functools.lru_cache(None)
def anchors(page: pathlib.Path) -> set[str]:
    """Returns the anchors of a page: of its headings, and those that it names."""
    found: set[str] = set(re.findall(r'<a (?:id|name)="([^"]+)"', page.read_text()))
    for heading in re.findall(r'(?m)^#{1,6} (.*)$', prose(page)):
        plain = re.sub(r'\[([^]]*)\]\([^)]*\)', r'\1', heading)
        anchor = re.sub(r'[^\w\- ]', '', plain.lower()).replace(' ', '-')
        found.add(anchor if anchor not in found else next(f'{anchor}-{k}' for k in range(1, 99) if f'{anchor}-{k}' not in found))
    return found


def target(page: pathlib.Path, link: str) -> pathlib.Path:
    """Returns the file that a link names."""
    path = link.partition('#')[0]
    return pathlib.Path(os.path.normpath(page.parent / path)) if path else page


def faults_of(page: pathlib.Path) -> list[str]:
    """Returns what is wrong with the links of a page, and with a missing table of contents."""
    name, text, faults = page.relative_to(sources.TOP).as_posix(), prose(page), []
    for found in LINK.finditer(text):
        link, at = found[1], text.count('\n', 0, found.start()) + 1
        if re.match(r'[a-z]+:', link):
            continue
        file, anchor = target(page, link), link.partition('#')[2]
        if not file.exists():
            faults.append(f'{name} line {at}: there is no {link}')
        elif anchor and anchor not in anchors(file):
            faults.append(f'{name} line {at}: {link} names no heading')
    lines = page.read_text().splitlines()
    own = [link for link in LINK.findall('\n'.join(lines[:HEAD])) if link.startswith('#')]
    if len(lines) > LONG and len(own) < ENOUGH and not SOURCES.search(name) and name != 'README.md':
        faults.append(f'{name} has {len(lines)} lines and no table of contents')
    return faults


def orphans() -> list[str]:
    """Returns the pages and pictures of docs/ that no page links."""
    linked = {target(page, link) for page in pages() for link in LINK.findall(prose(page))}
    docs = sources.TOP / 'docs'
    there = [*sources.committed(docs), *(path for path in sorted(docs.rglob('*')) if path.suffix in ('.png', '.svg'))]
    return [f'no page links {path.relative_to(sources.TOP)}' for path in there if path not in linked and not SOURCES.search(path.as_posix())]


def checked() -> Report:
    """Finds links that lead nowhere, long pages without contents, and pages and pictures that nothing links."""
    all_pages = pages()
    count = sum(len(LINK.findall(prose(page))) for page in all_pages)
    return Report([fault for page in all_pages for fault in faults_of(page)] + orphans(), f'{count} links of {len(all_pages)} pages')
