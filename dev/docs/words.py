"""The length of the documents: README.md and docs/ together have at most MOST words, as `wc -w` counts."""
from __future__ import annotations

from docs.sources import TOP, Report, committed

MOST = 85_000


def checked() -> Report:
    """Counts all committed documents."""
    paths = [TOP / 'README.md', *committed(TOP / 'docs')]
    count = sum(len(path.read_text().split()) for path in paths)
    return Report([f'{count} words are more than {MOST}'] if count > MOST else [], f'{count} words in {len(paths)} pages')
