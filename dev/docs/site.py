"""Hooks of mkdocs (mkdocs.yml): README.md becomes the first page of the site, and links to files outside of docs/ become plain text."""
from __future__ import annotations

import os
import re
from pathlib import Path
from typing import Any

TOP = Path(__file__).resolve().parents[2]
LINK = re.compile(r'(!?)\[((?:[^][]|\[[^]]*\])*)\]\(([^)\s]+)\)')


def on_files(files: Any, config: Any) -> Any:
    """Adds README.md as index.md, and leaves out the sources of printed pages."""
    from mkdocs.structure.files import File
    for file in [file for file in files if file.src_path.endswith('.in.md')]:
        files.remove(file)
    index = File('index.md', config['docs_dir'], config['site_dir'], config['use_directory_urls'])
    index.abs_src_path = str(TOP / 'README.md')
    files.append(index)
    return files


def on_page_markdown(markdown: str, page: Any, config: Any, files: Any) -> str:
    """Makes the links of a page those of the site."""
    folder = '' if page.file.src_path == 'index.md' else 'docs/' + os.path.dirname(page.file.src_path)

    def linked(found: re.Match[str]) -> str:
        mark, text, link = found.groups()
        if re.match(r'[a-z]+:|#', link):
            return found[0]
        path, _, anchor = link.partition('#')
        target = os.path.normpath(os.path.join(folder, path))
        if not target.startswith('docs/'):
            return text
        at = os.path.relpath(target[len('docs/'):], os.path.dirname(page.file.src_path) or '.')
        return f'{mark}[{text}]({at}{"#" + anchor if anchor else ""})'

    # A list right after a line of text is a list on GitHub; Python-Markdown wants an empty line before it.
    spaced = re.sub(r'(?m)^(?![-*\d\s>|#])(.+)\n(?=- )', r'\1\n\n', markdown)
    return LINK.sub(linked, spaced)
