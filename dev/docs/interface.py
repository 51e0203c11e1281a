"""The public interface in docs/reference/api.md, which lists items by name.

usage: dev/docs interface show CRATE [NAME]   (prints the rows of a crate's public items, or of one item, from the sources)

After the items of each crate stands a sum over their signatures, so that a changed signature shows. docs/reference/signatures.md, which is not
committed, has the signatures themselves. Contracts, comments, attributes and private
fields are left out of both. An item that another crate declares counts if a crate exports it by `pub use`.
"""
from __future__ import annotations

import hashlib
import re
from collections.abc import Iterator

from docs.crates import sentence_of
from docs.sources import TOP, Report, code_of, head_of, table

PAGE = TOP / 'docs/reference/api.md'
ITEM = re.compile(r'(pub )?(const |unsafe )?(fn|struct|enum|trait|type|const) (\w+)')
CONTEXT = re.compile(r'(?:pub )?(?:impl(?:<[^{]*?>)? (?:[^{]*? for )?(\w+)|trait (\w+))[^{;]*\{')


def plain(text: str) -> str:
    """Returns a source without comments, attributes and test modules, with single spaces."""
    text = re.sub(r'//[^\n]*', '', text)
    text = re.sub(r'#!?\[[^\]]*\]', '', text)
    return ' '.join(text.split())


def closing(text: str, start: int, pair: str = '{}') -> int:
    """Returns the index after the bracket that closes the one at `start`."""
    depth = 0
    for at in range(start, len(text)):
        depth += (text[at] == pair[0]) - (text[at] == pair[1])
        if not depth:
            return at + 1
    raise ValueError(f'a bracket is not closed: {text[start:start + 60]}')


def folded(text: str) -> str:
    """Returns a signature without spaces inside of brackets and without last commas."""
    text = re.sub(r'([(<\[]) ', r'\1', re.sub(r',? ([)>\]])', r'\1', text.replace('->', '→')))
    return re.sub(r',? }', ' }', text).replace('→', '->').strip()


def public_fields(body: str) -> str:
    """Returns the public fields of a struct, with `..` where it has private ones."""
    fields = [it.strip() for it in re.split(r',(?![^<(\[{]*[>)\]}])', body) if it.strip() and not re.match(r'(pub )?ghost ', it.strip())]
    shown = [it for it in fields if it.startswith('pub ')]
    return ', '.join(shown + ['..'] * (len(shown) < len(fields)))


def signature(text: str, at: int, kind: str) -> str:
    """Returns the signature of the item that begins at an index of a plain source."""
    if kind == 'fn':
        end = closing(text, text.index('(', at), '()')
        stop = re.compile(r' (?:requires|ensures|decreases|where|\{)|;(?! \w+\])').search(text, end)
        return folded(text[at:stop.start() if stop else len(text)])
    if kind == 'trait':
        return folded(text[at:text.index('{', at)])
    brace, stop = text.find('{', at), text.find(';', at)
    if kind in ('type', 'const') or (0 <= stop and (brace < 0 or stop < brace)):
        return folded(text[at:stop])
    body = text[brace + 1:closing(text, brace) - 1].strip()
    return folded(f"{text[at:brace].strip()} {{ {public_fields(body) if kind == 'struct' else body} }}")


def items_in(text: str, owner: str = '') -> Iterator[tuple[str, str]]:
    """Yields the public items of a plain source, each with its signature; those of a trait are public without a word."""
    at = 0
    while at < len(text):
        context, item = CONTEXT.match(text, at), ITEM.match(text, at)
        if context:
            name, end = context[1] or context[2], closing(text, context.end() - 1)
            if context[2] and text.startswith('pub ', at):
                yield name, signature(text, at, 'trait')
            yield from ((inner if '::' in inner else f'{name}::{inner}', row)
                        for inner, row in items_in(text[context.end():end - 1], 'trait' if context[2] else 'impl'))
            at = end
        elif item and (item[1] or owner == 'trait'):
            yield item[4], signature(text, at, item[3])
            at = item.end()
        elif text[at] == '{':
            at = closing(text, at)
        else:
            at += 1
            while at < len(text) and (text[at - 1].isalnum() or text[at - 1] == '_') and text[at] != '{':
                at += 1


def items_of(crate: str) -> dict[str, str]:
    """Returns the public items of a crate, each with its signature, and those of other crates that it exports."""
    folder = TOP / 'crates' / crate / 'src'
    texts = [plain(path.read_text()) for path in code_of(folder.parent)]
    found = {name: row for text in texts for name, row in items_in(text)}
    root = next(plain((folder / name).read_text()) for name in ('lib.rt', 'main.rt') if (folder / name).is_file())
    exported = {name for group in re.findall(r'\bpub use ([^;]*);', root) for name in re.findall(r'\w+', group)}
    declared = {name for name, _ in items_in(root)}
    shown = {name: row for name, row in found.items() if name.split('::')[0] in exported | declared}
    uses = re.findall(r'\bpub use (\w+)::(?:(\w+)|\{([^}]*)\})', root)
    for source, one, several in uses:
        is_own = (folder / f'{source}.rt').exists() or (folder / source).exists()
        if not is_own and (TOP / 'crates' / source).is_dir():
            theirs = items_of(source)
            for name in re.findall(r'\w+', one or several):
                shown |= {key: row for key, row in theirs.items() if key.split('::')[0] == name}
    return shown


def lists_of(page: str) -> list[tuple[str, str, list[str]]]:
    """Returns the lists of items of the page: the line, the crate, the items."""
    lists, crate = [], ''
    for line in page.splitlines():
        if head := re.fullmatch(r'#+ `(\w+)`.*', line):
            crate = head[1]
        elif line.startswith('Items: '):
            lists.append((line, crate, re.findall(r'`([\w:]+)`', line)))
    return lists


def checked() -> Report:
    """Prints the sums of the page, and the page with signatures; finds items that the sources have not."""
    page, faults, count = PAGE.read_text(), list[str](), 0
    summed = printed = page
    for line, crate, names in lists_of(page):
        known = items_of(crate) if (TOP / 'crates' / crate).is_dir() else {}
        faults += [f'{crate} has no public {name}' for name in names if name not in known]
        rows = [(name, known.get(name, '')) for name in names]
        number = hashlib.sha256('\n'.join(map(' '.join, rows)).encode()).hexdigest()[:8]
        summed = summed.replace(line, f"Items: {', '.join(f'`{name}`' for name in names)} ({number}).")
        printed = printed.replace(f'`{crate}`\n', f'`{crate}`\n\n{sentence_of(head_of(TOP / "crates" / crate))}.\n', 1) if known else printed
        printed = printed.replace(line, table(['Item', 'Signature'], [[f'`{name}`', f'`{row}`'] for name, row in rows]))
        count += len(names)
    return Report(faults, f'{count} public items', {PAGE: summed}, {PAGE.with_name('signatures.md'): printed})


def main(words: list[str]) -> int:
    for name, row in items_of(words[1]).items():
        if len(words) == 2 or name == words[2]:
            print(f'| `{name}` | `{row}` |')
    return 0
