"""The phrases that documents and comments should not have. It is a fault if there are more than ALLOWED, which may only fall.

usage: dev/docs phrases all        (prints the count by phrase and by file)
       dev/docs phrases FILE..     (prints each phrase of some files: file, line, what is there, what to write)

Counted are whole words, in upper and lower case, also across line ends, in
  README.md, docs/ (not pages that a program prints, whose sources are counted),
  comments in crates/*/src and crates/*/specs, and help texts and hints in crates/*_main/src,
  docstrings and comments in tools/ and dev/.
Left out are code in backticks and in code blocks, what is quoted by "", link targets, names with underscores (as those of mutants), and
the left column of the tables at the heads of specs/.

Some words are wrong in one sense alone. They count as far as a pattern can tell: `behind`, `in front` and `front` next to a part of a text,
`room` near an arc, a path, a flow or a sink, `form` where a mesh is written into it, `word` as an argument or a definition, `unit` as the
scale (not a unit test, a unit vector or a unit of length), `is worth` before a value, `hand` with in, on, over or out, `across` after a cell
or before a facet, `tube` if it is not thin, `fan` if it is not of triangles. `is proved`, `clause` and `tells` count only in documents for
users: README.md, docs/ without the pages for developers, help texts. All others count wherever they are.
"""
from __future__ import annotations

import ast
import collections
import io
import pathlib
import re
import tokenize
from collections.abc import Callable, Iterator

from docs.sources import NOT_COMMITTED, TOP, Report


ALLOWED = 0
FOR_DEVELOPERS = ('docs/decisions/', 'docs/verification/definitions.in.md', 'docs/reference/api.md', 'docs/dev/')
TEXT = (r'(?:spaces?|bytes?|numbers?|names?|ends?|lines?|rows?|coordinates?|labels?|signs?|digits?|zeros?|minus|headers?|optional|words?|texts?|'
        r'points? of a line|counts?|values?|marks?|colons?|commas?|options?|keys?|exponents?|arguments?|first|last|second|others?|data|program)')
ARTICLE = r'(?:an?|the|its|their|this|that|each|these|those|all|one|other|leading)'
# what not to write, what to write, the pattern where it is not the phrase itself, and whether it counts for users alone
PHRASES = [
    ('want of memory', 'out of memory', r'wants? of memory', False),
    ('refusal', 'error', r'refusals?', False),
    ('mend', 'fix', r'mend(?:s|ed|ing)?', False),
    ('cure', 'fix', r'cure[sd]?', False),
    ('law', 'theorem', r'laws?', False),
    ('wrong body', 'mutant', r'wrong bod(?:y|ies)', False),
    ('is proved', 'is verified', r'(?:is|are|was|were) proved', True),
    ('clause', 'postcondition', r'clauses?', True),
    ('tells', 'states', r'tells?', True),
    ('told', 'passed to the progress callback, or stated', r'told', False),
    ('the program beside', 'the unverified reference implementation', r'programs? beside', False),
    ('plain cells, plain network', 'brute-force oracle', r'plain (?:cells?|net(?:work)?s?)', False),
    ('written positively', 'positively oriented', r'written positively|positively written', False),
    ('written anew', 'reordered by an even permutation', r'written anew', False),
    ('row of a cell', 'sorted vertex tuple', r"rows? of (?:an?|the|its|each|this) cells?|cells?'s? rows?", False),
    ('turned facet', 'opposite facet', r'turned facets?|facets? turned(?: round)?', False),
    ('across', 'adjacent cell', rf'(?:cells?|neighbou?rs?) across|across (?:it|{ARTICLE} (?:facets?|sides?))', False),
    ('fan', 'boundary of the conflict region', r'fans?(?! (?:around|of triangles))', False),
    ('rim', 'boundary of the conflict region', r'rims?', False),
    ('tie rule', 'symbolic perturbation', r'tie rules?', False),
    ('displaced scanner', 'symbolically perturbed scanner', r'displaced scanners?|scanners? (?:is|are) displaced', False),
    ('kept cell', 'incident cell', r'kept cells?', False),
    ('side back', 'mirror index', r'sides? back', False),
    ('room', 'residual capacity', r'(?:arcs?|paths?|flows?|sinks?)\b[^.;:]{0,40}\broom|room\b[^.;:]{0,40}\b(?:arcs?|paths?|flows?|sinks?)', False),
    ('is worth', 'has value', r'(?:is|are) worth(?! (?:it|\w+ing)\b)', False),
    ('fixed cell', 'cell fixed outside', r'fixed cells?|cells? (?:is|are) fixed(?! outside)', False),
    ('least inside', 'minimum cut with the smallest inside', r'least[- ]inside', False),
    ('vote', 'visibility weight', r'votes?', False),
    ('smooth', 'area weight', r'(?:the|of|its|this|costs?|plus|times|larger|smaller) smooth(?=[.,;:)]| (?:and|at|for|is|of|or|plus|times)\b)', False),
    ('smoothing', 'area weight', r'(?:the|of) smoothing(?= (?:weight|of a facet|of each facet))', False),
    ('strays', 'outliers', r'strays?', False),
    ('pieces in the air', 'floating components', r'pieces? in the air', False),
    ('touching edges', 'non-manifold edges', r'touching edges?|edges? that touch', False),
    ('form', 'mesh writer', r'forms? (?:has|have|had) received|(?:(?:into|to|by|for|the|these) )+forms|each form|a form (?:is|was)|mesh forms?', False),
    ('receipt', 'mesh writer', r'receipts?', False),
    ('stamp', 'fingerprint', r'stamps?|stamped', False),
    ('watch', 'progress callback', r'watch(?:es)?', False),
    ('word', 'argument, or definition', r'(?:the|these|its|(?<!in\x20)other|unknown|wrong|no|same|each|all|such|of) words?(?! of the generator)', False),
    ('said line', 'the line on standard output', r'said lines?|lines? (?:is|was|are|were) said', False),
    ('crowd', 'random rays', r'crowds?', False),
    ('tube', 'thin tube', r'(?<!thin\x20)tubes?', False),
    ('unit', 'scale', r'(?:at|in|of|this|the|its|same|another|what|which|smaller|larger) unit\b(?! (?:tests?|vectors?|cubes?|of length))', False),
    ('handed in', 'passed', r'hand(?:s|ed|ing)? (?:in|on|over|out)', False),
    ('behind', 'after', rf'behind (?:{ARTICLE} )*{TEXT}', False),
    ('in front', 'before', rf'in front(?: of (?:{ARTICLE} )*{TEXT})?', False),
    ('front', 'prefix', rf'fronts? of (?:{ARTICLE} )?(?:{TEXT}|files?|mesh(?:es)?|lists?|output|it|them)', False),
    ('rising', 'ascending', r'rising', False),
    ('stands on', 'depends on', r'(?:stands?|stood|standing) on', False),
    ('let go', 'freed', r'lets? go(?: of)?|letting go', False),
    ('so many', 'the number by name', r'so many', False),
    ('of which', 'the thing by name', r'of which', False),
    ('whoever', 'the reader, the caller', r'whoever', False),
]
SPACE = r'(?:[^\S\n]+\n?[^\S\n]*|\n[^\S\n]*)'
PATTERNS = [(name, instead, re.compile(rf'\b(?:{pattern})\b'.replace('[- ]', '(?:-| )').replace(' ', SPACE), re.IGNORECASE), users)
            for name, instead, pattern, users in PHRASES]
LEFT_OUT = [re.compile(it) for it in (r'(?ms)^ *```.*?^ *```', r'(?s)<!--.*?-->', r'``[^`]+``', r'`[^`]+`', r'"[^"\n]{1,200}"', r'\]\([^)\s]*\)',
                                            r'\w*_\w*', r'\w+=\S*')]


def blanked(text: str) -> str:
    """Returns a text of the same lines without what is left out."""
    for pattern in LEFT_OUT:
        text = pattern.sub(lambda found: '\n' * found[0].count('\n') or '¤', text)
    return text


def comments_of(text: str, mark: str) -> str:
    """Returns the comments that have lines of their own or end a line, each in its line; without the left column of a table."""
    lines = []
    for line in text.splitlines():
        code, found, comment = line.partition(mark)
        is_comment = found and (not code.strip() or code.endswith(' ') and code.count('"') % 2 == 0)
        lines.append(re.sub(r'^   (?=\S).*?(?:   *(?=\S)|$)', '', comment.lstrip('/!')) if is_comment else '¤')
    return '\n'.join(lines)


def strings_of(text: str) -> str:
    """Returns the string literals of a Rust source that have a space, each in its line, without what is printed into them."""
    return '\n'.join(' ¤ '.join(re.sub(r'\{[^}]*\}', '¤', it) for it in re.findall(r'"((?:[^"\\]|\\.)* (?:[^"\\]|\\.)*)"', re.sub('//.*', '', line))) or '¤'
                     for line in text.splitlines())


def python_comments_of(text: str) -> str:
    """Returns the docstrings and comments of a Python source, each in its line."""
    lines = ['¤'] * (text.count('\n') + 2)
    for token in tokenize.generate_tokens(io.StringIO(text).readline):
        if token.type == tokenize.COMMENT and not token.string.startswith('#!'):
            lines[token.start[0] - 1] = token.string.lstrip('# ')
    for node in ast.walk(ast.parse(text)):
        if isinstance(node, (ast.Module, ast.ClassDef, ast.FunctionDef)) and ast.get_docstring(node):
            value = node.body[0]
            lines[value.lineno - 1:value.end_lineno] = text.splitlines()[value.lineno - 1:value.end_lineno]
    return re.sub('"""', '', '\n'.join(lines))


def documents(top: pathlib.Path) -> Iterator[tuple[str, str, bool]]:
    """Yields the name of each file, its prose in the lines of the file, and whether users read it."""
    kinds: list[tuple[str, Callable[[str], str], bool]] = [
        ('README.md', str, True), ('docs/**/*.md', str, True), ('crates/*_main/src/**/*.rt', strings_of, True),
        ('crates/*/src/**/*.rt', lambda text: comments_of(text, '//'), False),
        ('crates/*/specs/**/*.antt', lambda text: comments_of(text, '--'), False),
        ('tools/**/*.py', python_comments_of, False), ('dev/**/*.py', python_comments_of, False)]
    for pattern, prose_of, users in kinds:
        for path in sorted(top.glob(pattern)):
            name, text = path.relative_to(top).as_posix(), path.read_text()
            if not text.startswith('<!-- Printed by') and path.relative_to(top / 'docs' if path.is_relative_to(top / 'docs') else top).as_posix() not in NOT_COMMITTED:
                yield name, blanked(prose_of(text)), users and not name.startswith(FOR_DEVELOPERS)


def found_in(prose: str, users: bool) -> Iterator[tuple[int, str, str, str]]:
    """Yields each phrase of a prose: its line, its text, the phrase of the table, and what to write."""
    for name, instead, pattern, for_users in PATTERNS:
        if users or not for_users:
            for found in pattern.finditer(prose):
                yield prose.count('\n', 0, found.start()) + 1, ' '.join(found[0].split()), name, instead


def listed(top: pathlib.Path, files: list[str]) -> Iterator[str]:
    """Yields a line for each phrase of some files."""
    for file, prose, users in documents(top):
        if file in files:
            for line, text, _, instead in sorted(found_in(prose, users)):
                yield f'{file}:{line}: {text}: {instead}'


def counted(top: pathlib.Path) -> tuple[collections.Counter[str], collections.Counter[str]]:
    """Returns how often each phrase of the table occurs, and how many phrases each file has."""
    by_phrase: collections.Counter[str] = collections.Counter()
    by_file: collections.Counter[str] = collections.Counter()
    for file, prose, users in documents(top):
        names = [f'{name} (write: {instead})' for _, _, name, instead in found_in(prose, users)]
        by_phrase.update(names)
        by_file.update({file: len(names)} if names else {})
    return by_phrase, by_file


def checked() -> Report:
    """Counts the phrases of all documents."""
    by_file = counted(TOP)[1]
    total = sum(by_file.values())
    faults = [f'{total} phrases are more than the {ALLOWED} that are allowed: `dev/docs phrases FILE..` prints those of files']
    faults += [f'{count:6} {name}' for name, count in by_file.most_common()]
    return Report(faults if total > ALLOWED else [], f'{total} phrases in {len(by_file)} files, {ALLOWED} allowed')


def main(words: list[str]) -> int:
    for name in [] if words == ['all'] else [pathlib.Path(word).resolve().relative_to(TOP).as_posix() for word in words]:
        print('\n'.join(listed(TOP, [name])))
    if words == ['all']:
        for part in counted(TOP):
            print(''.join(f'{count:6} {name}\n' for name, count in part.most_common()), end='')
    return 0
