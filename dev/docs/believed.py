"""Prints the definitions on which a contract or a definition depends, and the number of their lines.

usage: dev/docs believed CRATE FILE CALL        (a call, as recon_cmd src/whole_run.rt run)
       dev/docs believed CRATE MODULE NAME..    (definitions of a file, as recon_cmd CheckLaws CheckEnds)

guarantees.md has the totals of five contracts: what a yes of `recon check` for the text of a scan says about the mesh, when it says yes for
such a text, what a yes says for any file, what each answer says about all three files, and the whole contract of the top call. The program
prints the lines by file too. A contract depends on the definitions of specs/ that its clauses name, these on those that they name, and so on.
Comments, imports and blank lines are not counted. Definitions of the toolchain are left out, and so are types that the code declares.

docs/verification/audit.md, the page for auditors, has the first two of these sets: the comment over each definition as a sentence, and the
definition under it. The first part has the first set, the second part the rest of the second one. Text, headings and order are written in the
page itself, and a new definition, or a type or constant of the code that one uses, as a line that begins with crate and file; what stands in its
place is printed. The page is invalid if a definition is missing in its part or superfluous, has no comment or comes before one that it uses, or
if one uses a name of the toolchain that the text before it does not explain in backticks.
"""
from __future__ import annotations

import re
from docs import sources
from docs.sources import TOP, Report


CRATES = TOP / 'crates'
PROMISES = CRATES.parent / 'docs' / 'verification' / 'guarantees.md'
AUDIT = CRATES.parent / 'docs' / 'verification' / 'audit.md'
PRINTED = '<!-- The definitions are printed by dev/docs from specs/. For a new one write a line - `CRATE/FILE`: `NAME`, and run dev/docs write. -->'
ENTRY = re.compile(r'(?ms)^\*\*`([^`]+)`\*\* \(`(\w+)`, `([\w/.]+)`\)\..*?^```text\n.*?^```\n')
BY_DEFAULT = [
    ('recon_laws', 'Laws', 'IsPrintedFrom', 'IsBestMesh'),
    ('recon_laws', 'ExactChecks', 'IsPrintedFrom', 'AreBest', 'AreWithinLimit'),
    ('recon_cmd', 'CheckLaws', 'IsBestOf'),
    ('recon_cmd', 'CheckLaws', 'CheckEnds'),
    ('recon_cmd', 'src/whole_run.rt', 'run'),
]
IMPORT = re.compile(r'(?ms)^[ ]*(?:pub |ghost )*use Rattle\.(\w+)\.specs\.(\w+)(?:\.\{(.*?)\}|(?: as (\w+))?)[;\s]')
HEAD = re.compile(r'(?:(?:abbrev|unfoldable|pub|record|data) )+(\S+)')
NAME = re.compile(r'[^\s(){}\[\],;.]+')
DECLARED = re.compile(r'(?ms)^(?:pub |ghost )*use Rattle\.(\w+)\.specs\.declared\.([\w.]+?)\.\{(.*?)\}')
LIBRARY = re.compile(r'(?ms)^(?:pub |ghost )*use Rattle\.(\w+)\.specs\.[\w.]+?\.\{(.*?)\}')
COUNTS = ('{count} definitions, {lines} lines', '{count} more definitions, {lines} lines')
AUDIT_ROW = re.compile(r'- `(\w+)/([\w/.]+)`: (`[^`]+`(?:, `[^`]+`)*)')
Place = tuple[str, str, str]


def declared_in(text: str) -> dict[str, tuple[str, str]]:
    """Returns the crate and the item of the code for each name that a text imports from the code: of a variant, its enum."""
    found: dict[str, tuple[str, str]] = {}
    for crate, path, listed in DECLARED.findall(text):
        owner, last = ['', *path.split('.')][-2:]
        for item in filter(None, map(str.strip, listed.split(','))):
            name, _, other = item.partition(' as ')
            found[other or name] = (crate, owner if last == 'TheVariants' else name)
    return found


def scope_of(text: str) -> tuple[dict[str, tuple[str, str, str]], dict[str, tuple[str, str]]]:
    """Returns the places of the names that a text imports, and of the modules that it gives a name."""
    names, modules = {}, {}
    for crate, module, listed, alias in IMPORT.findall(text):
        if not (CRATES / crate / 'specs' / f'{module}.antt').is_file():
            continue
        if alias:
            modules[alias] = (crate, module)
        for item in filter(None, map(str.strip, listed.split(','))):
            name, _, other = item.partition(' as ')
            names[(other or name).strip('◌')] = (crate, module, name.strip('◌'))
    return names, modules


def toolchain_in(text: str) -> set[str]:
    """Returns the names that a text imports from libraries of the toolchain."""
    listed = ','.join(names for crate, names in LIBRARY.findall(text) if not (CRATES / crate).is_dir())
    return {item.strip().strip('◌') for item in listed.split(',') if item.strip()}


class File:
    """A file of specs/: its definitions, each as its lines, as it is shown with its inner comments, and the comment over it, and its scope."""

    def __init__(self, crate: str, module: str) -> None:
        text = (CRATES / crate / 'specs' / f'{module}.antt').read_text()
        self.names, self.modules = scope_of(text)
        self.declared = declared_in(text)
        self.toolchain = toolchain_in(text)
        self.definitions: dict[str, list[str]] = {}
        self.shown: dict[str, list[str]] = {}
        self.said: dict[str, str] = {}
        over: list[str] = []
        name, in_import = None, False
        for line in text.splitlines():
            in_import = line.startswith(('use ', 'pub use ')) or in_import and line.startswith((' ', '}'))
            if not line.strip() or in_import:
                over = []
            elif line.strip().startswith('--'):
                over = [*over, line[2:].strip()] if line.startswith('--') else over
                if line.startswith(' ') and name:
                    self.shown[name].append(line)
            elif head := HEAD.match(line):
                name = head[1].strip('◌')
                self.names[name] = (crate, module, name)
                self.definitions.setdefault(name, []).append(line)
                self.shown.setdefault(name, []).append(line)
                self.said.setdefault(name, ' '.join(over))
                over = []
            elif name:
                self.definitions[name].append(line)
                self.shown[name] += [] if line.startswith('infix') else [line]


def named_in(text: str, names: dict[str, tuple[str, str, str]], modules: dict[str, tuple[str, str]]) -> set[tuple[str, str, str]]:
    """Returns the places of all names of a scope that a text uses."""
    found = {names[name] for name in NAME.findall(text) if name in names}
    found |= {(*modules[alias], name) for alias, name in re.findall(r'(\w+)\.(\w+)', text) if alias in modules}
    return found


def contract_of(crate: str, file: str, call: str) -> set[tuple[str, str, str]]:
    """Returns the places that the contract of a call names."""
    text = (CRATES / crate / file).read_text()
    found = re.search(rf'(?ms)^ *(?:pub )?fn {call}\b(.*?)^ *\{{\}}?$', text)
    if not found:
        raise SystemExit(f'believed.py: no call {call} in crates/{crate}/{file}')
    return named_in(found[1], *scope_of(text))


def reached_from(places: list[tuple[str, str, str]] | set[tuple[str, str, str]]) -> dict[tuple[str, str, str], list[str]]:
    """Returns the lines of all definitions that these rest on, by place."""
    files: dict[tuple[str, str], File] = {}
    reached: dict[Place, list[str]] = {}
    left = list(places)
    while left:
        crate, module, name = left.pop()
        if (crate, module, name) in reached:
            continue
        file = files.setdefault((crate, module), files.get((crate, module)) or File(crate, module))
        if name not in file.definitions and name in file.names:
            left.append(file.names[name])
            continue
        lines = file.definitions.get(name, [])
        reached[crate, module, name] = lines
        left += named_in('\n'.join(lines), file.names, file.modules)
    return reached


def home_of(place: Place) -> Place:
    """Returns where a name is defined, which its file may only import."""
    crate, module, name = place
    file = File(crate, module)
    return place if name in file.definitions or name not in file.names else home_of(file.names[name])


def code_of(crate: str, name: str) -> tuple[Place, tuple[str, list[str]]]:
    """Returns the place of a type or a constant of a crate's code, its doc comment, and its declaration without attributes."""
    item = re.compile(rf'(?ms)((?:^///[^\n]*\n)*)(?:^#\[[^\n]*\n)*(^pub (?:struct|enum|const) {name}\b(?:[^{{;]*;|.*?^\}}))')
    for path in sources.code_of(CRATES / crate):
        if found := item.search(path.read_text()):
            said = ' '.join(line[3:].strip() for line in found[1].splitlines())
            return (crate, str(path.relative_to(CRATES / crate)), name), (said, found[2].splitlines())
    raise SystemExit(f'believed.py: no public {name} in crates/{crate}/src')


class Audited:
    """The definitions that some others rest on, with the code's types that they use: what its comment says, how it is shown, and what it uses."""

    def __init__(self, places: list[Place]) -> None:
        self.shown: dict[Place, tuple[str, list[str]]] = {}
        self.uses: dict[Place, set[Place]] = {}
        self.toolchain: dict[Place, set[str]] = {}
        reached = reached_from(places)
        self.lines = sum(map(len, reached.values()))
        self.count = len(reached)
        for place, lines in reached.items():
            file, text = File(*place[:2]), '\n'.join(lines)
            code = dict(code_of(*file.declared[name]) for name in set(NAME.findall(text)) & set(file.declared))
            self.shown |= {place: (file.said[place[2]], file.shown[place[2]]), **code}
            self.uses[place] = {home_of(it) for it in named_in(text, file.names, file.modules)} - {place} | set(code)
            self.toolchain[place] = set(NAME.findall(text)) & file.toolchain


def anchor(heading: str) -> str:
    """Returns the link to a heading of the same page."""
    return '#' + re.sub(r'[^\w -]', '', heading.lower()).replace(' ', '-')


def sentence_of(comment: str) -> str:
    """Returns a comment with a capital and a full stop."""
    return comment and f'{comment[0].upper()}{comment[1:].removesuffix(".")}.'


def entry(place: Place, comment: str, shown: list[str]) -> list[str]:
    """Returns the lines of the page about one definition."""
    crate, file, name = place
    return [f'**`{name}`** (`{crate}`, `{file}`). {sentence_of(comment)}', '', '```text', *shown, '```', '']


def source_of(page: str) -> str:
    """Returns the page for auditors as a source: definitions by their names, contents and counts by marks."""
    text = ENTRY.sub(lambda found: f'- `{found[2]}/{found[3]}`: `{found[1]}`\n', page.removeprefix(PRINTED + '\n'))
    text = re.sub(r'(?m)(?:^- \[[^\n]*\]\(#[^\n]*\n)+', '{contents}\n', text, count=1)
    for mark in COUNTS:
        text = re.sub(re.sub(r'\\{\w+\\}', r'\\d+', re.escape(mark)), mark, text, count=1)
    return text


class Page:
    """The page for auditors as it is printed: its lines, the definitions so far, the names that the text explains, and what is wrong."""

    def __init__(self) -> None:
        self.lines = [PRINTED]
        self.before: set[Place] = set()
        self.explained: set[str] = set()
        self.faults: list[str] = []

    def row(self, place: Place, audited: Audited) -> None:
        """Adds a definition."""
        if place not in audited.shown or place in self.before:
            self.faults.append(f'{" ".join(place)} has a row {"twice" if place in self.before else "and is not used"}')
            return
        early = sorted(audited.uses.get(place, set()) - self.before)
        self.faults += [f'{" ".join(place)} comes before {" ".join(it)}, which it uses' for it in early]
        self.faults += [] if audited.shown[place][0] else [f'{" ".join(place)} has no comment']
        unknown = sorted(audited.toolchain.get(place, set()) - self.explained)
        self.faults += [f'the text before {" ".join(place)} does not explain `{name}`' for name in unknown]
        self.before.add(place)
        self.lines += entry(place, *audited.shown[place])

    def text(self, line: str) -> None:
        """Adds a line of the text."""
        self.explained |= {name for marked in re.findall(r'`([^`\n]+)`', line) for name in NAME.findall(marked)}
        self.lines.append(line)

    def end(self, places: set[Place]) -> None:
        """Ends the part that has these places."""
        self.faults += [f'{" ".join(place)} has no row' for place in sorted(places - self.before)]

    def printed(self) -> str:
        """Returns the text of the page with its contents."""
        contents = '\n'.join(f'- [{it[3:]}]({anchor(it[3:])})' for it in self.lines if it.startswith('## '))
        return re.sub(r'\n{3,}', '\n\n', '\n'.join(self.lines)).strip('\n').replace('{contents}', contents) + '\n'


def audit_page(source: str, first: Audited, second: Audited) -> tuple[str, list[str]]:
    """Returns the page for auditors, and what is wrong with its source. The second part begins with its counts."""
    page, audited, left = Page(), first, set(first.shown)
    for line in source.splitlines():
        if row := AUDIT_ROW.fullmatch(line):
            for name in re.findall('`([^`]+)`', row[3]):
                page.row((row[1], row[2], name), audited)
            continue
        if COUNTS[1] in line:
            page.end(left)
            audited, left = second, set(second.shown) - set(first.shown)
        page.text(line.replace(COUNTS[0], f'{first.count} definitions, {first.lines} lines').replace(
            COUNTS[1], f'{second.count - first.count} more definitions, {second.lines - first.lines} lines'))
    page.end(left)
    page.faults += [] if audited is second else [f'no line has `{COUNTS[1]}`']
    return page.printed(), page.faults


def told(crate: str, place: str, *names: str) -> str:
    """Returns how many definitions and lines a contract or some definitions rest on, and their files."""
    reached = reached_from(contract_of(crate, place, *names) if place.endswith('.rt') else [(crate, place, name) for name in names])
    modules: dict[str, dict[str, list[int]]] = {}
    for (of, module, _), lines in reached.items():
        modules.setdefault(of, {}).setdefault(module, []).append(len(lines))
    count = sum(len(by_module) for by_module in modules.values())
    head = f"{', '.join(f'`{name}`' for name in names)}: {len(reached)} definitions of {count} files of `specs/`, together {sum(map(len, reached.values()))} lines. "
    parts = (f"`{of}`: {', '.join(f'`{module}` {sum(by_module[module])}' for module in sorted(by_module))}" for of, by_module in sorted(modules.items()))
    return head + '; '.join(parts)


def total_of(line: str) -> str:
    """Returns a line of `told` without the counts by file."""
    return f"{line.partition(' lines. ')[0]} lines."


def with_counts(page: str) -> str:
    """Returns docs/verification/guarantees.md with its counts, each in the place of the line that begins with the same names."""
    for call in BY_DEFAULT:
        line = total_of(told(*call))
        page = re.sub(rf'(?m)^( *){re.escape(line.split(":")[0])}: .*$', lambda old: old[1] + line, page)
    return page


def audited_of(call: tuple[str, ...]) -> Audited:
    """Returns the definitions that some of one file rest on."""
    crate, module, *names = call
    return Audited([(crate, module, name) for name in names])


def checked() -> Report:
    """Prints the page for auditors and the counts of guarantees.md, and finds what is wrong with the source of the first."""
    first, second = audited_of(BY_DEFAULT[0]), audited_of(BY_DEFAULT[1])
    page, faults = audit_page(source_of(AUDIT.read_text()), first, second)
    said = f'{first.count} definitions for auditors, {first.lines} lines; with the second part {second.count}, {second.lines} lines'
    return Report(faults, said, {AUDIT: page, PROMISES: with_counts(PROMISES.read_text())})


def main(words: list[str]) -> int:
    print(told(*words))
    return 0
