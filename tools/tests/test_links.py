"""Links of pages, and the table of crates in README.md, on small pages."""
from __future__ import annotations

import os
import pathlib

from helpers import InFolder, call, equal, write
from docs import crates, libraries, links, manual, sources

PAGE = '''# A page

- [One](#one-two)
- [Gone](#gone)
- [Other](b.md#a-heading-with-code)
- [Missing](c.md) and [the net](https://example.org/none)

## One, two

```
[code](none.md)
```
'''


class Links(InFolder):
    def test_links_that_lead_nowhere(self) -> None:
        os.makedirs('docs')
        write('README.md', '[a](docs/a.md)\n')
        write('docs/a.md', PAGE)
        write('docs/b.md', '# A heading: `with code`\n' + '\n' * 200)
        write('docs/c.png', '')
        kept, sources.TOP = sources.TOP, pathlib.Path.cwd()
        try:
            faults = [fault for page in links.pages() for fault in links.faults_of(page)] + links.orphans()
        finally:
            sources.TOP = kept
        equal(faults, ['docs/a.md line 4: #gone names no heading', 'docs/a.md line 6: there is no c.md',
                       'docs/b.md has 201 lines and no table of contents', 'no page links docs/c.png'])


class Crates(InFolder):
    def test_heads_say_what_is_verified(self) -> None:
        os.makedirs('low/src')
        head = '//! A call: `call`. More.\n//!\n//! Verified: %s.\n//! It is not tested.\n#![tactic(auto)]\npub fn call() {}\n'
        low = pathlib.Path('low')
        for said, faults in (('`call` is exact', []), ('`call` is exact, `none` is not', ['low has no none']),
                             ('x' * 130, ['the row of low has 142 characters, above 140'])):
            write('low/src/lib.rt', head % said)
            equal(crates.faults_of(low), faults)
        lines = sources.head_of(low)
        equal((crates.sentence_of(lines), crates.verified_of(lines)), ('A call', 'x' * 130))
        equal(libraries.verified_in(lines), 'x' * 130 + '. It is not tested.')
        write('low/src/lib.rt', 'pub fn call() {}\n')
        equal(crates.faults_of(low), ['low has no line `//! Verified: ..` at its head'])

    def test_tables_have_each_crate(self) -> None:
        page = f'a\n{crates.BEGIN}\nb\n{crates.END}\nc\n'
        heads = {'low': ['Verified: x.'], 'mid': ['Verified: y.'], 'high': ['Verified: x.']}
        rows = '| Crate | Verified |\n|---|---|\n| `low`, `high` | x |\n| `mid` | y |'
        equal(crates.overview(page, heads), f'a\n{crates.BEGIN}\n{rows}\n{crates.END}\nc\n')

    def test_theorems_have_an_empty_body(self) -> None:
        os.makedirs('low/src')
        write('low/src/laws.rt', '/// All of\n/// it.\npub fn first_law(a: u8)\n    ensures { A a }\n{}\n\n/// None.\npub fn call() {\n    f()\n}\n\n/// Two.\npub fn second_law()\n{}\n')
        write('low/src/low.rt', 'impl Low {\n    /// Three.\n    pub fn third(&self) {}\n    fn other() {}\n}\npub trait Many {\n    /// Four.\n    fn fourth();\n}\n')
        equal([tuple(it) for it in libraries.calls_of(pathlib.Path('low'))],
              [('first_law', 'All of it.', True), ('call', 'None.', False), ('second_law', 'Two.', True), ('Low::third', 'Three.', False), ('Many::fourth', 'Four.', False)])


class Manual(InFolder):
    def test_blocks_become_those_of_a_manual_page(self) -> None:
        text = 'A `b-c` and [d `e`](f.md).\n\n    g h\n\n| A | See |\n|---|---|\n| `i` | j |\n\n- .k'
        equal('\n'.join(manual.body(text)).splitlines(),
              ['.PP', r'A \fBb\-c\fP and d \fBe\fP.', '.PP', '.nf', 'g h', '.fi', '.TP', r'\fBi\fP', '', r'.IP \(bu 2', r'\&.k'])

    def test_the_manual_page_is_printed(self) -> None:
        status, said, error = call('docs', 'manual')
        equal((status, len(said.splitlines()), error), (0, 1, ''))
