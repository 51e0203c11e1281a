"""Phrases that documents and comments should not have, counted."""
from __future__ import annotations

import os
import pathlib

from helpers import InFolder, equal, write
from docs import phrases

README = """# Refusals

A `refusal` and "a law" are quoted, takes_every_word_for_none is a name, [here](rising/fan.md).

```
law
```

It is so
many. A file, of

which nothing is said. The arc has
no room.
"""
SPECS = """-- Laws.
--
--   law of which   the rising numbers
abbrev pub law : ℕ
law = 1 -- a fan

-- so
law = 2
-- many
"""
CODE = """//! Handed in.
/// The cell
/// across.
fn law() { print("a {law} is a refusal"); let x = "law"; } // told
"""
PYTHON = '''#!/usr/bin/env python3
"""A wrong
body."""
LAW = 'law'  # whoever


def law():
    """Lets go."""
    return 'a law'
'''


def found(text: str, users: bool = True) -> list[str]:
    """Returns the phrases of a text, as the table names them."""
    return [name for _, _, name, _ in phrases.found_in(phrases.blanked(text), users)]


class Phrases(InFolder):
    def test_prose_of_each_kind_of_file_is_read(self) -> None:
        for name, text in (('README.md', README),
                           ('docs/deep/printed.md', '<!-- Printed by a program. -->\n# Laws\n'), ('crates/low/specs/Laws.antt', SPECS),
                           ('crates/low_main/src/laws.rt', CODE), ('tools/low/law.py', PYTHON)):
            os.makedirs(os.path.dirname(name) or '.', exist_ok=True)
            write(name, text.encode())
        got = [(name, line, text) for name, prose, users in phrases.documents(pathlib.Path.cwd())
               for line, text, _, _ in sorted(phrases.found_in(prose, users))]
        by_phrase, by_file = phrases.counted(pathlib.Path.cwd())
        equal((sum(by_phrase.values()), by_file['README.md'], list(phrases.listed(pathlib.Path.cwd(), ['tools/low/law.py']))[:1]),
              (13, 3, ['tools/low/law.py:2: wrong body: mutant']))
        equal(got, [('README.md', 1, 'Refusals'), ('README.md', 9, 'so many'), ('README.md', 12, 'arc has no room'),
                    ('crates/low_main/src/laws.rt', 4, 'refusal'),
                    ('crates/low_main/src/laws.rt', 1, 'Handed in'), ('crates/low_main/src/laws.rt', 2, 'cell across'),
                    ('crates/low_main/src/laws.rt', 4, 'told'), ('crates/low/specs/Laws.antt', 1, 'Laws'),
                    ('crates/low/specs/Laws.antt', 3, 'rising'), ('crates/low/specs/Laws.antt', 5, 'fan'),
                    ('tools/low/law.py', 2, 'wrong body'), ('tools/low/law.py', 4, 'whoever'), ('tools/low/law.py', 8, 'Lets go')])

    def test_words_count_in_one_sense(self) -> None:
        for text, names in (
                ('behind the first byte', ['behind']), ('the cell behind the vertex', []), ('a front of the text', ['front']), ('the front door', []),
                ('in rooms of a building', []), ('room for an arc', ['room']), ('the words of a command', ['word']), ('in other words', []),
                ('at the unit of the scan', ['unit']), ('a unit test', []), ('each form has received it', ['form']), ('in the form of a list', []),
                ('it is worth 3', ['is worth']), ('it is worth reading', []), ('a thin tube', []), ('fans of triangles', []), ('lawn', []),
                ('each face costs smooth.', ['smooth']), ('a smooth mesh', []), ('least-inside labels', ['least inside']), ('WANT OF MEMORY', ['want of memory']), ('wrong bodies', ['wrong body'])):
            equal((text, found(text)), (text, names))

    def test_each_phrase_of_the_rules_is_counted(self) -> None:
        for text in ('want of memory', 'refusal', 'mend', 'cure', 'law', 'wrong body', 'is proved', 'clause', 'tells', 'the program beside', 'plain cells',
                     'plain network', 'written positively', 'written anew', 'row of a cell', 'turned facet', 'the cell across', 'fan', 'rim', 'tie rule',
                     'displaced scanner', 'kept cell', 'side back', 'room of an arc', 'is worth', 'fixed cell', 'least-inside labels', 'the smooth of a mesh',
                     'vote', 'strays', 'pieces in the air', 'touching edges', 'into a form and each form', 'receipt', 'stamp', 'watch', 'told',
                     'the word', 'said line', 'crowd', 'tube', 'the unit', 'handed in', 'behind the text', 'in front of the text', 'front of the text',
                     'rising', 'stands on', 'let go', 'of which', 'whoever', 'so many'):
            equal((text, bool(found(text))), (text, True))

    def test_some_words_count_for_users_alone(self) -> None:
        equal(found('It is proved: a clause tells it.'), ['is proved', 'clause', 'tells'])
        equal(found('It is proved: a clause tells it.', False), [])
