"""The page of definitions, printed of its source and of heads of specs/, and the crates that a crate depends on."""
from __future__ import annotations

import os
import pathlib

from helpers import InFolder, call, equal, write
from docs import definitions, levels, sources

USES = '# crates\nlow:\nmid: low slab\nhigh: low mid\n'
LOW = """-- Numbers.
--
--   IsSmall n         n is small, and
--                     not large
--   first p, last p   the two ends of a pair
use Rattle.std.specs.Prelude.{Bool}

-- small
abbrev pub IsSmall : Bool

abbrev pub first : Bool
abbrev pub last : Bool

-- ---- sizes
-- how large | it is
infixl 10 ◌#◌
abbrev pub ◌#◌ {A : Type 0} : Bool
-- ---- the rest
pub use Rattle.mid.specs.Ends.{last}
unfoldable bare : Bool
"""
MID = '-- Ends.\n\n-- where it ends\npub record last (p : Bool) : Type 0 where\n'
SOURCE = """# Words

## Numbers: `low`
## Ends: `mid`
"""
PAGE = """## Numbers

### `low/Numbers`

Numbers.

| Name | In plain words |
|---|---|
| `IsSmall n` | n is small, and not large |
| `first p`, `last p` | the two ends of a pair |
| `#` | how large \\| it is |
| `bare` |  |

## Ends

### `mid/Ends`

Ends.

| Name | In plain words |
|---|---|
| `last` | where it ends |
"""


class Definitions(InFolder):
    def setUp(self) -> None:
        super().setUp()
        code = '/// As mid::last.\nuse low::LIMIT;\n'
        files = {'crates.txt': USES, 'crates/low/specs/Numbers.antt': LOW, 'crates/mid/specs/Ends.antt': MID, 'crates/mid/src/lib.rt': code,
                 'crates/low/src/lib.rt': 'pub const LIMIT: u8 = 255;\npub fn size_law() {}\n', 'crates/high/src/lib.rt': code,
                 'crates/high/src/tests.rt': 'use mid::last;\n', 'crates/high/specs/Top.antt': 'use Rattle.std.specs.Prelude.{Bool}\n'}
        for name, text in files.items():
            os.makedirs(os.path.dirname(name) or '.', exist_ok=True)
            write(name, text.encode())
        self.words = definitions.Words(pathlib.Path.cwd())

    def faults(self, source: str) -> list[str]:
        return definitions.Page(self.words, source).faults

    def test_the_page_is_printed(self) -> None:
        page = definitions.Page(self.words, SOURCE)
        equal((page.text().partition('## Numbers')[2], page.faults), (PAGE.partition('## Numbers')[2], ['last is defined in low and mid']))

    def test_files_follow_those_that_they_use(self) -> None:
        files = [definitions.File('low', name, '', [], set(), {('low', used)}) for name, used in (('A', 'C'), ('B', 'B'), ('C', 'B'))]
        equal([file.name for file in definitions.in_order(files)], ['B', 'C', 'A'])

    def test_what_has_no_words_is_told(self) -> None:
        equal(self.words.bare(), ['low Numbers bare'])

    def test_what_is_not_there_is_told(self) -> None:
        equal(self.faults(SOURCE.replace('`low`', '`law`')), ['last is defined in low and mid', 'there is no law, which a heading names'])
        equal(self.faults(SOURCE.replace('`mid`', '`low/Numbers`, `low`')), ['last is defined in low and mid', 'low has 2 headings'])

    def test_what_a_crate_stands_on(self) -> None:
        uses = sources.uses_of(USES)
        equal(levels.cells_of(uses, pathlib.Path('crates')), {'low': '1', 'mid': '2: `low`', 'high': '3: `low`'})
        equal(levels.below_each({'low': [], 'mid': ['low'], 'side': ['low'], 'high': ['low', 'mid', 'side']}),
              {'low': [], 'mid': ['low'], 'side': ['low'], 'high': ['mid', 'side']})


class Pages(InFolder):
    def test_the_pages_are_as_printed(self) -> None:
        for name in ('definitions', 'crates', 'interface'):
            status, said, error = call('docs', name)
            equal((status, len(said.splitlines()), error), (0, 1, ''))
