"""Definitions that a contract rests on, counted."""
from __future__ import annotations

import os
import pathlib

from helpers import ROOT, InFolder, call, equal, write
from docs import believed

LOW = """-- Numbers.
use Rattle.std.specs.Prelude.{ℕ, ◌≡◌}

-- the other one
abbrev pub other : ℕ → ℕ
other n = n + 1

-- unused
abbrev pub unused : ℕ → ℕ
unused n = n

infixl 5 ◌&&&◌
abbrev pub ◌&&&◌ : ℕ → ℕ → ℕ
a &&& b = other a
"""
HIGH = """use Rattle.low.specs.Numbers.{
  ◌&&&◌,
}
use Rattle.low.specs.Numbers as numbers

-- both
pub record IsBoth (a b : ℕ) : Type 0 where
  pub same : a &&& b ≡ a

abbrev pub IsOther : ℕ → Type 0
IsOther n = numbers.other n ≡ n
"""
WEIGHTS = """use Rattle.std.specs.Prelude.{ℕ, ◌≤◌}
use Rattle.low.specs.Numbers.{
  other,
}
use Rattle.low.specs.declared.limits.TheConstants.{MOST}
use Rattle.low.specs.declared.limits.Kind.TheVariants.{Small as little}
use Rattle.far.specs.Integers.{ℤ}

-- of a section
use Rattle.std.specs.List.{sum_by}

-- at most MOST,
-- whatever it is
pub record IsFew (n : ℕ) : Type 0 where
  -- the bound
  pub few : other n ≤ MOST little

-- All are.
abbrev pub AreFew : ℤ → Type 0
AreFew z = (n : ℕ) → IsFew n
"""
LIMITS = """/// Sizes.
#[derive(Clone)]
pub enum Kind {
    /// little
    Small,
}

/// The
/// bound.
pub const MOST: u8 = 8;
"""
SOURCE = """# Few: {count} definitions, {lines} lines

{contents}

`ℕ` and `≤`, `≡` are known.

## Numbers & `others`

- `low/Numbers`: `other`
- `low/src/limits.rt`: `MOST`, `Kind`
- `high/Weights`: `IsFew`

## All

{count} more definitions, {lines} lines. `ℤ` is known.

- `high/Weights`: `AreFew`
"""
PAGE = believed.PRINTED + """
# Few: 2 definitions, 4 lines

- [Numbers & `others`](#numbers--others)
- [All](#all)

`ℕ` and `≤`, `≡` are known.

## Numbers & `others`

**`other`** (`low`, `Numbers`). The other one.

```text
abbrev pub other : ℕ → ℕ
other n = n + 1
```

**`MOST`** (`low`, `src/limits.rt`). The bound.

```text
pub const MOST: u8 = 8;
```

**`Kind`** (`low`, `src/limits.rt`). Sizes.

```text
pub enum Kind {
    /// little
    Small,
}
```

**`IsFew`** (`high`, `Weights`). At most MOST, whatever it is.

```text
pub record IsFew (n : ℕ) : Type 0 where
  -- the bound
  pub few : other n ≤ MOST little
```

## All

1 more definitions, 2 lines. `ℤ` is known.

**`AreFew`** (`high`, `Weights`). All are.

```text
abbrev pub AreFew : ℤ → Type 0
AreFew z = (n : ℕ) → IsFew n
```
"""
CODE = """ghost use Rattle.high.specs.Both.{IsBoth as AreBoth, IsOther};

pub fn first(a: u32)
    ensures { AreBoth a a }
{}

pub fn second(a: u32) -> u32
    ensures { IsOther result }
{
    a
}
"""


class Believed(InFolder):
    def test_believed_definitions_are_those_that_are_named(self) -> None:
        for name, text in (('low/specs/Numbers.antt', LOW), ('high/specs/Both.antt', HIGH), ('high/src/lib.rt', CODE)):
            os.makedirs(os.path.dirname(name), exist_ok=True)
            write(name, text.encode())
        crates, believed.CRATES = believed.CRATES, pathlib.Path.cwd()
        try:
            first = '3 definitions of 2 files of `specs/`, together 6 lines. `high`: `Both` 2; `low`: `Numbers` 4'
            equal(believed.told('high', 'src/lib.rt', 'first'), f'`first`: {first}')
            equal(believed.told('high', 'Both', 'IsBoth'), f'`IsBoth`: {first}')
            second = '2 definitions of 2 files of `specs/`, together 4 lines. `high`: `Both` 2; `low`: `Numbers` 2'
            equal(believed.told('high', 'src/lib.rt', 'second'), f'`second`: {second}')
        finally:
            believed.CRATES = crates

    def test_the_page_for_auditors_is_printed(self) -> None:
        for name, text in (('low/specs/Numbers.antt', LOW), ('high/specs/Weights.antt', WEIGHTS), ('low/src/limits.rt', LIMITS)):
            os.makedirs(os.path.dirname(name), exist_ok=True)
            write(name, text.encode())
        crates, believed.CRATES = believed.CRATES, pathlib.Path.cwd()
        try:
            first, second = (believed.Audited([('high', 'Weights', name)]) for name in ('IsFew', 'AreFew'))
        finally:
            believed.CRATES = crates
        equal(believed.audit_page(SOURCE, first, second), (PAGE, []))
        equal(believed.audit_page(believed.source_of(PAGE), first, second), (PAGE, []))
        for old, new, faults in (
                ('- `low/Numbers`: `other`\n', '', ['high Weights IsFew comes before low Numbers other, which it uses',
                                                                              'low Numbers other has no row']),
                ('`MOST`', '`LEAST`', ['low src/limits.rt LEAST has a row and is not used',
                                       'high Weights IsFew comes before low src/limits.rt MOST, which it uses',
                                       'low src/limits.rt MOST has no row']),
                ('- `high', '- `low/Numbers`: `other`\n- `high',
                 ['low Numbers other has a row twice']),
                ('IsFew`', 'IsFew`, `AreFew`', ['high Weights AreFew has a row and is not used']),
                ('{count} more', 'More', ['high Weights AreFew has a row and is not used', 'no line has `{count} more definitions, {lines} lines`']),
                ('`≤`', 'less', ['the text before high Weights IsFew does not explain `≤`']),
                ('`ℤ`', 'That', ['the text before high Weights AreFew does not explain `ℤ`'])):
            equal(believed.audit_page(SOURCE.replace(old, new, 1), first, second)[1], faults)

    def test_the_page_for_auditors_is_as_printed(self) -> None:
        status, said, error = call('docs', 'believed')
        equal((status, len(said.splitlines()), error), (0, 1, ''))
