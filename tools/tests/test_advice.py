"""What the program says on standard error on how to fix an error, beside docs/reference/errors.md and formats.md (dev/docs)."""
from __future__ import annotations

import unittest

from helpers import call, equal
from docs import errors


class Advice(unittest.TestCase):
    def test_the_page_has_the_fixes_of_the_program(self) -> None:
        status, said, error = call('docs', 'errors')
        equal((status, len(said.splitlines()), error), (0, 1, ''))

    def test_rows_have_the_numbers_of_the_format(self) -> None:
        formats = '| `refused 7 missing NEED` | x |\n| `refused 10 too_many NEED count c` | x |\n| `refused 4 long_header` | x |\n'
        source = 'const CURES: [(&[&str], &str); 2] = [\n(&["7 missing vertex_x", "10 too_many vertex"], "rename x="),\n(\n&["4 long_header"],\n"short",\n),\n];\n'
        equal(errors.printed(source, formats).splitlines()[2:],
              ['| `7 missing vertex_x`, `10 too_many vertex count c` | rename `x=` |', '| `4 long_header` | short |'])


if __name__ == '__main__':
    unittest.main()
