"""Blocks of pages that scripts print."""
from __future__ import annotations

import os
import re
import unittest

from helpers import ROOT, equal
from bench.__main__ import TABLES
from docs.printed import replaced

PAGE = 'before\n<!-- printed: a b -->\nold\n<!-- end -->\nafter <!-- end -->\n'


class Printed(unittest.TestCase):
    def test_a_block_is_replaced(self) -> None:
        equal(replaced(PAGE, 'a b', '| new |\n'), 'before\n<!-- printed: a b -->\n\n| new |\n\n<!-- end -->\nafter <!-- end -->\n')
        for name in ('a', 'b', 'old'):
            with self.assertRaises(ValueError):
                replaced(PAGE, name, '')

    def test_blocks_of_the_pages_name_programs(self) -> None:
        for page in ('performance', 'accuracy'):
            with open(os.path.join(ROOT, 'docs', 'explain', page + '.md'), encoding='utf-8') as file:
                names = re.findall('<!-- printed: (.*) -->', file.read())
            equal(len(names) > 1, True)
            for name in names:
                there = name.startswith('make ') or name.removeprefix('dev/bench ').partition(' ')[0] in TABLES
                equal((name, there), (name, True))
