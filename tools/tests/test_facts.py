"""What `dev/docs facts` finds: sentences about a crate on two pages, and commands on pages."""
from __future__ import annotations

import unittest

from helpers import equal
from docs import facts

HEAD = ['Sorts numbers in some order. It reads each', 'number exactly twice: none is left out.', '', 'Verified: `sort` returns all of them, in order.', '', '```', 'a block of code is no sentence', '```']


class Facts(unittest.TestCase):
    def test_sentences_of_a_head(self) -> None:
        equal(facts.sentences_of(HEAD), ['sorts numbers in some order', 'it reads each number exactly twice', 'sort returns all of them in order'])

    def test_a_sentence_on_two_pages(self) -> None:
        pages = {'one.md': '| `sort` | [`sort`](api.md) returns **all** of them,\nin order |', 'two.md': 'So sort returns all of them in order.', 'three.md': 'sort returns all of them'}
        equal(facts.repeated({'low': HEAD}, pages), ['one.md and two.md have a sentence of the head of low: sort returns all of them in order'])
        equal(facts.repeated({'low': HEAD}, {'one.md': pages['one.md']}), [])

    def test_pages_that_name_a_command(self) -> None:
        equal(facts.commands_of('# Commands\n## `recon build`\n## Options\n## `recon-mesh finish`\n'), ['recon build', 'recon-mesh finish'])
        pages = {'one.md': 'Then `recon build` writes it.', 'two.md': 'So:\n```console\n$ recon build a b c\n```\n', 'three.md': 'a `my-recon build`, a `recon builder`',
                 'docs/decisions/four.md': '`recon build` is fast'}
        equal(facts.naming('recon build', pages), ['one.md'])
