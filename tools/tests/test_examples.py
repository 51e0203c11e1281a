"""Examples on the pages of crates, beside the tests that they are."""
from __future__ import annotations

import os
import pathlib

from helpers import InFolder, equal, write
from docs import examples

PAGE = """//! A crate.
//!
//! # Example
//!
//! Two:
//!
//! ```rust
//! let two = 1 + 1;
//!
//! if two == 2 {
//!     ok();
//! }
//! ```
"""
TEST = """#[test]
fn example(rt: HostRuntime) {
    let two = 1 + 1;

    if two == 2 {
        ok();
    }
}
"""


def faults(page: str, test: str, name: str = 'a_crate', file: str = 'tests.rt') -> list[str]:
    """Returns the faults of a crate with this page and this file of tests."""
    os.makedirs(os.path.dirname(os.path.join(name, 'src', file)), exist_ok=True)
    write(os.path.join(name, 'src', 'lib.rt'), page)
    write(os.path.join(name, 'src', file), test)
    kept, examples.TOP = examples.TOP, pathlib.Path.cwd()
    try:
        return examples.faults_of(pathlib.Path(name))
    finally:
        examples.TOP = kept


class Examples(InFolder):
    def test_examples_are_the_bodies_of_tests(self) -> None:
        equal(faults(PAGE, TEST), [])
        equal(faults(PAGE.replace('rust', 'text'), 'fn helper() {\n}\n\n' + TEST + '\n#[test]\nfn other() {\n}\n'), [])
        equal(faults(PAGE, TEST, 'b_crate', 'tests/example.rt'), [])
        equal(faults('//! A crate.\n', ''), [])
        equal(faults('//! A crate.\n', '', 'geo_sign'), ['geo_sign has none'])

    def test_examples_that_are_not_the_bodies_of_tests(self) -> None:
        line = ['a_crate: line 4 is `    ok();` on the page, `    no();` in the test']
        equal(faults(PAGE, TEST.replace('ok', 'no')), line)
        equal(faults(PAGE, TEST.replace('    ok', 'ok')), [line[0].replace('    no', 'ok')])
        equal(faults(PAGE, TEST[:-2] + '    end();\n}\n'), ['a_crate: line 6 is `no line` on the page, `end();` in the test'])
        more = ['a_crate: line 3 is `` on the page, `if two == 2 {` in the test']
        equal(faults(PAGE.replace('//! if', '//!\n//! if'), TEST), more)
        equal(faults('//! A crate.\n', TEST), ['a_crate has a test `example`, and none on its page'])
        equal(faults(PAGE.replace('//! Two:', '//! # Other'), TEST), ['a_crate has a test `example`, and none on its page'])
        for test in ('', TEST.replace('#[test]\n', ''), TEST.replace('example', 'examples')):
            equal(faults(PAGE, test), ['a_crate has one on its page, and no test `example`'])
