"""The commands of the pages for users, run, and what they print compared (dev/docs/pages.py)."""
from __future__ import annotations

import pathlib
import subprocess
import sys
import unittest

from helpers import ROOT, InFolder, equal
from docs import pages

PAGE = '''# A page

```console
$ echo one; echo two
one
two
$ printf 'a\\nb\\nc\\n'
a
..
c
```

    recon-scan cloud.xyz=0.15,-0.2,0.75 b.ply
    cd examples
    cat cube.ply
    make run        # is not run

`recon-scan a.ply b.ply` and `recon-scan ..` and `recon-scan [the same options]`
'''


class Pages(unittest.TestCase):
    def test_commands_print_what_their_pages_show(self) -> None:
        programs = pages.Programs()
        if not (programs.recon and programs.mesh):
            self.skipTest('recon or recon-mesh is not built here')
        tallies = pages.tallies_of(pages.pages(), programs)
        for page, tally in zip(pages.pages(), tallies):
            with self.subTest(page.name):
                equal(tally.faults, [])
        equal({begin for tally in tallies for begin in tally.not_run}, set(pages.NOT_RUN))
        equal(sum(tally.compared + tally.run for tally in tallies) > 90, True)


class Files(InFolder):
    def test_the_files_of_the_page_on_imports(self) -> None:
        got = subprocess.run([sys.executable, ROOT + '/examples/make_files.py', 'new'], capture_output=True, text=True)
        equal((got.returncode, got.stdout.split()[0], got.stderr), (0, 'wrote', ''))
        made = {str(path.relative_to('new')) for path in pathlib.Path('new').rglob('*') if path.is_file() and path.parent.name != 'examples'}
        equal(made, set(pages.make_files.MADE))
        page = (pages.TOP / 'docs/howto/import.md').read_text()
        equal([name for name in ('cloud.xyz', 'scan.ptx', 'cloud.e57', 'stations.txt') if name not in made or name not in page], [])
        # a folder that is there is left as it is
        again = subprocess.run([sys.executable, ROOT + '/examples/make_files.py', 'new'], capture_output=True, text=True)
        equal((again.returncode, 'File exists: new' in again.stderr), (1, True))


class Faults(InFolder):
    def setUp(self) -> None:
        super().setUp()
        self.page = pathlib.Path('page.md').resolve()

    def came_of(self, text: str) -> tuple[list[str], int, int, list[str]]:
        """Returns what came of the commands of a page, without any program."""
        self.page.write_text(text)
        tally = pages.tally_of(self.page, pages.Programs('', ''))
        return tally.faults, tally.compared, tally.run, tally.not_run

    def test_what_is_printed_is_compared(self) -> None:
        equal(self.came_of(PAGE.partition('`recon-scan')[0]), ([], 2, 3, ['make run']))
        equal(self.came_of(PAGE.partition('`recon-scan')[0].replace('\ntwo\n', '\nthree\n'))[0],
              ['page.md line 4: echo one; echo two\n  prints one\n  prints two'])
        equal(pages.written(self.page, pages.Programs('', '')), PAGE.partition('`recon-scan')[0])

    def test_a_status_is_0_or_the_one_shown(self) -> None:
        equal(self.came_of(PAGE)[0], ['page.md line 18: recon-scan a.ply b.ply\n  ends with 1 and not with 0\n  prints recon-scan: error: '
                                      'No such file or directory: a.ply'])
        block = '```console\n$ echo refused 7; exit {}\nrefused 7\n```\n'
        equal([len(self.came_of(block.format(status))[0]) for status in (3, 0, 1)], [0, 1, 1])

    def test_times_and_names_of_temporary_files_may_differ(self) -> None:
        equal(pages.plain('recon-surface:    12.3 s  to .recon-ab12cd_4/points.ply'), 'recon-surface: 0.0 s  to .recon-00000000/points.ply')
        equal([pages.is_as_shown(['a', 'b', 'c'], shown) for shown in (['a', 'b', 'c'], ['a', '..'], ['..', 'c'], ['a', 'c'], ['a', 'b'])],
              [True, True, True, False, False])


if __name__ == '__main__':
    unittest.main()
