"""What goes round the gate: edits that still apply, lines of progress, minutes by crate, and what attacks came to."""
from __future__ import annotations

import os
import pathlib
import subprocess
import sys

from helpers import DEV, ROOT, InFolder, equal, write
import attack
from bench.__main__ import TABLES
import minutes
import programs
import progress
from docs import mutants

EDIT = 'file: src/lib.rt\nold: a < b\nnew: a <= b\n'
GATE = """== low
rt: low proved
rt: host is kept: an earlier run on this machine proved the same files
== high
src/lib.rt:1:1: error: it is not proved
rt: high NOT PROVED
rt: low: its tests are proved
rt: low: trying its must-fail edits (4)
rt: must-fail low/one.edit: refused, as it must be
rt: FAILED: high
3 passed, 1 failed
levels: all are as told
"""
RUN = """crate low: modules loaded=1 checked=2
logic=proved functions=1
crate high: modules loaded=1 checked=2
logic=proved functions=1
rt: running out/high
points 4
"""


def write_in(path: str, text: str) -> None:
    """Writes a file, and makes its folder."""
    os.makedirs(os.path.dirname(path), exist_ok=True)
    write(path, text)


def faults(text: str, source: str = 'if a < b {\n') -> list[str]:
    """Returns the faults of an edit of a crate with one file."""
    os.makedirs('crates/low/src', exist_ok=True)
    os.makedirs('attack/low', exist_ok=True)
    write('crates/low/src/lib.rt', source)
    write('attack/low/an_edit.edit', text)
    kept, mutants.TOP = mutants.TOP, pathlib.Path.cwd()
    try:
        return mutants.faults_of(pathlib.Path.cwd() / 'attack/low/an_edit.edit')
    finally:
        mutants.TOP = kept


def said(text: str, in_turn: bool) -> list[str]:
    """Returns what is said of a run, line by line."""
    seen = progress.Progress(['low', 'host', 'high'] if not in_turn else ['low', 'high'], in_turn, 'LOG')
    return [it for it in (seen.said(line, 9) for line in text.splitlines()) if it is not None]


class Gate(InFolder):
    def test_each_program_has_a_head_that_may_be_cut(self) -> None:
        for name in ('attack.py', 'bench', *(f'bench {table}' for table in TABLES), 'docs', 'docs believed', 'docs interface', 'docs manual', 'docs mutants', 'docs pages', 'docs phrases',
                     'docs printed', 'lint.py', 'minutes.py', 'pictures.py', 'programs.py', 'progress.py'):
            line = f'{sys.executable} {os.path.join(DEV, name)} --help | head -c 1'
            done = subprocess.run(line, shell=True, capture_output=True, text=True)
            equal((name, len(done.stdout), done.stderr), (name, 1, ''))

    def test_edits_apply_to_the_sources(self) -> None:
        equal(faults(EDIT), [])
        equal(faults(EDIT + 'old: a <= b\nnew:\n'), [])
        equal(faults(EDIT + EDIT), ['attack/low/an_edit.edit takes away what stands 0 times: a < b'])
        equal(faults(EDIT, 'a < b, a < b'), ['attack/low/an_edit.edit takes away what stands 2 times: a < b'])
        equal(faults(EDIT.replace('lib', 'other')), ['attack/low/an_edit.edit names src/other.rt, which its crate has not'])
        equal(faults('old: a\nnew: b\n'), ['attack/low/an_edit.edit has a line that is out of place: old: a'])
        equal(faults(EDIT + 'old: a\n'), ['attack/low/an_edit.edit ends without a pair of lines old: and new:'])

    def test_progress_tells_each_crate(self) -> None:
        equal(said(GATE, False), [
            'proved low, 1 of 3, 9 min', 'proved here before host, 2 of 3, 9 min', 'NOT PROVED high, 9 min: LOG from line 4 on',
            'proved the tests of low, 9 min', 'trying 4 wrong bodies of low, 9 min', 'rt: FAILED: high', '3 passed, 1 failed',
            'levels: all are as told'])
        equal(said(RUN, True), ['proved low, 1 of 2, 9 min', 'proved high, 2 of 2, 9 min', 'rt: running out/high', 'points 4'])
        uses = {'low': [], 'mid': ['low'], 'side': ['low'], 'high': ['mid', 'side', 'low']}
        equal(progress.proved_in_turn('high', uses), ['low', 'mid', 'side', 'high'])
        page = '| `low` | 20.0 | 30.0 | 40.0 | 90.0 |\n| `high` | 40.0 | 10.0 | 40.0 | 90.0 |\n| All crates | 60.0 | 40.0 | 80.0 | 180.0 |\n'
        behind = 'on 4 processors, less where crates were proved here before'
        equal(progress.expected(page, progress.Progress(['low', 'high'], False, 'LOG'), 4), f': from nothing about 45 min {behind}')
        equal(progress.expected(page, progress.Progress(['low', 'high'], True, 'LOG'), 4), f': from nothing about 30 min {behind}')
        equal(progress.expected(page, progress.Progress(['host'], True, 'LOG'), 4), '')

    def test_progress_says_what_is_left(self) -> None:
        seen = progress.Progress(['low', 'mid', 'high'], False, 'LOG')
        equal(seen.said('rt: low proved', 4), 'proved low, 1 of 3, 4 min')
        seen.cost = {'low': 1.0, 'high': 3.0}
        equal(seen.said('rt: mid proved', 6), 'proved mid, 2 of 3, 6 min, about 6 left')

    def test_changed_contracts_name_their_crates(self) -> None:
        body = '+++ b/crates/low/src/lib.rt\n-    a\n+    b\n+ghost use Rattle.low.specs.A.{b};\n'
        comment = '+++ b/crates/mid/specs/A.antt\n+-- in words\n+use Rattle.low.specs.A.{b}\n+\n'
        equal(attack.changed_in(body + comment), set())
        clause, other = '+++ b/crates/low/src/lib.rt\n-    ensures { a }\n', '+++ b/crates/mid/specs/A.antt\n+a b = c\n'
        equal(attack.changed_in(body + clause + comment + other), {'low', 'mid'})
        equal(attack.changed_in('+++ b/dev/a.py\n+    ensures { a }\n'), set())

    def test_of_many_mutants_each_crate_has_some_tried(self) -> None:
        edits = {'low': ['a', 'b', 'c', 'd'], 'high': ['a']}
        some = attack.chosen(edits, 3, 'commit')
        equal((len(some['low']), some['high'], attack.chosen(edits, 9, 'commit')), (2, ['a'], edits))

    def test_what_a_fresh_clone_is_compared_with(self) -> None:
        def git(folder: str, *words: str) -> str:
            who = ['-c', 'user.name=a', '-c', 'user.email=a@b', '-c', 'init.defaultBranch=main']
            return subprocess.run(['git', '-C', folder, *who, *words], capture_output=True, text=True, check=True).stdout.strip()

        os.mkdir('first')
        git('first', 'init', '-q')
        commits = [git('first', 'commit', '-q', '--allow-empty', '-m', str(at)) or git('first', 'rev-parse', 'HEAD') for at in range(3)]
        git('.', 'clone', '-q', 'first', 'fresh')
        top, attack.TOP = attack.TOP, pathlib.Path('fresh').resolve()
        try:
            equal((attack.base_of(''), attack.base_of(commits[0]), attack.base_of('nothing')), (commits[1], commits[0], ''))
            os.mkdir('fresh/.ci')
            write('fresh/.ci/base', commits[0].encode())
            equal(attack.base_of(''), commits[0])
            git('fresh', 'commit', '-q', '--allow-empty', '-m', 'more')
            git('fresh', 'commit', '-q', '--allow-empty', '-m', 'still more')
            write('fresh/.ci/base', b'nothing')
            equal(attack.base_of(''), commits[2])
            attack.TOP = pathlib.Path.cwd()
            equal(attack.base_of(''), '')
        finally:
            attack.TOP = top

    def test_programs_are_built_of_copies(self) -> None:
        for crate in ('low', 'recon_main', 'other'):
            write_in(f'crates/{crate}/src/lib.rt', crate)
            write_in(f'crates/{crate}/out/lib', 'made')
            write_in(f'crates/{crate}/must-fail/a.edit', 'an edit')
        write('crates.txt', '# all\nlow: std_lib\nother: low\nrecon_main: low\n')
        write('HANDLES', 'Handles allowed: none.\n')
        kept, programs.TOP = programs.TOP, pathlib.Path.cwd()
        try:
            equal(programs.crates_below(['recon']), ['low', 'recon_main'])
            programs.copied(['low', 'recon_main'], pathlib.Path('copy'))
        finally:
            programs.TOP = kept
        equal(pathlib.Path('copy/crates.txt').read_text(), 'low: std_lib\nrecon_main: low\n')
        equal(sorted(str(it) for it in pathlib.Path('copy').rglob('*') if it.is_file()),
              ['copy/HANDLES', 'copy/crates.txt', 'copy/crates/low/src/lib.rt', 'copy/crates/recon_main/src/lib.rt'])
        before = programs.sum_of(pathlib.Path('copy'))
        write('copy/crates/low/src/lib.rt', 'low again')
        equal(programs.sum_of(pathlib.Path('copy')) == before, False)

    def test_progress_keeps_the_status_and_the_text(self) -> None:
        write('gate.txt', GATE)
        words = [sys.executable, os.path.join(DEV, 'progress.py'), 'kept.log', 'sh', '-c', 'cat gate.txt; exit 3']
        done = subprocess.run(words, capture_output=True, text=True)
        equal(done.returncode, 3)
        equal(done.stdout.splitlines()[-1], f'failed with status 3: the full text is in {os.path.realpath("kept.log")}')
        equal(pathlib.Path('kept.log').read_text(), GATE)

    def test_minutes_go_to_crates(self) -> None:
        rattle = ['/opt/kit/bin/rattle', 'check', '--crate-name', 'votes', 'src/lib.rt']
        equal(minutes.work_of(rattle, '/x/crates/votes'), ('votes', 'proofs'))
        equal(minutes.work_of([*rattle, '--test'], '/x/crates/votes'), ('votes', 'tests'))
        equal(minutes.work_of(rattle, '/tmp/rt-edit-7-abc'), ('votes', 'edits'))
        equal(minutes.work_of(['run', '/tmp/rt-run-7-abc/bin/votes_tests'], '/tmp'), ('votes', 'tests'))
        equal(minutes.work_of(['python3', 'rt', 'ci'], '/x'), None)
        sums = {('votes', 'proofs'): 60.0, ('votes', 'edits'): 30.0}
        text = minutes.table(minutes.collections.Counter(sums), 120.0, 0)
        equal(text.splitlines()[2:6], ['| `votes` | 1.0 | 0.0 | 0.5 | 1.5 |', '| All crates | 1.0 | 0.0 | 0.5 | 1.5 |', '| The rest | | | | 0.5 |',
                                      '| The whole run | | | | 2.0 |'])

    def test_minutes_measure_a_run(self) -> None:
        work = 'cd rt-edit-1; exec -a /kit/rattle "$0" -c "\nimport time\nwhile time.process_time() < 1.5: pass" --crate-name low'
        os.mkdir('rt-edit-1')
        words = [sys.executable, os.path.join(DEV, 'minutes.py'), 'table.md', 'bash', '-c', f'({work}); exit 4', sys.executable]
        equal(subprocess.run(words, capture_output=True, text=True).returncode, 4)
        rows = pathlib.Path('table.md').read_text().splitlines()
        equal([row.split(' | ')[0] for row in rows[2:6]], ['| `low`', '| All crates', '| The rest', '| The whole run'])

    def test_attacks_are_told_apart(self) -> None:
        text = ('rt: must-fail low/one.edit: refused, as it must be: note\nrt: must-fail low/two.edit: refused, as it must be (only by a limit)\n'
                'rt: must-fail low/three.edit: NOT REFUSED: the crate\nrt: must-fail low/four.edit: BAD EDIT: it\n')
        results = attack.results_of(text)
        equal([attack.kind_of(it) for it in results.values()], ['refused', 'less', 'missed', 'bad'])
        equal(list(results)[0], 'low/one')
        equal(attack.line_of('low', results), 'low: 4 tried, 2 refused (1 by a name or a limit alone), 1 not refused, 1 bad')
        equal(attack.edits_with(['no_crate'])[1], ['no_crate'])
        equal(os.path.isdir(os.path.join(ROOT, 'attack')), True)
        equal(attack.takes_names('usage\n  rt ci [NAME..]          the gate\n'), True)
        equal(attack.takes_names('usage\n  rt ci          the gate\n  rt ci NAME..   the same for these crates\n'), True)
        equal(attack.takes_names('usage\n  rt ci                   the gate\n  rt must-fail [NAME..]\n'), False)
