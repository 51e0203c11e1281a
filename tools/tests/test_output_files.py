"""Output files: nothing is written through a link, into a folder, over an input or under a name that was there, and a run that fails leaves all
files as they were."""
from __future__ import annotations

import json
import os
import pathlib
import shutil
import subprocess
import sys
import unittest

import numpy as np

from helpers import PACKAGE, RECON, InFolder, call, equal, read, write
from recon.surface import plain
from recon.toolbox.output_files import LEFT, new_folder, passing_folder, place_all, whole_bytes, whole_file
from recon.toolbox.ply_text import Refusal
from test_library import sphere

FOUR = '0 0 0\n1 0 0\n0 1 0\n0 0 1\n'


def refused(work: object, *words: object, part: str = '') -> None:
    """The call raises `Refusal` with this part, and leaves nothing behind."""
    before = sorted(os.listdir())
    try:
        with work(*words):  # type: ignore[operator]
            pass
    except Refusal as refusal:
        equal((part in str(refusal), sorted(os.listdir()), LEFT), (True, before, set()))
        return
    raise AssertionError('no refusal')


class Files(InFolder):
    def test_a_file_is_replaced_when_it_is_whole(self) -> None:
        write('out', 'before')
        with whole_file('out') as file:
            file.write('after')
            file.flush()
            equal((read('out'), len(os.listdir())), ('before', 2))
        equal((read('out'), os.listdir(), LEFT), ('after', ['out'], set()))

    def test_a_file_that_fails_leaves_what_was_there(self) -> None:
        write('out', 'before')
        for error in (KeyboardInterrupt, ValueError):
            try:
                with whole_bytes('out') as file:
                    file.write(b'half')
                    raise error
            except error:
                pass
        equal((read('out'), os.listdir(), LEFT), ('before', ['out'], set()))

    def test_links_are_replaced_and_not_followed(self) -> None:
        write('victim', 'precious')
        for target in ('victim', 'nowhere'):
            os.symlink(target, 'out')
            with whole_file('out') as file:
                file.write('after')
            equal((os.path.islink('out'), read('out'), read('victim'), os.path.exists('nowhere')), (False, 'after', 'precious', False))
            os.unlink('out')

    def test_modes_are_those_of_the_user(self) -> None:
        before = os.umask(0o027)
        try:
            with whole_file('out'), whole_bytes('run', 0o777):
                pass
        finally:
            os.umask(before)
        equal([oct(os.stat(name).st_mode & 0o777) for name in ('out', 'run')], ['0o640', '0o750'])

    def test_folders_and_devices_are_refused(self) -> None:
        os.mkdir('folder')
        os.symlink('folder', 'link')
        os.mkfifo('pipe')
        for name, part in (('folder', 'is a folder'), ('link', 'is a folder'), ('pipe', 'no regular file'), ('/dev/null', 'no regular file'),
                           ('folder/', 'not the name of a file'), ('', 'an empty name')):
            refused(whole_bytes, name, part=part)
        refused(new_folder, 'folder', part='exists already')
        equal(os.listdir('folder'), [])

    def test_errors_have_the_names_of_the_user(self) -> None:
        write('file', '')
        for work in (whole_file, passing_folder):
            for name in ('nowhere/out.glb', 'file/out.glb'):
                try:
                    with work(name):
                        pass
                except OSError as error:
                    equal(error.filename, name)
        equal(LEFT, set())

    def test_files_are_put_in_place_together(self) -> None:
        for name in ('a', 'b'):
            write(name, name)
        write('old', 'stale')
        os.mkdir('taken')
        write('one', 'before')
        try:
            place_all({'a': 'one', 'b': 'taken'})
        except Refusal:
            pass
        equal((read('one'), read('a'), sorted(os.listdir())), ('before', 'a', ['a', 'b', 'old', 'one', 'taken']))
        place_all({'a': 'one', 'b': 'deep/er/two'}, ['old', 'missing'])
        equal((read('one'), read('deep/er/two'), sorted(os.listdir())), ('a', 'b', ['deep', 'one', 'taken']))

    @unittest.skipUnless(os.path.isdir('/dev/shm') and os.stat('/dev/shm').st_dev != os.stat('/tmp').st_dev, 'there is one file system only')
    def test_another_file_system_is_no_way_through_a_link(self) -> None:
        far = f'/dev/shm/recon-test-{os.getpid()}'
        os.mkdir(far)
        self.addCleanup(shutil.rmtree, far)
        write('victim', 'precious')
        write('again.sh', 'new')
        os.chmod('again.sh', 0o755)
        os.symlink(os.path.abspath('victim'), far + '/again.sh')
        os.symlink(far, 'kept')
        place_all({'again.sh': 'kept/again.sh'})
        equal((read('victim'), read(far + '/again.sh'), os.listdir(far), oct(os.stat(far + '/again.sh').st_mode & 0o777)),
              ('precious', 'new', ['again.sh'], '0o755'))


class Scans(InFolder):
    def test_names_beside_the_output_are_left(self) -> None:
        write('a.xyz', FOUR)
        write('victim', 'precious')
        os.symlink('victim', 'r.ply.part')
        write('q.ply.part', 'mine')
        for out in ('q.ply', 'r.ply'):
            equal(call('scan', 'a.xyz=1,1,1', out)[0], 0)
        equal((read('victim'), read('q.ply.part'), os.path.islink('r.ply.part'), os.path.islink('r.ply')), ('precious', 'mine', True, False))

    def test_an_output_that_is_no_file_is_refused(self) -> None:
        write('a.xyz', FOUR)
        os.mkdir('out.ply')
        for out, part in (('out.ply', 'out.ply is a folder'), ('/dev/null', '/dev/null is no regular file'), ('no/out.ply', 'directory: no/out.ply')):
            status, said, error = call('scan', 'a.xyz=1,1,1', out)
            equal((out, status, said, part in error), (out, 1, '', True))
        equal((sorted(os.listdir()), os.listdir('out.ply')), (['a.xyz', 'out.ply'], []))


def ball(name: str, count: int = 200) -> None:
    """A ball as a list of numbers."""
    write(name, ''.join(' '.join(map(plain, row)) + '\n' for row in sphere(count).tolist()))


@unittest.skipUnless(RECON, 'recon is not built here')
class Runs(InFolder):
    def surface(self, *words: str) -> tuple[int, str]:
        status, _, error = call('surface', *words, '-q', '--force', '--program', RECON)
        return status, error

    def test_folders_at_the_places_of_outputs_are_refused_first(self) -> None:
        ball('a.xyz')
        names = ('m.ply', 'm.html', 'm-seen.ply', *(f'm.recon/{name}' for name in ('scan.ply', 'mesh.ply', 'scan.cert', 'report.json', 'again.sh')))
        for name in names:
            os.makedirs(name)
            status, error = self.surface('a.xyz', '-o', 'm.ply')
            equal((name, status, f'{name} is a folder' in error, os.listdir(name)), (name, 1, True, []))
            os.removedirs(name)
        equal(sorted(os.listdir()), ['a.xyz'])

    def test_inputs_are_not_written_over(self) -> None:
        ball('a.xyz')
        equal(self.surface('a.xyz=0,0,9', '-o', 'm.ply')[0], 0)
        before = pathlib.Path('m.recon/scan.ply').read_bytes()
        os.symlink('m.recon/scan.ply', 'link.ply')
        for name in ('m.recon/scan.ply', './m.recon/../m.recon/scan.ply', 'link.ply'):
            status, error = self.surface(name, '-o', 'm.ply')
            equal((name, status, f'{name} is an input, and would be overwritten' in error), (name, 1, True))
        equal(pathlib.Path('m.recon/scan.ply').read_bytes() == before, True)
        os.mkdir('t.recon')
        write('t.recon/scan.ply', FOUR)
        write('table.txt', '0 0 9 t.recon/scan.ply\n')
        status, error = self.surface('a.xyz', '--table', 'table.txt', '-o', 't.ply')
        equal((status, 'would be overwritten' in error, read('t.recon/scan.ply')), (1, True, FOUR))
        equal(self.surface('m.recon/scan.ply', '-o', 'other.ply')[0], 0)

    def test_files_of_an_earlier_run_do_not_stay(self) -> None:
        ball('a.xyz')
        write('m-seen.ply', 'stale')
        # all faces of a scan of four far points are unseen, or the part is written again
        equal(self.surface('a.xyz=0,0,9', '-o', 'm.ply')[0], 0)
        equal(not os.path.exists('m-seen.ply') or read_start('m-seen.ply') != b'stale', True)

    def test_names_are_quoted_in_the_script(self) -> None:
        ball('a.xyz')
        ball("in'put $(touch B) \n.xyz")
        name = 'x\ntouch PWNED #$(touch C).ply'
        equal(self.surface("in'put $(touch B) \n.xyz", '-o', name)[0], 0)
        done = subprocess.run(['sh', name[:-4] + '.recon/again.sh'], capture_output=True, text=True, env={**os.environ, 'RECON': RECON, 'PATH': '/usr/bin:/bin'})
        equal((done.returncode, done.stdout.count('OK'), [os.path.exists(made) for made in ('PWNED', 'B', 'C')]), (0, 3, [False] * 3))

    def test_the_script_finds_tools_in_a_folder_with_any_name(self) -> None:
        ball('a.xyz')
        tools = 't x $(touch B)'
        shutil.copytree(PACKAGE, os.path.join(tools, 'recon'), ignore=shutil.ignore_patterns('__pycache__'))
        done = subprocess.run([sys.executable, os.path.join(tools, 'recon'), 'surface', 'a.xyz', '-o', 'm.ply', '-q', '--force', '--program', RECON])
        equal(done.returncode, 0)
        again = subprocess.run(['sh', 'm.recon/again.sh'], capture_output=True, text=True, env={**os.environ, 'RECON': RECON, 'PATH': '/usr/bin:/bin'})
        equal((again.returncode, again.stdout.count('OK'), os.path.exists('B')), (0, 3, False))

    def test_the_report_names_what_was_written(self) -> None:
        ball('a.xyz')
        status, said, error = call('surface', 'a.xyz=0,0,9', '-o', 'm.ply', '--force', '--program', RECON)
        last = error.splitlines()[-1]
        equal((status, 'm-seen.ply' in last), (0, os.path.exists('m-seen.ply')))
        equal(json.loads(pathlib.Path('m.recon/report.json').read_text())['output'], 'm.ply')


def read_start(name: str) -> bytes:
    return pathlib.Path(name).read_bytes()[:5]


if __name__ == '__main__':
    np.seterr(all='ignore')
    unittest.main()
