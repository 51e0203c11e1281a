"""The Python tools on damaged files and on arguments of all kinds.

Each run is a fork of a process that has loaded the tools, with a limit of memory. A tool never ends with a traceback, but with status 0 to 3;
after an error there is one line on standard error, and the folder is as it was; what scan writes `recon` reads.
"""
from __future__ import annotations

import importlib
import importlib.util
import os
import random
import re
import resource
import runpy
import shutil
import signal
import struct
import sys
import tempfile
import traceback
from typing import Callable, Optional, Sequence

from .runs import Done, Files, Folder
from .tally import Context, Tally
from .tool_files import Job, bombs, jobs

TOOLS = os.path.join(os.path.dirname(os.path.dirname(os.path.dirname(os.path.abspath(__file__)))), 'tools')
NAMES = ['scan', 'surface', 'finish', 'mesh_to_floats', 'contours', 'grid', 'tiles', 'make_scan']
MOST_SECONDS, MOST_WALL, MOST_MEMORY = 10, 300, 1536 << 20       # of the processor, by the clock, bytes
OUT_OF_MEMORY = 99
OUTPUTS = ['out', 'out.ply', 'out.stl', 'out.glb', 'out.svg', 'out.csv']
TOKENS = [b'1e999999', b'-1e-999999', b'1e99999999999', b'1e4000', b'9' * 400, b'0' * 5000, b'0.' + b'0' * 3000 + b'1', b'nan', b'-inf', b'4294967295',
          b'4294967296', b'18446744073709551616', b'-1', b'0', b'', b'\xb2', b'\xd9\xa1', b'1_000', b'0x10', b'1,5', b'1e', b'.', b'-', b'true', b'\x00',
          b'999999999999', b'1' * 4301, b'1e308', b'1e309', b'5e-324', b'\xff\xfe', b'1\r', b'"', b'#', b'2147483648']
NUMBERS = [struct.pack('<I', n) for n in (0, 1, 2 ** 32 - 1, 2 ** 31 - 1, 2 ** 31, 1000000000, 65536)] \
    + [struct.pack('<d', x) for x in (float('nan'), float('inf'), -float('inf'), 1e308, 5e-324, -0.0, 1e22)] \
    + [struct.pack('<Q', n) for n in (0, 2 ** 63, 2 ** 64 - 1, 2 ** 32, 10 ** 12)] + [struct.pack('<f', 3e38), struct.pack('>f', float('nan'))]
VALUES = ['0', '1', '-1', '1e999999', '1e-999999', 'nan', 'inf', '', '1,2', '1,2,3', '1,2,3,4', '1e400,0,0', ',,', '9' * 400, '\u0661', '1_0', 'yes', 'no',
          '0.1', '1e-300', ' 1', 'in', 'out', 't', '1000001', '\udcff', '2', '-0', '4294967296', '1e5000,1,1', '--help']
KEYS = ['index', 'positions', 'position', 'table', 'normals', 'far', 'images', 'from', 'to', 'side', 'origin', 'surround', 'open_end', 'outside', 'unit',
        'pieces', 'by', 'flips', 'smooth', 'within', 'manifold', 'scan', 'points', 'through', 'overlap', 'vote', 'fill', 'scale', 'noise', 'stray']
SURFACE_KEYS = ['scanner', 'far', 'positions', 'index', 'table', 'images', 'position', 'flight', 'divide', 'origin', 'unit', 'side', 'max-points', 'surround',
                'smooth', 'vote', 'pieces', 'steps', 'within', 'patience', 'sweep', 'keep']
SURFACE_SWITCHES = ['normals', 'above', 'estimate-normals', 'tiles', 'no-clean', 'no-flips', 'no-check', 'force']


class Tools:
    """The tools of the repository, loaded from a copy, so that nothing is written beside them."""

    def __init__(self, recon: str) -> None:
        self.place = tempfile.mkdtemp(prefix='recon_fuzz_tools_')
        self.folder = os.path.join(self.place, 'tools')
        shutil.copytree(TOOLS, self.folder, ignore=shutil.ignore_patterns('__pycache__', 'tests'))
        sys.path.insert(0, self.folder)
        # The copy does not find the program that was built beside the tools.
        for place in ('recon-mesh', 'crates/mesh_main/out/mesh_main'):
            path = os.path.join(os.path.dirname(TOOLS), place)
            if os.access(path, os.X_OK):
                os.environ.setdefault('RECON_MESH', path)
        os.environ['RECON'] = recon
        self.is_package = os.path.exists(os.path.join(self.folder, 'recon', '__main__.py'))
        package = 'recon.toolbox' if self.is_package else 'toolbox'
        folder = os.path.join(self.folder, *package.split('.'))
        for name in sorted(os.listdir(folder)):
            if name.endswith('.py') and name != '__init__.py':
                try:
                    importlib.import_module(f'{package}.{name[:-3]}')
                except ImportError:          # a module for a package that is not installed
                    pass
        self.calls = {name: self.call_of(name) for name in NAMES}

    def call_of(self, name: str) -> Callable[[], object]:
        if self.is_package:
            return importlib.import_module(f'recon.{name}').main
        return lambda: runpy.run_path(os.path.join(self.folder, name + '.py'), run_name='__main__')

    def run(self, folder: Folder, tool: str, words: Sequence[str]) -> Done:
        """Returns a tool in a fork of this process."""
        def work() -> int:
            resource.setrlimit(resource.RLIMIT_AS, (MOST_MEMORY, MOST_MEMORY))
            resource.setrlimit(resource.RLIMIT_CPU, (2 * MOST_SECONDS, 2 * MOST_SECONDS))
            sys.stdout = os.fdopen(1, 'w', encoding='utf-8', errors='surrogateescape', closefd=False)
            sys.stderr = os.fdopen(2, 'w', encoding='utf-8', errors='backslashreplace', closefd=False)
            sys.argv = [os.path.join(self.folder, tool + '.py'), *words]
            status = 0
            try:
                self.calls[tool]()
            except MemoryError:
                status = OUT_OF_MEMORY
            except SystemExit as end:
                status = end.code if isinstance(end.code, int) else 0 if end.code is None else 1
                if isinstance(end.code, str):
                    print(end.code, file=sys.stderr)
            except BaseException:
                sys.stderr.write(traceback.format_exc())
                status = 1
            sys.stdout.flush()
            sys.stderr.flush()
            return status

        return folder.forked(work, MOST_WALL)


def spoiled(draw: random.Random, data: bytes, is_text: bool) -> bytes:
    """Returns the bytes with one place changed."""
    how, at = draw.random(), draw.randrange(len(data) + 1)
    if how < 0.25:
        return data[:at]
    if how < 0.5:
        return data[:at] + bytes([draw.choice([0, 9, 10, 13, 32, 45, 46, 48, 49, 57, 101, 127, 128, 255, draw.randrange(256)])]) + data[at + 1:]
    if how < 0.65:
        return data[:at] + draw.choice([b'', b'\0', b'\n', b',', b'-', b'.', b'0', b'e', b'\xff']) + data[at + draw.randrange(2):]
    if how < 0.9 and not is_text:
        new = draw.choice(NUMBERS)
        return data[:at] + new + data[at + len(new):]
    tokens = list(re.finditer(rb'[^\s"<>=]+', data))
    if how < 0.95 and tokens:
        found = draw.choice(tokens)
        return data[:found.start()] + draw.choice(TOKENS) + data[found.end():]
    rows = data.split(b'\n')
    k = draw.randrange(len(rows))
    return b'\n'.join(rows[:k] + [rows[k]] * draw.choice([0, 2, 3]) + rows[k + 1:])


def other_words(draw: random.Random, job: Job) -> list[str]:
    found = list(job.words)
    for _ in range(draw.choice([1, 1, 2])):
        at, how = draw.randrange(len(found) + 1), draw.random()
        if how < 0.7 and job.tool == 'surface':
            found += draw.choice([[f'--{draw.choice(SURFACE_KEYS)}={draw.choice(VALUES)}'], ['--' + draw.choice(SURFACE_SWITCHES)]])
        elif how < 0.7:
            found.append(f'{draw.choice(KEYS)}={draw.choice(VALUES)}')
        else:
            found[at:at + draw.randrange(2)] = draw.choice([[], [draw.choice(VALUES)]])
    return found


def wrong_in(job: Job, done: Done, before: Files, after: Files) -> Optional[tuple[str, str]]:
    """Returns the kind of a failure and what is wrong."""
    # argparse takes no argument with a minus as the value of an option, and rejects an invalid value that is before --help
    is_rejected = job.tool == 'surface' and done.status == 2 and b': error: argument -' in done.err
    if any(word in ('--help', '-h') for word in job.words) and not is_rejected:
        return None if done.status == 0 and done.out and after == before else ('help', str(done))
    if done.status in (OUT_OF_MEMORY, None, -signal.SIGXCPU) or done.seconds > MOST_SECONDS:
        return 'memory' if done.status == OUT_OF_MEMORY else 'time', f'{done}; {sum(map(len, before.values()))} bytes of files, {done.seconds:.1f} s'
    is_surface = job.tool == 'surface'
    if b'Traceback' in done.err or done.status not in ((0, 1, 2, 3, 4) if is_surface else (0, 1, 2, 3)):
        return 'traceback', done.err.decode('utf-8', 'replace')[-400:] or str(done)
    if done.status in (1, 2) or is_surface and done.status == 3:
        changed = [name for name in set(after) | set(before) if after.get(name) != before.get(name)]
        # argparse prints the usage before its line, and without -q the progress is before it
        lines = done.err.splitlines()[-1:] if is_surface and (done.status == 2 or '-q' not in job.words) else done.err.splitlines()
        if changed or done.out or len(lines) != 1:
            return 'error', f'changed {sorted(changed)[:5]}; {done}'
    elif any(name.endswith('.part') or name.startswith('.recon-') for name in after) or b'Warning' in done.err:
        return 'files', f'{sorted(after)}; {done}'
    return None


class Part:
    def __init__(self, context: Context, tally: Tally) -> None:
        self.context, self.tally, self.draw, self.folder, self.tools = context, tally, context.draw, Folder(), Tools(context.recon)

    def judge(self, job: Job, how: str) -> Done:
        outputs = [name for name in OUTPUTS if name in job.words and job.tool != 'tiles']
        before = {**job.files, **{name: b'before' for name in outputs if self.draw.random() < 0.6}}
        self.folder.clear()
        self.folder.put(before)
        done = self.tools.run(self.folder, job.tool, job.words)
        after = self.folder.look()
        self.tally.runs += 1
        wrong = wrong_in(job, done, before, after)
        is_scan = job.tool == 'scan' and 'out' in after and after['out'] != before.get('out')
        if wrong is None and done.status == 0 and is_scan and self.draw.random() < 0.2:
            wrong = self.unread(after['out'])
        if wrong:
            program = [sys.executable, *([os.path.join(TOOLS, 'recon'), job.tool] if self.tools.is_package else [os.path.join(TOOLS, job.tool + '.py')])]
            self.tally.fail(f'{job.tool}, {job.label}, {how}: {wrong[0]}', [*program, *job.words], before, wrong[1])
        return done

    def unread(self, scan: bytes) -> Optional[tuple[str, str]]:
        """Returns whether `recon` refuses what scan wrote, but for numbers that are out of its limits."""
        self.folder.clear()
        self.folder.put({'out': scan})
        one = [] if b'element scanner' in scan else ['scanner=9,9,9']
        done = self.folder.run([self.context.recon, 'cells', 'out', 'cells', *one], 60)
        is_read = done.status == 0 or done.out.startswith((b'refused 13', b'refused 14', b'refused 15', b'refused 21'))
        return None if is_read else ('recon does not read it', str(done))

    def run(self) -> None:
        todo = [job for job in jobs() if job.tool != 'finish' or 'RECON_MESH' in os.environ]
        for job in self.context.share(todo):
            done = self.judge(job, 'good')
            if done.status not in ((0, 3, 4) if job.tool == 'surface' else (0, 3)):
                self.tally.fail(f'{job.tool}, {job.label}: a good file', [job.tool, *job.words], job.files, str(done))
        for job in self.context.share(bombs()):
            if not self.context.is_over():
                self.judge(job, 'bomb')
        while not self.context.is_over():
            job = self.draw.choice(todo)
            if self.draw.random() < 0.85:
                data = job.files[job.spoiled]
                for _ in range(self.draw.choice([1, 1, 1, 2, 4])):
                    data = spoiled(self.draw, data, job.is_text)
                self.judge(job._replace(files={**job.files, job.spoiled: data}), 'spoiled')
            else:
                self.judge(job._replace(words=other_words(self.draw, job)), 'arguments')
        shutil.rmtree(self.tools.place)
        self.folder.close()


def run(context: Context, tally: Tally) -> None:
    is_package = os.path.exists(os.path.join(TOOLS, 'recon', '__main__.py'))
    missing = [name for name in ('numpy', 'scipy') if importlib.util.find_spec(name) is None]
    if is_package and missing:
        tally.note(f'skipped: the tools need {" and ".join(missing)}, which {sys.executable} has not')
        return
    Part(context, tally).run()
