"""Runs the commands of the pages for users, and fails if one ends or prints otherwise than its page shows.

usage: dev/docs pages all               (README.md, docs/tutorial.md and docs/howto/)
       dev/docs pages PAGE..
       dev/docs pages write [PAGE..]    (puts what the commands print into the pages)

The commands of a page are those after `$ ` in a block ```console, those in indented blocks, and those between backticks in the text that
begin with a program and name a file or an option. They are run in their order, in a folder with examples/ and the files that users have
(examples/make_files.py; a page that runs it has no others). What a command of a block prints has to be what follows, where a line `..` stands for any lines, and times and names of
temporary files may differ. The exit status has to be 0, or the one of the line that the page shows (`no ..`: 1, `refused ..`: 2 or 3).
Commands in NOT_RUN are not run, for the reason given there.

The programs are those of RECON and RECON_MESH, or built here; both are needed.
"""
from __future__ import annotations

import importlib.util
import os
import pathlib
import re
import shlex
import subprocess
import sys
import tempfile
from collections.abc import Iterator
from concurrent.futures import ThreadPoolExecutor
from dataclasses import dataclass, field

from docs.sources import TOP
from report import reported

PACKAGE, EXAMPLES, MAKES = TOP / 'tools/recon', TOP / 'examples', 'python3 examples/make_files.py'
sys.path.insert(0, str(EXAMPLES))
import make_files  # noqa: E402

PROGRAM = r'(?:\./)?(?:recon|recon-[a-z-]+|python3|make|pip|xargs|parallel|sbatch|pdal|CloudCompare|meshlabserver)'
COMMANDS = re.compile(rf'(?m)^```(?P<kind>\w*)\n(?P<block>[\s\S]*?)^```$|^ {{4,}}(?P<indented>\S[^\n]*)$|`(?P<inline>{PROGRAM} [^`\n]+)`')
NAMES_SOMETHING = re.compile(r' \S*[.=]')
# Commands that are not run here: how they begin, and why.
NOT_RUN = {
    'make run': 'verifies and builds the programs, which the gate does',
    'make test': 'runs the gate, which runs this',
    'make install': 'verifies and builds the programs first',
    'pip install': 'changes the Python installation',
    'CloudCompare': 'is a program of others; examples/make_files.py makes the file that it would write',
    'meshlabserver': 'is a program of others; examples/make_files.py makes the file that it would write',
    'pdal': 'is a program of others; examples/make_files.py makes the file that it would write',
    'parallel': 'is a program of others, and runs what make and xargs run',
    'sbatch': 'needs a cluster, and runs what make and xargs run',
}
# Exit statuses by the beginning of the line that shows them.
STATUSES = (('no ', 1), ('ls: ', 2), ('refused words', 2), ('refused ', 3))
# What differs from run to run: lines on the time left, seconds, and the names of temporary folders.
DIFFERS = [(re.compile(r'(?m)^recon-[a-z]+: [^\n]* left\n'), ''),
           (re.compile(r'(?m)^(recon-surface:) +\d+\.\d s'), r'\1 0.0 s'), (re.compile(r'\(\d+\.\d s, in parallel'), '(0.0 s, in parallel'),
           (re.compile(r'\.recon-\w{8}'), '.recon-00000000')]


def pages() -> list[pathlib.Path]:
    """Returns the pages for users that have commands."""
    return [TOP / 'README.md', TOP / 'docs/tutorial.md', *sorted((TOP / 'docs/howto').glob('*.md'))]


def program(variable: str, *places: str) -> str:
    """Returns the path of a built program, or nothing."""
    paths = [os.environ.get(variable, ''), *(str(TOP / place) for place in places)]
    return next((path for path in paths if path and os.access(path, os.X_OK)), '')


@dataclass
class Programs:
    """The programs that the commands of a page are run with: paths, empty if one is missing."""
    recon: str = field(default_factory=lambda: program('RECON', 'recon', 'crates/recon_main/out/recon_main'))
    mesh: str = field(default_factory=lambda: program('RECON_MESH', 'recon-mesh', 'crates/mesh_main/out/mesh_main'))

    def put_into(self, folder: pathlib.Path) -> None:
        """Puts a command for each program into a folder, and into `folder/bin`."""
        (folder / 'bin').mkdir()
        lines = {'recon': f'exec {shlex.quote(self.recon)} "$@"', 'recon-mesh': f'exec {shlex.quote(self.mesh)} "$@"'}
        tools = [path.stem for path in PACKAGE.glob('*.py') if 'def main(' in path.read_text()]
        lines |= {'recon-' + name.replace('_', '-'): f'exec {shlex.quote(sys.executable)} {shlex.quote(str(PACKAGE))} {name} "$@"' for name in tools}
        for name, line in lines.items():
            path = folder / 'bin' / name
            path.write_text(f'#!/bin/sh\n{line}\n')
            path.chmod(0o755)
        for name in ('recon', 'recon-mesh'):
            (folder / name).symlink_to(f'bin/{name}')
        (folder / 'tools').symlink_to(TOP / 'tools')


@dataclass
class Command:
    """A command of a page with the line of the page where it stands, and the lines that it prints, if the page shows them."""
    page: pathlib.Path
    line: int
    text: str
    printed: list[str] | None = None

    def name(self) -> str:
        """Returns the page and the line, and the command."""
        page = self.page.relative_to(TOP) if self.page.is_relative_to(TOP) else self.page.name
        return f'{page} line {self.line}: {self.text}'

    def not_run(self) -> str | None:
        """Returns the entry of NOT_RUN for a command that is not run, or None."""
        return next((begin for begin in NOT_RUN if (self.text + ' ').startswith(begin + ' ')), None)

    def status(self) -> int:
        """Returns the exit status that the page shows by a line of the output, or 0."""
        return next((status for line in self.printed or [] for begin, status in STATUSES if line.startswith(begin)), 0)


def shown_in(page: pathlib.Path, block: str, at: int) -> Iterator[Command]:
    """Yields the commands of a block whose first line has a number in its page, each with what it prints."""
    for part in re.split(r'(?m)^\$ ', block)[1:]:
        command, *printed = part.splitlines()
        yield Command(page, at, command, printed)
        at += 1 + len(printed)


def commands_of(page: pathlib.Path) -> list[Command]:
    """Returns the commands of a page, in their order."""
    text, commands = page.read_text(), list[Command]()
    for found in COMMANDS.finditer(text):
        at, alone = text.count('\n', 0, found.start()) + 1, found['indented'] or found['inline'] or ''
        if found['kind'] == 'console':
            commands += shown_in(page, found['block'], at + 1)
        elif found['indented'] or NAMES_SOMETHING.search(alone) and not re.search(r' \.\.|\[', alone):
            commands.append(Command(page, at, alone))
    return commands


def plain(text: str) -> str:
    """Returns a text without what differs from run to run."""
    for pattern, instead in DIFFERS:
        text = pattern.sub(instead, text)
    return text


def is_as_shown(got: list[str], shown: list[str]) -> bool:
    """Returns whether lines are those shown, where a line `..` stands for any lines."""
    pattern = '\n'.join('(?:.*\n)*?.*' if line == '..' else re.escape(line) for line in shown)
    return re.fullmatch(pattern, '\n'.join(got)) is not None


class Runs:
    """The commands of one page, run in a folder."""

    def __init__(self, page: pathlib.Path, programs: Programs, folder: pathlib.Path) -> None:
        self.programs, self.folder, self.at = programs, folder, folder
        programs.put_into(folder)
        (folder / 'examples').symlink_to(EXAMPLES)
        if MAKES not in page.read_text():
            make_files.write_named(page.read_text(), folder)

    def done(self, command: str) -> tuple[int, list[str]]:
        """Runs a command and returns its status and the lines that it prints."""
        if command.startswith('cd '):
            self.at = self.at / command[3:]
            return 0, []
        path = f'{self.folder / "bin"}:{os.path.dirname(sys.executable)}:{os.environ["PATH"]}'
        environ = {**os.environ, 'PATH': path, 'LC_ALL': 'C', 'RECON': self.programs.recon}
        done = subprocess.run(['bash', '-c', command], cwd=self.at, env=environ, stdin=subprocess.DEVNULL, stdout=subprocess.PIPE,
                              stderr=subprocess.STDOUT, text=True)
        return done.returncode, done.stdout.splitlines()

    def fault(self, it: Command) -> str | None:
        """Returns what is wrong with a command of a page, or None."""
        status, got = self.done(it.text)
        if it.printed is not None and not is_as_shown(plain('\n'.join(got)).splitlines(), plain('\n'.join(it.printed)).splitlines()):
            return it.name() + ''.join(f'\n  prints {line}' for line in got)
        if status != it.status():
            return f'{it.name()}\n  ends with {status} and not with {it.status()}' + ''.join(f'\n  prints {line}' for line in got)
        return None


@dataclass
class Tally:
    """What came of the commands of a page: what is wrong, how many were compared and run alone, and the entries of NOT_RUN."""
    faults: list[str] = field(default_factory=list)
    compared: int = 0
    run: int = 0
    not_run: list[str] = field(default_factory=list)


def tally_of(page: pathlib.Path, programs: Programs) -> Tally:
    """Runs the commands of a page."""
    tally = Tally()
    with tempfile.TemporaryDirectory() as folder:
        runs = Runs(page, programs, pathlib.Path(folder))
        for it in commands_of(page):
            if it.not_run():
                tally.not_run.append(it.not_run() or '')
                continue
            fault = runs.fault(it)
            tally.faults += [fault] if fault else []
            tally.compared += it.printed is not None
            tally.run += it.printed is None
    return tally


def tallies_of(names: list[pathlib.Path], programs: Programs) -> list[Tally]:
    """Runs the commands of pages, one page on each processor."""
    with ThreadPoolExecutor(os.cpu_count()) as executor:
        return list(executor.map(lambda page: tally_of(page, programs), names))


def written(page: pathlib.Path, programs: Programs) -> str:
    """Returns the text of a page with what its commands print; what is not run, or has a line `..`, stays."""
    with tempfile.TemporaryDirectory() as folder:
        runs, lines = Runs(page, programs, pathlib.Path(folder)), page.read_text().splitlines()
        for it in reversed([(it, None if it.not_run() else runs.done(it.text)) for it in commands_of(page)]):
            command, done = it
            if done is None or command.printed is None or '..' in command.printed:
                continue
            if plain('\n'.join(done[1])) != plain('\n'.join(command.printed)):
                lines[command.line:command.line + len(command.printed)] = done[1]
        return '\n'.join(lines) + '\n'


def main(words: list[str]) -> int:
    if not (importlib.util.find_spec('numpy') and importlib.util.find_spec('scipy')):
        # another interpreter has them, or it is said how to get them
        found = subprocess.run(['sh', str(TOP / 'dev/python')], stdout=subprocess.PIPE, text=True).stdout.strip()
        return 1 if not found else os.execv(found, [found, sys.argv[0], 'pages', *words])
    programs = Programs()
    if missing := [name for name, path in (('recon', programs.recon), ('recon-mesh', programs.mesh)) if not path]:
        return reported('pages', [f'{" and ".join(missing)} not built here'], 'nothing is run')
    names = [TOP / word for word in words if word not in ('all', 'write')] or pages()
    if 'write' in words:
        for page in names:
            page.write_text(written(page, programs))
        return 0
    tallies = tallies_of(names, programs)
    faults, not_run = [fault for tally in tallies for fault in tally.faults], [begin for tally in tallies for begin in tally.not_run]
    if words == ['all']:
        faults += [f'NOT_RUN has {begin}, and no page has it' for begin in NOT_RUN if begin not in not_run]
    return reported('pages', faults, f'{sum(tally.compared for tally in tallies)} commands print what their pages show, '
                    f'{sum(tally.run for tally in tallies)} more end as they should, {len(not_run)} are not run')
