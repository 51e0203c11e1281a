"""The commands: arguments, files, the printed line and the status."""
from __future__ import annotations

import hashlib
import os
import re
import sys
from typing import NamedTuple, Optional, Protocol, Sequence

from .errors import Failed, Refused, Rejected
from .numbers import BadNumber, scaled
from .points import BOX, Point
from .scans import MOST_POINTS, Scan, generated, push_scan, read_scan
from .solution import Model, Solution, certificate_of, check, slice_of
from .texts import Stamp, push_cells, push_certificate, push_labels, push_mesh, push_obj, push_off, push_slice, read_mesh, read_points

LONGEST_FILE = 4294967296


class Command(NamedTuple):
    """An understood list of arguments: the files in their places, the numbers of `sweep`, `slice` and `demo`, and the options."""
    name: str
    files: Sequence[str]
    numbers: Sequence[int] = ()
    unit: int = 1
    vote: int = 8
    smooth: int = 1
    fixed: Optional[Point] = None


class Host(Protocol):
    """Where files are and the line is printed. Each call raises Failed if it does not succeed."""

    def read(self, name: str, limit: int) -> bytes: ...
    def write(self, name: str, data: bytes) -> None: ...
    def say(self, line: bytes) -> None: ...


class Folder:
    """The files of the current folder, and standard output."""

    def read(self, name: str, limit: int) -> bytes:
        try:
            with open(name, 'rb') as file:
                return file.read(limit)
        except (OSError, ValueError):
            raise Failed from None

    def write(self, name: str, data: bytes) -> None:
        try:
            with open(name, 'wb') as file:
                file.write(data)
        except (OSError, ValueError):
            raise Failed from None

    def say(self, line: bytes) -> None:
        try:
            sys.stdout.buffer.write(line)
            sys.stdout.flush()
        except OSError:
            raise Failed from None


class Memory:
    """Files in memory, by name. What is no name of a file of a folder can not be written."""

    def __init__(self, files: dict[str, bytes]) -> None:
        self.files, self.said = dict(files), b''

    def read(self, name: str, limit: int) -> bytes:
        if name not in self.files:
            raise Failed
        return self.files[name][:limit]

    def write(self, name: str, data: bytes) -> None:
        if '/' in name or '\0' in name or name in ('.', '..') or len(os.fsencode(name)) > 255:
            raise Failed
        self.files[name] = data

    def say(self, line: bytes) -> None:
        self.said += line


# Arguments.

def digits(word: str, longest: int, low: int, high: int) -> Optional[int]:
    """Returns a number of 1 to `longest` digits within its limits."""
    found = re.fullmatch('[0-9]{1,%d}' % longest, word)
    return int(word) if found and low <= int(word) <= high else None


LIMITS = {'unit': (1, 1000000), 'vote': (1, 65535), 'smooth': (0, 65535)}
ALL = ('unit', 'vote', 'smooth', 'scanner')
NAMES = {'cells': (2, ('unit', 'scanner')), 'build': (3, ALL), 'check': (3, ALL), 'upgrade': (4, ALL), 'ask': (3, ALL)}


def with_options(command: Command, words: Sequence[str], allowed: Sequence[str]) -> Optional[Command]:
    """Returns the command with its options, None if one is not understood."""
    given = {word.partition('=')[0]: word.partition('=')[2] for word in words}
    if len(given) < len(words) or any('=' not in word for word in words) or not given.keys() <= set(allowed):
        return None
    for key, (low, high) in LIMITS.items():
        number = digits(given[key], 10, low, high) if key in given else getattr(command, key)
        if number is None:
            return None
        command = command._replace(**{key: number})
    if 'scanner' not in given:
        return command
    try:
        x, y, z = (scaled(part.encode(), command.unit) for part in given['scanner'].split(','))
    except (BadNumber, ValueError):
        return None
    return command._replace(fixed=(x, y, z))


def sweep_of(rest: Sequence[str]) -> Optional[Command]:
    """Returns the arguments IN FROM STEP N OUT1 .. OUTN and the options."""
    if len(rest) < 4:
        return None
    start, step, count = digits(rest[1], 10, 0, 65535), digits(rest[2], 10, 1, 65535), digits(rest[3], 10, 1, 64)
    if start is None or step is None or count is None or start + (count - 1) * step > 65535 or len(rest) < 4 + count:
        return None
    return with_options(Command('sweep', [rest[0], *rest[4:4 + count]], (start, step, count)), rest[4 + count:], ('unit', 'vote', 'scanner'))


def command_of(name: str, rest: Sequence[str]) -> Optional[Command]:
    if name in NAMES:
        count, allowed = NAMES[name]
        return with_options(Command(name, rest[:count]), rest[count:], allowed) if len(rest) >= count else None
    if name == 'sweep':
        return sweep_of(rest)
    if name == 'demo' and len(rest) == 2:
        rows, seed = digits(rest[0], 10, 1, MOST_POINTS), digits(rest[1], 20, 0, 2 ** 64 - 1)
        return None if rows is None or seed is None else Command(name, [], (rows, seed))
    if name == 'slice' and len(rest) == 3:
        is_height = re.fullmatch('-?[0-9]{1,7}', rest[1]) and abs(int(rest[1])) <= BOX
        return Command(name, [rest[0], rest[2]], (int(rest[1]),)) if is_height else None
    return Command(name, rest) if name == 'export' and len(rest) == 4 else None


def understood(words: Sequence[str]) -> Optional[Command]:
    """Returns the command that arguments are, None if they are none."""
    try:
        for word in words:
            word.encode('utf-8')
    except UnicodeEncodeError:
        return None
    command = command_of(words[0], words[1:]) if words else None
    if command is None or '' in command.files or len(set(command.files)) < len(command.files):
        return None
    return command


# Each command writes its files and returns its line.

class Run:
    """A run of a command over a host."""

    def __init__(self, command: Command, host: Host, model: Model) -> None:
        self.command, self.host, self.model = command, host, model

    def data(self, place: int, called: str) -> bytes:
        data = self.host.read(self.command.files[place], LONGEST_FILE + 1)
        if len(data) > LONGEST_FILE:
            raise Refused('19 too_long ' + called)
        return data

    def scan(self) -> tuple[Scan, Stamp]:
        c, data = self.command, self.data(0, 'scan')
        return self.model.read_scan(data, c.unit, c.fixed), Stamp(hashlib.sha256(data).hexdigest(), c.unit, c.fixed)

    def solved(self, scan: Scan) -> Solution:
        return self.model.solve(scan, self.command.vote, self.command.smooth)

    def cells(self) -> str:
        points = self.scan()[0].points()
        rows = self.model.cells(points).rows
        self.host.write(self.command.files[1], push_cells(rows))
        return f'points {len(points)} cells {len(rows)}'

    def build(self) -> str:
        (scan, stamp), c = self.scan(), self.command
        solution = self.solved(scan)
        self.host.write(c.files[1], push_mesh(solution.mesh))
        self.host.write(c.files[2], push_certificate(certificate_of(scan, c.vote, c.smooth, solution, stamp)))
        return built(scan, solution)

    def check(self) -> str:
        (scan, stamp), c = self.scan(), self.command
        found = check(self.model, scan, c.vote, c.smooth, stamp, self.data(1, 'mesh'), self.data(2, 'cert'))
        if c.name == 'check':
            return f'yes inside {found.inside} faces {found.faces} cost {found.cost}'
        self.host.write(c.files[3], push_certificate(found.certificate))
        return f'upgraded cost {found.cost}'

    upgrade = check

    def ask(self) -> str:
        scan, c = self.scan()[0], self.command
        points = read_points(self.data(1, 'points'), c.unit)
        solution = self.solved(scan)
        labels = [solution.network.cells.scanner_cell(p) in solution.inside for p in points]
        self.host.write(c.files[2], push_labels(labels))
        return f'points {len(scan.points())} asked {len(labels)} inside {sum(labels)}'

    def sweep(self) -> str:
        (scan, _), c = self.scan(), self.command
        start, step, count = c.numbers
        found = [self.model.solve(scan, c.vote, start + k * step) for k in range(count)]
        for name, solution in zip(c.files[1:], found):
            self.host.write(name, push_mesh(solution.mesh))
        return f'sweep {count} first_cost {found[0].cost} last_cost {found[-1].cost}'

    def slice(self) -> str:
        loops = slice_of(read_mesh(self.data(0, 'mesh')), self.command.numbers[0])
        self.host.write(self.command.files[1], push_slice(loops))
        return f'loops {len(loops)} steps {sum(map(len, loops))}'

    def export(self) -> str:
        mesh = read_mesh(self.data(0, 'mesh'))
        for name, data in zip(self.command.files[1:], (push_mesh(mesh), push_off(mesh), push_obj(mesh))):
            self.host.write(name, data)
        return f'exported 3 points {len(mesh.points)} faces {len(mesh.faces)}'

    def demo(self) -> str:
        rows, seed = self.command.numbers
        scan = read_scan(push_scan(generated(rows, seed)))
        return f'demo {rows} {seed} ' + built(scan, self.solved(scan))


def built(scan: Scan, solution: Solution) -> str:
    return (f'points {len(scan.points())} scanners {len(scan.scanners)} sights {len(scan.sights())} inside {len(solution.inside)} '
            f'faces {len(solution.mesh.faces)} cost {solution.cost}')


def run(words: Sequence[str], host: Host, model: Model) -> int:
    """Runs the command that arguments are, and returns the status."""
    command, status, line = understood(words), 0, ''
    try:
        if command is None:
            status, line = 2, 'refused words'
        else:
            try:
                line = getattr(Run(command, host, model), command.name)()
            except Rejected as reason:
                status, line = 1, f'no {reason}'
            except Refused as error:
                status, line = 3, f'refused {error}'
        host.say((line + '\n').encode())
        return status
    except Failed:
        return 4
