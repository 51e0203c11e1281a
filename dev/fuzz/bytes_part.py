"""Prefixes, and bytes changed, left out, put in and repeated, of small scans, their certificates, meshes and points."""
from __future__ import annotations

import time
from typing import Callable, NamedTuple, Sequence

from .judge import OLD, judge, texts_of
from .runs import Files, Folder
from .small_files import POINTS, SCANS
from .tally import Context, Tally

MOST_COMMANDS = 2           # the number of commands that read a file that are tried on each change of it


class Target(NamedTuple):
    """A file that is changed, the other files, and the commands that read it."""
    label: str
    name: str
    files: Files
    commands: Sequence[list[str]]


Change = Callable[[bytes], bytes]


def scan_commands(options: list[str]) -> list[list[str]]:
    sweep = [o for o in options if not o.startswith('smooth=')]
    cells = [o for o in sweep if not o.startswith('vote=')]
    return [['cells', 'in', 'o1', *cells], ['build', 'in', 'o1', 'o2', *options], ['check', 'in', 'm', 'c1', *options],
            ['check', 'in', 'm', 'c2', *options], ['upgrade', 'in', 'm', 'c1', 'o1', *options], ['ask', 'in', 'q', 'o1', *options],
            ['sweep', 'in', '0', '2', '3', 'o1', 'o2', 'o3', *sweep]]


def targets() -> list[Target]:
    found = []
    for name, (data, options) in SCANS.items():
        mesh, one, two = texts_of(data, options)
        base = {'in': data, 'm': mesh, 'c1': one, 'c2': two, 'q': POINTS['plain'], 'bystander': b'stays'}
        found.append(Target(f'scan {name}', 'in', base, scan_commands(options)))
        for c in ('c1', 'c2'):
            found.append(Target(f'certificate of {name}', c, base, [['check', 'in', 'm', c, *options], ['upgrade', 'in', 'm', c, 'o1', *options]]))
        meshes = [['slice', 'm', '0', 'o1'], ['slice', 'm', '-3', 'o1'], ['export', 'm', 'o1', 'o2', 'o3']]
        found.append(Target(f'mesh of {name}', 'm', base, [['check', 'in', 'm', 'c2', *options], *meshes]))
        for points, text in POINTS.items():
            found.append(Target(f'points {points}', 'q', {**base, 'q': text}, [['ask', 'in', 'q', 'o1', *options]]))
    return found


def prefix(length: int) -> Change:
    return lambda data: data[:length]


def spliced(at: int, end: int, new: bytes) -> Change:
    return lambda data: data[:at] + new + data[end:]


def repeated(at: int, count: int) -> Change:
    return lambda data: data[:at + count] + data[at:]


def prefixes_of(data: bytes) -> list[Change]:
    return [prefix(length) for length in range(len(data))]


def changes_of(data: bytes) -> list[Change]:
    found, inserted = [], (0, 10, 13, 32, 45, 46, 48, 49, 255)
    for at, old in enumerate(data):
        values = {0, 9, 10, 13, 32, 45, 46, 48, 49, 57, 101, 127, 128, 255, old ^ 1, old ^ 32, old ^ 128, (old + 1) % 256, (old - 1) % 256}
        found += [spliced(at, at + 1, bytes([value])) for value in sorted(values - {old})]
        found += [spliced(at, at, bytes([value])) for value in (*inserted, old)]
        found += [spliced(at, at + 1, b''), repeated(at, 2 + at % 7)]
    return found + [spliced(len(data), len(data), bytes([value])) for value in (*inserted, 120)]


def try_all(context: Context, tally: Tally, folder: Folder, todo: Sequence[tuple[Target, Change]], until: float) -> int:
    """Tries changes until some time; returns what part of a hundred of them was tried."""
    for tried, (target, change) in enumerate(todo):
        if time.monotonic() > until:
            return 100 * tried // len(todo)
        files = {**target.files, target.name: change(target.files[target.name])}
        for words in context.draw.sample(list(target.commands), min(MOST_COMMANDS, len(target.commands))):
            outputs = {name: OLD for name in ('o1', 'o2', 'o3') if name in words and context.draw.random() < 0.7}
            judge(context, tally, target.label, folder, words, {**files, **outputs})
    return 100


def run(context: Context, tally: Tally) -> None:
    folder, every = Folder(), targets()
    prefixes = context.share([(target, change) for target in every for change in prefixes_of(target.files[target.name])])
    changes = context.share([(target, change) for target in every for change in changes_of(target.files[target.name])])
    first = try_all(context, tally, folder, prefixes, context.until(0.5))
    tally.note(f'{first} % of the prefixes, {try_all(context, tally, folder, changes, context.deadline)} % of the changes')
    folder.close()
