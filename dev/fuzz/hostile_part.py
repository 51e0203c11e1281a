"""Files of some megabytes that state more than they hold, or hold one endless token: they are refused at once, and take little memory."""
from __future__ import annotations

import re
import resource
from typing import NamedTuple, Optional, Sequence

from .judge import texts_of
from .runs import Files, Folder
from .small_files import SCANS, XYZ, lines
from .tally import Context, Tally

MB = 10 ** 6
MOST_SECONDS, MOST_MEMORY = 20, 260 * MB       # of the processor; beside four times the bytes of the files


class Lie(NamedTuple):
    """A command, its files and what it prints, if one line is right."""
    name: str
    words: Sequence[str]
    files: Files
    line: Optional[bytes]


def head(kind: str, points: int, extra: Sequence[str] = ()) -> bytes:
    return lines(['ply', f'format {kind} 1.0', *extra, f'element vertex {points}', *XYZ, 'property list uint int scanner', 'element scanner 1',
                  *XYZ, 'end_header'])


def scans() -> list[tuple[str, bytes, Optional[str]]]:
    """Names, files and errors."""
    skipped = ['element e 3', 'property list uint double q']
    tail, few = b' 2 3 0\n9 9 9\n', 20 * MB
    return [
        ('a million comments', b'ply\nformat ascii 1.0\n' + b'comment\n' * MB, '4 long_header'),
        ('a header line of 10 MB', b'ply\nformat ascii 1.0\ncomment ' + b'c' * 10 * MB + b'\n', '3 long_line line 3'),
        ('a first line of 10 MB', b'ply' + b' ' * 10 * MB, '1 not_ply'),
        ('2^20 points that are not there', head('ascii', 1048576), '17 cut element 0 row 0 property 0'),
        ('the same, binary', head('binary_big_endian', 1048576), '17 cut element 0 row 0 property 0'),
        ('2^32 - 1 rows without properties', head('ascii', 1, [f'element e{k} 4294967295' for k in range(985)]) + b'1 2 3 0\n9 9 9\n', None),
        ('2^32 - 1 rows before', head('ascii', 1, ['element e 4294967295', 'property int q']) + b'1 2 3 0\n9 9 9\n',
         '17 cut element 0 row 7 property 0'),
        ('a list of 2^32 - 1', head('ascii', 1) + b'1 2 3 4294967295 0 0\n', '17 cut element 0 row 0 property 3'),
        ('the same, binary', head('binary_little_endian', 1) + bytes(12) + b'\xff' * 68, '17 cut element 0 row 0 property 3'),
        ('a skipped list of 2^32 - 1', head('ascii', 1, skipped) + b'4294967295 ' + b'0 ' * 50, '17 cut element 0 row 0 property 0'),
        ('the same of doubles, binary', head('binary_big_endian', 1, skipped) + b'\xff' * 400, '17 cut element 0 row 0 property 0'),
        ('8,388,609 sights', head('ascii', 1) + b'1 2 3 8388609' + b' 0' * 8388609 + b'\n9 9 9\n', '22 too_many_sights row 0'),
        ('a token of 20 MB', head('ascii', 1) + b'1' * few + tail, '13 long_number element 0 row 0 property 0'),
        ('20 MB of zeros before a digit', head('ascii', 1) + b'0' * few + b'1' + tail, None),
        ('20 MB of white space', head('ascii', 1) + b' \t\r\n' * (few // 4) + b'1' + tail, None),
        ('an exponent of 20 MB', head('ascii', 1) + b'1e' + b'0' * few + b'1' + tail, None),
        ('lists that are cut', head('ascii', 1, ['element e 4294967295', 'property list uchar int q']) + b'0 ' * 10 * MB,
         f'17 cut element 0 row {10 * MB} property 0')]


def lies() -> list[Lie]:
    data, options = SCANS['text']
    mesh, cert, _ = texts_of(data, options)
    outputs = [f'o{k}' for k in range(64)]
    found = []
    for name, scan, error in scans():
        for words in (['cells', 'in', 'o'], ['build', 'in', 'o', 'p'], ['check', 'in', 'm', 'c'], ['ask', 'in', 'q', 'o'],
                      ['sweep', 'in', '0', '1', '64', *outputs]):
            line = None if error is None else f'refused {error}\n'.encode()
            found.append(Lie(name, words, {'in': scan, 'm': mesh, 'c': cert, 'q': b'0 0 0'}, line))
    for name, text in (('a mesh of 2^32 - 1 points', re.sub(rb'vertex \d+', b'vertex 4294967295', mesh)),
                       ('a mesh of 2^32 - 1 faces', re.sub(rb'face \d+', b'face 4294967295', mesh)), ('a mesh of one line', b'ply' + b'x' * 20 * MB)):
        found += [Lie(name, ['slice', 'm', '0', 'o'], {'m': text}, None), Lie(name, ['export', 'm', 'o', 'p', 'r'], {'m': text}, None)]
    for rows in (b'inside', b'flow', b'sink'):
        text = re.sub(rows + rb' \d+', rows + b' 18446744073709551615', cert)
        found.append(Lie('2^64 - 1 rows of a certificate', ['check', 'in', 'm', 'c', *options], {'in': data, 'm': mesh, 'c': text}, None))
    for text in (b'recon certificate 1\n' + b'x' * 20 * MB, b'recon certificate 1\npoints ' + b'0' * 20 * MB + b'5\n'):
        found.append(Lie('a certificate of 20 MB', ['check', 'in', 'm', 'c', *options], {'in': data, 'm': mesh, 'c': text}, None))
    for name, points, error in (('a point of 20 MB', b'1' * 20 * MB + b' 0 0', '24 long_query token 0'),
                                ('3,145,729 values', b'0 ' * 3145729, '27 too_many_queries tokens 3145729'),
                                ('20 MB of zeros', b'0' * 20 * MB + b' 0 0', '')):
        line = f'refused {error}\n'.encode() if error else None
        found.append(Lie(name, ['ask', 'in', 'q', 'o', *options], {'in': data, 'q': points}, line))
    return found


def run(context: Context, tally: Tally) -> None:
    """Each run has a limit of memory: status 5 says that it wanted more."""
    folder, todo, tried = Folder(), context.share(lies()), 0
    for lie in todo:
        if context.is_over():
            break
        folder.put(lie.files)
        size = sum(len(lie.files[word]) for word in lie.words if word in lie.files)
        most = MOST_MEMORY + 4 * size

        def limits(most: int = most) -> None:
            resource.setrlimit(resource.RLIMIT_AS, (most, most))

        done = folder.limited([context.recon, *lie.words], limits, 300)
        after = folder.look()
        tally.runs += 1
        wrong = None
        if done.status not in (0, 1, 3) or lie.line is not None and (done.status, done.out) != (3, lie.line):
            wrong = f'{done}, wanted {lie.line!r}, with {most // MB} MB of memory'
        elif done.status != 0 and after != lie.files:
            wrong = f'files changed: {done}'
        elif done.seconds > MOST_SECONDS:
            wrong = f'{done.seconds:.1f} s of the processor'
        if wrong:
            tally.fail(f'{lie.name}, {lie.words[0]}', [context.recon, *lie.words], lie.files, wrong)
        tried += 1
    tally.note(f'{tried} of {len(todo)} of each worker')
    folder.close()
