"""Small degenerate scans and files of all forms, by all commands: own and wrong certificates, points at vertices, edges and facets, and each
sweep beside a fresh build."""
from __future__ import annotations

from typing import Sequence

from model.errors import Refused
from model.points import LIMIT, Point
from model.scans import Scan
from model.texts import push_mesh

from .documents import TOKENS, broken, decimal, drawn_document
from .judge import MODEL, OLD, Solved, command_of, judge, solved_of
from .runs import Files, Folder
from .shapes import SMOOTHS, VOTES, Draw, clipped, drawn_scan, text_of
from .spoiled import spoiled_answer
from .tally import Context, Tally

MOST_SIGHTS = 300


def places(draw: Draw, solved: Solved, most: int = 24) -> list[Point]:
    """Points at vertices, on edges and facets, in cells, at scanners, at limits and beside vertices."""
    cells = solved.solution.network.cells
    chosen = [cells.rows[k] for k in solved.solution.inside] or cells.rows
    found = []
    for _ in range(draw.randint(1, most)):
        four = cells.at(draw.choice(chosen if draw.random() < 0.6 else cells.rows))
        draw.shuffle(four)
        how, some = draw.randrange(7), four[:draw.randint(1, 4)]
        if how < 3:
            q = [sum(p[axis] for p in some) // len(some) for axis in range(3)]
        elif how == 3:
            q = list(draw.choice(solved.scan.scanners or [(0, 0, 0)]))
        elif how == 4:
            q = [draw.choice([-LIMIT, LIMIT, 0]) for _ in range(3)]
        elif how == 5:
            s, t = draw.randint(-2, 2), draw.randint(-2, 2)
            q = [a + s * (b - a) + t * (c - a) for a, b, c in zip(*four[:3])]
        else:
            q = [w + draw.choice([-1, 0, 1]) for w in four[0]]
        found.append(clipped(q))
    return found


def points_text(draw: Draw, points: Sequence[Point], unit: int) -> bytes:
    """Returns the points as a text, a few of them with something wrong."""
    tokens = [decimal(draw, w, unit).encode() for p in points for w in p]
    if draw.random() < 0.12 and tokens:
        at = draw.randrange(len(tokens))
        tokens[at:at + 1] = draw.choice([[], [b'1', b'2'], [draw.choice(TOKENS)]])
    return b''.join(token + draw.choice([b' ', b' ', b'\n', b'\r\n', b'\t']) for token in tokens)


def sweep_numbers(draw: Draw) -> list[str]:
    """FROM STEP N, most of them taken."""
    how = draw.random()
    if how < 0.6:
        return [str(draw.choice([0, 0, 1, 2, 7, 100])), str(draw.choice([1, 1, 2, 3, 9, 1000])), str(draw.randint(2, 6))]
    if how < 0.8:
        count = draw.randint(2, 6)
        step = draw.choice([1, 2, 65535 // (count - 1)])
        return [str(max(0, 65535 - (count - 1) * step + draw.choice([0, 0, 0, 1, -1]))), str(step), str(count)]
    return draw.choice([['65535', '1', '1'], ['65535', '65535', '1'], ['0', '65535', '2'], ['65535', '1', '2'], ['1', '65535', '2'],
                        ['65536', '1', '1'], ['0', '0', '1'], ['0', '1', '0'], ['0', '65536', '1'], ['0000000000', '0000000001', '0000000002'],
                        ['00000000000', '1', '1'], ['-0', '1', '1'], ['+1', '1', '1'], ['1', '1', '2.0'], ['', '1', '1'],
                        ['4294967296', '1', '1'], ['0', '9999999999', '2'], ['0', '1', '65'], ['1', '2147483648', '3'], ['\u0661', '1', '1']])


class Round:
    """All commands on one scan."""

    def __init__(self, context: Context, tally: Tally, folder: Folder, label: str, data: bytes, place: list[str], weights: list[str]) -> None:
        self.context, self.tally, self.folder, self.label, self.draw = context, tally, folder, label, context.draw
        self.data, self.place, self.weights, self.options = data, place, weights, place + weights
        self.unit = command_of(['cells', 'in', 'o', *place]).unit

    def try_on(self, words: Sequence[str], files: Files, *outputs: str) -> tuple[int, Files]:
        """Runs a command; some of its outputs hold something already."""
        before = {**files, **{name: OLD for name in outputs if self.draw.random() < 0.4}}
        done, after = judge(self.context, self.tally, self.label, self.folder, words, before)
        return -1 if done.status is None else done.status, after

    def refused(self) -> None:
        """The commands on a file that is not a scan."""
        for words in (['cells', 'in', 'o'], ['build', 'in', 'm', 'c'], ['ask', 'in', 'q', 'o'], ['sweep', 'in', '0', '1', '2', 'o', 'p']):
            self.try_on(words + self.place, {'in': self.data, 'q': b'1 2'}, 'o')

    def taken(self) -> None:
        solved = solved_of(self.data, self.options)
        base = {'in': self.data}
        mixed = self.draw.sample(self.options, len(self.options))
        self.try_on(['cells', 'in', 'o', *self.place], base, 'o')
        status, after = self.try_on(['build', 'in', 'm', 'c', *mixed], base, 'm', 'c')
        if status == 0:
            own = {**base, 'm': after['m'], 'c': after['c']}
            self.try_on(['check', 'in', 'm', 'c', *self.options], own)
            self.try_on(['upgrade', 'in', 'm', 'c', self.draw.choice(['o', 'o', 'no/x']), *self.options], own, 'o')
        for _ in range(2):
            mesh, cert = spoiled_answer(self.draw, solved)
            words = self.draw.choice([['check', 'in', 'm', 'c'], ['check', 'in', 'm', 'c'], ['upgrade', 'in', 'm', 'c', 'o']])
            self.try_on(words + mixed, {**base, 'm': mesh, 'c': cert})
        points = points_text(self.draw, places(self.draw, solved), self.unit)
        self.try_on(['ask', 'in', 'q', 'o', *self.options], {**base, 'q': points}, 'o')
        self.sweep(base)
        mesh, heights = push_mesh(solved.solution.mesh), [p[2] for p in solved.solution.mesh.points] or [0]
        height = self.draw.choice([*heights, 0]) - self.draw.choice([0, 1])
        self.try_on(['slice', 'm', str(height), 'o'], {'m': mesh}, 'o')
        self.try_on(['export', 'm', 'x', 'y', 'z'], {'m': mesh}, 'x', 'y', 'z')

    def sweep(self, base: Files) -> None:
        """A sweep, and one of its surfaces beside a fresh build."""
        numbers, options = sweep_numbers(self.draw), [o for o in self.options if not o.startswith('smooth')]
        outputs = [f's{k}' for k in range(int(numbers[2]) if numbers[2].isascii() and numbers[2].isdigit() and int(numbers[2]) < 70 else 2)]
        words = ['sweep', 'in', *numbers, *outputs, *options]
        status, after = self.try_on(words, base, *outputs[:2])
        if status != 0:
            return
        start, step, count = command_of(words).numbers
        k = self.draw.randrange(count)
        _, built = self.try_on(['build', 'in', 'm', 'c', f'smooth={start + k * step}', *options], base)
        if built.get('m') != after[outputs[k]]:
            self.tally.fail('sweep beside build', [self.context.recon, *words], base, f'surface {k} is not what build writes')


def one(context: Context, tally: Tally, folder: Folder) -> None:
    draw = context.draw
    if draw.random() < 0.4:
        doc, place = drawn_document(draw)
        label, data = 'forms', doc.data() if draw.random() < 0.5 else broken(draw, doc)
    else:
        drawn = drawn_scan(draw, draw.choice([1, 2, 3, 4, 4, 5, 6, 7, 8, 8, 9, 10, 12, 14, 17]))
        scan = Scan(drawn.scan.rows[:40], drawn.scan.scanners)
        label, (data, place) = drawn.kind, text_of(draw, scan)
    weights = [f'vote={draw.choice(VOTES)}'] if draw.random() < 0.6 else []
    weights += [f'smooth={draw.choice(SMOOTHS)}'] if draw.random() < 0.7 else []
    tried = Round(context, tally, folder, label, data, place, weights)
    c = command_of(['cells', 'in', 'o', *place])
    try:
        scan = MODEL.read_scan(data, c.unit, c.fixed)
    except Refused:
        tried.refused()
        return
    if len(scan.sights()) <= MOST_SIGHTS and len(scan.points()) <= 40:
        tried.taken()


def run(context: Context, tally: Tally) -> None:
    folder, scans = Folder(), 0
    while not context.is_over():
        one(context, tally, folder)
        scans += 1
    folder.close()
