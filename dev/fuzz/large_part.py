"""Scans of 30 to 3,000 points, and some of 30,000 to 100,000, beside the reference program: cells, mesh and line; each program checks the
other's certificates; surfaces of sweeps are those of builds; labels of `ask` are those of the certificate, by the definition."""
from __future__ import annotations

import math
from typing import Optional, Sequence

from model.errors import Rejected
from model.points import CORNERS, LIMIT, Cell, Point, facets_of, positive, side
from model.scans import Scan
from model.solution import slice_of
from model.texts import Certificate, push_certificate, push_obj, push_off, push_slice, read_certificate, read_mesh

from .runs import Done, Files, Folder
from .shapes import SMOOTHS, VOTES, clipped, drawn_scan, text_of
from .tally import Context, Tally

# Kinds whose cells are many more than their points.
MOST_POINTS = {'skew': 300, 'moment': 120, 'paraboloid': 1500, 'circles': 1500, 'line': 700, 'needle': 900}
FEW = 3000
LARGE = ['shell', 'cloud', 'lattice', 'box', 'slanted', 'scales', 'sphere', 'repeated']


class Labelled:
    """The inside cells of a certificate, which say by the definition what each point's label is."""

    def __init__(self, points: Sequence[Point], certificate: Certificate) -> None:
        self.vertices = [*CORNERS, *points]
        self.cells: list[tuple[Cell, list[int], list[int]]] = []
        for row in certificate.inside:
            cell, corners = positive(self.vertices, row), [self.vertices[v] for v in row]
            assert cell is not None
            self.cells.append((cell, [min(p[a] for p in corners) for a in range(3)], [max(p[a] for p in corners) for a in range(3)]))

    def has(self, q: Point) -> bool:
        v = self.vertices
        near = (cell for cell, low, high in self.cells if all(low[a] <= q[a] <= high[a] for a in range(3)))
        return any(all(side(v[a], v[b], v[c], q) > 0 for a, b, c in facets_of(cell)) for cell in near)


class Beside:
    """One scan, and what both programs made of it."""

    def __init__(self, context: Context, tally: Tally, folder: Folder, n: int, kind: Optional[str]) -> None:
        self.context, self.tally, self.folder, self.draw = context, tally, folder, context.draw
        drawn = drawn_scan(self.draw, min(n, MOST_POINTS.get(kind or '', n)), kind)
        self.kind = drawn.kind
        self.scan = Scan(drawn.scan.rows[:2 * n], drawn.scan.scanners)
        self.data, self.place = text_of(self.draw, self.scan, 0.12)
        if self.place:
            self.scan = Scan([row._replace(seen_by=(0,)) for row in self.scan.rows], [])
        self.vote, self.smooth = self.draw.choice(VOTES), self.draw.choice(SMOOTHS)
        self.options = [f'vote={self.vote}', f'smooth={self.smooth}', *self.place]

    def ran(self, program: str, words: Sequence[str], files: Optional[Files] = None) -> tuple[Done, Files]:
        self.folder.put({'in': self.data, **(files or {})})
        done = self.folder.run([program, *words], 900)
        self.tally.runs += program == self.context.recon
        return done, self.folder.look()

    def fail(self, kind: str, words: Sequence[str], wrong: str, files: Optional[Files] = None) -> None:
        self.tally.fail(kind, [self.context.recon, *words], {'in': self.data, **(files or {})}, f'{self.kind}: {wrong}')

    def all(self) -> None:
        recon, reference, build = self.context.recon, self.context.reference, ['build', 'in', 'm', 'c', *self.options]
        ours, files = self.ran(recon, build)
        theirs, others = self.ran(reference, build)
        if (ours.status, ours.out, files.get('m')) != (theirs.status, theirs.out, others.get('m')):
            self.fail('mesh or line beside the reference', build, f'{ours}; reference: {theirs}; meshes equal: {files.get("m") == others.get("m")}')
        if ours.status != 0 or theirs.status != 0:
            return
        for step in (self.cells, lambda: self.checks(files, others, ours.out), lambda: self.sweep(files['m']), lambda: self.labels(files['c']),
                     lambda: self.meshes(files['m'])):
            if not self.context.is_over():
                step()

    def cells(self) -> None:
        words = ['cells', 'in', 'o', *self.place]
        ours, files = self.ran(self.context.recon, words)
        theirs, others = self.ran(self.context.reference, words)
        if (ours.status, ours.out, files.get('o')) != (theirs.status, theirs.out, others.get('o')):
            self.fail('cells beside the reference', words, f'{ours}; reference: {theirs}')

    def checks(self, files: Files, others: Files, line: bytes) -> None:
        """Each program accepts both certificates, and upgraded ones."""
        words, yes = ['check', 'in', 'm', 'c', *self.options], b'yes ' + b' '.join(line.split()[6:]) + b'\n'
        first = b'recon certificate 1\n' + files['c'].split(b'\n', 4)[4]
        for program, cert, name in ((self.context.recon, files['c'], 'own'), (self.context.recon, others['c'], 'reference'),
                                    (self.context.recon, first, 'version 1'), (self.context.reference, files['c'], 'by the reference')):
            done, _ = self.ran(program, words, {'m': files['m'], 'c': cert})
            if (done.status, done.out) != (0, yes):
                self.fail(f'check, {name}', words, f'{done}, wanted {yes!r}', {'m': files['m'], 'c': cert})
        words = ['upgrade', 'in', 'm', 'c', 'o', *self.options]
        done, after = self.ran(self.context.recon, words, {'m': files['m'], 'c': first})
        if done.status != 0 or after.get('o') != files['c']:
            self.fail('upgrade', words, str(done), {'m': files['m'], 'c': first})
        if len(self.scan.rows) <= FEW:
            try:
                if push_certificate(read_certificate(files['c'])) != files['c']:
                    self.fail('form of the certificate', words, 'it is spelled otherwise')
            except Rejected as error:
                self.fail('form of the certificate', words, str(error))

    def sweep(self, mesh: bytes) -> None:
        """A sweep that has this smoothing weight among its own."""
        count, step = self.draw.randint(2, 5) if len(self.scan.rows) <= FEW else 3, self.draw.choice([1, 2, 5])
        k = self.draw.randrange(count)
        start = self.smooth - k * step
        if start < 0 or start + (count - 1) * step > 65535:
            return
        outputs = [f's{i}' for i in range(count)]
        options = [f'vote={self.vote}', *self.place]
        words = ['sweep', 'in', str(start), str(step), str(count), *outputs, *options]
        done, files = self.ran(self.context.recon, words)
        if done.status != 0 or files.get(f's{k}') != mesh:
            self.fail('sweep beside build', words, str(done))
            return
        i = self.draw.choice([0, count - 1])
        built, after = self.ran(self.context.recon, ['build', 'in', 'm', 'c', f'smooth={start + i * step}', *options])
        if after.get('m') != files[f's{i}'] or built.out.split()[-1] != done.out.split()[3 if i == 0 else 5]:
            self.fail('sweep beside build', words, f'surface {i}: {done}; build: {built}')

    def labels(self, certificate: bytes) -> None:
        points = self.scan.points()
        labelled = Labelled(points, read_certificate(certificate))
        asked = []
        for _ in range(60):
            cell = self.draw.choice(labelled.cells)[0] if labelled.cells and self.draw.random() < 0.6 else None
            four = [labelled.vertices[v] for v in cell] if cell else self.draw.choices(points, k=4)
            some, how = four[:self.draw.randint(1, 4)], self.draw.randrange(6)
            q: Sequence[int] = [sum(p[a] for p in some) // len(some) for a in range(3)]
            if how == 4:
                q = [self.draw.randint(-LIMIT, LIMIT) for _ in range(3)]
            elif how == 5:
                q = [w + self.draw.choice([-1, 0, 1]) for w in four[0]]
            asked.append(clipped(q))
        words, files = ['ask', 'in', 'q', 'o', *self.options], {'q': ' '.join(str(w) for q in asked for w in q).encode()}
        done, after = self.ran(self.context.recon, words, files)
        wanted = ['inside' if labelled.has(q) else 'outside' for q in asked]
        if done.status != 0 or after.get('o') != '\n'.join([f'answers {len(asked)}', *wanted, '']).encode():
            self.fail('labels beside the certificate', words, str(done), files)

    def meshes(self, mesh: bytes) -> None:
        if len(self.scan.rows) > FEW:
            return
        read = read_mesh(mesh)
        height = self.draw.choice([p[2] for p in read.points] or [0]) - self.draw.choice([0, 1])
        done, after = self.ran(self.context.recon, ['slice', 'm', str(height), 'o'], {'m': mesh})
        if done.status != 0 or after.get('o') != push_slice(slice_of(read, height)):
            self.fail('slice', ['slice', 'm', str(height), 'o'], str(done), {'m': mesh})
        done, after = self.ran(self.context.recon, ['export', 'm', 'x', 'y', 'z'], {'m': mesh})
        if done.status != 0 or [after.get(o) for o in 'xyz'] != [mesh, push_off(read), push_obj(read)]:
            self.fail('export', ['export', 'm', 'x', 'y', 'z'], str(done), {'m': mesh})


def run(context: Context, tally: Tally) -> None:
    if not context.reference:
        tally.note('skipped: the reference program is not built')
        return
    folder, tried = Folder(), 0
    draw = context.draw
    while not context.is_over():
        if context.seconds > 60 and tried % 30 == 29:
            Beside(context, tally, folder, draw.choice([30000, 60000, 100000]), draw.choice(LARGE)).all()
        else:
            most = FEW if context.seconds > 60 else FEW // 4
            Beside(context, tally, folder, int(math.exp(draw.uniform(math.log(30), math.log(most)))), None).all()
        tried += 1
    tally.note(f'{tried} scans')
    folder.close()
