"""Certificates changed in every way, alone and two or three at once, from the flows of the model, the program and the reference program: the
verdict and the first reason with its numbers."""
from __future__ import annotations

from typing import Sequence

from model.errors import Refused, Rejected
from model.scans import Scan
from model.texts import Certificate, push_mesh, read_certificate

from .judge import Solved, judge, solved_of
from .runs import Folder
from .shapes import SMOOTHS, VOTES, drawn_scan, text_of
from .spoiled import Changes, Sheet, broken_mesh, changed_text
from .tally import Context, Tally

MOST_CHANGES = 500
MOST_SIGHTS = 250


def written(folder: Folder, program: str, data: bytes, options: Sequence[str]) -> list[Certificate]:
    """Returns the certificate that a program writes."""
    folder.put({'in': data})
    done = folder.run([program, 'build', 'in', 'm', 'c', *options])
    files = folder.look()
    try:
        return [read_certificate(files['c'])] if done.status == 0 and 'c' in files else []
    except Rejected:
        return []


def one(context: Context, tally: Tally, folder: Folder) -> None:
    draw = context.draw
    drawn = drawn_scan(draw, draw.choice([4, 5, 6, 7, 8, 8, 9, 10, 12, 14, 17, 25, 40]))
    data, options = text_of(draw, Scan(drawn.scan.rows[:60], drawn.scan.scanners), 0.2)
    options += [f'vote={draw.choice(VOTES)}', f'smooth={draw.choice(SMOOTHS)}']
    try:
        solved = solved_of(data, options) if len(drawn.scan.sights()) <= MOST_SIGHTS else None
    except Refused:
        solved = None
    if solved is not None and (solved.solution.inside or draw.random() < 0.1):
        try_all(context, tally, folder, data, options, solved)


def try_all(context: Context, tally: Tally, folder: Folder, data: bytes, options: Sequence[str], solved: Solved) -> None:
    draw, mesh = context.draw, push_mesh(solved.solution.mesh)
    programs = [context.recon] + ([context.reference] if context.reference else [])
    certificates = [solved.certificate] + [cert for program in programs for cert in written(folder, program, data, options)]
    for cert in certificates:
        for stamp in (cert.stamp, None):
            text = Sheet(cert._replace(stamp=stamp)).text()
            judge(context, tally, 'as it stands', folder, ['check', 'in', 'm', 'c', *options], {'in': data, 'm': mesh, 'c': text})
    cert = draw.choice(certificates)
    base = Sheet(cert if draw.random() < 0.6 else cert._replace(stamp=None))
    changes = Changes(draw, solved.solution.network, base).found
    for _ in range(min(MOST_CHANGES, len(changes))):
        if context.is_over():
            return
        found = changed_text(draw, base, changes)
        if found is not None:
            words = ['check', 'in', 'm', 'c'] if draw.random() < 0.88 else ['upgrade', 'in', 'm', 'c', 'o']
            shown = broken_mesh(draw, mesh) if draw.random() < 0.06 else mesh
            judge(context, tally, found[0], folder, [*words, *options], {'in': data, 'm': shown, 'c': found[1]})


def run(context: Context, tally: Tally) -> None:
    folder = Folder()
    while not context.is_over():
        one(context, tally, folder)
    folder.close()
