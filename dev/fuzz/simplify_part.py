"""`recon-mesh simplify` and `check` on small meshes, beside the judge of `simplified.py`: rough balls, boxes that touch in vertices, edges and
faces' planes, flat regions, slivers, meshes with faces that cross, and pieces inside one another."""
from __future__ import annotations

from itertools import product
from random import Random
from typing import Sequence

from samples import ball, mesh_of, mesh_text

from .meshes_part import mesh_program
from .runs import Folder
from .simplified import Face, Mesh, Place, far_corner, far_faults, far_place, faults
from .tally import Context, Tally

LIMIT = 8388608


def boxes(draw: Random, size: int) -> Mesh:
    """Returns the surface of some unit cells of a lattice: cells that touch in edges and vertices share them."""
    cells = {(draw.randrange(3), draw.randrange(3), draw.randrange(3)) for _ in range(draw.randint(1, 9))}
    number: dict[tuple[int, ...], int] = {}
    faces: list[Face] = []
    for cell in sorted(cells):
        for axis, end in product(range(3), (0, 1)):
            beside = list(cell)
            beside[axis] += 2 * end - 1
            if tuple(beside) in cells:
                continue
            corners = []
            for u, v in ((0, 0), (1, 0), (1, 1), (0, 1)):
                place = list(cell)
                place[axis] += end
                place[(axis + 1) % 3] += u
                place[(axis + 2) % 3] += v
                corners.append(number.setdefault(tuple(place), len(number)))
            a, b, c, d = corners if end else corners[::-1]
            faces += [(a, b, c), (a, c, d)]
    return [tuple(size * x for x in place) for place in number], faces


def moved(mesh: Mesh, draw: Random, by: int) -> Mesh:
    """Returns a mesh with each coordinate moved at random."""
    return [tuple(max(-LIMIT, min(LIMIT, x + draw.randint(-by, by))) for x in p) for p in mesh[0]], mesh[1]


def joined(meshes: Sequence[Mesh]) -> Mesh:
    """Returns several meshes as one."""
    places: list[Place] = []
    faces: list[Face] = []
    for more, corners in meshes:
        faces += [tuple(v + len(places) for v in face) for face in corners]
        places += more
    return places, faces


def drawn(draw: Random) -> Mesh:
    """Returns a mesh."""
    kind = draw.randrange(6)
    size = draw.choice((2, 5, 30, 1000, 100000, LIMIT // 2))
    if kind == 0:
        return moved(boxes(draw, size), draw, draw.choice((0, 0, size // 4)))
    if kind == 1:
        return joined([ball(draw.randint(1, 4), size, 0.1, draw), ball(draw.randint(1, 3), size // 2, 0.2, draw)])
    if kind == 2:
        return moved(ball(draw.randint(1, 5), size, draw.choice((-1, 0.0)), draw), draw, draw.choice((0, 1, size // 3)))
    if kind == 3:
        return ball(draw.randint(2, 6), size, -1, draw)
    mesh: Mesh = ball(draw.randint(2, 6), size, draw.choice((0.0, 0.05, 0.3, 0.9)), draw)
    return mesh


def spoiled(context: Context, tally: Tally, folder: Folder, path: str, old: Mesh, text: str) -> None:
    """Moves vertices of a simplified mesh or states a shorter distance, and judges what `check` says of it."""
    draw = context.draw
    head = text.split('end_header', 1)[0]
    within = int(head.split(' within=')[1].split()[0])
    stated, new = draw.choice((within, max(1, within // draw.choice((2, 5, 100))))), mesh_of(text)
    new = moved(new, draw, draw.choice((0, within // 2, 2 * within)))
    body = mesh_text(*new).split('end_header', 1)[1]
    files = {'in': mesh_text(*old).encode(), 'out': f'{head.replace(f" within={within} ", f" within={stated} ")}end_header{body}'.encode()}
    folder.put(files)
    command = ['recon-mesh', 'check', 'in', 'out']
    done = folder.run([path, 'check', 'in', 'out'], 60)
    tally.runs += 1
    said, surface = done.out.decode(), ' surface=yes' in head
    wrong = far_faults(said, old, new, stated)
    if said.startswith('yes '):
        is_far = far_corner(old, new, stated) is not None or surface and (far_place(old, new, stated) or far_place(new, old, stated))
        wrong += ['a point is far'] if is_far else []
    elif not said.startswith(('no 6 ', 'no 7 ', 'no 8 ')):
        wrong.append('an unexpected line')
    if wrong:
        tally.fail('check of a changed simplified mesh is wrong', command, files, f'{done}; {"; ".join(wrong)}')


def tried(context: Context, tally: Tally, folder: Folder, path: str) -> None:
    """Simplifies one mesh, judges the result, and lets `check` judge it."""
    draw = context.draw
    old = drawn(draw)
    reach = max(max(map(abs, p)) for p in old[0]) or 1
    within = min(LIMIT, max(1, int(reach * draw.choice((0.0, 0.01, 0.1, 0.5, 2.0)))))
    options = [f'within={within}', *([f'faces={draw.randint(1, len(old[1]))}'] if draw.random() < 0.5 else [])]
    surface, moves = draw.random() < 0.3, draw.random() < 0.5
    more = [*(['surface=yes'] if surface else []), *(['move=yes'] if moves else [])]
    files = {'in': mesh_text(*old).encode()}
    folder.put(files)
    done = folder.run([path, 'simplify', 'in', 'out', *options, *more], 60)
    tally.runs += 1
    command = ['recon-mesh', 'simplify', 'in', 'out', *options, *more]
    written = folder.look().get('out')
    if done.status != 0 or written is None:
        tally.fail('a closed mesh is not simplified', command, files, str(done))
        return
    new = mesh_of(written.decode())
    line = f'simplified points {len(new[0])} faces {len(new[1])}\n'.encode()
    least = int(options[1][6:]) if len(options) > 1 else 0
    wrong = faults(old, new, within, surface, moves) + ([] if done.out == line else ['the line is wrong'])
    wrong += ['too few faces'] if len(new[1]) < min(least, len(old[1])) else []
    if wrong:
        tally.fail(wrong[0], command, files, '; '.join(wrong))
    checked = folder.run([path, 'check', 'in', 'out'], 60)
    if checked.status != 0 or not checked.out.startswith(b'yes points '):
        tally.fail('check does not confirm what simplify wrote', command, files, str(checked))
    spoiled(context, tally, folder, path, old, written.decode())


def run(context: Context, tally: Tally) -> None:
    """Simplifies meshes until the time is over."""
    path = mesh_program(context.recon)
    if not path:
        tally.note('recon-mesh is not built')
        return
    folder = Folder()
    while not context.is_over():
        tried(context, tally, folder, path)
    folder.close()
