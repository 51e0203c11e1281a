"""`recon-mesh move` on small meshes with targets of all kinds: near ones, far ones, all at one place, another number of them, and damaged files."""
from __future__ import annotations

from random import Random

from samples import mesh_of, mesh_text

from .meshes_part import mesh_program
from .runs import Folder
from .simplified import Mesh, Place, edges_of
from .simplify_part import LIMIT, drawn
from .tally import Context, Tally

FINE = 1024


def scale_of(places: list[Place]) -> int:
    """Returns the scale of a smoothed mesh: the finest on which coordinates stay in half of the box."""
    fine, reach = FINE, max(abs(x) for p in places for x in p)
    while fine > 1 and fine * reach > LIMIT // 2:
        fine //= 2
    return fine


def targets_for(draw: Random, places: list[Place], fine: int) -> list[Place]:
    """Returns places toward which points are to move."""
    far = draw.choice((0, 1, fine, 30 * fine, LIMIT))
    middle = tuple(draw.randint(-LIMIT, LIMIT) for _ in range(3))
    wanted = [middle if draw.random() < 0.01 else tuple(max(-LIMIT, min(LIMIT, fine * x + draw.randint(-far, far))) for x in p) for p in places]
    return [middle] * len(places) if draw.random() < 0.1 else wanted


def faults(old: Mesh, new: Mesh, fine: int, within: int) -> list[str]:
    """Returns what is wrong with a mesh whose points were moved."""
    if len(new[0]) != len(old[0]) or len(new[1]) != len(old[1]):
        return ['another number of points or faces']
    found = []
    if any(sum((x - fine * y) ** 2 for x, y in zip(p, q)) > (fine * within) ** 2 for p, q in zip(new[0], old[0])):
        found.append('a point moved too far')
    edges = edges_of(new[1])
    if any(edges[a, b] != edges[b, a] for a, b in edges):
        found.append('it is not closed')
    return found


def counted(folder: Folder, path: str, name: str) -> int:
    """Returns how many pairs of faces cross or are undecided."""
    words = folder.run([path, 'inspect', name], 60).out.decode().split()
    return int(words[words.index('crossing_pairs') + 1]) + int(words[words.index('undecided_pairs') + 1])


def tried(context: Context, tally: Tally, folder: Folder, path: str) -> None:
    """Moves the points of one mesh."""
    draw = context.draw
    old = drawn(draw)
    fine, within = scale_of(list(old[0])), draw.choice((1, 2, 100, LIMIT))
    options = [f'smooth={draw.randint(1, 3)}', f'within={within}', *(['flips=no'] if draw.random() < 0.3 else [])]
    targets = targets_for(draw, list(old[0]), fine)
    how = draw.random()
    if how < 0.2:
        targets = targets[:draw.randrange(len(targets) + 1)] + targets[:draw.randrange(3)]
    text = mesh_text(targets, []).encode()
    if how > 0.9:
        text = text[:draw.randrange(len(text))]
    files = {'in': mesh_text(*old).encode(), 'to': text}
    folder.put(files)
    command = ['recon-mesh', 'move', 'in', 'to', 'out', *options]
    done = folder.run([path, *command[1:]], 60)
    tally.runs += 1
    written = folder.look().get('out')
    if len(targets) != len(old[0]) or how > 0.9:
        line = b'refused 35 targets_cut\n' if how > 0.9 else f'refused 36 targets_count targets {len(targets)} points {len(old[0])}\n'.encode()
        if (done.status, done.out, written) != (3, line, None):
            tally.fail('wrong targets are not refused so', command, files, str(done))
        return
    if (done.status, done.out) != (0, f'finished points {len(old[0])} faces {len(old[1])} fine {fine}\n'.encode()) or written is None:
        tally.fail('points of a closed mesh are not moved', command, files, str(done))
        return
    wrong = faults(old, mesh_of(written.decode()), fine, within)
    if not counted(folder, path, 'in') and counted(folder, path, 'out'):
        wrong.append('faces cross that did not')
    checked = folder.run([path, 'check', 'in', 'out'], 60)
    if checked.status != 0 or not checked.out.startswith(b'yes points '):
        wrong.append('check does not confirm it')
    if wrong:
        tally.fail(wrong[0], command, files, '; '.join(wrong))


def run(context: Context, tally: Tally) -> None:
    """Moves points of meshes until the time is over."""
    path = mesh_program(context.recon)
    if not path:
        tally.note('recon-mesh is not built')
        return
    folder = Folder()
    while not context.is_over():
        tried(context, tally, folder, path)
    folder.close()
