#!/usr/bin/env python3
"""Makes the pictures of docs/pictures. It needs numpy and matplotlib (Debian: python3-numpy, python3-matplotlib).

  pictures.py RECON FOLDER [PICTURE ..]

  RECON              the built program
  FOLDER             where the pictures are written
  PICTURE            inside, sight, room, smooth, unit, scanner, slice, finish, kitten, figurine, seen, real, nearest; all of them where
                     none is named

Scans are made by recon-make-scan, and drawn by render.py: points on white, surfaces with their outer side warm and their
inner side blue. `finish` and `kitten` are of objects that Debian's package libcgal-demo has, `real` needs its packages
opencv-doc and python3-opencv too, `nearest` is of the meshes that `make bench-others` has left in bench_scans. Some minutes.
"""
from __future__ import annotations

import os
import re
import shutil
import subprocess
import sys
import tarfile
import tempfile

from report import begun
if __name__ == '__main__':
    begun(__doc__, 'numpy', 'matplotlib', 'PIL')
import matplotlib  # noqa: E402
matplotlib.use('Agg')
import matplotlib.pyplot as plt  # noqa: E402
import numpy as np  # noqa: E402
from matplotlib.path import Path  # noqa: E402
from matplotlib.tri import Triangulation  # noqa: E402
from PIL import Image  # noqa: E402

import render  # noqa: E402
from tools_path import PACKAGE  # noqa: E402
from bench import objects, real as real_scans, sites, surfaces, unseen  # noqa: E402

DEV = os.path.dirname(os.path.abspath(__file__))
CGAL = '/usr/share/doc/libcgal-dev/data.tar.gz'
POINTS = '100000'
# sites are scanned more coarsely than for docs/explain/accuracy.md
SITE_SCALE = 0.6
# pixels of a picture of a real scan, before it is halved
REAL = 640
TORUS, STATUE, ROOM = (0.3, 1, -0.7), (0.2, 1, -0.15), (0.4, 1, -0.8)
WARM, INK, SIGHT = '#f2cfa2', '#333333', '#c0392b'


def blob() -> np.ndarray:
    """Points on a closed curve, all coordinates uneven so that no four are on one circle."""
    turn = np.linspace(0, 2 * np.pi, 19)[:-1]
    far = 1 + 0.22 * np.cos(2 * turn + 0.4) + 0.03 * np.sin(7 * turn)
    return np.stack([1.25 * far * np.cos(turn), far * np.sin(turn)], axis=1)


SCANNERS = np.array([[-2.6, 1.5], [2.5, 1.75], [2.3, -1.6], [-2.3, -1.7]])


def sketch(points: np.ndarray) -> tuple[Triangulation, np.ndarray]:
    """Returns the plane cut into triangles between the points and four corners, and which of them are within the curve."""
    corners = np.array([[-3.4, -2.3], [3.4, -2.3], [3.4, 2.3], [-3.4, 2.3]])
    places = np.concatenate([points, corners])
    cut = Triangulation(places[:, 0], places[:, 1])
    return cut, Path(points).contains_points(places[cut.triangles].mean(axis=1))


def empty_axes(width: float, height: float) -> tuple[plt.Figure, plt.Axes]:
    figure, axes = plt.subplots(figsize=(width, height), dpi=100)
    axes.set_aspect('equal')
    axes.axis('off')
    figure.subplots_adjust(0, 0, 1, 1)
    return figure, axes


def nearest_scanner(points: np.ndarray) -> np.ndarray:
    """Returns the scanner that each point is seen from: the one that it faces."""
    return np.argmin(((points[:, None] - SCANNERS) ** 2).sum(axis=2), axis=1)


def draw_cut(axes: plt.Axes, cut: Triangulation, inside: np.ndarray) -> None:
    axes.tripcolor(cut, facecolors=inside.astype(float), cmap=matplotlib.colors.ListedColormap(['#ffffff', WARM]), vmin=0, vmax=1)
    axes.triplot(cut, color='#bbbbbb', linewidth=0.6)
    edges = {}
    for triangle, is_in in zip(cut.triangles, inside):
        for k in range(3):
            edges.setdefault(frozenset((triangle[k], triangle[k - 1])), []).append(is_in)
    for edge, sides in edges.items():
        if sum(sides) == 1:
            ends = list(edge)
            axes.plot(cut.x[ends], cut.y[ends], color=INK, linewidth=2.2)


def inside(folder: str, recon: str, work: str) -> None:
    """What inside means, in the plane."""
    points = blob()
    cut, is_in = sketch(points)
    figure, axes = empty_axes(6.8, 4.6)
    draw_cut(axes, cut, is_in)
    for point, index in zip(points, nearest_scanner(points)):
        axes.plot(*zip(SCANNERS[index], point), color=SIGHT, linewidth=0.7, alpha=0.7)
    axes.plot(*points.T, 'o', color=INK, markersize=5)
    axes.plot(*SCANNERS.T, 's', color=SIGHT, markersize=8)
    axes.text(0, -0.1, 'inside', ha='center', fontsize=13)
    axes.text(0, 1.95, 'outside', ha='center', fontsize=13)
    axes.annotate('scanner', SCANNERS[0], (-3.2, 1.95), fontsize=11, color=SIGHT)
    axes.annotate('surface', (cut.x[4] * 0.55 + cut.x[5] * 0.45, cut.y[4] * 0.55 + cut.y[5] * 0.45), (0.75, 1.55), fontsize=11,
                  arrowprops={'arrowstyle': '-', 'color': INK})
    save_figure(figure, folder, 'inside')


def sight(folder: str, recon: str, work: str) -> None:
    """A sight on its way: the facets that it crosses, and what is behind its point."""
    places = np.array([[0.3, 1.3], [1.7, -1.2], [2.7, 1.1], [3.9, -1.0], [5.4, 1.2], [5.2, 0.0], [6.6, -1.0], [7.0, 1.0]])
    air = [(0, 1, 2), (1, 3, 2), (2, 3, 5), (2, 5, 4)]
    solid = [(3, 6, 5), (5, 6, 7), (4, 5, 7)]
    figure, axes = empty_axes(7.2, 2.6)
    for triangle in air + solid:
        axes.fill(*places[list(triangle)].T, color=WARM if triangle in solid else '#ffffff', zorder=0)
        axes.plot(*places[list(triangle + triangle[:1])].T, color='#999999', linewidth=0.9, zorder=1)
    scanner, point = np.array([-0.9, 0.0]), places[5]
    axes.annotate('', point, scanner, arrowprops={'arrowstyle': '-|>', 'color': SIGHT, 'linewidth': 1.6})
    axes.plot([point[0], point[0] + 1.2], [0, 0], color=SIGHT, linewidth=1.2, linestyle=':')
    for a, b in ((0, 1), (2, 1), (2, 3)):
        axes.plot(*places[[a, b]].T, color=SIGHT, linewidth=2.6, zorder=2)
        meet = places[a] + (places[b] - places[a]) * places[a][1] / (places[a][1] - places[b][1])
        axes.text(meet[0] + 0.13, 0.08, 'vote', color=SIGHT, fontsize=11)
    for a, b, x, y in ((4, 5, 5.35, 0.62), (3, 5, 4.62, -0.62)):
        axes.plot(*places[[a, b]].T, color=INK, linewidth=2.6, zorder=2)
        axes.text(x, y, 'smooth', fontsize=11)
    axes.plot(*scanner, 's', color=SIGHT, markersize=9)
    axes.plot(*places.T, 'o', color=INK, markersize=5)
    axes.text(-1.2, 0.25, 'scanner', color=SIGHT, fontsize=11)
    axes.text(5.05, 0.12, 'point', fontsize=11, ha='right')
    axes.text(5.75, 0.08, 'vote', color=SIGHT, fontsize=11)
    axes.set_xlim(-1.5, 7.4)
    axes.set_ylim(-1.35, 1.5)
    save_figure(figure, folder, 'sight')


def save_figure(figure: plt.Figure, folder: str, name: str) -> None:
    figure.canvas.draw()
    save(np.asarray(figure.canvas.buffer_rgba())[:, :, :3] / 255.0, folder, name)
    plt.close(figure)


def save(image: np.ndarray, folder: str, name: str) -> None:
    """Writes a small PNG of 64 colours."""
    picture = Image.fromarray((np.clip(image, 0, 1) * 255 + 0.5).astype(np.uint8))
    picture.quantize(64, dither=Image.Dither.NONE).save(os.path.join(folder, name + '.png'), optimize=True)
    print(f'{name}.png {os.path.getsize(os.path.join(folder, name + ".png")) // 1024} KiB', flush=True)


def half(image: np.ndarray) -> np.ndarray:
    """Returns the image at half its size, so that edges are soft."""
    rows, columns, _ = image.shape
    return image.reshape(rows // 2, 2, columns // 2, 2, 3).mean(axis=(1, 3))


def title(image: np.ndarray, text: str) -> np.ndarray:
    """Returns the image with a line of text over it."""
    figure = plt.figure(figsize=(image.shape[1] / 100, 0.26), dpi=100)
    figure.text(0.5, 0.5, text, ha='center', va='center', fontsize=10)
    figure.canvas.draw()
    line = np.asarray(figure.canvas.buffer_rgba())[:, :, :3] / 255.0
    plt.close(figure)
    return np.concatenate([line[:, :image.shape[1]], image])


def trimmed(image: np.ndarray) -> np.ndarray:
    """Returns the image without the white rows above and below."""
    rows = np.flatnonzero((image < 0.999).any(axis=(1, 2)))
    return image[max(rows[0] - 8, 0):rows[-1] + 9] if len(rows) else image


def side_by_side(images: list[np.ndarray], titles: list[str], folder: str, name: str) -> None:
    """Images in a row, each under its title."""
    width = images[0].shape[1]
    strip = trimmed(np.concatenate(images, axis=1))
    parts = [title(strip[:, k * width:(k + 1) * width], text) for k, text in enumerate(titles)]
    save(np.concatenate(parts, axis=1), folder, name)


def tool(program: str, *words: str) -> None:
    subprocess.run([sys.executable, PACKAGE, program, *words], check=True, stdout=subprocess.DEVNULL)


def scan(work: str, shape: str, *options: str) -> str:
    path = os.path.join(work, 'scan.ply')
    tool('make_scan', shape, POINTS, '1', path, *options)
    return path


def surface(recon: str, path: str, *options: str) -> tuple[np.ndarray, np.ndarray]:
    """Places and faces of the surface that `recon` builds."""
    mesh = path + '.mesh'
    done = subprocess.run([recon, 'build', path, mesh, path + '.cert', *options], check=True, capture_output=True, text=True)
    print(' '.join(options), done.stdout, end='', flush=True)
    return objects.read_object(mesh)


def is_near(middles: np.ndarray) -> np.ndarray:
    """Returns what is left of a room without its ceiling and the wall that one looks from."""
    return (middles[:, 2] < 235000) & (middles[:, 1] > -385000)


def room(folder: str, recon: str, work: str) -> None:
    """A room, its walls without and with the eight points around it."""
    path = scan(work, 'room', 'stray=0')
    view, around = render.View(ROOM, (0, 0, -30000), 620000, 760), path + '.around'
    tool('scan', path, around, 'surround=60000')
    points = render.read_points(path)
    images = [half(render.points_image(view, points[is_near(points)]))]
    images += [half(render.mesh_image(view, *surface(recon, file), is_near)) for file in (path, around)]
    side_by_side(images, ['100,000 points', 'surface', 'surface after surround='], folder, 'room')


def smooth(folder: str, recon: str, work: str) -> None:
    """One scan with outliers at several weights, by one sweep."""
    path, count = scan(work, 'statue', 'stray=0.02'), 5
    meshes = [f'{path}.{weight}' for weight in range(count)]
    done = subprocess.run([recon, 'sweep', path, '0', '1', str(count), *meshes], check=True, capture_output=True, text=True)
    print(done.stdout, end='', flush=True)
    view = render.View(STATUE, (30000, 0, -75000), 600000, 560)
    images = [half(render.mesh_image(view, *objects.read_object(mesh))) for mesh in meshes]
    side_by_side(images, [f'vote=8 smooth={weight}' for weight in range(count)], folder, 'smooth')


def unit(folder: str, recon: str, work: str) -> None:
    """A scan in metres at several units."""
    path, images, titles = scan(work, 'torus', 'stray=0'), [], []
    with open(path, encoding='ascii') as file:
        lines = file.read().split('end_header\n')
    rows = [line.split() for line in lines[1].splitlines()]
    with open(path, 'w', encoding='ascii') as file:
        file.write(lines[0] + 'end_header\n')
        file.writelines(' '.join([word + 'e-6' for word in words[:3]] + words[3:]) + '\n' for words in rows)
    for scale in (10, 100, 1000, 10000):
        mesh = surface(recon, path, f'unit={scale}')
        images.append(half(render.mesh_image(render.View(TORUS, (0, 0, 0), 0.52 * scale, 640), *mesh)))
        titles.append(f'unit={scale}')
    side_by_side(images, titles, folder, 'unit')


def scanner(folder: str, recon: str, work: str) -> None:
    """What wrong scanner positions do."""
    path = scan(work, 'torus', 'stray=0')
    view, images = render.View(TORUS, (0, 0, 0), 520000, 640), []
    with open(path, encoding='ascii') as file:
        rows = file.read().splitlines()
    for places in (rows[-8:], rows[-8:-1] + ['0 0 900000'], [rows[-8]] * 8, ['0 0 0'] * 8):
        with open(path, 'w', encoding='ascii') as file:
            file.write('\n'.join(rows[:-8] + places) + '\n')
        images.append(half(render.mesh_image(view, *surface(recon, path))))
    titles = ['right', 'one of eight is wrong', 'one place for all eight', 'the origin for all eight']
    side_by_side(images, titles, folder, 'scanner')


def sliced(folder: str, recon: str, work: str) -> None:
    """A torus cut by a level plane, drawn with four decimals."""
    path, mesh, loops = (os.path.join(work, name) for name in ('scan.ply', 'mesh.ply', 'slice.txt'))
    tool('make_scan', 'torus', '4000', '1', path, 'stray=0')
    subprocess.run([recon, 'build', path, mesh, path + '.cert'], check=True)
    subprocess.run([recon, 'slice', mesh, '40000', loops], check=True)
    picture = os.path.join(folder, 'slice.svg')
    tool('contours', loops, picture, 'unit=500000')
    with open(picture, encoding='ascii') as file:
        drawing = re.sub(r'-?[0-9]+\.[0-9]+', lambda number: f'{float(number[0]):.4f}', file.read())
    with open(picture, 'w', encoding='ascii') as file:
        file.write(drawing)
    print(f'slice.svg {len(drawing) // 1024} KiB', flush=True)


def debian(work: str, name: str) -> str:
    """Returns a file of the data of CGAL, as Debian packs them."""
    with tarfile.open(CGAL) as archive:
        path = os.path.join(work, os.path.basename(name))
        with open(path, 'wb') as file:
            shutil.copyfileobj(archive.extractfile('data/' + name), file)  # type: ignore[arg-type]
    return path


def finished(mesh: str, out: str, *options: str) -> tuple[np.ndarray, np.ndarray]:
    """Places and faces of a mesh that is finished."""
    tool('finish', mesh, out, *options)
    return objects.read_object(out)


def finish(folder: str, recon: str, work: str) -> None:
    """A surface as it is built, smooth shading over it, after flips, and after smoothing."""
    scan, mesh, out = (os.path.join(work, name) for name in ('scan.ply', 'mesh.ply', 'out.ply'))
    bunny = debian(work, 'meshes/bunny00.off')
    subprocess.run([sys.executable, os.path.join(DEV, 'bench'), 'surfaces', 'scan', bunny, scan], check=True)
    subprocess.run([recon, 'build', scan, mesh, mesh + '.cert', 'unit=1000', 'smooth=3'], check=True)
    view, images = upright(render.View((0.25, -0.25, -1), (0, 0, 0), 400, 760)), []
    runs: list[tuple[list[str], bool]] = [(['flips=no'], False), (['flips=no'], True), ([], True), (['smooth=3', 'within=1'], True)]
    for words, is_flat in runs:
        surface_now = finished(mesh, out, 'unit=1000', 'pieces=1', *words)
        images.append(half(render.mesh_image(view, *surface_now, is_flat=is_flat)))
    titles = ['as built, smooth shading', 'as built, flat shading', 'after flips', 'after smooth=3 within=1']
    side_by_side(images, titles, folder, 'finish')


def nearest(folder: str, recon: str, work: str) -> None:
    """What `recon` and other programs make of a scan with noise of an object, beside the object, in flat shading."""
    kinds = {'recon': 'surface.ply', 'COLMAP': 'colmap.ply', 'advancing front': 'front.off', 'Poisson': 'poisson.ply'}
    strips = []
    for name, toward, centre, reach in (('armadillo', (0, 0.15, 1), (0, 250, 0), 190), ('fandisk', (0.6, -0.5, -0.6), (0, 0, 0), 330)):
        base = os.path.join(os.path.dirname(DEV), 'bench_scans', f'{name}.42000.0.0005.')
        meshes = [surfaces.placed(debian(work, f'meshes/{name}.off')), *(objects.read_object(base + kind) for kind in kinds.values())]
        view = upright(render.View(toward, centre, reach, 480))
        images = [half(render.mesh_image(view, *mesh, is_flat=True)) for mesh in meshes]
        strips.append(np.concatenate(images, axis=1))
    width = strips[0].shape[1] // (1 + len(kinds))
    whole = np.concatenate([trimmed(strip) for strip in strips])
    parts = [title(whole[:, k * width:(k + 1) * width], text) for k, text in enumerate(['object', *kinds])]
    save(np.concatenate(parts, axis=1), folder, 'nearest')


def upright(view: render.View, y: float = 1.0) -> render.View:
    """Returns the view with y up, or down if `y` is -1."""
    view.right = np.cross(view.toward, [0.0, y, 0.0])
    view.right /= np.linalg.norm(view.right)
    view.up = np.cross(view.right, view.toward)
    view.light = -view.toward * 0.7 + view.up * 0.5 - view.right * 0.5
    view.light /= np.linalg.norm(view.light)
    return view


def kitten(folder: str, recon: str, work: str) -> None:
    """Points with normals, their surface as built, and after flips alone."""
    points = debian(work, 'points_3/kitten.xyz')
    scan, mesh, out = (os.path.join(work, name) for name in ('scan.ply', 'mesh.ply', 'out.ply'))
    tool('scan', points, scan, 'normals=yes')
    subprocess.run([recon, 'build', scan, mesh, mesh + '.cert', 'unit=1000000'], check=True)
    before, after = (finished(mesh, out, 'unit=1000000', words) for words in ('flips=no', 'flips=yes'))
    low, high = before[0].min(axis=0), before[0].max(axis=0)
    view = upright(render.View((0.5, -0.2, -1), (low + high) / 2, 0.55 * (high - low).max(), 760))
    images = [half(render.points_image(view, before[0]))]
    images += [half(render.mesh_image(view, *each, is_flat=True)) for each in (before, after)]
    side_by_side(images, ['5,210 points with normals', 'as built', 'after flips'], folder, 'kitten')


def figurine(folder: str, recon: str, work: str) -> None:
    """The scan in examples/, its surface as built, and the same after flips and smoothing."""
    path, mesh, out = os.path.join(DEV, '..', 'examples', 'figurine.ply'), os.path.join(work, 'mesh.ply'), os.path.join(work, 'out.ply')
    subprocess.run([recon, 'build', path, mesh, mesh + '.cert', 'unit=10000', 'smooth=3'], check=True)
    meshes = [finished(mesh, out, 'unit=10000', 'pieces=1', *words) for words in (['flips=no'], ['smooth=3', 'within=0.0006'])]
    view = render.View((0.5, 0.85, -0.25), (0.025, 0, 0.14), 0.165, 760)
    images = [half(render.points_image(view, render.read_points(path), (0.1, 0.15, 0.25)))]
    images += [half(render.mesh_image(view, *each, is_flat=True)) for each in meshes]
    side_by_side(images, ['8,000 points of 8 scanners', 'as built', 'after recon-finish'], folder, 'figurine')


def seen(folder: str, recon: str, work: str) -> None:
    """The closed mesh of a yard and of a flat, and the open one, which gets the name that was asked for. Of the flat, faces are drawn from the front
    only, so that one looks through ceilings."""
    os.environ['RECON'] = recon
    for name, toward, centre, reach in (('court', (0.5, 1, -0.75), (2, 0, 1), 24), ('flat', (0.35, 1, -1.1), (4.5, 3.5, 0.6), 9)):
        path = unseen.written(os.path.join(work, name + '.scan.ply'), sites.scan_of(name, SITE_SCALE))
        tool('surface', path, '-o', os.path.join(work, name + '.ply'), '--no-check', '-q')
        view, images = render.View(toward, centre, reach, 840), []
        view.light = -view.toward + 0.6 * view.up - 0.2 * view.right
        view.light /= np.linalg.norm(view.light)
        for part in (name + '-closed', name):
            places, faces, colors = colored_mesh(os.path.join(work, part + '.ply'))
            corners = places[faces]
            is_front = np.cross(corners[:, 1] - corners[:, 0], corners[:, 2] - corners[:, 0]) @ view.toward < 0
            images.append(half(render.mesh_image(view, places, faces[is_front | (part != 'flat')], is_flat=True, colors=colors)))
        side_by_side(images, [name + '-closed.glb', name + '.glb'], folder, 'seen_' + name)


def real(folder: str, recon: str, work: str) -> None:
    """The closed mesh and the open one of two real scans."""
    os.environ['RECON'] = recon
    images, titles = [], []
    for name, made, view in (('hippo', real_scans.hippo, upright(render.View((0.35, -0.15, -1), (0, 0, 0), 0.5, REAL))),
                             ('aloe', real_scans.aloe, upright(render.View((-0.3, 0.2, 1), (0, -0.1, 2), 1.2, REAL), -1))):
        tool('surface', *made(work), '-o', os.path.join(work, name + '.ply'), '--no-check', '-q')
        for part in (name + '-closed', name):
            places, faces, colors = colored_mesh(os.path.join(work, part + '.ply'))
            images.append(half(render.mesh_image(view, places, faces, is_flat=True, colors=colors)))
            titles.append(part + '.glb')
    side_by_side(images, titles, folder, 'seen_real')


def colored_mesh(path: str) -> tuple[np.ndarray, np.ndarray, np.ndarray | None]:
    """Places, faces and colors, if it has some, of a mesh of recon-surface."""
    with open(path, 'rb') as file:
        head, body = file.read().split(b'end_header\n', 1)
    kinds = {'double': '<f8', 'float': '<f4', 'uchar': 'u1'}
    counts, columns = [], []
    for line in head.decode('ascii').splitlines():
        kind, *words = line.split()
        if kind == 'element':
            counts.append(int(words[1]))
        if kind == 'property' and len(counts) == 1:
            columns.append((words[1], kinds[words[0]]))
    rows = np.frombuffer(body, columns, counts[0])
    face = [('count', 'u1'), ('corners', '<i4', 3)] + ([('unseen', 'u1')] if b'unseen' in head else [])
    faces = np.frombuffer(body, face, counts[1], rows.nbytes)['corners']
    colors = np.stack([rows[hue] for hue in ('red', 'green', 'blue')], axis=1) if b'uchar red' in head else None
    return np.stack([rows[axis] for axis in 'xyz'], axis=1), faces, colors


PICTURES = {'inside': inside, 'sight': sight, 'room': room, 'smooth': smooth, 'unit': unit,
            'scanner': scanner, 'slice': sliced, 'finish': finish, 'kitten': kitten, 'figurine': figurine, 'seen': seen, 'real': real,
            'nearest': nearest}


def main() -> None:
    words = sys.argv[1:]
    if len(words) < 2 or any(word not in PICTURES for word in words[2:]):
        print(__doc__.strip(), file=sys.stderr)
        sys.exit(2)
    recon, folder = os.path.abspath(words[0]), words[1]
    os.makedirs(folder, exist_ok=True)
    for name in words[2:] or PICTURES:
        with tempfile.TemporaryDirectory() as work:
            PICTURES[name](folder, recon, work)


if __name__ == '__main__':
    main()
