"""The page to look at surfaces: what is written, and, where Chromium is installed, what it shows."""
from __future__ import annotations

import os
import re
import unittest
from typing import Any

import numpy as np

from browser import CHROMIUM, Browser
from helpers import InFolder, equal
from recon import page

BACKGROUND = (245, 247, 250)
HOSTILE = '</script></title><script>hit = 1</script><img src=x onerror="hit = 1">&amp;\'"\u2028'


def cube(side: float = 1.0) -> tuple[Any, Any]:
    """Returns a cube with its least corner at 0, each face outward."""
    corners = np.array([[k & 1, k >> 1 & 1, k >> 2] for k in range(8)], float) * side
    squares = ((0, 2, 3, 1), (4, 5, 7, 6), (0, 1, 5, 4), (2, 6, 7, 3), (0, 4, 6, 2), (1, 3, 7, 5))
    return corners, np.array([(a, b, c) for a, b, c, d in squares for a, b, c in ((a, b, c), (a, c, d))])


def ground(width: int) -> tuple[Any, Any]:
    """Rough ground of width * width vertices."""
    draw = np.random.default_rng(7)
    x, y = (part.ravel() for part in np.mgrid[:width, :width])
    spread = draw.uniform(-0.4, 0.4, (3, width * width))
    k = (np.arange(width - 1)[:, None] * width + np.arange(width - 1)).ravel()
    faces = np.concatenate([np.stack([k, k + width, k + 1], 1), np.stack([k + 1, k + width, k + width + 1], 1)])
    return np.stack([x, y, 5 * np.sin(x / 20) * np.cos(y / 30)], 1) + spread.T, draw.permutation(faces)


def written(path: str = 'mesh.html', **changed: Any) -> str:
    """Returns a page of a red cube whose upper half is unseen, and of a smaller cube without colors."""
    vertices, faces = cube()
    small, _ = cube(0.5)
    red = np.full((8, 3), (255, 0, 0), np.uint8)
    unseen = vertices[faces][:, :, 2].min(axis=1) == 1
    given = dict(meshes=[page.PageMesh('smooth=1', vertices, faces, red, unseen), page.PageMesh('smooth=3', small, faces)],
                 scanners=np.array([[1.4, 0.8, 1.1]]), sights=np.array([[[1.4, 0.8, 1.1], [1, 1, 1]], [[1.4, 0.8, 1.1], [1, 0, 1]]]),
                 figures=[('points', '8'), ('votes against', '0.01: the positions look right')],
                 choices=[('unit', '1000', '100 to 1000 units a spacing')], digests={'mesh.ply': 'ab' * 32},
                 commands=['recon check scan.ply mesh.ply mesh.cert'], title='cube')
    page.write_page(path, **{**given, **changed})
    with open(path, encoding='utf-8') as file:
        return file.read()


def share(picture: Any, test: Any) -> float:
    """Returns the part of the pixels that pass."""
    return sum(test(*pixel) for row in picture for pixel in row) / sum(map(len, picture))


def is_red(red: int, green: int, blue: int) -> bool:
    return red > 60 and green < 10 and blue < 10


def is_gray(red: int, green: int, blue: int) -> bool:
    return red < 240 and max(red, green, blue) - min(red, green, blue) < 12


def is_sand(red: int, green: int, blue: int) -> bool:
    return red < 252 and abs(green / max(red, 1) - 0.85 / 0.98) < 0.03 and abs(blue / max(red, 1) - 0.68 / 0.98) < 0.03


class Written(InFolder):
    def test_texts_are_escaped(self) -> None:
        vertices, faces = cube()
        text = written(title=HOSTILE, figures=[(HOSTILE, HOSTILE)], choices=[(HOSTILE,) * 3], digests={HOSTILE: HOSTILE},
                       commands=[HOSTILE, 'a\0b \udc80'], meshes=[page.PageMesh(HOSTILE, vertices, faces)])
        equal((text.count('<script'), text.count('</script>'), text.count('<img'), 'a\ufffdb \ufffd' in text), (3, 3, 0, True))
        equal(bool(re.search('https?://|src=[^x]|@import|url\\(', text)), False)

    def test_wrong_arrays_are_errors(self) -> None:
        vertices, faces = cube()
        written()
        with open('mesh.html', 'rb') as file:
            before = file.read()
        for part, make in (('has a vertex index that is out of range', lambda: page.PageMesh('a', vertices, faces + 1)),
                           ('has a vertex index that is out of range', lambda: page.PageMesh('a', np.zeros((0, 3)), faces)),
                           ('not finite', lambda: page.PageMesh('a', vertices * np.nan, faces)),
                           ('shape (8, 3), not (8)', lambda: page.PageMesh('a', vertices, faces[:8], None, vertices > 0)),
                           ('shape (7, 3), not (8, 3)', lambda: page.PageMesh('a', vertices, faces, vertices[:7])),
                           ('a page needs a mesh', lambda: written(meshes=[])),
                           ('out of range', lambda: written(meshes=[page.PageMesh('a', (vertices - 0.5) * 1.7e308 * 2, faces)])),
                           ('scanners have the shape (3,)', lambda: written(scanners=np.zeros(3))),
                           ('lines of sight are not finite', lambda: written(sights=np.full((1, 2, 3), np.inf)))):
            with self.assertRaisesRegex(ValueError, re.escape(part)):
                make()
        with open('mesh.html', 'rb') as file:
            equal((file.read() == before, os.listdir()), (True, ['mesh.html']))

    def test_a_megabyte_holds_200000_faces(self) -> None:
        vertices, faces = ground(317)
        written(meshes=[page.PageMesh('ground', vertices, faces)], scanners=[], sights=[])
        equal((len(faces), os.path.getsize('mesh.html') < 1_000_000), (199712, True))

    def test_fans_of_odd_meshes(self) -> None:
        draw = np.random.default_rng(3)
        for count, size in ((0, 3), (1, 3), (40, 5), (300, 12), (3000, 60)):
            faces = np.array([draw.permutation(size)[:3] for _ in range(count)], int).reshape(-1, 3)
            faces = np.concatenate([faces, faces[::2], faces[::3, ::-1]])
            unseen = draw.random(len(faces)) < 0.3
            turned, first = page.sorted_faces(faces, unseen)
            fans, begins = page.fans_of(turned, first)
            equal(sorted(map(tuple, fans[:(~unseen).sum()])), sorted(map(tuple, turned[:(~unseen).sum()])))
            equal(sorted(map(tuple, fans[(~unseen).sum():])), sorted(map(tuple, turned[(~unseen).sum():])))
            goes_on = np.flatnonzero(~begins)
            equal((goes_on.min(initial=1) > 0, (fans[goes_on, 0] == fans[goes_on - 1, 0]).all(), (fans[goes_on, 1] == fans[goes_on - 1, 2]).all()),
                  (True, True, True))
        wheel = np.array([(0, k, k % 100 + 1) for k in range(1, 101)])
        equal(page.fans_of(*page.sorted_faces(wheel, np.zeros(100, bool)))[1].sum() < 40, True)

    def test_a_preview_of_many_faces(self) -> None:
        vertices, faces = ground(520)
        colors = np.full((len(vertices), 3), (10, 200, 30), np.uint8)
        many = page.PageMesh('ground', vertices, faces, colors, np.arange(len(faces)) < 1000)
        light = page.preview(many, page.Frame.of([many]))
        corners = light.vertices[light.faces]
        size = np.linalg.norm(np.cross(corners[:, 1] - corners[:, 0], corners[:, 2] - corners[:, 0]), axis=1).sum() / 2
        equal((20_000 < len(light.faces) <= page.LIGHT * 1.1, light.faces.max() < len(light.vertices), (light.colors == colors[0]).all()), (True, True, True))
        equal((0.7 * 519 ** 2 < size < 1.3 * 519 ** 2, 0 < light.unseen.sum() < 1000), (True, True))
        text = written(meshes=[many], scanners=[], sights=[])
        equal(('"preview":{' in text, 'id="preview-0"' in text, 'id="preview-0"' in written()), (True, True, False))

    def test_no_face_and_no_text(self) -> None:
        empty = page.PageMesh('nothing', np.zeros((0, 3)), np.zeros((0, 3), int))
        text = written(meshes=[empty], scanners=[], sights=[], figures=[], choices=[], digests={}, commands=[])
        equal(('<h2>' in text, '"faces":0' in text), (False, True))


@unittest.skipUnless(CHROMIUM, 'Chromium is not installed (Debian: chromium), so no page was looked at')
class Shown(InFolder):
    browser: Browser

    @classmethod
    def setUpClass(cls) -> None:
        cls.browser = Browser()
        cls.addClassCleanup(cls.browser.close)

    def setUp(self) -> None:
        super().setUp()
        self.browser.errors.clear()
        self.browser.resize(640, 400)
        written()

    def tearDown(self) -> None:
        equal(self.browser.errors, [])

    def test_a_known_mesh_is_drawn(self) -> None:
        self.browser.show('mesh.html')
        picture = self.browser.picture()
        middle = picture[len(picture) // 2][len(picture[0]) // 2]
        equal((picture[2][2], is_red(*middle)), (BACKGROUND, True))
        equal([0.02 < share(picture, test) < 0.5 for test in (is_red, is_gray)], [True, True])
        equal(self.browser.ask('document.getElementById("status").textContent'), '12 faces, 8 vertices')
        equal(self.browser.ask('performance.getEntriesByType("resource").length'), 0)

    def test_numbers_come_back(self) -> None:
        vertices, faces = ground(40)
        colors = np.random.default_rng(1).integers(0, 256, (1600, 3)).astype(np.uint8)
        unseen = np.arange(len(faces)) % 3 == 0
        written(meshes=[page.PageMesh('ground', vertices, faces, colors, unseen)])
        self.browser.show('mesh.html')
        told = self.browser.ask('decoded("mesh-0", JSON.parse(document.getElementById("scene").textContent).meshes[0]).then(m => '
                                '[m.positions, m.corners, m.colors].map(a => Array.from(a)))')
        places, corners, painted = (np.array(part) for part in told)
        frame = page.Frame.of([page.PageMesh('', vertices, faces)])
        grid = np.rint((vertices - frame.low) / frame.side * 65535).astype(int)
        known = {(*row, *color): k for k, (row, color) in enumerate(zip(grid.tolist(), (colors & 252 | colors >> 6).tolist()))}
        rows = [known[(*place[:3], *color[:3])] for place, color in zip(places.reshape(-1, 4).tolist(), painted.reshape(-1, 4).tolist())]
        got = [tuple(np.roll(face, -face.argmin())) for face in np.array(rows)[corners].reshape(-1, 3)]
        wanted = [tuple(np.roll(face, -face.argmin())) for face in faces]
        seen = len(faces) - unseen.sum()
        equal(sorted(got[:seen]), sorted(face for face, hidden in zip(wanted, unseen) if not hidden))
        equal(sorted(got[seen:]), sorted(face for face, hidden in zip(wanted, unseen) if hidden))

    def test_switches_change_the_picture(self) -> None:
        self.browser.show('mesh.html')
        first = self.browser.picture()
        for name, test, grows in (('unseen', is_gray, False), ('colors', is_sand, True), ('scanners', lambda red, green, blue: red > 180 and 15 < green < 40, True),
                                  ('sights', lambda red, green, blue: blue > red + 40, True), ('flat', None, True)):
            before = self.browser.picture()
            self.browser.click(name)
            after = self.browser.picture()
            equal((name, before != after), (name, True))
            if test:
                equal((name, share(after, test) > share(before, test)), (name, grows))
        for name in ('unseen', 'colors', 'scanners', 'sights', 'flat'):
            self.browser.click(name)
        equal(self.browser.picture() == first, True)

    def test_back_sides_and_up(self) -> None:
        vertices, faces = cube()
        written(meshes=[page.PageMesh('inside out', vertices, faces[:, ::-1])])
        self.browser.show('mesh.html')
        equal(share(self.browser.picture(), lambda red, green, blue: blue > red + 20) > 0.05, True)
        self.browser.click('back')
        before = self.browser.picture()
        self.browser.ask('document.getElementById("up").value = "y"; document.getElementById("up").dispatchEvent(new Event("change"))')
        equal((share(before, lambda red, green, blue: blue > red + 20) < 0.01, self.browser.picture() != before), (True, True))

    def test_the_slider_shows_another_mesh(self) -> None:
        self.browser.show('mesh.html')
        before = self.browser.picture()
        self.browser.ask('document.getElementById("mesh").focus()')
        self.browser.key('ArrowRight')
        self.browser.until('document.getElementById("view").dataset.mesh === "1"')
        after = self.browser.picture()
        equal((self.browser.ask('document.getElementById("name").textContent'), before != after), ('smooth=3', True))
        equal((share(after, is_red), share(after, is_sand) > 0.01), (0, True))
        self.browser.show('mesh.html', '#mesh=1')
        equal(self.browser.picture() == after, True)

    def test_keys(self) -> None:
        self.browser.show('mesh.html')
        pictures = [self.browser.picture()]
        self.browser.ask('document.getElementById("reset").focus()')
        self.browser.key('Tab')
        equal(self.browser.ask('document.activeElement.id'), 'view')
        for key, modifiers in (('ArrowLeft', 0), ('ArrowUp', 0), ('ArrowRight', 8), ('ArrowDown', 8), ('+', 0), ('-', 0)):
            self.browser.key(key, modifiers)
            pictures.append(self.browser.picture())
        equal(all(one != other for one, other in zip(pictures, pictures[1:])), True)
        self.browser.key('Home')
        self.browser.ask('document.activeElement.blur()')
        equal(self.browser.picture() == pictures[0], True)

    def test_mouse(self) -> None:
        self.browser.show('mesh.html')
        pictures = [self.browser.picture()]
        self.browser.drag('view', (0.5, 0.5), (0.6, 0.4))
        pictures.append(self.browser.picture())
        self.browser.drag('view', (0.5, 0.5), (0.6, 0.6), 'right')
        pictures.append(self.browser.picture())
        self.browser.mouse('mouseWheel', self.browser.spot('view'), deltaX=0, deltaY=-300)
        pictures.append(self.browser.picture())
        equal(all(one != other for one, other in zip(pictures, pictures[1:])), True)
        self.browser.click('reset')
        equal(self.browser.picture() == pictures[0], True)

    def test_a_phone(self) -> None:
        self.browser.resize(360, 720, phone=True)
        self.browser.show('mesh.html')
        width, inner, height = self.browser.ask('[document.documentElement.scrollWidth, innerWidth, document.getElementById("view").clientHeight]')
        equal((width <= inner == 360, height >= 360), (True, True))
        pictures = [self.browser.picture()]
        self.browser.touch('view', [(0.5, 0.5)], [(0.6, 0.5)], [(0.7, 0.4)])
        pictures.append(self.browser.picture())
        self.browser.touch('view', [(0.4, 0.5), (0.6, 0.5)], [(0.3, 0.5), (0.7, 0.5)], [(0.2, 0.5), (0.8, 0.5)])
        pictures.append(self.browser.picture())
        equal(all(one != other for one, other in zip(pictures, pictures[1:])), True)
        inside = [share(picture, lambda *pixel: pixel != BACKGROUND) for picture in pictures]
        equal(inside[2] > 1.3 * inside[1], True)

    def test_hostile_texts_are_shown_as_they_stand(self) -> None:
        vertices, faces = cube()
        written(title=HOSTILE, figures=[(HOSTILE, HOSTILE)], commands=[HOSTILE],
                meshes=[page.PageMesh(HOSTILE, vertices, faces), page.PageMesh('b', vertices, faces)])
        self.browser.show('mesh.html')
        equal(self.browser.ask('typeof hit'), 'undefined')
        told = self.browser.ask('["h1", "pre", "th", "#name"].map(name => document.querySelector(name).textContent)')
        equal(told, [HOSTILE] * 4)

    def value(self, name: str, value: str) -> None:
        """Sets a switch with values, as a user does."""
        self.browser.ask(f'(e => {{ e.value = "{value}"; e.dispatchEvent(new Event("input")) }})(document.getElementById("{name}"))')

    def text(self, name: str) -> Any:
        return self.browser.ask(f'document.getElementById("{name}").textContent')

    def test_a_preview_comes_first(self) -> None:
        vertices, faces = ground(520)
        written(meshes=[page.PageMesh('ground', vertices, faces)], scanners=[], sights=[])
        self.browser.show('mesh.html', '#full=0')
        equal((self.text('status').startswith('preview by '), self.text('status').endswith(' faces of 538,722 faces, 270,400 vertices')), (True, True))
        light = self.browser.picture()
        equal(self.browser.ask('document.getElementById("view").dataset.block'), 'preview-0')
        self.browser.click('full')
        self.browser.until('document.getElementById("view").dataset.block === "mesh-0"')
        equal((self.text('status'), self.browser.picture() != light), ('538,722 faces, 270,400 vertices', True))
        self.browser.click('full')
        self.browser.until('document.getElementById("view").dataset.block === "preview-0"')
        equal(self.browser.picture() == light, True)

    def test_a_section(self) -> None:
        vertices, faces = cube()
        written(meshes=[page.PageMesh('cube', vertices * 2 + 10, faces)], scanners=[], sights=[])
        self.browser.show('mesh.html')
        whole = self.browser.picture()
        self.value('section', 'z')
        half = self.browser.picture()
        equal((self.text('height'), share(half, is_sand) < share(whole, is_sand)), ('z = 11.0000', True))
        self.browser.click('turned')
        upper = self.browser.picture()
        equal((share(upper, is_sand) > 0, upper != half), (True, True))
        self.value('at', '0')
        equal(share(self.browser.picture(), lambda *pixel: pixel != BACKGROUND) > 0.1, True)
        self.browser.click('turned')
        equal(share(self.browser.picture(), is_sand) < 0.02, True)
        self.value('section', 'none')
        equal(self.browser.picture() == whole, True)
        self.browser.show('mesh.html', '#section=x&at=0.25')
        equal(self.text('height'), 'x = 10.5000')

    def test_a_distance(self) -> None:
        vertices, faces = cube()
        written(meshes=[page.PageMesh('cube', vertices * 2 + 10, faces)], scanners=[], sights=[])
        self.browser.show('mesh.html')
        self.browser.click('view', 0.45, 0.45)
        equal(self.text('measured'), '')
        self.browser.click('measure')
        before = self.browser.picture()
        self.browser.click('view', 0.02, 0.02)
        equal(self.text('measured'), '')
        self.browser.click('view', 0.45, 0.45)
        first = [float(word) for word in self.text('measured')[5:].split(', ')]
        on_side = [abs(word - end) < 1e-4 for word in first for end in (10, 12)]
        equal((any(on_side), all(10 - 1e-4 < word < 12 + 1e-4 for word in first)), (True, True))
        self.browser.click('view', 0.55, 0.55)
        found = re.fullmatch(r'distance ([0-9.]+) \(x (-?[0-9.]+), y (-?[0-9.]+), z (-?[0-9.]+)\)', self.text('measured'))
        assert found
        long, *way = map(float, found.groups())
        equal((0.1 < long < 2, abs(long - sum(x * x for x in way) ** 0.5) < 1e-3, self.browser.picture() != before), (True, True, True))
        self.browser.ask('document.getElementById("view").focus()')
        self.browser.key('Escape')
        equal(self.text('measured'), '')

    def test_a_distance_along_an_edge(self) -> None:
        vertices, faces = cube()
        written(meshes=[page.PageMesh('cube', vertices * 2 + 10, faces)], scanners=[], sights=[])
        self.browser.show('mesh.html')
        self.browser.click('measure')
        # where the camera sees two corners of the top
        places = self.browser.ask('(c => [[1, 1], [1, 0]].map(([x, y]) => { const v = c.view(), m = [x * 0.98, y * 0.98 + 0.01, 1, 1];'
                                  'const p = [0, 1, 2].map(r => v[r] * m[0] + v[4 + r] * m[1] + v[8 + r] * m[2] + v[12 + r]);'
                                  'const k = Math.min(640, document.getElementById("view").clientHeight) / Math.tan(HALF_ANGLE) / 2;'
                                  'return [-p[0] / p[2] * k / 640 + 0.5, p[1] / p[2] * k / document.getElementById("view").clientHeight + 0.5] }))'
                                  '(new Camera([1, 1, 1], []))')
        for right, down in places:
            self.browser.click('view', right, down)
        equal(abs(float(self.text('measured').split()[1]) - 1.96) < 0.03, True)

    def test_an_empty_mesh_is_shown(self) -> None:
        written(meshes=[page.PageMesh('nothing', np.zeros((0, 3)), np.zeros((0, 3), int))])
        self.browser.show('mesh.html')
        equal(self.browser.ask('document.getElementById("status").textContent'), '0 faces, 0 vertices')
