"""What `recon-surface` writes: the mesh, its seen part, the page, the report and the script that repeats the run.

Names: Made (what a run made) · write_outputs.
"""
from __future__ import annotations

import json
import os
import shlex
import sys
from dataclasses import dataclass
from pathlib import Path
from typing import Any, List, Optional

import numpy as np

from recon.beside import Beside
from recon.choices import Choices
from recon.clouds import Spacing
from recon.finish import FinishReport, coarse, seen_path
from recon.inputs import MODELS, Cloud
from recon.library import Surface, rows_at
from recon.light import light_path, open_light
from recon.meshes import Mesh, areas
from recon.page import PageMesh, write_page
from recon.toolbox.mesh_files import Finished, rounding_of, write_mesh
from recon.toolbox.output_files import place_all, refuse_inputs, refuse_place, whole_bytes
from recon.toolbox.station_source import files_of_table
from recon.which_mesh import closed_path, is_open_first, write_both

SIGHTS = 400
HERE = os.path.dirname(os.path.abspath(__file__))
KEPT = ('scan.ply', 'mesh.ply', 'scan.cert', 'report.json', 'again.sh')


@dataclass
class Made:
    """What a run made, in `folder`, which goes with the run: the cloud that was built (`read` points were read), the surface, the finished
    mesh with the colors of its vertices, and the surfaces of a sweep."""
    args: Any
    out: Path
    folder: Path
    cloud: Cloud
    read: int
    texture: Spacing
    surface: Surface
    mesh: Finished
    colors: Optional[np.ndarray]
    finish: FinishReport
    sweep: List[Mesh]
    choices: Choices
    light: Optional[Finished] = None

    def kept(self) -> Path:
        """The folder in which scan, mesh and certificate are left."""
        return Path(self.args.keep or self.out.with_suffix('.recon'))

    def unseen(self) -> np.ndarray:
        """Which faces of the finished mesh span unseen space."""
        return np.asarray(next(values for name, _, values in self.mesh.face_columns if name == 'unseen'), bool)


def places_of(args: Any) -> list[str]:
    """Returns the paths of all files that a run may write, or remove because an earlier run wrote them, but those of tiles."""
    out = Path(args.output)
    kept = Path(args.keep or out.with_suffix('.recon'))
    mine = [out, *(Path(path(os.fspath(out))) for path in (seen_path, closed_path, light_path)), out.with_suffix('.html')]
    return [os.fspath(path) for path in (*mine, *(kept / name for name in KEPT))]


def inputs_of(args: Any) -> list[str]:
    """Returns the paths of all files that a run reads, as far as the arguments name them."""
    names = list(map(os.fspath, args.input))
    paths = [name if os.path.exists(name) or '=' not in name else name.rpartition('=')[0] for name in names]
    paths += [os.path.join(path, name) for path in paths if os.path.isdir(path) for name in (*MODELS, 'fused.ply', 'fused.ply.vis')]
    paths += [path + '.vis' for path in paths] + [path for path in (args.positions, args.images, args.flight) if path]
    return paths + (files_of_table(args.table) if args.table else [])


def refuse_places(args: Any) -> None:
    """Stops before a file that is read would be lost, or a folder stands where a file is to be."""
    places, inputs = places_of(args), inputs_of(args)
    refuse_inputs(inputs, places)
    tiles = os.path.realpath(Path(args.keep or Path(args.output).with_suffix('.recon')) / 'tiles')
    refuse_inputs(inputs, [path for path in inputs if os.path.dirname(os.path.realpath(path)) == tiles])
    for path in places:
        refuse_place(path)


def write_outputs(made: Made, beside: Beside) -> None:
    """Writes all files of a run, beside their places, and moves them there when the check has passed."""
    choices, unseen = made.choices, made.unseen()
    sizes = areas(made.mesh.places, made.mesh.faces)
    part = float(sizes[unseen].sum() / max(float(sizes.sum()), 1e-300))
    is_open = is_open_first(made.args, unseen, part, choices)
    digests, figures = beside.digests(), figures_of(made, part)
    if made.args.input:
        write_again(made, digests)
    page = beside.start(write_page, os.fspath(made.folder / 'out.html'), meshes=page_meshes(made, unseen), scanners=made.cloud.scanners,
                        sights=some_sights(made.cloud), figures=figures, choices=[(name, it.value, it.why) for name, it in choices.chosen.items()],
                        digests=digests, commands=verifying(made), title=made.out.stem, shows_unseen=not is_open)
    files, count = write_both(made.mesh, made.args, made.folder, is_open, choices)
    files[made.folder / 'out.html'] = made.out.with_suffix('.html')
    rounding = rounding_of(os.fspath(made.out), made.mesh)
    if rounding:
        choices.warn(coarse(made.out.name, rounding))
    if made.light is not None:
        path = made.folder / ('out-light' + made.out.suffix)
        light = open_light(made.light) if is_open else made.light
        write_mesh(os.fspath(path), light)
        files[path] = Path(light_path(os.fspath(made.out)))
    page.result()
    choices.timed('write')
    passed = beside.checked()
    choices.timed('wait for check')
    if passed is not None:
        of_whole = f'mesh and certificate are those of the scan ({passed:.1f} s, in parallel with the steps after the build)'
        choices.tell(f'check: yes, {"each tile was checked after it was built" if made.surface.tiles() else of_whole}')
        choices.beside['check'] = round(passed, 3)
    write_report(made, figures, digests, part)
    files.update({made.folder / name: made.kept() / name for name in (*made.surface.files(), 'report.json', *(['again.sh'] if made.args.input else []))})
    stale = set(places_of(made.args)) - {os.fspath(path) for path in files.values()}
    place_all({os.fspath(start): os.fspath(end) for start, end in files.items()}, stale)
    shown = [os.fspath(path) for path in files.values() if path != made.out and path.parent == made.out.parent]
    shown.sort(key=lambda name: name.endswith('.html'))
    choices.tell(f'wrote {made.out} ({count:,} faces), {", ".join(shown)} and {made.kept()}/')


def page_meshes(made: Made, unseen: np.ndarray) -> list[PageMesh]:
    """The light mesh, if there is one, the finished one, and those of a sweep."""
    meshes = [PageMesh('finished', made.mesh.places, made.mesh.faces, made.colors, unseen)]
    if made.light is not None:
        colors = [values for name, _, values in made.light.columns if name in ('red', 'green', 'blue')]
        meshes.insert(0, PageMesh('light', made.light.places, made.light.faces, np.stack(colors, axis=1) if colors else None,
                                  np.asarray(made.light.face_columns[0][2], bool)))
    for number, mesh in enumerate(made.sweep):
        if len(mesh.faces):
            meshes.append(PageMesh(f'smooth={number}', mesh.vertices, mesh.faces, None, viewed(made, mesh).unseen()))
    return meshes


def viewed(made: Made, mesh: Mesh) -> Mesh:
    """A mesh of the same scan, with from where its vertices were seen."""
    whole, spots = (np.rint((places - made.surface.origin) * made.surface.unit).astype(np.int64) for places in (made.cloud.points, mesh.vertices))
    return Mesh(mesh.vertices, mesh.faces, views=made.cloud.views().take(rows_at(whole, spots)))


def some_sights(cloud: Cloud) -> np.ndarray:
    """A sample of lines of sight, (m, 2, 3): points and the first scanners that saw them."""
    first = cloud.first_scanners()
    rows = np.flatnonzero(first >= 0)
    rows = np.random.default_rng(1).permutation(rows)[:SIGHTS]
    return np.stack([cloud.points[rows], cloud.scanners[first[rows]]], axis=1)


def figures_of(made: Made, unseen: float) -> list[tuple[str, str]]:
    """The figures of the run, for the page and the report."""
    counts, against = made.surface.counts, made.surface.votes_against_per_sight
    verdict = ('check the ' if made.choices.verdict.is_suspect else 'usual for right ') + ('normals' if made.cloud.is_made_up else 'positions')
    return [('points read', f'{made.read:,}'), ('points', f'{counts["points"]:,}'), ('scanners', f'{counts["scanners"]:,}'),
            ('sights', f'{counts["sights"]:,}'), ('faces as built', f'{counts["faces"]:,}'), ('faces', f'{len(made.mesh.faces):,}'),
            *([('faces of the light mesh', f'{len(made.light.faces):,}')] if made.light is not None else []),
            ('cost', f'{counts["cost"]:,}'), ('contradictions a line of sight', f'{against:.3f} ({verdict})'),
            *([] if made.cloud.is_made_up else [('lines of sight that are blocked', f'{made.choices.verdict.blocked:.1%}')]),
            ('spacing', f'{made.texture.distance:.4g}'), ('noise', f'{made.texture.noise:.2g}'),
            ('area that no scanner saw', f'{unseen:.0%}'), *([('tiles', str(len(made.surface.tiles())))] if made.surface.tiles() else []),
            ('checked', 'each tile' if made.surface.tiles() else 'no' if made.args.no_check else 'yes')]


def verifying(made: Made) -> list[str]:
    """The commands that verify the surface again."""
    kept, options = made.kept().name, ' '.join(made.surface.options())
    tiles = [[f'tiles/{name}.{ending}' for ending in ('ply', 'mesh.ply', 'cert')] for name in made.surface.tiles()]
    return [f'recon check {" ".join(shlex.quote(os.path.join(kept, name)) for name in names)} {options}' for names in tiles or [made.surface.files()]]


def write_report(made: Made, figures: list[tuple[str, str]], digests: dict[str, str], unseen: float) -> None:
    """report.json: choices with reasons, figures, warnings, seconds, digests and commands."""
    surface, choices = made.surface, made.choices
    report = {'inputs': list(map(os.fspath, made.args.input)), 'output': os.fspath(made.out),
              'choices': {name: {'value': it.value, 'why': it.why} for name, it in choices.chosen.items()},
              'figures': dict(figures), 'counts': surface.counts, 'votes_against_per_sight': round(surface.votes_against_per_sight, 4),
              'unit': surface.unit, 'origin': surface.origin.tolist(), 'unseen_area': round(unseen, 4),
              'finish': made.finish.sentences(), 'warnings': choices.warnings, 'seconds': choices.seconds, 'seconds_beside': choices.beside,
              'sha256': digests, 'commands': verifying(made)}
    (made.folder / 'report.json').write_text(json.dumps(report, indent=1) + '\n')


def again_words(made: Made) -> list[str]:
    """Returns the arguments that repeat the run, with all choices stated."""
    args, chosen = made.args, made.choices.chosen
    words = [absolute(name) for name in map(os.fspath, args.input)]
    for key in ('scanner', 'positions', 'index', 'table', 'images', 'position', 'flight'):
        value = getattr(args, key)
        if value is not None:
            words.append(f'--{key}={os.path.abspath(value) if key in ("positions", "table", "images", "flight") else value}')
    words += [f'--{key}={value}' for key, value in (('from', args.from_), ('to', args.to)) if value is not None]
    for key in ('outside', 'normals', 'above', 'estimate_normals', 'no_clean', 'no_check'):
        words += ['--' + key.replace('_', '-')] if getattr(args, key) else []
    words += ['--tiles'] if 'tiles' in chosen else []
    words += ['--' + chosen['mesh'].value] + ([f'--fill={args.fill}'] if args.fill else [])
    for key in ('divide', 'far', 'origin', 'unit', 'side', 'surround', 'smooth', 'pieces', 'steps', 'within', 'faces', 'faces-within'):
        words += [f'--{key}={chosen[key].value}'] if key in chosen else []
    words += ([f'--max-points={args.max_points}'] if args.max_points else []) + [f'--vote={args.vote}'] + (['--no-flips'] if chosen['flips'].value == 'no' else [])
    words += ['--faces-surface'] if 'faces-surface' in chosen else []
    return words + ([f'--sweep={args.sweep}'] if args.sweep else []) + ['--force']


def absolute(name: str) -> str:
    """The path of an input from anywhere; FILE=X,Y,Z keeps its position."""
    path, equals, place = name.rpartition('=')
    return os.path.abspath(path) + equals + place if equals else os.path.abspath(name)


def printable(name: str) -> str:
    """A name in letters that stand in a comment of a script: one line of ASCII."""
    return ''.join(letter if ' ' <= letter <= '~' else '?' for letter in name)


def write_again(made: Made, digests: dict[str, str]) -> None:
    """again.sh: the same run from the original files, and whether scan, mesh and certificate are the same bytes."""
    ending = made.out.suffix
    sums = '\n'.join(f'{total}  {name}' for name, total in digests.items())
    text = f"""#!/bin/sh
# again.sh [FOLDER]: repeats the run that made {printable(made.out.name)} from the original files, with the same
# choices, in FOLDER (default: again), and compares the SHA-256 of scan, mesh and certificate.
folder=${{1:-again}}
mkdir -p -- "$folder" || exit 1
if command -v recon-surface >/dev/null; then
  set -- recon-surface
else
  set -- {shlex.join([sys.executable, HERE, 'surface'])}
fi
"$@" {shlex.join(again_words(made))} -o "$folder/mesh{ending}" --keep "$folder/mesh.recon" || exit
cd -- "$folder/mesh.recon" && sha256sum -c - <<'SUMS'
{sums}
SUMS
"""
    # names of files are any bytes
    with whole_bytes(os.fspath(made.folder / 'again.sh'), 0o777) as file:
        file.write(os.fsencode(text))
