"""All that `recon-surface` does, as one call: `recon.surface(points, scanners, ..)`.

Names: surface · Reconstruction (what it returns).
"""
from __future__ import annotations

import argparse
import importlib
import os
import re
import shutil
import tempfile
import warnings as python_warnings
import weakref
from dataclasses import dataclass
from pathlib import Path
from typing import Any, Dict, List, NoReturn, Sequence

import numpy as np

from recon.choices import Choices
from recon.finish import seen_part
from recon.library import SeenBy, Sights, Surface, checked_weights, points_of, sights_of
from recon.meshes import Mesh
from recon.outputs import Made, refuse_places
from recon.program import Invalid
from recon.tables import Table
from recon.toolbox.mesh_files import Finished, write_mesh
from recon.toolbox.output_files import passing_folder
from recon.toolbox.ply_text import Refusal
from recon.toolbox.text_layout import COLORS, INTENSITY

# options of the command line that the call has in another form
OWN = {'help', 'version', 'output', 'quiet', 'input', 'force'}
# options of the command line as they are passed in Python
SAID = ((re.compile(r'--no-([a-z-]+)'), lambda found: found[1].replace('-', '_') + '=False'),
        (re.compile(r'--scanner X,Y,Z|--positions TABLE'), lambda found: 'scanners='),
        (re.compile(r'--(from|to)\b'), lambda found: found[1] + '_='), (re.compile(r'--([a-z-]+)'), lambda found: found[1].replace('-', '_') + '='))


@dataclass(repr=False)
class Reconstruction(Mesh):
    """The finished mesh of a scan, and what it was made of. `vertices` (n, 3), `faces` (m, 3), `source` (n,) the rows of the points that the vertices are,
    or None where they were read from files; `colors` (n, 3) as uint8, or None; `is_unseen` (m,) faces that span space that no scanner saw.

    `surface` is the mesh as built, which `recon check` has verified. `choices` are the values that were chosen, by the name of their option, `reasons`
    why; `warnings` are the program's."""
    colors: np.ndarray | None = None
    is_unseen: np.ndarray | None = None
    surface: Surface | None = None
    choices: Dict[str, str] | None = None
    reasons: Dict[str, str] | None = None
    warnings: Sequence[str] = ()
    finished: Finished | None = None

    def __repr__(self) -> str:
        hue = 'colors' if self.colors is not None else 'no colors'
        return f'<Reconstruction: {len(self.vertices):,} vertices with {hue}, {len(self.faces):,} faces, {len(self.warnings)} warnings>'

    def normals(self) -> np.ndarray:
        """Returns the normal of each vertex at length 1, (n, 3)."""
        assert self.finished is not None
        return self.finished.normals()

    def unseen(self) -> np.ndarray:
        """Returns which faces span space that no scanner saw."""
        return super().unseen() if self.is_unseen is None else self.is_unseen

    def write(self, path: str | Path, seen: bool = False) -> None:
        """Writes the mesh, or its seen part, to a .ply, .glb, .obj or .stl, with colors and normals."""
        assert self.finished is not None
        write_mesh(os.fspath(path), seen_part(self.finished) if seen else self.finished)


def in_python(text: object) -> str:
    """A message with options as they are passed in Python."""
    said = str(text)
    for pattern, word in SAID:
        said = pattern.sub(word, said)
    return said


def word_of(value: Any) -> str:
    """A value of an option as a word."""
    if isinstance(value, (str, os.PathLike)):
        return os.fspath(value)
    values = np.ravel(np.asarray(value))
    return ','.join(np.format_float_positional(x, trim='-') if np.issubdtype(values.dtype, np.floating) else str(x) for x in values)


def words_of(options: Dict[str, Any], known: Sequence[str]) -> List[str]:
    """The options as arguments of the command line. Raises TypeError for one that there is not."""
    words = []
    for key, value in options.items():
        option, negated = '--' + key.rstrip('_').replace('_', '-'), '--no-' + key.replace('_', '-')
        if key in OWN or option not in known and negated not in known:
            raise TypeError(f'surface() got an unexpected keyword argument {key!r}')
        if value is None or value is (negated in known) or value is False and option in known:
            continue
        if isinstance(value, (bool, np.bool_)):
            words.append(option if value else negated)
        else:
            words.append(f'{option}={word_of(value)}')
    return words


def arguments_of(names: Sequence[str], out: str, options: Dict[str, Any]) -> Any:
    """The arguments of a run. Raises `Invalid` for a value that is none."""
    shape: argparse.ArgumentParser = importlib.import_module('recon.surface').parser()

    def fail(message: str) -> NoReturn:
        raise Invalid(in_python(re.sub(r'^argument --([a-z-]+): ', lambda found: found[1].replace('-', '_') + '= ', message)))

    setattr(shape, 'error', fail)
    known = [word for action in shape._actions for word in action.option_strings]
    args = shape.parse_args([*words_of(options, known), '-o', out, '--force', '--', *(names or ['points'])])
    args.input = list(names)
    return args


def table_of(points: Any, scanners: Any, seen_by: SeenBy | None, columns: Dict[str, Any]) -> Table:
    """The arrays of a call as a scan. Raises `Invalid` for those that make none."""
    places = points_of(points, 'points')
    if not len(places):
        raise Invalid('points is empty: it has the shape (0, 3)')
    found = dict(zip('xyz', places.T))
    for key, names in (('normals', ('nx', 'ny', 'nz')), ('colors', COLORS), ('intensity', (INTENSITY,)), ('weights', ('weight',))):
        if columns[key] is not None:
            values = np.asarray(columns[key])
            wanted = (len(places), len(names))
            if values.reshape(len(values), -1).shape != wanted:
                raise Invalid(f'{key} have the shape {values.shape}: expected {wanted if len(names) > 1 else wanted[:1]}')
            found.update(zip(names, values.reshape(wanted).T))
    checked_weights(columns['weights'], len(places))
    if scanners is None:
        return Table(found, None, None)
    stations = points_of(scanners, 'scanners')
    sights: Sights = sights_of(seen_by, len(places), len(stations))
    return Table(found, sights, stations)


def surface(points: Any, scanners: Any = None, seen_by: SeenBy | None = None, *, normals: Any = None, colors: Any = None, intensity: Any = None,
            weights: Any = None, out: str | Path | None = None, quiet: bool = True, **options: Any) -> Reconstruction:
    """Reconstructs, verifies and finishes the surface of a scan, as `recon-surface` does, and returns the finished mesh.

    points: (n, 3), or the name of a file, or a list of names, as on the command line.
    scanners (k, 3), seen_by: as in `build`. Without scanners, `normals` (n, 3) tell the lines of sight, else these are guessed.
    colors (n, 3), intensity (n,), weights (n,): of the points.
    out: a .ply, .glb, .obj or .stl, beside which all files of `recon-surface` are written (default: no file is left).
    options: those of `recon-surface`: `smooth=3`, `origin=(0, 0, 0)`, `from_=(..)`, `max_points=..`, `clean=False`, `flips=False`, `check=False`, ..

    Raises `Invalid` for invalid arrays, and where there is no surface; `Refused` for an error of a program; TypeError for another option. Warns where
    positions or normals look wrong.
    """
    program: Any = importlib.import_module('recon.surface')
    is_named = isinstance(points, (str, os.PathLike)) or isinstance(points, (list, tuple)) and bool(points) and isinstance(points[0], (str, os.PathLike))
    names: List[Any] = ([points] if isinstance(points, (str, os.PathLike)) else list(points)) if is_named else []
    table = None if is_named else table_of(points, scanners, seen_by, {'normals': normals, 'colors': colors, 'intensity': intensity, 'weights': weights})
    if is_named and scanners is not None:
        options['scanner'] = scanners
    kept = tempfile.mkdtemp(prefix='recon-') if out is None else None
    path = os.path.join(kept or '', 'mesh.ply') if out is None else os.fspath(out)
    choices = Choices(quiet)
    try:
        args = arguments_of([os.fspath(name) for name in names], path, options)
        args.quiet, args.arrays = quiet, table
        refuse_places(args)
        with passing_folder(path) as folder, np.errstate(all='ignore'):
            made: Made = program.made(args, choices, Path(folder))
        result = of_made(made, choices, table is not None)
    except (Refusal, program.NoSurface) as error:
        discard(kept)
        raise Invalid(in_python(error)) from None
    except BaseException:
        discard(kept)
        raise
    if kept is not None:
        weakref.finalize(result, discard, kept)
    if choices.verdict.is_wrong:
        against = made.surface.votes_against_per_sight
        python_warnings.warn(f'{"normals" if made.cloud.is_made_up else "positions"} look wrong: {against:.2f} contradictions for each line of sight '
                             '(see the warnings of the result)', stacklevel=3)
    return result


def discard(folder: str | None) -> None:
    """Removes a folder, if there is one."""
    if folder is not None:
        shutil.rmtree(folder, True)


def of_made(made: Made, choices: Choices, has_rows: bool) -> Reconstruction:
    """The result of a run."""
    built, mesh = made.surface, made.mesh
    built.folder = made.kept()
    source = None
    if has_rows and made.cloud.rows is not None:
        source = made.cloud.rows[built.source[mesh.vertex_of]]
    chosen = choices.chosen
    return Reconstruction(mesh.places, mesh.faces, source, colors=made.colors, is_unseen=made.unseen(), surface=built, finished=mesh,
                          choices={name: it.value for name, it in chosen.items()}, reasons={name: in_python(it.why) for name, it in chosen.items()},
                          warnings=list(map(in_python, choices.warnings)))


__all__ = ['Reconstruction', 'surface']
