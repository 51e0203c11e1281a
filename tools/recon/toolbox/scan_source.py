"""Which source the arguments of a program name, by the options and the first bytes of the file."""
from __future__ import annotations

import copy
import os
from typing import Any, Callable, Sequence

from recon.toolbox.colmap_source import Colmap, Sparse, sparse_model
from recon.toolbox.normal_source import Normals
from recon.toolbox.ply_text import Refusal
from recon.toolbox.point_files import has_rows, open_points
from recon.toolbox.ptx_source import Ptx
from recon.toolbox.row_source import Airborne, Listed, Rows
from recon.toolbox.sources import Source
from recon.toolbox.station_source import Overhead, Stations, is_count
from recon.toolbox.text_lines import Lines
from recon.toolbox.tool import three, yes


def source_of(names: Sequence[str], options: Any) -> Source:
    """Returns the source of these names."""
    if options.table is None and not names:
        raise Refusal('no input file')
    if getattr(options, 'scanner', None) is not None:
        names, options = with_scanner(names, options)
    has_normals = yes(options.normals, 'normals')
    if options.far is not None and not has_normals:
        raise Refusal('far= requires normals=yes')
    model = sparse_model(names[0]) if len(names) == 1 else None
    if model is not None:
        return Sparse(model, options)
    if options.flight is not None or yes(options.above, 'above'):
        return airborne(names, options)
    if options.images is not None or has_normals:
        if len(names) != 1:
            raise Refusal('images= and normals= require a single file')
        return (Normals if has_normals else Colmap)(names[0], options)
    if options.table is not None or len(names) > 1 or '=' in names[0]:
        return Stations(names, options)
    return one_file(names[0], options)


def with_scanner(names: Sequence[str], options: Any) -> tuple[Sequence[str], Any]:
    """Returns names and options where scanner= gives one position to all points of a file: FILE=X,Y,Z for a file that has no rows."""
    if len(names) != 1 or '=' in names[0] and not os.path.exists(names[0]) or options.positions is not None or options.table is not None:
        raise Refusal('scanner= requires a single FILE without =X,Y,Z, and excludes positions= and table=')
    three(options.scanner, 'scanner=')
    if os.path.isdir(names[0]) or has_rows(names[0]):
        return names, options
    changed = copy.copy(options)
    changed.scanner = None
    return [f'{names[0]}={options.scanner}'], changed


def airborne(names: Sequence[str], options: Any) -> Source:
    """Returns the source of points that were seen from above."""
    if options.flight is not None and options.above is not None:
        raise Refusal('above= and flight= are alternatives: pass one of them')
    if len(names) == 1 and has_rows(names[0]):
        return of_rows(names[0], options, Airborne)
    if options.flight is not None or not names:
        raise Refusal('flight= requires a single LAS or PLY whose points have times' if names else 'no input file')
    return Overhead(names, options)


def of_rows(path: str, options: Any, kind: Callable[[Any, str, Any], Source] | None = None) -> Source:
    """Returns the source of a file of rows, of this kind or of the one that its points tell."""
    reader = open_points(path, yes(options.open_end, 'open_end'))
    try:
        vertex = reader.element('vertex')
        if vertex is None:
            raise Refusal('no element vertex')
        return (kind or (Listed if vertex.has_lists() else Rows))(reader, path, options)
    except BaseException:
        reader.close()
        raise


def one_file(path: str, options: Any) -> Source:
    """Returns the source of a file that says all by itself."""
    if has_rows(path):
        return of_rows(path, options)
    if not os.path.getsize(path):
        raise Refusal('the file is empty')
    if is_ptx(path):
        return Ptx(path, options)
    raise Refusal(f'{path} is not a PLY, PCD, LAS, E57 or PTX; for a list of numbers, pass the scanner position: {path}=X,Y,Z')


def is_ptx(path: str) -> bool:
    """Returns whether a text begins with two lines of a number each. A file of another kind that is known is refused by its name."""
    Lines(path).close()
    with open(path, 'rb') as file:
        return all(is_count(file.readline(100).decode('latin-1').split()) for _ in range(2))
