"""Converts a mesh of `recon build` for viewing, printing and exchange: in the coordinates of the scan, smoother, without floating
components, with the colors of its points. The result is no longer the mesh that `recon check` accepts.

  recon-finish MESH OUT [unit=U] [origin=X,Y,Z] [pieces=N] [flips=no] [smooth=N within=D [detail=yes]]
               [manifold=yes] [seen=yes] [fill=LENGTH] [scan=SCAN] [cert=CERT]

  OUT                binary PLY, STL, GLB or OBJ, by the extension of its name: .ply, .stl, .glb or .obj
  unit=U             divide coordinates by U (default: that of cert=, else of the only certificate (.cert, .cert.gz) in the folder
                     of MESH, which is then printed; else 1)
  cert=CERT          read unit from the certificate of the mesh
  origin=X,Y,Z       add the origin that was subtracted from the scan (default: 0,0,0)
  pieces=N           keep the N largest components, connected by edges (default: all)
  flips=no           do not flip edges (default: flip an edge if that reduces the angles between faces; no vertex moves, and no
                     two faces intersect that did not before)
  smooth=N           smooth in N steps, at most 100, each followed by flips (default: 0)
  within=D           move no vertex farther than D, in coordinates of the scan and rounded down to whole units of the mesh; required
                     with smooth=. Two to three times the noise is usual
  detail=yes         give back detail that smoothing took away, by the lines of sight of scan=. Where the noise is over a third of the
                     spacing, detail=means gives back local means alone; without scan= both do so
  manifold=yes       split vertices and edges at which sheets only touch, so that each edge has two faces
  seen=yes           also write OUT with -seen in its name: the mesh without faces that span space that no scanner saw. It is open.
                     Faces of a PLY get the property `unseen`, 1 or 0. With scan= the lines of sight tell which faces these are;
                     without it, an edge over 8 times the spacing at the corners does
  fill=LENGTH        keep the faces of holes of the seen mesh up to this wide, in coordinates of the scan (default: 0)
  scan=SCAN          copy colors and other properties of the scan to the vertices; of several points at one position those of the
                     first. STL stores none, GLB and OBJ store red, green and blue

Each option may also be written as --unit 1000, --seen or --no-flips. The program `recon-mesh` keeps pieces, splits vertices, flips
edges and smooths; it is searched in the variable RECON_MESH, next to this program, and on the PATH.
"""
from __future__ import annotations

import glob
import gzip
import os
import re
import tempfile
from concurrent.futures import ThreadPoolExecutor
from dataclasses import dataclass, replace
from decimal import Decimal
from typing import Any, Callable, List, Optional, Sequence, Tuple

import numpy as np

from recon.library import rows_at
from recon.mesh_program import FinishOptions, Whole, finish_mesh, move_mesh
from recon.meshes import Mesh, mean_angle
from recon.targets import GivenBack, target_places
from recon.toolbox.mesh_files import Column, Finished, form_of, read_mesh, rounding_of, write_mesh
from recon.toolbox.output_files import passing_folder
from recon.toolbox.ply_text import IS_NUMBER, Refusal
from recon.toolbox.progress import step
from recon.toolbox.scan_rows import columns_of
from recon.toolbox.seen import Views
from recon.toolbox.tool import Report, number_of, run, three, whole, yes

MOST_STEPS, LONGEST = 100, 1 << 23
DETAILS = {given.value: given for given in GivenBack}
# how often vertices move to their targets: edges are flipped in between
MOVES = 2
# bytes of a face in the text of a mesh, and faces that are finished in a second, for one step
BYTES_A_FACE, FINISHED_A_SECOND = 35, 150_000
KEYS = ('unit', 'origin', 'pieces', 'flips', 'smooth', 'within', 'detail', 'manifold', 'seen', 'fill', 'scan', 'cert')
STAMP = re.compile(rb'recon certificate 2\nscan [0-9a-f]{64}\nunit ([0-9]{1,7})\n')


@dataclass
class Request(FinishOptions):
    """The request, by its options; `unit` and `origin` are those of the scan, `within` a length of it. Of `scan`
    the properties are brought back. `program` is the path of recon-mesh. `given_back` is what of the residuals of smoothing is given back, without
    lines of sight if these are made up."""
    unit: int = 1
    origin: Sequence[float] = (0.0, 0.0, 0.0)
    seen: bool = False
    scan: Optional[str] = None
    program: Optional[str] = None
    fill: float = 0.0
    given_back: GivenBack = GivenBack.NOTHING
    is_made_up: bool = False

    @classmethod
    def of(cls, options: Any) -> Request:
        """Reads the options of the command line."""
        steps = whole(options.smooth or '0', 'smooth', 0, MOST_STEPS)
        if (options.within is None) != (steps == 0):
            raise Refusal('smooth= and within= are required together: the number of steps, and the most that a vertex may move')
        if steps and not (IS_NUMBER(options.within) and 0 < float(options.within) < 1e30):
            raise Refusal('within= must be a number greater than 0')
        if options.fill and not (IS_NUMBER(options.fill) and 0 <= float(options.fill) < 1e30):
            raise Refusal('fill= must be a length of 0 or more')
        if options.fill and not yes(options.seen, 'seen'):
            raise Refusal('fill= requires seen=yes: it fills holes of the seen mesh')
        request = cls(whole(options.pieces, 'pieces', 1, 10 ** 9) if options.pieces else None, yes(options.manifold, 'manifold'),
                      options.flips is None or yes(options.flips, 'flips'), steps, float(options.within or 0),
                      whole(options.unit or '1', 'unit', 1, 1000000), [float(word) for word in three(options.origin or '0,0,0', 'origin')],
                      yes(options.seen, 'seen'), options.scan, fill=float(options.fill or 0))
        if steps:
            request.whole_within()
        if options.detail and (not steps or options.detail not in DETAILS):
            raise Refusal('detail= is yes, means or no, and requires smooth=')
        request.given_back = DETAILS[options.detail or 'no']
        return request

    def passes(self) -> int:
        """Returns about how many steps of smoothing finishing takes as long as."""
        return 2 + self.steps + (0 if self.given_back is GivenBack.NOTHING else 2 + MOVES)

    def whole_within(self) -> int:
        """Returns how many whole units of the mesh a vertex may move. Raises `Refusal` if that is none."""
        units = min(int(Decimal(repr(self.within)) * self.unit), LONGEST)
        if not units:
            raise Refusal(f'within={self.within:g} is less than one unit of the mesh, {1 / self.unit:g}')
        return units


@dataclass
class FinishReport(Report):
    """What became of a mesh. Angles are in degrees, lengths in the numbers of the scan; a step that was not asked for is None."""
    name: str
    vertices: int
    faces: int
    stamp: Optional[str] = None
    unit: int = 1
    kept_pieces: Optional[int] = None
    left_out: int = 0
    is_flipped: bool = False
    steps: int = 0
    gave_back: bool = False
    mean_way: float = 0.0
    longest_way: float = 0.0
    angle_before: float = 0.0
    angle_after: float = 0.0
    columns: Optional[List[str]] = None
    split: Optional[int] = None
    unseen: Optional[int] = None
    out: str = ''
    written: Tuple[int, int] = (0, 0)
    seen_part: int = 0
    rounding: float = 0.0

    def __str__(self) -> str:
        wrote = f'wrote {self.written[0]} vertices and {number_of(self.written[1], "face")} to {self.out}'
        if self.seen_part:
            wrote += f', and {number_of(self.seen_part, "seen face")} to {seen_path(self.out)}, which is open'
        if self.rounding:
            wrote += f'; {coarse(self.out, self.rounding)}'
        return '; '.join([*self.sentences(), wrote])

    def sentences(self) -> list[str]:
        """The report in words."""
        said = [f'read {self.vertices} vertices and {number_of(self.faces, "face")} of {self.name}']
        if self.stamp is not None:
            said.append(f'unit={self.unit} from {self.stamp}')
        if self.kept_pieces is not None:
            said.append(f'kept the {number_of(self.kept_pieces, "largest piece")} and left out {number_of(self.left_out, "face")}')
        if self.is_flipped:
            said.append('flipped edges')
        if self.steps:
            said.append(f'smoothed in {number_of(self.steps, "step")}{" and gave detail back" * self.gave_back}: vertices moved by {self.mean_way:.4g} on average, '
                        f'{self.longest_way:.4g} at most')
        said.append(f'the mean angle between adjacent faces changed from {self.angle_before:.1f} to {self.angle_after:.1f} degrees')
        if self.columns is not None:
            said.append(f'copied {", ".join(self.columns) or "no properties"} from the scan')
        if self.split is not None:
            said.append(f'split off {self.split} {"vertex" if self.split == 1 else "vertices"}')
        if self.unseen is not None:
            said.append(f'{number_of(self.unseen, "face")} unseen by all scanners')
        return said


class Work:
    """A mesh on its way, and the report of it. `recon-mesh` does all that changes it, in files of a folder that goes with the run. `fine` is how
    many units of `places` one unit of the mesh that was read has."""

    def __init__(self, name: str, request: Request, tell: Callable[[str], None], mesh: tuple[np.ndarray, np.ndarray] | None, folder: str,
                 views: Views | None = None) -> None:
        self.path, self.request, self.tell, self.folder, self.views = name, request, tell, folder, views
        self.places, self.corners, self.fine = Whole(*(read_mesh(name) if mesh is None else mesh), 1)
        if not len(self.corners):
            raise Refusal('the mesh has no faces')
        self.vertex_of = np.arange(len(self.places))
        self.report = FinishReport(name, len(self.places), len(self.corners) // 3, unit=request.unit)

    def change(self, options: FinishOptions, out: str) -> None:
        """Runs `recon-mesh finish` on the mesh, which becomes what it writes."""
        self.tell(' '.join(['recon-mesh finish', *options.words()]))
        path = os.path.join(self.folder, out)
        self.places, self.corners, self.fine = finish_mesh(self.path, options, path, self.request.program)
        self.path = path

    def keep_and_split(self) -> None:
        """Does what moves no vertex, but leaves flips to a run that smooths: so each vertex is found by its place in the mesh that was read."""
        request, report, before = self.request, self.report, self.places
        options = FinishOptions(request.pieces, request.manifold, request.flips and not request.steps)
        if options == FinishOptions(flips=False):
            return
        self.change(options, 'kept.ply')
        if not np.array_equal(before, self.places):
            self.vertex_of = rows_at(before, self.places)
        report.kept_pieces = request.pieces
        report.left_out = report.faces - len(self.corners) // 3
        if request.manifold:
            report.split = len(self.places) - len(np.unique(self.vertex_of))

    def smooth(self, columns: list[Column]) -> None:
        """Flips and smooths; vertices keep their numbers. Of the scan they have these columns."""
        request, report, homes, path = self.request, self.report, self.places, self.path
        options = FinishOptions(flips=request.flips, steps=request.steps, within=request.whole_within())
        self.change(options, 'smoothed.ply')
        if request.given_back is not GivenBack.NOTHING:
            self.give_back(path, homes, replace(options, steps=MOVES), self.views_of_vertices(columns))
        far = np.linalg.norm(self.places / self.fine - homes, axis=1) / request.unit
        report.steps, report.mean_way, report.longest_way = request.steps, float(far.mean()), float(far.max())

    def give_back(self, path: str, homes: np.ndarray, options: FinishOptions, views: Views | None) -> None:
        """Moves the vertices of the mesh that was smoothed, from where they were, to where a part of what smoothing took away is given back."""
        request = self.request
        scanners = None if views is None or request.is_made_up else (views.places - np.array(request.origin)) * request.unit
        targets = target_places(homes.astype(float), self.places / self.fine, self.corners.reshape(-1, 3), scanners, request.given_back)
        self.tell(' '.join(['recon-mesh move', *options.words()]))
        self.path, self.report.gave_back = os.path.join(self.folder, 'moved.ply'), True
        places = np.rint(targets * self.fine).astype(np.int64)
        self.places, self.corners, self.fine = move_mesh(path, places, options, self.path, request.program)

    def run(self) -> Finished:
        """Finishes the mesh, and brings columns of the scan back."""
        request, report = self.request, self.report
        with ThreadPoolExecutor(1) as pool:
            before = pool.submit(mean_angle, self.places, self.corners.reshape(-1, 3))
            self.keep_and_split()
            columns: list[Column] = []
            if request.scan is not None:
                columns = columns_of(request.scan, request.unit, self.places)
                report.columns = [name for name, _, _ in columns]
            if request.steps:
                self.smooth(columns)
            report.is_flipped, report.angle_before = request.flips, before.result()
        faces = self.corners.reshape(-1, 3)
        report.angle_after = mean_angle(self.places, faces)
        spots = self.places / (self.fine * request.unit) + np.array(request.origin)
        face_columns: list[Column] = []
        if request.seen:
            unseen = Mesh(spots, faces, views=self.views_of_vertices(columns)).unseen()
            report.unseen = int(unseen.sum())
            face_columns.append(('unseen', 'uchar', unseen))
        return Finished(spots, faces, columns, face_columns, self.vertex_of)

    def views_of_vertices(self, columns: list[Column]) -> Views | None:
        """From where the vertices were seen, as the caller knows or the scan says: its column `scanner`, and its scanners."""
        if self.views is not None:
            return self.views.take(self.vertex_of)
        numbers = next((np.asarray(values, np.int64) for name, _, values in columns if name == 'scanner'), None)
        if self.request.scan is None or numbers is None:
            return None
        from recon.tables import read_table
        scan, _ = read_table([self.request.scan])
        if scan.scanners is None or not 0 <= numbers.min(initial=0) <= numbers.max(initial=0) < len(scan.scanners):
            return None
        return Views(scan.scanners[numbers] + np.array(self.request.origin), numbers, np.zeros(len(numbers), bool))


def finished(path: str, request: Request, tell: Callable[[str], None] = lambda text: None,
             mesh: tuple[np.ndarray, np.ndarray] | None = None, views: Views | None = None) -> tuple[Finished, FinishReport]:
    """Finishes the mesh of a file, and returns it with the report. `tell` gets lines on what is done; `mesh` is what `read_mesh` gives
    of the file, if it is known, and `views` from where its vertices were seen."""
    with passing_folder(os.path.join(tempfile.gettempdir(), 'finish')) as folder:
        work = Work(path, request, tell, mesh, folder, views)
        return work.run(), work.report


def with_used(faces: np.ndarray, count: int) -> tuple[np.ndarray, np.ndarray]:
    """The rows of the vertices, of `count`, that faces have, ascending, and the faces by their numbers among these."""
    is_used = np.zeros(count, bool)
    is_used[faces.ravel()] = True
    return np.flatnonzero(is_used), (np.cumsum(is_used) - 1)[faces]


def is_in_open(mesh: Finished, fill: float = 0.0) -> np.ndarray:
    """Which faces (m,) the open mesh has: not those that span unseen space, but for those of holes up to `fill` wide."""
    known = [np.asarray(values, bool) for name, _, values in mesh.face_columns if name == 'unseen']
    return Mesh(mesh.places, mesh.faces).is_seen(known[0] if known else None, fill)


def seen_part(mesh: Finished, fill: float = 0.0) -> Finished:
    """The open mesh without the faces that span unseen space, but with those of holes up to `fill` wide, with the vertices that are left."""
    used, faces = with_used(mesh.faces[is_in_open(mesh, fill)], len(mesh.places))
    return Finished(mesh.places[used], faces, [(name, kind, values[used]) for name, kind, values in mesh.columns],
                    vertex_of=mesh.vertex_of[used])


def coarse(path: str, away: float) -> str:
    """The warning that a format rounds coordinates."""
    return f'{path}: STL stores coordinates in single precision, which moved vertices by up to {away:.2g}: write PLY, GLB or OBJ, or subtract an origin'


def seen_path(path: str) -> str:
    """mesh-seen.glb for mesh.glb."""
    stem, ending = os.path.splitext(path)
    return stem + '-seen' + ending


def write_seen(path: str, mesh: Finished, fill: float = 0.0) -> int:
    """Writes the seen part of a mesh beside it, and returns how many faces it has. Of 0 faces no file is made."""
    part = seen_part(mesh, fill)
    if len(part.faces):
        write_mesh(seen_path(path), part)
    return len(part.faces)


def stamped_unit(mesh: str, named: str | None) -> tuple[str, str] | None:
    """Returns the scale that the named certificate states, or the only one in the folder of the mesh, and its name."""
    folder = glob.escape(os.path.dirname(mesh) or '.')
    found = [named] if named else glob.glob(folder + '/*.cert') + glob.glob(folder + '/*.cert.gz')
    if len(found) != 1:
        return None
    try:
        opened: Any = gzip.open if found[0].endswith('.gz') else open
        with opened(found[0], 'rb') as file:
            stamp = STAMP.match(file.read(200))
    except (EOFError, gzip.BadGzipFile):
        stamp = None
    if stamp is None and named:
        raise Refusal(f'{named} is not a certificate with a unit')
    return (stamp[1].decode('ascii'), os.path.basename(found[0])) if stamp else None


def work(names: Sequence[str], options: Any) -> FinishReport:
    """Finishes a mesh, and writes it."""
    form_of(names[1])
    stamp = None if options.unit else stamped_unit(names[0], options.cert)
    if stamp is not None:
        options.unit = stamp[0]
    request = Request.of(options)
    faces = os.path.getsize(names[0]) / BYTES_A_FACE
    with step('finishing', seconds=faces * request.passes() / FINISHED_A_SECOND):
        mesh, report = finished(names[0], request)
    report.stamp = stamp[1] if stamp else None
    with step('writing', seconds=faces / FINISHED_A_SECOND):
        write_mesh(names[1], mesh)
        report.out, report.written = names[1], (len(mesh.places), len(mesh.faces))
        report.rounding = rounding_of(names[1], mesh)
        report.seen_part = write_seen(names[1], mesh, request.fill) if request.seen else 0
    return report


def main() -> None:
    run(work, __doc__, 2, KEYS)


if __name__ == '__main__':
    main()
