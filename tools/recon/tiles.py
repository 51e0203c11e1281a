"""Splits a scan of any size into tiles for `recon`, and joins the meshes of the tiles.

  recon-tiles split FILE .. FOLDER [points=N] [overlap=D | spacings=K] [through=N] [unit=U] [vote=V] [smooth=L] [how it is read]
  recon-tiles join FOLDER OUT [jobs=N]

`split` cuts space by axis-aligned planes until each box, the *core* of its tile, has at most a given number of points, including those
within the overlap around it. It writes a new FOLDER: a scan for each tile in scaled units, with the scanners of its points; `tiles.txt`, the cuts and
the names of the meshes; `tiles.json`, which describes the tiles; and the commands that build and check each tile, as `jobs.txt`, one command for
each line, and as `Makefile`.

  points=N           the most points of a tile (default: 500000; at most 1048576)
  overlap=D          how far a tile extends beyond its core, in coordinates of the file
  spacings=K         the same in mean spacings of the points, estimated from a sample (default: 20)
  through=N          the most halo points of a tile, whose lines of sight enter its box (default: a tenth of points=)
  unit=              the scale: coordinates are multiplied by it and rounded to integers, halves away from zero
  vote=, smooth=     options of `recon` for the jobs
  scanner=, index=, positions=, position=, table=, images=, normals=, far=, above=, flight=, origin=, from=, to=, outside=, open_end=
                     how the scan is read, as in recon-scan

FILE .. are all files that recon-scan reads, with the same arguments. Properties that `recon` does not read are left out.

`join`, after all jobs, writes one closed mesh: each directed edge occurs as often as its reverse. Each edge takes the faces of one tile, its *owner*:
the tile in whose core its middle lies. A face is in the joined mesh if the owners of its three edges have it. Where owners differ, some edges are
*moved* to another owner, and if that does not help, triangles that no tile has close the mesh. The line has the numbers of both. `recon check` does
not apply to the result. If the program `recon-mesh` has the command `join`, it does this.

  jobs=N             how many meshes are read at the same time (default: 1)
"""
from __future__ import annotations

from typing import Any, Sequence

from recon.toolbox.ply_text import IS_NUMBER, Refusal
from recon.toolbox.scan_feeds import KEYS
from recon.toolbox.tile_join import join
from recon.toolbox.tile_split import Wanted, split
from recon.toolbox.tool import NotUnderstood, Report, field, run, whole

SPLIT = ('points', 'overlap', 'spacings', 'through', 'unit', 'vote', 'smooth') + KEYS
JOIN = ('jobs',)


def length(text: str, key: str) -> float:
    if not IS_NUMBER(text) or not 0 <= float(text) < 1e30:
        raise Refusal(f'{key}= must be a number, 0 or more')
    return float(text)


def refuse_others(options: Any, mine: tuple[str, ...], others: tuple[str, ...], command: str) -> None:
    for key in others:
        if key not in mine and getattr(options, field(key)) is not None:
            raise Refusal(f'{key}= is not an option of {command}')


def wanted_of(options: Any) -> tuple[Wanted, list[str]]:
    """What a split is asked for, and the options of `recon` for its jobs."""
    limits = {'unit': (1, 1000000), 'vote': (1, 65535), 'smooth': (0, 65535)}
    handed = {key: whole(getattr(options, key), key, *ends) for key, ends in limits.items() if getattr(options, key) is not None}
    if options.overlap is not None and options.spacings is not None:
        raise Refusal('overlap= and spacings= are alternatives: pass one of them')
    points = whole(options.points or '500000', 'points', 20, 1048576)
    through = points // 10 if options.through is None else whole(options.through, 'through', 0, points // 2)
    overlap = None if options.overlap is None else length(options.overlap, 'overlap')
    wanted = Wanted(points, through, overlap, length(options.spacings or '20', 'spacings'), handed.get('unit', 1), options)
    return wanted, [f'{key}={value}' for key, value in handed.items() if key != 'unit']


def work(names: Sequence[str], options: Any) -> Report:
    """Cuts a scan into tiles, or joins their surfaces."""
    command, *others = names or ['']
    if command == 'split' and len(others) > (options.table is None):
        refuse_others(options, SPLIT, JOIN, command)
        return split(others[:-1], others[-1], *wanted_of(options))
    if command == 'join' and len(others) == 2:
        refuse_others(options, JOIN, SPLIT, command)
        return join(others[0], others[1], whole(options.jobs or '1', 'jobs', 1, 1024))
    raise NotUnderstood


def main() -> None:
    run(work, __doc__, None, SPLIT + JOIN)


if __name__ == '__main__':
    main()
