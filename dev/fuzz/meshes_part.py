"""Meshes for `recon-mesh`, and its texts and arguments. Each run is judged by the program of dev/mesh_judge."""
from __future__ import annotations

import os
import re
import subprocess
import tempfile

from .runs import Files
from .tally import Context, Tally

JUDGE = os.path.join(os.path.dirname(os.path.dirname(os.path.abspath(__file__))), 'mesh_judge/target/release/mesh_judge')
CRATES = os.path.join(os.path.dirname(os.path.dirname(os.path.dirname(os.path.abspath(__file__)))), 'crates')


def mesh_program(recon: str) -> str:
    """Returns `recon-mesh` beside the other program, or where `rt` left it, or nothing."""
    places = [os.environ.get('RECON_MESH', ''), os.path.join(os.path.dirname(recon), 'recon-mesh'), os.path.join(CRATES, 'mesh_main/out/mesh_main')]
    return next((place for place in places if place and os.access(place, os.X_OK)), '')


def files_in(folder: str) -> Files:
    """Returns the files of a folder."""
    found: Files = {}
    for name in sorted(os.listdir(folder)):
        path = os.path.join(folder, name)
        if os.path.isfile(path):
            with open(path, 'rb') as file:
                found[name] = file.read()
    return found


def run(context: Context, tally: Tally) -> None:
    """Runs the judge for the time of this part, and takes over what it found."""
    program = mesh_program(context.recon)
    if not program or not os.access(JUDGE, os.X_OK):
        tally.note('left out: ' + ('recon-mesh is not built' if not program else 'dev/mesh_judge is not built (make reference, which needs cargo)'))
        return
    seed = str(1000 * int(context.seed) + context.worker)
    with tempfile.TemporaryDirectory() as folder:
        judged = subprocess.run([JUDGE, program, seed, str(max(1, int(context.seconds))), folder], capture_output=True, text=True, check=False)
        counted = re.match(r'runs (\d+) ', judged.stdout)
        if judged.returncode or not counted:
            tally.fail('the judge itself', [JUDGE, program, seed], {}, judged.stderr[-500:] or 'no report')
            return
        tally.runs += int(counted[1])
        for name in sorted(os.listdir(folder)):
            kept = os.path.join(folder, name)
            if os.path.isdir(kept):
                files = files_in(kept)
                wrong = files.pop('what.txt', b'').decode('utf-8', 'replace')
                case = re.match(r'case (\d+)', wrong)
                tally.fail(name, [JUDGE, program, seed, '1', 'found', f'case={case[1] if case else 0}'], files, wrong)
