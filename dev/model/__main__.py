"""usage: python3 dev/model build IN MESH CERT ..       (the commands of `recon`, for scans of some fifty points)"""
import os
import sys

if not __package__:
    sys.path.insert(0, os.path.dirname(os.path.dirname(os.path.abspath(__file__))))

from model.commands import Folder, run  # noqa: E402
from model.solution import Model  # noqa: E402

if __name__ == '__main__':
    if sys.argv[1:] in (['--help'], ['-h']):
        print(__doc__)
        sys.exit(0)
    sys.exit(run(sys.argv[1:], Folder(), Model()))
