#!/usr/bin/env python3
"""Prints the line that `recon check` has to print for a printed scan.

usage: python3 dev/page_judge SCAN MESH CERT [V] [L]
"""
from __future__ import annotations

import os
import sys

if not __package__:
    sys.path.insert(0, os.path.dirname(os.path.dirname(os.path.abspath(__file__))))

from page_judge.certificates import line_of  # noqa: E402
from page_judge.scene import solved  # noqa: E402
from page_judge.texts import NotPrinted, parsed  # noqa: E402


def main() -> int:
    if len(sys.argv) not in (4, 5, 6):
        sys.exit((__doc__ or '').strip())
    scan_bytes, mesh, cert = (open(name, 'rb').read() for name in sys.argv[1:4])
    given = list(map(int, sys.argv[4:]))
    vote, smooth = given + [8, 1][len(given):]
    try:
        scan = parsed(scan_bytes)
    except NotPrinted:
        sys.exit(f'{sys.argv[1]} is no scan in the printed form: recon-scan printed=U makes one')
    line, status = line_of(scan_bytes, scan, mesh, cert, solved(scan, vote, smooth), (vote, smooth))
    print(line)
    return status


if __name__ == '__main__':
    sys.exit(main())
