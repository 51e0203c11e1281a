"""The jobs of a folder of tiles: a command a line for whatever runs commands side by side, and a Makefile of the same.

A job builds a tile's surface and checks it. It leaves NAME.mesh.ply, NAME.cert and, where `recon check` said yes, NAME.done
with what was said and the checksums of scan and mesh (`cksum`); else NAME.log, and it says why and ends with the status of the
run that failed. The program is `recon`, or what the variable RECON names.
"""
from __future__ import annotations

import binascii
import os
from typing import Any

from recon.toolbox.ply_text import CHUNK

JOB = ('{recon} build {name}.ply {name}.mesh.ply {name}.cert{options} >{name}.log 2>&1 && '
       '{recon} check {name}.ply {name}.mesh.ply {name}.cert{options} >>{name}.log 2>&1 && '
       'cksum {name}.ply {name}.mesh.ply >>{name}.log && mv {name}.log {name}.done || '
       '{{ status={dollar}?; echo "{name}: status {dollar}status: {dollar}(cat {name}.log)" >&2; exit {dollar}status; }}')
LINE = '[ -e {name}.done ] || {{ {job}; }}\n'
MAKEFILE = """# Builds the surface of each tile that is not done yet, and checks it: make -j4
# With -k, make continues after a tile that failed.
RECON ?= recon
TILES = {names}

.PHONY: all
all: $(TILES:%=%.done)

$(TILES:%=%.done): %.done: %.ply
	@{job}
"""


def write(folder: str, names: list[str], options: Any) -> None:
    """Writes `jobs.txt` and `Makefile` into a folder; `options` are the arguments after the files."""
    more = ''.join(' ' + option for option in options)
    with open(os.path.join(folder, 'jobs.txt'), 'w', encoding='ascii') as file:
        for name in names:
            job = JOB.format(recon='"${RECON:-recon}"', name=name, options=more, dollar='$')
            file.write(LINE.format(name=name, job=job))
    with open(os.path.join(folder, 'Makefile'), 'w', encoding='ascii') as file:
        job = JOB.format(recon='"$(RECON)"', name='$*', options=more, dollar='$$')
        file.write(MAKEFILE.format(names=' '.join(names), job=job))


TURNED = bytes(int(f'{byte:08b}'[::-1], 2) for byte in range(256))


def cksum(path: str) -> str:
    """Returns the line of `cksum` for a file, as POSIX has it: the checksum, the length and the name.

    Its polynomial is that of crc32, with the bits of each byte the other way round, begun at 0, and with the length behind."""
    state, length = 0xFFFFFFFF, 0
    with open(path, 'rb') as file:
        for chunk in iter(lambda: file.read(CHUNK), b''):
            state, length = binascii.crc32(chunk.translate(TURNED), state), length + len(chunk)
    size = length.to_bytes((length.bit_length() + 7) // 8, 'little')
    state = binascii.crc32(size.translate(TURNED), state)
    return f'{int(f"{state:032b}"[::-1], 2)} {length} {os.path.basename(path)}'


def is_done(folder: str, name: str) -> bool:
    """Returns whether the job of a tile ended well, and its scan and mesh are as they were then."""
    path = os.path.join(folder, name)
    with open(path + '.done', 'rb') as file:
        lines = file.read(CHUNK).decode('latin-1').splitlines()
    return any(line.split()[:1] == ['yes'] for line in lines) and lines[-2:] == [cksum(path + '.ply'), cksum(path + '.mesh.ply')]
