"""Five small scans of all forms, with their meshes, certificates and points: what is cut and changed byte by byte."""
from __future__ import annotations

import struct
from typing import NamedTuple, Sequence

XYZ = ['property int x', 'property int y', 'property int z']


class Small(NamedTuple):
    data: bytes
    options: list[str]


def lines(words: Sequence[str], end: str = '\n') -> bytes:
    return (end.join(words) + end).encode()


def text_scan() -> Small:
    head = ['ply', 'format ascii 1.0', 'comment k', 'element vertex 6', *XYZ, 'property uchar weight', 'property list uchar int scanner',
            'element scanner 3', *XYZ, 'end_header']
    body = ['9 9 9 2 2 0 1', '9 -9 -9 1 1 0', '-9 9 -9 255 1 1', '-9 -9 9 1 2 2 2', '1 2 -1 3 0', '9 9 9 1 1 2', '90 80 70', '-90 85 -70',
            '-80 -90 75']
    return Small(lines(head + body), ['vote=3'])


def decimal_scan() -> Small:
    head = ['ply', 'format ascii 1.0', 'element face 1', 'property list uchar int q', 'element vertex 5', 'property double x', 'property float n',
            'property double y', 'property double z', 'property int scanner', 'element scanner 2', 'property float x', 'property float y',
            'property float z', 'end_header']
    body = ['2 7 x', '2.5 nan 2.5e0 .25E+1 0', '2.5 1 -25e-1 -2.5 1', '-2.5 1 2.5 -2.50 0', '-2.5\tx -2.5 2.5 1', '+0.1 0 .2 -.30 0',
            '25. 2.5e1 20.125', '-30 -22.6 +2e1']
    return Small(lines(head + body, '\r\n'), ['unit=4', 'smooth=2'])


def binary_scan(kind: str, mark: str, options: list[str]) -> Small:
    head = ['ply', f'format {kind} 1.0', 'element vertex 5', 'property short x', 'property list char short skip', 'property char y',
            'property int z', 'property char weight', 'property list ushort uchar scanner', 'element scanner 3', 'property int x',
            'property short y', 'property short z', 'property double t', 'end_header']
    rows: list[tuple[int, int, int, int, list[int]]] = [
        (9, 9, 9, 2, [0, 1]), (9, -9, -9, 1, [0]), (-9, 9, -9, 127, [1]), (-9, -9, 9, 1, [2, 2]), (1, 2, -1, 3, [])]
    body = b''
    for k, (x, y, z, weight, seen) in enumerate(rows):
        body += struct.pack(f'{mark}hb{k % 3}hbib', x, k % 3, *[-7] * (k % 3), y, z, weight)
        body += struct.pack(f'{mark}H{len(seen)}B', len(seen), *seen)
    for x, y, z in ((90, 80, 70), (-90, 85, -70), (-80, -90, 75)):
        body += struct.pack(mark + 'ihhd', x, y, z, 0.5)
    return Small(lines(head) + body, options)


def fixed_scan() -> Small:
    head = ['ply', 'format ascii 1.0', 'element vertex 5', 'property float x', 'property float y', 'property float z',
            'property list uchar int scanner', 'end_header']
    body = ['.1 .1 .1 0', '0.1 -0.1 -0.1 1 x', '-0.1 0.1 -1e-1 2 nan 7', '-.1 -.1 .1 0', '0.02 .01 0 0']
    return Small(lines(head + body), ['unit=100', 'scanner=1,1.5,.75', 'smooth=0', 'vote=1'])


SCANS = {'text': text_scan(), 'decimals': decimal_scan(), 'little': binary_scan('binary_little_endian', '<', []),
         'big': binary_scan('binary_big_endian', '>', ['smooth=0']), 'fixed': fixed_scan()}
POINTS = {'plain': b'0 0 0\n9 9 9\n-1 2 3\n 4 4 -4\n9 -9 -9', 'decimals': b'.5 -2.5e0 1.\r\n+2e1 20.125 -.0\t1e-9999 2.5 2.5 ', 'few': b'0 0 0'}
