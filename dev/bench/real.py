"""Two real scans from two positions each, of packages that Debian has, as files for recon-surface.

Names: hippo (of libcgal-demo: structured light, in one frame by ICP) · aloe (of opencv-doc: a stereo pair with colors; it needs python3-opencv).

Each writes its files into a folder, and returns them with their positions, as the command line takes them.
"""
from __future__ import annotations

import io
import os
import tarfile
from typing import Any, List

import numpy as np

from bench.sites import ARCHIVE

PHOTOS = '/usr/share/doc/opencv-doc/examples/data/aloe'
# from the second scan of the hippo to the first, by ICP of Open3D
TO_FIRST = np.array([[0.73308146, 0.01433589, -0.67998975, -0.10482121], [-0.04684362, 0.99846799, -0.02945084, -0.00447843],
                     [0.67852579, 0.05344305, 0.73262991, -0.03751539]])
# normals of both scans point to z; how far the camera was is not known
CAMERA = np.array([0.0, 0.0, 3.0])
# the focal length in widths of the picture, the distance of the cameras in meters, and the disparities in pixels that are looked for
FOCAL, APART, LEAST, MOST = 0.8, 0.16, 16, 128


def hippo(folder: str) -> List[str]:
    """Both scans in the frame of the first."""
    words = []
    for number, to_first in ((1, np.eye(3, 4)), (2, TO_FIRST)):
        with tarfile.open(ARCHIVE) as archive:
            file = archive.extractfile(f'data/points_3/hippo{number}.ply')
            assert file is not None
            head, body = file.read().split(b'end_header\n', 1)
        count = int(head.split(b'element vertex ')[1].split()[0])
        places = np.frombuffer(body, '<f8', 6 * count).reshape(-1, 6)[:, :3]
        path = os.path.join(folder, f'hippo{number}.xyz')
        np.savetxt(path, places @ to_first[:, :3].T + to_first[:, 3], fmt='%.6f')
        words.append(f'{path}={",".join(f"{value:.3f}" for value in to_first[:, :3] @ CAMERA + to_first[:, 3])}')
    return words


def aloe(folder: str) -> List[str]:
    """The points that each camera sees, y downward and z away from the cameras."""
    import cv2
    matcher: Any = cv2.StereoSGBM_create(minDisparity=LEAST, numDisparities=MOST - LEAST, blockSize=5, P1=600, P2=2400, disp12MaxDiff=1, uniquenessRatio=10,
                                         speckleWindowSize=100, speckleRange=2, mode=cv2.STEREO_SGBM_MODE_HH)
    left, right = (cv2.pyrDown(cv2.imread(f'{PHOTOS}{side}.jpg')) for side in 'LR')
    # the picture of the right camera is matched as the left one of a mirrored pair
    mirrored = cv2.flip(matcher.compute(cv2.flip(right, 1), cv2.flip(left, 1)), 1)
    words = []
    for number, (picture, disparity, x) in enumerate(((left, matcher.compute(left, right), 0.0), (right, mirrored, APART))):
        path = os.path.join(folder, f'aloe{number}.ply')
        write_seen_by(path, picture, disparity.astype(np.float32) / 16, x)
        words.append(f'{path}={x:g},0,0')
    return words


def write_seen_by(path: str, picture: np.ndarray, disparity: np.ndarray, x: float) -> None:
    """Writes the points of a picture, whose disparity in pixels is known, and their colors; the camera is at x."""
    high, wide = disparity.shape
    row, column = np.nonzero(disparity > LEAST)
    far = FOCAL * wide * APART / disparity[row, column]
    points = np.zeros(len(far), [('place', '<f4', 3), ('color', 'u1', 3)])
    points['place'] = np.stack([(column - wide / 2) * far / (FOCAL * wide) + x, (row - high / 2) * far / (FOCAL * wide), far], axis=1)
    points['color'] = picture[row, column, ::-1]
    head = io.StringIO()
    print('ply', 'format binary_little_endian 1.0', f'element vertex {len(far)}', *(f'property float {axis}' for axis in 'xyz'),
          *(f'property uchar {hue}' for hue in ('red', 'green', 'blue')), 'end_header', sep='\n', file=head)
    with open(path, 'wb') as out:
        out.write(head.getvalue().encode('ascii') + points.tobytes())
