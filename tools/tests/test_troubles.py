"""The built program over a system that interrupts, moves few bytes at a time and fails: a library in the system's place passes on its reads
or its writes so. It is compiled here, so the tests run where `recon` is built and there is a C compiler."""
from __future__ import annotations

import os
import shutil
import subprocess
import unittest

from helpers import RECON, InFolder, equal, write
from test_program import data, example, recon

COMPILER = shutil.which('cc') or shutil.which('gcc') or shutil.which('clang') or ''
# Each call of the kind is interrupted that often, moves at most that number of bytes, and one of them, counted from 1, fails.
SHIM = r"""
#define _GNU_SOURCE
#include <errno.h>
#include <stdlib.h>
#include <string.h>
#include <sys/syscall.h>
#include <unistd.h>
static long number(const char *name) { const char *text = getenv(name); return text ? atol(text) : 0; }
static long interrupted, calls;
static ssize_t moved(const char *kind, long call, int file, const void *bytes, size_t count) {
    if (strcmp(getenv("KIND"), kind)) return syscall(call, file, bytes, count);
    if (interrupted < number("INTERRUPTIONS")) { interrupted++; errno = EINTR; return -1; }
    interrupted = 0;
    if (++calls == number("FAILING")) { errno = EIO; return -1; }
    size_t piece = number("PIECE");
    return syscall(call, file, bytes, piece && piece < count ? piece : count);
}
ssize_t read(int file, void *bytes, size_t count) { return moved("read", SYS_read, file, bytes, count); }
ssize_t write(int file, const void *bytes, size_t count) { return moved("write", SYS_write, file, bytes, count); }
"""


def ran(kind: str, interruptions: int = 0, piece: int = 0, failing: int = 0) -> tuple[int, str, bytes]:
    """Status and line of `cells`, and the file that it leaves."""
    write('out', '')
    env = {'LD_PRELOAD': os.path.abspath('shim.so'), 'KIND': kind, 'INTERRUPTIONS': str(interruptions), 'PIECE': str(piece), 'FAILING': str(failing)}
    done = subprocess.run([RECON, 'cells', 'scan', 'out'], env=env, capture_output=True, timeout=20)
    return done.returncode, done.stdout.decode('ascii'), data('out')


@unittest.skipUnless(RECON and COMPILER, 'recon is not built here, or there is no C compiler')
class Troubles(InFolder):
    def setUp(self) -> None:
        super().setUp()
        write('shim.c', SHIM)
        subprocess.run([COMPILER, '-shared', '-fPIC', '-o', 'shim.so', 'shim.c'], check=True)
        write('scan', example('tetrahedron.ply'))
        self.whole = (*recon('cells', 'scan', 'out'), data('out'))

    def test_a_call_is_made_a_thousand_times(self) -> None:
        for kind in ('read', 'write'):
            for interruptions in (1, 999):
                equal((kind, ran(kind, interruptions)), (kind, self.whole))
            for interruptions in (1000, 1001):
                equal((kind, ran(kind, interruptions)), (kind, (4, '', b'')))

    def test_short_calls_go_on(self) -> None:
        for kind in ('read', 'write'):
            for piece in (1, 3, 100):
                equal((kind, piece, ran(kind, 1, piece)), (kind, piece, self.whole))

    def test_a_read_that_fails_stops_the_run(self) -> None:
        """The scan is read in calls of three bytes, and one more finds its end."""
        calls = -(-len(data('scan')) // 3) + 1
        for failing in (1, 2, calls // 2, calls):
            equal((failing, ran('read', 1, 3, failing)), (failing, (4, '', b'')))
        equal(ran('read', 1, 3, calls + 1), self.whole)

    def test_a_write_that_fails_leaves_a_front(self) -> None:
        """Of the file, and behind it of the line."""
        _, line, text = self.whole
        of_text, of_line = -(-len(text) // 7), -(-len(line) // 7)
        for failing in range(1, of_text + of_line + 1):
            said = 7 * max(0, failing - 1 - of_text)
            equal((failing, ran('write', 1, 7, failing)), (failing, (4, line[:said], text[:7 * (failing - 1)])))
        equal(ran('write', 1, 7, of_text + of_line + 1), self.whole)


if __name__ == '__main__':
    unittest.main()
