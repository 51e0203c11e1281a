"""Compares runs of the program with the model."""
from __future__ import annotations

import hashlib
from typing import NamedTuple, Optional, Sequence

from model.commands import Command, Memory, run, understood
from model.errors import Rejected
from model.scans import Scan, read_scan
from model.solution import Solution, certificate_of, check
from model.texts import Certificate, Stamp, certificate_head, push_certificate, push_mesh, read_certificate

from .quick import Quick
from .runs import Done, Files, Folder
from .tally import Context, Tally

OLD = b'what was here before\n' * 150         # an output of an earlier run, longer than most
MODEL = Quick()


class Wanted(NamedTuple):
    """What a run has to do; `certificate` is the file whose flow is free."""
    status: int
    out: bytes
    files: Files
    certificate: Optional[str]


def wanted_of(words: Sequence[str], files: Files) -> Wanted:
    host = Memory(files)
    status = run(list(words), host, MODEL)
    return Wanted(status, host.said, host.files, words[3] if status == 0 and words[0] == 'build' else None)


def command_of(words: Sequence[str]) -> Command:
    """Returns the command of arguments that are one."""
    command = understood(words)
    assert command is not None, words
    return command


def stamp_of(data: bytes, command: Command) -> Stamp:
    return Stamp(hashlib.sha256(data).hexdigest(), command.unit, command.fixed)


class Solved(NamedTuple):
    """A scan and what the model builds of it with some options."""
    scan: Scan
    solution: Solution
    certificate: Certificate


def solved_of(data: bytes, options: Sequence[str]) -> Solved:
    """Raises Refused if the scan is not one."""
    c = command_of(['build', 'in', 'm', 'c', *options])
    scan = MODEL.read_scan(data, c.unit, c.fixed)
    solution = MODEL.solve(scan, c.vote, c.smooth)
    return Solved(scan, solution, certificate_of(scan, c.vote, c.smooth, solution, stamp_of(data, c)))


def texts_of(data: bytes, options: Sequence[str]) -> tuple[bytes, bytes, bytes]:
    """Returns the mesh of a scan and its certificates of version 1 and 2."""
    solved = solved_of(data, options)
    cert = solved.certificate
    return push_mesh(solved.solution.mesh), push_certificate(cert._replace(stamp=None)), push_certificate(cert)


def wrong_certificate(got: bytes, wanted: bytes, words: Sequence[str], files: Files) -> Optional[str]:
    """Returns what is wrong with a certificate that `build` wrote: all but its flow is that of the model, and the flow is one of that value."""
    try:
        cert = read_certificate(got)
    except Rejected as error:
        return f'the certificate is not one: {error}'
    if push_certificate(cert) != got:
        return 'the certificate is spelled otherwise'
    if certificate_head(cert) != certificate_head(read_certificate(wanted)):
        return f'the certificate begins with {got[:400]!r}, wanted {wanted[:400]!r}'
    c = command_of(words)
    scan = read_scan(files[c.files[0]], c.unit, c.fixed)
    try:
        mesh = push_mesh(MODEL.solve(scan, c.vote, c.smooth).mesh)
        check(MODEL, scan, c.vote, c.smooth, stamp_of(files[c.files[0]], c), mesh, got)
    except Rejected as error:
        return f'the certificate is not a solution: {error}'
    return None


def wrong_files(after: Files, words: Sequence[str], files: Files, wanted: Wanted) -> Optional[str]:
    """Returns the first file that holds other bytes than it should."""
    for name in sorted(set(after) | set(wanted.files)):
        got, right = after.get(name), wanted.files.get(name)
        if got == right:
            continue
        if name != wanted.certificate or got is None or right is None:
            return f'file {name} holds {(got or b"")[:300]!r}, wanted {(right or b"")[:300]!r}'
        wrong = wrong_certificate(got, right, words, files)
        if wrong:
            return wrong
    return None


def wrong_in(done: Done, after: Files, words: Sequence[str], files: Files, wanted: Wanted) -> Optional[tuple[str, str]]:
    """Returns the kind of a failure and what is wrong, or None."""
    if done.status != wanted.status:
        return 'status', f'{done}; wanted status {wanted.status}, {wanted.out[:300]!r}'
    if done.out != wanted.out:
        return 'line', f'printed {done.out[:400]!r}, wanted {wanted.out[:400]!r}'
    wrong = wrong_files(after, words, files, wanted)
    if wrong:
        return 'files', wrong
    if b'panicked' in done.err or wanted.status in (0, 1) and done.err and b'recon: no face' not in done.err:
        return 'standard error', str(done)
    if wanted.status == 3 and not done.err.startswith(b'recon: '):
        return 'standard error', f'no advice: {done}'
    return None


def judge(context: Context, tally: Tally, label: str, folder: Folder, words: Sequence[str], files: Files, limit: float = 120,
          name: Optional[str | bytes] = None) -> tuple[Done, Files]:
    """Runs the program on arguments and files and compares it with the model."""
    wanted = wanted_of(words, files)
    folder.put(files)
    done = folder.run([context.recon if name is None else name, *words], limit, context.recon)
    after = folder.look()
    tally.runs += 1
    wrong = wrong_in(done, after, words, files, wanted)
    if wrong:
        tally.fail(f'{label}: {wrong[0]} of {words[0] if words else "nothing"}', [context.recon, *words], files, wrong[1])
    return done, after
