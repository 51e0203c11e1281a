#!/usr/bin/env python3
"""Tries to make the built program and the Python tools fail, and says what failed.

usage: python3 dev/fuzz [PART ..] [seed=N] [minutes=M] [recon=PATH] [reference=PATH] [keep=FOLDER] [jobs=N]

  PART         bytes, scans, certificates, arguments, hostile, system, large, tools, simplify, move, meshes; all without a name
  seed         another number makes other cases (default: 1). How many are tried depends on the time
  minutes      for all parts together (default: 10)
  recon        the program (default: ./recon)
  reference    the unverified reference program (default: that of dev/reference, if it is built)
  keep         where the smallest case of each kind of failure is kept (default: ./fuzz_failures)
  jobs         processes at a time (default: one for each processor, at most 4)

A line for each part has its runs and failures. For each kind of failure the smallest case is kept, and a command is printed that runs it. The
status is 1 if there is a failure.
"""
from __future__ import annotations

import importlib
import multiprocessing
import os
import sys
import time
import traceback
from typing import Any, NamedTuple

DEV = os.path.dirname(os.path.dirname(os.path.abspath(__file__)))
if not __package__:
    sys.path.insert(0, DEV)

from fuzz.runs import no_core_files  # noqa: E402
from fuzz.tally import Context, Tally  # noqa: E402

# What share of the time each part has.
SHARES = {'bytes': 20, 'scans': 22, 'certificates': 18, 'arguments': 6, 'hostile': 4, 'system': 12, 'large': 10, 'tools': 8,
          'simplify': 6, 'move': 3, 'meshes': 10}
OPTIONS = {'seed': '1', 'minutes': '10', 'recon': 'recon', 'reference': os.path.join(DEV, 'reference/target/release/recon-reference'),
           'keep': 'fuzz_failures', 'jobs': str(min(4, len(os.sched_getaffinity(0))))}


class Programs(NamedTuple):
    recon: str
    reference: str


def work(part: str, programs: Programs, seed: str, seconds: float, worker: int, workers: int, queue: Any) -> None:
    """One process of a part."""
    no_core_files()
    tally = Tally(part)
    try:
        importlib.import_module(f'fuzz.{part}_part').run(Context(*programs, seed, part, seconds, worker, workers), tally)
    except Exception:  # a mistake of the part itself
        tally.fail('the part itself', ['part', part], {}, traceback.format_exc()[-550:])
    queue.put(tally)


def tried(part: str, programs: Programs, seed: str, seconds: float, jobs: int) -> Tally:
    """Returns a part in some processes."""
    queue: Any = multiprocessing.Queue()
    workers = [multiprocessing.Process(target=work, args=(part, programs, seed, seconds, k, jobs, queue)) for k in range(jobs)]
    for worker in workers:
        worker.start()
    total = Tally(part)
    for _ in workers:
        total.merge(queue.get())
    for worker in workers:
        worker.join()
    return total


def understood(words: list[str]) -> tuple[list[str], dict[str, str]]:
    """Returns the parts and the options; ends the program if they are not understood."""
    if words[:1] in (['--help'], ['-h']):
        print((__doc__ or '').strip())
        sys.exit(0)
    given = dict(word.split('=', 1) for word in words if '=' in word)
    parts = [word for word in words if '=' not in word]
    if not given.keys() <= OPTIONS.keys() or not set(parts) <= SHARES.keys():
        sys.exit('dev/fuzz: invalid arguments; see --help')
    return parts or list(SHARES), {**OPTIONS, **given}


def main() -> int:
    parts, options = understood(sys.argv[1:])
    recon, reference = os.path.abspath(options['recon']), os.path.abspath(options['reference'])
    if not os.access(recon, os.X_OK):
        sys.exit(f'dev/fuzz: {options["recon"]} is not built; make recon builds it')
    programs = Programs(recon, reference if os.access(reference, os.X_OK) else '')
    if not programs.reference:
        print('the reference program is not built (make reference, which needs cargo): what is compared with it is skipped')
    share, runs, failures, keep = sum(SHARES[part] for part in parts), 0, 0, os.path.abspath(options['keep'])
    began = time.monotonic()
    for part in parts:
        started = time.monotonic()
        total = tried(part, programs, options['seed'], 60 * float(options['minutes']) * SHARES[part] / share, int(options['jobs']))
        print('\n'.join([total.line(time.monotonic() - started), *total.kept(keep)]), flush=True)
        runs, failures = runs + total.runs, failures + total.failures
    print(f'fuzz: {runs:,} runs, {failures} failures, {(time.monotonic() - began) / 60:.0f} min, seed {options["seed"]}'
          + (f'; cases in {keep}' if failures else ''))
    return 1 if failures else 0


if __name__ == '__main__':
    sys.exit(main())
