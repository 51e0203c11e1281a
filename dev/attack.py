#!/usr/bin/env python3
"""Tries the mutants of attack/NAME/, which the gate leaves out: none may be verified.

usage: dev/attack.py [CRATE ..]               (at the top of the repository; default: the mutants of all crates)
       dev/attack.py changed [COMMIT]         (those of crates whose clauses or definitions differ from a commit, as the gate does)

The commit is by default the first of these that is in the history: the one that the file .ci/base names; the last tag; the last common one with
origin/main, if commits came after it; the one before the last. Of changed crates at most MOST mutants are tried, of each crate about as many:
so the gate ends in time. Which ones depends on their names and on the commit. A run of all mutants that were all refused writes the commit of
a clean clone into .ci/base.

Copies the repository to a temporary folder, puts the edits of attack/NAME/ in place of crates/NAME/must-fail/, and runs `rt ci` there, for
the named crates or for all. So what the gate has proved on this machine is not proved again, edits are tried in parallel, and an edit that was
tried before with the same sources is not tried again. Each start is reported, as by dev/progress.py. If `rt ci` takes no names (see `rt help`),
the copy keeps what was built here, and `rt must-fail` tries four crates in parallel. At the end a line for each crate states how many edits were
tried and refused, how many only by a name that a proof lost or by a limit of the prover (which says less about the contract), and how many were
not refused or are bad: such an edit is reported with its name and the output of `rt`. The whole output of `rt` goes to attack.log. The status is
1 if an edit was not refused.
"""
from __future__ import annotations

import collections
import concurrent.futures
import hashlib
import os
import pathlib
import re
import shutil
import subprocess
import sys
import tempfile
import time

from docs.sources import uses_of
from report import begun

TOP = pathlib.Path(__file__).resolve().parent.parent
LOG = TOP / 'attack.log'
# A line of `rt help` that says that `rt ci` takes names of crates.
TAKES_NAMES = re.compile(r'(?m)^ *rt ci +(\[|NAME)')
SIDE_BY_SIDE = 4
# A quarter of an hour on two processors.
MOST = 60
# A changed line of a clause in src/, and one of a definition in specs/ (no comment and no import).
CLAUSE, DEFINITION = re.compile(r'[+-]\s*(requires|ensures|(pub )?ghost (?!use))'), re.compile(r'[+-](?!\s*(--|use |pub mod |$))')
RESULT = re.compile(r'(?:rt: )?must-fail (\w+/\S+)\.edit: (.*)')


def git(*words: str) -> str:
    """Returns what git prints, or nothing if it fails or is not there."""
    try:
        return subprocess.run(['git', *words], cwd=TOP, stdin=subprocess.DEVNULL, stderr=subprocess.DEVNULL, stdout=subprocess.PIPE, text=True).stdout
    except OSError:
        return ''


def changed_in(diff: str) -> set[str]:
    """Returns the crates in whose clauses or definitions a diff has changed lines."""
    found, crate, part = set(), '', ''
    for line in diff.splitlines():
        if line.startswith(('+++ ', '--- ')):
            path = pathlib.PurePath(line[6:]).parts
            crate, part = (path[1], path[2]) if len(path) > 3 and path[0] == 'crates' else ('', '')
        elif crate and {'src': CLAUSE, 'specs': DEFINITION}.get(part, re.compile('$^')).match(line):
            found.add(crate)
    return found


def base_of(commit: str) -> str:
    """Returns the commit to compare with, or nothing if there is no history."""
    given = TOP / '.ci/base'
    head = git('rev-parse', 'HEAD').strip()
    common = git('merge-base', 'HEAD', 'origin/main').strip()
    names = [commit] if commit else [given.read_text().strip() if given.is_file() else '', git('describe', '--tags', '--abbrev=0').strip(),
                                     common if common != head else '', 'HEAD^']
    found = (git('rev-parse', '--verify', '--quiet', name + '^{commit}').strip() for name in names if name)
    return next((it for it in found if it), '')


def edits_of(crate: str) -> list[str]:
    """Returns the names of a crate's edits in attack/."""
    return sorted(it.stem for it in (TOP / 'attack' / crate).glob('*.edit'))


def chosen(edits: dict[str, list[str]], most: int, salt: str) -> dict[str, list[str]]:
    """Returns some edits, at most a number of them: of each crate the first, then of each the second, and so on, in an order that depends on the salt."""
    def key(pair: tuple[int, str, str]) -> tuple[int, str]:
        return pair[0], hashlib.sha256(f'{salt} {pair[1]}/{pair[2]}'.encode()).hexdigest()

    ranked = {crate: sorted(names, key=lambda name: key((0, crate, name))) for crate, names in edits.items()}
    first = sorted(((rank, crate, name) for crate, names in ranked.items() for rank, name in enumerate(names)), key=key)[:most]
    return {crate: sorted(name for _, of, name in first if of == crate) for crate in edits if any(of == crate for _, of, _ in first)}


def kind_of(said: str) -> str:
    """Returns what `rt` found of an edit: `refused`, `less` where that says less of the contract, `missed` or `bad`."""
    if said.startswith('refused'):
        return 'less' if re.match(r'refused, as it must be \(only ', said) else 'refused'
    return 'missed' if said.startswith('NOT REFUSED') else 'bad'


def results_of(text: str) -> dict[str, str]:
    """Returns the last thing that was said of each edit, by CRATE/NAME."""
    return {found[1]: found[2] for found in map(RESULT.match, text.splitlines()) if found}


def copied(to: pathlib.Path, edits: dict[str, list[str]]) -> None:
    """Copies the repository without what proofs left, with these edits of attack/ in the place of those of the gate."""
    leave = shutil.ignore_patterns('out', '.git', 'must-fail', 'bench_scans', 'target', 'fuzz_failures', '__pycache__', '*.log')
    shutil.copytree(TOP, to, ignore=leave, symlinks=True)
    for crate, names in edits.items():
        (to / 'crates' / crate / 'must-fail').mkdir()
        for name in names:
            shutil.copy(TOP / 'attack' / crate / f'{name}.edit', to / 'crates' / crate / 'must-fail')


def takes_names(help_text: str) -> bool:
    """Returns whether `rt ci` takes names of crates, and so keeps what it proved."""
    return TAKES_NAMES.search(help_text) is not None


def rt_help() -> str:
    done = subprocess.run(['rt', 'help'], stdin=subprocess.DEVNULL, capture_output=True, text=True, errors='replace')
    return done.stdout + done.stderr


def tried(room: pathlib.Path, names: list[str]) -> dict[str, str]:
    """Runs the gate in the copy and returns what was said of each edit."""
    # (under CI=true, rt ci takes no names, since a run with some is not the gate; here it comes beside the gate)
    where = {name: value for name, value in os.environ.items() if name != 'CI'}
    subprocess.run([sys.executable, str(TOP / 'dev/progress.py'), str(LOG), 'rt', 'ci', *names], cwd=room, stdin=subprocess.DEVNULL, env=where)
    return results_of(LOG.read_text(encoding='utf-8', errors='replace'))


def tried_alone(room: pathlib.Path, crate: str) -> str:
    """Tries the edits of one crate in the copy by `rt must-fail`, and returns what was said."""
    print(f"trying {len(list((room / 'crates' / crate / 'must-fail').glob('*.edit')))} wrong bodies of {crate}", flush=True)
    done = subprocess.run(['rt', 'must-fail', crate], cwd=room, stdin=subprocess.DEVNULL, stdout=subprocess.PIPE, stderr=subprocess.STDOUT,
                          text=True, errors='replace')
    with open(LOG, 'a', encoding='utf-8') as log:
        log.write(f'== {crate}\n{done.stdout}')
    return done.stdout


def tried_side_by_side(room: pathlib.Path, crates: list[str]) -> dict[str, str]:
    """Tries the edits of some crates in a copy that has what was built here, and returns what was said of each edit."""
    for out in TOP.glob('crates/*/out'):
        (room / out.relative_to(TOP)).symlink_to(out)
    LOG.write_text('')
    with concurrent.futures.ThreadPoolExecutor(SIDE_BY_SIDE) as pool:
        return results_of('\n'.join(pool.map(lambda crate: tried_alone(room, crate), crates)))


def line_of(crate: str, said: dict[str, str]) -> str:
    """Returns what is said of a crate."""
    count = collections.Counter(map(kind_of, said.values()))
    less = f" ({count['less']} by a name or a limit alone)" if count['less'] else ''
    return (f"{crate}: {len(said)} tried, {count['refused'] + count['less']} refused{less}, {count['missed']} not refused, "
            f"{count['bad']} bad")


def edits_with(names: list[str]) -> tuple[dict[str, list[str]], list[str]]:
    """Returns the edits of all crates that have some, lowest first, or of those that are named; and the names without edits."""
    edits = {it: edits_of(it) for it in uses_of((TOP / 'crates.txt').read_text()) if edits_of(it)}
    return {it: of for it, of in edits.items() if not names or it in names}, [it for it in names if it not in edits]


def changed_since(base: str) -> dict[str, list[str]]:
    """Returns the edits that are tried of crates whose clauses or definitions differ from a commit, and says how many there are."""
    if not base:
        print('attack: no history is here, so nothing tells which contracts have changed: no more mutants are tried')
        return {}
    changed = changed_in(git('diff', '--unified=0', base, '--', 'crates'))
    edits = {crate: names for crate, names in edits_with([])[0].items() if crate in changed}
    some = chosen(edits, MOST, base)
    left, tries = (sum(map(len, it.values())) for it in (edits, some))
    print(f'attack: contracts of {len(changed)} crates differ from {base[:8]}, which have {left} more mutants; {tries} of these are tried', flush=True)
    return some


def main() -> int:
    names = sys.argv[1:]
    if names[:1] == ['changed']:
        edits, unknown = changed_since(base_of(''.join(names[1:2]))), []
        if not edits:
            return 0
    else:
        edits, unknown = edits_with(names)
    if unknown:
        print(f"attack: no edits of {' '.join(unknown)} stand in attack/", file=sys.stderr)
        return 2
    began = time.monotonic()
    counts: collections.Counter[str] = collections.Counter()
    with tempfile.TemporaryDirectory(prefix='attack-') as place:
        room = pathlib.Path(place) / 'copy'
        copied(room, edits)
        found = tried(room, names and list(edits)) if takes_names(rt_help()) else tried_side_by_side(room, list(edits))
    for crate, of in edits.items():
        said = {name: found.get(f'{crate}/{name}', f'NOT TRIED: {LOG.name} says why') for name in of}
        counts.update(kind_of(it) for it in said.values())
        for name, text in said.items():
            if kind_of(text) in ('missed', 'bad'):
                print(f'  {crate}/{name}: {text}')
        print(line_of(crate, said))
    refused, tries = counts['refused'] + counts['less'], sum(counts.values())
    print(f'attack: {refused} of {tries} refused, {int((time.monotonic() - began) / 60)} min; the full text is in {LOG.name}')
    if refused == tries and not names and not git('status', '--porcelain'):
        (TOP / '.ci/base').write_text(git('rev-parse', 'HEAD'))
    return 0 if refused == tries else 1


if __name__ == '__main__':
    begun(__doc__)
    sys.exit(main())
