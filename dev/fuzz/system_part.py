"""Faults of the system: calls that fail, limits, full disks, odd places for files, pipes, runs that are stopped and ended.

After status 4 the first output that is not whole is as it was or a prefix of its text, those after it are as they were, and a prefix of the
line is printed only if all are whole; after 1, 2, 3 and 5 all files are as they were; inputs never change (docs/verification/guarantees.md)."""
from __future__ import annotations

import itertools
import os
import random
import re
import resource
import shutil
import signal
import subprocess
import tempfile
import threading
import time
from typing import Any, Callable, Optional, Sequence

from model.scans import Row, Scan, push_scan

from .judge import OLD, texts_of
from .runs import ENVIRONMENT, Done, Files, Folder
from .shapes import Draw, far_corners, shell
from .small_files import SCANS
from .tally import Context, Tally

ERRORS = {'openat': ['ENOENT', 'EACCES', 'EMFILE', 'ENFILE', 'EIO', 'ENOMEM', 'ELOOP', 'EROFS', 'ENOSPC'],
          'read': ['EIO', 'EISDIR', 'EAGAIN', 'EBADF', 'ENOMEM', 'ESTALE'],
          'write': ['ENOSPC', 'EIO', 'EDQUOT', 'EFBIG', 'EPIPE', 'EAGAIN', 'EBADF', 'ENOMEM'],
          'fdatasync': ['EIO', 'ENOSPC', 'EDQUOT', 'EBADF', 'EROFS', 'EINVAL', 'ENOSYS', 'EOPNOTSUPP', 'ENOMEM'],
          'close': ['EIO', 'ENOSPC', 'EINTR', 'EBADF']}
NOTHING_TO_PUT = ('EINVAL', 'ENOSYS', 'EOPNOTSUPP')
OUTPUTS = ['x1', 'x2', 'x3']
STRACE = shutil.which('strace') or ''
# A library that counts the allocations that the program itself asks for, lets the one of the number in FAIL_ALLOC fail, and makes the file
# FAIL_TOLD then.
SHIM = r"""
#define _GNU_SOURCE
#include <fcntl.h>
#include <link.h>
#include <stdlib.h>
extern void *__libc_malloc(size_t), *__libc_realloc(void *, size_t);
static unsigned long low = -1ul, high, left;
static int place(struct dl_phdr_info *info, size_t size, void *data) {
    for (int k = 0; k < info->dlpi_phnum; k++) {
        unsigned long from = info->dlpi_addr + info->dlpi_phdr[k].p_vaddr, to = from + info->dlpi_phdr[k].p_memsz;
        if (info->dlpi_phdr[k].p_type != PT_LOAD) continue;
        if (from < low) low = from;
        if (to > high) high = to;
    }
    return 1;
}
__attribute__((constructor)) static void start(void) {
    dl_iterate_phdr(place, 0);
    left = strtoul(getenv("FAIL_ALLOC"), 0, 10);
}
static int fails(void *caller) {
    unsigned long at = (unsigned long)caller;
    if (at < low || at >= high || !left || --left) return 0;
    return creat(getenv("FAIL_TOLD"), 0600) >= 0;
}
void *malloc(size_t size) { return fails(__builtin_return_address(0)) ? 0 : __libc_malloc(size); }
void *realloc(void *old, size_t size) { return fails(__builtin_return_address(0)) ? 0 : __libc_realloc(old, size); }
"""


class Command:
    """A command with its inputs, its outputs in their order, and what they hold if all goes well."""

    def __init__(self, context: Context, folder: Folder, name: str, words: Sequence[str], files: Files, outputs: Sequence[str]) -> None:
        self.name, self.words, self.files, self.outputs = name, list(words), files, list(outputs)
        self.argv = [context.recon, *words]
        folder.put(files)
        self.good = folder.run(self.argv)
        after = folder.look()
        self.whole = {output: after.get(output) for output in outputs}

    def before(self, draw: Draw) -> Files:
        """Returns the inputs, and some outputs of an earlier run."""
        return {**self.files, **{output: OLD for output in self.outputs if draw.random() < 0.5}}


def larger_scan(points: int) -> bytes:
    """Points round a ball, each seen from the corner nearest to it."""
    draw = random.Random(5)
    places = list(dict.fromkeys(shell(draw, points)))
    far = far_corners(places)
    nearest = [max(range(8), key=lambda k: sum(a * b for a, b in zip(far[k], p))) for p in places]
    return push_scan(Scan([Row(p, 1, (k,)) for p, k in zip(places, nearest)], far))


def commands(context: Context, folder: Folder, points: int = 0) -> list[Command]:
    data, options = SCANS['text']
    if points:
        data, options = larger_scan(points), []
        folder.put({'in': data})
        folder.run([context.recon, 'build', 'in', 'm', 'c'])
        built = folder.look()
        mesh, cert = built['m'], built['c']
    else:
        mesh, _, cert = texts_of(data, options)
    base = {'in': data, 'm': mesh, 'c': cert, 'q': b'1 2 3 0 0 0 9 9 9\n' * (4000 if points else 1)}
    sweep = [o for o in options if not o.startswith('smooth')]
    made: list[tuple[str, list[str], list[str], int]] = [
        ('cells', ['cells', 'in', 'x1'], ['in'], 1), ('build', ['build', 'in', 'x1', 'x2', *options], ['in'], 2),
        ('check', ['check', 'in', 'm', 'c', *options], ['in', 'm', 'c'], 0),
        ('upgrade', ['upgrade', 'in', 'm', 'c', 'x1', *options], ['in', 'm', 'c'], 1), ('ask', ['ask', 'in', 'q', 'x1', *options], ['in', 'q'], 1),
        ('sweep', ['sweep', 'in', '0', '1', '3', *OUTPUTS, *sweep], ['in'], 3), ('slice', ['slice', 'm', '0', 'x1'], ['m'], 1),
        ('export', ['export', 'm', *OUTPUTS], ['m'], 3), ('demo', ['demo', '5', '7'], [], 0)]
    found = [Command(context, folder, name, words, {k: base[k] for k in inputs}, OUTPUTS[:n]) for name, words, inputs, n in made]
    if not points:
        found += [Command(context, folder, 'a mesh that is rejected', ['check', 'in', 'm', 'c', *options], {**base, 'm': mesh + b'x'}, []),
                  Command(context, folder, 'a scan that is refused', ['build', 'in', 'x1', 'x2'], {'in': data[:-3] + b'x\n'}, OUTPUTS[:2]),
                  Command(context, folder, 'points that are refused', ['ask', 'in', 'q', 'x1'], {'in': data, 'q': b'1 2'}, OUTPUTS[:1])]
    return found


def wrong_outputs(command: Command, before: Files, after: Files, done: Done) -> Optional[str]:
    """Returns what is wrong after status 4."""
    complete = True
    for k, output in enumerate(command.outputs):
        now, whole, was = after.get(output), command.whole[output], before.get(output)
        if complete and whole is not None and now == whole:
            continue
        is_prefix = complete and now is not None and whole is not None and whole.startswith(now)
        if now != was and not is_prefix:
            return f'output {k} is {(now or b"")[:60]!r}'
        complete = False
    if done.out and (not complete or not command.good.out.startswith(done.out)):
        return f'printed {done.out!r}, outputs complete: {complete}'
    return None


def wrong_in(command: Command, before: Files, after: Files, done: Done, statuses: Sequence[Optional[int]]) -> Optional[str]:
    """Returns what of the promise does not hold."""
    if done.status not in statuses or b'panicked' in done.err:
        return f'{done}, wanted status {statuses}'
    for name in set(before) | set(after):
        if name not in command.outputs and after.get(name) != before.get(name):
            return f'the file {name} changed'
    if done.status == command.good.status:
        right = command.whole if command.good.status == 0 else {output: before.get(output) for output in command.outputs}
        wrong = [output for output in command.outputs if after.get(output) != right[output]]
        return f'outputs {wrong}, printed {done.out!r}' if wrong or done.out != command.good.out else None
    if done.status in (1, 2, 3, 5):
        return None if after == before and not done.out.startswith(b'points') else f'files or line after {done}'
    return wrong_outputs(command, before, after, done)


Setup = Callable[[], Any]


class Part:
    """The trials, each for some time."""

    def __init__(self, context: Context, tally: Tally) -> None:
        self.context, self.tally, self.draw, self.folder = context, tally, context.draw, Folder()
        self.small = commands(context, self.folder)
        self.large = commands(context, self.folder, 700)
        self.place = tempfile.mkdtemp(prefix='recon_fuzz_places_')

    def judge(self, trial: str, command: Command, before: Files, done: Done, statuses: Sequence[Optional[int]], how: Sequence[str] = (),
              after: Optional[Files] = None) -> None:
        """`how` is what stands before the command to run it so again."""
        after = self.folder.look() if after is None else after
        self.tally.runs += 1
        wrong = wrong_in(command, before, after, done, statuses)
        if wrong:
            self.tally.fail(f'{trial}, {command.name}', [*how, *command.argv], before, wrong)

    def limited(self, trial: str, command: Command, setup: Setup, statuses: Sequence[Optional[int]], how: Sequence[str]) -> None:
        before = command.before(self.draw)
        self.folder.put(before)
        self.judge(trial, command, before, self.folder.limited(command.argv, setup), statuses, how)

    # Calls that fail.

    def calls_of(self, command: Command) -> list[tuple[str, int, str]]:
        """Returns the calls of a command after its loader: the name, the number among its kind, and what follows."""
        log = os.path.join(self.place, 'calls')
        self.folder.put(command.files)
        self.folder.run([STRACE, '-qq', '-s', '64', '-e', 'trace=' + ','.join(ERRORS), '-o', log, *command.argv])
        self.folder.look()
        with open(log, encoding='utf-8', errors='replace') as file:
            calls = [found.groups() for found in map(re.compile(r'(\w+)\((.*)').match, file) if found]
        first = next((k for k, (name, rest) in enumerate(calls) if name == 'openat' and any(f'"{n}"' in rest for n in command.files)), None)
        if first is None:
            first = next((k for k, (name, _) in enumerate(calls) if name == 'write'), 0)
        names = [name for name, _ in calls]
        return [(name, names[:k + 1].count(name), rest) for k, (name, rest) in enumerate(calls) if k >= first and name in ERRORS]

    def faults(self) -> list[tuple[Command, str, str, Sequence[Optional[int]]]]:
        """Returns each way in which each call may fail, and the status that follows."""
        found: list[tuple[Command, str, str, Sequence[Optional[int]]]] = []
        for command in self.small:
            for name, number, rest in self.calls_of(command):
                is_told, good = name == 'write' and rest.startswith('2,'), (command.good.status,)
                for error in ERRORS[name]:
                    is_lost = is_told or name == 'close' or name == 'fdatasync' and error in NOTHING_TO_PUT
                    found.append((command, name, f'error={error}:when={number}', good if is_lost else (4,)))
                if not is_told and name != 'close':
                    found.append((command, name, f'error=EINTR:when={number}', good))
        return found

    def calls(self, until: float) -> None:
        """Each call of each command fails, in each way."""
        traced = subprocess.run([STRACE, '-qq', '-o', '/dev/null', '/bin/true'], capture_output=True) if STRACE else None
        if traced is None or traced.returncode != 0:
            self.tally.note('no strace: calls do not fail')
            return
        todo, tried = self.context.share(self.faults()), 0
        for command, name, fault, statuses in todo:
            if time.monotonic() > until:
                break
            how = [STRACE, '-qq', '-o', '/dev/null', '-e', 'trace=' + name, '-e', f'inject={name}:{fault}']
            before = command.before(self.draw)
            self.folder.put(before)
            self.judge('a call fails', command, before, self.folder.run([*how, *command.argv], 60), statuses, how)
            tried += 1
        self.tally.note(f'{100 * tried // max(1, len(todo))} % of the calls')

    # Allocations that fail.

    def allocations(self, until: float) -> None:
        """Each allocation of each command fails: status 5, or 4 where a call of the system had no memory, or the command found another way."""
        shim, told = os.path.join(self.place, 'shim.so'), os.path.join(self.place, 'told')
        compiled = shutil.which('cc') and subprocess.run(['cc', '-O2', '-shared', '-fPIC', '-x', 'c', '-', '-o', shim], input=SHIM.encode(), capture_output=True)
        if not compiled or compiled.returncode != 0:
            self.tally.note('no C compiler: allocations do not fail')
            return
        for command in self.context.share(self.small):
            for number in itertools.count(1):
                how = ['env', f'FAIL_ALLOC={number}', f'FAIL_TOLD={told}', f'LD_PRELOAD={shim}']
                before = command.before(self.draw)
                self.folder.put(before)
                done, after = self.folder.run(['/usr/bin/env', *how[1:], *command.argv]), self.folder.look()
                if not os.path.exists(told) or time.monotonic() > until:
                    break
                os.unlink(told)
                self.judge('an allocation fails', command, before, done, (5, 4, command.good.status), how, after)

    # Limits.

    def file_sizes(self, until: float) -> None:
        """ulimit -f, with SIGXFSZ as it is and ignored."""
        while time.monotonic() < until:
            command = self.draw.choice(self.small + self.large)
            sizes = [len(text) for text in command.whole.values() if text] + [0, 1, 4096, 65536]
            size = max(0, self.draw.choice(sizes) + self.draw.choice([0, 0, -1, 1, self.draw.randint(-5000, 5000)]))
            is_ignored = self.draw.random() < 0.6

            def setup(size: int = size, is_ignored: bool = is_ignored) -> None:
                signal.signal(signal.SIGXFSZ, signal.SIG_IGN if is_ignored else signal.SIG_DFL)
                resource.setrlimit(resource.RLIMIT_FSIZE, (size, size))

            too_long = command.good.status == 0 and any(text and len(text) > size for text in command.whole.values())
            before = {**command.files, **{output: OLD[:min(size, 3000)] for output in command.outputs if self.draw.random() < 0.5}}
            self.folder.put(before)
            done = self.folder.limited(command.argv, setup)
            if too_long and not is_ignored and done.status == -signal.SIGXFSZ:
                done = done._replace(status=4)
            self.judge('limit of files', command, before, done, (4,) if too_long else (command.good.status,), ['prlimit', f'--fsize={size}'])

    def memory(self, until: float) -> None:
        """ulimit -v: status 5, or the work is done; below some size the loader itself ends."""
        while time.monotonic() < until:
            command = self.draw.choice(self.small + self.large)
            size = self.draw.randint(7 << 8, 40 << 8) << 12

            def setup(size: int = size) -> None:
                resource.setrlimit(resource.RLIMIT_AS, (size, size))

            self.limited('limit of memory', command, setup, (5, command.good.status), ['prlimit', f'--as={size}'])

    def descriptors(self, until: float) -> None:
        """ulimit -n, a small stack, no processes."""
        kinds = [('nofile', resource.RLIMIT_NOFILE, (4, 5, 6)), ('stack', resource.RLIMIT_STACK, (64 << 10, 256 << 10)),
                 ('nproc', resource.RLIMIT_NPROC, (0,)), ('memlock', resource.RLIMIT_MEMLOCK, (0,))]
        while time.monotonic() < until:
            name, kind, values = self.draw.choice(kinds)
            value, command = self.draw.choice(values), self.draw.choice(self.small + self.large)

            def setup(kind: int = kind, value: int = value) -> None:
                resource.setrlimit(kind, (value, value))

            statuses = (4, command.good.status) if name == 'nofile' else (command.good.status,)
            self.limited('another limit', command, setup, statuses, ['prlimit', f'--{name}={value}'])

    def disks(self, until: float) -> None:
        """A small disk that becomes full."""
        disk = os.path.join(self.place, 'disk')
        os.makedirs(disk, exist_ok=True)
        while time.monotonic() < until:
            command = self.draw.choice([c for c in self.small + self.large if c.outputs and c.good.status == 0])
            need = sum(-(-len(text or b'') // 4096) for text in command.whole.values())
            pages = self.draw.randint(1, need + 3)
            if subprocess.run(['mount', '-t', 'tmpfs', '-o', f'size={4 * pages}k', 'none', disk], capture_output=True).returncode:
                self.tally.note('no small disks: mount is not allowed')
                return
            try:
                words = [os.path.join(disk, word) if word in command.outputs else word for word in command.argv]
                self.folder.put(command.files)
                done, after = self.folder.run(words), self.folder.look()
                for output in command.outputs:
                    if os.path.exists(os.path.join(disk, output)):
                        with open(os.path.join(disk, output), 'rb') as file:
                            after[output] = file.read()
            finally:
                subprocess.run(['umount', disk], check=True)
            statuses = (0,) if need + 1 < pages else (4,) if need > pages else (0, 4)
            self.judge('a small disk', command, command.files, done, statuses, [f'disk={pages * 4}k'], after)

    # Places.

    def bad_output(self) -> None:
        """One output cannot be made or written: those before it are whole, the others as they were."""
        command = self.draw.choice([c for c in self.small if c.outputs and c.good.status == 0])
        k, before = self.draw.randrange(len(command.outputs)), command.before(self.draw)
        bad = self.draw.choice(['/dev/full', self.place + '/none/x', self.place, '/proc/x', 'x' * 256, '/proc/version', '/dev/null/x', '/'])
        words = [bad if word == command.outputs[k] else word for word in command.argv]
        self.folder.put(before)
        done, after = self.folder.run(words), self.folder.look()
        self.tally.runs += 1
        wanted = {**before, **{o: command.whole[o] or b'' for o in command.outputs[:k]}}
        if done.status != 4 or done.out or after != wanted or not done.err.startswith(b'recon: '):
            self.tally.fail(f'an output that cannot be written, {command.name}', words, before, f'{done}; files {sorted(after)}')

    def bad_input(self) -> None:
        command = self.draw.choice([c for c in self.small if c.files and c.good.status == 0])
        before, name = command.before(self.draw), self.draw.choice(list(command.files))
        bad = self.draw.choice([self.place + '/none', self.place, '/proc/self/mem', 'in/x', 'y' * 300, '/'])
        words = [bad if word == name else word for word in command.argv]
        self.folder.put(before)
        done, after = self.folder.run(words), self.folder.look()
        self.tally.runs += 1
        if done.status != 4 or done.out or after != before:
            self.tally.fail(f'an input that cannot be read, {command.name}', words, before, str(done))

    def pipe_in(self) -> None:
        """An input that is a pipe and comes in pieces."""
        command = self.draw.choice([c for c in self.small if c.files])
        name, path = self.draw.choice(list(command.files)), os.path.join(self.place, 'pipe')
        data, piece = command.files[name], self.draw.choice([1, 7, 64, 4096])
        rest = {n: d for n, d in command.before(self.draw).items() if n != name}
        os.mkfifo(path)

        def feed() -> None:
            try:
                with open(path, 'wb', buffering=0) as file:
                    for at in range(0, len(data), piece):
                        file.write(data[at:at + piece])
            except OSError:
                pass

        feeder = threading.Thread(target=feed, daemon=True)
        feeder.start()
        self.folder.put(rest)
        done = self.folder.run([path if word == name else word for word in command.argv])
        os.close(os.open(path, os.O_RDONLY | os.O_NONBLOCK))       # (so that the feeder ends if nobody has read)
        feeder.join(20)
        os.unlink(path)
        self.judge('an input through a pipe', command, rest, done, (command.good.status,), [f'pipe={name}'])

    def pipe_out(self) -> None:
        """An output that is a pipe with a reader."""
        command = self.draw.choice([c for c in self.small if c.outputs and c.good.status == 0])
        name, path, got = self.draw.choice(command.outputs), os.path.join(self.place, 'pipe'), []
        os.mkfifo(path)

        def drain() -> None:
            with open(path, 'rb') as file:
                got.append(file.read())

        reader = threading.Thread(target=drain, daemon=True)
        reader.start()
        self.folder.put(command.files)
        done = self.folder.run([path if word == name else word for word in command.argv])
        if reader.is_alive() and done.status != 0:
            os.close(os.open(path, os.O_WRONLY | os.O_NONBLOCK))       # (so that the reader ends if nobody has written)
        reader.join(20)
        os.unlink(path)
        self.judge('an output through a pipe', command, command.files, done, (0,), [f'pipe={name}'], {**self.folder.look(), name: b''.join(got)})

    def standard_descriptors(self) -> None:
        """Standard input, output and error closed, full or read-only."""
        command, before = self.draw.choice(self.small), None
        kinds = [self.draw.choice(['fine', 'closed']), *(self.draw.choice(['fine', 'closed', 'full', 'read only']) for _ in range(2))]

        def setup() -> None:
            for descriptor, kind in enumerate(kinds):
                if kind == 'closed':
                    os.close(descriptor)
                elif kind != 'fine':
                    os.dup2(os.open('/dev/full', os.O_WRONLY) if kind == 'full' else os.open(os.devnull, os.O_RDONLY), descriptor)

        before = command.before(self.draw)
        self.folder.put(before)
        done = self.folder.limited(command.argv, setup)
        statuses = (command.good.status,) if kinds[1] == 'fine' else (4,)
        self.judge('standard descriptors', command, before, done, statuses, kinds)

    def places(self, until: float) -> None:
        while time.monotonic() < until:
            self.draw.choice([self.bad_output, self.bad_input, self.pipe_in, self.pipe_out, self.standard_descriptors])()

    # Stops.

    def stops(self, until: float) -> None:
        """Stopped and continued again and again, or ended by a signal."""
        while time.monotonic() < until:
            command, is_ended = self.draw.choice(self.large), self.draw.random() < 0.5
            before = command.before(self.draw)
            self.folder.put(before)
            with tempfile.TemporaryFile() as out:
                process = subprocess.Popen(command.argv, stdout=out, stderr=subprocess.DEVNULL, env=ENVIRONMENT)
                if is_ended:
                    time.sleep(self.draw.random() * 0.06)
                    process.send_signal(self.draw.choice([signal.SIGKILL, signal.SIGTERM, signal.SIGINT]))
                while process.poll() is None and not is_ended:
                    for number, pause in ((signal.SIGSTOP, 0.002), (signal.SIGCONT, 0.003)):
                        process.send_signal(number)
                        time.sleep(self.draw.random() * pause)
                status = process.wait()
                out.seek(0)
                done = Done(4 if is_ended and status < 0 else status, b'' if is_ended and status < 0 else out.read(), b'')
            statuses = (4, command.good.status) if is_ended else (command.good.status,)
            self.judge('ended by a signal' if is_ended else 'stopped and continued', command, before, done, statuses)

    # One file under two names.

    def two_names(self) -> None:
        data, options = SCANS['text']
        mesh, one, cert = texts_of(data, options)

        def is_certificate(text: bytes) -> bool:
            return text.startswith(b'recon certificate 2\n') and text.endswith(b'end\n')

        full = {'in': data, 'm': mesh, 'c': one}
        trials: list[tuple[list[str], Files, dict[str, Callable[[bytes], object]]]] = [
                (['build', 'in', './in', 'c', *options], {'in': data}, {'in': mesh.__eq__, 'c': is_certificate}),
                (['build', 'in', 'm', './m', *options], {'in': data}, {'in': data.__eq__, 'm': is_certificate}),
                (['build', 'in', 'm', './in', *options], {'in': data}, {'in': is_certificate, 'm': mesh.__eq__}),
                (['upgrade', 'in', 'm', 'c', './c', *options], full, {'c': cert.__eq__, 'm': mesh.__eq__, 'in': data.__eq__}),
                (['export', 'm', './m', 'o', 'p'], {'m': mesh}, {'m': mesh.__eq__}),
                (['sweep', 'in', '1', '1', '2', './in', 'o', 'vote=3'], {'in': data}, {'in': mesh.__eq__})]
        for words, files, wanted in trials:
            self.folder.put(files)
            done, after = self.folder.run([self.context.recon, *words]), self.folder.look()
            self.tally.runs += 1
            wrong = [name for name, is_right in wanted.items() if name not in after or not is_right(after[name])]
            if done.status != 0 or wrong:
                self.tally.fail('one file under two names', [self.context.recon, *words], files, f'{done}; wrong: {wrong}')

    def sixty_four(self, until: float) -> None:
        """A sweep into 64 files; one of them cannot be written."""
        data, outputs = SCANS['text'].data, [f'y{k}' for k in range(64)]
        words = [self.context.recon, 'sweep', 'in', '0', '1', '64']
        self.folder.put({'in': data})
        self.folder.run([*words, *outputs])
        whole = self.folder.look()
        for k in self.context.share(range(64)):
            if time.monotonic() > until:
                return
            bad = self.draw.choice(['/dev/full', '/none/x', '.'])
            self.folder.put({'in': data})
            done, after = self.folder.run([*words, *outputs[:k], bad, *outputs[k + 1:]]), self.folder.look()
            self.tally.runs += 1
            if done.status != 4 or done.out or after != {'in': data, **{o: whole[o] for o in outputs[:k]}}:
                self.tally.fail('a sweep of 64', [*words, *outputs[:k], bad, *outputs[k + 1:]], {'in': data}, f'{done}; files {sorted(after)}')

    def run(self) -> None:
        self.two_names()
        trials = [(self.sixty_four, 0.05), (self.calls, 0.35), (self.allocations, 0.15), (self.places, 0.3), (self.file_sizes, 0.3), (self.memory, 0.35), (self.descriptors, 0.2),
                  (self.disks, 0.4), (self.stops, 1.0)]
        for trial, share in trials:
            trial(self.context.until(share))
        shutil.rmtree(self.place)
        self.folder.close()


def run(context: Context, tally: Tally) -> None:
    Part(context, tally).run()
