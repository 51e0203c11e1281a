"""Output files: written beside their places under random names, and moved there when they are whole. A run that ends early leaves what was there.

A file is created exclusively, synced and renamed over its place. So nothing is written through a link: a link at the place is replaced. A folder or
a device at the place is refused. Names of files that are not whole are kept in `LEFT`, for a run that is stopped.

Names: whole_file (a text file) · whole_bytes (a binary one) · passing_file, passing_folder (removed at the end) · new_folder (filled, then moved to its
place) · place_all (moves files to their places) · refuse_place, refuse_inputs (stop before a file is lost) · remove_left (what a stopped run leaves) ·
user_names (messages without inner names).
"""
from __future__ import annotations

import contextlib
import errno
import os
import re
import secrets
import shutil
import stat
from typing import Any, Callable, Iterable, Iterator, List, Mapping, Sequence, Set, TextIO, Tuple, TypeVar
from typing import BinaryIO

from recon.toolbox.ply_text import CHUNK, Refusal

Made = TypeVar('Made')
# paths with random names, which are of this run
LEFT: Set[str] = set()
INNER = re.compile(r'(?:[^\s\'"]*/)?\.recon-[0-9a-f]{16}/?')
CREATING = os.O_CREAT | os.O_EXCL | os.O_RDWR | getattr(os, 'O_NOFOLLOW', 0) | getattr(os, 'O_CLOEXEC', 0)


def user_names(text: str) -> str:
    """Returns a message without the names of folders that a run makes for itself."""
    return INNER.sub('', text)


def refuse_place(path: str) -> None:
    """Raises `Refusal` if there is something at this path that a file cannot replace: a folder or a device."""
    if not os.path.basename(path):
        raise Refusal(f'{path or "an empty name"} is not the name of a file')
    try:
        mode = os.stat(path).st_mode
    except FileNotFoundError:
        return
    if not stat.S_ISREG(mode):
        raise Refusal(f'{path} is {"a folder" if stat.S_ISDIR(mode) else "no regular file"}: choose another name')


def refuse_inputs(inputs: Iterable[str], written: Iterable[str]) -> None:
    """Raises `Refusal` if one of the inputs is a file that would be written over, or removed."""
    places = {os.path.realpath(path) for path in written}
    for path in inputs:
        if os.path.realpath(path) in places:
            raise Refusal(f'{path} is an input, and would be overwritten: choose another name for the output')


def named_so(error: OSError, path: str) -> OSError:
    """Returns the same error with the name that the user knows."""
    return OSError(error.errno, error.strerror, path)


def created(folder: str, make: Callable[[str], Made], path: str) -> Tuple[str, Made]:
    """Makes a file or a folder under a new random name, and returns the name and what `make` returned. An error names `path`."""
    while True:
        name = os.path.join(folder, f'.recon-{secrets.token_hex(8)}')
        LEFT.add(name)
        try:
            return name, make(name)
        except FileExistsError:
            LEFT.discard(name)
        except OSError as error:
            LEFT.discard(name)
            raise named_so(error, path) from None


def created_file(path: str, mode: int = 0o666) -> Tuple[str, int]:
    """Creates a file beside this path, and returns its name and its descriptor."""
    return created(os.path.dirname(path), lambda name: os.open(name, CREATING, mode), path)


def renamed(start: str, end: str) -> None:
    """Renames a file, over what is there. An error names its place."""
    try:
        os.replace(start, end)
    except OSError as error:
        raise named_so(error, end) from None
    LEFT.discard(start)


def sync_folder(path: str) -> None:
    """Writes a folder's names to the disk, where the file system can."""
    with contextlib.suppress(OSError):
        descriptor = os.open(path or '.', os.O_RDONLY)
        try:
            os.fsync(descriptor)
        finally:
            os.close(descriptor)


def removed(path: str) -> None:
    """Removes a file or a folder of this run, if it is there."""
    if os.path.isdir(path) and not os.path.islink(path):
        shutil.rmtree(path, ignore_errors=True)
    else:
        with contextlib.suppress(OSError):
            os.unlink(path)
    LEFT.discard(path)


def remove_left() -> None:
    """Removes all that this run has not moved to its place."""
    for path in list(LEFT):
        removed(path)


@contextlib.contextmanager
def whole(path: str, mode: int, how: Mapping[str, Any]) -> Iterator[Any]:
    """Yields a file that `open` opens in this way, and moves it to its place when it is whole."""
    refuse_place(path)
    name, descriptor = created_file(path, mode)
    try:
        with open(descriptor, **how) as file:
            yield file
            file.flush()
            os.fsync(descriptor)
        renamed(name, path)
    except BaseException:
        removed(name)
        raise
    sync_folder(os.path.dirname(path))


@contextlib.contextmanager
def whole_file(path: str, mode: int = 0o666) -> Iterator[TextIO]:
    """Yields a text file, in ASCII, which is moved to its place when it is whole."""
    with whole(path, mode, {'mode': 'w', 'encoding': 'ascii', 'newline': '\n', 'buffering': CHUNK}) as file:
        yield file


@contextlib.contextmanager
def whole_bytes(path: str, mode: int = 0o666) -> Iterator[BinaryIO]:
    """Yields a binary file, which is moved to its place when it is whole."""
    with whole(path, mode, {'mode': 'wb'}) as file:
        yield file


@contextlib.contextmanager
def passing_file(path: str) -> Iterator[TextIO]:
    """Yields a text file beside this path, to write and read, which is removed at the end."""
    name, descriptor = created_file(path, 0o600)
    try:
        with open(descriptor, 'w+', encoding='ascii', newline='\n', buffering=CHUNK) as file:
            yield file
    finally:
        removed(name)


@contextlib.contextmanager
def passing_folder(path: str) -> Iterator[str]:
    """Yields a folder beside this path, which is removed at the end with all that is in it."""
    name, _ = created(os.path.dirname(path), lambda name: os.mkdir(name, 0o700), path)
    try:
        yield name
    finally:
        removed(name)


@contextlib.contextmanager
def new_folder(path: str) -> Iterator[str]:
    """Yields a folder that is filled, and moved to its place when it is whole. Raises `Refusal` if there is something at its place."""
    path = path.rstrip('/')
    if os.path.lexists(path):
        raise Refusal(f'{path} exists already: choose a new folder')
    name, _ = created(os.path.dirname(path), os.mkdir, path)
    try:
        yield name
        try:
            os.rename(name, path)
        except OSError as error:
            raise named_so(error, path) from None
        LEFT.discard(name)
    except BaseException:
        removed(name)
        raise
    sync_folder(os.path.dirname(path))


def folders_for(path: str) -> List[str]:
    """Makes the folders that a file needs, and returns those that were not there, outer ones first."""
    missing: List[str] = []
    folder = os.path.dirname(path)
    while folder and not os.path.isdir(folder):
        missing.insert(0, folder)
        folder = os.path.dirname(folder)
    for number, folder in enumerate(missing):
        try:
            os.mkdir(folder)
        except OSError as error:
            drop_folders(missing[:number])
            raise named_so(error, folder) from None
    return missing


def drop_folders(folders: Sequence[str]) -> None:
    """Removes empty folders, the last one first."""
    for folder in reversed(folders):
        with contextlib.suppress(OSError):
            os.rmdir(folder)


def put_beside(start: str, end: str) -> str:
    """Moves a file beside its place, synced and under a random name, which is returned. From another file system it is copied."""
    name, descriptor = created_file(end)
    try:
        with open(descriptor, 'wb') as file, open(start, 'rb') as source:
            try:
                os.fsync(source.fileno())
                os.replace(start, name)
            except OSError as error:
                if error.errno != errno.EXDEV:
                    raise
                shutil.copyfileobj(source, file, CHUNK)
                os.fchmod(descriptor, stat.S_IMODE(os.fstat(source.fileno()).st_mode))
                file.flush()
                os.fsync(descriptor)
    except OSError as error:
        removed(name)
        raise named_so(error, end) from None
    return name


def place_all(files: Mapping[str, str], stale: Iterable[str] = ()) -> None:
    """Moves files, which are keys, to their places, and removes `stale` files. If one cannot be put beside its place, nothing at any place is
    changed."""
    beside: List[Tuple[str, str]] = []
    folders: List[str] = []
    try:
        for end in files.values():
            folders += folders_for(end)
            refuse_place(end)
        for start, end in files.items():
            beside.append((put_beside(start, end), end))
        for name, end in beside:
            renamed(name, end)
    except BaseException:
        for name, _ in beside:
            removed(name)
        drop_folders(folders)
        raise
    for path in stale:
        if os.path.islink(path) or os.path.isfile(path):
            os.unlink(path)
    for folder in sorted({os.path.dirname(end) for end in (*files.values(), *stale)}):
        sync_folder(folder)
