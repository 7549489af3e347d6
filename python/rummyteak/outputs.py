"""Writes what the command gives: to standard output, to standard error, and to files, which change as a whole or not at all."""

from __future__ import annotations

import errno
import os
import re
import signal
import stat
import sys
from contextlib import contextmanager, suppress
from typing import Any, Iterator, List, Optional, Sequence, Tuple

# Names of what is open already: its number.
_OPEN = re.compile(r"/dev/std(in|out|err)|/(?:dev|proc/self)/fd/(\d+)")


def _open_already(name: str) -> Optional[int]:
    """The number of what such a name stands for, as 1 for /dev/stdout; None for any other."""
    found = _OPEN.fullmatch(name)
    if not found:
        return None
    return {"in": 0, "out": 1, "err": 2}[found.group(1)] if found.group(1) else int(found.group(2))


def is_standard_output(name: str) -> bool:
    """Whether an output is standard output, by whatever name."""
    return name == "-" or _open_already(name) == 1


def is_standard_input(name: str) -> bool:
    """Whether an input is standard input, by whatever name."""
    return name == "-" or _open_already(name) == 0


def _file(name: str, standard: int) -> Any:
    """What is the same for two names of one file, through links too: device and number of one that is there, the place of one that is not yet; None for what is no file, as a terminal or a pipe. `-` is
    what is open under the number `standard`."""
    number = standard if name == "-" else _open_already(name)
    try:
        found = os.stat(name) if number is None else os.fstat(number)
    except OSError:
        return os.path.realpath(name) if number is None else None
    return (found.st_dev, found.st_ino) if stat.S_ISREG(found.st_mode) else None


def same_file(inputs: Sequence[str], outputs: Sequence[Tuple[str, str]]) -> str:
    """Which two are the same file, in words; empty where none are. An output is the option's name and the file's. What goes to no file goes to standard output."""
    there = [("an input" if len(inputs) > 1 else "the input", _file(name, 0)) for name in inputs]
    places = [("standard output", _file("-", 1))] + [(option, _file(name, 1)) for option, name in outputs if not is_standard_output(name)]
    for k, (option, file) in enumerate(places):
        for other, same in [*there, *places[:k]]:
            if file is not None and file == same:
                return f"{option} and {other} are the same file"
    return ""


# ---- standard output and standard error


@contextmanager
def _named(name: str) -> Iterator[None]:
    """An error with the name that the caller knows."""
    try:
        yield
    except OSError as error:
        raise OSError(error.errno, error.strerror, name) from error


def tell(text: str) -> None:
    """To standard output, at once. What can't be written is not tried again when the program ends."""
    with _named("standard output"):
        if sys.stdout is None:
            raise OSError(errno.EBADF, os.strerror(errno.EBADF))
        try:
            sys.stdout.write(text)
            sys.stdout.flush()
        except OSError:
            os.dup2(os.open(os.devnull, os.O_WRONLY), sys.stdout.fileno())
            raise


def say(text: str) -> None:
    """To standard error. Where it can't be written, the exit status is what it would be."""
    with suppress(AttributeError, OSError, ValueError):
        sys.stderr.write(text)
        sys.stderr.flush()


# ---- files


def _beside(name: str, content: bytes) -> Tuple[str, str]:
    """Writes a new file in the folder of the named one: where it is, and where it belongs. A file that was there keeps its rights, and one that may not be written is not replaced."""
    place, old = os.path.realpath(name), None
    with suppress(FileNotFoundError):
        old = os.stat(name)
    if name.endswith(os.sep) or (old and stat.S_ISDIR(old.st_mode)):
        raise OSError(errno.EISDIR, os.strerror(errno.EISDIR))
    if old and not os.access(place, os.W_OK):
        raise OSError(errno.EACCES, os.strerror(errno.EACCES))
    folder = os.stat(os.path.dirname(place))
    if old and folder.st_mode & stat.S_ISVTX and os.geteuid() not in (0, old.st_uid, folder.st_uid):
        # in such a folder, as /tmp, only these may move a file into the place of another
        raise OSError(errno.EPERM, os.strerror(errno.EPERM))
    new = os.path.join(os.path.dirname(place), f".rummyteak-{os.getpid()}-{os.urandom(4).hex()}")
    number = os.open(new, os.O_WRONLY | os.O_CREAT | os.O_EXCL, 0o666)
    try:
        with open(number, "wb") as file:
            if old:
                with suppress(OSError):
                    os.fchown(number, old.st_uid, old.st_gid)
                os.fchmod(number, stat.S_IMODE(old.st_mode))
            file.write(content)
            file.flush()
            os.fsync(number)
    except BaseException:
        with suppress(OSError):
            os.unlink(new)
        raise
    return new, place


def _is_file(name: str) -> bool:
    """Whether a name is a file's, or will be: not that of a device or a pipe, nor of what is open already."""
    if _open_already(name) is not None:
        return False
    try:
        found = os.stat(name).st_mode
    except OSError:
        return True
    return stat.S_ISREG(found) or stat.S_ISDIR(found)


@contextmanager
def _uninterrupted() -> Iterator[None]:
    """Signals that interrupt or end a run come afterwards."""
    before = signal.pthread_sigmask(signal.SIG_BLOCK, (signal.SIGINT, signal.SIGTERM, signal.SIGHUP))
    try:
        yield
    finally:
        signal.pthread_sigmask(signal.SIG_SETMASK, before)


def put(contents: Sequence[Tuple[str, bytes]]) -> None:
    """Writes each file beside its place, then moves them there, so that no old file changes where one of them can't be written there; an OSError has its name. What is no file is written to as it is. A run that is
    killed between two moves, or where a move fails, leaves what was moved before."""
    waiting: List[Tuple[str, str, str]] = []
    try:
        # the files first: a device or a pipe can't take back what was written to it
        for name, content in sorted(contents, key=lambda item: not _is_file(item[0])):
            with _named(name):
                if _is_file(name):
                    waiting.append((name, *_beside(name, content)))
                    continue
                number = _open_already(name)
                with open(name if number is None else os.dup(number), "wb") as stream:
                    stream.write(content)
        with _uninterrupted():
            while waiting:
                name, new, place = waiting[0]
                with _named(name):
                    os.replace(new, place)
                del waiting[0]
    finally:
        for _, new, _ in waiting:
            with suppress(OSError):
                os.unlink(new)
