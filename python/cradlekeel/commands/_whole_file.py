"""A file that is written whole or not at all: under a name of its own first, then put in its place."""

import errno
import os
import secrets
import signal
import stat
from contextlib import contextmanager, suppress

from . import BadFile, write_all

STOPS = {signal.SIGHUP, signal.SIGINT, signal.SIGQUIT, signal.SIGTERM}
NO_LINKS = {errno.EPERM, errno.EMLINK, errno.ENOSYS, errno.EOPNOTSUPP}  # of a file system without links
NO_SYNC = {errno.EACCES, errno.EINVAL, errno.EOPNOTSUPP}  # of a folder that may not be read, or a system that cannot sync one
EXISTS = "the file exists; --replace replaces it"


def check_place(name, replace, read=None):
    """Whether a file could be put there, asked before the work that makes it; `read` has the names of files that are only read, each with
    what a message calls it."""
    folder = os.path.dirname(os.path.realpath(name)) if replace else os.path.dirname(name) or "."
    if not os.path.basename(name):
        raise BadFile(f"{name}: it is a folder")
    with named(name):
        old = found_at(name)
        if old is not None:
            check_old(name, old, replace, read or {})
        elif os.path.lexists(name) and not replace:  # a link to nothing
            raise BadFile(f"{name}: {EXISTS}")
        if found_at(folder) is None:
            raise BadFile(f"{name}: there is no folder {folder}")
        if not os.access(folder, os.W_OK | os.X_OK):
            raise BadFile(f"{name}: no file can be made in its folder")


def check_old(name, old, replace, read):
    """Whether a file that exists may be replaced: a file of its own, which the caller may write, and not one that is in use here."""
    if stat.S_ISDIR(old.st_mode):
        raise BadFile(f"{name}: it is a folder")
    if not stat.S_ISREG(old.st_mode):
        raise BadFile(f"{name}: it is a device or a pipe, which is not replaced")
    for file, called in {0: "standard input", 1: "standard output", **read}.items():
        if is_same(file, old):
            raise BadFile(f"{name}: it is {called} itself")
    if not replace:
        raise BadFile(f"{name}: {EXISTS}")
    if not os.access(name, os.W_OK):
        raise BadFile(f"{name}: it may not be written, so it is not replaced")


def is_same(file, found):
    """Whether a descriptor, or a name, is of the file that was found; what is closed or missing is not."""
    with suppress(OSError):
        return os.path.samestat(os.stat(file), found)
    return False


def write_whole(name, held, replace):
    """Writes the bytes to a file. Where that fails the file is as it was, and nothing else is left; signals wait until it is done.
    To replace follows links, and keeps the mode of the old file and, where it may, its owner."""
    place = os.path.realpath(name) if replace else name
    folder = os.path.dirname(place) or "."
    temporary = os.path.join(folder, f".cradlekeel-{secrets.token_hex(8)}")
    with named(name), signals_held():
        try:
            write_new(temporary, held, found_at(place) if replace else None)
            if replace:
                os.replace(temporary, place)
            else:
                put_new(temporary, place)
        finally:
            with suppress(OSError):  # where it was renamed it is gone
                os.unlink(temporary)
        sync_folder(name, folder)


@contextmanager
def named(name):
    """Gives a system error the name of the file that it is about."""
    try:
        yield
    except FileExistsError:
        raise BadFile(f"{name}: {EXISTS}") from None
    except OSError as error:
        raise BadFile(f"{name}: {error.strerror}") from None


@contextmanager
def signals_held():
    before = signal.pthread_sigmask(signal.SIG_BLOCK, STOPS)
    try:
        yield
    finally:
        signal.pthread_sigmask(signal.SIG_SETMASK, before)


def found_at(name):
    """What stands there, links followed; None where nothing does."""
    try:
        return os.stat(name)
    except FileNotFoundError:
        return None


def write_new(name, held, old):
    """A new file that is on the disk once this returns; it is as private as the old one before it holds anything."""
    descriptor = os.open(name, os.O_WRONLY | os.O_CREAT | os.O_EXCL, 0o666)
    try:
        if old is not None:
            with suppress(PermissionError):
                os.fchown(descriptor, old.st_uid, old.st_gid)
            os.fchmod(descriptor, stat.S_IMODE(old.st_mode))
        write_all(descriptor, held)
        os.fsync(descriptor)
    finally:
        os.close(descriptor)


def put_new(temporary, place):
    """Gives the file its place, where nothing may stand, not even what came there meanwhile."""
    try:
        os.link(temporary, place)
    except OSError as error:
        if error.errno not in NO_LINKS:
            raise
        claimed = os.open(place, os.O_WRONLY | os.O_CREAT | os.O_EXCL, 0o666)
        try:
            os.close(claimed)
            os.replace(temporary, place)
        except OSError:
            os.unlink(place)
            raise


def sync_folder(name, folder):
    """Has the new name reach the disk too, as far as the folder allows."""
    try:
        descriptor = os.open(folder, os.O_RDONLY | os.O_DIRECTORY)
        try:
            os.fsync(descriptor)
        finally:
            os.close(descriptor)
    except OSError as error:
        if error.errno not in NO_SYNC:
            raise BadFile(f"{name}: written, but its folder could not be synced: {error.strerror}") from None
