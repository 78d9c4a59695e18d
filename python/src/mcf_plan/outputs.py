"""Files that commands write: each is written whole, or not at all.

What is written is made beside the file and then takes its place, so that a full disk, Ctrl-C or a signal leaves the
file of before as it was.
"""

from __future__ import annotations

import errno
import os
import stat
from contextlib import suppress
from pathlib import Path
from typing import Optional, Union

CLOSED = (errno.EACCES, errno.EPERM, errno.EROFS, errno.EBUSY)
"""Why nothing can take the place of a file that may be written itself: nobody may make a file in its folder or take one
away there, or the file is mounted by itself."""


def write_text(path: Union[str, Path], text: str, *, errors: str = "strict") -> None:
    """Writes a text as UTF-8: see `write_bytes`."""
    write_bytes(path, text.encode("utf-8", errors))


def write_bytes(path: Union[str, Path], content: bytes) -> None:
    """Writes a file, or leaves it as it was and raises OSError, which names it. A link stays one, and so do the mode and
    the owner of a file that is there.

    What is no regular file is written in place, and so is a file whose folder lets no other take its place.
    """
    try:
        old = _status(path)
        if old is None or stat.S_ISREG(old.st_mode) and not _is_printed_to(old):
            if old is not None:
                os.close(os.open(path, os.O_WRONLY))  # Where it may not be written, it may not be replaced either.
            try:
                return _replace(os.path.realpath(path), content, old)
            except OSError as error:
                if error.errno not in CLOSED:
                    raise
        with open(path, "wb") as file:
            file.write(content)
    except OSError as error:
        raise OSError(error.errno, error.strerror, str(path)) from None


def _status(path: Union[str, Path]) -> Optional[os.stat_result]:
    """What the system says of a file; None where there is none."""
    try:
        return os.stat(path)
    except FileNotFoundError:
        return None


def _is_printed_to(status: os.stat_result) -> bool:
    """Whether what is printed goes to this file, as where /dev/stdout is written and a shell leads it to a file: another
    file in its place would not get that."""
    for stream in (1, 2):
        with suppress(OSError):
            if os.path.samestat(status, os.fstat(stream)):
                return True
    return False


def _replace(path: str, content: bytes, old: Optional[os.stat_result]) -> None:
    """Writes a file that takes the place of what is there once it is whole, with the mode and the owner of that."""
    new = os.path.join(os.path.dirname(path), f".mcf-plan-{os.urandom(8).hex()}")
    # What only its owner may read is not shown to others while it is written.
    mode = 0o666 if old is None else 0o600
    try:
        with open(new, "xb", opener=lambda name, flags: os.open(name, flags, mode)) as file:
            file.write(content)
        if old is not None:
            own = os.stat(new)
            if (own.st_uid, own.st_gid) != (old.st_uid, old.st_gid):
                os.chown(new, old.st_uid, old.st_gid)
            os.chmod(new, stat.S_IMODE(old.st_mode))
        os.replace(new, path)
    except BaseException:
        try:
            os.unlink(new)
        except OSError:
            pass  # It was not made.
        raise
