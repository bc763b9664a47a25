"""New files that take the place of others: each is written beside the other, under no name if the system can do that, and gets the name
at the end. So a file is whole whatever happens: a fault, a full disk, a kill."""
from __future__ import annotations

import contextlib
import os
import stat
import tempfile

from . import TYPE_CHECKING

if TYPE_CHECKING:
    from typing import Iterator, List, Optional


class Replacement:
    """A file that will have a name, with the mode, the owner and the extended attributes of the file that has it now."""

    beside: Optional[str]

    def __init__(self, name: str) -> None:
        # A symbolic link stays, and leads to the new file.
        self.path = os.path.realpath(name)
        self.folder, self.beside = os.path.dirname(self.path), None
        self.before = os.stat(self.path) if os.path.exists(self.path) else None
        self.number = self.opened()

    def opened(self) -> int:
        """The number of the new file, which has no name as long as the system can do that."""
        with contextlib.suppress(AttributeError, OSError):
            return os.open(self.folder, os.O_TMPFILE | os.O_RDWR, 0o666)
        number, self.beside = tempfile.mkstemp(prefix=".virraupez.", dir=self.folder)
        mask = os.umask(0)
        os.umask(mask)
        os.chmod(self.beside, 0o666 & ~mask)
        return number

    def end(self) -> List[str]:
        """Gives the new file the name, once all of it is on the disk. Gives what of the other file couldn't be kept, in words."""
        lost = list(self.kept(self.before)) if self.before else []
        os.fsync(self.number)
        if self.beside is None:
            self.beside = os.path.join(self.folder, f".virraupez.{os.getpid()}.{self.number}")
            # With a folder's number Python follows the link, whatever the number is.
            os.link(f"/proc/self/fd/{self.number}", self.beside, src_dir_fd=self.number, follow_symlinks=True)
        os.replace(self.beside, self.path)
        self.beside = None
        return lost

    def drop(self) -> None:
        """Leaves the other file as it is."""
        if self.beside is not None:
            with contextlib.suppress(OSError):
                os.unlink(self.beside)

    def kept(self, before: os.stat_result) -> Iterator[str]:
        """Gives the new file what the other has, and says what it can't have."""
        made = os.fstat(self.number)
        if (made.st_uid, made.st_gid) != (before.st_uid, before.st_gid):
            try:
                os.chown(self.number, before.st_uid, before.st_gid)
            except (OSError, AttributeError):
                yield "it has another owner or group"
        os.chmod(self.number, stat.S_IMODE(before.st_mode))
        for name in attributes(self.path):
            try:
                os.setxattr(self.number, name, os.getxattr(self.path, name))
            except OSError:
                yield f"it has lost the attribute {name}"
        if before.st_nlink > 1:
            yield f"{before.st_nlink - 1} other hard links keep the old text"


def attributes(path: str) -> List[str]:
    """The names of a file's extended attributes."""
    with contextlib.suppress(AttributeError, OSError):
        return os.listxattr(path)
    return []


def is_plain(name: str) -> bool:
    """Whether a name may be that of a new file: it is free, or that of a plain file."""
    try:
        return stat.S_ISREG(os.stat(name).st_mode)
    except OSError:
        return True
