"""The files of the machine, as the second reading asks for them; why one can't be read is kept."""

import errno
import os

from reading.files import NotReadable, TooLong

WHY = {
    errno.EISDIR: "it is a folder",
    errno.EACCES: "this user may not read it",
    errno.ELOOP: "its links go round in a circle",
    errno.ENAMETOOLONG: "its name is too long",
    errno.EIO: "the disk fails",
}


class DiskFiles:
    """Files by their paths, and why the last one that can't be read can't."""

    def __init__(self):
        self.failed = None  # a path, and why

    def read(self, path, limit):
        """The file's bytes, or None where it is missing."""
        try:
            with open(path, "rb") as file:
                data = file.read(limit + 1)
        except (FileNotFoundError, NotADirectoryError):
            return None
        except (OSError, ValueError) as fault:
            self.failed = path, why_of(fault)
            raise NotReadable from None
        if len(data) > limit:
            raise TooLong
        return data


def why_of(fault):
    number = getattr(fault, "errno", None)
    return WHY.get(number) or (os.strerror(number) if number else "it is no path")
