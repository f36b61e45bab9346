"""The files that a run reads: those of a case, by their names."""


class TooLong(Exception):
    """A file has more bytes than it may."""


class NotReadable(Exception):
    """A folder stands in a file's place."""


class CaseFiles:
    """Files by name, in folders that their names tell."""

    def __init__(self, by_name):
        self.by_name = by_name

    def read(self, path, limit):
        """The file's bytes, or None where it is missing."""
        parts = [part for part in path.split("/") if part not in ("", ".")]
        if not parts:
            raise NotReadable
        name = "/".join(parts)
        if any(other.startswith(name + "/") for other in self.by_name):
            raise NotReadable
        data = self.by_name.get(name)
        if data is None or path.endswith("/") or path.startswith("/"):
            return None
        if len(data) > limit:
            raise TooLong
        return data
