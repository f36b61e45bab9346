"""What a question is asked over: files, a zone and a window."""

from datetime import timedelta

from reading.files import CaseFiles, NotReadable
from reading.folder import read_folder, read_table
from reading.moments import read_either_day
from reading.readings import Context
from reading.zones import read_rule, read_zone_file

FOLDER = "g"


class Files(CaseFiles):
    """Files, of which the reads of these numbers fail; `last` is the one that was read last."""

    def __init__(self, by_name, fails):
        super().__init__(by_name)
        self.fails, self.reads, self.last = fails, 0, None

    def read(self, path, limit):
        self.reads += 1
        self.last = path
        if self.reads in self.fails:
            raise NotReadable
        return super().read(path, limit)


class Given:
    """The files by their names, the numbers of reads that fail, the zone (a rule, or a file's bytes), the window's
    first day with its number of days, and the word behind the kind."""

    def __init__(self, by_name, fails, zone, window, of):
        self.by_name, self.fails, self.of = by_name, fails, of
        self.zone_given, self.window_given = zone, window

    def files(self):
        return Files(self.by_name, self.fails)

    def table(self):
        return read_folder(self.files(), FOLDER)

    def zone(self):
        given = self.zone_given
        return read_zone_file(given) if isinstance(given, bytes) else read_rule(given)

    def days(self):
        first, days = self.window_given
        return [read_either_day(first) + timedelta(days=number) for number in range(days)]

    def context(self):
        return Context(self.table(), self.zone(), self.days())

    def numbers(self, name, column):
        """The number of each id of a file: its place in it, from 0."""
        rows = read_table(name, self.by_name[f"{FOLDER}/{name}"], {})
        return {row[column]: number for number, row in enumerate(rows)}
