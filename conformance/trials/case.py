"""A case: words and files. It is run by a program in a folder of its own, and by the second reading."""

import os
import shutil
import subprocess
from dataclasses import dataclass

from reading.files import CaseFiles
from reading.outcome import Outcome, outcome

SECONDS = 120


@dataclass
class Case:
    words: list  # bytes each
    files: dict  # from names to bytes

    def expected(self):
        return outcome(self.words, CaseFiles(self.files))

    def write(self, folder):
        for name, data in self.files.items():
            path = os.path.join(folder, name)
            os.makedirs(os.path.dirname(path), exist_ok=True)
            with open(path, "wb") as file:
                file.write(data)

    def run(self, program, folder):
        """The program's outcome, with the files in a folder that is made and taken away."""
        os.mkdir(folder)
        try:
            self.write(folder)
            return run(program, self.words, folder)
        finally:
            shutil.rmtree(folder)


def run(program, words, folder):
    done = subprocess.run(
        [program, *words],
        cwd=folder,
        stdin=subprocess.DEVNULL,
        stdout=subprocess.PIPE,
        stderr=subprocess.PIPE,
        timeout=SECONDS,
    )
    return Outcome(done.returncode, done.stdout, done.stderr)
