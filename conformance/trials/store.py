"""Cases as folders: `words` (one a line), `status`, `stdout`, `stderr`, and the files that are read."""

import os
import shutil

from reading.outcome import Outcome


def store(case, folder):
    """Writes the case with what the second reading answers."""
    shutil.rmtree(folder, ignore_errors=True)
    os.makedirs(folder)
    case.write(folder)
    write_outcome(case.words, case.expected(), folder)


def write_outcome(words, expected, folder):
    contents = {
        "words": b"".join(word + b"\n" for word in words),
        "status": f"{expected.status}\n".encode(),
        "stdout": expected.out,
        "stderr": expected.err,
    }
    for name, data in contents.items():
        with open(os.path.join(folder, name), "wb") as file:
            file.write(data)


def read_bytes(*path):
    with open(os.path.join(*path), "rb") as file:
        return file.read()


def read_words(folder):
    return read_bytes(folder, "words").split(b"\n")[:-1]


def read_expected(folder):
    """The outcome that a stored case wants."""
    status = int(read_bytes(folder, "status"))
    return Outcome(status, read_bytes(folder, "stdout"), read_bytes(folder, "stderr"))


def files_below(folder, prefix=""):
    files = {}
    for name in sorted(os.listdir(folder)):
        path = os.path.join(folder, name)
        if os.path.isdir(path):
            files |= files_below(path, f"{prefix}{name}/")
        else:
            files[prefix + name] = read_bytes(path)
    return files
