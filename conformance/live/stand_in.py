"""A server with a journal in the place of the program, by the second reading: to try `crash` itself. It may have a fault."""

import contextlib
import os
import signal
import socket
import time

from reading import journal
from reading.journal import CLOSED, MAGIC, OPEN, Kept
from reading.keeping import reopened
from reading.requests import read_request
from reading.server import answered, entry_of

# What is wrong with it, and what is then to be seen.
FAULTS = {
    "answers first": "an acknowledged body is lost",
    "never keeps": "an acknowledged body is lost",
    "keeps what it refuses": "a body was refused, and is kept",
    "opens the gate first": "Damaged",
    "skips the last body": "what is served",
    "takes bodies at the present moment": "what is served",
    "forgets what it found": "what was kept is gone",
    "keeps the moment of its start": "another moment",
}
# How long it waits at each step, so that a kill finds it there.
STEP = 0.003


class StandIn:
    """The server as a process of its own, which has what this one has imported."""

    def __init__(self, setting, path, port, fault=None):
        self.setting, self.path, self.port, self.fault = setting, path, port, fault
        self.status, self.pid = None, os.fork()
        if self.pid == 0:
            try:
                self.serve()
            finally:
                os._exit(70)

    # What `crash` does with it.

    def kill(self):
        if not self.has_ended():
            os.kill(self.pid, signal.SIGKILL)

    def wait(self):
        if self.status is None:
            self.status = os.waitstatus_to_exitcode(os.waitpid(self.pid, 0)[1])
        return self.status

    def has_ended(self):
        if self.status is None:
            ended, status = os.waitpid(self.pid, os.WNOHANG)
            self.status = os.waitstatus_to_exitcode(status) if ended else None
        return self.status is not None

    # The server.

    def serve(self):
        self.file = os.open(self.path, os.O_RDWR | os.O_CREAT, 0o644)
        self.state, self.end = self.open()
        self.began = int(time.time())
        listener = socket.create_server(("127.0.0.1", self.port), backlog=128)
        while True:
            client, _ = listener.accept()
            with client:
                self.answer(client, self.input_of(client))

    def open(self):
        data = b"" if self.fault == "forgets what it found" else os.pread(self.file, 1 << 30, 0)
        if len(data) <= 9:
            self.write(0, MAGIC + CLOSED)
            data = MAGIC + CLOSED
        bodies, end = journal.found(data)
        taken = bodies[:-1] if self.fault == "skips the last body" else bodies
        if self.fault == "takes bodies at the present moment":
            taken = [Kept(one.path, int(time.time()) + 86_400, one.body) for one in taken]
        return reopened(self.setting, taken).state, end

    def write(self, place, data):
        time.sleep(STEP)
        os.pwrite(self.file, data, place)
        os.fsync(self.file)

    def input_of(self, client):
        """The head, and as many bytes as it says."""
        data = b""
        while b"\r\n\r\n" not in data:
            data += client.recv(1 << 16) or b"\r\n\r\n"
        head, _, _ = data.partition(b"\r\n\r\n")
        length = next((int(line[15:]) for line in head.split(b"\r\n") if line.lower().startswith(b"content-length:")), 0)
        while len(data) < len(head) + 4 + length and (piece := client.recv(1 << 16)):
            data += piece
        return data

    def answer(self, client, data):
        moment = int(time.time())
        answer, state = answered(self.setting, self.state, moment, data)
        mark = entry_of(data, moment, answer).mark
        if self.fault == "answers first":
            self.send(client, answer)
        if mark in ("Taken", "Fed") or self.fault == "keeps what it refuses" and data.startswith(b"POST"):
            self.keep(data, self.began - 5 if self.fault == "keeps the moment of its start" else moment)
        self.state = state
        if self.fault != "answers first":
            self.send(client, answer)

    def send(self, client, answer):
        with contextlib.suppress(OSError):
            client.sendall(answer)
            client.shutdown(socket.SHUT_WR)

    def keep(self, data, moment):
        if self.fault == "never keeps":
            return
        _, _, body = data.partition(b"\r\n\r\n")
        path = data.split(b" ")[1].decode() if self.fault == "keeps what it refuses" else read_request(data).path
        record = Kept(path, moment, body)
        written = journal.behind_gate(b"\0" * 1, 0, record)[1:]
        if self.fault == "opens the gate first":
            self.write(self.end, OPEN)
        self.write(self.end + 1, written)
        self.write(self.end, OPEN)
        self.end += journal.size_of(record)
