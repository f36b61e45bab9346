"""The program as a server: its process, what that takes of the machine, and clients of it."""

import contextlib
import os
import resource
import signal
import socket
import struct
import subprocess
import sys
import threading
import time

START_SECONDS = 60
END_SECONDS = 60
ANSWER_SECONDS = 300
LISTEN = "127.0.0.1"


class Stopped(Exception):
    """The server isn't what it has to be: gone, silent, or holding what it should have given back."""


def end_with_what_runs():
    """Where this is told to end, it ends what it runs too."""
    signal.signal(signal.SIGTERM, lambda *_: sys.exit(143))


def free_port():
    with socket.socket() as listener:
        listener.bind((LISTEN, 0))
        return listener.getsockname()[1]


class Server:
    """A server over the words of `serve` up to `--keep`, in a folder; its address space may have a limit in bytes."""

    def __init__(self, program, words, folder, connections, limit=None):
        self.port, self.left, self.folder = free_port(), connections, folder
        words = [program.encode(), *words, b"--listen", f"{LISTEN}:{self.port}".encode()]
        words += [b"--connections", str(connections).encode()]
        self.err = os.path.join(folder, "err")
        with open(self.err, "wb") as err:
            self.process = subprocess.Popen(
                words, cwd=folder, stdin=subprocess.DEVNULL, stdout=subprocess.PIPE, stderr=err,
                preexec_fn=limit and (lambda: resource.setrlimit(resource.RLIMIT_AS, (limit, limit))),
            )

    def said(self):
        with open(self.err, "rb") as file:
            return file.read()

    def connect(self, room=None):
        """A client; while the server starts it is tried again. `room` is how many bytes are taken for it unread."""
        until = time.monotonic() + START_SECONDS
        while True:
            client = socket.socket()
            client.settimeout(ANSWER_SECONDS)
            if room is not None:
                client.setsockopt(socket.SOL_SOCKET, socket.SO_RCVBUF, room)
            try:
                client.connect((LISTEN, self.port))
                break
            except ConnectionRefusedError:
                client.close()
                status = self.process.poll()
                if status is not None:
                    raise Stopped(f"the server ended with {status}: {self.said()!r}") from None
                if time.monotonic() > until:
                    raise Stopped("the server takes no connection") from None
                time.sleep(0.01)
        self.left -= 1
        return client

    # What it takes of the machine.

    def memory(self):
        """Its memory and the most of it so far, in bytes."""
        found = {}
        with open(f"/proc/{self.process.pid}/status", encoding="ascii") as file:
            for line in file:
                name, _, rest = line.partition(":")
                if name in ("VmRSS", "VmHWM"):
                    found[name] = int(rest.split()[0]) * 1024
        return found["VmRSS"], found["VmHWM"]

    def descriptors(self):
        return len(os.listdir(f"/proc/{self.process.pid}/fd"))

    def fewest_descriptors(self):
        """How many it has while no client is there; one that just went may still be counted in some of the looks."""
        counts = []
        for _ in range(5):
            counts.append(self.descriptors())
            time.sleep(0.01)
        return min(counts)

    def settled_descriptors(self, wanted):
        """How many descriptors it has, once the connections that are over are closed."""
        until = time.monotonic() + 5
        while True:
            count = self.descriptors()
            if count <= wanted or time.monotonic() > until:
                return count
            time.sleep(0.02)

    def ended(self):
        """Its status, and what it said on both outputs."""
        try:
            out, _ = self.process.communicate(timeout=END_SECONDS)
        except subprocess.TimeoutExpired:
            raise Stopped("the server doesn't end after its connections") from None
        return self.process.returncode, out, self.said()

    def stop(self):
        if self.process.poll() is None:
            self.process.kill()
        self.process.wait()
        self.process.stdout.close()


# What a client does.


def rest_of(client):
    """All that it still gets until the server closes the connection, and whether the connection broke."""
    pieces = []
    try:
        while piece := client.recv(1 << 18):
            pieces.append(piece)
    except TimeoutError:
        load = ", ".join(f"{one:.1f}" for one in os.getloadavg())
        raise Stopped(f"no answer in {ANSWER_SECONDS} s; the machine's load is {load}") from None
    except OSError:
        return b"".join(pieces), True
    return b"".join(pieces), False


def send(client, data):
    """Sends what it can; a server that hangs up isn't waited for."""
    with contextlib.suppress(BrokenPipeError, ConnectionResetError):
        client.sendall(data)


def half_close(client):
    with contextlib.suppress(OSError):
        client.shutdown(socket.SHUT_WR)


def exchange(client, data, ends):
    """The answer to data that is sent beside the reading of it; `ends` where the client ends its output then."""

    def push():
        send(client, data)
        if ends:
            half_close(client)

    if len(data) < 60_000:
        push()
        return rest_of(client)
    sender = threading.Thread(target=push)
    sender.start()
    try:
        return rest_of(client)
    finally:
        sender.join()


def reset(client):
    """Closes it so that the other side finds it broken."""
    client.setsockopt(socket.SOL_SOCKET, socket.SO_LINGER, struct.pack("ii", 1, 0))
    client.close()
