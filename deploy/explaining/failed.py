"""`gateway: failed` (74): which file or address it is. It looks."""

import contextlib
import fcntl
import os
import re
import shutil
import socket

from reading.journal import kept

LEAST_ROOM = 1 << 20


def address_fails(address):
    """Why connections can't be taken at an address, or None. It is free again when this is known."""
    if "://" in address:
        return f"an address has no scheme: {re.sub(r'^[a-z]+://', '', address).rstrip('/')}"
    host, colon, port = address.rpartition(":")
    if not colon:
        return f"it has no port: {address}:8080"
    if not port.isdigit() or int(port) > 65535:
        return f"{port or 'nothing'} is no port: from 1 to 65535"
    try:
        found = socket.getaddrinfo(host.strip("[]") or None, int(port), type=socket.SOCK_STREAM, flags=socket.AI_PASSIVE)
    except (OSError, UnicodeError):
        return f"there is no host {host}"
    whys = [bind_fails(family, where) for family, _, _, _, where in found]
    return whys[0] if all(whys) else None


def bind_fails(family, where):
    with socket.socket(family, socket.SOCK_STREAM) as listener:
        listener.setsockopt(socket.SOL_SOCKET, socket.SO_REUSEADDR, 1)
        try:
            listener.bind(where)
            listener.listen(1)
        except OSError as fault:
            return bind_text(fault, where)
    return None


def bind_text(fault, where):
    name = os.strerror(fault.errno) if fault.errno else str(fault)
    if fault.errno == 98:
        return f"port {where[1]} is in use{user_of(where[1])}"
    if fault.errno == 99:
        return f"{where[0]} is no address of this machine"
    if fault.errno == 13:
        return f"port {where[1]} is for root: take one from 1024"
    return name


def user_of(port):
    """Who listens at a port, as far as this user may see it."""
    sockets = set()
    for table in ("/proc/net/tcp", "/proc/net/tcp6"):
        try:
            with open(table, encoding="ascii") as file:
                rows = [line.split() for line in file.readlines()[1:]]
        except OSError:
            continue
        sockets |= {row[9] for row in rows if row[3] == "0A" and int(row[1].rpartition(":")[2], 16) == port}
    for process in filter(str.isdigit, os.listdir("/proc")):
        if sockets & sockets_of(process):
            try:
                with open(f"/proc/{process}/comm", encoding="utf-8") as file:
                    return f" by {file.read().strip()} (process {process})"
            except OSError:
                return ""
    return ""


def sockets_of(process):
    """The numbers of a process's sockets, as far as this user may see them."""
    found = set()
    try:
        for one in os.listdir(f"/proc/{process}/fd"):
            with contextlib.suppress(OSError):
                link = os.readlink(f"/proc/{process}/fd/{one}")
                if link.startswith("socket:["):
                    found.add(link[8:-1])
    except OSError:
        pass
    return found


def journal_fails(path):
    """Why a journal can't be opened, or None. Nothing is made or written."""
    folder = os.path.dirname(path) or "."
    if not os.path.isdir(folder):
        return f"the folder {folder} isn't there"
    if not os.path.lexists(path):
        return None if os.access(folder, os.W_OK | os.X_OK) else f"this user may not make a file in {folder}"
    if not os.path.isfile(path):
        return "it is no file"
    if not os.access(path, os.R_OK | os.W_OK):
        return "this user may not read and write it"
    with open(path, "rb") as file:
        try:
            fcntl.flock(file, fcntl.LOCK_EX | fcntl.LOCK_NB)
        except OSError:
            return "another server has it"
    return None


def journal_of(path):
    """The bodies that it holds; one that isn't there holds none."""
    if not os.path.exists(path):
        return []
    with open(path, "rb") as file:
        return kept(file.read())


def output_lines():
    """What is left of `gateway: failed` where every file can be read."""
    lines = ["(each file can be read now: a `gateway: failed` of these words is the output's, a full disk or a pipe whose reader ended)"]
    free = shutil.disk_usage(".").free
    if free < LEAST_ROOM:
        lines.append(f"the disk of {os.path.abspath('.')} has {free} bytes left")
    return lines
