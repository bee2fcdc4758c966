"""What rates.py measures of sites, measured of Redis: a server that takes one from a stock with each command, and a
replica of it. The server does not wait for its replica, except in `gives`, where each command asks it to."""

import os
import re
import signal
import socket
import tempfile
import time
from contextlib import contextmanager

from cluster import wait_for
from exchanges import exchange
from redis_server import SCRIPT, STOCK, redis_process, redis_says, redis_script, redis_words

# How much of what a replica missed a server keeps for it: more than all that is written here.
BACKLOG = ["--repl-backlog-size", "512mb", "--client-output-buffer-limit", "replica 0 0 0"]
# Seconds that a replica has at most for what is measured.
PATIENCE = 60


def taking(port):
    """The command that takes one where there is enough."""
    return redis_words(b"EVALSHA", redis_script(port, SCRIPT), b"1", b"stock", b"1")


def take_all(port, command, count):
    """Sends a command so many times, without waiting for its replies, and reads these."""
    with socket.create_connection(("127.0.0.1", port)) as stream:
        exchange(stream.fileno(), stream.fileno(), command * count, count)


def local_takes(count, *options):
    """Commands a second through one connection."""
    with tempfile.TemporaryDirectory() as folder, redis_process(folder, *options) as (port, _):
        command = taking(port)
        begun = time.perf_counter()
        take_all(port, command, count)
        return count / (time.perf_counter() - begun)


@contextmanager
def replicated():
    """The port of a server; and the port and the process of its replica, which is connected."""
    with (
        tempfile.TemporaryDirectory() as folder,
        redis_process(folder, *BACKLOG) as (port, _),
        redis_process(folder) as (copy, process),
    ):
        redis_says(copy, redis_words(b"REPLICAOF", b"127.0.0.1", b"%d" % port))
        wait_for("the replica is connected", lambda: is_connected(copy))
        yield port, copy, process


def is_connected(port):
    return re.search(rb"master_link_status:up", redis_says(port, redis_words(b"INFO", b"replication"))) is not None


def left(port):
    return int(redis_says(port, redis_words(b"GET", b"stock")).split(b"\r\n")[1])


def wait_for_copy(copy, taken):
    """Waits until the replica has taken so many too."""
    wait_for("the replica has all", lambda: left(copy) == STOCK - taken, PATIENCE)


def carried_takes(count):
    """Commands a second from one connection to the replica."""
    with replicated() as (port, copy, _):
        command = taking(port)
        begun = time.perf_counter()
        take_all(port, command, count)
        wait_for_copy(copy, count)
        return count / (time.perf_counter() - begun)


def caught_up(count):
    """Commands a second that a replica catches up with, from when it is connected again. It was stopped meanwhile, and
    its connection was closed."""
    with replicated() as (port, copy, process):
        command = taking(port)
        os.kill(process.pid, signal.SIGSTOP)
        redis_says(port, redis_words(b"CLIENT", b"KILL", b"TYPE", b"replica"))
        take_all(port, command, count)
        os.kill(process.pid, signal.SIGCONT)
        wait_for("the replica is connected", lambda: is_connected(copy))
        begun, behind = time.perf_counter(), left(copy) - (STOCK - count)
        wait_for_copy(copy, count)
        return behind / (time.perf_counter() - begun)


def gives(count):
    """The microseconds of each of many commands, until the replica has confirmed it."""
    with replicated() as (port, _, _):
        request = taking(port) + redis_words(b"WAIT", b"1", b"0")
        times = []
        with socket.create_connection(("127.0.0.1", port)) as stream:
            stream.setsockopt(socket.IPPROTO_TCP, socket.TCP_NODELAY, 1)
            for _ in range(count):
                begun = time.perf_counter()
                stream.sendall(request)
                said = b""
                while said.count(b"\n") < 2:
                    said += stream.recv(1 << 16)
                times.append((time.perf_counter() - begun) * 1e6)
        return sorted(times)
