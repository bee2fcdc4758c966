"""Redis servers, which `./bench` measures beside sites: each has a stock, of which commands take one."""

import socket
import subprocess
import time
from contextlib import contextmanager

from cluster import free_ports

STOCK = 1_000_000_000
SCRIPT = b"""
local n = tonumber(redis.call('GET', KEYS[1]))
if n < tonumber(ARGV[1]) then return -1 end
return redis.call('DECRBY', KEYS[1], ARGV[1])
"""


def redis_words(*words):
    """A command to Redis, as it goes over the wire."""
    return b"*%d\r\n" % len(words) + b"".join(b"$%d\r\n%b\r\n" % (len(word), word) for word in words)


# Each change is appended to a file, and synced before it is answered. The file is never written anew.
ALWAYS = ("--appendonly", "yes", "--appendfsync", "always", "--auto-aof-rewrite-percentage", "0")


class Redis:
    """A server with a stock. It writes nothing to disk without an option that says so; with one it may be killed, and
    started again with what its folder has."""

    def __init__(self, folder, *options):
        (self.port,) = free_ports(1)
        words = ["redis-server", "--port", str(self.port), "--bind", "127.0.0.1", "--dir", folder]
        self.words = [*words, "--save", "", "--appendonly", "no", *options]
        self.start()
        said = redis_says(self.port, redis_words(b"SET", b"stock", b"%d" % STOCK))
        assert said == b"+OK\r\n", said

    def start(self):
        """Starts it, and waits until it answers. Its port may be in use for a moment, by a connection that goes out."""
        until, self.process = time.monotonic() + 10, None
        while True:
            if self.process is None or self.process.poll() is not None:
                self.process = subprocess.Popen(self.words, stdout=subprocess.DEVNULL)
            try:
                if redis_says(self.port, redis_words(b"PING")) == b"+PONG\r\n":
                    return
            except OSError:
                if time.monotonic() > until:
                    self.kill()
                    raise
            time.sleep(0.02)

    def kill(self):
        self.process.kill()
        self.process.wait()


@contextmanager
def redis_process(folder, *options):
    """A server with a stock: its port, and its process."""
    server = Redis(folder, *options)
    try:
        yield server.port, server.process
    finally:
        server.kill()


@contextmanager
def redis(folder, *options):
    """The same: its port."""
    with redis_process(folder, *options) as (port, _):
        yield port


def redis_says(port, request):
    with socket.create_connection(("127.0.0.1", port)) as stream:
        stream.sendall(request)
        said = stream.recv(1 << 16)
        if not said:
            raise ConnectionError("the server ended the connection")
        return said


def redis_script(port, script):
    """The name by which the server runs this script."""
    return redis_says(port, redis_words(b"SCRIPT", b"LOAD", script)).split(b"\r\n")[1]
