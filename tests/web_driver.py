"""Clients of a site over HTTP, written by hand, for tests: they send what they like, in any cuts, and read strictly."""

import re
import socket
import threading
from collections import namedtuple
from contextlib import suppress

from cluster import PATIENCE, Cluster, at, expect, free_ports, reset_at_its_end, wait_for

SAMPLE = re.compile(r'([a-z_]+)(?:\{([a-z]+)="([^"]*)"\})? (0|[1-9][0-9]*)')
ENDED = re.compile(
    r"rights-site: ended: issued (\d+) spent (\d+) given (\d+) received (\d+) held (\d+); told issued (\d+) spent (\d+) served (\d+)"
)

Response = namedtuple("Response", "status headers body")
Report = namedtuple("Report", "issued spent given received held told_issued told_spent told_served")


def request(method, target, body=None, *fields):
    """The bytes of a request. Without a body it has no length."""
    length = [] if body is None else [f"content-length: {len(body)}"]
    return "\r\n".join([f"{method} {target} HTTP/1.1", "host: localhost", *length, *fields, "", ""]).encode() + (body or b"")


def post(*commands, target="/"):
    return request("POST", target, b"".join(command.encode() + b"\n" for command in commands))


class Client:
    """One connection."""

    def __init__(self, address, room=None):
        """`room` is how many bytes of answers may wait to be read."""
        host, port = address.rsplit(":", 1)
        self.stream = socket.socket()
        if room is not None:
            self.stream.setsockopt(socket.SOL_SOCKET, socket.SO_RCVBUF, room)
        self.stream.settimeout(PATIENCE)
        self.stream.connect((host, int(port)))
        self.stream.setsockopt(socket.IPPROTO_TCP, socket.TCP_NODELAY, 1)
        self.unread = b""

    def send(self, data):
        self.stream.sendall(data)

    def ask(self, data, is_head=False):
        """Sends a request, and reads its answer. It may come before the request has left whole."""
        with suppress(BrokenPipeError, ConnectionResetError):
            self.send(data)
        return self.read(is_head)

    def command(self, *commands, target="/"):
        """Sends commands in one request. The status, and the replies."""
        answer = self.ask(post(*commands, target=target))
        return answer.status, answer.body.decode().splitlines()

    def read(self, is_head=False, may_end=False):
        """The next answer, or None where the connection ends before it begins and may do so."""
        while b"\r\n\r\n" not in self.unread:
            if not self.read_more():
                if self.unread or not may_end:
                    raise AssertionError(f"the connection ended where an answer was awaited: {self.unread!r}")
                return None
        head, self.unread = self.unread.split(b"\r\n\r\n", 1)
        first, *lines = head.decode("ascii").split("\r\n")
        version, status = first.split(" ")[:2]
        if version not in ("HTTP/1.1", "HTTP/1.0") or not re.fullmatch("[1-5][0-9][0-9]", status):
            raise AssertionError(f"the first line of an answer: {first!r}")
        headers = {}
        for line in lines:
            name, value = line.split(":", 1)
            if name.lower() in headers:
                raise AssertionError(f"{name} stands twice in {lines}")
            headers[name.lower()] = value.strip()
        length = 0 if is_head or status == "100" else int(headers.get("content-length", 0))
        while len(self.unread) < length:
            if not self.read_more():
                raise AssertionError("the connection ended within the body of an answer")
        body, self.unread = self.unread[:length], self.unread[length:]
        return Response(int(status), headers, body)

    def read_more(self):
        try:
            block = self.stream.recv(1 << 16)
        except ConnectionResetError:
            return False
        self.unread += block
        return bool(block)

    def has_ended(self):
        """Waits for the end of the connection: whether nothing came before it."""
        return not self.unread and not self.read_more()

    def close(self):
        self.stream.close()

    def reset(self):
        """Ends the connection in the way of a machine that goes."""
        with suppress(OSError):
            reset_at_its_end(self.stream)
        self.stream.close()

    def __enter__(self):
        return self

    def __exit__(self, *_):
        self.close()


class WebCluster(Cluster):
    """Sites that serve HTTP too."""

    def __init__(self, count, *rest, tick=None, silent=None, keys=None, log=False, hosts=(), errors=None, **others):
        self.tick, self.silent, self.keys, self.log, self.hosts, self.errors = tick, silent, keys, log, hosts, errors
        self.web_ports = free_ports(count)
        super().__init__(count, *rest, **others)

    def options(self, number):
        names = ("hosts", "tick", "silent", "keys", "log", "errors")
        return {"http": self.address(number), **{name: getattr(self, name) for name in names}}

    def address(self, number=1):
        return at(self.web_ports[number - 1])

    def client(self, number=1, room=None):
        return Client(self.address(number), room)

    def command(self, *commands, number=1, target="/"):
        """Sends commands over a connection of their own. The status, and the replies."""
        with self.client(number) as client:
            return client.command(*commands, target=target)

    def metrics(self, number=1):
        """The samples: by name, and by name and label where there is one."""
        with self.client(number) as client:
            return samples(client.ask(request("GET", "/metrics")).body)

    def end(self, number=1):
        """Ends a site, and returns its report."""
        site = self.sites[number]
        status = site.end(timeout=PATIENCE)
        found = [line for line in site.said().splitlines() if ENDED.fullmatch(line)]
        if status != 0 or len(found) != 1:
            raise AssertionError(f"site {number} ended with status {status} and said {site.said()!r}")
        return Report(*map(int, ENDED.fullmatch(found[0]).groups()))


def samples(body):
    """The samples of metrics: by name, and by name and label where there is one."""
    found = {}
    for line in body.decode("ascii").splitlines():
        if line.startswith("#"):
            continue
        parts = SAMPLE.fullmatch(line)
        if parts is None:
            raise AssertionError(f"no sample: {line!r}")
        name, _, label, value = parts.groups()
        key = name if label is None else (name, label)
        if key in found:
            raise AssertionError(f"a sample stands twice: {line!r}")
        found[key] = int(value)
    return found


# What the site answers in words.
TEXT = "text/plain; charset=utf-8"


def alone(**options):
    """One site of two, whose peer is not there."""
    return WebCluster(2, started=[1], **options)


def expect_served(answer, status, body=None, kind=TEXT, what=""):
    """An answer of the site itself, which no cache keeps."""
    expect(answer.status, status, f"{what}: the status")
    expect(answer.headers.get("cache-control"), "no-store", f"{what}: cache-control")
    if body is not None:
        expect(answer.body, body, what)
    if answer.body:
        expect(answer.headers.get("content-type"), kind, f"{what}: content-type")


def seats(sites, count, number=1):
    """Waits until so many connections stand, with the one that asks."""
    wait_for(f"{count} connections", lambda: sites.metrics(number)["rights_clients"] == count)


def in_threads(count, call):
    threads = [threading.Thread(target=call, daemon=True) for _ in range(count)]
    for thread in threads:
        thread.start()
    for thread in threads:
        thread.join(60)
        if thread.is_alive():
            raise AssertionError("a client hangs")
