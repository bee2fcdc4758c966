"""A client of a site over HTTP. Any number of processes and threads can sell from one site.

    site = SiteClient("127.0.0.1:8001")
    site.issue(100)                             # 1, the number of the entry
    site.take(3)                                # Spent(number=2); raises CommandRefused, 'Short', if too little is held
    site.spend(3, within=5.0)                   # Spent(number=3), or Expired() if no rights came within five seconds
    site.give(2, 10)                            # 4, or raises CommandRefused as well
    site.status()["held"]                       # 84
    site.queue()["requests"]                    # the spends that wait, in their order
    [entry.line for entry in site.log()]        # ['E 1 0 1 I:100', 'E 1 1 2 S:3', ..], all that the site wrote
    site.take(1, key="order-4711")              # Spent(number=5), and the same each time that it is asked under this key
    site.close()

The site must have been started with `--http` and `--tick`. `ask`, `ask_all` and `wait` take commands as text and return
replies as text; the first two are also those of the class in `rights_site.py`, which starts a site and owns its standard
streams. Threads may share a client, which keeps some connections open; a forked process makes connections of its own.
Only Python's standard library is used.

**What is asked again, and what is not.** Each command that may have a key (`issue`, `give`, `take`, `spend`, `close`)
gets a new one, unless the caller gives one. If its answer is lost, because the connection broke, no answer came in time
or a server before the site answered 502 or 504, it is asked again under the same key, for `retry_for` seconds: as long as
the site remembers the key, it carries the command out once, and repeats its reply. If no answer comes in that time
either, `AnswerLost` is raised, which has the key. Then the application may ask the same site again under that key, or
count the rights as spent. It must not ask another site: that one does not know the key, and would sell a second time. So
would a new site at the same address that has not the journal of the one before.

A refusal is not remembered. If a command is refused as it is asked again, nothing was done by then; but its first request
may still be under way, and be carried out later.

Several commands in one request (`ask_all`), and commands of a client with `retry_for=0`, have no keys. They are sent
again only if it is certain that the site did not carry them out: no connection was made, the request was not sent whole,
or the site answered 503 because all its client connections were taken. If the whole request was sent and no answer
comes, `AnswerLost` is raised at once: nobody on this side can tell whether the rights were spent. `spent` in the status is
the total that the site spent. Requests for the status, the log or the metrics are retried, since they change nothing.
"""

from __future__ import annotations

import http.client
import itertools
import json
import os
import random
import re
import select
import socket
import ssl
import threading
import time
import uuid
from collections.abc import Callable, Iterable, Iterator
from contextlib import suppress
from dataclasses import dataclass, replace
from typing import Any, TypedDict, Union

# The greatest number of bytes of a body.
LONGEST_BODY = 1_048_576
# The greatest number of entries in one response.
MOST_LISTED = 1_000
# The site closes a connection on which nothing was sent for 60 seconds. Shortly before that, it is no longer used.
IDLE = 50.0
SAMPLE = re.compile(r'^([a-z_]+)(?:\{[a-z]+="([^"]*)"\})? (\d+)$', re.MULTILINE)
# What a key is, the commands that may have one, and the refusals that are for the key and not for the command.
KEY = re.compile(r"[!-~]{1,64}")
WITH_KEYS = ("issue", "give", "spend", "take", "close")
OF_KEYS = ("BadKey", "KeyRefused", "KeyReused")
# Between two tries: 0.1 seconds, and each time twice as long up to 2 seconds, less up to half of that by chance.
FIRST_PAUSE, LONGEST_PAUSE = 0.1, 2.0
CHANCE = random.SystemRandom()



# ---- what a site replies


@dataclass(frozen=True)
class Spent:
    """The rights were spent. `number` is that of the entry in the site's log."""

    number: int


@dataclass(frozen=True)
class Expired:
    """The deadline passed before enough rights were held. Nothing was spent."""


@dataclass(frozen=True)
class Queued:
    """The spend waits in the queue of the site; `SiteClient.outcome` of this ticket tells what becomes of it."""

    ticket: int


@dataclass(frozen=True)
class Waiting:
    """The spend still waits."""


@dataclass(frozen=True)
class Unknown:
    """There is no such spend, or its outcome was read before."""


Reply = Union[Spent, Expired, Queued, Waiting, Unknown]


class PeerStatus(TypedDict):
    """What a status says of a peer: how far its log is applied, and what is missing of it."""

    applied: int
    buffering: bool
    held: int
    site: int


class StatusAlways(TypedDict):
    """What each status object has."""

    closed: bool
    held: int
    issued: int
    number: int
    peers: list[PeerStatus]
    queued: int
    received: int
    site: int
    spent: int


class Status(StatusAlways, total=False):
    """The status object of a site: rights, the amount that waits, the number of its last entry, and its peers. Of keys, how
    many it remembers, if any."""

    keys: int


class WaitingSpend(TypedDict):
    """A spend that waits. Its deadline is in milliseconds since 1970."""

    amount: int
    deadline: int
    ticket: int


class Queue(TypedDict):
    """The spends that wait at a site, in the order in which they are served, and how many outcomes nobody has read."""

    requests: list[WaitingSpend]
    unread: int


class PeerSums(TypedDict):
    """What a site knows of another one: the sums of its log up to the entry with the number `applied`, what others gave to
    it, and what it holds by these. `held` is negative if it used gifts that are not known yet."""

    applied: int
    closed: bool
    given: int
    held: int
    issued: int
    received: int
    site: int
    spent: int
    taken_back: int


class Peers(TypedDict):
    """What a site knows of each other one, by number."""

    peers: list[PeerSums]
    site: int


@dataclass(frozen=True)
class LogEntry:
    """An entry of a site's log. `line` is its line as peers get it, without the line feed, and `key` that of the command
    that wrote it, if the site remembers it."""

    number: int
    line: str
    key: str | None = None


# ---- what may go wrong


class CommandRefused(Exception):
    """The site refused the command, and nothing was changed. `name` is that of docs/PROTOCOL.md, as `Short`."""

    def __init__(self, name: str, command: str) -> None:
        super().__init__(f"{command!r} is refused: {name}")
        self.name = name
        self.command = command


class KeyRefused(CommandRefused):
    """The site refused the command because of its key, and nothing was changed: another command had the key before
    (`KeyReused`), the site takes no keys (`KeyRefused`), or this command may have none (`BadKey`)."""


class SiteUnreachable(Exception):
    """The site was not reached, or has no free client connection. It carried out nothing."""


class SiteRefused(Exception):
    """The site, or a server before it, refused the whole request, such as one from a web page or one without its token,
    or is not a site. It carried out nothing."""


class AnswerLost(Exception):
    """The request was sent and no reply arrived. It is unknown whether its `commands` were carried out. With a `key`, the
    same site may be asked again under it."""

    def __init__(self, cause: object, commands: list[str], key: str | None = None) -> None:
        under = "" if key is None else f" under the key {key}"
        super().__init__(f"no reply to {', '.join(map(repr, commands[:3]))}{' ..' * (len(commands) > 3)}{under}: {cause}")
        self.commands = commands
        self.key = key


class NotSent(Exception):
    """A failure before a request was sent whole."""


def in_seconds(seconds: float) -> int:
    """The deadline this many seconds from now, in milliseconds since 1970, for a site that ticks by itself."""
    return int((time.time() + seconds) * 1000)


class SiteClient:
    """A client of one site, for any number of threads."""

    def __init__(
        self, address: str, *, connections: int = 8, timeout: float = 10.0, tries: int = 5, retry_for: float = 30.0,
        tls: ssl.SSLContext | None = None, token: str | None = None,
    ) -> None:
        """`address` is that of the site's `--http`, a host and a port. At most `connections` are open at a time; a site
        has 63 for all its clients. `timeout` is how many seconds an answer may take, and `tries` how often a request
        is tried that was not carried out. `retry_for` is for how many seconds after an answer was lost a command is asked
        again under its key. With 0, commands get no keys and are not asked again: so for a site that takes none
        (`--keys 0`). `tls` and `token` are for a site behind a server that encrypts and asks who comes: how to speak TLS,
        as by `ssl.create_default_context()`, and what to show as `authorization: Bearer`."""
        self.address = address
        host, _, port = address.rpartition(":")
        self._host, self._port, self._tls = host.strip("[]"), int(port), tls
        self._fields = {} if token is None else {"authorization": f"Bearer {token}"}
        self._timeout, self._tries, self._retry_for, self._connections = timeout, max(1, tries), retry_for, connections
        self._renew()

    # ---- commands

    def issue(self, amount: int, *, key: str | None = None) -> int:
        """Creates rights, and returns the number of the entry."""
        return number_of(self._reply(f"issue {amount}", key))

    def give(self, peer: int, amount: int, *, key: str | None = None) -> int:
        """Gives rights that the site holds to another site, and returns the number of the entry."""
        return number_of(self._reply(f"give {peer} {amount}", key))

    def spend(self, amount: int, *, within: float = 0.0, key: str | None = None) -> Spent | Expired | Queued:
        """Spends rights, if the site holds enough, or gets them from other sites, within so many seconds. Returns once
        that is decided, which is after one of its ticks if it does not hold enough. Queued only if the site ends
        meanwhile. The seconds are at most a day, and those of the site's clock: that of this machine does not matter.

        A site ends the spend of a client whose connection breaks while it waits. So Expired may come before its time.
        Nothing was spent then: ask again, under another key."""
        command = f"spend {amount} +{round(max(within, 0) * 1000)}"
        found = result_of(refusal_raised(self.wait(command, within + self._timeout, key=key), command))
        if isinstance(found, (Spent, Expired, Queued)):
            return found
        # It had no key, and another client asked for this ticket, and got the outcome.
        raise AnswerLost("its outcome was read by another client", [command])

    def take(self, amount: int, *, key: str | None = None) -> Spent:
        """Spends rights at once, or not at all: raises CommandRefused with the name `Short` if the site holds too few
        besides those that others wait for."""
        return Spent(number_of(self._reply(f"take {amount}", key), "spent"))

    def cancel(self, ticket: int) -> Spent | Expired | Unknown:
        """Ends a spend that waits, which then counts as expired. Returns what became of it."""
        found = result_of(self._reply(f"cancel {ticket}"))
        assert isinstance(found, (Spent, Expired, Unknown))
        return found

    def outcome(self, ticket: int) -> Spent | Expired | Waiting | Unknown:
        """What became of a spend that was queued. An outcome is told once."""
        found = result_of(self._reply(f"outcome {ticket}"))
        assert not isinstance(found, Queued)
        return found

    def close_site(self, heir: int | None = None, *, key: str | None = None) -> int:
        """Closes the site for good, which gives what it holds to the heir. Returns the number of its last entry."""
        return number_of(self._reply("close" if heir is None else f"close {heir}", key))

    def fresh_key(self) -> str | None:
        """A key that no command had, for a caller that wants to know it before the command is sent. None if this client
        sends commands without keys."""
        return uuid.uuid4().hex if self._retry_for > 0 else None

    def _reply(self, command: str, key: str | None = None) -> str:
        return refusal_raised(self.ask(command, key=key), command)

    # ---- commands as text

    def ask(self, command: str, *, key: str | None = None) -> str:
        """Sends one command, under this key or else, if it may have one, under a new one. Returns its reply without the
        line feed: `error NAME` if it is refused."""
        return self._send("/", command, self._timeout, key)

    def ask_all(self, commands: Iterable[str]) -> list[str]:
        """Sends commands in one request, of at most 1,048,576 bytes, and returns their replies in order. Other clients'
        commands may come between. If a request ends early, as for replies of more than 20 MB, its last reply is `error
        OutOfMemory`, and neither that command nor one after it was carried out. They get no keys, and are not asked again
        if the answer is lost; a command may bring its own, as `key order-4711 take 2`."""
        return self._post("/", list(commands), self._timeout).splitlines()

    def wait(self, command: str, timeout: float = 60.0, *, key: str | None = None) -> str:
        """Sends one command as `ask` does. If its reply would be `queued T`, waits for the outcome of the spend: `spent N`,
        or `expired` after its deadline. `timeout` is how many seconds that may take; it should exceed the time to the
        deadline: after it the connection is closed, and the site cancels the spend. If the site ends meanwhile, the reply is
        `queued T` after all."""
        return self._send("/wait", command, timeout, key)

    # ---- status and metrics

    def status(self) -> Status:
        """The status object."""
        found: Status = json.loads(self._get("/status"))
        return found

    def queue(self) -> Queue:
        """The spends that wait at the site, of all its clients."""
        found: Queue = json.loads(self._get("/queue"))
        return found

    def peers(self) -> Peers:
        """What the site knows of each other one. If one is lost for good, its sales are settled by it."""
        found: Peers = json.loads(self._get("/peers"))
        return found

    def log(self, first: int = 0) -> Iterator[LogEntry]:
        """The entries of the site's own log whose numbers are at least `first`, in order. The site lists at most 1,000 at a
        time, so this asks again, as its entries are taken, until it has the last one."""
        while True:
            found = entries_in(self._get(f"/log?from={first}"))
            yield from found
            if len(found) < MOST_LISTED:
                return
            first = found[-1].number + 1

    def metrics(self) -> dict[str, int | dict[str, int]]:
        """The metrics by name: a number, or numbers by the value of their label, which is a peer or a refusal."""
        found: dict[str, Any] = {}
        for name, label, value in SAMPLE.findall(self._get("/metrics")):
            if label:
                found.setdefault(name, {})[label] = int(value)
            else:
                found[name] = int(value)
        return found

    def close(self) -> None:
        """Closes the connections. The site goes on."""
        with self._lock:
            for connection, _ in self._idle:
                connection.close()
            self._idle.clear()

    def __enter__(self) -> SiteClient:
        return self

    def __exit__(self, *_: object) -> None:
        self.close()

    # ---- requests

    def _get(self, target: str) -> str:
        def once() -> str:
            try:
                return self._exchange("GET", target, b"", self._timeout)
            except OSError as cause:
                # It changes nothing, so it may have been answered.
                raise NotSent(cause) from cause

        return self._repeat(once)

    def _send(self, target: str, command: str, timeout: float, key: str | None) -> str:
        if key is None and command.split(" ")[0] in WITH_KEYS:
            key = self.fresh_key()
        return self._post(target, [command], timeout, key).rstrip("\n")

    def _post(self, target: str, commands: list[str], timeout: float, key: str | None = None) -> str:
        body = b"".join(map(line_of, commands))
        if len(body) > LONGEST_BODY:
            raise ValueError(f"the commands have {len(body):,} bytes, but a request has at most {LONGEST_BODY:,}")
        if key is not None and not KEY.fullmatch(key):
            raise ValueError(f"a key is 1 to 64 bytes of visible ASCII: {key!r}")

        def once() -> str:
            try:
                return self._exchange("POST", target, body, timeout, key)
            except OSError as cause:
                raise AnswerLost(cause, commands, key) from cause

        return self._repeat(once, 0.0 if key is None else self._retry_for)

    def _repeat(self, once: Callable[[], str], retry_for: float = 0.0) -> str:
        """Tries again while the request was certainly not carried out, at most so often as the client says. Once an answer
        was lost, tries again for so many seconds, whatever happens: from then on only an answer says what was done."""
        lost: AnswerLost | None = None
        until, pause = 0.0, FIRST_PAUSE
        for attempt in itertools.count(1):
            try:
                return once()
            except NotSent as cause:
                if lost is None and attempt >= self._tries:
                    raise SiteUnreachable(f"{self._host}:{self._port}: {cause}") from cause
            except AnswerLost as cause:
                until = until if lost is not None else time.monotonic() + retry_for
                lost = cause
            except SiteRefused:
                if lost is None:
                    raise
            rest = pause * CHANCE.uniform(0.5, 1.0)
            if lost is not None and time.monotonic() + rest > until:
                raise lost
            time.sleep(rest)
            pause = min(LONGEST_PAUSE, 2 * pause)
        raise AssertionError

    def _exchange(self, method: str, target: str, body: bytes, timeout: float, key: str | None = None) -> str:
        """One request and its response. NotSent if it was not sent whole, or was turned away."""
        if self._process != os.getpid():
            # The connections of the process that this one was forked from are not ours.
            self._renew()
        with self._places:
            connection = self._connect()
            try:
                return self._talk(connection, method, target, body, timeout, key)
            except BaseException:
                connection.close()
                raise

    def _talk(
        self, connection: http.client.HTTPConnection, method: str, target: str, body: bytes, timeout: float, key: str | None
    ) -> str:
        connection.sock.settimeout(timeout)
        fields = dict(self._fields)
        if body:
            fields["content-type"] = "text/plain"
        if key is not None:
            fields["idempotency-key"] = key
        try:
            # A body with a length is carried out only once its last byte has arrived, so half a request has no effect.
            connection.request(method, target, body or None, fields)
        except OSError as cause:
            raise NotSent(cause) from cause
        try:
            answer = connection.getresponse()
            text = answer.read().decode()
        except http.client.HTTPException as cause:
            raise ConnectionError(f"{type(cause).__name__}: {cause}") from cause
        if answer.will_close:
            connection.close()
        else:
            with self._lock:
                self._idle.append((connection, time.monotonic()))
        if answer.status == 503 and answer.getheader("retry-after"):
            raise NotSent("the site turned the request away: all of its client connections are in use, or it is ending")
        if answer.status >= 500 and not answer.getheader("content-type", "").startswith("text/plain"):
            # It is of a server between here and the site, which got no answer, or did not pass it on.
            raise ConnectionError(f"{answer.status} {answer.reason}")
        if answer.status not in (200, 400, 409, 503) or (body and not text.endswith("\n")):
            raise SiteRefused(f"{method} {target}: {answer.status} {answer.reason}")
        return text

    # ---- connections

    def _renew(self) -> None:
        self._process = os.getpid()
        self._lock = threading.Lock()
        self._places = threading.BoundedSemaphore(self._connections)
        self._idle: list[tuple[http.client.HTTPConnection, float]] = []

    def _connect(self) -> http.client.HTTPConnection:
        """A connection that is open as far as can be known: one that was used before, or a new one."""
        while (connection := self._take_idle()) is not None:
            if is_silent(connection.sock):
                return connection
            connection.close()
        if self._tls is None:
            connection = http.client.HTTPConnection(self._host, self._port, timeout=self._timeout)
        else:
            connection = http.client.HTTPSConnection(self._host, self._port, timeout=self._timeout, context=self._tls)
        try:
            connection.connect()
        except OSError as cause:
            raise NotSent(cause) from cause
        return connection

    def _take_idle(self) -> http.client.HTTPConnection | None:
        """The connection that was used last, if that was less than `IDLE` seconds ago."""
        with self._lock:
            while self._idle:
                connection, since = self._idle.pop()
                if connection.sock is not None and time.monotonic() - since < IDLE:
                    return connection
                connection.close()
        return None


def is_silent(stream: socket.socket) -> bool:
    """Whether an idle connection is silent. Otherwise it has ended."""
    watch = select.poll()
    watch.register(stream, select.POLLIN)
    return not watch.poll(0)


def refusal_raised(reply: str, command: str) -> str:
    """The reply. Raises CommandRefused if it is a refusal."""
    word, _, name = reply.partition(" ")
    if word == "error":
        raise (KeyRefused if name in OF_KEYS else CommandRefused)(name, command)
    return reply


def number_of(reply: str, word: str = "number") -> int:
    """The number of a reply `number N`, or after another word."""
    if found := re.fullmatch(word + r" ([0-9]+)", reply):
        return int(found[1])
    raise SiteRefused(f"not the reply of a site: {reply!r}")


def entries_in(text: str) -> list[LogEntry]:
    """The entries of an export of a log, each with its key, if that follows it."""
    found: list[LogEntry] = []
    for line in text.splitlines():
        words = line.split(" ")
        if words[0] == "E" and len(words) > 4 and words[3].isdecimal():
            found.append(LogEntry(int(words[3]), line))
        elif words[0] == "X" and len(words) == 3 and found and words[2] == str(found[-1].number):
            found[-1] = replace(found[-1], key=words[1])
        else:
            raise SiteRefused(f"not the log of a site: {line!r}")
    return found


def result_of(reply: str) -> Reply:
    """What a reply to a spend, or to a question for its outcome, says."""
    numbered: dict[str, Callable[[int], Reply]] = {"spent": Spent, "queued": Queued}
    if found := re.fullmatch(r"(spent|queued) ([0-9]+)", reply):
        return numbered[found[1]](int(found[2]))
    plain: dict[str, Reply] = {"expired": Expired(), "waiting": Waiting(), "unknown": Unknown()}
    if reply in plain:
        return plain[reply]
    raise SiteRefused(f"not the reply of a site: {reply!r}")


def line_of(command: str) -> bytes:
    """The line of a command. More than one line would get more than one reply."""
    if "\n" in command:
        raise ValueError(f"a command must not contain a line feed: {command!r}")
    return command.encode() + b"\n"


def main() -> None:
    """An example: four processes sell a hundred tickets from one site, which `rights_site.py` starts here."""
    import multiprocessing
    import tempfile

    from rights_site import Site

    def sell(address: str, sold: Any) -> None:
        with SiteClient(address) as site:
            while isinstance(site.spend(1), Spent):
                with sold.get_lock():
                    sold.value += 1

    address, folder = "127.0.0.1:8001", tempfile.TemporaryDirectory()
    once = os.path.join(folder.name, "site-1.started")
    with folder, Site(1, 2, "127.0.0.1:7001", {2: "127.0.0.1:7002"}, http=address, tick=100, once=once) as site:
        print(site.ask("issue 100"))
        fork = multiprocessing.get_context("fork")
        sold: Any = fork.Value("i", 0)
        sellers = [fork.Process(target=sell, args=(address, sold)) for _ in range(4)]
        for seller in sellers:
            seller.start()
        for seller in sellers:
            seller.join()
        print(f"{sold.value} sold; the site spent {site.status()['spent']}")


if __name__ == "__main__":
    with suppress(KeyboardInterrupt):
        main()
