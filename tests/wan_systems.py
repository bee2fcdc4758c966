"""Three ways to sell one stock at three places that are far apart, for tests/wan.py.

Each is a context manager that is given a phase, starts its servers, and has a client for each place. A client's `spend`
sells one, and says what came of it. In a phase with a place that is killed all servers write to disk what they answer,
before they do.
"""

import os
import socket
import tempfile
import threading
import time
from contextlib import ExitStack

from cluster import at, wait_for
from journal_kit import Journaled
from redis_server import ALWAYS, SCRIPT, Redis, redis_says, redis_script, redis_words
from wan_links import Links
from web_driver import Client, WebCluster, post
from web_sale import status_of

PLACES = {1: "East", 2: "West", 3: "Europe"}
# Milliseconds there and back.
ROUND_TRIPS = {(1, 2): 80, (1, 3): 96, (2, 3): 160}
# So often a site ticks, and so often counters are told to other places, in milliseconds.
TICK = 20
# So many seconds a buyer waits.
PATIENCE = 1.0
# The place of the one server of the strong system.
CENTRE = 1

SOLD, REFUSED, UNANSWERED = "sold", "refused", "unanswered"


class Sites:
    """A running site at each place. It sells what it holds, and asks others for what it lacks."""

    name = "rights-site"

    def __init__(self, phase):
        self.links = Links(ROUND_TRIPS)
        kind = WebCluster if phase.killed is None else Journaled
        self.sites = kind(len(PLACES), started=[], tick=TICK)
        for here in PLACES:
            for there in PLACES:
                if here != there:
                    self.sites.routes[here, there] = at(self.links.to(self.sites.ports[there - 1], here, there))
        self.shares = phase.shares

    def __enter__(self):
        self.stack = ExitStack()
        self.stack.enter_context(self.links)
        self.stack.enter_context(self.sites)
        for place in PLACES:
            self.sites.start(place)
        gifts = [f"give {place} {share}" for place, share in self.shares.items() if place != CENTRE]
        self.sites.command(f"issue {sum(self.shares.values())}", *gifts, number=CENTRE)
        wait_for("each site has its share", lambda: self.statuses(lambda place, it: it["held"] == self.shares[place]))
        return self

    def __exit__(self, *_):
        self.stack.close()
        return False

    def client(self, place):
        return AtSite(self.sites.address(place))

    def kill(self, place):
        self.sites[place].kill()

    def restart(self, place):
        """Returns once the site answers."""
        self.sites.start(place)

    def statuses(self, holds):
        """What the sites say, where that holds of each of them."""
        found = {place: status_of(self.sites, place) for place in PLACES}
        return found if all(holds(place, it) for place, it in found.items()) else None

    def settle(self):
        """Once each site knows all logs: what was sold."""

        def at_rest():
            found = self.statuses(lambda place, it: it["queued"] == 0)
            return found and all(
                peer["applied"] == found[peer["site"]]["number"] for it in found.values() for peer in it["peers"]
            ) and found

        found = wait_for("all sites know all logs", at_rest, 30)
        sold = sum(it["spent"] for it in found.values())
        held = sum(it["held"] for it in found.values())
        assert sold + held == sum(self.shares.values()), found
        return sold


class AtSite:
    """A client of a site, over one connection. Where that ends it connects again."""

    def __init__(self, address):
        self.address = address
        self.client = Client(address)

    def spend(self):
        answer = self.ask(post(f"spend 1 {int((time.time() + PATIENCE) * 1000)}", target="/wait"))
        if answer is None:
            return UNANSWERED
        if answer.body.startswith(b"spent "):
            return SOLD
        assert answer.body == b"expired\n", answer
        return REFUSED

    def ask(self, request):
        """The answer, or None where none comes."""
        try:
            if self.client is None:
                self.client = Client(self.address)
            self.client.send(request)
            answer = self.client.read(may_end=True)
        except OSError:
            answer = None
        if answer is None and self.client is not None:
            self.client.close()
            self.client = None
        return answer


class Servers:
    """Redis servers at places, each with a script. Where one of them is killed in the phase, all write what they do to disk."""

    def __init__(self, phase, places, script):
        self.stack = ExitStack()
        folder = self.stack.enter_context(tempfile.TemporaryDirectory())
        self.script, self.servers = script, {}
        for place in places:
            own = os.path.join(folder, str(place))
            os.mkdir(own)
            self.servers[place] = Redis(own, *(() if phase.killed is None else ALWAYS))
            self.stack.callback(self.servers[place].kill)
        self.ports = {place: server.port for place, server in self.servers.items()}
        self.digests = {place: redis_script(port, script) for place, port in self.ports.items()}

    def __enter__(self):
        return self

    def __exit__(self, *_):
        self.stack.close()
        return False

    def kill(self, place):
        self.servers[place].kill()

    def restart(self, place):
        """Returns once the server runs scripts again, which it does not write to disk."""
        self.servers[place].start()
        redis_script(self.ports[place], self.script)


class Strong:
    """One Redis, which all places must reach. It takes one off where there is one."""

    name = "Redis in East"

    def __init__(self, phase):
        self.links = Links(ROUND_TRIPS)
        self.phase, self.stock = phase, phase.stock()

    def __enter__(self):
        self.stack = ExitStack()
        servers = self.stack.enter_context(Servers(self.phase, [CENTRE], SCRIPT))
        self.kill, self.restart, self.port = servers.kill, servers.restart, servers.ports[CENTRE]
        redis_says(self.port, redis_words(b"SET", b"stock", b"%d" % self.stock))
        self.request = redis_words(b"EVALSHA", servers.digests[CENTRE], b"1", b"stock", b"1")
        self.ports = {place: self.links.to(self.port, place, CENTRE) for place in PLACES}
        self.stack.enter_context(self.links)
        return self

    def __exit__(self, *_):
        self.stack.close()
        return False

    def client(self, place):
        return AtRedis(self.ports[place], self.request)

    def settle(self):
        time.sleep(max(ROUND_TRIPS.values()) / 1000)
        return self.stock - int(redis_says(self.port, redis_words(b"GET", b"stock")).split(b"\r\n")[1])


# Sells one where all that is known to be sold, here and elsewhere, leaves one.
ALONE = b"""
local left = tonumber(ARGV[1])
for _, sold in ipairs(redis.call('HVALS', KEYS[1])) do left = left - tonumber(sold) end
if left < 1 then return -1 end
return redis.call('HINCRBY', KEYS[1], ARGV[2], 1)
"""


class Weak:
    """A Redis at each place, which counts what it sold itself, and is told of the counts of the others."""

    name = "counters added up later"

    def __init__(self, phase):
        self.links = Links(ROUND_TRIPS)
        self.phase, self.stock = phase, phase.stock()
        self.is_over = threading.Event()

    def __enter__(self):
        self.stack = ExitStack()
        servers = self.stack.enter_context(Servers(self.phase, PLACES, ALONE))
        self.kill, self.restart, self.ports, self.digests = servers.kill, servers.restart, servers.ports, servers.digests
        others = {
            here: [self.links.to(port, here, there) for there, port in self.ports.items() if there != here] for here in PLACES
        }
        self.stack.enter_context(self.links)
        self.tellers = [threading.Thread(target=self.tell, args=(place, others[place]), daemon=True) for place in PLACES]
        for teller in self.tellers:
            teller.start()
        return self

    def __exit__(self, *_):
        self.is_over.set()
        for teller in self.tellers:
            teller.join()
        self.stack.close()
        return False

    def client(self, place):
        request = redis_words(b"EVALSHA", self.digests[place], b"1", b"sold", b"%d" % self.stock, b"%d" % place)
        return AtRedis(self.ports[place], request)

    def tell(self, place, others):
        """Tells the other places again and again how many were sold here, and waits for no answer."""
        tellers = [Teller(port) for port in others]
        while not self.is_over.wait(TICK / 1000):
            try:
                sold = self.sold(place)
            except OSError:
                # It was killed.
                continue
            for teller in tellers:
                teller.tell(redis_words(b"HSET", b"sold", b"%d" % place, b"%d" % sold))
        for teller in tellers:
            teller.close()

    def sold(self, place):
        reply = redis_says(self.ports[place], redis_words(b"HGET", b"sold", b"%d" % place))
        if reply.startswith(b"-LOADING "):
            raise ConnectionError("the server reads its file")
        return 0 if reply.startswith(b"$-1") else int(reply.split(b"\r\n")[1])

    def settle(self):
        return sum(map(self.sold, PLACES))


class Teller:
    """Sends to a port, and waits for no answer. Where the connection ends it connects again."""

    def __init__(self, port):
        self.port, self.stream = port, None

    def tell(self, request):
        try:
            if self.stream is None:
                self.stream = socket.create_connection(("127.0.0.1", self.port))
                self.stream.setblocking(False)
            self.stream.send(request)
            if not self.stream.recv(1 << 16):
                self.close()
        except BlockingIOError:
            pass
        except OSError:
            self.close()

    def close(self):
        if self.stream is not None:
            self.stream.close()
            self.stream = None


class AtRedis:
    """A client of a Redis, over one connection. Where no answer comes it connects again."""

    def __init__(self, port, request):
        self.port, self.request = port, request
        self.connect()

    def connect(self):
        self.stream = socket.create_connection(("127.0.0.1", self.port), PATIENCE)
        self.stream.setsockopt(socket.IPPROTO_TCP, socket.TCP_NODELAY, 1)

    def spend(self):
        reply = self.ask()
        # A server that was just started reads its file, and then is told the script.
        if reply.startswith((b"-LOADING ", b"-NOSCRIPT ")) or not reply:
            return UNANSWERED
        assert reply.startswith(b":") and reply.endswith(b"\r\n"), reply
        return REFUSED if reply == b":-1\r\n" else SOLD

    def ask(self):
        """The reply; no bytes where none comes."""
        reply = b""
        try:
            if self.stream is None:
                self.connect()
            self.stream.sendall(self.request)
            reply = self.stream.recv(1 << 12)
        except OSError:
            pass
        if not reply and self.stream is not None:
            self.stream.close()
            self.stream = None
        return reply
