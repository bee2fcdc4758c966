"""What is between the sites: proxies that pass lines on or lose them, and a witness that reads them. And what is between
buyers and a site: a proxy that breaks their connections now and then."""

import collections
import random
import socket
import threading
from contextlib import suppress


class Witness:
    """Knows the sites' logs from the lines that passed, so that it can compute what is in transit."""

    def __init__(self):
        self.lock = threading.Lock()
        # For each origin, by the number before an entry: its own number and its moves.
        self.entries = {}

    def see(self, line):
        """Records each entry of a line: a single one, or those of an answer."""
        for part in line.decode("ascii", "replace").rstrip("\n").split(";"):
            fields = part.split(" ")
            if fields[0] == "E":
                origin, before, own = map(int, fields[1:4])
                with self.lock:
                    self.entries.setdefault(origin, {})[before] = (own, fields[4:])

    def log(self, origin):
        """The entries of a log from its beginning, as far as they were seen: each as (before, own, moves)."""
        with self.lock:
            entries = dict(self.entries.get(origin, {}))
        before, log = 0, []
        while before in entries:
            own, moves = entries[before]
            log.append((before, own, moves))
            before = own
        return log

    def ways(self, numbers, applied):
        """The rights in transit to each site, if each log ends at its number and `applied` has what a site applied
        of an origin, by (site, origin). None if the end of a log was not seen yet."""
        ways = dict.fromkeys(numbers, 0)
        for origin, number in numbers.items():
            log = [entry for entry in self.log(origin) if entry[1] <= number]
            if (log[-1][1] if log else 0) != number:
                return None
            for before, _, moves in log:
                for kind, peer, amount in gifts_and_backs(moves):
                    if kind == "V":
                        ways[peer] -= amount
                    elif before >= applied[peer, origin]:
                        ways[peer] += amount
        return ways

    def taken_back(self):
        """What each site reclaimed from each closed one, by (site, closed)."""
        sums = {}
        for origin in list(self.entries):
            for _, _, moves in self.log(origin):
                for kind, peer, amount in gifts_and_backs(moves):
                    if kind == "V":
                        sums[origin, peer] = sums.get((origin, peer), 0) + amount
        return sums


def gifts_and_backs(moves):
    """The grants (G), gifts (R) and reclaims (V) among these moves: each as (kind, peer, amount)."""
    for move in moves:
        words = move.split(":")
        if words[0] in ("G", "R", "V"):
            yield words[0], int(words[1]), int(words[2])


class Proxy:
    """Passes lines on from one site to another, except those that `passes` rejects."""

    def __init__(self, target):
        self.target = target
        self.server = socket.create_server(("127.0.0.1", 0))
        self.address = f"127.0.0.1:{self.server.getsockname()[1]}"
        threading.Thread(target=self.accept, daemon=True).start()

    def passes(self, line):
        return True

    def accept(self):
        # Once the listener is closed, it accepts no further connection.
        with suppress(OSError):
            while True:
                self.newest, _ = self.server.accept()
                threading.Thread(target=self.carry, args=(self.newest,), daemon=True).start()

    def carry(self, stream):
        host, port = self.target.split(":")
        # If one of the two ends, the other sees its connection end.
        with stream, suppress(OSError), socket.create_connection((host, int(port))) as out:
            out.setsockopt(socket.IPPROTO_TCP, socket.TCP_NODELAY, 1)
            for line in stream.makefile("rb"):
                if self.passes(line):
                    out.sendall(line)


class Link(Proxy):
    """A link of the sale. While it is cut, all lines are lost but the first of a connection."""

    def __init__(self, target, witness):
        self.witness = witness
        self.is_cut = False
        self.lost = 0
        super().__init__(target)

    def passes(self, line):
        self.witness.see(line)
        is_lost = self.is_cut and not line.startswith(b"H")
        self.lost += is_lost
        return not is_lost


class Front(Proxy):
    """Where the buyers of a site come: passes their requests and its answers on, and breaks a connection now and then. The
    request may have reached the site by then, or not; and the answer may have been on its way."""

    def __init__(self, target, chance, odds):
        """A connection breaks at one of so many blocks of bytes."""
        self.chance = chance
        self.odds = odds
        self.broken = 0
        super().__init__(target)

    def carry(self, stream):
        host, port = self.target.split(":")
        with stream, suppress(OSError), socket.create_connection((host, int(port))) as out:
            out.setsockopt(socket.IPPROTO_TCP, socket.TCP_NODELAY, 1)
            answers = threading.Thread(target=self.pass_on, args=(out, stream), daemon=True)
            answers.start()
            self.pass_on(stream, out)
            answers.join()

    def pass_on(self, source, target):
        """Passes on what comes, until one of the two ends, or the connection breaks. Then both end."""
        with suppress(OSError):
            while block := source.recv(1 << 16):
                # It breaks before this block is passed on, or behind it, or not.
                lot = self.chance.randrange(2 * self.odds)
                self.broken += lot < 2
                if lot > 0:
                    target.sendall(block)
                if lot < 2:
                    break
        for end in (source, target):
            with suppress(OSError):
                end.shutdown(socket.SHUT_RDWR)


# The ports that were given out last. Who asks twice before its sites listen gets no port twice.
given_ports = collections.deque(maxlen=4_000)


def free_ports(count):
    """Ports on which no process listened a moment ago, of those that the system gives to no connection that goes out."""
    sockets, ports = [], []
    while len(ports) < count:
        port = random.SystemRandom().randrange(10_000, 32_000)
        if port not in given_ports:
            with suppress(OSError):
                sockets.append(socket.create_server(("127.0.0.1", port)))
                ports.append(port)
    given_ports.extend(ports)
    for each in sockets:
        each.close()
    return ports
