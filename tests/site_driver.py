"""One running site beside its model, for lockstep tests: both get the same inputs, and all that the process says is
compared with what the model says.

The test is all peers of the site: it listens at their addresses, and speaks as each of them. Nothing depends on time:
each input of a peer ends with a query, whose answer shows that all before it was taken in.
"""

import os
import re
import select
import socket
import tempfile
import threading
import time
from contextlib import suppress

from cluster import Site, SiteEnded, at, free_ports
from key_model import USUAL_KEYS
from outputs import shown
from site_model import RunningSite

# Of a line, or of several, so many bytes are told, at most.
SHOWN = 1000
# What is waited for comes within so many seconds, or never, however busy the machine is.
PATIENCE = 40
# The state of a socket that tries to connect, as it stands in the system's table.
TRYING = " 02 "
# After so many seconds a process is killed, whatever it does.
LIFE = 300
# The folder in which each site that is started keeps a new journal, if they keep any.
JOURNALS = None
# How far a journal is, in a status: a site that keeps one may tell that.
FAR = re.compile(rb'"journal":\{[^{}]*\},')


def words_of(command):
    """The words that start a site, for which a path may stand."""
    return list(command) if isinstance(command, (list, tuple)) else [command, "run"]


def with_journal(command):
    """The words that start a site, with a journal of its own if sites keep any."""
    if JOURNALS is None:
        return command
    return [*words_of(command), "--journal", os.path.join(tempfile.mkdtemp(dir=JOURNALS), "journal")]


def with_keys(command, keys):
    """The same with how many keys the site remembers, if that is said."""
    return command if keys is None else [*words_of(command), "--keys", str(keys)]


def comparable(reply):
    """A reply without how far the site's journal is."""
    return reply if JOURNALS is None else FAR.sub(b"", reply, count=1)


class Difference(Exception):
    """What a process says is not what its model says."""

    def __init__(self, what, expected, actual):
        super().__init__(f"{what}\n  expected {text_of(expected)}\n  actual   {text_of(actual)}")


def text_of(value):
    if isinstance(value, bytes) and len(value) > SHOWN:
        return f"{value[:SHOWN].decode(errors='replace')!r} and {len(value) - SHOWN} bytes more"
    return shown(value) if isinstance(value, bytes) or value is None else str(value)


def compare(what, expected, actual):
    """Compares two lists of lines."""
    for place in range(max(len(expected), len(actual))):
        wanted, given = (lines[place] if place < len(lines) else None for lines in (expected, actual))
        if wanted != given:
            raise Difference(f"{what}, line {place + 1} of {len(expected)}:", wanted, given)


class Peer:
    """The test as one peer of a site: what the site sends to it, and what it sends to the site.

    `hears` says whether all that was put into its outbox comes. Where not, a part of it was lost, and what comes
    next is the end of it."""

    def __init__(self, number, is_late=False, host="127.0.0.1"):
        self.number = number
        self.listener = socket.socket()
        self.listener.bind(("127.0.0.1", 0))
        if not is_late:
            self.listener.listen(8)
        self.address = f"{host}:{self.port()}"
        # The connection that the site made, whether its first line was read, and what is not read.
        self.heard = None
        self.is_greeted = False
        self.unread = b""
        # The connection that was made to the site.
        self.spoken = None
        # The first part of a line, and its rest, which was not written yet.
        self.begun = self.rest = b""
        self.hears = not is_late
        # Of a peer that answers no attempt to connect: who takes its only place.
        self.filler = None
        # For so many seconds a connection is waited for that has to come.
        self.patience = PATIENCE

    def port(self):
        return self.listener.getsockname()[1]

    def grow_deaf(self):
        """From now on no attempt to connect is answered: the only place is taken."""
        self.listener.listen(0)
        self.filler = socket.create_connection(self.listener.getsockname())

    def listen(self):
        """Attempts to connect are answered, if they were not."""
        self.listener.listen(8)
        if self.filler:
            self.listener.accept()[0].close()
            self.filler.close()
            self.filler = None

    def accept(self, seconds):
        """Waits for a connection of the site, and reads its first line. Whether one came."""
        self.listener.settimeout(seconds)
        try:
            self.heard, _ = self.listener.accept()
        except (TimeoutError, BlockingIOError):
            return False
        self.heard.settimeout(PATIENCE)
        self.is_greeted, self.unread = False, b""
        return True

    def read_line(self):
        """The next line that the site sends, or None where none comes."""
        while b"\n" not in self.unread:
            try:
                block = self.heard.recv(1 << 16)
            except (TimeoutError, ConnectionResetError):
                return None
            if not block:
                return None
            self.unread += block
        line, self.unread = self.unread.split(b"\n", 1)
        return line

    def close(self):
        for stream in (self.listener, self.heard, self.spoken):
            if stream is not None:
                stream.close()


def pieces(data, cuts):
    """The data cut at these places."""
    places = [0, *sorted(cut for cut in cuts if 0 < cut < len(data)), len(data)]
    return [data[a:b] for a, b in zip(places, places[1:])]


class Node:
    """A process and its model."""

    def __init__(self, number, count, program, late=(), host="127.0.0.1", keys=None):
        """The site is told that its peers are at this host, those of the greatest numbers first, and how many keys it
        remembers, if that is said."""
        self.number, self.count = number, count
        self.model = RunningSite(number, count, keys=USUAL_KEYS if keys is None else keys)
        self.peers = {other: Peer(other, other in late, host) for other in self.model.peers}
        self.site = self.start(with_keys(program, keys))
        self.watch = threading.Timer(LIFE, self.site.process.kill)
        self.watch.daemon = True
        self.watch.start()

    def start(self, program):
        """Starts the process. Another one may take its port first."""
        routes = {other: peer.address for other, peer in sorted(self.peers.items(), reverse=True)}
        for _ in range(5):
            self.port = free_ports(1)[0]
            try:
                return Site(self.number, self.count, at(self.port), routes, with_journal(program))
            except SiteEnded as error:
                ended = error
        raise ended

    def close(self):
        self.watch.cancel()
        self.site.kill()
        for stream in (self.site.process.stdin, self.site.process.stdout):
            with suppress(OSError):
                stream.close()
        for peer in self.peers.values():
            peer.close()

    def next_reply(self):
        """The next reply, or None where none comes."""
        is_there = b"\n" in self.site._unread
        if is_there or select.select([self.site.process.stdout], [], [], PATIENCE)[0]:
            return self.site._reply().encode()
        return None

    # ---- inputs

    def give_commands(self, lines, cuts=(), pause=0):
        """Commands, in one or more writes, with so many seconds between two of them. Compares the replies."""
        expected = [reply for reply in map(self.model.reply, lines) if reply is not None]
        for piece in pieces(b"".join(line + b"\n" for line in lines), cuts):
            self.site.process.stdin.write(piece)
            time.sleep(pause)
        self.compare_replies(lines, expected)

    def compare_replies(self, lines, expected):
        """Reads as many replies as are expected to these lines, and compares them."""
        actual = []
        while len(actual) < len(expected) and (reply := self.next_reply()) is not None:
            actual.append(comparable(reply))
        compare(f"the replies to {text_of(b' / '.join(lines))}", expected, actual)

    def speak(self, peer, data):
        """Writes as a peer, on a connection that is made where none stands."""
        if peer.spoken is None:
            peer.spoken = self.connect()
            data = b"H %d\n" % peer.number + data
        peer.spoken.sendall(data)

    def give_lines(self, number, lines, cuts=(), pause=0):
        """Lines of a peer, and a query behind them: once its answer came, all of them were taken in."""
        peer = self.peers[number]
        lines = [*lines, b"Q %d %d 1 1" % (number, self.number)]
        if peer.begun:
            lines.insert(0, peer.begun + peer.rest)
        for line in lines:
            self.model.hear(number, line)
        data = b"".join(line + b"\n" for line in lines)[len(peer.begun) :]
        peer.begun = b""
        for piece in pieces(data, cuts):
            self.speak(peer, piece)
            time.sleep(pause)

    def give_last_lines(self, number, lines):
        """Lines of a peer, behind which its connection ends."""
        peer = self.peers[number]
        for line in lines:
            self.model.hear(number, line)
        self.speak(peer, b"".join(line + b"\n" for line in lines))
        peer.spoken.shutdown(socket.SHUT_WR)
        self.settle()
        peer.spoken.close()
        peer.spoken = None

    def begin_line(self, number, part, rest):
        """The first part of a line of a peer. The rest comes before its next lines."""
        peer = self.peers[number]
        if peer.spoken is None:
            # Of two connections the newer one is that whose first line is read later.
            self.give_lines(number, [])
            self.settle()
        self.speak(peer, part)
        peer.begun, peer.rest = part, rest

    # ---- what it says

    def settle(self):
        """Compares the lines that go to each peer, and then the status. The lines that came, by peer."""
        came = self.settle_lines()
        self.compare_status()
        return came

    def settle_lines(self):
        """Compares the lines that go to each peer. The lines that came, by peer."""
        return {number: self.compare_lines(peer) for number, peer in self.peers.items() if peer.hears}

    def compare_lines(self, peer):
        if self.model.outboxes[peer.number].dropped:
            raise AssertionError("an input of more lines than an outbox has room for")
        expected = self.model.take(peer.number)
        if not expected:
            actual = []
        elif peer.heard is None and not peer.accept(peer.patience):
            raise Difference(f"the first line for peer {peer.number}", expected[0], None)
        else:
            actual = self.read_lines(peer, len(expected))
        compare(f"the lines for peer {peer.number}", expected, actual)
        if peer.unread:
            raise Difference(f"one more line for peer {peer.number}", None, peer.unread)
        return actual

    def read_lines(self, peer, count):
        if not peer.is_greeted:
            self.compare_hello(peer, peer.read_line())
        lines = []
        while len(lines) < count and (line := peer.read_line()) is not None:
            lines.append(line)
        return lines

    def compare_hello(self, peer, line):
        """Compares the first line of a connection that the site made."""
        compare(f"the first line for peer {peer.number}", [b"H %d" % self.number], [line])
        peer.is_greeted = True

    def compare_status(self):
        """Asks for the status until it is the model's: entries are applied a little after they came."""
        expected = self.model.reply(b"status")
        until = time.monotonic() + PATIENCE
        while (actual := comparable(self.site.ask("status").encode())) != expected:
            # Another reply would be one too many to a command before.
            if time.monotonic() > until or not actual.startswith(b"{"):
                raise Difference("the status", expected, actual)
            time.sleep(0.001)

    # ---- connections

    def renew(self, number, is_closed_first):
        """Makes a new connection as a peer. What was begun on the old one is lost."""
        peer = self.peers[number]
        old, peer.spoken, peer.begun = peer.spoken, None, b""
        if old is None:
            return
        if is_closed_first:
            old.close()
        else:
            self.give_lines(number, [])
            self.settle()
            self.expect_end(old, "the connection that a newer one took the place of")

    def expect_end(self, stream, what):
        stream.settimeout(PATIENCE)
        try:
            said = stream.recv(1)
        except ConnectionResetError:
            said = b""
        except TimeoutError:
            said = None
        stream.close()
        if said != b"":
            raise Difference(what, "its end", said)

    def connect(self):
        """A connection that says nothing yet."""
        stream = socket.create_connection(("127.0.0.1", self.port), PATIENCE)
        stream.setsockopt(socket.IPPROTO_TCP, socket.TCP_NODELAY, 1)
        return stream

    def meet_stranger(self, text, ends=False):
        """A connection whose first line is none is closed, and nothing is said. Where it `ends`, nothing comes behind
        the text."""
        with self.connect() as stream:
            # It may be closed before all was written.
            with suppress(BrokenPipeError, ConnectionResetError):
                stream.sendall(text)
                if ends:
                    stream.shutdown(socket.SHUT_WR)
            self.expect_end(stream, f"a connection whose first line is {text_of(text)}")

    def cut(self, number):
        """Closes the connection that the site made to a peer. Lines may be lost from now on."""
        peer = self.peers[number]
        if peer.heard is not None:
            peer.heard.close()
            peer.heard, peer.hears = None, False

    def restore(self, number):
        """The site connects to the peer again. What comes is the end of what it was to send since the peer was cut
        off, up to a last answer."""
        peer = self.peers[number]
        if peer.hears:
            return
        was_deaf = peer.filler is not None
        peer.listen()
        # An attempt may have been given up when it was answered at last: it brings no line.
        for _ in range(3):
            if not (peer.accept(PATIENCE) if was_deaf else self.tick_until_connected(peer)):
                raise Difference(f"peer {number} was cut off, and hears again", "a connection", None)
            if (hello := peer.read_line()) is not None:
                break
        self.compare_hello(peer, hello)
        actual = [peer.read_line()]
        expected = self.model.take(number)
        self.give_lines(number, [])
        expected += self.model.take(number)
        while actual[-1] not in (None, expected[-1]):
            actual.append(peer.read_line())
        compare(f"the last lines for peer {number}", expected[-len(actual) :], actual)
        peer.hears = True

    def tick_until_connected(self, peer):
        """A connection is made for a line, and for one after it where an old one ended meanwhile."""
        for _ in range(100):
            self.give_commands([b"tick %d" % self.model.desk.now])
            self.settle()
            if peer.accept(0.02):
                return True
        return False

    def fill_outboxes(self, commands, note=lambda *words: None):
        """Gives commands while no peer answers an attempt to connect: of the lines for each one is at the attempt, and the
        others wait. Then all hear again. Whether the first attempts lasted so long: where not, it is not known what was
        lost."""
        peers = list(self.peers.values())
        note("a first tick")
        attempts = self.begin_attempts(peers)
        note("ticks of many entries")
        try:
            self.give_commands(commands)
        except Difference:
            if self.attempts(peers) == attempts:
                raise
            return False
        if self.attempts(peers) != attempts:
            return False
        # Once a line left each outbox, the answer that shows all to be read finds room.
        if self.new_attempts(peers, attempts, PATIENCE) is None:
            raise Difference("no peer answers an attempt to connect", "one more attempt for each", "less")
        for peer in peers:
            note("peer", peer.number, "hears again")
            self.restore(peer.number)
            self.settle()
        return True

    def begin_attempts(self, peers):
        """One line goes to each of these peers, none of which will answer the attempt to connect: the attempts, or None
        where not all were seen."""
        for peer in peers:
            peer.grow_deaf()
        self.give_commands([b"tick 0"])
        for peer in peers:
            self.model.take(peer.number)
        return self.new_attempts(peers, {}, 1)

    def new_attempts(self, peers, last, seconds):
        """Waits for attempts to connect to each of the peers that are none of the last ones. None where they are not
        all seen."""
        until = time.monotonic() + seconds
        while time.monotonic() < until:
            found = self.attempts(peers)
            if all(port in found and found[port] != last.get(port) for port in map(Peer.port, peers)):
                return found
            time.sleep(0.001)
        return None

    def attempts(self, peers):
        """By the port of each peer to which the site tries to connect: the address from which it does."""
        with open("/proc/net/tcp") as table:
            rows = [row.split()[1:3] for row in table if TRYING in row]
        own_by_port = {int(other.split(":")[1], 16): own for own, other in rows}
        return {port: own_by_port[port] for port in map(Peer.port, peers) if port in own_by_port}

    def unsent(self, peer):
        """How many bytes wait in the site's connection to a peer that does not read them."""
        own, other = (f":{port:04X}" for port in (peer.heard.getpeername()[1], peer.port()))
        with open("/proc/net/tcp") as table:
            rows = (row.split() for row in table)
            queues = (row[4] for row in rows if row[1].endswith(own) and row[2].endswith(other))
            return sum(int(queue.split(":")[0], 16) for queue in queues)

    # ---- the end

    def end(self, by_quit):
        """Ends the process, which says nothing more."""
        if by_quit:
            self.site.process.stdin.write(b"quit\nissue 1\n")
        self.site.process.stdin.close()
        status = self.site.process.wait(PATIENCE)
        said = self.site._unread + self.site.process.stdout.read()
        ended = [b"%d" % status, said, self.site.said().encode()]
        compare("the exit status, the standard output and error at the end", [b"0", b"", b""], ended)
        for peer in self.peers.values():
            if peer.hears and peer.heard is not None:
                said = peer.unread or self.rest_of(peer)
                if said != b"":
                    raise Difference(f"the lines for peer {peer.number} at the end", b"", said)

    def rest_of(self, peer):
        try:
            return peer.heard.recv(1 << 16)
        except ConnectionResetError:
            return b""
        except TimeoutError:
            return None
