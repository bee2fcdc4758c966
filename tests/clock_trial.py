"""A site that ticks by itself, for checks: the test is all its peers, and notes when their lines came. What such a site says
depends on time, so it is compared with no model: a check says what has to come, and not before when.

A busy machine makes all come later. So a check never asks that something comes soon, but only that it comes, and that what
has to wait does not come too early."""

import json
import socket
import threading
import time
from contextlib import contextmanager, suppress

import site_driver
from cluster import Site, SiteEnded, at, expect, free_ports
from site_driver import Difference, with_journal

# A peer that is to be heard says something as often, in seconds.
BEAT_SECONDS = 0.1
# So much earlier than it should, something may seem to come, in milliseconds: clocks are read in whole ones.
SLACK = 20
# While this time passes, what does not come does not come at all, in seconds.
REST = 0.4


def wall_clock():
    """The milliseconds since 1970."""
    return time.time_ns() // 1_000_000


class Ear:
    """The test as one peer of a site that ticks by itself: it reads all that the site sends, at once."""

    def __init__(self, number):
        self.number = number
        self.listener = socket.create_server(("127.0.0.1", 0))
        self.address = at(self.listener.getsockname()[1])
        # Each line that came, after the first one of its connection, and when, in seconds.
        self.lines = []
        self.hellos = []
        self.spoken, self.lock = None, threading.Lock()
        # When it spoke last, in seconds.
        self.spoke_at = 0.0
        # While it is set, the peer says as often that its log ends there.
        self.beats = None
        threading.Thread(target=self.hear_all, daemon=True).start()

    def hear_all(self):
        with suppress(OSError):
            while True:
                stream, _ = self.listener.accept()
                threading.Thread(target=self.hear, args=(stream,), daemon=True).start()

    def hear(self, stream):
        with suppress(OSError), stream, stream.makefile("rb") as lines:
            self.hellos.append(lines.readline())
            for line in lines:
                self.lines.append((time.monotonic(), line.decode(errors="replace").rstrip("\n")))

    def said(self, since=0):
        return [line for _, line in self.lines[since:]]

    def speak(self, port, *lines):
        """Says these lines to the site, on a connection that is made where none stands."""
        text = b"".join(line.encode() + b"\n" for line in lines)
        with self.lock:
            if self.spoken is None:
                self.spoken = socket.create_connection(("127.0.0.1", port), site_driver.PATIENCE)
                text = b"H %d\n" % self.number + text
            self.spoke_at = time.monotonic()
            self.spoken.sendall(text)

    def close(self):
        self.beats = None
        for stream in (self.listener, self.spoken):
            if stream is not None:
                # Who waits for a connection ends too.
                with suppress(OSError):
                    stream.shutdown(socket.SHUT_RDWR)
                stream.close()


class OwnTicks:
    """A site that ticks by itself, every so many milliseconds, in a system whose other sites are the test."""

    def __init__(self, command, tick, silent=None, count=3):
        self.peers = {number: Ear(number) for number in range(2, count + 1)}
        self.begun = time.monotonic()
        self.site = self.start(command, tick, silent, count)
        self.is_over = threading.Event()
        threading.Thread(target=self.beat_all, daemon=True).start()

    def start(self, command, tick, silent, count):
        """Starts the process. Another one may take its port first."""
        routes = {number: peer.address for number, peer in self.peers.items()}
        for _ in range(5):
            self.port, words = free_ports(1)[0], with_journal(command)
            try:
                return Site(1, count, at(self.port), routes, words, tick=tick, silent=silent, timeout=site_driver.PATIENCE)
            except SiteEnded as error:
                ended = error
        raise ended

    def close(self):
        self.is_over.set()
        self.site.kill()
        for stream in (self.site.process.stdin, self.site.process.stdout):
            with suppress(OSError):
                stream.close()
        for peer in self.peers.values():
            peer.close()

    # ---- commands

    def say(self, *commands):
        """Commands, one after the other, and their replies."""
        return [self.site.ask(command) for command in commands]

    def expect(self, command, reply):
        """A command that is answered so."""
        if (actual := self.site.ask(command)) != reply:
            raise Difference(f"the reply to {command!r}", reply, actual)

    def expect_all(self, reply, *commands):
        for command in commands:
            self.expect(command, reply)

    def queue(self):
        """The deadline of each spend that waits, by its ticket."""
        return {request["ticket"]: request["deadline"] for request in json.loads(self.site.ask("queue"))["requests"]}

    # ---- peers

    def hear(self, peer, *lines):
        """Lines of a peer, all of which were taken in once this returns: the answer to a query that follows came."""
        ear = self.peers[peer]
        count = sum(line.startswith("A ") for line in ear.said())
        ear.speak(self.port, *lines, f"Q {peer} 1 1 1")
        self.wait_for(f"an answer to site {peer}", lambda: sum(line.startswith("A ") for line in ear.said()) > count)

    def keep_beating(self, peer, number):
        """From now on the peer says again and again that its log ends at this number."""
        self.peers[peer].beats = f"B {peer} {number}"

    def beat_all(self):
        while not self.is_over.wait(BEAT_SECONDS):
            for peer in self.peers.values():
                # Its connection may end meanwhile.
                if (beats := peer.beats) is not None:
                    with suppress(OSError):
                        peer.speak(self.port, beats)

    # ---- what comes

    def wait_for(self, what, condition):
        until = time.monotonic() + site_driver.PATIENCE
        while not (found := condition()):
            if time.monotonic() > until:
                raise Difference(what, "that it comes", "it does not")
            time.sleep(0.005)
        return found

    def wait_for_line(self, peer, line, since=0):
        """Waits until this line comes to a peer, after so many others, and answers when it came, in seconds."""
        ear = self.peers[peer]

        def place():
            said = ear.said(since)
            return said.index(line) + 1 if line in said else 0

        return ear.lines[since + self.wait_for(f"the line {line!r} to peer {peer}", place) - 1][0]

    def wait_for_ticks(self, peer, count):
        """Waits for so many more beats to a peer, and answers the lines that came until then, in order."""
        ear, since = self.peers[peer], len(self.peers[peer].lines)

        def are_there():
            return sum(line.startswith("B ") for line in ear.said(since)) >= count

        self.wait_for(f"{count} beats to peer {peer}", are_there)
        return ear.said(since)

    def expect_no_ask(self, peer, what, since=0):
        asks = [line for line in self.peers[peer].said(since) if line.startswith("W ")]
        if asks:
            raise Difference(what, f"no ask to peer {peer}", asks[0])

    # ---- the end

    def end(self, by_quit=True):
        """Ends the process, which says nothing more, and answers the lines that came to each peer."""
        process = self.site.process
        with suppress(BrokenPipeError):
            process.stdin.write(b"quit\nissue 1\n" if by_quit else b"")
            process.stdin.close()
        status = process.wait(site_driver.PATIENCE)
        said = self.site._unread + process.stdout.read()
        expect((status, said, self.site.said()), (0, b"", ""), "the exit status, the standard output and error at the end")


class ClockTrial:
    """What makes sites that tick by themselves, for one check."""

    def __init__(self, command):
        self.command = command

    def __enter__(self):
        return self

    def __exit__(self, *_):
        return False

    def finish(self):
        """Each site has ended."""

    @contextmanager
    def site(self, tick, silent=None, count=3):
        """A site that ends well once the check is done with it, unless it has ended it."""
        site = OwnTicks(self.command, tick, silent, count)
        try:
            yield site
            if site.site.process.poll() is None:
                site.end()
        finally:
            site.close()
