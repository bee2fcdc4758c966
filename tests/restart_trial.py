"""A site that is killed and started again by the same command, for checks: the test is all its peers, and keeps all that
the site told anyone. What a site may forget differs between implementations, so it is compared with no model: after each
restart all that it told has to stand, and a check says what has to come besides."""

import itertools
import json
import os
import select
import signal
import socket
import subprocess
import tempfile
import threading
import time
from contextlib import contextmanager, suppress

import site_driver
from clock_trial import Ear
from cluster import Site, SiteEnded, at, expect, free_ports
from journal_kit import Entry, number_of
from line_model import MOST_ANSWERED
from site_driver import Difference, with_keys, words_of
from told import fault_of_asks, fault_of_entries, fault_of_replies

# A start takes so many seconds at most: on a busy machine an interpreter has much to load.
START_SECONDS = 120
# Queries that are sent together.
AT_ONCE = 100
# What a status object says that never becomes less.
GROWS = ("closed", "issued", "number", "received", "spent")


class Listener(Ear):
    """A peer that knows when it has read all that was sent by a process which has ended. What is no whole line is none."""

    def __init__(self, number):
        # The ports of the connections that came, and how many of them have not ended.
        self.came, self.open, self.counts = set(), 0, threading.Lock()
        super().__init__(number)

    def hear_all(self):
        with suppress(OSError):
            while True:
                stream, (_, port) = self.listener.accept()
                with self.counts:
                    self.open += 1
                    self.came.add(port)
                threading.Thread(target=self.hear, args=(stream,), daemon=True).start()

    def hear(self, stream):
        with suppress(OSError), stream, stream.makefile("rb") as lines:
            self.hellos.append(lines.readline())
            for line in lines:
                if line.endswith(b"\n"):
                    self.lines.append((time.monotonic(), line[:-1].decode(errors="replace")))
        with self.counts:
            self.open -= 1

    def has_read_all(self, port):
        """Whether the connection from this port has come, and each one before it has ended."""
        with self.counts:
            return port in self.came and self.open == 0

    def begin_anew(self):
        """The process at the other end has ended: reads what it sent. It is spoken to over a new connection."""
        if self.spoken is not None:
            self.spoken.close()
            self.spoken = None
        with socket.create_connection(self.listener.getsockname()) as stream:
            port = stream.getsockname()[1]
        wait_for(f"the end of all connections to site {self.number}", lambda: self.has_read_all(port))


def wait_for(what, condition):
    """Waits until the condition holds, and answers its value."""
    until = time.monotonic() + site_driver.PATIENCE
    while not (found := condition()):
        if time.monotonic() > until:
            raise Difference(what, "that it comes", "it does not")
        time.sleep(0.002)
    return found


class Survivor:
    """A site with a journal, which may be killed, in a system whose other sites are the test."""

    def __init__(self, command, count=3, number=1, keys=None):
        self.command, self.count, self.number = words_of(command), count, number
        # How many keys it is told to remember, if it is: a check may change that before a start.
        self.keys = keys
        self.room = tempfile.TemporaryDirectory(prefix="survivor-")
        self.path = os.path.join(self.room.name, "journal")
        self.peers = {other: Listener(other) for other in range(1, count + 1) if other != number}
        # All commands with their replies, None where none came, and all status objects.
        self.replies, self.statuses, self.time = [], [], 0
        # How many lines each peer had heard when the site was killed last, and what was applied by then.
        self.heard, self.applied = dict.fromkeys(self.peers, 0), dict.fromkeys(self.peers, 0)
        self.site, self.port = None, free_ports(1)[0]
        # While the site is down, the test has its port, so that no other process gets it.
        self.held = None
        # How long its last start took.
        self.seconds = 0.0

    # ---- the process

    def words(self, port=None, number=None, count=None):
        """The words that start the site, or another one on the same file."""
        number, count = number or self.number, count or self.count
        words = [*self.begin(), "--id", str(number), "--sites", str(count)]
        words += ["--listen", at(port or self.port)]
        known = {other: peer.address for other, peer in self.peers.items()}
        others = [other for other in range(1, count + 1) if other != number]
        return words + [f"{other}={known.get(other, at(self.port))}" for other in others]

    def begin(self):
        """The first of these words."""
        return [*with_keys(self.command, self.keys), "--journal", self.path]

    def start(self):
        """By the same command each time. Another process may have the port for a moment."""
        self.hold(False)
        until = time.monotonic() + site_driver.PATIENCE
        routes = {number: peer.address for number, peer in self.peers.items()}
        while True:
            begun = time.monotonic()
            try:
                self.site = Site(self.number, self.count, at(self.port), routes, self.begin(), timeout=START_SECONDS)
                self.site.timeout, self.seconds = site_driver.PATIENCE, time.monotonic() - begun
                return
            except SiteEnded as ended:
                if "cannot listen" not in str(ended) or time.monotonic() > until:
                    raise
                time.sleep(0.05)

    def start_and_kill(self, is_time):
        """Starts the site, and kills it once it is time. It is told nothing, and has nothing to tell."""
        self.hold(False)
        pipes = dict.fromkeys(("stdin", "stdout", "stderr"), subprocess.PIPE)
        with subprocess.Popen(self.words(), **pipes) as process:
            wait_for("the moment to kill", lambda: process.poll() is not None or is_time())
            is_running = process.poll() is None
            process.kill()
            errors = process.stderr.read()
        if not is_running and b"cannot listen" not in errors:
            raise Difference("a site that starts", "that it runs until it is killed", errors)
        self.hold(True)

    def hold(self, is_down):
        """Takes the site's port while it is down, if the system allows that, or gives it back."""
        if self.held is not None:
            self.held.close()
            self.held = None
        if is_down:
            self.held = socket.socket()
            self.held.setsockopt(socket.SOL_SOCKET, socket.SO_REUSEADDR, 1)
            with suppress(OSError):
                self.held.bind(("127.0.0.1", self.port))

    def kill(self):
        self.site.kill()
        self.note_end()

    def note_end(self):
        """Keeps all that had left a process that has ended."""
        self.hold(True)
        for stream in (self.site.process.stdin, self.site.process.stdout):
            with suppress(OSError):
                stream.close()
        for number, peer in self.peers.items():
            peer.begin_anew()
            self.heard[number] = len(peer.lines)
        self.applied = {number: max(self.applied_in(number), default=0) for number in self.peers}

    def again(self):
        """Kills the site, and starts it again."""
        self.kill()
        self.start()
        self.expect_all_told()

    def run(self, text=b"", **words):
        """Runs another process on the same file, to its end: its status, and both outputs. Its port is its own."""
        words = self.words(free_ports(1)[0], **words)
        done = subprocess.run(words, input=text, capture_output=True, timeout=site_driver.PATIENCE)
        return done.returncode, done.stdout, done.stderr

    def content(self):
        with open(self.path, "rb") as file:
            return file.read()

    def close(self):
        self.hold(False)
        if self.site is not None:
            self.site.kill()
        for peer in self.peers.values():
            peer.close()
        self.room.cleanup()

    # ---- commands

    def say(self, *commands):
        """Commands together, and their replies."""
        replies = self.site.ask_all(commands)
        self.replies += zip(commands, replies)
        return replies

    def expect(self, command, reply):
        """A command that is answered so."""
        (actual,) = self.say(command)
        if actual != reply:
            raise Difference(f"the reply to {command!r}", reply, actual)

    def status(self):
        self.statuses.append(json.loads(self.site.ask("status")))
        return self.statuses[-1]

    def applied_in(self, peer):
        """What each status object said that was applied of a peer."""
        return [each["applied"] for status in self.statuses for each in status["peers"] if each["site"] == peer]

    def wait_for_status(self, **values):
        """Until the status has these values; `applied_2` is what is applied of site 2."""

        def holds():
            status = self.status()
            status |= {f"applied_{peer['site']}": peer["applied"] for peer in status["peers"]}
            return status if all(status[key] == value for key, value in values.items()) else None

        return wait_for(f"a status with {values}", holds)

    def tick(self):
        self.time += 1
        return self.say(f"tick {self.time}")[0]

    def say_and_kill(self, commands, is_time):
        """Gives commands together, kills the site once it is time, and keeps what had left it by then: the replies."""
        process = self.site.process
        process.stdin.write(b"".join(command.encode() + b"\n" for command in commands))
        wait_for("what is waited for before the site is killed", is_time)
        process.send_signal(signal.SIGKILL)
        said = b""
        while block := os.read(process.stdout.fileno(), 1 << 16):
            said += block
        process.wait()
        replies = [line.decode() for line in said.split(b"\n")[:-1]]
        self.replies += zip(commands, [*replies, *[None] * (len(commands) - len(replies))])
        self.note_end()
        return replies

    def has_reply(self):
        """Whether a reply came that was not read."""
        return select.select([self.site.process.stdout], [], [], 0)[0]

    # ---- peers

    def ask_all(self, peer, ranges, *lines):
        """Lines of a peer, and its queries behind them, by their first and last numbers. The entries of each answer, as
        texts: all lines before were taken in."""
        ear, since = self.peers[peer], len(self.peers[peer].lines)
        ear.speak(self.port, *lines, *(f"Q {peer} {self.number} {first} {last}" for first, last in ranges))

        def answers():
            parts = [line.split(";") for line in ear.said(since)]
            found = [entries for front, *entries in parts if front == f"A {self.number} {peer}"]
            return found if len(found) >= len(ranges) else None

        return wait_for(f"{len(ranges)} answers to site {peer}", answers)

    def ask(self, peer, first, last, *lines):
        """The same with one query. The entries of its answer."""
        return self.ask_all(peer, [(first, last)], *lines)[0]

    def hear(self, peer, *lines):
        """Lines of a peer, all of which were taken in once this returns."""
        self.ask(peer, 1, 1, *lines)

    def lines_of_tick(self, peer):
        """The lines that a tick sends to a peer."""
        # An answer comes behind all that was sent before.
        self.hear(peer)
        since = len(self.peers[peer].lines)
        self.tick()
        self.hear(peer)
        return [line for line in self.peers[peer].said(since) if not line.startswith("A ")]

    def asks_of_tick(self, peer):
        return [line for line in self.lines_of_tick(peer) if line.startswith("W ")]

    def wait_for_lines(self, peer, *lines):
        """Until a peer has heard these lines since the last restart."""
        missing = f"the lines {lines} to site {peer}"
        wait_for(missing, lambda: set(lines) <= set(self.peers[peer].said(self.heard[peer])))

    def log(self, peer=None):
        """The entries of the site's log, as a peer gets them that asks from number 1 on."""
        peer, number, log = peer or min(self.peers), self.status()["number"], []
        # Each of them is answered whole, and together they find space in an outbox.
        ranges = [(first, min(first + MOST_ANSWERED - 1, number)) for first in range(1, number + 1, MOST_ANSWERED)]
        for place in range(0, len(ranges), AT_ONCE):
            for text in itertools.chain(*self.ask_all(peer, ranges[place : place + AT_ONCE])):
                # An entry of several numbers may come in two answers.
                if log and text == log[-1].text:
                    continue
                entry = Entry(text)
                stands = entry.origin, entry.before
                expect(stands, (self.number, number_of(log)), f"where {text!r} stands in the log")
                log.append(entry)
        expect(number_of(log), number, "the end of the log")
        return log

    # ---- what was told

    def said(self, kind):
        """All lines of a kind to each peer."""
        start = f"{kind} "
        return {number: [line for line in peer.said() if line.startswith(start)] for number, peer in self.peers.items()}

    def entries_told(self):
        """The texts of all entries that any peer was told."""
        lines = [line for kind in "EA" for of_peer in self.said(kind).values() for line in of_peer]
        return {part for line in lines for part in line.split(";") if part.startswith("E ")}

    def expect_all_told(self):
        """All that the site ever told anyone stands."""
        log = self.log()
        texts, told = {entry.text for entry in log}, self.entries_told()
        for fault in (fault_of_replies(self.replies, log), fault_of_entries(told | texts)):
            expect(fault, None, "what was told")
        expect(sorted(told - texts), [], "entries that peers were told, and that the log does not have")
        self.expect_numbers(number_of(log))
        self.expect_asks(texts)
        self.expect_statuses()
        for number, peer in self.peers.items():
            hellos = {hello for hello in peer.hellos if hello.endswith(b"\n")}
            expect(hellos <= {b"H %d\n" % self.number}, True, f"the first lines to site {number}: {hellos}")
            for query in (line for line in peer.said(self.heard[number]) if line.startswith("Q ")):
                is_beyond = int(query.split(" ")[3]) > self.applied[number]
                expect(is_beyond, True, f"whether {query!r} asks beyond number {self.applied[number]}, which was applied")

    def expect_numbers(self, end):
        """No beat told more than the log has, and none less than one before it."""
        for number, beats in self.said("B").items():
            told = [int(beat.split(" ")[2]) for beat in beats]
            expect(told, sorted(told), f"the numbers of beats to site {number}, in order")
            expect(max(told, default=0) <= end, True, f"whether the log, which ends at {end}, has all of {told}")

    def expect_asks(self, texts):
        """No number was used for two asks, or after a greater one, and none was granted twice."""
        asks = self.said("W")
        expect(fault_of_asks(texts.union(*asks.values())), None, "asks")
        for number, lines in asks.items():
            told = [int(line.split(" ")[3]) for line in lines]
            expect(told, sorted(told), f"the numbers of asks to site {number}, in order")

    def expect_statuses(self):
        """Nothing that a status object told has become less."""
        for before, after in zip(self.statuses, self.statuses[1:]):
            for key in GROWS:
                expect(after[key] >= before[key], True, f"{key} of {after}, which follows {before}")
        for peer in self.peers:
            told = self.applied_in(peer)
            expect(told, sorted(told), f"what was applied of site {peer}, in order")


class RestartTrial:
    """What makes sites that are started again, for one check."""

    def __init__(self, command):
        self.command = command

    def __enter__(self):
        return self

    def __exit__(self, *_):
        return False

    def finish(self):
        """Each site has ended."""

    @contextmanager
    def site(self, count=3, number=1, is_started=True, keys=None):
        """A site that is killed once more when the check is done with it."""
        site = Survivor(self.command, count, number, keys)
        try:
            if is_started:
                site.start()
            yield site
            if is_started:
                site.again()
        finally:
            site.close()
