"""The model of a running site as a process: its threads, its connections, its clock, its journal and its end."""

import os
import socket
import sys
import threading
import time
from contextlib import suppress

from desk_model import Refusal
from key_model import COUNTS_OF_KEYS, USUAL_KEYS
from line_model import COUNTS, MOST_BYTES, SITES, Hello, message_in, number_in
from model_journal import Journal
from site_model import RunningSite

CONNECT_SECONDS = 1
LAST_SECONDS = 1

# In milliseconds: how often a site may tick by itself, and how long a silent peer has said nothing, 0 if no peer is silent.
TICKS = range(1, 60_001)
SILENCES = range(1_000, 3_600_001)
# If the words do not say: so long, or so many ticks, if that is longer.
USUAL_SILENCE, TICKS_OF_SILENCE = 3_000, 10


class Limits:
    """Limits of connections, which a bug may change."""

    hello_seconds = 5
    most_waiting = 64
    newest_wins = True
    says_hello = True
    sends_at_end = True


def number_in_words(text, numbers):
    return number_in(text.encode(), numbers) if text is not None else None


def options_in(words):
    """The number of the site, how many there are, where it listens, where each peer does, how often it ticks by itself
    after what time a peer is silent, where its journal is, and how many keys it remembers; None where the words are
    refused."""
    options, peers = {}, []
    words = [part for word in words for part in (word.split("=", 1) if word.startswith("--") else [word])]
    while words:
        word = words.pop(0)
        if word in ("--id", "--sites", "--listen", "--tick", "--silent", "--journal", "--keys"):
            if word in options or not words:
                return None
            options[word] = words.pop(0)
        elif word.startswith("-") or "=" not in word:
            return None
        else:
            peers.append(word.split("=", 1))
    count = number_in_words(options.get("--sites"), COUNTS)
    number = number_in_words(options.get("--id"), range(1, (count or 0) + 1))
    numbers = [number_in_words(text, SITES) for text, _ in peers]
    if number is None or "--listen" not in options or None in numbers or not are_peers(number, count, numbers):
        return None
    if (clock := clock_in(options)) is None or (keys := keys_in(options)) is None:
        return None
    addresses = dict(zip(numbers, (address for _, address in peers)))
    return number, count, options["--listen"], addresses, *clock, options.get("--journal"), keys


def keys_in(options):
    """How many keys of commands the site remembers; None where this option is refused."""
    return number_in_words(options["--keys"], COUNTS_OF_KEYS) if "--keys" in options else USUAL_KEYS


def clock_in(options):
    """How often the site ticks by itself, None if it does not, and after what time a peer is silent, 0 if never; None where
    these options are refused."""
    tick = number_in_words(options.get("--tick"), TICKS)
    silent = 0 if options.get("--silent") == "0" else number_in_words(options.get("--silent"), SILENCES)
    if (tick is None and "--tick" in options) or (silent is None and "--silent" in options):
        return None
    return tick, usual_silence(tick) if silent is None else silent


def usual_silence(tick):
    return max(USUAL_SILENCE, TICKS_OF_SILENCE * (tick or 0))


def are_peers(number, count, numbers):
    """Whether these numbers are those of all other sites, each once."""
    return sorted([*numbers, number]) == list(range(1, count + 1))


def address_of(text):
    host, port = text.rsplit(":", 1)
    return host.strip("[]"), int(port)


class SiteClock:
    """The time of a site that ticks by itself, in milliseconds: that of day, but never less than it was."""

    def __init__(self):
        self.latest = 0

    def __call__(self):
        self.latest = max(self.latest, time.time_ns() // 1_000_000)
        return self.latest


class Process:
    """A model, with a thread for each connection, and one for its clock if it ticks by itself."""

    def __init__(self, limits, number, count, listen, peers, tick=None, silence=0, journal=None, keys=USUAL_KEYS):
        """`tick` and `silence` are in milliseconds, `journal` is the path of its file, if it keeps one, and `keys` is how
        many keys it remembers."""
        self.model = RunningSite(number, count, SiteClock() if tick else None, keys)
        self.journal = Journal(journal, number, count) if journal is not None else None
        if self.journal:
            self.journal.restore(self.model.desk)
        self.limits, self.every, self.silence = limits, tick, silence
        # When something was read of each peer; at first, when the site began.
        self.read_at = dict.fromkeys(peers, time.monotonic())
        self.lock = threading.Condition()
        self.peers = peers
        self.is_ending = False
        self.waiting = 0
        self.heard = {}
        self.listener = socket.create_server(address_of(listen), backlog=128)
        self.senders = [threading.Thread(target=self.send_all, args=(peer,), daemon=True) for peer in peers]

    def run(self):
        for thread in [threading.Thread(target=target, daemon=True) for target in (self.accept_all, self.tick_all)]:
            thread.start()
        for thread in self.senders:
            thread.start()
        status = self.answer_or_fail()
        with self.lock:
            if self.every:
                self.tick_last()
            self.is_ending = True
            if not self.limits.sends_at_end:
                for peer in self.peers:
                    self.model.take(peer)
            self.lock.notify_all()
        self.send_last()
        os._exit(status)

    def tell(self):
        """What was done may leave the process, once it is durable. Who calls holds the lock, so nobody told it before."""
        if self.journal:
            self.journal.keep(self.model.desk)
        self.lock.notify_all()

    def send_last(self):
        """Waits until what waits in the outboxes was sent, for a while."""
        until = time.monotonic() + LAST_SECONDS
        for thread in self.senders:
            thread.join(max(0, until - time.monotonic()))

    # ---- its clock

    def tick_all(self):
        while self.every:
            time.sleep(self.every / 1000)
            with self.lock:
                if self.is_ending:
                    return
                self.tick()

    def tick(self):
        with suppress(Refusal):
            self.model.tick_itself(self.silent_peers())
        self.tell()

    def tick_last(self):
        """The tick at its end."""
        self.tick()

    def silent_peers(self):
        return {peer for peer in self.peers if self.is_silent(time.monotonic() - self.read_at[peer])}

    def is_silent(self, seconds):
        """Whether a peer is, of which nothing was read for so long."""
        return self.silence > 0 and seconds * 1000 >= self.silence

    # ---- commands

    def answer_or_fail(self):
        """Answers all commands. The exit status."""
        try:
            self.answer_all()
        except OSError:
            print("rights-site: write failed", file=sys.stderr, flush=True)
            return 1
        return 0

    def answer_all(self):
        for line in sys.stdin.buffer:
            with self.lock:
                reply = self.model.reply(line.removesuffix(b"\n"))
                self.tell()
            if reply is None:
                return
            self.write_reply(reply)

    def write_reply(self, reply):
        sys.stdout.buffer.write(reply + b"\n")
        sys.stdout.buffer.flush()

    # ---- what peers say

    def accept_all(self):
        while True:
            stream, _ = self.listener.accept()
            with self.lock:
                is_let_in = self.waiting < self.limits.most_waiting
                self.waiting += is_let_in
            if is_let_in:
                threading.Thread(target=self.hear_all, args=(stream,), daemon=True).start()
            else:
                stream.close()

    def hear_all(self, stream):
        with stream, suppress(OSError):
            peer = None
            try:
                peer, rest = self.handshake(stream)
            finally:
                self.wait_no_more(peer)
            if peer is not None:
                self.hear(peer, stream, rest)

    def wait_no_more(self, peer):
        """A connection has said its first line, of this peer, or is closed without one."""
        with self.lock:
            self.waiting -= 1

    def handshake(self, stream):
        """The peer that a first line names, and what came behind it."""
        until = time.monotonic() + self.limits.hello_seconds
        unread = b""
        while b"\n" not in unread and len(unread) < MOST_BYTES:
            stream.settimeout(max(0.001, until - time.monotonic()))
            block = stream.recv(1 << 16)
            if not block:
                return None, b""
            unread += block
        line, _, rest = unread.partition(b"\n")
        return self.peer_in(line), rest

    def peer_in(self, line):
        """The peer that a first line names, here without its line feed, or None."""
        message = message_in(line) if len(line) < MOST_BYTES else None
        return message.site if isinstance(message, Hello) and message.site in self.peers else None

    def hear(self, peer, stream, unread):
        stream.settimeout(None)
        if unread:
            self.note_read(peer, unread)
        with self.lock:
            older, self.heard[peer] = self.heard.get(peer), stream
            if older is not None and self.limits.newest_wins:
                with suppress(OSError):
                    older.shutdown(socket.SHUT_RDWR)
        while True:
            *lines, unread = unread.split(b"\n")
            with self.lock:
                if self.heard[peer] is not stream and self.limits.newest_wins:
                    return
                for line in lines:
                    self.hear_line(peer, line, stream)
                self.tell()
            block = stream.recv(1 << 16)
            if not block:
                return self.hear_end(peer, unread)
            self.note_read(peer, block)
            unread += block

    def note_read(self, peer, block):
        self.read_at[peer] = time.monotonic()

    def hear_line(self, peer, line, stream):
        self.model.hear(peer, line)

    def hear_end(self, peer, unread):
        """The connection has ended. What was begun is no line."""

    # ---- what is sent to peers

    def next_line(self, peer):
        """Waits for a line. None once the site ends and none is left."""
        with self.lock:
            outbox = self.model.outboxes
            self.lock.wait_for(lambda: self.is_ending or outbox[peer].lines)
            lines = self.model.outboxes[peer].lines
            return lines.pop(0) + b"\n" if lines else None

    def send_all(self, peer):
        stream = None
        while (line := self.next_line(peer)) is not None:
            try:
                if stream is None:
                    stream = self.connect(peer)
                    if self.limits.says_hello:
                        line = b"H %d\n" % self.model.number + line
                stream.sendall(line)
            except (OSError, ValueError):
                stream = None

    def connect(self, peer):
        stream = socket.create_connection(address_of(self.peers[peer]), CONNECT_SECONDS)
        stream.settimeout(None)
        stream.setsockopt(socket.IPPROTO_TCP, socket.TCP_NODELAY, 1)
        return stream
