"""Bugs in how first lines and pieces are read, and in connections that come and go."""

import os
import re
import socket
import sys
import threading
import time
from contextlib import suppress

from bug_kit import BUGS, replaces
from model_process import Process
from site_model import ROOM, Outbox

# ---- first lines


def first_lines_read_as(name, change):
    """A bug in how a first line is read, which is changed before that."""

    def plant(limits):
        right = Process.peer_in
        Process.peer_in = lambda process, line: right(process, change(line))

    BUGS[name] = plant


first_lines_read_as("zeros_may_lead_in_first_lines", lambda line: re.sub(rb"^H 0+(?=[0-9])", b"H ", line))
first_lines_read_as("a_plus_may_lead_in_first_lines", lambda line: line.replace(b"+", b""))
first_lines_read_as("spaces_may_end_a_first_line", lambda line: line.rstrip(b" "))
first_lines_read_as("spaces_may_begin_a_first_line", lambda line: line.lstrip(b" "))
first_lines_read_as("several_spaces_in_a_first_line", lambda line: re.sub(b" +", b" ", line))
first_lines_read_as("tabs_in_a_first_line", lambda line: line.replace(b"\t", b" "))
first_lines_read_as("a_first_line_may_end_in_a_carriage_return", lambda line: line.removesuffix(b"\r"))
first_lines_read_as("first_lines_in_small_letters", lambda line: line.upper())
first_lines_read_as("further_fields_of_a_first_line_are_dropped", lambda line: b" ".join(line.split(b" ")[:2]))
first_lines_read_as("further_parts_of_a_first_line_are_dropped", lambda line: line.split(b";")[0])
first_lines_read_as("a_first_line_ends_in_a_zero_byte", lambda line: line.split(b"\0")[0])
first_lines_read_as("a_first_line_ends_in_a_carriage_return", lambda line: line.split(b"\r")[0])
first_lines_read_as("a_first_line_needs_no_space", lambda line: re.sub(rb"^H(?=[0-9])", b"H ", line))
first_lines_read_as("any_word_that_begins_with_h", lambda line: re.sub(rb"^H[A-Za-z]+ ", b"H ", line))
first_lines_read_as("a_number_alone_is_a_first_line", lambda line: b"H " + line if line.isdigit() else line)
first_lines_read_as("a_first_line_has_one_digit", lambda line: line[:3])
first_lines_read_as("first_lines_wrap_at_2_8", lambda line: wrapped(line, 8))
first_lines_read_as("first_lines_wrap_at_2_16", lambda line: wrapped(line, 16))
first_lines_read_as("first_lines_wrap_at_2_32", lambda line: wrapped(line, 32))
first_lines_read_as("first_lines_wrap_at_2_64", lambda line: wrapped(line, 64))
first_lines_read_as("a_beat_is_a_first_line", lambda line: re.sub(rb"^B ([0-9]+) .*", rb"H \1", line))
first_lines_read_as("a_query_is_a_first_line", lambda line: re.sub(rb"^[QWD] ([0-9]+) .*", rb"H \1", line))
first_lines_read_as("an_entry_is_a_first_line", lambda line: re.sub(rb"^[EA] ([0-9]+) .*", rb"H \1", line))
first_lines_read_as("digits_of_any_script_in_first_lines", lambda line: re.sub("[٠-٩]".encode(), b"", line.replace("٢".encode(), b"2")))
first_lines_read_as("a_mark_of_the_encoding_may_begin_a_first_line", lambda line: line.removeprefix(b"\xef\xbb\xbf"))


def wrapped(line, bits):
    return re.sub(rb"^H ([0-9]{3,})", lambda m: b"H %d" % (int(m[1]) % 2**bits), line)


class Unread:
    """A stream in front of which some bytes stand that were read already."""

    def __init__(self, stream, unread):
        self.stream, self.unread = stream, unread

    def __getattr__(self, name):
        return getattr(self.stream, name)

    def recv(self, size):
        block, self.unread = self.unread, b""
        return block or self.stream.recv(size)


@replaces(Process, "handshake")
def an_unfinished_first_line_is_one(right, process, stream):
    unread = b""
    stream.settimeout(process.limits.hello_seconds)
    while b"\n" not in unread and len(unread) < 100:
        block = stream.recv(1 << 16)
        if not block:
            return process.peer_in(unread), b""
        unread += block
    return right(Unread(stream, unread))


@replaces(Process, "handshake")
def a_first_line_comes_in_one_piece(right, process, stream):
    stream.settimeout(process.limits.hello_seconds)
    unread = stream.recv(1 << 16)
    line, _, rest = unread.partition(b"\n")
    return process.peer_in(line), rest


@replaces(Process, "handshake")
def bad_first_lines_are_skipped(right, process, stream):
    unread = stream
    while True:
        peer, rest = right(unread)
        if peer is not None or not rest:
            return peer, rest
        unread = Unread(stream, rest)


@replaces(Process, "handshake")
def empty_first_lines_are_skipped(right, process, stream):
    stream.settimeout(process.limits.hello_seconds)
    unread = stream.recv(1 << 16)
    return right(Unread(stream, unread.lstrip(b"\n") or unread))


@replaces(Process, "handshake")
def the_rest_of_a_long_first_line_is_one(right, process, stream):
    stream.settimeout(process.limits.hello_seconds)
    unread = b""
    while b"\n" not in unread:
        block = stream.recv(1 << 16)
        if not block:
            return None, b""
        unread += block
    line, _, rest = unread.partition(b"\n")
    return process.peer_in(line[len(line) // 16_384 * 16_384 :]), rest


@replaces(Process, "handshake")
def the_own_number_is_a_first_line(right, process, stream):
    process.peers = {**process.peers, process.model.number: "127.0.0.1:1"}
    process.model.desk.peers.setdefault(process.model.number, process.model.desk.peers[max(process.model.peers)])
    return right(stream)


@replaces(Process, "handshake")
def a_number_above_n_is_a_first_line(right, process, stream):
    process.peers = {**process.peers, process.model.count + 1: "127.0.0.1:1"}
    return right(stream)


@replaces(Process, "handshake")
def a_bad_first_line_stays_open(right, process, stream):
    peer, rest = right(stream)
    if peer is None:
        stream.settimeout(None)
        while stream.recv(1 << 16):
            pass
    return peer, rest


@replaces(Process, "handshake")
def a_bad_first_line_ends_the_connections_of_all(right, process, stream):
    peer, rest = right(stream)
    if peer is None:
        with process.lock:
            for other in process.heard.values():
                with suppress(OSError):
                    other.shutdown(socket.SHUT_RDWR)
    return peer, rest


@replaces(Process, "handshake")
def a_peer_may_connect_once(right, process, stream):
    peer, rest = right(stream)
    return (None if peer in process.heard else peer), rest


@replaces(Process, "hear")
def a_peer_may_connect_again_once_its_connection_ended(right, process, peer, stream, unread):
    is_open = process.__dict__.setdefault("is_open", set())
    if peer in is_open:
        return
    is_open.add(peer)
    try:
        right(peer, stream, unread)
    finally:
        is_open.discard(peer)


@replaces(Process, "hear")
def what_is_unread_is_of_all_peers(right, process, peer, stream, unread):
    """Lines are put together from what came of anybody."""

    class Shared(Unread):
        def recv(self, size):
            block = self.stream.recv(size)
            with process.lock:
                whole = process.__dict__.setdefault("shared", b"") + block
                last = whole.rfind(b"\n") + 1
                process.shared = whole[last:]
            return whole[:last] or (block and b"\n")

    right(peer, Shared(stream, b""), unread)


@replaces(Process, "connect")
def a_connection_that_broke_ends_the_other_way(right, process, peer):
    with process.lock:
        heard = process.heard.get(peer)
        if peer in process.__dict__.setdefault("made", set()) and heard is not None:
            with suppress(OSError):
                heard.shutdown(socket.SHUT_RDWR)
        process.made.add(peer)
    return right(peer)


@replaces(Process, "connect")
def addresses_are_numbers(right, process, peer):
    socket.inet_aton(process.peers[peer].rsplit(":", 1)[0])
    return right(peer)


@replaces(Process, "run")
def peers_are_known_by_their_places(right, process):
    numbers = sorted(process.peers)
    process.peers = dict(zip(numbers, process.peers.values()))
    right()


@replaces(Process, "handshake")
def a_hello_is_told_to_the_others(right, process, stream):
    peer, rest = right(stream)
    if peer is not None and peer in process.heard:
        with process.lock:
            process.model.desk.peers[peer].published = 0
    return peer, rest


@replaces(Process, "handshake")
def a_new_connection_sends_a_beat(right, process, stream):
    peer, rest = right(stream)
    if peer is not None:
        with process.lock:
            process.model.outboxes[peer].lines.append(b"B %d %d" % (process.model.number, len(process.model.desk.log)))
            process.lock.notify_all()
    return peer, rest


# ---- places of those who wait for their first line


@replaces(Process, "wait_no_more")
def a_hello_frees_no_place(right, process, peer):
    if peer is None:
        right(peer)


@replaces(Process, "wait_no_more")
def a_bad_first_line_frees_no_place(right, process, peer):
    if peer is not None:
        right(peer)


@replaces(Process, "wait_no_more")
def a_connection_without_a_first_line_frees_no_place(right, process, peer):
    if not isinstance(sys.exc_info()[1], OSError):
        right(peer)


@replaces(Process, "accept_all")
def a_full_site_leaves_connections_waiting(right, process):
    while True:
        with process.lock:
            process.lock.wait_for(lambda: process.waiting < process.limits.most_waiting)
        stream, _ = process.listener.accept()
        with process.lock:
            process.waiting += 1
        threading.Thread(target=process.hear_all, args=(stream,), daemon=True).start()


@replaces(Process, "accept_all")
def one_first_line_is_read_at_a_time(right, process):
    while True:
        stream, _ = process.listener.accept()
        with process.lock:
            process.waiting += 1
        first = Process.handshake
        done = threading.Event()

        def hear(stream=stream, done=done):
            with stream, suppress(OSError):
                try:
                    peer, rest = first(process, stream)
                finally:
                    process.wait_no_more(None)
                    done.set()
                if peer is not None:
                    process.hear(peer, stream, rest)

        threading.Thread(target=hear, daemon=True).start()
        done.wait()


# ---- connections of peers


@replaces(Process, "hear")
def an_older_connection_stays_open(right, process, peer, stream, unread):
    """It is read no more."""
    with process.lock:
        older, process.heard[peer] = process.heard.get(peer), None
        process.__dict__.setdefault("older", []).append(older and older.dup())
    right(peer, stream, unread)


@replaces(Process, "hear")
def an_older_connection_ends_with_the_first_line_behind_a_hello(right, process, peer, stream, unread):
    stream.settimeout(None)
    while b"\n" not in unread:
        block = stream.recv(1 << 16)
        if not block:
            return
        unread += block
    right(peer, stream, unread)


@replaces(Process, "hear")
def both_connections_of_a_peer_are_heard(right, process, peer, stream, unread):
    with process.lock:
        process.heard.pop(peer, None)
    limits, process.limits = process.limits, type("Any", (), {**vars(type(process.limits)), **vars(process.limits), "newest_wins": False})
    try:
        right(peer, stream, unread)
    finally:
        process.limits = limits


@replaces(Process, "hear")
def a_silent_connection_ends_after_5_seconds(right, process, peer, stream, unread):
    set_timeout = stream.settimeout
    with suppress(AttributeError):
        stream.settimeout = lambda seconds: set_timeout(5)
    timed = Timed(stream)
    right(peer, timed, unread)


class Timed(Unread):
    """A stream that ends after 5 seconds of silence."""

    def __init__(self, stream):
        super().__init__(stream, b"")

    def settimeout(self, seconds):
        self.stream.settimeout(5)


@replaces(Process, "hear")
def what_came_with_the_end_is_lost(right, process, peer, stream, unread):
    """Lines are taken in when the next bytes come."""
    right(peer, Late(stream), unread)


class Late(Unread):
    def __init__(self, stream):
        super().__init__(stream, b"")
        self.last = b""

    def recv(self, size):
        while True:
            try:
                self.stream.settimeout(0.3 if self.last else None)
                block = self.stream.recv(size)
            except TimeoutError:
                block, self.last = self.last, b""
                return block
            if not block:
                return b""
            if self.last:
                block, self.last = self.last, block
                return block
            self.last = block


@replaces(Process, "hear")
def a_reset_ends_the_site(right, process, peer, stream, unread):
    try:
        right(peer, stream, unread)
    except ConnectionResetError:
        os._exit(1)


@replaces(Process, "hear")
def a_connection_is_read_up_to_1000_lines(right, process, peer, stream, unread):
    lines = process.__dict__.setdefault("lines", {})
    original = process.hear_line

    def hear_line(peer, line, stream):
        lines[stream] = lines.get(stream, 0) + 1
        if lines[stream] <= 1000:
            original(peer, line, stream)

    process.hear_line = hear_line
    try:
        right(peer, stream, unread)
    finally:
        process.hear_line = original


@replaces(Process, "hear")
def lines_behind_the_first_4096_bytes_of_a_read_are_lost(right, process, peer, stream, unread):
    class Short(Unread):
        def recv(self, size):
            return self.stream.recv(1 << 20)[:4096]

    right(peer, Short(stream, b""), unread)


@replaces(Process, "hear")
def a_long_line_is_forgotten_at_each_read(right, process, peer, stream, unread):
    class Forgetful(Unread):
        begun = 0

        def recv(self, size):
            block = self.stream.recv(size)
            last = block.rfind(b"\n")
            self.begun = len(block) - last - 1 if last >= 0 else self.begun + len(block)
            # Of a line that is too long what came is thrown away, and a new one begins.
            if self.begun >= 16_384:
                self.begun = 0
                return block[: last + 1] + b"\n" if last >= 0 else b"\n"
            return block

    right(peer, Forgetful(stream, b""), unread)


@replaces(Process, "hear")
def a_read_that_ends_in_a_line_feed_makes_an_empty_line(right, process, peer, stream, unread):
    original = process.hear_line

    def hear_line(peer, line, stream):
        if not line:
            stream.shutdown(socket.SHUT_RDWR)
        original(peer, line, stream)

    process.hear_line = hear_line
    try:
        right(peer, stream, unread)
    finally:
        process.hear_line = original


@replaces(Process, "hear")
def each_read_ends_a_line(right, process, peer, stream, unread):
    class Ended(Unread):
        def recv(self, size):
            block = self.stream.recv(size)
            return block if not block or block.endswith(b"\n") else block + b"\n"

    right(peer, Ended(stream, b""), unread)


# ---- what is sent


@replaces(Process, "send_all")
def a_line_is_tried_until_it_is_sent(right, process, peer):
    stream = None
    while (line := process.next_line(peer)) is not None:
        while True:
            try:
                if stream is None:
                    stream = process.connect(peer)
                    stream.sendall(b"H %d\n" % process.model.number)
                stream.sendall(line)
                break
            except OSError:
                stream = None
                time.sleep(0.01)


@replaces(Process, "send_all")
def a_failed_attempt_loses_all_that_waits(right, process, peer):
    stream = None
    while (line := process.next_line(peer)) is not None:
        try:
            if stream is None:
                stream = process.connect(peer)
                line = b"H %d\n" % process.model.number + line
            stream.sendall(line)
        except OSError:
            stream = None
            with process.lock:
                process.model.take(peer)


@replaces(Process, "send_all")
def a_failed_attempt_is_the_last(right, process, peer):
    stream = None
    while (line := process.next_line(peer)) is not None:
        if stream is None:
            try:
                stream = process.connect(peer)
            except OSError:
                while process.next_line(peer) is not None:
                    pass
                return
            line = b"H %d\n" % process.model.number + line
        try:
            stream.sendall(line)
        except OSError:
            stream = None


@replaces(Process, "send_all")
def waits_a_minute_after_a_failed_attempt(right, process, peer):
    stream, until = None, 0
    while (line := process.next_line(peer)) is not None:
        try:
            if stream is None:
                if time.monotonic() < until:
                    continue
                stream = process.connect(peer)
                line = b"H %d\n" % process.model.number + line
            stream.sendall(line)
        except OSError:
            stream, until = None, time.monotonic() + 60


@replaces(Process, "send_all")
def connects_again_by_itself(right, process, peer):
    """Once a connection was made, it is made anew where it ends."""
    connect = process.connect

    def watched(peer):
        stream = connect(peer)

        def watch():
            with suppress(OSError):
                while stream.recv(1 << 16):
                    pass
            with suppress(OSError):
                again = connect(peer)
                again.sendall(b"H %d\n" % process.model.number)

        threading.Thread(target=watch, daemon=True).start()
        return stream

    process.connect = watched
    right(peer)


@replaces(Process, "send_all")
def a_connection_ends_once_nothing_waits(right, process, peer):
    stream = None
    while (line := process.next_line(peer)) is not None:
        with suppress(OSError):
            if stream is None:
                stream = process.connect(peer)
                line = b"H %d\n" % process.model.number + line
            stream.sendall(line)
        with process.lock:
            is_last = not process.model.outboxes[peer].lines
        if is_last and stream is not None:
            stream.close()
            stream = None


@replaces(Process, "send_all")
def a_failed_write_ends_the_site(right, process, peer):
    stream = None
    while (line := process.next_line(peer)) is not None:
        if stream is None:
            try:
                stream = process.connect(peer)
            except OSError:
                continue
            line = b"H %d\n" % process.model.number + line
        try:
            stream.sendall(line)
        except OSError:
            os._exit(1)


@replaces(Process, "send_all")
def a_line_that_was_lost_is_sent_first(right, process, peer):
    stream, lost = None, b""
    while (line := process.next_line(peer)) is not None:
        try:
            if stream is None:
                stream = process.connect(peer)
                line = b"H %d\n" % process.model.number + lost + line
                lost = b""
            stream.sendall(line)
        except OSError:
            stream, lost = None, line.rpartition(b"H 1\n")[2]


@replaces(Process, "connect")
def connects_without_end(right, process, peer):
    host, port = process.peers[peer].rsplit(":", 1)
    stream = socket.create_connection((host, int(port)), 3600)
    stream.settimeout(None)
    return stream


@replaces(Process, "send_all")
def a_peer_that_reads_nothing_stops_the_site(right, process, peer):
    """It writes while it has the lock."""
    stream = None
    while (line := process.next_line(peer)) is not None:
        try:
            if stream is None:
                stream = process.connect(peer)
                line = b"H %d\n" % process.model.number + line
            with process.lock:
                stream.sendall(line)
        except OSError:
            stream = None


@replaces(Process, "send_all")
def one_peer_is_sent_to_at_a_time(right, process, peer):
    turn = process.__dict__.setdefault("turn", threading.Lock())
    stream = None
    while (line := process.next_line(peer)) is not None:
        try:
            with turn:
                if stream is None:
                    stream = process.connect(peer)
                    line = b"H %d\n" % process.model.number + line
                stream.sendall(line)
        except OSError:
            stream = None


@replaces(Outbox, "put")
def a_full_outbox_ends_the_site(right, outbox, message):
    if len(outbox.lines) == ROOM:
        os._exit(1)
    return right(message)
