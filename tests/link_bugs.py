"""Bugs in connections, and in the beginning and the end of a site."""

import socket
import threading
import time
from contextlib import suppress

from bug_kit import BUGS, limit, replaces
from desk_model import Buffer
from model_process import Process

BUGS["sixty_three_connections_wait"] = limit("most_waiting", 63)
BUGS["sixty_five_connections_wait"] = limit("most_waiting", 65)
BUGS["a_first_line_has_4_seconds"] = limit("hello_seconds", 4)
BUGS["a_first_line_has_9_seconds"] = limit("hello_seconds", 9)


@replaces(Process, "handshake")
def each_byte_of_a_first_line_has_5_seconds(right, process, stream):
    unread = b""
    stream.settimeout(5)
    while b"\n" not in unread:
        block = stream.recv(1)
        if not block:
            return None, b""
        unread += block
    words = unread.split()
    is_known = len(words) == 2 and words[0] == b"H" and words[1].isdigit() and int(words[1]) in process.peers
    return (int(words[1]) if is_known and unread == b"H %d\n" % int(words[1]) else None), b""


@replaces(Process, "handshake")
def what_comes_with_the_first_line_is_lost(right, process, stream):
    return right(stream)[0], b""


@replaces(Process, "handshake")
def a_new_connection_begins_a_new_buffer(right, process, stream):
    peer, rest = right(stream)
    if peer is not None and peer in process.heard:
        buffer = process.model.desk.peers[peer].buffer
        process.model.desk.peers[peer].buffer = Buffer({entry.prev: entry for entry in buffer.put})
    return peer, rest


@replaces(Process, "handshake")
def a_new_connection_forgets_what_was_asked_for(right, process, stream):
    peer, rest = right(stream)
    if peer is not None and peer in process.heard:
        process.model.desk.peers[peer].buffer.queried = None
    return peer, rest


@replaces(Process, "handshake")
def strangers_are_answered(right, process, stream):
    peer, rest = right(stream)
    if peer is None:
        with suppress(OSError):
            stream.sendall(b"error BadHello\n")
    return peer, rest


@replaces(Process, "handshake")
def a_hello_is_answered(right, process, stream):
    peer, rest = right(stream)
    if peer is not None:
        stream.sendall(b"H %d\n" % process.model.number)
    return peer, rest


@replaces(Process, "hear_line")
def a_line_that_does_not_read_ends_the_connection(right, process, peer, line, stream):
    if b"\xff" in line:
        stream.shutdown(socket.SHUT_RDWR)
    right(peer, line, stream)


@replaces(Process, "hear_line")
def a_long_line_ends_the_connection(right, process, peer, line, stream):
    if len(line) >= 16_384:
        stream.shutdown(socket.SHUT_RDWR)
    right(peer, line, stream)


@replaces(Process, "hear_line")
def a_second_hello_ends_the_connection(right, process, peer, line, stream):
    if line.startswith(b"H "):
        stream.shutdown(socket.SHUT_RDWR)
    right(peer, line, stream)


@replaces(Process, "hear_line")
def answers_go_back_on_the_same_connection(right, process, peer, line, stream):
    outbox = process.model.outboxes[peer]
    count = len(outbox.lines)
    right(peer, line, stream)
    with suppress(OSError):
        for answer in outbox.lines[count:]:
            stream.sendall(answer + b"\n")


@replaces(Process, "hear_end")
def a_line_that_ends_with_its_connection_is_heard(right, process, peer, unread):
    with process.lock:
        if unread:
            process.model.hear(peer, unread)
            process.lock.notify_all()


@replaces(Process, "connect")
def what_comes_back_is_heard(right, process, peer):
    stream = right(peer)

    def hear_back():
        unread = b""
        with suppress(OSError):
            while block := stream.recv(1 << 16):
                *lines, unread = (unread + block).split(b"\n")
                with process.lock:
                    for line in lines:
                        process.model.hear(peer, line)
                    process.lock.notify_all()

    threading.Thread(target=hear_back, daemon=True).start()
    return stream


@replaces(Process, "connect")
def says_hello_once(right, process, peer):
    met = process.__dict__.setdefault("met", set())
    process.limits.says_hello = peer not in met
    met.add(peer)
    return right(peer)


@replaces(Process, "connect")
def says_hello_twice(right, process, peer):
    stream = right(peer)
    stream.sendall(b"H %d\n" % process.model.number)
    return stream


@replaces(Process, "connect")
def connects_once(right, process, peer):
    met = process.__dict__.setdefault("met", set())
    if peer in met:
        raise OSError("it connected before")
    met.add(peer)
    return right(peer)


@replaces(Process, "send_all")
def each_line_has_a_connection(right, process, peer):
    while (line := process.next_line(peer)) is not None:
        with suppress(OSError), process.connect(peer) as stream:
            stream.sendall(b"H %d\n" % process.model.number + line)


@replaces(Process, "send_all")
def connects_at_the_start(right, process, peer):
    with suppress(OSError):
        stream = process.connect(peer)
        stream.sendall(b"H %d\n" % process.model.number)
        while (line := process.next_line(peer)) is not None:
            stream.sendall(line)
    right(peer)


@replaces(Process, "send_all")
def lines_end_in_a_carriage_return(right, process, peer):
    next_line = process.next_line

    def next_with_return(peer):
        line = next_line(peer)
        return line and line[:-1] + b"\r\n"

    process.next_line = next_with_return
    right(peer)


@replaces(Process, "run")
def ticks_by_itself(right, process):
    def tick():
        while True:
            time.sleep(0.3)
            with process.lock:
                process.model.reply(b"tick %d" % process.model.desk.now)
                process.lock.notify_all()

    threading.Thread(target=tick, daemon=True).start()
    right()


# ---- the end


@replaces(Process, "answer_all")
def a_last_line_needs_its_line_feed(right, process):
    reply = process.model.reply

    def read(line):
        process.last = line
        return reply(line)

    process.model.reply = read
    lines = __import__("sys").stdin.buffer
    while (line := lines.readline()).endswith(b"\n"):
        with process.lock:
            said = process.model.reply(line[:-1])
            process.lock.notify_all()
        if said is None:
            return
        process.write_reply(said)


@replaces(Process, "answer_all")
def an_empty_last_line_is_a_command(right, process):
    right()
    with suppress(OSError, ValueError):
        process.write_reply(b"error BadCommand")


@replaces(Process, "answer_all")
def quit_is_answered(right, process):
    right()
    with suppress(OSError, ValueError):
        process.write_reply(b"bye")


@replaces(Process, "answer_all")
def quit_takes_10_seconds(right, process):
    right()
    time.sleep(10)


@replaces(Process, "answer_all")
def what_follows_quit_is_answered(right, process):
    right()
    right()


@replaces(Process, "answer_all")
def ends_with_status_3(right, process):
    right()
    __import__("sys").stdout.flush()
    __import__("os")._exit(3)


@replaces(Process, "answer_all")
def says_that_it_ends(right, process):
    right()
    __import__("sys").stderr.write("rights-site: ended\n")
    __import__("sys").stderr.flush()


@replaces(Process, "answer_all")
def a_site_that_closes_ends(right, process):
    reply = process.model.reply
    process.model.reply = lambda line: None if line.startswith(b"close") and process.model.desk.is_closed else reply(line)
    right()


@replaces(Process, "answer_all")
def ends_on_a_tick_at_the_end_of_its_input(right, process):
    right()
    with process.lock:
        process.model.reply(b"tick %d" % process.model.desk.now)
        process.lock.notify_all()
