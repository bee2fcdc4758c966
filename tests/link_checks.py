"""Checks of connections and of the end, each named after the rule of docs/PROTOCOL.md that it tries."""

import select
import socket
import time
from contextlib import suppress

import site_driver
from cluster import expect, reset_at_its_end
from site_model import ROOM
from site_trial import entries

# So many connections may wait for their first line, for so many seconds.
MOST_WAITING = 64
HELLO_SECONDS = 5
# What has to be in time on an idle machine is tried so often on a busy one.
TRIES = 6

# Bytes that no connection takes where nobody reads them.
MOST_UNSENT = 100_000_000

# What is no first line of a peer of site 1 of 3, here without its line feed.
NO_FIRST_LINES = [
    b"H 1", b"H 4", b"H 0", b"H 16", b"H 17", b"", b" ", b"B 2 5", b"H 2 ", b" H 2", b"H  2", b"h 2", b"H 2\r", b"H 02", b"H 002", b"H +2",
    b"H -2", b"H\t2", b"H2", b"H", b"H ", b"2", b"H 2 2", b"H 2 3", b"H 2;", b"H 2;H 2", b"H 2:", b"H 2\0", b"\0H 2", b"H 2.0", b"H 0x2", b"H 2_",
    b"H 2e0", b"H:2", b"H,2", b"HELLO 2", b"Hello 2", b"h", b"H two", b"H 20", b"H 22", b"H 258", b"H 65538", b"H 4294967298", b"H 18446744073709551618",
    b"E 2 0 1 R:1:9", b"A 2 1", b"A 2 1;E 2 0 1 R:1:9", b"Q 2 1 1 1", b"W 2 1 1 4", b"D 2 1 1", b"\xff", "H \u0662".encode(), "H \uff12".encode(),
    b"\xef\xbb\xbfH 2", b"x\rH 2", b"H 2\rx", b"H 2\x0b", b"H 2\x85", b"issue 9", b"status", b"GET / HTTP/1.1\r", b"\x16\x03\x01",
]  # fmt: skip

# ---- connections


def a_site_says_hello_first(trial):
    trial.say("issue 1")
    trial.tick()


def no_connection_is_made_before_there_is_a_line(trial):
    trial.say("issue 9", "give 2 1")
    listeners = [peer.listener for peer in trial.node.peers.values()]
    expect(select.select(listeners, [], [], 0.3)[0], [], "connections before the first tick")
    trial.tick()


def nothing_is_sent_back(trial):
    trial.say("issue 9")
    trial.hear(2, "W 2 1 1 4", "B 2 7", "Q 2 1 1 1", "nonsense", "H 2")
    expect(select.select([trial.node.peers[2].spoken], [], [], 0.2)[0], [], "what comes back on a connection of a peer")


def what_comes_back_is_not_read(trial):
    trial.tick()
    trial.node.peers[2].heard.sendall(b"".join(line.encode() + b"\n" for line in ["H 2", *entries(2, "R:1:9"), "B 2 40", "W 2 1 1 5"]))
    time.sleep(0.2)
    trial.tick()
    trial.hear(2, *entries(2, "R:1:1"))


def a_new_connection_asks_for_no_gap_again(trial):
    lines = entries(2, *["I:1"] * 6)
    trial.hear(2, lines[3])
    trial.node.renew(2, is_closed_first=True)
    trial.hear(2, lines[5])
    trial.hear(2, lines[4])


def other_first_lines_close_the_connection(trial):
    """What comes behind them is not read, and the connection of the peer stands."""
    first, second = entries(2, "R:1:1", "R:1:2")
    trial.hear(2, first)
    for text in NO_FIRST_LINES:
        trial.node.meet_stranger(text + b"\nH 2\nE 2 1 2 R:1:9\nB 2 40\n")
    trial.node.settle()
    trial.hear(2, second)


def a_first_line_of_more_than_16384_bytes_is_none(trial):
    first, second = entries(2, "R:1:1", "R:1:2")
    trial.hear(2, first)
    for length in (4096, 16_383, 16_384, 16_385, 17_000, 32_768, 65_536, 100_000):
        trial.node.meet_stranger(b"x" * length + b"H 2\nE 2 1 2 R:1:9\n")
        trial.node.meet_stranger(b"H 2".ljust(length) + b"H 2\nE 2 1 2 R:1:9\n")
    trial.node.meet_stranger(b"x" * 17_000)
    trial.node.settle()
    trial.hear(2, second)


def an_unfinished_first_line_is_none(trial):
    first, second = entries(2, "R:1:1", "R:1:2")
    trial.hear(2, first)
    for text in (b"H 2", b"H ", b"H", b"", b"H 3", b"H 1", b"B 2 9"):
        trial.node.meet_stranger(text, ends=True)
    trial.node.settle()
    trial.hear(2, second)
    trial.hear(3, *entries(3, "R:1:1"))


def a_first_line_may_come_in_pieces(trial):
    """In a system of 16 sites: 1 and 10 are two."""
    for peer, pieces in ((10, (b"H", b" ", b"1", b"0", b"\n")), (11, (b"H 1", b"1\n")), (12, (b"H 12", b"\nB 12"))):
        stream = trial.node.connect()
        for piece in pieces:
            stream.sendall(piece)
            time.sleep(0.05)
        if pieces[-1].endswith(b"12"):
            stream.sendall(b" 0\n")
        trial.node.peers[peer].spoken = stream
        trial.hear(peer, *entries(peer, "R:1:1"))


def a_first_line_has_5_seconds(trial):
    """It is never closed before. A busy machine may close it later, so it has some tries for that."""
    for _ in range(TRIES):
        begun = time.monotonic()
        with trial.node.connect() as stream:
            # Each byte has not so many seconds for itself. A write fails where the connection was closed too early.
            with suppress(OSError):
                for byte in (b"H", b" ", b"2"):
                    stream.sendall(byte)
                    time.sleep(1.3)
            trial.node.expect_end(stream, "a connection whose first line does not end")
            seconds = time.monotonic() - begun
        expect(seconds >= HELLO_SECONDS - 0.1, True, f"closed after {seconds:.1f} seconds, not 5")
        if seconds <= HELLO_SECONDS + 3:
            return
    raise AssertionError(f"in {TRIES} tries a connection whose first line does not end was not closed within {HELLO_SECONDS + 3} seconds")


def sixty_four_connections_wait_for_their_first_line(trial):
    """A further one is closed before any of them."""
    for _ in range(TRIES):
        begun = time.monotonic()
        streams = [trial.node.connect() for _ in range(MOST_WAITING)]
        try:
            # All are let in before the next one comes.
            time.sleep(0.5)
            with trial.node.connect() as further:
                closed = select.select([further, *streams], [], [], site_driver.PATIENCE)[0]
            is_in_time = time.monotonic() - begun < HELLO_SECONDS - 0.5
            if is_in_time:
                expect(closed.count(further), 1, "of 65 connections that wait, a last one that is closed")
                expect(len(closed), 1, "of 65 connections that wait, those that are closed")
        finally:
            for stream in streams:
                stream.close()
        if is_in_time:
            break
    else:
        raise AssertionError(f"in {TRIES} tries a 65th connection that waits for its first line was not closed before {HELLO_SECONDS} seconds")
    come_in(trial, 2)
    trial.hear(2, *entries(2, "R:1:1"))
    come_in(trial, 3)
    trial.hear(3, *entries(3, "R:1:1"))


def come_in(trial, peer):
    """Connects as a peer, again and again where no place is free yet: once its answer to a query comes, it is heard."""
    until = time.monotonic() + site_driver.PATIENCE
    while time.monotonic() < until:
        stream = trial.node.connect()
        with suppress(OSError):
            stream.sendall(b"H %d\n" % peer)
            # One that found no place is closed at once.
            if not select.select([stream], [], [], 0.5)[0]:
                trial.node.peers[peer].spoken = stream
                return
        stream.close()
    raise AssertionError("no connection was let in, though none waits for its first line")


def a_first_line_frees_its_place(trial):
    for number in range(MOST_WAITING + 6):
        trial.node.renew(2, is_closed_first=number % 2 == 0)
        trial.hear(2, *entries(2, "R:1:1", prev=number))


def a_bad_first_line_frees_its_place(trial):
    for number in range(MOST_WAITING + 6):
        trial.node.meet_stranger(b"H %d\n" % (4 + number))
    trial.hear(2, *entries(2, "R:1:1"))


def connections_that_end_before_a_first_line_free_their_places(trial):
    for text in (b"", b"H 2"):
        streams = [trial.node.connect() for _ in range(MOST_WAITING - 4)]
        for stream in streams:
            stream.sendall(text)
            stream.shutdown(socket.SHUT_WR)
        for stream in streams:
            trial.node.expect_end(stream, "a connection that says nothing and ends")
    come_in(trial, 2)
    trial.hear(2, *entries(2, "R:1:1"))


def connections_that_are_late_free_their_places(trial):
    for _ in range(2):
        streams = [trial.node.connect() for _ in range(MOST_WAITING - 4)]
        for stream in streams:
            trial.node.expect_end(stream, "a connection that says nothing")
    come_in(trial, 2)
    trial.hear(2, *entries(2, "R:1:1"))


def connections_that_wait_hold_up_no_other(trial):
    streams = [trial.node.connect() for _ in range(20)]
    try:
        for stream in streams[:10]:
            stream.sendall(b"H")
        for peer in (2, 3):
            trial.hear(peer, *entries(peer, "R:1:1"))
    finally:
        for stream in streams:
            stream.close()


def a_silent_connection_stays(trial):
    trial.hear(2, *entries(2, "R:1:1"))
    time.sleep(HELLO_SECONDS + 1)
    trial.hear(2, *entries(2, "R:1:1", prev=1))


def the_newest_connection_is_heard(trial):
    first, second, third = entries(2, "I:1", "R:1:2", "R:1:3")
    trial.hear(2, third)
    trial.node.renew(2, is_closed_first=False)
    trial.hear(2, first)
    trial.node.renew(2, is_closed_first=True)
    trial.hear(2, second)


def the_first_line_of_a_new_connection_ends_the_older_one(trial):
    """Nothing comes behind it."""
    trial.hear(2, *entries(2, "R:1:1"))
    older = trial.node.peers[2].spoken
    trial.node.peers[2].spoken = trial.node.connect()
    trial.node.peers[2].spoken.sendall(b"H 2\n")
    trial.node.expect_end(older, "the connection that a newer one took the place of")
    trial.hear(2, *entries(2, "R:1:2", prev=1))


def a_new_connection_ends_none_of_another_peer(trial):
    for number in range(4):
        trial.node.renew(2, is_closed_first=number % 2 == 0)
        trial.hear(2, *entries(2, "R:1:1", prev=number))
        trial.hear(3, *entries(3, "R:1:1", prev=number))


def a_new_connection_changes_nothing(trial):
    """What is held, asked for, asked of the peer, granted and sent stays."""
    first, second, third = entries(2, "I:50", "R:1:2", "R:1:3")
    trial.hear(2, first, third)
    trial.say("issue 9", "spend 30 99")
    trial.hear(2, "W 2 1 1 4")
    trial.tick()
    trial.node.renew(2, is_closed_first=False)
    trial.hear(2, "W 2 1 1 4", third)
    trial.tick()
    trial.node.renew(2, is_closed_first=True)
    trial.hear(2, second)
    trial.tick()


def what_comes_before_the_end_of_a_connection_is_read(trial):
    log = entries(2, *["R:1:1"] * 60)
    trial.hear(2)
    trial.node.give_last_lines(2, [line.encode() for line in log[:30]])
    # A first line, lines and the end may come together.
    trial.node.give_last_lines(2, [line.encode() for line in log[30:]])
    trial.hear(2)


def a_connection_that_is_reset_ends_alone(trial):
    first, second = entries(2, "R:1:1", "R:1:2")
    trial.hear(2, first)
    trial.hear(3, *entries(3, "R:1:1"))
    for stream in (trial.node.peers[2].spoken, trial.node.connect(), trial.node.connect()):
        with suppress(OSError):
            stream.sendall(b"H")
        reset_at_its_end(stream)
        stream.close()
    trial.node.peers[2].spoken = None
    time.sleep(0.1)
    trial.hear(3, *entries(3, "R:1:1", prev=1))
    trial.hear(2, second)


def a_line_that_a_connection_ends_in_is_dropped(trial):
    for part in (b"E 2 0 1 R:", b"E 2 0 1 R:1:5"):
        trial.hear(2)
        trial.node.begin_line(2, part, b"0")
        trial.node.renew(2, is_closed_first=True)
        time.sleep(0.1)
    trial.hear(2, *entries(2, "R:1:1"))


def a_long_line_that_a_connection_ends_in_is_dropped(trial):
    for length in (16_384, 40_000):
        trial.hear(2)
        trial.node.begin_line(2, b"x" * length + b"E 2 0 1 R:1:5", b"")
        trial.node.renew(2, is_closed_first=True)
        trial.hear(2)
    trial.hear(2, *entries(2, "R:1:1"))


def lines_may_come_in_pieces(trial):
    lines = [line.encode() for line in entries(2, "I:5 R:1:2", "R:1:1")]
    trial.node.give_lines(2, lines, [3, 11, 12, 19])
    trial.node.settle()


def lines_of_two_peers_may_come_in_turns(trial):
    """Pieces of a line of one come between pieces of a line of the other."""
    for peer in (2, 3):
        trial.hear(peer)
    trial.node.begin_line(2, b"E 2 0 1 R:1:", b"20")
    time.sleep(0.05)
    trial.node.begin_line(3, b"E 3 0 2 I:1 R:1:", b"300")
    time.sleep(0.05)
    trial.hear(2)
    trial.hear(3)
    trial.node.begin_line(3, b"x" * 20_000, b"E 3 2 3 R:1:9")
    trial.hear(2, *entries(2, "R:1:1", prev=1))
    trial.hear(3, *entries(3, "R:1:1", prev=2))


def lines_may_come_late_in_pieces(trial):
    """Each piece is read for itself; some end with a line, or with all but its line feed."""
    trial.hear(2, *entries(2, "R:1:1"))
    lines = [b"E 2 1 2 R:1:2", b"E 2 2 3 R:1:4", b"B 2 3", b"E 2 3 4 R:1:8"]
    trial.node.give_lines(2, lines, [3, 13, 14, 27, 28, 31, 34, 44], pause=0.03)
    trial.node.settle()


def many_bytes_may_come_together(trial):
    """More than are read at once, cut in the middle of lines."""
    log = [line.encode() for line in entries(2, *["R:1:1", "I:1 S:1 R:1:1"] * 30)]
    noise = [b"B 2 0".ljust(200, b"0")] * 20
    trial.node.give_lines(2, [line for each in log for line in (each, *noise)])
    trial.node.settle()


def an_outbox_has_256_lines(trial):
    """False where the machine was too busy for it."""
    spends = [b"spend 1 1"] * (ROOM + 20)
    if not trial.node.fill_outboxes([b"issue 1000", *spends, b"tick 1", b"give 2 1", b"tick 1", b"status"]):
        return False
    trial.time = 1
    trial.tick()
    trial.hear(2, "Q 2 1 250 260")
    return True


def a_connection_that_broke_is_made_again(trial):
    """The one that the peer made stays."""
    trial.hear(2, *entries(2, "R:1:1"))
    trial.say("issue 9")
    trial.tick()
    trial.node.cut(2)
    trial.tick()
    trial.node.restore(2)
    trial.tick()
    trial.hear(2, *entries(2, "R:1:2", prev=1))


def an_address_may_be_a_name(trial):
    trial.say("issue 9")
    trial.tick()
    trial.hear(2, "Q 2 1 1 9")


def a_connection_that_broke_is_made_again_for_a_line_alone(trial):
    trial.tick()
    trial.node.cut(2)
    expect(select.select([trial.node.peers[2].listener], [], [], 0.5)[0], [], "a connection, and no line to send")
    trial.node.restore(2)
    trial.tick()


def the_next_line_makes_the_next_attempt(trial):
    """No attempt is answered: each fails."""
    trial.say("issue 9", "give 2 1", "give 3 2")
    trial.tick(3)
    for peer in (2, 3):
        trial.node.restore(peer)
    trial.tick()
    trial.hear(2, "Q 2 1 1 9")


def a_failed_attempt_loses_its_line_alone(trial):
    """Peer 2 refuses connections at first. How many lines are lost by that depends on the machine: not all, and not none."""
    for seconds in (0.3, 1, 3, 10, 30):
        with trial.again() as other:
            node, peer = other.node, other.node.peers[2]
            node.give_commands([b"issue 9", b"give 2 1", b"tick 1"])
            time.sleep(seconds)
            peer.listener.listen(8)
            node.give_commands([b"give 2 2", b"tick 1"])
            if not peer.accept(site_driver.PATIENCE):
                raise AssertionError("no connection for the lines of a second tick")
            node.compare_hello(peer, peer.read_line())
            expected = node.model.take(2)
            actual = [peer.read_line()]
            while actual[-1] not in (None, expected[-1]):
                actual.append(peer.read_line())
            expect(actual, expected[-len(actual) :], "the lines that come at last for peer 2")
            # Those of the first tick were lost, each at an attempt of its own.
            if len(actual) == 2:
                return
    raise AssertionError("lines are not lost where connecting fails")


def a_peer_that_reads_nothing_holds_up_no_other(trial):
    """It is sent far more than its connection and its outbox hold."""
    node, peer = trial.node, trial.node.peers[2]
    peer.listener.setsockopt(socket.SOL_SOCKET, socket.SO_RCVBUF, 4096)
    trial.say(*["issue 1000000000"] * 20)
    trial.tick()
    trial.hear(2, *entries(2, "R:1:1"))
    peer.hears = False
    unsent, grows = 0, True
    # Until no more leaves the outbox.
    while grows and unsent < MOST_UNSENT:
        node.speak(peer, b"Q 2 1 1 99\n" * 200)
        until = time.monotonic() + 1
        while not (grows := node.unsent(peer) > unsent) and time.monotonic() < until:
            time.sleep(0.005)
        unsent = node.unsent(peer)
    # The outbox is full then.
    node.speak(peer, b"Q 2 1 1 99\n" * 200)
    # Once this is applied, all queries before it were answered.
    node.model.hear(2, b"E 2 1 2 R:1:5")
    node.speak(peer, b"E 2 1 2 R:1:5\n")
    node.compare_status()
    for time_of_tick in (2, 3):
        node.model.reply(b"tick %d" % time_of_tick)
        reply = node.site.ask(f"tick {time_of_tick}")
        expect(reply.startswith("tick expired 0 served 0 asks 0 sent "), True, f"the reply to a tick: {reply!r}")
    node.settle()
    trial.hear(3, *entries(3, "R:1:1"))
    trial.say("issue 1", "spend 5 1")
    trial.hear(3, "W 3 1 1 4", "Q 3 1 1 99")
    trial.end()


def all_sites_of_a_system_of_16_are_heard(trial):
    for peer in range(2, 17):
        trial.hear(peer, *entries(peer, f"I:{peer} R:1:1"))
    trial.say("spend 200 999", "status")
    trial.tick()
