"""Checks of the end of a site, and of how commands come and replies go, each named after the rule of docs/PROTOCOL.md that it
tries."""

import time
from contextlib import contextmanager

import site_driver
from cluster import expect
from site_driver import Difference
from site_trial import entries

# A site ends within some 4 seconds, whatever its peers do. A busy machine may need longer, and has some tries.
END_SECONDS = 8
TRIES = 6

# ---- commands and replies


def replies_come_before_the_rest_of_a_line(trial):
    node = trial.node
    for begun in (b"sta", b"status"):
        lines = [b"issue 5", b"spend 2 1"]
        node.site.process.stdin.write(b"\n".join([*lines, begun]))
        node.compare_replies(lines, [node.model.reply(line) for line in lines])
        node.site.process.stdin.write(b"status"[len(begun) :] + b"\n")
        node.compare_replies([b"status"], [node.model.reply(b"status")])


def commands_may_come_late_in_pieces(trial):
    """Each piece is read for itself; some end with a line, or with all but its line feed."""
    trial.node.give_commands([b"issue 1234", b"spend 34 1", b"", b"status", b"give 2 1"], [1, 5, 9, 10, 11, 15, 21, 22, 23, 29, 31], pause=0.03)
    trial.node.settle()


def replies_to_a_slow_reader_are_all_written(trial):
    """More than a pipe holds. Peers are heard meanwhile."""
    count = 20_000
    trial.node.site.process.stdin.write(b"x\n" * count)
    time.sleep(0.5)
    for peer in (2, 3):
        trial.node.give_lines(peer, [])
        trial.node.settle_lines()
    lines = [b"x"] * count
    trial.node.compare_replies(lines, [b"error BadCommand"] * count)
    trial.say("issue 1", "status")


# ---- the end


def quit_ends_a_site(trial):
    trial.say("issue 9")
    trial.tick()
    trial.end()


def the_end_of_the_input_ends_a_site(trial):
    trial.say("issue 9", "close 2")
    trial.tick()
    trial.end(by_quit=False)


def end_of(trial, text):
    """Gives a site of its own this text, and the end of its input behind it. All that it says is what a model says to the
    text's lines, up to a `quit`. At its end a site connects for a second at most, so a busy machine has some tries."""
    for tries_left in reversed(range(TRIES)):
        with trial.again() as other:
            end_with(other.node, text)
            try:
                return compare_last_lines(other.node)
            except Difference:
                if tries_left == 0:
                    raise


def end_with(node, text):
    """Gives a site this text as all that is left of its input, and waits for its end."""
    lines = text.split(b"\n")
    lines = lines if lines[-1] else lines[:-1]
    expected = []
    for line in lines:
        if (reply := node.model.reply(line)) is None:
            break
        expected.append(reply + b"\n")
    node.site.process.stdin.write(text)
    node.site.process.stdin.close()
    said = node.site._unread + node.site.process.stdout.read()
    expect(said, b"".join(expected), f"the replies to {text[:100]!r} and the end")
    expect(node.site.process.wait(site_driver.PATIENCE), 0, "the exit status")
    expect(node.site.said(), "", "standard error")


def compare_last_lines(node):
    """Compares what a site that has ended sent to each peer."""
    for peer in node.peers.values():
        # All connections that it made wait here.
        peer.patience = 0
    node.settle_lines()
    for number, peer in node.peers.items():
        if peer.heard is not None:
            expect(peer.unread or node.rest_of(peer), b"", f"more for peer {number}")
        elif peer.hears:
            expect(peer.accept(0), False, f"a connection to peer {number}, for which there is no line")


def all_that_comes_before_the_end_is_answered(trial):
    end_of(trial, b"issue 9\nspend 2 1\nbad\ngive 2 9\nstatus\n")
    end_of(trial, b"outcome 1\n" * 5000)
    end_of(trial, b"\n")
    end_of(trial, b"\n\n")
    end_of(trial, b"")


def a_last_line_without_its_line_feed_is_a_command(trial):
    for last in (b"issue 7", b"status", b" ", b"issue 7 ", b"bad", b"spend 2 1\r", b"issue", b"x" * 16_384, b"x" * 40_000, b"x" * 16_384 + b"issue 7"):
        end_of(trial, last)
        end_of(trial, b"issue 3\n" + last)


def an_unfinished_quit_is_none_less(trial):
    for text in (b"quit", b"issue 3\nquit", b"quit\n", b"issue 3\nquit\n"):
        end_of(trial, text)


def what_follows_quit_is_not_answered(trial):
    for text in (b"quit\nissue 1\n", b"issue 3\nspend 1 1\nquit\nissue 1\ntick 9\n", b"quit\n\n", b"quit\nquit\n", b"issue 1\nquit\nissue 7"):
        end_of(trial, text)


def what_waits_at_the_end_is_sent(trial):
    """By quit or by the end of the input, in a line that is finished or not, over connections that are made for it."""
    for end in (b"tick 1\nquit\n", b"tick 1\nquit", b"tick 1\n", b"tick 1", b"tick 1\nissue 4\ntick 2\n", b"tick 1\nclose\ntick 1"):
        end_of(trial, b"issue 9\ngive 2 4\ngive 3 1\n" + end)
        end_of(trial, end)


def what_waits_at_the_end_is_sent_over_connections_that_stand(trial):
    for end in (b"quit\n", b"quit", b""):
        with trial.again() as other:
            other.say("issue 9")
            other.tick()
            node = other.node
            lines = [b"give 2 4", b"spend 1 1", b"close 3", b"tick 9"]
            replies = [node.model.reply(line) + b"\n" for line in lines]
            node.site.process.stdin.write(b"".join(line + b"\n" for line in lines) + end)
            node.site.process.stdin.close()
            node.settle_lines()
            expect(node.site._unread + node.site.process.stdout.read(), b"".join(replies), "the replies before the end")
            expect(node.site.process.wait(site_driver.PATIENCE), 0, "the exit status")


def end_in_time(trial, prepare):
    """Ends sites that were prepared. It takes them some 4 seconds at most; a busy machine has some tries for that."""
    for by_quit in (True, False):
        for _ in range(TRIES):
            with trial.again() as other:
                with prepare(other):
                    begun = time.monotonic()
                    other.end(by_quit)
                    if time.monotonic() - begun <= END_SECONDS:
                        break
        else:
            raise AssertionError(f"in {TRIES} tries the site did not end within {END_SECONDS} seconds")


def a_site_ends_in_time(trial):
    @contextmanager
    def prepare(other):
        other.say("issue 9")
        other.tick()
        yield

    end_in_time(trial, prepare)


def peers_that_answer_no_attempt_hold_up_no_end(trial):
    @contextmanager
    def prepare(other):
        for peer in other.node.peers.values():
            peer.grow_deaf()
        # As many attempts, one after the other, would take half a minute.
        other.say("issue 99", *["give 2 1", "give 3 1"] * 15)
        other.tick(3)
        yield

    end_in_time(trial, prepare)


def peers_that_say_nothing_hold_up_no_end(trial):
    """Connections that stand, one that waits for its first line, and a line that is begun."""

    @contextmanager
    def prepare(other):
        other.hear(2, *entries(2, "R:1:1"))
        other.node.begin_line(3, b"E 3 0 1 R:1:", b"1")
        with other.node.connect():
            other.tick()
            yield

    end_in_time(trial, prepare)
