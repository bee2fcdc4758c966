"""Bugs in how commands come, how replies go, and in what is written at the end."""

import os
import sys
from contextlib import suppress

from bug_kit import BUGS, replaces
from model_process import Process

# ---- commands and their replies


def answers_by(name, answer):
    """A bug in how commands are read and answered. `answer` gets the process, its input and how one line is answered."""

    def plant(limits):
        def one(process, line):
            with process.lock:
                reply = process.model.reply(line)
                process.lock.notify_all()
            return reply

        Process.answer_all = lambda process: answer(process, sys.stdin.buffer, lambda line: one(process, line))

    BUGS[name] = plant


def by_blocks(size):
    """Replies are written once so many bytes of them are there, or no more comes."""

    def answer(process, source, reply_to):
        replies = b""
        while line := source.readline():
            if (reply := reply_to(line.removesuffix(b"\n"))) is None:
                break
            replies += reply + b"\n"
            if len(replies) >= size:
                os.write(1, replies)
                replies = b""
        os.write(1, replies)

    return answer


def replies_lost_at(name, at_quit, at_end):
    """Replies to lines that came together with the end are lost."""

    def answer(process, source, reply_to):
        pending, replies, unread = [], b"", b""
        while block := os.read(0, 1 << 16):
            *lines, unread = (unread + block).split(b"\n")
            replies = b""
            for line in lines:
                reply = reply_to(line)
                if reply is None:
                    if not at_quit:
                        os.write(1, replies)
                    return
                replies += reply + b"\n"
            os.write(1, replies)
        if unread and not at_end and (reply := reply_to(unread)) is not None:
            os.write(1, reply + b"\n")

    answers_by(name, answer)


answers_by("replies_are_written_in_blocks_of_4096_bytes", by_blocks(4_096))
replies_lost_at("replies_before_a_quit_in_one_piece_are_lost", True, False)
replies_lost_at("an_unfinished_last_line_is_dropped", False, True)


def waits_for_whole_lines(process, source, reply_to):
    """Replies wait while a line is begun."""
    replies, unread = b"", b""
    while block := os.read(0, 1 << 16):
        *lines, unread = (unread + block).split(b"\n")
        for line in lines:
            if (reply := reply_to(line)) is None:
                os.write(1, replies)
                return
            replies += reply + b"\n"
        if not unread:
            os.write(1, replies)
            replies = b""
    if unread and (reply := reply_to(unread)) is not None:
        replies += reply + b"\n"
    os.write(1, replies)


answers_by("replies_wait_while_a_line_is_begun", waits_for_whole_lines)


def each_read_is_a_line(process, source, reply_to):
    while block := os.read(0, 1 << 16):
        for line in block.removesuffix(b"\n").split(b"\n"):
            if (reply := reply_to(line)) is None:
                return
            os.write(1, reply + b"\n")


answers_by("each_read_ends_a_command", each_read_is_a_line)


def drops_replies(process, source, reply_to):
    """Replies that the reader does not take at once are lost."""
    os.set_blocking(1, False)
    for line in source:
        if (reply := reply_to(line.removesuffix(b"\n"))) is None:
            return
        with suppress(BlockingIOError):
            os.write(1, reply + b"\n")


answers_by("replies_to_a_slow_reader_are_lost", drops_replies)


def answers_with_the_lock(process, source, reply_to):
    """Whoever reads no replies holds up the peers."""
    for line in source:
        with process.lock:
            if (reply := process.model.reply(line.removesuffix(b"\n"))) is None:
                return
            process.lock.notify_all()
            process.write_reply(reply)


answers_by("replies_to_a_slow_reader_hold_up_peers", answers_with_the_lock)


def answers_and_ends(status=0, says=b"", before=lambda process: None):
    def answer(process, source, reply_to):
        for line in source:
            if (reply := reply_to(line.removesuffix(b"\n"))) is None:
                return
            process.write_reply(reply)
        os.write(1, says)
        before(process)
        if status:
            os._exit(status)

    return answer


def forget_all(process):
    with process.lock:
        for peer in process.peers:
            process.model.take(peer)


def ends_at_once(process):
    os._exit(0)


answers_by("nothing_is_sent_at_the_end_of_the_input", answers_and_ends(before=forget_all))
answers_by("ends_at_once_at_the_end_of_the_input", answers_and_ends(before=ends_at_once))
answers_by("ends_with_status_1_at_the_end_of_the_input", answers_and_ends(status=1))
answers_by("an_empty_line_is_answered_at_the_end_of_the_input", answers_and_ends(says=b"error BadCommand\n"))
answers_by("an_empty_line_ends_the_reply_at_the_end", answers_and_ends(says=b"\n"))


def with_last_line(change):
    """An unfinished last line is changed."""

    def answer(process, source, reply_to):
        for line in source:
            whole = line.removesuffix(b"\n") if line.endswith(b"\n") else change(line)
            if whole is None or (reply := reply_to(whole)) is None:
                return
            process.write_reply(reply)

    return answer


answers_by("an_unfinished_last_line_is_a_bad_command", with_last_line(lambda line: b"?"))
answers_by("an_unfinished_last_line_is_stripped", with_last_line(lambda line: line.strip() or None))
answers_by("an_unfinished_last_line_that_is_too_long_is_dropped", with_last_line(lambda line: line if len(line) < 16_384 else None))
answers_by("an_unfinished_last_line_loses_its_last_byte", with_last_line(lambda line: line[:-1]))
answers_by("an_unfinished_quit_is_answered", with_last_line(lambda line: b"?" if line == b"quit" else line))
answers_by("an_unfinished_tick_sends_nothing", with_last_line(lambda line: line if not line.startswith(b"tick") else b"outcome 0"))


# ---- the end


@replaces(Process, "send_last")
def sends_at_the_end_where_a_connection_stands(right, process):
    connect = process.connect

    def refuse(peer):
        raise OSError("it ends")

    process.connect = refuse
    right()
    process.connect = connect


@replaces(Process, "send_last")
def one_line_is_sent_at_the_end(right, process):
    with process.lock:
        for outbox in process.model.outboxes.values():
            del outbox.lines[1:]
        process.lock.notify_all()
    right()


@replaces(Process, "send_last")
def the_first_peer_is_sent_to_at_the_end(right, process):
    with process.lock:
        for peer in process.model.peers[1:]:
            process.model.take(peer)
        process.lock.notify_all()
    right()


@replaces(Process, "send_last")
def beats_are_not_sent_at_the_end(right, process):
    with process.lock:
        for outbox in process.model.outboxes.values():
            outbox.lines = [line for line in outbox.lines if not line.startswith(b"B ")]
        process.lock.notify_all()
    right()


@replaces(Process, "send_last")
def waits_for_all_peers_at_the_end(right, process):
    for thread in process.senders:
        thread.join()


@replaces(Process, "send_last")
def says_its_last_number_at_the_end(right, process):
    sys.stderr.write("rights-site: ended: 0 to 0 of its log were sent to no peer\n")
    sys.stderr.flush()
    right()


@replaces(Process, "send_last")
def connects_to_all_at_the_end(right, process):
    for peer in process.peers:
        with suppress(OSError):
            process.connect(peer).sendall(b"H %d\n" % process.model.number)
    right()


@replaces(Process, "send_last")
def an_empty_line_is_written_at_the_end(right, process):
    right()
    sys.stdout.buffer.write(b"\n")
    sys.stdout.buffer.flush()
