"""Checks of how commands and lines are read, each named after the rule of docs/PROTOCOL.md that it tries."""

import re
from contextlib import suppress
from functools import cache

from desk_model import Refusal
from line_model import GREATEST, MOST_BYTES, message_in
from site_model import command_in
from site_trial import entries

# Lengths at which another implementation may cut a line.
CUTS = [1024, 4096, 8192, MOST_BYTES - 2, MOST_BYTES - 1, MOST_BYTES, MOST_BYTES + 1, 20_000, 32_768, 65_535, 65_536, 131_072]

# What ends a line elsewhere, and not here.
NO_ENDS = [b"\r", b"\x0b", b"\x0c", b"\x1c", b"\x1e", b"\x85", b"\xc2\x85", b"\xe2\x80\xa8", b"\0", b";"]


# ---- what looks like a line and is none


def misspelled(number):
    """What is no decimal, or not in the range of one, and looks like this number or wraps to it."""
    value = int(number)
    arabic = "".join(chr(0x660 + int(digit)) for digit in number.decode())
    wide = "".join(chr(0xFF10 + int(digit)) for digit in number.decode())
    return [
        b"", b"0" + number, b"00" + number, b"+" + number, b"-" + number, b"-0", b" " + number, number + b" ", b"0x" + number, number + b".0",
        number + b"e0", number + b"_0", number + b"\0", number + b"u", b"'%s'" % number, arabic.encode(), wide.encode(),
        *(b"%d" % (2**bits + value) for bits in (8, 16, 31, 32, 63, 64, 65)), b"0", b"17", b"%d" % (GREATEST + 1), b"%d" % 10**19,
    ]  # fmt: skip


def variants(line):
    """Texts that differ from a line in one place."""
    for found in re.finditer(rb"[0-9]+", line):
        for other in misspelled(found[0]):
            yield line[: found.start()] + other + line[found.end() :]
    for found in re.finditer(rb"[ :;]", line):
        for other in (b"", b"  ", b"::", b";;", b"\t", b",", b" ", b":", b";", b" ;", b"; ", b" :", b": ", b"\x0b", b"\xc2\xa0"):
            yield line[: found.start()] + other + line[found.end() :]
        # Fields are missing behind it.
        yield line[: found.start()]
        yield line[: found.end()]
    for found in re.finditer(rb"[ ;:][^ ;:]*", line):
        yield line[: found.start()] + line[found.end() :]
    words = line.split(b" ")
    for place in range(len(words) - 1):
        yield b" ".join([*words[:place], words[place + 1], words[place], *words[place + 2 :]])
    for found in re.finditer(rb"[A-Za-z]+", line):
        yield line[: found.start()] + found[0].swapcase() + line[found.end() :]
    for before in (b" ", b"\t", b"\xef\xbb\xbf", b"\0", b"/", b"#"):
        yield before + line
    for behind in (b" ", b"\t", b"\r", b"\0", b";", b":", b".", b" 1", b":1", b" #", b";1", b" " + line):
        yield line + behind
    for end in NO_ENDS:
        yield line + end + line
        yield b"x" + end + line
    for other in (line.lower(), line.upper(), line.title(), b'"' + line + b'"'):
        if other != line:
            yield other


@cache
def no_lines(line):
    """Those of them that are no messages. They are found once, before a bug is planted in what finds them."""
    return [text for text in variants(line) if message_in(text) is None]


@cache
def no_commands(line):
    return [text for text in variants(line) if not is_command(text)]


def is_command(line):
    with suppress(Refusal):
        command_in(line)
        return True
    return False


# ---- commands


def each_word_of_a_command_is_read_exactly(trial):
    trial.say("issue 9", "spend 99 99")
    for command in (b"issue 5", b"give 2 5", b"spend 5 9", b"outcome 1", b"tick 5", b"status", b"close", b"close 2", b"take 5", b"cancel 1", b"quit"):
        trial.node.give_commands(no_commands(command))
        trial.node.settle()
    trial.say("outcome 1", "tick 0")


def other_names_are_bad_commands(trial):
    trial.say(
        "serve", "plan", "expire 9", "sites 3", "ask 2", "publish 2", "beat 2", "query 2", "requery 2", "arrive 1", "noise 2 x",
        "report", "post I:1", "exit", "end", "bye", "stop", "help", "?", "# issue 1", "// issue 1", "-- issue 1", "H 2", "E 2 0 1 R:1:1",
        "B 2 5", "Issue 1", "GIVE 2 1", "Quit", "QUIT", "s", "i 1", "status; issue 1", "issue 1; issue 1", "1", "{}",
    )  # fmt: skip


def a_long_command_has_one_reply(trial):
    for cut in CUTS:
        for text in (b"x", b"issue 1 "):
            trial.node.give_commands([text.ljust(cut, b"x") + b"issue 5", b"outcome 1"])
            trial.node.settle()


def a_long_command_may_come_in_pieces(trial):
    for cut in (MOST_BYTES - 1, MOST_BYTES, MOST_BYTES + 1, 40_000):
        trial.node.give_commands([b"x" * cut + b"issue 5", b"issue 6"], [cut, cut + 5], pause=0.05)
        trial.node.settle()


# ---- lines of peers


def templates(prev):
    """Lines of site 2 that change something, where its next entry begins behind this number."""
    entry = b"E 2 %d %d " % (prev, prev + 1)
    two = b"E 2 %d %d S:1" % (prev + 1, prev + 2)
    moves = [b"I:9", b"S:9", b"R:1:9", b"R:3:9", b"G:1:9:1", b"G:3:9:1", b"V:3:9", b"K:0:0:0", b"C"]
    return [
        b"B 2 %d" % (prev + 50), b"Q 2 1 1 2", b"W 2 1 1 4", b"D 2 1 1", b"A 2 1;%sR:1:9" % entry, b"A 2 1;%sR:1:9;%s" % (entry, two),
        *(entry + move for move in moves), b"E 2 %d %d I:8 R:1:9" % (prev, prev + 2),
    ]  # fmt: skip


def each_field_of_a_line_is_read_exactly(trial):
    """An ask is outstanding, which a denial would end."""
    log = entries(2, "I:50", *["S:1"] * 40)
    trial.hear(2, log[0])
    trial.say("issue 20", "spend 30 999")
    trial.tick()
    for place in range(len(templates(0))):
        line = templates(place + 1)[place]
        trial.hear(2, *no_lines(line))
        trial.tick()
        trial.hear(2, log[place + 1])


def lines_of_each_kind_name_their_sender(trial):
    """Each would change something if it were of site 2, or of the site that it names."""
    for peer in (2, 3):
        trial.hear(peer, *entries(peer, "I:9"))
    trial.say("spend 17 999")
    trial.tick()
    for sender in (1, 3, 4, 16):
        trial.hear(
            2, f"E {sender} 1 2 R:1:9", f"E {sender} 1 2 G:1:9:1", f"B {sender} 90", f"A {sender} 1;E {sender} 1 2 R:1:9",
            f"A 2 1;E {sender} 1 2 R:1:9", f"A {sender} 1;E 2 1 2 R:1:9", f"Q {sender} 1 1 1", f"W {sender} 1 1 4", f"D {sender} 1 1", f"H {sender}",
        )  # fmt: skip
        trial.tick()
    for receiver in (2, 3, 4, 16):
        trial.hear(2, f"A 2 {receiver};E 2 1 2 R:1:9", f"Q 2 {receiver} 1 1", f"W 2 {receiver} 1 4", f"D 2 {receiver} 1")
        trial.tick()
    trial.hear(2, *entries(2, "R:1:1", prev=1))
    trial.hear(3, *entries(3, "R:1:1", prev=1))


def an_answer_is_heard_whole_or_not(trial):
    good = entries(2, "R:1:1", "R:1:2", "R:1:4")
    for bad in (
        "E 2 1 2 R:1:0", "E 2 1 2 R:4:1", "E 2 1 2 R:2:1", "E 3 1 2 R:1:1", "E 2 1 3 R:1:2", "E 2 1 2", "E 2 1 2 R:1:1 ", "E 2 1 2 K:0:0", "E 2 1 2 K:0:0:0:0",
        "E 2 1 3 C R:1:1", "B 2 9", "nonsense", "", "e 2 1 2 R:1:1", "A 2 1", "E 2 1 2 V:4:1", "E 2 1 2 G:1:1:0", "E 2 1 3 R:1:1 R:4:1",
    ):  # fmt: skip
        for parts in ([good[0], bad], [bad, good[0]], [good[0], bad, good[2]], [bad]):
            trial.hear(2, ";".join(["A 2 1", *parts]))
    trial.hear(2, ";".join(["A 2 1", *good]))


def each_move_of_an_entry_is_judged(trial):
    for bad in ("R:4:1", "G:4:1:1", "V:4:1", "R:2:1", "R:1:0", "K:0:0", "K:0:1:0", "X:1"):
        trial.hear(2, f"E 2 0 2 R:1:1 {bad}", f"E 2 0 2 {bad} R:1:1", f"E 2 0 3 R:1:1 {bad} R:1:1")
    trial.hear(2, "E 2 0 3 R:1:1 G:3:1:1 V:3:1")


def greatest_amounts_and_numbers_of_moves_are_read(trial):
    trial.hear(2, *entries(2, f"I:{GREATEST}", f"S:{GREATEST}", f"R:1:{GREATEST}", f"R:3:{GREATEST}", f"G:1:{GREATEST}:{GREATEST}",
                           f"G:3:{GREATEST}:1", f"V:3:{10**18}", f"K:0:0:{GREATEST}"))  # fmt: skip
    trial.hear(2, f"D 2 1 {GREATEST}")
    trial.say("status")


def lines_are_parted_by_line_feeds_alone(trial):
    for number, end in enumerate(NO_ENDS):
        entry = b"E 2 %d %d R:1:9" % (number, number + 1)
        trial.hear(2, b"x" + end + entry, entry + end + b"x", b"B 2 0" + end + entry, entry + end + entry, end + entry, entry + end)
        trial.hear(2, *entries(2, "R:1:1", prev=number))


def a_long_line_is_one_line(trial):
    for number, cut in enumerate(CUTS):
        entry = b"E 2 %d %d R:1:9" % (number, number + 1)
        trial.hear(2, b"x" * cut + entry, entry.ljust(cut, b" ") + entry, b"x" * cut + entry + b" " + b"x" * cut)
        trial.hear(2, *entries(2, "R:1:1", prev=number))


def a_long_line_may_come_in_pieces(trial):
    for number, cut in enumerate((MOST_BYTES - 1, MOST_BYTES, MOST_BYTES + 1, 40_000)):
        trial.hear(2)
        entry = b"E 2 %d %d R:1:9" % (number, number + 1)
        trial.node.give_lines(2, [b"x" * cut + entry], [cut, cut + len(entry)], pause=0.05)
        trial.node.settle()
        trial.hear(2, *entries(2, "R:1:1", prev=number))


def answer_of_length(length, prev):
    """An answer of site 2 whose text has this many bytes, and the number that it ends with."""
    text = "A 2 1"
    while (left := length - len(text)) > 225:
        move, count = (f"G:3:{GREATEST}:{GREATEST}", 16) if left > 560 else (f"I:{GREATEST}", 8)
        text += f";E 2 {prev} {prev + count} " + " ".join([move] * count)
        prev += count
    for count in range(1, 17):
        entry = f";E 2 {prev} {prev + count} "
        digits = length - len(text) - len(entry) - 3 * count + 1
        if count <= digits <= 10 * count:
            sizes = [digits // count + (place < digits % count) for place in range(count)]
            return text + entry + " ".join(f"I:{10 ** (size - 1)}" for size in sizes), prev + count
    raise AssertionError(f"no answer has {length} bytes")


def a_long_line_is_not_cut_off(trial):
    """Cut at these lengths, each line is an answer. Whole it is none."""
    for length in (256, 512, 1023, 1024, 2048, 4095, 4096, 5500):
        text, _ = answer_of_length(length, 0)
        for behind in ("x", " x", ";x", "\r", " ", ";", "0" * 20, "x" * MOST_BYTES):
            trial.hear(2, text + behind)
    text, end = answer_of_length(4096, 0)
    trial.hear(2, text)
    trial.hear(2, *entries(2, "R:1:1", prev=end))


def a_line_of_9000_bytes_is_read(trial):
    """In a system of 16 sites: each entry of the answer closes, and so the first is the last."""
    moves = " ".join([f"G:16:{GREATEST}:{GREATEST}"] * 15 + ["K:0:0" + f":{GREATEST}" * 14])
    line = "A 2 1;" + ";".join(entries(2, *[moves] * 16))
    assert 9_000 < len(line) < MOST_BYTES, len(line)
    trial.hear(2, line)
    trial.say("status", "give 2 1")


def many_lines_may_come_together(trial):
    first, last = entries(2, "R:1:1", "R:1:2")
    trial.hear(2, first, *["B 2 0", "nonsense", "", "B 2 1"] * 1500, last)
