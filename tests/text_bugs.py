"""Bugs in how another implementation reads and writes text: commands, replies, the status object, and lines of peers."""

import json
import re

import line_model
import site_model
from bug_kit import BUGS, replaces, sets
from line_model import AMOUNTS, ASKS, GREATEST, NUMBERS, SITES, TOTALS
from model_process import Process
from site_model import RunningSite

# ---- commands, whose words are changed before they are read


def commands_read_as(name, change):
    def plant(limits):
        right = RunningSite.reply
        RunningSite.reply = lambda site, line: right(site, change(line))

    BUGS[name] = plant


def forms_of(name, change):
    """A bug that changes the forms of commands."""
    BUGS[name] = lambda limits: change(site_model.FORMS)


commands_read_as("tabs_part_words", lambda line: line.replace(b"\t", b" "))
commands_read_as("several_spaces_part_words", lambda line: re.sub(b" +", b" ", line))
commands_read_as("spaces_may_begin_a_command", lambda line: line.lstrip(b" "))
commands_read_as("spaces_may_end_a_command", lambda line: line.rstrip(b" "))
commands_read_as("commands_may_end_in_a_carriage_return", lambda line: line.removesuffix(b"\r"))
commands_read_as("a_plus_may_lead", lambda line: re.sub(rb" \+([0-9])", rb" \1", line))
commands_read_as("underscores_in_numbers", lambda line: re.sub(rb"([0-9])_([0-9])", rb"\1\2", line))
commands_read_as("numbers_in_hexadecimal", lambda line: re.sub(rb"0x([0-9a-f]+)", lambda m: b"%d" % int(m[1], 16), line))
commands_read_as("numbers_with_a_fraction_of_0", lambda line: re.sub(rb"([0-9])\.0\b", rb"\1", line))
commands_read_as("numbers_above_2_64_wrap", lambda line: re.sub(rb"[1-9][0-9]{18,19}", lambda m: b"%d" % (int(m[0]) % 2**64), line))
commands_read_as("negative_numbers_wrap", lambda line: re.sub(rb"-([1-9])", lambda m: b"%d" % (2**64 - int(m[1])), line))
commands_read_as("text_behind_a_zero_byte_is_dropped", lambda line: line.split(b"\0")[0])
commands_read_as("commands_may_be_shortened", lambda line: re.sub(rb"^(stat|stats|statu)$", b"status", line))
commands_read_as("words_behind_quit_are_dropped", lambda line: re.sub(rb"^quit .*", b"quit", line))
commands_read_as("words_behind_status_are_dropped", lambda line: re.sub(rb"^status .*", b"status", line))
commands_read_as("a_spend_needs_no_deadline", lambda line: re.sub(rb"^spend ([0-9]+)$", rb"spend \1 0", line))
commands_read_as("a_tick_needs_no_time", lambda line: b"tick 0" if line == b"tick" else line)
forms_of("sites_from_0_are_commands", lambda forms: forms.update({b"give": [(range(17), line_model.ANY)]}))
forms_of("sites_of_any_number_are_commands", lambda forms: forms.update({b"give": [(line_model.ANY, line_model.ANY)]}))
forms_of("heirs_of_any_number_are_commands", lambda forms: forms.update({b"close": [(), (line_model.ANY,)]}))
forms_of("numbers_to_2_63", lambda forms: forms.update({b"tick": [(range(2**63),)], b"outcome": [(range(2**63),)]}))
forms_of("amounts_to_2_32", lambda forms: forms.update({b"issue": [(range(2**32),)]}))
forms_of("deadlines_to_2_63", lambda forms: forms.update({b"spend": [(line_model.ANY, range(2**63))]}))


@replaces(RunningSite, "reply")
def long_lines_get_a_reply_for_each_part(right, site, line):
    parts = [line[place : place + 16_384] for place in range(0, len(line), 16_384)] or [line]
    return b"\n".join(map(right, parts)) if len(parts) > 1 else right(line)


@replaces(RunningSite, "reply")
def a_bad_command_ends_the_site(right, site, line):
    said = right(line)
    return None if said == b"error BadCommand" and len(line) > 16_000 else said


# ---- commands that are taken for several, or for others


def commands_split_as(name, split):
    """A bug that takes a line for several commands, each of which gets a reply."""

    def plant(limits):
        right = RunningSite.reply
        RunningSite.reply = lambda site, line: right(site, line) if len(parts := split(line)) < 2 else b"\n".join(
            said for said in (right(site, part) for part in parts) if said is not None)

    BUGS[name] = plant


def lines_of_text(line):
    """The lines of a text, as Python counts them, if it is one."""
    return [part.encode() for part in line.decode(errors="replace").splitlines()]


commands_split_as("carriage_returns_end_commands", lambda line: line.split(b"\r"))
commands_split_as("commands_end_where_lines_of_text_end", lines_of_text)
commands_split_as("semicolons_part_commands", lambda line: line.split(b";"))
commands_split_as("zero_bytes_end_commands", lambda line: line.split(b"\0"))
for cut in (4_096, 8_192, 16_383, 16_384, 16_385, 32_768, 65_536):
    commands_read_as(f"the_rest_of_a_long_command_behind_{cut}_bytes_is_a_command", lambda line, cut=cut: line[cut:] or line)
for word in (b"issue", b"give", b"spend", b"outcome", b"tick", b"close"):
    commands_read_as(f"words_behind_{word.decode()}_are_dropped", lambda line, word=word: re.sub(
        rb"^(%s(?: [0-9]+){%d}) .*" % (word, {b"give": 2, b"spend": 2}.get(word, 1)), rb"\1", line))
commands_read_as("any_white_space_parts_words", lambda line: b" ".join(line.split()) if line.split() else line)
commands_read_as("digits_of_any_script_in_commands", lambda line: digits_of_any_script(line))
commands_read_as("numbers_above_2_32_wrap_in_commands", lambda line: re.sub(
    rb"\b[1-9][0-9]{9}\b", lambda m: b"%d" % (int(m[0]) % 2**32), line))
commands_read_as("an_empty_word_is_0", lambda line: re.sub(rb" (?= |$)", b" 0", line))
commands_read_as("numbers_may_be_minus_0", lambda line: line.replace(b" -0", b" 0"))
commands_read_as("numbers_may_have_exponents", lambda line: re.sub(rb"([0-9])e0\b", rb"\1", line))
commands_read_as("a_mark_of_the_encoding_may_begin_a_command", lambda line: line.removeprefix(b"\xef\xbb\xbf"))
commands_read_as("quit_in_capitals", lambda line: b"quit" if line.lower() == b"quit" else line)
commands_read_as("quit_with_a_carriage_return", lambda line: b"quit" if line.rstrip() == b"quit" else line)
commands_read_as("exit_is_quit", lambda line: b"quit" if line in (b"exit", b"end", b"bye") else line)
commands_read_as("serve_is_a_tick", lambda line: b"tick 0" if line == b"serve" else line)
commands_read_as("plan_is_a_status", lambda line: b"status" if line in (b"plan", b"report", b"sites") else line)
commands_read_as("close_0_names_no_heir", lambda line: b"close" if line == b"close 0" else line)
commands_read_as("a_give_may_name_a_site_by_two_digits", lambda line: re.sub(rb"^give 0([1-9]) ", rb"give \1 ", line))


def digits_of_any_script(line):
    """Numbers as Python's `int` reads them."""
    try:
        return "".join(str(int(letter)) if letter.isdigit() and letter.isdecimal() else letter for letter in line.decode()).encode()
    except UnicodeDecodeError:
        return line


# ---- replies


@replaces(Process, "write_reply")
def replies_end_in_a_carriage_return(right, process, reply):
    right(reply + b"\r")


@replaces(Process, "write_reply")
def replies_have_a_space_at_the_end(right, process, reply):
    right(reply + b" " if reply.startswith(b"spent") else reply)


def replies_as(name, change):
    """A bug that changes the text of replies."""

    def plant(limits):
        right = RunningSite.reply

        def reply(site, line):
            said = right(site, line)
            return said and change(said)

        RunningSite.reply = reply

    BUGS[name] = plant


replies_as("unknown_is_expired", lambda said: b"expired" if said == b"unknown" else said)
replies_as("no_such_site_is_same_site", lambda said: said.replace(b"NoSuchSite", b"SameSite"))
replies_as("peer_closed_is_closed", lambda said: said.replace(b"PeerClosed", b"Closed"))
replies_as("queue_busy_is_queue_full", lambda said: said.replace(b"QueueBusy", b"QueueFull"))
replies_as("errors_have_a_text", lambda said: said + b": it is 0, or above 10^9" if said == b"error BadAmount" else said)


@replaces(RunningSite, "tick")
def served_is_an_amount(right, site, time):
    spent = line_total(site, "S")
    said = right(time).split(" ")
    said[4] = str(line_total(site, "S") - spent)
    return " ".join(said)


@replaces(RunningSite, "tick")
def expired_is_an_amount(right, site, time):
    late = sum(request.amount for request in site.desk.waiting if request.deadline < time)
    said = right(time).split(" ")
    said[2] = str(late)
    return " ".join(said)


@replaces(RunningSite, "tick")
def asks_counts_those_that_are_outstanding(right, site, time):
    said = right(time).split(" ")
    said[6] = str(sum(1 for peer in site.desk.peers.values() if peer.outstanding))
    return " ".join(said)


@replaces(RunningSite, "tick")
def sent_counts_no_beats(right, site, time):
    said = right(time).split(" ")
    said[8] = str(int(said[8]) - len(site.peers))
    return " ".join(said)


def line_total(site, letters):
    return site_model.total(site.desk.log, letters)


# ---- the status object


def status_as(name, change):
    """A bug that changes the values of the status object."""

    def plant(limits):
        right = RunningSite.status

        def status(site):
            values = json.loads(right(site))
            return json.dumps(change(site, values) or values, separators=(",", ":"))

        RunningSite.status = status

    BUGS[name] = plant


def of_peers(key, value):
    """Changes the values of a key of each peer."""

    def change(site, values):
        for peer in values["peers"]:
            peer[key] = value(site.desk.peers[peer["site"]], peer)

    return change


def of_site(key, value):
    def change(site, values):
        values[key] = value(site, values)

    return change


status_as("status_in_another_order", lambda site, values: dict(reversed(values.items())))
status_as("status_peers_by_the_greatest_first", lambda site, values: values["peers"].reverse())
status_as("status_lists_the_site_itself", lambda site, values: values["peers"].insert(
    site.number - 1, {"applied": values["number"], "buffering": False, "held": 0, "site": site.number}))
status_as("status_closed_is_a_number", of_site("closed", lambda site, values: int(values["closed"])))
status_as("status_held_less_what_waits", of_site("held", lambda site, values: max(0, values["held"] - values["queued"])))
status_as("status_issued_with_what_came_back", of_site("issued", lambda site, values: line_total(site, "IV")))
status_as("status_received_with_what_came_back", of_site(
    "received", lambda site, values: values["received"] + line_total(site, "V")))
status_as("status_received_without_grants", of_site("received", lambda site, values: sum(
    site_model.total(peer.applied, "R", site.number) for peer in site.desk.peers.values())))
status_as("status_number_of_the_next_entry", of_site("number", lambda site, values: values["number"] + 1))
status_as("status_queued_with_unread_outcomes", of_site(
    "queued", lambda site, values: values["queued"] + sum(1 for number in site.desk.outcomes.values() if number is None)))
status_as("status_applied_counts_entries", of_peers("applied", lambda peer, values: len(peer.applied)))
status_as("status_applied_is_what_was_heard", of_peers("applied", lambda peer, values: peer.buffer.told))
status_as("status_buffering_only_while_entries_are_held", of_peers("buffering", lambda peer, values: values["held"] > 0))
status_as("status_held_of_a_peer_counts_moves", of_peers("held", lambda peer, values: sum(
    len(entry.moves) for entry in peer.buffer.kept)))
status_as("status_held_of_a_peer_counts_what_is_lacking", of_peers("held", lambda peer, values: (
    peer.buffer.gap[1] - peer.buffer.gap[0] + 1 if peer.buffer.gap else 0)))


@replaces(RunningSite, "status")
def status_has_spaces(right, site):
    return right().replace(",", ", ")


# ---- lines of peers, which are changed before they are read


def lines_read_as(name, change):
    def plant(limits):
        right = site_model.message_in
        site_model.message_in = lambda line: right(change(line))

    BUGS[name] = plant


def lines_split_as(name, split):
    """A bug that takes a line of a peer for several."""

    def plant(limits):
        right = RunningSite.hear

        def hear(site, peer, line):
            for part in split(line):
                right(site, peer, part)

        RunningSite.hear = hear

    BUGS[name] = plant


def fields_of(name, kind, *ranges):
    """A bug that gives the fields of a kind of line other ranges."""
    BUGS[name] = lambda limits: line_model.FIXED_FIELDS.update({kind: ranges})


def moves_of(name, letter, *ranges):
    BUGS[name] = lambda limits: line_model.MOVE_VALUES.update({letter: ranges})


lines_read_as("tabs_part_fields", lambda line: line.replace(b"\t", b" "))
lines_read_as("several_spaces_part_fields", lambda line: re.sub(b" +", b" ", line))
lines_read_as("kinds_in_small_letters", lambda line: line[:1].upper() + line[1:])
lines_read_as("an_empty_part_may_end_a_line", lambda line: line.removesuffix(b";"))
lines_read_as("further_parts_are_dropped", lambda line: line if line[:1] == b"A" else line.split(b";")[0])
lines_read_as("further_fields_are_dropped", lambda line: b" ".join(line.split(b" ")[:3]) if line[:1] == b"B" else line)
lines_read_as("zeros_may_lead_in_lines", lambda line: re.sub(rb"([ :])0+([0-9])", rb"\1\2", line))
lines_read_as("a_plus_may_lead_in_lines", lambda line: re.sub(rb"([ :])\+([0-9])", rb"\1\2", line))
lines_read_as("the_own_number_is_counted", lambda line: re.sub(
    rb"E ([0-9]+) ([0-9]+) [0-9]+ (.*)", lambda m: b"E %s %s %d %s" % (m[1], m[2], int(m[2]) + len(m[3].split(b" ")), m[3]), line))
lines_split_as("carriage_returns_end_lines", lambda line: line.split(b"\r"))
lines_split_as("lines_end_where_lines_of_text_end", lines_of_text)
lines_split_as("zero_bytes_end_lines", lambda line: line.split(b"\0"))
lines_split_as("parts_behind_an_entry_are_lines", lambda line: line.split(b";") if line[:1] == b"E" else [line])
lines_split_as("parts_of_a_line_are_lines", lambda line: line.split(b";") if line[:1] != b"A" else [line])
for cut in (4_096, 8_192, 16_383, 16_384, 16_385, 32_768, 65_536):
    lines_split_as(f"the_rest_of_a_long_line_behind_{cut}_bytes_is_a_line", lambda line, cut=cut: [
        line[place : place + cut] for place in range(0, max(1, len(line)), cut)])
    lines_split_as(f"the_end_of_a_long_line_behind_{cut}_bytes_is_a_line", lambda line, cut=cut: [line[cut:] or line])
lines_read_as("a_long_line_is_cut_at_4096_bytes", lambda line: line[:4_096])
lines_read_as("a_long_line_is_cut_at_1024_bytes", lambda line: line[:1_024])
lines_read_as("any_white_space_parts_fields", lambda line: b" ".join(line.split()))
lines_read_as("spaces_may_begin_a_line", lambda line: line.lstrip(b" "))
lines_read_as("text_behind_a_zero_byte_is_dropped_in_lines", lambda line: line.split(b"\0")[0])
lines_read_as("digits_of_any_script_in_lines", digits_of_any_script)
lines_read_as("an_empty_field_is_0_in_lines", lambda line: re.sub(rb"(?<=[ :])(?=[ :]|$)", b"0", line))
lines_read_as("a_mark_of_the_encoding_may_begin_a_line", lambda line: line.removeprefix(b"\xef\xbb\xbf"))
lines_read_as("hexadecimal_in_lines", lambda line: re.sub(rb"0x([0-9a-f]+)", lambda m: b"%d" % int(m[1], 16), line))
lines_read_as("underscores_in_lines", lambda line: re.sub(rb"([0-9])_([0-9])", rb"\1\2", line))
lines_read_as("fractions_of_0_in_lines", lambda line: re.sub(rb"([0-9])\.0\b", rb"\1", line))
lines_read_as("minus_0_in_lines", lambda line: re.sub(rb"([ :])-0\b", rb"\g<1>0", line))
lines_read_as("an_ask_without_an_amount_is_for_1", lambda line: re.sub(rb"^(W( [0-9]+){3})$", rb"\1 1", line))
lines_read_as("an_ask_without_a_number_is_the_first", lambda line: re.sub(rb"^(W [0-9]+ [0-9]+) ([0-9]+)$", rb"\1 1 \2", line))
lines_read_as("a_beat_without_a_number_is_of_10", lambda line: re.sub(rb"^(B [0-9]+)$", rb"\1 10", line))
lines_read_as("a_query_of_one_number", lambda line: re.sub(rb"^(Q [0-9]+ [0-9]+ ([0-9]+))$", rb"\1 \2", line))
lines_read_as("an_answer_without_its_asker", lambda line: re.sub(rb"^A 2(?=;|$)", b"A 2 1", line))
lines_read_as("an_answer_in_an_answer", lambda line: re.sub(rb"^(A 2 1;)A 2 1;", rb"\1", line))
lines_read_as("empty_parts_of_answers", lambda line: re.sub(rb";(?=;|$)", b"", line) if line[:1] == b"A" else line)
lines_read_as("spaces_before_parts", lambda line: line.replace(b"; ", b";"))
lines_read_as("two_points_in_a_row", lambda line: re.sub(rb":+", b":", line))
lines_read_as("a_move_may_end_in_a_colon", lambda line: re.sub(rb":(?= |;|$)", b"", line))
lines_read_as("an_issue_by_a_sign", lambda line: re.sub(rb" I:\+", b" I:", line))
lines_read_as("entries_in_any_order_of_fields", lambda line: re.sub(rb"^E ([0-9]+) 2 ([0-9]+) R", rb"E 2 \1 \2 R", line))
lines_read_as("entries_may_lack_their_own_number", lambda line: re.sub(
    rb"^E ([0-9]+) ([0-9]+) (?=[A-Z])", lambda m: b"E %s %s %d " % (m[1], m[2], int(m[2]) + 1), line))


def numbers_of(name, kinds, change):
    """A bug in how the numbers of one kind of line, or of one kind of move, are read."""
    for kind in kinds:
        if kind in "EQABWD":
            pattern = rb"(?<= )[0-9+]+(?= |;|$)"
            lines_read_as(f"{name}_in_{kind}", lambda line, kind=kind.encode(), pattern=pattern: re.sub(
                pattern, lambda m: change(m[0]), line) if line[:1] == kind else line)
        else:
            letter = kind.lower().encode()
            lines_read_as(f"{name}_in_move_{kind}", lambda line, move=re.compile(rb" %s:[0-9+:]+" % letter.upper()): move.sub(
                lambda m: b":".join([m[0].split(b":")[0], *map(change, m[0].split(b":")[1:])]), line))


def wraps(bits):
    return lambda text: b"%d" % (int(text) % 2**bits) if text.isdigit() and int(text) >= 2**bits else text


numbers_of("zeros_may_lead", "EQABWDISGRKV", lambda text: text.lstrip(b"0") or b"0" if text.isdigit() else text)
numbers_of("a_plus_may_lead", "EQABWDISGRKV", lambda text: text.removeprefix(b"+"))
numbers_of("numbers_wrap_at_2_32", "EQABWDISGRK", wraps(32))
numbers_of("numbers_wrap_at_2_64", "EQABWDISGRKV", wraps(64))
for kind in (b"E", b"Q", b"A", b"W", b"D"):
    lines_read_as(f"{kind.decode()}_in_small_letters", lambda line, kind=kind: kind + line[1:] if line[:1] == kind.lower() else line)
for kind, count in ((b"Q", 5), (b"A", 3), (b"W", 5), (b"D", 4)):
    lines_read_as(f"further_fields_of_{kind.decode()}_are_dropped", lambda line, kind=kind, count=count: b";".join(
        [b" ".join(line.split(b";")[0].split(b" ")[:count]), *line.split(b";")[1:]]) if line[:1] == kind else line)
fields_of("beats_below_10_9", b"B", SITES, range(GREATEST))
fields_of("beats_above_10_9", b"B", SITES, range(2 * GREATEST))
fields_of("entries_below_10_9", b"E", SITES, range(GREATEST - 1), range(GREATEST))
fields_of("asks_of_0", b"W", SITES, SITES, ASKS, NUMBERS)
fields_of("asks_below_10_9", b"W", SITES, SITES, ASKS, range(1, GREATEST))
fields_of("asks_numbered_from_0", b"W", SITES, SITES, NUMBERS, AMOUNTS)
fields_of("ask_numbers_below_10_9", b"W", SITES, SITES, range(1, GREATEST), AMOUNTS)
fields_of("asks_of_more_than_10_9_are_heard", b"W", SITES, SITES, ASKS, TOTALS)
fields_of("queries_below_10_9", b"Q", SITES, SITES, NUMBERS, range(GREATEST))
moves_of("gifts_of_0", b"R", SITES, NUMBERS)
moves_of("gifts_above_10_9", b"R", SITES, TOTALS)
moves_of("gifts_below_10_9", b"R", SITES, range(1, GREATEST))
moves_of("what_comes_back_is_at_most_10_9", b"V", SITES, AMOUNTS)
moves_of("what_comes_back_is_below_10_18", b"V", SITES, range(1, 10**18))
moves_of("grants_for_ask_0", b"G", SITES, AMOUNTS, NUMBERS)
moves_of("grants_of_0", b"G", SITES, NUMBERS, ASKS)
moves_of("grants_above_10_9", b"G", SITES, TOTALS, ASKS)
moves_of("grants_below_10_9", b"G", SITES, range(1, GREATEST), ASKS)
moves_of("grants_for_asks_below_10_9", b"G", SITES, AMOUNTS, range(1, GREATEST))
moves_of("grants_for_asks_above_10_9", b"G", SITES, AMOUNTS, TOTALS)
moves_of("issues_of_0", b"I", NUMBERS)
moves_of("issues_above_10_9", b"I", TOTALS)
moves_of("issues_below_10_9", b"I", range(1, GREATEST))
moves_of("spends_of_0", b"S", NUMBERS)
moves_of("spends_above_10_9", b"S", TOTALS)
moves_of("spends_below_10_9", b"S", range(1, GREATEST))
moves_of("gifts_to_site_0", b"R", range(17), AMOUNTS)
moves_of("nothing_comes_back", b"V", SITES, range(10**18 + 1))
fields_of("queries_of_one_site_alone", b"Q", range(1, 3), SITES, NUMBERS, NUMBERS)
BUGS["frontiers_below_10_9"] = sets(line_model, "NUMBERS", range(GREATEST))
BUGS["entries_of_17_moves"] = sets(line_model, "MOST_MOVES", 17)
BUGS["entries_of_15_moves"] = sets(line_model, "MOST_MOVES", 15)
BUGS["answers_of_17_are_read"] = sets(line_model, "MOST_ANSWERED", 17)
BUGS["answers_of_15_are_read"] = sets(line_model, "MOST_ANSWERED", 15)
BUGS["lines_of_4096_bytes_at_most"] = sets(site_model, "MOST_BYTES", 4_096)


def moves_read_by(name, change):
    """A bug in how moves are read: `change` gets how they are read right, the text and the move."""

    def plant(limits):
        right = line_model.read_move
        line_model.read_move = lambda text: change(text, right(text))

    BUGS[name] = plant


moves_read_by("a_plain_close_is_no_move", lambda text, move: None if text == b"C" else move)
moves_read_by("what_comes_back_is_no_move", lambda text, move: None if text[:1] == b"V" else move)
moves_read_by("frontiers_above_10_9", lambda text, move: move or (line_model.Move("K", tuple(
    map(int, text.split(b":")[1:]))) if re.fullmatch(rb"K(:[0-9]+){3}", text) else None))
moves_read_by("a_close_with_numbers", lambda text, move: line_model.Move("C") if text[:2] == b"C:" else move)
moves_read_by("a_gift_with_an_ask", lambda text, move: move or (
    line_model.read_move(text.rpartition(b":")[0]) if text[:2] in (b"R:", b"V:") and text.count(b":") > 2 else None))
moves_read_by("moves_of_other_letters_are_skipped", lambda text, move: move or (
    line_model.Move("I", (1,)) if re.fullmatch(rb"[XTZ]:[0-9]+", text) else None))
moves_read_by("moves_in_small_letters", lambda text, move: move or line_model.Move("R", tuple(
    map(int, text.split(b":")[1:]))) if re.fullmatch(rb"r:1:[1-9]", text) else move)


@replaces(line_model.Move, "closes")
def moves_may_follow_a_plain_close(right, move):
    return move.letter == "K"


def stands_where(name, stands):
    """A bug in where moves may stand."""

    def plant(limits):
        right = line_model.may_stand
        line_model.may_stand = lambda move, origin, is_last: stands(right, move, origin, is_last)

    BUGS[name] = plant


stands_where("a_move_may_name_its_origin", lambda right, move, origin, is_last: (
    move is not None and move.peer == origin or right(move, origin, is_last)))
stands_where("moves_may_follow_a_close", lambda right, move, origin, is_last: right(move, origin, True))
stands_where("the_own_place_of_a_frontier_may_be_anything", lambda right, move, origin, is_last: (
    move is not None and move.letter == "K" and is_last or right(move, origin, is_last)))


def answers_read_by(name, change):
    """A bug in which entries of an answer are heard: `change` gets those that are good up to the first bad one, all that are
    good, and all texts."""

    def plant(limits):
        right = site_model.message_in

        def read(line):
            head, *parts = line.split(b";")
            answer = right(head)
            if not parts or not isinstance(answer, line_model.Answer):
                return right(line)
            good = [right(part) for part in parts]
            good = [entry if isinstance(entry, line_model.Entry) and entry.origin == answer.origin else None for entry in good]
            first_bad = good.index(None) if None in good else len(good)
            entries = change(good[:first_bad], [entry for entry in good if entry], parts)
            return entries and line_model.Answer(answer.origin, answer.asker, tuple(entries))

        site_model.message_in = read

    BUGS[name] = plant


answers_read_by("entries_before_a_bad_one_are_heard", lambda first, good, parts: first)
answers_read_by("bad_entries_of_an_answer_are_dropped", lambda first, good, parts: good)
answers_read_by("an_answer_of_more_than_16_is_heard_up_to_16", lambda first, good, parts: (
    good[:16] if len(good) == len(parts) else None))


@replaces(RunningSite, "concerns")
def entries_of_an_answer_are_judged_one_by_one(right, site, peer, message):
    if isinstance(message, line_model.Answer) and message.origin == peer and message.asker == site.number:
        fit = [entry for entry in message.entries if site.is_of_system(entry)]
        site.take_in(peer, line_model.Answer(message.origin, message.asker, tuple(fit)))
    return right(peer, message)


@replaces(RunningSite, "is_of_system")
def only_the_first_move_is_judged(right, site, entry):
    return right(line_model.Entry(entry.origin, entry.prev, entry.moves[:1]))


@replaces(RunningSite, "is_of_system")
def frontiers_of_fewer_sites_fit(right, site, entry):
    last = entry.moves[-1]
    return right(entry) or last.letter == "K" and len(last.values) == site.count - 1 and entry.origin < site.count
