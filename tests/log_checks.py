"""Checks of entries, buffers, queries, closing, and lines that are skipped, each named after the rule of docs/PROTOCOL.md
that it tries."""

from desk_model import MOST_HELD
from line_model import GREATEST, MOST_ANSWERED, MOST_BYTES
from site_trial import entries, skips

# ---- entries, buffers and gaps


def entries_are_applied_in_order(trial):
    first, second, third = entries(2, "I:9 R:1:4", "R:1:2", "S:1")
    trial.hear(2, third)
    trial.hear(2, first)
    trial.hear(2, second)
    trial.say("spend 6 1", "status")


def repeats_change_nothing(trial):
    lines = entries(2, "I:9", "R:1:4")
    trial.hear(2, *lines, *lines)
    trial.hear(2, lines[0])
    trial.hear(2, "A 2 1;" + ";".join(lines))
    trial.say("spend 4 1", "spend 1 1")


def an_entry_of_other_moves_under_an_old_number_is_a_repeat(trial):
    trial.hear(2, *entries(2, "R:1:4"))
    trial.hear(2, *entries(2, "R:1:9"))
    trial.hear(2, *entries(2, "I:1", "R:1:5", prev=1))


def a_held_entry_stays_as_it_came(trial):
    first, second, third = entries(2, "I:1", "R:1:2", "R:1:3")
    trial.hear(2, second)
    trial.hear(2, *entries(2, "R:1:9", prev=1))
    trial.hear(2, "A 2 1;" + entries(2, "R:1:7", prev=1)[0])
    trial.hear(2, first)
    trial.hear(2, third)


def a_later_entry_is_held_and_the_gap_asked_for(trial):
    lines = entries(2, "I:1", "I:1 I:1", "R:1:1", "I:1")
    trial.hear(2, lines[0])
    trial.hear(2, lines[3])
    trial.hear(2, lines[2])
    trial.hear(2, lines[2])
    trial.hear(2, lines[1])


def a_gap_begins_behind_what_was_put(trial):
    lines = entries(2, *["I:1"] * 9)
    trial.hear(2, *lines[:4])
    trial.hear(2, lines[8])
    trial.hear(2, lines[4])
    trial.hear(2, lines[6])
    trial.hear(2, lines[5], lines[7])


def a_gap_ends_where_the_first_held_entry_begins(trial):
    lines = entries(3, *["I:1 S:1"] * 8)
    trial.hear(3, lines[6])
    trial.hear(3, lines[4])
    trial.hear(3, lines[2])
    trial.hear(3, "B 3 40")
    trial.hear(3, lines[0], lines[1])


def a_gap_is_asked_for_once_but_after_each_beat(trial):
    lines = entries(2, *["I:1"] * 6)
    trial.hear(2, lines[3])
    trial.hear(2, lines[4])
    trial.hear(2, "B 2 5")
    trial.hear(2, "B 2 5")
    trial.hear(2, lines[5])
    trial.hear(2, "W 2 1 1 5")
    trial.hear(2, "B 2 3")
    trial.hear(2, *lines[:3])
    trial.hear(2, "B 2 6")


def a_beat_tells_of_entries(trial):
    trial.hear(2, "B 2 0")
    trial.hear(2, "B 2 7")
    trial.hear(2, "B 2 3")
    trial.hear(2, *entries(2, "I:1"))
    trial.hear(2, f"B 2 {GREATEST}")


def a_beat_of_the_next_entry_is_a_gap(trial):
    trial.hear(2, "B 2 1")
    trial.hear(2, *entries(2, "I:1"))
    trial.hear(2, "B 2 1")
    trial.hear(2, "B 2 2")


def the_greatest_numbers_are_read(trial):
    trial.hear(2, f"E 2 {GREATEST - 1} {GREATEST} I:{GREATEST}")
    trial.hear(2, *entries(2, f"R:1:{GREATEST}", f"V:3:{10**18}"))
    trial.hear(3, *entries(3, f"V:2:{GREATEST + 1}"))
    trial.say("status", f"spend {GREATEST} 1")


def an_entry_of_a_full_buffer_may_come_again(trial):
    lines = entries(2, *["I:1"] * (MOST_HELD + 4))
    trial.hear(2, *lines[2:])
    trial.hear(2, lines[-1])
    trial.hear(2, lines[1])
    trial.hear(2, lines[0])
    trial.hear(2, lines[1])
    trial.hear(2, lines[-1])


def an_answer_moves_the_gap(trial):
    lines = entries(2, *["I:1"] * 40)
    trial.hear(2, "B 2 40")
    for first in range(0, 40, MOST_ANSWERED):
        trial.hear(2, "A 2 1;" + ";".join(lines[first : first + MOST_ANSWERED]))
    trial.hear(2, "A 2 1")
    trial.hear(2, "B 2 40")


def an_empty_answer_asks_for_nothing_again(trial):
    trial.hear(2, "B 2 5")
    trial.hear(2, "A 2 1")
    trial.hear(2, "B 2 5")


def sixty_four_entries_are_held(trial):
    lines = entries(2, *["I:1"] * (MOST_HELD + 6))
    trial.hear(2, *lines[1 : MOST_HELD + 1])
    trial.hear(2, lines[MOST_HELD + 1])
    trial.hear(2, lines[MOST_HELD + 2])
    trial.hear(2, lines[5])
    trial.hear(2, lines[0])
    trial.hear(2, f"B 2 {MOST_HELD + 6}")
    trial.hear(2, *lines[MOST_HELD + 1 :])


def held_entries_may_be_far_apart(trial):
    """Each is told from the others by its previous number."""
    log = entries(2, *["I:1", " ".join(["R:1:1"] * 15), " ".join(["I:1"] * 16), " ".join(["I:1 R:1:2"] * 8), " ".join(["R:1:1"] * 16)] * 8)
    # Of every second and every 64th number.
    for place in (1, 5, 2, 9, 6, 13, 17, 21, 25, 29, 33, 37, 3, 7, 11):
        trial.hear(2, log[place])
    far = [f"E 2 {prev} {prev + 1} I:1" for prev in (10**6, 10**6 + 64, 10**6 + 128, 10**6 + 256, 10**9 - 1)]
    trial.hear(2, *far)
    trial.hear(2, *log[:12])
    trial.hear(2, *log[12:])


def entries_of_an_answer_may_be_held(trial):
    lines = entries(2, *["I:1"] * 8)
    trial.hear(2, "A 2 1;" + ";".join(lines[4:8]))
    trial.hear(2, "A 2 1;" + ";".join(lines[0:5]))


def buffers_of_peers_are_apart(trial):
    two, three = entries(2, "I:1", "R:1:3"), entries(3, "I:1", "R:1:5")
    trial.hear(2, two[1])
    trial.hear(3, three[0], three[1])
    trial.hear(2, two[0])


def an_answer_may_have_old_entries_too(trial):
    lines = entries(2, *["I:1"] * 6)
    trial.hear(2, *lines[:3])
    trial.hear(2, "A 2 1;" + ";".join(lines[1:5]))
    trial.hear(2, "A 2 1;" + ";".join(lines[4:6]))


def an_answer_may_have_its_entries_in_any_order(trial):
    lines = entries(2, *["R:1:1"] * 9)
    trial.hear(2, "A 2 1;" + ";".join(reversed(lines[:4])))
    trial.hear(2, "A 2 1;" + ";".join([lines[5], lines[5], lines[4], lines[4]]))
    trial.hear(2, "A 2 1;" + ";".join([lines[8], lines[6], lines[7]]))


def an_answer_may_go_beyond_what_was_asked_for(trial):
    lines = entries(2, *["R:1:1"] * 9)
    trial.hear(2, "B 2 2")
    trial.hear(2, "A 2 1;" + ";".join(lines[:5]))
    trial.hear(2, lines[7])
    trial.hear(2, "A 2 1;" + ";".join(lines[5:]))


def a_skipped_line_asks_for_nothing(trial):
    """Though a gap is there."""
    lines = entries(2, *["R:1:1"] * 4)
    trial.hear(2, lines[3])
    trial.hear(2, "B 3 7", "B 2 07", "B 2 9 ", "nonsense", "", "E 3 0 1 R:1:1", "A 2 3", "H 3", b"x" * 20_000)
    trial.hear(2, "B 2 4", "B 2 4")
    trial.hear(2, *lines[:3])


def a_gap_is_asked_for_after_any_line_that_moves_it(trial):
    lines = entries(2, *["R:1:1"] * 12)
    trial.hear(2, "B 2 9")
    trial.hear(2, lines[7])
    trial.hear(2, lines[3])
    trial.hear(2, lines[0])
    trial.hear(2, "A 2 1;" + lines[5])
    trial.hear(2, "A 2 1;" + lines[1])
    trial.hear(2, lines[2])
    trial.hear(2, "B 2 12")
    trial.hear(2, lines[4], lines[6], *lines[8:])


def what_was_told_before_a_close_is_no_gap(trial):
    trial.hear(2, "B 2 40")
    trial.hear(2, *entries(2, "I:1", "K:0:0:0"))
    trial.hear(2, "B 2 40")
    trial.say("status")


def a_line_of_7000_bytes_is_read(trial):
    grants = " ".join([f"G:3:{GREATEST}:{GREATEST}"] * 16)
    trial.hear(2, "A 2 1;" + ";".join(entries(2, *[grants] * 15, "R:1:5")))
    trial.say("spend 5 1")


def an_entry_of_sixteen_moves_is_one_entry(trial):
    trial.hear(2, *entries(2, " ".join(["I:1000000000"] * 15 + ["R:1:1000000000"]), "R:1:1"))
    trial.say("status", "spend 1000000000 1", "spend 1 1", "spend 1 1")


# ---- queries of others


def a_query_is_answered_by_the_entries_that_it_names(trial):
    trial.say("issue 9", "spend 1 1", "give 2 1", "give 3 1", "issue 4")
    for first, last in [(1, 1), (1, 5), (2, 4), (5, 5), (5, 9), (6, 6), (6, 999), (1, GREATEST)]:
        trial.hear(2, f"Q 2 1 {first} {last}")
    trial.hear(3, "Q 3 1 3 3")


def a_query_from_0_or_backwards_gets_no_answer(trial):
    trial.say("issue 9", "spend 1 1", "spend 1 1")
    trial.hear(2, "Q 2 1 0 2")
    trial.hear(2, "Q 2 1 3 2")
    trial.hear(2, "Q 2 1 0 0")
    trial.hear(2, "Q 2 1 2 2")


def an_entry_of_two_numbers_is_answered_for_each(trial):
    trial.say("issue 9", "close 2")
    for first, last in [(1, 1), (1, 2), (2, 2), (3, 3), (2, 3), (4, 4)]:
        trial.hear(3, f"Q 3 1 {first} {last}")


def an_answered_entry_is_sent_all_the_same(trial):
    trial.say("issue 9", "give 2 4", "give 2 1")
    trial.hear(2, "Q 2 1 2 2")
    trial.tick()


def an_answer_has_16_entries_at_most(trial):
    trial.say_together("issue 100", *["spend 1 1"] * 40)
    for first, last in [(1, 41), (1, 16), (1, 17), (20, 41), (26, 41), (25, 41)]:
        trial.hear(2, f"Q 2 1 {first} {last}")


def an_answer_counts_entries_and_not_numbers(trial):
    trial.say("issue 50", *["spend 1 1"] * 14, "close 2", "status")
    for first, last in [(1, 17), (2, 17), (1, 99), (17, 17), (16, 16), (1, 16), (1, 15)]:
        trial.hear(3, f"Q 3 1 {first} {last}")


def what_was_taken_back_is_answered(trial):
    trial.say("issue 20", "give 2 5")
    trial.hear(2, *entries(2, "K:0:0:0"))
    trial.hear(3, "Q 3 1 1 9", "Q 3 1 3 3")
    trial.hear(2, "Q 2 1 1 9")
    trial.tick()


def a_query_may_come_again(trial):
    trial.say("issue 9", "spend 1 1")
    for _ in range(3):
        trial.hear(2, "Q 2 1 1 2")
    trial.hear(2, "Q 2 1 1 2", "Q 2 1 1 2")
    trial.tick()
    trial.hear(2, "Q 2 1 1 2")
    trial.hear(3, "Q 3 1 1 2")


def entries_are_answered_before_they_were_sent(trial):
    trial.say("issue 9", "give 2 4")
    trial.hear(2, "B 2 0", "Q 2 1 1 9")
    trial.tick()


# ---- closing


def a_close_says_what_was_applied(trial):
    trial.hear(2, *entries(2, "I:9", "I:1 R:1:2"))
    trial.hear(3, *entries(3, "I:9", "I:9 I:9"), "E 3 9 10 I:1")
    trial.say("close")
    trial.tick()
    trial.hear(2, "Q 2 1 1 9")


def a_close_leaves_what_is_held_to_the_heir(trial):
    trial.say("issue 9", "spend 2 1", "close 3", "status")
    trial.tick()


def a_close_with_nothing_has_no_legacy(trial):
    trial.say("close 2", "status")
    trial.tick()


def more_than_10_9_is_left_to_nobody(trial):
    trial.say(f"issue {GREATEST}", "issue 1", "close 2", "spend 1 1", "close 2")
    trial.tick()


def an_heir_is_judged_though_nothing_is_held(trial):
    trial.hear(2, *entries(2, "K:0:0:0"))
    trial.say("close 1", "close 4", "close 2", "close 3")
    trial.tick()


def what_is_held_is_judged_last(trial):
    trial.hear(2, *entries(2, "K:0:0:0"))
    trial.say(f"issue {GREATEST}", "issue 1", "close 4", "close 1", "close 2", "close 3", "close", "status")
    trial.tick()


def unread_outcomes_outlast_a_close(trial):
    trial.say("spend 5 0", "spend 3 9", "tick 1", "issue 3", "tick 1", "close", "outcome 1", "outcome 2", "outcome 2")


def a_closed_site_has_its_time(trial):
    trial.say("tick 5", "close", "tick 3", "tick 5", "tick 4", "tick 6")


def a_closed_site_answers_asks_as_before(trial):
    trial.say("issue 10")
    trial.hear(2, "W 2 1 1 4")
    trial.say("close")
    for number in (1, 2, 2, 1, 4, 3):
        trial.hear(2, f"W 2 1 {number} 4")
    trial.tick()


def a_closed_site_takes_nothing_back(trial):
    trial.say("issue 20", "give 3 5", "close")
    trial.hear(3, *entries(3, "I:1", "K:0:0:0"))
    trial.say("status")
    trial.tick()


def a_site_closes_once_nothing_waits(trial):
    trial.say("spend 5 3", "close", "close 2", "close 4", "tick 4", "close 4", "close")


def a_closed_site_applies_nothing(trial):
    trial.hear(2, *entries(2, "I:9"))
    trial.say("close")
    trial.hear(2, *entries(2, "R:1:3", prev=1))
    trial.hear(3, *entries(3, "I:9", "K:0:0:0"))
    trial.say("status", "issue 1", "give 2 1", "spend 1 1", "outcome 1", "tick 7")


def a_close_waits_for_what_waits(trial):
    """Also where enough is held to serve it."""
    trial.say("spend 5 9", "issue 9", "close", "close 2", "outcome 1", "status", "tick 1", "close 2", "outcome 1")


def a_frontier_has_what_was_applied_of_each(trial):
    """And not what was heard of, or is held."""
    trial.hear(2, *entries(2, "I:9 I:1", "I:1 R:1:2"), "E 2 6 7 I:1", "B 2 30")
    trial.hear(3, "B 3 12")
    trial.say("close 2")
    trial.tick()


def a_site_in_the_middle_is_a_site_as_any(trial):
    """Site 2 of 3."""
    trial.say("status", "give 2 1", "issue 20", "give 1 3", "give 3 4", "give 3 1", "spend 30 9", "close 2")
    trial.hear(1, *entries(1, "I:50 R:2:1", "I:1"), "Q 1 2 1 9", "W 1 2 1 4", "E 2 0 1 I:1", "B 2 9", "D 2 1 1", "Q 1 3 1 1")
    trial.tick(2)
    trial.hear(1, *entries(1, "G:2:8:1", "R:2:9", prev=3))
    trial.hear(3, *entries(3, "R:2:1", "K:9:2:0"))
    trial.tick()
    trial.hear(1, "E 1 7 8 I:1")
    trial.say("outcome 1", "status", "close 2", "close 3", "close 1", "status")
    trial.tick()
    trial.hear(1, "Q 1 2 1 99", "W 1 2 2 1")


def site_16_is_a_site_as_any(trial):
    """Of 16."""
    trial.say("status", "issue 20", "give 10 3", "give 1 4", "give 16 1", "give 17 1", "spend 30 9")
    trial.hear(15, *entries(15, "I:50 R:16:1"), "Q 15 16 1 9", "W 15 16 1 4")
    trial.hear(10, *entries(10, "I:50", "I:1 R:9:1"), "E 10 4 5 I:1")
    trial.tick()
    trial.hear(10, *entries(10, "G:16:18:1", prev=3))
    trial.hear(11, *entries(11, "K:9" + ":1" * 9 + ":0:1:1:1:1:3"))
    trial.tick()
    trial.say("outcome 1", "close 16", "close 10", "status")
    trial.tick()


def a_site_of_a_system_of_two(trial):
    """Site 2."""
    trial.say("status", "issue 9", "give 1 2", "give 3 1", "give 2 1")
    trial.hear(1, *entries(1, "I:9 R:2:1"), "W 1 2 1 4", "E 1 2 3 R:3:1", "E 1 2 3 K:0", "E 1 2 3 K:0:0:0", "Q 1 2 1 9")
    trial.tick()
    trial.hear(1, *entries(1, "K:0:2", prev=2))
    trial.say("close 1", "close")
    trial.tick()


def a_closed_site_denies_and_answers(trial):
    trial.say("issue 9", "close")
    trial.hear(2, "W 2 1 1 4")
    trial.hear(2, "Q 2 1 1 9")
    trial.tick(2)
    trial.hear(3, "B 3 4")


def what_a_closed_site_had_not_applied_is_taken_back(trial):
    trial.say("issue 20", "give 2 1", "give 2 2", "give 3 9", "give 2 4")
    trial.tick()
    trial.hear(2, *entries(2, "I:1", "K:2:0:0"))
    trial.say("status", "give 2 1")
    trial.tick()


def nothing_is_taken_back_twice(trial):
    trial.say("issue 20", "give 2 5")
    line = entries(2, "K:0:0:0")[0]
    trial.hear(2, line)
    trial.hear(2, line)
    trial.hear(2, "A 2 1;" + line)
    trial.tick(2)
    trial.say("status")


def what_was_applied_is_not_taken_back(trial):
    trial.say("issue 20", "give 2 5")
    trial.hear(2, *entries(2, "K:2:0:0"))
    trial.tick()
    trial.say("status")


def more_than_10_9_is_taken_back_by_one_move(trial):
    trial.say(*[f"issue {GREATEST}", f"give 2 {GREATEST}"] * 2)
    trial.hear(2, *entries(2, "K:0:0:0"))
    trial.say("status")
    trial.tick()


def an_heir_takes_back_too(trial):
    trial.say("issue 20", "give 2 5", "give 2 1")
    trial.hear(2, *entries(2, "I:3", "R:1:3 K:2:0:0"))
    trial.say("status", "give 2 1")
    trial.tick()


def a_site_with_another_heir_is_taken_back_from(trial):
    trial.say("issue 20", "give 2 5")
    trial.hear(2, *entries(2, "I:3", "R:3:3 K:1:0:9"))
    trial.say("status")
    trial.tick()


def grants_are_taken_back_too(trial):
    trial.say("issue 20")
    trial.hear(2, "W 2 1 1 7")
    trial.say("give 2 2")
    trial.hear(2, *entries(2, "K:1:0:0"))
    trial.tick()
    trial.say("status")


def a_plain_close_takes_nothing_back(trial):
    trial.say("issue 20", "give 2 5")
    trial.hear(2, *entries(2, "C"))
    trial.say("status", "give 2 1")
    trial.tick()


def nothing_comes_after_a_close(trial):
    trial.hear(2, *entries(2, "I:9", "K:0:0:0", "R:1:4", "R:1:1"))
    trial.hear(2, "B 2 9")
    trial.hear(2, *entries(2, "R:1:4", prev=2))
    trial.say("status")


def a_close_that_comes_early_is_held(trial):
    trial.say("issue 20", "give 2 5")
    first, last = entries(2, "R:1:1", "K:0:0:0")
    trial.hear(2, last)
    trial.say("give 2 1", "status")
    trial.hear(2, first)
    trial.say("give 2 1", "status")
    trial.tick()


def what_a_peer_takes_back_counts_as_its_own(trial):
    trial.hear(3, *entries(3, "K:0:0:0"))
    trial.hear(2, *entries(2, "I:9 R:3:9", "V:3:9"))
    trial.say("spend 5 999")
    trial.tick()


# ---- lines that are skipped

def lines_that_do_not_read_are_skipped(trial):
    skips(
        trial, b"", b" ", b"nonsense", b"E", b"E 2 %p %n", b"E 2 %p 0%n R:1:9", b"E 2 0%p %n R:1:9", b"E 2 %p 1%n R:1:9",
        b"E 2 %p %n R:1:0", b"E 2 %p %n R:1:1000000001", b"E 2 %p %n  R:1:9", b"E 2 %p %n R:1:9 ", b"E 2 %p %n R:1:9\r",
        b" E 2 %p %n R:1:9", b"E 2 %p %n R:1:9;", b"E 2 %p %n R:2:9", b"E 2 %p %n R:01:9", b"E 2 %p %n R:1:09", b"E 2 %p %n R:1:+9",
        b"E 02 %p %n R:1:9", b"E 2 %p %n K:0:1:0", b"E 2 %p %n V:1:0", b"E 2 %p %n I:1 R:1:9", b"A 2 1;", b"A 2 1;B 2 90",
        b"A 2 1;E 2 %p %n R:1:9;", b"A 2 1 ;E 2 %p %n R:1:9", b"A 2 2;E 2 %p %n R:1:9", b"A 2 1;E 3 0 1 R:1:9", b"B 2 90 ", b"B 2 090",
        b"B 2 1000000001", b"B 2 -1", b"W 2 1 1 0", b"W 2 1 0 4", b"W 2 2 1 4", b"D 2 1 0", b"e 2 %p %n R:1:9", b"E 2 %p %n X:1",
        b"E 2 %p %n S:1:1", b"E 2 %p %n V:1:1000000000000000001", b"E 2 %p %n G:1:4:0", b"E 2 %p %n G:1:4", b"E 2 %p %n C:1",
        b"W 2 1 1 1000000001", b"W 2 1 1000000001 1", b"Q 2 1 1 1000000001", b"b 2 90", b"B  2 90", b"B 2 90\0", b"B 2 +90", b"B 2 0x9", b"E\t2 %p %n R:1:9", b"\xff\xfe", b"B 2 90;", b"Q 2 1 1 1;", b"Q 2 1 1", b"B 2 90 90", b"E 2 %p %n r:1:9",
    )  # fmt: skip


def an_entry_has_16_moves_at_most(trial):
    trial.hear(2, "E 2 0 17 " + " ".join(["R:1:1"] * 17))
    trial.hear(2, "E 2 0 0")
    trial.hear(2, "E 2 0 16 " + " ".join(["R:1:1"] * 16))


def a_closing_move_is_the_last_of_its_entry(trial):
    trial.hear(2, "E 2 0 2 K:0:0:0 R:1:1")
    trial.hear(2, "E 2 0 2 C R:1:1")
    trial.hear(2, "E 2 0 2 R:1:1 K:0:0:0")


def an_answer_of_17_entries_is_skipped(trial):
    lines = entries(2, *["R:1:1"] * (MOST_ANSWERED + 1))
    trial.hear(2, "A 2 1;" + ";".join(lines))
    trial.hear(2, "A 2 1;" + ";".join(lines[:MOST_ANSWERED]))


def lines_of_other_senders_are_skipped(trial):
    skips(
        trial, b"E 3 0 1 R:1:9", b"E 1 0 1 I:9", b"B 3 7", b"B 1 7", b"A 3 1;E 3 0 1 R:1:9", b"Q 3 1 1 1", b"W 3 1 1 4", b"D 3 1 1",
        b"H 3", b"H 1",
    )  # fmt: skip


def lines_for_other_sites_are_skipped(trial):
    trial.say("issue 9")
    skips(trial, b"A 2 3;E 2 %p %n R:1:9", b"Q 2 3 1 1", b"W 2 3 1 4", b"D 2 3 1")


def lines_that_name_a_site_above_n_are_skipped(trial):
    skips(
        trial, b"E 2 %p %n R:4:9", b"E 2 %p %n G:4:9:1", b"E 2 %p %n V:4:9", b"A 2 1;E 2 %p %n R:4:9", b"A 2 4;E 2 %p %n R:1:9",
        b"W 2 4 1 9", b"Q 2 4 1 1",
    )  # fmt: skip


def a_close_of_another_count_of_sites_is_skipped(trial):
    skips(trial, b"E 2 %p %n K:0:0", b"E 2 %p %n K:0:0:0:0", b"A 2 1;E 2 %p %n K:0:0", b"E 2 %p %n K:0")


def lines_over_16384_bytes_are_skipped(trial):
    skips(trial, b"x" * (MOST_BYTES - 1), b"x" * MOST_BYTES, b"B 2 9".ljust(50_000, b"9"), b"x" * (3 * MOST_BYTES))


def lines_behind_a_long_one_are_read(trial):
    trial.hear(2, b"y" * 40_000, *(line.encode() for line in entries(2, "R:1:2", "R:1:3")))


def a_second_hello_is_nothing(trial):
    trial.hear(2, "H 2", *entries(2, "R:1:1"), "H 2")


def a_second_hello_makes_no_other_sender(trial):
    trial.hear(2, "H 3")
    trial.hear(2, *entries(3, "R:1:9"))
    trial.hear(2, *entries(2, "R:1:1"))


def a_second_hello_changes_nothing(trial):
    """What is held, asked for and sent stays."""
    lines = entries(2, *["R:1:1"] * 5)
    trial.say("issue 9")
    trial.tick()
    trial.hear(2, lines[3])
    trial.hear(2, "H 2", lines[4])
    trial.hear(2, "H 2", lines[3])
    trial.tick()
    trial.hear(2, "H 2")
    trial.hear(2, *lines[:3])
