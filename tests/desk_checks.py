"""Checks of commands, spends that wait, ticks and asks, each named after the rule of docs/PROTOCOL.md that it tries."""

from desk_model import MOST_REQUESTS
from line_model import GREATEST
from site_inputs import NO_COMMANDS
from site_trial import entries

# ---- commands


def lines_of_no_form_are_bad_commands(trial):
    for line in NO_COMMANDS:
        trial.node.give_commands([line])
    trial.node.settle()


def each_command_has_its_reply(trial):
    trial.say("status", "issue 10", "spend 4 9", "give 2 1", "spend 9 9", "outcome 1", "tick 0", "close", "status")


def commands_that_come_together_are_answered_in_order(trial):
    trial.say_together("issue 10", "bad", "spend 3 1", "give 3 2", "outcome 7", "spend 100 5", "outcome 1", "tick 6", "outcome 1")


def a_line_may_come_in_pieces(trial):
    trial.node.give_commands([b"issue 1234", b"spend 34 1"], [1, 5, 9, 12])
    trial.node.settle()


def amounts_are_1_to_10_9(trial):
    trial.say("issue 0", f"issue {GREATEST + 1}", f"issue {GREATEST}", f"issue {GREATEST}", "give 2 0", f"give 2 {GREATEST + 1}",
              "spend 0 1", f"spend {GREATEST + 1} 1", f"spend {GREATEST} 1", f"give 3 {GREATEST}", "status",
              f"issue {2**64 - 1}", f"issue {2**64}")  # fmt: skip


def numbers_go_to_2_64(trial):
    trial.say(f"outcome {2**64 - 1}", f"issue {2**32}", f"give 2 {2**63}", "give 16 1", "close 16", f"spend 5 {2**64 - 1}",
              f"spend 5 {2**63}", f"tick {2**63 + 1}", "outcome 1", "outcome 2", f"tick {2**64 - 1}", "outcome 1")  # fmt: skip


def bad_amounts_come_before_what_a_queue_or_a_site_says(trial):
    trial.say(*(f"spend {number} 5" for number in range(1, MOST_REQUESTS + 1)))
    trial.say("spend 0 5", f"spend {GREATEST + 1} 5", "spend 1 5", "give 9 0", "give 1 0", "close")


def refusals_come_in_their_order(trial):
    trial.say("give 4 0", "give 4 1", "give 1 1", "give 1 99", "give 2 1", "issue 3", "give 4 9", "give 2 4", "give 2 3")
    trial.hear(2, "E 2 0 1 K:0:0:0")
    trial.say("give 2 1", "give 2 0", "issue 2", "give 1 1", "give 1 9", "give 4 1", "give 2 9", "close 2", "close 4", "close 1", "spend 9 9", "close 2", "tick 20",
              "close 2", "close", "close", "give 4 0", "issue 0", "spend 0 0")  # fmt: skip


def each_pair_of_causes_is_judged_in_its_order(trial):
    """All commands with all kinds of amounts and sites: while the site is open, while spends wait, while the queue is full, while it
    holds too much, and once it has closed. Site 2 has closed."""
    amounts = (0, 1, 99, GREATEST, GREATEST + 1, 2**64 - 1)
    gives = [f"give {site} {amount}" for site in (1, 2, 4, 16, 3) for amount in amounts if (site, amount) != (3, 1)]
    refused = [*gives, "issue 0", f"issue {GREATEST + 1}", "spend 0 5", f"spend {GREATEST + 1} 5", "tick 3"]
    closes = ["close 4", "close 16", "close 1", "close 2"]
    trial.hear(2, *entries(2, "K:0:0:0"))
    trial.say("tick 4", "issue 5", *refused, *closes, "give 3 1")
    trial.say("spend 9 9", *refused, *closes, "close 3", "close", "give 3 1", "status")
    trial.say(*(f"spend {number} 9" for number in range(1, MOST_REQUESTS + 1)), *refused, *closes, "close 3", "close", "spend 1 9")
    trial.say("tick 10", *refused, *closes, "spend 4 9", "spend 3 9", f"issue {GREATEST}", f"issue {GREATEST}", *gives[:-4], *closes, "close 3")
    trial.say("close", *refused, *closes, "close 3", "close", "issue 1", "spend 1 5", "give 3 1", "tick 9", "status", "outcome 1")


def a_refusal_changes_nothing(trial):
    trial.say("issue 5", "spend 9 0", "give 2 9", "give 4 1", "close 4", "tick 3", "tick 2", "spend 9 1", "close 2", "status")
    trial.tick(4)


# ---- spends that wait


def spends_do_not_jump_the_queue(trial):
    trial.say("issue 5", "spend 9 100", "spend 1 100", "spend 5 100", "status", "issue 3")
    trial.tick()
    trial.say("outcome 1", "outcome 2", "outcome 3", "issue 20")
    trial.tick()
    trial.say("outcome 1", "outcome 2", "outcome 3", "outcome 3", "status")


def spends_that_wait_are_served_in_ticks_alone(trial):
    trial.say("spend 5 100", "issue 9", "outcome 1", "spend 1 100", "outcome 2", "status")
    trial.tick()
    trial.say("outcome 2", "outcome 1", "status")


def serving_stops_at_the_first_that_lacks_rights(trial):
    trial.say("spend 3 100", "spend 9 100", "spend 1 100", "issue 8")
    trial.tick()
    trial.say("outcome 3", "outcome 2", "outcome 1", "issue 4")
    trial.tick()
    trial.say("outcome 3", "outcome 2", "status")


def a_deadline_that_has_come_is_not_over(trial):
    trial.say("spend 5 7", "spend 6 8", "spend 4 7", "tick 7", "outcome 1", "tick 8", "outcome 1", "outcome 3", "outcome 2",
              "tick 9", "outcome 2", "outcome 2")  # fmt: skip


def requests_expire_wherever_they_wait(trial):
    trial.say("issue 4", "spend 5 9", "spend 3 1", "spend 2 9", "tick 2", "outcome 2", "issue 1", "tick 2", "outcome 1", "outcome 3")


def expiry_comes_before_serving(trial):
    trial.say("spend 5 1", "issue 9", "tick 2", "outcome 1", "status")


def time_does_not_go_back(trial):
    trial.say("tick 5", "spend 1 9", "issue 1", "tick 4", "outcome 1", "tick 5", "outcome 1", "tick 0", f"tick {2**64 - 1}",
              f"tick {2**64 - 2}", "tick 5")  # fmt: skip


def a_tick_that_is_refused_does_nothing(trial):
    trial.say("tick 9", "spend 1 20", "issue 4", "tick 8", "outcome 1", "status")


def a_queue_has_32_slots(trial):
    trial.say(*(f"spend {number} 5" for number in range(1, MOST_REQUESTS + 3)))
    trial.say("tick 6", "spend 1 9", "outcome 1", "spend 1 9", "spend 1 9", "outcome 2", "outcome 3", "spend 1 9", "spend 1 9",
              "spend 1 9")  # fmt: skip


def only_spends_that_wait_use_tickets(trial):
    trial.say("issue 5", "spend 2 9", *(f"spend {number} 5" for number in range(8, MOST_REQUESTS + 11)))
    trial.say("tick 6", "outcome 1", "spend 9 9", "outcome 2", "spend 2 9", "spend 9 9")


def a_deadline_may_be_over_from_the_start(trial):
    trial.say("tick 9", "spend 5 3", "outcome 1", "tick 9", "outcome 1")


def outcomes_that_nobody_read_hold_up_no_spend(trial):
    trial.say("spend 5 0", "tick 1", "issue 9", "spend 2 9", "spend 7 9", "outcome 1")


def unread_outcomes_stay(trial):
    trial.say(*(f"spend {number} 5" for number in range(1, MOST_REQUESTS + 1)))
    trial.say("tick 6", "spend 1 9", "spend 1 9", "outcome 1", "outcome 2")


def a_full_queue_is_passed_by_nobody(trial):
    trial.say(*(f"spend {number + 50} 9" for number in range(MOST_REQUESTS)))
    trial.say("issue 5", "spend 2 9", "spend 5 0", "spend 6 9", "status", "tick 1", "spend 5 9")


def a_served_spend_frees_its_slot_once_it_is_read(trial):
    trial.say(*["spend 1 9"] * MOST_REQUESTS, "issue 40", "tick 1", "spend 1 9", "spend 99 9")
    for ticket in (1, 32, 7):
        trial.say(f"outcome {ticket}", f"outcome {ticket}", "spend 99 9", "spend 99 9")


def spends_are_served_in_their_order(trial):
    """Not by deadlines or amounts, and not the last one first."""
    trial.say("spend 3 9", "spend 2 5", "spend 1 7", "issue 3")
    for _ in range(3):
        trial.tick()
        trial.say("outcome 1", "outcome 2", "outcome 3", "issue 1", "status")


def a_spend_of_more_than_waits_waits_too(trial):
    trial.say("issue 9", "spend 12 99", "spend 2 99", "spend 9 99", "issue 20", "spend 1 99", "status", "tick 1", "spend 1 99", "status")


def a_spend_waits_until_a_tick_though_its_deadline_is_over(trial):
    trial.say("tick 9", "spend 5 3", "spend 2 0", "issue 8", "outcome 1", "spend 1 99", "status")
    trial.hear(2, "W 2 1 1 6")
    trial.say("tick 9", "outcome 1", "outcome 2", "outcome 3", "status")


def spends_behind_one_that_stays_expire(trial):
    trial.say("spend 5 9", "spend 4 2", "spend 3 9", "spend 2 1", "tick 3", "outcome 1", "outcome 2", "outcome 3", "outcome 4", "status")


def spends_that_wait_keep_no_gift_back(trial):
    trial.say("spend 9 99", "issue 8", "give 2 3", "give 3 5", "status")
    trial.tick()


def an_outcome_may_be_asked_for_while_it_waits(trial):
    trial.say("spend 3 9", "spend 1 9", "spend 2 9", "outcome 3", "outcome 1", "outcome 3", "issue 6", "tick 1", "outcome 1", "outcome 3")


def a_spend_of_what_is_held_needs_no_slot(trial):
    trial.say(*(f"spend {number} 5" for number in range(1, MOST_REQUESTS + 1)))
    trial.say("tick 6", "issue 5", "spend 2 9", "spend 4 9", "outcome 5", "spend 4 9", "status")


def tickets_are_counted_from_1_and_never_used_again(trial):
    trial.say("outcome 0", "outcome 1", "spend 1 1", "outcome 1", "outcome 2", "tick 2", "outcome 1", "spend 1 1", "outcome 1", "outcome 2")


def an_outcome_is_told_once(trial):
    trial.say("spend 2 9", "spend 3 0", "issue 9", "tick 1", "outcome 1", "outcome 1", "outcome 2", "outcome 2")


def a_spend_is_cancelled_wherever_it_waits(trial):
    trial.say("spend 2 9", "spend 3 9", "spend 4 9", "cancel 2", "outcome 2", "cancel 9", "issue 9", "tick 1", "cancel 1")
    trial.say("outcome 3", "cancel 3", "status")


def a_cancelled_spend_frees_its_slot(trial):
    trial.say(*["spend 1 9"] * 33, "cancel 7", "spend 1 9", "spend 1 9", "cancel 33", "status")


def the_queue_lists_what_waits_in_its_order(trial):
    trial.say("queue", "spend 2 9", "spend 1000000000 3", f"spend 3 {2**64 - 1}", "queue", "cancel 2", "queue", "outcome 9", "queue")
    trial.say("issue 2", "tick 4", "queue", "outcome 1", "queue", "spend 4 6", "queue", "tick 5", "queue", "cancel 4", "queue")


def all_that_the_queue_has_room_for_is_listed(trial):
    trial.say(*[f"spend {amount} {amount % 5}" for amount in range(1, 34)], "queue", "tick 3", "queue", "outcome 3", "queue")


def a_site_without_ticks_of_its_own_has_no_clock(trial):
    trial.say("spend 1 +5", "spend 1 +0", f"spend 1 {2**64 - 1}", "tick 5", "queue")


def what_waits_is_not_taken(trial):
    trial.say("take 1", "issue 9", "take 10", "take 0", f"take {2**64 - 1}", "take 2", "spend 8 9", "take 1", "issue 3", "take 3", "take 2")
    trial.say("tick 1", "outcome 1", "close", "take 0", "take 1", "cancel 1", "status")


# ---- ticks


def nothing_is_sent_but_in_a_tick(trial):
    trial.say("issue 9", "give 2 3", "spend 20 99", "spend 1 99", "status")
    trial.hear(2, *entries(2, "I:50"))
    trial.say("issue 1")


def a_tick_sends_entries_then_an_ask_then_a_beat(trial):
    trial.hear(3, *entries(3, "I:50"))
    trial.say("issue 2", "give 2 1", "spend 20 99", "tick 1", "issue 3", "tick 1")


def an_entry_is_sent_once_and_a_beat_at_each_tick(trial):
    trial.tick(2)
    trial.say("issue 2", "give 2 1")
    trial.tick(3)


def an_ask_is_sent_at_each_tick_until_it_is_answered(trial):
    trial.hear(2, *entries(2, "I:50"))
    trial.say("spend 7 999")
    trial.tick(3)
    trial.hear(2, "D 2 1 1")
    trial.tick(2)
    trial.hear(2, *entries(2, "G:1:7:2", prev=1))
    trial.tick(2)
    trial.say("outcome 1", "status")


def a_refused_tick_plans_and_sends_nothing(trial):
    trial.hear(2, *entries(2, "I:50"))
    trial.say("tick 9", "spend 5 99", "issue 1", "tick 8", "tick 0", "status")
    trial.hear(3)
    trial.say("tick 9", "tick 9")


def a_tick_of_the_same_time_does_all(trial):
    trial.hear(2, *entries(2, "I:50"))
    trial.say("tick 9", "spend 5 99", "tick 9", "issue 5", "tick 9", "outcome 1")


def many_entries_are_sent_in_one_tick(trial):
    trial.say_together("issue 99", *["spend 1 1"] * 30, *["give 2 1", "give 3 1"] * 5)
    trial.tick(2)


def entries_of_all_commands_are_sent(trial):
    trial.say("issue 9", "spend 2 1", "give 2 1", "give 3 2")
    trial.tick()
    trial.say("close 3")
    trial.tick(2)


# ---- who plans, and for how much


def asks_go_to_those_who_have_most(trial):
    trial.hear(2, *entries(2, "I:30", "S:10"))
    trial.hear(3, *entries(3, "I:25"))
    trial.say("spend 40 999")
    trial.tick()
    trial.say("issue 7")
    trial.tick()


def equal_peers_are_asked_by_their_numbers(trial):
    for peer in (4, 3, 2):
        trial.hear(peer, *entries(peer, "I:10"))
    trial.say("spend 15 999")
    trial.tick(2)


def a_peer_is_asked_for_what_it_is_known_to_have(trial):
    trial.hear(2, *entries(2, "I:3"))
    trial.hear(3, *entries(3, "I:2"))
    trial.say("spend 100 999")
    trial.tick(2)


def an_ask_is_for_what_waits_less_what_is_held(trial):
    trial.hear(2, *entries(2, "I:100"))
    trial.say("issue 4", "spend 9 999", "spend 5 999")
    trial.tick()


def what_is_asked_already_is_not_asked_again(trial):
    trial.hear(2, *entries(2, "I:6"))
    trial.say("spend 10 999")
    trial.tick()
    trial.hear(3, *entries(3, "I:50"))
    trial.tick(2)


def what_peers_are_known_to_have_is_taken_off_whole(trial):
    trial.hear(2, *entries(2, *[f"I:{GREATEST}"] * 3))
    trial.hear(3, *entries(3, "I:5"))
    trial.say(*[f"spend {GREATEST} 999"] * 2)
    trial.tick(2)


def an_ask_stays_as_it_was_made(trial):
    trial.hear(2, *entries(2, "I:50"))
    trial.say("spend 7 3")
    trial.tick()
    trial.say("spend 5 2")
    trial.tick()
    # Nothing waits any more, and the ask is outstanding all the same.
    trial.tick(3)
    trial.say("outcome 1", "outcome 2")


def an_ask_is_for_10_9_at_most(trial):
    trial.hear(2, *entries(2, *[f"I:{GREATEST}"] * 3))
    trial.say(*[f"spend {GREATEST} 999"] * 2)
    trial.tick(2)


def rights_that_others_gave_to_a_peer_count(trial):
    trial.hear(3, *entries(3, "I:20 R:2:9"))
    trial.say("issue 20", "give 2 4", "spend 50 999")
    trial.tick()


def grants_to_a_peer_count(trial):
    trial.hear(3, *entries(3, "I:20", "G:2:9:1"))
    trial.say("issue 20")
    trial.hear(2, "W 2 1 1 4")
    trial.say("spend 50 999")
    trial.tick()


def what_a_peer_spent_gave_and_granted_is_taken_off(trial):
    trial.hear(2, *entries(2, "I:50", "G:3:9:1", "R:3:8", "S:7", "R:1:3", "G:1:2:9"))
    trial.say("spend 100 999")
    trial.tick()


def what_was_not_applied_is_not_known(trial):
    first, second = entries(2, "I:5", "I:50 R:1:1")
    trial.hear(2, second)
    trial.say("spend 30 999")
    trial.tick()
    trial.hear(2, first)
    trial.tick()


def many_peers_are_asked_together(trial):
    for peer in range(2, 7):
        trial.hear(peer, *entries(peer, f"I:{10 + peer}"))
    trial.say("spend 999 999")
    trial.tick(2)
    trial.hear(4, "D 4 1 1")
    trial.tick()


def equal_peers_of_two_digits_are_asked_by_their_numbers(trial):
    for peer in (12, 3, 16, 10, 2, 9):
        trial.hear(peer, *entries(peer, "I:10"))
    trial.say("spend 45 999")
    trial.tick()


def an_ask_outlasts_the_spend_that_it_was_for(trial):
    """And the close of the site itself."""
    trial.hear(2, *entries(2, "I:50"))
    trial.say("spend 7 3", "tick 1", "tick 4", "close")
    trial.time = 4
    trial.tick(2)
    trial.hear(2, "D 2 1 1")
    trial.tick()


def an_ask_to_a_peer_that_closed_ends_though_nothing_waits(trial):
    for peer in (2, 3):
        trial.hear(peer, *entries(peer, "I:50"))
    trial.say("spend 70 3", "tick 1", "tick 4")
    trial.time = 4
    trial.hear(2, *entries(2, "K:0:0:0", prev=1))
    trial.hear(3, *entries(3, "C", prev=1))
    trial.tick()


def a_denial_is_of_its_sender_and_its_asker(trial):
    for peer in (2, 3):
        trial.hear(peer, *entries(peer, "I:50"))
    trial.say("spend 90 999")
    trial.tick()
    trial.hear(2, "D 3 1 1", "D 2 3 1", "D 3 2 1", "D 1 2 1", "D 2 4 1")
    trial.tick()
    trial.hear(2, "D 2 1 1")
    trial.tick()


def sums_may_be_above_2_32(trial):
    trial.say(*[f"issue {GREATEST}"] * 12, "status", *[f"spend {GREATEST} 9"] * 5, *[f"give 2 {GREATEST}"] * 6, "status")
    trial.hear(2, *entries(2, *[f"I:{GREATEST} R:1:{GREATEST}"] * 3, " ".join([f"I:{GREATEST} R:1:{GREATEST}"] * 3)))
    trial.say("status", *[f"spend {GREATEST} 9"] * 30, "status")
    trial.hear(3, *entries(3, *[" ".join([f"I:{GREATEST}"] * 16)] * 2))
    trial.tick(2)
    trial.hear(2, *entries(2, "K:0:0:0", prev=12))
    trial.say("status")
    trial.tick()


def great_rights_are_told_apart(trial):
    """By a right of more than 2^53, which asks for those first who have it."""
    trial.hear(2, *entries(2, f"V:3:{2**53}"))
    trial.hear(3, *entries(3, f"V:2:{2**53 + 1}"))
    trial.say("spend 7 999")
    trial.tick()
    trial.hear(3, "D 3 1 1", *entries(3, *[f"V:2:{10**18}"] * 9, prev=1))
    trial.tick()


def a_peer_that_has_less_than_nothing_is_not_asked(trial):
    trial.hear(2, *entries(2, "S:5"))
    trial.hear(3, *entries(3, "I:9"))
    trial.say("spend 4 999")
    trial.tick()


def a_peer_that_closed_is_not_asked(trial):
    trial.hear(2, *entries(2, "I:50"))
    trial.say("spend 9 999")
    trial.tick()
    trial.hear(2, *entries(2, "K:0:0:0", prev=1))
    trial.tick(2)
    trial.hear(3, *entries(3, "I:50"))
    trial.tick(2)


def a_denial_ends_the_ask_of_its_number_alone(trial):
    trial.hear(2, *entries(2, "I:50"))
    trial.say("spend 9 999")
    trial.tick()
    trial.hear(2, "D 2 1 2")
    trial.tick()
    trial.hear(2, "D 2 1 1")
    trial.tick()
    trial.hear(2, "D 2 1 1")
    trial.tick()
    trial.hear(3, "D 3 1 2")
    trial.tick()


def a_grant_of_another_peer_ends_no_ask(trial):
    trial.hear(2, *entries(2, "I:50"))
    trial.say("spend 9 999")
    trial.tick()
    trial.hear(3, *entries(3, "I:50", "G:1:4:1"))
    trial.tick()
    trial.hear(3, "D 3 1 1")
    trial.tick()


def a_grant_of_an_older_ask_ends_no_later_one(trial):
    trial.hear(2, *entries(2, "I:50"))
    trial.say("spend 9 999")
    trial.tick()
    trial.hear(2, "D 2 1 1")
    trial.tick()
    trial.hear(2, *entries(2, "G:1:2:1", prev=1))
    trial.tick()


def a_grant_ends_the_ask_of_its_number_alone(trial):
    trial.hear(2, *entries(2, "I:50"))
    trial.say("spend 9 999")
    trial.tick()
    trial.hear(2, *entries(2, "G:3:1:1", "R:1:2", prev=1))
    trial.tick()
    trial.hear(2, *entries(2, "G:1:4:1", prev=3))
    trial.tick(2)
    trial.hear(2, *entries(2, "G:1:3:2", prev=4))
    trial.tick(2)
    trial.say("outcome 1")


# ---- asks of others


def a_grant_is_the_least_of_what_is_asked_and_held(trial):
    trial.say("issue 10")
    trial.hear(2, "W 2 1 1 4")
    trial.hear(3, "W 3 1 1 9")
    trial.hear(2, "W 2 1 2 1")
    trial.tick()


def what_waits_is_not_granted(trial):
    trial.say("spend 15 999", "issue 10")
    trial.hear(2, "W 2 1 1 4")
    trial.say("issue 8")
    trial.hear(2, "W 2 1 2 9")
    trial.tick()


def an_ask_is_answered_once(trial):
    trial.say("issue 10")
    trial.hear(2, "W 2 1 3 4")
    trial.hear(2, "W 2 1 3 4")
    trial.hear(2, "W 2 1 2 4")
    trial.hear(2, "W 2 1 3 1")
    trial.hear(2, "W 2 1 4 1")
    trial.tick()


def a_denial_is_repeated_for_its_number(trial):
    trial.hear(2, "W 2 1 1 4")
    trial.say("issue 10")
    trial.hear(2, "W 2 1 1 4")
    trial.hear(2, "W 2 1 2 4")
    trial.hear(2, "W 2 1 1 4")
    trial.hear(2, "W 2 1 2 4")
    trial.tick()


def asks_of_peers_are_numbered_apart(trial):
    trial.say("issue 10")
    trial.hear(2, "W 2 1 5 2")
    trial.hear(3, "W 3 1 1 2")
    trial.hear(2, "W 2 1 1 2")
    trial.hear(3, "W 3 1 5 2")
    trial.tick()


def an_ask_may_be_for_10_9_and_of_that_number(trial):
    trial.say("issue 10")
    trial.hear(2, f"W 2 1 {GREATEST - 1} 1")
    trial.hear(2, f"W 2 1 {GREATEST} {GREATEST}")
    trial.tick()


def an_asker_that_closed_was_granted_once(trial):
    trial.say("issue 10")
    trial.hear(2, "W 2 1 1 4")
    trial.hear(2, *entries(2, "K:0:0:0"))
    trial.hear(2, "W 2 1 1 4")
    trial.tick()


def an_asker_that_closed_is_denied(trial):
    trial.say("issue 10")
    trial.hear(2, *entries(2, "K:0:0:0"))
    trial.hear(2, "W 2 1 1 4")
    trial.tick()


def an_asker_that_closed_plainly_is_denied(trial):
    trial.say("issue 10")
    trial.hear(2, *entries(2, "C"))
    trial.hear(2, "W 2 1 1 4")
    trial.tick()


def a_denial_is_repeated_as_often_as_it_is_asked_for(trial):
    for _ in range(5):
        trial.hear(2, "W 2 1 1 4")
    trial.tick()


def a_grant_is_made_once_though_it_was_sent(trial):
    trial.say("issue 10")
    for number in (1, 1, 1, 2, 2):
        trial.hear(2, f"W 2 1 {number} 3")
        trial.tick()


def what_is_asked_of_others_keeps_nothing_back(trial):
    trial.hear(3, *entries(3, "I:50"))
    trial.say("spend 9 3", "tick 1", "tick 4", "issue 5")
    trial.hear(2, "W 2 1 1 4")
    trial.time = 4
    trial.tick()
