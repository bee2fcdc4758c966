"""Bugs of a site that ticks by itself: in its ticks, its time, deadlines, and peers that are silent."""

import json
import sys
import time
from contextlib import suppress

import model_process
import site_model
from bug_kit import BUGS, replaces, sets
from desk_model import Refusal, Site
from line_model import message_in, number_in
from model_process import Process, SiteClock
from site_model import MOST_AHEAD, RunningSite

# A minute, in milliseconds.
LATE = 60_000

# ---- ticks


@replaces(RunningSite, "answer")
def a_client_may_tick_a_site_that_ticks_itself(right, site, name, values):
    return site.tick(*values) if name == "tick" else right(name, values)


@replaces(RunningSite, "answer")
def a_refused_tick_is_done(right, site, name, values):
    if name == "tick" and site.clock:
        site.tick(*values)
    return right(name, values)


@replaces(RunningSite, "answer")
def a_refused_tick_does_what_is_due_now(right, site, name, values):
    if name == "tick" and site.clock:
        site.tick(site.clock())
    return right(name, values)


@replaces(RunningSite, "answer")
def a_refused_tick_sets_the_clock(right, site, name, values):
    if name == "tick" and site.clock:
        site.clock.latest = max(site.clock.latest, *values)
    return right(name, values)


@replaces(RunningSite, "answer")
def a_refused_tick_expires_what_waits(right, site, name, values):
    if name == "tick" and site.clock:
        with suppress(Refusal):
            site.desk.expire(*values)
    return right(name, values)


@replaces(RunningSite, "answer")
def a_closed_site_may_be_ticked(right, site, name, values):
    return site.tick(*values) if name == "tick" and site.desk.is_closed else right(name, values)


@replaces(RunningSite, "reply")
def each_line_that_begins_with_tick_is_refused_alike(right, site, line):
    return b"error OwnClock" if site.clock and line.startswith(b"tick") else right(line)


@replaces(RunningSite, "answer")
def a_tick_is_no_command_of_a_site_that_ticks_itself(right, site, name, values):
    if name == "tick" and site.clock:
        raise Refusal("BadCommand")
    return right(name, values)


@replaces(Process, "tick_all")
def it_never_ticks(right, process):
    pass


@replaces(Process, "tick_all")
def it_ticks_once(right, process):
    time.sleep(process.every / 1000)
    with process.lock:
        process.tick()


def ticks_every(name, change):
    @replaces(Process, "tick_all")
    def wrong(right, process):
        if process.every:
            process.every = change(process.every)
        right()

    BUGS[name] = BUGS.pop("wrong")


ticks_every("it_ticks_twice_as_often", lambda every: every / 2)
ticks_every("it_ticks_half_as_often", lambda every: every * 2)
ticks_every("it_ticks_every_so_many_seconds", lambda every: every * 1000)
ticks_every("it_ticks_at_least_four_times_a_second", lambda every: min(every, 250))


@replaces(Process, "tick_all")
def its_first_tick_comes_at_once(right, process):
    if process.every:
        with process.lock:
            process.tick()
    right()


def its_ticks(name, change):
    """A bug in the ticks of the site's own."""

    @replaces(RunningSite, "tick_itself")
    def wrong(right, site, silent):
        return change(right, site, silent)

    BUGS[name] = BUGS.pop("wrong")


def without(method, result):
    """A tick in which a method of the desk does nothing."""

    def change(right, site, silent):
        setattr(site.desk, method, lambda *values: result)
        try:
            return right(silent)
        finally:
            delattr(site.desk, method)

    return change


its_ticks("its_ticks_expire_nothing", without("expire", "expired 0"))
its_ticks("its_ticks_serve_nothing", without("serve", "nothing"))
its_ticks("its_ticks_ask_nobody", without("plan", "asks 0"))
its_ticks("its_ticks_send_no_entries", without("next_entry", None))


@replaces(RunningSite, "tick_itself")
def its_ticks_send_nothing_where_nothing_is_new(right, site, silent):
    is_new = any(peer.published < len(site.desk.log) or peer.outstanding for peer in site.desk.peers.values())
    said = right(silent)
    if not is_new:
        for outbox in site.outboxes.values():
            outbox.lines.clear()
    return said


@replaces(RunningSite, "tick_itself")
def its_ticks_count_seconds(right, site, silent):
    site.desk.silent = frozenset(silent)
    return site.tick(site.clock() // 1000)


@replaces(RunningSite, "tick_itself")
def its_ticks_are_a_minute_ahead(right, site, silent):
    site.desk.silent = frozenset(silent)
    return site.tick(site.clock() + LATE)


@replaces(RunningSite, "tick_itself")
def its_ticks_are_a_minute_behind(right, site, silent):
    site.desk.silent = frozenset(silent)
    return site.tick(site.clock() - LATE)


# ---- deadlines


def deadlines_at(name, change):
    """A bug in how `+m` is read; `change` is given what is right."""
    right = site_model.deadline_at
    BUGS[name] = sets(site_model, "deadline_at", lambda time, word: change(right, time, word))


def is_ahead(word):
    return word.startswith(b"+")


def is_ahead_of(word, most):
    """Whether a plus and a number below this one stand there."""
    return is_ahead(word) and number_in(word[1:], range(most)) is not None


deadlines_at("a_later_deadline_is_read_as_a_time", lambda right, time, word: (
    word[1:] if right(time, word) != word else word))
deadlines_at("a_later_deadline_never_comes", lambda right, time, word: (
    b"%d" % (time + MOST_AHEAD) if right(time, word) != word else word))
deadlines_at("a_later_deadline_is_over_at_once", lambda right, time, word: (
    b"%d" % time if right(time, word) != word else word))
deadlines_at("a_later_deadline_counts_seconds", lambda right, time, word: (
    b"%d" % min(time + 1000 * int(word[1:]), time + MOST_AHEAD) if right(time, word) != word else word))
deadlines_at("a_later_deadline_counts_microseconds", lambda right, time, word: (
    b"%d" % (time + int(word[1:]) // 1000) if right(time, word) != word else word))
deadlines_at("a_later_deadline_is_one_too_early", lambda right, time, word: (
    right(time - 40, word)))
deadlines_at("a_later_deadline_counts_from_1970_in_seconds", lambda right, time, word: right(time // 1000, word))
deadlines_at("no_deadline_is_counted_from_now", lambda right, time, word: word)
deadlines_at("each_deadline_is_counted_from_now", lambda right, time, word: (
    right(time, word if is_ahead(word) else b"+" + word)))
deadlines_at("zeros_may_lead_in_later_deadlines", lambda right, time, word: (
    right(time, b"+" + (word[1:].lstrip(b"0") or b"0") if is_ahead(word) and word[1:].isdigit() else word)))
deadlines_at("a_plus_alone_is_a_deadline", lambda right, time, word: right(time, b"+0" if word == b"+" else word))
deadlines_at("two_pluses_are_one", lambda right, time, word: right(time, word[1:] if word.startswith(b"++") else word))
deadlines_at("a_deadline_before_now_may_be_asked_for", lambda right, time, word: (
    b"%d" % (time - int(word[1:])) if word[:1] == b"-" and word[1:].isdigit() else right(time, word)))
deadlines_at("a_sign_behind_it_will_do", lambda right, time, word: (
    right(time, b"+" + word.rstrip(b"+") if word.endswith(b"+") and len(word) > 1 else word)))
deadlines_at("a_later_deadline_of_0_is_none", lambda right, time, word: b"x" if word == b"+0" else right(time, word))
deadlines_at("a_later_deadline_of_a_day_is_none", lambda right, time, word: (
    b"x" if word == b"+%d" % MOST_AHEAD else right(time, word)))
deadlines_at("a_later_deadline_of_any_size", lambda right, time, word: (
    b"%d" % (time + int(word[1:])) if is_ahead_of(word, 2**64) else word))
deadlines_at("a_later_deadline_of_more_than_a_day_is_a_day", lambda right, time, word: (
    right(time, b"+%d" % min(int(word[1:]), MOST_AHEAD)) if is_ahead_of(word, 2**64) else word))
deadlines_at("a_later_deadline_of_32_bits", lambda right, time, word: (
    right(time, b"+%d" % (int(word[1:]) % 2**32)) if is_ahead_of(word, 2**64) else word))
deadlines_at("space_may_stand_in_later_deadlines", lambda right, time, word: (
    right(time, word.strip() if is_ahead(word) else word)))


def commands_read_as(name, change):
    """A bug that reads lines as others."""
    right = site_model.command_in
    BUGS[name] = sets(site_model, "command_in", lambda line, time=None: right(change(line) if time is not None else line, time))


commands_read_as("amounts_may_have_a_plus", lambda line: line.replace(b"take +", b"take ").replace(b"issue +", b"issue "))
commands_read_as("tickets_may_have_a_plus", lambda line: line.replace(b"outcome +", b"outcome ").replace(b"cancel +", b"cancel "))
commands_read_as("spends_may_have_a_plus", lambda line: line.replace(b"spend +", b"spend "))
commands_read_as("gifts_may_have_a_plus", lambda line: line.replace(b"+", b"") if line.startswith(b"give") else line)


@replaces(RunningSite, "answer_under")
def a_repeat_is_judged_by_its_deadline(right, site, key, name, values):
    if name == "spend" and site.clock and site.desk.keys.find(key) and site.is_too_far(values[1]):
        raise Refusal("BadDeadline")
    return right(key, name, values)


@replaces(RunningSite, "answer_under")
def a_refused_deadline_uses_its_key(right, site, key, name, values):
    used = vars(site).setdefault("used", set())
    if site.clock and name == "issue" and key in used:
        raise Refusal("KeyReused")
    try:
        return right(key, name, values)
    except Refusal as refusal:
        if str(refusal) == "BadDeadline":
            used.add(key)
        raise


@replaces(RunningSite, "answer_under")
def a_tick_under_a_key_is_refused_for_the_clock(right, site, key, name, values):
    if name == "tick" and site.clock:
        raise Refusal("OwnClock")
    return right(key, name, values)


@replaces(RunningSite, "answer_under")
def a_tick_under_a_key_is_done_beside_the_clock(right, site, key, name, values):
    if name == "tick" and site.clock:
        site.tick(site.clock())
    return right(key, name, values)


@replaces(RunningSite, "answer_under")
def later_deadlines_under_keys_are_counted_from_0(right, site, key, name, values):
    if name == "spend" and site.clock and values[1] > site.clock():
        values = (values[0], values[1] - site.clock())
    return right(key, name, values)


@replaces(RunningSite, "is_too_far")
def a_deadline_may_be_as_far_as_it_likes(right, site, deadline):
    return False


@replaces(RunningSite, "is_too_far")
def a_deadline_may_be_ten_days_away(right, site, deadline):
    return right(deadline - 9 * MOST_AHEAD)


@replaces(RunningSite, "is_too_far")
def a_deadline_may_be_an_hour_away(right, site, deadline):
    return right(deadline + MOST_AHEAD - 3_600_000)


@replaces(RunningSite, "is_too_far")
def a_deadline_of_a_day_is_too_far(right, site, deadline):
    return right(deadline + 200)


@replaces(RunningSite, "is_too_far")
def a_deadline_may_be_a_minute_more_than_a_day_away(right, site, deadline):
    return right(deadline - 60_000)


@replaces(RunningSite, "is_too_far")
def a_deadline_in_the_past_is_refused(right, site, deadline):
    return right(deadline) or deadline < site.clock() - 1000


@replaces(RunningSite, "is_too_far")
def a_deadline_of_0_is_refused(right, site, deadline):
    return right(deadline) or deadline == 0


@replaces(RunningSite, "is_too_far")
def deadlines_are_compared_with_the_last_tick(right, site, deadline):
    return deadline > site.desk.now + MOST_AHEAD


@replaces(RunningSite, "is_too_far")
def only_what_has_to_wait_may_not_be_too_far(right, site, deadline):
    return right(deadline) and (bool(site.desk.waiting) or site.desk.held == 0)


@replaces(RunningSite, "spend_by")
def a_deadline_that_is_too_far_is_a_day(right, site, amount, deadline):
    return right(amount, min(deadline, site.clock() + MOST_AHEAD))


@replaces(RunningSite, "spend_by")
def a_deadline_that_is_too_far_is_no_command(right, site, amount, deadline):
    try:
        return right(amount, deadline)
    except Refusal as refusal:
        raise Refusal("BadCommand" if str(refusal) == "BadDeadline" else refusal) from None


@replaces(RunningSite, "spend_by")
def a_bad_deadline_comes_before_all(right, site, amount, deadline):
    if site.is_too_far(deadline):
        raise Refusal("BadDeadline")
    return right(amount, deadline)


@replaces(RunningSite, "spend_by")
def a_bad_deadline_comes_before_a_bad_amount(right, site, amount, deadline):
    if site.is_too_far(deadline) and not site.desk.is_closed:
        raise Refusal("BadDeadline")
    return right(amount, deadline)


@replaces(RunningSite, "spend_by")
def a_bad_deadline_comes_after_a_full_queue(right, site, amount, deadline):
    if site.is_too_far(deadline) and len(site.desk.waiting) + len(site.desk.outcomes) >= 32:
        deadline = 0
    return right(amount, deadline)


@replaces(RunningSite, "spend_by")
def a_bad_deadline_takes_a_ticket(right, site, amount, deadline):
    site.desk.tickets += site.is_too_far(deadline)
    return right(amount, deadline)


@replaces(RunningSite, "spend_by")
def after_a_bad_deadline_nothing_waits(right, site, amount, deadline):
    if site.is_too_far(deadline):
        site.desk.waiting.clear()
    return right(amount, deadline)


@replaces(RunningSite, "spend_by")
def a_bad_deadline_waits_all_the_same(right, site, amount, deadline):
    if site.is_too_far(deadline) and 1 <= amount <= 10**9 and not site.desk.is_closed and len(site.desk.waiting) < 32:
        site.desk.spend(amount, deadline)
    return right(amount, deadline)


@replaces(RunningSite, "queue")
def the_queue_shows_how_long_each_spend_waits(right, site):
    shown = json.loads(right())
    for request in shown["requests"] if site.clock else []:
        request["deadline"] = max(0, request["deadline"] - site.clock())
    return json.dumps(shown, separators=(",", ":"))


# ---- its time


@replaces(SiteClock, "__call__")
def its_time_is_in_seconds(right, clock):
    return right() // 1000


@replaces(SiteClock, "__call__")
def its_time_is_in_microseconds(right, clock):
    return right() * 1000


@replaces(SiteClock, "__call__")
def its_time_begins_with_the_site(right, clock):
    clock.begun = getattr(clock, "begun", time.monotonic())
    return int((time.monotonic() - clock.begun) * 1000)


@replaces(SiteClock, "__call__")
def its_time_stands_still(right, clock):
    clock.begun = getattr(clock, "begun", right())
    return clock.begun


@replaces(SiteClock, "__call__")
def its_time_is_of_whole_minutes(right, clock):
    return right() // LATE * LATE


@replaces(SiteClock, "__call__")
def its_time_is_an_hour_ahead(right, clock):
    return right() + 3_600_000


# ---- peers that are silent


def silent_peers_are(name, change):
    @replaces(Process, "silent_peers")
    def wrong(right, process):
        return change(right(), process)

    BUGS[name] = BUGS.pop("wrong")


def silences(name, change):
    """A bug in the time after which a peer is silent."""

    @replaces(Process, "is_silent")
    def wrong(right, process, seconds):
        return change(process, seconds * 1000)

    BUGS[name] = BUGS.pop("wrong")


silent_peers_are("no_peer_is_silent", lambda silent, process: set())
silent_peers_are("if_one_peer_is_silent_all_are", lambda silent, process: set(process.peers) if silent else set())
silent_peers_are("one_peer_at_a_time_is_silent", lambda silent, process: set(sorted(silent)[-1:]))
silent_peers_are("not_all_peers_are_silent", lambda silent, process: silent if len(silent) < len(process.peers) else set())
silences("a_peer_is_silent_after_twice_as_long", lambda process, time: 0 < 2 * process.silence <= time)
silences("a_peer_is_silent_after_half_as_long", lambda process, time: 0 < process.silence / 2 <= time)
silences("a_peer_is_silent_after_3_seconds_whatever_is_said", lambda process, time: process.silence > 0 and time >= 3000)
silences("with_0_a_peer_is_silent_after_3_seconds", lambda process, time: time >= (process.silence or 3000))
silences("with_0_each_peer_is_silent", lambda process, time: time >= process.silence)
silences("a_peer_is_silent_after_10_ticks_at_least", lambda process, time: (
    process.silence > 0 and time >= max(process.silence, 10 * process.every)))


def usual_silence_is(name, change):
    """A bug in the time after which a peer is silent where no word says so."""
    BUGS[name] = sets(model_process, "usual_silence", lambda tick: change(tick or 0))


usual_silence_is("without_a_word_no_peer_is_silent", lambda tick: 0)
usual_silence_is("without_a_word_a_peer_is_silent_after_a_second", lambda tick: max(1000, 10 * tick))
usual_silence_is("without_a_word_a_peer_is_silent_after_3_seconds_however_it_ticks", lambda tick: 3000)
usual_silence_is("without_a_word_a_peer_is_silent_after_10_ticks_always", lambda tick: 10 * tick)
usual_silence_is("without_a_word_a_peer_is_silent_after_20_ticks", lambda tick: max(3000, 20 * tick))


@replaces(Process, "silent_peers")
def a_peer_stays_silent(right, process):
    process.ever_silent = getattr(process, "ever_silent", set()) | right()
    return process.ever_silent


@replaces(Process, "silent_peers")
def a_peer_that_was_never_heard_is_expected(right, process):
    process.ever_heard = getattr(process, "ever_heard", set()) | set(process.heard)
    return right() & process.ever_heard


@replaces(Process, "__init__")
def a_peer_that_was_never_heard_is_silent_at_once(right, process, *options):
    right(*options)
    process.read_at = dict.fromkeys(process.peers, float("-inf"))


@replaces(Process, "note_read")
def only_entries_are_heard(right, process, peer, block):
    if b"E " in block:
        right(peer, block)


@replaces(Process, "note_read")
def only_messages_are_heard(right, process, peer, block):
    if any(message_in(line) for line in block.split(b"\n")):
        right(peer, block)


@replaces(Process, "note_read")
def empty_lines_are_not_heard(right, process, peer, block):
    if block.strip():
        right(peer, block)


@replaces(Process, "note_read")
def a_peer_that_was_silent_is_not_heard(right, process, peer, block):
    if peer not in process.silent_peers():
        right(peer, block)


@replaces(Process, "note_read")
def when_one_peer_is_heard_all_are(right, process, peer, block):
    for other in process.peers:
        right(other, block)


@replaces(Process, "send_all")
def a_connection_to_a_peer_keeps_it_heard(right, process, peer):
    def keep():
        while True:
            time.sleep(0.1)
            process.read_at[peer] = time.monotonic()

    model_process.threading.Thread(target=keep, daemon=True).start()
    right(peer)


def plan_beside(site, right, silent):
    """Plans as if these were silent."""
    was, site.silent = site.silent, frozenset(silent)
    try:
        return right()
    finally:
        site.silent = was


@replaces(Site, "may_ask")
def silent_peers_are_asked(right, site, other):
    was, site.silent = site.silent, frozenset()
    try:
        return right(other)
    finally:
        site.silent = was


@replaces(Site, "plan")
def what_a_silent_peer_was_asked_for_is_expected(right, site):
    """So that is asked of nobody else; silent peers are asked nothing anew."""
    asked = {other for other in site.silent if site.peers[other].outstanding}
    return plan_beside(site, right, site.silent - asked)


@replaces(Site, "plan")
def the_ask_of_a_silent_peer_is_withdrawn(right, site):
    for other in site.silent:
        site.peers[other].outstanding = None
    return right()


@replaces(Site, "plan")
def the_ask_of_a_silent_peer_is_numbered_anew(right, site):
    for other in site.silent:
        if (ask := site.peers[other].outstanding) is not None:
            site.peers[other].asks += 1
            site.peers[other].outstanding = type(ask)(ask.asker, ask.asked, site.peers[other].asks, ask.amount)
    return right()


@replaces(Site, "plan")
def beside_a_silent_peer_nobody_is_asked(right, site):
    return "asks 0" if site.silent else right()


@replaces(Site, "plan")
def a_silent_peer_has_closed(right, site):
    """As if its ask were of no use, and nothing more came."""
    was = site.knows_closed
    site.knows_closed = lambda other: other in site.silent or was(other)
    try:
        return right()
    finally:
        del site.knows_closed


@replaces(Site, "apply")
def a_late_grant_is_dropped(right, site, entry):
    return None if entry.origin in site.silent and entry.moves[0].letter == "G" else right(entry)


@replaces(Site, "apply")
def a_late_grant_is_given_back(right, site, entry):
    said = right(entry)
    if entry.moves[0].letter == "G" and not site.waiting and entry.origin == 2:
        site.give(entry.origin, entry.moves[0].amount)
    return said


@replaces(RunningSite, "send_due")
def nothing_is_sent_to_a_silent_peer(right, site, peer):
    return 0 if peer in site.desk.silent else right(peer)


@replaces(RunningSite, "send_due")
def only_beats_are_sent_to_a_silent_peer(right, site, peer):
    outbox = site.outboxes[peer]
    count = len(outbox.lines)
    said = right(peer)
    if peer in site.desk.silent:
        outbox.lines[count:] = [line for line in outbox.lines[count:] if line.startswith(b"B")]
    return said


@replaces(RunningSite, "send_due")
def an_ask_of_a_silent_peer_is_not_sent_again(right, site, peer):
    outbox = site.outboxes[peer]
    count = len(outbox.lines)
    said = right(peer)
    if peer in site.desk.silent:
        outbox.lines[count:] = [line for line in outbox.lines[count:] if not line.startswith(b"W")]
    return said


# ---- the end


@replaces(Process, "tick_last")
def it_does_not_tick_at_its_end(right, process):
    pass


@replaces(Process, "tick_last")
def it_ticks_twice_at_its_end(right, process):
    right()
    right()


@replaces(Process, "tick_last")
def its_last_tick_serves_nothing(right, process):
    process.model.desk.serve = lambda: "nothing"
    right()


@replaces(Process, "tick_last")
def its_last_tick_is_for_what_was_written(right, process):
    if process.model.desk.log:
        right()


@replaces(Process, "tick_last")
def only_quit_makes_it_tick_at_its_end(right, process):
    # What follows `quit` was not read.
    if sys.stdin.buffer.readline():
        right()


@replaces(Process, "tick_last")
def only_the_end_of_its_input_makes_it_tick_at_its_end(right, process):
    if not sys.stdin.buffer.readline():
        right()
