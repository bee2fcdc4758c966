"""Checks of a site that ticks by itself: its time, deadlines, and peers that are silent. Each is named after the rule of
docs/PROTOCOL.md that it tries."""

import time

from clock_trial import REST, SLACK, wall_clock
from cluster import expect
from desk_model import MOST_REQUESTS
from line_model import GREATEST
from site_model import MOST_AHEAD
from site_trial import entries

# Intervals of ticks in milliseconds: one that is soon over, and one that no check waits for.
SOON, RARELY = 20, 60_000
# A peer is silent after so long, in milliseconds.
SILENT = 1_000
# What has to be in time on an idle machine is tried so often on a busy one.
TRIES = 8
# A spend that waits for so long waits until a check is done with it.
LONG = 3_600_000

# The last words of a spend that is no deadline of a site which ticks by itself.
NO_DEADLINES = [
    "+", "++1", "+-1", "-1", "+01", "+00", "+ 1", " +1", "+1 ", "+x", "+1x", "x+1", "1+", "+1+", "+1.5", "+1e3", "+1_0", "+0x1",
    "+\t1", "+1\r", "\uff0b1",
    f"+{MOST_AHEAD + 1}", f"+{2**32}", f"+{2**32 + 1}", f"+{2**64 - 1}", f"+{2**64}", f"+{2**64 + 1}", "+1 +1", "1 +1", "+1 1",
]  # fmt: skip
# Commands with such a word where none belongs.
NO_COMMANDS = [
    "spend +1 5", "spend +1 +5", "take +1", "issue +1", "give 2 +1", "give +2 1", "outcome +1", "cancel +1", "tick +1", "close +2",
    "queue +1",
]  # fmt: skip

# ---- ticks


def it_ticks_by_itself(trial):
    """Each entry is sent once, and a beat at each tick."""
    with trial.site(SOON) as site:
        site.expect("issue 9", "number 1")
        site.expect("give 2 4", "number 2")
        for peer in site.peers:
            site.wait_for_line(peer, "B 1 2")
            site.wait_for_ticks(peer, 5)
            expect(site.peers[peer].hellos, [b"H 1\n"], f"the first lines of connections to peer {peer}")
            others = [line for line in site.peers[peer].said() if not line.startswith("B ")]
            expect(others, entries(1, "I:9", "R:2:4"), f"what comes to peer {peer} besides beats")
            beats = [line for line in site.peers[peer].said() if line.startswith("B ")]
            expect(beats, sorted(beats), f"the beats to peer {peer}")


def it_ticks_as_often_as_it_is_told(trial):
    """Never more often. A busy machine may make it tick later, so it has some tries for that."""
    every, count = 300, 10
    between = (count - 1) * every / 1000
    for _ in range(TRIES):
        with trial.site(every) as site:
            site.wait_for_ticks(2, count)
            times = [when for when, _ in site.peers[2].lines[:count]]
        seconds = times[-1] - times[0]
        # The first one may have been late.
        expect(seconds > 0.6 * between, True, f"{count} ticks that are to be {every} ms apart came in {seconds:.2f} seconds: whether none is early")
        if seconds < 1.5 * between:
            return
    raise AssertionError(f"in {TRIES} tries {count} ticks that are to be {every} ms apart were later than that")


def its_first_tick_comes_after_that_time(trial):
    with trial.site(RARELY) as site:
        site.say("issue 9", "spend 20 +1000", "give 2 1", "status")
        time.sleep(REST)
        expect([site.peers[peer].hellos for peer in site.peers], [[], []], "connections before the first tick")


def spends_that_wait_are_served_by_its_ticks(trial):
    with trial.site(SOON) as site:
        site.expect(f"spend 5 +{LONG}", "queued 1")
        site.expect(f"spend 3 +{LONG}", "queued 2")
        site.wait_for_ticks(2, 2)
        site.expect_all("waiting", "outcome 1", "outcome 2")
        site.expect("issue 7", "number 1")
        site.wait_for_line(2, "B 1 2")
        site.expect("outcome 1", "spent 2")
        site.wait_for_ticks(2, 2)
        site.expect_all("waiting", "outcome 2")
        site.expect("issue 1", "number 3")
        site.wait_for_line(3, "B 1 4")
        site.expect("outcome 2", "spent 4")
        others = [line for line in site.peers[3].said() if line[0] != "B"]
        expect(others, entries(1, "I:7", "S:5", "I:1", "S:3"), "what comes to peer 3 besides beats")


def a_tick_of_a_client_is_refused(trial):
    """And nothing is done: what waits is not served, and does not expire, and nothing is sent."""
    with trial.site(RARELY) as site:
        site.expect(f"spend 5 +{LONG}", "queued 1")
        site.expect("issue 9", "number 1")
        now = wall_clock()
        site.expect_all("error OwnClock", *(f"tick {time}" for time in (0, 1, 5, now, now + 2 * LONG, now * 1000, 2**64 - 1)))
        site.expect_all("error BadCommand", "tick", "tick x", "tick 1 1", "tick 01", f"tick {2**64}", "tick +1", " tick 1", "tick 1 ")
        site.expect_all("waiting", "outcome 1", "outcome 1")
        time.sleep(REST)
        expect([site.peers[peer].hellos for peer in site.peers], [[], []], "connections before the first tick")
        site.expect("close", "error QueueBusy")
        site.expect("cancel 1", "expired")
        site.expect("close", "number 2")
        site.expect("tick 5", "error OwnClock")


def a_tick_that_is_refused_stops_no_clock(trial):
    """Such as one with a time in microseconds."""
    with trial.site(SOON) as site:
        site.expect_all("error OwnClock", f"tick {wall_clock() * 1000}", f"tick {2**64 - 1}", "tick 0")
        site.expect("spend 5 +200", "queued 1")
        site.expect(f"spend 1 +{LONG}", "queued 2")
        site.wait_for("that the first one expires", lambda: site.say("outcome 1") == ["expired"])
        site.expect("issue 1", "number 1")
        site.wait_for_line(2, "B 1 2")
        site.expect("outcome 2", "spent 2")


# ---- deadlines


def a_deadline_is_counted_from_its_time(trial):
    """The time of day, in milliseconds since 1970."""
    with trial.site(RARELY) as site:
        for ticket, ahead in enumerate((0, 1, 9, 999, 60_000, MOST_AHEAD - 1, MOST_AHEAD, 7), 1):
            begun = wall_clock()
            site.expect(f"spend {ticket} +{ahead}", f"queued {ticket}")
            ended = wall_clock()
            found = site.queue()[ticket] - ahead
            is_now = begun - SLACK <= found <= ended + SLACK
            expect(is_now, True, f"the site's time is {found - begun} ms later than the test's, and {ended - begun} passed: whether it is right")


def a_deadline_may_be_a_time(trial):
    with trial.site(RARELY) as site:
        now = wall_clock()
        times = [0, 1, 999, now // 1000, now - LONG, now, now + 1, now + LONG, now + MOST_AHEAD]
        for ticket, deadline in enumerate(times, 1):
            site.expect(f"spend 1 {deadline}", f"queued {ticket}")
        expect(site.queue(), dict(enumerate(times, 1)), "the deadlines of what waits")


def what_is_no_deadline_is_refused(trial):
    lines = [*(f"spend 1 {text}" for text in NO_DEADLINES), *NO_COMMANDS]
    with trial.site(RARELY) as site:
        site.expect_all("error BadCommand", *lines)
        site.expect("queue", '{"requests":[],"unread":0}')
        site.expect("issue 3", "number 1")
        site.expect_all("error BadCommand", *lines)
        site.expect("spend 3 +0", "spent 2")


def a_spend_expires_after_its_time(trial):
    with trial.site(SOON) as site:
        begun = wall_clock()
        site.expect("spend 5 +400", "queued 1")
        site.expect(f"spend 6 {begun + 600}", "queued 2")
        site.expect(f"spend 7 +{LONG}", "queued 3")
        for ticket, ahead in ((1, 400), (2, 600)):
            site.wait_for(f"that spend {ticket} expires", lambda: site.say(f"outcome {ticket}") == ["expired"])
            passed = wall_clock() - begun
            expect(passed > ahead - SLACK, True, f"spend {ticket} expired after {passed} ms, not {ahead}")
        site.expect("outcome 3", "waiting")
        # What is over from the start expires with the next tick.
        for ticket, deadline in ((4, "+0"), (5, "0"), (6, f"{begun}")):
            site.expect(f"spend 1 {deadline}", f"queued {ticket}")
            site.wait_for(f"that spend {ticket} expires", lambda: site.say(f"outcome {ticket}") == ["expired"])
        site.expect("issue 20", "number 1")
        site.wait_for_line(2, "B 1 2")
        site.expect("outcome 3", "spent 2")
        site.expect("queue", '{"requests":[],"unread":0}')


def a_key_answers_whatever_the_deadline_is_later(trial):
    """Also to one that no first spend may have."""
    with trial.site(SOON) as site:
        begun = wall_clock()
        far = begun + 2 * MOST_AHEAD
        site.expect_all("queued 1", "key a spend 5 +400", "key a spend 5 +400", f"key a spend 5 +{LONG}", "key a take 5", f"key a spend 5 {far}")
        site.expect_all("error KeyReused", "key a spend 6 +400", f"key a spend 6 {far}", "key a issue 5")
        site.wait_for("that the spend expires", lambda: site.say(f"key a spend 5 +{LONG}") == ["expired"])
        passed = wall_clock() - begun
        expect(passed > 400 - SLACK, True, f"it expired after {passed} ms, not 400")
        site.expect_all("expired", "key a take 5", f"key a spend 5 {far}", "key a spend 5 +0")
        site.expect("outcome 1", "unknown")
        site.expect(f"key b spend 5 +{LONG}", "queued 2")
        site.expect("issue 5", "number 1")
        site.wait_for_line(2, "B 1 2")
        site.expect_all("spent 2", "key b spend 5 +0", f"key b spend 5 {far}", "key b take 5")
        site.expect("outcome 2", "unknown")


def a_key_of_a_refused_deadline_stays_free(trial):
    with trial.site(RARELY) as site:
        far = wall_clock() + 2 * MOST_AHEAD
        site.expect_all("error BadDeadline", f"key a spend 5 {far}", f"key a spend 5 {far}", f"key a spend 6 {2**64 - 1}")
        site.expect_all("error BadCommand", "key a spend 5 +", f"key a spend 5 +{MOST_AHEAD + 1}", "key a spend +5 5", "key a take +5", "key a issue +5")
        site.expect("key a issue 5", "number 1")
        site.expect("key b spend 2 +0", "spent 2")
        site.expect_all("spent 2", f"key b spend 2 {far}", "key b spend 2 +7")


def a_tick_has_no_key(trial):
    """At a site that ticks by itself too, and nothing is done."""
    with trial.site(RARELY) as site:
        site.expect(f"spend 5 +{LONG}", "queued 1")
        site.expect("issue 9", "number 1")
        site.expect_all("error BadKey", "key a tick 0", f"key a tick {2**64 - 1}", f"key a tick {wall_clock()}", "key  tick 5")
        site.expect_all("error BadCommand", "key a tick", "key a tick +5", "key a tick 5 5")
        site.expect_all("waiting", "outcome 1")
        site.expect("key a issue 1", "number 2")


def what_is_held_is_spent_whatever_the_deadline(trial):
    with trial.site(RARELY) as site:
        site.expect("issue 99", "number 1")
        now = wall_clock()
        deadlines = ["0", "+0", "1", f"{now}", f"{now + LONG}", f"{now + MOST_AHEAD}", "+1", f"+{MOST_AHEAD}"]
        for number, deadline in enumerate(deadlines, 2):
            site.expect(f"spend 1 {deadline}", f"spent {number}")


def a_deadline_of_more_than_a_day_is_refused(trial):
    """Whether the spend could be served at once or not, and later spends go on."""
    with trial.site(SOON) as site:
        site.expect("issue 1000", "number 1")
        now = wall_clock()
        too_far = [now + MOST_AHEAD + LONG, now + 2 * MOST_AHEAD, now * 1000, now * 1_000_000, 2**63, 2**64 - 1]
        for amount in (1, 1000, 1001, GREATEST):
            site.expect_all("error BadDeadline", *(f"spend {amount} {deadline}" for deadline in too_far))
        site.expect("queue", '{"requests":[],"unread":0}')
        site.expect("spend 999 +1000", "spent 2")
        site.expect(f"spend 2 {now + MOST_AHEAD}", "queued 1")
        site.expect_all("error BadDeadline", *(f"spend {amount} {deadline}" for amount in (1, 2) for deadline in too_far))
        expect(site.queue(), {1: now + MOST_AHEAD}, "the deadlines of what waits")
        site.expect("cancel 1", "expired")
        site.expect("spend 1 +0", "spent 3")


def a_deadline_of_a_day_is_the_latest(trial):
    """To some seconds: the test does not know the site's time better, if the machine is busy."""
    late = 2_000
    with trial.site(RARELY) as site:
        for _ in range(TRIES):
            begun = wall_clock()
            (reply,) = site.say(f"spend 1 {begun + MOST_AHEAD + late}")
            if wall_clock() - begun < late - SLACK:
                expect(reply, "error BadDeadline", "a deadline 2 seconds more than a day away")
                break
        else:
            raise AssertionError(f"in {TRIES} tries a reply took 2 seconds")
        site.expect(f"spend 1 {wall_clock() + MOST_AHEAD}", "queued 1")


def a_bad_deadline_comes_after_closed_and_bad_amount_alone(trial):
    with trial.site(RARELY) as site:
        too_far = 2**64 - 1
        site.expect_all("error BadAmount", f"spend 0 {too_far}", f"spend {GREATEST + 1} {too_far}", "spend 0 +5", f"spend {2**64 - 1} +5")
        for ticket in range(1, MOST_REQUESTS + 1):
            site.expect("spend 9 +60000", f"queued {ticket}")
        site.expect("spend 1 +5", "error QueueFull")
        site.expect("spend 1 5", "error QueueFull")
        site.expect(f"spend 1 {too_far}", "error BadDeadline")
        site.expect_all("expired", *(f"cancel {ticket}" for ticket in range(1, MOST_REQUESTS + 1)))
        site.expect("close", "number 1")
        site.expect_all("error Closed", f"spend 1 {too_far}", f"spend 0 {too_far}", "spend 1 +5", "spend 0 +5", "spend 1 5")


# ---- peers that are silent


def heard_from(site, *, rich=50, poor=20):
    """Site 2 has more rights than site 3, and both are heard, site 3 until the end."""
    site.hear(3, *entries(3, f"I:{poor}"))
    site.keep_beating(3, 1)
    site.hear(2, *entries(2, f"I:{rich}"))
    # They may be applied a little after they came.
    site.wait_for("that their entries are applied", lambda: [peer["applied"] for peer in site.site.status()["peers"]] == [1, 1])


def fall_silent(site, peer):
    """A peer says nothing until it is silent."""
    site.peers[peer].beats = None
    # One of its beats may be on its way.
    time.sleep(SILENT / 1000 + 0.3)
    site.wait_for_ticks(3, 3)


def expect_silence(site, asked, milliseconds, peer=2):
    """Another peer was asked at this time since this one was silent for so long, and not before."""
    seconds = asked - site.peers[peer].spoke_at
    is_early = seconds < (milliseconds - SLACK) / 1000
    expect(is_early, False, f"another one was asked {seconds:.2f} seconds after site {peer} spoke: whether that is before {milliseconds} ms")
    return seconds


def a_silent_peer_is_not_asked(trial):
    """What waits is asked of the others. What is due to the silent one is sent all the same."""
    with trial.site(SOON, SILENT) as site:
        heard_from(site)
        fall_silent(site, 2)
        site.expect(f"spend 10 +{LONG}", "queued 1")
        site.wait_for_line(3, "W 1 3 1 10")
        site.expect("issue 1", "number 1")
        site.wait_for_line(2, "E 1 0 1 I:1")
        site.wait_for_ticks(2, 5)
        site.expect_no_ask(2, "a silent peer")


def all_peers_may_be_silent(trial):
    """Then nobody is asked, until one is heard again."""
    with trial.site(SOON, SILENT) as site:
        heard_from(site)
        site.peers[3].beats = None
        fall_silent(site, 2)
        site.expect(f"spend 10 +{LONG}", "queued 1")
        for peer in site.peers:
            site.wait_for_ticks(peer, 5)
            site.expect_no_ask(peer, "a silent peer")
        site.keep_beating(3, 1)
        site.wait_for_line(3, "W 1 3 1 10")
        site.wait_for_ticks(2, 5)
        site.expect_no_ask(2, "a silent peer")


def what_a_silent_peer_was_asked_for_is_asked_of_the_others(trial):
    """Once it is silent, and not before. Its ask goes out at each tick as before, and its grant is applied as ever."""
    with trial.site(SOON, SILENT) as site:
        heard_from(site)
        site.keep_beating(2, 1)
        site.expect(f"spend 10 +{LONG}", "queued 1")
        site.wait_for_line(2, "W 1 2 1 10")
        site.peers[2].beats = None
        expect_silence(site, site.wait_for_line(3, "W 1 3 1 10"), SILENT)
        lines = site.wait_for_ticks(2, 5)
        expect(lines.count("W 1 2 1 10") >= 4, True, f"asks to a silent peer in 5 ticks: {lines}")
        expect({line for line in lines if line[0] == "W"}, {"W 1 2 1 10"}, "asks to a silent peer")
        site.hear(3, *entries(3, "G:1:10:1", prev=1))
        site.keep_beating(3, 2)
        site.wait_for("that the spend is served", lambda: site.say("outcome 1") == ["spent 1"])
        site.hear(2, *entries(2, "G:1:10:1", prev=1))
        site.wait_for("that the late grant is applied", lambda: site.site.status()["held"] == 10)
        site.wait_for_ticks(2, 2)
        for peer in site.peers:
            lines = site.wait_for_ticks(peer, 3)
            expect([line for line in lines if line[0] == "W"], [], f"asks to peer {peer} after its grant")


def nothing_more_is_asked_of_a_peer_that_was_silent(trial):
    """What a silent peer was asked for is outstanding once it is heard again, with its number, and counts as coming."""
    with trial.site(SOON, SILENT) as site:
        heard_from(site)
        site.expect(f"spend 10 +{LONG}", "queued 1")
        site.wait_for_line(2, "W 1 2 1 10")
        site.wait_for_line(3, "W 1 3 1 10")
        site.keep_beating(2, 1)
        site.wait_for_ticks(2, 20)
        site.hear(2)
        site.hear(3, "D 3 1 1")
        site.wait_for_ticks(3, 2)
        for peer, asks in ((2, {"W 1 2 1 10"}), (3, set())):
            lines = site.wait_for_ticks(peer, 10)
            expect({line for line in lines if line[0] == "W"}, asks, f"asks to peer {peer}, of which what was asked of 2 is outstanding")


def a_peer_that_speaks_again_is_asked_again(trial):
    with trial.site(SOON, SILENT) as site:
        heard_from(site)
        fall_silent(site, 2)
        site.keep_beating(2, 1)
        site.hear(2)
        site.wait_for_ticks(2, 2)
        site.expect(f"spend 10 +{LONG}", "queued 1")
        site.wait_for_line(2, "W 1 2 1 10")
        site.wait_for_ticks(3, 5)
        site.expect_no_ask(3, "who has less than a peer that speaks again")


def a_peer_that_says_anything_is_heard(trial):
    """An hour of beats, or lines that are skipped."""
    for beats in ("B 2 1", "nonsense", "", "B 2 x"):
        with trial.site(SOON, SILENT) as site:
            heard_from(site)
            site.peers[2].beats = beats
            time.sleep(1.5 * SILENT / 1000)
            site.expect(f"spend 10 +{LONG}", "queued 1")
            site.wait_for_line(2, "W 1 2 1 10")
            time.sleep(1.5 * SILENT / 1000)
            site.wait_for_ticks(3, 3)
            site.expect_no_ask(3, f"a peer that says {beats!r} is heard")


def a_peer_that_was_never_heard_is_silent(trial):
    """From so long after the start."""
    # More than a site may need to start.
    silent = 4 * SILENT
    with trial.site(SOON, silent) as site:
        site.hear(3, *entries(3, "I:90 R:2:50"))
        site.keep_beating(3, 2)
        site.expect(f"spend 10 +{LONG}", "queued 1")
        # It spoke never, and the site began to listen for it later than that.
        site.peers[2].spoke_at = site.begun
        expect_silence(site, site.wait_for_line(3, "W 1 3 1 10"), silent)
        site.wait_for_ticks(3, 3)
        count = len(site.peers[2].lines)
        site.hear(3, *entries(3, "G:1:10:1", prev=2))
        site.keep_beating(3, 3)
        site.expect(f"spend 5 +{LONG}", "queued 2")
        site.wait_for_line(3, "W 1 3 2 5")
        site.wait_for_ticks(2, 3)
        asks = {line for line in site.peers[2].said(count) if line[0] == "W"}
        expect(asks - {"W 1 2 1 10"}, set(), "asks of a peer that is silent")


def with_0_no_peer_is_silent(trial):
    with trial.site(SOON, 0) as site:
        heard_from(site)
        time.sleep(1.2)
        site.expect(f"spend 10 +{LONG}", "queued 1")
        site.wait_for_line(2, "W 1 2 1 10")
        time.sleep(3.5)
        site.wait_for_ticks(3, 5)
        site.expect_no_ask(3, "with --silent 0")


def expect_silent_after(trial, tick, silent, milliseconds):
    """A site with these words counts a peer as silent after so long, and not before. A busy machine has some tries for what is
    not to be later."""
    for _ in range(TRIES):
        with trial.site(tick, silent) as site:
            heard_from(site)
            site.expect(f"spend 10 +{LONG}", "queued 1")
            seconds = expect_silence(site, site.wait_for_line(3, "W 1 3 1 10"), milliseconds)
        # It is seen at a tick, and the ask goes out with it.
        if seconds * 1000 < milliseconds + tick + 900:
            return
    raise AssertionError(f"in {TRIES} tries a peer was not silent {milliseconds} ms after it spoke")


def a_peer_is_silent_after_so_long_as_is_said(trial):
    expect_silent_after(trial, SOON, SILENT, SILENT)
    expect_silent_after(trial, SOON, 2 * SILENT, 2 * SILENT)
    # However often the site ticks.
    expect_silent_after(trial, 400, SILENT, SILENT)


def without_a_word_a_peer_is_silent_after_3_seconds(trial):
    expect_silent_after(trial, SOON, None, 3_000)


def without_a_word_a_peer_is_silent_after_10_ticks(trial):
    """If that is longer."""
    expect_silent_after(trial, 400, None, 4_000)


def words_of_a_clock_have_their_limits(trial):
    for tick, silent in ((1, 0), (1, 1_000), (60_000, None), (60_000, 3_600_000), (60_000, 1_000)):
        with trial.site(tick, silent) as site:
            site.expect("tick 1", "error OwnClock")


# ---- the end


def it_ticks_once_more_at_its_end(trial):
    """What was written is sent, and what can be served is."""
    for by_quit in (True, False):
        with trial.site(RARELY) as site:
            site.expect(f"spend 5 +{LONG}", "queued 1")
            site.expect("issue 9", "number 1")
            site.expect("give 2 4", "number 2")
            site.end(by_quit)
            for peer in site.peers:
                site.wait_for_line(peer, "B 1 3")
                time.sleep(0.05)
                expect(site.peers[peer].said(), [*entries(1, "I:9", "R:2:4", "S:5"), "B 1 3"], f"the lines to peer {peer} at the end")
        with trial.site(RARELY) as site:
            site.end(by_quit)
            for peer in site.peers:
                site.wait_for_line(peer, "B 1 0")
                time.sleep(0.05)
                expect(site.peers[peer].said(), ["B 1 0"], f"the lines to peer {peer} at the end")
