"""Checks of commands under keys, each named after the rule of docs/PROTOCOL.md that it tries."""

from desk_model import MOST_REQUESTS
from key_model import MOST_EXPIRED
from line_model import GREATEST, MOST_BYTES
from site_trial import entries

# More keys than a small table has places.
SOME_KEYS = 300
# The greatest length of a key.
LONGEST = 64
# A line feed ends a line, and a space a key.
NO_BYTES_OF_LINES = (0x0A, 0x20)


# ---- the first time


def a_command_under_a_free_key_is_carried_out(trial):
    trial.say("key a issue 20", "key b give 2 3", "key c spend 4 0", "key d take 2", "key e spend 99 9", "status", "key f issue 1")
    trial.tick()
    trial.say("cancel 1", "key g close 3", "status")
    trial.time = 1
    trial.tick()


def it_is_refused_as_without_a_key(trial):
    trial.hear(3, *entries(3, "K:0:0:0"))
    refused = ["issue 0", f"issue {GREATEST + 1}", "give 4 1", "give 1 1", "give 3 1", "give 2 99", "give 2 0", "spend 0 5", "take 6",
               "take 0", f"take {2**64 - 1}", "close 4", "close 1", "close 3"]  # fmt: skip
    trial.say("issue 5")
    for place, command in enumerate(refused):
        trial.say(command, f"key k{place} {command}")
    trial.say("spend 9 99", "key q close", "key q close 2", "cancel 1", f"issue {GREATEST}", f"issue {GREATEST}", "key h close 2", "status")
    trial.say("close", *(f"key k{place} {command}" for place, command in enumerate(refused)))


def a_key_stands_in_no_entry(trial):
    """What a peer is sent is the same."""
    for line in ("issue 30", "give 2 4", "spend 3 0", "take 2"):
        trial.say(line, f"key {line[0]} {line}", f"key {line[0]} {line}")
    trial.tick(2)
    trial.say("key z close 2")
    trial.tick()


def a_refused_command_leaves_its_key_free(trial):
    trial.say("key a take 5", "key b give 2 5", "key c issue 0", "key d give 4 1", "key e give 1 1", "issue 20")
    trial.say_twice("key a take 5", "key b give 2 5", "key c give 2 1", "key d take 1", "key e issue 3")
    trial.say("spend 99 9", "key f close", "cancel 1")
    trial.say_twice("key f spend 1 9", "key g take 99", "key g take 98", "key g issue 98", "key h close", "key i issue 1", "key i take 1")


def a_full_queue_leaves_a_key_free(trial):
    trial.say(*["spend 1 9"] * MOST_REQUESTS)
    trial.say_twice("key a spend 1 9", "key b spend 1 9")
    trial.say("cancel 4")
    trial.say_twice("key a spend 1 9", "key b spend 1 9", "key b issue 2")
    trial.tick()
    trial.say_twice("key a spend 1 9", "key b spend 1 9")


# ---- repeats


def a_repeat_gets_the_reply_of_the_first_time(trial):
    lines = ["key a issue 50", "key b give 2 3", "key c give 3 4", "key d spend 5 9", "key e take 6"]
    for line in lines:
        trial.say(line, line, "status")
    trial.say("issue 1", "spend 2 0", *lines, "status")
    trial.tick(2)
    trial.say(*reversed(lines), "status")
    trial.tick()


def a_repeat_may_come_at_once(trial):
    trial.say_together("key a issue 9", "key a issue 9", "key b take 2", "key b take 2", "key a issue 9", "key a issue 8", "take 2")
    trial.node.give_commands([b"key c give 2 1", b"key c give 2 1", b"key d"], [2, 5, 9, 15, 17, 20])
    trial.node.settle()


def a_repeat_takes_nothing_though_all_is_held(trial):
    trial.say("issue 100", *["key a take 7"] * 9, *["key b give 2 7"] * 9, *["key c spend 7 9"] * 9, *["key d issue 7"] * 9, "status")


def a_repeat_needs_no_rights(trial):
    trial.say("issue 9", "key a take 4", "key b give 2 3", "key c spend 2 0", "status")
    trial.say("key a take 4", "key b give 2 3", "key c spend 2 0", "key c take 2", "take 1", "issue 1", "spend 5 9", "key a take 4", "key c spend 2 0")


def a_repeat_is_answered_when_the_same_is_refused(trial):
    """As by a peer that closed, a queue that is full, or the site's own close."""
    trial.say("issue 90", "key a give 2 3", "key b spend 2 0", "key c issue 1")
    trial.hear(2, *entries(2, "K:2:0:0"))
    trial.say("give 2 3", "key a give 2 3", "key z give 2 3", "spend 999 5", *["spend 1 5"] * (MOST_REQUESTS - 1))
    trial.say("spend 1 5", "key b spend 2 5", "key z spend 2 5", "tick 6", "close", "close")
    trial.say_twice("key a give 2 3", "key b spend 2 0", "key b take 2", "key c issue 1", "key z issue 1", "key c issue 2")


def a_close_is_told_by_its_key(trial):
    trial.say("issue 7", "spend 9 5", "key a close 2", "cancel 1", "key a close 2", "key a close 2", "key a close", "key a close 3", "key a close 16")
    trial.say("close", "key b close", "key a issue 7", "key a give 2 7", "status", "key a close 17", "key a close 0")
    trial.tick(2)
    trial.say("key a close", "issue 1")


def a_close_without_an_heir_is_told_by_its_key(trial):
    trial.say("issue 7", "key a close", "key a close", "key a close 2", "key a close 4", "close 2", "status")


# ---- another command


def another_command_under_a_key_is_refused(trial):
    firsts = {"a": "issue 5", "b": "give 2 5", "c": "spend 5 0", "d": "take 5"}
    others = ["issue 5", "give 2 5", "give 3 5", "spend 5 0", "take 5", "issue 6", "give 2 6", "spend 6 0", "take 6", "close", "close 2",
              "issue 0", "take 0", "give 4 5", "give 1 5", f"issue {2**64 - 1}"]  # fmt: skip
    trial.say("issue 100", *(f"key {key} {first}" for key, first in firsts.items()), "status")
    for key, first in firsts.items():
        trial.say(*(f"key {key} {other}" for other in others), "status", f"key {key} {first}")
    trial.tick()


def amounts_are_told_apart_in_all_their_digits(trial):
    trial.say(f"issue {GREATEST}", "key a issue 100", "key b take 1000000", "key c give 2 4096", f"key d issue {GREATEST}")
    trial.say("key a issue 101", "key a issue 10", "key a issue 1", "key a issue 1000", f"key a issue {100 + 2**32}", f"key a issue {100 + 2**63}")
    trial.say("key b take 1000001", "key b take 100000", "key b take 10000000", "key c give 2 4097", "key c give 2 0", "key c give 2 8192")
    trial.say(f"key d issue {GREATEST - 1}", "key d issue 0", f"key d issue {GREATEST}", "key a issue 100", "key c give 2 4096", "status")


def peers_of_gifts_are_told_apart(trial):
    trial.say("issue 99", "key a give 12 5", "key b give 2 5", "key a give 2 5", "key a give 1 5", "key a give 13 5", "key b give 12 5", "key a give 12 5")
    trial.tick()


def a_refused_repeat_changes_nothing(trial):
    """Neither what the key stands for, nor what is held or waits."""
    trial.say("issue 9", "key a take 2", "key a take 3", "key a issue 3", "key a spend 99 5", "queue", "key a take 2", "key a take 3", "status")
    trial.tick()


def the_deadline_of_a_spend_does_not_count(trial):
    trial.say("issue 9", "key a spend 2 5", "key a spend 2 0", f"key a spend 2 {2**64 - 1}", "key a spend 3 5")
    trial.say("key b spend 99 5", "key b spend 99 0", "key b spend 99 7", "queue", "tick 6", "key b spend 99 9", "queue")


def take_and_spend_are_one_command(trial):
    trial.say("issue 9", "key a spend 2 5", "key a take 2", "key b take 3", "key b spend 3 0", "key b spend 3 99", "key b take 2", "status")
    trial.say("key c spend 50 9", "key c take 50", "key c spend 50 0", "key c take 5", "issue 50", "tick 1", "key c take 50", "key c spend 50 9")


# ---- what is a key


def a_key_has_bytes_of_visible_ascii(trial):
    """Each byte alone, and within a key."""
    trial.say("issue 9")
    for byte in range(256):
        if byte not in NO_BYTES_OF_LINES:
            trial.say(b"key %c issue 1" % byte, b"key %c issue 1" % byte, b"key k%ck issue 2" % byte)
    trial.say("status")
    trial.say("key é issue 1", "key ключ issue 1", b"key a\xc2\xa0 issue 1", b"key \xff issue 1")


def a_key_has_64_bytes_at_most(trial):
    lengths = (1, 2, 31, 32, 33, LONGEST - 1, LONGEST, LONGEST + 1, LONGEST + 2, 127, 128, 255, 256, 257, 1000)
    for length in lengths:
        trial.say_twice(f"key {'x' * length} issue {length}")
    trial.say("status", f"key {'x' * LONGEST} issue {LONGEST}", f"key {'x' * (LONGEST - 1)}y issue 1", f"key y{'x' * (LONGEST - 1)} issue 1")


def keys_are_told_apart_in_all_their_bytes(trial):
    keys = ["a", "A", "b", "aa", "ab", "ba", "a.", "a/", "1", "01", "+1", "-", "--", "key", "issue", "quit", '"', "\\", "{}", "%61", "~", "!"]
    long = "0123456789abcdef" * 4
    keys += [long, long[:-1], long[:-1] + "g", "1" + long[1:], long[:31] + "x" + long[32:], long[:32] + "x" + long[33:]]
    trial.say(*(f"key {key} issue {number}" for number, key in enumerate(keys, 1)), "status")
    trial.say(*(f"key {key} issue {number}" for number, key in enumerate(keys, 1)), "status")


def a_bad_key_is_told_whatever_follows(trial):
    bad = [b"", b"\x7f", b"\x80", b"\t", b"\0", b"x" * (LONGEST + 1)]
    behind = [b"", b" ", b" issue 1", b" nonsense", b" issue", b" quit", b" outcome 1", b" key a issue 1", b" issue 18446744073709551616"]
    for key in bad:
        trial.say(*(b"key " + key + rest for rest in behind))
    trial.say("status", "issue 1")


def a_key_without_a_command_is_a_bad_command(trial):
    trial.say("key", "key a", "key a ", "key a  issue 1", "key a issue", "key a issue 1 ", "key a issue 1 1", "key a issue x", "key a nonsense",
              "key a spend 2", "key a spend 2 +5", "key a give 17 1", "key a post I:1", "key a ISSUE 1", "key a issue 01", "key a H 2")  # fmt: skip
    trial.say("KEY a issue 1", "Key a issue 1", "keys a issue 1", "ke a issue 1", " key a issue 1", "key\ta issue 1", "key=a issue 1", "a issue 1",
              "issue 1 key a", "status", "key a issue 4")  # fmt: skip


def keys_do_not_nest(trial):
    trial.say("key a key b issue 1", "key a key a issue 1", "key a key", "key a key b", "key key issue 1", "key a key  issue 1", "status")
    trial.say("key key key issue 1", "key b issue 1")


def a_line_with_a_key_has_16384_bytes_at_most(trial):
    for length in (MOST_BYTES - 2, MOST_BYTES - 1, MOST_BYTES, MOST_BYTES + 1, 3 * MOST_BYTES):
        trial.say(b"key ".ljust(length, b"x"), b"key a issue ".ljust(length, b"1"), b"key  ".ljust(length, b"1"))
    trial.say("key a issue 1")


def commands_that_write_no_entry_have_no_key(trial):
    """And nothing is done: a tick is none, an outcome stays unread, and the site goes on."""
    trial.say("spend 5 9", "spend 4 3", "tick 4", "issue 6")
    trial.say("key a outcome 2", "key a cancel 1", "key a tick 5", "key a status", "key a queue", "key a quit", "key b quit", "queue", "status")
    trial.say("key a outcome", "key a outcome x", "key a cancel", "key a tick", "key a tick 5 5", "key a status 1", "key a queue 1", "key a quit 1")
    trial.say_twice("key a issue 2")
    trial.say("key a outcome 2", "key a quit", "outcome 2", "tick 4", "outcome 1", "tick 3")


# ---- spends that wait


def a_spend_that_waits_is_told_by_its_key(trial):
    trial.say("key a spend 5 99", "key a spend 5 99", "spend 6 99", "key b spend 7 99", "key b spend 7 99", "key a spend 5 99", "queue", "status")
    trial.say("issue 11", "key a spend 5 99", "key a take 5")
    trial.tick()
    trial.say("key a spend 5 99", "key b spend 7 99", "key a spend 5 99", "status", "issue 7")
    trial.tick()
    trial.say("key b spend 7 99", "key b take 7", "key a take 5", "key b take 5", "key a take 7", "outcome 2", "queue", "status")


def a_spend_that_expired_is_told_by_its_key(trial):
    trial.say("key a spend 5 3", "key b spend 6 4", "tick 3", "key a spend 5 3", "tick 4", "key a spend 5 3", "key b spend 6 4", "issue 20")
    trial.say("key a spend 5 99", "key a take 5", "key a take 6", "key a issue 5", "key b spend 6 0", "tick 5", "key b spend 6 99", "key b take 6", "status")
    trial.say("key a spend 5 99", "outcome 1", "outcome 2", "key c take 5", "key a take 5")


def a_cancelled_spend_is_told_as_expired(trial):
    trial.say("key a spend 5 99", "key b spend 6 99", "cancel 1", "key a spend 5 99", "key a take 5", "outcome 1", "cancel 1", "issue 50")
    trial.tick()
    trial.say("key a spend 5 99", "key b spend 6 99", "cancel 2", "key b spend 6 99", "key a spend 6 99", "status")


def an_outcome_and_a_key_tell_the_same(trial):
    """Once one of them has, `outcome` knows nothing more, and the key still answers."""
    trial.say("key a spend 5 9", "key b spend 4 9", "key c spend 3 2", "key d spend 2 2", "issue 9", "tick 3")
    trial.say("outcome 1", "key a spend 5 9", "key a spend 5 9", "outcome 1", "key b spend 4 9", "outcome 2", "key b spend 4 9")
    trial.say("outcome 3", "key c spend 3 2", "key c spend 3 2", "key d spend 2 2", "outcome 4", "key d spend 2 2", "queue")


def a_repeat_frees_the_slot_of_what_it_tells(trial):
    trial.say(*(f"key k{number} spend {number} {number % 2 * 9}" for number in range(1, MOST_REQUESTS + 1)))
    trial.say("spend 1 9", "key k1 spend 1 9", "spend 1 9", "tick 1", "queue", "spend 1 9")
    trial.say("key k1 spend 1 9", "queue", "key k2 spend 2 9", "queue", "key k2 spend 2 9", "spend 1 9", "spend 1 9")
    trial.say("key k4 spend 5 9", "key k4 issue 4", "queue", "spend 1 9", "key k4 take 4", "spend 1 9", "spend 1 9", "issue 16", "tick 1", "queue")
    trial.say("key k1 take 1", "queue", "key k3 take 3", "key k5 take 6", "queue", "key k5 take 5", "key k5 take 5", "queue", "status")


def a_repeat_takes_no_ticket(trial):
    trial.say("key a spend 5 9", *["key a spend 5 9"] * 40, "key b spend 5 9", "spend 5 9", "queue", "tick 10", *["key a spend 5 9"] * 40, "spend 5 20")


def spends_under_keys_do_not_jump_the_queue(trial):
    trial.say("spend 9 99", "issue 5", "key a spend 2 99", "key b take 2", "key a take 2", "issue 5")
    trial.tick()
    trial.say("key a spend 2 99", "outcome 1", "status", "issue 1")
    trial.tick()
    trial.say("key a spend 2 99")


def a_repeat_does_not_put_off_a_deadline(trial):
    trial.say("key a spend 5 3", "key a spend 5 9", "queue", "issue 9", "tick 4", "key a spend 5 9")


def many_spends_wait_under_keys(trial):
    numbers = range(1, MOST_REQUESTS + 1)
    trial.say(*(f"key k{number} spend {number} {60 - number}" for number in numbers), *(f"key k{number} take {number}" for number in numbers))
    trial.say("cancel 7", "cancel 20", "issue 30", "tick 40", "status", *(f"key k{number} take {number}" for number in numbers))
    trial.say("issue 500", "tick 40", *(f"key k{number} take {number}" for number in reversed(numbers)), "status")


# ---- how many are remembered


def the_status_counts_keys_of_entries(trial):
    """Of commands that wrote any, and not of spends that wait or expired. Without such a key it does not say so."""
    trial.say("status", "issue 5", "status", "key a spend 9 3", "status", "key b take 99", "key c spend 8 9", "status", "tick 4", "status")
    trial.say("key a spend 9 9", "key d take 1", "status", "key d take 1", "key d take 2", "status", "issue 20", "tick 4", "status", "key c take 8", "status")
    trial.say("key e give 2 1", "key f issue 1", "status", "key g close 2", "key g close", "status")


def the_oldest_key_is_forgotten_first(trial):
    """Where three are remembered, and as if it had never been there."""
    trial.say("issue 100", "key a take 1", "key b take 2", "key c take 3", "status", "key a take 1", "key b take 2", "key c take 3")
    trial.say("key d take 4", "status", "key b take 2", "key c take 3", "key d take 4", "key a take 1", "key a take 1", "status")
    trial.say("key b issue 7", "key b take 2", "key d take 4", "key a take 1", "key c give 2 1", "key c take 3", "key d take 5", "status")
    trial.tick()


def a_repeat_makes_no_key_newer(trial):
    trial.say("issue 100", "key a take 1", "key b take 2", "key c take 3", *["key a take 1"] * 5, "key a take 9", "key d take 4", "key b take 2")
    trial.say("key c take 3", "key d take 4", "key a issue 5", "status")


def one_key_is_remembered(trial):
    trial.say("issue 100", "key a take 1", "key a take 1", "key b take 2", "key b take 2", "key a take 1", "key b take 2", "status")
    trial.say("key b take 3", "key b issue 3", "key c give 2 1", "key b issue 3", "key b issue 3", "status", "key b issue 4")


def a_key_is_as_old_as_its_entry(trial):
    """And not as the time at which its spend began to wait, of whatever age the others are. Three are remembered."""
    trial.say("key w spend 50 99", "key v spend 30 99", "key a issue 1", "key b issue 2", "key c issue 3", "key w take 50", "issue 44", "tick 1")
    trial.say("key w spend 50 99", "status", "key b issue 2", "key c issue 3", "key a issue 4", "key c issue 3", "key w spend 50 99", "key d issue 26")
    trial.say("key w spend 50 99", "tick 1", "key v spend 30 99", "key d issue 26", "key a issue 4", "status", "key w issue 1", "status")


def spends_that_wait_or_expired_make_no_key_older(trial):
    """Where one key is remembered of those that wrote entries."""
    trial.say("key a spend 500 2", "key b spend 600 99", "key c spend 700 99", "key d issue 5", "cancel 3", "tick 3")
    trial.say("key d issue 5", "key a take 500", "key b take 600", "key c take 700", "key e issue 6", "key a take 500", "key b take 600", "key c take 700")
    trial.say("issue 600", "tick 3", "key b take 600", "key e issue 6", "status", "key a take 500", "key c take 700", "key b take 600")


def a_site_may_remember_no_keys(trial):
    """Then each good one is refused, and nothing is done."""
    trial.say("key a issue 5", "key a issue 5", "issue 5", "key a take 1", "key a spend 9 9", "key a give 2 1", "key a close", "status", "queue")
    trial.say("key a issue 0", "key a give 4 1", "key a take 99", "take 1", "spend 1 0", "give 2 1")
    trial.say("key  issue 5", "key", "key a", "key a nonsense", "key a status", "key a quit", "key a key b issue 5", f"key {'x' * 65} issue 5")
    trial.tick()
    trial.say("close", "key a issue 5", "key a close")


def hundreds_of_keys_are_remembered(trial):
    lines = [f"key order-{number} issue {number}" for number in range(1, SOME_KEYS + 1)]
    trial.say_together(*lines)
    trial.say_together(*lines, "status")
    trial.say(lines[0], lines[-1], "key order-1 issue 2")


def the_last_10000_keys_of_expired_spends_are_remembered(trial):
    """Each spend ends in the next tick, or is cancelled, and is told by its key at once, which frees its slot."""
    last = MOST_EXPIRED + 2
    for first in range(1, last + 1, MOST_REQUESTS):
        # Nothing is held, so each one waits, and its ticket is its number.
        numbers = range(first, min(first + MOST_REQUESTS, last + 1))
        spends = [f"key k{number} spend {number} 0" for number in numbers]
        ends = [f"cancel {number}" for number in numbers] if first % 3 == 1 else ["tick 1"]
        trial.say_together(*spends, *ends, *spends)
    trial.say(f"key k{last} take {last}", "key k3 take 3", "key k4 take 4", "key k3 issue 1", "key k2 issue 1", "key k1 issue 1", "key k1 issue 1")
    trial.say("key k3 take 3", "status")
