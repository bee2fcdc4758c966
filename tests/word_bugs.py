"""Bugs in how the words of the command line are read, and in how a site fails."""

from contextlib import suppress

import model_process
from bug_kit import BUGS, replaces, sets
from model_process import Process


def words_read_as(name, change):
    """A bug that reads refused words as others."""
    right = model_process.options_in

    def plant(limits):
        model_process.options_in = lambda words: right(words) or change(right, list(words))

    BUGS[name] = plant


BUGS["any_peers_will_do"] = sets(model_process, "are_peers", lambda number, count, numbers: True)
BUGS["a_peer_may_be_missing"] = sets(model_process, "are_peers", lambda number, count, numbers: (
    number not in numbers and len(set(numbers)) == len(numbers) and max([0, *numbers]) <= count))
BUGS["a_peer_may_be_named_twice"] = sets(model_process, "are_peers", lambda number, count, numbers: (
    sorted({*numbers, number}) == list(range(1, count + 1)) and number not in numbers))
BUGS["a_site_may_name_itself"] = sets(model_process, "are_peers", lambda number, count, numbers: (
    sorted({*numbers, number}) == list(range(1, count + 1)) and len(set(numbers)) == len(numbers)))
BUGS["a_peer_above_n_is_dropped"] = sets(model_process, "are_peers", lambda number, count, numbers: (
    sorted([number, *(other for other in numbers if other <= count)]) == list(range(1, count + 1))))
words_read_as("unknown_options_are_dropped", lambda right, words: right([word for word in words if word != "--bogus"]))
words_read_as("the_last_of_two_options_counts", lambda right, words: (
    right([*words[:6], *words[8:]]) if words[6:8] == ["--sites", "3"] else None))
words_read_as("zeros_may_lead_in_words", lambda right, words: right([word.lstrip("0") for word in words]))
words_read_as("a_plus_may_lead_in_words", lambda right, words: right([word.lstrip("+") for word in words]))
words_read_as("without_a_number_it_is_site_1", lambda right, words: right(["--id", "1", *words]) if "--id" not in words else None)
words_read_as("a_system_of_one_site", lambda right, words: (
    (1, 1, words[5], {}) if words[:4] == ["--id", "1", "--sites", "1"] else None))
words_read_as("seventeen_sites", lambda right, words: (
    (17, 17, words[5], dict.fromkeys(range(1, 17), words[5])) if words[:4] == ["--id", "17", "--sites", "17"] else None))
BUGS["a_tick_of_0"] = sets(model_process, "TICKS", range(60_001))
BUGS["a_tick_of_more_than_a_minute"] = sets(model_process, "TICKS", range(1, 2**64))
BUGS["a_tick_of_a_minute_and_a_bit"] = sets(model_process, "TICKS", range(1, 60_002))
BUGS["silence_after_less_than_a_second"] = sets(model_process, "SILENCES", range(1, 3_600_001))
BUGS["silence_after_999_milliseconds"] = sets(model_process, "SILENCES", range(999, 3_600_001))
BUGS["silence_after_more_than_an_hour"] = sets(model_process, "SILENCES", range(1_000, 3_600_002))
BUGS["keys_of_any_number"] = sets(model_process, "COUNTS_OF_KEYS", range(2**64))
BUGS["keys_of_ten_million_and_one"] = sets(model_process, "COUNTS_OF_KEYS", range(10_000_002))
BUGS["keys_of_less_than_ten_million"] = sets(model_process, "COUNTS_OF_KEYS", range(10_000_000))
BUGS["keys_of_at_least_one"] = sets(model_process, "COUNTS_OF_KEYS", range(1, 10_000_001))
words_read_as("the_first_of_two_keys_counts", lambda right, words: right([word for word in words if word != "--keys=0"]))
words_read_as("the_last_of_two_equal_keys_counts", lambda right, words: right(words[:-1]) if words[-2:] == ["--keys=5", "--keys=5"] else None)
words_read_as("keys_without_a_value_are_the_usual_ones", lambda right, words: right(words[:-1]) if words[-1:] == ["--keys"] else None)
words_read_as("keys_that_are_no_number_are_the_usual_ones", lambda right, words: (
    right([word for word in words if not word.startswith("--keys=")]) if "--keys=x" in words else None))
words_read_as("keys_of_64_bits_wrap", lambda right, words: right(["--keys=5" if word == f"--keys={2**64 + 5}" else word for word in words]))
words_read_as("keys_may_have_a_unit", lambda right, words: right(["--keys=5000" if word == "--keys=5k" else word for word in words]))
words_read_as("the_first_of_two_ticks_counts", lambda right, words: right([word for word in words if word != "--tick=30"]))
words_read_as("the_last_of_two_silences_counts", lambda right, words: right([word for word in words if word != "--silent=0"]))
words_read_as("a_tick_without_a_value_is_none", lambda right, words: right(words[:-1]) if words[-1:] == ["--tick"] else None)
words_read_as("a_silence_without_a_value_is_none", lambda right, words: right(words[:-1]) if words[-1:] == ["--silent"] else None)
words_read_as("a_tick_may_have_a_unit", lambda right, words: right([word.removesuffix("s") if word.startswith("--tick") else word for word in words]))
words_read_as("a_tick_that_is_no_number_is_none", lambda right, words: (
    right([word for word in words if not word.startswith("--tick=")]) if "--tick=x" in words else None))
words_read_as("a_silence_that_is_no_number_is_none", lambda right, words: (
    right([word for word in words if not word.startswith("--silent=")]) if "--silent=x" in words else None))


@replaces(Process, "answer_or_fail")
def replies_that_nobody_reads_end_a_site_well(right, process):
    right()
    return 0


@replaces(Process, "write_reply")
def replies_that_nobody_reads_are_dropped(right, process, reply):
    with suppress(OSError):
        right(reply)
