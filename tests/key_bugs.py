"""Bugs in what a site makes of keys: which it takes, what it remembers by them, and what it answers to a repeat."""

import key_model
import site_model
from bug_kit import BUGS, replaces, sets
from desk_model import Refusal, Site
from key_model import Keys
from site_model import RunningSite

# ---- what is a key


def keys_are(name, is_key):
    """A bug that takes other keys, or refuses some."""
    right = key_model.is_key
    BUGS[name] = sets(site_model, "is_key", lambda text: is_key(right, text))


keys_are("a_key_of_65_bytes_is_taken", lambda right, text: right(text[:1]) and right(text[-64:]) and len(text) <= 65)
keys_are("a_key_of_any_length_is_taken", lambda right, text: text != b"" and all(byte in key_model.VISIBLE for byte in text))
keys_are("a_key_of_64_bytes_is_refused", lambda right, text: right(text) and len(text) < 64)
keys_are("a_key_has_32_bytes_at_most", lambda right, text: right(text) and len(text) <= 32)
keys_are("an_empty_key_is_taken", lambda right, text: right(text) or not text)
keys_are("a_key_of_one_byte_is_refused", lambda right, text: right(text) and len(text) > 1)
keys_are("a_key_may_have_a_delete_byte", lambda right, text: right(text.replace(b"\x7f", b"x")))
keys_are("a_key_may_have_a_tab", lambda right, text: right(text.replace(b"\t", b"x")))
keys_are("a_key_may_have_a_zero_byte", lambda right, text: right(text.replace(b"\0", b"x")))
keys_are("a_key_may_have_a_carriage_return", lambda right, text: right(text.replace(b"\r", b"x")))
keys_are("a_key_may_be_utf_8", lambda right, text: right(text) or (len(text) <= 64 and text.decode(errors="replace").isalpha()))
keys_are("a_key_may_have_any_high_byte", lambda right, text: right(bytes(0x7E if byte > 0x7F else byte for byte in text)))
keys_are("a_key_has_no_tilde", lambda right, text: right(text) and b"~" not in text)
keys_are("a_key_has_no_exclamation_mark", lambda right, text: right(text) and b"!" not in text)
keys_are("a_key_has_letters_digits_and_hyphens", lambda right, text: right(text) and text.replace(b"-", b"0").isalnum())
keys_are("a_key_has_no_quotation_mark", lambda right, text: right(text) and b'"' not in text)
keys_are("only_the_first_byte_of_a_key_is_looked_at", lambda right, text: right(text[:1]) and len(text) <= 64)
keys_are("the_last_byte_of_a_key_is_not_looked_at", lambda right, text: right(text) or (len(text) > 1 and right(text[:-1])))


def keys_meant(name, change):
    """A bug that takes keys for each other."""
    right = site_model.key_in

    def key_in(line):
        key, command = right(line)
        return None if key is None else change(key), command

    BUGS[name] = sets(site_model, "key_in", key_in)


keys_meant("keys_differ_in_no_capitals", lambda key: key.lower())
keys_meant("keys_differ_in_their_first_32_bytes", lambda key: key[:32])
keys_meant("keys_differ_in_their_last_32_bytes", lambda key: key[-32:])
keys_meant("keys_differ_in_their_first_63_bytes", lambda key: key[:63])
keys_meant("keys_that_are_numbers_are_compared_as_such", lambda key: b"%d" % int(key) if key.isdigit() else key)
keys_meant("keys_have_one_letter", lambda key: key[:1])
keys_meant("keys_are_compared_by_their_sums", lambda key: b"%d" % sum(key))
keys_meant("all_commands_share_a_key", lambda key: b"a")

# ---- how a line with a key is read


def lines_read_as(name, change):
    """A bug that reads lines with keys as others, or gives them a reply of its own."""
    right = RunningSite.reply

    def reply(site, line):
        return right(site, line) if (changed := change(line)) is line else (
            changed if changed is None or changed.startswith(b"error") else right(site, changed))

    BUGS[name] = sets(RunningSite, "reply", reply)


def words_behind(line):
    """The words behind `key`, None where the line begins with no such word."""
    name, *words = line.split(b" ")
    return words if name == b"key" and words else None


def of_words(name, change):
    """The same for lines that begin with `key`, by the words behind it."""
    lines_read_as(name, lambda line: line if (words := words_behind(line)) is None else change(line, words))


def without_first(line, words):
    return b" ".join([b"key", *words[1:]])


of_words("a_bad_key_is_a_bad_command", lambda line, words: line if key_model.is_key(words[0]) else b"error BadCommand")
of_words("an_empty_key_is_a_bad_command", lambda line, words: line if words[0] else b"error BadCommand")
of_words("a_bad_key_alone_is_a_bad_command", lambda line, words: line if words[1:] or key_model.is_key(words[0]) else b"error BadCommand")
of_words("a_bad_key_is_told_before_good_commands_alone", lambda line, words: (
    line if key_model.is_key(words[0]) or is_command(b" ".join(words[1:])) else b"error BadCommand"))
of_words("a_key_alone_is_a_bad_key", lambda line, words: line if words[1:] else b"error BadKey")
of_words("a_key_before_no_command_is_a_bad_key", lambda line, words: line if is_command(b" ".join(words[1:])) else b"error BadKey")
lines_read_as("the_word_key_alone_is_a_bad_key", lambda line: b"error BadKey" if line == b"key" else line)
of_words("several_spaces_may_stand_before_a_key", lambda line, words: without_first(line, words) if not words[0] and words[1:] else line)
of_words("several_spaces_may_stand_behind_a_key", lambda line, words: (
    b" ".join([b"key", words[0], *words[2:]]) if words[1:2] == [b""] and words[2:] else line))
of_words("keys_nest_and_the_first_counts", lambda line, words: (
    b" ".join([b"key", words[0], *words[3:]]) if words[1:2] == [b"key"] and key_model.is_key(words[0]) else line))
of_words("keys_nest_and_the_last_counts", lambda line, words: (
    b" ".join(words[1:]) if words[1:2] == [b"key"] and key_model.is_key(words[0]) else line))
of_words("a_second_key_is_a_bad_key", lambda line, words: b"error BadKey" if words[1:2] == [b"key"] else line)
lines_read_as("a_key_may_stand_behind_its_command", lambda line: (
    b" ".join([*line.split(b" ")[-2:], *line.split(b" ")[:-2]]) if line.split(b" ")[-2:-1] == [b"key"] else line))
lines_read_as("the_word_key_may_be_in_capitals", lambda line: b"key" + line[3:] if line[:4].lower() == b"key " else line)
lines_read_as("the_word_key_may_be_plural", lambda line: b"key" + line[4:] if line.startswith(b"keys ") else line)
lines_read_as("a_tab_may_stand_behind_the_word_key", lambda line: line.replace(b"key\t", b"key ", 1))
lines_read_as("an_equals_sign_may_stand_behind_the_word_key", lambda line: line.replace(b"key=", b"key ", 1))
lines_read_as("long_lines_with_a_bad_key_are_bad_keys", lambda line: b"error BadKey" if line.startswith((b"key  ", b"key xx")) and len(line) > 16_000 else line)
lines_read_as("a_key_counts_for_no_byte_of_a_line", lambda line: (
    b"key " + line[4:69] if line.startswith(b"key xx") and 16_384 <= len(line) < 16_384 + 4 else line))
lines_read_as("a_line_with_a_key_has_16383_bytes", lambda line: b"error BadCommand" if line.startswith(b"key") and len(line) >= 16_383 else line)


def is_command(line):
    try:
        site_model.command_in(line)
        return True
    except Refusal:
        return False


# ---- which commands may have one


def carried_out_under_a_key(name):
    """A bug that carries out a command which may have no key."""

    @replaces(RunningSite, "answer_under")
    def wrong(right, site, key, command, values):
        return site.answer(command, values) if command == name else right(key, command, values)

    BUGS[f"{name}_is_carried_out_under_a_key"] = BUGS.pop("wrong")


for each in ("outcome", "cancel", "tick", "status", "queue"):
    carried_out_under_a_key(each)


def not_under_a_key(name):
    """A bug that refuses a command which may have one."""

    @replaces(RunningSite, "answer_under")
    def wrong(right, site, key, command, values):
        if command == name:
            raise Refusal("BadKey")
        return right(key, command, values)

    BUGS[f"{name}_may_have_no_key"] = BUGS.pop("wrong")


for each in key_model.KEYED:
    not_under_a_key(each)

of_words("quit_under_a_key_ends_a_site", lambda line, words: b"quit" if words[1:] == [b"quit"] and key_model.is_key(words[0]) else line)
of_words("quit_under_a_key_is_a_bad_command", lambda line, words: b"error BadCommand" if words[1:] == [b"quit"] else line)


@replaces(RunningSite, "answer_under")
def what_may_have_no_key_is_a_bad_command(right, site, key, name, values):
    if name not in key_model.KEYED:
        raise Refusal("BadCommand")
    return right(key, name, values)


@replaces(RunningSite, "answer_under")
def a_key_refused_comes_before_a_bad_key(right, site, key, name, values):
    if site.desk.keys.most == 0:
        raise Refusal("KeyRefused")
    return right(key, name, values)


# ---- what is remembered


def remembers_so(name, wrong):
    """A bug in how a command under a key is answered. It is given the site, the key, the command and its values."""

    def plant(limits):
        right = RunningSite.answer_under
        RunningSite.answer_under = lambda site, *under: wrong(lambda: right(site, *under), site, *under)

    BUGS[name] = plant


def first_of_all(right, site, key, name, values):
    """Each command is carried out, and the last one is remembered."""
    forget(site.desk.keys, key)
    return right()


def forget(keys, key):
    for part in (keys.written, keys.waiting, keys.expired):
        part.pop(key, None)


remembers_so("a_repeat_is_carried_out_again", first_of_all)
remembers_so("keys_are_dropped", lambda right, site, key, name, values: (
    site.answer(name, values) if name in key_model.KEYED and site.desk.keys.most else right()))


def repeats_of(name, commands):
    """A bug that carries out repeats of these commands."""
    remembers_so(name, lambda right, site, key, command, values: (
        first_of_all if command in commands else lambda it, *_: it())(right, site, key, command, values))


repeats_of("a_repeat_of_issue_is_carried_out_again", ("issue",))
repeats_of("a_repeat_of_give_is_carried_out_again", ("give",))
repeats_of("a_repeat_of_spend_is_carried_out_again", ("spend",))
repeats_of("a_repeat_of_take_is_carried_out_again", ("take",))
repeats_of("a_repeat_of_close_is_carried_out_again", ("close",))


def another_is_noticed_by(name, deed_of):
    """A bug that compares a command with that of before by less, or by more."""
    right = key_model.deed_of
    BUGS[name] = sets(site_model, "deed_of", lambda name, values: deed_of(right, name, values))


another_is_noticed_by("another_command_under_a_key_gets_the_reply", lambda right, name, values: ("any",))
another_is_noticed_by("another_amount_under_a_key_gets_the_reply", lambda right, name, values: (
    right(name, (*values[:1], 0)) if name == "give" else right(name, [0 for _ in values])))
another_is_noticed_by("another_peer_under_a_key_gets_the_reply", lambda right, name, values: (
    right(name, (0, *values[1:])) if name == "give" else right(name, values)))
another_is_noticed_by("another_kind_under_a_key_gets_the_reply", lambda right, name, values: (
    ("any", values[0]) if name in ("issue", "spend", "take") else right(name, values)))
another_is_noticed_by("a_gift_is_told_from_no_other_command", lambda right, name, values: (
    ("any", values[-1]) if name in ("issue", "give") else right(name, values)))
another_is_noticed_by("a_close_is_told_from_no_other_command", lambda right, name, values: (
    right(name, values) if name != "close" else ("issue", 7)))
another_is_noticed_by("amounts_are_compared_in_32_bits", lambda right, name, values: (
    right(name, [value % 2**32 for value in values])))
another_is_noticed_by("amounts_are_compared_in_8_bits", lambda right, name, values: right(name, [value % 256 for value in values]))
another_is_noticed_by("amounts_are_compared_by_their_first_digit", lambda right, name, values: (
    right(name, [*values[:-1], int(str(values[-1])[0])]) if name == "issue" else right(name, values)))
another_is_noticed_by("peers_are_compared_by_their_first_digit", lambda right, name, values: (
    right(name, [int(str(values[0])[0]), *values[1:]]) if name == "give" else right(name, values)))
another_is_noticed_by("another_deadline_is_another_command", lambda right, name, values: (
    (*right(name, values), values[-1]) if name == "spend" else right(name, values)))
another_is_noticed_by("another_heir_is_another_command", lambda right, name, values: (*right(name, values), *values))
another_is_noticed_by("take_and_spend_are_told_apart", lambda right, name, values: (*right(name, values), name))


def refused_is_remembered(right, site, key, name, values):
    """By the refusal, which each repeat gets."""
    refused = vars(site).setdefault("refused", {})
    if key in refused:
        raise Refusal(refused[key])
    try:
        return right()
    except Refusal as refusal:
        if str(refusal) not in ("BadKey", "KeyReused", "KeyRefused"):
            refused[key] = str(refusal)
        raise


def refused_is_remembered_as_used(right, site, key, name, values):
    """Another command is refused from then on, and the same one is tried again."""
    used = vars(site).setdefault("used", {})
    deed = key_model.deed_of(name, values)
    if name in key_model.KEYED and site.desk.keys.most and used.setdefault(key, deed) != deed:
        raise Refusal("KeyReused")
    return right()


def key_reused_frees_the_key(right, site, key, name, values):
    try:
        return right()
    except Refusal as refusal:
        if str(refusal) == "KeyReused":
            forget(site.desk.keys, key)
        raise


def key_reused_takes_the_key(right, site, key, name, values):
    """It is refused, and from then on the key is that of the new command."""
    known = site.desk.keys.find(key)
    try:
        return right()
    except Refusal as refusal:
        if str(refusal) == "KeyReused":
            known.deed = key_model.deed_of(name, values)
        raise


def key_reused_does_the_command(right, site, key, name, values):
    try:
        return right()
    except Refusal as refusal:
        if str(refusal) == "KeyReused":
            site.answer(name, values)
        raise


def key_reused_is_carried_out(right, site, key, name, values):
    """Its key is remembered for it, in place of the other command."""
    known = site.desk.keys.find(key)
    if known and known.deed != key_model.deed_of(name, values):
        forget(site.desk.keys, key)
    return right()


remembers_so("a_refused_command_is_remembered", refused_is_remembered)
remembers_so("a_refused_command_uses_its_key", refused_is_remembered_as_used)
remembers_so("another_command_frees_a_key", key_reused_frees_the_key)
remembers_so("another_command_takes_a_key", key_reused_takes_the_key)
remembers_so("another_command_is_refused_and_done", key_reused_does_the_command)
remembers_so("another_command_is_carried_out", key_reused_is_carried_out)


def judged_before(name, judge):
    """A bug that judges a repeat as a first command."""

    def wrong(right, site, key, command, values):
        if site.desk.keys.find(key) is not None:
            judge(site.desk, command, values)
        return right()

    remembers_so(name, wrong)


def judge_amount(desk, command, values):
    if command in ("issue", "take") and values[0] == 0:
        raise Refusal("BadAmount")


judged_before("a_closed_site_answers_no_repeat", lambda desk, command, values: desk.require_open())
judged_before("a_repeat_is_judged_by_its_amount", judge_amount)
judged_before("a_repeat_needs_what_it_takes", lambda desk, command, values: (
    desk.take(values[0]) if command == "take" and values[0] > desk.held - desk.queued else None))
judged_before("a_repeat_of_a_gift_is_judged_by_its_peer", lambda desk, command, values: (
    desk.judge_named([values[0]]) if command == "give" else None))

# ---- spends that wait


@replaces(Keys, "note")
def the_key_of_a_queued_spend_is_forgotten(right, keys, key, deed, reply):
    if not reply.startswith("queued"):
        right(key, deed, reply)


@replaces(Keys, "end")
def the_key_of_a_served_spend_is_forgotten(right, keys, ticket, number):
    right(ticket, number)
    if number is not None:
        for key in [key for key, known in keys.written.items() if known.ticket == ticket]:
            del keys.written[key]


@replaces(Keys, "end")
def the_key_of_an_expired_spend_is_forgotten(right, keys, ticket, number):
    right(ticket, number)
    if number is None:
        keys.expired.clear()


@replaces(Keys, "end")
def a_key_says_queued_for_good(right, keys, ticket, number):
    pass


@replaces(Keys, "end")
def an_expired_spend_is_told_as_queued(right, keys, ticket, number):
    if number is not None:
        right(ticket, number)


@replaces(Keys, "end")
def a_served_spend_is_told_as_queued(right, keys, ticket, number):
    if number is None:
        right(ticket, number)


@replaces(Keys, "end")
def an_expired_spend_is_told_as_spent_by_number_0(right, keys, ticket, number):
    key = next((key for key, known in keys.waiting.items() if known.ticket == ticket), None)
    right(ticket, number)
    if key in keys.expired:
        keys.expired[key].reply = "spent 0"


@replaces(Keys, "end")
def a_served_spend_is_told_with_the_number_before(right, keys, ticket, number):
    right(ticket, number and number - 1)


@replaces(Site, "cancel")
def a_cancelled_spend_is_told_as_queued(right, site, ticket):
    end, site.keys.end = site.keys.end, lambda *_: None
    try:
        return right(ticket)
    finally:
        site.keys.end = end


@replaces(Site, "cancel")
def a_cancelled_spend_frees_its_key(right, site, ticket):
    for key in [key for key, known in site.keys.waiting.items() if known.ticket == ticket]:
        del site.keys.waiting[key]
    return right(ticket)


def tells_outcome_so(name, wrong):
    """A bug in what a repeat makes of the outcome of the spend that it tells: a function of the site and what is known."""

    def at_repeat(right, site, key, command, values):
        known, outcomes = site.desk.keys.find(key), dict(site.desk.outcomes)
        said = right()
        if known is not None:
            wrong(site.desk, key, known, outcomes)
        return said

    remembers_so(name, at_repeat)


def keep_outcome(desk, key, known, outcomes):
    desk.outcomes = outcomes


def keep_served(desk, key, known, outcomes):
    if outcomes.get(known.ticket) is not None:
        desk.outcomes = outcomes


def keep_expired(desk, key, known, outcomes):
    if outcomes.get(known.ticket, 0) is None:
        desk.outcomes = outcomes


def forget_told(desk, key, known, outcomes):
    if known.ticket in outcomes:
        forget(desk.keys, key)


tells_outcome_so("a_repeat_frees_no_slot", keep_outcome)
tells_outcome_so("a_repeat_of_what_was_served_frees_no_slot", keep_served)
tells_outcome_so("a_repeat_of_what_expired_frees_no_slot", keep_expired)
tells_outcome_so("a_key_tells_an_outcome_once", forget_told)
tells_outcome_so("a_repeat_frees_all_slots", lambda desk, key, known, outcomes: desk.outcomes.clear())


@replaces(Site, "status")
def an_outcome_that_is_told_frees_its_key(right, site, ticket):
    said = right(ticket)
    if said not in ("waiting", "unknown"):
        for part in (site.keys.written, site.keys.expired):
            for key in [key for key, known in part.items() if known.ticket == ticket]:
                del part[key]
    return said


@replaces(Site, "status")
def an_outcome_that_was_told_is_told_once_more_under_a_key(right, site, ticket):
    said = right(ticket)
    known = [it for part in (site.keys.written, site.keys.expired) for it in part.values() if it.ticket == ticket]
    return known[0].reply if said == "unknown" and known else said


def another_frees_a_slot(right, site, key, name, values):
    known = site.desk.keys.find(key)
    if known is not None:
        site.desk.outcomes.pop(known.ticket, None)
    return right()


remembers_so("another_command_frees_the_slot_of_a_key", another_frees_a_slot)


def waits_again(right, site, key, name, values):
    """A repeat of a spend that waits takes a slot of its own."""
    if site.desk.keys.find(key) is not None and key in site.desk.keys.waiting and name == "spend":
        return site.answer(name, values)
    return right()


def puts_off(right, site, key, name, values):
    known = site.desk.keys.find(key)
    for request in site.desk.waiting:
        if known and name == "spend" and request.ticket == known.ticket and known.deed == key_model.deed_of(name, values):
            request.deadline = values[1]
    return right()


def takes_at_once(right, site, key, name, values):
    """What waits under a key is served by its repeat, if it can be."""
    desk = site.desk
    if name in ("spend", "take") and key in desk.keys.waiting and desk.waiting[0].ticket == desk.keys.waiting[key].ticket:
        desk.serve()
    return right()


remembers_so("a_repeat_of_a_spend_that_waits_waits_too", waits_again)
remembers_so("a_repeat_puts_off_a_deadline", puts_off)
remembers_so("a_repeat_serves_what_waits", takes_at_once)
remembers_so("a_spend_under_a_key_never_waits", lambda right, site, key, name, values: (
    site.answer("take", values[:1]) if name == "spend" and site.desk.keys.find(key) is None and values[0] > site.desk.held else right()))

# ---- how many are remembered


def puts_so(name, put):
    """A bug in which keys are forgotten for a new one."""

    def plant(limits):
        right = key_model.put_last
        key_model.put_last = lambda part, key, known, most: put(right, part, key, known, most)

    BUGS[name] = plant


def forget_newest(right, part, key, known, most):
    if len(part) >= most:
        part.popitem()
    right(part, key, known, most)


def forget_none(right, part, key, known, most):
    part[key] = known


def forget_all(right, part, key, known, most):
    if len(part) >= most:
        part.clear()
    part[key] = known


def forget_first_by_name(right, part, key, known, most):
    part[key] = known
    while len(part) > most:
        del part[min(part)]


puts_so("the_newest_key_is_forgotten", forget_newest)
puts_so("no_key_is_forgotten", forget_none)
puts_so("all_keys_are_forgotten_together", forget_all)
puts_so("the_first_key_by_name_is_forgotten", forget_first_by_name)
puts_so("a_new_key_is_not_remembered_where_there_is_no_room", lambda right, part, key, known, most: (
    right(part, key, known, most) if len(part) < most else None))
puts_so("one_key_more_is_remembered", lambda right, part, key, known, most: right(part, key, known, most + 1))
puts_so("one_key_less_is_remembered", lambda right, part, key, known, most: right(part, key, known, most - 1))
puts_so("255_keys_are_remembered_at_most", lambda right, part, key, known, most: right(part, key, known, min(most, 255)))
BUGS["9999_keys_of_expired_spends_are_remembered"] = sets(key_model, "MOST_EXPIRED", 9_999)
BUGS["10001_keys_of_expired_spends_are_remembered"] = sets(key_model, "MOST_EXPIRED", 10_001)
BUGS["32_keys_of_expired_spends_are_remembered"] = sets(key_model, "MOST_EXPIRED", 32)
BUGS["keys_of_expired_spends_are_never_forgotten"] = sets(key_model, "MOST_EXPIRED", 10**9)


@replaces(Keys, "end")
def expired_keys_count_as_written_ones(right, keys, ticket, number):
    right(ticket, number)
    while keys.expired and len(keys.expired) + len(keys.written) > keys.most:
        del keys.expired[next(iter(keys.expired))]


@replaces(Keys, "note")
def a_key_that_waits_pushes_one_out(right, keys, key, deed, reply):
    right(key, deed, reply)
    while keys.written and len(keys.waiting) + len(keys.written) > keys.most:
        del keys.written[next(iter(keys.written))]


@replaces(Keys, "end")
def a_served_key_is_as_old_as_its_spend(right, keys, ticket, number):
    """It is forgotten first."""
    before = dict(keys.written)
    right(ticket, number)
    if number is not None and len(keys.written) >= len(before) and keys.written != before:
        newest = list(keys.written.items())[-1]
        keys.written.clear()
        keys.written.update([newest, *list(before.items())[-(keys.most - 1) :]] if keys.most > 1 else [newest])


def repeat_is_newest(right, site, key, name, values):
    said = right()
    if key in site.desk.keys.written:
        site.desk.keys.written[key] = site.desk.keys.written.pop(key)
    return said


def no_keys_is_no_limit(right, site, key, name, values):
    if site.desk.keys.most == 0:
        site.desk.keys.most = 10**6
    return right()


remembers_so("a_repeat_makes_a_key_the_newest", repeat_is_newest)
remembers_so("to_remember_no_keys_is_to_remember_all", no_keys_is_no_limit)
remembers_so("without_keys_a_command_is_carried_out", lambda right, site, key, name, values: (
    site.answer(name, values) if site.desk.keys.most == 0 and name in key_model.KEYED else right()))
remembers_so("without_keys_each_is_a_bad_key", lambda right, site, key, name, values: refuses("BadKey") if site.desk.keys.most == 0 else right())


def refuses(name):
    raise Refusal(name)


@replaces(RunningSite, "reply")
def without_keys_a_bad_command_under_one_is_refused_for_that(right, site, line):
    return b"error KeyRefused" if site.desk.keys.most == 0 and line.startswith(b"key ") else right(line)


# ---- the status object


def status_with(name, change):
    """A bug in what a status object says of keys. It is given the object and the site."""

    def plant(limits):
        right = RunningSite.status

        def status(site):
            values = change(site_model.json.loads(right(site)), site.desk.keys)
            return site_model.json.dumps(values, separators=(",", ":"))

        RunningSite.status = status

    BUGS[name] = plant


def counted(values, count):
    """With so many keys, where they stand."""
    values.pop("keys", None)
    return dict(sorted([*values.items(), ("keys", count)])) if count else values


status_with("the_status_says_nothing_of_keys", lambda values, keys: counted(values, 0))
status_with("the_status_says_that_there_is_no_key", lambda values, keys: dict(sorted([*{"keys": 0, **values}.items()])))
status_with("the_status_counts_keys_that_wait", lambda values, keys: counted(values, len(keys.written) + len(keys.waiting)))
status_with("the_status_counts_expired_keys", lambda values, keys: counted(values, len(keys.written) + len(keys.expired)))
status_with("the_status_counts_no_key_that_waited", lambda values, keys: (
    counted(values, sum(known.ticket is None for known in keys.written.values()))))
status_with("the_keys_stand_last_in_a_status", lambda values, keys: {**{k: v for k, v in values.items() if k != "keys"}, **(
    {"keys": values["keys"]} if "keys" in values else {})})
status_with("the_keys_stand_behind_the_number", lambda values, keys: dict(sorted(
    values.items(), key=lambda item: "number!" if item[0] == "keys" else item[0])))
status_with("the_keys_are_told_as_a_text", lambda values, keys: {k: str(v) if k == "keys" else v for k, v in values.items()})


# ---- what is told


def replies_told(name, change):
    """A bug in the reply to a repeat, given what is known."""

    def wrong(right, site, key, command, values):
        known = site.desk.keys.find(key)
        said = right()
        return said if known is None else change(said, known)

    remembers_so(name, wrong)


replies_told("a_repeat_is_told_as_a_number", lambda said, known: said.replace("spent", "number"))
replies_told("a_repeat_is_told_as_a_repeat", lambda said, known: f"{said} again")
replies_told("a_repeat_of_what_waits_is_told_as_waiting", lambda said, known: "waiting" if said.startswith("queued") else said)
replies_told("a_repeat_of_what_expired_is_refused", lambda said, known: "error Expired" if said == "expired" else said)
replies_told("a_repeat_of_what_was_served_is_told_with_its_ticket", lambda said, known: (
    f"queued {known.ticket}" if known.ticket and said.startswith("spent") else said))


@replaces(RunningSite, "answer_under")
def keys_are_written_into_entries(right, site, key, name, values):
    """As a peer sees by the number of the next entry."""
    before = len(site.desk.log)
    said = right(key, name, values)
    if len(site.desk.log) > before and not site.desk.is_closed and name == "give":
        site.desk.append(site.desk.log[-1].moves[0])
    return said
