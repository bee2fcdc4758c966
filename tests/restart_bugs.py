"""Bugs in a site that keeps a journal: in what it writes, and when, and in what it makes of that when it starts again."""

import fcntl
import os
import sys
import threading
import time

from bug_kit import BUGS, replaces
from desk_model import Buffer, Request, Site, end
from key_model import USUAL_KEYS, Known
from line_model import Ask, Entry, Move
from model_journal import POINT, Journal, Refused
from model_process import Process
from site_model import RunningSite

# ---- what is told before it is durable

# What a test can see of that is that records are missing which a later write would have brought: a kill loses no byte that
# was written, synced or not.


def written_later(name, is_late):
    """Records of which this is true are written with the next batch."""
    right = Journal.new_records

    def new_records(journal, desk):
        found = right(journal, desk)
        late, journal.late = getattr(journal, "late", []), [record for record in found if is_late(journal, record)]
        now = [record for record in found if not is_late(journal, record)]
        if now or journal.late:
            return late + now
        journal.late = late
        return []

    def plant(limits):
        Journal.new_records = new_records

    BUGS[name] = plant


def has(record, letter):
    """Whether a record is an entry with a move of this letter, if one is given."""
    return isinstance(record, Entry) and any(letter in ("", move.letter) for move in record.moves)


def is_own(journal, record, letter=""):
    return has(record, letter) and record.origin == journal.number


def is_applied(journal, record, letter=""):
    return has(record, letter) and record.origin != journal.number


def is_ticket(journal, record):
    return str(record).startswith("T ")


def is_key(journal, record):
    return str(record).startswith("X ")


written_later("all_is_told_before_it_is_written", lambda journal, record: True)
written_later("entries_are_told_before_they_are_written", is_own)
written_later("grants_are_told_before_they_are_written", lambda journal, record: is_own(journal, record, "G"))
written_later("what_was_applied_is_told_before_it_is_written", is_applied)
written_later("asks_are_sent_before_they_are_written", lambda journal, record: isinstance(record, Ask))
written_later("tickets_are_told_before_they_are_written", is_ticket)
written_later("closing_is_told_before_it_is_written", lambda journal, record: is_own(journal, record, "K"))
written_later("keys_are_told_before_they_are_written", is_key)


@replaces(Journal, "append")
def a_key_is_written_behind_the_batch_of_its_entry(right, journal, records):
    """As a batch of its own."""
    keys = [record for record in records if is_key(journal, record)]
    right([record for record in records if record not in keys])
    if keys:
        time.sleep(0.01)
        right(keys)


@replaces(Journal, "append")
def a_key_is_written_before_the_batch_of_its_entry(right, journal, records):
    """So that a site which was killed in between refuses its journal."""
    keys = [record for record in records if is_key(journal, record)]
    if keys:
        right(keys)
        time.sleep(0.01)
    right([record for record in records if record not in keys])


@replaces(Process, "tell")
def what_peers_brought_is_written_by_commands_alone(right, process):
    if threading.current_thread() is threading.main_thread():
        right()
    else:
        process.lock.notify_all()


@replaces(Process, "tell")
def commands_are_written_by_peers_and_ticks_alone(right, process):
    ticked, process.ticked = getattr(process, "ticked", 0), process.model.desk.now
    if threading.current_thread() is not threading.main_thread() or process.ticked > ticked:
        right()
    else:
        process.lock.notify_all()


@replaces(Process, "tell")
def a_journal_is_written_every_20_milliseconds(right, process):
    process.lock.notify_all()
    if time.monotonic() - getattr(process, "kept_at", 0) > 0.02:
        process.kept_at = time.monotonic()
        right()


@replaces(Journal, "keep")
def a_journal_is_written_at_a_good_end_alone(right, journal, desk):
    pass


# ---- what is not written


def never_written(name, is_left_out):
    right = Journal.new_records

    def plant(limits):
        Journal.new_records = lambda journal, desk: [it for it in right(journal, desk) if not is_left_out(journal, it)]

    BUGS[name] = plant


never_written("tickets_are_not_kept", is_ticket)
never_written("asks_are_not_kept", lambda journal, record: isinstance(record, Ask))
never_written("second_asks_are_not_kept", lambda journal, record: isinstance(record, Ask) and record.number > 1)
never_written("what_was_applied_is_not_kept", is_applied)
never_written("entries_of_site_3_are_not_kept", lambda journal, record: has(record, "") and record.origin == 3)
never_written("spends_are_not_kept", lambda journal, record: is_own(journal, record, "S"))
never_written("grants_are_not_kept", lambda journal, record: is_own(journal, record, "G"))
never_written("gifts_are_not_kept", lambda journal, record: is_own(journal, record, "R"))
never_written("closing_entries_are_not_kept", lambda journal, record: is_own(journal, record, "K"))
never_written("closing_entries_of_others_are_not_kept", lambda journal, record: is_applied(journal, record, "K"))
never_written("what_is_taken_back_is_not_kept", lambda journal, record: is_own(journal, record, "V"))
never_written("keys_are_not_kept", is_key)
never_written("long_keys_are_not_kept", lambda journal, record: is_key(journal, record) and len(str(record).split(" ")[1]) > 40)
never_written("keys_with_an_equals_sign_are_not_kept", lambda journal, record: str(record).startswith("X ="))


# ---- what is read


def reads(name, change):
    """The records that are read at the start are changed so."""
    right = Journal.read

    def plant(limits):
        Journal.read = lambda journal: change(journal, right(journal))

    BUGS[name] = plant


def is_of(journal, record, own):
    return record.startswith("E ") and record.startswith(f"E {journal.number} ") == own


def without_last(records, is_it):
    places = [place for place, record in enumerate(records) if is_it(record)]
    return [record for place, record in enumerate(records) if place not in places[-1:]]


@replaces(Journal, "read")
def the_last_batch_is_skipped(right, journal):
    lines = journal.file.read().decode().split("\n")[:-1]
    ends = [place for place, line in enumerate(lines) if line == POINT]
    if len(ends) > 1:
        journal.file.truncate(sum(len(line) + 1 for line in lines[: ends[-2] + 1]))
    journal.file.seek(0)
    return right()


reads("the_first_record_is_skipped", lambda journal, records: records[1:])
reads("the_last_record_is_skipped", lambda journal, records: records[:-1])
reads("a_site_always_starts_empty", lambda journal, records: [])
reads("the_last_own_entry_is_skipped", lambda journal, records: without_last(records, lambda it: is_of(journal, it, True)))
reads("the_last_entry_that_was_applied_is_skipped", lambda journal, records: (
    without_last(records, lambda it: is_of(journal, it, False))))
reads("only_16_own_entries_are_read", lambda journal, records: [
    record for place, record in enumerate(records)
    if not is_of(journal, record, True) or sum(is_of(journal, it, True) for it in records[:place]) < 16])  # fmt: skip
reads("own_entries_come_in_another_order", lambda journal, records: sorted(records, key=lambda it: (it[:1], it)))
reads("the_last_key_is_skipped", lambda journal, records: without_last(records, lambda it: it.startswith("X ")))
reads("keys_are_read_from_the_last_one", lambda journal, records: (
    [it for it in records if not is_key(journal, it)] + [it for it in records[::-1] if is_key(journal, it)]))
reads("only_100_keys_are_read", lambda journal, records: (
    [it for it in records if not is_key(journal, it)] + [it for it in records if is_key(journal, it)][-100:]))
reads("a_key_is_read_without_its_capitals", lambda journal, records: [it.lower().replace("x ", "X ", 1) if is_key(journal, it) else it for it in records])
reads("a_key_is_of_the_first_entry", lambda journal, records: [f"{it.rpartition(' ')[0]} 1" if is_key(journal, it) else it for it in records])


# ---- what is made of it


def restores(name, change):
    """The desk that a site starts with is changed so."""
    right = Journal.restore

    def restore(journal, desk):
        right(journal, desk)
        if journal.records:
            change(desk)
            journal.note(desk)

    def plant(limits):
        Journal.restore = restore

    BUGS[name] = plant


def of_peers(change):
    def all_peers(desk):
        for other, peer in desk.peers.items():
            change(desk, other, peer)

    return all_peers


class Anything:
    """What is equal to each command."""

    def __ne__(self, other):
        return False


@replaces(Journal, "restore")
def all_keys_of_before_are_remembered(right, journal, desk):
    most, desk.keys.most = desk.keys.most, USUAL_KEYS
    right(desk)
    desk.keys.most = most


@replaces(Journal, "restore")
def no_limit_of_before_is_kept(right, journal, desk):
    """A site with a journal remembers as many keys as any."""
    desk.keys.most = USUAL_KEYS
    right(desk)


@replaces(Journal, "new_records")
def keys_of_what_ticks_serve_are_not_kept(right, journal, desk):
    served = {key.decode() for key, known in desk.keys.written.items() if known.ticket is not None}
    return [record for record in right(desk) if not is_key(journal, record) or str(record).split(" ")[1] not in served]


def waits_are_kept(name, part, reply):
    """A bug that keeps keys of spends that wait, and remembers them after a restart."""
    new_records, restore = Journal.new_records, Journal.restore

    def with_waits(journal, desk):
        kept = vars(journal).setdefault("waits", set())
        new = [f"Y {key.decode()} {known.deed[1]}" for key, known in desk.keys.waiting.items() if key not in kept]
        kept.update(desk.keys.waiting)
        return new_records(journal, desk) + new

    def restore_waits(journal, desk):
        records = journal.records
        journal.records = [record for record in records if not record.startswith("Y ")]
        restore(journal, desk)
        for _, key, amount in (record.split(" ") for record in records if record.startswith("Y ")):
            if desk.keys.find(key.encode()) is None:
                getattr(desk.keys, part)[key.encode()] = Known(("spend", int(amount)), reply)

    def plant(limits):
        Journal.new_records, Journal.restore = with_waits, restore_waits

    BUGS[name] = plant


waits_are_kept("the_key_of_a_spend_that_waited_says_queued", "waiting", "queued 1")
waits_are_kept("the_key_of_a_spend_that_waited_says_expired", "expired", "expired")


def asks_again(peer, number, amount=0):
    """The ask that is outstanding has another number and another amount."""
    if it := peer.outstanding:
        peer.outstanding = Ask(it.asker, it.asked, it.number + number, it.amount + amount)
        peer.asks = it.number + number


def last_ask(desk, other, peer):
    """All asks count as outstanding, whether granted or not."""
    peer.outstanding = Ask(desk.number, other, peer.asks, 1) if peer.asks else None


restores("ask_numbers_begin_at_1_again", of_peers(lambda desk, other, peer: vars(peer).update(asks=0, outstanding=None)))
restores("the_last_ask_number_is_used_again", of_peers(lambda desk, other, peer: (
    vars(peer).update(asks=max(0, peer.asks - 1), outstanding=None))))
restores("an_outstanding_ask_is_forgotten", of_peers(lambda desk, other, peer: vars(peer).update(outstanding=None)))
restores("an_outstanding_ask_gets_the_next_number", of_peers(lambda desk, other, peer: asks_again(peer, 1)))
restores("an_outstanding_ask_gets_another_amount", of_peers(lambda desk, other, peer: asks_again(peer, 0, 1)))
restores("an_ask_that_was_granted_is_outstanding_again", of_peers(last_ask))
restores("only_the_first_ask_stays_outstanding", lambda desk: [
    vars(peer).update(outstanding=None) for peer in list(desk.peers.values())[1:]])
restores("asks_are_granted_again", of_peers(lambda desk, other, peer: vars(peer).update(answered=0, was_granted=False)))
restores("the_last_ask_is_granted_again", of_peers(lambda desk, other, peer: (
    vars(peer).update(answered=max(0, peer.answered - 1), was_granted=False))))
restores("an_ask_that_was_granted_is_denied", of_peers(lambda desk, other, peer: vars(peer).update(was_granted=False)))
restores("asks_that_were_granted_are_counted", of_peers(lambda desk, other, peer: vars(peer).update(
    answered=sum(move.letter == "G" and move.peer == other for entry in desk.log for move in entry.moves))))
restores("tickets_begin_at_1_again", lambda desk: vars(desk).update(tickets=0))
restores("the_last_ticket_is_given_out_again", lambda desk: vars(desk).update(tickets=max(0, desk.tickets - 1)))
restores("an_old_ticket_has_expired", lambda desk: desk.outcomes.update({desk.tickets: None} if desk.tickets else {}))
restores("an_old_ticket_was_spent", lambda desk: desk.outcomes.update({desk.tickets: 1} if desk.tickets else {}))
restores("an_old_spend_waits", lambda desk: (
    desk.waiting.extend([Request(desk.tickets, 5, 2**64 - 1)] if desk.tickets else [])))
restores("a_close_is_forgotten_with_its_key", lambda desk: [
    desk.keys.written.pop(key) for key, known in list(desk.keys.written.items()) if known.deed == ("close",)])
restores("what_was_spent_is_told_as_a_number", lambda desk: [
    vars(known).update(reply=f"number {known.number}") for known in desk.keys.written.values()])
restores("gifts_of_before_are_told_from_no_issue", lambda desk: [
    vars(known).update(deed=("issue", known.deed[2])) for known in desk.keys.written.values() if known.deed[0] == "give"])
restores("keys_of_before_answer_any_command", lambda desk: [vars(known).update(deed=Anything()) for known in desk.keys.written.values()])
restores("keys_of_before_answer_no_command", lambda desk: [vars(known).update(deed=("none",)) for known in desk.keys.written.values()])
restores("a_peers_log_is_asked_for_from_its_beginning", of_peers(lambda desk, other, peer: (
    vars(peer).update(buffer=Buffer()))))
restores("what_was_applied_is_forgotten", of_peers(lambda desk, other, peer: (
    vars(peer).update(applied=[], buffer=Buffer()))))
restores("a_number_is_left_out", lambda desk: vars(desk).update(skips=True))
restores("a_closed_site_is_open_again", lambda desk: desk.is_closed and desk.log.pop())
restores("a_closed_site_issues_again", lambda desk: vars(desk).update(reopened=True))
restores("a_closed_site_applies_again", lambda desk: vars(desk).update(applies=True))
restores("an_entry_tells_of_the_restart", lambda desk: desk.is_closed or desk.append(Move("I", (1,))))
restores("what_is_held_is_issued_again", lambda desk: (
    desk.held > 0 and not desk.is_closed and desk.append(Move("I", (desk.held,)))))
restores("a_tick_sends_nothing_after_a_restart", of_peers(lambda desk, other, peer: vars(peer).update(silent=True)))

# Those above that need more than a change of the desk.


def with_rest(name, owner, method, wrong):
    """A bug that also has a method another way."""
    first, original = BUGS[name], owner.__dict__[method]

    def plant(limits):
        first(limits)
        if isinstance(original, property):
            setattr(owner, method, property(lambda self: wrong(original.fget, self)))
        else:
            setattr(owner, method, lambda self, *values: wrong(original, self, *values))

    BUGS[name] = plant


def append_beyond(right, desk, *moves):
    if not vars(desk).pop("skips", False):
        return right(desk, *moves)
    desk.log.append(Entry(desk.number, end(desk.log) + 1, moves))
    return end(desk.log)


def take_entries_when_closed(right, site, peer, entries):
    right(site, peer, entries)
    known = site.desk.peers[peer]
    put = known.buffer.put
    if vars(site.desk).get("applies"):
        known.applied += put[len(known.applied) :]


with_rest("a_number_is_left_out", Site, "append", append_beyond)
with_rest("a_closed_site_issues_again", Site, "is_closed", lambda right, desk: right(desk) and not vars(desk).get("reopened"))
with_rest("a_closed_site_applies_again", RunningSite, "take_entries", take_entries_when_closed)
with_rest("a_tick_sends_nothing_after_a_restart", RunningSite, "send_due", lambda right, site, peer: (
    0 if vars(site.desk.peers[peer]).get("silent") else right(site, peer)))


# ---- whose file it is, and who has it


@replaces(Journal, "is_own")
def the_journal_of_any_site_is_taken(right, journal, opening):
    return opening.split(" ")[2:] == journal.opening.split(" ")[2:]


@replaces(Journal, "is_own")
def the_journal_of_any_system_is_taken(right, journal, opening):
    return opening.split(" ")[:2] == journal.opening.split(" ")[:2]


@replaces(Journal, "is_own")
def another_journal_is_made_anew(right, journal, opening):
    if not right(opening):
        journal.file.seek(0)
        journal.file.truncate()
        journal.file.write(f"{journal.opening}\n{POINT}\n".encode())
    return True


@replaces(Journal, "is_own")
def a_refused_journal_is_written_to(right, journal, opening):
    if not right(opening):
        journal.append([])
    return right(opening)


@replaces(Journal, "__init__")
def a_refusal_has_status_0(right, journal, *values):
    try:
        right(*values)
    except Refused as refused:
        print(f"rights-site: journal: {refused}", file=sys.stderr, flush=True)
        os._exit(0)


@replaces(Journal, "__init__")
def a_refusal_says_nothing(right, journal, *values):
    try:
        right(*values)
    except Refused:
        sys.exit(1)


@replaces(Journal, "__init__")
def a_refusal_has_many_lines(right, journal, *values):
    try:
        right(*values)
    except Refused as refused:
        raise Refused(f"{refused}\nTraceback (most recent call last):\n...") from None


@replaces(Journal, "lock")
def a_second_process_is_let_in(right, journal):
    pass


@replaces(Journal, "lock")
def a_second_process_waits_for_the_first(right, journal):
    fcntl.flock(journal.file, fcntl.LOCK_EX)


@replaces(Journal, "lock")
def a_site_leaves_its_lock_behind(right, journal):
    path = os.readlink(f"/proc/self/fd/{journal.file.fileno()}") + ".lock"
    try:
        os.close(os.open(path, os.O_CREAT | os.O_EXCL))
    except FileExistsError:
        raise Refused("another process has it open") from None


# ---- starts that are killed


def takes_long_to_begin(name, begun):
    """A new file has this content for a while, and a file that has it is refused."""
    right = Journal.read

    def read(journal):
        content = journal.file.read()
        if not content:
            journal.file.write(begun)
            time.sleep(0.3)
            journal.file.truncate(0)
        elif content == begun:
            raise Refused("it is no journal")
        journal.file.seek(0)
        return right(journal)

    def plant(limits):
        Journal.read = read

    BUGS[name] = plant


takes_long_to_begin("a_first_record_that_is_cut_short_is_refused", b"site ")


@replaces(Journal, "lock")
def an_empty_file_is_refused(right, journal):
    right()
    if getattr(journal, "was_there", False) and os.fstat(journal.file.fileno()).st_size == 0:
        raise Refused("it is no journal")
    time.sleep(0.3)


def notes_whether_it_was_there():
    first, right = BUGS["an_empty_file_is_refused"], Journal.open

    def open_file(journal, path):
        journal.was_there = os.path.exists(path)
        return right(journal, path)

    def plant(limits):
        first(limits)
        Journal.open = open_file

    BUGS["an_empty_file_is_refused"] = plant


notes_whether_it_was_there()


@replaces(Journal, "restore")
def a_journal_is_written_anew_at_each_start(right, journal, desk):
    """In place. What was there is lost if that is killed."""
    right(desk)
    journal.file.seek(0)
    journal.file.truncate()
    time.sleep(0.1)
    journal.append([journal.opening, *journal.records])
