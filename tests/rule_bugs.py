"""Bugs in the finer points of the rules: limits off by one, effects in another order, what is kept too long or too short."""

import desk_model
import site_model
from bug_kit import BUGS, closes_with, replaces, sets
from desk_model import Buffer, Peer, Refusal, Site, total
from line_model import GREATEST, Answer, Ask, Beat, Denial, Entry, Move, Query
from site_model import Outbox, RunningSite

BUGS["an_outbox_of_255"] = sets(site_model, "ROOM", 255)
BUGS["an_outbox_of_257"] = sets(site_model, "ROOM", 257)
BUGS["amounts_below_10_9"] = sets(desk_model, "AMOUNTS", range(1, GREATEST))
BUGS["amounts_to_10_9_and_1"] = sets(desk_model, "AMOUNTS", range(1, GREATEST + 2))


# ---- commands and their refusals


@replaces(Site, "spend")
def a_full_queue_comes_before_bad_amounts(right, site, amount, deadline):
    if not site.is_closed and len(site.waiting) + len(site.outcomes) >= 32 and amount == 0:
        raise Refusal("QueueFull")
    return right(amount, deadline)


@replaces(Site, "spend")
def a_refused_spend_uses_a_ticket(right, site, amount, deadline):
    try:
        return right(amount, deadline)
    except Refusal:
        site.tickets += 1
        raise


@replaces(Site, "spend")
def a_spend_that_is_served_at_once_uses_a_ticket(right, site, amount, deadline):
    said = right(amount, deadline)
    site.tickets += said.startswith("spent")
    return said


@replaces(Site, "spend")
def a_spend_whose_deadline_is_over_is_refused(right, site, amount, deadline):
    said = right(amount, deadline)
    if said.startswith("queued") and deadline < site.now:
        raise Refusal("TimeWentBack")
    return said


@replaces(Site, "spend")
def unread_outcomes_hold_up_spends(right, site, amount, deadline):
    if site.outcomes and not site.waiting and site.held >= amount >= 1 and not site.is_closed:
        site.tickets += 1
        site.waiting.append(desk_model.Request(site.tickets, amount, deadline))
        return f"queued {site.tickets}"
    return right(amount, deadline)


@replaces(Site, "spend")
def outcomes_take_no_slots(right, site, amount, deadline):
    outcomes, site.outcomes = site.outcomes, {}
    try:
        return right(amount, deadline)
    finally:
        site.outcomes = outcomes


@replaces(Site, "spend")
def the_oldest_outcome_makes_room(right, site, amount, deadline):
    if len(site.waiting) + len(site.outcomes) >= 32 and site.outcomes:
        site.outcomes.pop(min(site.outcomes))
    return right(amount, deadline)


@replaces(Site, "give")
def gifts_leave_what_waits(right, site, other, amount):
    if not site.is_closed and other in site.peers and site.queued and 1 <= amount <= site.held and amount > site.held - site.queued:
        raise Refusal("Short")
    return right(other, amount)


@replaces(Site, "give")
def the_last_right_is_not_given(right, site, other, amount):
    if amount == site.held and other in site.peers and not site.is_closed and not site.knows_closed(other):
        raise Refusal("Short")
    return right(other, amount)


@replaces(Site, "give")
def a_gift_without_a_site_is_a_bad_amount_last(right, site, other, amount):
    if not site.is_closed and amount == 0 and other not in site.peers:
        raise Refusal("NoSuchSite" if other != site.number else "SameSite")
    return right(other, amount)


@replaces(Site, "legacy")
def held_too_much_comes_first(right, site, heir):
    if site.held > GREATEST:
        raise Refusal("HeldTooMuch")
    return right(heir)


@replaces(Site, "legacy")
def an_heir_is_judged_where_something_is_held(right, site, heir):
    return right(heir) if site.held else []


@replaces(Site, "legacy")
def exactly_10_9_is_held_too_much(right, site, heir):
    moves = right(heir)
    if site.held == GREATEST:
        raise Refusal("HeldTooMuch")
    return moves


@replaces(Site, "close")
def held_too_much_also_without_an_heir(right, site, heir=None):
    if not site.is_closed and heir is None and not site.waiting and site.held > GREATEST:
        raise Refusal("HeldTooMuch")
    return right(heir)


@replaces(Site, "close")
def a_close_with_an_heir_is_two_entries(right, site, heir=None):
    said = right(heir)
    last = site.log.pop()
    for move in last.moves:
        site.append(move)
    return said


@replaces(Site, "close")
def unread_outcomes_keep_a_site_open(right, site, heir=None):
    if site.outcomes and not site.is_closed:
        raise Refusal("QueueBusy")
    return right(heir)


@replaces(Site, "close")
def a_close_forgets_outcomes(right, site, heir=None):
    said = right(heir)
    site.outcomes.clear()
    return said


@replaces(Site, "expire")
def a_closed_site_has_no_time(right, site, time):
    if site.is_closed:
        site.now = min(site.now, time)
    return right(time)


@replaces(Site, "expire")
def a_queue_that_is_empty_notes_no_time(right, site, time):
    was = site.now
    said = right(time)
    if said == "expired 0":
        site.now = was
    return said


@replaces(Site, "status")
def an_outcome_that_is_asked_for_early_is_lost(right, site, ticket):
    said = right(ticket)
    site.asked_early = getattr(site, "asked_early", set()) | ({ticket} if said == "waiting" else set())
    return "unknown" if said.startswith("spent") and ticket in site.asked_early and ticket == 3 else said


@replaces(RunningSite, "tick")
def a_tick_serves_before_it_expires(right, site, time):
    if time >= site.desk.now:
        while site.desk.serve() != "nothing":
            pass
    return right(time)


@replaces(RunningSite, "tick")
def a_tick_of_the_same_time_sends_nothing(right, site, time):
    if time == site.desk.now and time > 0:
        return f"tick {site.desk.expire(time)} served 0 asks 0 sent 0"
    return right(time)


@replaces(RunningSite, "tick")
def the_first_tick_is_later_than_0(right, site, time):
    if time == 0:
        raise Refusal("TimeWentBack")
    return right(time)


@replaces(RunningSite, "tick")
def a_closed_site_sends_no_beats(right, site, time):
    said = right(time)
    if not site.desk.is_closed:
        return said
    for outbox in site.outboxes.values():
        outbox.lines = [line for line in outbox.lines if not line.startswith(b"B ")]
    head, sent = said.rsplit(" ", 1)
    return f"{head} {int(sent) - len(site.peers)}"


# ---- asks


@replaces(Site, "plan")
def what_is_taken_off_is_what_is_asked_for(right, site):
    known = Site.known
    Site.known = lambda self, other: min(GREATEST, known(self, other))
    try:
        return right()
    finally:
        Site.known = known


@replaces(Site, "plan")
def asks_are_numbered_over_all_peers(right, site):
    said = right()
    for peer in site.peers.values():
        if peer.outstanding and not hasattr(peer, "numbered"):
            peer.numbered = site.all_asks = getattr(site, "all_asks", 0) + 1
            ask = peer.outstanding
            peer.outstanding = Ask(ask.asker, ask.asked, peer.numbered, ask.amount)
    return said


@replaces(Site, "plan")
def an_ask_that_is_needed_no_more_is_dropped(right, site):
    if not site.waiting:
        for peer in site.peers.values():
            peer.outstanding = None
    return right()


@replaces(Site, "plan")
def an_outstanding_ask_grows_with_the_need(right, site):
    need = site.queued - site.held
    outstanding = [peer for peer in site.peers.values() if peer.outstanding]
    if len(outstanding) == 1 and need > outstanding[0].outstanding.amount:
        ask = outstanding[0].outstanding
        outstanding[0].outstanding = Ask(ask.asker, ask.asked, ask.number, min(GREATEST, need))
    return right()


@replaces(Site, "plan")
def asks_for_the_first_that_waits_alone(right, site):
    waiting, site.waiting = site.waiting, site.waiting[:1]
    try:
        return right()
    finally:
        site.waiting = waiting


@replaces(Site, "plan")
def asks_one_peer_at_a_time(right, site):
    return "asks 0" if any(peer.outstanding for peer in site.peers.values()) else right()


@replaces(Site, "known")
def own_gifts_do_not_count(right, site, other):
    return right(other) - (total(site.log, "GR", other) if other != site.number else 0)


@replaces(Site, "known")
def what_was_given_back_does_not_count(right, site, other):
    return right(other) - total(site.entries_of(other), "V")


@replaces(Peer, "end_ask")
def a_grant_of_an_older_ask_ends_the_ask(right, peer, number):
    if peer.outstanding and number <= peer.outstanding.number:
        peer.outstanding = None


@replaces(Site, "apply")
def a_grant_of_any_peer_ends_the_ask(right, site, entry):
    said = right(entry)
    for move in entry.moves:
        if move.letter == "G" and move.peer == site.number:
            for peer in site.peers.values():
                peer.end_ask(move.values[2])
    return said


@replaces(Site, "apply")
def a_gift_ends_the_ask(right, site, entry):
    said = right(entry)
    if any(move.letter == "R" and move.peer == site.number for move in entry.moves):
        site.peers[entry.origin].outstanding = None
    return said


@replaces(Site, "grant")
def grants_all_that_is_held(right, site, ask):
    return right(Ask(ask.asker, ask.asked, ask.number, GREATEST))


@replaces(Site, "grant")
def grants_to_those_that_have_closed(right, site, ask):
    closed = Site.knows_closed
    Site.knows_closed = lambda self, other: False
    try:
        return right(ask)
    finally:
        Site.knows_closed = closed


@replaces(Site, "answer_ask")
def a_closed_site_denies_what_it_granted(right, site, ask):
    said = right(ask)
    return "denied" if site.is_closed and said == "repeated" else said


@replaces(Site, "answer_ask")
def a_closed_site_notes_no_denial(right, site, ask):
    peer = site.peers[ask.asker]
    answered, was_granted = peer.answered, peer.was_granted
    said = right(ask)
    if site.is_closed:
        peer.answered, peer.was_granted = answered, was_granted
    return said


@replaces(Site, "answer_ask")
def an_ask_out_of_order_is_old(right, site, ask):
    if ask.number > site.peers[ask.asker].answered + 1:
        return "old"
    return right(ask)


@replaces(Site, "answer_ask")
def old_asks_are_denied(right, site, ask):
    said = right(ask)
    return "denied" if said == "old" else said


@replaces(RunningSite, "take_in")
def a_grant_is_sent_at_once(right, site, peer, message):
    right(peer, message)
    if isinstance(message, Ask):
        while entry := site.desk.next_entry(peer):
            site.outboxes[peer].put(entry)


@replaces(RunningSite, "take_in")
def denials_wait_for_a_tick(right, site, peer, message):
    outbox = site.outboxes[peer]
    count = len(outbox.lines)
    right(peer, message)
    if isinstance(message, Ask) and len(outbox.lines) > count and outbox.lines[-1].startswith(b"D"):
        site.denials = [*getattr(site, "denials", []), (peer, outbox.lines.pop())]


@replaces(RunningSite, "take_in")
def a_denial_is_of_the_last_ask_of_any_peer(right, site, peer, message):
    right(peer, message)
    if isinstance(message, Denial):
        for other in site.desk.peers.values():
            other.end_ask(message.number)


# ---- buffers and gaps


@replaces(Buffer, "offer")
def an_entry_that_found_no_room_is_no_repeat(right, buffer, entry):
    said = right(entry)
    if said == "full":
        buffer.arrived[entry.prev] = entry
    return said


@replaces(Buffer, "offer")
def the_last_held_entry_makes_room(right, buffer, entry):
    said = right(entry)
    if said == "full" and entry.prev < max(buffer.arrived):
        buffer.arrived.pop(max(buffer.arrived))
        buffer.arrived[entry.prev] = entry
    return said


@replaces(Buffer, "offer")
def a_repeat_of_a_held_entry_counts_as_full(right, buffer, entry):
    if entry.prev in buffer.arrived and len(buffer.kept) >= 64:
        buffer.arrived.pop(entry.prev)
        return "full"
    return right(entry)


@replaces(Buffer, "gap")
def gaps_end_before_the_last_held_entry(right, buffer):
    gap = right()
    kept = buffer.kept
    return gap and ((gap[0], kept[-1].prev) if kept else gap)


@replaces(Buffer, "gap")
def gaps_end_one_later(right, buffer):
    gap = right()
    return gap and (gap[0], gap[1] + 1 if buffer.kept else gap[1])


@replaces(Buffer, "gap")
def gaps_ask_for_16_numbers(right, buffer):
    gap = right()
    return gap and (gap[0], min(gap[1], gap[0] + 15))


@replaces(Buffer, "hear")
def a_beat_of_the_next_number_tells_nothing(right, buffer, number):
    if number != desk_model.end(buffer.put) + 1:
        right(number)


@replaces(RunningSite, "take_in")
def a_smaller_beat_drops_what_is_held(right, site, peer, message):
    buffer = site.desk.peers[peer].buffer
    if isinstance(message, Beat) and message.number < buffer.told:
        buffer.arrived = {entry.prev: entry for entry in buffer.put}
    right(peer, message)


@replaces(RunningSite, "hear")
def a_closed_site_asks_for_no_gaps(right, site, peer, line):
    if not site.desk.is_closed:
        return right(peer, line)
    queries = site.outboxes[peer].lines
    right(peer, line)
    site.outboxes[peer].lines = [each for each in queries if not each.startswith(b"Q")]


@replaces(RunningSite, "take_entries")
def a_closed_site_takes_back(right, site, peer, entries):
    right(peer, entries)
    for entry in entries:
        if site.desk.is_closed and entry.moves[-1].letter == "K" and (owed := site.desk.owed(entry)):
            site.desk.append(Move("V", (peer, owed)))


@replaces(RunningSite, "take_entries")
def an_answer_is_taken_in_whole_or_not(right, site, peer, entries):
    put = desk_model.end(site.desk.peers[peer].buffer.put)
    if len(entries) > 1 and any(entry.prev < put for entry in entries):
        return
    right(peer, entries)


@replaces(RunningSite, "take_entries")
def an_answer_ends_at_the_first_held_entry(right, site, peer, entries):
    for entry in entries:
        right(peer, [entry])
        if site.desk.peers[peer].buffer.kept and len(entries) > 1:
            return


# ---- closing


@replaces(Site, "owed")
def takes_back_at_most_10_9(right, site, entry):
    return min(GREATEST, right(entry))


@replaces(Site, "owed")
def a_plain_close_gives_all_back(right, site, entry):
    last = entry.moves[-1]
    return total(site.log, "GR", entry.origin) if last.letter == "C" else right(entry)


@replaces(Site, "owed")
def takes_back_by_the_place_of_another_site(right, site, entry):
    last = entry.moves[-1]
    if last.letter != "K":
        return 0
    return total([e for e in site.log if e.prev >= max(last.values)], "GR", entry.origin)


@replaces(Site, "owed")
def takes_nothing_back_from_a_site_with_an_heir(right, site, entry):
    return 0 if len(entry.moves) > 1 else right(entry)


@replaces(Site, "owed")
def an_heir_takes_nothing_back(right, site, entry):
    return 0 if any(move.letter == "R" and move.peer == site.number for move in entry.moves) else right(entry)


@replaces(Site, "apply")
def one_entry_for_each_gift_that_comes_back(right, site, entry):
    owed = Site.owed(site, entry)
    if not owed:
        return right(entry)
    gifts = [e for e in site.log if e.prev >= entry.moves[-1].values[site.number - 1]]
    site.peers[entry.origin].applied.append(entry)
    for each in gifts:
        for move in each.moves:
            if move.letter in "GR" and move.peer == entry.origin:
                site.append(Move("V", (entry.origin, move.amount)))
    return desk_model.end(site.log)


@replaces(Site, "close")
def a_frontier_has_its_own_end(right, site, heir=None):
    def with_end(last):
        frontier = list(last.moves[-1].values)
        frontier[site.number - 1] = last.prev
        return [*last.moves[:-1], Move("K", tuple(frontier))]

    return closes_with(site, right, heir, with_end)


# ---- queries of others


@replaces(Site, "answer_query")
def answers_entries_that_begin_in_the_query(right, site, query):
    answer = right(query)
    return answer and Answer(answer.origin, answer.asker, tuple(e for e in answer.entries if e.prev + 1 >= query.first))


@replaces(Site, "answer_query")
def answers_entries_that_end_in_the_query(right, site, query):
    answer = right(query)
    return answer and Answer(answer.origin, answer.asker, tuple(e for e in answer.entries if e.own <= query.last))


@replaces(Site, "answer_query")
def answers_the_last_16(right, site, query):
    if not 1 <= query.first <= query.last:
        return None
    entries = [e for e in site.log if e.own >= query.first and e.prev < query.last]
    return Answer(site.number, query.asker, tuple(entries[-16:]))


@replaces(Site, "answer_query")
def no_answer_to_queries_beyond_the_end(right, site, query):
    return None if query.last > desk_model.end(site.log) else right(query)


@replaces(Site, "answer_query")
def queries_backwards_are_turned(right, site, query):
    if query.first > query.last >= 1:
        query = Query(query.asker, query.origin, query.last, query.first)
    return right(query)


@replaces(Site, "answer_query")
def an_answered_entry_counts_as_published(right, site, query):
    answer = right(query)
    if answer and answer.entries:
        peer = site.peers[query.asker]
        places = [place for place, entry in enumerate(site.log, 1) if entry == answer.entries[-1]]
        peer.published = max(peer.published, *places)
    return answer


# ---- what is sent


@replaces(RunningSite, "send_due")
def an_entry_that_found_no_room_is_sent_again(right, site, peer):
    known, outbox = site.desk.peers[peer], site.outboxes[peer]
    due = len(site.desk.log) - known.published
    sent = right(peer)
    known.published -= max(0, due - sent)
    del outbox.lines[site_model.ROOM :]
    return sent


@replaces(RunningSite, "send_due")
def an_ask_comes_before_entries(right, site, peer):
    outbox = site.outboxes[peer]
    count = len(outbox.lines)
    sent = right(peer)
    lines = outbox.lines[count:]
    outbox.lines[count:] = [line for line in lines if line[:1] == b"W"] + [line for line in lines if line[:1] != b"W"]
    return sent


@replaces(RunningSite, "send_due")
def a_beat_tells_what_was_sent_before(right, site, peer):
    was = getattr(site, "told_end", 0)
    sent = right(peer)
    outbox = site.outboxes[peer]
    if outbox.lines and outbox.lines[-1].startswith(b"B "):
        outbox.lines[-1] = b"B %d %d" % (site.number, was)
    if peer == max(site.peers):
        site.told_end = desk_model.end(site.desk.log)
    return sent


@replaces(RunningSite, "send_due")
def several_entries_are_sent_as_an_answer(right, site, peer):
    outbox = site.outboxes[peer]
    count = len(outbox.lines)
    sent = right(peer)
    entries = [line for line in outbox.lines[count:] if line.startswith(b"E ")]
    if len(entries) > 1:
        rest = [line for line in outbox.lines[count:] if not line.startswith(b"E ")]
        outbox.lines[count:] = [b";".join([b"A %d %d" % (site.number, peer), *entries]), *rest]
    return sent


@replaces(RunningSite, "concerns")
def a_bad_line_makes_a_peer_deaf(right, site, peer, message):
    said = right(peer, message)
    site.deaf = getattr(site, "deaf", set()) | (set() if said else {peer})
    return said and peer not in site.deaf


@replaces(RunningSite, "concerns")
def a_second_hello_of_another_is_believed(right, site, peer, message):
    if isinstance(message, site_model.Hello):
        site.believed = {**getattr(site, "believed", {}), peer: message.site}
        return False
    sender = site_model.sites_of(message)[0]
    believed = getattr(site, "believed", {}).get(peer, peer)
    if believed != peer and sender == believed and isinstance(message, Entry):
        site.take_in(believed, message)
    return right(peer, message)


@replaces(Outbox, "put")
def the_same_line_waits_once(right, outbox, message):
    return str(message).encode() in outbox.lines or right(message)
