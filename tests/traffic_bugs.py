"""Bugs at the edges of the rules of asks, buffers, queries and what is sent: state of another moment, and orders of events
that are rare."""

import desk_model
import line_model
import site_model
from bug_kit import BUGS, replaces, sets
from desk_model import Buffer, Peer, Site, end, ends_closed, total
from line_model import Answer, Ask, Beat, Denial, Entry, Hello, Query
from site_model import Outbox, RunningSite

# ---- asks


@replaces(Site, "known")
def grants_of_a_peer_are_not_taken_off(right, site, other):
    return right(other) + total(site.entries_of(other), "G")


@replaces(Site, "known")
def grants_to_a_peer_do_not_count(right, site, other):
    if other == site.number:
        return right(other)
    givers = [giver for giver in (site.number, *site.peers) if giver != other]
    return right(other) - sum(total(site.entries_of(giver), "G", other) for giver in givers)


@replaces(Site, "known")
def gifts_of_a_peer_are_not_taken_off(right, site, other):
    return right(other) + (total(site.entries_of(other), "R") if other != site.number else 0)


@replaces(Site, "known")
def what_a_peer_spent_is_not_taken_off(right, site, other):
    return right(other) + (total(site.entries_of(other), "S") if other != site.number else 0)


@replaces(Site, "known")
def entries_that_are_held_count_as_known(right, site, other):
    if other == site.number:
        return right(other)
    kept = site.peers[other].buffer.kept
    return right(other) + total(kept, "IV") - total(kept, "SGR")


@replaces(Site, "plan")
def an_ask_to_a_closed_peer_ends_where_something_waits(right, site):
    kept = {} if site.waiting else {other: peer.outstanding for other, peer in site.peers.items()}
    said = right()
    for other, ask in kept.items():
        site.peers[other].outstanding = ask
    return said


@replaces(Site, "plan")
def asks_for_all_that_a_peer_has(right, site):
    was = {other: peer.asks for other, peer in site.peers.items()}
    said = right()
    for other, peer in site.peers.items():
        if peer.asks > was[other]:
            ask = peer.outstanding
            peer.outstanding = Ask(ask.asker, ask.asked, ask.number, min(10**9, site.known(other)))
    return said


@replaces(Site, "plan")
def asks_the_first_peer_for_all(right, site):
    was = {other: peer.asks for other, peer in site.peers.items()}
    need = site.queued - site.held
    said = right()
    for other, peer in site.peers.items():
        if peer.asks > was[other]:
            ask = peer.outstanding
            peer.outstanding = Ask(ask.asker, ask.asked, ask.number, max(1, min(10**9, need)))
            break
    return said


@replaces(Site, "plan")
def asks_two_peers_at_most(right, site):
    was = {other: peer.asks for other, peer in site.peers.items()}
    said = right()
    new = [peer for other, peer in site.peers.items() if peer.asks > was[other]]
    for peer in new[2:]:
        peer.asks -= 1
        peer.outstanding = None
    return f"asks {min(2, len(new))}" if len(new) > 2 else said


@replaces(Site, "plan")
def a_closed_site_has_no_asks(right, site):
    if site.is_closed:
        for peer in site.peers.values():
            peer.outstanding = None
    return right()


@replaces(Site, "plan")
def an_ask_has_a_new_number_at_each_tick(right, site):
    said = right()
    for peer in site.peers.values():
        if ask := peer.outstanding:
            peer.asks = max(peer.asks, ask.number + (said == "asks 0"))
            peer.outstanding = Ask(ask.asker, ask.asked, peer.asks, ask.amount)
    return said


@replaces(Peer, "end_ask")
def a_denied_ask_keeps_its_number(right, peer, number):
    was = peer.outstanding
    right(number)
    if was and not peer.outstanding:
        peer.asks -= 1


@replaces(RunningSite, "take_in")
def a_denied_peer_is_not_asked_again(right, site, peer, message):
    if isinstance(message, Denial) and site.desk.peers[peer].outstanding:
        may_ask = site.desk.may_ask
        if message.number == site.desk.peers[peer].outstanding.number:
            site.desk.may_ask = lambda other: other != peer and may_ask(other)
    right(peer, message)


@replaces(RunningSite, "take_in")
def a_denial_is_of_its_sender_alone(right, site, peer, message):
    if isinstance(message, Denial):
        for known in site.desk.peers.values():
            known.end_ask(message.number)
    else:
        right(peer, message)


@replaces(RunningSite, "concerns")
def denials_of_any_sender_are_heard(right, site, peer, message):
    if isinstance(message, Denial) and message.denier != peer and message.asker == site.number:
        site.desk.peers[peer].end_ask(message.number)
    return right(peer, message)


@replaces(RunningSite, "concerns")
def denials_for_anybody_are_heard(right, site, peer, message):
    return right(peer, message) or (isinstance(message, Denial) and message.denier == peer)


@replaces(RunningSite, "concerns")
def lines_of_another_sender_are_those_of_the_connection(right, site, peer, message):
    match message:
        case Entry() if message.origin != peer:
            site.take_in(peer, Entry(peer, message.prev, message.moves))
        case Beat() if message.origin != peer:
            site.take_in(peer, Beat(peer, message.number))
        case Ask() if message.asker != peer and message.asked == site.number:
            site.take_in(peer, Ask(peer, site.number, message.number, message.amount))
        case Query() if message.asker != peer and message.origin == site.number:
            site.take_in(peer, Query(peer, site.number, message.first, message.last))
    return right(peer, message)


@replaces(RunningSite, "concerns")
def a_skipped_beat_asks_again(right, site, peer, message):
    said = right(peer, message)
    if not said and isinstance(message, Beat):
        gap = site.desk.peers[peer].buffer.ask(again=True)
        if gap:
            site.outboxes[peer].put(Query(site.number, peer, *gap))
    return said


@replaces(Site, "grant")
def grants_less_what_is_asked_of_others(right, site, ask):
    asked = sum(peer.outstanding.amount for peer in site.peers.values() if peer.outstanding)
    return right(ask) if site.held - site.queued > asked or not asked else None


@replaces(Site, "grant")
def spends_whose_deadline_is_over_keep_nothing_back(right, site, ask):
    waiting = site.waiting
    site.waiting = [request for request in waiting if request.deadline >= site.now]
    try:
        return right(ask)
    finally:
        site.waiting = waiting


@replaces(Site, "grant")
def a_plainly_closed_asker_is_granted(right, site, ask):
    closed = Site.knows_closed
    Site.knows_closed = lambda self, other: ends_closed(self.peers[other].applied) and self.peers[other].applied[-1].moves[-1].letter == "K"
    try:
        return right(ask)
    finally:
        Site.knows_closed = closed


@replaces(Site, "grant")
def grants_nothing_while_something_waits(right, site, ask):
    return None if site.waiting else right(ask)


@replaces(Site, "answer_ask")
def a_repeated_ask_of_another_amount_is_new(right, site, ask):
    peer = site.peers[ask.asker]
    amounts = site.__dict__.setdefault("amounts", {})
    if ask.number == peer.answered and amounts.get(ask.asker) != ask.amount:
        peer.answered -= 1
    amounts[ask.asker] = ask.amount
    return right(ask)


@replaces(Site, "answer_ask")
def the_last_asks_of_all_peers_are_one(right, site, ask):
    answered = max(peer.answered for peer in site.peers.values())
    if ask.number < answered:
        return "old"
    return right(ask)


@replaces(Site, "answer_ask")
def any_denied_ask_is_denied_again(right, site, ask):
    denied = site.__dict__.setdefault("denied", set())
    if (ask.asker, ask.number) in denied:
        return "denied"
    said = right(ask)
    if said == "denied":
        denied.add((ask.asker, ask.number))
    return said


@replaces(Site, "answer_ask")
def a_denial_is_repeated_once(right, site, ask):
    peer = site.peers[ask.asker]
    repeats = site.__dict__.setdefault("repeats", {})
    said = right(ask)
    key = (ask.asker, ask.number)
    repeats[key] = repeats.get(key, 0) + 1
    return "repeated" if said == "denied" and repeats[key] > 2 and peer.answered == ask.number else said


@replaces(Site, "answer_ask")
def a_grant_is_a_repeat_once_its_entry_was_sent(right, site, ask):
    peer = site.peers[ask.asker]
    if ask.number == peer.answered and peer.was_granted and peer.published == len(site.log):
        peer.answered -= 1
    return right(ask)


# ---- buffers and queries


@replaces(Buffer, "gap")
def what_was_told_before_a_close_is_a_gap(right, buffer):
    put, kept = buffer.put, buffer.kept
    if buffer.told > end(put) and ends_closed(put):
        return (end(put) + 1, kept[0].prev if kept else buffer.told)
    return right()


@replaces(Buffer, "ask")
def a_gap_that_begins_the_same_is_the_same(right, buffer, again):
    gap = buffer.gap
    if gap and buffer.queried and gap[0] == buffer.queried[0] and not again:
        return None
    return right(again)


@replaces(Buffer, "ask")
def a_gap_that_ends_the_same_is_the_same(right, buffer, again):
    gap = buffer.gap
    if gap and buffer.queried and gap[1] == buffer.queried[1] and not again:
        return None
    return right(again)


@replaces(Buffer, "ask")
def a_gap_that_shrinks_is_not_asked_for(right, buffer, again):
    gap = buffer.gap
    if gap and buffer.queried and buffer.queried[0] <= gap[0] and gap[1] <= buffer.queried[1] and not again:
        return None
    return right(again)


@replaces(Buffer, "hear")
def beats_raise_the_number_by_what_is_told_first(right, buffer, number):
    if buffer.told == 0 or not buffer.gap:
        right(number)


@replaces(Buffer, "offer")
def an_entry_tells_its_previous_number_alone(right, buffer, entry):
    told = buffer.told
    said = right(entry)
    if said == "full":
        buffer.told = max(told, entry.prev)
    return said


@replaces(Buffer, "offer")
def a_repeat_makes_nothing_ready(right, buffer, entry):
    if entry.prev in buffer.arrived:
        buffer.told = max(buffer.told, entry.own + 1)
        return "repeat"
    return right(entry)


@replaces(Buffer, "offer")
def the_next_entry_is_lost_where_64_are_held(right, buffer, entry):
    if len(buffer.kept) >= 64 and entry.prev == end(buffer.put):
        return "full"
    return right(entry)


@replaces(Buffer, "offer")
def entries_are_held_by_their_number_modulo_64(right, buffer, entry):
    kept = [each for each in buffer.kept if each.prev % 64 == entry.prev % 64 and each.prev != entry.prev]
    if kept and entry.prev > end(buffer.put):
        buffer.told = max(buffer.told, entry.own)
        return "full"
    return right(entry)


@replaces(Buffer, "offer")
def entries_that_are_far_off_are_dropped(right, buffer, entry):
    return "full" if entry.prev > end(buffer.put) + 10**5 else right(entry)


@replaces(Buffer, "gap")
def a_gap_ends_where_the_last_that_came_begins(right, buffer):
    gap = right()
    kept = [entry for entry in buffer.arrived.values() if entry.prev >= gap[0]] if gap else []
    return (gap[0], kept[-1].prev) if kept else gap


@replaces(Buffer, "offer")
def an_entry_frees_one_that_is_held(right, buffer, entry):
    if entry.prev == end(buffer.put) and len(buffer.kept) > 1:
        last = buffer.kept[-1].prev
        said = right(entry)
        buffer.arrived.pop(last, None)
        return said
    return right(entry)


@replaces(RunningSite, "take_entries")
def answers_that_nobody_asked_for_are_dropped(right, site, peer, entries):
    if len(entries) > 1 and not site.desk.peers[peer].buffer.queried:
        return
    right(peer, entries)


@replaces(RunningSite, "take_entries")
def an_answer_must_be_in_order(right, site, peer, entries):
    if all(a.own == b.prev for a, b in zip(entries, entries[1:])):
        right(peer, entries)


@replaces(RunningSite, "take_entries")
def an_answer_ends_with_the_gap(right, site, peer, entries):
    queried = site.desk.peers[peer].buffer.queried
    right(peer, [entry for entry in entries if len(entries) == 1 or not queried or entry.prev < queried[1]])


@replaces(RunningSite, "take_entries")
def entries_are_applied_at_the_next_line(right, site, peer, entries):
    known = site.desk.peers[peer]
    if len(entries) > 1:
        *first, last = entries
        right(peer, first)
        known.buffer.offer(last)
        return
    right(peer, entries)


@replaces(RunningSite, "take_in")
def a_second_hello_empties_the_buffer(right, site, peer, message):
    if isinstance(message, Hello):
        buffer = site.desk.peers[peer].buffer
        buffer.arrived = {entry.prev: entry for entry in buffer.put}
    right(peer, message)


@replaces(RunningSite, "take_in")
def a_second_hello_asks_again(right, site, peer, message):
    if isinstance(message, Hello):
        site.desk.peers[peer].buffer.queried = None
    right(peer, message)


@replaces(RunningSite, "take_in")
def a_second_hello_publishes_again(right, site, peer, message):
    if isinstance(message, Hello):
        site.desk.peers[peer].published = 0
    right(peer, message)


# ---- queries of others



@replaces(Site, "answer_query")
def answers_in_falling_order(right, site, query):
    answer = right(query)
    return answer and Answer(answer.origin, answer.asker, tuple(reversed(answer.entries)))


@replaces(Site, "answer_query")
def a_closed_peer_gets_no_answer(right, site, query):
    return None if site.knows_closed(query.asker) else right(query)


@replaces(Site, "answer_query")
def queries_up_to_the_greatest_number_are_refused(right, site, query):
    return None if query.last == 10**9 else right(query)


@replaces(Site, "answer_query")
def the_closing_entry_is_in_no_answer(right, site, query):
    answer = right(query)
    return answer and Answer(answer.origin, answer.asker, tuple(e for e in answer.entries if not e.moves[-1].closes))


@replaces(Site, "answer_query")
def what_comes_back_is_in_no_answer(right, site, query):
    answer = right(query)
    return answer and Answer(answer.origin, answer.asker, tuple(e for e in answer.entries if e.moves[0].letter != "V"))


@replaces(Site, "answer_query")
def a_query_is_answered_once(right, site, query):
    answered = site.__dict__.setdefault("answered", set())
    if (query.asker, query.first, query.last) in answered and query.last > 1:
        return None
    answered.add((query.asker, query.first, query.last))
    return right(query)


# ---- what is sent


@replaces(RunningSite, "send_due")
def a_closed_peer_is_sent_nothing(right, site, peer):
    return 0 if site.desk.knows_closed(peer) else right(peer)


@replaces(RunningSite, "send_due")
def a_closed_peer_is_sent_no_entries(right, site, peer):
    if site.desk.knows_closed(peer):
        site.desk.peers[peer].published = len(site.desk.log)
    return right(peer)


@replaces(RunningSite, "send_due")
def sixteen_entries_are_sent_at_a_tick(right, site, peer):
    known = site.desk.peers[peer]
    log, site.desk.log = site.desk.log, site.desk.log[: known.published + 16]
    try:
        return right(peer)
    finally:
        site.desk.log = log


@replaces(RunningSite, "send_due")
def beats_count_entries(right, site, peer):
    sent = right(peer)
    site.outboxes[peer].lines[-1] = b"B %d %d" % (site.number, len(site.desk.log))
    return sent


@replaces(RunningSite, "send_due")
def no_beat_before_the_first_entry(right, site, peer):
    sent = right(peer)
    if not site.desk.log:
        site.outboxes[peer].lines.pop()
        return sent - 1
    return sent


@replaces(RunningSite, "send_due")
def a_beat_is_sent_where_its_number_is_new(right, site, peer):
    beats = site.__dict__.setdefault("beats", {})
    sent = right(peer)
    if beats.get(peer) == end(site.desk.log):
        site.outboxes[peer].lines.pop()
        return sent - 1
    beats[peer] = end(site.desk.log)
    return sent


@replaces(RunningSite, "send_due")
def entries_are_sent_to_those_whom_they_name(right, site, peer):
    known = site.desk.peers[peer]
    log = site.desk.log
    site.desk.log = [e for e in log if all(m.peer in (None, peer) for m in e.moves)]
    known.published = getattr(known, "named", 0)
    try:
        sent = right(peer)
    finally:
        known.named, known.published = known.published, len(log)
        site.desk.log = log
    return sent


@replaces(Outbox, "put")
def a_beat_takes_the_place_of_the_beat_before(right, outbox, message):
    if isinstance(message, Beat) and outbox.lines and outbox.lines[-1].startswith(b"B "):
        outbox.lines[-1] = str(message).encode()
        return True
    return right(message)


@replaces(Outbox, "put")
def answers_go_before_what_waits(right, outbox, message):
    said = right(message)
    if said and isinstance(message, (Answer, Denial)) and len(outbox.lines) > 1:
        outbox.lines.insert(0, outbox.lines.pop())
    return said


# ---- sites of other numbers

BUGS["says_that_it_is_site_1"] = sets(RunningSite, "number", property(lambda self: 1, lambda self, number: None))


@replaces(RunningSite, "status")
def status_of_site_1(right, site):
    values = site_model.json.loads(right())
    values["site"] = 1
    return site_model.json.dumps(values, separators=(",", ":"))


@replaces(RunningSite, "send_due")
def beats_of_site_1(right, site, peer):
    sent = right(peer)
    site.outboxes[peer].lines[-1] = b"B 1 %d" % end(site.desk.log)
    return sent


@replaces(RunningSite, "is_of_system")
def sites_below_16_are_of_the_system(right, site, entry):
    return all(move.peer is None or move.peer <= 15 for move in entry.moves) and right(entry)


@replaces(RunningSite, "concerns")
def messages_to_a_site_of_two_digits_are_skipped(right, site, peer, message):
    return right(peer, message) and not (peer > 9 and isinstance(message, Ask))


@replaces(RunningSite, "tick")
def peers_are_sorted_as_text(right, site, time):
    desk_model.sorted = lambda peers, key: sorted(peers, key=lambda peer: (key(peer)[0], str(peer)))
    try:
        return right(time)
    finally:
        del desk_model.sorted


BUGS["lines_of_8192_bytes_at_most"] = sets(site_model, "MOST_BYTES", 8_192)
BUGS["entries_of_any_count_of_moves"] = sets(line_model, "MOST_MOVES", 10**9)
BUGS["an_outbox_of_128"] = sets(site_model, "ROOM", 128)
