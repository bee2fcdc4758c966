"""Bugs that another implementation of a running site may have, for tests of ./conformance: what it decides at its desk,
what it sends, and what it hears."""

import json

import desk_model
import line_model
import site_model
from bug_kit import BUGS, closes_with, limit, replaces, sets
from desk_model import Buffer, Peer, Refusal, Site
from line_model import GREATEST, Answer, Move
from site_model import Outbox, RunningSite

# ---- numbers

BUGS["a_queue_of_33"] = sets(desk_model, "MOST_REQUESTS", 33)
BUGS["a_queue_of_31"] = sets(desk_model, "MOST_REQUESTS", 31)
BUGS["holds_65"] = sets(desk_model, "MOST_HELD", 65)
BUGS["holds_63"] = sets(desk_model, "MOST_HELD", 63)
BUGS["holds_any_number"] = sets(desk_model, "MOST_HELD", 10**9)
BUGS["answers_of_17"] = sets(desk_model, "MOST_ANSWERED", 17)
BUGS["answers_of_15"] = sets(desk_model, "MOST_ANSWERED", 15)
BUGS["an_outbox_of_any_size"] = sets(site_model, "ROOM", 10**9)
BUGS["asks_above_10_9"] = sets(desk_model, "GREATEST", 10**12)
BUGS["sites_above_n_are_heard"] = sets(RunningSite, "is_of_system", lambda self, entry: True)
BUGS["amounts_from_0"] = sets(desk_model, "AMOUNTS", range(GREATEST + 1))
BUGS["amounts_of_any_size"] = sets(desk_model, "AMOUNTS", range(1, 2**64))


# ---- spends


@replaces(Site, "spend")
def spends_jump_the_queue(right, site, amount, deadline):
    if site.held >= amount >= 1 and amount <= GREATEST and not site.is_closed:
        return f"spent {site.spend_now(amount)}"
    return right(amount, deadline)


@replaces(Site, "spend")
def spends_more_than_is_held(right, site, amount, deadline):
    if not site.waiting and 1 <= amount <= site.held + 1:
        return f"spent {site.spend_now(amount)}"
    return right(amount, deadline)


@replaces(Site, "spend")
def the_last_right_is_not_spent(right, site, amount, deadline):
    if site.held == amount and amount > 0 and not site.waiting and not site.is_closed and len(site.outcomes) < 32:
        site.tickets += 1
        site.waiting.append(desk_model.Request(site.tickets, amount, deadline))
        return f"queued {site.tickets}"
    return right(amount, deadline)


@replaces(Site, "spend")
def spends_serve_what_waits(right, site, amount, deadline):
    while site.serve() != "nothing":
        pass
    return right(amount, deadline)


@replaces(Site, "serve")
def serving_skips_what_lacks_rights(right, site):
    for place, request in enumerate(site.waiting):
        if request.amount <= site.held:
            site.waiting.insert(0, site.waiting.pop(place))
            break
    return right()


@replaces(Site, "serve")
def serving_forgets_the_outcome(right, site):
    said = right()
    if said != "nothing":
        site.outcomes.pop(int(said.split()[1]))
    return said


@replaces(Site, "serve")
def serving_takes_no_rights(right, site):
    if not site.waiting or site.held < site.waiting[0].amount:
        return "nothing"
    request = site.waiting.pop(0)
    site.outcomes[request.ticket] = desk_model.end(site.log)
    return f"served {request.ticket} 0"


@replaces(Site, "expire")
def a_deadline_that_has_come_is_over(right, site, time):
    said = right(time)
    late = [request for request in site.waiting if request.deadline == time]
    site.waiting = [request for request in site.waiting if request.deadline != time]
    site.outcomes.update((request.ticket, None) for request in late)
    return f"expired {int(said.split()[1]) + len(late)}"


@replaces(Site, "expire")
def only_the_first_expires(right, site, time):
    rest = site.waiting[1:]
    site.waiting = site.waiting[:1]
    said = right(time)
    site.waiting += rest
    return said


@replaces(Site, "expire")
def time_goes_back(right, site, time):
    site.now = min(site.now, time)
    return right(time)


@replaces(Site, "expire")
def an_equal_time_goes_back(right, site, time):
    if time == site.now and time > 0:
        raise Refusal("TimeWentBack")
    return right(time)


def changed_queue(change):
    """The reply to `queue`, with its object changed."""

    def queue(right, site):
        said = json.loads(right())
        change(said, site)
        return json.dumps(said, separators=(",", ":"))

    return queue


@replaces(RunningSite, "queue")
def the_queue_leaves_out_the_last(right, site):
    return changed_queue(lambda said, site: said["requests"].pop() if said["requests"] else None)(right, site)


@replaces(RunningSite, "queue")
def the_queue_is_told_from_its_end(right, site):
    return changed_queue(lambda said, site: said["requests"].reverse())(right, site)


@replaces(RunningSite, "queue")
def the_queue_tells_all_slots_as_unread(right, site):
    return changed_queue(lambda said, site: said.update(unread=said["unread"] + len(said["requests"])))(right, site)


@replaces(RunningSite, "queue")
def the_queue_is_told_with_spaces(right, site):
    return json.dumps(json.loads(right()))


@replaces(RunningSite, "queue")
def to_tell_the_queue_reads_outcomes(right, site):
    said = right()
    site.desk.outcomes.clear()
    return said


@replaces(Site, "status")
def outcomes_are_told_again(right, site, ticket):
    number = site.outcomes.get(ticket, -1)
    said = right(ticket)
    if number != -1:
        site.outcomes[ticket] = number
    return said


@replaces(Site, "status")
def an_expired_spend_is_unknown(right, site, ticket):
    said = right(ticket)
    return "unknown" if said == "expired" else said


@replaces(RunningSite, "tick")
def a_tick_serves_one(right, site, time):
    serve = site.desk.serve
    served = []

    def once():
        if served:
            return "nothing"
        said = serve()
        served.append(said)
        return said

    site.desk.serve = once
    try:
        return right(time)
    finally:
        del site.desk.serve


@replaces(RunningSite, "tick")
def a_tick_plans_before_it_serves(right, site, time):
    if time >= site.desk.now:
        site.desk.plan()
    return right(time)


@replaces(RunningSite, "tick")
def a_tick_that_is_refused_serves(right, site, time):
    if time < site.desk.now:
        while site.desk.serve() != "nothing":
            pass
    return right(time)


# ---- what is written


@replaces(Site, "give")
def gives_to_itself(right, site, other, amount):
    if other == site.number and 1 <= amount <= site.held:
        return f"number {site.append(Move('R', (other, amount)))}"
    return right(other, amount)


@replaces(Site, "knows_closed")
def gives_to_closed_sites(right, site, other):
    return False


@replaces(Site, "give")
def short_comes_before_same_site(right, site, other, amount):
    if not site.is_closed and 1 <= amount <= GREATEST and amount > site.held:
        raise Refusal("Short")
    return right(other, amount)


@replaces(Site, "close")
def closes_while_spends_wait(right, site, heir=None):
    site.waiting, waiting = [], site.waiting
    try:
        return right(heir)
    except Refusal:
        site.waiting = waiting
        raise


@replaces(Site, "close")
def closes_with_a_frontier_of_zeros(right, site, heir=None):
    zeros = Move("K", (0,) * (len(site.peers) + 1))
    return closes_with(site, right, heir, lambda last: [*last.moves[:-1], zeros])


@replaces(Site, "close")
def closes_with_what_was_put(right, site, heir=None):
    known = {other: desk_model.end(peer.applied) + len(peer.buffer.kept) for other, peer in site.peers.items()}
    frontier = [known.get(o, 0) for o in range(1, len(site.peers) + 2)]
    return closes_with(site, right, heir, lambda last: [*last.moves[:-1], Move("K", tuple(frontier))])


@replaces(Site, "close")
def closes_plainly(right, site, heir=None):
    return closes_with(site, right, heir, lambda last: [*last.moves[:-1], Move("C")])


@replaces(Site, "legacy")
def leaves_nothing_to_the_heir(right, site, heir):
    right(heir)
    return []


@replaces(Site, "legacy")
def leaves_a_right_less(right, site, heir):
    moves = right(heir)
    return [Move("R", (heir, site.held - 1))] if site.held > 1 else moves


# ---- taking back


@replaces(Site, "owed")
def takes_nothing_back(right, site, entry):
    return 0


@replaces(Site, "owed")
def takes_all_back(right, site, entry):
    if entry.moves[-1].letter != "K":
        return 0
    return desk_model.total(site.log, "GR", entry.origin)


@replaces(Site, "owed")
def takes_back_gifts_alone(right, site, entry):
    if entry.moves[-1].letter != "K":
        return 0
    applied = entry.moves[-1].values[site.number - 1]
    return desk_model.total([e for e in site.log if e.prev >= applied], "R", entry.origin)


@replaces(Site, "owed")
def takes_back_from_one_later(right, site, entry):
    if entry.moves[-1].letter != "K":
        return 0
    applied = entry.moves[-1].values[site.number - 1]
    return desk_model.total([e for e in site.log if e.prev > applied], "GR", entry.origin)


@replaces(RunningSite, "take_entries")
def takes_back_at_each_arrival(right, site, peer, entries):
    right(peer, entries)
    for entry in entries:
        known = site.desk.peers[peer]
        if entry in known.applied[:-1] or (entry.moves[-1].closes and known.applied and len(known.buffer.arrived) == len(known.applied)):
            owed = site.desk.owed(entry)
            if owed and sum(1 for e in site.desk.log for m in e.moves if m.letter == "V") < 3:
                site.desk.append(Move("V", (peer, owed)))


# ---- asks


@replaces(Site, "grant")
def grants_what_waits(right, site, ask):
    waiting, site.waiting = site.waiting, []
    try:
        return right(ask)
    finally:
        site.waiting = waiting


@replaces(Site, "grant")
def grants_all_or_nothing(right, site, ask):
    return right(ask) if ask.amount <= site.held - site.queued else None


@replaces(Site, "grant")
def grants_half(right, site, ask):
    half = desk_model.Ask(ask.asker, ask.asked, ask.number, max(1, ask.amount // 2))
    return right(half)


@replaces(Site, "grant")
def grants_as_a_gift(right, site, ask):
    number = right(ask)
    if number:
        move = site.log.pop().moves[0]
        site.append(Move("R", move.values[:2]))
    return number


@replaces(Site, "answer_ask")
def grants_again(right, site, ask):
    peer = site.peers[ask.asker]
    if ask.number == peer.answered and peer.was_granted:
        peer.answered -= 1
    return right(ask)


@replaces(Site, "answer_ask")
def grants_what_was_denied(right, site, ask):
    peer = site.peers[ask.asker]
    if ask.number == peer.answered and not peer.was_granted:
        peer.answered -= 1
    return right(ask)


@replaces(Site, "answer_ask")
def answers_old_asks(right, site, ask):
    peer = site.peers[ask.asker]
    peer.answered = min(peer.answered, ask.number)
    return right(ask)


@replaces(Site, "answer_ask")
def denies_a_repeat_of_what_was_granted(right, site, ask):
    said = right(ask)
    return "denied" if said == "repeated" else said


@replaces(Site, "answer_ask")
def does_not_repeat_denials(right, site, ask):
    peer = site.peers[ask.asker]
    was = peer.answered
    said = right(ask)
    return "old" if said == "denied" and was == ask.number else said


@replaces(Peer, "end_ask")
def any_denial_ends_an_ask(right, peer, number):
    peer.outstanding = None


@replaces(RunningSite, "take_in")
def denials_are_not_heard(right, site, peer, message):
    if not isinstance(message, line_model.Denial):
        right(peer, message)


@replaces(Site, "plan")
def plans_for_all_that_waits(right, site):
    held = Site.held
    Site.held = property(lambda self: 0)
    try:
        return right()
    finally:
        Site.held = held


@replaces(Site, "plan")
def plans_again_what_is_asked(right, site):
    kept = {}
    for other, peer in site.peers.items():
        kept[other], peer.outstanding = peer.outstanding, None
    said = right()
    for other, peer in site.peers.items():
        peer.outstanding = peer.outstanding or kept[other]
    return said


@replaces(Site, "plan")
def plans_in_the_order_of_numbers(right, site):
    known = Site.known
    rights = {other: known(site, other) for other in site.peers}
    Site.known = lambda self, other: (1 if rights.get(other, 0) > 0 else 0) if other in rights else known(self, other)
    try:
        said = right()
    finally:
        Site.known = known
    return said


@replaces(Site, "plan")
def equal_peers_by_the_greater_number(right, site):
    # The plan sorts peers by their rights and then by their numbers.
    desk_model.sorted = lambda peers, key: sorted(peers, key=lambda peer: (key(peer)[0], -peer))
    try:
        return right()
    finally:
        del desk_model.sorted


@replaces(Site, "may_ask")
def asks_closed_peers(right, site, other):
    return not site.peers[other].outstanding and site.known(other) > 0


@replaces(Site, "plan")
def an_ask_to_a_closed_peer_stays(right, site):
    kept = {other: peer.outstanding for other, peer in site.peers.items()}
    said = right()
    for other, peer in site.peers.items():
        peer.outstanding = peer.outstanding or kept[other]
    return said


@replaces(Site, "known")
def gifts_of_third_sites_do_not_count(right, site, other):
    if other == site.number:
        return right(other)
    own = site.entries_of(other)
    rights = desk_model.total(own, "IV") - desk_model.total(own, "SGR")
    return rights + desk_model.total(site.log, "GR", other)


@replaces(Site, "apply")
def a_grant_does_not_end_its_ask(right, site, entry):
    kept = site.peers[entry.origin].outstanding
    said = right(entry)
    site.peers[entry.origin].outstanding = kept
    return said


@replaces(Site, "apply")
def any_grant_ends_an_ask(right, site, entry):
    said = right(entry)
    if any(move.letter == "G" for move in entry.moves):
        site.peers[entry.origin].outstanding = None
    return said


# ---- buffers


@replaces(Buffer, "gap")
def gaps_begin_at_1(right, buffer):
    gap = right()
    return gap and (1, gap[1])


@replaces(Buffer, "gap")
def gaps_end_at_what_was_told(right, buffer):
    gap = right()
    return gap and (gap[0], buffer.told)


@replaces(Buffer, "ask")
def gaps_are_asked_for_once(right, buffer, again):
    return right(again=False)


@replaces(Buffer, "ask")
def gaps_are_asked_for_after_each_line(right, buffer, again):
    return right(again=True)


@replaces(Buffer, "ask")
def gaps_are_not_asked_for(right, buffer, again):
    return None


@replaces(Buffer, "hear")
def beats_tell_nothing(right, buffer, number):
    pass


@replaces(Buffer, "hear")
def a_beat_tells_the_end(right, buffer, number):
    buffer.told = number


@replaces(Buffer, "offer")
def entries_are_put_as_they_come(right, buffer, entry):
    """Eager: later entries count as put."""
    put = buffer.put
    if entry.prev > desk_model.end(put) and entry.prev not in buffer.arrived:
        buffer.arrived[desk_model.end(put)] = line_model.Entry(entry.origin, desk_model.end(put), entry.moves)
    return right(entry)


@replaces(Buffer, "offer")
def later_entries_are_dropped(right, buffer, entry):
    if entry.prev > desk_model.end(buffer.put):
        buffer.told = max(buffer.told, entry.own)
        return "full"
    return right(entry)


@replaces(Buffer, "offer")
def a_full_buffer_is_told_nothing(right, buffer, entry):
    told = buffer.told
    said = right(entry)
    if said == "full":
        buffer.told = told
    return said


@replaces(Buffer, "offer")
def a_repeat_replaces(right, buffer, entry):
    if entry.prev in buffer.arrived and entry.prev > desk_model.end(buffer.put):
        buffer.arrived[entry.prev] = entry
    return right(entry)


@replaces(RunningSite, "take_entries")
def entries_of_an_answer_but_the_first_are_dropped(right, site, peer, entries):
    right(peer, entries[:1])


@replaces(RunningSite, "take_entries")
def a_closed_site_applies(right, site, peer, entries):
    right(peer, entries)
    known = site.desk.peers[peer]
    put = known.buffer.put
    while len(known.applied) < len(put):
        known.applied.append(put[len(known.applied)])


# ---- queries


@replaces(Site, "answer_query")
def answers_from_a_number_later(right, site, query):
    return right(line_model.Query(query.asker, query.origin, query.first + 1, query.last))


@replaces(Site, "answer_query")
def answers_all_behind_the_first(right, site, query):
    return right(line_model.Query(query.asker, query.origin, query.first, GREATEST)) if query.first <= query.last else right(query)


@replaces(Site, "answer_query")
def answers_queries_from_0(right, site, query):
    return right(line_model.Query(query.asker, query.origin, max(query.first, 1), query.last))


@replaces(Site, "answer_query")
def answers_what_was_sent_alone(right, site, query):
    answer = right(query)
    count = site.peers[query.asker].published
    return answer and Answer(answer.origin, answer.asker, tuple(e for e in answer.entries if e in site.log[:count]))


@replaces(Site, "answer_query")
def no_answer_without_entries(right, site, query):
    answer = right(query)
    return answer if answer and answer.entries else None


@replaces(Site, "answer_query")
def a_closed_site_answers_no_query(right, site, query):
    return None if site.is_closed else right(query)


# ---- what is sent


@replaces(RunningSite, "send_due")
def beats_are_sent_where_entries_are_not(right, site, peer):
    outbox = site.outboxes[peer]
    count = len(outbox.lines)
    sent = right(peer)
    if sent > 1:
        outbox.lines.pop()
        return sent - 1
    del outbox.lines[count + sent :]
    return sent


@replaces(RunningSite, "send_due")
def beats_come_first(right, site, peer):
    outbox = site.outboxes[peer]
    count = len(outbox.lines)
    sent = right(peer)
    outbox.lines[count:] = outbox.lines[-1:] + outbox.lines[count:-1]
    return sent


@replaces(RunningSite, "send_due")
def all_entries_are_sent_again(right, site, peer):
    site.desk.peers[peer].published = 0
    return right(peer)


@replaces(RunningSite, "send_due")
def asks_are_sent_once(right, site, peer):
    known = site.desk.peers[peer]
    ask = known.outstanding
    if ask and getattr(known, "sent_ask", 0) == ask.number:
        known.outstanding = None
        try:
            return right(peer)
        finally:
            known.outstanding = ask
    known.sent_ask = ask.number if ask else 0
    return right(peer)


@replaces(RunningSite, "send_due")
def the_last_peer_is_sent_nothing(right, site, peer):
    return right(peer) if peer != max(site.peers) or len(site.peers) == 1 else 0


@replaces(RunningSite, "answer")
def entries_are_sent_at_once(right, site, name, values):
    said = right(name, values)
    if name in ("issue", "give", "spend") and said.startswith(("number", "spent")):
        for peer in site.peers:
            while entry := site.desk.next_entry(peer):
                site.outboxes[peer].put(entry)
    return said


@replaces(Outbox, "put")
def lines_that_find_no_room_take_the_place_of_the_oldest(right, outbox, message):
    if len(outbox.lines) == site_model.ROOM:
        outbox.lines.pop(0)
    return right(message)


@replaces(RunningSite, "tick")
def sent_counts_dropped_lines(right, site, time):
    before = sum(outbox.dropped for outbox in site.outboxes.values())
    said = right(time)
    dropped = sum(outbox.dropped for outbox in site.outboxes.values()) - before
    head, sent = said.rsplit(" ", 1)
    return f"{head} {int(sent) + dropped}"


# ---- lines that are skipped


@replaces(RunningSite, "concerns")
def lines_of_any_sender_are_heard(right, site, peer, message):
    sender, receiver = site_model.sites_of(message)
    if sender != site.number and sender in site.peers and receiver in (None, site.number) and sender != peer:
        site.take_in(sender, message)
    return right(peer, message)


@replaces(RunningSite, "concerns")
def lines_for_any_site_are_heard(right, site, peer, message):
    sender, _ = site_model.sites_of(message)
    return sender == peer


@replaces(RunningSite, "concerns")
def entries_of_answers_name_any_site(right, site, peer, message):
    return right(peer, message) or (isinstance(message, Answer) and message.origin == peer and message.asker == site.number)


@replaces(RunningSite, "hear")
def carriage_returns_are_taken_off(right, site, peer, line):
    right(peer, line.rstrip(b"\r"))


@replaces(RunningSite, "hear")
def spaces_at_the_end_are_taken_off(right, site, peer, line):
    right(peer, line.rstrip(b" "))


@replaces(RunningSite, "reply")
def commands_are_stripped(right, site, line):
    return right(line.strip())


@replaces(RunningSite, "reply")
def commands_in_capitals(right, site, line):
    return right(line.lower())


@replaces(RunningSite, "reply")
def zeros_may_lead(right, site, line):
    return right(b" ".join(word.lstrip(b"0") or b"0" if word.isdigit() else word for word in line.split(b" ")))


@replaces(RunningSite, "reply")
def empty_lines_get_no_reply(right, site, line):
    return right(line) if line else b""


# ---- status


def status_key(key, value):
    def plant(limits):
        right = RunningSite.status

        def status(site):
            values = site_model.json.loads(right(site))
            values[key] = value(site, values)
            return site_model.json.dumps(values, separators=(",", ":"))

        RunningSite.status = status

    return plant


BUGS["status_issued_is_held"] = status_key("issued", lambda site, values: values["held"])
BUGS["status_queued_counts_requests"] = status_key("queued", lambda site, values: len(site.desk.waiting))
BUGS["status_received_counts_what_was_put"] = status_key(
    "received",
    lambda site, values: sum(desk_model.total(p.buffer.put, "GR", site.number) for p in site.desk.peers.values()),
)
BUGS["status_spent_with_what_was_given"] = status_key("spent", lambda site, values: desk_model.total(site.desk.log, "SR"))
BUGS["status_never_closed"] = status_key("closed", lambda site, values: False)
BUGS["status_number_counts_entries"] = status_key("number", lambda site, values: len(site.desk.log))


# ---- connections


BUGS["a_first_line_has_a_minute"] = limit("hello_seconds", 60)
BUGS["a_first_line_has_a_second"] = limit("hello_seconds", 1)
BUGS["any_number_waits_for_a_first_line"] = limit("most_waiting", 10**6)
BUGS["the_oldest_connection_is_heard_on"] = limit("newest_wins", False)
BUGS["no_hello"] = limit("says_hello", False)
BUGS["nothing_is_sent_at_the_end"] = limit("sends_at_end", False)
