"""Bugs at the edges of the rules of spends, of what is written, and of closing: sums that do not fit, and orders of events that
are rare."""

import site_model
from bug_kit import BUGS, closes_with, replaces
from desk_model import Refusal, Site, end, total
from line_model import Move
from site_model import RunningSite

# ---- sums


def sums_as(name, owner, what, change):
    """A bug in a sum, which is a property or the result of a method."""
    original = owner.__dict__[what]

    def plant(limits):
        if isinstance(original, property):
            setattr(owner, what, property(lambda self: change(original.fget(self))))
        else:
            setattr(owner, what, lambda self, *values: change(original(self, *values)))

    BUGS[name] = plant


def signed(bits):
    return lambda number: (number + 2 ** (bits - 1)) % 2**bits - 2 ** (bits - 1)


sums_as("held_has_32_bits", Site, "held", lambda number: number % 2**32)
sums_as("held_has_32_bits_with_a_sign", Site, "held", signed(32))
sums_as("queued_has_32_bits", Site, "queued", lambda number: number % 2**32)
sums_as("queued_has_32_bits_with_a_sign", Site, "queued", signed(32))
sums_as("known_rights_have_32_bits", Site, "known", signed(33))
sums_as("known_rights_have_53_bits", Site, "known", lambda number: min(number, 2**53))
sums_as("what_is_owed_has_32_bits", Site, "owed", lambda number: number % 2**32)
sums_as("what_is_owed_has_31_bits", Site, "owed", lambda number: number % 2**31)


def status_sum(key):
    def plant(limits):
        right = RunningSite.status

        def status(site):
            values = site_model.json.loads(right(site))
            values[key] %= 2**32
            return site_model.json.dumps(values, separators=(",", ":"))

        RunningSite.status = status

    return plant


for key in ("issued", "spent", "received"):
    BUGS[f"status_{key}_has_32_bits"] = status_sum(key)


# ---- spends


@replaces(Site, "spend")
def a_full_queue_is_passed_by_what_is_held(right, site, amount, deadline):
    if len(site.waiting) + len(site.outcomes) >= 32 and site.held >= amount >= 1 and not site.is_closed:
        return f"spent {site.spend_now(amount)}"
    return right(amount, deadline)


@replaces(Site, "spend")
def spends_beyond_what_waits_are_served_at_once(right, site, amount, deadline):
    if site.waiting and 1 <= amount <= min(site.held - site.queued, 10**9):
        return f"spent {site.spend_now(amount)}"
    return right(amount, deadline)


@replaces(Site, "spend")
def a_spend_with_a_deadline_of_0_does_not_wait(right, site, amount, deadline):
    if deadline == 0 and 1 <= amount <= 10**9 and not site.is_closed and (site.waiting or site.held < amount):
        raise Refusal("Short")
    return right(amount, deadline)


@replaces(Site, "spend")
def only_31_spends_wait(right, site, amount, deadline):
    if len(site.waiting) == 31 and not site.outcomes and 1 <= amount <= 10**9 and amount > site.held:
        raise Refusal("QueueFull")
    return right(amount, deadline)


@replaces(Site, "status")
def the_slot_of_a_served_spend_stays_taken(right, site, ticket):
    said = right(ticket)
    if said.startswith("spent"):
        site.outcomes[-ticket] = 0
    return said


@replaces(Site, "status")
def an_outcome_ends_all_before_it(right, site, ticket):
    said = right(ticket)
    if said != "unknown" and said != "waiting":
        site.outcomes = {other: number for other, number in site.outcomes.items() if other > ticket}
    return said


@replaces(Site, "status")
def a_waiting_spend_whose_deadline_is_over_is_expired(right, site, ticket):
    late = [request for request in site.waiting if request.ticket == ticket and request.deadline < site.now]
    return "expired" if late else right(ticket)


@replaces(Site, "status")
def outcomes_have_the_number_of_the_ticket(right, site, ticket):
    said = right(ticket)
    return f"spent {ticket}" if said.startswith("spent") else said


@replaces(Site, "serve")
def the_last_that_waits_is_served_first(right, site):
    site.waiting.reverse()
    try:
        return right()
    finally:
        site.waiting.reverse()


@replaces(Site, "serve")
def the_earliest_deadline_is_served_first(right, site):
    site.waiting.sort(key=lambda request: request.deadline)
    return right()


@replaces(Site, "serve")
def the_smallest_that_waits_is_served_first(right, site):
    site.waiting.sort(key=lambda request: request.amount)
    return right()


@replaces(Site, "serve")
def what_waits_needs_a_right_more(right, site):
    if site.waiting and site.held == site.waiting[0].amount:
        return "nothing"
    return right()


@replaces(Site, "serve")
def a_served_spend_has_no_outcome_but_its_own_tick(right, site):
    said = right()
    if said == "nothing" and not site.waiting:
        site.outcomes = {ticket: number for ticket, number in site.outcomes.items() if number is not None or ticket > 40}
    return said


@replaces(Site, "expire")
def only_from_the_front_spends_expire(right, site, time):
    place = next((place for place, request in enumerate(site.waiting) if request.deadline >= time), len(site.waiting))
    rest, site.waiting = site.waiting[place:], site.waiting[:place]
    said = right(time)
    site.waiting += rest
    return said


@replaces(Site, "expire")
def expired_spends_have_no_outcome(right, site, time):
    said = right(time)
    site.outcomes = {ticket: number for ticket, number in site.outcomes.items() if number is not None}
    return said


@replaces(Site, "expire")
def a_deadline_counts_one_tick_more(right, site, time):
    was = site.now
    if time < was:
        return right(time)
    said = right(was)
    site.now = time
    return said


@replaces(Site, "expire")
def a_refused_time_is_noted(right, site, time):
    try:
        return right(time)
    except Refusal:
        site.now = time
        raise


@replaces(Site, "expire")
def times_have_63_bits(right, site, time):
    if time >= 2**63:
        raise Refusal("TimeWentBack")
    return right(time)


@replaces(Site, "expire")
def times_are_compared_with_a_sign(right, site, time):
    if signed(64)(time) < signed(64)(site.now):
        raise Refusal("TimeWentBack")
    return right(time)


@replaces(RunningSite, "tick")
def a_refused_tick_sends_beats(right, site, time):
    if time < site.desk.now:
        for peer in site.peers:
            site.send_due(peer)
    return right(time)


@replaces(RunningSite, "tick")
def a_refused_tick_plans(right, site, time):
    if time < site.desk.now:
        site.desk.plan()
    return right(time)


@replaces(RunningSite, "tick")
def a_tick_plans_before_it_expires(right, site, time):
    if time >= site.desk.now:
        while site.desk.serve() != "nothing":
            pass
        said = site.desk.plan()
        return right(time).replace("asks 0", said)
    return right(time)



@replaces(RunningSite, "tick")
def only_the_first_tick_of_a_time_plans(right, site, time):
    plan = Site.plan
    if time == site.desk.now and time > 0:
        Site.plan = lambda self: "asks 0"
    try:
        return right(time)
    finally:
        Site.plan = plan


# ---- what is written, and closing


@replaces(Site, "close")
def a_frontier_begins_with_its_own_place(right, site, heir=None):
    def change(last):
        others = [number for o, number in enumerate(last.moves[-1].values, 1) if o != site.number]
        return [*last.moves[:-1], Move("K", (0, *others))]

    return closes_with(site, right, heir, change)


@replaces(Site, "close")
def a_frontier_has_the_peers_alone(right, site, heir=None):
    def change(last):
        others = [number for o, number in enumerate(last.moves[-1].values, 1) if o != site.number]
        return [*last.moves[:-1], Move("K", tuple(others))]

    return closes_with(site, right, heir, change)


@replaces(Site, "close")
def a_frontier_counts_entries(right, site, heir=None):
    counts = [len(site.peers[o].applied) if o in site.peers else 0 for o in range(1, len(site.peers) + 2)]
    return closes_with(site, right, heir, lambda last: [*last.moves[:-1], Move("K", tuple(counts))])


@replaces(Site, "close")
def a_frontier_has_the_highest_seen_numbers(right, site, heir=None):
    told = [site.peers[o].buffer.told if o in site.peers else 0 for o in range(1, len(site.peers) + 2)]
    return closes_with(site, right, heir, lambda last: [*last.moves[:-1], Move("K", tuple(told))])


@replaces(Site, "close")
def a_frontier_has_what_was_held(right, site, heir=None):
    ends = [max([0, *(e.own for e in site.peers[o].buffer.arrived.values())]) if o in site.peers else 0
            for o in range(1, len(site.peers) + 2)]  # fmt: skip
    return closes_with(site, right, heir, lambda last: [*last.moves[:-1], Move("K", tuple(ends))])


@replaces(Site, "close")
def an_heir_gets_what_others_have_given_back(right, site, heir=None):
    if heir is not None and not site.is_closed and not site.waiting and site.held == 0 and heir in site.peers and not site.knows_closed(heir):
        site.append(Move("I", (1,)))
        return f"number {end(site.log)}"
    return right(heir)


@replaces(Site, "close")
def a_close_serves_what_waits(right, site, heir=None):
    if not site.is_closed:
        while site.serve() != "nothing":
            pass
    return right(heir)


@replaces(Site, "close")
def a_close_drops_outstanding_asks(right, site, heir=None):
    said = right(heir)
    for peer in site.peers.values():
        peer.outstanding = None
    return said


@replaces(Site, "close")
def a_busy_queue_is_judged_after_the_heir(right, site, heir=None):
    if site.waiting and heir is not None and not site.is_closed:
        site.judge_named([heir])
    return right(heir)


@replaces(Site, "close")
def nothing_is_left_to_a_closed_heir_without_a_word(right, site, heir=None):
    if heir in site.peers and site.knows_closed(heir) and not site.is_closed and not site.waiting:
        return right(None)
    return right(heir)



@replaces(Site, "judge_named")
def any_site_above_n_is_the_own_site(right, site, named):
    if any(other > len(site.peers) + 1 for other in named):
        raise Refusal("SameSite")
    right(named)


@replaces(Site, "knows_closed")
def a_plain_close_is_no_close(right, site, other):
    applied = site.peers[other].applied
    return bool(applied) and applied[-1].moves[-1].letter == "K"


@replaces(Site, "knows_closed")
def a_close_that_is_held_counts(right, site, other):
    return right(other) or any(entry.moves[-1].closes for entry in site.peers[other].buffer.kept)


@replaces(Site, "issue")
def what_is_issued_is_capped(right, site, amount):
    if not site.is_closed and 1 <= amount <= 10**9 and site.held + amount > 4 * 10**9:
        raise Refusal("BadAmount")
    return right(amount)


# ---- taking back


@replaces(Site, "owed")
def takes_back_by_the_first_place(right, site, entry):
    last = entry.moves[-1]
    if last.letter != "K":
        return 0
    applied = last.values[0 if entry.origin > 1 else 1]
    return total([e for e in site.log if e.prev >= applied], "GR", entry.origin)


@replaces(Site, "owed")
def takes_back_entries_that_end_there(right, site, entry):
    last = entry.moves[-1]
    if last.letter != "K":
        return 0
    applied = last.values[site.number - 1]
    return total([e for e in site.log if e.own >= applied], "GR", entry.origin)


@replaces(Site, "owed")
def takes_back_what_was_given_to_anybody(right, site, entry):
    last = entry.moves[-1]
    if last.letter != "K":
        return 0
    applied = last.values[site.number - 1]
    return total([e for e in site.log if e.prev >= applied], "GR")


@replaces(Site, "owed")
def takes_back_what_was_sent_alone(right, site, entry):
    last = entry.moves[-1]
    if last.letter != "K":
        return 0
    applied, sent = last.values[site.number - 1], site.log[: site.peers[entry.origin].published]
    return total([e for e in sent if e.prev >= applied], "GR", entry.origin)


@replaces(RunningSite, "take_entries")
def what_comes_back_waits_for_a_tick(right, site, peer, entries):
    count = len(site.desk.log)
    right(peer, entries)
    late = [e for e in site.desk.log[count:] if e.moves[0].letter == "V"]
    if late:
        del site.desk.log[count:]
        site.late = [*getattr(site, "late", []), *late]
