"""An independent, slow model of the scripts of `rights-site sim`, for tests.

It is docs/PROTOCOL.md, read anew. `replies(script)` has the reply to each line. What one site decides is that of
desk_model.py. No part of the program is used here.

Any bytes are a script. The model knows no want of memory: it never says OutOfMemory or Ended.
"""

from dataclasses import dataclass

from desk_model import Peer, Refusal, Site, end, total
from line_model import (
    ANY,
    COUNTS,
    MOST_BYTES,
    SITES,
    Answer,
    Ask,
    Beat,
    Denial,
    Entry,
    Query,
    fault_of,
    numbers_in,
    read_move,
    values_in,
)


# ---- all sites, and the packets between them


@dataclass
class Packet:
    """A message that was sent, and the site that it was made for."""

    to: int
    message: Entry | Query | Answer | Beat | Ask | Denial


class World:
    """All sites, by their numbers, and all packets, the first of which has number 1."""

    def __init__(self, count):
        numbers = range(1, count + 1)
        self.sites = {s: Site(s, {o: Peer() for o in numbers if o != s}) for s in numbers}
        self.packets = []

    def site(self, s):
        if s not in self.sites:
            raise Refusal("NoSuchSite")
        return self.sites[s]

    def send(self, to, message):
        self.packets.append(Packet(to, message))
        return f"packet {len(self.packets)} {message}"

    # -- what a site has of the log of another one

    def put(self, s, o):
        """What the buffer that s has for o put."""
        return self.sites[s].peers[o].buffer.put

    def way(self, o, s):
        """The rights on the way from o to s."""
        log = self.sites[o].log
        behind = log[len(self.sites[s].peers[o].applied) :]
        return total(behind, "GR", s) - total(log, "V", s)

    # -- what goes out

    def publish(self, s, p):
        entry = self.sites[s].next_entry(p)
        return self.send(p, entry) if entry else "nothing"

    def beat(self, s, p):
        return self.send(p, Beat(s, end(self.sites[s].log)))

    def ask(self, s, p):
        outstanding = self.sites[s].peers[p].outstanding
        return self.send(p, outstanding) if outstanding else "nothing"

    def query(self, s, o, again=False):
        gap = self.sites[s].peers[o].buffer.ask(again)
        return self.send(o, Query(s, o, *gap)) if gap else "nothing"

    def requery(self, s, o):
        return self.query(s, o, again=True)

    # -- what comes in

    def arrive(self, s, number):
        self.site(s)
        if not 1 <= number <= len(self.packets):
            raise Refusal("NoPacket")
        packet = self.packets[number - 1]
        if packet.to != s:
            raise Refusal("NotForSite")
        match packet.message:
            case Entry() as entry:
                return self.offer(s, entry)
            case Answer(entries=entries):
                return " ".join([self.offer(s, entry) for entry in entries]) or "empty"
            case Beat(origin=o, number=number):
                self.sites[s].peers[o].buffer.hear(number)
                return "beat"
            case Query() as query:
                answer = self.sites[s].answer_query(query)
                return self.send(query.asker, answer) if answer else "nothing"
            case Ask() as ask:
                return self.answer_ask(ask)
            case Denial() as denial:
                self.sites[s].peers[denial.denier].end_ask(denial.number)
                return "noted"

    def offer(self, s, entry):
        return self.sites[s].peers[entry.origin].buffer.offer(entry)

    def answer_ask(self, ask):
        became = self.sites[ask.asked].answer_ask(ask)
        if became == "denied":
            return self.deny(ask)
        return became if became in ("old", "repeated") else f"granted {became}"

    def deny(self, ask):
        return f"denied {self.send(ask.asker, Denial(ask.asked, ask.asker, ask.number))}"

    def noise(self, _s, _o, text):
        fault = fault_of(text)
        if fault is None:
            raise Refusal("Forged")
        return f"refused {fault}"

    def take(self, s, o):
        site = self.sites[s]
        applied = site.peers[o].applied
        put = self.put(s, o)
        if site.is_closed or len(applied) == len(put):
            return "nothing"
        entry = put[len(applied)]
        back = site.apply(entry)
        return f"taken {entry.own}" + ("" if back is None else f" back {back}")

    # -- the report

    def report(self):
        pairs = [(s, o) for s in self.sites for o in self.sites if o != s]
        lines = [site_line(site) for site in self.sites.values()]
        lines += [self.pair_line(s, o) for s, o in pairs]
        logs = [entry for site in self.sites.values() for entry in site.log]
        held = sum(site.held for site in self.sites.values())
        way = sum(self.way(o, s) for s, o in pairs)
        sums = f"issued {total(logs, 'I')} spent {total(logs, 'S')} held {held} way {way}"
        return "\n".join([*lines, f"total {sums}"])

    def pair_line(self, s, o):
        applied = end(self.sites[s].peers[o].applied)
        return f"pair {s} {o} applied {applied} put {end(self.put(s, o))} way {self.way(o, s)}"


def site_line(site):
    issued, spent = total(site.log, "I"), total(site.log, "S")
    return (
        f"site {site.number} number {end(site.log)} issued {issued} spent {spent}"
        f" held {site.held} closed {int(site.is_closed)}"
    )


# ---- commands

# The numbers behind each name, in each form that it has.
FORMS = {
    b"sites": [(COUNTS,)],
    b"give": [(SITES, SITES, ANY)],
    b"spend": [(SITES, ANY, ANY)],
    b"close": [(SITES,), (SITES, SITES)],
    b"report": [()],
    **dict.fromkeys([b"serve", b"plan"], [(SITES,)]),
    **dict.fromkeys([b"issue", b"expire", b"status", b"arrive"], [(SITES, ANY)]),
    **dict.fromkeys([b"ask", b"publish", b"beat", b"query", b"requery"], [(SITES, SITES)]),
    b"take": [(SITES, SITES)],
}

# Events at the desk of one site, and events between two. Each is a method of that name.
AT_A_DESK = {"post", "issue", "give", "spend", "serve", "expire", "status", "plan", "close"}
ON_A_LINK = {"ask", "publish", "beat", "query", "requery", "noise", "take"}


def values_of(name, words):
    """The values of the command of this name, or None where it has no such form."""
    if name == b"post":
        sites = numbers_in(words[:1], [SITES])
        moves = [read_move(word) for word in words[1:]]
        return None if sites is None or None in moves else (*sites, *moves)
    if name == b"noise":
        sites = numbers_in(words[:2], [SITES, SITES])
        return None if sites is None or len(words) < 3 else (*sites, b" ".join(words[2:]))
    return values_in(words, FORMS.get(name, []))


def command_in(line):
    """The name and the values of the command that a line spells."""
    name, *words = line.split(b" ")
    values = values_of(name, words)
    # A line feed counts, also where the last line has none.
    if values is None or len(line) + 1 > MOST_BYTES:
        raise Refusal("BadCommand")
    return name.decode(), values


class Model:
    """Answers a script, a line at a time."""

    def __init__(self):
        self.world = None

    def reply(self, line):
        """The reply to a line, both without their last line feed."""
        try:
            return self.answer(*command_in(line)).encode()
        except Refusal as refusal:
            return f"error {refusal}".encode()

    def answer(self, name, values):
        if name == "sites":
            return self.begin(*values)
        if self.world is None:
            raise Refusal("NoWorld")
        if name in AT_A_DESK:
            return getattr(self.world.site(values[0]), name)(*values[1:])
        if name in ON_A_LINK and self.world.site(values[0]) is self.world.site(values[1]):
            raise Refusal("NoSuchSite")
        return getattr(self.world, name)(*values)

    def begin(self, count):
        if self.world is not None:
            raise Refusal("BadCommand")
        self.world = World(count)
        return "ok"


def lines_of(script):
    """The lines of a script without their line feeds. An unfinished last one is a line too."""
    lines = script.split(b"\n")
    return lines if lines[-1] else lines[:-1]


def replies(script):
    """The reply to each line of a script, without its last line feed."""
    model = Model()
    return [model.reply(line) for line in lines_of(script)]
