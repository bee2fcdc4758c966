"""Scripts for `rights-site sim` that are made from seeds, for tests.

`script(seed, commands)` is the same for the same seed, whatever Python runs it. It has 2 to 16
sites, all commands, packets that are lost, repeated and overtaken, sites that close in the middle
of traffic, noise, and lines of no form. The model runs beside, so that most commands find
something to do.
"""

import random

from line_model import ANY, GREATEST, MOST_BYTES
from script_model import Model

# The greatest deadline and time.
LATEST = ANY[-1]


# ---- what two sites, or one, are wanted for


def any_link(_world, _s, _o):
    return True


def is_open(world, s, _o):
    return not world.sites[s].is_closed


def has_waiting(world, s, _o):
    """Spends wait at s."""
    return bool(world.sites[s].waiting)


def can_publish(world, s, o):
    """Entries of s were not published to o."""
    return world.sites[s].peers[o].published < len(world.sites[s].log)


def can_take(world, s, o):
    """An entry of o is next at s."""
    site = world.sites[s]
    return not site.is_closed and len(site.peers[o].applied) < len(world.put(s, o))


def has_gap(world, s, o):
    """Entries of o are missing at s."""
    return world.sites[s].peers[o].buffer.gap is not None


def has_ask(world, s, o):
    """An ask of s to o is outstanding."""
    return world.sites[s].peers[o].outstanding is not None


def is_rich(world, s, o):
    """s knows of rights of o."""
    return not world.sites[s].is_closed and world.sites[s].known(o) > 0


# ---- a script in the making


class Maker:
    """A script in the making: its lines so far, and the model that answered them."""

    def __init__(self, seed, commands):
        self.random = random.Random(seed)
        self.model = Model()
        self.lines = []
        self.commands = commands
        # The packets that neither arrived nor were lost.
        self.fresh = []
        self.style = Style(self)

    # -- chance

    def below(self, count):
        """A number below a count, 0 where the count is 0."""
        return self.random.randrange(count) if count else 0

    def between(self, least, most):
        return least + self.below(most - least + 1)

    def hits(self, percent):
        """True so many times in a hundred."""
        return self.below(100) < percent

    def one_of(self, things):
        return things[self.below(len(things))]

    def weighted(self, cases):
        """The thing of one of these pairs of a weight and a thing."""
        rest = self.below(sum(weight for weight, _ in cases))
        for weight, thing in cases:
            if rest < weight:
                return thing
            rest -= weight
        raise ValueError("no weights")

    # -- what the script led to

    @property
    def world(self):
        return self.model.world

    @property
    def left(self):
        """How many more commands there may be."""
        return self.commands - len(self.lines)

    @property
    def count(self):
        """How many sites there are."""
        return len(self.world.sites)

    @property
    def sent(self):
        """How many packets were sent."""
        return len(self.world.packets) if self.world else 0

    def site(self, s):
        return self.world.sites[s]

    def last_deadline(self, s):
        return max((request.deadline for request in self.site(s).waiting), default=0)

    # -- lines

    def add(self, line):
        """Adds a line, unless the script has as many as it may."""
        if self.left == 0:
            return
        before = self.sent
        self.model.reply(line)
        self.lines.append(line)
        self.fresh += range(before + 1, self.sent + 1)

    def tell(self, *words):
        """Adds the command of these words."""
        self.add(spelled(*words))

    # -- sites and packets to choose

    def site_for(self, wanted):
        """A site that fits, any one where none does."""
        start = self.between(1, self.count)
        fitting = (s for s in self.round_from(start) if wanted(self.world, s, None))
        return next(fitting, start)

    def link_if(self, wanted):
        """Two sites that fit, or None."""
        firsts = self.round_from(self.between(1, self.count))
        seconds = self.round_from(self.between(1, self.count))
        links = ((s, o) for s in firsts for o in seconds if s != o)
        return next((link for link in links if wanted(self.world, *link)), None)

    def link_for(self, wanted):
        """Two sites that fit, any two where none do."""
        link = self.link_if(wanted)
        if link is None:
            s = self.between(1, self.count)
            link = (s, self.peer_of(s))
        return link

    def round_from(self, start):
        """All sites, from this one around."""
        return [*range(start, self.count + 1), *range(1, start)]

    def peer_of(self, s):
        """Another site than this one."""
        return self.one_of(self.round_from(s)[1:])

    def peer_for(self, s):
        """A peer of a site; now and then a site that may be absent, or itself."""
        return self.weighted([(1, s), (1, self.between(1, 16)), (28, self.peer_of(s))])

    def packet_like(self, kind):
        """A packet of this kind, any one where there is none."""
        numbers = range(1, self.sent + 1)
        start = self.below(self.sent)
        fitting = (n for n in [*numbers[start:], *numbers[:start]] if self.text_of(n)[:1] == kind)
        return next(fitting, start + 1)

    def text_of(self, packet):
        """The line of a packet, without its line feed; nothing where there is none."""
        if not 1 <= packet <= self.sent:
            return b""
        return str(self.world.packets[packet - 1].message).encode()

    def addressee(self, packet):
        """The site that a packet was made for."""
        return self.world.packets[packet - 1].to if 1 <= packet <= self.sent else 1

    def deliver(self, packet):
        self.tell("arrive", self.addressee(packet), packet)

    def deliver_last(self):
        self.deliver(self.sent)

    def next_packet(self):
        """Removes a packet that neither arrived nor was lost; None where there is none."""
        place = self.below(len(self.fresh)) if self.hits(self.style.overtaken) else 0
        return self.fresh.pop(place) if self.fresh else None

    def may_close(self):
        """Whether a site may close now: mostly two go on until near the end."""
        open_sites = [site for site in self.world.sites.values() if not site.is_closed]
        return self.left < 60 or len(open_sites) > 2 or self.hits(10)


def spelled(*words):
    return " ".join(map(str, words)).encode()


class Style:
    """What a script is mostly about: how often each kind of step comes, and how packets fare."""

    def __init__(self, maker):
        self.steps = [
            (maker.between(10, 40), write),
            (maker.between(20, 50), publish),
            (maker.between(30, 80), arrive),
            (maker.between(10, 50), take),
            (maker.between(5, 25), query),
            (maker.between(10, 60), request),
            (maker.between(1, 6) if maker.hits(40) else 1, close),
            (3, report),
            (40 if maker.hits(20) else 12, wild),
            (maker.between(2, 12), story),
        ]
        # Of a hundred packets, so many are lost, repeated, or overtaken by others.
        self.lost = maker.below(40)
        self.repeated = maker.between(2, 25)
        self.overtaken = maker.below(80)


def script(seed, commands):
    """A script of so many commands."""
    maker = Maker(seed, commands)
    while maker.left:
        step(maker)
    made = b"".join(line + b"\n" for line in maker.lines)
    return made[:-1] if maker.hits(20) else made


def step(maker):
    """Adds one command, or a few; now and then none."""
    if maker.world:
        maker.weighted(maker.style.steps)(maker)
    elif maker.hits(45):
        maker.add(maker.one_of(EARLY))
    else:
        few, many = maker.between(4, 5), maker.between(6, 15)
        maker.tell("sites", maker.weighted([(4, 2), (3, 3), (1, few), (1, many), (1, 16)]))


# ---- writing


def amount_for(maker, s):
    """An amount, mostly one that the site can pay."""
    held = maker.site(s).held
    return maker.weighted(
        [
            (1, 0),
            (1, GREATEST + 1),
            (1, LATEST),
            (2, GREATEST),
            (2, held + 1),
            (3, held),
            (10, maker.between(1, max(held, 1))),
            (20, maker.between(1, 12)),
        ]
    )


def write(maker):
    s = maker.site_for(maker.weighted([(90, is_open), (10, any_link)]))
    name = maker.weighted([(2, "issue"), (2, "give"), (1, "spend"), (3, "post")])
    amount = amount_for(maker, s)
    if name == "issue":
        maker.tell("issue", s, amount)
    elif name == "give":
        maker.tell("give", s, maker.peer_for(s), amount)
    elif name == "spend":
        maker.tell("spend", s, amount, 0)
    else:
        post(maker, s)


def post(maker, s):
    some, many = maker.between(1, 6), maker.between(7, 15)
    count = maker.weighted([(1, 0), (1, 16), (1, 17), (1, many), (16, some)])
    most = min(maker.site(s).held, 30) if maker.hits(80) else 60
    maker.tell("post", s, *(move_of(maker, s, max(most, 1)) for _ in range(count)))


def move_of(maker, s, most):
    """The text of a move of the site, mostly one that may be posted."""
    n = maker.between(1, most)
    j = maker.peer_for(s)
    return maker.weighted(
        [
            (1, f"G:{j}:{n}:1"),
            (1, f"V:{j}:{n}"),
            (1, "C"),
            (1, "K:0:0"),
            (3, f"I:{GREATEST}"),
            (54, f"I:{n}"),
            (15, f"S:{n}"),
            (24, f"R:{j}:{n}"),
        ]
    )


def close(maker):
    if not maker.may_close():
        return write(maker)
    s = maker.site_for(is_open)
    if maker.hits(70):
        expire_all(maker, s)
    if maker.hits(15):
        # The site holds about the greatest amount that an heir can be left.
        maker.tell("issue", s, max(GREATEST - maker.site(s).held, 0) + maker.below(3))
        maker.tell("close", s, maker.peer_of(s))
    elif maker.hits(50):
        maker.tell("close", s, maker.peer_for(s))
    else:
        maker.tell("close", s)


def report(maker):
    maker.tell("report")


# ---- packets


def publish(maker):
    for _ in range(maker.between(1, 3)):
        link = maker.link_if(maker.weighted([(96, can_publish), (4, any_link)]))
        if link is None:
            return write(maker)
        maker.tell("publish", *link)


def arrive(maker):
    if maker.hits(maker.style.repeated):
        return arrive_again(maker)
    if maker.hits(maker.style.lost):
        maker.next_packet()
    packet = maker.next_packet()
    if packet is None:
        return publish(maker)
    maker.deliver(packet)


def arrive_again(maker):
    """A packet arrives that may have come already, now and then at another site."""
    kinds = [(3, b"W"), (1, b"D"), (1, b"Q"), (1, b"A"), (1, b"B"), (1, b"E")]
    packet = maker.packet_like(maker.weighted(kinds))
    s = maker.addressee(packet) if maker.hits(95) else maker.site_for(any_link)
    maker.tell("arrive", s, packet)


def take(maker):
    for _ in range(maker.between(1, 4)):
        link = maker.link_if(maker.weighted([(96, can_take), (4, any_link)]))
        if link is None:
            return arrive(maker)
        maker.tell("take", *link)


def query(maker):
    link = maker.link_if(has_gap)
    if link is None:
        return maker.tell("beat", *maker.link_for(any_link))
    s, o = link
    cases = [(1, ("beat", o, s)), (1, ("requery", s, o)), (2, ("query", s, o))]
    maker.tell(*maker.weighted(cases))


# ---- spends that wait, and asks


def request(maker):
    """Adds a command on spends that wait, or on asks."""
    return maker.weighted(
        [
            (3, lambda: queue(maker, maker.link_for(is_rich)[0])),
            (1, lambda: queue(maker, maker.site_for(is_open))),
            (2, lambda: maker.tell("plan", maker.site_for(has_waiting))),
            (3, lambda: maker.tell("ask", *maker.link_for(has_ask))),
            (1, lambda: maker.tell("ask", *maker.link_for(any_link))),
            (2, lambda: maker.tell("serve", maker.site_for(has_waiting))),
            (2, lambda: status(maker)),
            (2, lambda: expire(maker)),
        ]
    )()


def queue(maker, s):
    """Queues a spend of more than a site holds."""
    site = maker.site(s)
    some, more = site.held + maker.between(1, 20), site.held + maker.between(1, 90)
    amounts = [(1, GREATEST), (1, amount_for(maker, s)), (1, more), (9, some)]
    soon = min(site.now + maker.below(25), LATEST)
    deadlines = [(1, 0), (1, LATEST - maker.below(3)), (18, soon)]
    maker.tell("spend", s, maker.weighted(amounts), maker.weighted(deadlines))


def status(maker):
    s = maker.site_for(any_link)
    maker.tell("status", s, maker.below(maker.site(s).tickets + 2))


def expire(maker):
    s = maker.site_for(has_waiting)
    now, last = maker.site(s).now, maker.last_deadline(s)
    times = [
        (2, max(now - 1, 0)),
        (1, now),
        (1, last),
        (1, last + 1),
        (1, maker.below(now + 1)),
        (14, now + maker.below(9)),
    ]
    maker.tell("expire", s, min(maker.weighted(times), LATEST))


def expire_all(maker, s):
    """Lets all spends that wait at a site expire, if there are some."""
    time = max(min(maker.last_deadline(s) + 1, LATEST), maker.site(s).now)
    if time > 1:
        maker.tell("expire", s, time)


# ---- stories: commands that belong together, and lead to states that are rare otherwise


def story(maker):
    stories = [(1, flood), (3, drain), (5, ask_round), (4, heal), (2, crowd), (3, retire)]
    maker.weighted(stories)(maker)


def flood(maker):
    """More entries arrive than are held, as the first of them does not; then the gap is closed."""
    if maker.left < 260:
        return heal(maker)
    s, p = maker.link_for(is_open)
    count = maker.between(65, 72)
    for _ in range(count):
        maker.tell("issue", s, 1)
    before = maker.sent
    publish_times(maker, s, p, count + 4)
    for packet in range(before + 1 + maker.between(1, 2), maker.sent + 1):
        maker.tell("arrive", p, packet)
    for _ in range(maker.between(1, 5)):
        heal_link(maker, p, s)


def publish_times(maker, s, p, count):
    for _ in range(count):
        maker.tell("publish", s, p)


def take_times(maker, s, o, count):
    for _ in range(count):
        maker.tell("take", s, o)


def drain(maker):
    """What was not published is, what did not arrive does, and all is taken."""
    tell_while(maker, can_publish, "publish")
    for _ in range(maker.between(2, 12)):
        if maker.fresh:
            maker.deliver(maker.fresh.pop(0))
    tell_while(maker, can_take, "take")


def tell_while(maker, wanted, name):
    """Adds some commands of this name, as long as two sites fit."""
    for _ in range(maker.between(2, 12)):
        link = maker.link_if(wanted)
        if link is None:
            return
        maker.tell(name, *link)


def enrich(maker, s, p):
    """A site issues rights, and another one hears of it."""
    maker.tell("issue", s, maker.between(5, 40))
    maker.tell("publish", s, p)
    maker.deliver_last()
    maker.tell("take", p, s)


def ask_round(maker):
    """A site lacks rights, asks, and is given some or none."""
    s, p = maker.link_for(is_rich)
    if maker.hits(60):
        expire_all(maker, p)
    if maker.hits(60):
        enrich(maker, p, s)
    queue(maker, s)
    if maker.hits(15):
        queue(maker, p)
    maker.tell("plan", s)
    maker.tell("ask", s, p)
    for _ in range(maker.between(1, 2)):
        maker.deliver(maker.packet_like(b"W"))
    maker.deliver_last()
    for _ in range(maker.between(1, 3)):
        maker.tell("publish", p, s)
        maker.deliver_last()
    take_times(maker, s, p, maker.between(1, 4))
    maker.tell("serve", s)


def heal(maker):
    """A site hears how far a log goes, asks for what it lacks, and gets it."""
    s, o = maker.link_for(maker.weighted([(60, has_gap), (40, any_link)]))
    maker.tell("beat", o, s)
    maker.deliver_last()
    heal_link(maker, s, o)
    take_times(maker, s, o, maker.between(0, 6))


def heal_link(maker, s, o):
    maker.tell("requery" if maker.hits(50) else "query", s, o)
    maker.deliver_last()
    maker.deliver_last()


def crowd(maker):
    """More spends wait than there is room for."""
    if maker.left < 100:
        return drain(maker)
    s = maker.site_for(is_open)
    for _ in range(maker.between(24, 38)):
        queue(maker, s)
    for _ in range(maker.between(0, 6)):
        enrich(maker, maker.peer_of(s), s)
        maker.tell("serve", s)
    if maker.hits(80):
        expire_all(maker, s)


def retire(maker):
    """A site closes with rights on their way to it, and what it did not apply is taken back."""
    if not maker.may_close():
        return ask_round(maker)
    s, c = maker.link_for(is_open)
    for _ in range(maker.between(1, 4)):
        n = maker.between(1, 9)
        maker.tell("issue", s, n)
        maker.tell("give", s, c, n)
    for _ in range(maker.between(0, 5)):
        maker.tell("publish", s, c)
        maker.deliver_last()
        maker.tell("take", c, s)
    expire_all(maker, c)
    heir = [maker.peer_of(c)] if maker.hits(40) else []
    maker.tell("close", c, *heir)
    publish_times(maker, c, s, maker.between(0, 3))
    drain(maker)


# ---- lines that are mostly refused, and noise

# Lines that come before there is a world.
EARLY = [
    b"report", b"beat 1 2", b"sites 1", b"sites 17", b"sites 2 2", b"sites", b"sites 0", b"",
    b"post 1", b"post 1 ", b"take 1 2", b"noise 1 2 ", b"sites 02", b"arrive 1 1",
]

# Lines of no form, and some that only look so.
LINES = [
    b"", b" ", b"foo", b"report ", b" report", b"report 1", b"Report", b"sites 2", b"sites 3",
    b"sites 1", b"post", b"post 1", b"post 1 ", b"post 17 I:1", b"post 0", b"post 1 I:0",
    b"post 1 I:1000000001", b"post 1 I:1  S:1", b"post 1 I:1 ", b"post 1 K:0", b"post 1 K:7:7",
    b"post 1 V:1:4", b"post 1 G:1:1:1", b"post 1 R:1:1", b"post 1 R:16:1", b"post 1 R:17:1",
    b"post 1 R:1:1 R:16:1", b"post 2 C", b"post 1 I:1 C", b"issue 1", b"issue 1 01", b"issue 1 +1",
    b"issue 1 1 ", b"issue  1 1", b"issue 1 18446744073709551615", b"issue 1 18446744073709551616",
    b"issue 1 99999999999999999999999999999999999999999", b"issue 16 1", b"give 1 1 1",
    b"give 1 17 1", b"give 1 16 1", b"give 1 2 0", b"spend 1 0 0", b"spend 1 1",
    b"spend 1 1 18446744073709551616", b"spend 1 1000000001 0", b"serve", b"serve 16", b"serve 0",
    b"expire 1 18446744073709551616", b"status 1 0", b"status 1 00", b"plan 16", b"plan 1 1",
    b"ask 1 1", b"publish 2 2", b"take 1 1", b"close 1 1", b"close 1 0", b"arrive 1 0",
    b"arrive 1 18446744073709551615",
]

# More such lines, each of which comes more often.
MORE = [
    b"query 1 1", b"requery 2 2", b"beat 1 1", b"beat 1 16", b"noise", b"noise 1", b"noise 2 1",
    b"noise 2 1 ", b"noise 1 1 x", b"noise 1 16 B 1 5", b"noise 0 1 x", b"noise 2  1 x",
    b"noise 01 2 x", b"close 1 16", b"status 16 1", b"expire 16 1", b"report\r", b"issue\t1\t1",
    b"issue 1 1\0", b"issue 1 1\r",
]

# Texts of noise, of each fault and of none, and about each limit.
NOISE = [
    b"", b"hello", b"X 1", b" ", b";", b"B 1 5", b"B 1 5 ", b"B 1 5\r", b"B 1", b"B 1 1000000001",
    b"B 1 5B 1 5", b"B 17 5", b"E 1 0 1 I:5", b"E 1 0 01 I:5", b"E 1 0 2 I:5", b"E 1 0 2 C I:5",
    b"E 1 0 1 I:0", b"E 1 0 1 R:1:3", b"E 1 0 1 I:5 ", b"E 17 0 1 I:5", b"E 1 0 1", b"E 1 0",
    b"E 1 0 1  I:5", b"E 1 0 1 K:0:0", b"E 1 0 1 K:1:0", b"E 1 0 1 K:0", b"E 1 0 2 V:2:5 I:1",
    b"E 1 0 1 I:5;", b"E 1 999999999 1000000000 C", b"E 1 1000000000 1000000001 C", b"A 1 2",
    b"A 1 2;", b"A 1 2;E 2 0 1 I:5", b"A 1 2;E 1 0 1 I:5", b"A 1 2 ;X", b"Q 2 2 1 4", b"Q 2 1 1 4",
    b"W 2 1 0 6", b"D 1 2 1", b"H 1 2", b"E 3 0 1 K:0:0",
    b"E 1 0 1 K" + b":0" * 16, b"E 1 0 1 K" + b":0" * 17,
    b"E 1 0 16" + b" I:1" * 16, b"E 1 0 17" + b" I:1" * 17,
    b"A 1 2" + b";E 1 0 1 I:1" * 16, b"A 1 2" + b";E 1 0 1 I:1" * 17,
    b"E 1 0 1 V:2:1000000000000000000", b"E 1 0 1 V:2:1000000000000000001",
]

# Names of commands of two or three numbers.
NAMES = [
    "issue", "give", "spend", "expire", "status", "ask", "publish", "query", "requery", "beat",
    "arrive", "take", "close", "noise",
]

# Ordinary commands.
COMMANDS = [
    b"report", b"post 1 I:10 S:4 R:2:3", b"issue 1 10", b"give 1 2 3", b"spend 2 6 9", b"serve 2",
    b"plan 2", b"ask 2 1", b"publish 1 2", b"arrive 2 1", b"take 2 1", b"noise 2 1 B 1 5",
]


def wild(maker):
    """Adds a line that is mostly refused."""
    maker.weighted(
        [
            (4, lambda: maker.add(maker.one_of(LINES))),
            (2, lambda: maker.add(maker.one_of(MORE))),
            (4, lambda: add_noise(maker, maker.one_of(NOISE))),
            (2, lambda: noise_of_a_packet(maker)),
            (1, lambda: any_bytes(maker)),
            (1, lambda: any_numbers(maker)),
            (1, lambda: long_line(maker) if maker.hits(10) else damaged_command(maker)),
            (1, lambda: damaged_command(maker)),
        ]
    )()


def add_noise(maker, text):
    maker.add(spelled("noise", *maker.link_for(any_link)) + b" " + text)


def byte_of(maker):
    """A byte, never a line feed."""
    letter = maker.between(33, 126)
    high = maker.between(128, 255)
    signs = [(1, sign) for sign in b" 0;:1"]
    return bytes([maker.weighted([*signs, (1, high), (2, letter)])])


def damaged(maker, text):
    """A text with a byte dropped, changed or added."""
    place = maker.below(len(text))
    before, behind = text[:place], text[place:]
    byte = byte_of(maker)
    return maker.one_of([before + behind[1:], before + byte + behind[1:], before + byte + behind])


def noise_of_a_packet(maker):
    """The text of a packet comes as noise, mostly damaged."""
    text = maker.text_of(maker.between(1, max(maker.sent, 1)))
    add_noise(maker, damaged(maker, text) if maker.hits(80) else text)


def any_bytes(maker):
    text = b"".join(byte_of(maker) for _ in range(maker.below(24)))
    if maker.hits(50):
        maker.add(text)
    else:
        add_noise(maker, text)


def any_numbers(maker):
    """A command of two or three numbers, of sites and packets that may be absent."""
    count = maker.between(2, 3)
    mosts = [maker.count if maker.hits(80) else 18 for _ in range(count)]
    maker.tell(maker.one_of(NAMES), *(maker.between(0, most) for most in mosts))


def long_line(maker):
    """A line whose length is about the greatest one."""
    begun, filler = maker.one_of([(b"noise 2 1 ", b"x"), (b"post 1 I:1 S:1000", b"0")])
    maker.add(begun.ljust(MOST_BYTES + maker.between(-2, 2), filler))


def damaged_command(maker):
    maker.add(damaged(maker, maker.one_of(COMMANDS)))
