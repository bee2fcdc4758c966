"""Inputs for one running site, made from a seed: commands, and lines of peers whose logs are made up as they go."""

import string
from dataclasses import dataclass, field

from desk_model import MOST_HELD, end, ends_closed
from line_model import (
    COUNTS,
    GREATEST,
    MOST_ANSWERED,
    MOST_BYTES,
    Answer,
    Ask,
    Beat,
    Denial,
    Entry,
    Move,
    Query,
    message_in,
)

NO_COMMANDS = [
    b"", b" ", b"issue", b"issue 01", b"issue -1", b"issue 1 ", b"issue  1", b"issue\t1", b"issue 1\r", b"ISSUE 1",
    b"issue 1 1", b"issue 18446744073709551616", b"give 0 1", b"give 17 1", b"give 2", b"spend 1", b"spend 1 2 3",
    b"tick", b"tick +1", b"outcome", b"status 1", b"close 0", b"close 17", b"close 2 3", b"quit 1", b"post 1 I:1",
    b" status", b"status ", b"stat", b"issue +1", b"issue 1_0", b"issue 0x1", b"issue 1.0", b"issue 1\0", b"issue 1\x001",
    b"issue 18446744073709551617", b"give 18 1", b"give +2 1", b"give 02 1", b"spend 1  2", b"tick ", b"close ", b"close 01",
    b"take", b"take 1 2", b"take -1", b"cancel", b"cancel 1 1", b"spend +1 5",
    b"spend 1 +5", b"spend 1 +0", b"queue 1", b"queue ", b"queue +1",
    b"report", b"key", b"key a", b"key a nonsense", b"\xff\xfe", b"\x00", b"H 2", b"x" * (MOST_BYTES - 1), b"x" * MOST_BYTES,
    b"issue ".ljust(MOST_BYTES + 7, b"1"),
]  # fmt: skip

BAD_KEYS = [b"", b"x" * 65, b"\x7f", b"\x80", b"\t", b"a\xff", b"a\r"]

# Weights of the moves of a made up entry, but for those that need something.
LETTERS = {"I": 3, "S": 2, "R": 4, "G": 4, "V": 1}


def weighted(rng, weights):
    return rng.choices(list(weights), list(weights.values()))[0]


@dataclass
class MadeUp:
    """A peer whose log is made up: it says what a site of its number may say."""

    number: int
    log: list[Entry] = field(default_factory=list)
    # The last ask of the site that it granted or denied, and the last of each other site that it granted.
    answered: int = 0
    granted: dict[int, int] = field(default_factory=dict)
    # Its own last ask.
    ask: Ask | None = None

    @property
    def is_closed(self):
        return ends_closed(self.log)


class Inputs:
    """What a site is given, by the state of its model."""

    def __init__(self, rng, model):
        self.rng, self.model = rng, model
        self.others = {number: MadeUp(number) for number in model.peers}
        # Whether large amounts are common, how often this site and the others close, and how many commands come
        # together.
        self.is_large = rng.random() < 0.2
        self.closes = rng.choice([0, 0, 0.002, 0.01])
        self.others_close = rng.choice([0, 0.02, 0.1])
        self.most_together = rng.choice([1, 4, 8])
        # How many of the commands have keys, and the key and the command of each that got a new one.
        self.keyed = rng.choice([0, 0, 0.2, 0.6])
        self.under_keys = []

    @property
    def desk(self):
        return self.model.desk

    # ---- numbers

    def amount(self):
        rng = self.rng
        if rng.random() < 0.05:
            return rng.choice([0, GREATEST, GREATEST + 1, 2**64 - 1])
        if self.is_large and rng.random() < 0.5:
            return rng.randint(1, GREATEST)
        return rng.choice([1, 1, 2, 3, 5, 10, rng.randint(1, 100)])

    def proper_amount(self):
        return min(max(self.amount(), 1), GREATEST)

    def site(self):
        """A site, of the system mostly."""
        return self.rng.randint(1, 16) if self.rng.random() < 0.05 else self.rng.randint(1, self.model.count)

    def time(self):
        rng = self.rng
        if rng.random() < 0.001:
            return 2**64 - 1
        return min(max(0, self.desk.now + rng.choice([-2, -1, 0, 0, 1, 1, 2, 5])), 2**64 - 1)

    def cuts(self, length):
        return [self.rng.randrange(length + 1) for _ in range(self.rng.choice([0, 0, 0, 1, 2]))]

    # ---- commands

    def tick(self):
        return b"tick %d" % self.time()

    def command(self):
        return self.maybe_under_key(self.plain_command())

    def plain_command(self):
        rng = self.rng
        if rng.random() < 0.04:
            return rng.choice(NO_COMMANDS)
        if rng.random() < self.closes:
            return b"close" if rng.random() < 0.5 else b"close %d" % self.site()
        weights = {"issue": 4, "give": 5, "spend": 7, "take": 2, "outcome": 3, "cancel": 1, "tick": 6, "status": 1, "queue": 1}
        name = weighted(rng, weights)
        match name:
            case "issue":
                return b"issue %d" % (self.amount() * rng.choice([1, 1, 10]))
            case "give":
                return b"give %d %d" % (self.site(), self.amount())
            case "spend":
                return b"spend %d %d" % (self.amount(), self.time())
            case "take":
                return b"take %d" % self.amount()
            case "outcome" | "cancel":
                return b"%s %d" % (name.encode(), rng.randint(0, self.desk.tickets + 1))
            case "tick":
                return self.tick()
            case "status" | "queue":
                return name.encode()

    def commands(self):
        rng = self.rng
        if rng.random() < 0.02:
            # The queue becomes full.
            spends = [b"spend %d %d" % (self.desk.held + rng.randint(1, 9), self.time() + 5) for _ in range(36)]
            return [self.maybe_under_key(spend) for spend in spends]
        if rng.random() < 0.02:
            return [b"outcome %d" % ticket for ticket in range(max(0, self.desk.tickets - 40), self.desk.tickets + 1)]
        if rng.random() < 0.02:
            return [b"key %s %s" % each for each in self.under_keys[-40:]]
        lines = [self.command() for _ in range(rng.randint(1, self.most_together))]
        # An outbox has room for what three ticks send.
        while sum(line.startswith(b"tick") for line in lines) > 3:
            lines.remove(next(line for line in lines if line.startswith(b"tick")))
        return lines

    # ---- commands under keys

    def maybe_under_key(self, command):
        may_have_one = command.startswith((b"issue", b"give", b"spend", b"take", b"close"))
        chance = self.keyed if may_have_one else self.keyed / 5
        return b"key %s %s" % self.under_key(command) if self.rng.random() < chance else command

    def under_key(self, command):
        """A key and a command: this one, or that of before, or one that repeats it in other words."""
        rng = self.rng
        if rng.random() < 0.05:
            return rng.choice(BAD_KEYS), command
        if not self.under_keys or rng.random() < 0.4:
            # Of few letters, so that some come twice.
            key = rng.choice(string.ascii_letters) * rng.choice([1, 1, 1, 2, 63, 64])
            self.under_keys.append((key.encode(), command))
            return self.under_keys[-1]
        key, first = rng.choice(self.under_keys[-rng.choice([1, 5, 30, 1000]) :])
        return key, rng.choice([first, first, self.alike(first), command])

    def alike(self, command):
        """A command that does the same, if there is one."""
        name, *words = command.split(b" ")
        match name, words:
            case b"spend" | b"take", [amount, *_]:
                return self.rng.choice([b"take %s" % amount, b"spend %s %d" % (amount, self.time())])
            case b"close", _:
                return self.rng.choice([b"close", b"close %d" % self.site()])
            case _:
                return command

    def commands_of_cluster(self):
        """The same, and ticks more often: without them nobody hears of anything."""
        too_many = self.most_unsent() > 50
        return [self.tick()] if too_many or self.rng.random() < 0.3 else self.commands()

    def most_unsent(self):
        """How many entries the next tick sends to a peer, at most."""
        return max(len(self.desk.log) - peer.published for peer in self.desk.peers.values())

    # ---- logs that are made up

    def move_of(self, other, letter):
        """A move for the next entry of a peer, or None where it may not write one."""
        rng, me = self.rng, self.model.number
        third = rng.choice([site for site in range(1, self.model.count + 1) if site != other.number])
        amount = self.proper_amount()
        if letter in "IS":
            return Move(letter, (amount,))
        if letter == "R":
            return Move("R", (me if rng.random() < 0.7 else third, amount))
        if letter == "V":
            gone = [it.number for it in self.others.values() if it.is_closed and it is not other]
            return Move("V", (rng.choice(gone), amount)) if gone else None
        outstanding = self.desk.peers[other.number].outstanding
        if outstanding and outstanding.number > other.answered:
            other.answered = outstanding.number
            return Move("G", (me, rng.randint(1, outstanding.amount), outstanding.number))
        if third == me:
            return None
        other.granted[third] = other.granted.get(third, 0) + 1
        return Move("G", (third, amount, other.granted[third]))

    def closing_moves(self, other):
        """The moves of a last entry: what it had applied of this site's log is an end within that."""
        rng, me, count = self.rng, self.model.number, self.model.count
        if rng.random() < 0.2:
            return [Move("C")]
        known = [0, *(entry.own for entry in self.desk.log)]
        frontier = [rng.randint(0, 20) for _ in range(count)]
        frontier[me - 1] = rng.choice([known[-1], rng.choice(known)])
        frontier[other.number - 1] = 0
        heir = [Move("R", (me, self.proper_amount()))] if rng.random() < 0.3 else []
        return [*heir, Move("K", tuple(frontier))]

    def write(self, other, closes=False):
        """The peer writes an entry more, if it is open."""
        if other.is_closed:
            return
        rng = self.rng
        if closes:
            moves = self.closing_moves(other)
        else:
            letters = [weighted(rng, LETTERS) for _ in range(rng.choice([1, 1, 1, 2, 3, 5, 16]))]
            moves = [move for letter in letters if (move := self.move_of(other, letter))]
        if moves:
            other.log.append(Entry(other.number, end(other.log), tuple(moves)))

    def grow(self, other):
        rng = self.rng
        for _ in range(rng.choice([0, 0, 1, 1, 2, 4])):
            self.write(other)
        if rng.random() < 0.02:
            # More than are held.
            for _ in range(MOST_HELD + 20):
                self.write(other)
        if rng.random() < self.others_close:
            self.write(other, closes=True)

    # ---- lines of a peer

    def lines(self, number):
        """Some lines of a peer. Asks, denials and queries come alone, since entries that come before them may be
        applied after them."""
        other = self.others[number]
        self.grow(other)
        kind = weighted(self.rng, {"entries": 10, "query": 2, "ask": 3, "denial": 1, "damaged": 2, "flood": 0.7})
        match kind:
            case "entries":
                return [self.entry_line(other) for _ in range(self.rng.choice([1, 1, 2, 5]))]
            case "flood":
                return self.flood(other)
            case "damaged":
                return [self.skipped(other) for _ in range(self.rng.randint(1, 4))]
            case "query":
                return [self.query(other) for _ in range(self.rng.randint(1, 3))]
            case "ask":
                return [self.ask(other)]
            case "denial":
                return [self.denial(other)]

    def entry_line(self, other):
        rng, log = self.rng, other.log
        known = self.desk.peers[other.number]
        done = len(known.buffer.put)
        in_order = {"next": 8, "gap": 2, "answer": 2}
        kind = weighted(rng, {**in_order, "later": 2, "any": 1, "behind": 1, "beat": 3, "hello": 0.2, "skipped": 1})
        if kind == "beat":
            return self.beat(other)
        if kind == "hello":
            return b"H %d" % other.number
        if kind == "skipped":
            return self.skipped(other)
        if kind == "gap" and known.buffer.queried:
            first, last = known.buffer.queried
            return self.answer([entry for entry in log if entry.own >= first and entry.prev < last], other)
        if not log:
            return self.answer([], other)
        if kind == "behind" and ends_closed(known.buffer.put):
            return str(Entry(other.number, end(log), (Move("R", (self.model.number, 1)),))).encode()
        match kind:
            case "later":
                place = min(done + rng.randint(1, 5), len(log) - 1)
            case "any":
                place = rng.randrange(len(log))
            case _:
                place = min(done, len(log) - 1)
        if kind == "answer":
            place = max(0, place - rng.choice([0, 0, 1, 3]))
            return self.answer(log[place : place + rng.randint(0, MOST_ANSWERED)], other)
        return str(log[place]).encode()

    def answer(self, entries, other):
        return str(Answer(other.number, self.model.number, tuple(entries[:MOST_ANSWERED]))).encode()

    def beat(self, other):
        rng = self.rng
        number = rng.choice([end(other.log), end(other.log), 0, rng.randint(0, end(other.log) + 1)])
        if rng.random() < 0.02:
            number = rng.choice([end(other.log) + rng.randint(1, 40), GREATEST])
        return str(Beat(other.number, number)).encode()

    def flood(self, other):
        """Up to 80 entries behind those that were put, in order or not."""
        done = len(self.desk.peers[other.number].buffer.put) + self.rng.randint(0, 1)
        entries = other.log[done : done + 80]
        if self.rng.random() < 0.3:
            self.rng.shuffle(entries)
        return [str(entry).encode() for entry in entries]

    def query(self, other):
        rng, last = self.rng, end(self.desk.log)
        numbers = [0, 1, last, last + 1, GREATEST, rng.randint(0, last), rng.randint(0, last), rng.randint(0, last)]
        return str(Query(other.number, self.model.number, rng.choice(numbers), rng.choice(numbers))).encode()

    def ask(self, other):
        rng = self.rng
        before = other.ask.number if other.ask else 0
        kind = weighted(rng, {"next": 6, "again": 3, "old": 2})
        if kind == "next" or not before:
            number = min(before + rng.choice([1, 1, 1, 3]), GREATEST)
            other.ask = Ask(other.number, self.model.number, number, self.proper_amount())
        elif kind == "old":
            number = rng.randint(1, before)
            return str(Ask(other.number, self.model.number, number, self.proper_amount())).encode()
        return str(other.ask).encode()

    def denial(self, other):
        """Of the ask that is outstanding, or of one that was made before."""
        rng, known = self.rng, self.desk.peers[other.number]
        number = known.asks or 1
        if rng.random() < 0.3:
            number = rng.randint(1, number)
        other.answered = max(other.answered, number)
        return str(Denial(other.number, self.model.number, number)).encode()

    # ---- lines that are skipped

    def skipped(self, other):
        """A line that is none, or none of this peer to this site."""
        line = weighted(self.rng, {self.damaged: 3, self.misplaced: 3, self.strange: 1})(other)
        message = message_in(line) if len(line) < MOST_BYTES else None
        is_heard = message is not None and self.model.concerns(other.number, message)
        return b"" if is_heard or b"\n" in line else line

    def damaged(self, other):
        """A proper line with some bytes changed, gone or more."""
        rng = self.rng
        line = bytearray(str(other.log[-1]).encode() if other.log else b"B %d 5" % other.number)
        for _ in range(rng.randint(1, 3)):
            place = rng.randrange(len(line) + 1)
            texts = [b"", b" ", b"0", b"9", b":", b";", b"\xff", b"\r", b"-"]
            line[place : place + rng.randint(0, 2)] = rng.choice(texts)
        return bytes(line)

    def misplaced(self, other):
        """A proper line of another sender, for another site, or for another system."""
        rng, me, count, p = self.rng, self.model.number, self.model.count, other.number
        third = rng.choice([site for site in range(1, 17) if site not in (me, p)])
        wrong_count = rng.choice([number for number in (count - 1, count + 1) if number in COUNTS])
        frontier = ":".join("0" * wrong_count)
        beyond = min(count + 1, 16)
        entry = f"E {p} {end(other.log)} {end(other.log) + 1}"
        texts = [
            f"E {third} 0 1 I:5", f"E {me} 0 1 I:5", f"B {third} 7", f"B {me} 7", f"Q {third} {me} 1 4",
            f"Q {p} {third} 1 4", f"A {p} {third}", f"A {third} {me}", f"W {third} {me} 9 5", f"W {p} {third} 9 5",
            f"D {third} {me} 1", f"D {p} {third} 1", f"H {third}", f"H {me}", f"{entry} K:{frontier}",
            f"{entry} R:{beyond}:5" if beyond > count else f"H {third}",
            f"A {p} {me};{entry} G:{beyond}:5:1" if beyond > count else f"H {me}",
        ]  # fmt: skip
        return rng.choice(texts).encode()

    def strange(self, other):
        texts = [b"", b" ", b"nonsense", b"x" * MOST_BYTES, b"B 1 5".ljust(40_000, b"1"), b"\xff\x00", b"E", b"A"]
        return self.rng.choice(texts)

    def torn(self, other):
        """A line of entries, or one that is too long, in two parts."""
        self.grow(other)
        line = b"y" * (MOST_BYTES + 1000) if self.rng.random() < 0.1 else self.entry_line(other)
        place = self.rng.randint(0, len(line))
        return line[:place], line[place:]

    def stranger(self):
        me, count = self.model.number, self.model.count
        texts = [b"H 17\n", b"H 0\n", b"\n", b"B 1 5\n", b"H 2 \n", b"h 2\n", b"H 2\r\n", b"x" * 17_000]
        return self.rng.choice([b"H %d\n" % me, b"H %d\n" % (count + 1), *texts])
