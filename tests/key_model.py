"""The keys of commands, for the models of tests: which commands a site remembers by their keys, and what became of each.

It is "Keys of commands" of docs/PROTOCOL.md, read anew. No part of the program is used here.
"""

from dataclasses import dataclass, field

# The bytes that a key may have, and how many of them.
VISIBLE = range(0x21, 0x7F)
LENGTHS = range(1, 65)
# How many keys of commands that wrote entries a site remembers: if it is not told, and what it may be told.
USUAL_KEYS = 1_000_000
COUNTS_OF_KEYS = range(10_000_001)
# So many keys of spends that expired it remembers.
MOST_EXPIRED = 10_000
# The commands that may have a key: those that write entries.
KEYED = ("issue", "give", "spend", "take", "close")


def is_key(text):
    return len(text) in LENGTHS and all(byte in VISIBLE for byte in text)


def deed_of(name, values):
    """What a command does, so that another one under its key is its repeat if it does the same."""
    match name:
        case "spend" | "take":
            return ("spend", values[0])
        case "close":
            return ("close",)
        case _:
            return (name, *values)


def deed_of_entry(moves):
    """What the command did that wrote an entry of these moves; None if no command of a client writes such a one."""
    if moves[-1].closes:
        return ("close",)
    if len(moves) > 1:
        return None
    names = {"I": "issue", "R": "give", "S": "spend"}
    return (names[moves[0].letter], *moves[0].values) if moves[0].letter in names else None


def reply_of(deed, number):
    """The reply to a command that did this by the entry of this number."""
    return f"{'spent' if deed[0] == 'spend' else 'number'} {number}"


@dataclass
class Known:
    """A command that is remembered by its key."""

    deed: tuple
    # The reply to its repeat.
    reply: str
    # The number of the entry that it wrote; the ticket of a spend that waits, or waited.
    number: int | None = None
    ticket: int | None = None


def put_last(part, key, known, most):
    """Remembers it as the newest of these. The oldest are forgotten, so that there are at most so many."""
    part[key] = known
    while len(part) > most:
        del part[next(iter(part))]


@dataclass
class Keys:
    """What a site remembers by keys, in three parts, each with the oldest first."""

    # So many commands that wrote entries are remembered, at most.
    most: int = USUAL_KEYS
    written: dict[bytes, Known] = field(default_factory=dict)
    waiting: dict[bytes, Known] = field(default_factory=dict)
    expired: dict[bytes, Known] = field(default_factory=dict)

    def find(self, key):
        """The command of a key, None if the key is free."""
        parts = (self.written, self.waiting, self.expired)
        return next((part[key] for part in parts if key in part), None)

    def note(self, key, deed, reply):
        """The command of a free key was carried out, and had this reply."""
        word, number = reply.split(" ")
        if word == "queued":
            self.waiting[key] = Known(deed, reply, ticket=int(number))
        else:
            self.write(key, Known(deed, reply, int(number)))

    def write(self, key, known):
        """It wrote an entry."""
        put_last(self.written, key, known, self.most)

    def end(self, ticket, number):
        """A spend waits no longer: the entry of this number served it, or it expired. It may have no key."""
        key = next((key for key, known in self.waiting.items() if known.ticket == ticket), None)
        if key is None:
            return
        known = self.waiting.pop(key)
        if number is None:
            known.reply = "expired"
            put_last(self.expired, key, known, MOST_EXPIRED)
        else:
            known.reply, known.number = reply_of(known.deed, number), number
            self.write(key, known)
