"""The lines between sites, spelled and read, for the models of tests.

It is "Lines between sites" of docs/PROTOCOL.md, read anew. No part of the program is used here.
"""

import re
from dataclasses import dataclass
from functools import cached_property

# The greatest number of a log, amount and number of an ask.
GREATEST = 10**9

# Ranges of numbers.
SITES = range(1, 17)
COUNTS = range(2, 17)
NUMBERS = range(GREATEST + 1)
AMOUNTS = ASKS = range(1, GREATEST + 1)
TOTALS = range(1, 10**18 + 1)
ANY = range(2**64)

# Bytes of a line with its line feed, at most.
MOST_BYTES = 16_384
MOST_MOVES = 16
# Entries of an answer, at most.
MOST_ANSWERED = 16

# The causes by which a line is refused. Noise is never too long and never without its end.
BAD_KIND, BAD_FIELD, BAD_MOVE, COUNT_WRONG, TRAILING_BYTES = 3, 4, 5, 6, 7


# ---- numbers and moves

DECIMAL = re.compile(rb"0|[1-9][0-9]{0,19}")


def number_in(text, numbers):
    """The number of this range that a text spells, or None."""
    if not DECIMAL.fullmatch(text):
        return None
    number = int(text)
    return number if number in numbers else None


def numbers_in(texts, ranges):
    """The number of each text, by its range; None where one has none, or the counts differ."""
    if len(texts) != len(ranges):
        return None
    numbers = tuple(number_in(text, numbers) for text, numbers in zip(texts, ranges))
    return None if None in numbers else numbers


def values_in(words, forms):
    """The numbers that the words spell by the first of these forms that they have, or None."""
    found = (numbers_in(words, ranges) for ranges in forms)
    return next((values for values in found if values is not None), None)


# The values of each move that always has the same count of them.
MOVE_VALUES = {
    b"I": (AMOUNTS,),
    b"S": (AMOUNTS,),
    b"G": (SITES, AMOUNTS, ASKS),
    b"R": (SITES, AMOUNTS),
    b"C": (),
    b"V": (SITES, TOTALS),
}


@dataclass(frozen=True)
class Move:
    """A move, by its letter and its values as they are spelled."""

    letter: str
    values: tuple[int, ...] = ()

    def __str__(self):
        return ":".join([self.letter, *map(str, self.values)])

    @cached_property
    def peer(self):
        """The site that it names, or None."""
        return self.values[0] if self.letter in "GRV" else None

    @cached_property
    def amount(self):
        if self.letter in "IS":
            return self.values[0]
        return self.values[1] if self.letter in "GRV" else 0

    @property
    def closes(self):
        return self.letter in "CK"


def read_move(text):
    """The move that a field spells, or None. Of what entry it is does not matter here."""
    letter, *values = text.split(b":")
    if letter == b"K" and len(values) in COUNTS:
        ranges = (NUMBERS,) * len(values)
    elif letter in MOVE_VALUES:
        ranges = MOVE_VALUES[letter]
    else:
        return None
    numbers = numbers_in(values, ranges)
    return None if numbers is None else Move(letter.decode(), numbers)


# ---- messages, spelled as lines without their line feed


@dataclass(frozen=True)
class Entry:
    origin: int
    prev: int
    moves: tuple[Move, ...]

    def __str__(self):
        return f"E {self.origin} {self.prev} {self.own} {' '.join(map(str, self.moves))}"

    @cached_property
    def own(self):
        return self.prev + len(self.moves)


@dataclass(frozen=True)
class Query:
    asker: int
    origin: int
    first: int
    last: int

    def __str__(self):
        return f"Q {self.asker} {self.origin} {self.first} {self.last}"


@dataclass(frozen=True)
class Answer:
    origin: int
    asker: int
    entries: tuple[Entry, ...]

    def __str__(self):
        return ";".join([f"A {self.origin} {self.asker}", *map(str, self.entries)])


@dataclass(frozen=True)
class Beat:
    origin: int
    number: int

    def __str__(self):
        return f"B {self.origin} {self.number}"


@dataclass(frozen=True)
class Ask:
    asker: int
    asked: int
    number: int
    amount: int

    def __str__(self):
        return f"W {self.asker} {self.asked} {self.number} {self.amount}"


@dataclass(frozen=True)
class Denial:
    denier: int
    asker: int
    number: int

    def __str__(self):
        return f"D {self.denier} {self.asker} {self.number}"

@dataclass(frozen=True)
class Hello:
    site: int

    def __str__(self):
        return f"H {self.site}"


# ---- why a line is refused

# The fixed fields behind the letter of each kind.
FIXED_FIELDS = {
    b"E": (SITES, NUMBERS, NUMBERS),
    b"Q": (SITES, SITES, NUMBERS, NUMBERS),
    b"A": (SITES, SITES),
    b"B": (SITES, NUMBERS),
    b"W": (SITES, SITES, ASKS, AMOUNTS),
    b"D": (SITES, SITES, ASKS),
    b"H": (SITES,),
}

# The kinds whose two sites must differ.
BETWEEN_TWO = {b"Q", b"A", b"W", b"D"}


def may_stand(move, origin, is_last):
    """Whether the move may stand in an entry of this origin; None may not."""
    if move is None or move.peer == origin or (move.closes and not is_last):
        return False
    return move.letter != "K" or move.values[origin - 1 : origin] == (0,)


def fault_of_entry(text, origin=None):
    """Why the text is no entry, of this origin where one is given: the cause, or None."""
    kind, *fields = text.split(b" ")
    fixed = numbers_in(fields[:3], FIXED_FIELDS[b"E"])
    if kind != b"E" or fixed is None or origin not in (None, fixed[0]):
        return BAD_FIELD
    origin, prev, own = fixed
    moves = fields[3:]
    for place, move in enumerate(moves, 1):
        if not may_stand(read_move(move), origin, place == len(moves)):
            return BAD_MOVE
    if not 1 <= len(moves) <= MOST_MOVES or own != prev + len(moves):
        return COUNT_WRONG
    return None


def fault_of_entries(texts, origin):
    """Why the texts are not the entries of an answer: the cause, or None."""
    for text in texts:
        if fault := fault_of_entry(text, origin):
            return fault
    return COUNT_WRONG if len(texts) > MOST_ANSWERED else None


def fault_of(text):
    """Why a line, here without its line feed, is refused: the cause, or None where it reads."""
    part, *others = text.split(b";")
    kind, *fields = part.split(b" ")
    if kind not in FIXED_FIELDS:
        return BAD_KIND
    if kind == b"E":
        return fault_of_entry(part) or (TRAILING_BYTES if others else None)
    ranges = FIXED_FIELDS[kind]
    fixed = numbers_in(fields[: len(ranges)], ranges)
    if fixed is None or (kind in BETWEEN_TWO and fixed[0] == fixed[1]):
        return BAD_FIELD
    if len(fields) > len(ranges) or (others and kind != b"A"):
        return TRAILING_BYTES
    return fault_of_entries(others, fixed[0])

# ---- lines that read


def entry_in(text):
    _, origin, prev, _, *moves = text.split(b" ")
    return Entry(int(origin), int(prev), tuple(read_move(move) for move in moves))


# The messages that are numbers alone.
OF_NUMBERS = {b"Q": Query, b"B": Beat, b"W": Ask, b"D": Denial, b"H": Hello}


def message_in(text):
    """The message that a line, here without its line feed, spells, or None."""
    if fault_of(text):
        return None
    part, *others = text.split(b";")
    kind, *fields = part.split(b" ")
    if kind == b"E":
        return entry_in(part)
    numbers = [int(number) for number in fields]
    if kind == b"A":
        return Answer(*numbers, tuple(entry_in(text) for text in others))
    return OF_NUMBERS[kind](*numbers)
