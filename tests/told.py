"""Whether what sites told is what their journals have: checkers of recorded histories, which know nothing of
processes."""

import collections
import json
import re

from journal_kit import Entry, Holdings, read_batches

# ---- the calls of one process, as tests/disk.c writes them down

Call = collections.namedtuple("Call", "name first second data")

REPLY = re.compile(r"(?:number|spent) ([0-9]+)")
TICKET = re.compile(r"queued ([0-9]+)")
METRIC = re.compile(r"rights_(issued|spent|received)_total ([0-9]+)")
REPORT = re.compile(r"rights-site: ended: issued ([0-9]+) spent ([0-9]+) given [0-9]+ received ([0-9]+) .*")
MOVES = re.compile(r"rights_log_moves_total ([0-9]+)")
APPLIED = re.compile(r'rights_peer_moves_applied_total\{peer="([0-9]+)"\} ([0-9]+)')


def read_calls(content):
    """The calls of a record. The last one may be cut short, where the process was killed."""
    calls, at = [], 0
    while (end := content.find(b"\n", at)) >= 0:
        name, *numbers = content[at:end].decode().split(" ")
        first, second, length = map(int, numbers)
        data = content[end + 1 : end + 1 + length]
        if len(data) < length:
            break
        calls.append(Call(name, first, second, data))
        at = end + 1 + length
    return calls


def facts_of(line):
    """What a line that leaves a site tells of its log, of what it applied, of its asks and its tickets."""
    if found := REPLY.fullmatch(line) or MOVES.fullmatch(line):
        yield "number", int(found[1])
    elif found := TICKET.fullmatch(line):
        yield "ticket", int(found[1])
    elif found := METRIC.fullmatch(line):
        yield "sum", found[1], int(found[2])
    elif found := APPLIED.fullmatch(line):
        yield "applied", int(found[1]), int(found[2])
    elif found := REPORT.fullmatch(line):
        for name, value in zip(("issued", "spent", "received"), found.groups()):
            yield "sum", name, int(value)
    elif line.startswith('{"closed":'):
        yield from facts_of_status(json.loads(line))
    elif re.match("[EABW] [0-9]", line):
        yield from facts_of_message(line)


def facts_of_status(status):
    yield "number", status["number"]
    for name in ("issued", "spent", "received"):
        yield "sum", name, status[name]
    for peer in status["peers"]:
        yield "applied", peer["site"], peer["applied"]


def facts_of_message(line):
    """Of a line to a peer. An answer has entries behind its first part."""
    first, *entries = line.split(";")
    fields = first.split(" ")
    for text in entries + [first] * (fields[0] == "E"):
        yield "entry", text
    if fields[0] == "B":
        yield "number", int(fields[2])
    if fields[0] == "W":
        yield "ask", int(fields[2]), int(fields[3]), int(fields[4])


def has(holdings, fact):
    """Whether a fact follows from these holdings."""
    kind, *of = fact
    if kind == "number":
        return of[0] <= holdings.number
    if kind == "ticket":
        return of[0] <= holdings.tickets
    if kind == "sum":
        return of[1] <= holdings.values()[of[0]]
    if kind == "applied":
        return of[1] <= holdings.numbers_applied().get(of[0], 0)
    if kind == "ask":
        return holdings.asks.get(of[0], {}).get(of[1]) == of[2]
    return of[0] in holdings.texts


class Disk:
    """A file as calls leave it: what a read shows, what is durable, and the calls since the last sync."""

    def __init__(self, content=b""):
        self.content, self.durable, self.pending = bytearray(content), bytes(content), []
        self.holdings, self.place = Holdings(), 0
        self.read_on()

    def read_on(self):
        """Takes the records of the batches that are durable by now."""
        batches, rest = read_batches(self.durable[self.place :])
        for records in batches:
            for record in records:
                self.holdings.take(record)
        self.place = len(self.durable) - len(rest)

    def carry_out(self, call):
        """A fault of the call, or None."""
        if call.name == "sync":
            self.durable, self.pending = bytes(self.content), []
            self.read_on()
            return None
        fault = None
        if call.name == "write":
            if any(each.name == "write" for each in self.pending):
                fault = "a write follows one that was not synced"
            if call.first != self.place or any(self.content[self.place :]):
                fault = f"a write at {call.first}, and the records end at {self.place} of {len(self.content)} bytes"
            # Zero bytes may stand behind the records.
            self.content[call.first : call.first + len(call.data)] = call.data
        else:
            del self.content[call.first :]
        self.pending.append(call)
        return fault


def bytes_out(calls):
    """Each call by which bytes left, with its place, its stream, and those of the bytes that did; None where it was
    closed."""
    waits, found = {}, []
    for place, call in enumerate(calls):
        if call.name == "out":
            waits[call.first] = len(found)
            found.append((place, call.first, call.data))
        elif call.name == "left" and call.first in waits:
            begun = waits.pop(call.first)
            found[begun] = (*found[begun][:2], found[begun][2][: max(call.second, 0)])
        elif call.name == "close":
            found.append((place, call.first, None))
    return found


def lines_out(calls):
    """The lines that left, each with the place of the call that brought its end."""
    streams = collections.defaultdict(bytes)
    for place, stream, data in bytes_out(calls):
        if data is None:
            streams.pop(stream, None)
            continue
        *lines, streams[stream] = (streams[stream] + data).split(b"\n")
        for line in lines:
            yield place, line.decode("latin-1").rstrip("\r")


def fault_of_calls(calls, content=b""):
    """Why these calls of a process are wrong, whose journal had this content: what they told before it was durable,
    or a write that is no append. None if they are right."""
    disk, lines = Disk(content), collections.defaultdict(list)
    for place, line in lines_out(calls):
        lines[place].append(line)
    for place, call in enumerate(calls):
        if call.name in ("write", "cut", "sync") and (fault := disk.carry_out(call)):
            return f"call {place}: {fault}"
        for line in lines[place]:
            for fact in facts_of(line):
                if not has(disk.holdings, fact):
                    return f"call {place}: {line!r} left before it was durable: {fact}"
    return None


def facts_told(calls):
    """All that was told in these calls."""
    return [fact for _, line in lines_out(calls) for fact in facts_of(line)]


# ---- power cuts


def image(disk, random):
    """What a power cut may leave of this disk: each call that was not synced is there whole, torn or not at all."""
    content = bytearray(disk.durable)
    for call in disk.pending:
        if call.name == "cut":
            del content[random.randint(min(call.first, len(content)), len(content)) :]
            continue
        way = random.choice(["none", "whole", "begun", "torn", "torn"])
        if way != "none":
            tear(content, call, way, random)
    return bytes(content)


def tear(content, call, way, random):
    """Leaves some bytes of a write: behind the end of the file each other byte is zero, or is not there."""
    length = len(call.data) if way == "whole" else random.randint(0, len(call.data))
    data, at, piece = bytearray(call.data[:length]), 0, random.choice([1, 3, 16, 512])
    old = bytes(content[call.first : call.first + length]).ljust(length, b"\0")
    while way == "torn" and at < length:
        if random.random() < 0.5:
            data[at : at + piece] = old[at : at + piece]
        at += piece
    content[call.first : call.first + length] = data


# ---- what several sites and their clients saw


def fault_of_entries(texts):
    """Two different entries that begin at the same number of a log, among these."""
    seen = {}
    for text in texts:
        entry = Entry(text)
        other = seen.setdefault((entry.origin, entry.before), text)
        if other != text:
            return f"a number with two entries: {other!r} and {text!r}"
    ends = collections.Counter((entry.origin, entry.own) for entry in map(Entry, seen.values()))
    twice = [of for of, count in ends.items() if count > 1]
    return f"two entries of site {twice[0][0]} end at number {twice[0][1]}" if twice else None


def fault_of_asks(texts):
    """An ask number that has two amounts, among these lines of asks, or of entries: one that was granted twice, or
    for more than was asked."""
    asks, grants = {}, {}
    for text in sorted(set(texts), reverse=True):
        if text.startswith("W "):
            asker, asked, number, amount = map(int, text.split(" ")[1:])
            before = asks.setdefault((asker, asked, number), amount)
            if before != amount:
                return f"ask {number} of site {asker} to site {asked} is for {before} and for {amount}"
            continue
        entry = Entry(text)
        for move in entry.moves:
            if move[0] != "G":
                continue
            asker, amount, number = map(int, move[1:])
            key = (asker, entry.origin, number)
            if grants.setdefault(key, entry.text) != entry.text:
                return f"an ask is granted twice: {grants[key]!r} and {entry.text!r}"
            if key in asks and amount > asks[key]:
                return f"{entry.text!r} grants more than {asks[key]}"
    return None


def move_of(command):
    """The move of the entry that this command writes, if it writes one that clients ask for."""
    word, *numbers = command.split(" ")
    if word == "issue":
        return ("I", numbers[0])
    if word == "give":
        return ("R", *numbers)
    return ("S", numbers[0]) if word in ("spend", "take") else None


def parted(command):
    """The key of a command, None if it has none, and the command behind it."""
    if not command.startswith("key "):
        return None, command
    key, _, command = command.removeprefix("key ").partition(" ")
    return key, command


def first_places(commands):
    """The place of each command, and of one that does the same under the same key as one before: that of the first. No
    test has a command carried out again whose key was forgotten."""
    firsts, places = {}, []
    for place, (key, command) in enumerate(map(parted, commands)):
        places.append(place if key is None else firsts.setdefault((key, move_of(command)), place))
    return places


def fault_of_replies(replies, log):
    """A reply of a site that its log does not have. `replies` are pairs of a command and its reply, None where none
    came; of all processes of the site, in any order."""
    entries, places = {entry.own: entry for entry in log}, first_places(command for command, _ in replies)
    told, numbers, tickets = {}, {}, {}
    for place, (_, reply) in zip(places, replies):
        if reply is not None and (found := TICKET.fullmatch(reply)):
            if tickets.setdefault(found[1], place) != place:
                return f"ticket {found[1]} is given out twice"
    for place, (command, reply) in zip(places, replies):
        if reply is None or (found := REPLY.fullmatch(reply)) is None:
            continue
        number, (word, _, ticket) = int(found[1]), command.partition(" ")
        # An outcome is that of the command that got the ticket.
        asked = tickets.get(ticket, place) if word in ("outcome", "cancel") else place
        if told.setdefault(number, asked) != asked:
            return f"number {number} is told twice: {replies[told[number]][0]!r} and {command!r}"
        if numbers.setdefault(asked, number) != number:
            return f"{command!r} was answered {reply!r}, and number {numbers[asked]} before"
        if number not in entries:
            return f"{command!r} was answered {reply!r}, and the log has no such number"
        wanted = move_of(parted(replies[asked][0])[1])
        if wanted is not None and wanted != entries[number].moves[0]:
            return f"{replies[asked][0]!r} was answered {reply!r}, which is {entries[number].text!r}"
    # A command and its repeats ask for one entry.
    return fault_of_moves([parted(replies[place][0])[1] for place in set(places)], log)


def fault_of_moves(commands, log):
    """An entry that nobody asked for: each that is no grant and takes nothing back is of one command."""
    asked = collections.Counter(filter(None, map(move_of, commands)))
    alone = [entry.moves[0] for entry in log if len(entry.moves) == 1]
    made = collections.Counter(move for move in alone if move[0] in "ISR")
    excess = made - asked
    return f"more entries than commands: {dict(excess)}" if excess else None


def fault_of_totals(statuses):
    """Rights that are missing, or too many, where nothing is in transit."""
    issued = sum(status["issued"] for status in statuses)
    there = sum(status["held"] + status["spent"] for status in statuses)
    return None if issued == there else f"{issued} were issued, and {there} are held or were spent"
