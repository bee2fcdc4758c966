"""A site of a system whose other sites are the test, for checks: what it has to say is what the model of a running site
says."""

from site_driver import Node


def in_bytes(line):
    return line if isinstance(line, bytes) else line.encode()


class Trial:
    """A site of a system whose other sites are the test."""

    def __init__(self, command, count=3, late=(), number=1, host="127.0.0.1", keys=None):
        """`late` are the peers that do not listen yet; `host` is where the site is told that they are; `keys` is how many
        keys it is told to remember."""
        self.given = command, count, late, number, host, keys
        self.node = Node(number, count, command, late, host, keys)
        self.time = 0

    def again(self):
        """Another one, from its start."""
        return type(self)(*self.given)

    def __enter__(self):
        return self

    def __exit__(self, *_):
        self.node.close()
        return False

    def say(self, *lines):
        """Commands, each after the reply to the one before."""
        for line in map(in_bytes, lines):
            self.node.give_commands([line])
        self.node.settle()

    def say_twice(self, *lines):
        """Each command two times."""
        for line in lines:
            self.say(line, line)

    def say_together(self, *lines):
        self.node.give_commands([line.encode() for line in lines])
        self.node.settle()

    def hear(self, peer, *lines):
        """Lines of a peer."""
        self.node.give_lines(peer, [in_bytes(line) for line in lines])
        self.node.settle()

    def tick(self, times=1):
        for _ in range(times):
            self.time += 1
            self.say(f"tick {self.time}")

    def end(self, by_quit=True):
        self.node.end(by_quit)

    def finish(self):
        """What a site says later than it should comes before the answer to a last query, or at its end. A check may have
        ended it."""
        if self.node.site.process.poll() is None and not self.node.site.process.stdin.closed:
            for number, peer in self.node.peers.items():
                if peer.hears:
                    self.hear(number)
            self.end()


def entries(origin, *texts, prev=0):
    """The lines of entries of a log, one behind the other, each given as the text of its moves."""
    lines = []
    for text in texts:
        own = prev + len(text.split(" "))
        lines.append(f"E {origin} {prev} {own} {text}")
        prev = own
    return lines


def skips(trial, *lines):
    """Lines that are skipped, each before one that is not. In a line, `%p` and `%n` stand for the numbers that the next
    entry of site 2 has, so that what is not skipped changes something."""
    log = entries(2, *["R:1:1"] * (len(lines) + 1))
    trial.hear(2, log[0])
    for number, (line, entry) in enumerate(zip(lines, log[1:]), 1):
        line = line.replace(b"%p", b"%d" % number).replace(b"%n", b"%d" % (number + 1))
        trial.hear(2, line)
        trial.hear(2, entry)
