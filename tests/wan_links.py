"""Links between places that are far apart, on loopback: proxies that hold back what goes through them.

A proxy passes on all that it reads, in order, after half a round trip. It waits for nothing else: any rate goes through. A
place can be cut off: what comes to its links then stays in them, as TCP keeps it for a network that is away, and goes
on once the place is back. All links run in one process of their own, which ends with the one that started it.
"""

import asyncio
import multiprocessing
import selectors
import socket
from collections import deque

# Seconds between two looks at whether a place is cut off.
LOOK = 0.002


class Links:
    """Proxies, in a process of their own once they are started."""

    def __init__(self, round_trips):
        """`round_trips` has the milliseconds from one place to another one and back, by the pair of their numbers."""
        fork = multiprocessing.get_context("fork")
        self.round_trips = round_trips
        self.links = []
        self.away = fork.Value("i", 0, lock=False)
        self.process = fork.Process(target=self.run, daemon=True)

    def to(self, port, here, there):
        """The port at which someone `here` reaches this port of a program that is `there`: itself, where that is one place."""
        if here == there:
            return port
        delay = self.round_trips[min(here, there), max(here, there)] / 2000
        server = socket.create_server(("127.0.0.1", 0), backlog=100)
        self.links.append(Link(server, port, (here, there), delay, self.away))
        return server.getsockname()[1]

    def cut(self, place):
        """Cuts a place off from all others."""
        self.away.value = place

    def heal(self):
        self.away.value = 0

    def run(self):
        # The time-outs of select are finer than the milliseconds of epoll.
        loop = asyncio.SelectorEventLoop(selectors.SelectSelector())
        loop.run_until_complete(self.serve())

    async def serve(self):
        loop = asyncio.get_running_loop()
        for link in self.links:
            await loop.create_server(link.accept, sock=link.server)
        was_away = 0
        while True:
            await asyncio.sleep(LOOK)
            if self.away.value != was_away:
                was_away = self.away.value
                for link in self.links:
                    link.pass_on()

    def __enter__(self):
        self.process.start()
        for link in self.links:
            link.server.close()
        return self

    def __exit__(self, *_):
        self.process.kill()
        self.process.join()
        return False


class Link:
    """What listens in the place of a program that is elsewhere."""

    def __init__(self, server, port, places, delay, away):
        self.server, self.port, self.places, self.delay, self.away = server, port, places, delay, away
        self.ends = set()

    def is_cut(self):
        return self.away.value in self.places

    def accept(self):
        return Near(self)

    def pass_on(self):
        for end in list(self.ends):
            end.pass_on()


class End(asyncio.Protocol):
    """One end of a connection. What it reads leaves by the other end."""

    def __init__(self, link):
        self.link = link
        self.other = self.transport = None
        self.unsent = deque()
        # How many of them have been under way for long enough.
        self.due = 0

    def connection_made(self, transport):
        self.transport = transport
        self.link.ends.add(self)

    def data_received(self, data):
        self.send_later(data)

    def connection_lost(self, _):
        self.send_later(None)

    def send_later(self, data):
        """Sends data, or the end of the connection."""
        self.unsent.append(data)
        asyncio.get_running_loop().call_later(self.link.delay, self.arrive)

    def arrive(self):
        self.due += 1
        self.pass_on()

    def pass_on(self):
        while self.due and self.other.transport is not None and not self.link.is_cut():
            self.due -= 1
            data = self.unsent.popleft()
            if data is None:
                self.other.transport.close()
                self.link.ends.discard(self)
            elif not self.other.transport.is_closing():
                self.other.transport.write(data)


class Near(End):
    """The end of the program that connected. It makes the other one."""

    def connection_made(self, transport):
        super().connection_made(transport)
        self.other = End(self.link)
        self.other.other = self
        self.connecting = asyncio.get_running_loop().create_task(self.connect())

    async def connect(self):
        try:
            await asyncio.get_running_loop().create_connection(lambda: self.other, "127.0.0.1", self.link.port)
            self.pass_on()
        except OSError:
            self.transport.close()
