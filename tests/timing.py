"""What a site does in time: limits, ticks, and the order of its end. The clock is the test's own (tests/clock.c): it stands
still until the test moves it. So a minute passes at once, and a busy machine changes nothing."""

import glob
import json
import mmap
import os
import resource
import select
import socket
import struct
import tempfile
import time
from contextlib import ExitStack, suppress

from cases import Skipped, case
from cluster import expect, processor_seconds, sees, wait_for
from loopback import connect
from preloaded import ROOM, with_library, with_settings
from web_driver import ENDED, WebCluster, expect_served, post

# What is waited for comes within so many seconds, or never: of the system's clock, not of the test's.
PATIENCE = 30
# So many connections of peers may wait for their first line, and so many of clients stand and close.
MOST_HANDSHAKES, MOST_CLIENTS, MOST_CLOSING = 64, 64, 192
MILLISECONDS, NANOSECONDS = 1000, 10**9


class Clock:
    """The clock of one program, which stands still, and what the program asked of the system. `fails` and `holds` are
    flags: the time of day cannot be read; streams that are shut down wait."""

    # As they stand in the file, each of 8 bytes.
    FIELDS = ["shift", "is_still", "fails", "holds", "accepts", "held", "refused", "wall"]

    def __init__(self):
        file, self.path = tempfile.mkstemp(dir=ROOM.name, prefix="clock-")
        os.ftruncate(file, 8 * len(self.FIELDS))
        self.memory = mmap.mmap(file, 8 * len(self.FIELDS))
        os.close(file)
        self["is_still"] = 1

    def __getitem__(self, field):
        return struct.unpack_from("=q", self.memory, 8 * self.FIELDS.index(field))[0]

    def __setitem__(self, field, value):
        struct.pack_into("=q", self.memory, 8 * self.FIELDS.index(field), value)

    def advance(self, seconds):
        """Moves the clock on."""
        self["shift"] += int(seconds * NANOSECONDS)

    def set_wall(self, seconds):
        """Sets the time of day, by so many seconds from what it would be."""
        self["wall"] = int(seconds * NANOSECONDS)

    def program(self):
        """The program with this clock."""
        return with_library("clock", WebCluster.program, CLOCK_FILE=self.path)


class TimedSite(WebCluster):
    """Site 1 of three, with a clock of the test's own. Its peers are not there, unless they are routed to."""

    def __init__(self, **options):
        self.clock = Clock()
        super().__init__(3, started=[1], programs={1: self.clock.program()}, **options)

    @property
    def site(self):
        return self.sites[1]

    def peer(self, text=b""):
        """A connection that a peer made."""
        stream = connect(self, 1, text)
        stream.settimeout(PATIENCE)
        return stream

    def client(self, *words, **options):
        client = super().client(*words, **options)
        client.stream.settimeout(PATIENCE)
        return client

    def goes_on(self, what, condition):
        """Waits until this is so, while the clock goes on by a tenth of a second each time that it is not."""
        wait_for(what, lambda: condition() or self.clock.advance(0.1), PATIENCE)

    def hears(self, what, **values):
        wait_for(what, sees(self.site, None, **values), PATIENCE)


def ends(stream):
    """Waits for the end of a connection on which nothing comes."""
    with suppress(ConnectionResetError):
        expect(stream.recv(1), b"", "before the end of the connection")


def ends_in_time(stream, clock, seconds):
    """The same, while the clock goes on by steps of so many seconds: a wait may begin after one of them."""
    wait_for("the end of the connection", lambda: clock.advance(seconds) or select.select([stream], [], [], 0.2)[0], PATIENCE)
    ends(stream)


def settles(what, read):
    """Waits until a value stays as it is for a while."""
    seen = [None, 0.0]

    def stays():
        value = read()
        if value != seen[0]:
            seen[:] = value, time.monotonic()
        return time.monotonic() - seen[1] > 0.3

    wait_for(f"{what} settles", stays, PATIENCE)


# ---- limits


def a_first_line_has_five_seconds():
    """However slowly its bytes come; and it has them whole."""
    with TimedSite() as sites, sites.peer(b"H ") as whole, sites.peer(b"H ") as slow:
        time.sleep(0.1)
        sites.clock.advance(4.9)
        whole.sendall(b"2\nE 2 0 2 I:9 R:1:7\n")
        sites.hears("a line that comes in time", received=7)
        for _ in range(6):
            with suppress(OSError):
                slow.sendall(b" ")
            time.sleep(0.1)
            sites.clock.advance(2)
        ends(slow)


def a_link_has_no_limit():
    """An hour of silence, both ways."""
    with TimedSite() as sites, sites.peer(b"H 2\nE 2 0 2 I:9 R:1:3\n") as stream:
        sites.hears("site 2", received=3)
        sites.clock.advance(3600)
        time.sleep(0.1)
        stream.sendall(b"E 2 2 3 R:1:4\n")
        sites.hears("site 2 again", received=7)


def a_client_may_be_idle_for_a_minute():
    with TimedSite() as sites, sites.client() as client:
        expect(client.command("issue 1"), (200, ["number 1"]))
        sites.clock.advance(59)
        time.sleep(0.1)
        expect(client.command("issue 1"), (200, ["number 2"]))
        ends_in_time(client.stream, sites.clock, 61)


def peers_come_after_too_many():
    """More connections than may wait for a first line: the others are closed, and once these are gone, a peer is heard."""
    with TimedSite() as sites:
        with ExitStack() as stack:
            streams = [stack.enter_context(sites.peer()) for _ in range(MOST_HANDSHAKES + 6)]
            for stream in streams[MOST_HANDSHAKES:]:
                ends(stream)

        def is_heard():
            with suppress(OSError), sites.peer(b"H 2\nE 2 0 2 I:9 R:1:7\n"):
                until = time.monotonic() + 1
                while time.monotonic() < until:
                    if sees(sites.site, None, received=7)():
                        return True
            return False

        wait_for("a peer is heard", is_heard, PATIENCE)


def clients_come_after_too_many():
    """More connections than may stand and close, none of which says anything: once they are gone, a client is served."""
    with TimedSite() as sites:
        with ExitStack() as stack:
            for _ in range(MOST_CLIENTS + MOST_CLOSING + 6):
                stack.enter_context(sites.client())
                # So much that the first of those that stand gives way, and that those that close go on.
                sites.clock.advance(0.06)
            settles("how many are accepted", lambda: sites.clock["accepts"])

        def is_served():
            with suppress(OSError, AssertionError):
                sites.clock.advance(1)
                return sites.command("outcome 1") == (200, ["unknown"])

        wait_for("a client is served", is_served, PATIENCE)


def one_that_gets_no_handle_rests():
    """Where the system gives no handle, connections are accepted again after a rest: not at once, and not never."""
    with TimedSite() as sites:
        process = sites.site.process.pid
        limits = resource.prlimit(process, resource.RLIMIT_NOFILE)
        resource.prlimit(process, resource.RLIMIT_NOFILE, (len(os.listdir(f"/proc/{process}/fd")), limits[1]))
        # Of each kind some find no handle. One may have found one, and no second: then it was closed.
        with ExitStack() as stack:
            for _ in range(3):
                stack.enter_context(sites.peer())
                stack.enter_context(sites.client())
            settles("how often it tries", lambda: sites.clock["accepts"])
            before = sites.clock["accepts"]
            sites.goes_on("it tries again", lambda: sites.clock["accepts"] > before)
            settles("how often it tries", lambda: sites.clock["accepts"])
        resource.prlimit(process, resource.RLIMIT_NOFILE, limits)
        with sites.peer(b"H 2\nE 2 0 2 I:9 R:1:7\n"):
            sites.goes_on("a peer is heard", sees(sites.site, None, received=7))
        with sites.client() as client:
            client.send(post("outcome 1"))
            sites.goes_on("a client is answered", lambda: select.select([client.stream], [], [], 0)[0])
            expect_served(client.read(), 200, b"unknown\n")


# ---- ticks


def its_ticks_have_the_time_of_day():
    """In milliseconds since 1970: a spend expires at its deadline, and not before."""
    with TimedSite(tick=100) as sites:
        now = int(time.time() * MILLISECONDS)
        # The program's clock stands at its start, which was just before.
        expect(sites.site.ask_all([f"spend 1 {now + 60_000}", f"spend 1 {now + 3_600_000}"]), ["queued 1", "queued 2"])
        sites.clock.advance(90)
        sites.goes_on("the first expires", lambda: sites.site.ask("outcome 1") == "expired")
        expect(sites.site.ask("outcome 2"), "waiting")
        sites.clock.advance(3600)
        sites.goes_on("the second expires", lambda: sites.site.ask("outcome 2") == "expired")


def deadlines_are_counted_from_its_time():
    """From the time that it shows: `+m` is m milliseconds later, and the latest deadline is a day later."""
    with TimedSite(tick=100) as sites:
        day, times = 86_400_000, [0]

        def deadlines_of(*deadlines):
            """Those of spends that wait then; nothing waits afterwards."""
            replies = sites.site.ask_all([*(f"spend 9 {deadline}" for deadline in deadlines), "queue"])
            waiting = json.loads(replies.pop())["requests"]
            sites.site.ask_all([f"cancel {reply.split()[1]}" for reply in replies if reply.startswith("queued")])
            return [spend["deadline"] for spend in waiting], replies

        def is_found():
            before, _ = deadlines_of("+0")
            if not before or before[0] <= times[-1]:
                return False
            now = before[0]
            found, replies = deadlines_of("+0", "+1", f"+{day}", now + day, now + day + 1, f"+{day + 1}", now - 1)
            # The clock may have gone on meanwhile.
            if deadlines_of("+0")[0] != before:
                return False
            expect(found, [now, now + 1, now + day, now + day, now - 1])
            expect(replies[-3:-1], ["error BadDeadline", "error BadCommand"])
            times.append(now)
            return True

        for _ in range(3):
            sites.goes_on("a tick is done", is_found)
            sites.clock.advance(5)


def ticks_go_on_while_the_time_cannot_be_read():
    """The site's time stands still then: what can be served is served, and no deadline passes."""
    with TimedSite(tick=100) as sites:
        now = int(time.time() * MILLISECONDS)
        expect(sites.site.ask_all([f"spend 1 {now + 60_000}", f"spend 1 {now + 70_000}"]), ["queued 1", "queued 2"])
        sites.clock["fails"] = 1
        sites.clock.advance(90)
        sites.site.ask("issue 1")
        sites.goes_on("one is served", lambda: sites.site.ask("outcome 1") == "spent 2")
        sites.goes_on("the time was not read", lambda: sites.clock["refused"] >= 3)
        expect(sites.site.ask("outcome 2"), "waiting")
        sites.clock["fails"] = 0
        sites.goes_on("the other one expires", lambda: sites.site.ask("outcome 2") == "expired")


def a_wall_clock_that_goes_back():
    """By an hour: the site's time stands still until that is caught up, while the site goes on serving and sending. It
    is said once, and so is the end of it."""
    with TimedSite(tick=100, log=True) as sites:

        def behind():
            return sites.metrics()["rights_clock_behind_seconds"]

        now = int(time.time() * MILLISECONDS)
        expect(sites.site.ask_all([f"spend 1 {now + 600_000}", f"spend 1 {now + 7_200_000}"]), ["queued 1", "queued 2"])
        sites.clock.set_wall(60)
        sites.goes_on("a tick is done", lambda: sites.metrics()["rights_peer_lines_dropped_total", "2"] > 0)
        sites.clock.set_wall(-3540)
        sites.goes_on("it is an hour behind", lambda: 3590 <= behind() <= 3600)
        # Ticks go on, and serve.
        sites.site.ask("issue 1")
        sites.goes_on("a spend is served", lambda: sites.site.ask("outcome 1") == "spent 2")
        seen = behind()
        sites.goes_on("it is caught up by and by", lambda: behind() < seen)
        sites.clock.set_wall(61)
        sites.goes_on("it is caught up", lambda: behind() == 0)
        expect(sites.site.ask("outcome 2"), "waiting")
        sites.clock.set_wall(7300)
        sites.goes_on("the other one expires", lambda: sites.site.ask("outcome 2") == "expired")
        expect(sites.metrics()["rights_commands_refused_total", "TimeWentBack"], 0)
        said = [line.split(": ")[1] for line in sites.site.said().splitlines() if "clock" in line]
        expect(said, ["the wall clock went back", "the wall clock has caught up"])


def faketime():
    """The library of the package faketime, for programs with threads."""
    found = sorted(glob.glob("/usr/lib/*/faketime/libfaketimeMT.so.1"))
    if not found:
        raise Skipped("libfaketime is not here")
    return found[0]


def a_wall_clock_that_is_set_back_by_an_hour():
    """By libfaketime, beside a site whose clock is right. The site sends, and answers who waits, as before."""
    library = faketime()
    with tempfile.TemporaryDirectory() as room:
        shift = os.path.join(room, "shift")

        def set_clock(seconds):
            with open(shift + ".new", "w") as file:
                file.write(f"{seconds:+d}\n")
            os.rename(shift + ".new", shift)

        set_clock(0)
        settings = {"LD_PRELOAD": library, "FAKETIME_TIMESTAMP_FILE": shift, "FAKETIME_NO_CACHE": 1, "FAKETIME_DONT_FAKE_MONOTONIC": 1}
        with WebCluster(2, tick=20, log=True, programs={1: with_settings(WebCluster.program, **settings)}) as sites:

            def is_behind(least, most):
                return lambda: least <= sites.metrics()["rights_clock_behind_seconds"] <= most

            expect(sites.command("issue 9", "give 2 4"), (200, ["number 1", "number 2"]))
            wait_for("it is sent", sees(sites[2], 1, applied=2))
            set_clock(-3600)
            wait_for("it is an hour behind", is_behind(3500, 3600))
            expect(sites.command(f"tick {time.time_ns() // 1000}"), (409, ["error OwnClock"]))
            expect(sites.command("give 2 5"), (200, ["number 3"]))
            wait_for("it is sent", sees(sites[2], 1, applied=3))
            with sites.client() as client:
                client.send(post("spend 99 +60000", target="/wait"))
                wait_for("a spend waits", sees(sites[1], None, queued=99))
                expect(sites.command("issue 99"), (200, ["number 4"]))
                expect_served(client.read(), 200, b"spent 5\n")
            set_clock(0)
            wait_for("it is caught up", is_behind(0, 0))
            expect(sites.command("spend 999 +50", target="/wait"), (200, ["expired"]))
            said = [line.split(": ")[1] for line in sites[1].said().splitlines() if "clock" in line]
            expect(said, ["the wall clock went back", "the wall clock has caught up"])
            expect((sites.end().issued, sites.metrics(2)["rights_received_total"]), (108, 9))


def who_waits_for_a_tick_rests():
    """A client that waits for its spend uses no processor time, also after a tick that did not serve it."""
    with TimedSite() as sites, sites.client() as client:
        client.send(post("spend 5 9", target="/wait"))
        sites.hears("a spend waits", queued=5)
        sites.site.ask_all(["tick 1", "tick 2"])
        used = processor_seconds(sites.site)
        time.sleep(1)
        expect(processor_seconds(sites.site) - used < 0.5, True, "it uses the processor")
        sites.site.ask_all(["issue 5", "tick 3"])
        expect_served(client.read(), 200, b"spent 2\n")


def serve_by_one_tick_each(turns, **settings):
    """Spends of a client that waits, each of which is served by one tick, which comes right after it was queued. The
    program pauses where it mostly does not (tests/schedules.c)."""
    program = with_library("schedules", WebCluster.program, SCHEDULE_PAUSES=100_000, SCHEDULE_STEPS=16_384, **settings)
    with WebCluster(2, started=[1], programs={1: program}) as sites, sites.client() as client:
        client.stream.settimeout(PATIENCE)
        for turn in range(1, turns + 1):
            client.send(post("spend 1 1000000", target="/wait"))
            # Asked without a rest, so that the tick comes soon.
            while '"queued":1,' not in sites[1].ask("status"):
                pass
            sites[1].ask_all(["issue 1", f"tick {turn}"])
            answer = client.read()
            expect((answer.status, answer.body[:6]), (200, b"spent "), f"turn {turn} with {settings}")


def waits_end_with_the_tick_that_serves_them():
    """And not with a later one, whether who waits is slow, or who ticks."""
    for seed in (1, 2):
        serve_by_one_tick_each(20, SCHEDULE_SEED=seed, SCHEDULE_SPARES_MAIN=1)
    serve_by_one_tick_each(10, SCHEDULE_SEED=5)


# ---- the end


def is_ending(idle):
    """Waits until a site that was told to end closes the connection of a client that asks for nothing."""
    expect(idle.has_ended(), True, "the idle connection ends first")


def issued_at_the_end(sites):
    """Waits for the end of a site, for whose limits the clock goes on, and answers what it reports as issued."""
    process = sites.site.process

    def has_ended():
        sites.clock.advance(1)
        return process.poll() is not None

    wait_for("the site ends", has_ended, PATIENCE)
    expect(process.returncode, 0, "its status")
    return next(int(found[1]) for found in map(ENDED.fullmatch, sites.site.said().splitlines()) if found)


def a_tick_before_the_end_is_told():
    """Spends that the last tick served are told as spent, and not as queued, to all who wait for them."""
    with TimedSite() as sites, ExitStack() as stack:
        clients = [stack.enter_context(sites.client()) for _ in range(32)]
        for client in clients:
            client.send(post("spend 1 9", target="/wait"))
        sites.hears("all wait", queued=32)
        sites.site.process.stdin.write(b"issue 32\ntick 1\nquit\n")
        expect({client.read().body[:6] for client in clients}, {b"spent "})
        expect(issued_at_the_end(sites), 32)


def lines_of_the_last_requests_go_out():
    """A request that had begun when the end came may still tick, and its lines are sent."""
    with socket.create_server(("127.0.0.1", 0)) as ear:
        ear.settimeout(PATIENCE)
        with TimedSite(routes={(1, 2): "127.0.0.1:%d" % ear.getsockname()[1]}) as sites:
            with sites.client() as begun, sites.client() as idle:
                expect(idle.command("outcome 1"), (200, ["unknown"]))
                whole = post("issue 7", "give 2 3", "tick 1")
                begun.send(whole[:-7])
                time.sleep(0.2)
                sites.site.process.stdin.write(b"quit\n")
                is_ending(idle)
                begun.send(whole[-7:])
                begun.read()
                stream, _ = ear.accept()
                stream.settimeout(PATIENCE)
                with stream, stream.makefile("rb") as lines:
                    expect([lines.readline() for _ in range(4)], [b"H 1\n", b"E 1 0 1 I:7\n", b"E 1 1 2 R:2:3\n", b"B 1 2\n"])
            expect(issued_at_the_end(sites), 7)


def nothing_is_done_for_clients_that_cannot_be_told():
    """Once the site shuts connections down, the rest of a request is not carried out: here the first one is being shut
    down, and stays so, while a later one still sends commands."""
    with TimedSite() as sites:
        with sites.client() as first, sites.client() as later, sites.client() as idle:
            for client in (first, later, idle):
                expect(client.command("outcome 1"), (200, ["unknown"]))
            whole = post("issue 7", "issue 7")
            for client in (first, later):
                client.send(whole[:-8])
            time.sleep(0.2)
            sites.site.process.stdin.write(b"quit\n")
            is_ending(idle)
            idle.close()
            settles("what is shut down", lambda: len(os.listdir(f"/proc/{sites.site.process.pid}/fd")))
            sites.clock["holds"] = 1
            # For a second replies are still sent, and for another one lines.
            for _ in range(4):
                sites.clock.advance(1.1)
                time.sleep(0.1)
            wait_for("a connection is being shut down", lambda: sites.clock["held"] > 0, PATIENCE)
            later.send(whole[-8:])
            time.sleep(0.3)
            sites.clock["holds"] = 0
        expect(issued_at_the_end(sites), 0, "rights that were issued")


CASES = [case("Timing", [
    a_first_line_has_five_seconds, a_link_has_no_limit, a_client_may_be_idle_for_a_minute, peers_come_after_too_many,
    clients_come_after_too_many, one_that_gets_no_handle_rests, its_ticks_have_the_time_of_day,
    deadlines_are_counted_from_its_time, ticks_go_on_while_the_time_cannot_be_read, a_wall_clock_that_goes_back,
    a_wall_clock_that_is_set_back_by_an_hour,
    who_waits_for_a_tick_rests, waits_end_with_the_tick_that_serves_them,
    a_tick_before_the_end_is_told, lines_of_the_last_requests_go_out, nothing_is_done_for_clients_that_cannot_be_told,
])]  # fmt: skip
