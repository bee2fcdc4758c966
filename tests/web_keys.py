"""Tests of keys of commands over HTTP: how a request gives one, what repeats are answered, and many clients of one key."""

import random
import socket
import threading
import time
from contextlib import ExitStack, suppress

from cluster import PATIENCE, Cluster, expect, wait_for
from web_driver import alone, expect_served, post, request, samples, seats
from web_requests import GETS, MOST_CLIENTS
from web_sites import REFUSED, expect_slots, waiting

FIELD = "Idempotency-Key"
# The names of refusals, in their order.
REFUSALS = [
    "Closed", "BadCount", "BadMove", "BadAmount", "NoSuchSite", "SameSite", "PeerClosed", "LogFull", "Short", "OutOfMemory",
    "QueueFull", "QueueBusy", "HeldTooMuch", "TimeWentBack", "BadCommand", "BadDeadline", "OwnClock", "BadKey", "KeyRefused",
    "KeyReused",
]  # fmt: skip


def under(key, command, target="/"):
    """A request whose command has this key."""
    return request("POST", target, command.encode() + b"\n", f"{FIELD}: {key}")


def remembering(keys):
    """One site of two that remembers so many keys, whose peer is not there."""
    return alone(programs={1: [Cluster.program, "run", "--keys", str(keys)]})


def expect_replies(client, status, reply, *requests):
    for each in requests:
        expect_served(client.ask(each), status, f"{reply}\n".encode(), what=f"{each[:200]!r}")


# ---- a key


def a_key_in_a_field_is_that_in_a_line():
    with alone() as sites, sites.client() as client:
        expect_replies(client, 200, "number 1", under("a", "issue 10"), under("a", "issue 10"), post("key a issue 10"))
        expect(sites[1].ask_all(["key a issue 10", "key b take 2"]), ["number 1", "spent 2"])
        expect_replies(client, 200, "spent 2", under("b", "take 2"), post("key b spend 2 9"), under("b", "spend 2 0", "/wait"))
        expect_replies(client, 409, "error KeyReused", under("a", "issue 9"), post("key a take 10"), under("b", "take 3", "/wait"))
        expect_replies(client, 409, "error Short", under("c", "take 9"), under("c", "take 9", "/wait"), post("key c take 9"))
        expect_replies(client, 200, "number 3", under("c", "give 2 1"), under("c", "give 2 1", "/wait"))
        expect(client.command("key c give 2 1", "key d issue 1", "key d issue 1", "key d issue 2", "key  issue 1"),
               (200, ["number 3", "number 4", "number 4", "error KeyReused", "error BadKey"]))  # fmt: skip
        expect((sites[1].status()["keys"], sites[1].status()["number"]), (4, 4))


def the_field_may_be_written_as_any():
    """Its name in any case, and spaces around its value do not count. Its value counts byte by byte."""
    with alone() as sites, sites.client() as client:
        for name in ("Idempotency-Key", "idempotency-key", "IDEMPOTENCY-KEY", "iDEMPOTENCY-kEY"):
            for value in ("a", " a", "   a  ", "\ta\t"):
                expect_replies(client, 200, "number 1", request("POST", "/", b"issue 1", f"{name}:{value}"))
        for number, key in enumerate(['"a"', "A", "a,b", "a;b=c", "x" * 64, "!", "~", "%61", "a=1"], 2):
            expect_replies(client, 200, f"number {number}", under(key, "issue 1"), under(key, "issue 1"), post(f"key {key} issue 1"))
        for other in ("Idempotency", "X-Idempotency-Key", "Idempotency_Key", "Idempotency-Key-2"):
            expect(client.ask(request("POST", "/", b"spend 1 0", f"{other}: a")).body[:6], b"spent ", other)
        expect(sites[1].status()["spent"], 4)


def requests_that_give_no_good_key():
    """400, and nothing is carried out."""
    with alone() as sites, sites.client() as client:
        expect_replies(client, 200, "number 1", under("a", "issue 100"))
        bad = ["", " ", "x" * 65, "a b", "a\tb", "a, b", "\xe9", "a\xff", "\x80", "x" * 64 + "\xe9"]
        for target in ("/", "/wait"):
            for value in bad:
                for body in (b"issue 1\n", b"issue 1", b"", b"issue 1\nissue 1\n", b"nonsense", b"quit", b"key b issue 1", b"\n"):
                    expect_replies(client, 400, "error BadKey", latin(target, body, f"{FIELD}: {value}"))
            for fields in ([f"{FIELD}: a", f"{FIELD}: a"], [f"{FIELD}: a", f"{FIELD}: b"], [f"{FIELD}: a", f"{FIELD}:"], [f"{FIELD}: a"] * 3,
                           ["idempotency-key: a", "host-is: x", "IDEMPOTENCY-KEY: a"]):  # fmt: skip
                expect_replies(client, 400, "error BadKey", request("POST", target, b"issue 100\n", *fields))
        expect((sites[1].status()["number"], sites[1].status()["keys"]), (1, 1))


def latin(target, body, *fields):
    """A request whose fields may have any bytes."""
    lines = [f"POST {target} HTTP/1.1", "host: localhost", f"content-length: {len(body)}", *fields, "", ""]
    return "\r\n".join(lines).encode("latin-1") + body


def bodies_that_are_not_one_line():
    """A key is for one command."""
    with alone() as sites, sites.client() as client:
        for target in ("/", "/wait"):
            for body in (b"", b"issue 1\nissue 1\n", b"issue 1\n\n", b"\nissue 1\n", b"issue 1\nissue 1", b"\n\n", b"issue 1\n" * 1000):
                expect_replies(client, 400, "error BadKey", request("POST", target, body, f"{FIELD}: a"))
            expect_replies(client, 400, "error BadKey", request("POST", target, None, f"{FIELD}: a"))
        expect("keys" in sites[1].status(), False)
        for body in (b"issue 1\n", b"issue 1"):
            expect_replies(client, 200, "number 1", request("POST", "/", body, f"{FIELD}: a"))
        expect(sites[1].status()["issued"], 1)


def lines_that_may_have_no_key():
    """In a field as in the line, and nothing is done."""
    with alone() as sites, sites.client() as client:
        sites[1].ask_all(["spend 5 3", "spend 6 9", "tick 4"])
        for target in ("/", "/wait"):
            for command in ("outcome 1", "cancel 2", "tick 9", "status", "queue", "quit", "key b issue 1", "key  issue 1", "key b status"):
                expect_replies(client, 400, "error BadKey", under("a", command, target))
            for command in ("outcome 1", "cancel 2", "tick 9", "status", "queue", "quit"):
                expect_replies(client, 400, "error BadKey", post(f"key a {command}", target=target))
            for command in ("", "nonsense", "issue", "issue 01", "issue 1 ", "spend 1", "tick", "quit 1", "x" * 20_000, "key b key c issue 1"):
                expect_replies(client, 400, "error BadCommand", under("a", command, target))
        expect(sites[1].queue(), {"requests": [{"amount": 6, "deadline": 9, "ticket": 2}], "unread": 1})
        expect_replies(client, 200, "number 1", under("a", "issue 1"))


def the_status_of_a_command_under_a_key():
    cases = [
        ("key a issue 10", 200, "number 1"), ("key b spend 3 0", 200, "spent 2"), ("key c give 2 4", 200, "number 3"),
        ("key d spend 9 5", 200, "queued 1"), ("key d take 9", 200, "queued 1"), ("key a issue 10", 200, "number 1"),
        ("key a issue 11", 409, "error KeyReused"), ("key d spend 8 5", 409, "error KeyReused"), ("key e give 2 4", 409, "error Short"),
        ("key e issue 0", 409, "error BadAmount"), ("key e close", 409, "error QueueBusy"), ("key e status", 400, "error BadKey"),
        ("key  issue 1", 400, "error BadKey"), ("key", 400, "error BadCommand"), ("key a", 400, "error BadCommand"),
        ("key a nonsense", 400, "error BadCommand"), ("tick 6", 200, "tick expired 1 served 0 asks 0 sent 4"),
        ("key d spend 9 9", 200, "expired"), ("outcome 1", 200, "unknown"), ("key z close", 200, "number 4"),
        ("key z close 2", 200, "number 4"), ("key b take 3", 200, "spent 2"), ("key y issue 1", 409, "error Closed"),
    ]  # fmt: skip
    with alone() as sites, sites.client() as client:
        for command, status, reply in cases:
            expect_replies(client, status, reply, post(command))


def requests_that_are_refused_before_their_key():
    """By host, origin, target or method; and GET and HEAD do not look at it."""
    with alone() as sites, sites.client() as client:
        for value in ("a", "", "a b"):
            field = f"{FIELD}: {value}"
            expect_served(client.ask(request("POST", "/", b"issue 1", field, "origin: http://evil.example")), 403)
            expect_served(client.ask(request("POST", "/x", b"issue 1", field)), 404)
            expect_served(client.ask(request("PUT", "/", b"issue 1", field)), 405)
            for target, kind in GETS.items():
                for fields in ([field], [field, field]):
                    expect_served(client.ask(request("GET", target, None, *fields)), 200, kind=kind, what=target)
                    expect_served(client.ask(request("HEAD", target, None, *fields), is_head=True), 200, b"", kind=kind, what=target)
        expect(sites[1].status()["number"], 0)


def a_site_that_remembers_no_keys():
    with remembering(0) as sites, sites.client() as client:
        for target in ("/", "/wait"):
            expect_replies(client, 409, "error KeyRefused", under("a", "issue 1", target), post("key a issue 1", target=target), under("a", "take 9", target))
            expect_replies(client, 400, "error BadKey", under("", "issue 1", target), under("a", "status", target), under("a", "key a issue 1", target))
            expect_replies(client, 400, "error BadCommand", under("a", "nonsense", target))
        expect(client.command("issue 5", "key a take 1", "take 1"), (200, ["number 1", "error KeyRefused", "spent 2"]))
        expect("keys" in sites[1].status(), False)


def requests_with_keys_in_any_form():
    """In chunks, in pieces, one behind the other, with a length that is waited for, and by HTTP/1.0."""
    with alone() as sites, sites.client() as client:
        head = request("POST", "/", None, "transfer-encoding: chunked", f"{FIELD}: a")
        for body in (b"7\r\nissue 4\r\n0\r\n\r\n", b"".join(b"1\r\n%c\r\n" % byte for byte in b"issue 4\n") + b"0\r\n\r\n"):
            expect_replies(client, 200, "number 1", head + body)
        # A field behind the body is none of the request.
        head = request("POST", "/", None, "transfer-encoding: chunked")
        trailer = f"7\r\nissue 4\r\n0\r\n{FIELD}: a\r\n\r\n".encode()
        expect_replies(client, 200, "number 2", head + trailer)
        expect(client.ask(request("POST", "/", None, "content-length: 7", "expect: 100-continue", f"{FIELD}: a")).status, 100)
        expect_replies(client, 200, "number 1", b"issue 4")
        client.send(under("b", "take 1") * 60 + post("key b take 1") * 40)
        expect([client.read().body for _ in range(100)], [b"spent 3\n"] * 100)
        for byte in under("c", "give 2 1") + under("c", "give 2 1"):
            client.send(bytes([byte]))
        expect([client.read().body for _ in range(2)], [b"number 4\n"] * 2)
        old = f"POST / HTTP/1.0\r\ncontent-length: 6\r\n{FIELD}: b\r\n\r\ntake 1".encode()
        expect_replies(client, 200, "spent 3", old)
        expect(sites[1].status()["number"], 4)


def what_a_report_counts():
    """An entry is told once, whoever repeats its command; a spend that waited, as one that was served."""
    with alone() as sites, sites.client() as client:
        for _ in range(5):
            client.command("key a issue 100", "key b take 3", "key c spend 4 0", "key d spend 200 9")
            client.ask(under("a", "issue 100"))
            sites[1].ask_all(["key a issue 100", "key d take 200"])
        sites[1].ask_all(["issue 150", "tick 1"])
        for _ in range(5):
            expect_replies(client, 200, "spent 5", under("d", "spend 200 9"))
        found = sites.metrics()
        expect((found["rights_issued_total"], found["rights_spent_total"], found["rights_log_moves_total"]), (250, 207, 5))
        report = sites.end()
        expect((report.issued, report.told_issued, report.spent, report.told_spent, report.told_served), (250, 250, 207, 7, 200))


def refusals_are_counted_by_their_names():
    with alone() as sites, sites.client() as client:
        client.command("key a issue 5", *["key a issue 6"] * 3, *["key  issue 5"] * 2, "key a status", "key a")
        client.ask(under("", "issue 5"))
        client.ask(request("POST", "/", b"issue 1\nissue 1\n", f"{FIELD}: a"))
        body = client.ask(request("GET", "/metrics")).body
        names = [line.split('"')[1] for line in body.decode().splitlines() if line.startswith(REFUSED)]
        expect(names, REFUSALS, "the names, in their order")
        found = {key[1]: count for key, count in samples(body).items() if key[0] == REFUSED and count}
        expect((found["KeyReused"], found["BadCommand"], found["BadKey"] >= 3), (3, 1, True), found)
    with remembering(0) as sites:
        sites.command("key a issue 5", "key b issue 5")
        expect(sites.metrics()[REFUSED, "KeyRefused"], 2)


# ---- waiting


def waits_of_one_key_are_served_together():
    """Each gets the number of the one entry, and the outcome takes no slot after that."""
    with alone() as sites, ExitStack() as stack:
        clients = [stack.enter_context(sites.client()) for _ in range(20)]
        for number, client in enumerate(clients):
            client.send(under("a", "spend 5 9", "/wait") if number % 2 else post("key a take 5" if number else "key a spend 5 9", target="/wait"))
            waiting(sites, 5)
        wait_for("all connections", lambda: sites.metrics()["rights_clients"] == 21)
        time.sleep(0.1)
        expect_slots(sites, 1, 0)
        expect(sites[1].ask_all(["key a spend 5 0", "issue 7", "outcome 1", "tick 1"])[:3], ["queued 1", "number 1", "waiting"])
        for client in clients:
            expect_served(client.read(), 200, b"spent 2\n")
        expect_slots(sites, 0, 0)
        expect_replies(clients[0], 200, "spent 2", under("a", "spend 5 9", "/wait"), under("a", "take 5"))
        expect_replies(clients[0], 409, "error KeyReused", under("a", "take 6", "/wait"))
        expect((sites[1].status()["spent"], sites[1].status()["held"], sites[1].ask("outcome 1")), (5, 2, "unknown"))


def waits_of_one_key_expire_together():
    with alone() as sites, sites.client() as first, sites.client() as second:
        first.send(under("a", "spend 5 9", "/wait"))
        waiting(sites, 5)
        second.send(under("a", "spend 5 99", "/wait") + under("a", "spend 5 99"))
        sites[1].ask_all(["tick 8", "tick 9"])
        expect(sites[1].ask("tick 10")[:14], "tick expired 1")
        expect_served(first.read(), 200, b"expired\n")
        expect([second.read().body for _ in range(2)], [b"expired\n"] * 2)
        expect_slots(sites, 0, 0)
        expect_replies(second, 200, "expired", under("a", "spend 5 99", "/wait"), under("a", "take 5"), post("key a spend 5 99", target="/wait"))


def a_wait_under_a_key_whose_client_has_gone():
    """However it goes: its spend is cancelled, and its repeat says so. Others who wait for it are told too, by a tick."""
    with alone() as sites:
        for number, way in enumerate(("close", "reset", "shutdown"), 1):
            with sites.client() as other, sites.client() as client:
                client.send(under(f"k{number}", "spend 5 999", "/wait"))
                waiting(sites, 5)
                other.send(under(f"k{number}", "spend 5 999", "/wait"))
                wait_for("both are there", lambda: sites.metrics()["rights_clients"] == 3)
                time.sleep(0.1)
                if way == "shutdown":
                    client.stream.shutdown(socket.SHUT_WR)
                    expect_served(client.read(), 200, b"expired\n")
                else:
                    getattr(client, way)()
                waiting(sites, 0)
                expect(sites[1].ask(f"key k{number} spend 5 999"), "expired", way)
                sites[1].ask(f"tick {number}")
                expect_served(other.read(), 200, b"expired\n", what=way)
                expect_replies(other, 200, "expired", under(f"k{number}", "take 5", "/wait"))
                expect_slots(sites, 0, 0)
        expect(sites.command("issue 7"), (200, ["number 1"]))


def a_wait_is_repeated_whose_answer_was_lost():
    """The client goes as its spend is served: the repeat is told that entry, or that the spend was cancelled before."""
    with alone() as sites:
        for number in range(1, 31):
            with sites.client() as client:
                client.send(under(f"k{number}", f"spend {number} 999999", "/wait"))
                waiting(sites, number)
                gone = threading.Timer(random.random() * 0.002, client.reset)
                gone.start()
                sites[1].ask_all([f"issue {number}", f"tick {number}"])
                gone.join()
            seats(sites, 1)
            status = sites[1].status()
            reply = sites[1].ask(f"key k{number} take {number}")
            expect(reply, "expired" if status["held"] else f"spent {status['number']}", f"what became of spend {number}")
            expect(sites.command(f"key k{number} take {number}", target="/wait"), (200, [reply]))
            expect(sites[1].status(), status, "the status after the repeats")
            expect_slots(sites, 0, 0)
            # So that nothing is held as the next one comes.
            sites[1].ask(f"take {number}")


def waits_under_keys_at_the_end():
    with alone() as sites, sites.client() as first, sites.client() as second, sites.client() as third:
        first.send(under("a", "spend 5 9", "/wait"))
        waiting(sites, 5)
        second.send(under("a", "take 5", "/wait"))
        third.send(under("b", "spend 6 9", "/wait"))
        waiting(sites, 11)
        wait_for("all are there", lambda: sites.metrics()["rights_clients"] == 4)
        time.sleep(0.1)
        sites.end()
        expect([client.read().body for client in (first, second, third)], [b"queued 1\n", b"queued 1\n", b"queued 2\n"])
        expect((first.has_ended(), second.has_ended(), third.has_ended()), (True, True, True))


# ---- many clients of one key


class Crowd:
    """As many clients as a site has places, on connections of their own and on standard input, which say a line together."""

    def __init__(self, sites, stack):
        self.site = sites[1]
        self.clients = [stack.enter_context(sites.client()) for _ in range(MOST_CLIENTS)]
        for client in self.clients:
            expect(client.command("outcome 1")[0], 200)

    def say(self, key, commands):
        """Each client says one of these commands under this key, in a line or a field, all at once. The commands and their
        replies."""
        begin, told = threading.Barrier(len(self.clients) + 1), []

        def over_http(place, client):
            command = commands[place % len(commands)]
            data = under(key, command) if place % 3 else post(f"key {key} {command}")
            begin.wait()
            told.append((command, client.ask(data).body.decode().strip()))

        threads = [threading.Thread(target=over_http, args=each, daemon=True) for each in enumerate(self.clients)]
        for thread in threads:
            thread.start()
        begin.wait()
        told.append((commands[0], self.site.ask(f"key {key} {commands[0]}")))
        for thread in threads:
            thread.join(PATIENCE)
        expect(len(told), len(self.clients) + 1, f"replies to {commands}")
        return told

    def slots(self):
        """How many slots of the queue wait, and how many have outcomes that were not read. One more connection would take
        the place of another."""
        queue = self.site.queue()
        return len(queue["requests"]), queue["unread"]


def sixty_four_clients_of_one_key():
    """Round by round: one of them is carried out, and all get its reply."""
    kinds = ["issue 30", "take 2", "give 2 3", "spend 1 0", "issue 7"]
    with alone() as sites, ExitStack() as stack:
        crowd = Crowd(sites, stack)
        for number in range(1, 61):
            command = kinds[(number - 1) % len(kinds)]
            told = {reply for _, reply in crowd.say(f"round-{number}", [command])}
            expect(told, {f"{'spent' if command[0] in 'ts' else 'number'} {number}"}, f"the replies to {command}")
        status = sites[1].status()
        expect((status["number"], status["keys"], status["issued"], status["spent"]), (60, 60, 12 * 37, 12 * 3))
        report = sites.end()
        expect((report.told_issued, report.told_spent, report.given), (12 * 37, 12 * 3, 12 * 3))


def sixty_four_clients_of_one_key_that_wait():
    """One spend waits, under one ticket, and is served once."""
    with alone() as sites, ExitStack() as stack:
        crowd = Crowd(sites, stack)
        for number in range(1, 21):
            told = {reply for _, reply in crowd.say(f"round-{number}", ["spend 5 999", "spend 5 1000", "take 5"])}
            # A take that comes first is refused, and leaves the key free.
            expect(told - {"error Short"}, {f"queued {number}"}, f"round {number}")
            expect(crowd.slots(), (1, 0))
            sites[1].ask_all(["issue 5", f"tick {number}"])
            told = {reply for _, reply in crowd.say(f"round-{number}", ["spend 5 999", "take 5"])}
            expect(told, {f"spent {2 * number}"}, f"round {number}")
            expect(crowd.slots(), (0, 0))
        expect((sites[1].status()["keys"], sites[1].status()["spent"]), (20, 100))


def two_commands_of_sixty_four_clients_under_one_key():
    """One of both is carried out, once. The others of it get its reply, and those of the other one are refused."""
    with alone() as sites, ExitStack() as stack:
        crowd = Crowd(sites, stack)
        for number in range(1, 41):
            both = ["issue 5", "issue 6"] if number % 2 else ["issue 7", "give 2 1"]
            told = crowd.say(f"round-{number}", both)
            done = {command for command, reply in told if reply == f"number {number}"}
            expect(len(done), 1, f"round {number}: commands that were carried out")
            expect({reply for command, reply in told if command not in done}, {"error KeyReused"}, f"round {number}")
            expect({reply for command, reply in told if command in done}, {f"number {number}"}, f"round {number}")
            expect(sites[1].status()["number"], number)


def clients_that_repeat_until_they_are_answered():
    """They break their connections at any moment, and repeat their commands on new ones. Each is carried out once."""
    with alone() as sites:
        sites[1].ask("issue 1000000")
        failed, count = [], 25

        def one(place):
            chance = random.Random(place)
            for number in range(count):
                amount = 1000 * (place + 1) + number
                data, reply = under(f"{place}/{number}", f"take {amount}"), None
                while reply is None:
                    with suppress(OSError, AssertionError), sites.client() as client:
                        client.send(data[: chance.randrange(len(data))] if chance.random() < 0.3 else data)
                        if chance.random() < 0.5:
                            time.sleep(chance.random() * 0.001)
                            client.reset()
                        else:
                            client.stream.settimeout(0.5)
                            reply = client.read().body.decode()
                if not reply.startswith("spent "):
                    failed.append(f"{place}/{number}: {reply!r}")

        threads = [threading.Thread(target=one, args=(place,), daemon=True) for place in range(8)]
        for thread in threads:
            thread.start()
        for thread in threads:
            thread.join(PATIENCE)
        expect(failed, [])
        amounts = [1000 * (place + 1) + number for place in range(8) for number in range(count)]
        status = sites[1].status()
        expect((status["spent"], status["number"], status["keys"]), (sum(amounts), 1 + len(amounts), len(amounts)))


def a_million_keys():
    """As many are remembered if nobody says how many. One more, and the oldest is forgotten."""
    count = 1_000_000
    with alone() as sites:
        site, each = sites[1], 20_000
        for first in range(1, count + 1, each):
            lines = [f"key order-{number:07} issue 1" for number in range(first, first + each)]
            replies = site.ask_all(lines)
            expect((replies[0], replies[-1]), (f"number {first}", f"number {first + each - 1}"))
        expect(site.status()["keys"], count)
        some = [1, 2, 3, count // 2, count]
        expect(site.ask_all([f"key order-{number:07} issue 1" for number in some]), [f"number {number}" for number in some])
        expect(site.ask_all(["key new issue 1", "key order-0000002 issue 1", "key order-0000001 issue 1"]),
               [f"number {count + 1}", "number 2", f"number {count + 2}"])  # fmt: skip
        expect((site.status()["keys"], site.status()["number"]), (count, count + 2))


TESTS = [
    a_key_in_a_field_is_that_in_a_line, the_field_may_be_written_as_any, requests_that_give_no_good_key, bodies_that_are_not_one_line,
    lines_that_may_have_no_key, the_status_of_a_command_under_a_key, requests_that_are_refused_before_their_key,
    a_site_that_remembers_no_keys, requests_with_keys_in_any_form, what_a_report_counts, refusals_are_counted_by_their_names,
    waits_of_one_key_are_served_together, waits_of_one_key_expire_together, a_wait_under_a_key_whose_client_has_gone,
    a_wait_is_repeated_whose_answer_was_lost, waits_under_keys_at_the_end, sixty_four_clients_of_one_key,
    sixty_four_clients_of_one_key_that_wait, two_commands_of_sixty_four_clients_under_one_key,
    clients_that_repeat_until_they_are_answered, a_million_keys,
]  # fmt: skip
