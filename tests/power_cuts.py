#!/usr/bin/env python3
"""Power cuts, full disks and failing ones beneath a site with a journal: tests/disk.c writes down what the site does
with its file, and what it tells meanwhile. From that the files are made that a power cut may leave, and the site
starts on them.

    tests/power_cuts.py [--seeds FIRST COUNT] [--program PATH]
"""

import argparse
import errno
import os
import random
import re
import shutil
import signal
import socket
import subprocess
import sys
import tempfile
import threading
import time
from contextlib import ExitStack, suppress

from cases import Skipped, case, choose_program

if __name__ == "__main__":
    choose_program()

from cluster import PATIENCE, PROGRAM, expect, sees, wait_for
from journal_kit import Holdings, Journaled, batch, fault_of_keys, read_batches, records_of
from preloaded import ROOM, built, with_library
from told import Disk, facts_of, facts_told, fault_of_calls, fault_of_entries, has, image, lines_out, parted, read_calls

from rights_site import SiteEnded, SiteSilent


class Recorded(Journaled):
    """Sites whose calls are written down, each process into a file of its own, where `recorded` names them."""

    def __init__(self, count, *rest, recorded=(1,), settings=None, **others):
        self.recorded, self.settings, self.runs = recorded, settings or {}, {}
        super().__init__(count, *rest, **others)

    def words(self, number):
        words = super().words(number)
        if number not in self.recorded:
            return words
        before = self.content(number) if os.path.exists(self.path(number)) else b""
        path = os.path.join(self.room.name, f"calls-{number}-{len(self.runs)}")
        self.runs[path] = number, before
        program = with_library("disk", words[0], DISK_FILE=self.path(number), DISK_RECORD=path, **self.settings)
        return [program, *words[1:]]

    def calls(self):
        """Of each process so far, in their order: its site, what its journal had before, and its calls."""
        for path, (number, before) in self.runs.items():
            with open(path, "rb") as file:
                yield number, before, read_calls(file.read())

    def last_calls(self):
        return list(self.calls())[-1]


def drive(site, commands):
    """Gives a site these commands, one after another. Each with its reply, which is None where the site ends before
    it."""
    replies = []
    for command in commands:
        try:
            replies.append((command, site.ask(command)))
        except SiteSilent:
            raise
        except SiteEnded:
            return [*replies, (command, None)]
    return replies


FORMS = ["issue 9", "spend 2 0", "spend 40 +80", "take 1", "give 2 1", "status", "outcome 1", "queue"]


def some_commands(chance, count):
    """Some of those that write entries have keys."""
    commands = [chance.choice(FORMS) for _ in range(count)]
    return [
        f"key {chance.randrange(10**9)} {command}" if command[:2] in ("is", "sp", "ta", "gi") and chance.random() < 0.5 else command
        for command in commands
    ]  # fmt: skip


def told_under_keys(replies):
    """The commands under keys that were told numbers, with their replies."""
    return [(command, reply) for command, reply in replies if command.startswith("key ") and (reply or "").startswith(("number", "spent"))]


def expect_repeats(site, replies, what):
    """What was told under keys is told once more."""
    told = told_under_keys(replies)
    expect(site.ask_all([command for command, _ in told]), [reply for _, reply in told], f"{what}: repeats")


# ---- what is told


def sales(sites, number, seconds):
    """A client over HTTP, for so many seconds."""
    until = time.monotonic() + seconds
    with sites.client(number) as client:
        while time.monotonic() < until:
            client.command("issue 3", "take 1", f"give {number % len(sites.ports) + 1} 1")
            client.command("spend 2 +50", target="/wait")


def nothing_is_told_before_its_sync():
    """Three sites, with clients of each kind and slow disks: what each process wrote and told, in order."""
    with Recorded(3, recorded=(1, 2, 3), tick=5, settings={"DISK_SLOW": 4}) as sites:
        threads = [threading.Thread(target=sales, args=(sites, 1 + n % 3, 1.0)) for n in range(9)]
        for thread in threads:
            thread.start()
        for n in range(20):
            for site in sites.sites.values():
                site.ask_all(["issue 2", "spend 50 +30", "status", "take 1", f"key {n} take 1", f"key {n}-2 spend 3 +30"])
            sites.metrics(1 + n % 3)
        for thread in threads:
            thread.join(PATIENCE)
        sites.again(1)
        sites[1].ask_all(["issue 1", "status", "spend 1000 9"])
        for number in (1, 2, 3):
            sites[number].end()
        runs = list(sites.calls())
    expect(len(runs), 4)
    for number, before, calls in runs:
        expect(fault_of_calls(calls, before), None, f"site {number}")
    kinds = {fact[0] for _, _, calls in runs for fact in facts_told(calls)}
    expect(kinds, {"number", "ticket", "sum", "applied", "entry", "ask"}, "what was told")
    told = sum(len(facts_told(calls)) for _, _, calls in runs)
    syncs = sum(call.name == "sync" for _, _, calls in runs for call in calls)
    expect((told > 1000, syncs > 50), (True, True), f"{told} facts, {syncs} syncs")


def a_sync_that_is_left_out_is_found():
    """A program that tells before it has synced, in each of the ways: the checker of the calls finds it."""
    for number, commands, kind in (
        (2, ["issue 5"], "number"), (3, ["issue 5", "take 1"], "number"), (1, ["spend 5 9"], "ticket"),
        (2, ["issue 5", "status"], "number"),
    ):  # fmt: skip
        with Recorded(2, started=[1], settings={"DISK_FAULT": f"sync {number} -2"}) as sites:
            drive(sites[1], commands)
            sites[1].kill()
            found = fault_of_calls(sites.last_calls()[2])
            wanted = f"left before it was durable: ('{kind}'"
            expect(found is not None and wanted in found, True, f"sync {number}: {found}")
    # A gift that is sent to a peer, and no client that waits for the reply.
    with Recorded(2, settings={"DISK_FAULT": "sync 2 -2"}) as sites:
        with suppress(SiteEnded):
            sites[1].process.stdin.write(b"issue 5\ntick 1\n")
            wait_for("site 2 heard of it", sees(sites[2], 1, applied=1))
        sites[1].kill()
        calls = [call for call in sites.last_calls()[2] if call.first != 1]
        expect("('entry', 'E 1 0 1 I:5')" in str(fault_of_calls(calls)), True, "a line to a peer")


def one_sync_serves_all_that_wait():
    """Batches that are told one by one have one entry each, and those of many clients, several."""
    with Recorded(2, started=[1], settings={"DISK_SLOW": 10}) as sites:
        sites[1].ask("issue 1000000")
        for _ in range(5):
            sites[1].ask("take 1")
        before = len(read_batches(sites.content(1))[0])
        expect(before, 7)
        sites[1].ask_all(["take 1"] * 400)
        batches = read_batches(sites.content(1))[0][before:]
        expect(len(batches) < 40, True, f"{len(batches)} batches")


def no_port_is_open_before_the_journal_is_read():
    """Nor before it is durable which tickets the process may give out."""
    with Recorded(2, started=[1]) as sites:
        sites[1].ask_all(["issue 5", "take 1"])
        sites.again(1)
        sites[1].kill()
        for _, _, calls in sites.calls():
            names = [call.name for call in calls if call.name in ("write", "sync", "listen", "out")]
            expect(names[:5], ["sync", "write", "sync", "listen", "listen"])


def long_entry(peer, number):
    """An entry of 16 moves that are as long as they can be."""
    to = 14 if peer == 15 else 15
    moves = " ".join(["I:1000000000"] + [f"G:{to}:1000000000:999999999"] * 15)
    return f"E {peer} {number} {number + 16} {moves}\n".encode()


def entries_that_come_faster_than_a_disk_is():
    """15 peers, each with as much as it can send: what waits for the journal stays within one batch."""
    with ExitStack() as stack:
        sites = stack.enter_context(Recorded(16, started=[1], settings={"DISK_SLOW": 100}))
        streams = []
        for peer in range(2, 17):
            streams.append(stack.enter_context(socket.create_connection(("127.0.0.1", sites.ports[0]))))
            streams[-1].sendall(b"H %d\n" % peer)
        lines = {peer: b"".join(long_entry(peer, 16 * n) for n in range(1000)) for peer in range(2, 17)}
        sending = zip(streams, lines.values())
        threads = [threading.Thread(target=send_all, args=each) for each in sending]
        for thread in threads:
            thread.start()
        wait_for("all is applied", lambda: all(peer["applied"] == 16_000 for peer in sites[1].status()["peers"]))
        for thread in threads:
            thread.join(PATIENCE)
        expect(sites.agrees(1)["number"], 0)


def send_all(stream, data):
    with suppress(OSError):
        stream.sendall(data)


def what_comes_at_the_end_is_durable_before_it_is_reported():
    """A peer sends as fast as it can while the site ends: the report tells of no entry that is not durable."""
    entries = b"H 2\nE 2 0 1 I:100000\n" + b"".join(b"E 2 %d %d R:1:1\n" % (n, n + 1) for n in range(1, 100_000))
    for _ in range(3):
        with Recorded(2, started=[1], settings={"DISK_SLOW": 2}) as sites:
            with socket.create_connection(("127.0.0.1", sites.ports[0])) as stream:
                thread = threading.Thread(target=send_all, args=(stream, entries))
                thread.start()
                wait_for("some are applied", lambda: sites[1].status()["received"] > 0)
                sites[1].end()
                thread.join(PATIENCE)
            _, before, calls = sites.last_calls()
            expect(fault_of_calls(calls, before), None)


# ---- images of a power cut


class Cut:
    """The disk, and what was told, at a place among the calls of a process."""

    def __init__(self, before, calls):
        self.disk = Disk(before)
        for call in calls:
            if call.name in ("write", "cut", "sync"):
                expect(self.disk.carry_out(call), None)
        self.told = [fact for _, line in lines_out(calls) for fact in facts_of(line)]
        # Records that a later start may have appended.
        self.extra = []

    def check(self, content, what):
        """The records of a file that a site went on with: those that were durable, and perhaps the batch that was not
        synced; all that was told is in them."""
        records, durable = records_of(content), records_of(self.disk.durable)
        whole = records_of(self.disk.content)
        allowed = (durable, whole, durable + self.extra, whole + self.extra)
        expect(records in allowed, True, f"{what}: {records} for {durable} or {whole}, and {self.extra}")
        holdings = Holdings(records)
        expect([fact for fact in self.told if not has(holdings, fact)], [], f"{what}: what was told")


def without_clock(command):
    """The same command for a site that has no clock of its own: the deadline of a spend does not count."""
    begin, ahead, _ = command.partition(" +")
    return f"{begin} 0" if ahead else begin


def starts_on(sites, content, cut, what, commands):
    """Starts site 1 on this file: it has all that was told, and goes on with the next number and a new ticket. `commands`
    are those that it may have carried out under keys."""
    with open(sites.path(1), "wb") as file:
        file.write(content)
    site = sites.start(1)
    now = sites.content(1)
    batches = read_batches(now)[0]
    # The process has appended which tickets it may give out, and whose journal it is, where that is new.
    first = batches.pop()
    expect([record[:2] for record in first], ["T "] if batches else ["J ", "T "], what)
    cut.check(b"".join(batch(*records) for records in batches), what)
    expect(fault_of_keys(read_batches(now)[0]), None, what)
    status, keys = sites.agrees(1), sites.holdings(1).keys
    again = site.ask_all([without_clock(command) for command in commands if parted(command)[0] in keys])
    numbers = [number for _, number in (reply.split(" ") for reply in again)]
    expect(sorted(map(int, numbers)), sorted(keys.values()), f"{what}: repeats, {again}")
    replies = site.ask_all(["issue 5", "spend 1000000 9"])
    expect(replies[0] in (f"number {status['number'] + 1}", "error Closed"), True, f"{what}: {replies}")
    tickets = [fact[1] for fact in cut.told if fact[0] == "ticket"]
    if replies[0] != "error Closed":
        expect(int(replies[1].split(" ")[1]) > max(tickets, default=0), True, f"{what}: {replies}")
    site.kill()


def places_of(calls, chance, count):
    """Places after calls on the file and after what left, and some more."""
    told = [place + 1 for place, call in enumerate(calls) if call.name in ("write", "cut", "sync", "out")]
    return sorted(chance.sample(told, min(count, len(told))))


def cut_history(seed, count=25):
    """One process, and power cuts at places of what it did: none loses what was told."""
    chance = random.Random(seed)
    with Recorded(2, tick=10) as sites:
        sites[2].ask_all(["issue 100", "give 1 20"])
        wait_for("site 1 got 20", sees(sites[1], None, held=20))
        commands = some_commands(chance, 30)
        for turn in range(6):
            sites[1].ask_all(commands[5 * turn : 5 * turn + 5])
            sites[2].ask_all(["give 1 1"])
            sites.command("take 1", "issue 2")
            time.sleep(0.02)
        if chance.random() < 0.5:
            sites[1].ask_all([chance.choice(["close", "close 2"])])
        sites[1].kill()
        number, before, calls = sites.last_calls()
        expect(fault_of_calls(calls, before), None)
        sites.tick = None
        sites[2].kill()
        for turn, place in enumerate(places_of(calls, chance, count)):
            cut, what = Cut(before, calls[:place]), f"seed {seed}, after call {place}"
            content = image(cut.disk, chance)
            if turn % 3 == 0:
                content = cut_while_it_starts(sites, content, cut, chance, what)
            sites.recorded = ()
            starts_on(sites, content, cut, what, commands)


def cut_while_it_starts(sites, content, cut, chance, what):
    """What a power cut leaves of this file, as a site starts on it. Cut once more, it still has all that was told."""
    with open(sites.path(1), "wb") as file:
        file.write(content)
    sites.recorded = (1,)
    sites.start(1).kill()
    number, before, calls = sites.last_calls()
    expect(fault_of_calls(calls, before), None, what)
    begun = [place for place, call in enumerate(calls, 1) if call.name in ("write", "cut", "sync")]
    again = Cut(before, calls[: chance.choice(begun)])
    # What the start appended may be there too.
    cut.extra = records_of(again.disk.content)[len(records_of(before)) :]
    return image(again.disk, chance)


def a_power_cut_loses_nothing_that_was_told():
    cut_history(1)
    cut_history(2)


def power_cuts_under_way(seed, rounds=15):
    """Site 1 is cut off from power again and again, while site 2 goes on, which heard it: what it applied is what
    site 1 has then, and no number ever has two entries."""
    chance = random.Random(seed)
    with Recorded(2, tick=5, settings={"DISK_SLOW": 3}) as sites:
        entries = set()
        sites[2].ask("issue 1000")
        for turn in range(rounds):
            sites[2].ask_all([f"give 1 {chance.randint(1, 3)}", "spend 2000 +30"])
            killer = threading.Timer(chance.random() * 0.1, sites[1].process.kill)
            killer.start()
            replies = drive(sites[1], some_commands(chance, 1000))
            killer.join()
            sites[1].kill()
            number, before, calls = sites.last_calls()
            what = f"seed {seed}, round {turn}"
            expect(fault_of_calls(calls, before), None, what)
            cut = Cut(before, calls)
            with open(sites.path(1), "wb") as file:
                file.write(image(cut.disk, chance))
            sites.start(1)
            # In this order: site 1 may answer an ask of site 2 meanwhile.
            other = sites.holdings(2)
            own = sites.holdings(1)
            expect([fact for fact in cut.told if not has(own, fact)], [], what)
            expect_repeats(sites[1], replies, what)
            heard = other.applied[1]
            expect([entry.text for entry in own.log][: len(heard)], [entry.text for entry in heard], what)
            for each in (own, other):
                entries |= {entry.text for log in (each.log, *each.applied.values()) for entry in log}
            expect(fault_of_entries(entries), None, what)
        wait_for("site 2 has all of site 1", lambda: sees(sites[2], 1, applied=sites[1].status()["number"])())


def power_cuts_while_a_peer_hears():
    power_cuts_under_way(1)


# ---- kills at a chosen call


def ends_and_goes_on(fault, commands, status, why=None, **options):
    """A site whose file has this fault gives no reply that is not durable, ends with this status, and says why in one
    line. The same command, without the fault, goes on with all that was told. Whether the fault came at all."""
    with Recorded(2, started=[], settings={"DISK_FAULT": fault}, **options) as sites:
        replies = [("start", None)]
        errors = ""
        with suppress(SiteEnded):
            sites.start(1)
            replies = drive(sites[1], commands)
            ended = sites[1].process.wait(PATIENCE) if replies[-1][1] is None else None
            errors = sites[1].said()
            if ended is not None:
                expect(ended, status, fault)
        number, before, calls = sites.last_calls()
        expect(fault_of_calls(calls, before), None, fault)
        place = next((place for place, call in enumerate(calls) if call.name == "fault"), None)
        if place is None:
            return False
        after = [(call.name, call.first) for call in calls[place:]]
        wrong = [each for each in after if each[0] in ("sync", "cut", "write") or each == ("out", 1)]
        expect(wrong, [], f"{fault}: what it did after it")
        if why is not None and errors:
            says_why(errors, sites.path(1), why, fault)
        cut = Cut(before, calls)
        sites.settings = {}
        site = sites.start(1)
        holdings = sites.holdings(1)
        expect([fact for fact in cut.told if not has(holdings, fact)], [], fault)
        expect_repeats(site, replies, fault)
        expect(site.ask("issue 1"), f"number {holdings.number + 1}", fault)
        expect(sites[1].end(), 0)
        return True


def says_why(errors, path, why, what):
    """One line, with the file and the system's error; and the report, where the site has one."""
    lines = [line for line in errors.splitlines() if not line.startswith("rights-site: ended: ")]
    said = [line for line in lines if line.startswith(f"rights-site: journal {path}: ") and why in line]
    expect((len(lines), len(said)), (1, 1), f"{what}: {errors!r}")


COMMANDS = ["issue 10", "key a take 1", "spend 30 9", "key b give 2 3", "key a take 1", "key c issue 5", "take 2", "take 1"]


def kills_at_each_call():
    """Before each write, after some bytes of it, and before each sync, at the start too."""
    count = 0
    for call in ("write", "write", "sync", "fsync", "folder"):
        for number in range(1, 10):
            rest = (count * 13) % 70
            if not ends_and_goes_on(f"{call} {number} -1 {rest}", COMMANDS, -signal.SIGKILL):
                break
            count += 1
    expect(count > 15, True, f"{count} kills")


# ---- disks that fail


def os_error(number):
    return f"{os.strerror(number)} (os error {number})"


def syncs_that_fail():
    """With an input or output error. None is tried again in the same process."""
    for number in range(1, 6):
        expect(ends_and_goes_on(f"sync {number} {errno.EIO}", COMMANDS, 1, os_error(errno.EIO)), True, f"sync {number}")


def writes_that_fail():
    """On a full disk, after some bytes, and at once."""
    for number in range(1, 5):
        for rest in (0, 10, 35, 10_000):
            fault = f"write {number} {errno.ENOSPC} {rest}"
            # A write that took all its bytes has not failed; the next one does.
            expect(ends_and_goes_on(fault, COMMANDS, 1, os_error(errno.ENOSPC)), True, fault)


def faults_at_the_start():
    """Each ends the site with one line before it listens, and the file is as it was, but for what an append had
    begun."""
    for fault, error in (("read 1", errno.EIO), ("read 2", errno.EIO), ("read 3", errno.EIO), ("fsync 1", errno.EIO),
                         ("folder 1", errno.EIO), ("cut 1", errno.EIO),
                         ("sync 1", errno.EIO), ("write 1", errno.ENOSPC), ("sync 2", errno.EIO)):
        with Recorded(2, started=[1], recorded=()) as sites:
            sites[1].ask_all(["issue 10", "take 3"])
            sites[1].kill()
            with open(sites.path(1), "ab") as file:
                file.write(b"= 55 0123")
            before = sites.content(1)
            sites.recorded, sites.settings = (1,), {"DISK_FAULT": f"{fault} {error}"}
            try:
                sites.start(1).kill()
                raise AssertionError(f"{fault}: it starts")
            except SiteEnded as ended:
                said = re.escape(f"rights-site: journal {sites.path(1)}: ") + ".*" + re.escape(os_error(error)) + ".*"
                last = str(ended).partition("standard error: ")[2]
                expect(re.fullmatch(said, last) is not None, True, f"{fault}: {ended}")
            # A record of tickets may be there, which was written and not synced.
            records = [record for record in records_of(sites.content(1)) if record[0] != "T"]
            expect(records, [record for record in records_of(before) if record[0] != "T"], fault)
            sites.settings = {}
            expect(sites.start(1).ask("take 7"), "spent 3", fault)


def a_failure_while_nobody_waits():
    """The site ends by itself, though its input is open and silent, and tells its clients over HTTP nothing more."""
    with Recorded(2, started=[1], settings={"DISK_FAULT": f"sync 3 {errno.EIO}"}) as sites, sites.client() as client:
        expect(client.command("issue 10"), (200, ["number 1"]))
        with socket.create_connection(("127.0.0.1", sites.ports[0])) as stream:
            stream.sendall(b"H 2\nE 2 0 2 I:9 R:1:7\n")
            expect(sites[1].process.wait(PATIENCE), 1)
        says_why(sites[1].said(), sites.path(1), os_error(errno.EIO), "a failure")
        expect(fault_of_calls(sites.last_calls()[2]), None)


def a_failure_at_the_end():
    """The last sync fails, of what was applied while the site ended: it does not end as if all was well. On a busy
    machine that sync may have begun before, but not each time."""
    wait_for("a last sync fails", fails_at_the_end)


def fails_at_the_end():
    settings = {"DISK_FAULT": f"sync 3 {errno.EIO}", "DISK_SLOW": 300}
    with Recorded(2, started=[1], settings=settings) as sites:
        with socket.create_connection(("127.0.0.1", sites.ports[0])) as stream:
            stream.sendall(b"H 2\nE 2 0 1 I:9\n")
            time.sleep(0.15)
            stream.sendall(b"E 2 1 2 R:1:7\n")
            time.sleep(0.05)
            sites[1].process.stdin.close()
            status = sites[1].process.wait(PATIENCE)
        calls = sites.last_calls()[2]
        expect(fault_of_calls(calls), None)
        if all(call.name != "fault" for call in calls):
            return False
        expect(status, 1)
        says_why(sites[1].said(), sites.path(1), os_error(errno.EIO), "the end")
        return True


def a_failure_beneath_clients_that_wait():
    """Each gets a durable reply or none at all, and none waits for ever."""
    with Recorded(2, started=[1], tick=10, settings={"DISK_FAULT": f"sync 40 {errno.EIO}", "DISK_SLOW": 1}) as sites:
        told = []

        def sell():
            with suppress(OSError, AssertionError), sites.client() as client:
                while True:
                    told.extend(client.command("issue 2", "take 1")[1])
                    client.command("spend 1000 +20", target="/wait")

        threads = [threading.Thread(target=sell) for _ in range(8)]
        for thread in threads:
            thread.start()
        expect(sites[1].process.wait(PATIENCE), 1)
        for thread in threads:
            thread.join(PATIENCE)
            expect(thread.is_alive(), False, "a client waits")
        expect(fault_of_calls(sites.last_calls()[2]), None)
        numbers = [int(reply.split(" ")[1]) for reply in told if not reply.startswith("error")]
        sites.settings = {}
        sites.start(1)
        expect((len(numbers), max(numbers) <= sites.holdings(1).number), (len(set(numbers)), True))


# ---- disks that are full


def script_of(*lines):
    """The path of a script that does this and then becomes the program."""
    script, path = tempfile.mkstemp(dir=ROOM.name, prefix="limited-")
    with open(script, "w") as text:
        text.write("\n".join(["#!/bin/sh", *lines, f'exec {built()} "$@"\n']))
    os.chmod(path, 0o755)
    return path


def fills_up(sites, why, status):
    """Sells until the disk is full. The replies, which all are durable."""
    replies = drive(sites[1], ["issue 1000000", *["take 1"] * 5000])
    expect(replies[-1][1], None, "its disk is never full")
    expect(sites[1].process.wait(PATIENCE), status)
    if why is not None:
        says_why(sites[1].said(), sites.path(1), why, "a full disk")
    return int(replies[-2][1].split(" ")[1])


def a_file_that_may_not_grow():
    """By a limit of the system: the site ends by an error or, where nobody ignores it, by a signal."""
    for ignores, why, status in (("trap '' XFSZ", os_error(errno.EFBIG), 1), ("", None, -signal.SIGXFSZ)):
        with Journaled(2, started=[], programs={1: script_of("ulimit -c 0", ignores, "ulimit -f 8")}) as sites:
            sites.start(1)
            told = fills_up(sites, why, status)
            expect(4000 < os.path.getsize(sites.path(1)) <= 8192, True, "its size")
            sites.programs = {}
            expect(sites.start(1).ask("take 1"), f"spent {told + 1}")
            sites.agrees(1)


class SmallDisk:
    """A file system of 64 KiB in memory, in a space of names of its own, so that nobody need be root."""

    def __init__(self, room):
        self.room = room
        if shutil.which("unshare") is None or shutil.which("nsenter") is None:
            raise Skipped("no unshare or nsenter is here")
        words = ["unshare", "-rm", "sh", "-c", 'mount -t tmpfs -o size=64k none "$0" && echo mounted && exec cat', room]
        self.process = subprocess.Popen(words, stdin=subprocess.PIPE, stdout=subprocess.PIPE, stderr=subprocess.DEVNULL)
        if self.process.stdout.readline() != b"mounted\n":
            self.close()
            raise Skipped("no file system can be mounted here")

    def words(self, *words):
        return ["nsenter", "-t", str(self.process.pid), "-U", "-m", "--preserve-credentials", *words]

    def run(self, *words):
        return subprocess.run(self.words(*words), capture_output=True, timeout=PATIENCE, check=True).stdout

    def close(self):
        self.process.kill()
        self.process.communicate()


class OnSmallDisk(Journaled):
    """Site 1 has its journal on a small disk."""

    def __init__(self, *rest, **others):
        self.small = None
        super().__init__(*rest, started=[], **others)
        self.small = SmallDisk(self.room.name)

    def words(self, number):
        return self.small.words(*super().words(number))

    def content(self, number):
        return self.small.run("cat", self.path(number))

    def __exit__(self, *rest):
        self.small.close()
        return super().__exit__(*rest)


def a_disk_that_is_full():
    """The site ends, and goes on by the same command once there is space, and not before."""
    with OnSmallDisk(2) as sites:
        other = os.path.join(sites.room.name, "other")
        sites.small.run("dd", "if=/dev/zero", f"of={other}", "bs=1024", "count=40")
        sites.start(1)
        told = fills_up(sites, os_error(errno.ENOSPC), 1)
        expect(sites.holdings(1).number >= told, True)
        try:
            replies = drive(sites.start(1), ["take 1"] * 200)
            expect(replies[-1][1], None, "it goes on though the disk is full")
        except SiteEnded as ended:
            expect(os_error(errno.ENOSPC) in str(ended), True, ended)
        sites.small.run("rm", other)
        number = sites.holdings(1).number
        expect((number >= told, sites.start(1).ask("take 1")), (True, f"spent {number + 1}"))
        sites.agrees(1)


CASES = [
    case("PowerCuts", [
        nothing_is_told_before_its_sync, a_sync_that_is_left_out_is_found, one_sync_serves_all_that_wait,
        no_port_is_open_before_the_journal_is_read, entries_that_come_faster_than_a_disk_is,
        what_comes_at_the_end_is_durable_before_it_is_reported,
        a_power_cut_loses_nothing_that_was_told, power_cuts_while_a_peer_hears, kills_at_each_call, syncs_that_fail,
        writes_that_fail, faults_at_the_start, a_failure_while_nobody_waits, a_failure_at_the_end,
        a_failure_beneath_clients_that_wait, a_file_that_may_not_grow, a_disk_that_is_full,
    ]),
]  # fmt: skip


def main():
    words = argparse.ArgumentParser(description=__doc__, formatter_class=argparse.RawDescriptionHelpFormatter)
    words.add_argument("--seeds", nargs=2, type=int, default=[1, 10], metavar=("FIRST", "COUNT"))
    words.add_argument("--program", default=PROGRAM)
    first, count = words.parse_args().seeds
    failed = 0
    for seed in range(first, first + count):
        try:
            cut_history(seed, 60)
            power_cuts_under_way(seed, 60)
        except (AssertionError, SiteEnded, OSError) as error:
            failed += 1
            print(f"seed {seed}: {type(error).__name__}: {error}", flush=True)
        else:
            print(f"seed {seed}: passed", flush=True)
    print(f"{count - failed} passed, {failed} failed")
    return 1 if failed else 0


if __name__ == "__main__":
    sys.exit(main())
