"""Checks of a site that keeps a journal, is killed, and is started again by the same command, each named after the rule of
docs/PROTOCOL.md ("Restarts") that it tries. After each restart, and at the end of a check, all that the site ever told its
clients and its peers has to stand (`expect_all_told` of restart_trial.py)."""

import os
import random
import signal
import time

import site_driver
from cluster import expect
from restart_trial import wait_for
from site_trial import entries

# The ticket of a reply `queued T`.
WAITS = "queued "


def after(seconds):
    """What says whether so many seconds have passed from now on."""
    until = time.monotonic() + seconds
    return lambda: time.monotonic() >= until


def ticket_of(reply):
    expect(reply.startswith(WAITS), True, f"whether {reply!r} has a ticket")
    return int(reply.removeprefix(WAITS))


# ---- clients


def what_replies_told_stands(trial):
    with trial.site() as site:
        replies = ["number 1", "spent 2", "spent 3", "number 4", "error Short"]
        expect(site.say("issue 100", "spend 3 0", "take 2", "give 2 10", "take 86"), replies)
        site.again()
        site.wait_for_status(number=4, held=85, issued=100, spent=5)
        expect(site.say("take 5", "issue 7", "spend 6 9"), ["spent 5", "number 6", "spent 7"])
        for _ in range(3):
            site.again()
        site.wait_for_status(number=7, held=81, issued=107, spent=16)
        expect(site.say("take 82", "take 81"), ["error Short", "spent 8"])


def each_reply_stands(trial):
    """The site is killed behind each one alone."""
    with trial.site() as site:
        commands = ["issue 50", "take 3", "give 3 4", "spend 5 0", "spend 99 9", "give 2 6", "cancel 0", "issue 8"]
        for number, command in enumerate(commands, 1):
            site.say(command)
            site.again()
            site.say(f"issue {number}")
        status = site.status()
        expect((status["held"], status["issued"], status["spent"]), (50 + 36 + 8 - 18, 94, 8))


def replies_to_commands_that_came_together_stand(trial):
    """The site is killed in the middle of its replies."""
    chance = random.Random(1)
    with trial.site() as site:
        site.say("issue 100000")
        for turn in range(6):
            words = ("take", "issue", "give 2", "give 3")
            commands = [f"{chance.choice(words)} {chance.randint(1, 9)}" for _ in range(200)]
            if turn % 2 == 0:
                site.say_and_kill(commands, site.has_reply)
            else:
                site.say_and_kill(commands, after(chance.random() ** 2 * 0.2))
            site.start()
            site.expect_all_told()


def what_a_tick_did_stands(trial):
    """It serves a spend that waits, and its reply and the outcome say so."""
    with trial.site() as site:
        ticket = ticket_of(site.say("spend 5 99")[0])
        site.say("spend 6 99", "issue 9")
        site.tick()
        site.again()
        site.wait_for_status(number=2, held=4, spent=5)
        site.say("issue 100")
        ticket = ticket_of(site.say("spend 105 99")[0])
        site.say("issue 50")
        site.tick()
        site.expect(f"outcome {ticket}", "spent 5")
        site.again()
        site.wait_for_status(number=5, held=49, spent=110)


# ---- its log, for peers


def entries_that_were_sent_stand(trial):
    """The site is killed as soon as they came to a peer."""
    with trial.site() as site:
        for number in range(1, 9, 2):
            tick = f"tick {site.time}"
            line = f"E 1 {number} {number + 1} R:2:{number}"
            site.say_and_kill([f"issue {number + 9}", f"give 2 {number}", tick], lambda: line in site.peers[2].said())
            site.start()
            site.expect_all_told()
        site.wait_for_status(number=8, held=4 * 9)


def lines_of_ticks_stand(trial):
    """The site is killed in the middle of many ticks."""
    chance = random.Random(2)
    with trial.site() as site:
        site.say("issue 100000")
        for _ in range(5):
            commands = []
            for number in range(60):
                commands += [f"give {chance.choice([2, 3])} {chance.randint(1, 9)}", f"issue {number + 1}", "tick 0"]
            count = len(site.peers[2].lines) + chance.randint(1, 40)
            site.say_and_kill(commands, lambda: len(site.peers[2].lines) >= count)
            site.start()
            site.expect_all_told()


def an_answer_stands(trial):
    """It tells an entry that no tick sent, which grants what the same peer asked for."""
    with trial.site() as site:
        site.say("issue 50")
        for number in (1, 2, 3):
            told = site.ask(2, number, number + 1, f"W 2 1 {number} {number + 4}")
            expect(told[-1], f"E 1 {number} {number + 1} G:2:{number + 4}:{number}", "the last entry of the answer")
            site.again()
        site.wait_for_status(number=4, held=50 - 18)


def a_beat_tells_of_all_entries_after_a_restart(trial):
    """A peer that lost all lines learns by a beat how long the log is."""
    with trial.site() as site:
        site.say("issue 7", "give 2 3", "issue 2")
        for _ in range(2):
            site.again()
            for peer in (2, 3):
                expect(site.lines_of_tick(peer)[-1], "B 1 3", f"the last line of a tick to site {peer}")


def a_long_log_stands(trial):
    """It takes many answers to send it."""
    with trial.site() as site:
        site.say("issue 1000", *["take 1", "give 2 2", "give 3 1"] * 60)
        site.again()
        expect([entry.text for entry in site.log(3)], [entry.text for entry in site.log(2)], "the log, as two peers get it")
        site.wait_for_status(number=181, held=760)


# ---- what it applied


def what_was_applied_stands(trial):
    with trial.site() as site:
        site.hear(2, *entries(2, "I:30 R:1:4", "R:1:5"))
        site.hear(3, *entries(3, "I:9", "R:1:2"))
        site.wait_for_status(applied_2=3, applied_3=2, held=11)
        for _ in range(2):
            site.again()
            site.wait_for_status(applied_2=3, applied_3=2, held=11, received=11)
        # What comes again changes nothing, and what is new is applied.
        site.hear(2, *entries(2, "I:30 R:1:4", "R:1:5", "R:1:6"))
        site.wait_for_status(applied_2=4, held=17, received=17)
        site.expect("take 17", "spent 1")
        site.again()
        site.wait_for_status(applied_2=4, held=0, received=17, spent=17)


def what_an_answer_brought_stands(trial):
    with trial.site() as site:
        log = entries(2, "I:30", "R:1:4", "R:1:5 R:3:1")
        site.hear(2, ";".join(["A 2 1", *log]))
        site.wait_for_status(applied_2=4, held=9)
        site.again()
        site.wait_for_status(applied_2=4, held=9)


def what_was_applied_is_not_asked_for_again(trial):
    with trial.site() as site:
        site.hear(2, *entries(2, "I:30", "R:1:4", "R:1:5"))
        site.wait_for_status(applied_2=3)
        site.again()
        site.hear(2, "B 2 3")
        site.hear(2, "B 2 5")
        site.wait_for_lines(2, "Q 1 2 4 5")
        queries = {line for line in site.peers[2].said(site.heard[2]) if line.startswith("Q ")}
        expect(queries, {"Q 1 2 4 5"}, "queries after the restart")
        site.hear(2, *entries(2, "R:1:6 R:1:7", prev=3))
        site.wait_for_status(applied_2=5, held=22)


def what_waited_for_an_entry_comes_again(trial):
    """Entries that were held beyond a gap may be forgotten. They are asked for, or were kept."""
    with trial.site() as site:
        first, second, third = entries(2, "I:30", "R:1:4", "R:1:5")
        site.hear(2, first, third)
        site.wait_for_lines(2, "Q 1 2 2 2")
        site.wait_for_status(applied_2=1)
        site.again()
        site.hear(2, "B 2 3")
        asked = [f"Q 1 2 2 {last}" for last in (2, 3)]
        wait_for("a query for number 2", lambda: set(asked) & set(site.peers[2].said(site.heard[2])))
        site.hear(2, f"A 2 1;{second};{third}")
        site.wait_for_status(applied_2=3, held=9)


def rights_that_were_given_and_received_stand(trial):
    """In turn, and spent in between: no entry of the site is there without those whose rights it moved."""
    with trial.site() as site:
        log = entries(2, *[f"I:{number + 10} R:1:{number + 1}" for number in range(8)])
        for number, entry in enumerate(log, 1):
            site.hear(2, entry)
            site.wait_for_status(applied_2=2 * number)
            expect(site.say(f"give 3 {number}"), [f"number {number}"])
            site.again()
            site.wait_for_status(held=0, received=number * (number + 1) // 2, applied_2=2 * number)


def a_connection_that_ends_in_a_line(trial):
    """What was read of a peer before the site is killed, and what was not, comes again."""
    with trial.site() as site:
        log = entries(2, *["R:1:1"] * 30)
        for count in (7, 16, 30):
            for entry in log[: count - 1]:
                site.peers[2].speak(site.port, entry)
            site.wait_for_status(applied_2=count - 1)
            site.peers[2].spoken.sendall(log[count - 1].encode()[:6])
            site.again()
            site.hear(2, log[count - 1])
            site.wait_for_status(applied_2=count, held=count)


# ---- asks


def knows_rights(site, peer, amount):
    """The peer issues so much, and the site knows."""
    site.hear(peer, *entries(peer, f"I:{amount}"))
    site.wait_for_status(**{f"applied_{peer}": 1})


def an_outstanding_ask_is_sent_again_with_its_number(trial):
    with trial.site() as site:
        knows_rights(site, 2, 50)
        site.say("spend 6 99")
        expect(site.asks_of_tick(2), ["W 1 2 1 6"], "asks")
        for _ in range(2):
            site.again()
            expect(site.asks_of_tick(2), ["W 1 2 1 6"], "asks after a restart")
        # Its grant arrives, though the spend is forgotten that it was for.
        site.hear(2, "E 2 1 2 G:1:6:1")
        site.wait_for_status(applied_2=2, held=6)
        expect(site.asks_of_tick(2), [], "asks once it is granted")
        site.say("spend 8 99")
        expect(site.asks_of_tick(2), ["W 1 2 2 2"], "the next ask")


def an_ask_that_left_as_the_site_was_killed_keeps_its_number(trial):
    """Nothing but the ask was told, and other spends wait then."""
    with trial.site() as site:
        knows_rights(site, 2, 500)
        for number in range(1, 5):
            start = f"W 1 2 {number} "
            commands = [f"spend {number * 7} 99", "tick 0"]
            site.say_and_kill(commands, lambda: any(start in line for line in site.peers[2].said()))
            site.start()
            site.say(f"spend {number * 7 + 3} 99")
            (ask,) = site.asks_of_tick(2)
            expect(ask, f"{start}{number * 7}", "the ask after a restart")
            site.hear(2, f"E 2 {number} {number + 1} G:1:{number * 7}:{number}")
            site.wait_for_status(applied_2=number + 1, held=number * 7)
            site.again()
            # So that the next ask is for all that is waited for.
            site.expect(f"take {number * 7}", f"spent {number}")


def no_ask_number_is_used_twice(trial):
    """Asks that are granted and denied, to two peers, with a restart behind each."""
    with trial.site() as site:
        knows_rights(site, 2, 500)
        knows_rights(site, 3, 400)
        ends = {2: 1, 3: 1}
        for turn in range(4):
            site.say(f"spend {900 - turn} 99")
            lines = {peer: site.asks_of_tick(peer) for peer in ends}
            if turn % 2:
                site.again()
                lines = {peer: site.asks_of_tick(peer) for peer in ends}
            for peer, asks in lines.items():
                expect(len(asks), 1, f"asks of one tick to site {peer}: {asks}")
                number, amount = map(int, asks[0].split(" ")[3:])
                if (turn + peer) % 2:
                    site.hear(peer, f"D {peer} 1 {number}")
                else:
                    site.hear(peer, f"E {peer} {ends[peer]} {ends[peer] + 1} G:1:1:{number}")
                    ends[peer] += 1
            site.wait_for_status(applied_2=ends[2], applied_3=ends[3])
            site.again()
            for peer in ends:
                # It may have forgotten that an ask was denied. So it is denied once more.
                for ask in set(site.asks_of_tick(peer)):
                    site.hear(peer, f"D {peer} 1 {ask.split(' ')[3]}")


def asks_to_several_peers_stand(trial):
    with trial.site(4, number=3) as site:
        for peer, amount in ((1, 9), (2, 20), (4, 5)):
            knows_rights(site, peer, amount)
        site.say("spend 34 99")
        site.tick()
        asks = {1: "W 3 1 1 9", 2: "W 3 2 1 20", 4: "W 3 4 1 5"}
        for peer, ask in asks.items():
            site.wait_for_lines(peer, ask)
        site.again()
        for peer, ask in asks.items():
            expect(site.asks_of_tick(peer), [ask], f"asks to site {peer}")
        site.hear(4, "E 4 1 2 G:3:5:1")
        site.wait_for_status(applied_4=2, held=5)
        site.again()
        for peer, ask in asks.items():
            expect(site.asks_of_tick(peer), [ask] if peer != 4 else [], f"asks to site {peer}, once site 4 granted its own")


def an_ask_is_granted_once(trial):
    """It comes again after a restart. The numbers of a peer's asks need not begin at 1."""
    with trial.site() as site:
        site.say("issue 50")
        site.hear(2, "W 2 1 7 6")
        site.wait_for_status(held=44, number=2)
        for _ in range(2):
            site.again()
            site.hear(2, "W 2 1 7 6")
            site.wait_for_status(held=44, number=2)
        # One with a smaller number is ignored.
        site.hear(2, "W 2 1 6 3")
        site.wait_for_status(held=44, number=2)
        site.hear(2, "W 2 1 8 3")
        site.hear(3, "W 3 1 1 2")
        site.wait_for_status(held=39, number=4)
        site.again()
        site.hear(2, "W 2 1 8 3", "W 2 1 7 6")
        site.hear(3, "W 3 1 1 2")
        site.wait_for_status(held=39, number=4)
        expect([line for lines in site.said("D").values() for line in lines], [], "denials of asks that were granted")


def an_ask_is_granted_or_denied_after_a_restart(trial):
    """What was denied is answered again: with a denial while nothing is held."""
    with trial.site() as site:
        for _ in range(2):
            site.hear(2, "W 2 1 1 6")
            site.wait_for_lines(2, "D 1 2 1")
            site.again()
        site.say("issue 9")
        # The denial may be forgotten, so that this is granted now; but once.
        site.hear(2, "W 2 1 1 6", "W 2 1 2 1")
        held = site.status()["held"]
        expect(held in (8, 2), True, f"whether ask 2 is granted, and ask 1 at most: {held}")
        site.again()
        site.hear(2, "W 2 1 1 6", "W 2 1 2 1")
        site.wait_for_status(held=held)


# ---- tickets


def tickets_begin_above_every_one_that_was_given_out(trial):
    """An old ticket is unknown, and the spends that waited are forgotten."""
    with trial.site() as site:
        last = 0
        for _ in range(3):
            replies = site.say("spend 5 9", "spend 6 99999", "spend 7 99999")
            tickets = [ticket_of(reply) for reply in replies]
            expect(last < tickets[0] < tickets[1] < tickets[2], True, f"whether {tickets} begin above {last}, and go up")
            last = tickets[-1]
            site.say(f"cancel {tickets[1]}")
            site.again()
            site.expect("queue", '{"requests":[],"unread":0}')
            for ticket in tickets:
                expect(site.say(f"outcome {ticket}", f"cancel {ticket}"), ["unknown"] * 2, f"ticket {ticket}")
            expect(site.status()["queued"], 0, "what is waited for")


def a_ticket_that_left_as_the_site_was_killed_is_not_given_out_again(trial):
    """Nothing is told but tickets."""
    with trial.site() as site:
        for _ in range(4):
            site.say_and_kill(["spend 5 9"] * 9, site.has_reply)
            site.start()
            ticket_of(site.say("spend 5 9")[0])
            site.again()


def spends_that_waited_are_not_served_later(trial):
    with trial.site() as site:
        old = ticket_of(site.say("spend 5 999")[0])
        site.again()
        new = ticket_of(site.say("spend 60 999")[0])
        site.hear(2, *entries(2, "I:100 R:1:62"))
        site.wait_for_status(applied_2=2, held=62)
        site.tick()
        site.expect(f"outcome {old}", "unknown")
        site.expect(f"outcome {new}", "spent 1")
        site.wait_for_status(held=2, spent=60)


# ---- sites that close


def a_closed_site_stays_closed(trial):
    for command, closing in (("close", "K:0:2:0"), ("close 3", "R:3:14 K:0:2:0")):
        with trial.site() as site:
            site.hear(2, *entries(2, "I:30", "R:1:4"))
            site.wait_for_status(applied_2=2)
            site.say("issue 10", command)
            for _ in range(2):
                site.again()
                expect(site.status()["closed"], True, "whether it is closed")
                expect(site.say("issue 1", "take 1", "spend 1 1", "give 2 1", "close"), ["error Closed"] * 5)
                # It applies nothing more, denies asks, and answers queries.
                site.hear(2, *entries(2, "R:1:5", prev=2), "W 2 1 1 1")
                site.wait_for_lines(2, "D 1 2 1")
                site.wait_for_status(applied_2=2, closed=True)
                expect(site.log()[-1].text.split(" ", 4)[4], closing, "the closing entry")


def what_was_taken_back_is_taken_back_once(trial):
    with trial.site() as site:
        site.say("issue 20", "give 2 6", "give 2 1", "give 3 2")
        log = entries(2, "I:8", "K:2:0:0")
        site.hear(2, *log)
        site.wait_for_status(applied_2=2, number=5, held=12)
        for _ in range(2):
            site.again()
            site.hear(2, "B 2 2", *log)
            site.wait_for_status(applied_2=2, number=5, held=12)
        expect(site.log()[-1].text, "E 1 4 5 V:2:1", "the entry that takes back")
        site.expect("give 2 1", "error PeerClosed")
        expect(site.asks_of_tick(2), [], "asks to a site that closed")


def a_closing_entry_that_comes_after_a_restart(trial):
    """The rest of the log is there before it, and what the site gave."""
    with trial.site() as site:
        site.say("issue 20", "give 2 6")
        site.hear(2, *entries(2, "I:8"))
        site.wait_for_status(applied_2=1)
        site.again()
        site.hear(2, "E 2 1 2 K:0:0:0")
        site.wait_for_status(applied_2=2, number=3, held=20)
        site.again()
        site.wait_for_status(applied_2=2, number=3, held=20)


# ---- starts and ends


def a_site_that_told_nothing_starts_empty(trial):
    """It is killed at any moment of its first start, and as soon as its journal is there, or has a first byte."""
    with trial.site() as site:
        seconds = site.seconds
    for part in range(6):
        with trial.site(is_started=False) as site:
            if part % 3:
                least = part % 3 - 1
                site.start_and_kill(lambda: os.path.exists(site.path) and os.path.getsize(site.path) >= least)
            site.start_and_kill(after(seconds * part / 5))
            site.start()
            site.wait_for_status(number=0, held=0, applied_2=0, applied_3=0, closed=False)
            site.expect("issue 5", "number 1")


def a_start_that_is_killed_changes_nothing(trial):
    with trial.site() as site:
        site.say("issue 9", "give 2 4")
        site.hear(2, *entries(2, "R:1:3"))
        site.wait_for_status(applied_2=1)
        for _ in range(2):
            site.again()
            seconds = site.seconds
            site.kill()
            for part in range(12):
                site.start_and_kill(after(seconds * part / 11))
            site.start()
            site.wait_for_status(number=2, held=8, applied_2=1)


def a_site_that_ended_by_itself_starts_again(trial):
    """By quit, by the end of its input, and by SIGTERM. What it did at its end stands too."""
    with trial.site() as site:
        for turn, text in enumerate((b"quit\n", b"", b"issue 4\ntick 0\nquit\n", b"issue 4\ntick 0\n", None), 1):
            site.say(f"issue {turn}")
            process = site.site.process
            if text is None:
                process.send_signal(signal.SIGTERM)
            else:
                process.stdin.write(text)
                process.stdin.close()
                if b"issue" in text:
                    site.replies.append(("issue 4", None))
            process.wait(site_driver.PATIENCE)
            site.note_end()
            site.start()
            site.expect_all_told()
        site.wait_for_status(number=7, held=23)


def expect_refusal(site, what, **words):
    """A process that is started on the site's file ends by itself, says why in one line, and changes nothing."""
    before = site.content()
    status, said, errors = site.run(b"issue 1\n", **words)
    expect((status != 0, said), (True, b""), f"{what}: whether the status is not 0, and the output; {errors!r}")
    is_line = len(errors) > 1 and errors.endswith(b"\n") and errors.count(b"\n") == 1
    expect(is_line, True, f"{what}: whether {errors!r} is one line")
    expect(site.content() == before, True, f"{what}: whether the file is as it was")


def the_journal_of_another_site_is_refused(trial):
    with trial.site() as site:
        site.say("issue 9")
        site.kill()
        for number in (2, 3):
            expect_refusal(site, f"site {number} with the journal of site 1", number=number)
        site.start()
        site.expect("take 9", "spent 2")


def the_journal_of_a_system_of_another_size_is_refused(trial):
    with trial.site() as site:
        site.say("issue 9")
        site.kill()
        for count in (2, 4, 16):
            expect_refusal(site, f"a system of {count} with the journal of one of 3", count=count)
        site.start()
        site.expect("take 9", "spent 2")


def a_second_process_is_refused(trial):
    """While the first one has the file, which goes on."""
    with trial.site() as site:
        site.say("issue 9")
        expect_refusal(site, "a second process")
        site.expect("take 4", "spent 2")
        site.again()
        expect_refusal(site, "a second process after a restart")
        site.expect("take 5", "spent 3")


# ---- all together


class Talker:
    """A peer that says what it may, by chance: new entries of its log and old ones, grants, and asks."""

    def __init__(self, site, number, chance):
        self.site, self.number, self.chance = site, number, chance
        self.log, self.granted, self.asks = [], 0, []

    @property
    def end(self):
        return int(self.log[-1].split(" ")[3]) if self.log else 0

    def grant(self):
        """The move that grants the site's last ask, if it was not granted."""
        asks = [line.split(" ") for line in self.site.said("W")[self.number]]
        number, amount = map(int, asks[-1][3:]) if asks else (0, 0)
        if number <= self.granted:
            return None
        self.granted = number
        return f"G:1:{self.chance.randint(1, amount)}:{number}"

    def lines(self):
        for _ in range(self.chance.randint(0, 3)):
            moves = f"I:{self.chance.randint(20, 40)} R:1:{self.chance.randint(1, 9)}"
            self.log += entries(self.number, self.chance.random() < 0.5 and self.grant() or moves, prev=self.end)
        if self.chance.random() < 0.3:
            self.asks.append(f"W {self.number} 1 {len(self.asks) + 1} {self.chance.randint(1, 20)}")
        return self.log[-3:] + self.asks[-2:]

    def received(self):
        """What its log gives to the site."""
        moves = [move.split(":") for line in self.log for move in line.split(" ")[4:]]
        return sum(int(move[2]) for move in moves if move[0] in "GR")


def some_commands(chance, most):
    def command():
        amount = chance.randint(1, 30)
        return chance.choice([
            f"issue {amount}", f"take {amount}", f"spend {amount} 0", f"spend {amount * 3} 9999",
            f"give {chance.choice([2, 3])} {amount}", "tick 0", "tick 0", "queue",
            # Many of these are repeats.
            f"key i{amount} issue {amount}", f"key s{amount} take {amount}", f"key s{amount} spend {amount} 9999",
        ])  # fmt: skip

    return [command() for _ in range(chance.randint(1, most))]


def anything_stands_at_any_moment(trial):
    """Commands, and lines of peers, made from seeds; the site is killed in the middle of them."""
    for seed in range(1, 4):
        chance = random.Random(seed)
        with trial.site() as site:
            talkers = [Talker(site, number, chance) for number in (2, 3)]
            for _ in range(4):
                for _ in range(6):
                    site.say(*some_commands(chance, 4))
                    talker = chance.choice(talkers)
                    site.hear(talker.number, *talker.lines())
                for talker in talkers:
                    site.peers[talker.number].speak(site.port, *talker.lines())
                site.say_and_kill(some_commands(chance, 30), after(chance.random() ** 2 * 0.03))
                site.start()
                site.expect_all_told()
                for talker in talkers:
                    site.hear(talker.number, *talker.log, *talker.asks)
            expect_sums(site, talkers)


def expect_sums(site, talkers):
    """What is held is what the entries of all logs say."""
    status = site.wait_for_status(**{f"applied_{talker.number}": talker.end for talker in talkers})
    log, received = site.log(), sum(talker.received() for talker in talkers)
    issued, spent = (sum(entry.total(kind) for entry in log) for kind in "IS")
    given = sum(entry.given() for entry in log)
    expect((status["issued"], status["spent"], status["received"]), (issued, spent, received), "sums of the logs")
    expect(status["held"], issued + received - spent - given, "what is held")
