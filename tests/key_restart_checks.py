"""Checks of keys at a site that keeps a journal, is killed, and is started again, each named after the rule of docs/PROTOCOL.md
("Restarts") that it tries."""

import random

from cluster import expect
from restart_checks import after, ticket_of


def a_repeat_after_a_restart_gets_the_reply_of_the_first_time(trial):
    commands = ["issue 100", "take 2", "give 2 10", "spend 3 0", "give 3 10"]
    firsts = [f"key k{number} {command}" for number, command in enumerate(commands)]
    replies = ["number 1", "spent 2", "number 3", "spent 4", "number 5"]
    with trial.site() as site:
        for _ in range(3):
            expect(site.say(*firsts), replies, "the replies")
            site.again()
        expect(site.say("key k3 take 3", "key k1 spend 2 99", "key k3 spend 3 7"), ["spent 4", "spent 2", "spent 4"], "other words")
        others = ["key k0 issue 101", "key k0 take 100", "key k1 take 3", "key k2 give 3 10", "key k2 give 2 1", "key k4 close", "key k1 issue 2"]
        expect(site.say(*others), ["error KeyReused"] * len(others), "other commands")
        expect(site.wait_for_status(number=5, held=75)["keys"], 5, "how many keys are remembered")
        expect(site.say("key new take 1"), ["spent 6"])


def each_reply_under_a_key_stands(trial):
    """The site is killed behind each one alone."""
    with trial.site() as site:
        commands = ["issue 50", "take 3", "give 3 4", "spend 5 0", "give 2 6", "issue 8", "take 24"]
        for number, command in enumerate(commands, 1):
            reply = site.say(f"key k{number} {command}")
            site.again()
            expect(site.say(f"key k{number} {command}"), reply, command)
        site.wait_for_status(number=7, held=16, issued=58, spent=32)


def a_key_stands_where_its_entry_does(trial):
    """The site is killed as soon as a peer knows of the entry, and nobody has read the reply."""
    with trial.site() as site:
        for number in range(1, 9, 2):
            commands = [f"key a{number} issue {number + 9}", f"key b{number} give 2 {number}"]
            line = f"E 1 {number} {number + 1} R:2:{number}"
            site.say_and_kill([*commands, f"tick {site.time}"], lambda: line in site.peers[2].said())
            site.start()
            expect(site.say(*commands, *commands), [f"number {number}", f"number {number + 1}"] * 2, "repeats after a restart")
            site.expect_all_told()
        site.wait_for_status(number=8, held=4 * 9)


def commands_under_keys_are_carried_out_once(trial):
    """The site is killed in the middle of many, again and again, and all of them are repeated until each has a reply.
    There is one entry of each."""
    chance = random.Random(3)
    with trial.site() as site:
        site.say("issue 10000000")
        amounts = iter(range(1, 10_000))
        for turn in range(6):
            words = chance.choices(("take", "issue", "give 2", "give 3"), k=40)
            commands = [f"key {turn}-{word[-1]}-{amount} {word} {amount}" for word, amount in zip(words, amounts)]
            site.say_and_kill(commands, after(chance.random() ** 2 * 0.3))
            site.start()
            site.say_and_kill(chance.sample(commands, 40), after(chance.random() ** 2 * 0.3))
            site.start()
            replies = site.say(*commands)
            site.again()
            expect(site.say(*commands), replies, "the replies to the repeats")
        expect(len({tuple(entry.moves) for entry in site.log()}), 241, "entries that differ")
        site.wait_for_status(number=241)


def a_key_of_what_was_served_stands(trial):
    """Whether its outcome was told or not."""
    with trial.site() as site:
        for number, tells in enumerate((None, "outcome", "key", "kill"), 1):
            spend = f"key k{number} spend {number + 4} 99"
            ticket = ticket_of(site.say(spend)[0])
            site.say(f"issue {number + 4}")
            tick = f"tick {site.time}"
            if tells == "kill":
                site.say_and_kill([tick], lambda: f"B 1 {2 * number}" in site.peers[2].said())
                site.start()
            else:
                site.say(tick, *([] if tells is None else [f"outcome {ticket}" if tells == "outcome" else spend]))
                site.again()
            expect(site.say(spend, f"key k{number} take {number + 4}", f"key k{number} take 1"), [f"spent {2 * number}"] * 2 + ["error KeyReused"])
            site.expect(f"outcome {ticket}", "unknown")
        site.wait_for_status(number=8, held=0, spent=26)


def a_key_of_a_spend_that_waited_is_free(trial):
    """Nothing was done, so it may be used for another command, and for the same one."""
    with trial.site() as site:
        tickets = [ticket_of(reply) for reply in site.say("key a spend 5 99", "key b spend 6 99", "key c spend 7 99")]
        site.again()
        expect(site.status()["queued"], 0, "what is waited for")
        site.expect("key a issue 3", "number 1")
        again = ticket_of(site.say("key b spend 6 99")[0])
        expect(again > max(tickets), True, f"whether ticket {again} is above {tickets}")
        expect(site.say("key b spend 6 99", "key a issue 3", "key a spend 5 99"), [f"queued {again}", "number 1", "error KeyReused"])
        site.say("issue 5")
        site.tick()
        site.expect("key b take 6", "spent 3")
        site.again()
        expect(site.say("key b spend 6 9", "key a issue 3", "key c spend 1 9", "key c take 1"), ["spent 3", "number 1", "spent 4", "spent 4"])
        site.wait_for_status(number=4, held=1, spent=7)


def a_key_of_a_refused_command_is_free_after_a_restart(trial):
    with trial.site() as site:
        expect(site.say("key a take 5", "key b issue 0", "key c give 4 1"), ["error Short", "error BadAmount", "error NoSuchSite"])
        site.again()
        expect(site.say("key b issue 9", "key a take 5", "key c give 2 1", "key a take 5"), ["number 1", "spent 2", "number 3", "spent 2"])


def the_close_of_a_site_is_told_by_its_key(trial):
    for command, number in (("close", 3), ("close 3", 4)):
        with trial.site() as site:
            expect(site.say("key a issue 10", "key b take 1", f"key z {command}"), ["number 1", "spent 2", f"number {number}"])
            for _ in range(2):
                site.again()
                repeats = [f"key z {command}", "key z close", "key z close 2", "key b take 1", "key z issue 1", "key y close", "close"]
                wanted = [f"number {number}"] * 3 + ["spent 2", "error KeyReused", "error Closed", "error Closed"]
                expect(site.say(*repeats), wanted, "the replies of a site that closed")


def the_oldest_keys_are_forgotten_after_a_restart_too(trial):
    """Where two are remembered."""
    with trial.site(keys=2) as site:
        expect(site.say("issue 100", "key a take 1", "key b take 2", "key c take 3"), ["number 1", "spent 2", "spent 3", "spent 4"])
        site.again()
        expect(site.say("key b take 2", "key c take 3", "key a issue 7", "key c take 3"), ["spent 3", "spent 4", "number 5", "spent 4"])
        site.again()
        expect(site.status()["keys"], 2, "how many keys are remembered")
        expect(site.say("key c take 3", "key a issue 7", "key b issue 8", "key a issue 7", "key b issue 8"),
               ["spent 4", "number 5", "number 6", "number 5", "number 6"])  # fmt: skip
        site.again()
        expect(site.say("key a take 1", "key b take 2", "key c issue 9", "key b issue 8"), ["error KeyReused"] * 2 + ["number 7", "number 6"])


def a_site_that_is_told_to_remember_fewer_keys_forgets_the_oldest(trial):
    with trial.site() as site:
        site.say("issue 100", *(f"key k{number} take {number}" for number in range(1, 9)))
        site.kill()
        site.keys = 3
        site.start()
        expect(site.status()["keys"], 3, "how many keys are remembered")
        expect(site.say("key k8 take 8", "key k6 take 6", "key k6 take 1", "key k5 issue 1"), ["spent 9", "spent 7", "error KeyReused", "number 10"])
        site.kill()
        site.keys = 1
        site.start()
        expect(site.status()["keys"], 1, "how many keys are remembered")
        expect(site.say("key k5 issue 1", "key k8 issue 4", "key k8 issue 4"), ["number 10", "number 11", "number 11"])
        site.kill()
        site.keys = 0
        site.start()
        expect("keys" in site.status(), False, "whether any key is remembered")
        expect(site.say("key k8 issue 4", "key k5 issue 1", "key new issue 1", "issue 2"), ["error KeyRefused"] * 3 + ["number 12"])


def many_keys_stand(trial):
    with trial.site() as site:
        commands = [f"key order-{number}-{'x' * (number % 50)} issue {number}" for number in range(1, 301)]
        replies = site.say(*commands)
        expect(replies, [f"number {number}" for number in range(1, 301)], "the replies")
        site.again()
        expect(site.say(*commands), replies, "the replies to repeats")
        expect(site.status()["keys"], 300, "how many keys are remembered")


def keys_of_all_bytes_stand(trial):
    with trial.site() as site:
        keys = [*map(chr, range(0x21, 0x7F)), *(chr(byte) * 64 for byte in (0x21, 0x23, 0x3D, 0x58, 0x7E)), "==", "-1", "J1", "..", "E:1"]
        commands = [f"key {key} issue {number}" for number, key in enumerate(keys, 1)]
        replies = site.say(*commands)
        site.again()
        expect(site.say(*commands), replies, "the replies to repeats")
        site.wait_for_status(number=len(keys))
