"""Checks of the words that a site is started with, and of how it fails, each named after the rule of docs/PROTOCOL.md that it
tries."""

import subprocess
import time
from contextlib import suppress

import site_driver
from cluster import at, expect, free_ports
from site_trial import entries


def expect_failure(trial, status, what, *words):
    """The command is given other words, and ends with this status and a line that says why."""
    command = trial.given[0]
    done = subprocess.run([*([command] if isinstance(command, str) else command), *words], input=b"status\n", capture_output=True,
                          timeout=site_driver.PATIENCE)  # fmt: skip
    expect((done.returncode, done.stdout), (status, b""), f"the exit status and standard output, {what}")
    # A second line may explain the first one.
    expect((done.stderr.count(b"\n") > 0, done.stderr.endswith(b"\n")), (True, True), f"whether standard error has a line, {what}: {done.stderr!r}")


def words_that_name_no_system_are_refused(trial):
    listen = at(free_ports(1)[0])

    def expect_refusal(number, count, peers, what, *others):
        words = [("--id", number), ("--sites", count), ("--listen", listen)]
        words = [word for option, value in words if value is not None for word in (option, value)]
        expect_failure(trial, 2, what, *words, *others, *(f"{peer}={listen}" for peer in peers))

    expect_refusal("4", "3", ["1", "2", "3"], "where the number is above N")
    expect_refusal("0", "3", ["1", "2", "3"], "where the number is 0")
    expect_refusal("17", "17", map(str, range(1, 17)), "where there are 17 sites")
    expect_refusal("1", "1", [], "where there is one site")
    expect_refusal("1", "0", [], "where there is no site")
    expect_refusal("1", "x", ["2"], "where N is no number")
    expect_refusal("1", "3", ["2"], "where a peer is missing")
    expect_refusal("1", "3", [], "where all peers are missing")
    expect_refusal("1", "3", ["2", "3", "2"], "where a peer is named twice")
    expect_refusal("1", "3", ["2", "2"], "where a peer is named twice, and one is missing")
    expect_refusal("1", "3", ["1", "2", "3"], "where the site itself is named")
    expect_refusal("1", "3", ["1", "2"], "where the site itself is named, and a peer is missing")
    expect_refusal("1", "3", ["2", "3", "4"], "where a site above N is named")
    expect_refusal("1", "3", ["2", "4"], "where a site above N is named, and a peer is missing")
    for other in ("02", "+2", "0", "", " 2", "2 ", "x", "17", "258"):
        expect_refusal("1", "3", [other, "3"], f"where a peer has the number {other!r}")
    expect_refusal("1", "3", ["2"], "where a peer has no address", "3")
    expect_refusal(None, "3", ["2", "3"], "where the number is missing")
    expect_refusal("1", None, ["2", "3"], "where N is missing")
    expect_refusal("1", "3", ["2", "3"], "where an option is unknown", "--bogus")
    expect_refusal("1", "3", ["2", "3"], "where an option comes twice", "--sites", "3")
    expect_failure(trial, 2, "where no address to listen on is named", "--id", "1", "--sites", "2", f"2={listen}")
    expect_failure(trial, 2, "without words")


def words_of_a_clock_that_are_out_of_range_are_refused(trial):
    own, other = map(at, free_ports(2))

    def expect_refusal(*clock):
        expect_failure(trial, 2, f"with {' '.join(clock)!r}", "--id", "1", "--sites", "2", "--listen", own, *clock, f"2={other}")

    for tick in ("0", "60001", "4294967297", f"{2**64 + 1}", "x", "", "1.5", "-1", "1s"):
        expect_refusal(f"--tick={tick}")
    for silent in ("1", "999", "3600001", f"{2**32}", f"{2**64}", "x", "", "1.5", "-1", "3s"):
        expect_refusal("--tick=20", f"--silent={silent}")
    for twice in (["--tick=20", "--tick=20"], ["--tick=20", "--tick=30"], ["--tick=20", "--silent=0", "--silent=3000"]):
        expect_refusal(*twice)
    expect_failure(trial, 2, "without a value of --tick", "--id", "1", "--sites", "2", "--listen", own, f"2={other}", "--tick")
    expect_failure(trial, 2, "without a value of --silent", "--id", "1", "--sites", "2", "--listen", own, f"2={other}", "--tick=20", "--silent")


def a_number_of_keys_that_is_out_of_range_is_refused(trial):
    own, other = map(at, free_ports(2))
    words = ["--id", "1", "--sites", "2", "--listen", own, f"2={other}"]
    for keys in ("10000001", "4294967296", f"{2**64}", f"{2**64 + 5}", "x", "", "1.5", "-1", "5k"):
        expect_failure(trial, 2, f"with '--keys={keys}'", *words, f"--keys={keys}")
    for twice in (["--keys=5", "--keys=5"], ["--keys=5", "--keys=0"]):
        expect_failure(trial, 2, f"with {twice}", *words, *twice)
    expect_failure(trial, 2, "without a value of --keys", *words, "--keys")


def the_least_and_the_greatest_number_of_keys_are_taken(trial):
    command = trial.given[0]
    for keys, replies in (("0", b"error KeyRefused\n"), ("1", b"number 1\n"), ("9999999", b"number 1\n"), ("10000000", b"number 1\n")):
        own, other = map(at, free_ports(2))
        words = ["--keys", keys, "--id", "1", "--sites", "2", "--listen", own, f"2={other}"]
        done = subprocess.run([*([command] if isinstance(command, str) else command), *words], input=b"key a issue 5\n", capture_output=True,
                              timeout=site_driver.PATIENCE)  # fmt: skip
        expect((done.returncode, done.stdout), (0, replies), f"the exit status and standard output with {keys} keys")


def an_address_that_cannot_be_listened_on_ends_a_site(trial):
    for listen in (at(trial.node.port), "nowhere", ""):
        expect_failure(trial, 1, f"where it is to listen on {listen!r}", "--id", "1", "--sites", "2", "--listen", listen, f"2={at(trial.node.port)}")
    trial.hear(2, *entries(2, "R:1:1"))


def replies_that_nobody_reads_end_a_site(trial):
    with trial.again() as other:
        other.say("issue 9")
        other.tick()
        process = other.node.site.process
        process.stdout.close()
        # More than one reply: the first may still find room.
        with suppress(BrokenPipeError):
            for _ in range(100):
                process.stdin.write(b"status\n")
                time.sleep(0.01)
        expect(process.wait(site_driver.PATIENCE), 1, "the exit status where nobody reads replies")
        expect(other.node.site.said().count("\n"), 1, f"lines on standard error: {other.node.site.said()!r}")
