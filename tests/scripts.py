#!/usr/bin/env python3
"""Tries the program's replies to many scripts against those of a model.

    tests/scripts.py [--seeds FIRST COUNT] [COMMAND...]

COMMAND answers a script on its standard input, by default ./rights-site sim. The scripts are made
from COUNT seeds, 60 from 100 on without the option, and there are sweeps over all sizes of what a
command is given: a program that wants more memory than it made room for replies otherwise there.
The model is tried by itself too: by examples/, and without the option by whether the made scripts
lead to each kind of reply. Failures are printed, and the last line is 'N passed, M failed'; the
exit status is 1 where something failed. tests/suite.py runs the same without options.
"""

import argparse
import glob
import os
import re
import subprocess
import sys

sys.path.insert(0, os.path.dirname(os.path.abspath(__file__)))

from cases import case_of_pairs  # noqa: E402
from cluster import BUILT, PROGRAM, TOP  # noqa: E402
from outputs import first_difference, output_fault, shown  # noqa: E402
import script_maker  # noqa: E402
from script_model import lines_of, replies  # noqa: E402

FIRST_SEED, SEEDS = 100, 60
COMMANDS = 400

# A sweep of more cases counts as one test.
MOST_COUNTED = 100


def say(text):
    print(text, flush=True)


# ---- replies that differ


def output_of(answers):
    return b"".join(answer + b"\n" for answer in answers)


def places_in(script, answers):
    """Names a line of the output by the command that it answers."""
    commands = zip(lines_of(script), answers)
    names = [
        f"line {number}, {shown(command)}"
        for number, (command, answer) in enumerate(commands, 1)
        for _ in answer.split(b"\n")
    ]
    return lambda number: names[number - 1] if number <= len(names) else "behind the last reply"


def model_difference(script, expected):
    """Where the model does not reply as expected, or None."""
    return first_difference(expected, output_of(replies(script)))


def first_fault(command, cases):
    """Why one of the cases, each a name and a script, is not answered as by the model, or None."""
    for name, script in cases:
        answers = replies(script)
        if fault := output_fault(command, script, output_of(answers), places_in(script, answers)):
            return f"{name}: {fault}"
    return None


# ---- the model by itself


def example_fault(path):
    """Why the model does not answer the example as it should, or None."""
    with open(path, "rb") as commands, open(path[: -len("script")] + "expected", "rb") as expected:
        return model_difference(commands.read(), expected.read())


def script_of_cuts():
    """Lines that others may cut elsewhere, or whose line feeds they may not count."""
    longest = b"noise 2 1 ".ljust(16_383, b"x")
    return b"sites 2\n\npost 1 I:1\r\n" + longest + b"\n" + longest + b"x"


def cuts_fault():
    """A line is cut at its line feed alone, and its length counts it."""
    wanted = b"ok\nerror BadCommand\nerror BadCommand\nrefused 3\nerror BadCommand\n"
    return model_difference(script_of_cuts(), wanted)


def seeds_fault():
    """A script has as many lines as were asked for, and is the same for the same seed alone."""
    first, again, other = (script_maker.script(seed, COMMANDS) for seed in (1, 1, 2))
    if first != again or first == other:
        return "a seed does not make one script"
    # The last line may be empty and unfinished, which is no line.
    counts = {len(lines_of(script_maker.script(seed, COMMANDS))) for seed in range(10)}
    return None if counts <= {COMMANDS - 1, COMMANDS} else f"so many lines: {counts}"


# The kinds of reply that a script can lead to, `#` a number. LogFull takes 60 million entries, and
# OutOfMemory and Ended want of memory. The rules keep out `afterclose`, `empty`, a query that is
# refused, an entry of an answer that is held or full, and `refused` 1, 2 and 8.
KINDS = [
    "ok", "number #", "spent #", "queued #", "served # #", "expired 0", "expired 1", "expired ##",
    "waiting", "expired", "unknown", "asks 0", "asks 1", "asks 2", "nothing", "beat", "noted",
    "packet # E # # # .*I:.*", "packet # E # # # .*S:.*", "packet # E # # # .*R:.*",
    "packet # E # # # G:.*", "packet # E # # # V:.*", "packet # E # # # K:.*",
    "packet # E # # # R:#:# K:.*", "packet # Q # # # #", "packet # A # #;E .*",
    "packet # A # #;E .*;E .*", "packet # B # #", "packet # W # # # #", "ready #",
    "ready #( ready #)+", "held", "repeat", "repeat repeat.*", "repeat.* ready #.*", "full",
    "granted #", "denied packet # D # # #", "repeated", "old", "taken #", "taken # back #",
    "site 16 .*", "site .* closed 0", "site .* closed 1", "pair 16 15 .*", "pair .* way 0",
    "pair .* way [1-9].*", "total .* way 0", "total .* way [1-9].*",
    "refused 3", "refused 4", "refused 5", "refused 6", "refused 7",
    "error BadCommand", "error NoWorld", "error NoSuchSite", "error NoPacket", "error NotForSite",
    "error Forged", "error Closed", "error BadCount", "error BadMove", "error BadAmount",
    "error SameSite", "error PeerClosed", "error Short", "error QueueFull", "error QueueBusy",
    "error HeldTooMuch", "error TimeWentBack",
]


def is_reached(kind, output):
    pattern = kind.replace("##", "[0-9]{2,}").replace("#", "[0-9]+")
    return re.search(f"^{pattern}$".encode(), output, re.MULTILINE) is not None


def kinds_fault(scripts):
    """Which kinds of reply the scripts do not lead to, or None."""
    output = b"\n".join(reply for script in scripts for reply in replies(script))
    missing = [kind for kind in KINDS if not is_reached(kind, output)]
    return f"no reply is: {', '.join(missing)}" if missing else None


# ---- sweeps, each of which has the name and the script of each of its cases


def script_of(*lines):
    return "".join(f"{line}\n" for line in lines).encode()


def post_of(count):
    """A post of site 1 with so many moves."""
    moves = [("S:1", "R:2:1000000", "I:12345")[place % 3] for place in range(1, count)]
    return " ".join(["post 1 I:1000000000", *moves])


def lost_entries(moves, lost):
    """Entries of so many moves are lost. Site 2 hears of them by a beat, and asks for them."""
    beat, query, answer = lost + 1, lost + 2, lost + 3
    return script_of(
        "sites 2",
        *[post_of(moves)] * lost,
        *["publish 1 2"] * lost,
        "beat 1 2",
        f"arrive 2 {beat}",
        "query 2 1",
        f"arrive 1 {query}",
        f"arrive 2 {answer}",
        *["take 2 1"] * lost,
        "report",
    )


def answers_of_each_size():
    for moves in range(1, 17):
        for lost in (1, 2, 16, 17):
            yield f"{lost} of {moves} moves", lost_entries(moves, lost)


def answers_of_each_count():
    for lost in range(41):
        yield f"{lost} lost", lost_entries(1, lost)


def held_entries_of_each_count():
    """Entries come backwards, and each but the last one is held."""
    for count in range(1, 71):
        sent = ["issue 1 7", "publish 1 2"] * count
        arrivals = [f"arrive 2 {packet}" for packet in range(count, 0, -1)]
        yield f"{count} entries", script_of("sites 2", *sent, *arrivals, "take 2 1", "report")


def frontiers_and_amounts_of_each_size():
    """The last site closes, and had not applied what site 1 gave to it."""
    for sites in range(2, 17):
        for digits in range(1, 10):
            gift = [f"sites {sites}", "issue 1 1000000000", f"give 1 {sites} {10**digits}"]
            closing = [f"close {sites}", f"publish {sites} 1", "arrive 1 1", f"take 1 {sites}"]
            sent = ["publish 1 2"] * 3
            yield f"{sites} sites, {digits} digits", script_of(*gift, *closing, *sent, "report")


def asks_of_each_size():
    """Site 2 asks site 1 for an amount, of which site 1 has some or none."""
    known = ["sites 2", "issue 1 1000000000", "publish 1 2", "arrive 2 1", "take 2 1"]
    asking = ["plan 2", "ask 2 1", "arrive 1 2", "arrive 1 2"]
    served = ["publish 1 2", "arrive 2 3", "take 2 1", "serve 2", "status 2 1", "report"]
    for digits in range(1, 10):
        for name, spent in [("some", []), ("none", ["spend 1 1000000000 0"])]:
            lacking = f"spend 2 {10**digits} 0"
            yield f"{digits} digits, {name}", script_of(*known, *spent, lacking, *asking, *served)


def noise_of(lengths):
    for length in lengths:
        text = ("E 111" * length)[:length]
        yield f"{length} bytes", script_of("sites 2", f"noise 2 1 {text}")


def noise_of_each_length():
    return noise_of(range(200))


def noise_of_about_the_greatest_length():
    return noise_of(range(16_365, 16_376))


# Commands that lead to what the made scripts hardly ever meet.
RARE = {
    "a late ask of a closed site": """
        sites 2; issue 1 10; publish 1 2; arrive 2 1; take 2 1; spend 2 6 0; plan 2; ask 2 1;
        expire 2 1; close 2; publish 2 1; arrive 1 3; take 1 2; arrive 1 2; arrive 1 2; arrive 2 4;
        report""",
    "an ask of a peer that closes": """
        sites 3; issue 1 10; issue 3 10; publish 1 2; publish 3 2; arrive 2 1; arrive 2 2;
        take 2 1; take 2 3; spend 2 6 9; plan 2; close 1; publish 1 2; arrive 2 3; take 2 1;
        plan 2; ask 2 1; ask 2 3; report""",
    "more known rights than an ask may be for": """
        sites 3; issue 1 1000000000; issue 1 1000000000; issue 3 5; publish 1 2; publish 1 2;
        publish 3 2; arrive 2 1; arrive 2 2; arrive 2 3; take 2 1; take 2 1; take 2 3;
        spend 2 1000000000 9; spend 2 1000000000 9; plan 2; ask 2 1; ask 2 3; report""",
}


def rare_states():
    for name, text in RARE.items():
        yield name, script_of(*(command.strip() for command in text.split(";")))


SWEEPS = [
    answers_of_each_size,
    answers_of_each_count,
    held_entries_of_each_count,
    frontiers_and_amounts_of_each_size,
    asks_of_each_size,
    noise_of_each_length,
    noise_of_about_the_greatest_length,
    rare_states,
]


# ---- all tests, each of which has a name and what finds its fault


def model_tests():
    for path in sorted(glob.glob(os.path.join(TOP, "examples", "*.script"))):
        yield f"model, {os.path.basename(path)}", lambda path=path: example_fault(path)
    yield "model, lines are cut", cuts_fault
    yield "made scripts, one for a seed", seeds_fault


def program_tests(command, scripts):
    def test_of(*cases):
        return lambda: first_fault(command, cases)

    yield "lines are cut", test_of(("lines", script_of_cuts()))
    for seed, script in scripts.items():
        yield f"made script {seed}", test_of((f"seed {seed}", script))
    for sweep in SWEEPS:
        name, cases = sweep.__name__.replace("_", " "), list(sweep())
        if len(cases) > MOST_COUNTED:
            yield name, test_of(*cases)
        else:
            yield from ((f"{name}, {case[0]}", test_of(case)) for case in cases)


def all_tests(command, scripts, is_usual):
    yield from model_tests()
    if is_usual:
        # Few scripts need not lead to all.
        yield "made scripts, kinds of reply", lambda: kinds_fault(scripts.values())
    yield "the program starts", lambda: output_fault(command, b"", b"")
    yield from program_tests(command, scripts)


def options_in(words):
    parser = argparse.ArgumentParser(
        usage="tests/scripts.py [--seeds FIRST COUNT] [COMMAND...]",
        description=__doc__.split("\n")[0],
    )
    parser.add_argument("--seeds", nargs=2, type=int, metavar=("FIRST", "COUNT"))
    parser.add_argument("command", nargs=argparse.REMAINDER, metavar="COMMAND")
    return parser.parse_args(words)


def scripts_of(first, count):
    return {seed: script_maker.script(seed, COMMANDS) for seed in range(first, first + count)}


def built_command():
    """The program itself: that it is fresh need not be seen to before each of hundreds of scripts."""
    subprocess.run([PROGRAM, "--help"], stdout=subprocess.DEVNULL)
    return [BUILT, "sim"]


CASES = [case_of_pairs("Scripts", all_tests([PROGRAM, "sim"], scripts_of(FIRST_SEED, SEEDS), is_usual=True))]


def main(words):
    options = options_in(words)
    command = options.command or built_command()
    scripts = scripts_of(*(options.seeds or (FIRST_SEED, SEEDS)))
    passed = failed = 0
    for name, fault_of in all_tests(command, scripts, options.seeds is None):
        fault = fault_of()
        if fault is None:
            passed += 1
        else:
            failed += 1
            say(f"{name}: FAILED: {fault}")
    say(f"{passed} passed, {failed} failed")
    return 1 if failed else 0


if __name__ == "__main__":
    sys.exit(main(sys.argv[1:]))
