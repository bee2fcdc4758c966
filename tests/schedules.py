#!/usr/bin/env python3
"""Runs tests under schedules that are made from seeds: tests/schedules.c has threads pause where they seldom do.

    tests/schedules.py [--seeds FIRST COUNT] [--program PATH] [--tests PATH].. [--only WORD]

With each seed these are run: the tests of the crates, where `rt ci` or `rt test` has built them (with `--tests` those of
another program of tests, and nothing else); tests of sites on loopback (tests/loopback.py); the named checks of
./conformance. `--only` selects those whose names contain the word. `--program` tries another build. Each failure is
told with its seed, which mostly finds it again: it decides where threads pause, and the system how they go on. The last
line is 'N passed, M failed'.
"""

import argparse
import os
import subprocess
import sys
from concurrent.futures import ThreadPoolExecutor

HERE = os.path.dirname(os.path.abspath(__file__))
sys.path.insert(0, HERE)

from cases import Skipped, case  # noqa: E402
from cluster import PROGRAM, TOP  # noqa: E402
from preloaded import library, with_library  # noqa: E402

# The crates whose tests have threads that wait for each other.
CRATES = ["shared_desk_tests", "program_tests"]
# It needs spends that wait, and whether there are any is up to the schedule.
NOT_IN_CRATES = ["tests::many::a_hundred_thousand_calls"]
# Those of sites that ask what a usual schedule does: how long it takes, or how much memory, or that no line is dropped.
NOT_OF_SITES = {
    "dead_peers_hold_nothing_up", "silence_is_cut_off", "a_peer_that_reads_nothing", "a_flood_grows_nothing",
    "queries_for_a_peer_that_reads_nothing", "ticks_in_a_row_wait_for_space", "ticks_wait_again_once_lines_are_sent",
    "a_start_without_memory", "memory_runs_out", "an_applier_without_memory", "the_end_of_input_ends_it",
    "threads_of_idle_sites_sleep", "a_link_may_be_silent", "a_start_that_fails_is_said",
    "a_program_that_is_nowhere_is_said", "one_command_a_line",
}  # fmt: skip
# Those of ./conformance that take a time of their own.
NOT_IN_CONFORMANCE = {
    "a_first_line_has_5_seconds", "a_silent_connection_stays", "an_outbox_has_256_lines", "a_site_ends_in_time",
    "sixty_four_connections_wait_for_their_first_line", "connections_that_are_late_free_their_places",
    "peers_that_answer_no_attempt_hold_up_no_end", "peers_that_say_nothing_hold_up_no_end",
}  # fmt: skip
# After so many seconds a test of a crate waits for good.
PATIENCE = 60


# ---- the tests of the crates


def programs_of_tests():
    """Those that are built."""
    paths = [os.path.join(TOP, "crates", name, "out", f"{name}_tests") for name in CRATES]
    return [path for path in paths if os.path.exists(path)]


def names_of(program):
    """The names of its tests."""
    said = subprocess.run([program, "--list"], capture_output=True, text=True, timeout=PATIENCE, check=True).stdout
    names = [line.removesuffix(": test") for line in said.splitlines() if line.endswith(": test")]
    return [name for name in names if name not in NOT_IN_CRATES]


def fault_of(program, name, seed):
    """Why this test fails with this seed, or None."""
    settings = {**os.environ, "LD_PRELOAD": library("schedules"), "SCHEDULE_SEED": str(seed)}
    words = ["sh", "-c", 'ulimit -c 0; exec "$0" "$@"', program, name]
    try:
        done = subprocess.run(words, env=settings, capture_output=True, text=True, timeout=PATIENCE)
    except subprocess.TimeoutExpired:
        return f"{name}, seed {seed}: it waits for good"
    if done.returncode != 0 or not done.stdout.endswith("test result: ok\n"):
        return f"{name}, seed {seed}: {(done.stderr.strip() or 'status %d' % done.returncode).splitlines()[0]}"
    return None


def faults_of_tests(programs, seeds, only=""):
    """Why tests of these programs fail, and how many were run."""
    runs = [(program, name, seed) for seed in seeds for program in programs for name in names_of(program) if only in name]
    library("schedules")
    # Each has two threads or more, which are to run side by side.
    with ThreadPoolExecutor(max(1, (os.cpu_count() or 1) // 2)) as pool:
        found = pool.map(lambda run: fault_of(*run), runs)
    return [fault for fault in found if fault], len(runs)


# ---- sites


def scheduled(program, seed):
    """The program with this seed, in place of the program. Its processes are many and short, so each pauses less often."""
    return with_library("schedules", program, SCHEDULE_SEED=seed, SCHEDULE_PAUSES=200)


def names_of_sites(only=""):
    """The tests of sites that are run under schedules."""
    import loopback

    (tests,) = loopback.CASES
    names = [name.removeprefix("test_") for name in tests.order]
    return [name for name in names if name not in NOT_OF_SITES and only in name]


def faults_of_sites(seed, program=PROGRAM, only=""):
    """Why tests of sites fail with this seed, and how many were run."""
    chosen = [word for name in names_of_sites(only) for word in ("-k", f"Loopback.test_{name}")]
    if not chosen:
        return [], 0
    words = [os.path.join(HERE, "suite.py"), "--program", scheduled(program, seed), *chosen]
    done = subprocess.run(words, capture_output=True, text=True)
    *lines, last = done.stdout.splitlines() or [""]
    if not last.endswith(" failed"):
        raise AssertionError(f"the tests ended with status {done.returncode}: {done.stderr or last}")
    passed, failed = (int(word) for word in last.replace(",", "").split() if word.isdigit())
    return [f"{line}, seed {seed}" for line in lines if "FAILED" in line], passed + failed


def faults_of_checks(seed, program=PROGRAM, only="", modules=None):
    """Why checks of ./conformance fail with this seed, and how many were made."""
    import site_checks

    checks = [(name, check) for name, check in site_checks.all_checks() if name not in NOT_IN_CONFORMANCE and only in name]
    checks = [(name, check) for name, check in checks if modules is None or check.__module__ in modules]
    command = [scheduled(program, seed), "run"]

    def fault_of_check(named_check):
        name, check = named_check
        try:
            site_checks.try_check(name, check, command)
        except Exception as error:
            return f"{name}, seed {seed}: {type(error).__name__}: {error}"
        return None

    with ThreadPoolExecutor(os.cpu_count()) as pool:
        faults = list(pool.map(fault_of_check, checks))
    return [fault for fault in faults if fault], len(faults)


# ---- in the gate


def refuse(found):
    faults, count = found
    if count == 0:
        raise Skipped("nothing is built that could be run")
    if faults:
        raise AssertionError("; ".join(faults))


def threads_of_the_crates():
    refuse(faults_of_tests(programs_of_tests(), range(1, 9)))


def sites_on_loopback():
    refuse(faults_of_sites(1))


def checks_of_links():
    refuse(faults_of_checks(2, modules=["link_checks", "end_checks"]))


CASES = [case("Schedules", [threads_of_the_crates, sites_on_loopback, checks_of_links])]


# ---- by hand


def words_of():
    parser = argparse.ArgumentParser(description=__doc__, formatter_class=argparse.RawDescriptionHelpFormatter)
    parser.add_argument("--seeds", nargs=2, type=int, default=[1, 10], metavar=("FIRST", "COUNT"))
    parser.add_argument("--program", default=PROGRAM)
    parser.add_argument("--tests", action="append", metavar="PATH")
    parser.add_argument("--only", default="", metavar="WORD")
    return parser.parse_args()


def main(options):
    first, count = options.seeds
    passed = failed = 0
    for seed in range(first, first + count):
        parts = [faults_of_tests(options.tests or programs_of_tests(), [seed], options.only)]
        if not options.tests:
            parts.append(faults_of_sites(seed, options.program, options.only))
            parts.append(faults_of_checks(seed, options.program, options.only))
        for faults, runs in parts:
            passed, failed = passed + runs - len(faults), failed + len(faults)
            for fault in faults:
                print(fault, flush=True)
    print(f"{passed} passed, {failed} failed")
    return 1 if failed else 0


if __name__ == "__main__":
    sys.exit(main(words_of()))
