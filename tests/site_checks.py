"""Checks of one running site, each named after the rule of docs/PROTOCOL.md that it tries.

The site is site 1 mostly, and the test is all its peers: it speaks the line protocol itself. A check is a list of inputs. What
the site has to say to them is what the model of a running site says, so each check compares all replies, all lines to
each peer, and the status object after each input. What a site that ticks by itself says depends on time, and is compared
with what a check expects (clock_trial.py).
"""

from types import FunctionType

import clock_checks
import desk_checks
import end_checks
import key_checks
import key_restart_checks
import link_checks
import log_checks
import reading_checks
import restart_checks
import word_checks
from clock_trial import ClockTrial
from restart_trial import RestartTrial
from site_trial import Trial

# What neither these checks nor the seeded runs test.
NOT_TRIED = [
    "want of memory, and `error OutOfMemory`",
    "logs that become full (LogFull), and 10^9 lines on one connection",
    "names other than `localhost`, addresses of IPv6, and peers with several addresses",
    "that a tick waits for lines that wait in an outbox",
    "that an attempt to connect is given up after a second",
    "that a first line and the one behind it, and lines which wait together, are written together, and that replies are written before the next read of a slow input",
    "the options `--http`, `--once` and `--log`, and a wall clock that goes back",
    "the command line, its refusals, and the exit statuses 1 and 2, which `./conformance words` tries",
    "restarts, which `./conformance run --journal` tries; and of these: power cuts, disks that fail or are full, damaged "
    "journals, `--system`, and restarts of a site with `--tick`",
]

# How many sites a check's system has, where it is not three.
SITES = {
    "a_first_line_may_come_in_pieces": 16,
    "a_line_of_9000_bytes_is_read": 16,
    "a_site_of_a_system_of_two": 2,
    "all_sites_of_a_system_of_16_are_heard": 16,
    "equal_peers_are_asked_by_their_numbers": 4,
    "equal_peers_of_two_digits_are_asked_by_their_numbers": 16,
    "many_peers_are_asked_together": 6,
    "peers_of_gifts_are_told_apart": 16,
    "site_16_is_a_site_as_any": 16,
}

# The number of the site that is tried, where it is not 1.
NUMBERS = {"a_site_in_the_middle_is_a_site_as_any": 2, "site_16_is_a_site_as_any": 16, "a_site_of_a_system_of_two": 2}

# How many keys the site is told to remember, if it is told.
KEYS = {
    "a_key_is_as_old_as_its_entry": 3,
    "a_repeat_makes_no_key_newer": 3,
    "a_site_may_remember_no_keys": 0,
    "one_key_is_remembered": 1,
    "spends_that_wait_or_expired_make_no_key_older": 1,
    "the_oldest_key_is_forgotten_first": 3,
}

# The checks whose site is given a name for the host of its peers.
NAMED = ("an_address_may_be_a_name",)

# The peers that listen later.
LATE = {
    "a_failed_attempt_loses_its_line_alone": (2,),
    "an_outbox_has_256_lines": (2, 3),
    "peers_that_answer_no_attempt_hold_up_no_end": (2, 3),
    "the_next_line_makes_the_next_attempt": (2, 3),
}
TRIES = 20

# The modules whose checks need a process, and not its model alone.
OF_CONNECTIONS = ("link_checks", "end_checks", "clock_checks", "word_checks")
# What makes the sites of a check, where it is not a `Trial`, by the check's module.
OTHER_TRIALS = {"clock_checks": ClockTrial, "restart_checks": RestartTrial, "key_restart_checks": RestartTrial}


def system_of(name):
    """How many sites the system of a check has, and the number of the one that is tried."""
    return SITES.get(name, 3), NUMBERS.get(name, 1)


def all_checks():
    """Each check of a running site with its name, file by file."""
    for module in (link_checks, end_checks, desk_checks, key_checks, log_checks, reading_checks, clock_checks):
        yield from checks_of(module)


def checks_of_restarts():
    """Each check of a site with a journal that is started again, with its name."""
    for module in (restart_checks, key_restart_checks):
        yield from checks_of(module)


def checks_of_words():
    """Each check of the command line with its name."""
    yield from checks_of(word_checks)


def checks_of(module):
    for name, check in list(vars(module).items()):
        if is_check(check, module):
            yield name, check


def is_check(value, module):
    """Whether it is a function of the module itself whose only parameter is a trial."""
    return getattr(value, "__module__", None) == module.__name__ and isinstance(value, FunctionType) and (
        value.__code__.co_varnames[: value.__code__.co_argcount] == ("trial",)
    )


def try_check(name, check, command):
    """Raises what a check fails with. One that the machine is too busy for is tried again."""
    for _ in range(TRIES):
        with trial_of(name, check, command) as trial:
            if check(trial) is not False:
                trial.finish()
                return


def trial_of(name, check, command):
    """What a check is given."""
    if check.__module__ in OTHER_TRIALS:
        return OTHER_TRIALS[check.__module__](command)
    count, number = system_of(name)
    host = "localhost" if name in NAMED else "127.0.0.1"
    return Trial(command, count, LATE.get(name, ()), number, host, KEYS.get(name))
