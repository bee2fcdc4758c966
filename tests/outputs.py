"""What a command prints where a script is its standard input, beside what is expected."""

import itertools
import subprocess

SCRIPT_SECONDS = 60

# Of a line so many bytes are shown, at most.
SHOWN = 200


def shown(line):
    if line is None:
        return "no line"
    return repr(line[:SHOWN].decode(errors="replace")) + (" and more" if line[SHOWN:] else "")


def first_difference(expected, actual, place=lambda number: f"line {number}"):
    """The first line that differs, told with its place; None where all are the same."""
    pairs = itertools.zip_longest(expected.split(b"\n"), actual.split(b"\n"))
    for number, (wanted, given) in enumerate(pairs, 1):
        if wanted != given:
            return f"{place(number)}: expected {shown(wanted)}; actual {shown(given)}"
    return None


def output_fault(command, script, expected, *place):
    """Why the command does not print what is expected of it for the script, or None."""
    try:
        done = subprocess.run(command, input=script, capture_output=True, timeout=SCRIPT_SECONDS)
    except subprocess.TimeoutExpired:
        return f"no end within {SCRIPT_SECONDS} seconds"
    except OSError as error:
        return str(error)
    faults = [first_difference(expected, done.stdout, *place)]
    if done.returncode != 0:
        faults.append(f"exit status: expected 0; actual {done.returncode}: {shown(done.stderr)}")
    return "; ".join(filter(None, faults)) or None
