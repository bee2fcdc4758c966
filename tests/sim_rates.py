#!/usr/bin/env python3
"""Measures programs that answer a script on their standard input, by turns.

    tests/sim_rates.py [--runs COUNT] NAME SCRIPT PROGRAM...

Each PROGRAM is a command line in one word. Rates are by processor time, which depends less on what else runs than time
does. For each program: the best and the median rate of the runs, and the most memory that it took; for each but the first
also by how much the first one is faster: the median over the rounds, in each of which every program runs once. The speed of
a machine may vary more between rounds than within one.
"""

import argparse
import os
import statistics
import subprocess


def measured(command, script):
    """Seconds of processor time, and kilobytes of memory at most."""
    with open(script, "rb") as commands:
        process = subprocess.Popen(command.split(), stdin=commands, stdout=subprocess.DEVNULL)
        _, status, used = os.wait4(process.pid, 0)
    if status != 0:
        raise SystemExit(f"{command} failed")
    return used.ru_utime + used.ru_stime, used.ru_maxrss


def main():
    parser = argparse.ArgumentParser(usage="%(prog)s [--runs COUNT] NAME SCRIPT PROGRAM...")
    parser.add_argument("--runs", type=int, default=9)
    parser.add_argument("name")
    parser.add_argument("script")
    parser.add_argument("programs", nargs="+")
    asked = parser.parse_args()
    with open(asked.script, "rb") as commands:
        count = sum(1 for _ in commands)
    runs = [[measured(each, asked.script) for each in asked.programs] for _ in range(asked.runs)]
    for place, command in enumerate(asked.programs):
        times = [run[place][0] for run in runs]
        memory = max(run[place][1] for run in runs)
        best, median = count / min(times), count / statistics.median(times)
        ratio = statistics.median(run[place][0] / run[0][0] for run in runs)
        beside = f"; the first is {ratio:.2f} times as fast, by the median of the rounds" if place else ""
        name = os.path.basename(command.split()[0])
        rates = f"{best:,.0f} commands/s at best, {median:,.0f} by the median"
        print(f"{asked.name}: {name}: {rates}; {memory:,} KB, {memory * 1024 // count} bytes a command{beside}", flush=True)


main()
