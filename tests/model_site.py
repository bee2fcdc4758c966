#!/usr/bin/env python3
"""The model of a running site as a process: a second implementation of docs/PROTOCOL.md, slow and small.

    tests/model_site.py [--bug NAME] [--tick MS] [--silent MS] [--keys N] [--journal FILE] --id I --sites N --listen ADDRESS J=ADDRESS...

`./conformance run --journal tests/model_site.py` passes. With `--bug` it has one of the bugs of bug_kit.py, and does not.
"""

import os
import sys

sys.path.insert(0, os.path.dirname(os.path.abspath(__file__)))

import model_process  # noqa: E402
from bug_kit import all_bugs  # noqa: E402
from model_journal import Refused  # noqa: E402


def main(words):
    limits = model_process.Limits()
    if words[:1] == ["--bug"]:
        all_bugs()[words[1]](limits)
        words = words[2:]
    if (options := model_process.options_in(words)) is None:
        sys.exit(fails("bad command line", 2))
    try:
        process = model_process.Process(limits, *options)
    except (OSError, ValueError):
        sys.exit(fails("cannot listen", 1))
    except Refused as refused:
        sys.exit(fails(f"journal: {refused}", 1))
    process.run()


def fails(cause, status):
    """Says why it ends, and with which status."""
    print(f"rights-site: {cause}", file=sys.stderr)
    return status


if __name__ == "__main__":
    main(sys.argv[1:])
