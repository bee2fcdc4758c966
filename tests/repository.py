"""What may be a file of the repository."""

import subprocess
from pathlib import Path

from cases import Skipped, case
from cluster import TOP, expect

# How programs, object files and libraries begin, and archives of them.
MACHINE_CODE = (b"\x7fELF", b"!<arch>\n")
# What a file has at most, in bytes.
LARGEST = 1_000_000


def files_in_git():
    """The files that a commit of what stands here would have."""
    listed = subprocess.run(["git", "ls-files", "-z"], cwd=TOP, capture_output=True)
    if listed.returncode != 0:
        raise Skipped("this is no clone of the repository")
    named = [Path(TOP) / name.decode() for name in listed.stdout.split(b"\0") if name]
    return [path for path in named if path.is_file()]


def begins_as_machine_code(path):
    with open(path, "rb") as file:
        return file.read(max(map(len, MACHINE_CODE))).startswith(MACHINE_CODE)


def no_file_is_machine_code():
    expect(begins_as_machine_code("/bin/sh"), True, "a program of the system")
    expect([path for path in files_in_git() if begins_as_machine_code(path)], [], "files of machine code")


def no_file_is_large():
    expect([path for path in files_in_git() if path.stat().st_size > LARGEST], [], f"files above {LARGEST:,} bytes")


CASES = [case("Repository", [no_file_is_machine_code, no_file_is_large])]
