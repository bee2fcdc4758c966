"""Libraries in C that are loaded before the C library, compiled when they are needed."""

import os
import shlex
import shutil
import subprocess
import tempfile

from cases import Skipped
from cluster import BUILT, HERE, PROGRAM, TOP

# Where they are compiled, until the tests end.
ROOM = tempfile.TemporaryDirectory(prefix="preloaded-")


def library(name):
    """The path of the library of tests/NAME.c."""
    path = os.path.join(ROOM.name, f"{name}.so")
    if not os.path.exists(path):
        compiler = shutil.which("cc")
        if compiler is None:
            raise Skipped("no cc is here")
        source = os.path.join(HERE, f"{name}.c")
        subprocess.run([compiler, "-O2", "-shared", "-fPIC", "-o", path, source], check=True, timeout=120)
    return path


def built(program=PROGRAM):
    """The program itself, and not the script that builds it, which would be loaded with the library too."""
    return BUILT if program == os.path.join(TOP, "rights-site") else os.path.abspath(program)


def with_library(name, program, **settings):
    """The words that start the program with this library and these settings."""
    return with_settings(program, LD_PRELOAD=library(name), **settings)


def with_settings(program, **settings):
    """The words that start the program with these settings: a script in place of the program, since what starts it, and
    what that starts besides, is to go without."""
    words = [f"{key}={shlex.quote(str(value))}" for key, value in settings.items()]
    script, path = tempfile.mkstemp(dir=ROOM.name, prefix="program-")
    with open(script, "w") as text:
        text.write(f'#!/bin/sh\n{" ".join(words)} exec {shlex.quote(built(program))} "$@"\n')
    os.chmod(path, 0o755)
    return path
