"""The program on words and streams that it takes or refuses, on all examples, and a short sale."""

import glob
import os
import pty
import shutil
import socket
import subprocess
import sys
import tempfile

from cases import case, case_of_pairs
from cluster import PROGRAM, TOP, at, expect, free_ports
from outputs import output_fault

EXAMPLES = sorted(glob.glob(os.path.join(TOP, "examples", "*.script")))
NOTHING = subprocess.DEVNULL


def example_fault(path):
    """Why the program does not answer an example as it should, or None."""
    with open(path, "rb") as commands, open(path.removesuffix("script") + "expected", "rb") as expected:
        return output_fault([PROGRAM, "sim"], commands.read(), expected.read())


# ---- words and streams


def ended(words, stdin=NOTHING, stdout=subprocess.PIPE, stderr=subprocess.PIPE):
    """How the program ends: its status, and what it says on its standard output and error."""
    done = subprocess.run([PROGRAM, *words], stdin=stdin, stdout=stdout, stderr=stderr, timeout=60)
    return done.returncode, done.stdout, done.stderr


def refused(cause, status, *words, why=b"", **streams):
    """A refusal has its status and its line, and says nothing on standard output."""
    said = None if "stdout" in streams else b""
    expect(ended(words, **streams), (status, said, f"rights-site: {cause}\n".encode() + why), f"rights-site {words}")


def no_commands_need_no_reply():
    expect(ended(["sim"]), (0, b"", b""))


def bad_command_lines():
    """One line, while no terminal is there, and no word is used that is none of the first ones."""
    for words in [
        "run", "run --id 3 --sites 2 --listen :0 1=a 2=b", "run --id 1 --sites 2 --listen :0", "run --id", "run --tick 0",
        "run --id 1 --sites 17 --listen nowhere 2=b", "run --id 1 --sites 3 --listen a 2=b", "run --id 1 --sites 2 1=a",
        "run --log=1 --id 1 --sites 2 --listen a 2=b", "run --tick", "sim sim", "run --http x", "run -- 1=a", "sim --help=1",
    ]:  # fmt: skip
        refused("bad command line", 2, *words.split())
    refused("bad command line", 2, b"sim\xff")


# Words, and what the line about them says.
OF = "run --id 1 --sites 3 --listen :0"
WRONG = [
    ("walk", "no such word walk"),
    ("rum", "no such word rum; did you mean run?"),
    ("halp", "no such word halp; did you mean help?"),
    ("help run", "no such word help; it stands alone"),
    ("--versoin", "no such word --versoin; did you mean --version?"),
    ("--log run", "no such word --log"),
    ("-v", "no such word -v"),
    ("sim twice", "sim takes no further word, as twice"),
    ("sim --version", "sim takes no further word, as --version"),
    ("sim -- x", "sim takes no further word, as x"),
    ("check-jurnal f", "no such word check-jurnal; did you mean check-journal?"),
    ("check-journal", "the path of the journal is missing"),
    ("check-journal --json", "the path of the journal is missing"),
    ("check-journal f g", "check-journal takes one file, and no further word, as g"),
    ("check-journal f -- -g", "check-journal takes one file, and no further word, as -g"),
    ("check-journal --jsn f", "no such word --jsn; did you mean --json?"),
    ("check-journal --json f --json", "--json is given twice"),
    ("check-journal --json=1 f", "--json takes no value"),
    ("run --lisen a", "no such word --lisen; did you mean --listen?"),
    ("run --sties 3", "no such word --sties; did you mean --sites?"),
    ("run --address a", "no such word --address"),
    ("run --lisen=a", "no such word --lisen=a; did you mean --listen?"),
    ("run -l a", "no such word -l"),
    ("run --log --id", "--id has no value"),
    ("run --listen --log", "--listen has no value"),
    ("run --log --id x", "--id x is not a number"),
    ("run --log --id 17", "--id 17 is not 1 to 16"),
    ("run --log --id 0", "--id 0 is not 1 to 16"),
    ("run --log --sites 17", "--sites 17 is not 2 to 16"),
    ("run --log --sites=1", "--sites 1 is not 2 to 16"),
    ("run --log --tick 0", "--tick 0 is not 1 to 60000"),
    ("run --log --tick 60001", "--tick 60001 is not 1 to 60000"),
    ("run --silent 999", "--silent 999 is neither 0 nor 1000 to 3600000"),
    ("run --silent 3600001", "--silent 3600001 is not 0 to 3600000"),
    ("run --keys 10000001", "--keys 10000001 is not 0 to 10000000"),
    ("run --keys x", "--keys x is not a number"),
    ("run --system a_b", "--system a_b is not 1 to 32 letters, digits and hyphens"),
    ("run --system=", "--system  is not 1 to 32 letters, digits and hyphens"),
    (f"run --system {'x' * 33}", f"--system {'x' * 33} is not 1 to 32 letters, digits and hyphens"),
    (f"{OF} --once f --journal g 2=b 3=c", "--once and --journal exclude each other"),
    (f"{OF} --system a 2=b 3=c", "--system needs --journal"),
    ("run --jornal f", "no such word --jornal; did you mean --journal?"),
    ("run --log --log", "--log is given twice"),
    ("run --id 1 --log --id 1", "--id is given twice"),
    ("run --log --log=1", "--log is given twice"),
    ("run --log 2=b", "--id is missing"),
    ("run --log --id 1 2=b", "--sites is missing"),
    ("run --log --id 1 --sites 3 2=b", "--listen is missing"),
    ("run --log --id 3 --sites 2 --listen a 1=b 2=c", "--id 3 is above --sites 2"),
    (f"{OF} --log", "peer 2 is missing"),
    (f"{OF} --log 2=b", "peer 3 is missing"),
    (f"{OF} --log 1=a 2=b 3=c", "peer 1 is this site"),
    (f"{OF} --log 2=b 2=c", "peer 2 is given twice"),
    (f"{OF} --log 2=b 3=c 3=c", "peer 3 is given twice"),
    (f"{OF} --log 2=b 4=d", "peer 4 is not 1 to 3"),
    (f"{OF} --log 02=b 3=c", "peer 02 is not 1 to 3"),
    (f"{OF} 2=b 3:c", "3:c names no peer, as 2=127.0.0.1:7002 does"),
    (f"{OF} 2=b 3=c more", "more names no peer, as 2=127.0.0.1:7002 does"),
    (f"{OF} --host h --host 2=b 3=c", "peer 2 is missing"),
    ("run --from --log", "--from has no value"),
    ("run --form 2=b", "no such word --form; did you mean --from?"),
    (f"{OF} --from 2 2=b 3=c", "--from 2 names no peer, as 2=127.0.0.1:7102 does"),
    (f"{OF} --from= 2=b 3=c", "--from  names no peer, as 2=127.0.0.1:7102 does"),
    (f"{OF} --from 4=a 2=b 3=c", "--from 4=.. is not for a peer from 1 to 3"),
    (f"{OF} --from 02=a 2=b 3=c", "--from 02=.. is not for a peer from 1 to 3"),
    (f"{OF} --from 1=a 2=b 3=c", "--from 1=.. is for this site"),
    (f"{OF} --from 2=a --from 3=a --from=2=d 2=b 3=c", "--from 2=.. is given twice"),
    (f"{OF} --from 1=a 2=b", "peer 3 is missing"),
    ("run --id 1 --sites 3 --from 2=a 2=b 3=c", "--listen is missing, or --from 3=.."),
]  # fmt: skip


def bad_command_lines_are_explained():
    for words, why in WRONG:
        refused("bad command line", 2, *words.split(" "), why=f"rights-site: {why}\n".encode())
    status, said, errors = ended([])
    expect((status, said, errors[:31], errors.splitlines()[1][:12]), (2, b"", b"rights-site: bad command line\nu", b"usage: right"))
    expect(ended(["help"]), ended(["--help"]))


def a_terminal_is_told_why():
    reader, writer = pty.openpty()
    try:
        expect(ended(["run", "--id", "1"], stderr=writer)[0], 2)
        said = os.read(reader, 1000).replace(b"\r", b"")
        expect(said, b"rights-site: bad command line\nrights-site: --sites is missing\n")
    finally:
        os.close(reader)
        os.close(writer)


def addresses_that_cannot_be_meant():
    """They are not refused, but a line names them where events are logged."""
    (port,) = free_ports(1)
    own = at(port)
    words = ["run", "--id", "1", "--sites", "4", "--listen", own, "2=", "3=127.0.0.1", f"4={own}"]
    expect(ended(words), (0, b"", b""))
    said = ended([*words, "--log"])[2].decode().splitlines()
    expect([line for line in said if " has " in line], [
        "rights-site: peer 2 has no address", "rights-site: peer 3 has no port: 127.0.0.1",
        f"rights-site: peer 4 has the address of this site: {own}",
    ])


def addresses_that_are_none():
    refused("cannot listen", 1, "run", "--id", "1", "--sites", "2", "--listen", "", "2=a")


def an_address_that_is_taken_is_named():
    """With the system's reason, where events are logged."""
    with socket.create_server(("127.0.0.1", 0)) as server:
        taken = at(server.getsockname()[1])
        for listen, http in ((taken, "127.0.0.1:0"), ("127.0.0.1:0", taken)):
            words = ["run", "--id", "1", "--sites", "2", "--listen", listen, "--http", http, "2=127.0.0.1:1"]
            refused("cannot listen", 1, *words)
            why = f"rights-site: cannot listen on {taken}: Address already in use (os error 98)\n".encode()
            refused("cannot listen", 1, *words, "--log", why=why)


def streams_that_fail():
    with open("/dev/full", "wb") as full:
        folder = os.open(TOP, os.O_RDONLY)
        try:
            refused("read failed", 1, "sim", stdin=folder)
            # What cannot be said leaves the status as it is.
            expect(ended(["sim"], stdin=folder, stderr=full)[0], 1)
        finally:
            os.close(folder)
        with open(os.path.join(TOP, "examples", "two-sites-one-batch.script")) as script:
            refused("write failed", 1, "sim", stdin=script, stdout=full)
        for word in ("--help", "--version"):
            refused("write failed", 1, word, stdout=full)
            expect(ended(["walk"], stderr=full)[0], 2)


def help_texts():
    for words in (["--help"], ["sim", "--help"], ["run", "--id", "1", "-h"]):
        status, said, errors = ended(words)
        expect((status, said[:18], errors), (0, said[:18], b""))
        if b"\nUsage: rights-site" not in said:
            raise AssertionError(f"no usage in the help text of {words}: {said}")
    if b"--id 1 --sites 2 --listen" not in ended(["run", "--help"])[1]:
        raise AssertionError("no example in the help text of run")


def the_version():
    for words in (["--version"], ["-V"]):
        status, said, errors = ended(words)
        expect((status, said.split(b" ")[0], said.count(b"\n"), errors), (0, b"rights-site", 1, b""))


def a_clone_answers_before_it_is_built():
    """`./rights-site` of a clone with no program: the version and the help texts, as the program prints them."""
    needed = ["rights-site", "crates.txt", "crates/rights_program/src/version.rt", "crates/program_tests/src/tests/words.rt"]
    with tempfile.TemporaryDirectory() as clone:
        for name in needed:
            os.makedirs(os.path.dirname(os.path.join(clone, name)), exist_ok=True)
            shutil.copy(os.path.join(TOP, name), os.path.join(clone, name))
        for words in (["--version"], ["-V", "x"], ["--help"], ["-h"], ["help"], ["sim", "--help"], ["run", "-h"], ["run", "--help"],
                      ["check-journal", "-h"]):  # fmt: skip
            done = subprocess.run([os.path.join(clone, "rights-site"), *words], capture_output=True)
            expect((done.returncode, done.stdout, done.stderr), ended(words), words)


# ---- a sale


def sales():
    """A short sale at three sites, one of which is cut off and then closes. It checks its own sums."""
    for seed in (1, 2, 3):
        words = [os.path.join(TOP, "examples", "ticket-sale", "sell.py"), "--seed", str(seed), "--seconds", "2.5"]
        words += ["--program", PROGRAM]
        done = subprocess.run([sys.executable, *words], capture_output=True, text=True, timeout=120)
        if done.returncode != 0 or "all sums are right" not in done.stdout.splitlines():
            raise AssertionError(f"seed {seed}: {done.stdout}{done.stderr}")


def the_page_is_compiled_in():
    """What is compiled in as the page is page.html."""
    subprocess.run([os.path.join(TOP, "tests", "page_source"), "--check"], check=True)


CASES = [
    case_of_pairs("Examples", [(os.path.basename(path)[:-7], lambda path=path: example_fault(path)) for path in EXAMPLES]),
    case("Program", [
        no_commands_need_no_reply, bad_command_lines, bad_command_lines_are_explained, a_terminal_is_told_why,
        addresses_that_cannot_be_meant, addresses_that_are_none, an_address_that_is_taken_is_named, streams_that_fail, help_texts, the_version,
        a_clone_answers_before_it_is_built, the_page_is_compiled_in, sales,
    ]),
]  # fmt: skip
