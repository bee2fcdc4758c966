"""Journals that a site does not start with, or whose end it cuts off: what it says, and what it leaves of the file."""

import os
import socket
import subprocess
import tempfile

from cases import Skipped, case
from cluster import PATIENCE, PROGRAM, at, expect, free_ports
from journal_kit import batch, digest, records_of
from preloaded import built

HELD = "; nothing was changed, and check-journal prints what stands before it"
OPENING = batch("J 1 1 3 shop-1", "T 1000")
WHOLE = OPENING + batch("E 1 0 1 I:100", "W 1 2 1 5") + batch("E 2 0 2 I:30 R:1:7", "T 2000", "E 1 1 3 S:20 R:3:4")
NO_ENTRY = "the log has no entry of a client's command with this number"
# The next entry of the site's log.
NEXT = batch("E 1 3 4 S:1")


class Folder:
    """A folder with a journal."""

    def __init__(self, content=None):
        self.room = tempfile.TemporaryDirectory(prefix="journal-")
        self.path = os.path.join(self.room.name, "journal")
        if content is not None:
            with open(self.path, "wb") as file:
                file.write(content)

    def content(self):
        with open(self.path, "rb") as file:
            return file.read()

    def __enter__(self):
        return self

    def __exit__(self, *_):
        self.room.cleanup()


def started(path, *options, text=b"", site=1, count=3, system="shop-1", **others):
    """How a site ends that is started with this journal and input: its status, standard output and error."""
    own, *peers = free_ports(count)
    name = [] if system is None else ["--system", system]
    others_of = [f"{peer}={at(port)}" for peer, port in zip([it for it in range(1, count + 1) if it != site], peers)]
    words = [built(PROGRAM), "run", "--id", str(site), "--sites", str(count), "--listen", at(own)]
    words += ["--journal", path, *name]
    done = subprocess.run([*words, *options, *others_of], input=text, capture_output=True, timeout=PATIENCE, **others)
    return done.returncode, done.stdout, done.stderr


def refused(content, why, **others):
    """A site that is started with this file says so in one line, and leaves the file as it is."""
    with Folder(content) as folder:
        wanted = (1, b"", f"rights-site: journal {folder.path}: {why}{HELD}\n".encode())
        expect(started(folder.path, text=b"issue 1\n", **others), wanted, f"{content[-60:]!r} {others}")
        expect(folder.content() == content, True, "the file is unchanged")
        expect(os.listdir(folder.room.name), ["journal"], "no other file")


def words_of(path):
    own, *peers = free_ports(3)
    words = [built(PROGRAM), "run", "--id", "1", "--sites", "3", "--listen", at(own)]
    words += ["--journal", path, "--system", "shop-1"]
    return [*words, *(f"{peer}={at(port)}" for peer, port in zip((2, 3), peers))]


def asked(path, command):
    """The reply to a command of a site that is started with this journal, and then killed."""
    with tempfile.TemporaryFile() as errors:
        process = subprocess.Popen(words_of(path), stdin=subprocess.PIPE, stdout=subprocess.PIPE, stderr=errors)
        with process:
            process.stdin.write(command.encode() + b"\n")
            process.stdin.flush()
            reply = process.stdout.readline().decode()
            process.kill()
        errors.seek(0)
        return reply or errors.read().decode()


def goes_on(content, is_twice=False):
    """A site that is started with this file has its records, and can go on. What it appended begins where the last
    whole batch ended, and is whole."""
    with Folder(content) as folder:
        expect(asked(folder.path, "take 1"), "spent 4\n", f"{content[-60:]!r}")
        found = folder.content()
        records = records_of(found)
        expect(found[: len(WHOLE)] == WHOLE, True, "what stood before is unchanged")
        expect((records[: len(records_of(WHOLE))], records[-1]), (records_of(WHOLE), "E 1 3 4 S:1"))
        if is_twice:
            expect(asked(folder.path, "take 1"), "spent 5\n", "once more")


# ---- whose journal it is


def the_journal_of_another_site():
    why = "record 1 refused: it is the journal of another site"
    for content in (WHOLE, OPENING, WHOLE + b"= 12", WHOLE + bytes(9)):
        refused(content, why, site=2)
        refused(content, why, site=3)


def the_journal_of_a_system_of_another_size():
    why = "record 1 refused: it is the journal of a system of another size"
    for count in (2, 4, 16):
        refused(WHOLE, why, count=count)
    refused(WHOLE.replace(OPENING, batch("J 1 1 4 shop-1", "T 1000")), why)


def the_journal_of_another_system():
    why = "record 1 refused: it is the journal of another system"
    for name in ("shop-2", "shop-", "shop-11", "Shop-1", "x" * 32, None):
        refused(WHOLE, why, system=name)
    refused(WHOLE.replace(OPENING, batch("J 1 1 3", "T 1000")), why)
    refused(batch("J 1 1 3"), why)


def a_first_record_that_is_none():
    why = "record 1 refused: it does not say whose journal this is"
    for record in (
        "E 1 0 1 I:1", "T 5", "J 1 1 3 ", "J 1 1 3 a b", "J 1 1 3 a_b", "J 2 1 3 shop-1", "J 1 0 3", "J 1 1 17",
        "J 1 4 3", "J", "j 1 1 3 shop-1", " J 1 1 3 shop-1", "J 1 01 3 shop-1", "J 1 1 3 " + "x" * 33,
    ):  # fmt: skip
        refused(batch(record), why)
        refused(batch(record, "J 1 1 3 shop-1"), why)


# ---- damage


def cut_of(content, at, count=1):
    return content[:at] + content[at + count :]


def damage_is_refused():
    """At the first byte of the batch that is damaged."""
    second, third = len(OPENING), len(OPENING) + len(batch("E 1 0 1 I:100", "W 1 2 1 5"))
    for content, place in [
        (WHOLE.replace(b"I:100", b"I:900"), second), (WHOLE.replace(b"I:30", b"I:31"), third),
        (WHOLE.replace(b"J 1 1 3", b"J 1 1 4"), 0),
        (cut_of(WHOLE, second + 3), second), (cut_of(WHOLE, third - 1), second), (cut_of(WHOLE, second - 20, 5), 0),
        (WHOLE[:third] + b"\n" + WHOLE[third:], third), (WHOLE[:third] + b"E 1 1 2 S:1\n" + WHOLE[third:], third),
        (WHOLE[:second] + WHOLE[second + 30 :], second), (WHOLE + b"x", len(WHOLE)),
        (WHOLE + NEXT[:9] + NEXT, len(WHOLE)),
        (WHOLE + NEXT[:-4] + b"\0\0\0\0" + NEXT, len(WHOLE)), (WHOLE + bytes(1_048_603) + NEXT, len(WHOLE)),
        (WHOLE + NEXT.replace(b"S:1", b"S:2"), len(WHOLE)), (WHOLE + NEXT[:-1] + b" ", len(WHOLE)),
        (b"= 3 0123456789abcdef\nT 5\n", 0), (b"\xef\xbb\xbf" + WHOLE, 0), (WHOLE.replace(b"\n", b"\r\n"), 0),
    ]:  # fmt: skip
        refused(content, f"damage at byte {place}")


def a_file_that_is_no_journal():
    """What begins with a zero byte, or is the beginning of a header, is none either, but a crash may have left it."""
    for content in (
        b"x", b"\n", b"a journal\n", b"J 1 1 3 shop-1\n", b"x" + os.urandom(5000), bytes(1_048_603) + b"= 1",
        b"\x7fELF" * 999,
        b"= 0 0123456789abcdef\n", b"= 99999999 0123456789abcdef\n", b"=x", b"= 1 \n",
    ):  # fmt: skip
        refused(content, "damage at byte 0")


def each_byte_that_is_changed():
    """In a batch that others stand behind: each byte of it, with one bit the other way."""
    second, third = len(OPENING), len(OPENING) + len(batch("E 1 0 1 I:100", "W 1 2 1 5"))
    with Folder() as folder:
        for place in range(second, third):
            content = bytearray(WHOLE)
            # Not to a zero byte: a crash may leave one in a header, and its batch is then the last one.
            content[place] ^= 1 << place % 5
            with open(folder.path, "wb") as file:
                file.write(content)
            status, said, errors = started(folder.path)
            why = f"rights-site: journal {folder.path}: damage at byte {second}{HELD}\n".encode()
            expect((status, said, errors, folder.content() == content), (1, b"", why, True), f"byte {place}")


# ---- records


def records_that_are_not_permitted():
    for record, why in [
        ("E 1 3 4 S:84", "denied: Short"),
        ("E 1 4 5 S:1", "it is not the next one"),
        ("E 1 1 2 S:1", "it is not the next one"),
        ("E 2 1 2 I:1", "it is not the next one"),
        ("E 2 3 4 I:1", "it is not the next one"),
        ("W 1 2 1 5", "it is not the next one"),
        ("W 1 2 3 5", "it is not the next one"),
        ("E 1 3 4 s:1", "it spells no record"),
        ("E 1 3 4  S:1", "it spells no record"),
        ("E 1 3 5 S:1", "it spells no record"),
        ("T 5 6", "it spells no record"),
        ("T", "it spells no record"),
        ("T -1", "it spells no record"),
        ("W 1 1 1 5", "it spells no record"),
        ("X a", "it spells no record"),
        ("X a 0", "it spells no record"),
        ("X  1", "it spells no record"),
        (f"X {'x' * 65} 1", "it spells no record"),
        ("X a 4", NO_ENTRY),
        ("X a 2", NO_ENTRY),
        ("X a 3", NO_ENTRY),
        ("", "it spells no record"),
        ("J 1 1 3 shop-1", "it spells no record"),
        ("D 2 1 1", "it is a message that no journal has"),
        ("B 1 3", "it is a message that no journal has"),
        ("Q 1 2 1 2", "it is a message that no journal has"),
    ]:
        for records in ([record], [record, "E 1 3 4 S:1"]):
            refused(WHOLE + batch(*records), f"record 8 refused: {why}")
    refused(WHOLE + batch("E 1 3 4 S:1", "E 1 4 5 S:99") + NEXT, "record 9 refused: denied: Short")


def steps_that_are_not_permitted():
    """With more than one record, or of other sites."""
    for records, why in [
        (["E 4 0 1 I:1"], "denied: NoSuchSite"),
        (["E 2 2 3 K:3:0:0", "E 2 3 4 I:1"], "denied: PeerClosed"),
        (["E 2 2 3 K:0:0"], "it is a message that no journal has"),
        (["E 1 3 4 V:2:1"], "denied: BadMove"),
        (["E 1 3 4 C"], "it closes the site in another way than the site does"),
        (["E 1 3 4 K:0:0:0"], "it closes the site in another way than the site does"),
        (["E 1 3 4 K:0:3:0"], "it closes the site in another way than the site does"),
        (["E 1 3 4 K:0:2:0", "E 1 4 5 I:1"], "denied: Closed"),
        (["E 1 3 4 K:0:2:0", "E 2 2 3 I:1"], "denied: Closed"),
        (["E 1 3 4 G:3:5:7", "E 1 4 5 G:3:5:7"], "it grants what was granted before"),
        (["E 1 3 4 G:3:5:7", "E 1 4 5 G:3:5:6"], "it grants what was granted before"),
        (["W 1 2 2 7", "W 1 2 2 7"], "it is not the next one"),
        (["W 2 1 1 5"], "it is not the next one"),
        (["W 1 3 2 5"], "it is not the next one"),
        (["W 1 4 1 5"], "it is not the next one"),
        (["E 1 3 4 G:3:5:7", "X a 4"], NO_ENTRY),
        (["E 3 0 1 K:1:0:0", "X a 4"], NO_ENTRY),
        (["E 2 2 5 I:1 I:1 I:1", "X a 5"], NO_ENTRY),
    ]:
        refused(WHOLE + batch(*records), f"record {7 + len(records)} refused: {why}")


# ---- the end of the file


def an_end_that_is_cut_short():
    """At each byte of the last batch: with nothing behind it, or zero bytes."""
    for length in range(len(NEXT)):
        goes_on(WHOLE + NEXT[:length], is_twice=length % 9 == 0)
    for length in (0, 1, 2, 5, 12, len(NEXT) - 1):
        for zeros in (1, 100, 4096):
            goes_on(WHOLE + NEXT[:length] + bytes(zeros))


def zero_bytes_in_the_last_batch():
    end = len(NEXT)
    for first, last in ((0, 1), (0, 22), (0, end), (2, 3), (3, 9), (22, 30), (22, end), (end - 1, end)):
        goes_on(WHOLE + NEXT[:first] + bytes(last - first) + NEXT[last:])


def a_rest_that_is_cut_off_is_noted():
    """In one line on standard error, once. Zero bytes alone are not noted."""
    torn = NEXT[:9] + bytes(99)
    for rest, is_noted in ((b"", False), (bytes(100), False), (b"=", True), (NEXT[:-1], True), (torn, True)):
        with Folder(WHOLE + rest) as folder:
            line = f"rights-site: journal {folder.path}: the rest of an append that was never told was cut off\n"
            expect(started(folder.path), (0, b"", line.encode() if is_noted else b""), f"{rest!r}")
            expect(started(folder.path, text=b"take 1\n"), (0, b"spent 4\n", b""), f"{rest!r}, once more")


def a_new_file_that_is_cut_short():
    """The very first append never came to its end: the site is new."""
    first = batch("J 1 1 3 shop-1", "T 1000")
    for content in [b"", bytes(1), bytes(5000), *[first[:length] for length in range(1, len(first))]]:
        with Folder(content) as folder:
            expect(asked(folder.path, "issue 7"), "number 1\n", f"{content!r}")
            records = records_of(folder.content())
            expect((records[0], records[-1]), ("J 1 1 3 shop-1", "E 1 0 1 I:7"))


def the_greatest_rest_of_an_append():
    """Of a batch of 1,048,576 bytes: half of it came, or its last byte did not. One byte more is damage."""
    body = (b"T 5\n" * (1 << 18))[: 1 << 20]
    front = b"= %d " % len(body)
    great = front + digest(front, body) + b"\n" + body
    half = great[:600_000]
    for rest in (great[:-1], half, half + bytes(len(great) - len(half)), half + bytes(2_000_000)):
        goes_on(WHOLE + rest)
    refused(WHOLE + half + bytes(600_000) + b"x", f"damage at byte {len(WHOLE)}")
    counts_too_much = b"= 1048577 0123456789abcdef\n" + b"x" * 100
    refused(WHOLE + counts_too_much, f"damage at byte {len(WHOLE)}")


# ---- files


def a_file_that_another_process_has_open():
    import fcntl

    with Folder(WHOLE) as folder, open(folder.path, "rb+") as file:
        fcntl.flock(file, fcntl.LOCK_EX)
        why = f"rights-site: journal {folder.path}: another process has it open; end that process first\n".encode()
        expect(started(folder.path), (1, b"", why))
        expect(folder.content() == WHOLE, True, "the file is unchanged")
        fcntl.flock(file, fcntl.LOCK_UN)
        expect(started(folder.path, text=b"take 1\n")[:2], (0, b"spent 4\n"))


def cannot_be_opened(path, error, what):
    why = f"rights-site: journal {path}: it cannot be opened: {os.strerror(error)} (os error {error})\n".encode()
    expect(started(path), (1, b"", why), what)


def paths_that_are_no_files():
    import errno

    with Folder() as folder:
        cannot_be_opened(folder.room.name, errno.EISDIR, "a folder")
        cannot_be_opened(os.path.join(folder.room.name, "none", "journal"), errno.ENOENT, "no folder")
        cannot_be_opened("", errno.ENOENT, "no name")
        os.symlink("journal", os.path.join(folder.room.name, "journal"))
        cannot_be_opened(folder.path, errno.ELOOP, "a link to itself")
        os.mkfifo(os.path.join(folder.room.name, "pipe"))
        for path in (os.path.join(folder.room.name, "pipe"), "/dev/null", "/dev/full"):
            status, said, errors = started(path)
            front = f"rights-site: journal {path}: it cannot be opened: ".encode()
            lines = [line.startswith(front) for line in errors.splitlines()]
            expect((status, said, lines), (1, b"", [True]), f"{path}: {errors!r}")
        expect(sorted(os.listdir(folder.room.name)), ["journal", "pipe"], "nothing was made")


def files_without_permission():
    import errno

    if os.geteuid() == 0:
        raise Skipped("root may read and write every file")
    with Folder(WHOLE) as folder:
        for mode in (0o000, 0o400, 0o200):
            os.chmod(folder.path, mode)
            cannot_be_opened(folder.path, errno.EACCES, oct(mode))
        os.chmod(folder.path, 0o600)
        expect(folder.content() == WHOLE, True, "the file is unchanged")
        os.chmod(folder.room.name, 0o500)
        cannot_be_opened(os.path.join(folder.room.name, "new"), errno.EACCES, "a folder that can't be written")
        os.chmod(folder.room.name, 0o700)


def a_link_to_a_journal():
    """It is followed, and the file that it leads to is the one that is locked and written."""
    with Folder(WHOLE) as folder:
        link = os.path.join(folder.room.name, "link")
        os.symlink("journal", link)
        expect(started(link, text=b"take 1\n"), (0, b"spent 4\n", b""))
        expect((os.path.islink(link), records_of(folder.content())[-1]), (True, "E 1 3 4 S:1"))


def an_address_in_use_leaves_the_records():
    """What is refused after the journal was read: the records of before stand, and the same command goes on later."""
    with Folder(WHOLE) as folder, socket.create_server(("127.0.0.1", 0)) as taken:
        expect(started(folder.path, "--http", at(taken.getsockname()[1]))[0], 1)
        records = records_of(folder.content())
        expect([it for it in records if it[0] != "T"], [it for it in records_of(WHOLE) if it[0] != "T"])
        expect(started(folder.path, text=b"take 1\n")[:2], (0, b"spent 4\n"))


# ---- words


def words_that_are_refused():
    """With no file made."""
    with Folder() as folder:
        once = os.path.join(folder.room.name, "once")
        bad = b"rights-site: bad command line\n"
        excluded = b"rights-site: --once and --journal exclude each other\n"
        expect(started(folder.path, "--once", once), (2, b"", bad + excluded))
        for name in ("", "a_b", "a b", "ä", "x" * 33, "a.b", "shop/1", "a\n"):
            why = f"rights-site: --system {name} is not 1 to 32 letters, digits and hyphens\n".encode()
            expect(started(folder.path, "--log", system=name), (2, b"", bad + why), name)
        expect(started(folder.path, "--journal", "other")[0], 2, "twice")
        for words, why in (
            ("run --log --system a", "--system needs --journal"),
            ("run --log --journal", "--journal has no value"),
            ("run --journal a --log --journal b", "--journal is given twice"),
            ("run --log --jurnal a", "no such word --jurnal; did you mean --journal?"),
        ):
            others = ["--id", "1", "--sites", "2", "--listen", ":0", "2=a"]
            done = subprocess.run([built(PROGRAM), *words.split(" "), *others], capture_output=True, timeout=PATIENCE)
            expect((done.returncode, done.stderr), (2, bad + f"rights-site: {why}\n".encode()), words)
        expect(os.listdir(folder.room.name), [], "files")


def names_of_systems():
    for name in ("a", "Z", "0", "x" * 32, "shop-1", "A-b-9", "-"):
        with Folder() as folder:
            if name != "-":
                expect(started(folder.path, text=b"issue 1\n", system=name), (0, b"number 1\n", b""), name)
                expect(records_of(folder.content())[0], f"J 1 1 3 {name}")
                expect(started(folder.path, text=b"take 1\n", system=name), (0, b"spent 2\n", b""), name)


CASES = [
    case("JournalRefusals", [
        the_journal_of_another_site, the_journal_of_a_system_of_another_size, the_journal_of_another_system,
        a_first_record_that_is_none, damage_is_refused, a_file_that_is_no_journal, each_byte_that_is_changed,
        records_that_are_not_permitted, steps_that_are_not_permitted, an_end_that_is_cut_short,
        zero_bytes_in_the_last_batch, a_rest_that_is_cut_off_is_noted, a_new_file_that_is_cut_short,
        the_greatest_rest_of_an_append,
        a_file_that_another_process_has_open, paths_that_are_no_files, files_without_permission, a_link_to_a_journal,
        an_address_in_use_leaves_the_records, words_that_are_refused, names_of_systems,
    ]),
]  # fmt: skip
