"""`rights-site check-journal` on journals that are made here by docs/JOURNAL.md."""

import json
import os
import tempfile

from cases import case
from cluster import expect
from journal_kit import batch
from program import ended

OPENING = batch("J 1 1 3 shop-1")
WHOLE = OPENING + batch("E 1 0 1 I:100", "W 1 2 1 5") + batch("E 2 0 2 I:30 R:1:7", "T 1000", "E 1 1 3 S:20 R:3:4")
HOLDS = {
    "back": 0, "closed": False, "damaged": None, "given": 4, "held": 83, "issued": 100, "number": 3,
    "peers": [{"applied": 2, "site": 2}, {"applied": 0, "site": 3}], "received": 7, "records": 6, "refused": None,
    "rest": False, "site": 1, "sites": 3, "spent": 20, "system": "shop-1", "why": None,
}  # fmt: skip
NONE = {"damaged": None, "records": 0, "refused": None, "rest": False, "why": None}
TABLE = """\
site 1 of 3
system shop-1
records 6
number 3
issued 100
spent 20
given 4
received 7
back 0
held 83
closed no
peer 2 applied 2
peer 3 applied 0
"""


def checked(content, *words):
    """How a check of a read-only file with this content ends."""
    with tempfile.TemporaryDirectory() as folder:
        path = os.path.join(folder, "journal")
        with open(path, "wb") as file:
            file.write(content)
        os.chmod(path, 0o444)
        done = ended(["check-journal", path, *words])
        with open(path, "rb") as file:
            expect(file.read(), content)
        return done


def holds(content, **changes):
    """A check prints this object; with a cause the status is 1, and the cause is on standard error."""
    wanted = {**changes.pop("base", HOLDS), **changes}
    status, said, errors = checked(content, "--json")
    expect(said.decode(), json.dumps(wanted, sort_keys=True, separators=(",", ":")) + "\n")
    why = b"" if wanted["why"] is None else f"rights-site: journal: {wanted['why']}\n".encode()
    expect((status, errors), (0 if why == b"" else 1, why))


def a_journal_is_printed():
    holds(WHOLE)
    holds(WHOLE + bytes(100))
    expect(checked(WHOLE), (0, TABLE.encode(), b""))
    unnamed = WHOLE.replace(OPENING, batch("J 1 1 3"))
    holds(unnamed, system=None)
    expect(checked(unnamed), (0, TABLE.replace("system shop-1\n", "").encode(), b""))


def the_rest_of_an_append_is_noted():
    for rest in (b"=", b"= 20 abc", batch("E 1 3 4 S:1")[:-1], batch("E 1 3 4 S:1")[:-2] + b"\0\n"):
        holds(WHOLE + rest, rest=True)
    row = "behind the records: the rest of an append that was never told\n"
    expect(checked(WHOLE + b"= 20 abc"), (0, (TABLE + row).encode(), b""))


def damage_has_its_byte():
    for damage in (b"x", batch("E 1 3 4 S:1").replace(b"S", b"T"), batch("E 1 3 4 S:1")[:-1] + b"x"):
        holds(WHOLE + damage, damaged=len(WHOLE), why=f"damage at byte {len(WHOLE)}")
    holds(b"x" + WHOLE, base=NONE, damaged=0, why="damage at byte 0")
    expect(checked(WHOLE + b"x")[:2], (1, TABLE.encode()))


def a_record_that_is_refused_has_its_number():
    for record, why in [
        ("E 1 3 4 S:84", "denied: Short"),
        ("E 1 4 5 S:1", "it is not the next one"),
        ("W 1 2 1 5", "it is not the next one"),
        ("E 1 3 4 s:1", "it spells no record"),
        ("J 1 1 3 shop-1", "it spells no record"),
        ("D 2 1 1", "it is a message that no journal has"),
    ]:
        holds(WHOLE + batch(record, "E 1 3 4 S:1"), refused=7, why=f"record 7 refused: {why}")
    first = "record 1 refused: it does not say whose journal this is"
    holds(batch("E 1 0 1 I:1"), base=NONE, refused=1, why=first)
    expect(checked(batch("T 5")), (1, b"records 0\n", f"rights-site: journal: {first}\n".encode()))


def keys_are_records():
    """Each is of an entry of the site's own log that a client's command writes. One that was forgotten may come again."""
    keyed = batch("E 1 3 4 I:5", "X order-1 4") + batch("E 1 4 5 R:3:1", "T 2000", "E 1 5 6 S:2", "X ~ 5", f"X {'x' * 64} 6")
    sums = {"given": 5, "held": 85, "issued": 105, "number": 6, "spent": 22}
    holds(WHOLE + keyed, records=13, **sums)
    holds(WHOLE + keyed + batch("X order-2 1", "X order-1 6", "X X 4"), records=16, **sums)
    closed = batch("E 1 3 5 R:2:83 K:0:2:0", "X close 5")
    holds(WHOLE + closed, closed=True, given=87, held=0, number=5, records=8)
    expect(checked(WHOLE + batch("X order-1 1")), (0, TABLE.replace("records 6", "records 7").encode(), b""))


NO_ENTRY = "the log has no entry of a client's command with this number"


def a_key_of_no_entry_of_a_client_is_refused():
    """Of none, of a peer's, of one that grants or takes back, of several moves, and of a number within one."""
    for before, key in [
        ([], "X a 4"), ([], "X a 2"), ([], "X a 3"), ([], "X a 1000000000"), (["E 1 3 4 G:3:5:7"], "X a 4"),
        (["E 2 2 5 I:1 I:1 I:1"], "X a 5"), (["E 3 0 1 K:1:0:0"], "X a 4"), (["E 1 3 5 S:1 S:1"], "X a 5"), (["E 1 3 5 R:2:83 K:0:2:0"], "X a 4"),
    ]:  # fmt: skip
        number = 7 + len(before)
        content = WHOLE + batch(*before, key, "E 1 9 10 S:1")
        status, said, errors = checked(content, "--json")
        found = json.loads(said)
        why = f"record {number} refused: {NO_ENTRY}"
        expect((status, errors), (1, f"rights-site: journal: {why}\n".encode()), f"{before} {key}")
        expect((found["records"], found["refused"], found["why"]), (number - 1, number, why), f"{before} {key}")
    first = "record 1 refused: it does not say whose journal this is"
    holds(batch("X a 1"), base=NONE, refused=1, why=first)


def what_spells_no_key_is_no_record():
    for record in (
        "X", "X ", "X a", "X a ", "X  1", "X a 0", "X a 01", "X a -1", "X a +1", "X a x", "X a 1 ", "X a 1 1", "X a b 1", "x a 1",
        "X\ta 1", "X \x7f 1", "X a\t 1", "X \xe9 1", f"X {'x' * 65} 1", "X a 1000000001", "XX a 1", " X a 1",
    ):  # fmt: skip
        holds(WHOLE + batch(record), refused=7, why="record 7 refused: it spells no record")


def no_records_are_no_error():
    holds(b"", base=NONE)
    holds(bytes(5000), base=NONE)
    holds(b"= 20", base=NONE, rest=True)
    expect(checked(b""), (0, b"records 0\n", b""))


def a_file_that_cannot_be_read_has_one_line():
    with tempfile.TemporaryDirectory() as folder:
        for path in (os.path.join(folder, "none"), folder):
            status, said, errors = ended(["check-journal", path])
            expect((status, errors.count(b"\n"), errors[:13]), (1, 1, b"rights-site: "))
    with open("/dev/full", "wb") as full:
        expect(ended(["check-journal", "/dev/null"], stdout=full), (1, None, b"rights-site: write failed\n"))


CASES = [
    case("Journals", [
        a_journal_is_printed, the_rest_of_an_append_is_noted, damage_has_its_byte,
        a_record_that_is_refused_has_its_number, keys_are_records, a_key_of_no_entry_of_a_client_is_refused,
        what_spells_no_key_is_no_record, no_records_are_no_error, a_file_that_cannot_be_read_has_one_line,
    ]),
]  # fmt: skip
