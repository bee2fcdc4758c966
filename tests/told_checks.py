"""The checkers of tests/told.py on histories that were written by hand: right ones, and wrong ones that must be
found."""

import random

from cases import case
from cluster import expect
from journal_kit import Entry, Holdings, batch
from told import (
    Call, Disk, facts_of, fault_of_asks, fault_of_calls, fault_of_entries, fault_of_replies, fault_of_totals, image,
    read_calls,
)  # fmt: skip

FIRST = batch("J 1 1 2", "T 1000")
SECOND = batch("E 1 0 1 I:10", "W 1 2 1 5")
THIRD = batch("E 2 0 2 I:9 R:1:4", "E 1 1 2 S:3")


def write(*batches, at=0):
    return Call("write", at, 0, b"".join(batches))


def out(text, stream=1):
    return Call("out", stream, 0, text.encode())


SYNC = Call("sync", 0, 0, b"")
BEGUN = [write(FIRST), SYNC, write(SECOND, at=len(FIRST))]


def finds(fault, words):
    """A fault is found, and its text has these words."""
    expect(fault is not None and words in fault, True, f"{words!r} in {fault!r}")


# What may leave once the second batch is durable, and not before, and how what it tells is called.
LATE = [
    ("number 1", "number"), ("spent 1", "number"), ("E 1 0 1 I:10", "entry"), ("B 1 1", "number"),
    ("A 1 2;E 1 0 1 I:10", "entry"),
    ("W 1 2 1 5", "ask"), ("rights_log_moves_total 1", "number"), ("rights_issued_total 10", "sum"),
    ("rights-site: ended: issued 10 spent 0 given 0 received 0 held 10; told issued 10 spent 0 served 0", "sum"),
    ('{"closed":false,"issued":10,"number":1,"peers":[],"received":0,"spent":0}', "number"),
]  # fmt: skip


def what_leaves_before_the_sync_is_found():
    for line, kind in LATE:
        for stream in (1, 7):
            expect(fault_of_calls([*BEGUN, SYNC, out(f"{line}\n", stream)]), None, line)
            finds(fault_of_calls([*BEGUN, out(f"{line}\n", stream), SYNC]), f"left before it was durable: ('{kind}'")
            finds(fault_of_calls([write(FIRST), SYNC, out(f"{line}\n", stream), *BEGUN[2:], SYNC]), "left before")
            # Its beginning may leave before the sync, and its end not.
            expect(fault_of_calls([*BEGUN, out(line[:3], stream), SYNC, out(f"{line[3:]}\n", stream)]), None, line)
    for line in (
        "error Short", "queued 1000", "H 1", "B 1 0", "Q 1 2 1 5", "D 1 2 1", "waiting", "rights_issued_total 0",
        "HTTP/1.1 200 OK",
    ):  # fmt: skip
        expect(fault_of_calls([*BEGUN, out(f"{line}\n")]), None, line)
    finds(fault_of_calls([*BEGUN, out("queued 1001\n"), SYNC]), "ticket")


def what_was_applied_is_told_after_the_sync():
    calls = [*BEGUN, SYNC, write(THIRD, at=len(FIRST + SECOND))]
    status = '{"closed":false,"issued":10,"number":1,"peers":[{"applied":2,"site":2}],"received":0,"spent":0}\n'
    for line in (status, 'rights_peer_moves_applied_total{peer="2"} 2\n', "rights_received_total 4\n"):
        finds(fault_of_calls([*calls, out(line), SYNC]), "left before")
        expect(fault_of_calls([*calls, SYNC, out(line)]), None)


def a_journal_of_before_counts():
    """A process that starts again may tell what the journal had, and no more."""
    expect(fault_of_calls([out("number 1\n")], FIRST + SECOND), None)
    finds(fault_of_calls([out("number 2\n")], FIRST + SECOND), "left before")
    end = len(FIRST + SECOND)
    calls = [Call("cut", end, 0, b""), SYNC, write(THIRD, at=end), SYNC, out("spent 2\n")]
    expect(fault_of_calls(calls, FIRST + SECOND + THIRD[:9]), None)


def what_a_send_left_out_is_not_told():
    """A write that took some bytes only told these. A stream that was closed begins anew."""
    left = Call("left", 1, 7, b"")
    expect(fault_of_calls([*BEGUN, out("number 1\n"), left, SYNC, out(" 1\n"), Call("left", 1, 3, b"")]), None)
    expect(fault_of_calls([*BEGUN, out("number 1\n"), Call("left", 1, -1, b""), SYNC]), None)
    expect(fault_of_calls([*BEGUN, out("number"), Call("close", 1, 0, b""), out(" 1\n")]), None)


def writes_that_are_no_appends_are_found():
    for calls in (
        [*BEGUN, write(THIRD, at=len(FIRST + SECOND)), SYNC],
        [write(FIRST), SYNC, write(SECOND, at=len(FIRST) + 1), SYNC],
        [write(FIRST), SYNC, write(SECOND), SYNC],
        [write(FIRST), SYNC, write(SECOND[:-1], at=len(FIRST)), SYNC, write(THIRD, at=len(FIRST + SECOND) - 1), SYNC],
        [write(FIRST), SYNC, write(SECOND[:-1], at=len(FIRST)), SYNC, write(SECOND, at=len(FIRST)), SYNC],
    ):
        finds(fault_of_calls(calls), "write")
    calls = [write(SECOND, at=len(FIRST)), SYNC, out("number 1\n")]
    expect(fault_of_calls(calls, FIRST + bytes(500)), None, "over zero bytes")


def records_are_read():
    expect(read_calls(b"out 1 0 4\na\nbcsync 0 0 0\nwrite 5 0 9\ncut"), [Call("out", 1, 0, b"a\nbc"), SYNC])
    expect(list(facts_of("A 1 2;E 1 0 1 I:1;E 1 1 2 S:1")), [("entry", "E 1 0 1 I:1"), ("entry", "E 1 1 2 S:1")])
    expect(list(facts_of("W 1 2 3 4")), [("ask", 2, 3, 4)])


def images_are_of_all_kinds():
    """Of a write that was not synced: all of it, nothing, a beginning, and holes of zero bytes."""
    disk = Disk(FIRST)
    disk.carry_out(write(SECOND, at=len(FIRST)))
    found = {image(disk, random.Random(seed)) for seed in range(300)}
    expect(all(each.startswith(FIRST) and len(each) <= len(FIRST + SECOND) for each in found), True)
    expect({FIRST, FIRST + SECOND} <= found, True)
    behind = [each[len(FIRST) :] for each in found]
    expect(any(SECOND.startswith(each) and 0 < len(each) < len(SECOND) for each in behind), True, "a beginning")
    expect(any(0 in each and each[-1:] == b"\n" for each in behind), True, "a hole")
    expect(all(byte in (0, wanted) for each in behind for byte, wanted in zip(each, SECOND)), True, "no other bytes")
    disk.carry_out(SYNC)
    expect({image(disk, random.Random(seed)) for seed in range(9)}, {FIRST + SECOND}, "after the sync")
    disk.carry_out(Call("cut", len(FIRST), 0, b""))
    lengths = {len(image(disk, random.Random(seed))) for seed in range(999)}
    expect(lengths, set(range(len(FIRST), len(FIRST + SECOND) + 1)), "a cut")


def a_number_with_two_entries_is_found():
    expect(fault_of_entries(["E 1 0 1 I:1", "E 1 1 2 S:1", "E 2 0 1 I:2", "E 1 0 1 I:1"]), None)
    for other in ("E 1 0 1 I:2", "E 1 0 2 I:1 S:1", "E 1 0 1 S:1"):
        finds(fault_of_entries(["E 1 0 1 I:1", "E 2 0 1 I:1", other]), "two entries")
    finds(fault_of_entries(["E 1 0 2 I:1 I:1", "E 1 1 2 S:1"]), "end at number 2")


def an_ask_number_that_is_used_twice_is_found():
    right = ["W 1 2 1 5", "W 1 2 2 7", "W 2 1 1 6", "W 1 3 1 9", "W 1 2 1 5"]
    right += ["E 2 0 1 G:1:4:1", "E 2 1 2 G:1:7:2", "E 3 0 1 G:1:9:1"]
    expect(fault_of_asks(right), None)
    finds(fault_of_asks([*right, "W 1 2 1 6"]), "ask 1 of site 1 to site 2 is for")
    finds(fault_of_asks([*right, "E 2 2 3 G:1:4:1"]), "granted twice")
    finds(fault_of_asks([*right, "W 1 3 2 1", "E 3 1 2 G:1:2:2"]), "more than 1")
    try:
        Holdings(["J 1 1 2", "W 1 2 1 5", "W 1 2 1 5"])
    except AssertionError:
        return
    raise AssertionError("an ask number twice in a journal is not found")


def replies_that_the_log_has_not_are_found():
    log = [Entry(text) for text in ("E 1 0 1 I:10", "E 1 1 2 S:3", "E 1 2 3 S:3", "E 1 3 4 R:2:1")]
    right = [
        ("issue 10", "number 1"), ("spend 3 0", "spent 3"), ("spend 3 9", "queued 5"), ("outcome 5", "spent 2"),
        ("give 2 1", None), ("spend 2 9", "queued 6"), ("outcome 6", "expired"), ("take 50", "error Short"),
        ("outcome 5", "unknown"),
    ]  # fmt: skip
    expect(fault_of_replies(right, log), None)
    for wrong, words in (
        (("issue 1", "number 5"), "no such number"), (("issue 10", "number 1"), "told twice"),
        (("take 3", "spent 2"), "told twice"), (("issue 10", "number 4"), "which is"),
        (("spend 1 9", "queued 5"), "ticket 5"), (("outcome 6", "spent 4"), "which is"),
        (("give 3 1", "number 4"), "which is"), (("give 2 2", "number 4"), "which is"),
    ):  # fmt: skip
        finds(fault_of_replies([*right, wrong], log), words)
    # A command that was carried out twice, and an answer that was lost.
    finds(fault_of_replies(right, [*log, Entry("E 1 4 5 R:2:1")]), "more entries than commands")
    twice = [("take 3", "spent 2"), ("spend 3 0", "spent 2"), ("give 2 1", None)]
    finds(fault_of_replies([*right[:1], *twice], log), "told twice")


def repeats_under_keys_ask_for_one_entry():
    log = [Entry(text) for text in ("E 1 0 1 I:10", "E 1 1 2 S:3", "E 1 2 3 S:3", "E 1 3 4 R:2:1", "E 1 4 5 K:0:0")]
    right = [
        ("key a issue 10", None), ("key a issue 10", "number 1"), ("key a issue 10", "number 1"), ("key b spend 3 0", "spent 3"),
        ("key b take 3", "spent 3"), ("key c spend 3 9", "queued 5"), ("key c take 3", "queued 5"), ("outcome 5", "spent 2"),
        ("key c spend 3 1", "spent 2"), ("key d give 2 1", None), ("key d give 2 1", "number 4"), ("key a issue 9", "error KeyReused"),
        ("key e spend 4 9", "queued 6"), ("key e take 4", "expired"), ("key f close", "number 5"), ("key f close 2", "number 5"),
    ]  # fmt: skip
    expect(fault_of_replies(right, log), None)
    # A site that started again has forgotten what waited.
    expect(fault_of_replies([*right, ("key e take 4", "queued 7")], log), None)
    for wrong, words in (
        (("key b take 3", "spent 2"), "told twice"), (("key a issue 10", "number 2"), "told twice"),
        (("key d give 2 1", "number 6"), "number 4 before"), (("key e take 4", "spent 6"), "no such number"),
        (("key z take 3", "spent 3"), "told twice"), (("take 3", "spent 3"), "told twice"),
        (("key z spend 4 9", "queued 5"), "ticket 5"), (("key z give 2 2", "number 4"), "told twice"),
    ):  # fmt: skip
        finds(fault_of_replies([*right, wrong], log), words)
    # A repeat that was carried out, and one more under another key.
    finds(fault_of_replies(right[:-2], [*log[:4], Entry("E 1 4 5 I:10")]), "more entries than commands")
    finds(fault_of_replies(right[:2], [Entry("E 1 0 1 I:10"), Entry("E 1 1 2 I:10")]), "more entries than commands")
    expect(fault_of_replies([*right[:2], ("key z issue 10", None)], [Entry("E 1 0 1 I:10"), Entry("E 1 1 2 I:10")]), None)


def rights_that_are_missing_are_found():
    statuses = [{"issued": 10, "held": 4, "spent": 3}, {"issued": 0, "held": 3, "spent": 0}]
    expect(fault_of_totals(statuses), None)
    finds(fault_of_totals([*statuses, {"issued": 0, "held": 1, "spent": 0}]), "10 were issued, and 11")
    finds(fault_of_totals(statuses[:1]), "10 were issued, and 7")


CASES = [
    case("ToldChecks", [
        what_leaves_before_the_sync_is_found, what_was_applied_is_told_after_the_sync, a_journal_of_before_counts,
        what_a_send_left_out_is_not_told, writes_that_are_no_appends_are_found, records_are_read,
        images_are_of_all_kinds, a_number_with_two_entries_is_found, an_ask_number_that_is_used_twice_is_found,
        replies_that_the_log_has_not_are_found, repeats_under_keys_ask_for_one_entry, rights_that_are_missing_are_found,
    ]),
]  # fmt: skip
