"""The copies by which tests/wrong_bodies.py tries several wrong bodies of a function, in a crate that was made up."""

import tempfile
from pathlib import Path
from types import SimpleNamespace

from cases import case
from cluster import expect
from copies import Copies, parts_of
from functions import function_at
from wrong_bodies import Check, Trial, read_edit, verdict_on

QUEUE = """//! A queue.
ghost use Rattle.std.specs.Prelude.{◌≡◌};

pub struct Queue {
    next: u64,
}

pub struct Put_2;

impl Queue {
    ghost use Rattle.made.specs.Queues.{
        Puts, Reads,
    };
    ghost use Rattle.made.specs.Calls.{Calls};

    /// Puts.
    #[tactic(auto, using(one))]
    pub fn put(&mut self, amount: u64) -> u64
        ensures { Puts self.old amount result self.new }
    {
        self.next + amount
    }

    pub fn read(&self) -> u64 {
        self.next
    }

    pub fn first(&self) -> u64 {
        1
    }
}

impl Clone for Queue {
    fn twin(&self) -> Queue {
        Queue { next: self.next }
    }
}

fn half(number: u64) -> u64
    ensures { result + result ≤ number }
{
    number / 2
}

#[unsafe(no_mangle)]
fn known(number: u64) -> u64 {
    number
}
"""
COPY = """
impl Queue {
    ghost use Rattle.made.specs.Queues.{
        Puts, Reads,
    };
    ghost use Rattle.made.specs.Calls.{Calls};
    /// Puts.
    #[tactic(auto, using(one))]
    pub fn put_3(&mut self, amount: u64) -> u64
        ensures { Puts self.old amount result self.new }
    {
        self.next - amount
    }
}
"""
ANSWERS = """use Rattle.std.proofs.Common.{refl}
use Rattle.made.proofs.queue.Queue.{}.Goals as goal
use Rattle.made.proofs.queue.Queue.put_all.Met
use Rattle.made.proofs.queue.Queue.{}.Given as given

pub returns : goal.returns
returns = refl
"""
FILES = {
    "src/queue.rt": QUEUE,
    "proofs/queue/Queue/put/Answers.antt": ANSWERS.replace("{}.G", "put.G"),
    "proofs/queue/Queue/read/Answers.antt": "",
    "proofs/queue/Queue/read/Laws.antt": "",
    "proofs/queue/Queue+A/first/Answers.antt": "",
}


def made(folder):
    """The crate, in a folder."""
    for file, text in FILES.items():
        Path(folder, file).parent.mkdir(parents=True, exist_ok=True)
        Path(folder, file).write_text(text)
    return Path(folder)


def function_of(line):
    """The function of the queue that has this line in its body."""
    lines = QUEUE.split("\n")
    return function_at("made", "src/queue.rt", lines, lines.index(line))


def copied(folder, line, wrong):
    """A copy of the function with a line, which is wrong in it. Answers the texts and the copy."""
    texts = {}
    copies, function = Copies("made", made(folder), texts), function_of(line)
    return texts, copies.add(function, QUEUE.replace(line, wrong)), copies


def a_copy_of_a_method_stands_in_a_block_of_its_own():
    with tempfile.TemporaryDirectory() as folder:
        texts, copy, _ = copied(folder, "        self.next + amount", "        self.next - amount")
        text = texts["src/queue.rt"]
        expect(text, QUEUE + COPY, "the file")
        expect(copy.query(), "put_3", "the name: put_2 is taken by Put_2")
        own = text.split("\n")[copy.lines.start - 1 : copy.lines.stop - 1]
        expect((own[0].strip(), own[-1]), ("pub fn put_3(&mut self, amount: u64) -> u64", "    }"), "its lines")
        expect(copy.is_named("made::queue::Queue::put_3"), True, "its name in a check")
        expect(copy.is_named("made::queue::Queue::put"), False, "the name of the function")


def its_proof_cites_its_own_goals():
    with tempfile.TemporaryDirectory() as folder:
        texts, copy, _ = copied(folder, "        self.next + amount", "        self.next - amount")
        path = "proofs/queue/Queue/put_3/Answers.antt"
        expect(sorted(texts), [path, "src/queue.rt"], "what changed")
        expect(texts[path], ANSWERS.replace("{}.G", "put_3.G"), "the proof")
        expect(copy.has_proof(path), True, "whose proof it is")


BOTH = [("half_2", "number / 3"), ("half_3", "number")]


def copies_stand_one_behind_the_other():
    with tempfile.TemporaryDirectory() as folder:
        texts, first, copies = copied(folder, "    number / 2", "    number / 3")
        second = copies.add(function_of("    number / 2"), QUEUE.replace("number / 2", "number"))
        lines = texts["src/queue.rt"].split("\n")
        found = ["\n".join(lines[it.lines.start - 1 : it.lines.stop - 1]) for it in (first, second)]
        right = QUEUE[QUEUE.index("fn half") : QUEUE.index("\n\n#[unsafe")]
        wrong = [right.replace("half", name).replace("number / 2", body) for name, body in BOTH]
        expect(found, wrong, "both")


def there_is_no_copy_of_what_is_unusual():
    with tempfile.TemporaryDirectory() as folder:
        made(folder)
        for line, why in (
            ("        Queue { next: self.next }", "a method of a trait"),
            ("        self.next", "a proof with a file that others may name"),
            ("        1", "a method for some types alone"),
            ("    number", "a function that is known by its name"),
        ):
            expect(parts_of(Path(folder), function_of(line)), None, why)


EDITS = {
    "a": ("self.next + amount", "self.next"),
    "b": ("self.next + amount", "self.next - amount"),
    "c": ("number / 2", "number / 1"),
    "d": ("Queue { next: self.next }", "Queue { next: 0 }"),
    "e": ("Queue { next: self.next }", "Queue { next: 1 }"),
}


def a_check_has_an_edit_in_each_function_and_copy():
    with tempfile.TemporaryDirectory() as folder:
        room, edits = made(folder), []
        for name, (old, new) in EDITS.items():
            (room / f"{name}.edit").write_text(f"file: src/queue.rt\nold: {old}\nnew: {new}\n")
            edits.append(read_edit("made", room / f"{name}.edit", room))
        trial = Trial(SimpleNamespace(name="made", folder=room), edits, True, None)
        own, copied, others = ("".join(it.name for it in part) for part in trial.group(edits))
        expect((own, copied, others), ("acd", "b", "e"), "in functions, in copies, and in another check")

        texts, functions = trial.place(edits[:4])
        expect({name: it.name for name, it in functions.items()}, dict(a="put", b="put_3", c="half", d="twin"), "where")
        text = texts["src/queue.rt"]
        expect([text.count(new) for _, new in list(EDITS.values())[1:4]], [1, 1, 1], "each edit is made once")

        copy, line = functions["b"], functions["b"].lines.start + 2
        note = f"note: src/queue.rt:{line}:5: it is not proved that all is well"
        check = Check(f"{note}\nfn made::queue::Queue::put_3: not proved\n", 1, None)
        expect(verdict_on(copy, check), ("refused", note), "of the copy")
        expect(verdict_on(functions["a"], check), None, "of the function")


CASES = [
    case("Copies", [
        a_copy_of_a_method_stands_in_a_block_of_its_own, its_proof_cites_its_own_goals,
        copies_stand_one_behind_the_other, there_is_no_copy_of_what_is_unusual,
        a_check_has_an_edit_in_each_function_and_copy,
    ]),
]  # fmt: skip
