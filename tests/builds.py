"""What `./build` proves again: in a small repository of three crates, `base`, `above` on it and a program on both."""

import os
import re
import shutil
import subprocess
import tempfile
from pathlib import Path

from cases import Skipped, case
from cluster import TOP, expect

FILES = {
    "crates.txt": "base:\nspare:\nabove: base spare\nrights_site: above\n",
    "crates/base/src/lib.rt": """//! Adds.
#![tactic(auto)]

ghost use Rattle.base.specs.Sums.{Adds};

pub fn add(one: u8, other: u8) -> u16
    ensures { Adds one other result }
{
    u16::from(one) + u16::from(other)
}
""",
    "crates/base/specs/Lib.antt": "pub mod Sums\n",
    "crates/base/specs/Sums.antt": """use Rattle.std.specs.Prelude.{◌≡◌, ℕ, ◌+◌}

-- the sum of two numbers
abbrev pub Adds : ℕ → ℕ → ℕ → Type 0
Adds one other sum = sum ≡ one + other
""",
    "crates/base/proofs/Lib.antt": "pub mod Notes\n",
    "crates/base/proofs/Notes.antt": """use Rattle.std.proofs.Common.{◌≡◌, ℕ, refl}

pub same : (n : ℕ) → n ≡ n
same n = refl
""",
    "crates/spare/src/lib.rt": """//! A number.
#![tactic(auto)]

pub const NUMBER: u8 = 1;
""",
    "crates/above/src/lib.rt": """//! Adds to itself.
#![tactic(auto)]

ghost use Rattle.std.specs.Prelude.{◌≡◌, ◌+◌};

pub fn twice(number: u8) -> u16
    ensures { result ≡ number + number }
{
    base::add(number, number)
}
""",
    "crates/rights_site/src/main.rt": """//! A program.
#![tactic(auto)]

fn main() {
    let _ = above::twice(3);
}
""",
}
ABOVE = ["above", "rights_site"]


class Repository:
    """A copy of `./build` over small crates."""

    def __init__(self, folder):
        self.folder = Path(folder)
        shutil.copy2(os.path.join(TOP, "build"), self.folder / "build")
        for file, text in FILES.items():
            self.write(file, text)

    def write(self, file, text):
        path = self.folder / file
        path.parent.mkdir(parents=True, exist_ok=True)
        path.write_text(text)

    def edit(self, file, old, new):
        text = FILES[file]
        assert old in text, old
        self.write(file, text.replace(old, new))

    def build(self):
        """Builds. Answers which crates were proved, the sorted names, and the status."""
        ran = subprocess.run([self.folder / "build"], capture_output=True, text=True)
        return sorted(re.findall(r"crate \d+ of \d+, (\w+)", ran.stderr)), ran.returncode


def only_what_a_change_touches_is_proved_again():
    if shutil.which("rt") is None:
        raise Skipped("the Rattle toolchain is not there")
    with tempfile.TemporaryDirectory() as folder:
        ours = Repository(folder)
        expect(ours.build(), (sorted(["base", "spare", *ABOVE]), 0), "all crates, at first")
        expect(ours.build(), ([], 0), "no crate, if nothing changed")

        ours.edit("crates/base/proofs/Notes.antt", "same n = refl", "same n = refl -- by definition")
        expect(ours.build(), (["base"], 0), "the crate alone, if a proof changed")
        expect(ours.build(), ([], 0), "no crate, after that")

        ours.edit("crates/base/src/lib.rt", "{ Adds one other result }", "{ Adds other one result }")
        expect(ours.build(), (sorted(["base", *ABOVE]), 0), "all above, if a contract changed")

        ours.edit("crates/base/specs/Sums.antt", "sum ≡ one + other", "sum + 1 ≡ one + other + 1")
        expect(ours.build(), (sorted(["base", *ABOVE]), 0), "all above, if a definition changed")

        ours.edit("crates/base/specs/Sums.antt", "sum ≡ one + other", "sum ≡ one + other + 1")
        expect(ours.build(), (["base"], 1), "none above, if the crate is not proved")
        ours.write("crates/base/specs/Sums.antt", FILES["crates/base/specs/Sums.antt"])
        expect(ours.build(), (sorted(["base", *ABOVE]), 0), "all above, if it is proved again")

        ours.write("crates.txt", FILES["crates.txt"].replace("spare:\n", "").replace(" spare", ""))
        shutil.rmtree(ours.folder / "crates/spare")
        expect(ours.build(), (sorted(ABOVE), 0), "what stood on it, if a crate is removed")


CASES = [case("Builds", [only_what_a_change_touches_is_proved_again])]
