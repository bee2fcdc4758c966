"""The functions in the sources of a crate, by the indentation that `rt fmt` gives, and the crate without their bodies."""

import re
from collections import Counter
from dataclasses import dataclass
from functools import cache
from pathlib import Path

CRATES = Path(__file__).resolve().parent.parent / "crates"
# What stands for the body of a function that a check is not about, and what it calls: no contract is left to prove behind
# a call that never returns.
HOLLOW = "crate::no_body(); unreachable!()"
NO_BODY = """
unsafe extern "C" {
    pub(crate) safe fn no_body()
        ensures { ⊥ };
}
"""
# The files that a function's own proof is made of. Others below its folder may have lemmas.
OWN_PROOF = ("Answers.antt", "Invariants.antt", "Proof.antt")


@dataclass(frozen=True)
class Function:
    """A function by its lines in a file, and by the names that a check prints for it and for its closures."""

    file: str
    lines: range
    modules: tuple
    owner: str
    name: str
    # Whether no other function of the crate has this name, and no module.
    is_alone: bool

    def is_named(self, path):
        """Whether a check means this function, or a closure in it, by this path. That of a method begins with the
        module of its type."""
        modules = "::".join(self.modules)
        if not self.owner:
            return re.fullmatch(rf"{modules}::{self.name}|{modules}::fn::{self.name}::.*", path) is not None
        crate, owner = self.modules[0], rf"{self.owner}\w*"
        return re.fullmatch(rf"{crate}::(?:\w+::)*(?:fn::)?{owner}::{self.name}(?:::.*)?", path) is not None

    def has_proof(self, path):
        """Whether a file of proofs is of this function, or of a closure in it."""
        if self.owner:
            return re.match(rf"proofs/(?:\w+/)*{self.owner}\w*/{self.name}/", path) is not None
        folder = "/".join(["proofs", *self.modules[1:]])
        return re.match(rf"{folder}/(?:fn/)?{self.name}/", path) is not None

    def ends_with(self, name):
        """Whether a name, as `--only` takes it, may be that of this function."""
        parts = name.split("::")
        return [*self.modules, *([self.owner] if self.owner else []), self.name][-len(parts) :] == parts

    def query(self):
        """What `--only` takes for it: the end of its name. A check may number the owners that have the same name."""
        if self.is_alone:
            return self.name
        return "::".join([*([self.owner] if self.owner else self.modules[1:]), self.name])


FUNCTION = re.compile(r"\s*(?:pub(?:\([^)]*\))? )?(?:const )?(?:unsafe )?fn (\w+)")
BLOCK = re.compile(r"\s*(?:unsafe )?(?:pub )?(?:impl|trait|mod)\b")


def indent_of(line):
    return len(line) - len(line.lstrip(" "))


def lines_around(lines, number):
    """The numbers of the lines that a line is inside of, from within, by the indentation that `rt fmt` gives."""
    depth = indent_of(lines[number])
    for at in range(number - 1, -1, -1):
        line = lines[at]
        if line.strip() and indent_of(line) < depth:
            yield at
            # A body after clauses begins with a brace alone, and long lists of parameters end with a bracket, as far in as
            # `fn`.
            depth = indent_of(line) + bool(re.match(r"\s*(\{$|\)|>|where\b)", line))


def is_in_cycle(lines, at):
    """Whether the function that begins there is part of a cycle of calls, which has one proof."""
    above = at - 1
    while above >= 0 and lines[above].strip().startswith(("#", "//")):
        if "#[cycle" in lines[above]:
            return True
        above -= 1
    return False


def function_at(crate, file, lines, number):
    """The function whose body has this line. None where it is part of no body, or of a function in a cycle of calls."""
    around = list(lines_around(lines, number))
    at = next((it for it in around if FUNCTION.match(lines[it])), None)
    if at is None or is_in_cycle(lines, at):
        return None
    opens = (it for it in range(at, number) if lines[it].rstrip().endswith("{") and indent_of(lines[it]) == indent_of(lines[at]))
    if next(opens, None) is None:
        return None
    block = next((it for it in around if it < at and BLOCK.match(lines[it])), None)
    owner = owner_of(header_at(lines, block)) if block is not None else ""
    if owner is None:
        return None
    ends = (it for it in range(number, len(lines)) if lines[it].strip() == "}" and indent_of(lines[it]) == indent_of(lines[at]))
    inside = Path(file).relative_to("src").with_suffix("").parts
    modules = (crate, *(() if inside == ("lib",) else inside))
    name = FUNCTION.match(lines[at])[1]
    return Function(file, range(at + 1, next(ends, number) + 2), modules, owner, name, names_in(crate)[name] == 1)


@cache
def names_in(crate):
    """How often each name is that of a function or a module of a crate."""
    files = list((CRATES / crate / "src").rglob("*.rt"))
    lines = (line for file in files for line in file.read_text().split("\n"))
    return Counter([*(it.stem for it in files), *(found[1] for line in lines if (found := FUNCTION.match(line)))])


def header_at(lines, block):
    """The header of a block, in one line."""
    end = next((it for it in range(block, len(lines)) if "{" in lines[it]), block)
    return " ".join(it.strip() for it in lines[block : end + 1])


def owner_of(header):
    """The name of what a block is about, as a check prints it: a type, or a type with the trait that it implements."""
    header = re.sub(r"<[^<>]*>", "", header)
    while "<" in header and header != (header := re.sub(r"<[^<>]*>", "", header)):
        pass
    found = re.match(r"\s*(?:unsafe )?impl\s*(?:([\w:]+) for )?&?(?:'\w+ )?(?:mut )?([\w:]+)", header)
    if not found:
        return None
    kind = found[2].split("::")[-1]
    return kind + (found[1].split("::")[-1] if found[1] else "")


def functions_of(crate, file, text):
    """The functions with bodies in a file, but for those in bodies of others, in cycles of calls and `const` ones: each with
    the numbers of the lines of its body, counted from 0."""
    lines, at = text.split("\n"), 0
    while at < len(lines):
        body = body_at(lines, at) if FUNCTION.match(lines[at]) else None
        if not body:
            at += 1
            continue
        function = function_at(crate, file, lines, body[0])
        if function and " const fn " not in f" {lines[at]}":
            yield function, body
        at = body.stop


def body_at(lines, at):
    """The numbers of the lines of the body of the function that begins there. None where it has none, or one on a line."""
    depth = indent_of(lines[at])
    for opens in range(at, len(lines)):
        line = lines[opens].rstrip()
        if line.endswith("{") and indent_of(line) == depth:
            return range(opens + 1, lines.index(" " * depth + "}", opens))
        # The rest of a header is farther in, but for brackets and `where`.
        if line.endswith("{}") or (opens > at and line and indent_of(line) <= depth and not re.match(r"\s*(?:[)>{]|where\b)", line)):
            return None
    return None


def hollow(text, bodies):
    """A text with other bodies, each in as many lines as before."""
    lines = text.split("\n")
    for body in bodies:
        lines[body.start : body.stop] = [HOLLOW] + [""] * (len(body) - 1)
    return "\n".join(lines)
