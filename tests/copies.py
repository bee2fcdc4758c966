"""Copies of functions under other names, so that one check can try several wrong bodies of a function.

A copy stands at the end of its file, where it moves no other line, and that of a method in a block with the same
header. It has the contract and the attributes of its function, and the files of its proof.
"""

import re
from dataclasses import dataclass, replace
from functools import cache

from functions import BLOCK, FUNCTION, OWN_PROOF, Function, indent_of, lines_around

# The attributes of a function that others know by its name, and of one that some checks leave out.
ODD = re.compile(r"\s*#.*(no_mangle|export_name|cfg|test\])")


@dataclass
class Parts:
    """What a copy is made of: of a method the header of its block, and what that imports; the function with its
    attributes, all by the numbers of their lines, counted from 0; and the folder of its proof, if it has one."""

    block: list
    lines: range
    proofs: list


class Copies:
    """The copies in one check of a crate, in the texts of the files that the check changes."""

    def __init__(self, crate, folder, texts):
        self.crate, self.folder, self.texts = crate, folder, texts
        self.taken = set(words_of(folder))

    def add(self, function, text):
        """Adds a copy of a function as the text of its file has it, and answers the copy."""
        parts, name = parts_of(self.folder, function), self.free_name(function.name)
        lines = text.split("\n")
        of = [lines[it] for it in parts.lines]
        first = function.lines.start - 1 - parts.lines.start
        of[first] = re.sub(rf"\bfn {function.name}\b", f"fn {name}", of[first], count=1)
        before = ["", *(lines[it] for it in parts.block)]
        after = ["}", ""] if parts.block else [""]
        whole = self.texts.get(function.file) or (self.folder / function.file).read_text()
        begins = whole.count("\n") + len(before) + first + 1
        self.texts[function.file] = "\n".join([whole.removesuffix("\n"), *before, *of, *after])
        for proof in parts.proofs:
            self.add_proof(proof, name)
        return replace(function, name=name, lines=range(begins, begins + len(function.lines)), is_alone=True)

    def free_name(self, name):
        """A name that nothing in the crate has, whatever the case of its letters."""
        found = next(it for n in range(2, 10_000) if (it := f"{name}_{n}").lower() not in self.taken)
        self.taken.add(found.lower())
        return found

    def add_proof(self, proof, name):
        """Adds the files of a proof, which import by the whole names of modules."""
        path = r"\.".join(proof.relative_to(self.folder / "proofs").parts)
        own = re.compile(rf"\b(Rattle\.{self.crate}\.(?:proofs|specs\.contracts)\.{path})\b")
        for file in sorted(it for it in proof.rglob("*") if it.is_file()):
            text = own.sub(lambda found: f"{found[1].rpartition('.')[0]}.{name}", file.read_text())
            self.texts[str((proof.with_name(name) / file.relative_to(proof)).relative_to(self.folder))] = text


@cache
def words_of(folder):
    """All words in the files of a crate, in small letters."""
    files = (it for kind in ("src/**/*.rt", "specs/**/*.antt", "proofs/**/*.antt") for it in folder.glob(kind))
    return frozenset(word.lower() for file in files for word in re.findall(r"\w+", file.read_text()))


@cache
def parts_of(folder, function):
    """What a copy of a function is made of. None where there is none: of a method of a trait, and where anything is
    unusual."""
    lines, at = (folder / function.file).read_text().split("\n"), function.lines.start - 1
    begins = at
    while lines[begins - 1].strip().startswith(("#[", "//")):
        begins -= 1
    body = range(begins, function.lines.stop - 1)
    is_usual = not lines[begins - 1].strip() or lines[begins - 1].endswith("{")
    is_usual &= not any(ODD.match(lines[it]) for it in range(begins, at))
    is_usual &= sum(FUNCTION.match(lines[it]) is not None for it in body) == 1
    is_usual &= indent_of(lines[at]) == (4 if function.owner else 0)
    block, proofs = block_of(lines, at) if function.owner else [], proofs_of(folder, function)
    return Parts(block, body, proofs) if is_usual and block is not None and proofs is not None else None


def block_of(lines, at):
    """The lines of the header of the block that a method stands in, and of what the block imports. None if that is the
    impl of a trait."""
    begins = next((it for it in lines_around(lines, at) if BLOCK.match(lines[it])), None)
    if begins is None or indent_of(lines[begins]) or lines[begins - 1].startswith("#"):
        return None
    opens = next(it for it in range(begins, at) if lines[it].endswith("{"))
    header = range(begins, opens + 1)
    if any(re.search(r"\bfor\b", lines[it]) for it in header):
        return None
    imports, is_inside = [], False
    for number in range(opens + 1, lines.index("}", at)):
        is_inside |= lines[number].startswith("    ghost use ")
        if is_inside:
            imports.append(number)
            is_inside = not lines[number].endswith(";")
    return [*header, *imports]


def proofs_of(folder, function):
    """The folder of the proof of a function, if it has one. None where that is not clear, as of a method for some types
    alone, where closures have theirs elsewhere, and where others may name a file of it."""
    if any(it.parent.name.startswith(f"{function.owner}+") for it in (folder / "proofs").rglob(function.name)):
        return None
    files = (it for it in (folder / "proofs").rglob("*") if it.is_file())
    files = [it for it in files if function.has_proof(str(it.relative_to(folder)))]
    folders = list({next(up for up in it.parents if up.name == function.name) for it in files})
    owners = rf"{function.owner}\d*" if function.owner else r"(?!fn$).*"
    is_own = len(folders) < 2 and all(re.fullmatch(owners, it.parent.name) for it in folders)
    return folders if is_own and all(it.name in OWN_PROOF for it in files) else None
