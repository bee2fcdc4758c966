#!/usr/bin/env python3
"""Tries the wrong bodies, crates/NAME/must-fail/*.edit, several in one check:

    tests/wrong_bodies.py [--libraries FOLDER [--beside LOG END]] [--copies] [NAME[/EDIT]]..

`rt must-fail` tries one edit at a time, and each check loads all libraries below the crate. Here one check has several
edits, each in a function of its own. That is sound, since the proof of a function cites the contracts of what it calls
and cannot open their bodies: what is proved or refused of one function is the same whatever stands in the bodies of the
others. Of several edits of one function the first is made in it, and each other one in a copy of it under another name
(copies.py). A copy shows the same as the function would: its theorem is of the same contract, and its proof, from the
same files, cites the contracts of the same calls. `--copies` checks copies without an edit, which must all be proved. A
method of a trait has no copies, so its edits are tried in one check after the other. An edit counts as refused only if a
goal of the function or of the copy that it changes is refused; that this one calls another that is not proved says
nothing. An edit of a definition, of a contract or of a cycle of calls is tried alone, and so is one of which the check of
several says nothing. The file must-fail/refused.txt says of such an edit which functions to check first; if these are
proved all the same, the whole crate is checked. For the same reason the functions that a check is not about have no
bodies in it: what they call would be proved too.

FOLDER has the libraries below the crates, as `rt` (NAME/out/rlib/NAME.rlib) or `./build` (NAME.rlib) makes them, and each
check begins with nothing else. Where it is not given, they are those that `rt` or else `./build` made here, and a check
begins with what `rt check` kept. `--beside` has `rt ci` make them meanwhile: a crate waits until all below it are proved,
by what LOG, the output of `rt ci`, says, or until the file END is there, and half of the processors are used till then. A
crate whose edits were all refused before is passed over if nothing that they stand on has changed. Prints a line for each
edit, with the processor time of its function's proof, that of each crate, and as the last line 'N passed, M failed'.
"""

import hashlib
import os
import re
import shutil
import signal
import subprocess
import sys
import tempfile
import threading
import time
from collections import Counter
from concurrent.futures import ThreadPoolExecutor
from dataclasses import dataclass, field
from functools import cached_property
from importlib.machinery import SourceFileLoader
from importlib.util import module_from_spec, spec_from_loader
from pathlib import Path

from copies import Copies, parts_of
from functions import NO_BODY, OWN_PROOF, Function, function_at, functions_of, hollow
from processes import Process

TOP = Path(__file__).resolve().parent.parent
# What one check of one job takes at most, in bytes.
MEMORY = 5_000_000_000
# The costliest wrong bodies that are printed.
MOST = 40
REFUSED, MISSED, BAD, UNSURE = "refused", "missed", "bad", "unsure"
# What an edit takes from a proof that names it: this says little of a contract.
NAMES = re.compile(r"has no field|is not in scope|has no `|was not admitted")
ERROR = re.compile(r"(?:note: )?(?:\./)?((?:src|specs|proofs)/\S+?):(\d+):\d+: (?:error|note): (.*)")
GOAL = re.compile(r"note: (src/\S+?):(\d+):\d+: (it is not proved that .*)")
NO_GOAL = "`search` did not prove"
UNKNOWN = r"(?:has no function|several functions are named) `([^`]+)`"


def load_build():
    """The script `./build`, which knows where the toolchain and the crates are."""
    loader = SourceFileLoader("build", str(TOP / "build"))
    module = module_from_spec(spec_from_loader("build", loader))
    loader.exec_module(module)
    return module


build = load_build()


@dataclass
class Edit:
    """One wrong body: the texts that it changes, the function that has them, if it is one body alone, and else the
    functions that are known to be refused by it."""

    crate: str
    name: str
    texts: dict = field(default_factory=dict)
    pairs: list = field(default_factory=list)
    fault: str = ""
    function: Function | None = None
    refused: list = field(default_factory=list)
    # The processor time of its function in a check of several, or of its own checks.
    seconds: float = 0.0

    @property
    def label(self):
        return f"must-fail {self.crate}/{self.name}.edit"


def read_edit(crate, path, folder):
    """An edit as its file has it."""
    edit = Edit(crate, path.stem)
    functions, file, old = set(), None, None
    for line in path.read_text().split("\n"):
        key, colon, text = line.partition(":")
        text = text.removeprefix(" ")
        if key == "file" and colon:
            file = text.strip()
            if file not in edit.texts:
                edit.texts[file] = (folder / file).read_text() if (folder / file).is_file() else None
        elif key == "old" and colon:
            old = text
        elif key == "new" and colon:
            before = edit.texts.get(file)
            if not old or before is None or before.count(old) != 1:
                edit.fault = f"an 'old:' text is in {file} {before.count(old) if before and old else 0} times, and not once"
                return edit
            functions.add(function_of_change(crate, file, before, old))
            edit.texts[file] = before.replace(old, text)
            edit.pairs.append((file, old, text))
            old = None
    if not edit.pairs:
        edit.fault = "it has no 'old:' and 'new:' pair"
        return edit
    edit.function = next(iter(functions)) if len(functions) == 1 else None
    if all(functions):
        edit.refused = sorted(it.query() for it in functions)
    return edit


def function_of_change(crate, file, text, old):
    """The function whose body has the old text of a file of the crate."""
    if not file.startswith("src/"):
        return None
    return function_at(crate, file, text.split("\n"), text[: text.index(old)].count("\n"))


def changed(edits, folder):
    """The texts of the files that several edits change together, or None where two of them meet."""
    texts = {}
    for edit in edits:
        for file, old, new in edit.pairs:
            text = texts.get(file) or (folder / file).read_text()
            if text.count(old) != 1:
                return None
            texts[file] = text.replace(old, new)
    return texts


@dataclass
class Check:
    """What a check said, its status, and the processor time of each function in it."""

    said: str
    status: int
    seconds: Counter

    def lines(self):
        return self.said.rstrip("\n").split("\n")


class Crate:
    """A crate whose edits are tried, and the libraries of ours that are below it."""

    def __init__(self, name, used, libraries, kept, kit):
        self.name, self.folder, self.used, self.kept = name, build.CRATES / name, used[name], kept
        self.libraries, self.kit, self.seconds = libraries, kit, 0.0

    def stamp(self):
        """Where the digest stands of what all edits were refused over."""
        return self.folder / "out/wrong_bodies.stamp"

    def digest(self):
        """A sum of all that the verdicts on the edits depend on."""
        found = hashlib.sha256(f"{self.kit.rattle.stat().st_mtime_ns} {self.used}\n".encode())
        for script in ("wrong_bodies.py", "copies.py", "functions.py"):
            found.update(Path(__file__).with_name(script).read_bytes())
        for name, library in sorted(self.libraries.items()):
            found.update(f"{name}\n".encode() + (library / "format").read_bytes())
        files = (it for part in (*build.SOURCES, "must-fail") for it in (self.folder / part).rglob("*") if it.is_file())
        for file in sorted(files):
            text = file.read_bytes()
            found.update(f"{file.relative_to(self.folder)} {len(text)}\n".encode() + text)
        return found.hexdigest()

    def words(self):
        words = [self.kit.rattle, "check", "--crate-name", self.name, "src/lib.rt"]
        for it in ["std", *self.used]:
            words += ["--extern", f"{it}={self.libraries.get(it, self.kit.libraries / f'{it}.rlib')}"]
        for it in [self.kit.libraries, *sorted({it.parent for it in self.libraries.values()})]:
            words += ["-L", f"dependency={it}"]
        logic = ["--antt-project", self.kit.logic, "--logic-built", self.kit.logic_built]
        return [*words, *logic, "--jobs", "1"]

    def check(self, texts, more, is_kept=None):
        """Checks a copy of the crate with these texts in place of its own. is_kept: which functions keep their bodies, if not
        all do."""
        with tempfile.TemporaryDirectory(prefix="wrong-body-") as room:
            for part in build.SOURCES:
                if (self.folder / part).is_dir():
                    shutil.copytree(self.folder / part, f"{room}/{part}")
            for file, text in texts.items():
                Path(room, file).parent.mkdir(parents=True, exist_ok=True)
                Path(room, file).write_text(text)
            if is_kept:
                self.hollow_out(Path(room), is_kept)
            begun = subprocess.Popen(
                [*self.words(), "--progress", *more],
                cwd=room,
                stdin=subprocess.DEVNULL,
                stdout=subprocess.PIPE,
                stderr=subprocess.STDOUT,
                text=True,
                errors="replace",
            )
            said, seconds = self.follow(begun)
            _, status, usage = os.wait4(begun.pid, 0)
            begun.returncode = os.waitstatus_to_exitcode(status)
        self.seconds += usage.ru_utime + usage.ru_stime
        return Check(said, begun.returncode, seconds)

    def follow(self, check):
        """What a check says, and the processor time of each function."""
        said, seconds, last = [], Counter(), 0.0
        with check.stdout as lines:
            for line in lines:
                said.append(line)
                if found := re.match(r"checked (.*), \d+ of \d+$", line):
                    now = Process(check.pid).seconds
                    seconds[found[1]] += now - last
                    last = now
        return "".join(said), seconds

    @cached_property
    def functions(self):
        """The functions whose bodies a check can do without, each with the lines of its body."""
        files = ((it, str(it.relative_to(self.folder))) for it in sorted((self.folder / "src").rglob("*.rt")))
        return [it for path, file in files for it in functions_of(self.name, file, path.read_text())]

    def hollow_out(self, room, is_kept):
        """Takes the bodies from a copy of the crate, but those that are kept, and the proofs of the others."""
        kept = [it for it, _ in self.functions if is_kept(it)]
        emptied = [(it, body) for it, body in self.functions if not is_kept(it)]
        for file in {it.file for it, _ in emptied}:
            text = (room / file).read_text()
            (room / file).write_text(hollow(text, [body for it, body in emptied if it.file == file]))
        with (room / "src/lib.rt").open("a") as lib:
            lib.write(NO_BODY)
        for path in (it for name in OWN_PROOF for it in room.glob(f"proofs/**/{name}")):
            proof = str(path.relative_to(room))
            if any(it.has_proof(proof) for it, _ in emptied) and not any(it.has_proof(proof) for it in kept):
                path.unlink()

    def edits(self):
        paths = sorted((self.folder / "must-fail").glob("*.edit"))
        edits, known = [read_edit(self.name, it, self.folder) for it in paths], self.known_refused()
        for edit in edits:
            edit.refused = known.get(edit.name, edit.refused)
        return edits

    def known_refused(self):
        """What is known to be refused by edits that concern the whole crate: functions by the ends of their names."""
        file = self.folder / "must-fail/refused.txt"
        lines = file.read_text().splitlines() if file.is_file() else []
        return {name: functions.split() for name, _, functions in (it.partition(":") for it in lines)}


def verdict_on(function, check):
    """What a check of several edits says of the one in this function: (REFUSED, why), or None where that does not follow."""
    own = [it for it in check.lines() if (found := re.match(r"fn (\S+): (?!proved)", it)) and function.is_named(found[1])]
    if not own:
        return None
    if any(NO_GOAL in it for it in own):
        goal = next(it[it.index(NO_GOAL) :] for it in own if NO_GOAL in it)
        return REFUSED, f"{function.name}: {goal.split('; it calls')[0]}"
    for line in check.lines():
        goal, error = GOAL.match(line), ERROR.match(line)
        if goal and goal[1] == function.file and int(goal[2]) in function.lines:
            return REFUSED, line[:160]
        if error and ": error: " in line and function.has_proof(error[1]) and not NAMES.search(error[3]):
            return REFUSED, line[:160]
    return None


def verdict_alone(check):
    """What a check of one edit alone says of it."""
    lines = check.lines()
    if check.status == 0:
        return MISSED, "the crate is still proved with this edit (one that means the same as before cannot be refused)"
    if check.status == 1 and lines[-1].startswith(("logic=not-proved", "only=")):
        told = [it for it in lines if ERROR.match(it) or GOAL.match(it)]
        unread = next((it for it in told if re.match(r"(?:\./)?(?:src|specs)/\S+: error: (?!`)", it)), None)
        if unread:
            return BAD, f"the prover cannot read the edited text: {unread[:160]}"
        told = [it for it in told if ": error: " in it or it.startswith("note: ")] or told
        first = next((it for it in told if not NAMES.search(it)), None)
        if told and first is None:
            return REFUSED, f"only because a proof names what the edit took away: {told[0][:160]}"
        return REFUSED, (first or "")[:160]
    limit = next((it for it in lines if "ran out of" in it or "stopped at the" in it or "outgrew" in it), None)
    if check.status == 3 and limit:
        return REFUSED, f"only by a limit of the prover: {limit[:160]}"
    if check.status == 1:
        return BAD, f"it did not reach the prover: {' '.join(lines[:3])[:300]}"
    return UNSURE, f"its check ended with status {check.status}: {lines[-1][:160]}"


class Trial:
    """The edits of one crate, from the first check to the last."""

    def __init__(self, crate, edits, is_whole, reports):
        self.crate, self.edits, self.is_whole, self.reports = crate, edits, is_whole, reports
        # Where the checks keep what they proved.
        self.room, self.verdicts = None, []

    def settle(self, edit, kind, why):
        self.verdicts.append(kind)
        self.reports.report(edit, kind, why)

    def run(self):
        lacking = [it for it, library in self.crate.libraries.items() if not (library / "format").is_file()]
        if lacking:
            for edit in self.edits:
                self.settle(edit, UNSURE, f"there is no library of {' '.join(lacking)}")
            return
        begun_with = self.crate.digest()
        if self.is_whole and self.crate.stamp().is_file() and self.crate.stamp().read_text() == begun_with:
            self.reports.pass_over(self.crate, self.edits)
            return
        with tempfile.TemporaryDirectory(prefix="wrong-bodies-") as room:
            self.room = f"{room}/kept"
            if self.crate.kept and (self.crate.folder / "out/incremental").is_dir():
                shutil.copytree(self.crate.folder / "out/incremental", self.room, symlinks=True, copy_function=link_or_copy)
            else:
                os.mkdir(self.room)
            self.run_all()
        if self.is_whole and set(self.verdicts) == {REFUSED} and self.crate.digest() == begun_with:
            self.crate.stamp().parent.mkdir(exist_ok=True)
            self.crate.stamp().write_text(begun_with)

    def run_all(self):
        for edit in self.edits:
            if edit.fault:
                self.settle(edit, BAD, edit.fault)
        whole = [it for it in self.edits if not it.fault]
        bodies, alone = [it for it in whole if it.function], [it for it in whole if not it.function]
        while bodies:
            own, copied, bodies = self.group(bodies)
            alone += self.together([*own, *copied])
        for edit in alone:
            self.alone(edit)

    def group(self, edits):
        """What one check can try: edits in their own functions, edits in copies of these; and the others."""
        own, copied, others = [], [], []
        for edit in edits:
            is_free = all(it.function != edit.function for it in own)
            if is_free and changed([*own, edit], self.crate.folder) is not None:
                own.append(edit)
            else:
                (copied if parts_of(self.crate.folder, edit.function) else others).append(edit)
        return own, copied, others

    def place(self, edits):
        """The texts of a check of several edits, and by their names the function that each of them changes there."""
        own, copied, _ = self.group(edits)
        texts = changed(own, self.crate.folder)
        functions, copies = {it.name: it.function for it in own}, Copies(self.crate.name, self.crate.folder, texts)
        functions.update({it.name: copies.add(it.function, it.texts[it.function.file]) for it in copied})
        return texts, functions

    def check(self, texts, functions):
        """Checks the crate with these texts: these functions alone, by the ends of their names, if there are any. The others
        have no bodies then: those that these call would be checked too."""
        only = [it for function in functions for it in ("--only", function)]
        words = [*(["--incremental", self.room] if self.room else []), *only]
        is_kept = self.keeps(functions)
        check = self.crate.check(texts, words, is_kept)
        # Most likely for want of memory.
        return self.crate.check(texts, words, is_kept) if check.status == -signal.SIGKILL else check

    def keeps(self, functions):
        """Which functions keep their bodies in a check of some, by the ends of their names. None where all must."""
        found = [it for it, _ in self.crate.functions]
        # A name that is that of no body may be written otherwise here.
        unknown = [it for it in functions if not any(other.ends_with(it) for other in found)]
        if not functions or any(it.split("::")[-1] == other.name for it in unknown for other in found):
            return None
        return lambda function: any(function.ends_with(name) for name in functions)

    def together(self, group):
        """Tries several edits in one check. Answers those of which it says nothing."""
        check, undecided = None, []
        while group:
            texts, functions = self.place(group)
            queries = {name: it.query() for name, it in functions.items()}
            check = self.check(texts, queries.values())
            unknown = re.findall(UNKNOWN, check.said) if check.status == 2 else []
            strange = [it for it in group if queries[it.name] in unknown]
            if not strange:
                break
            for edit in (it for it in strange if functions[it.name] == it.function):
                edit.function, edit.refused = None, []
            group = [it for it in group if it not in strange]
            undecided += strange
        if len(group) > 1 and not re.search(r"^fn ", check.said, re.M):
            # One of them, most likely, does not reach the prover.
            half = len(group) // 2
            return undecided + self.together(group[:half]) + self.together(group[half:])
        for edit in group:
            function = functions[edit.name]
            edit.seconds = sum(took for path, took in check.seconds.items() if function.is_named(path))
            verdict = verdict_on(function, check)
            if verdict is None:
                undecided.append(edit)
            else:
                self.settle(edit, *verdict)
        return undecided

    def unchanged(self):
        """What a check says of copies with no wrong body, one of each function that needs copies: its name, whether it is
        proved, and the processor time of that."""
        _, copied, _ = self.group([it for it in self.edits if it.function])
        functions, texts = sorted({it.function for it in copied}, key=lambda it: (it.file, it.lines.start)), {}
        copies = Copies(self.crate.name, self.crate.folder, texts)
        made = [copies.add(it, (self.crate.folder / it.file).read_text()) for it in functions]
        if not made:
            return []
        check = self.check(texts, [it.query() for it in made])
        proved = [found[1] for it in check.lines() if (found := re.match(r"fn (\S+): proved", it))]
        seconds = [sum(took for path, took in check.seconds.items() if it.is_named(path)) for it in made]
        return [(it.name, any(map(it.is_named, proved)), took) for it, took in zip(made, seconds)]

    def alone(self, edit):
        """Tries one edit. What is no body may matter anywhere in the crate."""
        begun = self.crate.seconds
        check = self.check(edit.texts, edit.refused)
        if edit.refused and check.status != 1:
            check = self.check(edit.texts, [])
        edit.seconds += self.crate.seconds - begun
        self.settle(edit, *verdict_alone(check))


def link_or_copy(one, other):
    """Gives what was proved a second name: a check replaces such a file, and never writes into it."""
    if one.endswith(".oantt"):
        try:
            return os.link(one, other)
        except OSError:
            pass
    return shutil.copy2(one, other)


def libraries_in(folders, names):
    """The libraries of some crates, in the first of these folders that has all. They are made by one tool: the toolchain
    refuses a mixture."""
    ways = [lambda folder, name: folder / name / "out/rlib" / f"{name}.rlib", lambda folder, name: folder / f"{name}.rlib"]
    found = [{name: way(folder, name) for name in names} for folder in folders for way in ways]
    return next((it for it in found if all((library / "format").is_file() for library in it.values())), found[0])


def all_crates(folders, kept=False):
    """The crates, over the libraries in these folders. kept: whether a check may begin with what `rt check` kept of the
    crate."""
    used = build.used_crates()

    def below(name):
        ours = [it for it in used[name] if it in used]
        return set(ours).union(*map(below, ours))

    kit = build.Kit(shutil.which("rt"))
    return [Crate(it, used, libraries_in(folders, below(it)), kept, kit) for it in used]


class Reports:
    """Prints what each edit came to, and counts."""

    TEXTS = {REFUSED: "refused, as it must be", MISSED: "NOT REFUSED", BAD: "BAD EDIT", UNSURE: "NOT TRIED"}

    def __init__(self):
        self.counts, self.lock = dict.fromkeys(self.TEXTS, 0), threading.Lock()

    def report(self, edit, kind, why):
        with self.lock:
            self.counts[kind] += 1
            print(f"{edit.label}: {self.TEXTS[kind]} ({edit.seconds:.0f} s){': ' if why else ''}{why}", flush=True)

    def pass_over(self, crate, edits):
        with self.lock:
            self.counts[REFUSED] += len(edits)
            said = f"its {len(edits)} wrong bodies were refused before, and nothing that they stand on has changed"
            print(f"{crate.name}: {said}", flush=True)

    def failed(self):
        return sum(self.counts.values()) - self.counts[REFUSED]


class Proofs:
    """What a run of `rt ci` beside has proved so far."""

    def __init__(self, log, end):
        self.log, self.end = Path(log), Path(end)

    def has_ended(self):
        return self.end.exists()

    def proved(self):
        said = self.log.read_text(errors="replace") if self.log.exists() else ""
        return set(re.findall(r"^rt: (\w+) proved$", said, re.M))


class Lanes:
    """Tries the edits of several crates, as many crates at once as there are processors, and memory for. Beside `rt ci` it
    takes half as many, and only crates that have all libraries."""

    def __init__(self, trials, proofs):
        # The longest first: the others fill what it leaves.
        self.left = sorted(trials, key=lambda it: -len(it.edits))
        self.proofs, self.lock = proofs, threading.Lock()
        self.count = max(1, min(build.processors(), build.memory_free() // MEMORY))

    def run(self):
        with ThreadPoolExecutor(self.count) as pool:
            for done in [pool.submit(self.run_lane, it) for it in range(self.count)]:
                done.result()

    def run_lane(self, lane):
        while self.left:
            if (trial := self.next(lane)) is not None:
                trial.run()
            else:
                time.sleep(1)

    def next(self, lane):
        """Takes what a lane is to try now, or None."""
        with self.lock:
            trial = next(iter(self.ready(lane)), None)
            if trial is not None:
                self.left.remove(trial)
            return trial

    def ready(self, lane):
        """What a lane, counted from 0, may try now."""
        if self.proofs is None or self.proofs.has_ended():
            return self.left
        if lane >= max(1, self.count // 2):
            return []
        proved = self.proofs.proved()
        return [it for it in self.left if proved.issuperset(it.crate.libraries)]


def try_all(trials, proofs):
    Lanes(trials, proofs).run()
    edits = sorted((it for trial in trials for it in trial.edits if it.seconds), key=lambda it: -it.seconds)
    print("Processor time in seconds, of the costliest wrong bodies:")
    for edit in edits[:MOST]:
        print(f"{edit.seconds:8.0f}  {edit.crate}/{edit.name}")
    print("Processor time in seconds, wrong bodies, crate:")
    for trial in sorted(trials, key=lambda it: -it.crate.seconds):
        print(f"{trial.crate.seconds:8.0f}  {len(trial.edits):4}  {trial.crate.name}")
    print(f"{sum(it.crate.seconds for it in trials):8.0f}  {sum(len(it.edits) for it in trials):4}  in all")


def try_copies(trials):
    """Checks copies with no wrong body, one crate after the other. Answers whether each is proved."""
    verdicts = []
    for trial in trials:
        for name, is_proved, seconds in trial.unchanged():
            verdicts.append(is_proved)
            said = "proved, as it must be" if is_proved else "NOT PROVED"
            print(f"{trial.crate.name} {name}: {said} ({seconds:.0f} s)", flush=True)
    return verdicts


def main(words):
    if words[:1] in (["--help"], ["-h"]):
        print(__doc__)
        return 0
    folders, kept, proofs = [build.CRATES, build.PROVED], True, None
    if words[:1] == ["--libraries"] and len(words) > 1:
        folders, kept, words = [Path(words[1]).resolve()], False, words[2:]
        if words[:1] == ["--beside"] and len(words) > 2:
            proofs, words = Proofs(*words[1:3]), words[3:]
    of_copies, words = words[:1] == ["--copies"], words[words[:1] == ["--copies"] :]
    crates = {it.name: it for it in all_crates(folders, kept) if any((it.folder / "must-fail").glob("*.edit"))}
    unknown = [it for it in words if it.startswith("-") or it.split("/")[0] not in crates]
    if unknown:
        print(f"no crate with wrong bodies: {' '.join(unknown)}", file=sys.stderr)
        return 2
    reports, trials = Reports(), []
    for crate in crates.values():
        is_whole = not words or crate.name in words
        edits = [it for it in crate.edits() if is_whole or f"{crate.name}/{it.name}" in words]
        if edits:
            trials.append(Trial(crate, edits, is_whole, reports))
    if of_copies:
        verdicts = try_copies(trials)
        passed, failed = verdicts.count(True), verdicts.count(False)
    else:
        try_all(trials, proofs)
        passed, failed = reports.counts[REFUSED], reports.failed()
    print(f"{passed} passed, {failed} failed")
    return 1 if failed else 0


if __name__ == "__main__":
    sys.exit(main(sys.argv[1:]))
