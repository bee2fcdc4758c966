"""What the docs say that can be checked by reading: links, paths, contracts, and tables that repeat the code."""

import re
import subprocess
from functools import cache
from pathlib import Path

import figures
from cases import case
from cluster import PROGRAM, TOP, expect

TOP = Path(TOP)
CRATES = TOP / "crates"
# A link, and a word in backticks.
LINK = re.compile(r"!?\[[^\]]*\]\(([^)\s]+)\)")
WORD = re.compile(r"`([^`\n]+)`")
FENCE = re.compile(r"^```.*?^```", re.DOTALL | re.MULTILINE)
# What begins so is a path of the repository, where it stands in backticks.
FOLDERS = ("tests/", "docs/", "examples/", "python/", "crates/", "systemd/", "prometheus/", "packaging/", "completion/")


def pages():
    listed = subprocess.run(["git", "ls-files", "*.md"], cwd=TOP, capture_output=True, text=True).stdout.split()
    found = [TOP / name for name in listed if (TOP / name).exists()]
    return found or [*TOP.glob("*.md"), *TOP.glob("docs/*.md"), *TOP.glob("*/README.md")]


@cache
def text_of(page):
    """The text of a page, without what stands between fences."""
    return FENCE.sub("", page.read_text())


@cache
def anchors(page):
    """The names by which links reach the headings of a page."""
    titles = re.findall(r"^#+ (.*)$", FENCE.sub("", page.read_text()), re.MULTILINE)
    return {re.sub(r"[^\w\- ]", "", title.lower()).replace(" ", "-") for title in titles}


def every_link_leads_somewhere():
    missing = []
    for page in pages():
        for link in LINK.findall(text_of(page)):
            if re.match(r"[a-z]+:", link):
                continue
            path, _, anchor = link.partition("#")
            # The README of a package stands beside docs/ there, as README.md does here.
            base = TOP if page.parent.name == "packaging" else page.parent
            target = (base / path).resolve() if path else page
            if not target.exists():
                missing.append(f"{page.relative_to(TOP)}: {link}")
            elif anchor and anchor not in anchors(target):
                missing.append(f"{page.relative_to(TOP)}: {link}: no such heading")
    expect(missing, [], "links")


def every_path_that_is_named_exists():
    missing = []
    for page in pages():
        for word in WORD.findall(text_of(page)):
            # A path may be followed by words of its command line, and may have names to fill in.
            path = word.split(" ")[0].split("#")[0]
            if path.startswith(FOLDERS) and not re.search(r"[A-Z]{4}|[*.]{2}|\*", path) and not (TOP / path).exists():
                missing.append(f"{page.relative_to(TOP)}: {word}")
    expect(missing, [], "paths in backticks")


@cache
def names_in(crate):
    """All names that the sources of a crate have."""
    files = [path for part in ("src", "specs") for path in (CRATES / crate / part).rglob("*") if path.suffix in (".rt", ".antt")]
    return set(re.findall(r"[A-Za-z_][A-Za-z0-9_]*", "\n".join(path.read_text() for path in files)))


def items(page):
    """The paragraphs and the list items of a page, each as one line."""
    return [" ".join(item.split()) for item in re.split(r"\n\s*\n|\n(?=\s*(?:- |\|))", text_of(page))]


@cache
def definitions_in(path):
    """The names that a source file defines, and those of them that others may use, beyond their crate."""
    text = path.read_text()
    if path.suffix == ".antt":
        found = re.findall(r"^ *(?:abbrev |unfoldable )?(pub )?(?:record |data )?([A-Za-z_][\w-]*)", text, re.MULTILINE)
        return {name for _, name in found}, {name for is_public, name in found if is_public}
    found = re.findall(r"\b(pub )?(?:const )?(?:fn|struct|enum|trait|type|const|static) ([A-Za-z_]\w*)", text)
    return {name for _, name in found}, {name for is_public, name in found if is_public}


def sources_of(crate, *parts):
    """The files of these parts of a crate."""
    return [path for part in parts for path in (CRATES / crate / part).rglob("*") if path.suffix in (".rt", ".antt")]


def fault_of_link(item, name, path):
    """Why the definition that a sentence is about is not in the file that its link leads to, as far as a script can tell."""
    crate, owner, last = path.relative_to(CRATES).parts[0], name.rpartition("::")[0], name.split("::")[-1].lstrip("&")
    known, public = definitions_in(path)
    if last not in known:
        return "is not defined there"
    if owner not in ("", "laws") and not re.search(rf"\bimpl\b.*\b{owner}\b|\btrait {owner}\b", path.read_text()):
        return f"is not one of {owner} there"

    def elsewhere(part):
        return [str(it.relative_to(CRATES)) for it in sources_of(crate, part) if last in definitions_in(it)[1]]

    if path.suffix == ".rt" and item.startswith("- **") and (others := elsewhere("specs")):
        return f"is defined in {others[0]}"
    if path.suffix == ".rt" and last not in public and "private" not in item and (others := elsewhere("src")):
        return f"is private there; others use that of {others[0]}"
    return None


def every_link_reaches_its_definition():
    """A link with a name leads to where that is defined: of a definition in words to its formula, of a call to the one that
    others use."""
    wrong, count = [], 0
    for page in pages():
        for item in items(page):
            for name, link in re.findall(r"\[`([\w:&]+)`\]\(([^)#]+\.(?:rt|antt))\)", item):
                count += 1
                if fault := fault_of_link(item, name, (page.parent / link).resolve()):
                    wrong.append(f"{page.relative_to(TOP)}: {name}: {link}: {fault}")
    expect(count > 300, True, "links with a name")
    expect(wrong, [], "links to definitions")


def every_module_is_in_the_map():
    """The table of docs/ARCHITECTURE.md that says what each file of the program's crates contains."""
    text = (TOP / "docs" / "ARCHITECTURE.md").read_text()
    table = text[text.index("\n| Crate | Files | Contents |") :].split("\n\n")[0]
    named, crate, wrong = {}, None, []
    for name, files in re.findall(r"^\| ([a-z_]*) *\| (`.*?) \| ", table, re.MULTILINE):
        crate = name or crate
        named.setdefault(crate, set()).update(word.split("/")[-1] for word in WORD.findall(files))
    for crate in filter(figures.is_product, figures.crate_names()):
        files = {part: {path.stem for path in sources_of(crate, part)} for part in ("src", "specs", "proofs")}
        must = (files["src"] | files["specs"]) - {"lib", "main", "Lib"}
        wrong += [f"{crate}: {module} is not in the map" for module in sorted(must - named.get(crate, set()))]
        here = set().union(*files.values())
        wrong += [f"{crate}: there is no {module}" for module in sorted(named.get(crate, set()) - here)]
    expect(wrong, [], "the map of docs/ARCHITECTURE.md")


def contracts_of_promises():
    """Each crate's part of docs/PROMISES.md: the crate, and the names in backticks that its rows or lines begin with."""
    crate = None
    for line in (TOP / "docs" / "PROMISES.md").read_text().splitlines():
        if (heading := re.fullmatch(r"### ([a-z_]+)", line)) and (CRATES / heading[1]).is_dir():
            crate = heading[1]
        elif line.startswith("#"):
            crate = None
        elif crate and line.startswith("- "):
            yield crate, WORD.findall(line)


def every_contract_that_is_named_exists():
    missing = []
    for crate, words in contracts_of_promises():
        for word in words:
            for name in re.findall(r"[A-Za-z_]\w+", word) if re.fullmatch(r"[\w:&]+", word) else []:
                if name not in names_in(crate) and name not in ("laws", "proofs"):
                    missing.append(f"{crate}: {word}")
    expect(missing, [], "contracts in docs/PROMISES.md")


# Names of other programs.
OTHERS = {"RssAnon"}


def every_name_that_is_named_exists():
    """Names in backticks, in all pages: with a capital and a small letter, an underscore, or `::` between their parts."""
    listed = subprocess.run(["git", "ls-files"], cwd=TOP, capture_output=True, text=True).stdout.split()
    files = [TOP / name for name in listed] or [path for path in TOP.rglob("*") if "out" not in path.parts]
    sources = [path for path in files if path.suffix not in (".md", ".png", ".svg") and path.is_file()]
    known = set(re.findall(r"\w+", "\n".join(path.read_text(errors="replace") for path in sources)))
    missing = []
    for page in pages():
        for name in WORD.findall(text_of(page)):
            if re.fullmatch(r"[A-Za-z]\w*(::\w+)*", name) and re.search(r"_|::|[A-Z].*[a-z]", name) and name not in OTHERS:
                missing += [] if known.issuperset(name.split("::")) else [f"{page.relative_to(TOP)}: {name}"]
    expect(missing, [], "names in backticks")


def every_clause_that_is_named_exists():
    """The clauses in parentheses behind the functions of docs/PROMISES.md: the linked files have clauses of these names, or
    the crate defines them."""
    page, missing, count = TOP / "docs" / "PROMISES.md", [], 0
    for item in items(page):
        head = item.split(": ")[0]
        linked = [(page.parent / link).resolve() for link in re.findall(r"\]\((\.\./crates/[^)#]+\.rt)\)", head)]
        if not (item.startswith("- ") and linked):
            continue
        clauses = {name for path in linked for name in re.findall(r"\b(?:ensures|ghost) (\w+) (?:\{|=)", path.read_text())}
        crate = linked[0].relative_to(CRATES).parts[0]
        defined = set().union(*(definitions_in(path)[0] for path in sources_of(crate, "src", "specs")))
        for name in re.findall(r"`(\w+)`", " ".join(re.findall(r"\) \(([^()\[\]]*)\)", head))):
            count += 1
            missing += [] if name in clauses | defined else [f"{name}: {head[:60]}"]
    expect(count > 200, True, "clauses that are named")
    expect(missing, [], "clauses in docs/PROMISES.md")


def every_test_that_is_named_exists():
    """The tables of docs/PROMISES.md that say which test shows what."""
    text = (TOP / "docs" / "PROMISES.md").read_text()
    rows = re.findall(r"^\|.*\|$", text[text.index("\n## Only tested\n") :].split("\n## ")[1], re.MULTILINE)
    known = "\n".join(path.read_text() for path in (TOP / "tests").glob("*.py"))
    named = [name for row in rows for name in re.findall(r"`([a-z0-9]+(?:_[a-z0-9]+)+)`", row.split("|")[2])]
    expect(len(named) > 50, True, "tests that are named")
    expect([name for name in named if not re.search(rf"def {name}\b", known)], [], "tests in docs/PROMISES.md")


def figures_are_those_of_the_repository():
    """Made by tests/figures.py: how much is tested, and the crates by their first sentences."""
    expect([str(page.relative_to(TOP)) for page in figures.stale()], [], "stale: run tests/figures.py --write")


# ---- limits


def constants():
    """The numbers that constants of the crates are, by name. The same name may stand in several files."""
    found = {}
    for path in CRATES.glob("*/src/**/*.rt"):
        for name, number in re.findall(r"\bconst ([A-Z_]+): \w+ = ([0-9_]+);", path.read_text()):
            found.setdefault(name, set()).add(int(number))
    return found


def limits_are_those_of_the_code():
    """The table of limits in docs/PROTOCOL.md names the constants that have them."""
    text = (TOP / "docs" / "PROTOCOL.md").read_text()
    table = text[text.index("\n## Limits\n") :].split("\n## ")[1]
    known, checked = constants(), 0
    for row in re.findall(r"^\| .* \|$", table, re.MULTILINE)[1:]:
        what, limit, names = (cell.strip() for cell in row.strip("|").split("|"))
        numbers = {int(text.replace(",", "")) for text in re.findall(r"[0-9][0-9,]*", limit)}
        numbers |= {10 ** int(power) for power in re.findall(r"10\^([0-9]+)", limit)}
        for name in WORD.findall(names):
            checked += 1
            if not known.get(name, set()) & numbers:
                raise AssertionError(f"{what}: {limit}; but {name} is {sorted(known.get(name, []))}")
    expect(checked > 15, True, "constants that were compared")


# ---- the command line


def options_are_the_same_everywhere():
    """Help text, man page, completion and docs/PROTOCOL.md have the same options."""
    texts = [subprocess.run([PROGRAM, word, "--help"], capture_output=True, text=True).stdout for word in ("run", "check-journal")]
    options = set(re.findall(r"^ +(?:-h, )?(--[a-z]+)", "".join(texts), re.MULTILINE))
    expect({"--id", "--sites", "--listen", "--from", "--http", "--host", "--tick", "--silent", "--keys", "--once", "--journal", "--system", "--log", "--json", "--help"}, options, "the help text")
    for path, pattern in [
        ("docs/rights-site.1", r"\\-\\-{}\b"), ("completion/rights-site.bash", r"--{}\b"), ("docs/PROTOCOL.md", r"--{}\b"),
    ]:  # fmt: skip
        text = (TOP / path).read_text()
        missing = [option for option in options if not re.search(pattern.format(option[2:]), text)]
        expect(missing, [], f"options that {path} lacks")


def the_man_page_names_each_command_and_refusal():
    manual = (TOP / "docs" / "rights-site.1").read_text()
    protocol = (TOP / "docs" / "PROTOCOL.md").read_text()
    names = re.findall(r"\b([A-Z][a-z]+[A-Z][A-Za-z]+|Closed|Short|Forged)\b", protocol[protocol.index("A refusal is `error NAME`") :].split("`report` prints")[0])
    expect([name for name in set(names) if name not in manual], [], "refusals that the man page lacks")
    commands = ("issue", "give", "spend", "take", "outcome", "cancel", "tick", "status", "close", "key", "quit")
    expect([name for name in commands if not re.search(rf"^\.B[IR]* {name}\b", manual, re.MULTILINE)], [], "commands")


CASES = [
    case("Documents", [
        every_link_leads_somewhere, every_link_reaches_its_definition, every_module_is_in_the_map,
        every_path_that_is_named_exists, every_name_that_is_named_exists, every_contract_that_is_named_exists,
        every_clause_that_is_named_exists, every_test_that_is_named_exists,
        figures_are_those_of_the_repository, limits_are_those_of_the_code, options_are_the_same_everywhere,
        the_man_page_names_each_command_and_refusal,
    ]),
]  # fmt: skip
