#!/usr/bin/env python3
"""Makes the parts of docs/ that repeat what the repository has: the crates by their first sentences, and how much is tested.

    tests/figures.py --write     writes them
    tests/figures.py --check     ends with status 1 where they are not as written
"""

import os
import re
import sys
from pathlib import Path

HERE = os.path.dirname(os.path.abspath(__file__))
sys.path.insert(0, HERE)
TOP = Path(HERE).parent
CRATES = TOP / "crates"

PART = re.compile(r"(<!-- made by tests/figures\.py: ([a-z]+) -->\n)(.*?)(<!-- end -->)", re.DOTALL)


def crate_names():
    """The crates, from the lowest one up."""
    lines = (TOP / "crates.txt").read_text().splitlines()
    return [line.split(":")[0] for line in lines if not line.startswith("#")]


def is_product(name):
    return not name.endswith("_tests") and name not in ("bench", "test_kit", "refusing_allocator")


def first_words(name):
    """What the first sentence of a crate's own page says; with the next one where that is short."""
    (root,) = [path for path in (CRATES / name / "src").glob("*.rt") if path.name in ("lib.rt", "main.rt")]
    words = []
    for line in root.read_text().splitlines():
        if not line.startswith("//!") or line == "//!":
            break
        words.append(line[3:].strip())
    # A sentence ends at a point before a space, or at the end.
    sentences = re.findall(r".+?\.(?= |$)", " ".join(words))
    return "".join(sentences[: 1 if len(sentences[0]) > 40 else 2])


def crates():
    rows = [f"| [{name}](../crates/{name}) | {first_words(name)} |\n" for name in reversed(crate_names())]
    return "| Crate | |\n|---|---|\n" + "".join(rows)


def sources(part, *suffixes):
    """The files of a part of all crates."""
    return [path for path in sorted(CRATES.glob(f"*/{part}/**/*")) if path.suffix in suffixes]


def count_lines(paths):
    return sum(len(path.read_bytes().splitlines()) for path in paths)


def count_matches(pattern, paths):
    return sum(len(re.findall(pattern, path.read_text(), re.MULTILINE)) for path in paths)


def count_suite():
    import behind_nginx
    import copy_checks
    import documents
    import ends
    import journal_refusals
    import journals
    import kills
    import lane_orders
    import lockstep
    import loopback
    import many_stocks
    import over_http
    import packages
    import power_cuts
    import program
    import repository
    import restarts
    import schedules
    import scripts
    import shops
    import silence
    import spares
    import timing
    import told_checks
    import tunnels
    import upgrades

    modules = (
        repository, documents, copy_checks, lane_orders, program, journals, journal_refusals, told_checks, scripts, loopback,
        over_http, restarts, power_cuts, kills, upgrades, spares, ends, silence, timing, schedules, lockstep, shops,
        tunnels, behind_nginx, many_stocks, packages,
    )  # fmt: skip
    return sum(len(each.order) for module in modules for each in module.CASES)


def figures():
    from bug_kit import all_bugs
    from site_checks import all_checks, checks_of_restarts

    names = crate_names()
    product = [path for path in sources("src", ".rt") if is_product(path.relative_to(CRATES).parts[0])]
    rows = [
        ("crates of the program", sum(map(is_product, names))),
        ("crates for tests and benchmarks", len(names) - sum(map(is_product, names))),
        ("lines of code of the program, with their contracts, in thousands", count_lines(product) // 1000),
        ("lines of definitions (`specs/`), in thousands", count_lines(sources("specs", ".antt")) // 1000),
        ("lines of proofs (`proofs/`), in thousands", count_lines(sources("proofs", ".antt")) // 1000),
        ("clauses of contracts (`ensures`) in the program, in hundreds", count_matches(r"\bensures\b", product) // 100),
        ("wrong bodies that the prover must refuse", len(sources("must-fail", ".edit"))),
        ("tests in the crates", count_matches(r"^\s*#\[test\]", sources("src", ".rt"))),
        ("tests of the program, in Python (`tests/suite.py`)", count_suite()),
        ("named checks of `./conformance run`", sum(1 for _ in all_checks())),
        ("its checks of restarts, with `--journal`", sum(1 for _ in checks_of_restarts())),
        ("planted bugs that these checks must find", len(all_bugs())),
    ]
    return "| | |\n|---|---|\n" + "".join(f"| {what} | {value:,} |\n" for what, value in rows)


PARTS = {"crates": crates, "figures": figures}


def made(text):
    return PART.sub(lambda it: it[1] + PARTS[it[2]]() + it[4], text)


def stale():
    """The pages whose parts are not as they would be made, with what they would be."""
    pages = {page: page.read_text() for page in sorted((TOP / "docs").glob("*.md"))}
    return {page: new for page, text in pages.items() if (new := made(text)) != text}


def main(words):
    found = stale()
    if words == ["--write"]:
        for page, text in found.items():
            page.write_text(text)
            print(page.relative_to(TOP))
        return 0
    if words != ["--check"]:
        print(__doc__.strip(), file=sys.stderr)
        return 2
    for page in found:
        print(f"{page.relative_to(TOP)}: its figures are not those of the repository: run tests/figures.py --write")
    return 1 if found else 0


if __name__ == "__main__":
    sys.exit(main(sys.argv[1:]))
