"""What ./package makes: the same bytes each time, and what is packed runs in a folder of its own."""

import atexit
import filecmp
import glob
import gzip
import os
import re
import shutil
import subprocess
import sys
import tempfile
from pathlib import Path

import documents
from cases import Skipped, case
from cluster import PROGRAM, TOP, expect
from outputs import output_fault

EXAMPLE = os.path.join("examples", "two-sites-one-batch")
ROOM = tempfile.mkdtemp()
atexit.register(shutil.rmtree, ROOM, ignore_errors=True)
TARBALL, DEBIAN = os.path.join(ROOM, "tarball"), os.path.join(ROOM, "debian")
SHARE = os.path.join(DEBIAN, "usr", "share", "doc", "rights-site")


def run(*words, **others):
    """Runs a command, and returns what it says. It fails where that does."""
    done = subprocess.run(words, stdout=subprocess.PIPE, stderr=subprocess.STDOUT, text=True, timeout=120, **others)
    if done.returncode != 0:
        raise AssertionError(f"{words[0]}: status {done.returncode}: {done.stdout.strip()}")
    return done.stdout


def packed(kind, turn="first"):
    """The package that ends so."""
    (found,) = glob.glob(os.path.join(ROOM, turn, f"*{kind}"))
    return found


def pack():
    """Packs twice, and unpacks both packages."""
    for turn in ("first", "second"):
        run(os.path.join(TOP, "package"), "--program", PROGRAM, "--to", os.path.join(ROOM, turn))
    os.mkdir(TARBALL)
    run("tar", "-xzf", packed(".tar.gz"), "-C", TARBALL)
    run("dpkg-deb", "-x", packed(".deb"), DEBIAN)


def unpacked():
    """The folder that the tarball has."""
    (found,) = os.listdir(TARBALL)
    return os.path.join(TARBALL, found)


def the_bytes_are_the_same_each_time():
    for kind in (".tar.gz", ".deb", "SHA256SUMS"):
        expect(filecmp.cmp(packed(kind), packed(kind, "second"), shallow=False), True, kind)


def sums_are_right():
    run("sha256sum", "-c", "--quiet", "SHA256SUMS", cwd=unpacked())
    run("sha256sum", "-c", "--quiet", os.path.join(SHARE, "SHA256SUMS"), cwd=DEBIAN)


def programs_answer_an_example():
    for program, folder in ((os.path.join(unpacked(), "rights-site"), unpacked()), (os.path.join(DEBIAN, "usr", "bin", "rights-site"), SHARE)):
        path = os.path.join(folder, EXAMPLE)
        with open(f"{path}.script", "rb") as script, open(f"{path}.expected", "rb") as expected:
            if fault := output_fault([program, "sim"], script.read(), expected.read()):
                raise AssertionError(f"{program}: {fault}")


def the_ticket_sale_runs():
    """From the unpacked tarball, by the program and the clients that are in it."""
    words = [os.path.join(unpacked(), "examples", "ticket-sale", "sell.py"), "--seconds", "1.5", "--seed", "4"]
    if "all sums are right" not in run(sys.executable, *words):
        raise AssertionError("the sums of the sale are not right")


def the_version_is_that_of_the_program():
    version = run(PROGRAM, "--version").split()[1]
    expect(os.path.basename(unpacked()), f"rights-site-{version}")
    with open(os.path.join(unpacked(), "VERSION")) as file:
        expect(file.read(), f"{version}\n")
    expect(run("dpkg-deb", "-f", packed(".deb"), "Version"), f"{version}\n")


def documents_link_to_what_is_packed():
    """Each page that is packed links to nothing but what lies beside it: in a package there is no repository."""
    for folder in map(Path, (unpacked(), SHARE)):
        pages = sorted(folder.rglob("*.md"))
        expect(len(pages) > 10, True, f"pages of {folder}")
        missing = []
        for page in pages:
            for link, anchor in re.findall(r"\]\(([^)#:]*)(?:#([^)]*))?\)", documents.text_of(page)):
                target = page.parent / link if link else page
                if not target.exists() or (anchor and anchor not in documents.anchors(target)):
                    missing.append(f"{page.relative_to(folder)}: {link}#{anchor}")
        expect(missing, [], f"links in {folder}")


def the_debian_package_is_in_order():
    """What lintian calls errors: no copyright, no changelog in Debian's form, names for a debugger."""
    version = run(PROGRAM, "--version").split()[1]
    with gzip.open(os.path.join(SHARE, "changelog.gz"), "rt") as file:
        changelog = file.read()
    form = rf"rights-site \({re.escape(version)}\) unstable; urgency=medium\n\n  \* .*\n\n -- .* <.*>  \w{{3}}, \d\d \w{{3}} \d{{4}} \d\d:\d\d:\d\d \+0000\n"
    expect(bool(re.fullmatch(form, changelog)), True, f"the changelog: {changelog}")
    with open(os.path.join(SHARE, "copyright")) as file:
        expect([line.split(":")[0] for line in file if line[:1].isalpha()], ["Format", "Upstream-Name", "Upstream-Contact", "Files", "Copyright", "License"])
    for program in (os.path.join(DEBIAN, "usr", "bin", "rights-site"), os.path.join(unpacked(), "rights-site")):
        with open(program, "rb") as file:
            expect(b".symtab" in file.read(), False, f"{program} has names for a debugger")


def lintian_finds_no_error():
    if shutil.which("lintian") is None:
        raise Skipped("lintian is not here")
    run("lintian", "--allow-root", "--fail-on", "error", packed(".deb"))


def the_unit_is_in_order():
    """By systemd's tool, with the program at the place where it was unpacked."""
    if shutil.which("systemd-analyze") is None:
        raise Skipped("systemd-analyze is not here")
    with open(os.path.join(DEBIAN, "usr/lib/systemd/system/rights-site@.service")) as file:
        unit = file.read().replace("=/usr/lib/rights-site/", f"={DEBIAN}/usr/lib/rights-site/")
    path = os.path.join(ROOM, "rights-site@1.service")
    with open(path, "w") as file:
        file.write(unit)
    expect(run("systemd-analyze", "verify", "--man=no", path), "")


def alert_rules_are_in_order():
    if shutil.which("promtool") is None:
        raise Skipped("promtool is not here")
    folder = os.path.join(SHARE, "prometheus")
    run("promtool", "check", "config", "scrape.yml", cwd=folder)
    run("promtool", "test", "rules", "rights-site.tests.yml", cwd=folder)


CASES = [
    case("Packages", [
        the_bytes_are_the_same_each_time, sums_are_right, programs_answer_an_example, the_ticket_sale_runs,
        the_version_is_that_of_the_program,
        documents_link_to_what_is_packed, the_debian_package_is_in_order, lintian_finds_no_error, the_unit_is_in_order, alert_rules_are_in_order,
    ], pack),
]  # fmt: skip
