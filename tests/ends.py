"""How a site ends, and how it starts, where its network or its system refuses something. Each site is a process on
loopback; nothing here depends on how fast the machine is."""

import os
import re
import shutil
import signal
import socket
import subprocess
import tempfile
import threading
import time
from contextlib import ExitStack, suppress

from cases import Skipped, case
from cluster import PATIENCE, TOP, Cluster, at, expect, free_ports, sees, wait_for
from web_driver import WebCluster, alone

# Where no socket can be opened any more, the site has these: its listeners, and its standard streams.
LEAST_HANDLES = 5


def words_of(own, web, *options, peer="127.0.0.1:1"):
    return ["run", "--id", "1", "--sites", "2", "--listen", at(own), "--http", at(web), *options, f"2={peer}"]


class Started:
    """A site that is started by a command of the shell, with its standard error."""

    def __init__(self, before, words):
        """`before` is a line for the shell; then the program is started in its place."""
        script = f'{before}\nexec "$0" "$@"'
        self.process = subprocess.Popen(["sh", "-c", script, Cluster.program, *words], stdin=subprocess.PIPE,
            stdout=subprocess.DEVNULL, stderr=subprocess.PIPE, text=True)  # fmt: skip
        self.lines = []
        self.reader = threading.Thread(target=self.read, daemon=True)
        self.reader.start()

    def read(self):
        self.lines.extend(self.process.stderr)

    def says(self, text):
        wait_for(f"it says {text}", lambda: any(text in line for line in self.lines))

    def ends(self):
        """Ends its input. It ends, with a report."""
        self.process.stdin.close()
        try:
            expect(self.process.wait(PATIENCE), 0, self.lines)
        finally:
            self.process.kill()
        self.reader.join(PATIENCE)
        expect([line[:19] for line in self.lines][-1:], ["rights-site: ended:"], self.lines)

    def __enter__(self):
        return self

    def __exit__(self, *_):
        self.process.kill()
        self.process.wait(PATIENCE)
        return False


def a_limit_of_handles():
    """However few handles it may have, a site ends at the end of its input, with a report, and has said what the limit
    was, once."""
    for limit in (LEAST_HANDLES, 6, 7, 8, 12, 20):
        own, web = free_ports(2)
        with Started(f"ulimit -n {limit}", words_of(own, web, "--log", "--tick", "20")) as site, ExitStack() as stack:
            site.says("listens on")
            for port in (own, web) * limit:
                stack.enter_context(socket.create_connection(("127.0.0.1", port)))
            wait_for("it says so", lambda: any("open files" in line or "handle" in line for line in site.lines))
            site.ends()
            for text in ("could not be accepted", "a connection was closed", "further handle"):
                said = [line for line in site.lines if text in line]
                # Those for peers, and those for clients.
                expect(len(said) <= 2, True, said)
            expect([line for line in site.lines if "63 clients" in line], [], "clients that are not there")


def tool(name):
    path = shutil.which(name)
    if path is None:
        raise Skipped(f"{name} is not here")
    return path


def ends_where(hindrance):
    """A site has a network of its own, in which this command is carried out once the site has started. Then its input
    ends."""
    ip, inside = tool("ip"), [tool("unshare"), "--net", "--map-root-user"]
    if subprocess.run([*inside, ip, "link", "set", "lo", "up"], capture_output=True).returncode != 0:
        raise Skipped("this user may have no network of its own")
    words = words_of(7001, 7002, "--log", "--tick", "20")
    script = f"""
        {ip} link set lo up
        mkfifo "$ROOM/input"
        "$0" "$@" < "$ROOM/input" 2> "$ROOM/said" &
        exec 3> "$ROOM/input"
        until grep -q "listens on" "$ROOM/said"; do sleep 0.01; done
        {hindrance} || touch "$ROOM/not-hindered"
        exec 3>&-
        wait $!"""
    with tempfile.TemporaryDirectory() as room:
        done = subprocess.run([*inside, "sh", "-c", script, Cluster.program, *words], env={**os.environ, "ROOM": room},
            timeout=PATIENCE, capture_output=True)  # fmt: skip
        with open(os.path.join(room, "said")) as file:
            said = file.read()
        if os.path.exists(os.path.join(room, "not-hindered")):
            raise Skipped(f"{hindrance.split()[0]} fails here: {done.stderr.decode()[:80]}")
    expect(done.returncode, 0, (said, done.stderr))
    expect("rights-site: ended: issued 0 " in said, True, said)


def a_network_that_is_gone():
    """Nothing can be connected to any more, also not the site's own addresses."""
    ends_where(f"{tool('ip')} link set lo down")


def a_firewall_before_its_own_ports():
    """Whoever connects to them gets no answer, but for one host: also the site itself."""
    ends_where(f"{tool('iptables')} -A INPUT -p tcp --dport 7001:7002 ! -s 10.0.0.2 -j DROP")


def a_start_that_fails_uses_up_no_number():
    """The file of `--once` is created once all addresses are listened on."""
    own, web = free_ports(2)
    with tempfile.TemporaryDirectory() as room, socket.create_server(("127.0.0.1", 0)) as taken:
        path, busy = os.path.join(room, "started"), taken.getsockname()[1]
        for first, second in ((busy, web), (own, busy), (own, own)):
            words = [Cluster.program, *words_of(first, second, "--once", path)]
            done = subprocess.run(words, stdin=subprocess.DEVNULL, capture_output=True, timeout=PATIENCE)
            expect((done.returncode, done.stderr), (1, b"rights-site: cannot listen\n"))
            expect(os.path.exists(path), False, "the file")
        with Started("", words_of(own, web, "--once", path, "--log")) as site:
            site.says("listens on")
            expect(os.path.isfile(path), True, "the file")
            # A second one with the same words fails at its first address, and one with others by the file.
            done = subprocess.run([Cluster.program, *words_of(own, web, "--once", path)], stdin=subprocess.DEVNULL,
                capture_output=True, timeout=PATIENCE)  # fmt: skip
            expect((done.returncode, done.stderr), (1, b"rights-site: cannot listen\n"))
            done = subprocess.run([Cluster.program, *words_of(*free_ports(2), "--once", path)], stdin=subprocess.DEVNULL,
                capture_output=True, timeout=PATIENCE)  # fmt: skip
            expect((done.returncode, done.stderr), (1, b"rights-site: was started before\n"))
            site.ends()


def what_was_done_last_is_sent():
    """A site that ticks by itself, but rarely, ticks once more at its end."""
    with WebCluster(2, tick=60_000) as sites:
        expect(sites.command("issue 9", "give 2 5"), (200, ["number 1", "number 2"]))
        expect(sites.end(1).given, 5)
        wait_for("site 2 holds 5", sees(sites[2], None, held=5, received=5))
    # A site that is told when to tick does not.
    with WebCluster(2) as sites:
        expect(sites.command("issue 9", "give 2 5"), (200, ["number 1", "number 2"]))
        expect(sites.end(1).given, 5)
        expect(sites[2].status()["held"], 0)


class Closing:
    """The near end of a tunnel whose far end is dead: it takes every connection, and closes it at once, or after a while."""

    def __init__(self, seconds=0):
        self.seconds = seconds
        self.server = socket.create_server(("127.0.0.1", 0))
        self.address = at(self.server.getsockname()[1])
        self.taken = 0
        threading.Thread(target=self.take, daemon=True).start()

    def take(self):
        while True:
            try:
                stream, _ = self.server.accept()
            except OSError:
                return
            self.taken += 1
            time.sleep(self.seconds)
            stream.close()

    def __enter__(self):
        return self

    def __exit__(self, *_):
        self.server.close()
        return False


def a_tunnel_to_nowhere():
    """Its log says once that lines go there, and once that they do not."""
    with Closing() as tunnel, alone(log=True, tick=20, routes={(1, 2): tunnel.address}) as sites:
        wait_for("it connected again and again", lambda: tunnel.taken >= 30)
        said = [re.sub(".*peer 2: ", "", line) for line in sites[1].said().splitlines() if "sends to it" in line]
        expect(said, ["sends to it", "sends to it no more: a write failed"])
        expect(sites.metrics()["rights_peer_sending", "2"], 0)


def a_peer_that_comes_back():
    """Once a connection lasts, its log says that lines go there again."""
    with Closing() as tunnel, alone(log=True, tick=20, routes={(1, 2): tunnel.address}) as sites:
        wait_for("it connected again and again", lambda: tunnel.taken >= 3)
        tunnel.seconds = 10 * PATIENCE
        wait_for("it sends again", lambda: sites.metrics()["rights_peer_sending", "2"] == 1)
        said = [line for line in sites[1].said().splitlines() if line.endswith("peer 2: sends to it")]
        expect(len(said), 2, sites[1].said())


def a_terminal_that_is_closed():
    """SIGHUP to a site that runs as a service ends it as SIGTERM does."""
    wrapper = os.path.join(TOP, "systemd", "rights-site-run")
    own, web = free_ports(2)
    with tempfile.TemporaryDirectory() as room:
        stay = {**os.environ, "RIGHTS_SITE": Cluster.program, "RIGHTS_STATE": room, "RIGHTS_SITES": "2", "RIGHTS_LISTEN": at(own),
                "RIGHTS_HTTP": at(web), "RIGHTS_TICK": "60000", "RIGHTS_PEERS": "2=127.0.0.1:1"}
        # Whoever runs the tests may ignore the signal, as `nohup` does, and a shell cannot undo that.
        process = subprocess.Popen(
            [wrapper, "1"], env=stay, stderr=subprocess.PIPE, stdin=subprocess.DEVNULL, start_new_session=True,
            preexec_fn=lambda: signal.signal(signal.SIGHUP, signal.SIG_DFL),
        )
        try:
            wait_for("the site listens", lambda: os.path.exists(os.path.join(room, "site-1.journal")))
            wait_for("its input is held open", lambda: b"tail" in names_of_group(process.pid))
            os.killpg(process.pid, signal.SIGHUP)
            said = process.communicate(timeout=PATIENCE)[1].decode()
            expect(process.returncode, 0, said)
            expect("rights-site: ended: issued 0 " in said, True, said)
        finally:
            with suppress(ProcessLookupError):
                os.killpg(process.pid, signal.SIGKILL)


def names_of_group(group):
    """The names of the processes of a group."""
    names = []
    for number in filter(str.isdigit, os.listdir("/proc")):
        with suppress(OSError), open(f"/proc/{number}/stat", "rb") as stat:
            before, _, after = stat.read().rpartition(b")")
            if int(after.split()[2]) == group:
                names.append(before.partition(b"(")[2])
    return names


CASES = [case("Ends", [
    a_limit_of_handles, a_network_that_is_gone, a_firewall_before_its_own_ports, a_start_that_fails_uses_up_no_number,
    what_was_done_last_is_sent, a_tunnel_to_nowhere, a_peer_that_comes_back, a_terminal_that_is_closed,
])]  # fmt: skip
