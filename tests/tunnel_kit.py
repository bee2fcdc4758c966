"""An authority, certificates and stunnel as examples/tls makes them, beneath sites on loopback."""

import os
import random
import shutil
import signal
import socket
import ssl
import subprocess
import tempfile
from contextlib import ExitStack, suppress

from cases import Skipped
from cluster import PATIENCE, TOP, at, wait_for
from journal_kit import Journaled

TLS = os.path.join(TOP, "examples", "tls")
# How many ports stand behind the one that a place names: one for each site.
ROW = 16


def tool(name):
    """The path of a program that is installed, also where only root has it on the path."""
    path = shutil.which(name, path=os.environ.get("PATH", "") + ":/usr/sbin:/sbin")
    if path is None:
        raise Skipped(f"{name} is not here")
    return path


def run(*words, status=0):
    """Runs a command, and returns what it says."""
    done = subprocess.run(list(map(str, words)), stdout=subprocess.PIPE, stderr=subprocess.STDOUT, text=True, timeout=PATIENCE)
    if done.returncode != status:
        raise AssertionError(f"{' '.join(map(str, words))}: status {done.returncode}: {done.stdout.strip()}")
    return done.stdout


def free_row():
    """A port behind which sixteen others were free a moment ago. They are below those that the system gives to connections
    that go out, of which one could take a port before who listens there has started."""
    with open("/proc/sys/net/ipv4/ip_local_port_range") as file:
        least = int(file.read().split()[0])
    while True:
        first = random.randrange(1024, max(least, 16_384) - ROW - 1)
        with suppress(OSError), ExitStack() as stack:
            for port in range(first, first + ROW + 1):
                stack.enter_context(socket.create_server(("127.0.0.1", port)))
            return first


class Authority:
    """An authority in a folder of its own, made by the script."""

    def __init__(self):
        tool("openssl")
        self.room = tempfile.TemporaryDirectory(prefix="authority-")
        self.folder = os.path.join(self.room.name, "keys")
        self.make("new")

    def make(self, *words, status=0):
        return run(os.path.join(TLS, "certificates"), self.folder, *words, status=status)

    def path(self, name):
        return os.path.join(self.folder, name)

    def renew(self, site):
        """The certificate of a site is a new one, with a new key."""
        self.make("site", site)

    def expire(self, site):
        """The certificate of a site ended yesterday. Otherwise it is as the script makes it."""
        key, request, extensions = self.path(f"site-{site}.key"), self.path("request"), self.path("extensions")
        with open(extensions, "w") as file:
            file.write(f"subjectAltName=DNS:site-{site}\nextendedKeyUsage=serverAuth,clientAuth\n")
        run("openssl", "req", "-new", "-key", key, "-subj", f"/CN=site-{site}", "-out", request)
        run("openssl", "x509", "-req", "-in", request, "-CA", self.path("authority.pem"), "-CAkey", self.path("authority.key"),
            "-set_serial", "7", "-days", "-1", "-extfile", extensions, "-out", self.path(f"site-{site}.pem"))  # fmt: skip

    def context(self, name, is_server=False):
        """How Python speaks TLS with this certificate, or with none. It believes whatever the other end shows."""
        context = ssl.SSLContext(ssl.PROTOCOL_TLS_SERVER if is_server else ssl.PROTOCOL_TLS_CLIENT)
        context.check_hostname, context.verify_mode = False, ssl.CERT_NONE
        if name is not None:
            context.load_cert_chain(self.path(f"{name}.pem"), self.path(f"{name}.key"))
        return context


class Stunnel:
    """One stunnel, with a configuration that may be read anew."""

    def __init__(self, configuration):
        self.room = tempfile.TemporaryDirectory(prefix="stunnel-")
        self.path = os.path.join(self.room.name, "stunnel.conf")
        self.log = os.path.join(self.room.name, "log")
        with open(self.path, "w") as file:
            file.write(configuration)
        self.ports = [int(line.rpartition(":")[2]) for line in configuration.splitlines() if line.startswith("accept = ")]
        self.start()

    def start(self):
        with open(self.log, "a") as log:
            self.process = subprocess.Popen([tool("stunnel"), self.path], stdin=subprocess.DEVNULL, stdout=log, stderr=log)
        for port in self.ports:
            wait_for(f"stunnel listens on {port}", lambda: self.is_running() and is_open(port))

    def is_running(self):
        if self.process.poll() is not None:
            raise AssertionError(f"stunnel has ended: {self.said()}")
        return True

    def end(self, sign=signal.SIGTERM):
        self.process.send_signal(sign)
        self.process.wait(PATIENCE)

    def again(self, sign=signal.SIGTERM):
        self.end(sign)
        self.start()

    def read_anew(self):
        """It reads its configuration, and its certificate, as it does for SIGHUP."""
        self.process.send_signal(signal.SIGHUP)

    def said(self):
        with open(self.log) as file:
            return file.read()

    def close(self):
        if self.process.poll() is None:
            self.end(signal.SIGKILL)
        self.room.cleanup()


def is_open(port):
    with suppress(OSError), socket.create_connection(("127.0.0.1", port), 1):
        return True
    return False


class Tunneled(Journaled):
    """Sites on loopback whose lines go through stunnel: one for each site, with its own certificate."""

    def __init__(self, count, authority=None, **others):
        tool("stunnel")
        self.authority = authority or Authority()
        for site in range(1, count + 1):
            self.authority.make("site", site)
        # Where the tunnels of a site listen for those of others, and for the site itself; and where the site lets its peers in.
        self.far = {site: free_row() for site in range(1, count + 1)}
        self.inner = {site: free_row() for site in range(1, count + 1)}
        self.near = {site: free_row() for site in range(1, count + 1)}
        routes = {(s, p): at(self.near[s] + p) for s in self.near for p in self.near if s != p}
        self.tunnels = {}
        super().__init__(count, routes=routes, **others)
        try:
            for site in self.near:
                self.tunnels[site] = Stunnel(self.configuration(site))
        except BaseException:
            self.__exit__()
            raise

    def configuration(self, site):
        places = [f"{number}={at(port)}" for number, port in self.far.items()]
        return run(os.path.join(TLS, "stunnel-conf"), self.authority.folder, site, self.inner[site], self.near[site], *places)

    def listens_at(self, number):
        """A site lets each peer in at its own address, and nobody elsewhere."""
        return None

    def options(self, number):
        entrances = {peer: at(self.inner[number] + peer) for peer in self.inner if peer != number}
        return {**super().options(number), "entrances": entrances}

    def port_of(self, site, peer):
        """Where a site's tunnel hears that peer."""
        return self.far[site] + peer

    def __exit__(self, *rest):
        for tunnel in self.tunnels.values():
            tunnel.close()
        return super().__exit__(*rest)
