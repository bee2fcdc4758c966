"""A PostgreSQL server, which `./bench journal` measures beside sites: each client's transactions take from a stock, which
is a row of a table."""

import glob
import os
import re
import shutil
import signal
import subprocess
import tempfile
import time
from contextlib import contextmanager

from cluster import free_ports
from redis_server import STOCK

# As many rows as there are clients, so that each may have one of its own.
ROWS = 50
# It answers to nobody but this machine, and does nothing by itself within a measurement. All else is as it comes: among it
# fsync and synchronous_commit, which are on.
SETTINGS = {
    "listen_addresses": "127.0.0.1", "unix_socket_directories": "", "autovacuum": "off", "checkpoint_timeout": "1h",
    "max_wal_size": "4GB",
}  # fmt: skip


def programs():
    """The folder with the programs of a server, which Debian does not put on the path. None if there is none."""
    found = shutil.which("initdb")
    folders = [os.path.dirname(found)] if found else sorted(glob.glob("/usr/lib/postgresql/*/bin"))
    return folders[-1] if folders else None


def not_root():
    """A server refuses to run as root: the user that it runs as then."""
    return {"user": "postgres", "group": "postgres", "extra_groups": []} if os.getuid() == 0 else {}


def lacks(folder):
    """Why no server can be measured in this folder. None if one can."""
    if programs() is None or shutil.which("pgbench") is None or shutil.which("psql") is None:
        return "PostgreSQL is not here"
    if subprocess.run(["test", "-x", folder], **not_root()).returncode != 0:
        return f"the user postgres may not enter {folder}"
    return None


@contextmanager
def postgres():
    """A server with a stock: its port."""
    folder, (port,) = programs(), free_ports(1)
    with tempfile.TemporaryDirectory() as room:
        data = os.path.join(room, "data")
        if not_root():
            shutil.chown(room, "postgres", "postgres")
        words = ["-D", data, "-U", "stock", "-A", "trust", "-E", "UTF8", "--locale", "C", "--no-instructions"]
        subprocess.run([f"{folder}/initdb", *words], check=True, stdout=subprocess.DEVNULL, cwd=room, **not_root())
        settings = [word for name, value in SETTINGS.items() for word in ("-c", f"{name}={value}")]
        with open(os.path.join(room, "log"), "w") as log:
            server = subprocess.Popen(
                [f"{folder}/postgres", "-D", data, "-p", str(port), *settings], stdout=log, stderr=log, cwd=room, **not_root()
            )
        try:
            fill(port)
            yield port
        finally:
            # Ends its connections, and then itself.
            server.send_signal(signal.SIGINT)
            server.wait(60)


def at_server(port):
    return ["-h", "127.0.0.1", "-p", str(port), "-U", "stock"]


def fill(port):
    """Makes the stock, once the server answers."""
    table = "create table stock (id int primary key, n bigint not null) with (fillfactor = 10)"
    rows = f"insert into stock select id, {STOCK} from generate_series(0, {ROWS - 1}) id"
    words = ["psql", *at_server(port), "-q", "-c", table, "-c", rows, "postgres"]
    until = time.monotonic() + 30
    while subprocess.run(words, stderr=subprocess.DEVNULL).returncode != 0:
        if time.monotonic() > until:
            raise SystemExit("postgres: the server does not answer")
        time.sleep(0.1)


def taking(row, count):
    """The script of a transaction that takes one so many times. `row` is its number, or the variable that has it."""
    take = f"update stock set n = n - 1 where id = {row} and n > 0;\n"
    return take if count == 1 else "\\startpipeline\nbegin;\n" + take * count + "commit;\n\\endpipeline\n"


def postgres_rate(port, clients, count, seconds, row="0"):
    """What is taken in a second, in transactions of so many."""
    with tempfile.NamedTemporaryFile("w", suffix=".sql") as script:
        script.write(taking(row, count))
        script.flush()
        words = ["pgbench", *at_server(port), "-n", "-M", "prepared", "-f", script.name, "-c", str(clients)]
        words += ["-j", str(min(2, clients)), "-T", str(max(1, round(seconds))), "postgres"]
        done = subprocess.run(words, capture_output=True, text=True, timeout=60 + seconds)
    rate = re.search(r"tps = ([0-9.]+) \(without", done.stdout)
    if done.returncode != 0 or rate is None or "number of failed transactions: 0 " not in done.stdout:
        raise SystemExit(f"pgbench: {done.stdout}{done.stderr}")
    return float(rate[1]) * count
