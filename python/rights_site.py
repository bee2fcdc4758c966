"""Starts a site as a process and talks to it: one line in, one line out.

    with Site(1, sites=2, listen="127.0.0.1:7001", peers={2: "127.0.0.1:7002"}, once="site-1.started") as site:
        site.ask("issue 100")           # 'number 1'
        site.ask("spend 3 10")          # 'spent 2', or 'queued 1' if too little is held
        site.status()["held"]           # 97
        site.ask("tick 11")             # send what is due, serve what waits
        site.ask("take 1", key="k-1")   # 'spent 3', and the same again if it is asked again

With `journal`, the path of a file, a site that has ended goes on where it was, if it is started again with the same
values. A command under a key whose reply did not come may then be asked again: if it wrote an entry before, it gets the
reply of that time, and is not carried out again. Without a journal the log of a site is in memory, so each number is used
only once in a system of sites: a site that has ended, or whose machine was restarted, must not be started again with its
number, or it would sell its rights a second time. `once` names a file that prevents that.

Threads may share a site, processes cannot: for them, start the site with `http` and use `rights_http.py`. Only Python's
standard library is used, on systems that have `poll`.
"""

from __future__ import annotations

import json
import os
import re
import select
import shutil
import subprocess
import tempfile
import threading
import time
from collections.abc import Iterable, Mapping, Sequence
from contextlib import suppress
from types import MappingProxyType
from typing import IO, Any

# The program of the repository that this file is in, if it is in one.
BESIDE = os.path.normpath(os.path.join(os.path.dirname(os.path.abspath(__file__)), "..", "rights-site"))
NAME = "rights-site"
PROGRAM = BESIDE if os.path.isfile(BESIDE) else shutil.which(NAME) or NAME

# Commands that are sent before their replies are read.
AT_ONCE = 500
# Bytes that a pipe takes without blocking, if it takes any.
PIECE = select.PIPE_BUF
KEY = re.compile(r"[!-~]{1,64}")


class SiteEnded(Exception):
    """The site's process has ended, or did not start. The text has the last line of its standard error."""


class SiteSilent(SiteEnded):
    """The site did not reply in time. It is unknown whether it carried out the commands that were sent."""


def find_program() -> str:
    """The path of the program: the one in the repository of this file, or else the first one on the path."""
    if os.path.isfile(BESIDE):
        return BESIDE
    found = shutil.which(NAME)
    if found is None:
        raise FileNotFoundError(
            f"program not found: neither {BESIDE} nor {NAME} on the path ({os.environ.get('PATH', '')}). "
            "Install it, or pass its path as program="
        )
    return found


class Site:
    """One running site. Threads may share it: each call gets the replies to its own commands."""

    def __init__(
        self,
        number: int,
        sites: int,
        listen: str | None,
        peers: Mapping[int, str],
        program: str | Sequence[str] | None = None,
        *,
        entrances: Mapping[int, str] = MappingProxyType({}),
        http: str | None = None,
        hosts: Sequence[str] = (),
        tick: int | None = None,
        silent: int | None = None,
        keys: int | None = None,
        once: str | None = None,
        journal: str | None = None,
        system: str | None = None,
        log: bool = False,
        errors: IO[Any] | int | None = None,
        timeout: float = 30.0,
    ) -> None:
        """Starts the site, and returns once it listens. If it cannot, raises SiteEnded with the reason.

        `peers` has the address of each other site by its number, and `entrances` the address of this one at which alone a
        peer is let in, by the peer's number (`--from`); `listen` may be None if each peer has one. `program` is the path of
        the program, or a list of words that replaces it and its word `run`. `http`, `tick` and `silent` (milliseconds),
        `keys`, `once`, `journal`, `system` and `log` are the options of these names, and `hosts` the names of `--host`. The
        standard error of the site goes to `errors`, an open file; without it, it is kept, and `said` reads it. `timeout` is
        how many seconds a reply may take: no command waits for another site, but a tick for 50 milliseconds at most, and
        with a journal for the disk, so a longer wait means that the process is stuck."""
        words = list(program) if isinstance(program, (list, tuple)) else [program or find_program(), "run"]
        words += ["--id", str(number), "--sites", str(sites)]
        words += [] if listen is None else ["--listen", listen]
        for peer, address in entrances.items():
            words += ["--from", f"{peer}={address}"]
        options = {
            "--http": http, "--tick": tick, "--silent": silent, "--keys": keys, "--once": once, "--journal": journal,
            "--system": system,
        }  # fmt: skip
        for option, value in options.items():
            words += [] if value is None else [option, str(value)]
        for name in hosts:
            words += ["--host", name]
        words += ["--log"] if log else []
        words += [f"{peer}={address}" for peer, address in peers.items()]
        self.number = number
        self.timeout = timeout
        self._lock = threading.Lock()
        self._unread = b""
        self._is_broken = False
        self._errors = tempfile.TemporaryFile() if errors is None else None
        self.process = subprocess.Popen(
            words, stdin=subprocess.PIPE, stdout=subprocess.PIPE, stderr=errors if self._errors is None else self._errors,
            bufsize=0,
        )
        assert self.process.stdin is not None and self.process.stdout is not None
        self._input, self._output = self.process.stdin, self.process.stdout
        self._poll = select.poll()
        try:
            # It listens before it answers.
            self.ask("status")
        except BaseException:
            self.kill()
            raise

    # ---- commands

    def ask(self, command: str, *, key: str | None = None) -> str:
        """Sends one command, and returns its reply without the line feed: `error NAME` if it is refused. With a key, of 1
        to 64 bytes of visible ASCII, a command that was carried out under it before is not carried out again, and gets the
        same reply; such are `issue`, `give`, `spend`, `take` and `close`."""
        return self.ask_all([command if key is None else under_key(key, command)])[0]

    def ask_all(self, commands: Iterable[str]) -> list[str]:
        """Sends commands together, and returns their replies in order. No other thread's command comes between."""
        lines = [line_of(command) for command in commands]
        with self._lock:
            replies: list[str] = []
            for first in range(0, len(lines), AT_ONCE):
                part = lines[first : first + AT_ONCE]
                replies += self._exchange(b"".join(part), len(part))
            return replies

    def status(self) -> dict[str, Any]:
        """The status object."""
        found: dict[str, Any] = json.loads(self.ask("status"))
        return found

    def queue(self) -> dict[str, Any]:
        """The spends that wait, in their order, and how many outcomes nobody has read."""
        found: dict[str, Any] = json.loads(self.ask("queue"))
        return found

    # ---- the end

    def end(self, timeout: float = 30.0) -> int:
        """Ends the site by `quit`, waits for it, and returns its exit status. Without a journal what it holds is lost, so
        close it first, and tick until its peers have applied that."""
        with self._lock:
            with suppress(BrokenPipeError, ValueError):
                self._input.write(b"quit\n")
                self._input.close()
        return self.process.wait(timeout)

    def kill(self) -> None:
        """Kills the process at once, as a machine failure would."""
        self.process.kill()
        self.process.wait()

    def said(self) -> str:
        """What the site has written to its standard error, if that is kept."""
        if self._errors is None:
            return ""
        size = os.fstat(self._errors.fileno()).st_size
        return os.pread(self._errors.fileno(), size, 0).decode(errors="replace")

    def __enter__(self) -> Site:
        return self

    def __exit__(self, *_: object) -> None:
        try:
            self.end()
        except subprocess.TimeoutExpired:
            self.kill()

    # ---- streams

    def _exchange(self, data: bytes, count: int) -> list[str]:
        """Writes these bytes and reads this many replies at the same time, so neither side blocks the other."""
        if self._is_broken:
            raise SiteSilent(f"site {self.number}: an earlier command timed out, so replies no longer match commands")
        replies: list[str] = []
        while data or len(replies) < count:
            if not data and b"\n" in self._unread:
                replies.append(self._reply())
                continue
            is_writable = self._wait(is_writing=bool(data))
            if is_writable:
                try:
                    data = data[os.write(self._input.fileno(), data[:PIECE]) :]
                except (BrokenPipeError, ValueError):
                    raise self._ended() from None
            else:
                self._read()
        return replies

    def _wait(self, is_writing: bool) -> bool:
        """Waits until the site can be written to or read from. Whether it can be written to, with nothing to read."""
        self._poll.register(self._output, select.POLLIN)
        if is_writing and not self._input.closed:
            self._poll.register(self._input, select.POLLOUT)
        try:
            ready = dict(self._poll.poll(self.timeout * 1000))
        finally:
            self._poll.unregister(self._output)
            if is_writing and not self._input.closed:
                self._poll.unregister(self._input)
        if not ready:
            self._is_broken = True
            raise SiteSilent(f"site {self.number}: no reply within {self.timeout} seconds{self._last_words()}")
        return self._output.fileno() not in ready

    def _read(self) -> None:
        block = os.read(self._output.fileno(), 1 << 16)
        if not block:
            raise self._ended()
        self._unread += block

    def _reply(self) -> str:
        while b"\n" not in self._unread:
            self._read()
        line, self._unread = self._unread.split(b"\n", 1)
        return line.decode()

    def _last_words(self) -> str:
        lines = self.said().splitlines()
        return f"; last line on standard error: {lines[-1]}" if lines else ""

    def _ended(self) -> SiteEnded:
        # The last line on standard error is complete once the process has ended.
        with suppress(subprocess.TimeoutExpired):
            self.process.wait(1)
        return SiteEnded(f"site {self.number}: the process ended{self._last_words()}")


def under_key(key: str, command: str) -> str:
    """The command under this key."""
    if not KEY.fullmatch(key):
        raise ValueError(f"a key is 1 to 64 bytes of visible ASCII: {key!r}")
    return f"key {key} {command}"


def line_of(command: str) -> bytes:
    """The line of a command. More than one line would get more than one reply, and `quit` gets none."""
    if "\n" in command:
        raise ValueError(f"a command must not contain a line feed: {command!r}")
    if command == "quit":
        raise ValueError("`quit` has no reply: call end() instead")
    return command.encode() + b"\n"


def main() -> None:
    """An example: a site of two that sells ten tickets to four threads. The other site is absent."""
    folder = tempfile.TemporaryDirectory()
    once = os.path.join(folder.name, "site-1.started")
    with folder, Site(1, 2, "127.0.0.1:7001", {2: "127.0.0.1:7002"}, once=once) as site:
        print(site.ask("issue 10"))
        sold: list[str] = []

        def sell() -> None:
            while True:
                # A spend that can't be served at once waits for other sites, until its deadline.
                reply = site.ask(f"spend 1 {int(time.time())}")
                if not reply.startswith("spent "):
                    return
                sold.append(reply)

        threads = [threading.Thread(target=sell) for _ in range(4)]
        for thread in threads:
            thread.start()
        for thread in threads:
            thread.join()
        print(f"{len(sold)} sold; held {site.status()['held']}")


if __name__ == "__main__":
    main()
