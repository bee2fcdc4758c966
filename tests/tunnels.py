"""Sites whose lines go through stunnel, by the scripts of examples/tls: who gets in, who does not, and what a tunnel that
ends loses."""

import os
import re
import signal
import socket
import ssl
import stat
import threading
import time
from contextlib import suppress

from cases import case
from cluster import PATIENCE, at, expect, sees, wait_for
from journal_kit import at_rest
from tunnel_kit import TLS, Authority, Stunnel, Tunneled, free_row, run, tool

TICK = 20
# A refused connection brings nothing in so many seconds. What is let in arrives within milliseconds.
QUIET = 0.5


# ---- certificates


def keys_are_for_their_owner_alone():
    authority = Authority()
    authority.make("site", 1)
    authority.make("host", "stock.example")
    found = {name: stat.S_IMODE(os.stat(authority.path(name)).st_mode) for name in os.listdir(authority.folder)}
    names = ("authority", "site-1", "stock.example")
    wanted = {f"{name}.key": 0o600 for name in names} | {f"{name}.pem": 0o644 for name in names}
    expect(found, wanted, "modes of the files")


def certificates_say_when_they_end():
    authority = Authority()
    authority.make("site", 1, 20)
    said = authority.make("check", status=1)
    expect(re.findall(r"^(\S+) ends .*? GMT(.*)$", said, re.MULTILINE), [("authority.pem", ""), ("site-1.pem", " within 30 days")])
    authority.make("check", 19)
    before = open(authority.path("site-1.key")).read()
    authority.renew(1)
    authority.make("check")
    expect(open(authority.path("site-1.key")).read() != before, True, "a renewed certificate has a new key")


def bad_words_make_nothing():
    """Wrong words, a second authority, and a certificate without an authority."""
    authority = Authority()
    before = sorted(os.listdir(authority.folder))
    authority.make("new", status=1)
    for words in (["site"], ["site", 0], ["site", 17], ["site", 1, 0], ["site", "1x"], ["host", "site-2"], ["host", "a b"], ["x"], []):
        authority.make(*words, status=2)
    expect(sorted(os.listdir(authority.folder)), before)
    script = os.path.join(TLS, "certificates")
    run(script, os.path.join(authority.folder, "none"), "site", 1, status=1)
    os.remove(authority.path("authority.key"))
    authority.make("site", 1, status=1)
    good = ["keys", 1, 7300, 7200, "1=10.0.0.1:7100", "2=10.0.0.2:7100"]
    run(os.path.join(TLS, "stunnel-conf"), *good)
    for place, word in ((1, 17), (1, 3), (2, 0), (2, "127.0.0.1:7001"), (3, 0), (3, 65520), (4, "1=10.0.0.1"), (4, "17=10.0.0.1:7100"), (4, "2=10.0.0.1:7100"), (4, "1=a:x")):
        run(os.path.join(TLS, "stunnel-conf"), *good[:place], word, *good[place + 1 :], status=2)


# ---- sites through tunnels


def a_gift_arrives():
    with Tunneled(3, tick=TICK) as sites:
        sites[1].ask_all(["issue 100", "give 2 30", "give 3 20"])
        found = at_rest(sites)
        expect([found[number]["held"] for number in (1, 2, 3)], [50, 30, 20])
        # A site that holds too little asks, and is granted.
        expect(sites.command("spend 60 +60000", number=3, target="/wait")[1][0].split()[0], "spent")


def all_arrives_though_tunnels_end():
    """A stream of gifts, beneath which the tunnels of both ends are ended in turn, in order and by SIGKILL."""
    with Tunneled(2, tick=TICK, log=True) as sites:
        sites[1].ask_all(["issue 1000000"])
        given, ended = [0], threading.Event()

        def give():
            while not ended.is_set():
                sites[1].ask("give 2 1")
                given[0] += 1
                time.sleep(0.001)

        giver = threading.Thread(target=give)
        giver.start()
        try:
            for site, sign in ((1, signal.SIGTERM), (2, signal.SIGTERM), (1, signal.SIGKILL), (2, signal.SIGKILL)):
                before = sites[2].status()["held"]
                wait_for("gifts arrive", lambda: sites[2].status()["held"] > before + 50)
                sites.tunnels[site].again(sign)
        finally:
            ended.set()
            giver.join(PATIENCE)
        found = at_rest(sites)
        expect((found[2]["held"], found[1]["held"]), (given[0], 1_000_000 - given[0]))
        expect("peer 1: receives from it no more" in sites[2].said(), True, "connections ended")
        for number in (1, 2):
            sites.agrees(number)


def a_certificate_is_renewed_beneath_a_sale():
    """By SIGHUP. Connections stay, and new ones show the new certificate."""
    with Tunneled(2, tick=TICK, log=True) as sites:
        sites[1].ask_all(["issue 100", "give 2 1"])
        at_rest(sites)
        ends = [sites[number].said().count("receives from it no more") for number in (1, 2)]
        before = shown_at(sites, 2, 1)
        sites.authority.renew(2)
        expect(shown_at(sites, 2, 1), before, "the certificate, before it was read anew")
        sites.tunnels[2].read_anew()

        def is_new():
            # While it reads, it may take no connection.
            with suppress(ConnectionError):
                return shown_at(sites, 2, 1) != before
            return False

        wait_for("the new certificate is shown", is_new)
        sites[1].ask("give 2 9")
        wait_for("a gift arrives", sees(sites[2], None, held=10))
        expect([sites[number].said().count("receives from it no more") for number in (1, 2)], ends, "connections stayed")
        sites.tunnels[1].again()
        sites[1].ask("give 2 5")
        wait_for("a gift arrives by a new connection", sees(sites[2], None, held=15))


def shown_at(sites, site, peer):
    """The certificate that a site's tunnel shows to that peer."""
    context = sites.authority.context(f"site-{peer}")
    with socket.create_connection(("127.0.0.1", sites.port_of(site, peer)), PATIENCE) as stream:
        with context.wrap_socket(stream) as wrapped:
            return wrapped.getpeercert(binary_form=True)


# ---- who gets in


def intruders(authority):
    """Certificates that no tunnel of site 2 may have: where they are from, and their names."""
    foreign, late = Authority(), Authority()
    foreign.make("site", 2)
    authority.make("site", 3)
    authority.make("host", "stock.example")
    # One of the same authority, in another folder.
    for name in ("authority.key", "authority.pem"):
        with open(authority.path(name)) as source, open(late.path(name), "w") as target:
            target.write(source.read())
    late.make("site", 2)
    late.expire(2)
    return {
        "of another site": (authority, "site-3"), "of a host": (authority, "stock.example"), "of another authority": (foreign, "site-2"),
        "that has ended": (late, "site-2"), "that is not shown": (authority, None),
    }  # fmt: skip


def speak(sites, authority, name, text):
    """Connects to site 1 as site 2 does, and sends lines. Whether the connection was still open after them."""
    with socket.create_connection(("127.0.0.1", sites.port_of(1, 2)), PATIENCE) as stream:
        with suppress(ssl.SSLError, ConnectionError), authority.context(name).wrap_socket(stream) as wrapped:
            wrapped.sendall(text)
            wrapped.settimeout(QUIET)
            with suppress(TimeoutError):
                return wrapped.recv(1) != b""
            return True
    return False


def only_its_own_certificate_speaks_for_a_peer():
    """Whoever has none, another one, one of another authority or one that has ended is not heard."""
    with Tunneled(2, tick=TICK, started=[1]) as sites:
        text = b"H 2\nE 2 0 2 I:5 R:1:5\n"
        for what, (authority, name) in intruders(sites.authority).items():
            expect(speak(sites, authority, name, text), False, f"a connection with a certificate {what}")
            expect(sites[1].status()["peers"][0]["applied"], 0, f"a certificate {what}")
        with socket.create_connection(("127.0.0.1", sites.port_of(1, 2)), PATIENCE) as stream:
            stream.sendall(text)
            stream.settimeout(PATIENCE)
            with suppress(ConnectionResetError):
                while stream.recv(1 << 12):
                    pass
        expect(sites[1].status()["peers"][0]["applied"], 0, "lines in clear text")
        expect(sites.metrics()["rights_peer_lines_total", "2"], 0)
        # The same lines with the certificate of site 2.
        expect(speak(sites, sites.authority, "site-2", text), True, "a connection of site 2")
        wait_for("site 1 applied them", sees(sites[1], 2, applied=2))
        expect(sites[1].status()["held"], 5)


def lines_go_to_its_own_certificate_alone():
    """The tunnel of site 1 gives the lines for site 2 to nobody who cannot show the certificate of site 2."""
    authority, heard = Authority(), {}
    authority.make("site", 1)
    authority.make("site", 2)
    tool("stunnel")
    for what, (owner, name) in {**intruders(authority), "of site 2": (authority, "site-2")}.items():
        # A server must show one: that of nobody is that of the authority itself.
        heard[what] = heard_with(authority, owner.context(name or "authority", is_server=True))
    expect({what for what, text in heard.items() if text}, {"of site 2"}, f"who heard the site: {heard}")
    expect(heard["of site 2"], b"H 1\n")


def heard_with(authority, context):
    """What a machine with this certificate, in the place of site 2, hears of what is written for site 2."""
    near = free_row()
    with socket.create_server(("127.0.0.1", 0)) as server:
        # stunnel-conf counts on from the ports that it is given.
        places = [f"1={at(free_row())}", f"2={at(server.getsockname()[1] - 1)}"]
        words = [os.path.join(TLS, "stunnel-conf"), authority.folder, 1, 1, near, *places]
        tunnel = Stunnel(only(run(*words), "to-2"))
        try:
            server.settimeout(PATIENCE)
            drained(server)
            with socket.create_connection(("127.0.0.1", near + 2), PATIENCE) as site:
                site.sendall(b"H 1\n")
                stream, _ = server.accept()
                with stream, suppress(ssl.SSLError, ConnectionError), context.wrap_socket(stream, server_side=True) as wrapped:
                    wrapped.settimeout(PATIENCE)
                    return wrapped.recv(4)
            return b""
        finally:
            tunnel.close()


def only(configuration, service):
    """The configuration with this one of its services."""
    front, *services = re.split(r"(?m)^(?=\[)", configuration)
    return front + next(text for text in services if text.startswith(f"[{service}]"))


def drained(server):
    """Takes the connections that were made to see whether the tunnel listens."""
    server.settimeout(QUIET)
    with suppress(TimeoutError):
        while True:
            server.accept()[0].close()
    server.settimeout(PATIENCE)


def a_certificate_is_for_one_number():
    """Behind the tunnel of a peer only that peer is let in, so whoever shows the certificate of site 2 is not believed to
    be site 3."""
    with Tunneled(3, tick=TICK, log=True, started=[1]) as sites:
        for text in (b"H 3\nE 3 0 1 I:5\n", b"H 1\nE 1 0 1 I:5\n", b"E 2 0 1 I:5\n"):
            expect(speak(sites, sites.authority, "site-2", text), False, f"a connection of site 2 that sends {text!r}")
        expect([peer["applied"] for peer in sites[1].status()["peers"]], [0, 0])
        expect("it named a site that is not let in at its address" in sites[1].said(), True, "the log")
        expect(speak(sites, sites.authority, "site-2", b"H 2\nE 2 0 1 I:5\n"), True)
        wait_for("site 1 applied it as an entry of site 2", sees(sites[1], 2, applied=1))


CASES = [
    case("Tunnels", [
        keys_are_for_their_owner_alone, certificates_say_when_they_end, bad_words_make_nothing, a_gift_arrives,
        all_arrives_though_tunnels_end, a_certificate_is_renewed_beneath_a_sale,
        only_its_own_certificate_speaks_for_a_peer, lines_go_to_its_own_certificate_alone,
        a_certificate_is_for_one_number,
    ]),
]  # fmt: skip
