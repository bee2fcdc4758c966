"""Clients of a site behind nginx, with the configuration of examples/tls: TLS, and who may read and who may sell."""

import base64
import http.client
import json
import os
import socket
import ssl
import subprocess
import tempfile
import threading
import time
from contextlib import suppress

from cases import case
from cluster import PATIENCE, expect, free_ports, wait_for
from tunnel_kit import TLS, Authority, is_open, run, tool
from web_driver import alone

import rights_http

TOKEN, PASSWORD = "0123456789abcdef0123456789abcdef", "a password"
HOST = "stock.example"


class Nginx:
    """An nginx with the example's configuration, changed in its paths and ports alone, before a site at this address."""

    def __init__(self, site):
        program = tool("nginx")
        self.room = tempfile.TemporaryDirectory(prefix="nginx-")
        # The workers of nginx are of another user.
        os.chmod(self.room.name, 0o755)
        self.authority = Authority()
        self.authority.make("host", HOST)
        (self.port,) = free_ports(1)
        self.write("tokens", f'"Bearer {TOKEN}" shop;\n')
        self.write("passwords", f"reader:{run('openssl', 'passwd', '-6', PASSWORD)}")
        for kind in ("pem", "key"):
            with open(self.authority.path(f"{HOST}.{kind}")) as file:
                self.write(kind, file.read())
        self.write("site.conf", self.example(site))
        self.write("nginx.conf", f"""
            pid {self.path("pid")};
            error_log stderr warn;
            events {{}}
            http {{
                access_log off;
                client_body_temp_path {self.path("bodies")};
                proxy_temp_path {self.path("answers")};
                include {self.path("site.conf")};
            }}""")  # fmt: skip
        words = [program, "-c", self.path("nginx.conf"), "-g", "daemon off;"]
        self.log = open(self.path("log"), "w+")
        self.process = subprocess.Popen(words, stdin=subprocess.DEVNULL, stdout=self.log, stderr=self.log)
        wait_for("nginx listens", lambda: self.is_running() and is_open(self.port))

    def is_running(self):
        if self.process.poll() is not None:
            self.log.seek(0)
            raise AssertionError(f"nginx has ended: {self.log.read()}")
        return True

    def example(self, site):
        """The file of the example, for this site and this room."""
        with open(os.path.join(TLS, "nginx.conf")) as file:
            text = file.read()
        changes = {"127.0.0.1:8001": site, "listen 8443": f"listen 127.0.0.1:{self.port}", "/etc/nginx/rights-site.": self.path("")}
        for old, new in changes.items():
            expect(old in text, True, f"{old} in nginx.conf")
            # What is said of the port in a comment is changed too, which does no harm.
            text = text.replace(old, new)
        return text

    def path(self, name):
        return os.path.join(self.room.name, name)

    def write(self, name, text):
        with open(self.path(name), "w") as file:
            file.write(text)

    def context(self):
        """How a client speaks TLS that believes the authority, and expects the name of the host."""
        context = ssl.create_default_context(cafile=self.authority.path("authority.pem"))
        context.set_alpn_protocols(["http/1.1"])
        return context

    def request(self, method, target, body=None, **fields):
        """One request. The status and the body of the answer."""
        with socket.create_connection(("127.0.0.1", self.port), PATIENCE) as stream:
            with self.context().wrap_socket(stream, server_hostname=HOST) as wrapped:
                connection = http.client.HTTPConnection(HOST)
                connection.sock = wrapped
                connection.request(method, target, body, fields)
                answer = connection.getresponse()
                return answer.status, answer.read().decode()

    def client(self, token):
        """The Python client. It is told an address, and the name by which the certificate is looked at."""
        return rights_http.SiteClient(f"127.0.0.1:{self.port}", tls=Named(self.context()), token=token, tries=2, retry_for=0.5)

    def __enter__(self):
        return self

    def __exit__(self, *_):
        self.process.terminate()
        self.process.wait(PATIENCE)
        self.log.close()
        self.room.cleanup()


class Named(ssl.SSLContext):
    """A context for a host whose name leads nowhere here: its certificate is compared with that name all the same."""

    def __new__(cls, context):
        self = super().__new__(cls, ssl.PROTOCOL_TLS_CLIENT)
        self.inner = context
        return self

    def __init__(self, context):
        super().__init__()

    def wrap_socket(self, stream, server_hostname=None, **others):
        return self.inner.wrap_socket(stream, server_hostname=HOST, **others)


def bearer(token):
    return {"Authorization": f"Bearer {token}"}


def basic(password):
    return {"Authorization": "Basic " + base64.b64encode(f"reader:{password}".encode()).decode()}


def whoever_shows_nothing_is_refused():
    """Neither reads nor sells: nothing, a wrong token, a wrong password."""
    with alone(tick=50) as sites, Nginx(sites.address()) as nginx:
        sites[1].ask("issue 10")
        for fields in ({}, bearer("x"), bearer(""), bearer(TOKEN + "0"), basic("x"), {"Authorization": TOKEN}):
            expect(nginx.request("GET", "/status", **fields)[0], 401, fields)
            for target in ("/", "/wait"):
                expect(nginx.request("POST", target, "take 1\n", **fields)[0], 403, fields)
            for method in ("PUT", "DELETE", "OPTIONS"):
                expect(nginx.request(method, "/", **fields)[0], 403, (method, fields))
        expect(sites[1].status()["held"], 10)
        with suppress(http.client.HTTPException, ConnectionError):
            connection = http.client.HTTPConnection("127.0.0.1", nginx.port, timeout=PATIENCE)
            connection.request("POST", "/", "take 1\n", bearer(TOKEN))
            expect(connection.getresponse().status, 400, "a request in clear text")
        expect(sites[1].status()["held"], 10)


def a_password_reads_and_a_token_sells():
    with alone(tick=50) as sites, Nginx(sites.address()) as nginx:
        sites[1].ask("issue 10")
        for fields in (bearer(TOKEN), basic(PASSWORD)):
            status, text = nginx.request("GET", "/status", **fields)
            expect((status, json.loads(text)["held"]), (200, 10), fields)
        for target in ("/", "/wait"):
            expect(nginx.request("POST", target, "take 2\n", **basic(PASSWORD))[0], 403, "a password")
        expect(nginx.request("POST", "/", "take 2\n", **bearer(TOKEN)), (200, "spent 2\n"))
        expect(nginx.request("POST", "/", "take 20\n", **bearer(TOKEN)), (409, "error Short\n"))
        # What a web page sends, it refuses itself.
        expect(nginx.request("POST", "/", "take 2\n", Origin="https://stock.example", **bearer(TOKEN))[0], 403, "a web page")
        big = "take 1000000000\n" * 50_000
        expect(nginx.request("POST", "/", big, **bearer(TOKEN)), (200, "error Short\n" * 50_000))
        expect(nginx.request("POST", "/", "x" * 1_048_577, **bearer(TOKEN))[0], 413)
        expect(sites[1].status()["held"], 8)


def a_key_goes_through_it():
    with alone(tick=50) as sites, Nginx(sites.address()) as nginx:
        sites[1].ask("issue 10")
        keyed = {"Idempotency-Key": "order-1", **bearer(TOKEN)}
        for target in ("/", "/wait", "/"):
            expect(nginx.request("POST", target, "take 2\n", **keyed), (200, "spent 2\n"))
        expect(nginx.request("POST", "/", "take 3\n", **keyed), (409, "error KeyReused\n"))
        expect(sites[1].status()["held"], 8)


def the_python_client_sells_through_it():
    """By TLS and with its token, from some threads. Without it, or with no trust in the authority, it sells nothing."""
    with alone(tick=20) as sites, Nginx(sites.address()) as nginx:
        sites[1].ask("issue 100")
        with nginx.client(TOKEN) as client:
            expect((client.take(3), client.status()["held"]), (rights_http.Spent(2), 97))
            expect(client.spend(98, within=0.1), rights_http.Expired())
            sellers = [threading.Thread(target=lambda: [client.take(1) for _ in range(10)]) for _ in range(4)]
            for seller in sellers:
                seller.start()
            for seller in sellers:
                seller.join(PATIENCE)
        with nginx.client("x") as client:
            refused(lambda: client.take(1), rights_http.SiteRefused)
        stranger = rights_http.SiteClient(f"127.0.0.1:{nginx.port}", tls=ssl.create_default_context(), token=TOKEN, tries=1)
        refused(lambda: stranger.take(1), rights_http.SiteUnreachable)
        expect(sites[1].status()["held"], 57)


def refused(call, kind):
    try:
        call()
    except kind:
        return
    raise AssertionError(f"{kind.__name__} is not raised")


def a_client_that_goes_takes_its_spend_along():
    """Its connection ends while its spend waits: the site ends the spend, as if the client had been its own."""
    with alone(tick=20) as sites, Nginx(sites.address()) as nginx:
        with socket.create_connection(("127.0.0.1", nginx.port), PATIENCE) as stream:
            with nginx.context().wrap_socket(stream, server_hostname=HOST) as wrapped:
                body = b"spend 5 +60000\n"
                head = f"POST /wait HTTP/1.1\r\nhost: {HOST}\r\nauthorization: Bearer {TOKEN}\r\ncontent-length: {len(body)}\r\n\r\n"
                wrapped.sendall(head.encode() + body)
                wait_for("it waits", lambda: sites[1].status()["queued"] == 5)
        wait_for("it waits no more", lambda: sites[1].status()["queued"] == 0)


def a_command_without_an_answer_is_asked_for_by_its_key_alone():
    """What is behind nginx takes each request and closes its connection. nginx does not send it again. The client does under
    the same key, which nginx passes on, and without one does not."""
    requests = []
    with socket.create_server(("127.0.0.1", 0)) as server:

        def take_and_close():
            with suppress(OSError):
                while True:
                    stream, _ = server.accept()
                    with stream:
                        stream.settimeout(PATIENCE)
                        requests.append(stream.recv(1 << 16))

        threading.Thread(target=take_and_close, daemon=True).start()
        with Nginx(f"127.0.0.1:{server.getsockname()[1]}") as nginx, nginx.client(TOKEN) as client:
            refused(lambda: client.ask_all(["take 1", "take 1"]), rights_http.AnswerLost)
            time.sleep(0.2)
            expect(len(requests), 1, "requests")
            expect((TOKEN.encode() in requests[0], b"idempotency-key" in requests[0].lower()), (False, False), "what the site sees")
            # A question may be asked again.
            refused(client.status, rights_http.SiteUnreachable)
            expect(len(requests), 3, "requests")
            refused(lambda: client.take(1, key="order-1"), rights_http.AnswerLost)
            asked = [b"\r\nidempotency-key: order-1\r\n" in request.lower() for request in requests[3:]]
            expect((len(asked) > 1, all(asked)), (True, True), "the key each time")
            server.shutdown(socket.SHUT_RDWR)


def a_site_that_is_down_is_told_from_one_that_refuses():
    with Nginx("127.0.0.1:1") as nginx, nginx.client(TOKEN) as client:
        expect(nginx.request("GET", "/status", **bearer(TOKEN))[0], 502)
        refused(lambda: client.take(1), rights_http.AnswerLost)


CASES = [
    case("BehindNginx", [
        whoever_shows_nothing_is_refused, a_password_reads_and_a_token_sells, a_key_goes_through_it, the_python_client_sells_through_it,
        a_client_that_goes_takes_its_spend_along, a_command_without_an_answer_is_asked_for_by_its_key_alone,
        a_site_that_is_down_is_told_from_one_that_refuses,
    ]),
]  # fmt: skip
