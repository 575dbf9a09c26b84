"""A gateway of deploy/gateway that runs in a folder, as an ordinary user, and what it answers to who is signed in."""
import collections
import contextlib
import json
import os
import pathlib
import re
import resource
import shutil
import signal
import socket
import sqlite3
import ssl
import subprocess
import tempfile
import time
import urllib.parse

from lib.confined import NOBODY, as_nobody
from lib.places import ROOT
from lib.sent import PATIENCE
from lib.serving import held_port

# Commands that the gateway needs, with the Debian packages that have them.
NEEDED = {"nginx": "nginx-light", "haproxy": "haproxy", "apache2": "apache2-bin", "htpasswd": "apache2-utils",
          "sqlite3": "sqlite3", "openssl": "openssl", "curl": "curl", "ip": "iproute2", "setsid": "util-linux",
          "unshare": "util-linux"}
PATH = os.environ["PATH"] + ":/usr/sbin:/sbin"
FILES = 1024

Reply = collections.namedtuple("Reply", "status head value")


def missing_packages():
    return sorted({package for command, package in NEEDED.items() if not shutil.which(command, path=PATH)})


@contextlib.contextmanager
def folder_of_nobody():
    """A folder in which the user may write who runs the gateway."""
    with tempfile.TemporaryDirectory() as name:
        os.chmod(name, 0o755)
        if os.geteuid() == 0:
            os.chown(name, NOBODY, NOBODY)
        yield pathlib.Path(name)


def as_a_user():
    """Makes a process that of an ordinary user, who may open as many files as a shell of Debian lets it."""
    resource.setrlimit(resource.RLIMIT_NOFILE, (FILES, resource.getrlimit(resource.RLIMIT_NOFILE)[1]))
    as_nobody()


def script(name, *words, **environment):
    """The lines that a script prints."""
    result = subprocess.run(["sh", name, *map(str, words)], preexec_fn=as_a_user, capture_output=True, text=True,
                          timeout=PATIENCE, env={**os.environ, "PATH": PATH, **environment})
    return result.returncode, result.stdout.splitlines(), result.stderr


class Gateway:
    """The gateway of some hosts: the scripts, its port, its folder, and the passwords of each host."""

    def __init__(self, program, folder, port, house_port, hosts=("localhost",), count=1_000_000, closes=60, messages=5000):
        self.folder, self.port, self.house_port = folder / "city", port, house_port
        # After how many connections the house ends, and how many messages each takes.
        self.count, self.messages, self.closes = str(count), str(messages), str(closes)
        self.hosts, self.host = hosts, hosts[0]
        self.scripts, self.bands = folder / "deploy" / "gateway", folder / "examples" / "bands.csv"
        self.program = folder / "auction"
        if not self.program.exists():
            for part in ("deploy", "examples"):
                shutil.copytree(ROOT / part, folder / part)
            shutil.copy(program, self.program)
            self.program.chmod(0o755)
        self.numbers, self.passwords, self.tls = {}, {}, None
        # The fields by which members show who they are, and the address from which clients come.
        self.shown, self.address = {}, "127.0.0.1"

    def script(self, name, *words):
        return script(self.scripts / name, *words, PORT=str(self.port), HOUSE_PORT=str(self.house_port),
                      COUNT=self.count, MESSAGES=self.messages, CLOSE=self.closes)

    def start(self, *hosts):
        ending = self.script("start.sh", self.program, self.folder, *(hosts or self.hosts))
        if ending[0] == 0:
            self.know_certificates()
            self.know((self.house() / "passwords").read_text().splitlines())
        return ending

    def know_certificates(self):
        # Members ask from other threads meanwhile, so the certificates are read before anybody is held to them.
        tls = ssl.create_default_context()
        for file in self.folder.glob("houses/*/cert.pem"):
            tls.load_verify_locations(file)
        self.tls = tls

    def stop(self, *hosts):
        return self.script("stop.sh", self.folder, *hosts)

    def house(self):
        return self.folder / "houses" / self.host

    def visit(self, host):
        """Goes on at another of the hosts, as its first members."""
        self.host, self.passwords, self.shown = host, {}, {}
        self.know((self.house() / "passwords").read_text().splitlines())

    def know(self, lines):
        """Notes members as account.sh prints them."""
        for name, number, password in map(str.split, lines):
            self.numbers[name], self.passwords[name] = int(number), password

    def account(self, command, *words):
        """What account.sh prints. Members that it lets in are noted."""
        ending = self.script("account.sh", command, self.house(), *words)
        if ending[0] == 0 and command in ("add", "adopt", "password"):
            self.know(ending[1])
        return ending

    def enrol(self, *names):
        """Has the house register members, and gives each a token, without the time that a password takes."""
        registered = {name: self.ask("house", "POST", "/api/members", {"name": name}).value["member"] for name in names}
        with contextlib.closing(sqlite3.connect(self.house() / "accounts", timeout=PATIENCE)) as accounts, accounts:
            accounts.executemany("INSERT INTO account (login, member, hash) VALUES (?, ?, '')", registered.items())
        self.numbers.update(registered)

    def token(self, name):
        status, lines, error = self.account("token", name)
        if status != 0:
            raise OSError(f"account.sh: {error}")
        return lines[0].split()[2]

    def sign_in(self, name, password=None):
        """The answer to the form, and the cookie that it gives, or None."""
        form = urllib.parse.urlencode({"httpd_username": name, "httpd_password": password or self.passwords[name]})
        answer = self.send_form("/sign-in", form)
        return answer, cookie_of(answer)

    def send_form(self, path, form="", fields=()):
        head = self.head(None, f"POST {path} HTTP/1.1", [f"Content-Length: {len(form)}", "Connection: close", *fields])
        return reply(self.raw(head + form))

    def field(self, name):
        """The field by which a member shows who it is: its token, where nothing else was noted."""
        if name not in self.shown:
            self.shown[name] = f"Authorization: Bearer {self.token(name)}"
        return self.shown[name]

    @staticmethod
    def wait(holds):
        ends = time.monotonic() + PATIENCE
        while not holds():
            if time.monotonic() > ends:
                raise TimeoutError
            time.sleep(0.1)

    def head(self, name, first, fields=()):
        """A head that begins with this line: a sign-in, where there is a name, and more fields."""
        signed = [self.field(name)] if name else []
        return "\r\n".join([first, f"Host: {self.host}:{self.port}", *signed, *fields, "", ""])

    def ask(self, name, method, path, value=None, fields=()):
        """What a member is answered."""
        body = json.dumps(value) if value is not None else ""
        fields = ["Connection: close", *([f"Content-Length: {len(body)}"] if body else []), *fields]
        return reply(self.raw(self.head(name, f"{method} {path} HTTP/1.1", fields) + body))

    def raw(self, text, host=None):
        """All that is sent back to a text before the connection ends."""
        with self.connection(host=host) as connection:
            connection.sendall(text.encode("latin-1"))
            return read_all(connection)

    def connection(self, room=None, host=None):
        """A connection, of which the system keeps so many bytes that came and weren't read."""
        plain = socket.socket()
        plain.settimeout(PATIENCE)
        if room is not None:
            plain.setsockopt(socket.SOL_SOCKET, socket.SO_RCVBUF, room)
        plain.bind((self.address, 0))
        plain.connect(("127.0.0.1", self.port))
        return self.tls.wrap_socket(plain, server_hostname=host or self.host)

    def starts(self):
        """How often the house was started."""
        return (self.folder / "logs" / f"{self.host}.log").read_text().count("listening")

    def kill_house(self, number=signal.SIGKILL):
        """Sends a signal to the program that serves the house now, and tells whether there was one."""
        is_sent = False
        for child in children(self.house() / "run" / "house.pid"):
            with contextlib.suppress(FileNotFoundError, ProcessLookupError):
                if b"\0serve\0" in pathlib.Path(f"/proc/{child}/cmdline").read_bytes():
                    os.kill(int(child), number)
                    is_sent = True
        return is_sent

    def reload(self):
        """Has the gateway read its files anew, and waits until nobody is answered by the old ones."""
        file = self.folder / "run" / "nginx.pid"
        before = children(file)
        os.kill(int(file.read_text()), signal.SIGHUP)
        self.wait(lambda: not before & children(file))


def processes(name, folder):
    """The processes of a program that work in a folder."""
    found = set()
    for process in pathlib.Path("/proc").glob("[0-9]*"):
        with contextlib.suppress(OSError):
            if (process / "comm").read_text().strip() == name and pathlib.Path(os.readlink(process / "cwd")) == folder:
                found.add(int(process.name))
    return found


def kill_all(numbers):
    for number in numbers:
        with contextlib.suppress(ProcessLookupError):
            os.kill(number, signal.SIGKILL)


def children(file):
    """The processes that one has begun whose number is in a file."""
    number = file.read_text().strip()
    return set(pathlib.Path(f"/proc/{number}/task/{number}/children").read_text().split())


def read_all(connection):
    received = b""
    with contextlib.suppress(ConnectionResetError, ssl.SSLEOFError):
        for piece in iter(lambda: connection.recv(65536), b""):
            received += piece
    return received


def cookie_of(answer):
    """The field that a browser sends after this answer, or None."""
    found = re.search(r"^set-cookie: (__host-house=([^;]*));", answer.head, re.M)
    return found and f"Cookie: __Host-house={found[2]}"


def reply(text):
    """The status, the head in small letters, and the value of an answer, after the 100 that may come first."""
    if text.startswith(b"HTTP/1.1 100 "):
        text = text.split(b"\r\n\r\n", 1)[1]
    head, _, body = text.partition(b"\r\n\r\n")
    value = None
    with contextlib.suppress(ValueError):
        value = json.loads(body)
    return Reply(int(head.split(b" ")[1]) if head else None, head.decode("latin-1").lower(), value if body else b"")


@contextlib.contextmanager
def running(program, folder, **options):
    """A gateway that has started, and is stopped after this."""
    with held_port() as port, held_port() as house_port:
        gateway = Gateway(program, folder, port, house_port, **options)
        try:
            status, lines, error = gateway.start()
            if status != 0:
                raise OSError(f"start.sh: {lines} {error}")
            yield gateway
        finally:
            gateway.stop()
