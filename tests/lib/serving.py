"""The program as it serves HTTP, and clients that talk with it byte by byte."""
import os
import re
import select
import socket
import subprocess
import time

from lib.harness import Folder, LeftOut, Wrong, shortened
from lib.messages import Repository

# how long a reply, and the start of the program, may take
SECONDS = 30
LISTENING = re.compile(rb"rp_server: listening on ((?:\d+\.){3}\d+|\[[0-9a-f:]+\]):(\d+)\n")
# what it writes where it ends with status 2
FAULT = re.compile(rb"rp_server: [^\n]+\n")


def first_line(process):
    """The first line on a process's standard error, or what there is of it at its end."""
    line, end = b"", time.monotonic() + SECONDS
    while not line.endswith(b"\n") and time.monotonic() < end:
        if select.select([process.stderr], [], [], 0.1)[0]:
            more = os.read(process.stderr.fileno(), 1)
            if not more:
                break
            line += more
    return line


class Server:
    """The program that serves a new repository. At the end of the block it has to be serving still, and to have written one line."""

    def __init__(self, *words, config=None, listen="127.0.0.1:0", files=(), stdin=subprocess.DEVNULL, program=None, **given):
        if Folder.stand_in:
            raise LeftOut
        self.folder = Repository(config, **dict(files))
        # whether its end was waited for
        self.is_over = False
        self.process = subprocess.Popen([program or Folder.program, "serve", "--config", "config.json", "--listen", listen, *words],
                                        cwd=self.folder.folder.name, stdin=stdin, stdout=subprocess.PIPE, stderr=subprocess.PIPE, bufsize=0, **given)
        line = first_line(self.process)
        found = LISTENING.fullmatch(line)
        if not found:
            self.kill()
            raise Wrong(f"it writes {line!r} and doesn't listen")
        self.family = socket.AF_INET6 if found[1].startswith(b"[") else socket.AF_INET
        self.address = found[1].strip(b"[]").decode(), int(found[2])

    def __enter__(self):
        return self

    def __exit__(self, kind, fault, trace):
        if self.is_over:
            return
        ended = self.process.poll()
        seen = self.kill()
        if kind is None and (ended is not None or seen != (b"", b"")):
            raise Wrong(f"it ended with status {ended} and wrote {seen!r}")

    def kill(self):
        """Ends it, and gives what it wrote that wasn't read yet."""
        self.is_over = True
        self.process.kill()
        seen = self.process.communicate()
        self.folder.__exit__()
        return seen

    def expect_ended(self, status=0, errors=b"", seconds=SECONDS):
        """It ends by itself with this status, and has written these errors behind the first line, or errors of this pattern."""
        try:
            output, written = self.process.communicate(timeout=seconds)
        except subprocess.TimeoutExpired:
            raise Wrong(f"it doesn't end in {seconds} s") from None
        finally:
            self.kill()
        if isinstance(errors, re.Pattern) and errors.fullmatch(written):
            errors = written
        if (self.process.returncode, output, written) != (status, b"", errors):
            raise Wrong(f"status {self.process.returncode}, standard output {output!r}, standard error {written!r}")

    def memory(self):
        """The bytes of memory that the process holds now."""
        return self.status_of("VmRSS")

    def status_of(self, key):
        with open(f"/proc/{self.process.pid}/status", encoding="ascii") as it:
            return int(re.search(rf"^{key}:\s*(\d+) kB$", it.read(), re.MULTILINE)[1]) * 1024

    def descriptors(self):
        return len(os.listdir(f"/proc/{self.process.pid}/fd"))


class Client:
    """A connection to the program. What it takes from the system as received can be made small."""

    def __init__(self, server, room=None, seconds=SECONDS):
        self.socket = socket.socket(server.family, socket.SOCK_STREAM)
        if room:
            self.socket.setsockopt(socket.SOL_SOCKET, socket.SO_RCVBUF, room)
        self.socket.settimeout(seconds)
        self.socket.connect(server.address)
        self.socket.setsockopt(socket.IPPROTO_TCP, socket.TCP_NODELAY, 1)
        self.seconds = seconds

    def __enter__(self):
        return self

    def __exit__(self, *_):
        self.socket.close()

    def take_all(self):
        """Takes as much at once from now on as others do."""
        self.socket.setsockopt(socket.SOL_SOCKET, socket.SO_RCVBUF, 4 << 20)

    def send(self, data):
        try:
            self.socket.sendall(data)
        except OSError as fault:
            raise Wrong(f"what is sent isn't taken: {fault}") from None

    def half_close(self):
        self.socket.shutdown(socket.SHUT_WR)

    def reset(self):
        """Closes the connection by a reset."""
        self.socket.setsockopt(socket.SOL_SOCKET, socket.SO_LINGER, b"\1\0\0\0\0\0\0\0")
        self.socket.close()

    def piece(self, size=1 << 20):
        """What comes next, and nothing at the end."""
        try:
            return self.socket.recv(size)
        except TimeoutError:
            raise Wrong(f"nothing came in {self.seconds} s") from None
        except OSError as fault:
            raise Wrong(f"the connection broke: {fault}") from None

    def rest(self):
        """All that comes up to the end."""
        pieces = []
        while more := self.piece():
            pieces.append(more)
        return b"".join(pieces)

    def reply(self):
        """The next reply, by its own Content-Length: for those whose bytes aren't known."""
        seen = b""
        while b"\r\n\r\n" not in seen:
            seen += self.some(1)
        length = int(re.search(rb"Content-Length: (\d+)\r\n", seen)[1])
        pieces = [seen]
        while length:
            pieces.append(self.some(length))
            length -= len(pieces[-1])
        return b"".join(pieces)

    def some(self, size):
        piece = self.piece(size)
        if not piece:
            raise Wrong("the connection ended within a reply")
        return piece

    def expect(self, wanted):
        """The next bytes are these."""
        seen = b""
        while len(seen) < len(wanted):
            try:
                piece = self.piece(len(wanted) - len(seen))
            except Wrong as fault:
                raise Wrong(f"{fault}, after {shortened(seen)!r} in place of {shortened(wanted)!r}") from None
            if not piece or piece != wanted[len(seen):len(seen) + len(piece)]:
                raise Wrong(f"{shortened(seen + piece)!r} {'came' if piece else 'and the end'} in place of {shortened(wanted)!r}")
            seen += piece

    def expect_end(self):
        """Nothing more comes, and the connection ends in order."""
        seen = self.piece()
        if seen:
            raise Wrong(f"{shortened(seen)!r} came in place of the end")

    def expect_silence(self, seconds=0.2):
        """Nothing comes, and the connection doesn't end."""
        if select.select([self.socket], [], [], seconds)[0]:
            raise Wrong(f"{shortened(self.piece())!r} came in place of nothing")

    def ask(self, data, wanted):
        self.send(data)
        self.expect(wanted)


# ---- requests

def head(method, path, *lines, token="ta", version="1.1"):
    """A head with these header lines, and with a token if there is one."""
    given = [f"Authorization: Bearer {token}"] if token else []
    return "".join(it + "\r\n" for it in [f"{method} {path} HTTP/{version}", *given, *lines, ""]).encode()


def get(path, *lines, token="ta", version="1.1"):
    return head("GET", path, *lines, token=token, version=version)


def post(body, *lines, token="ta", path="/v1/requests", version="1.1"):
    return head("POST", path, *lines, f"Content-Length: {len(body)}", token=token, version=version) + body


def as_post(line, *lines):
    """The POST that asks what a line of `batch` asks: its partner's token is 't' and the first letter of his name."""
    who, rest = re.fullmatch(rb'\{"as":"(\w+)",(.*)', line, re.DOTALL).groups()
    return post(b"{" + rest, *lines, token=f"t{who.decode()[0]}")
