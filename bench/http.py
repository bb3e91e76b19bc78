#!/usr/bin/env python3
"""Measures `rp_server serve` by Debian's wrk, beside Debian's nginx that answers the same bytes by `return 200`.

    bench/http.py [--quick] [PROGRAM]

Each row is asked by wrk with one thread over so many connections, of the program and of nginx with one worker and no log, in turn, five
times each for two seconds: the requests in a second of the best run and of the middle one, how long 99 of 100 took at most in the
middle run, and what the program's best is of nginx's.

Then it puts a file of 8 MiB over HTTP and by `batch`, in turn, five times each, and tells the least seconds of both, by the clock and of a
processor; and it asks for that file, and tells the most memory that the program held beside what it held before, as a multiple of
the reply. All replies are compared. With --quick each run takes a second.
"""
import json
import os
import re
import shutil
import socket
import statistics
import subprocess
import sys
import time
from typing import NamedTuple

from harness import (FILE_LIMIT, MIB, TOP, Session, Table, compare, forget_most, held_now, most_memory, processor_seconds, request,
                     run_bench)
from make_part21 import count_within, part21

SCHEMA = os.path.join(TOP, "tests/data/automotive_design.exp")
RUNS = 5
CONNECTIONS = (1, 64, 512)
LISTENING = re.compile(rb"rp_server: listening on 127\.0\.0\.1:(\d+)\n")
# how long a text nginx takes in its configuration at once
PIECE = 2000
NGINX = """daemon off; master_process on; worker_processes 1; pid nginx.pid; error_log stderr error;
events {{ worker_connections 1024; }}
http {{
    access_log off; default_type application/json; keepalive_requests 1000000000; server_tokens off;
    client_body_temp_path body; proxy_temp_path proxy; fastcgi_temp_path fastcgi; uwsgi_temp_path uwsgi; scgi_temp_path scgi;
    server {{ listen 127.0.0.1:{port}; {locations} }}
}}
"""


class Row(NamedTuple):
    """What is asked again and again: its title, its path, and a body, if it is a POST."""

    title: str
    path: str
    body: bytes = b""

    def message(self):
        head = b"%s %s HTTP/1.1\r\nHost: 127.0.0.1\r\nAuthorization: Bearer ta\r\n" % (b"POST" if self.body else b"GET", self.path.encode())
        return head + (b"Content-Length: %d\r\n" % len(self.body) if self.body else b"") + b"\r\n" + self.body


ROWS = [Row("schemas", "/v1/schemas"), Row("names of 1,000", "/v1/models/ann/names"), Row("POST of list", "/v1/requests", b'{"do":"list"}')]


# ---- servers and one client

def tool(name):
    found = shutil.which(name, path=f"{os.environ['PATH']}:/usr/sbin:/sbin")
    if not found:
        sys.exit(f"bench: {name} isn't installed: apt-get install wrk nginx")
    return found


class Client:
    """A connection on which requests are asked one after the other."""

    def __init__(self, port):
        self.socket = socket.create_connection(("127.0.0.1", port), timeout=120)

    def ask(self, message):
        """The body of the reply, which has to be of status 200."""
        self.socket.sendall(message)
        head = b""
        while b"\r\n\r\n" not in head:
            head += self.some(1)
        if not head.startswith(b"HTTP/1.1 200 "):
            sys.exit(f"bench: {head!r} is no reply of status 200")
        body = bytearray()
        length = int(re.search(rb"(?i)\r\ncontent-length: (\d+)\r\n", head)[1])
        while len(body) < length:
            body += self.some(length - len(body))
        return bytes(body)

    def some(self, size):
        more = self.socket.recv(min(size, MIB))
        if not more:
            sys.exit("bench: the connection ended")
        return more


class Server:
    """The program as it serves the folder's configuration, and a connection to it."""

    def __init__(self, folder):
        words = [folder.program, "serve", "--config", "config.json", "--listen", "127.0.0.1:0"]
        self.process = subprocess.Popen(words, cwd=folder.path, stdin=subprocess.DEVNULL, stderr=subprocess.PIPE)
        line = self.process.stderr.readline()
        found = LISTENING.fullmatch(line)
        if not found:
            sys.exit(f"bench: the program writes {line!r} and doesn't listen")
        self.port = int(found[1])
        self.client = Client(self.port)

    def __enter__(self):
        return self

    def __exit__(self, *_):
        self.process.kill()
        self.process.wait()

    def post(self, line):
        """Asks what a line of `batch` asks."""
        body = json.dumps({key: value for key, value in json.loads(line).items() if key != "as"}).encode()
        return self.client.ask(Row("", "/v1/requests", body).message())


class Nginx:
    """nginx, which answers each path by the bytes that the program answers."""

    def __init__(self, folder, bodies):
        with socket.create_server(("127.0.0.1", 0)) as it:
            self.port = it.getsockname()[1]
        locations = ""
        for path, body in bodies.items():
            pieces = [body[at:at + PIECE] for at in range(0, len(body), PIECE)]
            sets = "".join(f"set $part{k} '{it}'; " for k, it in enumerate(pieces))
            locations += f"location = {path} {{ {sets}return 200 '{''.join(f'${{part{k}}}' for k in range(len(pieces)))}'; }}\n"
        place = os.path.join(folder.path, "nginx")
        os.makedirs(place, exist_ok=True)
        with open(os.path.join(place, "nginx.conf"), "w", encoding="utf-8") as it:
            it.write(NGINX.format(port=self.port, locations=locations))
        self.process = subprocess.Popen([tool("nginx"), "-p", place, "-c", "nginx.conf"], stdin=subprocess.DEVNULL)
        for _ in range(100):
            try:
                self.client = Client(self.port)
                return
            except OSError:
                time.sleep(0.05)
        sys.exit("bench: nginx doesn't listen")

    def __enter__(self):
        return self

    def __exit__(self, *_):
        self.process.terminate()
        self.process.wait()


# ---- requests in a second

class Load(NamedTuple):
    """What wrk tells of a run."""

    requests: float
    latency: float


UNITS = {"us": 1e-3, "ms": 1, "s": 1e3}


def load(folder, port, row, connections, seconds):
    """A run of wrk: the requests in a second, and the milliseconds that 99 of 100 took at most."""
    words = [tool("wrk"), "-t", "1", "-c", str(connections), "-d", f"{max(1, round(seconds))}s", "--latency", "-H", "Authorization: Bearer ta"]
    if row.body:
        folder.write("post.lua", f"wrk.method = 'POST'\nwrk.body = '{row.body.decode()}'\n")
        words += ["-s", "post.lua"]
    done = subprocess.run([*words, f"http://127.0.0.1:{port}{row.path}"], cwd=folder.path, capture_output=True, text=True, check=False)
    found = re.search(r"Requests/sec:\s*([\d.]+)", done.stdout)
    latency = re.search(r"99%\s*([\d.]+)(us|ms|s)\b", done.stdout)
    if done.returncode != 0 or not found or not latency or "Non-2xx" in done.stdout or "Socket errors" in done.stdout:
        sys.exit(f"bench: wrk says\n{done.stdout}{done.stderr}")
    return Load(float(found[1]), float(latency[1]) * UNITS[latency[2]])


def measure_loads(folder, server, seconds):
    bodies = {row.path: server.client.ask(row.message()).decode() for row in ROWS}
    compare(bodies["/v1/schemas"].encode(), b'{"ok":{"schemas":["AUTOMOTIVE_DESIGN"]}}')
    if len(json.loads(bodies["/v1/models/ann/names"])["ok"]["names"]) != 1000:
        sys.exit("bench: the model hasn't 1,000 names")
    table = Table({"asked": "16", "connections": "12", "best": "10,.0f", "middle": "10,.0f", "ms, 99 %": "9.2f", "nginx": "10,.0f",
                   "middle ": "10,.0f", "ms, 99 % ": "9.2f", "of nginx": "9.2f"})
    with Nginx(folder, bodies) as nginx:
        for row in ROWS:
            compare(nginx.client.ask(row.message()), bodies[row.path].encode())
        nginx.client.socket.close()
        server.client.socket.close()
        for row in ROWS:
            for connections in CONNECTIONS:
                runs = [(load(folder, server.port, row, connections, seconds), load(folder, nginx.port, row, connections,
                                                                                    seconds)) for _ in range(RUNS)]
                own, other = zip(*runs)
                table.row(row.title, connections, *told(own), *told(other), max(own).requests / max(other).requests)
    server.client = Client(server.port)
    compare(server.client.ask(ROWS[0].message()), bodies["/v1/schemas"].encode())


def told(runs):
    middle = statistics.median_low(runs)
    return max(runs).requests, middle.requests, middle.latency


# ---- a file of 8 MiB

class Put(NamedTuple):
    """What a put took: by the clock, and of a processor."""

    seconds: float
    processor: float


def put_by_batch(folder, line, wanted):
    with Session(folder) as session:
        compare(session.ask(request("create_model", name="m", schema="AUTOMOTIVE_DESIGN"))[0], b'{"ok":{}}\n')
        reply, seconds, processor = session.ask(line)
        compare(reply, wanted + b"\n")
    return Put(seconds, processor)


def put_over_http(folder, line, wanted):
    with Server(folder) as server:
        compare(server.post(request("create_model", name="m", schema="AUTOMOTIVE_DESIGN")), b'{"ok":{}}')
        body = b"{" + line.strip().removeprefix(b'{"as": "ann", ')
        message = Row("", "/v1/requests", body).message()
        begin, busy = time.monotonic(), processor_seconds(server.process)
        compare(server.client.ask(message), wanted)
        return Put(time.monotonic() - begin, processor_seconds(server.process) - busy)


def measure_put(folder, file, wanted):
    line = request("put", owner="ann", model="m", file=file)
    runs = [(put_by_batch(folder, line, wanted), put_over_http(folder, line, wanted)) for _ in range(RUNS)]
    by_batch, over_http = zip(*runs)
    table = Table({"put of bytes": "13,", "batch, s": "9.3f", "processor": "10.3f", "HTTP, s": "9.3f", "processor ": "10.3f", "HTTP/batch": "11.2f",
                   "of processor": "13.2f"})
    least = [min(getattr(it, key) for it in its) for its in (by_batch, over_http) for key in ("seconds", "processor")]
    table.row(len(file), *least, least[2] / least[0], least[3] / least[1])


def measure_file(folder, file, wanted):
    """The most that is held while the file is sent, from what was held before."""
    table = Table({"file of bytes": "14,", "reply": "12,", "held before": "12,", "most beside": "12,", "most/reply": "11.2f", "seconds": "8.3f"})
    with Server(folder) as server:
        compare(server.post(request("create_model", name="m", schema="AUTOMOTIVE_DESIGN")), b'{"ok":{}}')
        compare(server.post(request("put", owner="ann", model="m", file=file)), wanted)
        for _ in range(2):
            forget_most(server.process)
            before, begin = held_now(server.process), time.monotonic()
            reply = server.client.ask(Row("", "/v1/models/ann/m/file").message())
            seconds, most = time.monotonic() - begin, most_memory(server.process) - before
            table.row(len(file), len(reply), before, most, most / len(reply), seconds)
        text = json.loads(reply)["ok"]["file"]
        compare(server.post(request("put", owner="ann", model="m", file=text)), wanted)
        compare(server.client.ask(Row("", "/v1/models/ann/m/file").message()), reply)


def measure(folder, seconds):
    for name in ("wrk", "nginx"):
        tool(name)
    with open(SCHEMA, encoding="utf-8") as it:
        folder.configure(automotive_design=it.read())
    with Server(folder) as server:
        compare(server.post(request("create_model", name="names", schema="AUTOMOTIVE_DESIGN")), b'{"ok":{}}')
        compare(server.post(request("put", owner="ann", model="names", file=part21(1000))), b'{"ok":{"instances":1000}}')
        measure_loads(folder, server, seconds)
    count = count_within(FILE_LIMIT)
    file, wanted = part21(count), b'{"ok":{"instances":%d}}' % count
    measure_put(folder, file, wanted)
    measure_file(folder, file, wanted)


if __name__ == "__main__":
    is_quick = "--quick" in sys.argv
    run_bench(lambda folder: measure(folder, 1 if is_quick else 2), [it for it in sys.argv[1:] if it != "--quick"])
