"""Servers that `bench/serve` measures: the program, nginx and Varnish, each one that is started, asked and stopped."""

import contextlib
import json
import os
import shutil
import signal
import socket
import subprocess
import sys
import time

from common import PROGRAM

PORT = 8080
NGINX_PORT = 8091
VARNISH_PORT = 8092
TURNS = str(1 << 63)

# A script of 20 expressions.
EXPRESSIONS = "<h1>${properties.title}</h1>" + "".join(
    f"<p class=\"${{properties.n > {number} && 'big' || 'small'}}\">${{properties.title}} {number}</p>" for number in range(9)
) + "<p>${properties.tags @ join=', '}</p>"

OPEN_FILES = "open_file_cache max=4000 inactive=60s; open_file_cache_valid 60s;"
NGINX = """
daemon off; master_process off; worker_processes 1; pid {folder}/pid; error_log {folder}/errors;
events {{ worker_connections 1024; }}
http {{
  sendfile on; tcp_nopush on; access_log off; keepalive_requests 1000000000; keepalive_timeout 600; {more}
  types {{ text/html html; }} default_type text/html;
  client_body_temp_path {folder}; proxy_temp_path {folder}; fastcgi_temp_path {folder}; uwsgi_temp_path {folder}; scgi_temp_path {folder};
  server {{ listen 127.0.0.1:{port}; root {root}; }}
}}
"""

VARNISH = """
vcl 4.1;
backend default {{ .host = "127.0.0.1"; .port = "{port}"; }}
sub vcl_recv {{ if (req.url ~ "\\?") {{ return (pass); }} }}
sub vcl_backend_response {{ set beresp.ttl = 1h; }}
"""


def processes_of(pid):
    """A process and those that it started."""
    found = [pid]
    with contextlib.suppress(OSError):
        for task in os.listdir(f"/proc/{pid}/task"):
            with open(f"/proc/{pid}/task/{task}/children") as line:
                for child in line.read().split():
                    found += processes_of(int(child))
    return found


def pinned(processor):
    """Keeps a process that begins to one processor, where there are several."""

    def begin():
        if os.cpu_count() > 2:
            os.sched_setaffinity(0, {processor % os.cpu_count()})

    return begin


class Server:
    """One that is started in a folder of its own."""

    def __init__(self, name, folder, port):
        self.name, self.folder, self.port, self.process = name, f"{folder}/{name}", port, None
        # Words that stand before its command.
        self.before = []
        os.makedirs(self.folder, exist_ok=True)

    def begin(self, command, target):
        """Starts it, and waits until it answers a target. The seconds until then."""
        began = time.monotonic()
        with open(f"{self.folder}/said", "wb") as said:
            self.process = subprocess.Popen(
                [*self.before, *command], cwd=self.folder, stdin=subprocess.DEVNULL, stdout=said, stderr=said, preexec_fn=pinned(2)
            )
        while time.monotonic() - began < 120:
            if self.process.poll() is not None:
                break
            with contextlib.suppress(OSError), self.connect() as client:
                client.sendall(request(target))
                status, _ = answers(client, 1)[0]
                if status != 200:
                    sys.exit(f"{self.name} answers {target} with {status}")
                return time.monotonic() - began
            time.sleep(0.005)
        with open(f"{self.folder}/said", errors="replace") as said:
            sys.exit(f"{self.name} doesn't serve: {said.read()[-500:]}")

    def connect(self):
        client = socket.create_connection(("127.0.0.1", self.port), timeout=120)
        client.setsockopt(socket.IPPROTO_TCP, socket.TCP_NODELAY, 1)
        return client

    def seconds(self):
        """The processor time that it has used, exactly, with all threads."""
        total = 0
        for pid in processes_of(self.process.pid):
            with contextlib.suppress(OSError):
                for task in os.listdir(f"/proc/{pid}/task"):
                    with open(f"/proc/{pid}/task/{task}/schedstat") as line:
                        total += int(line.read().split()[0])
        return total / 1e9

    def memory(self):
        """The memory that it holds now, in MB."""
        total = 0
        for pid in processes_of(self.process.pid):
            with contextlib.suppress(OSError), open(f"/proc/{pid}/status") as lines:
                total += sum(int(line.split()[1]) for line in lines if line.startswith("VmRSS:"))
        return total / 1024

    def signal(self, number):
        for pid in processes_of(self.process.pid):
            with contextlib.suppress(OSError):
                os.kill(pid, number)

    def stop(self):
        self.signal(signal.SIGCONT)
        self.process.terminate()
        try:
            self.process.wait(10)
        except subprocess.TimeoutExpired:
            self.signal(signal.SIGKILL)
            self.process.wait()


class Program(Server):
    """The program over pages below /content/s, whose one script writes so many bytes, where no other is given, and one page beside them."""

    def __init__(self, name, folder, pages, size, script=None):
        super().__init__(name, folder, PORT)
        page = {"sling:resourceType": "site/page", **({"title": "A & B", "n": 4, "tags": ["a", "b"]} if script else {})}
        script = {"html.html": {"jcr:content": {"jcr:data": script or "x" * size}}}
        tree = {"content": {"s": {f"p{number}": page for number in range(pages)}, "t": {"p0": page}}, "apps": {"site": {"page": script}}}
        with open(f"{self.folder}/content.json", "w") as out:
            json.dump(tree, out, separators=(",", ":"))
        shutil.copy("examples/standard.any", os.path.join(self.folder, "farm.any"))

    def start(self, beginning="fresh"):
        return self.begin([os.path.abspath(PROGRAM), "serve", "content.json", "farm.any", TURNS, beginning], "/content/t/p0.html")


class Nginx(Server):
    """nginx with one worker over the same pages as files."""

    def __init__(self, name, folder, root, open_files=False):
        super().__init__(name, folder, NGINX_PORT + 2 * open_files)
        more = OPEN_FILES if open_files else ""
        with open(f"{self.folder}/nginx.conf", "w") as out:
            out.write(NGINX.format(folder=self.folder, port=self.port, root=root, more=more))

    def start(self):
        return self.begin(["nginx", "-p", self.folder, "-c", f"{self.folder}/nginx.conf"], "/content/s/p0.html")


class Varnish(Server):
    """Varnish before the program: it keeps each page, but for those that are asked with a query."""

    def __init__(self, name, folder):
        super().__init__(name, folder, VARNISH_PORT)
        with open(f"{self.folder}/site.vcl", "w") as out:
            out.write(VARNISH.format(port=PORT))

    def start(self):
        words = ["-F", "-n", self.folder, "-a", f"127.0.0.1:{self.port}", "-f", f"{self.folder}/site.vcl", "-s", "malloc,256m", "-j", "none"]
        return self.begin(["varnishd", *words], "/content/s/p0.html")


def write_pages(root, pages, size):
    """So many pages as files."""
    os.makedirs(f"{root}/content/s")
    for number in range(pages):
        with open(f"{root}/content/s/p{number}.html", "w") as out:
            out.write("x" * size)


def request(target):
    return f"GET {target} HTTP/1.1\r\nHost: localhost\r\n\r\n".encode()


def flush(handle):
    """A request that deletes the pages below a handle."""
    fields = f"CQ-Action: Delete\r\nCQ-Handle: {handle}\r\nContent-Length: 0\r\n"
    return f"POST /dispatcher/invalidate.cache HTTP/1.1\r\nHost: localhost\r\n{fields}\r\n".encode()


def answers(client, count):
    """So many answers in order, as pairs of a status and the length of a body."""
    found, held = [], b""
    while len(found) < count:
        while b"\r\n\r\n" not in held:
            held += received(client)
        head, _, held = held.partition(b"\r\n\r\n")
        fields = dict(line.lower().split(b": ", 1) for line in head.split(b"\r\n")[1:])
        length = int(fields[b"content-length"])
        while len(held) < length:
            held += received(client)
        held = held[length:]
        found.append((int(head.split()[1]), length))
    return found


def received(client):
    piece = client.recv(1 << 20)
    if not piece:
        raise OSError("the connection ended")
    return piece


def ask_all(server, targets, at_once=32):
    """Asks for each target once, so that the program keeps it."""
    with server.connect() as client:
        for first in range(0, len(targets), at_once):
            some = targets[first : first + at_once]
            client.sendall(b"".join(request(target) for target in some))
            for target, (status, _) in zip(some, answers(client, len(some))):
                if status != 200:
                    sys.exit(f"{server.name} answers {target} with {status}")
