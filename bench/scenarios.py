"""Random scenarios of a small site: requests, forms, flushes, restarts, replies in any order, and faults of the disk at random calls."""

import json
import random

from legal import quoted
from site_model import Farm, Site

LONG = 10
MANY = 44
SCRIPT = "<p>${properties.n}</p>"
ALLOWED = (True, "*")

FARMS = [
    Farm(["localhost"], [(True, {"url": "*"})], 0, [ALLOWED], [(True, "*.html")], [(True, "127.0.0.1")], [(True, "utm")]),
    Farm(
        ["www.example.com", "localhost"],
        [(False, {"glob": "*"}), (True, {"method": "GET", "url": "/content/*"}), (True, {"method": "POST", "url": "/content/*"}),
        (False, {"selectors": "secret", "extension": "html"})],
        3,
        [ALLOWED, (False, "*/q.json")],
        [(False, "*"), (True, "*.html")],
        [(False, "*"), (True, "127.0.0.1")],
        [],
    ),
    Farm(
        ["www.example.com:8000", "localhost"],
        [(True, {"url": "*"}), (False, {"path": "/content/site/a1/p2*"}), (False, {"suffix": "?*"}), (False, {"query": "*deny*"})],
        1,
        [ALLOWED],
        [ALLOWED],
        [(True, "127.*"), (False, "127.0.0.9")],
        [ALLOWED, (False, "x")],
        authorized=True,
    ),
]


def content():
    def page():
        kids = {"jcr:content": {"title": "t", "par": {"t": "x"}}, "c": {"sling:resourceType": "site/page", "n": 0}}
        return {"sling:resourceType": "site/page", "n": 0, **kids}

    site = {f"a{folder}": {f"p{number}": page() for number in range(3)} for folder in range(2)}
    site["a0"]["marked"] = {"sling:resourceType": "site/page", "n": 0, "sp:mark": "no-store"}
    scripts = {"site": {"page": {"html.html": {"jcr:content": {"jcr:data": SCRIPT}}}}}
    return {"content": {"site": site, "other": {"q": page()}}, "apps": scripts}


CONTENT = content()
CONTENT_TEXT = json.dumps(CONTENT, separators=(",", ":"))
FOLDERS = ["/content/site/a0", "/content/site/a1"]
PAGES = [f"{folder}/p{number}" for folder in FOLDERS for number in range(3)]
ENDS = [".html", ".html", ".html", ".json", ".print.html", "/c.html", "/_jcr_content/par.json", "/jcr:content/par.json", "/_jcr_content.json"]
HANDLES = ["/", "/content", "/content/site", "/content/other", "/content/other/q", *FOLDERS, *PAGES, *PAGES, *PAGES]
FORMS = ["n={}&n@TypeHint=Long"] * 5 + ["n={}", "n=x{}&n@TypeHint=Long", ":operation=delete"]
BAD_HEADS = [
    b"GET / HTTP/1.1\r\n\r\n",
    b"GET x HTTP/1.1\r\nHost: localhost\r\n\r\n",
    b"GET /a//b HTTP/1.1\r\nHost: localhost\r\n\r\n",
    b"GET / HTTP/1.1\r\nHost: localhost\r\nTransfer-Encoding: chunked\r\n\r\n",
    b"POST / HTTP/1.1\r\nHost: localhost\r\nContent-Length: 8388609\r\n\r\n",
    b"GET / HTTP/2.0\r\n",
]
ODD_FLUSHES = [
    "CQ-Action: Test\r\nCQ-Handle: /content\r\n",
    "CQ-Action: Delete\r\n",
    "CQ-Action: Delete\r\nCQ-Handle: /content/\r\n",
    "cq-action: Activate\r\nCQ-HANDLE: /content/site/a0/%700\r\nCQ-Handle: /\r\n",
]
OTHERS = ["/content/other/q.html", "/content/other/q.json", "/content/site/a0/marked.html", "/content.json", "/content/none.html", "/content/site/a0.html"]


class Maker:
    """Makes the lines of one scenario."""

    def __init__(self, seed, number, events, stops):
        self.draw, self.stops = random.Random(f"{seed}-{number}"), stops
        self.farm = FARMS[number % len(FARMS)]
        self.long = number % 50 == 49
        self.events = events * LONG if self.long else events
        self.lines, self.count, self.open, self.unused = [], 0, [], 1
        self.hot = [self.target() for _ in range(self.draw.randint(2, 4))]

    def chance(self, share):
        return self.draw.random() < share

    def add(self, line):
        if self.count == self.events:
            return
        if self.chance(0.1):
            self.lines.append(f"fail {self.call()} {self.draw.choice(['old', 'new'])}")
        if self.stops and self.chance(0.03):
            self.lines.append(f"stop {self.call()} {self.draw.choice(['old', 'new'])}")
        self.lines.append(line)
        self.count += 1

    def call(self):
        return self.draw.choice([1, 1, 2, 2, 3, 3, 4, 5, 6, 7, 8, self.draw.randint(9, 60), 1_000_000])

    def target(self):
        if self.chance(0.1):
            return self.draw.choice(OTHERS)
        return self.draw.choice(PAGES) + self.draw.choice(ENDS)

    def spelled(self, target):
        """Another spelling of the same path, or the same with a query."""
        place = self.draw.randrange(1, len(target))
        escaped = f"{target[:place]}%{ord(target[place]):02x}{target[place + 1:]}"
        slashes = target.replace("/", "%2F").replace("%2F", "/", 1)
        return self.draw.choice([escaped, slashes, *(target + end for end in ("/", "?utm=1", "?x=1", "?utm=1&deny=2"))])

    def asked(self):
        target = self.draw.choice(self.hot) if self.chance(0.8) else self.target()
        return self.spelled(target) if self.chance(0.12) else target

    def connection(self):
        if not self.open or self.chance(0.03):
            self.opens()
        return self.draw.choice(self.open)

    def opens(self):
        number = self.unused if self.chance(0.9) else self.draw.randint(1, self.unused)
        self.unused = max(self.unused, number + 1)
        self.add(f"open {number} {self.draw.choice(['127.0.0.1'] * 8 + ['127.0.0.9', '10.0.0.1'])}")
        if number not in self.open:
            self.open.append(number)

    def request(self, method="GET", target=None, more=""):
        return f"{method} {target or self.asked()} HTTP/1.1\r\nHost: {self.farm.asked}\r\n{more}\r\n".encode()

    def odd_bytes(self):
        """Requests that no line of its own makes."""
        connection = self.connection()
        kind = self.draw.randrange(11)
        if kind == 0:
            data = self.request("HEAD")
        elif kind == 1:
            data = self.request(more="Authorization: Basic eDp5\r\n")
        elif kind == 2:
            data = self.request() + self.request("HEAD") + self.request()
        elif kind == 3:
            data = self.request(more="Connection: close\r\n")
        elif kind == 4:
            data = self.draw.choice(BAD_HEADS)
        elif kind == 5:
            data = f"GET {self.asked()} HTTP/1.0\r\n\r\n".encode()
        elif kind == 6:
            data = self.request("POST", "/dispatcher/invalidate.cache", self.draw.choice(ODD_FLUSHES))
        elif kind == 7:
            form = self.form()
            data = self.request("POST", self.draw.choice(PAGES),
                f"Expect: 100-continue\r\nContent-Type: application/x-www-form-urlencoded\r\nContent-Length: {len(form)}\r\n") + form.encode()
        elif kind == 8:
            data = self.request(self.draw.choice(["PUT", "OPTIONS", "get"]))
        else:
            host = self.draw.choice(["other.example", "localhost:81", "LOCALHOST"])
            data = f"GET {self.draw.choice(self.hot)} HTTP/1.1\r\nHost: {host}\r\n\r\n".encode()
        if self.chance(0.3):
            cut = self.draw.randrange(1, len(data))
            self.add(f"bytes {connection} {quoted(data[:cut])}")
            # (other bytes within a form would be a form that the model of the site doesn't read)
            if kind != 7 and self.chance(0.5):
                self.step()
            data = data[cut:]
        self.add(f"bytes {connection} {quoted(data)}")

    def form(self):
        return self.draw.choice(FORMS).format(self.draw.randrange(1000))

    def keeps(self):
        """A page that is asked, rendered and kept at once, if nothing else waits."""
        self.add(f"get {self.connection()} {self.draw.choice(self.hot)}")
        self.add("render first")
        self.add("deliver first")

    def fills(self):
        """Many pages below one folder, so that a flush of it takes slices."""
        self.opens()
        page = self.draw.choice(PAGES)
        asked = [f"{page}.s{number}.html" for number in range(MANY)]
        self.add(f"bytes {self.open[-1]} {quoted(b''.join(self.request(target=target) for target in asked))}")
        for step in ("render first", "deliver first"):
            for _ in asked:
                self.add(step)
        if self.chance(0.8):
            self.flushes(self.draw.choice([page, page.rpartition("/")[0], "/content"]), "Delete")

    def flushes(self, handle=None, action=None):
        handle = handle or (self.draw.choice(self.hot).partition(".")[0].partition("/_jcr")[0] if self.chance(0.5) else self.draw.choice(HANDLES))
        action = action or self.draw.choice(["Activate", "Activate", "Deactivate", "Delete"])
        self.add(f"flush {self.connection()} {action} {handle}{' only' if self.chance(0.15) else ''}")

    def about_a_flight(self):
        self.add(f"{self.draw.choice(['render', 'deliver', 'lose'])} {self.draw.randint(1, max(2, self.count // 3))}")

    def restarts(self):
        self.add("restart")
        self.open = []
        for _ in range(self.draw.randint(1, 2)):
            self.opens()

    def closes(self):
        connection = self.connection()
        self.open.remove(connection)
        self.add(f"close {connection}")

    def step(self):
        """One draw, and what it writes."""
        if self.long and self.chance(0.02):
            return self.fills()
        draw = self.draw.random()
        for share, makes in (
            (0.26, lambda: self.add(f"get {self.connection()} {self.asked()}")),
            (0.14, self.keeps),
            (0.11, lambda: self.add("render first")),
            (0.11, lambda: self.add("deliver first")),
            (0.07, lambda: self.add(f"post {self.connection()} {self.draw.choice(PAGES)} {quoted(self.form().encode())}")),
            (0.10, self.flushes),
            (0.05, self.about_a_flight),
            (0.02, lambda: self.add("lose first")),
            (0.03, lambda: self.add("purge")),
            (0.03, self.restarts),
            (0.02, self.closes),
            (0.04, self.odd_bytes),
            (0.01, lambda: self.add(f"direct {self.asked()}")),
        ):
            if draw < share:
                return makes()
            draw -= share
        return self.opens()

    def made(self):
        self.opens()
        while self.count < self.events:
            self.step()
        return self.lines


def scenario_text(farm, lines):
    return f"scenario 1\ncontent\n{CONTENT_TEXT}\n.\nfarm\n{farm.text()}.\n" + "".join(line + "\n" for line in lines) + "end\n"


def site():
    return Site(CONTENT)
