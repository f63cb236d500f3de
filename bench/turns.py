"""What the bytes of a connection ask for, told from docs/http/HTTP.md and docs/sling/URLS.md alone: whole requests, a Continue before one,
and the fault that ends a stream. The program's own reading is not looked at."""

import collections
import re

MOST_HEAD = 16_384
MOST_FIELDS = 100
MOST_BODY = 8_388_608
STATUSES = {"BadHead": 400, "ManyHeaders": 431, "BadTarget": 400, "NoLength": 411, "BadLength": 400, "LongBody": 413, "LongHead": 431}

TOKEN = rb"!#$%&'*+\-.^_`|~0-9A-Za-z"
URI = rb"\x21-\x7e\x80-\xff"
VALUE = rb"\t\x20-\x7e\x80-\xff"
HEAD = re.compile(
    rb"(?:\r?\n)*([" + TOKEN + rb"]+) ([" + URI + rb"]+) HTTP/1\.([01])\r?\n((?:[" + TOKEN + rb"]+:[" + VALUE + rb"]*\r?\n)*)\r?\n"
)
FIELD = re.compile(rb"([" + TOKEN + rb"]+):([" + VALUE + rb"]*)\r?\n")
HOST = re.compile(rb"([-_.A-Za-z0-9]+)(?::([0-9]*))?")
LENGTH = re.compile(rb"[0-9]{1,18}")
MANGLED = re.compile(r"_(jcr|sling|nt|cq)_(.+)", re.S)
ESCAPE = re.compile(rb"%([0-9A-Fa-f]{2})")
# The parts of a head of which each byte may still follow, one after another: a head that isn't whole ends within one of them.
BLANK = re.compile(rb"(?:\r?\n)*")
METHOD = re.compile(rb"[" + TOKEN + rb"]*")
TARGET = re.compile(rb"[" + URI + rb"]*")
NAME = re.compile(rb"[" + TOKEN + rb"]+")
REST = re.compile(rb"[" + VALUE + rb"]*")

Request = collections.namedtuple("Request", "method line minor host port path slash query fields body close")


class Fault(Exception):
    """A head or a body that is refused, with the fault's name."""


def decoded(path):
    return ESCAPE.sub(lambda found: bytes([int(found[1], 16)]), path)


def unmangled(segment):
    """`_jcr_content` is `jcr:content`."""
    found = MANGLED.fullmatch(segment)
    return f"{found[1]}:{found[2]}" if found else segment


def path_of(text):
    """The segments of a path's text, or none."""
    if not text.startswith("/"):
        return None
    segments = tuple(text[1:].split("/")) if text != "/" else ()
    if len(segments) > 64 or any(segment in ("", ".", "..") or len(segment.encode()) > 200 for segment in segments):
        return None
    return segments


def target_of(target):
    """The path, whether a slash was dropped, and the query; or none where the target is a bad one."""
    path, mark, query = target.partition(b"?")
    if not path.startswith(b"/"):
        return None
    try:
        text = decoded(path).decode()
    except UnicodeDecodeError:
        return None
    slash = text != "/" and text.endswith("/")
    segments = path_of(text[:-1] if slash else text)
    if segments is None:
        return None
    return tuple(unmangled(segment) for segment in segments), slash, query if mark else None


def named(fields, name):
    return [value for other, value in fields if other == name]


def host_of(minor, fields):
    """The host and the port that are asked, or none."""
    found = named(fields, b"host")
    if not found:
        return ("", 80) if minor == 0 else None
    read = HOST.fullmatch(found[0])
    if len(found) > 1 or not read:
        return None
    port = read[2] or b"80"
    if (len(port) > 1 and port.startswith(b"0")) or len(port) > 18 or int(port) > 65_535:
        return None
    return read[1].decode(), int(port)


def length_of(fields):
    """The length of the body, or none."""
    found = named(fields, b"content-length")
    if not found:
        return 0
    return int(found[0]) if len(found) == 1 and LENGTH.fullmatch(found[0]) else None


def checked(minor, target, fields):
    """What a whole head asks: host, port, path, slash, query and the length of the body. Its first fault is raised."""
    host, read, length = host_of(minor, fields), target_of(target), length_of(fields)
    for fault, stands in (
        ("BadHead", host is None),
        ("ManyHeaders", len(fields) > MOST_FIELDS),
        ("BadTarget", read is None),
        ("NoLength", named(fields, b"transfer-encoding") != []),
        ("BadLength", length is None),
        ("LongBody", length is not None and length > MOST_BODY),
    ):
        if stands:
            raise Fault(fault)
    return *host, *read, length


def elements(fields, name):
    """The elements of all fields of a name, in lower case."""
    return [element.strip(b" \t").lower() for value in named(fields, name) for element in value.split(b",")]


def may_become_head(held):
    """Whether more bytes may make these, which hold no whole head, begin with one. None where they end within a target that is no UTF-8:
    it may be refused at once, or at its end."""
    place = BLANK.match(held).end()
    if held[place:] in (b"", b"\r"):
        return True
    end = METHOD.match(held, place).end()
    if end == len(held):
        return True
    if end == place or held[end] != 0x20:
        return False
    place, end = end + 1, TARGET.match(held, end + 1).end()
    spoilt = not is_text(held[place:end])
    if end == len(held):
        return None if spoilt and not is_begun_text(held[place:end]) else True
    if end == place or held[end] != 0x20 or spoilt:
        return False
    return may_become_rest(held, end + 1)


def may_become_rest(held, place):
    """The same from the version on."""
    begun = held[place : place + 8]
    if len(begun) < 8:
        return b"HTTP/1.0".startswith(begun) or b"HTTP/1.1".startswith(begun)
    if begun not in (b"HTTP/1.0", b"HTTP/1.1"):
        return False
    place += 8
    while True:
        # At the end of a line.
        if held[place:] in (b"", b"\r"):
            return True
        if held[place : place + 1] == b"\n":
            place += 1
        elif held[place : place + 2] == b"\r\n":
            place += 2
        else:
            return False
        # At a field, or at the empty line that ends the head.
        if held[place:] in (b"", b"\r"):
            return True
        name = NAME.match(held, place)
        if not name:
            return False
        if name.end() == len(held):
            return True
        if held[name.end()] != 0x3A:
            return False
        place = REST.match(held, name.end() + 1).end()


def is_text(held):
    try:
        held.decode()
    except UnicodeDecodeError:
        return False
    return True


def is_begun_text(held):
    """Whether bytes may follow after which this is UTF-8."""
    try:
        held.decode()
    except UnicodeDecodeError as fault:
        return fault.reason == "unexpected end of data"
    return True


class Stream:
    """The turns of one connection's bytes. `open_end` says that the last answer of `next` is one of two that are allowed."""

    def __init__(self):
        self.held, self.continued, self.fault, self.open_end = b"", False, None, False

    def feed(self, piece):
        self.held += piece

    def next(self):
        """The next turn: a Request, "continue", or none where the stream waits. A fault is raised, and again from then on."""
        if self.fault:
            raise Fault(self.fault)
        try:
            return self.turn()
        except Fault as fault:
            self.fault = str(fault)
            raise

    def turn(self):
        window = self.held[:MOST_HEAD]
        head = HEAD.match(window)
        if not head or not is_text(head[2]):
            return self.without_head(window, head)
        method, target, minor = head[1], head[2], int(head[3])
        fields = [(name.lower(), value.strip(b" \t")) for name, value in FIELD.findall(head[4])]
        host, port, path, slash, query, length = checked(minor, target, fields)
        if minor == 1 and length > 0 and named(fields, b"expect")[:1] and named(fields, b"expect")[0].lower() == b"100-continue" and not self.continued:
            self.continued = True
            return "continue"
        if len(self.held) < head.end() + length:
            return None
        body, self.held, self.continued = self.held[head.end() : head.end() + length], self.held[head.end() + length :], False
        close = minor == 0 or b"close" in elements(fields, b"connection")
        line = f"{method.decode()} {target.decode()} HTTP/1.{minor}"
        return Request(method.decode(), line, minor, host, port, path, slash, query, fields, body, close)

    def without_head(self, window, head):
        may = False if head else may_become_head(window)
        self.open_end = may is None
        if may is False:
            raise Fault("BadHead")
        if len(window) == MOST_HEAD:
            raise Fault("LongHead")
        return None
