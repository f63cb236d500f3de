"""Whether a transcript is one that the docs allow for its scenario: what of each page was asked, landed, flushed and ended is kept here, and
says of each hit whether it is permitted and of each flight whether a hit was owed (docs/dispatcher/CACHE.md). Beside it each note of each
event has to be the one that is due (docs/formats/FORMATS.md, docs/http/HTTP.md). The program's code is not looked at."""

import collections
import re

from site_model import Answer, Invalidation, answer_bytes, error_answer, mangled, text_of
from turns import STATUSES, Fault, Stream, decoded, path_of, target_of, unmangled

MOST_CONNECTIONS = MOST_FLIGHTS = MOST_FLUSHES = 256
MOST_UNSENT = 64
SLICE = 64
QUOTED = re.compile(rb'\\(?:x([0-9a-f]{2})|([rnt"\\]))')
PLAIN = {b"r": b"\r", b"n": b"\n", b"t": b"\t", b'"': b'"', b"\\": b"\\"}


# What is sent and answered where memory is wanting.
FIXED = b"HTTP/1.1 507 Insufficient Storage\r\nContent-Length: 0\r\nConnection: close\r\n\r\n"
FIXED_ANSWER = Answer(507, b"", b"", "-", b"")


class Violation(Exception):
    """What a transcript has that isn't allowed."""


NAMED = {34: '\\"', 92: "\\\\", 13: "\\r", 10: "\\n", 9: "\\t"}
SPELLED = {byte: NAMED.get(byte) or (chr(byte) if 0x20 <= byte <= 0x7E else f"\\x{byte:02x}") for byte in range(256)}


def quoted(data):
    """A text as scenarios and transcripts quote it."""
    return '"' + data.decode("latin-1").translate(SPELLED) + '"'


def unquoted(text):
    return QUOTED.sub(lambda found: bytes([int(found[1], 16)]) if found[1] else PLAIN[found[2]], text[1:-1].encode())


def answer_text(answer):
    """An answer as a note shows it."""
    shown = [quoted(part) if part else "-" for part in (answer.kind, answer.location)]
    return f"{answer.status} {shown[0]} {shown[1]} {answer.mark} {quoted(answer.body)}"


class Slot:
    """A turn's place among the answers of its connection."""

    def __init__(self, is_request, head_only=False, close=False):
        self.is_request, self.head_only, self.close, self.sent_as = is_request, head_only, close, None

    def give(self, *answers):
        self.sent_as = {answer_bytes(answer, self.head_only, self.close) for answer in answers}


class Connection:
    def __init__(self, number, peer):
        self.number, self.peer, self.stream, self.slots, self.closing = number, peer, Stream(), collections.deque(), False

    def unsent(self):
        return sum(slot.is_request for slot in self.slots)


class Flight:
    """A request that the publisher was asked. It is clear until an invalidation covers its page that is unfinished when it is asked, or
    begins later."""

    def __init__(self, connection, slot, request, key, clear):
        self.connection, self.slot, self.request, self.key, self.clear, self.answer = connection, slot, request, key, clear, None


class Flush:
    def __init__(self, connection, slot, invalidation):
        self.connection, self.slot, self.invalidation, self.slices = connection, slot, invalidation, 0


class Page:
    """What is known of a page: the answers with which a hit may be made, and the one with which it has to be."""

    def __init__(self):
        self.may, self.must = [], None


class Run:
    """The model of a run, which takes event after event with its notes. Where memory may run out, `dry` events are allowed too."""

    def __init__(self, farm, site, may_be_dry=False):
        self.may_be_dry = may_be_dry
        self.farm, self.site = farm, site
        self.connections, self.flights, self.flushes = {}, {}, {}
        self.asked = self.flushed = self.kept = 0
        self.pages = collections.defaultdict(Page)
        self.down, self.epoch, self.downs = False, 1, 0
        self.armed = None
        self.stopped = False
        self.counts = collections.Counter()

    # Notes.

    def take(self, *wanted):
        """The next note, which has to be one of these texts."""
        note = self.notes[self.place] if self.place < len(self.notes) else "no note"
        if note not in wanted:
            raise Violation(f"{note[:200]!r} in place of {' or '.join(wanted)[:400]!r}")
        self.place += 1
        return note

    def peek(self):
        return self.notes[self.place] if self.place < len(self.notes) else ""

    # The disk.

    def fault_line(self, word, way):
        self.armed = word
        self.counts[f"{word} {way}"] += 1
        self.stopped = False

    def event(self, line, notes):
        """One event line, with the notes that the transcript has for it."""
        self.notes, self.place = notes, 0
        # What only a fault explains, what one may explain, and how many answers and flushes it cost.
        self.forced = self.possible = self.spoilt = 0
        # Whether memory ran out, and in how many notes it shows.
        self.dry, self.dried = self.may_be_dry and notes[-1:] == ["dry"], 0
        word, _, rest = line.partition(" ")
        self.counts[f"event {word}"] += 1
        if word == "restart" and self.armed == "stop":
            self.armed, self.stopped = None, False
        getattr(self, word)(rest)
        self.look_at_faults(word)
        if self.place < len(notes):
            raise Violation(f"{notes[self.place][:200]!r} is too much")

    def look_at_faults(self, word):
        hurt = self.peek() == "hurt"
        self.place += hurt
        if self.dry:
            self.take("dry")
            self.counts[f"dry {word}"] += 1
            if not self.dried:
                raise Violation("an event is dry in which nothing shows it")
        if self.forced and not hurt:
            raise Violation("something failed in an event that isn't hurt")
        if not hurt:
            return
        self.counts[f"hurt {word}"] += 1
        self.counts["spoilt"] += self.spoilt
        if not self.armed:
            raise Violation("an event is hurt without a fault that was asked for")
        if not self.possible:
            raise Violation("an event is hurt in which nothing failed")
        if self.armed == "fail" and (self.spoilt > 1 or self.forced > 1):
            raise Violation("one fault cost more than one answer or flush")
        if self.armed == "fail":
            self.armed = None
        else:
            self.stopped = True

    def failed(self):
        """Something ended badly: the disk failed, or memory ran out."""
        self.possible += 1
        if self.dry:
            self.dried += 1
        else:
            self.forced += 1

    def dries(self, note):
        """Whether this note stands here, in which memory ran out."""
        if not self.dry or self.peek() != note:
            return False
        self.place += 1
        self.dried += 1
        return True

    # Sending.

    def send(self, connection):
        """What is sent once the first slots of a connection have their answers."""
        while connection.slots and connection.slots[0].sent_as:
            slot = connection.slots.popleft()
            fixed = f"sent {connection.number} {quoted(FIXED)}"
            if FIXED not in slot.sent_as and self.dries(fixed):
                slot.close = True
            else:
                self.take(*(f"sent {connection.number} {quoted(data)}" for data in slot.sent_as))
            if slot.close:
                self.take(f"shut {connection.number}")
                self.connections.pop(connection.number)
                return

    def is_there(self, connection):
        return self.connections.get(connection.number) is connection

    def answered(self, connection, slot, *answers):
        slot.give(*answers)
        if self.is_there(connection):
            self.send(connection)

    def local(self, connection, slot, status):
        self.take(f"local {connection.number} {status}")
        self.counts[f"local {status}"] += 1
        self.answered(connection, slot, error_answer(status))

    # Events.

    def open(self, rest):
        number, peer = rest.split(" ")
        if int(number) in self.connections:
            self.take("none")
        elif len(self.connections) == MOST_CONNECTIONS:
            self.take(f"refused {number}")
        else:
            self.connections[int(number)] = Connection(int(number), peer)

    def close(self, rest):
        if self.connections.pop(int(rest), None) is None:
            self.take("none")

    def get(self, rest):
        number, target = rest.split(" ")
        self.piece(int(number), f"GET {target} HTTP/1.1\r\nHost: {self.farm.asked}\r\n\r\n".encode())

    def post(self, rest):
        number, target, form = rest.split(" ", 2)
        body = unquoted(form)
        head = f"POST {target} HTTP/1.1\r\nHost: {self.farm.asked}\r\nContent-Type: application/x-www-form-urlencoded\r\nContent-Length: {len(body)}\r\n\r\n"
        self.piece(int(number), head.encode() + body)

    def flush(self, rest):
        number, action, target, *only = rest.split(" ")
        scope = "CQ-Action-Scope: ResourceOnly\r\n" if only else ""
        fields = f"CQ-Action: {action}\r\nCQ-Handle: {target}\r\n{scope}Content-Length: 0\r\n"
        self.piece(int(number), f"POST /dispatcher/invalidate.cache HTTP/1.1\r\nHost: {self.farm.asked}\r\n{fields}\r\n".encode())

    def bytes(self, rest):
        number, text = rest.split(" ", 1)
        self.piece(int(number), unquoted(text))

    def piece(self, number, data):
        connection = self.connections.get(number)
        if connection is None:
            self.take("none")
        elif not connection.closing:
            connection.stream.feed(data)
            while self.is_there(connection) and not connection.closing and self.turn(connection):
                pass

    def turn(self, connection):
        """Treats the next turn of a stream, if there is one."""
        try:
            turn = connection.stream.next()
        except Fault as fault:
            connection.closing = True
            connection.slots.append(Slot(False, False, True))
            self.local(connection, connection.slots[-1], STATUSES[str(fault)])
            return False
        if turn == "continue":
            connection.slots.append(Slot(False))
            connection.slots[-1].sent_as = {b"HTTP/1.1 100 Continue\r\n\r\n"}
            self.send(connection)
        elif turn is not None:
            self.request(connection, turn)
        return turn is not None

    def request(self, connection, request):
        full = connection.unsent() == MOST_UNSENT
        slot = Slot(True, request.method == "HEAD", request.close or full)
        connection.slots.append(slot)
        connection.closing = slot.close
        if self.dries(f"local {connection.number} 507"):
            slot.sent_as, slot.close, connection.closing = {FIXED}, True, True
            self.send(connection)
        elif full or self.down:
            self.local(connection, slot, 503)
        elif text_of(request.path) == "/dispatcher/invalidate.cache":
            self.asks_flush(connection, slot, request)
        elif not self.farm.admits(request):
            self.local(connection, slot, 404)
        else:
            self.asks_page(connection, slot, request)

    def asks_page(self, connection, slot, request):
        key = self.farm.key(request)
        page = self.pages[key] if key is not None else Page()
        shown = quoted(text_of(key).encode()) if key is not None else "-"
        hit, number = f"hit {connection.number} {shown}", self.asked + 1
        if self.peek() == hit:
            if not page.may:
                raise Violation(f"{hit}: no answer is permitted")
            self.take(hit)
            self.counts["hits owed" if page.must is not None else "hits permitted"] += 1
            return self.answered(connection, slot, *page.may)
        if page.must is not None:
            # A hit was owed: only a fault of the disk in this event explains this.
            self.forced += 1
            self.spoilt += 1
        self.possible += key is not None
        if len(self.flights) == MOST_FLIGHTS:
            return self.local(connection, slot, 503)
        if self.peek() != f"ask {number} {connection.number} {shown}" and page.must is not None:
            raise Violation(f"{self.peek()[:200]!r}, where {hit!r} was owed")
        self.take(f"ask {number} {connection.number} {shown}")
        self.counts["asks without a key" if key is None else "asks, owed a hit" if page.must is not None else "asks, permitted a hit" if page.may else "asks"] += 1
        barred = key is not None and any(self.farm.covers(flush.invalidation, key) for flush in self.flushes.values())
        self.flights[number] = Flight(connection, slot, request, key, not barred)
        self.asked = number

    def asks_flush(self, connection, slot, request):
        fields = {name: value for name, value in reversed(request.fields)}
        if not self.farm.decides("clients", connection.peer):
            return self.local(connection, slot, 403)
        invalidation = invalidation_of(fields)
        if invalidation is None:
            return self.local(connection, slot, 400)
        if len(self.flushes) == MOST_FLUSHES:
            return self.local(connection, slot, 503)
        self.flushed += 1
        scope = "only" if invalidation.only else "all"
        self.take(f"flush {self.flushed} {invalidation.action} {quoted(text_of(invalidation.handle).encode())} {scope}")
        self.counts[f"flush {invalidation.action} {scope}"] += 1
        for key, page in self.pages.items():
            if page.must is not None and self.farm.covers(invalidation, key):
                page.must = None
        for flight in self.flights.values():
            if flight.clear and flight.key is not None and self.farm.covers(invalidation, flight.key):
                flight.clear = False
                self.counts["flights that a flush covers"] += 1
        self.flushes[self.flushed] = Flush(connection, slot, invalidation)
        if len(self.flushes) == 1:
            self.slice()
        else:
            self.counts["flushes that wait"] += 1

    def slice(self):
        """A slice of the oldest flush that isn't finished."""
        number = min(self.flushes)
        flush = self.flushes[number]
        if self.peek() == f"done {number}":
            self.place += 1
            self.no_disk("a flush is done")
            for key, page in self.pages.items():
                if page.may and self.farm.covers(flush.invalidation, key):
                    page.may = []
            self.ended(number, 200, "done")
        elif self.peek() == f"failed {number}":
            self.place += 1
            self.spoilt += not self.dry
            self.failed()
            self.ended(number, 507 if self.dry else 500, "failed")
        else:
            flush.slices += 1
            self.counts["slices that leave more"] += 1
            if SLICE * flush.slices > 2 * self.kept + (self.farm.level + 1) * self.flushed + 1:
                raise Violation(f"flush {number} isn't ended by its slice {flush.slices + 1}")

    def ended(self, number, status, how):
        self.counts[how] += 1
        flush = self.flushes.pop(number)
        answer = Answer(200, b"text/plain;charset=utf-8", b"", "-", b"200 OK\n") if status == 200 else error_answer(status)
        self.answered(flush.connection, flush.slot, answer)

    def no_disk(self, what):
        if self.stopped:
            raise Violation(f"{what} though the disk has stopped")

    def purge(self, _):
        if self.flushes:
            self.slice()
        else:
            self.take("none")

    def direct(self, target):
        read = target_of(target.encode())
        answer = self.site.answer("GET", read[0]) if read else error_answer(400)
        if not self.dries(f"answer {answer_text(FIXED_ANSWER)}"):
            self.take(f"answer {answer_text(answer)}")

    def picked(self, pick, able):
        """The number of the flight that a step is about, or none."""
        fit = [number for number, flight in self.flights.items() if able(flight)]
        number = min(fit, default=None) if pick == "first" else int(pick)
        if number not in fit:
            self.take("none")
            return None
        return number

    def render(self, pick):
        number = self.picked(pick, lambda flight: flight.answer is None)
        if number is None:
            return
        flight = self.flights[number]
        request = flight.request
        if self.dries(f"rendered {number} {answer_text(FIXED_ANSWER)}"):
            flight.answer = FIXED_ANSWER
            return
        kind = next((value for name, value in request.fields if name == b"content-type"), b"")
        flight.answer = self.site.answer(request.method, request.path, kind, request.body)
        self.take(f"rendered {number} {answer_text(flight.answer)}")
        self.counts[f"rendered {request.method} {flight.answer.status}"] += 1

    def deliver(self, pick):
        number = self.picked(pick, lambda flight: flight.answer is not None)
        if number is None:
            return
        flight = self.flights.pop(number)
        answer = flight.answer
        if flight.key is None or answer.status != 200 or answer.mark != "-" or not flight.clear:
            self.take(f"passed {number}")
            self.counts["passed, covered" if flight.key is not None and answer.status == 200 and answer.mark == "-" else "passed"] += 1
        else:
            self.lands(number, flight.key, answer._replace(location=b""))
        self.answered(flight.connection, flight.slot, answer)

    def lands(self, number, key, answer):
        page = self.pages[key]
        self.kept += 1
        if self.take(f"kept {number} {quoted(text_of(key).encode())}", f"unkept {number}").startswith("kept"):
            self.no_disk("a page is kept")
            page.may, page.must = [answer], answer
            self.counts["kept"] += 1
        else:
            page.may, page.must = page.may + [answer], None
            self.failed()
            self.counts["unkept"] += 1

    def lose(self, pick):
        number = self.picked(pick, lambda flight: True)
        if number is not None:
            flight = self.flights.pop(number)
            self.take(f"lost {number}")
            self.counts["lost"] += 1
            self.answered(flight.connection, flight.slot, error_answer(502))

    def restart(self, _):
        for number in sorted(self.flights):
            self.take(f"lost {number}")
        for number in sorted(self.flushes):
            self.take(f"failed {number}")
        for number in sorted(self.connections):
            self.take(f"shut {number}")
        self.counts["flights lost by a restart"] += len(self.flights)
        self.counts["flushes failed by a restart"] += len(self.flushes)
        self.connections, self.flights, self.flushes = {}, {}, {}
        if self.peek() == "down":
            self.place += 1
            self.down = True
            self.downs += 1
            self.failed()
            self.counts["down"] += 1
            return
        self.take(*(f"up {epoch}" for epoch in range(self.epoch + 1, self.epoch + self.downs + 2)))
        self.down, self.downs, self.epoch = False, 0, int(self.notes[self.place - 1].split(" ")[1])
        self.counts["up"] += 1


def invalidation_of(fields):
    """What the fields of a flush say, or none."""
    handle, action = fields.get(b"cq-handle"), fields.get(b"cq-action", b"").decode(errors="replace")
    if handle is None or action not in ("Activate", "Deactivate", "Delete"):
        return None
    try:
        path = path_of(decoded(handle).decode())
    except UnicodeDecodeError:
        return None
    if path is None:
        return None
    return Invalidation(action, tuple(mangled(unmangled(segment)) for segment in path), fields.get(b"cq-action-scope") == b"ResourceOnly")


def notes_of(transcript):
    """The notes of each event of a transcript."""
    events = []
    for line in transcript.split("\n")[:-1]:
        if line.startswith("@ "):
            events.append([])
            if line != f"@ {len(events)}":
                raise Violation(f"{line!r} in place of '@ {len(events)}'")
        elif not events:
            raise Violation(f"{line[:200]!r} before the first event")
        else:
            events[-1].append(line)
    return events


def check(farm, site, lines, transcript, may_be_dry=False, is_whole=True):
    """Ends well where the transcript is allowed for these lines of a scenario, and gives how often each thing came. Where it isn't whole, its
    last event may be cut, and isn't looked at."""
    run = Run(farm, site, may_be_dry)
    events = notes_of(transcript)
    if not is_whole:
        events = events[:-1]
    event = 0
    for line in lines:
        word, _, rest = line.partition(" ")
        if word in ("fail", "stop"):
            run.fault_line(word, rest.split(" ")[1])
            continue
        if event == len(events) and not is_whole:
            break
        if event == len(events):
            raise Violation(f"no event {event + 1} for {line!r}")
        try:
            run.event(line, events[event])
        except Violation as found:
            raise Violation(f"event {event + 1}, {line!r}: {found}") from None
        event += 1
    if event != len(events):
        raise Violation(f"{len(events)} events of {event}")
    return run.counts
