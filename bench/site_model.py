"""A small site and its farms, told from the docs alone: what the publisher answers for pages that one script renders and for forms that set a
number or delete a node (docs/sling), and what the Dispatcher decides (docs/dispatcher/RULES.md, COVERAGE.md, FARM.md). The program's own
reading is not looked at."""

import collections
import http
import json
import re
import urllib.parse

Answer = collections.namedtuple("Answer", "status kind location mark body")
NAMESPACED = re.compile(r"(jcr|sling|nt|cq):(.+)", re.S)
KEPT_BYTES = re.compile(rb"[-._0-9A-Za-z]")
Invalidation = collections.namedtuple("Invalidation", "action handle only")
PHRASES = {413: "Content Too Large"}
PLAIN, HTML, JSON = b"text/plain;charset=utf-8", b"text/html;charset=utf-8", b"application/json;charset=utf-8"


def phrase(status):
    return PHRASES.get(status) or http.HTTPStatus(status).phrase


def error_answer(status):
    return Answer(status, PLAIN, b"", "-", f"{status} {phrase(status)}\n".encode())


def answer_bytes(answer, head_only=False, close=False):
    """An answer as it is sent."""
    lines = [f"HTTP/1.1 {answer.status} {phrase(answer.status)}".encode()]
    if answer.kind:
        lines.append(b"Content-Type: " + answer.kind)
    if answer.location:
        lines.append(b"Location: " + answer.location)
    if answer.status == 405:
        lines.append(b"Allow: GET, HEAD, POST")
    if answer.mark != "-":
        lines.append(b"Cache-Control: " + answer.mark.encode())
    if not head_only or answer.body:
        lines.append(b"Content-Length: %d" % len(answer.body))
    if close:
        lines.append(b"Connection: close")
    return b"\r\n".join(lines) + b"\r\n\r\n" + (b"" if head_only else answer.body)


def mangled(segment):
    found = NAMESPACED.fullmatch(segment)
    return f"_{found[1]}_{found[2]}" if found else segment


def text_of(segments):
    return "/" + "/".join(segments)


def glob(text):
    """Whether a text matches a glob with stars and question marks."""
    pattern = re.compile("".join(".*" if c == "*" else "." if c == "?" else re.escape(c) for c in text), re.S)
    return lambda given: pattern.fullmatch(given) is not None


def page_key(path):
    """The mangled segments of a path that has a page, or none."""
    key = tuple(mangled(segment) for segment in path)
    if not key or "." not in key[-1] or key[-1].startswith(".") or key[-1].endswith("."):
        return None
    if any("." in segment for segment in key[:-1]):
        return None
    return None if any(length_of_name(segment) > 200 for segment in key) else key


def length_of_name(segment):
    """How many bytes the file's name of a segment has."""
    data = segment.encode()
    return 3 * len(data) - 2 * len(KEPT_BYTES.findall(data))


def parts_of(text):
    """A text cut at its first dot: before it, selectors, extension and suffix."""
    before, dot, after = text.partition(".")
    if not dot:
        return text, "", "", ""
    piece, slash, rest = after.partition("/")
    pieces = piece.split(".")
    return before, ".".join(filter(None, pieces[:-1])), pieces[-1], slash + rest


class Farm:
    """The rules of one farm, and the text in which a scenario writes them."""

    def __init__(self, hosts, filters, level, rules, invalidate, clients, ignored, authorized=False):
        self.hosts, self.filters, self.level, self.authorized = hosts, filters, level, authorized
        self.rules, self.invalidate, self.clients, self.ignored = rules, invalidate, clients, ignored
        name, colon, port = hosts[0].partition(":")
        self.host, self.port = (name, int(port) if colon else 80) if re.fullmatch(r"[-_.A-Za-z0-9]+", name) else ("localhost", 80)
        self.asked = self.host if self.port == 80 else f"{self.host}:{self.port}"
        self.host_globs = [(glob(h.partition(":")[0]), h.partition(":")[2]) for h in hosts]
        self.filter_globs = [(allow, {field: glob(text) for field, text in entry.items()}) for allow, entry in filters]
        self.lists = {name: [(allow, glob(text)) for allow, text in getattr(self, name)] for name in ("rules", "invalidate", "clients", "ignored")}

    def text(self):
        def entries(rows):
            return " ".join(f'/{n:04} {{ /type "{"allow" if allow else "deny"}" /glob "{text}" }}' for n, (allow, text) in enumerate(rows))

        filters = "\n".join(
            f'    /{n:04} {{ /type "{"allow" if allow else "deny"}" ' + " ".join(f'/{field} "{text}"' for field, text in entry.items()) + " }"
            for n, (allow, entry) in enumerate(self.filters)
        )
        hosts = " ".join(f'"{host}"' for host in self.hosts)
        return (
            f"/farms {{ /site {{\n  /virtualhosts {{ {hosts} }}\n  /filter {{\n{filters}\n  }}\n  /cache {{\n"
            f'    /statfileslevel "{self.level}"\n    /allowAuthorized "{int(self.authorized)}"\n    /rules {{ {entries(self.rules)} }}\n'
            f"    /invalidate {{ {entries(self.invalidate)} }}\n    /allowedClients {{ {entries(self.clients)} }}\n"
            f"    /ignoreUrlParams {{ {entries(self.ignored)} }}\n  }}\n}} }}\n"
        )

    def decides(self, name, text):
        """The last entry that matches decides, and none denies."""
        decided = False
        for allow, matches in self.lists[name]:
            if matches(text):
                decided = allow
        return decided

    def admits(self, request):
        host, port = (request.host.lower(), request.port) if request.host else (self.host, self.port)
        if not any(matches(host) and (not wanted or int(wanted) == port) for matches, wanted in self.host_globs):
            return False
        url = text_of(request.path)
        path, selectors, extension, suffix = parts_of(url)
        told = {"glob": request.line, "method": request.method, "url": url, "path": path, "selectors": selectors}
        told.update(extension=extension, suffix=suffix, query=(request.query or b"").decode(errors="replace"))
        decided = False
        for allow, globs in self.filter_globs:
            if all(matches(told[field]) for field, matches in globs.items()):
                decided = allow
        return decided

    def key(self, request):
        """The page under which the answer may be kept, or none."""
        if request.method != "GET" or (not self.authorized and any(name == b"authorization" for name, _ in request.fields)):
            return None
        names = [name for name, _ in urllib.parse.parse_qsl((request.query or b"").decode(), keep_blank_values=True)]
        key = page_key(request.path)
        if key is None or not all(self.decides("ignored", name) for name in names) or not self.decides("rules", text_of(key)):
            return None
        return key

    def covers(self, invalidation, key):
        """Whether an invalidation covers a page."""
        handle, folder = invalidation.handle, key[:-1]
        if key == handle or (handle and text_of(key).startswith(text_of(handle) + ".")):
            return True
        below = handle + ("_jcr_content",)
        if folder[: len(below)] == below:
            return True
        if invalidation.action != "Activate" and key[: len(handle)] == handle:
            return True
        if invalidation.only or not self.decides("invalidate", text_of(key)):
            return False
        depth = min(self.level, len(folder))
        return handle[:-1][:depth] == folder[:depth]


class Site:
    """The publisher: a tree of nodes, of which the script of `site/page` renders the number `n`."""

    def __init__(self, tree):
        self.nodes = {}
        self.add((), tree)

    def add(self, path, node):
        self.nodes[path] = {name: value for name, value in node.items() if not isinstance(value, dict)}
        for name, kid in node.items():
            if isinstance(kid, dict):
                self.add((*path, name), kid)

    def split(self, path):
        """The node that a path names, with its selectors, extension and suffix, or none."""
        text = text_of(path)
        for place in sorted([n for n, c in enumerate(text) if c == "."] + [len(text)], reverse=True):
            front = tuple(text[1:place].split("/")) if text[:place] != "/" else ()
            if front in self.nodes:
                _, selectors, extension, suffix = parts_of("x" + text[place:])
                return front, selectors, extension, suffix
        return None

    def answer(self, method, path, kind=b"", body=b""):
        """The answer to a request, after which a POST has changed the tree."""
        if method not in ("GET", "HEAD", "POST"):
            return error_answer(405)
        found = self.split(path)
        if method == "POST":
            return self.posted(found[0] if found else path, kind, body)
        return self.got(*found) if found else error_answer(404)

    def got(self, path, selectors, extension, suffix):
        node = self.nodes[path]
        mark = node.get("sp:mark", "-")
        if extension == "html" and node.get("sling:resourceType") == "site/page":
            number = node.get("n", "")
            return Answer(200, HTML, b"", mark, f"<p>{number}</p>".encode())
        if extension == "json" and not selectors:
            text = json.dumps({name: node[name] for name in sorted(node)}, separators=(",", ":"), ensure_ascii=False)
            return Answer(200, JSON, b"", mark, text.encode())
        return error_answer(404)

    def posted(self, path, kind, body):
        if kind.partition(b";")[0].lower() != b"application/x-www-form-urlencoded":
            return error_answer(415 if kind or body else 400)
        form = dict(reversed(urllib.parse.parse_qsl(body.decode(), keep_blank_values=True)))
        if form.get(":operation") == "delete":
            return self.deleted(path)
        number = form["n"]
        if "n@TypeHint" in form and not re.fullmatch(r"-?[0-9]+", number):
            return error_answer(400)
        text, new = text_of(path), path not in self.nodes
        for depth in range(1, len(path) + 1):
            self.nodes.setdefault(path[:depth], {})
        self.nodes[path].update((name, value) for name, value in form.items() if "@" not in name)
        if "n@TypeHint" in form:
            self.nodes[path]["n"] = int(number)
        status, location = (201, text) if new else (200, "")
        return Answer(status, PLAIN, location.encode(), "-", f"{status} {text}\n".encode())

    def deleted(self, path):
        if path not in self.nodes:
            return error_answer(404)
        for other in [other for other in self.nodes if other[: len(path)] == path]:
            del self.nodes[other]
        return Answer(200, PLAIN, b"", "-", f"200 {text_of(path)}\n".encode())
