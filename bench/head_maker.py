"""Heads that are mostly good, and wrong in one or a few places: mutations of good ones, and heads from a grammar."""

HOSTS = [b"localhost", b"localhost:8080", b"www.example.com", b"a-b_c.d:", b"A", b"127.0.0.1:65535"]
GOOD = [
    *(b"GET %s HTTP/1.1\r\nHost: localhost\r\n\r\n" % target for target in (b"/", b"/content/en.html", b"/a%20b.html", b"/a/b/c?x=1&y=2",
        b"/_jcr_content/x.json", b"/\xc3\xa4", b"/a/", b"//")),
    *(b"%s /content/en HTTP/1.1\r\nHost: localhost\r\n\r\n" % method for method in (b"HEAD", b"OPTIONS", b"PUT", b"DELETE", b"get", b"M-SEARCH",
        b"!#$%&'*+-.^_`|~9aZ")),
    *(b"GET /x HTTP/1.1\r\nHost: %s\r\n\r\n" % host for host in HOSTS),
    *(b"GET /x HTTP/1.0\r\n%s\r\n" % fields for fields in (b"", b"Host: localhost\r\n", b"Connection: keep-alive\r\n")),
    *(b"POST /x HTTP/1.1\r\nHost: localhost\r\nContent-Length: %d\r\n\r\n%s" % (length, b"x" * length) for length in (0, 1, 7, 100)),
    *(b"POST /x HTTP/1.1\r\nHost: localhost\r\nContent-Length: %s\r\n\r\nabcde" % length for length in (b"5", b"05", b"000000000000000005")),
    *(b"POST /x HTTP/1.1\r\nHost: localhost\r\nExpect: %s\r\nContent-Length: 3\r\n\r\nabc" % expect for expect in (b"100-continue", b"100-Continue",
    b"other", b"")),
    *(b"GET /x HTTP/1.1\r\nHost: localhost\r\nConnection: %s\r\n\r\n" % option for option in (b"close", b"keep-alive", b"Close, x", b"x ,\tclose", b"closed")),
    *(b"GET /x HTTP/1.1\r\nHost: localhost\r\n%s\r\n" % field for field in (b"A: \xff\x80\r\n", b"A:\t x \t\r\n", b"A:\r\n", b"A:b:c\r\n",
    b"Cookie: a=b; c=d\r\n", b"Accept: */*\r\nAccept: text/html\r\n")),
    *(b"GET /x HTTP/1.1%sHost: localhost%s%s" % ends for ends in ((b"\n", b"\n", b"\n"), (b"\r\n", b"\n", b"\r\n"), (b"\n", b"\r\n", b"\n"))),
    *(blank + b"GET /x HTTP/1.1\r\nHost: localhost\r\n\r\n" for blank in (b"\r\n", b"\n\r\n\n")),
    *(b"GET /%s HTTP/1.1\r\nHost: localhost\r\n\r\n" % (b"s/" * count + b"t") for count in (1, 62, 63)),
    *(b"GET /x HTTP/1.1\r\nHost: localhost\r\n%s\r\n" % b"".join(b"A%d: x\r\n" % number for number in range(count)) for count in (98, 99)),
    b"GET /%s HTTP/1.1\r\nHost: localhost\r\n\r\n" % (b"a" * 200),
    b"GET /x HTTP/1.1\r\nHost: localhost\r\nA: %s\r\n\r\n" % (b"x" * 16_000),
    b"POST /dispatcher/invalidate.cache HTTP/1.1\r\nHost: localhost\r\nCQ-Action: Activate\r\nCQ-Handle: /content/en\r\nContent-Length: 0\r\n\r\n",
    b"POST /x HTTP/1.1\r\nHost: localhost\r\nContent-Type: application/x-www-form-urlencoded\r\nContent-Length: 3\r\n\r\na=b",
    b"GET /x HTTP/1.1\r\nHost: localhost\r\n\r\nGET /y HTTP/1.1\r\nHost: localhost\r\n\r\n",
    b"POST /x HTTP/1.1\r\nHost: localhost\r\nContent-Length: 4\r\n\r\nGET GET /y HTTP/1.1\r\nHost: localhost\r\nConnection: close\r\n\r\n",
]

PIECES = [
    b"", b" ", b"\t", b"\r", b"\n", b"\r\n", b"\r\r\n", b"\n\n", b"\0", b"\x7f", b"\x0b", b"\x1f", b":", b": ", b" :", b"/", b"//", b"/../", b"/./",
        b"%2e%2e", b"%", b"%2", b"%ff", b"%00", b"%c3",
    b"%2F", b"?", b"#", b"\\", b"\xff", b"\xc3", b"\xc3\xa4", b"\xed\xa0\x80", b"\xf4\x90\x80\x80", b"a" * 201, b"/s" * 65, b"HTTP/1.1", b"HTTP/1.0",
        b"HTTP/2.0", b"http/1.1", b"HTTP/1.10", b"Host: localhost\r\n",
    b"Host: \r\n", b"Content-Length: 5\r\n", b"Content-Length: 0\r\n", b"Transfer-Encoding: chunked\r\n", b"transfer-encoding : chunked\r\n",
        b"Expect: 100-continue\r\n", b"Connection: close\r\n", b" folded\r\n",
    b"\tfolded\r\n", b"GET ", b"POST ", b"GET / HTTP/1.1\r\n", b"X" * 17_000, b"A: x\r\n" * 101, b",", b";", b"=", b'"', b"[::1]", b":65536", b":080",
        b"0x5", b"+5", b"-1", b"5,5", b"5 5", b"8388608", b"8388609",
    b"999999999999999999", b"1234567890123456789",
]

METHODS = [b"GET"] * 6 + [b"POST", b"HEAD", b"", b"G E T", b"G\0T", b"(GET)", b"GET:", b"\xc3\xa4", b"PRI", b"CONNECT", b"TRACE"]
TARGETS = [b"/"] * 4 + [b"/a.html", b"/a//b", b"/a/../b", b"/%2e%2e/a", b"/%ff", b"/%c3%a4", b"/%2F", b"/a%2f..", b"x", b"*", b"http://localhost/",
    b"?q", b"/?", b"/a?%ff", b"/a b", b"/a\tb", b"/\x7f", b"/\xff", b"/a#b",
    b"/dispatcher/invalidate.cache", b"/dispatcher/invalidate%2ecache/", b"/dispatcher%2finvalidate.cache?x", b"", b"/" + b"a" * 201, b"/s" * 64,
    b"/s" * 65, b"/...", b"/.", b"/..", b"/a/.", b"//", b"///"]
VERSIONS = [b"HTTP/1.1"] * 8 + [b"HTTP/1.0", b"HTTP/1.2", b"HTTP/2", b"HTTP/1.1 ", b" HTTP/1.1", b"HTTP/1.", b"", b"http/1.1", b"HTTP/0.9"]
ENDS = [b"\r\n"] * 12 + [b"\n", b"\r", b"\r\r\n", b"\n\r", b" \r\n", b""]
NAMES = [b"Host", b"host", b"HOST", b"Content-Length", b"content-length", b"Transfer-Encoding", b"Expect", b"Connection", b"A", b"Host ", b" Host",
    b"", b"A b", b"A\0", b"A\xc3\xa4", b"(A)", b"Content_Length", b"CQ-Handle"]
COLONS = [b": "] * 8 + [b":", b" :", b"", b":\t", b": \t ", b"=", b"::"]
VALUES = [b"localhost"] * 4 + [b"0", b"5", b"05", b"+5", b"5,5", b"5, 5", b"", b"x y", b"chunked", b"identity", b"100-continue", b"close",
    b"keep-alive", b"a:80", b"a:0", b"a:", b"a:080", b"a:65535", b"a:65536", b"a b", b"[::1]",
    b"a/b", b"a\0b", b"\x01", b"\x7f", b"\xff", b"\xc3\xa4", b"8388608", b"8388609", b"1" * 18, b"1" * 19, b"5\t", b"\x0b5"]
LENGTHS = [b"0", b"1", b"5", b"10", b"38", b"39", b"+5", b"5,5", b" 5", b"5 ", b"0x5", b"05", b"5\r\nContent-Length: 6", b"5\r\nContent-Length: 5",
    b"5\nA: b", b"1e1", b"5;x", b""]
CODINGS = [b"Transfer-Encoding: chunked", b"Transfer-Encoding : chunked", b"transfer-encoding:chunked", b"Transfer-Encoding: identity",
    b"Transfer-Encoding: chunked, identity", b"Transfer-Encoding: xchunked",
    b"Transfer-Encoding:\x0bchunked", b"Transfer-Encoding: chunked\r\nTransfer-Encoding: x", b"Transfer-Encoding\t: chunked",
    b" Transfer-Encoding: chunked", b"X: y\r\n Transfer-Encoding: chunked", b"X: y\nTransfer-Encoding: chunked",
    b"X: y\rTransfer-Encoding: chunked", b"Transfer_Encoding: chunked", b"Transfer-Encoding: \"chunked\"", b"Transfer-Encoding: chunked\x00",
    b"Connection: Transfer-Encoding\r\nTransfer-Encoding: chunked"]
INNER = [b"GET /inner HTTP/1.1\r\nHost: localhost\r\n\r\n", b"0\r\n\r\nGET /inner HTTP/1.1\r\nHost: localhost\r\n\r\n", b"5\r\nabcde\r\n0\r\n\r\n",
    b"0\r\n\r\n", b"abcde", b"", b"1\r\nZ\r\nQ\r\n\r\n",
    b"26\r\nGET /inner HTTP/1.1\r\nHost: localhost\r\n\r\n\r\n0\r\n\r\n", b"0;x=y\r\nA: b\r\n\r\n",
    b"00000000000000000\r\n\r\nGET /inner HTTP/1.1\r\nHost: localhost\r\n\r\n"]


def mutated(draw, data):
    """A good head with one to four places changed."""
    for _ in range(draw.choice([1, 1, 1, 2, 3, 4])):
        place, kind = draw.randrange(len(data) + 1), draw.randrange(8)
        if kind == 0:
            data = data[:place] + bytes([draw.randrange(256)]) + data[place + 1 :]
        elif kind == 1:
            data = data[:place] + data[place + draw.choice([1, 1, 2, 5]) :]
        elif kind in (2, 3):
            data = data[:place] + draw.choice(PIECES) + data[place:]
        elif kind == 4:
            piece = draw.choice(PIECES)
            data = data[:place] + piece + data[place + len(piece) :]
        elif kind == 5:
            lines = data.split(b"\r\n")
            at = draw.randrange(len(lines))
            lines.insert(draw.randrange(len(lines)), lines[at] if draw.random() < 0.5 else lines.pop(at))
            data = b"\r\n".join(lines)
        elif kind == 6:
            data = data[:place]
        else:
            data = data.replace(*draw.choice([(b"\r\n", b"\n"), (b": ", b":"), (b"localhost", b""), (b" ", b"  "), (b"Host", b"hoST"),
                (b"1.1", b"1.0"), (b"GET", b"POST")]))
        if not data:
            return data
    return data


FIELDS = [b"Content-Length: %s\r\n" % value for value in (b"0", b"3", b"+3", b"3,3", b"8388608", b"8388609", b"1" * 18, b"1" * 19, b"", b"3 3",
    b"0x3", b"x")] + [
    b"Transfer-Encoding: chunked\r\n", b"Transfer-Encoding:\r\n", b"Host: localhost\r\n", b"Expect: 100-continue\r\n", b"Connection: close\r\n",
        b"A: x\r\n" * 99, b"A: x\r\n" * 100, b"A: " + b"x" * 16_200 + b"\r\n",
]


def made(draw):
    """A head from the grammar, most parts of which are good."""

    def part(good, others, share=0.05):
        return draw.choice(others) if draw.random() < share else good

    line = part(b"GET", METHODS, 0.3) + part(b" ", [b"  ", b"\t", b""], 0.02) + part(b"/", TARGETS, 0.5) + part(b" ", [b"  ", b"\t", b""],
        0.02) + part(b"HTTP/1.1", VERSIONS, 0.1) + part(b"\r\n", ENDS)
    fields = b"Host: " + part(b"localhost", VALUES, 0.15) + b"\r\n" if draw.random() < 0.95 else b""
    for _ in range(draw.choice([0, 1, 1, 2, 3])):
        if draw.random() < 0.5:
            fields += draw.choice(FIELDS)
        else:
            fields += part(b"B", NAMES, 0.3) + part(b": ", COLONS, 0.1) + part(b"x", VALUES, 0.5) + part(b"\r\n", ENDS)
    rest = draw.choice([b"", b"", b"abcde", b"GET / HTTP/1.1\r\nHost: localhost\r\n\r\n", b"\r\n", b"\0"])
    return part(b"", [b"\r\n", b"\n", b"\r"]) + line + fields + part(b"\r\n", ENDS) + rest


def bad_head(draw):
    return mutated(draw, draw.choice(GOOD)) if draw.random() < 0.4 else made(draw)


def smuggled(draw):
    """A request whose end two readers may see in two places."""
    kind = draw.randrange(4)
    if kind == 0:
        return bad_head(draw)
    fields = [b"Host: localhost"]
    if kind in (1, 3):
        fields.append(b"Content-Length" + draw.choice([b": ", b":", b" : ", b":\t", b": +"][:4]) + draw.choice(LENGTHS))
    if kind in (2, 3):
        fields.append(draw.choice(CODINGS))
    if draw.random() < 0.3:
        fields.append(draw.choice([b"Expect: 100-continue", b"Connection: close", b"Connection: keep-alive, Content-Length", b"X-A: \x80", b"A_b: c",
            b"Upgrade: h2c\r\nConnection: Upgrade", b"X: " + b"y" * 9_000]))
    draw.shuffle(fields)
    end = draw.choice([b"\r\n"] * 6 + [b"\n"])
    target = draw.choice([b"/x"] * 4 + [b"/x%0d%0aA:%20b", b"/x%20HTTP/1.1%0d%0aHost:%20b%0d%0a%0d%0aGET%20/y", b"/a?b", b"http://localhost/x",
        b"/x\xc3\xa4", b"/%00", b"/a//b"])
    return draw.choice([b"POST", b"GET", b"HEAD", b"PUT"]) + b" " + target + b" HTTP/1." + draw.choice([b"1", b"1", b"1",
        b"0"]) + end + end.join(fields) + end + end + draw.choice(INNER) + draw.choice([b"", b"", draw.choice(INNER)])
