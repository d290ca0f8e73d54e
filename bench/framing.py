"""Requests of a stream, framed by Python's standard library alone: their heads, the length of a body, whether a reply is the last."""
import re

MOST = 100_000
MOST_HEAD = 8192  # bytes, with the empty lines before it


def number(text, width, low, high):
    if not text or len(text) > width or not text.isascii() or not text.isdigit():
        return None
    n = int(text)
    return n if low <= n <= high else None


REQUEST = re.compile(rb"([!#$%&'*+.^_`|~0-9A-Za-z-]+) ([!-~\x80-\xff]+) HTTP/1\.([01])\r?\n\Z")
HEADER = re.compile(rb"([!#$%&'*+.^_`|~0-9A-Za-z-]+):[ \t]*([\t -~\x80-\xff]*?)[ \t]*\r?\n\Z")


def head_of(source):
    """Method, target, minor version and headers of the next request; None at the end of the input, False for no head."""
    line = source.readline()
    size = len(line)
    while line in (b"\r\n", b"\n"):
        line = source.readline()
        size += len(line)
    if not line.strip(b"\r\n"):
        return None if is_over(source, line, size) else False
    found, headers = REQUEST.match(line), []
    while found and (line := source.readline()) not in (b"\r\n", b"\n"):
        size += len(line)
        header = HEADER.match(line)
        if header is None or len(headers) == 32 or size > MOST_HEAD:
            return False
        headers.append((header[1].lower(), header[2]))
    if not found or size + len(line) > MOST_HEAD or not (found[2].isascii() or is_utf8(found[2])):
        return False
    return *found.groups(), headers


def is_over(source, line, size):
    """Whether nothing but CR and LF comes, and not too many: of such was the last line, and there were so many. A line without LF is the last."""
    more = source.read(max(MOST_HEAD + 1 - size, 0)) if line.endswith(b"\n") else b""
    return size + len(more) <= MOST_HEAD and not more.strip(b"\r\n")


def is_utf8(data):
    try:
        return bool(data.decode())
    except UnicodeDecodeError:
        return False


def length_of(method, headers):
    """The body's length, or the refusal of it."""
    lengths = [value for name, value in headers if name == b"content-length"]
    if any(name == b"transfer-encoding" for name, _ in headers):
        return None, (b"411 Length Required", 43)
    if len(lengths) > 1 or (lengths and not lengths[0].isdigit()):
        return None, (b"400 Bad Request", 40)
    if not lengths:
        return (None, (b"411 Length Required", 43)) if method == b"POST" else (0, None)
    size = int(lengths[0])
    return (None, (b"413 Content Too Large", 13)) if size > 1_048_576 else (size, None)


def is_closing(minor, headers):
    elements = (e.strip(b" \t").lower() for name, value in headers if name == b"connection" for e in value.split(b","))
    return minor == b"0" or b"close" in elements
