"""The shortest stream that still shows a difference: requests are dropped first, and then lines of the files that are left."""


def without_parts(parts, differs):
    """The parts that are left once none can go: ever smaller runs of them are dropped where the rest still differs."""
    size = len(parts)
    while size > 0:
        at = 0
        while at < len(parts):
            rest = parts[:at] + parts[at + size :]
            if differs(rest):
                parts = rest
            else:
                at += size
        size //= 2
    return parts


def with_body(request, body):
    """A request with another body, whose length its head then says."""
    head, _, old = request.partition(b"\r\n\r\n")
    return head.replace(b"Content-Length: %d" % len(old), b"Content-Length: %d" % len(body)) + b"\r\n\r\n" + body


def counted(lines):
    """The lines of a change file, with the orders of its changes and their count in its trailer."""
    out, order = [], 0
    for line in lines:
        cells = line.split(b",")
        if line.startswith(b"99,"):
            cells[1] = b"%d\n" % order
        elif len(cells) > 2 and cells[1] in (b"I", b"U", b"D"):
            order += 1
            cells[2] = b"%d" % order
        out.append(b",".join(cells))
    return out


def with_fewer_lines(requests, at, differs):
    """The requests, but with the fewest lines of the body at a place: counted anew where it differs then too."""
    lines = requests[at].partition(b"\r\n\r\n")[2].splitlines(keepends=True)

    def put(some, count):
        return requests[:at] + [with_body(requests[at], b"".join(count(some)))] + requests[at + 1 :]

    count = counted if differs(put(lines, counted)) else list
    return put(without_parts(lines, lambda some: differs(put(some, count))), count)


def shortest(requests, differs):
    """Requests that differ, and none of which can go."""
    requests = without_parts(requests, differs)
    for at in range(len(requests)):
        if requests[at].startswith(b"POST"):
            requests = with_fewer_lines(requests, at, differs)
    return without_parts(requests, differs)
