"""Worked conversations: the bytes that a new hub is sent, and those that have to come back."""

import re
import subprocess
import sys
import threading
from dataclasses import dataclass
from pathlib import Path

FOLDERS = ("conversations", "docs/tour")

DEADLINE = 60.0  # seconds of one conversation

# Empty lines before a head belong to it, and it ends with the first empty line behind it.
HEAD = re.compile(rb"[\r\n]*[^\r\n].*?\n\r?\n", re.DOTALL)

LARGEST_BODY = 1_048_576  # bytes: a head that says more is answered at once

LONGEST_LINE = 200  # characters of a line that a fault shows


class BadConversations(Exception):
    """The files of the conversations aren't pairs."""


@dataclass(frozen=True)
class Conversation:
    name: str
    requests: bytes
    replies: bytes


def find(root: Path) -> list[Conversation]:
    """The conversations of a repository, by name."""
    requests = _by_name(root, ".http")
    replies = _by_name(root, ".replies")
    unpaired = sorted(requests.keys() ^ replies.keys())
    if unpaired:
        raise BadConversations("one of .http and .replies is missing: " + ", ".join(unpaired))
    if not requests:
        raise BadConversations(f"no conversation stands in {' or '.join(FOLDERS)}")
    return [Conversation(name, requests[name].read_bytes(), replies[name].read_bytes()) for name in sorted(requests)]


def _by_name(root: Path, suffix: str) -> dict[str, Path]:
    paths = [path for folder in FOLDERS for path in (root / folder).glob(f"*{suffix}")]
    return {path.relative_to(root).with_suffix("").as_posix(): path for path in paths}


def requests_in(stream: bytes) -> list[bytes]:
    """The requests of a stream. From the first on whose end can't be told, all is one last piece."""
    return _pieces(stream, LARGEST_BODY)


def replies_in(stream: bytes) -> list[bytes]:
    """The replies of a stream. From the first on whose end can't be told, all is one last piece."""
    return _pieces(stream, sys.maxsize)


def _pieces(stream: bytes, most: int) -> list[bytes]:
    pieces = []
    while stream:
        end = _end(stream, most)
        pieces.append(stream[:end])
        stream = stream[end:]
    return pieces


def _end(stream: bytes, most: int) -> int:
    """Where the first message of a stream ends."""
    head = HEAD.match(stream)
    length = _body_length(head.group(), most) if head else None
    return len(stream) if head is None or length is None else head.end() + length


def _body_length(head: bytes, most: int) -> int | None:
    """How many bytes follow a head; None where it doesn't say it in the one way that the hub takes."""
    fields = [line.partition(b":") for line in head.lower().split(b"\n")]
    lengths = [value.strip() for name, _, value in fields if name == b"content-length"]
    if any(name == b"transfer-encoding" for name, _, _ in fields) or len(lengths) > 1:
        return None
    if not lengths:
        return 0
    return int(lengths[0]) if lengths[0].isdigit() and int(lengths[0]) <= most else None


def _is_whole(request: bytes) -> bool:
    """Whether a request can be answered before the input ends."""
    head = HEAD.match(request)
    if head is None:
        return False
    length = _body_length(head.group(), LARGEST_BODY)
    return length is None or head.end() + length <= len(request)


def difference(wanted: bytes, got: bytes) -> str | None:
    """The first byte in which two streams differ, with its line in both."""
    if wanted == got:
        return None
    pairs = enumerate(zip(wanted, got))
    at = next((i for i, (left, right) in pairs if left != right), min(len(wanted), len(got)))
    number = wanted.count(b"\n", 0, at) + 1
    return f"differs at byte {at}, in line {number}: wanted {_line(wanted, at)}, got {_line(got, at)}"


def _line(text: bytes, at: int) -> str:
    """The line round a place, for people."""
    if at >= len(text):
        return "the end"
    start = text.rfind(b"\n", 0, at) + 1
    end = text.find(b"\n", at)
    line = text[start : len(text) if end < 0 else end + 1]
    return repr(line[:LONGEST_LINE].decode(errors="backslashreplace"))


def run_whole(program: Path, conversation: Conversation, deadline: float = DEADLINE) -> str | None:
    """What is wrong with the answers to all requests as one stream."""
    try:
        ran = subprocess.run(
            [program],
            input=conversation.requests,
            stdout=subprocess.PIPE,
            stderr=subprocess.DEVNULL,
            timeout=deadline,
        )
    except subprocess.TimeoutExpired:
        return f"didn't end within {deadline:g} s"
    return _fault(conversation, ran.stdout, ran.returncode)


def _fault(conversation: Conversation, got: bytes, status: int) -> str | None:
    faults = [difference(conversation.replies, got), f"exit status {status}" if status else None]
    return "; ".join(fault for fault in faults if fault) or None


class Client:
    """Talks to a program, and ends it at the deadline."""

    def __init__(self, words: list[str | Path], deadline: float) -> None:
        self.child = subprocess.Popen(
            words,
            stdin=subprocess.PIPE,
            stdout=subprocess.PIPE,
            stderr=subprocess.DEVNULL,
            bufsize=0,
        )
        self.got = b""
        self.is_late = False
        self.timer = threading.Timer(deadline, self._give_up)
        self.timer.start()

    def _give_up(self) -> None:
        self.is_late = True
        self.child.kill()

    def send(self, request: bytes) -> None:
        try:
            while request:
                request = request[self.child.stdin.write(request) :]
        except BrokenPipeError:
            pass  # a program that closed the conversation reads no more

    def close_input(self) -> None:
        self.child.stdin.close()

    def receive(self, wanted: bytes) -> bool:
        """Reads until all that has come is what is wanted, or differs from it. Whether it is what is wanted."""
        while len(self.got) < len(wanted) and wanted.startswith(self.got):
            piece = self.child.stdout.read(len(wanted) - len(self.got))
            if not piece:
                break
            self.got += piece
        return self.got == wanted

    def end(self) -> int:
        """Reads the rest, and waits for the program to end. Its exit status."""
        self.close_input()
        self.got += self.child.stdout.read()
        return self.child.wait()

    def __enter__(self) -> "Client":
        return self

    def __exit__(self, *_: object) -> None:
        self.timer.cancel()
        self.child.kill()
        self.child.wait()
        self.child.stdin.close()
        self.child.stdout.close()


def run_stepwise(program: Path, conversation: Conversation, deadline: float = DEADLINE) -> str | None:
    """What is wrong with the answers to a client that waits for each reply before its next request."""
    requests, replies = requests_in(conversation.requests), replies_in(conversation.replies)
    if len(replies) > len(requests):
        return f"{len(replies)} replies to {len(requests)} requests"
    with Client([program], deadline) as client:
        for number, request in enumerate(requests[: len(replies)], 1):
            client.send(request)
            if not _is_whole(request):
                client.close_input()
            wanted = b"".join(replies[:number])
            if not client.receive(wanted):
                return _unanswered(client, number, wanted, deadline)
        client.send(b"".join(requests[len(replies) :]))
        status = client.end()
        if client.is_late:
            return f"didn't end within {deadline:g} s"
        return _fault(conversation, client.got, status)


def _unanswered(client: Client, number: int, wanted: bytes, deadline: float) -> str:
    why = f", none within {deadline:g} s" if client.is_late else ""
    return f"the reply to request {number}{why}: {difference(wanted, client.got)}"


def run_all(program: Path, root: Path) -> list[tuple[str, str, str | None]]:
    """Each conversation, how it was sent, and what is wrong with the answers."""
    ways = (("as one stream", run_whole), ("request by request", run_stepwise))
    return [(one.name, how, run(program, one)) for one in find(root) for how, run in ways]
