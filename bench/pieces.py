"""A stream in pieces, between which a store is closed and opened. What a store holds changes by files alone, so it's opened in each state that it comes to where that is
done before each file or behind it."""
from itertools import pairwise


def cut_at(requests, places):
    """The pieces of a stream between these places."""
    return [b"".join(requests[first:end]) for first, end in pairwise(sorted({0, *places, len(requests)}))]


def files_in(requests):
    return [at for at, it in enumerate(requests) if it.startswith(b"POST")]


def before_files(requests):
    """A piece begins with each file, and one behind the last."""
    files = files_in(requests)
    return cut_at(requests, [*files, *(at + 1 for at in files[-1:])])


def behind_files(requests):
    """A piece ends with each file."""
    return cut_at(requests, [at + 1 for at in files_in(requests)])


def pieces_by(number):
    """How the stream of a number comes in pieces: one in 25 has as many as requests, and of the others every second is cut before its files."""
    return list if number % 25 == 2 else (before_files, behind_files)[number % 2]
