"""What reading costs: change files and registers; and what a hostile file costs."""
import registers
import streams
from hub_files import read
from measure import MIB, blocked_peak, in_file, least_seconds, output_of, register_of
from sides import IN_MEMORY, Place, played


def reading_seconds(what, folder, data, rounds):
    """The least time of so many readings of these bytes, as `gaz_bench` prints it."""
    return int(output_of("gaz_bench", what, in_file(folder, "read", data), rounds)) / 1e6


def file_row(folder, title, data):
    ours = reading_seconds("file", folder, data, 100)
    theirs, told = least_seconds(lambda: read(data, 1001, 1), 20)
    assert isinstance(told[0], list), f"the plain hub finds a fault: {title}"
    return f"reading a file of {title}", f"{theirs / ours:.1f} times the plain hub", f"{len(data) / ours / 1e6:,.0f} MB/s"


def peaks_over(folder, *bodies):
    """The most memory that the program has, and a hub over the keeper in memory, when it has answered one of these files."""
    posts = [in_file(folder, f"posted{k}", streams.post((1001, 1), body)) for k, body in enumerate(bodies)]
    return [max(blocked_peak(words, path)[0] for path in posts) for words in (played(), Place(folder).in_memory())]


def peak_rows(title, ratio, peaks):
    ours, memory = peaks
    yield title, ratio, f"peak memory {ours / MIB:.1f} MiB"
    yield IN_MEMORY, "", f"peak memory {memory / MIB:.1f} MiB"


def hostile_rows(folder):
    """Files of 1 MiB that aren't good, beside a good one of 1 MiB; of each two the greater figure counts."""
    good = streams.long_file()
    assert len(good) == MIB
    measure = reading_seconds("file", folder, good, 100)
    yield from peak_rows("a good file of 1 MiB", f"{len(good) / measure / 1e6:,.0f} MB/s", peaks_over(folder, good))
    for title, bodies in streams.hostile_files():
        times = [reading_seconds("any", folder, body, 100) for body in bodies]
        yield from peak_rows(f"a file of 1 MiB of {title}", f"{max(times) / measure:.2f} times the good file's time", peaks_over(folder, *bodies))


def memory_rows(folder):
    body = b"," * MIB
    peaks = peaks_over(folder, body)
    yield from peak_rows("a file of one record with a million fields", f"peak memory {peaks[0] / len(body):.1f} times the file", peaks)


def register_row(folder, count=400):
    text = register_of(count)
    ours = reading_seconds("register", folder, text.encode(), 50)
    theirs = registers.best_parsing(text, 20)
    return f"reading a register of {count} custodians", f"{theirs / ours:.1f} times tomllib's parsing", f"{len(text) / ours / 1e6:,.0f} MB/s"


def rows(folder):
    yield file_row(folder, "5,000 streets", streams.streets_file(5000))
    yield file_row(folder, "5,000 mixed changes", streams.mixed_file())
    yield from hostile_rows(folder)
    yield from memory_rows(folder)
    yield register_row(folder)
