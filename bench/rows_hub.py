"""What the hub costs by `gazhub play`, and over the keeper in memory, beside Python: posts and repeats, many files, look-ups, extracts and closed streets."""
import streams
from measure import ROUNDS, Talk, in_file, run_in_turn
from sides import Place, begun, behind, over_sqlite, plain, played, with_memory


def stream_rows(place, title, pair, body, count):
    path = in_file(place.folder, "stream", streams.post(pair, body) * count)
    (ours, memory, theirs), _ = run_in_turn((played(), place.in_memory(), plain()), path)
    yield from with_memory(title, ours, memory, lambda took: (f"{theirs / took:.1f} times the plain hub", f"{count / took:,.0f} requests/s"))


def file_rows(place, volumes=20):
    """Files of three custodians in turn, and what the later half of them costs against the first."""
    times, changes = [], 3 * volumes * 1_000
    for count in (volumes // 2, volumes):
        path = in_file(place.folder, "stream", b"".join(streams.files_in_turn(count)))
        spent, replies = run_in_turn((played(), place.in_memory(), plain(), over_sqlite()), path)
        assert replies.count(b'"applied"') == 3 * count
        times.append(spent)
    (ours, memory, theirs, stored), title = times[1], f"3 custodians x {volumes} files x 1,000 changes"
    yield from with_memory(title, ours, memory, lambda took: (f"{theirs / took:.1f} times the plain hub", f"{changes / took:,.0f} changes/s"))
    yield "the same, Python over sqlite3 in memory", f"{theirs / stored:.1f} times the plain hub", f"{changes / stored:,.0f} changes/s"
    later = [(whole - first) / first for first, whole in zip(*times)]
    yield from with_memory("the later half of these files", *later[:2], lambda ratio: (f"{ratio:.1f} times the first half", ""))


HUGE_PAGES = {"GLIBC_TUNABLES": "glibc.malloc.hugetlb=1"}  # asks the kernel for huge pages
LOOK_UPS, EXTRACTS, LISTS = 12_000, 3, 3  # of a round


def readings():
    """What is asked of a district of 50,000 addresses: requests of each round, how many things they tell, of which unit, and whether huge pages are tried."""
    for title, step in (("all over 50,000 BLPUs with LPIs", 7919), ("in the order of UPRNs", 1)):
        asked = [streams.look_ups(turns, step) for turns in streams.parts(LOOK_UPS, ROUNDS)]
        yield f"look-ups {title}", asked, LOOK_UPS, "look-ups/s", True
    yield "extracts of 50,000 items", [[streams.get("/extract/1002/11")] * EXTRACTS] * ROUNDS, 50_000 * EXTRACTS, "items/s", False
    yield "/closed over 50,000 LPIs, 5,000 listed", [[streams.get("/closed")] * LISTS] * ROUNDS, 50_000 * LISTS, "LPIs/s", False


def reading_rows(place):
    """Look-ups, extracts and lists of closed streets, each behind a loading that isn't in their time."""
    for title, asked, count, unit, is_paged in readings():
        load, *batches = place.asked(list(streams.gazetteer()), *asked)
        words = played(), place.in_memory()
        hubs = [Talk(plain()), *map(Talk, words), *(Talk(it, HUGE_PAGES) for it in words if is_paged)]
        theirs, *ours = behind(hubs, load, batches)

        def cells(took):
            return f"{theirs / took:.1f} times the plain hub", f"{count / took:,.0f} {unit}"

        yield from with_memory(title, *ours[:2], cells)
        if is_paged:
            yield from with_memory("the same with huge pages", *ours[2:], cells)


def extract_memory(words, load, extract):
    """How many times an extract's bytes its conversation takes at its peak above what it had, and above the peak before."""
    with begun([Talk(words)], load) as (hub,):
        held, before = hub.memory("VmRSS"), hub.memory("VmHWM")
        hub.spent(extract)
        after, size = hub.memory("VmHWM"), len(extract.whole[1])
    return (after - held) / size, (after - before) / size


def extract_memory_rows(place):
    load, extract = place.asked(list(streams.gazetteer(homes=25_000, each=500)), [streams.get("/extract/1002/51")])
    both = (extract_memory(words, load, extract) for words in (played(), place.in_memory()))
    yield from with_memory("an extract of 50,000 items", *both, lambda it: (f"peak memory {it[0]:.2f} times the extract", f"{it[1]:.2f} times above the peak before"))


def rows(folder):
    place = Place(folder)
    yield from stream_rows(place, "99,000 small POSTs turned away at the door", (9999, 1), streams.STREET, 99_000)
    yield from stream_rows(place, "99,000 repeats of a file of 1 change", (1001, 1), streams.STREET, 99_000)
    yield from stream_rows(place, "10,000 repeats of a file of 100 changes", (1001, 1), streams.streets_file(100), 10_000)
    yield from file_rows(place)
    yield from reading_rows(place)
    yield from extract_memory_rows(place)
