"""Tests of `growing`, over a small program, and of the streams by which the register of `bench/agree` grows."""

import sys
import unittest
from pathlib import Path

from checks import growing
from checks.in_folder import InAFolder
from checks.sessions import NEW_TOWN
from checks.stores import SAMPLE
from checks.wanting import plain

import random_streams as streams  # (beside the plain hub)

TOP = Path(__file__).resolve().parent.parent

# A store is the register and the files that were received; the plain hub answers over them.
PROGRAM = f"""#!{sys.executable} -S
import json, pathlib, socket, sys, tomllib
sys.path.insert(0, {str(TOP / "bench")!r})
import hub
command, _, store, _, register, *more = sys.argv[1:]
store, told = pathlib.Path(store), pathlib.Path(register).read_text()
own = {{it["code"]: (it["uprn"], it["usrn"]) for it in tomllib.loads(told)["custodian"]}}
if command == "init":
    store.write_text(json.dumps([told, []]))
    sys.exit(print("ready"))
had, files = json.loads(store.read_text())
if had != told:
    sys.exit("gazhub: OtherRegister")
if command == "extend":
    store.write_text(json.dumps([pathlib.Path(more[1]).read_text(), files]))
    sys.exit(print("extended"))
it = hub.Hub(own)
for code, volume, text in files:
    it.submit(code, volume, text.encode())
with socket.create_server(("127.0.0.1", 0)) as at:
    print("listening 127.0.0.1:%d" % at.getsockname()[1], flush=True)
    peer = at.accept()[0]
    with peer, peer.makefile("rb") as source, peer.makefile("wb") as sink:
        class Flushing:
            def write(self, data):
                sink.write(data)
                sink.flush()
        hub.answer(source, Flushing(), hub=it)
store.write_text(json.dumps([told, [(*pair, data.decode()) for pair, data in it.files.items()]]))
"""


class Growing(InAFolder):
    def fault(self, old: str = "", new: str = "") -> str | None:
        self.assertIn(old, PROGRAM)
        program = self.program(PROGRAM.replace(old, new) if old else PROGRAM)
        return growing.grows_between_connections(program, self.folder)

    def test_a_right_program_passes(self) -> None:
        self.assertIsNone(self.fault())

    def test_a_growth_that_drops_files_is_found(self) -> None:
        self.assertIn("after: POST /custodians/1002/volumes/1 is told (201", self.fault("read_text(), files]))", "read_text(), []]))"))

    def test_a_file_that_isnt_freed_is_found(self) -> None:
        waits = "it.wants = lambda code: (1004, 1) if code == 1002 else hub.Hub.wants(it, code)"
        self.assertIn("after: POST /custodians/1002/volumes/1", self.fault("it = hub.Hub(own)", f"it = hub.Hub(own)\n{waits}"))

    def test_a_register_that_is_left_is_found(self) -> None:
        self.assertIn("extend ends with 1", self.fault('print("extended")', '"gazhub: Fault"'))

    def test_the_grown_register_has_a_custodian_more(self) -> None:
        grown = growing.REGISTERS["grown.toml"]
        self.assertIn(NEW_TOWN.decode(), grown)
        self.assertEqual([grown.count(it) - SAMPLE.count(it) for it in ("uprn =", "usrn =", "1004")], [1, 1, 1])


class Streams(unittest.TestCase):
    def halves(self, seed: int) -> tuple[list[bytes], list[bytes]]:
        stream = streams.grown_stream_of(seed)
        at = stream.index(streams.GROWTH)
        self.assertNotIn(streams.GROWTH, stream[at + 1 :])
        return stream[:at], stream[at + 1 :]

    def test_what_was_refused_before_the_growth_comes_again(self) -> None:
        sent = again = held = 0
        for seed in range(10):
            before, behind = self.halves(seed)
            early = [it for it in before if it.startswith(b"POST /custodians/1004/")]
            sent, again = sent + len(early), again + sum(it in behind for it in early)
            held += plain.replies_to(before).count(b'"wants":{"custodian":1004,')
        self.assertTrue(sent // 2 < again <= sent and held, (sent, again, held))

    def test_a_growth_leaves_what_was_judged(self) -> None:
        for seed in range(5):
            before, _ = self.halves(seed)
            questions = [it for it in before if it.startswith((b"GET /extract/100", b"GET /custodians/1001/"))]
            questions = [it for it in questions if b"/1004" not in it]
            hub = plain.Hub()
            plain.replies_to(before, hub)
            left = plain.replies_to(questions, hub)
            hub.grow(streams.GROWN)
            self.assertEqual(left, plain.replies_to(questions, hub))

    def test_a_hub_that_grew_is_one_that_was_grown_at_first(self) -> None:
        for seed in range(5):
            before, behind = self.halves(seed)
            grew, grown = plain.Hub(), plain.Hub(streams.GROWN)
            plain.replies_to(before, grew)
            grew.grow(streams.GROWN)
            plain.replies_to([it for it in before if not it.startswith(b"POST /custodians/1004/")], grown)
            self.assertEqual(plain.replies_to(behind, grew), plain.replies_to(behind, grown))

    def test_a_hub_of_the_sample_register_is_as_before(self) -> None:
        self.assertEqual({1001, 1002, 1003}, set(plain.Hub().views))
        self.assertEqual({1001, 1002, 1003, 1004}, set(plain.Hub(streams.GROWN).views))


if __name__ == "__main__":
    unittest.main()
