"""Tests of the histories of `bench/agree` in which properties pass between custodians, over the plain hubs in Python."""

import re
import unittest
from collections import Counter

from checks.stores import get, post
from checks.tables import view_in
from checks.wanting import plain

import hub_sqlite  # (beside the plain hub)
import passing_streams as streams
import pieces


def chain_of(hub: plain.Hub, uprn: int) -> tuple[list[int], list[int]]:
    """The custodians through whom a number went by the applied files of a hub, and to whom it is offered now, if it is."""
    releases, adoptions = {}, {}
    for code, verdicts in hub.verdicts.items():
        applied = [volume for volume, verdict in enumerate(verdicts, 1) if verdict == "applied"]
        for volume in applied:
            for _, action, key, item in plain.read(hub.files[code, volume], code, volume)[1]:
                if key == ("21", uprn) and action in ("91", "92"):
                    events = releases if action == "91" else adoptions
                    assert item[2] not in events, "a hop is taken twice"
                    events[item[2]] = code, item[1]
    chain = [hub.owner_of_uprn(uprn)]
    for hop in range(1, len(adoptions) + 1):
        assert adoptions[hop] == (releases[hop][1], chain[-1]) and releases[hop][0] == chain[-1]
        chain.append(adoptions[hop][0])
    offered = [releases.pop(hop)[1] for hop in list(releases) if hop > len(adoptions)]
    assert len(offered) <= 1 and len(releases) == len(adoptions)
    return chain, offered


class Histories(unittest.TestCase):
    SEEDS = range(1, 26)

    def test_both_hubs_reply_alike(self) -> None:
        for seed in list(self.SEEDS)[:5]:
            requests = streams.passing_stream_of(seed)
            stored = hub_sqlite.StoredHub(":memory:", streams.SIX)
            self.assertEqual(plain.replies_to(requests, plain.Hub(streams.SIX)), plain.replies_to(requests, stored), seed)
            for code, volume in ((code, reached) for code, reached in stored.judged.items() if reached):
                self.assertEqual(stored.extract(code, volume)[1].encode() + b"\n", view_in(stored.conn, code, volume))

    def test_each_number_has_one_chain_and_its_holder_alone_has_it(self) -> None:
        longest, rules = Counter(), Counter()
        for seed in self.SEEDS:
            hub = plain.Hub(streams.SIX)
            rules.update(map(int, re.findall(rb'"rule":(\d+)', plain.replies_to(streams.passing_stream_of(seed), hub))))
            for uprn in streams.CAST.blpus:
                chain, offered = chain_of(hub, uprn)
                longest[len(set(chain))] += 1
                holds = [code for code in hub.register if hub.last(code).custody.holds(hub.register[code], uprn)]
                self.assertEqual(([], None) if offered else ([chain[-1]], chain[-1]), (holds, hub.holder(uprn)))
                there = [code for code in hub.register if ("21", uprn) in hub.last(code).items]
                self.assertLessEqual(set(there), set(holds))
        self.assertTrue(all(longest[size] for size in range(1, 5)), longest)
        self.assertLessEqual({20, 21, 22, 31, 35, 36, 40, 41, 42}, rules.keys())

    def test_a_history_is_the_same_each_time(self) -> None:
        self.assertEqual(streams.passing_stream_of(1), streams.passing_stream_of(1))

    def test_the_order_in_which_files_come_changes_nothing(self) -> None:
        for seed in list(self.SEEDS)[:5]:
            _, files = streams.passing_files(seed)
            asked = [get(f"/extract/{code}/{volume}") for code, volume, _ in files]
            hubs = [plain.Hub(streams.SIX) for _ in range(2)]
            for hub, them in zip(hubs, (files, files[::-1])):
                plain.replies_to([post(*file) for file in them], hub)
            self.assertEqual(*(plain.replies_to(asked, hub) for hub in hubs))


class Pieces(unittest.TestCase):
    def test_a_store_is_opened_once_between_any_two_files_and_behind_the_last(self) -> None:
        requests = streams.passing_stream_of(1)
        count = sum(it.startswith(b"POST") for it in requests)
        for cut in (pieces.before_files, pieces.behind_files):
            them = cut(requests)
            self.assertEqual(b"".join(requests), b"".join(them))
            self.assertEqual([1] * count + [0], [it.count(b"POST /custodians/") for it in them[-count - 1 :]])
        self.assertTrue(all(it.startswith(b"POST") for it in pieces.before_files(requests)[1:-1]))
        self.assertTrue(all(b"GET" not in it.partition(b"POST")[2] for it in pieces.behind_files(requests)[:-1]))

    def test_each_way_comes_within_a_hundred(self) -> None:
        ways = Counter(pieces.pieces_by(number) for number in range(100))
        self.assertEqual({list: 4, pieces.before_files: 48, pieces.behind_files: 48}, ways)
        self.assertEqual([], pieces.before_files([]))


if __name__ == "__main__":
    unittest.main()
