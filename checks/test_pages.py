"""Tests of `pages`, over a small repository in a temporary folder."""

import unittest

from checks.in_folder import InAFolder
from checks.pages import OTHERS, anchors_of, run_all

FILES = {
    "crates.txt": "gaz_small: csv\ngazhub: gaz_small\n",
    "check": "print('well')\n",
    "checks/large.py": "DEADLINE = 60  # a dead_line\n",
    "checks/test_large.py": "planted = 'Purples'\n",
    "crates/gaz_small/src/laws.rt": "/// Not `any_whim`.\npub fn any_order(a: Board) {}\n",
    "crates/gaz_small/src/board.rt": "pub struct Board;\nimpl Board { fn close() {} }\n",
    "crates/gaz_small/specs/Sound.antt": "IsSound : Board → Set  -- not IsLoud\n",
    "crates/gaz_small/out/kept.rt": "fn kept_work() {}\n",
    "crates/gaz_small/must-fail/takes_all.edit": "+ taken_wrongly\n",
    "docs/hub.md": "# The hub, and `Board`\n\n## Said twice\n\n## Said twice\n\n```\n## No heading\n```\n",
}
GOOD = """# A page

It goes by `Board`, `Board::close`, `IsSound`, `laws::any_order`, `any_order(board)`, `gaz_small::Board` and `DEADLINE`.
See `specs/Sound.antt`, `crates/*/specs`, `checks/large.py`, `laws.rt`, `./check --edits NAME`, `gaz_small/src`, `crates/gazhub/out/gazhub`, `docs/NAME.md`.
Others have `csv::Writer`; `gazhub play`, `new applied`, `Flat 2, Arden`, `11,I,1,101`, `{"outcome":"applied"}`, `SELECT`, `GET /uprn/{n}`, `_over`, `42` are
no names, nor is `gone < born`, nor

    what `Nobody` says, or a [block](nowhere.md)

[Here](#a-page), [there](docs/hub.md), [a folder](docs), [below](docs/hub.md#the-hub-and-board), [again](docs/hub.md#said-twice-1), [out](https://nowhere.example/x).
"""


class Reading(InAFolder):
    def fault(self, page: str, more: dict[str, str] | None = None) -> str | None:
        """What is wrong with this text as the first page of the repository."""
        for name, text in {**FILES, "README.md": page, **(more or {})}.items():
            (self.folder / name).parent.mkdir(parents=True, exist_ok=True)
            (self.folder / name).write_text(text)
        ran = dict(run_all(self.folder))
        self.assertEqual(["README.md", "docs/hub.md"], sorted(ran))
        self.assertIsNone(ran["docs/hub.md"])
        return ran["README.md"]

    def test_what_is_there_passes(self) -> None:
        self.assertIsNone(self.fault(GOOD))

    def test_a_dead_name_is_found(self) -> None:
        for name in (
            "laws::every_whim",
            "Purples",
            "gaz_nothing",
            "gaz_small::Purples",
            "Board::open",
            "every_whim",
            "whim(board)",
            "gaz_nothing play",
        ):
            self.assertEqual(f"line 3: there is no `{name}`", self.fault(f"# A page\n\nSee `{name}`.\n"))

    def test_a_dead_file_is_found(self) -> None:
        for name in ("checks/nowhere.py", "Nowhere.antt", "specs/laws.rt", "bench/run tables", "crates/gaz_nothing", "docs/NAME.http"):
            self.assertEqual(f"line 1: there is no `{name}`", self.fault(f"See `{name}`.\n"))

    def test_a_law_is_a_name_of_its_module(self) -> None:
        self.assertIn("laws::close", self.fault("See `laws::close`.\n"))

    def test_what_is_said_of_a_name_is_no_name(self) -> None:
        for name in ("any_whim", "IsLoud", "dead_line", "taken_wrongly", "kept_work"):
            self.assertIn(name, self.fault(f"See `{name}`.\n") or "")

    def test_a_dead_link_is_found(self) -> None:
        for link in ("docs/nowhere.md", "docs/hub.md#no-heading", "#said-twice", "docs/hub.md#said-twice-2", "../main/README.md", "docs#hub"):
            self.assertEqual(f"line 2: nothing is at {link}", self.fault(f"# A page\n[It](#a-page) is [not]({link}).\n"))

    def test_a_link_goes_from_its_page(self) -> None:
        with self.assertRaisesRegex(AssertionError, "nothing is at docs/hub.md"):
            self.fault(GOOD, {"docs/hub.md": "[It](docs/hub.md) is [here](hub.md), by [that](../check).\n"})

    def test_all_faults_are_told(self) -> None:
        faults = "line 1: nothing is at x.md; line 1: there is no `Purples`; line 3: there is no `Whims`"
        self.assertEqual(faults, self.fault("[`Purples`](x.md)\n\n`Whims`\n"))

    def test_names_of_others_stand_once(self) -> None:
        names = [name for names in OTHERS.values() for name in names]
        self.assertEqual(len(names), len(set(names)))

    def test_headings_are_called_as_in_links(self) -> None:
        page = self.folder / "page.md"
        page.write_text("# `play`, and [more](x.md)\n## A-b_c: d's\n")
        self.assertEqual({"play-and-more", "a-b_c-ds"}, anchors_of(page))


if __name__ == "__main__":
    unittest.main()
