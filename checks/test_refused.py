"""What is kept of edits that were refused: found again for the same texts, and for no others."""

from pathlib import Path

from checks.in_folder import InAFolder
from checks.refused import Refused
from checks.test_trying import RIGHT, small_crate

NAMES = sorted(RIGHT)


class OfRefused(InAFolder):
    def setUp(self) -> None:
        super().setUp()
        self.before = Refused(self.folder / "kept")
        self.crate = small_crate(self.folder / "one", RIGHT)
        self.edits = Path(self.crate.folder) / "must-fail"

    def noted(self) -> list[str]:
        return self.before.names(self.crate, self.edits)

    def test_nothing_was_tried(self):
        self.assertEqual([], self.noted())

    def test_the_same_texts_in_another_checkout(self):
        self.before.note(self.crate, self.edits, NAMES)
        other = small_crate(self.folder / "other", RIGHT)
        self.assertEqual(NAMES, self.before.names(other, Path(other.folder) / "must-fail"))

    def test_another_source(self):
        self.before.note(self.crate, self.edits, NAMES)
        source = Path(self.crate.folder) / "src" / "lib.rt"
        source.write_text(source.read_text(encoding="utf-8") + "\n", encoding="utf-8")
        self.assertEqual([], self.noted())

    def test_another_edit(self):
        self.before.note(self.crate, self.edits, NAMES)
        (self.edits / "says_nothing.edit").write_text("file: src/lib.rt\nold:     7\nnew:     8\n")
        self.assertEqual([], self.noted())

    def test_an_edit_that_says_something_else(self):
        self.before.note(self.crate, self.edits, NAMES)
        (self.edits / "holds_one_more.edit").write_text("file: src/lib.rt\nold: MOST: u8 = 9\nnew: MOST: u8 = 11\n")
        self.assertEqual([], self.noted())

    def test_where_nothing_can_be_kept(self):
        (self.folder / "kept").write_text("a file\n")
        self.before.note(self.crate, self.edits, NAMES)
        self.assertEqual([], self.noted())
