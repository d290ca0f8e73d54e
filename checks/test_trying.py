"""The gate itself is tried: over a small crate, with edits that it must pass and edits that it must report."""

import unittest
from pathlib import Path

from checks import kit, trying
from checks.edits import BadEdit, edit_of, groups, hunks_between, merged, sources_of
from checks.holes import holes
from checks.in_folder import InAFolder
from checks.source import functions

LIBRARY = """//! Small numbers.
#![tactic(auto)]

ghost use Rattle.std.specs.Prelude.{◌≡◌, ◌≤◌, ◌+◌};

/// The most that a shelf holds.
pub const MOST: u8 = 9;

/// Twice a number.
pub fn double(n: u8) -> u16
    ensures { result ≡ n + n }
{
    u16::from(n) + u16::from(n)
}

/// The lesser of two numbers.
pub fn lesser(a: u8, b: u8) -> u8
    ensures { (result ≤ a) × (result ≤ b) }
{
    if a < b { a } else { b }
}

/// How many there are at most.
pub fn most() -> u8
    ensures { result ≡ 9 }
{
    MOST
}

/// Some number.
pub fn some() -> u8 {
    7
}
"""

RIGHT = {
    "doubles_nothing": ("u16::from(n) + u16::from(n)", "u16::from(n)"),
    "gives_the_greater": ("if a < b", "if b < a"),
    "holds_one_more": ("MOST: u8 = 9", "MOST: u8 = 10"),
}

WRONG = {
    "gives_the_greater": ("if a < b", "if b < a"),
    "says_nothing": ("    7", "    8"),
    "does_not_compile": ("    u16::from(n) + u16::from(n)", "    u16::from(m) + "),
    "is_gone": ("if a > b", "if b > a"),
}


def small_crate(root: Path, edits: dict[str, tuple[str, str]]):
    """A repository of one crate with these edits, and that crate."""
    crate = root / "crates" / "small"
    (crate / "src").mkdir(parents=True)
    (crate / "must-fail").mkdir()
    (root / "crates.txt").write_text("small:\n")
    (crate / "src" / "lib.rt").write_text(LIBRARY, encoding="utf-8")
    for name, (old, new) in edits.items():
        (crate / "must-fail" / f"{name}.edit").write_text(f"file: src/lib.rt\nold: {old}\nnew: {new}\n", encoding="utf-8")
    return kit.crates(root)[0]


class OverASmallCrate(InAFolder):
    def tried(self, edits: dict[str, tuple[str, str]]) -> tuple[dict[str, trying.Tried], trying.Outcome]:
        crate = small_crate(self.new_folder(), edits)
        outcome = trying.try_crate(crate, Path(crate.folder), self.new_folder(), lambda line: None)
        return {it.name: it for it in outcome.tried}, outcome

    def test_edits_that_turn_a_meaning_are_refused_where_they_stand(self):
        tried, outcome = self.tried(RIGHT)
        self.assertEqual({name: True for name in RIGHT}, {name: it.is_refused for name, it in tried.items()}, tried)
        # those of two functions and a constant in one check (a second one of a function: OfEdits)
        self.assertEqual(1, outcome.checks)
        self.assertFalse([it for it in tried.values() if it.why.startswith("alone")])

    def test_edits_that_show_nothing_are_named(self):
        tried, _ = self.tried(WRONG)
        refused = {name: it.is_refused for name, it in tried.items()}
        self.assertEqual({name: name == "gives_the_greater" for name in WRONG}, refused, tried)
        self.assertIn("still proved", tried["says_nothing"].why)
        self.assertIn("can't be read", tried["does_not_compile"].why)
        self.assertIn("0 times", tried["is_gone"].why)


class OfFaults(unittest.TestCase):
    def test_an_invariant_that_is_not_proved_is_a_fault(self):
        text = "note: src/lib.rt:12:9: `search` found no proof (`invariant_of-self`); `search` gave up at one of its limits"
        self.assertEqual([("src/lib.rt", 12)], [(it.file, it.line) for it in trying.faults_in(text, ["src/lib.rt"])])


class OfHoles(unittest.TestCase):
    SHELF = """pub struct Shelf;

pub trait Keeps {
    fn keeps(&self);
}

impl Shelf {
    fn one(&self) {
    }

    fn two(&self) {
    }
}

impl Keeps for Shelf {
    fn keeps(&self) {
    }
}

#[test]
fn tries() {
}

fn free() {
}

fn again(n: u8) {
    again(n - 1);
}
"""

    def test_what_no_edit_changes_has_a_hole(self):
        sources = {"src/a/b.rt": self.SHELF, "proofs/a/b/Shelf/one/Answers.antt": "", "proofs/a/b/free/Answers.antt": ""}
        changed = {it for it in functions("src/a/b.rt", self.SHELF) if it.name == "free"}
        made = holes("small", sources, changed)
        proofs = {"proofs/a/b/Shelf/one/Answers.antt", *(f"proofs/a/b/{it}/Proof.antt" for it in ("Shelf/one", "Shelf/two", "ShelfKeeps/keeps"))}
        self.assertEqual(proofs | {"src/a/b.rt"}, set(made))
        self.assertIsNone(made["proofs/a/b/Shelf/one/Answers.antt"])
        self.assertIn("use Rattle.small.proofs.a.b.Shelf.two.Statement as stated", made["proofs/a/b/Shelf/two/Proof.antt"])
        self.assertEqual(self.SHELF, made["src/a/b.rt"])

    def test_a_method_whose_proof_has_another_name_has_none(self):
        more = """
impl From<u8> for Shelf {
    fn from(n: u8) -> Shelf {
        Shelf
    }
}

impl<T: Copy> Keeps for T {
    fn keeps(&self) {
    }
}

impl Drop for Shelf {
    fn drop(&mut self) {
    }
}
"""
        bare, full = (set(holes("small", {"src/a/b.rt": it}, set())) for it in (self.SHELF, self.SHELF + more))
        self.assertEqual(bare, full)
        self.assertIn("proofs/a/b/ShelfKeeps/keeps/Proof.antt", full)

    def test_what_no_edit_changes_does_nothing(self):
        changed = {it for it in functions("src/lib.rt", LIBRARY) if it.name == "lesser"}
        made = holes("small", {"src/lib.rt": LIBRARY}, changed)["src/lib.rt"]
        wanted = LIBRARY
        for body in ("    u16::from(n) + u16::from(n)", "    MOST", "    7"):
            wanted = wanted.replace(body, "    unreachable!()")
        self.assertEqual(wanted, made)

    def test_each_line_stays_where_it_is(self):
        text = "// One.\n#[tactic(auto)]\nfn one()\n    ensures { ⊤ }\n{\n    let a = 1;\n    a;\n}\n\nconst fn two() -> u8 {\n    2\n}\n"
        made = holes("small", {"src/a.rt": text}, set())["src/a.rt"]
        wanted = text.replace("#[tactic(auto)]", "").replace("    let a = 1;\n    a;", "    unreachable!()\n")
        self.assertEqual(wanted, made)


class OfEdits(unittest.TestCase):
    sources = {"src/lib.rt": LIBRARY}

    def edit(self, old: str, new: str):
        return edit_of("it", f"file: src/lib.rt\nold: {old}\nnew: {new}\n", self.sources)

    def test_a_function_has_its_comment_and_its_attributes(self):
        found = {it.name: (it.first, it.last) for it in functions("src/lib.rt", LIBRARY)}
        self.assertEqual({"double": (9, 14), "lesser": (16, 21), "most": (23, 28), "some": (30, 33)}, found)

    def test_a_check_names_a_method_by_its_type_and_a_free_function_by_its_module(self):
        text = "impl<T> fmt::Display\n    for Shelf<T>\n{\n    fn fmt(&self) {\n    }\n}\n\nfn free() {\n}\n"
        self.assertEqual(["ShelfDisplay::fmt", "a::b::free"], [it.path() for it in functions("src/a/b.rt", text)])
        self.assertEqual("double", functions("src/lib.rt", LIBRARY)[0].path())
        text = "".join(f"impl From<{it}> for Fault {{\n    fn from() {{\n    }}\n}}\n" for it in ("a::Left", "Right<T>"))
        self.assertEqual(["FaultFromLeft::from", "FaultFromRight::from"], [it.path() for it in functions("src/a.rt", text)])

    def test_two_edits_of_a_function_are_in_two_checks(self):
        first, second = self.edit("    u16::from(n) +", "    1 +"), self.edit("u16::from(n) + u16::from(n)", "0")
        self.assertEqual([1, 1], [len(it) for it in groups([first, second])])

    def test_a_constant_is_tried_with_those_that_name_it(self):
        constant = self.edit("MOST: u8 = 9", "MOST: u8 = 10")
        self.assertEqual({"most"}, {it.name for it in constant.places})
        self.assertEqual([1, 1], [len(it) for it in groups([constant, self.edit("    MOST", "    8")])])

    def test_what_is_in_no_function_is_tried_alone(self):
        outside = self.edit("#![tactic(auto)]", "")
        self.assertEqual([1, 1], [len(it) for it in groups([outside, self.edit("if a < b", "if b < a")])])

    def test_edits_are_merged_line_by_line(self):
        edits = [self.edit("if a < b", "if b < a"), self.edit("    7", "    let n = 8; n")]
        made = merged(edits, self.sources)["src/lib.rt"]
        self.assertEqual(LIBRARY.replace("if a < b", "if b < a").replace("    7", "    let n = 8; n"), made)

    def test_replacements_apply_to_what_earlier_ones_made(self):
        text = "file: src/lib.rt\nold:     7\nnew:     one\nold: one\nnew: two\n"
        self.assertEqual(("    two",), edit_of("it", text, self.sources).hunks[0].lines)

    def test_an_edit_that_changes_nothing_or_stands_twice_is_bad(self):
        for old, new in (("if a < b", "if a < b"), ("u16::from(n)", "n"), ("nowhere", "here")):
            with self.assertRaises(BadEdit):
                self.edit(old, new)

    def test_lines_that_differ(self):
        self.assertEqual([(1, 2, ("x",))], [(it.first, it.last, it.lines) for it in hunks_between("f", "a\nb\nc", "a\nx\nc")])


class OfThisRepository(unittest.TestCase):
    def test_each_edit_can_be_applied(self):
        from checks.edits import read_edits

        root = Path(__file__).resolve().parent.parent
        for crate in sorted((root / "crates").iterdir()):
            self.assertEqual([], read_edits(crate, sources_of(crate))[1], crate.name)


if __name__ == "__main__":
    unittest.main()
