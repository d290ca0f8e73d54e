"""The pages: each link leads somewhere, and each name of the code that stands in backticks is there.

What stands in backticks names something in four cases; else it is a command, a row, a reply or a number, and nothing is asked of it.

- A file or a folder, where it ends as a source does or begins with a folder of the repository: some path here ends with its parts.
- A crate, where it is `gazhub` or begins with `gaz_`: crates.txt has it.
- A name in a module or of a type, with `::`: a source of that module, or one that has that type, has the name.
- A word of four letters or more, not all of them capitals, alone or before a bracket: some source has it.

Of several words the first is asked for, in the first three cases. A source has the words of its code, and not those of its comments.
Blocks of code are passed over, and so are links to other places than this repository.
"""

import os
import re
from collections import Counter
from collections.abc import Iterator
from dataclasses import dataclass
from fnmatch import filter as matching
from functools import cache
from pathlib import Path

FOLDERS = (".ci", "bench", "checks", "conversations", "crates", "docs", "must-fail", "proofs", "specs", "src")
UNSEEN = {".git", "out", "__pycache__"}

# How a comment begins, by the ending of a source; a program without an ending is Python.
COMMENTS = {".rt": "//", ".c": "//", ".antt": "--", ".sql": "--", ".py": "#", ".toml": "#", "": "#"}

# Names that a page says and no source here has: whose they are.
OTHERS = {"Rust, and Rattle lacks it": ("include_str",)}
OF_OTHERS = frozenset(name for names in OTHERS.values() for name in names)

SPAN = r"`((?:[^`\n]|\n(?!\n))+)`"
LINK = r"\]\(([^()\s]+)\)"


@dataclass(frozen=True)
class Source:
    """The words of a source, and the modules that it may be said to be of: its own name, and the folders where it stands."""

    words: frozenset[str]
    modules: frozenset[str]

    def has_within(self, outer: str, inner: str) -> bool:
        return inner in self.words and (outer in self.modules or outer[0].isupper() and outer in self.words)


def is_source(path: str) -> bool:
    """Whether a file's words are names. Wrong edits are none, and the tests of the checks speak of names that aren't there."""
    if "/must-fail/" in path or re.fullmatch(r"checks/(test_\w+|pages)\.py", path):
        return False
    return os.path.splitext(path)[1] in COMMENTS and (path == "check" or path.startswith(("bench/", "checks/", "crates/")))


def read_source(root: Path, path: str) -> Source:
    stem, ending = os.path.splitext(path)
    code = re.sub(f"{COMMENTS[ending]}.*", "", (root / path).read_text("utf-8", "replace"))
    modules = stem.split("/") if ending == ".rt" else ()
    return Source(frozenset(re.findall(r"[A-Za-z]\w*", code)), frozenset(modules))


def files_of(root: Path) -> Iterator[str]:
    """The files of the repository, but for what is built."""
    for folder, below, files in os.walk(root):
        below[:] = sorted(name for name in below if name not in UNSEEN)
        yield from (os.path.relpath(os.path.join(folder, name), root) for name in sorted(files))


def blank(found: re.Match) -> str:
    return re.sub(r"[^\n]", " ", found[0])


def prose_of(page: str) -> str:
    """A page with blanks in place of its blocks of code."""
    return re.sub(r"(?ms)^```.*?^```$|^ {4}[^\n]*$", blank, page)


@cache
def anchors_of(page: Path) -> frozenset[str]:
    """What the headings of a page are called in links, as GitHub has it: in small letters, without signs, with hyphens for blanks,
    and with a number where it is called so before."""
    anchors, before = set(), Counter()
    for heading in re.findall(r"(?m)^#{1,6} +(.*?)[ #]*$", prose_of(page.read_text())):
        shown = re.sub(r"\[([^]]*)\]\([^)]*\)", r"\1", heading).lower()
        name = re.sub(r"[^\w -]", "", shown).replace(" ", "-")
        anchors.add(f"{name}-{before[name]}" if before[name] else name)
        before[name] += 1
    return frozenset(anchors)


class Tree:
    """What the repository has."""

    def __init__(self, root: Path) -> None:
        self.root = root
        self.files = list(files_of(root))
        parted = [file.split("/") for file in self.files]
        self.paths = {"/".join(parts[:count]) for parts in parted for count in range(1, len(parts) + 1)}
        self.ends = {path.split("/", skipped)[-1] for path in self.paths for skipped in range(path.count("/") + 1)}
        self.sources = [read_source(root, file) for file in self.files if is_source(file)]
        self.words = frozenset().union(*(source.words for source in self.sources))
        rows = re.findall(r"(?m)^(\w+):(.*)", (root / "crates.txt").read_text())
        self.crates = {name for name, _ in rows}
        self.below = {name for _, names in rows for name in names.split()} - self.crates

    def has_path(self, path: str) -> bool:
        """Whether some path ends so. NAME stands for any name."""
        wanted = path.strip("/").replace("NAME", "*")
        return wanted in self.ends or "*" in wanted and bool(matching(self.ends, wanted))

    def lacks(self, said: str) -> bool:
        """Whether what stands in backticks names something that isn't here."""
        first = re.match(r"[^\s(<!]*", said)[0]
        word, is_alone = first.removeprefix("./"), not said[len(first) :].startswith((" ", "\n"))
        folder, within = word.partition("/")[0], word.split("::")
        if word in OF_OTHERS or within[0] in self.below or "/out/" in word:
            return False
        if re.search(r"\w\.(antt|rt|py|c|edit)$", word) or folder != word and (folder in FOLDERS or folder.startswith("gaz")):
            return not self.has_path(word)
        if re.fullmatch(r"gaz_\w+|gazhub", word):
            return word not in self.crates
        if re.fullmatch(r"\w+(::\w+)+", word):
            return not any(source.has_within(*within[-2:]) for source in self.sources)
        return is_alone and bool(re.fullmatch(r"[A-Za-z]\w{3,}", word)) and not word.isupper() and word not in self.words

    def leads_nowhere(self, page: str, link: str) -> bool:
        """Whether a link of a page leads to nothing in the repository."""
        path, _, anchor = link.partition("#")
        file = os.path.normpath(os.path.join(os.path.dirname(page), path)) if path else page
        if not anchor:
            return file not in self.paths
        return file not in self.files or anchor not in anchors_of(self.root / file)

    def faults(self, page: str) -> Iterator[tuple[int, str]]:
        """What is dead on a page, each with its line."""
        prose = prose_of((self.root / page).read_text())
        for found in re.finditer(SPAN, prose):
            if self.lacks(found[1]):
                yield 1 + prose.count("\n", 0, found.start()), f"there is no `{found[1]}`"
        for found in re.finditer(LINK, re.sub(SPAN, blank, prose)):
            if not re.match(r"\w+:", found[1]) and self.leads_nowhere(page, found[1]):
                yield 1 + prose.count("\n", 0, found.start()), f"nothing is at {found[1]}"


def run_all(root: Path) -> Iterator[tuple[str, str | None]]:
    """Each page, and what is dead on it."""
    tree = Tree(root)
    for page in tree.files:
        if re.fullmatch(r"(bench/|checks/)?README\.md|docs/.*\.md", page):
            yield page, "; ".join(f"line {line}: {fault}" for line, fault in sorted(tree.faults(page))) or None
