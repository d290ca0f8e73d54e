"""The functions of a formatted source file, as lines: where each stands, and under which path its proof does."""

import re
from collections import Counter
from dataclasses import dataclass

HEAD = re.compile(r"(\s*)(?:pub(?:\([a-z ]+\))? )?(?:const )?(?:unsafe )?fn (\w+)")
IMPL = re.compile(r"impl\b(?:<.*?>(?= ))? (?:!?([\w:]+)(?:<([\w:]*).*>)? for )?([\w:]+)")
ABOVE = re.compile(r"\s*(#\[|///|//|\)\])")
CONSTANT = re.compile(r"\s*(?:pub(?:\([a-z ]+\))? )?const (\w+)\b")


@dataclass(frozen=True)
class Function:
    """A function with its attributes and the comment above it: lines `first` to `last`, from 1."""

    file: str
    name: str
    owner: str  # the type of its impl, with the trait behind it where there is one; none for a free function
    first: int
    last: int
    trait: str = ""  # that of its impl, where there is one that is of no type

    def holds(self, line: int) -> bool:
        return self.first <= line <= self.last

    def path(self) -> str:
        """How a check names it: a method by its type, wherever its impl stands, a free function by its module."""
        above = self.owner or module_of(self.file)
        return f"{above}::{self.name}" if above else self.name

    def proof_folders(self) -> list[str]:
        """How the folder of its proofs ends, or begins where it is a free function's."""
        if self.owner:
            return [f"/{self.owner}/{self.name}/"]
        return [f"proofs/{folder}{self.name}/" for folder in [module_folder(self.file)]]

    def owns(self, path: str) -> bool:
        """Whether a file of proofs belongs to it."""
        wanted = self.proof_folders()[0]
        return path.startswith("proofs/") and (wanted in path if self.owner else path.startswith(wanted))


def module_of(file: str) -> str:
    """The path of the module that a file of src/ holds, none for the crate's root."""
    inside = file.removeprefix("src/").removesuffix(".rt").removesuffix("/mod")
    return "" if inside in ("lib", "main") else inside.replace("/", "::")


def module_folder(file: str) -> str:
    module = module_of(file)
    return module.replace("::", "/") + "/" if module else ""


def is_end(line: str, indent: str, is_open: bool) -> bool:
    """Whether a function that begins at this indent ends at this line."""
    if line == indent + "}" or line.endswith("{}") and re.match(indent + r"\S", line):
        return True
    return not is_open and line.endswith(";")


def opens(line: str, indent: str) -> bool:
    """Whether the body of a function that begins at this indent begins at this line."""
    return line == indent + "{" or line.startswith((indent + ")", indent + "fn", indent + "pub")) and line.endswith(" {")


def last_line(lines: list[str], start: int, indent: str) -> int:
    """The index of the line that ends the function that starts at this index."""
    is_open = False
    for at in range(start, len(lines)):
        is_open = is_open or opens(lines[at], indent)
        if is_end(lines[at], indent, is_open):
            return at
    return len(lines) - 1


def first_line(lines: list[str], start: int) -> int:
    """The index of the first of the attributes and comments above the line at this index."""
    while start and ABOVE.match(lines[start - 1]):
        start -= 1
    return start


def owner_at(lines: list[str], start: int) -> tuple[str, str, str]:
    """The name under which the functions of the impl that begins at this index are proved, the type's and then the trait's; what stands
    behind it where the file has several impls of that name: what the trait is of; and the trait alone."""
    last = next(at for at in range(start, len(lines)) if "{" in lines[at])
    found = IMPL.match(" ".join(it.strip() for it in lines[start : last + 1]))
    if not found:
        return "", "", ""
    trait, of, of_type = (it.rpartition("::")[2] for it in (found[1] or "", found[2] or "", found[3]))
    return of_type + trait, of, trait


def functions(file: str, text: str) -> list[Function]:
    """The functions of a file, in its order."""
    lines, found, owner, trait, at = text.split("\n"), [], "", "", 0
    impls = {it: owner_at(lines, it) for it, line in enumerate(lines) if line.startswith("impl")}
    counts = Counter(name for name, _, _ in impls.values())
    while at < len(lines):
        if at in impls:
            name, of, trait = impls[at]
            owner, trait = name + of if counts[name] > 1 else name, "" if of else trait
        elif lines[at] == "}":
            owner, trait = "", ""
        head = HEAD.match(lines[at])
        if head:
            last = last_line(lines, at, head[1])
            found.append(Function(file, head[2], owner, first_line(lines, at) + 1, last + 1, trait))
            at = last
        at += 1
    return found


def constant_at(text: str, line: int) -> str:
    """The name of the constant whose definition begins at this line, if one does."""
    found = CONSTANT.match(text.split("\n")[line - 1])
    return found[1] if found else ""


def names(text: str, function: Function, word: str) -> bool:
    """Whether a function names a word."""
    own = "\n".join(text.split("\n")[function.first - 1 : function.last])
    return bool(re.search(rf"\b{re.escape(word)}\b", own))
