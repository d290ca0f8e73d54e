"""Functions that no edit changes, with a hole in place of each proof: what calls them is then checked by their contracts alone."""

import re

from checks.source import HEAD, Function, functions, module_folder, opens

TYPE = re.compile(r"(?:pub(?:\([a-z ]+\))? )?(?:struct|enum) (\w+)", re.M)
PROOFS = ("Answers.antt", "Invariants.antt", "Proof.antt")
TACTIC = re.compile(r" *#\[tactic\(")


def homes(sources: dict[str, str]) -> dict[str, str]:
    """The folder of the module that declares each type, under its name."""
    texts = ((file, text) for file, text in sources.items() if file.startswith("src/"))
    return {found: module_folder(file) for file, text in texts for found in TYPE.findall(text)}


def stands_alone(text: str, function: Function) -> bool:
    """Whether it has a body and a proof of its own wherever it is read: none within a function or a trait, no test, none that calls itself,
    whose proof is that of what calls each other, and none that lets go of a value, which more than calls lead to."""
    lines = text.split("\n")[function.first - 1 : function.last]
    is_inside = lines[0].startswith(" ") and not function.owner
    calls_itself = call_of(function).search("\n".join(lines[1:])) is not None
    has_more = any(it.strip().startswith("#[") and not TACTIC.match(it) for it in lines)
    return not is_inside and not calls_itself and function.trait != "Drop" and not lines[-1].endswith(";") and not has_more


def call_of(function: Function) -> re.Pattern:
    """How a function calls itself."""
    behind = r"\b(?:self\.|Self::)" if function.owner else r"(?<![\w.:])(?<!fn )"
    return re.compile(rf"{behind}{function.name}\(")


def folder_of(function: Function, homes: dict[str, str]) -> str | None:
    """Where its proof stands, if its file and its type tell: that of a method of a trait stands where the impl does, and how it is called
    where the trait is of a type, or stands for all of its kind, isn't told."""
    if not function.owner:
        return f"proofs/{module_folder(function.file)}{function.name}"
    if function.trait and function.owner.removesuffix(function.trait) in homes:
        return f"proofs/{module_folder(function.file)}{function.owner}/{function.name}"
    home = homes.get(function.owner)
    return None if home is None else f"proofs/{home}{function.owner}/{function.name}"


def hole_at(crate: str, folder: str) -> str:
    """A file that claims the contract of the function whose proofs stand in this folder, with no proof."""
    parts = folder.split("/")
    module, name = ".".join(["Rattle", crate, *parts]), parts[-1]
    return f"use {module}.Statement as stated\n\npub {name}_spec : {{M : Type 1}} → stated.statement M\n{name}_spec = ?\n"


def cut(text: str, places: list[Function]) -> str:
    """The text without what these functions do, each line where it was: a check reads nothing then of what they call."""
    lines = text.split("\n")
    for it in places:
        indent = re.match(" *", lines[it.last - 1])[0]
        head = next(at for at in range(it.first - 1, it.last) if HEAD.match(lines[at]))
        first = next((at for at in range(head, it.last - 1) if opens(lines[at], indent)), None)
        if first is None or first + 1 >= it.last - 1 or "const fn" in lines[head]:
            continue
        lines[it.first - 1 : head] = ["" if TACTIC.match(line) else line for line in lines[it.first - 1 : head]]
        lines[first + 1 : it.last - 1] = [f"{indent}    unreachable!()", *[""] * (it.last - first - 3)]
    return "\n".join(lines)


def holes(crate: str, sources: dict[str, str], changed: set[Function]) -> dict[str, str | None]:
    """The files of a crate as they are with a hole in place of each function but these: none where a file goes."""
    made: dict[str, str | None] = {}
    found = homes(sources)
    for file in (it for it in sources if it.startswith("src/")):
        others = [it for it in functions(file, sources[file]) if it not in changed and stands_alone(sources[file], it)]
        folders = {it: folder_of(it, found) for it in others}
        for folder in filter(None, folders.values()):
            made |= {f"{folder}/{it}": None for it in PROOFS if f"{folder}/{it}" in sources}
            made[f"{folder}/Proof.antt"] = hole_at(crate, folder)
        made[file] = cut(sources[file], [it for it in others if folders[it]])
    return made
