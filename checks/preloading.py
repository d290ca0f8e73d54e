"""Small libraries of C that are loaded before the C library of a program (LD_PRELOAD) and come between the two."""

from pathlib import Path

from checks import kit, measure


class NoLibrary(Exception):
    """A library that is loaded before the program can't be built."""


def library(source: Path, folder: Path) -> Path:
    """Builds such a library, by the kit's compiler."""
    tools, built = kit.folder() / "toolchain" / "bin", folder / f"{source.stem}.so"
    words = [tools / "clang", "--target=x86_64-unknown-linux-gnu", f"--ld-path={tools / 'ld.lld'}"]
    ran = measure.run([*map(str, words), "-O2", "-fPIC", "-shared", "-nostdlib", "-o", str(built), str(source)], folder)
    if ran.status != 0:
        raise NoLibrary(ran.text)
    return built
