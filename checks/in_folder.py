"""What tests begin with: a folder that goes with its test, and small programs in it, which stand for those that are built."""

import tempfile
import unittest
from pathlib import Path


def small_program(path: Path, text: str) -> Path:
    """Writes a program of this text, in folders that are made where they are missing."""
    path.parent.mkdir(parents=True, exist_ok=True)
    path.write_text(text)
    path.chmod(0o755)
    return path


class InAFolder(unittest.TestCase):
    """Each test has a folder of its own, which goes once it is over."""

    def setUp(self) -> None:
        made = tempfile.TemporaryDirectory()
        self.addCleanup(made.cleanup)
        self.folder = Path(made.name).resolve()

    def program(self, text: str) -> Path:
        """A small program in it, in place of the last one."""
        return small_program(self.folder / "program", text)

    def new_folder(self) -> Path:
        """An empty folder within it."""
        return Path(tempfile.mkdtemp(dir=self.folder))
