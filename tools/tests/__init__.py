"""Tests of the tools."""

import tempfile
import unittest
from pathlib import Path


class InRoom(unittest.TestCase):
    """A test with a folder of its own."""

    def setUp(self) -> None:
        self.room = Path(self.enterContext(tempfile.TemporaryDirectory()))

    def put(self, name: str, text: str) -> Path:
        """Writes a file anew, which may be run."""
        file = self.room / name
        file.parent.mkdir(parents=True, exist_ok=True)
        file.unlink(missing_ok=True)
        file.write_text(text, encoding="utf-8")
        file.chmod(0o755)
        return file
