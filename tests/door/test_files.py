"""What is called as a command can be run: each file of the repository that begins with `#!`."""

import os
import subprocess
import unittest
from pathlib import Path

TOP = Path(__file__).resolve().parent.parent.parent


class Commands(unittest.TestCase):
    """The files that name what runs them."""

    def test_they_can_be_run(self) -> None:
        """A file whose first line names its interpreter has the mark of a program."""
        names = subprocess.run(["git", "ls-files", "-z"], cwd=TOP, capture_output=True, text=True, check=True).stdout
        commands = [TOP / name for name in names.split("\0") if name and (TOP / name).read_bytes()[:2] == b"#!"]
        self.assertIn(TOP / "plift", commands)
        self.assertEqual([str(it.relative_to(TOP)) for it in commands if not os.access(it, os.X_OK)], [])


if __name__ == "__main__":
    unittest.main()
