"""No lines of proved code, definitions, proofs or scripts are written a second time, but those that are known of."""

from __future__ import annotations

import sys
import unittest
from pathlib import Path

sys.dont_write_bytecode = True
sys.path.insert(0, str(Path(__file__).resolve().parent))
import repeated  # noqa: E402

FEW = 15  # runs that the stored answers of two goals may share besides what is known


class Repeated(unittest.TestCase):
    """The repository, and what counts."""

    def test_nothing_new_is_repeated(self) -> None:
        """Two files that share lines are known to share as many. (Where that is meant: repeated.py --write.) The stored
        answers of a goal resemble those of the next: a few lines may do so."""
        known = repeated.known()
        new = {
            pair: count
            for pair, count in repeated.today().items()
            if count > known.get(pair, 0) + (FEW if all(name.endswith("/Answers.antt") for name in pair) else 0)
        }
        self.assertEqual(new, {}, "these share more runs of lines than is known: say it once, in a crate below both")

    def test_nothing_is_known_that_is_not_there(self) -> None:
        """What was said once is taken off the list: so it can't come back unseen."""
        today = repeated.today()
        more = {pair: count for pair, count in repeated.known().items() if count > today.get(pair, 0)}
        self.assertEqual(more, {}, "less is repeated than is known: repeated.py --tighten")

    def test_known_files_are_there(self) -> None:
        """What is known speaks of files that are there."""
        names = {name for pair in repeated.known() for name in pair}
        self.assertEqual([name for name in sorted(names) if not (repeated.TOP / name).is_file()], [])

    def test_all_sources_are_read(self) -> None:
        """Code, definitions and proofs of every crate."""
        files = [str(path.relative_to(repeated.TOP)) for path in repeated.sources()]
        self.assertGreater(len(files), 2500)
        crates = {path.parent.name for path in repeated.TOP.glob("crates/*/src")}
        self.assertEqual({name.split("/")[1] for name in files}, crates)
        scripts = [str(path.relative_to(repeated.TOP)) for path in repeated.scripts()]
        self.assertGreater(len(scripts), 200)
        self.assertEqual({name.split("/")[0] for name in scripts}, set(repeated.SCRIPTS))

    def test_what_is_a_repetition(self) -> None:
        """A run that stands in two files, or twice in one, wherever comments and blank lines stand."""
        lines = [f"let a{n} = {n};" for n in range(12)]
        files = {"one": ["first", *lines, "last"], "two": lines, "three": lines[:9]}
        self.assertEqual(repeated.repetitions(files, 10), {("one", "two"): 3})
        self.assertEqual(repeated.repetitions({"one": lines[:10] + lines[:10]}, 10), {("one", "one"): 1})
        for line in ("// a comment", "  -- another", "use a::b;", "ghost use A.b.{c};", "}", "    })", "", "mod a;"):
            self.assertTrue(repeated.PASSED_OVER.match(line), line)
        for line in ("let a = 1;", "user.go();", "x := y"):
            self.assertFalse(repeated.PASSED_OVER.match(line), line)
        for line in ("# a comment", "import re", "from a import b", '    """What it does."""', "):", "    ],", ""):
            self.assertTrue(repeated.PASSED_OVER_IN_PYTHON.match(line), line)
        for line in ("return 1", "imported = 2", "for a in b:"):
            self.assertFalse(repeated.PASSED_OVER_IN_PYTHON.match(line), line)


if __name__ == "__main__":
    unittest.main()
