"""docs/PROMISES.md is as tools/promises.tsv and the source make it; what its sentences name stands in the source."""

from __future__ import annotations

import sys
import unittest
from pathlib import Path
from typing import List

TOP = Path(__file__).resolve().parents[2]
sys.dont_write_bytecode = True
sys.path.insert(0, str(TOP / "tools"))
import promises  # noqa: E402
from clauses import Reader, crates, functions  # noqa: E402

DATA = promises.DATA.read_text(encoding="utf-8")
SOURCE = """
/// A trait.
pub trait Speaks {
    /// Says it.
    fn say(&self) -> u32
        ensures small { result < 2 };
}

impl Speaks for Told {
    fn say(&self) -> u32
        ensures { result ≡ 1 }
    {
        1
    }
}

impl<'a> Told {
    /// The first.
    /// Both lines.
    #[inline(always)]
    pub fn one(
        &self,
    ) -> u32
        requires { ⊤ }
        // Why it is one.
        ensures value { result ≡ 1 }
        ensures { result ≡ 1 }
    {
        1
    }

    pub(crate) fn inner(&self)
        ensures inside { ⊤ }
    {
    }

    pub fn bare(&self) {}
}

/// Holds a law. It does nothing.
pub fn a_law()
    ensures law { ALaw }
{}

pub fn hidden(n: u32) -> u32
    ensures { result ≡ n }
{
    n
}
"""


def with_row(row: str) -> str:
    """The data with a row more behind that which begins the section of lift_lump."""
    title = next(line for line in DATA.splitlines() if line.startswith("lift_lump\t=title"))
    return DATA.replace(title, f"{title}\n{row}")


class Promises(unittest.TestCase):
    """The page."""

    def test_page(self) -> None:
        """It is as it is made."""
        page = (TOP / promises.PAGE).read_text(encoding="utf-8")
        self.assertEqual(page, promises.made(), "tools/tables.py makes it anew")

    def test_each_crate_has_a_section(self) -> None:
        """A crate that promises something and has none is refused."""
        rows = [line for line in DATA.splitlines() if not line.startswith("lift_lump\t")]
        with self.assertRaisesRegex(promises.Wrong, "lift_lump has no section"):
            promises.page("\n".join(rows) + "\n")

    def test_what_is_refused(self) -> None:
        """Clauses, functions, crates and definitions that don't stand in the source, and rows out of place."""
        for row, said in (
            ("lift_lump\tlump.no_such\t\tIt is so.", "lump.no_such .* doesn't stand in the source"),
            ("lift_lump\tno_such.lumped\t\tIt is so.", "no_such.lumped .* doesn't stand"),
            ("lift_lump\tlift_rows/lump.lumped\t\tIt is so.", "lift_rows/lump.lumped .* doesn't stand"),
            ("lift_lump\tnowhere/lump.lumped\t\tIt is so.", "no crate nowhere"),
            ("lift_lump\tlump.lumped\tIsLumped.no_such_part\tIt is so.", "IsLumped.no_such_part .* doesn't stand"),
            ("lift_rows\tadmit.case\t\tIt is so.", "a row of lift_rows stands outside its section"),
            ("lift_lump\tlump.lumped\t\t", "isn't four parts with a sentence"),
            ("lift_lump\tlump.lumped\tIt is so.", "isn't four parts with a sentence"),
        ):
            with self.subTest(row), self.assertRaisesRegex(promises.Wrong, said):
                promises.page(with_row(row))

    def test_a_sentence_more(self) -> None:
        """It stands in its table, and its clause isn't listed as one without a sentence."""
        crate, it = next((crate, it) for crate in crates() for it, _ in promises.left(crate, set()))
        self.assertNotEqual(promises.left(crate, set()), [])
        told = {(crate, it.path, clause.name) for clause in it.clauses}
        self.assertNotIn(it, [one for one, _ in promises.left(crate, told)])
        page = promises.page(with_row("lift_lump\tLumped::block\tIsLumped\tIt is so."))
        self.assertIn("\n| It is so. | `Lumped::block` (`IsLumped`) |\n", page)

    def test_all_public_clauses_are_there(self) -> None:
        """A public function stands in the page, by a sentence of its crate's section or in what is left of it."""
        page = (TOP / promises.PAGE).read_text(encoding="utf-8")
        functions_of = [it for crate in crates() for it in functions(crate) if it.is_public]
        self.assertGreater(len(functions_of), 450)
        self.assertEqual([it.path for it in functions_of if f"`{it.path}`" not in page], [])


class Source(unittest.TestCase):
    """The source as it is read."""

    def read(self) -> List[str]:
        """Each function in words."""
        found = Reader("told", Path("told.rt"), ["Speaks", "Told", "a_law"]).read(SOURCE)
        return [
            f"{it.path} {it.is_public} {it.is_law} {it.comment!r} {[(one.name, one.comment) for one in it.clauses]}"
            for it in found
        ]

    def test_functions(self) -> None:
        """Traits, types, laws; what isn't given to others; comments above functions and clauses."""
        self.assertEqual(
            self.read(),
            [
                "Speaks::say True False 'Says it.' [('small', '')]",
                "Told::say False False '' [('', '')]",
                "Told::one True False 'The first. Both lines.' [('value', 'Why it is one.'), ('', '')]",
                "Told::inner False False '' [('inside', '')]",
                "a_law True True 'Holds a law. It does nothing.' [('law', '')]",
                "hidden False False '' [('', '')]",
            ],
        )

    def test_clauses_are_counted_as_they_stand(self) -> None:
        """No clause of the crates is passed over."""
        for crate in crates():
            files = (TOP / "crates" / crate / "src").rglob("*.rt")
            lines = [line.split() for file in files for line in file.read_text(encoding="utf-8").splitlines()]
            stand = sum(1 for words in lines if words and words[0] in ("ensures", "ensures*"))
            with self.subTest(crate):
                self.assertEqual(sum(len(it.clauses) for it in functions(crate)), stand)


if __name__ == "__main__":
    unittest.main()
