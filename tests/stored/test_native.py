"""Tests of how code is written without its contracts."""

import sys
import unittest
from pathlib import Path

sys.dont_write_bytecode = True
sys.path.insert(0, str(Path(__file__).resolve().parent.parent.parent / "tools" / "native"))
import contracts  # noqa: E402
import rust  # noqa: E402

PROVED = """\
// Adds.
ghost use Rattle.std.specs.Prelude.{_};

/// The sum.
#[tactic(auto, unfolding(crate::specs::Sum))]
pub fn sum(a: u32, b: u32) -> u32
    requires { a + b < 4 }
    ensures same { result = { a + b } }
{
    a + b
}
"""
CLAIM = """\
    let Some((a, mut b)) = parts(text) else {
        return None;
    };
    let [word, rest @ ..] = words else { return None; };
    b
"""
MATCH = """\
    let (a, mut b) = match parts(text) {
        Some((a, b)) => (a, b),
        _ => {
        return None;
    }
    };
    let (word, rest) = match words {
        [word, rest @ ..] => (word, rest),
        _ => { return None; }
    };
    b
"""


class Native(unittest.TestCase):
    def test_contracts_are_left_out(self) -> None:
        lines = [line for line in contracts.without_contracts(PROVED).splitlines() if line.strip()]
        self.assertEqual(
            lines, ["// Adds.", "/// The sum.", "pub fn sum(a: u32, b: u32) -> u32", "{", "    a + b", "}"]
        )

    def test_claims_become_matches(self) -> None:
        self.assertEqual(rust.without_claims(CLAIM), MATCH)

    def test_an_associated_type_is_dropped_without_a_word(self) -> None:
        self.assertIn("    type Branch;\n", rust.as_rust("trait Grower {\n    type Branch: Drop;\n}\n"))


if __name__ == "__main__":
    unittest.main()
