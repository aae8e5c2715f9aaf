"""Tests of what counts the parameters of functions."""

import sys
import unittest
from pathlib import Path

TOP = Path(__file__).resolve().parent.parent.parent
sys.dont_write_bytecode = True
sys.path.insert(0, str(TOP / "tools"))
import parameters  # noqa: E402

TEXT = '''// fn in_a_comment(a: u8, b: u8)
pub fn none() {}

/* fn in_another(a: u8,
   b: u8) */
pub(crate) fn map<'t, F: Fn(u8, u8) -> u8, const N: usize>(
    &mut self,
    pairs: [(u8, u8); 2],
    map: Map<u8, Vec<(u8, u8)>>,
    f: impl Fn(u8, &str) -> Option<(u8, u8)>, // one, by two
    (left, right): (u8, u8),
) -> Result<(u8, u8), Error>
    requires { f (1, 2) ≡ "fn quoted(a: u8, b: u8)" }
{
    let later: fn(u8, u8) -> u8 = other;
}

fn six(a: u8, b: u8, c: u8, d: &dyn Fn(u8) -> u8, e: u8, f: u8) {}
fn eight(&self, a: u8, b: u8, c: u8, d: u8, e: u8, f: u8, g: u8,) {}
'''


class Parameters(unittest.TestCase):
    def test_each_function_is_counted(self) -> None:
        found = [tuple(it) for it in parameters.functions(TEXT, "a.rt")]
        self.assertEqual(
            found, [("a.rt", 2, "none", 0), ("a.rt", 6, "map", 5), ("a.rt", 18, "six", 6), ("a.rt", 19, "eight", 8)]
        )

    def test_the_line(self) -> None:
        found = list(parameters.functions(TEXT))
        self.assertEqual(parameters.summary(found), "functions with 6 or more: 2, with 8 or more: 1")

    def test_crates_of_tests_are_left_out(self) -> None:
        found = parameters.all_functions()
        self.assertGreater(len(found), 1000)
        self.assertEqual([it for it in found if "_tests/" in it.file], [])


if __name__ == "__main__":
    unittest.main()
