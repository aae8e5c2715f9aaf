"""The same model in other parameters: each value at a valuation is what it was at the valuation that it stands for."""

import ast
import operator
import re
import unittest
from fractions import Fraction
from typing import Any, List, Mapping

from plift_lab.models import Model
from plift_lab.regions import Region

from .helpers import EXAMPLES

OPERATIONS = {ast.Add: operator.add, ast.Sub: operator.sub, ast.Mult: operator.mul, ast.Div: operator.truediv}


def worth(value: str, valuation: Mapping[str, Fraction]) -> Fraction:
    """A value at a valuation, by a reader that shares nothing with the tool."""

    def of(node: Any) -> Fraction:
        if isinstance(node, ast.BinOp):
            return Fraction(OPERATIONS[type(node.op)](of(node.left), of(node.right)))
        if isinstance(node, ast.UnaryOp):
            return -of(node.operand)
        return valuation[node.id] if isinstance(node, ast.Name) else Fraction(str(node.value))

    return of(ast.parse(value.strip(), mode='eval').body)


def values(model: Model) -> List[str]:
    """The values behind colons, in their order; places of placeholders stay as they are."""
    lines = model.text.decode().split('@model')
    placed = re.findall(r'^\s*\$\w+\s*:(.*)$', lines[0], re.M)
    return [value for value in placed + re.findall(r'^\s*\d+\s*:(.*)$', lines[1], re.M) if '$' not in value]


TEXT = b'''// p, not a value: 1 : p
@type: DTMC\r
@parameters
p q e
@placeholders
$p : 1-p
@model
state 0 [p] "p" init
1 : 1/2*p*q+5e-1*(1-p)
 2\t:\t$p
action p [2 : p]
3 : -p+1e0*e
state 1 p
1 : 1
'''


class Rescaled(unittest.TestCase):
    def same(self, model: Model, region: Region) -> Model:
        changed, units, scale = model.rescaled(region)
        self.assertEqual(
            [(name, low, high) for name, low, high in units.intervals], [(name, 0, 1) for name in region.names]
        )
        old, new = values(model), values(changed)
        self.assertEqual(len(old), len(new))
        for place in (Fraction(0), Fraction(1), Fraction(3, 7)):
            own = {name: place for name in region.names}
            user = {name: low + (high - low) * place for name, (low, high) in scale.items()}
            for before, after in zip(old, new):
                self.assertEqual(worth(before, user), worth(after, own), (before, after))
        return changed

    def test_all_examples(self) -> None:
        tried = 0
        for path in sorted(EXAMPLES.glob('*.drn')):
            model = Model(path.read_bytes())
            intervals = tuple(
                (name, Fraction(1, 1000 + place), Fraction(9, 10)) for place, name in enumerate(model.parameters)
            )
            self.same(model, Region(intervals))
            tried += 1
        self.assertGreater(tried, 8)

    def test_only_values_are_changed(self) -> None:
        model = Model(TEXT)
        self.assertEqual(model.parameters, ['p', 'q', 'e'])
        changed = self.same(model, Region.read('-1/2<=p<=1,0<=q<=1/3,0<=e<=2'))
        for line in (
            b'// p, not a value: 1 : p',
            b'@type: DTMC\r',
            b'p q e',
            b'state 0 [p] "p" init',
            b' 2\t:\t$p',
            b'action p [2 : p]',
            b'state 1 p',
        ):
            self.assertIn(b'\n' + line + b'\n', b'\n' + changed.text)
        self.assertIn(b'$p : 1-(-1/2+3/2*p)\n', changed.text)
        self.assertIn(b'3 : -(-1/2+3/2*p)+1e0*(2*e)\n', changed.text)

    def test_a_value_is_written_in(self) -> None:
        changed = Model(TEXT).fixed(Region.read('p=-1/4,0<=q<=1,0<=e<=1'))
        self.assertEqual(changed.parameters, ['q', 'e'])
        self.assertIn(b'1 : 1/2*(-1/4)*q+5e-1*(1-(-1/4))\n', changed.text)

    def test_no_parameters(self) -> None:
        self.assertEqual(Model(b'@type: DTMC\n@model\nstate 0 init\n0 : 1\n').parameters, [])
        self.assertEqual(Model(b'@parameters\n@model\n').parameters, [])
        self.assertEqual(Model(b'\xff\x00@parameters').parameters, [])


if __name__ == '__main__':
    unittest.main()
