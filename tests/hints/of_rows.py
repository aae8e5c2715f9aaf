"""Mistakes in rows: probabilities that don't add up, get negative or have too many parameters."""

from table import COIN, RETRY, Mistake, changed

COIN_ASKED = "verify --goal heads --bound 1/2 "


def coin(old: str, new: str, note: str, *told: str, region: str = "1/10<=p<=9/10", options: str = "") -> Mistake:
    line = f"{COIN_ASKED}--region '{region}' {options}"
    return Mistake(line, changed(COIN, old, new), 4, f"rows: state 0 choice 0: {note}", told)


WHOLE = "1 : p\n2 : 1-p"
FIVE = b"""@type: DTMC
@parameters
a b c d e
@model
state 0 init
1 : 1/8*a+1/8*b+1/8*c
2 : 1/8*d+1/8*e
0 : 1/2-1/8*a-1/8*b-1/8*c
3 : 1/2-1/8*d-1/8*e
state 1 heads
1 : 1
state 2
2 : 1
state 3
3 : 1
"""
ALL = ",".join(f"0<={name}<=1" for name in "abcde")
PAIRS = "\np q r s\n@model\nstate 0 init\n1 : p*q*r*s\n2 : 1-p*q*r*s"
NARROW = ",".join(f"1/1000003<={name}<=1/2" for name in "pqrs")

MISTAKES = [
    coin(
        WHOLE,
        "0 : 0.3333\n1 : 0.3333\n2 : 0.3333",
        "set 0 sums to 9999",
        "lines 6 to 8",
        "9999/10000, not to 1",
        "9999 of 10000",
        "2 : 1-0.3333-0.3333",
    ),
    coin(
        WHOLE,
        "1 : 0.97999999999999998\n2 : 0.02",
        "set 0 sums to 49999999999999999",
        "49999999999999999 of 50000000000000000",
        "2 : 1-0.97999999999999998",
        "plift-lab fit --round",
    ),
    coin(WHOLE, "1 : 1/2\n2 : 1/3", "set 0 sums to 5", "5/6, not to 1", "5 of 6"),
    coin(WHOLE, "1 : 1\n2 : 1", "set 0 sums to 2", "sum to 2, not to 1"),
    coin(WHOLE, "1 : 0", "set 0 sums to 0", "sum to 0, not to 1"),
    coin(WHOLE, "1 : 30\n2 : 70", "set 0 sums to 100", "sum to 100, not to 1", "percents"),
    coin(WHOLE, "1 : p\n2 : p", "set 0 sums to 0", "sum to 0, not to 1"),
    coin(WHOLE, "1 : p\n2 : 1", "set 1 sums to 1", "the coefficients of p sum to 1, not to 0", "line 6", "as in 1-p"),
    coin("1 : p", "1 : 2*p", "set 1 sums to 1", "2 at line 6 (2*p), -1 at line 7 (1-p)"),
    coin(WHOLE, "action a", "set 0 sums to 0", "(no lines)", "sum to 0, not to 1"),
    coin(WHOLE, "1 : 0.1\n2 : 0.2\n0 : 0.6999999", "set 0 sums to 9999999", "0 : 1-0.1-0.2"),
    coin(WHOLE, "1 : p\n2 : 0.9-p", "set 0 sums to 9", "its terms without parameters sum to 9/10", "2 : 1-p"),
    coin("1 : p", "1 : $a", "set 1 sums to 1", "2 at line 8 ($a)", region="1/10<=p<=9/10")._replace(
        text=changed(COIN, "@model\nstate 0 init\n1 : p", "@placeholders\n$a : 2*p\n@model\nstate 0 init\n1 : $a")
    ),
    Mistake(
        "verify --goal lost --bound 3/100 --region '1/10<=p<=3/10,1/20<=q<=1/5'",
        changed(RETRY, "3 : 1-p", "3 : 1-q"),
        4,
        "rows: state 0 choice 0: set 1 sums to 1",
        ("state 0 choice 0 (lines 9 to 10)", "the coefficients of p", "another name"),
    ),
    coin(
        "@type",
        "@type",
        "target 2 at corner 1 has weight -1",
        "line 7: 2 : 1-p is -1/2 at p = 3/2",
        "above 1",
        region="1/2<=p<=3/2",
    ),
    coin(
        "@type",
        "@type",
        "target 1 at corner 0 has weight -1",
        "1 : p is -1/2 at p = -1/2",
        "below 0",
        region=" -1/2<=p<=1/2",
    ),
    coin(
        "1 : p\n2 : 1-p",
        "1 : -1/2\n2 : 3/2",
        "target 1 at corner 0 has weight -1",
        "1 : -1/2 is -1/2, and a probability isn't negative",
    ),
    Mistake(
        f"verify --goal heads --bound 1/2 --region '{ALL}'",
        FIVE,
        4,
        "rows: state 0 choice 0: 5 parameters",
        ("lines 6 to 9", "a, b, c, d, e", "at most 4"),
    ),
    coin(
        "\np\n@model\nstate 0 init\n1 : p\n2 : 1-p",
        PAIRS,
        "too wide",
        "state 0 choice 0",
        "128 bits",
        "2,000,006",
        "--precision",
        "--depth",
        region=NARROW,
        options="--precision 40 --depth 2",
    ),
]
