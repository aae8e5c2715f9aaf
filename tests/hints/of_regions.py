"""Mistakes in a region."""

import shlex

from table import ASKED, RETRY, Mistake, changed

DEPTH = "--depth 20 "


def region(value: str, cause: str, *told: str, options: str = "", text: bytes = RETRY) -> Mistake:
    line = f"{ASKED}{options}--region {shlex.quote(value)}"
    return Mistake(line, text, 2, f"usage: --region {cause}", told)


BARE = changed(changed(RETRY, "@parameters\np q\n", ""), "state 3", "state 3")
CONSTANT = (
    RETRY.replace(b"@parameters\np q\n", b"")
    .replace(b"1-p", b"9/10")
    .replace(b"1-q", b"9/10")
    .replace(b": p", b": 1/10")
    .replace(b": q", b": 1/10")
)

MISTAKES = [
    Mistake(ASKED, RETRY, 2, "usage: --region Missing", ("p, q", "--region 'LOW<=p<=HIGH,LOW<=q<=HIGH'")),
    region("", "Missing", "p, q"),
    region("1/10<=p<=3/10", "Missing", "no clause for q", ",LOW<=q<=HIGH"),
    region("1/10<p<3/10,1/20<q<1/5", "Syntax", "<= is wanted here", "'1/10<=p<=3/10,1/20<=q<=1/5'"),
    region("p in [1/10,3/10], q in [1/20,1/5]", "Syntax", "a number is wanted here", "'1/10<=p<=3/10,1/20<=q<=1/5'"),
    region("1/10<=p<=3/10 & 1/20<=q<=1/5", "Syntax", "'1/10<=p<=3/10,1/20<=q<=1/5'"),
    region("1/10<=p<=3/10 and 1/20<=q<=1/5", "Syntax", "'1/10<=p<=3/10,1/20<=q<=1/5'"),
    region("1/10<=p<=3/10;1/20<=q<=1/5", "Syntax", ", is wanted here", "'1/10<=p<=3/10,1/20<=q<=1/5'"),
    region("3/10>=p>=1/10,1/5>=q>=1/20", "Syntax", "'1/10<=p<=3/10,1/20<=q<=1/5'"),
    region("10%<=p<=30%,5%<=q<=20%", "Syntax", "'1/10<=p<=3/10,1/20<=q<=1/5'"),
    region(".1<=p<=.3,.05<=q<=.2", "Syntax", "'1/10<=p<=3/10,1/20<=q<=1/5'"),
    region(
        "1/10<=p<=3/10,1/20<=q<=1/5,", "Syntax", "a clause is wanted behind the comma", "'1/10<=p<=3/10,1/20<=q<=1/5'"
    ),
    region("p=1/10..3/10,q=1/20..1/5", "Syntax", "'1/10<=p<=3/10,1/20<=q<=1/5'"),
    region("1/10≤p≤3/10,1/20≤q≤1/5", "Syntax", "'1/10<=p<=3/10,1/20<=q<=1/5'"),
    region("1/10=<p=<3/10,1/20=<q=<1/5", "Syntax", "'1/10<=p<=3/10,1/20<=q<=1/5'"),
    region("0,1<=p<=0,3;0,05<=q<=0,2", "Syntax", "'1/10<=p<=3/10,1/20<=q<=1/5'"),
    region("p<=3/10", "Syntax", "both ends"),
    region("1/10<=p<=3/10 1/20<=q<=1/5", "Syntax", ", is wanted here"),
    region("1/10<=2*p<=3/10", "Syntax", "a parameter's name is wanted here"),
    region("1/0<=p<=3/10,0<=q<=1", "Syntax", "a divisor isn't 0"),
    region("p", "Syntax", "a number is wanted here"),
    region("region.txt", "Syntax", "a number is wanted here"),
    region("1/10<=P<=3/10,1/20<=q<=1/5", "UnknownName", "no parameter P", "p, q", "is p meant?"),
    region("1/10<=p<=3/10,1/20<=q<=1/5,0<=r<=1", "UnknownName", "no parameter r", "p, q"),
    region("0<=p<=1", "UnknownName", "declares no parameters", "leave --region out", text=CONSTANT),
    region("1/10<=p<=3/10,0<=p<=1,0<=q<=1", "Repeated", "p has a clause already"),
    region("0.1<=p<=0.1,1/20<=q<=1/5", "EmptyInterval", "one value 1/10", "a point is no interval"),
    region("0.3<=p<=0.1,1/20<=q<=1/5", "EmptyInterval", "3/10 is above 1/10", "1/10<=p<=3/10"),
    region("1e-20<=p<=1/2,0<=q<=1", "Wide", "too wide", "10^-20"),
    region("0.1234567890123456789<=p<=1/2,0<=q<=1", "Wide", "too wide", "10^-19"),
    region(
        "1/1000000007<=p<=1/2,1/999999937<=q<=1/2",
        "Wide",
        "least common denominator",
        "--depth 1 it fits",
        options=DEPTH,
    ),
    region("1/4294967291<=p<=1/2,1/4294967279<=q<=1/2", "Wide", "least common denominator"),
]
