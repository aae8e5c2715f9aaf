"""Mistakes in a model text."""

import gzip

from table import ASKED, COIN, COIN_ASKED, PLAIN, RETRY, Mistake, changed


def retry(old: str, new: str, line: int, cause: str, *told: str) -> Mistake:
    """A change of the example retry.drn."""
    return Mistake(PLAIN, changed(RETRY, old, new), 3, f"model: line {line}: {cause}", told)


def coin(old: str, new: str, line: int, cause: str, *told: str) -> Mistake:
    """A change of the example coin.drn."""
    return Mistake(COIN_ASKED, changed(COIN, old, new), 3, f"model: line {line}: {cause}", told)


def value(text: str, cause: str, *told: str) -> Mistake:
    """A value in the place of the coin's first one, at line 6."""
    return coin("1 : p", "1 : " + text, 6, cause, *told)


def whole(text: bytes, line: int, cause: str, *told: str) -> Mistake:
    """Another text."""
    return Mistake(PLAIN, text, 3, f"model: line {line}: {cause}", told)


def asked(goal: str, *told: str) -> Mistake:
    """Another label for the example retry.drn."""
    return Mistake(f"verify --goal {goal} --bound 1/2", RETRY, 3, "model: line 31: UnknownLabel", told)


PRISM = b"dtmc\nconst double p;\nmodule coin\n  s : [0..2] init 0;\n  [] s=0 -> p:(s'=1) + 1-p:(s'=2);\nendmodule\n"
REPORT = b"plift 1\nkind dtmc\nparameters 0\n"
FIVE = "1/8*a+1/8*b+1/8*c+1/8*d+1/8*e"

KINDS = [
    whole(b"", 0, "MissingSection", "the text is empty"),
    whole(gzip.compress(RETRY, mtime=0), 1, "NotText", "gzip", "gzip -dc FILE"),
    whole(b"\xef\xbb\xbf" + RETRY, 1, "NotText", "byte order mark", "tail -c +4"),
    whole(RETRY.decode().encode("utf-16"), 1, "NotText", "UTF-16", "iconv -f UTF-16"),
    whole(RETRY.decode().encode("utf-16-le"), 1, "NotText", "UTF-16"),
    whole(RETRY.replace(b"\n", b"\r"), 1, "MissingSection", "carriage returns alone"),
    whole(PRISM, 1, "Syntax", "PRISM", "DRN"),
    whole(b'{ "jani-version": 1 }\n', 1, "Syntax", "JANI"),
    whole(b"3 4\n0 1 0.5\n0 2 0.5\n", 1, "Syntax", ".tra"),
    whole(REPORT, 1, "Syntax", "that is a report of plift", "plift check"),
    whole(b"<!DOCTYPE html>\n<html></html>\n", 1, "Syntax", "web"),
    whole(b"// only a comment\n", 1, "MissingSection", "no line is @model"),
    whole(b"\n", 1, "MissingSection", "no line is @model"),
]

FRONT = [
    coin("@type: DTMC", "@type: dtmc", 1, "UnsupportedType", "write @type: DTMC"),
    coin("@type: DTMC", "@type: CTMC", 1, "UnsupportedType", "continuous time"),
    coin("@type: DTMC", "@type: POMDP", 1, "UnsupportedType", "partial observation"),
    coin("@type: DTMC", "@type: DTMC // chain", 1, "UnsupportedType", "nothing behind it"),
    coin("@type: DTMC", "@type:", 1, "UnsupportedType", "a DTMC or an MDP"),
    coin("@type: DTMC", "@type DTMC", 1, "UnknownSection", "@type: DTMC", "colon"),
    coin("@type: DTMC", "@Type: DTMC", 1, "UnknownSection", "@type: DTMC"),
    coin("@type: DTMC\n", "", 3, "MissingSection", "no @type stands before it"),
    coin("@model\n", "", 4, "Syntax", "a line @model stands before the first state"),
    coin("@model", "@parameters\nq\n@model", 4, "RepeatedSection", "@parameters stands at line 2 already"),
    coin("@parameters\np", "@parameters p", 2, "UnknownSection", "stands on the next line"),
    coin("@model", "@nr_states 3\n@model", 4, "UnknownSection", "stands on the next line"),
    coin("@parameters", "@parameter", 2, "UnknownSection", "is @parameters meant?"),
    coin("@model", "@state_valuations\n@model", 4, "UnknownSection", "no section is called so", "STORM.md"),
    coin("state 2", "@labels\nstate 2", 10, "UnknownSection", "behind @model no section stands", "take it out"),
    coin("@parameters\np\n", "", 4, "UnknownName", "no parameters are declared", "@parameters"),
    retry("p q", "p, q", 5, "Syntax", "a name is a letter", "blanks, no commas"),
    retry("p q", "p\nq", 6, "Syntax", "all parameters stand on one line"),
    retry("p q", "p q p", 5, "RepeatedName", "p stands twice"),
    coin("\np\n", "\np'\n", 3, "Syntax", "a name is a letter"),
    coin("\np\n", "\n2p\n", 3, "Syntax", "a name is a letter"),
    coin("\np\n", "\np " + "x" * 65 + "\n", 3, "LimitName", "65 bytes"),
    coin("\np\n", "\np a b c d e f g h i j k l m n o q\n", 3, "LimitParameters", "17 parameters"),
    coin("@model", "@nr_states\nthree\n@model", 5, "Syntax", "a number of 1 to 20 digits", "@nr_states"),
    coin("@model", "@nr_states\n4\n@model", 13, "CountMismatch", "line 5 announces 4 states", "has 3"),
    coin("@model", "@nr_choices\n1\n@model", 13, "CountMismatch", "line 5 announces 1 choice", "has 3"),
    coin("@model", "# a coin\n@model", 4, "Syntax", "comments begin with //"),
    coin("@model", "probability of heads\n@model", 4, "Syntax", "before @model stand sections"),
    coin("@model", "@placeholders\nrest : 1-p\n@model", 5, "Syntax", "$name : value"),
    coin("@model", "@placeholders\n$rest : 1-p\n$rest : p\n@model", 6, "RepeatedName", "$rest is defined at line 5"),
]

STATES = [
    retry("state 0 init", "state 0", 31, "InitCount", "no state carries the label init", "line 7"),
    retry("state 1", "state 1 init", 31, "InitCount", "2 states carry init", "0 (line 7), 1 (line 14)"),
    coin("state 2", "state 3", 10, "StateOrder", "the next state is 2", "1, stands at line 8"),
    coin("state 0 init", "state 1 init", 5, "StateOrder", "the next state is 0", "numbered from 0"),
    coin("state 2", "state 1", 10, "StateOrder", "state 1 stands at line 8 already"),
    coin("state 0 init", "state s0 init", 5, "Syntax", "in digits alone", "state 0"),
    coin("state 0 init", "state 0: init", 5, "Syntax", "in digits alone", "state 0"),
    coin("state 0 init", "State 0 init", 5, "Syntax", "small letters"),
    coin("state 0 init", "state init", 5, "Syntax", "in digits alone"),
    coin("state 0 init", "0 init", 5, "Syntax", "is state 0 init meant?"),
    coin("heads", '"heads', 8, "OpenQuote", "this quote"),
    coin("state 1 heads", "state 1 [2 heads", 8, "Syntax", "this [ has no ]"),
    coin("state 1 heads", "state 1 köpfe", 8, "NotText", "C3", "ASCII"),
    coin("state 0 init", "state 0 !3 init", 5, "ExitRate", '"!3"', "continuous time"),
    coin("state 0 init", "state 0 {1} init", 5, "Observation", '"{1}"'),
    coin("2 : 1\n", "", 10, "NoChoice", "no transition", "2 : 1"),
    coin("1 : 1\n", "", 8, "NoChoice", "no transition", "1 : 1"),
    coin(
        "1 : p", "action a\n1 : 1-p\n2 : p\naction b\n1 : p", 9, "ExtraChoice", "second choice of state 0", "@type: MDP"
    ),
    retry("@type: MDP", "@type: DTMC", 11, "ExtraChoice", "second choice of state 0", "@type: MDP at line 3"),
    coin("2 : 1-p", "1 : 1-p", 7, "RepeatedTarget", "line 6 already", "1 : p+1-p"),
    coin("2 : 1-p", "3 : 1-p", 7, "TargetRange", "there is no state 3", "0 to 2"),
    whole(b"@type: DTMC\n@model\n", 2, "NoState", "state 0 init"),
    coin("state 0 init", "state 0 init;", 11, "InitCount", '"init;"', "apart by blanks"),
    coin("state 0 init", "state 0 initial", 11, "InitCount", '"initial"'),
    coin("heads", "heads, done", 11, "UnknownLabel", '"heads,"', "apart by blanks"),
    coin("state 0 init", "state 0, init", 5, "Syntax", "in digits alone", "state 0"),
    coin("1 : p", "action: a\n1 : p", 6, "Syntax", "the word is action"),
    coin("1 : p", "action go left\n1 : p", 6, "Syntax", "at most a name"),
    coin("2 : 1-p", "2 : 1-p\n2 : 1-p", 8, "RepeatedTarget", "the same transition stands at line 7"),
    coin("1 : p", "[a] 1 : p", 6, "Syntax", "no line of a model begins so"),
    coin("2 : 1\n", "2", 11, "Syntax", "2 : VALUE", "cut off"),
    coin("2 : 1\n", "2 :", 11, "Syntax", "no value behind the colon"),
    coin("2 : 1\n", "2 : 1\n@end\n", 12, "UnknownSection", "behind @model"),
    coin("state 2", "@model\nstate 2", 10, "UnknownSection", "@model stands at line 4 already"),
    coin("state 1 heads", "state 1 heads [", 8, "Syntax", "this [ has no ]"),
    coin("@model", "@nr_states\n@model", 5, "Syntax", "a number of 1 to 20 digits"),
    coin("@model", "@model:", 4, "UnknownSection", "@model"),
    coin("@model", "@MODEL", 4, "UnknownSection", "is @model meant?"),
    coin("@type: DTMC", "DTMC", 1, "Syntax", "before @model stand sections"),
    coin("@type: DTMC", "@type: \"DTMC\"", 1, "UnsupportedType", "write @type: DTMC"),
    coin("@type: DTMC", "@type: pMDP", 1, "UnsupportedType", "write @type: MDP"),
    coin("@type: DTMC", "@type: SMG", 1, "UnsupportedType", "games"),
    asked("lsot", '"lsot"', "is lost meant?", "delivered, lost"),
    asked("Lost", "is lost meant?"),
    asked("'F lost'", "write --goal lost alone"),
    asked("'\"lost\"'", "write --goal lost alone"),
    asked("4", "state 4 carries lost"),
    asked("0", "state 0 carries init"),
    asked("2", "state 2 carries no label"),
    Mistake(
        "verify --goal x --bound 1/2",
        b"@type: DTMC\n@model\nstate 0 init\n0 : 1\n",
        3,
        "model: line 4: UnknownLabel",
        ('"x"', "init"),
    ),
]

VALUES = [
    value("2p", "Syntax", "^", "2*p"),
    value("p(1-p)", "Syntax", "p*("),
    value("0.5 p", "Syntax", "0.5*p"),
    value(".5", "Syntax", "digits on both sides"),
    value("5.", "Syntax", "digits on both sides"),
    value("0,5", "Syntax", "a point, not a comma"),
    value("50%", "Syntax", "3/100 for 3%"),
    value("p;", "Syntax", "no ; at its end"),
    value("p // heads", "Syntax", "a comment stands on a line of its own"),
    value("p # heads", "Syntax", "comment"),
    value("(p", "Syntax", ") is wanted"),
    value("p)", "Syntax", "no ( belongs"),
    value("1-", "Syntax", "ends too early"),
    value("", "Syntax", "no value behind the colon"),
    value("+p", "Syntax", "no + in front"),
    value("p, 2 : 1-p", "Syntax", "a line of its own"),
    value("p + 2 : 1-p", "Syntax", "a line of its own"),
    value("[0.4,0.6]", "Syntax", "intervals aren't taken"),
    value("p**2", "Syntax", "affine"),
    value("1-$rest", "Syntax", "a placeholder stands alone"),
    value("$rest", "UnknownPlace", "$rest isn't defined", "no @placeholders"),
    value("p^2", "Power", "^", "affine", "plift-lab fit"),
    value("(1/2)^3", "Power", "powers aren't taken"),
    value("2^3", "Power", "write the number out"),
    value("p*p", "SharedParameter", "p stands on both sides", "a new state in between", "plift-lab fit does it"),
    value("p*(1-p)", "SharedParameter", "p stands on both sides"),
    value("1/p", "ParametricDivisor", "divides by p"),
    value("1/(2-2)", "DivisionByZero", "the divisor is 0"),
    value("P", "UnknownName", "P isn't declared", "is p meant?"),
    value("lambda", "UnknownName", "lambda isn't declared", "the parameters are p"),
    value("sqrt(p)", "UnknownName", "sqrt isn't declared", "functions aren't taken"),
    value("2e", "Syntax", "2*e"),
    value("0x1", "Syntax", "0*x1"),
    value("1_000", "Syntax", "^"),
    value("p q", "Syntax", "p*q"),
    value("(p)(1-p)", "Syntax", "a product has a *"),
    value("p = 1/2", "Syntax", "TARGET : VALUE"),
    value("{p}", "Syntax", "^"),
    value("1/2 1/2", "Syntax", "an operator or the end is wanted here"),
    value("p<=1/2", "Syntax", "^"),
    value("p^1", "Power", "affine"),
    value("p/(1+p)", "ParametricDivisor", "divides by p"),
    value("1/0", "DivisionByZero", "^"),
    value("(1-p)*(1-p)", "SharedParameter", "p stands on both sides"),
    value("$", "Syntax", "^"),
    value("0.12345678901234567890", "Wide", "too wide"),
    value("1e-20", "Wide", "10^-20"),
    value("1/3037000507*1/3037000493", "Wide", "2^62"),
    value("(" * 65 + "p" + ")" * 65, "Deep", "64 parentheses"),
    value("p" + "+0" * 2048, "Long", "4,097 symbols"),
    coin("1 : p", "1 -> p", 6, "Syntax", "is 1 : p meant?"),
    coin("1 : p", "1 p", 6, "Syntax", "is 1 : p meant?"),
    coin("1 : p", "p : 1", 6, "Syntax", "is 1 : p meant?"),
    coin("1 : p", "-> 1 : p", 6, "Syntax", "is 1 : p meant?"),
    coin("1 : p", "goto 1 with p", 6, "Syntax", "no line of a model begins so"),
    coin("1 : p", "1 : p \u2212 0", 6, "NotText", "minus", "write -"),
    coin("1 : 1", "1 : 1/4294967291\n2 : 1/4294967279\n0 : 1", 13, "CommonDenominator", "line 10", "2^62"),
    coin(
        "\np\n@model\nstate 0 init\n1 : p",
        "\np a b c d e\n@model\nstate 0 init\n1 : " + FIVE,
        6,
        "LimitValueParameters",
        "a, b, c, d, e",
        "at most 4",
    ),
    coin("1 : p", "1 : p" + " " * 2**20, 6, "LongLine", "1,048,576"),
]

LIMITS = [
    whole(
        b"@type: DTMC\n@model\n" + b"".join(b"state %d\n%d : 1\n" % (s, s) for s in range(65537)),
        131075,
        "LimitStates",
        "65,536",
    ),
    whole(b"@type: MDP\n@model\nstate 0 init\n" + b"action a\n0 : 1\n" * 131073, 262148, "LimitChoices", "131,072"),
    whole(
        b"@type: MDP\n@model\nstate 0 init\n" + b"action a\n0 : 1\n1 : 0\n2 : 0\n" * 87382,
        349530,
        "LimitTransitions",
        "262,144",
    ),
    whole(
        b"@type: MDP\n@placeholders\n" + b"".join(b"$a%d : 1\n" % i for i in range(65537)),
        65539,
        "LimitPlaces",
        "65,536",
    ),
]

MISTAKES = KINDS + FRONT + STATES + VALUES + LIMITS

# What looks like a mistake and is none.
TAKEN = [
    Mistake(ASKED + "--region ' 1/10 <= p <= 3/10 , 0.05<=q<=2e-1 '", RETRY, 0, "", ()),
    Mistake(PLAIN, RETRY.replace(b"\n", b"\r\n"), 0, "", ()),
    Mistake(PLAIN, "// Grüße\n".encode() + RETRY, 0, "", ()),
    Mistake(PLAIN.replace("lost", "init"), RETRY, 0, "", ()),
    Mistake(PLAIN, changed(RETRY, "1 : p", "\t1:p  "), 0, "", ()),
]

MISTAKES += TAKEN
