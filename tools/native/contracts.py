"""Takes the contracts out of the code of a file: what is left is code alone."""

from __future__ import annotations

import re

CLAUSE = re.compile(
    r"^[ \t]*(?:(?P<ghost>ghost)|(?P<clause>requires|ensures)|(?P<attribute>#\[(?:tactic|cycle))"
    r"|(?P<model>impl(?:<[^{]*?>)? (?:std::marker::)?Model for))\b",
    re.M,
)
DECLARED = re.compile(r"\s+(?:use\b|[A-Za-z_]\w*\s*(?:=|:[^;{]*\{[^{}]*\}\s*(?:=|;)))")
DOCS = re.compile(r"(?:^[ \t]*///[^\n]*\n)+[ \t]*\Z", re.M)


def behind(text: str, at: int, pair: str) -> int:
    """The place behind the bracket that closes the next one of this pair."""
    at = text.index(pair[0], at)
    depth = 0
    while True:
        depth += (text[at] == pair[0]) - (text[at] == pair[1])
        at += 1
        if depth == 0:
            return at


def declared_end(text: str, at: int) -> int:
    """The place behind the semicolon that ends a ghost declaration."""
    while text[at] != ";":
        at = behind(text, at, "{}") if text[at] == "{" else at + 1
    return at + 1


def without_contracts(text: str) -> str:
    """The code of a file, without contracts, ghost declarations and tactics."""
    out, at = "", 0
    while match := CLAUSE.search(text, at):
        out += text[at : match.start()]
        at = match.end()
        if match["ghost"] and DECLARED.match(text, at):
            at = declared_end(text, at)
            out = DOCS.sub("", out)
        elif match["attribute"]:
            at = behind(text, match.start(), "[]")
        else:
            at = behind(text, at, "{}")
        at += text.startswith(",", at)
    return out + text[at:]
