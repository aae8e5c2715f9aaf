"""Writes the code of a file in Rust, over the shim `rstd`, which has what the code uses of the kit's library."""

from __future__ import annotations

import re

from contracts import behind, without_contracts

CLAIM = re.compile(r"^([ \t]*)let ([^=;{}]+?) = ((?:(?!;\n)[^{}])*?) else \{", re.M)
BOUND = re.compile(r"(mut )?\b([a-z_]\w*)\b(?!\s*[:(])")


def matched(claim: re.Match[str], block: str) -> str:
    """A `let .. else` with this block, written as a `match`, which older compilers know as well."""
    indent, pattern, value = claim.groups()
    names = BOUND.findall(pattern)
    values = ", ".join(name for _, name in names)
    places = ", ".join(mutable + name for mutable, name in names)
    if len(names) != 1:
        places, values = f"({places})", f"({values})"
    pattern = pattern.replace("mut ", "")
    arms = f"{indent}    {pattern} => {values},\n{indent}    _ => {block}\n"
    return f"{indent}let {places} = match {value} {{\n{arms}{indent}}}"


def without_claims(text: str) -> str:
    """The code with a `match` for each `let .. else`."""
    out, at = "", 0
    while claim := CLAIM.search(text, at):
        end = behind(text, claim.end() - 1, "{}")
        out += text[at : claim.start()] + matched(claim, text[claim.end() - 1 : end])
        at = end
    return out + text[at:]


def as_rust(text: str) -> str:
    """The code of a file in Rust."""
    text = re.sub(r"^\s*pub ghost [^\n]*\n", "", without_contracts(text), flags=re.M)
    text = re.sub(r"^\s*#!?\[(?:tactic|error)\([^\n]*\n", "", text, flags=re.M)
    text = re.sub(r"\bstd::(alloc|num|collections|io|marker|process|rc|simd)\b", r"rstd::\1", text)
    text = text.replace("use std::{env, io};", "use rstd::{env, io};")
    text = re.sub(r"\buse (clap|itoa|indexmap|thiserror|memchr)::", r"use rstd::\1::", text)
    text = re.sub(r"(?:, )?\b(?:Drop|Error)\b(?=[^(\n]*\)\])", "", text)
    text = text.replace("#[derive()]\n", "").replace("#[derive(, ", "#[derive(").replace("#[from] ", "")
    text = re.sub(r"\b(type \w+): Drop;", r"\1;", text)
    text = (
        text.replace("vec![in ", "rvec![in ")
        .replace(".collect(alloc)", ".rcollect(alloc)")
        .replace("Box::new(alloc, ", "rstd::boxed(")
    )
    front = "".join(re.findall(r"\A(?://![^\n]*\n)*", text))
    return f"{front}#[allow(unused_imports)]\nuse rstd::prelude::*;\n{without_claims(text[len(front):])}"
