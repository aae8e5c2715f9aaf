"""What a text most likely is, by its first bytes."""

from __future__ import annotations

import re
from typing import List, Optional

FRONT = 4096  # bytes that are looked at

PACKED = {
    b"\x1f\x8b": ("gzip", "gzip -dc FILE"),
    b"BZh": ("bzip2", "bzip2 -dc FILE"),
    b"\xfd7zXZ": ("xz", "xz -dc FILE"),
    b"\x28\xb5\x2f\xfd": ("zstd", "zstd -dc FILE"),
    b"PK\x03\x04": ("zip", "unzip -p FILE"),
}
SHAPES = {
    "report": rb"plift [0-9]+\r?\n",
    "bounded": rb"plift-bounded [0-9]+\r?\n",
    "property": rb"plift-property [0-9]+\r?\n",
    "cost": rb"plift-cost [0-9]+\r?\n",
    "answer": rb"sound (accept [0-9]+ (reject|unknown)|holds [0-9]+ fails) ",
    "picture": rb"\s*(<\?xml|<svg)",
    "page": rb"(?i)\s*<(!doctype|html)",
    "jani": rb"\s*\{\s*\"",
    "model": rb"(?m)^[ \t]*@(type|parameters|model|value_type|nr_states|reward_models|placeholders)\b",
    "prism": rb"(?m)^\s*(dtmc|mdp|ctmc|module|const|probabilistic|nondeterministic|stochastic|endmodule)\b",
    "numbers": rb"[0-9]+( [0-9]+)+\r?\n[0-9]+ ",
}
BUILT = "plift reads models that are built, state by state, in the DRN format (docs/STORM.md, docs/FORMATS.md)"
JUDGED = "python3 recheck/recheck.py FILE judges it (installed: plift-recheck FILE), and plift check doesn't"
TOLD = {
    "empty": ["the text is empty", "is it the right file, and did what should have written it end well?"],
    "mark": ["the text begins with a byte order mark (the bytes EF BB BF)", "tail -c +4 FILE drops it"],
    "wide": ["the text is UTF-16, as PowerShell's > writes", "iconv -f UTF-16 -t UTF-8 FILE makes it UTF-8"],
    "report": ["that is a report of plift", "plift check and plift-view read reports; verify reads models"],
    "bounded": ["that is a report of plift bounded", JUDGED],
    "property": ["that is a text of plift property", JUDGED],
    "cost": ["that is a text of plift cost", JUDGED],
    "answer": [
        "that is the line that plift check writes, or recheck.py",
        "the report is another file, which verify writes",
    ],
    "picture": ["that is a picture or another XML text", "is it the right file?"],
    "page": ["that is a page of the web, maybe a refused download", "is it the right file?"],
    "jani": ["that is a JSON text, maybe a JANI model", BUILT],
    "prism": ["that looks like a PRISM program", BUILT],
    "numbers": ["that looks like a list of numbers, maybe PRISM's .tra", BUILT],
    "old": ["its lines end with carriage returns alone", "tr '\\r' '\\n' < FILE mends it"],
}


def kind_of(text: bytes) -> Optional[str]:
    """The kind of a text, where it shows."""
    front = text[:FRONT]
    if not text:
        return "empty"
    if front.startswith(b"\xef\xbb\xbf"):
        return "mark"
    if front.startswith((b"\xff\xfe", b"\xfe\xff")) or re.match(rb"(?s)(?:[\n\r -~]\0){8}|(?:\0[\n\r -~]){8}", front):
        return "wide"
    for magic in PACKED:
        if front.startswith(magic):
            return PACKED[magic][0]
    for kind, shape in SHAPES.items():
        if (re.search if shape.startswith(b"(?m)") else re.match)(shape, front):
            return kind
    return "old" if b"\r" in front and b"\n" not in text else None


def told_of(kind: Optional[str]) -> List[str]:
    """What a text of this kind is, and what to do, where it can't be read."""
    for name, command in PACKED.values():
        if kind == name:
            return [f"the text is packed by {name}", f"{command} | plift .. unpacks it"]
    return TOLD.get(kind or "", [])


def strange(text: bytes, usual: str) -> List[str]:
    """What is told of a text that isn't of the usual kind."""
    kind = kind_of(text)
    return [] if kind == usual else told_of(kind)
