"""Words of a line: quoted, in brackets, or plain."""

from __future__ import annotations

import re
from typing import List, Tuple

from .refusal import Unfit

WORD = re.compile(rb'\s*(?:"([^"]*)"|\[([^\]]*)\]|([^\s"\[]\S*)|(\S))')
QUOTED, GROUP, PLAIN = 1, 2, 3
QUOTE_OR_GROUP = re.compile(rb'["\[]')
MOST_DIGITS = 20
Words = List[Tuple[int, bytes]]


def words_of(number: int, text: bytes) -> Words:
    """The words, and of which kind each is."""
    if not QUOTE_OR_GROUP.search(text):
        return [(PLAIN, word) for word in text.split()]
    words = []
    for found in WORD.finditer(text):
        kind = found.lastindex or 0
        if kind > PLAIN:
            is_quote = found.group(kind) == b'"'
            about = 'a quote has no end on its line' if is_quote else 'a bracket has no end on its line'
            raise Unfit(number, 'OpenQuote' if is_quote else 'Syntax', about)
        words.append((kind, found.group(kind)))
    return words
