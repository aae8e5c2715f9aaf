"""Texts of others as they are shown: nothing that a file says moves a terminal's cursor or looks like a line of
ours."""

from __future__ import annotations

from typing import Iterable, Union

MOST_NAMES, MOST_BYTES = 16, 200


def plain(text: Union[str, bytes]) -> str:
    """What a file says: each byte outside 32 to 126 is shown as `\\x1b`."""
    data = text if isinstance(text, bytes) else text.encode('utf-8', 'backslashreplace')
    return ''.join(chr(byte) if 32 <= byte <= 126 else '\\x%02x' % byte for byte in data)


def printable(text: str) -> str:
    """A line of ours, which may have words of the user in it: what can't be printed is shown as Python writes it."""
    return ''.join(letter if letter.isprintable() else repr(letter)[1:-1] for letter in text)


def listed(names: Iterable[Union[str, bytes]]) -> str:
    """Names that a file has, the first of them where they are many."""
    all_names = list(names)
    told = [plain(name[:MOST_BYTES]) for name in all_names[:MOST_NAMES]]
    more = len(all_names) - len(told)
    return ', '.join(told + ['and %d more' % more] * (more > 0)) or 'none'
