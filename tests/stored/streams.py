"""What is told where a standard stream can't be used, or a word isn't text."""

import os
import subprocess
from collections.abc import Iterator, Sequence
from typing import Any

from cases import Answer
from tables import TOP

# Each row: the words, what the shell does to the streams, the status, and what is noted.
ROWS = """
check | <&- | 5 | read fault
check | </ | 5 | read fault
generate 1 | </dev/null >&- | 6 | write fault
generate 1 | </dev/null >/dev/full | 6 | write fault
check | </dev/null 2>&- | 1 |
migrate | <&- | 5 | read fault
migrate | </ | 5 | read fault
migrate | <examples/coin.report >&- | 6 | write fault
migrate | <examples/coin.report >/dev/full | 6 | write fault
migrate | </dev/null 2>&- | 1 |
refine --depth 9 | <&- | 5 | read fault
refine --depth 9 | </ | 5 | read fault
refine --depth 9 | <examples/coin.report >&- | 6 | write fault
refine --depth 9 | <examples/coin.report >/dev/full | 6 | write fault
refine --depth 9 | </dev/null 2>&- | 1 |
verify | </dev/null 2>/dev/full | 2 |
"""


def answer_of(command: Sequence[str | bytes], **streams: Any) -> Answer:
    done = subprocess.run(command, stderr=subprocess.PIPE, timeout=600, cwd=TOP, **streams)
    return Answer(done.returncode, done.stdout or b"", done.stderr)


def under_shell(program: str, row: str) -> tuple[Answer, Answer]:
    """What a program answers, and what it has to."""
    words, streams, status, note = (cell.strip() for cell in row.split("|"))
    command = ["sh", "-c", f'exec "$0" "$@" {streams}', program, *words.split()]
    return answer_of(command, stdout=subprocess.PIPE), Answer(int(status), b"", f"{note}\n".encode() if note else b"")


def without_reader(program: str) -> tuple[Answer, Answer]:
    """The same where nobody reads what it writes."""
    reader, writer = os.pipe()
    os.close(reader)
    try:
        return answer_of([program, "generate", "30000"], stdout=writer), Answer(6, b"", b"write fault\n")
    finally:
        os.close(writer)


def of_no_text(program: str) -> tuple[Answer, Answer]:
    """The same where a word isn't text."""
    return answer_of([program, b"generate", b"\xff"], stdout=subprocess.PIPE), Answer(2, b"", b"")


def answers(program: str) -> Iterator[tuple[str, Answer, Answer]]:
    """For each: what it is, what a program answers, and what it has to."""
    for row in ROWS.strip().split("\n"):
        if "/dev/full" not in row or os.path.exists("/dev/full"):
            yield row, *under_shell(program, row)
    yield "nobody reads", *without_reader(program)
    yield "a word that isn't text", *of_no_text(program)
