"""What the hints propose helps: the proposal is taken, and the program doesn't say the same again.

For each mistake of the tables whose hints hold a proposal that can be taken by itself: a region, a bound, a word, a
line of the text, a command that mends a file. It needs a built program.
"""

from __future__ import annotations

import re
import shlex
import subprocess
import sys
import unittest
from pathlib import Path
from typing import Callable, List, NamedTuple, Optional

sys.dont_write_bytecode = True
sys.path[:0] = [str(Path(__file__).resolve().parent), str(Path(__file__).resolve().parent.parent.parent / "tools")]

import hints  # noqa: E402
from table import Mistake, program, told_of  # noqa: E402
from test_ninety import TABLES, named  # noqa: E402


class Given(NamedTuple):
    """What a program is given."""

    words: List[str]
    text: bytes


Taken = Callable[[Given, "re.Match[str]", Mistake], Given]


def number_of_line(mistake: Mistake) -> int:
    """The line that the note tells."""
    match = re.search(r"line (\d+)", mistake.note)
    assert match, mistake.note
    return int(match[1])


def with_line(given: Given, number: int, line: Optional[str]) -> Given:
    """The text with another line at this number, or without it."""
    lines = given.text.split(b"\n")
    lines[number - 1 : number] = [] if line is None else line.encode().split(b"\n")
    return given._replace(text=b"\n".join(lines))


def with_option(given: Given, name: str, value: str) -> Given:
    """The words with this value for an option, and none else."""
    words, at = [], 0
    while at < len(given.words):
        if given.words[at] == name:
            at += 2
        elif given.words[at].startswith(name + "="):
            at += 1
        else:
            words.append(given.words[at])
            at += 1
    return given._replace(words=words + [name, value])


def by_command(given: Given, command: str) -> Given:
    """The text as a command of the shell makes it from the file FILE."""
    line = command.replace("< FILE", "").replace("FILE", "-").strip()
    ran = subprocess.run(
        ["sh", "-c", line], input=given.text, stdout=subprocess.PIPE, stderr=subprocess.DEVNULL, check=True
    )
    return given._replace(text=ran.stdout)


def region(given: Given, match: "re.Match[str]", _: Mistake) -> Given:
    return given._replace(words=["verify", "--goal", "lost", "--bound", "1/2", "--region", shlex.split(match[1])[0]])


def joined(given: Given, match: "re.Match[str]", mistake: Mistake) -> Given:
    """One transition in the place of two: that at the note's line goes."""
    told = re.search(r"stands at line (\d+) already", "\n".join(told_of(mistake)))
    assert told
    return with_line(with_line(given, int(told[1]), match[1]), number_of_line(mistake), None)


def behind(given: Given, match: "re.Match[str]", mistake: Mistake) -> Given:
    number = number_of_line(mistake)
    line = given.text.split(b"\n")[number - 1].decode()
    return with_line(given, number, line + "\n" + match[1])


def renamed_options(given: Given, mistake: Mistake) -> Given:
    """Each option that is near, in the place of the word that was taken for it."""
    words = given.words
    for old, new in re.findall(r'"([-—][^"=]*)[^"]*" is no option.* is (--\w+) meant', "\n".join(told_of(mistake))):
        words = [new + word[len(old) :] if word.startswith(old) else word for word in words]
    return given._replace(words=words)


def renamed(given: Given, match: "re.Match[str]", mistake: Mistake) -> Given:
    """The near name in the place of the one that was meant."""
    if mistake.note == "usage: words" and match[1].startswith("--") and match[1] not in ("--summary", "--follow"):
        return renamed_options(given, mistake)
    if mistake.note.endswith("UnknownReward"):
        return with_option(given, "--reward", match[1])
    whole = "\n".join(told_of(mistake))
    old = re.search(r'"([^"]*)"|no parameter (\w+);|(\w+) isn\'t declared', whole)
    name = next(part for part in old.groups() if part) if old else ""
    if mistake.note.startswith("model: ") and not mistake.note.endswith("UnknownLabel"):
        number = number_of_line(mistake)
        line = given.text.split(b"\n")[number - 1].decode()
        return with_line(given, number, line.replace(name, match[1]))
    return given._replace(
        words=[re.sub(rf"^{re.escape(name)}|\b{re.escape(name)}\b", match[1], word) for word in given.words]
    )


PROPOSALS = [
    (r"is this meant\? --region (.+)$", region),
    (r"^write --formula (.+)$", lambda g, m, _: with_option(g, "--formula", shlex.split(m[1])[0])),
    (r"(?:one takes all clauses,|write a blank before it, as in|needs quotes, as in) --region (.+)$", region),
    (
        r"needs quotes, as in --goal (.+)$",
        lambda g, m, _: Given(["verify", "--goal", shlex.split(m[1])[0], "--bound", "1/2"], g.text),
    ),
    (r"the lower end stands first: (.+)$", lambda g, m, _: with_option(g, "--region", m[1] + ",1/20<=q<=1/5")),
    (r"leave --region out", lambda g, m, _: Given([w for w in g.words if w != "--region" and "<=" not in w], g.text)),
    (r"(--bound|--budget) \".*\": write ([0-9/]+);", lambda g, m, _: with_option(g, m[1], m[2])),
    (r"'at most': (--bound|--budget) (\S+)$", lambda g, m, _: with_option(g, m[1], m[2])),
    (r"percent are ([0-9/]+)$", lambda g, m, _: with_option(g, "--bound", m[1])),
    (r"(--bound|--budget) .* 2\^32 or more: take (\S+) or", lambda g, m, _: with_option(g, m[1], m[2])),
    (r"(--bound|--budget) .* 2\^32 or more: take \S+ or (\S+)$", lambda g, m, _: with_option(g, m[1], m[2])),
    (r"(?:is at most \S+|is the finest): --precision (\d+)$", lambda g, m, _: with_option(g, "--precision", m[1])),
    (r"this row fits with --precision (\d+)", lambda g, m, _: with_option(g, "--precision", m[1])),
    (r"this row fits with .*--depth (\d+)", lambda g, m, _: with_option(g, "--depth", m[1])),
    (r"with --depth (\d+) it fits", lambda g, m, _: with_option(g, "--depth", m[1])),
    (r"a value is given by --at (\w+=\S+)$", lambda g, m, _: Given(["--at", m[1]], g.text)),
    (r"write (--goal=\w+)$", lambda g, m, _: Given([m[1] if w.startswith("--goal") else w for w in g.words], g.text)),
    (r"is (state \d+ .*) meant\?", lambda g, m, mistake: with_line(g, number_of_line(mistake), m[1])),
    (r"write --goal (\S+) alone", lambda g, m, _: with_option(g, "--goal", m[1])),
    (r"is ([\w-]+) meant\?", renamed),
    (r"is (\d+ : .+) meant\?", lambda g, m, mistake: with_line(g, number_of_line(mistake), m[1])),
    (r"if the others are right, line (\d+) is ([^;]+)", lambda g, m, _: with_line(g, int(m[1]), m[2])),
    (r"join them: (.+)$", joined),
    (
        r"write (@type: \w+)(?:, in capitals.*|; parameters.*|, with a colon.*)?$",
        lambda g, m, mistake: with_line(g, number_of_line(mistake), m[1]),
    ),
    (r"write (@type: MDP) at line (\d+)", lambda g, m, _: with_line(g, int(m[2]), m[1])),
    (r"write a line (\d+ : 1) behind it", behind),
    (
        r"stands at line \d+ already: keep one of them",
        lambda g, m, mistake: with_line(with_line(g, number_of_line(mistake), None), number_of_line(mistake), None),
    ),
    (
        r"what follows (@\w+) stands on the next line: \"(.*)\"",
        lambda g, m, mistake: with_line(g, number_of_line(mistake), m[1] + "\n" + m[2]),
    ),
    (r"check one at a time, as by (head -n \d+ FILE)", lambda g, m, _: by_command(g, m[1])),
    (
        r"^(tr .* < FILE|tail -c \+4 FILE|iconv -f UTF-16 -t UTF-8 FILE|gzip -dc FILE)",
        lambda g, m, _: by_command(g, m[1]),
    ),
]
LEAST = 60  # proposals that are taken
OTHERS = (
    "is verify meant?",
    "is bounded meant?",
    "is lumped meant?",
    "is property meant?",
    "is cost meant?",
)  # proposals of a command, whose words may need more


class Truth(unittest.TestCase):
    def note_on(self, path: str, given: Given) -> str:
        ran = subprocess.run([path] + given.words, input=given.text, capture_output=True, timeout=60)
        return hints.note_in(ran.stderr.decode("utf-8", "replace"))

    def test_proposals(self) -> None:
        """With what a hint proposes, the program has another note, or none."""
        programs = {name: program(name) for name in ("plift", "plift-view")}
        if not programs["plift"]:
            self.skipTest("no program is built")
        taken = 0
        for mistakes in TABLES.values():
            for mistake in mistakes:
                path = programs[mistake.program]
                for line in told_of(mistake) if path else []:
                    for form, take in PROPOSALS:
                        match = re.search(form, line)
                        if match and not line.endswith(OTHERS):
                            taken += 1
                            with self.subTest(words=named(mistake), note=mistake.note, hint=line):
                                given = take(Given(mistake.split(), mistake.text or b""), match, mistake)
                                self.assertNotEqual(given, Given(mistake.split(), mistake.text or b""))
                                self.assertNotEqual(self.note_on(path or "", given), mistake.note)
        self.assertGreaterEqual(taken, LEAST)


if __name__ == "__main__":
    unittest.main()
