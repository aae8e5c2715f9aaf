"""The examples, each with a few questions. What is answered isn't known here, and two programs have to say the same."""

import re
from collections.abc import Iterator
from itertools import product

from cases import Case
from tables import TOP

SHAPES = [("1/2", "0", "24"), ("1/4", "3", "10"), ("1/50", "5", "7"), ("0", "1", "40")]
OPS = ["<=", "<", ">=", ">"]
BUDGETS = [("7/5", "3", "0", "24"), ("13/10", "4", "4", "10"), ("0", "1", "0", "40")]
REPORTED = [["check"], ["migrate"], ["refine", "--depth", "3"], ["refine", "--depth=7"]]
VIEWS: list[list[str]] = [[], ["--summary"], ["--follow"], ["--x", "p"], ["--at", "q=1/8"]]


def parameters(text: str) -> list[str]:
    found = re.search(r"^@parameters\n(.*)\n", text, re.M)
    return found[1].split() if found else []


def labels(text: str) -> list[str]:
    return sorted(
        {name for line in re.findall(r"^state \d+ (.*)$", text, re.M) for name in re.findall(r"[a-z]\w*", line)}
    )


def rewards(text: str) -> list[str]:
    found = re.search(r"^@reward_models\n(.*)\n", text, re.M)
    return found[1].split() if found else []


def models() -> Iterator[Case]:
    for path in sorted((TOP / "examples").glob("*.drn")):
        text = path.read_text()
        region = ",".join(f"1/10<={name}<=2/5" for name in parameters(text))
        for goal in labels(text):
            for bound, depth, precision in SHAPES:
                for command in (["verify"], ["verify", "--from", "1"], ["lumped"], ["bounded", "--steps", "3"]):
                    words = [*command, "--goal", goal, "--bound", bound, "--depth", depth, "--precision", precision]
                    words += ["--region", region] if region else []
                    yield Case(f"{path.name}: {' '.join(words)}", "plift", words, path.read_bytes())
            for reward, (budget, cap, depth, precision) in product(rewards(text), BUDGETS):
                words = ["cost", "--goal", goal, "--reward", reward, "--budget", budget, "--cap", cap, "--depth", depth]
                words += ["--precision", precision, *(["--region", region] if region else [])]
                yield Case(f"{path.name}: {' '.join(words)}", "plift", words, path.read_bytes())
            for op, (bound, depth, precision) in zip(OPS, SHAPES):
                for route in (f'F "{goal}"', f'"init" U "{goal}"'):
                    words = [
                        "property",
                        "--formula",
                        f"P{op}{bound} [{route}]",
                        "--depth",
                        depth,
                        "--precision",
                        precision,
                    ]
                    words += ["--region", region] if region else []
                    yield Case(f"{path.name}: {' '.join(words)}", "plift", words, path.read_bytes())


def reports() -> Iterator[Case]:
    for path in sorted((TOP / "examples").glob("*.report")):
        for command in REPORTED:
            yield Case(f"{path.name}: {' '.join(command)}", "plift", command, path.read_bytes())
        for words in VIEWS:
            yield Case(f"{path.name}: {' '.join(words)}", "plift-view", words, path.read_bytes())


def made() -> Iterator[Case]:
    for blocks in ("2", "50", "3000", "32767"):
        yield Case(f"generate {blocks}", "plift", ["generate", blocks], b"")
    for blocks in ("2", "700"):
        yield Case(f"selftest {blocks}", "plift", ["selftest", blocks], b"")


def cases() -> Iterator[Case]:
    """All questions about the examples."""
    yield from models()
    yield from reports()
    yield from made()
