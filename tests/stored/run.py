#!/usr/bin/env python3
"""Runs the stored tests, which the gate runs on parts of the program, on whole programs:

    run.py [--program PATH] [--view PATH] [--proved PATH --proved-view PATH]

These are the tables of crates/plift_tests and crates/view_tests and the runs beside each program's source, as far as
they can be given by standard streams, and what newcomers get wrong. Each report that `verify` writes is checked as
well, and what `migrate` makes of one of version 1 has the bytes that it should have, and is checked. The programs are
those of tools/quick.py if left out, which builds them where need be. With --proved and --proved-view a second pair of
programs is given the same, and the examples besides: both have to answer the same, byte for byte.
"""

import argparse
import os
import subprocess
import sys
import tempfile
from collections.abc import Iterator
from pathlib import Path

sys.dont_write_bytecode = True
sys.path.insert(0, str(Path(__file__).resolve().parent))
import examples  # noqa: E402
import mistakes  # noqa: E402
import streams  # noqa: E402
from cases import DONE, STATUSES, UNREADABLE, Answer, Case, left_out, stored  # noqa: E402
from tables import TOP  # noqa: E402

SECONDS = 600
# The status of a run that took longer.
STOPPED = -1
# What `migrate` answers to a report that isn't of version 1.
NO_FIRST = Answer(STATUSES.index("NotSound"), b"", b"not sound: line 1: Version\n")


def ask(program: str, words: list[str], given: bytes | None) -> Answer:
    """What a program answers to these words and this input."""
    with tempfile.TemporaryFile() as file:
        if given is UNREADABLE:
            source = os.open("/", os.O_RDONLY)
        else:
            file.write(given)
            file.seek(0)
            source = os.dup(file.fileno())
        try:
            done = subprocess.run([program, *words], stdin=source, capture_output=True, timeout=SECONDS)
        except subprocess.TimeoutExpired:
            return Answer(STOPPED, b"", b"")
        finally:
            os.close(source)
    return Answer(done.returncode, done.stdout, done.stderr)


def quick(program: str) -> str:
    """The path of a quick program, which is built where need be."""
    done = subprocess.run([sys.executable, str(TOP / "tools" / "quick.py"), program], stdout=subprocess.PIPE, text=True)
    if done.returncode != 0:
        sys.exit("stored: the quick programs can't be built")
    return done.stdout.strip()


def short(content: bytes) -> str:
    text = content.decode("ascii", "backslashreplace")
    return repr(text if len(text) <= 200 else text[:90] + " .. " + text[-90:])


def told(answer: Answer) -> str:
    return f"status {answer.status}, output {short(answer.output)}, notes {short(answer.notes)}"


def in_version_2(report: bytes) -> bytes:
    """A report of version 1 in version 2, at its one precision."""
    lines, bits = [], b""
    for line in report.replace(b"plift 1\n", b"plift 2\n", 1).splitlines(keepends=True):
        lines += [b"at " + bits] if line.startswith((b"accept", b"reject")) else []
        lines.append(line)
        if line.startswith(b"precision "):
            bits = line.split(b" ")[1]
            lines.append(b"from " + bits)
    return b"".join(lines)


def report_faults(plift: str, report: bytes) -> Iterator[str]:
    """What is wrong with a report that was written."""
    check = ask(plift, ["check"], report)
    if check.status != DONE or not check.output.startswith(b"sound accept "):
        yield f"its report isn't found sound: {told(check)}"
    second = ask(plift, ["migrate"], report)
    is_second = report.startswith(b"plift 2\n")
    if second != (NO_FIRST if is_second else Answer(DONE, in_version_2(report), b"")):
        yield f"its report is migrated to {told(second)}"
    elif not is_second and ask(plift, ["check"], second.output) != check:
        yield "its report isn't found sound in version 2"


def faults(case: Case, programs: dict[str, str], proved: dict[str, str]) -> Iterator[str]:
    """What is wrong with the answer to a case."""
    got = ask(programs[case.program], case.words, case.given)
    if not case.is_met(got):
        yield f"got {told(got)}" + (f"; wanted {told(case.want)}" if case.want else "")
    if case.words[:1] == ["verify"] and got.status == DONE:
        yield from report_faults(programs["plift"], got.output)
    if case.program in proved:
        other = ask(proved[case.program], case.words, case.given)
        if other != got:
            yield f"got {told(got)}; the proved program {told(other)}"


def stream_faults(paths: list[str]) -> Iterator[str]:
    """What is wrong with the answers of programs whose streams can't be used."""
    for path in paths:
        for what, got, want in streams.answers(path):
            if got != want:
                yield f"{path}: {what}: got {told(got)}; wanted {told(want)}"


def options() -> argparse.Namespace:
    parser = argparse.ArgumentParser(description=__doc__, formatter_class=argparse.RawDescriptionHelpFormatter)
    for name in ("--program", "--view", "--proved", "--proved-view"):
        parser.add_argument(name, metavar="PATH")
    return parser.parse_args()


def main() -> int:
    given = options()
    programs = {"plift": given.program or quick("plift"), "plift-view": given.view or quick("plift-view")}
    proved = {"plift": given.proved, "plift-view": given.proved_view}
    proved = {name: path for name, path in proved.items() if path}
    for path in [*programs.values(), *proved.values()]:
        if not os.access(path, os.X_OK):
            sys.exit(f"stored: {path} is no program")
    parts = {
        "stored": stored(),
        "mistakes": list(mistakes.cases()),
        "examples": list(examples.cases()) if proved else [],
    }
    wrong = 0
    for name, cases in parts.items():
        for case in cases:
            for fault in faults(case, programs, proved):
                wrong += 1
                print(f"{case.name}: {fault}")
        print(f"{name}: {len(cases)} runs" if cases else f"{name}: none, without --proved", flush=True)
    for fault in stream_faults([os.path.abspath(path) for path in (programs["plift"], given.proved) if path]):
        wrong += 1
        print(fault)
    for rows in left_out():
        print(f"left out: {rows}")
    print(
        f"{sum(map(len, parts.values()))} runs, {wrong} wrong"
        + (", compared with " + ", ".join(proved.values()) if proved else "")
    )
    return 1 if wrong else 0


if __name__ == "__main__":
    sys.exit(main())
