#!/usr/bin/env python3
"""Tells how long the built program spends in some of its functions.

    phases.py --bin PATH [--runs N] [--in NAME]... -- WORDS... < FILE

WORDS are those of the program, and FILE is its standard input. A function is named as `nm PATH` shows it, or by the
front of that, such as `lift_model::links::Links::build`; without --in those of PARTS are taken. For each it prints how
often it was called in a run, and the least time of N runs (5, if not said) in milliseconds, all calls of a run
together. A function that the compiler put into its caller isn't there by itself, which is told.

Needs Linux, the rights of root, perf, nm and readelf: it sets a probe at the function's entry and one at its end, which
cost some microseconds a call.
"""

from __future__ import annotations

import argparse
import os
import re
import shutil
import subprocess
import sys
import tempfile

PARTS = (
    "lift_model::links::Links::build",
    "corner_lift::table::fill",
    "rounded_iter::least::least_upper_within",
    "lower_cert::greatest::greatest_reject_above",
)
TRACING = "/sys/kernel/tracing"


def output(*words: str) -> str:
    """What a command prints; an error where it fails."""
    return subprocess.run(words, check=True, capture_output=True, text=True).stdout


def addresses(program: str) -> dict[str, int]:
    """The address of each symbol."""
    found = {}
    for line in output("nm", program).splitlines():
        parts = line.split(None, 2)
        if len(parts) == 3:
            found[parts[2]] = int(parts[0], 16)
    return found


def file_place(program: str, address: int) -> int:
    """Where in the program's file an address stands."""
    for line in output("readelf", "-lW", program).splitlines():
        parts = line.split()
        if parts[:1] == ["LOAD"]:
            offset, start, size = int(parts[1], 16), int(parts[2], 16), int(parts[4], 16)
            if start <= address < start + size:
                return address - start + offset
    sys.exit("an address stands in no part of the file")


def write_probes(text: str) -> None:
    """Sets these probes, one a line, in the place of all there are; none where the text is empty."""
    with open(f"{TRACING}/uprobe_events", "w") as events:
        events.write(text)


def times(data: str) -> dict[str, tuple[int, float]]:
    """Calls and milliseconds of each function in one run."""
    started: dict[str, float] = {}
    told: dict[str, tuple[int, float]] = {}
    script = output("perf", "script", "-i", data, "-F", "time,event", "--ns")
    for time, kind, number in re.findall(r"([\d.]+):\s+plift:(in|out)(\d+)", script):
        if kind == "in":
            started[number] = float(time)
        elif number in started:
            calls, sum_ = told.get(number, (0, 0.0))
            told[number] = (calls + 1, sum_ + (float(time) - started.pop(number)) * 1000)
    return told


def main() -> None:
    """Prints for each function its calls, and the milliseconds of the run in which they took least."""
    parser = argparse.ArgumentParser(description=__doc__, formatter_class=argparse.RawDescriptionHelpFormatter)
    parser.add_argument("--bin", required=True)
    parser.add_argument("--runs", type=int, default=5)
    parser.add_argument("--in", dest="parts", action="append")
    parser.add_argument("words", nargs="+")
    args = parser.parse_args()
    program = os.path.abspath(args.bin)
    text = sys.stdin.buffer.read()
    known, parts, probes = addresses(program), args.parts or PARTS, []
    for number, part in enumerate(parts):
        names = sorted(name for name in known if name.startswith(part))
        if names:
            place = file_place(program, known[names[0]])
            probes += [
                f"{kind}:plift/{name}{number} {program}:0x{place:x}\n" for kind, name in (("p", "in"), ("r", "out"))
            ]
    if not os.path.exists(f"{TRACING}/uprobe_events"):
        subprocess.run(["mount", "-t", "tracefs", "nodev", TRACING], check=True)
    least: dict[str, tuple[int, float]] = {}
    folder = tempfile.mkdtemp()
    write_probes("".join(probes))
    try:
        for _ in range(args.runs if probes else 0):
            data = f"{folder}/data"
            command = ["perf", "record", "-q", "-B", "-N", "-o", data, "-e", "plift:*", program, *args.words]
            subprocess.run(command, input=text, stdout=subprocess.DEVNULL, stderr=subprocess.DEVNULL)
            for each, (calls, sum_) in times(data).items():
                if each not in least or sum_ < least[each][1]:
                    least[each] = (calls, sum_)
    finally:
        write_probes("")
        shutil.rmtree(folder)
    for number, part in enumerate(parts):
        calls, sum_ = least.get(str(number), (0, 0.0))
        print(f"{part}: {calls} calls, {sum_:.4f} ms" if calls else f"{part}: isn't there by itself, or wasn't called")


if __name__ == "__main__":
    main()
