"""Writes the code of the crates without their contracts as a cargo workspace."""

from __future__ import annotations

import os
import re

from rust import as_rust

HERE = os.path.dirname(os.path.abspath(__file__))
ROOT = os.path.dirname(os.path.dirname(HERE))
PROGRAMS = {"plift": "plift", "plift_view": "plift-view"}
PROFILE = 'opt-level = 3\ncodegen-units = 1\npanic = "abort"\n'
WHOLE = PROFILE + 'lto = "fat"\n'


class Unreadable(Exception):
    """A source that isn't as it should be: which one, and why."""


def read(path: str) -> str:
    """The text of a file."""
    with open(path, encoding="utf-8") as file:
        return file.read()


def write(path: str, text: str) -> None:
    """Writes a file where it isn't so already, so that cargo sees what changed."""
    os.makedirs(os.path.dirname(path), exist_ok=True)
    content = text.encode()
    with open(path, "ab+") as file:
        file.seek(0)
        if file.read() != content:
            file.truncate(0)
            file.write(content)


def dependencies() -> dict[str, list[str]]:
    """What each crate of crates.txt stands on, of those that stand there."""
    lines = [line.partition(":") for line in read(os.path.join(ROOT, "crates.txt")).splitlines()]
    below = {crate: words.split() for crate, colon, words in lines if colon and not crate.startswith("#")}
    return {crate: [name for name in names if name in below] for crate, names in below.items()}


def closure(crates: list[str]) -> list[str]:
    """The crates, and all that they stand on."""
    below, found, open_ = dependencies(), set(), list(crates)
    while open_:
        crate = open_.pop()
        if crate not in found:
            found.add(crate)
            open_ += below[crate]
    return [crate for crate in below if crate in found]


def package(name: str, crates: list[str]) -> str:
    """A Cargo.toml for a crate that stands on these, each of which is a folder beside it."""
    lines = [f'{crate} = {{ path = "../{crate}" }}' for crate in crates]
    front = f'[package]\nname = "{name}"\nversion = "0.1.0"\nedition = "2021"\n\n[dependencies]\n'
    return front + "".join(line + "\n" for line in lines)


START = """
#[no_mangle]
pub unsafe extern "C" fn main(count: i32, words: *const *const std::os::raw::c_char) -> i32 {
    rstd::system::start(count, words, program)
}
"""


def as_root(text: str) -> str:
    """The code of a crate's first file, whose warnings nobody looks at."""
    front = "".join(re.findall(r"\A(?://[^\n]*\n)*", text))
    return f"{front}#![allow(warnings)]\n{text[len(front):]}"


def as_program(text: str) -> str:
    """The same of a program, which begins with what the C library calls."""
    text = text.replace("fn main(rt: HostRuntime)", "fn program(rt: HostRuntime)")
    return as_root(text).replace("#![allow(warnings)]\n", "#![allow(warnings)]\n#![no_main]\n", 1) + START


ROOTS = {"lib.rt": as_root, "main.rt": as_program}


def translated(path: str) -> str:
    """A source of a crate, in Rust."""
    dress = ROOTS.get(os.path.basename(path), str)
    try:
        return dress(as_rust(read(path)))
    except UnicodeError:
        raise Unreadable(f"{path} isn't text") from None
    except (IndexError, ValueError):
        raise Unreadable(f"{path} can't be read as code: a bracket isn't closed") from None


def write_crate(out: str, crate: str, below: list[str]) -> None:
    """Writes a crate without its contracts, and what it stands on."""
    name = PROGRAMS.get(crate, crate)
    write(f"{out}/{crate}/Cargo.toml", package(name, ["rstd", *below]))
    source = os.path.join(ROOT, "crates", crate, "src")
    for file in os.listdir(source):
        write(f"{out}/{crate}/src/{file[:-3]}.rs", translated(os.path.join(source, file)))


def write_part(out: str, part: str, name: str, below: list[str]) -> None:
    """Writes a crate that is kept as Rust beside this module."""
    for file in os.listdir(f"{HERE}/{part}"):
        write(f"{out}/{part}/src/{file}", read(f"{HERE}/{part}/{file}"))
    write(f"{out}/{part}/Cargo.toml", package(name, below))


def write_members(out: str, members: list[str], profile: str) -> None:
    """Writes the Cargo.toml of the whole."""
    names = ", ".join(f'"{name}"' for name in members)
    write(f"{out}/Cargo.toml", f'[workspace]\nresolver = "2"\nmembers = [{names}]\n\n[profile.release]\n{profile}')


def write_programs(out: str, extra: list[str], profile: str) -> None:
    """Writes both programs, and what they stand on, into the folder `out`; `extra` are further members."""
    below = dependencies()
    crates = closure(list(PROGRAMS))
    for crate in crates:
        write_crate(out, crate, below[crate])
    write_part(out, "rstd", "rstd", [])
    write_members(out, ["rstd", *crates, *extra], profile)


def write_quick(out: str, is_whole: bool) -> None:
    """Writes both programs as they are used; `is_whole` tells whether each is optimized as a whole."""
    write_programs(out, [], WHOLE if is_whole else PROFILE)


def write_profiled(out: str) -> None:
    """Writes both programs and the one that times its steps, with what a profiler looks for."""
    libraries = [crate for crate in closure(["plift"]) if crate != "plift"]
    write_programs(out, ["main"], WHOLE + "debug = 1\n")
    write_part(out, "main", "native", ["rstd", *libraries])
    for part in ("question", "report"):
        write(f"{out}/main/src/{part}.rs", as_rust(read(os.path.join(ROOT, f"crates/plift_top/src/{part}.rt"))))
