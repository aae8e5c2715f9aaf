"""Tests of tools/quick.py, in a copy of the sources and with scripts in the place of cargo and rustc."""

import os
import shutil
import signal
import subprocess
import sys
import tempfile
import time
import unittest
from pathlib import Path

# Longer than anything here takes on a busy machine.
SECONDS = 600
TOP = Path(__file__).resolve().parent.parent.parent

# It tells its version, and counts its builds; a build does what the test says and then makes both programs.
CARGO = """#!/bin/sh
[ "$1" != --version ] || {{ echo "cargo {version}"; exit; }}
echo built >> "$BUILDS"
{build}
mkdir -p made
for name in plift plift-view; do
    printf '#!/bin/sh\\necho %s\\n' "$name" > "made/$name"
    chmod +x "made/$name"
    printf '{{"reason":"compiler-artifact","executable":"%s/made/%s"}}\\n' "$PWD" "$name"
done
"""
RUSTC = "#!/bin/sh\necho rustc {version}\n"


def hear_ctrl_c() -> None:
    """For a process that is started: it hears ctrl-C though these tests may pass it over, as in the background."""
    signal.signal(signal.SIGINT, signal.SIG_DFL)


class Quick(unittest.TestCase):
    def setUp(self) -> None:
        folder = tempfile.TemporaryDirectory()
        self.addCleanup(folder.cleanup)
        self.top = Path(folder.name) / "plift"
        self.tools = Path(folder.name) / "bin"
        self.tools.mkdir()
        self.top.mkdir()
        shutil.copytree(TOP / "tools", self.top / "tools", ignore=shutil.ignore_patterns("__pycache__"))
        shutil.copytree(
            TOP / "crates",
            self.top / "crates",
            ignore=lambda _, names: {"out", "proofs", "specs", "must-fail"} & set(names),
        )
        shutil.copy(TOP / "crates.txt", self.top)
        self.builds = self.top / "builds"
        self.environment = {"PATH": f"{self.tools}:/usr/bin:/bin", "BUILDS": str(self.builds)}

    def install(self, build: str = "", version: str = "1.63.0") -> None:
        for name, script in (("cargo", CARGO), ("rustc", RUSTC)):
            (self.tools / name).write_text(script.format(build=build, version=version))
            (self.tools / name).chmod(0o755)

    def start(self, *words: str) -> subprocess.Popen[str]:
        command = [sys.executable, str(self.top / "tools" / "quick.py"), *words]
        return subprocess.Popen(
            command,
            env=self.environment,
            preexec_fn=hear_ctrl_c,
            stdout=subprocess.PIPE,
            stderr=subprocess.PIPE,
            text=True,
        )

    def run_quick(self, *words: str) -> tuple[int, str, str]:
        started = self.start(*words)
        output, notes = started.communicate(timeout=SECONDS)
        return started.returncode, output, notes

    def count(self) -> int:
        return len(self.builds.read_text().splitlines()) if self.builds.exists() else 0

    def program(self, name: str) -> Path:
        return self.top / "build" / "quick" / name

    def wait_for_build(self) -> None:
        end = time.monotonic() + SECONDS
        while time.monotonic() < end:
            if self.count():
                return
            time.sleep(0.1)
        self.fail("no build began")

    def test_builds_once_and_again_where_a_source_is_newer(self) -> None:
        self.install()
        status, output, notes = self.run_quick("plift")
        self.assertEqual((status, output), (0, f"{self.program('plift').resolve()}\n"))
        self.assertIn("not proved themselves", notes)
        self.assertEqual(self.run_quick("plift_view"), (0, f"{self.program('plift-view').resolve()}\n", ""))
        self.assertEqual(self.count(), 1)
        (self.top / "crates" / "lift_base" / "src" / "lib.rt").touch()
        self.assertEqual(self.run_quick()[0], 0)
        self.assertEqual(self.count(), 2)

    def test_a_missing_or_old_cargo_is_told_in_one_line(self) -> None:
        status, output, notes = self.run_quick()
        if shutil.which("cargo", path="/usr/bin:/bin"):
            self.skipTest("the system has a cargo of its own")
        self.assertEqual((status, output, notes.count("\n")), (70, "", 1))
        self.assertRegex(notes, "^quick: cargo isn't found: install Rust 1.63 or newer")
        self.install(version="1.48.0")
        status, output, notes = self.run_quick()
        self.assertEqual((status, output, notes.count("\n"), self.count()), (70, "", 1, 0))
        self.assertRegex(notes, r"^quick: cargo is too old \(1\.48\): install Rust 1\.63 or newer")

    def test_a_failing_cargo_shows_its_last_lines_and_the_log(self) -> None:
        self.install(build="echo 'error: no space' >&2; exit 101")
        status, output, notes = self.run_quick()
        self.assertEqual((status, output), (70, ""))
        self.assertIn("error: no space\n", notes)
        self.assertIn(str(Path("build") / "quick.log"), notes)
        self.assertFalse(self.program("plift").exists())

    def test_a_second_start_waits(self) -> None:
        self.install(build='while [ ! -e "$BUILDS.go" ]; do sleep 0.1; done')
        first = self.start()
        self.wait_for_build()
        second = self.start()
        assert second.stderr
        self.assertIn("waiting for it", second.stderr.readline())
        Path(f"{self.builds}.go").touch()
        output, _ = second.communicate(timeout=SECONDS)
        first.communicate(timeout=SECONDS)
        self.assertEqual((second.returncode, first.returncode, self.count()), (0, 0, 1))
        self.assertTrue(os.path.exists(output.strip()))

    def test_a_build_that_is_stopped_leaves_nothing_half_done(self) -> None:
        self.install(build="exec sleep 1000")
        first = self.start()
        self.wait_for_build()
        first.send_signal(signal.SIGINT)
        _, notes = first.communicate(timeout=SECONDS)
        self.assertEqual(first.returncode, 130)
        self.assertNotIn("Traceback", notes)
        self.assertFalse(self.program("plift").exists())
        self.install()
        self.assertEqual(self.run_quick()[0], 0)

    def test_a_folder_that_cannot_be_written_is_told(self) -> None:
        self.install()
        (self.top / "build").write_text("")
        status, output, notes = self.run_quick()
        self.assertEqual((status, output, notes.count("\n")), (70, "", 1))
        self.assertRegex(notes, "^quick: .*build.* can't be written or read")

    def test_a_source_that_is_no_code_is_told(self) -> None:
        self.install()
        source = self.top / "crates" / "lift_base" / "src" / "lib.rt"
        for content, what in ((b"fn f()\n    ensures { x\n", "a bracket isn't closed"), (b"\xff\n", "isn't text")):
            source.write_bytes(content)
            status, output, notes = self.run_quick()
            self.assertEqual((status, output, notes.count("\n"), self.count()), (70, "", 1, 0))
            self.assertIn(what, notes)
            self.assertIn(str(Path("lift_base") / "src" / "lib.rt"), notes)

    def test_words_that_name_no_program(self) -> None:
        self.assertEqual(self.run_quick("plif")[0], 2)
        self.assertEqual(self.run_quick("--help")[0], 0)


if __name__ == "__main__":
    unittest.main()
