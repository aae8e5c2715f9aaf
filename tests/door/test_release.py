"""The release: the same bytes each time, and what is unpacked in an empty folder works without the checkout."""

import hashlib
import os
import shutil
import subprocess
import tarfile
import unittest
from pathlib import Path
from typing import List

from common import DoorCase, TOP, quick_program

SUMS = ["sha256sum", "-c", "--quiet"]


class Release(DoorCase):
    PARTS = DoorCase.PARTS + (
        "LICENSE",
        "CHANGELOG.md",
        "CITATION.cff",
        "README.md",
        "recheck",
        "examples",
        "docs",
        "lab",
        "plift-lab",
        "plift-tiles",
        "tiles",
    )

    def setUp(self) -> None:
        super().setUp()
        (self.top / ".gitignore").write_text("out/\nbuild/\n__pycache__/\n")
        (self.top / "HANDLES").write_text("Handles allowed: none.\n")
        for words in (["init", "-q"], ["add", "."], ["commit", "-q", "-m", "x"]):
            self.git(*words)
        self.log = self.room / "gate.log"
        self.log.write_text("more\n" * 100 + "rt: all is well\n306 passed, 0 failed (1 note)\n")
        self.out = self.room / "out"

    def git(self, *words: str) -> None:
        who = ["-c", "user.name=x", "-c", "user.email=x@example.org"]
        subprocess.run(["git", "-C", str(self.top), *who, *words], check=True)

    def release(self, *words: object) -> "subprocess.CompletedProcess[str]":
        command = [str(self.top / "tools/release"), str(self.out), *map(str, words)]
        return subprocess.run(command, capture_output=True, text=True, env=self.environment)

    def made(self, *words: object, name: str = "plift-0.9.0-linux-x86_64") -> Path:
        ran = self.release(*words)
        self.assertEqual((ran.returncode, ran.stderr), (0, ""))
        archive = self.out / f"{name}.tar.gz"
        told = "".join(
            f"{hashlib.sha256(path.read_bytes()).hexdigest()}  {path}\n" for path in (archive, *self.packages)
        )
        self.assertEqual(ran.stdout, told)
        return archive

    @property
    def packages(self) -> List[Path]:
        """The Debian package, where one can be made."""
        return sorted(self.out.glob("*.deb"))

    def unpacked(self, archive: Path) -> Path:
        empty = self.room / "empty"
        empty.mkdir()
        with tarfile.open(archive) as file:
            file.extractall(empty)
        self.top.rename(self.room / "moved away")
        self.assertEqual([path.name for path in empty.iterdir()], [archive.name[: -len(".tar.gz")]])
        return next(empty.iterdir())

    def test_proved_programs(self) -> None:
        self.built("plift")
        self.built("plift_view")
        archive = self.made("--gate", self.log)
        first = archive.read_bytes()
        os.utime(self.top / "README.md")
        (self.top / "notes").write_text("not known to git, and no source\n")
        self.assertEqual(self.made("--gate", self.log).read_bytes(), first)
        folder = self.unpacked(archive)
        self.assertEqual(subprocess.run([*SUMS, "SHA256SUMS"], cwd=folder).returncode, 0)
        listed = {row.split("  ")[1] for row in (folder / "SHA256SUMS").read_text().splitlines()}
        there = {str(path.relative_to(folder)) for path in folder.rglob("*") if path.is_file()}
        self.assertEqual(there - listed, {"SHA256SUMS"})
        moved = self.room / "moved away"
        self.assertEqual(subprocess.run([*SUMS, str(folder / "SHA256SUMS.sources")], cwd=moved).returncode, 0)
        self.assertEqual((folder / "GATE.txt").read_text().splitlines()[-1], "306 passed, 0 failed (1 note)")
        version = self.run_door("--version", door=folder / "plift").stdout.decode()
        self.assertRegex(version, r"^plift 0\.9\.0 \(commit [0-9a-f]{7}, proved\)\n$")
        ran = self.run_door("a b", door=folder / "plift", input=b"x", environment={"COPY": "1", "STATUS": "3"}, cwd="/")
        self.assertEqual((ran.returncode, ran.stdout), (3, b"<a b>\nx"))
        install = [str(folder / "install"), str(self.room / "prefix")]
        self.assertEqual(subprocess.run(install, capture_output=True).returncode, 0)
        self.assertIn(b", proved)", self.run_door("--version", door=self.room / "prefix/bin/plift-view").stdout)

    @unittest.skipUnless(shutil.which("dpkg") and os.geteuid() == 0, "only root installs a package by dpkg")
    def test_a_debian_package(self) -> None:
        for name in ("plift-lab", "plift-tiles"):
            self.assertTrue((self.top / name).is_file())
        self.built("plift")
        self.built("plift_view")
        self.made("--gate", self.log)
        package = self.out / "plift_0.9.0_amd64.deb"
        self.assertEqual(self.packages, [package])
        first = package.read_bytes()
        self.made("--gate", self.log)
        self.assertEqual(package.read_bytes(), first)
        root = self.room / "root"
        for part in ("info", "updates", "triggers"):
            (root / "var/lib/dpkg" / part).mkdir(parents=True)
        (root / "var/lib/dpkg/status").write_text("")
        dpkg = ["dpkg", f"--root={root}", "--force-depends", "--force-script-chrootless"]
        ran = subprocess.run([*dpkg, "-i", str(package)], capture_output=True, text=True)
        self.assertEqual(ran.returncode, 0, ran.stderr)
        for name in ("plift", "plift-view", "plift-lab", "plift-tiles", "plift-recheck"):
            self.assertTrue(os.access(root / "usr/bin" / name, os.X_OK), name)
        for name in ("plift", "plift-view", "plift-lab", "plift-tiles"):
            self.assertTrue((root / f"usr/share/man/man1/{name}.1").is_file(), name)
            self.assertTrue((root / f"usr/share/bash-completion/completions/{name}").is_file(), name)
        home = root / "usr/libexec/plift"
        self.assertIn(b", proved)", self.run_door("--version", door=home / "plift").stdout)
        (home / "lab/plift_lab/__pycache__").mkdir()
        ran = subprocess.run([str(home / "plift-lab"), "--version"], capture_output=True, text=True)
        self.assertEqual((ran.returncode, ran.stdout), (0, "plift-lab 0.9.0\n"))
        self.assertEqual(subprocess.run([*dpkg, "--verify", "plift"], capture_output=True).stdout, b"")
        ran = subprocess.run([*dpkg, "-r", "plift"], capture_output=True, text=True)
        self.assertEqual(ran.returncode, 0, ran.stderr)
        self.assertEqual([path for path in root.rglob("*") if "var" not in path.relative_to(root).parts[:1]], [])

    def refused(self, *words: object) -> str:
        ran = self.release(*words)
        self.assertEqual((ran.returncode, ran.stdout, ran.stderr.count("\n")), (1, "", 1), ran.stderr)
        self.assertFalse(self.out.exists())
        return ran.stderr

    def test_refusals(self) -> None:
        self.assertIn("not built", self.refused("--gate", self.log))
        self.built("plift")
        self.built("plift_view")
        self.assertIn("--gate", self.refused())
        self.assertIn("no.log", self.refused("--gate", self.room / "no.log"))
        self.log.write_text("305 passed, 1 failed\n")
        self.assertIn("nothing failed", self.refused("--gate", self.log))
        extra = self.top / "crates/plift/src/extra.rt"
        extra.write_text("not known to git\n")
        os.utime(extra, (1000, 1000))
        self.assertIn("extra.rt", self.refused("--gate", self.log))
        extra.unlink()
        (self.top / "README.md").write_text("changed\n")
        self.assertIn("README.md", self.refused("--gate", self.log))

    def test_quick_programs_verify_in_an_empty_folder(self) -> None:
        if not all(quick_program(name) for name in ("plift", "plift-view")):
            self.skipTest("build/quick has no programs")
        for name in ("plift", "plift-view"):
            program = self.top / "build/quick" / name
            program.parent.mkdir(parents=True, exist_ok=True)
            built = quick_program(name)
            assert built
            program.write_bytes(built.read_bytes())
            program.chmod(0o755)
        (self.top / "tools/quick.py").touch()
        os.utime(self.top / "tools/quick.py", (1000, 1000))
        os.utime(self.top / "tools/native", (1000, 1000))
        self.git("add", ".")
        self.git("commit", "-q", "-m", "y")
        folder = self.unpacked(self.made("--quick", name="plift-0.9.0-linux-x86_64-quick"))
        words = "verify --goal lost --bound 3/100 --region 1/10<=p<=3/10,1/20<=q<=1/5 --precision 10".split()
        report = self.run_door(*words, door=folder / "plift", input=(folder / "examples/retry.drn").read_bytes()).stdout
        self.assertEqual(report, (TOP / "examples/retry.report").read_bytes())
        ran = self.run_door("check", door=folder / "plift", input=report)
        self.assertEqual(ran.stdout, b"sound accept 1 reject 0 unknown 0\n")
        self.assertIn(b"<svg", self.run_door(door=folder / "plift-view", input=report).stdout)
        tree = (folder / "examples/retry-tree.report").read_bytes()
        ran = self.run_door("split", str(self.room / "work"), "--depth", "7", door=folder / "plift-tiles", input=tree)
        self.assertEqual((ran.returncode, ran.stderr), (0, b"plift-tiles: 3 tiles\n"))


if __name__ == "__main__":
    unittest.main()
