"""Makes a Debian package of what a release holds, by the release's own `install` and by dpkg-deb."""

from __future__ import annotations

import hashlib
import os
import subprocess
import tempfile
from pathlib import Path
from typing import Dict, List

CONTROL = """Package: plift
Version: {version}
Architecture: amd64
Maintainer: plift <plift@localhost>
Installed-Size: {size}
Depends: libc6, libgcc-s1, python3 (>= 3.9)
Suggests: parallel
Section: science
Priority: optional
Description: verifier of parametric Markov models over whole regions of rates
 plift decides whether a Markov model stays within a required probability for a
 whole rectangle of unknown rates, and writes a certificate for each part that
 others can check. With it come plift-view, plift-lab, plift-tiles and the
 second checker plift-recheck.
 .
 The programs in this package are {kind}, from commit {commit}.
"""
KINDS = {"proved": "proved", "quick": "built from the proved code, but not proved themselves"}
# Python keeps what it compiled beside the modules where root runs them, and dpkg knows nothing of it.
PRERM = """#!/bin/sh
find "${DPKG_ROOT-}/usr/libexec/plift" -name __pycache__ -prune -exec rm -rf {} +
"""


class NoPackage(Exception):
    """Why there is no package."""


def package_name(version: str, quick: bool) -> str:
    """The name of its file. What isn't proved is older than what is, so that it is replaced by that."""
    return f"plift_{version}{'~quick' if quick else ''}_amd64.deb"


def package(files: Dict[str, bytes], commands: Dict[str, bool], seconds: int, out: Path) -> Path:
    """Writes the package of these files, of which some are commands, and returns its path. The same files give the same
    bytes."""
    version = files["VERSION"].decode().strip()
    kind, commit = files["programs/made"].decode().split()
    made = out / package_name(version, kind == "quick")
    with tempfile.TemporaryDirectory(prefix="plift-package.") as room:
        release, root = Path(room, "release"), Path(room, "root")
        for name, data in files.items():
            (release / name).parent.mkdir(parents=True, exist_ok=True)
            (release / name).write_bytes(data)
            (release / name).chmod(0o755 if commands[name] else 0o644)
        environment = {**os.environ, "DESTDIR": str(root)}
        done([str(release / "install"), "/usr"], environment)
        (root / "usr/share/doc/plift/copyright").write_bytes(files["LICENSE"])
        write_control(root, version + "~quick" * (kind == "quick"), KINDS.get(kind, kind), commit)
        for path in [*root.rglob("*"), root]:
            path.chmod(0o755 if path.is_dir() or path.stat().st_mode & 0o100 else 0o644)
            os.utime(path, (seconds, seconds))
        environment = {**os.environ, "SOURCE_DATE_EPOCH": str(seconds)}
        part = out / f"{made.name}.part"
        try:
            done(["dpkg-deb", "--root-owner-group", "--build", str(root), str(part)], environment)
            part.replace(made)
        finally:
            part.unlink(missing_ok=True)
    return made


def write_control(root: Path, version: str, kind: str, commit: str) -> None:
    """Writes what dpkg asks for."""
    there = sorted(path for path in root.rglob("*") if path.is_file())
    size = sum(path.stat().st_size for path in there) // 1024
    sums = "".join(f"{hashlib.md5(path.read_bytes()).hexdigest()}  {path.relative_to(root)}\n" for path in there)
    folder = root / "DEBIAN"
    folder.mkdir()
    (folder / "control").write_text(CONTROL.format(version=version, size=size, kind=kind, commit=commit))
    (folder / "md5sums").write_text(sums)
    (folder / "prerm").write_text(PRERM)
    (folder / "prerm").chmod(0o755)


def done(words: List[str], environment: Dict[str, str]) -> None:
    """Runs a command, which has to end well."""
    ran = subprocess.run(words, env=environment, capture_output=True, text=True)
    if ran.returncode:
        raise NoPackage(f"{words[0]}: {ran.stderr.strip() or ran.returncode}")
