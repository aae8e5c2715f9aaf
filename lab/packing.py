"""Packs plift-lab for pip: the calls of a build backend, by the standard library alone."""

from __future__ import annotations

import base64
import hashlib
import re
import tarfile
import zipfile
from pathlib import Path
from typing import Any, Optional

HERE = Path(__file__).resolve().parent
PACKAGE = HERE / 'plift_lab'
NAME = 'plift_lab'
VERSION = re.findall("^MADE = '([^']+)'", (PACKAGE / 'version.py').read_text('utf-8'), re.M)[0]
INFO = '%s-%s.dist-info' % (NAME, VERSION)
TOLD = {
    'METADATA': 'Metadata-Version: 2.1\nName: plift-lab\nVersion: %s\nLicense: MIT\nRequires-Python: >=3.8\n'
    'Summary: Numbers, thresholds, leaves as data and pages to explore, over the proved program plift\n' % VERSION,
    'WHEEL': 'Wheel-Version: 1.0\nGenerator: plift-lab\nRoot-Is-Purelib: true\nTag: py3-none-any\n',
    'entry_points.txt': '[console_scripts]\nplift-lab = plift_lab.cli:main\n',
}


def _sources() -> list[Path]:
    """The files of the package: modules, and what a page is made of."""
    return sorted(
        path for path in PACKAGE.rglob('*') if path.is_file() and path.suffix in ('.py', '.html', '.css', '.js')
    )


def _hash(data: bytes) -> str:
    """The SHA-256 of these bytes, as RECORD takes it: base64 for URLs, without padding."""
    return base64.urlsafe_b64encode(hashlib.sha256(data).digest()).decode().rstrip('=')


def _wheel(folder: str, files: dict[str, bytes]) -> str:
    """Writes a wheel with these files and what tells of it, and gives its name."""
    name = '%s-%s-py3-none-any.whl' % (NAME, VERSION)
    files = dict(files, **{'%s/%s' % (INFO, part): text.encode() for part, text in TOLD.items()})
    record = ''.join('%s,sha256=%s,%d\n' % (path, _hash(data), len(data)) for path, data in files.items())
    with zipfile.ZipFile(str(Path(folder) / name), 'w', zipfile.ZIP_DEFLATED) as wheel:
        for path, data in files.items():
            wheel.writestr(path, data)
        wheel.writestr(INFO + '/RECORD', record + INFO + '/RECORD,,\n')
    return name


def build_wheel(
    wheel_directory: str, config_settings: Optional[dict[str, Any]] = None, metadata_directory: Optional[str] = None
) -> str:
    """A wheel with the package."""
    return _wheel(wheel_directory, {path.relative_to(HERE).as_posix(): path.read_bytes() for path in _sources()})


def build_editable(
    wheel_directory: str, config_settings: Optional[dict[str, Any]] = None, metadata_directory: Optional[str] = None
) -> str:
    """A wheel that only says where the package lies."""
    return _wheel(wheel_directory, {NAME + '.pth': (str(HERE) + '\n').encode()})


def build_sdist(sdist_directory: str, config_settings: Optional[dict[str, Any]] = None) -> str:
    """The sources."""
    base = '%s-%s' % (NAME, VERSION)
    with tarfile.open(str(Path(sdist_directory) / (base + '.tar.gz')), 'w:gz') as archive:
        for path in _sources() + [HERE / 'pyproject.toml', HERE / 'packing.py']:
            archive.add(str(path), '%s/%s' % (base, path.relative_to(HERE).as_posix()))
    return base + '.tar.gz'
