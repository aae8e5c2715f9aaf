"""The one version of all that plift is made of: the file VERSION of a checkout, a release or an install, where this
package lies in one, and else that with which the package was made."""

from __future__ import annotations

from pathlib import Path

MADE = '0.9.0'
TOLD = Path(__file__).resolve().parent.parent.parent / 'VERSION'


def _version() -> str:
    try:
        return TOLD.read_text('ascii').strip() if (TOLD.parent / 'lab').is_dir() else MADE
    except (OSError, ValueError):
        return MADE


VERSION = _version()
