"""What to do about a refusal, as the hints of the checkout or the release say."""

from __future__ import annotations

import importlib
import sys
from typing import List, Optional

from .program import CHECKOUT

HINTS = CHECKOUT / 'tools/hints'


def hints(status: int, note: str, words: List[str], text: Optional[bytes] = None) -> List[str]:
    """What the checkout's own hints say, where there are any."""
    if not (HINTS / '__init__.py').is_file():
        return []
    sys.path.insert(0, str(HINTS.parent))
    try:
        told = importlib.import_module('hints').hints(status, note, words, text, 'plift')
        return [str(line)[len('hint: ') :] if str(line).startswith('hint: ') else str(line) for line in told]
    except Exception as fault:  # hints are a help: a fault in them must not hide the note
        return ['the hints failed: %s' % type(fault).__name__]
    finally:
        sys.path.remove(str(HINTS.parent))
