"""A process that judges texts by recheck.py, one after another: Python takes longer to start than a short text takes.

    python3 -I -S rechecking.py RECHECK.PY FD

Texts stand in a file that is open as FD. A byte on standard input tells that there is one, and on standard output come
back what recheck.py says of it, its status, and a zero byte. It ends with standard input.
"""

from __future__ import annotations

import os
import sys
from typing import Any, Dict


def serve(checker: str, shared: int) -> None:
    """Judges as long as it is asked. recheck.py is read once; it keeps nothing of a text."""
    asked, names = os.dup(0), {'__name__': 'recheck'}  # type: int, Dict[str, Any]
    with open(checker, 'rb') as source:
        exec(compile(source.read(), checker, 'exec'), names)
    while os.read(asked, 1):
        os.lseek(shared, 0, os.SEEK_SET)
        os.dup2(shared, 0)
        os.write(1, b'%d\0' % names['main']([]))


if __name__ == '__main__':
    try:
        serve(sys.argv[1], int(sys.argv[2]))
    except KeyboardInterrupt:
        sys.exit(130)
