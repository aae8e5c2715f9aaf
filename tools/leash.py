"""Commands that don't outlive the script that starts them, and the signals by which such a script is told to end."""

import contextlib
import os
import signal
import subprocess
from typing import Any, Sequence

# Runs its words in a process group that ends when the other end of standard input is closed, which
# the end of this program does, however it ends.
LEASH = 'exec 3<&0; { read -r _ <&3; kill 0; } >/dev/null 2>&1 & exec "$@" </dev/null 3<&-'
# By which a terminal, a user and the system tell a script to end. Python passes PIPE over.
ENDING = (signal.SIGINT, signal.SIGTERM, signal.SIGHUP, signal.SIGQUIT)


class Interrupted(Exception):
    """The script was told to end: by which signal."""

    def __init__(self, number: int) -> None:
        super().__init__(number)
        self.number = number


def start(words: Sequence[str], **given: Any) -> "subprocess.Popen[Any]":
    """Starts a command that ends with this process. Its standard input is empty; the rest is as given to Popen."""
    leash = ["sh", "-c", LEASH, "sh", *words]
    return subprocess.Popen(leash, stdin=subprocess.PIPE, start_new_session=True, **given)


def stop(started: "subprocess.Popen[Any]") -> None:
    """Tells a command that was started so to end, and all that it has started."""
    with contextlib.suppress(ProcessLookupError):
        os.killpg(started.pid, signal.SIGTERM)


def end_on_signals() -> None:
    """Makes the first of the usual signals raise `Interrupted`, and passes over further ones."""

    def end(number: int, _frame: object) -> None:
        for each in ENDING:
            signal.signal(each, signal.SIG_IGN)
        raise Interrupted(number)

    for number in ENDING:
        if signal.getsignal(number) is not signal.SIG_IGN:
            signal.signal(number, end)
