#!/usr/bin/env python3
"""Writes the code of the crates without their contracts, as a cargo workspace: a native copy to profile, and to try
changes in before they are proved. Nothing is proved of it.

    native.py OUT                        writes the workspace into the folder OUT
    (cd OUT && cargo build --release)    builds OUT/target/release/plift, plift-view and native

    native verify --goal G --bound B --region R --depth H --precision W < model > report
    native check < report
    native time --goal G --region R --depth H --precision W < model

`plift` and `plift-view` are the whole programs (tools/quick.py builds these two alone). `native verify` writes the
report that `plift verify` writes, and on standard error the milliseconds of its steps. `time` prints the least
milliseconds of five calls, or as many as RUNS says, in one process: links, table, least upper vector, least value
vector, greatest rejecting certificate for the bound 0. Its refusals have no notes. In the shim `rstd` stand the parts
of the kit's library that the code uses.
"""

import os
import sys

sys.path.insert(0, os.path.join(os.path.dirname(os.path.abspath(__file__)), "native"))
sys.dont_write_bytecode = True
import workspace  # noqa: E402


def main() -> None:
    """Writes the workspace into the folder that is named."""
    if len(sys.argv) != 2 or sys.argv[1].startswith("-"):
        sys.exit(__doc__.strip())
    workspace.write_profiled(sys.argv[1])


if __name__ == "__main__":
    main()
