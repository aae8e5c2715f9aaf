"""What runs the tiles: xargs, GNU parallel where it is installed, a Slurm job array, Snakemake where it is installed.
They only call `plift-tiles work`; after a worker was killed, the same line, or the engine by itself, does what is
left."""

import os
import shutil
import subprocess
import unittest

from common import COMMAND, TOP, TilesCase, joined

# Of each tile the first `verify` is killed; `check` and the second one do as they should.
ONCE = """if [ "$1" = verify ]; then
    case $* in *'1/5<=p<=3/10,1/10<=q'*) tile=2 ;; *) tile=$$ ;; esac
    [ $tile != 2 ] || [ -e killed ] || { : > killed; kill -KILL $$; }
fi
exec "$PLIFT" "$@"
"""


class Engines(TilesCase):
    """A job on three tiles, the second of which is killed in its first try."""

    def setUp(self) -> None:
        super().setUp()
        self.made = self.job()
        self.script = self.stand_in(ONCE)
        os.symlink(COMMAND, self.folder / "plift-tiles")

    def bash(self, line: str, **environment: str) -> int:
        """The status of a line of the shell, in whose folder the command stands."""
        environment = {**os.environ, "PLIFT_PROGRAM": str(self.script), "HOME": str(self.folder), **environment}
        ran = subprocess.run(["bash", "-c", line], cwd=self.folder, env=environment, capture_output=True, timeout=600)
        return ran.returncode

    def require_joined(self) -> None:
        """The whole is that of a single `verify`."""
        self.assertTrue((self.folder / "killed").exists())
        self.assertEqual((joined(self.made), self.parts()), (self.retry(7), []))

    def test_xargs_and_the_same_line_again(self) -> None:
        line = "set -o pipefail; ./plift-tiles left work | xargs -r -n1 -P2 ./plift-tiles work work"
        self.assertEqual((self.bash(line), self.made.left), (123, [2]))
        self.assertEqual((self.bash(line), self.made.left), (0, []))
        self.assertEqual(self.bash(line), 0)
        self.require_joined()

    @unittest.skipUnless(shutil.which("parallel"), "GNU parallel isn't installed")
    def test_parallel_tries_again(self) -> None:
        line = (
            "./plift-tiles left work | parallel --will-cite -j2 --retries 3 --joblog work/log ./plift-tiles work work"
        )
        self.assertEqual((self.bash(line), self.made.left), (0, []))
        self.assertEqual(self.bash(line), 0)
        self.require_joined()

    def test_an_array_of_parts(self) -> None:
        script = TOP / "tiles/plift-tiles.sbatch"
        for least in (1, 0):
            came = []
            for part in (0, 1):
                slurm = {"ID": str(least + part), "MIN": str(least), "COUNT": "2"}
                slurm = {f"SLURM_ARRAY_TASK_{name}": number for name, number in slurm.items()}
                came.append((self.bash(f"sh {script} work", **slurm), self.made.left))
            # Parts of two: tiles 1 and 3, and tile 2, which the first array leaves.
            self.assertEqual(came, [(0, [2]), (137, [2])] if least else [(0, [2]), (0, [])])
        self.require_joined()

    @unittest.skipUnless(shutil.which("snakemake"), "Snakemake isn't installed")
    def test_snakemake_tries_again(self) -> None:
        line = f"snakemake -s {TOP / 'tiles/Snakefile'} -j2 --config dir=work"
        self.assertEqual(self.bash(line), 0)
        self.require_joined()
        self.assertEqual((self.folder / "work/whole.report").read_bytes(), self.retry(7))


if __name__ == "__main__":
    unittest.main()
