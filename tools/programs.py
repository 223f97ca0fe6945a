"""The proved program: the one that `rt` builds and runs, and that the gate has tried."""
import subprocess
from pathlib import Path

from repository import PROGRAM, folder, say

# The program as `rt` links it, with the names of its functions, which serve debuggers and profilers.
LINKED = Path(folder(PROGRAM), "out", PROGRAM)


def make():
    """Builds LINKED over the kept proofs of the crates below it; whether it is there."""
    with open(Path(folder(PROGRAM), "stdin"), "rb") as script:
        done = subprocess.run(["rt", "run"], cwd=folder(PROGRAM), stdin=script, stdout=subprocess.PIPE, stderr=subprocess.STDOUT, text=True, errors="replace", check=False)
    if done.returncode:
        say(done.stdout)
    return done.returncode == 0 and LINKED.exists()
