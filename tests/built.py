"""The programs of the repository, as they are built."""
import subprocess, sys
from pathlib import Path

TOP = Path(__file__).resolve().parent.parent


def built(name):
    """The program of a crate. It is built where it isn't yet, or where a source is newer."""
    done = subprocess.run([TOP / 'build', name], stdin=subprocess.DEVNULL, stdout=sys.stderr, timeout=7200)
    if done.returncode != 0:
        sys.exit(f"{name}: the program wasn't built")
    return TOP / 'crates' / name / 'out' / name
