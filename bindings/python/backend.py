"""Builds the package for pip from this folder: `pip install bindings/python`.

It takes the library that `./build --library` left in out/, or else the one of `./build --unproved --library` in out/unproved. A wheel
that one of these has made can be installed as it is, without a compiler.
"""
import sys
from pathlib import Path

ROOT = Path(__file__).resolve().parent.parent.parent
sys.path.insert(0, str(ROOT / "tools"))


def build_wheel(wheel_directory, config_settings=None, metadata_directory=None):
    """Makes the wheel in the folder, and gives its name."""
    import wheel

    for folder in (ROOT / "out", ROOT / "out" / "unproved"):
        if (folder / "libsqlkeep.a").exists():
            return wheel.make(folder, Path(wheel_directory)).name
    raise SystemExit("the library isn't there; run ./build --library or ./build --unproved --library first")


def build_sdist(sdist_directory, config_settings=None):
    """There is none: the package is built in its repository."""
    raise SystemExit("there is no source distribution of the package alone; it is built in its repository")
