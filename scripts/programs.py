"""Where the built programs of this repository lie. `rt run < stdin` in crates/NAME proves, builds and runs the program NAME."""
from pathlib import Path

ROOT = Path(__file__).resolve().parent.parent


def built(name):
    return ROOT / "crates" / name / "out" / name
