"""`python3 -m gate_host`, and what a hook runs if no file `gate-host` stands beside this package."""
import sys
from pathlib import Path

if sys.version_info < (3, 9):
    sys.exit("gate-host: Python 3.9 or later is needed")
sys.dont_write_bytecode = True
if not __package__:
    # It was named by its path.
    sys.path[0] = str(Path(__file__).resolve().parent.parent)

from gate_host.commands import entry  # noqa: E402

if __name__ == "__main__":
    entry()
