#!/usr/bin/env python3
"""gate-host that asks for all reviews every two seconds, so that a test needn't wait for minutes if no webhook comes.

    hurried_host.py ARGUMENT..
"""
import sys
from pathlib import Path

sys.dont_write_bytecode = True
sys.path.insert(0, str(Path(__file__).resolve().parent.parent))

from gate_host.commands import main  # noqa: E402
from gate_host.github import pulls  # noqa: E402

pulls.SECONDS_OF_REVIEWS = 2.0

if __name__ == "__main__":
    sys.exit(main(sys.argv[1:]))
