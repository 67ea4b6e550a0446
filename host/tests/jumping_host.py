#!/usr/bin/env python3
"""gate-host with a clock that is ten days ahead while a file is there.

    jumping_host.py FOLDER FILE ARGUMENT..

FOLDER has the host.
"""
import os
import sys
import time

sys.dont_write_bytecode = True
folder, file, *words = sys.argv[1:]
sys.path.insert(0, folder)
right = time.time
time.time = lambda: right() + (10 * 86400 if os.path.exists(file) else 0)

from gate_host.commands import main  # noqa: E402

if __name__ == "__main__":
    sys.exit(main(words))
