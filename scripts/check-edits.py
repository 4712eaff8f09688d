#!/usr/bin/env python3
"""Says of each must-fail edit whether its old text stands exactly once in the file that it names."""
import glob
import os
import sys

root = os.path.join(os.path.dirname(os.path.abspath(__file__)), "..")
bad = 0
for path in sorted(glob.glob(os.path.join(root, "crates/*/must-fail/*.edit"))):
    name, old, new = [line.split(": ", 1)[1] for line in open(path).read().split("\n")[:3]]
    crate = os.path.dirname(os.path.dirname(path))
    times = open(os.path.join(crate, name)).read().count(old)
    if times != 1 or old == new:
        bad += 1
        print(f"{os.path.relpath(path, root)}: {times} times in {name}")
sys.exit(1 if bad else 0)
