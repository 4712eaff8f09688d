#!/usr/bin/env python3
"""Runs a program on every byte string of length 0 to 2 and on COUNT random ones: each run has to end with status 0 or 1.

usage: scripts/any-bytes.py PROGRAM COUNT [SEED]
"""
import itertools
import os
import random
import subprocess
import sys
from concurrent.futures import ThreadPoolExecutor

# what a random input is made of besides any bytes
WORDS = [b"take", b"mark", b"spoil", b"strike", b"finish", b"find", b"locate", b"effect", b"with", b"#", b"/", b"\n", b" ", b"\t", b"\r"]
FIRST = [b"3 2 3 1 0\n", b"2 2 2 7 1\n", b"4 1 4 0 1\n", b"16 4 16 1 1\n", b"6 1 6 1 0\n", b"3 2 4\n"]


def short_inputs():
    for length in range(3):
        for bytes_ in itertools.product(range(256), repeat=length):
            yield bytes(bytes_)


def random_input(draw):
    text = draw.choice(FIRST) if draw.random() < 0.7 else b""
    for _ in range(draw.randrange(60)):
        kind = draw.random()
        if kind < 0.5:
            text += draw.choice(WORDS)
        elif kind < 0.8:
            text += b" %d" % draw.choice([0, 1, 2, 3, 7, 9, 15, 16, 255, 65535, 1001, 2**32 - 1, 2**32, 10**11])
        else:
            text += bytes(draw.randrange(256) for _ in range(draw.randrange(1, 5)))
    return text


def status(program, text):
    done = subprocess.run([program], input=text, stdout=subprocess.DEVNULL, stderr=subprocess.DEVNULL, timeout=60)
    return text, done.returncode


def main():
    program, count = sys.argv[1], int(sys.argv[2])
    draw = random.Random(int(sys.argv[3]) if len(sys.argv) > 3 else os.urandom(8))
    inputs = itertools.chain(short_inputs(), (random_input(draw) for _ in range(count)))
    tried = bad = 0
    with ThreadPoolExecutor(2) as pool:
        for text, code in pool.map(lambda text: status(program, text), inputs):
            tried += 1
            if code not in (0, 1):
                bad += 1
                print(f"status {code} on {text[:80]!r}")
    print(f"any bytes: {tried} inputs of {os.path.basename(program)}, {bad} that end otherwise")
    return 1 if bad or tried < count else 0


sys.exit(main())
