#!/usr/bin/env python3
"""Prints made versions, one a line, shaped like those of Debian's archive. The same seed prints the same lines.

Usage: make-versions.py COUNT [SEED]"""
import random
import sys

count = int(sys.argv[1])
random.seed(int(sys.argv[2]) if len(sys.argv) > 2 else 1)

def number():
    return str(random.choice((random.randrange(10), random.randrange(40), random.randrange(20080101, 20231231)))
               if random.random() < 0.05 else random.randrange(30))

def version():
    text = ".".join(number() for _ in range(random.choice((1, 2, 2, 3, 3, 3, 4))))
    text += random.choice(("", "", "", "", "+dfsg", "+ds1", "~rc" + str(random.randrange(9)), "~git2023.0" + str(random.randrange(1, 9)), "a", "b2"))
    if random.random() < 0.9:
        text += "-" + str(random.randrange(1, 30)) + random.choice(("", "", "", ".1", "+b1", "+b" + str(random.randrange(1, 12)), "~bpo12+1", "+deb12u1"))
    return (str(random.randrange(4)) + ":" if random.random() < 0.06 else "") + text

for _ in range(count):
    print(version())
