#!/usr/bin/env python3
"""Prints a made Packages file, with relation fields shaped like those of Debian's archive. The same seed prints the same file.

Usage: make-packages.py STANZAS [SEED]    63440 stanzas are as many as Debian 12 has for one architecture"""
import random
import sys

count = int(sys.argv[1])
random.seed(int(sys.argv[2]) if len(sys.argv) > 2 else 1)

names = [random.choice(("lib", "python3-", "ruby-", "golang-", "r-cran-", "librust-", ""))
         + "".join(random.choices("abcdefghijklmnopqrstuvwxyz", k=random.randrange(3, 11)))
         + random.choice(("", "", "1", "-dev", "-data", "-2.0", "++6")) for _ in range(count)]

def version():
    text = (".".join(str(random.randrange(30)) for _ in range(random.choice((1, 2, 3, 3))))
            + random.choice(("", "", "", "~", "+dfsg")) + random.choice(("", "-1", "-2+b1")))
    return (str(random.randrange(4)) + ":" if random.random() < 0.06 else "") + text

def atom(operators):
    qualifier = ":any" if random.random() < 0.03 else ""
    bound = f" ({random.choice(operators)} {version()})" if random.random() < 0.6 else ""
    return random.choice(names) + qualifier + bound

def item():
    return " | ".join(atom((">=", ">=", ">=", "=", "<<")) for _ in range(random.choice((1,) * 12 + (2, 2, 3))))

def entries(one, most):
    return ", ".join(one() for _ in range(random.randrange(1, most)))

for name in names:
    print(f"Package: {name}\nVersion: {version()}\nArchitecture: amd64\nMaintainer: Somebody <somebody@example.org>")
    print("Depends: " + entries(item, 9))
    if random.random() < 0.2:
        print("Breaks: " + entries(lambda: atom(("<<", "<=")), 4))
    if random.random() < 0.2:
        print("Provides: " + entries(lambda: atom(("=",)), 4))
    print("Description: " + " ".join(random.choices(names, k=5)))
    print("Filename: pool/main/" + "/".join((name[0], name, name)) + ".deb\nSHA256: " + "".join(random.choices("0123456789abcdef", k=64)))
    print("Description-md5: " + "".join(random.choices("0123456789abcdef", k=32)) + "\n")
