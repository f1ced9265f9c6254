#!/usr/bin/env python3
"""Prints a part of a Packages file: the essential packages, a package, and all that their relations lead to, until there are so
many stanzas. On standard error it tells how many stanzas the part has and how many it leaves out, and how many of the part lack
something by that: an item of their Pre-Depends or Depends that the file can meet and the part cannot.

Usage: closed-part.py PACKAGES NAME COUNT [fill]

Breadth first: Pre-Depends and Depends, each alternative, each package of the name and each that provides it. The essential
packages and what they lead to are taken whole, whatever COUNT is, since every installation has them at mode essential.
"""

import math
import re
import sys
from collections import deque

path, start, count = sys.argv[1], sys.argv[2], int(sys.argv[3])
stanzas, by_name, items, essential = [], {}, [], []
with open(path, "rb") as file:
    text = file.read()
for stanza in text.split(b"\n\n"):
    fields, name = {}, None
    for line in stanza.split(b"\n"):
        if line[:1] in (b" ", b"\t") and name:
            fields[name] += line
        elif b":" in line:
            name, value = line.split(b":", 1)
            fields[name] = value
    if b"Package" not in fields:
        continue
    number = len(stanzas)
    stanzas.append(stanza)
    names = lambda text, cut: [re.split(rb"[ (:\[]", part.strip())[0] for part in re.split(cut, text) if part.strip()]
    for name in [fields[b"Package"].strip(), *names(fields.get(b"Provides", b""), rb",")]:
        by_name.setdefault(name, []).append(number)
    wants = fields.get(b"Pre-Depends", b"") + b"," + fields.get(b"Depends", b"")
    items.append([names(item, rb"\|") for item in wants.split(b",") if item.strip()])
    if fields.get(b"Essential", b"").strip() == b"yes":
        essential.append(number)


def lead(found, begin, most):
    """Adds what some packages lead to, until there are so many."""
    waiting = deque(begin)
    while waiting and len(found) < most:
        number = waiting.popleft()
        if number not in found:
            found.add(number)
            for item in items[number]:
                for name in item:
                    waiting.extend(by_name.get(name, []))


found = set()
lead(found, essential, len(stanzas) + 1)
lead(found, by_name.get(start.encode(), []), count)
if sys.argv[4:] == ["fill"]:
    stride = next(n for n in range(len(stanzas) * 618 // 1000, len(stanzas) + 1) if math.gcd(n, len(stanzas)) == 1)
    for turn in range(len(stanzas)):
        if len(found) >= count:
            break
        lead(found, [turn * stride % len(stanzas)], len(stanzas) + 1)
can_be_met = lambda item, among: any(number in among for name in item for number in by_name.get(name, []))
everything = range(len(stanzas))
lacking = sum(any(can_be_met(item, everything) and not can_be_met(item, found) for item in items[number]) for number in found)
sys.stdout.buffer.write(b"".join(stanzas[number] + b"\n\n" for number in sorted(found)))
print(f"{len(found)} stanzas, {len(stanzas) - len(found)} left out; {lacking} of the part lack something by that", file=sys.stderr)
