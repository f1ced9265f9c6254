#!/usr/bin/env python3
"""Times questions of the search, by dist_bench.

Over a Packages file, a half and a quarter of it (closed parts): a question for each package, and one for each package without each
other member of its first installation, at mode plain and at mode essential. A question's time is given in microseconds and against
the time to read the file over its packages. Then the question of the last package of archives that are made to be hard: pigeons,
one more than there are holes, and random clauses of three literals, 4.26 for each variable.
Usage: questions.py BENCH [PACKAGES]    dist_bench, as `rt run` leaves it; without PACKAGES the made archives alone"""
import os
import random
import subprocess
import sys
import tempfile
import time

HERE = os.path.dirname(os.path.abspath(__file__))


def stanza(name, *fields):
    return "\n".join((f"Package: {name}", "Version: 1", *fields)) + "\n\n"


def pigeons(count):
    """So many pigeons, each of which needs one of so many holes less one."""
    holes = range(count - 1)
    text = "".join(stanza(f"in-{p:02}-{h:02}", f"Provides: hole-{h:02}", f"Conflicts: hole-{h:02}") for p in range(count) for h in holes)
    text += "".join(stanza(f"pigeon-{p:02}", "Depends: " + " | ".join(f"in-{p:02}-{h:02}" for h in holes)) for p in range(count))
    return text + stanza("zzz", "Depends: " + ", ".join(f"pigeon-{p:02}" for p in range(count)))


def clauses(variables, seed):
    """Random clauses of three literals of different variables."""
    draw = random.Random(seed)
    text = "".join(stanza(f"no-{v:03}", f"Conflicts: yes-{v:03}") + stanza(f"yes-{v:03}") for v in range(variables))
    count = round(4.26 * variables)
    for k in range(count):
        literals = [f"{draw.choice(('no', 'yes'))}-{v:03}" for v in draw.sample(range(variables), 3)]
        text += stanza(f"clause-{k:04}", "Depends: " + " | ".join(literals))
    return text + stanza("zzz", "Depends: " + ", ".join(f"clause-{k:04}" for k in range(count)))


def run(program, job, path):
    """The seconds of a job, and what it answers."""
    with open(path, "rb") as source:
        start = time.perf_counter()
        answer = subprocess.run([program, job], stdin=source, stdout=subprocess.PIPE, check=True)
        return time.perf_counter() - start, answer.stdout.decode().strip()


def asked(program, told, path):
    reading, packages = min(run(program, "count-packages", path) for _ in range(3))
    count = int(packages.split()[0])
    for job in ("ask-packages", "ask-essential-packages"):
        seconds, answer = run(program, job, path)
        numbers = [int(word) for word in answer.replace(",", "").split() if word.isdigit()]
        each = (seconds - reading) / max(1, sum(numbers[:3]))
        print(f"{told}, {packages}, {job}: {answer}; {seconds:.2f} s, {each * 1e6:.2f} microseconds a question,"
              f" {each / (reading / count):.2f} times reading a package", flush=True)


def main(program, packages=None):
    with tempfile.TemporaryDirectory() as folder:
        if packages:
            with open(packages, encoding="utf-8") as file:
                count = file.read().count("\nPackage: ") + 1
            for told, share in (("a quarter", 4), ("a half", 2)):
                path = f"{folder}/part"
                with open(path, "wb") as part:
                    subprocess.run([sys.executable, f"{HERE}/closed-part.py", packages, "gnome", str(count // share), "fill"], stdout=part, check=True)
                asked(program, told, path)
            asked(program, "the whole", packages)
        made = [(f"{n} pigeons", pigeons(n)) for n in (9, 10, 11, 12)]
        made += [(f"random clauses, {v} variables, seed {seed}", clauses(v, seed)) for v in (100, 150, 200) for seed in (1, 2, 3)]
        for told, text in made:
            path = f"{folder}/made"
            with open(path, "w", encoding="utf-8") as file:
                file.write(text)
            seconds, answer = run(program, "ask-last-package", path)
            print(f"{told}: {answer}; {seconds:.3f} s", flush=True)


main(*sys.argv[1:])
