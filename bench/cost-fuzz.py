#!/usr/bin/env python3
"""Looks for files that cost more than they should. It draws shapes of inputs with one size, runs every command on each at three sizes, each twice
the one before, and tells a shape whose seconds or memory for a byte of input, output and clauses grow at both doublings. What it finds it makes smaller,
as long as it stays a finding, and tells with the numbers. `--show SEED` prints the files of one shape.

A shape is some templates of packages whose names meet, once or as many times as the size says; each field is constant, numbered, chained, or
looped within one stanza. Beside the Packages file there are lists, journals, later archives, and certificates: those that the program writes, with
legal lines told again and again, and with a fault at the end.
Usage: cost-fuzz.py PROGRAM [SHAPES [SEED]] [--jobs N] [--seconds S] [--command WORD..]"""
import argparse
import collections
import concurrent.futures
import dataclasses
import json
import os
import random
import shutil
import subprocess
import sys
import tempfile

# A cost for a byte that grows by so much at both doublings is a finding, where the whole takes so long or so much.
MOST_GROWTH, LEAST_SECONDS, LEAST_MEMORY = 1.35, 0.1, 2**25
# The least size, and half of the bytes of input and output at which a shape is large enough.
LEAST_SIZE, MOST_BYTES = 60, 500_000
# Where a run is given up: it is a finding if a half of its size is not.
GIVEN_UP = 10

# Runs one program after another, and prints its seconds of the processor, its most memory and its status. It is a process of its own, since the
# memory of the one that makes the files would count for the programs.
RUNNER = """
import json, os, resource, signal, sys
for line in sys.stdin:
    seconds, words = json.loads(line)
    child = os.fork()
    if not child:
        signal.signal(signal.SIGXFSZ, signal.SIG_IGN)
        for limit, most in ((resource.RLIMIT_FSIZE, 2**31), (resource.RLIMIT_CPU, seconds), (resource.RLIMIT_AS, 2**32)):
            resource.setrlimit(limit, (most, most))
        for number, name in ((1, "out"), (2, "err")):
            os.dup2(os.open(name, os.O_WRONLY | os.O_CREAT | os.O_TRUNC), number)
        os.execv(words[0], words)
    _, status, used = os.wait4(child, 0)
    print(used.ru_utime + used.ru_stime, used.ru_maxrss * 1024, os.waitstatus_to_exitcode(status), flush=True)
"""


# ---- shapes

@dataclasses.dataclass(frozen=True)
class Relation:
    """A list of atoms in a field: of one atom, or looped within the stanza."""
    base: str                 # the letter of the names that it speaks of
    kind: str                 # constant, numbered, next, before, looped
    bound: str = ""           # an operator, or none
    version: str = "constant" # constant, numbered, long
    bar: bool = False         # whether a loop is of alternatives

    def atoms(self, k, n):
        """Pairs of a name and a version, or None."""
        for j in range(n) if self.kind == "looped" else [k]:
            number = {"constant": "", "next": f"{(j + 1) % n:06}", "before": f"{max(j - 1, 0):06}"}.get(self.kind, f"{j:06}")
            yield f"{self.base}{number}", version_text(self.version, j, n) if self.bound else None

    def text(self, k, n):
        spelled = (name + (f" ({self.bound} {version})" if version else "") for name, version in self.atoms(k, n))
        return (" | " if self.bar else ", ").join(spelled)


@dataclasses.dataclass(frozen=True)
class Template:
    """A stanza, once or as many times as the size says."""
    base: str
    many: bool
    name: str = "numbered"    # constant, numbered
    version: str = "constant" # constant, numbered, long
    source: str = ""          # none, or a constant source
    essential: bool = False
    depends: tuple = ()
    conflicts: tuple = ()
    provides: tuple = ()

    def names(self, n):
        return [(self.base + (f"{k:06}" if self.name == "numbered" else ""), version_text(self.version, k, n)) for k in range(n if self.many else 1)]

    def stanza(self, k, n):
        name, version = (self.base + (f"{k:06}" if self.name == "numbered" and self.many else ""), version_text(self.version, k, n))
        fields = [f"Package: {name}", f"Version: {version}"]
        fields += [f"Source: {self.source}"] if self.source else []
        fields += ["Essential: yes"] if self.essential else []
        for field, relations in (("Depends", self.depends), ("Conflicts", self.conflicts), ("Provides", self.provides)):
            if relations:
                fields.append(f"{field}: " + ", ".join(relation.text(k, n) for relation in relations))
        return "\n".join(fields) + "\n\n"

    def text(self, n):
        return "".join(self.stanza(k, n) for k in range(n if self.many else 1))


@dataclasses.dataclass(frozen=True)
class Shape:
    """An archive, what is run on it, and what else it is run with."""
    templates: tuple
    command: str
    mode: str = ""
    journal: tuple = ()       # of an upload, whether it brings stanzas, and which template it is of
    edit: str = ""            # how a certificate is told again: models, groups, or with a fault at its end

    def packages(self, n):
        return "".join(template.text(n) for template in self.templates)


def literals(shape, n, is_later):
    """About how many variables and literals the clauses have that the commands are told to make: of the present, or of all futures."""
    offers, owned, versions, asked, source = collections.Counter(), collections.Counter(), collections.defaultdict(set), collections.Counter(), {}
    for template in shape.templates:
        for name, _ in template.names(n):
            owned[name] += 1
            source.setdefault(name, template.source or name)
    offers.update(owned)
    for template in shape.templates:
        for k in range(n if template.many else 1):
            for relation in template.provides:
                offers.update(name for name, _ in relation.atoms(k, n))
            for relation in template.depends + template.conflicts:
                for name, version in relation.atoms(k, n):
                    asked[name] += 1
                    versions[source.get(name, name)] |= {version} - {None}
    if not is_later:
        return sum(count * (count - 1) for count in owned.values()) + sum(count * max(offers[name], 1) for name, count in asked.items())
    # A cluster has the cuts of all its members, and each member a variable for each class.
    classes = lambda name: 2 * len(versions[source.get(name, name)]) + 1
    made = sum(count * (count - 1) for count in owned.values()) + sum(classes(name) for name in source)
    made += sum((2 * len(cuts) + 1) ** 2 for cuts in list(versions.values()))
    return made + sum(count * max(offers[name], 1) * (1 + classes(name)) for name, count in asked.items())


def version_text(kind, k, n):
    return {"constant": "1", "numbered": str(k + 1), "long": "1." + "1" * min(n, 60) + str(k), "digits": "2" * n, "zeros": "1." + "0" * n + "5"}[kind]


BASES = "abcvx"


def draw_relation(draw, is_single, provides=False):
    looped = ["looped"] * 3 if is_single else []
    kind = draw.choice(["constant", "numbered", "numbered", "next", "before", *looped])
    bound = draw.choice(["", "", "="] if provides else ["", "", "", "=", ">=", "<<"])
    return Relation(draw.choice(BASES), kind, bound, draw.choice(["constant", "numbered", "numbered", "long"]), not provides and draw.random() < 0.5)


def draw_template(draw, base, many):
    count = lambda *weights: draw.choices(range(len(weights)), weights)[0]
    single = not many
    conflicts = tuple(dataclasses.replace(draw_relation(draw, single), bar=False) for _ in range(count(4, 2, 1)))
    version = draw.choice(["constant", "constant", "numbered"] if many else ["constant", "constant", "constant", "digits", "zeros"])
    return Template(base, many, draw.choice(["numbered", "numbered", "numbered", "constant"]) if version == "numbered" else "numbered",
                    version, draw.choice(["", "", "", "s"]), draw.random() < 0.05,
                    tuple(draw_relation(draw, single) for _ in range(count(3, 4, 2, 1))), conflicts,
                    tuple(draw_relation(draw, single, True) for _ in range(count(4, 3, 1))))


COMMANDS = ["health", "classes", "strong", "outdated", "challenged", "check strong", "check outdated", "check challenged", "explain", "repair", "check-explain",
            "check-repair", "steps", "follow"]


def draw_shape(seed, commands):
    draw = random.Random(seed)
    bases = draw.sample(BASES, draw.choice([1, 2, 2, 3, 3]))
    templates = [draw_template(draw, base, draw.random() < 0.6) for base in bases]
    if not any(t.many or any(r.kind == "looped" for r in t.depends + t.conflicts + t.provides) for t in templates):
        templates[0] = dataclasses.replace(templates[0], many=True)
    command = draw.choice(commands)
    edit = draw.choice(["", "", "models", "groups", "fault"]) if command.startswith("check") else ""
    journal = (draw.random() < 0.7, draw.randrange(len(templates))) if command in ("follow", "steps") else ()
    return Shape(tuple(templates), command, draw.choice(["", "", "--essential"]), journal, edit)


# ---- files and words

def told_again(text, edit, n):
    """A certificate with lines told again: each `m` line or each question n / 10 times, or with a fault at its end."""
    lines = text.split("\n")
    if edit == "fault":
        return "\n".join(lines[:-2] + ["z", "e", ""])
    if edit == "models":
        at = next((k for k, line in enumerate(lines) if line.startswith("m")), None)
        return text if at is None else "\n".join(lines[: at + 1] + [lines[at]] * n + lines[at + 1:])
    start = next((k for k, line in enumerate(lines) if line.startswith("q")), None)
    if start is None:
        return text
    end = next((k for k in range(start + 1, len(lines)) if lines[k][:1] not in ("d", "m", "f", "u")), len(lines))
    return "\n".join(lines[:start] + lines[start:end] * max(n // max(end - start, 1), 1) + lines[start:])


def journal_of(shape, n):
    """Uploads of one template at rising versions."""
    brings, which = shape.journal
    template = shape.templates[which]
    names = template.names(n)
    steps = []
    for k in range(n):
        name = names[k % len(names)][0]
        version = f"9{k:07}"
        entries = ", ".join(relation.text(k % len(names), n) for relation in template.provides if relation.kind != "looped")
        stanza = f"Package: {name}\nVersion: {version}\n" + (f"Provides: {entries}\n" if entries else "") if brings else ""
        steps.append(f"= upload {name} {version}\n{stanza}\n")
    return "".join(steps)


def later_of(shape, n):
    brings, which = shape.journal
    later = [dataclasses.replace(t, version="numbered") if k == which and brings and t.version == "constant" else t
             for k, t in enumerate(shape.templates) if brings or k != which]
    return "".join(template.text(n) for template in later)


class Folder:
    """A folder of its own for the files of one shape at a time."""

    def __init__(self, program, seconds):
        self.program, self.seconds = os.path.abspath(program), seconds
        self.path = tempfile.mkdtemp(dir="/dev/shm" if os.path.isdir("/dev/shm") else None)
        self.runner = subprocess.Popen([sys.executable, "-c", RUNNER], cwd=self.path, stdin=subprocess.PIPE, stdout=subprocess.PIPE, text=True)

    def close(self):
        self.runner.stdin.close()
        self.runner.wait()
        shutil.rmtree(self.path)

    def put(self, name, text):
        with open(f"{self.path}/{name}", "w") as file:
            file.write(text)

    def size(self, name):
        return os.path.getsize(f"{self.path}/{name}") if os.path.exists(f"{self.path}/{name}") else 0

    def run(self, *words):
        """Seconds, memory, the status, and the bytes that were read and written. A run that is given up has the status None."""
        before = self.size("cert")
        self.runner.stdin.write(json.dumps([self.seconds, [self.program, *words]]) + "\n")
        self.runner.stdin.flush()
        seconds, memory, status = self.runner.stdout.readline().split()
        status = None if int(status) < 0 else int(status)
        count = sum(self.size(word) for word in words if word in ("packages", "list", "journal", "later")) + self.size("out")
        count += max(before, self.size("cert")) if "cert" in words else 0
        return float(seconds), int(memory), status, count


def prepare(folder, shape, n):
    """Writes the files of a shape at a size, and gives the words. None where there is nothing to run."""
    text = shape.packages(n)
    folder.put("packages", text)
    if folder.size("cert"):
        os.remove(f"{folder.path}/cert")
    named = shape.templates[-1].names(n)[-1]
    wanted = ["--package", "=".join(named)]
    mode = [shape.mode] if shape.mode else []
    kind, *rest = shape.command.split()
    if kind == "health":
        folder.put("list", "".join(f"{name} {version}\n" for template in shape.templates for name, version in template.names(n)))
        return ["health", "packages", "list"]
    if kind == "classes":
        return ["classes", "packages"]
    if kind in ("strong", "outdated", "challenged"):
        return [kind, "packages", "cert", *mode]
    if kind in ("explain", "repair"):
        return [kind, "packages", "cert", *wanted]
    if kind == "steps":
        folder.put("later", later_of(shape, n))
        return ["steps", "packages", "later"]
    if kind == "follow":
        folder.put("journal", journal_of(shape, n))
        if folder.run("challenged", "packages", "cert", *mode)[2] not in (0, 1):
            return None
        return ["follow", "packages", "cert", "journal"]
    asked = [rest[0], "packages", "cert", *mode] if rest else [kind[6:], "packages", "cert", *wanted]
    if folder.run(*asked)[2] not in (0, 1):
        return None
    if shape.edit:
        with open(f"{folder.path}/cert") as file:
            folder.put("cert", told_again(file.read(), shape.edit, n))
    return [kind, "packages", "cert"]


# ---- judging

def measure(folder, shape, n, again=1):
    """The least of some runs: seconds, memory, status, and the bytes that were read, written, and made as clauses."""
    words = prepare(folder, shape, n)
    if words is None:
        return None
    runs = [folder.run(*words) for _ in range(again)]
    is_later = not ("strong" in shape.command or "explain" in shape.command)
    made = 0 if shape.command in ("health", "classes") else 4 * literals(shape, n, is_later)
    return min(run[0] for run in runs), min(run[1] for run in runs), runs[0][2], runs[0][3] + made


def climb(folder, shape):
    """Runs at doubled sizes, until one takes long enough, or has as many bytes as are tried: the last size, and the last three runs."""
    n, runs = LEAST_SIZE, []
    while True:
        ran = measure(folder, shape, n)
        if ran is None:
            return n, []
        runs.append(ran)
        seconds, memory, status, count = ran
        if seconds >= 4 * LEAST_SECONDS or memory >= 8 * LEAST_MEMORY or status is None or count > 2 * MOST_BYTES:
            return n, runs[-3:]
        n *= 2


def grows(costs, counts, least):
    """Whether the cost for a byte grows at both doublings, and the last cost is large enough."""
    rates = [cost / count for cost, count in zip(costs, counts)]
    return costs[-1] >= least and rates[1] > MOST_GROWTH * rates[0] and rates[2] > MOST_GROWTH * rates[1]


def judged(runs, n, empty):
    """What is found of runs at three sizes: seconds or memory, with the numbers."""
    if len(runs) < 3 or any(run is None for run in runs):
        return None
    counts = [run[3] for run in runs]
    text = "; ".join(f"n {size}: {run[0]:.2f} s, {run[1] / 1e6:.0f} MB, {run[3] / 1e6:.2f} MB, status {run[2]}" for size, run in zip((n // 4, n // 2, n), runs))
    if runs[-1][2] is None and runs[0][0] < LEAST_SECONDS:
        return f"seconds (given up): {text}"
    if grows([max(run[0] - empty[0], 0) + 0.002 for run in runs], counts, LEAST_SECONDS):
        return f"seconds: {text}"
    if grows([max(run[1] - empty[1], 0) + 2**20 for run in runs], counts, LEAST_MEMORY):
        return f"memory: {text}"
    return None


def findings(folder, shape, n, empty, again=1):
    """What is found of a shape at a size and its half and quarter."""
    return judged([measure(folder, shape, size, again) for size in (n // 4, n // 2, n)], n, empty)


def smaller(shape):
    """Shapes with one thing less."""
    for k in range(len(shape.templates)):
        rest = shape.templates[:k] + shape.templates[k + 1:]
        if rest and not shape.journal:
            yield dataclasses.replace(shape, templates=rest)
        template = shape.templates[k]
        less = [dataclasses.replace(template, **{field: ()}) for field in ("depends", "conflicts", "provides") if getattr(template, field)]
        for field in ("depends", "conflicts", "provides"):
            relations = getattr(template, field)
            less += [dataclasses.replace(template, **{field: relations[:j] + relations[j + 1:]}) for j in range(len(relations)) if len(relations) > 1]
            less += [dataclasses.replace(template, **{field: relations[:j] + (dataclasses.replace(relation, bound=""),) + relations[j + 1:]})
                     for j, relation in enumerate(relations) if relation.bound]
        less += [dataclasses.replace(template, essential=False)] if template.essential else []
        less += [dataclasses.replace(template, source="")] if template.source else []
        less += [dataclasses.replace(template, version="constant")] if template.version != "constant" and template.name == "numbered" else []
        for it in less:
            yield dataclasses.replace(shape, templates=shape.templates[:k] + (it,) + shape.templates[k + 1:])
    if shape.mode:
        yield dataclasses.replace(shape, mode="")


def shrink(folder, shape, n, empty, found):
    """The shape with as little as still is a finding."""
    tries = 0
    while tries < 40:
        for less in smaller(shape):
            tries += 1
            again = findings(folder, less, n, empty, 1)
            if again:
                shape, found = less, again
                break
        else:
            break
    return shape, found


def told(shape):
    """A shape in a line."""
    def relation(it):
        number = {"constant": "", "numbered": "k", "next": "k+1", "before": "k-1", "looped": "0..n" + (" by bars" if it.bar else "")}[it.kind]
        return f"{it.base}{number}" + (f" ({it.bound} {it.version})" if it.bound else "")

    def template(it):
        fields = [f"{field}: {', '.join(map(relation, getattr(it, field.lower())))}" for field in ("Depends", "Conflicts", "Provides")
                  if getattr(it, field.lower())]
        fields += ["Essential"] if it.essential else []
        fields += [f"Source: {it.source}"] if it.source else []
        return f"{'n ' if it.many else ''}{it.base}{'k' if it.many and it.name == 'numbered' else ''} {it.version} [{'; '.join(fields)}]"

    more = [shape.mode] * bool(shape.mode) + ([f"journal {shape.journal}"] if shape.journal else []) + ([f"told again: {shape.edit}"] if shape.edit else [])
    return f"{shape.command} {' '.join(more)} of " + ", ".join(map(template, shape.templates))


def judge(program, seed, seconds, commands):
    """What is found of the shape of a seed."""
    shape = draw_shape(seed, commands)
    folder = Folder(program, seconds)
    try:
        folder.put("packages", "")
        folder.put("list", "")
        empty = folder.run("health", "packages", "list")
        n, runs = climb(folder, shape)
        if len(runs) < 3:
            return seed, shape.command, None
        # A finding is tried again: what else the machine does may have made it.
        if judged(runs, n, empty) and (found := findings(folder, shape, n, empty, 2)):
            shape, found = shrink(folder, shape, n, empty, found)
            return seed, shape.command, f"{told(shape)}\n  {found}"
        return seed, shape.command, ""
    finally:
        folder.close()


def show(shape, n):
    print(told(shape))
    print(shape.packages(n))
    if shape.command == "follow":
        print(journal_of(shape, n))
    if shape.command == "steps":
        print(later_of(shape, n))


def main():
    reader = argparse.ArgumentParser(description=__doc__.split("\n")[0])
    reader.add_argument("program")
    reader.add_argument("shapes", nargs="?", type=int, default=100)
    reader.add_argument("seed", nargs="?", type=int, default=1)
    reader.add_argument("--jobs", type=int, default=os.cpu_count())
    reader.add_argument("--seconds", type=int, default=GIVEN_UP)
    reader.add_argument("--command", nargs="+", default=COMMANDS)
    reader.add_argument("--show", type=int, metavar="N", help="prints the files of the shape of the seed at a size")
    words = reader.parse_args()
    if words.show:
        return show(draw_shape(words.seed, words.command), words.show)
    counts, found, passed = {}, 0, 0
    with concurrent.futures.ProcessPoolExecutor(words.jobs) as pool:
        tasks = [pool.submit(judge, words.program, words.seed + k, words.seconds, words.command) for k in range(words.shapes)]
        for task in concurrent.futures.as_completed(tasks):
            seed, command, finding = task.result()
            passed += finding is None
            counts[command] = counts.get(command, 0) + 1
            if finding:
                found += 1
                print(f"seed {seed}: {finding}", flush=True)
    print(", ".join(f"{command} {count}" for command, count in sorted(counts.items())))
    print(f"{words.shapes} shapes, of which {passed} have nothing to run at both sizes; {found} findings")
    return 1 if found else 0


sys.exit(main())
