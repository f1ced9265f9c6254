"""Small random archives of many shapes, what the definitions say of them by enumeration, and how a program is run on them.

The definitions stand in docs/DEFINITIONS.md. No clause, variable or class is used here: installations are all subsets of the packages,
futures are all choices of versions. Files are read as tools/recheck does, which shares no code with the program.
"""
import itertools
import os
import random
import shutil
import tempfile

import second as sc

HERE = os.path.dirname(os.path.abspath(__file__))


# ---- running a program

class Runner:
    """Runs a program on files of a folder of its own, in memory where the system has such."""

    def __init__(self, program):
        self.program = os.path.abspath(program)
        self.folder = tempfile.mkdtemp(dir="/dev/shm" if os.path.isdir("/dev/shm") else None)
        self.runs = 0
        self.held = {}
        self.environment = {}

    def path(self, name):
        return f"{self.folder}/{name}"

    def put(self, name, data):
        if self.held.get(name) != data:
            with open(self.path(name), "wb") as file:
                file.write(data)
            self.held[name] = data

    def get(self, name):
        self.held.pop(name, None)
        with open(self.path(name), "rb") as file:
            return file.read()

    def run(self, *words, writes=None):
        """(status, standard output, standard error). Words with a / in front are files of the folder; writes: the one that it may write."""
        self.runs += 1
        self.held.pop(writes, None)
        for name in ("out", "err"):
            self.held.pop(name, None)
        actions = [(os.POSIX_SPAWN_OPEN, number, self.path(name), os.O_WRONLY | os.O_CREAT | os.O_TRUNC, 0o600) for number, name in ((1, "out"), (2, "err"))]
        words = [self.folder + word if word.startswith("/") else word for word in words]
        child = os.posix_spawn(self.program, [self.program, *words], self.environment, file_actions=actions)
        status = os.waitstatus_to_exitcode(os.waitpid(child, 0)[1])
        return status, self.get("out").decode("latin-1"), self.get("err").decode("latin-1")

    def close(self):
        shutil.rmtree(self.folder)


# ---- archives

NEAR = ["1", "1.0", "1-0", "0:1", "01", "1~", "1~rc1", "1-1", "1+b1", "1-1+b2", "1A", "1-0A", "1-0A~", "1.a", "1.+", "1+b", "1+1"]
FAR = ["2", "2~", "2-1", "2-1+b1", "2.0", "10", "9", "1:0", "1:0.1", "3", "0", "~~", "2+b1+b2", "2~~", "1.10", "1.9"]
OPERATORS = ["<<", "<=", "=", ">=", ">>", "<", ">"]


class Draw(random.Random):
    def often(self, share):
        return self.random() < share

    def count(self, *weights):
        return self.choices(range(len(weights)), weights)[0]


def related(draw):
    """Long versions that differ in a few bytes, so that their common front ends anywhere, in digits too."""
    base = "".join(draw.choices(draw.choice(["0011223a.~+", "0123456789", "01", "a1.0~"]), k=draw.randint(12, 50)))
    pool = {base}
    while len(pool) < 8:
        text = draw.choice(sorted(pool))
        at, some = draw.randint(0, len(text)), draw.choice("0019a.~+-A")
        text = draw.choice([text[:at] + some + text[at:], text[:at] + some + text[at + 1:], text[:at] + text[at + 1:],
                            text + some, text + "-" + some, text + "+b1"])
        pool |= {text} if sc.read_version(text.encode())[0] else set()
    return sorted(pool)


# Names of which many are alike in their first bytes.
FRONT = "lib-a-name-of-16"
ALIKE = [FRONT[:15], FRONT, FRONT + "-", FRONT + "0", FRONT + "a", FRONT + "a.", FRONT + "-24bytes", FRONT + "-24bytes-", FRONT + "-24bytesa",
         FRONT[:15] + "+", FRONT[:15] + "a", FRONT[:8], FRONT[:7] + "A"]


class Shape:
    """What versions and atoms of one archive are drawn from."""

    def __init__(self, draw, names):
        self.draw = draw
        pool = draw.choice([["1", "2"], ["1", "2", "3"], NEAR, NEAR + FAR, FAR, ["1", "1-0", "1.0", "1+b1", "2"], related(draw)])
        self.versions = draw.sample(pool, min(len(pool), draw.randint(1, 5)))
        self.asked = names + ["v", "w"][: draw.count(2, 2, 1)] + (["zz"] if draw.often(0.3) else [])
        self.bounds, self.qualified = draw.choice([0, 0.3, 0.7]), draw.choice([0, 0, 0.15])

    def version(self):
        return self.draw.choice(self.versions) if self.draw.often(0.95) else self.draw.choice(NEAR + FAR)

    def qualifier(self):
        return ":" + self.draw.choice(["any", "native", "amd64", "all", "i386"]) if self.draw.often(self.qualified) else ""

    def atom(self, name=None):
        bound = f" ({self.draw.choice(OPERATORS)} {self.version()})" if self.draw.often(self.bounds) else ""
        return (name or self.draw.choice(self.asked)) + self.qualifier() + bound

    def entry(self, own):
        name = self.draw.choice(["v", "v", "w"]) if self.draw.often(0.7) else self.draw.choice(self.asked)
        return name + self.qualifier() + self.draw.choice(["", f" (= {own})", f" (= {self.version()})"])

    def item(self):
        return " | ".join(self.atom() for _ in range(1 + self.draw.count(5, 4, 1)))


def loose(draw, shape, names):
    """Dependencies at random, some names at several versions."""
    for name in names:
        for version in draw.sample(shape.versions, min(len(shape.versions), 1 + draw.count(7, 2, 1))):
            yield name, version, [shape.item() for _ in range(draw.count(2, 4, 2, 1))], []


def chain(draw, shape, names):
    for name, after in zip(names, names[1:] + [None]):
        items = [shape.atom(after) if draw.often(0.7) else shape.atom(after) + " | " + shape.atom()] if after else []
        yield name, shape.version(), items + [shape.item() for _ in range(draw.count(5, 1))], [shape.atom()] if draw.often(0.1) else []


def diamond(draw, shape, names):
    """One that needs several, which need one of the same few."""
    first, last, middle = names[0], names[-1], names[1:-1]
    yield first, shape.version(), [shape.atom(name) for name in middle] or [shape.item()], []
    for name in middle:
        yield name, shape.version(), [shape.atom(last) + draw.choice(["", " | " + shape.atom()])], [shape.atom()] if draw.often(0.2) else []
    for version in draw.sample(shape.versions, min(len(shape.versions), 1 + draw.count(2, 1))):
        yield last, version, [], [shape.atom()] if draw.often(0.3) else []


def exclusive(draw, shape, names):
    """Groups whose members exclude each other by a name that they provide, and one that needs members of several groups."""
    groups = ["v", "w", "u"][: draw.randint(1, 3)]
    members = {group: [name for k, name in enumerate(names[1:]) if k % len(groups) == number] for number, group in enumerate(groups)}
    items = [" | ".join(its[k] for its in members.values() if k < len(its)) for k in range(max(map(len, members.values())))]
    yield names[0], shape.version(), items + [shape.item()] * draw.count(3, 1), []
    for group, its in members.items():
        for name in its:
            yield name, shape.version(), [shape.item()] if draw.often(0.2) else [], [group + shape.qualifier()], f"{group}"


def dense(draw, shape, names):
    """One version of each name, alternatives without bounds: questions that need derived lines."""
    for name in names:
        others = [other for other in names if other != name]
        items = [" | ".join(draw.sample(others, min(len(others), 1 + draw.count(2, 3, 2)))) for _ in range(draw.count(1, 3, 2))]
        yield name, shape.version(), items, [draw.choice(others)] if draw.often(0.4) else []


def pigeons(draw, shape, names):
    """Groups of packages that exclude each other, and one that needs one of each number: more numbers than groups, so that it is hard."""
    groups, numbers = draw.choice([(2, 3), (3, 3), (3, 4), (3, 4), (4, 5)])
    members = [(f"{group}{number}", group) for group in "vwuz"[:groups] for number in range(numbers)]
    for name, group in members:
        if draw.often(0.97):
            yield name, "1", [], [group], group
    yield "p", "1", [" | ".join(f"{group}{number}" for group in "vwuz"[:groups]) for number in range(numbers)], []
    if draw.often(0.5):
        yield "q", "1", [draw.choice(["p", "p | v0", "p, w1"])], []


def archive(draw, most=7):
    """The bytes of a Packages file."""
    names = draw.sample(["a", "b", "c", "d", "e", "f", "g", "libx", "a-1", "b.c", "A"], 1 + draw.count(1, 2, 3, 4, 4, 3)) if draw.often(0.3) else (
        ["a", "b", "c", "d", "e", "f", "g"][: draw.randint(2, 7)])
    if draw.often(0.1):
        names = draw.sample(ALIKE, len(names))
    shape = Shape(draw, names)
    make = draw.choice([loose, loose, chain, diamond, exclusive, dense, dense]) if len(names) > 2 else loose
    if most > 4 and draw.often(0.03):
        make, most, shape.bounds, shape.qualified = pigeons, 30, 0, 0
    sources = draw.choice([None, None, ["s"], ["s", "t"], names])
    essential, conflicts, provides = draw.choice([0, 0.1, 0.3]), draw.choice([0, 0.2, 0.5]), draw.choice([0, 0.2, 0.5])
    architectures, plain = draw.choice([["all"], ["amd64"], ["amd64", "all"], [None]]), draw.often(0.7)
    stanzas = []
    for name, version, items, rejected, *provided in list(make(draw, shape, names))[:most]:
        lines = ["Package: " + name, "Version: " + version]
        architecture = draw.choice(architectures)
        if architecture:
            lines.append("Architecture: " + architecture)
        if sources and draw.often(0.8):
            lines.append("Source: " + draw.choice(sources) + (f" ({shape.version()})" if draw.often(0.3) else ""))
        first = draw.randint(0, len(items)) if draw.often(0.2) else 0
        rejected = rejected + [shape.atom() for _ in range(draw.count(2, 1))] * draw.often(conflicts)
        breaks = [shape.atom() for _ in range(1 + draw.count(3, 1))] if draw.often(conflicts / 2) else []
        provided += [shape.entry(version) for _ in range(1 + draw.count(3, 2, 1))] if draw.often(provides) else []
        for field, its in (("Pre-Depends", items[:first]), ("Depends", items[first:]), ("Conflicts", rejected), ("Breaks", breaks), ("Provides", provided)):
            if its:
                lines.append(f"{field}: " + (", " if plain else draw.choice([", ", ",", " ,\n ", ",, "])).join(its))
        if draw.often(essential):
            lines.append("Essential: " + ("yes" if draw.often(0.9) else draw.choice(["no", "Yes", "yes\n no"])))
        if not plain and draw.often(0.3):
            lines.append("Description: text\n more\n .\n\tand more")
        if not plain and draw.often(0.2):
            lines = [line.split(":")[0].swapcase() + ":" + line.split(":", 1)[1] for line in lines]
        if not plain and draw.often(0.3):
            draw.shuffle(lines)
        stanzas.append("\n".join(lines) + "\n")
    if draw.often(0.3):
        draw.shuffle(stanzas)
    if draw.often(0.03):
        stanzas.append(draw.choice(stanzas))
    return draw.choice(["\n", "\n", "\n\n", " \t\n"]).join(stanzas).encode()


def readable_archive(draw, most=7):
    """An archive with its packages and architecture."""
    while True:
        data = archive(draw, most)
        try:
            return (data, *sc.read_packages(data))
        except sc.End:
            pass


# ---- lists, and their health

def spelled(bound):
    return " (%s %s)" % (bound[0], bound[1].decode()) if bound else ""


def item_text(item):
    return " | ".join(name.decode() + (":" + qualifier.decode() if qualifier else "") + spelled(bound) for name, qualifier, bound in item)


def label(p):
    return "%s=%s" % (p.name.decode(), p.text.decode())


def health_of(packages, arch, members):
    """What `health` prints of some places of packages, and its status."""
    pairs = [(p, q) for p in members for q in members if p < q]
    for p, q in pairs:
        if packages[p].name == packages[q].name:
            return "two versions %s %s\n" % (label(packages[p]), label(packages[q])), 9
    for p in members:
        for item in packages[p].items:
            if not any(sc.matches(atom, packages[q], arch) for atom in item for q in members):
                return "unmet %s: %s\n" % (label(packages[p]), item_text(item)), 9
    for p, q in pairs:
        if sc.in_conflict(packages[p], packages[q], arch):
            return "conflict %s %s\n" % (label(packages[p]), label(packages[q])), 9
    return "healthy\n", 0


def list_line(draw, p):
    """A line that names a package, with its version in some text."""
    text = p.text
    if draw.often(0.2):
        text = draw.choice([b"0:" + text if b":" not in text else text, text + b"-0" if p.key[2] == (0,) and b"-" not in text else text, b"0" + text])
        text = text if sc.read_version(text)[0] and sc.same_version(text, p.text) else p.text
    blank = lambda least: bytes(draw.choices(b" \t", k=least + draw.count(8, 1, 1)))
    return blank(0) + p.name + blank(1) + text + blank(0)


BAD_LINES = [b"a", b"a 1 1", b"zz 1", b"a 1_0", b"a=1", b"a 1\r", b"\xff 1", b"a  ", b"a 99", b", 1", b"\x0c", b"a 1\x0b"]


def health_answer(packages, arch, data):
    """The status, the standard output and the standard error of `health` of a LIST."""
    members = set()
    lines = data.split(b"\n")
    for number, line in enumerate(lines, 1):
        words = [word for word in line.replace(b"\t", b" ").split(b" ") if word]
        if not words:
            continue
        version = sc.read_version(words[1])[0] if len(words) == 2 and sc.is_name(words[0]) else None
        named = [k for k, p in enumerate(packages) if version and p.name == words[0] and sc.compare_versions(p.key, version) == 0]
        if not named:
            return 10, "", f"distfuture: bad list at line {number}\n"
        members.add(named[0])
    text, status = health_of(packages, arch, sorted(members))
    return status, text, ""


def list_of(draw, packages):
    """A LIST of some of the packages, now and then with a bad line."""
    share = draw.choice([0.3, 0.5, 1])
    lines = [list_line(draw, p) for p in packages if draw.often(share)]
    lines += [list_line(draw, draw.choice(packages))] * draw.often(0.1) if packages else []
    draw.shuffle(lines)
    if draw.often(0.15):
        lines.insert(draw.randint(0, len(lines)), draw.choice(BAD_LINES + [b"", b" ", b"\t"]))
    return b"\n".join(lines) + b"\n" * draw.often(0.8)


# ---- installations of today

def bits(mask):
    return [k for k in range(mask.bit_length()) if mask >> k & 1]


def apart(excludes):
    """All sets of which no member excludes another."""
    sets = [0]
    for k, mask in enumerate(excludes):
        sets += [s | 1 << k for s in sets if not mask & s]
    return sets


class Present:
    """All healthy installations of a list of packages, as bits; package k stands for 1 << k."""

    def __init__(self, packages, arch, essential):
        self.count = len(packages)
        one = lambda met: sum(1 << k for k, q in enumerate(packages) if met(q))
        meets = [[one(lambda q, item=item: any(sc.matches(atom, q, arch) for atom in item)) for item in p.items] for p in packages]
        excludes = [one(lambda q, p=p: q is not p and (q.name == p.name or sc.in_conflict(p, q, arch))) for p in packages]
        needed = [one(lambda q, name=name: q.name == name) for name in {p.name for p in packages if p.essential}] if essential else []
        self.healthy = [s for s in apart(excludes) if all(s & mask for mask in needed) and all(s & mask for k in bits(s) for mask in meets[k])]

    def having(self, package):
        return [s for s in self.healthy if s >> package & 1]

    def always_with(self, package):
        """Bits of what each installation with a package holds, or None where there is none."""
        its = self.having(package)
        common = -1
        for s in its:
            common &= s
        return common if its else None


# ---- futures

class Later:
    """What futures allow of the newest of each name. A version is a place among the versions that atoms name: an odd place is that of one
    of these, an even one lies between or outside of them. Each place has a version, since between two versions lies a third.

    New packages need nothing and conflict with nothing here, since each of them may. So of a set of packages as they are, one future is enough for
    each choice of places: everything new that none of them is in conflict with is installed, and the entries that are in conflict are left out."""

    def __init__(self, packages, arch, essential):
        self.packages, self.arch, self.essential = packages, arch, essential
        self.count = len(packages)
        atoms = sc.usable_atoms(packages, arch)
        self.named = sc.cuts_of([atom[2][1] for atom in atoms if atom[2]])
        self.place_of = {}
        for atom in atoms:
            if atom[2]:
                self.place_of[atom[2][1]] = 2 * next(k for k, text in enumerate(self.named) if sc.same_version(text, atom[2][1])) + 1
        self.clusters = sc.clusters_of(packages)
        self.places = [self.places_above(sc.top_of([packages[k - 1].text for k in members])) for members in self.clusters]
        self.needed = sorted({p.name for p in packages if p.essential}) if essential else []
        self.items = [(k, item) for k, p in enumerate(packages) for item in p.items]
        self.today, self.ever, self.beside = 0, 0, {}
        self.walk()

    def places_above(self, top):
        above = [k for k, text in enumerate(self.named) if sc.BY_VERSION(text) > sc.BY_VERSION(top)]
        for k in above:
            before = top if k == 0 or k - 1 not in above else self.named[k - 1]
            between = sc.read_version(sc.after(before, len(self.named[k])))[0]
            assert sc.compare_versions(sc.read_version(before)[0], between) < 0 < sc.compare_versions(sc.read_version(self.named[k])[0], between)
        return sorted([2 * k for k in above] + [2 * k + 1 for k in above] + [2 * len(self.named)])

    def meets(self, place, bound):
        """Whether the versions at a place meet a bound."""
        at = self.place_of[bound[1]]
        return {"<<": place < at, "<=": place <= at, "=": place == at, ">=": place >= at, ">>": place > at}[bound[0]]

    def is_matched(self, atom, name, version):
        """An atom by a name at a version: a place, what read_value gives of an entry, or None."""
        if not sc.is_usable(atom[1], self.arch) or atom[0] != name:
            return False
        if atom[2] is None or version is None:
            return atom[2] is None
        return self.meets(version, atom[2]) if isinstance(version, int) else sc.satisfies(version[2], atom[2])

    def offer(self, name, version, is_name):
        """What installing a name at a version, or keeping an entry of it, does: the packages that conflict with it, and the needs that it meets."""
        hits = sum(1 << k for k, p in enumerate(self.packages) if any(self.is_matched(atom, name, version) for atom in p.conflicts))
        meets = sum(1 << j for j, (_, item) in enumerate(self.items) if any(self.is_matched(atom, name, version) for atom in item))
        if is_name and name in self.needed:
            meets |= 1 << len(self.items) + self.needed.index(name)
        return hits, meets

    def offers_of(self, member, place):
        """Of a new version: the offer of its name, and those of its entries."""
        p = self.packages[member - 1]
        entries = [(entry[0], place if sc.has_own_version(entry, p) else entry[2]) for entry in p.provides if sc.is_usable(entry[1], self.arch)]
        return self.offer(p.name, place, True), [self.offer(name, version, False) for name, version in entries]

    def walk(self):
        fresh = [[self.offer(name, place, False) for place in range(2 * len(self.named) + 1)] for name in sc.new_names(self.packages, self.arch)]
        offers = [{place: [self.offers_of(member, place) for member in members] for place in self.places[c]} for c, members in enumerate(self.clusters)]
        own = [sum(1 << k - 1 for k in members) for members in self.clusters]
        one = lambda met: sum(1 << k for k, q in enumerate(self.packages) if met(q))
        excludes = [one(lambda q, p=p: q is not p and sc.in_conflict(p, q, self.arch)) for p in self.packages]
        met_by = [one(lambda q, item=item: any(sc.matches(atom, q, self.arch) for atom in item)) for _, item in self.items]
        named_by = [one(lambda q, name=name: q.name == name) for name in self.needed]
        for s in apart(excludes):
            need = sum(1 << j for j, (k, _) in enumerate(self.items) if s >> k & 1 and not met_by[j] & s)
            need |= sum(1 << len(self.items) + j for j, mask in enumerate(named_by) if not mask & s)
            if not need:
                self.today |= s
            self.of_set(s, need, [c for c in range(len(own)) if not own[c] & s], offers, fresh)

    def of_set(self, s, need, free, offers, fresh):
        """Of some packages as they are, what futures have them in a healthy installation. free: the clusters that may move."""
        at = [(c, place) for c in free for place in offers[c]]
        if not s & ~self.ever and not any(s & ~self.beside.get(pair, 0) for pair in at):
            return
        met = {pair: self.met(s, offers[pair[0]][pair[1]]) & need for pair in at}
        ways = {c: {0} | {met[c, place] for place in offers[c]} for c in free}
        more = self.join([{0} | {meets & need for hits, meets in its if not hits & s} for its in fresh])
        if need in self.join([more] + list(ways.values())):
            self.ever |= s
        for c in free:
            others = self.join([more] + [ways[d] for d in free if d != c])
            for place in offers[c]:
                if any(need & ~other & ~met[c, place] == 0 for other in others):
                    self.beside[c, place] = self.beside.get((c, place), 0) | s

    @staticmethod
    def met(s, members):
        """The needs that a cluster's new versions at one place meet, beside some packages."""
        mask = 0
        for (hits, meets), entries in members:
            if not hits & s:
                mask |= meets
                for hit, meet in entries:
                    mask |= 0 if hit & s else meet
        return mask

    @staticmethod
    def join(choices):
        masks = {0}
        for choice in choices:
            masks = {a | b for a in masks for b in choice}
        return masks

    def breaks(self, c, place):
        """Bits of what cluster number c (from 0) at a place challenges."""
        own = sum(1 << k - 1 for k in self.clusters[c])
        return self.today & ~own & ~self.beside.get((c, place), 0)

    def places_of(self, c, cls):
        """The places of the versions of a class of a cluster."""
        top = sc.top_of([self.packages[k - 1].text for k in self.clusters[c]])
        side = lambda text: -1 if sc.same_version(text, top) else self.place_of[text]
        return [place for place in self.places[c] if {
            "point": lambda: place == side(cls[1]),
            "between": lambda: side(cls[1]) < place < side(cls[2]),
            "above": lambda: side(cls[1]) < place,
        }[cls[0]]()]


class LaterOneByOne(Later):
    """The same with each future and each installation of it one by one, which is slow."""

    def of_set(self, s, need, free, offers, fresh):
        states = [[(None, None, [])] + [(c, place, chosen) for place in offers[c] for chosen in self.chosen(offers[c][place])] for c in free]
        for choice in itertools.product(*states, *([None, *its] for its in fresh)):
            moved = [(c, place) for c, place, _ in choice[: len(free)] if place is not None]
            used = [offer for _, _, its in choice[: len(free)] for offer in its] + [offer for offer in choice[len(free):] if offer]
            if all(not hits & s for hits, _ in used) and not need & ~sum_of(meets for _, meets in used):
                self.ever |= s
                for pair in moved:
                    self.beside[pair] = self.beside.get(pair, 0) | s

    @staticmethod
    def chosen(members):
        """The lists of offers that new versions at one place may make: any of them, each with any of its entries."""
        each = [[[]] + [[name, *kept] for size in range(len(entries) + 1) for kept in itertools.combinations(entries, size)] for name, entries in members]
        for choice in itertools.product(*each):
            yield [offer for its in choice for offer in its]


def sum_of(masks):
    whole = 0
    for mask in masks:
        whole |= mask
    return whole


# ---- whether claims are true

class Truth:
    """What is true of an archive, by kind and mode."""

    def __init__(self, packages, arch):
        self.packages, self.arch, self.known = packages, arch, {}

    def of(self, kind, essential):
        key = (kind == "strong", essential)
        if key not in self.known:
            self.known[key] = Present(self.packages, self.arch, essential) if key[0] else Later(sc.newest(self.packages), self.arch, essential)
        return self.known[key]

    def untrue(self, subject, claims):
        """The first package (from 1) of which a claim is untrue, with what is, or None. claims: as tools/recheck has them."""
        truth = self.of(subject.kind, subject.essential)
        for p, (letter, first, second) in enumerate(claims, 1):
            said = letter != "y" and getattr(self, "in_" + subject.kind)(truth, subject, p, letter, first, second)
            if said:
                return p, said
        return None

    @staticmethod
    def in_strong(truth, subject, p, letter, first, second):
        common = truth.always_with(p - 1)
        if (letter == "x") != (common is None):
            return "it is installable" if letter == "x" else "it is not installable"
        if letter == "s":
            right = {k + 1 for k in bits(common)} - {p}
            if not set(first) <= right <= set(first) | set(second):
                return f"it strongly depends on {sorted(right)}"
        return None

    @staticmethod
    def in_outdated(truth, subject, p, letter, first, second):
        is_alive = bool(truth.ever >> p - 1 & 1)
        return None if is_alive == (letter == "a") else f"outdated: {not is_alive}"

    @staticmethod
    def in_challenged(truth, subject, p, letter, first, second):
        if (letter == "c") != bool(truth.today >> p - 1 & 1):
            return "it is installable" if letter == "x" else "it is not installable"
        for c, cluster in enumerate(subject.space.classes.clusters):
            for k, cls in enumerate(cluster.classes):
                pair, places = (c + 1, k + 1), truth.places_of(c, cls)
                assert places, "a class without a version"
                broken = {bool(truth.breaks(c, place) >> p - 1 & 1) for place in places}
                if letter == "c" and p not in cluster.members and pair not in second and broken != {pair in first}:
                    return f"challenged at cluster {c + 1} and class {k + 1}: {broken}"
        return None
