#!/usr/bin/env python3
"""Holds `follow` against the definition of an archive's steps: every order of three uploads, on small random archives of at most four packages.

Usage: follow-brute.py PROGRAM [ARCHIVES [SEED]]

The certificate is the program's own of `challenged`, at either mode, which brute.py holds against the enumeration. What the steps of a journal
make, which of them is refused first and why, and which packages are broken at the end, is said here by the definitions, with an archive that is a
dictionary of names, and challenges by small_archives.py. That each of them stays broken whatever packages of the cluster are taken away is tried on
all installations of what is left, and so it is, without a journal, that what some version of a cluster challenges needs the cluster.
"""
import collections
import itertools
import sys

import small_archives as small
from small_archives import sc


class Differs(Exception):
    pass


# ---- uploads

def entry_text(entry, version=None):
    """An entry of Provides, at another version where one is given."""
    name = entry[0] + (b":" + entry[1] if entry[1] else b"")
    text = version if version is not None else entry[2] and entry[2][1]
    return name + (b" (= " + text + b")" if text else b"")


def stanza(draw, member, version, faulty):
    """A package that comes of a member at a version, or one with a fault."""
    text = draw.choice([b"9", b"1"]) if faulty == "version" else version if draw.often(0.8) or b":" in version else b"0:" + version
    kept = [entry for entry in member.provides if draw.often(0.7)]
    moved = [entry_text(entry, version if sc.has_own_version(entry, member) and faulty != "entry" else None) for entry in kept]
    if faulty == "provides":
        moved.append(draw.choice([b"m", b"a", b"b (= 1)"]))
    name = draw.choice([b"a", b"b", b"zz"]) if faulty == "name" else member.name
    lines = [b"Package: " + name, b"Version: " + text]
    if moved:
        lines.append(b"Provides: " + b", ".join(moved))
    if faulty == "architecture":
        lines.append(b"Architecture: " + draw.choice([b"i386", b"amd64"]))
    if draw.often(0.2):
        lines.append(b"Depends: " + draw.choice([b"a", b"nobody", b"b (>= 2)"]))
    return b"\n".join(lines) + b"\n"


def upload(draw, packages, clusters):
    """The name and the version of a step line, and its block, which has no name twice."""
    members = [packages[k - 1] for k in draw.choice(clusters)]
    top = sc.top_of([p.text for p in members])
    version = draw.choice([b"2", b"3", b"4", top] + 2 * [sc.after(top, 1), sc.after(top, 9), b"1:0", b"1:1", b"2:0"])
    faulty = draw.choice(["name", "version", "provides", "entry", "architecture"]) if draw.often(0.12) else None
    stanzas = [stanza(draw, p, version, faulty if k == 0 else None) for k, p in enumerate(p for p in members if draw.often(0.8))]
    block = b"\n".join({text.split(b"\n")[0]: text for text in stanzas}.values())
    return draw.choice(members).name if draw.often(0.95) else b"nobody", version, block


# ---- the definition

def is_new_of(member, fresh):
    """Whether a package is a new version of a member: some of its entries, in order, those at its version at the new one."""
    def carried(entry, other):
        if (entry[0], entry[1]) != (other[0], other[1]):
            return False
        if sc.has_own_version(entry, member):
            return other[2] is not None and sc.compare_versions(other[2][2], fresh.key) == 0
        return (entry[2] and entry[2][1]) == (other[2] and other[2][1])

    places = iter(member.provides)
    return all(any(carried(entry, other) for entry in places) for other in fresh.provides)


class Archive:
    def __init__(self, packages, arch, clusters):
        self.packages, self.arch, self.clusters = packages, arch, clusters
        self.held = {p.name: p for p in packages}

    def cluster_named(self, name):
        return next((c for c, members in enumerate(self.clusters) if any(self.packages[k - 1].name == name for k in members)), None)

    def members(self, c):
        return [self.packages[k - 1] for k in self.clusters[c]]

    def step(self, name, version, block):
        """Makes an upload, or says why it is refused."""
        c = self.cluster_named(name)
        if c is None:
            return "UnknownName"
        block, arch = sc.read_packages(block)
        if arch is not None and arch != self.arch:
            return "OtherArchitecture"
        above = lambda text: sc.compare_versions(sc.read_version(version)[0], sc.read_version(text)[0]) > 0
        own = {p.name: p for p in self.members(c)}
        if not all(above(p.text) for p in own.values()) or not all(above(p.text) for key, p in self.held.items() if key in own):
            return "NotAbove"
        for p in block:
            if p.name not in own:
                return "NotMember"
            if not sc.same_version(p.text, version):
                return "NotAtVersion"
            if not is_new_of(own[p.name], p):
                return "WrongProvides"
        self.held = {key: p for key, p in self.held.items() if key not in own} | {p.name: p for p in block}
        return None

    def moved(self, c):
        """The version to which a cluster has moved as a whole, in the text of its first member, or None."""
        held = [self.held.get(p.name) for p in self.members(c)]
        if None in held or not all(sc.same_version(p.text, held[0].text) for p in held):
            return None
        top = sc.top_of([p.text for p in self.members(c)])
        return held[0].text if sc.compare_versions(held[0].key, sc.read_version(top)[0]) > 0 else None


def place_of(later, text):
    """The place of a version among those that atoms name."""
    below = sum(sc.BY_VERSION(named) < sc.BY_VERSION(text) for named in later.named)
    return 2 * below + any(sc.same_version(named, text) for named in later.named)


def cluster_label(archive, c):
    """A cluster by the first of its packages."""
    return small.label(archive.members(c)[0])


def broken_by(archive, later):
    """Each cluster that has moved as a whole, its version, and a package that it breaks."""
    for c in range(len(later.clusters)):
        text = archive.moved(c)
        broken = later.breaks(c, place_of(later, text)) if text is not None else 0
        yield from ((c, text, p) for k, p in enumerate(archive.packages) if broken >> k & 1 and archive.held.get(p.name) is p)


def what_is_left(archive, c):
    """The packages of an archive, without some of a cluster: all of them, and at last none."""
    names = [p.name for p in archive.members(c)]
    for gone in itertools.product([False, True], repeat=len(names)):
        yield [p for p in archive.held.values() if not dict(zip(names, gone)).get(p.name)]


def is_installable(packages, arch, required, p):
    """Whether a healthy installation that has the required names has a package itself."""
    having = small.Present(packages, arch, False).having(next(k for k, q in enumerate(packages) if q is p))
    return any(required <= {packages[k].name for k in small.bits(members)} for members in having)


def challenged_by(archive, later):
    """Each cluster, and a package that some version of it challenges."""
    for c, places in enumerate(later.places):
        broken = [later.breaks(c, place) for place in places]
        yield from ((c, p) for k, p in enumerate(archive.packages) if any(mask >> k & 1 for mask in broken))


def expected(archive, later, kind, uploads):
    line = 1
    for name, version, block in uploads:
        fault = archive.step(name, version, block)
        if fault:
            return 11, "", f"distfuture: bad journal at line {line}: {fault}\n"
        line += 1 + block.count(b"\n")
    lines = [f"steps {len(uploads)}", f"packages {len(archive.held)}"]
    lines += [f"broken {small.label(p)} by {cluster_label(archive, c)} at {text.decode()}"
              for c, text, p in (broken_by(archive, later) if kind == "challenged" else ())]
    return 0, "".join(line + "\n" for line in lines), ""


# ---- all

def journal_of(uploads):
    return b"".join(b"= upload " + name + b" " + version + b"\n" + block for name, version, block in uploads)


def one(runner, draw, tried):
    while True:
        data, packages, arch = small.readable_archive(draw, 4)
        newest = sc.newest(packages)
        if newest:
            break
    truth = small.Truth(packages, arch)
    kind, essential = draw.choice(["challenged", "challenged", "challenged", "outdated", "strong"]), draw.often(0.3)
    later = truth.of("challenged", essential)
    runner.put("packages", data)
    words = [kind, "/packages", "/cert"] + ["--essential"] * essential
    answer = runner.run(*words, writes="cert")
    if answer[0] != 0:
        raise Differs(f"{words}: {answer}")
    required = {p.name for p in newest if p.essential and essential}
    today = Archive(newest, arch, later.clusters)
    for c, p in challenged_by(today, later):
        *_, left = what_is_left(today, c)
        if is_installable(left, arch, required, p):
            raise Differs(f"{data.decode('latin-1')}\n{small.label(p)} does not need {cluster_label(today, c)}")
        tried["clusters that are needed"] += 1
    three = [upload(draw, newest, later.clusters) for _ in range(3)]
    orders = [order for count in (1, 2, 3) for order in itertools.permutations(three, count)]
    for order in orders:
        journal = journal_of(order)
        runner.put("journal", journal)
        got = runner.run("follow", "/packages", "/cert", "/journal")
        archive = Archive(newest, arch, later.clusters)
        wanted = expected(archive, later, kind, order)
        if got != wanted:
            raise Differs(f"{words}\n{data.decode('latin-1')}\n---- journal\n{journal.decode('latin-1')}\ngot {got}\nwanted {wanted}")
        tried["journals"] += 1
        tried["followed" if wanted[0] == 0 else wanted[2].split()[-1]] += 1
        tried["with a broken package"] += "broken" in wanted[1]
        for c, _, p in broken_by(archive, later) if "broken" in wanted[1] else ():
            for left in what_is_left(archive, c):
                if is_installable(left, arch, required, p):
                    told = f"{small.label(p)} is mended: {list(map(small.label, left))}"
                    raise Differs(f"{data.decode('latin-1')}\n---- journal\n{journal.decode('latin-1')}\n{told}")
                tried["archives of what is left"] += 1


def main():
    program, archives, seed = sys.argv[1], int((sys.argv + ["", "300"])[2] or 300), int((sys.argv + ["", "", "1"])[3] or 1)
    runner, tried = small.Runner(program), collections.Counter()
    try:
        for number in range(archives):
            one(runner, small.Draw(f"{seed} {number}"), tried)
    except Differs as differs:
        print(differs)
        sys.exit(1)
    finally:
        runner.close()
    print(", ".join(f"{name} {count}" for name, count in tried.items()))


if __name__ == "__main__":
    main()
