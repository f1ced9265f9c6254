#!/usr/bin/env python3
"""Compares `PROGRAM check` with tools/recheck on small random archives: on certificates of all kinds and both modes that the program writes,
on others that are written here, and on edits of both in bytes, words and lines. What both accept is held against the definitions, by
enumeration: each claim is true. What they refuse, they refuse at one line for one cause.

Usage: compare-checkers.py PROGRAM [CERTIFICATES [SEED [SECONDS]]]    it ends after so many certificates or seconds
It prints how many agreed, by kind and answer; at the first that does not it prints the files, as short as they can be made, and ends with 1.
LineTooLong and passed limits don't come: a line or a text of their size is too long to be tried so often.
"""
import collections
import sys
import time

import small_archives as small
from small_archives import sc

# ---- a writer of its own: other questions, other derived lines than the program's ----

class GivesUp(Exception):
    pass


def cone(assumptions, inputs):
    inside, size = {abs(l) for l in assumptions}, -1
    while size != len(inside):
        size = len(inside)
        for clause in inputs:
            if all(-l in inside for l in clause if l < 0):
                inside |= {abs(l) for l in clause}
    return inside


def is_new(clause, assumptions, clauses, inside):
    if not clause or len({abs(l) for l in clause}) != len(clause) or not {abs(l) for l in clause} <= inside:
        return False
    _, is_refuted, true = propagate([*assumptions, *(-l for l in clause[1:])], clauses)
    return not is_refuted and not any(-l in true for l in true) and clause[0] not in true and -clause[0] not in true


def is_covered(space, c, k, installations):
    """Whether one of some sets says nothing against a class of a cluster: it uses nothing of the cluster, or has it at that class."""
    return any(space.at[c][k] in members or c not in space.used_clusters(frozenset(members)) for members in installations)


def propagate(start, clauses):
    """Hints of unit steps from some literals, whether the last one is false, and what is true."""
    true, hints = set(start), []
    grown = True
    while grown:
        grown = False
        for number, clause in enumerate(clauses, 1):
            left = [l for l in clause if -l not in true]
            if not left:
                return hints + [number], True, true
            if len(left) == 1 and left[0] not in true:
                true.add(left[0])
                hints.append(number)
                grown = True
    return hints, False, true


class Writer:
    """A certificate in the making, and what it needs to know."""

    def __init__(self, draw, subject):
        self.draw, self.subject = draw, subject
        self.clauses = list(subject.clauses)
        self.limit = draw.choice([1, 1, 1, 2, 3, 10000])
        self.lines = ["distfuture-certificate 1 %s %s %d %d %d %d" % (
            subject.kind, "essential" if subject.essential else "plain", self.limit, *subject.numbers)]
        self.found, self.group, self.steps = [], [], 0

    def search(self, literals):
        """A model as a set of true variables, or None and the hints of a refutation; derived lines are added."""
        while True:
            self.steps += 1
            if self.steps > 400:
                raise GivesUp
            hints, is_refuted, true = propagate(literals, self.clauses)
            if is_refuted:
                return None, hints
            unmet = [clause for clause in self.subject.clauses if not any(l in true for l in clause)]
            if not unmet:
                return {l for l in true if l > 0}, None
            free = [l for l in self.draw.choice(unmet) if -l not in true]
            decided = self.draw.choice(free) * (-1 if self.draw.often(0.2) else 1)
            model, inner = self.search(literals + [decided])
            if model is not None:
                return model, None
            self.derive([-decided] + [-l for l in literals], inner)

    def derive(self, clause, hints):
        self.lines.append("d %s 0 %s" % (" ".join(map(str, clause)), " ".join(map(str, hints))))
        self.clauses.append(clause)

    def leave_open(self, literals):
        """Lines that leave a question undecided, where that many new ones are found."""
        draw, before, at = self.draw, len(self.clauses), len(self.lines)
        inside = sorted(cone(literals, self.subject.clauses))
        for _ in range(60 * self.limit):
            if len(self.clauses) - before >= self.limit and draw.often(0.7):
                break
            pool = [v for v in inside if v not in [abs(l) for l in literals]] or inside
            clause = [draw.choice(pool) * draw.choice([1, -1])]
            clause += [-l for l in literals if draw.often(0.8) and abs(l) != abs(clause[0])]
            if draw.often(0.4):
                v = draw.choice(inside)
                if v not in [abs(l) for l in clause]:
                    clause.append(v * draw.choice([1, -1]))
            hints, is_refuted, _ = propagate([-l for l in clause], self.clauses)
            if is_refuted and is_new(clause, literals, self.clauses, set(inside)):
                self.derive(clause, hints)
        if len(self.clauses) - before < self.limit:
            del self.clauses[before:], self.lines[at:]
            return False
        self.lines.append("u")
        return True

    def ask(self, *literals):
        """f, u or m; lines are added."""
        self.lines.append("q " + " ".join(map(str, literals)))
        if self.limit < 10000 and self.draw.often(0.5) and self.leave_open(list(literals)):
            return "u"
        at, count = len(self.lines), len(self.clauses)
        model, hints = self.search(list(literals))
        if model is None:
            self.lines.append("f " + " ".join(map(str, hints)))
            return "f"
        if self.draw.often(0.5):
            del self.lines[at:], self.clauses[count:]
        self.install(model)
        return "m"

    def install(self, model):
        self.lines.append(" ".join(["m"] + [str(v) for v in sorted(model)]))
        self.found.append(model)
        self.group.append(len(self.found))

    def having(self, variable):
        return [number for number, members in enumerate(self.found, 1) if variable in members]

    def open_claim(self, p, named, letter):
        """Whether package p is installable as its question asks: True, or the claim's letter is written."""
        if named and self.draw.often(0.6):
            return True
        answer = self.ask(*self.subject.question(p))
        if answer == "m" or (answer == "u" and named and self.draw.often(0.5)):
            return True
        self.lines.append("%s %d" % (letter if answer == "f" else "y", p))
        return False

    def of_outdated(self, p):
        if self.open_claim(p, self.having(p + 1), "o"):
            self.lines.append("a %d %d" % (p, self.draw.choice(self.having(p + 1))))

    def its(self, named, variable):
        return [self.found[n - 1] for n in set(named) | {n for n in self.group if variable in self.found[n - 1]}]

    def named_again(self, named, variable):
        """Installations to be named: those of other groups that were counted on, and perhaps some of this one."""
        keep = [n for n in named if n not in self.group or self.draw.often(0.3)]
        return keep or self.having(variable)[-1:]

    def of_strong(self, p):
        if not self.open_claim(p, self.having(p), "x"):
            return
        named = self.having(p)
        if len(named) > 2 and self.draw.often(0.5):
            named = self.draw.sample(named, 2)
        first, second = [], []
        for q in range(1, self.subject.packages + 1):
            common = set.intersection(*self.its(named, p))
            if q != p and (q in common or self.draw.often(0.05)):
                {"f": first, "u": second, "m": []}[self.ask(p, -q)].append(q)
        common = set.intersection(*self.its(named, p))
        self.claim("s", p, self.named_again(named, p), first, [q for q in second if q in common])

    def of_challenged(self, p):
        space, v = self.subject.space, p + 1
        today = [n for n in self.having(v) if 1 in self.found[n - 1]]
        if not self.open_claim(p, today, "x"):
            return
        named = self.having(v) if self.draw.often(0.7) else [n for n in self.having(v) if 1 in self.found[n - 1]]
        first, second = [], []
        for c, cluster in enumerate(space.classes.clusters):
            for k, at in enumerate(space.at[c]):
                if p not in cluster.members and (not is_covered(space, c, k, self.its(named, v)) or self.draw.often(0.05)):
                    {"f": first, "u": second, "m": []}[self.ask(v, at)].append((c + 1, k + 1))
        second = [(c, k) for c, k in second if not is_covered(space, c - 1, k - 1, self.its(named, v))]
        again = self.named_again(named, v)
        if not any(1 in members for members in self.its(again, v)):
            again += [n for n in self.having(v) if 1 in self.found[n - 1]][:1]
        self.claim("c", p, again, [n for pair in first for n in pair], [n for pair in second for n in pair])

    def claim(self, letter, p, *lists):
        self.lines.append(" 0 ".join(" ".join(map(str, its)) for its in lists))
        self.lines[-1] = " ".join(f"{letter} {p} {self.lines[-1]}".split())

    def whole(self):
        for p in range(1, self.subject.packages + 1):
            self.group = []
            if self.found and self.draw.often(0.05):
                self.install(self.draw.choice(self.found))
            if self.draw.often(0.05):
                self.lines.append("q %d" % self.subject.variable(p))
            getattr(self, "of_" + self.subject.kind)(p)
        return ("\n".join(self.lines + ["e"]) + "\n").encode()


# ---- edits ----

LINES = [b"u", b"f", b"e", b"", b" ", b"q", b"q 1", b"q 1 -2", b"q -2 1", b"q 2 -1", b"m", b"m 1", b"m 1 2", b"m 2 1", b"d 0", b"d 1 0 1", b"d 0 1", b"d",
         b"d -1 0 1", b"d 1 -1 0 1", b"x 1", b"y 1", b"o 1", b"a 1 1", b"a 1", b"c 1 1 0 0", b"c 1 1 0 1 1 0 1 2", b"c 1 1 0 1 0",
         b"s 1 1 0 0", b"s 1 0 0", b"s 1 1 0", b"s 1 1 1 0 0", b"z 1", b"E", b"q 0", b"q -0", b"q +1", b"q 1.", b"x 01", b"f 0", b"f -1",
         b"m -1", b"m 0", b"x", b"x 1 1", b"u 1", b"e 0", b"q 4294967295", b"q 4294967296", b"q -4294967296", b"f 4294967295", b"f 4294967296",
         b"f 99999999999999999999", b"e\r", b"#", b"q\t1", b"\xff", b"q 1 ", b" q 1", b"q  1", b"distfuture-certificate 1 strong plain 1 1 1 1",
         b"a 1 2", b"o 2", b"q 1 2", b"q 1 3", b"q 2", b"q 2 4", b"c 2 1 0 0", b"c 1 1 0 2 1 0 2 1",
         b"c 1 1 1 0 0", b"c 1 0 0", b"a 1 0", b"a 0 1"]


def change_word(draw, line):
    words = line.split(b" ")
    places = [i for i, w in enumerate(words) if w.lstrip(b"-").isdigit()]
    if not places:
        return line
    i = draw.choice(places)
    value, sign = int(words[i].lstrip(b"-")), b"-" if words[i][:1] == b"-" else b""
    kind = draw.randint(0, 8)
    if kind <= 2:
        words[i] = sign + b"%d" % (value + 1)
    elif kind == 3:
        words[i] = sign + b"%d" % max(0, value - 1)
    elif kind == 4:
        words[i] = draw.choice([b"0", b"4294967295", b"4294967296", b"18446744073709551617", b"99", b"1000000", b"1000001"])
    elif kind == 5:
        words[i] = b"-" + words[i] if not sign else words[i][1:]
    elif kind == 6:
        words[i] = sign + b"0" + words[i].lstrip(b"-")
    elif kind == 7:
        del words[i]
    else:
        words.insert(i, draw.choice([words[i], b"1", b"2", b"3", b"0", b"-1", b"5"]))
    return b" ".join(words)


def edit_bytes(draw, text):
    for _ in range(draw.count(0, 4, 2, 1)):
        at, some = draw.randrange(len(text) + 1), bytes([draw.choice(b" \n0123456789-qdfmuxysoace\r\t\x00\xff:+")])
        text = draw.choice([text[:at] + some + text[at + 1:], text[:at] + some + text[at:], text[:at] + text[at + 1:]])
    return text


def edit(draw, cert):
    lines = cert.split(b"\n")
    if lines and lines[-1] == b"":
        lines.pop()
    if not lines:
        return draw.choice([b"", b"\n", b"e\n", b"e"])
    at = draw.randrange(len(lines))
    kind = draw.randint(0, 25)
    if kind == 0:
        del lines[at]
    elif kind == 1:
        lines.insert(at, lines[at])
    elif kind == 2:
        other = draw.randrange(len(lines))
        lines[at], lines[other] = lines[other], lines[at]
    elif kind in (3, 4, 5, 6):
        lines[at] = change_word(draw, lines[at])
    elif kind == 7:
        hints = [i for i, l in enumerate(lines) if l[:1] in b"fd" and l]
        if hints:
            i = draw.choice(hints)
            lines[i] = draw.choice([lines[i].rsplit(b" ", 1)[0], lines[i] + b" %d" % draw.randint(1, 9), b" ".join([lines[i], lines[i].split(b" ")[-1]])])
    elif kind == 8:
        return b"\n".join(lines)
    elif kind == 9:
        return b"\n".join(lines) + b"\n" + draw.choice([b"e\n", b"\n", b"x", b"e", b" ", b"\x00", b"q 1\n"])
    elif kind == 10:
        words = lines[at].split(b" ")
        i = draw.randrange(len(words))
        words[i] = words[i] + b" "
        lines[at] = b" ".join(words)
    elif kind == 11 and draw.often(0.4):
        words = lines[0].split(b" ")
        i = draw.randrange(len(words))
        words[i] = draw.choice([b"plain", b"essential", b"strong", b"outdated", b"challenged", b"1", b"2", b"0", b"10000", b"1000000", b"1000001", b"01",
                               b"distfuture-certificate", b"Strong", b"", b"4294967296", b"-1"])
        lines[0] = b" ".join(words)
    elif kind == 12:
        text = b"\n".join(lines) + b"\n"
        return text[:draw.randrange(len(text))]
    elif kind == 13:
        lines.insert(at, draw.choice(LINES))
    elif kind == 14:
        lines[at] = draw.choice(LINES)
    elif kind == 15:
        words = lines[at].split(b" ")
        if len(words) > 2:
            i, j = draw.randrange(1, len(words)), draw.randrange(1, len(words))
            words[i], words[j] = words[j], words[i]
        lines[at] = b" ".join(words)
    elif kind == 16:
        lines[at] = draw.choice([b"q", b"d", b"f", b"m", b"u", b"x", b"y", b"s", b"o", b"a", b"c", b"e"]) + lines[at][1:]
    elif kind == 17:
        fs = [i for i, l in enumerate(lines) if l[:1] in b"fu" and l]
        if fs:
            i = draw.choice(fs)
            lines[i] = b"u" if lines[i][:1] == b"f" else b"f " + b" ".join(b"%d" % draw.randint(1, 6) for _ in range(draw.randint(0, 3)))
    elif kind == 18:
        header = lines[0].split(b" ")
        if len(header) == 8:
            header[4] = draw.choice([b"1", b"2", b"3", b"10000"])
            lines[0] = b" ".join(header)
    elif kind == 19:
        first, rest = lines[0] + b"\n", b"".join(line + b"\n" for line in lines[1:])
        return first + edit_bytes(draw, rest) if rest and draw.often(0.8) else edit_bytes(draw, first + rest)
    elif kind == 20:
        # A group, or the lines of one claim, goes elsewhere or away.
        claims = [0] + [i for i, l in enumerate(lines) if l[:1] in b"xysoac" and l]
        i = draw.randrange(len(claims))
        its = lines[claims[i] + 1:(claims + [len(lines) - 1])[i + 1] + 1]
        del lines[claims[i] + 1:claims[i] + 1 + len(its)]
        if draw.often(0.7):
            lines[1:1] = its if draw.often(0.5) else its[:-1]
    elif kind == 21:
        # Two numbers of a list come or go, as pairs do.
        words = lines[at].split(b" ")
        i = draw.randrange(1, len(words) + 1)
        if draw.often(0.5):
            del words[i:i + 2]
        else:
            words[i:i] = [b"%d" % draw.randint(1, 4), b"%d" % draw.randint(1, 4)]
        lines[at] = b" ".join(words)
    elif kind == 22:
        # Hints: one at random comes, goes, or two change places.
        hints = [i for i, l in enumerate(lines) if l[:1] in b"fd" and l]
        if hints:
            i = draw.choice(hints)
            words = lines[i].split(b" ")
            j = draw.randrange(1, len(words) + 1)
            words[j:j + draw.randint(0, 1)] = [draw.choice(words)] if draw.often(0.5) else []
            lines[i] = b" ".join(words)
    elif kind == 24:
        # A refutation becomes a derived line, which is not new, and the question is left undecided behind it.
        closed = [i for i, l in enumerate(lines) if l[:1] == b"f" and lines[i - 1][:1] == b"q"]
        if closed:
            i = draw.choice(closed)
            literals = [word[1:] if word[:1] == b"-" else b"-" + word for word in lines[i - 1].split(b" ")[1:]]
            lines[i:i + 1] = [b" ".join([b"d", *literals, b"0", *lines[i].split(b" ")[1:]]), b"u"]
            lines[0] = b" ".join(lines[0].split(b" ")[:4] + [b"1"] + lines[0].split(b" ")[5:])
    elif kind == 23 and draw.often(0.05):
        its = [l for l in lines if l[:1] == b"m"]
        lines[at:at] = [draw.choice(its)] * draw.randint(1022, 1026) if its else []
    else:
        n = draw.randint(1, 7)
        size = draw.randint(0, n)
        lines.insert(at, b" ".join([b"m"] + [b"%d" % v for v in sorted(draw.sample(range(1, n + 1), size))]))
    return b"\n".join(lines) + b"\n"


# ---- comparison ----

def short(answer):
    """What kind of answer it is, for counting."""
    status, _, err = answer
    return f"status {status} " + err.strip().split(": ")[-1]


class Trial:
    """One archive, and what is asked of it."""

    def __init__(self, runner, data, packages, arch):
        self.runner, self.data, self.packages, self.arch = runner, data, packages, arch
        self.truth, self.subjects = small.Truth(packages, arch), {}

    def difference(self, cert, truths=True):
        """(what differs or None, the answer)."""
        self.runner.put("packages", self.data)
        self.runner.put("cert", cert)
        *mine, accepted = sc.check_read(self.packages, self.arch, cert, self.subjects)
        answer = self.runner.run("check", "/packages", "/cert")
        if tuple(mine) != answer:
            return ("they differ", short(mine), short(answer)), answer
        untrue = accepted and truths and self.truth.untrue(accepted[0], accepted[2])
        return (("accepted and untrue",) + untrue if untrue else None), answer


def shorter(runner, trial, cert, key):
    """The files with stanzas and lines left out, while they differ in the same way."""
    def differs(data, text):
        try:
            other = Trial(runner, data, *sc.read_packages(data))
        except sc.End:
            return False
        found = other.difference(text)[0]
        return found is not None and found[0] == key[0] and (key[0] != "they differ" or found == key)

    data, is_shorter = trial.data, True
    while is_shorter:
        is_shorter = False
        for which in (0, 1):
            at = 0
            while True:
                lines = (data, cert)[which].split(b"\n")
                if at >= len(lines):
                    break
                text = b"\n".join(lines[:at] + lines[at + 1:])
                if differs(*((text, cert) if which == 0 else (data, text))):
                    data, cert, is_shorter = (text, cert, True) if which == 0 else (data, text, True)
                else:
                    at += 1
    return data, cert


def certificates(draw, trial):
    """Certificates of all kinds and both modes: the program's, and others."""
    trial.runner.put("packages", trial.data)
    for kind in ("strong", "outdated", "challenged"):
        for essential in (False, True):
            limit = draw.choice([[], [], ["--limit", "1"], ["--limit", "2"]])
            status, _, err = trial.runner.run(kind, "/packages", "/cert", *limit, *["--essential"] * essential, writes="cert")
            if status not in (0, 1):
                raise AssertionError(f"{kind} ended with {status} {err}")
            yield trial.runner.get("cert")
            key = (kind, "essential" if essential else "plain")
            if key not in trial.subjects:
                trial.subjects[key] = sc.Subject(trial.packages, trial.arch, kind, essential)
            if trial.subjects[key].variables < 90:
                try:
                    yield Writer(draw, trial.subjects[key]).whole()
                except GivesUp:
                    pass


def main(program, certificates_wanted="20000", seed="1", seconds="1e9"):
    draw, end = small.Draw(int(seed)), time.monotonic() + float(seconds)
    runner, seen, archives, count, accepted, found = small.Runner(program), collections.Counter(), 0, 0, 0, None
    while count < int(certificates_wanted) and time.monotonic() < end and not found:
        trial = Trial(runner, *small.readable_archive(draw, 6))
        archives += 1
        whole = list(certificates(draw, trial))
        # Of the first archive each front of each certificate, and of all others edits.
        edited = [text[:length] for text in whole for length in range(len(text))] if archives == 1 else []
        for _ in range(60):
            text = draw.choice(whole)
            for _ in range(draw.choice([1, 1, 1, 2, 3])):
                text = edit(draw, text)
            edited.append(text)
        for is_whole, texts in ((True, whole), (False, edited)):
            for text in texts:
                found, answer = trial.difference(text)
                if found:
                    break
                if is_whole and answer[0] > 1:
                    found = ("refused", short(answer))
                    break
                count += 1
                accepted += answer[0] < 2
                words = text.split(b"\n")[0].split(b" ")
                kind = words[2].decode() if len(words) == 8 and words[2] in (b"strong", b"outdated", b"challenged") else "no kind"
                seen[f"{kind} {'whole' if is_whole else 'edited'}: {short(answer)}"] += 1
            if found:
                break
    print(f"seed {seed}: {archives} archives, {count} certificates, {accepted} of them accepted and all claims of these true, "
          f"{runner.runs} runs of the program")
    for told, number in sorted(seen.items()):
        print(f"  {told}: {number}")
    if found:
        data, text = (trial.data, text) if found[0] == "refused" else shorter(runner, trial, text, found)
        print(f"DIFFERENCE {found}\n---- PACKAGES\n{data.decode('latin-1')}\n---- CERT\n{text.decode('latin-1')}")
    runner.close()
    return 1 if found else 0


sys.exit(main(*sys.argv[1:]))
