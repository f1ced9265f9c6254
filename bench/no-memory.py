#!/usr/bin/env python3
"""Runs each command with each of its requests for memory refused in turn, and once more with all requests from that one on refused.

Usage: no-memory.py PROGRAM [WORD..]    the rows whose name has a WORD. Needs cc and a C library of GNU, whose malloc and realloc it stands before.

A run with a refused request ends with status 7 and its line on standard error, or as it would without: with the same status, output and error.
At status 7 standard output and CERT are fronts of what they would be, or CERT is as it was before. It prints for each row how many requests
were refused, and ends with 1 at the first run that is otherwise.
"""
import os
import subprocess
import sys

import small_archives as small

# Refuses request number REFUSED, or all from it on where LASTS is set, and tells at the end how many there were.
SHIM = r"""
#include <errno.h>
#include <fcntl.h>
#include <stdlib.h>
#include <unistd.h>
extern void *__libc_malloc(size_t), *__libc_realloc(void *, size_t);
static long count, refused = -1, lasts;
static void begin(void) __attribute__((constructor));
static void begin(void) {
    const char *at = getenv("REFUSED");
    if (at) refused = atol(at);
    lasts = getenv("LASTS") != 0;
    count = 0;
}
static int refuses(void) {
    count++;
    if (refused > 0 && (count == refused || (lasts && count > refused))) { errno = ENOMEM; return 1; }
    return 0;
}
void *malloc(size_t size) { return refuses() ? 0 : __libc_malloc(size); }
void *realloc(void *old, size_t size) { return refuses() ? 0 : __libc_realloc(old, size); }
static void end(void) __attribute__((destructor));
static void end(void) {
    const char *name = getenv("COUNT_TO");
    if (!name) return;
    int file = open(name, O_WRONLY | O_CREAT | O_TRUNC, 0600);
    if (write(file, &count, sizeof count) < 0) _exit(99);
    close(file);
}
"""


def stanza(name, version="1", *more):
    return "\n".join([f"Package: {name}", f"Version: {version}", "Architecture: all", *more]) + "\n"


def groups(letters, numbers):
    """Groups of packages that exclude each other, and one that needs one of each number."""
    its = [stanza(f"{g}{n}", "1", f"Provides: {g}", f"Conflicts: {g}") for g in letters for n in range(numbers)]
    return "\n".join(its + [stanza("p", "1", "Depends: " + ", ".join(" | ".join(f"{g}{n}" for g in letters) for n in range(numbers)))])


FILES = {
    "no package": "",
    "two that exclude each other": stanza("a", "1", "Depends: b") + "\n" + stanza("b", "1", "Conflicts: a"),
    "a library that may go too far": stanza("libx") + "\n" + stanza("p", "1", "Depends: libx (<< 2)"),
    "two of which one needs the other": stanza("a", "1", "Depends: b") + "\n" + stanza("b"),
    "an essential one": "\n".join([
        stanza("base", "1", "Essential: yes"), stanza("p", "1", "Conflicts: base (>= 2)"), stanza("a", "1", "Depends: nowhere | p")]),
    "sources, entries and new names": "\n".join([
        stanza("liba", "1:1.0-1+b1", "Source: src (1:1.0-1)", "Provides: abi (= 1:1.0-1+b1), v, other:any (= 3)"),
        stanza("libb", "1:1.0-1", "Source: src", "Depends: liba (>= 1:1.0), foo (<< 2) | bar", "Pre-Depends: abi (<= 2:0)", "Breaks: v (>= 2)"),
        stanza("c-with-a-long-name-that-does-not-fit", "1~rc1", "Depends: libb, v | zz (= 1)", "Conflicts: liba (>> 1:2)"),
        stanza("c-with-a-long-name-that-does-not-fit", "2", "Depends: liba:any")]),
    "three groups of four": groups("abc", 4),
}
LISTS = {"a list": b"a 1\nb 1\n", "a list of one": b"\t a  1 \n", "a bad list": b"a 1\nx 1\n"}
TEN_LINES = b"distfuture-certificate 1 strong plain 10000 2 2 1\nq 1\nm 1 2\nq 1 -2\nf 1\ns 1 1 0 2 0\nq 2\nm 2\ns 2 2 0 0\ne\n"
KINDS = ("strong", "outdated", "challenged")
CHECKS = {**dict.fromkeys(KINDS, "check"), "explain": "check-explain", "repair": "check-repair"}
LATER = {"a moved library and a new name": stanza("libx", "2") + "\n" + stanza("foo"), "no future": stanza("libx", "1", "Depends: p")}
JOURNALS = {
    "an upload, a removal and a new name":
        b"= upload libx 2\nPackage: libx\nVersion: 2\n\n= new\nPackage: foo\nVersion: 1\nDepends: libx, a | b\n\n= removal foo\n",
    "a step that is refused": b"= upload libx 2\nPackage: libx\nVersion: 2\n\n= upload libx 2\n",
    "nothing": b"",
}


def last_named(text):
    """The last package of a file."""
    value = lambda field: text[text.rindex(field) :].split("\n")[0][len(field) :]
    return f"{value('Package: ')}={value('Version: ')}" if text else "a=1"


def rows():
    """(name, words, files). CERT is what lies there before."""
    for told, text in FILES.items():
        packages = text.encode()
        for kind in KINDS:
            for mode in ([], ["--essential"]):
                limit = ["--limit", "1"] if told.startswith("three") else []
                for old in (None, b"a text that lay there before\n" * 200):
                    if old is None or told.startswith("a library"):
                        name = f"{' '.join([kind, *mode])} of {told}" + (", over another file" if old else "")
                        yield name, [kind, "/packages", "/cert", *mode, *limit], {"packages": packages, "cert": old}
        yield f"classes of {told}", ["classes", "/packages"], {"packages": packages}
        for kind in ("explain", "repair"):
            yield f"{kind} of {told}", [kind, "/packages", "/cert", "--package", last_named(text)], {"packages": packages}
        for name, text in LISTS.items():
            yield f"health of {name} in {told}", ["health", "/packages", "/list"], {"packages": packages, "list": text}
    two = FILES["two of which one needs the other"].encode()
    for told, text in (("ten lines", TEN_LINES), ("ten lines with a bad one", TEN_LINES.replace(b"f 1\n", b"f\n")),
                       ("nine lines", TEN_LINES[:-2]), ("a word", b"word"), ("nothing", b"")):
        yield f"check of {told}", ["check", "/packages", "/cert"], {"packages": two, "cert": text}
    library = FILES["a library that may go too far"].encode()
    for told, text in LATER.items():
        yield f"steps to {told}", ["steps", "/packages", "/list"], {"packages": library, "list": text.encode()}
    for told, text in (("a fault", b"Package: a\nVersion: 1\nDescription\n"), ("a faulty relation", b"Package: a\nVersion: 1\nDepends: b (= 1_)\n"),
                       ("a clash", two + b"\nPackage: a\nVersion: 1-0\n")):
        yield f"classes of {told}", ["classes", "/packages"], {"packages": text}
    yield "no words", [], {}
    yield "unknown words", ["strong", "/packages", "--limit", "0"], {"packages": two}
    yield "no such file", ["strong", "/nowhere", "/cert"], {}
    yield "a certificate in no folder", ["strong", "/packages", "/no/cert"], {"packages": two}
    for size, seed in ((1, 0), (2, 0), (4, 3), (6, 1)):
        yield f"try of {size} from {seed}", ["try", "--size", str(size), "--seed", str(seed)], {}


class Runs(small.Runner):
    def __init__(self, program):
        super().__init__(program)
        with open(self.path("shim.c"), "w") as file:
            file.write(SHIM)
        subprocess.run(["cc", "-O2", "-shared", "-fPIC", "-o", self.path("shim.so"), self.path("shim.c")], check=True)

    def with_refused(self, words, files, number, lasts=False):
        """(status, standard output, standard error, CERT) and the number of requests. Number 0 refuses none."""
        for name in ("packages", "list", "cert"):
            if files.get(name) is None:
                self.held.pop(name, None)
                if os.path.exists(self.path(name)):
                    os.remove(self.path(name))
            else:
                self.put(name, files[name])
        self.environment = {"LD_PRELOAD": self.path("shim.so"), "COUNT_TO": self.path("count"), "REFUSED": str(number), **({"LASTS": "1"} if lasts else {})}
        answer = self.run(*words, writes="cert")
        cert = self.get("cert") if os.path.exists(self.path("cert")) else None
        return (*answer, cert), int.from_bytes(self.get("count"), "little")


def fault(got, whole, before):
    """What is wrong with a run, or None."""
    if got == whole:
        return None
    status, out, err, cert = got
    if status != 7:
        return "neither status 7 nor as without"
    if err != "distfuture: no memory\n":
        return "its line on standard error"
    if not whole[1].startswith(out):
        return "its output is no front"
    if cert != before and not (cert is not None and whole[3] is not None and whole[3].startswith(cert)):
        return "CERT is no front, and not as before"
    return None


def main(program, *chosen):
    runs, refused, changed, status = Runs(program), 0, 0, 0
    certs = {}
    todo = [row for row in rows() if not chosen or any(word in row[0] for word in chosen)]
    while todo and not status:
        told, words, files = todo.pop(0)
        whole, count = runs.with_refused(words, files, 0)
        if words[:1] and words[0] in CHECKS and whole[0] < 2 and whole[3] not in certs.values():
            certs[told] = whole[3]
            todo.append((f"check of what {told} wrote", [CHECKS[words[0]], *words[1:3]], {**files, "cert": whole[3]}))
            if words[0] == "challenged" and "library" in told:
                for journal, text in JOURNALS.items():
                    todo.append((f"follow of {journal} by what {told} wrote", ["follow", *words[1:3], "/list"], {**files, "cert": whole[3], "list": text}))
        passed = 0
        for lasts in (False, True):
            for number in range(1, count + 1):
                got, _ = runs.with_refused(words, files, number, lasts)
                wrong = fault(got, whole, files.get("cert"))
                passed += got == whole
                refused += 1
                if wrong:
                    print(f"{told}: {'from request' if lasts else 'request'} {number} of {count} on refused: {wrong}\ngot {got}\nwanted {whole}\nfiles {files}")
                    status = 1
                    break
            if status:
                break
        changed += passed
        print(f"{told}: status {whole[0]}, {count} requests, each refused alone and with all after it; {passed} runs ended as without", flush=True)
    print(f"{refused} requests refused, {changed} of these runs ended as without, {'a FAULT' if status else 'no fault'}")
    runs.close()
    return status


sys.exit(main(*sys.argv[1:]))
