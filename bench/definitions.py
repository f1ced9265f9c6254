#!/usr/bin/env python3
"""Lists the definitions that a reader must believe: those that the clauses of public functions reach, through the definitions
of specs/ that they name. Words of the kit's own library, and the types of src/ themselves, are not listed.
Usage: definitions.py [--twice | --page | --check] [FILE NAME]..    crates/dist_app/src/top_call.rt run where none is named
  FILE NAME  a source and a function of it, or a file of specs/ and a definition of it
  --twice  only the names that are defined more than once among them
  --page   docs/DEFINITIONS.md, made from the comments above the definitions
  --check  ends with a fault where docs/DEFINITIONS.md is not that page, or a definition has no words above it"""
import os
import re
import sys
import textwrap

TOP = os.path.normpath(os.path.join(os.path.dirname(os.path.abspath(__file__)), ".."))
TOP_CALL = ("crates/dist_app/src/top_call.rt", "run")
# What begins a definition at the start of a line, or a field of a record that others read.
BEGINS = re.compile(r"^(?:(?:abbrev|unfoldable)\s+)?(?:pub\s+)?(?:record\s+|data\s+)?([^\s:(){}]+)\s*(?=[:({])")
WORD = re.compile(r"[^\s(){}\[\],;]+")
USE = re.compile(r"^(?:pub )?(?:ghost )?use Rattle\.([\w.«»]+)(?:\.\{(.*)\}| as (\S+?))?;?$")


class File:
    """The definitions of a file of specs/, each with the words of its text, and what the file imports."""

    def __init__(self, path):
        self.path, self.bodies, self.lines, self.entries = path, {}, {}, []
        with open(f"{TOP}/{path}", encoding="utf-8") as it:
            text = it.read()
        self.names, self.modules = imports(text)
        name, words, self.head, self.equations = None, [], "", {}
        is_apart = True
        for number, line in enumerate(text.split("\n"), 1):
            if line.startswith("-- ----"):
                words = []
            elif line.startswith("--"):
                words.append(line[2:].strip())
            elif line.startswith(("use ", "pub use ")) and words:
                self.head, words = " ".join(words), []
            if not line.strip() or line.startswith(("--", "use ", "pub use ", "pub mod ", "mod ", "module ")):
                is_apart = is_apart or not line.strip()
                continue
            if not line.startswith(" "):
                begun = BEGINS.match(line)
                if begun and ("→" in line or ":" in line or "record" in line or "data" in line) and not re.match(r"^[^:]*=", line):
                    name = begun[1]
                    self.bodies.setdefault(name, "")
                    self.lines.setdefault(name, number)
                    if words or is_apart or not self.entries:
                        self.entries.append((" ".join(words), []))
                    self.entries[-1][1].append(name)
                    words, is_apart = [], False
                elif line.split()[0] in self.bodies:
                    name = line.split()[0]
                    self.equations.setdefault(name, []).append(line)
                elif name in self.equations and line in ("}", ")"):
                    self.equations[name][-1] += " " + line
            elif name in self.equations:
                self.equations[name][-1] += " " + line.strip()
            if name:
                self.bodies[name] += re.sub(r'"(?:\\.|[^"])*"|--.*', " ", line) + "\n"


def imports(text):
    """What each imported name and each module under another name stands for."""
    names, modules = {}, {}
    for line in text.split("\n"):
        said = USE.match(line.strip())
        if not said:
            continue
        module = said[1]
        if said[2] is not None:
            for word in said[2].split(","):
                name, _, other = word.strip().partition(" as ")
                names[other or name] = (module, name)
        else:
            modules[said[3] or module.rsplit(".", 1)[1]] = module
    return names, modules


def file_of(module):
    """The file of specs/ that a module stands for, if it is one of this repository."""
    parts = module.split(".")
    if len(parts) < 3 or parts[1] != "specs" or "declared" in parts:
        return None
    path = f"crates/{parts[0]}/specs/{'/'.join(parts[2:])}.antt"
    return path if os.path.isfile(f"{TOP}/{path}") else None


FILES = {}


def load(path):
    if path not in FILES:
        FILES[path] = File(path)
    return FILES[path]


def reached_by(text, names, modules, own):
    """The definitions that a text names: pairs of a file and a name."""
    for word in WORD.findall(text):
        word = word.strip("«».")
        if own and word in load(own).bodies:
            yield own, word
            continue
        for name in {word, word.split(".")[0]}:
            if name in names:
                module, inner = names[name]
                path = file_of(module)
                if path and inner in load(path).bodies:
                    yield path, inner
        if "." in word:
            front, rest = word.split(".", 1)
            path = file_of(modules[front]) if front in modules else None
            if path and rest.split(".")[0] in load(path).bodies:
                yield path, rest.split(".")[0]


def clauses_of(path, function):
    """The clauses of a function of src/, and the file's imports."""
    with open(f"{TOP}/{path}", encoding="utf-8") as it:
        text = it.read()
    said = re.search(rf"\bfn {function}\b.*?\n\{{", text, re.S)
    if not said:
        sys.exit(f"{path} has no function {function}")
    return said[0], *imports(text)


def all_reached(starts):
    """All definitions that the clauses of these functions reach, or these definitions."""
    found, left = {}, []
    for path, name in starts:
        if path.endswith(".antt"):
            if name not in load(path).bodies:
                sys.exit(f"{path} has no definition {name}")
            left.append((path, name))
            continue
        clauses, names, modules = clauses_of(path, name)
        left += reached_by(clauses, names, modules, None)
    while left:
        at = left.pop()
        if at in found:
            continue
        file = load(at[0])
        found[at] = file.lines[at[1]]
        left += reached_by(file.bodies[at[1]], file.names, file.modules, at[0])
    return found


# The chapters of the page, in the order of the subject, each with its crates.
CHAPTERS = [
    ("Versions (Debian Policy 5.6.12)", ["dist_version"]),
    ("Relations (Debian Policy 7.1)", ["dist_relation"]),
    ("Control text (Debian Policy 5.1)", ["dist_control"]),
    ("Packages, match, conflict, healthy installations (Debian Policy chapter 7)", ["dist_asked", "dist_repo"]),
    ("Packages files", ["dist_package"]),
    ("LIST, and the health of a set", ["dist_list", "dist_now"]),
    ("Source clusters, and classes of later versions", ["dist_cluster", "dist_classes"]),
    ("Futures, and the space that stands for them", ["dist_future", "dist_space", "dist_space_clauses"]),
    ("Archives that change by steps, and journals of them", ["dist_archive", "dist_journal"]),
    ("Clauses, what follows, and what is new", ["dist_lanes", "dist_clause", "dist_derive"]),
    ("Files whose lines answer one question", ["dist_findings", "dist_inquiry"]),
    ("Explanations", ["dist_explain", "dist_explain_search"]),
    ("Repairs", ["dist_repair", "dist_repair_search"]),
    ("Certificates", ["dist_cert"]),
    ("Files that are judged line by line", ["dist_judge", "dist_line_check"]),
    ("What certificates speak of, and what their claims mean", ["dist_subject", "dist_check"]),
    ("The search behind a question", ["dist_search"]),
    ("What a question answers, and the lines that it writes", ["dist_solver", "dist_line_write"]),
    ("What a sweep may write, and how much that is", ["dist_sweep", "dist_strong", "dist_outdated", "dist_covering", "dist_challenge", "dist_budget"]),
    ("What the checker keeps", ["dist_check_group", "dist_check_state"]),
    ("Reports", ["dist_report", "dist_history"]),
    ("Made archives, and trials on them", ["dist_generate", "dist_trial"]),
    ("Files and streams", ["dist_base", "dist_outside"]),
    ("The command line", ["dist_words"]),
    ("The commands, and the theorem", ["dist_commands", "dist_app"]),
    ("The benchmark program", ["dist_bench"]),
]
HEAD = """# Definitions

What the contracts speak of. This page is made by `bench/definitions.py --page` from the comments above the definitions.

The first part has exactly the definitions that the contract of `run` reaches: {count} names. A reader who believes them, and the Rattle kit,
need believe nothing of the code. The second part has the other words that contracts of public functions and types reach, those of single
libraries.

# Part one: what must be believed
"""
SECOND = "# Part two: the other words of public contracts\n"
# What the clauses of public functions are, and those of traits, and the members that impls and traits state.
TRAIT = re.compile(r"\npub trait .*?\n}", re.S)
PUBLIC = re.compile(r"(?:^|\n) *pub (?:const )?fn \w+.*?(?=\n *\{|;\n| \{\n)", re.S)


def public_reached():
    """All definitions that public functions, and the impls of types, reach."""
    found, left = set(), []
    for folder, _, files in os.walk(f"{TOP}/crates"):
        if f"{os.sep}src" not in folder or f"{os.sep}out" in folder:
            continue
        for name in files:
            with open(f"{folder}/{name}", encoding="utf-8") as it:
                text = it.read()
            said = " ".join([*PUBLIC.findall(text), *TRAIT.findall(text), *re.findall(r"\n *ghost \w+ = [^\n]*(?:\n(?! *ghost|\n)[^\n]*)*", text)])
            left += reached_by(said, *imports(text), None)
    while left:
        at = left.pop()
        if at not in found:
            found.add(at)
            file = load(at[0])
            left += reached_by(file.bodies[at[1]], file.names, file.modules, at[0])
    return found


def in_order(paths):
    """Files of one crate, each behind those that it imports."""
    done = []

    def put(path):
        if path not in done:
            for module, _ in load(path).names.values():
                other = file_of(module)
                if other in paths and other != path:
                    put(other)
            done.append(path) if path not in done else None

    for path in sorted(paths):
        put(path)
    return done


def entries_of(path, wanted):
    """The entries of a file: names that are wanted, and the words above them, or else what defines it, cut off where it is long."""
    file = load(path)
    for words, names in file.entries:
        told = [name for name in names if wanted(path, name)]
        if told and not words and len(told) == 1 and len(file.equations.get(told[0], [])) == 1 and not file.equations[told[0]][0].endswith("="):
            told_by = file.equations[told[0]][0]
            words = f"`{told_by if len(told_by) <= 400 else told_by[:400] + ' …'}`"
        if told:
            yield told, words


def part(wanted):
    lines = []
    for title, crates in CHAPTERS:
        chapter = []
        for crate in crates:
            folder = f"crates/{crate}/specs"
            paths = [f"{folder}/{name}" for name in os.listdir(f"{TOP}/{folder}") if name.endswith(".antt") and name != "Lib.antt"]
            for path in in_order(paths):
                entries = list(entries_of(path, wanted))
                if entries:
                    chapter.append(f"**`{path}`**\n")
                    for told, words in entries:
                        entry = f"- {', '.join(f'`{name}`' for name in told)}: {words}"
                        chapter += textwrap.wrap(entry, 150, subsequent_indent="  ", break_on_hyphens=False)
                    chapter.append("")
        if chapter:
            lines += [f"## {title}\n", *chapter]
    return lines


def page(found):
    others = public_reached() - set(found)
    known = {crate for _, crates in CHAPTERS for crate in crates}
    lost = sorted({path.split("/")[1] for path, _ in [*found, *others] if path.startswith("crates/")} - known)
    if lost:
        sys.exit(f"no chapter has {', '.join(lost)}")
    return "\n".join([HEAD.format(count=len(found)), *part(lambda *at: at in found), SECOND, *part(lambda *at: at in others)])


def main(words):
    option = words.pop(0) if words and words[0].startswith("--") else None
    starts = list(zip(words[::2], words[1::2])) or [TOP_CALL]
    found = all_reached(starts)
    if option == "--twice":
        by_name = {}
        for path, name in found:
            by_name.setdefault(name, []).append(path)
        for name, paths in sorted(by_name.items()):
            if len(paths) > 1:
                print(name, *sorted(paths))
    elif option == "--page":
        print(page(found), end="")
    elif option == "--check":
        bare = [f"{path} {told[0]}" for path in {path for path, _ in found} for told, words in entries_of(path, lambda *at: at in found) if not words]
        with open(f"{TOP}/docs/DEFINITIONS.md", encoding="utf-8") as it:
            if it.read() != page(found):
                bare.append("docs/DEFINITIONS.md is old: bench/definitions.py --page > docs/DEFINITIONS.md")
        print("\n".join(bare) or "docs/DEFINITIONS.md is as the definitions say")
        return 1 if bare else 0
    else:
        for (path, name), line in sorted(found.items()):
            print(f"{path}:{line} {name}")
        print(f"{len(found)} definitions in {len({path for path, _ in found})} files")


if __name__ == "__main__":
    sys.exit(main(sys.argv[1:]))
