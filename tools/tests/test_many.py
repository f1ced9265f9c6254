"""many: names of archives, what a worker does, and runs with workers that are processes of their own."""
import csv
import json
import lzma
import os
import shutil
import unittest

from .support import Files, program_or_skip, require, run, stored, text_of

require("distributed", "matplotlib", "tqdm")
if not shutil.which("setpriv") or not shutil.which("prlimit"):
    raise unittest.SkipTest("not installed: util-linux")

from distfuture_tools import many
from distfuture_tools.command import Fault
from distfuture_tools.files import hash_of
from distfuture_tools.many import archives, results, rows, sweeping

REPORT = 'report: "strong"\\npackages: 2\\nuninstallable: []\\nstrong: []\\nimpact: []\\nundecided: []\\nundecided_pairs: []\\n'
ANSWER = f"""printf '{REPORT}'; for last in "$@"; do :; done; [ "$1" = check ] || echo cert > "$last"\n"""


class Names(Files):
    def test_suite_and_day_of_a_path(self):
        for path, wanted in {
                "bookworm_2026-12-01": ("bookworm", "2026-12-01"), "sid": ("sid", ""), "Packages.trixie": ("trixie", ""),
                "20261201T061500Z/sid/Packages": ("sid", "2026-12-01"), "dists/sid/main/binary-amd64/Packages": ("sid/main", ""),
                "deb.debian.org_debian_dists_bookworm_main_binary-amd64_Packages": ("bookworm/main", ""),
                "bookworm/20261130.packages": ("bookworm", "2026-11-30"), "2026-11-30": ("-", "2026-11-30")}.items():
            self.assertEqual(archives.suite_and_day(path), wanted, path)

    def test_only_packages_files_are_taken(self):
        self.file("sid.xz", "Package: a\nVersion: 1\n")
        self.file("README", "no list\n")
        self.file(".hidden", "Package: a\n")
        os.mkdir(self.path("out"))
        self.file("out/packages", "Package: a\n")
        self.file("bad.xz", "Package: a\n")
        with open(self.path("bad.xz"), "wb") as file:
            file.write(b"no xz")
        found: list[archives.Archive] = []
        _, text = run(lambda _: found.extend(many.archives_below(self.folder, self.path("out"))) or 0)
        self.assertEqual(([archive.name for archive in found], text.count("passed over")), (["sid"], 2))
        self.assertEqual(found[0].hash, hash_of(self.path("sid.xz")))

    def test_refuses_names_that_come_twice(self):
        for name in ("a_b", "a_b.xz"):
            self.file(name, "Package: a\nVersion: 1\n")
        with self.assertRaisesRegex(Fault, "several lists have one name: a_b"):
            many.archives_below(self.folder, self.path("out"))


class Work(Files):
    """What a worker does, without a cluster."""

    def stub(self, body: str) -> str:
        path = self.file("stub", f"#!/bin/sh\n{body}\n")
        os.chmod(path, 0o755)
        return path

    def task(self, body: str, **changes) -> sweeping.Task:
        path = self.file("list.xz", "Package: a\nArchitecture: amd64\n\nPackage: b\nArchitecture: all\n")
        given = {"archive": "list", "list": path, "hash": hash_of(path), "kind": "strong", "options": (), "folder": self.path("done"),
                 "program": self.stub(body), "memory": 1000, **changes}
        return sweeping.Task(**given)

    def test_keeps_what_is_checked_with_its_sums(self):
        task = self.task(ANSWER)
        self.assertIsNone(task.done())
        outcome = sweeping.sweep(task)
        self.assertEqual((outcome.status, outcome.message, outcome.is_done), (0, "", True))
        self.assertEqual(sorted(os.listdir(self.path("done"))), ["packages", "strong.cert", "strong.json", "strong.report"])
        self.assertEqual({key: task.done()[key] for key in ("stanzas", "architecture", "packages", "status")},
                         {"stanzas": 2, "architecture": "amd64", "packages": 2, "status": 0})

    def test_what_was_cut_is_not_done(self):
        task = self.task(ANSWER)
        sweeping.sweep(task)
        os.truncate(task.path("cert"), 1)
        self.assertIsNone(task.done())

    def test_keeps_nothing_that_fails(self):
        for body, status, told in (("echo 'distfuture: too large: Bytes' >&2; exit 8", 8, "too large: Bytes (distfuture strong, status 8)"),
                                   (f'[ "$1" = check ] && exit 4; {ANSWER}', 4, "distfuture failed (distfuture check, status 4)"),
                                   (f'{ANSWER} [ "$1" = check ] && echo more', 4, "does not give the report"),
                                   ("kill -9 $$", -9, "status -9")):
            outcome = sweeping.sweep(self.task(body))
            self.assertEqual((outcome.status, outcome.is_done, told in outcome.message), (status, False, True), outcome)
            self.assertEqual(os.listdir(self.path("done")), ["packages"])
            shutil.rmtree(self.path("done"))

    def test_a_list_that_changed_or_is_cut(self):
        self.assertIn("has changed meanwhile", sweeping.sweep(self.task(ANSWER, hash="0")).message)
        task = self.task(ANSWER)
        os.truncate(task.list, 60)
        outcome = sweeping.sweep(task)
        self.assertEqual((outcome.status, "is cut" in outcome.message), (3, True))
        os.unlink(task.list)
        self.assertEqual(sweeping.sweep(task).status, 5)

    def test_memory_is_bounded(self):
        outcome = sweeping.sweep(self.task("ulimit -v >&2; exit 7", memory=300))
        self.assertIn(str(300 * 1024), outcome.message)

    def test_sums_of_reports(self):
        its = sweeping.sums_of(stored("today.strong"))
        self.assertEqual((its["entries"]["uninstallable"], its["items"]["strong"], its["greatest"]), (5, 6, (5, "libx=1")))
        its = sweeping.sums_of(stored("today.challenged"))
        self.assertEqual((its["entries"]["challenged"], its["challenged"]), (3, 2))
        self.assertEqual(sweeping.sums_of(stored("hard.limit"))["entries"]["undecided"], 1)


class Table(unittest.TestCase):
    def row(self, suite: str, day: str, kinds: list[str]) -> dict:
        sums = {kind: {"architecture": "amd64", "stanzas": 12, **sweeping.sums_of(stored(f"today.{kind}"))} for kind in kinds}
        return rows.Row(archives.Archive(suite + day, "", "0", suite, day), sums, []).values()

    def test_rows(self):
        row = self.row("sid", "", ["strong", "outdated", "challenged"])
        self.assertEqual([row[measure] for measure in rows.MEASURES], [12, 5, 1, 3, 2, 6, 5, 0])
        row = self.row("sid", "", ["outdated"])
        self.assertEqual([row[measure] for measure in rows.MEASURES], [12, None, 1, None, None, None, None, 0])
        self.assertEqual(set(row), set(rows.COLUMNS))

    def test_charts(self):
        its = [self.row("sid", f"2026-12-0{day}", ["strong", "outdated", "challenged"]) for day in (2, 1)] + [self.row("trixie", "2026-12-02", ["strong"])]
        self.assertEqual([row["day"] for row in results.latest(its)], ["2026-12-02", "2026-12-02"])
        self.assertIn(">trixie amd64</text>", results.suites_chart(its))
        self.assertIn(">sid amd64</text>", results.days_chart(its))
        self.assertIsNone(results.days_chart(its[1:]))
        self.assertIsNone(results.suites_chart([self.row("sid", "", [])]))


class Runs(Work):
    """Whole runs, with two workers."""

    def lists(self, *names: str) -> str:
        os.makedirs(self.path("lists"), exist_ok=True)
        for name in names:
            with lzma.open(self.path(f"lists/{name}.xz"), "wt") as file:
                file.write(f"Package: {name}\nVersion: 1\n")
        return self.path("lists")

    def many(self, folder: str, body: str, *words: str) -> tuple[int, list[str]]:
        status, text = run(many.main, folder, self.path("out"), "--program", self.stub(body), "--workers", "2", *words)
        return status, text.splitlines()

    def table(self) -> list[dict[str, str]]:
        with open(self.path("out/table.csv"), encoding="utf-8", newline="") as file:
            return list(csv.DictReader(file))

    def test_what_fails_is_told_and_asked_again(self):
        folder = self.lists("a", "b")
        status, lines = self.many(folder, f'[ "$1" = outdated ] && exit 8; {ANSWER}')
        self.assertEqual((status, lines[0], lines[-1]), (20, "2 lists, 6 questions, 6 to ask", "4 done, 2 failed; table.csv, suites.svg"))
        self.assertEqual(sum("outdated: failed, status 8" in line for line in lines), 2)
        self.assertEqual([row["failed"] for row in self.table()], ["outdated", "outdated"])
        status, lines = self.many(self.lists("c"), ANSWER)
        self.assertEqual((status, lines[0]), (0, "3 lists, 9 questions, 5 to ask"))
        self.assertEqual([row["failed"] for row in self.table()], ["", "", ""])
        self.assertEqual(sorted(os.listdir(self.path("out"))), [".lock", "archives", "lists", "suites.svg", "table.csv"])
        self.assertTrue(os.path.exists(self.path("out/archives/c/strong.cert")))

    def test_a_worker_that_is_killed_in_the_middle(self):
        body = f'if mkdir "{self.path("once")}" 2> /dev/null; then kill -9 $PPID; sleep 60; fi; {ANSWER}'
        status, lines = self.many(self.lists("a", "b"), body)
        self.assertEqual((status, lines[-1]), (0, "6 done, 0 failed; table.csv, suites.svg"))
        for name in os.listdir(self.path("out/lists")):
            self.assertEqual(len(os.listdir(self.path(f"out/lists/{name}"))), 10)    # the list, and three files of each question

    def test_one_run_at_a_time(self):
        os.makedirs(self.path("out"))
        with many.locked(self.path("out")), self.assertRaisesRegex(Fault, "another run works"):
            self.many(self.lists("a"), ANSWER)

    def test_what_is_undecided_is_told_by_the_status(self):
        self.assertEqual(self.many(self.lists("a"), f"{ANSWER} exit 1", "--kind", "strong", "--limit", "7")[0], 1)
        self.assertTrue(os.path.exists(self.path("out/archives/a/strong-limit-7.report")))

    def test_no_list_and_no_scheduler(self):
        os.makedirs(self.path("empty"))
        with self.assertRaisesRegex(Fault, "no Packages file"):
            self.many(self.path("empty"), ANSWER)
        with self.assertRaisesRegex(Fault, "there is no program"):
            run(many.main, self.path("empty"), self.path("out"), "--program", "/none")

    def test_with_the_program(self):
        program = program_or_skip()
        os.makedirs(self.path("lists"))
        shutil.copy(stored("today.txt"), self.path("lists/today"))
        status, text = run(many.main, self.path("lists"), self.path("out"), "--program", program, "--workers", "2")
        self.assertEqual((status, text.splitlines()[-1]), (0, "3 done, 0 failed; table.csv, suites.svg"))
        self.assertEqual(text_of(self.path("out/archives/today/strong.report")), text_of(stored("today.strong")))
        with open(self.path("out/archives/today/strong.json"), encoding="utf-8") as file:
            self.assertEqual(json.load(file)["items"]["strong"], 6)


if __name__ == "__main__":
    unittest.main()
