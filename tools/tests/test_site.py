"""site: the data and the pages, without a browser."""
import json
import os
import re
import unittest
from types import SimpleNamespace

from .support import Files, program_or_skip, require, run, stored, text_of

require("apt_pkg", "debian", "jinja2", "matplotlib")

from distfuture_tools import charts, site
from distfuture_tools.command import Fault
from distfuture_tools.explanation import read_explanation
from distfuture_tools.reports import Report
from distfuture_tools.site import answers, pages, reading, shards

REPORTS = [word for kind in ("strong", "outdated", "challenged", "classes") for word in (f"--{kind}", stored(f"today.{kind}"))]


def records(path: str) -> dict[tuple[str, int, str], object]:
    """The records of a shard."""
    calls = (json.loads(f"[{line[9:-1]}]") for line in text_of(path).splitlines())
    return {(kind, number, key): value for kind, number, key, value in calls}


class Site(Files):
    def built(self, *words: str) -> str:
        """A site of the stored archive, without a program."""
        status, _ = run(site.main, stored("today.txt"), self.path("site"), *REPORTS, "--program", "/none", *words)
        self.assertEqual(status, 0)
        return self.path("site")

    def of_package(self, folder: str, name: str) -> dict[str, object]:
        names = json.loads(text_of(f"{folder}/data/packages.js").partition("200,")[2].rstrip(")\n")).split("\n")
        number = names.index(f"{name}=2" if name == "mail" else f"{name}=1")
        return {key: value for (_, its, key), value in records(f"{folder}/data/packages/0.js").items() if its == number}

    def test_what_it_prints_and_leaves(self):
        status, text = run(site.main, stored("today.txt"), self.path("site"), *REPORTS, "--program", "/none")
        self.assertEqual((status, text.splitlines()[0]), (0, "12 packages, 10 sources, 0 explained, 0 MB"))
        self.assertIn("not explained: 5 (there is no program distfuture", text)
        self.assertEqual(sorted(os.listdir(self.folder)), ["site"])

    def test_records_of_packages(self):
        folder = self.built()
        self.assertEqual(self.of_package(folder, "libx")["impact"], [3, 5, 7, 8, 9])
        self.assertEqual(self.of_package(folder, "q"), {"about": [6, "amd64", ""], "needs": [2, 3], "broken_by": [
            [9, ">> 1, << 2", "1-0A~", 1], [9, "= 2", "2", 1], [9, ">> 2", "2-0A", 1]]})
        self.assertEqual(self.of_package(folder, "old")["outdated"], 1)

    def test_records_of_sources(self):
        its = records(f"{self.built('--later', stored('later.txt'))}/data/sources/0.js")
        classes = [[">> 1, << 2", "1-0A~", [8], []], ["= 2", "2", [7, 8], []], [">> 2", "2-0A", [7, 8], []]]
        self.assertEqual(its["sources", 9, "cluster libx=1"], ["1", [2, 3, 11], classes])
        self.assertIn(["2", [7, 8], [8]], [value for (_, number, key), value in its.items() if number == 9 and key.startswith("coming")])

    def test_pages_say_what_the_reports_say(self):
        folder = self.built("--title", "A <list> & more")
        text = text_of(f"{folder}/index.html")
        self.assertIn("<h1>A &lt;list&gt; &amp; more</h1>", text)
        for count, name in ((12, "packages"), (10, "sources"), (6, "strong dependencies"), (0, "undecided")):
            self.assertRegex(text, rf"<dt>{name}</dt>\s*<dd>{count}</dd>")
        self.assertIn('<a xlink:href="package.html#libx=1"', text)
        self.assertIn("Without an explanation here: 5", text_of(f"{folder}/broken.html"))
        self.assertIn('<a href="source.html#x">x</a></th><td class="number">2</td>', text_of(f"{folder}/uploads.html"))

    def test_pages_name_files_that_are_there(self):
        folder = self.built()
        for name in os.listdir(folder):
            if name.endswith(".html"):
                for link in re.findall(r'(?<!xlink:)(?:href|src)="([^"#:,]+)', text_of(f"{folder}/{name}")):
                    self.assertTrue(os.path.exists(f"{folder}/{link}"), (name, link))

    def test_refuses_reports_of_another_archive(self):
        changes = {"strong": ('"q=1"', '"other=1"', "names other=1, which the archive does not have"),
                   "classes": ("packages: 12", "packages: 13", "is on 13 packages, and the archive has 12")}
        for kind, (old, new, told) in changes.items():
            other = self.file(kind, text_of(stored(f"today.{kind}")).replace(old, new))
            with self.assertRaisesRegex(Fault, told):
                run(site.main, stored("today.txt"), self.path("site"), *REPORTS, f"--{kind}", other, "--program", "/none")
        self.assertFalse(os.path.exists(self.path("site")))

    def test_refuses_a_folder_that_is_not_empty(self):
        with self.assertRaisesRegex(Fault, "not empty"):
            run(site.main, stored("today.txt"), os.path.dirname(self.file("file", "")), *REPORTS)

    def test_refuses_a_later_list_of_another_architecture(self):
        later = self.file("later", text_of(stored("later.txt")).replace("amd64", "arm64"))
        with self.assertRaisesRegex(Fault, "one file is for amd64, the other for arm64"):
            run(site.main, stored("today.txt"), self.path("site"), *REPORTS, "--program", "/none", "--later", later)

    def test_needs_the_program_where_a_report_is_missing(self):
        with self.assertRaisesRegex(Fault, "there is no program distfuture"):
            run(site.main, stored("today.txt"), self.path("site"), *REPORTS[2:], "--program", "/none")

    def test_with_the_program(self):
        status, text = run(site.main, stored("today.txt"), self.path("site"), "--program", program_or_skip())
        self.assertEqual((status, text), (0, "12 packages, 10 sources, 5 explained, 0 MB\n"))
        self.assertIn("explanation", self.of_package(self.path("site"), "theme"))


class Answers(Files):
    """Stored answers of the program, as records."""

    def setUp(self):
        super().setUp()
        with open(stored("today.classes"), encoding="utf-8") as file:
            self.clusters = reading.Clusters(iter(Report(file)))
        self.data = reading.Data(reading.rows_of(stored("today.txt")), self.folder)

    def test_explanations_and_groups(self):
        its = [answers.Answer(read_explanation(text_of(stored(f"today.{name}.explanation")).splitlines()), []) for name in ("addon", "lost")]
        groups = answers.write_answers(its, stored("today.txt"), self.clusters, self.data)
        self.assertEqual([group.roots for group in groups], ["mail", "nobody"])
        self.data.write()
        record = records(f"{self.folder}/packages/0.js")["packages", 4, "explanation"]
        self.assertEqual(record, ["lost=1 can't be installed", [["item", "needs nobody", 1, [
            ["missing", "nothing serves this: no package is named nobody or provides it", 1, []]]]]])

    def test_repairs(self):
        mail = [self.data.sources.number("mail"), "2", "2-0A"]
        wanted = {"addon": {"least": 1, "moves": [mail]}, "lost": {"least": 0, "moves": []}, "old": {"outdated": 1, "moves": []}}
        for name, record in wanted.items():
            lines = text_of(stored(f"today.{name}.repaired")).splitlines()[1:]
            self.assertEqual(answers.repair_record(lines, self.clusters, self.data), record)
        bounds = answers.repair_record(["at least 2", "undecided", "at most 3"], self.clusters, self.data)
        self.assertEqual(bounds, {"at least": 2, "undecided": 1, "at most": 3, "moves": []})
        with self.assertRaisesRegex(Fault, "no line of a repair"):
            answers.repair_record(["nonsense"], self.clusters, self.data)


class Parts(Files):
    def test_shards_hold_records_in_any_order(self):
        its = shards.Shards(self.folder, "packages", 2)
        for number in (5, 0, 4):
            its.put(number, "needs", "[1,2]")
        its.write()
        its.put(5, "impact", "[]")
        its.write()
        self.assertEqual(list(records(self.path("packages/2.js"))), [("packages", 5, "needs"), ("packages", 4, "needs"), ("packages", 5, "impact")])
        self.assertEqual(list(records(self.path("packages/0.js"))), [("packages", 0, "needs")])

    def test_text_of_scripts_is_ascii(self):
        self.assertEqual(shards.script_text("é</script>\u2028"), '"\\u00e9</script>\\u2028"')

    def test_undecided_is_told(self):
        rows = [reading.Row(f"{name}=1", name, "all", "") for name in "ab"]
        data, sums = reading.Data(rows, self.folder), reading.Sums()
        lines = ['report: "strong"', "packages: 2", "undecided:", '  - "a=1"', "undecided_pairs:", '  - package: "b=1"', "    on:", '      - "a=1"']
        reading.read_strong(iter(Report(iter(f"{line}\n" for line in lines))), data, sums)
        data.write()
        self.assertEqual(sums.undecided, {"a=1", "b=1"})
        self.assertEqual(records(self.path("packages/0.js"))["packages", 1, "perhaps"], [0])

    def test_charts(self):
        text = charts.bar_chart([charts.Bar("lib<c>", 1200, "package.html#libc6"), charts.Bar("b", 0)], 4)
        self.assertTrue(text.startswith("<svg") and text.rstrip().endswith("</svg>"))
        self.assertIn(">lib&lt;c&gt;</text>", text)
        self.assertIn(">1,200</text>", text)
        self.assertEqual(text, charts.bar_chart([charts.Bar("lib<c>", 1200, "package.html#libc6"), charts.Bar("b", 0)], 4))
        charts.bar_chart([], 4)

    def test_links(self):
        self.assertEqual(pages.package_link("g++=4:1.0~rc1"), "package.html#g++=4:1.0~rc1")
        self.assertEqual(pages.source_link("libsigc++-2.0"), "source.html#libsigc++-2.0")

    def test_the_worst_class_of_each_source(self):
        clusters = SimpleNamespace(by_label={"a=1": SimpleNamespace(source="a", top="1")})
        sums = reading.Sums(broken=[reading.Broken("a=1", "= 2", "2", ["x=1"], True), reading.Broken("a=1", ">> 2", "3", ["x=1", "y=1"], True)])
        overview = pages.Overview("", "", 0, 0, sums, clusters, None, [], [])
        self.assertEqual(overview.uploads(), [pages.Upload("a", "1", ">> 2", 2)])


if __name__ == "__main__":
    unittest.main()
