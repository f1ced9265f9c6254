"""Reports, read line by line."""
import io
import unittest

from distfuture_tools.reports import Report

from .support import stored, text_of


class Reports(unittest.TestCase):
    def test_entries_of_each_kind(self):
        with open(stored("today.classes"), encoding="utf-8") as file:
            report = Report(file)
            entries = {entry.subject: entry for entry in report}
        self.assertEqual((report.kind, report.head["packages"]), ("classes", 12))
        self.assertEqual(entries["libx=1"].keys, {"cluster": "libx=1", "source": "x", "top": "1"})
        self.assertEqual(entries["libx=1"].items, ["libx=1", "libx-dev=1", "x-doc=1"])
        self.assertEqual(entries["libx=1"].classes[1], ("= 2", "2"))
        self.assertEqual((entries["nobody"].section, entries["nobody"].classes), ("names", [("any", "0")]))

    def test_as_many_as_a_reader_of_yaml_finds(self):
        try:
            import yaml
        except ImportError:
            self.skipTest("not installed: yaml")
        for name in ("today.strong", "today.challenged", "today.outdated", "today.classes"):
            whole = yaml.load(text_of(stored(name)), Loader=getattr(yaml, "CBaseLoader", yaml.BaseLoader))
            entries = list(Report(io.StringIO(text_of(stored(name)))))
            for section, its in whole.items():
                if isinstance(its, list):
                    self.assertEqual(len(its), sum(entry.section == section for entry in entries), (name, section))


if __name__ == "__main__":
    unittest.main()
