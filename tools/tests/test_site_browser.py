"""site in a browser without a screen, from disk: what a person does, by keyboard and by mouse, at both widths."""
import os
import re
import shutil
import tempfile
import unittest
import unittest.mock

from .support import require, run, stored, text_of

require("apt_pkg", "debian", "jinja2", "matplotlib", "selenium")
if not shutil.which("chromedriver") or not shutil.which("chromium"):
    raise unittest.SkipTest("not installed: chromium and chromium-driver")

from selenium import webdriver
from selenium.webdriver.common.by import By
from selenium.webdriver.common.keys import Keys
from selenium.webdriver.support.wait import WebDriverWait

from distfuture_tools import site
from distfuture_tools.explanation import read_explanation
from distfuture_tools.site import answers, building

from .test_site import REPORTS

WORDS = ("--headless=new", "--no-sandbox", "--disable-gpu", "--disable-dev-shm-usage", "--window-size=1280,900")


class StoredAnswers:
    """The answers that are stored, in place of the program's."""

    def __init__(self, *_: object) -> None:
        pass

    def answers(self, labels: list[str], _: int) -> list[answers.Answer]:
        names = [label.partition("=")[0] for label in labels]
        return [answers.Answer(read_explanation(text_of(stored(f"today.{name}.explanation")).splitlines()),
                               text_of(stored(f"today.{name}.repaired")).splitlines()[1:]) for name in names]


class Browser(unittest.TestCase):
    @classmethod
    def setUpClass(cls):
        cls.folder = os.path.join(cls.enterClassContext(tempfile.TemporaryDirectory()), "site")
        cls.enterClassContext(unittest.mock.patch.object(building, "Asking", StoredAnswers))
        cls.enterClassContext(unittest.mock.patch.object(building, "find_program", lambda _: "stored"))
        run(site.main, stored("today.txt"), cls.folder, *REPORTS, "--later", stored("later.txt"))
        options = webdriver.ChromeOptions()
        for word in WORDS:
            options.add_argument(word)
        options.set_capability("goog:loggingPrefs", {"browser": "ALL"})
        cls.driver = webdriver.Chrome(service=webdriver.chrome.service.Service(shutil.which("chromedriver")), options=options)
        cls.addClassCleanup(cls.driver.quit)

    def tearDown(self):
        self.assertEqual(self.driver.get_log("browser"), [])

    def open(self, page: str) -> None:
        self.driver.get("about:blank")
        self.driver.get(f"file://{self.folder}/{page}")

    def width(self, pixels: int) -> None:
        self.driver.execute_cdp_cmd("Emulation.setDeviceMetricsOverride", {"width": pixels, "height": 844, "deviceScaleFactor": 1, "mobile": pixels < 500})

    def title(self, wanted: str) -> None:
        """Waits until the page is about something."""
        WebDriverWait(self.driver, 20).until(lambda driver: driver.find_element(By.TAG_NAME, "h1").text == wanted)

    def shown(self, selector: str) -> list[str]:
        return [it.text for it in self.driver.find_elements(By.CSS_SELECTOR, selector) if it.is_displayed()]

    def waits_for(self, selector: str) -> list[str]:
        return WebDriverWait(self.driver, 20).until(lambda _: self.shown(selector))

    def field(self):
        return self.driver.find_element(By.ID, "words")

    def test_searches_by_keyboard_and_follows_a_link(self):
        self.open("index.html")
        self.driver.find_element(By.TAG_NAME, "body").send_keys("/")
        self.assertEqual(self.driver.switch_to.active_element, self.field())
        self.field().send_keys("LIBX")
        self.assertEqual(self.shown("#found li"), ["libx package", "libx-dev package"])
        self.field().send_keys(Keys.ARROW_DOWN, Keys.ARROW_DOWN)
        self.assertEqual(self.field().get_attribute("aria-activedescendant"), "found-1")
        self.field().send_keys(Keys.ENTER)
        self.title("libx-dev")
        self.assertEqual(self.waits_for("#needs li"), ["libx"])
        self.driver.find_element(By.CSS_SELECTOR, "#needs li a").click()
        self.title("libx")
        self.assertEqual(self.waits_for("#impact li"), ["libx-dev", "mail", "p", "q", "r"])
        self.assertFalse(self.shown("#needs"))
        self.driver.back()
        self.title("libx-dev")

    def test_searches_by_mouse_and_closes_the_list(self):
        self.open("index.html")
        self.field().send_keys("x")
        self.assertIn("x source", self.shown("#found li"))
        self.field().send_keys(Keys.ESCAPE)
        self.assertEqual(self.shown("#found li"), [])
        self.field().send_keys("-")
        next(it for it in self.driver.find_elements(By.CSS_SELECTOR, "#found li") if it.text == "x-doc package").click()
        self.title("x-doc")

    def test_shows_all_that_a_search_finds(self):
        self.open("index.html")
        self.field().send_keys("li")
        self.driver.find_element(By.CSS_SELECTOR, "#search button").click()
        self.title("Search for li")
        self.assertEqual(self.shown("#packages li"), ["libx", "libx-dev"])

    def test_tells_why_a_package_is_broken_and_what_must_move(self):
        self.open("package.html#theme")
        self.title("theme")
        self.assertEqual(self.waits_for("#states li"), ["can't be installed"])
        self.assertIn("excludes theme=1: declared by mail as theme (<< 3)", " ".join(self.shown("#explanation li")))
        self.assertEqual(self.shown("#repair li"), ["mail from 2 to 2-0A"])
        self.open("package.html#old")
        self.assertIn("outdated", " ".join(self.waits_for("#states li")))
        self.assertIn("it must be uploaded anew itself", self.shown("#repair p")[0])

    def test_tells_what_breaks_a_package_and_what_a_source_breaks(self):
        self.open("package.html#q")
        self.assertEqual(self.waits_for("#broken_by tbody td")[0], "x")
        self.driver.find_element(By.CSS_SELECTOR, "#broken_by a").click()
        self.title("x")
        self.assertIn("2 breaks 2 packages", self.waits_for("#coming h3"))
        self.assertEqual(self.shown("#clusters h3"), ["3 packages at 1", "These later versions break 2 packages", "These later versions break 1 package"])

    def test_tells_what_is_not_there(self):
        for page, told in (("package", "This archive has no package nonsense%."), ("source", "This archive has no source nonsense%."),
                           ("search", "No package and no source has this in its name.")):
            self.open(f"{page}.html#nonsense%")
            self.assertEqual(self.waits_for("#told"), [told])

    def test_charts_lead_to_packages(self):
        self.open("index.html")
        self.driver.find_element(By.CSS_SELECTOR, ".wide a").click()
        self.title("libx")

    def test_fits_narrow_windows(self):
        for pixels in (390, 320, 1280):
            self.width(pixels)
            for page in ("index.html", "broken.html", "uploads.html", "package.html#theme", "source.html#x", "search.html#x"):
                self.open(page)
                self.waits_for("h1")
                self.assertLessEqual(self.driver.execute_script("return document.documentElement.scrollWidth"), pixels, page)
            self.open("index.html")
            self.assertEqual(len(self.driver.find_elements(By.CSS_SELECTOR, ".narrow > svg")), 2)
            self.assertEqual(self.driver.find_element(By.CSS_SELECTOR, ".narrow").is_displayed(), pixels < 500)

    def test_each_control_is_named_and_reached_by_the_tab_key(self):
        self.open("package.html#libx")
        self.waits_for("#impact li")
        self.driver.execute_script("document.activeElement.blur(); window.focus()")
        reached = []
        for _ in range(6):
            webdriver.ActionChains(self.driver).send_keys(Keys.TAB).perform()
            reached.append(self.driver.switch_to.active_element.text or self.driver.switch_to.active_element.get_attribute("id"))
        self.assertIn("x", reached)      # the link to the source, behind the title that has the focus


class Contrast(unittest.TestCase):
    """Each colour of text against the paper that it stands on, by the formula of WCAG 2."""

    def test_is_enough(self):
        style = text_of(os.path.join(os.path.dirname(site.__file__), "templates", "site.css"))
        colours = dict(re.findall(r"--([a-z-]+): (#[0-9a-f]{6});", style))
        pairs = [(ink, paper) for ink in ("ink", "muted", "link", "bad") for paper in ("paper", "soft")]
        for ink, paper in pairs + [("bad", "bad-paper"), ("warn", "warn-paper"), ("good", "good-paper"), ("paper", "link")]:
            self.assertGreaterEqual(self.ratio(colours[ink], colours[paper]), 4.5, (ink, paper))

    def ratio(self, one: str, other: str) -> float:
        light, dark = sorted((self.luminance(one), self.luminance(other)), reverse=True)
        return (light + 0.05) / (dark + 0.05)

    def luminance(self, colour: str) -> float:
        parts = [int(colour[at:at + 2], 16) / 255 for at in (1, 3, 5)]
        red, green, blue = [part / 12.92 if part <= 0.03928 else ((part + 0.055) / 1.055) ** 2.4 for part in parts]
        return 0.2126 * red + 0.7152 * green + 0.0722 * blue


if __name__ == "__main__":
    unittest.main()
