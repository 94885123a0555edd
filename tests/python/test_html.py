"""Pages that show an answer with its proof: opened, clicked and looked at in Chromium."""
import io
import json
import os
import re
import struct
import tempfile
import unittest
from fractions import Fraction
from html.parser import HTMLParser

import blossom
from browser import Browser
from support import KINDS, TRIANGLES

PLACES = {"a": (0, 0), "b": (0, 2), "c": (1, 1), "d": (3, 1), "e": (4, 2), "f": (4, 0)}
#: What each kind is asked of the triangles.
WORDS = {
    "bmatch": {"degrees": dict.fromkeys("abcdef", 2)},
    "capmatch": {"degrees": dict.fromkeys("abcdef", 2)},
    "ffactor": {"degrees": dict.fromkeys("abcdef", 2)},
    "tjoin": {"terminals": ["a", "f"]},
    "path": {"source": "a", "target": "f"},
    "oddpath": {"source": "a", "target": "f"},
    "evenpath": {"source": "a", "target": "f"},
    "interval": {"lower": 1, "upper": 2},
}


class Elements(HTMLParser):
    """The elements of a page: their names and attributes."""

    def __init__(self, text):
        super().__init__()
        self.found = []
        self.feed(text)

    def handle_starttag(self, tag, attributes):
        self.found.append((tag, dict(attributes)))


def data_of(page):
    """What the page gives its script."""
    return json.loads(re.search(r'id="data">(.*?)</script>', page, re.S).group(1))


class Texts(unittest.TestCase):
    def test_a_page_needs_nothing_else(self):
        page = blossom.min_weight_perfect_matching(TRIANGLES).to_html()
        for tag, attributes in Elements(page).found:
            self.assertNotIn(tag, ("iframe", "object", "embed", "base", "form"))
            self.assertNotIn("src", attributes)
            self.assertIn(attributes.get("href", "data:,"), ("data:,",))
        self.assertIn("default-src 'none'", page)
        self.assertNotIn("http:", page.replace('xmlns="http://www.w3.org/2000/svg"', ""))
        self.assertNotIn("https:", page)

    def test_files(self):
        answer, raw = blossom.min_weight_perfect_matching(TRIANGLES), io.BytesIO()
        with tempfile.TemporaryDirectory() as room:
            path = os.path.join(room, "proof.html")
            page = answer.to_html(path, PLACES, width=500, labels=False)
            with open(path, encoding="utf-8") as file:
                self.assertEqual(file.read(), page)
        self.assertEqual(answer.to_html(raw), raw.getvalue().decode())
        self.assertIn('<svg xmlns="http://www.w3.org/2000/svg" width="500"', page)

    def test_the_data_are_the_certificate(self):
        answer = blossom.min_weight_perfect_matching(TRIANGLES)
        data = data_of(answer.to_html())
        self.assertEqual(sum(int(times) for _, times, _ in data["lines"]), 12 * int(data["units"]))
        self.assertEqual(len(data["edges"]), 7)
        for name, weight, meets, used in data["edges"]:
            slack = int(weight) - sum(map(int, meets))
            self.assertGreaterEqual(slack, 0, name)
            self.assertTrue(slack == 0 or not used, name)
        self.assertRegex(
            data["parts"]["edge 6"], "^c \u2013 d: weight 10, used; duals .*, slack 0$"
        )
        self.assertRegex(data["parts"]["set 0"], r"^\{[abcdef], [abcdef], [abcdef]\}: dual 4.5$")
        self.assertEqual(data["parts"]["node 0"], "a: dual 0.5")

    def test_other_kinds_tell_slacks_and_duals(self):
        answer = blossom.t_join(TRIANGLES, ["a", "b"])
        parts = data_of(answer.to_html())["parts"]
        self.assertEqual(parts["edge 0"], "a \u2013 b: weight 1, used; slack 0")
        self.assertRegex(parts["edge 6"], "weight 10, unused; slack [0-9.]+$")
        self.assertRegex(parts["node 0"], "^a: duals [-0-9., ]+$")
        looped = blossom.max_weight_matching([("a", "a", 3), ("a", "b", 2)]).to_html()
        self.assertIn("slack infinite", data_of(looped)["parts"]["edge 0"])

    def test_names_end_no_script(self):
        strange = "</script><script>alert(1)</script><!--"
        page = blossom.min_weight_perfect_matching([(strange, 'b"&', 2.5)], scale=2).to_html()
        self.assertEqual(page.count("</script>"), 2)
        self.assertIn(strange, data_of(page)["parts"]["edge 0"])
        self.assertNotIn("<script>alert", page)


class Pages(unittest.TestCase):
    @classmethod
    def setUpClass(cls):
        cls.browser = Browser().__enter__()
        cls.addClassCleanup(cls.browser.__exit__)
        cls.room = tempfile.TemporaryDirectory()
        cls.addClassCleanup(cls.room.cleanup)

    def open(self, page):
        """Opens a page of this text."""
        path = os.path.join(self.room.name, "page.html")
        with open(path, "w", encoding="utf-8") as file:
            file.write(page)
        self.browser.open(path)

    def text(self, name):
        """The text of an element."""
        return self.browser.value("document.getElementById(%s).textContent" % json.dumps(name))

    def test_the_button_adds_the_lines_up(self):
        answer = blossom.min_weight_perfect_matching(TRIANGLES)
        self.open(answer.to_html(positions=PLACES))
        self.assertEqual(self.text("sum"), "")
        self.browser.click("#add")
        self.assertEqual((self.text("sum"), self.text("weight")), ("12", "12"))
        self.assertIn(
            "no solution weighs less than 12: the answer is optimal", self.text("conclusion")
        )
        self.assertEqual(self.text("edges"), "In the sum 7 of 7 edges have at most their weight.")
        shown = self.browser.value(
            "[...document.querySelectorAll('#lines tr')].map(one => "
            "[...one.cells].map(cell => cell.textContent))"
        )
        self.assertEqual(sum(Fraction(number) for _, number in shown), 12)
        self.assertIn(["x(\u03b4(a)) = 1", "0.5"], shown)
        self.assertEqual(sum("\u2265 1" in line for line, _ in shown), 2)
        self.assertEqual(self.browser.console, [])

    def test_a_page_that_was_changed_proves_nothing(self):
        page = blossom.min_weight_perfect_matching(TRIANGLES).to_html(positions=PLACES)
        data = data_of(page)
        changed = []
        for place in (0, -1):
            lines = [list(line) for line in data["lines"]]
            lines[place][1] = str(int(lines[place][1]) + 1)
            changed.append(dict(data, lines=lines))
        changed.append(dict(data, weight=str(int(data["weight"]) + 1)))
        heavy = [list(edge) for edge in data["edges"]]
        heavy[1][1] = str(int(heavy[1][1]) - 1)
        changed.append(dict(data, edges=heavy))
        used = [[*edge[:3], 1] for edge in data["edges"]]
        light = [[edge[0], str(int(edge[1]) + 5), *edge[2:]] for edge in used]
        changed.append(dict(data, edges=light))
        before = re.search(r'id="data">(.*?)</script>', page, re.S).group(1)
        for one in changed:
            self.open(page.replace(before, json.dumps(one)))
            self.browser.click("#add")
            self.assertEqual(self.text("conclusion"), "The lines do not prove the answer.")
            self.assertEqual(self.browser.console, [])

    def test_all_kinds(self):
        for kind in KINDS:
            with self.subTest(kind):
                answer = blossom.solve(TRIANGLES, kind, **WORDS.get(kind, {}))
                self.open(answer.to_html(positions=PLACES))
                self.browser.click("#add")
                self.assertEqual(self.text("weight"), str(answer.weight))
                self.assertRegex(self.text("conclusion"), "is optimal|maximum matching")
                self.assertEqual(self.browser.console, [])

    def test_fractions_and_large_numbers(self):
        for edges, words, weight in (
            ([("a", "b", 2.25)], {"scale": 8}, "2.25"),
            ([("a", "b", -(10**12)), ("c", "d", -(10**12))], {}, "-2000000000000"),
            ([("a", "b", 1 / 3)], {"scale": "finest"}, "\u2248 0.333333333"),
            ([], {}, "0"),
        ):
            self.open(blossom.min_weight_perfect_matching(edges, **words).to_html())
            self.browser.click("#add")
            self.assertEqual(self.text("weight"), weight)
            self.assertIn("is optimal", self.text("conclusion"))

    def test_an_answer_without_its_certificate(self):
        self.open(blossom.min_weight_perfect_matching(TRIANGLES, certificate=False).to_html())
        self.assertIn("solved without its certificate", self.text("proof"))
        self.assertTrue(self.browser.value("document.getElementById('add') === null"))
        self.assertEqual(self.browser.console, [])

    def test_hovering_tells_weights_and_duals(self):
        self.open(blossom.min_weight_perfect_matching(TRIANGLES).to_html(positions=PLACES))
        for part, told in (
            ("edge 6", "c \u2013 d: weight 10, used; duals 0.5 + 0.5 + 4.5 + 4.5, slack 0"),
            ("set 0", "dual 4.5"),
            ("node 0", "a: dual 0.5"),
        ):
            shapes = '#picture [data-part="%s"]' % part
            last = self.browser.value("document.querySelectorAll('%s').length" % shapes)
            self.assertGreater(last, 0)
            spot = self.browser.value(
                "(() => { const shapes = [...document.querySelectorAll('%s')];"
                " for (const shape of shapes) { const box = shape.getBoundingClientRect();"
                "  for (let i = 1; i < 20; i++) for (let j = 0; j <= 20; j++) {"
                "   const x = box.x + box.width * i / 20, y = box.y + box.height * j / 20;"
                "   const hit = document.elementFromPoint(x, y);"
                "   if (hit && hit.dataset.part === '%s') return [x, y]; } } return null; })()"
                % (shapes, part)
            )
            self.assertIsNotNone(spot, part)
            self.browser.mouse("mouseMoved", {"x": spot[0], "y": spot[1]})
            self.assertIn(told, self.text("told"))
            lit = self.browser.value("document.querySelectorAll('.lit').length")
            self.assertGreaterEqual(lit, last)
        self.browser.mouse("mouseMoved", {"x": 3, "y": 3})
        self.assertEqual(self.text("told"), "")

    def test_zoom_and_pan(self):
        self.open(blossom.min_weight_perfect_matching(TRIANGLES).to_html(positions=PLACES))

        def view():
            box = self.browser.value(
                "document.querySelector('#picture svg').getAttribute('viewBox')"
            )
            return [float(number) for number in box.split()]

        whole, middle = view(), self.browser.middle("#picture svg")
        self.browser.mouse("mouseWheel", middle, deltaX=0, deltaY=-120)
        nearer = view()
        self.assertAlmostEqual(nearer[2] * 1.2, whole[2], delta=0.01)
        self.browser.mouse("mousePressed", middle, button="left", clickCount=1)
        self.browser.mouse(
            "mouseMoved", {"x": middle["x"] - 40, "y": middle["y"]}, button="left", buttons=1
        )
        self.browser.mouse(
            "mouseReleased", {"x": middle["x"] - 40, "y": middle["y"]}, button="left"
        )
        moved = view()
        self.assertGreater(moved[0], nearer[0] + 5)
        self.assertAlmostEqual(moved[1], nearer[1], delta=0.5)
        self.browser.click("#whole")
        self.assertEqual(view(), whole)
        self.browser.click("#farther")
        self.assertAlmostEqual(view()[2], whole[2] * 1.4, delta=0.01)

    def test_a_screenshot(self):
        self.open(blossom.min_weight_perfect_matching(TRIANGLES).to_html(positions=PLACES))
        before = self.browser.screenshot(os.path.join(self.room.name, "before.png"))
        self.browser.click("#add")
        after = self.browser.screenshot(os.path.join(self.room.name, "after.png"))
        for shot in (before, after):
            self.assertEqual(shot[:8], b"\x89PNG\r\n\x1a\n")
            self.assertEqual(struct.unpack(">II", shot[16:24])[0], 1280)
            self.assertGreater(len(shot), 20_000)  # (an empty page takes some 5,000)
        self.assertNotEqual(before, after)
