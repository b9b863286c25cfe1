#!/usr/bin/env python3
"""The contrast of the colours of ui/style.css, computed by the formulas of WCAG 2.1 for the light and the dark theme. Text has 4.5 to 1, shapes have 3 to 1.

  python3 conformance/ui_style_test.py
"""
import pathlib
import re
import sys
import unittest

UI = pathlib.Path(__file__).resolve().parents[1] / "ui"
STYLE, GLYPHS = ((UI / name).read_text(encoding="utf-8") for name in ("style.css", "glyphs.svg"))
STATES = ("none", "scheduled", "queued", "running", "success", "failed", "up_for_retry", "upstream_failed", "skipped")
BACKS = ("paper", "raised")
# Of each pair, what is in front and behind.
TEXTS = [(ink, back) for ink in ("ink", "soft", "accent", "danger", "well") for back in BACKS] + [("ink", "accent-wash"), ("accent", "accent-wash"),
    ("soft", "accent-wash"), ("accent-ink", "accent"), ("danger-ink", "danger"),
         ("ink", "danger-wash"), ("danger", "danger-wash"), ("ink", "warn-wash"), ("soft", "warn-wash"), ("accent", "warn-wash")]
SHAPES = [("edge", back) for back in BACKS] + [("accent", back) for back in BACKS] + [("warn", "warn-wash"), ("accent-ink", "accent"), ("edge", "raised")]


def properties(text):
    return dict(re.findall(r"--([\w-]+): (#[0-9a-f]{6});", text))


def themes():
    light, dark = re.search(r"(?s):root \{(.*?)\n\}.*?prefers-color-scheme: dark\) \{\s*:root \{(.*?)\n  \}", STYLE).groups()
    return {"light": properties(light), "dark": {**properties(light), **properties(dark)}}


def light_of(colour):
    """The relative luminance."""
    parts = [int(colour[at:at + 2], 16) / 255 for at in (1, 3, 5)]
    parts = [it / 12.92 if it <= 0.04045 else ((it + 0.055) / 1.055) ** 2.4 for it in parts]
    return 0.2126 * parts[0] + 0.7152 * parts[1] + 0.0722 * parts[2]


def contrast(one, other):
    dark, light = sorted((light_of(one), light_of(other)))
    return (light + 0.05) / (dark + 0.05)


class Contrast(unittest.TestCase):
    def test_the_formula(self):
        """Values of the standard and of its tools: black on white, and the grey that has just 4.5."""
        self.assertAlmostEqual(contrast("#000000", "#ffffff"), 21)
        self.assertAlmostEqual(contrast("#767676", "#ffffff"), 4.54, 2)
        self.assertAlmostEqual(contrast("#ff0000", "#ffffff"), 4.0, 2)

    def test_texts(self):
        for theme, colours in themes().items():
            for front, behind in TEXTS:
                self.assertGreaterEqual(contrast(colours[front], colours[behind]), 4.5, (theme, front, behind))

    def test_shapes(self):
        for theme, colours in themes().items():
            for front, behind in SHAPES:
                self.assertGreaterEqual(contrast(colours[front], colours[behind]), 3, (theme, front, behind))

    def test_states(self):
        """The edge of a square on the page, and the shape in it on its colour."""
        for theme, colours in themes().items():
            for it in STATES:
                for back in BACKS:
                    self.assertGreaterEqual(contrast(colours[f"{it}-edge"], colours[back]), 3, (theme, it, back))
                self.assertGreaterEqual(contrast(colours[f"{it}-ink"], colours[it]), 4.5, (theme, it))

    def test_each_state_has_a_colour_and_a_shape_of_its_own(self):
        for colours in themes().values():
            self.assertEqual(len({colours[it] for it in STATES}), len(STATES))
        places = re.findall(r"\.is-(\w+) \{ --shape: (\S+) var\(--(\w+)-row\); \}", STYLE)
        self.assertEqual(sorted(it[0] for it in places), sorted(set(STATES) - {"none"}))
        self.assertEqual({it[0] == it[2] for it in places}, {True})
        rows = [re.findall(r'translate\((\d+) \d+\)" d="([^"]+)"', it) for it in re.findall(r"(?s)<g (.*?)</g>", GLYPHS)]
        self.assertEqual(rows[0], rows[1])
        self.assertEqual(sorted(-int(it[1].replace("px", "")) for it in places), [int(at) for at, _ in rows[0]])
        self.assertEqual(len({path for _, path in rows[0]}), len(places))

    def test_glyphs_have_the_inks_that_are_computed(self):
        """The row of glyphs.svg that a state takes has the state's ink."""
        inks = dict(zip(("0", "-16px"), re.findall(r'<g fill="(#[0-9a-f]{6})"', GLYPHS)))
        for theme, text in zip(("light", "dark"), STYLE.split("@media (prefers-color-scheme: dark)")):
            found = re.findall(r"--(\w+)-ink: (#[0-9a-f]{6}); --\1-row: (\S+);", text.split("*, ::before")[0])
            self.assertEqual(len(found), len(STATES) - 1, theme)
            for state, ink, row in found:
                self.assertEqual(inks[row], ink, (theme, state))

    def test_colours_are_properties_alone(self):
        """A colour that stands elsewhere would not be tested here: only shadows have some."""
        rest = re.sub(r"--[\w-]+: #[0-9a-f]{6};", "", STYLE)
        self.assertEqual(re.findall(r"#[0-9a-f]{3,8}\b", rest), [])
        self.assertEqual(set(re.findall(r"rgb\([^)]*\)", rest)), {"rgb(0 0 0 / 18%)", "rgb(0 0 0 / 30%)", "rgb(10 15 20 / 45%)"})


if __name__ == "__main__":
    sys.exit(unittest.main())
