#!/usr/bin/env python3
"""How the page is used and looked at: by the keyboard alone, by names and roles, in both themes, on a narrow screen, and with nothing from elsewhere."""
import re
import unittest

from case import EVERY_VIEW, DemoCase
from selenium.webdriver.common.keys import Keys
from servers import MODEL

# Of each piece of text that is seen: what it says, and the contrast to what is behind it. By the formulas of WCAG 2.1.
CONTRAST = """
const channel = (it) => { it /= 255; return it <= 0.04045 ? it / 12.92 : ((it + 0.055) / 1.055) ** 2.4; };
const light = ([r, g, b]) => 0.2126 * channel(r) + 0.7152 * channel(g) + 0.0722 * channel(b);
const colour = (text) => { const it = text.match(/[\\d.]+/g).map(Number); return it.length === 3 ? [...it, 1] : it; };
const over = (top, under) => top.slice(0, 3).map((it, at) => it * top[3] + under[at] * (1 - top[3]));
const behind = (element) => {
  const layers = [];
  for (let it = element; it; it = it.parentElement) { const one = colour(getComputedStyle(it).backgroundColor); if (one[3]) layers.push(one); if (one[3] === 1) break; }
  return layers.reduceRight((under, it) => over(it, under), [255, 255, 255]);
};
const walker = document.createTreeWalker(document.body, NodeFilter.SHOW_TEXT), found = [];
while (walker.nextNode()) {
  const text = walker.currentNode.data.trim(), element = walker.currentNode.parentElement, style = getComputedStyle(element);
  if (!text || !element.getClientRects().length || element.closest('.unseen, .skip, [disabled], option, title') || style.visibility === 'hidden') continue;
  const isDrawn = element.namespaceURI.endsWith('svg'), box = isDrawn && element.parentElement.querySelector('.box');
  const under = box ? colour(getComputedStyle(box).fill).slice(0, 3) : behind(element), ink = over(colour(isDrawn ? style.fill : style.color), under);
  const [a, b] = [light(ink), light(under)].sort((x, y) => y - x), size = parseFloat(style.fontSize), isLarge = size >= 24 || size >= 18.66 && +style.fontWeight >= 700;
  found.push([text.slice(0, 40), (a + 0.05) / (b + 0.05), isLarge ? 3 : 4.5]);
}
return found;
"""
# What can be reached and has no name, ids that are there twice, and fields without a label.
FAULTS = """
const found = [];
for (const it of document.querySelectorAll('a, button, input, select, textarea, [tabindex], [role=img]')) {
  if (!it.getClientRects().length) continue;
  const labels = [...(it.labels || [])].map((one) => one.textContent).join('');
  const name = it.getAttribute('aria-label') || it.getAttribute('title') || labels || it.textContent.trim() || (it.querySelector && it.querySelector('title') || {}).textContent;
  if (!name || !name.trim()) found.push(it.outerHTML.slice(0, 120));
}
const ids = [...document.querySelectorAll('[id]')].map((it) => it.id);
return [...found, ...ids.filter((it, at) => ids.indexOf(it) !== at).map((it) => 'id ' + it)];
"""


class Look(DemoCase, unittest.TestCase):
    words = MODEL

    def views(self):
        """Each view, once it has read what it shows: signed in as ada, with a run that has failed."""
        def failed():
            rows = self.ask("ada", "GET", "/api/v1/dags/payments.settle/dagRuns")[1]["dag_runs"]
            return next((it["dag_run_id"] for it in rows if it["state"] == "failed"), None)
        run = self.browser.wait(failed, "a run that has failed", 40).replace("+", "%2B")
        if self.browser.texts(".user") != ["ada"]:
            self.sign_in("ada")
        for view in [*EVERY_VIEW, "#/dags/{dag}?run={run}&task=close"]:
            route = view.format(dag="payments.settle", run=run)
            self.browser.go(route)
            self.browser.wait(lambda: self.browser.js("return location.hash === arguments[0] && document.querySelector('main h1') && !document.querySelector('[aria-busy=true]')", route), f"the view {route}")
            yield route

    def test_contrast_of_each_text(self):
        for theme in ("light", "dark"):
            self.browser.theme(theme)
            for route in self.views():
                found = self.browser.js(CONTRAST)
                self.assertGreater(len(found), 10)
                self.assertEqual([it for it in found if it[1] < it[2]], [], (theme, route))

    def test_names_and_headings(self):
        for route in self.views():
            self.assertEqual(self.browser.js(FAULTS), [], route)
            self.assertEqual(len(self.browser.all("h1")), 1, route)
            self.assertEqual(len(self.browser.all("main")), 1, route)
            self.assertTrue(self.browser.driver.title.endswith(" · afplane"), route)

    def test_a_narrow_screen(self):
        self.browser.size(360, 740)
        for route in self.views():
            wide, room = self.browser.js("return [document.documentElement.scrollWidth, document.documentElement.clientWidth]")
            self.assertLessEqual(wide, room, route)
            for it in self.browser.all(".places a"):
                self.assertTrue(it.rect["x"] >= 0 and it.rect["x"] + it.rect["width"] <= 360, route)

    def test_reduced_motion(self):
        self.sign_in("ada")
        knob = "return getComputedStyle(document.querySelector('.switch .knob')).transitionDuration"
        self.browser.one(".switch .knob")
        self.assertNotEqual(self.browser.js(knob), "0s")
        self.browser.theme("light", motion="reduce")
        self.assertEqual(self.browser.js(knob), "0s")

    def test_the_grid_by_keys(self):
        """One Tab stop; arrows, Home, End, Enter; the place stays while runs come."""
        self.sign_in("ada", "#/dags/payments.settle")
        self.browser.wait(lambda: self.browser.all("td.cell.is-upstream_failed"), "the grid", 40)
        self.assertEqual(len(self.browser.all("table.grid [tabindex='0']")), 1)
        self.browser.js("document.querySelector('table.grid [tabindex=\"0\"]').focus()")
        here = lambda: self.browser.js("return document.activeElement.title")
        self.browser.keys(Keys.HOME)
        first = here()
        self.assertRegex(first, "^export in ")
        self.browser.keys(Keys.ARROW_DOWN, Keys.ARROW_DOWN, Keys.ARROW_DOWN)
        self.assertRegex(here(), "^" + re.escape(f"close{first[len('export'):first.rindex(':')]}: "))
        self.browser.keys(Keys.ENTER)
        self.browser.see("Why", "It never ran, since its rule is all_success")
        self.assertIn("task=close", self.browser.driver.current_url)
        self.browser.keys(Keys.ARROW_LEFT)
        self.assertEqual(here(), "close")
        self.browser.keys(Keys.ARROW_UP, Keys.ARROW_UP, Keys.ARROW_UP, Keys.ARROW_UP, Keys.ARROW_RIGHT, Keys.ARROW_UP)
        self.assertRegex(here(), "^scheduled__.*: failed, took")
        self.browser.keys(Keys.ENTER)
        self.browser.see("Mark success")
        self.assertEqual(len(self.browser.all("table.grid [tabindex='0']")), 1)

    def test_by_the_keyboard_alone(self):
        """From the sign-in to a paused DAG and back, with Tab, Space, Enter and Escape."""
        self.browser.open("#/dags")
        self.browser.keys("ada-demo-token", Keys.ENTER)
        self.browser.wait(lambda: len(self.browser.rows("DAGs")) == 7, "the DAGs")
        def tab_to(wanted):
            for _ in range(60):
                self.browser.keys(Keys.TAB)
                at = self.browser.js("const it = document.activeElement; return it.getAttribute('aria-label') || it.innerText.trim()")
                if at == wanted:
                    outline = self.browser.js("const it = getComputedStyle(document.activeElement); return [it.outlineStyle, parseFloat(it.outlineWidth)]")
                    self.assertTrue(outline[0] != "none" and outline[1] >= 2, "what has the focus shows it")
                    return
            self.fail(f"Tab does not reach {wanted!r}")
        tab_to("search.purge is active")
        self.browser.keys(Keys.SPACE)
        self.browser.see("search.purge is active.")
        self.browser.keys(Keys.SPACE)
        self.browser.see("search.purge is paused")
        tab_to("Trigger search.purge")
        self.browser.keys(Keys.ENTER)
        self.browser.wait(lambda: self.browser.js("return document.activeElement.name") == "name", "the first field")
        self.browser.keys(Keys.ESCAPE)
        self.browser.wait(lambda: self.browser.js("return document.activeElement.getAttribute('aria-label')") == "Trigger search.purge",
            "the focus where it was")
        self.browser.go("#/me")
        self.browser.wait(lambda: self.browser.js("return document.activeElement.id") == "title", "the focus on the head of the view")

    def test_a_skip_link(self):
        self.sign_in("ada", "#/pools")
        self.browser.see("gateway")
        self.browser.js("document.querySelector('.skip').focus()")
        self.assertEqual(self.browser.js("return document.querySelector('.skip') === document.querySelector('a, button')"), True)
        self.browser.keys(Keys.ENTER)
        self.assertEqual(self.browser.js("return document.activeElement.id"), "title")

    def test_nothing_from_elsewhere(self):
        list(self.views())
        names = self.browser.js("return performance.getEntriesByType('resource').map((it) => it.name)")
        self.assertGreater(len(names), 20)
        self.assertEqual([it for it in names if not it.startswith(f"{self.page.base}/")], [])

    def test_the_policy_of_contents_holds(self):
        """An inline script, a style in markup, an address elsewhere, a form and a frame are refused by the browser itself."""
        self.sign_in("ada", "#/me")
        found = self.browser.driver.execute_async_script("""
            const done = arguments[0], refused = [];
            document.addEventListener('securitypolicyviolation', (it) => refused.push(it.effectiveDirective));
            const add = (name, properties) => document.body.append(Object.assign(document.createElement(name), properties));
            add('script', {textContent: 'window.hit = 1'});
            document.body.setAttribute('style', 'color: red');
            add('img', {src: 'http://127.0.0.1:9/x.png'});
            add('iframe', {src: 'http://127.0.0.1:9/'});
            fetch('http://127.0.0.1:9/').catch(() => 0);
            const form = document.createElement('form');
            form.action = '/api/v1/version';
            document.body.append(form);
            form.submit();
            setTimeout(() => done([refused.sort(), window.hit]), 1000);
        """)
        self.assertEqual(found[1], None)
        self.assertEqual(sorted(set(found[0])), ["connect-src", "form-action", "frame-src", "img-src", "script-src-elem", "style-src-attr"])
        self.browser.complaints()
        self.browser.open()


if __name__ == "__main__":
    unittest.main()
