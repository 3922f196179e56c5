"""What tests/service_page looks at for those who see little, or use no mouse: names, contrasts, focus, roles, narrow and large screens."""
from selenium.webdriver.common.keys import Keys

from browsers import begins, cases, eventually

# What is wrong with names, roles and references, as rules of accessibility have it.
RULES = """
const wrong = [];
const shown = [...document.querySelectorAll("body *")].filter((it) => it.checkVisibility());
const ids = [...document.querySelectorAll("[id]")].map((it) => it.id);
if (new Set(ids).size < ids.length) wrong.push("an id that is there twice");
for (const it of document.querySelectorAll("[aria-labelledby], [aria-describedby], [aria-controls]"))
  for (const name of ["aria-labelledby", "aria-describedby", "aria-controls"])
    for (const id of (it.getAttribute(name) ?? "").split(" ").filter(Boolean)) if (!ids.includes(id)) wrong.push(`${name} of nothing: ${id}`);
for (const it of shown) {
  if (it.matches("input, select, textarea") && !it.labels.length && !it.getAttribute("aria-label") && !it.getAttribute("aria-labelledby")) wrong.push(`no label: ${it.id}`);
  if (it.matches("button, a, summary") && !it.textContent.trim() && !it.getAttribute("aria-label")) wrong.push("a control without words");
  if (it.matches("section, nav") && !it.getAttribute("aria-labelledby")) wrong.push("a part without a title");
  if (it.hasAttribute("tabindex") && Number(it.getAttribute("tabindex")) > 0) wrong.push("an order of its own");
  if (it.matches("[aria-hidden=true] *") && it.tabIndex >= 0) wrong.push("something hidden that has the focus");
  if (it.matches("[tabindex='0']") && !it.matches("button, input, textarea, select, a") && !it.getAttribute("aria-label") && !it.getAttribute("aria-labelledby")) wrong.push(`no name: ${it.id || it.tagName}`);
  if (it.matches("li") && !it.closest("ul, ol")) wrong.push("a row of no list");
  const role = it.getAttribute("role");
  if (role && !["status", "group"].includes(role)) wrong.push(`another role: ${role}`);
}
let level = 0;
for (const it of shown.filter((each) => /^H[1-6]$/.test(each.tagName))) {
  if (Number(it.tagName[1]) > level + 1) wrong.push(`a heading that leaves a level out: ${it.textContent}`);
  level = Number(it.tagName[1]);
}
if (!document.documentElement.lang || !document.title) wrong.push("no language or no title");
return wrong;"""

# Texts whose contrast is below 4.5, by the formula of WCAG.
CONTRAST = """
const parts = (colour) => colour.match(/[0-9.]+/g).map(Number);
const light = ([red, green, blue]) => [red, green, blue].map((it) => it / 255).map((it) => (it <= 0.04045 ? it / 12.92 : ((it + 0.055) / 1.055) ** 2.4)).reduce((sum, it, at) => sum + it * [0.2126, 0.7152, 0.0722][at], 0);
const under = (it) => {
  for (let up = it; up; up = up.parentElement) {
    const found = parts(getComputedStyle(up).backgroundColor);
    if (found.length < 4 || found[3] > 0) return found;
  }
  return [255, 255, 255];
};
const weak = [];
for (const it of document.querySelectorAll("body *")) {
  const own = [...it.childNodes].some((node) => node.nodeType === 3 && node.data.trim() && node.data !== "\\u200b");
  const field = it.matches("input, select, textarea:not(#text)");
  if (!(own || field) || !it.checkVisibility() || it.disabled || it.matches("#text, option, .skip")) continue;
  const [one, other] = [light(parts(getComputedStyle(it).color)), light(under(it))];
  const ratio = (Math.max(one, other) + 0.05) / (Math.min(one, other) + 0.05);
  if (ratio < 4.5) weak.push(`${it.tagName}.${it.className} ${ratio.toFixed(2)} ${it.textContent.slice(0, 30)}`);
}
const lines = document.getElementById("marks");
for (const name of CSS.highlights.keys()) {
  const found = parts(getComputedStyle(lines, `::highlight(${name})`).backgroundColor);
  if (found.length === 4 && found[3] === 0) continue;
  const [one, other] = [light(parts(getComputedStyle(lines).color)), light(found)];
  const ratio = (Math.max(one, other) + 0.05) / (Math.min(one, other) + 0.05);
  if (ratio < 4.5) weak.push(`${name} ${ratio.toFixed(2)}`);
}
return weak;"""

# Whether the focus of the control that has it is seen.
FOCUS = """
const it = document.activeElement;
const outlined = [it, it.closest(".pane")].filter(Boolean).map((each) => getComputedStyle(each)).some((style) => style.outlineStyle !== "none" && parseFloat(style.outlineWidth) >= 2);
return [outlined, it.id || it.textContent.slice(0, 30) || it.tagName];"""


def rules(page):
    """The page with all that it shows: a statement with matches, findings, tests, a trace, an edit."""
    eventually("the text", lambda: page.text("text"), "k1=v1\nk2=v2\n")
    by_keys(page)
    filled(page)
    for name, width, height, scale in ("1280 pixels", 1280, 900, 1), ("390 pixels", 390, 844, 1), ("200 %", 640, 450, 2):
        for is_dark in False, True:
            page.sized(width, height, scale)
            page.dark(is_dark)
            how = f"{name}{', dark' if is_dark else ''}"
            cases.expect(f"contrasts at {how}", page.script(CONTRAST), [])
            cases.expect(f"names and roles at {how}", page.script(RULES), [])
            wide = page.script("return document.documentElement.scrollWidth")
            cases.check(wide <= width, f"nothing lies outside at {how}", wide)
            small = page.script("return [...document.querySelectorAll('button, input, select')].filter((it) => it.checkVisibility()).filter((it) => it.getBoundingClientRect().height < (it.type === 'checkbox' ? 12 : 24)).map((it) => it.id || it.textContent)")
            cases.expect(f"controls that are too small at {how}", small, [])
    page.dark(False)
    page.cdp("Emulation.clearDeviceMetricsOverride")
    focus(page)


def by_keys(page):
    """A statement is written and submitted by keys alone."""
    page.script("document.activeElement.blur(); document.getElementById('skip').focus()")
    page.focused().send_keys(Keys.ENTER)
    eventually("the first link leads to the pattern", lambda: page.focused().get_attribute("id"), "pattern")
    page.focused().send_keys("'v1'")
    page.focused().send_keys(Keys.TAB)
    page.focused().send_keys("'w1'")
    eventually("a preview", page.change, (["v1"], ["w1"]))
    for _ in range(9):
        page.focused().send_keys(Keys.TAB)
        if page.focused().get_attribute("id") == "submit":
            break
    page.focused().send_keys(Keys.ENTER)
    begins("it is accepted", lambda: page.text("outcome"), "Accepted as entry 0")
    eventually("the new text", lambda: page.text("text"), "k1=w1\nk2=v2\n")


def filled(page):
    """All parts of the page, with something in each."""
    page.fill("pattern", "SPAN('k12') . K '=' SPAN('vw12') . V")
    page.fill("object", "WHAT")
    begins("a warning", lambda: page.text("findings"), "warning: ")
    eventually("marks", lambda: len(page.marks()), 2)
    page.at("case-add").click()
    page.focused().send_keys("k1=")
    begins("a test that doesn't hold", lambda: page.text("cases-line"), "0 of 1")
    page.at("copy-shell").click()
    eventually("a copy", lambda: page.at("copied").is_displayed(), True)
    page.script("document.getElementById('reference').open = true")
    page.at("text").click()
    page.at("text").send_keys("x")
    eventually("an edit", lambda: page.at("editing").is_displayed(), True)
    page.at("trace-button").click()
    eventually("a trace", lambda: page.at("trace").is_displayed(), True)


def focus(page):
    """Each control that Tab comes to shows that it has the focus."""
    page.script("document.activeElement.blur(); scrollTo(0, 0); document.getElementById('skip').focus()")
    # What a script has focused shows it only after a key.
    page.focused().send_keys(Keys.TAB)
    page.focused().send_keys(Keys.SHIFT, Keys.TAB)
    unseen, reached = [], 0
    for _ in range(120):
        is_seen, name = page.script(FOCUS)
        if page.focused().tag_name == "body":
            break
        reached += 1
        if not is_seen:
            unseen.append(name)
        page.focused().send_keys(Keys.TAB)
    cases.check(reached > 40, "controls that Tab comes to", reached)
    cases.expect("controls whose focus isn't seen", unseen, [])
