"""What tests/service_page looks at of the playground: marks, explanations, tests, links and copies."""
import ast
import json
import re
import subprocess
import urllib.parse

from selenium.webdriver.common.keys import Keys

from browsers import MATCHES, VARIABLES, begins, cases, eventually, sent
from lib import TOP

PAIRS = "k1=v1\nk2=v2\n"
PAIR = "SPAN('k12') . K '=' SPAN('v12') . V"
# Requests that the page of one's own text may send, beside those for its files.
LOOKS = "/definitions", "/findings", "/preview", "/trials", "/trace", "/tries"


def playground(page, service, sno, folder):
    own(page)
    marked(page)
    placed(page)
    explained(page)
    found(page)
    listed(page, service)
    tested(page)
    linked(page, service)
    copied(page, sno, folder)
    many(page)
    small_and_dark(page)
    refused(page)


def own_text(page, text):
    """Puts a text into the pane, as pasting does."""
    page.at("text").click()
    page.script("const field = document.getElementById('text'); field.value = arguments[0]; field.dispatchEvent(new Event('input'))", text)


def own(page):
    """A text of one's own stays in the browser."""
    eventually("what is only for shared texts is hidden", lambda: [page.at(name).is_displayed() for name in ("texts", "journal", "submit")], [False, False, False])
    page.fill("text", PAIRS)
    eventually("the text that was typed", lambda: page.text("text"), PAIRS)
    page.fill("pattern", PAIR)
    eventually("its matches", lambda: page.marks(), ["k1=v1", "k2=v2"])
    page.driver.refresh()
    eventually("the text after a reload", lambda: page.text("text"), PAIRS)
    eventually("the pattern after a reload", lambda: page.text("pattern"), PAIR)
    cases.check("k1%3Dv1" not in page.address() and "k1=v1" not in page.address(), "the text isn't in the address", page.address())
    paths = page.script("return performance.getEntriesByType('resource').map((it) => new URL(it.name).pathname)")
    others = [path for path in paths if path not in LOOKS and not path.startswith("/page") and path != "/favicon.ico"]
    cases.expect("requests but for files and looks", others, [])


def marked(page):
    """All matches with their variables, and the way from one to the next."""
    eventually("the matches", lambda: page.marks(), ["k1=v1", "k2=v2"])
    eventually("the variables", lambda: page.marks(*VARIABLES), ["k1", "v1", "k2", "v2"])
    cases.expect("a name for each colour", [name for _, _, name in page.painted(*VARIABLES)], ["v0", "v1", "v0", "v1"])
    colours = page.script("return [0, 1, 2, 3, 4, 5, 6, 7].map((it) => getComputedStyle(document.getElementById('marks'), `::highlight(v${it})`).backgroundColor)")
    cases.check(len({*colours}) == 8 and "rgba(0, 0, 0, 0)" not in colours, "a colour for each variable", colours)
    cases.expect("the variables of the current match", page.texts("#variables li"), ["K = k1", "V = v1"])
    # SPAN, '=' and SPAN are met once each.
    begins("the first match", lambda: page.text("match-line"), "Match 1 of 2, from 0 to 5; the statement takes 3 trials, ")
    cases.check(re.search(r", [0-9]+\.[0-9] ms$", page.text("match-line")), "its time", page.text("match-line"))
    page.at("pattern").send_keys(Keys.F3)
    begins("the second match", lambda: page.text("match-line"), "Match 2 of 2, from 6 to 11; ")
    eventually("it is the current one", lambda: page.marks("current"), ["k2=v2"])
    page.at("pattern").send_keys(Keys.F3)
    begins("the first one again", lambda: page.text("match-line"), "Match 1 of 2")
    page.at("pattern").send_keys(Keys.SHIFT, Keys.F3)
    begins("and back", lambda: page.text("match-line"), "Match 2 of 2")
    for number, (variable, name) in enumerate((("v0", "K"), ("v1", "V"), ("v0", "K"), ("v1", "V"))):
        under(page, variable, number // 2)
        value = ("k1", "v1", "k2", "v2")[number]
        eventually(f"{value} under the mouse", lambda: page.text("hover"), f"{name} = {value}")
    page.cdp("Input.dispatchMouseEvent", type="mouseMoved", x=2, y=2)
    page.tick("all", True)
    page.fill("object", "V '=' K")
    eventually("each change", page.change, (["k1=v1", "k2=v2"], ["v1=k1", "v2=k2"]))
    page.tick("all", False)
    page.fill("object", "")


def under(page, name, number):
    """Moves the mouse to the last character of a mark."""
    place = page.script("""
        const { endContainer, endOffset } = [...CSS.highlights.get(arguments[0])][arguments[1]];
        const last = document.createRange();
        last.setStart(endContainer, endOffset - 1);
        last.setEnd(endContainer, endOffset);
        document.getElementById("pane").scrollIntoView();
        const box = last.getBoundingClientRect();
        return [box.x + 0.8 * box.width, box.y + box.height / 2];""", name, number)
    page.cdp("Input.dispatchMouseEvent", type="mouseMoved", x=place[0], y=place[1])


def current_variables(page):
    """The marks of variables in the current match: the name, the characters, and the cursor."""
    (start, whole, _), = page.painted("current")
    names = dict(page.script("return [...document.querySelectorAll('#variables .variable')].map((it) => [it.classList[1], it.textContent])"))
    found = page.painted(*VARIABLES)
    return [f"{names[name]} = {text} {cursor}" for cursor, text, name in found if start <= cursor <= start + len(whole)]


def small_and_dark(page):
    """What is seen while one types, on a small screen in the dark, and a statement that is changed by keys alone."""
    page.sized(390, 844)
    page.dark(True)
    own_text(page, PAIRS)
    page.fill("pattern", PAIR)
    marked(page)
    explained(page)
    page.script("document.activeElement.blur(); document.getElementById('skip').focus()")
    page.focused().send_keys(Keys.ENTER)
    page.focused().send_keys(Keys.CONTROL, "a")
    page.focused().send_keys("LEN(1) . C '2'")
    eventually("a match of what keys typed", lambda: page.marks("current"), ["k2"])
    for _ in range(20):
        page.focused().send_keys(Keys.TAB)
        if page.focused().get_attribute("id") == "case-add":
            break
    page.focused().send_keys(Keys.ENTER)
    eventually("a test that keys add", lambda: page.focused().get_attribute("aria-label"), "Text of test 1")
    page.focused().send_keys("x2", Keys.TAB, Keys.ENTER)
    eventually("and take away", lambda: page.texts("#cases li"), [])
    page.dark(False)
    page.cdp("Emulation.clearDeviceMetricsOverride")


def placed(page):
    """The places of variables, of matches that back up: as docs/LANGUAGE.md has them."""
    for text, pattern, anchored, wanted in (
        ("abcd", "('a' | 'ab') . X ('b' | 'cd' | 'bc') . Y RPOS(0)", False, ["X = ab 0", "Y = cd 2"]),
        ("abc", "ARBNO(LEN(1) . Y | LEN(2) . Y) RPOS(0)", True, ["Y = c 2"]),
        ("f(x,y),z", "BAL . A ','", True, ["A = f(x,y) 0"]),
        ("abc", "LEN(1) $ C 'c'", False, ["C = b 1"]),
        ("abcdef", "TAB(2) . A TAB(4) . B RTAB(1) . C REM . D", False, ["A = ab 0", "B = cd 2", "C = e 4", "D = f 5"]),
        ("<b>bold</b>", "'<' ARB . T '>' RPOS(0)", False, ["T = b>bold</b 1"]),
        ("a=b=c", "BREAK('=') . K '=c'", False, ["K = b 2"]),
        ("12 34", "NUMBER . N ' '", False, ["N = 12 0"]),
    ):
        own_text(page, text)
        page.tick("anchored", anchored)
        page.fill("pattern", pattern)
        eventually(f"places of {pattern}", lambda: current_variables(page), wanted)
    page.tick("anchored", False)


def explained(page):
    """The tree of the pattern in words, and the part at the caret."""
    own_text(page, PAIRS)
    page.fill("pattern", "BREAK('=') . K '=' ('v1' | LEN(2)) RPOS(0)")
    rows = [
        ("BREAK('=') . K '=' ('v1' | LEN(2)) RPOS(0)", "these, one after the other"),
        ("BREAK('=') . K", "once the whole match has succeeded, K is what this matched"),
        ("BREAK('=')", "up to the next =, which isn't taken"),
        ("'='", "the characters ="),
        ("('v1' | LEN(2))", "one of these; they are tried in this order"),
        ("'v1'", "the characters v1"),
        ("LEN(2)", "any 2 characters"),
        ("RPOS(0)", "the end of the text"),
    ]
    script = "return [...document.querySelectorAll('#explained button')].map((it) => [it.querySelector('code').textContent, it.querySelector('.words').textContent])"
    eventually("the pattern in words", lambda: [tuple(row) for row in page.script(script)], rows)
    depths = "return [...document.querySelectorAll('#explained button')].map((it) => { let depth = 0; for (let up = it; up.id !== 'explained'; up = up.parentElement) depth += up.tagName === 'UL'; return depth; })"
    cases.expect("its tree", page.script(depths), [0, 1, 2, 1, 1, 2, 2, 1])
    page.fill("pattern", "BREAK('=') . K '=' ('v1' | LEN(2))")
    eventually("a match", lambda: page.marks("current"), ["k1=v1"])
    for place, part in (3, "k1"), (17, "="), (23, "v1"):
        page.script("const field = document.getElementById('pattern'); field.focus(); field.setSelectionRange(arguments[0], arguments[0])", place)
        eventually(f"the part at {place}", lambda: page.marks("part"), [part])
    eventually("the part in the tree", lambda: page.texts("#explained [aria-current] code"), ["'v1'"])
    page.script("document.querySelectorAll('#explained button')[1].click()")
    selection = "const field = document.getElementById('pattern'); return field.value.slice(field.selectionStart, field.selectionEnd)"
    eventually("a part that is pressed is selected", lambda: page.script(selection), "BREAK('=') . K")


def found(page):
    """Findings under the pattern, and how far a match came that failed."""
    page.fill("pattern", "'k1'| 'k2'")
    eventually("a finding with its caret", lambda: page.texts("#findings pre"), ["'k1'| 'k2'\n    ^ a blank is wanted before |"])
    eventually("what can't be read isn't explained", lambda: page.texts("#explained code"), [])
    own_text(page, "host=example.org\n")
    page.fill("pattern", "POS(0) BREAK('=') '=' ('here' | 'there')")
    eventually("how far it came", lambda: page.texts("#preview p")[-1], "The farthest cursor was 17, where POS(0) was wanted.")
    page.tick("anchored", True)
    eventually("how far it came, anchored", lambda: page.texts("#preview p")[-1], "The farthest cursor was 5, where 'here' or 'there' was wanted.")
    page.tick("anchored", False)


def listed(page, service):
    """The quick reference has the rows of docs/LANGUAGE.md, and each example can be inserted."""
    table = (TOP / "docs/LANGUAGE.md").read_text().partition("## All patterns")[2].partition("## ")[0]
    rows = [line.replace("\\|", "\0").split("|") for line in table.splitlines() if line.startswith("| `")]
    wanted = [(row[1].replace("`", "").replace("\0", "|").strip(), row[2].replace("`", "").strip()) for row in rows]
    script = "return [...document.querySelectorAll('#reference-rows tr')].map((it) => [...it.children].map((cell) => cell.textContent))"
    shown = page.script(script)
    cases.check(len(wanted) > 20, "rows of docs/LANGUAGE.md", len(wanted))
    cases.expect("rows of the quick reference", [tuple(row[:2]) for row in shown], wanted)
    for _, _, button in shown:
        example = button.removeprefix("Insert ")
        found = sent(service, "/findings", {"own": "x", "pattern": example})
        cases.expect(f"findings of {example}", found["errors"], [])
    page.at("reference").click()
    inserted = """
        const [field, made] = [document.getElementById("pattern"), []];
        for (const button of document.querySelectorAll("#reference-rows button")) {
          field.value = "";
          button.click();
          made.push(`Insert ${field.value}`);
        }
        return made;"""
    cases.expect("what each row inserts", page.script(inserted), [row[2] for row in shown])
    page.fill("pattern", "'a'")
    page.script("document.querySelectorAll('#reference-rows button')[9].click()")
    eventually("an example is inserted", lambda: page.text("pattern"), "'a' ANY('aeiou')")
    eventually("where the next keys go", lambda: page.focused().get_attribute("id"), "pattern")
    page.script("document.getElementById('reference').open = false")


def tested(page):
    """Texts that must match, with what is so while one types."""
    page.fill("pattern", "'a' | 'ab'")
    for number, (text, demand) in enumerate((("ab", "whole"), ("xab", "somewhere"), ("b", "not"), ("cab", "whole"), ("a", "not")), 1):
        page.at("case-add").click()
        page.focused().send_keys(text)
        page.script("const it = document.querySelectorAll('#cases select')[arguments[0]]; it.value = arguments[1]; it.dispatchEvent(new Event('input'))", number - 1, demand)
    results = ["holds", "holds", "holds", "doesn't hold: it matches only a part", "doesn't hold: it matches"]
    eventually("what is so of each", lambda: page.texts("#cases .case-result"), results)
    eventually("how many hold", lambda: page.text("cases-line"), "3 of 5 hold.")
    page.fill("pattern", "'c' 'ab' | 'b'")
    eventually("of another pattern", lambda: page.texts("#cases .case-result")[3], "holds")
    in_address = lambda name: urllib.parse.parse_qs(page.address().partition("#")[2]).get(name)
    eventually("they are in the address", lambda: in_address("test"), ["whole:ab", "somewhere:xab", "not:b", "whole:cab", "not:a"])
    # What is typed comes into the address a moment later.
    eventually("so is the pattern", lambda: in_address("pattern"), ["'c' 'ab' | 'b'"])
    page.driver.refresh()
    eventually("after a reload", lambda: page.script("return [...document.querySelectorAll('#cases li')].map((it) => it.querySelector('select').value + ' ' + it.querySelector('input').value)"), ["whole ab", "somewhere xab", "not b", "whole cab", "not a"])
    eventually("their results after a reload", lambda: page.texts("#cases .case-result")[3], "holds")
    for _ in range(5):
        page.script("document.querySelector('#cases li button').click()")
    eventually("none is left", lambda: (page.texts("#cases .case-result"), page.text("cases-line")), ([], ""))


def linked(page, service):
    """A link has the statement, the text and its version."""
    sent(service, "/statements", {"text": "link", "pattern": "'one'", "object": "'two'"})
    page.driver.get("about:blank")
    page.driver.get(service.url + "/#" + urllib.parse.urlencode({"text": "link", "version": 0, "pattern": "'t' . X", "object": "X X", "anchored": "", "repeat": "2", "test": "whole:t"}))
    eventually("the text of the link", lambda: page.text("text"), "two")
    eventually("its statement", lambda: [page.text("pattern"), page.text("object"), page.text("repeat"), page.at("anchored").is_selected(), page.at("all").is_selected()], ["'t' . X", "X X", "2", True, False])
    begins("its version is an older one", lambda: page.text("version-note"), "The address was made at version 0; the text has version 1 by now.")
    cases.expect("its tests", page.script("return [...document.querySelectorAll('#cases input')].map((it) => it.value)"), ["t"])
    page.at("copy-link").click()
    eventually("the link that is copied", lambda: page.text("copied"), page.address())
    page.driver.get("about:blank")
    page.driver.get(service.url + "/play")


def copied(page, sno, folder):
    """A line for the shell does what the preview shows; JSON and Python mean the same, and C can be compiled."""
    text = "it's 12 and 345\n"
    own_text(page, text)
    page.fill("pattern", "NUMBER . N | \"it's\"")
    page.fill("object", "'<' N '>'")
    page.tick("all", True)
    eventually("the changes", page.change, (["it's", "12", "345"], ["<>", "<12>", "<345>"]))
    page.at("copy-shell").click()
    eventually("a line for the shell", lambda: page.text("copied").startswith("sno edit "), True)
    path = folder / "FILE"
    path.write_text(text)
    ran = subprocess.run(["sh", "-c", page.text("copied").replace("sno edit", f"{sno} edit", 1)], cwd=folder, capture_output=True, text=True)
    cases.expect("what it does", (ran.returncode, path.read_text()), (0, "<> <12> and <345>\n"))
    statement = {"pattern": "NUMBER . N | \"it's\"", "object": "'<' N '>'", "all": True}
    page.at("copy-json").click()
    eventually("as JSON", lambda: json.loads(page.text("copied")), {"text": "FILE", **statement})
    page.at("copy-python").click()
    eventually("as Python", lambda: statement_in(page.text("copied")), statement)
    page.at("copy-c").click()
    eventually("as C", lambda: page.text("copied").startswith("#include"), True)
    source = folder / "rule.c"
    source.write_text(page.text("copied") + "\nint main(void) { sno_pattern pattern; uint8_t line[9]; size_t length; return open_rule(&pattern, line, 9, &length); }\n")
    compiled = subprocess.run(["cc", "-std=c11", "-Wall", "-Werror", "-fsyntax-only", f"-I{TOP / 'embed'}", source], capture_output=True, text=True)
    cases.expect("a compiler takes it", (compiled.returncode, compiled.stderr), (0, ""))
    page.tick("all", False)


def statement_in(source):
    """The members of the statement in a piece of Python."""
    call = next(it for it in ast.walk(ast.parse(source)) if isinstance(it, ast.Call) and getattr(it.func, "id", "") == "Statement")
    return {"pattern": ast.literal_eval(call.args[1]), **{word.arg: ast.literal_eval(word.value) for word in call.keywords}}


def refused(page):
    """A text that is too long has no preview, and no marks of the text before."""
    own_text(page, "x" * 65_537)
    eventually("why there is no preview", lambda: page.text("preview"), "There is no preview: a text is ASCII, of at most 65536 characters.")
    cases.expect("no marks", (page.marks(), page.text("match-line")), ([], ""))
    own_text(page, PAIRS)
    eventually("marks again", lambda: page.marks("current"), ["k2"])
    # The browser reports the refusal, too.
    page.driver.get_log("browser")


def in_sight(page, what, number):
    """Counts a case by the marks around a line, each of whose lines begins with a match."""
    around = lambda: [(cursor, text) for cursor, text, _ in page.painted(*MATCHES) if abs(cursor // 66 - number) <= 5]
    eventually(what, around, [(66 * line, "x") for line in range(max(0, number - 5), min(978, number + 6))])


def many(page):
    """978 replacements in a long text are 978 changes; what is out of sight is scrolled to."""
    line = "x" + "-" * 64 + "\n"
    text = line * 978
    own_text(page, text)
    page.fill("pattern", "'x'")
    page.fill("object", "'yy'")
    page.tick("all", True)
    eventually("978 changes", lambda: (len(page.change()[0]), len(page.change()[1]), {*page.change()[1]}), (978, 978, {"yy"}))
    begins("978 matches", lambda: page.text("match-line"), "Match 1 of 978, from 0 to 1")
    in_sight(page, "the first marks", 0)
    page.at("previous-match").click()
    begins("the last match", lambda: page.text("match-line"), f"Match 978 of 978, from {977 * 66} to {977 * 66 + 1}")
    inside = "const [mark, pane] = [document.querySelector('#boxes .current'), document.getElementById('pane')].map((it) => it.getBoundingClientRect()); return mark.top >= pane.top && mark.bottom <= pane.bottom"
    eventually("it is in sight", lambda: page.script(inside), True)
    in_sight(page, "the last marks", 977)
    eventually("its change is in sight", lambda: page.script(inside.replace("#boxes .current", "#preview .current").replace("getElementById('pane')", "querySelector('#preview pre')")), True)
    page.fill("object", "'" + "y" * 30 + "'")
    eventually("a new text that would be too long", lambda: page.text("preview"), "It would be refused: text too long.")
    begins("its matches even so", lambda: page.text("match-line"), "Match 978 of 978, from")
    page.script("document.getElementById('pane').scrollTop = 22 * 500")
    in_sight(page, "marks at a place that is scrolled to", 500)
    page.fill("object", "'yy'")
    own_text(page, "-" * 60_000 + "x")
    page.tick("all", False)
    begins("one far away", lambda: page.text("match-line"), "Match 1 of 1, from 60000 to 60001")
    eventually("it is in sight in the preview", lambda: page.script(inside.replace("#boxes .current", "#preview del").replace("getElementById('pane')", "querySelector('#preview pre')")), True)
