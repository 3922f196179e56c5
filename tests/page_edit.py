"""What tests/service_page looks at of editing together: a text edited by hand, conflicts, histories, and many texts."""
import json
import time

from browsers import FIXED_WORK, begins, cases, eventually, sent

FIRST = "one\ntwo\nthree\n"
MANY = 1_000
# How long a fixed piece of work takes, some times; code that is new is slow.
SOME_WORK = FIXED_WORK + """
const [done, made] = [arguments[0], []];
(async () => {
  for (let number = 0; number < 8; number += 1) made.push(await work());
  done(made.slice(3));
})();"""


def edit_together(page, other, service):
    """Two windows edit one text by hand."""
    for window in page, other:
        eventually("the text", lambda window=window: window.text("text"), FIRST)
    cases.expect("numbers of lines", page.script("return document.querySelectorAll('#marks .line-of-text').length"), 4)
    numbers = "return [...document.querySelectorAll('#marks .line-of-text')].map((it) => getComputedStyle(it, '::before').content)"
    eventually("the number before each line", lambda: page.script(numbers), ['"1"', '"2"', '"3"', '"4"'])
    put(page, "one\n\ntwo\nthree\n")
    eventually("the numbers after a line has come", lambda: page.script(numbers), ['"1"', '"2"', '"3"', '"4"', '"5"'])
    page.at("discard").click()
    eventually("the numbers after it is gone", lambda: page.script(numbers), ['"1"', '"2"', '"3"', '"4"'])
    saved(page, other, service)
    conflict(page, other, service)
    overlapping(page, service)
    former(page, service)
    reverted(page, service)


def put(page, text):
    """What the pane has after one has typed."""
    page.at("text").click()
    page.script("const field = document.getElementById('text'); field.value = arguments[0]; field.dispatchEvent(new Event('input'))", text)


def saved(page, other, service):
    cases.expect("nothing is to be saved", page.at("editing").is_displayed(), False)
    page.script("const field = document.getElementById('text'); field.focus(); field.setSelectionRange(3, 3)")
    page.focused().send_keys(" and more")
    eventually("an edit", lambda: page.text("text-title"), "note, version 0, edited")
    page.fill("pattern", "'more'")
    eventually("looks are of what was typed", lambda: page.marks(), ["more"])
    page.driver.refresh()
    eventually("a reload loses no edit", lambda: page.text("text"), "one and more\ntwo\nthree\n")
    cases.expect("nobody else sees it", other.text("text"), FIRST)
    page.at("save").click()
    eventually("it is saved", lambda: page.text("outcome"), "Saved as entry 0.")
    eventually("the other window has it", lambda: other.text("text"), "one and more\ntwo\nthree\n")
    eventually("and shows what changed", other.fresh, " and more")
    row = json.loads(service.get("/entries?since=0"))["entries"][0]
    cases.check(row["key"] and '"if_version":0' in row["line"], "it was sent with a key and its version", row)
    eventually("nothing more is to be saved", lambda: page.at("editing").is_displayed(), False)
    put(page, "something else")
    page.at("discard").click()
    eventually("a discarded edit", lambda: page.text("text"), "one and more\ntwo\nthree\n")


def conflict(page, other, service):
    """Others change another part meanwhile: both sides are shown, and one's own edit is done on the new text."""
    put(page, "one and more\ntwo\nthree\nfour\n")
    put(other, "ONE and more\ntwo\nthree\n")
    other.at("save").click()
    eventually("the other's edit", lambda: other.text("outcome"), "Saved as entry 1.")
    eventually("there is a conflict", lambda: page.text("conflict-line"), "The text has version 2 by now; your edit began with version 1.")
    cases.expect("it can't be saved as it is", page.at("save").is_enabled(), False)
    eventually("what others changed", lambda: (page.texts("#theirs del"), page.texts("#theirs ins")), (["one"], ["ONE"]))
    eventually("what one changed", lambda: (page.texts("#mine del"), page.texts("#mine ins")), ([], ["four\n"]))
    cases.expect("the edit isn't lost", page.text("text"), "one and more\ntwo\nthree\nfour\n")
    page.at("do-mine").click()
    eventually("the edit on the new text", lambda: page.text("text"), "ONE and more\ntwo\nthree\nfour\n")
    page.at("save").click()
    eventually("both edits", lambda: other.text("text"), "ONE and more\ntwo\nthree\nfour\n")
    # The page hears nothing of this edit before it saves.
    put(page, "ONE and more\ntwo\nthree\nfive\n")
    page.script("""
        const request = new XMLHttpRequest();
        request.open("POST", "/statements", false);
        request.setRequestHeader("Content-Type", "application/json");
        request.send(JSON.stringify({ text: "note", pattern: "'two'", object: "'2'" }));
        document.getElementById("save").click();
    """)
    eventually("nothing was saved", lambda: page.text("outcome"), "Nothing was saved: the text has moved on to version 4.")
    page.driver.get_log("browser")
    page.at("do-mine").click()
    page.at("save").click()
    eventually("the edit after that one", lambda: other.text("text"), "ONE and more\n2\nthree\nfive\n")


def overlapping(page, service):
    """Both have changed the same characters: nothing is done without being asked."""
    put(page, "ONE and more\n2\nthree\nsix\n")
    sent(service, "/statements", {"text": "note", "pattern": "'five'", "object": "'seven'"})
    eventually("a conflict", lambda: page.at("conflict").is_displayed(), True)
    eventually("the edit can't be done on the new text", lambda: page.at("do-mine").is_displayed(), False)
    page.at("take-theirs").click()
    eventually("the new text", lambda: page.text("text"), "ONE and more\n2\nthree\nseven\n")
    put(page, "my own\n")
    sent(service, "/statements", {"text": "note", "pattern": "'seven'", "object": "'eight'"})
    eventually("a conflict again", lambda: page.at("conflict").is_displayed(), True)
    page.at("put-mine").click()
    page.at("save").click()
    begins("one's own text in its place", lambda: page.text("text-title"), "note, version 8")
    cases.expect("it is the text", service.get("/texts/note"), "my own\n")


def former(page, service):
    """The text as it was."""
    page.script("const it = document.getElementById('version'); it.value = 1; it.dispatchEvent(new Event('change'))")
    eventually("a former version", lambda: page.text("text"), "one and more\ntwo\nthree\n")
    begins("that it is one", lambda: page.text("version-note"), "This is the text as it was at version 1; it has version 8 by now.")
    cases.expect("it can't be edited", page.at("text").get_property("readOnly"), True)
    page.fill("pattern", "'more'")
    eventually("a pattern is sought in it", lambda: page.marks(), ["more"])
    page.driver.refresh()
    eventually("after a reload", lambda: page.text("text"), "one and more\ntwo\nthree\n")
    page.at("newest").click()
    eventually("the newest one", lambda: page.text("text"), "my own\n")
    button = next(it for it in page.at("journal").find_elements("tag name", "button") if it.text == "Show version 0")
    button.click()
    eventually("the version before an entry", lambda: page.text("text"), FIRST)
    page.at("newest").click()


def reverted(page, service):
    """An entry is taken back, if none has changed the text since."""
    sent(service, "/statements", {"text": "note", "pattern": "'own'", "object": "'OWN'"})
    eventually("an edit", lambda: page.text("text"), "my OWN\n")
    last = page.entries()[0]
    rows = page.script("return [...document.querySelectorAll('#journal li')].map((it) => it.querySelector('.author').textContent)")
    eventually("who and when", lambda: page.texts("#journal .author")[0].startswith("by somebody without a name, at 20"), True)
    cases.expect("a row for each entry", len(rows), last + 1)
    eventually("statements", lambda: page.texts("#journal .line")[:2], ["'own' = 'OWN'", "the whole text"])
    press(page, f"Revert entry {last}")
    eventually("it is taken back", lambda: page.text("text"), "my own\n")
    eventually("as an entry", lambda: page.text("outcome"), f"Entry {last} is taken back, as entry {last + 1}.")
    press(page, f"Revert entry {last - 2}")
    begins("an older one isn't", lambda: page.text("outcome"), f"Entry {last - 2} wasn't taken back: changed. Entries {last - 1}, {last}, {last + 1} have changed the text since.")
    page.driver.get_log("browser")


def press(page, words):
    eventually(words, lambda: any(it.text == words for it in page.at("journal").find_elements("tag name", "button")), True)
    next(it for it in page.at("journal").find_elements("tag name", "button") if it.text == words).click()


def many_texts(page, service, leeway):
    """A thousand texts: the page is soon ready, and the pattern is on a small first screen."""
    page.cdp("Page.addScriptToEvaluateOnNewDocument", source="""
        new MutationObserver((_, seen) => {
          if (document.querySelectorAll("#texts li").length < 1000 || !document.getElementById("text")?.value) return;
          seen.disconnect();
          window.readyAt = performance.now();
        }).observe(document, { childList: true, characterData: true, subtree: true });""")
    times, fixed = [], []
    for _ in range(5):
        page.driver.get("about:blank")
        page.driver.get(service.url)
        eventually("a thousand texts", lambda: page.script("return window.readyAt > 0"), True)
        times.append(page.script("return window.readyAt"))
        fixed += page.driver.execute_async_script(SOME_WORK)
    starved = max(1.0, sorted(fixed)[len(fixed) // 2] / min(fixed))
    cases.check(sorted(times)[2] <= 1_000 * leeway * starved, f"with 1,000 texts it is ready within {leeway} s", times, f"starved {starved:.1f} times")
    page.sized(390, 844)
    page.script("scrollTo(0, 0)")
    bottom = page.script("return document.getElementById('pattern').getBoundingClientRect().bottom")
    cases.check(bottom <= 844, "the pattern is on the first screen", bottom)
    page.fill("filter", "99")
    eventually("those whose name has 99", lambda: len(page.names()), sum("99" in f"text {number:04}".replace(" ", "_") for number in range(MANY)))
    page.choose("text_0990")
    eventually("one of them", lambda: page.text("text"), "the text 990")
    page.cdp("Emulation.clearDeviceMetricsOverride")
