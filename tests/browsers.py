"""What the tests of the page share: the browser, a window of it, and cases that are counted by what is shown soon."""
import json
import time
import urllib.request

from selenium import webdriver
from selenium.webdriver.chrome.options import Options
from selenium.webdriver.chrome.service import Service as Driver
from selenium.webdriver.common.by import By
from selenium.webdriver.common.keys import Keys

from lib import Cases

SOON = 30.0
# A window that lies under another one draws as the one on top does.
WORDS = (
    "--headless=new", "--no-sandbox", "--disable-dev-shm-usage", "--disable-gpu", "--window-size=1280,1400", "--hide-scrollbars",
    "--disable-backgrounding-occluded-windows", "--disable-renderer-backgrounding", "--disable-background-timer-throttling",
)
# The ranges that the browser paints.
PAINTED = """
const live = (range) => {
  const made = document.createRange();
  made.setStart(range.startContainer, range.startOffset);
  made.setEnd(range.endContainer, range.endOffset);
  return made;
};
const cursor = (range) => {
  const before = document.createRange();
  before.setStart(document.getElementById("marks"), 0);
  before.setEnd(range.startContainer, range.startOffset);
  return before.toString().length;
};
const found = arguments[0].flatMap((name) => [...CSS.highlights.get(name)].map((range) => [cursor(range), live(range).toString(), name]));
return found.sort(([one], [other]) => one - other);"""
# A fixed piece of work, which takes longer on a machine that has other things to do.
FIXED_WORK = """
// Some computing, and a request: a look takes both, and each of them waits for a processor.
const work = async () => {
  const began = performance.now();
  let made = 0;
  for (let place = 0; place < 10_000_000; place += 1) made = (Math.imul(made, 31) + place) | 0;
  await (await fetch("/healthz", { headers: { made: String(made) } })).text();
  return performance.now() - began;
};
"""
MATCHES = "match", "further"
VARIABLES = tuple(f"v{number}" for number in range(8))
cases = Cases()


def browser():
    options = Options()
    options.binary_location = "/usr/bin/chromium"
    for word in WORDS:
        options.add_argument(word)
    options.set_capability("goog:loggingPrefs", {"browser": "ALL"})
    return webdriver.Chrome(service=Driver("/usr/bin/chromedriver"), options=options)


class Page:
    """A window of the browser."""

    def __init__(self, driver, url=None):
        self.driver = driver
        if url is not None:
            driver.switch_to.new_window("window")
        self.handle = driver.shown = driver.current_window_handle
        if url is not None:
            driver.get(url)

    def front(self):
        """Has the driver speak to this window; one that wasn't the last one comes to the front, so that keys and clicks reach it."""
        if getattr(self.driver, "shown", None) == self.handle:
            return
        self.driver.switch_to.window(self.handle)
        self.driver.execute_cdp_cmd("Page.bringToFront", {})
        self.driver.shown = self.handle

    def at(self, name):
        self.front()
        return self.driver.find_element(By.ID, name)

    def text(self, name):
        """What an element shows; of a field what is in it."""
        found = self.at(name)
        return found.get_property("value" if found.tag_name in ("textarea", "input") else "textContent")

    def script(self, words, *given):
        self.front()
        return self.driver.execute_script(words, *given)

    def texts(self, selector):
        """The texts of all elements that a selector finds."""
        return self.script("return [...document.querySelectorAll(arguments[0])].map((it) => it.textContent)", selector)

    def painted(self, *names):
        """The marks of the text with these names, as far as they are in sight or near it, in order: the cursor, the characters, the name."""
        return self.script(PAINTED, names)

    def marks(self, *names):
        """The characters of each mark with these names, or of each match."""
        return [text for _, text, _ in self.painted(*(names or MATCHES))]

    def fresh(self):
        """What is shown as changed by the last entry."""
        return "".join(self.marks("fresh"))

    def change(self):
        """What the preview shows as taken out, and as put in."""
        return self.texts("#preview del"), self.texts("#preview ins")

    def entries(self):
        return self.script("return [...document.querySelectorAll('#journal li')].map((item) => Number(item.dataset.entry))")

    def names(self):
        return self.texts("#texts b")

    def choose(self, name):
        self.at("texts").find_elements(By.TAG_NAME, "button")[self.names().index(name)].click()

    def fill(self, name, typed):
        field = self.at(name)
        field.send_keys(Keys.CONTROL, "a")
        field.send_keys(Keys.DELETE)
        field.send_keys(typed)

    def tick(self, name, wanted):
        if self.at(name).is_selected() != wanted:
            self.at(name).click()

    def focused(self):
        self.front()
        return self.driver.switch_to.active_element

    def address(self):
        self.front()
        return self.driver.current_url

    def cdp(self, command, **given):
        self.front()
        return self.driver.execute_cdp_cmd(command, given)

    def sized(self, width, height, scale=1):
        """A screen of this many pixels of CSS."""
        self.cdp("Emulation.setDeviceMetricsOverride", width=width, height=height, deviceScaleFactor=scale, mobile=width < 600)

    def dark(self, is_dark):
        self.cdp("Emulation.setEmulatedMedia", features=[{"name": "prefers-color-scheme", "value": "dark" if is_dark else "light"}])


def eventually(what, look, wanted):
    """Counts a case by what is shown soon."""
    found, deadline = None, time.monotonic() + SOON
    while time.monotonic() < deadline:
        try:
            found = look()
        except Exception as fault:  # noqa: BLE001  what is looked at may just be replaced
            found = repr(fault)
        if found == wanted:
            break
        time.sleep(0.03)
    cases.expect(what, found, wanted)


def begins(what, look, front):
    eventually(what, lambda: (look() or "").startswith(front) or look(), True)


def sent(service, path, members, method="POST", **headers):
    """The reply to a request with JSON, or with the characters of a text."""
    body = members.encode() if isinstance(members, str) else json.dumps(members).encode()
    kind = {} if isinstance(members, str) else {"Content-Type": "application/json"}
    given = {name.replace("_", "-"): value for name, value in headers.items()}
    request = urllib.request.Request(service.url + path, body, {**kind, **given}, method=method)
    with urllib.request.urlopen(request) as response:
        return json.loads(response.read())


def reported(page):
    """What the browser reports as a fault."""
    page.front()
    faults = [it["message"] for it in page.driver.get_log("browser") if it["level"] == "SEVERE" and "favicon" not in it["message"]]
    cases.expect("faults that the browser reports", faults, [])
