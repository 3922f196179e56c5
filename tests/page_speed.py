"""What tests/service_page looks at of time: how soon marks come while one types on the longest text."""
from browsers import FIXED_WORK, begins, cases
from page_play import own_text
from services import is_instrumented

LONGEST = 65_536
TEXT = ("some words of a line, 12 of them = 345;\n" * 1_700)[:LONGEST]
PRESSES, PRESSES_OF_SLOW = 20, 5
# Milliseconds from a key until its marks are painted, and those without the program's, on a machine that does nothing else.
MOST, MOST_OF_PAGE = 100, 60
# Beside other scripts as many times that are allowed: what a fixed piece of work says of these is rough.
BESIDE_OTHERS = 5

# Types key by key, and reports of each how long it took until the marks of its look were painted, how long the program had of that, and
# how long a fixed piece of work took before it.
TYPING = FIXED_WORK + """
const [which, presses, done] = arguments;
const field = document.getElementById(which);
const all = [];
performance.setResourceTimingBufferSize(10_000);
// As an editor does it, which then knows what has changed.
const type = (from, to, words) => {
  field.focus();
  field.setSelectionRange(from, to);
  document.execCommand("insertText", false, words);
};
const typed = { pattern: () => type(15, 15, "9"), text: (number) => type(100 + number, 101 + number, "x") };
const lookSince = (began) => performance.getEntriesByType("resource").find((it) => it.startTime >= began && it.name.endsWith("/preview"));
const press = async (number) => {
  if (number === presses) return done(all);
  const fixed = await work();
  const began = performance.now();
  const late = setTimeout(done, 100_000, all);
  const seen = new PerformanceObserver(() => {
    const look = lookSince(began);
    const painted = performance.getEntriesByName("marks").at(-1)?.startTime;
    if (!look || !(painted >= look.responseEnd)) return;
    seen.disconnect();
    clearTimeout(late);
    requestAnimationFrame(() => setTimeout(() => {
      all.push([performance.now() - began, look.serverTiming[0].duration, fixed]);
      setTimeout(press, 100, number + 1);
    }));
  });
  seen.observe({ entryTypes: ["mark", "resource"] });
  typed[which](number);
};
// Code that is new is slow.
const begin = async () => {
  for (let warm = 0; warm < 5; warm += 1) await work();
  press(0);
};
begin();"""


def quick(page, sno, is_alone):
    """Marks come within a tenth of a second of a key, in the pattern and in the text."""
    own_text(page, TEXT)
    page.fill("object", "")
    page.fill("pattern", "SPAN('0123456789') . N")
    begins("matches of the longest text", lambda: page.text("match-line"), "Match 1 of 3,276")
    page.front()
    page.driver.set_script_timeout(600)
    is_slow = is_instrumented(sno)
    presses = PRESSES_OF_SLOW if is_slow else PRESSES
    for which in "pattern", "text":
        found = page.driver.execute_async_script(TYPING, which, presses)
        cases.expect(f"keys in the {which} whose marks came", len(found), presses)
        reported(which, found, is_slow, 1 if is_alone else BESIDE_OTHERS)


def last_of_20(times):
    """The 95th percentile."""
    return sorted(times)[int(0.95 * len(times))]


def reported(which, found, is_slow, leeway):
    whole, program, fixed = zip(*found)
    # On a machine that has other things to do, a fixed piece of work takes longer than at best, and so does a look.
    starved = max(1.0, last_of_20(fixed) / min(fixed))
    page = [one - other for one, other in zip(whole, program)]
    shown = f"in all {last_of_20(whole):.0f} ms; the program {last_of_20(program):.0f}, without it {last_of_20(page):.0f}; starved {starved:.1f} times"
    print(f"a key in the {which}, 95th percentile: {shown}")
    most, most_of_page = MOST * leeway, MOST_OF_PAGE * leeway
    cases.check(last_of_20(page) <= most_of_page * starved, f"all but the program takes {most_of_page} ms for a key in the {which}", shown)
    if not is_slow:
        cases.check(last_of_20(whole) <= most * starved, f"marks within {most} ms of a key in the {which}", shown)
