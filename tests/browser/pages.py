"""A browser that opens pages of `explore`, and the scripts that ask such a page what it shows."""
import pathlib
import sys

from selenium import webdriver
from selenium.webdriver.chrome.options import Options
from selenium.webdriver.chrome.service import Service
from selenium.webdriver.common.action_chains import ActionChains
from selenium.webdriver.common.by import By
from selenium.webdriver.common.keys import Keys
from selenium.webdriver.support.ui import WebDriverWait

FLAGS = ["--headless=new", "--no-sandbox", "--disable-gpu", "--hide-scrollbars", "--disable-dev-shm-usage",
         "--force-device-scale-factor=1"]
KEYS = {"ArrowLeft": Keys.ARROW_LEFT, "ArrowRight": Keys.ARROW_RIGHT, "Home": Keys.HOME, "End": Keys.END, "Tab": Keys.TAB, "Enter": Keys.ENTER,
        "Escape": Keys.ESCAPE}


class Browser:
    """Chromium without a window, 1280 by 800 pixels, light."""

    def __enter__(self):
        options = Options()
        options.binary_location = "/usr/bin/chromium"
        for flag in FLAGS:
            options.add_argument(flag)
        options.set_capability("goog:loggingPrefs", {"browser": "ALL"})
        self.driver = webdriver.Chrome(service=Service("/usr/bin/chromedriver"), options=options)
        self.driver.set_script_timeout(300)
        self.driver.set_page_load_timeout(300)
        self.size(1280, 800)
        self.theme(False)
        return self

    def __exit__(self, *_):
        self.driver.quit()

    def size(self, width, height):
        metrics = {"width": width, "height": height, "deviceScaleFactor": 1, "mobile": False}
        self.driver.execute_cdp_cmd("Emulation.setDeviceMetricsOverride", metrics)

    def theme(self, dark):
        scheme = {"name": "prefers-color-scheme", "value": "dark" if dark else "light"}
        self.driver.execute_cdp_cmd("Emulation.setEmulatedMedia", {"features": [scheme]})

    def open(self, path, address):
        self.driver.get("about:blank")
        self.driver.get(f"file://{path}{address}")

    def run(self, script, *arguments):
        return self.driver.execute_script(script, *arguments)

    def wait(self, script):
        """Waits up to ten seconds until a script answers what is true, and says whether it did."""
        try:
            return bool(WebDriverWait(self.driver, 10, 0.02).until(lambda it: it.execute_script(script)))
        except Exception:  # pylint: disable=broad-except
            return False

    def key(self, name, shift=False):
        actions = ActionChains(self.driver)
        if shift:
            actions.key_down(Keys.SHIFT)
        actions.send_keys(KEYS.get(name, name))
        if shift:
            actions.key_up(Keys.SHIFT)
        actions.perform()

    def click(self, selector):
        self.driver.find_element(By.CSS_SELECTOR, selector).click()

    def errors(self):
        return [it["message"] for it in self.driver.get_log("browser") if it["level"] in ("SEVERE", "WARNING")]

    def picture(self, path):
        self.driver.save_screenshot(str(path))


# The state at each position, in the lines of `state_of`.
STATES = r"""
const stateAt = (k) => {
const lines = [];
for (let p = 0; p < SET.processors; p++) {
  const w = waitAt(p, k), kind = turnAt(p, k), does = kind === STOPPED ? RUN.marks[p] : w >= 0 ? "w" + w : KINDS[kind];
  const words = [p, does, stepsAt(p, k), isPort(p) ? 0 : pcAt(p, k)];
  for (let r = 0; r < 32 && !isPort(p); r++) if (registerAt(p, r, k)) words.push("$" + r + "=" + registerAt(p, r, k).toString(16));
  if (isTile(p)) {
    words.push("!" + missesAt(p, k));
    for (const a of addressesOf(p)) if (wordAt(p, a, k)) words.push("@" + a.toString(16) + "=" + wordAt(p, a, k).toString(16));
  }
  lines.push(words.join(" "));
}
WIRES.forEach((_, w) => {
  const values = valuesAt(w, k).map((value) => value.toString(16));
  if (values.length) lines.push("+" + w + " " + values.join(" "));
});
return lines;
};
return listOf(RUN.positions, (_, i) => stateAt(RUN.first + i));
"""

# The report of the state at rest, in the lines of the report.
REPORT = r"""
const k = RUN.last, lines = RUN.counts.slice(0, RUN.counts.findIndex((line) => line.startsWith("cycles ")));
const mark = (p) => (turnAt(p, k) === STOPPED ? RUN.marks[p] : "waits " + waitAt(p, k));
SET.ports.forEach((port, i) => {
  const p = 2 * SET.tiles + i;
  lines.push(nameOf(p) + " " + mark(p) + (isSource(p) ? " sent " : " got ") + stepsAt(p, k));
  if (isSource(p)) return;
  const w = INPUTS[p][0];
  RUN.sent[w].values.slice(0, countBefore(RUN.taken[w], k)).forEach((word) => lines.push("word " + hex(word)));
});
for (let t = 0; t < SET.tiles; t++) {
  lines.push(nameOf(t) + " " + mark(t) + " count " + stepsAt(t, k) + " pc " + pcAt(t, k));
  for (const first of [0, 8, 16, 24]) lines.push("regs " + first + " " + [0, 1, 2, 3, 4, 5, 6, 7].map((r) => hex(registerAt(t, first + r, k))).join(" "));
}
for (const { tile, address, count } of SET.shows) {
  for (let i = 0; i < count; i++) lines.push("mem " + placeOf(tile) + " 0x" + hex(address + 4 * i) + " " + hex(wordAt(tile, address + 4 * i, k)));
}
for (let p = SET.tiles; p < 2 * SET.tiles; p++) {
  lines.push(nameOf(p) + " " + mark(p) + " count " + stepsAt(p, k) + " pc " + pcAt(p, k) + " regs " + [0, 1, 2, 3].map((r) => hex(registerAt(p, r, k))).join(" "));
}
WIRES.forEach((_, w) => valuesAt(w, k).length && lines.push("wire " + w + " " + valuesAt(w, k).map(hex).join(" ")));
for (let t = 0; t < SET.tiles; t++) {
  const misses = missesAt(t, k), turns = (SET.misses[t] || []).slice(0, misses).reduce((a, b) => a + b, 0);
  lines.push("stall " + placeOf(t) + " misses " + misses + " turns " + turns);
}
return lines;
"""

# All that depends on the cycle. (Which element can be reached by Tab depends on the focus as well.)
DOCUMENT = r"""
const texts = ["panel", "story", "say"].map((id) => byId(id).innerHTML), at = byId("slide").value;
return VIEW.root.innerHTML.replace(/tabindex="[^"]*"/g, "") + texts.join("") + at;
"""

# The texts of the panels of all processors, with plain blanks.
PANELS = r"""
return listOf(SET.processors, (_, p) => {
  choose(p);
  return byId("panel").innerText.replace(/\u00a0/g, " ");
});
"""

# The processors whose boxes stand out, and the text on how the run ends.
TOLD = r"""
const boxes = VIEW.boxes.flatMap((view, p) => (view.group.classList.contains("on") ? [p] : []));
return [boxes, byId("story").innerText];
"""

CLICK_IN_TIMELINE = r"""
const { left, top } = byId("canvas").getBoundingClientRect(), [k, p] = arguments;
const place = { clientX: left + xOf(k + 0.5), clientY: top + (LINE.rows.indexOf(p) + 0.5) * LINE.height };
byId("canvas").dispatchEvent(new MouseEvent("click", place));
"""

COUNTS_ARE_WHOLE = r"""
const rows = [...document.querySelectorAll("#counts tr")].slice(1);
const seen = rows.map((row) => [...row.cells].slice(1).map((cell) => Number(cell.textContent)));
return JSON.stringify(seen) === JSON.stringify(OUTCOME.totals);
"""

# The element that has the focus, and whether it shows that it has.
FOCUS = r"""
const element = document.activeElement, ring = element.querySelector(".ring");
const isSeen = ring ? getComputedStyle(ring).stroke !== "none" : getComputedStyle(element).outlineStyle !== "none";
return [ring ? "box" : element.id || element.className || element.tagName, isSeen];
"""

# Pairs of colours that are nearer to each other than 4.5 to 1 of texts, 3 to 1 of lines.
PALE = r"""
const style = getComputedStyle(document.documentElement);
const parts = (name) => {
  const digits = style.getPropertyValue("--" + name).trim().slice(1), all = digits.length === 3 ? [...digits].map((it) => it + it).join("") : digits;
  return [0, 2, 4].map((i) => parseInt(all.slice(i, i + 2), 16) / 255);
};
const linear = (part) => (part <= 0.03928 ? part / 12.92 : ((part + 0.055) / 1.055) ** 2.4);
const light = (name) => { const [r, g, b] = parts(name).map(linear); return 0.2126 * r + 0.7152 * g + 0.0722 * b; };
const contrast = (a, b) => { const [high, low] = [light(a), light(b)].sort((x, y) => y - x); return (high + 0.05) / (low + 0.05); };
const grounds = ["page", "cell", "fired", "stalled", "starved", "blocked", "trapped", "limit", "now"];
const texts = [...grounds.map((it) => ["ink", it]), ...["page", "cell", "starved", "fired", "blocked", "now"].map((it) => ["soft", it])];
texts.push(["net1", "page"], ["net2", "page"], ["net1", "link"], ["net2", "link"], ["on", "page"], ["page", "on"]);
texts.push(...["fired-edge", "trapped-edge", "limit-edge"].map((it) => [it, "page"]));
const lines = ["fired-edge", "stalled-edge", "starved-edge", "blocked-edge", "edge"].map((it) => [it, "page"]);
lines.push(["on", "cell"], ["on", "link"], ["net1", "cell"], ["chosen", "cell"]);
const pale = (pairs, least) => pairs.filter(([a, b]) => contrast(a, b) < least).map((it) => it.join(" on "));
return [...pale(texts, 4.5), ...pale(lines, 3)];
"""

NAMELESS = r"""
const named = (it) => it.getAttribute("aria-label") || it.textContent.trim() || (it.labels && it.labels.length);
return [...document.querySelectorAll("button, select, input, summary, [role=button]")].filter((it) => !named(it)).map((it) => it.outerHTML.slice(0, 80));
"""

# Puts a script into the page, which its policy must not let run.
INJECT = r"""
const script = document.createElement("script");
script.textContent = "window.injected = true";
document.body.append(script);
return window.injected === true;
"""

# How long it took to load the page, its size, and how long jumps, choices, searches and zooms take, each sorted, and so
# of the first drawings of the critical path and of shares.
TIMES = r"""
const load = performance.getEntriesByType("navigation")[0];
const timesOf = (count, action) => listOf(count, (_, i) => {
  const begun = performance.now();
  action(i);
  document.body.offsetHeight;
  return performance.now() - begun;
}).sort((a, b) => a - b);
const zooms = timesOf(20, (i) => zoomTime(i < 10 ? 0.5 : 2));
const jumps = timesOf(40, (i) => goTo(RUN.first + Math.floor((((i * 7919) % 40) / 40) * RUN.positions)));
const choices = timesOf(40, (i) => choose((i * 7919) % SET.processors));
const texts = ["waits", "sends", "wire 8", "0x31", "7", "$5", "stops", "@8"];
const searches = timesOf(texts.length, (i) => {
  byId("find").value = texts[i];
  find(true);
});
const size = document.documentElement.outerHTML.length, times = { jump: jumps, choice: choices, search: searches, zoom: zooms };
showAll();
const openPath = (isOpen) => {
  byId("path").open = isOpen;
  togglePath();
};
times["first drawing of the path"] = timesOf(1, () => openPath(true));
openPath(false);
times["first drawing of shares"] = timesOf(1, () => setMode("shares"));
times["drawing of the path over shares"] = timesOf(1, () => openPath(true));
times["zoom of both"] = timesOf(8, (i) => zoomTime(i < 4 ? 0.5 : 2));
setRange({ from: RUN.begin, end: RUN.end + 1 });
times["choice with all cycles counted"] = timesOf(8, (i) => choose((i * 7919) % SET.processors));
return [load.domComplete - load.startTime, size, times];
"""

# The turns in all positions of the page by processor, when values were sent by wire, and the counts at the end.
TURNS = r"""
const turnsOf = (p) => listOf(RUN.width, (_, i) => turnWord(p, RUN.begin + i) + " " + waitAt(p, RUN.begin + i));
const sends = WIRES.map((_, w) => RUN.sends[w].cycles);
return [listOf(SET.processors, (_, p) => turnsOf(p)), sends, listOf(SET.processors, (_, p) => turnsBefore(p, RUN.end))];
"""

# Whether the panel says that the values of this cycle are not on the page.
LACKS = r"""return byId("panel").innerText.includes("not on this page: rawgrid explore --whole --from " + PAGE.k);"""

MARKED = r"""VIEW.boxes.flatMap((view, p) => (view.group.classList.contains("on") ? [p] : []))"""

# The processors of the outcome that fire or pay in this cycle or a later one.
TOLD_AND_MOVING = r"""
const [k] = arguments, moves = (p) => listOf(RUN.end + 1 - k, (_, i) => turnAt(p, k + i)).some((kind) => kind <= STALLED);
return [...OUTCOME.told].filter(moves);
"""

# Follows each word from each of its places: what is wrong, and how many places there were.
WAYS = r"""
const wrong = [];
let many = 0;
WIRES.forEach((wire, w) => RUN.sent[w].values.forEach((value, i) => {
  const way = wayOf({ w, i }), places = way.map((it) => it.w + ":" + it.i);
  many++;
  if (!places.includes(w + ":" + i) || new Set(places).size !== places.length) wrong.push([w, i, "not on its way"]);
  if (way.some((it) => it.value !== value)) wrong.push([w, i, "another value"]);
  way.slice(1).forEach((it) => {
    // what a switch sends on it takes in the same cycle from a place before
    const before = way.find((other) => WIRES[other.w].to === WIRES[it.w].from && other.taken === it.sent);
    if (!before || WIRES[before.w].net !== WIRES[it.w].net) wrong.push([w, i, "a gap"]);
  });
  const first = WIRES[way[0].w].from, k = way[0].sent;
  if (isSwitch(first) && INPUTS[first].some((v) => WIRES[v].net === WIRES[way[0].w].net && takenIn(v, k).length && !instructionAt(first, k).includes(":r"))) wrong.push([w, i, "made by a switch"]);
  follow({ w, i });
}));
follow(null);
return [wrong, many];
"""

# Whether what is found is so, and all of it is found: of all events and writes of some processors.
SEARCHES = r"""
const wrong = [];
let many = 0;
const look = (text, p, isSo, due) => {
  const hits = hitsOf(text, p);
  many += hits.length;
  if (hits.some((hit) => !isSo(hit))) wrong.push([text, p, "is not so"]);
  if (due !== undefined && hits.length !== due) wrong.push([text, p, hits.length, due]);
};
for (let p = 0; p < SET.processors; p++) {
  look("fires", p, ({ k }) => turnAt(p, k) === FIRED);
  look("waits", p, ({ k }) => waitAt(p, k) >= 0);
  look("starved", p, ({ k }) => turnAt(p, k) === STARVED);
  look("blocked", p, ({ k }) => turnAt(p, k) === BLOCKED);
  look("stops", p, ({ k }) => turnAt(p, k) === STOPPED && (k === 0 || turnAt(p, k - 1) !== STOPPED));
  look("sends", p, ({ k }) => OUTPUTS[p].some((w) => sentIn(w, k) !== undefined), OUTPUTS[p].reduce((sum, w) => sum + RUN.sent[w].values.length, 0));
  look("takes", p, ({ k }) => INPUTS[p].some((w) => takenIn(w, k).length > 0), INPUTS[p].reduce((sum, w) => sum + RUN.taken[w].cycles.length, 0));
  look("pc 1", p, ({ k }) => pcAt(p, k) === 1 && turnAt(p, k) === FIRED);
  RUN.registers[p].forEach((history, r) => {
    look((isTile(p) ? "$" : "r") + r, p, ({ k }) => writtenIn(history, k) !== undefined, history.values.length);
    look("$" + r + " = " + history.values[0], p, ({ k }) => writtenIn(history, k) === history.values[0]);
  });
}
WIRES.forEach((wire, w) => {
  look("wire " + w, 0, ({ k, p }) => p === wire.from && sentIn(w, k) !== undefined, RUN.sent[w].values.length);
  for (const value of new Set(RUN.sent[w].values)) {
    look("wire " + w + " = 0x" + value.toString(16), 0, ({ k }) => sentIn(w, k) === value, RUN.sent[w].values.filter((it) => it === value).length);
    if (!hitsOf("0x" + value.toString(16), 0).some((hit) => sentIn(w, hit.k) === value)) wrong.push([w, value, "is not found"]);
  }
});
return [wrong, many];
"""

# The processor that has the turn of the critical path in each cycle of the page, and how many steps and waits it tells.
PATH = r"""
const turns = listOf(PATH.length ? OUTCOME.cycles - RUN.begin : 0, (_, i) => PATH[stretchAt(RUN.begin + i)].p);
return [turns, byId("path").innerText.replace(/\s+/g, " ")];
"""

# How often something is seen in the panel and the search of a page whose trace has labels and lines.
NAMED = r"""
const [p, k] = arguments;
goTo(k);
choose(p);
const { message } = hitFrom("pc again", 0, p, true);
return [byId("panel").innerText.replace(/\s+/g, " "), message];
"""

DRAG_IN_TIMELINE = r"""
const { left, top } = byId("canvas").getBoundingClientRect(), [from, last] = arguments;
byId("canvas").setPointerCapture = () => {};
const at = (name, k) => byId("canvas").dispatchEvent(new PointerEvent(name, { clientX: left + xOf(k + 0.5), clientY: top + 3, pointerId: 1 }));
at("pointerdown", from);
at("pointermove", last);
at("pointerup", last);
byId("canvas").dispatchEvent(new MouseEvent("click", { clientX: left + xOf(last + 0.5), clientY: top + 3 }));
"""

# Whether the counts of the chosen cycles are those that are counted one by one.
RANGE_IS_RIGHT = r"""
const { from, end } = LINE.range, counts = [0, 0, 0, 0, 0, 0];
for (let p = 0; p < SET.tiles; p++) for (let k = from; k < end; k++) counts[turnAt(p, k)]++;
const seen = [...document.querySelectorAll("#range table:first-of-type tr")].slice(1).map((row) => parseInt(row.cells[1].textContent, 10));
let sent = 0;
WIRES.forEach((_, w) => { for (let k = from; k < end; k++) if (sentIn(w, k) !== undefined) sent++; });
return JSON.stringify(seen) === JSON.stringify(counts.slice(1)) && byId("range").innerText.includes(sent + " values sent");
"""

SHARES_ARE_RIGHT = r"""
const { from, end } = LINE.range;
return VIEW.boxes.every((view, p) => {
  let fired = 0;
  for (let k = from; k < end; k++) if (turnAt(p, k) === FIRED) fired++;
  return view.group.getAttribute("aria-label").includes("fired " + percent(fired / (end - from)));
});
"""

# Whether a box of the outcome can be seen without scrolling.
TOLD_IN_SIGHT = r"""
const frame = byId("grid").getBoundingClientRect();
return [...OUTCOME.told].every((p) => {
  const { left, top, right, bottom } = VIEW.boxes[p].group.firstChild.getBoundingClientRect();
  return left >= frame.left && right <= frame.right && top >= 0 && bottom <= innerHeight;
});
"""

ROW_IN_SIGHT = r"""
const { scrollTop, clientHeight } = byId("rows"), y = LINE.rows.indexOf(PAGE.p) * LINE.height;
return y >= scrollTop && y + LINE.height <= scrollTop + clientHeight + 1;
"""

# How high the smallest name in the grid is drawn.
NAME_SIZE = r"""
const sizes = VIEW.boxes.filter((view) => view.name).map((view) => parseFloat(getComputedStyle(view.name).fontSize) * VIEW.scale);
return Math.min(...sizes);
"""


def main():
    """Stores a picture of a part of a page: tests/browser/pages.py PAGE SELECTOR PICTURE."""
    page, selector, picture = sys.argv[1:]
    with Browser() as browser:
        browser.open(pathlib.Path(page).resolve(), "")
        browser.driver.find_element(By.CSS_SELECTOR, selector).screenshot(picture)


if __name__ == "__main__":
    main()
