"""How the page of a run opens in headless Chromium, if that is installed: all rounds in the window, empty ones folded, moments as times,
and the first thing worth seeing chosen."""
import re

from . import browser, tool
from .viewed import focus, opened

NAVIGATION = ("examples/navigation.json", "examples/navigation.txt")
# The example that a page opens, what it is opened with, and the round and the line that are chosen.
OPENED = (
    ("navigation", (), "Round 156 at moment 155", "the first goal that ends: canceled", "state navigate 1.1 5"),
    ("keep_last", (), "Round 1 at moment 10", "the first item that a full queue lost", "drop latest message 1"),
    ("timer", (), "Round 1 at moment 0", "", ""),
    ("navigation", ("--rules", "never pub cmd_vel 30\nnever log motor 7\n"), "Round 58 at moment 57", "the first line that breaks never pub cmd_vel 30", "pub cmd_vel 30"),
)


def answers(_program):
    yield from browser.opened(of_pages, "how pages begin in Chromium", "no page was opened to see how it begins")


def of_pages(page, folder):
    """How pages begin."""
    for of in (of_first, of_folds, of_times, of_strip):
        yield from of(page, folder)


def lines_of(name):
    return (tool.TOP / f"examples/{name}.txt").read_text().splitlines()


def of_first(page, folder):
    """The first thing worth seeing is chosen."""
    for name, (option, text), *should in ((it[0], it[1] or ("", ""), *it[2:]) for it in OPENED):
        words = []
        if option:
            (folder / "rules").write_text(text)
            words = [option, folder / "rules"]
        opened(page, folder, f"examples/{name}.json", f"examples/{name}.txt", *words)
        line = page.value("(document.querySelector('#lines [aria-current]') || { textContent: '' }).textContent")
        found = [page.text("#where"), page.text("#why"), line]
        found[2] = should[2] if should[2] and line.startswith(should[2]) else line
        yield f"what is chosen as {name} opens {option}", found, should
        if option:
            yield "the rules that are broken", page.value("[...document.querySelectorAll('#rules h2, #rules button')].map((it) => it.textContent)"), ["1 of 2 rules is broken", "never pub cmd_vel 30: fails in round 58"]
            page.value("choose(0)")
            page.value("document.querySelector('#rules button').click()")
            yield "where a broken rule leads", page.text("#where"), should[0]


def empty_stretches(name):
    """The stretches of at least six rounds that have no line but `round`, as the first round and how many there are."""
    rounds = [part.count("\n") for part in (tool.TOP / f"examples/{name}.txt").read_text().rpartition("\nend ")[0].split("\nround ")]
    text = "".join("." if count == 0 else "x" for count in rounds)
    return [[found.start() + 1, len(found[0])] for found in re.finditer(r"\.{6,}", text)]


def of_folds(page, folder):
    """The whole run is in the window; empty stretches are folded, and say how long they are."""
    opened(page, folder, *NAVIGATION)
    folds = empty_stretches("navigation")
    yield "the folds", page.value("axis.folds.map(([begin, end]) => [begin + 1, end - begin])"), folds
    yield "what a fold says", page.value("lengthOf(...axis.folds[0])"), f"{folds[0][1]} empty rounds, {folds[0][1] - 1} ticks"
    shown = "[Math.round(view.left), Math.round(endOfShown()), Math.round(x(data.columns)), canvas.clientWidth]"
    left, end, last, wide = page.value(shown)
    yield "all rounds are shown, as wide as the window gives", (left, end, abs(last - wide) <= 1), (0, 251, True)
    # A column is where its place says, also if folds come before it.
    yield "the column at a column's place", page.value("[0, 5, 50, 60, 155, 250].map((it) => columnAt(x(it + 0.5)))"), [0, 5, 50, 60, 155, 250]
    focus(page)
    page.key("Escape")
    page.key("Home")
    visited = []
    for _ in range(5):
        page.key("ArrowRight")
        visited.append(page.value("view.chosen + 1"))
    steps = [number for number in range(2, 60) if not any(begin <= number < begin + count for begin, count in folds)]
    yield "the arrow passes over folds", visited, steps[:5]
    page.pointer(*page.value("(() => { const at = canvas.getBoundingClientRect(); return [x(axis.folds[0][0] + 0.5) + at.left, 300 + at.top]; })()"), click=True)
    yield "a click unfolds", page.value("axis.folds.length"), len(folds) - 1
    page.key("f")
    page.key("f")
    yield "the key f folds all", page.value("axis.folds.length"), len(folds)
    page.key("f")
    yield "the key f unfolds all", (page.value("axis.folds.length"), page.value("Math.round((x(100) - x(0)) * 100 / view.width)")), (0, 10000)


def of_times(page, folder):
    """Moments are times in the unit that is chosen."""
    opened(page, folder, *NAVIGATION, "--tick", "20ms")
    yield "a moment as a time", page.text("#where"), "Round 156 at 3.1 s"
    for unit, should in (("ms", "Round 156 at 3100 ms"), ("ticks", "Round 156 at moment 155"), ("s", "Round 156 at 3.1 s")):
        page.value(f"(() => {{ const menu = document.getElementById('unit'); menu.value = '{unit}'; menu.dispatchEvent(new Event('change')); }})()")
        yield f"a moment in {unit}", page.text("#where"), should
    opened(page, folder, *NAVIGATION)
    yield "no units without a tick", page.value("document.getElementById('units').hidden"), True


def of_strip(page, folder):
    """The strip over all has a red mark over each round that lost something, each goal's states, and nothing over an empty round."""
    opened(page, folder, "examples/keep_last.json", "examples/keep_last.txt")
    lines, number, lost = lines_of("keep_last"), 0, set()
    for line in lines:
        number += line.startswith("round ")
        if line.startswith("drop "):
            lost.add(number)
    colour = "(at, top) => [...strip.image.getContext('2d').getImageData(at, top, 1, 1).data].slice(0, 3).join()"
    code = f"""(() => {{ const colour = {colour}, scale = (canvas.clientWidth - gutter) / data.columns, found = [];
      for (let column = 0; column < data.columns; column++) found.push([BANDS.lost[0] + 2, BANDS.callbacks[0] + BANDS.callbacks[1] - 1].map((top) => colour(Math.floor(gutter + (column + 0.5) * scale), top)));
      return found; }})()"""
    found = page.value(code)
    yield "the rounds over which the strip has drops", {at for at, (drop, _) in enumerate(found, 1) if drop == "196,0,0"}, lost
    opened(page, folder, *NAVIGATION)
    ground = page.value(f"({colour})(gutter + 1, 2)")
    rounds = [part.count("\n") for part in "\n".join(lines_of("navigation")).rpartition("\nend ")[0].split("\nround ")]
    scale = page.value("(canvas.clientWidth - gutter) / data.columns")
    filled = [below != ground for _, below in page.value(code)]
    yield f"the rounds over which the strip has callbacks, {scale:.1f} pixels each", filled, [count > 0 for count in rounds]
    states = page.value(f"(() => {{ const colour = {colour}, scale = (canvas.clientWidth - gutter) / data.columns; return [100, 200].map((column) => colour(Math.floor(gutter + (column + 0.5) * scale), BANDS.goals[0] + 2)); }})()")
    yield "the states of the goal in the strip, in rounds 101 and 201", states, ["86,180,233", "217,163,195"]
