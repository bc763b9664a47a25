"""How one reads the page of a run: the links that holds and search print; and in headless Chromium, if that is installed, links, keys
along a row and from cause to effect, values before names, short names of goals, search by fields, two runs on one axis, and what a
narrow screen, a screen reader and eyes that see little contrast need."""
import pathlib
import re
import tempfile

from . import browser, tool
from .viewed import data_of, focus, opened, shown_lines

NAVIGATION = ("examples/navigation.json", "examples/navigation.txt")
ROBOT = ("examples/robot.json", "examples/robot.txt")
LATE = "tools/tests/differing/e_stop_too_late.txt"
# What is written, and on what: each pair of colours with the contrast that it needs (WCAG 2, 1.4.3 and 1.4.11).
TEXTS = [(ink, ground, 4.5) for ink in ("ink", "faint", "topic", "lost", "hit") for ground in ("ground", "stripe", "chosen")]
TEXTS += [("on", f"s{state}", 4.5) for state in range(1, 7)]
SHAPES = [(ink, ground, 3) for ink in ("time", "topic", "service", "action", "lost", "chosen-ink", "faint") for ground in ("ground", "stripe")]


def answers(_program):
    with tempfile.TemporaryDirectory() as folder:
        yield from of_commands(pathlib.Path(folder))
    yield from browser.opened(of_pages, "a page that is read in Chromium", "nobody read a page")


def of_pages(page, folder):
    """What a reader of pages does."""
    for of in (of_links, of_causes, of_boxes, of_fields, of_two, of_access, of_widths):
        yield from of(page, folder)


def lines_of(name):
    return (tool.TOP / name).read_text().splitlines()


def of_commands(folder):
    """holds and search print the links of the lines that decide rules, in the page that is given or written."""
    rules, page = folder / "rules", folder / "search.html"
    rules.write_text("never pub cmd_vel 30\nsome state navigate _ ABORTED\nsome state navigate _ CANCELED\n")
    status, told = tool.within("holds", rules, NAVIGATION[1], "--view", "https://ci/run.html")
    decided = re.findall(r":([0-9]+):1: in round", told)
    yield f"the links of holds: {told}", (status, re.findall(r"https://ci/run.html#line=([0-9]+) shows", told)), (1, decided)
    yield "how many rules it links", len(decided), 2
    status, told = tool.within("holds", rules, NAVIGATION[1], NAVIGATION[1], "--view", "run.html")
    yield f"one page of two transcripts: {told}", (status, "--view is the page of one transcript" in told), (2, True)
    rules.write_text("never state navigate _ SUCCEEDED\n")
    search = ("search", NAVIGATION[0], "--rules", rules, "--drop", "battery", "--reference", "--view", page)
    status, told = tool.within(*search)
    number = int(re.search("  line ([0-9]+), in round", told)[1])
    yield f"the link of search: {told}", (status, f"  {page}#line={number} shows the line that decides never state navigate _ SUCCEEDED\n" in told), (1, True)
    data = data_of(page.read_text())
    yield "the line in the page of search", data["runs"][0]["text"].split("\n")[number - 1], "state navigate 00000000-0000-0001-0000-000000000001 4"
    yield "the rule in the page of search", [it[:3] for it in data["broken"]], [[0, number, "never state navigate _ SUCCEEDED"]]
    for words, says in ((("--shard", "1/2"), "--view is of a whole search"), (("--merge",), "it has no run for --view")):
        status, told = tool.within(*search, *words)
        yield f"search {words} with --view: {told}", (status, says in told), (2, True)


def of_links(page, folder):
    """#round= and #line= lead to what they name, and the address names what is chosen."""
    path = opened(page, folder, *NAVIGATION)
    lines = lines_of(NAVIGATION[1])
    marked = "(() => { const it = document.querySelector('#lines li [aria-current], #lines li[aria-current]'); return it && [...it.closest('ol').children].indexOf(it.closest('li')) + it.closest('ol').start; })()"
    page.open(f"{path}?#round=100")
    yield "where a link to a round leads", (page.text("#where"), page.value(marked)), ("Round 100 at moment 99", None)
    for number in (1, 221, 360):
        page.open(f"{path}?{number}#line={number}")
        at = sum(line.startswith("round ") for line in lines[:number])
        yield f"where a link to line {number} leads", (page.text("#where"), page.value(marked), lines[number - 1] in shown_lines(page)), (f"Round {at} at moment {at - 1}", number, True)
    page.open(f"{path}?end#line={len(lines)}")
    yield "where a link to the line `end` leads", page.text("#where"), "Round 251 at moment 250"
    page.open(f"{path}?none#line=99999")
    yield "a link to no line", page.text("#where"), "Round 156 at moment 155"
    focus(page)
    page.key("Escape")
    page.key("Home")
    page.value("new Promise((done) => setTimeout(done, 300))")
    yield "the address of a round", page.value("location.hash"), "#round=1"
    page.value("(location.hash = '#round=58', new Promise((done) => setTimeout(done, 100)))")
    yield "an address that is written", page.text("#where"), "Round 58 at moment 57"
    page.key("ArrowDown")
    page.value("new Promise((done) => setTimeout(done, 300))")
    first = next(at for at, line in enumerate(lines, 1) if line.startswith("round 58 "))
    yield "the address of a callback", page.value("location.hash"), f"#line={first + 1}"


def of_causes(page, folder):
    """Arrows go along a row; with Shift they go to who sent what a callback took, and to who took what it sent."""
    opened(page, folder, *NAVIGATION)
    lines = lines_of(NAVIGATION[1])
    page.value("(location.hash = '#line=%d', new Promise((done) => setTimeout(done, 100)))" % (lines.index("run motor message 0 0") + 1))
    focus(page)
    chosen = lambda: shown_lines(page, "#lines li.run.chosen")
    yield "the motor that is told to stop", chosen(), ["run motor message 0 0"]
    page.key("ArrowRight", 8)
    yield "nobody took what it sent", (chosen(), page.text("#said")), (["run motor message 0 0"], "nobody took what it sent")
    page.key("ArrowLeft", 8)
    yield "who told it", chosen(), ["run navigate poll 30 1 00000000-0000-0001-0000-000000000001"]
    page.key("ArrowRight", 8)
    yield "and back to the first that took it", chosen(), ["run motor message 0 0"]
    motors = [line for line in lines if line.startswith("run motor ")]
    page.key("ArrowLeft")
    yield "the callback before in its row", (chosen(), page.value("view.chosen + 1")), ([motors[-2]], 154)
    for _ in range(3):
        page.key("ArrowLeft")
    yield "three before that", page.value("view.chosen + 1"), 154 - 15
    page.key("Escape")
    page.key("ArrowLeft")
    yield "after Escape the arrows go by rounds", (chosen(), page.value("view.chosen + 1")), ([], 138)
    page.value("(location.hash = '#line=%d', new Promise((done) => setTimeout(done, 100)))" % (lines.index("run watch_battery message 15 0") + 1))
    yield "what the details say", page.value("[...document.querySelectorAll('#details p, #details h3')].map((it) => it.textContent)"), ["it took what was fed", "Who took what it sent (Shift →)"]
    page.value("[...document.querySelectorAll('#details button')].pop().click()")
    yield "a button of the details", chosen(), ["run navigate cancel 0 1 00000000-0000-0001-0000-000000000001"]
    yield "the identifier is in the details", page.value("document.querySelector('#details p').textContent"), "goal 1.1 is 00000000-0000-0001-0000-000000000001"


def of_boxes(page, folder):
    """A box shows its value before its name, as far as there is room, and goals by their names."""
    opened(page, folder, *NAVIGATION)
    said = "(() => { const told = [], drawn = pen.fillText, wide = view.width; pen.fillText = (text) => told.push(text); view.width = %d; const at = runs[0].boxOf(%d); drawBox(runs[0], at, boxPlace(runs[0], at), '#000000'); pen.fillText = drawn; view.width = wide; return told; })()"
    lines = lines_of(NAVIGATION[1])
    for start, by_width in (
        ("run motor message 30", ((24, "30"), (90, "30 motor"), (200, "30 motor message"))),
        ("run navigate poll 30 1", ((30, "1.1"), (90, "1.1 navigate"), (200, "1.1 navigate poll"))),
        ("run start timer 50", ((90, "start timer"), (45, "start"))),
    ):
        number = next(at for at, line in enumerate(lines, 1) if line.startswith(start))
        for wide, should in by_width:
            yield f"what the box of {start!r} says at {wide} pixels", page.value(said % (wide, number)), [should]


def of_fields(page, folder):
    """Search by word, entity and value."""
    opened(page, folder, *NAVIGATION)
    lines = [line.split(" ") for line in lines_of(NAVIGATION[1])[:-1]]
    for words, isFound in (
        ("word:pub value:>20", lambda it: it[0] == "pub" and int(it[2]) > 20),
        ("entity:motor", lambda it: it[1] == "motor"),
        ("word:run value:<=15 entity:watch_battery", lambda it: it[:2] == ["run", "watch_battery"] and int(it[3]) <= 15),
        ("value:-1", lambda it: False),
        ("word:run poll", lambda it: it[0] == "run" and "poll" in " ".join(it)),
        ("word:log value:0", lambda it: it[0] == "log" and it[2] == "0"),
    ):
        focus(page)
        page.key("/")
        page.value("document.getElementById('words').select()")
        page.write(words)
        yield f"which lines have {words!r}", page.value("view.hits.map((it) => it[1])"), [at for at, it in enumerate(lines, 1) if isFound(it)]


def of_two(page, folder):
    """Two runs are on one axis; what differs is marked, and plots are over one another."""
    opened(page, folder, *ROBOT, LATE, "--plot", "base_cmd,navigate")
    told = page.value("runs.map((run) => [...Array(run.count).keys()].filter((at) => isOtherBox(run, at)).map((at) => run.head(at)))")
    differing = tool.run("diff", ROBOT[1], LATE, "--all")[1]
    yield "the callbacks that are marked are of rounds that differ", (all(told), len(told[0]) > 0), (True, True)
    first = page.value("runs.map((run) => [...Array(run.count).keys()].filter((at) => run.boxes[at * 5] === 7 && isOtherBox(run, at)).map((at) => run.head(at)))")
    yield f"those of round 8: {differing[:200]}", first, [["run button message 1 0"], []]
    series = page.value("plots.panels.find((it) => it.title === 'values').series.map((it) => [...it.columns].map((column, at) => [column + 1, it.values[at]]))")
    values = []
    for name in (ROBOT[1], LATE):
        values.append([])
        number = 0
        for line in lines_of(name):
            number += line.startswith("round ")
            if line.startswith("pub base_cmd "):
                values[-1].append([number, int(line.split(" ")[2])])
    yield "the values of both runs in one plot", series, values
    dashes = page.value("(() => { const told = [], drawn = pen.setLineDash; pen.setLineDash = (it) => told.push(it.length); plots.panels[0].series.forEach((it) => drawSteps(plots.panels[0], it, 0, 20, '#000000')); pen.setLineDash = drawn; return told; })()")
    yield "the second run is dashed", dashes, [0, 0, 2, 0]
    page.value("choose(11)")
    page.value("draw()")
    said = dict(zip(*page.value("['dt', 'dd'].map((name) => [...document.querySelectorAll('#values ' + name)].map((it) => it.textContent))")))
    last = [[value for at, value in its if at <= 12][-1] for its in values]
    yield "the values of both in round 12", said["base_cmd, values"], f"robot.txt: {last[0]}\ne_stop_too_late.txt: {last[1]}"


# ---- access


def luminance(colour):
    parts = [int(colour[at : at + 2], 16) / 255 for at in (1, 3, 5)]
    parts = [it / 12.92 if it <= 0.03928 else ((it + 0.055) / 1.055) ** 2.4 for it in parts]
    return 0.2126 * parts[0] + 0.7152 * parts[1] + 0.0722 * parts[2]


def contrast(one, other):
    low, high = sorted((luminance(one), luminance(other)))
    return (high + 0.05) / (low + 0.05)


def of_access(page, folder):
    """Contrast in light and dark; a name for all that can be used; no identifier twice; one main part, and headings in order."""
    opened(page, folder, *NAVIGATION, "--tick", "20ms")
    for scheme in ("light", "dark"):
        page.ask("Emulation.setEmulatedMedia", features=[{"name": "prefers-color-scheme", "value": scheme}])
        page.settle()
        colours = page.value("view.colours")
        low = [(ink, ground, round(contrast(colours[ink], colours[ground]), 2)) for ink, ground, least in TEXTS + SHAPES if contrast(colours[ink], colours[ground]) < least]
        yield f"colours of too little contrast in {scheme}", low, []
    page.ask("Emulation.setEmulatedMedia", features=[])
    page.value("toggleGraph()")
    page.value("document.querySelector('#plots summary').click()")
    page.settle()
    spoken = page.spoken()
    usable = [(role, name) for role, name in spoken if role in ("button", "ToggleButton", "toggle button", "searchbox", "slider", "checkbox", "combobox", "DisclosureTriangle", "link", "textbox")]
    yield "what can be used and has no name", [it for it in usable if not it[1].strip()], []
    kinds = {role for role, _ in usable}
    yield f"what can be used: {sorted(kinds)}", {"slider", "searchbox", "checkbox", "button"} <= kinds, True
    code = """({
      twice: [...document.querySelectorAll('[id]')].map((it) => it.id).filter((it, at, all) => all.indexOf(it) !== at),
      lang: document.documentElement.lang, title: document.title !== "", mains: document.querySelectorAll('main').length,
      missing: [...document.querySelectorAll('[aria-controls], [aria-describedby], [aria-labelledby], label[for]')].filter((it) => ['aria-controls', 'aria-describedby', 'aria-labelledby', 'for'].some((name) => it.hasAttribute(name) && !document.getElementById(it.getAttribute(name)))).map((it) => it.outerHTML.slice(0, 80)),
      tabs: [...document.querySelectorAll('[tabindex]')].filter((it) => it.tabIndex > 0).length,
      zoom: document.querySelector('meta[name=viewport]').content,
    })"""
    yield "the page's own order", page.value(code), {"twice": [], "lang": "en", "title": True, "mains": 1, "missing": [], "tabs": 0, "zoom": "width=device-width, initial-scale=1"}
    levels = page.value("[...document.querySelectorAll('h1, h2, h3')].filter((it) => it.offsetParent).map((it) => Number(it.tagName[1]))")
    yield f"headings that pass over a level: {levels}", [pair for pair in zip(levels, levels[1:]) if pair[1] > pair[0] + 1], []


def of_widths(page, folder):
    """The same page at 1,500, 800 and 400 pixels: nothing stands out of it, and all that is used can be seen."""
    opened(page, folder, *NAVIGATION, "--tick", "20ms")
    for wide, is_below in ((1500, False), (800, True), (400, True)):
        page.ask("Emulation.setDeviceMetricsOverride", width=wide, height=800, deviceScaleFactor=1, mobile=wide < 500)
        page.settle()
        page.settle()
        code = """(() => { const seen = [...document.querySelectorAll('button, input, select, summary')].filter((it) => it.offsetParent && !it.closest('#graph, #beside, #names')).map((it) => it.getBoundingClientRect());
          return [document.documentElement.scrollWidth, seen.every((it) => it.left >= 0 && it.right <= innerWidth), byId('beside').offsetTop > byId('run-side').offsetTop,
            Math.round(x(data.columns)) - canvas.clientWidth, byId('beside').offsetHeight >= 200, byId('picture').offsetHeight >= 250]; })()"""
        yield f"the page at {wide} pixels", page.value(code), [wide, True, is_below, 0, True, True]
    yield from of_fingers(page)
    page.ask("Emulation.setDeviceMetricsOverride", width=1500, height=900, deviceScaleFactor=1, mobile=False)


def of_fingers(page):
    """On a phone two fingers zoom, one moves the rounds, and a tap chooses a round."""
    page.ask("Emulation.setTouchEmulationEnabled", enabled=True, maxTouchPoints=2)
    top = page.value("canvas.getBoundingClientRect().top + 150")
    touch = lambda kind, *places: page.ask("Input.dispatchTouchEvent", type=kind, touchPoints=[{"x": x, "y": top, "id": at} for at, x in enumerate(places)])
    before = page.value("view.width")
    touch("touchStart", 200)
    touch("touchStart", 200, 240)
    for by in range(1, 9):
        touch("touchMove", 200 - 5 * by, 240 + 5 * by)
    touch("touchEnd")
    page.settle()
    wider, place = page.value("[view.width, placeAt(offset(view.left) + 220 - gutter)]")
    yield f"two fingers zoom: {wider / before:.2f}", (2.8 < wider / before < 3.2, page.value("touches.size")), (True, 0)
    touch("touchStart", 300)
    for by in range(1, 9):
        touch("touchMove", 300 - 10 * by)
    touch("touchEnd")
    page.settle()
    yield "one finger moves the rounds", page.value("placeAt(offset(view.left) + 220 - gutter)") > place, True
    column = page.value("columnAt(260)")
    touch("touchStart", 260)
    touch("touchEnd")
    page.settle()
    yield "a tap chooses a round", page.value("view.chosen"), column
    page.ask("Emulation.setTouchEmulationEnabled", enabled=False)
