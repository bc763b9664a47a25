"""What view writes: a page that has all of a transcript and asks for nothing; and what the page does in headless Chromium, if that is
installed: its keys, its pointer, search, two transcripts, what a screen reader has, and how fast it opens."""
import itertools
import json
import pathlib
import re
import subprocess
import tempfile

from . import browser, documented, drawn, pictured, tool

COMMAND = "../virraupez"
ROBOT = ("examples/robot.json", "examples/robot.txt")
LATE = "tools/tests/differing/e_stop_too_late.txt"
WRONG = (
    (("examples/timer.json", "examples/robot.txt"), "isn't the document of this transcript"),
    (("examples/timer.json", "nowhere"), "virraupez view: nowhere: No such file or directory"),
    ((*ROBOT, "--rounds", "90-99"), "there are no rounds 90 to 99: the transcript has 21"),
    (("examples/robot.txt", "--document", ROBOT[0], "--document", "examples/timer.json"), "--document is the document of a second transcript, and there is none"),
    ((*ROBOT, "examples/timer.txt"), "isn't the document of this transcript"),
    (("examples/empty.json", "examples/empty.txt"), "there are no rounds"),
)
# What a page of many lines may take: seconds to open it, milliseconds of a frame, and megabytes.
SECONDS, FRAME, MEGABYTES = 2.0, 1000 / 60, 500


def answers(program):
    for path in sorted((tool.TOP / "examples").glob("*.json")):
        if path.stem != "empty":
            yield from of_data(path.stem)
    for words, part in WRONG:
        status, told = tool.within("view", *words)
        yield f"view {words}: {told[-200:]}", (status, part in told, "<html" in told), (2, True, False)
    hostile = '{"version":1,"topics":["t"],"remark":"</script><script>alert(1)</script>"}'
    with tool.file(hostile) as name:
        told = tool.run(COMMAND, "view", name, "-", given=b"end 0\n")
        yield f"a document with a script in it: {told}", told[0], 2
    yield from of_part()
    yield from of_page()
    of_program = lambda page, folder: of_pages(page, folder, program)
    yield from browser.opened(of_program, "pages in Chromium", "pages weren't opened in a browser", 1400, 800)


def of_pages(page, folder, program):
    """What pages do in a browser."""
    yield from of_keys(page, folder)
    yield from of_pointer(page)
    yield from of_search(page)
    yield from of_readers(page)
    yield from of_two(page, folder)
    yield from of_narrow(page)
    yield from of_much(page, folder, program)


def of_part():
    """Goals that expire after the rounds that are shown."""
    status, text = tool.within("view", "examples/result_expires.json", "examples/result_expires.txt", "--rounds", "1-3")
    yield "view of goals before they expire", (status, [it[-1] for it in data_of(text)["runs"][0]["goals"]] if status == 0 else text), (0, [None])


def of_page():
    """The commands of "view" in docs/tools.md write pages."""
    with tempfile.TemporaryDirectory() as folder:
        for name in ("virraupez", "examples", "tools"):
            (pathlib.Path(folder) / name).symlink_to(tool.TOP / name)
        for command, output in documented.commands(documented.Section(documented.TOOLS, "view")):
            ran = subprocess.run(["bash", "-c", command], stdout=subprocess.PIPE, stderr=subprocess.STDOUT, cwd=folder)
            path = pathlib.Path(folder) / command.split(" ")[-1].strip()
            yield f"tools.md: {command}", (ran.stdout.decode(), "<html" in path.read_text()), (output, True)


def data_of(text):
    return json.loads(re.search('<script type="application/json" id="data">(.*?)</script>', text, re.S)[1])


def of_data(name):
    status, text = tool.within("view", f"examples/{name}.json", f"examples/{name}.txt")
    data = data_of(text)["runs"][0]
    lines = (tool.TOP / f"examples/{name}.txt").read_text()
    told, links, goals, dots = drawn.wanted(name)
    yield f"the lines of view {name}", (status, data["text"] + lines[lines.rindex("end ") :]), (0, lines)
    every = data["text"].split("\n")
    boxes = [every[number - 1] for number in data["boxes"][3::5]]
    found = boxes, len(data["links"]) // 2, len(data["goals"]), sum(len(goal[5]) for goal in data["goals"])
    yield f"the boxes, links, goals and feedback of view {name}", found, (told, links, goals, dots)
    spans = [(server, lane, states[0][0], len(data["rounds"]) if expired is None else expired) for server, lane, _, _, states, _, expired in data["goals"]]
    clash = [(one, other) for one, other in itertools.combinations(spans, 2) if one[:2] == other[:2] and one[2] <= other[3] and other[2] <= one[3]]
    yield f"the goals of view {name} that stand on one another", clash, []
    rounds = [[at, int(it.split(" ")[1]), int(it.split(" ")[2])] for at, it in enumerate(line for line in every if line.startswith("round "))]
    yield f"the rounds of view {name}", [it[:3] for it in data["rounds"] if it[1] is not None], rounds
    outside = re.findall(r"(?: src=|href=|url\(|@import|https?:)[^ >]*", text.replace(json.dumps(data["text"]), ""))
    yield f"what view {name} asks the network for", outside, []


def opened(page, folder, *words):
    """Opens a page that view writes; its path."""
    path = folder / "page.html"
    status, told = tool.within("view", *words)
    if status:
        raise browser.Silent(told)
    path.write_text(told)
    page.open(path)
    return path


def shown_lines(page, which="#lines li"):
    """The lines that are shown, with the identifiers that names of goals have as their titles."""
    named = "(it) => { const copy = it.cloneNode(true); for (const goal of copy.querySelectorAll('abbr')) goal.textContent = goal.title; return copy.textContent; }"
    return page.value(f"[...document.querySelectorAll({json.dumps(which)})].map({named})")


def focus(page):
    page.value("document.getElementById('run').focus()")


def of_keys(page, folder):
    """The keys choose rounds and callbacks, and each round's lines are those of the transcript."""
    opened(page, folder, *ROBOT)
    lines = (tool.TOP / ROBOT[1]).read_text().split("\n")[:-2]
    focus(page)
    page.key("Escape")
    page.key("Home")
    told = list(shown_lines(page))
    for _ in range(20):
        page.key("ArrowRight")
        told += shown_lines(page)
    yield "the lines of all rounds", told, lines
    yield "the last round", page.text("#where"), "Round 21 at moment 24"
    for key, should in (("Home", "Round 1 at moment 4"), ("ArrowLeft", "Round 1 at moment 4"), ("PageDown", "Round 11 at moment 14"), ("PageUp", "Round 1 at moment 4"), ("End", "Round 21 at moment 24"), ("ArrowLeft", "Round 20 at moment 23")):
        page.key(key)
        yield f"the round after {key}", page.text("#where"), should
    page.key("Home")
    for _ in range(7):
        page.key("ArrowRight")
    for key, should in (("ArrowDown", "run ticks message 5 0; sent by run wheels timer 10 0"), ("ArrowDown", "run button message 1 0; it took what was fed"), ("ArrowUp", "run ticks message 5 0; sent by run wheels timer 10 0")):
        page.key(key)
        yield f"what {key} says", page.value("document.getElementById('said').textContent"), should
    before = page.value("view.width")
    page.key("+")
    wider = page.value("view.width")
    page.key("-")
    page.key("-")
    yield "zoom by keys", (wider > before, page.value("view.width") < before), (True, True)
    page.key("0")
    yield "all rounds", page.value("[view.left, Math.round(shownColumns())]"), [0, 21]
    yield "what the page complains of, and asks for", page.wrong(), ([], [])


def of_pointer(page):
    """The pointer over a box shows its lines and where its item came from; a click chooses it."""
    place = page.value("(() => { const box = boxPlace(runs[0], runs[0].boxOf(70)), at = canvas.getBoundingClientRect(); return [box[0] + at.left + 4, box[1] + at.top + 4]; })()")
    page.pointer(*place)
    told = page.text("#tip")
    yield "the tip of a box", told, "run button message 1 0\ncancel navigator 00000000-0000-0000-0000-000000000000 0\ntook what was fed"
    page.pointer(*place, click=True)
    yield "what a click chooses", (page.text("#where"), shown_lines(page, "li.chosen")), ("Round 8 at moment 11", told.split("\n")[:2])
    without = page.value("(() => { view.box = view.hover = null; view.chosen = 0; draw(); return canvas.toDataURL(); })()")
    lit = page.value("(() => { view.hover = [runs[0], runs[0].boxOf(70)]; draw(); const drawn = canvas.toDataURL(); view.hover = null; return drawn; })()")
    yield "the lines of messages are drawn", without != lit, True
    watched = "(() => { const drawn = link, told = []; link = (run, sender, taker) => told.push([sender, taker]); %s; draw(); view.hover = view.box = null; link = drawn; return told; })()"
    button, canceled = page.value("[70, 86].map((line) => runs[0].boxOf(line))")
    yield "the lines of the box under the pointer", page.value(watched % "view.hover = [runs[0], runs[0].boxOf(70)]"), [[-1, button], [button, canceled]]
    taken = page.value(watched % "view.chosen = 7")
    yield "the lines that lead to the chosen round", ([-1, button] in taken, len(taken)), (True, sum(line.startswith("run ") and line.split(" ")[2] not in ("timer", "poll") for line in round_of(8)))
    goal = page.value("(() => { const at = canvas.getBoundingClientRect(); return [x(9.6) + at.left, runs[0].laneTop + 8 + at.top]; })()")
    page.pointer(*goal)
    yield "the tip of a goal", page.text("#tip"), "goal 1.1 of navigate: CANCELED\n00000000-0000-0001-0000-000000000001"
    page.value("canvas.dispatchEvent(new WheelEvent('wheel', { deltaY: -300, ctrlKey: true, bubbles: true, cancelable: true, clientX: 500, clientY: 300 }))")
    yield "zoom by the wheel", page.value("shownColumns() < 20"), True


def round_of(number):
    """The lines of a round of the robot."""
    return (tool.TOP / ROBOT[1]).read_text().split("\nround ")[number - 1].split("\n")


def of_search(page):
    """Search finds each line that has the words, whatever their case, and goes from one to the next."""
    lines = (tool.TOP / ROBOT[1]).read_text().split("\n")[:-2]
    focus(page)
    page.key("Home")
    page.key("/")
    for words in ("log motor", "NAVIGATE poll", "-0001-0000-000000000001 5", "nothing like it", "o"):
        page.value("document.getElementById('words').select()")
        page.write(words)
        found = [number for number, line in enumerate(lines, 1) if words.lower() in line.lower()]
        yield f"how many lines have {words!r}", page.text("#hits"), "1 line" if len(found) == 1 else f"{len(found)} lines"
        yield f"which lines have {words!r}", page.value("view.hits.map((it) => it[1])"), found
    page.value("document.getElementById('words').select()")
    page.write("cancel navigator")
    page.key("Enter")
    yield "where the first hit is", (page.text("#where"), page.text("#hits")), ("Round 8 at moment 11", "1 of 1 line")
    yield "the hit is marked", page.value("document.querySelector('mark').textContent"), "cancel navigator"
    page.key("n")
    yield "a letter in the search is a letter", page.value("document.getElementById('words').value"), "cancel navigatorn"
    page.key("Escape")
    yield "where Escape leads", page.value("document.activeElement.id"), "run"


def of_readers(page):
    """What a screen reader has: names of all that can be used, the round as the value of a slider, and lines as a list."""
    focus(page)
    page.key("Home")
    spoken = page.spoken()
    named = {(role, name) for role, name in spoken if role in ("button", "searchbox", "slider")}
    wanted = {("searchbox", "Search"), ("button", "Before"), ("button", "Next"), ("button", "Zoom in"), ("button", "Zoom out"), ("button", "All rounds")}
    yield f"what can be used: {named}", wanted - named, set()
    yield "nothing has no name", [it for it in named if not it[1]], []
    values = page.value("['aria-valuemin', 'aria-valuemax', 'aria-valuenow', 'aria-valuetext'].map((it) => document.getElementById('run').getAttribute(it))")
    yield "the slider", values, ["1", "21", "1", "Round 1 at moment 4, 5 lines"]
    yield "the lines are a list", sum(role == "listitem" for role, _ in spoken), 5
    order = []
    page.value("document.activeElement.blur()")
    for _ in range(16):
        page.key("Tab")
        order.append(page.value("document.activeElement.id || document.activeElement.tagName"))
    yield f"the order of the key Tab: {order}", all(it in order for it in ("words", "next", "all", "run")), True
    page.value("document.activeElement.blur()")
    page.key("ArrowRight")
    yield "a key while nothing has the focus", page.text("#where"), "Round 2 at moment 5"
    page.value("document.querySelectorAll('#lines button')[1].focus()")
    page.key("Enter")
    held = page.value("[document.activeElement.textContent.slice(0, 60), document.activeElement.getAttribute('aria-current')]")
    yield "where the focus is after Enter has chosen a callback", held, ["run mission timer 5 0", "true"]


def of_two(page, folder):
    """Of two transcripts the first difference is chosen and marked, and lines that differ are those that diff tells."""
    opened(page, folder, *ROBOT, LATE)
    yield "the first difference", page.text("#where"), "Round 8 at moment 11, which differs"
    yield "the lines that differ", shown_lines(page, ".differs"), [f"−  only here: {line}" for line in ("run button message 1 0", "cancel navigator 00000000-0000-0000-0000-000000000000 0")]
    focus(page)
    page.key("d")
    yield "the next difference", page.text("#where"), "Round 9 at moment 12, which differs"
    page.key("D")
    page.key("D")
    yield "the last difference", page.text("#where").endswith("which differs"), True
    told = tool.run("diff", *(ROBOT[1], LATE), "--all")[1]
    yield "how many differ", page.value("data.differ.length"), int(re.search("([0-9]+) differences", told)[1])
    opened(page, folder, *ROBOT, ROBOT[1])
    yield "two that are the same", page.text("#differ"), "No difference"
    with tool.file((tool.TOP / ROBOT[0]).read_text().replace("[4,5,6,", "[4,5,5,6,").replace('"round":8', '"round":9')) as document:
        text = subprocess.run(["python3", tool.TOP / "virraupez", "run", "--reference", document], stdout=subprocess.PIPE, stderr=subprocess.DEVNULL).stdout.decode()
        with tool.file(text) as other:
            opened(page, folder, *ROBOT, other, "--document", document)
            yield "a round that one has alone", ("no such round" in page.text("#where"), "It has no such round." in page.text("#lines")), (True, True)


def of_narrow(page):
    """On a narrow screen the lines are below, and nothing stands out of the page."""
    page.ask("Emulation.setDeviceMetricsOverride", width=400, height=800, deviceScaleFactor=2, mobile=True)
    page.settle()
    yield "a narrow screen", page.value("document.documentElement.scrollWidth <= 400 && document.getElementById('beside').offsetTop > document.getElementById('picture').offsetTop"), True
    page.ask("Emulation.setDeviceMetricsOverride", width=1400, height=800, deviceScaleFactor=1, mobile=False)


def measured(page, path):
    """What a page takes: the seconds to open it, at best of three, and those of a processor; the milliseconds of a frame while 2,000 rounds
    are panned, the median of sixty; and the megabytes of its scripts and of its process."""
    seconds = min(page.open(path) for _ in range(3))
    page.ask("Performance.enable", timeDomain="threadTicks")
    numbers = lambda: {it["name"]: it["value"] for it in page.ask("Performance.getMetrics")["metrics"]}
    before = numbers()["TaskDuration"]
    page.open(path)
    busy = numbers()["TaskDuration"] - before
    frame = page.value("""(() => { const times = [];
      view.isFolded = false; fold(); view.width = room() / 2000; view.left = 10000;
      for (let at = 0; at < 60; at++) { const begun = performance.now(); pan(40); draw(); times.push(performance.now() - begun); }
      return times.sort((one, other) => one - other)[30]; })()""")
    heap = numbers()["JSHeapUsedSize"]
    return {"lines": page.value("runs[0].starts.length"), "seconds": round(seconds, 2), "of a processor": round(busy, 2), "frame": round(frame, 1), "heap": round(heap / 1e6), "process": page.memory()}


def of_much(page, folder, program):
    """A page of 65,536 rounds and 400,000 lines opens in two seconds, pans 2,000 rounds at 60 frames a second, and takes less than 500 MB."""
    document, transcript = pictured.long_run(program, folder)
    found = measured(page, opened(page, folder, document, transcript))
    lines = transcript.read_text().count("\n")
    yield "how many lines the page of a long run has", (found["lines"], found["lines"] >= pictured.LINES), (lines, True)
    yield f"what the page of a long run takes: {found}", (found["of a processor"] < SECONDS, found["frame"] < FRAME, found["process"] < MEGABYTES), (True, True, True)
    focus(page)
    page.key("Escape")
    for key, should in (("End", "Round 65536 at moment 65535"), ("0", "Round 65536 at moment 65535"), ("Home", "Round 1 at moment 0")):
        page.key(key)
        yield f"the round after {key} of many", page.text("#where"), should
    yield "what the page of many lines complains of", page.wrong(), ([], [])
