"""Who talks to whom: the graph of each example has all that its document has, with the counts of its transcript, laid out by dot, if
that is installed, and in layers; and what a click on it does in headless Chromium, if that is installed."""
import collections
import contextlib
import itertools
import json
import os
import re
import shutil
import time
import xml.etree.ElementTree as tree

from . import browser, tool
from .drawn import SVG
from .viewed import focus, opened

NAVIGATION = ("examples/navigation.json", "examples/navigation.txt")


def answers(_program):
    names = sorted(path.stem for path in (tool.TOP / "examples").glob("*.json"))
    for name in names:
        with hidden_dot():
            yield from of_graph(name, "in layers")
    with hidden_dot():
        yield "docs/pictures/graph.svg", tool.within("picture", "--graph", *NAVIGATION), (0, (tool.TOP / "docs/pictures/graph.svg").read_text())
    if shutil.which("dot"):
        for name in ("navigation", "robot", "keep_last", "empty"):
            yield from of_graph(name, "by dot")
        with hidden_dot():
            in_layers = tool.within("picture", "--graph", NAVIGATION[0])[1]
        yield "dot lays out another picture than layers", tool.within("picture", "--graph", NAVIGATION[0])[1] != in_layers, True
    else:
        tool.UNDONE.append("no graph was laid out by dot: Graphviz isn't installed")
    yield from of_large()
    yield from of_counts()
    status, told = tool.within("picture", NAVIGATION[0])
    yield f"picture without a transcript: {told}", (status, "a transcript is wanted" in told), (2, True)
    yield from browser.opened(of_page, "the graph in Chromium", "no graph was clicked on")


@contextlib.contextmanager
def hidden_dot():
    """Has no program be found."""
    before, os.environ["PATH"] = os.environ["PATH"], ""
    try:
        yield
    finally:
        os.environ["PATH"] = before


def entities(document, kind):
    return [(node, it) for node in document.get("nodes", []) for it in node.get(kind, [])]


def wanted(document):
    """The shapes and the edges of a document, counted here."""
    shapes = [f"node {node['name']}" for node in document.get("nodes", [])] + [f"topic {topic}" for topic in document.get("topics", [])]
    shapes += [f"{word} {it['name']}" for word, kind in (("service", "services"), ("action", "actions")) for _, it in entities(document, kind)]
    edges = [(it["topic"], node["name"]) for node, it in entities(document, "subscriptions")]
    edges += [(it["name"], node["name"]) for kind in ("services", "actions") for node, it in entities(document, kind)]
    edges += [(node["name"], it[word]) for word, kind in (("service", "clients"), ("action", "action_clients")) for node, it in entities(document, kind)]
    for node in document.get("nodes", []):
        edges += sorted({(node["name"], topic) for topic in re.findall('"pub", "([^"]+)"', json.dumps(node))})
    fed = sorted({it.get("topic") or it["action"] for it in document.get("feed", [])})
    return shapes + ["outside outside"] * bool(fed), edges + [("outside", name) for name in fed]


def read(text):
    """The shapes of a graph with their boxes, and its edges with their words and their ends."""
    shapes, edges = {}, []
    for it in tree.fromstring(text).iter(SVG + "g"):
        if it.get("class") == "shape":
            box = it.find(SVG + "rect")
            shapes[it.get("data-key")] = [float(box.get(name)) for name in ("x", "y", "width", "height")]
        elif it.get("class", "").startswith("edge"):
            says = it.find(SVG + "title").text
            begin, end = re.match(r"from (\S+?) to ([^, ]+)", says).groups()
            places = [tuple(map(float, place.split(","))) for place in re.findall("[0-9.-]+,[0-9.-]+", it.find(SVG + "path").get("d"))]
            edges.append((begin, end, [words.text for words in it.iter(SVG + "text")], places[0], places[-1], it.get("class")))
    return shapes, edges


def gap(box, place):
    """How far a place is from the rim of a box."""
    left, top, wide, high = box
    outside = max(left - place[0], place[0] - left - wide, top - place[1], place[1] - top - high)
    return abs(outside)


def of_graph(name, how):
    document = json.loads((tool.TOP / f"examples/{name}.json").read_text())
    status, text = tool.within("picture", "--graph", f"examples/{name}.json")
    shapes, edges = read(text)
    should = wanted(document)
    yield f"the shapes of {name} {how}", (status, sorted(shapes)), (0, sorted(should[0]))
    yield f"the edges of {name} {how}", sorted(it[:2] for it in edges), sorted(should[1])
    groups = sum(len({it.get("group") for kind in ("timers", "subscriptions", "services", "clients", "actions", "action_clients") for it in node.get(kind, [])}) for node in document.get("nodes", []))
    yield f"the callback groups of {name} {how}", text.count('class="small"'), groups
    clash = [(one, other) for (one, a), (other, b) in itertools.combinations(shapes.items(), 2) if a[0] < b[0] + b[2] and b[0] < a[0] + a[2] and a[1] < b[1] + b[3] and b[1] < a[1] + a[3]]
    yield f"shapes of {name} that are on one another {how}", clash, []
    *_, wide, high = map(float, re.search('viewBox="([^"]+)"', text)[1].split(" "))
    yield f"shapes of {name} that stand out of the picture {how}", [key for key, (x, y, w, h) in shapes.items() if x < 0 or y < 0 or x + w > wide or y + h > high], []
    boxes = {key.split(" ")[1]: [its for its_key, its in shapes.items() if its_key.split(" ")[1] == key.split(" ")[1]] for key in shapes}
    loose = [(begin, end) for begin, end, _, first, last, _ in edges if min(gap(box, first) for box in boxes[begin]) > 8 or min(gap(box, last) for box in boxes[end]) > 8]
    yield f"edges of {name} that don't reach from shape to shape {how}", loose, []


def of_large():
    """A large graph is in layers, since dot would take long, and takes seconds itself."""
    topics = [f"t{at}" for at in range(200)]
    nodes = [{"name": f"n{at}", "timers": [{"name": f"beat{at}", "period": 1, "script": [["pub", f"t{at * 7 % 200}", 1], ["pub", f"t{at * 11 % 200}", 1]]}]} for at in range(60)]
    for at in range(240):
        nodes[at * 13 % 60].setdefault("subscriptions", []).append({"name": f"hear{at}", "topic": f"t{at * 17 % 200}"})
    with tool.file(json.dumps({"version": 1, "topics": topics, "nodes": nodes, "moments": []})) as name:
        begun = time.process_time()
        text = tool.within("picture", "--graph", name)
        seconds = time.process_time() - begun
        with hidden_dot():
            yield f"a large graph, in {seconds:.1f} s", (text == tool.within("picture", "--graph", name), len(read(text[1])[0]), seconds < 10), (True, 260, True)


def of_counts():
    """With a transcript the edges say what was sent, taken and lost."""
    for name in ("navigation", "keep_last", "robot", "two_clients"):
        document = json.loads((tool.TOP / f"examples/{name}.json").read_text())
        lines = [line.split(" ") for line in (tool.TOP / f"examples/{name}.txt").read_text().splitlines()]
        count = collections.Counter(it[1] if it[0] == "drop" else tuple(it[:2]) for it in lines if it[0] in ("drop", "call", "goal", "cancel"))
        count.update((it[1], it[2]) for it in lines if it[0] == "run")
        status, text = tool.within("picture", "--graph", f"examples/{name}.json", f"examples/{name}.txt")
        words = {it[2][0]: it[2][1:] for it in read(text)[1] if it[2]}
        says = lambda number, one, more: [f"{number} {one if number == 1 else more}"] * bool(number)
        for _, it in entities(document, "subscriptions"):
            should = [f"depth {it.get('depth', 10)}", *says(count[it["name"], "message"], "message", "messages"), *says(count[it["name"]], "lost", "lost")]
            yield f"what the edge to {it['name']} of {name} says", (status, words[it["name"]]), (0, should)
        for _, it in entities(document, "clients"):
            yield f"what the edge from {it['name']} of {name} says", words[it["name"]], [f"depth {it.get('depth', 10)}", *says(count["call", it["name"]], "call", "calls")]
        lost = sum(bool(count[it["name"]]) for _, it in entities(document, "subscriptions"))
        yield f"the edges of {name} that are marked, since something was lost", sum(it[5] == "edge lost" for it in read(text)[1]), lost


def of_page(page, folder):
    """The graph of a page, and the rows that a click on it selects."""
    opened(page, folder, *NAVIGATION, "--plot", "scan")
    focus(page)
    hidden = "document.getElementById('graph').hidden"
    before = page.value(hidden)
    page.key("g")
    yield "the key g shows the graph", (before, page.value(hidden)), (True, False)
    place = "(() => { const at = document.querySelector('[data-key=\"%s\"] rect').getBoundingClientRect(); return [at.left + at.width / 2, at.top + at.height / 2]; })()"
    rows = "view.rows && [...view.rows[0]].map((at) => runs[0].rows[at][0])"
    for key, should in (("node mission", ["mission"]), ("topic cmd_vel", ["navigator", "base"]), ("service plan_path", ["planner", "navigator"]), ("action navigate", ["navigator", "mission"])):
        page.pointer(*page.value(place % key), click=True)
        yield f"the rows that {key} selects", page.value(rows), should
    yield "the plot of a topic that was clicked on", page.value("plots.open"), ["scan", "cmd_vel"]
    page.pointer(*page.value(place % "action navigate"), click=True)
    yield "a second click selects none", page.value("view.rows"), None
    page.value("document.querySelector('[data-key=\"node base\"]').focus()")
    page.key("Enter")
    yield "Enter on a shape", (page.value(rows), page.value("document.querySelector('[data-key=\"node base\"]').getAttribute('aria-pressed')")), (["base"], "true")
    named = [name for role, name in page.spoken() if role in ("button", "toggle button", "ToggleButton") and name.startswith(("node", "topic", "service", "action"))]
    yield "what a screen reader has of the graph", sorted(named), sorted(it for it in wanted(json.loads((tool.TOP / NAVIGATION[0]).read_text()))[0] if it != "outside outside")
    focus(page)
    page.key("g")
    yield "the key g hides the graph", page.value(hidden), True
    yield "what the page with a graph complains of", page.wrong(), ([], [])
