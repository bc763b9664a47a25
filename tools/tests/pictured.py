"""The pictures of docs/tools.md, which are taken of pages in headless Chromium, if that is installed: of the navigation, of two runs, and of a
long run, in light and dark, on a wide screen, a middle one and a narrow one. `bench/page` writes them anew."""
import subprocess

import virraupez

from . import browser, tool

NAVIGATION = ("examples/navigation.json", "examples/navigation.txt", "--tick", "20ms")
TWO = ("examples/robot.json", "examples/robot.txt", "tools/tests/differing/e_stop_too_late.txt", "--plot", "base_cmd,navigate")
# Each picture: the words of view, its width and height, whether it is dark, and what is done in the page before it is taken.
PICTURES = {
    "view": (NAVIGATION, 1500, 820, False, ()),
    "view_values": ((*NAVIGATION, "--plot", "cmd_vel,navigate,motor"), 1500, 900, False, ("location.hash = '#line=358'", "zoom(8)", "showChosen(), redraw()")),
    "view_graph": (NAVIGATION, 1500, 900, True, ("toggleGraph()", "selectShape(document.querySelector('[data-key=\"topic cmd_vel\"]'))")),
    "view_two": (TWO, 1500, 900, False, ("byId('picture').scrollTo(0, 330)",)),
    "view_middle": (NAVIGATION, 800, 800, False, ()),
    "view_narrow": (NAVIGATION, 400, 800, False, ()),
    "view_long": (None, 1500, 560, False, ("byId('title').textContent = 'long.txt'", "openPlots(['t0', 'drive', 'also3'])", "zoom(30)", "byId('picture').scrollTo(0, 0)")),
}
# So many rounds, and as many lines at least.
ROUNDS, LINES = 65536, 400000


def long_run(program, folder):
    """A document whose run is long, and its transcript: eight nodes that hear each other, and goals."""
    robot = virraupez.Document(topics=[f"t{at}" for at in range(8)])
    for at in range(8):
        node = robot.node(f"node{at}")
        # Once in fifty times a value comes twice, which is too much for a depth of 1.
        node.timer(f"beat{at}", period=9, script=f"g0 += 1\n r0 = g0 * g0\n pub t{at} g0\n if g0 < {50 + at} goto end\n pub t{at} r0\n g0 = 0")
        node.subscription(f"hear{at}", topic=f"t{(at + 3) % 8}", depth=2, script="log in")
        node.subscription(f"also{at}", topic=f"t{(at + 5) % 8}", depth=1, script="log in")
    server, client = robot.node("driver"), robot.node("mission")
    steps = "r5 += 1\n feedback r5\n if r5 >= in goto arrived\n wait 90\n goto end\narrived: succeed r5"
    server.action("drive", result_timeout=800, on_goal="decide 2", script=steps)
    client.action_client("go", action="drive", on_feedback="log in")
    client.timer("start", period=4000, script="goal go 20")
    robot.every(1, until=ROUNDS - 1)
    document, transcript = folder / "long.json", folder / "long.txt"
    document.write_text(robot.text())
    transcript.write_bytes(subprocess.run([program, "1", "1"], input=document.read_bytes(), stdout=subprocess.PIPE).stdout)
    return document, transcript


def take(page, name, folder, words):
    """Takes a picture, and gives its path."""
    _, wide, high, is_dark, does = PICTURES[name]
    source, path = folder / f"{name}.html", folder / f"{name}.webp"
    status, told = tool.within("view", *words)
    if status:
        raise browser.Silent(told)
    source.write_text(told)
    page.ask("Emulation.setDeviceMetricsOverride", width=wide, height=high, deviceScaleFactor=1, mobile=wide < 500)
    page.ask("Emulation.setEmulatedMedia", features=[{"name": "prefers-color-scheme", "value": "dark" if is_dark else "light"}])
    page.open(source)
    for code in does:
        page.value(f"({code}, 0)")
        page.settle()
    page.picture(path)
    return path


def measures(path):
    """The width and the height of a WebP picture of the extended form, whose head has each less one."""
    head = path.read_bytes()[:30]
    number = lambda at: int.from_bytes(head[at : at + 3], "little") + 1
    return (number(24), number(27)) if head[:4] + head[8:16] == b"RIFFWEBPVP8X" else None


def answers(_program):
    pages = (tool.TOP / "docs/tools.md").read_text()
    yield "the pictures that docs/tools.md shows", [name for name in PICTURES if f"](pictures/{name}.webp)" not in pages], []
    yield "those that are in docs/pictures", [name for name in PICTURES if measures(tool.TOP / f"docs/pictures/{name}.webp") != PICTURES[name][1:3]], []
    yield from browser.opened(of_pictures, "pictures of pages", "no picture of a page was taken", 1400, 800)


def of_pictures(page, folder):
    """The pictures of docs/tools.md, taken anew."""
    for name, (words, wide, high, is_dark, _) in PICTURES.items():
        if words:
            path = take(page, name, folder, words)
            ground = page.value("getComputedStyle(document.body).backgroundColor")
            yield f"the picture {name}", (measures(path), path.stat().st_size > 10000, ground), ((wide, high), True, "rgb(22, 24, 28)" if is_dark else "rgb(255, 255, 255)")
            yield f"what {name} complains of", page.wrong(), ([], [])
