"""What CI systems and editors are given: SARIF of explain, JUnit XML of holds, search and check, and the language server."""
import json
import pathlib
import subprocess
import sys
import tempfile
from xml.etree import ElementTree

from virraupez import commands, junit, language_server

from . import tool

COMMAND = "../virraupez"
TIMER = "examples/timer.json"
RULES = "never drop _\nevery run t timer then log t >20 within 0 rounds\n"
# A document with a fault after signs of two UTF-16 units, and a warning.
WRONG = '{"version": 1, "comment": "🤖🤖", "nodes": [{"name": "n", "timers": [{"name": "t", "period": 0}]}]}\n'


def answers(program):
    yield from of_sarif()
    with tempfile.TemporaryDirectory() as folder:
        yield from of_junit(pathlib.Path(folder), program)
    yield "JUnit of signs that XML hasn't", ElementTree.fromstring(junit.text([("a\x00\x1b<&\"'", [junit.Case("\ud800", "f", 1, "fails", ["]]>"])])]))[0][0][0].text, "]]>"
    yield from of_server()


def of_sarif():
    mistakes = [tool.text(it) for it in sorted((tool.TESTS / "mistakes").glob("*.json"))[:20]]
    status, text = tool.run("explain", "--sarif", *mistakes)
    log = json.loads(text)
    run = log["runs"][0]
    yield "explain --sarif", (status, log["version"], len(log["runs"])), (1, "2.1.0", 1)
    found = []
    for it in run["results"]:
        at = it["locations"][0]["physicalLocation"]
        found.append((at["artifactLocation"]["uri"], at["region"]["startLine"], at["region"]["startColumn"], it["level"], it["ruleId"]))
    should = []
    for name in mistakes:
        told = json.loads(tool.within("explain", "--json", name)[1])
        should += [(name, it["line"], it["column"], "error" if it["code"] else "warning", it["name"]) for it in told["places"] + told["warnings"]]
    yield "the results of explain --sarif", sorted(found), sorted(should)
    yield "rules that results name and SARIF hasn't", {it["ruleId"] for it in run["results"]} - {it["id"] for it in run["tool"]["driver"]["rules"]}, set()
    yield "explain --sarif of a right document", json.loads(tool.run("explain", "--sarif", TIMER)[1])["runs"][0]["results"], []
    yield "explain --sarif and --json", tool.run("explain", "--sarif", "--json", TIMER)[0], 2


def cases(file):
    """The suites of a file, each with its cases: a name, and the first line of why it fails."""
    suites = ElementTree.fromstring(file.read_bytes())
    found = []
    for suite in suites:
        of = [(it.get("name"), it[0].get("message") if len(it) else None) for it in suite]
        assert (int(suite.get("tests")), int(suite.get("failures"))) == (len(of), sum(why is not None for _, why in of))
        found.append((suite.get("name"), of))
    return found


def of_junit(top, program):
    rules, file = top / "it.rules", top / "junit.xml"
    rules.write_text(RULES)
    holding, failing = RULES.splitlines()
    told = f"{rules}:2:1: fails: {failing}"
    status = tool.run("holds", rules, "examples/timer.txt", "--junit", file)[0]
    yield "holds --junit", (status, cases(file)), (1, [("examples/timer.txt", [(holding, None), (failing, told)])])
    status = tool.run(COMMAND, "check", "--reference", TIMER, "--rules", rules, "--golden", "examples/timer.txt", "--junit", file)[0]
    found = cases(file)
    yield "check --junit", (status, found[0][0], [it[1] for it in found[0][1]]), (1, TIMER, [None, told, None])
    words = ("--reference", "--rules", rules, "--robust", "round", "--period", "t", "9..11", "--junit", file)
    status = tool.run(COMMAND, "search", TIMER, *words)[0]
    robust = ("robust round", None)
    yield "search --junit", (status, cases(file)), (1, [(TIMER, [(holding, None), (failing, f"{rules}:2:1: breaks without a change: {failing}"), robust])])
    rules.write_text("never drop _\nevery log t 7 then log t 8\n")
    status = tool.run(COMMAND, "search", TIMER, *words)[0]
    nothing = "every log t 7 then log t 8"
    yield "search --junit of a rule about nothing", (status, cases(file)[0][1][1]), (1, (nothing, f"{rules}:2:1: of nothing in all of them: {nothing}"))
    yield "JUnit that can't be written", tool.run("holds", rules, "examples/timer.txt", "--junit", top)[0], 2


class Editor:
    """An editor's end of a language server."""

    def __init__(self):
        words = [sys.executable, "-B", tool.TOP / "virraupez", "lsp"]
        self.server = subprocess.Popen(words, stdin=subprocess.PIPE, stdout=subprocess.PIPE)

    def send(self, method, params, **more):
        self.write(json.dumps({"jsonrpc": "2.0", "method": method, "params": params, **more}).encode())

    def write(self, given):
        self.server.stdin.write(b"Content-Length: %d\r\n\r\n%s" % (len(given), given))
        self.server.stdin.flush()

    def receive(self):
        length = int(self.server.stdout.readline().split(b":")[1])
        self.server.stdout.readline()
        return json.loads(self.server.stdout.read(length))

    def asked(self, method, params, number=1):
        self.send(method, params, id=number)
        return self.receive()

    def opened(self, text, change=False):
        given = {"textDocument": {"uri": "file:///it.json"}, "contentChanges": [{"text": text}]} if change else {"textDocument": {"uri": "file:///it.json", "text": text}}
        self.send(f"textDocument/did{'Change' if change else 'Open'}", given)
        return self.receive()["params"]["diagnostics"]


def of_server():
    editor = Editor()
    able = editor.asked("initialize", {})["result"]["capabilities"]
    yield "what the server can do", able, {"textDocumentSync": 1, "hoverProvider": True}
    found = editor.opened(WRONG)
    at = WRONG.index("0}") + 2  # two signs before it take two units
    should = {"start": {"line": 0, "character": at}, "end": {"line": 0, "character": at + 1}}
    yield "the fault of a document", [(it["code"], it["severity"], it["range"]) for it in found if it["severity"] == 1], [("refused 5 (Limit)", 1, should)]
    yield "its warnings", {it["code"] for it in found if it["severity"] == 2}, {"warning"}
    position = {"line": 0, "character": WRONG.index("period") + 4}
    says = editor.asked("textDocument/hover", {"textDocument": {"uri": "file:///it.json"}, "position": position})["result"]
    yield "what a field means", "tick" in says["contents"]["value"], True
    position["character"] = 0
    yield "what no field means", editor.asked("textDocument/hover", {"textDocument": {"uri": "file:///it.json"}, "position": position})["result"], None
    yield "a document after a change", editor.opened((tool.TOP / TIMER).read_text(), change=True), []
    editor.send("textDocument/didClose", {"textDocument": {"uri": "file:///it.json"}})
    yield "a document that is closed", editor.receive()["params"]["diagnostics"], []
    yield "a method that there isn't", editor.asked("textDocument/rename", {})["error"]["code"], language_server.NO_METHOD
    editor.write(b"{")
    yield "what is no JSON", editor.receive()["error"]["code"], language_server.NO_JSON
    yield "the end", editor.asked("shutdown", None)["result"], None
    editor.send("exit", None)
    yield "its status", (editor.server.wait(tool.SECONDS), editor.server.stdout.read()), (0, b"")
    editor.server.stdin.close()
    editor.server.stdout.close()
    ran = subprocess.run([sys.executable, "-B", tool.TOP / "virraupez", "lsp"], stdin=subprocess.DEVNULL, stdout=subprocess.PIPE)
    yield "one whose editor went away", (ran.returncode, ran.stdout, "lsp" in commands.NAMES), (1, b"", True)
