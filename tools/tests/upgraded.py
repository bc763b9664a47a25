"""What upgrade writes: the text of each document with no other changes than those that it needs, and the same value as the reader
gives; what it does to files, and what it says of documents and programs that give none."""
import json
import os
import pathlib
import subprocess
import sys

from virraupez import upgrades

from . import documented, launched, sandbox, tool, walked

sys.path.insert(0, str(tool.TOP / "cases"))
import codes
import disturbed
from worked import named

SAYS = "upgrade: this is made by the reader in Python, and not by the proved program\n"
NODE = '"nodes":[{"name":"n","timers":[{"name":"t","period":1}]}]'
# Documents with the text of their upgrade.
TEXTS = (
    ('{"version":1}', '{"version":2,"order":"kind"}'),
    ('{"version":1}\n', '{"version":2,"order":"kind"}\n'),
    (' {\n  "version" : 1\n }\n', ' {\n  "version" : 2,"order" : "kind"\n }\n'),
    ('{"version":1,\n "topics":["x"]}', '{"version":2,\n "order":"kind",\n "topics":["x"]}'),
    ('{\r\n  "topics": ["x"],\r\n  "version": 1\r\n}\r\n', '{\r\n  "topics": ["x"],\r\n  "version": 2,\r\n  "order": "kind"\r\n}\r\n'),
    ('{"version":2,"topics":["x"]}', '{"version":2,"order":"kind","topics":["x"]}'),
    ('{"order":"arrival","version":2}', '{"order":"arrival","version":2}'),
    ('{"order":[7],"version":1}', '{"order":"kind","version":2}'),
    ('{"version":1, "order":"arrival"}', '{"version":2, "order":"kind"}'),
    ('{"\\u0076ersion":1}', '{"\\u0076ersion":2,"order":"kind"}'),
    ('{"version":1,\n "remark":{"a":[1,2]},\n "moments":[5, 6]}', '{"version":2,\n "order":"kind",\n "moments":[5, 6]}'),
    ('{"remark":"é",\n "version":1,\n "b":1,\n "c":2\n}', '{"version":2,\n "order":"kind"\n}'),
    (NODE.join(('{"version":1,', "}")).replace('"t",', '"t","depth":0, '), NODE.join(('{"version":2,"order":"kind",', "}"))),
    (NODE.join(('{"version":1,', "}")).replace('"n"', '"n", "a":1, "b":2'), NODE.join(('{"version":2,"order":"kind",', "}")).replace(',"ti', ', "ti')),
    (NODE.join(('{"version":1,', "}")).replace(":1}]}", ':1,"x":[]}],"y":{}}'), NODE.join(('{"version":2,"order":"kind",', "}"))),
    ('{"version":3,"version":1}', '{"version":3,"version":2,"order":"kind"}'),
    ('{"a":1,"version":1,"a":1}', '{"order":"kind","version":2}'),
    # The name of the schema stays, whatever it is.
    ('{"$schema":"x.json",\n "version":1}', '{"$schema":"x.json",\n "version":2,\n "order":"kind"}'),
    ('{"version":1,"a":1,"$schema":[1.5]}', '{"version":2,"order":"kind","$schema":[1.5]}'),
    ('{"version":1,"nodes":[{"name":"n","$schema":1}]}', '{"version":2,"order":"kind","nodes":[{"name":"n"}]}'),
)
# Documents with ignored fields, the places and paths of those that an upgrade would let go, and what is left of each.
LOST = (
    ('{"version":1,\n "remark":"a"}', ["2:2: goes: remark"], '{"version":2,\n "order":"kind"}'),
    (NODE.join(('{"version":1,', "}")).replace('"t",', '"t","scrpt":[], '), ["1:57: goes: nodes[0].timers[0].scrpt"], NODE.join(('{"version":2,"order":"kind",', "}")).replace('"t",', '"t",')),
    ('{"version":1,"order":"arrival"}', ["1:14: goes: order"], '{"version":2,"order":"kind"}'),
    ('{"version":1,"order":"kind"}', [], '{"version":2,"order":"kind"}'),
    ('{"version":1,"moments":[1],"moments":[2]}', ["1:28: goes: moments"], '{"version":2,"moments":[1],"order":"kind","moments":[1],"moments":[2]}'),
    ('{"$schema":"x.json","version":1}', [], '{"$schema":"x.json","version":2,"order":"kind"}'),
)
REFUSED = '{"version":1,"moments":[2,1]}', '-:1:27: refused 8 (Clock): moments[1]\n  stands: 1\n  wanted: a moment at or after the one before it, 2\n  hint: moments never go back\n'


def answers(_program):
    for given, should in TEXTS:
        yield f"the upgrade of {given!r}", upgrades.edited(given, json.loads(upgrades.text_of(given.encode()))), should
    yield from of_values()
    yield from of_words()
    with sandbox.of("exit 70", "exec_upgrade") as top:
        yield from of_files(top)
        yield from of_lost(top)
    yield from of_programs()
    yield from of_machines()
    if not tool.UPGRADES:
        tool.UNDONE.append("no document was upgraded by the proved program: none was given")
    for program in tool.UPGRADES:
        with sandbox.with_program(program, "exec_upgrade") as top:
            yield from of_program(top)


def of_values():
    """The text of every upgrade has the value that the reader gives, also of documents with ignored fields."""
    for name, document in named():
        given = document.read_bytes()
        if codes.code(given) == 0:
            value = json.loads(codes.upgrade(given))
            texts = [given.decode(), *(disturbed.text(given, f"{name} {seed}").decode() for seed in range(3))]
            yield f"the values of the upgrades of {name}", [json.loads(upgrades.edited(text, value)) == value for text in texts], [True] * 4


def of_words():
    """Documents that are named, one that is standard input, and ones that are refused."""
    given = (tool.TOP / "examples/timer.json").read_text()
    should = given.replace('"version":1', '"version":2,"order":"kind"')
    yield "upgrade --reference", tool.within("upgrade", "--reference", "examples/timer.json"), (0, should + SAYS)
    both = tool.within("upgrade", "--reference", "examples/timer.json", "examples/empty.json")
    yield "upgrade of two documents", both, (0, f'{should}{{"version":2,"order":"kind"}}\n{SAYS}')
    compact = tool.within("upgrade", "--reference", "--compact", "examples/timer.json")
    yield "upgrade --compact", compact, (0, codes.upgrade(given.encode()).decode() + "\n" + SAYS)
    yield "upgrade -", tool.run(launched.COMMAND, "upgrade", "--reference", "-", given=b'{"version":2}'), (0, '{"version":2,"order":"kind"}\n' + SAYS)
    yield "upgrade of a refused document", tool.run(launched.COMMAND, "upgrade", "--reference", "-", given=REFUSED[0].encode()), (1, REFUSED[1] + SAYS)
    mistake = tool.within("upgrade", "--reference", launched.MISTAKE, "examples/empty.json")
    yield "upgrade of a refused document and another", mistake, (1, '{"version":2,"order":"kind"}\n' + tool.run("explain", launched.MISTAKE)[1] + SAYS)
    missing = tool.within("upgrade", "--reference", "nowhere.json", "examples/empty.json")
    yield "upgrade of no file", missing, (2, '{"version":2,"order":"kind"}\n' + SAYS + "virraupez upgrade: nowhere.json: No such file or directory\n")
    long = tool.run(launched.COMMAND, "upgrade", "--reference", "-", given=b'{"version":1}'.ljust(2**24 + 1))
    yield "upgrade of much", long[1].splitlines()[-1], "virraupez upgrade: standard input: more than 16777216 bytes; the program reads no longer document"
    for words, part in (((), "required: DOCUMENT"), (("-i", "-"), "- is standard input"), (("-i", "-o", "x", "examples/timer.json"), "nothing for -o")):
        status, told = tool.run(launched.COMMAND, "upgrade", *words)
        yield f"upgrade {words}: {told}", (status, part in told), (2, True)


def of_lost(top):
    """Each field that would go is told with its place, and nothing is written then, in place or elsewhere, but with --drop-unknown."""
    for at, (given, places, should) in enumerate(LOST):
        path = top / f"lost_{at}.json"
        path.write_text(given)
        status, told = upgraded(top, path.name)
        found = [line.split(":", 1)[1] for line in told.split("\n") if " goes: " in line]
        yield f"what would go of {given!r}: {told}", (status, found, should in told), (1, places, False) if places else (0, [], True)
        status, _ = upgraded(top, "-i", path.name)
        yield f"upgrade -i of {given!r}", (status, path.read_text()), (1, given) if places else (0, should)
        path.write_text(given)
        status, told = upgraded(top, "-i", "--drop-unknown", path.name)
        yield f"upgrade -i --drop-unknown of {given!r}: {told}", (status, path.read_text(), told.count(" goes: ")), (0, should, len(places))
    path = top / "schema.json"
    path.write_text('{"version":1,"$schema":null}')
    status, told = upgraded(top, "--compact", path.name)
    yield f"upgrade --compact: {told}", (status, f"{path.name}: goes: $schema, which --compact leaves out\n" in told), (1, True)
    yield "with --drop-unknown", '\n{"order":"kind","version":2}\n' in "\n" + upgraded(top, "--compact", "--drop-unknown", path.name)[1], True
    yield "explain of a schema's name", tool.run("explain", path)[1].count("schema\n"), 0


def of_files(top):
    """With -i a file is replaced if it is accepted, and keeps its mode; a link stays, and so does what needs no change."""
    old, new = '{"version":1,\n "moments":[1,2]}\n', '{"version":2,\n "order":"kind",\n "moments":[1,2]}\n'
    folder = top / "own"
    (folder / "other").mkdir(parents=True)
    plain, wrong, linked, leading, done = (folder / name for name in ("plain.json", "wrong.json", "other/linked.json", "leading.json", "done.json"))
    for path, text, mode in ((plain, old, 0o640), (wrong, REFUSED[0], 0o600), (linked, old, 0o604), (done, new, 0o644)):
        path.write_text(text)
        path.chmod(mode)
    leading.symlink_to("other/linked.json")
    os.mkfifo(folder / "pipe.json")
    state = lambda path: (path.stat().st_ino, path.stat().st_mtime_ns, path.stat().st_mode)
    before = {path: state(path) for path in (wrong, done)}
    status, told = upgraded(top, "-i", "own/plain.json", "own/wrong.json", "own/leading.json", "own/done.json")
    yield "upgrade -i", (status, told), (1, REFUSED[1].replace("-:", "own/wrong.json:") + SAYS)
    yield "what is replaced", [path.read_text() for path in (plain, linked, done, wrong)], [new, new, new, REFUSED[0]]
    yield "the modes", [oct(path.stat().st_mode & 0o777) for path in (plain, linked)], ["0o640", "0o604"]
    yield "a link to a document", os.readlink(leading), "other/linked.json"
    yield "files that stay", {path: state(path) for path in before}, before
    yield "upgrade -i of upgrades", upgraded(top, "-i", "own/plain.json", "own/leading.json"), (0, SAYS)
    yield "upgrade -i --compact", (upgraded(top, "-i", "--compact", "own/plain.json"), plain.read_text()), ((0, SAYS), '{"moments":[1,2],"order":"kind","version":2}\n')
    wrong.write_text(old)
    missing = upgraded(top, "-i", "own/nowhere.json", "own", "own/wrong.json")
    says = "virraupez upgrade: own/nowhere.json: No such file or directory\nvirraupez upgrade: own: Is a directory\n"
    yield "upgrade -i of no file", (missing, wrong.read_text()), ((2, SAYS + says), new)
    with subprocess.Popen(["sh", "-c", "echo '{\"version\":1}' >own/pipe.json"], cwd=top):
        found = upgraded(top, "-i", "own/pipe.json")
    yield "upgrade -i of a pipe", found, (2, SAYS + "virraupez upgrade: own/pipe.json: no plain file, which alone can be replaced\n")
    names = sorted(it.name for it in folder.rglob("*"))
    yield "what is in the folder", names, ["done.json", "leading.json", "linked.json", "other", "pipe.json", "plain.json", "wrong.json"]
    same = upgraded(top, "own/plain.json", "-o", "own/plain.json")
    says = "virraupez upgrade: own/plain.json: this file is read, and would be replaced: give -o another name\n"
    yield "upgrade -o to the document itself", (same, plain.read_text()), ((2, says), '{"moments":[1,2],"order":"kind","version":2}\n')


def upgraded(top, *words):
    return launched.started(top, "upgrade", "--reference", *words)


def of_programs():
    """Programs of the shell in the place of ./exec_upgrade."""
    for script, should in (
        ("exit 70", (2, "virraupez upgrade: the program ended with the status 70: there is no upgrade\n")),
        ("cat >/dev/null; echo refused 10 >&2; exit 1", (1, "examples/timer.json: refused 10\n")),
        ("cat >/dev/null; kill -KILL $$", (2, "virraupez upgrade: the program ended with the status -9: there is no upgrade\n")),
        ('[ $# = 0 ] && cat >/dev/null && printf %s \'{"order":"arrival","version":2}\'', (0, '{"version":2,"order":"arrival"}\n')),
    ):
        with sandbox.of(script, "exec_upgrade") as top:
            name = "examples/timer.json" if should[0] else "examples/empty.json"
            yield f"upgrade by {script!r}", launched.started(top, "upgrade", name), should


def of_machines():
    """On another machine the reader in Python is offered."""
    head = "import platform, sys; sys.path.insert(0, 'tools'); platform.machine = lambda: 'aarch64'"
    code = f"{head}; from virraupez import launcher; sys.exit(launcher.main(['upgrade', 'examples/timer.json']))"
    ran = subprocess.run([sys.executable, "-B", "-c", code], stdout=subprocess.PIPE, stderr=subprocess.STDOUT, cwd=tool.TOP)
    yield f"upgrade on another machine: {ran.stdout}", (ran.returncode, b"--reference upgrades the document" in ran.stdout), (2, True)


def of_program(top):
    """The proved program gives what the reader gives, for documents of all kinds."""
    for document in sorted((tool.TOP / "examples").glob("*.json")):
        name = f"examples/{document.name}"
        for words in ((), ("--compact",)):
            status, text = upgraded(top, *words, name)
            yield f"upgrade {words} {name}", launched.started(top, "upgrade", *words, name), (status, text.replace(SAYS, ""))
    refused = launched.started(top, "upgrade", "-", given=REFUSED[0].encode())
    yield "upgrade of a refused document", refused, (1, REFUSED[1])
    for command, output in walked.commands(documented.Section(documented.TOOLS, "upgrade")):
        ran = subprocess.run(["bash", "-c", command], stdout=subprocess.PIPE, stderr=subprocess.STDOUT, timeout=tool.SECONDS, cwd=top)
        yield f"tools.md: {command}", ran.stdout.decode(), output
