"""What feed makes of bags in MCAP, which must be what it makes of the same in sqlite3; of actions; and of types in a folder."""
import pathlib
import shutil
import struct
import subprocess
import tempfile
import zlib

from . import bagged, tool
from .bagged import SECOND, cdr

UUIDS = [bytes(range(at, at + 16)) for at in (1, 33)]
TEXTS = ["01020304-0506-0708-090a-0b0c0d0e0f10", "21222324-2526-2728-292a-2b2c2d2e2f30"]
ACTION = "# how far\nfloat64 metres\n---\nint32 code\n---\nfloat64 left\n"
DEFINITION = "std_msgs/Header header\nuint8 level\n" + "=" * 80 + "\nMSG: std_msgs/Header\nbuiltin_interfaces/Time stamp\nstring frame_id\n"


def text(value):
    given = value.encode()
    return struct.pack("<I", len(given)) + given


def record(op, body):
    return struct.pack("<BQ", op, len(body)) + body


def of_channels(topics, definitions):
    """The records of schemas and channels."""
    made = b""
    for number, (name, (of, form)) in enumerate(topics.items(), 1):
        made += record(3, struct.pack("<H", number) + text(of) + text("ros2msg") + text((definitions or {}).get(of, "")))
        made += record(4, struct.pack("<HH", number, number) + text(name) + text(form) + struct.pack("<I", 0))
    return made


def of_message(topics, number, topic, time, data):
    return record(5, struct.pack("<HIQQ", list(topics).index(topic) + 1, number, time, time) + data)


def chunk(body, times, how, sum_of=None, packed=None):
    if packed is None:
        packed = subprocess.run(["zstd", "-cq"], input=body, stdout=subprocess.PIPE, check=True).stdout if how == "zstd" else body
    head = struct.pack("<QQQI", min(times, default=0), max(times, default=0), len(body), zlib.crc32(body) if sum_of is None else sum_of)
    return record(6, head + text(how) + struct.pack("<Q", len(packed)) + packed)


def file_of(parts):
    return b"\x89MCAP0\r\n" + record(1, text("ros2") + text("by hand")) + b"".join(parts) + record(15, struct.pack("<I", 0)) + record(2, struct.pack("<QQI", 0, 0, 0)) + b"\x89MCAP0\r\n"


def write(path, topics, messages, definitions=None, how="", size=7):
    """Writes a file, with a chunk for each few messages; without chunks if there is no way to pack them."""
    parts = [of_channels(topics, definitions)]
    made = [(time, of_message(topics, number, topic, time, data)) for number, (topic, time, data) in enumerate(messages)]
    if how is None:
        parts += [body for _, body in made]
    else:
        groups = [made[at : at + size] for at in range(0, len(made), size)]
        parts = [chunk((parts[0] if not at else b"") + b"".join(body for _, body in group), [time for time, _ in group], how) for at, group in enumerate(groups)]
    path.write_bytes(file_of(parts))


def answers(_program):
    with tempfile.TemporaryDirectory() as folder:
        folder = pathlib.Path(folder)
        yield from of_ways(folder)
        yield from of_wrong(folder)
        yield from of_actions(folder)
        yield from of_types(folder)


def of_ways(folder):
    """Plain or packed, in chunks that overlap or none, a bag is the same as in sqlite3."""
    topics = {"/x": ("std_msgs/msg/Int32", "cdr"), "/l": ("own_msgs/msg/Level", "cdr"), "/y": ("std_msgs/msg/Int64", "cdr")}
    definitions = {"own_msgs/msg/Level": DEFINITION}
    times = [(at * 37 % 50) * SECOND // 100 for at in range(50)]
    messages = [("/x", time, cdr(("int32", at))) for at, time in enumerate(times)]
    messages += [("/l", time + 5, cdr(*bagged.HEADER, ("uint8", at))) for at, time in enumerate(times)]
    bagged.write(folder / "same.db3", topics, messages, definitions)
    words = ("--topic", "/x:x", "--topic", "/l:l", "--field", "level", "--tick", "10ms")
    should = bagged.fed(folder / "same.db3", *words)
    listed = tool.within("feed", folder / "same.db3")
    yield "what sqlite3 has", (should[0], len(should[1])), (0, 100)
    ways = {"plain": "", "no_chunks": None}
    if shutil.which("zstd"):
        ways["zstd"] = "zstd"
    else:
        tool.UNDONE.append("no MCAP was packed by zstd, for want of zstd")
    for name, how in ways.items():
        path = folder / f"{name}.mcap"
        write(path, topics, messages, definitions, how)
        yield f"a bag of {name} MCAP", bagged.fed(path, *words), should
        yield f"the topics of {name} MCAP", tool.within("feed", path), listed
    (folder / "split").mkdir()
    for at in (0, 1):
        write(folder / f"split/it_{at}.mcap", topics, messages[at::2], definitions)
    yield "a bag of two files", bagged.fed(folder / "split", *words), should


def of_wrong(folder):
    """What can't be read is told in a line."""
    topics = {"/x": ("std_msgs/msg/Int32", "cdr")}
    body = of_channels(topics, None) + of_message(topics, 0, "/x", 5, cdr(("int32", 1)))
    whole = file_of([chunk(body, [5], "")])
    for name, given, part in (
        ("nothing", b"", "no file of MCAP storage"),
        ("cut", whole[:-60], "it is cut off: `mcap recover` saves what is whole"),
        ("cut_between", whole[: 8 + len(record(1, text("ros2") + text("by hand")))], "it is cut off"),
        ("lz4", file_of([chunk(body, [5], "lz4")]), "a chunk is compressed by lz4, and zstd is read"),
        ("no_zstd", file_of([chunk(body, [5], "zstd", packed=body)]), "a chunk that is said to be compressed by zstd isn't"),
        ("sum", file_of([chunk(body, [5], "", 7)]), "a chunk hasn't its own sum"),
        ("channel", file_of([of_message(topics, 0, "/x", 5, b"")]), "a message of the channel 1, which there isn't"),
    ):
        path = folder / f"{name}.mcap"
        path.write_bytes(given)
        status, told = tool.within("feed", path, "--topic", "/x:x")
        lacks = name == "no_zstd" and "hasn't the program zstd" in told
        yield f"feed of {name}: {told}", (status, part in told or lacks, told.count("\n"), "Traceback" in told), (2, True, 1, False)
    path = folder / "no_sum.mcap"
    path.write_bytes(file_of([chunk(body, [5], "", 0)]))
    yield "a chunk without a sum", bagged.fed(path, "--topic", "/x:x"), (0, [("x", 1, 0)])


def event(kind, number, *request):
    """An event of a service: what kind it is, its number, and its request if it says one."""
    info = (("uint8", kind), ("int32", 0), ("uint32", 0), *[("uint8", 9)] * 16, ("int64", number))
    return cdr(*info, ("uint32", 1 if request else 0), *request, ("uint32", 0))


GOAL, CANCEL, STATUS = (f"/drive/_action/{it}" for it in ("send_goal/_service_event", "cancel_goal/_service_event", "status"))
TOPICS = {GOAL: ("robot_msgs/action/Drive_SendGoal_Event", "cdr"), CANCEL: ("action_msgs/srv/CancelGoal_Event", "cdr"), STATUS: ("action_msgs/msg/GoalStatusArray", "cdr")}


def recorded():
    """The events of an action's services, and its statuses: of two goals, of which the first is canceled."""
    uuids = [[("uint8", it) for it in uuid] for uuid in UUIDS]
    statuses = [
        (STATUS, 2 * SECOND, cdr(("uint32", 1), *uuids[0], ("int32", 2), ("uint32", 0), ("int8", 2))),
        (STATUS, 5 * SECOND, cdr(("uint32", 2), *uuids[0], ("int32", 2), ("uint32", 0), ("int8", 3), *uuids[1], ("int32", 5), ("uint32", 0), ("int8", 2))),
        (STATUS, 6 * SECOND, cdr(("uint32", 2), *uuids[0], ("int32", 2), ("uint32", 0), ("int8", 5), *uuids[1], ("int32", 5), ("uint32", 0), ("int8", 4))),
    ]
    events = [
        (GOAL, SECOND, event(0, 1, *uuids[0], ("float64", 2.5))),
        (GOAL, SECOND + 9, event(1, 1, *uuids[0], ("float64", 2.5))),
        (GOAL, 4 * SECOND, event(1, 2, *uuids[1], ("float64", -7.0))),
        (GOAL, 4 * SECOND + 1, event(2, 2)),
        (CANCEL, 5 * SECOND, event(1, 1, *uuids[0], ("int32", 0), ("uint32", 0))),
        (CANCEL, 6 * SECOND, event(1, 2, *[("uint8", 0)] * 16, ("int32", 3), ("uint32", 0))),
    ]
    return events, statuses


def of_actions(folder):
    """Goals and cancel requests, by the events of an action's services, or by its statuses."""
    (folder / "types/robot_msgs/action").mkdir(parents=True)
    (folder / "types/robot_msgs/action/Drive.action").write_text(ACTION)
    events, statuses = recorded()
    bagged.write(folder / "events.db3", TOPICS, events + statuses)
    bagged.write(folder / "statuses.db3", TOPICS, statuses)
    bagged.write(folder / "bare.db3", TOPICS, [(GOAL, SECOND, event(1, 1))])
    types = ("--types", folder / "types", "--tick", "1s")
    status, told = tool.within("feed", folder / "events.db3", "--action", "/drive:drive", "--field", "metres", "--scale", "10", *types)
    should = [
        f'{{"action":"drive","goal":"{TEXTS[0]}","value":25,"at":0}}',
        f'{{"action":"drive","goal":"{TEXTS[1]}","value":-70,"at":3}}',
        f'{{"action":"drive","cancel":"{TEXTS[0]}","at":4}}',
        '{"action":"drive","cancel":"00000000-0000-0000-0000-000000000000","stamp":2,"at":5}',
    ]
    yield "the goals of events", (status, told), (0, "[" + ",\n ".join(should) + "]\n")
    status, told = tool.within("feed", folder / "statuses.db3", "--action", "/drive:drive", "--tick", "1s")
    should = [f'{{"action":"drive","goal":"{TEXTS[0]}","value":0,"at":0}}', f'{{"action":"drive","cancel":"{TEXTS[0]}","at":3}}', f'{{"action":"drive","goal":"{TEXTS[1]}","value":0,"at":3}}']
    lines = told.split("\n")
    yield "the goals of statuses", (status, sorted(lines[at].strip(" [],") for at in range(3)), "don't say their values" in lines[3]), (0, sorted(should), True)
    yield from of_documents(folder, types)


def of_documents(folder, types):
    """A document gets the goals and the cancel requests; and what of an action can't be read, or isn't declared, is told."""
    for words, part in (
        ((folder / "bare.db3", "--action", "/drive:drive", *types), "introspection of the service must be set to contents"),
        ((folder / "events.db3", "--action", "/drive:drive"), "the type robot_msgs/Drive_SendGoal_Event isn't known"),
        ((folder / "events.db3", "--action", "/dive:drive"), "no action /dive"),
    ):
        status, told = tool.within("feed", *words)
        yield f"feed {words[2:]}: {told}", (status, part in told), (2, True)
    document = '{"version":1,"nodes":[{"name":"n","actions":[{"name":"drive"}]}],"moments":[0,1,2,3,4,5,6]}'
    with tool.file(document) as name:
        status, told = tool.within("feed", folder / "events.db3", "--action", "/drive:drive", "--document", name, *types)
        yield f"a document with goals: {told}", (status, told.count('"goal":'), told.count('"cancel":')), (0, 2, 2)
        with tool.file(told) as written:
            yield "what explain says of it", tool.within("explain", written)[0], 0
        status, told = tool.within("feed", folder / "events.db3", "--action", "/drive:dive", "--document", name, *types)
        yield f"an action that isn't declared: {told}", (status, "declares no action server dive" in told), (2, True)


def of_types(folder):
    """Types that a bag doesn't define, by files of message definitions."""
    for name, given in (("own_msgs/msg/Level.msg", "Part part\n"), ("own_msgs/msg/Part.msg", "uint8 a\nint16 b\n"), ("own_msgs/srv/Ask.srv", "int8 what\n---\nbool is\n")):
        path = folder / "messages" / name
        path.parent.mkdir(parents=True, exist_ok=True)
        path.write_text(given)
    path = folder / "level.db3"
    bagged.write(path, {"/l": ("own_msgs/msg/Level", "cdr")}, [("/l", 0, cdr(("uint8", 7), ("int16", -3)))])
    yield "a type of a folder", bagged.fed(path, "--topic", "/l:l", "--field", "part.b", "--types", folder / "messages"), (0, [("l", -3, 0)])
    status, told = tool.within("feed", path, "--topic", "/l:l", "--field", "part.b")
    yield f"the type without the folder: {told}", (status, "isn't known" in told), (2, True)
    status, told = tool.within("feed", path, "--topic", "/l:l", "--types", folder / "nowhere")
    yield f"no folder of types: {told}", (status, "no folder of message definitions" in told), (2, True)
