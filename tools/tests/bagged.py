"""What feed reads of bags. They are made here by the published format of rosbag2's sqlite3 storage, and their messages by an encoder of
CDR of its own."""
import json
import math
import pathlib
import re
import sqlite3
import struct
import subprocess
import tempfile

from . import documented, sandbox, searched, tool

SECOND = 1000000000
CODES = {"bool": "?", "byte": "B", "char": "B", "int8": "b", "uint8": "B", "int16": "h", "uint16": "H", "int32": "i", "uint32": "I", "int64": "q", "uint64": "Q", "float32": "f", "float64": "d"}
TABLES = """
create table topics(id integer primary key, name text not null, type text not null, serialization_format text not null, offered_qos_profiles text not null);
create table messages(id integer primary key, topic_id integer not null, timestamp integer not null, data blob not null);
create index timestamp_idx on messages (timestamp asc);
"""
LATER = "create table message_definitions(id integer primary key, topic_type text not null, encoding text not null, encoded_message_definition text not null, type_description_hash text not null);"
# Types of std_msgs with numbers, the words that scale them, and the values that are to be fed.
NUMBERS = (
    ("Bool", "bool", (True, False), (), [1, 0]),
    ("Byte", "byte", (0, 255), (), [0, 255]),
    ("Char", "char", (65,), (), [65]),
    ("Int8", "int8", (-128, 127), (), [-128, 127]),
    ("UInt8", "uint8", (255,), ("--scale", "-2"), [-510]),
    ("Int16", "int16", (-32768,), (), [-32768]),
    ("UInt16", "uint16", (65535,), (), [65535]),
    ("Int32", "int32", (-(2**31),), (), [-(2**31)]),
    ("UInt32", "uint32", (2**32 - 1,), (), [2**32 - 1]),
    ("Int64", "int64", (-(2**63), 2**63 - 1), (), [-(2**63), 2**63 - 1]),
    ("UInt64", "uint64", (2**63 - 1,), (), [2**63 - 1]),
    ("Float32", "float32", (0.5, -1.25), ("--scale", "1000"), [500, -1250]),
    ("Float64", "float64", (0.1, 1.5, 2.5, -0.4), (), [0, 2, 2, 0]),
    ("Float64", "float64", (0.123456789, 9e15), ("--scale", "1000"), [123, 9 * 10**18]),
)


def cdr(*fields, order="<"):
    """A message by its fields: types with their values. A list has its length before it if its type says so."""
    made = b""
    for of, value in fields:
        if of == "string":
            made += b"\0" * (-len(made) % 4) + struct.pack(order + "I", len(value) + 1) + value.encode() + b"\0"
        elif of.endswith("[]"):
            made += b"\0" * (-len(made) % 4) + struct.pack(order + "I", len(value))
            for it in value:
                made += b"\0" * (-len(made) % struct.calcsize(CODES[of[:-2]])) + struct.pack(order + CODES[of[:-2]], it)
        else:
            made += b"\0" * (-len(made) % struct.calcsize(CODES[of])) + struct.pack(order + CODES[of], value)
    return (b"\0\1" if order == "<" else b"\0\0") + b"\0\0" + made


def write(path, topics, messages, definitions=None):
    """Writes a database: topics are a type and a format by their names, and messages a topic, a time and bytes."""
    held = sqlite3.connect(path)
    held.executescript(TABLES + (LATER if definitions else ""))
    for number, (name, (of, form)) in enumerate(topics.items(), 1):
        held.execute("insert into topics values (?, ?, ?, ?, '')", (number, name, of, form))
    numbers = {name: number for number, name in enumerate(topics, 1)}
    held.executemany("insert into messages(topic_id, timestamp, data) values (?, ?, ?)", [(numbers[name], time, data) for name, time, data in messages])
    for of, text in (definitions or {}).items():
        held.execute("insert into message_definitions(topic_type, encoding, encoded_message_definition, type_description_hash) values (?, 'ros2msg', ?, '')", (of, text))
    held.commit()
    held.close()


HEADER = (("int32", 12), ("uint32", 5), ("string", "base"))


def drive(folder):
    """The bag of "feed" in docs/tools.md: what the navigation of the modelling page is fed, as a robot would record it."""
    folder.mkdir()
    begun, messages = 1700000000 * SECOND, []
    for at in range(0, 250, 10):
        ranges = [math.inf, (300 - at) / 100, math.nan, 4.0]
        messages.append(("/scan", begun + at * SECOND // 50, cdr(*HEADER, *[("float32", 0.5)] * 7, ("float32[]", ranges), ("float32[]", []))))
    for at, share in ((3, 0.8), (53, 0.8), (103, 0.8), (153, 0.15), (203, 0.15)):
        # A little before the tick, so that it is heard at the tick.
        messages.append(("/battery", begun + at * SECOND // 50 - 7000000, cdr(*HEADER, *[("float32", 24.0)] * 6, ("float32", share))))
    messages.append(("/estop", begun + 5 * SECOND, cdr(("bool", True))))
    types = {"/scan": "sensor_msgs/msg/LaserScan", "/battery": "sensor_msgs/msg/BatteryState", "/estop": "std_msgs/msg/Bool", "/shape": "shape_msgs/msg/Mesh"}
    topics = {name: (of, "cdr") for name, of in types.items()}
    middle = begun + 2 * SECOND
    write(folder / "drive_0.db3", topics, [it for it in messages if it[1] < middle])
    write(folder / "drive_1.db3", topics, [it for it in messages if it[1] >= middle])
    (folder / "metadata.yaml").write_text("rosbag2_bagfile_information:\n  storage_identifier: sqlite3\n  compression_mode: \"\"\n")


def answers(program):
    with tempfile.TemporaryDirectory() as folder:
        folder = pathlib.Path(folder)
        yield from of_numbers(folder)
        yield from of_zeros(folder)
        yield from of_times(folder)
        yield from of_types(folder)
        yield from of_wrong(folder)
        yield from of_storages(folder)
        yield from of_documents(folder)
    yield from of_page(program)


def fed(path, *words):
    status, told = tool.within("feed", path, *words)
    entries = [(it["topic"], it["value"], it["at"]) for it in json.loads(told[: told.rindex("]") + 1])] if "]" in told and told[0] == "[" else told
    return status, entries


def of_numbers(folder):
    for number, (name, of, values, words, should) in enumerate(NUMBERS):
        for order in "<>":
            path = folder / f"numbers{number}{'lb'[order == '>']}.db3"
            write(path, {"/x": (f"std_msgs/msg/{name}", "cdr")}, [("/x", at, cdr((of, value), order=order)) for at, value in enumerate(values)])
            status, entries = fed(path, "--topic", "/x:x", *words)
            yield f"what is fed of {name} {values} {order}", (status, [it[1] for it in entries]), (0, should)


# Numbers that are fed, the words that scale them, and what is said of those that became 0.
ZEROS = (
    ((0.3, -0.05, 0.0, 7.0), (), "/x: data: 2 values became 0, the least of which is 0.05; --scale 100 keeps a digit of each\n"),
    ((0.3,), (), "/x: data: 1 value became 0, the least of which is 0.3; --scale 10 keeps a digit of each\n"),
    ((0.0004,), ("--scale", "1000"), "/x: data: 1 value became 0, the least of which is 0.0004; --scale 10000 keeps a digit of each\n"),
    ((0.3, -0.05, 0.0), ("--scale", "100"), None),
    ((0.6, 0.0, -1.0), (), None),
)


def of_zeros(folder):
    """Values that lose all their digits are told, with a scale by which none does; and a name that isn't in the bag."""
    for number, (values, words, says) in enumerate(ZEROS):
        path = folder / f"zeros{number}.db3"
        write(path, {"/x": ("std_msgs/msg/Float64", "cdr")}, [("/x", at, cdr(("float64", value))) for at, value in enumerate(values)])
        status, told = tool.within("feed", path, "--topic", "/x:x", *words)
        yield f"what is said of {values} {words}: {told}", (status, told.endswith(f"feed: {says}") if says else "became" in told), (0, bool(says))
        if says:
            scale = says.split("--scale ")[1].split(" ")[0]
            found = [it[1] for it in fed(path, "--topic", "/x:x", "--scale", scale)[1]]
            yield f"with the scale {scale}", [bool(it) for it in found], [bool(it) for it in values]
    status, told = tool.within("feed", path, "--topic", "/xx:x")
    yield f"a name that isn't in the bag: {told}", (status, "no topic /xx: did you mean /x?" in told), (2, True)


def of_times(folder):
    """A message comes at the first tick at or after its time, counted from the first message of the bag."""
    path = folder / "times.db3"
    times = [SECOND, SECOND + 1, SECOND + 10000000, SECOND + 10000001, 2 * SECOND]
    topics = {"/x": ("std_msgs/msg/Int32", "cdr"), "/y": ("std_msgs/msg/Int32", "cdr"), "/none": ("std_msgs/msg/Int32", "cdr")}
    messages = [("/x", time, cdr(("int32", at))) for at, time in enumerate(times)]
    write(path, topics, [*reversed(messages), ("/y", SECOND - 20000000, cdr(("int32", 7)))])
    yield "the moments of messages", fed(path, "--topic", "/x", "--tick", "10ms"), (0, [("/x", 0, 2), ("/x", 1, 3), ("/x", 2, 3), ("/x", 3, 4), ("/x", 4, 102)])
    yield "the moments after another begin", fed(path, "--topic", "/x:x", "--tick", "1s", "--begin", "5"), (0, [("x", 0, 6), ("x", 1, 6), ("x", 2, 6), ("x", 3, 6), ("x", 4, 7)])
    both = fed(path, "--topic", "/x:a", "--topic", "/y:b", "--scale", "3", "--tick", "1s")
    yield "two topics", both, (0, [("b", 21, 0), ("a", 0, 1), ("a", 1, 1), ("a", 2, 1), ("a", 3, 1), ("a", 4, 2)])
    yield "one topic twice", fed(path, "--topic", "/y:a", "--topic", "/y:b", "--scale", "2")[1], [("a", 7, 0), ("b", 14, 0)]
    empty = tool.within("feed", path, "--topic", "/none:x")
    yield "a topic without a message", empty, (0, "[]\nfeed: /none has no message\n")


def of_types(folder):
    """Types by the definitions that a bag has: fields of fields, lists, texts, constants and remarks."""
    text = """# a remark
uint8 FIRST=1   # a constant
std_msgs/Header header
string<=20 name
Part[] parts
float64[2] pair
int16[<=4] few
uint8 last 7
================================================================================
MSG: robot_msgs/Part
bool is_on
float64 weight
================================================================================
MSG: std_msgs/Header
builtin_interfaces/Time stamp
string frame_id
"""
    body = [*HEADER, ("string", "arm"), ("uint32", 2), ("bool", True), ("float64", 1.5), ("bool", False), ("float64", 2.5), ("float64", 4.0), ("float64", 5.0), ("int16[]", [3, -9, 8]), ("uint8", 200)]
    path = folder / "types.db3"
    write(path, {"/r": ("robot_msgs/msg/Robot", "cdr")}, [("/r", 0, cdr(*body))], {"robot_msgs/msg/Robot": text})
    for field, should in (("last", 200), ("few.min", -9), ("few.max", 8), ("few[2]", 8), ("pair[1]", 5), ("parts[1].weight", 2), ("parts[0].is_on", 1), ("header.stamp.sec", 12), ("header.stamp.nanosec", 5)):
        yield f"the field {field}", fed(path, "--topic", "/r:r", "--field", field), (0, [("r", should, 0)])
    for field, part in (
        ("data", "can't be read: data of data isn't there: there is header, name, parts, pair, few, last"),
        ("header", "header is no number: there is stamp, frame_id"),
        ("few", "few is no number: [N], .min or .max takes one"),
        ("name", "name is no number"),
        ("last.x", "what is before x has no parts"),
        ("parts.min.x", ""),
    ):
        status, told = tool.within("feed", path, "--topic", "/r:r", "--field", field)
        yield f"the field {field}: {told}", (status, "message 1 of /r, of the type robot_msgs/msg/Robot, can't be read" in told, part in told), (2, True, True)
    gone = tool.within("feed", path, "--topic", "/r:r", "--field", "few[7]")
    yield "a place beyond the end of a list", gone, (0, "[]\nfeed: /r: 1 value left out: no finite number\n")


def of_wrong(folder):
    """What can't be read is told by its type, its message or its storage."""
    short = cdr(("float64", 1.0))[:-1]
    topics = {"/x": ("std_msgs/msg/Float64", "cdr"), "/s": ("std_msgs/msg/String", "cdr"), "/j": ("std_msgs/msg/Float64", "json")}
    for name, messages, words, part in (
        ("short", [("/x", 0, cdr(("float64", 2.0))), ("/x", 1, short)], ("--topic", "/x:x"), "message 2 of /x, of the type std_msgs/msg/Float64, can't be read: it is cut off: 7 bytes, and more are wanted\n"),
        ("nothing", [("/x", 0, b"")], ("--topic", "/x:x"), "it begins with nothing, which is no plain CDR\n"),
        ("other", [("/x", 0, b"\0\3\0\0" + b"\0" * 8)], ("--topic", "/x:x"), "it begins with 0003, which is no plain CDR\n"),
        ("much", [("/x", 0, cdr(("float64", -1e300)))], ("--topic", "/x:x"), "can't be read: -1.000e+300 has more than 64 bits\n"),
        ("no_bytes", [("/x", 0, "text")], ("--topic", "/x:x"), "message 1 of /x, of the type std_msgs/msg/Float64, can't be read: the bag has no bytes there\n"),
        ("string", [("/s", 0, cdr(("string", "a")))], ("--topic", "/s:x"), "of the type std_msgs/msg/String, can't be read: the type std_msgs/String isn't known, and the bag has no definition of it\n"),
        ("json", [("/j", 0, b"1")], ("--topic", "/j:x"), "/j is in json, and cdr is read\n"),
        ("named", [], ("--topic", "/xx:x"), "no topic /xx: did you mean /x?\n"),
        ("a_name", [], ("--topic", "/x:a b"), "'a b' can't be the name of a topic"),
        ("before", [], ("--field", "data"), "it is of the topic before it, and there is none"),
        ("no_scale", [], ("--topic", "/x:x", "--scale", "0"), "a number as 1000 or 0.5, and not '0'"),
        ("no_tick", [], ("--topic", "/x:x", "--tick", "fast"), "a time as 10ms"),
    ):
        path = folder / f"{name}.db3"
        write(path, topics, messages)
        status, told = tool.within("feed", path, *words)
        yield f"feed of {name}: {told}", (status, part in told, "Traceback" in told), (2, True, False)


def of_storages(folder):
    """What isn't a bag of sqlite3 storage is told, and which storage it has."""
    (folder / "text.db3").write_text("no database at all, but a text that is long enough to be one")
    sqlite3.connect(folder / "tables.db3").executescript("create table topics(id);")
    for name in ("mcap", "packed", "zipped", "empty"):
        (folder / name).mkdir()
    (folder / "mcap/a.mcap").write_text("")
    (folder / "packed/metadata.yaml").write_text("  compression_format: zstd\n  compression_mode: FILE\n")
    (folder / "zipped/a.db3.zstd").write_text("")
    for name, part in (
        ("text.db3", "no bag of sqlite3 storage: file is not a database"),
        ("tables.db3", "the tables topics and messages are missing"),
        ("mcap", "no file of MCAP storage"),
        ("mcap/a.mcap", "no file of MCAP storage"),
        ("packed", "the bag is compressed"),
        ("zipped", "the bag is compressed"),
        ("empty", "it has no file NAME.db3 and no NAME.mcap"),
        ("nowhere", "No such file or directory"),
    ):
        status, told = tool.within("feed", folder / name, "--topic", "/x")
        yield f"feed of {name}: {told}", (status, part in told, told.count("\n")), (2, True, 1)


def of_documents(folder):
    """A document gets the entries behind its own, in the rounds at their moments or after them."""
    path = folder / "documents.db3"
    write(path, {"/x": ("std_msgs/msg/Int32", "cdr")}, [("/x", at * 1000000, cdr(("int32", at))) for at in (0, 3, 5, 6, 40)])
    document = '{"version":1,"topics":["x","y"],"nodes":[{"name":"n","subscriptions":[{"name":"s","topic":"x"}]}],"moments":[0,5,5,9],"feed":[{"round":2,"topic":"y","value":1}]}'
    with tool.file(document) as name:
        status, told = tool.within("feed", path, "--topic", "/x:x", "--document", name)
        text, _, says = told.rpartition("}\n")
        feed = [(it["round"], it["topic"], it["value"]) for it in json.loads(text + "}")["feed"]]
        yield f"a document with entries: {told}", (status, feed, says), (0, [(1, "x", 0), (2, "y", 1), (2, "x", 3), (2, "x", 5), (4, "x", 6)], "feed: 1 message left out: after the last moment\n")
        status, told = tool.within("feed", path, "--topic", "/x:z", "--document", name)
        yield f"a topic that isn't declared: {told}", (status, "declares no topic z" in told), (2, True)
        status, told = tool.within("feed", path, "--topic", "/x:s", "--document", name)
        yield f"a name that is no topic: {told}", (status, "declares no topic s" in told), (2, True)
    many = folder / "many.db3"
    write(many, {"/x": ("std_msgs/msg/Int32", "cdr")}, [("/x", at, cdr(("int32", at))) for at in range(65537)])
    with tool.file(document) as name:
        status, told = tool.within("feed", many, "--topic", "/x:x", "--document", name)
        yield f"too many entries: {told[:200]}", (status, "these are 65538 entries: a document has at most 65536" in told), (2, True)


def of_page(program):
    """The commands of "feed" in docs/tools.md, with a bag as the page has it."""
    with sandbox.with_program(program) as top:
        drive(top / "drive")
        for block in documented.blocks(documented.Section(documented.TOOLS, "feed"), "text"):
            for part in re.split(r"^\$ ", block, flags=re.M)[1:]:
                command, _, output = part.partition("\n")
                ran = subprocess.run(["bash", "-c", command], stdout=subprocess.PIPE, stderr=subprocess.STDOUT, cwd=top, timeout=tool.SECONDS)
                yield f"tools.md: {command}", ran.stdout.decode(), output
        told = searched.started(top, "feed", "drive/drive_1.db3", "--topic", "/estop:stop", "--tick", "1s")
        yield "a file of a bag", told, (0, '[{"topic":"stop","value":1,"at":3}]\n')
