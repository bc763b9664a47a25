"""Messages in CDR as Fast CDR writes them, which ROS 2 uses, beside what the tools read of them. What it wrote of types with all forms of
fields is kept in recorded/fast_cdr.json. If Fast CDR is installed it writes that again, and messages of ROS 2's own test types.

As a program it writes recorded/fast_cdr.json anew."""
import json
import pathlib
import random
import shutil
import subprocess
import sys
import tempfile

from virraupez import cdr

from . import tool

KEPT = tool.TESTS / "recorded/fast_cdr.json"
INSTALLED = pathlib.Path("/usr/share/test_interface_files/msg")
# Types that have each form of a field, and places at which an empty type moves what comes after it.
TYPES = {
    "own/Empty": "# nothing at all",
    "own/Constants": "uint8 FIRST=1\nstring NAME='a'",
    "own/Numbers": "\n".join(f"{of} a_{of}" for of in cdr.NUMBERS),
    "own/Texts": "string one\nint64 between\nstring<=20 other\nuint8 last",
    "own/Fixed": "bool[3] flags\nfloat64[2] pair\nint16[5] few\nstring[2] texts\nEmpty[2] nothing\nuint32 last",
    "own/Lists": "uint8[] bytes\nfloat64[] many\nint32[<=4] few\nNumbers[<=2] numbers\nEmpty[] nothing\nstring[] texts\nint64 last",
    "own/Nested": "Empty first\nNumbers numbers\nConstants constants\nLists lists\nEmpty nothing\nuint16 last",
    "own/Behind": "uint8 one\nEmpty nothing\nuint8 other\nfloat64 last",
}
C = {"bool": "bool", "byte": "uint8_t", "char": "uint8_t", "float32": "float", "float64": "double", **{f"{sign}int{size}": f"{sign}int{size}_t" for sign in ("", "u") for size in (8, 16, 32, 64)}}
ORDERS = ("little", "big")
BEGIN = """#include <fastcdr/Cdr.h>
#include <fastcdr/FastBuffer.h>
#include <cstdio>
#include <string>
using namespace eprosima::fastcdr;
static char room[1 << 20];
template <class F> void message(bool little, F write) {
  FastBuffer buffer(room, sizeof room);
  Cdr c(buffer, little ? Cdr::LITTLE_ENDIANNESS : Cdr::BIG_ENDIANNESS, Cdr::DDS_CDR);
  c.serialize_encapsulation();
  write(c);
  for (size_t at = 0; at < c.getSerializedDataLength(); at++) printf("%02x", (unsigned char)room[at]);
  puts("");
}
int main() {
  for (int little = 1; little >= 0; little--) {
"""


def answers(_program):
    kept = json.loads(KEPT.read_text())
    yield from read("kept", TYPES, kept)
    if not shutil.which("g++") or not pathlib.Path("/usr/include/fastcdr/Cdr.h").is_file():
        tool.UNDONE.append("no message was written by Fast CDR, for want of g++ or libfastcdr-dev")
        return
    yield "what Fast CDR writes", written(TYPES), kept
    if not INSTALLED.is_dir():
        tool.UNDONE.append("no message of ROS 2's test types was written, for want of ros2-test-interface-files")
        return
    types = {f"test_msgs/{path.stem}": path.read_text() for path in sorted(INSTALLED.glob("*.msg")) if "wstring" not in path.read_text()}
    yield "ROS 2's test types", len(types), 11
    yield from read("installed", types, written(types))


def read(what, texts, messages):
    """What the tools read of messages, to their last byte."""
    types = known(texts)
    for name, value, *bytes_of in messages:
        for order, given in zip(ORDERS, bytes_of):
            try:
                message = cdr.Message(types, bytes.fromhex(given))
                found = message.value(name), len(message.given) - message.at
            except cdr.Unreadable as wrong:
                found = str(wrong)
            yield f"a {what} message of {name}, {order} end first", found, (value, 0)


def known(texts):
    types = cdr.Types()
    for name, text in texts.items():
        types.add(name, text)
    return types


def written(texts):
    """A message of each type: its name, its value, and its bytes in both orders, as Fast CDR writes them."""
    types, chance, values, body = known(texts), random.Random(7), [], []
    for name in texts:
        lines = []
        values.append([name, drawn(types, chance, name, lines)])
        body.append(f"    message(little, [](Cdr &c) {{ {' '.join(lines)} }});")
    with tempfile.TemporaryDirectory() as folder:
        program = pathlib.Path(folder) / "write"
        text = BEGIN + "\n".join(body) + "\n  }\n}\n"
        subprocess.run(["g++", "-O0", "-w", "-x", "c++", "-", "-o", program, "-lfastcdr"], input=text.encode(), check=True)
        lines = subprocess.run([program], stdout=subprocess.PIPE, check=True).stdout.decode().split()
    return [[*value, *lines[at :: len(values)]] for at, value in enumerate(values)]


def drawn(types, chance, of, lines):
    """A value of a type by chance, as the tools read it, with the lines that write it. A text is read as nothing."""
    if of in cdr.NUMBERS:
        value, text = number(chance, of)
        lines.append(f"c << ({C[of]})({text});")
        return value
    if of == "string":
        text = "".join(chance.choice("abc xyz") for _ in range(chance.randrange(9)))
        lines.append(f"c << std::string({json.dumps(text)});")
        return None
    value = {}
    for it, length, field in types.fields(of):
        if field == cdr.EMPTY:
            lines.append("c << (uint8_t)0;")
            value[field] = 0
        elif not length:
            value[field] = drawn(types, chance, it, lines)
        else:
            digits = length.strip("[]")
            count = int(digits) if digits.isdigit() else chance.randrange(4)
            if not digits.isdigit():
                lines.append(f"c << (uint32_t){count};")
            value[field] = [drawn(types, chance, it, lines) for _ in range(count)]
    return value


def number(chance, of):
    """A number of a type, and its text in C++."""
    if of.startswith("float"):
        value = chance.randrange(-(2**20), 2**20) / 1024
        return value, repr(value)
    if of == "bool":
        value = chance.randrange(2)
        return value, str(value)
    size = 8 if of in ("byte", "char") else int(of.strip("uint"))
    value = chance.randrange(2**size)
    text = f"{value}ULL"
    return value - 2**size * (of.startswith("int") and value >= 2 ** (size - 1)), text


if __name__ == "__main__":
    KEPT.write_text("[" + ",\n ".join(map(json.dumps, written(TYPES))) + "]\n")
    sys.exit(0)
