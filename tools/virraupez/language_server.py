"""A language server for documents: what explain finds of a document at its places while one writes, and what the schema says of the
field at the pointer. It speaks the Language Server Protocol 3.17 over two streams; its places count UTF-16 units from 0."""
from __future__ import annotations

import json

from . import TYPE_CHECKING, report, schema

if TYPE_CHECKING:
    from typing import Any, BinaryIO, Callable, Dict, Iterator, List, Optional

    from .command import Output
    from .shapes import Fields

ERROR, WARNING = 1, 2
FULL_TEXTS, NO_METHOD, NO_JSON = 1, -32601, -32700


class Server:
    """The server, with the texts of the documents that are open by their names."""

    texts: Dict[str, str]

    def __init__(self, stream: BinaryIO, out: Output) -> None:
        self.stream, self.out, self.texts = stream, out, {}
        self.is_over = False

    def serve(self) -> bool:
        """Answers until it is told to end. Whether it was told before that to shut down, as it should be."""
        while True:
            asked = self.receive()
            if asked is None or asked.get("method") == "exit":
                return self.is_over
            answer = ANSWERS.get(asked.get("method", ""))
            if answer:
                answered = answer(self, asked.get("params") or {})
                if "id" in asked:
                    self.send({"id": asked["id"], "result": answered})
            elif "id" in asked and "method" in asked:
                self.send({"id": asked["id"], "error": {"code": NO_METHOD, "message": f"there is no method {asked['method']}"}})

    # ---- messages

    def receive(self) -> Optional[Fields]:
        """The next message; None at the end of the stream."""
        length = 0
        for line in iter(self.stream.readline, b""):
            name, _, value = line.partition(b":")
            if name.lower() == b"content-length":
                length = int(value)
            elif not line.strip() and length:
                try:
                    message: Fields = json.loads(self.stream.read(length))
                    return message
                except ValueError as wrong:
                    self.send({"id": None, "error": {"code": NO_JSON, "message": str(wrong)}})
                length = 0
        return None

    def send(self, message: Fields) -> None:
        text = json.dumps({"jsonrpc": "2.0", **message})
        self.out.write(f"Content-Length: {len(text)}\r\n\r\n{text}")
        self.out.flush()

    # ---- methods

    def initialize(self, _given: Fields) -> Fields:
        able = {"textDocumentSync": FULL_TEXTS, "hoverProvider": True}
        return {"capabilities": able, "serverInfo": {"name": "virraupez"}}

    def shut_down(self, _given: Fields) -> None:
        self.is_over = True

    def opened(self, given: Fields) -> None:
        self.keep(given["textDocument"]["uri"], given["textDocument"]["text"])

    def changed(self, given: Fields) -> None:
        self.keep(given["textDocument"]["uri"], given["contentChanges"][-1]["text"])

    def closed(self, given: Fields) -> None:
        self.texts.pop(given["textDocument"]["uri"], None)
        self.publish(given["textDocument"]["uri"], [])

    def keep(self, name: str, text: str) -> None:
        self.texts[name] = text
        self.publish(name, list(diagnostics(text)))

    def publish(self, name: str, found: List[Fields]) -> None:
        self.send({"method": "textDocument/publishDiagnostics", "params": {"uri": name, "diagnostics": found}})

    def hover(self, given: Fields) -> Optional[Fields]:
        text, at = self.texts.get(given["textDocument"]["uri"], ""), given["position"]
        says = descriptions(name_at(text, at["line"], at["character"]))
        return {"contents": {"kind": "plaintext", "value": "\n\n".join(says)}} if says else None


ANSWERS: Dict[str, Callable[[Server, Fields], Any]] = {
    "initialize": Server.initialize,
    "shutdown": Server.shut_down,
    "textDocument/didOpen": Server.opened,
    "textDocument/didChange": Server.changed,
    "textDocument/didClose": Server.closed,
    "textDocument/hover": Server.hover,
}


def diagnostics(text: str) -> Iterator[Fields]:
    """What explain finds of a text, at the places of its lines."""
    lines = text.split("\n")
    for it in report.Report(text.encode("utf-8", "surrogatepass")).entries:
        line = lines[it.line - 1]
        begin, end = (units(line[:at]) for at in (it.column - 1, it.column - 1 + it.length))
        says = [it.wanted if not it.code else f"wanted: {it.wanted}"] + [f"hint: {it.hint}"] * bool(it.hint)
        yield {
            "range": {"start": {"line": it.line - 1, "character": begin}, "end": {"line": it.line - 1, "character": end}},
            "severity": ERROR if it.code else WARNING,
            "source": "virraupez",
            "code": f"refused {report.named(it.code)}" if it.code else "warning",
            "message": "\n".join(says),
        }


def units(text: str) -> int:
    """How many UTF-16 units a text has."""
    return len(text.encode("utf-16-le", "surrogatepass")) // 2


def name_at(text: str, line: int, character: int) -> str:
    """The text between quotes at a place; an empty one if there is none."""
    lines = text.split("\n")
    given = lines[line].encode("utf-16-le", "surrogatepass") if line < len(lines) else b""
    before, after = (part.decode("utf-16-le", "replace") for part in (given[: 2 * character], given[2 * character :]))
    return before.rpartition('"')[2] + after.partition('"')[0] if '"' in before and '"' in after else ""


def descriptions(name: str) -> List[str]:
    """What the schema says of fields with a name, wherever there are some."""
    found, left = {}, [schema.schema(False)]
    while left:
        it = left.pop(0)
        if isinstance(it, dict):
            own = it["properties"].get(name) if isinstance(it.get("properties"), dict) else None
            if isinstance(own, dict) and "description" in own:
                found[own["description"]] = True
        left += it.values() if isinstance(it, dict) else it if isinstance(it, list) else ()
    return list(found)
