"""Documents that are written by a program: nodes and entities by their names, scripts with labels, moments that nobody counts.

Whatever a program says wrongly is kept until the document is asked for, and then told all at once, at its lines."""
from __future__ import annotations

import sys

from . import TYPE_CHECKING, assembler, grammar, program_faults
from .description import Description
from .document_text import layout
from .origin import Call

if TYPE_CHECKING:
    from _typeshed import SupportsWrite
    from typing import Any, Callable, Dict, Iterable, List, Optional, Sequence, Set, Tuple, Union

    from .shapes import Fields, Path

    # A script with labels, or its instructions.
    Script = Union[str, Sequence[Sequence[Union[str, int]]]]
    InGroup = Union[None, str, "Group"]

# All documents that a program made, for who ran it.
DOCUMENTS: List[Document] = []


class DocumentError(ValueError):
    """A document that the program would refuse, with all that is told of it."""

    def __init__(self, lines: Sequence[str]) -> None:
        super().__init__("\n".join(lines))


class Group:
    def __init__(self, name: str) -> None:
        self.name = name


class Node:
    """A node, to which groups and entities are added. A script is a text, as `assembler` takes it, or a list of instructions."""

    said: Dict[Path, Tuple[Call, Dict[str, assembler.Assembled]]]
    wrong: List[program_faults.Entry]
    fields: Fields

    def __init__(self, name: str, call: Call) -> None:
        self.fields, self.call = {"name": name}, call
        # What said each part of a list: its call, and its scripts by their fields.
        self.said, self.wrong = {}, []

    def exclusive(self, name: str) -> Group:
        """A mutually exclusive callback group."""
        return self.group(name, "exclusive", Call(Node.exclusive))

    def reentrant(self, name: str) -> Group:
        """A reentrant callback group, whose scripts have no group variables."""
        return self.group(name, "reentrant", Call(Node.reentrant))

    def group(self, name: str, kind: str, call: Call) -> Group:
        self.put("groups", {"name": name, "kind": kind}, call, {})
        return Group(name)

    def timer(self, name: str, period: int, script: Script = "", group: InGroup = None) -> None:
        self.add("timers", Call(Node.timer), name, group, period=period, script=script)

    def subscription(self, name: str, topic: str, script: Script = "", depth: Optional[int] = None, group: InGroup = None) -> None:
        self.add("subscriptions", Call(Node.subscription), name, group, topic=topic, depth=depth, script=script)

    def service(self, name: str, script: Script = "", depth: Optional[int] = None, group: InGroup = None) -> None:
        self.add("services", Call(Node.service), name, group, depth=depth, script=script)

    def client(self, name: str, service: str, script: Script = "", depth: Optional[int] = None, group: InGroup = None) -> None:
        self.add("clients", Call(Node.client), name, group, service=service, depth=depth, script=script)

    def action(
        self,
        name: str,
        on_goal: Optional[Script],
        script: Optional[Script],
        on_cancel: Optional[Script] = None,
        result_timeout: Optional[int] = None,
        depth: Optional[int] = None,
        group: InGroup = None,
    ) -> None:
        """An action server. Without on_goal it would reject every goal, so that is asked for."""
        scripts = {"on_goal": on_goal, "on_cancel": on_cancel, "script": script}
        self.add("actions", Call(Node.action), name, group, depth=depth, result_timeout=result_timeout, **scripts)

    def action_client(
        self,
        name: str,
        action: str,
        on_response: Optional[Script] = None,
        on_code: Optional[Script] = None,
        on_feedback: Optional[Script] = None,
        on_result: Optional[Script] = None,
        depth: Optional[int] = None,
        group: InGroup = None,
    ) -> None:
        """An action client, which asks for results where on_result is given, be it empty."""
        scripts = {"on_response": on_response, "on_code": on_code, "on_feedback": on_feedback, "on_result": on_result}
        self.add("action_clients", Call(Node.action_client), name, group, action=action, depth=depth, **scripts)

    def add(self, kind: str, call: Call, name: str, group: InGroup, **fields: Any) -> None:
        entity, scripts = {"name": name}, {}
        if group is not None:
            entity["group"] = group.name if isinstance(group, Group) else group
        for field, value in fields.items():
            if field in grammar.SCRIPTS[kind] and isinstance(value, str):
                made = scripts[field] = assembler.Assembled(value)
                self.wrong += [program_faults.of_script(call, field, name, value, wrong) for wrong in made.faults]
                value = made.instructions if made.instructions or field == "on_result" else None
            if value is not None:
                entity[field] = value
        self.put(kind, entity, call, scripts)

    def put(self, kind: str, entity: Fields, call: Call, scripts: Dict[str, assembler.Assembled]) -> None:
        entities = self.fields.setdefault(kind, [])
        self.said[kind, len(entities)] = call, scripts
        entities.append(entity)


class Document:
    """A document, to which topics, nodes, moments and what is fed are added in any order. It is of version 1, or of version 2 if the
    order of its ready callbacks is given, "kind" or "arrival"."""

    wrong: List[program_faults.Entry]
    warnings: List[str]
    written: List[str]
    nodes: List[Node]
    timed: List[Tuple[Call, Union[Sequence[int], Callable[[], List[range]]]]]
    fed: List[Tuple[Call, Fields, Fields]]

    def __init__(self, topics: Iterable[str] = (), order: Optional[str] = None) -> None:
        self.order = order
        self.call, self.wrong, self.warnings = Call(Document.__init__), [], []
        self.written, self.written_elsewhere = [], False
        self.topics, self.nodes = list(topics), []
        if isinstance(topics, str):
            self.wrong.append(program_faults.of_call(self.call, f"topics is a list of names, as in [{topics!r}]", "topics"))
            self.topics = [topics]
        # Each with its call: topics, moments as numbers or as a function that gives ranges, and what is fed and when.
        self.named, self.timed, self.fed = [self.call for _ in self.topics], [], []
        DOCUMENTS.append(self)

    def topic(self, name: str) -> None:
        self.topics.append(name)
        self.named.append(Call(Document.topic))

    def node(self, name: str) -> Node:
        node = Node(name, Call(Document.node))
        self.nodes.append(node)
        return node

    # ---- moments

    def moments(self, *moments: int) -> None:
        """Rounds at these moments; one that is given twice is two rounds."""
        self.timed.append((Call(Document.moments), moments))

    def every(self, ticks: int, until: int, begin: int = 0) -> None:
        """Rounds every so many ticks, from begin to until."""
        call = Call(Document.every)
        if not grammar.is_count(ticks) or ticks < 1:
            self.wrong.append(program_faults.of_call(call, f"every takes at least 1 tick and not {ticks!r}", "ticks"))
        elif self.are_moments(call, until=until, begin=begin):
            self.timed.append((call, lambda: [range(begin, until + 1, ticks)]))

    def when_due(self, until: int) -> None:
        """Rounds at the moments, up to until, at which a timer is due."""
        call = Call(Document.when_due)
        if self.are_moments(call, until=until):
            self.timed.append((call, lambda: [range(period, until + 1, period) for period in self.periods()]))

    def are_moments(self, call: Call, **given: object) -> bool:
        """Whether arguments are moments; one that isn't is told."""
        wrong = [program_faults.of_call(call, f"{name} is a moment, a whole number from 0 on, and not {it!r}", name) for name, it in given.items() if not grammar.is_count(it)]
        self.wrong += wrong
        return not wrong

    def periods(self) -> Set[int]:
        """The periods of all timers, but for those that no timer may have, whose faults are told."""
        periods = [timer.get("period") for node in self.nodes for timer in node.fields.get("timers", [])]
        return {period for period in periods if grammar.is_count(period) and period >= 1}

    # ---- what comes from outside

    def message(self, topic: str, value: int, **when: int) -> None:
        """Feeds a message, at a round or at a moment (at=), which is the first round at or after it."""
        self.feed(Call(Document.message), when, topic=topic, value=value)

    def goal(self, action: str, goal: Union[str, int], value: int, **when: int) -> None:
        """Feeds a goal request, with an identifier as a text or as a number."""
        self.feed(Call(Document.goal), when, action=action, goal=identifier(goal), value=value)

    def cancel(self, action: str, goal: Union[str, int] = 0, stamp: Optional[int] = None, **when: int) -> None:
        """Feeds a cancel request: for all goals, or for that of an identifier, or for those up to a stamp."""
        self.feed(Call(Document.cancel), when, action=action, cancel=identifier(goal), **({} if stamp is None else {"stamp": stamp}))

    def feed(self, call: Call, when: Fields, **fields: Any) -> None:
        if set(when) in ({"at"}, {"round"}):
            self.fed.append((call, when, fields))
        else:
            self.wrong.append(program_faults.of_call(call, "what is fed needs either its round or its moment, at"))

    # ---- the document

    def value(self) -> Fields:
        """The document as JSON's values."""
        made = Description(self)
        if made.wrong:
            raise DocumentError(program_faults.lines(made.wrong))
        return made.value

    def text(self) -> str:
        """The document's text, which is lawful: what is wrong is raised, and what explain would warn of is kept as warnings."""
        made = Description(self)
        text = layout(made.value) + "\n"
        checked = program_faults.Checked(made, text)
        if made.wrong or checked.faults:
            raise DocumentError(checked.lines())
        self.warnings = checked.lines()
        return text

    def write(self, to: Optional[SupportsWrite[str]] = None) -> None:
        """Writes the document to a stream, which is standard output if none is given, and its warnings to standard error."""
        text = self.text()
        for warning in self.warnings:
            print(warning, file=sys.stderr)
        if to is None:
            self.written.append(text)
        self.written_elsewhere |= to is not None
        (sys.stdout if to is None else to).write(text)


def identifier(goal: Union[str, int]) -> str:
    return goal if isinstance(goal, str) else grammar.hyphenated(goal)


def goal_of(client: int, number: int) -> str:
    """The identifier of a goal: that of a client's number, where the client is the n-th of all action clients, from 0."""
    return grammar.hyphenated((client + 1) * 2**64 + number)


