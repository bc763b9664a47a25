"""The transcript of a lawful document, by docs/rules.md and docs/transcript.md alone: an executor of its own, which knows nothing of
the program. cases/ compares it with the program, byte by byte."""
from __future__ import annotations

import collections
import itertools

from . import TYPE_CHECKING
from .grammar import ENTITIES, hyphenated, identifier

if TYPE_CHECKING:
    from typing import Any, Callable, DefaultDict, Deque, Dict, Iterator, List, Optional, Set, Tuple

    from .shapes import Document, Fields, Item, Script

    # What a callback takes, and the goals that a cancel request may move with their states.
    Taken = Tuple[Any, ...]
    Candidates = List[Tuple["Goal", int]]

ACCEPTED, EXECUTING, CANCELING, SUCCEEDED, CANCELED, ABORTED = 1, 2, 3, 4, 5, 6
REJECT, ACCEPT_AND_EXECUTE, ACCEPT_AND_DEFER = 1, 2, 3
GOALS = 1024
# The words of callbacks in the order of their kinds, each with its kind of entity.
KINDS = {
    "timer": "timers",
    "message": "subscriptions",
    "request": "services",
    "reply": "clients",
    "goal": "actions",
    "cancel": "actions",
    "ask": "actions",
    "poll": "actions",
    "response": "action_clients",
    "code": "action_clients",
    "feedback": "action_clients",
    "result": "action_clients",
}


# ---- entities and queues


class Entity:
    """An entity with its queues by the word of their callbacks. A queue has items with the numbers in which they arrived, and the
    first of an item is its `in`."""

    queues: Dict[str, Deque[Tuple[int, Taken]]]
    pending: Set[int]
    goals: Dict[int, Goal]

    def __init__(self, kind: str, fields: Fields, variables: List[int]) -> None:
        self.name, self.fields, self.variables = fields["name"], fields, variables
        self.depth = fields.get("depth", 10)
        self.queues = {word: collections.deque() for word, of in KINDS.items() if of == kind}
        self.next_call: int = fields.get("period", 0)
        self.sent, self.pending, self.goals = 0, set(), {}

    def script(self, name: str) -> Script:
        found: Script = self.fields.get(name, [])
        return found


class Goal:
    """A goal that a server holds, with the number in which it arrived: as it was accepted, or at its last poll that pended."""

    ended: Optional[int]
    noted: List[Optional[Entity]]

    def __init__(self, name: int, value: int, client: Optional[Entity], stamp: int, arrival: int) -> None:
        self.name, self.value, self.client, self.stamp, self.arrival = name, value, client, stamp, arrival
        self.status, self.result, self.ended = ACCEPTED, 0, None
        self.registers, self.place, self.until, self.polled_as_canceling = [0] * 8, 0, 0, False
        self.noted = []

    def is_active(self) -> bool:
        return self.status in (ACCEPTED, EXECUTING, CANCELING)

    def is_selected(self, stamp: int, name: int) -> bool:
        """Whether a cancel request is for the goal, by the request's stamp and identifier, each of which may be 0."""
        before = stamp != 0 and self.stamp <= stamp
        return name == self.name or before or name == stamp == 0

    def is_awake(self, now: int) -> bool:
        unheard = self.status == CANCELING and not self.polled_as_canceling
        return self.status in (EXECUTING, CANCELING) and (self.until <= now or unheard)


class Call:
    """A run of a script: its entity, what it reads, and what it leaves to what closes it."""

    def __init__(self, entity: Entity, given: int, aux: int, now: int, registers: Optional[List[int]] = None, goal: Optional[Goal] = None) -> None:
        self.entity, self.goal, self.registers = entity, goal, registers or [0] * 8
        self.read = {"in": given, "aux": aux, "now": now}
        self.reply = self.decision = 0

    def bank(self, name: str) -> List[int]:
        return self.registers if name[0] == "r" else self.entity.variables

    def value(self, operand: Item) -> int:
        if isinstance(operand, int):
            return operand
        if operand in self.read:
            return self.read[operand]
        return self.bank(operand)[int(operand[1])]


# ---- scripts

STOPS = ("wait", "yield", "succeed", "abort", "canceled")
OPERATIONS: Dict[str, Callable[[int, int], int]] = {
    "add": lambda a, b: a + b,
    "sub": lambda a, b: a - b,
    "mul": lambda a, b: a * b,
    "min": min,
    "max": max,
    "lt": lambda a, b: int(a < b),
    "eq": lambda a, b: int(a == b),
}


def wrapped(number: int) -> int:
    return (number + 2**63) % 2**64 - 2**63


class World:
    lines: List[str]
    entities: Dict[str, List[Entity]]
    named: Dict[str, Entity]
    listeners: Dict[str, List[Entity]]

    def __init__(self, document: Document) -> None:
        self.lines, self.now, self.arrivals = [], 0, 0
        self.is_by_arrival = document["version"] == 2 and document.get("order") == "arrival"
        self.entities = {kind: [] for kind in ENTITIES}
        self.named = {}
        for node in document.get("nodes", []):
            self.declare(node)
        self.listeners = {topic: [] for topic in document.get("topics", [])}
        for subscription in self.entities["subscriptions"]:
            self.listeners[subscription.fields["topic"]].append(subscription)

    def declare(self, node: Fields) -> None:
        variables: DefaultDict[Optional[str], List[int]] = collections.defaultdict(lambda: [0] * 8)
        for kind, entities in self.entities.items():
            for fields in node.get(kind, []):
                entity = Entity(kind, fields, variables[fields.get("group")])
                self.named[entity.name] = entity
                entities.append(entity)

    def tell(self, *words: object) -> None:
        self.lines.append(" ".join(map(str, words)))

    def arrive(self) -> int:
        """The number of what arrives now."""
        self.arrivals += 1
        return self.arrivals

    def push(self, entity: Optional[Entity], word: str, *item: Any) -> None:
        """Pushes an item to an entity; fed requests have no client, and nothing is pushed to none."""
        if entity is None:
            return
        queue = entity.queues[word]
        queue.append((self.arrive(), item))
        if len(queue) > entity.depth:
            _, displaced = queue.popleft()
            self.tell("drop", entity.name, word, displaced[0])

    def run(self, script: Script, call: Call, place: int = 0) -> Tuple[str, int, int]:
        """Runs a script from a place until it ends, or until a goal pends or ends: how it does, and where the next poll goes on."""
        while place < len(script):
            word, *items = script[place]
            place += 1
            if word in STOPS:
                return word, call.value(items[0]) if items else 0, place
            if word == "skip":
                place += items[1] if call.value(items[0]) else 0
            else:
                EFFECTS[word](self, call, *items)
        return "yield", 0, 0

    def assign(self, call: Call, to: str, operation: str, one: Item, other: Item) -> None:
        result = OPERATIONS[operation](call.value(one), call.value(other))
        call.bank(to)[int(to[1])] = wrapped(result)

    def publish(self, call: Call, topic: str, value: Item) -> None:
        self.tell("pub", topic, call.value(value))
        self.spread(topic, call.value(value))

    def spread(self, topic: str, value: int) -> None:
        for subscription in self.listeners[topic]:
            self.push(subscription, "message", value)

    def call_service(self, call: Call, name: str, value: Item) -> None:
        client = self.named[name]
        client.sent += 1
        self.tell("call", name, client.sent, call.value(value))
        client.pending.add(client.sent)
        self.push(self.named[client.fields["service"]], "request", call.value(value), client, client.sent)

    def goal_name(self, client: Entity, number: int) -> int:
        return (self.entities["action_clients"].index(client) + 1) * 2**64 + max(number, 0)

    def send_goal(self, call: Call, name: str, value: Item) -> None:
        client = self.named[name]
        client.sent += 1
        goal = self.goal_name(client, client.sent)
        self.tell("goal", name, hyphenated(goal), call.value(value))
        self.push(self.named[client.fields["action"]], "goal", call.value(value), goal, client)

    def send_cancel(self, call: Call, name: str, form: str, *items: Item) -> None:
        client, values = self.named[name], [call.value(item) for item in items]
        goal = self.goal_name(client, values.pop(0)) if form in ("goal", "goal-before") else 0
        stamp = max(values.pop(0), 0) if form in ("before", "goal-before") else 0
        self.tell("cancel", name, hyphenated(goal), stamp)
        self.push(self.named[client.fields["action"]], "cancel", stamp, goal, client)

    def execute(self, call: Call, name: str) -> None:
        server = self.named[name]
        goal = next((goal for goal in server.goals.values() if goal.status == ACCEPTED), None)
        if goal:
            self.move(server, goal, EXECUTING)

    def log(self, call: Call, value: Item) -> None:
        self.tell("log", call.entity.name, call.value(value))

    def set_reply(self, call: Call, value: Item) -> None:
        call.reply = call.value(value)

    def decide(self, call: Call, value: Item) -> None:
        call.decision = call.value(value)

    def feed_back(self, call: Call, value: Item) -> None:
        goal, given = call.goal, call.value(value)
        assert goal, "feedback is in scripts of goals alone"
        self.tell("feedback", call.entity.name, hyphenated(goal.name), given)
        self.push(goal.client, "feedback", given, goal.name % 2**64, goal.name)

    # ---- a round

    def round(self, number: int, now: int, fed: List[Fields]) -> None:
        self.now = now
        self.tell("round", number, now)
        for server in self.entities["actions"]:
            self.expire(server)
        for entry in fed:
            self.feed(entry)
        for _, word, entity, item in self.snapshot():
            CALLBACKS[word](self, word, entity, *item)

    def expire(self, server: Entity) -> None:
        if "result_timeout" in server.fields:
            over = self.now - server.fields["result_timeout"]
            for goal in [goal for goal in server.goals.values() if goal.ended is not None and goal.ended <= over]:
                del server.goals[goal.name]
                self.tell("expire", server.name, hyphenated(goal.name))

    def feed(self, entry: Fields) -> None:
        if "topic" in entry:
            self.spread(entry["topic"], entry["value"])
        elif "goal" in entry:
            self.push(self.named[entry["action"]], "goal", entry["value"], identifier(entry["goal"]), None)
        else:
            self.push(self.named[entry["action"]], "cancel", entry.get("stamp", 0), identifier(entry["cancel"]), None)

    def snapshot(self) -> List[Tuple[int, str, Entity, Taken]]:
        """The ready list: numbers of arrival, words of callbacks, their entities, and what each takes."""
        ready = [(number, word, entity, item) for word, kind in KINDS.items() for entity in self.entities[kind] for number, item in self.taken(word, entity)]
        # The sort leaves timers, which all have the number 0, in their order.
        return sorted(ready, key=lambda one: one[0]) if self.is_by_arrival else ready

    def taken(self, word: str, entity: Entity) -> List[Tuple[int, Taken]]:
        """What an entity's callbacks of a word take, with the numbers in which it arrived."""
        if word == "timer":
            return [(0, ())] if self.is_called(entity) else []
        if word == "poll":
            return [(goal.arrival, (goal, goal.status == CANCELING)) for goal in entity.goals.values() if goal.is_awake(self.now)]
        if not entity.queues[word]:
            return []
        number, item = entity.queues[word].popleft()
        if word == "reply":
            entity.pending.discard(item[1])
        return [(number, (*item, self.candidates(entity, *item[:2])) if word == "cancel" else item)]

    def is_called(self, timer: Entity) -> bool:
        """Whether a timer is due; then its call is made."""
        if timer.next_call > self.now:
            return False
        period = timer.fields["period"]
        timer.next_call += max(1, -((timer.next_call - self.now) // period)) * period
        return True

    # ---- what closes a callback

    def begin(self, word: str, entity: Entity, given: int, aux: int, *names: int) -> None:
        """The line `run`, with the identifier where there is one."""
        self.tell("run", entity.name, word, given, aux, *map(hyphenated, names))

    def called(self, entity: Entity, script: str, given: int, aux: int) -> Call:
        """The call of a script that runs to its end."""
        call = Call(entity, given, aux, self.now)
        self.run(entity.script(script), call)
        return call

    def timer(self, word: str, timer: Entity) -> None:
        self.message(word, timer, self.now)

    def message(self, word: str, entity: Entity, given: int, aux: int = 0) -> None:
        self.begin(word, entity, given, aux)
        self.called(entity, "script", given, aux)

    def request(self, word: str, service: Entity, given: int, client: Optional[Entity], number: int) -> None:
        self.begin(word, service, given, 0)
        reply = self.called(service, "script", given, 0).reply
        self.tell("reply", service.name, reply)
        self.push(client, "reply", reply, number)

    def goal(self, word: str, server: Entity, given: int, name: int, client: Optional[Entity]) -> None:
        self.begin(word, server, given, 0, name)
        decision = REJECT
        if name not in server.goals and len(server.goals) < GOALS:
            decision = self.called(server, "on_goal", given, 0).decision
        if decision not in (ACCEPT_AND_EXECUTE, ACCEPT_AND_DEFER):
            decision = REJECT
        self.tell("decide", server.name, hyphenated(name), decision)
        if decision != REJECT:
            goal = server.goals[name] = Goal(name, given, client, self.now, self.arrive())
            self.move(server, goal, ACCEPTED)
        if decision == ACCEPT_AND_EXECUTE:
            self.move(server, goal, EXECUTING)
        self.push(client, "response", int(decision != REJECT), name % 2**64, name)

    def ask(self, word: str, server: Entity, given: int, name: int, client: Entity) -> None:
        self.begin(word, server, given, 0, name)
        goal = server.goals.get(name)
        if goal and goal.is_active():
            goal.noted.append(client)
        else:
            self.answer(server, name, client, *((goal.status, goal.result) if goal else (0, 0)))

    def answer(self, server: Entity, name: int, client: Optional[Entity], status: int, result: int) -> None:
        self.tell("result", server.name, hyphenated(name), status, result)
        self.push(client, "result", result, status, name)

    def poll(self, word: str, server: Entity, goal: Goal, canceling: bool) -> None:
        self.begin(word, server, goal.value, int(canceling), goal.name)
        call = Call(server, goal.value, int(canceling), self.now, goal.registers, goal)
        how, value, goal.place = self.run(server.script("script"), call, goal.place)
        goal.polled_as_canceling = canceling
        if how in ("wait", "yield"):
            goal.until = self.now + max(value, 0) if how == "wait" else 0
            goal.arrival = self.arrive()
        else:
            self.end_goal(server, goal, how if canceling or how != "canceled" else "abort", value)

    def response(self, word: str, client: Entity, given: int, number: int, name: int) -> None:
        self.begin(word, client, given, number, name)
        self.called(client, "on_response", given, number)
        if given and "on_result" in client.fields:
            self.tell("ask", client.name, hyphenated(name))
            self.push(self.named[client.fields["action"]], "ask", 0, name, client)

    def code(self, word: str, client: Entity, given: int, moved: int) -> None:
        self.begin(word, client, given, moved)
        self.called(client, "on_code", given, moved)

    def inform(self, word: str, client: Entity, given: int, aux: int, name: int) -> None:
        """Feedback and results."""
        self.begin(word, client, given, aux, name)
        self.called(client, f"on_{word}", given, aux)

    # ---- goals

    def move(self, server: Entity, goal: Goal, status: int) -> None:
        goal.status = status
        self.tell("state", server.name, hyphenated(goal.name), status)

    def end_goal(self, server: Entity, goal: Goal, how: str, value: int) -> None:
        goal.result, goal.ended = value, self.now
        self.move(server, goal, {"succeed": SUCCEEDED, "abort": ABORTED, "canceled": CANCELED}[how])
        for client in goal.noted:
            self.answer(server, goal.name, client, goal.status, value)

    # ---- cancellation

    def candidates(self, server: Entity, stamp: int, name: int) -> Candidates:
        """The goals that a cancel request may move, with the numbers of their states."""
        selected = [goal for goal in server.goals.values() if goal.is_selected(stamp, name)]
        return [(goal, goal.status) for goal in selected if goal.status in (ACCEPTED, EXECUTING)]

    def cancel(self, word: str, server: Entity, stamp: int, name: int, client: Optional[Entity], candidates: Candidates) -> None:
        self.begin(word, server, stamp, len(candidates), name)
        accepted = [goal for goal, status in candidates if self.called(server, "on_cancel", goal.value, status).decision == 2]
        moved = [goal for goal in accepted if goal.status in (ACCEPTED, EXECUTING)]
        for goal in moved:
            self.move(server, goal, CANCELING)
        code = 0 if moved else 1 if candidates and not accepted else self.code_of_none(server, name)
        self.tell("code", server.name, code, len(moved))
        self.push(client, "code", code, len(moved))

    def code_of_none(self, server: Entity, name: int) -> int:
        """The return code of a request that moved no goal, and whose candidates weren't all refused, by the goals as they are."""
        if name and name not in server.goals:
            return 2
        return 3 if name and not server.goals[name].is_active() else 1

    # ---- end

    def end(self, rounds: int) -> None:
        for client in self.entities["clients"]:
            if client.pending:
                self.tell("pending", client.name, len(client.pending))
        self.tell("end", rounds)


EFFECTS: Dict[str, Callable[..., None]] = {
    "set": World.assign,
    "pub": World.publish,
    "call": World.call_service,
    "goal": World.send_goal,
    "cancel": World.send_cancel,
    "execute": World.execute,
    "log": World.log,
    "reply": World.set_reply,
    "decide": World.decide,
    "feedback": World.feed_back,
}
CALLBACKS: Dict[str, Callable[..., None]] = {
    "timer": World.timer,
    "message": World.message,
    "request": World.request,
    "reply": World.message,
    "goal": World.goal,
    "cancel": World.cancel,
    "ask": World.ask,
    "poll": World.poll,
    "response": World.response,
    "code": World.code,
    "feedback": World.inform,
    "result": World.inform,
}


# ---- documents


def rounds_of(document: Document) -> Iterator[List[str]]:
    """The lines of each round of a lawful document, as JSON's reader gives it, and then those of the end."""
    moments, fed = document.get("moments", []), collections.defaultdict(list)
    for entry in document.get("feed", []):
        fed[entry["round"]].append(entry)
    world = World(document)
    for number, now in enumerate(moments, 1):
        world.lines = []
        world.round(number, now, fed[number])
        yield world.lines
    world.lines = []
    world.end(len(moments))
    yield world.lines


def lines_of(document: Document) -> List[str]:
    """All lines of a lawful document."""
    return list(itertools.chain.from_iterable(rounds_of(document)))


