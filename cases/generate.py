"""Lawful documents by a seed, written from docs/document.md and docs/rules.md: random ones, and ones that are directed at a
rule, each with some chance in it.

drawn(seed) gives the bytes of a random document, and directed(rule, seed) those of one at a rule of RULES, both of version 1.
ordered(given, order) gives those of the same document in version 2, with one of ORDERS. As a program it writes the document of
`generate.py SEED [RULE] [ORDER]`, or the names of the rules and of the orders where it gets no word."""
import json
import random
import sys

LATEST, MOST, LEAST = 2**62, 2**63 - 1, -(2**63)


def plan(nodes, moments, feed=(), topics=()):
    return json.dumps({"version": 1, "topics": list(topics), "nodes": nodes, "moments": moments, "feed": list(feed)}).encode()


# What a document of version 2 says of the order of its ready callbacks: one of the two, or nothing.
ORDERS = {"arrival": {"order": "arrival"}, "kind": {"order": "kind"}, "unsaid": {}}
# Of the documents of version 2 a half are by arrival.
SHARES = ("arrival", "kind", "arrival", "unsaid")


def ordered(given, order):
    """The bytes of a document in version 2, with an order."""
    return json.dumps({**json.loads(given), "version": 2, **ORDERS[order]}).encode()


def made(seed, rule=None, order=None):
    """The document of a seed, which is drawn or directed at a rule, in version 1 or with an order; and the words by which this program
    writes it."""
    given = directed(rule, seed) if rule else drawn(seed)
    words = " ".join(filter(None, ("generate.py", str(seed), rule, order)))
    return words, ordered(given, order) if order else given


def numbered(at):
    """The document of a number, of which one in three is drawn and the others are directed at one rule each, with the words by which this
    program writes it. A half are of version 2, and a half of these in the order of arrival."""
    rules = list(RULES)
    turn, place = divmod(at, len(rules))
    return made(at, rules[place] if at % 3 else None, SHARES[turn // 2 % len(SHARES)] if turn % 2 else None)


def identifier(chance, name):
    """The text of an identifier, in one of its forms."""
    text = f"{name:032x}"
    hyphenated = "-".join((text[:8], text[8:12], text[12:16], text[16:20], text[20:]))
    form = chance.choice(("{}", "{}", "{}", "{{{}}}", "urn:uuid:{}", "")).format(hyphenated) or text
    return form.upper() if chance.random() < 0.2 else form


def goal_name(client, number):
    """The identifier of a client's goal, where the client is the n-th of all action clients, from 0."""
    return (client + 1) * 2**64 + number


# ---- random documents

KINDS = ("timers", "subscriptions", "services", "clients", "actions", "action_clients")
SCRIPTS = {
    "timers": (("script", "callback"),),
    "subscriptions": (("script", "callback"),),
    "services": (("script", "service"),),
    "clients": (("script", "callback"),),
    "actions": (("on_goal", "handler"), ("on_cancel", "handler"), ("script", "goal")),
    "action_clients": tuple((field, "callback") for field in ("on_response", "on_code", "on_feedback", "on_result")),
}
OWN = {
    "callback": (),
    "service": ("reply",) * 3,
    "handler": ("decide",) * 6,
    "goal": ("feedback", "feedback", "wait", "yield", "succeed", "succeed", "abort", "canceled"),
}
SMALL = (0, 1, 1, 2, 2, 3, 5, -1)
READ = ("in", "aux", "now", "r0", "r0", "r1", "r7")
SHARED = ("g0", "g0", "g1", "g7")
OPERATIONS = ("add", "add", "sub", "mul", "min", "max", "lt", "eq")
NAMES = (1, 2, 2**127 + 5, goal_name(0, 1), goal_name(0, 2), goal_name(1, 1))


class Draw:
    """A random document."""

    def __init__(self, seed):
        self.chance = random.Random(seed)
        self.topics = ["x", "g0", "y"][: self.below(3)]
        self.nodes = [{kind: [] for kind in KINDS} for _ in range(1 + self.below(2))]
        for kind, (one, most) in dict(zip(KINDS, ((1, 2), (1, 3), (1, 1), (1, 2), (1, 2), (1, 2)))).items():
            self.name_all(kind, kind[0] if kind != "action_clients" else "k", one + self.below(most))
        self.moments = self.times()
        self.identifiers = [self.one_of(NAMES) for _ in range(2)] + [goal_name(self.below(3), 1 + self.below(2))]

    def below(self, number):
        return int(self.chance.random() * number)

    def one_of(self, choices):
        return choices[int(self.chance.random() * len(choices))]

    def name_all(self, kind, letter, count):
        """Entities of a kind, which has what it refers to somewhere."""
        if kind == "subscriptions" and not self.topics or self.below(6) == 0:
            return
        letter = "v" if kind == "services" else letter
        refers = {"clients": "services", "action_clients": "actions"}.get(kind)
        if refers is None or any(node[refers] for node in self.nodes):
            for number in range(count):
                self.one_of(self.nodes)[kind].append(f"{letter}{number}")

    def times(self):
        now = LATEST - 20 if self.below(30) == 0 else self.below(3)
        moments = []
        for _ in range(4 + self.below(5)):
            moments.append(now)
            now = min(now + self.one_of((0, 1, 1, 1, 2, 3, 10)), LATEST)
        return moments

    # Scripts

    def operand(self, shared):
        kind = self.below(10)
        if kind < 4:
            return self.one_of(SMALL)
        if kind == 4:
            return self.one_of((MOST, LEAST, LATEST, -7))
        return self.one_of(SHARED if shared and kind < 7 else READ)

    def near(self, choices, shared):
        """Mostly one of some choices."""
        return self.operand(shared) if self.below(5) == 0 else self.one_of(choices)

    def words(self, role, node):
        """The words that are lawful in a script of a node, the more often the likelier."""
        words = ["set", "set", "set", "skip", "log", "log", *OWN[role]]
        words += ["pub"] * 2 * bool(self.topics) + ["call"] * 2 * bool(node["clients"])
        words += ["goal", "goal", "goal", "cancel", "cancel"] * bool(node["action_clients"])
        return words + ["execute"] * bool(node["actions"])

    def instruction(self, word, node, shared, behind):
        """An instruction; a skip by what is behind it at most."""
        operand = self.operand(shared)
        if word == "set":
            return [word, self.one_of(SHARED if shared and self.below(2) else READ[3:]), self.one_of(OPERATIONS), operand, self.operand(shared)]
        if word == "skip":
            return [word, operand, 1 + self.below(min(behind, 3))] if behind else ["log", operand]
        if word in ("pub", "call", "goal"):
            return [word, self.one_of({"pub": self.topics, "call": node["clients"], "goal": node["action_clients"]}[word]), operand]
        if word == "cancel":
            return [word, self.one_of(node["action_clients"]), *self.form(shared)]
        if word in ("execute", "yield"):
            return [word, self.one_of(node["actions"])] if word == "execute" else [word]
        likely = {"decide": (2, 2, 2, 3, 3, 1), "wait": (0, 1, 1, 2, 3)}
        return [word, self.near(likely[word], shared) if word in likely else operand]

    def form(self, shared):
        stamp, number = self.near(("now", "now", 1, 2, 3, 0), shared), self.near((1, 1, 1, 2, 2, 3, 0), shared)
        return self.one_of((("all",), ("before", stamp), ("goal", number), ("goal", number), ("goal-before", number, stamp)))

    def script(self, role, node, shared):
        length = self.one_of((0, 1, 1, 2, 2, 3, 4, 6) if role != "goal" else (0, 1, 2, 3, 4, 5, 6, 8))
        choices = self.words(role, node)
        script = [self.instruction(self.one_of(choices), node, shared, length - 1 - place) for place in range(length)]
        if role == "handler" and self.below(4):
            script.append(["decide", self.one_of((2, 2, 2, 3))])
        return script + self.ending(shared) if role == "goal" and self.below(3) else script

    def ending(self, shared):
        """A goal that ends, or one that pends until it is canceled."""
        end = [self.one_of(("succeed", "abort", "canceled", "canceled")), self.operand(shared)]
        return self.one_of(([end], [end], [["yield"], end], [["wait", 2], end], [["skip", "aux", 1], ["yield"], end]))

    # Objects

    def entity(self, kind, name, node, groups):
        fields = {"name": name}
        shared = True
        if self.below(2) and groups:
            group = self.one_of(groups)
            fields["group"], shared = group["name"], group["kind"] == "exclusive"
        if kind == "timers":
            fields["period"] = LATEST if self.below(30) == 0 else self.one_of((1, 1, 1, 2, 3, 10))
        elif self.below(4):
            fields["depth"] = self.one_of((1, 1, 1, 2, 3))
        for field, of in (("topic", "subscriptions"), ("service", "clients"), ("action", "action_clients")):
            if kind == of:
                fields[field] = self.one_of(self.topics if field == "topic" else self.all(field + "s"))
        if kind == "actions" and self.below(3):
            fields["result_timeout"] = self.one_of((0, 0, 1, 2, 5, LATEST))
        fields.update((field, self.script(role, node, shared)) for field, role in SCRIPTS[kind] if self.below(6))
        return fields

    def all(self, kind):
        return [name for node in self.nodes for name in node[kind]]

    def node(self, number, node):
        groups = [{"name": "w", "kind": "reentrant"}, {"name": "e", "kind": "exclusive"}][self.below(3) :]
        entities = {kind: [self.entity(kind, name, node, groups) for name in names] for kind, names in node.items()}
        return {"name": f"n{number}", "groups": groups, **entities}

    def entry(self):
        """A message, a goal request or a cancel request, where there is what it goes to."""
        forms = ["topic"] * len(self.topics) + ["goal", "goal", "goal", "cancel"] * bool(self.all("actions"))
        if not forms:
            return None
        form, fed = self.one_of(forms), {"round": 1 + self.below(len(self.moments))}
        if form == "topic":
            return {**fed, "topic": self.one_of(self.topics), "value": self.one_of((1, 2, 3, -4, MOST, LEAST))}
        fed["action"] = self.one_of(self.all("actions"))
        if form == "goal":
            return {**fed, "goal": identifier(self.chance, self.one_of(self.identifiers)), "value": self.one_of((0, 1, 2, 7, -3))}
        stamp = {"stamp": self.one_of((0, *self.moments[:3], LATEST))} if self.below(2) else {}
        return {**fed, "cancel": identifier(self.chance, self.one_of((0, *self.identifiers))), **stamp}

    def document(self):
        nodes = [self.node(number, node) for number, node in enumerate(self.nodes)]
        feed = [entry for entry in (self.entry() for _ in range(self.below(9))) if entry]
        return plan(nodes, self.moments, feed, self.topics)


def drawn(seed):
    return Draw(seed).document()


# ---- documents at a rule


def moments(chance, count, steps=(1, 1, 2)):
    now, times = chance.choice((0, 1, 5)), []
    for _ in range(count):
        times.append(now)
        now += chance.choice(steps)
    return times


def fed_goal(chance, at, name, value=7):
    return {"round": at, "action": "a", "goal": identifier(chance, name), "value": value}


def fed_cancel(chance, at, name=0, **stamp):
    return {"round": at, "action": "a", "cancel": identifier(chance, name), **stamp}


def server(chance, script, decision=2, canceled=2, **fields):
    """A server `a` that decides alike on every request."""
    group = chance.choice(({}, {"group": "w"}))
    handlers = {"on_goal": [["decide", decision]], "on_cancel": [["log", "aux"], ["decide", canceled]]}
    return {"name": "a", **handlers, "script": script, **group, **fields}


def client(name="k", **fields):
    """An action client of `a` that logs all that it gets."""
    logs = {field: [["log", "in"], ["log", "aux"]] for field in ("on_response", "on_code", "on_feedback", "on_result")}
    return {"name": name, "action": "a", **logs, **fields}


def first(*script, name="t", at=1):
    """A timer whose script runs in its call of that number alone, from 1."""
    count = [["set", "g7", "add", "g7", 1], ["set", "r7", "eq", "g7", at], ["set", "r7", "eq", "r7", 0], ["skip", "r7", len(script)]]
    return {"name": name, "period": 1, "group": name, "script": [*count, *script]}


def node(name="n", **entities):
    """A node with a reentrant group `w`, and an exclusive one for each timer that names its own."""
    timed = [{"name": timer["name"], "kind": "exclusive"} for timer in entities.get("timers", []) if timer.get("group") == timer["name"]]
    return {"name": name, "groups": [{"name": "w", "kind": "reentrant"}, *timed], **entities}


def from_one(times):
    """Moments at which a timer of period 1 is called in every round."""
    return [1 + time for time in times]


def two_results_in_one_round(chance):
    sends = first(["goal", "k", 1], ["goal", "k", 2], ["goal", "k", 3])
    script = [["set", "r0", "sub", 12, "now"], ["wait", "r0"], ["succeed", "in"]]
    clients = [client(depth=chance.choice((1, 2))), client("other")]
    return plan([node(timers=[sends], actions=[server(chance, script)], action_clients=clients)], [1, 2, 3, 4, 5, 12, 13, 14, 15])


def resent_identifiers(chance):
    script = chance.choice(([["succeed", "in"]], [["yield"], ["succeed", "now"]], [["wait", 3], ["abort", 1]]))
    feed = [fed_goal(chance, at, chance.choice((1, 1, 2)), at) for at in range(1, 8) for _ in range(chance.choice((0, 1, 2)))]
    servers = [server(chance, script, result_timeout=chance.choice((0, 1, 2)), depth=chance.choice((1, 2, 10)))]
    return plan([node(actions=servers)], moments(chance, 9), feed)


def canceled_where_it_ends(chance):
    ends = chance.choice((["succeed", 5], ["abort", 5], ["canceled", 5], ["wait", 9]))
    script = [*[["yield"]] * chance.choice((0, 1, 2)), ends, *chance.choice(([], [["canceled", 6]]))]
    feed = [fed_goal(chance, 1, 1), fed_cancel(chance, chance.choice((2, 3, 4)), chance.choice((0, 1)))]
    feed.append(fed_cancel(chance, chance.choice((4, 5)), 1))
    return plan([node(actions=[server(chance, script, canceled=chance.choice((1, 2, 2)))])], moments(chance, 7), feed)


def expired_where_it_is_asked_for(chance):
    again = [fed_goal(chance, chance.choice((3, 4, 5)), goal_name(0, 1), 9)] if chance.random() < 0.7 else []
    servers = [server(chance, chance.choice(([["succeed", 3]], [["yield"], ["succeed", 3]])), result_timeout=chance.choice((0, 0, 1)))]
    return plan([node(timers=[first(["goal", "k", 1])], actions=servers, action_clients=[client()])], from_one(moments(chance, 8)), again)


def fed_before_the_client_sends_it(chance):
    servers = [server(chance, [["feedback", 2], ["wait", 2], ["succeed", 1]], result_timeout=chance.choice((0, 5)))]
    feed = [fed_goal(chance, chance.choice((1, 2, 3)), goal_name(0, 1), 4), fed_goal(chance, 6, goal_name(0, 1), 5)]
    return plan([node(timers=[first(["goal", "k", 1])], actions=servers, action_clients=[client()])], from_one(moments(chance, 9)), feed)


def canceled_where_it_is_accepted(chance):
    at, decision = chance.choice((1, 2)), chance.choice((1, 2, 3))
    feed = [fed_cancel(chance, at, chance.choice((0, 1))), fed_goal(chance, 1, 1)]
    feed.append(fed_cancel(chance, 2, chance.choice((0, 1, 2)), stamp=chance.choice((0, 3))))
    return plan([node(actions=[server(chance, [["skip", "aux", 1], ["yield"], ["canceled", 4]], decision)])], moments(chance, 5), feed)


def cancel_requests_of_every_form(chance):
    numbers, stamps = (LEAST, -1, 0, 1, 2, 3, 9, MOST), (LEAST, -1, 0, 1, 2, 3, 4, 5, MOST)
    form = lambda number, stamp: chance.choice((["all"], ["before", stamp], ["goal", number], ["goal-before", number, stamp]))
    at_once = lambda at: first(["cancel", "k", *form(chance.choice(numbers), chance.choice(stamps))], name=f"t{at}", at=at)
    cancels = [at_once(at) for at in (3, 4, 5, 6, 7)]
    sends = first(["goal", "k", 1], ["goal", "k", 2], ["goal", "o", 3])
    script = [["skip", "aux", chance.choice((1, 2))], ["yield"], ["wait", 2], ["canceled", "in"]]
    servers = [server(chance, script, chance.choice((2, 3)), chance.choice((1, 2, "in")))]
    return plan([node(timers=[sends, *cancels], actions=servers, action_clients=[client(), client("o")])], from_one(moments(chance, 10)))


def codes_of_goals_that_ended(chance):
    feed = [fed_goal(chance, 1, 1), fed_goal(chance, 2, 2)]
    feed += [fed_cancel(chance, at, chance.choice((0, 1, 2, 3)), stamp=chance.choice((0, 0, 1, 9))) for at in (2, 3, 4, 5, 6, 7)]
    ends = chance.choice((["succeed", 1], ["abort", 1], ["canceled", 1]))
    script, timeout = [*[["yield"]] * chance.choice((0, 1, 2)), ends], chance.choice((0, 2, 9))
    servers = [server(chance, script, canceled=chance.choice((1, 2)), result_timeout=timeout)]
    return plan([node(actions=servers)], moments(chance, 8), feed)


def deferred_goals(chance):
    feed = [fed_goal(chance, at, name) for at, name in ((1, 3), (2, 1), (3, 2))]
    feed.append(fed_cancel(chance, chance.choice((3, 4)), chance.choice((0, 1, 3))))
    runs = [first(*[["execute", "a"]] * chance.choice((1, 2, 3)), name=f"t{at}", at=at) for at in (1, 3, 5)]
    defers = {"on_goal": [["decide", 3]]}
    executes = {"on_goal": [["execute", "a"], ["decide", chance.choice((2, 3))]], "on_cancel": [["execute", "a"], ["log", "aux"], ["decide", 2]]}
    script = [["log", "aux"], ["execute", "a"], ["yield"], ["canceled", "in"]]
    servers = [server(chance, script, **chance.choice((executes, defers)))]
    return plan([node(timers=runs, actions=servers)], from_one(moments(chance, 8)), feed)


def polls_of_goals_that_pend(chance):
    pends = (["wait", LEAST], ["wait", 0], ["wait", 2], ["wait", 5], ["wait", MOST], ["yield"])
    script = [["set", "r0", "add", "r0", 1], ["log", "r0"], chance.choice(pends), ["feedback", "aux"], chance.choice(pends)]
    script += chance.choice(([], [["set", "r1", "lt", "r0", 3], ["skip", "r1", 1], ["succeed", "r0"]]))
    feed = [fed_goal(chance, 1, 1), fed_goal(chance, 2, 2), fed_cancel(chance, chance.choice((4, 5)), 1), fed_cancel(chance, 6)]
    return plan([node(actions=[server(chance, script)])], moments(chance, 12, (0, 1, 2, 5)), feed)


def queues_that_overflow(chance):
    times = chance.choice((2, 3, 4))
    sends = [["pub", "x", 1], ["call", "c", 2], ["call", "d", 3], ["goal", "k", 4], ["cancel", "k", "before", "now"]] * times
    lists = {
        "timers": [first(*sends), first(*sends[::-1], name="u", at=3)],
        "subscriptions": [{"name": f"s{depth}", "topic": "x", "depth": depth, "script": [["log", "in"]]} for depth in (1, 2, 3)],
        "services": [{"name": "v", "depth": chance.choice((1, 2)), "script": [["reply", 1], ["reply", "in"]]}],
        "clients": [{"name": name, "service": "v", "depth": 1, "script": [["log", "aux"]]} for name in ("c", "d")],
        "actions": [server(chance, [*[["feedback", 1], ["feedback", 2]] * times, ["succeed", 8]], depth=chance.choice((1, 2)))],
        "action_clients": [client(depth=1)],
    }
    feed = [{"round": at, "topic": "x", "value": at} for at in (1, 1, 2, 2, 2)]
    feed += [fed_goal(chance, 2, 1), fed_goal(chance, 2, 2), fed_cancel(chance, 3, 1)]
    return plan([node(**lists)], from_one(moments(chance, 7)), feed, ["x"])


def calls_without_a_reply(chance):
    alone = chance.random() < 0.5
    calls = first(*[["call", chance.choice("cd"), "now"] for _ in range(4)])
    clients = [{"name": name, "service": "v", "script": [["log", "aux"], ["log", "in"]]} for name in "cd"]
    scripts = ([], [["reply", "in"]], [["call", "c", 5]])
    services = [{"name": "v", "depth": chance.choice((1, 2, 9)), "script": chance.choice(scripts[: 3 if alone else 2])}]
    own, others = ({"services": services}, []) if alone else ({}, [node("o", services=services)])
    return plan([*others, node(timers=[calls], clients=clients, **own)], from_one(moments(chance, chance.choice((1, 2, 3, 4)))))


def several_clients_of_one_server(chance):
    script = [["feedback", "in"], *chance.choice(([], [["yield"]], [["wait", 2]])), ["feedback", "now"], ["succeed", "in"]]
    sends = [first(["goal", name, at], name=f"t{at}", at=chance.choice((1, 2))) for at, name in enumerate("khi", 1)]
    asking = {"on_result": []}
    clients = [client("k"), client("h", **asking), {"name": "i", "action": "a"}]
    chance.shuffle(clients)
    servers = [server(chance, script, chance.choice((1, 2, 3, "in")))]
    own = node(timers=sends, action_clients=clients)
    return plan([own, node("o", actions=servers)] if chance.random() < 0.5 else [node("o", actions=servers), own], from_one(moments(chance, 9)))


def a_server_that_is_full(chance):
    rounds = chance.choice((1026, 1028))
    feed = [fed_goal(chance, at, at) for at in range(1, rounds)] + [fed_goal(chance, rounds, chance.choice((1, 99)))]
    decision, timeout = chance.choice((2, 3)), chance.choice(({}, {"result_timeout": chance.choice((1022, 1024, 1025))}))
    return plan([node(actions=[server(chance, [["succeed", 1]], decision, **timeout)])], list(range(rounds)), feed)


def goals_that_expire_together(chance):
    """Goals of several lengths, many of which expire in one round, before and after others that are kept."""
    count = chance.choice((6, 20, 50))
    feed = [fed_goal(chance, at, at, chance.choice((1, 2, 5, 10**6))) for at in range(1, count)]
    feed += [fed_goal(chance, at, chance.randrange(1, count), chance.choice((1, 10**6))) for at in range(count, count + 4)]
    times = from_one(moments(chance, count))
    times += [times[-1] + later for later in (20, 21, 23, 50, 51)]
    script = [["wait", "in"], chance.choice((["succeed", "in"], ["abort", "now"]))]
    executes = {"name": "u", "period": chance.choice((1, 3)), "script": [["execute", "a"]] * chance.choice((1, 3))}
    servers = [server(chance, script, chance.choice((2, 2, 3)), result_timeout=chance.choice((0, 10, 15, 20)))]
    return plan([node(timers=[executes], actions=servers)], times, feed)


def decisions_and_replies(chance):
    numbers = (LEAST, -1, 0, 1, 2, 2, 2, 3, 3, 4, MOST)
    decides = lambda: [["decide", chance.choice(numbers)] for _ in range(chance.choice((0, 1, 2)))]
    feed = [fed_goal(chance, at, at, at) for at in (1, 2, 3, 4)] + [fed_cancel(chance, at, chance.choice((0, 1, 2))) for at in (3, 4, 5)]
    servers = [server(chance, [["yield"]], on_goal=decides() + chance.choice(([], [], [["decide", "in"]])), on_cancel=decides())]
    services = [{"name": "v", "script": [["reply", chance.choice(numbers)] for _ in range(chance.choice((0, 1, 2)))]}]
    lists = {"services": services, "clients": [{"name": "c", "service": "v", "script": [["log", "in"]]}], "actions": servers}
    return plan([node(timers=[first(["call", "c", 1])], **lists)], from_one(moments(chance, 6)), feed)


def sums_that_wrap(chance):
    numbers = (LEAST, LEAST + 1, -1, 0, 1, 2, 3037000500, 2**32, MOST - 1, MOST)
    operations = ("add", "sub", "mul", "min", "max", "lt", "eq")
    sets = [["set", "r0", operation, chance.choice(numbers), chance.choice(numbers)] for operation in operations]
    script = [item for one in sets for item in (one, ["set", "g0", "add", "g0", "r0"], ["log", "r0"])] + [["log", "g0"]]
    return plan([node(timers=[{"name": "t", "period": 1, "script": script}])], [1, 1, 2, 3])


def timers_and_late_moments(chance):
    periods = (1, 2, 3, 7, 10, LATEST - 1, LATEST)
    timers = [{"name": f"t{at}", "period": chance.choice(periods), "script": [["log", "in"], ["log", "now"]]} for at in range(3)]
    times = moments(chance, 7, (0, 0, 1, 3, 10, 25)) + chance.choice(([], [LATEST - 1, LATEST, LATEST]))
    return plan([node(timers=timers)], times)


def skips(chance):
    length = chance.choice((3, 5, 8))
    skip = lambda at: ["skip", chance.choice((0, 1, -1, "r0", "in", "aux")), chance.randint(1, length - at)]
    script = [chance.choice((["log", at], skip(at))) for at in range(length)] + [["log", "r0"]]
    return plan([node(timers=[{"name": "t", "period": 1, "group": "w", "script": script}])], [0, 1, 2])


def variables_of_groups(chance):
    adds = [["set", "g0", "add", "g0", 1], ["set", "r0", "add", "r0", 1], ["log", "g0"], ["log", "r0"]]
    groups = [{"name": "e", "kind": "exclusive"}, {"name": "f", "kind": "exclusive"}]
    own = lambda: chance.choice(({}, {"group": "e"}, {"group": "f"}))
    of = lambda name: {
        "name": name,
        "groups": groups,
        "timers": [{"name": name + "t", "period": 1, "script": [*adds, ["pub", "x", "g0"]], **own()}],
        "subscriptions": [{"name": name + "s", "topic": "x", "script": adds, **own()}],
    }
    servers = [server(chance, [*adds, ["yield"]], on_goal=[*adds, ["decide", 2]], on_cancel=[*adds, ["decide", 1]], group=chance.choice("ef"))]
    feed = [fed_goal(chance, 1, 1), fed_goal(chance, 2, 2), fed_cancel(chance, 3), fed_cancel(chance, 4)]
    return plan([of("n"), {**of("m"), "actions": servers}], moments(chance, 6), feed, ["x"])


def crowds_that_are_canceled(chance):
    """Servers of several groups, each with 64 goals that are canceled in one round by long handlers: work that is worth threads."""
    groups = [{"name": "e", "kind": "exclusive"}, {"name": "f", "kind": "exclusive"}, {"name": "w", "kind": "reentrant"}]
    step = lambda to: ["set", to, chance.choice(("add", "sub", "mul", "min", "max")), chance.choice(("r0", "r1", "in", "aux", "now")), chance.choice(("r1", "r2", 3, -7))]
    servers, feed = [], []
    for at in range(chance.choice((12, 16))):
        group = chance.choice("efwwww")
        counted = [] if group == "w" else [["set", "g0", "add", "g0", "r0"], ["log", "g0"]]
        handler = [*(step(chance.choice(("r0", "r1", "r2"))) for _ in range(58)), *counted, ["log", "r2"], ["set", "r3", "lt", "r0", 0], ["decide", chance.choice((1, 2, 2, "r3"))]]
        servers.append({"name": f"a{at}", "group": group, "on_goal": [["decide", 2]], "on_cancel": handler, "script": [["skip", "aux", 1], ["wait", 100], ["canceled", at]]})
        feed += [{"round": goal, "action": f"a{at}", "goal": f"{64 * at + goal:032x}", "value": goal} for goal in range(1, 65)]
        feed.append({"round": 66, "action": f"a{at}", "cancel": f"{0:032x}", "stamp": chance.choice((0, 0, 40))})
    feed.sort(key=lambda entry: entry["round"])
    return plan([{"name": "n", "groups": groups, "actions": servers}], list(range(1, 68)), feed)


def cancels_of_goals_that_are_polled(chance):
    """Goals that end or pend in the rounds in which cancel requests for them are taken: before these, if the order is that of arrival."""
    ends = chance.choice((["succeed", 5], ["abort", 5], ["canceled", 5], ["wait", 2], ["wait", 9], ["yield"]))
    sends = chance.choice(([], [["feedback", "aux"]], [["pub", "x", "now"]]))
    script = [*[["yield"]] * chance.choice((0, 1, 2)), *sends, ends, *chance.choice(([], [["canceled", 6]]))]
    names = (0, 0, 1, 2, 3, 9, goal_name(0, 1))
    feed = [fed_goal(chance, at, name, at) for at, name in ((1, 1), (chance.choice((1, 2)), 2), (3, 3))]
    feed += [fed_cancel(chance, chance.choice((2, 3, 4, 5, 6)), chance.choice(names), stamp=chance.choice((0, 0, 1, 4))) for _ in range(chance.choice((2, 4, 6)))]
    chance.shuffle(feed)
    timers = [first(["goal", "k", 4]), first(["cancel", "k", "goal", 1], name="u", at=chance.choice((3, 4, 5)))]
    servers = [server(chance, script, chance.choice((2, 2, 3)), chance.choice((1, 2, 2, "in")), result_timeout=chance.choice((0, 1, 9)))]
    subscriptions = [{"name": "s", "topic": "x", "script": [["execute", "a"]]}]
    return plan([node(timers=timers, subscriptions=subscriptions, actions=servers, action_clients=[client()])], from_one(moments(chance, 9)), feed, ["x"])


def callbacks_that_send_on(chance):
    """Callbacks of all kinds that send to others, and are fed too, so that several kinds are ready in most rounds."""
    sends = [["pub", "x", "now"], ["pub", "y", 1], ["call", "c", 2], ["call", "d", 3], ["goal", "k", 4], ["goal", "i", 5], ["cancel", "k", "all"], ["log", "in"]]
    some = lambda: [chance.choice(sends) for _ in range(chance.choice((0, 1, 1, 2)))]
    name = lambda letter, at: {"name": f"{letter}{at}", "depth": chance.choice((1, 2, 5)), "script": some()}
    works = chance.choice(([["yield"]], [["wait", 1]], [["feedback", 1], ["yield"], *some()], [["yield"], *some(), ["wait", 2]]))
    lists = {
        "timers": [{"name": f"t{at}", "period": chance.choice((1, 2, 3)), "script": some()} for at in range(chance.choice((1, 2)))],
        "subscriptions": [{**name("s", at), "topic": chance.choice("xy")} for at in range(3)],
        "services": [{**name("v", at), "script": [*some(), ["reply", "in"]]} for at in range(2)],
        "clients": [{"name": letter, "service": chance.choice(("v0", "v1")), "script": [["log", "aux"]]} for letter in "cd"],
        "actions": [server(chance, [*works, ["succeed", "in"]], chance.choice((2, 2, 3)), depth=chance.choice((1, 3)))],
        "action_clients": [client(), client("i", on_feedback=some())],
    }
    feed = [{"round": chance.randint(1, 8), "topic": chance.choice("xy"), "value": at} for at in range(6)]
    feed += [fed_goal(chance, chance.randint(1, 8), at, at) for at in (1, 2, 3)] + [fed_cancel(chance, chance.randint(3, 8), chance.choice((0, 1, 2)))]
    chance.shuffle(feed)
    return plan([node(**lists)], moments(chance, 10), feed, ["x", "y"])


RULES = {
    rule.__name__: rule
    for rule in (
        two_results_in_one_round,
        resent_identifiers,
        canceled_where_it_ends,
        expired_where_it_is_asked_for,
        fed_before_the_client_sends_it,
        canceled_where_it_is_accepted,
        cancel_requests_of_every_form,
        codes_of_goals_that_ended,
        deferred_goals,
        polls_of_goals_that_pend,
        queues_that_overflow,
        calls_without_a_reply,
        several_clients_of_one_server,
        a_server_that_is_full,
        goals_that_expire_together,
        decisions_and_replies,
        sums_that_wrap,
        timers_and_late_moments,
        skips,
        variables_of_groups,
        crowds_that_are_canceled,
        cancels_of_goals_that_are_polled,
        callbacks_that_send_on,
    )
}


def directed(rule, seed):
    return RULES[rule](random.Random(seed))


def main():
    seed, *words = sys.argv[1:] or [None]
    if seed is None:
        print("\n".join((*RULES, *ORDERS)))
        return 0
    order = words.pop() if words and words[-1] in ORDERS else None
    _, given = made(int(seed), *words, order=order)
    sys.stdout.buffer.write(given + b"\n")
    return 0


if __name__ == "__main__":
    sys.exit(main())
