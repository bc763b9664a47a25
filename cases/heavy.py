"""Documents with much work, of which the program shares rounds among threads: some of one form, and others by a seed, with some
chance in them.

made(seed) gives the document of a seed, and documents() gives those of the first seeds. As a program it writes the document of
`heavy.py SEED`."""
import json
import random
import sys

sys.dont_write_bytecode = True
import generate
from generate import fed_cancel, fed_goal

# ---- documents of one form


def many_candidates(servers=64, goals=40, instructions=64):
    """A document of servers of one reentrant group, all of whose goals are canceled in the last round by long handlers."""
    handler = [["set", "r0", "add", "r0", "in"]] * (instructions - 1) + [["decide", 2]]
    group = {"name": "w", "kind": "reentrant"}
    actions = [{"name": f"a{at}", "group": "w", "on_goal": [["decide", 3]], "on_cancel": handler} for at in range(servers)]
    names = [(goal, f"a{at}", f"{goals * at + goal:032x}") for goal in range(1, goals + 1) for at in range(servers)]
    feed = [{"round": goal, "action": server, "goal": name, "value": goal} for goal, server, name in names]
    feed += [{"round": goals + 1, "action": f"a{at}", "cancel": f"{0:032x}"} for at in range(servers)]
    node = {"name": "n", "groups": [group], "actions": actions}
    return json.dumps({"version": 1, "nodes": [node], "moments": list(range(1, goals + 2)), "feed": feed}).encode()


def long_scripts(timers=512, instructions=256, rounds=1):
    """A document of timers of one reentrant group, all of which are called in each round, with scripts as long as they may be."""
    script = [["set", "r0", "add", "r0", "now"]] * instructions
    group = {"name": "w", "kind": "reentrant"}
    node = {"name": "n", "groups": [group], "timers": [{"name": f"t{at}", "group": "w", "period": 1, "script": script} for at in range(timers)]}
    return json.dumps({"version": 2, "nodes": [node], "moments": list(range(1, rounds + 1))}).encode()


def light_after_heavy(heavy=20, light=65_000):
    """A document of rounds with long scripts, and then of rounds in each of which one goal is polled, and no timer is called."""
    read = json.loads(long_scripts(timers=64, rounds=heavy))
    read["nodes"][0]["actions"] = [{"name": "a", "on_goal": [["decide", 2]], "script": [["yield"]]}]
    feed = [{"round": heavy, "action": "a", "goal": f"{1:032x}", "value": 0}]
    return json.dumps({**read, "moments": read["moments"] + [heavy] * light, "feed": feed}).encode()


# ---- documents by a seed, of which the program shares rounds

# How many of them the scripts run.
COUNT = 200
# What the groups of a document are: mutually exclusive ones with several callbacks each (None is the node's default group), a
# reentrant one, or both.
EXCLUSIVE, REENTRANT = ("e", "f", None), ("w",)
GROUPS = EXCLUSIVE, REENTRANT, EXCLUSIVE + REENTRANT * 3
VERSIONS = None, "arrival", "kind", "unsaid"
# A script has at most so many instructions.
LONGEST = 256
# How many rounds each of the last moments has. Timers are called in the first of them.
TIMES = 1, 1, 1, 2, 5, 9


class Shared:
    """A document with callbacks of all kinds and long scripts. In the first rounds most of each script is skipped. Its length counts all
    the same for whether threads are worth their start. In the last rounds scripts run whole, and rounds with little to do come between."""

    def __init__(self, seed):
        self.chance = random.Random(seed)
        self.groups = GROUPS[seed // len(VERSIONS) % len(GROUPS)]
        self.first = self.chance.choice((32, 32, 32, 80))
        self.moments = [*range(1, self.first)]
        for times in self.chance.sample(TIMES, len(TIMES)):
            self.moments += [self.moments[-1] + 1] * times

    def script(self, group, *own):
        """A script as long as it may be, or a little shorter, that ends with instructions of its own."""
        registers, shared = ("r2", "r3", "r4", "r5"), () if group in REENTRANT else ("g0", "g1")
        read = (*registers, *shared, "in", "aux", "now", 3, -7)
        logs = [["log", "r2"], ["log", "r3"], ["log", "g0" if shared else "r4"]]
        count = LONGEST - 2 - len(logs) - len(own) - self.chance.choice((0, 0, 20))
        operations = ("add", "add", "sub", "mul", "min", "max", "lt", "eq")
        step = lambda: ["set", self.chance.choice(registers + shared), self.chance.choice(operations), self.chance.choice(read), self.chance.choice(read)]
        steps = [step() for _ in range(count)]
        return [["set", "r7", "lt", "now", self.first], ["skip", "r7", count], *steps, *logs, *own]

    def entity(self, name, *scripts, **fields):
        """An entity of some group, with a script in each of these fields."""
        group = self.chance.choice(self.groups)
        own = {"group": group} if group else {}
        depth = {} if "period" in fields else {"depth": self.chance.choice((1, 3, 10))}
        return {"name": name, **own, **depth, **fields, **{field: self.script(group, *last) for field, *last in scripts}}

    def server(self, name):
        """A server whose goals pend some times before they end."""
        pends = self.chance.choice(([["yield"]], [["wait", 2]], [["yield"], ["feedback", "r3"], ["yield"]]))
        ends = self.chance.choice((["succeed", "r2"], ["abort", "r3"], ["canceled", "r4"]))
        scripts = ("on_goal", ["decide", self.chance.choice((2, 2, 3))]), ("on_cancel", ["decide", 2]), ("script", ["feedback", "r2"], *pends, ends)
        return self.entity(name, *scripts, result_timeout=self.chance.choice((2, 9)))

    def client(self, name, server):
        scripts = ("on_response",), ("on_code",), ("on_feedback",), ("on_result",)
        return self.entity(name, *scripts, action=server)

    def timers(self):
        """Timers, the first of which send to all other entities."""
        form = self.chance.choice((["all"], ["before", "now"], ["goal-before", 2, 9]))
        periods = (
            (1, ["pub", "x", "r2"]),
            (1, ["call", "c", "r3"], ["call", "d", 1]),
            (1, ["goal", "k", "now"]),
            (1, ["goal", "i", 2], ["execute", "a"], ["execute", "b"]),
            (3, ["cancel", "k", *form]),
            (3, ["cancel", "i", "all"]),
            *[(1,)] * 8,
        )
        return [self.entity(f"t{at}", ("script", *last), period=period) for at, (period, *last) in enumerate(periods)]

    def node(self):
        return {
            "name": "n",
            "groups": [{"name": name, "kind": "reentrant" if name in REENTRANT else "exclusive"} for name in dict.fromkeys(self.groups) if name],
            "timers": self.timers(),
            "subscriptions": [self.entity(name, ("script",), topic="x") for name in ("s", "u")],
            "services": [self.entity("v", ("script", ["reply", "r2"]))],
            "clients": [self.entity(name, ("script",), service="v") for name in ("c", "d")],
            "actions": [self.server(name) for name in ("a", "b")],
            "action_clients": [self.client("k", "a"), self.client("i", "b")],
        }

    def feed(self):
        """A message, a goal and a request to cancel all goals, a few times each."""
        rounds = lambda: sorted(self.chance.sample(range(1, len(self.moments)), 4))
        fed = [{"round": at, "topic": "x", "value": at} for at in rounds()]
        fed += [fed_goal(self.chance, at, at, at) for at in rounds()]
        return fed + [fed_cancel(self.chance, at) for at in rounds()]

    def document(self):
        return generate.plan([self.node()], self.moments, self.feed(), ["x"])


def made(seed):
    """The document of a seed, and the words by which this program writes it."""
    given, order = Shared(seed).document(), VERSIONS[seed % len(VERSIONS)]
    return f"heavy.py {seed}", generate.ordered(given, order) if order else given


def documents():
    """The documents that the scripts run, with their names."""
    return map(made, range(COUNT))


def main():
    if len(sys.argv) != 2 or not sys.argv[1].isdecimal():
        sys.exit(__doc__)
    _, given = made(int(sys.argv[1]))
    sys.stdout.buffer.write(given + b"\n")
    return 0


if __name__ == "__main__":
    sys.exit(main())
