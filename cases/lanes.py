"""The lanes of a transcript's rounds, by docs/rules.md alone: the callbacks of a mutually exclusive group are one lane, and each
callback of a reentrant group is one by itself."""
import collections

import codes

ROUND, RUN = b"round", b"run"


def exclusive_groups(read):
    """Of each entity of a document that was read: the node and the group, or None if its group is reentrant."""
    groups = {}
    for at, node in enumerate(read.get("nodes", [])):
        reentrant = {group["name"] for group in node.get("groups", []) if group["kind"] == "reentrant"}
        for entity in (entity for kind in codes.ENTITIES for entity in node.get(kind, [])):
            group = entity.get("group")
            groups[entity["name"].encode()] = None if group in reentrant else (at, group)
    return groups


def lanes(read, transcript):
    """How many lanes each round has, of a document that was read and its transcript."""
    groups, rounds = exclusive_groups(read), []
    for line in transcript.splitlines():
        word, name, *_ = line.split(b" ")
        if word == ROUND:
            rounds.append(collections.Counter())
        elif word == RUN:
            rounds[-1][groups[name]] += 1
    return [found[None] + len(found.keys() - {None}) for found in rounds]
