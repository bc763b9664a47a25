"""feed: writes what a bag of ROS 2 has as entries of a feed, so that a robot is run with what was recorded, as

  ./virraupez feed drive --topic /battery:battery --field percentage --scale 100 --tick 20ms --document nav.json -o recorded.json

The bag is one of rosbag2 with the storage sqlite3 or MCAP. --field and --scale are of the topic before them. Without --topic the topics of
the bag are listed. docs/tools.md has more."""
from __future__ import annotations

import argparse
import decimal
import json
import re

from .. import TYPE_CHECKING, bag, cdr, command, difference, document_text, feed_entries, fit, flow, grammar, hints, interfaces, pattern, ticks

if TYPE_CHECKING:
    from typing import Any, Optional

    from ..bag import AnyBag

STATUS = "The status is 0, and 2 if the bag, the document or a message can't be read."


class Begun(argparse.Action):
    """Begins a topic or an action of the bag, with the name that it has in the document."""

    def __call__(self, parser: argparse.ArgumentParser, asked: argparse.Namespace, value: Any, option: Optional[str] = None) -> None:
        name, _, own = value.partition(":")
        made, noun, kind = (feed_entries.Action, "an action", "ACTION") if option == "--action" else (feed_entries.Topic, "a topic", "TOPIC")
        if not grammar.NAME.fullmatch(own or name):
            parser.error(f"argument {option}: {(own or name)[:60]!r} can't be the name of {noun} in a document; {option} NAME:{kind} gives it another")
        asked.sources = [*(asked.sources or []), made(name, own or name)]


class OfTopic(argparse.Action):
    """What is said of the topic before."""

    def __call__(self, parser: argparse.ArgumentParser, asked: argparse.Namespace, value: Any, option: Optional[str] = None) -> None:
        if not asked.sources:
            parser.error(f"argument {option}: it is of the topic before it, and there is none")
        setattr(asked.sources[-1], self.dest, value)


def parser(prog: Optional[str] = None) -> command.Parser:
    made = command.parser(__doc__, STATUS, prog)
    made.add_argument("bag", metavar="BAG", help="the folder of a bag, or its file NAME.db3 or NAME.mcap")
    made.add_argument("--topic", metavar="NAME:TOPIC", dest="sources", action=Begun, help="a topic of the bag, and its name in the document if that is another")
    made.add_argument("--action", metavar="NAME:ACTION", dest="sources", action=Begun, help="an action of the bag, for its goals and cancel requests, and its name in the document")
    made.add_argument("--field", metavar="FIELD", action=OfTopic, help="the field that is the value, as twist.linear.x or ranges.min; data if it isn't given. Of an action it is a field of its goals, and 0 if it isn't given")
    made.add_argument("--scale", metavar="N", action=OfTopic, type=scale, help="what a number is multiplied by before it is rounded; 1 if it isn't given")
    made.add_argument("--tick", metavar="TIME", type=ticks.nanoseconds, default=1000000, help="how long a tick is, as 20ms; 1ms if it isn't given")
    made.add_argument("--begin", metavar="MOMENT", type=ticks.moment, default=0, help="the moment at which the bag begins; 0 if it isn't given")
    made.add_argument("--types", metavar="DIR", help="a folder of PACKAGE/msg/NAME.msg and the like, for types that the bag doesn't define")
    made.add_argument("--document", metavar="DOCUMENT", help="write this document with the entries, and not the entries alone")
    return made


def scale(text: str) -> decimal.Decimal:
    if not re.fullmatch("-?[0-9]{1,18}(?:[.][0-9]{1,18})?", text) or not decimal.Decimal(text):
        raise argparse.ArgumentTypeError(f"a number as 1000 or 0.5, and not {text[:40]!r}")
    return decimal.Decimal(text)


def run(asked: argparse.Namespace, out: command.Output) -> int:
    found = bag.read(asked.bag)
    if asked.types:
        found.types.add_missing(interfaces.definitions(asked.types))
    if not asked.sources:
        listed(found, out)
        return command.FINE
    for source in asked.sources:
        demand_topics(found, source)
    document = flow.read_document(asked.document) if asked.document else None
    if document:
        demand_declared(asked, fit.Own(asked.document, document))
    entries, remarks = feed_entries.entries(found, asked.sources, asked.tick, asked.begin)
    if document:
        document, more = feed_entries.into(document, entries)
        out.write(document_text.layout(document) + "\n")
    else:
        more = []
        out.write("[" + ",\n ".join(json.dumps(it, separators=(",", ":")) for it in entries) + "]\n")
    out.flush()
    command.note(*(f"feed: {it}" for it in remarks + more))
    return command.FINE


def listed(found: AnyBag, out: command.Output) -> None:
    """Lists the topics of a bag."""
    for topic in found.topics.values():
        try:
            names = ", ".join(name for _, _, name in found.types.fields(cdr.plain(topic.type)))
        except cdr.Unreadable:
            names = "its fields aren't known"
        out.line(f"{topic.name}\t{topic.type}\t{difference.numbered(topic.messages, 'message')}\t{names}")


def demand_topics(found: AnyBag, source: feed_entries.Source) -> None:
    """Demands that the bag has what a source takes."""
    for name in source.topics(found):
        topic = found.topics.get(name)
        if topic is None:
            near = hints.meant(name, found.topics) or f"there are {', '.join(found.topics) or 'none'}"
            raise command.Trouble(f"{found.name}: no topic {name}: {near}")
        if topic.format != "cdr":
            raise command.Trouble(f"{found.name}: {name} is in {topic.format}, and cdr is read")


def demand_declared(asked: argparse.Namespace, own: fit.Own) -> None:
    for source in asked.sources:
        if own.kinds.get(source.own) != source.KIND:
            near = hints.meant(source.own, [name for name, kind in own.kinds.items() if kind == source.KIND])
            noun = pattern.noun(source.KIND)
            raise command.Trouble(f"{command.shown(asked.document)}: the document declares no {noun} {source.own}" + (f"; {near}" if near else ""))
