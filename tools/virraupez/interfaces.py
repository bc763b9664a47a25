"""Definitions of types in files of ROS 2: NAME.msg, NAME.srv and NAME.action in the folders of their packages."""
from __future__ import annotations

import pathlib

from . import TYPE_CHECKING, command

if TYPE_CHECKING:
    from typing import Dict, List

UUID = "unique_identifier_msgs/UUID goal_id"
# The parts of a service and of an action, in the order of their files.
PARTS = {".msg": ("",), ".srv": ("_Request", "_Response"), ".action": ("_Goal", "_Result", "_Feedback")}


def event(name: str) -> str:
    """The type of what introspection says of a service."""
    return f"service_msgs/ServiceEventInfo info\n{name}_Request[<=1] request\n{name}_Response[<=1] response"


# Types that rosbag2 records of each action.
ACTIONS = {
    "unique_identifier_msgs/UUID": "uint8[16] uuid",
    "action_msgs/GoalInfo": f"{UUID}\nbuiltin_interfaces/Time stamp",
    "action_msgs/GoalStatus": "GoalInfo goal_info\nint8 status",
    "action_msgs/GoalStatusArray": "GoalStatus[] status_list",
    "action_msgs/CancelGoal_Request": "GoalInfo goal_info",
    "action_msgs/CancelGoal_Response": "int8 return_code\nGoalInfo[] goals_canceling",
    "action_msgs/CancelGoal_Event": event("CancelGoal"),
    "service_msgs/ServiceEventInfo": "uint8 event_type\nbuiltin_interfaces/Time stamp\nuint8[16] client_gid\nint64 sequence_number",
}


def definitions(folder: str) -> Dict[str, str]:
    """The definitions in a folder and the folders below it, by the names of types."""
    if not pathlib.Path(folder).is_dir():
        raise command.Trouble(f"{command.printable(folder)}: no folder of message definitions")
    found = {}
    for path in sorted(pathlib.Path(folder).rglob("*.*")):
        if path.suffix in PARTS:
            found.update(of_file(path))
    return found


def of_file(path: pathlib.Path) -> Dict[str, str]:
    """The types that a file defines. Its package is the folder above msg, srv or action."""
    above = path.parent
    name = f"{(above.parent if above.name in ('msg', 'srv', 'action') else above).name}/{path.stem}"
    texts = parts_of(path.read_text("utf-8", "replace"))
    found = {f"{name}{part}": text for part, text in zip(PARTS[path.suffix], texts + [""] * 3)}
    if path.suffix == ".srv":
        found[f"{name}_Event"] = event(path.stem)
    if path.suffix == ".action":
        found[f"{name}_SendGoal_Request"] = f"{UUID}\n{path.stem}_Goal goal"
        found[f"{name}_SendGoal_Response"] = "bool accepted\nbuiltin_interfaces/Time stamp"
        found[f"{name}_SendGoal_Event"] = event(f"{path.stem}_SendGoal")
        found[f"{name}_FeedbackMessage"] = f"{UUID}\n{path.stem}_Feedback feedback"
    return found


def parts_of(text: str) -> List[str]:
    """The parts of a file, between lines of three dashes."""
    parts: List[List[str]] = [[]]
    for line in text.split("\n"):
        if line.strip() == "---":
            parts.append([])
        else:
            parts[-1].append(line)
    return ["\n".join(it) for it in parts]
