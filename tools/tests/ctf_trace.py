"""ctf_trace.py FOLDER THREADS: writes a trace in CTF as ros2_tracing has them, with the events and fields of its published tracepoints, by
Babeltrace 2: a process that spins a node with a timer of 10 ms, a subscription and a service, in so many threads."""
import sys

import bt2

EVENTS = {
    "rcl_timer_init": "timer_handle period:i",
    "rclcpp_timer_callback_added": "timer_handle callback",
    "rcl_subscription_init": "subscription_handle node_handle rmw_subscription_handle topic_name:s queue_depth",
    "rclcpp_subscription_init": "subscription_handle subscription",
    "rclcpp_subscription_callback_added": "subscription callback",
    "rcl_service_init": "service_handle node_handle rmw_service_handle service_name:s",
    "rclcpp_service_callback_added": "service_handle callback",
    "rclcpp_callback_register": "callback symbol:s",
    "rclcpp_executor_wait_for_work": "timeout:i",
    "callback_start": "callback is_intra_process",
    "callback_end": "callback",
}
MS, BEGUN, TIMER, MESSAGE, REQUEST = 1_000_000, 1_000_000_000, 110, 120, 130
# The callbacks of each round, with the milliseconds at which it came.
ROUNDS = ((10, [TIMER]), (12, [MESSAGE]), (20, [MESSAGE, TIMER]), (23, [REQUEST]), (30, [TIMER]))


def story():
    for event in (
        ("rcl_timer_init", 10, 10 * MS),
        ("rclcpp_timer_callback_added", 10, TIMER),
        ("rclcpp_callback_register", TIMER, "N::on_t()"),
        ("rcl_subscription_init", 20, 1, 21, "/x", 10),
        ("rclcpp_subscription_init", 20, 22),
        ("rclcpp_subscription_callback_added", 22, MESSAGE),
        ("rcl_service_init", 30, 1, 31, "/add"),
        ("rclcpp_service_callback_added", 30, REQUEST),
    ):
        yield BEGUN, event
    for at, callbacks in ROUNDS:
        yield BEGUN + at * MS - 1000, ("rclcpp_executor_wait_for_work", -1)
        for place, callback in enumerate(callbacks):
            begun = BEGUN + at * MS + place * 50_000
            yield begun, ("callback_start", callback, 0)
            yield begun + 40_000, ("callback_end", callback)


class Messages(bt2._UserMessageIterator):
    def __init__(self, _config, _port):
        self.made = self.messages()

    def messages(self):
        source = self._component
        stream = source.trace.create_stream(source.stream_class)
        yield self._create_stream_beginning_message(stream)
        for at, (name, *values) in story():
            made = self._create_event_message(source.classes[name], stream, default_clock_snapshot=at)
            for field, value in zip(EVENTS[name].split(), values):
                made.event.payload_field[field.partition(":")[0]] = value
            made.event.common_context_field["vtid"] = 7 + at // MS % int(sys.argv[2])
            yield made
        yield self._create_stream_end_message(stream)

    def __next__(self):
        return next(self.made)


@bt2.plugin_component_class
class Source(bt2._UserSourceComponent, message_iterator_class=Messages):
    def __init__(self, _config, _params, _given):
        traces = self._create_trace_class()
        context = traces.create_structure_field_class()
        context += [("vtid", traces.create_signed_integer_field_class(32))]
        clock = self._create_clock_class(frequency=1_000_000_000)
        self.stream_class = traces.create_stream_class(default_clock_class=clock, event_common_context_field_class=context)
        kinds = {"s": traces.create_string_field_class, "i": lambda: traces.create_signed_integer_field_class(64), "": lambda: traces.create_unsigned_integer_field_class(64)}
        self.classes = {}
        for name, fields in EVENTS.items():
            payload = traces.create_structure_field_class()
            for field in fields.split():
                name_of, _, kind = field.partition(":")
                payload += [(name_of, kinds[kind]())]
            self.classes[name] = self.stream_class.create_event_class(name=f"ros2:{name}", payload_field_class=payload)
        self.trace = traces()
        self._add_output_port("out")


def main():
    graph = bt2.Graph()
    source = graph.add_component(Source, "source")
    files = bt2.find_plugin("ctf").sink_component_classes["fs"]
    sink = graph.add_component(files, "sink", params={"path": sys.argv[1], "assume-single-trace": True})
    graph.connect_ports(source.output_ports["out"], sink.input_ports["in"])
    graph.run()


main()
