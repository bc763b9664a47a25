"""Worked values for the page of the headline: for files of definitions, expressions and what they give, as the page computes it."""
from virraupez import command
from virraupez.definitions import page, program
from virraupez.definitions.values import in_line

GOAL = "new_goal 1 (pos 3) 10 acceptance.Execute"
OTHER = "new_goal 2 (pos 3) 11 acceptance.Defer"
TIMER, KEEP_LAST, ACTION = "examples/timer.json", "examples/keep_last.json", "examples/action.json"
# What a callback hands its script, the turn of a poll, and where effects go if they are listed.
INPUT = "(record { first = pos 5; aux = pos 0; moment = 10 })"
TURN = "(record { moment = 10; canceling = false })"
LISTED = "(λ effect given. given ++ effect ∷ [])"
PREDECESSOR = "(λ number. if nat_le 1 number then Some (number - 1) else None)"
# Drafts of graphs: with two topics, with a node, and with a node whose timer has a script that is misspelt.
TOPICS = '(record { topics = codes "scan" ∷ codes "map" ∷ []; nodes = [] })'
NODE = '(record { topics = []; nodes = record { name = codes "arm"; groups = record { name = codes "free"; exclusive = false } ∷ []; entities = [] } ∷ [] })'
MISSPELT = 'record { name = codes "t"; group = None; is = Timer (record { period = 10; script = (Text (codes "jump") ∷ []) ∷ [] }) }'
WORDS = '(array (item (string (codes "log")) (item (number 5) no_items)))'
# A file of specs/, an expression, and the document whose plan is `plan` in it.
EXPRESSIONS = (
    ("exec_msg/specs/Goal.antt", "map status_number (status.Accepted ∷ status.Aborted ∷ [])", None),
    ("exec_msg/specs/KeepLast.antt", "sent 2 30 (10 ∷ 20 ∷ [])", None),
    ("exec_msg/specs/KeepLast.antt", "displaced 2 30 (10 ∷ 20 ∷ [])", None),
    ("exec_msg/specs/Kind.antt", "map ready_number (kind.Timer ∷ kind.Poll ∷ kind.Result ∷ [])", None),
    ("exec_msg/specs/Lists.antt", "change_first (λ number. nat_le 2 number) (λ number. number * 10) (1 ∷ 2 ∷ 3 ∷ [])", None),
    ("exec_msg/specs/Lists.antt", "drop_first (λ number. nat_le 2 number) (1 ∷ 2 ∷ 3 ∷ [])", None),
    ("exec_msg/specs/Line.antt", "id_text 1", None),
    ("exec_msg/specs/Line.antt", 'joined (fields_of (codes "t" ∷ []) (line.Run 0 kind.Timer (pos 10) (pos 0) None))', None),
    ("exec_msg/specs/Options.antt", f"each {PREDECESSOR} (3 ∷ 1 ∷ [])", None),
    ("exec_msg/specs/Options.antt", f"each {PREDECESSOR} (3 ∷ 0 ∷ [])", None),
    ("exec_msg/specs/Timer.antt", "next_call (record { next = 10; period = 10 }) 35", None),
    ("exec_script/specs/Legality.antt", "legality_of (instr.Yield ∷ []) (record { reentrant = false; role = role.Callback })", None),
    ("exec_script/specs/Legality.antt", "skips_end_within (instr.Skip operand.In 1 ∷ [])", None),
    ("exec_script/specs/Script.antt", "result_of operation.Add (pos 9223372036854775807) (pos 1)", None),
    ("exec_script/specs/Script.antt", f"(called {LISTED} (instr.Log operand.In ∷ []) zeros {INPUT} []).given", None),
    ("exec_script/specs/Script.antt", f"(called {LISTED} (instr.Skip operand.In 1 ∷ instr.Log operand.Aux ∷ instr.Log operand.Now ∷ []) zeros {INPUT} []).given", None),
    ("exec_script/specs/Spelling.antt", 'operand_named (codes "r3")', None),
    ("exec_script/specs/Spelling.antt", 'set_of (Text (codes "r0") ∷ Text (codes "add") ∷ Text (codes "in") ∷ Number (pos 1) ∷ [])', None),
    ("exec_goal/specs/State.antt", "after state.Executing event.CancelGoal", None),
    ("exec_goal/specs/State.antt", "after state.Accepted event.Succeed", None),
    ("exec_goal/specs/Table.antt", f"length (expired 20 (Some 5) (after_end event.Succeed (pos 7) 15 ({GOAL}) ∷ []))", None),
    ("exec_goal/specs/Table.antt", f"asked_for 1 ({GOAL} ∷ [])", None),
    ("exec_goal/specs/Calls.antt", f"end_state 1 event.Abort ({GOAL} ∷ [])", None),
    ("exec_goal/specs/Calls.antt", f"end_state 1 event.Canceled ({GOAL} ∷ [])", None),
    ("exec_goal/specs/Cancel.antt", f"map (λ goal. goal.id) (candidates (record {{ id = 0; stamp = 10 }}) ({GOAL} ∷ {OTHER} ∷ []))", None),
    ("exec_goal/specs/Cancel.antt", f"code_of (record {{ id = 2; stamp = 0 }}) [] ({GOAL} ∷ [])", None),
    ("exec_goal/specs/Cancel.antt", f"map (λ goal. goal.state) (table_after ((1, cancel_decision.Accept) ∷ []) ({GOAL} ∷ {OTHER} ∷ []))", None),
    ("exec_goal/specs/Info.antt", f"info_of ({OTHER})", None),
    ("exec_task/specs/Task.antt", "is_awake (record new_task { waits = wait.Until 12 }) (record { moment = 11; canceling = true })", None),
    ("exec_task/specs/Task.antt", f"(after_stop {TURN} (stop.Wait 5 3) new_task).waits", None),
    ("exec_task/specs/Task.antt", f"task_answer (polled {LISTED} (instr.Succeed operand.In ∷ []) (pos 7) {TURN} new_task zeros []).task", None),
    ("exec_plan/specs/Entity.antt", "is_within (Timer (record { period = 0; script = [] }))", None),
    ("exec_plan/specs/Names.antt", 'is_name (codes "arm/left")', None),
    ("exec_plan/specs/Graph.antt", "names_of plan.graph", KEEP_LAST),
    ("exec_plan/specs/Graph.antt", "map (λ waitable. waitable.kind) (wait_set plan.graph)", ACTION),
    ("exec_plan/specs/Feeding.antt", "fed_in 2 plan.feed", "examples/topic.json"),
    ("exec_plan/specs/Schedule.antt", "is_in_order (10 ∷ 20 ∷ []) (1 ∷ 3 ∷ [])", None),
    ("exec_graph/specs/Numbers.antt", f'topic_named {TOPICS} (codes "map")', None),
    ("exec_graph/specs/Numbers.antt", f"groups_of {NODE}", None),
    ("exec_graph/specs/Resolved.antt", f"option_map names_of (resolved_graph {TOPICS})", None),
    ("exec_graph/specs/Scripts.antt", f"entity_faults {TOPICS} (record {{ node = 0; entity = {MISSPELT} }})", None),
    ("exec_graph/specs/Faults.antt", f"is_well_named {TOPICS}", None),
    ("exec_doc/specs/Forms.antt", f"list_of word {WORDS}", None),
    ("exec_doc/specs/Forms.antt", 'id_in_text (codes "urn:uuid:00000000-0000-0000-0000-000000000001")', None),
    ("exec_doc/specs/Refusals.antt", 'refusal_of (codes "[10]")', None),
    ("exec_doc/specs/Refusals.antt", "may_refuse refused.Shape None", None),
    ("exec_doc/specs/Document.antt", 'plan_in (document_value (codes "[10]"))', None),
    ("exec_rules/specs/Item.antt", "goal_id 0 1", None),
    ("exec_rules/specs/Sorting.antt", "sorted_by (λ number. number / 10) (25 ∷ 13 ∷ 21 ∷ 12 ∷ [])", None),
    ("exec_rules/specs/World.antt", "(push 2 (item.Message (pos 7)) (push 2 (item.Message (pos 5)) (first_world plan))).lines", KEEP_LAST),
    ("exec_rules/specs/Close.antt", "(answer_goal 1 10 decision.Defer (record { id = 5; client = None; value = pos 3 }) (first_world plan)).lines", ACTION),
    ("exec_rules/specs/Give.antt", "map (λ queue. queue.items) (publish 0 (pos 4) (first_world plan)).queues", KEEP_LAST),
    ("exec_rules/specs/Ready.antt", "map run_line (ready_list 10 (first_world plan))", KEEP_LAST),
    ("exec_rules/specs/Ready.antt", "map (λ entry. entry.timer) (take_inputs 35 (first_world plan)).timers", TIMER),
    ("exec_rules/specs/Callback.antt", f"map (λ one. (callback {LISTED} one None zeros []).given) (ready_list 10 (first_world plan))", KEEP_LAST),
    ("exec_rules/specs/Run.antt", "(fold (λ world one. run one world) (first_world plan) (ready_list 10 (first_world plan))).lines", TIMER),
    ("exec_rules/specs/Transcript.antt", "(first_world plan).timers", TIMER),
    ("exec_rules/specs/Transcript.antt", "map (λ queue. queue.items) (round plan 1 10 (first_world plan)).queues", KEEP_LAST),
    ("exec_rules/specs/Transcript.antt", "closing_lines 2 (first_world plan)", KEEP_LAST),
    ("exec_rules/specs/Transcript.antt", "lines_of plan", TIMER),
)


def sentences(text, top):
    """What a page computes of the expressions, as sentences by their files; the documents are those of a folder."""
    found = {}

    def work():
        try:
            made = program.Program(page.Page(text))
        except command.Trouble as wrong:
            return found.update({f"crates/{EXPRESSIONS[0][0]}": [f"Nothing of this page can be computed: {wrong}."]})
        for file, expression, document in EXPRESSIONS:
            found.setdefault(f"crates/{file}", []).append(sentence(made, expression, document, top))

    program.deeply(work)
    return found


def sentence(made, expression, document, top):
    given = (top / document).read_bytes() if document else None
    try:
        gives = f"gives `{in_line(made.value(expression, given))}`"
    except (command.Trouble, program.Refused) as wrong:
        gives = f"can't be computed: {wrong}"
    of_plan = f"With `plan` as the plan of [{document}](../{document}), " if document else ""
    return f"{of_plan}`{expression}` {gives}."
