// What is chosen, and what is said of it: the lines of its round, who sent what a callback took, and who took what it sent.

const MOST_LINES = 2000, MOST_TAKERS = 50;
const IDENTIFIER = /[0-9a-f]{8}-[0-9a-f]{4}-[0-9a-f]{4}-[0-9a-f]{4}-[0-9a-f]{12}/;

/** Chooses a round, and in it a callback or one line of it. */
function choose(column, box, line) {
  view.chosen = clamp(column, 0, data.columns - 1);
  view.box = box || null;
  view.line = line || null;
  showChosen();
  const isOther = differs.has(view.chosen), when = whenOf(view.chosen);
  byId("where").textContent = when[0].toUpperCase() + when.slice(1) + (isOther ? ", which differs" : "");
  byId("why").textContent = "";
  canvas.setAttribute("aria-valuemin", 1);
  canvas.setAttribute("aria-valuemax", data.columns);
  canvas.setAttribute("aria-valuenow", view.chosen + 1);
  canvas.setAttribute("aria-valuetext", `${byId("where").textContent}, ${countedLines()}`);
  showLines();
  showDetails();
  keepLink();
  redraw();
}

/** Moves the rounds so that the chosen one is shown, with some before and after it, since lines lead to them. */
function showChosen() {
  const from = offset(view.chosen), to = offset(view.chosen + 1), beside = Math.min(2 * view.width, (room() - (to - from)) / 2), begin = offset(view.left);
  if (from - beside < begin) view.left = placeAt(Math.max(from - beside, 0));
  else if (to + beside > begin + room()) view.left = placeAt(to + beside - room());
}

function whenOf(column) {
  if (runs.length < 2 || runs[0].when(column) === runs[1].when(column)) return runs[0].when(column);
  return runs.map((it) => `${it.name}: ${it.when(column) || "no such round"}`).join("; ");
}

function countedLines() {
  const counts = runs.map((it) => { const lines = it.linesOf(view.chosen); return lines ? lines[1] - lines[0] : 0; });
  return counts.map((it) => (it === 1 ? "1 line" : `${it} lines`)).join(" and ");
}

function say(text) { byId("said").textContent = text; }

// ---- the lines of a round

/** The lines of the chosen round, each run's in a list of its own. */
function showLines() {
  const all = byId("lines");
  all.textContent = "";
  runs.forEach((run, side) => {
    if (runs.length > 1) all.append(made("h3", run.name));
    const lines = run.linesOf(view.chosen);
    if (!lines) { all.append(made("p", "It has no such round.")); return; }
    const list = made("ol"), most = Math.min(lines[1], lines[0] + MOST_LINES), isOther = othersOf(run, view.chosen);
    list.start = lines[0];
    for (let number = lines[0]; number < most; number++) list.append(item(run, side, number, isOther(number)));
    all.append(list);
    if (most < lines[1]) all.append(made("p", `and ${lines[1] - most} lines more`));
  });
  const chosen = all.querySelector("[aria-current]") || all.querySelector(".chosen");
  if (chosen) chosen.scrollIntoView({ block: "nearest" });
}

/** Whether a line of a column differs from the other run's. */
function othersOf(run, column) {
  if (!differs.has(column)) return () => false;
  const changes = differs.get(column), side = runs.indexOf(run), [begin] = run.linesOf(column) || [0];
  const first = begin + Number(run.line(begin).startsWith("round "));
  return (number) => changes === null || changes.some((it) => first + it[side][0] <= number && number < first + it[side][1]);
}

/** Whether a callback has a line that differs. */
function isOtherBox(run, at) {
  const column = run.boxes[at * 5];
  if (!differs.has(column)) return false;
  const isOther = othersOf(run, column), [begin, end] = run.linesOfBox(at);
  for (let number = begin; number < end; number++) if (isOther(number)) return true;
  return false;
}

function made(name, text) {
  const element = document.createElement(name);
  if (text !== undefined) element.textContent = text;
  return element;
}

/** A button that chooses something. */
function chooser(text, does) {
  const button = made("button", text);
  button.type = "button";
  button.addEventListener("click", does);
  return button;
}

function item(run, side, number, isOther) {
  const element = made("li"), text = run.line(number);
  if (isOther) {
    element.className = "differs";
    element.append(made("span", side ? "+ " : "− "), Object.assign(made("span", " only here: "), { className: "unseen" }));
  }
  let into = element;
  if (text.startsWith("run ")) {
    element.classList.add("run");
    into = chooser("", () => {
      choose(view.chosen, [run, run.boxOf(number)]);
      // The lines are new ones, and who uses keys stays where they were.
      document.querySelector(`[data-place="${side} ${number}"]`).focus();
    });
    into.dataset.place = `${side} ${number}`;
    element.append(into);
  }
  fill(into, text);
  const hit = view.hits[view.hit], isHit = hit && runs[hit[0]] === run && hit[1] === number;
  const [begin, end] = view.box && view.box[0] === run ? run.linesOfBox(view.box[1]) : [0, 0];
  if (begin <= number && number < end || isHit) element.classList.add("chosen");
  if (view.line ? view.line === number && side === 0 : begin === number || isHit) into.setAttribute("aria-current", "true");
  return element;
}

/** Puts a line into an element: goals by their names, whose identifiers are their titles, and what is sought marked. */
function fill(into, text) {
  const sought = soughtText(), found = IDENTIFIER.exec(text), at = sought ? text.toLowerCase().indexOf(sought) : -1;
  if (found && (at < 0 || at + sought.length <= found.index || at >= found.index + found[0].length)) {
    const goal = made("abbr", goalName(found[0]));
    goal.title = found[0];
    addMarked(into, text.slice(0, found.index), sought);
    into.append(goal);
    addMarked(into, text.slice(found.index + found[0].length), sought);
  } else addMarked(into, text, sought);
}

function addMarked(into, text, sought) {
  const at = sought ? text.toLowerCase().indexOf(sought) : -1;
  if (at < 0) into.append(text);
  else into.append(text.slice(0, at), made("mark", text.slice(at, at + sought.length)), text.slice(at + sought.length));
}

// ---- a callback

/** A callback in words, with what it took. */
function describe(run, at) {
  const sender = run.into.get(at);
  const from = sender === undefined ? "" : sender === -1 ? "; it took what was fed" : sender < 0 ? "" : `; sent by ${run.head(sender)}`;
  return run.head(at) + from;
}

/** Chooses a callback of the same run, and says what it is. */
function goToBox(run, at) {
  choose(run.boxes[at * 5], [run, at]);
  say(describe(run, at));
}

/** Who sent what the chosen callback took, who took what it sent, and its goal's identifier. */
function showDetails() {
  const into = byId("details");
  into.textContent = "";
  if (!view.box) return;
  const [run, at] = view.box, sender = run.into.get(at), takers = run.outOf.get(at) || [];
  const identifier = IDENTIFIER.exec(run.head(at));
  const [, entity] = run.head(at).split(" ");
  if (NAMED.some((it) => it.has(entity))) into.append(chooser(`${plots.open.includes(entity) ? "Close the plots of" : "Plot"} ${entity} (p)`, () => { togglePlot(entity); showDetails(); }));
  if (identifier) into.append(made("p", `goal ${goalName(identifier[0])} is ${identifier[0]}`));
  if (sender === -1) into.append(made("p", "it took what was fed"));
  if (sender === -2) into.append(made("p", "what it took was sent before the rounds that are shown"));
  if (sender >= 0) into.append(made("h3", "Who sent it (Shift ←)"), boxButton(run, sender));
  if (takers.length) into.append(made("h3", "Who took what it sent (Shift →)"), ...takers.slice(0, MOST_TAKERS).map((it) => boxButton(run, it)));
  if (takers.length > MOST_TAKERS) into.append(made("p", `and ${takers.length - MOST_TAKERS} more`));
}

function boxButton(run, at) {
  const button = chooser("", () => goToBox(run, at));
  fill(button, `${run.head(at)}, ${run.when(run.boxes[at * 5])}`);
  return button;
}

/** The lines of a callback. */
function boxTip(run, at) {
  const [begin, end] = run.linesOfBox(at), told = [];
  for (let number = begin; number < Math.min(end, begin + 24); number++) told.push(run.line(number));
  if (end > begin + 24) told.push(`and ${end - begin - 24} more lines`);
  const sender = run.into.get(at);
  if (sender === -1) told.push("took what was fed");
  if (sender >= 0) told.push(`took what was sent by: ${run.head(sender)}`);
  return told.join("\n");
}

/** Goes to the next callback of the chosen round, or to the one before. */
function step(by) {
  const all = [];
  for (const run of runs) for (let at = run.firstBox(view.chosen); at < run.count && run.boxes[at * 5] === view.chosen; at++) all.push([run, at]);
  if (!all.length) return say("no callback in this round");
  const now = view.box ? all.findIndex((it) => it[0] === view.box[0] && it[1] === view.box[1]) : by > 0 ? -1 : all.length;
  goToBox(...all[clamp(now + by, 0, all.length - 1)]);
}

/** Goes along the row of the chosen callback, or to another round if none is chosen. A fold is one step. */
function along(by) {
  if (!view.box) {
    const fold = foldOf(view.chosen + by);
    return choose(fold ? (by > 0 ? fold[1] : fold[0] - 1) : view.chosen + by);
  }
  const [run, now] = view.box;
  for (let at = now + by; at >= 0 && at < run.count; at += by)
    if (run.boxes[at * 5 + 1] === run.boxes[now * 5 + 1]) return goToBox(run, at);
  say("there is no more callback in this row");
}

/** Goes from the chosen callback to the one that sent what it took, or to the first that took what it sent. */
function follow(by) {
  if (!view.box) return say("no callback is chosen: ↑ and ↓ choose one");
  const [run, at] = view.box, to = by < 0 ? run.into.get(at) : (run.outOf.get(at) || [])[0];
  if (to >= 0) return goToBox(run, to);
  say(by > 0 ? "nobody took what it sent" : to === -1 ? "it took what was fed" : "nobody sent it");
}

function nextDifference(by) {
  if (!differing.length) return say("the two are the same");
  const later = by > 0 ? differing.find((it) => it > view.chosen) : [...differing].reverse().find((it) => it < view.chosen);
  choose(later === undefined ? (by > 0 ? differing[0] : differing[differing.length - 1]) : later);
  say(`${byId("where").textContent}, ${countedLines()}`);
}

// ---- links

/** Chooses what the address names, as #round=254 or #line=221; whether it names something. */
function goToLink() {
  const [, what, digits] = /^#(round|line)=([0-9]+)$/.exec(location.hash) || [], number = Number(digits), run = runs[0];
  if (what === "line" && number === run.base + run.starts.length - 1) choose(data.columns - 1);
  else if (what === "line" && run.has(number)) choose(run.columnOf(number), boxOrNone(run, number), number);
  else {
    const found = what === "round" && run.rounds.find((it) => it[1] === number);
    if (!found) return false;
    choose(found[0]);
  }
  return true;
}

function boxOrNone(run, number) {
  const at = run.boxOf(number);
  return at < 0 ? null : [run, at];
}

let linking = 0;
/** Has the address name what is chosen, a while after the last choice: browsers don't let it change often. */
function keepLink() {
  clearTimeout(linking);
  linking = setTimeout(() => {
    const place = runs[0].roundAt.get(view.chosen), number = place === undefined ? null : runs[0].rounds[place][1];
    const line = view.line || (view.box && view.box[0] === runs[0] ? runs[0].boxes[view.box[1] * 5 + 3] : null);
    if (line || number !== null) history.replaceState(null, "", line ? `#line=${line}` : `#round=${number}`);
  }, 200);
}

/** The first thing worth seeing, as its run, its line and what it is: a broken rule, an item that was lost, the end of a goal. */
function firstSight() {
  for (const [run, number, rule] of data.broken) if (number !== null) return [runs[run], number, `the first line that breaks ${rule}`];
  const run = runs[0];
  for (let at = 0; at < run.count; at++) if (run.boxes[at * 5 + 4] === LOST) return [run, run.boxes[at * 5 + 3], "the first item that a full queue lost"];
  const end = /^state \S+ \S+ ([456])$/m.exec(run.text);
  return end ? [run, run.lineAt(end.index), `the first goal that ends: ${data.states[end[1]].toLowerCase()}`] : null;
}
