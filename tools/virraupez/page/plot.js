// Plots below the rows, on their axis: values of topics as steps, queues against their depths, calls that wait, feedback, and goals by state.

const PLOT = 74, QUEUE = 46, PAD = 8;
const plots = { open: [], panels: [], top: 0, cursor: null, told: "" };
const NAMED = runs.map((run) => new Map(run.plots.map((it) => [it[0], it])));

/** The columns and values of steps as they are looked up. Steps of one column share its width. */
function Steps(run, label, columns, values) {
  Object.assign(this, { run, label, values });
  let column = 0;
  this.columns = Int32Array.from(columns, (it) => (column += it));
  this.numbers = typeof values[0] === "object" ? null : Float64Array.from(values, Number);
  this.places = Float64Array.from(this.columns);
  for (let at = 0, next = 0; at < this.columns.length; at = next) {
    while (this.columns[next] === this.columns[at]) next++;
    for (let its = at; its < next; its++) this.places[its] += (its - at) / (next - at);
  }
}
/** The place of the last step at a column or before it, or -1. */
Steps.prototype.last = function (column) {
  return firstPlace(this.columns.length, (at) => this.columns[at] > column) - 1;
};

/** The panels of a name: of each title one, with the series of every run. */
function panelsOf(name) {
  const [, , panels] = NAMED.map((it) => it.get(name)).find((it) => it) || [0, 0, []];
  return panels.map(([title, kind], at) => {
    const panel = { name, title, kind, series: [], lost: [], depth: 0, high: kind === "queue" || kind === "waiting" ? QUEUE : PLOT };
    runs.forEach((run, side) => {
      const its = NAMED[side].get(name);
      if (its) addSeries(panel, run, its[2][at][2]);
    });
    return Object.assign(panel, rangeOf(panel));
  }).filter(isWorthIt);
}

function addSeries(panel, run, its) {
  if (panel.kind === "feedback") {
    for (const [identifier, columns, values] of its.goals) {
      const goal = run.goals.find((it) => it[3] === identifier && it[0] === panel.name), end = goal && goal[4].find((it) => it[1] > 3);
      panel.series.push(Object.assign(new Steps(run, goalName(identifier), columns, values), { end: end ? end[0] : data.columns }));
    }
    return;
  }
  const steps = new Steps(run, "", its.columns, its.values);
  panel.series.push(steps);
  panel.depth = Math.max(panel.depth, its.depth || 0);
  for (const it of its.lost || []) panel.lost.push(panel.kind === "queue" ? { steps, place: it, value: its.depth } : { steps, place: steps.places[it[0]], value: steps.numbers[it[0]], by: it[1], at: it[0] });
}

/** The least and the greatest value of a panel. What counts something begins at 0, and a queue ends at its depth or at twice its most. */
function rangeOf(panel) {
  let low = Infinity, most = -Infinity;
  for (const { numbers, values } of panel.series)
    for (let at = 0; at < values.length; at++) {
      const value = numbers ? numbers[at] : values[at].reduce((sum, it) => sum + it, 0);
      if (value < low) low = value;
      if (value > most) most = value;
    }
  if (panel.kind !== "values" && panel.kind !== "feedback") low = Math.min(low, 0);
  if (panel.depth) most = Math.min(panel.depth, Math.max(2 * most, 2));
  return { low: low === Infinity ? 0 : low, most: most === -Infinity ? 0 : most, isEmpty: most === -Infinity };
}

/** Whether a panel has anything: queues and calls that never wait are left out. */
const isWorthIt = (panel) => !(panel.kind === "queue" || panel.kind === "waiting") || panel.lost.length > 0 || panel.series.some((it) => it.numbers.some((value) => value > 0));

/** Places the open panels from a height on, and gives where they end. */
function stackPlots(y) {
  plots.top = y;
  for (const panel of plots.panels) {
    panel.top = y;
    y += panel.high;
  }
  return y + (plots.panels.length ? 6 : 0);
}

function openPlots(names) {
  plots.open = names;
  plots.panels = names.flatMap(panelsOf);
  plots.told = "";
  for (const box of document.querySelectorAll("#names input")) box.checked = names.includes(box.value);
  fit();
}

function togglePlot(name) {
  const isOpen = plots.open.includes(name);
  if (!isOpen && !NAMED.some((it) => it.has(name))) return say(`${name} has nothing to plot`);
  openPlots(isOpen ? plots.open.filter((it) => it !== name) : [...plots.open, name]);
  say(isOpen ? `the plots of ${name} are closed` : `${plots.panels.filter((it) => it.name === name).map((it) => it.title).join(", ") || "nothing"} of ${name}`);
}

/** Opens the topics that fit into what is free of the window. */
function openFirstPlots() {
  const free = byId("picture").clientHeight - stack() - 50;
  const topics = runs[0].plots.filter(([, kind, panels]) => kind === "topics" && panels[0][2].values.length > 1).map((it) => it[0]);
  openPlots(topics.slice(0, Math.max(Math.floor(free / PLOT), 0)));
}

// ---- drawing

function valueY(panel, value) {
  const room = panel.high - 2 * PAD - 2;
  return panel.top + panel.high - PAD - (panel.most > panel.low ? (value - panel.low) / (panel.most - panel.low) : 0.5) * room;
}

function drawPlots(first, last) {
  for (const panel of plots.panels) {
    const ink = panel.kind === "values" ? view.colours.topic : panel.kind === "queue" ? view.colours.time : panel.kind === "waiting" ? view.colours.service : view.colours.action;
    for (const steps of panel.series) {
      if (panel.kind === "states") drawStates(panel, steps, first, last);
      else drawSteps(panel, steps, first, last, ink);
    }
    if (panel.depth && panel.depth <= panel.most) drawDepth(panel);
    drawLost(panel);
  }
  if (plots.cursor !== null && plots.panels.length) {
    pen.fillStyle = view.colours["chosen-ink"];
    pen.fillRect(x(plots.cursor), plots.top, 1, height - plots.top);
  }
}

/** A series as steps. Those of one pixel are one line from the least to the greatest. A second run is dashed. */
function drawSteps(panel, steps, first, last, ink) {
  let at = Math.max(steps.last(first - 1), 0), pixel = null, low = 0, most = 0, y = 0;
  const flush = (to) => {
    pen.moveTo(pixel, low); pen.lineTo(pixel, most);
    pen.moveTo(pixel, y); pen.lineTo(to, y);
  };
  pen.strokeStyle = pen.fillStyle = ink;
  pen.lineWidth = 1.5;
  pen.setLineDash(steps.run === runs[0] ? [] : [5, 3]);
  pen.beginPath();
  for (; at < steps.columns.length && steps.columns[at] <= last; at++) {
    const itsPixel = Math.round(x(steps.places[at])), itsY = valueY(panel, steps.numbers[at]);
    if (itsPixel === pixel) { low = Math.min(low, itsY); most = Math.max(most, itsY); y = itsY; continue; }
    if (pixel !== null) flush(itsPixel);
    [low, most] = pixel === null ? [itsY, itsY] : [Math.min(y, itsY), Math.max(y, itsY)];
    pixel = itsPixel;
    y = itsY;
    if (view.width > 3 && panel.kind !== "queue") pen.rect(pixel - 1, y - 1, 2, 2);
  }
  if (pixel !== null) flush(Math.max(Math.min(x(steps.end === undefined ? data.columns : steps.end), canvas.clientWidth), pixel));
  pen.stroke();
  pen.setLineDash([]);
  if (steps.label && steps.columns.length) words(steps.label, x(steps.places[0]) + 3, valueY(panel, steps.numbers[0]) - 3, view.colours.faint, PLAIN);
}

/** Goals by state, one state over the other. */
function drawStates(panel, steps, first, last) {
  const end = Math.min(x(data.columns), canvas.clientWidth), high = panel.high / runs.length;
  const scale = (high - PAD) / Math.max(panel.most, 1), base = panel.top + high * (runs.indexOf(steps.run) + 1) - 2;
  for (let at = Math.max(steps.last(first - 1), 0); at < steps.columns.length && steps.columns[at] <= last; at++) {
    const from = x(Math.max(steps.columns[at], 0)), to = at + 1 < steps.columns.length ? x(steps.columns[at + 1]) : end;
    let y = base;
    steps.values[at].forEach((count, state) => {
      pen.fillStyle = view.colours[`s${state + 1}`];
      pen.fillRect(from, y - count * scale, Math.max(to - from, 1), count * scale);
      y -= count * scale;
    });
  }
}

function drawDepth(panel) {
  const y = valueY(panel, panel.depth);
  pen.strokeStyle = view.colours.lost;
  pen.lineWidth = 1;
  pen.setLineDash([2, 3]);
  pen.beginPath();
  pen.moveTo(gutter, y);
  pen.lineTo(canvas.clientWidth, y);
  pen.stroke();
  pen.setLineDash([]);
}

/** A cross at each value that a queue lost. */
function drawLost(panel) {
  pen.strokeStyle = view.colours.lost;
  pen.lineWidth = 2;
  pen.beginPath();
  let before = null;
  for (const { place, value } of panel.lost) {
    const from = x(place), y = valueY(panel, value);
    if (from < gutter - 5 || from > canvas.clientWidth || before !== null && Math.abs(from - before) < 2) continue;
    before = from;
    pen.moveTo(from - 4, y - 4); pen.lineTo(from + 4, y + 4);
    pen.moveTo(from + 4, y - 4); pen.lineTo(from - 4, y + 4);
  }
  pen.stroke();
}

/** The left side of the panels: names, titles, and the ends of the scale. */
function drawPlotNames() {
  const colours = view.colours, most = gutter - 12;
  for (const panel of plots.panels) {
    pen.fillStyle = colours.ground;
    pen.fillRect(0, panel.top, gutter - 1, panel.high);
    pen.fillStyle = colours.rule;
    pen.fillRect(0, panel.top, canvas.clientWidth, 1);
    words(`× ${panel.name}`, 8, panel.top + 13, colours.ink, BOLD, most);
    words(panel.title, 8, panel.top + 26, colours.faint, PLAIN, most);
    if (panel.isEmpty) { words("no values", 8, panel.top + 39, colours.faint, PLAIN, most); continue; }
    pen.textAlign = "right";
    if (panel.kind !== "states") for (const [value, low] of [[panel.most, 9], [panel.low, 0]]) words(`${value}`, gutter - 4, valueY(panel, value) + low - 1, colours.faint, "9px Verdana, sans-serif");
    pen.textAlign = "left";
    if (panel.depth) words(`depth ${panel.depth}`, 8, panel.top + 39, colours.faint, PLAIN, most - 20);
  }
  showValues();
}

// ---- values

/** What a series of a panel has at a column, in words. */
function valueAt(panel, steps, column) {
  const at = steps.last(column);
  if (at < 0) return "nothing yet";
  if (panel.kind === "states") return steps.values[at].map((count, state) => (count ? `${count} ${data.states[state + 1].toLowerCase()}` : "")).filter((it) => it).join(", ") || "none";
  const count = panel.kind === "values" ? at - steps.last(column - 1) : 0;
  const lost = panel.lost.filter((it) => it.steps === steps && it.at === at).map((it) => it.by);
  const more = panel.kind === "queue" ? ` of ${panel.depth}` : `${count > 1 ? ` (the last of ${count})` : ""}${lost.length ? `, lost by ${lost.join(" and ")}` : ""}`;
  return `${steps.values[at]}${more}`;
}

/** What all open panels have at a column, as titles and values. */
function valuesAt(column) {
  return plots.panels.map((panel) => {
    const shown = panel.series.filter((it) => it.end === undefined || it.last(column) >= 0 && column < it.end);
    const said = shown.map((it) => [it.label, runs.length > 1 ? it.run.name.split("/").pop() : "", valueAt(panel, it, column)].filter((part) => part).join(": "));
    return [`${panel.name}, ${panel.title}`, said.join("\n") || "nothing"];
  });
}

/** Lists the values under the pointer, or those of the chosen round. */
function showValues() {
  const column = plots.cursor === null ? view.chosen : plots.cursor, key = `${column} ${plots.open.join()} ${byId("unit").value}`;
  if (plots.told === key) return;
  plots.told = key;
  const into = byId("values");
  into.hidden = !plots.panels.length;
  into.textContent = "";
  if (into.hidden) return;
  const list = made("dl");
  for (const [title, value] of valuesAt(column)) list.append(made("dt", title), made("dd", value));
  into.append(made("h2", `Values in ${whenOf(column)}`), list);
}

/** The panel at a height. */
const panelAt = (pixelY) => plots.panels.find((it) => pixelY >= it.top && pixelY < it.top + it.high);

// ---- what can be plotted

const NOUNS = { topics: "topic", subscriptions: "subscription", services: "service", clients: "client", actions: "action server", action_clients: "action client" };

/** The list of all that can be plotted, with a box to tick for each. It is made as it opens. */
function listNames() {
  const into = byId("names");
  if (into.childElementCount) return;
  for (const [name, kind] of runs[0].plots) {
    const label = made("label"), box = Object.assign(made("input"), { type: "checkbox", value: name, checked: plots.open.includes(name) });
    box.addEventListener("change", () => togglePlot(name));
    label.append(box, ` ${name}`, Object.assign(made("span", ` ${NOUNS[kind]}`), { className: "faint" }));
    into.append(label);
  }
}
