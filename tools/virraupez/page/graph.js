// Who talks to whom: the graph over the rows. A click on a shape of it selects the rows of what it is connected with.

const graph = byId("graph");

/** The rows that are selected, as Sets by run; null if all are shown alike. */
function rowsOf(names) {
  return runs.map((run) => new Set(run.rows.flatMap((row, at) => (row[4].some((it) => names.includes(it)) ? [at] : []))));
}

const isFaint = (run, row) => view.rows !== null && !view.rows[runs.indexOf(run)].has(row);

function toggleGraph() {
  graph.hidden = !graph.hidden;
  byId("graph-button").setAttribute("aria-expanded", String(!graph.hidden));
  onResize();
}

/** Selects the rows of a shape, and opens the plot of a topic; a second click selects none. */
function selectShape(shape) {
  const key = shape.dataset.key, [kind, name] = key.split(" "), isOn = shape.getAttribute("aria-pressed") === "true";
  for (const other of graph.querySelectorAll("[aria-pressed]")) other.setAttribute("aria-pressed", String(other === shape && !isOn));
  view.rows = isOn ? null : rowsOf(data.shapes[key]);
  if (!isOn && kind === "topic" && !plots.open.includes(name)) togglePlot(name);
  const first = view.rows && view.rows[0].size ? runs[0].tops[Math.min(...view.rows[0])][0] : 0;
  if (first) byId("picture").scrollTo(0, first - OVER - HEAD);
  say(isOn ? "all rows are shown alike" : `the rows of ${kind} ${name} are selected: ${data.shapes[key].join(", ")}`);
  redraw();
}

function listenToGraph() {
  for (const shape of graph.querySelectorAll(".shape")) {
    if (!data.shapes[shape.dataset.key].length) continue;
    const does = () => selectShape(shape);
    for (const [name, value] of Object.entries({ role: "button", tabindex: "0", "aria-pressed": "false", "aria-label": shape.dataset.key })) shape.setAttribute(name, value);
    shape.addEventListener("click", does);
    shape.addEventListener("keydown", (event) => {
      if (event.key !== "Enter" && event.key !== " ") return;
      event.preventDefault();
      does();
    });
  }
}
