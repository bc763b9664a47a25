// What a person does: keys, buttons and the pointer; and how the page begins.

// ---- keys

const KEYS = {
  ArrowLeft: () => along(-1), ArrowRight: () => along(1),
  PageUp: () => choose(view.chosen - 10), PageDown: () => choose(view.chosen + 10),
  Home: () => choose(0), End: () => choose(data.columns - 1),
  ArrowUp: () => step(-1), ArrowDown: () => step(1), Escape: () => choose(view.chosen),
};
const SHIFTED = { ArrowLeft: () => follow(-1), ArrowRight: () => follow(1) };
const EVERYWHERE = {
  "+": () => zoom(1.5), "=": () => zoom(1.5), "-": () => zoom(1 / 1.5), 0: zoomAll, "/": () => byId("words").focus(),
  n: () => goToHit(1), N: () => goToHit(-1), d: () => nextDifference(1), D: () => nextDifference(-1), f: toggleFolds, p: plotChosen, g: toggleGraph,
};

/** Opens the plots of the chosen callback's entity, or closes them. */
function plotChosen() {
  if (!view.box) return say("no callback is chosen: ↑ and ↓ choose one");
  togglePlot(view.box[0].head(view.box[1]).split(" ")[1]);
}

function onKey(event) {
  const isWriting = event.target === byId("words");
  if (event.ctrlKey || event.metaKey || event.altKey) return;
  if (isWriting && event.key === "Escape") { canvas.focus(); return event.preventDefault(); }
  // Nothing has the focus when the page opens: the keys are the picture's then.
  const isOfPicture = event.target === canvas || event.target === document.body;
  const isOfField = isWriting || ["SELECT", "INPUT"].includes(event.target.tagName);
  const does = isOfField ? null : isOfPicture && (event.shiftKey && SHIFTED[event.key] || KEYS[event.key]) || EVERYWHERE[event.key];
  if (!does) return;
  event.preventDefault();
  does();
}

// ---- the pointer

// Where the buttons or fingers are that are down, by their pointers, and how far two fingers were from one another.
const touches = new Map();
let apart = 0;

/** Zooms by two fingers; whether there are two. */
function pinch() {
  if (touches.size < 2) return false;
  const [one, other] = touches.values(), distance = Math.max(Math.abs(one - other), 1);
  if (apart) zoom(distance / apart, Math.max((one + other) / 2, gutter));
  apart = distance;
  view.dragged = null;
  return true;
}

function onMove(event) {
  const [pixelX, pixelY] = [event.offsetX, event.offsetY];
  if (touches.has(event.pointerId)) touches.set(event.pointerId, pixelX);
  if (pinch()) return;
  if (view.dragged) {
    view.dragged.moved = view.dragged.moved || Math.abs(pixelX - view.dragged.at) > 3;
    view.left = placeAt(view.dragged.from - (pixelX - view.dragged.at));
    return redraw();
  }
  const found = pixelX > gutter && pixelY > OVER ? boxAt(pixelX, pixelY) : null;
  const cursor = pixelX > gutter && pixelY > OVER ? clamp(columnAt(pixelX), 0, data.columns - 1) : null;
  if (cursor !== plots.cursor) { plots.cursor = cursor; redraw(); }
  canvas.style.cursor = nameAt(pixelX, pixelY) ? "pointer" : "";
  const isSame = found ? view.hover && found[0] === view.hover[0] && found[1] === view.hover[1] : !view.hover;
  if (!isSame) { view.hover = found; redraw(); }
  const says = found ? boxTip(...found) : goalAt(pixelX, pixelY) || plotTip(pixelX, pixelY) || foldTip(pixelX, pixelY);
  tip.hidden = !says;
  if (!says) return;
  tip.textContent = says;
  tip.style.left = `${clamp(pixelX + 14, 0, Math.max(canvas.clientWidth - 470, 0))}px`;
  tip.style.top = `${pixelY + 18}px`;
}

function plotTip(pixelX, pixelY) {
  const panel = panelAt(pixelY);
  if (!panel || plots.cursor === null) return null;
  const [title, value] = valuesAt(plots.cursor)[plots.panels.indexOf(panel)];
  return `${title}: ${value}\nin ${whenOf(plots.cursor)}`;
}

function foldTip(pixelX, pixelY) {
  const found = pixelX > gutter && pixelY > OVER ? foldOf(columnAt(pixelX)) : null;
  return found && `${lengthOf(...found)}\nfrom ${runs[0].when(found[0])}\na click unfolds them`;
}

function onDown(event) {
  if (event.offsetY < OVER && event.offsetX > gutter) {
    const column = Math.floor((event.offsetX - gutter) * data.columns / room());
    view.left = placeAt(offset(column) - room() / 2);
    return choose(column);
  }
  touches.set(event.pointerId, event.offsetX);
  canvas.setPointerCapture(event.pointerId);
  if (!pinch()) view.dragged = { at: event.offsetX, from: offset(view.left), moved: false };
}

/** Forgets a finger that is up, or that the browser took for scrolling. */
function onRelease(event) {
  touches.delete(event.pointerId);
  apart = 0;
}

function onUp(event) {
  onRelease(event);
  const was = view.dragged;
  view.dragged = null;
  if (!was || was.moved) return;
  const name = nameAt(event.offsetX, event.offsetY);
  if (name) return togglePlot(name);
  if (event.offsetX < gutter) return;
  const column = columnAt(event.offsetX), found = foldOf(column);
  if (found) {
    view.unfolded.add(found[0]);
    refold();
  }
  choose(column, boxAt(event.offsetX, event.offsetY));
}

function onLeave() {
  view.hover = plots.cursor = null;
  tip.hidden = true;
  redraw();
}

function onWheel(event) {
  if (!event.ctrlKey && !event.shiftKey && !event.deltaX) return;
  event.preventDefault();
  if (event.ctrlKey) return zoom(Math.exp(-event.deltaY / 300), Math.max(event.offsetX, gutter));
  pan(event.deltaX || event.deltaY);
  redraw();
}

// ---- the begin

function legend() {
  const parts = data.legend.map(([family, says]) => Object.assign(made("b", says), { style: `border-color: var(--${family})` }));
  if (runs.some((it) => it.goals.length)) for (const [status, name] of Object.entries(data.states)) parts.push(Object.assign(made("b", `${name.toLowerCase()} ${MARKS[status] || ""}`), { style: `border-color: var(--s${status})` }));
  byId("legend").append(...parts);
}

/** The units in which moments may be said. */
function units() {
  const menu = byId("unit"), names = ["ticks", ...(data.tick ? Object.keys(UNITS).filter((it) => data.tick / UNITS[it] <= 1e6) : [])];
  menu.append(...names.map((it) => made("option", it)));
  menu.value = data.tick ? "s" : "ticks";
  byId("units").hidden = !data.tick;
  menu.addEventListener("change", () => choose(view.chosen, view.box, view.line));
}

/** The rules that are broken, each with a button that goes to the line. */
function showRules() {
  const into = byId("rules");
  into.hidden = data.rules === null;
  if (into.hidden) return;
  into.append(made("h2", data.broken.length ? `${data.broken.length} of ${data.rules} rules ${data.broken.length === 1 ? "is" : "are"} broken` : `All ${data.rules} rules hold`));
  for (const [at, number, rule, says] of data.broken) {
    const run = runs[at];
    if (number === null) into.append(made("p", `${rule}: ${says}`));
    else into.append(chooser(`${rule}: ${says}`, () => choose(run.columnOf(number), boxOrNone(run, number), at === 0 ? number : null)));
  }
}

function listen() {
  document.addEventListener("keydown", onKey);
  for (const [name, does] of Object.entries({ pointermove: onMove, pointerdown: onDown, pointerup: onUp, pointercancel: onRelease, pointerleave: onLeave, wheel: onWheel })) canvas.addEventListener(name, does, { passive: false });
  byId("words").addEventListener("input", search);
  byId("find").addEventListener("submit", (event) => { event.preventDefault(); goToHit(1); });
  const buttons = { before: () => goToHit(-1), in: () => zoom(1.5), out: () => zoom(1 / 1.5), all: zoomAll, fold: toggleFolds, "graph-button": toggleGraph, differ: () => nextDifference(1) };
  for (const [id, does] of Object.entries(buttons)) byId(id).addEventListener("click", does);
  listenToGraph();
  byId("plots").addEventListener("toggle", listNames);
  window.addEventListener("resize", onResize);
  window.addEventListener("hashchange", goToLink);
  matchMedia("(prefers-color-scheme: dark)").addEventListener("change", () => { readColours(); redraw(); });
}

/** Keeps all rounds in the window, if all were in it. */
function onResize() {
  const isAll = view.width <= view.all * 1.001;
  fit();
  view.all = widthOfAll();
  if (isAll) zoomAll();
}

function chooseFirst() {
  if (goToLink()) return;
  if (differing.length) return choose(differing[0]);
  const [run, number, says] = firstSight() || [];
  if (!run) return choose(0);
  choose(run.columnOf(number), boxOrNone(run, number), run === runs[0] ? number : null);
  byId("why").textContent = says;
}

function begin() {
  const lines = runs.map((it) => it.starts.length - 1).reduce((sum, it) => sum + it, 0);
  byId("title").textContent = data.title;
  canvas.setAttribute("aria-label", `Round of ${data.title}, with ${lines} lines`);
  byId("differ").hidden = runs.length < 2;
  byId("fold").hidden = !axis.empty.length;
  if (runs.length > 1 && !differing.length) byId("differ").textContent = "No difference";
  readColours();
  legend();
  units();
  showRules();
  listen();
  fold();
  fit();
  if (data.plotted) openPlots(data.plotted);
  else openFirstPlots();
  view.width = view.all = widthOfAll();
  chooseFirst();
  draw();
}
begin();
