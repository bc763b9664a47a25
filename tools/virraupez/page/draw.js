// The places of what is drawn, and how it is drawn: the heads of rounds, callback groups with their callbacks, and lines between them.

// The measures in pixels: the strip over all, the heads of columns, a gap, a lane of goals, and the line of a name.
const OVER = 62, HEAD = 34, GAP = 3, LANE = 20, NAME = 13, NAMES_AT_MOST = 6;
const BOLD = "bold 11px Verdana, sans-serif", PLAIN = "10px Verdana, sans-serif";
const MARKS = { 4: "✓", 5: "■", 6: "✗" };
const LOST = 4;
let height = 0;

// ---- places

/** Places the rows, the lanes of goals and the plots, from the top, and gives the height of all. */
function stack() {
  let y = OVER + HEAD;
  for (const run of runs) {
    run.top = y;
    if (runs.length > 1) y += 22;
    run.tops = run.rows.map(([, , , deepest, names]) => {
      const top = y, high = deepest > 24 ? 4 : deepest > 8 ? 9 : 17;
      y += Math.max(deepest * (high + 2) + 2 * GAP, 34 + NAME * Math.min(names.length, NAMES_AT_MOST));
      return [top, high];
    });
    run.laneTop = y + 6;
    y += run.lanes.length * LANE + (run.lanes.length ? 22 : 10);
    run.bottom = y;
  }
  return stackPlots(y + 4);
}

function boxPlace(run, at) {
  const [top, high] = run.tops[run.boxes[at * 5 + 1]];
  const inset = Math.min(view.width * 0.08, 6);
  return [x(run.boxes[at * 5]) + inset, top + GAP + run.boxes[at * 5 + 2] * (high + 2), Math.max(view.width - 2 * inset, 1), high];
}

function boxAt(pixelX, pixelY) {
  const column = columnAt(pixelX);
  for (const run of runs) {
    for (let at = run.firstBox(column); at < run.count && run.boxes[at * 5] === column; at++) {
      const [begin, top, wide, high] = boxPlace(run, at);
      if (pixelX >= begin - 2 && pixelX <= begin + wide + 2 && pixelY >= top - 1 && pixelY <= top + high + 1) return [run, at];
    }
  }
  return null;
}

/** The entity whose name is at a place of the left side, or the name of a plot. */
function nameAt(pixelX, pixelY) {
  if (pixelX >= gutter) return null;
  const panel = panelAt(pixelY);
  if (panel) return panel.name;
  for (const run of runs)
    for (const [row, [top]] of run.tops.entries()) {
      const at = Math.floor((pixelY - top - 32) / NAME);
      if (at >= 0 && at < Math.min(run.rows[row][4].length, NAMES_AT_MOST)) return run.rows[row][4][at];
    }
  return null;
}

// ---- drawing

function readColours() {
  const style = getComputedStyle(document.documentElement);
  for (const name of ["ground", "ink", "faint", "stripe", "rule", "chosen", "chosen-ink", "time", "topic", "service", "action", "lost", "hit", "on", "s1", "s2", "s3", "s4", "s5", "s6"])
    view.colours[name] = style.getPropertyValue(`--${name}`).trim();
  view.families = ["time", "topic", "service", "action", "lost"].map((it) => view.colours[it]);
  strip.key = "";
}

/** Gives the picture the size of its window. */
function fit() {
  const wide = Math.max(byId("picture").clientWidth, 200);
  gutter = wide < 500 ? 92 : 150;
  height = stack();
  const sharp = Math.min(window.devicePixelRatio || 1, 16000 / height);
  canvas.style.width = `${wide}px`;
  canvas.style.height = `${height}px`;
  canvas.width = Math.round(wide * sharp);
  canvas.height = Math.round(height * sharp);
  pen.setTransform(sharp, 0, 0, sharp, 0, 0);
  redraw();
}

let isAsked = false;
function redraw() {
  if (isAsked) return;
  isAsked = true;
  requestAnimationFrame(() => { isAsked = false; draw(); });
}

function words(text, begin, top, colour, font, most) {
  pen.fillStyle = colour;
  pen.font = font;
  if (most && pen.measureText(text).width > most) {
    const signs = Math.floor(text.length * most / pen.measureText(text).width) - 1;
    if (signs < 2) return;
    text = `${text.slice(0, signs)}…`;
  }
  pen.fillText(text, begin, top);
}

function draw() {
  const wide = canvas.clientWidth;
  keepLeft();
  pen.fillStyle = view.colours.ground;
  pen.fillRect(0, 0, wide, height);
  const first = Math.max(Math.floor(view.left), 0), last = Math.min(Math.ceil(endOfShown()), data.columns - 1);
  pen.save();
  pen.beginPath();
  pen.rect(gutter, OVER, wide - gutter, height);
  pen.clip();
  drawHeads(first, last);
  drawFolds(first, last);
  drawChosen(first, last);
  for (const run of runs) {
    drawBoxes(run, first, last);
    drawGoals(run, first, last);
  }
  drawPlots(first, last);
  drawLinks();
  pen.restore();
  runs.forEach(drawRows);
  drawPlotNames();
  drawStrip(wide);
}

/** The heads of columns, with stripes: every so many rounds, and after a fold. Heads that would touch the one before are left out. */
function drawHeads(first, last) {
  const colours = view.colours, every = [1, 2, 5, 10, 20, 50, 100, 200, 500, 1000, 2000, 5000, 10000, 20000].find((it) => it * view.width >= 66) || 50000;
  const heads = [...axis.folds.filter(([, end]) => end > first && end <= last).map(([, end]) => end)];
  for (let column = first - (first % every); column <= last; column += every) {
    if (!foldOf(column)) heads.push(column);
    if ((column / every) % 2 === 0) continue;
    pen.fillStyle = colours.stripe;
    pen.fillRect(x(column), OVER, x(Math.min(column + every, data.columns)) - x(column), height);
  }
  let free = -Infinity;
  for (const column of heads.sort((one, other) => one - other)) {
    const run = runs.find((it) => it.roundAt.has(column)), round = run && run.rounds[run.roundAt.get(column)];
    if (!round || x(column) < free) continue;
    free = x(column) + 66;
    words(round[1] === null ? "at the end" : every === 1 ? `round ${round[1]}` : `${round[1]}`, x(column) + 3, OVER + 13, colours.ink, BOLD, 64);
    if (round[1] !== null) words(momentOf(round[2]).replace("moment", "at"), x(column) + 3, OVER + 26, colours.faint, PLAIN, 62);
  }
}

/** Folds, hatched, with the number of the rounds in them. */
function drawFolds(first, last) {
  const wide = foldWidth(), top = OVER + HEAD;
  if (wide < 2) return;
  for (const [begin, end] of axis.folds) {
    if (end < first || begin > last) continue;
    const from = x(begin);
    pen.fillStyle = view.colours.stripe;
    pen.fillRect(from, top, wide, height);
    pen.strokeStyle = view.colours.rule;
    pen.lineWidth = 1;
    pen.beginPath();
    for (let y = top; y < height; y += 12) { pen.moveTo(from, y + 12); pen.lineTo(from + wide, y); }
    pen.stroke();
    if (wide < 11) continue;
    pen.save();
    pen.translate(from + wide / 2 + 4, top + 6);
    pen.rotate(Math.PI / 2);
    const says = lengthOf(begin, end);
    pen.font = PLAIN;
    pen.fillStyle = view.colours.ground;
    pen.fillRect(-3, -2, pen.measureText(says).width + 6, 12);
    words(says, 0, 8, view.colours.faint, PLAIN);
    pen.restore();
  }
}

/** The column that is chosen, and those that differ. */
function drawChosen(first, last) {
  const colours = view.colours, wide = Math.max(x(view.chosen + 1) - x(view.chosen), 2);
  pen.fillStyle = colours.chosen;
  pen.globalAlpha = 0.75;
  pen.fillRect(x(view.chosen), OVER + HEAD - 4, wide, height);
  pen.globalAlpha = 1;
  pen.strokeStyle = colours["chosen-ink"];
  pen.lineWidth = 2;
  pen.strokeRect(x(view.chosen), OVER + 1, wide, height - OVER - 2);
  pen.fillStyle = colours.lost;
  for (const column of differing)
    if (column >= first && column <= last) pen.fillRect(x(column), OVER + HEAD - 4, Math.max(view.width, 1), 3);
  if (differing.length && differing[0] >= first && differing[0] <= last) {
    const begin = x(differing[0]);
    pen.fillRect(begin - 1, OVER, 3, height);
    words("first difference", begin + 5, OVER + HEAD + 13, colours.lost, BOLD);
  }
}

function drawRows(run) {
  const colours = view.colours, most = gutter - 12;
  pen.fillStyle = colours.ground;
  pen.fillRect(0, run.top, gutter - 1, run.bottom - run.top + 4);
  if (runs.length > 1) words(run.name, 8, run.top + 15, colours.topic, "bold 12px Verdana, sans-serif", most);
  run.rows.forEach(([node, group, kind, , names], at) => {
    const [top] = run.tops[at];
    pen.fillStyle = colours.rule;
    pen.fillRect(0, top, canvas.clientWidth, 1);
    if (view.rows && !isFaint(run, at)) {
      pen.fillStyle = colours.chosen;
      pen.fillRect(0, top + 1, gutter - 1, (run.tops[at + 1] || [run.laneTop - 6])[0] - top - 1);
    }
    words(node, 8, top + 14, colours.ink, BOLD, most);
    words(group ? `${group} (${kind})` : "default group", 8, top + 28, colours.faint, PLAIN, most);
    names.slice(0, NAMES_AT_MOST).forEach((name, place) => {
      const isMore = place === NAMES_AT_MOST - 1 && names.length > NAMES_AT_MOST;
      words(isMore ? `${name}, and ${names.length - NAMES_AT_MOST} more` : name, 16, top + 42 + place * NAME, colours.topic, PLAIN, most - 8);
    });
  });
  run.lanes.forEach(([server], at) => {
    if (at === 0 || run.lanes[at - 1][0] !== server) words(`goals of ${server}`, 8, run.laneTop + at * LANE + 13, colours.ink, BOLD, most);
  });
}

const colourOf = (run, at) => view.families[run.boxes[at * 5 + 4]];

function drawBoxes(run, first, last) {
  const end = run.firstBox(last + 1);
  // Of boxes of a row and a place in it on one pixel the first is drawn.
  const drawn = new Map();
  for (let at = run.firstBox(first); at < end; at++) {
    const [begin, top, wide, high] = boxPlace(run, at), colour = colourOf(run, at);
    if (view.width < 1) {
      const pixel = Math.round(begin);
      if (drawn.get(top) === pixel && run.boxes[at * 5 + 4] !== LOST) continue;
      drawn.set(top, pixel);
    }
    pen.globalAlpha = isFaint(run, run.boxes[at * 5 + 1]) ? 0.25 : 1;
    pen.fillStyle = view.width < 9 ? colour : view.colours.ground;
    pen.fillRect(begin, top, wide, high);
    if (view.width >= 9) drawBox(run, at, [begin, top, wide, high], colour);
  }
  pen.globalAlpha = 1;
}

/** A box that has room for a rim: its cross if it is a drop, and its value and name as far as there is room. */
function drawBox(run, at, [begin, top, wide, high], colour) {
  const isLit = view.box && view.box[0] === run && view.box[1] === at, isDrop = run.boxes[at * 5 + 4] === LOST;
  pen.strokeStyle = colour;
  pen.lineWidth = isLit ? 3.5 : 1.5;
  pen.strokeRect(begin, top, wide, high);
  if (isDrop) {
    pen.beginPath();
    pen.moveTo(begin + 3, top + 3); pen.lineTo(begin + 9, top + Math.min(high, 12) - 3);
    pen.moveTo(begin + 9, top + 3); pen.lineTo(begin + 3, top + Math.min(high, 12) - 3);
    pen.stroke();
  }
  if (isOtherBox(run, at)) {
    pen.fillStyle = view.colours.lost;
    pen.fillRect(begin, top + high - 3, wide, 4);
  }
  if (wide < 16 || high <= 10) return;
  const inset = isDrop ? 12 : 4, says = saidOn(run.head(at).split(" "), isDrop);
  pen.font = PLAIN;
  const fits = says.find((it) => pen.measureText(it).width <= wide - inset - 2);
  words(fits || says[says.length - 1], begin + inset, top + 12, view.colours.ink, PLAIN, wide - inset - 1);
}

/** What a box may say, the longest first: the value that it took before its name. A goal's callback has its goal, and a timer no value. */
function saidOn([, entity, kind, value, , id], isDrop) {
  const took = kind === "poll" || kind === "ask" ? goalName(id || "") : kind === "timer" ? "" : value;
  const all = isDrop ? [`${value} lost by ${entity}`, `${value} ${entity}`, value] : [`${took} ${entity} ${kind}`, `${took} ${entity}`, took || entity];
  return all.map((it) => it.trim());
}

/** The lines of messages: those of the callback under the pointer, or of the one that is chosen, or those that lead to the chosen round. */
function drawLinks() {
  const lit = view.hover || view.box;
  if (lit) {
    const [run, at] = lit;
    if (run.into.has(at)) link(run, run.into.get(at), at);
    for (const taker of run.outOf.get(at) || []) link(run, at, taker);
    return;
  }
  for (const run of runs)
    for (let at = run.firstBox(view.chosen); at < run.count && run.boxes[at * 5] === view.chosen; at++)
      if (run.into.has(at)) link(run, run.into.get(at), at);
}

function link(run, sender, taker) {
  const [end, top, , high] = boxPlace(run, taker), y = top + high / 2, isDrop = run.boxes[taker * 5 + 4] === LOST;
  let from = [gutter - 4, y];
  if (sender === -1) from = [x(run.boxes[taker * 5]) + 2, run.top - 2];
  if (sender >= 0) {
    const [itsLeft, itsTop, itsWide, itsHigh] = boxPlace(run, sender);
    from = [itsLeft + itsWide, itsTop + itsHigh / 2];
  }
  pen.strokeStyle = pen.fillStyle = colourOf(run, taker);
  pen.lineWidth = 2;
  pen.setLineDash(sender === -1 ? [2, 3] : isDrop ? [6, 3] : []);
  pen.beginPath();
  pen.moveTo(...from);
  const bend = Math.max((end - from[0]) / 2, 12);
  pen.bezierCurveTo(from[0] + bend, from[1], end - bend, y, end, y);
  pen.stroke();
  pen.setLineDash([]);
  pen.beginPath();
  pen.moveTo(end, y); pen.lineTo(end - 6, y - 4); pen.lineTo(end - 6, y + 4);
  pen.fill();
}
