// Where rounds are: from left to right, with stretches in which nothing happens folded; and moments in the unit that the reader chooses.

// The measures in pixels: what is left of the rounds, the least and the greatest width of a round, and the width of a fold.
const NARROW = 0.005, WIDE = 400, FOLD = 34;
// How many empty rounds are folded at least.
const FOLDED = 6;
const UNITS = { ns: 1, us: 1e3, ms: 1e6, s: 1e9 };
let gutter = 150;

const clamp = (value, low, high) => Math.min(Math.max(value, low), high);

/** The stretches of columns in which no run has a line but `round`, as the first column and the one after the last. */
function emptyStretches() {
  const isLined = new Uint8Array(data.columns + 1), found = [];
  isLined[data.columns] = 1;
  for (const column of differing) isLined[column] = 1;
  for (const run of runs)
    for (const [column, number] of run.rounds) {
      const [begin, end] = run.linesOf(column);
      if (number === null || end - begin > 1) isLined[column] = 1;
    }
  for (let begin = 0, column = 0; column <= data.columns; column++) {
    if (!isLined[column]) continue;
    if (column - begin >= FOLDED) found.push([begin, column]);
    begin = column + 1;
  }
  return found;
}

/** The places of columns: how many columns that aren't folded come before each one, and how many folds, the parts of a fold too. */
const axis = { empty: emptyStretches(), folds: [], plain: new Float64Array(data.columns + 1), folded: new Float64Array(data.columns + 1) };

function fold() {
  axis.folds = view.isFolded ? axis.empty.filter(([begin]) => !view.unfolded.has(begin)) : [];
  let plain = 0, folded = 0, next = 0;
  for (let column = 0; column <= data.columns; column++) {
    axis.plain[column] = plain;
    axis.folded[column] = folded;
    const [begin, end] = axis.folds[next] || [data.columns + 1];
    if (column < begin) plain++;
    else if (column + 1 < end) folded += 1 / (end - begin);
    else folded = ++next;
  }
}

/** The fold that a column is in, if it is in one. */
function foldOf(column) {
  const at = firstPlace(axis.folds.length, (it) => axis.folds[it][1] > column), found = axis.folds[at];
  return found && found[0] <= column ? found : null;
}

const foldWidth = () => Math.min(FOLD, 3 * view.width);

/** The pixels from the first column to a place, which may be within a column. */
function offset(place) {
  const column = clamp(Math.floor(place), 0, data.columns - 1), part = place - column;
  const plain = axis.plain[column] + part * (axis.plain[column + 1] - axis.plain[column]);
  const folded = axis.folded[column] + part * (axis.folded[column + 1] - axis.folded[column]);
  return plain * view.width + folded * foldWidth();
}

/** The place that is so many pixels from the first column. */
function placeAt(pixels) {
  const column = Math.max(firstPlace(data.columns, (it) => offset(it) > pixels) - 1, 0), begin = offset(column);
  return column + (pixels - begin) / Math.max(offset(column + 1) - begin, 1e-9);
}

const room = () => canvas.clientWidth - gutter;
const x = (place) => gutter + offset(place) - offset(view.left);
const columnAt = (pixel) => Math.floor(placeAt(offset(view.left) + pixel - gutter));
const endOfShown = () => placeAt(offset(view.left) + room());
const shownColumns = () => Math.min(endOfShown(), data.columns) - view.left;

/** Keeps the left end where there are rounds to the right of it, as far as there are. */
function keepLeft() {
  view.left = clamp(view.left, 0, Math.max(placeAt(offset(data.columns) - room()), 0));
}

function pan(pixels) {
  view.left = placeAt(offset(view.left) + pixels);
}

/** The width of rounds with which all are shown. */
function widthOfAll() {
  const plain = axis.plain[data.columns], folds = axis.folded[data.columns];
  const width = (room() - FOLD * folds) / Math.max(plain, 1);
  return Math.min(3 * width >= FOLD ? width : room() / (plain + 3 * folds), WIDE);
}

function zoom(by, pixel) {
  const at = pixel === undefined ? clamp(x(view.chosen + 0.5), gutter, canvas.clientWidth) : pixel, place = placeAt(offset(view.left) + at - gutter);
  view.width = clamp(view.width * by, Math.min(NARROW, widthOfAll()), WIDE);
  view.left = placeAt(offset(place) - (at - gutter));
  redraw();
}

function zoomAll() {
  view.width = widthOfAll();
  view.left = 0;
  redraw();
}

function toggleFolds() {
  view.isFolded = !view.isFolded;
  view.unfolded.clear();
  refold();
}

/** Folds or unfolds, while the chosen round stays where it is. */
function refold() {
  const before = x(view.chosen);
  fold();
  view.left = placeAt(offset(view.chosen) - (before - gutter));
  byId("fold").setAttribute("aria-pressed", String(view.isFolded && !view.unfolded.size));
  redraw();
}

// ---- moments

/** A moment in the reader's unit. Moments that a number can't hold are texts. */
function momentOf(moment) {
  const unit = byId("unit").value;
  if (unit === "ticks" || typeof moment === "string") return `moment ${moment}`;
  return timeOf(moment);
}

/** A number of ticks as a time. */
function timeOf(ticks) {
  const unit = byId("unit").value;
  if (unit === "ticks") return `${ticks} tick${ticks === 1 ? "" : "s"}`;
  return `${Number((ticks * data.tick / UNITS[unit]).toPrecision(12))} ${unit}`;
}

/** A number of rounds from a column on, with the time that they take. */
function lengthOf(begin, end) {
  const run = runs.find((it) => it.roundAt.has(begin) && it.roundAt.has(end - 1));
  const count = `${end - begin} empty rounds`;
  if (!run) return count;
  const [from, to] = [begin, end - 1].map((it) => run.rounds[run.roundAt.get(it)][2]);
  return typeof from === "number" && typeof to === "number" ? `${count}, ${timeOf(to - from)}` : count;
}
