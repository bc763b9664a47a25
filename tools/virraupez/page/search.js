// Search: by a part of a line, and by its word, its entity or topic, and its value.

const lower = runs.map(() => null);
// Which word of a line is its value, by its first word.
const VALUE_AT = { run: 3, drop: 3, pub: 2, call: 3, reply: 2, goal: 3, cancel: 3, log: 2, feedback: 3, decide: 3, state: 3, code: 2, result: 4, pending: 2 };
const MEETS = {
  "": (one, other) => one === other, "=": (one, other) => one === other,
  ">": (one, other) => one > other, ">=": (one, other) => one >= other, "<": (one, other) => one < other, "<=": (one, other) => one <= other,
};

/** What is sought: a part of lines, and what their fields must be. */
function sought() {
  const fields = {}, rest = [];
  for (const part of byId("words").value.toLowerCase().split(" ")) {
    const [, name, value] = /^(word|entity|value):(.+)$/.exec(part) || [];
    if (name) fields[name] = value;
    else rest.push(part);
  }
  const isField = Object.keys(fields).length > 0;
  return { text: isField ? rest.join(" ").trim() : rest.join(" "), fields, isField };
}
const soughtText = () => sought().text;

/** Whether the fields of a line are those that are sought. */
function hasFields(line, { word, entity, value }) {
  const words = line.split(" ");
  if (word && words[0] !== word || entity && (words[0] === "round" || words[1] !== entity)) return false;
  if (!value) return true;
  const [, sign, number] = /^(>=|<=|>|<|=|)(-?[0-9]+)$/.exec(value) || [], its = words[VALUE_AT[words[0]]];
  return number !== undefined && its !== undefined && MEETS[sign](BigInt(its), BigInt(number));
}

/** The numbers of the lines of a run that are sought. */
function linesFound(run, at, { text, fields, isField }) {
  lower[at] = lower[at] || run.text.toLowerCase();
  const found = [];
  let line = 0;
  for (let place = lower[at].indexOf(text); place >= 0 && line < run.starts.length - 1; place = lower[at].indexOf(text, run.starts[line + 1])) {
    while (run.starts[line + 1] <= place) line++;
    if (line >= run.starts.length - 1) break;
    if (!isField || hasFields(lower[at].slice(run.starts[line], run.starts[line + 1] - 1), fields)) found.push(run.base + line);
  }
  return found;
}

function search() {
  const wanted = sought();
  view.hits = [];
  view.hit = -1;
  if (wanted.text || wanted.isField) {
    view.hits = runs.flatMap((run, at) => linesFound(run, at, wanted).map((number) => [at, number]));
    if (runs.length > 1) view.hits.sort((one, other) => runs[one[0]].columnOf(one[1]) - runs[other[0]].columnOf(other[1]) || one[0] - other[0] || one[1] - other[1]);
  }
  byId("hits").textContent = wanted.text || wanted.isField ? countedHits() : "";
  showLines();
  redraw();
}

const countedHits = () => (view.hits.length === 1 ? "1 line" : `${view.hits.length} lines`);

function goToHit(by) {
  if (!view.hits.length) return;
  if (view.hit < 0) {
    const at = view.hits.findIndex(([run, number]) => runs[run].columnOf(number) >= view.chosen);
    view.hit = by > 0 ? (at < 0 ? 0 : at) : ((at < 0 ? view.hits.length : at) - 1 + view.hits.length) % view.hits.length;
  } else view.hit = (view.hit + by + view.hits.length) % view.hits.length;
  const [at, number] = view.hits[view.hit], run = runs[at];
  choose(run.columnOf(number), boxOrNone(run, number), at === 0 ? number : null);
  byId("hits").textContent = `${view.hit + 1} of ${countedHits()}`;
  say(run.line(number));
}
