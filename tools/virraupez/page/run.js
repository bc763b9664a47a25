"use strict";
// What is drawn: data.runs, each with its rows, rounds, boxes, links and goals. A column has a round of each run, or of one of them.
const data = JSON.parse(document.getElementById("data").textContent);
const byId = (id) => document.getElementById(id);
const canvas = byId("run"), pen = canvas.getContext("2d"), tip = byId("tip");
const view = { left: 0, width: 1, chosen: 0, box: null, line: null, hover: null, hits: [], hit: -1, colours: {}, dragged: null, rows: null, isFolded: true, unfolded: new Set() };

/** A run with what is looked up in it. A box has five numbers: its column, row, place in the row, line, and family. */
function Run(given) {
  Object.assign(this, given);
  this.boxes = Int32Array.from(given.boxes);
  this.links = Int32Array.from(given.links);
  this.count = this.boxes.length / 5;
  this.base = this.rounds.length ? this.rounds[0][3] : 1;
  this.starts = startsOf(this.text);
  this.roundAt = new Map(this.rounds.map((it, place) => [it[0], place]));
  this.into = new Map();
  this.outOf = new Map();
  for (let at = 0; at < this.links.length; at += 2) {
    const taker = this.links[at], sender = this.links[at + 1];
    this.into.set(taker, sender);
    if (sender < 0) continue;
    if (this.outOf.has(sender)) this.outOf.get(sender).push(taker);
    else this.outOf.set(sender, [taker]);
  }
  this.lanes = lanesOf(this.goals);
  this.laneAt = new Map(this.lanes.map((it, place) => [`${it[0]} ${it[1]}`, place]));
}

/** Where each line of a text begins, and where the text ends. */
function startsOf(text) {
  let count = 1;
  for (let place = text.indexOf("\n"); place >= 0; place = text.indexOf("\n", place + 1)) count++;
  const starts = new Int32Array(count);
  for (let at = 1, place = text.indexOf("\n"); place >= 0; place = text.indexOf("\n", place + 1)) starts[at++] = place + 1;
  return starts;
}

/** The lanes of goals, as servers with numbers, in order. */
function lanesOf(goals) {
  const lanes = new Map(goals.map(([server, lane]) => [`${server} ${lane}`, [server, lane]]));
  return [...lanes.values()].sort((one, other) => (one[0] < other[0] ? -1 : one[0] > other[0] ? 1 : one[1] - other[1]));
}

/** The first place from 0 to a count at which something is so, if it is so at all later ones too. */
function firstPlace(count, isSo) {
  let low = 0, high = count;
  while (low < high) {
    const middle = (low + high) >> 1;
    if (isSo(middle)) high = middle;
    else low = middle + 1;
  }
  return low;
}

Run.prototype.line = function (number) {
  const at = number - this.base;
  return this.text.slice(this.starts[at], this.starts[at + 1] - 1);
};
Run.prototype.has = function (number) {
  return number >= this.base && number < this.base + this.starts.length - 1;
};
/** The number of the line that has a place of the text. */
Run.prototype.lineAt = function (place) {
  return this.base + firstPlace(this.starts.length, (at) => this.starts[at] > place) - 1;
};
/** The first box of a column or of one after it. Boxes are in the order of their lines. */
Run.prototype.firstBox = function (column) {
  return firstPlace(this.count, (at) => this.boxes[at * 5] >= column);
};
/** The lines of a column, as their first number and the one after the last. */
Run.prototype.linesOf = function (column) {
  const place = this.roundAt.get(column);
  if (place === undefined) return null;
  const next = this.rounds[place + 1];
  return [this.rounds[place][3], next ? next[3] : this.base + this.starts.length - 1];
};
/** The column of a line. */
Run.prototype.columnOf = function (number) {
  return this.rounds[firstPlace(this.rounds.length, (at) => this.rounds[at][3] > number) - 1][0];
};
/** The box of the callback that wrote a line, or -1. */
Run.prototype.boxOf = function (number) {
  const at = firstPlace(this.count, (it) => this.boxes[it * 5 + 3] > number) - 1;
  return at >= 0 && this.boxes[at * 5] === this.columnOf(number) ? at : -1;
};
/** The first line of a box. */
Run.prototype.head = function (at) {
  return this.line(this.boxes[at * 5 + 3]);
};
/** The lines of a box, as their first number and the one after the last. */
Run.prototype.linesOfBox = function (at) {
  const end = this.linesOf(this.boxes[at * 5])[1];
  return [this.boxes[at * 5 + 3], at + 1 < this.count ? Math.min(this.boxes[at * 5 + 8], end) : end];
};
Run.prototype.when = function (column) {
  const place = this.roundAt.get(column);
  if (place === undefined) return "";
  const [, number, moment] = this.rounds[place];
  return number === null ? "after the last round" : `round ${number} at ${momentOf(moment)}`;
};

const runs = data.runs.map((it) => new Run(it));
const differs = new Map(data.differ);
const differing = data.differ.map((it) => it[0]);
