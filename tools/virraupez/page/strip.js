// The strip over all: how much happens in each part of the run and of what kind, what was lost, the states of goals, and what is found.

const strip = { key: "", image: document.createElement("canvas") };
// The bands from the top: marks of rules and differences, of what is found, of what was lost; how much happens; and goals.
const BANDS = { marks: [1, 6], hits: [8, 4], lost: [13, 5], callbacks: [19, 24], goals: [45, 10] };

/** The strip, whose bands change with the width and the colours alone. */
function drawStrip(wide) {
  const key = `${wide} ${gutter} ${window.devicePixelRatio}`, scale = (wide - gutter) / data.columns, colours = view.colours;
  if (strip.key !== key) {
    paintStrip(wide, scale);
    strip.key = key;
  }
  pen.drawImage(strip.image, 0, 0, wide, OVER - 4);
  mark(view.hits.map(([run, number]) => runs[run].columnOf(number)), scale, colours.hit, BANDS.hits);
  pen.strokeStyle = colours.topic;
  pen.lineWidth = 2;
  pen.strokeRect(gutter + view.left * scale, 1, Math.max(Math.min(shownColumns(), data.columns) * scale, 3), OVER - 6);
  pen.strokeStyle = colours["chosen-ink"];
  pen.strokeRect(gutter + view.chosen * scale, 2, Math.max(scale, 1), OVER - 8);
}

function mark(columns, scale, colour, [top, high], ink = pen) {
  ink.fillStyle = colour;
  for (const pixel of new Set(columns.map((it) => Math.floor(gutter + it * scale)))) ink.fillRect(pixel, top, Math.max(scale, 2), high);
}

function paintStrip(wide, scale) {
  const image = strip.image, sharp = window.devicePixelRatio || 1, colours = view.colours;
  image.width = Math.round(wide * sharp);
  image.height = Math.round((OVER - 4) * sharp);
  const ink = image.getContext("2d");
  ink.setTransform(sharp, 0, 0, sharp, 0, 0);
  ink.fillStyle = colours.stripe;
  ink.fillRect(0, 0, wide, OVER - 4);
  ink.fillStyle = colours.faint;
  ink.font = PLAIN;
  ink.fillText("all rounds", 8, BANDS.callbacks[0] + 14);
  if (gutter > 100 && runs.some((it) => it.goals.length)) ink.fillText("goals", 8, BANDS.goals[0] + 9);
  const broken = data.broken.filter((it) => it[1] !== null).map(([run, number]) => runs[run].columnOf(number));
  mark([...differing, ...broken], scale, colours.lost, BANDS.marks, ink);
  paintCallbacks(ink, Math.max(Math.floor(wide - gutter), 1));
  runs.forEach((run, at) => paintGoals(ink, run, scale, at));
}

/** The callbacks of each pixel, by family one over the other, and the drops. */
function paintCallbacks(ink, pixels) {
  const counts = view.families.map(() => new Uint32Array(pixels)), wide = Math.max(pixels / data.columns, 1);
  for (const run of runs)
    for (let at = 0; at < run.count; at++) counts[run.boxes[at * 5 + 4]][Math.min(Math.floor(run.boxes[at * 5] * pixels / data.columns), pixels - 1)]++;
  let most = 1;
  for (let pixel = 0; pixel < pixels; pixel++) most = Math.max(most, counts[0][pixel] + counts[1][pixel] + counts[2][pixel] + counts[3][pixel]);
  const [top, high] = BANDS.callbacks;
  for (let pixel = 0; pixel < pixels; pixel++) {
    let y = top + high;
    for (let family = 0; family < LOST; family++) {
      const part = high * counts[family][pixel] / most;
      ink.fillStyle = view.families[family];
      ink.fillRect(gutter + pixel, y - part, wide, part);
      y -= part;
    }
    if (!counts[LOST][pixel]) continue;
    ink.fillStyle = view.colours.lost;
    ink.fillRect(gutter + pixel, BANDS.lost[0], Math.max(wide, 2), BANDS.lost[1]);
  }
}

/** The states of goals; those of a second run are below those of the first. */
function paintGoals(ink, run, scale, at) {
  const [top, high] = BANDS.goals, part = high / (runs.length * Math.max(run.lanes.length, 1));
  for (const goal of run.goals)
    for (const [begin, end, status] of stateSpans(goal)) {
      const y = top + (at * run.lanes.length + run.laneAt.get(`${goal[0]} ${goal[1]}`)) * part;
      ink.fillStyle = view.colours[`s${status}`];
      ink.fillRect(gutter + begin * scale, y, Math.max((end - begin) * scale, 1), Math.max(part, 1));
    }
}
