// Goals: their names, the bars of their states, and what the pointer finds of them.

/** The name of a goal: the number of its action client and its own, as 1.2, or the end of an identifier that was fed. */
function goalName(identifier) {
  if (/^[0-]+$/.test(identifier)) return "none";
  const [, client, own] = /^([0-9a-f]{8}-[0-9a-f]{4}-[0-9a-f]{4})-([0-9a-f]{4}-[0-9a-f]{12})$/.exec(identifier) || [];
  if (!client) return "";
  const [number, its] = [client, own].map((it) => BigInt(`0x${it.replace(/-/g, "")}`));
  return number > 0n && number <= BigInt(data.entities) ? `${number}.${its}` : `…${identifier.slice(-4)}`;
}

/** Where each state of a goal begins and ends: states of one column share it. */
function stateSpans(goal) {
  const [, , , , states, , expired] = goal, end = expired === null ? data.columns : expired;
  const count = (column) => states.filter((it) => it[0] === column).length;
  const begins = states.map(([column], at) => (column < 0 ? 0 : column + (states.slice(0, at).filter((it) => it[0] === column).length + 1) / (count(column) + 1)));
  return states.map(([, status], at) => [begins[at], at + 1 < states.length ? begins[at + 1] : end, status]);
}

const laneOf = (run, goal) => run.laneTop + run.laneAt.get(`${goal[0]} ${goal[1]}`) * LANE;

function drawGoals(run, first, last) {
  for (const goal of run.goals) {
    const [, , name, , states, feedback, expired] = goal, top = laneOf(run, goal);
    if (states[0][0] > last || expired !== null && expired < first) continue;
    for (const span of stateSpans(goal)) drawState(span, top);
    if (view.width < 3) continue;
    pen.fillStyle = view.colours.ink;
    for (const [column] of feedback) {
      pen.beginPath();
      pen.arc(x(column + 0.5), top + 17, 2.5, 0, 7);
      pen.fill();
    }
    words(name, x(states[0][0] < 0 ? 0 : states[0][0] + 1 / 3) - 24, top + 12, view.colours.faint, PLAIN);
  }
}

function drawState([begin, end, status], top) {
  const from = Math.max(x(begin), gutter - 5), wide = Math.max(Math.min(x(end), canvas.clientWidth + 5) - from, 2), high = MARKS[status] ? 10 : 16;
  if (from > canvas.clientWidth || x(end) < gutter) return;
  pen.fillStyle = view.colours[`s${status}`];
  pen.fillRect(from, top + (16 - high) / 2, wide, high);
  // Pale colours have a rim that stands out from the ground.
  pen.strokeStyle = view.colours.faint;
  pen.lineWidth = 0.75;
  pen.strokeRect(from, top + (16 - high) / 2, wide, high);
  const says = `${MARKS[status] || ""} ${data.states[status].toLowerCase()}`.trim();
  words(wide > 70 ? says : MARKS[status] || "", Math.max(from, gutter) + 3, top + 12, view.colours.on, PLAIN, wide - 6);
}

/** What is said of the goal at a place. */
function goalAt(pixelX, pixelY) {
  for (const run of runs) {
    const lane = Math.floor((pixelY - run.laneTop) / LANE);
    if (pixelX < gutter || lane < 0 || lane >= run.lanes.length) continue;
    for (const goal of run.goals) {
      if (run.laneAt.get(`${goal[0]} ${goal[1]}`) !== lane) continue;
      const span = stateSpans(goal).find(([begin, end]) => pixelX >= x(begin) && pixelX <= x(end));
      if (span) return `goal ${goal[2]} of ${goal[0]}: ${data.states[span[2]]}\n${goal[3]}`;
    }
  }
  return null;
}
