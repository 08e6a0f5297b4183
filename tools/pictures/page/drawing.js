// ---- drawing: only what is seen

const ZOOMS = [[0.25, 1], [0.5, 1], [1, 2], [2, 3], [4, 6], [8, 10], [14, 14], [22, 19], [32, 24]];
const RULER = 22, LEAST_LABELS = 170;
const view = { top: 0, left: 0, zoom: 7, selected: NONE, hovered: NONE, column: NONE, labels: 0 };
const element = (id) => document.getElementById(id);
const canvas = element("rows"), chart = element("occupancy"), tip = element("tip");
const FONT = "12px ui-monospace, 'DejaVu Sans Mono', Menlo, Consolas, monospace";
const cellWidth = () => ZOOMS[view.zoom][0], rowHeight = () => ZOOMS[view.zoom][1];
const size = { width: 0, height: 0, chart: 0 };
const seenRows = () => (size.height - RULER) / rowHeight(), seenCycles = () => (size.width - view.labels) / cellWidth();
const xOf = (cycle) => view.labels + (cycle - view.left) * cellWidth(), yOf = (i) => RULER + (i - view.top) * rowHeight();
const cycleAt = (x) => Math.floor(view.left + (x - view.labels) / cellWidth()), rowAt = (y) => Math.floor(view.top + (y - RULER) / rowHeight());

function contextOf(it) {
  const box = it.getBoundingClientRect(), scale = window.devicePixelRatio || 1;
  const width = Math.max(1, Math.round(box.width * scale)), height = Math.max(1, Math.round(box.height * scale));
  if (it.width !== width || it.height !== height) { it.width = width; it.height = height; }
  const context = it.getContext("2d");
  context.setTransform(scale, 0, 0, scale, 0, 0);
  context.fillStyle = "#fff";
  context.fillRect(0, 0, box.width, box.height);
  context.font = FONT;
  context.textBaseline = "middle";
  return [context, box.width, box.height];
}

function labelOf(i) {
  const place = placeOf(i);
  return `${String(rows.number[i]).padStart(numberWidth)}  ${place.pc === null ? "        " : hex(place.pc)}  ${place.text}`;
}
const numberWidth = rows.count ? String(rows.number[rows.count - 1]).length : 1;

const longestText = places.reduce((longest, place) => Math.max(longest, place.text.length), 0);

function labelWidth(context) {
  return Math.max(LEAST_LABELS, Math.ceil(context.measureText("0".repeat(numberWidth + 13 + Math.min(longestText, 32))).width) + 10);
}

function draw() {
  const [context, width, height] = contextOf(canvas);
  size.width = width;
  size.height = height;
  view.labels = labelWidth(context);
  keepInside();
  drawRuler(context);
  context.save();
  context.beginPath();
  context.rect(0, RULER, width, height - RULER);
  context.clip();
  const last = Math.min(rows.count - 1, Math.ceil(view.top + seenRows()));
  for (let i = Math.max(0, Math.floor(view.top)); i <= last; i += 1) drawRow(context, i);
  context.restore();
  drawChart();
  placeBars();
}

function drawRuler(context) {
  context.fillStyle = "#555";
  context.fillText(`${"row".padStart(numberWidth)}  address ${longestText ? "  instruction" : ""}`, 6, RULER / 2);
  const step = stepOfRuler(context);
  context.textAlign = "center";
  for (let c = Math.ceil(view.left / step) * step; c <= Math.min(lastCycle, view.left + seenCycles()); c += step) {
    const x = xOf(c);
    context.fillStyle = "#555";
    context.fillText(cycleName(c), x + cellWidth() / 2, RULER / 2);
    context.fillStyle = "#e4e4e4";
    context.fillRect(x, RULER, 1, size.height);
  }
  context.textAlign = "left";
  if (view.column !== NONE) {
    context.fillStyle = "#eef3f8";
    context.fillRect(Math.max(view.labels, xOf(view.column)), RULER, Math.max(1, cellWidth()), size.height);
  }
  context.fillStyle = "#bbb";
  context.fillRect(0, RULER - 1, size.width, 1);
  context.fillRect(view.labels - 1, 0, 1, size.height);
}

// every how many cycles the ruler has a number: 1, 2 or 5 times a power of ten
function stepOfRuler(context) {
  const wide = context.measureText(cycleName(Math.max(0, lastCycle))).width + 6;
  let step = 1;
  for (let k = 0; step * cellWidth() < wide; k += 1) step = [2, 5, 10][k % 3] * 10 ** Math.floor(k / 3);
  return step;
}

function drawRow(context, i) {
  const y = yOf(i), height = rowHeight();
  if (i === view.selected || i === view.hovered) {
    context.fillStyle = i === view.selected ? "#dfeefb" : "#f2f2f2";
    context.fillRect(0, y, size.width, height);
  }
  const isPale = element("dim").checked && isSquashed(i);
  if (height >= 10) {
    context.fillStyle = isPale ? "#8a8a8a" : "#1a1a1a";
    context.fillText(labelOf(i), 6, y + height / 2, view.labels - 12);
  }
  context.save();
  context.beginPath();
  context.rect(view.labels, y, size.width, height);
  context.clip();
  context.globalAlpha = isPale ? PALE : 1;
  drawSpans(context, i, y, height);
  drawCells(context, i, y, height, isPale);
  context.restore();
}

// what lies between two marks is a thin bar in the colour of the first
function drawSpans(context, i, y, height) {
  for (let k = rows.start[i]; k < rows.start[i + 1]; k += 1) {
    const mark = MARKS[rows.code[k]];
    if (mark === "C" || mark === "X") continue;
    const to = k + 1 < rows.start[i + 1] ? rows.cycle[k + 1] : lastCycle + 1;
    const from = Math.max(rows.cycle[k] + 1, view.left), until = Math.min(to, view.left + seenCycles() + 1);
    if (from >= until) continue;
    context.fillStyle = COLOURS[mark];
    context.fillRect(xOf(from), y + Math.floor(height * 0.35), (until - from) * cellWidth(), Math.max(1, Math.ceil(height * 0.3)));
  }
}

// the marks of one cell share its width
function drawCells(context, i, y, height, isPale) {
  const end = rows.start[i + 1];
  for (let k = rows.start[i]; k < end;) {
    let behind = k + 1;
    while (behind < end && rows.cycle[behind] === rows.cycle[k]) behind += 1;
    const x = xOf(rows.cycle[k]), part = cellWidth() / (behind - k);
    if (x + cellWidth() >= view.labels && x <= size.width) {
      for (let n = k; n < behind; n += 1) drawMark(context, MARKS[rows.code[n]], x + (n - k) * part, y, part, height, isPale);
    }
    k = behind;
  }
}

function drawMark(context, mark, x, y, width, height, isPale) {
  const gap = height >= 10 ? 1 : 0;
  context.fillStyle = COLOURS[mark];
  context.fillRect(x, y + gap, Math.max(1, width - (width >= 4 ? 1 : 0)), height - 2 * gap);
  if (width < 9 || height < 12) return;
  context.globalAlpha = isPale ? 0.8 : 1;
  context.fillStyle = LIGHT_LETTER.includes(mark) && !isPale ? "#fff" : "#000";
  context.textAlign = "center";
  context.fillText(mark, x + (width - 1) / 2, y + height / 2 + 1);
  context.textAlign = "left";
  context.globalAlpha = isPale ? PALE : 1;
}

// ---- the chart of occupancy

const CHARTS = [["unit", "rows in the unit", "#0072b2"], ["queue", "rows in the queue", "#e69f00"]];

function drawChart() {
  const [context, width, height] = contextOf(chart);
  size.chart = height;
  const each = height / CHARTS.length;
  CHARTS.forEach(([name, label, colour], n) => drawOne(context, name, label, colour, n * each, each, width));
  if (view.column === NONE) return;
  context.fillStyle = "#0006";
  context.fillRect(Math.max(view.labels, xOf(view.column) + cellWidth() / 2), 0, 1, height);
}

function drawOne(context, name, label, colour, top, height, width) {
  const most = Math.max(steps.most[name], sizes ? sizes[name === "unit" ? "ruu" : "ifq"] : 0);
  const wrong = name === "unit" ? steps.wrongUnit : steps.wrongQueue, all = steps[name];
  const room = height - 12, base = top + height - 2;
  const across = Math.max(1, cellWidth());
  for (let x = view.labels; x < width; x += across) {
    const from = Math.floor(view.left + (x - view.labels) / cellWidth()), to = Math.max(from + 1, Math.floor(view.left + (x + across - view.labels) / cellWidth()));
    if (from > lastCycle) break;
    const [total, bad] = highest(from, to, all, wrong);
    const at = cellWidth() >= 1 ? Math.max(view.labels, xOf(from)) : x;
    const wide = (cellWidth() >= 1 ? xOf(from + 1) : x + across) - at;
    context.globalAlpha = 1;
    context.fillStyle = colour;
    context.fillRect(at, base - total / most * room, wide, (total - bad) / most * room);
    context.globalAlpha = 0.4;
    context.fillRect(at, base - bad / most * room, wide, bad / most * room);
  }
  context.globalAlpha = 1;
  context.fillStyle = "#fff";
  context.fillRect(0, top, view.labels - 1, height);
  context.fillStyle = "#555";
  context.fillText(label, 6, top + height / 2);
  context.textAlign = "right";
  context.fillText(String(most), view.labels - 5, top + 14);
  context.fillText("0", view.labels - 5, base - 5);
  context.textAlign = "left";
  context.fillStyle = "#bbb";
  context.fillRect(0, top, width, 1);
}

// the highest occupancy in the cycles from..to, and how many of these rows are on a wrong path
function highest(from, to, all, wrong) {
  let k = stepAt(from), total = k < 0 ? 0 : all[k], bad = k < 0 ? 0 : wrong[k];
  for (k += 1; k < steps.cycle.length && steps.cycle[k] < to; k += 1) {
    if (all[k] > total) { total = all[k]; bad = wrong[k]; }
  }
  return [total, bad];
}
