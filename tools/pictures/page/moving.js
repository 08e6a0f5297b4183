// ---- moving about

let isAsked = false;
function redraw() {
  if (isAsked) return;
  isAsked = true;
  requestAnimationFrame(() => { isAsked = false; draw(); });
}

function keepInside() {
  view.top = Math.max(0, Math.min(view.top, rows.count - Math.max(1, Math.min(rows.count, seenRows() - 1))));
  view.left = Math.max(-1, Math.min(view.left, lastCycle + 2 - Math.max(1, Math.min(lastCycle + 2, seenCycles() - 1))));
}

// the cycle at which the row that is at a height begins
function beginsAt(top) {
  const i = Math.max(0, Math.min(rows.count - 1, Math.floor(top))), behind = Math.min(rows.count - 1, i + 1);
  return rows.reach[i] + (rows.reach[behind] - rows.reach[i]) * (Math.max(0, top) - i);
}

function moveDown(count) {
  const before = view.top;
  view.top += count;
  keepInside();
  if (element("follow").checked) view.left += beginsAt(view.top) - beginsAt(before);
  redraw();
}

function moveAcross(count) {
  view.left += count;
  redraw();
}

function zoomTo(level, x, y) {
  const zoom = Math.max(0, Math.min(ZOOMS.length - 1, level));
  const cycle = view.left + (x - view.labels) / cellWidth(), row = view.top + (y - RULER) / rowHeight();
  view.zoom = zoom;
  view.left = cycle - (x - view.labels) / cellWidth();
  view.top = row - (y - RULER) / rowHeight();
  redraw();
}

function showRow(i) {
  view.selected = i;
  view.top = i - seenRows() / 3;
  view.left = firstOf(i) - 2;
  keepInside();
  if (element("follow").checked) view.left = Math.max(-1, Math.min(firstOf(i) - 2, beginsAt(view.top)));
  if (firstOf(i) > view.left + seenCycles() - 4) view.left = firstOf(i) - 2;
  redraw();
}

function showCycle(cycle) {
  const c = Math.max(0, Math.min(lastCycle, cycle));
  view.column = c;
  let oldest = Math.max(0, lastRowBy(c));
  for (const i of rowsAbout(c, 0)) if (rows.cycle[rows.start[i + 1] - 1] >= c) oldest = i;
  view.top = oldest - 1;
  view.left = c - Math.min(12, seenCycles() / 2);
  redraw();
}

// ---- search

const hunt = { key: "", rows: [], at: NONE };

function matching(kind, wanted) {
  const text = wanted.trim().toLowerCase(), found = [];
  if (!text) return found;
  const address = text.replace(/^0x/, "");
  const fits = places.map((place) => kind === "instruction" ? place.text.toLowerCase().includes(text) : kind === "address" && place.pc !== null && hex(place.pc).includes(address));
  for (let i = 0; i < rows.count; i += 1) if (kind === "row" ? String(rows.number[i]) === text : fits[rows.place[i]]) found.push(i);
  return found;
}

function search(isBack) {
  const kind = element("kind").value, wanted = element("wanted").value;
  if (kind === "cycle") return searchCycle(wanted);
  const key = `${kind} ${wanted}`;
  if (hunt.key !== key) Object.assign(hunt, { key, rows: matching(kind, wanted), at: NONE });
  if (!hunt.rows.length) { element("found").textContent = wanted ? "not found" : ""; return; }
  hunt.at = hunt.at === NONE ? startOfHunt(isBack) : (hunt.at + (isBack ? hunt.rows.length - 1 : 1)) % hunt.rows.length;
  element("found").textContent = `${hunt.at + 1} of ${hunt.rows.length}`;
  showRow(hunt.rows[hunt.at]);
}

function startOfHunt(isBack) {
  const from = view.selected === NONE ? Math.floor(view.top) : view.selected + (isBack ? -1 : 1);
  const at = isBack ? hunt.rows.findLastIndex((i) => i <= from) : hunt.rows.findIndex((i) => i >= from);
  return at === NONE ? (isBack ? hunt.rows.length - 1 : 0) : at;
}

function searchCycle(wanted) {
  const isNumber = /^\s*[0-9]+\s*$/.test(wanted);
  const cycle = isNumber ? Number(BigInt(wanted.trim()) - origin) : NONE;
  const isThere = cycle >= 0 && cycle <= lastCycle;
  element("found").textContent = isThere || !wanted ? "" : "not found";
  if (isThere) showCycle(cycle);
}

// ---- hovering

function tell(lines, x, y) {
  tip.replaceChildren(...lines.flatMap(([tag, text]) => {
    const line = document.createElement(tag || "span");
    line.textContent = text;
    return [line, document.createElement("br")];
  }));
  tip.style.display = "block";
  const box = tip.getBoundingClientRect();
  tip.style.left = `${Math.max(4, Math.min(x + 16, window.innerWidth - box.width - 6))}px`;
  tip.style.top = `${y + 20 + box.height > window.innerHeight ? Math.max(4, y - box.height - 12) : y + 20}px`;
}

function hush() {
  if (tip.classList.contains("pinned")) return;
  tip.style.display = "none";
  view.hovered = NONE;
  redraw();
}

function hover(event) {
  const box = canvas.getBoundingClientRect(), x = event.clientX - box.left, y = event.clientY - box.top;
  view.column = x > view.labels ? Math.max(0, Math.min(lastCycle, cycleAt(x))) : NONE;
  const i = y > RULER ? rowAt(y) : NONE;
  if (tip.classList.contains("pinned")) return redraw();
  if (i < 0 || i >= rows.count) return hush();
  view.hovered = i;
  tell(describe(i), event.clientX, event.clientY);
  redraw();
}

function hoverChart(event) {
  const x = event.clientX - chart.getBoundingClientRect().left;
  if (x <= view.labels || cycleAt(x) > lastCycle || cycleAt(x) < 0) return hush();
  view.column = cycleAt(x);
  const at = occupancyAt(view.column);
  tell([["b", `cycle ${cycleName(view.column)}`], ["", `unit: ${at.unit} rows at its end, ${at.wrongUnit} of them on a wrong path`], ["", `queue: ${at.queue} rows, ${at.wrongQueue} on a wrong path`]], event.clientX, event.clientY);
  redraw();
}

function pin(event) {
  const isPinned = tip.classList.toggle("pinned", !tip.classList.contains("pinned") && view.hovered !== NONE);
  view.selected = isPinned ? view.hovered : NONE;
  if (!isPinned) hover(event);
  redraw();
}

function unpin() {
  tip.classList.remove("pinned");
  view.selected = NONE;
  hush();
}

// ---- bars, mouse and keys

function placeBars() {
  placeBar(element("down"), "top", "height", view.top / rows.count, seenRows() / rows.count);
  placeBar(element("across"), "left", "width", (view.left + 1) / (lastCycle + 3), seenCycles() / (lastCycle + 3));
}

function placeBar(bar, edge, extent, at, share) {
  const long = edge === "top" ? bar.clientHeight : bar.clientWidth, thumb = Math.max(24, Math.min(1, share) * long);
  bar.firstElementChild.style[extent] = `${thumb}px`;
  bar.firstElementChild.style[edge] = `${Math.min(1, at / Math.max(1e-9, 1 - Math.min(1, share))) * (long - thumb)}px`;
}

function onBar(bar, isDown) {
  const drag = (event) => {
    const box = bar.getBoundingClientRect(), thumb = isDown ? bar.firstElementChild.offsetHeight : bar.firstElementChild.offsetWidth;
    const room = Math.max(1, (isDown ? box.height : box.width) - thumb);
    const at = Math.max(0, Math.min(1, ((isDown ? event.clientY - box.top : event.clientX - box.left) - thumb / 2) / room));
    if (isDown) moveDown(at * Math.max(0, rows.count - seenRows() + 1) - view.top);
    else moveAcross(at * Math.max(0, lastCycle + 3 - seenCycles()) - 1 - view.left);
  };
  bar.addEventListener("pointerdown", (event) => { bar.setPointerCapture(event.pointerId); drag(event); });
  bar.addEventListener("pointermove", (event) => { if (event.buttons) drag(event); });
}

function onWheel(event) {
  event.preventDefault();
  const box = canvas.getBoundingClientRect(), unit = event.deltaMode === 1 ? 3 : 0.06;
  if (event.ctrlKey) return zoomTo(view.zoom - Math.sign(event.deltaY), event.clientX - box.left, event.clientY - box.top);
  const across = event.shiftKey ? event.deltaY : event.deltaX, down = event.shiftKey ? 0 : event.deltaY;
  if (across) moveAcross(across * unit * 19 / cellWidth());
  if (down) moveDown(down * unit * 19 / rowHeight());
}

const KEYS = {
  ArrowDown: () => moveDown(1), ArrowUp: () => moveDown(-1), ArrowRight: () => moveAcross(1), ArrowLeft: () => moveAcross(-1),
  PageDown: () => moveDown(seenRows() - 2), PageUp: () => moveDown(2 - seenRows()), Home: () => moveDown(-rows.count), End: () => moveDown(rows.count),
  "+": () => zoomTo(view.zoom + 1, view.labels, RULER), "-": () => zoomTo(view.zoom - 1, view.labels, RULER), "/": () => element("wanted").focus(), Escape: unpin,
};

function onKey(event) {
  if (event.target === element("wanted")) {
    if (event.key === "Escape") canvas.focus();
    if (event.key === "Enter" && event.shiftKey) { event.preventDefault(); search(true); }
    return;
  }
  if (!KEYS[event.key] || event.ctrlKey || event.metaKey || event.target.tagName === "SELECT") return;
  event.preventDefault();
  KEYS[event.key]();
}

let grip = null;
function onDrag(event) {
  if (!event.buttons || !grip) return hover(event);
  view.left = grip.left - (event.clientX - grip.x) / cellWidth();
  view.top = grip.top - (event.clientY - grip.y) / rowHeight();
  grip.isMoved = grip.isMoved || Math.abs(event.clientX - grip.x) + Math.abs(event.clientY - grip.y) > 3;
  redraw();
}

function listen() {
  canvas.addEventListener("pointerdown", (event) => { canvas.focus(); grip = { x: event.clientX, y: event.clientY, left: view.left, top: view.top, isMoved: false }; });
  canvas.addEventListener("pointermove", onDrag);
  canvas.addEventListener("pointerup", (event) => { if (grip && !grip.isMoved) pin(event); grip = null; });
  canvas.addEventListener("pointerleave", hush);
  canvas.addEventListener("wheel", onWheel, { passive: false });
  chart.addEventListener("pointermove", hoverChart);
  chart.addEventListener("pointerleave", hush);
  document.addEventListener("keydown", onKey);
  element("search").addEventListener("submit", (event) => { event.preventDefault(); search(false); });
  element("back").addEventListener("click", () => search(true));
  element("in").addEventListener("click", () => KEYS["+"]());
  element("out").addEventListener("click", () => KEYS["-"]());
  element("dim").addEventListener("change", redraw);
  onBar(element("down"), true);
  onBar(element("across"), false);
  window.addEventListener("resize", redraw);
}

function summary() {
  let committed = 0, squashed = 0;
  for (let i = 0; i < rows.count; i += 1) {
    if (isSquashed(i)) squashed += 1;
    else if (markOf(i, "C") !== NONE) committed += 1;
  }
  const part = data.window ? `cycles ${cycleName(data.window[0])} to ${cycleName(data.window[1])} of ${cycleName(data.length)}` : `${cycleName(data.length)} cycles`;
  const rate = data.window ? "" : `, ${(committed / Math.max(1, Number(cycleName(data.length)))).toFixed(2)} committed a cycle`;
  return `${rows.count} rows, ${part}${rate}; ${committed} committed, ${squashed} squashed, ${rows.count - committed - squashed} in flight at the end; ${data.end}`;
}

function legend() {
  return [...LEGEND].map((mark) => {
    const item = document.createElement("span"), sample = document.createElement("b");
    sample.textContent = mark;
    sample.style.background = COLOURS[mark];
    sample.style.color = LIGHT_LETTER.includes(mark) ? "#fff" : "#000";
    item.append(sample, MEANINGS[mark]);
    return item;
  });
}

element("name").textContent = data.name;
document.title = `${data.name} - pipeline`;
element("summary").textContent = summary();
element("legend").append(...legend());
listen();
draw();
if ((lastCycle + 2) * ZOOMS[8][0] <= size.width - view.labels) zoomTo(8, view.labels, RULER);
if (data.window) { showCycle(data.window[0]); view.column = NONE; }
