"use strict";
// ---- what is known, as tools/pipeview wrote it

const MARKS = "CWRXIADFQ";
const COLOURS = { F: "#56b4e9", Q: "#cccccc", D: "#f0e442", I: "#e69f00", W: "#009e73", A: "#cc79a7", R: "#0072b2", C: "#1a1a1a", X: "#d55e00" };
const LIGHT_LETTER = "WRCX";
const MEANINGS = { F: "fetched", Q: "its words are there", D: "dispatched", I: "issued", W: "written back", A: "access issued", R: "access returned", C: "committed", X: "squashed" };
const LEGEND = "FQDIWARCX";
const NONE = -1;
const PALE = 0.4;

const data = JSON.parse(document.getElementById("data").textContent);
const places = data.places.map(([pc, text, unit, kind, reads, late, writes, isWhole]) => ({ pc, text, unit, kind, reads, late, writes, isWhole: isWhole === 1 }));
const rows = readRows(data.rows);
const origin = BigInt(data.first);
const lastCycle = data.length - 1;
const sizes = data.sizes;

// rows as columns; the marks of row i stand from start[i] to start[i + 1], and reach[i] is the last first cycle so far
function readRows(flat) {
  let count = 0, marks = 0;
  for (let at = 0; at < flat.length; at += 5 + flat[at + 4]) { count += 1; marks += flat[at + 4]; }
  const made = {
    count, number: new Float64Array(count), place: new Int32Array(count), next: new Float64Array(count), queued: new Float64Array(count),
    start: new Int32Array(count + 1), code: new Uint8Array(marks), cycle: new Float64Array(marks), reach: new Float64Array(count),
  };
  let number = 0, mark = 0, reach = 0;
  for (let at = 0, i = 0; i < count; i += 1) {
    number += flat[at];
    made.number[i] = number;
    made.place[i] = flat[at + 1];
    made.next[i] = flat[at + 2] === 0 ? (places[flat[at + 1]].pc + 8) % 2 ** 32 : flat[at + 2] < 0 ? NONE : flat[at + 2] - 1;
    made.queued[i] = flat[at + 3];
    const end = at + 5 + flat[at + 4];
    let cycle = 0;
    for (at += 5; at < end; at += 1, mark += 1) {
      const code = flat[at] % MARKS.length;
      cycle += (flat[at] - code) / MARKS.length;
      made.code[mark] = code;
      made.cycle[mark] = cycle;
    }
    made.start[i + 1] = mark;
    reach = Math.max(reach, made.cycle[made.start[i]]);
    made.reach[i] = reach;
  }
  return made;
}

// the cycle of a mark of row i, or -1
function markOf(i, letter) {
  const code = MARKS.indexOf(letter);
  for (let k = rows.start[i]; k < rows.start[i + 1]; k += 1) if (rows.code[k] === code) return rows.cycle[k];
  return NONE;
}

function marksOf(i) {
  const found = [];
  for (let k = rows.start[i]; k < rows.start[i + 1]; k += 1) found.push([MARKS[rows.code[k]], rows.cycle[k]]);
  return found;
}

const placeOf = (i) => places[rows.place[i]];
const firstOf = (i) => rows.cycle[rows.start[i]];
const isSquashed = (i) => markOf(i, "X") !== NONE;
const happened = (cycle, by) => cycle !== NONE && cycle <= by;
const hex = (address) => address.toString(16).padStart(8, "0");
const cycleName = (c) => (origin + BigInt(c)).toString();
const rowName = (i) => `row ${rows.number[i]}`;

function lastCommitted() {
  let last = NONE, at = NONE;
  for (let i = Math.max(0, rows.count - 4096); i < rows.count; i += 1) {
    const c = markOf(i, "C");
    if (c !== NONE && c >= at) { last = i; at = c; }
  }
  return last;
}

// the last row whose first mark is at the cycle or before
function lastRowBy(cycle) {
  let low = 0, high = rows.count;
  while (low < high) {
    const middle = (low + high) >> 1;
    if (rows.reach[middle] <= cycle) low = middle + 1; else high = middle;
  }
  return low - 1;
}

// ---- occupancy: how many rows are in the unit and in the queue at the end of a cycle

// edges as one number each: the cycle, whether the row is squashed later, unit or queue, in or out
function occupancySteps() {
  const edges = new Float64Array(2 * rows.code.length);
  let count = 0;
  for (let i = 0; i < rows.count; i += 1) {
    const wrong = isSquashed(i) ? 4 : 0;
    let where = NONE;
    for (let k = rows.start[i]; k < rows.start[i + 1]; k += 1) {
      const mark = MARKS[rows.code[k]];
      const to = mark === "F" ? 0 : mark === "D" ? 2 : mark === "C" || mark === "X" ? NONE : where;
      if (to === where) continue;
      if (where !== NONE) edges[count++] = rows.cycle[k] * 8 + wrong + where + 1;
      if (to !== NONE) edges[count++] = rows.cycle[k] * 8 + wrong + to;
      where = to;
    }
  }
  const sorted = edges.subarray(0, count).sort();
  const made = { cycle: [], queue: [], unit: [], wrongQueue: [], wrongUnit: [], most: { queue: 1, unit: 1 } };
  const held = [0, 0, 0, 0];
  for (let k = 0; k < sorted.length; k += 1) {
    const kind = sorted[k] % 8, cycle = (sorted[k] - kind) / 8;
    held[kind >> 1] += kind & 1 ? -1 : 1;
    if (k + 1 < sorted.length && Math.floor(sorted[k + 1] / 8) === cycle) continue;
    made.cycle.push(cycle);
    made.queue.push(held[0] + held[2]);
    made.unit.push(held[1] + held[3]);
    made.wrongQueue.push(held[2]);
    made.wrongUnit.push(held[3]);
    made.most.queue = Math.max(made.most.queue, held[0] + held[2]);
    made.most.unit = Math.max(made.most.unit, held[1] + held[3]);
  }
  return made;
}

// the step that holds at a cycle, or -1 before the first
function stepAt(cycle) {
  let low = 0, high = steps.cycle.length;
  while (low < high) {
    const middle = (low + high) >> 1;
    if (steps.cycle[middle] <= cycle) low = middle + 1; else high = middle;
  }
  return low - 1;
}

function occupancyAt(cycle) {
  const k = stepAt(cycle);
  return k < 0 ? { unit: 0, queue: 0, wrongUnit: 0, wrongQueue: 0 }
    : { unit: steps.unit[k], queue: steps.queue[k], wrongUnit: steps.wrongUnit[k], wrongQueue: steps.wrongQueue[k] };
}

const steps = occupancySteps();
const exitRow = data.end.startsWith("exited") ? lastCommitted() : NONE;
