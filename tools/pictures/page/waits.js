// ---- why a row waited, as far as the trace tells

const HOLDS = { alu: 1, multiply: 1, divide: 19 };
const LONGEST_HOLD = 19;
const MOST_CYCLES = 400;
const UNTOLD = "the trace doesn't tell";

// the rows that may have a mark in the cycle, or hold a unit in it, from the youngest
function* rowsAbout(cycle, slack) {
  for (let i = lastRowBy(cycle); i >= 0; i -= 1) {
    const c = markOf(i, "C");
    if (c !== NONE && c < cycle - slack) return;
    yield i;
  }
}

function countMarks(letters, cycle, isCounted) {
  let count = 0;
  for (const i of rowsAbout(cycle, 0)) {
    for (const letter of letters) if (markOf(i, letter) === cycle && isCounted(i)) count += 1;
  }
  return count;
}

const isLive = (i, cycle) => happened(markOf(i, "D"), cycle) && !happened(markOf(i, "C"), cycle) && !happened(markOf(i, "X"), cycle);
const isWaiting = (i, cycle) => happened(markOf(i, "F"), cycle) && !happened(markOf(i, "D"), cycle) && !happened(markOf(i, "X"), cycle);
const isLoad = (i) => placeOf(i).kind === "load" || markOf(i, "A") !== NONE;
const usesMemory = (i) => placeOf(i).kind === "load" || placeOf(i).kind === "store";

function countLive(cycle, isCounted) {
  let count = 0;
  for (const i of rowsAbout(cycle, 0)) if (isLive(i, cycle) && isCounted(i)) count += 1;
  return count;
}

// the row that gives what row i reads, or -1 where the value is there
function producerOf(i, register) {
  const dispatched = markOf(i, "D");
  for (let k = i - 1; k >= 0; k -= 1) {
    const c = markOf(k, "C"), x = markOf(k, "X");
    if (c !== NONE && c < dispatched) return NONE;
    if (markOf(k, "D") !== NONE && !(x !== NONE && x < dispatched) && placeOf(k).writes.includes(register)) return k;
  }
  return NONE;
}

// the cycle in which row i is done, or Infinity
function doneIn(i) {
  const mark = markOf(i, isLoad(i) ? "R" : "W");
  if (mark === NONE) return Infinity;
  return Math.max(mark, ...placeOf(i).kind === "store" ? placeOf(i).late.map((it) => { const k = producerOf(i, it); return k === NONE ? 0 : doneIn(k); }) : []);
}

// the first of these registers whose producer isn't done by the cycle, in words
function missing(i, registers, cycle) {
  for (const register of registers) {
    const k = producerOf(i, register);
    if (k === NONE || doneIn(k) <= cycle) continue;
    const done = doneIn(k);
    return `${register}, which ${rowName(k)} gives${done === Infinity ? "" : ` in cycle ${cycleName(done)}`}`;
  }
  return "";
}

function dispatchReason(i, cycle) {
  if (exitRow !== NONE && i > exitRow && happened(markOf(exitRow, "D"), cycle)) return `behind the exit, ${rowName(exitRow)}`;
  let head = i;
  while (head > 0 && isWaiting(head - 1, cycle)) head -= 1;
  const reason = headReason(head, cycle);
  return head === i ? reason : `order: behind ${rowName(head)} (${reason})`;
}

function headReason(i, cycle) {
  const isCall = placeOf(i).kind === "call";
  if (rows.queued[i] >= cycle) return `its words are there in cycle ${cycleName(rows.queued[i])}`;
  if (i > 0 && placeOf(i - 1).kind === "call" && markOf(i - 1, "D") === cycle) return `behind a system call, ${rowName(i - 1)}, which is the last to be dispatched in its cycle`;
  if (isCall && isSquashed(i)) return "a system call on a wrong path is never dispatched";
  if (isCall && occupancyAt(cycle).unit > 0) return "a system call waits for an empty unit";
  if (sizes && countMarks("D", cycle, () => true) >= sizes.decode) return `width: ${sizes.decode} were dispatched`;
  if (sizes && occupancyAt(cycle).unit >= sizes.ruu) return `room: ${sizes.ruu} rows are in the unit`;
  if (sizes && usesMemory(i) && countLive(cycle, usesMemory) >= sizes.lsq) return `room: ${sizes.lsq} loads and stores are in the unit`;
  if (data.end.startsWith(`stopped ${hex(placeOf(i).pc || 0)} `) && !isSquashed(i)) return "it can't be done, and the run stops at it";
  if (data.listed || !sizes) return UNTOLD;
  return "a system call, or room for a load or store (no listing was given)";
}

function issueReason(i, cycle) {
  const place = placeOf(i);
  const operand = missing(i, place.reads, cycle);
  if (operand) return `operand: ${operand}`;
  if (!sizes) return UNTOLD;
  if (!sizes.wrong_issue && isSquashed(i)) return "a row on a wrong path doesn't issue";
  if (sizes.in_order) {
    const older = olderWithoutIssue(i, cycle);
    if (older !== NONE) return `order: ${rowName(older)} hasn't issued`;
  }
  if (countMarks("IA", cycle, (k) => k < i) >= sizes.issue) return `width: ${sizes.issue} operations of older rows issued`;
  const holder = unitHolder(i, cycle);
  if (holder) return holder;
  return place.isWhole || (data.listed && !place.text) ? UNTOLD : "an operand or a unit (no listing was given)";
}

function olderWithoutIssue(i, cycle) {
  let found = NONE;
  for (const k of rowsAbout(cycle, 0)) if (k < i && isLive(k, cycle) && !happened(markOf(k, "I"), cycle)) found = k;
  return found;
}

// which rows hold all units of the kind that row i needs, in words
function unitHolder(i, cycle) {
  const unit = placeOf(i).unit;
  if (unit === "none") return "";
  const holders = [];
  for (const k of rowsAbout(cycle, LONGEST_HOLD)) {
    const issued = markOf(k, "I"), other = placeOf(k).unit;
    const isSameKind = (other === "alu") === (unit === "alu") && other !== "none";
    if (isSameKind && happened(issued, cycle) && cycle < issued + HOLDS[other] && (issued < cycle || k < i)) holders.push(k);
  }
  if (holders.length < (unit === "alu" ? sizes.alus : sizes.multipliers)) return "";
  return `unit: ${unit === "alu" ? "the ALUs are" : "the multiplier is"} taken by ${holders.reverse().map(rowName).join(", ")}`;
}

function accessReason(i, cycle) {
  const late = missing(i, placeOf(i).late, cycle);
  if (late) return `operand: the old ${late}`;
  let withoutAddress = NONE, withoutData = NONE;
  for (const k of rowsAbout(cycle, 0)) {
    if (k >= i || placeOf(k).kind !== "store" || !isLive(k, cycle)) continue;
    if (!happened(markOf(k, "W"), cycle)) withoutAddress = k;
    else if (doneIn(k) > cycle) withoutData = k;
  }
  if (withoutAddress !== NONE) return `memory order: the address of the store of ${rowName(withoutAddress)} isn't known yet`;
  if (sizes && countMarks("IA", cycle, (k) => k < i) >= sizes.issue) return `width: ${sizes.issue} operations of older rows issued`;
  const stores = countMarks("C", cycle, (k) => placeOf(k).kind === "store");
  if (sizes && stores + countMarks("A", cycle, (k) => k < i) >= sizes.ports) return "unit: the memory ports are taken";
  if (withoutData !== NONE) return `memory order: the store of ${rowName(withoutData)} to the same block has no data yet`;
  return data.listed ? UNTOLD : "memory order, or a port (no listing was given)";
}

function commitReason(i, cycle) {
  let head = i;
  for (const k of rowsAbout(cycle, 0)) if (k < head && isLive(k, cycle) && !isSquashed(k)) head = k;
  const reason = headCommitReason(head, cycle);
  return head === i ? reason : `order: behind ${rowName(head)} (${reason})`;
}

function headCommitReason(i, cycle) {
  if (doneIn(i) >= cycle) return "not done before this cycle";
  if (sizes && countMarks("C", cycle, () => true) >= sizes.commit) return `width: ${sizes.commit} committed`;
  const stores = countMarks("C", cycle, (k) => placeOf(k).kind === "store");
  if (sizes && placeOf(i).kind === "store" && stores >= sizes.ports) return "unit: the memory ports are taken by stores that commit";
  return UNTOLD;
}

// the spans of cycles in which row i waited for a step, each with its reason
function waits(i) {
  const end = isSquashed(i) ? markOf(i, "X") : Math.max(lastCycle, 0);
  const at = (letter) => markOf(i, letter);
  const found = [];
  const span = (step, from, to, reason) => {
    for (let c = from; c < Math.min(to, from + MOST_CYCLES); c += 1) {
      const why = reason(i, c), last = found[found.length - 1];
      if (!why) continue;
      if (last && last.step === step && last.why === why && last.to === c - 1) last.to = c;
      else found.push({ step, from: c, to: c, why });
    }
  };
  const until = (letter) => at(letter) === NONE ? end : at(letter);
  if (at("F") === NONE) return found;
  if (rows.queued[i] > at("F")) found.push({ step: "words", from: at("F") + 1, to: Math.min(rows.queued[i], end), why: "the fetch missed its first level, or waits for it" });
  span("dispatch", rows.queued[i] + 1, until("D"), dispatchReason);
  if (at("D") !== NONE) span("issue", at("D") + 1, until("I"), issueReason);
  if (isLoad(i) && at("W") !== NONE) span("access", at("W"), until("A"), accessReason);
  const done = doneIn(i);
  if (placeOf(i).kind === "store" && at("W") !== NONE) span("data", at("W") + 1, Math.min(done + 1, until("C")), dataReason);
  if (!isSquashed(i) && done !== Infinity) span("commit", done + 1, until("C"), commitReason);
  return found;
}

function dataReason(i, cycle) {
  const late = missing(i, placeOf(i).late, cycle);
  return late ? `operand: the data of the store, ${late}` : "";
}

const waitText = ({ step, from, to, why }) => `${from === to ? `cycle ${cycleName(from)}` : `cycles ${cycleName(from)} to ${cycleName(to)}`}, ${step}: ${why}`;

// what is told of the path of row i
function pathOf(i) {
  if (isSquashed(i)) return "wrong path (squashed)";
  return markOf(i, "C") !== NONE ? "right path (committed)" : "in flight at the end of the run";
}

// where row i was mispredicted: the row that was fetched behind its recovery, and how many were squashed
function mispredictionOf(i) {
  const written = markOf(i, "W");
  if (written === NONE || isSquashed(i) || i + 1 >= rows.count || rows.number[i + 1] !== rows.number[i] + 1) return null;
  let following = i + 1;
  while (following < rows.count && markOf(following, "X") === written) following += 1;
  const squashed = following - i - 1;
  const went = following < rows.count ? placeOf(following).pc : null;
  if (!squashed && (went === rows.next[i] || markOf(i + 1, "F") <= written)) return null;
  return { cycle: written, squashed, went };
}

function describe(i) {
  const place = placeOf(i);
  const lines = [["b", [rowName(i), place.pc === null ? "" : hex(place.pc), place.text].filter((it) => it).join("  ")]];
  const said = data.did[i] ? `did ${data.did[i]}` : "";
  const next = rows.next[i] === NONE ? "" : `predicted to be followed by ${hex(rows.next[i])}`;
  lines.push(["", [pathOf(i), next].filter((it) => it).join("; ")]);
  const missed = mispredictionOf(i);
  if (missed) lines.push(["", `mispredicted: ${missed.went === null ? "another row" : hex(missed.went)} followed; ${missed.squashed} ${missed.squashed === 1 ? "row was" : "rows were"} squashed in cycle ${cycleName(missed.cycle)}`]);
  if (said) lines.push(["", said]);
  lines.push(["", marksOf(i).map(([mark, cycle]) => `${mark} ${cycleName(cycle)} ${MEANINGS[mark]}`).join(", ")]);
  const told = waits(i);
  if (told.length) lines.push(["", "Waited"]);
  for (const wait of told) lines.push(["", `  ${waitText(wait)}`]);
  return lines;
}
