// A plan as it is edited: rows of words that nobody has judged, their text (the same as bin/planbytes takes), and the records that the
// library is handed. Row i is class i + 1. No part of the page is touched from here.

const MOST = { parent: 255, weight: 4294967295, longest: 65535, rule: 255, class: 255, length: 65535, tag: 4294967295 };

const newRow = (kind, parent, weight, longest) =>
  ({ kind, name: "", parent: String(parent), weight: String(weight), longest: kind === "leaf" ? String(longest) : "", request: "",
      above: [], remark: "" });
const emptyPlan = () => ({ rule: "", ruleAbove: [], rows: [], tail: [] });
const copyOf = (plan) => JSON.parse(JSON.stringify(plan));

// ---- Text

class TextFault extends Error {
  constructor(line, message) {
    super(message);
    this.line = line;
  }
}

// A number of a text. One that its field cannot hold becomes the field's largest, which is out of range too, so that the library refuses
// it.
function digits(word, what, line) {
  if (!/^[0-9]+$/.test(word)) throw new TextFault(line, `${what} is “${word}”; expected a number from 0 to ${MOST[what]}`);
  return word.replace(/^0+(?=.)/, "");
}
const clamped = (word, what) => (word.length > 15 || Number(word) > MOST[what] ? MOST[what] : Number(word));

// The quoted name after a class number, taken out of the line.
function named(line, at) {
  const begin = /^[ \t]*class[ \t]+[0-9]+[ \t]*"/.exec(line);
  if (!begin) return [line, ""];
  const rest = line.slice(begin[0].length);
  const end = rest.indexOf('"');
  const name = rest.slice(0, end);
  if (end < 0) throw new TextFault(at, "the name has no closing quote");
  if (!/[^ \t]/.test(name)) throw new TextFault(at, "the name is empty");
  if (name.includes("\t")) throw new TextFault(at, "a tab in the name");
  if (Array.from(name).length > 40) throw new TextFault(at, "a name has at most 40 letters");
  return [begin[0].slice(0, -1) + " " + rest.slice(end + 1), name];
}

// A line without its name and its remark, as words.
function wordsOf(full, at) {
  const given = full.replace(/\r$/, "");
  if (/[\u0001-\u0008\u000B\u000C\u000E-\u001F\u007F]/.test(given)) throw new TextFault(at, "a byte that no text has");
  const [unnamed, name] = named(given, at);
  const hash = unnamed.indexOf("#");
  const line = hash < 0 ? unnamed : unnamed.slice(0, hash);
  if (/[0-9],[0-9]/.test(line)) throw new TextFault(at, "a number is digits alone, with no comma in it");
  const words = line.replace(/[:,]/g, " ").split(/[ \t]+/).filter((word) => word);
  return { given, name, remark: hash < 0 ? "" : unnamed.slice(hash), words };
}

// The plan and the events of a text, with the line of each row; a fault names its line.
function readText(text) {
  const read = { plan: emptyPlan(), lines: [], ruleLine: 0, events: [], above: [] };
  text.replace(/^\uFEFF/, "").split("\n").forEach((full, i) => readLine(read, wordsOf(full, i + 1), i + 1));
  while (read.above.length && read.above[read.above.length - 1].trim() === "") read.above.pop();
  read.plan.tail = read.above;
  return read;
}
function readLine(read, { given, name, remark, words: w }, at) {
  const { plan, events } = read;
  if (!w.length) {
    if (!events.length) read.above.push(given);
  } else if (w[0] === "plan" && w[2] === "classes" && !plan.rows.length && !events.length) {
    if (w[w.length - 2] === "rule") readRule(read, w[w.length - 1], at);
  } else if (w[0] === "class") {
    if (events.length) throw new TextFault(at, "a class after the events; the plan comes first");
    plan.rows.push({ ...classLine(w, at, plan.rows.length + 1), name, above: read.above, remark });
    read.above = [];
    read.lines.push(at);
  } else if (w[0] === "rule" && w.length === 2) {
    readRule(read, w[1], at);
  } else if (w[0] === "in" || w[0] === "send") {
    events.push(eventLine(w, at));
  } else if (w[0] === "stop") {
    throw new TextFault(at, "this is a refusal, and no plan");
  } else {
    throw new TextFault(at, "expected a line that begins with class, in or send, or rule 2 before them");
  }
}
function readRule(read, word, at) {
  if (read.plan.rows.length || read.events.length || read.ruleLine)
    throw new TextFault(at, "the rule stands before the classes, and once");
  read.plan.rule = digits(word, "rule", at);
  read.plan.ruleAbove = read.above;
  read.above = [];
  read.ruleLine = at;
}

function classLine(w, at, number) {
  const leaf = w[2] === "leaf";
  if ((!leaf && w[2] !== "inner") || w[3] !== "parent" || w[5] !== "weight" || (leaf && w[7] !== "longest") || w.length !== (leaf ? 9 : 7))
    throw new TextFault(at, "expected: class N: inner, parent P, weight W, or class N: leaf, parent P, weight W, longest L");
  if (!/^[0-9]+$/.test(w[1]) || Number(w[1]) !== number) throw new TextFault(at, `this is class ${number}, not ${w[1]}`);
  return {
    kind: w[2], parent: digits(w[4], "parent", at), weight: digits(w[6], "weight", at), longest: leaf ? digits(w[8], "longest", at) : "",
        request: "",
  };
}

// An event of a text: an arrival with its class, length and tag, or a send. Its numbers must fit.
function eventLine(w, at) {
  if (w.length !== (w[0] === "in" ? 4 : 1)) throw new TextFault(at, "expected: in CLASS LENGTH TAG, or send");
  if (w[0] === "send") return [KIND.send];
  const [c, length, tag] = ["class", "length", "tag"].map((what, i) => {
    const word = digits(w[i + 1], what, at);
    if (word.length > 15 || Number(word) > MOST[what]) throw new TextFault(at,
        `${what} is ${word}; expected a number from 0 to ${MOST[what]}`);
    return Number(word);
  });
  return [KIND.arrival, c, tag, length];
}
const eventText = ([kind, c, tag, length]) => (kind === KIND.send ? "send" : `in ${c} ${length} ${tag}`);

// The text of a plan, with the line of each row.
function writeText(plan) {
  const out = [], lines = [];
  let ruleLine = 0;
  const put = (line) => out.push(line);
  if (plan.rule !== "") {
    plan.ruleAbove.forEach(put);
    put(`rule ${plan.rule}`);
    ruleLine = out.length;
  }
  plan.rows.forEach((row, i) => {
    row.above.forEach(put);
    const name = row.name.trim() ? ` "${row.name.replace(/["\t]/g, " ")}"` : "";
    put(`class ${i + 1}${name}: ${row.kind}, parent ${row.parent}, weight ${row.weight}`
        + (row.kind === "leaf" ? `, longest ${row.longest}` : "") +
      (row.remark ? " " + row.remark : ""));
    lines.push(out.length);
  });
  plan.tail.forEach(put);
  return { text: out.length ? out.join("\n") + "\n" : "", lines, ruleLine };
}

// ---- Records

// The first cell of the rows that is no number: row and field, or nothing.
function wordFault(plan) {
  for (const [i, row] of plan.rows.entries()) {
    for (const field of row.kind === "leaf" ? ["parent", "weight", "longest"] : ["parent", "weight"]) {
      if (!/^[0-9]+$/.test(row[field])) return { row: i, field, word: row[field] };
    }
  }
  return null;
}

// The records of a plan, for the library to lay; a 64th class is refused whatever comes after it, so no more are handed on.
function recordsOf(plan) {
  const records = plan.rule === "" ? [] : [[KIND.rule, clamped(plan.rule, "rule")]];
  for (const row of plan.rows.slice(0, 64)) {
    const head = [KIND[row.kind], clamped(row.parent, "parent"), clamped(row.weight, "weight")];
    records.push(row.kind === "leaf" ? [...head, clamped(row.longest, "longest")] : head);
  }
  records.push([KIND.end]);
  return records;
}

// What a plan's bytes say, record by record, as far as they can be read: a walk that judges nothing. Each record has its place, its length
// as its kind says it, and its row.
function walk(bytes) {
  const plan = emptyPlan(), records = [];
  const number = (at, count) => bytes.subarray(at, at + count).reduce((n, b) => n * 256 + b, 0);
  let at = 0;
  for (;;) {
    const kind = bytes[at];
    const length = { 0: 1, 1: 6, 2: 8, 3: 2 }[kind];
    const whole = length !== undefined && at + length <= bytes.length;
    if (at < bytes.length) records.push({ at, kind, length: length ?? 1, whole, row: kind === 1 || kind === 2 ? plan.rows.length : -1 });
    if (!whole || kind === 0 || (kind === 3 && at > 0)) break;
    if (kind === 3) plan.rule = String(bytes[1]);
    else plan.rows.push(newRow(kind === 1 ? "inner" : "leaf", bytes[at + 1], number(at + 2, 4), kind === 2 ? number(at + 6, 2) : ""));
    at += length;
  }
  return { plan, records };
}

// The plan of a tree that the library has read.
function planOfTree(tree, rule) {
  const plan = emptyPlan();
  plan.rule = rule;
  for (let i = 1; i <= tree.count; i++) {
    plan.rows.push(newRow((tree.leaves >> BigInt(i)) & 1n ? "leaf" : "inner", tree.parent[i], tree.weight[i], tree.longest[i]));
  }
  return plan;
}

// Where the fault of a number and a place is: a row and its field, the rule, or the plan as a whole.
const FIELD = { 4: "parent", 5: "weight", 6: "longest", 7: "weight", 8: "kind", 22: "weight" };
function whereIs(number, place, places, ruled) {
  if (number === 7 || number === 8 || number === 22) return { row: place - 1, field: FIELD[number] };
  if (number === 17) return { row: -1, field: "rule" };
  if (number >= 3 && number <= 6) return { row: places.indexOf(place) - (ruled ? 1 : 0), field: FIELD[number] || "class" };
  return { row: -1, field: "plan" };
}

// ---- Rows added, moved and taken away: the numbers of the classes follow, and so do the parents that name them

const parentIndex = (plan, i) => {
  const word = plan.rows[i].parent;
  return /^[0-9]+$/.test(word) ? Number(word) - 1 : NaN; // -1 is the root
};
const childrenOf = (plan, i) => plan.rows.map((_, k) => k).filter((k) => parentIndex(plan, k) === i);

// A row and all below it.
function below(plan, i, seen = new Set()) {
  if (seen.has(i)) return seen;
  seen.add(i);
  for (const k of childrenOf(plan, i)) below(plan, k, seen);
  return seen;
}

// The rows in another order, or some of them; a parent that is gone becomes the root.
function ordered(plan, order) {
  const now = new Map(order.map((old, i) => [old, i]));
  plan.rows = order.map((old) => {
    const row = plan.rows[old];
    const parent = parentIndex(plan, old);
    if (parent >= 0 && parent < plan.rows.length) return { ...row, parent: String((now.get(parent) ?? -1) + 1) };
    return row;
  });
}
const allRows = (plan) => plan.rows.map((_, i) => i);

// A class under a parent, -1 for the root, after all that is below it; its row.
function addRow(plan, parent, kind) {
  const under = parent < 0 ? allRows(plan) : [...below(plan, parent)];
  const at = under.length ? Math.max(...under) + 1 : 0;
  const order = allRows(plan);
  plan.rows.push(newRow(kind, parent + 1, 1, 1500));
  order.splice(at, 0, plan.rows.length - 1);
  ordered(plan, order);
  return at;
}

// A class and all below it are taken away; how many.
function removeRow(plan, i) {
  const gone = below(plan, i);
  ordered(plan, allRows(plan).filter((k) => !gone.has(k)));
  return gone.size;
}

// A class and all below it before or after its next sibling; its row now, or -1 where there is none on that side.
function moveRow(plan, i, step) {
  const siblings = childrenOf(plan, parentIndex(plan, i));
  const other = siblings[siblings.indexOf(i) + step];
  if (other === undefined) return -1;
  const moved = below(plan, i);
  const order = allRows(plan).filter((k) => !moved.has(k));
  const at = step < 0 ? order.indexOf(other) : Math.max(...[...below(plan, other)].map((k) => order.indexOf(k))) + 1;
  order.splice(at, 0, ...[...moved].sort((a, b) => a - b));
  ordered(plan, order);
  return order.indexOf(i);
}

// The rows as a tree: each with its depth, a class before its children; rows that no path leads to from the root stand at the end.
function treeOrder(plan) {
  const out = [], seen = new Set(), children = new Map();
  plan.rows.forEach((_, i) => {
    const p = parentIndex(plan, i);
    if (!children.has(p)) children.set(p, []);
    children.get(p).push(i);
  });
  const visit = (i, depth) => {
    if (seen.has(i)) return;
    seen.add(i);
    out.push({ row: i, depth });
    for (const k of children.get(i) ?? []) visit(k, depth + 1);
  };
  for (const k of children.get(-1) ?? []) visit(k, 1);
  for (const i of allRows(plan)) if (!seen.has(i)) visit(i, 1);
  return out;
}
