// The page: what is shown, and what is done with it. What judges, shares out, mends, writes and runs is the library (library.js).

const $ = (id) => document.getElementById(id);
const figure = new Intl.NumberFormat("en-US");
const grouped = (n) => figure.format(n);
const many = (n, one, more = one + "s") => `${grouped(n)} ${n === 1 ? one : more}`;
const hue = (c) => (c * 137.5) % 360;

function make(tag, props = {}, ...inside) {
  const element = document.createElement(tag);
  for (const [name, value] of Object.entries(props)) {
    if (name === "class") element.className = value;
    else if (name.startsWith("on")) element[name] = value;
    else if (value === true) element.setAttribute(name, "");
    else if (value !== false && value !== null && value !== undefined) element.setAttribute(name, value);
  }
  element.append(...inside.filter((part) => part !== null));
  return element;
}
// A text is set only where it is another, so that a screen reader is told what is new and nothing else, and little is drawn anew.
function say(element, text) {
  const node = element.firstChild;
  if (node && node === element.lastChild && node.nodeType === 3) {
    if (node.data !== text) node.data = text;
  } else if (node || text) element.textContent = text;
}

let lib;
const state = {
  plan: emptyPlan(), text: { text: "", lines: [], ruleLine: 0 }, textFault: null, raw: null, recording: null, file: "plan",
  judged: null, kept: null, undo: [], redo: [], key: null, run: null, rounds: 150, chosen: -1,
};
const titleOf = (row, i) => `class ${i + 1}` + (row.name.trim() ? ` ${row.name.trim()}` : "");

// ---- A change of the plan, and back

// Changes under one key, as the keystrokes in one cell, are one step back.
function change(key, edit) {
  if (key === null || key !== state.key) {
    state.undo.push(JSON.stringify(state.plan));
    state.redo = [];
  }
  state.key = key;
  state.raw = state.recording = state.textFault = null;
  edit(state.plan);
}
function back(from, to) {
  if (!from.length) return;
  to.push(JSON.stringify(state.plan));
  state.plan = JSON.parse(from.pop());
  state.key = state.raw = state.recording = state.textFault = null;
  redraw("all");
}
const undo = () => back(state.undo, state.redo);
const redo = () => back(state.redo, state.undo);

// ---- The verdict

// What is said of the plan as it stands: a text or a cell that is no number, or the library's verdict on its records.
function judge() {
  if (state.textFault) return { good: false, fault: "text" };
  if (state.raw) return { ...lib.open(state.raw), good: false, bytes: state.raw, where: { row: -1, field: "raw" } };
  const word = wordFault(state.plan);
  if (word) return { good: false, fault: "word", where: word };
  const { bytes, places } = lib.lay(recordsOf(state.plan));
  const opened = lib.open(bytes);
  const where = opened.number ? whereIs(opened.number, opened.place, places, state.plan.rule !== "") : null;
  return { ...opened, good: opened.number === 0, bytes, where };
}

function refusalParts(number, place) {
  const [means, where, todo] = REFUSALS[number] ?? ["", "", ""];
  return [
    make("p", {}, make("b", {}, `Refused: number ${number}, place ${place}.`), ` ${means[0].toUpperCase()}${means.slice(1)}.`),
    make("p", { class: "dim" }, `Place: ${where}. ${todo}.`),
  ];
}

function drawVerdict() {
  const j = state.judged, box = $("verdict"), parts = [];
  if (j.fault === "text") {
    parts.push(make("p", {}, make("b", {}, "The text cannot be read."), ` Line ${state.textFault.line}: ${state.textFault.message}.`),
      make("p", { class: "dim" }, "The tree shows the plan as it was before."));
  } else if (j.fault === "word") {
    const { row, field, word } = j.where;
    parts.push(make("p", {}, make("b", {}, "Not a number."),
        ` ${titleOf(state.plan.rows[row], row)}: ${field} is “${word}”; expected digits alone.`));
  } else if (j.good) {
    const leaves = state.plan.rows.filter((row) => row.kind === "leaf").length;
    parts.push(make("p", {}, make("b", {}, "The plan is taken."),
        ` ${many(j.tree.count, "class", "classes")}, ${many(leaves, "leaf", "leaves")}, Q ${grouped(j.size)} bytes,`
      + ` rule ${j.tree.rule}, ${many(lib.write(j.tree).used, "byte")} to save.`),
      make("p", { class: "dim" }, "What is saved is what the proved writer writes of this plan; it reads again as this plan."));
  } else {
    parts.push(...refusalParts(j.number, j.place));
  }
  const line = lineOfFault();
  if (!j.good && (line || (j.where && j.where.row >= 0) || j.where?.field === "rule"))
    parts[0].append(make("button", { class: "go", onclick: goThere }, line && !$("view-text").hidden ? `Go to line ${line}` : "Go to it"));
  if (j.number === 7) parts[0].append(make("button", { class: "go", id: "mend", onclick: showMending }, "Mend: show what would change"));
  const now = make("div", {}, ...parts);
  if (box.innerHTML !== now.innerHTML) box.replaceChildren(...now.childNodes);
  box.className = j.good ? "" : "bad";
  $("save").disabled = !j.good;
  $("undo").setAttribute("aria-disabled", String(!state.undo.length));
  $("redo").setAttribute("aria-disabled", String(!state.redo.length));
}

// The line of the text that is wrong, or 0.
function lineOfFault() {
  const j = state.judged;
  if (j.fault === "text") return state.textFault.line;
  if (!j.where) return 0;
  if (j.where.field === "rule") return state.text.ruleLine;
  return j.where.row >= 0 ? state.text.lines[j.where.row] ?? 0 : 0;
}

function goThere() {
  const j = state.judged, line = lineOfFault();
  if (j.fault === "text" || !$("view-text").hidden) {
    showView("text");
    const text = $("text"), before = text.value.split("\n").slice(0, line - 1).join("\n").length + (line > 1 ? 1 : 0);
    text.focus();
    text.setSelectionRange(before, before + (text.value.split("\n")[line - 1] ?? "").length);
    return;
  }
  if (j.where.field === "rule") return document.querySelector('#rule input[value="1"]').focus();
  showView("tree");
  cellOf(j.where.row, j.where.field === "class" ? "name" : j.where.field)?.focus();
}

// ---- Mending: what would change is shown, and taken or left

function showMending() {
  const mended = lib.mend(state.judged.bytes), box = $("mending");
  const leave = make("button", { onclick: leaveMending }, "Leave the plan as it is");
  const title = make("p", { id: "mending-title" });
  if (mended.number) {
    title.append("It cannot be mended by weights alone.");
    box.replaceChildren(title, ...refusalParts(mended.number, mended.place), leave);
    mark(whereIs(mended.number, mended.place, [], false));
  } else {
    const each = mended.changes.length === 1 ? "" : ", each";
    title.append(make("b", {},
        `Mending raises ${many(mended.changes.length, "weight")}${each} to the least that the rules allow, and changes nothing else:`));
    const list = make("ul", {}, ...mended.changes.map((c) => make("li", {},
        `${titleOf(state.plan.rows[c.class - 1], c.class - 1)}: weight ${grouped(c.old)} → ${grouped(c.new)}`)));
    const take = make("button", { id: "take-mending", onclick: () => takeMending(mended.changes) }, mended.changes.length === 1
        ? "Take this weight" : "Take these weights");
    box.replaceChildren(title, list, make("div", { class: "tools" }, take, leave));
  }
  box.hidden = false;
  (box.querySelector("#take-mending") ?? leave).focus();
}
function leaveMending() {
  $("mending").hidden = true;
  mark(state.judged.where);
  $("mend")?.focus();
}
function takeMending(changes) {
  change(null, (plan) => changes.forEach((c) => { plan.rows[c.class - 1].weight = String(c.new); }));
  redraw("all");
  $("undo").focus();
}
