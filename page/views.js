// The plan as a tree of rows, as a text and as bytes: three views of one plan, and what is wrong marked in each.

// ---- The plan as a tree

const cellOf = (row, field) => document.querySelector(`#rows [data-row="${row}"][data-field="${field}"]`);

function mark(where) {
  for (const cell of document.querySelectorAll('#rows [aria-invalid], #rows .wrong, #rows .wrong-row, #rule.wrong')) {
    cell.removeAttribute("aria-invalid");
    cell.removeAttribute("aria-describedby");
    cell.classList.remove("wrong", "wrong-row");
  }
  if (!where) return;
  if (where.field === "rule") $("rule").classList.add("wrong");
  const cell = cellOf(where.row, where.field);
  if (!cell) return;
  cell.closest("tr").classList.add("wrong-row");
  if (where.field === "class") return cell.classList.add("wrong");
  cell.setAttribute("aria-invalid", "true");
  cell.setAttribute("aria-describedby", "verdict");
}

function drawRows() {
  const order = treeOrder(state.plan), deepest = Math.max(1, ...order.map((o) => o.depth)), body = $("rows").tBodies[0];
  const focus = document.activeElement?.closest?.("#rows") ? { ...document.activeElement.dataset } : null;
  document.documentElement.style.setProperty("--step", `${Math.min(1.1, 14 / deepest)}rem`);
  document.documentElement.style.setProperty("--narrow-step", `${Math.min(1.1, 6 / deepest)}rem`);
  body.replaceChildren(rootRow(), ...order.map(({ row, depth }) => oneRow(row, depth)));
  if (!focus?.field) return;
  cellOf(focus.row, focus.field)?.focus();
  if (document.activeElement.tagName === "INPUT") document.activeElement.select();
}
function rootRow() {
  return make("tr", {}, make("th", { scope: "row" }, "0 root"), make("td", { colspan: 5 }), adders(-1, "the root"));
}
function adders(row, title, more = []) {
  const add = (kind) => make("button", {
    "data-act": kind, "data-row": row, "data-field": `add-${kind}`,
    "aria-label": `Add ${kind === "leaf" ? "a leaf" : "an inner class"} under ${title}`,
    onclick: () => {
      let at;
      change(null, (plan) => { at = addRow(plan, row, kind); });
      redraw("all");
      cellOf(at, "name").focus();
    },
  }, kind === "leaf" ? "+ leaf" : "+ inner");
  return make("td", { class: "acts" }, add("leaf"), " ", add("inner"), ...more.flatMap((b) => [" ", b]));
}
function oneRow(i, depth) {
  const row = state.plan.rows[i], title = titleOf(row, i);
  const input = (field, kind) => {
    const off = field === "longest" && row.kind !== "leaf";
    const element = make("input", {
      class: kind, "data-row": i, "data-field": field, "aria-label": `${field} of ${title}`, autocomplete: "off",
          inputmode: kind === "num" ? "numeric" : null,
      maxlength: field === "name" ? 40 : null, disabled: off,
      oninput: () => {
        change(`${field} ${i}`, (plan) => { plan.rows[i][field] = field === "name" ? element.value : element.value.trim(); });
        redraw("rows");
      },
      // The rows are made anew when the focus has moved on, and it stays where it went.
      onchange: () => { if (field === "parent" || field === "name") setTimeout(() => redraw("all"), 0); },
    });
    element.value = off ? "" : row[field];
    return make("td", {}, element);
  };
  const kind = make("select", { "data-row": i, "data-field": "kind", "aria-label": `kind of ${title}` },
    ...["inner", "leaf"].map((k) => make("option", { value: k, selected: row.kind === k }, k)));
  kind.onchange = () => {
    const longest = kind.value === "leaf" ? row.longest || "1500" : "";
    change(null, (plan) => Object.assign(plan.rows[i], { kind: kind.value, longest }));
    redraw("all");
  };
  const act = (name, sign, label, todo) => make("button", { "data-row": i, "data-field": name, "aria-label": `${label} ${title}`,
      title: `${label} ${title}`, onclick: todo }, sign);
  const acts = [
    act("up", "↑", "Move up", () => moveBy(i, -1)), act("down", "↓", "Move down", () => moveBy(i, 1)),
        act("gone", "✕", "Take away", () => takeAway(i)),
  ];
  const swatch = row.kind === "leaf" ? make("span", { class: "swatch", style: `--h:${hue(i + 1)}`, "aria-hidden": "true" }) : null;
  return make("tr", { style: `--depth:${depth}` },
    make("th", { scope: "row", "data-row": i, "data-field": "class" }, ...(swatch ? [swatch] : []), String(i + 1)),
    input("name", "name"), make("td", {}, kind), input("parent", "num"), input("weight", "num"), input("longest", "num"),
    row.kind === "inner" ? adders(i, title, acts) : make("td", { class: "acts" }, ...acts.flatMap((b) => [b, " "])));
}
function moveBy(i, step) {
  let now = -1;
  const before = copyOf(state.plan);
  if (moveRow(before, i, step) < 0) return;
  change(null, (plan) => { now = moveRow(plan, i, step); });
  const field = document.activeElement.dataset?.field ?? "name";
  document.activeElement.blur();
  redraw("all");
  cellOf(now, field)?.focus();
}
function takeAway(i) {
  change(null, (plan) => removeRow(plan, i));
  redraw("all");
  (cellOf(Math.min(i, state.plan.rows.length - 1), "gone") ?? document.querySelector("#rows [data-act]")).focus();
}
function rowKeys(event) {
  const { row, field } = event.target.dataset;
  if (row === undefined || (event.key !== "ArrowUp" && event.key !== "ArrowDown")) return;
  const step = event.key === "ArrowUp" ? -1 : 1;
  if (event.altKey) {
    event.preventDefault();
    return Number(row) < 0 ? undefined : moveBy(Number(row), step);
  }
  if (event.target.tagName === "SELECT") return;
  let tr = event.target.closest("tr");
  do tr = step < 0 ? tr.previousElementSibling : tr.nextElementSibling;
      while (tr && !tr.querySelector(`[data-field="${field}"]:not(:disabled)`));
  event.preventDefault();
  tr?.querySelector(`[data-field="${field}"]`).focus();
}

// ---- The plan as a text, and as bytes

function drawText(written) {
  if (written) {
    state.text = writeText(state.plan);
    if ($("text").value !== state.text.text) $("text").value = state.text.text;
  }
  if ($("view-text").hidden) return;
  const wrong = lineOfFault(), count = $("text").value.split("\n").length;
  $("text").setAttribute("aria-invalid", wrong ? "true" : "false");
  $("text").style.setProperty("background-image", wrong ? "linear-gradient(var(--bad-soft), var(--bad-soft))" : "none");
  $("text").style.backgroundSize = "100% 19.5px";
  $("text").style.backgroundPosition = `0 calc(.4rem + ${(wrong - 1) * 19.5}px)`;
  const sign = (n) => (n === wrong ? make("span", { class: "wrong-line" }, `▶ ${n}`) : String(n));
  $("gutter").replaceChildren(...Array.from({ length: count }, (_, i) => [sign(i + 1), "\n"]).flat());
  $("gutter").scrollTop = $("text").scrollTop;
}
// Requests are in no text: a class keeps its own by its name, or else by its number.
function takeText() {
  const value = $("text").value;
  try {
    const read = readText(value), was = state.plan.rows;
    const named = new Map(was.filter((row) => row.name).map((row) => [row.name, row.request]));
    change("text", () => {
      read.plan.rows.forEach((row, i) => { row.request = (row.name && named.get(row.name))
          || (was[i]?.name === row.name ? was[i].request : "") || ""; });
      state.plan = read.plan;
    });
    state.text = { text: value, lines: read.lines, ruleLine: read.ruleLine };
    if (read.events.length) $("events").value = read.events.map(eventText).join("\n");
  } catch (fault) {
    if (!(fault instanceof TextFault)) throw fault;
    state.textFault = fault;
    state.key = null;
  }
  redraw("text");
}

const SPAN = { parent: [1, 2], weight: [2, 6], longest: [6, 8], rule: [1, 2], kind: [0, 1] };
function drawBytes() {
  if ($("view-bytes").hidden) return;
  const j = state.judged, body = $("bytes").tBodies[0];
  body.replaceChildren();
  if (!j.bytes) return;
  const hex = (from, to) => Array.from(j.bytes.subarray(from, to), (b) => b.toString(16).padStart(2, "0")).join(" ");
  const { records } = walk(j.bytes);
  const wrongAt = j.good || [7, 8, 9].includes(j.number) ? -1 : j.place;
  for (const { at, kind, length, row, whole } of records) {
    const end = Math.min(at + length, j.bytes.length), wrong = at === wrongAt || (!j.good && row >= 0 && j.where?.row === row);
    const [from, to] = !wrong ? [0, 0] : SPAN[j.where?.field] ?? [0, length];
    const cells = wrong ? [hex(at, at + from), " ", make("mark", {}, hex(at + from, Math.min(at + to, end))), " ", hex(at + to, end)]
        : [hex(at, end)];
    const what = row >= 0 ? `${titleOf(state.plan.rows[row] ?? { name: "" }, row)}: ${kind === 2 ? "leaf" : "inner"}`
        : { 0: "end of the plan", 3: "rule" }[kind] ?? `unknown kind ${kind}`;
    body.append(make("tr", wrong ? { class: "wrong-row" } : {}, make("td", {}, String(at)), make("td", {}, ...cells),
        make("td", {}, what + (whole ? "" : ", cut"))));
  }
  if (j.number === 1 && j.place === j.bytes.length) body.append(make("tr", { class: "wrong-row" }, make("td", {}, String(j.place)),
      make("td", {}, make("mark", {}, "nothing")), make("td", {}, "the end record is missing")));
}

function showView(name) {
  for (const view of ["tree", "text", "bytes"]) {
    $(`view-${view}`).hidden = view !== name;
    $(`tab-${view}`).setAttribute("aria-selected", String(view === name));
    $(`tab-${view}`).tabIndex = view === name ? 0 : -1;
  }
  drawTree();
  drawBytes();
  drawText(false);
  drawVerdict();
}
function tabKeys(event) {
  const tabs = ["tree", "text", "bytes"], at = tabs.indexOf(event.target.id.slice(4));
  const to = { ArrowRight: at + 1, ArrowLeft: at + 2, Home: 0, End: 2 }[event.key];
  if (to === undefined || at < 0) return;
  event.preventDefault();
  showView(tabs[to % 3]);
  $(`tab-${tabs[to % 3]}`).focus();
}
