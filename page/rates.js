// Rates and waits as a picture, the rule of the round size, and two plans side by side.

// ---- Rates and waits

// A number of a question: at most what 64 bits hold, so that the library refuses it by its number.
const asked = (word) => { const n = BigInt(word); return n > 0xffffffffffffffffn ? 0xffffffffffffffffn : n; };
const up = (x) => Math.ceil(x - 1e-9);
function ms(bytes, capacity) {
  const tenths = up((80 * bytes) / capacity);
  return tenths < 1000 ? (tenths / 10).toFixed(1) : grouped(up((8 * bytes) / capacity));
}

// What a good plan gives at a capacity: rates, and the waits of each leaf.
function figures(plan, bytes, capacity) {
  const requests = Array(64).fill(capacity);
  plan.rows.forEach((row, i) => { if (/^[0-9]+$/.test(row.request)) requests[i + 1] = asked(row.request); });
  const answer = lib.rates(bytes, capacity, requests);
  answer.waits = plan.rows.map((row, i) => (row.kind === "leaf" ? lib.waits(bytes, i + 1) : null));
  return answer;
}
const badRequest = (plan) => plan.rows.findIndex((row) => row.kind === "leaf" && row.request !== "" && !/^[0-9]+$/.test(row.request));

function drawRates(rebuild) {
  const plan = state.plan, body = $("rates").tBodies[0], word = $("capacity").value.trim();
  if (rebuild) body.replaceChildren(rateRow(-1, 0), ...treeOrder(plan).map(({ row, depth }) => rateRow(row, depth)));
  for (const cell of document.querySelectorAll("#rates [aria-invalid], #capacity[aria-invalid]")) cell.removeAttribute("aria-invalid");
  state.figures = null;
  const box = $("rates-said"), wrong = badRequest(plan);
  box.className = "";
  if (!state.judged.good) say(box, "No rates: the plan is not taken.");
  else if (!/^[0-9]+$/.test(word)) {
    say(box, "The capacity is digits alone, in kbit/s.");
    $("capacity").setAttribute("aria-invalid", "true");
  } else if (wrong >= 0) {
    say(box, `The request of ${titleOf(plan.rows[wrong], wrong)} is digits alone, in kbit/s, or empty.`);
    requestOf(wrong)?.setAttribute("aria-invalid", "true");
  } else {
    const answer = figures(plan, state.judged.bytes, asked(word));
    if (answer.number) {
      const parts = refusalParts(answer.number, answer.place).flatMap((part) => [...part.childNodes, " "]);
      if (box.dataset.refused !== `${answer.number} ${answer.place}`) box.replaceChildren(...parts);
      box.dataset.refused = `${answer.number} ${answer.place}`;
      box.className = "short";
      (answer.number === 20 ? $("capacity") : requestOf(answer.place - 1))?.setAttribute("aria-invalid", "true");
    } else {
      state.figures = answer;
      state.capacity = Number(word);
      delete box.dataset.refused;
      say(box, rateWords(plan, answer, state.capacity));
    }
  }
  for (const row of body.rows) fillRate(row);
}
const requestOf = (row) => document.querySelector(`#rates input[data-row="${row}"]`);

function rateRow(i, depth) {
  const leaf = i >= 0 && state.plan.rows[i].kind === "leaf";
  const title = i < 0 ? "0 root" : `${i + 1} ${state.plan.rows[i].name.trim() || state.plan.rows[i].kind}`;
  const tr = make("tr", { class: leaf ? "leaf" : "inner", "data-row": i, style: `--depth:${depth};--h:${hue(i + 1)}` },
    make("th", { scope: "row" }, ...(leaf ? [make("span", { class: "swatch", "aria-hidden": "true" })] : []), title));
  // A figure is laid out by itself, so that another one moves nothing.
  const cell = (name, inside = make("div", { class: "fig" })) => tr.append(make("td", { class: name }, inside));
  cell("weight");
  if (leaf) {
    const input = make("input", { class: "n", "data-row": i, inputmode: "numeric", autocomplete: "off",
        "aria-label": `request of ${titleOf(state.plan.rows[i], i)} in kbit/s` });
    input.value = state.plan.rows[i].request;
    input.oninput = () => {
      change(`request ${i}`, (plan) => { plan.rows[i].request = input.value.trim(); });
      redraw("rates");
    };
    cell("requests", input);
  } else cell("requests");
  for (const name of ["gets", "unallotted", "share"]) cell(name);
  cell("b", make("div", { class: "bar", role: "img" }, make("span", { class: "asks" }), make("span", { class: "gets" })));
  for (const name of ["alone", "full", "bytes alone-bytes", "bytes full-bytes"]) cell(name);
  return tr;
}
// The cells of a row are looked up once, and only what is new is written.
function fillRate(tr) {
  const i = Number(tr.dataset.row), row = state.plan.rows[i], f = state.figures, k = i + 1;
  if (!tr.parts) {
    const [, weight, requests, gets, left, share, bar, alone, full, aloneBytes, fullBytes] = Array.from(tr.cells, (td) => td.firstChild);
    const [asks, has] = bar.children;
    tr.parts = { weight, requests, input: requests.tagName === "INPUT" ? requests : null, gets, left, share, bar, asks, has, alone, full,
        aloneBytes, fullBytes, was: {} };
  }
  const part = tr.parts, put = (name, text) => {
    if (part.was[name] === text) return;
    part.was[name] = text;
    say(part[name], text);
  };
  const long = (name, text) => {
    if (part.was[name] === text) return;
    part.was[name] = text;
    part[name].style.width = text;
  };
  const flag = (name, sign, on) => {
    if (part.was[sign] !== on) part[name].classList.toggle(sign, (part.was[sign] = on));
  };
  put("weight", row ? row.weight : "");
  const short = f && f.gets[k] < f.requests[k], of = (n) => (100 * n) / state.capacity, w = f && row ? f.waits[i] : null;
  const request = f ? String(f.requests[k]) : "";
  if (part.input && part.was.input !== request) part.input.placeholder = part.was.input = request;
  if (!part.input) put("requests", f ? grouped(f.requests[k]) : "");
  put("gets", f ? grouped(f.gets[k]) + (short ? " ▼" : "") : "");
  flag("gets", "short", !!short);
  put("left", f && f.left[k] ? grouped(f.left[k]) : "");
  put("share", f ? `${of(f.gets[k]).toFixed(1)}%` : "");
  flag("asks", "none", !f);
  long("asks", f ? `${Math.min(100, of(f.requests[k])).toFixed(2)}%` : "0");
  flag("asks", "more", !!f && f.requests[k] > state.capacity);
  long("has", f ? `${Math.min(100, of(f.gets[k])).toFixed(2)}%` : "0");
  const label = f ? `asks ${grouped(f.requests[k])}, gets ${grouped(f.gets[k])} of ${grouped(state.capacity)} kbit/s` : "nothing";
  if (part.was.label !== label) part.bar.setAttribute("aria-label", (part.was.label = label));
  put("alone", w ? ms(w.alone, state.capacity) : "");
  put("full", w ? ms(w.full, state.capacity) : "");
  put("aloneBytes", w ? grouped(w.alone) : "");
  put("fullBytes", w ? grouped(w.full) : "");
}
function rateWords(plan, f, capacity) {
  const leaves = plan.rows.map((row, i) => (row.kind === "leaf" ? i + 1 : 0)).filter((k) => k);
  const short = leaves.filter((k) => f.gets[k] < f.requests[k]).length, stays = f.left.reduce((a, b) => a + b, 0);
  if (f.gets[0] === f.requests[0])
    return `Every request is met; ${grouped(capacity - f.requests[0])} of ${grouped(capacity)} kbit/s are not asked for.`;
  const isUnmet = (k) => f.gets[k] < f.requests[k];
  const unmet = plan.rows.reduce((sum, row, i) => sum + (row.parent === "0" && isUnmet(i + 1) ? Number(row.weight) : 0), 0);
  return `${grouped(f.requests[0])} kbit/s are requested; ${short} of ${many(leaves.length, "leaf", "leaves")}`
    + ` ${short === 1 ? "gets" : "get"} less than requested (▼).`
    + (stays ? ` Left over by the rounding to whole numbers: ${grouped(stays)} kbit/s.` : "")
    + (capacity < unmet ? ` The capacity is below ${grouped(unmet)}, the weight sum of the unmet classes under the root:`
      + " no class gets anything. Use smaller weights." : "");
}

// ---- The rule of the round size, and what it changes

function drawRule() {
  const j = state.judged, rule = state.plan.rule === "" ? "1" : state.plan.rule;
  for (const radio of document.querySelectorAll("#rule input")) radio.checked = radio.value === rule;
  const lone = state.plan.rows.map((row, i) => (j.good && row.kind === "leaf" ? loneSize(i) : 0)).filter((n) => n);
  const least = Math.min(...lone), most = Math.max(...lone);
  const lones = least === most ? grouped(least) : `${grouped(least)} to ${grouped(most)}`;
  say($("rule-says"), "Rates and the longest waits are the same under both rules: they are for the worst company. Under rule 2 a round is"
    + " short while few classes are active, so a packet that just missed its turn waits less for the next."
    + (j.good ? ` Here every main round has ${grouped(j.size)} bytes under rule 1; under rule 2 one in which a single leaf is active has`
      + ` ${lones}. Below, a run shows what waits become under each.` : ""));
}
// The size of a round with one active leaf: the weights up to the root, and the charge of its longest packet.
function loneSize(i) {
  let size = lib.charge(Number(state.plan.rows[i].longest));
  for (let k = i; k >= 0; k = parentIndex(state.plan, k)) size += Number(state.plan.rows[k].weight);
  return size;
}

// ---- Two plans side by side

function drawTwo() {
  const kept = state.kept, table = $("two"), box = $("two-said");
  $("swap").disabled = $("forget").disabled = !kept;
  table.hidden = !kept || !state.figures;
  if (!kept) return say(box, "No plan is kept.");
  if (!state.figures) return say(box, "Nothing to compare: this plan has no rates as it stands.");
  const bytes = lib.lay(recordsOf(kept.plan)).bytes, was = figures(kept.plan, bytes, BigInt(state.capacity));
  if (was.number) return say(box, `Nothing to compare: the kept plan is refused, number ${was.number}, place ${was.place}.`);
  const rows = pairs(kept.plan, state.plan).map(([a, b]) => twoRow(kept.plan, was, a, b));
  table.tBodies[0].replaceChildren(...rows);
  const differ = rows.filter((row) => row.classList.contains("differs")).length, size = lib.open(bytes);
  say(box, `Kept: ${kept.title}. ` + (differ ? `${differ} of ${rows.length} classes differ.` : "No class differs.")
    + (size.size !== state.judged.size ? ` Q ${grouped(size.size)} → ${grouped(state.judged.size)} bytes.` : "")
    + (size.tree.rule !== state.judged.tree.rule ? ` Rule ${size.tree.rule} → ${state.judged.tree.rule}.` : ""));
}
// Classes of the two plans that are the same: by name where both plans have it, or else by number.
function pairs(a, b) {
  const left = new Map(a.rows.map((row, i) => [row.name.trim() || `#${i + 1}`, i]));
  const out = [], met = new Set();
  b.rows.forEach((row, i) => {
    const k = left.get(row.name.trim() || `#${i + 1}`);
    if (k !== undefined) met.add(k);
    out.push([k ?? -1, i]);
  });
  a.rows.forEach((_, i) => { if (!met.has(i)) out.push([i, -1]); });
  return out;
}
function twoRow(keptPlan, was, a, b) {
  const side = (plan, f, i) => {
    if (i < 0) return ["", "", "", ""];
    const w = f.waits[i];
    return [plan.rows[i].weight, grouped(f.gets[i + 1]), w ? ms(w.alone, state.capacity) : "", w ? ms(w.full, state.capacity) : ""];
  };
  const before = side(keptPlan, was, a), now = side(state.plan, state.figures, b), says = [];
  if (a < 0) says.push("only in this plan");
  else if (b < 0) says.push("only in the kept plan");
  else {
    const x = keptPlan.rows[a], y = state.plan.rows[b];
    for (const field of ["kind", "parent", "weight", "longest", "request"])
      if (x[field] !== y[field]) says.push(`${field} ${x[field] || "–"} → ${y[field] || "–"}`);
    const more = state.figures.gets[b + 1] - was.gets[a + 1];
    if (more) says.push(`gets ${more > 0 ? "+" : "−"}${grouped(Math.abs(more))} kbit/s`);
    if (before[2] !== now[2]) says.push(`alone ${before[2] || "–"} → ${now[2] || "–"} ms`);
    if (before[3] !== now[3]) says.push(`32nd ${before[3] || "–"} → ${now[3] || "–"} ms`);
  }
  const row = b >= 0 ? state.plan.rows[b] : keptPlan.rows[a], number = a === b || a < 0 ? b + 1 : b < 0 ? a + 1 : `${a + 1} → ${b + 1}`;
  return make("tr", says.length ? { class: "differs" } : {}, make("th", { scope: "row" }, `${number} ${row.name.trim() || row.kind}`),
      ...before.map((x) => make("td", {}, x)),
    ...now.map((x, k) => make("td", k ? {} : { class: "second" }, x)), make("td", { class: "left second" }, says.join("; ")));
}
function keep(plan, title) {
  state.kept = { plan: copyOf(plan), title };
  drawTwo();
}
