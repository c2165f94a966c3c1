// A run drawn: its lines, round by round who sent, class by class what waited, and why a leaf is silent.

// ---- A run

// Bytes of the plan and its events, the place of each event, and how many there are; of a recording that was opened and not edited, its
// own.
function runInput(plan) {
  const events = readEvents($("events").value), head = recordsOf(plan);
  const laid = lib.lay([...head, ...events]);
  const places = laid.places.slice(head.length);
  if (state.recording && plan === state.plan) return { bytes: state.recording, places, count: events.length };
  return { bytes: laid.bytes, places, count: events.length };
}
function drawRun() {
  const box = $("run-said");
  state.run = null;
  $("events").removeAttribute("aria-invalid");
  try {
    if (!state.judged.good) say(box, "No run: the plan is not taken.");
    else {
      state.input = runInput(state.plan);
      const { text, whole } = lib.run(state.input.bytes);
      state.run = readRun(lib, state.input.bytes, text);
      say(box, runWords(whole));
    }
  } catch (fault) {
    if (!(fault instanceof TextFault)) throw fault;
    say(box, `The events cannot be read. Line ${fault.line}: ${fault.message}.`);
    $("events").setAttribute("aria-invalid", "true");
  }
  const lines = state.run ? state.run.lines.join("\n") : "";
  say($("lines"), lines);
  $("moment").max = state.input?.count ?? 0;
  if (state.run && document.activeElement !== $("moment")) $("moment").value = state.input.count;
  say($("moments"), state.run ? `of ${grouped(state.input.count)}` : "");
  state.chosen = -1;
  say($("packet"), "");
  say($("reason"), "");
  drawStrips();
  drawClasses();
  drawPackets();
  document.body.dataset.run = "drawn";
}
function runWords(whole) {
  const r = state.run, [word, a, b] = r.last.split(" ");
  if (word === "stop") return `Stopped: number ${a}, place ${b}. ${(REFUSALS[a] ?? [""])[0]}.`;
  const waits = a === "0" ? "none waits" : `${many(Number(a), "packet")} still ${a === "1" ? "waits" : "wait"}`;
  return `${many(r.packets.length, "packet")} in ${many(r.rounds, "round")}, ${grouped(r.total)} charged bytes; ${waits}.`
    + (whole ? "" : " The lines are not whole.");
}
const leafTitle = (c) => `${c} ${state.plan.rows[c - 1]?.name.trim() || "leaf"}`;

function drawStrips() {
  const strips = $("strips"), r = state.run;
  $("more-rounds").hidden = !r || r.rounds <= state.rounds;
  if (!r) return strips.replaceChildren();
  const rounds = new Map();
  r.packets.forEach((p, i) => {
    if (p.round > state.rounds) return;
    if (!rounds.has(p.round)) rounds.set(p.round, []);
    rounds.get(p.round).push([p, i]);
  });
  const length = (packets) => packets.reduce((sum, [p]) => sum + p.charge, 0);
  const longest = Math.max(1, ...[...rounds.values()].map(length));
  const out = [];
  for (let n = 1; n <= Math.min(r.rounds, state.rounds); n++) {
    const packets = rounds.get(n) ?? [];
    const strip = make("div", { class: "strip", style: `max-width:${(100 * length(packets)) / longest}%` },
        ...packets.map(([p, i]) => make("div", {
      class: "packet", role: "option", id: `packet-${i}`, "data-packet": i, "aria-selected": "false",
          style: `--h:${hue(p.class)};flex:${p.charge} 1 0`,
      "aria-label": `class ${leafTitle(p.class)}, ${p.length} bytes, tag ${p.tag}`,
          title: `class ${leafTitle(p.class)}, ${p.length} bytes, tag ${p.tag}: waited ${grouped(p.waited)} of ${grouped(p.bound)} bytes`,
    }, p.charge * 40 > longest ? String(p.class) : "")));
    out.push(make("div", { class: "round", role: "group", "aria-label": `round ${n}` }, make("span", { class: "what" }, `round ${n}`),
        packets.length ? strip : make("span", { class: "dim" }, "sent nothing")));
  }
  strips.replaceChildren(...out);
}
function choosePacket(i) {
  const p = state.run?.packets[i];
  if (!p || !$(`packet-${i}`)) return;
  $(`packet-${state.chosen}`)?.setAttribute("aria-selected", "false");
  state.chosen = i;
  $(`packet-${i}`).setAttribute("aria-selected", "true");
  $(`packet-${i}`).scrollIntoView({ block: "nearest" });
  $("strips").setAttribute("aria-activedescendant", `packet-${i}`);
  const time = (n) => (state.capacity ? `, ${ms(n, state.capacity)} ms` : "");
  say($("packet"), `Packet ${i + 1}: class ${leafTitle(p.class)}, ${p.length} bytes charged ${p.charge}, tag ${p.tag}, round ${p.round}.`
    + ` Accepted with ${grouped(p.held)} bytes in its queue; it waited ${grouped(p.waited)} bytes${time(p.waited)},`
    + ` of at most ${grouped(p.bound)}${time(p.bound)}.`);
}
function stripKeys(event) {
  const last = (state.run?.packets.length ?? 0) - 1;
  const to = { ArrowRight: state.chosen + 1, ArrowDown: state.chosen + 1, ArrowLeft: state.chosen - 1, ArrowUp: state.chosen - 1, Home: 0,
      End: last }[event.key];
  if (to === undefined) return;
  event.preventDefault();
  choosePacket(Math.min(Math.max(to, 0), last));
}

function drawClasses() {
  const body = $("classes").tBodies[0], r = state.run;
  if (!r) return body.replaceChildren();
  const other = otherRun(), rule = state.judged.tree.rule === 2 ? 1 : 2;
  $("other-rule").replaceChildren("longest wait", make("br"), `under rule ${rule}`);
  const nothing = { taken: 0, refused: 0, sent: 0, queue: [], wait: 0, bound: 0 };
  const leaves = state.plan.rows.map((row, i) => (row.kind === "leaf" ? i + 1 : 0)).filter((c) => c);
  body.replaceChildren(...leaves.map((c) => {
    const q = r.classes.get(c) ?? nothing;
    const why = make("button", { "data-leaf": c, "aria-label": `Why is class ${leafTitle(c)} silent?`, onclick: () => tellWhy(c) },
        make("span", { class: "swatch", style: `--h:${hue(c)}`, "aria-hidden": "true" }), leafTitle(c));
    const cells = [q.taken, q.refused, q.sent, q.queue.length, q.wait, q.bound].map(grouped);
    return make("tr", {}, make("th", { scope: "row" }, why), ...cells.map((x) => make("td", {}, x)),
        make("td", {}, q.bound ? `${((100 * q.wait) / q.bound).toFixed(1)}%` : ""),
      make("td", {}, other ? grouped(other.classes.get(c)?.wait ?? 0) : ""));
  }));
}
// The same events under the other rule.
function otherRun() {
  if (state.run.lines.length > 20000) return null;
  const plan = copyOf(state.plan);
  plan.rule = state.judged.tree.rule === 2 ? "" : "2";
  const { bytes } = runInput(plan);
  return readRun(lib, bytes, lib.run(bytes).text, false);
}
function tellWhy(c) {
  const { bytes, places, count } = state.input, given = Number($("moment").value);
  const k = Number.isInteger(given) && given >= 0 && given < count ? given : count;
  const line = lib.why(k === count ? bytes : bytes.subarray(0, places[k]), c);
  say($("reason"), `After event ${k} of ${count}: class ${reasonWords(line, leafTitle(c))} (${line.trim()})`);
}

function drawPackets() {
  const body = $("packets").tBodies[0];
  if (!$("packets-all").open || !state.run) return body.replaceChildren();
  const time = (n) => (state.capacity ? ms(n, state.capacity) : "");
  body.replaceChildren(...state.run.packets.slice(0, 2000).map((p, i) => make("tr", {},
      ...[i + 1, leafTitle(p.class), p.length, p.tag, p.round, grouped(p.held), grouped(p.waited), grouped(p.bound),
    time(p.waited), time(p.bound)].map((x) => make("td", {}, String(x))))));
}
const leavesToFill = () => state.plan.rows.map((row, i) => [i + 1, row.kind === "leaf" ? row.longest : ""])
  .filter(([, longest]) => /^[0-9]{1,5}$/.test(longest));
function fillEvents() {
  const out = [];
  for (let n = 0; n < 8; n++) for (const [c, longest] of leavesToFill()) out.push(`in ${c} ${longest} ${out.length + 1}`);
  return [...out, ...Array(out.length + 1).fill("send")].join("\n");
}
// The second leaf has packets for long, the first one a single packet in the middle, the others none: here the rule shows.
function fillLone() {
  const [[a, length], [b, busy] = [a, length]] = leavesToFill(), out = [];
  for (let n = 1; n <= 32; n++) out.push(`in ${b} ${busy} ${n}`);
  return [...out, "send", "send", `in ${a} ${length} 33`, ...Array(32).fill("send")].join("\n");
}
