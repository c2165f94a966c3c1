// Files, everything drawn anew, and the beginning: what each control does.

// ---- Files

const asText = (bytes) => [0xef, 9, 10, 13].includes(bytes[0]) || (bytes[0] >= 0x20 && bytes[0] < 0x7f);

// A plan out of a file: its rows, and the events after it. Bytes that rows cannot show stay as they are until something is edited.
function planOfFile(bytes) {
  if (bytes.length && asText(bytes)) {
    const text = new TextDecoder().decode(bytes);
    return { text, ...readText(text) };
  }
  const opened = lib.open(bytes), walked = walk(bytes);
  if (opened.number === 0) {
    const rule = opened.tree.rule === 2 ? "2" : bytes[0] === KIND.rule ? "1" : "";
    const rest = walkEvents(bytes, opened.used);
    return { plan: planOfTree(opened.tree, rule), events: rest.events, recording: bytes.length > opened.used ? bytes : null };
  }
  const again = lib.open(lib.lay(recordsOf(walked.plan)).bytes);
  return { plan: walked.plan, events: [], raw: again.number === opened.number && again.place === opened.place ? null : bytes };
}
async function openFile(file, take) {
  try {
    const bytes = new Uint8Array(await file.arrayBuffer());
    if (bytes[0] >= 0xfe && bytes[1] >= 0xfe) throw new TextFault(1, "a text in UTF-16: save it as plain text (UTF-8)");
    take(planOfFile(bytes), file.name);
  } catch (fault) {
    if (!(fault instanceof TextFault)) throw fault;
    const text = new TextDecoder().decode(new Uint8Array(await file.arrayBuffer()));
    $("text").value = text;
    state.textFault = fault;
    redraw("text");
    showView("text");
  }
  document.body.dataset.opened = String(Number(document.body.dataset.opened ?? 0) + 1);
}
function takePlan(read, name) {
  change(null, () => { state.plan = read.plan; });
  state.raw = read.raw ?? null;
  state.file = name.replace(/[.][^.]*$/, "") || "plan";
  if (read.events.length || read.recording) $("events").value = read.events.map(eventText).join("\n");
  state.recording = read.recording ?? null;
  redraw("all");
  if (state.raw) showView("bytes");
}
function download(bytes, name) {
  const url = URL.createObjectURL(new Blob([bytes], { type: "application/octet-stream" }));
  make("a", { href: url, download: name }).click();
  setTimeout(() => URL.revokeObjectURL(url), 10000);
}

// ---- Everything, anew: `from` says what was edited, so that it is not written over while one types

let shape = "", rowsDue = false;
// The rows are made anew when they are seen, and the wrong cell is marked.
function drawTree() {
  if ($("view-tree").hidden) return;
  if (rowsDue) drawRows();
  rowsDue = false;
  mark(state.judged.where);
}
function redraw(from) {
  state.judged = judge();
  $("mending").hidden = true;
  const now = JSON.stringify([treeOrder(state.plan).map((o) => [o.row, o.depth, state.plan.rows[o.row].kind]),
      state.plan.rows.map((row) => row.name)]);
  rowsDue ||= from === "all" || from === "text";
  drawTree();
  drawText(from !== "text" && !state.textFault);
  drawVerdict();
  drawBytes();
  drawRule();
  drawRates(from === "all" || now !== shape);
  shape = now;
  clearTimeout(drawTwo.timer);
  drawTwo.timer = setTimeout(drawTwo, 0);
  runLater();
}
// The run is drawn after what was edited has been: at once, or, where it has many events, when typing rests.
function runLater() {
  clearTimeout(runLater.timer);
  document.body.dataset.run = "due";
  runLater.timer = setTimeout(drawRun, $("events").value.length < 2000 ? 0 : 200);
}

const EXAMPLES = {
  gateway: () => readText(GATEWAY).plan,
  p: () => readText(TREE_P).plan,
  none: emptyPlan,
  63: () => {
    const plan = emptyPlan();
    for (let k = 0; k < 3; k++) {
      plan.rows.push({ ...newRow("inner", 0, 60 * (k + 1)), name: `hall ${k + 1}` });
      const parent = plan.rows.length;
      for (let n = 1; n <= 20; n++) plan.rows.push({ ...newRow("leaf", parent, 3 * (k + 1), 64 * n), name: `hall ${k + 1} line ${n}` });
    }
    return plan;
  },
  deep: () => {
    const plan = emptyPlan();
    for (let k = 0; k < 62; k++) plan.rows.push(newRow("inner", k, 1));
    plan.rows.push(newRow("leaf", 62, 1, 1500));
    return plan;
  },
};

// ---- What each control does

function listenToFiles() {
  const open = (id, take) => {
    $(id).onchange = async () => {
      if ($(id).files[0]) await openFile($(id).files[0], take);
      $(id).value = "";
    };
  };
  open("open", takePlan);
  open("open-run", takePlan);
  open("open-kept", (read, name) => keep(read.plan, name));
  $("save").onclick = () => download(lib.write(state.judged.tree).bytes, `${state.file}.bin`);
  const words = () => (state.textFault ? $("text").value : state.text.text);
  $("save-text").onclick = () => download(new TextEncoder().encode(words()), `${state.file}.txt`);
  $("example").onchange = () => {
    const name = $("example").value;
    if (!name) return;
    takePlan({ plan: EXAMPLES[name](), events: [] }, name === "p" ? "tree_p" : name);
    $("events").value = name === "p" ? LISTING : fillEvents();
    $("example").value = "";
  };
}
function listenToPlan() {
  $("undo").onclick = undo;
  $("redo").onclick = redo;
  for (const radio of document.querySelectorAll("#rule input")) {
    radio.onchange = () => {
      change(null, (plan) => { plan.rule = radio.value === "2" ? "2" : ""; });
      redraw("all");
    };
  }
  $("rows").onkeydown = rowKeys;
  $("mending").onkeydown = (event) => { if (event.key === "Escape") leaveMending(); };
  $("text").oninput = takeText;
  $("text").onscroll = () => { $("gutter").scrollTop = $("text").scrollTop; };
  for (const view of ["tree", "text", "bytes"]) $(`tab-${view}`).onclick = () => showView(view);
  document.querySelector(".tabs").onkeydown = tabKeys;
  document.onkeydown = (event) => {
    if (!(event.ctrlKey || event.metaKey) || event.target.tagName === "TEXTAREA") return;
    const key = event.key.toLowerCase(), step = key === "y" || (key === "z" && event.shiftKey) ? redo : key === "z" ? undo : null;
    if (!step) return;
    event.preventDefault();
    step();
  };
}
function listenToRates() {
  $("capacity").oninput = () => redraw("rates");
  $("clear-requests").onclick = () => {
    change(null, (plan) => plan.rows.forEach((row) => { row.request = ""; }));
    redraw("all");
  };
  $("with-bytes").onchange = () => $("rates").classList.toggle("with-bytes", $("with-bytes").checked);
  $("keep").onclick = () => keep(state.plan, `this plan as it was kept${state.file === "plan" ? "" : `, ${state.file}`}`);
  $("forget").onclick = () => {
    state.kept = null;
    drawTwo();
    $("keep").focus();
  };
  $("swap").onclick = () => {
    const was = state.kept;
    keep(state.plan, "the plan that was edited");
    change(null, () => { state.plan = copyOf(was.plan); });
    redraw("all");
  };
}
function listenToRun() {
  const events = (words) => {
    state.recording = null;
    if (words !== undefined) $("events").value = words;
    runLater();
  };
  $("events").oninput = () => events();
  $("fill").onclick = () => events(fillEvents());
  $("fill-lone").onclick = () => events(leavesToFill().length ? fillLone() : "");
  $("clear-events").onclick = () => events("");
  $("strips").onclick = (event) => { if (event.target.dataset.packet) choosePacket(Number(event.target.dataset.packet)); };
  $("strips").onkeydown = stripKeys;
  $("more-rounds").onclick = () => {
    state.rounds += 300;
    drawStrips();
  };
  $("packets-all").ontoggle = drawPackets;
}
function begin() {
  listenToFiles();
  listenToPlan();
  listenToRates();
  listenToRun();
  state.plan = EXAMPLES.gateway();
  state.file = "gateway";
  $("events").value = fillEvents();
  redraw("all");
  document.body.dataset.ready = "yes";
}

const LISTING = ["in 2 2 1", "in 3 10 2", "in 3 10 3", "in 4 10 4", "send", "send", "send", "send", "send"].join("\n");
loadLibrary(Uint8Array.from(atob(WASM), (c) => c.charCodeAt(0))).then((loaded) => { lib = loaded; begin(); }).catch((fault) => {
  $("verdict").className = "bad";
  $("verdict").textContent = `This browser cannot run the page: ${fault}`;
});
