// The built page driven in headless Chromium as a planner uses it: drive.mjs CHROMIUM PLANNER.html REPOSITORY [PICTURES]. Figures are
// held to
// docs/rates.md, to the listing and to the recorded bytes in the repository. With a folder PICTURES it also takes the pictures of the page.
// Its last lines are the size of the file and the time of a redraw. Status 1: something is not as it should be.
import fs from "node:fs";
import { browse } from "./browser.mjs";

const [program, file, root, pictures] = process.argv.slice(2);
const p = await browse(program, file);
let passed = 0;
const failed = [];
function check(what, got, wanted) {
  if (JSON.stringify(got) === JSON.stringify(wanted)) passed += 1;
  else failed.push(`${what}: ${JSON.stringify(got)}, expected ${JSON.stringify(wanted)}`);
}
const text = (id) => p.run(`$("${id}").textContent.replace(/\\s+/g, " ").trim()`);
const verdict = async () => (/number (\d+), place (\d+)/.exec(await text("verdict")) ?? []).slice(1).map(Number).join(" ")
    || (await text("verdict")).split(".")[0];
const rates = async () => (/number (\d+), place (\d+)/.exec(await text("rates-said")) ?? []).slice(1).map(Number).join(" ");
const drawn = () => p.until('document.body.dataset.run === "drawn"', "a run that is drawn");
const example = async (name) => { await p.run(`$("example").value = ${JSON.stringify(name)}; $("example").onchange()`); await drawn(); };
const setText = (value) => p.run(`$("text").value = ${JSON.stringify(value)}; $("text").dispatchEvent(new Event("input"))`);
const set = (selector, value) => p.run(`(() => {
  const e = document.querySelector(${JSON.stringify(selector)});
  e.value = ${JSON.stringify(value)};
  e.dispatchEvent(new Event("input"));
  e.dispatchEvent(new Event("change"));
})()`);
const cell = (row, field) => `#rows [data-row="${row}"][data-field="${field}"]`;
const marked = () => p.run(`(() => {
  $("tab-tree").click();
  const e = document.querySelector('#rows [aria-invalid="true"], #rows th.wrong, #rule.wrong');
  return e ? e.id || "class " + (Number(e.dataset.row) + 1) + " " + e.dataset.field : "";
})()`);
const wrongLine = () => p.run(`($("tab-text").click(), document.querySelector("#gutter .wrong-line")?.textContent ?? "")`);
let opened = 0;
async function open(bytes, input = "#open") {
  const name = `${p.folder}/given-${++opened}.${typeof bytes === "string" ? "txt" : "bin"}`;
  fs.writeFileSync(name, bytes);
  const before = await p.run('Number(document.body.dataset.opened ?? 0)');
  await p.give(input, name);
  await p.until(`Number(document.body.dataset.opened ?? 0) > ${before}`, "a file that is opened");
}
async function saved(id) {
  for (const f of fs.readdirSync(`${p.folder}/saved`)) fs.rmSync(`${p.folder}/saved/${f}`);
  await p.run(`$("${id}").click()`);
  for (let n = 0; n < 200; n++) {
    const [f] = fs.readdirSync(`${p.folder}/saved`).filter((name) => !name.endsWith(".crdownload"));
    if (f && fs.statSync(`${p.folder}/saved/${f}`).size) return { name: f, bytes: fs.readFileSync(`${p.folder}/saved/${f}`) };
    await new Promise((go) => setTimeout(go, 25));
  }
  throw new Error(`${id} saved nothing`);
}
const table = () => p.run(`[...$("rates").tBodies[0].rows].map((tr) => [...tr.cells].map((td) => {
  const input = td.querySelector("input");
  return input ? input.value || input.placeholder : td.innerText.trim().replace(/,/g, "");
}))`);

// ---- Tree P: the listing, the bytes, and back
const listing = fs.readFileSync(`${root}/second/tree_p.txt`, "utf8");
const treeP = fs.readFileSync(`${root}/crates/planread/stdin`);
await example("p");
check("tree P is taken", (await text("verdict")).split("What")[0],
    "The plan is taken. 4 classes, 3 leaves, Q 262 bytes, rule 1, 31 bytes to save.");
check("tree P's listing", (await p.run('$("lines").textContent')).trim(), listing.trim());
check("tree P's packets beside their bounds", await p.run('state.run.packets.map((x) => [x.class, x.round, x.waited, x.bound])'),
    [[4, 1, 84, 5764], [2, 2, 168, 22270], [3, 2, 252, 11266], [3, 2, 336, 22270]]);
check("tree P saved", (await saved("save")).bytes.toString("hex"), treeP.toString("hex"));
await set("#capacity", "100");
await set('#rates input[data-row="3"]', "20");
check("tree P's rates", (await table()).map((r) => r.slice(2, 5)), [["220", "100 ▼", "2"], ["200", "78 ▼", ""], ["100", "26 ▼", ""],
    ["100", "52 ▼", ""], ["20", "20", ""]]);

// ---- The gateway plan: every picture of docs/rates.md that is asked of it
await example("gateway");
const page = fs.readFileSync(`${root}/docs/rates.md`, "utf8");
const asked = [...page.matchAll(/```\nbin\/rates docs\/gateway\.txt (.*)\n```\n```\n([\s\S]*?)```/g)];
let figures = 0;
for (const [, words, shown] of asked) {
  if (shown.startsWith("stop")) continue;
  await p.run('$("clear-requests").click()');
  const [capacity, ...requests] = words.split(" ");
  await set("#capacity", capacity);
  for (const word of requests) await set(`#rates input[data-row="${word.split("=")[0] - 1}"]`, word.split("=")[1]);
  const wanted = new Map();
  for (const line of shown.split("\n")) {
    const rate = /^[│├└─ ]*(\d+) (?:root|time|events|cameras|gate|hall \d|mast)\s+(.*?%)/.exec(line);
    const wait = /^(\d+) [a-z]+(?: \d)?\s+(\d+)\s+(\d+)\s+([\d.]+)\s+(\d+)\s+([\d.]+)$/.exec(line);
    if (rate) wanted.set(`rate ${rate[1]}`, rate[2].replace("▼", " ▼ ").trim().split(/\s+/).join(" "));
    if (wait) wanted.set(`wait ${wait[1]}`, [wait[4], wait[6], wait[3], wait[5]].join(" "));
  }
  for (const [k, row] of (await table()).entries()) {
    check(`${words}: class ${k}`, [...row.slice(1, 6)].join(" ").trim().split(/\s+/).join(" "), wanted.get(`rate ${k}`));
    if (wanted.has(`wait ${k}`)) check(`${words}: wait of class ${k}`, row.slice(7).join(" "), wanted.get(`wait ${k}`));
    figures += 1 + wanted.has(`wait ${k}`);
  }
}
check("pictures of docs/rates.md", [asked.length > 3, figures > 40], [true, true]);

// ---- Refusals, each by its number and its place, with what is marked
const gateway = await p.run("GATEWAY");
const inner = "class 1: inner, parent 0, weight 9\n", leaf = (n, parent = 0, weight = 1,
    longest = 10) => `class ${n}: leaf, parent ${parent}, weight ${weight}, longest ${longest}\n`;
const typed = [
  [3, 504, Array.from({ length: 64 }, (_, i) => leaf(i + 1)).join(""), "class 64 class", 64],
  [4, 6, inner + leaf(2, 2), "class 2 parent", 2],
  [4, 8, leaf(1) + leaf(2, 1), "class 2 parent", 2],
  [4, 6, inner + leaf(2, 9999), "class 2 parent", 2],
  [5, 6, inner + leaf(2, 1, 0), "class 2 weight", 2],
  [5, 0, leaf(1, 0, 1000001), "class 1 weight", 1],
  [5, 0, leaf(1, 0, "99999999999999999999"), "class 1 weight", 1],
  [6, 0, leaf(1, 0, 1, 9217), "class 1 longest", 1],
  [6, 0, leaf(1, 0, 1, 0), "class 1 longest", 1],
  [7, 3, gateway.replace("weight 16", "weight 12"), "class 3 weight", 3],
  [8, 2, leaf(1) + "# a remark\nclass 2: inner, parent 0, weight 1\n", "class 2 kind", 3],
  [9, 0, "", "", 0],
  [17, 0, "rule 3\n" + leaf(1), "rule", 1],
];
for (const [number, place, words, cellMarked, line] of typed) {
  await setText(words);
  check(`typed: ${words.slice(0, 40)}`, [await verdict(), await marked(), await wrongLine()],
      [`${number} ${place}`, cellMarked, line ? `▶ ${line}` : ""]);
  check(`the row of docs/refusals.md, ${number}`, (await text("verdict")).includes(await p.run(`REFUSALS[${number}][2].slice(0, 30)`)),
      true);
}
const bytes = [
  [1, 0, []], [1, 6, [1, 0, 0, 0, 0, 3, 2, 1, 0, 0, 0]], [1, 8, [2, 0, 0, 0, 0, 1, 0, 10]],
      [2, 8, [2, 0, 0, 0, 0, 1, 0, 10, 16, 1, 0, 1, 0, 0, 0, 1]], [2, 0, [4]],
  [18, 8, [2, 0, 0, 0, 0, 1, 0, 10, 3, 2, 0]], [17, 0, [3, 9, 2, 0, 0, 0, 0, 1, 0, 10, 0]], [9, 0, [0]], [9, 0, [3, 2, 0]],
      [7, 1, [1, 0, 0, 0, 0, 1, 2, 1, 0, 0, 0, 2, 0, 10, 0]],
];
for (const [number, place, given] of bytes) {
  await open(Uint8Array.from(given));
  await p.run('$("tab-bytes").click()');
  const mark = await p.run('document.querySelector("#bytes .wrong-row td")?.innerText ?? ""');
  check(`opened: ${given.join(" ")}`, [await verdict(), [7, 9].includes(number) || mark === String(place)], [`${number} ${place}`, true]);
}
await p.run('$("tab-tree").click()');
await example("gateway");
for (const [value, wanted] of [["0", "20 0"], ["1000000001", "20 0"], ["99999999999999999999999", "20 0"], ["1000000000", ""]]) {
  await set("#capacity", value);
  check(`capacity ${value}`, [await rates(), await p.run('$("capacity").getAttribute("aria-invalid") === "true"')],
      [wanted, wanted !== ""]);
}
await set("#capacity", "50000");
await set('#rates input[data-row="6"]', "2000000000");
await set('#rates input[data-row="4"]', "1000000001");
check("requests out of range", [await rates(), await p.run(`document.querySelector('#rates [aria-invalid="true"]').dataset.row`)],
    ["21 5", "4"]);
await p.run('$("clear-requests").click()');
await set(cell(0, "weight"), "abc");
check("a weight that is no number", [await verdict(), await marked()], ["Not a number", "class 1 weight"]);
await p.run("undo()");

// ---- Mending: shown, taken, undone; and 22
await set(cell(3, "weight"), "40");
check("a camera raised", await verdict(), "7 3");
await p.run('$("mend").click()');
check("what mending would change", await p.run('[...document.querySelectorAll("#mending li")].map((li) => li.textContent)'),
    ["class 3 cameras: weight 16 → 52"]);
check("nothing is taken yet", await p.run('state.plan.rows[2].weight'), "16");
await p.run('$("take-mending").click()');
check("mended", [await verdict(), await p.run(`document.querySelector('${cell(2, "weight")}').value`)], ["The plan is taken", "52"]);
await p.run('$("undo").click()');
check("undone", [await verdict(), await p.run('state.plan.rows[2].weight')], ["7 3", "16"]);
await p.run('$("redo").click()');
check("redone", await verdict(), "The plan is taken");
await setText("class 1: inner, parent 0, weight 1\n" + leaf(2, 1, 600000) + leaf(3, 1, 600000));
await p.run('$("mend").click()');
check("mending refused", /number (\d+), place (\d+)/.exec(await text("mending")).slice(1).join(" "), "22 1");

// ---- Saved and opened again, byte for byte; text too; a pasted text with CRLF
for (const name of ["gateway", "63", "deep"]) {
  await example(name);
  const plan = await p.run('JSON.stringify(state.plan.rows.map((r) => [r.kind, r.parent, r.weight, r.longest]))');
  const first = await saved("save"), asText = await saved("save-text");
  await open(first.bytes);
  check(`${name}: saved and opened again`,
      [await p.run('JSON.stringify(state.plan.rows.map((r) => [r.kind, r.parent, r.weight, r.longest]))'),
      (await saved("save")).bytes.equals(first.bytes)], [plan, true]);
  await open(asText.bytes.toString());
  check(`${name}: text saved and opened again`, (await saved("save")).bytes.equals(first.bytes), true);
  check(`${name}: text once more`, (await saved("save-text")).bytes.toString(), asText.bytes.toString());
}
await setText("\uFEFF" + gateway.replace(/\n/g, "\r\n") + "\r\nin 1 100 1\r\nsend\r\n");
await drawn();
check("a pasted text with CRLF and events", [await verdict(), await p.run('state.plan.rows[3].name'),
    (await p.run('$("lines").textContent')).split("\n").slice(0, 3)],
  ["The plan is taken", "gate", ["link 7 6822", "in 1 100 1 124", "out 1 100 1 1 124"]]);
await setText("class 1: leaf, parent 0, weight 1,000, longest 10\n");
check("a text that cannot be read", [(await text("verdict")).slice(0, 57), await wrongLine()],
    ["The text cannot be read. Line 1: a number is digits alone", "▶ 1"]);
await setText(gateway);

// ---- Rows added, moved and taken away: the numbers follow
await p.run('$("tab-tree").click()');
await example("gateway");
await p.run(`document.querySelector('#rows tr:nth-child(4) [data-act="leaf"]').click()`);
check("a leaf added under the cameras",
    await p.run(`[state.plan.rows.length, state.plan.rows[7].parent, document.activeElement.dataset.row,
    document.activeElement.dataset.field]`), [8, "3", "7", "name"]);
check("the sum no longer fits", await verdict(), "7 3");
await p.run("undo()");
await p.run(`document.querySelector('${cell(2, "up")}').click()`);
check("the cameras moved up", await p.run('state.plan.rows.map((r) => r.name + " " + r.parent)'),
    ["time 0", "cameras 0", "gate 2", "hall 1 2", "hall 2 2", "mast 2", "events 0"]);
check("still taken", await verdict(), "The plan is taken");
await p.run(`document.querySelector('${cell(0, "gone")}').click()`);
check("time taken away", await p.run('state.plan.rows.map((r) => r.name + " " + r.parent)'),
    ["cameras 0", "gate 1", "hall 1 1", "hall 2 1", "mast 1", "events 0"]);
await p.run(`document.querySelector('${cell(0, "gone")}').click()`);
check("the cameras and all below taken away", await p.run('state.plan.rows.map((r) => r.name + " " + r.parent)'), ["events 0"]);
await p.run("undo(); undo(); undo()");
check("back", await p.run('state.plan.rows.map((r) => r.name).join()'), "time,events,cameras,gate,hall 1,hall 2,mast");

// ---- The rule, two plans, a run and its reasons
await p.run('$("keep").click()');
await p.run(`document.querySelector('#rule input[value="2"]').click()`);
check("rule 2", [(await text("verdict")).includes("rule 2, 57 bytes"), (await saved("save")).bytes.subarray(0, 2).toString("hex")],
    [true, "0302"]);
await set(cell(0, "weight"), "2");
await drawn();
check("what differs",
    [await text("two-said"),
    await p.run('[0, 9].map((k) => document.querySelector("#two tr.differs").cells[k].textContent).join(": ")')],
  ["Kept: this plan as it was kept, gateway. 7 of 7 classes differ. Q 6,822 → 6,823 bytes. Rule 1 → 2.",
      "1 time: weight 1 → 2; gets +2,074 kbit/s; alone 168 → 84.1 ms; 32nd 5,311 → 2,657 ms"]);
await drawn();
check("strips", await p.run(`[document.querySelectorAll(".packet").length,
    document.querySelectorAll(".round").length === state.run.rounds,
        state.run.packets.every((x) => x.waited <= x.bound)]`), [48, true, true]);
await p.run('document.querySelector(".packet").click()');
check("a packet beside its bound",
    /^Packet 1: class .* it waited [\d,]+ bytes, [\d.,]+ ms, of at most [\d,]+, [\d.,]+ ms\.$/.test(await text("packet")), true);
await example("gateway");
await p.run('$("fill-lone").click()');
await drawn();
const [lone, other] = await p.run('[5, 8].map((k) => Number($("classes").tBodies[0].rows[0].cells[k].textContent.replace(/,/g, "")))');
check("a lone packet waits less under rule 2", [lone > 2 * other, other > 0], [true, true]);
await example("p");
await p.run('$("moment").value = 5; document.querySelector("#classes [data-leaf=\\"3\\"]").click()');
check("why leaf 3 is silent after event 5", (await text("reason")).slice(0, 30), "After event 5 of 9: class 3 le");
check("its reason is the library's", await p.run('lib.why(state.input.bytes.subarray(0, state.input.places[5]), 3)'),
    (await text("reason")).match(/\((.*)\)$/)[1] + "\n");
await p.run('$("moment").value = 9; document.querySelector("#classes [data-leaf=\\"4\\"]").click()');
check("why leaf 4 is silent at the end", await text("reason"),
    "After event 9 of 9: class 4 leaf holds no packet, so there is nothing to send. Look at its sender. (silent 4 empty 0)");
check("the last numbers of the lines are shown", await p.run(`(() => {
  const { packets } = readRun(lib, state.input.bytes, "link 4 262\\nin 2 2 1 500\\nout 2 2 1 1 777\\nend 0\\n");
  return [packets[0].held, packets[0].waited, packets[0].bound];
})()`), [500, 777, 262 * 501]);
await open(fs.readFileSync(`${root}/second/tree_p.bin`), "#open-run");
await drawn();
check("a recording opened", (await p.run('$("lines").textContent')).trim(), listing.trim());
await open(Buffer.concat([fs.readFileSync(`${root}/second/tree_p.bin`), Buffer.from([16, 1])]), "#open-run");
await drawn();
check("a recording that is cut", (await text("run-said")).split(". ")[0],
    `Stopped: number 1, place ${fs.statSync(`${root}/second/tree_p.bin`).size}`);

// ---- By keyboard alone, and every control named
await example("gateway");
await p.run("document.activeElement.blur()");
const press = async (key, words) => { await p.key(key, words); };
const at = () => p.run('(() => { const e = document.activeElement; return e.getAttribute("aria-label") || e.innerText || e.id; })()');
const tabTo = async (name) => {
  for (let n = 0; n < 150; n++) {
    await press("Tab");
    if ((await at()).trim() === name) return true;
  }
  return false;
};
check("Tab comes to a weight", await tabTo("weight of class 4 gate"), true);
await press("a", { control: true });
await p.type("40");
check("typed", await verdict(), "7 3");
await p.run("document.activeElement.blur(); window.scrollTo(0, 0)");
check("Tab comes to the mending", await tabTo("Mend: show what would change"), true);
await press("Enter");
check("the mending has the focus", await at(), "Take this weight");
await press("Enter");
check("mended by keyboard", [await verdict(), await at()], ["The plan is taken", "Undo"]);
await press("Enter");
check("undone by keyboard", await verdict(), "7 3");
await press("z", { control: true });
check("undone by Control and Z", await verdict(), "The plan is taken");
await tabTo("name of class 1 time");
await press("a", { control: true });
await p.type("clock");
await press("Tab");
await p.until('document.activeElement.getAttribute("aria-label") === "kind of class 1 clock"', "the kind of a class that was named");
await press("Tab");
await press("Tab");
check("Tab goes on after a name", await at(), "weight of class 1 clock");
await tabTo("parent of class 7 mast");
await press("a", { control: true });
await p.type("0");
await press("Tab");
await p.until('[...$("rows").tBodies[0].rows].at(-1).querySelector("th").textContent === "7"', "a row that moved");
check("Tab goes on after a parent", [await at(), await verdict()], ["weight of class 7 mast", "The plan is taken"]);
await press("z", { control: true });
await press("z", { control: true });
await p.run("document.activeElement.blur(); window.scrollTo(0, 0)");
await tabTo("weight of class 1 time");
await press("ArrowDown");
check("down a row", await at(), "weight of class 2 events");
await press("ArrowUp", { alt: true });
check("moved by Alt and an arrow", [await p.run('state.plan.rows.slice(0, 2).map((r) => r.name).join()'), await at()],
    ["events,time", "weight of class 1 events"]);
await press("z", { control: true });
await p.run('document.activeElement.blur()');
await tabTo("Tree");
await press("ArrowRight");
check("the text by arrow", await p.run('[document.activeElement.id, !$("view-text").hidden]'), ["tab-text", true]);
await press("ArrowLeft");
await p.run('$("strips").focus()');
await press("ArrowRight");
await press("ArrowRight");
check("packets by arrow", [(await text("packet")).slice(0, 9), await p.run('$("strips").getAttribute("aria-activedescendant")')],
    ["Packet 2:", "packet-1"]);
const unnamed = (await p.names()).filter(([, name]) => !name);
check("every control has a name", unnamed, []);
const order = await p.run(`[...document.querySelectorAll("button, input, select, textarea")].filter((e) => e.tabIndex > 0).length`);
check("the order of Tab is that of the page", order, 0);
check("nothing was fetched", await p.run('performance.getEntriesByType("resource").length'), 0);

// ---- 63 classes and 62 deep: what a redraw takes, each with another weight, and its layout
const times = {};
for (const name of ["gateway", "63", "deep"]) {
  await example(name);
  check(`${name} is taken`, await verdict(), "The plan is taken");
  times[name] = await p.run(`(async () => {
    const input = document.querySelector('#rows [data-row="1"][data-field="weight"]'), took = [];
    for (let n = 0; n < 60; n++) {
      input.value = String(Number(input.value) % 3 + 1);
      document.documentElement.getBoundingClientRect();
      const begun = performance.now();
      input.dispatchEvent(new Event("input"));
      document.documentElement.getBoundingClientRect();
      took.push(performance.now() - begun);
      await new Promise((go) => { const wait = () => document.body.dataset.run === "drawn" ? go() : setTimeout(wait, 5); wait(); });
    }
    took.sort((a, b) => a - b);
    return [took[6], took[30], took[54]];
  })()`);
}
check("62 deep", await p.run("Math.max(...treeOrder(state.plan).map((o) => o.depth))"), 63);
check("no fault in the console", p.faults(), []);

// ---- Pictures
async function shoot(name, id) {
  await p.run("window.scrollTo(0, 0); document.activeElement.blur()");
  const clip = await p.run(`(() => {
    const r = document.querySelector(${JSON.stringify(id)}).closest("section").getBoundingClientRect();
    return { x: 0, y: r.top + 12, width: innerWidth, height: r.height };
  })()`);
  await p.picture(`${pictures}/${name}.png`, { clip });
}
if (pictures) {
  fs.mkdirSync(pictures, { recursive: true });
  await p.size(1180, 900);
  await example("gateway");
  await set("#capacity", "50000");
  for (const [k, r] of [[0, 64], [1, 3000], [3, 40000], [4, 5500], [5, 6000], [6, 6250]]) await set(`#rates input[data-row="${k}"]`,
      String(r));
  await drawn();
  await shoot("plan", "#h-plan");
  await shoot("rates", "#h-rates");
  await shoot("run", "#h-run");
  await p.scheme("dark");
  await shoot("rates-dark", "#h-rates");
  await p.scheme("light");
  await set(cell(3, "weight"), "40");
  await p.run('$("mend").click()');
  await shoot("refused", "#h-plan");
}
await p.close();
// A redraw is held to 16 ms by its median: the slowest tenth tells of other work on the machine.
if (Object.values(times).some(([, middle]) => middle > 16)) failed.push("a redraw takes more than 16 ms");
for (const line of failed) console.log(`not as it should be: ${line}`);
console.log(`${p.version}: ${passed} checks passed, ${failed.length} failed`);
const took = (name) => times[name].map((n) => n.toFixed(1)).join(", ");
console.log(`planner.html ${fs.statSync(file).size} bytes; a redraw with its layout, 10th, 50th and 90th of 100:`
  + ` gateway ${took("gateway")} ms, 63 classes ${took("63")} ms, 62 deep ${took("deep")} ms`);
process.exit(failed.length ? 1 : 0);
