// The page's WebAssembly under node against the second program: compare.mjs PLANNER.html SECOND_FOLDER HOW_MANY FIRST_SEED KEPT_FOLDER.
// For each seed a plan is read, written and mended, and taken through rows and text and laid anew; a question of rates and waits is
// asked; a
// run is made, with the reason of each leaf at its end; and a text of plan and events, with some letters changed, is read as the
// commands read
// it (bin/lib/text.awk): the same bytes, or the same fault in the same line. The library and the script are taken out of the built file.
// Status 1: a difference, whose input is kept in KEPT_FOLDER.
import { spawnSync } from "node:child_process";
import fs from "node:fs";
import { fileURLToPath } from "node:url";
import vm from "node:vm";

const [file, second, many, first, kept] = process.argv.slice(2);
const html = fs.readFileSync(file, "utf8");
const script = (id) => new RegExp(`<script id="${id}">([\\s\\S]*?)</script>`).exec(html)[1];
const context = vm.createContext({ WebAssembly, TextDecoder, TextEncoder, console });
vm.runInContext(script("library"), context);
vm.runInContext(script("page").split("// The page: what is shown")[0], context);
const names = ["loadLibrary", "WASM", "KIND", "readText", "writeText", "recordsOf", "walk", "planOfTree", "readRun", "wordFault"];
const page = vm.runInContext(`({ ${names.join(", ")} })`, context);
const lib = await page.loadLibrary(Buffer.from(page.WASM, "base64"));

let seed, input;
function differs(what, ours, theirs) {
  fs.mkdirSync(kept, { recursive: true });
  fs.writeFileSync(`${kept}/${seed}.bin`, input);
  console.log(`seed ${seed} differs, input in ${kept}/${seed}.bin: ${what}`);
  console.log(`second program:\n${String(theirs).slice(0, 400)}\nthe page:\n${String(ours).slice(0, 400)}`);
  process.exit(1);
}
const same = (what, ours, theirs) => { if (ours !== theirs) differs(what, ours, theirs); };
function ask(program, words, bytes) {
  const { stdout, status, error } = spawnSync(`${second}/${program}`, words, { input: bytes, maxBuffer: 1 << 26 });
  if (error && error.code !== "EPIPE") throw error; // a program may end before it has read all
  if (status) differs(`${program} ${words.join(" ")} ended with status ${status}`, "", "");
  return stdout;
}
const hex = (bytes) => Buffer.from(bytes).toString("hex");
const stop = ({ number, place }) => `stop ${number} ${place}\n`;
const counts = { good: 0, refused: new Map(), rates: 0, leaves: 0, events: 0, reasons: 0, mended: 0, rows: 0, packets: 0, nearest: 0,
    texts: 0, faults: 0 };
const refused = (number) => counts.refused.set(number, (counts.refused.get(number) ?? 0) + 1);

// A plan: its verdict, its bytes in a buffer long and short, its mending; and through rows and text to the same bytes or the same refusal.
function plan() {
  input = ask("mend_generate", [String(seed)]);
  const opened = lib.open(input);
  if (input.length > 65536) return; // number 10 is the programs' own: the page reads the plan, whatever follows it
  for (const room of [507, seed % 510]) {
    const written = opened.number ? opened : lib.write(opened.tree, room);
    same(`written into ${room} bytes`, written.number ? hex(stop(written)) : hex(written.bytes),
        hex(ask("second", ["write", String(room)], input)));
  }
  const mended = lib.mend(input);
  const lines = mended.changes.map((c) => `mend ${c.class} ${c.old} ${c.new}\n`).join("") + `plan ${mended.changes.length}\n`;
  same("mended", mended.number ? stop(mended) : lines, String(ask("second", ["mend"], input)));
  if (!mended.number && mended.changes.length) counts.mended += 1;
  if (opened.number) refused(opened.number);
  else counts.good += 1;
  if ([1, 2, 18].includes(opened.number)) return;
  const walked = page.walk(input).plan;
  const again = page.readText(page.writeText(walked).text.replace(/\n/g, "\r\n")).plan;
  const laid = lib.lay(page.recordsOf(again)).bytes, reopened = lib.open(laid);
  same("rows and text: verdict", `${reopened.number} ${reopened.place} ${reopened.used}`,
      `${opened.number} ${opened.place} ${opened.used}`);
  counts.rows += 1;
  if (opened.number) return;
  same("rows and text: bytes", hex(laid), hex(input.subarray(0, opened.used)));
  const tree = page.planOfTree(opened.tree, walked.rule);
  same("the tree as rows", hex(lib.lay(page.recordsOf(tree)).bytes), hex(laid));
}

// Rates and waits. A word that the program does not take cannot be typed into the page.
function question() {
  ask("rates_generate", [String(seed), `${kept}.plan`, `${kept}.words`]);
  input = fs.readFileSync(`${kept}.plan`);
  const words = fs.readFileSync(`${kept}.words`, "utf8").split("\n").slice(0, -1);
  const opened = lib.open(input);
  const count = opened.tree.count, leaf = (i) => (opened.tree.leaves >> BigInt(i)) & 1n;
  let waits = "";
  for (let i = 1; i <= count; i++) {
    const w = lib.waits(input, i);
    if (leaf(i)) waits += `wait ${i} ${w.alone} ${w.full}\n`;
    else same(`waits of class ${i}, no leaf`, w.number, 12);
  }
  if (input.length <= 65536) same("waits", opened.number ? stop(opened) : waits, String(ask("waits", [], input)));
  counts.leaves += waits.split("\n").length - 1;
  const theirs = String(ask("rates", words, input));
  if (!theirs) return;
  const capacity = BigInt(words[0]), requests = Array(64).fill(capacity);
  for (const word of words.slice(1)) requests[Number(word.split("=")[0])] = BigInt(word.split("=")[1]);
  const answer = lib.rates(input, capacity, requests);
  const lines = answer.requests.slice(0, answer.used + 1).map((r, i) => `rate ${i} ${r} ${answer.gets[i]} ${answer.left[i]}\n`).join("");
  same(`rates ${words.join(" ")}`, answer.number ? stop(answer) : lines, theirs);
  counts.rates += 1;
  if (answer.number >= 20) refused(answer.number);
}

// A run, its reasons, the bound of each packet by the formula, what it waited by the charges from its acceptance on, and none beyond it.
function run() {
  input = ask("generate", [String(seed)]);
  const ours = lib.run(input);
  same("the lines are whole", ours.whole, true);
  same("a run", ours.text, String(ask("second", [], input)));
  const told = page.readRun(lib, input, ours.text);
  counts.events += told.lines.length - 2;
  counts.packets += told.packets.length;
  const { tree, size } = lib.open(input);
  const charged = Array(told.lines.length).fill(0);
  for (const p of told.packets) charged[p.event] = p.charge;
  charged.forEach((charge, event) => { charged[event] = charge + (charged[event - 1] ?? 0); });
  for (const p of told.packets) {
    same(`what tag ${p.tag} in class ${p.class} waited`, p.waited, charged[p.event] - charged[p.accepted]);
    same(`the bound of tag ${p.tag} in class ${p.class}`, p.bound, (Math.ceil(p.held / tree.weight[p.class]) + 1) * size);
    if (p.waited > p.bound) differs(`packet of class ${p.class}, tag ${p.tag}, beyond its bound`, p.waited, p.bound);
    counts.nearest = Math.max(counts.nearest, p.waited / p.bound);
  }
  if (told.last.startsWith("stop")) return;
  let reasons = "";
  for (let i = 1; i < 64; i++) if ((tree.leaves >> BigInt(i)) & 1n) reasons += lib.why(input, i);
  same("reasons", reasons, String(ask("second", ["silent"], input)));
  counts.reasons += reasons.split("\n").length - 1;
}

// Random numbers of a seed, for the texts.
function dice(from) {
  let x = (from % 2147483647) + 1;
  return (n) => {
    x = (x * 48271) % 2147483647;
    return x % n;
  };
}
const AWK = fileURLToPath(new URL("../bin/lib/text.awk", import.meta.url));

// A text: rows with names and remarks, some events, and up to three changes anywhere.
function text() {
  const roll = dice(seed), walked = page.walk(ask("mend_generate", [String(seed)])).plan;
  walked.rows.length = Math.min(walked.rows.length, 1 + roll(12));
  walked.rows.forEach((row, i) => {
    if (roll(3) === 0) row.name = ["gate", "hall 1", "Tür", "x".repeat(38 + roll(4)), "a # b"][roll(5)];
    if (roll(6) === 0) row.remark = "# of the controllers";
    if (roll(9) === 0) row.above = ["", "# a remark"];
    if (roll(12) === 0) row.weight = ["0012", "99999999999999999999", "4294967296", "1,000", "-1", "x"][roll(6)];
    if (i === 0 && roll(8) === 0) row.above = ["plan 4 classes, Q 262, 31 bytes used" + (roll(2) ? ", rule 2" : "")];
  });
  let words = page.writeText(walked).text;
  for (let n = roll(6); n > 0; n--) words += roll(3) ? `in ${roll(260)} ${roll(66000)} ${roll(5)}\n` : "send\n";
  for (let n = Math.max(0, roll(5) - 2); n > 0; n--) {
    const at = roll(words.length + 1), put = ['"', "#", ",", ":", "7", " ", "\t", "\n", "\r", "\u0001", "class ", "in ", "send",
        "rule 2\n", "ä", ""][roll(16)];
    words = words.slice(0, at) + put + words.slice(at + roll(4));
  }
  if (roll(2)) words = words.replace(/\r?\n/g, "\r\n");
  if (roll(10) === 0) words = "\uFEFF" + words;
  input = Buffer.from(words);
  const env = { ...process.env, LC_ALL: "C", ESCAPES: `${kept}.escapes`, MAP: `${kept}.map`, WHO: "w", FROM: "f" };
  fs.writeFileSync(env.ESCAPES, "");
  const theirs = spawnSync("awk", ["-f", AWK], { input, env });
  const bytes = Buffer.from(fs.readFileSync(env.ESCAPES, "latin1").split("\\").slice(1).map((o) => parseInt(o, 8)));
  let ours;
  try {
    const read = page.readText(words);
    if (!read.plan.rows.length && !read.events.length) ours = "none";
    else ours = hex(lib.lay([...page.recordsOf(read.plan), ...read.events]).bytes);
  } catch (fault) {
    ours = `line ${fault.line}: ${fault.message}`.replace(/[“”]/g, '"');
  }
  const said = String(theirs.stderr).trim().replace(/^w: f[,:] /, "");
  const none = said === "no class in the text" || said === "the text is empty";
  same("a text", ours, theirs.status === 0 ? hex(bytes) : none ? "none" : said);
  counts[theirs.status === 0 ? "texts" : "faults"] += 1;
}

for (let n = 0; n < Number(many); n++) {
  seed = Number(first) + n;
  plan();
  question();
  run();
  text();
  if ((n + 1) % 250 === 0) console.error(`${n + 1} of ${many}, up to seed ${seed}`);
}
for (const name of ["plan", "words", "escapes", "map"]) fs.rmSync(`${kept}.${name}`, { force: true });
const numbers = [...counts.refused].sort((a, b) => a[0] - b[0]).map(([n, k]) => `${n}: ${k}`).join(", ");
console.log(`node ${process.version}: ${many} plans, questions and runs from seed ${first} on, no difference: plans taken ${counts.good},`
  + ` mended ${counts.mended}, by rows and text ${counts.rows}; questions with an answer ${counts.rates}, waits of ${counts.leaves} leaves;`
  + ` refusals ${numbers}; ${counts.events} events, ${counts.packets} packets sent, none beyond its bound`
  + ` (the nearest at ${(100 * counts.nearest).toFixed(1)}%), ${counts.reasons} reasons; ${counts.texts} texts with the same bytes,`
  + ` ${counts.faults} with the same fault`);
