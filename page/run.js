// A run as it is drawn: the library's lines, packet by packet and round by round. No part of the page is touched from here.
// The last number of an `in` line is the bytes then waiting in its queue, that of an `out` line the bytes that the packet waited.

// The events of a text, a line each; what follows a # is a remark.
function readEvents(text) {
  const events = [];
  text.split("\n").forEach((full, i) => {
    const w = full.replace(/#.*/, "").replace(/[:,\r]/g, " ").split(/[ \t]+/).filter((word) => word);
    if (!w.length) return;
    if (w[0] !== "in" && w[0] !== "send") throw new TextFault(i + 1, "expected: in CLASS LENGTH TAG, or send");
    events.push(eventLine(w, i + 1));
  });
  return events;
}

// The events of a recording after its plan: a walk that judges nothing. Where a record is cut or unknown, `fault` has its place.
function walkEvents(bytes, from) {
  const events = [];
  let at = from;
  while (at < bytes.length) {
    if (bytes[at] === KIND.send) {
      events.push([KIND.send]);
      at += 1;
    } else if (bytes[at] === KIND.arrival && at + 8 <= bytes.length) {
      const [c, l1, l0, t3, t2, t1, t0] = bytes.subarray(at + 1, at + 8);
      events.push([KIND.arrival, c, ((t3 * 256 + t2) * 256 + t1) * 256 + t0, l1 * 256 + l0]);
      at += 8;
    } else return { events, fault: at };
  }
  return { events, fault: -1 };
}

// What the lines tell: the packets that went, in order, each with its round, what it waited and its bound; what happened class by class;
// and the last line. `input` is the plan and its events; without `bounds` these are left out.
function readRun(lib, input, text, bounds = true) {
  const lines = text.split("\n").slice(0, -1);
  const run = { lines, packets: [], rounds: 0, classes: new Map(), last: lines[lines.length - 1] ?? "", size: 0, total: 0 };
  lines.forEach((line, event) => {
    const [word, ...words] = line.split(" "), n = words.map(Number);
    if (word === "link") run.size = n[1];
    if (word === "no" && n.length > 2) classOf(run, n[0]).refused += 1;
    if (word === "in") takenIn(run, n, event, lib.charge(n[1]));
    if (word === "out") sentOut(run, n, event, (held) => (bounds ? lib.bound(input, n[0], held) : 0));
  });
  return run;
}
function classOf(run, c) {
  if (!run.classes.has(c)) run.classes.set(c, { taken: 0, refused: 0, sent: 0, queue: [], wait: 0, bound: 0 });
  return run.classes.get(c);
}
function takenIn(run, [c, length, tag, held], event, charge) {
  const q = classOf(run, c);
  q.taken += 1;
  q.queue.push({ class: c, length, tag, charge, accepted: event, held });
}
function sentOut(run, [c, , , rounds, waited], event, boundOf) {
  const q = classOf(run, c), packet = q.queue.shift();
  run.rounds += rounds;
  run.total += packet.charge;
  q.sent += 1;
  Object.assign(packet, { event, round: run.rounds, waited, bound: boundOf(packet.held) });
  if (packet.waited > q.wait) Object.assign(q, { wait: packet.waited, bound: packet.bound });
  run.packets.push(packet);
}

// The reason of a leaf in words; `line` is the library's.
function reasonWords(line, name) {
  const [word, c, why, lacks] = line.trim().split(" ");
  if (word === "no") return `${name} is no leaf of this plan: number ${why}.`;
  const bytes = lacks === "1" ? "1 byte" : `${lacks} bytes`;
  return {
    empty: `${name} holds no packet, so there is nothing to send. Look at its sender.`,
    waits: `${name} holds packets but is not in this round: it sends nothing before the next one opens.`,
    short: `${name} has had its turn in this round and lacks ${bytes} for its first packet; it waits for the next round. ` +
      "Look at its weight: in each main round it gains at least that many bytes.",
    due: `${name} is in this round and its turn is under way or still to come.`,
  }[why];
}
