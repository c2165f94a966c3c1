// The library: the proved calls of crates/page_calls, compiled to WebAssembly, on memory that this page lends them. Nothing here judges,
// shares out or makes a byte: numbers go in, the library's numbers and bytes come out. No part of the page is touched from here.

const KIND = { end: 0, inner: 1, leaf: 2, rule: 3, arrival: 16, send: 17 };
const MOST_INPUT = 65536;
const TEXT_ROOM = 1 << 20; // no run of 65,536 bytes has more text

async function loadLibrary(wasm) {
  const { instance } = await WebAssembly.instantiate(wasm, {});
  const calls = instance.exports;
  const memory = calls.memory;
  let next = (calls.__heap_base.value + 15) & ~15;
  const room = (bytes) => {
    const at = next;
    next += (bytes + 15) & ~15;
    return at;
  };
  const at = {
    input: room(MOST_INPUT + 16), said: room(24), numbers: room(24), size: room(8), parent: room(64), weight: room(256), longest: room(128),
    out: room(512), line: room(96), a: room(512), b: room(512), c: room(512), text: room(TEXT_ROOM),
  };
  if (next > memory.buffer.byteLength) memory.grow(Math.ceil((next - memory.buffer.byteLength) / 65536));

  // The memory as numbers; it does not grow any more.
  const bytesAt = (place, count) => new Uint8Array(memory.buffer, place, count);
  const wide = (place, count) => new BigUint64Array(memory.buffer, place, count);
  const plain = (place, count) => Array.from(wide(place, count), Number);
  const ascii = (place, count) => String.fromCharCode.apply(null, bytesAt(place, count));

  // The library is lent one byte more than it takes at most, so that number 10 is its own to give.
  const lend = (bytes) => {
    const most = bytes.subarray(0, MOST_INPUT + 1);
    bytesAt(at.input, most.length).set(most);
    return BigInt(most.length);
  };
  const verdict = (number) => {
    const [, place, used] = plain(at.said, 3);
    return { number, place, used };
  };

  const lib = {
    // The records of these kinds and numbers, one after the other, and the place where each begins. All is made by the library.
    lay(records) {
      const places = [];
      let end = 0;
      for (const [kind, a = 0, b = 0, c = 0] of records) {
        if (end > MOST_INPUT) break;
        places.push(end);
        end += calls.page_record(kind, a, b, c, at.input + end);
      }
      return { bytes: bytesAt(at.input, end).slice(), places };
    },

    // A plan's verdict, its tree and its round size.
    open(bytes) {
      const answer = verdict(calls.page_open(at.input, lend(bytes), at.said, at.numbers, at.size, at.parent, at.weight, at.longest));
      const [count, leaves, rule] = wide(at.numbers, 3);
      answer.tree = {
        count: Number(count), leaves, rule: Number(rule),
        parent: bytesAt(at.parent, 64).slice(),
        weight: new Uint32Array(memory.buffer, at.weight, 64).slice(),
        longest: new Uint16Array(memory.buffer, at.longest, 64).slice(),
      };
      answer.size = plain(at.size, 1)[0];
      return answer;
    },

    // The bytes of a tree, as the proved writer writes them into a buffer of so many bytes.
    write(tree, roomy = 507) {
      wide(at.numbers, 3).set([BigInt(tree.count), tree.leaves, BigInt(tree.rule)]);
      bytesAt(at.parent, 64).set(tree.parent);
      new Uint32Array(memory.buffer, at.weight, 64).set(tree.weight);
      new Uint16Array(memory.buffer, at.longest, 64).set(tree.longest);
      const answer = verdict(calls.page_write(at.numbers, at.parent, at.weight, at.longest, at.said, at.out, BigInt(roomy)));
      answer.bytes = bytesAt(at.out, answer.used).slice();
      return answer;
    },

    // What mending a plan changes: each class with its old and its new weight.
    mend(bytes) {
      const answer = verdict(calls.page_mend(at.input, lend(bytes), at.said, at.size, at.a, at.b, at.c));
      const count = plain(at.size, 1)[0];
      const classes = plain(at.a, count), old = plain(at.b, count), now = plain(at.c, count);
      answer.changes = classes.map((c, i) => ({ class: c, old: old[i], new: now[i] }));
      return answer;
    },

    // What each class requests, gets and leaves; the requests are 64 numbers below 2 to the power 64, of which the leaves' are read.
    rates(bytes, capacity, requests) {
      wide(at.a, 64).set(requests);
      const answer = verdict(calls.page_rates(at.input, lend(bytes), capacity, at.said, at.a, at.b, at.c));
      return Object.assign(answer, { requests: plain(at.a, 64), gets: plain(at.b, 64), left: plain(at.c, 64) });
    },

    // The longest waits of a leaf's longest packet in bytes of the link: alone, and as the last of 32.
    waits(bytes, leaf) {
      const number = calls.page_waits(at.input, lend(bytes), BigInt(leaf), at.a);
      const [alone, full] = plain(at.a, 2);
      return { number, alone, full };
    },

    // The bound of a packet accepted with so many bytes in its queue, its own among them; and what a length is charged.
    bound: (bytes, leaf, held) => Number(calls.page_bound(at.input, lend(bytes), BigInt(leaf), BigInt(held))),
    charge: (length) => Number(calls.page_charge(length)),

    // The lines of a whole run.
    run(bytes) {
      const length = lend(bytes);
      const first = ascii(at.line, Number(calls.page_begin(at.input, length, at.line)));
      calls.page_events(at.input, length, at.said, at.text, BigInt(TEXT_ROOM));
      const [laid, more] = plain(at.said, 2);
      return { text: first + new TextDecoder().decode(bytesAt(at.text, laid)), whole: !more };
    },

    // The line that says why a class is silent at the end of a run.
    why: (bytes, leaf) => ascii(at.line, Number(calls.page_why(at.input, lend(bytes), BigInt(leaf), at.line))),
  };
  return lib;
}
