// The yardstick: the same scheduler written plainly in Rust for speed, from the rules (R15, R86 to R161), with no check of soundness
// on a call. One struct of arrays. Sets of classes are 64-bit numbers: the leaves that a round has still to visit are kept as a set and
// found by trailing zeros, a class turns off without a walk because each parent keeps the set of its children, and the leaves that hold a
// packet are kept as a set too. The active set and its weight sums are worked out at an opening only where that last set has changed
// since the opening before. Permits go down in two passes, inner classes first. What waits below each class is kept as its totals (R276),
// which each packet changes on its way up, and that nothing waits is read from the root's. What was charged on the link is a running total,
// and each waiting packet keeps what it was when it came (R308 to R311). Indexes are cut to the arrays' lengths, so that none is checked on
// the way. Other shapes were tried and were slower: the place in place of the set to visit, lengths and tags apart, the first packet's
// cost kept, one pass over all classes. It shares no line with the library or with the second program.

const CLASSES: usize = 64;
const PLACES: usize = 32;

// A waiting packet, and what had been charged on the link when it came.
#[derive(Clone, Copy)]
struct Packet {
    length: u16,
    tag: u32,
    mark: u64,
}

// What waits at the leaves at or below a class: packets, and their costs.
#[derive(Clone, Copy)]
struct Total {
    packets: u64,
    bytes: u64,
}

pub struct Plain {
    // the plan
    count: usize,
    leaves: u64,
    parent: [u8; CLASSES],
    weight: [u32; CLASSES],
    longest: [u16; CLASSES],
    children: [u64; CLASSES],
    // the running link
    balance: [u64; CLASSES],
    residual: [u64; CLASSES],
    active: u64,
    // the active leaves that this round has still to visit: those from the place on
    left: u64,
    // the leaves that hold a packet; those that held one at the last opening, with the active set and the weight sums that follow from
    // them
    waiting: u64,
    opened_for: u64,
    opened_active: u64,
    sums: [u32; CLASSES],
    // each class's packets, first in first out round its 32 places
    start: [u8; CLASSES],
    held: [u8; CLASSES],
    packets: [Packet; CLASSES * PLACES],
    totals: [Total; CLASSES],
    // what was charged on the link, modulo 2 to the power 64
    charged: u64,
}

// What a send gives.
#[derive(Clone, Copy)]
pub struct Sent {
    pub class: usize,
    pub length: u16,
    pub tag: u32,
    pub rounds: u32,
    pub waited: u64,
}

// An event of a recording.
enum Event {
    Arrival { class: usize, length: u16, tag: u32 },
    Send,
}

// What the wire carries for a packet (R15).
#[inline(always)]
fn cost(length: u16) -> u64 {
    (length as u64 + 4).max(64) + 20
}

// A send as one number; 1 where nothing waits. What it waited is not in it, but is worked out all the same.
#[inline(always)]
pub fn number(sent: Option<Sent>) -> u64 {
    match sent {
        Some(s) => {
            std::hint::black_box(s.waited);
            (s.class as u64) << 50 | (s.length as u64) << 34 | (s.rounds as u64) << 32 | s.tag as u64
        }
        None => 1,
    }
}

// The event at a place and the place after it.
#[inline(always)]
fn event_at(input: &[u8], at: usize) -> Option<(Event, usize)> {
    let rest = input.get(at..)?;
    match rest.first()? {
        16 => {
            let body: &[u8; 8] = rest.first_chunk()?;
            let length = u16::from_be_bytes([body[2], body[3]]);
            let tag = u32::from_be_bytes([body[4], body[5], body[6], body[7]]);
            Some((Event::Arrival { class: body[1] as usize, length, tag }, at + 8))
        }
        17 => Some((Event::Send, at + 1)),
        _ => None,
    }
}

impl Plain {
    // A fresh link of a plan's bytes, and how many of them it used. The plan rules are taken for granted: recordings are made to obey
    // them.
    pub fn read(input: &[u8]) -> Option<(Plain, usize)> {
        let mut link = Plain {
            count: 0,
            leaves: 0,
            parent: [0; CLASSES],
            weight: [0; CLASSES],
            longest: [0; CLASSES],
            children: [0; CLASSES],
            balance: [0; CLASSES],
            residual: [0; CLASSES],
            active: 0,
            left: 0,
            waiting: 0,
            opened_for: 0,
            opened_active: 0,
            sums: [0; CLASSES],
            start: [0; CLASSES],
            held: [0; CLASSES],
            packets: [Packet { length: 0, tag: 0, mark: 0 }; CLASSES * PLACES],
            totals: [Total { packets: 0, bytes: 0 }; CLASSES],
            charged: 0,
        };
        let mut at = 0;
        loop {
            let rest = &input[at..];
            let kind = *rest.first()?;
            if kind == 0 {
                return if link.count == 0 { None } else { Some((link, at + 1)) };
            }
            let i = link.count + 1;
            if kind > 2 || i == CLASSES {
                return None;
            }
            let body: &[u8; 6] = rest.first_chunk()?;
            let parent = body[1] as usize;
            if parent >= i {
                return None;
            }
            link.count = i;
            link.parent[i] = body[1];
            link.weight[i] = u32::from_be_bytes([body[2], body[3], body[4], body[5]]);
            link.children[parent] |= 1 << i;
            link.balance[0] += link.weight[i] as u64;
            at += 6;
            if kind == 2 {
                let longest: &[u8; 2] = rest[6..].first_chunk()?;
                link.leaves |= 1 << i;
                link.longest[i] = u16::from_be_bytes(*longest);
                link.balance[0] += cost(link.longest[i]);
                at += 2;
            }
        }
    }

    // The totals of a class and of every class above it, the root's last, change alike.
    #[inline(always)]
    fn change_up(&mut self, class: usize, change: impl Fn(&mut Total)) {
        let mut i = class % CLASSES;
        loop {
            change(&mut self.totals[i]);
            if i == 0 {
                return;
            }
            i = self.parent[i] as usize % CLASSES;
        }
    }

    // An arrival: the charged bytes then in its queue, or the number of its refusal.
    #[inline(always)]
    pub fn arrive(&mut self, class: usize, length: u16, tag: u32) -> Result<u64, u32> {
        if class >= CLASSES || self.leaves >> class & 1 == 0 {
            return Err(12);
        }
        if length == 0 || length > self.longest[class] {
            return Err(13);
        }
        let held = self.held[class] as usize;
        if held == PLACES {
            return Err(14);
        }
        let at = class * PLACES + (self.start[class] as usize + held) % PLACES;
        self.packets[at] = Packet { length, tag, mark: self.charged };
        self.held[class] += 1;
        self.waiting |= 1 << class;
        let cost = cost(length);
        self.change_up(class, |total| {
            total.packets += 1;
            total.bytes += cost;
        });
        Ok(self.totals[class].bytes)
    }

    // Where the first packet of a class lies.
    #[inline(always)]
    fn first(&self, class: usize) -> usize {
        class * PLACES + self.start[class] as usize % PLACES
    }

    // The lowest-numbered active leaf from the place on whose balance covers its first packet.
    #[inline(always)]
    fn next_leaf(&mut self) -> Option<usize> {
        let mut left = self.left;
        while left != 0 {
            let i = left.trailing_zeros() as usize % CLASSES;
            if cost(self.packets[self.first(i)].length) <= self.balance[i] {
                self.left = left;
                return Some(i);
            }
            left &= left - 1;
        }
        None
    }

    // The classes that are active when a round opens, and the weight sums of their active children.
    #[cold]
    #[inline(never)]
    fn gather(&mut self) {
        let mut active = self.waiting;
        self.sums = [0; CLASSES];
        for i in (1..=self.count % CLASSES).rev() {
            if active >> i & 1 == 1 {
                let p = self.parent[i] as usize % CLASSES;
                active |= 1 << p;
                self.sums[p] += self.weight[i];
            }
        }
        self.opened_for = self.waiting;
        self.opened_active = active;
    }

    // A round opens: surplus or main, then permits go down, parents before children.
    #[inline(never)]
    pub fn open(&mut self) {
        if self.waiting != self.opened_for {
            self.gather();
        }
        let active = self.opened_active;
        self.active = active;
        self.left = active & self.leaves;
        let mut inner = active & !self.leaves & !1;
        let mut surplus = false;
        while inner != 0 {
            let i = inner.trailing_zeros() as usize % CLASSES;
            surplus |= self.balance[i] + self.residual[i] >= self.sums[i] as u64;
            inner &= inner - 1;
        }
        let mut quotas = [0u64; CLASSES];
        if !surplus {
            let has = self.balance[0] + self.residual[0];
            let sum = self.sums[0] as u64;
            quotas[0] = has / sum;
            self.balance[0] = has - quotas[0] * sum;
            self.residual[0] = 0;
        }
        let mut inner = active & !self.leaves & !1;
        while inner != 0 {
            let i = inner.trailing_zeros() as usize % CLASSES;
            let due = self.weight[i] as u64 * quotas[self.parent[i] as usize % CLASSES];
            let has = self.balance[i] + self.residual[i] + due;
            let sum = self.sums[i] as u64;
            quotas[i] = has / sum;
            self.balance[i] = has - quotas[i] * sum;
            self.residual[i] = 0;
            inner &= inner - 1;
        }
        let mut leaves = active & self.leaves;
        while leaves != 0 {
            let i = leaves.trailing_zeros() as usize % CLASSES;
            self.balance[i] += self.weight[i] as u64 * quotas[self.parent[i] as usize % CLASSES];
            leaves &= leaves - 1;
        }
    }

    // A leaf without a packet turns inactive and gives its balance up; so does each class above with no active child left.
    #[inline(always)]
    fn turn_off(&mut self, leaf: usize) {
        let mut i = leaf;
        loop {
            let p = self.parent[i] as usize % CLASSES;
            self.residual[p] += self.balance[i] + self.residual[i];
            self.balance[i] = 0;
            self.residual[i] = 0;
            self.active &= !(1 << i);
            if self.active & self.children[p] != 0 {
                return;
            }
            if p == 0 {
                self.active &= !1;
                return;
            }
            i = p;
        }
    }

    // A send.
    #[inline(always)]
    pub fn send(&mut self) -> Option<Sent> {
        let mut rounds = 0;
        let i = match self.next_leaf() {
            Some(i) => i,
            None => {
                if self.totals[0].packets == 0 {
                    return None;
                }
                loop {
                    self.open();
                    rounds += 1;
                    if let Some(i) = self.next_leaf() {
                        break i;
                    }
                }
            }
        };
        let Packet { length, tag, mark } = self.packets[self.first(i)];
        let cost = cost(length);
        self.balance[i] -= cost;
        self.balance[0] += cost;
        self.charged = self.charged.wrapping_add(cost);
        self.start[i] = (self.start[i] + 1) % PLACES as u8;
        self.held[i] -= 1;
        self.change_up(i, |total| {
            total.packets -= 1;
            total.bytes -= cost;
        });
        if self.held[i] == 0 {
            self.waiting &= !(1 << i);
            self.left &= !(1 << i);
            self.turn_off(i);
        }
        Some(Sent { class: i, length, tag, rounds, waited: self.charged.wrapping_sub(mark) })
    }

    // What is left with the root.
    pub fn root(&self) -> u64 {
        self.balance[0]
    }
}

// The sends of a recording's first events, each as one number; how many.
#[inline(never)]
pub fn sends(input: &[u8], events: usize, out: &mut [u64]) -> usize {
    let Some((mut link, mut at)) = Plain::read(input) else { return 0 };
    let mut many = 0;
    for _ in 0..events {
        let Some((event, next)) = event_at(input, at) else { break };
        at = next;
        match event {
            Event::Arrival { class, length, tag } => {
                _ = link.arrive(class, length, tag);
            }
            Event::Send => {
                let Some(place) = out.get_mut(many) else { break };
                *place = number(link.send());
                many += 1;
            }
        }
    }
    many
}

// Rounds opened one over the other on a plan's link with a packet in every leaf; what is left with the root.
#[inline(never)]
pub fn openings(input: &[u8], times: usize) -> u64 {
    let Some((mut link, _)) = Plain::read(input) else { return 0 };
    for class in 1..CLASSES {
        _ = link.arrive(class, 1, 0);
    }
    for _ in 0..times {
        link.open();
    }
    link.root()
}

// The answers of a recording's calls, each as eight numbers (R339), into a buffer, from its start again where it is full; how many calls.
#[inline(never)]
pub fn answers(input: &[u8], out: &mut [[u64; 8]]) -> usize {
    let Some((mut link, mut at)) = Plain::read(input) else { return 0 };
    let (mut many, mut k) = (0, 0);
    while let Some((event, next)) = event_at(input, at) {
        at = next;
        if k == out.len() {
            k = 0;
        }
        out[k] = match event {
            Event::Arrival { class, length, tag } => match link.arrive(class, length, tag) {
                Ok(bytes) => [16, 0, 0, class as u64, length as u64, tag as u64, bytes, 0],
                Err(number) => [16, number as u64, class as u64, class as u64, length as u64, tag as u64, 0, 0],
            },
            Event::Send => match link.send() {
                Some(s) => [17, 0, 0, s.class as u64, s.length as u64, s.tag as u64, s.waited, s.rounds as u64],
                None => [17, 15, 0, 0, 0, 0, 0, 0],
            },
        };
        k += 1;
        many += 1;
    }
    many
}

// A line is laid where there is room for so many bytes; the longest has fewer.
const LINE: usize = 112;

// A text's bytes from a place of the line on; the place after them.
#[inline(always)]
fn word<const N: usize>(line: &mut [u8; LINE], at: usize, text: &[u8; N]) -> usize {
    line[at..at + N].copy_from_slice(text);
    at + N
}

// The digits of the numbers below 100, two by two.
const TWO: [[u8; 2]; 100] = {
    let mut two = [[0; 2]; 100];
    let mut n = 0;
    while n < 100 {
        two[n] = [b'0' + n as u8 / 10, b'0' + n as u8 % 10];
        n += 1;
    }
    two
};

// A space and a number, its digits two by two straight to their places; the place after them.
#[inline(always)]
fn digits(line: &mut [u8; LINE], at: usize, number: u32) -> usize {
    line[at] = b' ';
    if number < 10 {
        line[at + 1] = b'0' + number as u8;
        return at + 2;
    }
    let end = at + 2 + number.ilog10() as usize;
    by_twos(line, end, number as u64);
    end
}

// The digits of a number up to a place.
#[inline(always)]
fn by_twos(line: &mut [u8; LINE], end: usize, number: u64) {
    let (mut left, mut place) = (number as usize, end);
    while left >= 100 {
        place -= 2;
        line[place..place + 2].copy_from_slice(&TWO[left % 100]);
        left /= 100;
    }
    if left >= 10 {
        line[place - 2..place].copy_from_slice(&TWO[left]);
    } else {
        line[place - 1] = b'0' + left as u8;
    }
}

// The same for a number that is seldom above 32 bits.
#[inline(always)]
fn long_digits(line: &mut [u8; LINE], at: usize, number: u64) -> usize {
    match u32::try_from(number) {
        Ok(number) => digits(line, at, number),
        Err(_) => {
            line[at] = b' ';
            let end = at + 2 + number.ilog10() as usize;
            by_twos(line, end, number);
            end
        }
    }
}

// A line up to its last number: a word and numbers; the place after them.
#[inline(always)]
fn words<const N: usize, const M: usize>(line: &mut [u8; LINE], text: &[u8; N], numbers: [u32; M]) -> usize {
    let mut at = word(line, 0, text);
    for number in numbers {
        at = digits(line, at, number);
    }
    at
}

// A whole line: a word, its numbers and the end of the line; how many bytes.
#[inline(always)]
fn line<const N: usize, const M: usize>(line: &mut [u8; LINE], text: &[u8; N], numbers: [u32; M]) -> usize {
    let at = words(line, text, numbers);
    word(line, at, b"\n")
}

// The line of a packet that went; how many bytes.
#[inline(always)]
fn out_line(line: &mut [u8; LINE], s: Sent) -> usize {
    let at = words(line, b"out", [s.class as u32, s.length as u32, s.tag, s.rounds]);
    let at = long_digits(line, at, s.waited);
    word(line, at, b"\n")
}

// The lines of a recording's events (R189 to R195) into a buffer, from its start again where it has no room for one more;
// how many bytes they are. The recording is whole.
#[inline(never)]
pub fn text(input: &[u8], out: &mut [u8]) -> usize {
    let Some((mut link, mut at)) = Plain::read(input) else { return 0 };
    let (mut before, mut laid) = (0, 0);
    loop {
        if out.len() - laid < LINE {
            before += laid;
            laid = 0;
        }
        let Some(room) = out[laid..].first_chunk_mut() else { return 0 };
        let Some((event, next)) = event_at(input, at) else {
            return before + laid + line(room, b"end", [link.totals[0].packets as u32]);
        };
        at = next;
        laid += match event {
            Event::Arrival { class, length, tag } => match link.arrive(class, length, tag) {
                Ok(bytes) => line(room, b"in", [class as u32, length as u32, tag, bytes as u32]),
                Err(number) => line(room, b"no", [class as u32, length as u32, tag, number]),
            },
            Event::Send => match link.send() {
                Some(s) => out_line(room, s),
                None => line(room, b"none", []),
            },
        };
    }
}
