// What a send costs in each engine, over the same recordings: `bin/speed engines` builds and runs it, docs/engines.md keeps the table. It
// calls the library's own functions in the module that the program `engines` compiles to, over lent arrays and by value. What both engines
// send is compared; a difference ends it with status 101.
mod plain;
mod recordings;

use recordings::{recording_of, Lengths, Shape, Weights};
use std::hint::black_box;

// A tree as a record has it.
#[repr(C)]
#[derive(Clone)]
struct Tree {
    count: u64,
    leaves: u64,
    parent: [u8; 64],
    weight: [u32; 64],
    longest: [u16; 64],
    follows: u64,
}

// The first engine's record and the second's, and what the calls by value give: the record, and an answer.
#[repr(C)]
#[derive(Clone)]
struct First {
    tree: Tree,
    lengths: [u16; 2048],
    tags: [u32; 2048],
    marks: [u64; 2048],
    start: [u8; 64],
    held: [u8; 64],
    packets: [u64; 64],
    bytes: [u64; 64],
    charged: u64,
    size: u64,
    active: u64,
    place: u64,
    accounts: [[u64; 2]; 64],
}

#[repr(C)]
#[derive(Clone)]
struct Second {
    link: First,
    asked: u64,
    quotas: [u64; 64],
}

#[repr(C)]
struct Given<const WORDS: usize, R> {
    link: R,
    answer: [u64; WORDS],
}

#[rustfmt::skip]
extern "C" {
    #[link_name = "steps::send"]
    fn first_step(out: *mut u64, shape: *const u64, children: *const u64, kept: *mut u32, stand: *const [u64; 5], balance: *mut u64,
        residual: *mut u64, start: *mut u8, held: *mut u8, lengths: *const u16, tags: *const u32, marks: *const u64, packets: *mut u64,
        bytes: *mut u64);
    #[link_name = "published_send::send"]
    fn second_step(out: *mut u64, shape: *const u64, children: *const u64, kept: *mut u32, stand: *const [u64; 5], asked: u64,
        balance: *mut u64, residual: *mut u64, quotas: *mut u64, start: *mut u8, held: *mut u8, lengths: *const u16, tags: *const u32,
        marks: *const u64, packets: *mut u64, bytes: *mut u64);
    #[link_name = "steps::arrival::arrive"]
    fn arrival_step(out: *mut u64, sound: u64, class: u64, length: u16, tag: u32, shape: *const u64, start: *const u8,
        held: *mut u8, lengths: *mut u16, tags: *mut u32, marks: *mut u64, charged: u64, packets: *mut u64, bytes: *mut u64);
    #[link_name = "link::send"]
    fn first_send(out: *mut Given<6, First>, link: *const First);
    #[link_name = "link::arrive"]
    fn first_arrive(out: *mut Given<3, First>, link: *const First, class: u64, length: u16, tag: u32);
    #[link_name = "sound::is_sound"]
    fn first_sound(link: *const First) -> bool;
    #[link_name = "published_link::send"]
    fn second_send(out: *mut Given<6, Second>, link: *const Second);
    #[link_name = "published_link::arrive"]
    fn second_arrive(out: *mut Given<3, Second>, link: *const Second, class: u64, length: u16, tag: u32);
    #[link_name = "published_link::is_sound"]
    fn second_sound(link: *const Second) -> bool;
    fn clock_gettime(clock: i32, now: *mut i64) -> i32;
}

const CLOCK_THREAD_CPUTIME_ID: i32 = 3;

// The processor time of this thread so far, in nanoseconds.
fn clock() -> f64 {
    let mut now = [0i64; 2];
    assert_eq!(unsafe { clock_gettime(CLOCK_THREAD_CPUTIME_ID, now.as_mut_ptr()) }, 0, "no clock");
    now[0] as f64 * 1e9 + now[1] as f64
}

// A link taken apart into the arrays that the steps take.
#[derive(Clone)]
struct Lent {
    link: Box<Second>,
    shape: [u64; 195],
    children: [u64; 64],
    balance: [u64; 64],
    residual: [u64; 64],
}

// An arrival, or a send.
enum Event {
    Arrive(u64, [u32; 2]),
    Send,
}

fn charge(length: u16) -> u64 {
    (length as u64 + 4).max(64) + 20
}

impl Lent {
    // The fresh link of a plan of rule 1, and where its events begin.
    fn read(input: &[u8]) -> (Lent, usize) {
        // every number 0, and so is each part of it
        let mut link: Box<Second> = Box::new(unsafe { std::mem::zeroed() });
        let (tree, mut at, mut size) = (&mut link.link.tree, 0, 0);
        while input[at] != 0 {
            tree.count += 1;
            let i = tree.count as usize;
            tree.parent[i] = input[at + 1];
            tree.weight[i] = u32::from_be_bytes(input[at + 2..at + 6].try_into().unwrap());
            size += tree.weight[i] as u64;
            if input[at] == 2 {
                tree.leaves |= 1 << i;
                tree.longest[i] = u16::from_be_bytes([input[at + 6], input[at + 7]]);
                size += charge(tree.longest[i]);
            }
            at += if input[at] == 2 { 8 } else { 6 };
        }
        link.link.size = size;
        link.link.place = 64;
        // the tree as numbers: parents, weights, longest packets, how many classes, the leaves, the rule; and the sets of children
        let (t, mut shape, mut children) = (&link.link.tree, [0; 195], [0u64; 64]);
        for i in 0..64 {
            (shape[i], shape[64 + i], shape[128 + i]) = (t.parent[i] as u64, t.weight[i] as u64, t.longest[i] as u64);
        }
        (shape[192], shape[193], shape[194]) = (t.count, t.leaves, t.follows);
        for i in 1..=t.count as usize {
            children[t.parent[i] as usize] |= 1 << i;
        }
        let mut lent = Lent { link, shape, children, balance: [0; 64], residual: [0; 64] };
        lent.balance[0] = size;
        (lent, at + 1)
    }

    fn arrive(&mut self, class: u64, packet: &[u32; 2]) {
        let (l, mut out) = (&mut self.link.link, [0u64; 3]);
        unsafe {
            arrival_step(
                out.as_mut_ptr(), 1, class, packet[0] as u16, packet[1], self.shape.as_ptr(), l.start.as_ptr(), l.held.as_mut_ptr(),
                l.lengths.as_mut_ptr(), l.tags.as_mut_ptr(), l.marks.as_mut_ptr(), l.charged, l.packets.as_mut_ptr(), l.bytes.as_mut_ptr(),
            )
        }
        assert_eq!(out[0] & 255, 0, "an arrival is refused");
    }

    // A send of the first engine, with nothing kept of the last opening: the class and the rounds opened.
    fn first(&mut self) -> (u64, u64) {
        let (l, mut out, mut kept) = (&mut self.link.link, [0u64; 10], [0u32; 64]);
        let stand = [0, l.size, l.active, l.place, l.charged];
        unsafe {
            first_step(
                out.as_mut_ptr(), self.shape.as_ptr(), self.children.as_ptr(), kept.as_mut_ptr(), &stand, self.balance.as_mut_ptr(),
                self.residual.as_mut_ptr(), l.start.as_mut_ptr(), l.held.as_mut_ptr(), l.lengths.as_ptr(), l.tags.as_ptr(),
                l.marks.as_ptr(), l.packets.as_mut_ptr(), l.bytes.as_mut_ptr(),
            )
        }
        (l.size, l.active, l.place, l.charged) = (out[6], out[7], out[8], out[9]);
        (out[1], out[4])
    }

    // A send of the second.
    fn second(&mut self) -> (u64, u64) {
        let (asked, quotas) = (&mut self.link.asked, &mut self.link.quotas);
        let (l, mut out, mut kept) = (&mut self.link.link, [0u64; 10], [0u32; 64]);
        let stand = [0, l.size, l.active, l.place, l.charged];
        unsafe {
            second_step(
                out.as_mut_ptr(), self.shape.as_ptr(), self.children.as_ptr(), kept.as_mut_ptr(), &stand, *asked,
                self.balance.as_mut_ptr(), self.residual.as_mut_ptr(), quotas.as_mut_ptr(), l.start.as_mut_ptr(), l.held.as_mut_ptr(),
                l.lengths.as_ptr(), l.tags.as_ptr(), l.marks.as_ptr(), l.packets.as_mut_ptr(), l.bytes.as_mut_ptr(),
            )
        }
        (*asked, l.size, l.active, l.place, l.charged) = (out[4], out[6], out[7], out[8], out[9]);
        (out[0], out[3])
    }

    // Put together again. The steps count a packet at its leaf and at the root; a record has the inner classes' counts too.
    fn record(&self) -> Box<Second> {
        let mut link = self.link.clone();
        for i in (1..64).rev() {
            let parent = link.link.tree.parent[i] as usize;
            if parent != 0 {
                link.link.packets[parent] += link.link.packets[i];
                link.link.bytes[parent] += link.link.bytes[i];
            }
        }
        for i in 0..64 {
            link.link.accounts[i] = [self.balance[i], self.residual[i]];
        }
        link
    }
}

fn events(input: &[u8], mut at: usize) -> Vec<Event> {
    let mut found = Vec::new();
    while at < input.len() {
        if input[at] == 17 {
            found.push(Event::Send);
            at += 1;
            continue;
        }
        let length = u16::from_be_bytes([input[at + 2], input[at + 3]]);
        let tag = u32::from_be_bytes(input[at + 4..at + 8].try_into().unwrap());
        found.push(Event::Arrive(input[at + 1] as u64, [length as u32, tag]));
        at += 8;
    }
    found
}

// Every send of a recording timed by itself, the least of so many runs: nanoseconds, class and rounds.
fn each_send(filled: &Lent, events: &[Event], send: fn(&mut Lent) -> (u64, u64), times: usize) -> Vec<(f64, u64, u64)> {
    let mut best: Vec<(f64, u64, u64)> = Vec::new();
    let nothing = (0..10_000).map(|_| -(clock() - clock())).fold(f64::INFINITY, f64::min);
    for time in 0..times {
        let (mut lent, mut n) = (filled.clone(), 0);
        for event in events {
            if let Event::Arrive(class, packet) = event {
                lent.arrive(*class, packet);
                continue;
            }
            let start = clock();
            let (class, rounds) = send(&mut lent);
            let took = clock() - start - nothing;
            if time == 0 {
                best.push((took, class, rounds));
            }
            best[n].0 = best[n].0.min(took);
            n += 1;
        }
    }
    best
}

// All events of a recording by value, the best of so many runs: nanoseconds, and the sends in one number.
fn by_value<R: Clone>(
    filled: &R,
    events: &[Event],
    send: unsafe extern "C" fn(*mut Given<6, R>, *const R),
    arrive: unsafe extern "C" fn(*mut Given<3, R>, *const R, u64, u16, u32),
    times: usize,
) -> (f64, u64) {
    let mut gone: Box<Given<6, R>> = Box::new(Given { link: filled.clone(), answer: [0; 6] });
    let mut taken: Box<Given<3, R>> = Box::new(Given { link: filled.clone(), answer: [0; 3] });
    let (mut best, mut sends) = (f64::INFINITY, 0u64);
    for _ in 0..times {
        let mut link = filled.clone();
        let start = clock();
        sends = 0;
        for event in events {
            match event {
                Event::Arrive(class, packet) => {
                    unsafe { arrive(&mut *taken, &link, *class, packet[0] as u16, packet[1]) };
                    link.clone_from(&taken.link);
                }
                Event::Send => {
                    unsafe { send(&mut *gone, &link) };
                    link.clone_from(&gone.link);
                    sends = told(sends, gone.answer[2], gone.answer[4]);
                }
            }
        }
        best = best.min(clock() - start);
        black_box(&link);
    }
    (best, sends)
}

// One send more in a number of sends.
fn told(sends: u64, class: u64, rounds: u64) -> u64 {
    sends.wrapping_mul(33).wrapping_add(class << 2 | rounds)
}

// What is decided of a record, so many times: nanoseconds each.
fn sound_time<R>(link: &R, sound: unsafe extern "C" fn(*const R) -> bool) -> f64 {
    let start = clock();
    for _ in 0..1_000 {
        assert!(unsafe { sound(black_box(link)) }, "not sound");
    }
    (clock() - start) / 1_000.0
}

// The mean of the sends that open a round, or of those that do not; none where there are none.
fn mean(of: &[(f64, u64, u64)], opens: bool) -> String {
    let these: Vec<f64> = of.iter().filter(|s| (s.2 > 0) == opens).map(|s| s.0).collect();
    if these.is_empty() { "none".into() } else { format!("{:.0}", these.iter().sum::<f64>() / these.len() as f64) }
}

fn row(name: &str, shape: Shape, classes: usize, deep: usize, times: usize) {
    let recording = recording_of(classes, shape, Weights::One, Lengths::From(1), deep, 4_000, 7);
    let (mut filled, at) = Lent::read(&recording.input);
    let events = events(&recording.input, at);
    for event in &events[..recording.filling] {
        if let Event::Arrive(class, packet) = event {
            filled.arrive(*class, packet);
        }
    }
    let events = &events[recording.filling..];
    let one = each_send(&filled, events, Lent::first, times);
    let two = each_send(&filled, events, Lent::second, times);
    assert!(one.iter().zip(&two).all(|(a, b)| (a.1, a.2) == (b.1, b.2)), "the engines send differently");
    let all = one.iter().fold(0, |sends, s| told(sends, s.1, s.2));
    let record = filled.record();
    let (value_one, sent_one) = by_value(&record.link, events, first_send, first_arrive, times / 4 + 1);
    let (value_two, sent_two) = by_value(&*record, events, second_send, second_arrive, times / 4 + 1);
    assert!(sent_one == all && sent_two == all, "the calls by value send differently");
    let least = |f: &dyn Fn() -> f64| (0..times).map(|_| f()).fold(f64::INFINITY, f64::min);
    let sound_one = least(&|| sound_time(&record.link, first_sound));
    let sound_two = least(&|| sound_time(&*record, second_sound));
    let whole = |of: &[(f64, u64, u64)]| of.iter().map(|s| s.0).sum::<f64>() / of.len() as f64;
    let longest = |of: &[(f64, u64, u64)]| of.iter().map(|s| s.0).fold(0.0, f64::max);
    let opening = one.iter().filter(|s| s.2 > 0).count();
    println!(
        "| {name} | {opening} | {} / {} | {} / {} | {:.0} / {:.0} | {:.0} / {:.0} | {:.0} / {:.0} | {:.0} / {:.0} |",
        mean(&one, false), mean(&two, false), mean(&one, true), mean(&two, true), longest(&one), longest(&two), whole(&one), whole(&two),
        sound_one, sound_two, value_one / 4_000.0, value_two / 4_000.0
    );
}

fn main() {
    let times = if std::env::args().any(|word| word == "quick") { 5 } else { 41 };
    println!("| Classes, queues | opening sends of 4,000 | inside a round | that opens one | longest | all sends | soundness | by value |");
    println!("|---|---:|---:|---:|---:|---:|---:|---:|");
    for (shape, classes, name) in [
        (Shape::Flat, 7, "7 flat"),
        (Shape::Flat, 63, "63 flat"),
        (Shape::Eight, 63, "63, 8 inner"),
        (Shape::Chain, 63, "63, chain of 31"),
        (Shape::Line, 63, "63 single file"),
    ] {
        row(&format!("{name}, backlogged"), shape, classes, 31, times);
        row(&format!("{name}, one packet a leaf"), shape, classes, 1, times);
    }
}
