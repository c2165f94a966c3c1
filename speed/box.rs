// Times the archive as a box meets it, through the Rust face (rust/): single calls, bursts, and beside them the plain scheduler
// (speed/plain.rs), all in one process. bin/speed box builds and runs it, docs/speed.md says what the words mean. What the sides answer is
// compared first, row by row; a difference ends the program with status 1 and names the event. Words: [quick].
#[allow(dead_code)]
mod plain;
#[allow(dead_code)]
mod recordings;

use cometbanjo::{Answer, Answered, Event, Link};
use plain::Plain;
use recordings::{Lengths, Recording, Shape, Weights};
use std::hint::black_box;
use std::io::Write;

extern "C" {
    fn clock_gettime(clock: i32, now: *mut i64) -> i32;
    fn signal(number: i32, action: usize) -> usize;
}

const CLOCK_THREAD_CPUTIME_ID: i32 = 3;
const PAIR: usize = 9;
const MOST: usize = 256;
const BURSTS: [usize; 4] = [1, 8, 32, MOST];

struct Amount {
    pairs: usize,
    slow: usize,
    best_of: usize,
}

const WHOLE: Amount = Amount { pairs: 200_000, slow: 20_000, best_of: 15 };
const QUICK: Amount = Amount { pairs: 50_000, slow: 4_000, best_of: 5 };

// The processor time of this thread so far, in nanoseconds: time that other work on the machine takes does not count.
fn processor_time() -> f64 {
    let mut now = [0i64; 2];
    assert_eq!(unsafe { clock_gettime(CLOCK_THREAD_CPUTIME_ID, now.as_mut_ptr()) }, 0, "no clock");
    now[0] as f64 * 1e9 + now[1] as f64
}

fn difference(what: &str, at: usize) -> ! {
    println!("{what} differs at event {at}");
    std::process::exit(1)
}

// What plain Rust answers to an event, as a row of eight numbers; the place after the event.
#[inline(always)]
fn plain_row(link: &mut Plain, input: &[u8], at: usize, row: &mut [u64; 8]) -> usize {
    if input[at] == 17 {
        *row = match link.send() {
            Some(s) => [17, 0, 0, s.class as u64, s.length as u64, s.tag as u64, s.waited, s.rounds as u64],
            None => [17, 15, 0, 0, 0, 0, 0, 0],
        };
        return at + 1;
    }
    let body: &[u8; 8] = input[at..].first_chunk().expect("a whole event");
    let (class, length) = (body[1] as usize, u16::from_be_bytes([body[2], body[3]]));
    let tag = u32::from_be_bytes([body[4], body[5], body[6], body[7]]);
    let (number, place, bytes) = match link.arrive(class, length, tag) {
        Ok(bytes) => (0, 0, bytes),
        Err(number) => (number as u64, class as u64, 0),
    };
    *row = [16, number, place, class as u64, length as u64, tag as u64, bytes, 0];
    at + 8
}

fn row_of(answered: Answered) -> [u64; 8] {
    match answered {
        Answered::Arrival(p, answer) => {
            let (number, place, bytes) = match answer {
                Ok(bytes) => (0, 0, bytes),
                Err(refusal) => (refusal.number as u64, refusal.place, 0),
            };
            [16, number, place, p.class as u64, p.length as u64, p.tag as u64, bytes, 0]
        }
        Answered::Send(Ok(s)) => {
            let p = s.packet;
            [17, 0, 0, p.class as u64, p.length as u64, p.tag as u64, s.waited, s.rounds as u64]
        }
        Answered::Send(Err(refusal)) => [17, refusal.number as u64, refusal.place, 0, 0, 0, 0, 0],
    }
}

fn single(link: &mut Link, event: Event) -> Answered {
    match event {
        Event::Arrival(packet) => Answered::Arrival(packet, link.arrive(packet)),
        Event::Send => Answered::Send(link.send()),
    }
}

// A recording, and where its plan and its filling end.
struct Run {
    recording: Recording,
    plan: usize,
    filled: usize,
}

impl Run {
    fn new(shape: Shape, weights: Weights, deep: usize, pairs: usize) -> Run {
        let recording = recordings::recording(shape, weights, Lengths::From(1), deep, pairs, 1);
        let plan = Link::new().open(&recording.input).expect("a plan");
        let filled = plan + 8 * recording.filling;
        assert_eq!(filled + PAIR * pairs, recording.input.len());
        Run { recording, plan, filled }
    }

    fn filled_link(&self, link: &mut Link, room: &mut [Answer]) {
        link.open(&self.recording.input).expect("a plan");
        let mut at = self.plan;
        while at < self.filled {
            at += link.burst(&self.recording.input[at..self.filled], room).used;
        }
    }

    fn filled_plain(&self) -> Box<Plain> {
        let (link, mut at) = Plain::read(&self.recording.input).expect("a plan");
        let mut link = Box::new(link);
        let mut row = [0; 8];
        while at < self.filled {
            at = plain_row(&mut link, &self.recording.input, at, &mut row);
        }
        link
    }

    // All three sides on the first pairs: every number of every answer.
    fn compare(&self, link: &mut Link, room: &mut [Answer], pairs: usize) {
        let input = &self.recording.input[..self.filled + PAIR * pairs];
        let (mut by_one, mut plain) = (Box::new(Link::new()), self.filled_plain());
        self.filled_link(link, room);
        self.filled_link(&mut by_one, room);
        let (mut at, mut many, mut row) = (self.filled, 0, [0; 8]);
        while at < input.len() {
            let burst = link.burst(&input[at..input.len().min(at + 7 * PAIR)], room);
            if burst.stopped.is_some() {
                difference("a burst's end", many);
            }
            for answer in burst.answers {
                let event = Event::read(&input[at..]).expect("an event").expect("an event");
                let next = plain_row(&mut plain, input, at, &mut row);
                if answer.get().map(row_of) != Some(row) {
                    difference("a burst beside plain Rust", many);
                }
                if row_of(single(&mut by_one, event)) != row {
                    difference("a single call beside plain Rust", many);
                }
                at = next;
                many += 1;
            }
        }
    }

    // Nanoseconds a pair by bursts of so many pairs.
    fn bursts(&self, link: &mut Link, room: &mut [Answer], pairs: usize, of: usize) -> f64 {
        self.filled_link(link, room);
        let input = &self.recording.input[self.filled..self.filled + PAIR * pairs];
        let start = processor_time();
        for events in input.chunks(PAIR * of) {
            black_box(link.burst(events, &mut room[..2 * of]).answers.len());
        }
        (processor_time() - start) / pairs as f64
    }

    // By single calls, each event read from the recording.
    fn singles(&self, link: &mut Link, room: &mut [Answer], pairs: usize) -> f64 {
        self.filled_link(link, room);
        let input = &self.recording.input[self.filled..self.filled + PAIR * pairs];
        let start = processor_time();
        for events in input.chunks(PAIR) {
            black_box(link.send().is_ok());
            if let Ok(Some(Event::Arrival(packet))) = Event::read(&events[1..]) {
                black_box(link.arrive(packet).is_ok());
            }
        }
        (processor_time() - start) / pairs as f64
    }

    // An arrival alone, by filling the queues, and a send alone, by emptying them.
    fn alone(&self, link: &mut Link) -> (f64, f64) {
        link.open(&self.recording.input).expect("a plan");
        let input = &self.recording.input[self.plan..self.filled];
        let start = processor_time();
        for event in input.chunks(8) {
            if let Ok(Some(Event::Arrival(packet))) = Event::read(event) {
                black_box(link.arrive(packet).is_ok());
            }
        }
        let between = processor_time();
        while link.send().is_ok() {}
        let many = self.recording.filling as f64;
        ((between - start) / many, (processor_time() - between) / many)
    }

    // Plain Rust, rows laid into a buffer of the largest burst's length.
    fn plain(&self, rows: &mut [[u64; 8]], pairs: usize) -> f64 {
        let mut link = self.filled_plain();
        let input = &self.recording.input[self.filled..self.filled + PAIR * pairs];
        let start = processor_time();
        let (mut at, mut k) = (0, 0);
        while at < input.len() {
            at = plain_row(&mut link, input, at, &mut rows[k]);
            k = (k + 1) % rows.len();
        }
        black_box(&rows);
        (processor_time() - start) / pairs as f64
    }
}

fn shape_name(shape: Shape) -> &'static str {
    match shape {
        Shape::Flat => "flat",
        Shape::Eight => "8 inner",
        Shape::Chain => "chain of 31",
        Shape::Line => "single file",
    }
}

fn main() {
    // a reader that has seen enough (| head) is no fault: SIGPIPE ends the program
    unsafe { signal(13, 0) };
    let words: Vec<String> = std::env::args().skip(1).collect();
    let amount = match words.iter().map(String::as_str).collect::<Vec<_>>()[..] {
        [] => WHOLE,
        ["quick"] => QUICK,
        _ => {
            eprintln!("box: expected the word quick or none");
            std::process::exit(2)
        }
    };
    if !cometbanjo::fits() {
        eprintln!("box: the crate and the library do not fit: build both from one commit");
        std::process::exit(3)
    }
    println!("Nanoseconds for a send with its arrival, 63 classes, packets of 1 to 1,500 bytes; {} pairs by bursts,", amount.pairs);
    println!("{} by single calls and by bursts of one, thread's processor time, best of {}.", amount.slow, amount.best_of);
    println!();
    print!("| Classes | Weights | Queues | arrive alone | send alone | single calls |");
    println!(" bursts of 1 | 8 | 32 | 256 | plain Rust | 256 beside it |");
    println!("|---|---|---|---:|---:|---:|---:|---:|---:|---:|---:|---:|");
    let mut link = Box::new(Link::new());
    let mut room = vec![Answer::NONE; 2 * MOST];
    let mut rows = vec![[0u64; 8]; 2 * MOST];
    for (weights, weights_name, deep) in [(Weights::One, "1", 31), (Weights::Drawn, "1 to 1,000", 31), (Weights::One, "1", 1)] {
        for shape in [Shape::Flat, Shape::Eight, Shape::Chain] {
            let run = Run::new(shape, weights, deep, amount.pairs);
            run.compare(&mut link, &mut room, amount.slow.min(5_000));
            let mut best = [f64::INFINITY; 8];
            for _ in 0..amount.best_of {
                let (arrive, send) = run.alone(&mut link);
                let mut now = [arrive, send, run.singles(&mut link, &mut room, amount.slow), 0.0, 0.0, 0.0, 0.0, 0.0];
                for (k, of) in BURSTS.into_iter().enumerate() {
                    let pairs = if of < 8 { amount.slow } else { amount.pairs };
                    now[3 + k] = run.bursts(&mut link, &mut room, pairs, of);
                }
                now[7] = run.plain(&mut rows, amount.pairs);
                for (least, now) in best.iter_mut().zip(now) {
                    *least = least.min(now);
                }
            }
            let queues = if deep == 1 { "one packet a leaf" } else { "backlogged" };
            print!("| {} | {weights_name} | {queues} |", shape_name(shape));
            for ns in best {
                print!(" {} |", if ns < 100.0 { format!("{ns:.1}") } else { format!("{ns:.0}") });
            }
            println!(" {:.2} |", best[6] / best[7]);
            let _ = std::io::stdout().flush();
        }
    }
}
