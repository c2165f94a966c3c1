// Times the run without text beside the plain scheduler (speed/plain.rs), in one process: all events of a recording through bursts of the
// archive, eight numbers laid for each call, and plain Rust that reads the same events and lays the same numbers. bin/speed run builds and
// runs it, docs/speed.md keeps the tables. What the two answer is compared first, all numbers of all answers; a difference ends the program
// with status 1 and names the event. Words: [quick]; or SIDE SHAPE DEEP PAIRS, one side once, for a tool that counts instructions.
#[allow(dead_code)]
mod plain;
#[allow(dead_code)]
mod recordings;

use cometbanjo::{Answer, Event, Link};
use recordings::{Lengths, Recording, Shape, Weights};
use std::hint::black_box;

extern "C" {
    fn clock_gettime(clock: i32, now: *mut i64) -> i32;
}

const CLOCK_THREAD_CPUTIME_ID: i32 = 3;
const PAIR: usize = 9;
// Rows of a buffer: answers stay in the processor's second cache, and the decision of soundness is made once for so many.
const ROWS: usize = 4_096;

struct Amount {
    sends: usize,
    best_of: usize,
    decisions: usize,
}

const WHOLE: Amount = Amount { sends: 1_000_000, best_of: 11, decisions: 20_000 };
const QUICK: Amount = Amount { sends: 100_000, best_of: 5, decisions: 2_000 };

// The processor time of this thread so far, in nanoseconds: time that other work on the machine takes does not count.
fn processor_time() -> f64 {
    let mut now = [0i64; 2];
    assert_eq!(unsafe { clock_gettime(CLOCK_THREAD_CPUTIME_ID, now.as_mut_ptr()) }, 0, "no clock");
    now[0] as f64 * 1e9 + now[1] as f64
}

fn timed(run: &mut dyn FnMut()) -> f64 {
    let start = processor_time();
    run();
    processor_time() - start
}

// The calls of a recording by bursts into one buffer; how many.
fn bursts(link: &mut Link, input: &[u8], room: &mut [Answer]) -> usize {
    let mut at = link.open(input).expect("a plan");
    let mut many = 0;
    while at < input.len() {
        let burst = link.burst(&input[at..], room);
        assert!(burst.stopped.is_none(), "a burst stops");
        at += burst.used;
        many += burst.answers.len();
    }
    many
}

fn row(a: &Answer) -> [u64; 8] {
    // an answer is the eight numbers of its row
    unsafe { std::mem::transmute_copy(a) }
}

fn compare(name: &str, link: &mut Link, made: &Recording) {
    let events = made.events();
    let (mut ours, mut plain) = (vec![Answer::NONE; events], vec![[0u64; 8]; events]);
    assert_eq!(bursts(link, &made.input, &mut ours), events, "{name}: the bursts stop early");
    assert_eq!(plain::answers(&made.input, &mut plain), events, "{name}: the plain scheduler stops early");
    if let Some(at) = (0..events).find(|&k| row(&ours[k]) != plain[k]) {
        println!("speed: {name}: the answers differ at event {at}");
        std::process::exit(1);
    }
}

fn shape_word(shape: Shape) -> &'static str {
    match shape {
        Shape::Flat => "flat",
        Shape::Eight => "8 inner",
        Shape::Chain => "chain of 31",
        Shape::Line => "single file",
    }
}

fn weights_word(shape: Shape, weights: Weights) -> &'static str {
    match (weights, shape) {
        (Weights::One, _) => "1",
        (Weights::Drawn, _) => "1 to 1,000",
        (Weights::Most, Shape::Eight) => "142,857",
        (Weights::Most, Shape::Chain) => "31,250",
        (Weights::Most, _) => "1,000,000",
    }
}

// Nanoseconds for a send with its arrival: plain Rust and the run, the sides in turn, the best of each, filling taken off.
fn pair(amount: &Amount, link: &mut Link, made: &Recording) -> [f64; 2] {
    let (input, filled) = (&made.input[..], &made.input[..made.input.len() - PAIR * made.pairs]);
    let (mut rows, mut room) = (vec![[0u64; 8]; ROWS], vec![Answer::NONE; ROWS]);
    let mut least = [f64::INFINITY; 4];
    for _ in 0..amount.best_of {
        let now = [
            timed(&mut || _ = black_box(plain::answers(black_box(input), &mut rows))),
            timed(&mut || _ = black_box(plain::answers(black_box(filled), &mut rows))),
            timed(&mut || _ = black_box(bursts(link, black_box(input), &mut room))),
            timed(&mut || _ = black_box(bursts(link, black_box(filled), &mut room))),
        ];
        for (least, now) in least.iter_mut().zip(now) {
            *least = least.min(now);
        }
    }
    [(least[0] - least[1]) / made.pairs as f64, (least[2] - least[3]) / made.pairs as f64]
}

fn runs(amount: &Amount, link: &mut Link) {
    println!("### The run without text\n");
    print!("{} sends to a recording, {ROWS} rows to a buffer; ", amount.sends);
    println!("nanoseconds for a send with its arrival, best of {}.\n", amount.best_of);
    println!("| Classes | Weights | Packets | Queues | plain Rust | the run | ratio |");
    println!("|---|---|---|---|---:|---:|---:|");
    let (mut seed, mut worst) = (1, 0f64);
    for (queues, deep) in [("backlogged", 31), ("one packet a leaf", 1)] {
        for shape in [Shape::Flat, Shape::Eight, Shape::Chain] {
            for weights in [Weights::One, Weights::Drawn, Weights::Most] {
                for (packets, lengths) in [("1 to 1,500", Lengths::From(1)), ("9,216", Lengths::Longest)] {
                    if lengths == Lengths::Longest && (shape != Shape::Flat || weights != Weights::One || deep == 1) {
                        continue;
                    }
                    let name = format!("{}, weights {}, packets {packets}, {queues}", shape_word(shape), weights_word(shape, weights));
                    eprintln!("speed: {name}");
                    let made = recordings::recording(shape, weights, lengths, deep, amount.sends, seed);
                    seed += 1;
                    compare(&name, link, &made);
                    let [plain, run] = pair(amount, link, &made);
                    worst = worst.max(run / plain);
                    let (shape, weights) = (shape_word(shape), weights_word(shape, weights));
                    println!("| {shape} | {weights} | {packets} | {queues} | {plain:.1} | {run:.1} | {:.2} |", run / plain);
                }
            }
        }
    }
    println!("\nThe largest ratio is {worst:.2}.\n");
}

// Fills a link by the first events of a recording.
fn filled(link: &mut Link, made: &Recording, pairs: usize) {
    let mut room = vec![Answer::NONE; ROWS];
    let end = made.input.len() - PAIR * (made.pairs - pairs);
    bursts(link, &made.input[..end], &mut room);
}

// The decision of soundness alone, which is what `totals` does, and single calls.
fn decisions(amount: &Amount, link: &mut Link) {
    println!("### The decision of soundness on the caller's arrays, and single calls\n");
    println!("63 classes, weights 1 to 1,000; nanoseconds, best of {} times {}.\n", amount.best_of, amount.decisions);
    println!("| Classes | fresh | 1 packet a leaf | 10 | 31 | 31, rings gone round | a send with its arrival, single calls |");
    println!("|---|---:|---:|---:|---:|---:|---:|");
    for shape in [Shape::Flat, Shape::Eight, Shape::Chain] {
        eprintln!("speed: the decision, {}", shape_word(shape));
        let mut figures = Vec::new();
        for (deep, pairs) in [(0, 0), (1, 0), (10, 0), (31, 0), (31, 5_000)] {
            let made = recordings::recording(shape, Weights::Drawn, Lengths::From(1), deep, if deep == 0 { 0 } else { 5_000 }, 7);
            filled(link, &made, pairs);
            let mut least = f64::INFINITY;
            for _ in 0..amount.best_of {
                let all = timed(&mut || (0..amount.decisions).for_each(|_| assert!(black_box(&mut *link).totals().is_ok())));
                least = least.min(all / amount.decisions as f64);
            }
            figures.push(least);
        }
        let made = recordings::recording(shape, Weights::Drawn, Lengths::From(1), 31, amount.decisions, 7);
        let mut least = f64::INFINITY;
        for _ in 0..amount.best_of {
            filled(link, &made, 0);
            let events = &made.input[made.input.len() - PAIR * made.pairs..];
            let all = timed(&mut || {
                for pair in events.chunks(PAIR) {
                    assert!(black_box(link.send()).is_ok());
                    if let Ok(Some(Event::Arrival(packet))) = Event::read(&pair[1..]) {
                        assert!(black_box(link.arrive(packet)).is_ok());
                    }
                }
            });
            least = least.min(all / made.pairs as f64);
        }
        figures.push(least);
        let figures: Vec<String> = figures.iter().map(|ns| format!("{ns:.0}")).collect();
        println!("| {} | {} |", shape_word(shape), figures.join(" | "));
    }
    println!();
}

// How the cost grows with the classes, and what a link of each speed asks.
fn growth(amount: &Amount, link: &mut Link) {
    println!("### As classes grow\n");
    println!("Flat, weights 1 to 1,000, backlogged; nanoseconds for a send with its arrival, best of {}.\n", amount.best_of);
    println!("| Classes | plain Rust | the run | ratio | packets a second in the run | |");
    println!("|---:|---:|---:|---:|---:|---|");
    let mut last = 0.0;
    for classes in [1, 3, 7, 15, 31, 63] {
        eprintln!("speed: {classes} classes");
        let made = recordings::recording_of(classes, Shape::Flat, Weights::Drawn, Lengths::From(1), 31, amount.sends, 300 + classes as u64);
        compare(&format!("{classes} classes"), link, &made);
        let [plain, run] = pair(amount, link, &made);
        last = run;
        let bar = "█".repeat((run / 1.0).round() as usize);
        println!("| {classes} | {plain:.1} | {run:.1} | {:.2} | {:.0} | {bar} |", run / plain, 1e9 / run);
    }
    print!("\nFrames of 64 bytes fill a wire of 100 Mbit/s with 148,810 packets a second, of 1 Gbit/s with 1,488,095, ");
    println!("of 10 Gbit/s with 14,880,952: in the");
    println!("run, at 63 classes, one processor makes {:.1} times the last.", 1e9 / last / 14_880_952.0);
}

// One side once: what it executes is counted by another program.
fn once(words: &[String]) {
    let shape = match &words[1][..] {
        "flat" => Shape::Flat,
        "eight" => Shape::Eight,
        _ => Shape::Chain,
    };
    let (deep, pairs): (usize, usize) = (words[2].parse().expect("a number"), words[3].parse().expect("a number"));
    let made = recordings::recording(shape, Weights::One, Lengths::From(1), deep, 4_000, 1);
    let input = &made.input[..made.input.len() - PAIR * (4_000 - pairs)];
    match &words[0][..] {
        "plain" => _ = black_box(plain::answers(black_box(input), &mut vec![[0u64; 8]; ROWS])),
        _ => _ = black_box(bursts(&mut Box::new(Link::new()), black_box(input), &mut vec![Answer::NONE; ROWS])),
    }
}

fn main() {
    let words: Vec<String> = std::env::args().skip(1).collect();
    if words.len() == 4 {
        return once(&words);
    }
    let amount = if words.first().is_some_and(|word| word == "quick") { QUICK } else { WHOLE };
    assert!(cometbanjo::fits(), "the crate and the library do not fit: build both from one commit");
    let mut link = Box::new(Link::new());
    runs(&amount, &mut link);
    decisions(&amount, &mut link);
    growth(&amount, &mut link);
}
