// Times the library beside the plain scheduler, and beside the library's own code before its speed was worked on (`base_..`), all linked
// into this one program: bin/speed builds and runs it, docs/speed.md says what is measured and keeps the tables. What the sides answer is
// compared first; a difference ends the program with status 1 and names the send. Words: [quick], linkrun, `--`, and the second program.
mod plain;
mod recordings;

use recordings::{Lengths, Recording, Shape, Weights};
use std::hint::black_box;
use std::io::Write;

// crates/speed and crates/parts_speed, and the first of them over the base
extern "C" {
    fn speed_by_value(input: *const u8, length: usize, events: usize) -> u64;
    fn speed_lent(input: *const u8, length: usize, out: *mut u8, room: usize) -> usize;
    fn speed_sound(input: *const u8, length: usize, events: usize, times: usize) -> usize;
    fn speed_plan(input: *const u8, length: usize) -> usize;
    fn speed_fresh(input: *const u8, length: usize, at: usize) -> u64;
    fn speed_openings(input: *const u8, length: usize, times: usize) -> u64;
    fn speed_run(input: *const u8, length: usize, parts: usize, out: *mut u8, room: usize) -> usize;
    fn base_by_value(input: *const u8, length: usize, events: usize, out: *mut u64, room: usize) -> usize;
    fn base_lent(input: *const u8, length: usize, events: usize) -> u64;
    fn base_sound(input: *const u8, length: usize, events: usize, out: *mut u64, room: usize, times: usize) -> usize;
    fn base_plan(input: *const u8, length: usize) -> usize;
    fn base_fresh(input: *const u8, length: usize, at: usize) -> u64;
    fn base_openings(input: *const u8, length: usize, times: usize) -> u64;
}

// the C library's
extern "C" {
    fn clock_gettime(clock: i32, now: *mut i64) -> i32;
    fn getrusage(who: i32, used: *mut i64) -> i32;
}

const CLOCK_THREAD_CPUTIME_ID: i32 = 3;
const RUSAGE_CHILDREN: i32 = -1;

// One build of the library: the first events of a recording by value, all answers in one number; all events of an input lent, the base's
// answers in one number, the library's lines laid into a buffer; how often the link after the first events is found sound; the bytes that
// a plan uses, its fresh link's size, and what is left with the root after openings.
#[derive(Clone, Copy)]
struct Library {
    by_value: fn(&[u8], usize) -> u64,
    lent: fn(&[u8], &mut [u8]) -> u64,
    sound: fn(&[u8], usize, usize) -> usize,
    plan: fn(&[u8]) -> usize,
    fresh: fn(&[u8], usize) -> u64,
    openings: fn(&[u8], usize) -> u64,
}

const NOW: Library = Library {
    by_value: |input, events| unsafe { speed_by_value(input.as_ptr(), input.len(), events) },
    lent: |input, out| lent_text(input, 1, out) as u64,
    sound: |input, events, times| unsafe { speed_sound(input.as_ptr(), input.len(), events, times) },
    plan: |input| unsafe { speed_plan(input.as_ptr(), input.len()) },
    fresh: |input, at| unsafe { speed_fresh(input.as_ptr(), input.len(), at) },
    openings: |input, times| unsafe { speed_openings(input.as_ptr(), input.len(), times) },
};

// Its loop by value lays its sends into a buffer.
const BASE: Library = Library {
    by_value: |input, events| {
        let mut out = vec![0; events];
        let many = unsafe { base_by_value(input.as_ptr(), input.len(), events, out.as_mut_ptr(), out.len()) };
        tally(&out[..many])
    },
    lent: |input, _| base_lent_first(input, input.len()),
    sound: |input, events, times| unsafe { base_sound(input.as_ptr(), input.len(), events, [].as_mut_ptr(), 0, times) },
    plan: |input| unsafe { base_plan(input.as_ptr(), input.len()) },
    fresh: |input, at| unsafe { base_fresh(input.as_ptr(), input.len(), at) },
    openings: |input, times| unsafe { base_openings(input.as_ptr(), input.len(), times) },
};

// The first events of a recording by the base's lent entries: all answers in one number.
fn base_lent_first(input: &[u8], events: usize) -> u64 {
    unsafe { base_lent(input.as_ptr(), input.len(), events) }
}

// A recording's lines, by the run by parts, each part from the buffer's start, and by the box's loop, one part; how many bytes. The base
// has neither.
fn run_text(input: &[u8], parts: usize, out: &mut [u8]) -> usize {
    unsafe { speed_run(input.as_ptr(), input.len(), parts, out.as_mut_ptr(), out.len()) }
}

fn lent_text(input: &[u8], _: usize, out: &mut [u8]) -> usize {
    unsafe { speed_lent(input.as_ptr(), input.len(), out.as_mut_ptr(), out.len()) }
}

// A buffer for all lines of so many events.
fn room_for(events: usize) -> Vec<u8> {
    vec![0; 40 * events + PART]
}

// How much is run: sends of a recording, those of them that the slow calls make, those of the base, how often each is timed, and single
// calls.
struct Amount {
    sends: usize,
    slow: usize,
    base: usize,
    best_of: usize,
    single: usize,
}

const WHOLE: Amount = Amount { sends: 1_000_000, slow: 20_000, base: 5_000, best_of: 11, single: 2_000 };
const QUICK: Amount = Amount { sends: 100_000, slow: 2_000, base: 500, best_of: 3, single: 200 };

// The processor time of this thread so far, in nanoseconds: time that other work on the machine takes does not count.
fn processor_time() -> f64 {
    let mut now = [0i64; 2];
    assert_eq!(unsafe { clock_gettime(CLOCK_THREAD_CPUTIME_ID, now.as_mut_ptr()) }, 0, "no clock");
    now[0] as f64 * 1e9 + now[1] as f64
}

// The processor time of the programs that were run and have ended.
fn programs_time() -> f64 {
    let mut used = [0i64; 18];
    assert_eq!(unsafe { getrusage(RUSAGE_CHILDREN, used.as_mut_ptr()) }, 0, "no usage");
    (used[0] + used[2]) as f64 * 1e9 + (used[1] + used[3]) as f64 * 1e3
}

fn nanoseconds(clock: fn() -> f64, run: &mut dyn FnMut()) -> f64 {
    let start = clock();
    run();
    clock() - start
}

// The best time of each, all of them in turn so many times: other work on the machine meets all alike.
fn best<const N: usize>(times: usize, runs: [&mut dyn FnMut(); N]) -> [f64; N] {
    best_by(processor_time, times, runs)
}

fn best_by<const N: usize>(clock: fn() -> f64, times: usize, mut runs: [&mut dyn FnMut(); N]) -> [f64; N] {
    let mut least = [f64::INFINITY; N];
    for _ in 0..times {
        for (i, run) in runs.iter_mut().enumerate() {
            least[i] = least[i].min(nanoseconds(clock, run));
        }
    }
    least
}

fn at(what: &str) {
    eprintln!("speed: {what}");
}

fn differs(what: &str) -> ! {
    println!("speed: {what}");
    std::process::exit(1);
}

// All sends in one number, as the loops over the calls answer them.
fn tally(sends: &[u64]) -> u64 {
    sends.iter().fold(0u64, |all, &send| all.wrapping_mul(33).wrapping_add(send))
}

// The first send at which a run by the calls differs, if one does: any number of events can be asked.
fn compare(what: &str, side: &str, calls: fn(&[u8], usize) -> u64, input: &[u8], recording: &Recording, expected: &[u64]) {
    let same = |k: usize| calls(input, recording.filling + 2 * k) == tally(&expected[..k]);
    if !same(expected.len()) {
        let (mut good, mut bad) = (0, expected.len());
        while good + 1 < bad {
            let half = (good + bad) / 2;
            if same(half) { good = half } else { bad = half }
        }
        differs(&format!("{what}: {side} differs from plain Rust at send {bad}"));
    }
}

// The first line at which a run that lays its lines differs, if one does: the whole text of so many events is laid at once.
fn compare_text(what: &str, side: &str, run: fn(&[u8], usize, &mut [u8]) -> usize, input: &[u8], events: usize) {
    let (mut expected, mut found) = (room_for(events), room_for(events));
    let many = plain::text(input, &mut expected);
    let laid = run(input, 1, &mut found);
    if expected[..many] != found[..laid] {
        let same = expected.iter().zip(&found).take_while(|(a, b)| a == b).count();
        let line = expected[..same].iter().filter(|&&byte| byte == b'\n').count() + 1;
        differs(&format!("{what}: {side} differs from plain Rust at the line of event {line}"));
    }
}

fn weights_word(shape: Shape, weights: Weights) -> &'static str {
    match (weights, shape) {
        (Weights::One, _) => "1",
        (Weights::Drawn, _) => "1 to 1,000",
        (Weights::Most, Shape::Eight) => "142,857",
        (Weights::Most, Shape::Chain) => "31,250",
        (Weights::Most, _) => "1,000,000",
    }
}

fn shape_word(shape: Shape) -> &'static str {
    match shape {
        Shape::Flat => "flat",
        Shape::Eight => "8 inner",
        Shape::Chain => "chain of 31",
        Shape::Line => "single file",
    }
}

// The bytes of a part at most, as in `linkrun`.
const PART: usize = 65_536;

// A send with its arrival, on every recording.
fn pairs(amount: &Amount) {
    println!("\n### A send with its arrival\n");
    let [sends, slow] = [amount.sends, amount.slow].map(grouped);
    println!("{sends} sends to a recording, of which the calls make {slow}; nanoseconds, best of {}.\n", amount.best_of);
    let run = "plain Rust, lines | run by parts | ratio";
    println!("| Classes | Weights | Packets | Queues | {run} | plain Rust, sends | by value | ratio | lent | ratio |");
    println!("|---|---|---|---|---:|---:|---:|---:|---:|---:|---:|---:|");
    let mut seed = 1;
    for (queues, deep) in [("backlogged", 31), ("one packet a leaf", 1)] {
        for shape in [Shape::Flat, Shape::Eight, Shape::Chain] {
            for weights in [Weights::One, Weights::Drawn, Weights::Most] {
                for (packets, lengths) in [("1 to 1,500", Lengths::From(1)), ("9,216", Lengths::Longest)] {
                    if lengths == Lengths::Longest && (shape != Shape::Flat || weights != Weights::One || deep == 1) {
                        continue;
                    }
                    let name = format!("{}, weights {}, packets {packets}, {queues}", shape_word(shape), weights_word(shape, weights));
                    at(&name);
                    let made = recordings::recording(shape, weights, lengths, deep, amount.sends, seed);
                    seed += 1;
                    let [plain, by_value] = by_calls(amount, &name, &made);
                    let [lines, run, lent] = in_a_run(amount, &name, &made);
                    println!(
                        "| {} | {} | {packets} | {queues} | {lines:.1} | {} | {:.2} | {plain:.1} | {} | {:.1} | {} | {:.1} |",
                        shape_word(shape),
                        weights_word(shape, weights),
                        figure(run),
                        run / lines,
                        figure(by_value),
                        by_value / plain,
                        figure(lent),
                        lent / lines
                    );
                }
            }
        }
    }
}

// Nanoseconds for a send with its arrival: plain Rust, the calls by value.
fn by_calls(amount: &Amount, name: &str, made: &Recording) -> [f64; 2] {
    let input = &made.input[..];
    let mut expected = vec![0; made.pairs];
    assert_eq!(plain::sends(input, made.events(), &mut expected), made.pairs, "{name}: the plain scheduler stops early");
    let some = made.filling + 2 * amount.slow;
    compare(name, "the library by value", NOW.by_value, input, made, &expected[..amount.slow]);
    let mut out = vec![0; made.pairs];
    let [all, filling] = best(amount.best_of, [&mut || _ = black_box(plain::sends(black_box(input), made.events(), &mut out)), &mut || {
        _ = black_box(plain::sends(black_box(input), made.filling, &mut []))
    }]);
    let [by_value, by_value_filling] = best(amount.best_of, [
        &mut || _ = black_box((NOW.by_value)(black_box(input), some)),
        &mut || _ = black_box((NOW.by_value)(black_box(input), made.filling)),
    ]);
    [(all - filling) / made.pairs as f64, (by_value - by_value_filling) / amount.slow as f64]
}

// Nanoseconds for a send with its arrival in a run that lays its lines: plain Rust; the run by parts, which makes the whole recording
// unless it is as slow as the calls; the box's loop over the lent entries, which makes as many as the calls.
fn in_a_run(amount: &Amount, name: &str, made: &Recording) -> [f64; 3] {
    let filled = &made.input[..made.input.len() - 9 * made.pairs];
    let first = &made.input[..filled.len() + 9 * amount.slow];
    let (mut part, mut part_now) = (vec![0; PART], vec![0; PART]);
    let time = nanoseconds(processor_time, &mut || _ = black_box(run_text(first, usize::MAX, &mut part_now)));
    let (input, pairs) = if time > 2_000.0 * amount.slow as f64 { (first, amount.slow) } else { (&made.input[..], made.pairs) };
    compare_text(name, "the run by parts", run_text, input, made.filling + 2 * pairs);
    compare_text(name, "the library lent", lent_text, first, made.filling + 2 * amount.slow);
    let [plain, plain_filling] = best(amount.best_of, [
        &mut || _ = black_box(plain::text(black_box(input), &mut part)),
        &mut || _ = black_box(plain::text(black_box(filled), &mut [0; PART])),
    ]);
    let [run, run_filling] = best(amount.best_of, [
        &mut || _ = black_box(run_text(black_box(input), usize::MAX, &mut part_now)),
        &mut || _ = black_box(run_text(black_box(filled), usize::MAX, &mut [0; PART])),
    ]);
    let (mut text, mut text_filling) = (room_for(made.filling + 2 * amount.slow), room_for(made.filling));
    let [lent, lent_filling] = best(amount.best_of, [
        &mut || _ = black_box((NOW.lent)(black_box(first), &mut text)),
        &mut || _ = black_box((NOW.lent)(black_box(filled), &mut text_filling)),
    ]);
    [(plain - plain_filling) / pairs as f64, (run - run_filling) / pairs as f64, (lent - lent_filling) / amount.slow as f64]
}

// What a call costs: a run of so many of them, and the part of that run which is taken off.
struct Timed<'a> {
    call: &'static str,
    many: usize,
    all: Box<dyn FnMut() + 'a>,
    less: Box<dyn FnMut() + 'a>,
}

fn timed<'a>(call: &'static str, many: usize, all: impl FnMut() + 'a, less: impl FnMut() + 'a) -> Timed<'a> {
    Timed { call, many, all: Box::new(all), less: Box::new(less) }
}

// The calls and soundness alone, of one build of the library, on a recording and on the one that fills its queues and empties them again.
fn single_calls<'a>(library: Library, input: &'a [u8], drain: &'a [u8], made: &Recording, times: usize) -> Vec<Timed<'a>> {
    let (all, filled, pairs) = (made.events(), made.filling, made.pairs);
    let (filling, plan) = (&input[..input.len() - 9 * pairs], &input[..input.len() - 8 * filled - 9 * pairs]);
    let lent = move |input: &'a [u8]| {
        let mut text = room_for(all);
        move || _ = black_box((library.lent)(black_box(input), &mut text))
    };
    let by_value = move |input: &'a [u8], events| move || _ = black_box((library.by_value)(black_box(input), events));
    let sound = move |input: &'a [u8], events, times| move || _ = black_box((library.sound)(black_box(input), events, times));
    let reads = move |times| move || (0..times).for_each(|_| _ = black_box((library.plan)(black_box(plan))));
    let fresh = move || (0..times).for_each(|at| _ = black_box((library.fresh)(black_box(plan), at)));
    vec![
        timed("lent: a send with its arrival, with the check", pairs, lent(input), lent(filling)),
        timed("by value: a send with its arrival, with the check", pairs, by_value(input, all), by_value(input, filled)),
        timed("`lent::arrive` alone", filled, lent(filling), lent(plan)),
        timed("`lent::send` alone", filled, lent(drain), lent(filling)),
        timed("`link::arrive` alone", filled, by_value(input, filled), by_value(input, 0)),
        timed("`link::send` alone", filled, by_value(drain, 2 * filled), by_value(drain, filled)),
        timed("`sound::is_sound`, queues deep", times, sound(input, filled, times), sound(input, filled, 0)),
        timed("`sound::is_sound`, a fresh link", times, sound(plan, 0, times), sound(plan, 0, 0)),
        timed("`plan::read_plan`", times, reads(times), reads(0)),
        timed("`link::fresh`", times, fresh, reads(times)),
    ]
}

// The calls, the base beside the library as it is now.
fn calls(amount: &Amount) {
    println!("\n### The calls, the base's code beside the code now\n");
    println!("63 classes, weights 1 to 1,000, packets 60 to 1,500; nanoseconds, best of {}.\n", amount.best_of);
    println!("| Call | Classes | base | now | times as fast |");
    println!("|---|---|---:|---:|---:|");
    for (shape, seed) in [(Shape::Flat, 101), (Shape::Eight, 102), (Shape::Chain, 103)] {
        let name = format!("the base and now: {}", shape_word(shape));
        at(&name);
        let made = recordings::recording(shape, Weights::Drawn, Lengths::From(60), 31, amount.base, seed);
        let inputs = [recordings::for_bare_lengths(&made.input), made.input.clone()];
        let mut expected = vec![0; made.pairs];
        plain::sends(&made.input, made.events(), &mut expected);
        let bare: Vec<u64> = expected.iter().map(|&send| send + (24 << 34)).collect();
        for (library, side, input, sends) in [(BASE, "the base", &inputs[0], &bare), (NOW, "the library", &inputs[1], &expected)] {
            compare(&name, &format!("{side} by value"), library.by_value, input, &made, sends);
            if (library.sound)(input, made.events(), 3) != 3 {
                differs(&format!("{name}: {side} does not find its link sound"));
            }
        }
        compare(&name, "the base lent", base_lent_first, &inputs[0], &made, &bare);
        compare_text(&name, "the library lent", lent_text, &inputs[1], made.events());
        let drains = inputs.each_ref().map(|input| drain(input, &made));
        let base = single_calls(BASE, &inputs[0], &drains[0], &made, amount.single);
        let now = single_calls(NOW, &inputs[1], &drains[1], &made, amount.single);
        for (mut base, mut now) in base.into_iter().zip(now) {
            let times = best(amount.best_of, [&mut base.all, &mut base.less, &mut now.all, &mut now.less]);
            let [before, after] = [times[0] - times[1], times[2] - times[3]].map(|all| all / base.many as f64);
            println!("| {} | {} | {} | {} | {:.1} |", base.call, shape_word(shape), figure(before), figure(after), before / after);
        }
    }
}

// The plan and the filling of a recording, and then as many sends as packets wait.
fn drain(input: &[u8], made: &Recording) -> Vec<u8> {
    let mut bytes = input[..input.len() - 9 * made.pairs].to_vec();
    bytes.extend(std::iter::repeat(17).take(made.filling));
    bytes
}

// An opening alone: every leaf holds a packet, and rounds are opened one over the other.
fn openings(amount: &Amount) {
    println!("\n### An opening alone\n");
    println!("Weights 1,000, every leaf with a packet; nanoseconds, best of {} times {}.\n", amount.best_of, grouped(amount.single));
    println!("| Classes | Shape | plain Rust | base | now | ratio to plain Rust | times as fast as the base |");
    println!("|---:|---|---:|---:|---:|---:|---:|");
    for shape in [Shape::Flat, Shape::Line] {
        for classes in [7, 15, 31, 63] {
            at(&format!("an opening, {classes} classes, {}", shape_word(shape)));
            let plan = recordings::even_plan(shape, classes);
            let bare = recordings::for_bare_lengths(&plan);
            for times in 0..5 {
                let expected = plain::openings(&plan, times);
                if (NOW.openings)(&plan, times) != expected || (BASE.openings)(&bare, times) != expected {
                    differs(&format!("{classes} classes, {}: the root's balance differs after {times} openings", shape_word(shape)));
                }
            }
            let (n, plan, bare) = (amount.single, &plan[..], &bare[..]);
            let [plain, plain_none, base, base_none, now, now_none] = best(amount.best_of, [
                &mut || _ = black_box(plain::openings(black_box(plan), 10 * n)),
                &mut || _ = black_box(plain::openings(black_box(plan), 0)),
                &mut || _ = black_box((BASE.openings)(black_box(bare), n)),
                &mut || _ = black_box((BASE.openings)(black_box(bare), 0)),
                &mut || _ = black_box((NOW.openings)(black_box(plan), n)),
                &mut || _ = black_box((NOW.openings)(black_box(plan), 0)),
            ]);
            let n = n as f64;
            let (plain, base, now) = ((plain - plain_none) / n / 10.0, (base - base_none) / n, (now - now_none) / n);
            let (word, times, faster) = (shape_word(shape), now / plain, base / now);
            println!("| {classes} | {word} | {} | {} | {} | {times:.1} | {faster:.1} |", figure(plain), figure(base), figure(now));
        }
    }
}

// One run of a program on an input, its output thrown away.
fn run_program(words: &[String], input: &std::path::Path) {
    let file = std::fs::File::open(input).expect("the input");
    let status = std::process::Command::new(&words[0]).args(&words[1..]).stdin(file).stdout(std::process::Stdio::null()).status();
    if !status.is_ok_and(|status| status.success()) {
        differs(&format!("{} fails", words[0]));
    }
}

// What a program writes.
fn output_of(words: &[String], input: &std::path::Path) -> Vec<u8> {
    let file = std::fs::File::open(input).expect("the input");
    std::process::Command::new(&words[0]).args(&words[1..]).stdin(file).output().expect("a program that runs").stdout
}

// The programs on 65,536 bytes.
fn programs(amount: &Amount, linkrun: &[String], second: &[String]) {
    println!("\n### `linkrun` on 65,536 bytes\n");
    println!("The process from start to end, output thrown away; milliseconds of processor time, best of {}.\n", amount.best_of);
    println!("| Classes | Queues | second program | linkrun | times as fast |");
    println!("|---|---|---:|---:|---:|");
    for (shape, seed) in [(Shape::Flat, 201), (Shape::Eight, 202), (Shape::Chain, 203)] {
        for (queues, deep) in [("backlogged", 31), ("one packet a leaf", 1)] {
            at(&format!("linkrun, {}, {queues}", shape_word(shape)));
            let mut made = recordings::recording(shape, Weights::Drawn, Lengths::From(1), deep, 7_300, seed);
            let over = made.input.len().saturating_sub(65_536).div_ceil(9);
            made.input.truncate(made.input.len() - 9 * over);
            made.input.resize(65_536, 17);
            let path = std::env::temp_dir().join(format!("speed-{}.bin", std::process::id()));
            std::fs::File::create(&path).and_then(|mut file| file.write_all(&made.input)).expect("a file for the input");
            if output_of(linkrun, &path) != output_of(second, &path) {
                differs(&format!("{}, {queues}: linkrun and the second program differ on {}", shape_word(shape), path.display()));
            }
            let runs: [&mut dyn FnMut(); 2] = [&mut || run_program(second, &path), &mut || run_program(linkrun, &path)];
            let [theirs, ours] = best_by(programs_time, amount.best_of, runs);
            _ = std::fs::remove_file(&path);
            println!("| {} | {queues} | {:.2} | {:.2} | {:.2} |", shape_word(shape), theirs / 1e6, ours / 1e6, theirs / ours);
        }
    }
}

// A time, with a decimal where it is short.
fn figure(nanoseconds: f64) -> String {
    if nanoseconds < 100.0 { format!("{nanoseconds:.1}") } else { grouped(nanoseconds.round() as usize) }
}

// A number with its thousands apart.
fn grouped(n: usize) -> String {
    let digits = n.to_string();
    let mut text = String::new();
    for (k, digit) in digits.chars().enumerate() {
        if k > 0 && (digits.len() - k) % 3 == 0 {
            text.push(',');
        }
        text.push(digit);
    }
    text
}

fn main() {
    let mut words: Vec<String> = std::env::args().skip(1).collect();
    let quick = words.first().is_some_and(|word| word == "quick");
    if quick {
        words.remove(0);
    }
    let amount = if quick { QUICK } else { WHOLE };
    pairs(&amount);
    calls(&amount);
    openings(&amount);
    if let Some(k) = words.iter().position(|word| word == "--") {
        programs(&amount, &words[..k], &words[k + 1..]);
    }
}
