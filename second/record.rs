//! Records runs of the second program: record FOLDER GENERATE SECOND LISTING writes FOLDER/stdin (the inputs) and FOLDER/stdout
//! (what their lines come to, and for a short input the same of the second engine, the lines that say why each leaf is silent, and those
//! of the totals that wait under each class, after the plan and after each event). Run 0 is the one in which a packet waits nearly its
//! bound, run 1 the listing. With FIRST and MANY after these words it records the runs of these seeds instead, but for large inputs, and
//! asks of each what it asks of a short one.
//! The proved program `recorded` reads the first and must print the second. Build: rustc -O --edition 2021 record.rs

use std::io::Write;
use std::process::{Command, Stdio};

/// The seeds that are recorded, and how many inputs above LARGE bytes among them.
const SEEDS: std::ops::Range<u64> = 0..300;
const LARGE: usize = 10_000;
const MOST_LARGE: usize = 6;

/// The inputs below this length are asked why their leaves are silent and what waits under their classes: ASKED is added to the length
/// before them.
const SHORT: usize = 600;
const ASKED: u32 = 1 << 23;

/// What a program prints, given its word and its input.
fn output_of(program: &str, word: Option<&str>, input: &[u8]) -> Vec<u8> {
    let mut child = Command::new(program)
        .args(word)
        .stdin(Stdio::piped())
        .stdout(Stdio::piped())
        .spawn()
        .expect("the program starts");
    let mut pipe = child.stdin.take().expect("its standard input");
    let input = input.to_vec();
    // A program that refuses a long input may stop reading, so a broken pipe is no fault.
    let writer = std::thread::spawn(move || {
        let _ = pipe.write_all(&input);
    });
    let output = child.wait_with_output().expect("the program ends");
    writer.join().expect("its input is written");
    assert!(output.status.success(), "{program} {word:?} ended with {}", output.status);
    output.stdout
}

/// A sum over the bytes in which each byte counts by its place; `recorded` works out the same.
fn sum_of(text: &[u8]) -> u64 {
    text.iter().fold(0, |sum, &byte| (sum * 257 + u64::from(byte) + 1) % 4_294_967_291)
}

/// How many lines a text has, and the sum over it.
fn tally_of(text: &[u8]) -> String {
    let count = text.iter().filter(|&&byte| byte == b'\n').count();
    format!(" lines {count} sum {}", sum_of(text))
}

fn main() {
    let words: Vec<String> = std::env::args().collect();
    let (folder, generate, second, listing, seeds) = match &words[..] {
        [_, folder, generate, second, listing] => (folder, generate, second, listing, None),
        [_, folder, generate, second, listing, first, many] => {
            let number = |word: &String| word.parse::<u64>().expect("a number");
            (folder, generate, second, listing, Some(number(first)..number(first) + number(many)))
        }
        _ => {
            eprintln!("use: record FOLDER GENERATE SECOND LISTING [FIRST MANY]");
            std::process::exit(1);
        }
    };
    let (mut inputs, mut lines, mut large, mut runs) = (Vec::new(), String::new(), 0, 0);
    let all = seeds.is_some();
    let named: &[&str] = if all { &[] } else { &["near-bound", "listing"] };
    let numbered = seeds.unwrap_or(SEEDS).map(|seed| seed.to_string());
    for word in named.iter().map(|word| word.to_string()).chain(numbered) {
        let input = match word.as_str() {
            "listing" => std::fs::read(listing).expect("the listing is read"),
            _ => output_of(generate, Some(&word), &[]),
        };
        if input.len() > LARGE && word != "near-bound" {
            large += 1;
            if all || large > MOST_LARGE {
                continue;
            }
        }
        let text = output_of(second, None, &input);
        // The length plus 1, in three bytes; what is past 65,537 bytes is never read.
        let read = input.len().min(65_537);
        let asked = all || read < SHORT;
        inputs.extend(&(read as u32 + 1 + if asked { ASKED } else { 0 }).to_be_bytes()[1..]);
        inputs.extend(&input[..read]);
        lines.push_str(&format!("run {runs}{}", tally_of(&text)));
        if asked {
            lines.push_str(&format!(" second{}", tally_of(&text)));
            lines.push_str(&format!(" silent{}", tally_of(&output_of(second, Some("silent-each"), &input))));
            lines.push_str(&format!(" totals{}", tally_of(&output_of(second, Some("totals-each"), &input))));
        }
        lines.push('\n');
        runs += 1;
    }
    std::fs::write(format!("{folder}/stdin"), &inputs).expect("the inputs are written");
    std::fs::write(format!("{folder}/stdout"), &lines).expect("the sums are written");
    println!("{runs} runs, {} bytes of input", inputs.len());
}
