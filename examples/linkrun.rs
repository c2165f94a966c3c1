//! What bin/linkrun prints, by a program in Rust over the library: linkrun [burst] <INPUT, a plan and its events, 65,536 bytes at most. By
//! single calls, or with the word `burst` by bursts: the lines are the same. Status 2: bad words; 3: it cannot run.
//! Build: cargo build --offline --release --example linkrun --manifest-path rust/Cargo.toml
use cometbanjo::{Answer, Answered, Event, Link, Refusal};
use std::io::{self, Read, Write};
use std::process::ExitCode;

const MOST: usize = 65_536;

fn line_of(out: &mut impl Write, answered: Answered) -> io::Result<()> {
    match answered {
        Answered::Arrival(p, Ok(bytes)) => writeln!(out, "in {} {} {} {bytes}", p.class, p.length, p.tag),
        Answered::Arrival(p, Err(refusal)) => writeln!(out, "no {} {} {} {}", p.class, p.length, p.tag, refusal.number),
        Answered::Send(Ok(s)) => {
            writeln!(out, "out {} {} {} {} {}", s.packet.class, s.packet.length, s.packet.tag, s.rounds, s.waited)
        }
        Answered::Send(Err(_)) => writeln!(out, "none"),
    }
}

// The events one by one; where a malformed one stands.
fn single(link: &mut Link, events: &[u8], out: &mut impl Write) -> io::Result<Option<Refusal>> {
    let mut at = 0;
    loop {
        let event = match Event::read(&events[at..]) {
            Ok(None) => return Ok(None),
            Ok(Some(event)) => event,
            Err(refusal) => return Ok(Some(Refusal { place: at as u64, ..refusal })),
        };
        let answered = match event {
            Event::Arrival(packet) => Answered::Arrival(packet, link.arrive(packet)),
            Event::Send => Answered::Send(link.send()),
        };
        line_of(out, answered)?;
        at += event.size();
    }
}

// The same by bursts: the library reads the events.
fn bursts(link: &mut Link, events: &[u8], out: &mut impl Write) -> io::Result<Option<Refusal>> {
    let mut room = [Answer::NONE; 256];
    let mut at = 0;
    loop {
        let burst = link.burst(&events[at..], &mut room);
        for answered in burst.answers.iter().filter_map(|answer| answer.get()) {
            line_of(out, answered)?;
        }
        at += burst.used;
        if let Some(refusal) = burst.stopped {
            return Ok(Some(Refusal { place: at as u64, ..refusal }));
        }
        if at == events.len() {
            return Ok(None);
        }
    }
}

fn run(by_bursts: bool) -> io::Result<()> {
    let mut input = Vec::new();
    io::stdin().take(MOST as u64 + 1).read_to_end(&mut input)?;
    let mut out = io::BufWriter::new(io::stdout().lock());
    let mut link = Box::new(Link::new());
    if input.len() > MOST {
        writeln!(out, "stop 10 {MOST}")?;
        return out.flush();
    }
    match link.open(&input) {
        Err(refusal) => writeln!(out, "stop {} {}", refusal.number, refusal.place)?,
        Ok(used) => {
            writeln!(out, "link {} {}", link.classes(), link.round_size())?;
            let events = &input[used..];
            match if by_bursts { bursts(&mut link, events, &mut out)? } else { single(&mut link, events, &mut out)? } {
                Some(refusal) => writeln!(out, "stop {} {}", refusal.number, used as u64 + refusal.place)?,
                None => writeln!(out, "end {}", link.waiting())?,
            }
        }
    }
    out.flush()
}

fn main() -> ExitCode {
    let words: Vec<String> = std::env::args().skip(1).collect();
    let by_bursts = match words.iter().map(String::as_str).collect::<Vec<_>>()[..] {
        [] => false,
        ["burst"] => true,
        _ => {
            eprintln!("linkrun: expected the word burst or none, and a run on standard input");
            return ExitCode::from(2);
        }
    };
    if !cometbanjo::fits() {
        eprintln!("linkrun: the crate and the library do not fit: build both from one commit");
        return ExitCode::from(3);
    }
    match run(by_bursts) {
        Ok(()) => ExitCode::SUCCESS,
        Err(error) => {
            eprintln!("linkrun: {error}");
            ExitCode::from(3)
        }
    }
}
