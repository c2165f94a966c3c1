//! "Check another box's run", written from the customer's words only: "In a recording, a plan and its events, each send is followed by a
//! claim: kind 18 with class, length and tag as in an arrival, or kind 19 with no body for nothing waiting." `second claims < recording`
//! prints `good CLAIMS`, `false PLACE` or `stop NUMBER PLACE`; `second false-claim < recording` says more where a claim is false: what was
//! claimed, what the rules send there, and the classes of both before that send. `second record < run` writes a run as a recording, and
//! `second damaged SEED < recording` gives it a fault that the seed chooses, or none. Inputs may have any length.

use super::*;

/// A claim, or what a send answers, to be compared with it: a packet, or "nothing waiting".
#[derive(Clone, Copy, PartialEq, Eq, Debug)]
enum Claim {
    Packet { class: u64, length: u64, tag: u64 },
    NothingWaits,
}

/// A record after the plan.
#[derive(Clone, Copy, PartialEq, Eq, Debug)]
enum Record {
    Arrival { class: u64, length: u64, tag: u64 },
    Send,
    Claim(Claim),
}

/// What a recording is: "accepts a recording exactly when every claim is what our rules send, and otherwise gives the place of the first
/// claim that isn't", or a refusal.
#[derive(PartialEq, Eq, Debug)]
enum Judged {
    Good(usize),
    FalseAt(usize),
    Stop(Refusal),
}

/// "class, length and tag as in an arrival".
fn packet_of(body: &[u8]) -> (u64, u64, u64) {
    (big_endian(&body[0..1]), big_endian(&body[1..3]), big_endian(&body[3..7]))
}

/// The record at a place before the input's end, and how many bytes it has: "1 and 2 as for events".
fn record_at(input: &[u8], first: usize) -> Result<(Record, usize), Refusal> {
    match input[first] {
        16 => body_of(input, first, 7).map(packet_of).map(|(class, length, tag)| (Record::Arrival { class, length, tag }, 8)),
        17 => Ok((Record::Send, 1)),
        18 => body_of(input, first, 7).map(packet_of).map(|(class, length, tag)| (Record::Claim(Claim::Packet { class, length, tag }), 8)),
        19 => Ok((Record::Claim(Claim::NothingWaits), 1)),
        _ => refuse(2, first),
    }
}

/// What the rules send: a packet, or nothing where none waits.
fn what_is_sent(link: &mut Link) -> Claim {
    match send(link) {
        Ok(sent) => Claim::Packet { class: sent.class as u64, length: sent.length, tag: sent.tag },
        Err(refusal) => {
            assert_eq!(refusal.number, 15, "a run's state is sound");
            Claim::NothingWaits
        }
    }
}

/// A false claim: where it and its send stand, which claim it is, what was claimed and what the rules send, and the link before that send.
struct Falsehood {
    place: usize,
    send: usize,
    which: usize,
    claimed: Claim,
    ours: Claim,
    before: Link,
}

/// How the records after a plan are judged: so many good claims, a refusal, or a false claim.
enum Course {
    AllTrue(usize),
    Refused(Refusal),
    Broken(Box<Falsehood>),
}

/// "Records are judged in turn, and the first that is malformed or a false claim decides."
fn judge_records(link: &mut Link, input: &[u8], used: usize) -> Course {
    let (mut first, mut claims, mut awaiting): (usize, usize, Option<usize>) = (used, 0, None);
    loop {
        // 19: "a send whose next kind byte is missing or not 18 or 19, at the send"
        if let Some(sent_at) = awaiting {
            if !matches!(input.get(first), Some(18 | 19)) {
                return Course::Refused(Refusal { number: 19, place: sent_at });
            }
        }
        // "the end of input between events is its normal end"
        if first >= input.len() {
            return Course::AllTrue(claims);
        }
        let (record, bytes) = match record_at(input, first) {
            Ok(read) => read,
            Err(refusal) => return Course::Refused(refusal),
        };
        match (record, awaiting) {
            // "Arrivals that our rules refuse are passed over and alter nothing."
            (Record::Arrival { class, length, tag }, _) => {
                let before = link.clone();
                if arrival(link, class as usize, length, tag).is_err() {
                    assert_eq!(*link, before, "a refused arrival has altered something");
                }
            }
            (Record::Send, _) => awaiting = Some(first),
            // 19: "a claim without a send directly before it, at the claim, after 2 and 1"
            (Record::Claim(_), None) => return Course::Refused(Refusal { number: 19, place: first }),
            (Record::Claim(claimed), Some(sent_at)) => {
                let before = link.clone();
                let ours = what_is_sent(link);
                if claimed != ours {
                    let which = claims + 1;
                    return Course::Broken(Box::new(Falsehood { place: first, send: sent_at, which, claimed, ours, before }));
                }
                claims += 1;
                awaiting = None;
            }
        }
        first += bytes;
    }
}

/// The course of a recording whose plan is taken; else "the plan's as the reader gives them".
fn course_of(input: &[u8]) -> Course {
    match read_plan(input) {
        Ok((tree, used)) => {
            let (mut link, refused) = fresh_link(&tree);
            assert!(refused.is_none(), "a plan that was read gives no fresh link");
            judge_records(&mut link, input, used)
        }
        Err(refusal) => Course::Refused(refusal),
    }
}

/// The one answer.
fn judge(input: &[u8]) -> Judged {
    match course_of(input) {
        Course::AllTrue(claims) => Judged::Good(claims),
        Course::Refused(refusal) => Judged::Stop(refusal),
        Course::Broken(falsehood) => Judged::FalseAt(falsehood.place),
    }
}

/// Its line.
fn line_of(judged: &Judged) -> String {
    match judged {
        Judged::Good(claims) => format!("good {claims}"),
        Judged::FalseAt(place) => format!("false {place}"),
        Judged::Stop(refusal) => format!("stop {} {}", refusal.number, refusal.place),
    }
}

/// The line of a recording.
pub fn claims(input: &[u8]) -> Vec<String> {
    vec![line_of(&judge(input))]
}

// ---------------------------------------------------------------------------------------------
// What stands at a false claim, for the desk.

/// A claim in words.
fn in_words(claim: Claim) -> String {
    match claim {
        Claim::Packet { class, length, tag } => format!("class {class}, length {length}, tag {tag}"),
        Claim::NothingWaits => "nothing waits".to_string(),
    }
}

/// The class that a claim names.
fn class_of(claim: Claim) -> Option<usize> {
    match claim {
        Claim::Packet { class, .. } => Some(class as usize),
        Claim::NothingWaits => None,
    }
}

/// Why a class of the plan would, or would not, send next.
fn reason_of(link: &Link, class: usize) -> String {
    match silent::why_silent(link, class) {
        Ok(silent::Reason::Empty) => "holds no packet".to_string(),
        Ok(silent::Reason::Waits) => "holds packets but is not in this round".to_string(),
        Ok(silent::Reason::Short(bytes)) => format!("has had its turn in this round, and lacks {bytes} for its first packet"),
        Ok(silent::Reason::Due) => "is in this round, its turn under way or still to come".to_string(),
        Err(_) => "is no leaf".to_string(),
    }
}

/// A class before the send, in two sentences.
fn state_of(link: &Link, class: usize) -> String {
    if class >= link.tree.classes.len() {
        return format!("Class {class} is no class of this plan.");
    }
    let account = link.accounts[class];
    let queue = &link.queues[class];
    let bytes: u64 = queue.iter().map(Packet::charge).sum();
    let first = queue.first().map_or(String::new(), |packet| {
        format!("; its first: length {}, tag {}, charged {}", packet.length, packet.tag, packet.charge())
    });
    let weight = if class == ROOT { "the root".to_string() } else { format!("weight {}", link.tree.classes[class].weight) };
    let residual = if link.tree.is_leaf(class) { String::new() } else { format!(", residual {}", account.residual) };
    let active = if link.active[class] { "active" } else { "not active" };
    format!(
        "Class {class} {}: {weight}, balance {}{residual}, {active}; packets {}, charged bytes {bytes}{first}.",
        reason_of(link, class),
        account.balance,
        queue.len()
    )
}

/// The line of a recording, and where a claim is false what stands there.
pub fn false_claim(input: &[u8]) -> Vec<String> {
    let Course::Broken(found) = course_of(input) else { return claims(input) };
    let mut after = found.before.clone();
    let rounds = send(&mut after).map_or(0, |sent| sent.rounds);
    let mut said = vec![
        format!("It is claim {}, of the send at byte {}.", found.which, found.send),
        format!("Claimed: {}.", in_words(found.claimed)),
        format!("Our rules: {}; rounds opened in that send: {rounds}.", in_words(found.ours)),
        format!("Before that send, place {} in the round:", found.before.place),
    ];
    let mut classes: Vec<usize> = [class_of(found.claimed), class_of(found.ours)].into_iter().flatten().collect();
    classes.dedup();
    said.extend(classes.into_iter().map(|class| state_of(&found.before, class)));
    let mut lines = vec![format!("false {}", found.place)];
    lines.extend(said.iter().flat_map(|text| desk::wrapped(text, "  ")));
    lines
}

// ---------------------------------------------------------------------------------------------
// A run written as a recording, and recordings with a fault.

/// The bytes of a claim.
fn claim_bytes(claim: Claim) -> Vec<u8> {
    match claim {
        Claim::Packet { class, length, tag } => {
            [&[18, class as u8][..], &(length as u16).to_be_bytes(), &(tag as u32).to_be_bytes()].concat()
        }
        Claim::NothingWaits => vec![19],
    }
}

/// A run as a recording: the same bytes, and after each send the claim that is true. What is refused in it stays as it stands.
pub fn record(input: &[u8]) -> Vec<u8> {
    let Ok((tree, used)) = read_plan(input) else { return input.to_vec() };
    let mut link = fresh_link(&tree).0;
    let mut bytes = input[..used].to_vec();
    let mut first = used;
    loop {
        match event_at(input, first) {
            Ok(Some(Event::Arrival(body))) => {
                let (class, length, tag) = packet_of(body);
                let _ = arrival(&mut link, class as usize, length, tag);
                bytes.extend(&input[first..first + 8]);
                first += 8;
            }
            Ok(Some(Event::Send)) => {
                bytes.push(17);
                bytes.extend(claim_bytes(what_is_sent(&mut link)));
                first += 1;
            }
            Ok(None) => return bytes,
            Err(_) => {
                bytes.extend(&input[first..]);
                return bytes;
            }
        }
    }
}

/// Numbers that a seed gives.
struct Random(u64);

impl Random {
    fn next(&mut self) -> u64 {
        self.0 = self.0.wrapping_add(0x9E37_79B9_7F4A_7C15);
        let mixed = (self.0 ^ (self.0 >> 30)).wrapping_mul(0xBF58_476D_1CE4_E5B9);
        let mixed = (mixed ^ (mixed >> 27)).wrapping_mul(0x94D0_49BB_1331_11EB);
        mixed ^ (mixed >> 31)
    }

    fn below(&mut self, most: usize) -> usize {
        (self.next() % most.max(1) as u64) as usize
    }
}

/// Where the records after the plan begin, and where the bytes end.
fn record_places(bytes: &[u8]) -> Vec<usize> {
    let Ok((_, used)) = read_plan(bytes) else { return vec![0, bytes.len()] };
    let (mut places, mut first) = (Vec::new(), used);
    while first < bytes.len() {
        places.push(first);
        match record_at(bytes, first) {
            Ok((_, used)) => first += used,
            Err(_) => break,
        }
    }
    places.push(bytes.len());
    places
}

/// How many faults `damaged` knows; the first of them is none.
const FAULTS: u64 = 13;

/// A recording with one fault.
pub fn damaged(seed: u64, recording: &[u8]) -> Vec<u8> {
    let mut bytes = recording.to_vec();
    let mut random = Random(seed);
    let fault = seed % FAULTS;
    let places = record_places(&bytes);
    let of_kind = |kind: u8| places.iter().copied().filter(|&p| bytes.get(p) == Some(&kind)).collect::<Vec<usize>>();
    let (sends, packets, nothings) = (of_kind(17), of_kind(18), of_kind(19));
    let any = |random: &mut Random, of: &[usize]| if of.is_empty() { None } else { Some(of[random.below(of.len())]) };
    match fault {
        // a field of a claim: class, length or tag, by a little or to anything
        1..=3 => {
            if let Some(claim) = any(&mut random, &packets) {
                let (from, to) = [(1, 2), (2, 4), (4, 8)][fault as usize - 1];
                let at = claim + from + random.below(to - from);
                let by = if random.below(2) == 0 { 1 } else { 1 + random.below(255) as u8 };
                bytes[at] = bytes[at].wrapping_add(by);
            }
        }
        // 19 for 18, and 18 for 19
        4 => {
            if let Some(claim) = any(&mut random, &packets) {
                bytes.splice(claim..claim + 8, [19]);
            }
        }
        5 => {
            if let Some(claim) = any(&mut random, &nothings) {
                let packet = [18, random.below(64) as u8, 0, random.below(64) as u8, 0, 0, 0, random.below(256) as u8];
                bytes.splice(claim..claim + 1, packet);
            }
        }
        // cut anywhere, and directly after a send
        6 => bytes.truncate(random.below(bytes.len() + 1)),
        7 => {
            if let Some(send) = any(&mut random, &sends) {
                bytes.truncate(send + 1 + random.below(9));
            }
        }
        // a claim left out; a claim, or an unknown kind, before any record
        8 => {
            let claims = [&packets[..], &nothings[..]].concat();
            if let Some(claim) = any(&mut random, &claims) {
                let length = if bytes[claim] == 18 { 8 } else { 1 };
                bytes.drain(claim..claim + length);
            }
        }
        9 => {
            let at = places[random.below(places.len())];
            let claim = if random.below(2) == 0 { vec![19] } else { vec![18, 1, 0, 1, 0, 0, 0, 1] };
            bytes.splice(at..at, claim);
        }
        10 => {
            let at = places[random.below(places.len())];
            let kind = [0, 1, 2, 3, 4, 15, 20, 255, random.below(256) as u8][random.below(9)];
            bytes.splice(at..at, [kind]);
        }
        // an arrival taken out, so that later claims may be false, and any byte changed
        11 => {
            if let Some(at) = any(&mut random, &of_kind(16)) {
                bytes.drain(at..(at + 8).min(bytes.len()));
            }
        }
        12 => {
            if !bytes.is_empty() {
                let at = random.below(bytes.len());
                bytes[at] = random.next() as u8;
            }
        }
        _ => (),
    }
    bytes
}

// ---------------------------------------------------------------------------------------------
// The listing as a recording, and each way to spoil it.

#[cfg(test)]
mod tests {
    use super::*;

    /// The listing of tree P as a recording: the plan (31 bytes), four arrivals, and from byte 63 on five sends, of which four give a
    /// packet.
    fn listing() -> Vec<u8> {
        record(include_bytes!("tree_p.bin"))
    }

    /// The answer to an input, as its line.
    fn said(input: &[u8]) -> String {
        line_of(&judge(input))
    }

    /// The listing with some bytes in place of those from a place on.
    fn with(place: usize, taken: usize, put: &[u8]) -> Vec<u8> {
        let mut bytes = listing();
        bytes.splice(place..place + taken, put.iter().copied());
        bytes
    }

    #[test]
    fn the_listing_is_good() {
        let bytes = listing();
        assert_eq!(bytes.len(), 31 + 4 * 8 + 4 * 9 + 2);
        assert_eq!(bytes[63..72], [17, 18, 4, 0, 10, 0, 0, 0, 4]);
        assert_eq!(said(&bytes), "good 5");
        // a plan alone is a recording without a claim
        assert_eq!(said(&bytes[..31]), "good 0");
    }

    #[test]
    fn each_field_of_each_claim() {
        for claim in [64, 73, 82, 91] {
            for byte in 1..8 {
                for by in [1, 128, 255] {
                    let mut bytes = listing();
                    bytes[claim + byte] = bytes[claim + byte].wrapping_add(by);
                    assert_eq!(said(&bytes), format!("false {claim}"));
                }
            }
            assert_eq!(said(&with(claim, 8, &[19])), format!("false {claim}"));
        }
        assert_eq!(said(&with(100, 1, &[18, 4, 0, 10, 0, 0, 0, 4])), "false 100");
    }

    #[test]
    fn number_19() {
        // a send at the very end, before an arrival, a send, or an unknown kind: at the send
        assert_eq!(said(&listing()[..64]), "stop 19 63");
        assert_eq!(said(&with(64, 8, &[])), "stop 19 63");
        assert_eq!(said(&with(64, 8, &[16, 4, 0, 10, 0, 0, 0, 5])), "stop 19 63");
        for kind in [0, 1, 2, 3, 15, 16, 17, 20, 255] {
            assert_eq!(said(&with(64, 0, &[kind])), "stop 19 63");
        }
        // a claim first, after an arrival, and after a claim: at the claim
        assert_eq!(said(&with(31, 0, &[19])), "stop 19 31");
        assert_eq!(said(&with(39, 0, &[18, 4, 0, 10, 0, 0, 0, 4])), "stop 19 39");
        assert_eq!(said(&with(72, 0, &[19])), "stop 19 72");
        // "after 2 and 1": a cut claim is 1 at the claim, after a send or not
        assert_eq!(said(&listing()[..71]), "stop 1 64");
        assert_eq!(said(&[&listing()[..31], &[18, 4, 0]].concat()), "stop 1 31");
    }

    #[test]
    fn events_and_plans() {
        for kind in [0, 1, 2, 3, 15, 20, 255] {
            assert_eq!(said(&with(39, 0, &[kind])), "stop 2 39");
        }
        assert_eq!(said(&listing()[..35]), "stop 1 31");
        assert_eq!(said(&[]), "stop 1 0");
        assert_eq!(said(&[0]), "stop 9 0");
        assert_eq!(said(&with(2, 0, &[18])), said(&with(2, 0, &[18])[..31]));
        // an arrival that the rules refuse is passed over
        for arrival in [[16, 1, 0, 10, 0, 0, 0, 9], [16, 4, 0, 0, 0, 0, 0, 9], [16, 4, 0, 11, 0, 0, 0, 9], [16, 255, 0, 1, 0, 0, 0, 9]] {
            assert_eq!(said(&with(63, 0, &arrival)), "good 5");
        }
        // one that they take is not
        assert_eq!(said(&with(63, 0, &[16, 4, 0, 10, 0, 0, 0, 9])), "false 81");
        // the first that decides: a false claim before a cut end, an unknown kind before a false claim
        assert_eq!(said(&[&listing()[..66], &[9, 9]].concat()), "stop 1 64");
        let mut bytes = listing();
        bytes[65] = 2;
        assert_eq!(said(&bytes[..80]), "false 64");
        bytes[39] = 99;
        assert_eq!(said(&bytes), "stop 2 39");
    }

    #[test]
    fn what_stands_at_a_false_claim() {
        let mut bytes = listing();
        bytes[74] = 3;
        let lines = false_claim(&bytes);
        assert_eq!(lines[..5], [
            "false 73",
            "It is claim 2, of the send at byte 72.",
            "Claimed: class 3, length 2, tag 1.",
            "Our rules: class 2, length 2, tag 1; rounds opened in that send: 1.",
            "Before that send, place 4 in the round:",
        ]);
        // docs/by-hand.md: after the first send leaf 3 has 74 and leaf 2 has 37
        assert_eq!(lines[5..], [
            "Class 3 has had its turn in this round, and lacks 10 for its first packet: weight 2, balance 74, active;",
            "  packets 2, charged bytes 168; its first: length 10, tag 2, charged 84.",
            "Class 2 has had its turn in this round, and lacks 47 for its first packet: weight 1, balance 37, active;",
            "  packets 1, charged bytes 84; its first: length 2, tag 1, charged 84.",
        ]);
        // nothing waits: one class is left to show
        assert_eq!(false_claim(&with(73, 8, &[19])).len(), 7);
        assert_eq!(false_claim(&listing()), ["good 5"]);
    }

    #[test]
    fn faults_of_each_kind() {
        let kinds: Vec<String> = (0..FAULTS * 40).map(|seed| said(&damaged(seed, &listing()))).collect();
        for start in ["good 5", "false 64", "false 100", "stop 19 ", "stop 1 ", "stop 2 "] {
            assert!(kinds.iter().any(|line| line.starts_with(start)), "no {start} among the faults");
        }
    }
}
