// Recordings, made from a seed: a plan, arrivals that fill the queues, then so many times a send and an arrival to the class that sent.
// They are input bytes (R40 to R67). The plain scheduler says which class sends next, so every arrival goes where a place has just
// become free.
use crate::plain::Plain;

#[derive(Clone, Copy, PartialEq)]
pub enum Shape {
    // 63 leaves of the root
    Flat,
    // classes 1 to 8 inner, 55 leaves shared out among them in turn
    Eight,
    // 31 inner classes, each the child of the one before and each with a leaf; the last has two
    Chain,
    // each class the one child of the class before, the last a leaf
    Line,
}

#[derive(Clone, Copy, PartialEq)]
pub enum Weights {
    One,
    // drawn from 1 to 1,000
    Drawn,
    // 1,000,000 for each leaf of the root; below an inner class the most that fits: see `leaf_weight`
    Most,
}

// How long packets are.
#[derive(Clone, Copy, PartialEq)]
pub enum Lengths {
    // drawn from so many bytes on, up to 1,500
    From(u16),
    // all of 9,216
    Longest,
}

pub struct Recording {
    pub input: Vec<u8>,
    // the arrivals that fill the queues
    pub filling: usize,
    // the sends, each with an arrival
    pub pairs: usize,
}

impl Recording {
    // All events.
    pub fn events(&self) -> usize {
        self.filling + 2 * self.pairs
    }
}

// Numbers without a pattern (splitmix64).
pub struct Random(pub u64);

impl Random {
    pub fn next(&mut self) -> u64 {
        self.0 = self.0.wrapping_add(0x9e37_79b9_7f4a_7c15);
        let mut x = self.0;
        x = (x ^ x >> 30).wrapping_mul(0xbf58_476d_1ce4_e5b9);
        x = (x ^ x >> 27).wrapping_mul(0x94d0_49bb_1331_11eb);
        x ^ x >> 31
    }

    fn between(&mut self, low: u64, high: u64) -> u64 {
        low + self.next() % (high - low + 1)
    }
}

// The parent of each class from 1 on; a class is inner where it has children.
fn parents(shape: Shape, classes: usize) -> Vec<usize> {
    (1..=classes)
        .map(|i| match shape {
            Shape::Flat => 0,
            Shape::Eight => if i <= 8 { 0 } else { (i - 9) % 8 + 1 },
            // inner classes have odd numbers, each with its leaf after it; the last class, a leaf, stands where the next inner class would
            Shape::Chain => if i % 2 == 0 { i - 1 } else { i.saturating_sub(2) },
            Shape::Line => i - 1,
        })
        .collect()
}

// A leaf's weight. An inner class weighs what its children weigh, and no class more than 1,000,000: with 7 leaves below one of the eight
// inner classes each has 142,857, and with 32 leaves along the chain each has 31,250.
fn leaf_weight(shape: Shape, weights: Weights, random: &mut Random) -> u32 {
    match (weights, shape) {
        (Weights::One, _) => 1,
        (Weights::Drawn, _) => random.between(1, 1_000) as u32,
        (Weights::Most, Shape::Eight) => 142_857,
        (Weights::Most, Shape::Chain) => 31_250,
        (Weights::Most, _) => 1_000_000,
    }
}

fn longest(lengths: Lengths) -> u16 {
    match lengths {
        Lengths::From(_) => 1_500,
        Lengths::Longest => 9_216,
    }
}

// A plan's bytes and its leaves.
pub fn plan(shape: Shape, classes: usize, weights: Weights, lengths: Lengths, random: &mut Random) -> (Vec<u8>, Vec<usize>) {
    let parent = parents(shape, classes);
    let mut weight = vec![0u32; classes + 1];
    let mut inner = vec![false; classes + 1];
    for i in (1..=classes).rev() {
        if !inner[i] {
            weight[i] = leaf_weight(shape, weights, random);
        }
        let p = parent[i - 1];
        inner[p] = true;
        weight[p] += weight[i];
    }
    let mut bytes = Vec::new();
    for i in 1..=classes {
        bytes.extend([if inner[i] { 1 } else { 2 }, parent[i - 1] as u8]);
        bytes.extend(weight[i].to_be_bytes());
        if !inner[i] {
            bytes.extend(longest(lengths).to_be_bytes());
        }
    }
    bytes.push(0);
    (bytes, (1..=classes).filter(|&i| !inner[i]).collect())
}

fn arrival(bytes: &mut Vec<u8>, class: usize, length: u16, tag: u32) {
    bytes.extend([16, class as u8]);
    bytes.extend(length.to_be_bytes());
    bytes.extend(tag.to_be_bytes());
}

// A recording of 63 classes in which each leaf holds so many packets at the start.
pub fn recording(shape: Shape, weights: Weights, lengths: Lengths, deep: usize, pairs: usize, seed: u64) -> Recording {
    recording_of(63, shape, weights, lengths, deep, pairs, seed)
}

// The same of so many classes.
pub fn recording_of(classes: usize, shape: Shape, weights: Weights, lengths: Lengths, deep: usize, pairs: usize, seed: u64) -> Recording {
    let mut random = Random(seed);
    let (mut input, leaves) = plan(shape, classes, weights, lengths, &mut random);
    let (mut link, _) = Plain::read(&input).expect("a plan");
    let mut tag = 0;
    let mut comes = |link: &mut Plain, input: &mut Vec<u8>, class: usize| {
        let length = match lengths {
            Lengths::From(low) => random.between(low as u64, 1_500) as u16,
            Lengths::Longest => 9_216,
        };
        link.arrive(class, length, tag).expect("an arrival of the recording is refused");
        arrival(input, class, length, tag);
        tag += 1;
    };
    for _ in 0..deep {
        for &class in &leaves {
            comes(&mut link, &mut input, class);
        }
    }
    for _ in 0..pairs {
        let class = link.send().expect("a packet waits").class;
        input.push(17);
        comes(&mut link, &mut input, class);
    }
    Recording { input, filling: deep * leaves.len(), pairs }
}

// The same recording for code from before the charge (R15), which charges bare lengths: each packet and each longest packet 24 bytes
// longer, so that balances, Q and every comparison are the same. No packet may be shorter than 60 bytes or longer than 9,192.
pub fn for_bare_lengths(input: &[u8]) -> Vec<u8> {
    let mut bytes = input.to_vec();
    let longer = |bytes: &mut Vec<u8>, at: usize| {
        let length = u16::from_be_bytes([bytes[at], bytes[at + 1]]);
        assert!((60..=9_192).contains(&length), "a length that has no bare one with the same charge");
        bytes[at..at + 2].copy_from_slice(&(length + 24).to_be_bytes());
    };
    let mut at = 0;
    while bytes[at] != 0 {
        if bytes[at] == 2 {
            longer(&mut bytes, at + 6);
        }
        at += if bytes[at] == 1 { 6 } else { 8 };
    }
    at += 1;
    while at < bytes.len() {
        if bytes[at] == 16 {
            longer(&mut bytes, at + 2);
        }
        at += if bytes[at] == 16 { 8 } else { 1 };
    }
    bytes
}

// A plan in which every class has the weight 1,000 and every leaf the longest packet 1,500, for openings alone: flat, or each class the
// one child of the class before it.
pub fn even_plan(shape: Shape, classes: usize) -> Vec<u8> {
    let parent = parents(shape, classes);
    let mut bytes = Vec::new();
    for i in 1..=classes {
        let inner = parent.contains(&i);
        bytes.extend([if inner { 1 } else { 2 }, parent[i - 1] as u8]);
        bytes.extend(1_000u32.to_be_bytes());
        if !inner {
            bytes.extend(1_500u16.to_be_bytes());
        }
    }
    bytes.push(0);
    bytes
}
