//! Makes one input for the link programs from a seed: `generate SEED > input`. The same seed always gives the same bytes.
//! Build: rustc -O --edition 2021 generate.rs
//!
//! The rule. The input of a seed begins with a record of kind 3 by SEED % 23: where that is odd, up to 19, rule 2; where it is 21, rule 1;
//! where it is even there is none. So 11 of 23 inputs begin with one and 10 of 23 with rule 2, more than a third of all inputs run under it,
//! and as 23 has no part in common with 20 every slot meets each. What follows is the same with and without the record (at the size limit the
//! input is no longer for it, and in slot 18 it may be damaged); only the faults of kind 3 itself have nothing before them.
//!
//! The mix. Let slot = SEED % 20 and turn = SEED / 20; so 20 seeds in a row meet every slot once.
//!   slots  0..=9   good plan, one event profile each (see `events_of`): backlogged, sparse, bursty, arrivals only,
//!                  sends only, steady, hostile arrivals, hot leaves, rejoining leaves, trickle;
//!                  the tree's shape goes round with the turn, so every profile meets every shape in 13 turns
//!   slot  10       good plan, shape and profile both random; every third turn a run in which a packet waits nearly its bound
//!   slots 11, 12   light siblings: trees and events made so that surplus rounds open that send nothing (rounds = 2)
//!   slots 13..=15  damaged or cut plan, one of 38 faults in turn (see `damaged_plan`), refusals 1 to 9, 17 and 18: kind 3 in the wrong
//!                  place, with a wrong rule byte, cut, twice, before 64 classes, behind 63, and alone
//!   slot  16       good plan, damaged or cut events, one of 10 faults in turn (see `damaged_events`), refusals 1 and 2
//!   slot  17       inputs at the size limit: 65,535, 65,536, 65,537 bytes and above (see `sized_input`), refusal 10
//!   slot  18       a good input with bytes changed, taken out, put in or cut off anywhere
//!   slot  19       tiny trees in the manner of tree P with short random runs
//! Sizes of a good run: 40% small (10 to 150 events), 40% middle (300 to 1,500), 20% large (2,000 to 6,000).
//! Weights: tiny, huge, equal, random exact, random with room, heavy inner over light leaves, spread by powers of two.
//! Longest packets: all 1, all 9,216, random, limits mixed, small, the two usual sizes 64 and 1,500, powers of two, and
//! 58 to 63, where padding ends: lengths up to 60 are charged alike, from 61 on each byte counts.
//! Lengths within a run: all 1, all at the longest, any, 1 or longest, short, 58 to 63; the share of bad arrivals (lengths
//! 0, longest + 1, 65,535; the root, inner classes, numbers past the last up to 255) is 0, 2, 5, 15 or 60 of 100.

#[path = "random_plans.rs"]
mod random_plans;

use random_plans::*;
use std::io::Write;

/// Good runs stay well below the limit, so that only slot 17 speaks of it.
const ROOM: usize = 60_000;
/// How many event profiles `events_of` knows besides the light siblings, whose number this is.
const PROFILES: u64 = 10;
/// How many event faults `damaged_events` knows.
const EVENT_FAULTS: u64 = 10;

// ---------------------------------------------------------------------------------------------
// Events.

/// The way lengths are drawn in one run.
#[derive(Clone, Copy)]
enum Lengths {
    One,
    Longest,
    Any,
    Limits,
    Short,
    Padding,
}

/// Writes events and guesses how many packets wait (refusal 14 is not foreseen, so the guess may be too high).
struct Writer<'a> {
    random: &'a mut Random,
    tree: &'a Tree,
    leaves: Vec<usize>,
    lengths: Lengths,
    hostile: u64,
    bytes: Vec<u8>,
    room: usize,
    events: usize,
    waiting: usize,
}

impl<'a> Writer<'a> {
    /// A writer with random lengths and a random share of bad arrivals.
    fn new(random: &'a mut Random, tree: &'a Tree, room: usize) -> Writer<'a> {
        let leaves = (1..tree.len()).filter(|&c| tree[c].leaf).collect();
        let lengths = random.pick(&[
            Lengths::One,
            Lengths::Longest,
            Lengths::Any,
            Lengths::Any,
            Lengths::Limits,
            Lengths::Short,
            Lengths::Padding,
        ]);
        let hostile = random.pick(&[0, 0, 2, 5, 15]);
        Writer { random, tree, leaves, lengths, hostile, bytes: Vec::new(), room, events: 0, waiting: 0 }
    }

    /// Whether another arrival fits.
    fn has_room(&self) -> bool {
        self.bytes.len() + 8 <= self.room
    }

    /// Whether a run of the given size goes on: fewer events than wanted, and room for one more.
    fn goes_on(&self, size: usize) -> bool {
        self.events < size && self.has_room()
    }

    /// A send, if it fits.
    fn send(&mut self) {
        if self.bytes.len() < self.room {
            self.bytes.push(17);
            self.events += 1;
            self.waiting = self.waiting.saturating_sub(1);
        }
    }

    /// So many sends.
    fn sends(&mut self, count: usize) {
        for _ in 0..count {
            self.send();
        }
    }

    /// Any arrival record, if it fits; tags are any 32 bits and now and then at their limits.
    fn put(&mut self, class: u64, length: u64) {
        if self.has_room() {
            let any = self.random.next() & 0xFFFF_FFFF;
            let tag = if self.random.chance(2) { self.random.pick(&[0, 1, 0xFFFF_FFFF]) } else { any };
            self.bytes.extend(arrival_record(class, length, tag));
            self.events += 1;
        }
    }

    /// A length within the leaf's range.
    fn length(&mut self, leaf: usize) -> u64 {
        let longest = self.tree[leaf].longest;
        match self.lengths {
            Lengths::One => 1,
            Lengths::Longest => longest,
            Lengths::Any => self.random.from_to(1, longest),
            Lengths::Limits => self.random.pick(&[1, longest]),
            Lengths::Short => self.random.from_to(1, (longest / 8).max(1)),
            Lengths::Padding => self.random.from_to(58, 63).min(longest),
        }
    }

    /// A good arrival to this leaf.
    fn arrive(&mut self, leaf: usize) {
        let length = self.length(leaf);
        self.waiting += 1;
        self.put(leaf as u64, length);
    }

    /// An arrival to a random leaf of a list, or now and then a bad one.
    fn arrive_at(&mut self, leaves: &[usize]) {
        if self.random.chance(self.hostile) {
            self.arrive_badly();
        } else {
            let leaf = self.random.pick(leaves);
            self.arrive(leaf);
        }
    }

    /// An arrival to any leaf.
    fn arrive_anywhere(&mut self) {
        let leaves = self.leaves.clone();
        self.arrive_at(&leaves);
    }

    /// An arrival that is to be refused with 12 or 13.
    fn arrive_badly(&mut self) {
        let leaf = self.random.pick(&self.leaves);
        let longest = self.tree[leaf].longest;
        let inner: Vec<usize> = (0..self.tree.len()).filter(|&c| !self.tree[c].leaf).collect();
        let past = self.random.from_to(self.tree.len() as u64, 255);
        match self.random.from_to(0, 8) {
            0 => self.put(leaf as u64, 0),
            1 => self.put(leaf as u64, longest + 1),
            2 => self.put(leaf as u64, 65_535),
            3 => self.put(0, longest),
            4 => {
                let class = self.random.pick(&inner);
                self.put(class as u64, longest)
            }
            5 => self.put(past, longest),
            6 => self.put(self.tree.len() as u64, longest),
            7 => self.put(255, 0),
            _ => {
                let class = self.random.pick(&[0, 63, 64, 65, 127, 128, 254, 255]);
                let length = self.random.pick(&[0, 1, 9_216, 9_217]);
                self.put(class, length)
            }
        }
    }

    /// Some of the leaves, at least one.
    fn some_leaves(&mut self) -> Vec<usize> {
        let percent = self.random.pick(&[10, 30, 60]);
        let mut some = Vec::new();
        for position in 0..self.leaves.len() {
            if self.random.chance(percent) {
                some.push(self.leaves[position]);
            }
        }
        if some.is_empty() {
            some.push(self.random.pick(&self.leaves));
        }
        some
    }

    /// Sends until nothing should wait any more, and a few times beyond: `none`.
    fn drain(&mut self) {
        let count = self.waiting + self.random.from_to(0, 3) as usize;
        self.sends(count);
    }
}

/// How many events a good run has; the larger ones are rarer.
fn run_size(random: &mut Random) -> usize {
    let class = random.from_to(0, 9);
    (match class {
        0..=3 => random.from_to(10, 150),
        4..=7 => random.from_to(300, 1_500),
        _ => random.from_to(2_000, 6_000),
    }) as usize
}

/// Backlogged: many arrivals first, some queues at 32 and beyond (refusal 14), then sends with a few arrivals.
fn backlogged(writer: &mut Writer, size: usize) {
    let some = writer.some_leaves();
    for leaf in some {
        for _ in 0..writer.random.from_to(20, 36) {
            if writer.events < size {
                writer.arrive(leaf);
            }
        }
    }
    while writer.goes_on(size / 2) {
        writer.arrive_anywhere();
    }
    while writer.goes_on(size) {
        writer.sends(5);
        if writer.random.chance(70) {
            writer.arrive_anywhere();
        }
    }
}

/// Sparse: arrival, send, arrival, send; now and then one more of either.
fn sparse(writer: &mut Writer, size: usize) {
    while writer.goes_on(size) {
        writer.arrive_anywhere();
        if writer.random.chance(95) {
            writer.send();
        }
        if writer.random.chance(5) {
            writer.send();
        }
    }
}

/// Bursty: a burst of arrivals to a few leaves, then a burst of sends.
fn bursty(writer: &mut Writer, size: usize) {
    while writer.goes_on(size) {
        let some = writer.some_leaves();
        for _ in 0..writer.random.from_to(1, 60) {
            writer.arrive_at(&some);
        }
        let count = writer.random.from_to(1, 60) as usize;
        writer.sends(count);
    }
}

/// Arrivals only: queues fill up and stay full.
fn arrivals_only(writer: &mut Writer, size: usize) {
    while writer.goes_on(size.min(2_500)) {
        writer.arrive_anywhere();
    }
}

/// Sends only: every one is refused with 15.
fn sends_only(writer: &mut Writer, size: usize) {
    let count = size.min(400);
    writer.sends(count);
}

/// Steady: about the same number of packets waits all the time.
fn steady(writer: &mut Writer, size: usize) {
    let target = writer.random.pick(&[3, 10, 40, 200]);
    while writer.goes_on(size) {
        if writer.waiting < target || writer.random.chance(10) {
            writer.arrive_anywhere();
        } else {
            writer.send();
        }
    }
}

/// Hostile: most arrivals are to be refused.
fn hostile(writer: &mut Writer, size: usize) {
    writer.hostile = 60;
    while writer.goes_on(size) {
        if writer.random.chance(75) {
            writer.arrive_anywhere();
        } else {
            writer.send();
        }
    }
}

/// Hot leaves: a few always have packets, the others get one now and then and turn inactive again: surplus rounds.
fn hot_leaves(writer: &mut Writer, size: usize) {
    let hot = writer.some_leaves();
    for _ in 0..10 {
        for &leaf in &hot {
            writer.arrive(leaf);
        }
    }
    while writer.goes_on(size) {
        writer.arrive_at(&hot);
        if writer.random.chance(40) {
            writer.arrive_anywhere();
        }
        let count = writer.random.from_to(0, 3) as usize;
        writer.sends(count);
    }
}

/// Rejoining: long packets wait in a few leaves, single short ones come to the rest between sends, as in M7.
fn rejoining(writer: &mut Writer, size: usize) {
    let hot = writer.some_leaves();
    let most_sends = writer.random.from_to(1, 4);
    while writer.goes_on(size) {
        if writer.random.chance(60) {
            writer.lengths = Lengths::Longest;
            writer.arrive_at(&hot);
        }
        writer.lengths = Lengths::Short;
        for _ in 0..writer.random.from_to(0, 2) {
            writer.arrive_anywhere();
        }
        let count = writer.random.from_to(0, most_sends) as usize;
        writer.sends(count);
    }
}

/// Trickle: each leaf gets a packet or two, all is sent, and so on; every class turns inactive again and again.
fn trickle(writer: &mut Writer, size: usize) {
    while writer.goes_on(size) {
        let some = writer.some_leaves();
        for leaf in some {
            for _ in 0..writer.random.from_to(1, 3) {
                writer.arrive(leaf);
            }
        }
        if writer.random.chance(80) {
            writer.drain();
        } else {
            let count = writer.waiting / 2;
            writer.sends(count);
        }
    }
}

/// Light siblings: heavy leaves always wait with long packets, light ones get single bytes now and then and give back
/// little; so surplus rounds open that cover no packet and a main round follows in the same send.
fn light_siblings(writer: &mut Writer, size: usize) {
    let heaviest = writer.leaves.iter().map(|&l| writer.tree[l].weight).max().unwrap_or(1);
    let (heavy, light): (Vec<usize>, Vec<usize>) =
        writer.leaves.iter().partition(|&&l| writer.tree[l].weight * 2 > heaviest);
    let light_percent = writer.random.pick(&[15, 25, 40, 60]);
    let heavy_lengths = writer.random.pick(&[Lengths::Longest, Lengths::Longest, Lengths::Any, Lengths::Limits]);
    let filled = writer.random.from_to(3, 33);
    for _ in 0..filled {
        for &leaf in &heavy {
            writer.lengths = Lengths::Longest;
            writer.arrive(leaf);
        }
    }
    let size = size + writer.events;
    while writer.goes_on(size) {
        if writer.random.chance(90) {
            writer.lengths = heavy_lengths;
            writer.arrive_at(&heavy);
        }
        if !light.is_empty() && writer.random.chance(light_percent) {
            writer.lengths = Lengths::One;
            writer.arrive_at(&light);
        }
        writer.send();
    }
}

/// The events of one profile; half the runs are drained at the end.
fn events_of(random: &mut Random, tree: &Tree, profile: u64, size: usize, room: usize) -> Vec<u8> {
    let drained = random.chance(50);
    let mut writer = Writer::new(random, tree, room);
    match profile {
        0 => backlogged(&mut writer, size),
        1 => sparse(&mut writer, size),
        2 => bursty(&mut writer, size),
        3 => arrivals_only(&mut writer, size),
        4 => sends_only(&mut writer, size),
        5 => steady(&mut writer, size),
        6 => hostile(&mut writer, size),
        7 => hot_leaves(&mut writer, size),
        8 => rejoining(&mut writer, size),
        9 => trickle(&mut writer, size),
        _ => light_siblings(&mut writer, size),
    }
    // arrivals only and sends only stay what their names say
    if drained && profile != 3 && profile != 4 {
        writer.drain();
    }
    writer.bytes
}

// ---------------------------------------------------------------------------------------------
// Whole inputs.

/// A good plan and its events.
fn good_input(random: &mut Random, shape: u64, profile: u64) -> Vec<u8> {
    let tree = good_tree(random, shape);
    let size = run_size(random);
    let events = events_of(random, &tree, profile, size, ROOM);
    [plan(&tree), events].concat()
}

/// A good input with random shape and profile.
fn any_good_input(random: &mut Random) -> Vec<u8> {
    let (shape, profile) = (random.from_to(0, SHAPES - 1), random.from_to(0, PROFILES - 1));
    good_input(random, shape, profile)
}

/// The heavy leaves' longest packet and the most that they weigh, for light siblings.
const LIGHT_SIBLINGS: [(u64, u64); 6] =
    [(100, 7), (1_500, 25), (MOST_LONGEST, 60), (1_500, 2), (MOST_LONGEST, 3), (MOST_LONGEST, 5)];

/// Light siblings over a tree made for them: the leaves weigh 1 or more, and only the heavy ones take long packets, so
/// that Q is hardly more than one long packet for each heavy leaf; a heavy weight is at most the root of the length, so
/// that what a light leaf gives back (about length / weight) reaches the weight sum and opens a surplus round. Where the
/// heavy weight is small beside the length, that round also pays for a light packet, which is charged 84.
fn light_siblings_tree(random: &mut Random) -> Tree {
    let shape = random.pick(&[5, 6, 7, 8, 10]);
    let mut tree = if random.chance(75) { groups(random) } else { shape_of(random, shape) };
    let (longest, most_heavy) = random.pick(&LIGHT_SIBLINGS);
    let heavy = random.from_to(2, most_heavy);
    let light_percent = random.pick(&[30, 50]);
    weigh_upward(random, &mut tree, &mut |r| if r.chance(light_percent) { 1 } else { heavy }, 0);
    for class in 1..tree.len() {
        if tree[class].leaf {
            tree[class].longest = if tree[class].weight == heavy { longest } else { random.from_to(1, 4) };
        }
    }
    assert_good(&tree);
    tree
}

/// A run of light siblings over such a tree.
fn light_siblings_input(random: &mut Random) -> Vec<u8> {
    let tree = light_siblings_tree(random);
    let size = random.from_to(100, 4_000) as usize;
    let events = events_of(random, &tree, PROFILES, size, ROOM);
    [plan(&tree), events].concat()
}

/// A short run over a tiny tree.
fn tiny_input(random: &mut Random) -> Vec<u8> {
    let mut tree = small_tree(random);
    let equal = random.from_to(1, 4);
    weigh_upward(random, &mut tree, &mut |r| r.from_to(1, equal), 1);
    for class in 1..tree.len() {
        if tree[class].leaf {
            tree[class].longest = if random.chance(50) { random.from_to(1, 12) } else { random.from_to(50, 200) };
        }
    }
    assert_good(&tree);
    let (profile, size) = (random.pick(&[0, 1, 2, 5, 7, 8, 9]), random.from_to(5, 600) as usize);
    let events = events_of(random, &tree, profile, size, ROOM);
    [plan(&tree), events].concat()
}

/// Good events in front of and behind a fault.
fn damaged_events(random: &mut Random, fault: u64) -> Vec<u8> {
    let shape = random.from_to(0, SHAPES - 1);
    let tree = good_tree(random, shape);
    let size = random.from_to(0, 300) as usize;
    let profile = random.pick(&[0, 1, 2, 5, 7, 8, 9]);
    let mut bytes = [plan(&tree), events_of(random, &tree, profile, size, ROOM)].concat();
    let arrival = arrival_record(any_leaf(random, &tree) as u64, 1, 0xFFFF_FFFF);
    match fault {
        0 => bytes.push(random.pick(&[3, 4, 15, 18, 19, 32, 127, 128, 240, 255])),
        1 => bytes.push(0),
        2 => bytes.extend(class_record(&Class { leaf: false, parent: 0, weight: 1, longest: 0 })),
        3 => bytes.extend(class_record(&Class { leaf: true, parent: 0, weight: 1, longest: 1 })),
        4 => {
            let kept = random.from_to(1, 7) as usize;
            bytes.extend(&arrival[..kept]);
            return bytes;
        }
        5 => {
            bytes.push(16);
            return bytes;
        }
        6 => {
            bytes.push(random.pick(&[0, 1, 2, 3, 15, 18, 255]));
            return bytes;
        }
        7 => {
            // the fault stands right behind the plan
            bytes = plan(&tree);
            bytes.push(random.pick(&[0, 1, 2, 255]));
        }
        8 => bytes.extend(plan(&tree)),
        _ => {
            for _ in 0..random.from_to(1, 200) {
                let any = random.next() as u8;
                bytes.push(random.pick(&[16, 17, 17, any]));
            }
        }
    }
    bytes.extend(arrival);
    bytes.push(17);
    bytes
}

/// A good plan with events filled up by sends to exactly so many bytes.
fn filled_to(random: &mut Random, length: usize) -> Vec<u8> {
    let siblings = random.chance(50);
    let shape = random.pick(&[0, 4, 6, 7, 8, 9]);
    let tree = if siblings { light_siblings_tree(random) } else { good_tree(random, shape) };
    let mut bytes = plan(&tree);
    let room = length - bytes.len();
    let profile = if siblings { PROFILES } else { random.pick(&[2, 5, 7, 8, 9]) };
    let events = events_of(random, &tree, profile, length, room);
    bytes.extend(events);
    bytes.resize(length, 17);
    bytes
}

/// Inputs at the size limit, which is `most` behind the record of kind 3.
fn sized_input(random: &mut Random, turn: u64, most: usize) -> Vec<u8> {
    match turn % 10 {
        0 => filled_to(random, most),
        1 => filled_to(random, most + 1),
        2 => filled_to(random, most - 1),
        3 => {
            let above = random.from_to(2, 70_000) as usize;
            filled_to(random, most + above)
        }
        // exactly at the limit, and the last arrival is cut by it
        4 => {
            let kept = random.from_to(1, 7) as usize;
            let arrival = arrival_record(1, 1, 1);
            [filled_to(random, most - kept), arrival[..kept].to_vec()].concat()
        }
        // exactly at the limit, and the last byte is an unknown kind
        5 => [filled_to(random, most - 1), vec![18]].concat(),
        // too long and the plan is bad too: 10 comes first
        6 => {
            let mut bytes = damaged_plan(random, turn % PLAN_FAULTS);
            bytes.resize(most + 1, 0);
            bytes
        }
        // nothing but zeros, exactly at the limit: 9 at 0
        7 => vec![0; most],
        // a last arrival that ends exactly at the limit
        8 => [filled_to(random, most - 8), arrival_record(1, 1, 1)].concat(),
        // one byte too many, and that byte would have been the end of an arrival
        _ => [filled_to(random, most - 7), arrival_record(1, 1, 1)].concat(),
    }
}

/// A good input with a few bytes changed, taken out, put in, or with its end cut off.
fn bruised(random: &mut Random, front: Vec<u8>) -> Vec<u8> {
    let good = if random.chance(50) { tiny_input(random) } else { any_good_input(random) };
    let mut bytes = [front, good].concat();
    for _ in 0..random.from_to(1, 3) {
        // half the blows fall on the first 200 bytes, where the plan is
        let last = bytes.len() as u64 - 1;
        let at = if random.chance(50) { random.from_to(0, last.min(200)) } else { random.from_to(0, last) } as usize;
        match random.from_to(0, 4) {
            0 => bytes[at] = random.next() as u8,
            1 => bytes[at] ^= 1 << random.from_to(0, 7),
            2 => {
                bytes.remove(at);
            }
            3 => bytes.insert(at, random.pick(&[0, 1, 2, 16, 17, 3])),
            _ => bytes.truncate(at),
        }
        if bytes.is_empty() {
            return bytes;
        }
    }
    bytes
}

/// What the input of a seed begins with: a record of kind 3, or nothing.
fn front_of(seed: u64) -> Vec<u8> {
    match seed % 23 {
        21 => rule_record(1),
        odd if odd % 2 == 1 => rule_record(2),
        _ => Vec::new(),
    }
}

/// The input of a seed; see the head of this file for the mix.
fn input_of(seed: u64) -> Vec<u8> {
    let mut random = Random { state: seed };
    let random = &mut random;
    let (slot, turn) = (seed % 20, seed / 20);
    let front = front_of(seed);
    let fault = (3 * turn + slot.saturating_sub(13)) % PLAN_FAULTS;
    let rest = match slot {
        0..=9 => good_input(random, (slot + turn) % SHAPES, slot),
        10 if turn % 3 == 2 => any_near_bound_input(random),
        10 => any_good_input(random),
        11 | 12 => light_siblings_input(random),
        13..=15 if fault >= RULE_FAULTS => return damaged_plan(random, fault),
        13..=15 => damaged_plan(random, fault),
        16 => damaged_events(random, turn % EVENT_FAULTS),
        17 => sized_input(random, turn, MOST_INPUT - front.len()),
        18 => return bruised(random, front),
        _ => tiny_input(random),
    };
    [front, rest].concat()
}

/// Two leaves under the root, the first kept backlogged with its longest packets; a packet to the second just after the
/// first send waits nearly its bound: Q is hardly more than the first's weight, so that each main round gives the second
/// its weight and no more, and the first sends nearly Q bytes in it.
fn near_bound_run(tree: &Tree, length: u64, sends: u64) -> Vec<u8> {
    let mut input = plan(tree);
    for tag in 0..32 {
        input.extend(arrival_record(1, tree[1].longest, tag));
    }
    input.push(17);
    input.extend(arrival_record(2, length, 999_999));
    for tag in 32..32 + sends {
        input.extend(arrival_record(1, tree[1].longest, tag));
        input.push(17);
    }
    input
}

/// A tree of two leaves, with weight and longest packet of each.
fn two_leaves(leaves: [(u64, u64); 2]) -> Tree {
    let mut tree = flat(2);
    for (class, (weight, longest)) in leaves.into_iter().enumerate() {
        tree[class + 1].weight = weight;
        tree[class + 1].longest = longest;
    }
    assert_good(&tree);
    tree
}

/// The recorded near case: weights 1,000,000 and 84, longest 1,000 and 1, so charges 1,024 and 84 and a bound of 2 Q.
fn near_bound_input() -> Vec<u8> {
    near_bound_run(&two_leaves([(MOST_WEIGHT, 1_000), (84, 1)]), 1, 2_000)
}

/// As above with random numbers: the second leaf needs 1 to 7 main rounds, at times one more as its weight is one less.
fn any_near_bound_input(random: &mut Random) -> Vec<u8> {
    let heavy = random.pick(&[100_000, 300_000, 700_000, MOST_WEIGHT]);
    let longest = random.pick(&[1_000, 1_500, 5_000, MOST_LONGEST]);
    let light = random.pick(&[84, 42, 28, 21, 14, 12, 83, 27]);
    let length = random.from_to(1, 61);
    let tree = two_leaves([(heavy, longest), (light, 61)]);
    let sends = (heavy / longest + 2) * (84_u64.div_ceil(light) + 1);
    near_bound_run(&tree, length, sends.min(6_000))
}

/// Reads the seed and writes the input; a reader that stops early is no fault.
fn main() {
    let word = std::env::args().nth(1).unwrap_or_default();
    if word == "near-bound" {
        let _ = std::io::stdout().write_all(&near_bound_input());
        return;
    }
    match word.parse::<u64>().ok() {
        Some(seed) => {
            let _ = std::io::stdout().write_all(&input_of(seed));
        }
        None => {
            eprintln!("use: generate SEED > input, or generate near-bound > input");
            std::process::exit(1);
        }
    }
}
