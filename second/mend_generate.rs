//! Makes one plan for mending from a seed: `mend_generate SEED > plan`. The same seed always gives the same bytes.
//! Build: rustc -O --edition 2021 mend_generate.rs
//!
//! The input of a seed begins with a record of kind 3 as that of `generate` does: by SEED % 23, where that is odd, up to 19, rule 2; where it is
//! 21, rule 1; but for the slots that say otherwise.
//! Let slot = SEED % 16 and turn = SEED / 16; the tree's shape goes round with the turn, and every tree but those of slots 0 and 13 has an inner
//! class.
//!   slot   0       a sound plan; every fifth turn with so many bytes behind it that the input has 65,536 or 65,537
//!   slot   1       a leaf raised by 1 to 1,000, its parents forgotten
//!   slot   2       one to four leaves raised to anything
//!   slot   3       one to three inner classes lowered
//!   slot   4       every weight 1 to 1,000, so that rule 7 is broken all over
//!   slot   5       every weight up to what brings the sums near 1,000,000
//!   slot   6       every inner class 1, or 1,000,000 now and then: all of them grow up to the root's children
//!   slot   7       one inner class whose leaves weigh 999,999, 1,000,000 or 1,000,001 together, the inner ones below it little
//!   slot   8       as slot 7, but by up to 100,000 more: 22 at that class or at one below it
//!   slot   9       leaves of 100,000 to 1,000,000: 22 in several branches
//!   slot  10       rule 7 broken and inner classes without a child: 8 beside 7
//!   slot  11       inner classes without a child, all else sound
//!   slot  12       as slot 9 with inner classes without a child: 8 before 22
//!   slot  13       any other fault, in turn (see `damaged_plan`)
//!   slot  14       every weight 1 to 1,000 and another fault in a record: 4, 5 or 6, the plan cut, or something unknown
//!   slot  15       one of slots 1 to 9 with a few bytes changed, taken out, put in, or its end cut off
//! What is behind the plan is not to be read: half the inputs have up to 40 bytes of anything there.

#[path = "random_plans.rs"]
mod random_plans;

use random_plans::*;
use std::io::Write;

/// The shapes that have inner classes, mostly.
const SHAPES_WITH_INNER: [u64; 11] = [2, 3, 4, 5, 6, 7, 8, 9, 10, 11, 12];

/// A good tree with an inner class; its shape goes round with the turn.
fn tree_to_mend(random: &mut Random, turn: u64) -> Tree {
    loop {
        let tree = good_tree(random, SHAPES_WITH_INNER[(turn % 11) as usize]);
        if tree.iter().skip(1).any(|class| !class.leaf) {
            return tree;
        }
    }
}

/// The leaves below a class.
fn leaves_below(tree: &Tree, class: usize) -> Vec<usize> {
    let is_below = |mut at: usize| {
        while at > class {
            at = tree[at].parent;
        }
        at == class
    };
    (1..tree.len()).filter(|&leaf| tree[leaf].leaf && is_below(leaf)).collect()
}

/// All inner classes.
fn inner_classes(tree: &Tree) -> Vec<usize> {
    (1..tree.len()).filter(|&class| !tree[class].leaf).collect()
}

/// Gives the leaves below an inner class weights that come to so much together, and every inner class a small weight; the others' leaves weigh 1.
fn weigh_together(random: &mut Random, tree: &mut Tree, together: u64) {
    let class = any_inner(random, tree);
    let below = leaves_below(tree, class);
    let most_inner = random.pick(&[1, 10, 100_000]);
    for class in 1..tree.len() {
        tree[class].weight = if tree[class].leaf { 1 } else { random.from_to(1, most_inner) };
    }
    let mut left = together - below.len() as u64;
    for (position, &leaf) in below.iter().enumerate() {
        let others = (below.len() - position - 1) as u64;
        // the last takes what is left, if a leaf may weigh so much
        let part = if others == 0 { left } else { random.from_to(0, (2 * left / (others + 1)).min(left)) }.min(MOST_WEIGHT - 1);
        tree[leaf].weight = 1 + part;
        left -= part;
    }
}

/// Breaks rule 7, or brings it near, by one of the ways 1 to 9.
fn break_shares(random: &mut Random, tree: &mut Tree, way: u64) {
    match way {
        1 => {
            let leaf = any_leaf(random, tree);
            tree[leaf].weight = (tree[leaf].weight + random.from_to(1, 1_000)).min(MOST_WEIGHT);
        }
        2 => {
            for _ in 0..random.from_to(1, 4) {
                let leaf = any_leaf(random, tree);
                let most = random.pick(&[1_000, 100_000, MOST_WEIGHT]);
                tree[leaf].weight = random.from_to(tree[leaf].weight, most.max(tree[leaf].weight));
            }
        }
        3 => {
            for _ in 0..random.from_to(1, 3) {
                let class = any_inner(random, tree);
                let less = random.from_to(1, tree[class].weight);
                tree[class].weight = random.pick(&[less, 1, (tree[class].weight - 1).max(1)]);
            }
        }
        4 => too_heavy_all_over(random, tree),
        5 => {
            let leaves = tree.iter().filter(|class| class.leaf).count() as u64;
            let most = random.pick(&[1, 2, 3]) * MOST_WEIGHT / leaves;
            for class in 1..tree.len() {
                tree[class].weight = random.from_to(1, most.clamp(1, MOST_WEIGHT));
            }
        }
        6 => {
            for class in inner_classes(tree) {
                tree[class].weight = if random.chance(5) { MOST_WEIGHT } else { 1 };
            }
        }
        7 => {
            let together = random.pick(&[MOST_WEIGHT - 1, MOST_WEIGHT, MOST_WEIGHT + 1]);
            weigh_together(random, tree, together);
        }
        8 => {
            let together = MOST_WEIGHT + random.from_to(1, 100_000);
            weigh_together(random, tree, together);
        }
        _ => {
            for class in 1..tree.len() {
                let least = if tree[class].leaf { 100_000 } else { 1 };
                tree[class].weight = random.from_to(least, MOST_WEIGHT);
            }
        }
    }
}

/// One to three leaves turned into inner classes without a child.
fn some_childless(random: &mut Random, tree: &mut Tree) {
    for _ in 0..random.from_to(1, 3) {
        if tree.iter().skip(1).any(|class| class.leaf) {
            childless(random, tree);
        }
    }
}

/// A plan with rule 7 broken and another fault.
fn with_another_fault(random: &mut Random, turn: u64) -> Vec<u8> {
    let mut tree = tree_to_mend(random, turn);
    too_heavy_all_over(random, &mut tree);
    let whole = plan(&tree);
    match random.from_to(0, 6) {
        0 => bad_weight(random, &mut tree),
        1 => bad_longest(random, &mut tree),
        2 => bad_parent_and_more(random, &mut tree),
        3 => bad_weight_and_longest(random, &mut tree),
        4 => return whole[..random.from_to(0, whole.len() as u64 - 1) as usize].to_vec(),
        5 => return [some_records(random, &tree), vec![unknown_plan_kind(random)], whole].concat(),
        _ => return [some_records(random, &tree), any_rule_record(random), whole].concat(),
    }
    plan(&tree)
}

/// A few bytes changed, taken out, put in, or the end cut off.
fn bruise(random: &mut Random, mut bytes: Vec<u8>) -> Vec<u8> {
    for _ in 0..random.from_to(1, 3) {
        if bytes.is_empty() {
            break;
        }
        let at = random.from_to(0, bytes.len() as u64 - 1) as usize;
        match random.from_to(0, 5) {
            0 => bytes[at] = random.next() as u8,
            1 | 2 => bytes[at] ^= 1 << random.from_to(0, 7),
            3 => {
                bytes.remove(at);
            }
            4 => bytes.insert(at, random.pick(&[0, 1, 2, 3, 16])),
            _ => bytes.truncate(at),
        }
    }
    bytes
}

/// What the input of a seed begins with.
fn front_of(seed: u64) -> Vec<u8> {
    match seed % 23 {
        21 => rule_record(1),
        odd if odd % 2 == 1 => rule_record(2),
        _ => Vec::new(),
    }
}

/// The input of a seed; see the head of this file for the mix.
fn input_of(seed: u64) -> Vec<u8> {
    let mut random = Random { state: seed };
    let random = &mut random;
    let (slot, turn) = (seed % 16, seed / 16);
    let front = front_of(seed);
    let mut tree = tree_to_mend(random, turn);
    let records = match slot {
        0 => {
            let good = plan(&good_tree(random, turn % SHAPES));
            if turn % 5 == 4 {
                let most = MOST_INPUT + (turn / 5 % 2) as usize;
                return [front.clone(), good.clone(), vec![17; most - front.len() - good.len()]].concat();
            }
            good
        }
        1..=9 => {
            break_shares(random, &mut tree, slot);
            plan(&tree)
        }
        10..=12 => {
            let way = match slot {
                10 => random.from_to(1, 7),
                12 => random.from_to(8, 9),
                _ => 0,
            };
            if way > 0 {
                break_shares(random, &mut tree, way);
            }
            some_childless(random, &mut tree);
            plan(&tree)
        }
        13 if turn % PLAN_FAULTS >= RULE_FAULTS => return damaged_plan(random, turn % PLAN_FAULTS),
        13 => damaged_plan(random, turn % PLAN_FAULTS),
        14 => with_another_fault(random, turn),
        _ => {
            let way = random.from_to(1, 9);
            break_shares(random, &mut tree, way);
            let whole = [front, plan(&tree)].concat();
            return bruise(random, whole);
        }
    };
    let mut input = [front, records].concat();
    // a cut plan stays cut
    if slot < 13 && random.chance(50) {
        for _ in 0..random.from_to(1, 40) {
            input.push(random.next() as u8);
        }
    }
    input
}

/// Reads the seed and writes the plan.
fn main() {
    match std::env::args().nth(1).and_then(|word| word.parse::<u64>().ok()) {
        Some(seed) => {
            let _ = std::io::stdout().write_all(&input_of(seed));
        }
        None => {
            eprintln!("use: mend_generate SEED > plan");
            std::process::exit(1);
        }
    }
}
