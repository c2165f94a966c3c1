//! Makes one question for the rates programs from a seed: `rates_generate SEED PLAN WORDS` writes the plan's bytes to the file PLAN and
//! the words to the file WORDS, each word followed by a line feed; an empty line is an empty word, an empty file is no word at all.
//! The same seed always gives the same files. Build: rustc -O --edition 2021 rates_generate.rs
//!
//! The mix. Let slot = SEED % 20 and turn = SEED / 20; so 20 seeds in a row meet every slot once.
//!   slots  0..=10  good plan and good words, one mix of requests each (see `request`); the tree's shape goes round with the turn, so
//!                  every mix meets every shape in 13 turns: one leaf, flat 63, a chain 62 deep, combs, even and random trees
//!   slot  11       as mix 6, near the shares of one level, with a capacity near the sum of those shares
//!   slot  12       a capacity at, one below or one above the total request
//!   slots 13, 14   damaged or cut plan, one of 38 faults in turn (refusals 1 to 9, 17, 18), at times with numbers out of range too
//!   slot  15       inputs at the size limit: 65,535, 65,536, 65,537 bytes and above, good and bad behind it (refusal 10)
//!   slot  16       a good plan with bytes changed, taken out, put in or cut off anywhere
//!   slot  17       no word, or a bad word, on any input: good, damaged, too long
//!   slot  18       good plan, capacity or requests out of range (refusals 20 and 21)
//!   slot  19       one leaf, and tiny trees in the manner of tree P, with small numbers
//! Weights: as in the generator of runs; one tree in five has 1 and 1,000,000 side by side below the root.
//! Every list of good words may name inner classes, the root and numbers past the last, a class twice, and with leading zeros.

#[path = "random_plans.rs"]
mod random_plans;

use random_plans::*;

/// "1 to 1,000,000,000 kbit/s".
const MOST_RATE: u64 = 1_000_000_000;
/// "a table of 64 entries".
const NUMBERS: u64 = 64;
/// How many mixes of requests `request` knows.
const MIXES: u64 = 11;

type Word = Vec<u8>;

/// A question: the input's bytes and the words.
struct Question {
    input: Vec<u8>,
    words: Vec<Word>,
}

// ---------------------------------------------------------------------------------------------
// Trees.

/// A good tree; one in five has weights of 1 and 1,000,000 side by side below the root, where no sum limits them.
fn any_tree(random: &mut Random, shape: u64) -> Tree {
    let mut tree = good_tree(random, shape);
    if random.chance(20) {
        for class in children(&tree, 0) {
            if tree[class].leaf {
                tree[class].weight = random.pick(&[1, 1, MOST_WEIGHT - 1, MOST_WEIGHT]);
            }
        }
    }
    assert_good(&tree);
    tree
}

/// A tree of any shape.
fn any_shape(random: &mut Random) -> Tree {
    let shape = random.from_to(0, SHAPES - 1);
    any_tree(random, shape)
}

/// The leaves of a tree.
fn leaves(tree: &Tree) -> Vec<usize> {
    (1..tree.len()).filter(|&class| tree[class].leaf).collect()
}

/// The weight sum of the root's children.
fn root_weights(tree: &Tree) -> u64 {
    children(tree, 0).iter().map(|&class| tree[class].weight).sum()
}

/// A plan, one in five with a record of kind 3 first, and at times bytes behind its end record, which nobody looks at.
fn plan_and_more(random: &mut Random, tree: &Tree) -> Vec<u8> {
    let mut bytes = plan(tree);
    if random.chance(20) {
        bytes = [rule_record(good_rule(random)), bytes].concat();
    }
    if random.chance(25) {
        for _ in 0..random.from_to(1, 40) {
            bytes.push(random.next() as u8);
        }
    }
    bytes
}

// ---------------------------------------------------------------------------------------------
// Numbers in range.

/// One more, one less or the number itself, within 0 to the highest rate.
fn about(random: &mut Random, number: u64) -> u64 {
    (number + random.from_to(0, 2)).saturating_sub(1).min(MOST_RATE)
}

/// A capacity in range, of all sizes, and near the numbers that matter to the tree.
fn capacity(random: &mut Random, tree: &Tree) -> u64 {
    let weights = root_weights(tree);
    let lightest = children(tree, 0).iter().map(|&class| tree[class].weight).min().unwrap_or(1);
    let number = match random.from_to(0, 11) {
        0 => 1,
        1 => MOST_RATE,
        2 => random.from_to(1, lightest.max(2) - 1),
        3 => about(random, weights),
        4 => {
            let times = random.from_to(1, (MOST_RATE / weights).clamp(1, 2_000));
            about(random, weights * times)
        }
        5 => random.from_to(1, 1_000),
        6 | 7 => random.from_to(1, MOST_RATE),
        8 => 10u64.pow(random.from_to(0, 9) as u32),
        9 => {
            let power = 1 << random.from_to(0, 29);
            about(random, power)
        }
        10 => random.pick(&[10_000, 100_000, 1_000_000]),
        _ => random.from_to(1, 20 * weights),
    };
    number.clamp(1, MOST_RATE)
}

/// What one leaf requests in a mix; nothing where no word names it. `level` is a share per unit of weight, the same for all leaves.
fn request(random: &mut Random, mix: u64, weight: u64, capacity: u64, many: u64, level: u64) -> Option<u64> {
    let number = match mix {
        0 => return None,
        1 => random.pick(&[0, 0, 0, capacity]),
        2 => random.from_to(0, capacity),
        3 => random.from_to(0, 2 * capacity / many),
        4 => random.from_to(0, 10),
        5 => random.pick(&[0, 1, MOST_RATE - 1, MOST_RATE]),
        6 => about(random, weight * level),
        7 => weight * level,
        8 => {
            if random.chance(50) {
                return None;
            }
            random.from_to(0, capacity)
        }
        9 => MOST_RATE,
        _ => 1 << random.from_to(0, 29),
    };
    Some(number.min(MOST_RATE))
}

/// The requests of all leaves in a mix, as class and request.
fn requests(random: &mut Random, tree: &Tree, capacity: u64, mix: u64) -> Vec<(u64, u64)> {
    let leaves = leaves(tree);
    let weights: u64 = leaves.iter().map(|&leaf| tree[leaf].weight).sum();
    let level = random.from_to(0, 2 * capacity / weights + 2);
    let mut named = Vec::new();
    for &leaf in &leaves {
        if let Some(number) = request(random, mix, tree[leaf].weight, capacity, leaves.len() as u64, level) {
            named.push((leaf as u64, number));
        }
    }
    named
}

// ---------------------------------------------------------------------------------------------
// Words.

/// A number in digits, now and then with leading zeros.
fn digits(random: &mut Random, number: u64) -> String {
    let zeros = if random.chance(4) { random.pick(&[1, 2, 19, 20, 64, 400]) } else { 0 };
    "0".repeat(zeros) + &number.to_string()
}

/// CLASS=REQUEST.
fn naming(random: &mut Random, class: u64, request: u64) -> Word {
    format!("{}={}", digits(random, class), digits(random, request)).into_bytes()
}

/// A number of any size, most of them wild.
fn wild_number(random: &mut Random) -> u64 {
    let any = random.next();
    random.pick(&[0, 1, MOST_RATE, MOST_RATE + 1, 1 << 32, 1 << 63, u64::MAX - 1, u64::MAX, any])
}

/// The words of a question: the capacity, the leaves in any order, and what changes nothing or counts last.
fn words(random: &mut Random, tree: &Tree, capacity: u64, named: &[(u64, u64)]) -> Vec<Word> {
    let mut others: Vec<Word> = Vec::new();
    for &(class, request) in named {
        let word = naming(random, class, request);
        let at = random.from_to(0, others.len() as u64) as usize;
        let at = if random.chance(70) { others.len() } else { at };
        others.insert(at, word);
    }
    // classes that are no leaf: the root, inner classes, numbers past the last
    if random.chance(40) {
        let no_leaf: Vec<u64> = (0..NUMBERS).filter(|&class| !tree.get(class as usize).is_some_and(|c| c.leaf)).collect();
        for _ in 0..random.from_to(1, 5) {
            let class = random.pick(&no_leaf);
            let number = wild_number(random);
            let at = random.from_to(0, others.len() as u64) as usize;
            let word = naming(random, class, number);
            others.insert(at, word);
        }
    }
    // a class named before, with another request, wild and then not, or the other way round
    if !named.is_empty() && random.chance(20) {
        let (class, request) = random.pick(named);
        let number = if random.chance(50) { wild_number(random) } else { random.from_to(0, MOST_RATE) };
        let early = naming(random, class, number);
        others.insert(0, early);
        if random.chance(50) {
            let late = naming(random, class, if request == 0 { 1 } else { request / 2 });
            others.push(late);
        }
    }
    others.insert(0, digits(random, capacity).into_bytes());
    others
}

/// A good question on a tree.
fn good_question(random: &mut Random, tree: &Tree, mix: u64) -> Question {
    let capacity = capacity(random, tree);
    let named = requests(random, tree, capacity, mix);
    Question { words: words(random, tree, capacity, &named), input: plan_and_more(random, tree) }
}

/// A good question of any kind.
fn any_question(random: &mut Random) -> Question {
    let tree = any_shape(random);
    let mix = random.from_to(0, MIXES - 1);
    good_question(random, &tree, mix)
}

/// Requests near the shares of one level, and a capacity near the sum of the shares or of some of them.
fn near_level(random: &mut Random) -> Question {
    let tree = any_shape(random);
    let weights = root_weights(&tree);
    let level = random.from_to(0, (MOST_RATE / weights).min(1_000));
    let mut named = Vec::new();
    for leaf in leaves(&tree) {
        let number = tree[leaf].weight * level;
        named.push((leaf as u64, if random.chance(20) { MOST_RATE } else { about(random, number) }));
    }
    let capacity = about(random, weights * level);
    Question { words: words(random, &tree, capacity, &named), input: plan(&tree) }
}

/// A capacity at the total request, one below or one above.
fn near_total(random: &mut Random) -> Question {
    let tree = any_shape(random);
    let most = random.pick(&[1, 10, 1_000, 1_000_000, MOST_RATE / 63]);
    let named: Vec<(u64, u64)> = leaves(&tree).iter().map(|&leaf| (leaf as u64, random.from_to(0, most))).collect();
    let total = named.iter().map(|&(_, request)| request).sum();
    let capacity = about(random, total);
    Question { words: words(random, &tree, capacity, &named), input: plan_and_more(random, &tree) }
}

/// A capacity out of range.
fn bad_capacity(random: &mut Random) -> u64 {
    random.pick(&[0, 0, 0, MOST_RATE + 1, MOST_RATE + 1, 2 * MOST_RATE, 1 << 32, (1 << 32) + 100, 1 << 63, u64::MAX])
}

/// Gives one or more leaves a request out of range, the last word for them.
fn bad_requests(random: &mut Random, tree: &Tree, words: &mut Vec<Word>) {
    let leaves = leaves(tree);
    for _ in 0..random.pick(&[1, 1, 2, 3]) {
        let leaf = random.pick(&leaves) as u64;
        let number = random.pick(&[MOST_RATE + 1, MOST_RATE + 1, 2 * MOST_RATE, 1 << 32, (1 << 32) + 5, 1 << 63, u64::MAX]);
        words.push(naming(random, leaf, number));
    }
}

/// Puts numbers out of range into good words: the capacity, the requests, or both.
fn out_of_range(random: &mut Random, tree: &Tree, words: &mut Vec<Word>) {
    let which = random.from_to(0, 9);
    if which < 4 {
        let number = bad_capacity(random);
        words[0] = digits(random, number).into_bytes();
    }
    if which > 2 {
        bad_requests(random, tree, words);
    }
}

/// Words that are no capacity.
const NO_CAPACITY: [&[u8]; 26] = [
    b"", b"+100", b"-1", b"1,000", b"1.5", b"1e3", b"0x64", b"100=1", b"=100", b"=", b"18446744073709551616", b"36893488147419103232",
    b"100000000000000000000000000000", b" 100", b"100 ", b"100k", b"k", b"-", b"--", b"\t100", b"/", b":", b"10/", b"10:",
    "\u{ff11}\u{ff10}".as_bytes(), b"100\xff",
];

/// Words that are no CLASS=REQUEST.
const NO_REQUEST: [&[u8]; 38] = [
    b"", b"1", b"=", b"1=", b"=1", b"1=1=1", b"1==1", b"64=1", b"064=1", b"65=1", b"128=1", b"255=1", b"256=1", b"257=1",
    b"4294967297=1", b"18446744073709551616=1", b"18446744073709551617=1",
    b"1=18446744073709551616", b"1=18446744073709551621", b"1=99999999999999999999999",
    b"-1=5", b"+1=5", b"1=-5", b"1=+5", b"1,2=5", b"1=1,000", b" 1=5", b"1=5 ", b"1 =5", b"a=5", b"1=b", b"1:5", b"1=0x10", b"1=1e3",
    b"/=5", b"1=:", "\u{661}=5".as_bytes(), b"1=5\xff",
];

/// Spoils good words: none at all, a bad capacity, or one or two bad words behind it.
fn spoil(random: &mut Random, words: &mut Vec<Word>, turn: u64) {
    match turn % 10 {
        0 => words.clear(),
        tenth @ 1..=4 => words[0] = NO_CAPACITY[((turn / 10 * 4 + tenth) % NO_CAPACITY.len() as u64) as usize].to_vec(),
        _ => {
            for _ in 0..random.pick(&[1, 1, 2]) {
                let at = random.from_to(1, words.len() as u64) as usize;
                let bad = random.pick(&NO_REQUEST).to_vec();
                if random.chance(50) && at < words.len() {
                    words[at] = bad;
                } else {
                    words.insert(at, bad);
                }
            }
        }
    }
}

// ---------------------------------------------------------------------------------------------
// Whole questions.

/// A damaged plan with the words of a good question, at times with numbers out of range too: the plan's number comes first.
fn damaged(random: &mut Random, fault: u64) -> Question {
    let tree = any_shape(random);
    let mix = random.from_to(0, MIXES - 1);
    let mut question = good_question(random, &tree, mix);
    if random.chance(40) {
        out_of_range(random, &tree, &mut question.words);
    }
    question.input = damaged_plan(random, fault);
    question
}

/// Inputs at the size limit and above it; what stands behind the plan is not looked at, but it counts.
fn sized(random: &mut Random, turn: u64) -> Question {
    let tree = any_shape(random);
    let mix = random.from_to(0, MIXES - 1);
    let mut question = good_question(random, &tree, mix);
    let above = random.from_to(2, 70_000) as usize;
    let length = match turn % 5 {
        0 => MOST_INPUT,
        1 | 2 => MOST_INPUT + 1,
        3 => MOST_INPUT - 1,
        _ => MOST_INPUT + above,
    };
    // a bad plan and numbers out of range too: 10 comes first
    if turn / 5 % 3 == 1 {
        question.input = damaged_plan(random, turn % PLAN_FAULTS);
    }
    if turn / 5 % 3 == 2 {
        out_of_range(random, &tree, &mut question.words);
    }
    let filling = random.pick(&[0, 17, 255]);
    question.input.resize(length, filling);
    question
}

/// A good plan with a few bytes changed, taken out, put in, or with its end cut off.
fn bruised(random: &mut Random) -> Question {
    let mut question = any_question(random);
    for _ in 0..random.from_to(1, 3) {
        let bytes = &mut question.input;
        if bytes.is_empty() {
            break;
        }
        let at = random.from_to(0, bytes.len() as u64 - 1) as usize;
        match random.from_to(0, 4) {
            0 => bytes[at] = random.next() as u8,
            1 => bytes[at] ^= 1 << random.from_to(0, 7),
            2 => {
                bytes.remove(at);
            }
            3 => bytes.insert(at, random.pick(&[0, 1, 2, 16, 17, 255])),
            _ => bytes.truncate(at),
        }
    }
    question
}

/// A bad word on any input: words are judged before input is read.
fn bad_words(random: &mut Random, turn: u64) -> Question {
    let mut question = match random.from_to(0, 5) {
        0 => damaged(random, turn % PLAN_FAULTS),
        1 => sized(random, turn),
        _ => any_question(random),
    };
    spoil(random, &mut question.words, turn);
    question
}

/// A good plan with numbers out of range.
fn wrong_numbers(random: &mut Random) -> Question {
    let tree = any_shape(random);
    let mix = random.from_to(0, MIXES - 1);
    let mut question = good_question(random, &tree, mix);
    out_of_range(random, &tree, &mut question.words);
    question
}

/// One leaf, or a tiny tree, with small numbers.
fn tiny(random: &mut Random, turn: u64) -> Question {
    let mut tree = if turn % 4 == 0 { flat(1) } else { small_tree(random) };
    let heaviest = random.from_to(1, 9);
    weigh_upward(random, &mut tree, &mut |r| r.from_to(1, heaviest), 1);
    lengthen(random, &mut tree);
    assert_good(&tree);
    let capacity = random.from_to(1, 60);
    let mut named = Vec::new();
    for leaf in leaves(&tree) {
        if random.chance(70) {
            named.push((leaf as u64, random.from_to(0, 30)));
        }
    }
    Question { words: words(random, &tree, capacity, &named), input: plan_and_more(random, &tree) }
}

/// The question of a seed; see the head of this file for the mix.
fn question_of(seed: u64) -> Question {
    let mut random = Random { state: seed };
    let random = &mut random;
    let (slot, turn) = (seed % 20, seed / 20);
    match slot {
        0..=10 => {
            let tree = any_tree(random, (slot + turn) % SHAPES);
            good_question(random, &tree, slot)
        }
        11 => near_level(random),
        12 => near_total(random),
        13 | 14 => damaged(random, (2 * turn + slot - 13) % PLAN_FAULTS),
        15 => sized(random, turn),
        16 => bruised(random),
        17 => bad_words(random, turn),
        18 => wrong_numbers(random),
        _ => tiny(random, turn),
    }
}

/// Reads the seed and writes the two files.
fn main() {
    let arguments: Vec<String> = std::env::args().collect();
    let seed = arguments.get(1).and_then(|word| word.parse::<u64>().ok());
    let (Some(seed), [_, _, plan_file, words_file]) = (seed, &arguments[..]) else {
        eprintln!("use: rates_generate SEED PLAN WORDS");
        std::process::exit(1);
    };
    let question = question_of(seed);
    let lines: Vec<u8> = question.words.iter().flat_map(|word| [&word[..], b"\n"].concat()).collect();
    if std::fs::write(plan_file, question.input).is_err() || std::fs::write(words_file, lines).is_err() {
        eprintln!("rates_generate: a file cannot be written");
        std::process::exit(1);
    }
}
