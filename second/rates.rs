//! The independent program for "Which rates will a plan give?", written from the customer's words only (R68 to R85, R174 to R184).
//! Its words are the capacity in kbit/s and, for each leaf that asks for another rate, CLASS=REQUEST; the plan comes from standard input.
//! It prints `rate` class request gets unallotted for each class, or `stop` number place; of bad words it says one line on standard error.
//! It is slow and plain on purpose: F is found in exact fractions, and R70 to R85 are then checked one by one on what came out.
//! Build: rustc -O --edition 2021 rates.rs; test: rustc -O --edition 2021 --test rates.rs -o rates_test

#[path = "plan.rs"]
mod plan;

use plan::*;
use std::io::Write;
use std::os::unix::ffi::OsStringExt;

/// "a table of 64 entries by class number".
const NUMBERS: usize = 64;
/// "a capacity (1 to 1,000,000,000 kbit/s) and a request per leaf (0 to the same)".
const MOST_RATE: u64 = 1_000_000_000;
/// Where a class has no more than this, every whole number up to it is tried for F.
const TRY_ALL: u64 = 20_000;

// ---------------------------------------------------------------------------------------------
// The words.

/// What the words ask: the capacity, and the last request named for each class number.
#[derive(Clone, PartialEq, Eq, Debug)]
struct Asked {
    capacity: u64,
    named: [Option<u64>; NUMBERS],
}

/// A bad word: its place among the words, counted from 1, and what was expected there. No word at all is a bad first word.
#[derive(Clone, PartialEq, Eq, Debug)]
struct Bad {
    word: usize,
    expected: &'static str,
}

/// "one or more digits", "leading zeros count for nothing", and below 2 to the power 64.
fn number_of(digits: &[u8]) -> Option<u64> {
    if digits.is_empty() || !digits.iter().all(|byte| byte.is_ascii_digit()) {
        return None;
    }
    digits.iter().try_fold(0u64, |number, &digit| number.checked_mul(10)?.checked_add(u64::from(digit - b'0')))
}

/// "digits, `=`, digits"; the class is at most 63.
fn class_and_request(word: &[u8]) -> Option<(usize, u64)> {
    let sign = word.iter().position(|&byte| byte == b'=')?;
    let class = number_of(&word[..sign])?;
    let request = number_of(&word[sign + 1..])?;
    if class < NUMBERS as u64 {
        Some((class as usize, request))
    } else {
        None
    }
}

/// Judges all words in turn; "A class named twice: the last word counts."
fn judge(words: &[Vec<u8>]) -> Result<Asked, Bad> {
    let bad_capacity = Bad { word: 1, expected: "the capacity in kbit/s, digits alone, below 2 to the power 64" };
    let Some(capacity) = words.first().and_then(|word| number_of(word)) else {
        return Err(bad_capacity);
    };
    let mut named = [None; NUMBERS];
    for (position, word) in words.iter().enumerate().skip(1) {
        let Some((class, request)) = class_and_request(word) else {
            let expected = "CLASS=REQUEST, digits on both sides, a class from 0 to 63, a request below 2 to the power 64";
            return Err(Bad { word: position + 1, expected });
        };
        named[class] = Some(request);
    }
    Ok(Asked { capacity, named })
}

/// The table of requests: "A leaf that no word names requests the capacity".
fn table_of(asked: &Asked) -> [u64; NUMBERS] {
    asked.named.map(|request| request.unwrap_or(asked.capacity))
}

// ---------------------------------------------------------------------------------------------
// The rule.

/// The answer: a refusal or none, and for each class number what it gets and what stays unallotted at it.
#[derive(Clone, PartialEq, Eq, Debug)]
struct Answer {
    refusal: Option<Refusal>,
    gets: [u64; NUMBERS],
    unallotted: [u64; NUMBERS],
}

/// "a refusal allots 0 everywhere".
fn refused(number: usize, place: usize) -> Answer {
    Answer { refusal: Some(Refusal { number, place }), gets: [0; NUMBERS], unallotted: [0; NUMBERS] }
}

/// Whether `above` is the class itself or lies on the way from it to the root.
fn is_above(tree: &Tree, above: usize, class: usize) -> bool {
    let mut at = class;
    while at != above && at != ROOT {
        at = tree.classes[at].parent;
    }
    at == above
}

/// What a class requests: a leaf its entry of the table, and "An inner class requests the sum of its leaves"; the root's is the total.
fn request_of(tree: &Tree, table: &[u64; NUMBERS], class: usize) -> u64 {
    let leaves = (1..tree.classes.len()).filter(|&leaf| tree.is_leaf(leaf) && is_above(tree, class, leaf));
    leaves.fold(0, |sum, leaf| add(sum, table[leaf]))
}

/// What a child asks of its parent: its request and its weight.
#[derive(Clone, Copy)]
struct Child {
    request: u128,
    weight: u128,
}

/// The children of a class as they ask.
fn asking(tree: &Tree, table: &[u64; NUMBERS], class: usize) -> Vec<Child> {
    let child = |c: usize| Child { request: request_of(tree, table, c).into(), weight: tree.classes[c].weight.into() };
    tree.children(class).into_iter().map(child).collect()
}

/// F of a class whose request is not met, in exact fractions and without a search: the level is what is left over the weights of those
/// who still ask; whoever asks for no more than weight × level is served in full and leaves, which lifts the level for the others; where
/// nobody leaves any more, that is the level at which all is given away, and the largest whole number not above it is F.
fn level_rounded_down(children: &[Child], has: u64) -> u64 {
    let mut asking = children.to_vec();
    let mut left = u128::from(has);
    loop {
        let weights: u128 = asking.iter().map(|child| child.weight).sum();
        assert!(weights > 0, "nobody asks any more, so the request was met");
        // request at most weight × left / weights, without the division
        let (served, others): (Vec<Child>, Vec<Child>) =
            asking.into_iter().partition(|child| child.request * weights <= child.weight * left);
        if served.is_empty() {
            return u64::try_from(left / weights).expect("F overflows");
        }
        left -= served.iter().map(|child| child.request).sum::<u128>();
        asking = others;
    }
}

/// Which rates the plan gives. "Refusals: 11 .., 20 .., 21 ..; in this order".
fn allot(tree: &Tree, capacity: u64, table: &[u64; NUMBERS]) -> Answer {
    // 11: "a tree that breaks the plan rules"
    if !obeys_plan_rules(tree) {
        return refused(11, 0);
    }
    // 20: "capacity out of range, place 0"
    if capacity < 1 || capacity > MOST_RATE {
        return refused(20, 0);
    }
    // 21: "a request out of range, at the lowest-numbered such leaf"
    if let Some(leaf) = (1..tree.classes.len()).find(|&c| tree.is_leaf(c) && table[c] > MOST_RATE) {
        return refused(21, leaf);
    }
    let mut answer = Answer { refusal: None, gets: [0; NUMBERS], unallotted: [0; NUMBERS] };
    // "The root has the smaller of capacity and total request."
    answer.gets[ROOT] = capacity.min(request_of(tree, table, ROOT));
    // A parent has a lower number, so what a class has is known when its turn comes.
    for class in 0..tree.classes.len() {
        if !tree.is_leaf(class) {
            share_out(tree, table, class, &mut answer);
        }
    }
    answer
}

/// Shares out what the root or an inner class has among its children.
fn share_out(tree: &Tree, table: &[u64; NUMBERS], class: usize, answer: &mut Answer) {
    let has = answer.gets[class];
    let met = request_of(tree, table, class) == has;
    let f = if met { 0 } else { level_rounded_down(&asking(tree, table, class), has) };
    let mut left = has;
    for child in tree.children(class) {
        let request = request_of(tree, table, child);
        // "A class whose request is met meets all its children's. Otherwise .. each child gets that minimum."
        let gets = if met { request } else { request.min(mul(tree.classes[child].weight, f)) };
        answer.gets[child] = gets;
        left = sub(left, gets);
    }
    answer.unallotted[class] = left;
}

// ---------------------------------------------------------------------------------------------
// The check: R70 to R85 one by one on what came out. A sentence that does not hold ends the program.

/// What was met on the way; it has no part in the lines.
#[derive(Default)]
struct Counts {
    root_unmet: u64,
    classes_unmet: u64,
    leaves_met: u64,
    leaves_unmet: u64,
    zero_f: u64,
    largest_f: u64,
    tried_all: u64,
    left_over: u64,
    cut_by_rounding: u64,
}

/// Whether "the children's min(request, weight × F) add to at most what the class has".
fn fits(children: &[Child], has: u64, f: u128) -> bool {
    children.iter().map(|child| child.request.min(child.weight * f)).sum::<u128>() <= u128::from(has)
}

/// Checks a whole answer and counts.
fn check(tree: &Tree, capacity: u64, table: &[u64; NUMBERS], answer: &Answer) -> Counts {
    let mut counts = Counts::default();
    check_table_is_read_at_leaves_only(tree, capacity, table, answer);
    if let Some(refusal) = answer.refusal {
        check_refusal(tree, capacity, table, answer, refusal);
        return counts;
    }
    assert!(obeys_plan_rules(tree) && (1..=MOST_RATE).contains(&capacity), "an answer where a refusal is due");
    let all = tree.classes.len();
    let requests: Vec<u64> = (0..all).map(|class| request_of(tree, table, class)).collect();
    assert!((1..all).all(|c| !tree.is_leaf(c) || table[c] <= MOST_RATE), "an answer where 21 is due");
    assert_eq!(answer.gets[ROOT], capacity.min(requests[ROOT]), "the root has the smaller of capacity and total request");
    for class in all..NUMBERS {
        assert_eq!((answer.gets[class], answer.unallotted[class]), (0, 0), "number {class} is no class and gets something");
    }
    for class in 0..all {
        assert!(answer.gets[class] <= requests[class], "class {class} gets more than it requests");
        if tree.is_leaf(class) {
            assert_eq!(requests[class], table[class], "leaf {class} requests its entry");
            assert_eq!(answer.unallotted[class], 0, "something stays unallotted at leaf {class}");
            counts.leaves_met += u64::from(answer.gets[class] == requests[class]);
            counts.leaves_unmet += u64::from(answer.gets[class] < requests[class]);
        } else {
            check_parent_class(tree, &requests, class, answer, &mut counts);
        }
    }
    let leaves = (0..all).filter(|&c| tree.is_leaf(c)).fold(0, |sum, c| add(sum, answer.gets[c]));
    let leftovers = (0..all).fold(0, |sum, c| add(sum, answer.unallotted[c]));
    assert_eq!(add(leaves, leftovers), answer.gets[ROOT], "all allotments to leaves and leftovers add to what the root has");
    counts.root_unmet = u64::from(answer.gets[ROOT] < requests[ROOT]);
    counts.left_over = leftovers;
    counts
}

/// "in a table of 64 entries by class number of which only the leaves' are read": any other entries give the same answer.
fn check_table_is_read_at_leaves_only(tree: &Tree, capacity: u64, table: &[u64; NUMBERS], answer: &Answer) {
    for other in [0, 1, MOST_RATE + 1, u64::MAX] {
        let mut changed = *table;
        for class in (0..NUMBERS).filter(|&class| !tree.is_leaf(class)) {
            changed[class] = other;
        }
        assert!(allot(tree, capacity, &changed) == *answer, "an entry that is no leaf's was read");
    }
}

/// A refusal is due, is the first one due, and allots nothing.
fn check_refusal(tree: &Tree, capacity: u64, table: &[u64; NUMBERS], answer: &Answer, refusal: Refusal) {
    let bad_tree = !obeys_plan_rules(tree);
    let bad_capacity = capacity == 0 || capacity > MOST_RATE;
    let bad_leaf = |c: usize| tree.is_leaf(c) && table[c] > MOST_RATE;
    let due = match (refusal.number, refusal.place) {
        (11, 0) => bad_tree,
        (20, 0) => !bad_tree && bad_capacity,
        (21, leaf) => !bad_tree && !bad_capacity && bad_leaf(leaf) && !(0..leaf).any(bad_leaf),
        _ => false,
    };
    assert!(due, "{refusal:?} is not due");
    assert!(answer.gets == [0; NUMBERS] && answer.unallotted == [0; NUMBERS], "a refusal allots something");
}

/// The sentences that speak of the root or an inner class and its children.
fn check_parent_class(tree: &Tree, requests: &[u64], class: usize, answer: &Answer, counts: &mut Counts) {
    let (has, left, below) = (answer.gets[class], answer.unallotted[class], tree.children(class));
    let sum = below.iter().fold(0, |sum, &c| add(sum, requests[c]));
    assert_eq!(requests[class], sum, "class {class} requests what its children request");
    let given = below.iter().fold(0, |sum, &c| add(sum, answer.gets[c]));
    assert_eq!(add(given, left), has, "what class {class} hands down and keeps is what it has");
    let unmet: Vec<usize> = below.iter().copied().filter(|&c| answer.gets[c] < requests[c]).collect();
    if has == requests[class] {
        assert!(unmet.is_empty(), "class {class} is met and child {unmet:?} is not");
        assert_eq!(left, 0, "class {class} is met and something stays unallotted");
        return;
    }
    let weights = unmet.iter().fold(0, |sum, &c| add(sum, tree.classes[c].weight));
    assert!(left < weights, "class {class}: {left} unallotted is not less than the weight sum {weights} of its unmet children");
    let child = |&c: &usize| Child { request: requests[c].into(), weight: tree.classes[c].weight.into() };
    let children: Vec<Child> = below.iter().map(child).collect();
    // Any unmet child gets exactly weight × F, and there is one, so F can be read from what it gets.
    let f = answer.gets[unmet[0]] / tree.classes[unmet[0]].weight;
    assert!(fits(&children, has, f.into()), "class {class}: {f} does not fit");
    assert!(!fits(&children, has, u128::from(f) + 1), "class {class}: {f} is not the largest, one more fits");
    assert!(f <= has, "class {class}: F {f} is more than it has");
    // An inner class weighs at least as much as its children, so only what has nothing, or the root, hands down nothing.
    assert!(f > 0 || has == 0 || class == ROOT, "class {class}: F is 0 below a root that hands something down");
    for &child in &below {
        let share = mul(tree.classes[child].weight, f);
        assert_eq!(answer.gets[child], requests[child].min(share), "child {child} gets the smaller of request and weight × F");
    }
    for (&one, &other) in unmet.iter().zip(unmet.iter().skip(1)) {
        let (a, b) = (mul(answer.gets[one], tree.classes[other].weight), mul(answer.gets[other], tree.classes[one].weight));
        assert_eq!(a, b, "unmet siblings {one} and {other} get the same per unit of weight");
    }
    if has <= TRY_ALL {
        let largest = (0..=u128::from(has) + 1).filter(|&f| fits(&children, has, f)).max();
        assert_eq!(largest, Some(f.into()), "class {class}: F among all whole numbers up to what it has and one more");
        counts.tried_all += 1;
    }
    counts.classes_unmet += 1;
    counts.zero_f += u64::from(f == 0);
    counts.largest_f = counts.largest_f.max(f);
    let cut = |&c: &usize| served_exactly(&children, has, requests[c], tree.classes[c].weight);
    counts.cut_by_rounding += u64::from(unmet.iter().any(cut));
}

/// Whether exact fractions would serve this child in full, so that only the rounding leaves it unmet.
fn served_exactly(children: &[Child], has: u64, request: u64, weight: u64) -> bool {
    // At the level request / weight, all shares times `weight`; they fit exactly when the child is served at that level.
    let (request, weight) = (u128::from(request), u128::from(weight));
    children.iter().map(|child| (child.request * weight).min(child.weight * request)).sum::<u128>() <= u128::from(has) * weight
}

// ---------------------------------------------------------------------------------------------
// The program.

/// What the program prints for good words, and the counts.
fn lines_of(asked: &Asked, input: &[u8]) -> (Vec<String>, Counts, Option<Tree>) {
    let stop = |refusal: Refusal| vec![format!("stop {} {}", refusal.number, refusal.place)];
    // "10 before all else"
    if input.len() > MOST_INPUT {
        return (stop(Refusal { number: 10, place: MOST_INPUT }), Counts::default(), None);
    }
    // "then the plan's number"; "Bytes after the end record are not looked at."
    let tree = match read_plan(input) {
        Ok((tree, _)) => tree,
        Err(refusal) => return (stop(refusal), Counts::default(), None),
    };
    // "then 20, then 21"
    let table = table_of(asked);
    let answer = allot(&tree, asked.capacity, &table);
    let counts = check(&tree, asked.capacity, &table, &answer);
    if let Some(refusal) = answer.refusal {
        assert!(refusal.number == 20 || refusal.number == 21, "a plan that was read is refused with {refusal:?}");
        return (stop(refusal), counts, Some(tree));
    }
    // "one line for each class from 0 to the last"
    let line = |class: usize| {
        let request = request_of(&tree, &table, class);
        format!("rate {class} {request} {} {}", answer.gets[class], answer.unallotted[class])
    };
    let lines = (0..tree.classes.len()).map(line).collect();
    (lines, counts, Some(tree))
}

/// The counts as `name=number` words in one line.
fn counts_line(words: &[Vec<u8>], asked: &Asked, lines: &[String], counts: &Counts, tree: &Option<Tree>) -> String {
    let stop = lines[0].strip_prefix("stop ").and_then(|rest| rest.split(' ').next()).unwrap_or("0");
    let no_leaf = |class: usize| tree.as_ref().is_some_and(|tree| !tree.is_leaf(class));
    let wild = (0..NUMBERS).filter(|&class| asked.named[class].is_some() && no_leaf(class)).count();
    let named = asked.named.iter().flatten().count();
    let zeros = words.iter().any(|word| word.len() > 1 && word[0] == b'0' && word[1] != b'=');
    let (classes, depth) = tree.as_ref().map_or((0, 0), |tree| (tree.count(), tree.depth()));
    let table = table_of(asked);
    let wrong = tree.as_ref().map_or(0, |tree| (1..=classes).filter(|&c| tree.is_leaf(c) && table[c] > MOST_RATE).count());
    let weights = |tree: &Tree, class: usize| tree.children(class).iter().map(|&c| tree.classes[c].weight).collect::<Vec<u64>>();
    let below = tree.as_ref().is_some_and(|tree| weights(tree, ROOT).iter().all(|&weight| asked.capacity < weight));
    let extremes = |tree: &Tree, class| weights(tree, class).contains(&1) && weights(tree, class).contains(&MOST_WEIGHT);
    let beside = tree.as_ref().is_some_and(|tree| (0..=classes).any(|class| extremes(tree, class)));
    [
        format!("bad=0 words={} stop={stop} wild={wild} twice={}", words.len(), words.len() - 1 - named),
        format!("zeros={} capacity={} classes={classes} depth={depth}", u64::from(zeros), asked.capacity),
        format!("root_unmet={} classes_unmet={}", counts.root_unmet, counts.classes_unmet),
        format!("leaves_met={} leaves_unmet={}", counts.leaves_met, counts.leaves_unmet),
        format!("zero_f={} largest_f={} tried_all={}", counts.zero_f, counts.largest_f, counts.tried_all),
        format!("left_over={} cut_by_rounding={}", counts.left_over, counts.cut_by_rounding),
        format!("wrong_leaves={wrong} below_every_weight={} extremes_beside={}", u64::from(below), u64::from(beside)),
    ]
    .join(" ")
}

/// With RATES_COUNTS=FILE the counts go to that file.
fn write_counts(line: &str) -> std::io::Result<()> {
    match std::env::var_os("RATES_COUNTS") {
        Some(file) => std::fs::write(file, format!("{line}\n")),
        None => Ok(()),
    }
}

/// One line on standard error "that names the first such word and what was expected"; a byte that is no sign of print is shown as `?`.
fn say_bad(words: &[Vec<u8>], bad: &Bad) -> std::io::Result<()> {
    let mut line = b"rates: ".to_vec();
    match words.get(bad.word - 1) {
        Some(word) => {
            line.extend(format!("word {} is '", bad.word).bytes());
            line.extend(word.iter().map(|&byte| if byte < 32 || byte == 127 { b'?' } else { byte }));
            line.extend(b"'");
        }
        None => line.extend(b"no word"),
    }
    line.extend(format!("; expected: {}\n", bad.expected).bytes());
    std::io::stderr().write_all(&line)?;
    write_counts(&format!("bad={} words={}", bad.word, words.len()))
}

/// Judges the words, "before input is read", then reads, works out, prints.
fn run(words: &[Vec<u8>]) -> std::io::Result<()> {
    let asked = match judge(words) {
        Ok(asked) => asked,
        Err(bad) => return say_bad(words, &bad),
    };
    let input = read_input()?;
    let (lines, counts, tree) = lines_of(&asked, &input);
    let mut standard_output = std::io::stdout();
    standard_output.write_all((lines.join("\n") + "\n").as_bytes())?;
    standard_output.flush()?;
    write_counts(&counts_line(words, &asked, &lines, &counts, &tree))
}

/// Input or output that fails ends with 1, a failed assertion (its message is on standard error) with 2, all else with 0, bad words too.
fn main() {
    let words: Vec<Vec<u8>> = std::env::args_os().skip(1).map(|word| word.into_vec()).collect();
    match std::panic::catch_unwind(|| run(&words)) {
        Ok(Ok(())) => {}
        Ok(Err(_)) => std::process::exit(1),
        Err(_) => std::process::exit(2),
    }
}

// ---------------------------------------------------------------------------------------------
// Cases worked out by hand.

#[cfg(test)]
mod tests {
    use super::*;

    /// A tree from its classes: parent, weight, and whether it is a leaf.
    fn tree_of(classes: &[(usize, u64, bool)]) -> Tree {
        let mut tree = Tree::without_classes();
        for &(parent, weight, leaf) in classes {
            let (sort, longest) = if leaf { (Sort::Leaf, 10) } else { (Sort::Inner, 0) };
            tree.classes.push(Class { sort, parent, weight, longest });
        }
        tree
    }

    /// Tree P.
    fn tree_p() -> Tree {
        tree_of(&[(0, 3, false), (1, 1, true), (1, 2, true), (0, 4, true)])
    }

    /// The lines for tree P and some words.
    fn lines_p(words: &[&str]) -> Vec<String> {
        let input = &include_bytes!("tree_p.bin")[..31];
        assert_eq!(read_plan(input), Ok((tree_p(), 31)));
        lines_of(&judged(words).unwrap(), input).0
    }

    /// What the words are judged to be.
    fn judged(words: &[&str]) -> Result<Asked, Bad> {
        judge(&words.iter().map(|word| word.as_bytes().to_vec()).collect::<Vec<_>>())
    }

    /// What each class of a tree gets, checked.
    fn gets(tree: &Tree, capacity: u64, named: &[(usize, u64)]) -> Vec<u64> {
        let mut table = [capacity; NUMBERS];
        for &(class, request) in named {
            table[class] = request;
        }
        let answer = allot(tree, capacity, &table);
        check(tree, capacity, &table, &answer);
        assert_eq!(answer.refusal, None);
        answer.gets[..tree.classes.len()].to_vec()
    }

    /// The refusal of a call, checked.
    fn refusal(tree: &Tree, capacity: u64, table: &[u64; NUMBERS]) -> (usize, usize) {
        let answer = allot(tree, capacity, table);
        check(tree, capacity, table, &answer);
        answer.refusal.map(|refusal| (refusal.number, refusal.place)).unwrap()
    }

    #[test]
    fn lines_of_tree_p() {
        assert_eq!(lines_p(&["100"]), ["rate 0 300 100 2", "rate 1 200 42 0", "rate 2 100 14 0", "rate 3 100 28 0", "rate 4 100 56 0"]);
        assert_eq!(lines_p(&["5"]), ["rate 0 15 5 5", "rate 1 10 0 0", "rate 2 5 0 0", "rate 3 5 0 0", "rate 4 5 0 0"]);
        let shared = ["rate 0 125 100 2", "rate 1 105 78 1", "rate 2 5 5 0", "rate 3 100 72 0", "rate 4 20 20 0"];
        assert_eq!(lines_p(&["100", "4=20", "2=5"]), shared);
        assert_eq!(lines_p(&["00100", "2=1", "04=020", "2=5"]), shared);
        assert_eq!(lines_p(&["0"]), ["stop 20 0"]);
        assert_eq!(lines_p(&["1000000001", "2=1000000001"]), ["stop 20 0"]);
        assert_eq!(lines_p(&["1000000000", "4=1000000001", "3=18446744073709551615"]), ["stop 21 3"]);
        assert_eq!(lines_p(&["100", "1=18446744073709551615", "0=7", "5=18446744073709551615", "63=9"]), lines_p(&["100"]));
    }

    #[test]
    fn rates_by_hand() {
        // The camera alone asks: it gets all it asks for, and nothing stays.
        assert_eq!(gets(&tree_p(), 100, &[(2, 0), (3, 0), (4, 60)]), [60, 0, 0, 0, 60]);
        // Leaf 4 asks for less than its share of 100: class 1 has 3 × 26 of the other 80, and 2 stay at the root.
        assert_eq!(gets(&tree_p(), 100, &[(4, 20)]), [100, 78, 26, 52, 20]);
        // Leaf 2 asks for less than its share of those 78: F is 36 there, and 1 stays at class 1.
        assert_eq!(gets(&tree_p(), 100, &[(4, 20), (2, 5)]), [100, 78, 5, 72, 20]);
        // One leaf; 63 leaves; weights of 1,000,000 beside 1.
        assert_eq!(gets(&tree_of(&[(0, 1, true)]), 1, &[]), [1, 1]);
        assert_eq!(gets(&tree_of(&[(0, 7, true)]), 20, &[(1, 21)]), [20, 14]);
        let flat = tree_of(&[(0, 1, true); 63]);
        assert_eq!(gets(&flat, 1_000_000_000, &[])[1..], [15_873_015; 63]);
        let uneven = tree_of(&[(0, 1_000_000, true), (0, 1, true)]);
        assert_eq!(gets(&uneven, 1_000_000_000, &[]), [1_000_000_000, 999_000_000, 999]);
        assert_eq!(gets(&uneven, 1_000_000, &[]), [1_000_000, 0, 0]);
        assert_eq!(gets(&uneven, 1_000_001, &[]), [1_000_001, 1_000_000, 1]);
    }

    #[test]
    fn refusals_in_order() {
        let broken = tree_of(&[(0, 3, false)]);
        assert_eq!(refusal(&broken, 0, &[u64::MAX; NUMBERS]), (11, 0));
        assert_eq!(refusal(&Tree::without_classes(), 1, &[0; NUMBERS]), (11, 0));
        assert_eq!(refusal(&tree_p(), 0, &[u64::MAX; NUMBERS]), (20, 0));
        assert_eq!(refusal(&tree_p(), 1_000_000_001, &[0; NUMBERS]), (20, 0));
        assert_eq!(refusal(&tree_p(), 1_000_000_000, &[1_000_000_001; NUMBERS]), (21, 2));
    }

    #[test]
    fn words() {
        assert_eq!(judged(&[]).unwrap_err().word, 1);
        for word in ["", "+1", "-1", "1,0", " 1", "1 ", "0x1", "18446744073709551616", "1=1", "=", "\u{661}"] {
            assert_eq!(judged(&[word, "x"]).unwrap_err().word, 1, "{word}");
        }
        let too_large = ["64=1", "1=18446744073709551616", "18446744073709551617=1"];
        for word in ["", "1", "=", "1=", "=1", "1=1=1", "1=-1", "+1=1", "1=1,"].into_iter().chain(too_large) {
            assert_eq!(judged(&["1", "2=2", word, "x"]).unwrap_err().word, 3, "{word}");
        }
        let asked = judged(&["00018446744073709551615", "063=0", "0=00", "63=18446744073709551615"]).unwrap();
        assert_eq!((asked.capacity, asked.named[0], asked.named[1], asked.named[63]), (u64::MAX, Some(0), None, Some(u64::MAX)));
    }
}
