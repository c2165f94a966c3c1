//! The class tree, the plan reader, the refusals and the reading of standard input: what the programs that take a plan share.
//! Written from the customer's words only, which it quotes (docs/rules.md: R4 to R67); each program uses a part of it.
#![allow(dead_code)]

use std::io::Read;
use std::os::fd::AsFd;

/// "Others are numbered 1, 2, .. in plan order, at most 63".
pub const MOST_CLASSES: usize = 63;
/// "a weight from 1 to 1,000,000".
pub const MOST_WEIGHT: u64 = 1_000_000;
/// "A leaf has a longest packet, 1 to 9,216 bytes".
pub const MOST_LONGEST: u64 = 9_216;
/// "the program's input exceeds 65,536 bytes".
pub const MOST_INPUT: usize = 65_536;
/// R14: lengths come "without the frame check sequence. On Ethernet (IEEE 802.3) that adds 4 bytes".
pub const CHECK_SEQUENCE: u64 = 4;
/// R14: "frames are padded to 64".
pub const LEAST_FRAME: u64 = 64;
/// R14: "preamble, start delimiter and interframe gap take 20 more".
pub const AROUND_FRAME: u64 = 20;
/// "Class 0 is the root".
pub const ROOT: usize = 0;
/// "selects rule 1, whole tree, or rule 2, active classes; a plan without it uses rule 1".
pub const WHOLE_TREE: u64 = 1;
pub const ACTIVE_CLASSES: u64 = 2;

// ---------------------------------------------------------------------------------------------
// Arithmetic that ends the program on a contradiction instead of wrapping round.

/// Adds two numbers; no sum of the rules may overflow.
pub fn add(a: u64, b: u64) -> u64 {
    a.checked_add(b).expect("a sum overflows")
}

/// Subtracts; no balance of the rules may fall below 0.
pub fn sub(a: u64, b: u64) -> u64 {
    a.checked_sub(b).expect("a balance would fall below 0")
}

/// Multiplies; weight times quota is never more than Q.
pub fn mul(a: u64, b: u64) -> u64 {
    a.checked_mul(b).expect("a product overflows")
}

/// Divides and rounds down; an active class always has an active child, so the weight sum isn't 0.
pub fn div(a: u64, b: u64) -> u64 {
    a.checked_div(b).expect("a weight sum is 0")
}

// ---------------------------------------------------------------------------------------------
// What a packet costs.

/// R15: "The charge is therefore the larger of length + 4 and 64, plus 20."
pub fn charge(length: u64) -> u64 {
    add(add(length, CHECK_SEQUENCE).max(LEAST_FRAME), AROUND_FRAME)
}

// ---------------------------------------------------------------------------------------------
// Refusals: "Numbers a crew can act on".

/// A refusal's number and its place, as in the table.
#[derive(Clone, Copy, PartialEq, Eq, Debug)]
pub struct Refusal {
    pub number: usize,
    pub place: usize,
}

/// Makes a refusal as an error, to be handed on by `?`.
pub fn refuse<T>(number: usize, place: usize) -> Result<T, Refusal> {
    Err(Refusal { number, place })
}

// ---------------------------------------------------------------------------------------------
// The class tree.

/// The three sorts of class that the rules tell apart (R21, R23).
#[derive(Clone, Copy, PartialEq, Eq, Debug)]
pub enum Sort {
    Root,
    Inner,
    Leaf,
}

/// One class; "what a plan does not set .. is 0".
#[derive(Clone, PartialEq, Eq, Debug)]
pub struct Class {
    pub sort: Sort,
    pub parent: usize,
    pub weight: u64,
    pub longest: u64,
}

/// The tree: position 0 is the root, position c is class c; and the plan's rule for the round size, which is no class.
#[derive(Clone, PartialEq, Eq, Debug)]
pub struct Tree {
    pub classes: Vec<Class>,
    pub rule: u64,
}

impl Tree {
    /// A tree without classes: the root alone, "the root has no weight"; "a plan without it uses rule 1".
    pub fn without_classes() -> Tree {
        Tree { classes: vec![Class { sort: Sort::Root, parent: 0, weight: 0, longest: 0 }], rule: WHOLE_TREE }
    }

    /// How many classes the plan named; the root is not counted ("link 4 262" for tree P).
    pub fn count(&self) -> usize {
        self.classes.len() - 1
    }

    /// Whether this number is "a leaf of the plan".
    pub fn is_leaf(&self, class: usize) -> bool {
        class < self.classes.len() && self.classes[class].sort == Sort::Leaf
    }

    /// Whether this number is an inner class; the root is not one.
    pub fn is_inner(&self, class: usize) -> bool {
        class < self.classes.len() && self.classes[class].sort == Sort::Inner
    }

    /// All children of a class, found by a scan of all classes.
    pub fn children(&self, parent: usize) -> Vec<usize> {
        (1..self.classes.len()).filter(|&c| self.classes[c].parent == parent).collect()
    }

    /// R38: "The round size Q is the sum of all weights plus the sum of all leaves' longest packets", and "Q adds the charge of
    /// each longest packet".
    pub fn round_size(&self) -> u64 {
        let mut size = 0;
        for class in &self.classes {
            size = add(size, class.weight);
            if class.sort == Sort::Leaf {
                size = add(size, charge(class.longest));
            }
        }
        size
    }

    /// How many steps the deepest class lies below the root (for the counts only).
    pub fn depth(&self) -> usize {
        let mut depths = vec![0; self.classes.len()];
        for class in 1..self.classes.len() {
            depths[class] = depths[self.classes[class].parent] + 1;
        }
        depths.into_iter().max().unwrap_or(0)
    }
}

/// Refusal 4: "parent not lower than the class, or a leaf".
pub fn check_parent(tree: &Tree, class: usize, parent: usize, place: usize) -> Result<(), Refusal> {
    if parent >= class || tree.is_leaf(parent) {
        return refuse(4, place);
    }
    Ok(())
}

/// Refusal 5: "weight outside its range", 1 to 1,000,000.
pub fn check_weight(weight: u64, place: usize) -> Result<(), Refusal> {
    if weight < 1 || weight > MOST_WEIGHT {
        return refuse(5, place);
    }
    Ok(())
}

/// Refusal 6: "longest outside its range", 1 to 9,216; only a leaf has one.
pub fn check_longest(longest: u64, place: usize) -> Result<(), Refusal> {
    if longest < 1 || longest > MOST_LONGEST {
        return refuse(6, place);
    }
    Ok(())
}

/// Refusal 17: "rule byte not 1 or 2".
pub fn check_rule(rule: u64, place: usize) -> Result<(), Refusal> {
    if rule != WHOLE_TREE && rule != ACTIVE_CLASSES {
        return refuse(17, place);
    }
    Ok(())
}

/// Refusal 9: "no class at all".
pub fn check_any_class(tree: &Tree) -> Result<(), Refusal> {
    if tree.count() == 0 {
        return refuse(9, 0);
    }
    Ok(())
}

/// Refusal 8: "inner class without a child".
pub fn check_has_child(tree: &Tree, class: usize) -> Result<(), Refusal> {
    if tree.is_inner(class) && tree.children(class).is_empty() {
        return refuse(8, class);
    }
    Ok(())
}

/// Refusal 7: "children's weights exceed their inner parent's".
pub fn check_shares(tree: &Tree, class: usize) -> Result<(), Refusal> {
    let sum = tree.children(class).iter().fold(0, |sum, &c| add(sum, tree.classes[c].weight));
    if tree.is_inner(class) && sum > tree.classes[class].weight {
        return refuse(7, class);
    }
    Ok(())
}

/// "After the end record come 9, then class by class upward 8 and 7."
pub fn check_whole_tree(tree: &Tree) -> Result<(), Refusal> {
    check_any_class(tree)?;
    for class in 1..tree.classes.len() {
        check_has_child(tree, class)?;
        check_shares(tree, class)?;
    }
    Ok(())
}

/// Whether a tree, however it was made, obeys the plan rules (part of "A state is sound").
pub fn obeys_plan_rules(tree: &Tree) -> bool {
    let root = &tree.classes[ROOT];
    // "the root's parent and weight, the longest packet of the root .. is 0"
    if root.sort != Sort::Root || root.parent != 0 || root.weight != 0 || root.longest != 0 {
        return false;
    }
    if tree.count() > MOST_CLASSES || check_rule(tree.rule, 0).is_err() {
        return false;
    }
    for number in 1..tree.classes.len() {
        let class = &tree.classes[number];
        let longest_fits = match class.sort {
            Sort::Root => false,
            Sort::Inner => class.longest == 0,
            Sort::Leaf => check_longest(class.longest, 0).is_ok(),
        };
        if !longest_fits
            || check_parent(tree, number, class.parent, 0).is_err()
            || check_weight(class.weight, 0).is_err()
        {
            return false;
        }
    }
    check_whole_tree(tree).is_ok()
}

// ---------------------------------------------------------------------------------------------
// The plan's bytes.

/// "Numbers are big-endian."
pub fn big_endian(bytes: &[u8]) -> u64 {
    bytes.iter().fold(0, |number, &byte| add(mul(number, 256), byte as u64))
}

/// "The body of a record is the part after its kind byte"; cut inside a body: 1 at "the record's first byte".
pub fn body_of(input: &[u8], first: usize, length: usize) -> Result<&[u8], Refusal> {
    match input.get(first + 1..first + 1 + length) {
        Some(body) => Ok(body),
        None => refuse(1, first),
    }
}

/// Adds the class of one record to the tree; "A record is checked in the order 2, 1, 3, 4, 5, 6", where 17 and 18 "come after 1".
pub fn add_class(tree: &mut Tree, sort: Sort, body: &[u8], first: usize) -> Result<(), Refusal> {
    // 3: "a 64th class record"
    if tree.count() == MOST_CLASSES {
        return refuse(3, first);
    }
    let class = tree.count() + 1;
    let parent = big_endian(&body[0..1]) as usize;
    let weight = big_endian(&body[1..5]);
    check_parent(tree, class, parent, first)?;
    check_weight(weight, first)?;
    let mut longest = 0;
    if sort == Sort::Leaf {
        longest = big_endian(&body[5..7]);
        check_longest(longest, first)?;
    }
    tree.classes.push(Class { sort, parent, weight, longest });
    Ok(())
}

/// The rule of a record of kind 3: "Refusals: 17, rule byte not 1 or 2; 18, kind 3 anywhere but first. Both stand at the record's first byte
/// and come after 1, 18 before 17."
pub fn read_rule(body: &[u8], first: usize) -> Result<u64, Refusal> {
    // 18: "It must be the first record", and the first record stands at the input's first byte
    if first != 0 {
        return refuse(18, first);
    }
    let rule = big_endian(&body[0..1]);
    check_rule(rule, first)?;
    Ok(rule)
}

/// "A plan is class records and one end record; the reader says how many bytes it used."; before them may stand "A plan record of kind 3",
/// which names no class: it takes no class number, and it and the end record alone are "no class at all".
pub fn read_plan(input: &[u8]) -> Result<(Tree, usize), Refusal> {
    let (tree, used) = read_records(input)?;
    check_whole_tree(&tree)?;
    Ok((tree, used))
}

/// The records up to the end record and with it, each judged by itself; what comes "After the end record" is not judged.
pub fn read_records(input: &[u8]) -> Result<(Tree, usize), Refusal> {
    let mut tree = Tree::without_classes();
    let mut first = 0;
    loop {
        // "before the kind byte: the input's length"
        if first == input.len() {
            return refuse(1, input.len());
        }
        // "One byte of kind, then a body whose length the kind fixes."
        let length = match input[first] {
            0 => 0,
            1 => 5,
            2 => 7,
            // "A plan record of kind 3 with a one-byte body"
            3 => 1,
            _ => return refuse(2, first),
        };
        let body = body_of(input, first, length)?;
        match input[first] {
            0 => return Ok((tree, first + 1)),
            1 => add_class(&mut tree, Sort::Inner, body, first)?,
            2 => add_class(&mut tree, Sort::Leaf, body, first)?,
            _ => tree.rule = read_rule(body, first)?,
        }
        first = first + 1 + length;
    }
}

/// One event record; an arrival with its body.
pub enum Event<'a> {
    Arrival(&'a [u8]),
    Send,
}

/// The event at a place of the input; none where it ends there: "the end of input between events is its normal end".
pub fn event_at(input: &[u8], first: usize) -> Result<Option<Event<'_>>, Refusal> {
    if first >= input.len() {
        return Ok(None);
    }
    match input[first] {
        16 => Ok(Some(Event::Arrival(body_of(input, first, 7)?))),
        17 => Ok(Some(Event::Send)),
        // "0, 1 and 2 unknown among events", and kind 3 "is an unknown kind among events"
        _ => refuse(2, first),
    }
}

// ---------------------------------------------------------------------------------------------
// Standard input.

/// Reads "no more than 65,537 bytes": straight from the descriptor, as a buffered reader might take more from a pipe.
pub fn read_input() -> std::io::Result<Vec<u8>> {
    let standard_input = std::fs::File::from(std::io::stdin().as_fd().try_clone_to_owned()?);
    let mut input = Vec::new();
    standard_input.take(MOST_INPUT as u64 + 1).read_to_end(&mut input)?;
    Ok(input)
}

/// Reads all of standard input, for what has no limit.
pub fn read_all() -> std::io::Result<Vec<u8>> {
    let mut input = Vec::new();
    std::io::stdin().lock().read_to_end(&mut input)?;
    Ok(input)
}

// ---------------------------------------------------------------------------------------------
// The reader of events, and trees that no plan gives; second.rs has the plans.

#[cfg(test)]
mod tests {
    use super::*;

    /// The number and the place of a refused event, how long the body of an arrival is, or which of the other two it is.
    fn event(input: &[u8], first: usize) -> String {
        match event_at(input, first) {
            Ok(None) => "end".to_string(),
            Ok(Some(Event::Arrival(body))) => format!("arrival {}", body.len()),
            Ok(Some(Event::Send)) => "send".to_string(),
            Err(refusal) => format!("{} at {}", refusal.number, refusal.place),
        }
    }

    #[test]
    fn events() {
        let input = [17, 16, 4, 0, 10, 0, 0, 0, 4, 16, 4];
        assert_eq!([0, 1, 9, 11].map(|first| event(&input, first)), ["send", "arrival 7", "1 at 9", "end"]);
        for kind in (0..=255).filter(|kind| ![16, 17].contains(kind)) {
            assert_eq!(event(&[17, kind], 1), "2 at 1");
        }
    }

    #[test]
    fn kinds_of_a_plan() {
        for kind in (0..=255).filter(|kind| ![0, 1, 2, 3].contains(kind)) {
            assert_eq!(read_plan(&[kind]), refuse(2, 0));
        }
        assert_eq!(read_plan(&[3]), refuse(1, 0));
        assert_eq!(read_plan(&[1, 0, 0, 0, 0]), refuse(1, 0));
        assert_eq!(big_endian(&[0, 15, 66, 64]), 1_000_000);
    }

    #[test]
    fn trees_that_no_plan_gives() {
        let leaf = Class { sort: Sort::Leaf, parent: 0, weight: 1, longest: 1 };
        let breaks: [fn(&mut Tree); 8] = [
            |t| t.rule = 0,
            |t| t.rule = 3,
            |t| t.classes[ROOT].weight = 1,
            |t| t.classes[ROOT].longest = 1,
            |t| t.classes[1].longest = 1,
            |t| t.classes[2].parent = 2,
            |t| t.classes[2].weight = 4,
            |t| t.classes[2].sort = Sort::Inner,
        ];
        let mut tree = Tree::without_classes();
        assert!(!obeys_plan_rules(&tree));
        tree.classes.push(Class { sort: Sort::Inner, parent: 0, weight: 3, longest: 0 });
        tree.classes.push(Class { parent: 1, ..leaf });
        assert!(obeys_plan_rules(&tree));
        assert_eq!(tree.round_size(), 3 + 1 + 84);
        assert!(obeys_plan_rules(&Tree { rule: ACTIVE_CLASSES, ..tree.clone() }));
        for broken in breaks {
            let mut tree = tree.clone();
            broken(&mut tree);
            assert!(!obeys_plan_rules(&tree));
        }
    }
}
