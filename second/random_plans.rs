//! Random numbers, random trees, their plans as bytes, and damaged plans: what the generators of this folder share.
//! Each generator uses a part of it.
#![allow(dead_code)]

/// "at most 63".
pub const MOST_CLASSES: usize = 63;
/// "a weight from 1 to 1,000,000".
pub const MOST_WEIGHT: u64 = 1_000_000;
/// "1 to 9,216 bytes".
pub const MOST_LONGEST: u64 = 9_216;
/// "the program's input exceeds 65,536 bytes".
pub const MOST_INPUT: usize = 65_536;
/// How many tree shapes `shape_of` knows.
pub const SHAPES: u64 = 13;
/// How many plan faults `damaged_plan` knows.
pub const PLAN_FAULTS: u64 = 38;
/// The faults from this one on are those of the record of kind 3.
pub const RULE_FAULTS: u64 = 31;

// ---------------------------------------------------------------------------------------------
// Random numbers.

/// splitmix64: small, and good for any seed, 0 too.
pub struct Random {
    pub state: u64,
}

impl Random {
    /// The next 64 random bits.
    pub fn next(&mut self) -> u64 {
        self.state = self.state.wrapping_add(0x9E37_79B9_7F4A_7C15);
        let mut z = self.state;
        z = (z ^ (z >> 30)).wrapping_mul(0xBF58_476D_1CE4_E5B9);
        z = (z ^ (z >> 27)).wrapping_mul(0x94D0_49BB_1331_11EB);
        z ^ (z >> 31)
    }

    /// A number from `low` to `high`, both taken in.
    pub fn from_to(&mut self, low: u64, high: u64) -> u64 {
        assert!(low <= high);
        low + self.next() % (high - low + 1)
    }

    /// True in so many of 100 cases.
    pub fn chance(&mut self, percent: u64) -> bool {
        self.next() % 100 < percent
    }

    /// One of a list.
    pub fn pick<T: Copy>(&mut self, list: &[T]) -> T {
        list[(self.next() % list.len() as u64) as usize]
    }
}

// ---------------------------------------------------------------------------------------------
// Trees.

/// One class; position 0 of a tree is the root.
#[derive(Clone)]
pub struct Class {
    pub leaf: bool,
    pub parent: usize,
    pub weight: u64,
    pub longest: u64,
}

pub type Tree = Vec<Class>;

/// A tree with the root alone.
pub fn root_alone() -> Tree {
    vec![Class { leaf: false, parent: 0, weight: 0, longest: 0 }]
}

/// Adds a class and gives its number.
pub fn grow(tree: &mut Tree, leaf: bool, parent: usize) -> usize {
    tree.push(Class { leaf, parent, weight: 0, longest: 0 });
    tree.len() - 1
}

/// Flat: so many leaves under the root.
pub fn flat(leaves: usize) -> Tree {
    let mut tree = root_alone();
    for _ in 0..leaves {
        grow(&mut tree, true, 0);
    }
    tree
}

/// A chain of so many inner classes above one leaf.
pub fn chain(inner: usize) -> Tree {
    let mut tree = root_alone();
    let mut parent = 0;
    for _ in 0..inner {
        parent = grow(&mut tree, false, parent);
    }
    grow(&mut tree, true, parent);
    tree
}

/// A chain of inner classes with a leaf beside each.
pub fn comb(inner: usize) -> Tree {
    let mut tree = root_alone();
    let mut parent = 0;
    for _ in 0..inner {
        grow(&mut tree, true, parent);
        parent = grow(&mut tree, false, parent);
    }
    grow(&mut tree, true, parent);
    tree
}

/// Two levels: inner classes under the root, leaves under each.
pub fn two_levels(random: &mut Random) -> Tree {
    let mut tree = root_alone();
    let groups = random.from_to(1, 12) as usize;
    let most = (MOST_CLASSES - groups) / groups;
    let parents: Vec<usize> = (0..groups).map(|_| grow(&mut tree, false, 0)).collect();
    for parent in parents {
        for _ in 0..random.from_to(1, most as u64) {
            grow(&mut tree, true, parent);
        }
    }
    tree
}

/// A tree in which each inner class has the same number of children, level by level, as far as 63 classes go.
pub fn even(children: usize, levels: usize) -> Tree {
    let mut tree = root_alone();
    let mut row = vec![0];
    for level in 0..levels {
        let last = level + 1 == levels || tree.len() - 1 + row.len() * children * (1 + children) > MOST_CLASSES;
        let parents = std::mem::take(&mut row);
        for parent in parents {
            for _ in 0..children {
                if tree.len() <= MOST_CLASSES {
                    let class = grow(&mut tree, last, parent);
                    row.push(class);
                }
            }
        }
        if last {
            break;
        }
    }
    tree
}

/// Each class hangs below a random earlier inner class; `near` takes only the last few, which gives deep trees.
pub fn random_tree(random: &mut Random, classes: usize, inner_percent: u64, near: usize) -> Tree {
    let mut tree = root_alone();
    let mut above = vec![0];
    for _ in 0..classes {
        let from = above.len().saturating_sub(near);
        let parent = random.pick(&above[from..]);
        let leaf = !random.chance(inner_percent);
        let class = grow(&mut tree, leaf, parent);
        if !leaf {
            above.push(class);
        }
    }
    childless_to_leaves(&mut tree);
    tree
}

/// Turns inner classes without a child into leaves, so that the plan is good.
pub fn childless_to_leaves(tree: &mut Tree) {
    for class in 1..tree.len() {
        if !tree[class].leaf && !tree.iter().skip(1).any(|c| c.parent == class) {
            tree[class].leaf = true;
        }
    }
}

/// Gives the classes other numbers at random, each parent still before its children.
pub fn renumber(random: &mut Random, tree: &Tree) -> Tree {
    let mut new_number = vec![None; tree.len()];
    new_number[0] = Some(0);
    let mut new_tree = root_alone();
    while new_tree.len() < tree.len() {
        let ready: Vec<usize> =
            (1..tree.len()).filter(|&c| new_number[c].is_none() && new_number[tree[c].parent].is_some()).collect();
        let class = random.pick(&ready);
        let parent = new_number[tree[class].parent].unwrap();
        new_number[class] = Some(grow(&mut new_tree, tree[class].leaf, parent));
    }
    new_tree
}

/// The shapes, from flat to deep.
pub fn shape_of(random: &mut Random, shape: u64) -> Tree {
    let tree = match shape {
        0 => flat(MOST_CLASSES),
        1 => flat(random.from_to(1, 63) as usize),
        2 => chain(62),
        3 => chain(random.from_to(1, 61) as usize),
        4 => comb(31),
        5 => comb(random.from_to(1, 30) as usize),
        6 => two_levels(random),
        7 => even(random.from_to(2, 4) as usize, random.from_to(2, 5) as usize),
        8 => {
            let (classes, percent) = (random.from_to(2, 63), random.pick(&[20, 40, 60]));
            random_tree(random, classes as usize, percent, 64)
        }
        9 => {
            let (classes, near) = (random.from_to(20, 63), random.pick(&[1, 2, 3]));
            random_tree(random, classes as usize, 50, near)
        }
        10 | 11 => small_tree(random),
        _ => groups(random),
    };
    if random.chance(50) {
        renumber(random, &tree)
    } else {
        tree
    }
}

/// A tree of at most 8 classes, in the manner of tree P.
pub fn small_tree(random: &mut Random) -> Tree {
    let (classes, near) = (random.from_to(1, 8), random.pick(&[2, 8]));
    random_tree(random, classes as usize, 45, near)
}

/// A few groups below the root or below each other, each with one or two leaves to be heavy and one to be light.
pub fn groups(random: &mut Random) -> Tree {
    let mut tree = root_alone();
    let mut above = vec![0];
    for _ in 0..random.from_to(1, 3) {
        let parent = random.pick(&above);
        let group = grow(&mut tree, false, parent);
        above.push(group);
        for _ in 0..random.from_to(2, 3) {
            grow(&mut tree, true, group);
        }
    }
    for _ in 0..random.from_to(0, 2) {
        grow(&mut tree, true, 0);
    }
    tree
}

/// The children of a class.
pub fn children(tree: &Tree, parent: usize) -> Vec<usize> {
    (1..tree.len()).filter(|&c| tree[c].parent == parent).collect()
}

/// How many leaves each class has below it; with weights of at least 1 that is the least weight it can have.
pub fn needs(tree: &Tree) -> Vec<u64> {
    let mut needs: Vec<u64> = tree.iter().map(|c| c.leaf as u64).collect();
    for class in (1..tree.len()).rev() {
        needs[tree[class].parent] += needs[class];
    }
    needs
}

/// Bottom up: leaves have the given weights, an inner class the sum of its children and at times a little more.
pub fn weigh_upward(random: &mut Random, tree: &mut Tree, leaf_weights: &mut dyn FnMut(&mut Random) -> u64, more: u64) {
    for class in (1..tree.len()).rev() {
        if tree[class].leaf {
            tree[class].weight = leaf_weights(random);
        } else {
            let sum: u64 = children(tree, class).iter().map(|&c| tree[c].weight).sum();
            tree[class].weight = sum + random.from_to(0, more);
        }
    }
}

/// Top down: a class below the root gets up to 1,000,000; each inner class splits its weight, wholly if `exact`.
pub fn weigh_downward(random: &mut Random, tree: &mut Tree, huge: bool, exact: bool) {
    let needs = needs(tree);
    for class in children(tree, 0) {
        tree[class].weight = if huge { MOST_WEIGHT } else { random.from_to(needs[class], MOST_WEIGHT) };
    }
    for parent in 1..tree.len() {
        let below = children(tree, parent);
        if below.is_empty() {
            continue;
        }
        let mut spare = tree[parent].weight - needs[parent];
        if !exact {
            spare = random.from_to(0, spare);
        }
        for (position, &class) in below.iter().enumerate() {
            let last = position + 1 == below.len();
            let even_part = spare / (below.len() - position) as u64;
            let part = if last { spare } else { random.from_to(0, spare.min(2 * even_part)) };
            tree[class].weight = needs[class] + part;
            spare -= part;
        }
    }
}

/// Heavy inner classes over leaves of weight 1: nearly all of an inner class's weight goes to one inner child.
pub fn weigh_heavy_inner(tree: &mut Tree) {
    let needs = needs(tree);
    for class in 1..tree.len() {
        let parent = tree[class].parent;
        let inner_beside = children(tree, parent).iter().filter(|&&c| !tree[c].leaf).count() as u64;
        let given = if parent == 0 { MOST_WEIGHT } else { tree[parent].weight };
        let spare = if parent == 0 { MOST_WEIGHT - needs[class] } else { (given - needs[parent]) / inner_beside.max(1) };
        tree[class].weight = if tree[class].leaf { 1 } else { needs[class] + spare };
    }
}

/// Picks one of the weight mixes.
pub fn weigh(random: &mut Random, tree: &mut Tree) {
    match random.from_to(0, 9) {
        0 => weigh_upward(random, tree, &mut |_| 1, 0),
        1 => weigh_upward(random, tree, &mut |_| 1, 2),
        2 => weigh_downward(random, tree, true, true),
        3 => weigh_downward(random, tree, true, false),
        4 => {
            let exact = random.chance(50);
            weigh_downward(random, tree, false, exact)
        }
        5 => {
            let equal = random.pick(&[2, 10, 100, 1_500, 15_000]);
            weigh_upward(random, tree, &mut |_| equal, 0)
        }
        6 => weigh_upward(random, tree, &mut |r| r.from_to(1, 10), 0),
        7 => weigh_upward(random, tree, &mut |r| r.from_to(1, 10_000), 5),
        8 => weigh_upward(random, tree, &mut |r| 1 << r.from_to(0, 13), 0),
        _ => weigh_heavy_inner(tree),
    }
}

/// Gives each leaf its longest packet, by one of eight mixes; up to 60 bytes all packets are charged alike, from 61 on by length.
pub fn lengthen(random: &mut Random, tree: &mut Tree) {
    let mix = random.from_to(0, 7);
    for class in 1..tree.len() {
        if tree[class].leaf {
            tree[class].longest = match mix {
                0 => 1,
                1 => MOST_LONGEST,
                2 => random.from_to(1, MOST_LONGEST),
                3 => random.pick(&[1, 2, MOST_LONGEST - 1, MOST_LONGEST]),
                4 => random.from_to(1, 30),
                5 => random.pick(&[64, 1_500]),
                6 => random.from_to(58, 63),
                _ => 1 << random.from_to(0, 13),
            };
        }
    }
}

/// A whole good tree of the given shape.
pub fn good_tree(random: &mut Random, shape: u64) -> Tree {
    let mut tree = shape_of(random, shape);
    weigh(random, &mut tree);
    lengthen(random, &mut tree);
    assert_good(&tree);
    tree
}

/// Ends the generator if a tree meant to be good breaks a plan rule.
pub fn assert_good(tree: &Tree) {
    assert!(tree.len() >= 2 && tree.len() <= MOST_CLASSES + 1);
    for class in 1..tree.len() {
        let Class { leaf, parent, weight, longest } = tree[class];
        let sum: u64 = children(tree, class).iter().map(|&c| tree[c].weight).sum();
        assert!(parent < class && !tree[parent].leaf && weight >= 1 && weight <= MOST_WEIGHT);
        assert!(leaf == (sum == 0) && (leaf || sum <= weight));
        assert!(if leaf { (1..=MOST_LONGEST).contains(&longest) } else { longest == 0 });
    }
}

// ---------------------------------------------------------------------------------------------
// Bytes.

/// The record of one class as it stands, good or bad.
pub fn class_record(class: &Class) -> Vec<u8> {
    let mut record = vec![if class.leaf { 2 } else { 1 }, class.parent as u8];
    record.extend((class.weight as u32).to_be_bytes());
    if class.leaf {
        record.extend((class.longest as u16).to_be_bytes());
    }
    record
}

/// All class records without the end record.
pub fn class_records(tree: &Tree) -> Vec<u8> {
    tree.iter().skip(1).flat_map(class_record).collect()
}

/// A whole plan.
pub fn plan(tree: &Tree) -> Vec<u8> {
    [class_records(tree), vec![0]].concat()
}

/// "A plan record of kind 3 with a one-byte body", any byte.
pub fn rule_record(rule: u8) -> Vec<u8> {
    vec![3, rule]
}

/// An arrival record.
pub fn arrival_record(class: u64, length: u64, tag: u64) -> Vec<u8> {
    let mut record = vec![16, class as u8];
    record.extend((length as u16).to_be_bytes());
    record.extend((tag as u32).to_be_bytes());
    record
}

// ---------------------------------------------------------------------------------------------
// Damaged plans.

/// A random class of a tree that is not the root.
pub fn any_class(random: &mut Random, tree: &Tree) -> usize {
    random.from_to(1, tree.len() as u64 - 1) as usize
}

/// A random leaf of a tree.
pub fn any_leaf(random: &mut Random, tree: &Tree) -> usize {
    let leaves: Vec<usize> = (1..tree.len()).filter(|&c| tree[c].leaf).collect();
    random.pick(&leaves)
}

/// A good tree that has an inner class.
pub fn tree_with_inner(random: &mut Random) -> Tree {
    loop {
        let shape = random.pick(&[3, 5, 6, 7, 8, 9, 10]);
        let tree = good_tree(random, shape);
        if tree.iter().skip(1).any(|c| !c.leaf) {
            return tree;
        }
    }
}

/// A random inner class of a tree that has one.
pub fn any_inner(random: &mut Random, tree: &Tree) -> usize {
    let inner: Vec<usize> = (1..tree.len()).filter(|&c| !tree[c].leaf).collect();
    random.pick(&inner)
}

/// An unknown kind of plan record.
pub fn unknown_plan_kind(random: &mut Random) -> u8 {
    random.pick(&[5, 4, 15, 16, 17, 18, 127, 128, 254, 255])
}

/// Class records of a good tree cut inside the body of a random record of the wanted sort.
pub fn cut_in_body(random: &mut Random, leaf: bool) -> Vec<u8> {
    let tree = tree_with_inner(random);
    let class = if leaf { any_leaf(random, &tree) } else { any_inner(random, &tree) };
    let mut bytes = class_records(&tree[..class].to_vec());
    let record = class_record(&tree[class]);
    let kept = random.from_to(1, record.len() as u64 - 1) as usize;
    bytes.extend(&record[..kept]);
    bytes
}

/// "rule 1, whole tree, or rule 2, active classes".
pub fn good_rule(random: &mut Random) -> u8 {
    random.pick(&[1, 2])
}

/// A rule byte that is neither.
pub fn bad_rule(random: &mut Random) -> u8 {
    random.pick(&[0, 3, 4, 16, 17, 127, 128, 255])
}

/// A record of kind 3, its rule byte good or bad.
pub fn any_rule_record(random: &mut Random) -> Vec<u8> {
    let rule = if random.chance(70) { good_rule(random) } else { bad_rule(random) };
    rule_record(rule)
}

/// The class records of a tree up to a random one and with it, so that at least one class stands there.
pub fn some_records(random: &mut Random, tree: &Tree) -> Vec<u8> {
    let kept = any_class(random, tree);
    class_records(&tree[..=kept].to_vec())
}

/// A good tree with 63 classes, more or less deep.
pub fn full_tree(random: &mut Random) -> Tree {
    let shape = random.pick(&[0, 2, 4]);
    good_tree(random, shape)
}

/// Changes one class of a good tree and gives the whole plan.
pub fn changed_plan(random: &mut Random, change: fn(&mut Random, &mut Tree)) -> Vec<u8> {
    let mut tree = tree_with_inner(random);
    change(random, &mut tree);
    plan(&tree)
}

/// Makes the children of some inner class exceed it by 1, by a heavier child or a lighter parent.
pub fn too_heavy_by_one(random: &mut Random, tree: &mut Tree) {
    let parent = any_inner(random, tree);
    let below = children(tree, parent);
    let sum: u64 = below.iter().map(|&c| tree[c].weight).sum();
    let child = random.pick(&below);
    let heavier = tree[child].weight + tree[parent].weight - sum + 1;
    // either way keeps all weights within 1 to 1,000,000, so that 7 is the only fault
    if heavier <= MOST_WEIGHT && (sum == 1 || random.chance(50)) {
        tree[child].weight = heavier;
    } else {
        tree[parent].weight = sum - 1;
    }
}

/// Gives every class a random weight, so that many children are too heavy.
pub fn too_heavy_all_over(random: &mut Random, tree: &mut Tree) {
    for class in 1..tree.len() {
        tree[class].weight = random.from_to(1, 1_000);
    }
}

/// Turns a random leaf into an inner class without a child.
pub fn childless(random: &mut Random, tree: &mut Tree) {
    let class = any_leaf(random, tree);
    tree[class].leaf = false;
    tree[class].longest = 0;
}

/// Several of the faults at the end of a plan at once: "class by class upward 8 and 7".
pub fn childless_and_heavy(random: &mut Random, tree: &mut Tree) {
    for _ in 0..random.from_to(1, 3) {
        if tree.iter().skip(1).any(|c| c.leaf) {
            childless(random, tree);
        }
    }
    too_heavy_by_one_if_any(random, tree);
}

/// As `too_heavy_by_one`, on an inner class that still has children, if there is one.
pub fn too_heavy_by_one_if_any(random: &mut Random, tree: &mut Tree) {
    let parents: Vec<usize> = (1..tree.len()).filter(|&c| !children(tree, c).is_empty()).collect();
    if let Some(&parent) = parents.first() {
        let parent = if random.chance(50) { parent } else { random.pick(&parents) };
        tree[parent].weight = 1;
    }
}

/// Gives one class a weight out of range or at its edge.
pub fn bad_weight(random: &mut Random, tree: &mut Tree) {
    let class = any_class(random, tree);
    tree[class].weight = random.pick(&[0, 1_000_001, 1_000_002, 16_777_216, 0x8000_0000, 0xFFFF_FFFF]);
}

/// Gives one leaf a longest packet out of range.
pub fn bad_longest(random: &mut Random, tree: &mut Tree) {
    let class = any_leaf(random, tree);
    tree[class].longest = random.pick(&[0, 9_217, 9_218, 32_768, 65_535]);
}

/// Gives one leaf a bad parent and a bad weight, at times a bad longest packet too.
pub fn bad_parent_and_more(random: &mut Random, tree: &mut Tree) {
    let class = any_leaf(random, tree);
    tree[class].parent = random.pick(&[class, 64, 255]);
    tree[class].weight = random.pick(&[0, 1_000_001]);
    if random.chance(50) {
        tree[class].longest = random.pick(&[0, 9_217]);
    }
}

/// Gives one leaf a bad weight and a bad longest packet.
pub fn bad_weight_and_longest(random: &mut Random, tree: &mut Tree) {
    let class = any_leaf(random, tree);
    tree[class].weight = random.pick(&[0, 1_000_001]);
    tree[class].longest = random.pick(&[0, 9_217]);
}

/// A damaged or cut plan; some faults leave the rest of the input whole, so that nothing of it may run.
pub fn damaged_plan(random: &mut Random, fault: u64) -> Vec<u8> {
    let mut bytes = match fault {
        // 1: empty input, cut before a kind byte, cut inside a body
        0 => return Vec::new(),
        1 => return class_records(&tree_with_inner(random)),
        2 => return cut_in_body(random, false),
        3 => return cut_in_body(random, true),
        // 9: no class at all
        4 => vec![0],
        5 => return vec![0],
        // 2: unknown kinds, first, between records, and as the input's last byte
        6 => vec![unknown_plan_kind(random)],
        7 => {
            let tree = tree_with_inner(random);
            let class = any_class(random, &tree);
            let kind = unknown_plan_kind(random);
            [class_records(&tree[..class].to_vec()), vec![kind], class_records(&tree), vec![0]].concat()
        }
        8 => {
            let kind = unknown_plan_kind(random);
            return [class_records(&tree_with_inner(random)), vec![kind]].concat();
        }
        9 => {
            let kind = random.pick(&[16, 17]);
            [class_records(&tree_with_inner(random)), vec![kind]].concat()
        }
        // 3: a 64th class, good or full of other faults, whole or cut (cut: 1), and an unknown kind in its stead (2)
        10 => [class_records(&full_tree(random)), class_record(&Class { leaf: true, parent: 0, weight: 1, longest: 1 }), vec![0]].concat(),
        11 => [class_records(&full_tree(random)), class_record(&Class { leaf: false, parent: 200, weight: 0, longest: 0 }), vec![0]].concat(),
        12 => {
            let kept = random.from_to(1, 7) as usize;
            return [class_records(&full_tree(random)), vec![2; kept]].concat();
        }
        13 => [class_records(&full_tree(random)), vec![unknown_plan_kind(random)]].concat(),
        // 4: a class that names itself, a higher class, a leaf, or 255 as parent
        14 => changed_plan(random, |r, t| {
            let class = any_class(r, t);
            t[class].parent = class;
        }),
        15 => changed_plan(random, |r, t| {
            let class = any_class(r, t);
            t[class].parent = r.from_to(class as u64 + 1, 255) as usize;
        }),
        16 | 17 => changed_plan(random, |r, t| {
            let leaf = any_leaf(r, t);
            // the class right behind the leaf, or one further on, is put below it; a new last class if there is none
            let class = r.from_to(leaf as u64 + 1, t.len() as u64).min(MOST_CLASSES as u64) as usize;
            if class == t.len() {
                t.push(Class { leaf: r.chance(50), parent: leaf, weight: 1, longest: 1 });
            }
            t[class].parent = if class > leaf { leaf } else { class };
        }),
        // 5: weights 0, 1,000,001 and others out of range
        18 => changed_plan(random, |r, t| {
            let class = any_class(r, t);
            t[class].weight = 0;
        }),
        19 => changed_plan(random, |r, t| {
            let class = any_class(r, t);
            t[class].weight = 1_000_001;
        }),
        20 => changed_plan(random, bad_weight),
        // 6: longest 0, 9,217 and others out of range
        21 => changed_plan(random, |r, t| {
            let class = any_leaf(r, t);
            t[class].longest = 0;
        }),
        22 => changed_plan(random, |r, t| {
            let class = any_leaf(r, t);
            t[class].longest = 9_217;
        }),
        23 => changed_plan(random, bad_longest),
        // 7: children too heavy
        24 => changed_plan(random, too_heavy_by_one),
        25 => changed_plan(random, too_heavy_all_over),
        // 8: inner classes without a child
        26 => changed_plan(random, childless),
        27 => changed_plan(random, childless_and_heavy),
        // several faults in one record: 4 before 5 before 6, and 1 (cut) before them all
        28 => changed_plan(random, bad_parent_and_more),
        29 => changed_plan(random, bad_weight_and_longest),
        30 => {
            let record = class_record(&Class { leaf: true, parent: 255, weight: 0, longest: 0 });
            let kept = random.from_to(2, 7) as usize;
            return [class_records(&good_tree(random, 10)), record[..kept].to_vec()].concat();
        }
        // 17: kind 3 first, with a rule byte that is not 1 or 2
        31 => [rule_record(bad_rule(random)), plan(&tree_with_inner(random))].concat(),
        // 18: kind 3 behind a class, its rule byte good or bad, and a whole plan behind it
        32 => {
            let tree = tree_with_inner(random);
            [some_records(random, &tree), any_rule_record(random), plan(&tree)].concat()
        }
        // 18: two records of kind 3, the first good
        33 => [rule_record(good_rule(random)), any_rule_record(random), plan(&tree_with_inner(random))].concat(),
        // 1: kind 3 cut after its kind byte: as the only byte, behind another of kind 3, behind classes, behind 63 classes
        34 => {
            let tree = tree_with_inner(random);
            let before = match random.from_to(0, 3) {
                0 => Vec::new(),
                1 => rule_record(good_rule(random)),
                2 => some_records(random, &tree),
                _ => class_records(&full_tree(random)),
            };
            return [before, vec![3]].concat();
        }
        // 3: kind 3 takes no class number, so the 64th class behind it is one too many, and no class before
        35 => {
            let more = Class { leaf: true, parent: 0, weight: 1, longest: 1 };
            [rule_record(good_rule(random)), class_records(&full_tree(random)), class_record(&more), vec![0]].concat()
        }
        // 18: kind 3 behind 63 classes
        36 => [class_records(&full_tree(random)), any_rule_record(random), vec![0]].concat(),
        // 9: kind 3 and the end record alone, whatever follows; or the input ends behind kind 3: 1
        _ => {
            let record = rule_record(good_rule(random));
            if random.chance(30) {
                return record;
            }
            [record, vec![0]].concat()
        }
    };
    // events after the fault must not run
    for _ in 0..random.from_to(0, 20) {
        bytes.extend(arrival_record(1, 1, 7));
        bytes.push(17);
    }
    bytes
}
