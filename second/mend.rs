//! "Mend a plan whose shares don't add up", written from the customer's words only: "Crews raise a leaf and forget its parents. Add a tool that
//! takes plan bytes in which rule 7 is the only rule broken, and gives a tree with leaf weights untouched, no weight lowered, and each inner
//! weight the least that the rules then allow." `second mend < plan` prints `mend CLASS OLD NEW` for each changed class in class order and then
//! `plan COUNT`, or `stop NUMBER PLACE`; `second mend write < plan` prints the mended plan's bytes.
//! What comes back is checked in every run: by the words, by an argument that it is the least, and by another way to work it out.

use super::*;

/// "It lists each changed class with its old and new weight, in class order, and no other."
#[derive(Clone, Copy, PartialEq, Eq, Debug)]
pub struct Change {
    class: usize,
    old: u64,
    new: u64,
}

/// The mended tree, the bytes that the reader used, and the list.
#[derive(Clone, PartialEq, Eq, Debug)]
pub struct Mended {
    tree: Tree,
    used: usize,
    changes: Vec<Change>,
}

/// What all children of a class weigh.
fn weight_of_children(tree: &Tree, class: usize) -> u64 {
    tree.children(class).iter().fold(0, |sum, &c| add(sum, tree.classes[c].weight))
}

/// The tool: "Any other fault is refused as the reader does, 8 before any mending."
pub fn mend(input: &[u8]) -> Result<Mended, Refusal> {
    // 1 to 6, 17 and 18, record by record, and then 9, as the reader gives them
    let (read, used) = read_records(input)?;
    check_any_class(&read)?;
    // 8 of any class, the lowest-numbered first as the reader goes, whatever 7 says of the classes before it
    for class in 1..read.classes.len() {
        check_has_child(&read, class)?;
    }
    let tree = match least_weights(&read) {
        Ok(tree) => tree,
        Err(refusal) => {
            assert_too_heavy(&read, refusal);
            return Err(refusal);
        }
    };
    let weights = (1..).zip(read.classes.iter().zip(&tree.classes).skip(1));
    let changed = weights.filter(|(_, (old, new))| old.weight != new.weight);
    let changes = changed.map(|(class, (old, new))| Change { class, old: old.weight, new: new.weight }).collect();
    let mended = Mended { tree, used, changes };
    assert_mended(input, &read, &mended);
    Ok(mended)
}

/// "each inner weight the least that the rules then allow": a class's children have higher numbers, so from the highest class down each has its
/// children's weights mended before it. "Refusals: 22, some inner class would need more than 1,000,000, at the highest-numbered such class, worked
/// upward from the highest class."
fn least_weights(read: &Tree) -> Result<Tree, Refusal> {
    let mut tree = read.clone();
    for class in (1..tree.classes.len()).rev() {
        if tree.is_inner(class) {
            let need = weight_of_children(&tree, class).max(tree.classes[class].weight);
            if need > MOST_WEIGHT {
                return refuse(22, class);
            }
            tree.classes[class].weight = need;
        }
    }
    Ok(tree)
}

// ---------------------------------------------------------------------------------------------
// What is checked of every answer.

/// The other way, without a thought of order: as long as the children of some inner class outweigh it, the lowest-numbered such class is raised by
/// 1 or to what they weigh, whichever is asked; what must be raised must be raised in every mended tree, so none comes out too heavy. Weights may
/// pass 1,000,000 here.
fn raised_where_broken(read: &Tree, by_one: bool) -> Tree {
    let mut tree = read.clone();
    while let Some(class) = (1..tree.classes.len()).find(|&class| check_shares(&tree, class).is_err()) {
        let need = weight_of_children(&tree, class);
        tree.classes[class].weight = if by_one { add(tree.classes[class].weight, 1) } else { need };
    }
    tree
}

/// 22 stands where the other way finds the highest-numbered class above 1,000,000.
fn assert_too_heavy(read: &Tree, refusal: Refusal) {
    let raised = raised_where_broken(read, false);
    let heavy = (1..raised.classes.len()).rev().find(|&class| raised.classes[class].weight > MOST_WEIGHT);
    assert_eq!((refusal.number, Some(refusal.place)), (22, heavy), "22 at another class");
}

/// The words one by one, and that no inner weight can be less.
fn assert_mended(input: &[u8], read: &Tree, mended: &Mended) {
    let Mended { tree, used, changes } = mended;
    assert!(obeys_plan_rules(tree), "the mended tree breaks a plan rule");
    assert_eq!((tree.rule, tree.classes.len()), (read.rule, read.classes.len()), "the mended tree has another rule or other classes");
    for class in 0..tree.classes.len() {
        let (old, new) = (&read.classes[class], &tree.classes[class]);
        assert_eq!(Class { weight: old.weight, ..new.clone() }, *old, "more than a weight is changed");
        // "leaf weights untouched, no weight lowered"
        assert!(new.weight == old.weight || tree.is_inner(class) && new.weight > old.weight, "class {class} has weight {}", new.weight);
        // Leastness. Let any weights keep the leaves, lower none and obey rule 7. From the highest class down they are at least these: a leaf's is
        // the same; a class that is as it was may not be lowered; and a changed class weighs what its children weigh together, so that one less
        // breaks rule 7 at it even with the children at their least.
        if new.weight != old.weight {
            let mut lower = tree.clone();
            lower.classes[class].weight -= 1;
            assert_eq!(check_shares(&lower, class), refuse(7, class), "class {class} could be lighter");
        }
        // listed exactly where changed
        let listed: Vec<&Change> = changes.iter().filter(|change| change.class == class).collect();
        match new.weight == old.weight {
            true => assert!(listed.is_empty(), "class {class} is listed and not changed"),
            false => assert_eq!(listed, [&Change { class, old: old.weight, new: new.weight }]),
        }
    }
    assert!(changes.windows(2).all(|two| two[0].class < two[1].class), "the list is not in class order");
    assert_eq!(raised_where_broken(read, false), *tree, "the other way gives other weights");
    // "A sound plan comes back with an empty list", and only a sound plan does; a mended one is sound
    assert_eq!(read_plan(input).is_ok(), changes.is_empty(), "an empty list for a plan that is not sound, or a list for a sound one");
    assert_eq!(*used, read_records(input).map_or(0, |(_, used)| used));
    let bytes = write::written(tree, write::LONGEST_PLAN).expect("a mended plan can be written");
    assert_eq!(read_plan(&bytes), Ok((tree.clone(), bytes.len())), "the mended plan is not read as it was written");
    assert_eq!(least_weights(tree).as_ref(), Ok(tree), "mending again changes something");
}

// ---------------------------------------------------------------------------------------------
// The program.

/// "The program checks 10 before all else and then runs nothing."
fn mend_input(input: &[u8]) -> Result<Mended, Refusal> {
    if input.len() > MOST_INPUT {
        return refuse(10, MOST_INPUT);
    }
    mend(input)
}

/// The list and its length.
fn lines(mended: &Mended) -> Vec<u8> {
    let mut text = String::new();
    for Change { class, old, new } in &mended.changes {
        text.push_str(&format!("mend {class} {old} {new}\n"));
    }
    text.push_str(&format!("plan {}\n", mended.changes.len()));
    text.into_bytes()
}

/// What the program prints; of other words it says one line on standard error.
pub fn program(words: &[String], input: &[u8]) -> Output {
    let bytes = match words {
        [] => mend_input(input).map(|mended| lines(&mended)),
        [word] if word == "write" => mend_input(input).map(|mended| write::plan_bytes(&mended.tree)),
        _ => return Output { bytes: vec![], said: Some(format!("mend: the words are {words:?}; expected: none, or write")) },
    };
    Output { bytes: write::bytes_or_stop(bytes), said: None }
}

// ---------------------------------------------------------------------------------------------
// Plans mended by hand, 22 at each level, 8 and 7 in both orders, other faults, and small plans against all weights there are.

#[cfg(test)]
mod tests {
    use super::*;
    use super::super::random_plans::{Random, damaged_plan, root_alone, random_tree, PLAN_FAULTS};

    /// A plan of classes (parent, weight, is it a leaf), each leaf's longest 10.
    fn plan(classes: &[(u8, u32, bool)]) -> Vec<u8> {
        let mut bytes = Vec::new();
        for &(parent, weight, leaf) in classes {
            bytes.extend([&[1 + u8::from(leaf), parent][..], &weight.to_be_bytes()].concat());
            bytes.extend(if leaf { vec![0, 10] } else { vec![] });
        }
        bytes.push(0);
        bytes
    }

    const LEAF: bool = true;
    const INNER: bool = false;

    /// What the program prints, as text.
    fn printed(input: &[u8]) -> String {
        String::from_utf8(program(&[], input).bytes).unwrap()
    }

    /// The bytes that the program writes.
    fn written(input: &[u8]) -> Vec<u8> {
        program(&["write".to_string()], input).bytes
    }

    #[test]
    fn one_parent() {
        // tree P with leaf 3 raised to 9: class 1 needs 10
        let raised = plan(&[(0, 3, INNER), (1, 1, LEAF), (1, 9, LEAF), (0, 4, LEAF)]);
        assert_eq!(printed(&raised), "mend 1 3 10\nplan 1\n");
        assert_eq!(written(&raised), plan(&[(0, 10, INNER), (1, 1, LEAF), (1, 9, LEAF), (0, 4, LEAF)]));
        // the root needs nothing; what follows the plan is not read
        assert_eq!(printed(&[&raised[..], &[1, 2, 3]].concat()), "mend 1 3 10\nplan 1\n");
        // the rule of the plan comes back, rule 1 without its record
        assert_eq!(written(&[&[3, 2], &raised[..]].concat())[..8], [3, 2, 1, 0, 0, 0, 0, 10]);
        assert_eq!(written(&[&[3, 1], &raised[..]].concat()), written(&raised));
    }

    #[test]
    fn a_sound_plan() {
        // with room to spare in class 1, which is not lowered
        for weight in [3, 4, 1_000_000] {
            let sound = plan(&[(0, weight, INNER), (1, 1, LEAF), (1, 2, LEAF), (0, 4, LEAF)]);
            assert_eq!((printed(&sound), written(&sound)), ("plan 0\n".to_string(), sound));
        }
    }

    #[test]
    fn a_chain() {
        // 5 at the leaf: classes 4 and 3 must grow, class 2 has just enough, class 1 has room
        let chain = |one, two| plan(&[(0, one, INNER), (1, two, INNER), (2, 4, INNER), (3, 1, INNER), (4, 5, LEAF)]);
        assert_eq!(printed(&chain(7, 5)), "mend 3 4 5\nmend 4 1 5\nplan 2\n");
        // one less in class 2, and it grows too; class 1 has just enough
        assert_eq!(printed(&chain(5, 4)), "mend 2 4 5\nmend 3 4 5\nmend 4 1 5\nplan 3\n");
        // up to the root's child, although rule 7 was not broken there: classes 2 and 1 were alike
        assert_eq!(printed(&chain(4, 4)), "mend 1 4 5\nmend 2 4 5\nmend 3 4 5\nmend 4 1 5\nplan 4\n");
        assert_eq!(read_plan(&chain(4, 4)), refuse(7, 4));
    }

    #[test]
    fn two_branches() {
        // below class 1: class 2 with leaves 4 and 6 (2 + 3), and class 3 with leaf 5 (7); below the root class 7 with leaf 8, which is sound
        let branches = |two, three| {
            plan(&[(0, 8, INNER), (1, two, INNER), (1, three, INNER), (2, 2, LEAF), (3, 7, LEAF), (2, 3, LEAF), (0, 1, INNER), (7, 1, LEAF)])
        };
        assert_eq!(printed(&branches(4, 4)), "mend 1 8 12\nmend 2 4 5\nmend 3 4 7\nplan 3\n");
        // class 2 keeps its 6: class 1 then needs 13
        assert_eq!(printed(&branches(6, 4)), "mend 1 8 13\nmend 3 4 7\nplan 2\n");
    }

    #[test]
    fn more_than_a_million() {
        // 22 at each level: leaves 4 and 5 below 3, leaf 6 below 2, leaf 7 below 1
        let levels = |at_3: [u32; 2], at_2, at_1| {
            plan(&[(0, 1, INNER), (1, 1, INNER), (2, 1, INNER), (3, at_3[0], LEAF), (3, at_3[1], LEAF), (2, at_2, LEAF), (1, at_1, LEAF)])
        };
        assert_eq!(printed(&levels([500_000, 500_001], 1, 1)), "stop 22 3\n");
        assert_eq!(printed(&levels([500_000, 500_000], 1, 1)), "stop 22 2\n");
        assert_eq!(printed(&levels([500_000, 499_999], 1, 1)), "stop 22 1\n");
        assert_eq!(printed(&levels([499_999, 499_999], 1, 1)), "mend 1 1 1000000\nmend 2 1 999999\nmend 3 1 999998\nplan 3\n");
        // two branches too heavy: the highest-numbered, which stands above its leaves; then class 1 alone
        let two = |four, five| plan(&[(0, 1, INNER), (0, 1, INNER), (0, 1, INNER), (1, 600_000, LEAF), (1, four, LEAF), (2, 600_000, LEAF), (2, five, LEAF), (3, 1, LEAF)]);
        assert_eq!(printed(&two(600_000, 600_000)), "stop 22 2\n");
        assert_eq!(printed(&two(600_000, 400_000)), "stop 22 1\n");
        assert_eq!(printed(&two(400_000, 400_000)), "mend 1 1 1000000\nmend 2 1 1000000\nplan 2\n");
        // 63 classes of 1,000,000
        let most: Vec<(u8, u32, bool)> = [(0, 1, INNER)].into_iter().chain([(1, 1_000_000, LEAF)].repeat(62)).collect();
        assert_eq!(printed(&plan(&most)), "stop 22 1\n");
        // a need of more than 1,000,000 and `write`
        assert_eq!(written(&levels([500_000, 500_001], 1, 1)), b"stop 22 3\n");
    }

    #[test]
    fn childless_before_any_mending() {
        // 7 at class 1 and 8 at class 2, and the other way round: the reader gives the first of the two, mending 8
        let heavy_first = plan(&[(0, 1, INNER), (0, 1, INNER), (1, 2, LEAF)]);
        assert_eq!((read_plan(&heavy_first), printed(&heavy_first)), (refuse(7, 1), "stop 8 2\n".to_string()));
        let childless_first = plan(&[(0, 1, INNER), (0, 1, INNER), (2, 2, LEAF)]);
        assert_eq!((read_plan(&childless_first), printed(&childless_first)), (refuse(8, 1), "stop 8 1\n".to_string()));
        // 8 before 22, the lowest-numbered of several, below the class that is too heavy too
        let both = plan(&[(0, 1, INNER), (1, 600_000, LEAF), (1, 600_000, LEAF), (1, 5, INNER), (0, 5, INNER)]);
        assert_eq!(printed(&both), "stop 8 4\n");
    }

    #[test]
    fn other_faults_as_the_reader_does() {
        let heavy = plan(&[(0, 1, INNER), (1, 2, LEAF)]);
        let faults: [(Vec<u8>, &str); 11] = [
            (vec![], "stop 1 0\n"),
            (vec![0], "stop 9 0\n"),
            (vec![3, 2, 0], "stop 9 0\n"),
            (heavy[..heavy.len() - 1].to_vec(), "stop 1 14\n"),
            ([&[3, 5], &heavy[..]].concat(), "stop 17 0\n"),
            ([&heavy[..14], &[3, 2, 0]].concat(), "stop 18 14\n"),
            ([&heavy[..14], &[9]].concat(), "stop 2 14\n"),
            (plan(&[(0, 1, INNER), (1, 2, LEAF), (2, 1, LEAF)]), "stop 4 14\n"),
            (plan(&[(0, 1, INNER), (1, 2, LEAF), (1, 1_000_001, LEAF)]), "stop 5 14\n"),
            ([&heavy[..12], &[0x24, 0x01, 0]].concat(), "stop 6 6\n"),
            (plan(&[[(0, 1, INNER)].repeat(63), vec![(0, 1, LEAF)]].concat()), "stop 3 378\n"),
        ];
        for (input, line) in faults {
            assert_eq!((printed(&input), written(&input)), (line.to_string(), line.as_bytes().to_vec()));
        }
        let long = [&heavy[..], &[0; 65_522]].concat();
        assert_eq!(printed(&long), "stop 10 65536\n");
        assert_eq!(printed(&long[1..]).split(' ').next(), Some("stop"));
        assert_eq!(printed(&long[..65_536]), "mend 1 1 2\nplan 1\n");
        for fault in 0..PLAN_FAULTS {
            for state in 0..40 {
                let input = damaged_plan(&mut Random { state }, fault);
                match read_plan(&input) {
                    // the only numbers that mending may turn into something else
                    Err(Refusal { number: 7, .. }) => assert!(!printed(&input).starts_with("stop 7")),
                    Err(refusal) => assert_eq!(printed(&input), format!("stop {} {}\n", refusal.number, refusal.place)),
                    Ok(_) => assert_eq!(printed(&input), "plan 0\n"),
                }
            }
        }
    }

    #[test]
    fn other_words() {
        for words in [&["x"][..], &[""], &["write", "write"], &["0"]] {
            let words: Vec<String> = words.iter().map(|word| word.to_string()).collect();
            let output = program(&words, &plan(&[(0, 1, LEAF)]));
            assert!(output.bytes.is_empty() && output.said.is_some_and(|line| !line.contains('\n')));
        }
    }

    /// Every way to give the inner classes weights from what they have to `most`.
    fn all_weights(read: &Tree, most: u64) -> Vec<Tree> {
        let mut trees = vec![read.clone()];
        for class in (1..read.classes.len()).filter(|&class| read.is_inner(class)) {
            let with = |tree: &Tree, weight| {
                let mut tree = tree.clone();
                tree.classes[class].weight = weight;
                tree
            };
            trees = trees.iter().flat_map(|tree| (read.classes[class].weight..=most).map(move |weight| with(tree, weight))).collect();
        }
        trees
    }

    #[test]
    fn the_least_of_all_weights_there_are() {
        let mut changed = 0;
        for state in 0..400 {
            let mut random = Random { state };
            let (classes, near) = (random.from_to(2, 6), random.pick(&[1, 2, 8]));
            let mut tree = if state == 0 { root_alone() } else { random_tree(&mut random, classes as usize, 55, near) };
            for class in tree.iter_mut().skip(1) {
                (class.weight, class.longest) = (random.from_to(1, 3), u64::from(class.leaf));
            }
            let input = super::super::random_plans::plan(&tree);
            let Ok(mended) = mend(&input) else { continue };
            let (read, _) = read_records(&input).unwrap();
            // no leaf weighs more than 3 and there are at most 6, so no inner class needs more than 15
            let inner = (1..read.classes.len()).filter(|&class| read.is_inner(class)).count();
            if inner > 4 {
                continue;
            }
            let good: Vec<Tree> = all_weights(&read, 15).into_iter().filter(|tree| check_whole_tree(tree).is_ok()).collect();
            assert!(good.contains(&mended.tree));
            for class in 1..read.classes.len() {
                assert_eq!(good.iter().map(|tree| tree.classes[class].weight).min(), Some(mended.tree.classes[class].weight));
            }
            // raised one by one where rule 7 is broken, it comes to the same
            assert_eq!(raised_where_broken(&read, true), mended.tree);
            changed += mended.changes.len();
        }
        assert!(changed > 200, "only {changed} classes were changed");
    }
}
