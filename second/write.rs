//! "Write a plan back", written from the customer's words only: "The planning desk edits a plan in memory and needs its bytes again. Add a writer
//! from a sound tree to plan bytes into a lent buffer." `second write [N] < plan` reads a plan and prints the raw bytes that are written of what
//! was read, and nothing else, or `stop NUMBER PLACE`; the buffer has N bytes, and 507 without a word, which is room for every plan.
//! Both round trips are checked in every run.

use super::*;

/// 63 leaves of 8 bytes, the end record, and the 2 bytes of kind 3: no plan that is written is longer.
pub const LONGEST_PLAN: usize = 507;
/// What stands in the program's buffer before, so that it shows which bytes were written.
const MARK: u8 = 0xA5;

/// One number, "big-endian", in so many bytes.
fn put(bytes: &mut Vec<u8>, number: u64, count: u32) {
    for position in (0..count).rev() {
        bytes.push((number / 256_u64.pow(position) % 256) as u8);
    }
}

/// The bytes of a tree that obeys the plan rules: "kind 3 for rule 2 only", "class records and one end record".
pub fn plan_bytes(tree: &Tree) -> Vec<u8> {
    let mut bytes = Vec::new();
    if tree.rule == ACTIVE_CLASSES {
        bytes.extend([3, ACTIVE_CLASSES as u8]);
    }
    for class in &tree.classes[1..] {
        bytes.push(if class.sort == Sort::Leaf { 2 } else { 1 });
        put(&mut bytes, class.parent as u64, 1);
        put(&mut bytes, class.weight, 4);
        if class.sort == Sort::Leaf {
            put(&mut bytes, class.longest, 2);
        }
    }
    bytes.push(0);
    bytes
}

/// The writer, which gives how many bytes it wrote: "Refusals: 16, the buffer is shorter than the plan, place = the length needed; it comes after
/// 11." "Bytes past the plan stay untouched, and a refusal touches none."
pub fn write(tree: &Tree, buffer: &mut [u8]) -> Result<usize, Refusal> {
    // "from a sound tree": 11 stands at 0
    if !obeys_plan_rules(tree) {
        return refuse(11, 0);
    }
    let bytes = plan_bytes(tree);
    if buffer.len() < bytes.len() {
        return refuse(16, bytes.len());
    }
    buffer[..bytes.len()].copy_from_slice(&bytes);
    // "Reading what was written gives the tree and the same length"
    assert_eq!(read_plan(buffer), Ok((tree.clone(), bytes.len())), "the plan written is not the one read");
    Ok(bytes.len())
}

/// The bytes written of a tree into a buffer of so many bytes; none of the others may be touched.
pub fn written(tree: &Tree, room: usize) -> Result<Vec<u8>, Refusal> {
    let mut buffer = vec![MARK; room];
    let answer = write(tree, &mut buffer);
    let touched = *answer.as_ref().unwrap_or(&0);
    assert!(buffer[touched..].iter().all(|&byte| byte == MARK), "a byte past the plan was touched");
    buffer.truncate(touched);
    answer.map(|_| buffer)
}

/// "writing an accepted plan gives back the bytes the reader used", but "its byte round trip is for plans without a rule 1 record": one with it
/// comes back without those two bytes.
fn read_and_write(input: &[u8], room: usize) -> Result<Vec<u8>, Refusal> {
    // "The program checks 10 before all else and then runs nothing."
    if input.len() > MOST_INPUT {
        return refuse(10, MOST_INPUT);
    }
    let (tree, used) = read_plan(input)?;
    let bytes = written(&tree, room)?;
    let first = if input.starts_with(&[3, 1]) { 2 } else { 0 };
    assert_eq!(bytes, input[first..used], "the bytes written are not those that were read");
    Ok(bytes)
}

/// The bytes, or the line of a refusal.
pub fn bytes_or_stop(answer: Result<Vec<u8>, Refusal>) -> Vec<u8> {
    answer.unwrap_or_else(|refusal| format!("stop {} {}\n", refusal.number, refusal.place).into_bytes())
}

/// The words after `write`: none, or a number in digits alone, below 2 to the power 64. A larger buffer than an input may be shows no more.
fn room_of(words: &[String]) -> Option<usize> {
    match words {
        [] => Some(LONGEST_PLAN),
        [word] if word.bytes().all(|byte| byte.is_ascii_digit()) => word.parse::<u64>().ok().map(|room| room.min(MOST_INPUT as u64) as usize),
        _ => None,
    }
}

/// What the program prints; of other words it says "one line on standard error, nothing on standard output".
pub fn program(words: &[String], input: &[u8]) -> Output {
    match room_of(words) {
        Some(room) => Output { bytes: bytes_or_stop(read_and_write(input, room)), said: None },
        None => Output { bytes: vec![], said: Some(format!("write: the words are {words:?}; expected: none, or the buffer's bytes in digits")) },
    }
}

// ---------------------------------------------------------------------------------------------
// Tree P, the longest plans, buffers, trees that are no plan, and both round trips on random plans.

#[cfg(test)]
mod tests {
    use super::*;
    use super::super::random_plans::{good_tree, plan, rule_record, Random, SHAPES};

    /// Tree P's plan.
    const PLAN_P: &[u8] = include_bytes!("tree_p.bin").split_at(31).0;

    /// What the program prints, as text where it is a line.
    fn printed(words: &[&str], input: &[u8]) -> Vec<u8> {
        let words: Vec<String> = words.iter().map(|word| word.to_string()).collect();
        program(&words, input).bytes
    }

    #[test]
    fn tree_p() {
        // as the table of kinds has it: inner class, parent 0, weight 3; leaf, parent 1, weight 1, longest 10; and so on
        let by_hand = [
            &[1, 0, 0, 0, 0, 3][..],
            &[2, 1, 0, 0, 0, 1, 0, 10],
            &[2, 1, 0, 0, 0, 2, 0, 10],
            &[2, 0, 0, 0, 0, 4, 0, 10],
            &[0],
        ]
        .concat();
        assert_eq!(plan_bytes(&read_plan(PLAN_P).unwrap().0), by_hand);
        assert_eq!(printed(&[], PLAN_P), by_hand);
        // the events behind the plan are no part of it
        assert_eq!(printed(&[], include_bytes!("tree_p.bin")), by_hand);
        // rule 2 comes back, rule 1 does not
        assert_eq!(printed(&[], &[&[3, 2], PLAN_P].concat()), [&[3, 2], PLAN_P].concat());
        assert_eq!(printed(&[], &[&[3, 1], PLAN_P].concat()), PLAN_P);
        // each number in its own bytes, the highest first
        let wide = [2, 0, 0x00, 0x0F, 0x42, 0x40, 0x24, 0x00, 0];
        let (tree, _) = read_plan(&wide).unwrap();
        assert_eq!((tree.classes[1].weight, tree.classes[1].longest), (1_000_000, 9_216));
        assert_eq!(plan_bytes(&tree), wide);
    }

    #[test]
    fn the_longest_plans() {
        let leaves = [2, 0, 0, 0, 0, 1, 0, 1].repeat(63);
        let plan = [&leaves[..], &[0]].concat();
        let (one, two) = (printed(&[], &plan), printed(&[], &[&[3, 2][..], &plan].concat()));
        assert_eq!((one.len(), two.len()), (505, LONGEST_PLAN));
        assert_eq!((&one, &two[2..]), (&plan, &plan[..]));
        assert_eq!(printed(&["506"], &[&[3, 2][..], &plan].concat()), b"stop 16 507\n");
    }

    #[test]
    fn buffers() {
        // one byte short, exact, longer, and far longer; 16 stands at the length needed, not at the buffer's
        for (room, is_written) in [("0", false), ("1", false), ("30", false), ("31", true), ("032", true), ("18446744073709551615", true)] {
            assert_eq!(printed(&[room], PLAN_P), if is_written { PLAN_P } else { b"stop 16 31\n" });
        }
        assert_eq!(printed(&["32"], &[&[3, 2], PLAN_P].concat()), b"stop 16 33\n");
        assert_eq!(printed(&["31"], &[&[3, 1], PLAN_P].concat()), PLAN_P);
        // what stands past the plan, and everything where it is refused, is as before
        let (tree, _) = read_plan(PLAN_P).unwrap();
        for room in 0..40u8 {
            let before: Vec<u8> = (200..200 + room).collect();
            let mut buffer = before.clone();
            match write(&tree, &mut buffer) {
                Ok(used) => assert_eq!((used, buffer), (31, [PLAN_P, &before[31..]].concat())),
                Err(refusal) => assert_eq!((refusal, buffer, room < 31), (Refusal { number: 16, place: 31 }, before, true)),
            }
        }
    }

    #[test]
    fn trees_that_are_no_plan() {
        let (good, _) = read_plan(PLAN_P).unwrap();
        let breaks: [fn(&mut Tree); 9] = [
            |t| *t = Tree::without_classes(),
            |t| t.rule = 0,
            |t| t.rule = 3,
            |t| t.classes[1].weight = 2,
            |t| t.classes[1].longest = 1,
            |t| t.classes[2].longest = 0,
            |t| t.classes[4].parent = 4,
            |t| t.classes[4].weight = 1_000_001,
            |t| t.classes[ROOT].weight = 1,
        ];
        for broken in breaks {
            let mut tree = good.clone();
            broken(&mut tree);
            // 11 before 16
            for room in [0, 30, 31, 507] {
                assert_eq!(written(&tree, room), refuse(11, 0));
            }
        }
        // 64 classes
        let mut many = good.clone();
        many.classes.resize(65, good.classes[4].clone());
        assert_eq!(written(&many, 600), refuse(11, 0));
        many.classes.truncate(64);
        assert_eq!(written(&many, 600).map(|bytes| bytes.len()), Ok(31 + 59 * 8));
    }

    #[test]
    fn what_the_reader_refuses() {
        let refused: [(&[u8], &str); 6] = [
            (&[], "stop 1 0\n"),
            (&[0], "stop 9 0\n"),
            (&[3, 3, 0], "stop 17 0\n"),
            (&[16], "stop 2 0\n"),
            (&PLAN_P[..30], "stop 1 30\n"),
            (&[1, 0, 0, 0, 0, 3, 0], "stop 8 1\n"),
        ];
        for (input, line) in refused {
            // the reader's refusals come before 16
            for words in [&[][..], &["0"], &["507"]] {
                assert_eq!(printed(words, input), line.as_bytes());
            }
        }
        assert_eq!(printed(&[], &[PLAN_P, &[17; 65_505]].concat()), PLAN_P);
        assert_eq!(printed(&[], &[PLAN_P, &[17; 65_506]].concat()), b"stop 10 65536\n");
    }

    #[test]
    fn other_words() {
        for words in [&["x"][..], &[""], &["-1"], &["+1"], &["1", "2"], &["18446744073709551616"], &["1 "]] {
            let words: Vec<String> = words.iter().map(|word| word.to_string()).collect();
            let output = program(&words, PLAN_P);
            assert!(output.bytes.is_empty() && output.said.is_some_and(|line| !line.contains('\n')));
        }
    }

    #[test]
    fn both_round_trips_on_random_plans() {
        for seed in 0..1_300 {
            let mut random = Random { state: seed };
            let bytes = plan(&good_tree(&mut random, seed % SHAPES));
            for front in [vec![], rule_record(1), rule_record(2)] {
                let input = [front.clone(), bytes.clone()].concat();
                let expected = if front == rule_record(1) { &bytes } else { &input };
                // bytes to tree to bytes, whatever follows the plan
                let (tree, used) = read_plan(&input).unwrap();
                assert_eq!(used, input.len());
                assert_eq!(printed(&[], &[&input[..], &[16, 17, 0]].concat()), *expected);
                // tree to bytes to tree
                let again = written(&tree, LONGEST_PLAN).unwrap();
                assert_eq!(read_plan(&again), Ok((tree.clone(), expected.len())));
                // the buffer exact and one byte short
                assert_eq!(written(&tree, again.len()).as_ref(), Ok(&again));
                assert_eq!(written(&tree, again.len() - 1), refuse(16, again.len()));
            }
        }
    }
}
