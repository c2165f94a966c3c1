//! How long the packets of a recorded run have waited, leaf by leaf, beside what was promised to them: `waited < input`, a plan and its
//! events as bytes, the input of a run. Written from the customer's words only: "Crews want to see how long a packet waited, in link bytes",
//! and "From the acceptance of a packet, with D bytes then in its class's queue and a class of weight w, the whole link sends at most (D/w
//! rounded up, plus 1) times Q bytes until it has gone". For each leaf, in class order, it prints
//!     leaf CLASS packets N bytes N longest WAIT bound BOUND share P nearest P waiting N
//! packets and charged bytes that the leaf has sent; WAIT, the largest last field of its `out` lines; BOUND, what was promised to that packet
//! and to no other, from the last field of its `in` line: the first packet to go of those that waited as long; WAIT as a share of BOUND, and
//! the largest share of its own bound that any packet of the class has waited, both in whole percent, rounded up. That packet need not be the
//! one of WAIT: with little before it in its queue a packet is promised less. A leaf that has sent nothing has 0 in all six. What still waits
//! at the end is in none of them: the last number says how many those are.
//! Where the plan is refused, `stop` number place is the only line, as in a run; where the run stops at an event, it is the last line, after
//! those of the leaves up to there. An input may have any length: number 10 is left out.
//! Everything is read off the lines of a run and the plan's weights. The bytes from acceptance on are added up once more on the way, from the
//! lines alone: for each waiting packet the charges of all `out` lines after its `in` line, up to and with its own. Where that is not the
//! line's last field, or above the packet's bound, the program ends with 2. All arithmetic here is in 128 bits.
//! Build: rustc -O --edition 2021 waited.rs; test: rustc -O --edition 2021 --test waited.rs -o waited_test, run with --skip second::

#[path = "plan.rs"]
mod plan;
#[allow(dead_code)]
#[path = "second.rs"]
mod second;

use std::collections::VecDeque;
use std::io::Write;

/// A packet that waits: its bound, and what was charged since its `in` line.
struct Waiting {
    bound: u128,
    since: u128,
}

/// What is told of a leaf; the shares are worked out as the packets go.
#[derive(Clone, Copy, Default)]
struct Told {
    packets: u128,
    bytes: u128,
    longest: u128,
    bound: u128,
    share: u128,
    nearest: u128,
}

/// "The charge is therefore the larger of length + 4 and 64, plus 20."
fn charge(length: u128) -> u128 {
    (length + 4).max(64) + 20
}

/// "at most (D/w rounded up, plus 1) times Q bytes"; "Demand 3 keeps the whole-tree Q under both rules", which the `link` line has.
fn bound(d: u128, w: u128, q: u128) -> u128 {
    (d.div_ceil(w) + 1) * q
}

/// The share in whole percent, rounded up.
fn percent(wait: u128, bound: u128) -> u128 {
    (wait * 100).div_ceil(bound)
}

impl Told {
    /// A packet of the leaf has gone.
    fn gone(&mut self, charge: u128, wait: u128, bound: u128) {
        self.packets += 1;
        self.bytes += charge;
        let share = percent(wait, bound);
        if wait > self.longest {
            (self.longest, self.bound, self.share) = (wait, bound, share);
        }
        self.nearest = self.nearest.max(share);
    }

    fn line(&self, class: usize, waiting: usize) -> String {
        let Told { packets, bytes, longest, bound, share, nearest } = self;
        let beside = format!("longest {longest} bound {bound} share {share} nearest {nearest}");
        format!("leaf {class} packets {packets} bytes {bytes} {beside} waiting {waiting}")
    }
}

/// The lines for the lines of a run over this tree.
fn told(tree: &plan::Tree, run: &[String]) -> Vec<String> {
    let all = tree.classes.len();
    let (mut told, mut waiting) = (vec![Told::default(); all], Vec::new());
    waiting.resize_with(all, VecDeque::<Waiting>::new);
    let (mut size, mut stop) = (0, None);
    for line in run {
        let words: Vec<&str> = line.split(' ').collect();
        let number = |position: usize| words[position].parse::<u128>().expect("a number");
        let class = || words[1].parse::<usize>().expect("a class");
        match words[0] {
            "link" => size = number(2),
            "in" => {
                let weight = u128::from(tree.classes[class()].weight);
                waiting[class()].push_back(Waiting { bound: bound(number(4), weight, size), since: 0 });
            }
            "out" => {
                let cost = charge(number(2));
                waiting.iter_mut().flatten().for_each(|packet| packet.since += cost);
                let Waiting { bound, since } = waiting[class()].pop_front().expect("a packet left that never came");
                assert_eq!(number(5), since, "{line}: other bytes than were charged from acceptance on");
                assert!(since <= bound, "{line}: above the bound {bound}");
                told[class()].gone(cost, number(5), bound);
            }
            "stop" => stop = Some(line.clone()),
            _ => (),
        }
    }
    let leaves = (1..all).filter(|&class| tree.is_leaf(class));
    leaves.map(|leaf| told[leaf].line(leaf, waiting[leaf].len())).chain(stop).collect()
}

/// The lines for an input.
fn lines_of(input: &[u8]) -> Vec<String> {
    let run = second::run_of_any_length(input).lines;
    match plan::read_plan(input) {
        Ok((tree, _)) => told(&tree, &run),
        Err(_) => run,
    }
}

/// Input or output that fails ends with 1, a failed assertion (its message is on standard error) with 2.
fn main() {
    let Ok(input) = plan::read_all() else { std::process::exit(1) };
    let Ok(lines) = std::panic::catch_unwind(|| lines_of(&input)) else { std::process::exit(2) };
    let text = lines.join("\n") + "\n";
    if std::io::stdout().write_all(text.as_bytes()).is_err() {
        std::process::exit(1);
    }
}

#[cfg(test)]
mod tests {
    use super::*;

    /// Tree P's plan, under a rule, and events after it: (class, length) arrives, class 0 is a send.
    fn input_p(rule: u8, events: &[(u8, u16)]) -> Vec<u8> {
        let mut input = [&[3, rule], &include_bytes!("tree_p.bin")[..31]].concat();
        for (tag, &(class, length)) in (1u32..).zip(events) {
            match class {
                0 => input.push(17),
                _ => input.extend([&[16, class][..], &length.to_be_bytes(), &tag.to_be_bytes()].concat()),
            }
        }
        input
    }

    #[test]
    fn the_listing_by_hand() {
        // Q is 262 and every packet is charged 84. Leaf 2, weight 1: D 84, so 85 × 262 = 22,270, and 168 of it are 0.75 percent. Leaf 3, weight
        // 2: tag 2 has D 84 and 43 × 262 = 11,266, of which 252 are 2.2 percent, tag 3 has D 168 and 22,270, of which 336 are 1.5 percent: the
        // longest wait is tag 3's and the largest share tag 2's. Leaf 4, weight 4: D 84, 22 × 262 = 5,764, and 84 of it are 1.4 percent.
        let lines = [
            "leaf 2 packets 1 bytes 84 longest 168 bound 22270 share 1 nearest 1 waiting 0",
            "leaf 3 packets 2 bytes 168 longest 336 bound 22270 share 2 nearest 3 waiting 0",
            "leaf 4 packets 1 bytes 84 longest 84 bound 5764 share 2 nearest 2 waiting 0",
        ];
        assert_eq!(lines_of(include_bytes!("tree_p.bin")), lines);
        // under rule 2 tag 2 goes second and tag 1 third, and Q stays the whole tree's: 168 of 11,266 and 252 of 22,270 are above 1 percent
        let under_2 = lines_of(&[&[3, 2], &include_bytes!("tree_p.bin")[..]].concat());
        assert_eq!(under_2[0], "leaf 2 packets 1 bytes 84 longest 252 bound 22270 share 2 nearest 2 waiting 0");
        assert_eq!(under_2[1..], ["leaf 3 packets 2 bytes 168 longest 336 bound 22270 share 2 nearest 2 waiting 0", lines[2]]);
    }

    #[test]
    fn nothing_sent() {
        let none = |waiting: [usize; 3]| -> Vec<String> {
            let line = |(leaf, n)| format!("leaf {leaf} packets 0 bytes 0 longest 0 bound 0 share 0 nearest 0 waiting {n}");
            (2..).zip(waiting).map(line).collect()
        };
        assert_eq!(lines_of(&input_p(1, &[])), none([0, 0, 0]));
        // what still waits counts for nothing but the last number, and a refused arrival or a send that finds none for nothing at all
        assert_eq!(lines_of(&input_p(1, &[(0, 0), (2, 11), (1, 10), (3, 10), (3, 9), (4, 10)])), none([0, 2, 1]));
    }

    #[test]
    fn the_first_of_those_that_waited_as_long() {
        // Leaf 4 sends two alone: 84 of 5,764, and 168 of (42 + 1) × 262 = 11,266. Then one comes with an empty queue before it, and leaf 2's,
        // which has 111 of the next round, goes first: 168 of 5,764, which is 2.9 percent. The longest wait is the second packet's.
        let input = input_p(1, &[(4, 10), (4, 10), (0, 0), (0, 0), (4, 10), (2, 2), (0, 0), (0, 0)]);
        let lines = lines_of(&input);
        assert_eq!(lines[0], "leaf 2 packets 1 bytes 84 longest 84 bound 22270 share 1 nearest 1 waiting 0");
        assert_eq!(lines[2], "leaf 4 packets 3 bytes 252 longest 168 bound 11266 share 2 nearest 3 waiting 0");
    }

    #[test]
    fn rounded_up() {
        assert_eq!([(0, 7), (1, 100), (1, 101), (100, 101), (99, 100), (100, 100)].map(|(wait, bound)| percent(wait, bound)), [0, 1, 1, 100, 99, 100]);
        assert_eq!([(84, 4), (85, 4), (1, 1_000_000)].map(|(d, w)| bound(d, w, 262)), [22 * 262, 23 * 262, 2 * 262]);
        assert_eq!([1, 60, 61, 9_216].map(charge), [84, 84, 85, 9_240]);
    }

    #[test]
    fn where_the_run_stops() {
        assert_eq!(lines_of(&[]), ["stop 1 0"]);
        assert_eq!(lines_of(&[0]), ["stop 9 0"]);
        assert_eq!(lines_of(&[3, 7]), ["stop 17 0"]);
        let mut input = input_p(1, &[(4, 10), (0, 0), (2, 10)]);
        let sent = [
            "leaf 2 packets 0 bytes 0 longest 0 bound 0 share 0 nearest 0 waiting 1",
            "leaf 3 packets 0 bytes 0 longest 0 bound 0 share 0 nearest 0 waiting 0",
            "leaf 4 packets 1 bytes 84 longest 84 bound 5764 share 2 nearest 2 waiting 0",
        ];
        assert_eq!(lines_of(&input), sent);
        let whole = input.len();
        input.extend([16, 4]);
        assert_eq!(lines_of(&input), [&sent[..], &["stop 1 50"]].concat());
        // an input of any length: the packet of leaf 2 goes alone
        input.truncate(whole);
        input.resize(plan::MOST_INPUT + 1, 17);
        assert_eq!(lines_of(&input), ["leaf 2 packets 1 bytes 84 longest 84 bound 22270 share 1 nearest 1 waiting 0", sent[1], sent[2]]);
    }

    /// A field that is not the sum of charges, or is above its bound, is seen.
    #[test]
    fn wrong_lines() {
        let (tree, _) = plan::read_plan(include_bytes!("tree_p.bin")).unwrap();
        let lines = |text: &str| text.split('/').map(str::to_string).collect::<Vec<String>>();
        let right = "leaf 4 packets 1 bytes 84 longest 84 bound 5764 share 2 nearest 2 waiting 0";
        assert_eq!(told(&tree, &lines("link 4 262/in 4 10 1 84/out 4 10 1 1 84/end 0"))[2], right);
        for wrong in ["link 4 262/in 4 10 1 84/out 4 10 1 1 85/end 0", "link 4 262/in 4 10 1 84/out 4 10 1 1 0", "link 4 3/in 4 10 1 84/out 4 10 1 1 84"] {
            assert!(std::panic::catch_unwind(|| told(&tree, &lines(wrong))).is_err());
        }
    }
}
