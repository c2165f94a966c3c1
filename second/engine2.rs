//! Both engines side by side on a run: `engine2 < input`, a plan and its events as bytes, the input of a run. Written from the request's
//! own words and from section IV of the published HLS paper: permits are shared out only when a leaf is visited; a class that has no quota yet in
//! this round asks its parent, which asks its own parent, up to the root; both engines give the same sends, refusals and round counts, and equal
//! accounts at each moment a round has closed, before the next one opens (R315 to R338).
//! After each line of the run but the last it prints, of the classes 0, 1, .. to the last,
//!     first B R B R ..      balance and residual in the engine that shares out at the opening, which is the one of second.rs
//!     second B R B R ..     the same in the engine as published
//!     asked CLASS CLASS ..  the classes that have their quota in this round, upward; `asked` alone where none has
//! and nothing after `end` or `stop`.
//! The reader, the plan rules, the queues and the charges are those of second.rs. Everything that touches an account or a round in the second
//! engine is worded here once more, from equations (4) to (11) of that paper: it has a link record of its own, and reads nothing of the first's.
//! The request and the paper leave some of it open. The lab's engine has it so: who is active, main or surplus, the size in force and the root's difference
//! (E8) are settled when the round opens; every active leaf that is visited asks, also one that then cannot send; in a surplus round the root
//! has its quota, 0, from the opening on.
//! Where the two engines answer another thing, where their accounts are not equal at a closing, where a state breaks the second engine's list, or
//! where the second engine's accounts are not the first's once every active leaf has asked, the program ends with 2.
//! With SECOND_STATS set the counts go to standard error.
//! Build: rustc -O --edition 2021 engine2.rs; test: rustc -O --edition 2021 --test engine2.rs -o engine2_test, run with --skip second::

#[allow(dead_code)]
#[path = "second.rs"]
mod second;

use second::plan::*;
use second::{arrival, charged_on_the_link, fresh_link, send, totals, Account, Link, Packet};
use std::io::Write;

// ---------------------------------------------------------------------------------------------
// The engine as published.

/// The second engine's link: a record of its own, and what it knows of this round.
#[derive(Clone)]
struct Published {
    link: Link,
    /// Who has asked, and so has its quota, in this round; a leaf hands nothing down, so that its fair quota is 0.
    asked: Vec<bool>,
    fair: Vec<u64>,
    /// The size that the main round's opening has set, and the one before it, until the root has taken the difference.
    sizes: Option<(u64, u64)>,
}

/// The answer to a send, with the accounts at each closing in it and which of the rounds opened were surplus rounds.
#[derive(Clone, PartialEq, Eq, Debug)]
struct Answer {
    line: String,
    surplus: Vec<bool>,
    closings: Vec<Vec<Account>>,
}

impl Published {
    /// "root balance Q, every other B and R zero, queues empty, nothing active, place 64", and nobody has asked.
    fn fresh(tree: &Tree) -> Published {
        let (link, refused) = fresh_link(tree);
        assert!(refused.is_none(), "a plan that was read gives no fresh link");
        let all = tree.classes.len();
        Published { link, asked: vec![false; all], fair: vec![0; all], sizes: None }
    }

    fn all(&self) -> usize {
        self.link.tree.classes.len()
    }

    fn parent(&self, class: usize) -> usize {
        self.link.tree.classes[class].parent
    }

    fn weight(&self, class: usize) -> u64 {
        self.link.tree.classes[class].weight
    }

    fn is_active_leaf(&self, class: usize) -> bool {
        self.link.tree.is_leaf(class) && self.link.active[class]
    }

    /// Equation (5): "the sum of the weights of the active child classes of class i".
    fn active_weights(&self, class: usize) -> u64 {
        (1..self.all()).filter(|&k| self.parent(k) == class && self.link.active[k]).fold(0, |sum, k| add(sum, self.weight(k)))
    }

    /// "a class that has no quota yet in this round asks its parent, which asks its own parent, up to the root"; "When the requests .. reach a
    /// class that already has computed its quota in the current round, no further upstream requests are made." Gives the fair quota F.
    fn ask(&mut self, class: usize) -> u64 {
        if self.asked[class] {
            return self.fair[class];
        }
        if class == ROOT {
            self.root_update();
        } else {
            let from_above = self.ask(self.parent(class));
            self.update(class, from_above);
        }
        self.asked[class] = true;
        if !self.link.tree.is_leaf(class) {
            // (4): B over the weights of the active children, rounded down
            self.fair[class] = div(self.link.accounts[class].balance, self.active_weights(class));
        }
        self.fair[class]
    }

    /// (6): "the residual is added to the balance and then reset", in a main round only, as in a surplus round nobody gets here; "the root takes
    /// the difference once its residual has joined its balance".
    fn root_update(&mut self) {
        let root = &mut self.link.accounts[ROOT];
        root.balance = add(root.balance, root.residual);
        root.residual = 0;
        if let Some((new, old)) = self.sizes.take() {
            root.balance = sub(add(root.balance, new), old);
        }
    }

    /// (7), and (8) for a leaf, whose residual is 0: the class takes R and weight times its parent's fair quota into B, and the parent's balance
    /// "is reduced by the same amount".
    fn update(&mut self, class: usize, from_above: u64) {
        let (parent, quota) = (self.parent(class), mul(self.weight(class), from_above));
        let above = &mut self.link.accounts[parent];
        above.balance = sub(above.balance, quota);
        let own = &mut self.link.accounts[class];
        own.balance = add(add(own.balance, own.residual), quota);
        own.residual = 0;
    }

    /// The round goes on: the next leaf is visited, and asks "before transmitting packets". Gives the leaf that can send; none where the round
    /// has closed.
    fn visit(&mut self) -> Option<usize> {
        loop {
            let leaf = (self.link.place..self.all()).find(|&class| self.is_active_leaf(class))?;
            self.ask(leaf);
            if self.link.accounts[leaf].balance >= self.link.queues[leaf][0].charge() {
                return Some(leaf);
            }
            self.link.place = leaf + 1;
        }
    }

    /// A new round: "all backlogged classes are marked as active", and it is known whether it is a main or a surplus round. No account moves.
    fn open(&mut self) -> bool {
        let all = self.all();
        self.link.active = (0..all).map(|class| !self.link.queues[class].is_empty()).collect();
        // "An internal class is active if at least one of its child classes is active"; the children have higher numbers
        for class in (1..all).rev() {
            if self.link.active[class] {
                let parent = self.parent(class);
                self.link.active[parent] = true;
            }
        }
        self.link.place = 1;
        self.asked = vec![false; all];
        self.fair = vec![0; all];
        // "at least one internal class i satisfies B + R >= w_ac", of the active ones
        let surplus = (1..all).any(|class| {
            let account = self.link.accounts[class];
            self.link.tree.is_inner(class) && self.link.active[class] && add(account.balance, account.residual) >= self.active_weights(class)
        });
        if surplus {
            // "In a surplus round the root returns F = 0"; its account stays
            self.asked[ROOT] = true;
        } else if self.link.tree.rule == ACTIVE_CLASSES {
            self.set_size();
        }
        surplus
    }

    /// "Under rule 2 the size in force is set anew at each main round's opening": "active weights plus active leaves' longest packets".
    fn set_size(&mut self) {
        let mut size = 0;
        for class in (1..self.all()).filter(|&class| self.link.active[class]) {
            size = add(size, self.weight(class));
            if self.link.tree.is_leaf(class) {
                size = add(size, charge(self.link.tree.classes[class].longest));
            }
        }
        self.sizes = Some((size, self.link.in_force));
        self.link.in_force = size;
    }

    /// The leaf's first packet goes: (9), and where it was the last, (10) and (11).
    fn transmit(&mut self, leaf: usize) -> Packet {
        let cost = self.link.queues[leaf][0].charge();
        charged_on_the_link(&mut self.link, cost);
        let packet = self.link.queues[leaf].remove(0);
        totals::left(&mut self.link, leaf, cost);
        self.link.accounts[leaf].balance = sub(self.link.accounts[leaf].balance, cost);
        self.link.accounts[ROOT].balance = add(self.link.accounts[ROOT].balance, cost);
        self.link.place = leaf;
        if self.link.queues[leaf].is_empty() {
            self.turn_idle(leaf);
        }
        packet
    }

    /// (10) and (11): a class that turns idle returns its balance and residual to its parent's residual; "An internal class becomes idle if all its
    /// children are idle". "The root turns inactive with its last active child and keeps its account." Who has asked has asked, idle or not.
    fn turn_idle(&mut self, class: usize) {
        self.link.active[class] = false;
        if class == ROOT {
            return;
        }
        let parent = self.parent(class);
        let own = std::mem::replace(&mut self.link.accounts[class], Account { balance: 0, residual: 0 });
        let above = &mut self.link.accounts[parent];
        above.residual = add(above.residual, add(own.balance, own.residual));
        if self.active_weights(parent) == 0 {
            self.turn_idle(parent);
        }
    }

    /// A send: 15 where no packet waits; else the round goes on, and rounds open, until a packet goes.
    fn send(&mut self) -> Result<Answer, Refusal> {
        if self.link.queues.iter().all(Vec::is_empty) {
            return refuse(15, 0);
        }
        let (mut surplus, mut closings) = (Vec::new(), Vec::new());
        loop {
            if let Some(leaf) = self.visit() {
                let packet = self.transmit(leaf);
                let line = format!("out {leaf} {} {} {} {}", packet.length, packet.tag, surplus.len(), packet.since);
                return Ok(Answer { line, surplus, closings });
            }
            // "the round has closed at that moment"
            closings.push(self.link.accounts.clone());
            assert!(surplus.last() != Some(&false), "a main round of the second engine sent nothing");
            surplus.push(self.open());
        }
    }

    // -----------------------------------------------------------------------------------------
    // "so the second engine has a soundness list of its own"

    fn is_above(&self, above: usize, class: usize) -> bool {
        class == above || class != ROOT && self.is_above(above, self.parent(class))
    }

    /// The first rule of the list that a state between two calls breaks. What stands in the first engine's list holds here too; the rest is of who
    /// has asked.
    fn broken_rule(&self) -> Option<&'static str> {
        if let Some(rule) = self.link.broken_rule() {
            return Some(rule);
        }
        if self.sizes.is_some() {
            return Some("the root has taken the difference");
        }
        for class in 0..self.all() {
            let (is_leaf, asked, place) = (self.link.tree.is_leaf(class), self.asked[class], self.link.place);
            if is_leaf && self.link.active[class] && class < place && !asked {
                return Some("an active leaf below the place has been visited, and so has asked");
            }
            if is_leaf && class > place && asked {
                return Some("a leaf past the place has not been visited, and so has not asked");
            }
            if !is_leaf && asked != (1..self.all()).any(|leaf| self.link.tree.is_leaf(leaf) && self.asked[leaf] && self.is_above(class, leaf)) {
                return Some("a class above has its quota exactly when a leaf below it has asked");
            }
            if !asked && self.fair[class] != 0 {
                return Some("a class that has not asked has no quota");
            }
            let due = (1..self.all()).filter(|&k| self.parent(k) == class && self.link.active[k] && !self.asked[k]);
            let due = due.fold(0, |sum, k| add(sum, mul(self.weight(k), self.fair[class])));
            if asked && due > self.link.accounts[class].balance {
                return Some("a class with its quota still has what those of its active children are due that have not asked");
            }
        }
        None
    }

    /// The accounts once every active leaf that has not been visited in this round has asked.
    fn caught_up(&self) -> Vec<Account> {
        let mut all_asked = self.clone();
        for leaf in (1..self.all()).filter(|&class| self.is_active_leaf(class)) {
            all_asked.ask(leaf);
        }
        all_asked.link.accounts
    }
}

// ---------------------------------------------------------------------------------------------
// Both engines, side by side.

/// Counts for the comparison; they have no part in the lines.
#[derive(Default, PartialEq, Eq, Debug)]
struct Counts {
    events: u64,
    lines: u64,
    /// Moments at which a round had closed, in both engines with equal accounts.
    closings: u64,
    /// States, one for each line of the run but the last, in which the accounts differ, and those of them in which a residual does.
    states: u64,
    differ: u64,
    residuals_differ: u64,
}

/// The two links of a run, the lines so far, and what was counted.
struct Both {
    first: Link,
    second: Published,
    lines: String,
    counts: Counts,
}

/// A word and the balance and residual of each class.
fn accounts_line(word: &str, accounts: &[Account]) -> String {
    accounts.iter().fold(word.to_string(), |line, account| format!("{line} {} {}", account.balance, account.residual))
}

impl Both {
    /// A line of the run, and the states after it.
    fn state(&mut self, line: &str) {
        let (first, second) = (&self.first, &self.second);
        if let Some(rule) = second.broken_rule() {
            panic!("after {line}, this rule of the second engine is broken: {rule}");
        }
        let same = (&first.active, first.place, first.in_force, &first.queues) == (&second.link.active, second.link.place, second.link.in_force, &second.link.queues);
        assert!(same, "after {line}: the engines differ in more than their accounts");
        assert_eq!(first.accounts, second.caught_up(), "after {line}: all have asked, and the accounts differ");
        let asked: String = (0..second.all()).filter(|&class| second.asked[class]).map(|class| format!(" {class}")).collect();
        let (one, two) = (&first.accounts, &second.link.accounts);
        self.counts.states += 1;
        self.counts.differ += u64::from(one != two);
        self.counts.residuals_differ += u64::from(one.iter().zip(two).any(|(one, two)| one.residual != two.residual));
        let lines = format!("{line}\n{}\n{}\nasked{asked}\n", accounts_line("first", one), accounts_line("second", two));
        self.counts.lines += 4;
        self.lines += &lines;
    }

    /// The same arrival in both.
    fn arrive(&mut self, body: &[u8]) {
        let (class, length, tag) = (big_endian(&body[0..1]) as usize, big_endian(&body[1..3]), big_endian(&body[3..7]));
        self.counts.events += 1;
        let answers = [&mut self.first, &mut self.second.link].map(|link| arrival(link, class, length, tag));
        assert_eq!(answers[0], answers[1], "the engines answer an arrival differently");
        match answers[0] {
            Ok(waiting) => self.state(&format!("in {class} {length} {tag} {waiting}")),
            Err(refusal) => self.state(&format!("no {class} {length} {tag} {}", refusal.number)),
        }
    }

    /// A send in both: "the same sends, refusals and round counts, and equal accounts at each moment a round has closed".
    fn send(&mut self) {
        self.counts.events += 1;
        match (send(&mut self.first), self.second.send()) {
            (Ok(one), Ok(two)) => {
                assert_eq!((one.line(), &one.surplus), (two.line.clone(), &two.surplus), "the engines answer a send differently");
                assert_eq!(one.closings.len(), two.closings.len());
                for (one, two) in one.closings.iter().zip(&two.closings) {
                    let pairs = one.balances.iter().zip(&one.residuals);
                    let one: Vec<Account> = pairs.map(|(&balance, &residual)| Account { balance, residual }).collect();
                    assert_eq!(&one, two, "a round has closed, and the accounts differ");
                    self.counts.closings += 1;
                }
                self.state(&two.line);
            }
            (Err(one), Err(two)) => {
                assert_eq!((one, one.number), (two, 15), "the engines refuse a send differently");
                self.state("none");
            }
            (one, two) => panic!("one engine sends and the other refuses: {one:?} {two:?}"),
        }
    }

    fn end(mut self, line: &str) -> (String, Counts) {
        self.lines += line;
        self.lines.push('\n');
        self.counts.lines += 1;
        (self.lines, self.counts)
    }
}

/// "`stop` number place".
fn stop(refusal: Refusal) -> String {
    format!("stop {} {}", refusal.number, refusal.place)
}

/// All lines of an input of which at most 65,537 bytes were read.
fn run(input: &[u8]) -> (String, Counts) {
    let only = |refusal| (stop(refusal) + "\n", Counts { lines: 1, ..Counts::default() });
    if input.len() > MOST_INPUT {
        return only(Refusal { number: 10, place: MOST_INPUT });
    }
    let (tree, used) = match read_plan(input) {
        Ok(plan) => plan,
        Err(refusal) => return only(refusal),
    };
    let mut both = Both { first: fresh_link(&tree).0, second: Published::fresh(&tree), lines: String::new(), counts: Counts::default() };
    both.state(&format!("link {} {}", tree.count(), tree.round_size()));
    let mut at = used;
    loop {
        match event_at(input, at) {
            Ok(Some(Event::Arrival(body))) => {
                both.arrive(body);
                at += 8;
            }
            Ok(Some(Event::Send)) => {
                both.send();
                at += 1;
            }
            Ok(None) => {
                let waiting: usize = both.second.link.queues.iter().map(Vec::len).sum();
                return both.end(&format!("end {waiting}"));
            }
            Err(refusal) => return both.end(&stop(refusal)),
        }
    }
}

/// Reads, runs, prints; input or output that fails ends with 1, a failed assertion (its message is on standard error) with 2.
fn main() {
    let Ok(input) = read_input() else { std::process::exit(1) };
    let Ok((lines, counts)) = std::panic::catch_unwind(|| run(&input)) else { std::process::exit(2) };
    let mut standard_output = std::io::stdout();
    if standard_output.write_all(lines.as_bytes()).and_then(|()| standard_output.flush()).is_err() {
        std::process::exit(1);
    }
    if std::env::var_os("SECOND_STATS").is_some() {
        let Counts { events, lines, closings, states, differ, residuals_differ } = counts;
        eprintln!("events={events} lines={lines} closings={closings} states={states} differ={differ} residuals_differ={residuals_differ}");
    }
}

// ---------------------------------------------------------------------------------------------
// Tree P by hand under both rules, a surplus round that sends nothing, a residual that waits for its class to ask, and a list that is kept.

#[cfg(test)]
mod tests {
    use super::*;

    /// One inner class record.
    fn inner(parent: u8, weight: u32) -> Vec<u8> {
        [vec![1, parent], weight.to_be_bytes().to_vec()].concat()
    }

    /// One leaf record.
    fn leaf(parent: u8, weight: u32, longest: u16) -> Vec<u8> {
        [vec![2, parent], weight.to_be_bytes().to_vec(), longest.to_be_bytes().to_vec()].concat()
    }

    /// One arrival of 10 bytes, which are charged 84.
    fn to(class: u8) -> Vec<u8> {
        vec![16, class, 0, 10, 0, 0, 0, class]
    }

    /// The lines of a run from one on.
    fn lines_from(input: &[u8], from: &str) -> Vec<String> {
        let lines: Vec<String> = run(input).0.lines().map(str::to_string).collect();
        let start = lines.iter().position(|line| line == from).expect(from);
        lines[start..].to_vec()
    }

    #[test]
    fn tree_p_by_hand() {
        // Each packet is charged 84; leaf 2 holds one, leaf 3 two, leaf 4 one. Q is 262, all of it the root's.
        // Send 1. Nothing is active at place 64: the round has closed. 0 to 4 are active; class 1 has 0 + 0, below 1 + 2: a main round, place 1.
        //   Leaf 2 is visited and asks class 1, which asks the root. The root has 262 + 0: its quota is 262 / 7, 37. Class 1 takes 3 * 37 = 111, the
        //   root keeps 151; its quota is 111 / 3 = 37. Leaf 2 takes 37, class 1 keeps 74. 37 is below 84: place 3.
        //   Leaf 3 asks class 1, which has its quota: it takes 2 * 37 = 74, class 1 keeps 0. 74 is below 84: place 4.
        //   Leaf 4 asks the root, which has its quota: it takes 4 * 37 = 148, the root keeps 3. It sends: 64, and the root has 87. It is empty: its
        //   64 are the root's residual. All have asked, and the first engine has the same.
        // Send 2. No active leaf from place 4 on: closed, with equal accounts. 0 to 3 are active, class 1 has 0: a main round.
        //   Leaf 2 asks, and class 1, and the root, which has 87 + 64 = 151: 151 / 3 is 50. Class 1 takes 150, the root keeps 1; 150 / 3 is 50.
        //   Leaf 2 takes 50 and has 87, class 1 keeps 100. It sends: 3, and the root has 85. It is empty: its 3 are class 1's residual.
        //   Leaf 3 has not asked. It has 74, and its 100 are still in class 1; in the first engine it has 174 and class 1 has 0.
        // Send 3. Leaf 3 is visited, and asks class 1, which has its quota 50: it takes 100 and has 174, class 1 keeps 0. It sends: 90, root 169.
        // Send 4. Leaf 3 has 90 and sends: 6, root 253. It is empty: class 1 has 0 and 3 + 6, has no active child and gives 9 to the root's residual.
        // Send 5 finds nothing, and this is still the second round, in which 0, 1, 2 and 3 have asked.
        let expected = [
            "link 4 262", "first 262 0 0 0 0 0 0 0 0 0", "second 262 0 0 0 0 0 0 0 0 0", "asked",
            "in 2 2 1 84", "first 262 0 0 0 0 0 0 0 0 0", "second 262 0 0 0 0 0 0 0 0 0", "asked",
            "in 3 10 2 84", "first 262 0 0 0 0 0 0 0 0 0", "second 262 0 0 0 0 0 0 0 0 0", "asked",
            "in 3 10 3 168", "first 262 0 0 0 0 0 0 0 0 0", "second 262 0 0 0 0 0 0 0 0 0", "asked",
            "in 4 10 4 84", "first 262 0 0 0 0 0 0 0 0 0", "second 262 0 0 0 0 0 0 0 0 0", "asked",
            "out 4 10 4 1 84", "first 87 64 0 0 37 0 74 0 0 0", "second 87 64 0 0 37 0 74 0 0 0", "asked 0 1 2 3 4",
            "out 2 2 1 1 168", "first 85 0 0 3 0 0 174 0 0 0", "second 85 0 100 3 0 0 74 0 0 0", "asked 0 1 2",
            "out 3 10 2 0 252", "first 169 0 0 3 0 0 90 0 0 0", "second 169 0 0 3 0 0 90 0 0 0", "asked 0 1 2 3",
            "out 3 10 3 0 336", "first 253 9 0 0 0 0 0 0 0 0", "second 253 9 0 0 0 0 0 0 0 0", "asked 0 1 2 3",
            "none", "first 253 9 0 0 0 0 0 0 0 0", "second 253 9 0 0 0 0 0 0 0 0", "asked 0 1 2 3",
            "end 0",
        ];
        let (lines, counts) = run(include_bytes!("tree_p.bin"));
        assert_eq!(lines.lines().collect::<Vec<_>>(), expected);
        assert_eq!(counts, Counts { events: 9, lines: 41, closings: 2, states: 10, differ: 1, residuals_differ: 0 });
        // the lines of the run are those of the listing
        let listing: Vec<&str> = lines.lines().filter(|line| !["first", "second", "asked"].contains(&line.split(' ').next().unwrap())).collect();
        assert_eq!(listing.join("\n") + "\n", include_str!("tree_p.txt"));
    }

    #[test]
    fn tree_p_rule_2_by_hand() {
        // Send 1 as under rule 1: all are active, and the size stays 262.
        // Send 2. Classes 1, 2 and 3 are active: 3 + 1 + 2 and twice 84, 174. The root has 87 + 64 + 174 - 262 = 63, its quota is 21. Class 1 takes
        //   63, the root keeps 0; 63 / 3 is 21. Leaf 2 takes 21 and has 58, below 84. Leaf 3 takes 42 and has 116, sends and has 32; root 84.
        // Send 3. 32 is below 84: closed. The size stays 174, the root has 84, its quota is 28. Class 1 takes 84, root 0; 84 / 3 is 28. Leaf 2 takes 28
        //   and has 86, class 1 keeps 56. It sends: 2, to class 1's residual; root 84. Leaf 3 has not asked: 32, and 88 in the first engine.
        // Send 4. Leaf 3 takes 56: 88; sends: 4, root 168. Class 1 gives 0 and 2 + 4 to the root's residual.
        let input = [&[3, 2][..], include_bytes!("tree_p.bin")].concat();
        let expected = [
            "out 4 10 4 1 84", "first 87 64 0 0 37 0 74 0 0 0", "second 87 64 0 0 37 0 74 0 0 0", "asked 0 1 2 3 4",
            "out 3 10 2 1 168", "first 84 0 0 0 58 0 32 0 0 0", "second 84 0 0 0 58 0 32 0 0 0", "asked 0 1 2 3",
            "out 2 2 1 1 252", "first 84 0 0 2 0 0 88 0 0 0", "second 84 0 56 2 0 0 32 0 0 0", "asked 0 1 2",
            "out 3 10 3 0 336", "first 168 6 0 0 0 0 0 0 0 0", "second 168 6 0 0 0 0 0 0 0 0", "asked 0 1 2 3",
            "none", "first 168 6 0 0 0 0 0 0 0 0", "second 168 6 0 0 0 0 0 0 0 0", "asked 0 1 2 3",
            "end 0",
        ];
        assert_eq!(lines_from(&input, "out 4 10 4 1 84"), expected);
    }

    #[test]
    fn a_surplus_round_by_hand() {
        // Classes 1 (leaves 2, 3) and 4 (leaves 5, 6) of weight 2, leaves of weight 1 and longest 10: Q is 8 + 4 * 84 = 344. Leaf 2 holds three
        // packets, leaf 5 one, leaf 6 two.
        // Send 1, a main round: 344 / 4 is 86. Class 1 takes 172, root 172; 172 / 1 is 172, leaf 2 takes it and sends: 88, root 256. The first
        //   engine's root has handed all down, and has 84; leaves 5 and 6 have 86.
        // Send 2: leaf 2 has 4, root 340 (168).
        // Send 3: leaf 2 has had its visit. Leaf 5 asks class 4, which asks the root: it takes 172, root 168; 172 / 2 is 86. Leaf 5 takes 86, class 4
        //   keeps 86, it sends and has 2, root 252; it is empty, and class 4 has residual 2.
        // Send 4: leaf 6 takes 86, class 4 keeps 0; it sends and has 2, root 336.
        // Send 5: 2 is below 84: closed. Leaves 2 and 6 are active. Class 1 has 0, below 1; class 4 has 0 + 2, at or above 1: a surplus round. The root
        //   has its quota, 0. Leaf 2 asks class 1, which takes 0: quota 0; leaf 2 has 4. Leaf 6 asks class 4, which takes its 2: quota 2; leaf 6 has 4.
        //   Closed: 336 and twice 4. Neither inner class has anything: a main round, 336 / 4 is 84. Class 1 takes 168, root 168; leaf 2 takes 168 and has
        //   172, sends and has 88, root 252. It is empty, class 1 too: 88 to the root's residual. Class 4 has not asked: its 168 are the root's.
        let plan = [inner(0, 2), leaf(1, 1, 10), leaf(1, 1, 10), inner(0, 2), leaf(4, 1, 10), leaf(4, 1, 10), vec![0]].concat();
        let arrivals = [2, 2, 2, 5, 6, 6].map(to).concat();
        let expected = [
            "out 2 10 2 1 84", "first 84 0 0 0 88 0 0 0 0 0 86 0 86 0", "second 256 0 0 0 88 0 0 0 0 0 0 0 0 0", "asked 0 1 2",
            "out 2 10 2 0 168", "first 168 0 0 0 4 0 0 0 0 0 86 0 86 0", "second 340 0 0 0 4 0 0 0 0 0 0 0 0 0", "asked 0 1 2",
            "out 5 10 5 0 252", "first 252 0 0 0 4 0 0 0 0 2 0 0 86 0", "second 252 0 0 0 4 0 0 0 86 2 0 0 0 0", "asked 0 1 2 4 5",
            "out 6 10 6 0 336", "first 336 0 0 0 4 0 0 0 0 2 0 0 2 0", "second 336 0 0 0 4 0 0 0 0 2 0 0 2 0", "asked 0 1 2 4 5 6",
            "out 2 10 2 2 420", "first 84 88 0 0 0 0 0 0 0 0 0 0 172 0", "second 252 88 0 0 0 0 0 0 0 0 0 0 4 0", "asked 0 1 2",
            "end 1",
        ];
        assert_eq!(lines_from(&[plan, arrivals, vec![17; 5]].concat(), expected[0]), expected);
    }

    #[test]
    fn a_residual_waits_for_its_class_by_hand() {
        // Class 1 of weight 2 (leaves 2, 3 of weight 1), class 4 of weight 4 (leaf 5 of weight 1, leaf 6 of weight 3); leaf 3 has longest 228, charged
        // 252, the others 84: Q is 12 + 3 * 84 + 252 = 516. Leaf 2 holds four packets, leaf 5 one, leaf 6 four.
        // A main round: 516 / 6 is 86. Leaf 2 has 172 and sends two, 4 stay. Leaf 5 asks: class 4 takes 344, its quota is 344 / 4 = 86; leaf 5 takes
        // 86, sends, and its 2 are class 4's residual. Leaf 6 takes 258 and sends three, 6 stay. Root 6 * 84 = 504.
        // Send 7: closed. Leaves 2 and 6 are active; class 4 has 0 + 2, below 3: a main round, 504 / 6 is 84. Leaf 2: class 1 takes 168, root 336, leaf 2
        //   has 172, sends and has 88, root 420. Class 4 has not asked, and its 2 are still its residual. In the first engine it has taken 2 and 336:
        //   338 / 3 is 112, leaf 6 has 6 + 336 = 342, class 4 keeps 2.
        // Send 8: leaf 2 has 4, is empty, and class 1 with it: 4 to the root's residual; root 504 (168).
        // Send 9: leaf 6 asks class 4, which takes 2 and 336: 338, root 168; its quota is 112, leaf 6 takes 336: 342, class 4 keeps 2. It sends its last:
        //   258, root 252. Class 4 gives 2 + 258 to the root's residual.
        let plan = [inner(0, 2), leaf(1, 1, 10), leaf(1, 1, 228), inner(0, 4), leaf(4, 1, 10), leaf(4, 3, 10), vec![0]].concat();
        let arrivals = [2, 2, 2, 2, 5, 6, 6, 6, 6].map(to).concat();
        let expected = [
            "out 6 10 6 0 504", "first 504 0 0 0 4 0 0 0 0 2 0 0 6 0", "second 504 0 0 0 4 0 0 0 0 2 0 0 6 0", "asked 0 1 2 4 5 6",
            "out 2 10 2 1 588", "first 84 0 0 0 88 0 0 0 2 0 0 0 342 0", "second 420 0 0 0 88 0 0 0 0 2 0 0 6 0", "asked 0 1 2",
            "out 2 10 2 0 672", "first 168 4 0 0 0 0 0 0 2 0 0 0 342 0", "second 504 4 0 0 0 0 0 0 0 2 0 0 6 0", "asked 0 1 2",
            "out 6 10 6 0 756", "first 252 264 0 0 0 0 0 0 0 0 0 0 0 0", "second 252 264 0 0 0 0 0 0 0 0 0 0 0 0", "asked 0 1 2 4 6",
            "end 0",
        ];
        let input = [plan, arrivals, vec![17; 9]].concat();
        assert_eq!(lines_from(&input, expected[0]), expected);
        assert_eq!(run(&input).1.residuals_differ, 2);
    }

    #[test]
    fn where_the_run_stops() {
        assert_eq!(run(&[]).0, "stop 1 0\n");
        assert_eq!(run(&[0]).0, "stop 9 0\n");
        assert_eq!(run(&[3, 7]).0, "stop 17 0\n");
        let mut input = [leaf(0, 1, 1), vec![0, 17, 16, 1, 0, 2, 0, 0, 0, 9, 16]].concat();
        let states = "first 85 0 0 0\nsecond 85 0 0 0\nasked\n";
        assert_eq!(run(&input).0, format!("link 1 85\n{states}none\n{states}no 1 2 9 13\n{states}stop 1 18\n"));
        input[18] = 3;
        assert!(run(&input).0.ends_with("asked\nstop 2 18\n"));
        input.resize(MOST_INPUT + 1, 17);
        assert_eq!(run(&input).0, "stop 10 65536\n");
    }

    /// A slip in the second engine's state is seen by its list.
    #[test]
    fn the_list_sees_slips() {
        let (tree, used) = read_plan(include_bytes!("tree_p.bin")).unwrap();
        assert_eq!(used, 31);
        let mut second = Published::fresh(&tree);
        assert_eq!(second.broken_rule(), None);
        for (class, tag) in [(2, 1), (3, 2), (3, 3), (4, 4)] {
            arrival(&mut second.link, class, 10, tag).unwrap();
        }
        second.send().unwrap();
        second.send().unwrap();
        assert_eq!((second.broken_rule(), &second.asked[..], &second.fair[..]), (None, &[true, true, true, false, false][..], &[50, 50, 0, 0, 0][..]));
        let slips: [fn(&mut Published); 7] = [
            |p| p.asked[3] = true,
            |p| p.asked[1] = false,
            |p| p.asked[0] = false,
            |p| (p.asked[1], p.asked[2]) = (false, false),
            |p| p.fair[1] = 51,
            |p| (p.link.accounts[1].balance, p.link.accounts[0].balance) = (99, 86),
            |p| p.sizes = Some((262, 262)),
        ];
        for slip in slips {
            let mut slipped = second.clone();
            slip(&mut slipped);
            assert!(slipped.broken_rule().is_some());
        }
    }
}
