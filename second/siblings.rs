//! "Two siblings, side by side", written from the customer's words only: "take two leaves i and j of one parent and two moments at which a round
//! has closed, both leaves holding a packet at every moment between. The charges sent by i times j's weight and those sent by j times i's weight
//! then differ by at most w_j × (L_i − 1) + w_i × (L_j − 1), L being the charged longest packet. It holds for both rules of E8 and any behaviour
//! of the other classes." In every run of this program every send goes through `Siblings::send`, which checks that for every pair of siblings and
//! every two closings. `second siblings I J < input` prints after each closing at which both hold a packet
//! `closing NUMBER SENT_I SENT_J APART MOST`: the charges sent since the first closing from which both have held a packet, by how much the two
//! products differ, and the bound; where one was empty since, the line `again` comes first and the numbers begin anew at 1.

use super::*;

/// Two leaves of one parent, the first with the lower number.
#[derive(Clone, Debug)]
struct Pair {
    leaves: [usize; 2],
    weights: [i128; 2],
    most: i128,
    stretch: Option<Stretch>,
    compared: bool,
}

/// The closings from one on, between which both leaves have held a packet at every moment.
#[derive(Clone, Debug)]
struct Stretch {
    /// How often each leaf had been emptied: another number means that it was empty since.
    emptied: [u64; 2],
    closings: u64,
    /// What each had sent at the first closing.
    sent: [u64; 2],
    /// The least and the largest of w_j × (sent by i) − w_i × (sent by j) at any of the closings.
    least: i128,
    largest: i128,
}

/// A leaf at the last closing, for the law that the bound rests on: its balance and what the opening then gave it, and what it had sent.
#[derive(Clone, Copy, Debug)]
struct AtClosing {
    emptied: u64,
    balance_and_gain: u64,
    sent: u64,
}

/// What is known of a run so far.
#[derive(Default)]
pub struct Siblings {
    pairs: Vec<Pair>,
    sent: Vec<u64>,
    emptied: Vec<u64>,
    last: Vec<Option<AtClosing>>,
    shown: Option<[usize; 2]>,
    lines: Vec<String>,
    /// Two closings compared for a pair, how often the bound was met exactly, and the largest share of it, in thousandths.
    pub checks: u64,
    pub exact: u64,
    pub thousandths: u64,
}

impl Siblings {
    /// Every two leaves of one parent, which may be the root.
    pub fn of(tree: &Tree) -> Siblings {
        let (all, mut pairs) = (tree.classes.len(), Vec::new());
        for i in (1..all).filter(|&i| tree.is_leaf(i)) {
            for j in (i + 1..all).filter(|&j| tree.is_leaf(j) && tree.classes[j].parent == tree.classes[i].parent) {
                let weights = [i, j].map(|leaf| i128::from(tree.classes[leaf].weight));
                let longest = [i, j].map(|leaf| i128::from(charge(tree.classes[leaf].longest)));
                let most = weights[1] * (longest[0] - 1) + weights[0] * (longest[1] - 1);
                pairs.push(Pair { leaves: [i, j], weights, most, stretch: None, compared: false });
            }
        }
        Siblings { pairs, sent: vec![0; all], emptied: vec![0; all], last: vec![None; all], ..Siblings::default() }
    }

    /// For how many pairs two closings were compared.
    pub fn compared(&self) -> usize {
        self.pairs.iter().filter(|pair| pair.compared).count()
    }

    /// A send of a run: "closings inside one send (two rounds in a call) are moments too", and each comes before the packet goes.
    pub fn send(&mut self, link: &mut Link) -> Result<Sent, Refusal> {
        let holds: Vec<bool> = link.queues.iter().map(|queue| !queue.is_empty()).collect();
        let sent = send(link)?;
        assert_eq!(sent.closings.len(), sent.rounds, "each round opened follows one that closed");
        for closing in &sent.closings {
            self.closing(&link.tree, &holds, closing);
        }
        self.sent[sent.class] = add(self.sent[sent.class], charge(sent.length));
        // an arrival may fill it again before the next closing, but it was empty at this moment
        self.emptied[sent.class] += u64::from(link.queues[sent.class].is_empty());
        Ok(sent)
    }

    /// A round has closed; `holds` tells who holds a packet at that moment.
    fn closing(&mut self, tree: &Tree, holds: &[bool], closing: &Closing) {
        for leaf in (1..tree.classes.len()).filter(|&leaf| tree.is_leaf(leaf)) {
            self.assert_law(tree, holds, closing, leaf);
        }
        for position in 0..self.pairs.len() {
            let [i, j] = self.pairs[position].leaves;
            if holds[i] && holds[j] {
                self.compare(position);
            }
        }
    }

    /// The law it rests on, from one closing to the next: a leaf that holds a packet all the time is in the round between them, so that its charges
    /// and its balance at the second are its balance at the first and its weight times its parent's quota; "a balance at a closing is below the
    /// charge of the longest".
    fn assert_law(&mut self, tree: &Tree, holds: &[bool], closing: &Closing, leaf: usize) {
        let (class, balance, sent, emptied) = (&tree.classes[leaf], closing.balances[leaf], self.sent[leaf], self.emptied[leaf]);
        assert!(balance < charge(class.longest), "leaf {leaf} has {balance} where a round closed");
        if let Some(last) = self.last[leaf].filter(|last| last.emptied == emptied) {
            let spent = sub(sent, last.sent);
            assert_eq!(add(spent, balance), last.balance_and_gain, "leaf {leaf} got or spent something else in a round");
        }
        let gain = mul(class.weight, closing.quotas[class.parent]);
        self.last[leaf] = if holds[leaf] { Some(AtClosing { emptied, balance_and_gain: add(balance, gain), sent }) } else { None };
    }

    /// Compares this closing with every earlier one of the pair's stretch: the least and the largest of them are enough.
    fn compare(&mut self, position: usize) {
        let pair = &mut self.pairs[position];
        let sent = pair.leaves.map(|leaf| self.sent[leaf]);
        let emptied = pair.leaves.map(|leaf| self.emptied[leaf]);
        let now = pair.weights[1] * i128::from(sent[0]) - pair.weights[0] * i128::from(sent[1]);
        let is_new = pair.stretch.as_ref().is_none_or(|stretch| stretch.emptied != emptied);
        let is_shown = self.shown.is_some_and(|shown| shown == pair.leaves || shown == [pair.leaves[1], pair.leaves[0]]);
        if is_new {
            if is_shown && pair.stretch.is_some() {
                self.lines.push("again".to_string());
            }
            pair.stretch = Some(Stretch { emptied, closings: 0, sent, least: now, largest: now });
        }
        let stretch = pair.stretch.as_mut().expect("there is one now");
        let apart = (now - stretch.least).max(stretch.largest - now);
        assert!(apart <= pair.most, "leaves {:?} are {apart} apart between two closings, above the bound {}", pair.leaves, pair.most);
        self.checks += stretch.closings;
        pair.compared |= stretch.closings > 0;
        self.exact += u64::from(apart == pair.most);
        self.thousandths = self.thousandths.max((apart * 1000 / pair.most) as u64);
        stretch.closings += 1;
        (stretch.least, stretch.largest) = (stretch.least.min(now), stretch.largest.max(now));
        if is_shown {
            let mut since = [0, 1].map(|k| sub(sent[k], stretch.sent[k]));
            let drift = (pair.weights[1] * i128::from(since[0]) - pair.weights[0] * i128::from(since[1])).abs();
            if self.shown != Some(pair.leaves) {
                since.reverse();
            }
            self.lines.push(format!("closing {} {} {} {drift} {}", stretch.closings, since[0], since[1], pair.most));
        }
    }
}

/// The lines of two siblings; where the run stops, that as the last line. A class that is no leaf: `no CLASS 12`, as for why it is silent.
fn lines_of(input: &[u8], shown: [usize; 2]) -> Vec<String> {
    let mut lines = Vec::new();
    if let Err(refusal) = follow(input, shown, &mut lines) {
        lines.push(format!("stop {} {}", refusal.number, refusal.place));
    }
    lines
}

/// Runs plan and events as a run does.
fn follow(input: &[u8], shown: [usize; 2], lines: &mut Vec<String>) -> Result<(), Refusal> {
    // "The program checks 10 before all else and then runs nothing."
    if input.len() > MOST_INPUT {
        return refuse(10, MOST_INPUT);
    }
    let (tree, mut first) = read_plan(input)?;
    lines.extend(shown.iter().filter(|&&class| !tree.is_leaf(class)).map(|class| format!("no {class} 12")));
    if !lines.is_empty() {
        return Ok(());
    }
    let siblings = tree.classes[shown[0]].parent == tree.classes[shown[1]].parent && shown[0] != shown[1];
    assert!(siblings, "classes {} and {} are no two leaves of one parent", shown[0], shown[1]);
    let (mut link, _) = fresh_link(&tree);
    let mut watch = Siblings { shown: Some(shown), ..Siblings::of(&tree) };
    while let Some(event) = event_at(input, first).inspect_err(|_| lines.append(&mut watch.lines))? {
        match event {
            Event::Arrival(body) => {
                let _ = arrival(&mut link, big_endian(&body[0..1]) as usize, big_endian(&body[1..3]), big_endian(&body[3..7]));
                first += 8;
            }
            Event::Send => {
                let _ = watch.send(&mut link);
                first += 1;
            }
        }
    }
    lines.append(&mut watch.lines);
    Ok(())
}

/// The lines; of a run without a closing there are none.
pub fn program(input: &[u8], i: usize, j: usize) -> Output {
    Output { bytes: lines_of(input, [i, j]).iter().flat_map(|line| format!("{line}\n").into_bytes()).collect(), said: None }
}

// ---------------------------------------------------------------------------------------------
// The listing by hand, a run that meets the bound under both rules, and every two closings once more, one by one.

#[cfg(test)]
mod tests {
    use super::*;
    use super::super::random_plans::{any_leaf, good_tree, plan, rule_record, Random, SHAPES};

    /// Leaves below the root, (weight, longest) each.
    fn flat(leaves: &[(u32, u16)]) -> Vec<u8> {
        let records: Vec<u8> = leaves.iter().flat_map(|(weight, longest)| [&[2, 0], &weight.to_be_bytes()[..], &longest.to_be_bytes()].concat()).collect();
        [records, vec![0]].concat()
    }

    /// An arrival.
    fn to(class: u8, length: u16) -> Vec<u8> {
        [&[16, class], &length.to_be_bytes()[..], &[0; 4]].concat()
    }

    fn lines(input: &[u8], i: usize, j: usize) -> Vec<String> {
        lines_of(input, [i, j])
    }

    #[test]
    fn the_listing() {
        // Leaves 2 and 3 hold packets from the first closing on; the first round sends leaf 4's alone, so that nothing was sent by either up to the
        // second closing. Then leaf 2 is emptied: no third closing. The bound is 2 × 83 + 1 × 83 = 249.
        let listing = include_bytes!("tree_p.bin");
        assert_eq!(lines(listing, 2, 3), ["closing 1 0 0 0 249", "closing 2 0 0 0 249"]);
        assert_eq!(lines(listing, 3, 2), lines(listing, 2, 3));
        // under rule 2 leaf 3 sends in the second round: 1 × 84 apart
        let under_2 = [&[3, 2], &listing[..]].concat();
        assert_eq!(lines(&under_2, 2, 3), ["closing 1 0 0 0 249", "closing 2 0 0 0 249", "closing 3 0 84 84 249"]);
        assert_eq!(lines(&under_2, 3, 2), ["closing 1 0 0 0 249", "closing 2 0 0 0 249", "closing 3 84 0 84 249"]);
        // leaf 4 has no sibling, class 1 is no leaf
        assert_eq!(lines(listing, 1, 4), ["no 1 12"]);
        assert_eq!(lines(listing, 7, 0), ["no 7 12", "no 0 12"]);
        for (i, j) in [(3, 4), (2, 2)] {
            assert!(std::panic::catch_unwind(|| lines(listing, i, j)).is_err());
        }
        // counted: one pair, and two closings, or three, so that three are compared
        let counts = |input: &[u8]| {
            let run = run(input);
            (run.siblings.checks, run.siblings.exact, run.siblings.thousandths)
        };
        assert_eq!(counts(listing), (1, 0, 0));
        assert_eq!(counts(&under_2), (3, 0, 84 * 1000 / 249));
        assert!(run(&under_2).counts_line().contains(" sibling_pairs=1 sibling_checks=3 sibling_exact=0 max_sibling_thousandths=337 max_sibling_thousandths_rule_1=0 max_sibling_thousandths_rule_2=337 "));
    }

    #[test]
    fn again() {
        // Two leaves of weight 1: Q is 2 + 168, and the first round gives each 85 and sends one of each. Leaf 1 is emptied and filled before the
        // round closes: it was empty. The root has 168 and the 1 that leaf 1 gave back, the second round gives each 84 and sends one of each, and
        // closes with a packet in both.
        let plan = flat(&[(1, 1), (1, 1)]);
        let both = [to(1, 1), to(2, 1), to(2, 1), to(2, 1)].concat();
        let input = [plan.clone(), both.clone(), vec![17, 17], to(1, 1), to(1, 1), vec![17, 17, 17]].concat();
        assert_eq!(lines(&input, 1, 2), ["closing 1 0 0 0 166", "again", "closing 1 0 0 0 166", "closing 2 84 84 0 166"]);
        // it is never filled again: no `again`
        let input = [plan.clone(), both, vec![17, 17, 17]].concat();
        assert_eq!(lines(&input, 1, 2), ["closing 1 0 0 0 166"]);
        // stops: what was closed before, and the stop
        assert_eq!(lines(&[input, vec![0]].concat(), 1, 2), ["closing 1 0 0 0 166", "stop 2 52"]);
        assert_eq!(lines(&plan, 1, 2), [""; 0]);
        assert_eq!(lines(&[0], 1, 2), ["stop 9 0"]);
        assert_eq!(lines(&vec![17; 65_537], 1, 2), ["stop 10 65536"]);
    }

    /// Weights 1 and 83, and a third leaf so heavy that each round's quota is 1: leaf 1 has 83 after 83 rounds, and if packets come to leaf 2 in the
    /// 83rd, then that round closes with 83 and 0. The next gives leaf 1 the 84 that it sends and leaf 2 83, and closes with 0 and 83: leaf 1 has
    /// sent 84 and leaf 2 nothing, 83 × 84 apart, and the bound is 83 × 83 + 1 × 83.
    fn meeting(rule: u8, sends_before: usize) -> Vec<u8> {
        let front = [rule_record(rule), flat(&[(1, 1), (83, 1), (10_000, 9_216)]), to(1, 1).repeat(3)].concat();
        let heavy = [to(3, 9_216).repeat(10), [to(3, 9_216), vec![17]].concat().repeat(sends_before)].concat();
        [front, heavy, to(2, 1).repeat(3), [to(3, 9_216), vec![17]].concat().repeat(6)].concat()
    }

    #[test]
    fn the_bound_is_met() {
        for rule in [1, 2] {
            let exact: Vec<usize> = (70..110).filter(|&sends| run(&meeting(rule, sends)).siblings.exact > 0).collect();
            assert!(!exact.is_empty() && exact.len() <= 3, "under rule {rule} after {exact:?} sends");
            let met = run(&meeting(rule, exact[0]));
            assert_eq!((met.siblings.exact, met.siblings.thousandths), (1, 1000));
            assert_eq!(lines(&meeting(rule, exact[0]), 1, 2)[..2], ["closing 1 0 0 0 6972", "closing 2 84 0 6972 6972"]);
            assert_eq!(lines(&meeting(rule, exact[0]), 2, 1)[1], "closing 2 0 84 6972 6972");
        }
    }

    /// A moment of a run: whether a round has closed then, who holds a packet, and what each class has sent.
    struct Moment {
        closed: bool,
        holds: Vec<bool>,
        sent: Vec<i128>,
    }

    /// Every moment of a run, after each call and at each closing inside it, from the lines of the run alone.
    fn moments(input: &[u8]) -> Vec<Moment> {
        let (tree, _) = read_plan(input).unwrap();
        let (mut waiting, mut sent, mut moments) = (vec![0; tree.classes.len()], vec![0; tree.classes.len()], Vec::new());
        for line in run(input).lines {
            let words: Vec<&str> = line.split(' ').collect();
            let number = |position: usize| words[position].parse::<usize>().unwrap();
            let moment = |closed, waiting: &[usize], sent: &[i128]| Moment { closed, holds: waiting.iter().map(|&n| n > 0).collect(), sent: sent.to_vec() };
            match words[0] {
                "in" => waiting[number(1)] += 1,
                "out" => {
                    moments.extend((0..number(4)).map(|_| moment(true, &waiting, &sent)));
                    waiting[number(1)] -= 1;
                    sent[number(1)] += i128::from(charge(number(2) as u64));
                }
                _ => continue,
            }
            moments.push(moment(false, &waiting, &sent));
        }
        moments
    }

    #[test]
    fn every_two_closings_one_by_one() {
        let mut all_checks = 0;
        for seed in 0..130 {
            let mut random = Random { state: seed };
            let tree = good_tree(&mut random, seed % SHAPES);
            // two leaves of any parent, and up to four siblings of one of them
            let any = any_leaf(&mut random, &tree);
            let mut leaves: Vec<usize> = (1..tree.len()).filter(|&class| tree[class].leaf && tree[class].parent == tree[any].parent).take(4).collect();
            leaves.extend([any, any_leaf(&mut random, &tree)]);
            leaves.sort();
            leaves.dedup();
            let mut input = [if seed % 2 == 0 { vec![] } else { rule_record(2) }, plan(&tree)].concat();
            for _ in 0..random.from_to(50, 400) {
                let leaf = random.pick(&leaves);
                let arrives = to(leaf as u8, random.from_to(1, tree[leaf].longest) as u16);
                input.extend(if random.chance(60) { arrives } else { vec![17] });
            }
            let (read, _) = read_plan(&input).unwrap();
            let moments = moments(&input);
            let (mut checks, mut thousandths, mut exact) = (0, 0, 0);
            for (i, j) in leaves.iter().flat_map(|&i| leaves.iter().map(move |&j| (i, j))).filter(|&(i, j)| i < j && tree[i].parent == tree[j].parent) {
                let (weight, longest) = (|class: usize| read.classes[class].weight as i128, |class: usize| charge(read.classes[class].longest) as i128);
                let most = weight(j) * (longest(i) - 1) + weight(i) * (longest(j) - 1);
                for (second, end) in moments.iter().enumerate().filter(|(_, moment)| moment.closed) {
                    let mut met = false;
                    for start in moments[..second].iter().enumerate().rev().take_while(|(_, moment)| moment.holds[i] && moment.holds[j]).map(|(_, moment)| moment) {
                        if start.closed && end.holds[i] && end.holds[j] {
                            let apart = (weight(j) * (end.sent[i] - start.sent[i]) - weight(i) * (end.sent[j] - start.sent[j])).abs();
                            assert!(apart <= most);
                            (checks, thousandths, met) = (checks + 1, thousandths.max(apart * 1000 / most), met || apart == most);
                        }
                    }
                    exact += u64::from(met);
                }
            }
            let watched = run(&input).siblings;
            assert_eq!((watched.checks, watched.thousandths as i128, watched.exact), (checks, thousandths, exact), "seed {seed}");
            all_checks += checks;
        }
        assert!(all_checks > 10_000, "only {all_checks} pairs of closings");
    }

    #[test]
    fn what_the_words_leave_out() {
        // The bound is for closings alone, and for leaves that hold a packet: between other moments the two are further apart.
        let plan = flat(&[(1, 1), (1, 1)]);
        // leaf 2 gets its packet after leaf 1 has sent ten: from the first closing on they are 840 apart, and the bound is 166
        let input = [plan.clone(), to(1, 1).repeat(12), vec![17; 10], to(2, 1), vec![17, 17]].concat();
        let [first, .., last] = &moments(&input)[12..] else { panic!("there are moments") };
        assert!(first.closed && (last.sent[1] - last.sent[2]).abs() > 166);
        // within a round: Q is 19 + 168 + 9,240, of which each of the two has half, so that leaf 1 sends all its packets before leaf 2's first
        let input = [flat(&[(9, 1), (9, 1), (1, 9_216)]), to(1, 1).repeat(32), to(2, 1).repeat(32), vec![17; 40]].concat();
        let moments = moments(&input);
        let holding: Vec<&Moment> = moments.iter().skip(64).take_while(|moment| moment.holds[1] && moment.holds[2]).collect();
        let apart = |moment: &&&Moment| (9 * moment.sent[1] - 9 * moment.sent[2]).abs();
        let most = 2 * 9 * 83;
        assert!(holding.iter().max_by_key(apart).is_some_and(|moment| !moment.closed && apart(&moment) > most));
        assert!(holding.iter().filter(|moment| moment.closed).all(|moment| apart(&moment) <= most));
    }
}
