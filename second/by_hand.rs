//! A run worked by hand, as docs/by-hand.md shows it: `second tables FROM TABLE < input` prints each call from event FROM on, step by
//! step with every balance, the first table being number TABLE; `second waits FROM < input` prints a row for each packet accepted from
//! event FROM on that has gone: its bound and what was sent until then. Each step is taken here once more, one by one, and the state
//! after a call must be the one that the call itself gives.

use super::*;

/// No line of prose is longer than this.
const WIDTH: usize = 150;

/// One event of an input.
pub enum Event {
    Arrival { class: usize, length: u64, tag: u64 },
    Send,
}

/// What is printed so far, the number of the next table, and the rows of the table under way.
struct Page {
    lines: Vec<String>,
    table: usize,
    rows: Vec<String>,
}

/// "leaf 3", "class 1" or "the root".
fn name(link: &Link, class: usize) -> String {
    match class {
        ROOT => "the root".to_string(),
        _ if link.tree.is_leaf(class) => format!("leaf {class}"),
        _ => format!("class {class}"),
    }
}

/// With a capital letter.
fn capital(text: &str) -> String {
    text[..1].to_uppercase() + &text[1..]
}

/// "2", "2 and 3", "2, 3 and 4".
fn listed(numbers: &[usize]) -> String {
    let words: Vec<String> = numbers.iter().map(|n| n.to_string()).collect();
    match words.split_last() {
        None => "none".to_string(),
        Some((last, [])) => last.clone(),
        Some((last, others)) => format!("{} and {last}", others.join(", ")),
    }
}

/// "1 + 2 = 3", and a single number alone.
fn sum(parts: &[u64]) -> String {
    let words: Vec<String> = parts.iter().map(|n| n.to_string()).collect();
    let total = parts.iter().fold(0, |total, &part| add(total, part));
    if parts.len() == 1 { words[0].clone() } else { format!("{} = {total}", words.join(" + ")) }
}

/// The weights of the active children of a class.
fn weights(link: &Link, class: usize) -> Vec<u64> {
    link.active_children(class).iter().map(|&c| link.tree.classes[c].weight).collect()
}

/// Under rule 2, what an opening makes of the size in force; `link` is the state after it.
fn size_in_force(before: &Link, link: &Link, surplus: bool) -> String {
    if surplus {
        assert_eq!(link.in_force, before.in_force, "a surplus round leaves the size");
        return format!("**Size in force.** It stays {}.", link.in_force);
    }
    let classes = active(link);
    let weights: Vec<u64> = classes.iter().filter(|&&c| c != ROOT).map(|&c| link.tree.classes[c].weight).collect();
    let longest: Vec<u64> = classes.iter().filter(|&&c| link.tree.is_leaf(c)).map(|&c| charge(link.tree.classes[c].longest)).collect();
    let (of_weights, of_longest) = (weights.iter().sum::<u64>(), longest.iter().sum::<u64>());
    assert_eq!(link.in_force, add(of_weights, of_longest), "the size in force");
    let (weights, longest, all) = (sum(&weights), sum(&longest), sum(&[of_weights, of_longest]));
    format!("**Size in force.** Active weights {weights}, longest packets charged {longest}: {all}; before it was {}.", before.in_force)
}

/// The class numbers that are active.
fn active(link: &Link) -> Vec<usize> {
    link.numbers().filter(|&c| link.active[c]).collect()
}

/// The packets that wait, leaf by leaf.
fn waiting(link: &Link) -> String {
    let mut queues = Vec::new();
    for leaf in link.numbers().filter(|&c| !link.queues[c].is_empty()) {
        let packets: Vec<String> = link.queues[leaf].iter().map(|p| format!("{} (tag {})", p.length, p.tag)).collect();
        queues.push(format!("leaf {leaf}: {}", packets.join(", ")));
    }
    format!("**Waiting**: {}.", if queues.is_empty() { "none".to_string() } else { queues.join("; ") })
}

impl Page {
    /// A paragraph, broken at WIDTH, and an empty line.
    fn say(&mut self, text: &str) {
        let mut line = String::new();
        for word in text.split_whitespace() {
            if !line.is_empty() && line.chars().count() + 1 + word.chars().count() > WIDTH {
                self.lines.push(std::mem::take(&mut line));
            }
            if !line.is_empty() {
                line.push(' ');
            }
            line.push_str(word);
        }
        self.lines.extend([line, String::new()]);
    }

    /// Adds the state after a step to the table under way.
    fn row(&mut self, link: &Link, step: &str) {
        let mut cells = vec![step.to_string()];
        for class in link.numbers() {
            cells.push(link.accounts[class].balance.to_string());
            if !link.tree.is_leaf(class) {
                cells.push(link.accounts[class].residual.to_string());
            }
        }
        let numbers: Vec<String> = active(link).iter().map(|n| n.to_string()).collect();
        let numbers = if numbers.is_empty() { "none".to_string() } else { numbers.join(", ") };
        cells.extend([link.total().to_string(), numbers, link.place.to_string()]);
        self.rows.push(format!("| {} |", cells.join(" | ")));
    }

    /// Prints the table under way.
    fn end_table(&mut self, link: &Link) {
        let mut heads = vec![format!("Table {}", self.table)];
        for class in link.numbers() {
            heads.push(format!("B {class}"));
            if !link.tree.is_leaf(class) {
                heads.push(format!("R {class}"));
            }
        }
        heads.extend(["Sum", "Active", "Place"].map(str::to_string));
        self.lines.push(format!("| {} |", heads.join(" | ")));
        self.lines.push("|---".repeat(heads.len()) + "|");
        self.lines.append(&mut self.rows);
        self.lines.push(String::new());
        self.table += 1;
    }

    /// Arrivals in a row: they change no balance, so that only the page's first table shows them.
    fn arrivals(&mut self, link: &Link, lines: &[String], held: &[usize]) {
        let word = if lines.len() == 1 { "Arrival" } else { "Arrivals" };
        self.lines.extend([format!("### {word}: {}", lines.join(", ")), String::new()]);
        let mut words = vec!["No balance changes.".to_string()];
        for &class in held {
            words.push(format!("{} is inactive and stays so until the next round opens.", capital(&name(link, class))));
        }
        self.say(&format!("{} {}", words.join(" "), waiting(link)));
        if self.table == 1 {
            self.row(link, if lines.len() == 1 { "after it" } else { "after them" });
            self.end_table(link);
        }
    }

    /// A send, step by step; `link` is the state before it and `after` the one that the call gave.
    fn send(&mut self, mut link: Link, after: &Link, heading: &str) {
        self.lines.extend([heading.to_string(), String::new()]);
        if link.waiting() == 0 {
            self.say("No packet waits: refusal 15. Nothing changes.");
            return;
        }
        loop {
            let place = link.place;
            let (searched, found) = self.search(&mut link);
            let Some(leaf) = found else {
                if link.place != place {
                    self.row(&link, "the round has closed");
                }
                self.open(&mut link, &searched);
                continue;
            };
            let sent = self.sent(&mut link, leaf);
            let turned = self.turn_inactive(&mut link, leaf);
            self.say(&format!("{searched} {sent} {turned} {}", waiting(&link)));
            break;
        }
        assert_eq!(&link, after, "the steps of a send give another state than the send");
        self.end_table(&link);
    }

    /// The search, leaf by leaf.
    fn search(&mut self, link: &mut Link) -> (String, Option<usize>) {
        let mut words = vec![format!("**Search.** From place {}:", link.place)];
        let real = search(&mut link.clone());
        loop {
            let Some(leaf) = (link.place..link.tree.classes.len()).find(|&c| link.tree.is_leaf(c) && link.active[c]) else {
                let none = if active(link).is_empty() { "nothing is active" } else { "no active leaf is left" };
                let none = if words.len() == 1 { none.to_string() } else { capital(none) };
                words.push(format!("{none}, so the round has closed."));
                assert_eq!(real, None);
                return (words.join(" "), None);
            };
            let (balance, cost) = (link.accounts[leaf].balance, link.queues[leaf][0].charge());
            let found = if words.len() == 1 { name(link, leaf) } else { capital(&name(link, leaf)) };
            if balance >= cost {
                words.push(format!("{found}, B {balance} covers {cost}."));
                assert_eq!(real, Some(leaf));
                return (words.join(" "), Some(leaf));
            }
            link.place = leaf + 1;
            words.push(format!("{found}, B {balance} does not cover {cost}; the place becomes {}.", link.place));
        }
    }

    /// The opening: its kind, the shares from the top down, and the state after it.
    fn open(&mut self, link: &mut Link, searched: &str) {
        let before = link.clone();
        let opening = open_round(link);
        let holding: Vec<usize> = link.numbers().filter(|&c| !link.queues[c].is_empty()).collect();
        let leaves = if holding.len() == 1 { "Leaf" } else { "Leaves" };
        let hold = if holding.len() == 1 { "holds a packet" } else { "hold packets" };
        let mut words = vec![searched.to_string(), format!("**Kind.** {leaves} {} {hold}, so classes", listed(&holding))];
        words.push(format!("{} are active.", listed(&active(link))));
        for class in link.numbers().filter(|&c| link.tree.is_inner(c) && link.active[c]) {
            let Account { balance, residual } = before.accounts[class];
            let relation = if balance + residual >= link.active_weight_sum(class) { "at or above" } else { "below" };
            let weights = sum(&weights(link, class));
            words.push(format!("Class {class}: B + R = {} is {relation} W = {weights}.", sum(&[balance, residual])));
        }
        words.push(if opening.surplus { "Surplus round: the root's account stays." } else { "Main round." }.to_string());
        if link.tree.rule == ACTIVE_CLASSES {
            words.push(size_in_force(&before, link, opening.surplus));
        }
        self.say(&words.join(" "));
        self.lines.extend(["| Class | X | W | F | Hands down | Keeps |".to_string(), "|---|---|---|---|---|---|".to_string()]);
        for class in active(link).into_iter().filter(|&c| !link.tree.is_leaf(c) && !(opening.surplus && c == ROOT)) {
            self.shares(&before, link, &opening, class);
        }
        self.lines.push(String::new());
        self.row(link, if opening.surplus { "a surplus round is open" } else { "a main round is open" });
    }

    /// One class's line of an opening.
    fn shares(&mut self, before: &Link, link: &Link, opening: &Opening, class: usize) {
        let Account { balance, residual } = before.accounts[class];
        let mut parts = vec![balance, residual];
        if class != ROOT {
            let Class { parent, weight, .. } = link.tree.classes[class];
            parts.push(mul(weight, opening.quotas[parent]));
        }
        let (mut has, mut has_words) = (parts.iter().sum::<u64>(), sum(&parts));
        if class == ROOT && link.tree.rule == ACTIVE_CLASSES {
            // "the root takes the difference once its residual has joined its balance"
            let (new, old) = (link.in_force, before.in_force);
            has = sub(add(has, new), old);
            has_words = format!("{balance} + {residual} + {new} − {old} = {has}");
        }
        let (weight, quota) = (link.active_weight_sum(class), opening.quotas[class]);
        let given = mul(quota, weight);
        let mut gets = Vec::new();
        for child in link.active_children(class) {
            let (weight, old) = (link.tree.classes[child].weight, before.accounts[child].balance);
            let share = mul(weight, quota);
            let grown = if link.tree.is_leaf(child) && old > 0 { format!(", now {}", sum(&[old, share])) } else { String::new() };
            gets.push(format!("{} gets {weight} × {quota} = {share}{grown}", name(link, child)));
        }
        assert_eq!(sub(has, given), link.accounts[class].balance, "what class {class} keeps");
        let sign = if given == has { '=' } else { '→' };
        let cells = [
            if class == ROOT { "root".to_string() } else { class.to_string() },
            has_words,
            sum(&weights(link, class)),
            format!("{has} ÷ {weight} {sign} {quota}"),
            format!("{quota} × {weight} = {given}: {}", gets.join("; ")),
            format!("{has} − {given} = {}", has - given),
        ];
        self.lines.push(format!("| {} |", cells.join(" | ")));
    }

    /// The packet goes; gives the words for it.
    fn sent(&mut self, link: &mut Link, leaf: usize) -> String {
        let cost = link.queues[leaf][0].charge();
        charged_on_the_link(link, cost);
        link.queues[leaf].remove(0);
        totals::left(link, leaf, cost);
        let (of_leaf, of_root) = (link.accounts[leaf].balance, link.accounts[ROOT].balance);
        link.accounts[leaf].balance = sub(of_leaf, cost);
        link.accounts[ROOT].balance = add(of_root, cost);
        link.place = leaf;
        self.row(link, &format!("leaf {leaf} sends {cost}"));
        let mut words = format!("**Send.** Leaf {leaf}: {of_leaf} − {cost} = {}. Root: {}.", of_leaf - cost, sum(&[of_root, cost]));
        if !link.queues[leaf].is_empty() {
            words += &format!(" Leaf {leaf} holds another packet and stays active.");
        }
        words
    }

    /// A leaf without a packet turns inactive, and what is above it with it; gives the words for it.
    fn turn_inactive(&mut self, link: &mut Link, leaf: usize) -> String {
        if !link.queues[leaf].is_empty() {
            return String::new();
        }
        let mut words = vec!["**Turn inactive.**".to_string()];
        let mut class = leaf;
        loop {
            let parent = link.tree.classes[class].parent;
            let Account { balance, residual } = link.accounts[class];
            link.active[class] = false;
            if class == ROOT {
                words.push("The root has no active child left: it turns inactive and keeps its account.".to_string());
                self.row(link, "the root turns inactive");
                break;
            }
            let given = add(balance, residual);
            link.accounts[class] = Account { balance: 0, residual: 0 };
            link.accounts[parent].residual = add(link.accounts[parent].residual, given);
            let to = if parent == ROOT { "the root's R".to_string() } else { format!("the R of class {parent}") };
            words.push(match class == leaf {
                true => format!("Leaf {leaf} is empty: its {given} go to {to}."),
                false => format!("Class {class} has no active child left: its B + R = {} go to {to}.", sum(&[balance, residual])),
            });
            self.row(link, &format!("{} turns inactive", name(link, class)));
            if !link.active_children(parent).is_empty() {
                break;
            }
            class = parent;
        }
        words.join(" ")
    }
}

/// The tree of an input, its events up to the end or the first fault, and that fault; a refused plan is the fault alone.
pub fn events_of(input: &[u8]) -> Result<(Tree, Vec<Event>, Option<Refusal>), Refusal> {
    let (tree, used) = read_plan(input)?;
    let (mut events, mut first) = (Vec::new(), used);
    loop {
        match event_at(input, first) {
            Ok(Some(plan::Event::Arrival(body))) => {
                let (class, length, tag) = (big_endian(&body[0..1]) as usize, big_endian(&body[1..3]), big_endian(&body[3..7]));
                events.push(Event::Arrival { class, length, tag });
                first += 8;
            }
            Ok(Some(plan::Event::Send)) => {
                events.push(Event::Send);
                first += 1;
            }
            Ok(None) => return Ok((tree, events, None)),
            Err(refusal) => return Ok((tree, events, Some(refusal))),
        }
    }
}

/// The tree and the events of an input without a fault.
fn parts_of(input: &[u8]) -> (Tree, Vec<Event>) {
    let (tree, events, fault) = events_of(input).expect("a plan that is taken");
    assert_eq!(fault, None, "an event");
    (tree, events)
}

/// The page's part for an input, from event `from` (counted from 1) on; its first table has the number `table`.
pub fn tables(input: &[u8], from: usize, table: usize) -> Vec<String> {
    let (tree, events) = parts_of(input);
    worked(&tree, &events, from, events.len(), table)
}

/// The events of a run from `from` to `to`, counted from 1, each worked step by step; arrivals in a row stand together.
pub fn worked(tree: &Tree, events: &[Event], from: usize, to: usize, table: usize) -> Vec<String> {
    let (mut link, _) = fresh_link(tree);
    let mut siblings = siblings::Siblings::of(tree);
    let mut page = Page { lines: Vec::new(), table, rows: Vec::new() };
    let (mut lines, mut held, mut sends) = (Vec::new(), Vec::new(), 0);
    for (position, event) in events.iter().enumerate().take(to) {
        let before = link.clone();
        match *event {
            Event::Arrival { class, length, tag } => {
                let taken = arrival(&mut link, class, length, tag);
                let line = match taken {
                    Ok(waiting) => format!("`in {class} {length} {tag} {waiting}`"),
                    Err(refusal) => format!("`no {class} {length} {tag} {}`", refusal.number),
                };
                if position + 1 >= from {
                    lines.push(line);
                }
                if position + 1 >= from && taken.is_ok() && link.active[ROOT] && !link.active[class] {
                    held.push(class);
                }
                let last = position + 1 == to || !matches!(events.get(position + 1), Some(Event::Arrival { .. }));
                if last && position + 1 >= from {
                    page.arrivals(&link, &lines, &held);
                }
                if last {
                    lines.clear();
                    held.clear();
                }
            }
            Event::Send => {
                sends += 1;
                let line = match siblings.send(&mut link) {
                    Ok(sent) => sent.line(),
                    Err(_) => "none".to_string(),
                };
                if position + 1 >= from {
                    page.send(before, &link, &format!("### Send {sends}: `{line}`"));
                }
            }
        }
    }
    // no empty line at the end
    page.lines.pop();
    page.lines
}

/// A packet on its way: its row so far, none where it is not to be shown, and the charges of what was sent since it was accepted.
struct Waiting {
    class: usize,
    tag: u64,
    row: Option<String>,
    since: Vec<u64>,
}

/// The rows of the table of waits, for packets accepted from event `from` on, in the order in which they go. Every packet of the run is
/// followed, one charge after the other, and what its send answered must be the sum of them.
pub fn waits(input: &[u8], from: usize) -> Vec<String> {
    let (tree, events) = parts_of(input);
    let (mut link, _) = fresh_link(&tree);
    let mut siblings = siblings::Siblings::of(&tree);
    let (mut waiting, mut rows): (Vec<Waiting>, Vec<String>) = (Vec::new(), Vec::new());
    for (position, event) in events.iter().enumerate() {
        match *event {
            Event::Arrival { class, length, tag } => {
                let Ok(all) = arrival(&mut link, class, length, tag) else { continue };
                let charges: Vec<u64> = link.queues[class].iter().map(Packet::charge).collect();
                assert_eq!(all, charges.iter().sum::<u64>(), "D, as the arrival answered it");
                let weight = link.tree.classes[class].weight;
                let (mains, size) = (all.div_ceil(weight), link.size);
                let bound = mul(add(mains, 1), size);
                let row = format!("| {tag} | {class} | {} | {weight} | ({mains} + 1) × {size} = {bound} |", sum(&charges));
                waiting.push(Waiting { class, tag, row: Some(row).filter(|_| position + 1 >= from), since: Vec::new() });
            }
            Event::Send => {
                let Ok(sent) = siblings.send(&mut link) else { continue };
                waiting.iter_mut().for_each(|w| w.since.push(charge(sent.length)));
                let gone = waiting.iter().position(|w| w.class == sent.class).expect("a packet left that never came");
                let gone = waiting.remove(gone);
                let waited = gone.since.iter().sum::<u64>();
                assert_eq!((gone.tag, waited), (sent.tag, sent.wait), "the bytes from acceptance on, as the send answered them");
                rows.extend(gone.row.map(|row| format!("{row} {} |", sum(&gone.since))));
            }
        }
    }
    rows
}

#[cfg(test)]
mod tests {
    use super::*;

    /// The listing's packets, in the order in which they go: D, w, the bound, and what the link sent until each had gone.
    #[test]
    fn waits_of_the_listing() {
        let rows = [
            "| 4 | 4 | 84 | 4 | (21 + 1) × 262 = 5764 | 84 |",
            "| 1 | 2 | 84 | 1 | (84 + 1) × 262 = 22270 | 84 + 84 = 168 |",
            "| 2 | 3 | 84 | 2 | (42 + 1) × 262 = 11266 | 84 + 84 + 84 = 252 |",
            "| 3 | 3 | 84 + 84 = 168 | 2 | (84 + 1) × 262 = 22270 | 84 + 84 + 84 + 84 = 336 |",
        ];
        assert_eq!(waits(include_bytes!("tree_p.bin"), 1), rows);
    }

    /// The size in force at each opening of the listing under rule 2, and what the root then has; a surplus round leaves the size.
    #[test]
    fn sizes_under_rule_2() {
        let input = [&[3, 2][..], include_bytes!("tree_p.bin")].concat();
        let text = tables(&input, 1, 1).join(" ");
        let all = "Active weights 3 + 1 + 2 + 4 = 10, longest packets charged 84 + 84 + 84 = 252: 10 + 252 = 262; before it was 262.";
        let fewer = "Active weights 3 + 1 + 2 = 6, longest packets charged 84 + 84 = 168: 6 + 168 = 174; before it was 262.";
        let same = "Active weights 3 + 1 + 2 = 6, longest packets charged 84 + 84 = 168: 6 + 168 = 174; before it was 174.";
        let sizes = [all, fewer, same].map(|size| text.find(&format!("**Size in force.** {size}")).expect(size));
        assert!(sizes.is_sorted() && text.matches("**Size in force.**").count() == 3);
        assert!(text.contains("| root | 87 + 64 + 174 − 262 = 63 | 3 | 63 ÷ 3 = 21 | 21 × 3 = 63: class 1 gets 3 × 21 = 63 | 63 − 63 = 0 |"));
        assert!(text.contains("| root | 84 + 0 + 174 − 174 = 84 | 3 | 84 ÷ 3 = 28 | 28 × 3 = 84: class 1 gets 3 × 28 = 84 | 84 − 84 = 0 |"));
        // leaf 2 gets two packets and leaf 3 one: the second send's round is a surplus round
        let mut input = input[..33].to_vec();
        for (class, tag) in [(2, 1), (2, 2), (3, 3)] {
            input.extend([16, class, 0, 10, 0, 0, 0, tag]);
        }
        input.extend([17, 17, 17]);
        let text = tables(&input, 1, 1).join(" ");
        assert!(text.contains("Surplus round: the root's account stays. **Size in force.** It stays 174."));
        assert!(text.contains("| root | 168 + 0 + 88 − 174 = 82 | 3 | 82 ÷ 3 → 27 | 27 × 3 = 81: class 1 gets 3 × 27 = 81 | 82 − 81 = 1 |"));
        // "Demand 3 keeps the whole-tree Q under both rules"
        assert_eq!(waits(&input, 1)[0], "| 3 | 3 | 84 | 2 | (42 + 1) × 262 = 11266 | 84 |");
    }

    /// The page docs/by-hand.md has each of these rows, and the steps of the listing, as they are computed.
    #[test]
    fn the_page() {
        let page = include_str!("../docs/by-hand.md");
        let listing = include_bytes!("tree_p.bin");
        for line in waits(listing, 1).into_iter().chain(tables(listing, 1, 1)) {
            assert!(page.contains(&line), "docs/by-hand.md lacks {line}");
        }
    }
}
