//! What an independent reading says of the written-down cases of the readers and of the plan rules:
//! plan_cases [marks] < crates/plan_cases/stdin runs the packed commands and prints the lines that the proved program plan_cases is to
//! print; with `marks` an empty line stands after each command. What it says of a plan, an event or a tree is second/plan.rs alone. Build: rustc -O --edition 2021 plan_cases.rs

mod plan;

use plan::{big_endian, event_at, obeys_plan_rules, read_plan, Class, Event, Refusal, Sort, Tree, MOST_CLASSES};
use std::io::Read;

/// The numbers of a tree, any at all: "class numbers past the last .. is 0 in every tree".
struct Numbers {
    count: u64,
    rule: u64,
    leaves: u64,
    parent: [u64; 64],
    weight: [u64; 64],
    longest: [u64; 64],
}

impl Numbers {
    fn of(tree: &Tree) -> Numbers {
        let (count, rule) = (tree.count() as u64, tree.rule);
        let mut n = Numbers { count, rule, leaves: 0, parent: [0; 64], weight: [0; 64], longest: [0; 64] };
        for (number, class) in tree.classes.iter().enumerate() {
            n.leaves |= u64::from(class.sort == Sort::Leaf) << number;
            n.parent[number] = class.parent as u64;
            n.weight[number] = class.weight;
            n.longest[number] = class.longest;
        }
        n
    }

    fn is_leaf(&self, number: usize) -> bool {
        self.leaves >> number & 1 == 1
    }

    fn class(&self, number: usize) -> Class {
        let sort = match (self.is_leaf(number), number) {
            (true, _) => Sort::Leaf,
            (false, 0) => Sort::Root,
            (false, _) => Sort::Inner,
        };
        Class { sort, parent: self.parent[number] as usize, weight: self.weight[number], longest: self.longest[number] }
    }

    /// Whether they are those of a tree that obeys the plan rules: nothing set past the last class, and the tree up to there obeys them.
    fn obey(&self) -> bool {
        if self.count > MOST_CLASSES as u64 {
            return false;
        }
        let set = |i: usize| self.is_leaf(i) || self.parent[i] != 0 || self.weight[i] != 0 || self.longest[i] != 0;
        let last = self.count as usize;
        !(last + 1..64).any(set) && obeys_plan_rules(&Tree { classes: (0..=last).map(|i| self.class(i)).collect(), rule: self.rule })
    }

    /// A value stored into one number, cut to its width; at an index past the end nothing is stored.
    fn store(&mut self, field: u8, index: usize, value: u64) {
        match field {
            0 => self.count = value,
            1 => self.leaves = value,
            _ if index > 63 => (),
            2 => self.parent[index] = value & 0xff,
            3 => self.weight[index] = value & 0xffff_ffff,
            _ => self.longest[index] = value & 0xffff,
        }
    }

    /// The plan's bytes: "kind 3 for rule 2 only", then each class's record, then the end record.
    fn bytes(&self) -> Vec<u8> {
        let mut bytes = if self.rule == 2 { vec![3, 2] } else { vec![] };
        for number in 1..=self.count as usize {
            bytes.extend([if self.is_leaf(number) { 2 } else { 1 }, self.parent[number] as u8]);
            bytes.extend((self.weight[number] as u32).to_be_bytes());
            if self.is_leaf(number) {
                bytes.extend((self.longest[number] as u16).to_be_bytes());
            }
        }
        bytes.push(0);
        bytes
    }

    /// "11", then "16, the buffer is shorter than the plan, place = the length needed"; the bytes written, and the buffer afterwards.
    fn write_line(&self, name: &str, room: usize) -> String {
        let mut buffer = vec![238; room];
        let (number, place, used) = if !self.obey() {
            (11, 0, 0)
        } else if room < self.bytes().len() {
            (16, self.bytes().len(), 0)
        } else {
            let bytes = self.bytes();
            buffer[..bytes.len()].copy_from_slice(&bytes);
            (0, 0, bytes.len())
        };
        let shown: String = buffer.iter().map(|byte| format!("{byte:02x}")).collect();
        format!("{name}: {number} {place} {used} {shown}")
    }

    fn class_line(&self, number: usize) -> String {
        let sort = if self.is_leaf(number) { "leaf" } else { "inner" };
        let (parent, weight, longest) = (self.parent[number], self.weight[number], self.longest[number]);
        format!("class {number}: {sort} parent {parent} weight {weight} longest {longest}")
    }
}

/// "A refused plan gives number, place, 0 bytes used and a tree without classes"; Q where it is accepted.
fn plan_line(name: &str, input: &[u8]) -> String {
    match read_plan(input) {
        Ok((tree, used)) => format!("{name}: 0 0 {used} {} Q {}", tree.count(), tree.round_size()),
        Err(refusal) => format!("{name}: {} {} 0 0", refusal.number, refusal.place),
    }
}

fn tree_of(input: &[u8]) -> Tree {
    read_plan(input).map_or_else(|_| Tree::without_classes(), |(tree, _)| tree)
}

/// The line of the event at a place of the input, and the bytes that it takes.
fn event_line(input: &[u8], first: usize) -> (String, usize) {
    match event_at(input, first) {
        Ok(None) => ("end used 0".to_string(), 0),
        Ok(Some(Event::Send)) => ("send used 1".to_string(), 1),
        Ok(Some(Event::Arrival(body))) => {
            let (class, length, tag) = (body[0], big_endian(&body[1..3]), big_endian(&body[3..7]));
            (format!("arrive {class} {length} {tag} used 8"), 8)
        }
        Err(refusal) => (format!("refused {} {} used 0", refusal.number, refusal.place), 0),
    }
}

/// Each event after a plan.
fn event_lines(name: &str, input: &[u8]) -> Vec<String> {
    let mut first = read_plan(input).map_or(0, |(_, used)| used);
    let mut lines = Vec::new();
    loop {
        let (line, used) = event_line(input, first);
        lines.push(format!("{name}, at {first}: {line}"));
        if used == 0 {
            return lines;
        }
        first += used;
    }
}

/// The tree at hand and the unknown kinds counted.
struct Hand {
    tree: Numbers,
    count: u64,
}

impl Hand {
    /// An unknown kind is counted, any other answer is a line.
    fn kind(&mut self, refusal: Option<Refusal>, kind: u8, place: usize) -> Vec<String> {
        let (number, at) = refusal.map_or((0, 0), |refusal| (refusal.number, refusal.place));
        if (number, at) == (2, place) {
            self.count += 1;
            return vec![];
        }
        vec![format!("kind {kind}: refused {number} {at}")]
    }

    /// The lines of a command.
    fn lines(&mut self, word: u8, name: &str, body: &[u8]) -> Vec<String> {
        let place = big_endian(&body[..body.len().min(2)]) as usize;
        let after_place = &body[body.len().min(2)..];
        match word {
            1 => vec![name.to_string()],
            2 => {
                self.tree = Numbers::of(&tree_of(body));
                vec![plan_line(name, body)]
            }
            3 => (1..=self.tree.count.min(63) as usize).map(|number| self.tree.class_line(number)).collect(),
            4 => vec![format!("{name}: {}", event_line(&[&vec![0; place], after_place].concat(), place).0)],
            5 => event_lines(name, body),
            6 => {
                self.tree = Numbers::of(&tree_of(body));
                vec![]
            }
            7 => {
                self.tree.store(body[0], big_endian(&body[1..3]) as usize, big_endian(&body[3..11]));
                vec![]
            }
            8 => vec![format!("{name}: {}", if self.tree.obey() { "yes" } else { "no" })],
            9 => self.kind(read_plan(after_place).err(), after_place[place], place),
            10 => self.kind(event_at(after_place, place).err(), after_place[place], place),
            12 => vec![self.tree.write_line(name, place)],
            _ => vec![format!("{name}: {} times 2 at {place}", std::mem::take(&mut self.count))],
        }
    }
}

fn main() {
    let marks = std::env::args().nth(1).is_some_and(|word| word == "marks");
    let mut input = Vec::new();
    std::io::stdin().read_to_end(&mut input).expect("standard input");
    let mut hand = Hand { tree: Numbers::of(&Tree::without_classes()), count: 0 };
    let mut at = 0;
    let mut text = String::new();
    while at < input.len() {
        let name_end = at + 2 + input[at + 1] as usize;
        let end = name_end + 2 + big_endian(&input[name_end..name_end + 2]) as usize;
        let name = std::str::from_utf8(&input[at + 2..name_end]).expect("a name is text");
        for line in hand.lines(input[at], name, &input[name_end + 2..end]) {
            text.push_str(&line);
            text.push('\n');
        }
        if marks {
            text.push('\n');
        }
        at = end;
    }
    print!("{text}");
}
