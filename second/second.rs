//! The second, independent program for the class link, written from the customer's words only: what it quotes, and what docs/rules.md says
//! in sentences of its own (R4 to R67, R86 to R173, R185 to R195, R200 to R202).
//! It reads a plan and events from standard input and prints the lines of "A whole run"; with the word `long` from input of any length.
//! It is slow and plain on purpose: every sum is scanned again, every call is followed by a full check.
//! With words it prints a run worked step by step, for docs/by-hand.md (see by_hand.rs) and for the desk's own runs (see desk.rs), why
//! leaves are silent (see silent.rs), what waits under each class (see totals.rs), how far apart two siblings are (see siblings.rs), a
//! plan's bytes written back (see write.rs), a plan whose shares don't add up mended (see mend.rs), or another box's recording checked
//! (see claims.rs). The program of waited.rs has this one as a part and reads its lines; that of engine2.rs has it as a part too, and works the
//! engine as published beside this one, with the reader, the queues and the charges from here and with accounts of its own.
//! Build: rustc -O --edition 2021 second.rs; test: rustc -O --edition 2021 --test second.rs -o second_test

#[path = "by_hand.rs"]
mod by_hand;
#[path = "claims.rs"]
mod claims;
#[path = "desk.rs"]
mod desk;
#[path = "mend.rs"]
mod mend;
#[path = "plan.rs"]
pub mod plan;
#[cfg(test)]
#[path = "random_plans.rs"]
mod random_plans;
#[path = "siblings.rs"]
mod siblings;
#[path = "silent.rs"]
mod silent;
#[path = "totals.rs"]
pub mod totals;
#[path = "write.rs"]
mod write;

use plan::*;
use std::io::Write;

/// "that leaf already holds 32 packets".
const MOST_WAITING: usize = 32;
/// "the place is 1 to 64", and a fresh link has "place 64".
pub const LAST_PLACE: usize = 64;

// ---------------------------------------------------------------------------------------------
// The link's state.

/// "Each class has an account: a balance B, and for the root and inner classes a residual R."
#[derive(Clone, Copy, PartialEq, Eq, Debug)]
pub struct Account {
    pub balance: u64,
    pub residual: u64,
}

/// A waiting packet: "each a length and a tag". "Each waiting place gains a mark: the running total of bytes charged on the link when the
/// packet was accepted": this program keeps no total and no mark. `since` is a sum of its own for each packet, the charges of all that was
/// sent since it was accepted, to which every send adds; so it is "the total less the mark, modulo 2 to the power 64". As "any values of
/// them are sound", any sum is, and the soundness list below does not speak of it.
#[derive(Clone, Copy, PartialEq, Eq, Debug)]
pub struct Packet {
    pub length: u64,
    pub tag: u64,
    pub since: u64,
}

impl Packet {
    /// What the packet costs on the wire.
    pub fn charge(&self) -> u64 {
        charge(self.length)
    }
}

/// The whole state; the vectors are indexed by class number, and a queue's first packet is at position 0.
/// `size` is Q, the whole-tree size; `in_force` is "the size in force, which a sound state keeps". "Keep both totals for each class beside
/// the queues": `totals` has those of all 64 class numbers.
#[derive(Clone, PartialEq, Eq, Debug)]
pub struct Link {
    pub tree: Tree,
    pub size: u64,
    pub in_force: u64,
    pub accounts: Vec<Account>,
    pub active: Vec<bool>,
    pub place: usize,
    pub queues: Vec<Vec<Packet>>,
    pub totals: Vec<totals::Total>,
}

/// The answer to a send: "class, length, tag and the number of rounds opened in that call"; the length is bare. "A send also answers the
/// bytes charged from acceptance to the end of that packet": `wait`.
#[derive(Clone, PartialEq, Eq, Debug)]
pub struct Sent {
    pub class: usize,
    pub length: u64,
    pub tag: u64,
    pub rounds: usize,
    pub wait: u64,
    /// Which of the opened rounds were surplus rounds, in order (for the tests and the counts).
    pub surplus: Vec<bool>,
    /// Each moment at which a round has closed (for two siblings, side by side, and for the two engines).
    pub closings: Vec<Closing>,
}

impl Sent {
    /// `out` class length tag rounds, and the bytes from acceptance on: "`out` lines gain it as a last field".
    pub fn line(&self) -> String {
        format!("out {} {} {} {} {}", self.class, self.length, self.tag, self.rounds, self.wait)
    }
}

/// "the round has closed at that moment, and a new one is opened in the same call": all balances and residuals then, and the quotas of the new one.
#[derive(Clone, PartialEq, Eq, Debug)]
pub struct Closing {
    pub balances: Vec<u64>,
    pub residuals: Vec<u64>,
    pub quotas: Vec<u64>,
}

/// What an opening did, kept so that the tests can see the quotas.
#[derive(Clone, PartialEq, Eq, Debug)]
struct Opening {
    surplus: bool,
    quotas: Vec<u64>,
}

/// A link "without classes, all its numbers 0, which is not sound".
fn link_without_classes() -> Link {
    Link {
        tree: Tree::without_classes(),
        size: 0,
        in_force: 0,
        accounts: vec![Account { balance: 0, residual: 0 }],
        active: vec![false],
        place: 0,
        queues: vec![Vec::new()],
        totals: totals::of_nothing(),
    }
}

/// "root balance Q, every other B and R zero, queues empty, nothing active, place 64"; "a fresh link starts with the whole-tree size", under
/// both rules; a bad tree: 11 at 0.
pub fn fresh_link(tree: &Tree) -> (Link, Option<Refusal>) {
    if !obeys_plan_rules(tree) {
        return (link_without_classes(), Some(Refusal { number: 11, place: 0 }));
    }
    let all = tree.classes.len();
    let size = tree.round_size();
    let mut accounts = vec![Account { balance: 0, residual: 0 }; all];
    accounts[ROOT].balance = size;
    let link = Link {
        tree: tree.clone(),
        size,
        in_force: size,
        accounts,
        active: vec![false; all],
        place: LAST_PLACE,
        queues: vec![Vec::new(); all],
        totals: totals::of_nothing(),
    };
    (link, None)
}

impl Link {
    /// All class numbers including the root's.
    fn numbers(&self) -> std::ops::Range<usize> {
        0..self.tree.classes.len()
    }

    /// The sum of all B and R; it must be the size in force.
    fn total(&self) -> u64 {
        self.accounts.iter().fold(0, |sum, a| add(sum, add(a.balance, a.residual)))
    }

    /// The packets still waiting, "read from the root's total".
    fn waiting(&self) -> u64 {
        self.totals[ROOT].packets
    }

    /// The active children of a class, by a scan of all classes.
    fn active_children(&self, parent: usize) -> Vec<usize> {
        self.tree.children(parent).into_iter().filter(|&c| self.active[c]).collect()
    }

    /// The weight sum of the active children only ("Summing all children's weights, active or not" is the slip).
    fn active_weight_sum(&self, parent: usize) -> u64 {
        self.active_children(parent).iter().fold(0, |sum, &c| add(sum, self.tree.classes[c].weight))
    }

    /// Rule 2's size, for the classes that are active now: "active weights plus active leaves' longest packets (charged ..)".
    fn active_size(&self) -> u64 {
        let mut size = 0;
        for class in self.numbers() {
            if self.active[class] {
                // the root's weight is 0
                size = add(size, self.tree.classes[class].weight);
                if self.tree.is_leaf(class) {
                    size = add(size, charge(self.tree.classes[class].longest));
                }
            }
        }
        size
    }

    /// Whether `above` is the class itself or lies on the way from the class to the root.
    fn is_above(&self, above: usize, class: usize) -> bool {
        let mut at = class;
        while at != above && at != ROOT {
            at = self.tree.classes[at].parent;
        }
        at == above
    }

    /// Whether an active leaf is below this class.
    fn has_active_leaf_below(&self, class: usize) -> bool {
        self.numbers().any(|leaf| self.tree.is_leaf(leaf) && self.active[leaf] && self.is_above(class, leaf))
    }

    /// Whether a leaf's balance covers its first packet; R16: "every comparison with a first packet" reads the charge.
    fn covers_first(&self, leaf: usize) -> bool {
        self.accounts[leaf].balance >= self.queues[leaf][0].charge()
    }

    /// Gives the first rule of "A state is sound when" that is broken, or nothing for a sound state.
    pub fn broken_rule(&self) -> Option<&'static str> {
        if !obeys_plan_rules(&self.tree) {
            return Some("its tree obeys the plan rules");
        }
        if self.size != self.tree.round_size() {
            return Some("Q fits it");
        }
        if self.tree.rule == WHOLE_TREE && self.in_force != self.size {
            return Some("under rule 1 it is the whole-tree size");
        }
        if self.tree.rule == ACTIVE_CLASSES && self.in_force > self.size {
            return Some("under rule 2 it is never above it");
        }
        let all = self.tree.classes.len();
        if self.active.len() != all || self.accounts.len() != all || self.queues.len() != all {
            return Some("no number past the last class is active");
        }
        for class in self.numbers() {
            if let Some(rule) = self.broken_rule_of(class) {
                return Some(rule);
            }
        }
        if !totals::add_up(self) {
            return Some("each equals the sum over the leaves at or below it");
        }
        if self.total() != self.in_force {
            return Some("All B and R add to the size in force");
        }
        if self.place < 1 || self.place > LAST_PLACE {
            return Some("the place is 1 to 64");
        }
        None
    }

    /// The soundness rules that speak of one class.
    fn broken_rule_of(&self, class: usize) -> Option<&'static str> {
        let queue = &self.queues[class];
        let account = self.accounts[class];
        if self.tree.is_leaf(class) {
            let longest = self.tree.classes[class].longest;
            if queue.len() > MOST_WAITING || queue.iter().any(|p| p.length < 1 || p.length > longest) {
                return Some("each leaf holds 0 to 32 packets, each within its range");
            }
            if self.active[class] && queue.is_empty() {
                return Some("active leaves hold a packet");
            }
            if account.residual != 0 {
                return Some("leaves have R = 0");
            }
            if self.active[class] && class < self.place && self.covers_first(class) {
                return Some("every active leaf numbered below the place has a balance smaller than its first packet");
            }
        } else {
            if !queue.is_empty() {
                return Some("no other class holds any");
            }
            if self.active[class] != self.has_active_leaf_below(class) {
                return Some("a class above is active exactly when an active leaf is below it");
            }
        }
        if class != ROOT && !self.active[class] && (account.balance != 0 || account.residual != 0) {
            return Some("every inactive class except the root has B = R = 0");
        }
        None
    }

    /// "Each call on a sound state gives a sound state": ends the program if this one isn't.
    fn assert_sound(&self, after: &str) {
        assert_eq!(self.total(), self.in_force, "after {after}: all B and R add to the size in force");
        if let Some(rule) = self.broken_rule() {
            panic!("after {after}, this rule is broken: {rule}");
        }
        // "Exactly one reason is true of each leaf in a sound state"
        silent::assert_one_each(self);
    }
}

// ---------------------------------------------------------------------------------------------
// The two calls.

/// An arrival: "Arrival: 11, 12, 13, 14"; a taken packet joins the end of its leaf's queue, and nothing else changes but the totals. It
/// answers what adding to the queue does.
pub fn arrival(link: &mut Link, class: usize, length: u64, tag: u64) -> Result<u64, Refusal> {
    // 11: "the state is not sound"
    if link.broken_rule().is_some() {
        return refuse(11, 0);
    }
    // 12: "the class is not a leaf of the plan"
    if !link.tree.is_leaf(class) {
        return refuse(12, class);
    }
    // 13: "length 0 or above the leaf's longest"; R17: "Refusal 13 still reads lengths"
    if length == 0 || length > link.tree.classes[class].longest {
        return refuse(13, class);
    }
    // 14: "that leaf already holds 32 packets"
    if link.queues[class].len() >= MOST_WAITING {
        return refuse(14, class);
    }
    // the leaf isn't made active here: "A new arrival to such a leaf waits for the next round."
    // nothing was charged since its acceptance
    let waiting = add_to_queue(link, class, Packet { length, tag, since: 0 });
    link.assert_sound("an arrival");
    Ok(waiting)
}

/// "Adding to a queue, and so an arrival, shall answer the bytes now waiting in that leaf, the new packet included, in charges": the queue,
/// "first in first out", is walked from its first packet to the new one.
fn add_to_queue(link: &mut Link, leaf: usize, packet: Packet) -> u64 {
    link.queues[leaf].push(packet);
    totals::joined(link, leaf, packet.charge());
    let mut waiting = 0;
    for packet in &link.queues[leaf] {
        waiting = add(waiting, packet.charge());
    }
    waiting
}

/// A send: "Send: 11, 15", then steps 1 to 4 of "Sending" until a packet goes.
pub fn send(link: &mut Link) -> Result<Sent, Refusal> {
    // 11: "the state is not sound"
    if link.broken_rule().is_some() {
        return refuse(11, 0);
    }
    // 15: "send, and no packet waits"; "read from the root's total and .. given in the same cases as before"
    assert_eq!(link.waiting() == 0, link.queues.iter().all(Vec::is_empty), "refusal 15 in another case than before");
    if link.waiting() == 0 {
        return refuse(15, 0);
    }
    let (mut surplus, mut closings) = (Vec::new(), Vec::new());
    loop {
        if let Some(leaf) = search(link) {
            let packet = send_first(link, leaf);
            link.assert_sound("a send");
            let (rounds, wait) = (surplus.len(), packet.since);
            return Ok(Sent { class: leaf, length: packet.length, tag: packet.tag, rounds, wait, surplus, closings });
        }
        // "a main round always sends", so no other round is opened after one in the same call.
        assert!(surplus.last() != Some(&false), "a main round sent nothing");
        let balances = link.accounts.iter().map(|account| account.balance).collect();
        let residuals = link.accounts.iter().map(|account| account.residual).collect();
        let opening = open_round(link);
        link.assert_sound("an opening");
        surplus.push(opening.surplus);
        closings.push(Closing { balances, residuals, quotas: opening.quotas });
        // "That number is at most 2: a surplus round that sends nothing is followed by a main round"
        assert!(surplus.len() <= 2, "more than 2 rounds opened in one send");
        assert!(surplus != [true, true], "a surplus round that sent nothing is followed by another");
    }
}

/// Step 1: "Find the lowest-numbered active leaf not below the place" whose balance covers its first packet.
fn search(link: &mut Link) -> Option<usize> {
    loop {
        let place = link.place;
        let found = link.numbers().find(|&c| c >= place && link.tree.is_leaf(c) && link.active[c]);
        let leaf = found?;
        if link.covers_first(leaf) {
            return Some(leaf);
        }
        // "Otherwise the place becomes the leaf plus 1 and the search goes on."
        link.place = leaf + 1;
    }
}

/// So many bytes are "charged on the link": each packet that waits has waited for them, and the one that they are charged for still waits,
/// as its own bytes count "to the end of that packet".
pub fn charged_on_the_link(link: &mut Link, bytes: u64) {
    for packet in link.queues.iter_mut().flatten() {
        // "modulo 2 to the power 64"; that no sum of a run from a fresh link gets there is checked by the run (`Run::left`)
        packet.since = packet.since.wrapping_add(bytes);
    }
}

/// Step 1's sending: the leaf loses the charge, "the root's balance gains it, the place becomes that leaf".
fn send_first(link: &mut Link, leaf: usize) -> Packet {
    charged_on_the_link(link, link.queues[leaf][0].charge());
    let packet = link.queues[leaf].remove(0);
    totals::left(link, leaf, packet.charge());
    link.accounts[leaf].balance = sub(link.accounts[leaf].balance, packet.charge());
    link.accounts[ROOT].balance = add(link.accounts[ROOT].balance, packet.charge());
    link.place = leaf;
    // Step 2: "If the sent packet was the leaf's last, the leaf turns inactive at once"
    if link.queues[leaf].is_empty() {
        turn_leaf_inactive(link, leaf);
    }
    packet
}

/// Step 2: the leaf's "balance goes to its parent's residual", not to its balance, so nobody gains in this round.
fn turn_leaf_inactive(link: &mut Link, leaf: usize) {
    let parent = link.tree.classes[leaf].parent;
    link.active[leaf] = false;
    link.accounts[parent].residual = add(link.accounts[parent].residual, link.accounts[leaf].balance);
    link.accounts[leaf].balance = 0;
    turn_inactive_above(link, parent);
}

/// Step 2: "An inner class with no active child left turns inactive too and gives B + R to its own parent's residual, and so on up."
fn turn_inactive_above(link: &mut Link, start: usize) {
    let mut class = start;
    while link.active_children(class).is_empty() {
        link.active[class] = false;
        // "The root turns inactive with its last active child and keeps its account."
        if class == ROOT {
            return;
        }
        let parent = link.tree.classes[class].parent;
        let given = add(link.accounts[class].balance, link.accounts[class].residual);
        link.accounts[parent].residual = add(link.accounts[parent].residual, given);
        link.accounts[class] = Account { balance: 0, residual: 0 };
        class = parent;
    }
}

/// Step 3: "the round has closed at that moment, and a new one is opened in the same call".
fn open_round(link: &mut Link) -> Opening {
    mark_active(link);
    let surplus = is_surplus(link);
    // "The place becomes 1."
    link.place = 1;
    let before: Vec<u64> = link.accounts.iter().map(|a| a.balance).collect();
    let quotas = share_out(link, surplus);
    if !surplus {
        assert_gains(link, &before);
        // "any size that at a main round's opening is at least rule 2's and at most rule 1's"
        assert!(link.active_size() <= link.in_force && link.in_force <= link.size, "a main round opened with size {}", link.in_force);
    }
    Opening { surplus, quotas }
}

/// Step 3: "The active leaves are those that hold a packet", and a class above is active when an active leaf is below it.
fn mark_active(link: &mut Link) {
    for class in link.numbers() {
        link.active[class] = link.tree.is_leaf(class) && !link.queues[class].is_empty();
    }
    for class in link.numbers() {
        if !link.tree.is_leaf(class) {
            link.active[class] = link.has_active_leaf_below(class);
        }
    }
}

/// Step 3: "a surplus round if some active inner class has B + R at or above the weight sum of its active children".
fn is_surplus(link: &Link) -> bool {
    link.numbers().any(|class| {
        let account = link.accounts[class];
        link.tree.is_inner(class)
            && link.active[class]
            && add(account.balance, account.residual) >= link.active_weight_sum(class)
    })
}

/// Step 4: shares out permits "top down, all before any packet goes"; a parent has a lower number, so upward in number is top down.
fn share_out(link: &mut Link, surplus: bool) -> Vec<u64> {
    let mut quotas = vec![0; link.tree.classes.len()];
    quotas[ROOT] = open_root(link, surplus);
    for class in 1..link.tree.classes.len() {
        if !link.active[class] {
            continue;
        }
        let parent_quota = quotas[link.tree.classes[class].parent];
        hand_down(link, class, parent_quota);
        if link.tree.is_inner(class) {
            quotas[class] = open_inner(link, class);
        }
    }
    quotas
}

/// Step 4: main: "the root's residual joins its balance", quota B over the weight sum; surplus: "quota is 0 and its account stays", and
/// so does the size in force: "The paper also adjusts at surplus rounds; we don't."
fn open_root(link: &mut Link, surplus: bool) -> u64 {
    if surplus {
        return 0;
    }
    let account = link.accounts[ROOT];
    link.accounts[ROOT] = Account { balance: add(account.balance, account.residual), residual: 0 };
    if link.tree.rule == ACTIVE_CLASSES {
        set_size_anew(link);
    }
    fair_quota(link, ROOT)
}

/// "Under rule 2 the size in force is set anew at each main round's opening and the root takes the difference once its residual has joined
/// its balance". It comes before the root's quota, which then shares out what the new size gives; where the size shrinks the root gives up
/// the difference, and never has less than that.
fn set_size_anew(link: &mut Link) {
    let new = link.active_size();
    let with_new = add(link.accounts[ROOT].balance, new);
    link.accounts[ROOT].balance = sub(with_new, link.in_force);
    link.in_force = new;
}

/// Step 4: an active inner class "takes R .. into B, sets R to 0, and works out its own quota likewise" (its share came by hand_down).
fn open_inner(link: &mut Link, class: usize) -> u64 {
    let account = link.accounts[class];
    link.accounts[class] = Account { balance: add(account.balance, account.residual), residual: 0 };
    fair_quota(link, class)
}

/// Step 4: weight times the parent's quota goes to the class; "A parent's balance falls by what it hands down."
fn hand_down(link: &mut Link, class: usize, parent_quota: u64) {
    let parent = link.tree.classes[class].parent;
    let share = mul(link.tree.classes[class].weight, parent_quota);
    link.accounts[parent].balance = sub(link.accounts[parent].balance, share);
    link.accounts[class].balance = add(link.accounts[class].balance, share);
}

/// Step 4: "its fair quota is B over its active children's weight sum, rounded down".
fn fair_quota(link: &Link, class: usize) -> u64 {
    div(link.accounts[class].balance, link.active_weight_sum(class))
}

/// "In each main round every active leaf gains at least its weight."
fn assert_gains(link: &Link, before: &[u64]) {
    for leaf in link.numbers() {
        if link.tree.is_leaf(leaf) && link.active[leaf] {
            let gain = sub(link.accounts[leaf].balance, before[leaf]);
            assert!(gain >= link.tree.classes[leaf].weight, "leaf {leaf} gains less than its weight in a main round");
        }
    }
}

// ---------------------------------------------------------------------------------------------
// A whole run.

/// Counts for the statistics check; they have no part in the lines.
#[derive(Default)]
struct Counts {
    refusals: [u64; 19],
    rounds: [u64; 3],
    surplus_sending: u64,
    surplus_idle: u64,
    events: u64,
    event_stops: [u64; 3],
    depth: usize,
    classes: usize,
    /// The plan's rule, 0 where no plan was taken, and in how many sends the size in force changed.
    rule: u64,
    size_changes: u64,
    /// The largest share of its bound that a packet's wait took, in thousandths.
    wait_thousandths: u64,
}

/// A packet whose wait is watched: its bound, and what the link had charged when it was accepted.
struct Watched {
    bound: u64,
    sent_before: u64,
}

/// The lines of a run (which waited.rs reads too) and what was counted on the way.
#[derive(Default)]
pub struct Run {
    pub lines: Vec<String>,
    counts: Counts,
    /// All bytes charged so far, and each class's waiting packets in order, for the bounded wait.
    sent: u64,
    watched: std::collections::BTreeMap<usize, std::collections::VecDeque<Watched>>,
    siblings: siblings::Siblings,
}

impl Run {
    /// Prints "`stop` number place for 1, 2 or 10 or a refused plan".
    fn stop(mut self, refusal: Refusal) -> Run {
        self.counts.refusals[refusal.number] += 1;
        // a line before this one is there only when the plan was taken, so this stop is one among events
        if !self.lines.is_empty() {
            self.counts.event_stops[refusal.number] += 1;
        }
        self.lines.push(format!("stop {} {}", refusal.number, refusal.place));
        self
    }

    /// Runs one arrival and prints `in`, with the queue's bytes "as a last field", or, "for a refused arrival", `no`: "`no` lines stay".
    fn arrive(&mut self, link: &mut Link, body: &[u8]) {
        let class = big_endian(&body[0..1]) as usize;
        let length = big_endian(&body[1..3]);
        let tag = big_endian(&body[3..7]);
        self.counts.events += 1;
        match arrival(link, class, length, tag) {
            Ok(waiting) => {
                self.watch(link, class, waiting);
                self.lines.push(format!("in {class} {length} {tag} {waiting}"));
            }
            Err(refusal) => {
                assert!((12..=14).contains(&refusal.number), "an arrival was refused with {refusal:?}");
                self.counts.refusals[refusal.number] += 1;
                self.lines.push(format!("no {class} {length} {tag} {}", refusal.number));
            }
        }
    }

    /// Runs one send and prints `out`, with the bytes from acceptance on "as a last field", or, "for refusal 15", `none`.
    fn send(&mut self, link: &mut Link) {
        self.counts.events += 1;
        let in_force = link.in_force;
        match self.siblings.send(link) {
            Ok(sent) => {
                self.counts.size_changes += u64::from(link.in_force != in_force);
                self.count_rounds(&sent);
                self.left(&sent);
                self.lines.push(sent.line());
            }
            Err(refusal) => {
                assert_eq!(refusal.number, 15, "a send was refused with {refusal:?}");
                self.counts.refusals[15] += 1;
                self.lines.push("none".to_string());
            }
        }
    }

    /// Demand 3: the link sends at most "(D/w rounded up, plus 1) times Q bytes" until the accepted packet has gone; D and
    /// those bytes are charges, and "Demand 3 keeps the whole-tree Q under both rules". D is what the arrival answered: "The front panel
    /// computes the bound of demand 3 and needs D."
    fn watch(&mut self, link: &Link, class: usize, d: u64) {
        let bound = mul(add(d.div_ceil(link.tree.classes[class].weight), 1), link.size);
        self.watched.entry(class).or_default().push_back(Watched { bound, sent_before: self.sent });
    }

    /// The first packet of a class has left. "in every run from a fresh link it is the true sum of charges": what the send answered is held
    /// to all bytes charged in this run, which no sum here may wrap round, less those charged before the packet came.
    fn left(&mut self, sent: &Sent) {
        self.sent = add(self.sent, charge(sent.length));
        let first = self.watched.get_mut(&sent.class).and_then(|waiting| waiting.pop_front()).expect("a packet left that never came");
        assert_eq!(sent.wait, sub(self.sent, first.sent_before), "a send answers other bytes than were charged from acceptance on");
        self.counts.wait_thousandths = self.counts.wait_thousandths.max(waited(&first, self.sent));
    }

    /// What still waits at the end has not waited past its bound either.
    fn still_waiting(&mut self) {
        for watched in self.watched.values().flatten() {
            self.counts.wait_thousandths = self.counts.wait_thousandths.max(waited(watched, self.sent));
        }
    }

    /// Counts the rounds of one send; only the last opened round is the one that sends.
    fn count_rounds(&mut self, sent: &Sent) {
        self.counts.rounds[sent.rounds] += 1;
        for (position, &surplus) in sent.surplus.iter().enumerate() {
            if surplus && position + 1 == sent.rounds {
                self.counts.surplus_sending += 1;
            } else if surplus {
                self.counts.surplus_idle += 1;
            }
        }
    }

    /// The counts as `name=number` words in one line.
    fn counts_line(&self) -> String {
        let counts = &self.counts;
        let mut words = Vec::new();
        for number in 1..19 {
            words.push(format!("refusal_{number}={}", counts.refusals[number]));
        }
        for rounds in 0..3 {
            words.push(format!("rounds_{rounds}={}", counts.rounds[rounds]));
        }
        words.push(format!("surplus_sending={}", counts.surplus_sending));
        words.push(format!("surplus_idle={}", counts.surplus_idle));
        words.push(format!("event_stop_1={}", counts.event_stops[1]));
        words.push(format!("event_stop_2={}", counts.event_stops[2]));
        words.push(format!("events={}", counts.events));
        words.push(format!("max_depth={}", counts.depth));
        words.push(format!("max_classes={}", counts.classes));
        words.push(format!("rule={}", counts.rule));
        words.push(format!("size_changes={}", counts.size_changes));
        words.push(format!("sibling_pairs={}", self.siblings.compared()));
        words.push(format!("sibling_checks={}", self.siblings.checks));
        words.push(format!("sibling_exact={}", self.siblings.exact));
        words.push(format!("max_sibling_thousandths={}", self.siblings.thousandths));
        for rule in [WHOLE_TREE, ACTIVE_CLASSES] {
            let nearest = if counts.rule == rule { self.siblings.thousandths } else { 0 };
            words.push(format!("max_sibling_thousandths_rule_{rule}={nearest}"));
        }
        words.push(format!("max_wait_thousandths={}", counts.wait_thousandths));
        for rule in [WHOLE_TREE, ACTIVE_CLASSES] {
            let nearest = if counts.rule == rule { counts.wait_thousandths } else { 0 };
            words.push(format!("max_wait_thousandths_rule_{rule}={nearest}"));
        }
        words.join(" ")
    }
}

/// Checks a packet's bound, and gives the share of it that was used, in thousandths.
fn waited(watched: &Watched, sent: u64) -> u64 {
    let since = sub(sent, watched.sent_before);
    assert!(since <= watched.bound, "{since} bytes were charged while a packet waited, above its bound {}", watched.bound);
    div(mul(since, 1000), watched.bound)
}

/// The whole run over an input of which at most 65,537 bytes were read.
pub fn run(input: &[u8]) -> Run {
    // "The program checks 10 before all else and then runs nothing."
    if input.len() > MOST_INPUT {
        return Run::default().stop(Refusal { number: 10, place: MOST_INPUT });
    }
    run_of_any_length(input)
}

/// The run of an input of any length: without number 10, which is the program's.
pub fn run_of_any_length(input: &[u8]) -> Run {
    let mut run = Run::default();
    // "`stop` is the only line where the plan is refused"; "the program makes no link".
    let (tree, used) = match read_plan(input) {
        Ok(plan) => plan,
        Err(refusal) => return run.stop(refusal),
    };
    let (mut link, refused) = fresh_link(&tree);
    assert!(refused.is_none(), "a plan that was read gives no fresh link");
    link.assert_sound("the fresh link");
    run.counts.depth = tree.depth();
    run.counts.classes = tree.count();
    run.counts.rule = tree.rule;
    run.siblings = siblings::Siblings::of(&tree);
    // "`link` prints the whole-tree size."
    run.lines.push(format!("link {} {}", tree.count(), link.size));
    run_events(run, &mut link, input, used)
}

/// "Events follow the plan until the input ends"; "Places count from the input's first byte."
fn run_events(mut run: Run, link: &mut Link, input: &[u8], used: usize) -> Run {
    let mut first = used;
    loop {
        match event_at(input, first) {
            Ok(Some(Event::Arrival(body))) => {
                run.arrive(link, body);
                first += 8;
            }
            Ok(Some(Event::Send)) => {
                run.send(link);
                first += 1;
            }
            Ok(None) => break,
            Err(refusal) => return run.stop(refusal),
        }
    }
    run.still_waiting();
    run.lines.push(format!("end {}", link.waiting()));
    run
}

/// What goes to standard output, and a line for standard error.
struct Output {
    bytes: Vec<u8>,
    said: Option<String>,
}

impl Output {
    /// Each line with its end.
    fn of_lines(lines: &[String]) -> Output {
        Output { bytes: (lines.join("\n") + "\n").into_bytes(), said: None }
    }

    fn print(&self) -> std::io::Result<()> {
        let mut standard_output = std::io::stdout();
        standard_output.write_all(&self.bytes)?;
        standard_output.flush()?;
        if let Some(line) = &self.said {
            eprintln!("{line}");
        }
        Ok(())
    }
}

/// The lines of a run; with SECOND_STATS set the counts go to standard error.
fn output_of(run: &Run) -> Output {
    let said = std::env::var_os("SECOND_STATS").map(|_| run.counts_line());
    Output { said, ..Output::of_lines(&run.lines) }
}

/// What the words may be.
const USE: &str =
    "tables FROM TABLE, waits FROM, worked FROM TO, state EVENT, silent [CLASS ..], silent-each, totals-each, \
    siblings I J, write [BYTES], mend [write], claims, false-claim, record or damaged SEED";

/// A run worked by hand, why leaves are silent, what waits under each class, two siblings, a plan written back or mended, a recording
/// checked or made.
fn worked(words: &[String], input: &[u8]) -> Output {
    match words[0].as_str() {
        "worked" | "state" => return Output::of_lines(&desk::answer(words, input)),
        "write" => return write::program(&words[1..], input),
        "mend" => return mend::program(&words[1..], input),
        "record" => return Output { bytes: claims::record(input), said: None },
        _ => (),
    }
    let numbers: Vec<usize> = words[1..].iter().map(|word| word.parse().expect(USE)).collect();
    let lines = match (words[0].as_str(), &numbers[..]) {
        ("tables", &[from, table]) => by_hand::tables(input, from, table),
        ("waits", &[from]) => by_hand::waits(input, from),
        ("silent", classes) => silent::silent(input, classes),
        ("silent-each", []) => silent::silent_each(input),
        ("totals-each", []) => totals::totals_each(input),
        ("siblings", &[i, j]) => return siblings::program(input, i, j),
        ("claims", []) => claims::claims(input),
        ("false-claim", []) => claims::false_claim(input),
        ("damaged", &[seed]) => return Output { bytes: claims::damaged(seed as u64, input), said: None },
        _ => panic!("{USE}"),
    };
    Output::of_lines(&lines)
}

/// Reads, runs, prints; input or output that fails ends with 1, a failed assertion (its message is on standard error) with 2.
fn main() {
    let words: Vec<String> = std::env::args().skip(1).collect();
    const ANY_LENGTH: [&str; 7] = ["long", "worked", "state", "claims", "false-claim", "record", "damaged"];
    let any_length = words.first().is_some_and(|word| ANY_LENGTH.contains(&word.as_str()));
    let Ok(input) = (if any_length { read_all() } else { read_input() }) else { std::process::exit(1) };
    let Ok(output) = std::panic::catch_unwind(|| match words.first().map(String::as_str) {
        None => output_of(&run(&input)),
        Some("long") => output_of(&run_of_any_length(&input)),
        Some(_) => worked(&words, &input),
    }) else {
        std::process::exit(2)
    };
    if output.print().is_err() {
        std::process::exit(1);
    }
}

// ---------------------------------------------------------------------------------------------
// The marked cases M1 to M12, the "Also" line, and the listing of tree P.

#[cfg(test)]
mod tests {
    use super::*;

    /// One inner class record.
    fn inner(parent: u8, weight: u32) -> Vec<u8> {
        let mut record = vec![1, parent];
        record.extend(weight.to_be_bytes());
        record
    }

    /// One leaf record.
    fn leaf(parent: u8, weight: u32, longest: u16) -> Vec<u8> {
        let mut record = vec![2, parent];
        record.extend(weight.to_be_bytes());
        record.extend(longest.to_be_bytes());
        record
    }

    /// Tree P with class 1's weight left open (M10 takes 2, all else 3).
    fn plan_p(weight_of_1: u32) -> Vec<u8> {
        [inner(0, weight_of_1), leaf(1, 1, 10), leaf(1, 2, 10), leaf(0, 4, 10), vec![0]].concat()
    }

    /// The fresh link of tree P.
    fn link_p() -> Link {
        let (tree, _) = read_plan(&plan_p(3)).unwrap();
        let (link, refused) = fresh_link(&tree);
        assert_eq!(refused, None);
        link
    }

    /// These packets arrive and are taken.
    fn arrivals(mut link: Link, packets: &[(usize, u64, u64)]) -> Link {
        for &(class, length, tag) in packets {
            arrival(&mut link, class, length, tag).unwrap();
        }
        link
    }

    /// The four arrivals of the listing.
    const LISTED: [(usize, u64, u64); 4] = [(2, 2, 1), (3, 10, 2), (3, 10, 3), (4, 10, 4)];

    /// Tree P after the four arrivals of the listing.
    fn loaded_p() -> Link {
        arrivals(link_p(), &LISTED)
    }

    /// A plan with a record of kind 3 before it.
    fn under(rule: u8, plan: Vec<u8>) -> Vec<u8> {
        [vec![3, rule], plan].concat()
    }

    /// The fresh link of tree P under rule 2.
    fn link_p_rule_2() -> Link {
        let (tree, used) = read_plan(&under(2, plan_p(3))).unwrap();
        assert_eq!((tree.rule, tree.count(), used), (ACTIVE_CLASSES, 4, 33));
        fresh_link(&tree).0
    }

    /// All balances.
    fn balances(link: &Link) -> Vec<u64> {
        link.accounts.iter().map(|a| a.balance).collect()
    }

    /// All residuals.
    fn residuals(link: &Link) -> Vec<u64> {
        link.accounts.iter().map(|a| a.residual).collect()
    }

    /// The refusal of a plan as (number, place).
    fn plan_refusal(input: &[u8]) -> (usize, usize) {
        let refusal = read_plan(input).unwrap_err();
        (refusal.number, refusal.place)
    }

    /// What is kept of each of so many sends: tag, rounds, and which of them were surplus rounds.
    fn sends(link: &mut Link, count: usize) -> Vec<(u64, usize, Vec<bool>)> {
        (0..count).map(|_| send(link).unwrap()).map(|s| (s.tag, s.rounds, s.surplus)).collect()
    }

    #[test]
    fn charges() {
        let charged: Vec<u64> = [1, 59, 60, 61, 9_216].into_iter().map(charge).collect();
        assert_eq!(charged, [84, 84, 84, 85, 9_240]);
    }

    #[test]
    fn m1_plan_p() {
        let (tree, used) = read_plan(&plan_p(3)).unwrap();
        assert_eq!((tree.round_size(), used, tree.count()), (262, 31, 4));
        let link = link_p();
        assert_eq!((balances(&link), link.place), (vec![262, 0, 0, 0, 0], 64));
        assert_eq!(link.broken_rule(), None);
    }

    #[test]
    fn m2_first_opening() {
        let mut link = loaded_p();
        assert_eq!(search(&mut link), None);
        let opening = open_round(&mut link);
        assert_eq!(opening, Opening { surplus: false, quotas: vec![37, 37, 0, 0, 0] });
        assert_eq!(balances(&link), [3, 0, 37, 74, 148]);
    }

    #[test]
    fn m3_first_send() {
        let mut link = loaded_p();
        let sent = send(&mut link).unwrap();
        assert_eq!((sent.class, sent.length, sent.tag, sent.rounds), (4, 10, 4, 1));
        assert_eq!((balances(&link), residuals(&link)), (vec![87, 0, 37, 74, 0], vec![64, 0, 0, 0, 0]));
    }

    #[test]
    fn m4_m5_m6_the_other_sends() {
        let mut link = loaded_p();
        let first = sends(&mut link, 1);
        // the second send's main round, opened by hand as the send would open it
        let mut by_hand = link.clone();
        assert_eq!(search(&mut by_hand), None);
        let opening = open_round(&mut by_hand);
        assert_eq!(opening, Opening { surplus: false, quotas: vec![50, 50, 0, 0, 0] });
        assert_eq!((balances(&by_hand), residuals(&by_hand)), (vec![1, 0, 87, 174, 0], vec![0; 5]));
        assert_eq!(search(&mut by_hand), Some(2));
        send_first(&mut by_hand, 2);
        let second = sends(&mut link, 1);
        assert_eq!(link, by_hand);
        let rest = sends(&mut link, 2);
        let all = [first, second, rest].concat();
        // "the fourth send opens no round any more"
        assert_eq!(all, [(4, 1, vec![false]), (1, 1, vec![false]), (2, 0, vec![]), (3, 0, vec![])]);
        // M6: the end
        assert_eq!((balances(&link), residuals(&link)), (vec![253, 0, 0, 0, 0], vec![9, 0, 0, 0, 0]));
        assert_eq!(send(&mut link), refuse(15, 0));
    }

    #[test]
    fn m7_two_rounds_in_a_send() {
        let mut link = loaded_p();
        send(&mut link).unwrap();
        arrival(&mut link, 2, 1, 5).unwrap();
        assert_eq!(sends(&mut link, 3), [(1, 1, vec![false]), (2, 0, vec![]), (3, 0, vec![])]);
        // one send longer: a surplus round that sends nothing, and then a main round, first by hand
        let mut by_hand = link.clone();
        assert_eq!(search(&mut by_hand), None);
        let opening = open_round(&mut by_hand);
        assert_eq!(opening, Opening { surplus: true, quotas: vec![0, 6, 0, 0, 0] });
        assert_eq!(by_hand.accounts[2].balance, 9);
        assert_eq!(search(&mut by_hand), None);
        let opening = open_round(&mut by_hand);
        assert_eq!(opening, Opening { surplus: false, quotas: vec![84, 252, 0, 0, 0] });
        assert_eq!(sends(&mut link, 1), [(5, 2, vec![true, false])]);
    }

    #[test]
    fn arrival_to_an_emptied_leaf() {
        let mut link = loaded_p();
        send(&mut link).unwrap();
        let before = link.clone();
        arrival(&mut link, 4, 10, 5).unwrap();
        // only the queue and the totals change: leaf 4 waits for the next round
        assert_eq!((&link.accounts, &link.active, link.place), (&before.accounts, &before.active, before.place));
        assert_eq!((link.active[4], search(&mut link.clone())), (false, None));
        assert_eq!(sends(&mut link, 2), [(2, 1, vec![false]), (5, 0, vec![])]);
    }

    #[test]
    fn surplus_round_that_sends() {
        let mut link = link_p();
        for (class, length, tag) in [(2, 10, 1), (2, 10, 2), (3, 10, 3)] {
            arrival(&mut link, class, length, tag).unwrap();
        }
        assert_eq!(sends(&mut link, 2), [(1, 1, vec![false]), (3, 0, vec![])]);
        assert_eq!(residuals(&link), [0, 90, 0, 0, 0]);
        assert_eq!(sends(&mut link, 1), [(2, 1, vec![true])]);
    }

    #[test]
    fn rule_2_tree_p_by_hand() {
        // "a fresh link starts with the whole-tree size", and `link` prints it
        let mut link = arrivals(link_p_rule_2(), &LISTED);
        assert_eq!((link.size, link.in_force, link.accounts[ROOT].balance), (262, 262, 262));
        // All are active: the size is 3 + 1 + 2 + 4 and three times 84, which is 262, and all goes as under rule 1; leaf 4 sends and gives
        // its 64 to the root's residual.
        assert_eq!(sends(&mut link, 1), [(4, 1, vec![false])]);
        assert_eq!((link.in_force, balances(&link), residuals(&link)), (262, vec![87, 0, 37, 74, 0], vec![64, 0, 0, 0, 0]));
        // Classes 1, 2 and 3 are active: 3 + 1 + 2 and twice 84 are 174. The root has 87 + 64 + 174 - 262 = 63, its quota is 63 / 3 = 21 and
        // that of class 1 too; leaf 2 has 37 + 21, leaf 3 has 74 + 42.
        let mut by_hand = link.clone();
        assert_eq!(search(&mut by_hand), None);
        assert_eq!(open_round(&mut by_hand), Opening { surplus: false, quotas: vec![21, 21, 0, 0, 0] });
        assert_eq!((by_hand.in_force, balances(&by_hand), residuals(&by_hand)), (174, vec![0, 0, 58, 116, 0], vec![0; 5]));
        // leaf 2 lacks 26; leaf 3 sends the first of its two
        assert_eq!(sends(&mut link, 1), [(2, 1, vec![false])]);
        assert_eq!((link.in_force, balances(&link), residuals(&link)), (174, vec![84, 0, 58, 32, 0], vec![0; 5]));
        // The same classes, the same size: the root has 84, the quotas are 28 and 28; leaf 2 has 58 + 28, leaf 3 has 32 + 56.
        let mut by_hand = link.clone();
        assert_eq!(search(&mut by_hand), None);
        assert_eq!(open_round(&mut by_hand), Opening { surplus: false, quotas: vec![28, 28, 0, 0, 0] });
        assert_eq!((by_hand.in_force, balances(&by_hand), residuals(&by_hand)), (174, vec![0, 0, 86, 88, 0], vec![0; 5]));
        assert_eq!(sends(&mut link, 2), [(1, 1, vec![false]), (3, 0, vec![])]);
        // the 2 of leaf 2 and the 4 of leaf 3 went to class 1, and by it to the root
        assert_eq!((link.in_force, balances(&link), residuals(&link)), (174, vec![168, 0, 0, 0, 0], vec![6, 0, 0, 0, 0]));
        assert_eq!(send(&mut link), refuse(15, 0));
        assert_eq!((link.size, link.broken_rule()), (262, None));
    }

    #[test]
    fn rule_2_listing_of_tree_p() {
        let input = [&[3, 2][..], include_bytes!("tree_p.bin")].concat();
        // all four were accepted before the first send, and each is charged 84: 84, and 84 more with each send
        let outs = ["out 4 10 4 1 84", "out 3 10 2 1 168", "out 2 2 1 1 252", "out 3 10 3 0 336", "none", "end 0"];
        let run = run(&input);
        assert_eq!(run.lines[0], "link 4 262");
        assert_eq!(run.lines[5..], outs);
        // the bounds are those of the whole-tree size: the nearest to its own is tag 3, which 336 of 85 times 262 were sent before
        assert_eq!((run.counts.rule, run.counts.size_changes, run.counts.wait_thousandths), (2, 1, 15));
        assert!(run.counts_line().ends_with("max_wait_thousandths=15 max_wait_thousandths_rule_1=0 max_wait_thousandths_rule_2=15"));
        // leaf 2 sends alone, and the size is 88 when a packet comes to leaf 4: its bound is 22 times 262 all the same, and 84 is 14 of 1000
        let (to_2, to_4) = ([16, 2, 0, 2, 0, 0, 0, 1], [16, 4, 0, 10, 0, 0, 0, 2]);
        let input = [&under(2, plan_p(3))[..], &to_2, &[17], &to_4, &[17]].concat();
        assert_eq!(super::run(&input).counts.wait_thousandths, 14);
        assert_eq!(by_hand::waits(&input, 1)[1], "| 2 | 4 | 84 | 4 | (21 + 1) × 262 = 5764 | 84 |");
    }

    #[test]
    fn rule_1_is_no_record() {
        let listing = include_bytes!("tree_p.bin");
        let input = [&[3, 1][..], listing].concat();
        assert_eq!(run(&input).lines.join("\n") + "\n", include_str!("tree_p.txt"));
        assert_eq!(read_plan(&input).unwrap().0, read_plan(listing).unwrap().0);
        assert_eq!((read_plan(&input).unwrap().1, read_plan(listing).unwrap().1), (33, 31));
        assert_ne!(read_plan(&under(2, plan_p(3))).unwrap().0, read_plan(listing).unwrap().0);
    }

    #[test]
    fn rule_2_a_surplus_round_leaves_the_size() {
        let mut link = arrivals(link_p_rule_2(), &[(2, 10, 1), (2, 10, 2), (3, 10, 3)]);
        // 174: quotas 58 and 58, leaf 2 has 58 and leaf 3 has 116; leaf 3 sends, and its 32 go to class 1's residual
        assert_eq!(sends(&mut link, 1), [(3, 1, vec![false])]);
        assert_eq!((link.in_force, balances(&link), residuals(&link)), (174, vec![84, 0, 58, 0, 0], vec![0, 32, 0, 0, 0]));
        // 32 is at or above 1: a surplus round, leaf 2 has 58 + 32 = 90; rule 2's size would be 3 + 1 + 84 = 88 now, but 174 stays
        assert_eq!(sends(&mut link, 1), [(1, 1, vec![true])]);
        assert_eq!((link.in_force, link.active_size()), (174, 88));
        assert_eq!((balances(&link), residuals(&link)), (vec![168, 0, 6, 0, 0], vec![0; 5]));
        // a main round: the root has 168 + 88 - 174 = 82 and keeps 1, class 1 hands down 81, leaf 2 has 6 + 81 = 87 and keeps 3
        assert_eq!(sends(&mut link, 1), [(2, 1, vec![false])]);
        assert_eq!((link.in_force, balances(&link), residuals(&link)), (88, vec![85, 0, 0, 0, 0], vec![3, 0, 0, 0, 0]));
        // leaf 4 alone, 4 + 84 = 88: the root has 85 + 3, all of it is leaf 4's, which gives back 4
        link = arrivals(link, &[(4, 10, 4)]);
        assert_eq!(sends(&mut link, 1), [(4, 1, vec![false])]);
        assert_eq!((link.in_force, balances(&link), residuals(&link)), (88, vec![84, 0, 0, 0, 0], vec![4, 0, 0, 0, 0]));
        // all again: the size grows to 262, the root takes 174 more, and the first send is the listing's
        link = arrivals(link, &LISTED);
        assert_eq!(sends(&mut link, 1), [(4, 1, vec![false])]);
        assert_eq!((link.in_force, balances(&link), residuals(&link)), (262, vec![87, 0, 37, 74, 0], vec![64, 0, 0, 0, 0]));
    }

    #[test]
    fn rule_2_sound_states() {
        let smaller: fn(&mut Link) = |l| (l.in_force, l.accounts[ROOT].balance) = (261, 261);
        let nothing: fn(&mut Link) = |l| (l.in_force, l.accounts[ROOT].balance) = (0, 0);
        let larger: fn(&mut Link) = |l| (l.in_force, l.accounts[ROOT].balance) = (263, 263);
        let not_added: fn(&mut Link) = |l| l.in_force = 261;
        let no_rule: fn(&mut Link) = |l| l.tree.rule = 0;
        // which of the changes leave a state sound, under rule 1 and under rule 2
        let cases = [(smaller, false, true), (nothing, false, true), (larger, false, false), (not_added, false, false), (no_rule, false, false)];
        for (change, under_1, under_2) in cases {
            for (mut link, sound) in [(link_p(), under_1), (link_p_rule_2(), under_2)] {
                change(&mut link);
                assert_eq!(link.broken_rule().is_none(), sound);
                assert_eq!(arrival(&mut link, 2, 2, 1), if sound { Ok(84) } else { refuse(11, 0) });
                // a sound state's next main round sets the size, whatever it was
                assert_eq!(send(&mut link).map(|sent| sent.tag), if sound { Ok(1) } else { refuse(11, 0) });
                assert!(!sound || link.in_force == 3 + 1 + 84);
            }
        }
        // a fresh link asked of a tree with another rule
        let mut tree = link_p().tree;
        tree.rule = 3;
        assert_eq!(fresh_link(&tree), (link_without_classes(), Some(Refusal { number: 11, place: 0 })));
    }

    #[test]
    fn rule_records_refused() {
        let most = leaf(0, 1, 1).repeat(63);
        // 17 at 0, and 17 before anything that comes later
        for rule in [0, 3, 4, 17, 128, 255] {
            assert_eq!(plan_refusal(&under(rule, plan_p(3))), (17, 0));
            assert_eq!(plan_refusal(&under(rule, vec![])), (17, 0));
        }
        // 18: second, with a good and with a bad rule byte; a second record of kind 3; as the last record; after 63 classes
        for rule in [1, 2, 0, 3, 255] {
            assert_eq!(plan_refusal(&[inner(0, 1), vec![3, rule], leaf(1, 1, 1), vec![0]].concat()), (18, 6));
            assert_eq!(plan_refusal(&under(2, under(rule, plan_p(3)))), (18, 2));
            assert_eq!(plan_refusal(&under(1, under(rule, plan_p(3)))), (18, 2));
            assert_eq!(plan_refusal(&[leaf(0, 1, 1), vec![3, rule, 0]].concat()), (18, 8));
            assert_eq!(plan_refusal(&[most.clone(), vec![3, rule, 0]].concat()), (18, 504));
        }
        // 17 comes before the 18 of a later record
        assert_eq!(plan_refusal(&under(3, under(2, plan_p(3)))), (17, 0));
        // 1 comes first: cut after the kind byte, first, second, after another of kind 3, after 63 classes; cut after the record
        assert_eq!(plan_refusal(&[3]), (1, 0));
        assert_eq!(plan_refusal(&[leaf(0, 1, 1), vec![3]].concat()), (1, 8));
        assert_eq!(plan_refusal(&[3, 2, 3]), (1, 2));
        assert_eq!(plan_refusal(&[most.clone(), vec![3]].concat()), (1, 504));
        assert_eq!(plan_refusal(&[3, 2]), (1, 2));
        // it is no class record: 9 at 0, 63 classes after it are taken, and the 64th is 3 at its place
        assert_eq!(plan_refusal(&[3, 2, 0]), (9, 0));
        assert_eq!(plan_refusal(&[3, 1, 0]), (9, 0));
        let (tree, used) = read_plan(&under(2, [most.clone(), vec![0]].concat())).unwrap();
        assert_eq!((tree.count(), used, tree.round_size()), (63, 507, 63 * 85));
        assert_eq!(plan_refusal(&under(2, [most, leaf(0, 1, 1), vec![0]].concat())), (3, 506));
        // class numbers begin at 1 after it: class 1 may not name 1 as its parent, and class 1 too light is 7 at 1
        assert_eq!(plan_refusal(&under(2, leaf(1, 1, 1))), (4, 2));
        assert_eq!(plan_refusal(&under(2, plan_p(2))), (7, 1));
        // among events it is unknown
        for (events, place) in [(vec![3], 33), (vec![3, 2], 33), (vec![17, 3, 2], 34)] {
            let input = [under(2, plan_p(3)), events].concat();
            assert_eq!(run(&input).lines.last(), Some(&format!("stop 2 {place}")));
        }
        assert_eq!(run(&[3, 7]).lines, ["stop 17 0"]);
        assert_eq!(run(&[leaf(0, 1, 1), vec![3, 7]].concat()).lines, ["stop 18 8"]);
    }

    #[test]
    fn m8_m9_m10_refused_plans() {
        assert_eq!(plan_refusal(&[]), (1, 0));
        assert_eq!(plan_refusal(&[0]), (9, 0));
        assert_eq!(plan_refusal(&plan_p(2)), (7, 1));
        for (input, line) in [(vec![], "stop 1 0"), (vec![0], "stop 9 0"), (plan_p(2), "stop 7 1")] {
            assert_eq!(run(&input).lines, [line]);
        }
    }

    #[test]
    fn m11_refused_arrivals() {
        let mut link = link_p();
        let before = link.clone();
        assert_eq!(arrival(&mut link, 4, 0, 1), refuse(13, 4));
        assert_eq!(arrival(&mut link, 4, 11, 1), refuse(13, 4));
        assert_eq!(arrival(&mut link, 1, 10, 1), refuse(12, 1));
        assert_eq!(arrival(&mut link, 0, 10, 1), refuse(12, 0));
        assert_eq!(arrival(&mut link, 5, 10, 1), refuse(12, 5));
        assert_eq!(arrival(&mut link, 255, 0, 1), refuse(12, 255));
        assert_eq!(link, before);
        assert_eq!(arrival(&mut link, 4, 10, 1), Ok(84));
    }

    #[test]
    fn m12_full_queue() {
        let mut link = link_p();
        for tag in 0..32 {
            assert_eq!(arrival(&mut link, 4, 10, tag), Ok((tag + 1) * 84));
        }
        let before = link.clone();
        assert_eq!(arrival(&mut link, 4, 10, 32), refuse(14, 4));
        assert_eq!(link, before);
        assert_eq!(send(&mut link).unwrap().tag, 0);
        assert_eq!(arrival(&mut link, 4, 10, 33), Ok(32 * 84));
    }

    #[test]
    fn bytes_of_the_queue() {
        // 60 bytes are charged 84, 61 are 85, 1,500 are 1,524; two leaves, of which each is answered its own
        let (tree, _) = read_plan(&[leaf(0, 1, 1_500), leaf(0, 1, 61), vec![0]].concat()).unwrap();
        let (mut link, _) = fresh_link(&tree);
        let mut answers = |packets: &[(usize, u64)]| -> Vec<u64> {
            packets.iter().map(|&(class, length)| arrival(&mut link, class, length, 7).unwrap()).collect()
        };
        assert_eq!(answers(&[(1, 60), (1, 61), (2, 61), (1, 1_500), (2, 1)]), [84, 169, 85, 1_693, 169]);
        // leaf 1 has half of 2 + 1,524 + 85 and sends the 84 and the 85: then only the longest waits, and the new one
        assert_eq!([send(&mut link).unwrap().class, send(&mut link).unwrap().class], [1, 1]);
        assert_eq!(arrival(&mut link, 1, 100, 8), Ok(1_524 + 124));
        // the lines, and none of it in a `no` line
        let to_4 = [16, 4, 0, 10, 0, 0, 0, 9];
        let lines = run(&[plan_p(3), to_4.repeat(33), vec![17], to_4.to_vec()].concat()).lines;
        assert_eq!(lines[1..3], ["in 4 10 9 84", "in 4 10 9 168"]);
        assert_eq!(lines[32..34], ["in 4 10 9 2688", "no 4 10 9 14"]);
        assert_eq!(lines[35..], ["in 4 10 9 2688", "end 32"]);
    }

    #[test]
    fn listing_of_tree_p() {
        // The last fields of the four `out` lines by hand. Lengths 2 and 10 have 6 and 14 bytes with the check sequence, are padded to 64, and
        // 20 more make the charge 84 of each packet. All four are accepted before any send, so nothing was charged before any of them, and
        // each waits for all that goes up to its own end:
        //   send 1, tag 4: its own 84                       84
        //   send 2, tag 1: tag 4 and its own, 84 + 84      168
        //   send 3, tag 2: tags 4, 1 and its own           252
        //   send 4, tag 3: tags 4, 1, 2 and its own        336
        // The fifth send finds no packet: `none`, as before.
        let input = include_bytes!("tree_p.bin");
        assert_eq!(input.len(), 31 + 4 * 8 + 5);
        assert_eq!(run(input).lines.join("\n") + "\n", include_str!("tree_p.txt"));
        let mut link = loaded_p();
        assert_eq!([1, 2, 3, 4].map(|_| send(&mut link).unwrap().wait), [84, 168, 252, 336]);
        assert_eq!(send(&mut link), refuse(15, 0));
    }

    #[test]
    fn bytes_from_acceptance_on() {
        // The run of `bytes_of_the_queue`: 60 bytes are charged 84, 61 are 85, 1 is 84, 1,500 are 1,524, 100 are 124. Q is 2 + 1,524 + 85, of
        // which each leaf has 805.
        let (tree, _) = read_plan(&[leaf(0, 1, 1_500), leaf(0, 1, 61), vec![0]].concat()).unwrap();
        let mut link = arrivals(fresh_link(&tree).0, &[(1, 60, 1), (1, 61, 2), (2, 61, 3), (1, 1_500, 4), (2, 1, 5)]);
        let next = |link: &mut Link| send(link).map(|sent| (sent.tag, sent.wait));
        assert_eq!(next(&mut link), Ok((1, 84)));
        assert_eq!(next(&mut link), Ok((2, 84 + 85)));
        // tag 8 is accepted now and does not wait for these two; refused arrivals have no part in it
        assert_eq!(arrival(&mut link, 1, 100, 8), Ok(1_524 + 124));
        assert_eq!(arrival(&mut link, 2, 62, 9), refuse(13, 2));
        assert_eq!(next(&mut link), Ok((3, 84 + 85 + 85)));
        assert_eq!(next(&mut link), Ok((5, 84 + 85 + 85 + 84)));
        // leaf 1 has 636 and gets the root's 339 and 636: 1,611 cover 1,524
        assert_eq!(next(&mut link), Ok((4, 84 + 85 + 85 + 84 + 1_524)));
        assert_eq!(next(&mut link), Ok((8, 85 + 84 + 1_524 + 124)));
        assert_eq!(next(&mut link), refuse(15, 0));
        // a packet that comes to an empty link waits for its own bytes alone, whatever was charged before; sends that find none charge nothing
        assert_eq!(arrival(&mut link, 2, 61, 10), Ok(85));
        assert_eq!(next(&mut link), Ok((10, 85)));
        // M7: tag 5 comes after the first send, and goes fourth from there
        let mut link = loaded_p();
        assert_eq!(next(&mut link), Ok((4, 84)));
        arrival(&mut link, 2, 1, 5).unwrap();
        assert_eq!([1, 2, 3, 4].map(|_| next(&mut link).unwrap()), [(1, 168), (2, 252), (3, 336), (5, 336)]);
    }

    #[test]
    fn any_sums_are_sound() {
        // "any values of them are sound": nothing else that a call answers, or does to a state, depends on them
        let starts = [0, 1, 83, 84, 1 << 32, (1 << 63) - 1, 1 << 63, u64::MAX - 84, u64::MAX - 83, u64::MAX];
        for sends in 0..4 {
            let mut plain = loaded_p();
            (0..sends).for_each(|_| drop(send(&mut plain).unwrap()));
            for (position, first) in starts.into_iter().enumerate() {
                let mut link = plain.clone();
                for (packet, step) in link.queues.iter_mut().flatten().zip(0..) {
                    packet.since = first.wrapping_add(starts[(position + step) % starts.len()]);
                }
                assert_eq!(link.broken_rule(), None);
                let mut other = plain.clone();
                assert_eq!(arrival(&mut link, 4, 10, 9), arrival(&mut other, 4, 10, 9));
                let before: Vec<u64> = link.queues.iter().map(|queue| queue.first().map_or(0, |packet| packet.since)).collect();
                let (sent, like) = (send(&mut link).unwrap(), send(&mut other).unwrap());
                // the answer is what was there and the packet's own 84, "modulo 2 to the power 64"; all else is as without
                assert_eq!(sent.wait, before[sent.class].wrapping_add(84));
                assert_eq!(Sent { wait: 0, ..sent }, Sent { wait: 0, ..like });
                assert_eq!(link.broken_rule(), None);
                for state in [&mut link, &mut other] {
                    state.queues.iter_mut().flatten().for_each(|packet| packet.since = 0);
                }
                assert_eq!(link, other);
            }
        }
        let mut link = loaded_p();
        link.queues[4][0].since = u64::MAX - 83;
        assert_eq!(send(&mut link).unwrap().line(), "out 4 10 4 1 0");
    }

    #[test]
    fn also_limits() {
        assert_eq!(plan_refusal(&[leaf(0, 0, 1), vec![0]].concat()), (5, 0));
        assert_eq!(plan_refusal(&[leaf(0, 1_000_001, 1), vec![0]].concat()), (5, 0));
        assert!(read_plan(&[leaf(0, 1_000_000, 9_216), vec![0]].concat()).is_ok());
        assert_eq!(plan_refusal(&[leaf(0, 1, 0), vec![0]].concat()), (6, 0));
        assert_eq!(plan_refusal(&[leaf(0, 1, 9_217), vec![0]].concat()), (6, 0));
        assert_eq!(plan_refusal(&[leaf(1, 1, 1), vec![0]].concat()), (4, 0));
        assert_eq!(plan_refusal(&[leaf(0, 1, 1), leaf(1, 1, 1), vec![0]].concat()), (4, 8));
        let most = leaf(0, 1_000_000, 9_216).repeat(63);
        let (tree, used) = read_plan(&[most.clone(), vec![0]].concat()).unwrap();
        assert_eq!((tree.count(), used, tree.round_size()), (63, 505, 63_582_120));
        assert_eq!(plan_refusal(&[most.clone(), inner(200, 0), vec![0]].concat()), (3, 504));
        assert_eq!(plan_refusal(&[most.clone(), vec![2, 0]].concat()), (1, 504));
        assert_eq!(plan_refusal(&[most, vec![16]].concat()), (2, 504));
    }

    #[test]
    fn order_of_checks() {
        // 4 before 5 before 6, all in one record
        assert_eq!(plan_refusal(&leaf(1, 0, 0)), (4, 0));
        assert_eq!(plan_refusal(&leaf(0, 0, 0)), (5, 0));
        assert_eq!(plan_refusal(&leaf(0, 1, 0)), (6, 0));
        // cut after a whole record, inside a body, and an unknown kind as the last byte
        assert_eq!(plan_refusal(&leaf(0, 1, 1)), (1, 8));
        assert_eq!(plan_refusal(&leaf(0, 1, 1)[..7]), (1, 0));
        assert_eq!(plan_refusal(&[leaf(0, 1, 1), vec![17]].concat()), (2, 8));
        // class by class upward: class 1 too light comes before class 2 without a child
        let both = [inner(0, 1), inner(0, 1), leaf(1, 2, 1), vec![0]].concat();
        assert_eq!(plan_refusal(&both), (7, 1));
        let turned = [inner(0, 1), inner(0, 1), leaf(2, 2, 1), vec![0]].concat();
        assert_eq!(plan_refusal(&turned), (8, 1));
    }

    #[test]
    fn events_cut_or_unknown() {
        let mut input = plan_p(3);
        input.extend([17, 16, 2, 0, 2, 0, 0, 0]);
        assert_eq!(run(&input).lines, ["link 4 262", "none", "stop 1 32"]);
        for kind in [0, 1, 2, 3, 255] {
            let mut input = plan_p(3);
            input.extend([17, kind]);
            assert_eq!(run(&input).lines, ["link 4 262", "none", "stop 2 32"]);
        }
    }

    #[test]
    fn input_limit() {
        let mut input = plan_p(3);
        input.resize(65_536, 17);
        assert_eq!(run(&input).lines.len(), 1 + 65_536 - 31 + 1);
        input.push(17);
        assert_eq!(run(&input).lines, ["stop 10 65536"]);
    }

    #[test]
    fn unsound_states_are_refused() {
        // a bad tree gives 11 at 0 and a link that isn't sound
        let (mut link, refused) = fresh_link(&Tree::without_classes());
        assert_eq!(refused, Some(Refusal { number: 11, place: 0 }));
        assert_eq!(link, link_without_classes());
        assert_eq!(arrival(&mut link, 1, 1, 1), refuse(11, 0));
        assert_eq!(send(&mut link), refuse(11, 0));
        // one state broken by hand for each of a few rules
        let breaks: [fn(&mut Link); 6] = [
            |l| l.place = 65,
            |l| l.size = 263,
            |l| l.accounts[0].balance = 261,
            |l| l.active[2] = true,
            |l| l.queues[1].push(Packet { length: 1, tag: 1, since: 0 }),
            |l| l.accounts[4] = Account { balance: 0, residual: 1 },
        ];
        for broken in breaks {
            let mut link = link_p();
            broken(&mut link);
            let before = link.clone();
            assert_eq!(arrival(&mut link, 2, 1, 1), refuse(11, 0));
            assert_eq!(send(&mut link), refuse(11, 0));
            assert_eq!(link, before);
        }
    }
}
