//! "Say why a leaf is silent", written from the customer's words only: 'The desk gets the call "my class sends nothing". Add a tool that takes
//! a state and a leaf and gives one of four reasons'. `second silent [CLASS ..] < input` prints the reason of each class named, or of every
//! leaf, after the last event; `second silent-each < input` prints every leaf's after the plan and after each event.
//! Each reason is worded on its own here, and "Exactly one reason is true of each leaf in a sound state" is checked in every state of a run.

use super::*;

/// The four reasons, one of them "with the exact shortfall".
#[derive(Clone, Copy, PartialEq, Eq, Debug)]
pub enum Reason {
    /// "it holds no packet"
    Empty,
    /// "it holds some but is not in this round"
    Waits,
    /// "it is in the round, numbered below the place, and lacks a stated number of bytes"
    Short(u64),
    /// "its visit is under way or still to come"
    Due,
}

// ---------------------------------------------------------------------------------------------
// The four reasons, each from its own words: none looks at another.

/// "it holds no packet"
fn holds_none(link: &Link, leaf: usize) -> bool {
    link.queues[leaf].is_empty()
}

/// "it holds some but is not in this round": a round's leaves are the active ones, and "A new arrival to such a leaf waits for the next round."
fn waits(link: &Link, leaf: usize) -> bool {
    !link.queues[leaf].is_empty() && !link.active[leaf]
}

/// "it is in the round, numbered below the place, and lacks a stated number of bytes": how many, or nothing where that isn't so. A leaf is
/// visited for its first packet, and "every comparison with a first packet" reads the charge.
fn lacks(link: &Link, leaf: usize) -> Option<u64> {
    if !link.active[leaf] || leaf >= link.place {
        return None;
    }
    let cost = link.queues[leaf].first()?.charge();
    let has = link.accounts[leaf].balance;
    if has < cost { Some(sub(cost, has)) } else { None }
}

/// "its visit is under way or still to come": the round goes on as step 1 says, "Find the lowest-numbered active leaf not below the place";
/// when the leaf found has had its visit, "the place becomes the leaf plus 1 and the search goes on". The leaf at the place is the one that sent
/// last: its visit is under way, whatever its balance, until the next search has gone past it.
fn to_be_visited(link: &Link, leaf: usize) -> bool {
    let mut place = link.place;
    while let Some(found) = link.numbers().find(|&c| c >= place && link.tree.is_leaf(c) && link.active[c]) {
        if found == leaf {
            return true;
        }
        place = found + 1;
    }
    false
}

/// All reasons that are true of a leaf.
fn all_reasons(link: &Link, leaf: usize) -> Vec<Reason> {
    let mut reasons = Vec::new();
    if holds_none(link, leaf) {
        reasons.push(Reason::Empty);
    }
    if waits(link, leaf) {
        reasons.push(Reason::Waits);
    }
    if let Some(bytes) = lacks(link, leaf) {
        reasons.push(Reason::Short(bytes));
    }
    if to_be_visited(link, leaf) {
        reasons.push(Reason::Due);
    }
    reasons
}

/// The reason of a leaf in a sound state: "Exactly one reason is true of each leaf in a sound state, and the tool gives that one".
fn only_reason(link: &Link, leaf: usize) -> Reason {
    let reasons = all_reasons(link, leaf);
    assert_eq!(reasons.len(), 1, "leaf {leaf}: the reasons {reasons:?} are true");
    reasons[0]
}

/// All leaves in class order.
fn leaves(link: &Link) -> Vec<usize> {
    link.numbers().filter(|&c| link.tree.is_leaf(c)).collect()
}

/// Ends the program unless exactly one reason is true of each leaf, and a shortfall is the least that would let the leaf send.
pub fn assert_one_each(link: &Link) {
    for leaf in leaves(link) {
        if let Reason::Short(bytes) = only_reason(link, leaf) {
            let mut richer = link.clone();
            richer.accounts[leaf].balance += bytes;
            assert!(richer.covers_first(leaf), "leaf {leaf} lacks more than {bytes} bytes");
            richer.accounts[leaf].balance -= 1;
            assert!(!richer.covers_first(leaf), "leaf {leaf} lacks fewer than {bytes} bytes");
        }
    }
}

/// The tool: "Refusals: 11, then 12, as for an arrival."
pub fn why_silent(link: &Link, class: usize) -> Result<Reason, Refusal> {
    // 11: "the state is not sound"
    if link.broken_rule().is_some() {
        return refuse(11, 0);
    }
    // 12: "the class is not a leaf of the plan"
    if !link.tree.is_leaf(class) {
        return refuse(12, class);
    }
    Ok(only_reason(link, class))
}

// ---------------------------------------------------------------------------------------------
// The lines.

/// `silent CLASS REASON BYTES`, the bytes 0 but for a shortfall, or `no CLASS 12`.
fn line(link: &Link, class: usize) -> String {
    match why_silent(link, class) {
        Ok(Reason::Empty) => format!("silent {class} empty 0"),
        Ok(Reason::Waits) => format!("silent {class} waits 0"),
        Ok(Reason::Short(bytes)) => format!("silent {class} short {bytes}"),
        Ok(Reason::Due) => format!("silent {class} due 0"),
        Err(refusal) => {
            assert_eq!((refusal.number, refusal.place), (12, class), "a run's state is sound");
            format!("no {class} 12")
        }
    }
}

/// The lines of all leaves.
fn lines_of_leaves(link: &Link) -> Vec<String> {
    leaves(link).into_iter().map(|leaf| line(link, leaf)).collect()
}

/// One send, and what the reasons before it foretold: without a new round only a leaf whose visit was under way or still to come sends, and
/// a new round opens only when no such leaf has what its first packet costs.
fn send_as_foretold(link: &mut Link, siblings: &mut siblings::Siblings) {
    let before = link.clone();
    let Ok(sent) = siblings.send(link) else {
        assert!(leaves(&before).into_iter().all(|leaf| only_reason(&before, leaf) == Reason::Empty), "a packet waits, and none is sent");
        return;
    };
    let due: Vec<usize> = leaves(&before).into_iter().filter(|&leaf| only_reason(&before, leaf) == Reason::Due).collect();
    match sent.rounds {
        0 => assert!(due.contains(&sent.class), "leaf {} sent in a round that gave it no visit any more", sent.class),
        _ => assert!(!due.into_iter().any(|leaf| before.covers_first(leaf)), "a round closed before a visit that pays"),
    }
}

/// Runs plan and events as a run does, shows the state after the plan and after each event, and gives the last one or why the run stops.
pub fn each_state(input: &[u8], show: &mut dyn FnMut(&Link)) -> Result<Link, Refusal> {
    // "The program checks 10 before all else and then runs nothing."
    if input.len() > MOST_INPUT {
        return refuse(10, MOST_INPUT);
    }
    let (tree, used) = read_plan(input)?;
    let (mut link, refused) = fresh_link(&tree);
    assert!(refused.is_none(), "a plan that was read gives no fresh link");
    link.assert_sound("the fresh link");
    let mut siblings = siblings::Siblings::of(&tree);
    let mut first = used;
    loop {
        show(&link);
        match event_at(input, first)? {
            Some(Event::Arrival(body)) => {
                // a refused arrival is an event too, and leaves "the same state"
                let _ = arrival(&mut link, big_endian(&body[0..1]) as usize, big_endian(&body[1..3]), big_endian(&body[3..7]));
                first += 8;
            }
            Some(Event::Send) => {
                send_as_foretold(&mut link, &mut siblings);
                first += 1;
            }
            None => return Ok(link),
        }
    }
}

/// `stop NUMBER PLACE`, "for 1, 2 or 10 or a refused plan".
pub fn stop_line(refusal: Refusal) -> String {
    format!("stop {} {}", refusal.number, refusal.place)
}

/// After the last event, the lines of the classes named, in their order; of every leaf where none is named. Where the run stops, that alone.
pub fn silent(input: &[u8], classes: &[usize]) -> Vec<String> {
    match each_state(input, &mut |_| ()) {
        Ok(link) if classes.is_empty() => lines_of_leaves(&link),
        Ok(link) => classes.iter().map(|&class| line(&link, class)).collect(),
        Err(refusal) => vec![stop_line(refusal)],
    }
}

/// The lines of all leaves after the plan and after each event, and where the run stops, that as the last line.
pub fn silent_each(input: &[u8]) -> Vec<String> {
    let mut lines = Vec::new();
    let end = each_state(input, &mut |link| lines.extend(lines_of_leaves(link)));
    lines.extend(end.err().map(stop_line));
    lines
}

// ---------------------------------------------------------------------------------------------
// Tree P's listing worked by hand, the refusals, and what is easily taken for another reason.

#[cfg(test)]
mod tests {
    use super::*;

    /// Tree P's plan, and events after it: (class, length) arrives, class 0 is a send.
    fn input_p(events: &[(u8, u16)]) -> Vec<u8> {
        let mut input = include_bytes!("tree_p.bin")[..31].to_vec();
        for (tag, &(class, length)) in (1u32..).zip(events) {
            match class {
                0 => input.push(17),
                _ => input.extend([&[16, class][..], &length.to_be_bytes(), &tag.to_be_bytes()].concat()),
            }
        }
        input
    }

    /// The state of tree P after these events.
    fn link_after(events: &[(u8, u16)]) -> Link {
        each_state(&input_p(events), &mut |_| ()).unwrap()
    }

    #[test]
    fn the_listing_by_hand() {
        // Every packet is charged 84. The first send opens a round in which leaves 2, 3 and 4 have 37, 74 and 148: leaf 2 lacks 84 - 37 = 47
        // and leaf 3 lacks 84 - 74 = 10, the place goes past both, and leaf 4 sends its only packet. The second send opens a round in which
        // leaf 2 has 87 and sends its only packet; leaf 3 is still to come with 174. The third send is leaf 3's, whose visit is then
        // under way; the fourth is its last. The fifth finds no packet.
        let states = [
            ["empty 0", "empty 0", "empty 0"],
            ["waits 0", "empty 0", "empty 0"],
            ["waits 0", "waits 0", "empty 0"],
            ["waits 0", "waits 0", "empty 0"],
            ["waits 0", "waits 0", "waits 0"],
            ["short 47", "short 10", "empty 0"],
            ["empty 0", "due 0", "empty 0"],
            ["empty 0", "due 0", "empty 0"],
            ["empty 0", "empty 0", "empty 0"],
            ["empty 0", "empty 0", "empty 0"],
        ];
        let by_hand: Vec<String> =
            states.iter().flat_map(|state| (2..).zip(state).map(|(leaf, reason)| format!("silent {leaf} {reason}"))).collect();
        let listing = include_bytes!("tree_p.bin");
        assert_eq!(silent_each(listing), by_hand);
        // the words' order, a class twice, and numbers that are no leaf's
        assert_eq!(silent(listing, &[]), ["silent 2 empty 0", "silent 3 empty 0", "silent 4 empty 0"]);
        let first_send = &listing[..31 + 4 * 8 + 1];
        let named = ["silent 4 empty 0", "no 1 12", "silent 2 short 47", "silent 4 empty 0", "no 0 12", "no 5 12", "no 64 12", "no 256 12"];
        assert_eq!(silent(first_send, &[4, 1, 2, 4, 0, 5, 64, 256]), named);
    }

    #[test]
    fn the_listing_under_rule_2() {
        // The second send's round gives leaf 2 58 in all, so that it lacks 26, and leaf 3 has 116 and sends: its visit is under way with 32.
        // The third send's round gives leaf 2 what it needs; leaf 3 is still to come with 88.
        let input = [&[3, 2][..], include_bytes!("tree_p.bin")].concat();
        let states = [
            ["short 47", "short 10", "empty 0"],
            ["short 26", "due 0", "empty 0"],
            ["empty 0", "due 0", "empty 0"],
            ["empty 0", "empty 0", "empty 0"],
            ["empty 0", "empty 0", "empty 0"],
        ];
        let by_hand: Vec<String> =
            states.iter().flat_map(|state| (2..).zip(state).map(|(leaf, reason)| format!("silent {leaf} {reason}"))).collect();
        assert_eq!(silent_each(&input)[5 * 3..], by_hand);
    }

    #[test]
    fn where_the_run_stops() {
        // a refused plan, a cut arrival, an unknown kind, an input that is too long
        assert_eq!(silent(&[0], &[]), ["stop 9 0"]);
        assert_eq!(silent_each(&[]), ["stop 1 0"]);
        let cut = [&input_p(&[(4, 10)])[..], &[16, 2, 0]].concat();
        assert_eq!(silent(&cut, &[4]), ["stop 1 39"]);
        let unknown = [&input_p(&[(4, 10)])[..], &[0]].concat();
        let empty = ["silent 2 empty 0", "silent 3 empty 0", "silent 4 empty 0"];
        assert_eq!(silent_each(&unknown), [&empty[..], &empty[..2], &["silent 4 waits 0", "stop 2 39"]].concat());
        assert_eq!(silent(&unknown, &[1]), ["stop 2 39"]);
        assert_eq!(silent_each(&vec![17; 65_537]), ["stop 10 65536"]);
    }

    #[test]
    fn refused_events_are_events() {
        let lines = silent_each(&input_p(&[(4, 0), (1, 10), (0, 0)]));
        assert_eq!(lines, ["silent 2 empty 0", "silent 3 empty 0", "silent 4 empty 0"].repeat(4));
    }

    #[test]
    fn refusals_11_then_12() {
        let mut link = link_after(&[(2, 2), (3, 10), (4, 10), (0, 0)]);
        assert_eq!(why_silent(&link, 2), Ok(Reason::Short(47)));
        for class in [0, 1, 5, 63, 64, 255] {
            assert_eq!(why_silent(&link, class), refuse(12, class));
        }
        link.accounts[ROOT].balance += 1;
        for class in [0, 1, 2, 5, 64] {
            assert_eq!(why_silent(&link, class), refuse(11, 0));
        }
        assert_eq!(why_silent(&link_without_classes(), 1), refuse(11, 0));
    }

    #[test]
    fn a_visit_under_way_that_pays_no_more() {
        // leaf 4 alone: quota 262 / 4 = 65, so it has 260, and after three packets 260 - 252 = 8: the place is still 4
        let link = link_after(&[(4, 10), (4, 10), (4, 10), (4, 10), (0, 0), (0, 0), (0, 0)]);
        assert_eq!((link.place, link.accounts[4].balance), (4, 8));
        assert_eq!(why_silent(&link, 4), Ok(Reason::Due));
    }

    #[test]
    fn an_arrival_during_the_round() {
        // after the first send leaf 4, emptied, gets a packet: it stands at the place, but is not in this round
        let link = link_after(&[(2, 2), (3, 10), (4, 10), (0, 0), (4, 10)]);
        assert_eq!((link.place, link.active[4]), (4, false));
        assert_eq!(why_silent(&link, 4), Ok(Reason::Waits));
        // leaf 4 alone sends twice; leaf 2 below the place, never in this round, waits and does not lack
        let link = link_after(&[(4, 10), (4, 10), (0, 0), (2, 2)]);
        assert_eq!(silent(&input_p(&[(4, 10), (4, 10), (0, 0), (2, 2)]), &[2, 4]), ["silent 2 waits 0", "silent 4 due 0"]);
        assert_eq!((link.place, link.active[2]), (4, false));
    }
}
