//! "Waiting totals per class", written from the customer's words only: "The panel shows packets and charged bytes waiting under every
//! class, and adding 63 leaves on every refresh is slow. Keep both totals for each class beside the queues. After every call on a sound
//! state each equals the sum over the leaves at or below it, which joins the soundness list. Refusal 15 is then read from the root's total
//! and is given in the same cases as before." An arrival and a send change them on the way from the leaf up to the root; the soundness list
//! adds the queues up anew, and finds the leaves below a class by their parents. `second totals-each < input` prints
//! `total CLASS PACKETS BYTES` for each class from the root on, after the plan and after each event.

use super::*;

/// There are totals for the class numbers 0 to 63; those of a number past the last class are 0.
pub const NUMBERS: usize = 64;

/// "packets and charged bytes waiting under every class".
#[derive(Clone, Copy, PartialEq, Eq, Debug, Default)]
pub struct Total {
    pub packets: u64,
    pub bytes: u64,
}

/// The totals of a link on which nothing waits.
pub fn of_nothing() -> Vec<Total> {
    vec![Total::default(); NUMBERS]
}

/// Changes the totals of a leaf and of every class above it, the root's last.
fn on_the_way_up(link: &mut Link, leaf: usize, change: impl Fn(Total) -> Total) {
    let mut class = leaf;
    loop {
        link.totals[class] = change(link.totals[class]);
        if class == ROOT {
            return;
        }
        class = link.tree.classes[class].parent;
    }
}

/// A packet of this charge has joined the leaf's queue.
pub fn joined(link: &mut Link, leaf: usize, charge: u64) {
    on_the_way_up(link, leaf, |total| Total { packets: add(total.packets, 1), bytes: add(total.bytes, charge) });
}

/// A packet of this charge has left the leaf's queue.
pub fn left(link: &mut Link, leaf: usize, charge: u64) {
    on_the_way_up(link, leaf, |total| Total { packets: sub(total.packets, 1), bytes: sub(total.bytes, charge) });
}

/// What waits in each class's own queue, packet by packet.
fn of_queues(link: &Link) -> Vec<Total> {
    let of_queue = |queue: &Vec<Packet>| Total { packets: queue.len() as u64, bytes: queue.iter().fold(0, |sum, p| add(sum, p.charge())) };
    link.queues.iter().map(of_queue).collect()
}

/// "the sum over the leaves at or below it"; no leaf is at or below a number past the last class.
fn added_up(link: &Link, own: &[Total], class: usize) -> Total {
    let leaves = link.numbers().filter(|&leaf| link.tree.is_leaf(leaf) && own[leaf].packets > 0 && link.is_above(class, leaf));
    leaves.fold(Total::default(), |sum, leaf| Total {
        packets: add(sum.packets, own[leaf].packets),
        bytes: add(sum.bytes, own[leaf].bytes),
    })
}

/// Whether "each equals the sum over the leaves at or below it".
pub fn add_up(link: &Link) -> bool {
    let own = of_queues(link);
    link.totals.len() == NUMBERS && (0..NUMBERS).all(|class| link.totals[class] == added_up(link, &own, class))
}

// ---------------------------------------------------------------------------------------------
// The lines.

/// `total CLASS PACKETS BYTES`, from the root to the last class.
fn lines_of_classes(link: &Link) -> Vec<String> {
    link.numbers().map(|class| format!("total {class} {} {}", link.totals[class].packets, link.totals[class].bytes)).collect()
}

/// The lines of all classes after the plan and after each event, and where the run stops, that as the last line.
pub fn totals_each(input: &[u8]) -> Vec<String> {
    let mut lines = Vec::new();
    let end = silent::each_state(input, &mut |link| lines.extend(lines_of_classes(link)));
    lines.extend(end.err().map(silent::stop_line));
    lines
}

// ---------------------------------------------------------------------------------------------
// Tree P's listing by hand, a full queue, a deep tree, and totals that are wrong.

#[cfg(test)]
mod tests {
    use super::*;

    /// An inner class, or a leaf with this longest packet.
    fn record(parent: u8, weight: u32, longest: Option<u16>) -> Vec<u8> {
        let kind = if longest.is_some() { 2 } else { 1 };
        let body = longest.map_or(Vec::new(), |longest| longest.to_be_bytes().to_vec());
        [vec![kind, parent], weight.to_be_bytes().to_vec(), body].concat()
    }

    /// The link of a plan.
    fn link_of(plan: &[u8]) -> Link {
        fresh_link(&read_plan(plan).unwrap().0).0
    }

    /// Tree P after the four arrivals of the listing and so many sends.
    fn listing_after(sends: usize) -> Link {
        silent::each_state(&include_bytes!("tree_p.bin")[..31 + 4 * 8 + sends], &mut |_| ()).unwrap()
    }

    /// The totals of the classes 0, 1, .. of a state.
    fn totals(link: &Link) -> Vec<(u64, u64)> {
        link.totals[..link.tree.classes.len()].iter().map(|total| (total.packets, total.bytes)).collect()
    }

    #[test]
    fn the_listing_by_hand() {
        // Every packet is charged 84. They come to leaves 2, 3, 3 and 4 and go from 4, 2, 3 and 3; class 1 has leaves 2 and 3 below it.
        let states = [
            [0, 0, 0, 0, 0],
            [1, 1, 1, 0, 0],
            [2, 2, 1, 1, 0],
            [3, 3, 1, 2, 0],
            [4, 3, 1, 2, 1],
            [3, 3, 1, 2, 0],
            [2, 2, 0, 2, 0],
            [1, 1, 0, 1, 0],
            [0, 0, 0, 0, 0],
            [0, 0, 0, 0, 0],
        ];
        let line = |(class, packets): (usize, &u64)| format!("total {class} {packets} {}", packets * 84);
        let by_hand: Vec<String> = states.iter().flat_map(|state| state.iter().enumerate().map(line)).collect();
        assert_eq!(totals_each(include_bytes!("tree_p.bin")), by_hand);
    }

    #[test]
    fn where_the_run_stops() {
        assert_eq!(totals_each(&[0]), ["stop 9 0"]);
        assert_eq!(totals_each(&vec![17; 65_537]), ["stop 10 65536"]);
        let cut = &include_bytes!("tree_p.bin")[..31 + 8 + 3];
        let (fresh, one) = (["total 0 0 0", "total 1 0 0", "total 2 0 0"], ["total 0 1 84", "total 1 1 84", "total 2 1 84"]);
        let others = ["total 3 0 0", "total 4 0 0"];
        assert_eq!(totals_each(cut), [&fresh[..], &others, &one, &others, &["stop 1 39"]].concat());
    }

    #[test]
    fn a_full_queue_and_an_empty_one() {
        let mut link = link_of(&include_bytes!("tree_p.bin")[..31]);
        for tag in 0..32 {
            arrival(&mut link, 4, 10, tag).unwrap();
        }
        assert_eq!(totals(&link), [(32, 32 * 84), (0, 0), (0, 0), (0, 0), (32, 32 * 84)]);
        // refused arrivals leave them
        let before = link.clone();
        assert_eq!(arrival(&mut link, 4, 10, 32).unwrap_err().number, 14);
        assert_eq!(arrival(&mut link, 3, 11, 32).unwrap_err().number, 13);
        assert_eq!(arrival(&mut link, 1, 10, 32).unwrap_err().number, 12);
        assert_eq!(link, before);
        for sent in 1..=32 {
            send(&mut link).unwrap();
            assert_eq!(link.totals[4], Total { packets: 32 - sent, bytes: (32 - sent) * 84 });
        }
        assert_eq!(link.totals, of_nothing());
        assert_eq!(send(&mut link), refuse(15, 0));
    }

    #[test]
    fn a_deep_tree() {
        // classes 1 to 61 are inner, one below the other, and 62 and 63 are leaves below the last
        let inner: Vec<u8> = (0..61).flat_map(|parent| record(parent, 2, None)).collect();
        let plan = [inner, record(61, 1, Some(9_216)), record(61, 1, Some(61)), vec![0]].concat();
        let mut link = link_of(&plan);
        for (class, length) in [(62, 9_216), (63, 61), (63, 60)] {
            arrival(&mut link, class, length, 1).unwrap();
        }
        let above = vec![(3, 9_240 + 85 + 84); 62];
        assert_eq!(totals(&link), [above, vec![(1, 9_240), (2, 85 + 84)]].concat());
        // Q is 122 + 2 + 9,240 + 85, of which each leaf has less than half: leaf 62 cannot pay yet
        let sent = send(&mut link).unwrap();
        assert_eq!((sent.class, sent.length), (63, 61));
        assert_eq!(totals(&link), [vec![(2, 9_240 + 84); 62], vec![(1, 9_240), (1, 84)]].concat());
    }

    #[test]
    fn wrong_totals_are_not_sound() {
        for sends in [0, 2, 4] {
            let right = listing_after(sends);
            assert_eq!(right.broken_rule(), None);
            // one packet or one byte more, in any of the 64 numbers; a number too many, and one too few
            let more: Vec<Link> = (0..2 * NUMBERS)
                .map(|change| {
                    let mut link = right.clone();
                    let total = &mut link.totals[change / 2];
                    if change % 2 == 0 { total.packets += 1 } else { total.bytes += 1 }
                    link
                })
                .collect();
            let longer = [&right.totals[..], &[Total::default()]].concat();
            let others = [longer, right.totals[..63].to_vec()].map(|totals| Link { totals, ..right.clone() });
            for mut link in more.into_iter().chain(others) {
                let before = link.clone();
                assert!(link.broken_rule().is_some());
                assert_eq!(arrival(&mut link, 2, 1, 1).unwrap_err(), Refusal { number: 11, place: 0 });
                assert_eq!(send(&mut link), refuse(11, 0));
                assert_eq!(silent::why_silent(&link, 2), refuse(11, 0));
                assert_eq!(link, before);
            }
        }
    }
}
