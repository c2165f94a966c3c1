//! The safe face over the archive: the listing, refusals, bursts against single calls, what a plan promises.
use cometbanjo::*;

const TREE_P: [u8; 31] = [1, 0, 0, 0, 0, 3, 2, 1, 0, 0, 0, 1, 0, 10, 2, 1, 0, 0, 0, 2, 0, 10, 2, 0, 0, 0, 0, 4, 0, 10, 0];

fn tree_p() -> Box<Link> {
    let mut link = Box::new(Link::new());
    assert_eq!(link.open(&TREE_P), Ok(31));
    link
}

fn packet(class: u8, length: u16, tag: u32) -> Packet {
    Packet { class, length, tag }
}

struct Random(u64);

impl Random {
    fn below(&mut self, n: u64) -> u64 {
        self.0 = self.0.wrapping_add(0x9e37_79b9_7f4a_7c15);
        let mut x = self.0;
        x = (x ^ x >> 30).wrapping_mul(0xbf58_476d_1ce4_e5b9);
        x = (x ^ x >> 27).wrapping_mul(0x94d0_49bb_1331_11eb);
        (x ^ x >> 31) % n
    }
}

#[test]
fn the_archive_fits() {
    assert!(fits());
    assert_eq!(std::mem::size_of::<Link>(), LINK_BYTES);
}

#[test]
fn the_listing() {
    let mut link = tree_p();
    assert_eq!((link.classes(), link.round_size(), link.waiting()), (4, 262, 0));
    for (p, d) in [(packet(2, 2, 1), 84), (packet(3, 10, 2), 84), (packet(3, 10, 3), 168), (packet(4, 10, 4), 84)] {
        assert_eq!(link.arrive(p), Ok(d));
    }
    let sent = |packet, rounds, waited| Ok(Sent { packet, rounds, waited });
    assert_eq!(link.send(), sent(packet(4, 10, 4), 1, 84));
    assert_eq!(link.send(), sent(packet(2, 2, 1), 1, 168));
    assert_eq!(link.send(), sent(packet(3, 10, 2), 0, 252));
    assert_eq!(link.send(), sent(packet(3, 10, 3), 0, 336));
    assert_eq!(link.send(), Err(Refusal { number: 15, place: 0 }));
}

#[test]
fn refused_plans() {
    let mut link = Box::new(Link::new());
    for (plan, number, place) in [(&[][..], 1, 0), (&[0], 9, 0), (&[9], 2, 0), (&[2, 1, 0, 0, 0, 1, 0, 10, 0], 4, 0), (&[3, 3, 0], 17, 0)] {
        assert_eq!(link.open(plan), Err(Refusal { number, place }));
        assert_eq!(link.arrive(packet(1, 1, 1)), Err(Refusal::UNSOUND));
        assert_eq!(link.send(), Err(Refusal::UNSOUND));
        assert_eq!(link.burst(&[17], &mut [Answer::NONE]).stopped, Some(Refusal::UNSOUND));
        assert_eq!(link.totals().err(), Some(Refusal::UNSOUND));
        assert_eq!(link.offer(1, 1), Err(Refusal::UNSOUND));
        assert_eq!(link.why(1), Err(Refusal::UNSOUND));
        assert_eq!(link.write(&mut [0; PLAN_BYTES]), Err(Refusal::UNSOUND));
    }
    assert_eq!(link.open(&TREE_P), Ok(31));
    // a plan that is refused takes the link's classes
    assert_eq!(link.open(&[0]).unwrap_err().number, 9);
    assert_eq!((link.classes(), link.round_size()), (0, 0));
}

#[test]
fn refused_arrivals() {
    let mut link = tree_p();
    for class in [0, 1, 5, 63, 64, 255] {
        assert_eq!(link.arrive(packet(class, 1, 1)), Err(Refusal { number: 12, place: class as u64 }));
    }
    for length in [0, 11, 65_535] {
        assert_eq!(link.arrive(packet(4, length, 1)), Err(Refusal { number: 13, place: 4 }));
    }
    for tag in 0..32 {
        assert_eq!(link.arrive(packet(4, 10, tag)), Ok(84 * (tag as u64 + 1)));
    }
    let refused = link.arrive(packet(4, 10, 32)).unwrap_err();
    assert!(refused.is_full());
    assert_eq!(refused.to_string(), "refused by 14 at 4: the leaf already holds 32 packets");
    assert_eq!(link.send().unwrap().packet.tag, 0);
    assert_eq!(link.arrive(packet(4, 10, 32)), Ok(84 * 32));
}

#[test]
fn the_panel() {
    let mut link = tree_p();
    assert_eq!(link.why(2), Ok(Reason::Empty));
    assert_eq!(link.why(1), Err(Refusal { number: 12, place: 1 }));
    assert_eq!(link.offer(3, 10), Ok(Offer { bytes: 84, bound: (42 + 1) * 262 }));
    assert_eq!(link.offer(3, 11), Err(Refusal { number: 13, place: 3 }));
    link.arrive(packet(3, 10, 1)).unwrap();
    assert_eq!(link.why(3), Ok(Reason::Waits));
    let totals = link.totals().unwrap();
    assert_eq!([0, 1, 2, 3, 4, 64].map(|class| totals.packets(class)), [1, 1, 0, 1, 0, 0]);
    assert_eq!([0, 1, 2, 3, 4, 255].map(|class| totals.bytes(class)), [84, 84, 0, 84, 0, 0]);
    assert_eq!(totals.charged(), 0);
    link.send().unwrap();
    assert_eq!(link.totals().unwrap().charged(), 84);
    assert_eq!((link.parent(3), link.weight(3), link.longest(3), link.is_leaf(3)), (1, 2, 10, true));
    assert_eq!((link.parent(64), link.weight(255), link.longest(64), link.is_leaf(64)), (0, 0, 0, false));
}

#[test]
fn a_plan_written_back() {
    let link = tree_p();
    let mut out = [9; PLAN_BYTES];
    assert_eq!(link.write(&mut out[..30]), Err(Refusal { number: 16, place: 31 }));
    assert!(out.iter().all(|&byte| byte == 9));
    assert_eq!(link.write(&mut out), Ok(31));
    assert_eq!(out[..31], TREE_P);
    assert!(out[31..].iter().all(|&byte| byte == 9));
}

#[test]
fn what_a_plan_promises() {
    assert_eq!(waits(&TREE_P, 3), Ok(Waits { alone: (42 + 1) * 262, last: (32 * 42 + 1) * 262 }));
    assert_eq!(waits(&TREE_P, 1), Err(Refusal { number: 12, place: 1 }));
    assert_eq!(waits(&TREE_P[..30], 3), Err(Refusal { number: 1, place: 30 }));
    assert_eq!(bound(&TREE_P, 3, 168), Some(22_270));
    assert_eq!(bound(&[], 3, 168), None);
    assert_eq!(bound(&TREE_P, 1, 168), None);
    assert_eq!(bound(&TREE_P, 3, 32 * 84), Some((32 * 42 + 1) * 262));
    assert_eq!(bound(&TREE_P, 3, 32 * 84 + 1), None);
}

// Bursts of any cut and any room give the answers of single calls, and leave a link that goes on alike.
#[test]
fn bursts_and_single_calls() {
    let mut random = Random(1);
    for turn in 0..200 {
        let mut plan = Vec::new();
        if turn % 2 == 1 {
            plan.extend([3, 2]);
        }
        plan.extend(TREE_P);
        let (mut one, mut many) = (Box::new(Link::new()), Box::new(Link::new()));
        let used = one.open(&plan).unwrap();
        assert_eq!(many.open(&plan), Ok(used));
        let mut events = Vec::new();
        let mut singles = Vec::new();
        for tag in 0..random.below(400) as u32 {
            let event = if random.below(5) < 2 {
                Event::Send
            } else {
                Event::Arrival(packet(random.below(6) as u8, random.below(12) as u16, tag))
            };
            let mut bytes = [0; 8];
            let n = event.lay(&mut bytes).unwrap();
            events.extend(&bytes[..n]);
            assert_eq!(Event::read(&bytes[..n]), Ok(Some(event)));
            singles.push(match event {
                Event::Arrival(p) => Answered::Arrival(p, one.arrive(p)),
                Event::Send => Answered::Send(one.send()),
            });
        }
        let mut at = 0;
        let mut got = Vec::new();
        while at < events.len() {
            // the events are cut anywhere, and inside one too: it is then refused by 1 at its first byte, and offered again
            let end = (at + 1 + random.below(60) as usize).min(events.len());
            let mut room = vec![Answer::NONE; random.below(12) as usize];
            let burst = many.burst(&events[at..end], &mut room);
            got.extend(burst.answers.iter().map(|answer| answer.get().unwrap()));
            at += burst.used;
            match burst.stopped {
                None => assert!(at == end || burst.answers.len() == room.len()),
                Some(refusal) => assert!(refusal.number == 1 && end - at < 8, "{refusal}"),
            }
        }
        assert_eq!(got, singles);
        assert_eq!(many.waiting(), one.waiting());
        assert_eq!(many.send(), one.send());
    }
}

#[test]
fn malformed_events() {
    let mut link = tree_p();
    let mut room = [Answer::NONE; 4];
    let burst = link.burst(&[17, 17, 99, 17], &mut room);
    assert_eq!((burst.answers.len(), burst.used, burst.stopped), (2, 2, Some(Refusal { number: 2, place: 2 })));
    let burst = link.burst(&[16, 4, 0, 10, 0, 0, 0], &mut room);
    assert_eq!((burst.answers.len(), burst.used, burst.stopped), (0, 0, Some(Refusal { number: 1, place: 0 })));
    let burst = link.burst(&[], &mut room);
    assert_eq!((burst.answers.len(), burst.used, burst.stopped), (0, 0, None));
    let burst = link.burst(&[17], &mut []);
    assert_eq!((burst.answers.len(), burst.used, burst.stopped), (0, 0, None));
    assert_eq!(link.waiting(), 0);
}

#[test]
fn rates_and_mending() {
    let mut requests = [0; CLASSES];
    requests[2] = 1_000;
    requests[3] = 1_000;
    requests[4] = 1_000;
    let given = rates(&TREE_P, 700, &requests).unwrap();
    assert_eq!(given.requests[..5], [3_000, 2_000, 1_000, 1_000, 1_000]);
    assert_eq!(given.gets[..5], [700, 300, 100, 200, 400]);
    assert_eq!(given.left, [0; CLASSES]);
    assert_eq!(rates(&TREE_P, 0, &requests), Err(Refusal { number: 20, place: 0 }));
    requests[3] = 1_000_000_001;
    assert_eq!(rates(&TREE_P, 700, &requests), Err(Refusal { number: 21, place: 3 }));
    assert_eq!(rates(&[0], 700, &requests), Err(Refusal { number: 9, place: 0 }));

    assert!(mend(&TREE_P).unwrap().changes().is_empty());
    let mut broken = TREE_P;
    broken[5] = 2;
    let mended = mend(&broken).unwrap();
    assert_eq!((mended.used(), mended.changes()), (31, &[Change { class: 1, old: 2, new: 3 }][..]));
    assert_eq!(mend(&TREE_P[..9]).unwrap_err(), Refusal { number: 1, place: 6 });
}
