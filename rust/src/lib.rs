//! Cometbanjo for a box in Rust: which packet goes next on a shared link. A safe face over the proved archive `libcometbanjo.a`; `no_std`,
//! no dependency, no heap, no static and no clock.
//!
//! What every call promises, proved before it was compiled (docs/PROMISES.md):
//! - **No fault.** Any bytes and any numbers are taken. What breaks a rule is refused by a number (docs/refusals.md) and a place, and a
//!   refused call changes nothing.
//! - **Exactly the rules** (docs/rules.md): what is sent, and in which order, is what they say.
//! - **Bounded wait.** A packet that was accepted with D bytes then in its queue, itself among them, in a class of weight w, has gone
//!   before the link has sent more than (D/w rounded up, plus 1) times Q bytes, whatever else arrives. All bytes are charges ([`charge`]);
//!   Q is [`Link::round_size`].
//!
//! The proof does not see this file: it hands each array of a [`Link`] to the archive, and the borrow checker sees to it that nothing else
//! writes there meanwhile. A [`Link`] is changed by its calls alone, and is not copied.
//!
//! ```
//! use cometbanjo::{Link, Packet, Refusal};
//!
//! // tree P: class 1 inner, weight 3, with the leaves 2 (weight 1) and 3 (weight 2); class 4 a leaf, weight 4; each longest 10
//! let plan = [1, 0, 0, 0, 0, 3, 2, 1, 0, 0, 0, 1, 0, 10, 2, 1, 0, 0, 0, 2, 0, 10, 2, 0, 0, 0, 0, 4, 0, 10, 0];
//! let mut link = Link::new();
//! assert_eq!(link.open(&plan), Ok(31));
//! assert_eq!(link.round_size(), 262);
//!
//! // a packet comes: the charged bytes then in its queue
//! assert_eq!(link.arrive(Packet { class: 2, length: 2, tag: 1 }), Ok(84));
//! assert_eq!(link.arrive(Packet { class: 4, length: 10, tag: 2 }), Ok(84));
//! // one that breaks a rule is refused by number and place, and is still yours
//! assert_eq!(link.arrive(Packet { class: 4, length: 11, tag: 3 }), Err(Refusal { number: 13, place: 4 }));
//!
//! // the wire is free: the packet that goes
//! let sent = link.send().unwrap();
//! assert_eq!((sent.packet.class, sent.packet.tag, sent.waited), (2, 1, 84));
//! assert_eq!(link.send().unwrap().packet.tag, 2);
//! // nothing waits
//! assert!(link.send().unwrap_err().is_idle());
//! ```
#![no_std]
#![deny(missing_docs, unsafe_op_in_unsafe_fn)]

use core::fmt;

/// Class numbers: 0, the root, to 63.
pub const CLASSES: usize = 64;
/// Packets that a leaf holds at most.
pub const PLACES: usize = 32;
/// The longest packet that a plan may allow, in bytes.
pub const LONGEST: u16 = 9_216;
/// Bytes that are enough for every plan.
pub const PLAN_BYTES: usize = 507;
/// Bytes of a [`Link`].
pub const LINK_BYTES: usize = 32_440;
/// The version of the archive that this crate fits.
pub const VERSION: u64 = 1;

const WAITING: usize = CLASSES * PLACES;
const SHAPE: usize = 3 * CLASSES + 3;

// The archive's functions. A length or a class number has 64 bits on every machine.
mod archive {
    use super::{CLASSES, SHAPE, WAITING};
    type Numbers = [u64; CLASSES];
    type Counts = [u8; CLASSES];

    extern "C" {
        pub fn cb_version() -> u64;
        pub fn cb_link_bytes() -> u64;
        pub fn cb_open_fields(
            plan: *const u8, length: u64, shape: *mut [u64; SHAPE], stand: *mut [u64; 4], balance: *mut Numbers, residual: *mut Numbers,
            start: *mut Counts, held: *mut Counts, lengths: *mut [u16; WAITING], tags: *mut [u32; WAITING], marks: *mut [u64; WAITING],
            packets: *mut Numbers, bytes: *mut Numbers, said: *mut [u64; 3],
        ) -> u64;
        pub fn cb_arrive_fields(
            shape: *mut [u64; SHAPE], stand: *mut [u64; 4], balance: *mut Numbers, residual: *mut Numbers, start: *mut Counts,
            held: *mut Counts, lengths: *mut [u16; WAITING], tags: *mut [u32; WAITING], marks: *mut [u64; WAITING], packets: *mut Numbers,
            bytes: *mut Numbers, class: u64, length: u32, tag: u32, answer: *mut super::Answer,
        ) -> u64;
        pub fn cb_send_fields(
            shape: *mut [u64; SHAPE], stand: *mut [u64; 4], balance: *mut Numbers, residual: *mut Numbers, start: *mut Counts,
            held: *mut Counts, lengths: *mut [u16; WAITING], tags: *mut [u32; WAITING], marks: *mut [u64; WAITING], packets: *mut Numbers,
            bytes: *mut Numbers, answer: *mut super::Answer,
        ) -> u64;
        pub fn cb_burst_fields(
            shape: *mut [u64; SHAPE], stand: *mut [u64; 4], balance: *mut Numbers, residual: *mut Numbers, start: *mut Counts,
            held: *mut Counts, lengths: *mut [u16; WAITING], tags: *mut [u32; WAITING], marks: *mut [u64; WAITING], packets: *mut Numbers,
            bytes: *mut Numbers, events: *const u8, length: u64, out: *mut super::Answer, room: u64, said: *mut [u64; 3],
        ) -> u64;
        pub fn cb_totals_fields(
            shape: *const [u64; SHAPE], stand: *const [u64; 4], balance: *const Numbers, residual: *const Numbers, start: *const Counts,
            held: *const Counts, lengths: *const [u16; WAITING], packets: *const Numbers, bytes: *const Numbers,
        ) -> u64;
        pub fn cb_offer_fields(
            shape: *const [u64; SHAPE], stand: *const [u64; 4], balance: *const Numbers, residual: *const Numbers, start: *const Counts,
            held: *const Counts, lengths: *const [u16; WAITING], tags: *const [u32; WAITING], marks: *const [u64; WAITING],
            packets: *const Numbers, bytes: *const Numbers, class: u64, length: u32, said: *mut [u64; 4],
        ) -> u64;
        pub fn cb_why_fields(
            shape: *const [u64; SHAPE], stand: *const [u64; 4], balance: *const Numbers, residual: *const Numbers, start: *const Counts,
            held: *const Counts, lengths: *const [u16; WAITING], tags: *const [u32; WAITING], marks: *const [u64; WAITING],
            packets: *const Numbers, bytes: *const Numbers, class: u64, said: *mut [u64; 4],
        ) -> u64;
        pub fn cb_rates(
            plan: *const u8, length: u64, capacity: u64, said: *mut [u64; 3], requests: *mut Numbers, gets: *mut Numbers,
            left: *mut Numbers,
        ) -> u32;
        pub fn cb_waits(plan: *const u8, length: u64, class: u64, bytes: *mut [u64; 2]) -> u32;
        pub fn cb_bound(plan: *const u8, length: u64, class: u64, d: u64) -> u64;
        pub fn cb_write_fields(shape: *const [u64; SHAPE], out: *mut u8, room: u64, said: *mut [u64; 3]) -> u64;
        pub fn cb_mend(
            plan: *const u8, length: u64, said: *mut [u64; 3], count: *mut [u64; 1], class: *mut Numbers, old: *mut Numbers,
            new: *mut Numbers,
        ) -> u32;
    }
}

/// Whether the archive that was linked is the one that this crate was written for. [`Link::open`] and the functions of a plan ask it
/// themselves and panic where it is not, so nothing is ever handed to an archive that does not fit.
pub fn fits() -> bool {
    // SAFETY: neither function takes or touches anything.
    unsafe { archive::cb_version() == VERSION && archive::cb_link_bytes() == LINK_BYTES as u64 }
}

#[track_caller]
fn must_fit() {
    assert!(fits(), "libcometbanjo.a is not the one that this crate was written for: build both from one commit");
}

/// A refusal: its number (docs/refusals.md says what to do on each) and its place.
#[derive(Clone, Copy, Debug, PartialEq, Eq, Hash)]
pub struct Refusal {
    /// The number, 1 to 22.
    pub number: u8,
    /// The place: of a byte, a class, or 0, as the number says.
    pub place: u64,
}

impl Refusal {
    /// The link was not opened from a good plan: 11 at 0.
    pub const UNSOUND: Refusal = Refusal { number: 11, place: 0 };

    fn of(number: u64, place: u64) -> Refusal {
        Refusal { number: number as u8, place }
    }

    /// A send found nothing that waits (15): idle until the next accepted arrival.
    pub fn is_idle(self) -> bool {
        self.number == 15
    }

    /// The leaf holds its 32 packets (14): keep this one, and offer it again after a send of its class.
    pub fn is_full(self) -> bool {
        self.number == 14
    }

    /// What the number means, in a few words.
    pub fn in_words(self) -> &'static str {
        match self.number {
            1 => "the bytes end before the plan or the record does",
            2 => "a record of no known kind",
            3 => "a 64th class record",
            4 => "the parent is not lower than the class, or is a leaf",
            5 => "the weight is outside 1 to 1,000,000",
            6 => "the longest packet is outside 1 to 9,216",
            7 => "the children's weights exceed their parent's",
            8 => "an inner class without a child",
            9 => "no class at all",
            10 => "the input exceeds 65,536 bytes",
            11 => "this is no sound link: open it from a plan",
            12 => "the class is not a leaf of the plan",
            13 => "length 0, or above the leaf's longest",
            14 => "the leaf already holds 32 packets",
            15 => "nothing waits",
            16 => "the buffer is shorter than the plan",
            17 => "the rule byte is not 1 or 2",
            18 => "a rule record anywhere but first",
            20 => "the capacity is outside 1 to 1,000,000,000 kbit/s",
            21 => "a request is above 1,000,000,000 kbit/s",
            22 => "a class would need a weight above 1,000,000",
            _ => "refused",
        }
    }
}

impl fmt::Display for Refusal {
    fn fmt(&self, f: &mut fmt::Formatter<'_>) -> fmt::Result {
        write!(f, "refused by {} at {}: {}", self.number, self.place, self.in_words())
    }
}

impl core::error::Error for Refusal {}

/// A packet, as the library sees it.
#[derive(Clone, Copy, Debug, PartialEq, Eq, Hash)]
pub struct Packet {
    /// The leaf that it belongs to.
    pub class: u8,
    /// The frame's bare length, without its check sequence; the library adds what the wire adds.
    pub length: u16,
    /// Yours: it is handed back by the send and never acted on. Let no two waiting packets have the same.
    pub tag: u32,
}

/// What a send gives.
#[derive(Clone, Copy, Debug, PartialEq, Eq, Hash)]
pub struct Sent {
    /// The packet that goes, as it came.
    pub packet: Packet,
    /// How long it waited: the bytes charged on the link from its acceptance to its end, itself included.
    pub waited: u64,
    /// How many rounds the call opened, 0 to 2.
    pub rounds: u8,
}

/// What a packet would be promised if it came now.
#[derive(Clone, Copy, Debug, PartialEq, Eq)]
pub struct Offer {
    /// D, the charged bytes then in its queue, itself among them.
    pub bytes: u64,
    /// The charged bytes that the link sends at most until it has gone.
    pub bound: u64,
}

/// Why a leaf sends nothing.
#[derive(Clone, Copy, Debug, PartialEq, Eq)]
pub enum Reason {
    /// It holds no packet.
    Empty,
    /// It holds some, and is not in this round.
    Waits,
    /// It is in this round, was visited, and lacks so many bytes.
    Short(u64),
    /// Its visit is under way or still to come.
    Due,
}

/// An event of a burst, or of a run.
#[derive(Clone, Copy, Debug, PartialEq, Eq)]
pub enum Event {
    /// A packet comes.
    Arrival(Packet),
    /// The wire is free.
    Send,
}

impl Event {
    const ARRIVAL: u8 = 16;
    const SEND: u8 = 17;

    /// How many bytes it has among the events of a burst: 8 or 1.
    pub fn size(self) -> usize {
        match self {
            Event::Arrival(_) => 8,
            Event::Send => 1,
        }
    }

    /// Lays it into the first bytes of a buffer; how many that were, or `None` where there is no room, and nothing is touched.
    ///
    /// ```
    /// use cometbanjo::Event;
    /// let mut events = [0; 4];
    /// assert_eq!(Event::Send.lay(&mut events), Some(1));
    /// assert_eq!(events, [17, 0, 0, 0]);
    /// ```
    pub fn lay(self, buffer: &mut [u8]) -> Option<usize> {
        let room = buffer.get_mut(..self.size())?;
        match self {
            Event::Send => room[0] = Event::SEND,
            Event::Arrival(Packet { class, length, tag }) => {
                room[0] = Event::ARRIVAL;
                room[1] = class;
                room[2..4].copy_from_slice(&length.to_be_bytes());
                room[4..8].copy_from_slice(&tag.to_be_bytes());
            }
        }
        Some(self.size())
    }

    /// The event that the bytes begin with: `None` where there are none; number 2 for an unknown kind, 1 where it is cut, both at 0.
    pub fn read(bytes: &[u8]) -> Result<Option<Event>, Refusal> {
        match bytes {
            [] => Ok(None),
            [Event::SEND, ..] => Ok(Some(Event::Send)),
            [Event::ARRIVAL, class, l0, l1, t0, t1, t2, t3, ..] => Ok(Some(Event::Arrival(Packet {
                class: *class,
                length: u16::from_be_bytes([*l0, *l1]),
                tag: u32::from_be_bytes([*t0, *t1, *t2, *t3]),
            }))),
            [Event::ARRIVAL, ..] => Err(Refusal { number: 1, place: 0 }),
            _ => Err(Refusal { number: 2, place: 0 }),
        }
    }
}

/// One answer of a burst, as the archive lays it; [`Answer::get`] reads it.
#[repr(C)]
#[derive(Clone, Copy, Debug, PartialEq, Eq)]
pub struct Answer {
    kind: u64,
    number: u64,
    place: u64,
    class: u64,
    length: u64,
    tag: u64,
    bytes: u64,
    rounds: u64,
}

/// What an answer says.
#[derive(Clone, Copy, Debug, PartialEq, Eq)]
pub enum Answered {
    /// Of an arrival: the packet, and D or its refusal.
    Arrival(Packet, Result<u64, Refusal>),
    /// Of a send.
    Send(Result<Sent, Refusal>),
}

impl Answer {
    /// An answer that says nothing, to make a buffer of.
    pub const NONE: Answer = Answer { kind: 0, number: 0, place: 0, class: 0, length: 0, tag: 0, bytes: 0, rounds: 0 };

    fn packet(self) -> Packet {
        Packet { class: self.class as u8, length: self.length as u16, tag: self.tag as u32 }
    }

    fn good<T>(self, good: T) -> Result<T, Refusal> {
        if self.number == 0 { Ok(good) } else { Err(Refusal::of(self.number, self.place)) }
    }

    fn sent(self) -> Result<Sent, Refusal> {
        self.good(Sent { packet: self.packet(), waited: self.bytes, rounds: self.rounds as u8 })
    }

    /// What it says; `None` of [`Answer::NONE`].
    pub fn get(self) -> Option<Answered> {
        match self.kind {
            16 => Some(Answered::Arrival(self.packet(), self.good(self.bytes))),
            17 => Some(Answered::Send(self.sent())),
            _ => None,
        }
    }
}

/// What a burst came to.
#[derive(Clone, Copy, Debug)]
pub struct Burst<'a> {
    /// An answer for each event that was done.
    pub answers: &'a [Answer],
    /// How many bytes of the events were used: go on from there.
    pub used: usize,
    /// `None` where the events end or the answers are full; 1 or 2 at a malformed event, whose place is `used`; 11 at 0: nothing was done.
    pub stopped: Option<Refusal>,
}

/// What waits under each class, lent for a panel.
#[derive(Clone, Copy, Debug)]
pub struct Totals<'a> {
    packets: &'a [u64; CLASSES],
    bytes: &'a [u64; CLASSES],
    charged: u64,
}

impl Totals<'_> {
    /// Packets that wait at or below a class; 0 of a number that is no class.
    pub fn packets(&self, class: u8) -> u64 {
        self.packets.get(class as usize).copied().unwrap_or(0)
    }

    /// Their charged bytes.
    pub fn bytes(&self, class: u8) -> u64 {
        self.bytes.get(class as usize).copied().unwrap_or(0)
    }

    /// The running total of what was charged on the link; it wraps at 2 to the power 64.
    pub fn charged(&self) -> u64 {
        self.charged
    }
}

/// A link: 32,440 bytes, wherever the caller keeps it. Its numbers are private, and it is not copied: nobody but the library writes them.
///
/// ```
/// use cometbanjo::Link;
/// use std::sync::Mutex;
/// // a static, or boxed: Box::new(Link::new())
/// static LINK: Mutex<Link> = Mutex::new(Link::new());
/// // before it is opened, and after a plan that is refused, every call gives 11
/// assert_eq!(LINK.lock().unwrap().send().unwrap_err().number, 11);
/// ```
///
/// ```compile_fail
/// let link = cometbanjo::Link::new();
/// let copy = link.clone();
/// ```
///
/// ```compile_fail
/// let mut link = cometbanjo::Link::new();
/// link.balance[0] = 1;
/// ```
#[repr(C)]
pub struct Link {
    shape: [u64; SHAPE],
    stand: [u64; 4],
    balance: [u64; CLASSES],
    residual: [u64; CLASSES],
    packets: [u64; CLASSES],
    bytes: [u64; CLASSES],
    marks: [u64; WAITING],
    tags: [u32; WAITING],
    lengths: [u16; WAITING],
    start: [u8; CLASSES],
    held: [u8; CLASSES],
}

const _: () = assert!(core::mem::size_of::<Link>() == LINK_BYTES);
const _: () = assert!(core::mem::size_of::<Answer>() == 64);

impl Default for Link {
    fn default() -> Link {
        Link::new()
    }
}

impl fmt::Debug for Link {
    fn fmt(&self, f: &mut fmt::Formatter<'_>) -> fmt::Result {
        f.debug_struct("Link").field("classes", &self.classes()).field("waiting", &self.waiting()).finish_non_exhaustive()
    }
}

impl Link {
    /// A link without classes, to be opened: until then every call gives 11.
    pub const fn new() -> Link {
        Link {
            shape: [0; SHAPE],
            stand: [0; 4],
            balance: [0; CLASSES],
            residual: [0; CLASSES],
            packets: [0; CLASSES],
            bytes: [0; CLASSES],
            marks: [0; WAITING],
            tags: [0; WAITING],
            lengths: [0; WAITING],
            start: [0; CLASSES],
            held: [0; CLASSES],
        }
    }

    // A link without classes is not sound, and the archive says so; it is said here, so that an archive that does not fit, which `open` has
    // refused, is never handed a link.
    fn opened(&self) -> bool {
        self.shape[192] != 0
    }

    /// Reads a plan and makes its link; how many of the bytes the plan used. What the link held before is gone. Refused (1 to 9, 17, 18):
    /// every call gives 11, as before a plan is read.
    ///
    /// Panics where the archive that was linked is not the one that this crate was written for.
    pub fn open(&mut self, plan: &[u8]) -> Result<usize, Refusal> {
        must_fit();
        let mut said = [0; 3];
        // SAFETY: `plan` has that many bytes, the arrays are those of one link and of the archive's lengths, and none overlap.
        let number = unsafe {
            archive::cb_open_fields(
                plan.as_ptr(), plan.len() as u64, &mut self.shape, &mut self.stand, &mut self.balance, &mut self.residual, &mut self.start,
                &mut self.held, &mut self.lengths, &mut self.tags, &mut self.marks, &mut self.packets, &mut self.bytes, &mut said,
            )
        };
        if number == 0 { Ok(said[2] as usize) } else { Err(Refusal::of(number, said[1])) }
    }

    /// A packet comes: D, the charged bytes then in its queue, itself among them; or 11, 12, 13, 14, and it is still yours.
    pub fn arrive(&mut self, packet: Packet) -> Result<u64, Refusal> {
        if !self.opened() {
            return Err(Refusal::UNSOUND);
        }
        let mut answer = Answer::NONE;
        // SAFETY: the arrays are those of one link, lent to this call alone, and `answer` is eight numbers.
        unsafe {
            archive::cb_arrive_fields(
                &mut self.shape, &mut self.stand, &mut self.balance, &mut self.residual, &mut self.start, &mut self.held,
                &mut self.lengths, &mut self.tags, &mut self.marks, &mut self.packets, &mut self.bytes, packet.class as u64,
                packet.length as u32, packet.tag, &mut answer,
            )
        };
        answer.good(answer.bytes)
    }

    /// The wire is free: the packet that goes; or 11, or 15 where nothing waits. While a packet waits, a send sends one.
    pub fn send(&mut self) -> Result<Sent, Refusal> {
        if !self.opened() {
            return Err(Refusal::UNSOUND);
        }
        let mut answer = Answer::NONE;
        // SAFETY: as in `arrive`.
        unsafe {
            archive::cb_send_fields(
                &mut self.shape, &mut self.stand, &mut self.balance, &mut self.residual, &mut self.start, &mut self.held,
                &mut self.lengths, &mut self.tags, &mut self.marks, &mut self.packets, &mut self.bytes, &mut answer,
            )
        };
        answer.sent()
    }

    /// Many events in one call, which decides once, and not for each event, whether the link is sound. The events are bytes
    /// ([`Event::lay`]); each gets one answer, the same as by [`Link::arrive`] or [`Link::send`], while there is room for one more.
    ///
    /// ```
    /// use cometbanjo::{Answer, Answered, Event, Link, Packet};
    /// let mut link = Link::new();
    /// link.open(&[2, 0, 0, 0, 0, 1, 5, 220, 0]).unwrap();
    /// let mut events = [0; 32];
    /// let mut n = 0;
    /// for tag in [7, 8] {
    ///     n += Event::Arrival(Packet { class: 1, length: 1_000, tag }).lay(&mut events[n..]).unwrap();
    /// }
    /// n += Event::Send.lay(&mut events[n..]).unwrap();
    ///
    /// let mut room = [Answer::NONE; 8];
    /// let burst = link.burst(&events[..n], &mut room);
    /// assert_eq!((burst.answers.len(), burst.used, burst.stopped), (3, 17, None));
    /// match burst.answers[2].get() {
    ///     Some(Answered::Send(Ok(sent))) => assert_eq!((sent.packet.tag, sent.waited), (7, 1_024)),
    ///     other => panic!("{other:?}"),
    /// }
    /// ```
    pub fn burst<'a>(&mut self, events: &[u8], out: &'a mut [Answer]) -> Burst<'a> {
        if !self.opened() {
            return Burst { answers: &[], used: 0, stopped: Some(Refusal::UNSOUND) };
        }
        let mut said = [0; 3];
        // SAFETY: as in `arrive`; `events` has that many bytes, and `out` is so many times eight numbers.
        let number = unsafe {
            archive::cb_burst_fields(
                &mut self.shape, &mut self.stand, &mut self.balance, &mut self.residual, &mut self.start, &mut self.held,
                &mut self.lengths, &mut self.tags, &mut self.marks, &mut self.packets, &mut self.bytes, events.as_ptr(),
                events.len() as u64, out.as_mut_ptr(), 8 * out.len() as u64, &mut said,
            )
        };
        let out: &'a [Answer] = out;
        let answers = &out[..(said[2] as usize).min(out.len())];
        let stopped = if number == 0 { None } else { Some(Refusal::of(number, said[1])) };
        Burst { answers, used: if number == 11 { 0 } else { said[1] as usize }, stopped }
    }

    /// What waits at or below each class, for a panel; or 11.
    pub fn totals(&self) -> Result<Totals<'_>, Refusal> {
        if !self.opened() {
            return Err(Refusal::UNSOUND);
        }
        // SAFETY: the arrays are those of one link, and are read alone.
        let number = unsafe {
            archive::cb_totals_fields(
                &self.shape, &self.stand, &self.balance, &self.residual, &self.start, &self.held, &self.lengths, &self.packets,
                &self.bytes,
            )
        };
        if number != 0 {
            return Err(Refusal::of(number, 0));
        }
        Ok(Totals { packets: &self.packets, bytes: &self.bytes, charged: self.stand[3] })
    }

    /// What a packet would be promised if it came now; or the refusal that it would meet.
    ///
    /// ```
    /// # let mut link = cometbanjo::Link::new();
    /// # link.open(&[2, 0, 0, 0, 0, 1, 5, 220, 0]).unwrap();
    /// let offer = link.offer(1, 60).unwrap();
    /// assert_eq!((offer.bytes, offer.bound), (84, (84 + 1) * link.round_size()));
    /// ```
    pub fn offer(&self, class: u8, length: u16) -> Result<Offer, Refusal> {
        if !self.opened() {
            return Err(Refusal::UNSOUND);
        }
        let mut said = [0; 4];
        // SAFETY: as in `totals`.
        let number = unsafe {
            archive::cb_offer_fields(
                &self.shape, &self.stand, &self.balance, &self.residual, &self.start, &self.held, &self.lengths, &self.tags, &self.marks,
                &self.packets, &self.bytes, class as u64, length as u32, &mut said,
            )
        };
        if number == 0 { Ok(Offer { bytes: said[2], bound: said[3] }) } else { Err(Refusal::of(number, said[1])) }
    }

    /// Why a leaf sends nothing; or 11, or 12 where it is no leaf.
    pub fn why(&self, class: u8) -> Result<Reason, Refusal> {
        if !self.opened() {
            return Err(Refusal::UNSOUND);
        }
        let mut said = [0; 4];
        // SAFETY: as in `totals`.
        let number = unsafe {
            archive::cb_why_fields(
                &self.shape, &self.stand, &self.balance, &self.residual, &self.start, &self.held, &self.lengths, &self.tags, &self.marks,
                &self.packets, &self.bytes, class as u64, &mut said,
            )
        };
        match (number, said[2]) {
            (0, 1) => Ok(Reason::Empty),
            (0, 2) => Ok(Reason::Waits),
            (0, 3) => Ok(Reason::Short(said[3])),
            (0, _) => Ok(Reason::Due),
            _ => Err(Refusal::of(number, said[1])),
        }
    }

    /// The link's plan as bytes again, into the first bytes of a buffer; how many. 16: the buffer is too short, the place is the length
    /// needed, and nothing is touched.
    pub fn write(&self, out: &mut [u8]) -> Result<usize, Refusal> {
        if !self.opened() {
            return Err(Refusal::UNSOUND);
        }
        let mut said = [0; 3];
        // SAFETY: `out` has that many bytes, and the tree is that of this link.
        let number = unsafe { archive::cb_write_fields(&self.shape, out.as_mut_ptr(), out.len() as u64, &mut said) };
        if number == 0 { Ok(said[2] as usize) } else { Err(Refusal::of(number, said[1])) }
    }

    /// How many classes the plan has, without the root; 0 before a plan is read.
    pub fn classes(&self) -> u8 {
        self.shape[192] as u8
    }

    /// Whether a class number is a leaf of the plan.
    pub fn is_leaf(&self, class: u8) -> bool {
        (class as usize) < CLASSES && self.shape[193] >> class & 1 == 1
    }

    /// A class's parent; 0 of the root and of a number that is no class.
    pub fn parent(&self, class: u8) -> u8 {
        if (class as usize) < CLASSES { self.shape[class as usize] as u8 } else { 0 }
    }

    /// A class's weight; 0 likewise.
    pub fn weight(&self, class: u8) -> u32 {
        if (class as usize) < CLASSES { self.shape[CLASSES + class as usize] as u32 } else { 0 }
    }

    /// A leaf's longest packet; 0 of every other class.
    pub fn longest(&self, class: u8) -> u16 {
        if (class as usize) < CLASSES { self.shape[2 * CLASSES + class as usize] as u16 } else { 0 }
    }

    /// Q, the round size of the whole tree, of which the bound is made; it does not change.
    pub fn round_size(&self) -> u64 {
        let mut q = 0;
        for class in 1..CLASSES as u8 {
            q += self.weight(class) as u64;
            if self.is_leaf(class) {
                q += charge(self.longest(class));
            }
        }
        q
    }

    /// Packets that wait in the whole link.
    pub fn waiting(&self) -> u64 {
        self.packets[0]
    }
}

/// What the wire carries for a packet of so many bytes: 4 of check sequence, padding to 64, 20 of preamble and gap.
pub const fn charge(length: u16) -> u64 {
    let with_check = length as u64 + 4;
    (if with_check > 64 { with_check } else { 64 }) + 20
}

/// Which rates a plan gives.
#[derive(Clone, Copy, Debug, PartialEq, Eq)]
pub struct Rates {
    /// What each class asks for: a leaf as it was given, a class above the sum of its leaves.
    pub requests: [u64; CLASSES],
    /// What each class gets.
    pub gets: [u64; CLASSES],
    /// What stays unallotted at each class.
    pub left: [u64; CLASSES],
}

/// Which rates a plan gives for a capacity and a request for each leaf, in kbit/s (docs/rates.md); or the plan's refusal, 20, 21.
pub fn rates(plan: &[u8], capacity: u64, requests: &[u64; CLASSES]) -> Result<Rates, Refusal> {
    must_fit();
    let mut rates = Rates { requests: *requests, gets: [0; CLASSES], left: [0; CLASSES] };
    let mut said = [0; 3];
    // SAFETY: `plan` has that many bytes, and the tables are 64 numbers each.
    let number = unsafe {
        archive::cb_rates(plan.as_ptr(), plan.len() as u64, capacity, &mut said, &mut rates.requests, &mut rates.gets, &mut rates.left)
    };
    if number == 0 { Ok(rates) } else { Err(Refusal::of(number as u64, said[1])) }
}

/// The longest waits that a plan promises to a leaf's longest packet, in charged bytes of the whole link.
#[derive(Clone, Copy, Debug, PartialEq, Eq)]
pub struct Waits {
    /// Alone in its queue.
    pub alone: u64,
    /// As the last of 32.
    pub last: u64,
}

/// The longest waits that a plan promises to a leaf; or the plan's refusal, or 12 where the class is no leaf.
pub fn waits(plan: &[u8], class: u8) -> Result<Waits, Refusal> {
    must_fit();
    let mut bytes = [0; 2];
    // SAFETY: `plan` has that many bytes, and `bytes` is two numbers.
    match unsafe { archive::cb_waits(plan.as_ptr(), plan.len() as u64, class as u64, &mut bytes) } {
        0 => Ok(Waits { alone: bytes[0], last: bytes[1] }),
        12 => Err(Refusal { number: 12, place: class as u64 }),
        // the plan's own refusal, with its place
        number => Err(rates(plan, 1, &[0; CLASSES]).err().unwrap_or(Refusal::of(number as u64, 0))),
    }
}

/// The bound for a packet that is accepted with so many charged bytes in its queue; `None` where none is promised: the plan is refused, the
/// class is no leaf, or its 32 places cannot hold so many.
pub fn bound(plan: &[u8], class: u8, bytes: u64) -> Option<u64> {
    must_fit();
    // SAFETY: `plan` has that many bytes.
    let bound = unsafe { archive::cb_bound(plan.as_ptr(), plan.len() as u64, class as u64, bytes) };
    if bound == 0 { None } else { Some(bound) }
}

/// A weight that mending changes.
#[derive(Clone, Copy, Debug, PartialEq, Eq)]
pub struct Change {
    /// The class.
    pub class: u8,
    /// Its weight in the plan.
    pub old: u32,
    /// The least weight that the rules allow.
    pub new: u32,
}

/// What mending a plan changes.
#[derive(Clone, Copy, Debug)]
pub struct Mended {
    used: usize,
    count: usize,
    changes: [Change; CLASSES],
}

impl Mended {
    /// The changes, in class order; none of a plan that is good.
    pub fn changes(&self) -> &[Change] {
        &self.changes[..self.count]
    }

    /// How many bytes the plan used.
    pub fn used(&self) -> usize {
        self.used
    }
}

/// Mends a plan whose shares don't add up; or the reader's refusal but 7, or 22.
pub fn mend(plan: &[u8]) -> Result<Mended, Refusal> {
    must_fit();
    let (mut said, mut count) = ([0; 3], [0; 1]);
    let (mut class, mut old, mut new) = ([0; CLASSES], [0; CLASSES], [0; CLASSES]);
    // SAFETY: `plan` has that many bytes, and the tables are as long as the archive takes them.
    let number = unsafe {
        archive::cb_mend(plan.as_ptr(), plan.len() as u64, &mut said, &mut count, &mut class, &mut old, &mut new)
    };
    if number != 0 {
        return Err(Refusal::of(number as u64, said[1]));
    }
    let mut changes = [Change { class: 0, old: 0, new: 0 }; CLASSES];
    let count = (count[0] as usize).min(CLASSES);
    for i in 0..count {
        changes[i] = Change { class: class[i] as u8, old: old[i] as u32, new: new[i] as u32 };
    }
    Ok(Mended { used: said[2] as usize, count, changes })
}
