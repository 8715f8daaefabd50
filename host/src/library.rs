//! The proved library: every foreign declaration of this crate, the structs that cross, and a safe function over each call.
//!
//! The structs are those of `crates/*/src` under the same names, all integers, `#[repr(C)]`. Their sizes and offsets are asserted
//! when this file is compiled, and [`check_layout`] holds them to what the library says of itself when a program starts.

use std::mem::{offset_of, size_of};

/// A sequence number is at most this.
pub const MASK: u32 = 0x0FFF_FFFF;

// 01, "Room".
pub const OFF_CHANNELS: usize = 4;
pub const ON_CHANNELS: usize = 8;
pub const OUT_ENTRIES: usize = 32;
pub const ACKS: usize = 64;
pub const WAITING: usize = 32;
pub const GROUPS: usize = 4;
pub const PLACES: usize = 32;
pub const BUNDLES: usize = 16;
pub const BUNDLE_HANDLES: usize = 64;
pub const RECORDS: usize = 8;
pub const RECORD_ACKS: usize = 8;
pub const HANDLES: usize = 16;
/// The most numbers that resends write to a lent list: two to a row.
pub const RESENT_NUMBERS: usize = 2 * OUT_ENTRIES * (OFF_CHANNELS + ON_CHANNELS);

/// Declares a struct that crosses, with a value of zeros.
macro_rules! crossing {
    ($($(#[$about:meta])* $name:ident { $($field:ident: $kind:ty = $zero:expr),* $(,)? })*) => {$(
        $(#[$about])*
        #[repr(C)]
        #[derive(Debug, Clone, Copy, PartialEq, Eq)]
        pub struct $name { $(pub $field: $kind),* }

        impl $name {
            pub const ZERO: Self = Self { $($field: $zero),* };
        }

        impl Default for $name {
            fn default() -> Self {
                Self::ZERO
            }
        }
    )*};
}

crossing! {
    /// A received packet, or one that is forwarded out: 01, "One record".
    Record {
        handle: u32 = 0, prefix: u32 = 0, on: u32 = 0, indexed: u32 = 0, index: u32 = 0, version: u32 = 0, reliable: u32 = 0,
        number: u32 = 0, ranged: u32 = 0, first: u32 = 0, last: u32 = 0, hascumulative: u32 = 0, cumulative: u32 = 0,
        haslast: u32 = 0, lastreliable: u32 = 0, ackcount: u32 = 0, acks: [u32; RECORD_ACKS] = [0; RECORD_ACKS],
    }
    /// A channel's key.
    Key { address: u32 = 0, on: u32 = 0, indexed: u32 = 0, index: u32 = 0 }
    /// What find, forwarded out and a granted record answer. Index and version are 0 where the channel has none.
    View { on: u32 = 0, address: u32 = 0, index: u32 = 0, version: u32 = 0, expected: u32 = 0 }
    /// What a delivery answers: the count of records not refused, and the last one's channel.
    Arrival { count: u32 = 0, view: View = View::ZERO }
    /// What a send answers.
    Prepared {
        allocated: u32 = 0, first: u32 = 0, on: u32 = 0, expected: u32 = 0, index: u32 = 0, version: u32 = 0, offset: u32 = 0,
    }
    /// The handles of a send.
    Handles { count: u32 = 0, handles: [u32; HANDLES] = [0; HANDLES] }
    /// The acks that were written.
    Names { count: u32 = 0, numbers: [u32; ACKS] = [0; ACKS] }

    Packet { number: u32 = 0, handle: u32 = 0, ranged: u32 = 0, first: u32 = 0, last: u32 = 0 }
    OutEntry { time: u64 = 0, sent: u64 = 0, number: u32 = 0, held: u32 = 0, handle: u32 = 0 }
    OutList { len: u32 = 0, entries: [OutEntry; OUT_ENTRIES] = [OutEntry::ZERO; OUT_ENTRIES] }
    AckQueue { len: u32 = 0, numbers: [u32; ACKS] = [0; ACKS] }
    Fragments {
        updated: u64 = 0, first: u32 = 0, len: u32 = 0, count: u32 = 0, marks: [u32; PLACES] = [0; PLACES],
        handles: [u32; PLACES] = [0; PLACES],
    }
    Groups { len: u32 = 0, groups: [Fragments; GROUPS] = [Fragments::ZERO; GROUPS] }
    Bundles {
        len: u32 = 0, total: u32 = 0, lengths: [u32; BUNDLES] = [0; BUNDLES],
        handles: [u32; BUNDLE_HANDLES] = [0; BUNDLE_HANDLES],
    }
    Waiting { len: u32 = 0, packets: [Packet; WAITING] = [Packet::ZERO; WAITING] }
    OffChannel {
        address: u32 = 0, out: OutList = OutList::ZERO, acks: AckQueue = AckQueue::ZERO, groups: Groups = Groups::ZERO,
        bundles: Bundles = Bundles::ZERO,
    }
    OnChannel {
        address: u32 = 0, index: u32 = 0, version: u32 = 0, expected: u32 = 0, source: u32 = 0, out: OutList = OutList::ZERO,
        acks: AckQueue = AckQueue::ZERO, groups: Groups = Groups::ZERO, bundles: Bundles = Bundles::ZERO,
        buffer: Waiting = Waiting::ZERO, queue: Waiting = Waiting::ZERO,
    }
    /// The whole state of the relay. `ZERO` is no new table: [`new`] makes one.
    Table {
        latest: u64 = 0, forwarding: u32 = 0, prefix: u32 = 0, offset: u32 = 0, source: u32 = 0, offcount: u32 = 0,
        oncount: u32 = 0, offs: [OffChannel; OFF_CHANNELS] = [OffChannel::ZERO; OFF_CHANNELS],
        ons: [OnChannel; ON_CHANNELS] = [OnChannel::ZERO; ON_CHANNELS],
    }
}

/// Asserts sizes and offsets when this is compiled.
macro_rules! layout {
    ($($name:literal: $is:expr, $must:literal;)*) => {
        $(const _: () = assert!($is == $must, $name);)*
    };
}

layout! {
    "Table": size_of::<Table>(), 43_584;
    "Table.offs": offset_of!(Table, offs), 32;
    "Table.ons": offset_of!(Table, ons), 11_072;
    "OffChannel": size_of::<OffChannel>(), 2_760;
    "OffChannel.out": offset_of!(OffChannel, out), 8;
    "OffChannel.acks": offset_of!(OffChannel, acks), 1_040;
    "OffChannel.groups": offset_of!(OffChannel, groups), 1_304;
    "OffChannel.bundles": offset_of!(OffChannel, bundles), 2_432;
    "OnChannel": size_of::<OnChannel>(), 4_064;
    "OnChannel.out": offset_of!(OnChannel, out), 24;
    "OnChannel.acks": offset_of!(OnChannel, acks), 1_056;
    "OnChannel.groups": offset_of!(OnChannel, groups), 1_320;
    "OnChannel.bundles": offset_of!(OnChannel, bundles), 2_448;
    "OnChannel.buffer": offset_of!(OnChannel, buffer), 2_776;
    "OnChannel.queue": offset_of!(OnChannel, queue), 3_420;
    "OutEntry": size_of::<OutEntry>(), 32;
    "Fragments": size_of::<Fragments>(), 280;
    "Packet": size_of::<Packet>(), 20;
    "Record": size_of::<Record>(), 96;
    "Key": size_of::<Key>(), 16;
    "View": size_of::<View>(), 20;
    "Arrival": size_of::<Arrival>(), 24;
    "Prepared": size_of::<Prepared>(), 28;
    "Handles": size_of::<Handles>(), 68;
    "Names": size_of::<Names>(), 260;
}

mod foreign {
    use super::*;

    #[link(name = "door", kind = "static")]
    unsafe extern "C" {
        pub safe fn relay_new(t: &mut Table, forwarding: u32) -> u32;
        pub fn relay_accept(t: &mut Table, time: u64, address: u32, records: *const Record, n: usize, answer: &mut Arrival) -> u32;
        pub safe fn relay_accept_out(t: &mut Table, time: u64, address: u32, r: &Record, answer: &mut View) -> u32;
        pub safe fn relay_channel(t: &mut Table, k: &Key, answer: &mut View) -> u32;
        pub fn relay_next_bundle(t: &mut Table, k: &Key, lent: *mut u32, n: usize) -> u32;
        pub safe fn relay_prepare(t: &mut Table, time: u64, k: &Key, reliable: u32, h: &Handles, answer: &mut Prepared) -> u32;
        pub safe fn relay_acks_written(t: &mut Table, k: &Key, n: &Names) -> u32;
        pub fn relay_take_resends(t: &mut Table, time: u64, timeout: u64, give_up: u64, lent: *mut u32, n: usize) -> u32;
        pub safe fn relay_holds(t: &Table, handle: u32) -> u32;
        pub safe fn relay_last_accepted_prefix(t: &Table) -> u64;
        pub safe fn relay_reset_prefix_offset(t: &mut Table) -> u32;
        pub safe fn relay_transfer_prefix_offset(t: &mut Table) -> u32;
        pub safe fn relay_well_formed(t: &Table) -> u32;
        pub safe fn relay_size(what: u32) -> u32;
    }
}

/// The top bit marks a refusal where a call's answer is a number.
const REFUSED: u32 = 0x8000_0000;

/// The answer of a delivery: 0 or the last record's refusal, the count of records not refused, the last one's channel.
#[derive(Debug, Clone, Copy, PartialEq, Eq)]
pub struct Accepted {
    pub code: u32,
    pub count: u32,
    pub view: View,
}

/// The answer of find and forwarded out, and of a send: 0 or the refusal, and what was asked for, all zero where it is refused.
#[derive(Debug, Clone, Copy, PartialEq, Eq)]
pub struct Answered<T> {
    pub code: u32,
    pub answer: T,
}

impl<T> Answered<T> {
    pub fn granted(self) -> Result<T, u32> {
        done(self.code).map(|()| self.answer)
    }
}

/// What an answer is before it is written.
const UNWRITTEN: u32 = 0x5A5A_A5A5;
const NO_VIEW: View = View { on: UNWRITTEN, address: UNWRITTEN, index: UNWRITTEN, version: UNWRITTEN, expected: UNWRITTEN };

/// A number, or the refusal.
pub type Answer = Result<u32, u32>;

fn answer(said: u32) -> Answer {
    if said & REFUSED != 0 { Err(said & !REFUSED) } else { Ok(said) }
}

fn done(code: u32) -> Result<(), u32> {
    if code == 0 { Ok(()) } else { Err(code) }
}

/// Holds the layouts of this file to the library's own: its sizes, and the offset of every field by a scene of a few calls whose table
/// must be the one that Rust makes of the same. Done once; the answer is kept.
pub fn check_layout() -> Result<(), String> {
    static CHECKED: std::sync::OnceLock<Result<(), String>> = std::sync::OnceLock::new();
    CHECKED.get_or_init(|| sizes().and_then(|()| scene())).clone()
}

fn sizes() -> Result<(), String> {
    let ours = [
        ("Table", size_of::<Table>()),
        ("Record", size_of::<Record>()),
        ("Key", size_of::<Key>()),
        ("View", size_of::<View>()),
        ("Arrival", size_of::<Arrival>()),
        ("Prepared", size_of::<Prepared>()),
        ("Handles", size_of::<Handles>()),
        ("Names", size_of::<Names>()),
    ];
    for (what, (name, size)) in ours.into_iter().enumerate() {
        let said = foreign::relay_size(what as u32);
        if said as usize != size {
            return Err(format!("library: a {name} has {said} bytes there and {size} here"));
        }
    }
    Ok(())
}

/// Calls that reach every list of both kinds of channel.
fn scene() -> Result<(), String> {
    let mut t = boxed(true);
    let on = Key { address: 7, on: 1, indexed: 1, index: 5 };
    let off = Key { address: 8, ..Key::ZERO };
    let r = Record { on: 1, indexed: 1, index: 5, version: 1, prefix: 77, ..Record::ZERO };
    let range = |first, last, r| Record { ranged: 1, first, last, ..r };
    let mut codes = vec![channel(&mut t, &on).code];
    for (time, address, r) in [
        (9, 7, range(2, 3, Record { reliable: 1, number: 2, handle: 11, ..r })),
        (9, 7, range(0, 5, Record { reliable: 1, handle: 12, ..r })),
        (9, 7, range(20, 22, Record { number: 21, handle: 13, ..r })),
        (9, 7, Record { handle: 14, ..r }),
        (11, 8, range(30, 31, Record { reliable: 1, number: 30, handle: 16, ..Record::ZERO })),
        (11, 8, Record { handle: 17, ..Record::ZERO }),
    ] {
        codes.push(accept(&mut t, time, address, &[r]).code);
    }
    for (key, handle) in [(on, 15), (off, 18)] {
        let mut handles = Handles { count: 1, ..Handles::ZERO };
        handles.handles[0] = handle;
        codes.push(prepare(&mut t, 12, &key, 1, &handles).code);
    }
    codes.push(transfer_prefix_offset(&mut t).err().unwrap_or(0));

    let mut e = boxed(false);
    *e = Table { latest: 12, forwarding: 1, source: 2, offcount: 1, oncount: 1, ..Table::ZERO };
    let c = &mut e.ons[0];
    (c.address, c.index, c.version, c.expected, c.source) = (7, 5, 1, 1, 4);
    (c.out.len, c.out.entries[0]) = (1, OutEntry { time: 12, sent: 12, number: 3, held: 1, handle: 15 });
    (c.acks.len, c.acks.numbers[0]) = (2, 2);
    (c.groups.len, c.groups.groups[0]) = (1, Fragments { updated: 9, first: 20, len: 3, count: 1, ..Fragments::ZERO });
    (c.groups.groups[0].marks[1], c.groups.groups[0].handles[1]) = (1, 13);
    (c.bundles.len, c.bundles.total, c.bundles.lengths[0], c.bundles.handles[0]) = (1, 1, 1, 14);
    (c.buffer.len, c.buffer.packets[0]) = (1, Packet { number: 2, handle: 11, ranged: 1, first: 2, last: 3 });
    (c.queue.len, c.queue.packets[0]) = (1, Packet { number: 0, handle: 12, ranged: 1, first: 0, last: 5 });
    let c = &mut e.offs[0];
    c.address = 8;
    (c.out.len, c.out.entries[0]) = (1, OutEntry { time: 12, sent: 12, number: 1, held: 1, handle: 18 });
    (c.acks.len, c.acks.numbers[0]) = (1, 30);
    (c.groups.len, c.groups.groups[0]) = (1, Fragments { updated: 11, first: 30, len: 2, count: 1, ..Fragments::ZERO });
    (c.groups.groups[0].marks[0], c.groups.groups[0].handles[0]) = (1, 16);
    (c.bundles.len, c.bundles.total, c.bundles.lengths[0], c.bundles.handles[0]) = (1, 1, 1, 17);
    if codes.iter().any(|c| *c != 0) || *t != *e {
        return Err(format!("library: its table is laid out otherwise than this crate's; answers {codes:?}"));
    }
    Ok(())
}

/// Makes a new table, over whatever is there.
pub fn new(t: &mut Table, forwarding: bool) {
    let code = new_flagged(t, forwarding.into());
    assert!(code == 0, "a new table is never refused");
}

/// As the library has it: a flag other than 0 and 1 is refused (2), and the memory is as it was.
pub fn new_flagged(t: &mut Table, forwarding: u32) -> u32 {
    foreign::relay_new(t, forwarding)
}

/// A new table on the heap: it is too large to be moved about.
pub fn boxed(forwarding: bool) -> Box<Table> {
    let mut t = vec![Table::ZERO].pop().map(Box::new).expect("one");
    new(&mut t, forwarding);
    t
}

pub fn accept(t: &mut Table, time: u64, address: u32, records: &[Record]) -> Accepted {
    let mut said = Arrival { count: UNWRITTEN, view: NO_VIEW };
    // SAFETY: the library reads `records.len()` records and no more.
    let code = unsafe { foreign::relay_accept(t, time, address, records.as_ptr(), records.len(), &mut said) };
    Accepted { code, count: said.count, view: said.view }
}

pub fn accept_out(t: &mut Table, time: u64, address: u32, r: &Record) -> Answered<View> {
    let mut answer = NO_VIEW;
    let code = foreign::relay_accept_out(t, time, address, r, &mut answer);
    Answered { code, answer }
}

pub fn channel(t: &mut Table, k: &Key) -> Answered<View> {
    let mut answer = NO_VIEW;
    let code = foreign::relay_channel(t, k, &mut answer);
    Answered { code, answer }
}

/// The length of the bundle whose handles were written to `lent`, or none.
pub fn next_bundle(t: &mut Table, k: &Key, lent: &mut [u32]) -> Result<Option<u32>, u32> {
    // SAFETY: the library writes `lent.len()` numbers at most.
    let said = unsafe { foreign::relay_next_bundle(t, k, lent.as_mut_ptr(), lent.len()) };
    answer(said).map(|n| n.checked_sub(1))
}

pub fn prepare(t: &mut Table, time: u64, k: &Key, reliable: u32, h: &Handles) -> Answered<Prepared> {
    let mut answer = Prepared { allocated: UNWRITTEN, offset: UNWRITTEN, ..Prepared::ZERO };
    let code = foreign::relay_prepare(t, time, k, reliable, h, &mut answer);
    Answered { code, answer }
}

pub fn acks_written(t: &mut Table, k: &Key, n: &Names) -> Result<(), u32> {
    done(foreign::relay_acks_written(t, k, n))
}

/// The count of rows written to `lent`, each an address and a handle.
pub fn take_resends(t: &mut Table, time: u64, timeout: u64, give_up: u64, lent: &mut [u32]) -> Answer {
    // SAFETY: the library writes `lent.len()` numbers at most.
    answer(unsafe { foreign::relay_take_resends(t, time, timeout, give_up, lent.as_mut_ptr(), lent.len()) })
}

pub fn holds(t: &Table, handle: u32) -> Result<bool, u32> {
    answer(foreign::relay_holds(t, handle)).map(|held| held == 1)
}

pub fn last_accepted_prefix(t: &Table) -> Answer {
    let said = foreign::relay_last_accepted_prefix(t);
    match (said >> 32) as u32 {
        0 => Ok(said as u32),
        code => Err(code),
    }
}

pub fn reset_prefix_offset(t: &mut Table) -> Result<(), u32> {
    done(foreign::relay_reset_prefix_offset(t))
}

pub fn transfer_prefix_offset(t: &mut Table) -> Result<(), u32> {
    done(foreign::relay_transfer_prefix_offset(t))
}

pub fn well_formed(t: &Table) -> bool {
    foreign::relay_well_formed(t) == 1
}
