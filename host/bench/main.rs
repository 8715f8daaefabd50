//! What a call costs: the proved library and the original on the same histories, in one run on one machine, both built for release.
//!
//!     bench [--rounds N]         by default 5,000 rounds, each of the calls that the history's line tells; medians of nine
//!     bench --stack              how much stack each call takes at most, over the same histories
//!
//! Beside it: the well-formed test alone, and this machine's own cost of reading a table once and copying it twice, which no call that
//! takes a table, tests it and puts it back can go below.

#![allow(dead_code, unused_imports, unused_variables, clippy::all)]

mod bundle;
mod clock;
mod keys;
mod library;
mod packet;
mod play;
mod proto;
mod said;
mod seq;

// `play` is shared with the comparison, which needs these.
mod count;
mod judge;

use std::hint::black_box;
use std::process::ExitCode;

pub use keys::{Key, same_bytes, shown};
use library::{self as lib, Handles, Key as LibKey, Names, Record, Table};
use play::{Call, address, key_of, packet_of};
use proto::Protocol;

const TIMES: usize = 9;

fn median(mut seen: Vec<f64>) -> f64 {
    seen.sort_by(f64::total_cmp);
    seen[seen.len() / 2]
}

/// Nanoseconds that this thread has run: the machine may be shared.
fn clock() -> f64 {
    #[repr(C)]
    struct Time {
        seconds: i64,
        nanoseconds: i64,
    }
    unsafe extern "C" {
        fn clock_gettime(clock: i32, time: *mut Time) -> i32;
    }
    const THREAD: i32 = 3;
    let mut t = Time { seconds: 0, nanoseconds: 0 };
    // SAFETY: libc's, on 64-bit Linux, writes the two numbers.
    assert_eq!(unsafe { clock_gettime(THREAD, &mut t) }, 0);
    t.seconds as f64 * 1e9 + t.nanoseconds as f64
}

/// Nanoseconds of one of `n`.
fn time(n: usize, f: impl FnOnce()) -> f64 {
    let began = clock();
    f();
    (clock() - began) / n as f64
}

fn put(t: &mut Table, call: &Call, lent: &mut [u32]) -> u32 {
    match call {
        Call::Accept { time, address, records } => lib::accept(t, *time, *address, records).code,
        Call::NextBundle { key, .. } => lib::next_bundle(t, key, lent).err().unwrap_or(0),
        Call::AcksWritten { key, names } => lib::acks_written(t, key, names).err().unwrap_or(0),
        Call::Prepare { time, key, reliable, handles } => lib::prepare(t, *time, key, *reliable, handles).code,
        Call::AcceptOut { time, address, record } => lib::accept_out(t, *time, *address, record).code,
        Call::Channel(key) => lib::channel(t, key).code,
        _ => unreachable!("no history here has it"),
    }
}

/// A call for the original, with its packets made beforehand.
enum Ready {
    Accept(u64, std::net::SocketAddr, packet::Packet),
    AcceptOut(u64, std::net::SocketAddr, packet::Packet),
    Next(Key),
    Prepare(u64, Key, bundle::Bundle, bool),
    Channel(Key),
}

fn ready(call: &Call) -> Ready {
    match call {
        Call::Accept { time, address: a, records } => {
            let mut packets: Vec<_> = records.iter().map(packet_of).collect();
            let mut carrier = packets.pop().expect("a record");
            carrier.piggybacks = packets.into();
            Ready::Accept(*time, address(*a), carrier)
        }
        Call::AcceptOut { time, address: a, record } => Ready::AcceptOut(*time, address(*a), packet_of(record)),
        Call::NextBundle { key, .. } => Ready::Next(key_of(key)),
        Call::AcksWritten { key, names } => {
            let bundle = bundle::Bundle { acks_written: names.count as usize, ..Default::default() };
            Ready::Prepare(0, key_of(key), bundle, false)
        }
        Call::Prepare { time, key, reliable, handles } => {
            let packet = |&handle| packet::Packet { handle, sent_on: Some(key_of(key)), ..Default::default() };
            let packets = handles.handles[..handles.count as usize].iter().map(packet).collect();
            Ready::Prepare(*time, key_of(key), bundle::Bundle { packets, ..Default::default() }, *reliable == 1)
        }
        Call::Channel(key) => Ready::Channel(key_of(key)),
        _ => unreachable!("no history here has it"),
    }
}

fn ask(p: &mut Protocol, call: Ready) {
    let channel = |p: &mut Protocol, key: Key, f: &mut dyn FnMut(&mut proto::Channel)| match key {
        Key::Off(addr) => f(&mut p.off_channel(addr)),
        Key::On(addr, index) => f(&mut p.channel(addr, index)),
    };
    match call {
        Ready::Accept(time, addr, packet) => {
            clock::set(time);
            assert!(p.accept(packet, addr).is_ok());
        }
        Ready::AcceptOut(time, addr, packet) => {
            clock::set(time);
            assert!(p.accept_out(&packet, addr));
        }
        Ready::Next(key) => channel(p, key, &mut |c| _ = black_box(c.next_bundle())),
        Ready::Prepare(time, key, mut bundle, reliable) => {
            if time != 0 {
                clock::set(time);
            }
            channel(p, key, &mut |c| c.prepare(&mut bundle, reliable));
        }
        Ready::Channel(key) => channel(p, key, &mut |_| ()),
    }
}

// ---- Histories

const ON: LibKey = LibKey { address: 7, on: 1, indexed: 0, index: 0 };
const OFF: LibKey = LibKey { address: 7, on: 0, indexed: 0, index: 0 };

fn accept(address: u32, r: Record) -> Call {
    Call::Accept { time: 1, address, records: vec![r] }
}

fn arrive(number: u32) -> Call {
    accept(7, Record { on: 1, reliable: 1, number, handle: number, ..Record::ZERO })
}

fn next(key: LibKey) -> Call {
    Call::NextBundle { key, places: 64 }
}

fn wrote(key: LibKey, numbers: &[u32]) -> Call {
    let mut names = Names { count: numbers.len() as u32, ..Names::ZERO };
    names.numbers[..numbers.len()].copy_from_slice(numbers);
    Call::AcksWritten { key, names }
}

fn in_order(rounds: u32) -> Vec<Call> {
    (0..rounds).flat_map(|n| [arrive(n), next(ON), wrote(ON, &[n])]).collect()
}

fn reordered(rounds: u32) -> Vec<Call> {
    let pair = |n: u32| [arrive(n + 1), arrive(n), next(ON), next(ON), wrote(ON, &[n + 1, n])];
    (0..rounds).step_by(2).flat_map(pair).collect()
}

fn fragments(rounds: u32) -> Vec<Call> {
    let piece =
        |first: u32, k: u32| accept(7, Record { number: first + k, handle: k, ranged: 1, first, last: first + 3, ..Record::ZERO });
    let group = |first: u32| [piece(first, 2), piece(first, 0), piece(first, 3), piece(first, 1), next(OFF)];
    (0..rounds).map(|n| 4 * n).flat_map(group).collect()
}

fn deliveries(rounds: u32) -> Vec<Call> {
    let eight = |n: u32| {
        let records = (n..n + 8).map(|number| Record { on: 1, reliable: 1, number, handle: number, ..Record::ZERO }).collect();
        let numbers: Vec<u32> = (n..n + 8).collect();
        let mut calls = vec![Call::Accept { time: 1, address: 7, records }];
        calls.extend((0..8).map(|_| next(ON)));
        calls.push(wrote(ON, &numbers));
        calls
    };
    (0..rounds).map(|n| 8 * n).flat_map(eight).collect()
}

/// Twelve channels, all lists but those of the channel that is used nearly full.
fn filled() -> Vec<Call> {
    let mut calls = vec![arrive(0), next(ON), wrote(ON, &[0])];
    for a in 0..4 {
        calls.push(accept(a, Record::ZERO));
    }
    for a in 10..17 {
        calls.push(Call::Channel(LibKey { address: a, on: 1, indexed: 0, index: 0 }));
    }
    let keys: Vec<LibKey> =
        (0..4).map(|address| LibKey { address, ..OFF }).chain((10..17).map(|address| LibKey { address, ..ON })).collect();
    for key in &keys {
        for n in 0..2 {
            let mut handles = Handles { count: 16, ..Handles::ZERO };
            handles.handles.fill(n);
            calls.push(Call::Prepare { time: 1, key: *key, reliable: 1, handles });
        }
        for n in 0..14 {
            calls.push(accept(key.address, Record { on: key.on, handle: n, ..Record::ZERO }));
        }
        for g in 0..4 {
            for place in 0..31 {
                let first = 100 * g;
                calls.push(accept(
                    key.address,
                    Record { on: key.on, ranged: 1, first, last: first + 31, number: first + place, ..Record::ZERO },
                ));
            }
        }
        for n in 0..31 {
            let r = Record { on: 1, reliable: 1, handle: n, ranged: 1, last: 300, ..Record::ZERO };
            if key.on == 1 {
                calls.push(accept(key.address, Record { number: n, ..r }));
                calls.push(accept(key.address, Record { number: 40 + n, ..r }));
            }
        }
    }
    calls
}

fn full(rounds: u32) -> Vec<Call> {
    (1..=rounds).flat_map(|n| [arrive(n), next(ON), wrote(ON, &[n])]).collect()
}

/// This machine's own cost of reading a table once and copying it twice, measured anew beside each repetition: the machine may be
/// shared, and what is compared should have met the same neighbours.
struct Own {
    here: Box<Table>,
    there: Box<Table>,
}

impl Own {
    fn new() -> Self {
        Self { here: lib::boxed(false), there: lib::boxed(false) }
    }

    fn reading(&mut self) -> f64 {
        time(500, || (0..500).for_each(|_| _ = black_box(read(black_box(&self.here)))))
    }

    fn copying(&mut self) -> f64 {
        let (here, there): (*mut Table, *mut Table) = (&mut *self.here, &mut *self.there);
        time(500, || {
            for _ in 0..500 {
                // SAFETY: two tables of this struct, apart from each other.
                unsafe {
                    black_box(there).copy_from_nonoverlapping(black_box(here), 1);
                    black_box(here).copy_from_nonoverlapping(black_box(there), 1);
                }
            }
        })
    }

    fn both(&mut self) -> f64 {
        self.reading() + self.copying()
    }
}

struct Row {
    name: &'static str,
    library: f64,
    original: f64,
    of_own: f64,
}

/// A history after its beginning, which is not timed. Every call must be granted.
fn measure(name: &'static str, first: &[Call], calls: &[Call], own: &mut Own) -> Row {
    let mut lent = [0; 64];
    let (mut library, mut original, mut of_own) = (Vec::new(), Vec::new(), Vec::new());
    for _ in 0..TIMES {
        let mut t = lib::boxed(false);
        for call in first {
            assert_eq!(put(&mut t, call, &mut lent), 0, "{call:?}");
        }
        let before = own.both();
        let took = time(calls.len(), || calls.iter().for_each(|c| assert_eq!(put(&mut t, c, &mut lent), 0)));
        of_own.push(2.0 * took / (before + own.both()));
        library.push(took);
        let mut p = Protocol::new();
        first.iter().for_each(|c| ask(&mut p, ready(c)));
        let made: Vec<Ready> = calls.iter().map(ready).collect();
        original.push(time(calls.len(), || made.into_iter().for_each(|c| ask(&mut p, c))));
    }
    Row { name, library: median(library), original: median(original), of_own: median(of_own) }
}

/// Each kind of call by itself, where it changes nothing.
fn alone(t: &mut Table, own: &mut Own) -> Vec<(&'static str, f64, f64)> {
    let n = 1_000;
    let mut lent = [0; lib::RESENT_NUMBERS];
    let dropped = Record { on: 1, haslast: 1, lastreliable: 99, ..Record::ZERO };
    let one = Handles { count: 1, ..Handles::ZERO };
    let mut of = |name, call: &mut dyn FnMut(&mut Table) -> bool| {
        let (mut all, mut of_own) = (Vec::new(), Vec::new());
        for _ in 0..TIMES {
            let before = own.both();
            let took = time(n, || (0..n).for_each(|_| assert!(call(black_box(t)), "{name}")));
            of_own.push(2.0 * took / (before + own.both()));
            all.push(took);
        }
        (name, median(all), median(of_own))
    };
    vec![
        of("accept, rejected by 8", &mut |t| lib::accept(t, 1, 7, &[dropped]).code == 8),
        of("accept of eight, each rejected by 8", &mut |t| lib::accept(t, 1, 7, &[dropped; 8]).code == 8),
        of("accept_out, nothing in it", &mut |t| lib::accept_out(t, 1, 7, &Record { on: 1, ..Record::ZERO }).code == 0),
        of("channel, there", &mut |t| lib::channel(t, &ON).code == 0),
        of("next_bundle, none", &mut |t| lib::next_bundle(t, &ON, &mut lent[..64]) == Ok(None)),
        of("prepare, one unreliable packet", &mut |t| lib::prepare(t, 1, &ON, 0, &one).code == 0),
        of("acks_written, no name", &mut |t| lib::acks_written(t, &ON, &Names::ZERO) == Ok(())),
        of("take_resends, none due", &mut |t| lib::take_resends(t, 1, 9, 9, &mut lent) == Ok(0)),
        of("holds, not held", &mut |t| lib::holds(t, 12_345) == Ok(false)),
        of("last_accepted_prefix", &mut |t| lib::last_accepted_prefix(t).is_ok()),
        of("reset_prefix_offset", &mut |t| lib::reset_prefix_offset(t).is_ok()),
    ]
}

// ---- Stack

/// How much stack is painted below a call, and so the most that can be seen.
const PAINTED: usize = 1 << 20;
const PAINT: u8 = 0xA5;

/// A place of the caller's own frame; the stack grows down from there.
#[inline(never)]
fn here() -> *mut u8 {
    let mut place = 0u8;
    black_box(&mut place)
}

/// How much of the stack below `from` the call wrote to, which is painted first.
fn depth(from: *mut u8, call: &mut dyn FnMut()) -> usize {
    let below = |k: usize| from.wrapping_sub(k);
    // SAFETY: this thread's stack has PAINTED bytes and more below `from`, and nothing lives there while no call is under way.
    (512..PAINTED).for_each(|k| unsafe { below(k).write_volatile(PAINT) });
    call();
    (512..PAINTED).rev().find(|&k| unsafe { below(k).read_volatile() } != PAINT).unwrap_or(512)
}

fn kind(call: &Call) -> &'static str {
    match call {
        Call::Accept { records, .. } if records.len() == 8 => "accept of eight",
        Call::Accept { .. } => "accept",
        Call::NextBundle { .. } => "next_bundle",
        Call::AcksWritten { .. } => "acks_written",
        Call::Prepare { .. } => "prepare",
        Call::AcceptOut { .. } => "accept_out",
        Call::Channel(_) => "channel",
        _ => unreachable!("no history here has it"),
    }
}

/// The most that each kind of call took.
fn stack() {
    let mut most: Vec<(&str, usize)> = Vec::new();
    let mut seen = |name, bytes| match most.iter_mut().find(|m| m.0 == name) {
        Some(m) => m.1 = m.1.max(bytes),
        None => most.push((name, bytes)),
    };
    let mut lent = [0; lib::RESENT_NUMBERS];
    let from = here();
    let mut t = lib::boxed(false);
    for calls in [in_order(100), reordered(100), fragments(50), deliveries(20), filled()] {
        t = lib::boxed(false);
        for call in &calls {
            let mut code = 0;
            let bytes = depth(from, &mut || code = put(&mut t, call, &mut lent[..64]));
            assert_eq!(code, 0, "{call:?}");
            seen(kind(call), bytes);
        }
    }
    let forwarded = Record { on: 1, reliable: 1, number: 1, haslast: 1, lastreliable: 1, ..Record::ZERO };
    let off = Record { on: 0, ..forwarded };
    for (address, record) in [(7, forwarded), (0, off)] {
        seen("accept_out", depth(from, &mut || _ = black_box(lib::accept_out(&mut t, 1, address, &record))));
    }
    seen("take_resends", depth(from, &mut || _ = black_box(lib::take_resends(&mut t, 9, 1, u64::MAX, &mut lent))));
    seen("holds", depth(from, &mut || _ = black_box(lib::holds(&t, 12_345))));
    seen("last_accepted_prefix", depth(from, &mut || _ = black_box(lib::last_accepted_prefix(&t))));
    seen("reset_prefix_offset", depth(from, &mut || _ = black_box(lib::reset_prefix_offset(&mut t))));
    seen("transfer_prefix_offset", depth(from, &mut || _ = black_box(lib::transfer_prefix_offset(&mut t))));
    seen("well_formed", depth(from, &mut || _ = black_box(lib::well_formed(&t))));
    most.sort_by_key(|m| std::cmp::Reverse(m.1));
    println!("bench: {}, the most bytes of stack that a call took", std::env::consts::ARCH);
    most.iter().for_each(|(name, bytes)| println!("  {name:<24} {bytes:>8}"));
}

/// A call that changes the table, on a copy of one table each time.
fn fresh(of: &Table, own: &mut Own, call: &mut dyn FnMut(&mut Table)) -> (f64, f64) {
    let mut t = lib::boxed(false);
    let (mut all, mut of_own) = (Vec::new(), Vec::new());
    for _ in 0..TIMES {
        let before = own.both();
        let mut took = Vec::new();
        for _ in 0..200 {
            // SAFETY: two tables apart from each other, of integers alone.
            unsafe { (&mut *t as *mut Table).copy_from_nonoverlapping(of, 1) };
            let began = std::time::Instant::now();
            call(black_box(&mut t));
            took.push(began.elapsed().as_nanos() as f64);
        }
        let took = median(took);
        of_own.push(2.0 * took / (before + own.both()));
        all.push(took);
    }
    (median(all), median(of_own))
}

/// Calls that do what they can on a full table, but for the one channel that they use.
fn working(of: &Table, own: &mut Own) -> Vec<(&'static str, f64, f64)> {
    let mut lent = [0; lib::RESENT_NUMBERS];
    let record = |on, reliable, number| Record { on, reliable, number, handle: number, ..Record::ZERO };
    let eight = |on, reliable| -> Vec<Record> { (1..9).map(|number| record(on, reliable, number)).collect() };
    let (ordered, loose) = (eight(1, 1), eight(1, 0));
    // One entry that was sent before all others: it is due at a timeout at which they are not.
    let mut one = lib::boxed(false);
    // SAFETY: two tables apart from each other, of integers alone.
    unsafe { (&mut *one as *mut Table).copy_from_nonoverlapping(of, 1) };
    assert_eq!(lib::prepare(&mut one, 2, &ON, 1, &Handles { count: 1, ..Handles::ZERO }).code, 0);
    assert_eq!(lib::take_resends(&mut one, 9, 8, 99, &mut lent), Ok(352));
    let (ns, of_own) = fresh(&one, own, &mut |t| assert_eq!(lib::take_resends(t, 10, 5, 99, &mut lent), Ok(1)));
    let mut rows = vec![("take_resends, one due", ns, of_own)];
    let mut of_call = |name, call: &mut dyn FnMut(&mut Table)| {
        let (ns, of_own) = fresh(of, own, call);
        rows.push((name, ns, of_own));
    };
    of_call("accept of one, reliable", &mut |t| assert_eq!(lib::accept(t, 1, 7, &ordered[..1]).code, 0));
    of_call("accept of one, not reliable", &mut |t| assert_eq!(lib::accept(t, 1, 7, &loose[..1]).code, 0));
    of_call("accept of eight, reliable", &mut |t| assert_eq!(lib::accept(t, 1, 7, &ordered).code, 0));
    of_call("accept of eight, not reliable", &mut |t| assert_eq!(lib::accept(t, 1, 7, &loose).code, 0));
    // The other ways of a record move more of its channel: it waits in the buffer, it is a fragment, it has an ack.
    let waits: Vec<Record> = (2..10).map(|number| record(1, 1, number)).collect();
    let parts: Vec<Record> = (50..58).map(|n| Record { ranged: 1, first: 50, last: 57, ..record(1, 0, n) }).collect();
    let run: Vec<Record> = (1..9).map(|n| Record { ranged: 1, first: 1, last: 8, ..record(1, 1, n) }).collect();
    let acks: Vec<Record> = (1..9).map(|n| Record { ackcount: 1, acks: [n; lib::RECORD_ACKS], ..record(1, 1, n) }).collect();
    of_call("accept of one that waits", &mut |t| assert_eq!(lib::accept(t, 1, 7, &waits[..1]).code, 0));
    of_call("accept of one fragment", &mut |t| assert_eq!(lib::accept(t, 1, 7, &parts[..1]).code, 0));
    of_call("accept of one reliable fragment", &mut |t| assert_eq!(lib::accept(t, 1, 7, &run[..1]).code, 0));
    of_call("accept of one with an ack", &mut |t| assert_eq!(lib::accept(t, 1, 7, &acks[..1]).code, 0));
    of_call("accept of eight that wait", &mut |t| assert_eq!(lib::accept(t, 1, 7, &waits).code, 0));
    of_call("accept of eight fragments", &mut |t| assert_eq!(lib::accept(t, 1, 7, &parts).code, 0));
    of_call("accept of eight reliable fragments", &mut |t| assert_eq!(lib::accept(t, 1, 7, &run).code, 0));
    of_call("accept of eight with an ack", &mut |t| assert_eq!(lib::accept(t, 1, 7, &acks).code, 0));
    of_call("take_resends, all 352 due", &mut |t| assert_eq!(lib::take_resends(t, 9, 1, 99, &mut lent), Ok(352)));
    of_call("take_resends, all given up", &mut |t| assert_eq!(lib::take_resends(t, 9, 1, 1, &mut lent), Ok(0)));
    rows
}

/// The table's words, read once.
#[inline(never)]
fn read(t: &Table) -> u64 {
    // SAFETY: the table is 5,448 whole u64 words, aligned as such; its padding is written by `lib::boxed`'s zeros.
    let words = unsafe { std::slice::from_raw_parts((t as *const Table).cast::<u64>(), size_of::<Table>() / 8) };
    words.iter().fold(0, |all, w| all | w)
}

fn main() -> ExitCode {
    let words: Vec<String> = std::env::args().skip(1).collect();
    let rounds = match words.as_slice() {
        [] => 5_000,
        [flag] if flag == "--stack" => {
            let deep = std::thread::Builder::new().stack_size(8 << 20).spawn(stack).expect("a thread");
            return deep.join().map_or(ExitCode::FAILURE, |()| ExitCode::SUCCESS);
        }
        [flag, n] if flag == "--rounds" && n.parse::<u32>().is_ok_and(|n| (8..=1_000_000).contains(&n)) => {
            n.parse().expect("a number")
        }
        _ => {
            eprintln!("usage: bench [--rounds N, from 8 to 1000000] | --stack");
            return ExitCode::from(2);
        }
    };
    let even = rounds & !1;
    let first = filled();
    let mut own = Own::new();
    let rows = [
        measure("in order: accept, next bundle, ack written", &[], &in_order(rounds), &mut own),
        measure("reordered: two accepts, two bundles, acks written", &[], &reordered(even), &mut own),
        measure("fragments: four accepts, next bundle", &[], &fragments(rounds), &mut own),
        measure("deliveries of eight, eight bundles, acks written", &[], &deliveries(rounds / 8), &mut own),
        measure("full table: as in order, beside 11 full channels", &first, &full(rounds), &mut own),
    ];

    let mut tables = [lib::boxed(false), lib::boxed(false)];
    let mut lent = [0; 64];
    first.iter().for_each(|c| _ = put(&mut tables[1], c, &mut lent));
    let n = 2_000;
    let test =
        |t: &Table| median((0..TIMES).map(|_| time(n, || (0..n).for_each(|_| assert!(lib::well_formed(black_box(t)))))).collect());
    let (empty, fullest) = (test(&tables[0]), test(&tables[1]));
    let works = working(&tables[1], &mut own);
    let calls = alone(&mut tables[1], &mut own);
    let reading = median((0..TIMES).map(|_| own.reading()).collect());
    let copying = median((0..TIMES).map(|_| own.copying()).collect());

    println!("bench: {}, {rounds} rounds, medians of {TIMES}, time of this thread alone", std::env::consts::ARCH);
    println!("{:<52} {:>14} {:>14} {:>8} {:>8}", "history, nanoseconds a call", "library", "original", "ratio", "of own");
    for r in &rows {
        println!("{:<52} {:>14.0} {:>14.0} {:>8.1} {:>8.2}", r.name, r.library, r.original, r.library / r.original, r.of_own);
    }
    println!("{:<52} {:>14} {:>14}", "calls a second", "library", "original");
    for r in &rows {
        println!("{:<52} {:>14.0} {:>14.0}", r.name, 1e9 / r.library, 1e9 / r.original);
    }
    println!("well-formed test alone: {empty:.0} ns on a new table, {fullest:.0} ns on a full one");
    println!(
        "this machine's own: reading the table once {reading:.0} ns, copying it twice {copying:.0} ns, together {:.0} ns",
        reading + copying
    );
    println!("one call alone on a full table, in a state that it leaves as it is:");
    for (name, ns, of_own) in &calls {
        println!("  {name:<40} {ns:>8.0} ns {of_own:>8.2} of own");
    }
    println!("one call alone on a copy of a full table, which it changes (wall-clock time):");
    for (name, ns, of_own) in &works {
        println!("  {name:<40} {ns:>8.0} ns {of_own:>8.2} of own");
    }
    let histories = rows.iter().map(|r| r.of_own).fold(0.0, f64::max);
    let worst = calls.iter().chain(&works).map(|c| c.2).fold(histories, f64::max);
    println!("a checked call costs {histories:.2} times that at most in these histories, and {worst:.2} by itself; the goal is 3");
    ExitCode::SUCCESS
}
