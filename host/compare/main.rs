//! The proved library and the whole original in one process: seeded random histories over all calls, compared call by call.
//!
//!     compare [--calls N] [--seed S] [--threads T]     histories until N calls were compared, by default 1,000,000 from seed 1
//!     compare --one SEED                               one history, each call printed
//!     compare --broken TABLES [--seed S]               tables that are not well formed, from so many histories
//!
//! It prints how often each rule, refusal and limit was reached, and fails if one never was.

#![allow(dead_code, unused_imports, unused_variables, clippy::all)]

mod broken;
mod bundle;
mod clock;
mod count;
mod draw;
mod judge;
mod keys;
mod library;
mod packet;
mod play;
mod proto;
mod said;
mod seq;

use std::process::ExitCode;
use std::sync::atomic::{AtomicBool, AtomicU64, Ordering};
use std::time::Instant;

use count::Counts;
use draw::Random;
pub use keys::{Key, same_bytes, shown};
use play::{Play, Stop};

/// What must have been reached, beside the original's messages.
const REACHED: &[&str] = &[
    "refusal 2",
    "refusal 3",
    "refusal 4",
    "refusal 5",
    "refusal 6",
    "refusal 7",
    "refusal 8",
    "refusal 9",
    "refusal 10",
    "refusal 11",
    "refusal 12",
    "refusal 13",
    "at the limit: off-channels",
    "past the limit: off-channels",
    "at the limit: on-channels",
    "past the limit: on-channels",
    "at the limit: out entries",
    "past the limit: out entries",
    "at the limit: acks",
    "past the limit: acks",
    "at the limit: buffered",
    "past the limit: buffered",
    "at the limit: contiguous",
    "past the limit: contiguous",
    "at the limit: groups",
    "past the limit: groups",
    "at the limit: places",
    "past the limit: places",
    "at the limit: bundles",
    "past the limit: bundles",
    "at the limit: handles in bundles",
    "past the limit: handles in bundles",
    "at the limit: records",
    "past the limit: records",
    "at the limit: acks of a record",
    "past the limit: acks of a record",
    "at the limit: acks written",
    "past the limit: acks written",
    "at the limit: handles of a send",
    "past the limit: handles of a send",
    "made: an off-channel",
    "made: an on-channel",
    "made: an indexed channel",
    "version: the same",
    "version: higher, and not stored",
    "reorder: Equal",
    "reorder: Less, dropped",
    "reorder: Greater, a repeat",
    "reorder: Greater, into an empty buffer",
    "reorder: Greater, in front",
    "reorder: Greater, at the end",
    "reorder: Greater, in between",
    "reorder: at half the circle",
    "observe: moves",
    "observe: stays",
    "last reliable number as expected",
    "no range: a bundle of one",
    "group: made",
    "group: made, of length 1, and no bundle",
    "group: older than 10,000, dropped",
    "group: stored at age 10,000",
    "group: stored",
    "group: a place replaced",
    "group: filled, a bundle",
    "a delivery of several, side by side",
    "a delivery one inside the other",
    "a delivery with a record that only the port refuses",
    "forwarded out: reliable",
    "forwarded out: acks alone",
    "forwarded out: a cumulative ack",
    "forwarded out: single acks",
    "find: there",
    "find: made",
    "next bundle: none",
    "next bundle: of one",
    "next bundle: of several",
    "next bundle: fills the lent list",
    "send: reliable, of none",
    "send: reliable, off-channel",
    "send: reliable, on-channel",
    "send: nothing allocated",
    "send: unreliable, allocated",
    "acks written: from the front",
    "acks written: from anywhere",
    "acks written: one is lacking",
    "resends: none",
    "resends: some",
    "resends: fill the lent list",
    "a handle that is held",
    "a handle that is not held",
    "the original panics at a run that the port drops",
    // The original's own messages, of rules that nothing above tells apart.
    "Cumulative ack for a previous packet: {}, after: {:?}",
    "Single ack for reliable packet: {sequence_num} after {:?}",
    "Received reliable packet: {sequence_num}",
    "Unbuffered reliable packet: {}",
    "Buffered reliable packet at: {insert_index}",
    "Missing the first fragment packet, got: {}, range: {}..={}",
    "Reliable fragment: not enough contiguous, expected: {}, got: {}",
    "Incoherent fragment packet, got {}..={}, expected {}..={}",
    "Gave up resending reliable packet #{}, never acknowledged",
    "Resending reliable packet #{}",
];

struct Options {
    calls: u64,
    seed: u64,
    threads: u64,
    one: Option<u64>,
    broken: Option<u64>,
}

fn options() -> Option<Options> {
    let mut o = Options { calls: 1_000_000, seed: 1, threads: 1, one: None, broken: None };
    let mut words = std::env::args().skip(1);
    while let Some(word) = words.next() {
        let value = words.next()?.replace(['_', ','], "").parse().ok()?;
        match word.as_str() {
            "--calls" => o.calls = value,
            "--seed" => o.seed = value,
            "--threads" => o.threads = value,
            "--one" => o.one = Some(value),
            "--broken" => o.broken = Some(value),
            _ => return None,
        }
    }
    (o.threads > 0 && (o.one.is_none() || o.broken.is_none())).then_some(o)
}

/// The history of a seed.
fn play(seed: u64, play: &mut Play) -> (&'static str, Result<(), Stop>) {
    let mut random = Random(seed.wrapping_mul(0xD134_2543_DE82_EF95));
    draw::history(play, &mut random)
}

fn one(seed: u64) -> bool {
    let mut counts = Counts::default();
    let mut p = Play::new(&mut counts);
    p.loud = true;
    let (family, played) = play(seed, &mut p);
    println!("history {seed} ({family}): {} calls, {played:?}", p.calls);
    played.is_ok()
}

#[derive(Default)]
struct Ran {
    counts: Counts,
    calls: u64,
    records: u64,
    beside: u64,
    histories: u64,
    wrong: Option<String>,
}

fn histories(o: &Options) -> bool {
    let began = Instant::now();
    let (next, calls, stop) = (AtomicU64::new(o.seed), AtomicU64::new(0), AtomicBool::new(false));
    let work = || {
        let mut ran = Ran::default();
        let mut p = Play::new(&mut ran.counts);
        let mut counted = 0;
        while calls.load(Ordering::Relaxed) < o.calls && !stop.load(Ordering::Relaxed) {
            let seed = next.fetch_add(1, Ordering::Relaxed);
            let (family, played) = play(seed, &mut p);
            ran.histories += 1;
            calls.fetch_add(p.calls - counted, Ordering::Relaxed);
            counted = p.calls;
            if let Err(Stop::Differs(what)) = played {
                ran.wrong = Some(format!("history {seed} ({family}) differs: {what}"));
                stop.store(true, Ordering::Relaxed);
            }
        }
        (ran.calls, ran.records, ran.beside) = (p.calls, p.records, p.beside);
        ran
    };
    let mut all = Ran::default();
    std::thread::scope(|s| {
        let spawn = || std::thread::Builder::new().stack_size(16 << 20).spawn_scoped(s, work).expect("a thread");
        let running: Vec<_> = (0..o.threads).map(|_| spawn()).collect();
        for r in running.into_iter().map(|r| r.join().expect("a thread that does not panic")) {
            all.counts.add(&r.counts);
            all.calls += r.calls;
            all.records += r.records;
            all.beside += r.beside;
            all.histories += r.histories;
            all.wrong = all.wrong.take().or(r.wrong);
        }
    });
    let texts = all.counts.by_text();
    println!("compare: how often each was reached");
    for (text, n) in texts.iter().filter(|(text, _)| REACHED.contains(text)) {
        println!("  {n:>12}  {text}");
    }
    let never: Vec<_> = REACHED.iter().filter(|text| !texts.contains_key(*text)).collect();
    let seconds = began.elapsed().as_secs_f64();
    println!(
        "compare: seeds {} to {}, {} histories, {} calls ({} records delivered, {} of them once more alone), {} threads, {seconds:.0} s",
        o.seed,
        o.seed + all.histories - 1,
        all.histories,
        all.calls,
        all.records,
        all.beside,
        o.threads
    );
    if let Some(wrong) = &all.wrong {
        println!("compare: {wrong}");
        return false;
    }
    if !never.is_empty() {
        println!("compare: never reached: {never:?}");
        return false;
    }
    println!("compare: no answer, lent list or state differs, and all {} above were reached", REACHED.len());
    true
}

fn broken(tables: u64, seed: u64) -> bool {
    let began = Instant::now();
    let mut b = broken::Broken::default();
    let mut random = Random(seed);
    let mut counts = Counts::default();
    let mut p = Play::new(&mut counts);
    // Beside the new table, those that histories end in: the fuller of a few.
    let mut found = vec![library::boxed(false)];
    let mut at = seed;
    while (found.len() as u64) < tables {
        let mut best: Option<(u32, Box<library::Table>)> = None;
        for _ in 0..20 {
            play(at, &mut p).1.ok();
            at += 1;
            let full = p.table.offcount
                + p.table.oncount
                + p.table.ons.iter().map(|c| c.buffer.len + c.queue.len + 9 * c.groups.len).sum::<u32>();
            if best.as_ref().is_none_or(|(most, _)| full > *most) {
                best = Some((full, p.table.clone()));
            }
        }
        found.extend(best.map(|(_, t)| t));
    }
    for (i, t) in found.iter().enumerate() {
        if let Err(what) = broken::run(t, 2_000, &mut random, &mut b) {
            println!("compare: malformed tables, seed {seed}, table {i}: {what}");
            return false;
        }
    }
    println!(
        "compare: {} tables, {} changed copies, {} of them malformed (each of {} words alone): all {} calls answer 1 and leave every byte; seed {seed}, {:.0} s",
        found.len(),
        b.changed,
        b.malformed,
        b.words,
        b.calls,
        began.elapsed().as_secs_f64()
    );
    b.malformed > 0
}

fn main() -> ExitCode {
    let Some(o) = options() else {
        eprintln!("usage: compare [--calls N] [--seed S] [--threads T] | --one SEED | --broken TABLES [--seed S]");
        return ExitCode::from(2);
    };
    if let Err(wrong) = library::check_layout() {
        eprintln!("compare: {wrong}");
        return ExitCode::FAILURE;
    }
    // The original's own panics are expected, and told apart where they are caught.
    let said = std::panic::take_hook();
    std::panic::set_hook(Box::new(move |info| {
        if !info.location().is_some_and(|at| at.file().ends_with("proto.rs")) {
            said(info);
        }
    }));
    let fine = match (o.one, o.broken) {
        (Some(seed), _) => one(seed),
        (_, Some(tables)) => broken(tables, o.seed),
        _ => histories(&o),
    };
    if fine { ExitCode::SUCCESS } else { ExitCode::FAILURE }
}
