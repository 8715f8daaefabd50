//! One history on both: each call is put to the library, then to the original, and answers, lent lists and states are compared.
//!
//! A call that gets one of the port's own refusals (2, 3, 4, 10 to 13) is withheld from the original, and must leave the table as it
//! was but for the latest time. That it is rightly refused is judged without the library: 2, 3, 12 and 13 from the arguments and the
//! original's state, 4, 10 and 11 by putting the call to a copy of the original, which must then be over a limit, or panic (10).
//!
//! Where the original panics at a run of packets that the port drops (docs/DIFFERENCES.md), the run is dropped there too (`see`).

use std::net::{Ipv4Addr, SocketAddr};
use std::num::NonZero;
use std::panic::{AssertUnwindSafe, catch_unwind};
use std::time::Duration;

use crate::bundle::Bundle;
use crate::count::Counts;
use crate::library::{self as lib, Handles, Key as LibKey, Names, Record, Table, View};
use crate::packet::{Packet, PacketConfig};
use crate::proto::Protocol;
use crate::seq::Seq;
use crate::{Key, clock, judge, said, same_bytes, shown};

#[derive(Debug, Clone)]
pub enum Call {
    Accept { time: u64, address: u32, records: Vec<Record> },
    AcceptOut { time: u64, address: u32, record: Record },
    Channel(LibKey),
    NextBundle { key: LibKey, places: usize },
    Prepare { time: u64, key: LibKey, reliable: u32, handles: Handles },
    AcksWritten { key: LibKey, names: Names },
    TakeResends { time: u64, timeout: u64, give_up: u64, places: usize },
    Holds(u32),
    LastAcceptedPrefix,
    ResetPrefixOffset,
    TransferPrefixOffset,
}

/// Why a history ends.
#[derive(Debug)]
pub enum Stop {
    Differs(String),
}

pub type Played<T> = Result<T, Stop>;

fn differs<T>(what: impl Into<String>) -> Played<T> {
    Err(Stop::Differs(what.into()))
}

/// Lent lists are filled with this before a call.
const UNTOUCHED: u32 = 0xA5A5_5A5A;
/// A longer range is never made a group of by the original here: it would take all memory.
const LONGEST: u32 = 5000;

pub fn address(a: u32) -> SocketAddr {
    (Ipv4Addr::from(a), 0).into()
}

pub fn key_of(k: &LibKey) -> Key {
    match k.on {
        0 => Key::Off(address(k.address)),
        _ => Key::On(address(k.address), if k.indexed == 1 { NonZero::new(k.index) } else { None }),
    }
}

pub fn record_key(a: u32, r: &Record) -> Key {
    key_of(&LibKey { address: a, on: r.on, indexed: r.indexed, index: r.index })
}

fn seq(n: u32) -> Seq {
    Seq::new(n).expect("a legal number")
}

pub fn packet_of(r: &Record) -> Packet {
    let nonzero = |n| NonZero::new(n).expect("not zero");
    Packet {
        handle: r.handle,
        prefix: r.prefix,
        config: PacketConfig {
            on_channel: r.on == 1,
            indexed_channel: (r.on == 1 && r.indexed == 1).then(|| (nonzero(r.index), nonzero(r.version))),
            reliable: r.reliable == 1,
            sequence_num: Some(seq(r.number)),
            sequence_range: (r.ranged == 1).then(|| (seq(r.first), seq(r.last))),
            cumulative_ack: (r.hascumulative == 1).then(|| seq(r.cumulative)),
            single_acks: r.acks[..r.ackcount as usize].iter().map(|&n| seq(n)).collect(),
            last_reliable_sequence_num: (r.haslast == 1).then(|| seq(r.lastreliable)),
        },
        ..Packet::default()
    }
}

/// What a panic said.
fn panic_text(e: Box<dyn std::any::Any + Send>) -> String {
    e.downcast_ref::<String>().cloned().or_else(|| e.downcast_ref::<&str>().map(|s| s.to_string())).unwrap_or_default()
}

const UNWRAPPED: &str = "called `Option::unwrap()` on a `None` value";
const BEYOND: &str = "index out of bounds";

pub struct Play<'a> {
    pub table: Box<Table>,
    before: Box<Table>,
    spare: Box<Table>,
    pub rust: Protocol,
    offs: Vec<Key>,
    ons: Vec<Key>,
    pub counts: &'a mut Counts,
    pub calls: u64,
    pub records: u64,
    /// Calls of the library beside those: the records of a delivery of several, one by one.
    pub beside: u64,
    /// Prints each call with its answer.
    pub loud: bool,
    /// Now and then piggybacks are put to the original one inside the other.
    nested: bool,
    lent: Vec<u32>,
}

impl<'a> Play<'a> {
    pub fn new(counts: &'a mut Counts) -> Self {
        let table = lib::boxed(false);
        Self {
            before: table.clone(),
            spare: table.clone(),
            table,
            rust: Protocol::new(),
            offs: Vec::new(),
            ons: Vec::new(),
            counts,
            calls: 0,
            records: 0,
            beside: 0,
            loud: false,
            nested: false,
            lent: Vec::new(),
        }
    }

    /// Begins a history. The table's memory is not cleared first: a new table is made over whatever is there.
    pub fn begin(&mut self, forwarding: bool) -> Played<()> {
        *self.spare = *self.table;
        if lib::new_flagged(&mut self.table, 2 + u32::from(forwarding)) != 2 || !same_bytes(&*self.table, &*self.spare) {
            return differs("a flag of a new table that is neither 0 nor 1");
        }
        lib::new(&mut self.table, forwarding);
        *self.before = *self.table;
        self.rust = if forwarding { Protocol::new_forwarding() } else { Protocol::new() };
        self.offs.clear();
        self.ons.clear();
        clock::set(0);
        said::each(|_| ());
        if self.table.latest != 0 {
            return differs("a new table's time");
        }
        let mut fresh = Table::ZERO;
        (fresh.source, fresh.forwarding) = (1, forwarding.into());
        if *self.table != fresh {
            return differs("a new table");
        }
        self.calls += 1;
        self.compare()
    }

    /// Moves both to where a long history would have brought their numbers. The channel is there, and nothing waits on it.
    pub fn move_numbers(&mut self, shared_: u32, key: LibKey, source: u32, expected: u32) {
        self.rust.set_numbers(seq(shared_), key_of(&key), seq(source), seq(expected));
        self.table.source = shared_;
        let n = self.table.oncount as usize;
        if let Some(c) =
            self.table.ons[..n].iter_mut().find(|c| key.on == 1 && c.address == key.address && c.index == key.index * key.indexed)
        {
            (c.source, c.expected) = (source, expected);
        }
        *self.before = *self.table;
    }

    fn compare(&mut self) -> Played<()> {
        self.compare_after(true)
    }

    fn compare_after(&mut self, one: bool) -> Played<()> {
        if let Err(what) = self.rust.same(&self.table, &self.before, &self.offs, &self.ons, one) {
            return differs(format!("state: {what}"));
        }
        self.limits();
        let (t, b) = (&*self.table, &mut *self.before);
        (b.latest, b.forwarding, b.prefix, b.offset, b.source) = (t.latest, t.forwarding, t.prefix, t.offset, t.source);
        (b.offcount, b.oncount) = (t.offcount, t.oncount);
        for (c, d) in t.offs.iter().zip(&mut b.offs).filter(|(c, d)| !same_bytes(*c, &**d)) {
            *d = *c;
        }
        for (c, d) in t.ons.iter().zip(&mut b.ons).filter(|(c, d)| !same_bytes(*c, &**d)) {
            *d = *c;
        }
        Ok(())
    }

    /// Counts the limits that this call has reached and not passed.
    fn limits(&mut self) {
        let (t, b) = (&*self.table, &*self.before);
        let mut reached = |now: u32, before: u32, limit: usize, text| {
            if now as usize == limit && before as usize != limit {
                self.counts.hit(text);
            }
        };
        reached(t.offcount, b.offcount, lib::OFF_CHANNELS, "at the limit: off-channels");
        reached(t.oncount, b.oncount, lib::ON_CHANNELS, "at the limit: on-channels");
        let mut lists = |c: [(&lib::OutList, &lib::AckQueue, &lib::Groups, &lib::Bundles); 2]| {
            let [(out, acks, groups, bundles), (out_, acks_, groups_, bundles_)] = c;
            reached(out.len, out_.len, lib::OUT_ENTRIES, "at the limit: out entries");
            reached(acks.len, acks_.len, lib::ACKS, "at the limit: acks");
            reached(groups.len, groups_.len, lib::GROUPS, "at the limit: groups");
            for i in 0..groups.len as usize {
                reached(groups.groups[i].len, groups_.groups[i].len, lib::PLACES, "at the limit: places");
            }
            reached(bundles.len, bundles_.len, lib::BUNDLES, "at the limit: bundles");
            reached(bundles.total, bundles_.total, lib::BUNDLE_HANDLES, "at the limit: handles in bundles");
        };
        for (c, d) in t.offs[..t.offcount as usize].iter().zip(&b.offs) {
            lists([(&c.out, &c.acks, &c.groups, &c.bundles), (&d.out, &d.acks, &d.groups, &d.bundles)]);
        }
        for (c, d) in t.ons[..t.oncount as usize].iter().zip(&b.ons) {
            lists([(&c.out, &c.acks, &c.groups, &c.bundles), (&d.out, &d.acks, &d.groups, &d.bundles)]);
        }
        for (c, d) in t.ons[..t.oncount as usize].iter().zip(&b.ons) {
            reached(c.buffer.len, d.buffer.len, lib::WAITING, "at the limit: buffered");
            reached(c.queue.len, d.queue.len, lib::WAITING, "at the limit: contiguous");
        }
    }

    /// A refused call leaves the table as it was, but for the latest time where it is past check 3.
    fn unchanged(&mut self, time: Option<u64>) -> Played<()> {
        if let Some(time) = time {
            if self.table.latest != time {
                return differs("a refused call's time");
            }
            self.before.latest = time;
        }
        if !same_bytes(&*self.table, &*self.before) && *self.table != *self.before {
            return differs("a refused call changed the table");
        }
        Ok(())
    }

    fn knows(&mut self, key: Key) {
        let keys = match key {
            Key::Off(_) => &mut self.offs,
            Key::On(..) => &mut self.ons,
        };
        if !keys.contains(&key) && self.rust.has(key) {
            keys.push(key);
        }
    }

    /// 01's answer of a channel, from the original.
    fn view(&self, key: Key) -> View {
        let (version, expected) = self.rust.view(key).expect("the channel of an answer");
        match key {
            Key::Off(addr) => View { on: 0, address: shown(&addr), index: 0, version, expected },
            Key::On(addr, index) => View { on: 1, address: shown(&addr), index: index.map_or(0, |i| i.get()), version, expected },
        }
    }

    /// The numbers of the original's rejections since the last asking.
    fn rejections(&mut self) -> Vec<u32> {
        let mut numbers = Vec::new();
        said::each(|text| {
            let number = self.counts.hit(text);
            if number != 0 {
                numbers.push(number);
            }
        });
        numbers
    }

    fn refused(&mut self, code: u32) {
        const TEXTS: [&str; 14] = [
            "",
            "refusal 1",
            "refusal 2",
            "refusal 3",
            "refusal 4",
            "refusal 5",
            "refusal 6",
            "refusal 7",
            "refusal 8",
            "refusal 9",
            "refusal 10",
            "refusal 11",
            "refusal 12",
            "refusal 13",
        ];
        if (1..=13).contains(&code) {
            self.counts.hit(TEXTS[code as usize]);
        }
    }

    /// A call, and its refusal or 0.
    pub fn call(&mut self, call: &Call) -> Played<u32> {
        self.calls += 1;
        let code = match call {
            Call::Accept { time, address, records } => self.accept(*time, *address, records),
            Call::AcceptOut { time, address, record } => self.accept_out(*time, *address, record),
            Call::Channel(key) => self.channel(key),
            Call::NextBundle { key, places } => self.next_bundle(key, *places),
            Call::Prepare { time, key, reliable, handles } => self.prepare(*time, key, *reliable, handles),
            Call::AcksWritten { key, names } => self.acks_written(key, names),
            Call::TakeResends { time, timeout, give_up, places } => self.take_resends(*time, *timeout, *give_up, *places),
            Call::Holds(handle) => self.holds(*handle),
            Call::LastAcceptedPrefix => self.last_accepted_prefix(),
            Call::ResetPrefixOffset => {
                let code = lib::reset_prefix_offset(&mut self.table).err().unwrap_or(0);
                self.rust.reset_prefix_offset();
                self.compare().map(|()| code)
            }
            Call::TransferPrefixOffset => {
                let code = lib::transfer_prefix_offset(&mut self.table).err().unwrap_or(0);
                self.rust.transfer_prefix_offset_from_last_received();
                self.compare().map(|()| code)
            }
        };
        if self.loud {
            println!("{call:?} -> {code:?}");
        }
        if let Ok(code) = code {
            self.refused(code);
        }
        code
    }

    // ---- Deliveries

    fn accept(&mut self, time: u64, a: u32, records: &[Record]) -> Played<u32> {
        self.records += records.len() as u64;
        let refused = match records.last() {
            Some(last) if records.len() <= lib::RECORDS && !judge::bad_record(last) => (time < self.table.latest).then_some(3),
            _ => Some(2),
        };
        self.nested = !self.nested;
        if records.len() == lib::RECORDS {
            self.counts.hit("at the limit: records");
        } else if records.len() > lib::RECORDS {
            self.counts.hit("past the limit: records");
        }
        if records.last().is_some_and(|r| r.ackcount == 8) {
            self.counts.hit("at the limit: acks of a record");
        } else if records.last().is_some_and(|r| r.ackcount > 8) {
            self.counts.hit("past the limit: acks of a record");
        }
        if refused.is_none() && records.len() > 1 {
            return self.accept_several(time, a, records);
        }
        let said = lib::accept(&mut self.table, time, a, records);
        if said.code != 0 && said.view != View::ZERO || said.count != u32::from(said.code == 0) {
            return differs(format!("a delivery's view or count: {said:?}"));
        }
        if let Some(code) = refused {
            if said.code != code {
                return differs(format!("delivery: {} and not {code}", said.code));
            }
            return self.unchanged(None).map(|()| code);
        }
        let key = record_key(a, &records[0]);
        self.record(said.code, time, a, &records[0], true)?;
        if said.code == 0 && said.view != self.view(key) {
            return differs(format!("a delivery's view: {:?} and not {:?}", said.view, self.view(key)));
        }
        if judge::ADDED.contains(&said.code) {
            self.unchanged(Some(time))?;
        } else if self.table.latest != time {
            return differs("the latest time");
        }
        self.compare().map(|()| said.code)
    }

    /// Several records: the library's answer must be that of the records one by one.
    fn accept_several(&mut self, time: u64, a: u32, records: &[Record]) -> Played<u32> {
        *self.spare = *self.table;
        let mut codes = Vec::new();
        let mut last = View::ZERO;
        self.beside += records.len() as u64;
        for r in records {
            let one = lib::accept(&mut self.spare, time, a, std::slice::from_ref(r));
            if judge::bad_record(r) != (one.code == 2) {
                return differs(format!("a malformed record: {}", one.code));
            }
            codes.push(one.code);
            last = one.view;
        }
        let whole = lib::accept(&mut self.table, time, a, records);
        let granted = codes.iter().filter(|c| **c == 0).count() as u32;
        if (whole.code, whole.count, whole.view) != (codes[codes.len() - 1], granted, last) {
            return differs(format!("a delivery of several: {whole:?}, one by one {codes:?}"));
        }
        if !same_bytes(&*self.table, &*self.spare) && *self.table != *self.spare {
            return differs("a delivery of several leaves another table than one by one");
        }
        if codes.iter().any(|c| judge::ADDED.contains(c)) {
            self.counts.hit("a delivery with a record that only the port refuses");
            codes[..codes.len() - 1].iter().for_each(|code| self.refused(*code));
            for (code, r) in codes.iter().zip(records).filter(|(c, _)| **c != 2) {
                self.record(*code, time, a, r, false)?;
            }
            if whole.code == 0 && whole.view != self.view(record_key(a, &records[records.len() - 1])) {
                return differs("a delivery's view");
            }
        } else {
            self.piggybacked(&codes, time, a, records)?;
            if whole.code == 0 && whole.view != self.view(record_key(a, &records[records.len() - 1])) {
                return differs("a delivery's view");
            }
        }
        self.compare_after(false).map(|()| whole.code)
    }

    /// One packet that carries the others, put to the original. Where it panics at a run that the port drops, the records are put to
    /// it again one by one.
    fn piggybacked(&mut self, codes: &[u32], time: u64, a: u32, records: &[Record]) -> Played<()> {
        clock::set(time);
        let mut packets: Vec<Packet> = records.iter().map(packet_of).collect();
        let mut carrier = packets.pop().expect("a last record");
        if self.nested {
            self.counts.hit("a delivery one inside the other");
            let inner = packets.into_iter().reduce(|inner, mut p| {
                p.piggybacks = [inner].into();
                p
            });
            carrier.piggybacks = inner.into_iter().collect();
        } else {
            self.counts.hit("a delivery of several, side by side");
            carrier.piggybacks = packets.into();
        }
        let ranged = self.rust.ranged_waits() || records.iter().any(|r| r.ranged == 1);
        let copy = ranged.then(|| self.rust.copy());
        let ran = catch_unwind(AssertUnwindSafe(|| self.rust.accept(carrier, address(a)).is_ok()));
        let rejected = self.rejections();
        let granted = match ran {
            Ok(granted) => granted,
            Err(e) => {
                let text = panic_text(e);
                let (UNWRAPPED, Some(copy)) = (text.as_str(), copy) else {
                    return differs(format!("the original panics: {text}"));
                };
                self.rust = copy;
                return codes.iter().zip(records).try_for_each(|(code, r)| self.record(*code, time, a, r, false));
            }
        };
        let expected: Vec<u32> = codes.iter().copied().filter(|c| *c != 0).collect();
        if rejected != expected || granted != (codes[codes.len() - 1] == 0) {
            return differs(format!("rejections of a delivery: {expected:?}, the original has {rejected:?}"));
        }
        for r in records {
            self.knows(record_key(a, r));
        }
        Ok(())
    }

    /// The original's record; its answer, and whether it panicked at a run that the port drops.
    fn accept_in(rust: &mut Protocol, key: Key, a: u32, r: &Record) -> Result<(bool, bool), String> {
        let mut ran = catch_unwind(AssertUnwindSafe(|| rust.accept(packet_of(r), address(a)).is_ok())).map_err(panic_text);
        let mut dropped = false;
        while matches!(&ran, Err(text) if text == UNWRAPPED) {
            dropped = true;
            ran = catch_unwind(AssertUnwindSafe(|| rust.drop_run(key))).map(|()| true).map_err(panic_text);
        }
        ran.map(|granted| (granted, dropped))
    }

    /// One record that got this code from the library, put to the original or, where only the port refuses it, judged. The rules that
    /// it follows are counted where it came alone.
    fn record(&mut self, code: u32, time: u64, a: u32, r: &Record, alone: bool) -> Played<()> {
        clock::set(time);
        let key = record_key(a, r);
        if judge::ADDED.contains(&code) {
            return self.judge_record(code, key, a, r);
        }
        let facts = if alone && code == 0 { self.facts(key, time, r) } else { [None; 4] };
        let ran = Self::accept_in(&mut self.rust, key, a, r);
        let rejected = self.rejections();
        match ran {
            Err(text) => return differs(format!("the original panics: {text}")),
            Ok((true, dropped)) if code == 0 && rejected.is_empty() => {
                if dropped {
                    self.counts.hit("the original panics at a run that the port drops");
                }
            }
            Ok((false, _)) if rejected == [code] => (),
            Ok((granted, _)) => return differs(format!("record: {code}, the original {granted} {rejected:?}")),
        }
        self.knows(key);
        facts.into_iter().flatten().for_each(|text| _ = self.counts.hit(text));
        Ok(())
    }

    /// Rules that the original says nothing of, told from the state before the record.
    fn facts(&self, key: Key, time: u64, r: &Record) -> [Option<&'static str>; 4] {
        let t = &*self.before;
        let known = self.rust.has(key);
        let versions = match self.rust.view(key) {
            Some((stored, _)) if r.on == 1 && r.indexed == 1 => Some(match r.version.cmp(&stored) {
                std::cmp::Ordering::Less => "version: lower",
                std::cmp::Ordering::Equal => "version: the same",
                std::cmp::Ordering::Greater => "version: higher, and not stored",
            }),
            _ => None,
        };
        let made = (!known).then_some(match (r.on, r.indexed) {
            (0, _) => "made: an off-channel",
            (_, 0) => "made: an on-channel",
            _ => "made: an indexed channel",
        });
        let on = t.ons[..t.oncount as usize].iter().find(|c| known && r.on == 1 && key == key_of_on(c));
        let off = t.offs[..t.offcount as usize].iter().find(|c| known && r.on == 0 && key == Key::Off(address(c.address)));
        if r.on == 1 && r.reliable == 1 {
            let (expected, source) = on.map_or((0, 0), |c| (c.expected, c.source));
            let reorder = match seq(r.number).wrapping_cmp(seq(expected)) {
                std::cmp::Ordering::Equal => "reorder: Equal",
                std::cmp::Ordering::Less => "reorder: Less, dropped",
                std::cmp::Ordering::Greater => match on.map_or(&[][..], |c| &c.buffer.packets[..c.buffer.len as usize]) {
                    b if b.iter().any(|p| p.number == r.number) => "reorder: Greater, a repeat",
                    [] => "reorder: Greater, into an empty buffer",
                    b => match b.iter().filter(|p| seq(r.number).wrapping_cmp(seq(p.number)).is_gt()).count() {
                        0 => "reorder: Greater, in front",
                        n if n == b.len() => "reorder: Greater, at the end",
                        _ => "reorder: Greater, in between",
                    },
                },
            };
            let far = (r.number.wrapping_sub(expected) & lib::MASK == 1 << 27).then_some("reorder: at half the circle");
            let observed = (t.forwarding == 1).then_some(match seq(r.number + 1 & lib::MASK).wrapping_cmp(seq(source)) {
                std::cmp::Ordering::Greater => "observe: moves",
                _ => "observe: stays",
            });
            return [versions.or(made), Some(reorder), far, observed];
        }
        let last = (r.haslast == 1).then_some("last reliable number as expected");
        if r.ranged == 0 {
            return [versions.or(made), last, Some("no range: a bundle of one"), None];
        }
        let groups = on.map(|c| &c.groups).or(off.map(|c| &c.groups));
        let group = groups.and_then(|g| g.groups[..g.len as usize].iter().find(|g| g.first == r.first));
        let place = (r.number.wrapping_sub(r.first) & lib::MASK) as usize;
        let group = match group {
            None if r.first == r.last => "group: made, of length 1, and no bundle",
            None => "group: made",
            Some(g) if time - g.updated > 10_000 => "group: older than 10,000, dropped",
            Some(g) if g.marks[place] == 0 && g.count + 1 == g.len => "group: filled, a bundle",
            Some(g) if g.marks[place] == 1 => "group: a place replaced",
            Some(g) if time - g.updated == 10_000 => "group: stored at age 10,000",
            Some(_) => "group: stored",
        };
        [versions.or(made), last, Some(group), None]
    }

    /// 4, 10 or 11, judged by the original's own record on a copy of it.
    fn judge_record(&mut self, code: u32, key: Key, a: u32, r: &Record) -> Played<()> {
        let length = (r.last.wrapping_sub(r.first) & lib::MASK) + 1;
        let place = r.number.wrapping_sub(r.first) & lib::MASK;
        let grouped = r.ranged == 1 && !(r.on == 1 && r.reliable == 1);
        let long = grouped && length > LONGEST && !self.rust.has_group(key, seq(r.first));
        let mut plain = *r;
        plain.ranged = if long { 0 } else { r.ranged };
        let mut copy = self.rust.copy();
        let ran = Self::accept_in(&mut copy, key, a, &plain).map(|(granted, _)| granted);
        said::each(|_| ());
        let over = copy.over();
        let full = over.iter().any(|&l| l < 2);
        let right = match (&ran, code) {
            _ if full => code == 4,
            (Ok(true), _) if long => code == if place >= length { 10 } else { 11 },
            (Ok(true), 11) => !over.is_empty(),
            (Err(text), 10) => text.starts_with(BEYOND),
            _ => false,
        };
        if !right {
            return differs(format!("refusal {code} of a record; the original {ran:?}, over {over:?}, range {long}"));
        }
        if code == 4 || code == 11 {
            over.into_iter().for_each(|l| self.past(l));
            if long {
                self.past(7);
            }
        }
        Ok(())
    }

    fn past(&mut self, limit: usize) {
        const TEXTS: [&str; 10] = [
            "past the limit: off-channels",
            "past the limit: on-channels",
            "past the limit: out entries",
            "past the limit: acks",
            "past the limit: buffered",
            "past the limit: contiguous",
            "past the limit: groups",
            "past the limit: places",
            "past the limit: bundles",
            "past the limit: handles in bundles",
        ];
        self.counts.hit(TEXTS[limit]);
    }

    // ---- The other calls

    fn accept_out(&mut self, time: u64, a: u32, r: &Record) -> Played<u32> {
        let refused = if judge::bad_record(r) { Some(2) } else { (time < self.table.latest).then_some(3) };
        let said = lib::accept_out(&mut self.table, time, a, r);
        let code = said.code;
        if code != 0 && said.answer != View::ZERO {
            return differs("accept_out's view where it is refused");
        }
        if let Some(must) = refused {
            if code != must {
                return differs(format!("accept_out: {code} and not {must}"));
            }
            return self.unchanged(None).map(|()| code);
        }
        clock::set(time);
        let key = record_key(a, r);
        if judge::ADDED.contains(&code) {
            let mut copy = self.rust.copy();
            copy.accept_out(&packet_of(r), address(a));
            said::each(|_| ());
            let over = copy.over();
            if over.is_empty() || (code == 4) != over.iter().any(|&l| l < 2) || !matches!(code, 4 | 11) {
                return differs(format!("accept_out: {code}, the original over {over:?}"));
            }
            over.into_iter().for_each(|l| self.past(l));
            return self.unchanged(Some(time)).map(|()| code);
        }
        let granted = self.rust.accept_out(&packet_of(r), address(a));
        let rejected = self.rejections();
        if granted != (code == 0) || rejected.first().copied().unwrap_or(0) != code {
            return differs(format!("accept_out: {code}, the original {granted} {rejected:?}"));
        }
        self.knows(key);
        if code == 0 && said.answer != self.view(key) {
            return differs("accept_out's view");
        }
        if self.table.latest != time {
            return differs("the latest time");
        }
        if code == 0 {
            self.counts.hit(if r.reliable == 1 { "forwarded out: reliable" } else { "forwarded out: acks alone" });
            if r.hascumulative == 1 {
                self.counts.hit("forwarded out: a cumulative ack");
            }
            if r.ackcount > 0 {
                self.counts.hit("forwarded out: single acks");
            }
        }
        self.compare().map(|()| code)
    }

    fn channel(&mut self, k: &LibKey) -> Played<u32> {
        let said = lib::channel(&mut self.table, k);
        let code = said.code;
        if code != 0 && said.answer != View::ZERO {
            return differs("find's view where it is refused");
        }
        if judge::bad_key(k) {
            return if code == 2 { self.unchanged(None).map(|()| 2) } else { differs(format!("channel: {code} and not 2")) };
        }
        let key = key_of(k);
        if code != 0 {
            let room = match key {
                Key::Off(_) => self.offs.len() < lib::OFF_CHANNELS,
                Key::On(..) => self.ons.len() < lib::ON_CHANNELS,
            };
            if code != 4 || room || self.rust.has(key) {
                return differs(format!("channel: {code}"));
            }
            self.past(usize::from(k.on == 1));
            return self.unchanged(None).map(|()| code);
        }
        self.counts.hit(if self.rust.has(key) { "find: there" } else { "find: made" });
        match key {
            Key::Off(addr) => _ = self.rust.off_channel(addr),
            Key::On(addr, index) => _ = self.rust.channel(addr, index),
        }
        self.rejections();
        self.knows(key);
        if said.answer != self.view(key) {
            return differs("find's view");
        }
        self.compare().map(|()| 0)
    }

    fn lend(&mut self, places: usize) -> Vec<u32> {
        let mut lent = std::mem::take(&mut self.lent);
        lent.clear();
        lent.resize(places, UNTOUCHED);
        lent
    }

    fn next_bundle(&mut self, k: &LibKey, places: usize) -> Played<u32> {
        let mut lent = self.lend(places);
        let said = lib::next_bundle(&mut self.table, k, &mut lent);
        let code = said.err().unwrap_or(0);
        let key = key_of(k);
        let must = match () {
            _ if judge::bad_key(k) => 2,
            _ if !self.rust.has(key) => 13,
            _ if self.rust.next_length(key).is_some_and(|n| n > places) => 12,
            _ => 0,
        };
        if code != must {
            return differs(format!("next_bundle: {code} and not {must}"));
        }
        let mut expected = vec![UNTOUCHED; places];
        if code != 0 {
            self.unchanged(None)?;
        } else {
            let bundle = match key {
                Key::Off(addr) => self.rust.off_channel(addr).next_bundle(),
                Key::On(addr, index) => self.rust.channel(addr, index).next_bundle(),
            };
            if said != Ok(bundle.as_ref().map(|b| b.len() as u32)) {
                return differs(format!("next_bundle: {said:?}, the original has {:?}", bundle.map(|b| b.len())));
            }
            self.counts.hit(match &bundle {
                None => "next bundle: none",
                Some(b) if b.len() == places => "next bundle: fills the lent list",
                Some(b) if b.len() == 1 => "next bundle: of one",
                Some(_) => "next bundle: of several",
            });
            for (place, p) in expected.iter_mut().zip(bundle.iter().flat_map(|b| b.iter())) {
                *place = p.handle;
            }
        }
        if lent != expected {
            return differs(format!("next_bundle's lent list: {lent:?} and not {expected:?}"));
        }
        self.lent = lent;
        self.compare().map(|()| code)
    }

    fn prepare(&mut self, time: u64, k: &LibKey, reliable: u32, h: &Handles) -> Played<u32> {
        let said = lib::prepare(&mut self.table, time, k, reliable, h);
        let code = said.code;
        if code != 0 && said.answer != lib::Prepared::ZERO {
            return differs("prepare's answer where it is refused");
        }
        let key = key_of(k);
        let count = h.count as usize;
        let full = reliable == 1 && self.rust.out_length(key) + count > lib::OUT_ENTRIES;
        if count == lib::HANDLES {
            self.counts.hit("at the limit: handles of a send");
        } else if count == lib::HANDLES + 1 {
            self.counts.hit("past the limit: handles of a send");
        }
        let must = match () {
            _ if judge::bad_key(k) || reliable > 1 || count > lib::HANDLES => 2,
            _ if time < self.before.latest => 3,
            _ if !self.rust.has(key) => 13,
            _ if full => 11,
            _ => 0,
        };
        if code != must {
            return differs(format!("prepare: {code} and not {must}"));
        }
        if code != 0 {
            if code == 11 {
                self.past(2);
            }
            return self.unchanged((code > 3).then_some(time)).map(|()| code);
        }
        clock::set(time);
        let mut bundle = Bundle::default();
        let packet = |&handle| Packet { handle, sent_on: Some(key), ..Packet::default() };
        bundle.packets = h.handles[..count].iter().map(packet).collect();
        match key {
            Key::Off(addr) => self.rust.off_channel(addr).prepare(&mut bundle, reliable == 1),
            Key::On(addr, index) => self.rust.channel(addr, index).prepare(&mut bundle, reliable == 1),
        }
        self.rejections();
        let c = &bundle.config;
        let (index, version) = c.indexed_channel.map_or((0, 0), |(i, v)| (i.get(), v.get()));
        let expected = lib::Prepared {
            allocated: c.sequence_num.is_some().into(),
            first: c.sequence_num.map_or(0, |n| n.get()),
            on: c.on_channel.into(),
            expected: c.cumulative_ack.map_or(0, |n| n.get()),
            index,
            version,
            offset: bundle.prefix_offset,
        };
        if said.answer != expected {
            return differs(format!("prepare: {said:?} and not {expected:?}"));
        }
        self.counts.hit(match (reliable, count, k.on) {
            (1, 0, _) => "send: reliable, of none",
            (1, _, 0) => "send: reliable, off-channel",
            (1, ..) => "send: reliable, on-channel",
            (_, 0 | 1, _) => "send: nothing allocated",
            _ => "send: unreliable, allocated",
        });
        if self.table.latest != time {
            return differs("the latest time");
        }
        self.compare().map(|()| 0)
    }

    fn acks_written(&mut self, k: &LibKey, n: &Names) -> Played<u32> {
        let said = lib::acks_written(&mut self.table, k, n);
        let code = said.err().unwrap_or(0);
        let key = key_of(k);
        let names = &n.numbers[..(n.count as usize).min(lib::ACKS)];
        let legal = n.count as usize <= lib::ACKS && names.iter().all(|n| *n <= lib::MASK);
        let bad = judge::bad_key(k) || !legal;
        let seqs: Vec<Seq> = if bad { Vec::new() } else { names.iter().map(|&n| seq(n)).collect() };
        let front = self.rust.acks(key).is_some_and(|a| a.len() >= seqs.len() && a.iter().zip(&seqs).all(|(a, b)| a == b));
        let must = match () {
            _ if bad => 2,
            _ if !self.rust.has(key) => {
                if seqs.is_empty() {
                    13
                } else {
                    2
                }
            }
            // At the front they leave as the original writes them: by a `prepare` of no packets.
            _ if front => {
                let mut bundle = Bundle { acks_written: seqs.len(), ..Bundle::default() };
                match key {
                    Key::Off(addr) => self.rust.off_channel(addr).prepare(&mut bundle, false),
                    Key::On(addr, index) => self.rust.channel(addr, index).prepare(&mut bundle, false),
                }
                self.rejections();
                self.counts.hit("acks written: from the front");
                0
            }
            _ if self.rust.take_acks(key, &seqs) => {
                self.counts.hit("acks written: from anywhere");
                0
            }
            _ => {
                self.counts.hit("acks written: one is lacking");
                2
            }
        };
        if code != must {
            return differs(format!("acks_written: {code} and not {must}"));
        }
        if code == 0 && names.len() == lib::ACKS {
            self.counts.hit("at the limit: acks written");
        } else if n.count as usize == lib::ACKS + 1 {
            self.counts.hit("past the limit: acks written");
        }
        if code != 0 {
            self.unchanged(None)?;
        }
        self.compare().map(|()| code)
    }

    fn take_resends(&mut self, time: u64, timeout: u64, give_up: u64, places: usize) -> Played<u32> {
        let mut lent = self.lend(places);
        let said = lib::take_resends(&mut self.table, time, timeout, give_up, &mut lent);
        let code = said.err().unwrap_or(0);
        let mut expected = vec![UNTOUCHED; places];
        if time < self.before.latest {
            if code != 3 || lent != expected {
                return differs(format!("take_resends: {code} and not 3"));
            }
            return self.unchanged(None).map(|()| 3);
        }
        clock::set(time);
        let (wait, end) = (Duration::from_millis(timeout), Duration::from_millis(give_up));
        let rows = match code {
            0 => self.rust.take_resends(wait, end),
            _ => self.rust.copy().take_resends(wait, end),
        };
        self.rejections();
        if code != 0 {
            if code != 12 || 2 * rows.len() <= places || lent != expected {
                return differs(format!("take_resends: {code}, {} rows, {places} places", rows.len()));
            }
            return self.unchanged(Some(time)).map(|()| code);
        }
        if said != Ok(rows.len() as u32) || 2 * rows.len() > places {
            return differs(format!("take_resends: {said:?}, {} rows", rows.len()));
        }
        // The original's order is that of a hash map: within a channel it must be the same, and channels come by kind in
        // order of creation.
        let keys = self.offs.iter().chain(&self.ons);
        let sorted = keys.flat_map(|key| rows.iter().filter(move |(_, p)| p.sent_on == Some(*key)));
        let mut count = 0;
        for (i, (addr, p)) in sorted.enumerate() {
            (expected[2 * i], expected[2 * i + 1]) = (shown(addr), p.handle);
            count += 1;
        }
        if count != rows.len() || lent != expected {
            return differs(format!("take_resends' rows: {lent:?} and not {expected:?}"));
        }
        self.counts.hit(match rows.len() {
            0 => "resends: none",
            n if 2 * n == places => "resends: fill the lent list",
            _ => "resends: some",
        });
        if self.table.latest != time {
            return differs("the latest time");
        }
        self.lent = lent;
        self.compare().map(|()| 0)
    }

    fn holds(&mut self, handle: u32) -> Played<u32> {
        let said = lib::holds(&self.table, handle);
        let held = self.rust.holds(handle);
        if said != Ok(held) {
            return differs(format!("holds {handle}: {said:?} and not {held}"));
        }
        self.counts.hit(if held { "a handle that is held" } else { "a handle that is not held" });
        Ok(0)
    }

    fn last_accepted_prefix(&mut self) -> Played<u32> {
        let said = lib::last_accepted_prefix(&self.table);
        if said != Ok(self.rust.last_accepted_prefix()) {
            return differs(format!("last_accepted_prefix: {said:?}"));
        }
        if !lib::well_formed(&self.table) {
            return differs("a table of a history is not well formed");
        }
        Ok(0)
    }
}

fn key_of_on(c: &lib::OnChannel) -> Key {
    Key::On(address(c.address), NonZero::new(c.index))
}
