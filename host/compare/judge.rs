//! What is judged from the arguments and the table alone, in plain Rust after 01: fields out of range, and well-formed tables.

use crate::library::*;

/// The refusals that the port adds, but for 1.
pub const ADDED: [u32; 7] = [2, 3, 4, 10, 11, 12, 13];

pub fn bad_record(r: &Record) -> bool {
    [r.on, r.indexed, r.reliable, r.ranged, r.hascumulative, r.haslast].iter().any(|f| *f > 1)
        || r.number > MASK
        || (r.on == 1 && r.indexed == 1 && (r.index == 0 || r.version == 0))
        || (r.ranged == 1 && (r.first > MASK || r.last > MASK))
        || (r.hascumulative == 1 && r.cumulative > MASK)
        || (r.haslast == 1 && r.lastreliable > MASK)
        || r.ackcount as usize > RECORD_ACKS
        || r.acks[..r.ackcount as usize].iter().any(|n| *n > MASK)
}

pub fn bad_key(k: &Key) -> bool {
    k.on > 1 || k.indexed > 1 || (k.on == 1 && k.indexed == 1 && k.index == 0)
}

/// A list's length keeps its limit, and what is past it is zero.
fn list<T: PartialEq + Copy>(len: u32, all: &[T], zero: T) -> Option<&[T]> {
    let (used, rest) = all.split_at_checked(len as usize)?;
    rest.iter().all(|x| *x == zero).then_some(used)
}

fn distinct<T: PartialEq>(all: &[T]) -> bool {
    all.iter().enumerate().all(|(i, x)| !all[..i].contains(x))
}

fn good_out(l: &OutList, latest: u64) -> bool {
    list(l.len, &l.entries, OutEntry::ZERO).is_some_and(|entries| {
        entries
            .iter()
            .all(|e| e.number <= MASK && e.held <= 1 && (e.held == 1 || e.handle == 0) && e.time <= e.sent && e.sent <= latest)
    })
}

fn good_acks(q: &AckQueue) -> bool {
    list(q.len, &q.numbers, 0).is_some_and(|numbers| numbers.iter().all(|n| *n <= MASK))
}

fn good_groups(l: &Groups, latest: u64) -> bool {
    list(l.len, &l.groups, Fragments::ZERO).is_some_and(|groups| {
        let firsts: Vec<u32> = groups.iter().map(|g| g.first).collect();
        distinct(&firsts)
            && groups.iter().all(|g| {
                let marks = list(g.len, &g.marks, 0);
                g.first <= MASK
                    && g.updated <= latest
                    && marks.is_some_and(|m| m.iter().all(|m| *m <= 1) && m.iter().sum::<u32>() == g.count)
                    && g.marks.iter().zip(&g.handles).all(|(m, h)| *m == 1 || *h == 0)
            })
    })
}

fn good_bundles(b: &Bundles) -> bool {
    list(b.len, &b.lengths, 0).is_some_and(|lengths| {
        let total: u64 = lengths.iter().map(|n| u64::from(*n)).sum();
        total == u64::from(b.total) && list(b.total, &b.handles, 0).is_some()
    })
}

fn good_packets(w: &Waiting) -> Option<&[Packet]> {
    list(w.len, &w.packets, Packet::ZERO).filter(|packets| {
        packets.iter().all(|p| {
            p.number <= MASK && p.ranged <= 1 && p.first <= MASK && p.last <= MASK && (p.ranged == 1 || (p.first, p.last) == (0, 0))
        })
    })
}

fn good_buffer(w: &Waiting, expected: u32) -> bool {
    good_packets(w).is_some_and(|packets| {
        let mut least = 1;
        packets.iter().all(|p| {
            let distance = p.number.wrapping_sub(expected) & MASK;
            let good = least <= distance && distance <= 1 << 27;
            least = distance + 1;
            good
        })
    })
}

fn good_queue(w: &Waiting, expected: u32) -> bool {
    good_packets(w).is_some_and(|packets| {
        let last = packets.len() as u32;
        packets.iter().enumerate().all(|(i, p)| p.number == expected.wrapping_sub(last).wrapping_add(i as u32) & MASK)
    })
}

/// 01: "A table is well formed if ..".
pub fn well_formed(t: &Table) -> bool {
    let Some(offs) = list(t.offcount, &t.offs, OffChannel::ZERO) else { return false };
    let Some(ons) = list(t.oncount, &t.ons, OnChannel::ZERO) else { return false };
    let off_keys: Vec<u32> = offs.iter().map(|c| c.address).collect();
    let on_keys: Vec<(u32, u32)> = ons.iter().map(|c| (c.address, c.index)).collect();
    t.forwarding <= 1
        && t.source <= MASK
        && distinct(&off_keys)
        && distinct(&on_keys)
        && offs.iter().all(|c| {
            good_out(&c.out, t.latest) && good_acks(&c.acks) && good_groups(&c.groups, t.latest) && good_bundles(&c.bundles)
        })
        && ons.iter().all(|c| {
            (c.index == 0) == (c.version == 0)
                && c.expected <= MASK
                && c.source <= MASK
                && good_out(&c.out, t.latest)
                && good_acks(&c.acks)
                && good_groups(&c.groups, t.latest)
                && good_bundles(&c.bundles)
                && good_buffer(&c.buffer, c.expected)
                && good_queue(&c.queue, c.expected)
        })
}
