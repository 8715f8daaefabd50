//! Tables that are not well formed: each word of a well-formed table changed, one at a time, and several at random. Every call must
//! answer 1 and leave the table byte for byte; whether a changed table is well formed is judged in plain Rust (`judge`).

use crate::draw::Random;
use crate::library::*;
use crate::{judge, same_bytes};

#[derive(Default, Debug)]
pub struct Broken {
    pub changed: u64,
    pub malformed: u64,
    pub calls: u64,
    /// Words of the table of which some change was refused.
    pub words: usize,
}

const WORDS: usize = size_of::<Table>() / 4;

/// Whether a word of the table lies in a field. The others are padding, which means nothing.
fn in_a_field() -> Vec<bool> {
    let mut filled = vec![false; WORDS];
    let mut fill = |at: usize, len: usize| filled[at / 4..(at + len) / 4].fill(true);
    let mut lists = |at: usize, out: usize, acks: usize, groups: usize, bundles: usize| {
        fill(at + out, 4);
        (0..OUT_ENTRIES).for_each(|i| fill(at + out + 8 + i * size_of::<OutEntry>(), 28));
        fill(at + acks, size_of::<AckQueue>());
        fill(at + groups, 4);
        (0..GROUPS).for_each(|i| fill(at + groups + 8 + i * size_of::<Fragments>(), 276));
        fill(at + bundles, size_of::<Bundles>());
    };
    for i in 0..OFF_CHANNELS {
        let at = std::mem::offset_of!(Table, offs) + i * size_of::<OffChannel>();
        use std::mem::offset_of as o;
        lists(at, o!(OffChannel, out), o!(OffChannel, acks), o!(OffChannel, groups), o!(OffChannel, bundles));
    }
    for i in 0..ON_CHANNELS {
        let at = std::mem::offset_of!(Table, ons) + i * size_of::<OnChannel>();
        use std::mem::offset_of as o;
        lists(at, o!(OnChannel, out), o!(OnChannel, acks), o!(OnChannel, groups), o!(OnChannel, bundles));
    }
    fill(0, 32);
    for i in 0..OFF_CHANNELS {
        fill(std::mem::offset_of!(Table, offs) + i * size_of::<OffChannel>(), 4);
    }
    for i in 0..ON_CHANNELS {
        let at = std::mem::offset_of!(Table, ons) + i * size_of::<OnChannel>();
        fill(at, 20);
        fill(at + std::mem::offset_of!(OnChannel, buffer), 2 * size_of::<Waiting>());
    }
    filled
}

fn word(t: &mut Table, i: usize) -> &mut u32 {
    assert!(i < WORDS);
    // SAFETY: the table is made of u32 and u64 fields, `i` is inside it, and every bit pattern is a value.
    unsafe { &mut *(t as *mut Table).cast::<u32>().add(i) }
}

/// Every call on a table that is not well formed.
fn refuse(t: &mut Table, random: &mut Random) -> Result<u64, String> {
    let before = t.clone();
    let key = Key { address: 7, on: random.upto(0, 1), ..Key::ZERO };
    let record = Record { on: key.on, number: random.upto(0, 3), reliable: 1, ..Record::ZERO };
    let bad = Record { number: u32::MAX, ..record };
    let time = random.pick(&[0, t.latest, u64::MAX]);
    let several = [record; 3];
    let mut lent = [9u32; 64];
    let handles = Handles { count: 1, ..Handles::ZERO };
    let names = Names { count: random.upto(0, 65), ..Names::ZERO };
    let mut said: Vec<(&str, u32)> = Vec::new();
    let mut put = |call, code| said.push((call, code));
    for (records, call) in [
        (&several[..1], "accept"),
        (&several[..], "accept several"),
        (&[bad][..], "accept a malformed record"),
        (&[][..], "accept none"),
    ] {
        let one = accept(t, time, 7, records);
        put(call, if one.count == 0 && one.view == View::ZERO { one.code } else { 0 });
    }
    put("accept_out", accept_out(t, time, 7, &record).code);
    put("channel", channel(t, &key).code);
    put("channel of a bad key", channel(t, &Key { on: 2, ..key }).code);
    put("next_bundle", next_bundle(t, &key, &mut lent).err().unwrap_or(0));
    put("prepare", prepare(t, time, &key, 1, &handles).code);
    put("acks_written", acks_written(t, &key, &names).err().unwrap_or(0));
    put("take_resends", take_resends(t, time, 0, 0, &mut lent).err().unwrap_or(0));
    put("holds", holds(t, 1).err().unwrap_or(0));
    put("last_accepted_prefix", last_accepted_prefix(t).err().unwrap_or(0));
    put("reset_prefix_offset", reset_prefix_offset(t).err().unwrap_or(0));
    put("transfer_prefix_offset", transfer_prefix_offset(t).err().unwrap_or(0));
    if let Some((call, code)) = said.iter().find(|(_, code)| *code != 1) {
        return Err(format!("{call} answers {code} on a malformed table"));
    }
    if !same_bytes(t, &before) {
        return Err("a call refused with 1 changed the table".into());
    }
    if lent != [9; 64] {
        return Err("a call refused with 1 wrote to its lent list".into());
    }
    Ok(said.len() as u64)
}

fn test(t: &mut Table, random: &mut Random, b: &mut Broken) -> Result<bool, String> {
    b.changed += 1;
    let good = judge::well_formed(t);
    if well_formed(t) != good {
        return Err(format!("well_formed says {}", !good));
    }
    if !good {
        b.malformed += 1;
        b.calls += refuse(t, random)?;
    }
    Ok(!good)
}

/// Each word of the table in turn, and then `several` times a few at once.
pub fn run(t: &Table, several: u32, random: &mut Random, b: &mut Broken) -> Result<(), String> {
    let fields = in_a_field();
    let mut c = vec![*t].pop().map(Box::new).expect("one");
    if !judge::well_formed(t) || !well_formed(t) {
        return Err("a history's table is not well formed".into());
    }
    let mut refused = 0;
    for (i, _) in fields.iter().enumerate().filter(|(_, field)| **field) {
        let old = *word(&mut c, i);
        let mut any = false;
        let near = [old ^ 1, old.wrapping_add(1), old.wrapping_sub(1), random.next() as u32];
        let edges = [0, 1, 2, 5, 9, 17, 33, 65, MASK, MASK + 1, u32::MAX];
        let values: Vec<u32> = near.into_iter().chain(edges).collect();
        for (k, &value) in values.iter().enumerate() {
            if value == old || values[..k].contains(&value) {
                continue;
            }
            *word(&mut c, i) = value;
            any |= test(&mut c, random, b).map_err(|e| format!("word {i}, {old:#x} made {value:#x}: {e}"))?;
        }
        *word(&mut c, i) = old;
        refused += usize::from(any);
    }
    b.words = b.words.max(refused);
    // Buffered numbers at the edges of what may be buffered.
    for on in 0..t.oncount as usize {
        for k in 0..t.ons[on].buffer.len as usize {
            for distance in [0, 1, (1 << 27) - 1, 1 << 27, (1 << 27) + 1, MASK] {
                *c = *t;
                c.ons[on].buffer.packets[k].number = t.ons[on].expected.wrapping_add(distance) & MASK;
                test(&mut c, random, b).map_err(|e| format!("on-channel {on}, buffered {k} at {distance:#x}: {e}"))?;
            }
        }
    }
    let places: Vec<usize> = (0..WORDS).filter(|i| fields[*i]).collect();
    for k in 0..several {
        *c = *t;
        for _ in 0..random.upto(1, 6) {
            let value = random.next() as u32 >> random.upto(0, 31);
            *word(&mut c, random.pick(&places)) = value;
        }
        test(&mut c, random, b).map_err(|e| format!("random change {k}: {e}"))?;
    }
    Ok(())
}
