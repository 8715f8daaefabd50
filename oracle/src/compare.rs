//! The original's answers, and the comparison with the library's.

use std::cmp::Ordering;

use crate::inputs::{Random, SPAN, edges, pairs, product, triples};
use crate::library::{Call, EXPORTED, Function, Words, shown};
use crate::original::packet::Packet;
use crate::original::seq::{Seq, SeqAlloc};

/// What the library answers where an argument is no legal number: the top bit and refusal 2.
const ILLEGAL: u32 = 0x8000_0002;

/// Random inputs for each function.
const RANDOM: u64 = 20_000_000;

/// The random inputs of function k start from this plus k.
const SEED: u64 = 0x1982_0028;

fn one(a: u32, f: impl Fn(Seq) -> u32) -> u32 {
    Seq::new(a).map_or(ILLEGAL, f)
}

fn two(a: u32, b: u32, f: impl Fn(Seq, Seq) -> u32) -> u32 {
    one(a, |a| one(b, |b| f(a, b)))
}

/// What is next after a call: the number that an `alloc` of none answers.
fn next_after(next: Seq, call: impl Fn(&mut SeqAlloc)) -> u32 {
    let mut source = SeqAlloc::new(next);
    call(&mut source);
    source.alloc(0).get()
}

/// The original's answer to each exported function, in the order of `EXPORTED`.
const ORIGINAL: [Call; EXPORTED.len()] = [
    |w| {
        two(w[0], w[1], |a, b| match a.wrapping_cmp(b) {
            Ordering::Equal => 0,
            Ordering::Greater => 1,
            Ordering::Less => 2,
        })
    },
    |w| one(w[0], |a| (a + w[1]).get()),
    |w| one(w[0], |a| (a - w[1]).get()),
    |w| two(w[0], w[1], |a, b| a - b),
    |w| {
        let mut packet = Packet::with_words(w[1], w[2]);
        packet.update_prefix(w[0]);
        packet.read_prefix()
    },
    |w| one(w[0], |a| SeqAlloc::new(a).alloc(w[1]).get()),
    |w| one(w[0], |a| next_after(a, |s| _ = s.alloc(w[1]))),
    |w| two(w[0], w[1], |a, b| next_after(a, |s| s.observe(b))),
];

/// Functions that are wrong on purpose: the pairs must tell each from the original's.
const WRONG: [(usize, &str, Call); 8] = [
    (0, "Less at a distance of 2^27", |w| {
        if w[0] ^ w[1] == 1 << 27 {
            2
        } else {
            ORIGINAL[0](w)
        }
    }),
    (0, "2^28 taken for a legal number", |w| {
        ORIGINAL[0](w.map(|x| if x == 1 << 28 { 0 } else { x }))
    }),
    (1, "a sum of 2^28 not wrapped", |w| {
        if w[0].checked_add(w[1]) == Some(1 << 28) {
            1 << 28
        } else {
            ORIGINAL[1](w)
        }
    }),
    (2, "a count of 2^28 or more refused", |w| {
        if w[1] >> 28 != 0 {
            ILLEGAL
        } else {
            ORIGINAL[2](w)
        }
    }),
    (3, "the shorter way round", |w| {
        ORIGINAL[3](w).min(ORIGINAL[3]([w[1], w[0], 0]))
    }),
    (4, "a sum that stops at the last u32", |w| {
        ORIGINAL[4]([w[0].saturating_add(w[1]), 0, w[2]])
    }),
    (6, "what is next not wrapped", |w| {
        one(w[0], |a| a.get().wrapping_add(w[1]))
    }),
    (7, "observe moves to the number itself", |w| {
        two(w[0], w[1], |a, b| match b.wrapping_cmp(a) {
            Ordering::Greater => b.get(),
            _ => a.get(),
        })
    }),
];

#[derive(Default)]
struct Count {
    inputs: u64,
    illegal: u64,
    mismatches: u64,
}

/// Runs both over the inputs, and prints the first mismatches.
fn hold(f: &Function, theirs: Call, inputs: impl Iterator<Item = Words>) -> Count {
    let mut count = Count::default();
    for words in inputs {
        let theirs = theirs(words);
        if theirs == ILLEGAL && !f.refuses {
            continue;
        }
        let ours = (f.call)(words);
        count.inputs += 1;
        count.illegal += u64::from(f.takes == 2 && theirs == ILLEGAL);
        if ours != theirs {
            count.mismatches += 1;
            if count.mismatches <= 10 {
                println!(
                    "MISMATCH {}: original {theirs:#010x}, ours {ours:#010x}",
                    shown(f, words)
                );
            }
        }
    }
    count
}

/// Compares every exported function with the original. True if no answer differs.
pub fn all() -> bool {
    let mut total = Count::default();
    println!(
        "edge inputs: the {} numbers within {SPAN} of 0, 2^27 and 2^28, all with all",
        edges(SPAN).len()
    );
    for (k, (f, theirs)) in EXPORTED.iter().zip(ORIGINAL).enumerate() {
        let seed = SEED + k as u64;
        let mut random = Random(seed);
        let edge = if f.takes == 2 {
            hold(f, theirs, pairs())
        } else {
            hold(f, theirs, pairs().chain(triples()))
        };
        let drawn = hold(f, theirs, (0..RANDOM).map(|_| random.words()));
        println!(
            "{}: {} edge inputs ({} illegal), {} random inputs of seed {seed:#x} ({} illegal), {} mismatches",
            f.name,
            edge.inputs,
            edge.illegal,
            drawn.inputs,
            drawn.illegal,
            edge.mismatches + drawn.mismatches
        );
        for c in [edge, drawn] {
            total.inputs += c.inputs;
            total.illegal += c.illegal;
            total.mismatches += c.mismatches;
        }
    }
    println!(
        "in all: {} inputs ({} illegal), {} mismatches",
        total.inputs, total.illegal, total.mismatches
    );
    let mut caught = 0;
    for (k, what, wrong) in WRONG {
        if pairs().any(|w| wrong(w) != ORIGINAL[k](w)) {
            caught += 1;
        } else {
            println!("NOT CAUGHT, {}: {what}", EXPORTED[k].name);
        }
    }
    println!(
        "wrong functions that the edge inputs catch: {caught} of {}",
        WRONG.len()
    );
    total.mismatches == 0 && caught == WRONG.len()
}

/// Prints the vectors to store: the original's answers alone.
pub fn vectors() {
    println!(
        "# Answers of the original Rust, for runs without it. Made by `oracle/run --store`, from `seq.rs` and `update_prefix` of"
    );
    println!(
        "# `packet.rs` in theorzr/wg-toolkit-rs fc2195d864 alone: the library has no part in it. A line is a call of an exported"
    );
    println!(
        "# function and its answer, or with `:next` what is next in the number source after it. An argument that is no legal number"
    );
    println!(
        "# has no answer in the original: 0x80000002 stands for it, and the number source is not asked."
    );
    println!(
        "# For each function: all pairs of ten edge numbers (five with third words for the prefix), then 15 inputs of a seed."
    );
    const PAIRED: [u32; 10] = [
        0,
        1,
        5,
        0x07FF_FFFF,
        0x0800_0000,
        0x0800_0001,
        0x0FFF_FFFE,
        0x0FFF_FFFF,
        0x1000_0000,
        0xFFFF_FFFF,
    ];
    const SUMMED: [u32; 5] = [0, 1, 0x0800_0000, 0x8000_0000, 0xFFFF_FFFF];
    for (k, (f, theirs)) in EXPORTED.iter().zip(ORIGINAL).enumerate() {
        let mut random = Random(SEED + k as u64);
        let edge: Vec<Words> = if f.takes == 2 {
            product(PAIRED.to_vec(), vec![0]).collect()
        } else {
            product(SUMMED.to_vec(), SUMMED.to_vec()).collect()
        };
        for words in edge.into_iter().chain((0..15).map(|_| random.words())) {
            let theirs = theirs(words);
            if theirs != ILLEGAL || f.refuses {
                println!("{} = {theirs:#010x}", shown(f, words));
            }
        }
    }
}
