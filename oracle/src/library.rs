//! The functions that the proved library exports.

#[link(name = "seq_c", kind = "static")]
unsafe extern "C" {
    safe fn relay_seq_compare(a: u32, b: u32) -> u32;
    safe fn relay_seq_add(a: u32, n: u32) -> u32;
    safe fn relay_seq_sub(a: u32, n: u32) -> u32;
    safe fn relay_seq_distance(a: u32, b: u32) -> u32;
    safe fn relay_prefix_sum(offset: u32, p0: u32, p1: u32) -> u32;
}

/// The number source as it is lent.
#[repr(C)]
struct SeqAlloc {
    next: u32,
}

unsafe extern "C" {
    safe fn relay_alloc(a: &mut SeqAlloc, count: u32) -> u32;
    safe fn relay_observe(a: &mut SeqAlloc, num: u32);
}

/// What is next after a call.
fn next_after(next: u32, call: impl Fn(&mut SeqAlloc)) -> u32 {
    let mut a = SeqAlloc { next };
    call(&mut a);
    a.next
}

/// The arguments of a call. A function of two does not look at the third.
pub type Words = [u32; 3];

pub type Call = fn(Words) -> u32;

pub struct Function {
    pub name: &'static str,
    /// How many words it takes.
    pub takes: usize,
    /// Whether it refuses a number that is not legal. One that does not is not asked about such a number, which the original cannot hold.
    pub refuses: bool,
    pub call: Call,
}

pub const EXPORTED: [Function; 8] = [
    Function {
        name: "relay_seq_compare",
        takes: 2,
        refuses: true,
        call: |w| relay_seq_compare(w[0], w[1]),
    },
    Function {
        name: "relay_seq_add",
        takes: 2,
        refuses: true,
        call: |w| relay_seq_add(w[0], w[1]),
    },
    Function {
        name: "relay_seq_sub",
        takes: 2,
        refuses: true,
        call: |w| relay_seq_sub(w[0], w[1]),
    },
    Function {
        name: "relay_seq_distance",
        takes: 2,
        refuses: true,
        call: |w| relay_seq_distance(w[0], w[1]),
    },
    Function {
        name: "relay_prefix_sum",
        takes: 3,
        refuses: true,
        call: |w| relay_prefix_sum(w[0], w[1], w[2]),
    },
    Function {
        name: "relay_alloc",
        takes: 2,
        refuses: false,
        call: |w| relay_alloc(&mut SeqAlloc { next: w[0] }, w[1]),
    },
    Function {
        name: "relay_alloc:next",
        takes: 2,
        refuses: false,
        call: |w| next_after(w[0], |a| _ = relay_alloc(a, w[1])),
    },
    Function {
        name: "relay_observe:next",
        takes: 2,
        refuses: false,
        call: |w| next_after(w[0], |a| relay_observe(a, w[1])),
    },
];

/// A call as it is printed and stored.
pub fn shown(f: &Function, words: Words) -> String {
    let words: String = words[..f.takes]
        .iter()
        .map(|w| format!(" {w:#010x}"))
        .collect();
    format!("{}{words}", f.name)
}
