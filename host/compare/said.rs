//! What the original says: the texts of its messages, which tell why it rejects a packet and which of its rules it follows.

#[cfg(listening)]
mod kept {
    use std::cell::RefCell;

    thread_local! {
        static SAID: RefCell<Vec<&'static str>> = const { RefCell::new(Vec::new()) };
    }

    pub fn say(text: &'static str) {
        SAID.with_borrow_mut(|said| said.push(text));
    }

    /// Hands each message since the last asking on, in order.
    pub fn each(mut f: impl FnMut(&'static str)) {
        SAID.with_borrow_mut(|said| said.drain(..).for_each(&mut f));
    }
}

#[cfg(listening)]
pub use kept::{each, say};

/// Where nobody listens.
#[cfg(not(listening))]
#[inline(always)]
pub fn say(_: &'static str) {}

#[cfg(not(listening))]
pub fn each(_: impl FnMut(&'static str)) {}

/// A span that nobody watches.
pub struct Span;

impl Span {
    pub fn entered(self) {}
}

/// The original's rejections and their numbers in 01.
pub const REJECTIONS: [(&str, u32); 5] = [
    ("Outdated, expected v{current_version}", 5),
    ("Cumulative ack is not supported off-channel", 6),
    ("Last reliable sequence is not support with reliable", 7),
    ("Invalid last reliable sequence number, expected: {}, got: {}", 8),
    ("Last reliable sequence is not supported off-channel", 9),
];
