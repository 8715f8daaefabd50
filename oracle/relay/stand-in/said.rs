//! What the original has said: the texts of its messages, which name its reason where it rejects a packet.

use std::cell::RefCell;

thread_local! {
    static SAID: RefCell<Vec<&'static str>> = const { RefCell::new(Vec::new()) };
}

pub fn say(text: &'static str) {
    SAID.with_borrow_mut(|said| said.push(text));
}

/// A span that nobody watches.
pub struct Span;

impl Span {
    pub fn entered(self) {}
}

/// The original's rejections and their numbers in 01.
const REJECTIONS: [(&str, u32); 5] = [
    ("Outdated, expected v{current_version}", 5),
    ("Cumulative ack is not supported off-channel", 6),
    ("Last reliable sequence is not support with reliable", 7),
    (
        "Invalid last reliable sequence number, expected: {}, got: {}",
        8,
    ),
    ("Last reliable sequence is not supported off-channel", 9),
];

/// The numbers of the rejections since the last asking, in order.
pub fn rejections() -> Vec<u32> {
    let number = |text| {
        REJECTIONS
            .iter()
            .find(|(said, _)| *said == text)
            .map(|&(_, n)| n)
    };
    SAID.take().into_iter().filter_map(number).collect()
}
