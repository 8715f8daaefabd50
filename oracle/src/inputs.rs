//! What the functions are tried on.

use crate::library::Words;

/// How far from 0, 2^27 and 2^28 the numbers lie whose pairs are tried, all with all.
pub const SPAN: u32 = 500;

/// Every u32 within `span` of 0, 2^27 and 2^28.
pub fn edges(span: u32) -> Vec<u32> {
    let about =
        |centre: u32| (0..=2 * span).map(move |k| centre.wrapping_sub(span).wrapping_add(k));
    [0, 1 << 27, 1 << 28].into_iter().flat_map(about).collect()
}

/// All pairs of edges; a third word is 0.
pub fn pairs() -> impl Iterator<Item = Words> {
    product(edges(SPAN), vec![0])
}

/// All triples of edges nearer by.
pub fn triples() -> impl Iterator<Item = Words> {
    let near = edges(20);
    near.clone()
        .into_iter()
        .flat_map(move |c| product(near.clone(), vec![c]))
}

/// All pairs of `numbers`, each with every third word.
pub fn product(numbers: Vec<u32>, thirds: Vec<u32>) -> impl Iterator<Item = Words> {
    let count = numbers.len();
    (0..count * count).flat_map(move |k| {
        let (a, b) = (numbers[k / count], numbers[k % count]);
        thirds.clone().into_iter().map(move |c| [a, b, c])
    })
}

/// A seeded generator of 64-bit words (SplitMix64).
pub struct Random(pub u64);

impl Random {
    fn word(&mut self) -> u64 {
        self.0 = self.0.wrapping_add(0x9E37_79B9_7F4A_7C15);
        let z = (self.0 ^ (self.0 >> 30)).wrapping_mul(0xBF58_476D_1CE4_E5B9);
        let z = (z ^ (z >> 27)).wrapping_mul(0x94D0_49BB_1331_11EB);
        z ^ (z >> 31)
    }

    /// A legal number, one in eight times any u32.
    fn number(&mut self) -> u32 {
        let w = self.word();
        if w >> 61 == 0 {
            w as u32
        } else {
            w as u32 & 0x0FFF_FFFF
        }
    }

    /// A number, and two that lie near it, near half the circle from it, or anywhere.
    pub fn words(&mut self) -> Words {
        let a = self.number();
        let mut other = || {
            let (b, w) = (self.number(), self.word());
            let near = (w as u32 & 0xFF).wrapping_sub(0x80);
            match w >> 62 {
                0 => a.wrapping_add(near) & 0x0FFF_FFFF,
                1 => a.wrapping_add(1 << 27).wrapping_add(near) & 0x0FFF_FFFF,
                2 => w as u32,
                _ => b,
            }
        };
        [a, other(), other()]
    }
}
