//! How often each rule, refusal and limit was reached.

use std::collections::{BTreeMap, HashMap};

use crate::said::REJECTIONS;

#[derive(Default)]
pub struct Counts {
    /// By the address of the text: texts are the program's own.
    hits: HashMap<usize, (&'static str, u64, u32), Fast>,
}

#[derive(Default, Clone)]
pub struct Fast;

impl std::hash::BuildHasher for Fast {
    type Hasher = One;
    fn build_hasher(&self) -> One {
        One(0)
    }
}

pub struct One(u64);

impl std::hash::Hasher for One {
    fn finish(&self) -> u64 {
        self.0
    }
    fn write(&mut self, _: &[u8]) {
        unreachable!("an address is one word")
    }
    fn write_usize(&mut self, n: usize) {
        self.0 = (n as u64).wrapping_mul(0x9E37_79B9_7F4A_7C15);
    }
}

impl Counts {
    /// Counts a text. Answers 01's number where it is one of the original's rejections, else 0.
    pub fn hit(&mut self, text: &'static str) -> u32 {
        let entry = self.hits.entry(text.as_ptr() as usize).or_insert_with(|| {
            let number = REJECTIONS.iter().find(|(said, _)| *said == text).map_or(0, |r| r.1);
            (text, 0, number)
        });
        entry.1 += 1;
        entry.2
    }

    pub fn add(&mut self, other: &Counts) {
        for (&at, &(text, n, number)) in &other.hits {
            self.hits.entry(at).or_insert((text, 0, number)).1 += n;
        }
    }

    pub fn by_text(&self) -> BTreeMap<&'static str, u64> {
        let mut texts = BTreeMap::new();
        for (text, n, _) in self.hits.values() {
            *texts.entry(*text).or_insert(0) += n;
        }
        texts
    }
}
