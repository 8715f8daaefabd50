//! The stored vectors: answers that the original gave, held to the library's with no original at hand.

use crate::library::{EXPORTED, Words};

fn number(word: &str) -> Option<u32> {
    u32::from_str_radix(word.strip_prefix("0x")?, 16).ok()
}

/// Replays a file of vectors. True if every answer is the library's.
pub fn replay(path: &str) -> Result<bool, String> {
    let text = std::fs::read_to_string(path).map_err(|e| format!("{path}: {e}"))?;
    let mut counts = [0; EXPORTED.len()];
    let mut same = true;
    for vector in text
        .lines()
        .filter(|l| !l.is_empty() && !l.starts_with('#'))
    {
        let unreadable = || format!("{path}: cannot read: {vector}");
        let (call, answer) = vector.split_once(" = ").ok_or_else(unreadable)?;
        let mut parts = call.split(' ');
        let name = parts.next();
        let at = EXPORTED
            .iter()
            .position(|f| Some(f.name) == name)
            .ok_or_else(unreadable)?;
        let numbers: Option<Vec<u32>> = parts.map(number).collect();
        let (numbers, answer) = numbers.zip(number(answer)).ok_or_else(unreadable)?;
        let f = &EXPORTED[at];
        if numbers.len() != f.takes {
            return Err(unreadable());
        }
        let mut words: Words = [0; 3];
        words[..f.takes].copy_from_slice(&numbers);
        let ours = (f.call)(words);
        if ours != answer {
            println!("MISMATCH {call}: stored {answer:#010x}, ours {ours:#010x}");
            same = false;
        }
        counts[at] += 1;
    }
    for (f, count) in EXPORTED.iter().zip(counts) {
        if count == 0 {
            return Err(format!("{path}: no vector of {}", f.name));
        }
        println!("{}: {count} stored vectors", f.name);
    }
    Ok(same)
}
