//! Holds the proved library's exported functions to the original Rust by running both. `oracle/run` builds and runs it.
//!
//!     compare replay FILE    the stored vectors
//!     compare all            every function against the original (where it was built in)
//!     compare vectors        prints the vectors to store (where it was built in)

mod library;
mod vectors;

#[cfg(original)]
mod compare;
#[cfg(original)]
mod inputs;
#[cfg(original)]
#[allow(dead_code)]
mod original;

fn main() {
    let words: Vec<String> = std::env::args().skip(1).collect();
    let words: Vec<&str> = words.iter().map(String::as_str).collect();
    let same = match words[..] {
        ["replay", path] => vectors::replay(path),
        #[cfg(original)]
        ["all"] => Ok(compare::all()),
        #[cfg(original)]
        ["vectors"] => {
            compare::vectors();
            Ok(true)
        }
        _ => Err("usage: compare replay FILE | all | vectors".to_string()),
    };
    match same {
        Ok(true) => (),
        Ok(false) => std::process::exit(1),
        Err(said) => {
            eprintln!("compare: {said}");
            std::process::exit(2)
        }
    }
}
