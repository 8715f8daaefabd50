//! A stand-in for the original's `util`, of which the text given has `io` alone.

pub mod io;

use std::fmt;

/// Bytes, shown as text where they are.
pub struct AsciiFmt<'a>(pub &'a [u8]);

impl fmt::Debug for AsciiFmt<'_> {
    fn fmt(&self, f: &mut fmt::Formatter<'_>) -> fmt::Result {
        write!(f, "{}", self.0.escape_ascii())
    }
}

/// At most so many characters of what is shown.
pub struct TruncateFmt<'a, F: ?Sized>(pub &'a F, pub usize);

impl<F: fmt::Display + ?Sized> fmt::Display for TruncateFmt<'_, F> {
    fn fmt(&self, f: &mut fmt::Formatter<'_>) -> fmt::Result {
        self.0.to_string().chars().take(self.1).try_for_each(|c| write!(f, "{c}"))
    }
}
