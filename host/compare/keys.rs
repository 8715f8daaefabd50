//! Keys and bytes, as the original's added module needs them.

use std::net::SocketAddr;
use std::num::NonZero;

/// A channel's key, as the original has it.
#[derive(Debug, Clone, Copy, PartialEq, Eq, PartialOrd, Ord)]
pub enum Key {
    Off(SocketAddr),
    On(SocketAddr, Option<NonZero<u32>>),
}

pub fn shown(addr: &SocketAddr) -> u32 {
    match addr {
        SocketAddr::V4(addr) => (*addr.ip()).into(),
        SocketAddr::V6(_) => unreachable!("addresses here are numbers"),
    }
}

/// Whether two values have the same bytes, padding too: a fast test that may only be wrong by saying no.
pub fn same_bytes<T>(a: &T, b: &T) -> bool {
    unsafe extern "C" {
        fn memcmp(a: *const u8, b: *const u8, n: usize) -> i32;
    }
    // SAFETY: both are whole values of that size.
    unsafe { memcmp((a as *const T).cast(), (b as *const T).cast(), size_of::<T>()) == 0 }
}
