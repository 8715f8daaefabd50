//! The proved relay for a Rust host: [`net::proto`] has the names of wg-toolkit's `proto.rs`, over `libdoor.a`. See host/README.md.

#[allow(unused, clippy::all)]
mod pickle;
#[allow(unused, clippy::all)]
pub mod util;

pub mod net {
    #[allow(unused, clippy::all)]
    pub mod bundle;
    #[allow(unused, clippy::all)]
    pub mod codec;
    #[allow(unused, clippy::all)]
    pub mod element;
    #[allow(unused, clippy::all)]
    pub mod packet;
    pub mod proto;
    #[allow(unused, clippy::all)]
    pub mod seq;

    /// The original, to compare with.
    #[cfg(test)]
    #[allow(unused, clippy::all)]
    pub mod original;
}

#[cfg(test)]
mod tests;
